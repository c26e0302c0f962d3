/* SPDX-License-Identifier: MIT
 * The parts of the page that stand in the program, each from its label to that which ends in _end. */
    .section .rodata
    .macro text name, file
    .globl \name
    .globl \name\()_end
\name:
    .incbin "\file"
\name\()_end:
    .endm
    text page_help, "programs/page.txt"
    text page_template, "web/page.html"
    text page_style, "web/page.css"
    text page_undrwyth, "web/undrwyth.js"
    text page_words, "web/words.js"
    text page_picture, "web/picture.js"
    text page_save, "web/save.js"
    text page_record, "web/record.js"
    text page_parts, "web/parts.js"
    text page_sheet, "web/sheet.js"
    text page_walk, "web/walk.js"
    text page_list, "web/list.js"
    text page_rooms, "web/rooms.js"
    text page_tenants, "web/tenants.js"
    text page_page, "web/page.js"
    text page_module, "dist/wasm/undrwyth32.wasm"
    .section .note.GNU-stack, "", %progbits
