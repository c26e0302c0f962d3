/* SPDX-License-Identifier: MIT
 * The texts and samples that stand in the program, each from its label to that which ends in _end. */
    .section .rodata
    .macro text name, file
    .globl \name
    .globl \name\()_end
\name:
    .incbin "\file"
\name\()_end:
    .endm
    text all_help, "programs/undrwyth.txt"
    text common_help, "programs/common.txt"
    text records_help, "programs/records.txt"
    text judge_help, "programs/judge.txt"
    text convert_help, "programs/convert.txt"
    text rows_help, "programs/rows.txt"
    text polygons_help, "programs/polygons.txt"
    text explain_help, "programs/explain.txt"
    text summary_help, "programs/summary.txt"
    text draw_help, "programs/draw.txt"
    text dxf_help, "programs/dxf.txt"
    text chains_help, "programs/chains.txt"
    text outline_help, "programs/outline.txt"
    text hull_help, "programs/hull.txt"
    text convex_help, "programs/convex.txt"
    text orthogonal_help, "programs/orthogonal.txt"
    text spans_help, "programs/spans.txt"
    text overlay_help, "programs/overlay.txt"
    text table_help, "programs/table.txt"
    text parts_help, "programs/parts.txt"
    text orders_help, "programs/orders.txt"
    text orders_table, "sqlite/orders.sql"
    text records_sample, "samples/records.txt"
    text old_records_sample, "samples/old-records.txt"
    text rooms_sample, "samples/rooms.txt"
    text picture_sample, "samples/picture.txt"
    text polygons_sample, "samples/polygons.txt"
    text orders_sample, "samples/orders.txt"
    text landlord_sample, "samples/landlord.txt"
    text tenant_sample, "samples/tenant.txt"
    .section .note.GNU-stack, "", %progbits
