/* Undrwyth, the library for aarch64 under Linux: made by scripts/dist from the sources of state 6ebe34014c5cbdcaab53ada40270abd81a24510c61112a54dce22a0a74dc2a61, which the Rattle kit proved; do not edit. SPDX-License-Identifier: MIT */
	.file	"rattle"
	.section	".text.line_convert::convert_frame","ax",@progbits
	.p2align	2
	.type	"line_convert::convert_frame",@function
"line_convert::convert_frame":
	stp	x29, x30, [sp, #-64]!
	str	x28, [sp, #16]
	mov	x29, sp
	stp	x22, x21, [sp, #32]
	stp	x20, x19, [sp, #48]
	sub	sp, sp, #2048
	mov	x20, x2
	mov	x21, x1
	mov	x22, x0
	add	x0, sp, #1024
	mov	w1, wzr
	mov	w2, #1024
	str	xzr, [sp]
	mov	x19, x3
	bl	memset
	subs	x8, x21, #6
	b.eq	.LBB0_14
	cmp	x8, #8
	b.hs	.LBB0_3
	mov	x9, xzr
	b	.LBB0_12
.LBB0_3:
	cmp	x8, #32
	b.hs	.LBB0_5
	mov	x9, xzr
	b	.LBB0_9
.LBB0_5:
	add	x11, sp, #1024
	and	x10, x8, #0x18
	and	x9, x8, #0xffffffffffffffe0
	add	x11, x11, #16
	add	x12, x22, #22
	and	x13, x8, #0xffffffffffffffe0
.LBB0_6:
	movi	v0.16b, #58
	ldp	q1, q2, [x12, #-16]
	movi	v3.16b, #169
	movi	v4.16b, #208
	subs	x13, x13, #32
	add	x12, x12, #32
	cmhi	v5.16b, v0.16b, v1.16b
	cmhi	v0.16b, v0.16b, v2.16b
	bsl	v5.16b, v4.16b, v3.16b
	bsl	v0.16b, v4.16b, v3.16b
	add	v1.16b, v5.16b, v1.16b
	add	v0.16b, v0.16b, v2.16b
	stp	q1, q0, [x11, #-16]
	add	x11, x11, #32
	b.ne	.LBB0_6
	cmp	x8, x9
	b.eq	.LBB0_14
	cbz	x10, .LBB0_12
.LBB0_9:
	mov	x11, x9
	and	x9, x8, #0xfffffffffffffff8
	add	x12, sp, #1024
	add	x13, x11, x22
	sub	x10, x11, x9
	add	x11, x12, x11
	add	x12, x13, #6
.LBB0_10:
	movi	v0.8b, #58
	ldr	d1, [x12], #8
	movi	v2.8b, #169
	movi	v3.8b, #208
	adds	x10, x10, #8
	cmhi	v0.8b, v0.8b, v1.8b
	bsl	v0.8b, v3.8b, v2.8b
	add	v0.8b, v0.8b, v1.8b
	str	d0, [x11], #8
	b.ne	.LBB0_10
	cmp	x8, x9
	b.eq	.LBB0_14
.LBB0_12:
	sub	x8, x21, x9
	add	x10, sp, #1024
	add	x11, x9, x22
	sub	x8, x8, #6
	add	x9, x10, x9
	add	x10, x11, #6
.LBB0_13:
	ldrb	w11, [x10], #1
	mov	w12, #-87
	mov	w13, #-48
	cmp	w11, #58
	csel	w12, w13, w12, lo
	subs	x8, x8, #1
	add	w11, w12, w11
	strb	w11, [x9], #1
	b.ne	.LBB0_13
.LBB0_14:
	mov	x0, sp
	mov	w1, wzr
	mov	w2, #1024
	bl	memset
	cmp	x20, #8, lsl #12
	b.hi	.LBB0_38
	cbz	x20, .LBB0_35
	cmp	x20, #4
	b.hs	.LBB0_18
	mov	w9, wzr
	mov	x8, xzr
	b	.LBB0_27
.LBB0_18:
	cmp	x20, #32
	b.hs	.LBB0_20
	mov	x8, xzr
	mov	w9, wzr
	b	.LBB0_24
.LBB0_20:
	movi	v0.2d, #0000000000000000
	movi	v1.2d, #0000000000000000
	add	x9, sp, #1024
	and	x10, x20, #0x1c
	and	x8, x20, #0xffe0
	add	x9, x9, #16
	and	x11, x20, #0xffe0
.LBB0_21:
	ldp	q2, q3, [x9, #-16]
	subs	x11, x11, #32
	add	x9, x9, #32
	umax	v0.16b, v2.16b, v0.16b
	umax	v1.16b, v3.16b, v1.16b
	b.ne	.LBB0_21
	umax	v0.16b, v0.16b, v1.16b
	cmp	x20, x8
	umaxv	b0, v0.16b
	fmov	w9, s0
	b.eq	.LBB0_29
	cbz	x10, .LBB0_27
.LBB0_24:
	dup	v0.4h, w9
	mov	x10, x8
	and	x8, x20, #0xfffc
	add	x11, sp, #1024
	sub	x9, x10, x8
	add	x10, x11, x10
.LBB0_25:
	ldr	s1, [x10], #4
	bic	v0.4h, #255, lsl #8
	adds	x9, x9, #4
	ushll	v1.8h, v1.8b, #0
	umax	v0.4h, v1.4h, v0.4h
	b.ne	.LBB0_25
	umaxv	h0, v0.4h
	cmp	x20, x8
	fmov	w9, s0
	b.eq	.LBB0_29
.LBB0_27:
	add	x11, sp, #1024
	sub	x10, x20, x8
	add	x8, x11, x8
.LBB0_28:
	ldrb	w11, [x8], #1
	and	w9, w9, #0xff
	cmp	w11, w9
	csel	w9, w11, w9, hi
	subs	x10, x10, #1
	b.ne	.LBB0_28
.LBB0_29:
	and	w8, w9, #0xff
	cmp	w8, #4
	b.lo	.LBB0_33
	add	x8, sp, #1024
	mov	x9, x20
.LBB0_31:
	ldrb	w10, [x8], #1
	cmp	w10, #3
	b.hi	.LBB0_38
	subs	x9, x9, #1
	b.ne	.LBB0_31
.LBB0_33:
	mov	w8, wzr
	mov	x9, sp
	add	x10, sp, #1024
	mov	x11, x20
.LBB0_34:
	ldrb	w12, [x10], #1
	subs	x11, x11, #1
	add	w8, w12, w8
	and	w8, w8, #0x3
	strb	w8, [x9], #1
	b.ne	.LBB0_34
.LBB0_35:
	mov	w11, #48
	mov	w8, #12336
	and	w10, w20, #0xf
	bfxil	w11, w20, #0, #4
	and	w9, w20, #0xff
	strh	w8, [x19]
	ubfx	w8, w20, #4, #4
	add	w12, w10, #87
	cmp	w10, #10
	mov	w10, #48
	csel	w11, w11, w12, lo
	mov	w12, #48
	bfxil	w10, w20, #4, #4
	cmp	w9, #160
	ubfx	w9, w20, #8, #4
	add	w8, w8, #87
	bfxil	w12, w20, #8, #4
	strb	w11, [x19, #5]
	csel	w8, w10, w8, lo
	add	w10, w9, #87
	cmp	w9, #10
	lsr	w9, w20, #12
	strb	w8, [x19, #4]
	csel	w8, w12, w10, lo
	strb	w8, [x19, #3]
	orr	w8, w9, #0x30
	strb	w8, [x19, #2]
	cbz	x20, .LBB0_60
	cmp	x20, #8
	b.hs	.LBB0_43
	mov	x8, xzr
	b	.LBB0_58
.LBB0_38:
	cbz	x21, .LBB0_63
	cmp	x21, #8
	mov	x8, xzr
	b.lo	.LBB0_61
	sub	x9, x19, x22
	cmp	x9, #32
	b.lo	.LBB0_61
	cmp	x21, #32
	b.hs	.LBB0_45
	mov	x8, xzr
	b	.LBB0_49
.LBB0_43:
	cmp	x20, #32
	b.hs	.LBB0_51
	mov	x8, xzr
	b	.LBB0_55
.LBB0_45:
	and	x9, x21, #0x18
	and	x8, x21, #0xffffffffffffffe0
	add	x10, x19, #16
	add	x11, x22, #16
	and	x12, x21, #0xffffffffffffffe0
.LBB0_46:
	ldp	q0, q1, [x11, #-16]
	subs	x12, x12, #32
	add	x11, x11, #32
	stp	q0, q1, [x10, #-16]
	add	x10, x10, #32
	b.ne	.LBB0_46
	cmp	x21, x8
	b.eq	.LBB0_63
	cbz	x9, .LBB0_61
.LBB0_49:
	mov	x11, x8
	and	x8, x21, #0xfffffffffffffff8
	sub	x9, x11, x8
	add	x10, x19, x11
	add	x11, x22, x11
.LBB0_50:
	ldr	d0, [x11], #8
	adds	x9, x9, #8
	str	d0, [x10], #8
	b.ne	.LBB0_50
	b	.LBB0_62
.LBB0_51:
	mov	x11, sp
	and	x9, x20, #0x18
	and	x8, x20, #0xffe0
	add	x10, x19, #22
	add	x11, x11, #16
	and	x12, x20, #0xffe0
.LBB0_52:
	movi	v0.16b, #10
	movi	v1.16b, #48
	subs	x12, x12, #32
	movi	v2.16b, #87
	ldp	q3, q4, [x11, #-16]
	add	x11, x11, #32
	cmhi	v5.16b, v0.16b, v3.16b
	orr	v6.16b, v3.16b, v1.16b
	cmhi	v0.16b, v0.16b, v4.16b
	add	v3.16b, v3.16b, v2.16b
	orr	v1.16b, v4.16b, v1.16b
	add	v2.16b, v4.16b, v2.16b
	bit	v3.16b, v6.16b, v5.16b
	bsl	v0.16b, v1.16b, v2.16b
	stp	q3, q0, [x10, #-16]
	add	x10, x10, #32
	b.ne	.LBB0_52
	cmp	x20, x8
	b.eq	.LBB0_60
	cbz	x9, .LBB0_58
.LBB0_55:
	mov	x11, x8
	and	x8, x20, #0xfff8
	mov	x12, sp
	add	x10, x11, x19
	sub	x9, x11, x8
	add	x11, x12, x11
	add	x10, x10, #6
.LBB0_56:
	movi	v0.8b, #10
	movi	v1.8b, #48
	adds	x9, x9, #8
	movi	v2.8b, #87
	ldr	d3, [x11], #8
	cmhi	v0.8b, v0.8b, v3.8b
	orr	v1.8b, v3.8b, v1.8b
	add	v2.8b, v3.8b, v2.8b
	bsl	v0.8b, v1.8b, v2.8b
	str	d0, [x10], #8
	b.ne	.LBB0_56
	cmp	x20, x8
	b.eq	.LBB0_60
.LBB0_58:
	add	x10, x8, x19
	mov	x11, sp
	sub	x9, x20, x8
	add	x10, x10, #6
	add	x8, x11, x8
.LBB0_59:
	ldrb	w11, [x8], #1
	orr	w12, w11, #0x30
	add	w13, w11, #87
	cmp	w11, #10
	csel	w11, w12, w13, lo
	subs	x9, x9, #1
	strb	w11, [x10], #1
	b.ne	.LBB0_59
.LBB0_60:
	add	x21, x20, #6
	b	.LBB0_63
.LBB0_61:
	ldrb	w9, [x22, x8]
	strb	w9, [x19, x8]
	add	x8, x8, #1
.LBB0_62:
	cmp	x21, x8
	b.ne	.LBB0_61
.LBB0_63:
	mov	x0, x21
	add	sp, sp, #2048
	ldp	x20, x19, [sp, #48]
	ldr	x28, [sp, #16]
	ldp	x22, x21, [sp, #32]
	ldp	x29, x30, [sp], #64
	ret
.Lfunc_end0:
	.size	"line_convert::convert_frame", .Lfunc_end0-"line_convert::convert_frame"

	.section	".text.room_map::is_room_in","ax",@progbits
	.p2align	2
	.type	"room_map::is_room_in",@function
"room_map::is_room_in":
	cmp	x1, #4
	b.lo	.LBB1_7
	ldrb	w8, [x2, #24]
	tbz	w8, #0, .LBB1_7
	sub	sp, sp, #320
	ldp	x3, x8, [x2]
	ldr	x2, [x2, #16]
	stp	x29, x30, [sp, #288]
	add	x29, sp, #288
	str	x28, [sp, #304]
	mul	x8, x8, x3
	cmp	x8, #256
	b.hi	.LBB1_8
	movi	v0.2d, #0000000000000000
	mov	w8, #1
	neg	x9, x3
	stp	x8, x3, [x29, #-32]
	mov	x8, #-1
	stp	x8, x9, [x29, #-16]
	stp	q0, q0, [sp]
	stp	q0, q0, [sp, #32]
	stp	q0, q0, [sp, #64]
	stp	q0, q0, [sp, #96]
	stp	q0, q0, [sp, #128]
	stp	q0, q0, [sp, #160]
	stp	q0, q0, [sp, #192]
	stp	q0, q0, [sp, #224]
.LBB1_4:
	mov	x9, sp
	ldrb	w10, [x9, x2]
	cmp	w10, #0
	cset	w8, eq
	cbnz	w10, .LBB1_6
	ldrb	w10, [x0], #1
	sub	x11, x29, #32
	subs	x1, x1, #1
	ldr	x10, [x11, x10, lsl #3]
	mov	w11, #1
	strb	w11, [x9, x2]
	add	x2, x10, x2
	b.ne	.LBB1_4
.LBB1_6:
	ldp	x29, x30, [sp, #288]
	ldr	x28, [sp, #304]
	add	sp, sp, #320
	mov	w0, w8
	ret
.LBB1_7:
	mov	w0, wzr
	ret
.LBB1_8:
	cmp	x8, #2048
	b.hi	.LBB1_10
	bl	"room_map::lone_sized::<=2048>"
	ldp	x29, x30, [sp, #288]
	ldr	x28, [sp, #304]
	add	sp, sp, #320
	ret
.LBB1_10:
	cmp	x1, #257
	b.lo	.LBB1_13
	cmp	x8, #4, lsl #12
	b.hi	.LBB1_13
	bl	"room_map::lone_sized::<=16384>"
	ldp	x29, x30, [sp, #288]
	ldr	x28, [sp, #304]
	add	sp, sp, #320
	ret
.LBB1_13:
	cmp	x1, #2049
	b.lo	.LBB1_16
	cmp	x8, #32, lsl #12
	b.hi	.LBB1_16
	bl	"room_map::lone_sized::<=131072>"
	ldp	x29, x30, [sp, #288]
	ldr	x28, [sp, #304]
	add	sp, sp, #320
	ret
.LBB1_16:
	bl	"room_threads::is_room"
	ldp	x29, x30, [sp, #288]
	ldr	x28, [sp, #304]
	add	sp, sp, #320
	ret
.Lfunc_end1:
	.size	"room_map::is_room_in", .Lfunc_end1-"room_map::is_room_in"

	.section	".text.room_map::lone_sized::<=2048>","ax",@progbits
	.p2align	2
	.type	"room_map::lone_sized::<=2048>",@function
"room_map::lone_sized::<=2048>":
	stp	x29, x30, [sp, #-64]!
	str	x28, [sp, #16]
	mov	x29, sp
	stp	x22, x21, [sp, #32]
	stp	x20, x19, [sp, #48]
	sub	sp, sp, #2080
	mov	w8, #1
	str	xzr, [sp]
	mov	x19, x2
	mov	x20, x1
	mov	x21, x0
	stp	x8, x3, [x29, #-32]
	mov	x8, #-1
	neg	x9, x3
	mov	x0, sp
	mov	w1, wzr
	mov	w2, #2048
	stp	x8, x9, [x29, #-16]
	mov	x22, sp
	bl	memset
.LBB2_1:
	ldrb	w8, [x22, x19]
	cbnz	w8, .LBB2_3
	ldrb	w9, [x21], #1
	sub	x10, x29, #32
	subs	x20, x20, #1
	mov	w11, #1
	ldr	x9, [x10, x9, lsl #3]
	mov	x10, sp
	strb	w11, [x10, x19]
	add	x19, x9, x19
	b.ne	.LBB2_1
.LBB2_3:
	cmp	w8, #0
	cset	w0, eq
	add	sp, sp, #2080
	ldp	x20, x19, [sp, #48]
	ldr	x28, [sp, #16]
	ldp	x22, x21, [sp, #32]
	ldp	x29, x30, [sp], #64
	ret
.Lfunc_end2:
	.size	"room_map::lone_sized::<=2048>", .Lfunc_end2-"room_map::lone_sized::<=2048>"

	.section	".text.room_map::lone_sized::<=16384>","ax",@progbits
	.p2align	2
	.type	"room_map::lone_sized::<=16384>",@function
"room_map::lone_sized::<=16384>":
	stp	x29, x30, [sp, #-64]!
	sub	x9, sp, #3, lsl #12
	str	x28, [sp, #16]
	mov	x29, sp
	sub	x9, x9, #3072
	stp	x22, x21, [sp, #32]
	stp	x20, x19, [sp, #48]
.LBB3_1:
	sub	sp, sp, #3072
	cmp	sp, x9
	str	xzr, [sp]
	b.ne	.LBB3_1
	sub	sp, sp, #1056
	mov	w8, #1
	str	xzr, [sp]
	mov	x19, x2
	mov	x20, x1
	mov	x21, x0
	stp	x8, x3, [x29, #-32]
	mov	x8, #-1
	neg	x9, x3
	mov	x0, sp
	mov	w1, wzr
	mov	w2, #16384
	stp	x8, x9, [x29, #-16]
	mov	x22, sp
	bl	memset
.LBB3_3:
	ldrb	w8, [x22, x19]
	cbnz	w8, .LBB3_5
	ldrb	w9, [x21], #1
	sub	x10, x29, #32
	subs	x20, x20, #1
	mov	w11, #1
	ldr	x9, [x10, x9, lsl #3]
	mov	x10, sp
	strb	w11, [x10, x19]
	add	x19, x9, x19
	b.ne	.LBB3_3
.LBB3_5:
	cmp	w8, #0
	cset	w0, eq
	add	sp, sp, #4, lsl #12
	add	sp, sp, #32
	ldp	x20, x19, [sp, #48]
	ldr	x28, [sp, #16]
	ldp	x22, x21, [sp, #32]
	ldp	x29, x30, [sp], #64
	ret
.Lfunc_end3:
	.size	"room_map::lone_sized::<=16384>", .Lfunc_end3-"room_map::lone_sized::<=16384>"

	.section	".text.room_map::lone_sized::<=131072>","ax",@progbits
	.p2align	2
	.type	"room_map::lone_sized::<=131072>",@function
"room_map::lone_sized::<=131072>":
	stp	x29, x30, [sp, #-64]!
	sub	x9, sp, #31, lsl #12
	str	x28, [sp, #16]
	mov	x29, sp
	sub	x9, x9, #2048
	stp	x22, x21, [sp, #32]
	stp	x20, x19, [sp, #48]
.LBB4_1:
	sub	sp, sp, #3072
	cmp	sp, x9
	str	xzr, [sp]
	b.ne	.LBB4_1
	sub	sp, sp, #2080
	sub	x8, x29, #32
	mov	w9, #1
	str	xzr, [sp]
	mov	x19, x2
	mov	x20, x1
	mov	x21, x0
	stp	x9, x3, [x8]
	mov	x9, #-1
	neg	x10, x3
	mov	x0, sp
	mov	w1, wzr
	mov	w2, #131072
	stp	x9, x10, [x8, #16]
	mov	x22, sp
	bl	memset
.LBB4_3:
	ldrb	w8, [x22, x19]
	cbnz	w8, .LBB4_5
	ldrb	w9, [x21], #1
	sub	x10, x29, #32
	subs	x20, x20, #1
	mov	w11, #1
	ldr	x9, [x10, x9, lsl #3]
	mov	x10, sp
	strb	w11, [x10, x19]
	add	x19, x9, x19
	b.ne	.LBB4_3
.LBB4_5:
	cmp	w8, #0
	cset	w0, eq
	add	sp, sp, #32, lsl #12
	add	sp, sp, #32
	ldp	x20, x19, [sp, #48]
	ldr	x28, [sp, #16]
	ldp	x22, x21, [sp, #32]
	ldp	x29, x30, [sp], #64
	ret
.Lfunc_end4:
	.size	"room_map::lone_sized::<=131072>", .Lfunc_end4-"room_map::lone_sized::<=131072>"

	.section	".text.room_threads::is_room","ax",@progbits
	.p2align	2
	.type	"room_threads::is_room",@function
"room_threads::is_room":
	stp	x29, x30, [sp, #-16]!
	cmp	x1, #257
	mov	x29, sp
	b.hs	.LBB5_2
	bl	"room_threads::told_sized::<=258>"
	ldp	x29, x30, [sp], #16
	ret
.LBB5_2:
	cmp	x1, #2048
	b.hi	.LBB5_4
	bl	"room_threads::told_sized::<=2050>"
	ldp	x29, x30, [sp], #16
	ret
.LBB5_4:
	bl	"room_threads::told_sized::<=16386>"
	ldp	x29, x30, [sp], #16
	ret
.Lfunc_end5:
	.size	"room_threads::is_room", .Lfunc_end5-"room_threads::is_room"

	.section	.rodata.cst16,"aM",@progbits,16
	.p2align	4, 0x0
.LCPI6_0:
	.word	1
	.word	0
	.word	4294967295
	.word	0
	.section	".text.room_threads::told_sized::<=258>","ax",@progbits
	.p2align	2
	.type	"room_threads::told_sized::<=258>",@function
"room_threads::told_sized::<=258>":
	stp	x29, x30, [sp, #-64]!
	stp	x28, x23, [sp, #16]
	mov	x29, sp
	stp	x22, x21, [sp, #32]
	stp	x20, x19, [sp, #48]
	sub	sp, sp, #2096
	mov	x19, x1
	mov	x20, x0
	add	x0, sp, #1556
	mov	w1, wzr
	mov	w2, #516
	str	xzr, [sp]
	add	x21, sp, #1556
	bl	memset
	add	x0, sp, #1040
	mov	w1, wzr
	mov	w2, #516
	add	x22, sp, #1040
	bl	memset
	add	x0, sp, #524
	mov	w1, wzr
	mov	w2, #516
	add	x23, sp, #524
	bl	memset
	add	x0, sp, #8
	mov	w1, wzr
	mov	w2, #516
	bl	memset
	lsr	x9, x19, #1
	adrp	x10, .LCPI6_0
	mov	x11, #65536
	movk	x11, #65535, lsl #48
	ldr	q0, [x10, :lo12:.LCPI6_0]
	mov	x8, xzr
	add	w9, w9, #1
	stur	x11, [x29, #-24]
	and	w10, w9, #0xffff
	mov	w11, w9
	stur	q0, [x29, #-16]
.LBB6_1:
	ldrb	w12, [x20, x8]
	ldrh	w13, [x21, w10, uxtw #1]
	sub	x14, x29, #24
	strh	w13, [x22, x8, lsl #1]
	sub	x13, x29, #16
	ldr	w13, [x13, x12, lsl #2]
	ldrh	w12, [x14, x12, lsl #1]
	strh	w11, [x23, x8, lsl #1]
	add	x8, x8, #1
	strh	w8, [x21, w10, uxtw #1]
	cmp	x19, x8
	add	w10, w13, w10
	add	w11, w12, w11
	b.ne	.LBB6_1
	ubfiz	x8, x9, #1, #15
	mov	x9, xzr
	b	.LBB6_4
.LBB6_3:
	cmp	x9, x8
	b.eq	.LBB6_8
.LBB6_4:
	add	x10, sp, #1556
	ldrh	w10, [x10, x9, lsl #1]
	add	x9, x9, #1
	cbz	w10, .LBB6_3
.LBB6_5:
	ubfiz	x10, x10, #1, #32
	add	x11, sp, #524
	add	x12, sp, #8
	sub	x10, x10, #2
	ldrh	w11, [x11, x10]
	ldrh	w13, [x12, x11, lsl #1]
	cmp	w13, w9, uxth
	b.eq	.LBB6_7
	add	x13, sp, #1040
	strh	w9, [x12, x11, lsl #1]
	ldrh	w10, [x13, x10]
	cbnz	w10, .LBB6_5
	b	.LBB6_3
.LBB6_7:
	mov	w0, wzr
	add	sp, sp, #2096
	ldp	x20, x19, [sp, #48]
	ldp	x22, x21, [sp, #32]
	ldp	x28, x23, [sp, #16]
	ldp	x29, x30, [sp], #64
	ret
.LBB6_8:
	mov	w0, #1
	add	sp, sp, #2096
	ldp	x20, x19, [sp, #48]
	ldp	x22, x21, [sp, #32]
	ldp	x28, x23, [sp, #16]
	ldp	x29, x30, [sp], #64
	ret
.Lfunc_end6:
	.size	"room_threads::told_sized::<=258>", .Lfunc_end6-"room_threads::told_sized::<=258>"

	.section	.rodata.cst16,"aM",@progbits,16
	.p2align	4, 0x0
.LCPI7_0:
	.word	1
	.word	0
	.word	4294967295
	.word	0
	.section	".text.room_threads::told_sized::<=2050>","ax",@progbits
	.p2align	2
	.type	"room_threads::told_sized::<=2050>",@function
"room_threads::told_sized::<=2050>":
	stp	x29, x30, [sp, #-64]!
	sub	x9, sp, #3, lsl #12
	stp	x28, x23, [sp, #16]
	mov	x29, sp
	sub	x9, x9, #3072
	stp	x22, x21, [sp, #32]
	stp	x20, x19, [sp, #48]
.LBB7_1:
	sub	sp, sp, #3072
	cmp	sp, x9
	str	xzr, [sp]
	b.ne	.LBB7_1
	sub	sp, sp, #1072
	mov	x20, x0
	add	x0, sp, #3, lsl #12
	mov	x19, x1
	add	x0, x0, #20
	mov	w1, wzr
	mov	w2, #4100
	add	x21, sp, #3, lsl #12
	str	xzr, [sp]
	add	x21, x21, #20
	bl	memset
	add	x0, sp, #2, lsl #12
	mov	w1, wzr
	mov	w2, #4100
	add	x0, x0, #16
	add	x22, sp, #2, lsl #12
	add	x22, x22, #16
	bl	memset
	add	x0, sp, #1, lsl #12
	mov	w1, wzr
	mov	w2, #4100
	add	x0, x0, #12
	add	x23, sp, #1, lsl #12
	add	x23, x23, #12
	bl	memset
	add	x0, sp, #8
	mov	w1, wzr
	mov	w2, #4100
	bl	memset
	lsr	x9, x19, #1
	adrp	x10, .LCPI7_0
	mov	x11, #65536
	movk	x11, #65535, lsl #48
	ldr	q0, [x10, :lo12:.LCPI7_0]
	mov	x8, xzr
	add	w9, w9, #1
	stur	x11, [x29, #-24]
	and	w10, w9, #0xffff
	mov	w11, w9
	stur	q0, [x29, #-16]
.LBB7_3:
	ldrb	w12, [x20, x8]
	ldrh	w13, [x21, w10, uxtw #1]
	sub	x14, x29, #24
	strh	w13, [x22, x8, lsl #1]
	sub	x13, x29, #16
	ldr	w13, [x13, x12, lsl #2]
	ldrh	w12, [x14, x12, lsl #1]
	strh	w11, [x23, x8, lsl #1]
	add	x8, x8, #1
	strh	w8, [x21, w10, uxtw #1]
	cmp	x19, x8
	add	w10, w13, w10
	add	w11, w12, w11
	b.ne	.LBB7_3
	ubfiz	x8, x9, #1, #15
	mov	x9, xzr
	b	.LBB7_6
.LBB7_5:
	cmp	x9, x8
	b.eq	.LBB7_11
.LBB7_6:
	add	x10, sp, #3, lsl #12
	add	x10, x10, #20
	ldrh	w10, [x10, x9, lsl #1]
	add	x9, x9, #1
	cbz	w10, .LBB7_5
.LBB7_7:
	ubfiz	x10, x10, #1, #32
	add	x11, sp, #1, lsl #12
	add	x12, sp, #8
	add	x11, x11, #12
	sub	x10, x10, #2
	ldrh	w11, [x11, x10]
	ldrh	w13, [x12, x11, lsl #1]
	cmp	w13, w9, uxth
	b.eq	.LBB7_9
	add	x13, sp, #2, lsl #12
	strh	w9, [x12, x11, lsl #1]
	add	x13, x13, #16
	ldrh	w10, [x13, x10]
	cbnz	w10, .LBB7_7
	b	.LBB7_5
.LBB7_9:
	mov	w0, wzr
.LBB7_10:
	add	sp, sp, #4, lsl #12
	add	sp, sp, #48
	ldp	x20, x19, [sp, #48]
	ldp	x22, x21, [sp, #32]
	ldp	x28, x23, [sp, #16]
	ldp	x29, x30, [sp], #64
	ret
.LBB7_11:
	mov	w0, #1
	b	.LBB7_10
.Lfunc_end7:
	.size	"room_threads::told_sized::<=2050>", .Lfunc_end7-"room_threads::told_sized::<=2050>"

	.section	.rodata.cst16,"aM",@progbits,16
	.p2align	4, 0x0
.LCPI8_0:
	.word	1
	.word	0
	.word	4294967295
	.word	0
	.section	".text.room_threads::told_sized::<=16386>","ax",@progbits
	.p2align	2
	.type	"room_threads::told_sized::<=16386>",@function
"room_threads::told_sized::<=16386>":
	stp	x29, x30, [sp, #-80]!
	sub	x9, sp, #31, lsl #12
	str	x28, [sp, #16]
	mov	x29, sp
	sub	x9, x9, #2048
	stp	x24, x23, [sp, #32]
	stp	x22, x21, [sp, #48]
	stp	x20, x19, [sp, #64]
.LBB8_1:
	sub	sp, sp, #3072
	cmp	sp, x9
	str	xzr, [sp]
	b.ne	.LBB8_1
	sub	sp, sp, #2096
	mov	x20, x0
	add	x0, sp, #24, lsl #12
	mov	x19, x1
	add	x0, x0, #20
	mov	w1, wzr
	mov	w2, #32772
	add	x22, sp, #24, lsl #12
	str	xzr, [sp]
	sub	x21, x29, #24
	add	x22, x22, #20
	bl	memset
	add	x0, sp, #16, lsl #12
	mov	w1, wzr
	mov	w2, #32772
	add	x0, x0, #16
	add	x23, sp, #16, lsl #12
	add	x23, x23, #16
	bl	memset
	add	x0, sp, #8, lsl #12
	mov	w1, wzr
	mov	w2, #32772
	add	x0, x0, #12
	add	x24, sp, #8, lsl #12
	add	x24, x24, #12
	bl	memset
	add	x0, sp, #8
	mov	w1, wzr
	mov	w2, #32772
	bl	memset
	lsr	x9, x19, #1
	adrp	x10, .LCPI8_0
	mov	x11, #65536
	movk	x11, #65535, lsl #48
	ldr	q0, [x10, :lo12:.LCPI8_0]
	mov	x8, xzr
	add	w9, w9, #1
	str	x11, [x21]
	and	w10, w9, #0xffff
	mov	w11, w9
	stur	q0, [x21, #8]
.LBB8_3:
	ldrb	w12, [x20, x8]
	ldrh	w13, [x22, w10, uxtw #1]
	strh	w11, [x24, x8, lsl #1]
	strh	w13, [x23, x8, lsl #1]
	sub	x13, x29, #16
	add	x8, x8, #1
	ldr	w13, [x13, x12, lsl #2]
	ldrh	w12, [x21, x12, lsl #1]
	cmp	x19, x8
	strh	w8, [x22, w10, uxtw #1]
	add	w10, w13, w10
	add	w11, w12, w11
	b.ne	.LBB8_3
	tst	w9, #0xffff
	b.eq	.LBB8_11
	ubfiz	x8, x9, #1, #16
	mov	x9, xzr
	b	.LBB8_7
.LBB8_6:
	cmp	x9, x8
	b.eq	.LBB8_11
.LBB8_7:
	add	x10, sp, #24, lsl #12
	add	x10, x10, #20
	ldrh	w10, [x10, x9, lsl #1]
	add	x9, x9, #1
	cbz	w10, .LBB8_6
.LBB8_8:
	ubfiz	x10, x10, #1, #32
	add	x11, sp, #8, lsl #12
	add	x12, sp, #8
	add	x11, x11, #12
	sub	x10, x10, #2
	ldrh	w11, [x11, x10]
	ldrh	w13, [x12, x11, lsl #1]
	cmp	w13, w9, uxth
	b.eq	.LBB8_10
	add	x13, sp, #16, lsl #12
	strh	w9, [x12, x11, lsl #1]
	add	x13, x13, #16
	ldrh	w10, [x13, x10]
	cbnz	w10, .LBB8_8
	b	.LBB8_6
.LBB8_10:
	mov	w0, wzr
	b	.LBB8_12
.LBB8_11:
	mov	w0, #1
.LBB8_12:
	add	sp, sp, #32, lsl #12
	add	sp, sp, #48
	ldp	x20, x19, [sp, #64]
	ldr	x28, [sp, #16]
	ldp	x22, x21, [sp, #48]
	ldp	x24, x23, [sp, #32]
	ldp	x29, x30, [sp], #80
	ret
.Lfunc_end8:
	.size	"room_threads::told_sized::<=16386>", .Lfunc_end8-"room_threads::told_sized::<=16386>"

	.section	".text.convex_call::in_sized::<=257>","ax",@progbits
	.p2align	2
	.type	"convex_call::in_sized::<=257>",@function
"convex_call::in_sized::<=257>":
	stp	x29, x30, [sp, #-48]!
	str	x28, [sp, #16]
	mov	x29, sp
	stp	x20, x19, [sp, #32]
	sub	sp, sp, #1552
	mov	x19, x1
	mov	x20, x0
	add	x0, sp, #1038
	mov	w1, wzr
	mov	w2, #514
	str	xzr, [sp]
	bl	memset
	add	x0, sp, #524
	mov	w1, wzr
	mov	w2, #514
	bl	memset
	add	x0, sp, #10
	mov	w1, wzr
	mov	w2, #514
	bl	memset
	add	x2, sp, #1038
	add	x3, sp, #524
	add	x4, sp, #10
	mov	x0, x20
	mov	x1, x19
	mov	w5, #257
	bl	"convex_call::in_store"
	add	sp, sp, #1552
	ldp	x20, x19, [sp, #32]
	ldr	x28, [sp, #16]
	ldp	x29, x30, [sp], #48
	ret
.Lfunc_end9:
	.size	"convex_call::in_sized::<=257>", .Lfunc_end9-"convex_call::in_sized::<=257>"

	.section	".text.convex_call::in_store","ax",@progbits
	.p2align	2
	.type	"convex_call::in_store",@function
"convex_call::in_store":
	stp	x29, x30, [sp, #-96]!
	stp	x22, x21, [sp, #64]
	mov	x21, x3
	mov	x22, x2
	stp	x20, x19, [sp, #80]
	mov	x19, x5
	mov	x20, x4
	stp	x28, x27, [sp, #16]
	mov	x29, sp
	stp	x26, x25, [sp, #32]
	stp	x24, x23, [sp, #48]
	cbz	x1, .LBB10_8
	mov	x8, xzr
	mov	x9, xzr
	mov	x10, xzr
	mov	w11, #16384
.LBB10_2:
	ldrb	w12, [x0, x10]
	add	x10, x10, #1
	cmp	w12, #1
	csel	x13, x11, xzr, eq
	cmp	w12, #0
	cinc	x14, x11, eq
	cmp	w12, #2
	add	x8, x13, x8
	csel	x11, x11, xzr, hi
	cset	w12, eq
	cmp	x1, x10
	add	x9, x11, x9
	sub	x11, x14, x12
	b.ne	.LBB10_2
	cmp	x9, x8
	b.hs	.LBB10_9
	cmp	x1, #8
	b.hs	.LBB10_28
	mov	x8, xzr
.LBB10_6:
	add	x10, x8, x1
	sub	x9, x1, x8
	add	x8, x22, x8
	add	x10, x22, x10
	sub	x11, x0, #1
.LBB10_7:
	ldrb	w12, [x11, x9]
	subs	x9, x9, #1
	and	w12, w12, #0x3
	eor	w12, w12, #0x2
	strb	w12, [x8], #1
	strb	w12, [x10], #1
	b.ne	.LBB10_7
	b	.LBB10_13
.LBB10_8:
	mov	x27, xzr
	mov	x23, xzr
	mov	x26, xzr
	negs	x25, xzr
	mov	w0, wzr
	b.hs	.LBB10_22
	b	.LBB10_27
.LBB10_9:
	cmp	x1, #8
	b.hs	.LBB10_32
	mov	x8, xzr
.LBB10_11:
	sub	x9, x1, x8
	add	x10, x22, x8
	add	x8, x0, x8
.LBB10_12:
	ldrb	w11, [x8], #1
	subs	x9, x9, #1
	strb	w11, [x10]
	strb	w11, [x10, x1]
	add	x10, x10, #1
	b.ne	.LBB10_12
.LBB10_13:
	mov	w16, #16384
	mov	x8, #536870912
	mov	x10, #536870912
	mov	x9, xzr
	movk	x8, #8192, lsl #32
	mov	w13, w16
	movk	x10, #8192, lsl #32
.LBB10_14:
	ldrb	w11, [x22, x9]
	mov	x12, x16
	mov	w14, w13
	add	x9, x9, #1
	cmp	w11, #2
	cset	w15, hi
	cset	w16, eq
	cmp	w11, #0
	cinc	x17, x12, eq
	cmp	w11, #1
	cinc	w13, w13, eq
	sub	x16, x17, x16
	sub	w13, w13, w15
	ubfiz	x15, x13, #15, #16
	orr	x17, x15, x16, lsl #31
	mov	x15, x10
	add	x10, x9, x17
	cmp	x10, x15
	csel	x10, x10, x15, lo
	cmp	x1, x9
	b.ne	.LBB10_14
	cmp	w11, #2
	and	x10, x10, #0x7fff
	mov	w2, #16384
	cset	w13, eq
	cset	w16, hi
	cmp	w11, #0
	sub	x13, x12, x13
	sub	w16, w14, w16
	add	x10, x22, x10
	cinc	x13, x13, eq
	cmp	w11, #1
	mov	x18, x1
	cinc	w16, w16, eq
	mov	w0, w2
	ubfiz	x16, x16, #15, #16
	orr	x13, x16, x13, lsl #31
	mov	x16, #1
	movk	x16, #16384, lsl #32
	add	x13, x13, x9
	cmp	x15, x13
	csel	x13, x15, x13, lo
	and	x13, x13, #0x7fff
	add	x17, x22, x13
	mov	x13, #536870912
	movk	x13, #8192, lsl #32
.LBB10_16:
	ldrb	w3, [x17], #1
	cmp	w3, #0
	cinc	x2, x2, eq
	cmp	w3, #2
	cset	w4, eq
	cset	w5, hi
	cmp	w3, #1
	cinc	w0, w0, eq
	sub	x2, x2, x4
	sub	w0, w0, w5
	and	x3, x0, #0xffff
	sub	x3, x16, x3, lsl #31
	add	x16, x16, #1
	add	x3, x3, x2, lsl #15
	cmp	x3, x13
	csel	x13, x3, x13, lo
	subs	x18, x18, #1
	b.ne	.LBB10_16
	cmp	w11, #2
	mov	w0, #16384
	mov	x2, x1
	cset	w16, eq
	cset	w17, hi
	cmp	w11, #0
	sub	x16, x12, x16
	sub	w17, w14, w17
	mov	w3, #16384
	cinc	x16, x16, eq
	cmp	w11, #1
	cinc	w17, w17, eq
	ubfiz	x17, x17, #15, #16
	orr	x16, x17, x16, lsl #31
	mov	x17, #1
	movk	x17, #16384, lsl #16
	add	x16, x16, x9
	movk	x17, #16384, lsl #32
	cmp	x15, x16
	csel	x16, x15, x16, lo
	and	x16, x16, #0x7fff
	add	x18, x22, x16
	mov	x16, #536870912
	movk	x16, #8192, lsl #32
.LBB10_18:
	ldrb	w4, [x18], #1
	cmp	w4, #0
	cinc	x0, x0, eq
	cmp	w4, #2
	cset	w5, eq
	cset	w6, hi
	cmp	w4, #1
	sub	x0, x0, x5
	mov	x5, #562949953355776
	cinc	w3, w3, eq
	mul	x5, x0, x5
	sub	w3, w3, w6
	sub	x4, x5, w3, uxth
	add	x4, x17, x4, lsl #15
	add	x17, x17, #1
	cmp	x4, x16
	csel	x16, x4, x16, lo
	subs	x2, x2, #1
	b.ne	.LBB10_18
	cmp	w11, #2
	cset	w17, eq
	cset	w18, hi
	cmp	w11, #0
	sub	x12, x12, x17
	sub	w14, w14, w18
	cinc	x12, x12, eq
	cmp	w11, #1
	cinc	w11, w14, eq
	mov	w14, #16384
	ubfiz	x11, x11, #15, #16
	orr	x11, x11, x12, lsl #31
	mov	x12, x1
	add	x9, x11, x9
	mov	w11, #1
	cmp	x15, x9
	movk	w11, #16384, lsl #16
	csel	x9, x15, x9, lo
	mov	w15, w14
	and	x9, x9, #0x7fff
	add	x9, x22, x9
.LBB10_20:
	ldrb	w17, [x9], #1
	cmp	w17, #0
	cinc	x14, x14, eq
	cmp	w17, #2
	cset	w18, eq
	cset	w0, hi
	cmp	w17, #1
	sub	x14, x14, x18
	cinc	w15, w15, eq
	sub	w15, w15, w0
	sub	x17, x11, x14, lsl #15
	add	x11, x11, #1
	and	x18, x15, #0xffff
	add	x17, x17, x18, lsl #31
	cmp	x17, x8
	csel	x8, x17, x8, lo
	subs	x12, x12, #1
	b.ne	.LBB10_20
	and	x23, x13, #0x7fff
	and	x27, x16, #0x7fff
	and	x26, x8, #0x7fff
	mov	x22, x10
	subs	x25, x27, x23
	mov	w0, wzr
	b.lo	.LBB10_27
.LBB10_22:
	subs	x24, x26, x27
	b.lo	.LBB10_27
	mov	x28, x1
	mov	x0, x22
	mov	x1, x23
	mov	w2, wzr
	mov	x3, x21
	mov	x4, x20
	mov	x5, x19
	bl	"convex_part::judge"
	cbz	w0, .LBB10_27
	add	x0, x22, x23
	mov	x1, x25
	mov	w2, #1
	mov	x3, x21
	mov	x4, x20
	mov	x5, x19
	bl	"convex_part::judge"
	cbz	w0, .LBB10_27
	add	x0, x22, x27
	mov	x1, x24
	mov	w2, #2
	mov	x3, x21
	mov	x4, x20
	mov	x5, x19
	bl	"convex_part::judge"
	cbz	w0, .LBB10_27
	sub	x1, x28, x26
	add	x0, x22, x26
	mov	w2, #3
	mov	x3, x21
	mov	x4, x20
	mov	x5, x19
	bl	"convex_part::judge"
.LBB10_27:
	ldp	x20, x19, [sp, #80]
	ldp	x22, x21, [sp, #64]
	ldp	x24, x23, [sp, #48]
	ldp	x26, x25, [sp, #32]
	ldp	x28, x27, [sp, #16]
	ldp	x29, x30, [sp], #96
	ret
.LBB10_28:
	add	x8, x0, x1
	add	x10, x22, x1
	add	x11, x22, x1, lsl #1
	cmp	x22, x8
	ccmp	x0, x10, #2, lo
	cset	w9, lo
	cmp	x0, x11
	ccmp	x10, x8, #2, lo
	mov	x8, xzr
	b.lo	.LBB10_6
	tbnz	w9, #0, .LBB10_6
	cmp	x1, #32
	b.hs	.LBB10_36
	mov	x8, xzr
	b	.LBB10_40
.LBB10_32:
	add	x8, x1, x22
	sub	x8, x8, x0
	cmp	x8, #32
	mov	x8, xzr
	b.lo	.LBB10_11
	sub	x9, x22, x0
	cmp	x9, #32
	b.lo	.LBB10_11
	cmp	x1, #32
	b.hs	.LBB10_43
	mov	x8, xzr
	b	.LBB10_47
.LBB10_36:
	and	x9, x1, #0x18
	and	x8, x1, #0xffffffffffffffe0
	add	x10, x22, #16
	sub	x11, x0, #32
	and	x12, x1, #0xffffffffffffffe0
.LBB10_37:
	movi	v0.16b, #3
	add	x13, x11, x1
	movi	v2.16b, #2
	ldp	q3, q1, [x13]
	add	x13, x10, x1
	sub	x12, x12, #32
	sub	x11, x11, #32
	and	v1.16b, v1.16b, v0.16b
	and	v0.16b, v3.16b, v0.16b
	eor	v1.16b, v1.16b, v2.16b
	eor	v0.16b, v0.16b, v2.16b
	rev64	v1.16b, v1.16b
	rev64	v0.16b, v0.16b
	ext	v1.16b, v1.16b, v1.16b, #8
	ext	v0.16b, v0.16b, v0.16b, #8
	stp	q1, q0, [x10, #-16]
	add	x10, x10, #32
	stp	q1, q0, [x13, #-16]
	cbnz	x12, .LBB10_37
	cmp	x1, x8
	b.eq	.LBB10_13
	cbz	x9, .LBB10_6
.LBB10_40:
	mov	x10, x8
	and	x8, x1, #0xfffffffffffffff8
	sub	x11, x0, x10
	sub	x9, x10, x8
	add	x10, x22, x10
	sub	x11, x11, #8
.LBB10_41:
	movi	v0.8b, #3
	ldr	d1, [x11, x1]
	movi	v2.8b, #2
	add	x9, x9, #8
	sub	x11, x11, #8
	and	v0.8b, v1.8b, v0.8b
	eor	v0.8b, v0.8b, v2.8b
	rev64	v0.8b, v0.8b
	str	d0, [x10]
	str	d0, [x10, x1]
	add	x10, x10, #8
	cbnz	x9, .LBB10_41
	cmp	x1, x8
	b.ne	.LBB10_6
	b	.LBB10_13
.LBB10_43:
	and	x9, x1, #0x18
	and	x8, x1, #0xffffffffffffffe0
	add	x10, x22, #16
	add	x11, x0, #16
	and	x12, x1, #0xffffffffffffffe0
.LBB10_44:
	ldp	q0, q1, [x11, #-16]
	add	x13, x10, x1
	subs	x12, x12, #32
	add	x11, x11, #32
	stp	q0, q1, [x10, #-16]
	add	x10, x10, #32
	stp	q0, q1, [x13, #-16]
	b.ne	.LBB10_44
	cmp	x1, x8
	b.eq	.LBB10_13
	cbz	x9, .LBB10_11
.LBB10_47:
	mov	x11, x8
	and	x8, x1, #0xfffffffffffffff8
	sub	x9, x11, x8
	add	x10, x22, x11
	add	x11, x0, x11
.LBB10_48:
	ldr	d0, [x11], #8
	adds	x9, x9, #8
	str	d0, [x10]
	str	d0, [x10, x1]
	add	x10, x10, #8
	b.ne	.LBB10_48
	cmp	x1, x8
	b.ne	.LBB10_11
	b	.LBB10_13
.Lfunc_end10:
	.size	"convex_call::in_store", .Lfunc_end10-"convex_call::in_store"

	.section	".text.convex_part::judge","ax",@progbits
	.p2align	2
	.type	"convex_part::judge",@function
"convex_part::judge":
	mov	x8, x0
	mov	x9, x1
	cbz	x1, .LBB11_8
.LBB11_1:
	ldrb	w10, [x8], #1
	add	w10, w10, w2
	tbnz	w10, #1, .LBB11_26
	subs	x9, x9, #1
	b.ne	.LBB11_1
	mov	w10, w1
.LBB11_4:
	ldrb	w8, [x0], #1
	strh	w10, [x3, x9, lsl #1]
	add	w8, w8, w2
	tst	w8, #0x3
	cset	w8, ne
	cinc	x9, x9, eq
	subs	x1, x1, #1
	sub	w10, w10, w8
	b.ne	.LBB11_4
	adds	x8, x9, #1
	strh	w10, [x3, x9, lsl #1]
	mov	x9, x5
	b.lo	.LBB11_9
.LBB11_6:
	sub	x8, x5, x9
	cmp	x8, #2
	b.hs	.LBB11_21
	mov	w0, #1
	ret
.LBB11_8:
	strh	wzr, [x3]
	mov	w8, #1
.LBB11_9:
	mov	x10, x8
	mov	x9, x5
	b	.LBB11_12
.LBB11_10:
	sub	x9, x5, #1
.LBB11_11:
	sub	x9, x9, #1
	strh	w10, [x4, x9, lsl #1]
	cbz	x10, .LBB11_6
.LBB11_12:
	cmp	x10, x8
	b.ne	.LBB11_14
	sub	x10, x10, #1
	b	.LBB11_17
.LBB11_14:
	add	x11, x3, x10, lsl #1
.LBB11_15:
	subs	x10, x10, #1
	b.eq	.LBB11_17
	mov	x13, x11
	ldurh	w12, [x11, #-4]
	ldrh	w11, [x11]
	ldrh	w14, [x13, #-2]!
	add	x11, x11, x12, lsl #1
	add	x14, x12, x14, lsl #1
	cmp	x14, x11
	mov	x11, x13
	b.hs	.LBB11_15
.LBB11_17:
	sub	x11, x5, x9
	cmp	x11, #2
	b.lo	.LBB11_11
	ldrh	w12, [x3, x10, lsl #1]
.LBB11_19:
	add	x13, x4, x9, lsl #1
	ldrh	w14, [x13]
	ldrh	w13, [x13, #2]
	sub	x15, x14, x10
	sub	x17, x13, x10
	ldrh	w14, [x3, x14, lsl #1]
	mul	x16, x15, x12
	ldrh	w13, [x3, x13, lsl #1]
	mul	x18, x17, x12
	madd	x14, x17, x14, x16
	madd	x13, x15, x13, x18
	cmp	x14, x13
	b.lo	.LBB11_11
	sub	x11, x11, #1
	add	x9, x9, #1
	cmp	x11, #1
	b.hi	.LBB11_19
	b	.LBB11_10
.LBB11_21:
	add	x9, x4, x9, lsl #1
	mov	w10, #1
.LBB11_22:
	add	x12, x9, x10, lsl #1
	mov	w15, #1
	ldurh	w11, [x12, #-2]
	ldrh	w12, [x12]
	add	x13, x3, x11, lsl #1
	sub	x14, x12, x11
.LBB11_23:
	add	x16, x11, x15
	cmp	x16, x12
	b.hs	.LBB11_25
	ldrh	w16, [x13]
	ldrh	w18, [x3, x12, lsl #1]
	ldrh	w0, [x13, x15, lsl #1]
	mul	x17, x15, x16
	smaddl	x16, w14, w16, x14
	madd	x16, x15, x18, x16
	add	x15, x15, #1
	smaddl	x17, w14, w0, x17
	cmp	x17, x16
	b.lo	.LBB11_23
	b	.LBB11_26
.LBB11_25:
	add	x10, x10, #1
	mov	w0, #1
	cmp	x10, x8
	b.ne	.LBB11_22
	b	.LBB11_27
.LBB11_26:
	mov	w0, wzr
.LBB11_27:
	ret
.Lfunc_end11:
	.size	"convex_part::judge", .Lfunc_end11-"convex_part::judge"

	.section	".text.convex_call::in_sized::<=2049>","ax",@progbits
	.p2align	2
	.type	"convex_call::in_sized::<=2049>",@function
"convex_call::in_sized::<=2049>":
	stp	x29, x30, [sp, #-48]!
	str	x28, [sp, #16]
	mov	x29, sp
	stp	x20, x19, [sp, #32]
	sub	sp, sp, #3072
	str	xzr, [sp]
	sub	sp, sp, #3072
	str	xzr, [sp]
	sub	sp, sp, #3072
	str	xzr, [sp]
	sub	sp, sp, #3072
	str	xzr, [sp], #-16
	mov	x20, x0
	add	x0, sp, #2, lsl #12
	mov	x19, x1
	add	x0, x0, #14
	mov	w1, wzr
	mov	w2, #4098
	bl	memset
	add	x0, sp, #1, lsl #12
	mov	w1, wzr
	mov	w2, #4098
	add	x0, x0, #12
	bl	memset
	add	x0, sp, #10
	mov	w1, wzr
	mov	w2, #4098
	bl	memset
	add	x2, sp, #2, lsl #12
	add	x3, sp, #1, lsl #12
	add	x4, sp, #10
	add	x2, x2, #14
	add	x3, x3, #12
	mov	x0, x20
	mov	x1, x19
	mov	w5, #2049
	bl	"convex_call::in_store"
	add	sp, sp, #3, lsl #12
	add	sp, sp, #16
	ldp	x20, x19, [sp, #32]
	ldr	x28, [sp, #16]
	ldp	x29, x30, [sp], #48
	ret
.Lfunc_end12:
	.size	"convex_call::in_sized::<=2049>", .Lfunc_end12-"convex_call::in_sized::<=2049>"

	.section	".text.convex_call::in_sized::<=16385>","ax",@progbits
	.p2align	2
	.type	"convex_call::in_sized::<=16385>",@function
"convex_call::in_sized::<=16385>":
	stp	x29, x30, [sp, #-48]!
	sub	x9, sp, #24, lsl #12
	str	x28, [sp, #16]
	mov	x29, sp
	stp	x20, x19, [sp, #32]
.LBB13_1:
	sub	sp, sp, #3072
	cmp	sp, x9
	str	xzr, [sp]
	b.ne	.LBB13_1
	sub	sp, sp, #16
	mov	x20, x0
	add	x0, sp, #16, lsl #12
	mov	x19, x1
	add	x0, x0, #14
	mov	w1, wzr
	mov	w2, #32770
	bl	memset
	add	x0, sp, #8, lsl #12
	mov	w1, wzr
	mov	w2, #32770
	add	x0, x0, #12
	bl	memset
	add	x0, sp, #10
	mov	w1, wzr
	mov	w2, #32770
	bl	memset
	add	x2, sp, #16, lsl #12
	add	x3, sp, #8, lsl #12
	add	x4, sp, #10
	add	x2, x2, #14
	add	x3, x3, #12
	mov	x0, x20
	mov	x1, x19
	mov	w5, #16385
	bl	"convex_call::in_store"
	add	sp, sp, #24, lsl #12
	add	sp, sp, #16
	ldp	x20, x19, [sp, #32]
	ldr	x28, [sp, #16]
	ldp	x29, x30, [sp], #48
	ret
.Lfunc_end13:
	.size	"convex_call::in_sized::<=16385>", .Lfunc_end13-"convex_call::in_sized::<=16385>"

	.section	.rodata.cst16,"aM",@progbits,16
	.p2align	4, 0x0
.LCPI14_0:
	.word	1
	.word	0
	.word	4294967295
	.word	0
	.section	".text.hull_call::list_in","ax",@progbits
	.p2align	2
	.type	"hull_call::list_in",@function
"hull_call::list_in":
	sub	sp, sp, #128
	stp	x29, x30, [sp, #32]
	add	x29, sp, #32
	adrp	x8, .LCPI14_0
	stp	x22, x21, [sp, #96]
	mov	x9, #65536
	ldr	q0, [x8, :lo12:.LCPI14_0]
	stp	x20, x19, [sp, #112]
	ldp	x22, x20, [x29, #96]
	stp	x28, x27, [sp, #48]
	mov	x27, x6
	mov	w21, w3
	stp	x26, x25, [sp, #64]
	mov	w25, w4
	mov	x19, x0
	stp	x24, x23, [sp, #80]
	mov	x23, x7
	mov	x24, x5
	movk	x9, #65535, lsl #48
	str	q0, [sp, #16]
	str	x9, [sp, #8]
	cbz	x2, .LBB14_3
	mov	w9, #16384
	mov	w8, w9
.LBB14_2:
	mov	w10, w9
	and	w12, w8, #0xffff
	add	x14, sp, #16
	sub	x10, x10, x24
	ldrb	w13, [x1], #1
	ldrh	w11, [x23, x10, lsl #1]
	add	x15, sp, #8
	ldr	w14, [x14, x13, lsl #2]
	ldrh	w13, [x15, x13, lsl #1]
	cmp	w12, w11
	csel	w11, w12, w11, lo
	strh	w11, [x23, x10, lsl #1]
	add	w9, w14, w9
	mov	w11, #-32768
	ldrh	w12, [x20, x10, lsl #1]
	sub	w11, w11, w8
	add	w8, w13, w8
	and	w11, w11, #0xffff
	cmp	w11, w12
	csel	w11, w11, w12, lo
	subs	x2, x2, #1
	strh	w11, [x20, x10, lsl #1]
	b.ne	.LBB14_2
	b	.LBB14_4
.LBB14_3:
	mov	w8, #16384
	mov	w9, #16384
.LBB14_4:
	sub	x9, x9, x24
	and	w11, w8, #0xffff
	sub	x7, x27, x24
	ldrh	w10, [x23, x9, lsl #1]
	ldr	x26, [x29, #128]
	ldr	x28, [x29, #112]
	cmp	w11, w10
	csel	w10, w11, w10, lo
	strh	w10, [x23, x9, lsl #1]
	mov	w10, #-32768
	sub	w8, w10, w8
	ldrh	w10, [x20, x9, lsl #1]
	and	w11, w8, #0xffff
	add	x8, x7, #1
	cmp	w11, w10
	csel	w10, w11, w10, lo
	cmp	x8, #15
	strh	w10, [x20, x9, lsl #1]
	b.ls	.LBB14_6
	lsr	x2, x8, #1
	mov	x0, x20
	str	x19, [sp]
	mov	x19, x7
	sub	x8, x8, x2
	add	x1, x20, x8, lsl #1
	bl	"core::slice::edits::mirror::<i16>"
	mov	x7, x19
	ldr	x19, [sp]
	b	.LBB14_13
.LBB14_6:
	cmp	x8, #2
	b.lo	.LBB14_13
	sub	x9, x7, #1
	mov	x8, xzr
	sub	x10, x27, x24
	lsr	x9, x9, #1
	add	x9, x9, #1
	b	.LBB14_10
.LBB14_8:
	ldrh	w11, [x20, x10, lsl #1]
	ldrh	w12, [x20, x8, lsl #1]
	strh	w11, [x20, x8, lsl #1]
	strh	w12, [x20, x10, lsl #1]
.LBB14_9:
	add	x8, x8, #1
	sub	x10, x10, #1
	cmp	x9, x8
	b.eq	.LBB14_13
.LBB14_10:
	cmp	x8, x10
	b.lo	.LBB14_8
	cmp	x10, x8
	b.hs	.LBB14_9
	ldrh	w11, [x20, x8, lsl #1]
	ldrh	w12, [x20, x10, lsl #1]
	strh	w11, [x20, x10, lsl #1]
	strh	w12, [x20, x8, lsl #1]
	b	.LBB14_9
.LBB14_13:
	ldr	x10, [x29, #144]
	ldr	x9, [x29, #120]
	cbz	x22, .LBB14_26
	mov	x11, x22
	mov	x8, x26
	b	.LBB14_17
.LBB14_15:
	sub	x8, x26, #1
.LBB14_16:
	sub	x8, x8, #1
	strh	w11, [x9, x8, lsl #1]
	cbz	x11, .LBB14_27
.LBB14_17:
	cmp	x11, x22
	b.ne	.LBB14_19
	sub	x11, x11, #1
	b	.LBB14_22
.LBB14_19:
	add	x12, x23, x11, lsl #1
.LBB14_20:
	subs	x11, x11, #1
	b.eq	.LBB14_22
	mov	x14, x12
	ldurh	w13, [x12, #-4]
	ldrh	w12, [x12]
	ldrh	w15, [x14, #-2]!
	add	x12, x12, x13, lsl #1
	add	x15, x13, x15, lsl #1
	cmp	x15, x12
	mov	x12, x14
	b.hs	.LBB14_20
.LBB14_22:
	sub	x12, x26, x8
	cmp	x12, #2
	b.lo	.LBB14_16
	ldrh	w13, [x23, x11, lsl #1]
.LBB14_24:
	add	x14, x9, x8, lsl #1
	ldrh	w15, [x14]
	ldrh	w14, [x14, #2]
	sub	x16, x15, x11
	sub	x18, x14, x11
	ldrh	w15, [x23, x15, lsl #1]
	mul	x17, x16, x13
	ldrh	w14, [x23, x14, lsl #1]
	mul	x0, x18, x13
	madd	x15, x18, x15, x17
	madd	x14, x16, x14, x0
	cmp	x15, x14
	b.lo	.LBB14_16
	sub	x12, x12, #1
	add	x8, x8, #1
	cmp	x12, #1
	b.hi	.LBB14_24
	b	.LBB14_15
.LBB14_26:
	mov	x8, x26
.LBB14_27:
	ldr	x11, [x29, #136]
	ldr	x13, [x29, #160]
	cbz	x28, .LBB14_40
	mov	x14, x28
	mov	x12, x10
	b	.LBB14_31
.LBB14_29:
	sub	x12, x10, #1
.LBB14_30:
	sub	x12, x12, #1
	strh	w14, [x11, x12, lsl #1]
	cbz	x14, .LBB14_41
.LBB14_31:
	cmp	x14, x28
	b.ne	.LBB14_33
	sub	x14, x14, #1
	b	.LBB14_36
.LBB14_33:
	add	x15, x20, x14, lsl #1
.LBB14_34:
	subs	x14, x14, #1
	b.eq	.LBB14_36
	mov	x17, x15
	ldurh	w16, [x15, #-4]
	ldrh	w15, [x15]
	ldrh	w18, [x17, #-2]!
	add	x15, x15, x16, lsl #1
	add	x18, x16, x18, lsl #1
	cmp	x18, x15
	mov	x15, x17
	b.hs	.LBB14_34
.LBB14_36:
	sub	x15, x10, x12
	cmp	x15, #2
	b.lo	.LBB14_30
	ldrh	w16, [x20, x14, lsl #1]
.LBB14_38:
	add	x17, x11, x12, lsl #1
	ldrh	w18, [x17]
	ldrh	w17, [x17, #2]
	sub	x0, x18, x14
	sub	x2, x17, x14
	ldrh	w18, [x20, x18, lsl #1]
	mul	x1, x0, x16
	ldrh	w17, [x20, x17, lsl #1]
	mul	x5, x2, x16
	madd	x18, x2, x18, x1
	madd	x17, x0, x17, x5
	cmp	x18, x17
	b.lo	.LBB14_30
	sub	x15, x15, #1
	add	x12, x12, #1
	cmp	x15, #1
	b.hi	.LBB14_38
	b	.LBB14_29
.LBB14_40:
	mov	x12, x10
.LBB14_41:
	ldrh	w14, [x23, x7, lsl #1]
	ldrh	w15, [x20]
	sub	x10, x10, x12
	ldrh	w16, [x20, x7, lsl #1]
	sub	x0, x26, x8
	add	w17, w15, w14
	ldrh	w14, [x23]
	cmp	w17, #8, lsl #12
	cset	w15, eq
	add	w14, w16, w14
	mov	w16, #32768
	cmp	x10, x15
	ccmp	w14, w16, #0, hi
	cset	w14, eq
	sub	x16, x10, x14
	sub	x14, x16, x15
	add	x10, x14, x0
	cmp	x13, x10, lsl #1
	b.hs	.LBB14_43
	mov	w10, #7
	mov	w8, #1
	b	.LBB14_50
.LBB14_43:
	cmp	w17, #8, lsl #12
	mov	w17, #2
	ldr	x13, [x29, #152]
	csel	x17, x17, xzr, eq
	cmp	x26, x8
	sub	w18, w21, #4, lsl #12
	b.eq	.LBB14_46
	add	x9, x9, x8, lsl #1
	add	w1, w18, w24
	sub	w2, w25, #4, lsl #12
	add	x3, x13, #4
.LBB14_45:
	ldrh	w7, [x9], #2
	subs	x0, x0, #1
	ldrh	w5, [x23, w7, uxtw #1]
	add	w7, w1, w7
	add	w5, w2, w5
	stp	w7, w5, [x3, #-4]
	add	x3, x3, #8
	b.ne	.LBB14_45
.LBB14_46:
	cmp	x16, x15
	b.eq	.LBB14_49
	sub	x8, x13, x8, lsl #3
	add	x9, x11, x12, lsl #1
	add	w11, w25, #4, lsl #12
	add	x12, x8, x26, lsl #3
	add	x8, x9, x17
	add	w9, w18, w27
	add	x12, x12, #4
.LBB14_48:
	ldrh	w13, [x8], #2
	subs	x14, x14, #1
	ldrh	w15, [x20, w13, uxtw #1]
	sub	w13, w9, w13
	sub	w15, w11, w15
	stp	w13, w15, [x12, #-4]
	add	x12, x12, #8
	b.ne	.LBB14_48
.LBB14_49:
	mov	x8, xzr
.LBB14_50:
	stp	x8, x10, [x19]
	ldp	x22, x21, [sp, #96]
	str	xzr, [x19, #16]
	ldp	x20, x19, [sp, #112]
	ldp	x24, x23, [sp, #80]
	ldp	x26, x25, [sp, #64]
	ldp	x28, x27, [sp, #48]
	ldp	x29, x30, [sp, #32]
	add	sp, sp, #128
	ret
.Lfunc_end14:
	.size	"hull_call::list_in", .Lfunc_end14-"hull_call::list_in"

	.section	".text.core::slice::edits::mirror::<i16>","ax",@progbits
	.p2align	2
	.type	"core::slice::edits::mirror::<i16>",@function
"core::slice::edits::mirror::<i16>":
	lsl	x8, x2, #1
	add	x9, x1, x8
	add	x8, x0, x8
	cmp	x0, x9
	ccmp	x1, x8, #2, lo
	b.lo	.LBB15_4
	add	x9, x1, x2, lsl #1
	and	x8, x2, #0x7ffffffffffffff8
	mov	x10, x0
	and	x11, x2, #0x7ffffffffffffff8
	sub	x9, x9, #16
.LBB15_2:
	ldr	q0, [x9]
	ldr	q1, [x10]
	subs	x11, x11, #8
	rev64	v0.8h, v0.8h
	rev64	v1.8h, v1.8h
	ext	v0.16b, v0.16b, v0.16b, #8
	ext	v1.16b, v1.16b, v1.16b, #8
	str	q0, [x10], #16
	str	q1, [x9], #-16
	b.ne	.LBB15_2
	cmp	x2, x8
	b.ne	.LBB15_5
	b	.LBB15_7
.LBB15_4:
	mov	x8, xzr
.LBB15_5:
	add	x9, x0, x8, lsl #1
	sub	x8, x2, x8
	sub	x10, x1, #2
.LBB15_6:
	ldrh	w11, [x10, x8, lsl #1]
	ldrh	w12, [x9]
	strh	w11, [x9], #2
	strh	w12, [x10, x8, lsl #1]
	subs	x8, x8, #1
	b.ne	.LBB15_6
.LBB15_7:
	ret
.Lfunc_end15:
	.size	"core::slice::edits::mirror::<i16>", .Lfunc_end15-"core::slice::edits::mirror::<i16>"

	.section	".text.hull_call::list_sized::<=256>","ax",@progbits
	.p2align	2
	.type	"hull_call::list_sized::<=256>",@function
"hull_call::list_sized::<=256>":
	stp	x29, x30, [sp, #-32]!
	stp	x28, x19, [sp, #16]
	mov	x29, sp
	sub	sp, sp, #2160
	movi	v0.2d, #0xffffffffffffffff
	ldr	x8, [x29, #32]
	str	xzr, [sp]
	add	x10, sp, #80
	sub	x9, x6, x5
	mov	x19, x0
	stp	x7, x8, [sp, #56]
	mov	w8, #256
	add	x9, x9, #1
	stp	x10, x8, [sp, #40]
	add	x10, sp, #592
	sub	x0, x29, #24
	str	q0, [sp, #1616]
	add	x7, sp, #1616
	str	q0, [sp, #1632]
	str	q0, [sp, #1648]
	str	q0, [sp, #1664]
	str	q0, [sp, #1680]
	str	q0, [sp, #1696]
	str	q0, [sp, #1712]
	str	q0, [sp, #1728]
	str	q0, [sp, #1744]
	str	q0, [sp, #1760]
	str	q0, [sp, #1776]
	str	q0, [sp, #1792]
	str	q0, [sp, #1808]
	str	q0, [sp, #1824]
	str	q0, [sp, #1840]
	str	q0, [sp, #1856]
	str	q0, [sp, #1872]
	str	q0, [sp, #1888]
	str	q0, [sp, #1904]
	str	q0, [sp, #1920]
	str	q0, [sp, #1936]
	str	q0, [sp, #1952]
	str	q0, [sp, #1968]
	str	q0, [sp, #1984]
	str	q0, [sp, #2000]
	str	q0, [sp, #2016]
	str	q0, [sp, #2032]
	str	q0, [sp, #2048]
	str	q0, [sp, #2064]
	str	q0, [sp, #2080]
	str	q0, [sp, #2096]
	str	q0, [sp, #2112]
	str	q0, [sp, #1600]
	str	q0, [sp, #1584]
	str	q0, [sp, #1568]
	str	q0, [sp, #1552]
	str	q0, [sp, #1536]
	str	q0, [sp, #1520]
	str	q0, [sp, #1504]
	str	q0, [sp, #1488]
	str	q0, [sp, #1472]
	str	q0, [sp, #1456]
	str	q0, [sp, #1440]
	str	q0, [sp, #1424]
	str	q0, [sp, #1408]
	str	q0, [sp, #1392]
	str	q0, [sp, #1376]
	str	q0, [sp, #1360]
	str	q0, [sp, #1344]
	str	q0, [sp, #1328]
	str	q0, [sp, #1312]
	str	q0, [sp, #1296]
	str	q0, [sp, #1280]
	str	q0, [sp, #1264]
	str	q0, [sp, #1248]
	str	q0, [sp, #1232]
	str	q0, [sp, #1216]
	str	q0, [sp, #1200]
	str	q0, [sp, #1184]
	str	q0, [sp, #1168]
	str	q0, [sp, #1152]
	str	q0, [sp, #1136]
	str	q0, [sp, #1120]
	str	q0, [sp, #1104]
	movi	v0.2d, #0000000000000000
	stp	x10, x8, [sp, #24]
	add	x8, sp, #1104
	stp	xzr, xzr, [x29, #-24]
	stur	xzr, [x29, #-8]
	str	q0, [sp, #1088]
	str	q0, [sp, #1072]
	str	q0, [sp, #1056]
	str	q0, [sp, #1040]
	stp	q0, q0, [sp, #80]
	stp	q0, q0, [sp, #112]
	stp	q0, q0, [sp, #144]
	stp	q0, q0, [sp, #176]
	stp	q0, q0, [sp, #208]
	stp	q0, q0, [sp, #240]
	stp	q0, q0, [sp, #272]
	stp	q0, q0, [sp, #304]
	stp	q0, q0, [sp, #336]
	stp	q0, q0, [sp, #368]
	stp	q0, q0, [sp, #400]
	stp	q0, q0, [sp, #432]
	stp	q0, q0, [sp, #464]
	stp	q0, q0, [sp, #496]
	stp	q0, q0, [sp, #528]
	stp	q0, q0, [sp, #560]
	stp	q0, q0, [sp, #592]
	stp	q0, q0, [sp, #624]
	stp	q0, q0, [sp, #656]
	stp	q0, q0, [sp, #688]
	stp	q0, q0, [sp, #720]
	stp	q0, q0, [sp, #752]
	stp	q0, q0, [sp, #784]
	stp	q0, q0, [sp, #816]
	stp	q0, q0, [sp, #848]
	stp	q0, q0, [sp, #880]
	stp	q0, q0, [sp, #912]
	stp	q0, q0, [sp, #944]
	stp	q0, q0, [sp, #976]
	stp	q0, q0, [sp, #1008]
	stp	x8, x9, [sp, #8]
	str	x9, [sp]
	bl	"hull_call::list_in"
	ldurb	w8, [x29, #-24]
	ldur	q0, [x29, #-16]
	str	x8, [x19]
	stur	q0, [x19, #8]
	add	sp, sp, #2160
	ldp	x28, x19, [sp, #16]
	ldp	x29, x30, [sp], #32
	ret
.Lfunc_end16:
	.size	"hull_call::list_sized::<=256>", .Lfunc_end16-"hull_call::list_sized::<=256>"

	.section	".text.hull_call::list_sized::<=2048>","ax",@progbits
	.p2align	2
	.type	"hull_call::list_sized::<=2048>",@function
"hull_call::list_sized::<=2048>":
	stp	x29, x30, [sp, #-96]!
	sub	x9, sp, #3, lsl #12
	stp	x28, x27, [sp, #16]
	mov	x29, sp
	sub	x9, x9, #3072
	stp	x26, x25, [sp, #32]
	stp	x24, x23, [sp, #48]
	stp	x22, x21, [sp, #64]
	stp	x20, x19, [sp, #80]
.LBB17_1:
	sub	sp, sp, #3072
	cmp	sp, x9
	str	xzr, [sp]
	b.ne	.LBB17_1
	sub	sp, sp, #1136
	mov	x19, x0
	add	x0, sp, #3, lsl #12
	mov	x24, x2
	mov	x25, x1
	ldr	x28, [x29, #96]
	add	x0, x0, #80
	mov	w1, #255
	mov	w2, #4096
	str	xzr, [sp]
	mov	x26, x7
	mov	x20, x6
	mov	x21, x5
	str	w4, [sp, #76]
	mov	w23, w3
	stp	xzr, xzr, [x29, #-32]
	stur	xzr, [x29, #-16]
	bl	memset
	add	x0, sp, #2, lsl #12
	mov	w1, #255
	mov	w2, #4096
	add	x0, x0, #80
	bl	memset
	add	x0, sp, #1, lsl #12
	mov	w1, wzr
	mov	w2, #4096
	add	x0, x0, #80
	add	x27, sp, #1, lsl #12
	add	x27, x27, #80
	bl	memset
	add	x0, sp, #80
	mov	w1, wzr
	mov	w2, #4096
	add	x22, sp, #80
	bl	memset
	mov	w9, #2048
	sub	x8, x20, x21
	add	x7, sp, #3, lsl #12
	stp	x22, x9, [sp, #40]
	ldr	w4, [sp, #76]
	add	x8, x8, #1
	stp	x27, x9, [sp, #24]
	add	x9, sp, #2, lsl #12
	sub	x0, x29, #32
	add	x7, x7, #80
	add	x9, x9, #80
	mov	x1, x25
	mov	x2, x24
	mov	w3, w23
	mov	x5, x21
	mov	x6, x20
	stp	x26, x28, [sp, #56]
	stp	x9, x8, [sp, #8]
	str	x8, [sp]
	bl	"hull_call::list_in"
	sub	x9, x29, #32
	ldrb	w8, [x9]
	ldur	q0, [x9, #8]
	str	x8, [x19]
	stur	q0, [x19, #8]
	add	sp, sp, #4, lsl #12
	add	sp, sp, #112
	ldp	x20, x19, [sp, #80]
	ldp	x22, x21, [sp, #64]
	ldp	x24, x23, [sp, #48]
	ldp	x26, x25, [sp, #32]
	ldp	x28, x27, [sp, #16]
	ldp	x29, x30, [sp], #96
	ret
.Lfunc_end17:
	.size	"hull_call::list_sized::<=2048>", .Lfunc_end17-"hull_call::list_sized::<=2048>"

	.section	".text.hull_call::list_sized::<=16385>","ax",@progbits
	.p2align	2
	.type	"hull_call::list_sized::<=16385>",@function
"hull_call::list_sized::<=16385>":
	stp	x29, x30, [sp, #-96]!
	sub	x9, sp, #31, lsl #12
	stp	x28, x27, [sp, #16]
	mov	x29, sp
	sub	x9, x9, #2048
	stp	x26, x25, [sp, #32]
	stp	x24, x23, [sp, #48]
	stp	x22, x21, [sp, #64]
	stp	x20, x19, [sp, #80]
.LBB18_1:
	sub	sp, sp, #3072
	cmp	sp, x9
	str	xzr, [sp]
	b.ne	.LBB18_1
	sub	sp, sp, #2176
	mov	x19, x0
	add	x0, sp, #24, lsl #12
	mov	x24, x2
	mov	x25, x1
	sub	x27, x29, #32
	ldr	x28, [x29, #96]
	add	x0, x0, #94
	mov	w1, #255
	mov	w2, #32770
	str	xzr, [sp]
	mov	x26, x7
	mov	x20, x6
	mov	x21, x5
	stp	w3, w4, [sp, #80]
	stp	xzr, xzr, [x27]
	str	xzr, [x27, #16]
	bl	memset
	add	x0, sp, #16, lsl #12
	mov	w1, #255
	mov	w2, #32770
	add	x0, x0, #92
	bl	memset
	add	x0, sp, #8, lsl #12
	mov	w1, wzr
	mov	w2, #32770
	add	x0, x0, #90
	add	x22, sp, #8, lsl #12
	add	x22, x22, #90
	bl	memset
	add	x0, sp, #88
	mov	w1, wzr
	mov	w2, #32770
	add	x23, sp, #88
	bl	memset
	mov	w9, #16385
	sub	x8, x20, x21
	add	x7, sp, #24, lsl #12
	ldp	w3, w4, [sp, #80]
	stp	x23, x9, [sp, #40]
	add	x8, x8, #1
	sub	x0, x29, #32
	stp	x22, x9, [sp, #24]
	add	x9, sp, #16, lsl #12
	add	x7, x7, #94
	add	x9, x9, #92
	mov	x1, x25
	mov	x2, x24
	mov	x5, x21
	mov	x6, x20
	stp	x26, x28, [sp, #56]
	stp	x9, x8, [sp, #8]
	str	x8, [sp]
	bl	"hull_call::list_in"
	ldrb	w8, [x27]
	ldur	q0, [x27, #8]
	str	x8, [x19]
	stur	q0, [x19, #8]
	add	sp, sp, #32, lsl #12
	add	sp, sp, #128
	ldp	x20, x19, [sp, #80]
	ldp	x22, x21, [sp, #64]
	ldp	x24, x23, [sp, #48]
	ldp	x26, x25, [sp, #32]
	ldp	x28, x27, [sp, #16]
	ldp	x29, x30, [sp], #96
	ret
.Lfunc_end18:
	.size	"hull_call::list_sized::<=16385>", .Lfunc_end18-"hull_call::list_sized::<=16385>"

	.section	".text.line_reply::reply","ax",@progbits
	.p2align	2
	.type	"line_reply::reply",@function
"line_reply::reply":
	lsr	x8, x3, #4
	cmp	x8, #515
	b.hs	.LBB19_2
	mov	x0, xzr
	ret
.LBB19_2:
	stp	x29, x30, [sp, #-48]!
	sub	x9, sp, #12, lsl #12
	stp	x28, x21, [sp, #16]
	mov	x29, sp
	sub	x9, x9, #3072
	stp	x20, x19, [sp, #32]
.LBB19_3:
	sub	sp, sp, #3072
	cmp	sp, x9
	str	xzr, [sp]
	b.ne	.LBB19_3
	sub	sp, sp, #272
	mov	x20, x0
	add	x0, sp, #5, lsl #12
	mov	x19, x2
	add	x0, x0, #16
	mov	x21, x1
	mov	w1, wzr
	mov	w2, #32000
	bl	memset
	add	x0, sp, #8
	mov	w1, wzr
	mov	w2, #8200
	bl	memset
	add	x2, sp, #5, lsl #12
	add	x3, sp, #2, lsl #12
	add	x4, sp, #8
	add	x2, x2, #16
	add	x3, x3, #16
	mov	x0, x20
	mov	x1, x21
	mov	x5, x19
	bl	"line_reply::answer_line"
	add	sp, sp, #12, lsl #12
	add	sp, sp, #3344
	ldp	x20, x19, [sp, #32]
	ldp	x28, x21, [sp, #16]
	ldp	x29, x30, [sp], #48
	ret
.Lfunc_end19:
	.size	"line_reply::reply", .Lfunc_end19-"line_reply::reply"

	.section	.rodata.cst16,"aM",@progbits,16
	.p2align	4, 0x0
.LCPI20_0:
	.word	1
	.word	0
	.word	4294967295
	.word	0
.LCPI20_1:
	.xword	-12
	.xword	-8
.LCPI20_2:
	.xword	-28
	.xword	-24
.LCPI20_3:
	.xword	-20
	.xword	-16
.LCPI20_4:
	.byte	255
	.byte	15
	.byte	15
	.byte	15
	.byte	255
	.byte	15
	.byte	15
	.byte	15
	.byte	15
	.byte	15
	.byte	15
	.byte	15
	.byte	255
	.byte	15
	.byte	15
	.byte	15
.LCPI20_5:
	.byte	160
	.byte	10
	.byte	10
	.byte	10
	.byte	160
	.byte	10
	.byte	10
	.byte	10
	.byte	10
	.byte	10
	.byte	10
	.byte	10
	.byte	160
	.byte	10
	.byte	10
	.byte	10
.LCPI20_6:
	.word	4294967272
	.word	4294967276
	.word	4294967280
	.word	4294967284
.LCPI20_7:
	.xword	0
	.xword	-12
.LCPI20_8:
	.xword	-8
	.xword	0
.LCPI20_9:
	.byte	15
	.byte	255
	.byte	15
	.byte	15
	.byte	15
	.byte	255
	.byte	15
	.byte	255
	.byte	15
	.byte	15
	.byte	15
	.byte	15
	.byte	15
	.byte	255
	.byte	15
	.byte	15
.LCPI20_15:
	.byte	0
	.byte	4
	.byte	8
	.byte	12
	.byte	16
	.byte	20
	.byte	24
	.byte	28
	.byte	32
	.byte	36
	.byte	40
	.byte	44
	.byte	48
	.byte	52
	.byte	56
	.byte	60
.LCPI20_16:
	.word	4294967284
	.word	4294967288
	.word	0
	.word	0
.LCPI20_19:
	.xword	-24
	.xword	-20
.LCPI20_20:
	.xword	-16
	.xword	-12
	.section	.rodata.cst8,"aM",@progbits,8
	.p2align	3, 0x0
.LCPI20_10:
	.word	10
	.word	160
.LCPI20_11:
	.hword	15
	.hword	255
	.hword	15
	.hword	15
.LCPI20_12:
	.hword	10
	.hword	160
	.hword	10
	.hword	10
.LCPI20_13:
	.byte	15
	.byte	15
	.byte	15
	.byte	15
	.byte	15
	.byte	255
	.byte	15
	.byte	15
.LCPI20_14:
	.byte	10
	.byte	10
	.byte	10
	.byte	10
	.byte	10
	.byte	160
	.byte	10
	.byte	10
.LCPI20_17:
	.hword	15
	.hword	15
	.hword	255
	.hword	15
.LCPI20_18:
	.hword	10
	.hword	10
	.hword	160
	.hword	10
.LCPI20_21:
	.byte	15
	.byte	15
	.byte	15
	.byte	15
	.byte	15
	.byte	15
	.byte	15
	.byte	255
.LCPI20_22:
	.byte	10
	.byte	10
	.byte	10
	.byte	10
	.byte	10
	.byte	10
	.byte	10
	.byte	160
	.section	".text.line_reply::answer_line","ax",@progbits
	.p2align	2
	.type	"line_reply::answer_line",@function
"line_reply::answer_line":
	stp	x29, x30, [sp, #-80]!
	stp	x28, x25, [sp, #16]
	mov	x29, sp
	stp	x24, x23, [sp, #32]
	stp	x22, x21, [sp, #48]
	stp	x20, x19, [sp, #64]
	sub	sp, sp, #1232
	mov	x22, x2
	mov	x23, x1
	mov	x24, x0
	add	x0, sp, #112
	mov	w1, wzr
	mov	w2, #1024
	str	xzr, [sp]
	mov	x19, x5
	mov	x20, x4
	mov	x21, x3
	bl	memset
	movi	v0.2d, #0000000000000000
	sub	x8, x23, #1031
	stur	xzr, [x29, #-32]
	cmn	x8, #1025
	stp	q0, q0, [x29, #-96]
	stp	q0, q0, [x29, #-64]
	b.lo	.LBB20_19
	cmp	x23, #8
	b.hs	.LBB20_3
	mov	x8, xzr
	mov	w9, #1
	b	.LBB20_12
.LBB20_3:
	cmp	x23, #32
	b.hs	.LBB20_5
	mov	x8, xzr
	mov	w9, #1
	b	.LBB20_9
.LBB20_5:
	movi	v0.16b, #1
	movi	v1.16b, #1
	and	x10, x23, #0x18
	and	x8, x23, #0x7e0
	add	x9, x24, #16
	and	x11, x23, #0x7e0
.LBB20_6:
	movi	v2.16b, #208
	movi	v3.16b, #159
	subs	x11, x11, #32
	ldp	q4, q5, [x9, #-16]
	movi	v6.16b, #10
	movi	v7.16b, #6
	add	x9, x9, #32
	add	v16.16b, v4.16b, v2.16b
	add	v2.16b, v5.16b, v2.16b
	add	v4.16b, v4.16b, v3.16b
	add	v3.16b, v5.16b, v3.16b
	cmhi	v5.16b, v6.16b, v16.16b
	cmhi	v2.16b, v6.16b, v2.16b
	cmhi	v4.16b, v7.16b, v4.16b
	cmhi	v3.16b, v7.16b, v3.16b
	orr	v4.16b, v5.16b, v4.16b
	orr	v2.16b, v2.16b, v3.16b
	and	v0.16b, v0.16b, v4.16b
	and	v1.16b, v1.16b, v2.16b
	b.ne	.LBB20_6
	and	v0.16b, v1.16b, v0.16b
	cmp	x23, x8
	shl	v0.16b, v0.16b, #7
	cmlt	v0.16b, v0.16b, #0
	uminv	b0, v0.16b
	fmov	w9, s0
	b.eq	.LBB20_14
	cbz	x10, .LBB20_12
.LBB20_9:
	movi	v0.2d, #0xffffffffffffffff
	mov	x10, x8
	and	x8, x23, #0x7f8
	mov	v0.b[0], w9
	sub	x9, x10, x8
	add	x10, x24, x10
.LBB20_10:
	movi	v1.8b, #208
	movi	v2.8b, #159
	adds	x9, x9, #8
	ldr	d3, [x10], #8
	movi	v4.8b, #10
	movi	v5.8b, #6
	add	v1.8b, v3.8b, v1.8b
	add	v2.8b, v3.8b, v2.8b
	cmhi	v1.8b, v4.8b, v1.8b
	cmhi	v2.8b, v5.8b, v2.8b
	orr	v1.8b, v1.8b, v2.8b
	and	v0.8b, v0.8b, v1.8b
	b.ne	.LBB20_10
	shl	v0.8b, v0.8b, #7
	cmp	x23, x8
	cmlt	v0.8b, v0.8b, #0
	uminv	b0, v0.8b
	fmov	w9, s0
	b.eq	.LBB20_14
.LBB20_12:
	sub	x10, x23, x8
	add	x8, x24, x8
.LBB20_13:
	ldrb	w11, [x8], #1
	sub	w12, w11, #48
	sub	w11, w11, #97
	cmp	w12, #10
	ccmp	w11, #6, #0, hs
	cset	w11, lo
	subs	x10, x10, #1
	and	w9, w9, w11
	b.ne	.LBB20_13
.LBB20_14:
	tbz	w9, #0, .LBB20_19
	ldrb	w8, [x24]
	mov	w9, #-87
	mov	w10, #-48
	ldrb	w12, [x24, #1]
	cmp	w8, #58
	csel	w11, w10, w9, lo
	cmp	w12, #58
	add	w8, w11, w8
	and	x8, x8, #0xff
	lsl	x11, x8, #4
	csel	w8, w10, w9, lo
	add	w8, w8, w12
	add	x11, x11, w8, uxtb
	cmp	x11, #1
	b.hi	.LBB20_19
	ldrb	w11, [x24, #2]
	ldrb	w12, [x24, #3]
	ldrb	w15, [x24, #5]
	cmp	w11, #58
	csel	w13, w10, w9, lo
	cmp	w12, #58
	csel	w14, w10, w9, lo
	add	w11, w13, w11
	add	w12, w14, w12
	ldrb	w14, [x24, #4]
	and	x11, x11, #0xff
	and	x12, x12, #0xff
	lsl	x12, x12, #8
	cmp	w14, #58
	csel	w13, w10, w9, lo
	cmp	w15, #58
	csel	w9, w10, w9, lo
	add	x10, x12, x11, lsl #12
	add	w9, w9, w15
	bfxil	x10, x9, #0, #8
	add	w9, w13, w14
	add	x3, x10, w9, uxtb #4
	sub	x9, x23, #6
	cmp	x9, x3
	b.ne	.LBB20_19
	tst	w8, #0xff
	b.eq	.LBB20_22
	mov	x21, xzr
	mov	w23, #18
	b	.LBB20_20
.LBB20_19:
	mov	x21, xzr
	mov	w23, #8
.LBB20_20:
	dup	v0.2d, x21
	adrp	x8, .LCPI20_19
	lsr	x9, x21, #28
	ldr	q1, [x8, :lo12:.LCPI20_19]
	add	w8, w23, #1
	movi	v5.8b, #48
	fmov	s2, w8
	movi	v6.8b, #87
	and	w10, w21, #0xf
	ushl	v1.2d, v0.2d, v1.2d
	add	w11, w10, #87
	cmp	w10, #10
	mov	w0, #10
	mov	v2.b[1], w9
	adrp	x9, .LCPI20_20
	xtn	v1.2s, v1.2d
	ldr	q3, [x9, :lo12:.LCPI20_20]
	ushl	v3.2d, v0.2d, v3.2d
	mov	w9, v1.s[1]
	mov	v2.b[2], v1.b[0]
	xtn	v3.2s, v3.2d
	mov	v2.b[3], w9
	adrp	x9, .LCPI20_8
	ldr	q4, [x9, :lo12:.LCPI20_8]
	mov	w9, v3.s[1]
	ushl	v0.2d, v0.2d, v4.2d
	mov	v2.b[4], v3.b[0]
	xtn	v0.2s, v0.2d
	mov	v2.b[5], w9
	mov	w9, v0.s[1]
	mov	v2.b[6], v0.b[0]
	mov	v2.b[7], w9
	adrp	x9, .LCPI20_21
	ldr	d4, [x9, :lo12:.LCPI20_21]
	adrp	x9, .LCPI20_22
	and	v2.8b, v2.8b, v4.8b
	ldr	d4, [x9, :lo12:.LCPI20_22]
	ubfx	w9, w21, #4, #4
	cmhi	v4.8b, v4.8b, v2.8b
	mov	v2.b[7], w9
	mov	w9, #56
	bfxil	w9, w8, #4, #3
	mov	w8, #48
	bfxil	w8, w21, #0, #4
	strb	w9, [x19]
	orr	v5.8b, v2.8b, v5.8b
	add	v2.8b, v2.8b, v6.8b
	csel	w8, w8, w11, lo
	strb	w8, [x19, #9]
	bit	v2.8b, v5.8b, v4.8b
	stur	d2, [x19, #1]
.LBB20_21:
	add	sp, sp, #1232
	ldp	x20, x19, [sp, #64]
	ldp	x22, x21, [sp, #48]
	ldp	x24, x23, [sp, #32]
	ldp	x28, x25, [sp, #16]
	ldp	x29, x30, [sp], #80
	ret
.LBB20_22:
	sub	x0, x29, #96
	add	x6, sp, #112
	mov	x1, x24
	mov	x2, x23
	mov	x4, x22
	mov	x5, x21
	bl	"line_walk::walk_digits"
	ldurb	w8, [x29, #-96]
	ldurb	w23, [x29, #-88]
	ldur	x21, [x29, #-80]
	cbz	w8, .LBB20_25
	and	w8, w23, #0xff
	mov	w9, #1
	lsl	w8, w9, w8
	mov	w9, #65415
	movk	w9, #55, lsl #16
	tst	w8, w9
	b.eq	.LBB20_20
	mov	x21, xzr
	b	.LBB20_20
.LBB20_25:
	sub	x8, x29, #96
	ldur	q0, [x29, #-80]
	ldur	x25, [x29, #-64]
	ldur	q1, [x8, #24]
	ldur	q18, [x8, #40]
	cmp	x21, #8, lsl #12
	dup	v6.2d, v0.d[1]
	dup	v17.2d, v0.d[0]
	ldur	w22, [x29, #-40]
	dup	v16.2d, v1.d[1]
	dup	v19.2d, v1.d[0]
	dup	v4.2d, v18.d[0]
	fmov	x24, d18
	b.ls	.LBB20_27
	mov	x8, xzr
	b	.LBB20_55
.LBB20_27:
	cmp	x21, #4, lsl #12
	b.hi	.LBB20_43
	cbz	x21, .LBB20_47
	cmp	x21, #4
	b.hs	.LBB20_31
	mov	w9, wzr
	mov	x8, xzr
	b	.LBB20_40
.LBB20_31:
	cmp	x21, #32
	b.hs	.LBB20_33
	mov	x8, xzr
	mov	w9, wzr
	b	.LBB20_37
.LBB20_33:
	movi	v0.2d, #0000000000000000
	movi	v1.2d, #0000000000000000
	add	x9, sp, #112
	and	x10, x21, #0x1c
	and	x8, x21, #0x7fe0
	add	x9, x9, #16
	and	x11, x21, #0x7fe0
.LBB20_34:
	ldp	q2, q3, [x9, #-16]
	subs	x11, x11, #32
	add	x9, x9, #32
	umax	v0.16b, v2.16b, v0.16b
	umax	v1.16b, v3.16b, v1.16b
	b.ne	.LBB20_34
	umax	v0.16b, v0.16b, v1.16b
	cmp	x21, x8
	umaxv	b0, v0.16b
	fmov	w9, s0
	b.eq	.LBB20_42
	cbz	x10, .LBB20_40
.LBB20_37:
	dup	v0.4h, w9
	mov	x10, x8
	and	x8, x21, #0x7ffc
	add	x11, sp, #112
	sub	x9, x10, x8
	add	x10, x11, x10
.LBB20_38:
	ldr	s1, [x10], #4
	bic	v0.4h, #255, lsl #8
	adds	x9, x9, #4
	ushll	v1.8h, v1.8b, #0
	umax	v0.4h, v1.4h, v0.4h
	b.ne	.LBB20_38
	umaxv	h0, v0.4h
	cmp	x21, x8
	fmov	w9, s0
	b.eq	.LBB20_42
.LBB20_40:
	add	x11, sp, #112
	sub	x10, x21, x8
	add	x8, x11, x8
.LBB20_41:
	ldrb	w11, [x8], #1
	and	w9, w9, #0xff
	cmp	w11, w9
	csel	w9, w11, w9, hi
	subs	x10, x10, #1
	b.ne	.LBB20_41
.LBB20_42:
	and	w8, w9, #0xff
	cmp	w8, #4
	b.lo	.LBB20_47
.LBB20_43:
	mov	x9, xzr
.LBB20_44:
	cmp	x9, #4, lsl #12
	mov	x8, xzr
	b.eq	.LBB20_55
	add	x10, sp, #112
	ldrb	w10, [x10, x9]
	cmp	w10, #3
	b.hi	.LBB20_55
	add	x9, x9, #1
	cmp	x21, x9
	b.ne	.LBB20_44
.LBB20_47:
	adrp	x8, .LCPI20_0
	stp	xzr, xzr, [x29, #-96]
	ldr	q0, [x8, :lo12:.LCPI20_0]
	stur	xzr, [x29, #-80]
	stur	q0, [x29, #-16]
	cbz	x21, .LBB20_50
	mov	w5, #16384
	add	x8, sp, #112
	mov	x9, x21
	mov	w10, w5
	mov	w6, #16384
.LBB20_49:
	ldrb	w11, [x8], #1
	sub	x12, x29, #16
	ldr	w11, [x12, x11, lsl #2]
	add	w10, w11, w10
	cmp	x10, x5
	csel	x5, x10, x5, lo
	cmp	x10, x6
	csel	x6, x10, x6, hi
	subs	x9, x9, #1
	b.ne	.LBB20_49
	b	.LBB20_51
.LBB20_50:
	mov	w6, #16384
	mov	w5, #16384
.LBB20_51:
	sub	x8, x6, x5
	stp	q4, q16, [sp, #16]
	cmp	x8, #256
	stp	q6, q19, [sp, #48]
	stp	q17, q18, [sp, #80]
	b.lo	.LBB20_53
	sub	x0, x29, #96
	add	x1, sp, #112
	mov	x2, x21
	mov	x3, x5
	mov	x4, x6
	mov	x5, x20
	bl	"hull_call::list_sized::<=1025>"
	b	.LBB20_54
.LBB20_53:
	mov	w8, #2050
	sub	x0, x29, #96
	add	x1, sp, #112
	mov	x2, x21
	mov	w3, wzr
	mov	w4, wzr
	mov	x7, x20
	str	x8, [sp]
	bl	"hull_call::list_sized::<=256>"
.LBB20_54:
	ldurb	w9, [x29, #-96]
	ldur	x8, [x29, #-88]
	ldp	q17, q18, [sp, #80]
	ldp	q6, q19, [sp, #48]
	tst	w9, #0xff
	ldp	q4, q16, [sp, #16]
	csel	x8, x8, xzr, eq
.LBB20_55:
	adrp	x9, .LCPI20_8
	xtn	v7.2s, v17.2d
	lsr	w14, w22, #8
	ldr	q0, [x9, :lo12:.LCPI20_8]
	adrp	x9, .LCPI20_7
	adrp	x16, .LCPI20_2
	ldr	q1, [x9, :lo12:.LCPI20_7]
	ubfx	w9, w24, #4, #4
	mov	w17, #48
	ushl	v0.2d, v4.2d, v0.2d
	bfxil	w17, w25, #0, #4
	and	w18, w25, #0xff
	ushl	v2.2d, v18.2d, v1.2d
	ubfx	w3, w8, #8, #4
	xtn	v4.2s, v0.2d
	xtn	v1.2s, v2.2d
	uzp1	v0.4s, v0.4s, v2.4s
	mov	w10, v4.s[1]
	mov	v4.b[1], w9
	mov	w9, v1.s[1]
	dup	v1.4s, w22
	xtn	v0.4h, v0.4s
	mov	v4.b[2], w10
	adrp	x10, .LCPI20_6
	ldr	q3, [x10, :lo12:.LCPI20_6]
	lsr	w10, w22, #28
	ushl	v1.4s, v1.4s, v3.4s
	mov	v4.b[3], w9
	umov	w9, v18.b[8]
	xtn	v1.4h, v1.4s
	mov	v4.b[4], v18.b[9]
	ubfx	w11, w9, #4, #4
	and	w9, w9, #0xf
	umov	w15, v1.h[0]
	umov	w13, v1.h[1]
	umov	w12, v1.h[3]
	mov	v4.b[5], w11
	umov	w11, v1.h[2]
	ldr	q1, [x16, :lo12:.LCPI20_2]
	ubfx	w16, w22, #4, #4
	ushl	v1.2d, v6.2d, v1.2d
	mov	v4.b[6], v18.b[8]
	xtn	v1.2s, v1.2d
	mov	v4.b[7], w10
	adrp	x10, .LCPI20_1
	ldr	q3, [x10, :lo12:.LCPI20_1]
	adrp	x10, .LCPI20_3
	ldr	q5, [x10, :lo12:.LCPI20_3]
	mov	w10, v7.s[1]
	ushl	v6.2d, v16.2d, v3.2d
	ushl	v16.2d, v19.2d, v3.2d
	mov	v4.b[8], w15
	ushl	v5.2d, v19.2d, v5.2d
	mov	v7.b[1], w10
	uzp1	v6.4s, v19.4s, v6.4s
	lsr	w10, w8, #12
	uzp1	v5.4s, v5.4s, v16.4s
	ushl	v16.2d, v17.2d, v3.2d
	mov	v4.b[9], w13
	mov	v7.b[2], v1.b[0]
	xtn	v16.2s, v16.2d
	uzp1	v3.8h, v5.8h, v6.8h
	dup	v6.8b, w23
	fmov	s5, w15
	mov	v4.b[10], w11
	and	w15, w25, #0xf
	add	w0, w15, #87
	cmp	w15, #10
	ubfx	w15, w25, #4, #4
	mov	v5.b[1], w13
	mov	v16.b[1], v16.b[4]
	ubfx	w13, w23, #4, #4
	xtn2	v6.16b, v3.8h
	add	w15, w15, #87
	xtn	v3.8b, v3.8h
	mov	v4.b[11], w12
	mov	v5.b[2], w11
	csel	w11, w17, w0, lo
	mov	w17, #48
	adrp	x0, .LCPI20_4
	bfxil	w17, w25, #4, #4
	cmp	w18, #160
	mov	v4.b[12], w14
	ubfx	w18, w24, #12, #4
	strb	w11, [x19, #17]
	mov	v5.b[3], w12
	csel	w12, w17, w15, lo
	add	w15, w18, #87
	cmp	w18, #10
	adrp	x18, .LCPI20_10
	lsr	w17, w22, #29
	mov	v4.b[13], w16
	mov	w16, v1.s[1]
	strb	w12, [x19, #16]
	mov	v5.b[4], w14
	mov	v4.b[14], w22
	mov	v7.b[3], w16
	adrp	x16, .LCPI20_9
	ldr	q17, [x16, :lo12:.LCPI20_9]
	mov	w16, #48
	mov	v5.b[5], w22
	bfxil	w16, w8, #8, #4
	mov	v4.b[15], w10
	mov	v6.s[1], v7.s[0]
	mov	v5.b[6], w22
	and	v4.16b, v4.16b, v17.16b
	movi	d17, #0x0000ff000000ff
	mov	v6.h[1], v16.h[0]
	ldr	q16, [x0, :lo12:.LCPI20_4]
	mov	w0, #48
	bfxil	w0, w24, #12, #4
	mov	v5.b[7], w10
	mov	b7, v4.b[4]
	and	v6.16b, v6.16b, v16.16b
	ldr	d16, [x18, :lo12:.LCPI20_10]
	csel	w14, w0, w15, lo
	mov	w15, #48
	cmp	w17, #5
	and	w0, w8, #0xf
	bfxil	w15, w8, #0, #4
	cset	w17, lo
	add	w1, w0, #87
	mov	v7.b[4], v18.b[8]
	cmp	w0, #10
	ubfx	w0, w8, #4, #4
	csel	w15, w15, w1, lo
	mov	w1, #48
	and	w18, w8, #0xff
	bfxil	w1, w8, #4, #4
	cmp	w18, #160
	adrp	x18, .LCPI20_5
	add	w0, w0, #87
	ldr	q2, [x18, :lo12:.LCPI20_5]
	strb	w14, [x19, #18]
	and	v7.8b, v7.8b, v17.8b
	csel	w18, w1, w0, lo
	add	w0, w3, #87
	cmp	w3, #10
	cmhi	v2.16b, v2.16b, v6.16b
	mov	v6.b[0], w13
	csel	w16, w16, w0, lo
	cmp	w9, #10
	adrp	x9, .LCPI20_11
	cmhi	v7.2s, v16.2s, v7.2s
	cset	w10, lo
	ldr	d17, [x9, :lo12:.LCPI20_11]
	adrp	x9, .LCPI20_13
	strb	w15, [x19, #37]
	ldr	d18, [x9, :lo12:.LCPI20_13]
	and	v0.8b, v0.8b, v17.8b
	adrp	x9, .LCPI20_12
	mov	w2, v7.s[1]
	mov	v16.b[4], v7.b[0]
	ldr	d17, [x9, :lo12:.LCPI20_12]
	and	v5.8b, v5.8b, v18.8b
	umov	w9, v3.b[4]
	strb	w18, [x19, #36]
	cmhi	v0.4h, v17.4h, v0.4h
	strb	w16, [x19, #35]
	mov	v16.b[5], w2
	uzp1	v0.8b, v0.8b, v0.8b
	ubfx	w9, w9, #4, #4
	mov	v16.b[6], w10
	adrp	x10, .LCPI20_14
	ldr	d18, [x10, :lo12:.LCPI20_14]
	ubfx	w10, w21, #4, #4
	cmhi	v3.8b, v18.8b, v5.8b
	mov	v6.b[4], w10
	movi	v5.16b, #87
	mov	v16.b[7], w17
	mov	v6.b[12], w9
	lsl	x9, x8, #1
	mov	v16.d[1], v3.d[0]
	movi	v3.16b, #48
	mov	v16.s[0], v0.s[0]
	orr	v0.16b, v6.16b, v3.16b
	add	v6.16b, v6.16b, v5.16b
	bif	v0.16b, v6.16b, v2.16b
	orr	v2.16b, v4.16b, v3.16b
	add	v3.16b, v4.16b, v5.16b
	shl	v16.16b, v16.16b, #7
	cmlt	v4.16b, v16.16b, #0
	str	q0, [x19]
	mov	v0.16b, v4.16b
	bsl	v0.16b, v2.16b, v3.16b
	stur	q0, [x19, #19]
	cbz	x9, .LBB20_67
	cmp	x9, #16
	b.lo	.LBB20_64
	sub	x12, x9, #1
	add	x11, x19, #38
	mov	x10, xzr
	lsl	x13, x12, #2
	mov	w0, #38
	add	x14, x11, x13
	cmp	x14, x11
	b.lo	.LBB20_65
	add	x14, x19, #39
	add	x15, x14, x13
	cmp	x15, x14
	b.lo	.LBB20_65
	add	x14, x19, #41
	add	x15, x14, x13
	cmp	x15, x14
	b.lo	.LBB20_65
	add	x14, x19, #40
	add	x13, x14, x13
	cmp	x13, x14
	b.lo	.LBB20_65
	lsr	x12, x12, #62
	cbnz	x12, .LBB20_65
	lsl	x8, x8, #3
	add	x10, x19, #38
	add	x12, x10, x8
	cmp	x20, x12
	b.hs	.LBB20_68
	add	x8, x20, x8
	cmp	x10, x8
	b.hs	.LBB20_68
.LBB20_64:
	mov	x10, xzr
	mov	w0, #38
.LBB20_65:
	add	x8, x20, x10, lsl #2
	sub	x9, x10, x9
.LBB20_66:
	ldr	w10, [x8], #4
	adrp	x11, .LCPI20_16
	ldr	q1, [x11, :lo12:.LCPI20_16]
	adrp	x11, .LCPI20_17
	movi	v2.4h, #87
	dup	v0.4s, w10
	ubfx	w10, w10, #4, #4
	adds	x9, x9, #1
	ushl	v0.4s, v0.4s, v1.4s
	ldr	d1, [x11, :lo12:.LCPI20_17]
	adrp	x11, .LCPI20_18
	xtn	v0.4h, v0.4s
	and	v0.8b, v0.8b, v1.8b
	ldr	d1, [x11, :lo12:.LCPI20_18]
	cmhi	v1.4h, v1.4h, v0.4h
	mov	v0.h[2], w10
	add	v2.4h, v0.4h, v2.4h
	orr	v0.4h, #48
	bif	v0.8b, v2.8b, v1.8b
	uzp1	v0.8b, v0.8b, v0.8b
	str	s0, [x19, x0]
	add	x0, x0, #4
	b.lo	.LBB20_66
	b	.LBB20_21
.LBB20_67:
	mov	w0, #38
	b	.LBB20_21
.LBB20_68:
	and	x10, x9, #0x7ffffffffffffff0
	mov	w0, #38
	and	x12, x9, #0x7ffffffffffffff0
	lsr	x8, x10, #4
	bfi	x0, x8, #6, #58
	mov	x8, x20
.LBB20_69:
	ldp	q2, q3, [x8, #32]
	adrp	x13, .LCPI20_15
	ldp	q0, q1, [x8], #64
	ldr	q20, [x13, :lo12:.LCPI20_15]
	movi	v21.16b, #15
	subs	x12, x12, #16
	ushr	v7.4s, v3.4s, #8
	ushr	v19.4s, v3.4s, #12
	ushr	v6.4s, v2.4s, #8
	ushr	v18.4s, v2.4s, #12
	ushr	v5.4s, v1.4s, #8
	ushr	v17.4s, v1.4s, #12
	ushr	v4.4s, v0.4s, #8
	ushr	v16.4s, v0.4s, #12
	tbl	v0.16b, { v0.16b, v1.16b, v2.16b, v3.16b }, v20.16b
	movi	v1.16b, #10
	movi	v2.16b, #48
	movi	v3.16b, #87
	tbl	v4.16b, { v4.16b, v5.16b, v6.16b, v7.16b }, v20.16b
	tbl	v5.16b, { v16.16b, v17.16b, v18.16b, v19.16b }, v20.16b
	movi	v6.16b, #160
	and	v7.16b, v0.16b, v21.16b
	and	v4.16b, v4.16b, v21.16b
	and	v5.16b, v5.16b, v21.16b
	cmhi	v6.16b, v6.16b, v0.16b
	orr	v20.16b, v7.16b, v2.16b
	add	v21.16b, v7.16b, v3.16b
	cmhi	v17.16b, v1.16b, v4.16b
	orr	v19.16b, v4.16b, v2.16b
	add	v4.16b, v4.16b, v3.16b
	cmhi	v16.16b, v1.16b, v5.16b
	orr	v18.16b, v5.16b, v2.16b
	add	v5.16b, v5.16b, v3.16b
	usra	v2.16b, v0.16b, #4
	usra	v3.16b, v0.16b, #4
	cmhi	v0.16b, v1.16b, v7.16b
	mov	v23.16b, v17.16b
	bsl	v23.16b, v19.16b, v4.16b
	mov	v22.16b, v16.16b
	bsl	v22.16b, v18.16b, v5.16b
	mov	v24.16b, v6.16b
	bsl	v24.16b, v2.16b, v3.16b
	mov	v25.16b, v0.16b
	bsl	v25.16b, v20.16b, v21.16b
	st4	{ v22.16b, v23.16b, v24.16b, v25.16b }, [x11], #64
	b.ne	.LBB20_69
	cmp	x9, x10
	b.eq	.LBB20_21
	b	.LBB20_65
.Lfunc_end20:
	.size	"line_reply::answer_line", .Lfunc_end20-"line_reply::answer_line"

	.section	".text.line_walk::walk_digits","ax",@progbits
	.p2align	2
	.type	"line_walk::walk_digits",@function
"line_walk::walk_digits":
	stp	x29, x30, [sp, #-80]!
	stp	x28, x25, [sp, #16]
	mov	x29, sp
	stp	x24, x23, [sp, #32]
	stp	x22, x21, [sp, #48]
	stp	x20, x19, [sp, #64]
	sub	sp, sp, #1200
	mov	x25, x2
	mov	x24, x1
	mov	x19, x0
	add	x0, sp, #96
	mov	w1, wzr
	mov	w2, #1024
	str	xzr, [sp]
	mov	x23, x6
	mov	x21, x5
	mov	x20, x4
	mov	x22, x3
	bl	memset
	subs	x8, x25, #6
	b.eq	.LBB21_14
	cmp	x8, #8
	b.hs	.LBB21_3
	mov	x9, xzr
	b	.LBB21_12
.LBB21_3:
	cmp	x8, #32
	b.hs	.LBB21_5
	mov	x9, xzr
	b	.LBB21_9
.LBB21_5:
	add	x11, sp, #96
	and	x10, x8, #0x18
	and	x9, x8, #0xffffffffffffffe0
	add	x11, x11, #16
	add	x12, x24, #22
	and	x13, x8, #0xffffffffffffffe0
.LBB21_6:
	movi	v0.16b, #58
	ldp	q1, q2, [x12, #-16]
	movi	v3.16b, #169
	movi	v4.16b, #208
	subs	x13, x13, #32
	add	x12, x12, #32
	cmhi	v5.16b, v0.16b, v1.16b
	cmhi	v0.16b, v0.16b, v2.16b
	bsl	v5.16b, v4.16b, v3.16b
	bsl	v0.16b, v4.16b, v3.16b
	add	v1.16b, v5.16b, v1.16b
	add	v0.16b, v0.16b, v2.16b
	stp	q1, q0, [x11, #-16]
	add	x11, x11, #32
	b.ne	.LBB21_6
	cmp	x8, x9
	b.eq	.LBB21_14
	cbz	x10, .LBB21_12
.LBB21_9:
	mov	x11, x9
	and	x9, x8, #0xfffffffffffffff8
	add	x12, sp, #96
	add	x13, x11, x24
	sub	x10, x11, x9
	add	x11, x12, x11
	add	x12, x13, #6
.LBB21_10:
	movi	v0.8b, #58
	ldr	d1, [x12], #8
	movi	v2.8b, #169
	movi	v3.8b, #208
	adds	x10, x10, #8
	cmhi	v0.8b, v0.8b, v1.8b
	bsl	v0.8b, v3.8b, v2.8b
	add	v0.8b, v0.8b, v1.8b
	str	d0, [x11], #8
	b.ne	.LBB21_10
	cmp	x8, x9
	b.eq	.LBB21_14
.LBB21_12:
	sub	x8, x25, x9
	add	x10, sp, #96
	add	x11, x9, x24
	sub	x8, x8, #6
	add	x9, x10, x9
	add	x10, x11, #6
.LBB21_13:
	ldrb	w11, [x10], #1
	mov	w12, #-87
	mov	w13, #-48
	cmp	w11, #58
	csel	w12, w13, w12, lo
	subs	x8, x8, #1
	add	w11, w12, w11
	strb	w11, [x9], #1
	b.ne	.LBB21_13
.LBB21_14:
	movi	v0.2d, #0000000000000000
	mov	x8, xzr
	mov	x9, xzr
	cmp	x22, #8, lsl #12
	sub	x24, x29, #80
	stur	xzr, [x29, #-16]
	stp	q0, q0, [x29, #-80]
	stp	q0, q0, [x29, #-48]
	b.ls	.LBB21_17
.LBB21_15:
	stp	x9, x8, [x29, #-72]
	mov	x21, xzr
	mov	w8, #1
	ldur	q1, [x24, #8]
	stp	q0, q0, [sp, #32]
	str	xzr, [sp, #64]
	str	q1, [sp, #80]
.LBB21_16:
	and	x8, x8, #0xff
	ldp	q1, q2, [sp, #32]
	ldr	q0, [sp, #80]
	str	x8, [x19]
	ldr	x8, [sp, #64]
	str	x21, [x19, #24]
	stur	q0, [x19, #8]
	stp	q1, q2, [x19, #32]
	str	x8, [x19, #64]
	add	sp, sp, #1200
	ldp	x20, x19, [sp, #64]
	ldp	x22, x21, [sp, #48]
	ldp	x24, x23, [sp, #32]
	ldp	x28, x25, [sp, #16]
	ldp	x29, x30, [sp], #80
	ret
.LBB21_17:
	cmp	x22, #4, lsl #12
	b.hi	.LBB21_33
	cbz	x22, .LBB21_41
	cmp	x22, #4
	b.hs	.LBB21_21
	mov	w9, wzr
	mov	x8, xzr
	b	.LBB21_30
.LBB21_21:
	cmp	x22, #32
	b.hs	.LBB21_23
	mov	x8, xzr
	mov	w9, wzr
	b	.LBB21_27
.LBB21_23:
	movi	v1.2d, #0000000000000000
	movi	v2.2d, #0000000000000000
	add	x9, sp, #96
	and	x10, x22, #0x1c
	and	x8, x22, #0x7fe0
	add	x9, x9, #16
	and	x11, x22, #0x7fe0
.LBB21_24:
	ldp	q3, q4, [x9, #-16]
	subs	x11, x11, #32
	add	x9, x9, #32
	umax	v1.16b, v3.16b, v1.16b
	umax	v2.16b, v4.16b, v2.16b
	b.ne	.LBB21_24
	umax	v1.16b, v1.16b, v2.16b
	cmp	x22, x8
	umaxv	b1, v1.16b
	fmov	w9, s1
	b.eq	.LBB21_32
	cbz	x10, .LBB21_30
.LBB21_27:
	dup	v1.4h, w9
	mov	x10, x8
	and	x8, x22, #0x7ffc
	add	x11, sp, #96
	sub	x9, x10, x8
	add	x10, x11, x10
.LBB21_28:
	ldr	s2, [x10], #4
	bic	v1.4h, #255, lsl #8
	adds	x9, x9, #4
	ushll	v2.8h, v2.8b, #0
	umax	v1.4h, v2.4h, v1.4h
	b.ne	.LBB21_28
	umaxv	h1, v1.4h
	cmp	x22, x8
	fmov	w9, s1
	b.eq	.LBB21_32
.LBB21_30:
	add	x11, sp, #96
	sub	x10, x22, x8
	add	x8, x11, x8
.LBB21_31:
	ldrb	w11, [x8], #1
	and	w9, w9, #0xff
	cmp	w11, w9
	csel	w9, w11, w9, hi
	subs	x10, x10, #1
	b.ne	.LBB21_31
.LBB21_32:
	and	w8, w9, #0xff
	cmp	w8, #4
	b.lo	.LBB21_41
.LBB21_33:
	mov	x9, xzr
	mov	x8, xzr
	b	.LBB21_35
.LBB21_34:
	mov	w10, #1
	add	x8, x8, #1
	add	x9, x10, x9
	cmp	x22, x8
	b.eq	.LBB21_41
.LBB21_35:
	add	x10, sp, #96
	ldrb	w10, [x10, x8]
	cmp	w10, #4
	b.ne	.LBB21_38
	cbz	x9, .LBB21_47
	mov	x10, #-1
	add	x8, x8, #1
	add	x9, x10, x9
	cmp	x22, x8
	b.ne	.LBB21_35
	b	.LBB21_41
.LBB21_38:
	cmp	w10, #3
	b.hi	.LBB21_46
	lsr	x10, x9, #14
	cbz	x10, .LBB21_34
	mov	w9, #5
	b	.LBB21_15
.LBB21_41:
	add	x8, x22, x22, lsl #1
	mov	w1, wzr
	mov	w2, wzr
	sub	x0, x29, #80
	add	x3, sp, #96
	mov	x4, x22
	mov	x5, x20
	mov	w6, #8000
	mov	x7, x21
	stp	x23, x22, [sp, #8]
	str	x8, [sp]
	bl	"walk_call::set_out"
	ldp	q1, q2, [x29, #-48]
	ldurb	w8, [x29, #-80]
	ldur	q0, [x24, #8]
	ldur	x9, [x29, #-16]
	ldur	x21, [x29, #-56]
	tst	w8, #0xff
	str	q0, [sp, #80]
	stp	q1, q2, [sp, #32]
	str	x9, [sp, #64]
	b.ne	.LBB21_16
	cbz	x21, .LBB21_16
	mov	w8, #25
	mov	x9, #-1
	madd	x22, x21, x8, x9
	cbz	x22, .LBB21_45
	mov	w8, #100
	mov	x9, #-4
	mov	x0, x20
	madd	x2, x21, x8, x9
	mov	w1, wzr
	bl	memset
.LBB21_45:
	mov	w8, wzr
	str	wzr, [x20, x22, lsl #2]
	b	.LBB21_16
.LBB21_46:
	mov	w9, #3
	b	.LBB21_15
.LBB21_47:
	mov	w9, #4
	b	.LBB21_15
.Lfunc_end21:
	.size	"line_walk::walk_digits", .Lfunc_end21-"line_walk::walk_digits"

	.section	.rodata.cst16,"aM",@progbits,16
	.p2align	4, 0x0
.LCPI22_0:
	.xword	1
	.xword	6
	.section	".text.walk_call::set_out","ax",@progbits
	.p2align	2
	.type	"walk_call::set_out",@function
"walk_call::set_out":
	sub	sp, sp, #160
	stp	x29, x30, [sp, #64]
	add	x29, sp, #64
	orr	w8, w2, w1
	stp	x26, x25, [sp, #96]
	ldr	x15, [x29, #96]
	stp	x24, x23, [sp, #112]
	ldp	x25, x24, [x29, #104]
	stp	x20, x19, [sp, #144]
	mov	x19, x0
	stur	x7, [x29, #-24]
	mov	w7, w1
	stp	x28, x27, [sp, #80]
	stp	x22, x21, [sp, #128]
	cbz	w8, .LBB22_12
	mov	x9, xzr
	mov	w8, w2
	mov	w10, w7
.LBB22_2:
	add	w10, w10, w10, lsr #31
	add	w8, w8, w8, lsr #31
	add	x9, x9, #1
	asr	w10, w10, #1
	asr	w8, w8, #1
	orr	w11, w10, w8
	cbnz	w11, .LBB22_2
	mov	x20, xzr
	cbz	x9, .LBB22_13
	sub	x10, x9, #1
	b	.LBB22_6
.LBB22_5:
	sub	x20, x11, #1
	sub	x10, x10, #1
	cbz	x9, .LBB22_13
.LBB22_6:
	subs	x9, x9, #1
	mov	w8, w7
	mov	w11, w2
	b.eq	.LBB22_9
	mov	x12, x10
	mov	w11, w2
	mov	w8, w7
.LBB22_8:
	add	w8, w8, w8, lsr #31
	add	w11, w11, w11, lsr #31
	subs	x12, x12, #1
	asr	w8, w8, #1
	asr	w11, w11, #1
	b.ne	.LBB22_8
.LBB22_9:
	tst	w8, #0x1
	mov	w12, #7
	mov	w13, #4
	csel	x12, x13, x12, eq
	cmn	w8, #1
	mov	w8, #25
	csinc	x12, x12, xzr, ne
	madd	x8, x20, x8, x12
	tst	w11, #0x1
	mov	w12, #1
	cinc	x12, x12, ne
	cmn	w11, #1
	csel	x11, xzr, x12, eq
	add	x8, x8, x11
	ldr	w11, [x5, x8, lsl #2]
	cbnz	w11, .LBB22_5
	add	x11, x20, #2
	mov	w12, #25
	mul	x12, x11, x12
	cmp	x6, x12
	b.lo	.LBB22_118
	add	x12, x20, #1
	mov	w13, #100
	add	w14, w20, #1
	madd	x13, x12, x13, x5
	mov	x20, x12
	str	w11, [x5, x8, lsl #2]
	str	w14, [x13]
	str	wzr, [x13, #76]
	sub	x10, x10, #1
	cbnz	x9, .LBB22_6
	b	.LBB22_13
.LBB22_12:
	mov	x20, xzr
.LBB22_13:
	mov	w8, #100
	madd	x9, x20, x8, x5
	mov	w8, #1
	ldr	w10, [x9, #72]
	add	w11, w10, #1
	str	w11, [x9, #72]
	cbnz	w10, .LBB22_15
	str	w8, [x9, #80]
.LBB22_15:
	and	w8, w8, #0xff
	cmp	w8, #1
	b.ne	.LBB22_80
	mov	w8, w7
	add	x22, x20, #1
	stp	x15, x24, [sp]
	orr	x28, x8, x2, lsl #32
	stp	x19, x25, [sp, #16]
	cbz	x4, .LBB22_89
	mov	w8, #1
	mov	x27, xzr
	mov	x25, xzr
	stur	x8, [x29, #-8]
	mov	w8, #65535
	stur	x8, [x29, #-16]
	mov	w8, #65535
	str	x8, [sp, #32]
	b	.LBB22_20
.LBB22_18:
	ldur	x16, [x29, #-16]
	ldr	x17, [sp, #32]
	mov	w8, #65535
	cmp	x16, x25
	sub	x25, x25, #1
	csel	x14, x8, x16, eq
	csel	x8, x8, x17, eq
	cmp	w15, #1
	cset	w15, eq
	csel	x16, x16, x14, eq
	csel	x17, x17, x8, eq
	cmp	x11, #0
	stur	x16, [x29, #-16]
	cset	w8, eq
	cmp	x11, #2
	str	x17, [sp, #32]
	cinc	w14, w28, eq
	cmp	x11, #1
	cset	w16, eq
	cmp	x11, #3
	sub	w8, w14, w8
	cinc	w10, w10, eq
	sub	w10, w10, w16
	orr	x28, x8, x10, lsl #32
	ldur	x8, [x29, #-8]
	sub	x8, x8, x15
	stur	x8, [x29, #-8]
.LBB22_19:
	mov	w10, #12
	ldur	x8, [x29, #-24]
	mov	x20, x9
	madd	x8, x27, x10, x8
	add	x10, x5, x13
	add	x27, x27, #1
	cmp	x27, x4
	str	w22, [x8]
	ldr	w10, [x10, #72]
	stp	w10, w12, [x8, #4]
	b.eq	.LBB22_90
.LBB22_20:
	ldrb	w11, [x3, x27]
	ldr	x8, [sp, #24]
	lsr	x10, x28, #32
	cmp	w11, #4
	add	x8, x8, x25
	b.ne	.LBB22_25
	ldurb	w14, [x8, #-1]
	mov	w8, #25
	mov	w13, #100
	and	x11, x14, #0x3
	eor	x16, x11, #0x2
	madd	x8, x20, x8, x16
	add	x12, x5, x8, lsl #2
	ldr	w8, [x12, #40]
	sub	x9, x8, #1
	mul	x13, x9, x13
	ldr	w21, [x5, x13]
	cbz	w21, .LBB22_37
	add	x15, x14, #10
	mov	w17, #2
	mov	x18, x9
	mov	x8, x20
.LBB22_23:
	mov	w0, #25
	madd	x0, x21, x0, x14
	add	x0, x5, x0, lsl #2
	ldur	w0, [x0, #-44]
	cmp	w0, w25
	b.ne	.LBB22_50
	sub	x0, x21, #1
	mov	w1, #25
	mov	w19, #100
	madd	x1, x0, x1, x15
	cmp	x0, x8
	cinc	w8, w17, ne
	mul	x19, x0, x19
	ldr	w1, [x5, x1, lsl #2]
	sub	x30, x1, #1
	ldr	w21, [x5, x19]
	cmp	x30, x18
	mov	x18, x0
	cinc	w17, w8, ne
	mov	x8, x30
	cbnz	w21, .LBB22_23
	b	.LBB22_51
.LBB22_25:
	mov	w9, #25
	add	x12, x11, #10
	strb	w11, [x8]
	mul	x1, x20, x9
	add	x25, x25, #1
	add	x8, x12, x1
	ldr	w8, [x5, x8, lsl #2]
	cbz	w8, .LBB22_39
	sub	x9, x8, #1
.LBB22_27:
	mov	w8, #100
	mul	x13, x9, x8
	add	x16, x5, x13
	ldr	w8, [x16, #72]
	add	w14, w8, #1
	str	w14, [x16, #72]
	cbnz	w8, .LBB22_29
	add	w8, w25, #1
	str	w8, [x16, #80]
.LBB22_29:
	and	x8, x11, #0x3
	mov	w14, #25
	add	x15, x1, x11
	eor	x8, x8, #0x2
	cmp	w11, #0
	add	x18, x9, #1
	madd	x8, x9, x14, x8
	add	x14, x5, x15, lsl #2
	ldr	w15, [x14, #84]
	add	w15, w15, #1
	add	x17, x5, x8, lsl #2
	str	w15, [x14, #84]
	cinc	x8, x28, eq
	cmp	w11, #2
	str	w15, [x17, #84]
	cset	w15, eq
	cset	w14, hi
	cmp	w11, #1
	ldr	w0, [x16, #72]
	cinc	x10, x10, eq
	cmp	x18, x22
	csinc	x22, x22, x9, ls
	cmp	w0, #1
	b.ne	.LBB22_31
	ldur	x16, [x29, #-8]
	add	x16, x16, #1
	stur	x16, [x29, #-8]
	b	.LBB22_33
.LBB22_31:
	ldur	x0, [x29, #-16]
	mov	w18, #65535
	cmp	x0, x18
	b.ne	.LBB22_33
	ldr	w16, [x16, #80]
	stur	x25, [x29, #-16]
	sub	x16, x16, #1
	str	x16, [sp, #32]
.LBB22_33:
	ldr	w18, [x17, #40]
	mov	w16, #100
	sub	x17, x18, #1
	mul	x16, x17, x16
	ldr	w28, [x5, x16]
	cbz	w28, .LBB22_48
	mov	w16, #2
	mov	x0, x9
.LBB22_35:
	mov	w18, #25
	madd	x18, x28, x18, x11
	add	x18, x5, x18, lsl #2
	ldur	w18, [x18, #-44]
	cmp	w18, w25
	b.ne	.LBB22_61
	sub	x18, x28, #1
	mov	w1, #25
	mov	w19, #100
	madd	x1, x18, x1, x12
	cmp	x18, x0
	cinc	w16, w16, ne
	mul	x19, x18, x19
	ldr	w1, [x5, x1, lsl #2]
	sub	x20, x1, #1
	ldr	w28, [x5, x19]
	cmp	x20, x17
	mov	x17, x18
	mov	x0, x20
	cinc	w16, w16, ne
	cbnz	w28, .LBB22_35
	b	.LBB22_62
.LBB22_37:
	mov	w17, #2
	mov	w15, #100
	madd	x15, x20, x15, x5
	ldr	w18, [x15, #76]
	cmp	w18, w25
	b.eq	.LBB22_52
.LBB22_38:
	mov	w8, wzr
	b	.LBB22_53
.LBB22_39:
	cmp	w11, #0
	mov	x13, xzr
	mov	w18, w10
	cset	w8, eq
	cmp	w11, #2
	mov	w0, w28
	cset	w9, eq
	cset	w16, hi
	cmp	w11, #1
	sub	w15, w8, w9
	cset	w8, eq
	sub	w16, w8, w16
.LBB22_40:
	add	w8, w0, w15
	add	w9, w18, w18, lsr #31
	add	w17, w18, w16
	add	w21, w0, w0, lsr #31
	add	w30, w8, w8, lsr #31
	asr	w8, w9, #1
	add	w9, w17, w17, lsr #31
	asr	w17, w21, #1
	asr	w21, w30, #1
	cmp	w8, w9, asr #1
	ccmp	w17, w21, #0, eq
	b.eq	.LBB22_65
	mov	w9, #100
	add	x13, x13, #1
	mov	w0, w17
	mul	x9, x20, x9
	ldr	w9, [x5, x9]
	sub	x20, x9, #1
	mov	w9, #25
	mul	x9, x20, x9
	add	x18, x9, x12
	ldr	w21, [x5, x18, lsl #2]
	mov	w18, w8
	cbz	w21, .LBB22_40
	mov	w0, w17
	mov	w18, w8
	add	x8, x9, x11
	add	x17, x5, x8, lsl #2
	ldr	w8, [x17, #40]
	cbnz	w8, .LBB22_66
.LBB22_43:
	add	w21, w0, w15
	add	w8, w18, w16
	orr	w30, w8, w21
	cbz	w30, .LBB22_67
	orr	w0, w18, w0
	mov	x18, x20
	cbz	w0, .LBB22_46
	mov	w9, #100
	mul	x9, x20, x9
	ldr	w9, [x5, x9]
	sub	x18, x9, #1
	mov	w9, #25
	mul	x9, x18, x9
.LBB22_46:
	tst	w21, #0x1
	mov	w0, #7
	mov	w30, #4
	csel	x0, x30, x0, eq
	cmn	w21, #1
	mov	w21, #1
	csinc	x0, x0, xzr, ne
	tst	w8, #0x1
	cinc	x21, x21, ne
	cmn	w8, #1
	csel	x8, xzr, x21, eq
	add	x8, x8, x0
	add	x8, x8, x9
	ldr	w9, [x5, x8, lsl #2]
	cbz	w9, .LBB22_68
	sub	x9, x9, #1
	b	.LBB22_70
.LBB22_48:
	mov	w16, #2
	add	x11, x5, x13
	ldr	w12, [x11, #76]
	cmp	w12, w25
	b.eq	.LBB22_63
.LBB22_49:
	mov	w11, wzr
	b	.LBB22_64
.LBB22_50:
	mov	x30, x8
	mov	x0, x18
.LBB22_51:
	add	x8, x0, #1
	mov	w15, #100
	madd	x15, x30, x15, x5
	ldr	w18, [x15, #76]
	cmp	w18, w25
	b.ne	.LBB22_38
.LBB22_52:
	ldr	w15, [x15]
	cmp	x8, x15
	cset	w8, ne
.LBB22_53:
	mov	w15, #25
	mov	w18, #100
	madd	x15, x9, x15, x14
	madd	x18, x20, x18, x5
	add	x0, x5, x15, lsl #2
	ldr	w15, [x0, #84]
	sub	w1, w15, #1
	ldr	w15, [x18, #72]
	str	w1, [x0, #84]
	str	w1, [x12, #84]
	ldr	w12, [x18, #72]
	subs	w12, w12, #1
	str	w12, [x18, #72]
	b.ne	.LBB22_55
	str	wzr, [x18, #80]
.LBB22_55:
	add	w12, w8, w17
	sub	x16, x16, #25
	mov	x8, x9
.LBB22_56:
	mov	w17, #25
	madd	x17, x8, x17, x14
	add	x17, x5, x17, lsl #2
	ldr	w0, [x17, #56]
	cmp	w0, w25
	b.ne	.LBB22_58
	ldr	w0, [x17, #40]
	mov	w1, #25
	str	wzr, [x17, #40]
	str	wzr, [x17, #56]
	umaddl	x0, w0, w1, x16
	mov	w1, #100
	mul	x8, x8, x1
	add	x0, x5, x0, lsl #2
	str	wzr, [x0, #40]
	str	wzr, [x0, #56]
	ldr	w17, [x5, x8]
	sub	x8, x17, #1
	cbnz	w17, .LBB22_56
.LBB22_58:
	ldr	w8, [x18, #76]
	cmp	w8, w25
	b.ne	.LBB22_18
	mov	w14, w10
	mov	w16, w28
.LBB22_60:
	mov	w8, #100
	tst	w16, #0x1
	mov	w18, #7
	madd	x17, x20, x8, x5
	mov	w0, #4
	mov	w1, #1
	csel	x18, x0, x18, eq
	cmn	w16, #1
	mov	w19, #25
	csinc	x18, x18, xzr, ne
	tst	w14, #0x1
	movi	v0.2d, #0000000000000000
	cinc	x1, x1, ne
	cmn	w14, #1
	add	w16, w16, w16, lsr #31
	csel	x1, xzr, x1, eq
	add	w14, w14, w14, lsr #31
	sub	x22, x22, #1
	ldr	w0, [x17]
	add	x18, x18, x1
	asr	w16, w16, #1
	asr	w14, w14, #1
	sub	x20, x0, #1
	umaddl	x8, w0, w8, x5
	madd	x18, x20, x19, x18
	str	wzr, [x5, x18, lsl #2]
	str	wzr, [x17, #96]
	stp	q0, q0, [x17]
	stp	q0, q0, [x17, #32]
	stp	q0, q0, [x17, #64]
	ldur	w8, [x8, #-24]
	cmp	w8, w25
	b.eq	.LBB22_60
	b	.LBB22_18
.LBB22_61:
	mov	x20, x0
	mov	x18, x17
.LBB22_62:
	mov	w11, #100
	add	x18, x18, #1
	mul	x11, x20, x11
	add	x11, x5, x11
	ldr	w12, [x11, #76]
	cmp	w12, w25
	b.ne	.LBB22_49
.LBB22_63:
	ldr	w11, [x11]
	cmp	x18, x11
	cset	w11, ne
.LBB22_64:
	sub	x28, x8, x15
	sub	x8, x10, x14
	add	w12, w11, w16
	bfi	x28, x8, #32, #32
	b	.LBB22_19
.LBB22_65:
	mov	w8, #25
	mul	x9, x20, x8
	add	x8, x9, x11
	add	x17, x5, x8, lsl #2
	ldr	w8, [x17, #40]
	cbz	w8, .LBB22_43
.LBB22_66:
	sub	x9, x8, #1
	cbnz	x13, .LBB22_71
	b	.LBB22_27
.LBB22_67:
	ubfiz	x8, x11, #2, #2
	mov	w18, #1
	mov	x9, xzr
	str	w25, [x17, #56]
	add	w0, w20, #1
	eor	x8, x8, #0x8
	str	w18, [x17, #40]
	add	x8, x5, x8
	str	w0, [x8, #40]
	str	w25, [x8, #56]
	cbnz	x13, .LBB22_71
	b	.LBB22_27
.LBB22_68:
	add	x9, x22, #1
	mov	w0, #25
	mul	x0, x9, x0
	cmp	x6, x0
	b.lo	.LBB22_104
	mov	w0, #100
	str	w9, [x5, x8, lsl #2]
	add	w8, w18, #1
	madd	x0, x22, x0, x5
	mov	x9, x22
	str	w8, [x0]
	str	w25, [x0, #76]
.LBB22_70:
	and	x8, x11, #0x3
	mov	w18, #25
	add	w0, w20, #1
	eor	x8, x8, #0x2
	str	w25, [x17, #56]
	madd	x8, x9, x18, x8
	add	w18, w9, #1
	str	w18, [x17, #40]
	add	x8, x5, x8, lsl #2
	str	w0, [x8, #40]
	str	w25, [x8, #56]
	cbz	x13, .LBB22_27
.LBB22_71:
	and	x8, x11, #0x3
	sub	x18, x13, #1
	eor	x17, x8, #0x2
	b	.LBB22_74
.LBB22_72:
	sub	x9, x20, #1
.LBB22_73:
	sub	x20, x8, #1
	mov	w8, #25
	add	w0, w9, #1
	madd	x14, x20, x8, x11
	sub	x18, x18, #1
	madd	x8, x9, x8, x17
	add	x14, x5, x14, lsl #2
	add	x8, x5, x8, lsl #2
	str	w0, [x14, #40]
	add	w0, w20, #1
	str	w25, [x14, #56]
	str	w0, [x8, #40]
	str	w25, [x8, #56]
	cbz	x13, .LBB22_27
.LBB22_74:
	subs	x13, x13, #1
	mov	w30, w28
	mov	w0, w10
	b.eq	.LBB22_77
	mov	x8, x18
	mov	w0, w10
	mov	w30, w28
.LBB22_76:
	add	w21, w30, w30, lsr #31
	add	w0, w0, w0, lsr #31
	subs	x8, x8, #1
	asr	w30, w21, #1
	asr	w0, w0, #1
	b.ne	.LBB22_76
.LBB22_77:
	tst	w30, #0x1
	mov	w8, #7
	mov	w21, #4
	csel	x19, x21, x8, eq
	cmn	w30, #1
	mov	w23, #1
	csinc	x19, x19, xzr, ne
	tst	w0, #0x1
	add	x26, x9, #1
	cinc	x24, x23, ne
	cmn	w0, #1
	add	w14, w30, w15
	csel	x24, xzr, x24, eq
	cmp	x26, x22
	add	w0, w0, w16
	csinc	x30, x22, x9, ls
	tst	w14, #0x1
	csel	x8, x21, x8, eq
	cmn	w14, #1
	mov	w21, #25
	csinc	x8, x8, xzr, ne
	madd	x14, x20, x21, x19
	tst	w0, #0x1
	cinc	x19, x23, ne
	cmn	w0, #1
	madd	x8, x9, x21, x8
	csel	x0, xzr, x19, eq
	add	x0, x8, x0
	add	x8, x14, x24
	ldr	w20, [x5, x0, lsl #2]
	ldr	w8, [x5, x8, lsl #2]
	cbnz	w20, .LBB22_72
	add	x20, x30, #1
	mov	w14, #25
	mul	x14, x20, x14
	cmp	x6, x14
	b.lo	.LBB22_104
	mov	w14, #100
	add	w9, w9, #1
	str	w20, [x5, x0, lsl #2]
	madd	x14, x30, x14, x5
	str	w9, [x14]
	mov	x9, x30
	str	w25, [x14, #76]
	b	.LBB22_73
.LBB22_80:
	cbz	x15, .LBB22_84
	subs	x20, x15, #1
	b.eq	.LBB22_83
	lsl	x8, x15, #2
	ldur	x0, [x29, #-24]
	mov	w1, wzr
	sub	x2, x8, #4
	bl	memset
.LBB22_83:
	ldur	x8, [x29, #-24]
	str	wzr, [x8, x20, lsl #2]
.LBB22_84:
	cbz	x24, .LBB22_88
	subs	x21, x24, #1
	b.eq	.LBB22_87
	mov	x0, x25
	mov	w1, wzr
	mov	x2, x21
	bl	memset
.LBB22_87:
	strb	wzr, [x25, x21]
.LBB22_88:
	movi	v0.2d, #0000000000000000
	adrp	x8, .LCPI22_0
	str	xzr, [x19, #64]
	ldr	q1, [x8, :lo12:.LCPI22_0]
	stp	q1, q0, [x19]
	stp	q0, q0, [x19, #32]
	b	.LBB22_131
.LBB22_89:
	mov	w8, #65535
	mov	x25, xzr
	str	x8, [sp, #32]
	mov	w8, #1
	stur	x8, [x29, #-8]
	mov	w8, #65535
	stur	x8, [x29, #-16]
.LBB22_90:
	ldr	x27, [sp, #8]
	cmp	x27, x25
	b.eq	.LBB22_94
	mvn	x8, x25
	adds	x21, x27, x8
	ldr	x8, [sp, #24]
	add	x19, x8, x25
	b.eq	.LBB22_93
	add	x0, x8, x25
	mov	w1, wzr
	mov	x20, x2
	mov	x2, x21
	mov	w27, w7
	bl	memset
	mov	x2, x20
	mov	w7, w27
.LBB22_93:
	mov	x27, x25
	strb	wzr, [x19, x21]
.LBB22_94:
	cmp	w7, w28
	b.ne	.LBB22_102
	ldr	x19, [sp, #16]
	ldur	x14, [x29, #-16]
	cbz	x27, .LBB22_116
	lsr	x8, x28, #32
	cmp	w2, w8
	b.ne	.LBB22_103
	ldr	x12, [sp, #32]
	mov	w8, wzr
	mov	x9, xzr
	mov	w10, #4
	cbnz	x12, .LBB22_129
	cmp	x14, x27
	b.ne	.LBB22_129
	cmp	x14, #2
	b.hi	.LBB22_125
	cmp	x27, #1
	b.eq	.LBB22_125
	mov	x9, xzr
	mov	x12, xzr
	mov	w8, wzr
	mov	w10, #5
	b	.LBB22_128
.LBB22_102:
	ldr	x19, [sp, #16]
	ldur	x14, [x29, #-16]
	cbz	x27, .LBB22_116
.LBB22_103:
	mov	w10, #65535
	mov	x9, xzr
	mov	w8, wzr
	cmp	x14, x10
	mov	w10, #3
	csinc	x10, x10, xzr, ne
	b	.LBB22_117
.LBB22_104:
	ldp	x19, x23, [sp, #16]
	ldr	x21, [sp]
	cbz	x6, .LBB22_108
	subs	x20, x6, #1
	b.eq	.LBB22_107
	lsl	x8, x6, #2
	mov	x0, x5
	mov	w1, wzr
	mov	x22, x5
	sub	x2, x8, #4
	bl	memset
	mov	x5, x22
.LBB22_107:
	str	wzr, [x5, x20, lsl #2]
.LBB22_108:
	cbz	x21, .LBB22_112
	subs	x20, x21, #1
	b.eq	.LBB22_111
	lsl	x8, x21, #2
	ldur	x0, [x29, #-24]
	mov	w1, wzr
	sub	x2, x8, #4
	bl	memset
.LBB22_111:
	ldur	x8, [x29, #-24]
	str	wzr, [x8, x20, lsl #2]
.LBB22_112:
	ldr	x8, [sp, #8]
	cbz	x8, .LBB22_122
	subs	x21, x8, #1
	b.eq	.LBB22_115
	mov	x0, x23
	mov	w1, wzr
	mov	x2, x21
	bl	memset
.LBB22_115:
	mov	x22, xzr
	mov	x11, xzr
	mov	x12, xzr
	mov	x14, xzr
	mov	w8, wzr
	mov	x28, xzr
	strb	wzr, [x23, x21]
	b	.LBB22_123
.LBB22_116:
	mov	x9, xzr
	mov	x10, xzr
	mov	w8, wzr
.LBB22_117:
	ldur	x11, [x29, #-8]
	ldr	x12, [sp, #32]
	b	.LBB22_130
.LBB22_118:
	cbz	x6, .LBB22_124
	subs	x21, x6, #1
	b.eq	.LBB22_121
	lsl	x8, x6, #2
	mov	x0, x5
	mov	w1, wzr
	mov	x22, x2
	mov	w20, w7
	mov	x26, x5
	sub	x8, x8, #4
	mov	x23, x6
	str	x15, [sp]
	mov	x2, x8
	mov	x28, x24
	mov	x27, x4
	mov	x24, x3
	bl	memset
	ldr	x15, [sp]
	mov	x3, x24
	mov	x4, x27
	mov	x24, x28
	mov	x6, x23
	mov	x5, x26
	mov	x2, x22
	mov	w7, w20
.LBB22_121:
	mov	w8, wzr
	mov	x20, xzr
	str	wzr, [x5, x21, lsl #2]
	b	.LBB22_15
.LBB22_122:
	mov	x22, xzr
	mov	x11, xzr
	mov	x12, xzr
	mov	x14, xzr
	mov	x28, xzr
.LBB22_123:
	mov	w10, #6
	mov	w9, #1
	b	.LBB22_130
.LBB22_124:
	mov	w8, wzr
	mov	x20, xzr
	b	.LBB22_15
.LBB22_125:
	ldr	x13, [sp, #24]
	mov	x9, xzr
	mov	w8, wzr
.LBB22_126:
	ldrb	w10, [x13, x9]
	add	x9, x9, #1
	cmp	w10, #1
	cset	w11, eq
	cmp	w10, #2
	cset	w12, hi
	sub	w11, w11, w12
	cset	w12, eq
	cmp	w10, #0
	madd	w8, w11, w7, w8
	cinc	w10, w7, eq
	cmp	x14, x9
	sub	w7, w10, w12
	mov	w10, #2
	b.ne	.LBB22_126
	mov	x9, xzr
	mov	x12, xzr
.LBB22_128:
	mov	x27, x14
.LBB22_129:
	ldur	x11, [x29, #-8]
.LBB22_130:
	stp	x9, x10, [x19]
	stp	x27, x22, [x19, #16]
	stp	x11, x12, [x19, #32]
	str	x14, [x19, #48]
	str	w8, [x19, #56]
	stur	x28, [x19, #60]
	str	wzr, [x19, #68]
.LBB22_131:
	ldp	x20, x19, [sp, #144]
	ldp	x22, x21, [sp, #128]
	ldp	x24, x23, [sp, #112]
	ldp	x26, x25, [sp, #96]
	ldp	x28, x27, [sp, #80]
	ldp	x29, x30, [sp, #64]
	add	sp, sp, #160
	ret
.Lfunc_end22:
	.size	"walk_call::set_out", .Lfunc_end22-"walk_call::set_out"

	.section	".text.hull_call::list_sized::<=1025>","ax",@progbits
	.p2align	2
	.type	"hull_call::list_sized::<=1025>",@function
"hull_call::list_sized::<=1025>":
	stp	x29, x30, [sp, #-96]!
	stp	x28, x27, [sp, #16]
	mov	x29, sp
	stp	x26, x25, [sp, #32]
	stp	x24, x23, [sp, #48]
	stp	x22, x21, [sp, #64]
	stp	x20, x19, [sp, #80]
	sub	sp, sp, #3072
	str	xzr, [sp]
	sub	sp, sp, #3072
	str	xzr, [sp]
	sub	sp, sp, #2160
	mov	x19, x0
	add	x0, sp, #1, lsl #12
	mov	x22, x2
	mov	x23, x1
	add	x0, x0, #2126
	mov	w1, #255
	mov	w2, #2050
	str	xzr, [sp]
	mov	x24, x5
	mov	x20, x4
	mov	x21, x3
	stp	xzr, xzr, [x29, #-32]
	sub	x25, x29, #32
	stur	xzr, [x29, #-16]
	mov	w26, #2050
	bl	memset
	add	x0, sp, #1, lsl #12
	mov	w1, #255
	mov	w2, #2050
	add	x0, x0, #76
	bl	memset
	add	x0, sp, #2122
	mov	w1, wzr
	mov	w2, #2050
	add	x28, sp, #2122
	bl	memset
	add	x0, sp, #72
	mov	w1, wzr
	mov	w2, #2050
	add	x27, sp, #72
	bl	memset
	mov	w9, #1025
	sub	x8, x20, x21
	add	x7, sp, #1, lsl #12
	stp	x27, x9, [sp, #40]
	add	x8, x8, #1
	mov	w3, wzr
	stp	x28, x9, [sp, #24]
	add	x9, sp, #1, lsl #12
	mov	w4, wzr
	sub	x0, x29, #32
	add	x7, x7, #2126
	add	x9, x9, #76
	mov	x1, x23
	mov	x2, x22
	mov	x5, x21
	mov	x6, x20
	stp	x24, x26, [sp, #56]
	stp	x9, x8, [sp, #8]
	str	x8, [sp]
	bl	"hull_call::list_in"
	ldrb	w8, [x25]
	ldur	q0, [x25, #8]
	str	x8, [x19]
	stur	q0, [x19, #8]
	add	sp, sp, #2, lsl #12
	add	sp, sp, #112
	ldp	x20, x19, [sp, #80]
	ldp	x22, x21, [sp, #64]
	ldp	x24, x23, [sp, #48]
	ldp	x26, x25, [sp, #32]
	ldp	x28, x27, [sp, #16]
	ldp	x29, x30, [sp], #96
	ret
.Lfunc_end23:
	.size	"hull_call::list_sized::<=1025>", .Lfunc_end23-"hull_call::list_sized::<=1025>"

	.section	.rodata.cst16,"aM",@progbits,16
	.p2align	4, 0x0
.LCPI24_0:
	.xword	1
	.xword	0
.LCPI24_1:
	.xword	-1
	.xword	0
.LCPI24_2:
	.xword	0
	.xword	1
.LCPI24_3:
	.xword	0
	.xword	-1
	.section	".text.room_judge::judge","ax",@progbits
	.p2align	2
	.type	"room_judge::judge",@function
"room_judge::judge":
	sub	sp, sp, #128
	cmp	x4, #8, lsl #12
	stp	x29, x30, [sp, #96]
	add	x29, sp, #96
	str	x19, [sp, #112]
	b.ls	.LBB24_3
	mov	x8, xzr
	mov	x9, xzr
.LBB24_2:
	mov	w10, #1
	stp	x9, x8, [x0, #8]
	strb	w10, [x0]
	ldp	x29, x30, [sp, #96]
	ldr	x19, [sp, #112]
	add	sp, sp, #128
	ret
.LBB24_3:
	add	w9, w1, #4, lsl #12
	mov	x8, xzr
	cmp	w9, #8, lsl #12
	mov	w9, #9
	b.hi	.LBB24_2
	add	w10, w2, #4, lsl #12
	cmp	w10, #8, lsl #12
	b.hi	.LBB24_2
	cmp	x4, #4, lsl #12
	b.hi	.LBB24_21
	cbz	x4, .LBB24_25
	cmp	x4, #4
	b.hs	.LBB24_9
	mov	w9, wzr
	mov	x8, xzr
	b	.LBB24_18
.LBB24_9:
	cmp	x4, #32
	b.hs	.LBB24_11
	mov	x8, xzr
	mov	w9, wzr
	b	.LBB24_15
.LBB24_11:
	movi	v0.2d, #0000000000000000
	movi	v1.2d, #0000000000000000
	and	x10, x4, #0x1c
	and	x8, x4, #0x7fe0
	add	x9, x3, #16
	and	x11, x4, #0x7fe0
.LBB24_12:
	ldp	q2, q3, [x9, #-16]
	subs	x11, x11, #32
	add	x9, x9, #32
	umax	v0.16b, v2.16b, v0.16b
	umax	v1.16b, v3.16b, v1.16b
	b.ne	.LBB24_12
	umax	v0.16b, v0.16b, v1.16b
	cmp	x4, x8
	umaxv	b0, v0.16b
	fmov	w9, s0
	b.eq	.LBB24_20
	cbz	x10, .LBB24_18
.LBB24_15:
	dup	v0.4h, w9
	mov	x10, x8
	and	x8, x4, #0x7ffc
	sub	x9, x10, x8
	add	x10, x3, x10
.LBB24_16:
	ldr	s1, [x10], #4
	bic	v0.4h, #255, lsl #8
	adds	x9, x9, #4
	ushll	v1.8h, v1.8b, #0
	umax	v0.4h, v1.4h, v0.4h
	b.ne	.LBB24_16
	umaxv	h0, v0.4h
	cmp	x4, x8
	fmov	w9, s0
	b.eq	.LBB24_20
.LBB24_18:
	sub	x10, x4, x8
	add	x8, x3, x8
.LBB24_19:
	ldrb	w11, [x8], #1
	and	w9, w9, #0xff
	cmp	w11, w9
	csel	w9, w11, w9, hi
	subs	x10, x10, #1
	b.ne	.LBB24_19
.LBB24_20:
	and	w8, w9, #0xff
	cmp	w8, #4
	b.lo	.LBB24_25
.LBB24_21:
	mov	x8, xzr
.LBB24_22:
	ldrb	w9, [x3, x8]
	cmp	w9, #3
	b.hi	.LBB24_29
	cmp	x8, #4, lsl #12
	b.eq	.LBB24_30
	add	x8, x8, #1
	cmp	x4, x8
	b.ne	.LBB24_22
.LBB24_25:
	adrp	x8, .LCPI24_0
	adrp	x9, .LCPI24_1
	ldr	q0, [x8, :lo12:.LCPI24_0]
	ldr	q1, [x9, :lo12:.LCPI24_1]
	adrp	x8, .LCPI24_2
	adrp	x9, .LCPI24_3
	ldr	q2, [x8, :lo12:.LCPI24_2]
	stp	q0, q1, [x29, #-32]
	ldr	q0, [x9, :lo12:.LCPI24_3]
	stp	q2, q0, [sp, #32]
	cbz	x4, .LBB24_31
	mov	w9, #16384
	mov	x13, x3
	mov	x15, x4
	mov	w14, #16384
	mov	w11, #16384
	mov	w10, #16384
	mov	w8, #16384
	mov	w12, #16384
.LBB24_27:
	ldrb	w16, [x13], #1
	sub	x17, x29, #32
	add	x18, sp, #32
	ldr	x17, [x17, x16, lsl #3]
	ldr	x16, [x18, x16, lsl #3]
	add	x14, x17, x14
	add	x11, x16, x11
	cmp	x14, x9
	csel	x9, x14, x9, lo
	cmp	x14, x10
	csel	x10, x14, x10, hi
	cmp	x11, x8
	csel	x8, x11, x8, lo
	cmp	x11, x12
	csel	x12, x11, x12, hi
	subs	x15, x15, #1
	b.ne	.LBB24_27
	cmp	x14, #4, lsl #12
	mov	w13, #16384
	mov	x19, x0
	ccmp	x11, x13, #0, eq
	add	x12, x12, #1
	cset	w11, eq
	b	.LBB24_32
.LBB24_29:
	mov	w9, #3
	b	.LBB24_2
.LBB24_30:
	mov	w9, #5
	b	.LBB24_2
.LBB24_31:
	mov	x19, x0
	mov	w11, #1
	mov	w8, #16384
	mov	w12, #16385
	mov	w10, #16384
	mov	w9, #16384
.LBB24_32:
	sub	x10, x10, x9
	mov	w13, #16384
	neg	x9, x9
	add	x10, x10, #1
	sub	x13, x13, x8
	sub	x8, x12, x8
	madd	x9, x10, x13, x9
	stp	x10, x8, [sp]
	mov	x2, sp
	mov	x0, x3
	mov	x1, x4
	strb	w11, [sp, #24]
	stur	wzr, [sp, #25]
	str	wzr, [sp, #28]
	add	x8, x9, #4, lsl #12
	str	x8, [sp, #16]
	bl	"room_map::is_room_in"
	mov	w8, #11
	cmp	w0, #0
	eor	w9, w0, #0x1
	csel	x8, xzr, x8, ne
	strb	w9, [x19]
	stp	x8, xzr, [x19, #8]
	ldp	x29, x30, [sp, #96]
	ldr	x19, [sp, #112]
	add	sp, sp, #128
	ret
.Lfunc_end24:
	.size	"room_judge::judge", .Lfunc_end24-"room_judge::judge"

	.section	".text.orthogonal_call::outline_sized::<=258>","ax",@progbits
	.p2align	2
	.type	"orthogonal_call::outline_sized::<=258>",@function
"orthogonal_call::outline_sized::<=258>":
	stp	x29, x30, [sp, #-64]!
	stp	x28, x23, [sp, #16]
	mov	x29, sp
	stp	x22, x21, [sp, #32]
	stp	x20, x19, [sp, #48]
	sub	sp, sp, #1584
	movi	v0.2d, #0000000000000000
	mov	x20, x2
	mov	x21, x1
	mov	x22, x0
	sub	x23, x29, #32
	add	x0, sp, #1036
	mov	w1, #255
	mov	w2, #516
	str	xzr, [sp]
	mov	x19, x3
	stp	q0, q0, [x23]
	bl	memset
	add	x0, sp, #520
	mov	w1, #255
	mov	w2, #516
	bl	memset
	add	x0, sp, #4
	mov	w1, wzr
	mov	w2, #516
	bl	memset
	sub	x0, x29, #32
	add	x2, sp, #1036
	add	x3, sp, #520
	add	x4, sp, #4
	mov	x1, x21
	mov	x5, x20
	mov	x6, x19
	bl	"orthogonal_call::outline_in"
	ldurb	w8, [x29, #-32]
	ldur	q0, [x23, #8]
	ldr	x9, [x23, #24]
	str	x8, [x22]
	stur	q0, [x22, #8]
	str	x9, [x22, #24]
	add	sp, sp, #1584
	ldp	x20, x19, [sp, #48]
	ldp	x22, x21, [sp, #32]
	ldp	x28, x23, [sp, #16]
	ldp	x29, x30, [sp], #64
	ret
.Lfunc_end25:
	.size	"orthogonal_call::outline_sized::<=258>", .Lfunc_end25-"orthogonal_call::outline_sized::<=258>"

	.section	.rodata.cst16,"aM",@progbits,16
	.p2align	4, 0x0
.LCPI26_0:
	.word	1
	.word	0
	.word	4294967295
	.word	0
	.section	".text.orthogonal_call::outline_in","ax",@progbits
	.p2align	2
	.type	"orthogonal_call::outline_in",@function
"orthogonal_call::outline_in":
	ldr	x8, [x1, #24]
	cbz	x8, .LBB26_83
	sub	sp, sp, #208
	ldp	x11, x9, [x1, #8]
	lsl	w14, w8, #15
	ldp	w15, w17, [x1]
	stp	x22, x21, [sp, #176]
	lsr	x10, x9, #1
	stp	x29, x30, [sp, #112]
	add	x29, sp, #112
	stp	x28, x27, [sp, #128]
	add	w12, w10, #1
	stp	x26, x25, [sp, #144]
	and	x10, x12, #0xffff
	and	w13, w12, #0xffff
	stp	x24, x23, [sp, #160]
	lsl	x10, x10, #1
	sub	w16, w14, w13
	stp	x20, x19, [sp, #192]
	add	w14, w16, w15
	add	w15, w16, w17
	adrp	x16, .LCPI26_0
	sub	x10, x10, #2
	sxtw	x14, w14
	sxtw	x15, w15
	udiv	x10, x10, x8
	mov	x17, #65536
	ldr	q0, [x16, :lo12:.LCPI26_0]
	movk	x17, #65535, lsl #48
	stur	x17, [x29, #-24]
	stur	q0, [x29, #-16]
	udiv	x21, x14, x8
	add	x7, x10, #2
	mov	x10, x7
	udiv	x22, x15, x8
	cbz	x9, .LBB26_6
	msub	x14, x21, x8, x14
	msub	x15, x22, x8, x15
	mul	x16, x7, x8
	b	.LBB26_4
.LBB26_3:
	sub	x18, x29, #16
	sub	x1, x29, #24
	subs	x9, x9, #1
	ldr	w18, [x18, w17, uxtw #2]
	ldrh	w17, [x1, w17, uxtw #1]
	add	w13, w18, w13
	add	w12, w17, w12
	b.eq	.LBB26_6
.LBB26_4:
	ldrb	w17, [x11], #1
	tbz	w17, #0, .LBB26_3
	cmp	w17, #2
	add	w20, w14, w13
	cset	w18, hi
	and	w19, w20, #0xffff
	sub	w18, w12, w18
	add	x18, x15, w18, uxth
	udiv	x18, x18, x8
	ldrh	w1, [x2, x18, lsl #1]
	cmp	w19, w1
	csel	w1, w19, w1, lo
	strh	w1, [x2, x18, lsl #1]
	sub	w19, w16, w20
	ldrh	w1, [x3, x18, lsl #1]
	and	w19, w19, #0xffff
	cmp	w19, w1
	csel	w1, w19, w1, lo
	strh	w1, [x3, x18, lsl #1]
	b	.LBB26_3
.LBB26_6:
	mov	x19, xzr
	cbz	x10, .LBB26_10
.LBB26_7:
	ldrsh	w9, [x2, x19, lsl #1]
	cmn	w9, #1
	b.ne	.LBB26_10
	add	x19, x19, #1
	cmp	x7, x19
	b.ne	.LBB26_7
	mov	x19, x10
.LBB26_10:
	mov	x9, x10
	cbz	x10, .LBB26_12
	sub	x10, x9, #1
	ldrsh	w11, [x2, x10, lsl #1]
	cmn	w11, #1
	b.eq	.LBB26_10
.LBB26_12:
	lsl	x15, x19, #1
	subs	x16, x9, x19
	add	x28, x3, x15
	add	x17, x2, x15
	b.eq	.LBB26_22
	lsl	x10, x16, #1
	mov	x12, x16
	add	x9, x17, x10
	ldurh	w9, [x9, #-2]
	udiv	x11, x9, x8
	add	x9, x4, x15
.LBB26_14:
	sub	x12, x12, #1
	ldrh	w13, [x17, x12, lsl #1]
	udiv	x13, x13, x8
	strh	w13, [x17, x12, lsl #1]
	cmp	x13, x11
	csel	x11, x13, x11, lo
	strh	w11, [x9, x12, lsl #1]
	cbnz	x12, .LBB26_14
	ldrh	w11, [x17]
.LBB26_16:
	ldrh	w13, [x17, x12, lsl #1]
	and	w11, w11, #0xffff
	ldrh	w14, [x9, x12, lsl #1]
	cmp	w13, w11
	csel	w11, w13, w11, lo
	cmp	w14, w11
	csel	w13, w14, w11, hi
	strh	w13, [x17, x12, lsl #1]
	add	x12, x12, #1
	cmp	x16, x12
	b.ne	.LBB26_16
	add	x10, x28, x10
	mov	x11, x16
	ldurh	w10, [x10, #-2]
	udiv	x10, x10, x8
.LBB26_18:
	sub	x11, x11, #1
	ldrh	w12, [x28, x11, lsl #1]
	udiv	x12, x12, x8
	strh	w12, [x28, x11, lsl #1]
	cmp	x12, x10
	csel	x10, x12, x10, lo
	strh	w10, [x9, x11, lsl #1]
	cbnz	x11, .LBB26_18
	ldrh	w8, [x28]
	mov	x10, xzr
.LBB26_20:
	ldrh	w11, [x28, x10, lsl #1]
	and	w8, w8, #0xffff
	ldrh	w12, [x9, x10, lsl #1]
	cmp	w11, w8
	csel	w8, w11, w8, lo
	cmp	w12, w8
	csel	w11, w12, w8, hi
	strh	w11, [x28, x10, lsl #1]
	add	x10, x10, #1
	cmp	x16, x10
	b.ne	.LBB26_20
	cmp	x16, #1
	b.ne	.LBB26_23
.LBB26_22:
	mov	x20, xzr
	mov	x8, xzr
	b	.LBB26_28
.LBB26_23:
	mov	x20, xzr
	mov	w8, #1
.LBB26_24:
	ldrh	w9, [x17, x8, lsl #1]
	ldrh	w10, [x17, x20, lsl #1]
	cmp	w9, w10
	csel	x20, x8, x20, lo
	add	x8, x8, #1
	cmp	x16, x8
	b.ne	.LBB26_24
	mov	x8, xzr
	mov	w9, #1
.LBB26_26:
	ldrh	w10, [x28, x9, lsl #1]
	ldrh	w11, [x28, x8, lsl #1]
	cmp	w10, w11
	csel	x8, x9, x8, lo
	add	x9, x9, #1
	cmp	x16, x9
	b.ne	.LBB26_26
	lsl	x8, x8, #1
.LBB26_28:
	ldrh	w8, [x28, x8]
	ldrh	w24, [x17, x20, lsl #1]
	add	x9, x16, x7
	add	x8, x8, x24
	sub	x8, x9, x8
	lsl	x8, x8, #1
	cmp	x6, x8
	b.hs	.LBB26_30
	mov	x8, xzr
	mov	x11, xzr
	mov	w1, #17
	mov	w10, #1
	b	.LBB26_82
.LBB26_30:
	add	x9, x2, x15
	stp	x8, x21, [sp, #16]
	mov	x21, xzr
	stp	x9, x3, [sp, #48]
	stp	x16, x7, [x29, #-48]
	str	x0, [sp, #32]
	stur	x5, [x29, #-32]
	stp	x2, x22, [sp]
	str	x15, [sp, #40]
	cbz	x20, .LBB26_42
	add	x8, x15, x2
	mov	x25, x20
	sub	x10, x8, #2
	mov	x27, x10
	b	.LBB26_34
.LBB26_32:
	strb	wzr, [x26, x23]
.LBB26_33:
	add	x8, x22, x21
	sub	x25, x25, #1
	mov	w9, #3
	add	x21, x8, #1
	strb	w9, [x5, x8]
	cbz	x25, .LBB26_42
.LBB26_34:
	mov	x8, x24
	ldrh	w24, [x10, x25, lsl #1]
	add	x26, x5, x21
	subs	x22, x8, x24
	b.hs	.LBB26_37
	sub	x22, x24, x8
	subs	x23, x22, #1
	b.eq	.LBB26_32
	add	x0, x5, x21
	mov	w1, wzr
	mov	x2, x23
	bl	memset
	ldur	x5, [x29, #-32]
	mov	x10, x27
	b	.LBB26_32
.LBB26_37:
	b.eq	.LBB26_41
	subs	x23, x22, #1
	b.eq	.LBB26_40
	add	x0, x5, x21
	mov	w1, #2
	mov	x2, x23
	bl	memset
	ldur	x5, [x29, #-32]
	mov	x10, x27
.LBB26_40:
	mov	w8, #2
	strb	w8, [x26, x23]
	b	.LBB26_33
.LBB26_41:
	mov	x22, xzr
	b	.LBB26_33
.LBB26_42:
	ldur	x26, [x29, #-48]
	cbz	x26, .LBB26_54
	ldp	x9, x8, [sp, #40]
	ldr	x10, [sp, #56]
	ldrh	w8, [x8]
	add	x24, x10, x9
	b	.LBB26_46
.LBB26_44:
	strb	wzr, [x27, x23]
.LBB26_45:
	add	x8, x22, x21
	mov	w9, #1
	subs	x26, x26, #1
	strb	w9, [x5, x8]
	add	x21, x8, #1
	mov	x8, x25
	b.eq	.LBB26_54
.LBB26_46:
	ldrh	w9, [x24], #2
	ldur	x10, [x29, #-40]
	add	x27, x5, x21
	sub	x25, x10, x9
	subs	x22, x8, x25
	b.hs	.LBB26_49
	sub	x22, x25, x8
	subs	x23, x22, #1
	b.eq	.LBB26_44
	add	x0, x5, x21
	mov	w1, wzr
	mov	x2, x23
	bl	memset
	ldur	x5, [x29, #-32]
	b	.LBB26_44
.LBB26_49:
	b.eq	.LBB26_53
	subs	x23, x22, #1
	b.eq	.LBB26_52
	add	x0, x5, x21
	mov	w1, #2
	mov	x2, x23
	bl	memset
	ldur	x5, [x29, #-32]
.LBB26_52:
	mov	w8, #2
	strb	w8, [x27, x23]
	b	.LBB26_45
.LBB26_53:
	mov	x22, xzr
	b	.LBB26_45
.LBB26_54:
	ldur	x8, [x29, #-48]
	ldp	x10, x27, [sp, #48]
	cmp	x20, x8
	ldr	x8, [sp, #8]
	add	x19, x8, x19
	b.hs	.LBB26_66
	ldp	x26, x9, [x29, #-48]
	add	x8, x28, x26, lsl #1
	ldurh	w8, [x8, #-2]
	sub	x24, x9, x8
	b	.LBB26_58
.LBB26_56:
	strb	wzr, [x25, x23]
.LBB26_57:
	add	x8, x22, x21
	cmp	x20, x26
	mov	x10, x28
	add	x21, x8, #1
	mov	w9, #3
	strb	w9, [x5, x8]
	b.hs	.LBB26_66
.LBB26_58:
	sub	x26, x26, #1
	mov	x8, x24
	mov	x28, x10
	ldrh	w24, [x10, x26, lsl #1]
	add	x25, x5, x21
	subs	x22, x8, x24
	b.hs	.LBB26_61
	sub	x22, x24, x8
	subs	x23, x22, #1
	b.eq	.LBB26_56
	add	x0, x5, x21
	mov	w1, wzr
	mov	x2, x23
	bl	memset
	ldur	x5, [x29, #-32]
	b	.LBB26_56
.LBB26_61:
	b.eq	.LBB26_65
	subs	x23, x22, #1
	b.eq	.LBB26_64
	add	x0, x5, x21
	mov	w1, #2
	mov	x2, x23
	bl	memset
	ldur	x5, [x29, #-32]
.LBB26_64:
	mov	w8, #2
	strb	w8, [x25, x23]
	b	.LBB26_57
.LBB26_65:
	mov	x22, xzr
	b	.LBB26_57
.LBB26_66:
	ldrh	w8, [x10, x20, lsl #1]
	ldr	x10, [sp, #24]
	mov	w9, #-32768
	ldur	x18, [x29, #-48]
	add	x9, x10, x9
	add	x8, x9, x8
	add	x9, x19, x20
	cbz	x18, .LBB26_69
	ldp	x0, x17, [sp, #32]
	cmp	x18, #4
	ldr	x1, [sp, #16]
	b.hs	.LBB26_70
	ldr	x15, [sp]
	ldur	x16, [x29, #-40]
	mov	x11, xzr
	mov	x10, xzr
	b	.LBB26_79
.LBB26_69:
	ldr	x0, [sp, #32]
	ldr	x1, [sp, #16]
	mov	x11, xzr
	b	.LBB26_81
.LBB26_70:
	ldur	x16, [x29, #-40]
	ldr	x15, [sp]
	cmp	x18, #16
	dup	v0.2d, x16
	b.hs	.LBB26_72
	mov	x10, xzr
	mov	x11, xzr
	b	.LBB26_76
.LBB26_72:
	movi	v1.2d, #0000000000000000
	movi	v7.2d, #0000000000000000
	add	x13, x17, #16
	movi	v6.2d, #0000000000000000
	movi	v4.2d, #0000000000000000
	and	x12, x18, #0xc
	movi	v16.2d, #0000000000000000
	movi	v5.2d, #0000000000000000
	and	x10, x18, #0xfffffffffffffff0
	movi	v3.2d, #0000000000000000
	movi	v2.2d, #0000000000000000
	add	x11, x27, x13
	add	x13, x15, x13
	and	x14, x18, #0xfffffffffffffff0
.LBB26_73:
	ldp	q17, q20, [x11, #-16]
	add	v7.2d, v7.2d, v0.2d
	ldp	q18, q19, [x13, #-16]
	add	v16.2d, v16.2d, v0.2d
	add	v6.2d, v6.2d, v0.2d
	add	v4.2d, v4.2d, v0.2d
	add	v5.2d, v5.2d, v0.2d
	add	v3.2d, v3.2d, v0.2d
	add	v2.2d, v2.2d, v0.2d
	add	v1.2d, v1.2d, v0.2d
	uaddl	v21.4s, v18.4h, v17.4h
	uaddl2	v17.4s, v18.8h, v17.8h
	subs	x14, x14, #16
	uaddl2	v18.4s, v19.8h, v20.8h
	uaddl	v19.4s, v19.4h, v20.4h
	add	x11, x11, #32
	add	x13, x13, #32
	usubw	v4.2d, v4.2d, v17.2s
	usubw2	v6.2d, v6.2d, v21.4s
	usubw2	v16.2d, v16.2d, v17.4s
	usubw	v7.2d, v7.2d, v21.2s
	usubw	v3.2d, v3.2d, v18.2s
	usubw2	v1.2d, v1.2d, v19.4s
	usubw2	v2.2d, v2.2d, v18.4s
	usubw	v5.2d, v5.2d, v19.2s
	b.ne	.LBB26_73
	add	v1.2d, v1.2d, v6.2d
	add	v2.2d, v2.2d, v16.2d
	cmp	x18, x10
	add	v5.2d, v5.2d, v7.2d
	add	v3.2d, v3.2d, v4.2d
	add	v1.2d, v1.2d, v2.2d
	add	v3.2d, v5.2d, v3.2d
	add	v1.2d, v3.2d, v1.2d
	addp	d1, v1.2d
	fmov	x11, d1
	b.eq	.LBB26_81
	cbz	x12, .LBB26_79
.LBB26_76:
	movi	v1.2d, #0000000000000000
	movi	v2.2d, #0000000000000000
	add	x13, x17, x10, lsl #1
	mov	x12, x10
	and	x10, x18, #0xfffffffffffffffc
	mov	v1.d[0], x11
	sub	x11, x10, x12
	add	x12, x27, x13
	add	x13, x15, x13
.LBB26_77:
	ldr	d3, [x13], #8
	add	v1.2d, v1.2d, v0.2d
	ldr	d4, [x12], #8
	add	v2.2d, v2.2d, v0.2d
	subs	x11, x11, #4
	uaddl	v3.4s, v3.4h, v4.4h
	usubw2	v2.2d, v2.2d, v3.4s
	usubw	v1.2d, v1.2d, v3.2s
	b.ne	.LBB26_77
	add	v0.2d, v1.2d, v2.2d
	cmp	x18, x10
	addp	d0, v0.2d
	fmov	x11, d0
	b.eq	.LBB26_81
.LBB26_79:
	add	x13, x17, x10, lsl #1
	sub	x10, x18, x10
	add	x12, x27, x13
	add	x13, x15, x13
.LBB26_80:
	ldrh	w14, [x13], #2
	add	x11, x11, x16
	ldrh	w15, [x12], #2
	subs	x10, x10, #1
	add	x14, x14, x15
	sub	x11, x11, x14
	b.ne	.LBB26_80
.LBB26_81:
	bfi	x8, x9, #32, #32
	mov	x9, #-140737488355328
	mov	x10, xzr
	add	x8, x8, x9
.LBB26_82:
	ldp	x20, x19, [sp, #192]
	stp	x10, x1, [x0]
	ldp	x22, x21, [sp, #176]
	stp	x8, x11, [x0, #16]
	ldp	x24, x23, [sp, #160]
	ldp	x26, x25, [sp, #144]
	ldp	x28, x27, [sp, #128]
	ldp	x29, x30, [sp, #112]
	add	sp, sp, #208
	ret
.LBB26_83:
	brk	#0x1
.Lfunc_end26:
	.size	"orthogonal_call::outline_in", .Lfunc_end26-"orthogonal_call::outline_in"

	.section	".text.orthogonal_call::outline_sized::<=2050>","ax",@progbits
	.p2align	2
	.type	"orthogonal_call::outline_sized::<=2050>",@function
"orthogonal_call::outline_sized::<=2050>":
	stp	x29, x30, [sp, #-64]!
	stp	x28, x23, [sp, #16]
	mov	x29, sp
	stp	x22, x21, [sp, #32]
	stp	x20, x19, [sp, #48]
	sub	sp, sp, #3072
	str	xzr, [sp]
	sub	sp, sp, #3072
	str	xzr, [sp]
	sub	sp, sp, #3072
	str	xzr, [sp]
	sub	sp, sp, #3072
	str	xzr, [sp], #-48
	movi	v0.2d, #0000000000000000
	mov	x22, x0
	add	x0, sp, #2, lsl #12
	mov	x20, x2
	mov	x21, x1
	sub	x23, x29, #32
	add	x0, x0, #12
	mov	w1, #255
	mov	w2, #4100
	mov	x19, x3
	stp	q0, q0, [x23]
	bl	memset
	add	x0, sp, #1, lsl #12
	mov	w1, #255
	mov	w2, #4100
	add	x0, x0, #8
	bl	memset
	add	x0, sp, #4
	mov	w1, wzr
	mov	w2, #4100
	bl	memset
	add	x2, sp, #2, lsl #12
	add	x3, sp, #1, lsl #12
	sub	x0, x29, #32
	add	x2, x2, #12
	add	x3, x3, #8
	add	x4, sp, #4
	mov	x1, x21
	mov	x5, x20
	mov	x6, x19
	bl	"orthogonal_call::outline_in"
	ldrb	w8, [x23]
	ldur	q0, [x23, #8]
	ldr	x9, [x23, #24]
	str	x8, [x22]
	stur	q0, [x22, #8]
	str	x9, [x22, #24]
	add	sp, sp, #3, lsl #12
	add	sp, sp, #48
	ldp	x20, x19, [sp, #48]
	ldp	x22, x21, [sp, #32]
	ldp	x28, x23, [sp, #16]
	ldp	x29, x30, [sp], #64
	ret
.Lfunc_end27:
	.size	"orthogonal_call::outline_sized::<=2050>", .Lfunc_end27-"orthogonal_call::outline_sized::<=2050>"

	.section	".text.orthogonal_call::outline_sized::<=16386>","ax",@progbits
	.p2align	2
	.type	"orthogonal_call::outline_sized::<=16386>",@function
"orthogonal_call::outline_sized::<=16386>":
	stp	x29, x30, [sp, #-64]!
	sub	x9, sp, #24, lsl #12
	stp	x28, x23, [sp, #16]
	mov	x29, sp
	stp	x22, x21, [sp, #32]
	stp	x20, x19, [sp, #48]
.LBB28_1:
	sub	sp, sp, #3072
	cmp	sp, x9
	str	xzr, [sp]
	b.ne	.LBB28_1
	sub	sp, sp, #48
	movi	v0.2d, #0000000000000000
	mov	x22, x0
	add	x0, sp, #16, lsl #12
	mov	x20, x2
	mov	x21, x1
	sub	x23, x29, #32
	add	x0, x0, #12
	mov	w1, #255
	mov	w2, #32772
	mov	x19, x3
	stp	q0, q0, [x23]
	bl	memset
	add	x0, sp, #8, lsl #12
	mov	w1, #255
	mov	w2, #32772
	add	x0, x0, #8
	bl	memset
	add	x0, sp, #4
	mov	w1, wzr
	mov	w2, #32772
	bl	memset
	add	x2, sp, #16, lsl #12
	add	x3, sp, #8, lsl #12
	sub	x0, x29, #32
	add	x2, x2, #12
	add	x3, x3, #8
	add	x4, sp, #4
	mov	x1, x21
	mov	x5, x20
	mov	x6, x19
	bl	"orthogonal_call::outline_in"
	ldrb	w8, [x23]
	ldur	q0, [x23, #8]
	ldr	x9, [x23, #24]
	str	x8, [x22]
	stur	q0, [x22, #8]
	str	x9, [x22, #24]
	add	sp, sp, #24, lsl #12
	add	sp, sp, #48
	ldp	x20, x19, [sp, #48]
	ldp	x22, x21, [sp, #32]
	ldp	x28, x23, [sp, #16]
	ldp	x29, x30, [sp], #64
	ret
.Lfunc_end28:
	.size	"orthogonal_call::outline_sized::<=16386>", .Lfunc_end28-"orthogonal_call::outline_sized::<=16386>"

	.section	".text.outline_call::map_sized::<=4096>","ax",@progbits
	.p2align	2
	.type	"outline_call::map_sized::<=4096>",@function
"outline_call::map_sized::<=4096>":
	stp	x29, x30, [sp, #-80]!
	str	x28, [sp, #16]
	mov	x29, sp
	stp	x24, x23, [sp, #32]
	stp	x22, x21, [sp, #48]
	stp	x20, x19, [sp, #64]
	sub	sp, sp, #3072
	str	xzr, [sp]
	sub	sp, sp, #1088
	str	xzr, [sp]
	mov	x21, x2
	mov	x22, x1
	ldp	q0, q1, [x3]
	mov	x23, x0
	mov	x0, sp
	mov	w1, wzr
	mov	w2, #4096
	mov	x19, x5
	mov	x20, x4
	stp	xzr, xzr, [x29, #-24]
	stur	xzr, [x29, #-8]
	sub	x24, x29, #24
	stp	q0, q1, [x29, #-64]
	bl	memset
	sub	x0, x29, #24
	sub	x3, x29, #64
	mov	x4, sp
	mov	x1, x22
	mov	x2, x21
	mov	x5, x20
	mov	x6, x19
	bl	"outline_call::write_on"
	ldrb	w8, [x24]
	ldur	q0, [x24, #8]
	str	x8, [x23]
	stur	q0, [x23, #8]
	add	sp, sp, #1, lsl #12
	add	sp, sp, #64
	ldp	x20, x19, [sp, #64]
	ldr	x28, [sp, #16]
	ldp	x22, x21, [sp, #48]
	ldp	x24, x23, [sp, #32]
	ldp	x29, x30, [sp], #80
	ret
.Lfunc_end29:
	.size	"outline_call::map_sized::<=4096>", .Lfunc_end29-"outline_call::map_sized::<=4096>"

	.section	.rodata.cst16,"aM",@progbits,16
	.p2align	4, 0x0
.LCPI30_0:
	.xword	1
	.xword	10
	.section	".text.outline_call::write_on","ax",@progbits
	.p2align	2
	.type	"outline_call::write_on",@function
"outline_call::write_on":
	ldp	x9, x8, [x3]
	mov	w10, #1
	stp	x8, x10, [sp, #-32]!
	ldr	x10, [x3, #16]
	neg	x11, x8
	mov	x12, #-1
	stp	x11, x12, [sp, #16]
	cbz	x9, .LBB30_37
	udiv	x11, x10, x9
	msub	x9, x11, x9, x10
	madd	x8, x9, x8, x11
	mov	w11, wzr
	cbz	x2, .LBB30_4
	mov	x10, x2
	mov	x9, x8
.LBB30_3:
	ldrb	w12, [x1], #1
	ldrb	w13, [x4, x9]
	mov	w14, #1
	mov	x15, sp
	lsl	w16, w14, w12
	orr	w11, w11, w13
	ldr	x13, [x15, x12, lsl #3]
	orr	w11, w16, w11
	strb	w11, [x4, x9]
	add	x9, x13, x9
	and	w11, w12, #0x3
	cmp	x9, x8
	eor	w11, w11, #0x2
	csel	x8, x9, x8, lo
	subs	x10, x10, #1
	lsl	w11, w14, w11
	b.ne	.LBB30_3
	b	.LBB30_5
.LBB30_4:
	mov	x9, x8
.LBB30_5:
	ldrb	w10, [x4, x9]
	cmp	x6, x2, lsl #1
	orr	w10, w10, w11
	strb	w10, [x4, x9]
	ldrb	w9, [x4, x8]
	and	x10, x9, #0x1
	eor	x9, x10, #0x1
	b.hs	.LBB30_14
	mov	x11, sp
	cmp	w10, #0
	mov	w13, #3
	ldr	x12, [x11, x9, lsl #3]
	csel	w13, wzr, w13, eq
	add	x11, x12, x8
	ldrb	w14, [x4, x11]
	lsr	w15, w14, w13
	tbnz	w15, #0, .LBB30_9
	lsr	w15, w14, w9
	eor	x13, x10, #0x1
	tbnz	w15, #0, .LBB30_9
	mov	w13, #2
	eor	w15, w10, #0x3
	sub	w13, w13, w10
	lsr	w14, w14, w13
	tst	w14, #0x1
	csel	w13, w15, w13, eq
.LBB30_9:
	cbnz	x12, .LBB30_29
	cmp	w13, w9
	b.ne	.LBB30_29
	mov	w12, #1
.LBB30_12:
	cmp	x12, x6
	b.ls	.LBB30_14
	adrp	x8, .LCPI30_0
	ldr	q0, [x8, :lo12:.LCPI30_0]
	str	q0, [x0]
	str	xzr, [x0, #16]
	add	sp, sp, #32
	ret
.LBB30_14:
	mov	x11, sp
	strb	w9, [x5]
	cmp	w10, #0
	ldr	x13, [x11, x9, lsl #3]
	mov	w12, #3
	csel	w12, wzr, w12, eq
	add	x11, x13, x8
	ldrb	w14, [x4, x11]
	lsr	w15, w14, w12
	tbnz	w15, #0, .LBB30_17
	lsr	w15, w14, w9
	eor	x12, x10, #0x1
	tbnz	w15, #0, .LBB30_17
	mov	w12, #2
	sub	w12, w12, w10
	eor	w10, w10, #0x3
	lsr	w14, w14, w12
	tst	w14, #0x1
	csel	w12, w10, w12, eq
.LBB30_17:
	cbnz	x13, .LBB30_21
	cmp	w12, w9
	b.ne	.LBB30_21
	mov	w10, #1
.LBB30_20:
	stp	xzr, x10, [x0]
	str	xzr, [x0, #16]
	add	sp, sp, #32
	ret
.LBB30_21:
	mov	w10, #1
.LBB30_22:
	mov	w13, w12
	mov	x12, sp
	strb	w13, [x5, x10]
	ldr	x12, [x12, w13, uxtw #3]
	add	x11, x12, x11
	sub	w12, w13, #1
	ldrb	w14, [x4, x11]
	and	w12, w12, #0x3
	lsr	w15, w14, w12
	tbnz	w15, #0, .LBB30_26
	lsr	w12, w14, w13
	tbz	w12, #0, .LBB30_25
	mov	w12, w13
	cmp	x11, x8
	add	x10, x10, #1
	b.eq	.LBB30_27
	b	.LBB30_22
.LBB30_25:
	add	w12, w13, #1
	and	w12, w12, #0x3
	lsr	w14, w14, w12
	tbz	w14, #0, .LBB30_28
.LBB30_26:
	cmp	x11, x8
	add	x10, x10, #1
	b.ne	.LBB30_22
.LBB30_27:
	cmp	w12, w9
	b.ne	.LBB30_22
	b	.LBB30_20
.LBB30_28:
	eor	w12, w13, #0x2
	cmp	x11, x8
	add	x10, x10, #1
	b.eq	.LBB30_27
	b	.LBB30_22
.LBB30_29:
	mov	w12, #1
.LBB30_30:
	mov	w14, w13
	mov	x13, sp
	ldr	x13, [x13, w14, uxtw #3]
	add	x11, x13, x11
	sub	w13, w14, #1
	ldrb	w15, [x4, x11]
	and	w13, w13, #0x3
	lsr	w16, w15, w13
	tbnz	w16, #0, .LBB30_34
	lsr	w13, w15, w14
	tbz	w13, #0, .LBB30_33
	mov	w13, w14
	cmp	x11, x8
	add	x12, x12, #1
	b.eq	.LBB30_35
	b	.LBB30_30
.LBB30_33:
	add	w13, w14, #1
	and	w13, w13, #0x3
	lsr	w15, w15, w13
	tbz	w15, #0, .LBB30_36
.LBB30_34:
	cmp	x11, x8
	add	x12, x12, #1
	b.ne	.LBB30_30
.LBB30_35:
	cmp	w13, w9
	b.ne	.LBB30_30
	b	.LBB30_12
.LBB30_36:
	eor	w13, w14, #0x2
	cmp	x11, x8
	add	x12, x12, #1
	b.eq	.LBB30_35
	b	.LBB30_30
.LBB30_37:
	brk	#0x1
.Lfunc_end30:
	.size	"outline_call::write_on", .Lfunc_end30-"outline_call::write_on"

	.section	".text.outline_call::write_sized::<=257>","ax",@progbits
	.p2align	2
	.type	"outline_call::write_sized::<=257>",@function
"outline_call::write_sized::<=257>":
	stp	x29, x30, [sp, #-80]!
	str	x28, [sp, #16]
	mov	x29, sp
	stp	x24, x23, [sp, #32]
	stp	x22, x21, [sp, #48]
	stp	x20, x19, [sp, #64]
	sub	sp, sp, #3072
	str	xzr, [sp]
	sub	sp, sp, #1072
	movi	v0.2d, #0000000000000000
	mov	x22, x2
	mov	x23, x1
	mov	x19, x0
	sub	x24, x29, #24
	add	x0, sp, #2064
	mov	w1, wzr
	mov	w2, #1028
	str	xzr, [sp]
	mov	x20, x4
	mov	x21, x3
	stur	xzr, [x29, #-8]
	str	q0, [x24]
	bl	memset
	mov	x0, sp
	mov	w1, wzr
	mov	w2, #2056
	bl	memset
	add	x8, sp, #3092
	mov	w1, wzr
	mov	w2, #1024
	add	x0, x8, #4
	bl	memset
	movi	v0.2d, #0000000000000000
	sub	x0, x29, #24
	add	x3, sp, #3092
	add	x4, sp, #2064
	mov	x5, sp
	mov	x1, x23
	mov	x2, x22
	mov	x6, x21
	mov	x7, x20
	str	wzr, [sp, #3088]
	str	q0, [sp, #2064]
	str	q0, [sp, #2080]
	str	q0, [sp, #2096]
	str	q0, [sp, #2112]
	str	q0, [sp, #2128]
	str	q0, [sp, #2144]
	str	q0, [sp, #2160]
	str	q0, [sp, #2176]
	str	q0, [sp, #2192]
	str	q0, [sp, #2208]
	str	q0, [sp, #2224]
	str	q0, [sp, #2240]
	str	q0, [sp, #2256]
	str	q0, [sp, #2272]
	str	q0, [sp, #2288]
	str	q0, [sp, #2304]
	str	q0, [sp, #2320]
	str	q0, [sp, #2336]
	str	q0, [sp, #2352]
	str	q0, [sp, #2368]
	str	q0, [sp, #2384]
	str	q0, [sp, #2400]
	str	q0, [sp, #2416]
	str	q0, [sp, #2432]
	str	q0, [sp, #2448]
	str	q0, [sp, #2464]
	str	q0, [sp, #2480]
	str	q0, [sp, #2496]
	str	q0, [sp, #2512]
	str	q0, [sp, #2528]
	str	q0, [sp, #2544]
	str	q0, [sp, #2560]
	str	q0, [sp, #2576]
	str	q0, [sp, #2592]
	str	q0, [sp, #2608]
	str	q0, [sp, #2624]
	str	q0, [sp, #2640]
	str	q0, [sp, #2656]
	str	q0, [sp, #2672]
	str	q0, [sp, #2688]
	str	q0, [sp, #2704]
	str	q0, [sp, #2720]
	str	q0, [sp, #2736]
	str	q0, [sp, #2752]
	str	q0, [sp, #2768]
	str	q0, [sp, #2784]
	str	q0, [sp, #2800]
	str	q0, [sp, #2816]
	str	q0, [sp, #2832]
	str	q0, [sp, #2848]
	str	q0, [sp, #2864]
	str	q0, [sp, #2880]
	str	q0, [sp, #2896]
	str	q0, [sp, #2912]
	str	q0, [sp, #2928]
	str	q0, [sp, #2944]
	str	q0, [sp, #2960]
	str	q0, [sp, #2976]
	str	q0, [sp, #2992]
	str	q0, [sp, #3008]
	str	q0, [sp, #3024]
	str	q0, [sp, #3040]
	str	q0, [sp, #3056]
	str	q0, [sp, #3072]
	stp	q0, q0, [sp]
	stp	q0, q0, [sp, #32]
	stp	q0, q0, [sp, #64]
	stp	q0, q0, [sp, #96]
	stp	q0, q0, [sp, #128]
	stp	q0, q0, [sp, #160]
	stp	q0, q0, [sp, #192]
	stp	q0, q0, [sp, #224]
	stp	q0, q0, [sp, #256]
	stp	q0, q0, [sp, #288]
	stp	q0, q0, [sp, #320]
	stp	q0, q0, [sp, #352]
	stp	q0, q0, [sp, #384]
	stp	q0, q0, [sp, #416]
	stp	q0, q0, [sp, #448]
	stp	q0, q0, [sp, #480]
	stp	q0, q0, [sp, #512]
	stp	q0, q0, [sp, #544]
	stp	q0, q0, [sp, #576]
	stp	q0, q0, [sp, #608]
	stp	q0, q0, [sp, #640]
	stp	q0, q0, [sp, #672]
	stp	q0, q0, [sp, #704]
	stp	q0, q0, [sp, #736]
	stp	q0, q0, [sp, #768]
	stp	q0, q0, [sp, #800]
	stp	q0, q0, [sp, #832]
	stp	q0, q0, [sp, #864]
	stp	q0, q0, [sp, #896]
	stp	q0, q0, [sp, #928]
	stp	q0, q0, [sp, #960]
	stp	q0, q0, [sp, #992]
	str	q0, [sp, #1024]
	str	q0, [sp, #1040]
	str	q0, [sp, #1056]
	str	q0, [sp, #1072]
	str	q0, [sp, #1088]
	str	q0, [sp, #1104]
	str	q0, [sp, #1120]
	str	q0, [sp, #1136]
	str	q0, [sp, #1152]
	str	q0, [sp, #1168]
	str	q0, [sp, #1184]
	str	q0, [sp, #1200]
	str	q0, [sp, #1216]
	str	q0, [sp, #1232]
	str	q0, [sp, #1248]
	str	q0, [sp, #1264]
	str	q0, [sp, #1280]
	str	q0, [sp, #1296]
	str	q0, [sp, #1312]
	str	q0, [sp, #1328]
	str	q0, [sp, #1344]
	str	q0, [sp, #1360]
	str	q0, [sp, #1376]
	str	q0, [sp, #1392]
	str	q0, [sp, #1408]
	str	q0, [sp, #1424]
	str	q0, [sp, #1440]
	str	q0, [sp, #1456]
	str	q0, [sp, #1472]
	str	q0, [sp, #1488]
	str	q0, [sp, #1504]
	str	q0, [sp, #1520]
	str	q0, [sp, #1536]
	str	q0, [sp, #1552]
	str	q0, [sp, #1568]
	str	q0, [sp, #1584]
	str	q0, [sp, #1600]
	str	q0, [sp, #1616]
	str	q0, [sp, #1632]
	str	q0, [sp, #1648]
	str	q0, [sp, #1664]
	str	q0, [sp, #1680]
	str	q0, [sp, #1696]
	str	q0, [sp, #1712]
	str	q0, [sp, #1728]
	str	q0, [sp, #1744]
	str	q0, [sp, #1760]
	str	q0, [sp, #1776]
	str	q0, [sp, #1792]
	str	q0, [sp, #1808]
	str	q0, [sp, #1824]
	str	q0, [sp, #1840]
	str	q0, [sp, #1856]
	str	q0, [sp, #1872]
	str	q0, [sp, #1888]
	str	q0, [sp, #1904]
	str	q0, [sp, #1920]
	str	q0, [sp, #1936]
	str	q0, [sp, #1952]
	str	q0, [sp, #1968]
	str	q0, [sp, #1984]
	str	q0, [sp, #2000]
	str	q0, [sp, #2016]
	str	q0, [sp, #2032]
	str	xzr, [sp, #2048]
	bl	"outline_call::write_in"
	ldrb	w8, [x24]
	ldur	q0, [x24, #8]
	str	x8, [x19]
	stur	q0, [x19, #8]
	add	sp, sp, #1, lsl #12
	add	sp, sp, #48
	ldp	x20, x19, [sp, #64]
	ldr	x28, [sp, #16]
	ldp	x22, x21, [sp, #48]
	ldp	x24, x23, [sp, #32]
	ldp	x29, x30, [sp], #80
	ret
.Lfunc_end31:
	.size	"outline_call::write_sized::<=257>", .Lfunc_end31-"outline_call::write_sized::<=257>"

	.section	.rodata.cst16,"aM",@progbits,16
	.p2align	4, 0x0
.LCPI32_0:
	.xword	1
	.xword	10
	.section	".text.outline_call::write_in","ax",@progbits
	.p2align	2
	.type	"outline_call::write_in",@function
"outline_call::write_in":
	str	x19, [sp, #-16]!
	mov	w9, #32768
	movk	w9, #8192, lsl #16
	str	w9, [x3]
	cbz	x2, .LBB32_18
	mov	w12, #32768
	mov	x10, xzr
	mov	x13, xzr
	mov	x8, xzr
	mov	w11, #1
	movk	w12, #8192, lsl #16
	b	.LBB32_4
.LBB32_2:
	sub	x15, x15, #1
.LBB32_3:
	cmp	w9, w12
	add	x10, x10, #1
	mov	x13, x15
	csel	x8, x15, x8, lo
	csel	w12, w9, w12, lo
	cmp	x10, x2
	b.eq	.LBB32_19
.LBB32_4:
	ldrb	w14, [x1, x10]
	cmp	w14, #2
	b.eq	.LBB32_9
	cmp	w14, #1
	b.eq	.LBB32_8
	cbnz	w14, .LBB32_10
	mov	w15, #32769
	add	w9, w9, w15
	add	x16, x5, x13, lsl #3
	ldrh	w15, [x16, x14, lsl #1]
	cbnz	x15, .LBB32_2
	b	.LBB32_11
.LBB32_8:
	add	w9, w9, #1
	add	x16, x5, x13, lsl #3
	ldrh	w15, [x16, x14, lsl #1]
	cbnz	x15, .LBB32_2
	b	.LBB32_11
.LBB32_9:
	mov	w15, #-32769
	add	w9, w9, w15
	add	x16, x5, x13, lsl #3
	ldrh	w15, [x16, x14, lsl #1]
	cbnz	x15, .LBB32_2
	b	.LBB32_11
.LBB32_10:
	sub	w9, w9, #1
	add	x16, x5, x13, lsl #3
	ldrh	w15, [x16, x14, lsl #1]
	cbnz	x15, .LBB32_2
.LBB32_11:
	ldr	w15, [x3]
	cmp	w15, w9
	b.ne	.LBB32_13
	mov	x15, xzr
	b	.LBB32_17
.LBB32_13:
	mov	x15, xzr
	mov	w17, w9
.LBB32_14:
	ubfiz	x18, x17, #1, #1
	add	x19, x4, x15, lsl #2
	ldrh	w15, [x19, x18]
	cbz	x15, .LBB32_16
	ldr	w18, [x3, x15, lsl #2]
	lsr	w17, w17, #1
	cmp	w18, w9
	b.ne	.LBB32_14
	b	.LBB32_17
.LBB32_16:
	add	x17, x11, #1
	str	w9, [x3, x11, lsl #2]
	mov	x15, x11
	strh	w11, [x19, x18]
	mov	x11, x17
.LBB32_17:
	ubfiz	w17, w14, #1, #2
	add	x18, x5, x15, lsl #3
	add	w19, w15, #1
	strh	w19, [x16, x14, lsl #1]
	add	w13, w13, #1
	eor	x14, x17, #0x4
	strh	w13, [x18, x14]
	b	.LBB32_3
.LBB32_18:
	mov	x8, xzr
.LBB32_19:
	add	x9, x5, x8, lsl #3
	mov	w10, #2
	mov	w12, #3
	ldrh	w11, [x9]
	cmp	w11, #0
	csel	x13, x10, xzr, eq
	ldrh	w9, [x9, x13]
	sub	x10, x9, #1
	csel	x9, xzr, x12, eq
	csel	w12, wzr, w12, eq
	add	x14, x5, x10, lsl #3
	ldrh	w15, [x14, x9, lsl #1]
	cset	w9, eq
	cbz	w15, .LBB32_33
.LBB32_20:
	mov	x11, #-1
.LBB32_21:
	mov	w13, w12
	add	x10, x5, x10, lsl #3
	sub	w12, w12, #1
	and	x14, x13, #0xff
	and	w12, w12, #0x3
	ldrh	w10, [x10, x14, lsl #1]
	sub	x10, x10, #1
	add	x15, x5, x10, lsl #3
	ldrh	w16, [x15, w12, uxtw #1]
	cbnz	w16, .LBB32_25
	ldrh	w12, [x15, x14, lsl #1]
	cbz	w12, .LBB32_24
	mov	w12, w13
	cmp	x10, x8
	sub	x11, x11, #1
	b.eq	.LBB32_26
	b	.LBB32_21
.LBB32_24:
	add	w12, w13, #1
	and	w12, w12, #0x3
	ldrh	w14, [x15, w12, uxtw #1]
	cbz	w14, .LBB32_27
.LBB32_25:
	cmp	x10, x8
	sub	x11, x11, #1
	b.ne	.LBB32_21
.LBB32_26:
	cmp	w9, w12, uxtb
	b.ne	.LBB32_21
	b	.LBB32_28
.LBB32_27:
	eor	w12, w13, #0x2
	cmp	x10, x8
	sub	x11, x11, #1
	b.eq	.LBB32_26
	b	.LBB32_21
.LBB32_28:
	neg	x10, x11
	cmp	x7, x10
	b.hs	.LBB32_30
.LBB32_29:
	adrp	x8, .LCPI32_0
	ldr	q0, [x8, :lo12:.LCPI32_0]
	str	q0, [x0]
	str	xzr, [x0, #16]
	ldr	x19, [sp], #16
	ret
.LBB32_30:
	cbnz	x11, .LBB32_37
	mov	x10, xzr
.LBB32_32:
	stp	xzr, x10, [x0]
	str	xzr, [x0, #16]
	ldr	x19, [sp], #16
	ret
.LBB32_33:
	ldrh	w12, [x14, x13]
	cbz	w12, .LBB32_44
	cmp	x10, x8
	mov	w12, w9
	b.ne	.LBB32_20
	cbz	x7, .LBB32_29
	mov	w10, #1
.LBB32_37:
	mov	x11, xzr
	b	.LBB32_40
.LBB32_38:
	mov	w12, w9
.LBB32_39:
	add	x11, x11, #1
	mov	w9, w12
	cmp	x10, x11
	b.eq	.LBB32_32
.LBB32_40:
	add	x8, x5, x8, lsl #3
	strb	w9, [x6, x11]
	and	x13, x9, #0xff
	sub	w12, w9, #1
	ldrh	w8, [x8, x13, lsl #1]
	and	w12, w12, #0x3
	sub	x8, x8, #1
	add	x14, x5, x8, lsl #3
	ldrh	w15, [x14, w12, uxtw #1]
	cbnz	w15, .LBB32_39
	ldrh	w12, [x14, x13, lsl #1]
	cbnz	w12, .LBB32_38
	add	w12, w9, #1
	and	w12, w12, #0x3
	ldrh	w13, [x14, w12, uxtw #1]
	cbnz	w13, .LBB32_39
	eor	w12, w9, #0x2
	b	.LBB32_39
.LBB32_44:
	cmp	w11, #0
	mov	w11, #1
	orr	w13, w9, #0x2
	cinc	x12, x11, eq
	cinc	w11, w11, eq
	ldrh	w12, [x14, x12, lsl #1]
	cmp	w12, #0
	csel	w12, w13, w11, eq
	b	.LBB32_20
.Lfunc_end32:
	.size	"outline_call::write_in", .Lfunc_end32-"outline_call::write_in"

	.section	".text.outline_call::map_sized::<=32768>","ax",@progbits
	.p2align	2
	.type	"outline_call::map_sized::<=32768>",@function
"outline_call::map_sized::<=32768>":
	stp	x29, x30, [sp, #-80]!
	sub	x9, sp, #7, lsl #12
	str	x28, [sp, #16]
	mov	x29, sp
	sub	x9, x9, #2048
	stp	x24, x23, [sp, #32]
	stp	x22, x21, [sp, #48]
	stp	x20, x19, [sp, #64]
.LBB33_1:
	sub	sp, sp, #3072
	cmp	sp, x9
	str	xzr, [sp]
	b.ne	.LBB33_1
	sub	sp, sp, #2112
	str	xzr, [sp]
	mov	x21, x2
	mov	x22, x1
	ldp	q0, q1, [x3]
	mov	x23, x0
	sub	x24, x29, #24
	mov	x0, sp
	mov	w1, wzr
	mov	w2, #32768
	mov	x19, x5
	mov	x20, x4
	stp	xzr, xzr, [x24, #8]
	stp	q0, q1, [x29, #-64]
	str	xzr, [x24]
	bl	memset
	sub	x0, x29, #24
	sub	x3, x29, #64
	mov	x4, sp
	mov	x1, x22
	mov	x2, x21
	mov	x5, x20
	mov	x6, x19
	bl	"outline_call::write_on"
	ldrb	w8, [x24]
	ldur	q0, [x24, #8]
	str	x8, [x23]
	stur	q0, [x23, #8]
	add	sp, sp, #8, lsl #12
	add	sp, sp, #64
	ldp	x20, x19, [sp, #64]
	ldr	x28, [sp, #16]
	ldp	x22, x21, [sp, #48]
	ldp	x24, x23, [sp, #32]
	ldp	x29, x30, [sp], #80
	ret
.Lfunc_end33:
	.size	"outline_call::map_sized::<=32768>", .Lfunc_end33-"outline_call::map_sized::<=32768>"

	.section	".text.outline_call::write_sized::<=2049>","ax",@progbits
	.p2align	2
	.type	"outline_call::write_sized::<=2049>",@function
"outline_call::write_sized::<=2049>":
	stp	x29, x30, [sp, #-96]!
	sub	x9, sp, #7, lsl #12
	str	x28, [sp, #16]
	mov	x29, sp
	sub	x9, x9, #2048
	stp	x26, x25, [sp, #32]
	stp	x24, x23, [sp, #48]
	stp	x22, x21, [sp, #64]
	stp	x20, x19, [sp, #80]
.LBB34_1:
	sub	sp, sp, #3072
	cmp	sp, x9
	str	xzr, [sp]
	b.ne	.LBB34_1
	sub	sp, sp, #2096
	mov	x19, x0
	add	x25, sp, #4, lsl #12
	add	x0, sp, #4, lsl #12
	mov	x22, x2
	mov	x23, x1
	add	x25, x25, #16
	add	x0, x0, #16
	mov	w1, wzr
	mov	w2, #8196
	add	x26, sp, #4, lsl #12
	str	xzr, [sp]
	mov	x20, x4
	mov	x21, x3
	str	xzr, [x25, #16400]
	sub	x24, x29, #24
	str	xzr, [x25, #16392]
	add	x26, x26, #16
	str	xzr, [x25, #16408]
	bl	memset
	add	x0, sp, #8
	mov	w1, wzr
	mov	w2, #16392
	bl	memset
	add	x8, sp, #6, lsl #12
	mov	w1, wzr
	mov	w2, #8192
	add	x8, x8, #20
	add	x0, x8, #4
	bl	memset
	mov	x8, xzr
.LBB34_3:
	movi	v0.2d, #0000000000000000
	add	x9, x26, x8
	add	x8, x8, #32
	cmp	x8, #2, lsl #12
	stp	q0, q0, [x9]
	b.ne	.LBB34_3
	mov	x8, xzr
	str	wzr, [x25, #8192]
.LBB34_5:
	movi	v0.2d, #0000000000000000
	add	x9, sp, #8
	add	x9, x9, x8
	add	x8, x8, #32
	cmp	x8, #4, lsl #12
	stp	q0, q0, [x9]
	b.ne	.LBB34_5
	add	x3, sp, #6, lsl #12
	add	x4, sp, #4, lsl #12
	sub	x0, x29, #24
	add	x3, x3, #20
	add	x4, x4, #16
	add	x5, sp, #8
	mov	x1, x23
	mov	x2, x22
	mov	x6, x21
	mov	x7, x20
	str	xzr, [sp, #16392]
	bl	"outline_call::write_in"
	ldrb	w8, [x24]
	ldur	q0, [x24, #8]
	str	x8, [x19]
	stur	q0, [x19, #8]
	add	sp, sp, #8, lsl #12
	add	sp, sp, #48
	ldp	x20, x19, [sp, #80]
	ldr	x28, [sp, #16]
	ldp	x22, x21, [sp, #64]
	ldp	x24, x23, [sp, #48]
	ldp	x26, x25, [sp, #32]
	ldp	x29, x30, [sp], #96
	ret
.Lfunc_end34:
	.size	"outline_call::write_sized::<=2049>", .Lfunc_end34-"outline_call::write_sized::<=2049>"

	.section	".text.outline_call::map_sized::<=262144>","ax",@progbits
	.p2align	2
	.type	"outline_call::map_sized::<=262144>",@function
"outline_call::map_sized::<=262144>":
	stp	x29, x30, [sp, #-80]!
	sub	x9, sp, #63, lsl #12
	str	x28, [sp, #16]
	mov	x29, sp
	sub	x9, x9, #3072
	stp	x24, x23, [sp, #32]
	stp	x22, x21, [sp, #48]
	stp	x20, x19, [sp, #64]
.LBB35_1:
	sub	sp, sp, #3072
	cmp	sp, x9
	str	xzr, [sp]
	b.ne	.LBB35_1
	sub	sp, sp, #1088
	str	xzr, [sp]
	mov	x21, x2
	mov	x22, x1
	ldp	q0, q1, [x3]
	mov	x23, x0
	sub	x24, x29, #64
	mov	x0, sp
	mov	w1, wzr
	mov	w2, #262144
	mov	x19, x5
	mov	x20, x4
	stp	xzr, xzr, [x24, #48]
	stp	q0, q1, [x24]
	str	xzr, [x24, #40]
	bl	memset
	sub	x0, x29, #24
	sub	x3, x29, #64
	mov	x4, sp
	mov	x1, x22
	mov	x2, x21
	mov	x5, x20
	mov	x6, x19
	bl	"outline_call::write_on"
	ldrb	w8, [x24, #40]
	ldur	q0, [x24, #48]
	str	x8, [x23]
	stur	q0, [x23, #8]
	add	sp, sp, #64, lsl #12
	add	sp, sp, #64
	ldp	x20, x19, [sp, #64]
	ldr	x28, [sp, #16]
	ldp	x22, x21, [sp, #48]
	ldp	x24, x23, [sp, #32]
	ldp	x29, x30, [sp], #80
	ret
.Lfunc_end35:
	.size	"outline_call::map_sized::<=262144>", .Lfunc_end35-"outline_call::map_sized::<=262144>"

	.section	".text.outline_call::write_sized::<=16385>","ax",@progbits
	.p2align	2
	.type	"outline_call::write_sized::<=16385>",@function
"outline_call::write_sized::<=16385>":
	stp	x29, x30, [sp, #-80]!
	sub	x9, sp, #63, lsl #12
	stp	x28, x25, [sp, #16]
	mov	x29, sp
	sub	x9, x9, #3072
	stp	x24, x23, [sp, #32]
	stp	x22, x21, [sp, #48]
	stp	x20, x19, [sp, #64]
.LBB36_1:
	sub	sp, sp, #3072
	cmp	sp, x9
	str	xzr, [sp]
	b.ne	.LBB36_1
	sub	sp, sp, #1072
	mov	x22, x2
	mov	x19, x0
	add	x0, sp, #32, lsl #12
	mov	w2, #4
	mov	x23, x1
	sub	x24, x29, #24
	add	x0, x0, #16
	mov	w1, wzr
	movk	w2, #1, lsl #16
	add	x25, sp, #32, lsl #12
	str	xzr, [sp]
	mov	x20, x4
	mov	x21, x3
	stp	xzr, xzr, [x24]
	add	x25, x25, #16
	str	xzr, [x24, #16]
	bl	memset
	mov	w2, #8
	add	x0, sp, #8
	mov	w1, wzr
	movk	w2, #2, lsl #16
	bl	memset
	add	x8, sp, #48, lsl #12
	mov	w1, wzr
	mov	w2, #65536
	add	x8, x8, #20
	add	x0, x8, #4
	bl	memset
	mov	x8, xzr
.LBB36_3:
	movi	v0.2d, #0000000000000000
	add	x9, x25, x8
	add	x8, x8, #32
	cmp	x8, #16, lsl #12
	stp	q0, q0, [x9]
	b.ne	.LBB36_3
	add	x10, sp, #32, lsl #12
	mov	x8, xzr
	mov	w9, #65536
	add	x10, x10, #16
	str	wzr, [x10, x9]
.LBB36_5:
	movi	v0.2d, #0000000000000000
	add	x9, sp, #8
	add	x10, x9, x8
	add	x8, x8, #32
	cmp	x8, #32, lsl #12
	stp	q0, q0, [x10]
	b.ne	.LBB36_5
	add	x3, sp, #48, lsl #12
	add	x4, sp, #32, lsl #12
	sub	x0, x29, #24
	add	x3, x3, #20
	add	x4, x4, #16
	add	x5, sp, #8
	mov	x1, x23
	mov	x2, x22
	mov	x6, x21
	mov	x7, x20
	str	xzr, [x9, x8]
	bl	"outline_call::write_in"
	ldrb	w8, [x24]
	ldur	q0, [x24, #8]
	str	x8, [x19]
	stur	q0, [x19, #8]
	add	sp, sp, #64, lsl #12
	add	sp, sp, #48
	ldp	x20, x19, [sp, #64]
	ldp	x22, x21, [sp, #48]
	ldp	x24, x23, [sp, #32]
	ldp	x28, x25, [sp, #16]
	ldp	x29, x30, [sp], #80
	ret
.Lfunc_end36:
	.size	"outline_call::write_sized::<=16385>", .Lfunc_end36-"outline_call::write_sized::<=16385>"

	.section	".text.overlay_call::list_sized::<=384>","ax",@progbits
	.p2align	2
	.type	"overlay_call::list_sized::<=384>",@function
"overlay_call::list_sized::<=384>":
	stp	x29, x30, [sp, #-96]!
	stp	x28, x27, [sp, #16]
	mov	x29, sp
	stp	x26, x25, [sp, #32]
	stp	x24, x23, [sp, #48]
	stp	x22, x21, [sp, #64]
	stp	x20, x19, [sp, #80]
	sub	sp, sp, #2416
	movi	v0.2d, #0000000000000000
	mov	x25, x2
	mov	x26, x1
	mov	x19, x0
	ldr	x27, [x29, #96]
	add	x0, sp, #1568
	mov	w1, wzr
	mov	w2, #768
	str	xzr, [sp]
	mov	x20, x7
	mov	x21, x6
	mov	x22, x5
	mov	x23, x4
	mov	x24, x3
	stur	xzr, [x29, #-32]
	stp	q0, q0, [x29, #-64]
	sub	x28, x29, #80
	stur	q0, [x29, #-80]
	bl	memset
	add	x0, sp, #32
	mov	w1, wzr
	mov	w2, #1536
	bl	memset
	sub	x0, x29, #80
	add	x1, sp, #1568
	add	x2, sp, #32
	mov	x3, x26
	mov	x4, x25
	mov	x5, x24
	mov	x6, x23
	mov	x7, x22
	stp	x20, x27, [sp, #8]
	str	x21, [sp]
	bl	"overlay_call::list_in"
	ldurb	w8, [x29, #-80]
	ldur	q0, [x28, #8]
	ldur	q1, [x28, #24]
	ldur	q2, [x28, #40]
	str	x8, [x19]
	stur	q0, [x19, #8]
	stur	q1, [x19, #24]
	stur	q2, [x19, #40]
	add	sp, sp, #2416
	ldp	x20, x19, [sp, #80]
	ldp	x22, x21, [sp, #64]
	ldp	x24, x23, [sp, #48]
	ldp	x26, x25, [sp, #32]
	ldp	x28, x27, [sp, #16]
	ldp	x29, x30, [sp], #96
	ret
.Lfunc_end37:
	.size	"overlay_call::list_sized::<=384>", .Lfunc_end37-"overlay_call::list_sized::<=384>"

	.section	.rodata.cst16,"aM",@progbits,16
	.p2align	4, 0x0
.LCPI38_0:
	.byte	8
	.byte	255
	.byte	255
	.byte	255
	.byte	9
	.byte	255
	.byte	255
	.byte	255
	.byte	10
	.byte	255
	.byte	255
	.byte	255
	.byte	11
	.byte	255
	.byte	255
	.byte	255
.LCPI38_1:
	.byte	4
	.byte	255
	.byte	255
	.byte	255
	.byte	5
	.byte	255
	.byte	255
	.byte	255
	.byte	6
	.byte	255
	.byte	255
	.byte	255
	.byte	7
	.byte	255
	.byte	255
	.byte	255
.LCPI38_2:
	.byte	0
	.byte	255
	.byte	255
	.byte	255
	.byte	1
	.byte	255
	.byte	255
	.byte	255
	.byte	2
	.byte	255
	.byte	255
	.byte	255
	.byte	3
	.byte	255
	.byte	255
	.byte	255
.LCPI38_3:
	.byte	12
	.byte	255
	.byte	255
	.byte	255
	.byte	13
	.byte	255
	.byte	255
	.byte	255
	.byte	14
	.byte	255
	.byte	255
	.byte	255
	.byte	15
	.byte	255
	.byte	255
	.byte	255
.LCPI38_4:
	.xword	20
	.xword	0
	.section	".text.overlay_call::list_in","ax",@progbits
	.p2align	2
	.type	"overlay_call::list_in",@function
"overlay_call::list_in":
	sub	sp, sp, #288
	ldr	x8, [x3, #16]
	stp	x28, x27, [sp, #208]
	adrp	x27, .LCPI38_1
	stp	x26, x25, [sp, #224]
	mov	x25, x1
	adrp	x28, .LCPI38_2
	stp	x24, x23, [sp, #240]
	mov	x23, x2
	stp	x22, x21, [sp, #256]
	adrp	x22, .LCPI38_3
	stp	x20, x19, [sp, #272]
	mov	x19, x0
	adrp	x20, .LCPI38_0
	str	d8, [sp, #176]
	stp	x29, x30, [sp, #192]
	add	x29, sp, #192
	stp	x7, x6, [sp, #32]
	str	x5, [sp, #24]
	cbz	x8, .LBB38_3
	ldr	x9, [x3, #8]
	cmp	x8, #8
	b.hs	.LBB38_4
	mov	x12, xzr
	mov	x10, xzr
	b	.LBB38_13
.LBB38_3:
	mov	x24, x4
	mov	x26, xzr
	b	.LBB38_16
.LBB38_4:
	cmp	x8, #32
	b.hs	.LBB38_6
	mov	x10, xzr
	mov	x12, xzr
	b	.LBB38_10
.LBB38_6:
	movi	v1.2d, #0000000000000000
	movi	v2.2d, #0000000000000000
	and	x11, x8, #0x18
	movi	v6.2d, #0000000000000000
	movi	v0.2d, #0000000000000000
	and	x10, x8, #0xffffffffffffffe0
	movi	v17.2d, #0000000000000000
	movi	v4.2d, #0000000000000000
	add	x12, x9, #16
	movi	v5.2d, #0000000000000000
	movi	v3.2d, #0000000000000000
	and	x13, x8, #0xffffffffffffffe0
	movi	v21.2d, #0000000000000000
	movi	v16.2d, #0000000000000000
	movi	v7.2d, #0000000000000000
	movi	v22.2d, #0000000000000000
	movi	v19.2d, #0000000000000000
	movi	v20.2d, #0000000000000000
	movi	v18.2d, #0000000000000000
	movi	v23.2d, #0000000000000000
.LBB38_7:
	movi	v24.16b, #1
	ldp	q25, q26, [x12, #-16]
	ldr	q27, [x27, :lo12:.LCPI38_1]
	ldr	q28, [x20, :lo12:.LCPI38_0]
	subs	x13, x13, #32
	ldr	q29, [x28, :lo12:.LCPI38_2]
	add	x12, x12, #32
	and	v25.16b, v25.16b, v24.16b
	and	v24.16b, v26.16b, v24.16b
	ldr	q26, [x22, :lo12:.LCPI38_3]
	tbl	v30.16b, { v25.16b }, v27.16b
	tbl	v31.16b, { v25.16b }, v28.16b
	tbl	v8.16b, { v25.16b }, v29.16b
	tbl	v25.16b, { v25.16b }, v26.16b
	tbl	v27.16b, { v24.16b }, v27.16b
	tbl	v29.16b, { v24.16b }, v29.16b
	tbl	v28.16b, { v24.16b }, v28.16b
	tbl	v24.16b, { v24.16b }, v26.16b
	uaddw2	v17.2d, v17.2d, v30.4s
	uaddw2	v6.2d, v6.2d, v8.4s
	uaddw	v4.2d, v4.2d, v31.2s
	uaddw	v0.2d, v0.2d, v30.2s
	uaddw	v2.2d, v2.2d, v8.2s
	uaddw2	v5.2d, v5.2d, v31.4s
	uaddw	v3.2d, v3.2d, v25.2s
	uaddw2	v21.2d, v21.2d, v25.4s
	uaddw2	v22.2d, v22.2d, v27.4s
	uaddw2	v1.2d, v1.2d, v29.4s
	uaddw	v19.2d, v19.2d, v28.2s
	uaddw	v7.2d, v7.2d, v27.2s
	uaddw	v16.2d, v16.2d, v29.2s
	uaddw2	v20.2d, v20.2d, v28.4s
	uaddw	v18.2d, v18.2d, v24.2s
	uaddw2	v23.2d, v23.2d, v24.4s
	b.ne	.LBB38_7
	add	v17.2d, v22.2d, v17.2d
	add	v21.2d, v23.2d, v21.2d
	cmp	x8, x10
	add	v1.2d, v1.2d, v6.2d
	add	v2.2d, v16.2d, v2.2d
	add	v4.2d, v19.2d, v4.2d
	add	v5.2d, v20.2d, v5.2d
	add	v0.2d, v7.2d, v0.2d
	add	v3.2d, v18.2d, v3.2d
	add	v2.2d, v2.2d, v4.2d
	add	v0.2d, v0.2d, v3.2d
	add	v1.2d, v1.2d, v5.2d
	add	v3.2d, v17.2d, v21.2d
	add	v0.2d, v2.2d, v0.2d
	add	v1.2d, v1.2d, v3.2d
	add	v0.2d, v0.2d, v1.2d
	addp	d0, v0.2d
	fmov	x12, d0
	b.eq	.LBB38_15
	cbz	x11, .LBB38_13
.LBB38_10:
	movi	v0.2d, #0000000000000000
	movi	v1.2d, #0000000000000000
	movi	v2.2d, #0000000000000000
	movi	v3.2d, #0000000000000000
	mov	v0.d[0], x12
	mov	x12, x10
	and	x10, x8, #0xfffffffffffffff8
	sub	x11, x12, x10
	add	x12, x9, x12
.LBB38_11:
	movi	v4.8b, #1
	ldr	d5, [x12], #8
	ldr	q6, [x28, :lo12:.LCPI38_2]
	adds	x11, x11, #8
	and	v4.8b, v5.8b, v4.8b
	ldr	q5, [x27, :lo12:.LCPI38_1]
	tbl	v5.16b, { v4.16b }, v5.16b
	tbl	v4.16b, { v4.16b }, v6.16b
	uaddw2	v3.2d, v3.2d, v5.4s
	uaddw2	v2.2d, v2.2d, v4.4s
	uaddw	v1.2d, v1.2d, v5.2s
	uaddw	v0.2d, v0.2d, v4.2s
	b.ne	.LBB38_11
	add	v0.2d, v0.2d, v1.2d
	add	v1.2d, v2.2d, v3.2d
	cmp	x8, x10
	add	v0.2d, v0.2d, v1.2d
	addp	d0, v0.2d
	fmov	x12, d0
	b.eq	.LBB38_15
.LBB38_13:
	sub	x11, x8, x10
	add	x9, x9, x10
.LBB38_14:
	ldrb	w10, [x9], #1
	subs	x11, x11, #1
	and	x10, x10, #0x1
	add	x12, x12, x10
	b.ne	.LBB38_14
.LBB38_15:
	lsr	x9, x12, #1
	mov	x24, x4
	cmp	x8, #256
	add	x26, x9, x9, lsl #1
	b.hi	.LBB38_28
.LBB38_16:
	mov	x0, x3
	mov	x1, x23
	bl	"row_call::list_sized::<=258>"
.LBB38_17:
	mov	x0, x24
	cbz	x26, .LBB38_24
	cmp	x26, #4
	b.lo	.LBB38_21
	add	x8, x23, x26, lsl #2
	cmp	x25, x8
	b.hs	.LBB38_32
	add	x8, x25, x26, lsl #1
	cmp	x23, x8
	b.hs	.LBB38_32
.LBB38_21:
	mov	x8, xzr
.LBB38_22:
	add	x9, x25, x8, lsl #1
	add	x10, x23, x8, lsl #2
	sub	x8, x26, x8
.LBB38_23:
	ldr	w11, [x10], #4
	subs	x8, x8, #1
	strh	w11, [x9], #2
	b.ne	.LBB38_23
.LBB38_24:
	ldr	x8, [x0, #16]
	ldr	x24, [x29, #112]
	ldr	x21, [x29, #96]
	cbz	x8, .LBB38_27
	ldr	x9, [x0, #8]
	cmp	x8, #8
	b.hs	.LBB38_30
	ldr	x22, [sp, #40]
	mov	x12, xzr
	mov	x10, xzr
	b	.LBB38_42
.LBB38_27:
	ldr	x22, [sp, #40]
	mov	x27, xzr
	b	.LBB38_45
.LBB38_28:
	mov	x0, x3
	mov	x1, x23
	cmp	x8, #2048
	b.hi	.LBB38_34
	bl	"row_call::list_sized::<=2050>"
	b	.LBB38_17
.LBB38_30:
	cmp	x8, #32
	b.hs	.LBB38_35
	ldr	x22, [sp, #40]
	mov	x10, xzr
	mov	x12, xzr
	b	.LBB38_39
.LBB38_32:
	cmp	x26, #16
	b.hs	.LBB38_60
	mov	x8, xzr
	b	.LBB38_64
.LBB38_34:
	bl	"row_call::list_sized::<=16386>"
	b	.LBB38_17
.LBB38_35:
	movi	v1.2d, #0000000000000000
	movi	v2.2d, #0000000000000000
	and	x11, x8, #0x18
	movi	v6.2d, #0000000000000000
	movi	v0.2d, #0000000000000000
	and	x10, x8, #0xffffffffffffffe0
	movi	v17.2d, #0000000000000000
	movi	v4.2d, #0000000000000000
	add	x12, x9, #16
	movi	v5.2d, #0000000000000000
	movi	v3.2d, #0000000000000000
	and	x13, x8, #0xffffffffffffffe0
	movi	v21.2d, #0000000000000000
	movi	v16.2d, #0000000000000000
	movi	v7.2d, #0000000000000000
	movi	v22.2d, #0000000000000000
	movi	v19.2d, #0000000000000000
	movi	v20.2d, #0000000000000000
	movi	v18.2d, #0000000000000000
	movi	v23.2d, #0000000000000000
.LBB38_36:
	movi	v24.16b, #1
	ldp	q25, q26, [x12, #-16]
	ldr	q27, [x27, :lo12:.LCPI38_1]
	ldr	q28, [x20, :lo12:.LCPI38_0]
	subs	x13, x13, #32
	ldr	q29, [x28, :lo12:.LCPI38_2]
	add	x12, x12, #32
	and	v25.16b, v25.16b, v24.16b
	and	v24.16b, v26.16b, v24.16b
	ldr	q26, [x22, :lo12:.LCPI38_3]
	tbl	v30.16b, { v25.16b }, v27.16b
	tbl	v31.16b, { v25.16b }, v28.16b
	tbl	v8.16b, { v25.16b }, v29.16b
	tbl	v25.16b, { v25.16b }, v26.16b
	tbl	v27.16b, { v24.16b }, v27.16b
	tbl	v29.16b, { v24.16b }, v29.16b
	tbl	v28.16b, { v24.16b }, v28.16b
	tbl	v24.16b, { v24.16b }, v26.16b
	uaddw2	v17.2d, v17.2d, v30.4s
	uaddw2	v6.2d, v6.2d, v8.4s
	uaddw	v4.2d, v4.2d, v31.2s
	uaddw	v0.2d, v0.2d, v30.2s
	uaddw	v2.2d, v2.2d, v8.2s
	uaddw2	v5.2d, v5.2d, v31.4s
	uaddw	v3.2d, v3.2d, v25.2s
	uaddw2	v21.2d, v21.2d, v25.4s
	uaddw2	v22.2d, v22.2d, v27.4s
	uaddw2	v1.2d, v1.2d, v29.4s
	uaddw	v19.2d, v19.2d, v28.2s
	uaddw	v7.2d, v7.2d, v27.2s
	uaddw	v16.2d, v16.2d, v29.2s
	uaddw2	v20.2d, v20.2d, v28.4s
	uaddw	v18.2d, v18.2d, v24.2s
	uaddw2	v23.2d, v23.2d, v24.4s
	b.ne	.LBB38_36
	add	v17.2d, v22.2d, v17.2d
	add	v21.2d, v23.2d, v21.2d
	ldr	x22, [sp, #40]
	add	v1.2d, v1.2d, v6.2d
	add	v2.2d, v16.2d, v2.2d
	cmp	x8, x10
	add	v4.2d, v19.2d, v4.2d
	add	v5.2d, v20.2d, v5.2d
	add	v0.2d, v7.2d, v0.2d
	add	v3.2d, v18.2d, v3.2d
	add	v2.2d, v2.2d, v4.2d
	add	v1.2d, v1.2d, v5.2d
	add	v0.2d, v0.2d, v3.2d
	add	v3.2d, v17.2d, v21.2d
	add	v0.2d, v2.2d, v0.2d
	add	v1.2d, v1.2d, v3.2d
	add	v0.2d, v0.2d, v1.2d
	addp	d0, v0.2d
	fmov	x12, d0
	b.eq	.LBB38_44
	cbz	x11, .LBB38_42
.LBB38_39:
	movi	v0.2d, #0000000000000000
	movi	v1.2d, #0000000000000000
	movi	v2.2d, #0000000000000000
	movi	v3.2d, #0000000000000000
	mov	v0.d[0], x12
	mov	x12, x10
	and	x10, x8, #0xfffffffffffffff8
	sub	x11, x12, x10
	add	x12, x9, x12
.LBB38_40:
	movi	v4.8b, #1
	ldr	d5, [x12], #8
	ldr	q6, [x28, :lo12:.LCPI38_2]
	adds	x11, x11, #8
	and	v4.8b, v5.8b, v4.8b
	ldr	q5, [x27, :lo12:.LCPI38_1]
	tbl	v5.16b, { v4.16b }, v5.16b
	tbl	v4.16b, { v4.16b }, v6.16b
	uaddw2	v3.2d, v3.2d, v5.4s
	uaddw2	v2.2d, v2.2d, v4.4s
	uaddw	v1.2d, v1.2d, v5.2s
	uaddw	v0.2d, v0.2d, v4.2s
	b.ne	.LBB38_40
	add	v0.2d, v0.2d, v1.2d
	add	v1.2d, v2.2d, v3.2d
	cmp	x8, x10
	add	v0.2d, v0.2d, v1.2d
	addp	d0, v0.2d
	fmov	x12, d0
	b.eq	.LBB38_44
.LBB38_42:
	sub	x11, x8, x10
	add	x9, x9, x10
.LBB38_43:
	ldrb	w10, [x9], #1
	subs	x11, x11, #1
	and	x10, x10, #0x1
	add	x12, x12, x10
	b.ne	.LBB38_43
.LBB38_44:
	lsr	x9, x12, #1
	cmp	x8, #256
	add	x27, x9, x9, lsl #1
	b.hi	.LBB38_52
.LBB38_45:
	mov	x1, x23
	bl	"row_call::list_sized::<=258>"
.LBB38_46:
	add	x8, x27, x26
	ldr	x20, [x29, #104]
	cmp	x8, x24
	b.hi	.LBB38_50
	cmp	x8, x22
	b.hi	.LBB38_50
	cmp	x8, x21
	b.hi	.LBB38_50
.LBB38_49:
	movi	v0.2d, #0000000000000000
	ldp	x5, x7, [sp, #24]
	sub	x0, x29, #80
	mov	x1, x25
	mov	x2, x26
	mov	x3, x23
	mov	x4, x27
	mov	x6, x22
	stp	x20, x24, [sp, #8]
	stp	q0, q0, [x29, #-64]
	stur	q0, [x29, #-80]
	str	x21, [sp]
	bl	"overlay_sweep::sweep"
	ldp	q2, q1, [x29, #-64]
	mov	x8, xzr
	ldur	q0, [x29, #-80]
	stp	q2, q1, [sp, #48]
	stp	q2, q1, [sp, #80]
	b	.LBB38_58
.LBB38_50:
	movi	v0.2d, #0000000000000000
	mov	w8, #1
	sub	x9, x29, #8
	sub	x0, x29, #80
	add	x5, sp, #80
	sub	x7, x29, #4
	mov	x1, x25
	mov	x2, x26
	mov	x3, x23
	mov	x4, x27
	mov	w6, #1
	stp	x9, x8, [sp, #8]
	stp	q0, q0, [x29, #-80]
	stur	q0, [x29, #-48]
	str	x8, [sp]
	bl	"overlay_sweep::sweep"
	ldur	x8, [x29, #-72]
	add	x8, x8, x8, lsl #1
	cmp	x22, x8
	b.hs	.LBB38_54
	movi	v1.2d, #0000000000000000
	adrp	x8, .LCPI38_4
	b	.LBB38_57
.LBB38_52:
	mov	x1, x23
	cmp	x8, #2048
	b.hi	.LBB38_59
	bl	"row_call::list_sized::<=2050>"
	b	.LBB38_46
.LBB38_54:
	ldur	x8, [x29, #-56]
	add	x8, x8, x8, lsl #1
	cmp	x21, x8
	b.lo	.LBB38_56
	ldur	x8, [x29, #-40]
	add	x8, x8, x8, lsl #1
	cmp	x24, x8
	b.hs	.LBB38_49
.LBB38_56:
	adrp	x8, .LCPI38_4
	movi	v1.2d, #0000000000000000
.LBB38_57:
	ldr	q0, [x8, :lo12:.LCPI38_4]
	stp	q1, q1, [sp, #48]
	mov	w8, #1
.LBB38_58:
	stur	q0, [x19, #8]
	ldp	q1, q0, [sp, #48]
	str	x8, [x19]
	ldr	d8, [sp, #176]
	ldp	x22, x21, [sp, #256]
	stur	q1, [x19, #24]
	ldp	x24, x23, [sp, #240]
	stur	q0, [x19, #40]
	ldp	x20, x19, [sp, #272]
	ldp	x26, x25, [sp, #224]
	ldp	x28, x27, [sp, #208]
	ldp	x29, x30, [sp, #192]
	add	sp, sp, #288
	ret
.LBB38_59:
	bl	"row_call::list_sized::<=16386>"
	b	.LBB38_46
.LBB38_60:
	and	x9, x26, #0xc
	and	x8, x26, #0xfffffffffffffff0
	add	x10, x25, #16
	add	x11, x23, #32
	and	x12, x26, #0xfffffffffffffff0
.LBB38_61:
	ldp	q1, q0, [x11, #-32]
	subs	x12, x12, #16
	ldp	q3, q2, [x11], #64
	uzp1	v0.8h, v1.8h, v0.8h
	uzp1	v1.8h, v3.8h, v2.8h
	stp	q0, q1, [x10, #-16]
	add	x10, x10, #32
	b.ne	.LBB38_61
	cmp	x26, x8
	b.eq	.LBB38_24
	cbz	x9, .LBB38_22
.LBB38_64:
	mov	x11, x8
	and	x8, x26, #0xfffffffffffffffc
	add	x9, x25, x11, lsl #1
	add	x10, x23, x11, lsl #2
	sub	x11, x11, x8
.LBB38_65:
	ldr	q0, [x10], #16
	adds	x11, x11, #4
	xtn	v0.4h, v0.4s
	str	d0, [x9], #8
	b.ne	.LBB38_65
	cmp	x26, x8
	b.eq	.LBB38_24
	b	.LBB38_22
.Lfunc_end38:
	.size	"overlay_call::list_in", .Lfunc_end38-"overlay_call::list_in"

	.section	".text.row_call::list_sized::<=258>","ax",@progbits
	.p2align	2
	.type	"row_call::list_sized::<=258>",@function
"row_call::list_sized::<=258>":
	stp	x29, x30, [sp, #-48]!
	str	x28, [sp, #16]
	mov	x29, sp
	stp	x20, x19, [sp, #32]
	sub	sp, sp, #2064
	mov	x19, x1
	mov	x20, x0
	add	x0, sp, #1548
	mov	w1, wzr
	mov	w2, #516
	str	xzr, [sp]
	bl	memset
	add	x0, sp, #1032
	mov	w1, wzr
	mov	w2, #516
	bl	memset
	add	x0, sp, #516
	mov	w1, wzr
	mov	w2, #516
	bl	memset
	mov	x0, sp
	mov	w1, wzr
	mov	w2, #516
	bl	memset
	ldr	x8, [x20, #16]
	add	x2, sp, #1548
	add	x3, sp, #1032
	add	x4, sp, #516
	mov	x5, sp
	mov	x0, x20
	lsr	x8, x8, #1
	mov	x6, x19
	add	w1, w8, #1
	bl	"row_call::list_in"
	add	sp, sp, #2064
	ldp	x20, x19, [sp, #32]
	ldr	x28, [sp, #16]
	ldp	x29, x30, [sp], #48
	ret
.Lfunc_end39:
	.size	"row_call::list_sized::<=258>", .Lfunc_end39-"row_call::list_sized::<=258>"

	.section	.rodata.cst16,"aM",@progbits,16
	.p2align	4, 0x0
.LCPI40_0:
	.word	1
	.word	0
	.word	4294967295
	.word	0
	.section	".text.row_call::list_in","ax",@progbits
	.p2align	2
	.type	"row_call::list_in",@function
"row_call::list_in":
	sub	sp, sp, #32
	adrp	x8, .LCPI40_0
	mov	x10, #65536
	ldr	q0, [x8, :lo12:.LCPI40_0]
	ldp	x9, x8, [x0, #8]
	movk	x10, #65535, lsl #48
	str	x10, [sp, #8]
	str	q0, [sp, #16]
	cbz	x8, .LBB40_3
	mov	x10, xzr
	and	w11, w1, #0xffff
	mov	w12, w1
.LBB40_2:
	ldrb	w13, [x9, x10]
	and	x14, x13, #0x1
	cmp	x13, #2
	umull	x14, w14, w11
	cset	w15, hi
	sub	w15, w12, w15
	strh	w15, [x5, x10, lsl #1]
	add	x15, sp, #16
	ldrh	w16, [x2, x14, lsl #1]
	ldr	w15, [x15, x13, lsl #2]
	strh	w16, [x4, x10, lsl #1]
	add	x16, sp, #8
	ldrh	w13, [x16, x13, lsl #1]
	add	w16, w10, #1
	add	x10, x10, #1
	cmp	x8, x10
	add	w11, w15, w11
	strh	w16, [x2, x14, lsl #1]
	add	w12, w13, w12
	b.ne	.LBB40_2
.LBB40_3:
	tst	w1, #0xffff
	b.eq	.LBB40_14
	ubfiz	x8, x1, #1, #16
	mov	x9, x8
	b	.LBB40_6
.LBB40_5:
	cmp	x9, #1
	b.ls	.LBB40_8
.LBB40_6:
	sub	x9, x9, #1
	ldrh	w10, [x2, x9, lsl #1]
	cbz	w10, .LBB40_5
.LBB40_7:
	mov	w10, w10
	sub	x11, x10, #1
	ldrh	w12, [x5, x11, lsl #1]
	ldrh	w10, [x4, x11, lsl #1]
	strh	w9, [x5, x11, lsl #1]
	ldrh	w13, [x3, x12, lsl #1]
	strh	w13, [x4, x11, lsl #1]
	add	w11, w11, #1
	strh	w11, [x3, x12, lsl #1]
	cbnz	w10, .LBB40_7
	b	.LBB40_5
.LBB40_8:
	ldp	w10, w11, [x0]
	and	w12, w1, #0xffff
	mov	x9, xzr
	mov	x14, xzr
	add	x13, x6, #8
	sub	w10, w10, w12
	sub	w11, w11, w12
	sub	w12, w10, #1
	b	.LBB40_10
.LBB40_9:
	add	x9, x9, #1
	cmp	x9, x8
	b.eq	.LBB40_14
.LBB40_10:
	ldrh	w17, [x3, x9, lsl #1]
	cbz	w17, .LBB40_9
	add	x15, x13, x14, lsl #2
	add	w16, w11, w9
	add	x14, x14, #1
.LBB40_12:
	ubfiz	x17, x17, #1, #32
	add	x14, x14, #3
	sub	x17, x17, #2
	ldrh	w18, [x4, x17]
	ldrh	w17, [x5, x17]
	lsl	x18, x18, #1
	add	w17, w10, w17
	sub	x18, x18, #2
	ldrh	w0, [x5, x18]
	stp	w16, w17, [x15, #-8]
	add	w0, w12, w0
	str	w0, [x15], #12
	ldrh	w17, [x4, x18]
	cbnz	w17, .LBB40_12
	sub	x14, x14, #1
	b	.LBB40_9
.LBB40_14:
	add	sp, sp, #32
	ret
.Lfunc_end40:
	.size	"row_call::list_in", .Lfunc_end40-"row_call::list_in"

	.section	".text.row_call::list_sized::<=2050>","ax",@progbits
	.p2align	2
	.type	"row_call::list_sized::<=2050>",@function
"row_call::list_sized::<=2050>":
	stp	x29, x30, [sp, #-48]!
	sub	x9, sp, #3, lsl #12
	str	x28, [sp, #16]
	mov	x29, sp
	sub	x9, x9, #3072
	stp	x20, x19, [sp, #32]
.LBB41_1:
	sub	sp, sp, #3072
	cmp	sp, x9
	str	xzr, [sp]
	b.ne	.LBB41_1
	sub	sp, sp, #1040
	mov	x20, x0
	add	x0, sp, #3, lsl #12
	mov	x19, x1
	add	x0, x0, #12
	mov	w1, wzr
	mov	w2, #4100
	str	xzr, [sp]
	bl	memset
	add	x0, sp, #2, lsl #12
	mov	w1, wzr
	mov	w2, #4100
	add	x0, x0, #8
	bl	memset
	add	x0, sp, #1, lsl #12
	mov	w1, wzr
	mov	w2, #4100
	add	x0, x0, #4
	bl	memset
	mov	x0, sp
	mov	w1, wzr
	mov	w2, #4100
	bl	memset
	ldr	x8, [x20, #16]
	add	x2, sp, #3, lsl #12
	add	x3, sp, #2, lsl #12
	add	x4, sp, #1, lsl #12
	add	x2, x2, #12
	add	x3, x3, #8
	lsr	x8, x8, #1
	add	x4, x4, #4
	mov	x5, sp
	mov	x0, x20
	mov	x6, x19
	add	w1, w8, #1
	bl	"row_call::list_in"
	add	sp, sp, #4, lsl #12
	add	sp, sp, #16
	ldp	x20, x19, [sp, #32]
	ldr	x28, [sp, #16]
	ldp	x29, x30, [sp], #48
	ret
.Lfunc_end41:
	.size	"row_call::list_sized::<=2050>", .Lfunc_end41-"row_call::list_sized::<=2050>"

	.section	".text.row_call::list_sized::<=16386>","ax",@progbits
	.p2align	2
	.type	"row_call::list_sized::<=16386>",@function
"row_call::list_sized::<=16386>":
	stp	x29, x30, [sp, #-48]!
	sub	x9, sp, #31, lsl #12
	str	x28, [sp, #16]
	mov	x29, sp
	sub	x9, x9, #2048
	stp	x20, x19, [sp, #32]
.LBB42_1:
	sub	sp, sp, #3072
	cmp	sp, x9
	str	xzr, [sp]
	b.ne	.LBB42_1
	sub	sp, sp, #2064
	mov	x20, x0
	add	x0, sp, #24, lsl #12
	mov	x19, x1
	add	x0, x0, #12
	mov	w1, wzr
	mov	w2, #32772
	str	xzr, [sp]
	bl	memset
	add	x0, sp, #16, lsl #12
	mov	w1, wzr
	mov	w2, #32772
	add	x0, x0, #8
	bl	memset
	add	x0, sp, #8, lsl #12
	mov	w1, wzr
	mov	w2, #32772
	add	x0, x0, #4
	bl	memset
	mov	x0, sp
	mov	w1, wzr
	mov	w2, #32772
	bl	memset
	ldr	x8, [x20, #16]
	add	x2, sp, #24, lsl #12
	add	x3, sp, #16, lsl #12
	add	x4, sp, #8, lsl #12
	add	x2, x2, #12
	add	x3, x3, #8
	lsr	x8, x8, #1
	add	x4, x4, #4
	mov	x5, sp
	mov	x0, x20
	mov	x6, x19
	add	w1, w8, #1
	bl	"row_call::list_in"
	add	sp, sp, #32, lsl #12
	add	sp, sp, #16
	ldp	x20, x19, [sp, #32]
	ldr	x28, [sp, #16]
	ldp	x29, x30, [sp], #48
	ret
.Lfunc_end42:
	.size	"row_call::list_sized::<=16386>", .Lfunc_end42-"row_call::list_sized::<=16386>"

	.section	".text.overlay_sweep::sweep","ax",@progbits
	.p2align	2
	.type	"overlay_sweep::sweep",@function
"overlay_sweep::sweep":
	mov	x8, #-6148914691236517206
	movk	x8, #43691
	umulh	x9, x2, x8
	umulh	x8, x4, x8
	and	x13, x9, #0xfffffffffffffffe
	and	x14, x8, #0xfffffffffffffffe
	adds	x15, x14, x13
	b.eq	.LBB43_24
	stp	x28, x27, [sp, #-80]!
	ldp	x2, x18, [sp, #88]
	mov	x16, xzr
	stp	x20, x19, [sp, #64]
	ldr	x19, [sp, #80]
	mov	x20, xzr
	stp	x22, x21, [sp, #48]
	mov	x22, xzr
	mov	x17, xzr
	mov	x8, xzr
	mov	x9, xzr
	mov	x10, xzr
	mov	x11, xzr
	mov	x12, xzr
	mov	x4, xzr
	stp	x26, x25, [sp, #16]
	stp	x24, x23, [sp, #32]
	b	.LBB43_3
.LBB43_2:
	add	x20, x16, x17
	mov	x22, x23
	cmp	x20, x15
	neg	x20, x23
	b.hs	.LBB43_23
.LBB43_3:
	cmp	x13, x17
	b.ls	.LBB43_10
	lsr	x21, x17, #1
	mov	w23, #6
	and	x24, x17, #0x1
	mov	x25, #4294967296
	mul	x23, x21, x23
	add	x21, x21, x21, lsl #1
	add	x21, x24, x21
	add	x21, x1, x21, lsl #1
	ldrsh	x23, [x1, x23]
	ldrsh	x21, [x21, #2]
	add	x23, x25, x23, lsl #17
	add	x21, x21, x24
	and	x23, x23, #0x1fffffffe0000
	add	x21, x21, x23
	add	x21, x21, #8, lsl #12
	cmp	x14, x16
	b.ls	.LBB43_11
.LBB43_5:
	lsr	x23, x16, #1
	mov	w24, #12
	and	x25, x16, #0x1
	and	w26, w16, #0x1
	mul	x24, x23, x24
	add	x23, x23, x23, lsl #1
	add	x23, x25, x23
	add	x23, x3, x23, lsl #2
	ldr	w24, [x3, x24]
	ldr	w23, [x23, #4]
	add	w24, w24, #8, lsl #12
	add	w23, w23, w26
	sbfiz	x24, x24, #17, #32
	add	w23, w23, #8, lsl #12
	add	x24, x24, w23, sxtw
	cmp	x24, x21
	csel	x23, x24, x21, lo
	tbnz	w17, #0, .LBB43_12
.LBB43_6:
	cbz	x25, .LBB43_16
	add	x25, x10, x10, lsl #1
	add	x25, x25, #2
	cmp	x25, x19
	b.hs	.LBB43_9
	mov	w26, #12
	mov	w27, #-32768
	mov	w28, #-32769
	madd	x26, x10, x26, x7
	add	x27, x27, x22, lsr #17
	and	w22, w22, #0x1ffff
	sub	w22, w22, #8, lsl #12
	stp	w27, w22, [x26]
	and	w27, w23, #0x1ffff
	add	w22, w27, w28
	str	w22, [x7, x25, lsl #2]
.LBB43_9:
	add	x11, x20, x11
	add	x10, x10, #1
	add	x11, x11, x23
	cmp	x21, x24
	b.hi	.LBB43_17
	b	.LBB43_21
.LBB43_10:
	mov	x21, #17179869184
	cmp	x14, x16
	b.hi	.LBB43_5
.LBB43_11:
	and	x25, x16, #0x1
	mov	x24, #17179869184
	cmp	x24, x21
	csel	x23, x24, x21, lo
	tbz	w17, #0, .LBB43_6
.LBB43_12:
	cbz	x25, .LBB43_18
	add	x25, x8, x8, lsl #1
	add	x25, x25, #2
	cmp	x25, x18
	b.hs	.LBB43_15
	mov	w26, #12
	mov	w27, #-32768
	mov	w28, #-32769
	madd	x26, x8, x26, x2
	add	x27, x27, x22, lsr #17
	and	w22, w22, #0x1ffff
	sub	w22, w22, #8, lsl #12
	stp	w27, w22, [x26]
	and	w27, w23, #0x1ffff
	add	w22, w27, w28
	str	w22, [x2, x25, lsl #2]
.LBB43_15:
	add	x9, x20, x9
	add	x8, x8, #1
	add	x9, x9, x23
.LBB43_16:
	cmp	x21, x24
	b.ls	.LBB43_21
.LBB43_17:
	cmp	x24, x21
	b.hi	.LBB43_2
	b	.LBB43_22
.LBB43_18:
	add	x25, x12, x12, lsl #1
	add	x25, x25, #2
	cmp	x25, x6
	b.hs	.LBB43_20
	mov	w26, #12
	mov	w27, #-32768
	mov	w28, #-32769
	madd	x26, x12, x26, x5
	add	x27, x27, x22, lsr #17
	and	w22, w22, #0x1ffff
	sub	w22, w22, #8, lsl #12
	stp	w27, w22, [x26]
	and	w27, w23, #0x1ffff
	add	w22, w27, w28
	str	w22, [x5, x25, lsl #2]
.LBB43_20:
	add	x4, x20, x4
	add	x12, x12, #1
	add	x4, x4, x23
	cmp	x21, x24
	b.hi	.LBB43_17
.LBB43_21:
	add	x17, x17, #1
	cmp	x24, x21
	b.hi	.LBB43_2
.LBB43_22:
	add	x16, x16, #1
	b	.LBB43_2
.LBB43_23:
	ldp	x20, x19, [sp, #64]
	ldp	x22, x21, [sp, #48]
	ldp	x24, x23, [sp, #32]
	ldp	x26, x25, [sp, #16]
	ldp	x28, x27, [sp], #80
	stp	x4, x12, [x0]
	stp	x11, x10, [x0, #16]
	stp	x9, x8, [x0, #32]
	ret
.LBB43_24:
	stp	xzr, xzr, [x0]
	stp	xzr, xzr, [x0, #16]
	stp	xzr, xzr, [x0, #32]
	ret
.Lfunc_end43:
	.size	"overlay_sweep::sweep", .Lfunc_end43-"overlay_sweep::sweep"

	.section	".text.overlay_call::list_sized::<=3072>","ax",@progbits
	.p2align	2
	.type	"overlay_call::list_sized::<=3072>",@function
"overlay_call::list_sized::<=3072>":
	stp	x29, x30, [sp, #-96]!
	sub	x9, sp, #4, lsl #12
	stp	x28, x27, [sp, #16]
	mov	x29, sp
	sub	x9, x9, #2048
	stp	x26, x25, [sp, #32]
	stp	x24, x23, [sp, #48]
	stp	x22, x21, [sp, #64]
	stp	x20, x19, [sp, #80]
.LBB44_1:
	sub	sp, sp, #3072
	cmp	sp, x9
	str	xzr, [sp]
	b.ne	.LBB44_1
	sub	sp, sp, #112
	movi	v0.2d, #0000000000000000
	mov	x19, x0
	add	x0, sp, #3, lsl #12
	mov	x25, x2
	mov	x26, x1
	ldr	x27, [x29, #96]
	add	x0, x0, #32
	mov	w1, wzr
	mov	w2, #6144
	mov	x20, x7
	mov	x21, x6
	mov	x22, x5
	mov	x23, x4
	mov	x24, x3
	stur	xzr, [x29, #-32]
	stp	q0, q0, [x29, #-64]
	sub	x28, x29, #80
	stur	q0, [x29, #-80]
	bl	memset
	add	x0, sp, #32
	mov	w1, wzr
	mov	w2, #12288
	bl	memset
	add	x1, sp, #3, lsl #12
	sub	x0, x29, #80
	add	x2, sp, #32
	add	x1, x1, #32
	mov	x3, x26
	mov	x4, x25
	mov	x5, x24
	mov	x6, x23
	mov	x7, x22
	stp	x20, x27, [sp, #8]
	str	x21, [sp]
	bl	"overlay_call::list_in"
	ldrb	w8, [x28]
	ldur	q0, [x28, #8]
	ldur	q1, [x28, #24]
	ldur	q2, [x28, #40]
	str	x8, [x19]
	stur	q0, [x19, #8]
	stur	q1, [x19, #24]
	stur	q2, [x19, #40]
	add	sp, sp, #4, lsl #12
	add	sp, sp, #2160
	ldp	x20, x19, [sp, #80]
	ldp	x22, x21, [sp, #64]
	ldp	x24, x23, [sp, #48]
	ldp	x26, x25, [sp, #32]
	ldp	x28, x27, [sp, #16]
	ldp	x29, x30, [sp], #96
	ret
.Lfunc_end44:
	.size	"overlay_call::list_sized::<=3072>", .Lfunc_end44-"overlay_call::list_sized::<=3072>"

	.section	".text.overlay_call::list_sized::<=24576>","ax",@progbits
	.p2align	2
	.type	"overlay_call::list_sized::<=24576>",@function
"overlay_call::list_sized::<=24576>":
	stp	x29, x30, [sp, #-96]!
	sub	x9, sp, #36, lsl #12
	stp	x28, x27, [sp, #16]
	mov	x29, sp
	stp	x26, x25, [sp, #32]
	stp	x24, x23, [sp, #48]
	stp	x22, x21, [sp, #64]
	stp	x20, x19, [sp, #80]
.LBB45_1:
	sub	sp, sp, #3072
	cmp	sp, x9
	str	xzr, [sp]
	b.ne	.LBB45_1
	sub	sp, sp, #112
	movi	v0.2d, #0000000000000000
	mov	x19, x0
	add	x0, sp, #24, lsl #12
	mov	x25, x2
	mov	x26, x1
	sub	x27, x29, #80
	ldr	x28, [x29, #96]
	add	x0, x0, #32
	mov	w1, wzr
	mov	w2, #49152
	mov	x20, x7
	mov	x21, x6
	mov	x22, x5
	mov	x23, x4
	mov	x24, x3
	str	xzr, [x27, #48]
	str	q0, [x27, #32]
	stp	q0, q0, [x27]
	bl	memset
	add	x0, sp, #32
	mov	w1, wzr
	mov	w2, #98304
	bl	memset
	add	x1, sp, #24, lsl #12
	sub	x0, x29, #80
	add	x2, sp, #32
	add	x1, x1, #32
	mov	x3, x26
	mov	x4, x25
	mov	x5, x24
	mov	x6, x23
	mov	x7, x22
	stp	x20, x28, [sp, #8]
	str	x21, [sp]
	bl	"overlay_call::list_in"
	ldrb	w8, [x27]
	ldur	q0, [x27, #8]
	ldur	q1, [x27, #24]
	ldur	q2, [x27, #40]
	str	x8, [x19]
	stur	q0, [x19, #8]
	stur	q1, [x19, #24]
	stur	q2, [x19, #40]
	add	sp, sp, #36, lsl #12
	add	sp, sp, #112
	ldp	x20, x19, [sp, #80]
	ldp	x22, x21, [sp, #64]
	ldp	x24, x23, [sp, #48]
	ldp	x26, x25, [sp, #32]
	ldp	x28, x27, [sp, #16]
	ldp	x29, x30, [sp], #96
	ret
.Lfunc_end45:
	.size	"overlay_call::list_sized::<=24576>", .Lfunc_end45-"overlay_call::list_sized::<=24576>"

	.section	".text.pair_plant::plant","ax",@progbits
	.p2align	2
	.type	"pair_plant::plant",@function
"pair_plant::plant":
	orr	w8, w7, w6
	cbz	w8, .LBB46_18
	mov	x8, xzr
	mov	w9, w7
	mov	w10, w6
.LBB46_2:
	add	w10, w10, w10, lsr #31
	add	w9, w9, w9, lsr #31
	add	x8, x8, #1
	asr	w10, w10, #1
	asr	w9, w9, #1
	orr	w11, w10, w9
	cbnz	w11, .LBB46_2
	mov	x9, xzr
	cbz	x8, .LBB46_19
	mov	w10, #11
	mov	x11, #19
	mov	x12, #76
	madd	x10, x3, x10, x11
	mov	w11, #44
	madd	x11, x3, x11, x12
	sub	x12, x8, #1
	b	.LBB46_6
.LBB46_5:
	sub	x12, x12, #1
	cbz	x8, .LBB46_19
.LBB46_6:
	subs	x8, x8, #1
	mov	w14, w6
	mov	w13, w7
	b.eq	.LBB46_9
	mov	x15, x12
	mov	w13, w7
	mov	w14, w6
.LBB46_8:
	add	w14, w14, w14, lsr #31
	add	w13, w13, w13, lsr #31
	subs	x15, x15, #1
	asr	w14, w14, #1
	asr	w13, w13, #1
	b.ne	.LBB46_8
.LBB46_9:
	tst	w14, #0x1
	mov	w15, #7
	mov	w16, #4
	csel	x15, x16, x15, eq
	cmn	w14, #1
	mov	w14, #36
	csinc	x15, x15, xzr, ne
	madd	x14, x9, x14, x15
	tst	w13, #0x1
	mov	w15, #1
	cinc	x15, x15, ne
	cmn	w13, #1
	csel	x13, xzr, x15, eq
	add	x13, x14, x13
	ldr	w14, [x1, x13, lsl #2]
	cbz	w14, .LBB46_12
	sub	x9, x14, #1
	mov	w13, #36
	madd	x13, x9, x13, x10
	ldr	w14, [x1, x13, lsl #2]
	cbnz	w14, .LBB46_5
	mov	w14, #1
	str	w14, [x1, x13, lsl #2]
	b	.LBB46_5
.LBB46_12:
	mov	w14, #36
	mov	x15, #36
	madd	x14, x5, x14, x15
	cmp	x14, x2
	b.hi	.LBB46_21
	mov	w14, #144
	mov	w16, #36
	madd	x14, x5, x14, x1
	madd	x15, x5, x16, x15
	add	x5, x5, #1
.LBB46_14:
	ldr	w16, [x14]
	cbz	w16, .LBB46_16
	add	x15, x15, #36
	add	x5, x5, #1
	add	x14, x14, #144
	cmp	x15, x2
	b.ls	.LBB46_14
	b	.LBB46_21
.LBB46_16:
	cmp	x15, x2
	b.hi	.LBB46_21
	add	w9, w9, #1
	str	w5, [x1, x13, lsl #2]
	add	x4, x4, #1
	str	w9, [x14]
	sub	x9, x5, #1
	mov	w13, #1
	str	w13, [x14, x11]
	b	.LBB46_5
.LBB46_18:
	mov	x9, xzr
.LBB46_19:
	mov	w8, #11
	mov	w10, #36
	mul	x8, x3, x8
	madd	x8, x9, x10, x8
	add	x8, x1, x8, lsl #2
	ldr	w10, [x8, #72]
	add	w11, w10, #1
	str	w11, [x8, #72]
	cbz	w10, .LBB46_22
	mov	w8, #1
	stp	x4, x5, [x0, #16]
	stp	x8, x9, [x0]
	ret
.LBB46_21:
	movi	v0.2d, #0000000000000000
	stp	q0, q0, [x0]
	ret
.LBB46_22:
	mov	w10, #1
	str	w10, [x8, #80]
	mov	w8, #1
	stp	x4, x5, [x0, #16]
	stp	x8, x9, [x0]
	ret
.Lfunc_end46:
	.size	"pair_plant::plant", .Lfunc_end46-"pair_plant::plant"

	.section	.rodata.cst16,"aM",@progbits,16
	.p2align	4, 0x0
.LCPI47_0:
	.xword	1
	.xword	6
	.section	".text.pair_run::perform","ax",@progbits
	.p2align	2
	.type	"pair_run::perform",@function
"pair_run::perform":
	sub	sp, sp, #432
	stp	x26, x25, [sp, #368]
	str	x2, [sp, #64]
	ldp	x26, x2, [x6]
	stp	x29, x30, [sp, #336]
	add	x29, sp, #336
	stp	x28, x27, [sp, #352]
	ldp	x28, x27, [x6, #48]
	stp	x24, x23, [sp, #384]
	mov	w23, w7
	mov	x7, x5
	stp	x22, x21, [sp, #400]
	mov	x22, x3
	and	w8, w23, #0xff
	stp	x20, x19, [sp, #416]
	mov	x20, x1
	ldr	x10, [x29, #96]
	ldp	x24, x1, [x6, #16]
	cmp	w8, #4
	ldp	x3, x5, [x6, #32]
	lsr	x6, x2, #32
	mov	x19, x0
	str	x7, [sp, #72]
	stp	x6, x2, [sp, #80]
	stp	x22, x10, [sp, #48]
	b.ne	.LBB47_14
	add	x8, x4, x24
	stp	x26, x2, [sp, #96]
	add	x2, sp, #96
	ldurb	w23, [x8, #-1]
	stp	x24, x1, [sp, #112]
	mov	x0, x20
	stp	x3, x1, [sp, #32]
	mov	x1, x7
	mov	x22, x5
	stp	x3, x5, [sp, #128]
	mov	w3, w23
	and	x25, x23, #0xff
	bl	"pair_change::changed"
	add	x9, x26, x26, lsl #3
	and	x8, x23, #0x3
	ldr	x16, [sp, #72]
	eor	x10, x8, #0x2
	mov	w11, #11
	bfi	x10, x9, #2, #62
	mul	x21, x16, x11
	add	x10, x20, x10, lsl #2
	ldr	w10, [x10, #40]
	sub	x30, x10, #1
	lsl	x10, x9, #2
	add	x9, x21, #21
	add	x11, x30, x30, lsl #3
	add	x12, x9, x25
	add	x13, x10, x21
	add	x9, x10, x9
	lsl	x23, x11, #2
	eor	x11, x8, #0x2
	add	x15, x9, x11
	add	x14, x12, x23
	add	x12, x20, x13, lsl #2
	ldr	w13, [x20, x14, lsl #2]
	ldr	w9, [x12, #72]
	sub	w13, w13, #1
	str	w13, [x20, x14, lsl #2]
	str	w13, [x20, x15, lsl #2]
	ldr	w13, [x12, #72]
	subs	w13, w13, #1
	str	w13, [x12, #72]
	b.ne	.LBB47_3
	str	wzr, [x12, #80]
.LBB47_3:
	eor	x12, x16, #0x1
	mov	w13, #11
	mov	x5, x22
	mul	x13, x12, x13
	ldp	x22, x7, [sp, #80]
	add	x12, x21, #14
	ldr	x6, [sp, #48]
	add	x14, x25, #14
	add	x15, x11, x12
	mov	x16, x30
	b	.LBB47_5
.LBB47_4:
	mov	w18, #36
	str	wzr, [x20, x17, lsl #2]
	madd	x18, x2, x18, x15
	str	wzr, [x20, x18, lsl #2]
	mov	w17, #144
	mul	x16, x16, x17
	ldr	w17, [x20, x16]
	sub	x16, x17, #1
	cbz	w17, .LBB47_8
.LBB47_5:
	add	x17, x16, x16, lsl #3
	lsl	x18, x17, #2
	add	x2, x14, x18
	add	x17, x2, x21
	ldr	w1, [x20, x17, lsl #2]
	cmp	w1, w24
	b.ne	.LBB47_8
	add	x18, x18, x25
	add	x2, x2, x13
	add	x1, x20, x18, lsl #2
	ldr	w4, [x20, x2, lsl #2]
	ldr	w3, [x1, #40]
	sub	x2, x3, #1
	cbnz	w4, .LBB47_4
	add	x17, x2, x2, lsl #3
	str	wzr, [x1, #40]
	add	x18, x18, x12
	str	wzr, [x20, x18, lsl #2]
	orr	x17, x11, x17, lsl #2
	add	x1, x20, x17, lsl #2
	add	x17, x17, x12
	str	wzr, [x1, #40]
	str	wzr, [x20, x17, lsl #2]
	mov	w17, #144
	mul	x16, x16, x17
	ldr	w17, [x20, x16]
	sub	x16, x17, #1
	cbnz	w17, .LBB47_5
.LBB47_8:
	add	x11, x21, #19
	add	x12, x10, x11
	add	x17, x20, x12, lsl #2
	add	w12, w24, #1
	ldr	w14, [x17]
	cmp	w14, w12
	b.ne	.LBB47_16
	ldp	x3, x2, [sp, #32]
	add	x13, x13, #19
	mov	w14, w22
	mov	w15, w7
	b	.LBB47_12
.LBB47_10:
	lsl	x10, x10, #2
	str	wzr, [x17]
.LBB47_11:
	add	x17, x10, x11
	add	w15, w15, w15, lsr #31
	add	w14, w14, w14, lsr #31
	add	x17, x20, x17, lsl #2
	mov	x26, x16
	asr	w15, w15, #1
	asr	w14, w14, #1
	ldr	w18, [x17]
	cmp	w18, w12
	b.ne	.LBB47_17
.LBB47_12:
	mov	w16, #144
	add	x10, x13, x10
	madd	x18, x26, x16, x20
	ldr	w1, [x20, x10, lsl #2]
	ldr	w16, [x18]
	sub	x16, x16, #1
	add	x10, x16, x16, lsl #3
	cbnz	w1, .LBB47_10
	tst	w15, #0x1
	mov	w17, #7
	mov	w1, #4
	csel	x17, x1, x17, eq
	cmn	w15, #1
	mov	w1, #1
	csinc	x17, x17, xzr, ne
	tst	w14, #0x1
	movi	v0.2d, #0000000000000000
	cinc	x1, x1, ne
	cmn	w14, #1
	lsl	x10, x10, #2
	csel	x1, xzr, x1, eq
	cmp	x26, x27
	sub	x28, x28, #1
	add	x17, x17, x1
	csel	x27, x26, x27, lo
	add	x17, x17, x10
	str	wzr, [x20, x17, lsl #2]
	stp	q0, q0, [x18, #16]
	stp	q0, q0, [x18, #48]
	stp	q0, q0, [x18, #80]
	stp	q0, q0, [x18, #112]
	str	q0, [x18]
	b	.LBB47_11
.LBB47_14:
	mov	w8, #11
	and	x0, x23, #0xff
	strb	w23, [x4, x24]
	mul	x21, x7, x8
	add	x8, x26, x26, lsl #3
	add	x4, x24, #1
	lsl	x11, x8, #2
	add	x12, x11, x0
	add	x8, x21, #14
	add	x9, x12, x8
	ldr	w9, [x20, x9, lsl #2]
	cbz	w9, .LBB47_18
	add	x8, x20, x12, lsl #2
	ldr	w8, [x8, #40]
	sub	x13, x8, #1
	b	.LBB47_36
.LBB47_16:
	ldp	x3, x2, [sp, #32]
.LBB47_17:
	cmp	w8, #1
	cset	w10, eq
	cmp	w8, #3
	cinc	w11, w22, eq
	cmp	w8, #0
	cset	w12, eq
	cmp	w8, #2
	sub	w8, w11, w10
	cinc	w10, w7, eq
	mov	w11, #65535
	cmp	x5, x24
	sub	w10, w10, w12
	csel	x12, x11, x5, eq
	csel	x11, x11, x3, eq
	cmp	w9, #1
	orr	x8, x10, x8, lsl #32
	cset	w9, eq
	csel	x5, x5, x12, eq
	csel	x3, x3, x11, eq
	sub	x2, x2, x9
	sub	x11, x24, #1
	b	.LBB47_42
.LBB47_18:
	add	x9, x11, x0
	add	x12, x8, x0
	sub	x24, x29, #112
	str	x9, [sp, #8]
	add	x9, x11, x12
	mov	x25, xzr
	ldr	w9, [x20, x9, lsl #2]
	cbz	w9, .LBB47_20
	mov	w10, w2
	mov	w9, w6
	b	.LBB47_25
.LBB47_20:
	ands	w9, w23, #0xff
	cset	w10, eq
	cmp	w9, #2
	cset	w11, eq
	cset	w14, hi
	cmp	w9, #1
	cset	w9, eq
	sub	w13, w10, w11
	mov	w10, w2
	sub	w14, w9, w14
	mov	w9, w6
.LBB47_21:
	add	w11, w13, w10
	add	w15, w9, w9, lsr #31
	add	w16, w14, w9
	add	w17, w10, w10, lsr #31
	add	w11, w11, w11, lsr #31
	add	w18, w16, w16, lsr #31
	asr	w15, w15, #1
	asr	w16, w17, #1
	asr	w11, w11, #1
	cmp	w15, w18, asr #1
	ccmp	w16, w11, #0, eq
	b.eq	.LBB47_24
	mov	w9, #144
	add	x25, x25, #1
	mov	w10, w16
	mul	x9, x26, x9
	ldr	w9, [x20, x9]
	sub	x26, x9, #1
	add	x9, x26, x26, lsl #3
	lsl	x11, x9, #2
	add	x9, x11, x12
	ldr	w17, [x20, x9, lsl #2]
	mov	w9, w15
	cbz	w17, .LBB47_21
	mov	w10, w16
	mov	w9, w15
	b	.LBB47_25
.LBB47_24:
	add	x11, x26, x26, lsl #3
	lsl	x11, x11, #2
.LBB47_25:
	mov	w12, w10
	movi	v0.2d, #0000000000000000
	sturb	w23, [x29, #-32]
	orr	x13, x12, x9, lsl #32
	add	x12, x11, x0
	sturh	wzr, [x24, #81]
	add	x11, x12, x8
	sturb	wzr, [x29, #-29]
	stp	x26, x13, [x29, #-48]
	ldr	w13, [x20, x11, lsl #2]
	stur	w4, [x29, #-28]
	stp	q0, q0, [x29, #-112]
	stp	x3, x1, [sp, #32]
	str	x5, [sp, #16]
	cbz	w13, .LBB47_44
	add	x8, x20, x12, lsl #2
	ldr	w8, [x8, #40]
	sub	x8, x8, #1
	stur	x8, [x29, #-104]
.LBB47_27:
	stp	x28, x27, [x29, #-96]
	ldur	q0, [x24, #8]
	stur	x27, [x29, #-128]
	stur	q0, [x29, #-144]
.LBB47_28:
	movi	v0.2d, #0000000000000000
	ldur	q1, [x29, #-144]
	ldur	x8, [x29, #-128]
	stur	xzr, [x29, #-56]
	stur	q1, [x29, #-48]
	stur	x8, [x29, #-32]
	stp	q0, q0, [x29, #-112]
	cbz	x25, .LBB47_35
	sub	x8, x29, #112
	sub	x28, x25, #1
	orr	x27, x8, #0x8
.LBB47_30:
	subs	x25, x25, #1
	mov	w9, w2
	mov	w8, w6
	b.eq	.LBB47_33
	mov	x10, x28
	mov	w8, w6
	mov	w9, w2
.LBB47_32:
	add	w9, w9, w9, lsr #31
	add	w8, w8, w8, lsr #31
	subs	x10, x10, #1
	asr	w9, w9, #1
	asr	w8, w8, #1
	b.ne	.LBB47_32
.LBB47_33:
	tst	w9, #0x1
	mov	w10, #7
	mov	w11, #4
	csel	x10, x11, x10, eq
	cmn	w9, #1
	mov	w12, #36
	csinc	x10, x10, xzr, ne
	mov	w11, #1
	tst	w8, #0x1
	madd	x10, x26, x12, x10
	cinc	x11, x11, ne
	cmn	w8, #1
	csel	x11, xzr, x11, eq
	ldr	x2, [sp, #64]
	mov	x24, x4
	stur	w4, [x29, #-52]
	sub	x0, x29, #112
	sub	x4, x29, #48
	sub	x5, x29, #72
	mov	x1, x20
	mov	x3, x7
	stp	w9, w8, [x29, #-64]
	add	x10, x10, x11
	sturb	w23, [x29, #-56]
	ldr	w10, [x20, x10, lsl #2]
	sub	x26, x10, #1
	stur	x26, [x29, #-72]
	bl	"pair_lookup::level_down"
	ldurb	w8, [x29, #-112]
	cmp	w8, #1
	b.ne	.LBB47_48
	ldp	x6, x2, [sp, #80]
	sub	x28, x28, #1
	ldr	q0, [x27]
	ldr	x8, [x27, #16]
	mov	x4, x24
	ldr	x7, [sp, #72]
	stur	q0, [x29, #-48]
	stur	x8, [x29, #-32]
	cbnz	x25, .LBB47_30
.LBB47_35:
	ldp	x13, x28, [x29, #-48]
	and	x0, x23, #0xff
	ldp	x3, x1, [sp, #32]
	ldur	x27, [x29, #-32]
	ldp	x12, x5, [sp, #8]
.LBB47_36:
	add	x8, x13, x13, lsl #3
	lsl	x14, x8, #2
	add	x8, x14, x21
	add	x8, x20, x8, lsl #2
	ldr	w9, [x8, #72]
	add	w10, w9, #1
	str	w10, [x8, #72]
	cbnz	w9, .LBB47_38
	add	w9, w4, #1
	str	w9, [x8, #80]
.LBB47_38:
	add	x9, x21, #21
	and	x10, x0, #0x3
	stp	x14, x28, [sp, #80]
	add	x11, x12, x9
	eor	x10, x10, #0x2
	str	x19, [sp, #24]
	ldr	w12, [x20, x11, lsl #2]
	add	x9, x10, x9
	add	x9, x9, x14
	add	w10, w12, #1
	str	w10, [x20, x11, lsl #2]
	str	w10, [x20, x9, lsl #2]
	ldr	w9, [x8, #72]
	cmp	w9, #1
	b.ne	.LBB47_40
	add	x1, x1, #1
	b	.LBB47_41
.LBB47_40:
	ldr	w8, [x8, #80]
	mov	w9, #65535
	cmp	x5, x9
	sub	x8, x8, #1
	csel	x5, x4, x5, eq
	csel	x3, x8, x3, eq
.LBB47_41:
	ands	w8, w23, #0xff
	stp	x4, x1, [sp, #160]
	mov	x24, x1
	cset	w9, eq
	cmp	w8, #2
	stp	x3, x5, [sp, #176]
	cset	w10, eq
	cset	w11, hi
	cmp	w8, #1
	sub	w8, w9, w10
	cset	w9, eq
	mov	x0, x20
	add	w25, w8, w2
	sub	w8, w9, w11
	add	x2, sp, #144
	add	w26, w8, w6
	mov	x1, x7
	mov	x22, x3
	mov	w3, w23
	str	x13, [sp, #144]
	mov	x23, x5
	stp	w25, w26, [sp, #152]
	mov	x19, x4
	mov	x28, x13
	bl	"pair_change::changed"
	mov	x30, x28
	mov	x5, x23
	mov	x11, x19
	ldp	x23, x28, [sp, #80]
	orr	x8, x25, x26, lsl #32
	ldr	x6, [sp, #48]
	ldr	x19, [sp, #24]
	mov	x3, x22
	mov	x2, x24
.LBB47_42:
	ldr	x10, [sp, #56]
	mov	w9, #12
	madd	x9, x10, x9, x6
	add	x10, x21, x23
	add	x10, x20, x10, lsl #2
	str	w28, [x9]
	ldr	w10, [x10, #72]
	stp	w10, w0, [x9, #4]
	stp	xzr, x30, [x19]
	stp	x8, x11, [x19, #16]
	stp	x2, x3, [x19, #32]
	stp	x5, x28, [x19, #48]
	str	x27, [x19, #64]
.LBB47_43:
	ldp	x20, x19, [sp, #416]
	ldp	x22, x21, [sp, #400]
	ldp	x24, x23, [sp, #384]
	ldp	x26, x25, [sp, #368]
	ldp	x28, x27, [sp, #352]
	ldp	x29, x30, [sp, #336]
	add	sp, sp, #432
	ret
.LBB47_44:
	ands	w13, w23, #0xff
	cset	w14, eq
	cmp	w13, #2
	cset	w15, eq
	cset	w16, hi
	cmp	w13, #1
	cset	w13, eq
	sub	w14, w14, w15
	sub	w13, w13, w16
	add	w14, w14, w10
	add	w13, w13, w9
	orr	w13, w13, w14
	cbz	w13, .LBB47_49
	mov	x24, x4
	orr	w9, w9, w10
	mov	x8, x26
	cbz	w9, .LBB47_47
	mov	w8, #144
	mul	x8, x26, x8
	ldr	w8, [x20, x8]
	sub	x8, x8, #1
.LBB47_47:
	ldr	x2, [sp, #64]
	sub	x0, x29, #112
	sub	x4, x29, #72
	sub	x5, x29, #48
	mov	x1, x20
	mov	x3, x7
	stp	x8, x28, [x29, #-72]
	stur	x27, [x29, #-56]
	bl	"pair_lookup::level_down"
	ldp	x7, x6, [sp, #72]
	sub	x9, x29, #112
	ldurb	w8, [x29, #-112]
	ldur	q0, [x9, #8]
	mov	x4, x24
	ldur	x9, [x29, #-88]
	ldr	x2, [sp, #88]
	cmp	w8, #1
	stur	q0, [x29, #-144]
	stur	x9, [x29, #-128]
	b.eq	.LBB47_28
.LBB47_48:
	movi	v0.2d, #0000000000000000
	adrp	x8, .LCPI47_0
	ldr	x9, [sp, #56]
	ldr	q1, [x8, :lo12:.LCPI47_0]
	str	x9, [x19, #16]
	str	q1, [x19]
	stur	q0, [x19, #24]
	stur	q0, [x19, #40]
	stur	q0, [x19, #56]
	b	.LBB47_43
.LBB47_49:
	and	x9, x0, #0x3
	add	x10, x20, x12, lsl #2
	mov	w12, #1
	eor	x9, x9, #0x2
	str	w12, [x10, #40]
	add	x10, x20, x9, lsl #2
	add	w12, w26, #1
	add	x8, x9, x8
	str	w4, [x20, x11, lsl #2]
	str	w12, [x10, #40]
	str	w4, [x20, x8, lsl #2]
	b	.LBB47_27
.Lfunc_end47:
	.size	"pair_run::perform", .Lfunc_end47-"pair_run::perform"

	.section	".text.pair_lookup::level_down","ax",@progbits
	.p2align	2
	.type	"pair_lookup::level_down",@function
"pair_lookup::level_down":
	ldrb	w8, [x5, #16]
	mov	w14, #4
	ldp	w9, w10, [x5, #8]
	cmp	x8, #2
	cset	w11, hi
	cset	w12, eq
	cmp	x8, #0
	cinc	w9, w9, eq
	cmp	x8, #1
	sub	w9, w9, w12
	cinc	w10, w10, eq
	mov	w12, #7
	tst	w9, #0x1
	sub	w10, w10, w11
	mov	w11, #1
	csel	x12, x14, x12, eq
	cmn	w9, #1
	mov	w14, #36
	ldp	x13, x9, [x4]
	csinc	x12, x12, xzr, ne
	tst	w10, #0x1
	cinc	x11, x11, ne
	cmn	w10, #1
	madd	x12, x13, x14, x12
	csel	x10, xzr, x11, eq
	ldr	w11, [x5, #20]
	add	x15, x12, x10
	ldr	x10, [x4, #16]
	ldr	x12, [x5]
	ldr	w14, [x1, x15, lsl #2]
	cbz	w14, .LBB48_4
	mov	w15, #11
	sub	x13, x14, #1
	mul	x16, x3, x15
	add	x14, x13, x13, lsl #3
	lsl	x14, x14, #2
	add	x15, x16, x14
	add	x15, x15, #19
	ldr	w17, [x1, x15, lsl #2]
	cbnz	w17, .LBB48_3
	add	w17, w11, #1
	str	w17, [x1, x15, lsl #2]
.LBB48_3:
	mov	w15, #36
	add	x16, x16, #14
	add	w17, w13, #1
	madd	x15, x12, x15, x8
	and	x8, x8, #0x3
	add	w12, w12, #1
	orr	x8, x14, x8
	eor	x8, x8, #0x2
	add	x18, x1, x8, lsl #2
	add	x8, x8, x16
	add	x14, x1, x15, lsl #2
	add	x15, x15, x16
	str	w17, [x14, #40]
	str	w11, [x1, x15, lsl #2]
	str	w12, [x18, #40]
	mov	w12, #1
	str	w11, [x1, x8, lsl #2]
	stp	x12, x13, [x0]
	stp	x9, x10, [x0, #16]
	ret
.LBB48_4:
	mov	w14, #36
	mov	x16, #36
	madd	x14, x10, x14, x16
	cmp	x14, x2
	b.hi	.LBB48_9
	add	x14, x10, x10, lsl #3
	add	x10, x10, #1
	lsl	x14, x14, #2
.LBB48_6:
	ldr	w16, [x1, x14, lsl #2]
	cbz	w16, .LBB48_8
	add	x16, x14, #72
	add	x14, x14, #36
	add	x10, x10, #1
	cmp	x16, x2
	b.ls	.LBB48_6
	b	.LBB48_9
.LBB48_8:
	add	x16, x14, #36
	cmp	x16, x2
	b.ls	.LBB48_10
.LBB48_9:
	movi	v0.2d, #0000000000000000
	stp	q0, q0, [x0]
	ret
.LBB48_10:
	mov	w16, #44
	add	x17, x1, x14, lsl #2
	add	w13, w13, #1
	madd	x18, x3, x16, x17
	mov	w16, #11
	str	w10, [x1, x15, lsl #2]
	str	w13, [x17]
	add	w15, w11, #1
	sub	x13, x10, #1
	mul	x16, x3, x16
	add	x9, x9, #1
	str	w15, [x18, #76]
	b	.LBB48_3
.Lfunc_end48:
	.size	"pair_lookup::level_down", .Lfunc_end48-"pair_lookup::level_down"

	.section	".text.pair_change::changed","ax",@progbits
	.p2align	2
	.type	"pair_change::changed",@function
"pair_change::changed":
	ldr	x8, [x2]
	and	w10, w3, #0x3
	eor	w10, w10, #0x2
	add	x9, x8, x8, lsl #3
	lsl	x14, x9, #2
	add	w9, w10, #10
	ldr	w10, [x2, #16]
	add	x9, x14, x9
	ldr	w13, [x0, x9, lsl #2]
	mov	w9, #144
	sub	x12, x13, #1
	mul	x9, x12, x9
	ldr	w15, [x0, x9]
	mov	w9, #11
	mul	x11, x1, x9
	cbz	w15, .LBB49_4
	and	x9, x3, #0xff
	add	x13, x9, x11
	add	x14, x9, #10
	mov	w9, #2
	sub	x13, x13, #22
.LBB49_2:
	mov	w16, #36
	madd	x16, x15, x16, x13
	ldr	w16, [x0, x16, lsl #2]
	cmp	w16, w10
	b.ne	.LBB49_6
	sub	x16, x15, #1
	mov	w15, #36
	mov	w17, #144
	madd	x15, x16, x15, x14
	cmp	x16, x8
	cinc	w8, w9, ne
	mul	x18, x16, x17
	ldr	w15, [x0, x15, lsl #2]
	sub	x17, x15, #1
	ldr	w15, [x0, x18]
	cmp	x17, x12
	mov	x12, x16
	cinc	w9, w8, ne
	mov	x8, x17
	cbnz	w15, .LBB49_2
	b	.LBB49_7
.LBB49_4:
	mov	w9, #2
	add	x11, x14, x11
	add	w10, w10, #1
	add	x11, x0, x11, lsl #2
	ldr	w11, [x11, #76]
	cmp	w11, w10
	b.eq	.LBB49_8
.LBB49_5:
	add	w0, wzr, w9
	ret
.LBB49_6:
	mov	x17, x8
	mov	x16, x12
.LBB49_7:
	add	x8, x17, x17, lsl #3
	add	x13, x16, #1
	lsl	x14, x8, #2
	mov	x8, x17
	add	x11, x14, x11
	add	w10, w10, #1
	add	x11, x0, x11, lsl #2
	ldr	w11, [x11, #76]
	cmp	w11, w10
	b.ne	.LBB49_5
.LBB49_8:
	eor	x10, x1, #0x1
	mov	w11, #11
	madd	x10, x10, x11, x14
	add	x10, x0, x10, lsl #2
	ldr	w10, [x10, #76]
	cbz	w10, .LBB49_10
	add	w0, wzr, w9
	ret
.LBB49_10:
	mov	w10, #144
	mul	x8, x8, x10
	ldr	w8, [x0, x8]
	cmp	x13, x8
	cset	w8, ne
	add	w0, w8, w9
	ret
.Lfunc_end49:
	.size	"pair_change::changed", .Lfunc_end49-"pair_change::changed"

	.section	.text.undrwyth_chain_of_polygon,"ax",@progbits
	.globl	undrwyth_chain_of_polygon
	.p2align	2
	.type	undrwyth_chain_of_polygon,@function
undrwyth_chain_of_polygon:
	mov	w8, #4096
	cmp	x0, #0
	csel	x9, x8, xzr, eq
	cmp	x2, #0
	csel	x11, x8, xzr, eq
	subs	x10, x1, #13
	b.hs	.LBB50_2
	mov	w8, #14
	mov	w0, w8
	stp	w8, wzr, [x4]
	stp	wzr, wzr, [x4, #8]
	str	wzr, [x4, #16]
	ret
.LBB50_2:
	sub	sp, sp, #192
	add	x17, x0, x9
	stp	x22, x21, [sp, #160]
	ldrb	w12, [x17, #2]
	ldrb	w16, [x17, #3]
	ldrb	w15, [x17, #4]
	ldrb	w14, [x17, #8]
	ldrb	w13, [x17, #1]
	ldrb	w8, [x17, #5]
	orr	w16, w16, w12
	ldrb	w1, [x17, #6]
	ldrb	w5, [x17, #7]
	orr	w12, w15, w14
	cmp	w13, #3
	ldrb	w18, [x17]
	orr	w12, w16, w12
	orr	w1, w5, w1
	stp	x29, x30, [sp, #96]
	ccmp	w12, #0, #0, eq
	stp	x28, x27, [sp, #112]
	add	x29, sp, #96
	ccmp	w8, #1, #0, eq
	stp	x26, x25, [sp, #128]
	ccmp	w1, #0, #0, eq
	stp	x24, x23, [sp, #144]
	ccmp	w18, #1, #0, eq
	stp	x20, x19, [sp, #176]
	cset	w21, eq
	b.ne	.LBB50_4
	ldur	w13, [x17, #9]
	mov	w12, wzr
	tst	x10, #0xf
	mov	w8, #14
	b.eq	.LBB50_9
	b	.LBB50_41
.LBB50_4:
	orr	w8, w8, w18
	mov	w12, wzr
	orr	w18, w8, w1
	mov	w8, #15
	cbnz	w18, .LBB50_41
	cmp	w15, #3
	b.ne	.LBB50_41
	orr	w13, w16, w13
	cbnz	w13, .LBB50_41
	cmp	w14, #1
	mov	w14, w12
	mov	w15, w12
	mov	w16, w12
	b.ne	.LBB50_42
	ldur	w8, [x17, #9]
	rev	w13, w8
	mov	w12, wzr
	tst	x10, #0xf
	mov	w8, #14
	b.ne	.LBB50_41
.LBB50_9:
	lsr	x14, x10, #4
	mov	w15, w12
	mov	w16, w12
	cmp	x13, x14
	mov	w14, w12
	b.ne	.LBB50_42
	cbz	x13, .LBB50_23
	ldur	x8, [x17, #13]
	ldur	x12, [x17, #21]
	cmp	w21, #0
	mov	x16, #9218868437227405312
	rev	x14, x8
	csel	x8, x8, x14, ne
	rev	x14, x12
	and	x15, x8, #0x7fffffffffffffff
	csel	x14, x12, x14, ne
	cmp	x15, x16
	and	x15, x14, #0x7fffffffffffffff
	csel	x12, x16, x8, hi
	cmp	x15, x16
	csel	x8, x16, x14, hi
	ands	x15, x12, #0x7fffffffffffffff
	b.eq	.LBB50_16
	mov	x14, #-4647714815446351872
	add	x14, x15, x14
	lsr	x14, x14, #56
	cbnz	x14, .LBB50_36
	mov	x14, #4503599627370496
	mov	w16, #1075
	mov	w17, #599
	bfxil	x14, x15, #0, #52
	sub	x15, x16, x15, lsr #52
	movk	w17, #150, lsl #16
	lsr	x16, x14, x15
	cmp	x16, x17
	b.hi	.LBB50_36
	mov	w17, #33205
	movk	w17, #6990, lsl #16
	mul	x16, x16, x17
	mov	w17, #600
	lsr	x16, x16, #38
	mul	w17, w16, w17
	lsl	x15, x17, x15
	cmp	x15, x14
	b.ne	.LBB50_36
	cmp	x12, #0
	cneg	w6, w16, mi
	b	.LBB50_17
.LBB50_16:
	mov	x6, xzr
.LBB50_17:
	ands	x14, x8, #0x7fffffffffffffff
	b.eq	.LBB50_22
	mov	x12, #-4647714815446351872
	add	x12, x14, x12
	lsr	x12, x12, #56
	cbnz	x12, .LBB50_36
	mov	x12, #4503599627370496
	mov	w15, #1075
	mov	w16, #599
	bfxil	x12, x14, #0, #52
	sub	x14, x15, x14, lsr #52
	movk	w16, #150, lsl #16
	lsr	x15, x12, x14
	cmp	x15, x16
	b.hi	.LBB50_36
	mov	w16, #33205
	movk	w16, #6990, lsl #16
	mul	x15, x15, x16
	mov	w16, #600
	lsr	x15, x15, #38
	mul	w16, w15, w16
	lsl	x14, x16, x14
	cmp	x14, x12
	b.ne	.LBB50_36
	cmp	x8, #0
	cneg	w8, w15, mi
	orr	x6, x6, x8, lsl #32
.LBB50_22:
	subs	x24, x13, #1
	b.ne	.LBB50_24
.LBB50_23:
	mov	w12, wzr
	mov	w14, wzr
	mov	w15, wzr
	mov	w16, wzr
	mov	w8, #17
	b	.LBB50_42
.LBB50_24:
	lsr	x7, x6, #32
	add	x25, x2, x11
	add	x8, x9, x0
	mov	w11, #599
	mov	x26, xzr
	add	x12, x8, #44
	movk	w11, #150, lsl #16
	mov	w8, #1
	mov	x13, x24
	mov	w15, w6
	mov	w14, w7
	b	.LBB50_27
.LBB50_25:
	cmp	x17, #0
	cneg	w17, w2, mi
	orr	x16, x16, x17, lsl #32
.LBB50_26:
	lsr	x18, x16, #32
	subs	w15, w15, w16
	add	x12, x12, #16
	cset	w1, eq
	cneg	w15, w15, le
	subs	w14, w14, w18
	add	x15, x26, x15
	cneg	w14, w14, le
	add	x17, x15, x14
	cset	w14, eq
	mov	w15, #16385
	cmp	x17, #4, lsl #12
	eor	w14, w1, w14
	csel	x26, x17, x15, ls
	subs	x13, x13, #1
	and	w8, w8, w14
	mov	w15, w16
	mov	w14, w18
	b.eq	.LBB50_37
.LBB50_27:
	ldur	x16, [x12, #-15]
	ldur	x17, [x12, #-7]
	cmp	w21, #0
	rev	x18, x16
	csel	x16, x16, x18, ne
	rev	x18, x17
	and	x1, x16, #0x7fffffffffffffff
	csel	x17, x17, x18, ne
	mov	x18, #9218868437227405312
	cmp	x1, x18
	and	x1, x17, #0x7fffffffffffffff
	csel	x16, x18, x16, hi
	cmp	x1, x18
	csel	x17, x18, x17, hi
	ands	x1, x16, #0x7fffffffffffffff
	b.eq	.LBB50_32
	mov	x18, #-4647714815446351872
	add	x18, x1, x18
	lsr	x18, x18, #56
	cbnz	x18, .LBB50_36
	mov	x18, #4503599627370496
	mov	w2, #1075
	add	x5, x11, #2400, lsl #12
	bfxil	x18, x1, #0, #52
	sub	x1, x2, x1, lsr #52
	lsr	x2, x18, x1
	cmp	x2, x5
	b.hi	.LBB50_36
	mov	w5, #33205
	movk	w5, #6990, lsl #16
	mul	x2, x2, x5
	mov	w5, #600
	lsr	x2, x2, #38
	mul	w5, w2, w5
	lsl	x1, x5, x1
	cmp	x1, x18
	b.ne	.LBB50_36
	cmp	x16, #0
	cneg	w16, w2, mi
	ands	x1, x17, #0x7fffffffffffffff
	b.ne	.LBB50_33
	b	.LBB50_26
.LBB50_32:
	mov	x16, xzr
	ands	x1, x17, #0x7fffffffffffffff
	b.eq	.LBB50_26
.LBB50_33:
	mov	x18, #-4647714815446351872
	add	x18, x1, x18
	lsr	x18, x18, #56
	cbnz	x18, .LBB50_36
	mov	x18, #4503599627370496
	mov	w2, #1075
	add	x5, x11, #2400, lsl #12
	bfxil	x18, x1, #0, #52
	sub	x1, x2, x1, lsr #52
	lsr	x2, x18, x1
	cmp	x2, x5
	b.hi	.LBB50_36
	mov	w5, #33205
	movk	w5, #6990, lsl #16
	mul	x2, x2, x5
	mov	w5, #600
	lsr	x2, x2, #38
	mul	w5, w2, w5
	lsl	x1, x5, x1
	cmp	x1, x18
	b.eq	.LBB50_25
.LBB50_36:
	mov	w8, #15
	stur	wzr, [x29, #-16]
	mov	w12, wzr
	stur	x8, [x29, #-12]
	mov	w14, wzr
	mov	w15, wzr
	ldur	x8, [x29, #-16]
	mov	w16, wzr
	ubfx	x8, x8, #32, #8
	add	w8, w8, #1
	b	.LBB50_42
.LBB50_37:
	cmp	x18, x7
	mov	w12, wzr
	ccmp	w16, w6, #0, eq
	csel	w11, wzr, w8, ne
	cmp	x10, #64
	mov	w8, #17
	b.lo	.LBB50_41
	mov	w14, w12
	mov	w15, w12
	mov	w16, w12
	cbz	w11, .LBB50_42
	cmp	x17, #4, lsl #12
	b.ls	.LBB50_43
	mov	w14, wzr
	mov	w15, wzr
	mov	w16, wzr
	mov	w12, #16384
	mov	w8, #6
	b	.LBB50_42
.LBB50_41:
	mov	w14, w12
	mov	w15, w12
	mov	w16, w12
.LBB50_42:
	ldp	x20, x19, [sp, #176]
	ldp	x22, x21, [sp, #160]
	ldp	x24, x23, [sp, #144]
	ldp	x26, x25, [sp, #128]
	ldp	x28, x27, [sp, #112]
	ldp	x29, x30, [sp, #96]
	add	sp, sp, #192
	mov	w0, w8
	stp	w8, w12, [x4]
	stp	w14, w15, [x4, #8]
	str	w16, [x4, #16]
	ret
.LBB50_43:
	cmp	x3, x26
	b.hs	.LBB50_45
	mov	w12, wzr
	mov	w14, wzr
	mov	w15, wzr
	mov	w16, wzr
	mov	w8, #18
	b	.LBB50_42
.LBB50_45:
	add	x8, x9, x0
	mov	x27, xzr
	mov	w9, w7
	add	x28, x8, #44
	mov	w8, w6
	stp	x7, x6, [sp, #8]
	str	x25, [sp, #24]
	b	.LBB50_48
.LBB50_46:
	strb	w19, [x8, x20]
.LBB50_47:
	add	x28, x28, #16
	subs	x24, x24, #1
	add	x27, x22, x27
	mov	w8, w15
	mov	w9, w23
	b.eq	.LBB50_57
.LBB50_48:
	ldur	x10, [x28, #-15]
	cmp	w21, #0
	rev	x11, x10
	csel	x11, x10, x11, ne
	mov	x10, #27963
	movk	x10, #54176, lsl #16
	ands	x12, x11, #0x7fffffffffffffff
	movk	x10, #14854, lsl #32
	movk	x10, #109, lsl #48
	b.eq	.LBB50_50
	mov	x13, #4503599627370496
	mov	w14, #1075
	cmp	x11, #0
	bfxil	x13, x11, #0, #52
	sub	x12, x14, x12, lsr #52
	lsr	x12, x13, x12
	umulh	x12, x12, x10
	cneg	w15, w12, mi
	b	.LBB50_51
.LBB50_50:
	mov	w15, wzr
.LBB50_51:
	ldur	x11, [x28, #-7]
	cmp	w21, #0
	rev	x12, x11
	csel	x11, x11, x12, ne
	ands	x12, x11, #0x7fffffffffffffff
	b.eq	.LBB50_53
	mov	x13, #4503599627370496
	mov	w14, #1075
	cmp	x11, #0
	bfxil	x13, x11, #0, #52
	sub	x12, x14, x12, lsr #52
	lsr	x12, x13, x12
	umulh	x10, x12, x10
	cneg	w23, w10, mi
	b	.LBB50_54
.LBB50_53:
	mov	w23, wzr
.LBB50_54:
	subs	w9, w9, w23
	mov	w10, #3
	mov	w11, #2
	cneg	w9, w9, le
	csinc	w10, w10, wzr, ge
	subs	w8, w8, w15
	cneg	w8, w8, le
	add	x22, x9, x8
	csel	w8, wzr, w11, lt
	csel	w19, w10, w8, eq
	cbz	x22, .LBB50_47
	subs	x20, x22, #1
	add	x8, x25, x27
	b.eq	.LBB50_46
	add	x0, x25, x27
	mov	w1, w19
	mov	x2, x20
	stp	x8, x24, [sp, #32]
	mov	x24, x4
	mov	w25, w15
	bl	memset
	mov	x4, x24
	ldp	x8, x24, [sp, #32]
	mov	w15, w25
	ldr	x25, [sp, #24]
	b	.LBB50_46
.LBB50_57:
	ldr	x9, [sp, #16]
	mov	w8, wzr
	mov	w12, wzr
	mov	w14, w26
	mov	w15, w9
	ldr	x9, [sp, #8]
	mov	w16, w9
	b	.LBB50_42
.Lfunc_end50:
	.size	undrwyth_chain_of_polygon, .Lfunc_end50-undrwyth_chain_of_polygon

	.section	.text.undrwyth_convert_line,"ax",@progbits
	.globl	undrwyth_convert_line
	.p2align	2
	.type	undrwyth_convert_line,@function
undrwyth_convert_line:
	mov	w9, #4096
	cmp	x0, #0
	csel	x10, x9, xzr, eq
	cmp	x2, #0
	csel	x11, x9, xzr, eq
	cmp	x3, x1
	b.hs	.LBB51_2
	mov	x0, xzr
	ret
.LBB51_2:
	mov	x8, x0
	cmp	x1, #2
	add	x0, x0, x10
	add	x3, x2, x11
	b.hs	.LBB51_4
	cbnz	x1, .LBB51_9
	b	.LBB51_47
.LBB51_4:
	ldrb	w9, [x0]
	cmp	w9, #48
	b.ne	.LBB51_9
	ldrb	w9, [x0, #1]
	cmp	w9, #49
	b.ne	.LBB51_9
	sub	x9, x1, #1031
	cmn	x9, #1025
	b.lo	.LBB51_34
	cmp	x1, #8
	b.hs	.LBB51_20
	mov	x9, xzr
	mov	w12, #1
	b	.LBB51_29
.LBB51_9:
	cmp	x1, #8
	b.lo	.LBB51_11
	add	x9, x11, x2
	add	x12, x10, x8
	sub	x9, x9, x12
	cmp	x9, #32
	b.hs	.LBB51_12
.LBB51_11:
	mov	x9, xzr
	b	.LBB51_45
.LBB51_12:
	cmp	x1, #32
	b.hs	.LBB51_14
	mov	x9, xzr
	b	.LBB51_18
.LBB51_14:
	add	x13, x11, x2
	add	x14, x10, x8
	and	x12, x1, #0x18
	and	x9, x1, #0xffffffffffffffe0
	add	x13, x13, #16
	add	x14, x14, #16
	and	x15, x1, #0xffffffffffffffe0
.LBB51_15:
	ldp	q0, q1, [x14, #-16]
	subs	x15, x15, #32
	add	x14, x14, #32
	stp	q0, q1, [x13, #-16]
	add	x13, x13, #32
	b.ne	.LBB51_15
	cmp	x1, x9
	b.eq	.LBB51_47
	cbz	x12, .LBB51_45
.LBB51_18:
	mov	x12, x9
	and	x9, x1, #0xfffffffffffffff8
	add	x11, x11, x12
	add	x13, x10, x12
	sub	x10, x12, x9
	add	x11, x2, x11
	add	x8, x8, x13
.LBB51_19:
	ldr	d0, [x8], #8
	adds	x10, x10, #8
	str	d0, [x11], #8
	b.ne	.LBB51_19
	b	.LBB51_46
.LBB51_20:
	cmp	x1, #32
	b.hs	.LBB51_22
	mov	x9, xzr
	mov	w12, #1
	b	.LBB51_26
.LBB51_22:
	movi	v0.16b, #1
	movi	v1.16b, #1
	add	x12, x10, x8
	and	x13, x1, #0x18
	and	x9, x1, #0x7e0
	add	x12, x12, #16
	and	x14, x1, #0x7e0
.LBB51_23:
	movi	v2.16b, #208
	movi	v3.16b, #159
	subs	x14, x14, #32
	ldp	q4, q5, [x12, #-16]
	movi	v6.16b, #10
	movi	v7.16b, #6
	add	x12, x12, #32
	add	v16.16b, v4.16b, v2.16b
	add	v2.16b, v5.16b, v2.16b
	add	v4.16b, v4.16b, v3.16b
	add	v3.16b, v5.16b, v3.16b
	cmhi	v5.16b, v6.16b, v16.16b
	cmhi	v2.16b, v6.16b, v2.16b
	cmhi	v4.16b, v7.16b, v4.16b
	cmhi	v3.16b, v7.16b, v3.16b
	orr	v4.16b, v5.16b, v4.16b
	orr	v2.16b, v2.16b, v3.16b
	and	v0.16b, v0.16b, v4.16b
	and	v1.16b, v1.16b, v2.16b
	b.ne	.LBB51_23
	and	v0.16b, v1.16b, v0.16b
	cmp	x1, x9
	shl	v0.16b, v0.16b, #7
	cmlt	v0.16b, v0.16b, #0
	uminv	b0, v0.16b
	fmov	w12, s0
	b.eq	.LBB51_31
	cbz	x13, .LBB51_29
.LBB51_26:
	movi	v0.2d, #0xffffffffffffffff
	mov	v0.b[0], w12
	mov	x12, x9
	and	x9, x1, #0x7f8
	add	x13, x8, x12
	sub	x12, x12, x9
	add	x13, x13, x10
.LBB51_27:
	movi	v1.8b, #208
	movi	v2.8b, #159
	adds	x12, x12, #8
	ldr	d3, [x13], #8
	movi	v4.8b, #10
	movi	v5.8b, #6
	add	v1.8b, v3.8b, v1.8b
	add	v2.8b, v3.8b, v2.8b
	cmhi	v1.8b, v4.8b, v1.8b
	cmhi	v2.8b, v5.8b, v2.8b
	orr	v1.8b, v1.8b, v2.8b
	and	v0.8b, v0.8b, v1.8b
	b.ne	.LBB51_27
	shl	v0.8b, v0.8b, #7
	cmp	x1, x9
	cmlt	v0.8b, v0.8b, #0
	uminv	b0, v0.8b
	fmov	w12, s0
	b.eq	.LBB51_31
.LBB51_29:
	add	x13, x10, x9
	sub	x9, x1, x9
	add	x13, x8, x13
.LBB51_30:
	ldrb	w14, [x13], #1
	sub	w15, w14, #48
	sub	w14, w14, #97
	cmp	w15, #10
	ccmp	w14, #6, #0, hs
	cset	w14, lo
	subs	x9, x9, #1
	and	w12, w12, w14
	b.ne	.LBB51_30
.LBB51_31:
	tbz	w12, #0, .LBB51_34
	ldrb	w9, [x0, #2]
	ldrb	w12, [x0, #3]
	mov	w13, #-87
	mov	w14, #-48
	ldrb	w17, [x0, #5]
	cmp	w9, #58
	csel	w15, w14, w13, lo
	cmp	w12, #58
	csel	w16, w14, w13, lo
	add	w9, w15, w9
	add	w12, w16, w12
	ldrb	w16, [x0, #4]
	and	x9, x9, #0xff
	and	x12, x12, #0xff
	lsl	x12, x12, #8
	cmp	w16, #58
	csel	w15, w14, w13, lo
	cmp	w17, #58
	csel	w13, w14, w13, lo
	add	x9, x12, x9, lsl #12
	add	w12, w13, w17
	bfxil	x9, x12, #0, #8
	add	w12, w15, w16
	add	x9, x9, w12, uxtb #4
	sub	x12, x1, #6
	cmp	x12, x9
	b.ne	.LBB51_34
	mov	x2, x9
	b	"line_convert::convert_frame"
.LBB51_34:
	cmp	x1, #8
	b.lo	.LBB51_36
	add	x9, x11, x2
	add	x12, x10, x8
	sub	x9, x9, x12
	cmp	x9, #32
	b.hs	.LBB51_37
.LBB51_36:
	mov	x9, xzr
	b	.LBB51_48
.LBB51_37:
	cmp	x1, #32
	b.hs	.LBB51_39
	mov	x9, xzr
	b	.LBB51_43
.LBB51_39:
	add	x13, x11, x2
	add	x14, x10, x8
	and	x12, x1, #0x18
	and	x9, x1, #0xffffffffffffffe0
	add	x13, x13, #16
	add	x14, x14, #16
	and	x15, x1, #0xffffffffffffffe0
.LBB51_40:
	ldp	q0, q1, [x14, #-16]
	subs	x15, x15, #32
	add	x14, x14, #32
	stp	q0, q1, [x13, #-16]
	add	x13, x13, #32
	b.ne	.LBB51_40
	cmp	x1, x9
	b.eq	.LBB51_47
	cbz	x12, .LBB51_48
.LBB51_43:
	mov	x12, x9
	and	x9, x1, #0xfffffffffffffff8
	add	x11, x11, x12
	add	x13, x10, x12
	sub	x10, x12, x9
	add	x11, x2, x11
	add	x8, x8, x13
.LBB51_44:
	ldr	d0, [x8], #8
	adds	x10, x10, #8
	str	d0, [x11], #8
	b.ne	.LBB51_44
	b	.LBB51_49
.LBB51_45:
	ldrb	w8, [x0, x9]
	strb	w8, [x3, x9]
	add	x9, x9, #1
.LBB51_46:
	cmp	x1, x9
	b.ne	.LBB51_45
.LBB51_47:
	mov	x0, x1
	ret
.LBB51_48:
	ldrb	w8, [x0, x9]
	strb	w8, [x3, x9]
	add	x9, x9, #1
.LBB51_49:
	cmp	x1, x9
	b.ne	.LBB51_48
	b	.LBB51_47
.Lfunc_end51:
	.size	undrwyth_convert_line, .Lfunc_end51-undrwyth_convert_line

	.section	.rodata.cst16,"aM",@progbits,16
	.p2align	4, 0x0
.LCPI52_0:
	.xword	1
	.xword	0
.LCPI52_1:
	.xword	-1
	.xword	0
.LCPI52_2:
	.xword	0
	.xword	1
.LCPI52_3:
	.xword	0
	.xword	-1
	.section	.text.undrwyth_convex,"ax",@progbits
	.globl	undrwyth_convex
	.p2align	2
	.type	undrwyth_convex,@function
undrwyth_convex:
	cmp	x2, #0
	mov	w8, #4096
	csel	x9, x8, xzr, eq
	cmp	x3, #8, lsl #12
	b.ls	.LBB52_3
	mov	w10, wzr
	mov	w8, wzr
	mov	w0, #1
.LBB52_2:
	stp	w0, w10, [x4]
	str	w8, [x4, #8]
	ret
.LBB52_3:
	add	w8, w0, #4, lsl #12
	mov	w10, wzr
	mov	w0, #10
	cmp	w8, #8, lsl #12
	b.hi	.LBB52_9
	add	w8, w1, #4, lsl #12
	cmp	w8, #8, lsl #12
	mov	w8, w10
	b.hi	.LBB52_2
	sub	sp, sp, #128
	stp	x20, x19, [sp, #112]
	cmp	x3, #4, lsl #12
	add	x19, x2, x9
	stp	x29, x30, [sp, #64]
	add	x29, sp, #64
	str	x23, [sp, #80]
	stp	x22, x21, [sp, #96]
	b.hi	.LBB52_22
	cbz	x3, .LBB52_26
	cmp	x3, #4
	b.hs	.LBB52_10
	mov	w10, wzr
	mov	x8, xzr
	b	.LBB52_19
.LBB52_9:
	stp	w0, w10, [x4]
	str	w10, [x4, #8]
	ret
.LBB52_10:
	cmp	x3, #32
	b.hs	.LBB52_12
	mov	x8, xzr
	mov	w10, wzr
	b	.LBB52_16
.LBB52_12:
	movi	v0.2d, #0000000000000000
	movi	v1.2d, #0000000000000000
	add	x10, x9, x2
	and	x11, x3, #0x1c
	and	x8, x3, #0x7fe0
	add	x10, x10, #16
	and	x12, x3, #0x7fe0
.LBB52_13:
	ldp	q2, q3, [x10, #-16]
	subs	x12, x12, #32
	add	x10, x10, #32
	umax	v0.16b, v2.16b, v0.16b
	umax	v1.16b, v3.16b, v1.16b
	b.ne	.LBB52_13
	umax	v0.16b, v0.16b, v1.16b
	cmp	x3, x8
	umaxv	b0, v0.16b
	fmov	w10, s0
	b.eq	.LBB52_21
	cbz	x11, .LBB52_19
.LBB52_16:
	dup	v0.4h, w10
	mov	x10, x8
	and	x8, x3, #0x7ffc
	add	x11, x9, x10
	sub	x10, x10, x8
	add	x11, x2, x11
.LBB52_17:
	ldr	s1, [x11], #4
	bic	v0.4h, #255, lsl #8
	adds	x10, x10, #4
	ushll	v1.8h, v1.8b, #0
	umax	v0.4h, v1.4h, v0.4h
	b.ne	.LBB52_17
	umaxv	h0, v0.4h
	cmp	x3, x8
	fmov	w10, s0
	b.eq	.LBB52_21
.LBB52_19:
	add	x9, x9, x8
	sub	x8, x3, x8
	add	x9, x2, x9
.LBB52_20:
	ldrb	w11, [x9], #1
	and	w10, w10, #0xff
	cmp	w11, w10
	csel	w10, w11, w10, hi
	subs	x8, x8, #1
	b.ne	.LBB52_20
.LBB52_21:
	and	w8, w10, #0xff
	cmp	w8, #4
	b.lo	.LBB52_26
.LBB52_22:
	mov	x10, xzr
.LBB52_23:
	ldrb	w8, [x19, x10]
	cmp	w8, #3
	b.hi	.LBB52_30
	cmp	x10, #4, lsl #12
	b.eq	.LBB52_31
	add	x10, x10, #1
	cmp	x3, x10
	b.ne	.LBB52_23
.LBB52_26:
	adrp	x8, .LCPI52_0
	adrp	x9, .LCPI52_1
	ldr	q0, [x8, :lo12:.LCPI52_0]
	ldr	q1, [x9, :lo12:.LCPI52_1]
	adrp	x8, .LCPI52_2
	adrp	x9, .LCPI52_3
	ldr	q2, [x8, :lo12:.LCPI52_2]
	stp	q0, q1, [sp, #32]
	ldr	q0, [x9, :lo12:.LCPI52_3]
	stp	q2, q0, [sp]
	cbz	x3, .LBB52_32
	mov	w9, #16384
	mov	x13, x19
	mov	x15, x3
	mov	w14, #16384
	mov	w11, #16384
	mov	w10, #16384
	mov	w8, #16384
	mov	w12, #16384
.LBB52_28:
	ldrb	w16, [x13], #1
	add	x17, sp, #32
	mov	x18, sp
	ldr	x17, [x17, x16, lsl #3]
	ldr	x16, [x18, x16, lsl #3]
	add	x14, x17, x14
	add	x11, x16, x11
	cmp	x14, x9
	csel	x9, x14, x9, lo
	cmp	x14, x10
	csel	x10, x14, x10, hi
	cmp	x11, x8
	csel	x8, x11, x8, lo
	cmp	x11, x12
	csel	x12, x11, x12, hi
	subs	x15, x15, #1
	b.ne	.LBB52_28
	cmp	x14, #4, lsl #12
	mov	w13, #16384
	mov	x20, x4
	ccmp	x11, x13, #0, eq
	add	x12, x12, #1
	cset	w11, eq
	b	.LBB52_33
.LBB52_30:
	mov	w0, #4
	mov	w8, wzr
	b	.LBB52_44
.LBB52_31:
	mov	w0, #6
	mov	w8, wzr
	b	.LBB52_44
.LBB52_32:
	mov	x20, x4
	mov	w11, #1
	mov	w8, #16384
	mov	w12, #16385
	mov	w10, #16384
	mov	w9, #16384
.LBB52_33:
	sub	x10, x10, x9
	mov	w13, #16384
	neg	x9, x9
	add	x21, x10, #1
	sub	x10, x13, x8
	sub	x22, x12, x8
	madd	x9, x21, x10, x9
	add	x2, sp, #32
	mov	x0, x19
	mov	x1, x3
	strb	w11, [sp, #56]
	mov	x23, x3
	stur	wzr, [sp, #57]
	stp	x21, x22, [sp, #32]
	str	wzr, [sp, #60]
	add	x8, x9, #4, lsl #12
	str	x8, [sp, #48]
	bl	"room_map::is_room_in"
	cbz	w0, .LBB52_36
	add	x8, x21, x22
	add	x9, x23, #4
	cmp	x9, x8, lsl #1
	b.ls	.LBB52_37
	mov	w8, wzr
	b	.LBB52_43
.LBB52_36:
	mov	w10, wzr
	mov	w8, wzr
	mov	w0, #12
	mov	x4, x20
	b	.LBB52_44
.LBB52_37:
	mov	x1, x23
	mov	x0, x19
	cmp	x23, #256
	b.hi	.LBB52_39
	bl	"convex_call::in_sized::<=257>"
	b	.LBB52_42
.LBB52_39:
	cmp	x1, #2048
	b.hi	.LBB52_41
	bl	"convex_call::in_sized::<=2049>"
	b	.LBB52_42
.LBB52_41:
	bl	"convex_call::in_sized::<=16385>"
.LBB52_42:
	mov	w8, w0
.LBB52_43:
	mov	x4, x20
	mov	w0, wzr
	mov	w10, wzr
.LBB52_44:
	ldp	x20, x19, [sp, #112]
	ldr	x23, [sp, #80]
	ldp	x22, x21, [sp, #96]
	ldp	x29, x30, [sp, #64]
	add	sp, sp, #128
	stp	w0, w10, [x4]
	str	w8, [x4, #8]
	ret
.Lfunc_end52:
	.size	undrwyth_convex, .Lfunc_end52-undrwyth_convex

	.section	.rodata.cst16,"aM",@progbits,16
	.p2align	4, 0x0
.LCPI53_0:
	.word	1
	.word	0
	.word	4294967295
	.word	0
	.section	.text.undrwyth_hull,"ax",@progbits
	.globl	undrwyth_hull
	.p2align	2
	.type	undrwyth_hull,@function
undrwyth_hull:
	sub	sp, sp, #416
	cmp	x2, #0
	mov	w8, #4096
	stp	x29, x30, [sp, #384]
	csel	x10, x8, xzr, eq
	cmp	x4, #0
	stp	x28, x19, [sp, #400]
	csel	x9, x8, xzr, eq
	cmp	x3, #8, lsl #12
	add	x29, sp, #384
	b.ls	.LBB53_3
	mov	x8, xzr
	mov	w11, wzr
.LBB53_2:
	and	w9, w8, #0xff
	mov	w8, wzr
	add	w0, w9, #1
	ldp	x28, x19, [sp, #400]
	stp	w0, w11, [x6]
	ldp	x29, x30, [sp, #384]
	str	w8, [x6, #8]
	add	sp, sp, #416
	ret
.LBB53_3:
	add	w8, w0, #4, lsl #12
	mov	w11, wzr
	cmp	w8, #8, lsl #12
	mov	w8, #9
	b.hi	.LBB53_2
	add	w12, w1, #4, lsl #12
	cmp	w12, #8, lsl #12
	b.hi	.LBB53_2
	mov	w8, w1
	cmp	x3, #4, lsl #12
	add	x1, x2, x10
	b.hi	.LBB53_21
	cbz	x3, .LBB53_25
	cmp	x3, #4
	b.hs	.LBB53_9
	mov	w12, wzr
	mov	x11, xzr
	b	.LBB53_18
.LBB53_9:
	cmp	x3, #32
	b.hs	.LBB53_11
	mov	x11, xzr
	mov	w12, wzr
	b	.LBB53_15
.LBB53_11:
	movi	v0.2d, #0000000000000000
	movi	v1.2d, #0000000000000000
	add	x12, x10, x2
	and	x13, x3, #0x1c
	and	x11, x3, #0x7fe0
	add	x12, x12, #16
	and	x14, x3, #0x7fe0
.LBB53_12:
	ldp	q2, q3, [x12, #-16]
	subs	x14, x14, #32
	add	x12, x12, #32
	umax	v0.16b, v2.16b, v0.16b
	umax	v1.16b, v3.16b, v1.16b
	b.ne	.LBB53_12
	umax	v0.16b, v0.16b, v1.16b
	cmp	x3, x11
	umaxv	b0, v0.16b
	fmov	w12, s0
	b.eq	.LBB53_20
	cbz	x13, .LBB53_18
.LBB53_15:
	dup	v0.4h, w12
	mov	x12, x11
	and	x11, x3, #0x7ffc
	add	x13, x10, x12
	sub	x12, x12, x11
	add	x13, x2, x13
.LBB53_16:
	ldr	s1, [x13], #4
	bic	v0.4h, #255, lsl #8
	adds	x12, x12, #4
	ushll	v1.8h, v1.8b, #0
	umax	v0.4h, v1.4h, v0.4h
	b.ne	.LBB53_16
	umaxv	h0, v0.4h
	cmp	x3, x11
	fmov	w12, s0
	b.eq	.LBB53_20
.LBB53_18:
	add	x13, x10, x11
	sub	x10, x3, x11
	add	x11, x2, x13
.LBB53_19:
	ldrb	w13, [x11], #1
	and	w12, w12, #0xff
	cmp	w13, w12
	csel	w12, w13, w12, hi
	subs	x10, x10, #1
	b.ne	.LBB53_19
.LBB53_20:
	and	w10, w12, #0xff
	cmp	w10, #4
	b.lo	.LBB53_25
.LBB53_21:
	mov	x10, xzr
.LBB53_22:
	ldrb	w11, [x1, x10]
	cmp	w11, #3
	b.hi	.LBB53_31
	cmp	x10, #4, lsl #12
	b.eq	.LBB53_32
	add	x10, x10, #1
	cmp	x3, x10
	b.ne	.LBB53_22
.LBB53_25:
	adrp	x10, .LCPI53_0
	add	x12, sp, #160
	add	x7, x4, x9
	ldr	q0, [x10, :lo12:.LCPI53_0]
	stp	xzr, xzr, [sp, #72]
	str	xzr, [sp, #88]
	str	q0, [x12, #128]
	cbz	x3, .LBB53_34
	mov	w10, #16384
	mov	x11, xzr
	mov	w9, #16384
	mov	w13, w10
.LBB53_27:
	ldrb	w14, [x1, x11]
	sub	x15, x29, #96
	add	x11, x11, #1
	ldr	w14, [x15, x14, lsl #2]
	add	w13, w14, w13
	cmp	x13, x10
	csel	x10, x13, x10, lo
	cmp	x13, x9
	csel	x9, x13, x9, hi
	cmp	x3, x11
	b.ne	.LBB53_27
	sub	x13, x9, x10
	cmp	x13, x3
	b.ne	.LBB53_35
	cmp	x5, #3
	b.hi	.LBB53_38
	mov	w11, wzr
	mov	w8, #7
	b	.LBB53_2
.LBB53_31:
	mov	w8, #3
	b	.LBB53_33
.LBB53_32:
	mov	w8, #5
.LBB53_33:
	mov	w11, w10
	b	.LBB53_2
.LBB53_34:
	mov	w11, w0
	mov	x19, x6
	mov	x13, xzr
	mov	w9, #16384
	mov	w10, #16384
	b	.LBB53_37
.LBB53_35:
	cmp	x3, #31
	b.hi	.LBB53_39
	mov	w11, w0
	mov	x19, x6
.LBB53_37:
	movi	v0.2d, #0xffffffffffffffff
	movi	v1.2d, #0000000000000000
	add	x14, sp, #96
	stp	x7, x5, [sp, #56]
	sub	x0, x29, #24
	sub	x7, x29, #96
	mov	x2, x3
	mov	w3, w11
	mov	w4, w8
	mov	x5, x10
	mov	x6, x9
	stp	xzr, xzr, [x29, #-16]
	str	q0, [x12, #176]
	stp	q1, q0, [x12, #48]
	stp	q0, q0, [x12, #80]
	stp	q0, q0, [x12, #112]
	stp	q0, q0, [x12, #144]
	add	x12, x13, #1
	mov	w13, #32
	stp	x14, x13, [sp, #40]
	add	x14, sp, #160
	stp	x14, x13, [sp, #24]
	sub	x13, x29, #160
	stur	xzr, [x29, #-24]
	str	q1, [sp, #192]
	stp	q1, q1, [sp, #96]
	stp	q1, q1, [sp, #128]
	stp	q1, q1, [sp, #160]
	stp	x13, x12, [sp, #8]
	str	x12, [sp]
	bl	"hull_call::list_in"
	ldp	x8, x10, [x29, #-16]
	ldurb	w9, [x29, #-24]
	mov	x6, x19
	cbnz	w9, .LBB53_45
	b	.LBB53_46
.LBB53_38:
	sub	w11, w0, #4, lsl #12
	add	w9, w11, w9, uxth
	add	w10, w11, w10
	stp	w10, w8, [x7]
	stp	w9, w8, [x7, #8]
	mov	w8, #2
	b	.LBB53_46
.LBB53_39:
	cmp	x13, #255
	b.hi	.LBB53_41
	mov	w11, w0
	mov	x19, x6
	add	x0, sp, #72
	mov	x2, x3
	mov	w3, w11
	mov	w4, w8
	mov	x8, x5
	mov	x5, x10
	mov	x6, x9
	str	x8, [sp]
	bl	"hull_call::list_sized::<=256>"
	b	.LBB53_44
.LBB53_41:
	mov	w11, w0
	mov	x12, x5
	mov	x19, x6
	add	x0, sp, #72
	mov	x2, x3
	mov	w3, w11
	mov	w4, w8
	mov	x5, x10
	mov	x6, x9
	cmp	x13, #2047
	b.hi	.LBB53_43
	str	x12, [sp]
	bl	"hull_call::list_sized::<=2048>"
	b	.LBB53_44
.LBB53_43:
	str	x12, [sp]
	bl	"hull_call::list_sized::<=16385>"
.LBB53_44:
	ldp	x8, x10, [sp, #80]
	ldrb	w9, [sp, #72]
	mov	x6, x19
	cbz	w9, .LBB53_46
.LBB53_45:
	and	w9, w8, #0xff
	mov	w12, #1
	mov	w11, wzr
	lsl	w9, w12, w9
	mov	w12, #65415
	movk	w12, #55, lsl #16
	tst	w9, w12
	b.ne	.LBB53_2
	b	.LBB53_33
.LBB53_46:
	mov	w0, wzr
	ldp	x28, x19, [sp, #400]
	stp	wzr, wzr, [x6]
	ldp	x29, x30, [sp, #384]
	str	w8, [x6, #8]
	add	sp, sp, #416
	ret
.Lfunc_end53:
	.size	undrwyth_hull, .Lfunc_end53-undrwyth_hull

	.section	.text.undrwyth_line,"ax",@progbits
	.globl	undrwyth_line
	.p2align	2
	.type	undrwyth_line,@function
undrwyth_line:
	mov	w8, #4096
	cmp	x0, #0
	csel	x9, x8, xzr, eq
	cmp	x2, #0
	csel	x8, x8, xzr, eq
	add	x0, x0, x9
	add	x2, x2, x8
	b	"line_reply::reply"
.Lfunc_end54:
	.size	undrwyth_line, .Lfunc_end54-undrwyth_line

	.section	.text.undrwyth_orthogonal_hull,"ax",@progbits
	.globl	undrwyth_orthogonal_hull
	.p2align	2
	.type	undrwyth_orthogonal_hull,@function
undrwyth_orthogonal_hull:
	sub	sp, sp, #160
	cmp	x2, #0
	mov	w8, #4096
	stp	x22, x21, [sp, #128]
	csel	x9, x8, xzr, eq
	cmp	x5, #0
	stp	x29, x30, [sp, #64]
	csel	x22, x8, xzr, eq
	cmp	x3, #8, lsl #12
	str	x27, [sp, #80]
	stp	x26, x25, [sp, #96]
	add	x29, sp, #64
	stp	x24, x23, [sp, #112]
	stp	x20, x19, [sp, #144]
	stp	xzr, xzr, [sp, #32]
	str	xzr, [sp, #48]
	b.ls	.LBB55_7
	mov	w8, wzr
.LBB55_2:
	mov	x9, xzr
.LBB55_3:
	and	w10, w8, #0xff
	mov	w12, #1
	mov	w11, wzr
	lsl	w10, w12, w10
	mov	w12, #65415
	movk	w12, #55, lsl #16
	tst	w10, w12
	b.ne	.LBB55_5
	mov	w11, w9
.LBB55_5:
	and	w8, w8, #0xff
	mov	w9, wzr
	mov	w12, wzr
	mov	w10, wzr
	add	w0, w8, #1
	mov	w8, wzr
.LBB55_6:
	ldp	x20, x19, [sp, #144]
	ldr	x27, [sp, #80]
	ldp	x22, x21, [sp, #128]
	stp	w0, w11, [x7]
	stp	w8, w9, [x7, #8]
	ldp	x24, x23, [sp, #112]
	stp	w12, w10, [x7, #16]
	ldp	x26, x25, [sp, #96]
	ldp	x29, x30, [sp, #64]
	add	sp, sp, #160
	ret
.LBB55_7:
	add	w8, w0, #4, lsl #12
	cmp	w8, #8, lsl #12
	mov	w8, #9
	b.hi	.LBB55_2
	add	w10, w1, #4, lsl #12
	cmp	w10, #8, lsl #12
	b.hi	.LBB55_2
	sub	w8, w4, #1
	cmp	w8, #4, lsl #12
	b.hs	.LBB55_12
	add	x20, x2, x9
	mov	w8, w0
	mov	w24, w4
	add	x0, sp, #32
	mov	w2, w1
	mov	w1, w8
	mov	x4, x3
	mov	x3, x20
	mov	x23, x5
	mov	x19, x6
	mov	x21, x7
	mov	w27, w8
	mov	w26, w2
	mov	x25, x4
	bl	"room_judge::judge"
	ldrb	w8, [sp, #32]
	cbz	w8, .LBB55_13
	ldrb	w8, [sp, #40]
	ldr	x9, [sp, #48]
	mov	x7, x21
	b	.LBB55_3
.LBB55_12:
	mov	w8, #21
	b	.LBB55_2
.LBB55_13:
	movi	v0.2d, #0000000000000000
	mov	w8, w24
	cmp	x25, #256
	add	x0, sp, #32
	mov	x1, sp
	add	x2, x23, x22
	mov	x3, x19
	stp	w27, w26, [sp]
	stp	x20, x25, [sp, #8]
	str	x8, [sp, #24]
	stp	q0, q0, [sp, #32]
	b.hi	.LBB55_15
	bl	"orthogonal_call::outline_sized::<=258>"
	b	.LBB55_18
.LBB55_15:
	cmp	x25, #2048
	b.hi	.LBB55_17
	bl	"orthogonal_call::outline_sized::<=2050>"
	b	.LBB55_18
.LBB55_17:
	bl	"orthogonal_call::outline_sized::<=16386>"
.LBB55_18:
	ldp	x8, x9, [sp, #40]
	mov	x7, x21
	ldr	x10, [sp, #56]
	ldrb	w11, [sp, #32]
	cbnz	w11, .LBB55_3
	lsr	x12, x9, #32
	mov	w0, wzr
	b	.LBB55_6
.Lfunc_end55:
	.size	undrwyth_orthogonal_hull, .Lfunc_end55-undrwyth_orthogonal_hull

	.section	.rodata.cst16,"aM",@progbits,16
	.p2align	4, 0x0
.LCPI56_0:
	.xword	1
	.xword	0
.LCPI56_1:
	.xword	-1
	.xword	0
.LCPI56_2:
	.xword	0
	.xword	1
.LCPI56_3:
	.xword	0
	.xword	-1
	.section	.text.undrwyth_outline,"ax",@progbits
	.globl	undrwyth_outline
	.p2align	2
	.type	undrwyth_outline,@function
undrwyth_outline:
	sub	sp, sp, #160
	cmp	x2, #0
	mov	w8, #4096
	stp	x29, x30, [sp, #128]
	csel	x9, x8, xzr, eq
	cmp	x4, #0
	str	x19, [sp, #144]
	csel	x8, x8, xzr, eq
	cmp	x3, #8, lsl #12
	add	x29, sp, #128
	b.ls	.LBB56_3
	mov	x10, xzr
	mov	w11, wzr
.LBB56_2:
	and	w8, w10, #0xff
	mov	w10, wzr
	add	w0, w8, #1
	ldp	x29, x30, [sp, #128]
	ldr	x19, [sp, #144]
	stp	w0, w11, [x6]
	str	w10, [x6, #8]
	add	sp, sp, #160
	ret
.LBB56_3:
	add	w10, w0, #4, lsl #12
	mov	w11, wzr
	cmp	w10, #8, lsl #12
	mov	w10, #9
	b.hi	.LBB56_2
	add	w12, w1, #4, lsl #12
	cmp	w12, #8, lsl #12
	b.hi	.LBB56_2
	cmp	x3, #4, lsl #12
	add	x1, x2, x9
	b.hi	.LBB56_22
	cbz	x3, .LBB56_9
	cmp	x3, #4
	b.hs	.LBB56_10
	mov	w11, wzr
	mov	x10, xzr
	b	.LBB56_19
.LBB56_9:
	mov	x10, xzr
	b	.LBB56_44
.LBB56_10:
	cmp	x3, #32
	b.hs	.LBB56_12
	mov	x10, xzr
	mov	w11, wzr
	b	.LBB56_16
.LBB56_12:
	movi	v0.2d, #0000000000000000
	movi	v1.2d, #0000000000000000
	add	x11, x9, x2
	and	x12, x3, #0x1c
	and	x10, x3, #0x7fe0
	add	x11, x11, #16
	and	x13, x3, #0x7fe0
.LBB56_13:
	ldp	q2, q3, [x11, #-16]
	subs	x13, x13, #32
	add	x11, x11, #32
	umax	v0.16b, v2.16b, v0.16b
	umax	v1.16b, v3.16b, v1.16b
	b.ne	.LBB56_13
	umax	v0.16b, v0.16b, v1.16b
	cmp	x3, x10
	umaxv	b0, v0.16b
	fmov	w11, s0
	b.eq	.LBB56_21
	cbz	x12, .LBB56_19
.LBB56_16:
	dup	v0.4h, w11
	mov	x11, x10
	and	x10, x3, #0x7ffc
	add	x12, x9, x11
	sub	x11, x11, x10
	add	x12, x2, x12
.LBB56_17:
	ldr	s1, [x12], #4
	bic	v0.4h, #255, lsl #8
	adds	x11, x11, #4
	ushll	v1.8h, v1.8b, #0
	umax	v0.4h, v1.4h, v0.4h
	b.ne	.LBB56_17
	umaxv	h0, v0.4h
	cmp	x3, x10
	fmov	w11, s0
	b.eq	.LBB56_21
.LBB56_19:
	add	x12, x9, x10
	sub	x9, x3, x10
	add	x10, x2, x12
.LBB56_20:
	ldrb	w12, [x10], #1
	and	w11, w11, #0xff
	cmp	w12, w11
	csel	w11, w12, w11, hi
	subs	x9, x9, #1
	b.ne	.LBB56_20
.LBB56_21:
	and	w9, w11, #0xff
	cmp	w9, #4
	b.lo	.LBB56_26
.LBB56_22:
	mov	x9, xzr
.LBB56_23:
	ldrb	w10, [x1, x9]
	cmp	w10, #3
	b.hi	.LBB56_30
	cmp	x9, #4, lsl #12
	b.eq	.LBB56_31
	add	x9, x9, #1
	cmp	x3, x9
	b.ne	.LBB56_23
.LBB56_26:
	adrp	x9, .LCPI56_0
	adrp	x11, .LCPI56_1
	mov	x10, xzr
	ldr	q0, [x9, :lo12:.LCPI56_0]
	ldr	q1, [x11, :lo12:.LCPI56_1]
	adrp	x9, .LCPI56_2
	adrp	x11, .LCPI56_3
	mov	w12, #16384
	mov	w15, #16384
	stp	q0, q1, [x29, #-32]
	ldr	q0, [x9, :lo12:.LCPI56_2]
	ldr	q1, [x11, :lo12:.LCPI56_3]
	mov	w9, #16384
	mov	w11, #16384
	mov	w13, #16384
	mov	w14, #16384
	stp	xzr, xzr, [sp, #48]
	str	xzr, [sp, #40]
	stp	q0, q1, [sp, #64]
.LBB56_27:
	ldrb	w16, [x1, x10]
	sub	x17, x29, #32
	add	x18, sp, #64
	add	x10, x10, #1
	ldr	x17, [x17, x16, lsl #3]
	ldr	x16, [x18, x16, lsl #3]
	add	x9, x17, x9
	add	x11, x16, x11
	cmp	x9, x12
	csel	x12, x9, x12, lo
	cmp	x9, x15
	csel	x15, x9, x15, hi
	cmp	x11, x13
	csel	x13, x11, x13, lo
	cmp	x11, x14
	csel	x14, x11, x14, hi
	cmp	x3, x10
	b.ne	.LBB56_27
	mov	w16, #16384
	sub	x10, x15, x12
	neg	x12, x12
	add	x15, x10, #1
	sub	x10, x16, x13
	sub	x13, x14, x13
	add	x13, x13, #1
	madd	x12, x15, x10, x12
	cmp	x9, #4, lsl #12
	ccmp	x11, x16, #0, eq
	stur	wzr, [sp, #33]
	mul	x10, x13, x15
	cset	w9, eq
	stp	x15, x13, [sp, #8]
	strb	w9, [sp, #32]
	str	wzr, [sp, #36]
	add	x9, x12, #4, lsl #12
	str	x9, [sp, #24]
	cmp	x10, #1, lsl #12
	b.hi	.LBB56_33
	add	x0, sp, #40
	mov	x2, x3
	add	x3, sp, #8
	add	x4, x4, x8
	mov	x19, x6
	bl	"outline_call::map_sized::<=4096>"
	b	.LBB56_42
.LBB56_30:
	mov	w10, #3
	b	.LBB56_32
.LBB56_31:
	mov	w10, #5
.LBB56_32:
	mov	w11, w9
	b	.LBB56_2
.LBB56_33:
	cmp	x3, #256
	b.hi	.LBB56_35
	add	x0, sp, #40
	mov	x2, x3
	add	x3, x4, x8
	mov	x4, x5
	mov	x19, x6
	bl	"outline_call::write_sized::<=257>"
	b	.LBB56_42
.LBB56_35:
	cmp	x10, #8, lsl #12
	b.hi	.LBB56_37
	add	x0, sp, #40
	mov	x2, x3
	add	x3, sp, #8
	add	x4, x4, x8
	mov	x19, x6
	bl	"outline_call::map_sized::<=32768>"
	b	.LBB56_42
.LBB56_37:
	cmp	x3, #2048
	b.hi	.LBB56_39
	add	x0, sp, #40
	mov	x2, x3
	add	x3, x4, x8
	mov	x4, x5
	mov	x19, x6
	bl	"outline_call::write_sized::<=2049>"
	b	.LBB56_42
.LBB56_39:
	mov	x2, x3
	mov	x19, x6
	add	x0, sp, #40
	cmp	x10, #64, lsl #12
	b.hi	.LBB56_41
	add	x3, sp, #8
	add	x4, x4, x8
	bl	"outline_call::map_sized::<=262144>"
	b	.LBB56_42
.LBB56_41:
	add	x3, x4, x8
	mov	x4, x5
	bl	"outline_call::write_sized::<=16385>"
.LBB56_42:
	ldur	q0, [sp, #48]
	ldrb	w8, [sp, #40]
	mov	x6, x19
	fmov	x10, d0
	cbz	w8, .LBB56_44
	mov	x9, v0.d[1]
	and	w8, w10, #0xff
	mov	w12, #1
	lsl	w8, w12, w8
	mov	w12, #65415
	mov	w11, wzr
	movk	w12, #55, lsl #16
	tst	w8, w12
	b.ne	.LBB56_2
	b	.LBB56_32
.LBB56_44:
	mov	w0, wzr
	ldp	x29, x30, [sp, #128]
	ldr	x19, [sp, #144]
	stp	wzr, wzr, [x6]
	str	w10, [x6, #8]
	add	sp, sp, #160
	ret
.Lfunc_end56:
	.size	undrwyth_outline, .Lfunc_end56-undrwyth_outline

	.section	.text.undrwyth_overlay,"ax",@progbits
	.globl	undrwyth_overlay
	.p2align	2
	.type	undrwyth_overlay,@function
undrwyth_overlay:
	sub	sp, sp, #336
	stp	x29, x30, [sp, #240]
	add	x29, sp, #240
	cmp	x2, #0
	ldr	x8, [x29, #144]
	stp	x22, x21, [sp, #304]
	ldr	x22, [x29, #96]
	ldr	x21, [x29, #112]
	stp	x20, x19, [sp, #320]
	mov	w20, w0
	str	x8, [sp, #96]
	mov	w8, #4096
	ldr	x19, [x29, #128]
	csel	x9, x8, xzr, eq
	cmp	x6, #0
	stp	x28, x27, [sp, #256]
	csel	x10, x8, xzr, eq
	cmp	x22, #0
	stp	x26, x25, [sp, #272]
	stp	x24, x23, [sp, #288]
	mov	x24, x3
	mov	w28, w1
	str	x10, [sp, #72]
	csel	x10, x8, xzr, eq
	cmp	x21, #0
	add	x26, x2, x9
	stp	w4, w5, [sp, #80]
	csel	x23, x8, xzr, eq
	cmp	x19, #0
	add	x0, sp, #104
	mov	w1, w20
	mov	w2, w28
	mov	x3, x26
	mov	x4, x24
	str	x7, [sp, #88]
	mov	x25, x6
	csel	x27, x8, xzr, eq
	str	x10, [sp, #64]
	stp	xzr, xzr, [sp, #104]
	str	xzr, [sp, #120]
	bl	"room_judge::judge"
	ldrb	w8, [sp, #104]
	cbz	w8, .LBB57_2
	ldr	x9, [sp, #120]
	ldrb	w8, [sp, #112]
	b	.LBB57_9
.LBB57_2:
	str	w20, [sp, #20]
	ldr	x8, [sp, #72]
	add	x0, sp, #104
	stp	x22, x21, [sp, #40]
	ldp	w21, w20, [sp, #80]
	str	x19, [sp, #56]
	ldr	x19, [sp, #88]
	add	x25, x25, x8
	mov	x3, x25
	stp	x23, x27, [sp, #24]
	mov	w1, w21
	mov	w2, w20
	mov	x4, x19
	bl	"room_judge::judge"
	ldrb	w8, [sp, #104]
	cbz	w8, .LBB57_4
	ldr	x9, [sp, #120]
	ldrb	w8, [sp, #112]
	b	.LBB57_9
.LBB57_4:
	ldr	w8, [sp, #20]
	movi	v0.2d, #0000000000000000
	cmp	x19, x24
	ldr	x6, [x29, #120]
	csel	x9, x19, x24, hi
	ldr	x4, [x29, #104]
	stp	w8, w28, [x29, #-88]
	ldr	x8, [x29, #136]
	cmp	x9, #256
	stp	x26, x24, [x29, #-80]
	stp	w21, w20, [x29, #-112]
	stp	x25, x19, [x29, #-104]
	stur	xzr, [x29, #-16]
	stp	q0, q0, [x29, #-48]
	stur	q0, [x29, #-64]
	b.hi	.LBB57_6
	ldr	x9, [sp, #40]
	ldr	x10, [sp, #64]
	sub	x0, x29, #64
	sub	x1, x29, #88
	sub	x2, x29, #112
	str	x8, [sp]
	add	x3, x9, x10
	ldr	x9, [sp, #48]
	ldr	x10, [sp, #24]
	add	x5, x9, x10
	ldr	x9, [sp, #56]
	ldr	x10, [sp, #32]
	add	x7, x9, x10
	bl	"overlay_call::list_sized::<=384>"
	ldp	q1, q0, [x29, #-48]
	ldur	x8, [x29, #-56]
	ldur	x9, [x29, #-16]
	ldurb	w10, [x29, #-64]
	cbnz	w10, .LBB57_8
	b	.LBB57_14
.LBB57_6:
	cmp	x9, #2048
	ldp	x10, x9, [sp, #48]
	ldp	x12, x11, [sp, #32]
	sub	x0, x29, #64
	ldr	x13, [sp, #64]
	ldr	x14, [sp, #24]
	sub	x1, x29, #88
	sub	x2, x29, #112
	add	x3, x11, x13
	add	x5, x10, x14
	add	x7, x9, x12
	b.hi	.LBB57_13
	str	x8, [sp]
	bl	"overlay_call::list_sized::<=3072>"
	ldp	q1, q0, [x29, #-48]
	ldur	x8, [x29, #-56]
	ldur	x9, [x29, #-16]
	ldurb	w10, [x29, #-64]
	cbz	w10, .LBB57_14
.LBB57_8:
	xtn	v0.2s, v1.2d
	fmov	w9, s0
.LBB57_9:
	and	w11, w8, #0xff
	mov	w12, #1
	mov	w10, wzr
	lsl	w11, w12, w11
	mov	w12, #65415
	movk	w12, #55, lsl #16
	tst	w11, w12
	b.ne	.LBB57_11
	mov	w10, w9
.LBB57_11:
	movi	v0.2d, #0000000000000000
	and	w8, w8, #0xff
	mov	w9, wzr
	add	w0, w8, #1
	mov	w8, wzr
.LBB57_12:
	ldr	x11, [sp, #96]
	ldp	x20, x19, [sp, #320]
	ldp	x22, x21, [sp, #304]
	ldp	x24, x23, [sp, #288]
	stp	w0, w10, [x11]
	str	w8, [x11, #8]
	ldp	x26, x25, [sp, #272]
	stur	q0, [x11, #12]
	ldp	x28, x27, [sp, #256]
	str	w9, [x11, #28]
	ldp	x29, x30, [sp, #240]
	add	sp, sp, #336
	ret
.LBB57_13:
	str	x8, [sp]
	bl	"overlay_call::list_sized::<=24576>"
	ldp	q1, q0, [x29, #-48]
	ldur	x8, [x29, #-56]
	ldur	x9, [x29, #-16]
	ldurb	w10, [x29, #-64]
	cbnz	w10, .LBB57_8
.LBB57_14:
	uzp1	v0.4s, v1.4s, v0.4s
	mov	w0, wzr
	rev64	v1.4s, v0.4s
	uzp2	v0.4s, v0.4s, v1.4s
	b	.LBB57_12
.Lfunc_end57:
	.size	undrwyth_overlay, .Lfunc_end57-undrwyth_overlay

	.section	.rodata.cst8,"aM",@progbits,8
	.p2align	3, 0x0
.LCPI58_0:
	.byte	1
	.byte	3
	.byte	0
	.byte	0
	.byte	0
	.byte	1
	.byte	0
	.byte	0
	.section	.text.undrwyth_polygon_of_room,"ax",@progbits
	.globl	undrwyth_polygon_of_room
	.p2align	2
	.type	undrwyth_polygon_of_room,@function
undrwyth_polygon_of_room:
	sub	sp, sp, #128
	cmp	x2, #0
	mov	w8, #4096
	stp	x28, x27, [sp, #48]
	stp	x22, x21, [sp, #96]
	mov	w21, w1
	mov	w22, w0
	stp	x20, x19, [sp, #112]
	mov	x20, x3
	csel	x28, x8, xzr, eq
	stp	x26, x25, [sp, #64]
	mov	x25, x2
	cmp	x4, #0
	stp	x24, x23, [sp, #80]
	mov	x23, x4
	add	x26, x2, x28
	add	x0, sp, #8
	add	x3, x2, x28
	mov	w1, w22
	mov	w2, w21
	mov	x4, x20
	stp	x29, x30, [sp, #32]
	add	x29, sp, #32
	mov	x19, x6
	mov	x24, x5
	stp	xzr, xzr, [sp, #8]
	csel	x27, x8, xzr, eq
	str	xzr, [sp, #24]
	bl	"room_judge::judge"
	ldrb	w8, [sp, #8]
	cbz	w8, .LBB58_3
	ldrb	w9, [sp, #16]
	mov	w11, #1
	mov	w12, #65415
	ldr	x8, [sp, #24]
	movk	w12, #55, lsl #16
	lsl	w11, w11, w9
	tst	w11, w12
	b.eq	.LBB58_6
	mov	w10, wzr
	b	.LBB58_21
.LBB58_3:
	cbz	x20, .LBB58_7
	ldrb	w9, [x26]
	cmp	x20, #32
	b.hs	.LBB58_13
	mov	w10, wzr
	mov	x8, xzr
	b	.LBB58_17
.LBB58_6:
	mov	w10, w8
	b	.LBB58_21
.LBB58_7:
	mov	w9, #2
	mov	w8, #13
	orr	x8, x8, x9, lsl #4
	cmp	x24, x8
	b.lo	.LBB58_20
.LBB58_8:
	mov	w10, #600
	adrp	x11, .LCPI58_0
	mul	w12, w22, w10
	ldr	d1, [x11, :lo12:.LCPI58_0]
	add	x11, x23, x27
	mul	w10, w21, w10
	stur	w9, [x11, #9]
	mov	x9, x11
	str	d1, [x11]
	scvtf	d0, w12
	strb	wzr, [x11, #8]
	scvtf	d1, w10
	str	d0, [x9, #13]!
	stur	d1, [x11, #21]
	cbz	x20, .LBB58_24
	ldrb	w13, [x26]
	mov	x10, xzr
	add	x11, x11, #29
	b	.LBB58_11
.LBB58_10:
	cmp	w12, #0
	cinc	w13, w22, eq
	cmp	w12, #2
	cset	w14, eq
	cset	w15, hi
	cmp	w12, #1
	cinc	w16, w21, eq
	subs	x20, x20, #1
	sub	w22, w13, w14
	sub	w21, w16, w15
	mov	w13, w12
	b.eq	.LBB58_23
.LBB58_11:
	ldrb	w12, [x26], #1
	cmp	w13, w12
	b.eq	.LBB58_10
	mov	w13, #600
	mul	w14, w22, w13
	mul	w13, w21, w13
	scvtf	d2, w14
	scvtf	d3, w13
	add	x13, x11, x10, lsl #4
	add	x10, x10, #1
	stp	d2, d3, [x13]
	b	.LBB58_10
.LBB58_13:
	movi	v0.2d, #0000000000000000
	movi	v2.2d, #0000000000000000
	and	x8, x20, #0xffffffffffffffe0
	movi	v3.2d, #0000000000000000
	movi	v4.2d, #0000000000000000
	and	x10, x20, #0xffffffffffffffe0
	dup	v1.16b, w9
	add	x9, x28, x25
	add	x9, x9, #16
.LBB58_14:
	mov	v6.16b, v1.16b
	ldp	q5, q1, [x9, #-16]
	subs	x10, x10, #32
	add	x9, x9, #32
	ext	v6.16b, v6.16b, v5.16b, #15
	ext	v7.16b, v5.16b, v1.16b, #15
	cmeq	v5.16b, v6.16b, v5.16b
	cmeq	v6.16b, v7.16b, v1.16b
	movi	v7.8h, #1
	mvn	v5.16b, v5.16b
	mvn	v6.16b, v6.16b
	ushll2	v16.8h, v5.16b, #0
	ushll	v5.8h, v5.8b, #0
	ushll	v17.8h, v6.8b, #0
	ushll2	v6.8h, v6.16b, #0
	and	v16.16b, v16.16b, v7.16b
	and	v5.16b, v5.16b, v7.16b
	and	v17.16b, v17.16b, v7.16b
	and	v6.16b, v6.16b, v7.16b
	add	v3.8h, v3.8h, v16.8h
	add	v2.8h, v2.8h, v5.8h
	add	v4.8h, v4.8h, v17.8h
	add	v0.8h, v0.8h, v6.8h
	b.ne	.LBB58_14
	add	v2.8h, v4.8h, v2.8h
	add	v0.8h, v0.8h, v3.8h
	cmp	x20, x8
	add	v0.8h, v2.8h, v0.8h
	addv	h0, v0.8h
	fmov	w10, s0
	b.eq	.LBB58_19
	umov	w9, v1.b[15]
.LBB58_17:
	add	x11, x25, x8
	sub	x8, x20, x8
	add	x11, x11, x28
.LBB58_18:
	mov	w12, w9
	ldrb	w9, [x11], #1
	cmp	w9, w12, uxtb
	cinc	w10, w10, ne
	subs	x8, x8, #1
	b.ne	.LBB58_18
.LBB58_19:
	and	x8, x10, #0xffff
	add	x9, x8, #2
	mov	w8, #13
	orr	x8, x8, x9, lsl #4
	cmp	x24, x8
	b.hs	.LBB58_8
.LBB58_20:
	mov	w10, wzr
	mov	w9, #12
.LBB58_21:
	mov	w8, wzr
	add	w0, w9, #1
.LBB58_22:
	stp	w0, w10, [x19]
	ldp	x22, x21, [sp, #96]
	str	w8, [x19, #8]
	ldp	x20, x19, [sp, #112]
	ldp	x24, x23, [sp, #80]
	ldp	x26, x25, [sp, #64]
	ldp	x28, x27, [sp, #48]
	ldp	x29, x30, [sp, #32]
	add	sp, sp, #128
	ret
.LBB58_23:
	lsl	x11, x10, #4
	b	.LBB58_25
.LBB58_24:
	mov	x11, xzr
.LBB58_25:
	add	x9, x9, x11
	mov	w0, wzr
	mov	w10, wzr
	stp	d0, d1, [x9, #16]
	b	.LBB58_22
.Lfunc_end58:
	.size	undrwyth_polygon_of_room, .Lfunc_end58-undrwyth_polygon_of_room

	.section	.rodata.cst16,"aM",@progbits,16
	.p2align	4, 0x0
.LCPI59_0:
	.byte	8
	.byte	255
	.byte	255
	.byte	255
	.byte	9
	.byte	255
	.byte	255
	.byte	255
	.byte	10
	.byte	255
	.byte	255
	.byte	255
	.byte	11
	.byte	255
	.byte	255
	.byte	255
.LCPI59_1:
	.byte	4
	.byte	255
	.byte	255
	.byte	255
	.byte	5
	.byte	255
	.byte	255
	.byte	255
	.byte	6
	.byte	255
	.byte	255
	.byte	255
	.byte	7
	.byte	255
	.byte	255
	.byte	255
.LCPI59_2:
	.byte	0
	.byte	255
	.byte	255
	.byte	255
	.byte	1
	.byte	255
	.byte	255
	.byte	255
	.byte	2
	.byte	255
	.byte	255
	.byte	255
	.byte	3
	.byte	255
	.byte	255
	.byte	255
.LCPI59_3:
	.byte	12
	.byte	255
	.byte	255
	.byte	255
	.byte	13
	.byte	255
	.byte	255
	.byte	255
	.byte	14
	.byte	255
	.byte	255
	.byte	255
	.byte	15
	.byte	255
	.byte	255
	.byte	255
	.section	.text.undrwyth_rows,"ax",@progbits
	.globl	undrwyth_rows
	.p2align	2
	.type	undrwyth_rows,@function
undrwyth_rows:
	sub	sp, sp, #160
	cmp	x2, #0
	mov	w8, #4096
	stp	x28, x27, [sp, #80]
	stp	x26, x25, [sp, #96]
	mov	w25, w0
	csel	x27, x8, xzr, eq
	stp	x24, x23, [sp, #112]
	mov	w24, w1
	mov	x23, x2
	stp	x22, x21, [sp, #128]
	mov	x21, x3
	cmp	x4, #0
	stp	x20, x19, [sp, #144]
	mov	x20, x4
	add	x28, x2, x27
	mov	x0, sp
	add	x3, x2, x27
	mov	w1, w25
	mov	w2, w24
	mov	x4, x21
	str	d8, [sp, #48]
	stp	x29, x30, [sp, #64]
	add	x29, sp, #64
	mov	x19, x6
	mov	x22, x5
	stp	xzr, xzr, [sp]
	csel	x26, x8, xzr, eq
	str	xzr, [sp, #16]
	bl	"room_judge::judge"
	ldrb	w8, [sp]
	cbz	w8, .LBB59_3
	ldrb	w9, [sp, #8]
	mov	w11, #1
	mov	w12, #65415
	ldr	x10, [sp, #16]
	movk	w12, #55, lsl #16
	lsl	w11, w11, w9
	tst	w11, w12
	b.eq	.LBB59_6
	mov	w8, wzr
	b	.LBB59_21
.LBB59_3:
	stp	w25, w24, [sp, #24]
	stp	x28, x21, [sp, #32]
	cbz	x21, .LBB59_7
	cmp	x21, #8
	b.hs	.LBB59_8
	mov	x12, xzr
	mov	x10, xzr
	b	.LBB59_17
.LBB59_6:
	mov	w8, w10
	b	.LBB59_21
.LBB59_7:
	mov	x23, xzr
	b	.LBB59_23
.LBB59_8:
	cmp	x21, #32
	adrp	x8, .LCPI59_1
	adrp	x9, .LCPI59_2
	b.hs	.LBB59_10
	mov	x10, xzr
	mov	x12, xzr
	b	.LBB59_14
.LBB59_10:
	movi	v1.2d, #0000000000000000
	movi	v2.2d, #0000000000000000
	add	x12, x27, x23
	movi	v6.2d, #0000000000000000
	movi	v0.2d, #0000000000000000
	and	x11, x21, #0x18
	movi	v17.2d, #0000000000000000
	movi	v4.2d, #0000000000000000
	and	x10, x21, #0xffffffffffffffe0
	movi	v5.2d, #0000000000000000
	movi	v3.2d, #0000000000000000
	add	x12, x12, #16
	movi	v21.2d, #0000000000000000
	movi	v16.2d, #0000000000000000
	and	x13, x21, #0xffffffffffffffe0
	movi	v7.2d, #0000000000000000
	movi	v22.2d, #0000000000000000
	movi	v19.2d, #0000000000000000
	movi	v20.2d, #0000000000000000
	movi	v18.2d, #0000000000000000
	movi	v23.2d, #0000000000000000
.LBB59_11:
	movi	v24.16b, #1
	ldp	q25, q26, [x12, #-16]
	adrp	x14, .LCPI59_0
	ldr	q27, [x8, :lo12:.LCPI59_1]
	ldr	q28, [x9, :lo12:.LCPI59_2]
	ldr	q29, [x14, :lo12:.LCPI59_0]
	adrp	x14, .LCPI59_3
	subs	x13, x13, #32
	add	x12, x12, #32
	and	v25.16b, v25.16b, v24.16b
	and	v24.16b, v26.16b, v24.16b
	ldr	q26, [x14, :lo12:.LCPI59_3]
	tbl	v30.16b, { v25.16b }, v27.16b
	tbl	v31.16b, { v25.16b }, v29.16b
	tbl	v8.16b, { v25.16b }, v28.16b
	tbl	v25.16b, { v25.16b }, v26.16b
	tbl	v27.16b, { v24.16b }, v27.16b
	tbl	v28.16b, { v24.16b }, v28.16b
	tbl	v29.16b, { v24.16b }, v29.16b
	tbl	v24.16b, { v24.16b }, v26.16b
	uaddw2	v17.2d, v17.2d, v30.4s
	uaddw2	v6.2d, v6.2d, v8.4s
	uaddw	v4.2d, v4.2d, v31.2s
	uaddw	v0.2d, v0.2d, v30.2s
	uaddw	v2.2d, v2.2d, v8.2s
	uaddw2	v5.2d, v5.2d, v31.4s
	uaddw	v3.2d, v3.2d, v25.2s
	uaddw2	v21.2d, v21.2d, v25.4s
	uaddw2	v22.2d, v22.2d, v27.4s
	uaddw2	v1.2d, v1.2d, v28.4s
	uaddw	v19.2d, v19.2d, v29.2s
	uaddw	v7.2d, v7.2d, v27.2s
	uaddw	v16.2d, v16.2d, v28.2s
	uaddw2	v20.2d, v20.2d, v29.4s
	uaddw	v18.2d, v18.2d, v24.2s
	uaddw2	v23.2d, v23.2d, v24.4s
	b.ne	.LBB59_11
	add	v17.2d, v22.2d, v17.2d
	add	v21.2d, v23.2d, v21.2d
	cmp	x21, x10
	add	v1.2d, v1.2d, v6.2d
	add	v2.2d, v16.2d, v2.2d
	add	v4.2d, v19.2d, v4.2d
	add	v5.2d, v20.2d, v5.2d
	add	v0.2d, v7.2d, v0.2d
	add	v3.2d, v18.2d, v3.2d
	add	v2.2d, v2.2d, v4.2d
	add	v0.2d, v0.2d, v3.2d
	add	v1.2d, v1.2d, v5.2d
	add	v3.2d, v17.2d, v21.2d
	add	v0.2d, v2.2d, v0.2d
	add	v1.2d, v1.2d, v3.2d
	add	v0.2d, v0.2d, v1.2d
	addp	d0, v0.2d
	fmov	x12, d0
	b.eq	.LBB59_19
	cbz	x11, .LBB59_17
.LBB59_14:
	movi	v0.2d, #0000000000000000
	movi	v1.2d, #0000000000000000
	mov	x11, x10
	movi	v2.2d, #0000000000000000
	movi	v3.2d, #0000000000000000
	and	x10, x21, #0xfffffffffffffff8
	mov	v0.d[0], x12
	add	x12, x23, x11
	sub	x11, x11, x10
	add	x12, x12, x27
.LBB59_15:
	movi	v4.8b, #1
	ldr	d5, [x12], #8
	ldr	q6, [x9, :lo12:.LCPI59_2]
	adds	x11, x11, #8
	and	v4.8b, v5.8b, v4.8b
	ldr	q5, [x8, :lo12:.LCPI59_1]
	tbl	v5.16b, { v4.16b }, v5.16b
	tbl	v4.16b, { v4.16b }, v6.16b
	uaddw2	v3.2d, v3.2d, v5.4s
	uaddw2	v2.2d, v2.2d, v4.4s
	uaddw	v1.2d, v1.2d, v5.2s
	uaddw	v0.2d, v0.2d, v4.2s
	b.ne	.LBB59_15
	add	v0.2d, v0.2d, v1.2d
	add	v1.2d, v2.2d, v3.2d
	cmp	x21, x10
	add	v0.2d, v0.2d, v1.2d
	addp	d0, v0.2d
	fmov	x12, d0
	b.eq	.LBB59_19
.LBB59_17:
	add	x9, x27, x10
	sub	x8, x21, x10
	add	x9, x23, x9
.LBB59_18:
	ldrb	w10, [x9], #1
	subs	x8, x8, #1
	and	x10, x10, #0x1
	add	x12, x12, x10
	b.ne	.LBB59_18
.LBB59_19:
	lsr	x23, x12, #1
	add	x8, x23, x23, lsl #1
	cmp	x22, x8
	b.hs	.LBB59_22
	mov	w8, wzr
	mov	w9, #20
.LBB59_21:
	mov	w23, wzr
	add	w0, w9, #1
	b	.LBB59_25
.LBB59_22:
	cmp	x21, #256
	b.hi	.LBB59_26
.LBB59_23:
	add	x0, sp, #24
	add	x1, x20, x26
	bl	"row_call::list_sized::<=258>"
.LBB59_24:
	mov	w0, wzr
	mov	w8, wzr
.LBB59_25:
	stp	w0, w8, [x19]
	ldp	x22, x21, [sp, #128]
	str	w23, [x19, #8]
	ldr	d8, [sp, #48]
	ldp	x20, x19, [sp, #144]
	ldp	x24, x23, [sp, #112]
	ldp	x26, x25, [sp, #96]
	ldp	x28, x27, [sp, #80]
	ldp	x29, x30, [sp, #64]
	add	sp, sp, #160
	ret
.LBB59_26:
	add	x0, sp, #24
	add	x1, x20, x26
	cmp	x21, #2048
	b.hi	.LBB59_28
	bl	"row_call::list_sized::<=2050>"
	b	.LBB59_24
.LBB59_28:
	bl	"row_call::list_sized::<=16386>"
	b	.LBB59_24
.Lfunc_end59:
	.size	undrwyth_rows, .Lfunc_end59-undrwyth_rows

	.section	.text.undrwyth_steps_of_turns,"ax",@progbits
	.globl	undrwyth_steps_of_turns
	.p2align	2
	.type	undrwyth_steps_of_turns,@function
undrwyth_steps_of_turns:
	mov	w8, #4096
	cmp	x0, #0
	csel	x10, x8, xzr, eq
	cmp	x2, #0
	csel	x9, x8, xzr, eq
	cmp	x1, #8, lsl #12
	b.ls	.LBB60_3
	mov	w0, #1
.LBB60_2:
	str	x0, [x4]
	ret
.LBB60_3:
	cmp	x3, x1
	b.ne	.LBB60_7
	cbz	x1, .LBB60_25
	cmp	x1, #4
	add	x8, x0, x10
	b.hs	.LBB60_8
	mov	w12, wzr
	mov	x11, xzr
	b	.LBB60_17
.LBB60_7:
	mov	w0, #3
	str	x0, [x4]
	ret
.LBB60_8:
	cmp	x1, #32
	b.hs	.LBB60_10
	mov	x11, xzr
	mov	w12, wzr
	b	.LBB60_14
.LBB60_10:
	movi	v0.2d, #0000000000000000
	movi	v1.2d, #0000000000000000
	add	x12, x10, x0
	and	x13, x1, #0x1c
	and	x11, x1, #0xffe0
	add	x12, x12, #16
	and	x14, x1, #0xffe0
.LBB60_11:
	ldp	q2, q3, [x12, #-16]
	subs	x14, x14, #32
	add	x12, x12, #32
	umax	v0.16b, v2.16b, v0.16b
	umax	v1.16b, v3.16b, v1.16b
	b.ne	.LBB60_11
	umax	v0.16b, v0.16b, v1.16b
	cmp	x1, x11
	umaxv	b0, v0.16b
	fmov	w12, s0
	b.eq	.LBB60_19
	cbz	x13, .LBB60_17
.LBB60_14:
	dup	v0.4h, w12
	mov	x12, x11
	and	x11, x1, #0xfffc
	add	x13, x10, x12
	sub	x12, x12, x11
	add	x13, x0, x13
.LBB60_15:
	ldr	s1, [x13], #4
	bic	v0.4h, #255, lsl #8
	adds	x12, x12, #4
	ushll	v1.8h, v1.8b, #0
	umax	v0.4h, v1.4h, v0.4h
	b.ne	.LBB60_15
	umaxv	h0, v0.4h
	cmp	x1, x11
	fmov	w12, s0
	b.eq	.LBB60_19
.LBB60_17:
	add	x13, x10, x11
	sub	x10, x1, x11
	add	x11, x0, x13
.LBB60_18:
	ldrb	w13, [x11], #1
	and	w12, w12, #0xff
	cmp	w13, w12
	csel	w12, w13, w12, hi
	subs	x10, x10, #1
	b.ne	.LBB60_18
.LBB60_19:
	and	w10, w12, #0xff
	cmp	w10, #4
	b.lo	.LBB60_23
	mov	w0, #4
	mov	x10, x8
	mov	x11, x1
.LBB60_21:
	ldrb	w12, [x10], #1
	cmp	w12, #3
	b.hi	.LBB60_2
	mov	x12, #4294967296
	subs	x11, x11, #1
	add	x0, x0, x12
	b.ne	.LBB60_21
.LBB60_23:
	mov	w10, wzr
	add	x9, x2, x9
.LBB60_24:
	ldrb	w11, [x8], #1
	subs	x1, x1, #1
	add	w10, w11, w10
	and	w10, w10, #0x3
	strb	w10, [x9], #1
	b.ne	.LBB60_24
.LBB60_25:
	mov	x0, xzr
	str	xzr, [x4]
	ret
.Lfunc_end60:
	.size	undrwyth_steps_of_turns, .Lfunc_end60-undrwyth_steps_of_turns

	.section	.text.undrwyth_turns_of_steps,"ax",@progbits
	.globl	undrwyth_turns_of_steps
	.p2align	2
	.type	undrwyth_turns_of_steps,@function
undrwyth_turns_of_steps:
	mov	w8, #4096
	cmp	x0, #0
	csel	x9, x8, xzr, eq
	cmp	x2, #0
	csel	x10, x8, xzr, eq
	cmp	x1, #8, lsl #12
	b.ls	.LBB61_3
	mov	w8, #1
.LBB61_2:
	mov	w0, w8
	str	x8, [x4]
	ret
.LBB61_3:
	cmp	x3, x1
	b.ne	.LBB61_7
	cbz	x1, .LBB61_31
	cmp	x1, #4
	b.hs	.LBB61_8
	mov	w11, wzr
	mov	x8, xzr
	b	.LBB61_17
.LBB61_7:
	mov	w8, #3
	mov	w0, w8
	str	x8, [x4]
	ret
.LBB61_8:
	cmp	x1, #32
	b.hs	.LBB61_10
	mov	x8, xzr
	mov	w11, wzr
	b	.LBB61_14
.LBB61_10:
	movi	v0.2d, #0000000000000000
	movi	v1.2d, #0000000000000000
	add	x11, x9, x0
	and	x12, x1, #0x1c
	and	x8, x1, #0xffe0
	add	x11, x11, #16
	and	x13, x1, #0xffe0
.LBB61_11:
	ldp	q2, q3, [x11, #-16]
	subs	x13, x13, #32
	add	x11, x11, #32
	umax	v0.16b, v2.16b, v0.16b
	umax	v1.16b, v3.16b, v1.16b
	b.ne	.LBB61_11
	umax	v0.16b, v0.16b, v1.16b
	cmp	x1, x8
	umaxv	b0, v0.16b
	fmov	w11, s0
	b.eq	.LBB61_19
	cbz	x12, .LBB61_17
.LBB61_14:
	dup	v0.4h, w11
	mov	x11, x8
	and	x8, x1, #0xfffc
	add	x12, x9, x11
	sub	x11, x11, x8
	add	x12, x0, x12
.LBB61_15:
	ldr	s1, [x12], #4
	bic	v0.4h, #255, lsl #8
	adds	x11, x11, #4
	ushll	v1.8h, v1.8b, #0
	umax	v0.4h, v1.4h, v0.4h
	b.ne	.LBB61_15
	umaxv	h0, v0.4h
	cmp	x1, x8
	fmov	w11, s0
	b.eq	.LBB61_19
.LBB61_17:
	add	x12, x9, x8
	sub	x8, x1, x8
	add	x12, x0, x12
.LBB61_18:
	ldrb	w13, [x12], #1
	and	w11, w11, #0xff
	cmp	w13, w11
	csel	w11, w13, w11, hi
	subs	x8, x8, #1
	b.ne	.LBB61_18
.LBB61_19:
	and	w8, w11, #0xff
	cmp	w8, #4
	b.lo	.LBB61_23
	add	x11, x0, x9
	mov	w8, #4
	mov	x12, x1
.LBB61_21:
	ldrb	w13, [x11], #1
	cmp	w13, #3
	b.hi	.LBB61_2
	mov	x13, #4294967296
	subs	x12, x12, #1
	add	x8, x8, x13
	b.ne	.LBB61_21
.LBB61_23:
	cmp	x1, #32
	b.lo	.LBB61_25
	add	x11, x10, x2
	add	x12, x9, x0
	sub	x8, x11, x12
	cmp	x8, #32
	b.hs	.LBB61_28
.LBB61_25:
	mov	w11, wzr
	mov	x8, xzr
.LBB61_26:
	add	x10, x10, x8
	add	x12, x9, x8
	sub	x8, x1, x8
	add	x9, x2, x10
	add	x10, x0, x12
.LBB61_27:
	mov	w12, w11
	ldrb	w11, [x10], #1
	subs	x8, x8, #1
	sub	w12, w11, w12
	and	w12, w12, #0x3
	strb	w12, [x9], #1
	b.ne	.LBB61_27
	b	.LBB61_2
.LBB61_28:
	movi	v0.2d, #0000000000000000
	and	x8, x1, #0xffe0
	add	x11, x11, #16
	add	x12, x12, #16
	and	x13, x1, #0xffe0
.LBB61_29:
	mov	v2.16b, v0.16b
	ldp	q1, q0, [x12, #-16]
	movi	v4.16b, #3
	subs	x13, x13, #32
	add	x12, x12, #32
	ext	v2.16b, v2.16b, v1.16b, #15
	ext	v3.16b, v1.16b, v0.16b, #15
	sub	v1.16b, v1.16b, v2.16b
	sub	v2.16b, v0.16b, v3.16b
	and	v1.16b, v1.16b, v4.16b
	and	v2.16b, v2.16b, v4.16b
	stp	q1, q2, [x11, #-16]
	add	x11, x11, #32
	b.ne	.LBB61_29
	cmp	x1, x8
	b.ne	.LBB61_32
.LBB61_31:
	mov	x8, xzr
	mov	w0, w8
	str	xzr, [x4]
	ret
.LBB61_32:
	umov	w11, v0.b[15]
	b	.LBB61_26
.Lfunc_end61:
	.size	undrwyth_turns_of_steps, .Lfunc_end61-undrwyth_turns_of_steps

	.section	.text.undrwyth_walk,"ax",@progbits
	.globl	undrwyth_walk
	.p2align	2
	.type	undrwyth_walk,@function
undrwyth_walk:
	sub	sp, sp, #224
	stp	x29, x30, [sp, #128]
	add	x29, sp, #128
	cmp	x2, #0
	mov	w9, #4096
	stp	x26, x25, [sp, #160]
	movi	v0.2d, #0000000000000000
	ldr	x26, [x29, #96]
	csel	x8, x9, xzr, eq
	cmp	x4, #0
	csel	x11, x9, xzr, eq
	cmp	x6, #0
	stp	x24, x23, [sp, #176]
	ldr	x24, [x29, #112]
	csel	x25, x9, xzr, eq
	cmp	x26, #0
	stp	x28, x27, [sp, #144]
	csel	x27, x9, xzr, eq
	cmp	x3, #8, lsl #12
	mov	x9, xzr
	stp	x22, x21, [sp, #192]
	stp	x20, x19, [sp, #208]
	str	xzr, [sp, #112]
	stp	q0, q0, [sp, #48]
	stp	q0, q0, [sp, #80]
	b.ls	.LBB62_6
	mov	w10, wzr
.LBB62_2:
	mov	w11, #1
	mov	w12, #65415
	mov	w8, wzr
	lsl	w11, w11, w10
	movk	w12, #55, lsl #16
	tst	w11, w12
	b.ne	.LBB62_4
	mov	w8, w9
.LBB62_4:
	movi	v0.2d, #0000000000000000
	movi	v1.2d, #0000000000000000
	mov	w11, wzr
	mov	w9, wzr
	add	w0, w10, #1
	mov	w10, wzr
.LBB62_5:
	stp	w0, w8, [x24]
	ldp	x20, x19, [sp, #208]
	str	w10, [x24, #8]
	ldp	x22, x21, [sp, #192]
	stur	q0, [x24, #12]
	ldp	x26, x25, [sp, #160]
	str	w11, [x24, #28]
	ldp	x28, x27, [sp, #144]
	str	d1, [x24, #32]
	ldp	x29, x30, [sp, #128]
	str	w9, [x24, #40]
	ldp	x24, x23, [sp, #176]
	add	sp, sp, #224
	ret
.LBB62_6:
	mov	x10, #23593
	mov	x12, #-49808
	movk	x10, #49807, lsl #16
	movk	x12, #55050, lsl #16
	movk	x10, #10485, lsl #32
	eor	x12, x12, x12, lsl #30
	movk	x10, #36700, lsl #48
	mul	x10, x5, x10
	cmp	x10, x12
	mov	w10, #1
	b.hi	.LBB62_2
	mov	w13, #1899
	sub	x12, x5, #25
	movk	w13, #50, lsl #16
	cmp	x12, x13
	b.hi	.LBB62_2
	add	x10, x3, x3, lsl #1
	mov	x9, xzr
	cmp	x7, x10
	mov	w10, #2
	b.ne	.LBB62_2
	ldr	x12, [x29, #104]
	cmp	x12, x3
	b.ne	.LBB62_2
	add	w10, w0, #4, lsl #12
	mov	x9, xzr
	cmp	w10, #8, lsl #12
	mov	w10, #9
	b.hi	.LBB62_2
	add	w12, w1, #4, lsl #12
	cmp	w12, #8, lsl #12
	b.hi	.LBB62_2
	cmp	x3, #4, lsl #12
	add	x20, x2, x8
	add	x22, x4, x11
	b.hi	.LBB62_28
	cbz	x3, .LBB62_38
	cmp	x3, #4
	b.hs	.LBB62_16
	mov	w10, wzr
	mov	x9, xzr
	b	.LBB62_25
.LBB62_16:
	cmp	x3, #32
	b.hs	.LBB62_18
	mov	x9, xzr
	mov	w10, wzr
	b	.LBB62_22
.LBB62_18:
	movi	v1.2d, #0000000000000000
	add	x10, x8, x2
	and	x11, x3, #0x1c
	and	x9, x3, #0x7fe0
	add	x10, x10, #16
	and	x12, x3, #0x7fe0
.LBB62_19:
	ldp	q2, q3, [x10, #-16]
	subs	x12, x12, #32
	add	x10, x10, #32
	umax	v0.16b, v2.16b, v0.16b
	umax	v1.16b, v3.16b, v1.16b
	b.ne	.LBB62_19
	umax	v0.16b, v0.16b, v1.16b
	cmp	x3, x9
	umaxv	b0, v0.16b
	fmov	w10, s0
	b.eq	.LBB62_27
	cbz	x11, .LBB62_25
.LBB62_22:
	dup	v0.4h, w10
	mov	x10, x9
	and	x9, x3, #0x7ffc
	add	x11, x8, x10
	sub	x10, x10, x9
	add	x11, x2, x11
.LBB62_23:
	ldr	s1, [x11], #4
	bic	v0.4h, #255, lsl #8
	adds	x10, x10, #4
	ushll	v1.8h, v1.8b, #0
	umax	v0.4h, v1.4h, v0.4h
	b.ne	.LBB62_23
	umaxv	h0, v0.4h
	cmp	x3, x9
	fmov	w10, s0
	b.eq	.LBB62_27
.LBB62_25:
	add	x11, x8, x9
	sub	x8, x3, x9
	add	x9, x2, x11
.LBB62_26:
	ldrb	w11, [x9], #1
	and	w10, w10, #0xff
	cmp	w11, w10
	csel	w10, w11, w10, hi
	subs	x8, x8, #1
	b.ne	.LBB62_26
.LBB62_27:
	and	w8, w10, #0xff
	cmp	w8, #4
	b.lo	.LBB62_38
.LBB62_28:
	mov	x8, xzr
	mov	x9, xzr
	b	.LBB62_31
.LBB62_29:
	cbz	x8, .LBB62_45
	mov	x10, #-1
	add	x9, x9, #1
	add	x8, x10, x8
	cmp	x3, x9
	b.eq	.LBB62_35
.LBB62_31:
	ldrb	w10, [x20, x9]
	cmp	w10, #4
	b.eq	.LBB62_29
	cmp	w10, #3
	b.hi	.LBB62_44
	lsr	x10, x8, #14
	cbnz	x10, .LBB62_46
	mov	w10, #1
	add	x9, x9, #1
	add	x8, x10, x8
	cmp	x3, x9
	b.ne	.LBB62_31
.LBB62_35:
	mov	x23, x5
	stp	w0, w1, [sp, #32]
	str	x7, [sp, #40]
	cbz	x5, .LBB62_41
	subs	x21, x23, #1
	b.eq	.LBB62_47
	mov	x5, x23
	mov	x19, x6
	mov	x28, x3
	b	.LBB62_39
.LBB62_38:
	mov	x19, x6
	mov	x28, x3
	sub	x21, x5, #1
	stp	w0, w1, [sp, #32]
	str	x7, [sp, #40]
.LBB62_39:
	lsl	x8, x5, #2
	mov	x0, x22
	mov	w1, wzr
	mov	x23, x5
	sub	x2, x8, #4
	bl	memset
	lsl	x8, x21, #2
	mov	x3, x28
	mov	x6, x19
.LBB62_40:
	str	wzr, [x22, x8]
.LBB62_41:
	add	x8, x26, x27
	add	x0, sp, #48
	add	x7, x6, x25
	ldp	w1, w2, [sp, #32]
	stp	x8, x3, [sp, #8]
	ldr	x8, [sp, #40]
	mov	x4, x3
	mov	x3, x20
	mov	x5, x22
	mov	x6, x23
	str	x8, [sp]
	bl	"walk_call::set_out"
	ldrb	w8, [sp, #48]
	ldrb	w10, [sp, #56]
	cbz	w8, .LBB62_43
	ldr	x9, [sp, #64]
	b	.LBB62_2
.LBB62_43:
	ldp	q1, q0, [sp, #64]
	mov	w0, wzr
	ldr	x11, [sp, #96]
	ldr	w9, [sp, #112]
	uzp1	v0.4s, v1.4s, v0.4s
	ldr	d1, [sp, #104]
	b	.LBB62_5
.LBB62_44:
	mov	w10, #3
	b	.LBB62_2
.LBB62_45:
	mov	w10, #4
	b	.LBB62_2
.LBB62_46:
	mov	w10, #5
	b	.LBB62_2
.LBB62_47:
	mov	x8, xzr
	b	.LBB62_40
.Lfunc_end62:
	.size	undrwyth_walk, .Lfunc_end62-undrwyth_walk

	.section	.text.undrwyth_walk_two,"ax",@progbits
	.globl	undrwyth_walk_two
	.p2align	2
	.type	undrwyth_walk_two,@function
undrwyth_walk_two:
	sub	sp, sp, #496
	stp	x29, x30, [sp, #400]
	add	x29, sp, #400
	cmp	x4, #0
	stp	x20, x19, [sp, #480]
	ldr	x20, [x29, #96]
	mov	w8, #4096
	stp	x22, x21, [sp, #464]
	ldr	x22, [x29, #112]
	csel	x9, x8, xzr, eq
	cmp	x6, #0
	stp	x24, x23, [sp, #448]
	ldr	x23, [x29, #128]
	csel	x10, x8, xzr, eq
	cmp	x20, #0
	stp	x28, x27, [sp, #416]
	csel	x24, x8, xzr, eq
	cmp	x22, #0
	ldr	x28, [x29, #144]
	csel	x21, x8, xzr, eq
	cmp	x23, #0
	stp	x26, x25, [sp, #432]
	csel	x26, x8, xzr, eq
	cmp	x5, #8, lsl #12
	b.ls	.LBB63_4
	mov	w27, wzr
	mov	w8, wzr
.LBB63_2:
	and	w9, w27, #0xff
	mov	w3, wzr
	mov	w19, wzr
	mov	w24, wzr
	mov	w18, wzr
	mov	w15, wzr
	mov	w1, wzr
	mov	w21, wzr
	mov	w17, wzr
	mov	w26, wzr
	mov	w22, wzr
	mov	w25, wzr
	mov	w4, wzr
	mov	w6, wzr
	mov	w5, wzr
	mov	w23, wzr
	mov	w16, wzr
	mov	w20, wzr
	add	w0, w9, #1
.LBB63_3:
	stp	w0, w8, [x28]
	ldp	x29, x30, [sp, #400]
	stp	w3, w19, [x28, #8]
	stp	w24, w18, [x28, #16]
	stp	w15, w1, [x28, #24]
	stp	w21, w17, [x28, #32]
	stp	w26, w22, [x28, #40]
	ldp	x22, x21, [sp, #464]
	stp	w25, w4, [x28, #48]
	ldp	x26, x25, [sp, #432]
	stp	w6, w5, [x28, #56]
	stp	w23, w16, [x28, #64]
	ldp	x24, x23, [sp, #448]
	str	w20, [x28, #72]
	ldp	x20, x19, [sp, #480]
	ldp	x28, x27, [sp, #416]
	add	sp, sp, #496
	ret
.LBB63_4:
	mov	x11, #36409
	mov	x12, #50972
	mov	w8, wzr
	movk	x11, #14563, lsl #16
	movk	x12, #7281, lsl #16
	mov	w27, #1
	movk	x11, #58254, lsl #32
	movk	x12, #29127, lsl #32
	movk	x11, #36408, lsl #48
	movk	x12, #1820, lsl #48
	mul	x11, x7, x11
	ror	x11, x11, #2
	cmp	x11, x12
	b.hi	.LBB63_2
	mov	w12, #5471
	sub	x11, x7, #36
	movk	w12, #144, lsl #16
	cmp	x11, x12
	b.hi	.LBB63_2
	ldr	x13, [x29, #104]
	add	x11, x5, x5, lsl #1
	mov	w8, wzr
	mov	w27, #2
	cmp	x13, x11
	b.ne	.LBB63_2
	ldr	x11, [x29, #120]
	cmp	x11, x5
	b.ne	.LBB63_2
	ldr	x11, [x29, #136]
	cmp	x11, x5
	b.ne	.LBB63_2
	add	w11, w0, #4, lsl #12
	mov	w8, wzr
	mov	w27, #9
	cmp	w11, #8, lsl #12
	b.hi	.LBB63_2
	add	w11, w1, #4, lsl #12
	cmp	w11, #8, lsl #12
	b.hi	.LBB63_2
	add	w11, w2, #4, lsl #12
	mov	w8, wzr
	mov	w27, #9
	cmp	w11, #8, lsl #12
	b.hi	.LBB63_2
	add	w11, w3, #4, lsl #12
	cmp	w11, #8, lsl #12
	b.hi	.LBB63_2
	add	x15, x4, x9
	add	x25, x6, x10
	stp	x5, x7, [sp, #96]
	str	w2, [sp, #80]
	cbz	x5, .LBB63_24
	mov	x8, xzr
	mov	x9, xzr
	mov	x16, xzr
	b	.LBB63_17
.LBB63_15:
	mov	w11, #1
.LBB63_16:
	lsr	w10, w10, #4
	add	x16, x16, #1
	cmp	w10, #0
	csel	x12, x11, xzr, eq
	cmp	w10, #1
	csel	x10, x11, xzr, eq
	cmp	x5, x16
	add	x8, x12, x8
	add	x9, x10, x9
	b.eq	.LBB63_49
.LBB63_17:
	ldrb	w10, [x15, x16]
	cmp	w10, #16
	csel	x11, x8, x9, lo
	cmp	w10, #31
	b.hi	.LBB63_48
	and	w12, w10, #0xf
	cmp	w12, #4
	b.ne	.LBB63_21
	cbz	x11, .LBB63_56
	mov	x11, #-1
	b	.LBB63_16
.LBB63_21:
	cmp	w12, #3
	b.hi	.LBB63_55
	lsr	x11, x11, #14
	cbz	x11, .LBB63_15
	mov	w27, #5
	b	.LBB63_57
.LBB63_24:
	movi	v0.2d, #0000000000000000
	mov	w19, w0
	sub	x27, x7, #1
	str	x15, [sp, #56]
	stp	x13, x3, [sp, #32]
	str	x1, [sp, #72]
	stp	q0, q0, [sp, #192]
.LBB63_25:
	lsl	x8, x7, #2
	mov	x0, x25
	mov	w1, wzr
	sub	x2, x8, #4
	bl	memset
	ldr	x7, [sp, #104]
	lsl	x8, x27, #2
.LBB63_26:
	str	wzr, [sp, #24]
	str	wzr, [x25, x8]
.LBB63_27:
	mov	w8, #1
	add	x9, x20, x24
	add	x0, sp, #192
	mov	x1, x25
	mov	x2, x7
	mov	x3, xzr
	mov	w4, #1
	mov	w5, #1
	mov	w6, w19
	ldr	x7, [sp, #72]
	str	x9, [sp, #64]
	add	x22, x22, x21
	str	w8, [x25, #76]
	add	x23, x23, x26
	str	w8, [x25, #120]
	str	x25, [sp, #88]
	bl	"pair_plant::plant"
	ldrb	w8, [sp, #192]
	cmp	w8, #1
	b.ne	.LBB63_37
	ldp	x20, x4, [sp, #200]
	add	x0, sp, #192
	ldr	x5, [sp, #216]
	ldr	x1, [sp, #88]
	mov	w3, #1
	ldr	x2, [sp, #104]
	ldr	w6, [sp, #80]
	ldr	x7, [sp, #40]
	bl	"pair_plant::plant"
	ldrb	w8, [sp, #192]
	cmp	w8, #1
	b.ne	.LBB63_37
	ldr	w9, [sp, #80]
	movi	v0.2d, #0000000000000000
	ldr	x14, [sp, #72]
	ldr	x10, [sp, #40]
	ldp	x27, x3, [sp, #200]
	mov	w8, w19
	mov	w13, w9
	ldr	x12, [sp, #216]
	orr	x17, x8, x14, lsl #32
	orr	x16, x13, x10, lsl #32
	ldr	x8, [sp, #96]
	mov	w11, w19
	str	xzr, [sp, #256]
	stp	q0, q0, [sp, #112]
	stp	q0, q0, [sp, #144]
	stp	q0, q0, [sp, #192]
	stp	q0, q0, [sp, #224]
	str	xzr, [sp, #176]
	str	x23, [sp, #16]
	cbz	x8, .LBB63_59
	ldr	x2, [sp, #104]
	mov	x30, xzr
	mov	x0, xzr
	mov	x19, xzr
	mov	w18, #1
	mov	w1, #65535
	mov	w15, #65535
	mov	w5, #65535
	mov	w6, #65535
	mov	w4, #1
	str	x20, [sp, #48]
	str	x22, [sp, #8]
	str	x14, [sp, #72]
	b	.LBB63_33
.LBB63_31:
	mov	x26, x1
	stp	x0, x4, [x29, #-120]
	ldr	x1, [sp, #88]
	stp	x3, x12, [x29, #-88]
	ldr	x3, [sp, #64]
	ldr	x4, [sp, #16]
	stp	x6, x5, [x29, #-104]
	sub	w7, w7, #16
	add	x0, sp, #112
	sub	x6, x29, #136
	mov	w5, #1
	mov	x22, x30
	mov	x20, x15
	mov	x25, x18
	mov	x24, x17
	stp	x27, x16, [x29, #-136]
	str	x19, [sp]
	bl	"pair_run::perform"
	ldp	x27, x16, [sp, #120]
	ldrb	w8, [sp, #112]
	cbnz	w8, .LBB63_94
	ldp	x0, x4, [sp, #136]
	mov	x10, x23
	ldp	x6, x5, [sp, #152]
	mov	w11, w21
	ldp	x3, x12, [sp, #168]
	mov	x17, x24
	ldr	w9, [sp, #80]
	ldr	x14, [sp, #72]
	mov	x18, x25
	mov	x1, x26
	mov	x15, x20
	mov	x30, x22
	ldp	x8, x2, [sp, #96]
	add	x19, x19, #1
	cmp	x8, x19
	b.eq	.LBB63_36
.LBB63_33:
	ldr	x8, [sp, #56]
	mov	w21, w11
	mov	x23, x10
	ldrb	w7, [x8, x19]
	cmp	w7, #15
	b.hi	.LBB63_31
	mov	x25, x4
	ldr	x8, [sp, #48]
	stp	x15, x1, [x29, #-40]
	stp	x3, x12, [x29, #-24]
	ldr	x1, [sp, #88]
	ldr	x3, [sp, #64]
	ldr	x4, [sp, #8]
	mov	x22, x0
	mov	x20, x6
	mov	x26, x5
	add	x0, sp, #192
	sub	x6, x29, #72
	mov	x5, xzr
	mov	x24, x16
	stp	x8, x17, [x29, #-72]
	stp	x30, x18, [x29, #-56]
	str	x19, [sp]
	bl	"pair_run::perform"
	ldp	x9, x17, [sp, #200]
	ldrb	w8, [sp, #192]
	str	x9, [sp, #48]
	cbnz	w8, .LBB63_93
	ldp	x30, x18, [sp, #216]
	mov	x10, x23
	ldp	x15, x1, [sp, #232]
	mov	w11, w21
	ldp	x3, x12, [sp, #248]
	mov	x16, x24
	ldr	w9, [sp, #80]
	ldr	x14, [sp, #72]
	mov	x4, x25
	mov	x5, x26
	mov	x6, x20
	mov	x0, x22
	ldp	x8, x2, [sp, #96]
	add	x19, x19, #1
	cmp	x8, x19
	b.ne	.LBB63_33
.LBB63_36:
	ldr	x22, [sp, #8]
	b	.LBB63_60
.LBB63_37:
	ldp	x8, x9, [sp, #96]
	ldr	x21, [sp, #32]
	mov	x16, xzr
	ldr	x0, [sp, #88]
	ldr	x24, [sp, #64]
	mov	w27, #6
	ldr	w10, [sp, #24]
	tbnz	w10, #0, .LBB63_41
.LBB63_38:
	subs	x19, x9, #1
	b.eq	.LBB63_40
	lsl	x8, x9, #2
	mov	w1, wzr
	mov	x20, x16
	sub	x2, x8, #4
	bl	memset
	ldp	x0, x8, [sp, #88]
	mov	x16, x20
.LBB63_40:
	str	wzr, [x0, x19, lsl #2]
.LBB63_41:
	cbz	x21, .LBB63_45
	subs	x19, x21, #1
	b.eq	.LBB63_44
	lsl	x8, x21, #2
	mov	x0, x24
	mov	w1, wzr
	mov	x20, x16
	sub	x2, x8, #4
	bl	memset
	ldr	x8, [sp, #96]
	mov	x16, x20
.LBB63_44:
	str	wzr, [x24, x19, lsl #2]
.LBB63_45:
	cbz	x8, .LBB63_54
	subs	x20, x8, #1
	b.eq	.LBB63_52
	mov	x0, x22
	mov	w1, wzr
	mov	x2, x20
	mov	x19, x16
	bl	memset
	mov	x0, x23
	mov	w1, wzr
	mov	x2, x20
	strb	wzr, [x22, x20]
	bl	memset
	mov	x16, x19
	b	.LBB63_53
.LBB63_48:
	mov	w27, #19
	b	.LBB63_57
.LBB63_49:
	movi	v0.2d, #0000000000000000
	mov	w19, w0
	stp	x13, x3, [sp, #32]
	str	x1, [sp, #72]
	str	x15, [sp, #56]
	stp	q0, q0, [sp, #192]
	cbz	x7, .LBB63_58
	subs	x27, x7, #1
	b.ne	.LBB63_25
	mov	x8, xzr
	b	.LBB63_26
.LBB63_52:
	strb	wzr, [x22]
.LBB63_53:
	strb	wzr, [x23, x20]
.LBB63_54:
	and	w9, w27, #0xff
	mov	w10, #1
	mov	w8, wzr
	lsl	w9, w10, w9
	mov	w10, #65415
	movk	w10, #55, lsl #16
	tst	w9, w10
	b.ne	.LBB63_2
	b	.LBB63_57
.LBB63_55:
	mov	w27, #3
	b	.LBB63_57
.LBB63_56:
	mov	w27, #4
.LBB63_57:
	mov	w8, w16
	b	.LBB63_2
.LBB63_58:
	mov	w8, #1
	str	w8, [sp, #24]
	b	.LBB63_27
.LBB63_59:
	mov	x30, xzr
	mov	x0, xzr
	mov	w18, #1
	mov	w15, #65535
	mov	w1, #65535
	mov	w4, #1
	mov	w6, #65535
	mov	w5, #65535
.LBB63_60:
	lsr	x26, x17, #32
	cmp	w11, w17
	b.ne	.LBB63_68
	cbz	x30, .LBB63_71
	cmp	w14, w26
	b.ne	.LBB63_69
	mov	w21, wzr
	mov	w19, #4
	cbnz	x15, .LBB63_70
	cmp	x1, x30
	mov	x24, x30
	b.ne	.LBB63_72
	cmp	x30, #1
	b.eq	.LBB63_95
	cmp	x30, #3
	b.hs	.LBB63_95
	mov	x15, xzr
	mov	w21, wzr
	mov	w19, #5
	b	.LBB63_70
.LBB63_68:
	cbz	x30, .LBB63_71
.LBB63_69:
	mov	w11, #65535
	mov	w21, wzr
	cmp	x1, x11
	mov	w11, #3
	csinc	w19, w11, wzr, ne
.LBB63_70:
	mov	x24, x30
	b	.LBB63_72
.LBB63_71:
	mov	x24, xzr
	mov	w19, wzr
	mov	w21, wzr
.LBB63_72:
	lsr	x20, x16, #32
	cmp	x8, x30
	b.eq	.LBB63_76
	mvn	x11, x24
	adds	x23, x8, x11
	add	x11, x22, x30
	b.eq	.LBB63_75
	stp	x0, x10, [sp, #32]
	mov	x0, x11
	mov	x2, x23
	stp	x3, x1, [sp, #64]
	mov	w1, wzr
	mov	x25, x17
	str	x16, [sp, #104]
	mov	x27, x5
	mov	x22, x6
	str	x18, [sp, #88]
	stp	x15, x4, [sp, #48]
	str	x11, [sp, #24]
	bl	memset
	ldp	x11, x0, [sp, #24]
	mov	x6, x22
	ldp	x15, x4, [sp, #48]
	mov	x5, x27
	ldp	x3, x1, [sp, #64]
	mov	x17, x25
	ldp	x18, x8, [sp, #88]
	ldr	x16, [sp, #104]
	ldr	x10, [sp, #40]
	ldr	w9, [sp, #80]
.LBB63_75:
	strb	wzr, [x11, x23]
.LBB63_76:
	cmp	w9, w16
	b.ne	.LBB63_84
	cbz	x0, .LBB63_87
	cmp	w10, w20
	b.ne	.LBB63_85
	mov	w23, wzr
	mov	w22, #4
	cbnz	x6, .LBB63_86
	mov	x25, x0
	cmp	x5, x0
	b.ne	.LBB63_88
	cmp	x0, #1
	b.eq	.LBB63_98
	cmp	x0, #3
	b.hs	.LBB63_98
	mov	x6, xzr
	mov	w23, wzr
	mov	w22, #5
	b	.LBB63_86
.LBB63_84:
	cbz	x0, .LBB63_87
.LBB63_85:
	mov	w9, #65535
	mov	w23, wzr
	cmp	x5, x9
	mov	w9, #3
	csinc	w22, w9, wzr, ne
.LBB63_86:
	mov	x25, x0
	b	.LBB63_88
.LBB63_87:
	mov	x25, xzr
	mov	w22, wzr
	mov	w23, wzr
.LBB63_88:
	cmp	x8, x0
	b.eq	.LBB63_92
	mvn	x9, x25
	adds	x27, x8, x9
	ldr	x8, [sp, #16]
	add	x8, x8, x0
	b.eq	.LBB63_91
	mov	x0, x8
	stp	x3, x1, [sp, #64]
	mov	w1, wzr
	mov	x2, x27
	stp	x8, x16, [sp, #96]
	stp	x17, x6, [sp, #32]
	stp	x5, x18, [sp, #80]
	stp	x15, x4, [sp, #48]
	bl	memset
	ldp	x18, x8, [sp, #88]
	ldr	x17, [sp, #32]
	ldp	x6, x15, [sp, #40]
	ldr	x16, [sp, #104]
	ldp	x1, x5, [sp, #72]
	ldp	x4, x3, [sp, #56]
.LBB63_91:
	strb	wzr, [x8, x27]
.LBB63_92:
	mov	w0, wzr
	mov	w8, wzr
	b	.LBB63_3
.LBB63_93:
	ldr	x27, [sp, #48]
	mov	x16, x17
.LBB63_94:
	ldp	x22, x23, [sp, #8]
	ldr	w10, [sp, #24]
	ldp	x8, x9, [sp, #96]
	ldr	x21, [sp, #32]
	ldr	x0, [sp, #88]
	ldr	x24, [sp, #64]
	tbz	w10, #0, .LBB63_38
	b	.LBB63_41
.LBB63_95:
	mov	x12, xzr
	mov	w21, wzr
.LBB63_96:
	ldrb	w13, [x22, x12]
	add	x12, x12, #1
	cmp	w13, #1
	cset	w14, eq
	cmp	w13, #2
	cset	w15, hi
	sub	w14, w14, w15
	cset	w15, eq
	cmp	w13, #0
	madd	w21, w14, w11, w21
	cinc	w11, w11, eq
	cmp	x30, x12
	sub	w11, w11, w15
	b.ne	.LBB63_96
	mov	x15, xzr
	mov	w19, #2
	b	.LBB63_70
.LBB63_98:
	ldr	x14, [sp, #16]
	mov	x10, xzr
	mov	w23, wzr
.LBB63_99:
	ldrb	w11, [x14, x10]
	add	x10, x10, #1
	cmp	w11, #1
	cset	w12, eq
	cmp	w11, #2
	cset	w13, hi
	sub	w12, w12, w13
	cset	w13, eq
	cmp	w11, #0
	madd	w23, w12, w9, w23
	cinc	w9, w9, eq
	cmp	x0, x10
	sub	w9, w9, w13
	b.ne	.LBB63_99
	mov	x6, xzr
	mov	w22, #2
	b	.LBB63_86
.Lfunc_end63:
	.size	undrwyth_walk_two, .Lfunc_end63-undrwyth_walk_two

	.ident	"rattle logic=dac8208d650f15bf3e2dc313a14fa4c783a3acf887bdfab66e1714b038d9e11b"
	.section	".note.GNU-stack","",@progbits
