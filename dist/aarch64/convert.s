/* Undrwyth, the program convert for aarch64 under Linux: made by scripts/dist from the sources of state 6ebe34014c5cbdcaab53ada40270abd81a24510c61112a54dce22a0a74dc2a61, which the Rattle kit proved; do not edit. SPDX-License-Identifier: MIT */
	.file	"rattle"
	.section	".text.line_convert::end_line","ax",@progbits
	.p2align	2
	.type	"line_convert::end_line",@function
"line_convert::end_line":
	stp	x29, x30, [sp, #-96]!
	stp	x28, x27, [sp, #16]
	mov	x29, sp
	stp	x26, x25, [sp, #32]
	stp	x24, x23, [sp, #48]
	stp	x22, x21, [sp, #64]
	stp	x20, x19, [sp, #80]
	sub	sp, sp, #2048
	mov	x19, x3
	cmp	x1, #1031
	str	xzr, [sp]
	b.hs	.LBB0_14
	cmp	x1, #2
	b.hs	.LBB0_3
	cbnz	x1, .LBB0_8
	b	.LBB0_13
.LBB0_3:
	ldrb	w8, [x0]
	cmp	w8, #48
	b.ne	.LBB0_8
	ldrb	w8, [x0, #1]
	cmp	w8, #49
	b.ne	.LBB0_8
	subs	x8, x1, #6
	b.lo	.LBB0_40
	cmp	x1, #8
	b.hs	.LBB0_24
	mov	x9, xzr
	mov	w10, #1
	b	.LBB0_33
.LBB0_8:
	cmp	x1, #8
	b.lo	.LBB0_10
	add	x8, x19, x2
	sub	x8, x8, x0
	cmp	x8, #32
	b.hs	.LBB0_15
.LBB0_10:
	mov	x8, xzr
.LBB0_11:
	add	x10, x8, x19
	sub	x9, x1, x8
	add	x8, x0, x8
	add	x10, x2, x10
.LBB0_12:
	ldrb	w11, [x8], #1
	subs	x9, x9, #1
	strb	w11, [x10], #1
	b.ne	.LBB0_12
.LBB0_13:
	add	x19, x19, x1
.LBB0_14:
	mov	x0, x19
	add	sp, sp, #2048
	ldp	x20, x19, [sp, #80]
	ldp	x22, x21, [sp, #64]
	ldp	x24, x23, [sp, #48]
	ldp	x26, x25, [sp, #32]
	ldp	x28, x27, [sp, #16]
	ldp	x29, x30, [sp], #96
	ret
.LBB0_15:
	cmp	x1, #32
	b.hs	.LBB0_17
	mov	x8, xzr
	b	.LBB0_21
.LBB0_17:
	add	x10, x19, x2
	and	x9, x1, #0x18
	and	x8, x1, #0x7e0
	add	x10, x10, #16
	add	x11, x0, #16
	and	x12, x1, #0x7e0
.LBB0_18:
	ldp	q0, q1, [x11, #-16]
	subs	x12, x12, #32
	add	x11, x11, #32
	stp	q0, q1, [x10, #-16]
	add	x10, x10, #32
	b.ne	.LBB0_18
	cmp	x1, x8
	b.eq	.LBB0_13
	cbz	x9, .LBB0_11
.LBB0_21:
	mov	x11, x8
	and	x8, x1, #0x7f8
	add	x10, x11, x19
	sub	x9, x11, x8
	add	x11, x0, x11
	add	x10, x2, x10
.LBB0_22:
	ldr	d0, [x11], #8
	adds	x9, x9, #8
	str	d0, [x10], #8
	b.ne	.LBB0_22
	cmp	x1, x8
	b.eq	.LBB0_13
	b	.LBB0_11
.LBB0_24:
	cmp	x1, #32
	b.hs	.LBB0_26
	mov	x9, xzr
	mov	w10, #1
	b	.LBB0_30
.LBB0_26:
	movi	v0.16b, #1
	movi	v1.16b, #1
	and	x11, x1, #0x18
	and	x9, x1, #0x7e0
	add	x10, x0, #16
	and	x12, x1, #0x7e0
.LBB0_27:
	movi	v2.16b, #208
	movi	v3.16b, #159
	subs	x12, x12, #32
	ldp	q4, q5, [x10, #-16]
	movi	v6.16b, #10
	movi	v7.16b, #6
	add	x10, x10, #32
	add	v16.16b, v4.16b, v2.16b
	add	v2.16b, v5.16b, v2.16b
	add	v4.16b, v4.16b, v3.16b
	add	v3.16b, v5.16b, v3.16b
	cmhi	v5.16b, v6.16b, v16.16b
	cmhi	v2.16b, v6.16b, v2.16b
	cmhi	v4.16b, v7.16b, v4.16b
	cmhi	v3.16b, v7.16b, v3.16b
	orr	v4.16b, v5.16b, v4.16b
	orr	v2.16b, v2.16b, v3.16b
	and	v0.16b, v0.16b, v4.16b
	and	v1.16b, v1.16b, v2.16b
	b.ne	.LBB0_27
	and	v0.16b, v1.16b, v0.16b
	cmp	x1, x9
	shl	v0.16b, v0.16b, #7
	cmlt	v0.16b, v0.16b, #0
	uminv	b0, v0.16b
	fmov	w10, s0
	b.eq	.LBB0_35
	cbz	x11, .LBB0_33
.LBB0_30:
	movi	v0.2d, #0xffffffffffffffff
	mov	x11, x9
	and	x9, x1, #0x7f8
	mov	v0.b[0], w10
	sub	x10, x11, x9
	add	x11, x0, x11
.LBB0_31:
	movi	v1.8b, #208
	movi	v2.8b, #159
	adds	x10, x10, #8
	ldr	d3, [x11], #8
	movi	v4.8b, #10
	movi	v5.8b, #6
	add	v1.8b, v3.8b, v1.8b
	add	v2.8b, v3.8b, v2.8b
	cmhi	v1.8b, v4.8b, v1.8b
	cmhi	v2.8b, v5.8b, v2.8b
	orr	v1.8b, v1.8b, v2.8b
	and	v0.8b, v0.8b, v1.8b
	b.ne	.LBB0_31
	shl	v0.8b, v0.8b, #7
	cmp	x1, x9
	cmlt	v0.8b, v0.8b, #0
	uminv	b0, v0.8b
	fmov	w10, s0
	b.eq	.LBB0_35
.LBB0_33:
	sub	x11, x1, x9
	add	x9, x0, x9
.LBB0_34:
	ldrb	w12, [x9], #1
	sub	w13, w12, #48
	sub	w12, w12, #97
	cmp	w13, #10
	ccmp	w12, #6, #0, hs
	cset	w12, lo
	subs	x11, x11, #1
	and	w10, w10, w12
	b.ne	.LBB0_34
.LBB0_35:
	tbz	w10, #0, .LBB0_40
	ldrb	w9, [x0, #2]
	ldrb	w10, [x0, #3]
	mov	w11, #-87
	mov	w12, #-48
	ldrb	w14, [x0, #4]
	ldrb	w15, [x0, #5]
	cmp	w9, #58
	csel	w13, w12, w11, lo
	cmp	w10, #58
	add	w9, w13, w9
	csel	w13, w12, w11, lo
	cmp	w14, #58
	add	w10, w13, w10
	ubfiz	x21, x9, #12, #8
	csel	w9, w12, w11, lo
	ubfiz	x22, x10, #8, #8
	cmp	w15, #58
	csel	w10, w12, w11, lo
	add	w11, w9, w14
	add	w9, w10, w15
	add	x10, x22, x21
	ubfiz	x23, x11, #4, #8
	bfxil	x10, x9, #0, #8
	add	x20, x10, x23
	cmp	x8, x20
	b.ne	.LBB0_40
	mov	x25, x0
	mov	x27, x1
	mov	x26, x2
	add	x0, sp, #1024
	mov	w1, wzr
	mov	w2, #1024
	and	x24, x9, #0xff
	bl	memset
	cbz	x20, .LBB0_54
	cmp	x20, #8
	b.hs	.LBB0_55
	mov	x9, xzr
	mov	x8, x25
	b	.LBB0_64
.LBB0_40:
	cmp	x1, #8
	b.lo	.LBB0_42
	add	x8, x19, x2
	sub	x8, x8, x0
	cmp	x8, #32
	b.hs	.LBB0_45
.LBB0_42:
	mov	x8, xzr
.LBB0_43:
	add	x10, x8, x19
	sub	x9, x1, x8
	add	x8, x0, x8
	add	x10, x2, x10
.LBB0_44:
	ldrb	w11, [x8], #1
	subs	x9, x9, #1
	strb	w11, [x10], #1
	b.ne	.LBB0_44
	b	.LBB0_13
.LBB0_45:
	cmp	x1, #32
	b.hs	.LBB0_47
	mov	x8, xzr
	b	.LBB0_51
.LBB0_47:
	add	x10, x19, x2
	and	x9, x1, #0x18
	and	x8, x1, #0x7e0
	add	x10, x10, #16
	add	x11, x0, #16
	and	x12, x1, #0x7e0
.LBB0_48:
	ldp	q0, q1, [x11, #-16]
	subs	x12, x12, #32
	add	x11, x11, #32
	stp	q0, q1, [x10, #-16]
	add	x10, x10, #32
	b.ne	.LBB0_48
	cmp	x1, x8
	b.eq	.LBB0_13
	cbz	x9, .LBB0_43
.LBB0_51:
	mov	x11, x8
	and	x8, x1, #0x7f8
	add	x10, x11, x19
	sub	x9, x11, x8
	add	x11, x0, x11
	add	x10, x2, x10
.LBB0_52:
	ldr	d0, [x11], #8
	adds	x9, x9, #8
	str	d0, [x10], #8
	b.ne	.LBB0_52
	cmp	x1, x8
	b.eq	.LBB0_13
	b	.LBB0_43
.LBB0_54:
	mov	x0, sp
	mov	w1, wzr
	mov	w2, #1024
	bl	memset
	mov	x8, x26
	b	.LBB0_85
.LBB0_55:
	cmp	x20, #32
	mov	x8, x25
	b.hs	.LBB0_57
	mov	x9, xzr
	b	.LBB0_61
.LBB0_57:
	add	x11, sp, #1024
	and	x10, x20, #0x18
	and	x9, x20, #0x3fffe0
	add	x11, x11, #16
	add	x12, x8, #22
	and	x13, x20, #0x3fffe0
.LBB0_58:
	movi	v0.16b, #58
	ldp	q1, q2, [x12, #-16]
	movi	v3.16b, #169
	movi	v4.16b, #208
	subs	x13, x13, #32
	add	x12, x12, #32
	cmhi	v5.16b, v0.16b, v1.16b
	cmhi	v0.16b, v0.16b, v2.16b
	bsl	v5.16b, v4.16b, v3.16b
	bsl	v0.16b, v4.16b, v3.16b
	add	v1.16b, v5.16b, v1.16b
	add	v0.16b, v0.16b, v2.16b
	stp	q1, q0, [x11, #-16]
	add	x11, x11, #32
	b.ne	.LBB0_58
	cmp	x20, x9
	b.eq	.LBB0_66
	cbz	x10, .LBB0_64
.LBB0_61:
	and	x10, x24, #0x7
	add	x12, sp, #1024
	add	x14, x9, x8
	add	x11, x9, x10
	sub	x11, x11, x24
	sub	x11, x11, x23
	sub	x13, x11, x22
	add	x11, x12, x9
	sub	x9, x20, x10
	sub	x12, x13, x21
	add	x13, x14, #6
.LBB0_62:
	movi	v0.8b, #58
	ldr	d1, [x13], #8
	movi	v2.8b, #169
	movi	v3.8b, #208
	adds	x12, x12, #8
	cmhi	v0.8b, v0.8b, v1.8b
	bsl	v0.8b, v3.8b, v2.8b
	add	v0.8b, v0.8b, v1.8b
	str	d0, [x11], #8
	b.ne	.LBB0_62
	cbz	x10, .LBB0_66
.LBB0_64:
	add	x10, x21, x22
	add	x11, sp, #1024
	add	x12, x9, x8
	add	x10, x10, x23
	add	x10, x10, x24
	sub	x8, x10, x9
	add	x9, x11, x9
	add	x10, x12, #6
.LBB0_65:
	ldrb	w11, [x10], #1
	mov	w12, #-87
	mov	w13, #-48
	cmp	w11, #58
	csel	w12, w13, w12, lo
	subs	x8, x8, #1
	add	w11, w12, w11
	strb	w11, [x9], #1
	b.ne	.LBB0_65
.LBB0_66:
	mov	x0, sp
	mov	w1, wzr
	mov	w2, #1024
	bl	memset
	cmp	x20, #4
	b.hs	.LBB0_68
	mov	w11, wzr
	mov	x10, xzr
	mov	x8, x26
	mov	x9, x27
	b	.LBB0_77
.LBB0_68:
	cmp	x20, #32
	mov	x8, x26
	mov	x9, x27
	b.hs	.LBB0_70
	mov	x10, xzr
	mov	w11, wzr
	b	.LBB0_74
.LBB0_70:
	movi	v0.2d, #0000000000000000
	movi	v1.2d, #0000000000000000
	add	x11, sp, #1024
	and	x12, x20, #0x1c
	and	x10, x20, #0x3fffe0
	add	x11, x11, #16
	and	x13, x20, #0x3fffe0
.LBB0_71:
	ldp	q2, q3, [x11, #-16]
	subs	x13, x13, #32
	add	x11, x11, #32
	umax	v0.16b, v2.16b, v0.16b
	umax	v1.16b, v3.16b, v1.16b
	b.ne	.LBB0_71
	umax	v0.16b, v0.16b, v1.16b
	cmp	x20, x10
	umaxv	b0, v0.16b
	fmov	w11, s0
	b.eq	.LBB0_79
	cbz	x12, .LBB0_77
.LBB0_74:
	and	x12, x24, #0x3
	dup	v0.4h, w11
	add	x13, x10, x12
	sub	x11, x13, x24
	sub	x11, x11, x23
	sub	x13, x11, x22
	add	x11, sp, #1024
	add	x11, x11, x10
	sub	x10, x20, x12
	sub	x13, x13, x21
.LBB0_75:
	ldr	s1, [x11], #4
	bic	v0.4h, #255, lsl #8
	adds	x13, x13, #4
	ushll	v1.8h, v1.8b, #0
	umax	v0.4h, v1.4h, v0.4h
	b.ne	.LBB0_75
	umaxv	h0, v0.4h
	fmov	w11, s0
	cbz	x12, .LBB0_79
.LBB0_77:
	add	x12, x21, x22
	add	x13, sp, #1024
	add	x12, x12, x23
	add	x12, x12, x24
	sub	x12, x12, x10
	add	x10, x13, x10
.LBB0_78:
	ldrb	w13, [x10], #1
	and	w11, w11, #0xff
	cmp	w13, w11
	csel	w11, w13, w11, hi
	subs	x12, x12, #1
	b.ne	.LBB0_78
.LBB0_79:
	and	w10, w11, #0xff
	cmp	w10, #4
	b.lo	.LBB0_83
	add	x10, sp, #1024
	mov	x11, x20
.LBB0_81:
	ldrb	w12, [x10], #1
	cmp	w12, #3
	b.hi	.LBB0_90
	subs	x11, x11, #1
	b.ne	.LBB0_81
.LBB0_83:
	mov	w9, wzr
	mov	x10, sp
	add	x11, sp, #1024
	mov	x12, x20
.LBB0_84:
	ldrb	w13, [x11], #1
	subs	x12, x12, #1
	add	w9, w13, w9
	and	w9, w9, #0x3
	strb	w9, [x10], #1
	b.ne	.LBB0_84
.LBB0_85:
	add	x9, x8, x19
	mov	w10, #12336
	and	w11, w20, #0xf
	mov	w12, #48
	strh	w10, [x9]
	ubfx	w10, w20, #4, #4
	bfxil	w12, w20, #0, #4
	add	w13, w11, #87
	cmp	w11, #10
	mov	w11, #48
	and	w14, w20, #0xff
	add	w10, w10, #87
	bfxil	w11, w20, #4, #4
	csel	w12, w12, w13, lo
	cmp	w14, #160
	lsr	w13, w20, #8
	strb	w12, [x9, #5]
	csel	w10, w11, w10, lo
	mov	w11, #48
	strb	w10, [x9, #4]
	orr	w10, w13, #0x30
	strb	w10, [x9, #3]
	strb	w11, [x9, #2]
	add	x9, x19, #6
	cbz	x20, .LBB0_105
	cmp	x20, #8
	b.hs	.LBB0_88
	mov	x10, xzr
	b	.LBB0_103
.LBB0_88:
	cmp	x20, #32
	b.hs	.LBB0_96
	mov	x10, xzr
	b	.LBB0_100
.LBB0_90:
	cmp	x9, #8
	b.lo	.LBB0_92
	add	x10, x19, x8
	sub	x10, x10, x25
	cmp	x10, #32
	b.hs	.LBB0_106
.LBB0_92:
	mov	x10, xzr
.LBB0_93:
	add	x12, x10, x19
	sub	x11, x9, x10
	add	x10, x25, x10
	add	x8, x8, x12
.LBB0_94:
	ldrb	w12, [x10], #1
	subs	x11, x11, #1
	strb	w12, [x8], #1
	b.ne	.LBB0_94
.LBB0_95:
	add	x19, x19, x9
	b	.LBB0_14
.LBB0_96:
	add	x12, x19, x8
	mov	x13, sp
	and	x11, x20, #0x18
	and	x10, x20, #0x3fffe0
	add	x12, x12, #22
	add	x13, x13, #16
	and	x14, x20, #0x3fffe0
.LBB0_97:
	movi	v0.16b, #10
	movi	v1.16b, #48
	subs	x14, x14, #32
	movi	v2.16b, #87
	ldp	q3, q4, [x13, #-16]
	add	x13, x13, #32
	cmhi	v5.16b, v0.16b, v3.16b
	orr	v6.16b, v3.16b, v1.16b
	cmhi	v0.16b, v0.16b, v4.16b
	add	v3.16b, v3.16b, v2.16b
	orr	v1.16b, v4.16b, v1.16b
	add	v2.16b, v4.16b, v2.16b
	bit	v3.16b, v6.16b, v5.16b
	bsl	v0.16b, v1.16b, v2.16b
	stp	q3, q0, [x12, #-16]
	add	x12, x12, #32
	b.ne	.LBB0_97
	cmp	x20, x10
	b.eq	.LBB0_105
	cbz	x11, .LBB0_103
.LBB0_100:
	and	x11, x24, #0x7
	add	x13, x10, x19
	mov	x14, sp
	add	x12, x10, x11
	add	x16, x13, x8
	sub	x12, x12, x24
	sub	x12, x12, x23
	sub	x15, x12, x22
	add	x12, x14, x10
	sub	x10, x20, x11
	sub	x13, x15, x21
	add	x14, x16, #6
.LBB0_101:
	movi	v0.8b, #10
	movi	v1.8b, #48
	adds	x13, x13, #8
	movi	v2.8b, #87
	ldr	d3, [x12], #8
	cmhi	v0.8b, v0.8b, v3.8b
	orr	v1.8b, v3.8b, v1.8b
	add	v2.8b, v3.8b, v2.8b
	bsl	v0.8b, v1.8b, v2.8b
	str	d0, [x14], #8
	b.ne	.LBB0_101
	cbz	x11, .LBB0_105
.LBB0_103:
	add	x11, x21, x22
	add	x12, x10, x19
	mov	x13, sp
	add	x11, x11, x23
	add	x12, x12, x8
	add	x11, x11, x24
	sub	x8, x11, x10
	add	x11, x12, #6
	add	x10, x13, x10
.LBB0_104:
	ldrb	w12, [x10], #1
	orr	w13, w12, #0x30
	add	w14, w12, #87
	cmp	w12, #10
	csel	w12, w13, w14, lo
	subs	x8, x8, #1
	strb	w12, [x11], #1
	b.ne	.LBB0_104
.LBB0_105:
	add	x19, x20, x9
	b	.LBB0_14
.LBB0_106:
	cmp	x9, #32
	b.hs	.LBB0_108
	mov	x10, xzr
	b	.LBB0_112
.LBB0_108:
	add	x12, x19, x8
	and	x11, x9, #0x18
	and	x10, x9, #0x7e0
	add	x12, x12, #16
	add	x13, x25, #16
	and	x14, x9, #0x7e0
.LBB0_109:
	ldp	q0, q1, [x13, #-16]
	subs	x14, x14, #32
	add	x13, x13, #32
	stp	q0, q1, [x12, #-16]
	add	x12, x12, #32
	b.ne	.LBB0_109
	cmp	x9, x10
	b.eq	.LBB0_95
	cbz	x11, .LBB0_93
.LBB0_112:
	mov	x13, x10
	and	x10, x9, #0x7f8
	add	x12, x13, x19
	sub	x11, x13, x10
	add	x13, x25, x13
	add	x12, x8, x12
.LBB0_113:
	ldr	d0, [x13], #8
	adds	x11, x11, #8
	str	d0, [x12], #8
	b.ne	.LBB0_113
	cmp	x9, x10
	b.eq	.LBB0_95
	b	.LBB0_93
.Lfunc_end0:
	.size	"line_convert::end_line", .Lfunc_end0-"line_convert::end_line"

	.section	.rodata.cst16,"aM",@progbits,16
	.p2align	4, 0x0
.LCPI1_0:
	.byte	0
	.byte	1
	.byte	2
	.byte	3
	.byte	4
	.byte	5
	.byte	6
	.byte	7
	.byte	8
	.byte	9
	.byte	10
	.byte	11
	.byte	12
	.byte	13
	.byte	14
	.byte	15
.LCPI1_1:
	.byte	16
	.byte	17
	.byte	18
	.byte	19
	.byte	20
	.byte	21
	.byte	22
	.byte	23
	.byte	24
	.byte	25
	.byte	26
	.byte	27
	.byte	28
	.byte	29
	.byte	30
	.byte	31
	.section	.rodata.cst8,"aM",@progbits,8
	.p2align	3, 0x0
.LCPI1_2:
	.byte	32
	.byte	33
	.byte	34
	.byte	35
	.byte	36
	.byte	37
	.byte	38
	.byte	39
	.section	".text.line_io::send::<#df9e9f1468b30f79>","ax",@progbits
	.p2align	2
	.type	"line_io::send::<#df9e9f1468b30f79>",@function
"line_io::send::<#df9e9f1468b30f79>":
	sub	sp, sp, #176
	stp	x24, x23, [sp, #128]
	mov	x23, x3
	mov	w24, #1
	stp	x22, x21, [sp, #144]
	mov	x22, x4
	mov	x21, x1
	stp	x20, x19, [sp, #160]
	mov	w20, w2
	mov	x19, x0
	stp	x29, x30, [sp, #96]
	add	x29, sp, #96
	str	x25, [sp, #112]
	b	.LBB1_2
.LBB1_1:
	adds	x24, x24, #1
	b.hs	.LBB1_8
.LBB1_2:
	cbz	x22, .LBB1_9
	mov	w0, #1
	mov	x1, x23
	mov	x2, x22
	bl	write
	tbnz	x0, #63, .LBB1_6
	cbz	x0, .LBB1_8
	cmp	x0, x22
	csel	x8, x0, x22, lo
	add	x23, x23, x8
	sub	x22, x22, x8
	b	.LBB1_1
.LBB1_6:
	mov	x0, sp
	mov	x25, sp
	bl	"std_io::io::error::last_error"
	adrp	x9, .LCPI1_0
	ldr	x8, [sp]
	adrp	x10, .LCPI1_1
	ldr	q0, [x9, :lo12:.LCPI1_0]
	adrp	x9, .LCPI1_2
	ldr	q1, [x10, :lo12:.LCPI1_1]
	ldr	d2, [x9, :lo12:.LCPI1_2]
	ubfx	w9, w8, #8, #8
	mov	w10, #40
	stp	q0, q1, [sp]
	cmp	w9, #41
	str	d2, [sp, #32]
	strb	w10, [sp, #40]
	b.hs	.LBB1_8
	ubfx	x8, x8, #8, #6
	ldrb	w8, [x25, x8]
	cmp	w8, #35
	b.eq	.LBB1_1
.LBB1_8:
	mov	x21, xzr
	mov	w20, wzr
	stur	wzr, [x29, #27]
	mov	w8, #1
	b	.LBB1_10
.LBB1_9:
	mov	w8, wzr
	stur	wzr, [x29, #27]
.LBB1_10:
	str	wzr, [x29, #24]
	ldp	x24, x23, [sp, #128]
	ldur	w9, [x29, #27]
	strb	w8, [x19]
	ldr	x25, [sp, #112]
	strb	w8, [x19, #1]
	str	x21, [x19, #8]
	ldp	x22, x21, [sp, #144]
	strb	w20, [x19, #16]
	ldp	x29, x30, [sp, #96]
	stur	wzr, [x19, #17]
	str	w9, [x19, #20]
	ldp	x20, x19, [sp, #160]
	add	sp, sp, #176
	ret
.Lfunc_end1:
	.size	"line_io::send::<#df9e9f1468b30f79>", .Lfunc_end1-"line_io::send::<#df9e9f1468b30f79>"

	.section	".text.std_io::io::error::last_error","ax",@progbits
	.p2align	2
	.type	"std_io::io::error::last_error",@function
"std_io::io::error::last_error":
	stp	x29, x30, [sp, #-32]!
	str	x19, [sp, #16]
	mov	x29, sp
	mov	x19, x0
	bl	rattle_errno
	tbnz	w0, #31, .LBB2_4
	sub	w8, w0, #1
	cmp	w8, #121
	b.hi	.LBB2_4
	adrp	x9, .LJTI2_0
	add	x9, x9, :lo12:.LJTI2_0
	adr	x10, .LBB2_3
	ldrb	w11, [x9, x8]
	add	x10, x10, x11, lsl #2
	mov	w8, #1
	br	x10
.LBB2_3:
	mov	w8, #36
	b	.LBB2_5
.LBB2_4:
	mov	w8, #41
.LBB2_5:
	movi	v0.2d, #0000000000000000
	strb	wzr, [x19]
	strb	w8, [x19, #1]
	strh	wzr, [x19, #2]
	str	w0, [x19, #4]
	stur	q0, [x19, #8]
	stur	q0, [x19, #24]
	stur	q0, [x19, #40]
	stur	q0, [x19, #56]
	stur	q0, [x19, #72]
	ldr	x19, [sp, #16]
	ldp	x29, x30, [sp], #32
	ret
.LBB2_6:
	mov	w8, #4
	b	.LBB2_5
.LBB2_7:
	mov	w8, #7
	b	.LBB2_5
.LBB2_8:
	mov	w8, #26
	b	.LBB2_5
.LBB2_9:
	mov	w8, #39
	b	.LBB2_5
.LBB2_10:
	mov	w8, #9
	b	.LBB2_5
.LBB2_11:
	mov	w8, #8
	b	.LBB2_5
.LBB2_12:
	mov	w8, #30
	b	.LBB2_5
.LBB2_13:
	mov	w8, #25
	b	.LBB2_5
.LBB2_14:
	mov	w8, #32
	b	.LBB2_5
.LBB2_15:
	mov	w8, #33
	b	.LBB2_5
.LBB2_16:
	mov	w8, #22
	b	.LBB2_5
.LBB2_17:
	mov	w8, #31
	b	.LBB2_5
.LBB2_18:
	mov	w8, #29
	b	.LBB2_5
.LBB2_19:
	mov	w8, #18
	b	.LBB2_5
.LBB2_20:
	mov	w8, #10
	b	.LBB2_5
.LBB2_21:
	mov	w8, #28
	b	.LBB2_5
.LBB2_22:
	mov	w8, #14
	b	.LBB2_5
.LBB2_23:
	mov	w8, #12
	b	.LBB2_5
.LBB2_24:
	mov	w8, #5
	b	.LBB2_5
.LBB2_25:
	mov	w8, #3
	b	.LBB2_5
.LBB2_26:
	mov	w8, wzr
	b	.LBB2_5
.LBB2_27:
	mov	w8, #13
	b	.LBB2_5
.LBB2_28:
	mov	w8, #38
	b	.LBB2_5
.LBB2_29:
	mov	w8, #11
	b	.LBB2_5
.LBB2_30:
	mov	w8, #35
	b	.LBB2_5
.LBB2_31:
	mov	w8, #34
	b	.LBB2_5
.LBB2_32:
	mov	w8, #20
	b	.LBB2_5
.LBB2_33:
	mov	w8, #15
	b	.LBB2_5
.LBB2_34:
	mov	w8, #19
	b	.LBB2_5
.LBB2_35:
	mov	w8, #16
	b	.LBB2_5
.LBB2_36:
	mov	w8, #6
	b	.LBB2_5
.LBB2_37:
	mov	w8, #27
	b	.LBB2_5
.LBB2_38:
	mov	w8, #24
	b	.LBB2_5
.LBB2_39:
	mov	w8, #2
	b	.LBB2_5
.LBB2_40:
	mov	w8, #17
	b	.LBB2_5
.Lfunc_end2:
	.size	"std_io::io::error::last_error", .Lfunc_end2-"std_io::io::error::last_error"
	.section	".rodata.std_io::io::error::last_error","a",@progbits
.LJTI2_0:
	.byte	(.LBB2_5-.LBB2_3)>>2
	.byte	(.LBB2_26-.LBB2_3)>>2
	.byte	(.LBB2_4-.LBB2_3)>>2
	.byte	(.LBB2_30-.LBB2_3)>>2
	.byte	(.LBB2_4-.LBB2_3)>>2
	.byte	(.LBB2_4-.LBB2_3)>>2
	.byte	(.LBB2_31-.LBB2_3)>>2
	.byte	(.LBB2_4-.LBB2_3)>>2
	.byte	(.LBB2_4-.LBB2_3)>>2
	.byte	(.LBB2_4-.LBB2_3)>>2
	.byte	(.LBB2_27-.LBB2_3)>>2
	.byte	(.LBB2_28-.LBB2_3)>>2
	.byte	(.LBB2_5-.LBB2_3)>>2
	.byte	(.LBB2_4-.LBB2_3)>>2
	.byte	(.LBB2_4-.LBB2_3)>>2
	.byte	(.LBB2_21-.LBB2_3)>>2
	.byte	(.LBB2_23-.LBB2_3)>>2
	.byte	(.LBB2_17-.LBB2_3)>>2
	.byte	(.LBB2_4-.LBB2_3)>>2
	.byte	(.LBB2_22-.LBB2_3)>>2
	.byte	(.LBB2_33-.LBB2_3)>>2
	.byte	(.LBB2_32-.LBB2_3)>>2
	.byte	(.LBB2_4-.LBB2_3)>>2
	.byte	(.LBB2_4-.LBB2_3)>>2
	.byte	(.LBB2_4-.LBB2_3)>>2
	.byte	(.LBB2_18-.LBB2_3)>>2
	.byte	(.LBB2_37-.LBB2_3)>>2
	.byte	(.LBB2_38-.LBB2_3)>>2
	.byte	(.LBB2_13-.LBB2_3)>>2
	.byte	(.LBB2_40-.LBB2_3)>>2
	.byte	(.LBB2_14-.LBB2_3)>>2
	.byte	(.LBB2_29-.LBB2_3)>>2
	.byte	(.LBB2_4-.LBB2_3)>>2
	.byte	(.LBB2_4-.LBB2_3)>>2
	.byte	(.LBB2_12-.LBB2_3)>>2
	.byte	(.LBB2_15-.LBB2_3)>>2
	.byte	(.LBB2_4-.LBB2_3)>>2
	.byte	(.LBB2_3-.LBB2_3)>>2
	.byte	(.LBB2_35-.LBB2_3)>>2
	.byte	(.LBB2_19-.LBB2_3)>>2
	.byte	(.LBB2_4-.LBB2_3)>>2
	.byte	(.LBB2_4-.LBB2_3)>>2
	.byte	(.LBB2_4-.LBB2_3)>>2
	.byte	(.LBB2_4-.LBB2_3)>>2
	.byte	(.LBB2_4-.LBB2_3)>>2
	.byte	(.LBB2_4-.LBB2_3)>>2
	.byte	(.LBB2_4-.LBB2_3)>>2
	.byte	(.LBB2_4-.LBB2_3)>>2
	.byte	(.LBB2_4-.LBB2_3)>>2
	.byte	(.LBB2_4-.LBB2_3)>>2
	.byte	(.LBB2_4-.LBB2_3)>>2
	.byte	(.LBB2_4-.LBB2_3)>>2
	.byte	(.LBB2_4-.LBB2_3)>>2
	.byte	(.LBB2_4-.LBB2_3)>>2
	.byte	(.LBB2_4-.LBB2_3)>>2
	.byte	(.LBB2_4-.LBB2_3)>>2
	.byte	(.LBB2_4-.LBB2_3)>>2
	.byte	(.LBB2_4-.LBB2_3)>>2
	.byte	(.LBB2_4-.LBB2_3)>>2
	.byte	(.LBB2_4-.LBB2_3)>>2
	.byte	(.LBB2_4-.LBB2_3)>>2
	.byte	(.LBB2_4-.LBB2_3)>>2
	.byte	(.LBB2_4-.LBB2_3)>>2
	.byte	(.LBB2_4-.LBB2_3)>>2
	.byte	(.LBB2_4-.LBB2_3)>>2
	.byte	(.LBB2_4-.LBB2_3)>>2
	.byte	(.LBB2_4-.LBB2_3)>>2
	.byte	(.LBB2_4-.LBB2_3)>>2
	.byte	(.LBB2_4-.LBB2_3)>>2
	.byte	(.LBB2_4-.LBB2_3)>>2
	.byte	(.LBB2_4-.LBB2_3)>>2
	.byte	(.LBB2_4-.LBB2_3)>>2
	.byte	(.LBB2_4-.LBB2_3)>>2
	.byte	(.LBB2_4-.LBB2_3)>>2
	.byte	(.LBB2_4-.LBB2_3)>>2
	.byte	(.LBB2_4-.LBB2_3)>>2
	.byte	(.LBB2_4-.LBB2_3)>>2
	.byte	(.LBB2_4-.LBB2_3)>>2
	.byte	(.LBB2_4-.LBB2_3)>>2
	.byte	(.LBB2_4-.LBB2_3)>>2
	.byte	(.LBB2_4-.LBB2_3)>>2
	.byte	(.LBB2_4-.LBB2_3)>>2
	.byte	(.LBB2_4-.LBB2_3)>>2
	.byte	(.LBB2_4-.LBB2_3)>>2
	.byte	(.LBB2_4-.LBB2_3)>>2
	.byte	(.LBB2_4-.LBB2_3)>>2
	.byte	(.LBB2_4-.LBB2_3)>>2
	.byte	(.LBB2_4-.LBB2_3)>>2
	.byte	(.LBB2_4-.LBB2_3)>>2
	.byte	(.LBB2_4-.LBB2_3)>>2
	.byte	(.LBB2_4-.LBB2_3)>>2
	.byte	(.LBB2_4-.LBB2_3)>>2
	.byte	(.LBB2_4-.LBB2_3)>>2
	.byte	(.LBB2_4-.LBB2_3)>>2
	.byte	(.LBB2_3-.LBB2_3)>>2
	.byte	(.LBB2_4-.LBB2_3)>>2
	.byte	(.LBB2_4-.LBB2_3)>>2
	.byte	(.LBB2_11-.LBB2_3)>>2
	.byte	(.LBB2_10-.LBB2_3)>>2
	.byte	(.LBB2_20-.LBB2_3)>>2
	.byte	(.LBB2_24-.LBB2_3)>>2
	.byte	(.LBB2_4-.LBB2_3)>>2
	.byte	(.LBB2_36-.LBB2_3)>>2
	.byte	(.LBB2_25-.LBB2_3)>>2
	.byte	(.LBB2_4-.LBB2_3)>>2
	.byte	(.LBB2_4-.LBB2_3)>>2
	.byte	(.LBB2_7-.LBB2_3)>>2
	.byte	(.LBB2_4-.LBB2_3)>>2
	.byte	(.LBB2_4-.LBB2_3)>>2
	.byte	(.LBB2_16-.LBB2_3)>>2
	.byte	(.LBB2_39-.LBB2_3)>>2
	.byte	(.LBB2_4-.LBB2_3)>>2
	.byte	(.LBB2_6-.LBB2_3)>>2
	.byte	(.LBB2_4-.LBB2_3)>>2
	.byte	(.LBB2_9-.LBB2_3)>>2
	.byte	(.LBB2_34-.LBB2_3)>>2
	.byte	(.LBB2_4-.LBB2_3)>>2
	.byte	(.LBB2_4-.LBB2_3)>>2
	.byte	(.LBB2_4-.LBB2_3)>>2
	.byte	(.LBB2_4-.LBB2_3)>>2
	.byte	(.LBB2_4-.LBB2_3)>>2
	.byte	(.LBB2_8-.LBB2_3)>>2

	.section	.rodata.cst16,"aM",@progbits,16
	.p2align	4, 0x0
.LCPI3_0:
	.byte	1
	.byte	2
	.byte	4
	.byte	8
	.byte	16
	.byte	32
	.byte	64
	.byte	128
	.byte	1
	.byte	2
	.byte	4
	.byte	8
	.byte	16
	.byte	32
	.byte	64
	.byte	128
	.section	.text.main,"ax",@progbits
	.globl	main
	.p2align	2
	.type	main,@function
main:
	stp	x29, x30, [sp, #-96]!
	sub	x9, sp, #48, lsl #12
	stp	x28, x27, [sp, #16]
	mov	x29, sp
	stp	x26, x25, [sp, #32]
	stp	x24, x23, [sp, #48]
	stp	x22, x21, [sp, #64]
	stp	x20, x19, [sp, #80]
.LBB3_1:
	sub	sp, sp, #3072
	cmp	sp, x9
	str	xzr, [sp]
	b.ne	.LBB3_1
	sub	sp, sp, #1136
	mov	w0, #13
	mov	w1, #1
	str	xzr, [sp]
	sub	x26, x29, #96
	mov	w20, #1
	bl	__sysv_signal
	add	x0, sp, #48, lsl #12
	mov	w1, wzr
	mov	w2, #1031
	add	x0, x0, #9
	bl	memset
	add	x0, sp, #32, lsl #12
	mov	w1, wzr
	mov	w2, #65536
	add	x0, x0, #9
	bl	memset
	add	x0, sp, #9
	mov	w1, wzr
	mov	w2, #131072
	bl	memset
	mov	x27, xzr
	mov	x28, xzr
	mov	x22, xzr
	mov	x19, xzr
	mov	x21, xzr
	b	.LBB3_5
.LBB3_3:
	ldr	x1, [sp]
	sub	x0, x29, #96
	add	x3, sp, #9
	mov	w2, w20
	mov	x4, x22
	bl	"line_io::send::<#df9e9f1468b30f79>"
	ldrb	w8, [x26]
	cbnz	w8, .LBB3_40
	ldr	x22, [x26, #8]
	ldrb	w20, [x26, #16]
	add	x27, x27, #1
	cmn	x27, #1
	b.eq	.LBB3_34
.LBB3_5:
	cmp	x19, x28
	b.hs	.LBB3_31
	str	x22, [sp]
	mov	x22, xzr
	stp	xzr, xzr, [x26]
	str	xzr, [x26, #16]
	b	.LBB3_8
.LBB3_7:
	mov	w8, #1031
	mov	x1, x24
	sub	x8, x8, x21
	cmp	x8, x23
	csel	x25, x8, x23, lo
	add	x8, sp, #48, lsl #12
	add	x8, x8, #9
	mov	x2, x25
	add	x0, x8, x21
	bl	memcpy
	add	x21, x25, x21
	add	x19, x23, x19
	cmp	x19, x28
	b.hs	.LBB3_3
.LBB3_8:
	mov	x8, #-63475
	mov	w9, #2062
	add	x8, x22, x8
	movk	w9, #1, lsl #16
	cmp	x8, x9
	b.lo	.LBB3_3
	add	x8, sp, #32, lsl #12
	sub	x25, x28, x19
	mov	x23, xzr
	add	x8, x8, #9
	cmp	x25, #32
	add	x24, x8, x19
	b.lo	.LBB3_14
	sub	x8, x28, x19
.LBB3_11:
	movi	v0.16b, #10
	add	x9, x24, x23
	ldp	q1, q2, [x9]
	adrp	x9, .LCPI3_0
	cmeq	v2.16b, v2.16b, v0.16b
	cmeq	v0.16b, v1.16b, v0.16b
	ldr	q1, [x9, :lo12:.LCPI3_0]
	and	v2.16b, v2.16b, v1.16b
	and	v0.16b, v0.16b, v1.16b
	ext	v1.16b, v2.16b, v2.16b, #8
	ext	v3.16b, v0.16b, v0.16b, #8
	zip1	v1.16b, v2.16b, v1.16b
	zip1	v0.16b, v0.16b, v3.16b
	addv	h1, v1.8h
	addv	h0, v0.8h
	fmov	w9, s1
	fmov	w10, s0
	orr	w9, w10, w9
	tst	w9, #0xffff
	b.ne	.LBB3_14
	sub	x8, x8, #32
	add	x23, x23, #32
	cmp	x8, #31
	b.hi	.LBB3_11
	and	x23, x25, #0xffffffffffffffe0
.LBB3_14:
	cmp	x23, x25
	b.hs	.LBB3_17
.LBB3_15:
	ldrb	w8, [x24, x23]
	cmp	w8, #10
	b.eq	.LBB3_18
	add	x23, x23, #1
	cmp	x25, x23
	b.ne	.LBB3_15
.LBB3_17:
	sub	x23, x28, x19
.LBB3_18:
	cmp	x21, #1031
	b.lo	.LBB3_22
	cbz	x23, .LBB3_21
.LBB3_20:
	add	x8, sp, #9
	mov	x1, x24
	mov	x2, x23
	add	x0, x8, x22
	bl	memcpy
.LBB3_21:
	add	x22, x23, x22
	b	.LBB3_23
.LBB3_22:
	add	x8, x23, x21
	cmp	x8, #1031
	b.hs	.LBB3_26
.LBB3_23:
	cmp	x25, x23
	b.ls	.LBB3_7
	cbz	x21, .LBB3_29
	mov	w8, #1031
	mov	x1, x24
	sub	x8, x8, x21
	cmp	x8, x23
	csel	x25, x8, x23, lo
	add	x8, sp, #48, lsl #12
	add	x8, x8, #9
	mov	x2, x25
	add	x0, x8, x21
	bl	memcpy
	add	x0, sp, #48, lsl #12
	add	x1, x25, x21
	add	x2, sp, #9
	add	x0, x0, #9
	b	.LBB3_30
.LBB3_26:
	cbz	x21, .LBB3_28
	add	x8, sp, #9
	add	x1, sp, #48, lsl #12
	mov	x2, x21
	add	x0, x8, x22
	add	x1, x1, #9
	bl	memcpy
.LBB3_28:
	add	x22, x21, x22
	cbnz	x23, .LBB3_20
	b	.LBB3_21
.LBB3_29:
	cmp	x23, #1031
	mov	w8, #1031
	add	x2, sp, #9
	csel	x1, x23, x8, lo
	mov	x0, x24
.LBB3_30:
	mov	x3, x22
	add	x21, sp, #9
	bl	"line_convert::end_line"
	mov	w8, #10
	strb	w8, [x21, x0]
	mov	x21, xzr
	add	x8, x19, x23
	add	x22, x0, #1
	add	x19, x8, #1
	cmp	x19, x28
	b.lo	.LBB3_8
	b	.LBB3_3
.LBB3_31:
	add	x1, sp, #32, lsl #12
	mov	w0, wzr
	mov	w2, #65536
	add	x1, x1, #9
	bl	read
	tbnz	x0, #63, .LBB3_35
	cbz	x0, .LBB3_36
	cmp	x0, #16, lsl #12
	mov	w8, #65536
	mov	x19, xzr
	csel	x28, x0, x8, lo
	add	x27, x27, #1
	cmn	x27, #1
	b.ne	.LBB3_5
.LBB3_34:
	mov	w0, #1
	b	.LBB3_41
.LBB3_35:
	sub	x0, x29, #96
	bl	"std_io::io::error::last_error"
	mov	w0, #1
	b	.LBB3_41
.LBB3_36:
	stp	xzr, xzr, [x26]
	str	xzr, [x26, #16]
	cbz	x21, .LBB3_38
	add	x0, sp, #48, lsl #12
	add	x2, sp, #9
	mov	x1, x21
	add	x0, x0, #9
	mov	x3, xzr
	bl	"line_convert::end_line"
	mov	x4, x0
	b	.LBB3_39
.LBB3_38:
	mov	x4, xzr
.LBB3_39:
	sub	x0, x29, #96
	add	x3, sp, #9
	mov	x1, x22
	mov	w2, w20
	bl	"line_io::send::<#df9e9f1468b30f79>"
	ldrb	w8, [x26]
	cbz	w8, .LBB3_42
.LBB3_40:
	ldrb	w8, [x26, #1]
	tst	w8, #0xff
	mov	w8, #1
	cinc	w0, w8, ne
.LBB3_41:
	add	sp, sp, #48, lsl #12
	add	sp, sp, #1136
	ldp	x20, x19, [sp, #80]
	ldp	x22, x21, [sp, #64]
	ldp	x24, x23, [sp, #48]
	ldp	x26, x25, [sp, #32]
	ldp	x28, x27, [sp, #16]
	ldp	x29, x30, [sp], #96
	ret
.LBB3_42:
	mov	w0, wzr
	b	.LBB3_41
.Lfunc_end3:
	.size	main, .Lfunc_end3-main

	.ident	"rattle logic=dac8208d650f15bf3e2dc313a14fa4c783a3acf887bdfab66e1714b038d9e11b"
	.section	".note.GNU-stack","",@progbits
