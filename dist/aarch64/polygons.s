/* Undrwyth, the program polygons for aarch64 under Linux: made by scripts/dist from the sources of state 6ebe34014c5cbdcaab53ada40270abd81a24510c61112a54dce22a0a74dc2a61, which the Rattle kit proved; do not edit. SPDX-License-Identifier: MIT */
	.file	"rattle"
	.section	.rodata.cst8,"aM",@progbits,8
	.p2align	3, 0x0
.LCPI0_0:
	.byte	48
	.byte	44
	.byte	48
	.byte	44
	.zero	1
	.zero	1
	.zero	1
	.zero	1
.LCPI0_5:
	.byte	1
	.byte	3
	.byte	0
	.byte	0
	.byte	0
	.byte	1
	.byte	0
	.byte	0
	.section	.rodata.cst16,"aM",@progbits,16
	.p2align	4, 0x0
.LCPI0_1:
	.xword	1
	.xword	0
.LCPI0_2:
	.xword	-1
	.xword	0
.LCPI0_3:
	.xword	0
	.xword	1
.LCPI0_4:
	.xword	0
	.xword	-1
	.section	".text.lines::tell","ax",@progbits
	.p2align	2
	.type	"lines::tell",@function
"lines::tell":
	stp	x29, x30, [sp, #-96]!
	sub	x9, sp, #8, lsl #12
	stp	x28, x27, [sp, #16]
	mov	x29, sp
	sub	x9, x9, #1024
	stp	x26, x25, [sp, #32]
	stp	x24, x23, [sp, #48]
	stp	x22, x21, [sp, #64]
	stp	x20, x19, [sp, #80]
.LBB0_1:
	sub	sp, sp, #3072
	cmp	sp, x9
	str	xzr, [sp]
	b.ne	.LBB0_1
	sub	sp, sp, #96
	mov	x22, x2
	mov	x24, x1
	mov	x23, x0
	sub	x20, x1, #1031
	add	x0, sp, #16
	mov	w1, wzr
	mov	w2, #1024
	mov	x21, x4
	mov	x19, x3
	bl	memset
	cmn	x20, #1025
	b.lo	.LBB0_21
	cmp	x24, #8
	b.hs	.LBB0_5
	mov	x8, xzr
	mov	w9, #1
	b	.LBB0_14
.LBB0_5:
	cmp	x24, #32
	b.hs	.LBB0_7
	mov	x8, xzr
	mov	w9, #1
	b	.LBB0_11
.LBB0_7:
	movi	v0.16b, #1
	movi	v1.16b, #1
	and	x10, x24, #0x18
	and	x8, x24, #0x7e0
	add	x9, x23, #16
	and	x11, x24, #0x7e0
.LBB0_8:
	movi	v2.16b, #208
	movi	v3.16b, #159
	subs	x11, x11, #32
	ldp	q4, q5, [x9, #-16]
	movi	v6.16b, #10
	movi	v7.16b, #6
	add	x9, x9, #32
	add	v16.16b, v4.16b, v2.16b
	add	v2.16b, v5.16b, v2.16b
	add	v4.16b, v4.16b, v3.16b
	add	v3.16b, v5.16b, v3.16b
	cmhi	v5.16b, v6.16b, v16.16b
	cmhi	v2.16b, v6.16b, v2.16b
	cmhi	v4.16b, v7.16b, v4.16b
	cmhi	v3.16b, v7.16b, v3.16b
	orr	v4.16b, v5.16b, v4.16b
	orr	v2.16b, v2.16b, v3.16b
	and	v0.16b, v0.16b, v4.16b
	and	v1.16b, v1.16b, v2.16b
	b.ne	.LBB0_8
	and	v0.16b, v1.16b, v0.16b
	cmp	x24, x8
	shl	v0.16b, v0.16b, #7
	cmlt	v0.16b, v0.16b, #0
	uminv	b0, v0.16b
	fmov	w9, s0
	b.eq	.LBB0_16
	cbz	x10, .LBB0_14
.LBB0_11:
	movi	v0.2d, #0xffffffffffffffff
	mov	x10, x8
	and	x8, x24, #0x7f8
	mov	v0.b[0], w9
	sub	x9, x10, x8
	add	x10, x23, x10
.LBB0_12:
	movi	v1.8b, #208
	movi	v2.8b, #159
	adds	x9, x9, #8
	ldr	d3, [x10], #8
	movi	v4.8b, #10
	movi	v5.8b, #6
	add	v1.8b, v3.8b, v1.8b
	add	v2.8b, v3.8b, v2.8b
	cmhi	v1.8b, v4.8b, v1.8b
	cmhi	v2.8b, v5.8b, v2.8b
	orr	v1.8b, v1.8b, v2.8b
	and	v0.8b, v0.8b, v1.8b
	b.ne	.LBB0_12
	shl	v0.8b, v0.8b, #7
	cmp	x24, x8
	cmlt	v0.8b, v0.8b, #0
	uminv	b0, v0.8b
	fmov	w9, s0
	b.eq	.LBB0_16
.LBB0_14:
	sub	x10, x24, x8
	add	x8, x23, x8
.LBB0_15:
	ldrb	w11, [x8], #1
	sub	w12, w11, #48
	sub	w11, w11, #97
	cmp	w12, #10
	ccmp	w11, #6, #0, hs
	cset	w11, lo
	subs	x10, x10, #1
	and	w9, w9, w11
	b.ne	.LBB0_15
.LBB0_16:
	tbz	w9, #0, .LBB0_21
	ldrb	w9, [x23]
	mov	w8, #-87
	mov	w10, #-48
	ldrb	w12, [x23, #1]
	cmp	w9, #58
	csel	w11, w10, w8, lo
	cmp	w12, #58
	add	w9, w11, w9
	and	x9, x9, #0xff
	lsl	x11, x9, #4
	csel	w9, w10, w8, lo
	add	w9, w9, w12
	add	x11, x11, w9, uxtb
	cmp	x11, #1
	b.hi	.LBB0_21
	ldrb	w11, [x23, #2]
	ldrb	w12, [x23, #3]
	ldrb	w14, [x23, #4]
	ldrb	w15, [x23, #5]
	cmp	w11, #58
	csel	w13, w10, w8, lo
	cmp	w12, #58
	add	w11, w13, w11
	csel	w13, w10, w8, lo
	cmp	w14, #58
	add	w12, w13, w12
	ubfiz	x20, x11, #12, #8
	csel	w11, w10, w8, lo
	ubfiz	x25, x12, #8, #8
	cmp	w15, #58
	csel	w8, w10, w8, lo
	add	w10, w11, w14
	add	w27, w8, w15
	add	x8, x25, x20
	ubfiz	x26, x10, #4, #8
	bfxil	x8, x27, #0, #8
	add	x28, x8, x26
	sub	x8, x24, #6
	cmp	x8, x28
	b.ne	.LBB0_21
	tst	w9, #0xff
	b.eq	.LBB0_24
	mov	x27, xzr
	mov	w3, #19
	b	.LBB0_22
.LBB0_21:
	mov	x27, xzr
	mov	w3, #9
.LBB0_22:
	mov	x0, x19
	mov	x1, x21
	mov	w2, #20
	bl	"sheet_cells::spell_decimal"
	mov	w8, #44
	strb	w8, [x19, x0]
	add	x1, x0, #1
	mov	x0, x19
	mov	w2, #20
	mov	x3, x27
	bl	"sheet_cells::spell_decimal"
	mov	x8, #868082074056920076
	add	x20, x0, #8
	orr	x8, x8, #0x2020202020202020
	str	x8, [x19, x0]
.LBB0_23:
	add	x0, x20, #1
	mov	w8, #10
	strb	w8, [x19, x20]
	add	sp, sp, #8, lsl #12
	add	sp, sp, #1120
	ldp	x20, x19, [sp, #80]
	ldp	x22, x21, [sp, #64]
	ldp	x24, x23, [sp, #48]
	ldp	x26, x25, [sp, #32]
	ldp	x28, x27, [sp, #16]
	ldp	x29, x30, [sp], #96
	ret
.LBB0_24:
	add	x0, sp, #1040
	mov	w1, wzr
	mov	w2, #1024
	bl	memset
	cbz	x28, .LBB0_60
	cmp	x28, #8
	and	x8, x27, #0xff
	b.hs	.LBB0_27
	mov	x9, xzr
	b	.LBB0_36
.LBB0_27:
	cmp	x28, #32
	b.hs	.LBB0_29
	mov	x9, xzr
	b	.LBB0_33
.LBB0_29:
	add	x11, sp, #1040
	and	x10, x28, #0x18
	and	x9, x28, #0x3fffe0
	add	x11, x11, #16
	add	x12, x23, #22
	and	x13, x28, #0x3fffe0
.LBB0_30:
	movi	v0.16b, #58
	ldp	q1, q2, [x12, #-16]
	movi	v3.16b, #169
	movi	v4.16b, #208
	subs	x13, x13, #32
	add	x12, x12, #32
	cmhi	v5.16b, v0.16b, v1.16b
	cmhi	v0.16b, v0.16b, v2.16b
	bsl	v5.16b, v4.16b, v3.16b
	bsl	v0.16b, v4.16b, v3.16b
	add	v1.16b, v5.16b, v1.16b
	add	v0.16b, v0.16b, v2.16b
	stp	q1, q0, [x11, #-16]
	add	x11, x11, #32
	b.ne	.LBB0_30
	cmp	x28, x9
	b.eq	.LBB0_38
	cbz	x10, .LBB0_36
.LBB0_33:
	and	x10, x8, #0x7
	add	x12, sp, #1040
	add	x14, x9, x23
	add	x11, x9, x10
	sub	x11, x11, x8
	sub	x11, x11, x26
	sub	x13, x11, x25
	add	x11, x12, x9
	sub	x9, x28, x10
	sub	x12, x13, x20
	add	x13, x14, #6
.LBB0_34:
	movi	v0.8b, #58
	ldr	d1, [x13], #8
	movi	v2.8b, #169
	movi	v3.8b, #208
	adds	x12, x12, #8
	cmhi	v0.8b, v0.8b, v1.8b
	bsl	v0.8b, v3.8b, v2.8b
	add	v0.8b, v0.8b, v1.8b
	str	d0, [x11], #8
	b.ne	.LBB0_34
	cbz	x10, .LBB0_38
.LBB0_36:
	add	x10, x20, x25
	add	x11, sp, #1040
	add	x12, x9, x23
	add	x10, x10, x26
	add	x10, x10, x8
	sub	x10, x10, x9
	add	x9, x11, x9
	add	x11, x12, #6
.LBB0_37:
	ldrb	w12, [x11], #1
	mov	w13, #-87
	mov	w14, #-48
	cmp	w12, #58
	csel	w13, w14, w13, lo
	subs	x10, x10, #1
	add	w12, w13, w12
	strb	w12, [x9], #1
	b.ne	.LBB0_37
.LBB0_38:
	cmp	x28, #4
	b.hs	.LBB0_40
	mov	w10, wzr
	mov	x9, xzr
	b	.LBB0_49
.LBB0_40:
	cmp	x28, #32
	b.hs	.LBB0_42
	mov	x9, xzr
	mov	w10, wzr
	b	.LBB0_46
.LBB0_42:
	movi	v0.2d, #0000000000000000
	movi	v1.2d, #0000000000000000
	add	x10, sp, #1040
	and	x11, x28, #0x1c
	and	x9, x28, #0x3fffe0
	add	x10, x10, #16
	and	x12, x28, #0x3fffe0
.LBB0_43:
	ldp	q2, q3, [x10, #-16]
	subs	x12, x12, #32
	add	x10, x10, #32
	umax	v0.16b, v2.16b, v0.16b
	umax	v1.16b, v3.16b, v1.16b
	b.ne	.LBB0_43
	umax	v0.16b, v0.16b, v1.16b
	cmp	x28, x9
	umaxv	b0, v0.16b
	fmov	w10, s0
	b.eq	.LBB0_51
	cbz	x11, .LBB0_49
.LBB0_46:
	and	x11, x8, #0x3
	dup	v0.4h, w10
	add	x12, x9, x11
	sub	x10, x12, x8
	sub	x10, x10, x26
	sub	x12, x10, x25
	add	x10, sp, #1040
	add	x10, x10, x9
	sub	x9, x28, x11
	sub	x12, x12, x20
.LBB0_47:
	ldr	s1, [x10], #4
	bic	v0.4h, #255, lsl #8
	adds	x12, x12, #4
	ushll	v1.8h, v1.8b, #0
	umax	v0.4h, v1.4h, v0.4h
	b.ne	.LBB0_47
	umaxv	h0, v0.4h
	fmov	w10, s0
	cbz	x11, .LBB0_51
.LBB0_49:
	add	x11, x20, x25
	add	x11, x11, x26
	add	x8, x11, x8
	add	x11, sp, #1040
	sub	x8, x8, x9
	add	x9, x11, x9
.LBB0_50:
	ldrb	w11, [x9], #1
	and	w10, w10, #0xff
	cmp	w11, w10
	csel	w10, w11, w10, hi
	subs	x8, x8, #1
	b.ne	.LBB0_50
.LBB0_51:
	and	w8, w10, #0xff
	cmp	w8, #4
	b.lo	.LBB0_60
	mov	x8, xzr
	mov	x27, xzr
	b	.LBB0_54
.LBB0_53:
	mov	w9, #1
	add	x27, x27, #1
	add	x8, x9, x8
	cmp	x28, x27
	b.eq	.LBB0_60
.LBB0_54:
	add	x9, sp, #1040
	ldrb	w9, [x9, x27]
	cmp	w9, #4
	b.ne	.LBB0_57
	cbz	x8, .LBB0_152
	mov	x9, #-1
	add	x27, x27, #1
	add	x8, x9, x8
	cmp	x28, x27
	b.ne	.LBB0_54
	b	.LBB0_60
.LBB0_57:
	cmp	w9, #3
	b.hi	.LBB0_151
	lsr	x9, x8, #14
	cbz	x9, .LBB0_53
	mov	w3, #6
	b	.LBB0_22
.LBB0_60:
	ldr	w8, [x22, #72]
	add	w9, w8, #1
	str	w9, [x22, #72]
	cbnz	w8, .LBB0_62
	mov	w8, #1
	str	w8, [x22, #80]
.LBB0_62:
	cbz	x28, .LBB0_128
	mov	w8, #32000
	mov	x27, xzr
	mov	x23, xzr
	add	x8, x22, x8
	mov	x24, xzr
	mov	x10, xzr
	str	x8, [sp]
	mov	w8, #1
	mov	w20, #65535
	mov	w26, #65535
	mov	w25, #1
	str	x8, [sp, #8]
	b	.LBB0_66
.LBB0_64:
	cmp	x20, x23
	mov	w10, #65535
	sub	x23, x23, #1
	csel	x14, x10, x20, eq
	csel	x10, x10, x26, eq
	cmp	w15, #1
	cset	w15, eq
	csel	x20, x20, x14, eq
	csel	x26, x26, x10, eq
	cmp	x11, #0
	cset	w10, eq
	cmp	x11, #2
	cinc	w14, w24, eq
	cmp	x11, #1
	cset	w16, eq
	cmp	x11, #3
	sub	w10, w14, w10
	cinc	w9, w9, eq
	sub	w9, w9, w16
	orr	x24, x10, x9, lsl #32
	ldr	x9, [sp, #8]
	sub	x9, x9, x15
	str	x9, [sp, #8]
.LBB0_65:
	mov	w9, #12
	ldr	x10, [sp]
	madd	x9, x27, x9, x10
	add	x10, x22, x13
	add	x27, x27, #1
	cmp	x27, x28
	str	w25, [x9]
	ldr	w10, [x10, #72]
	stp	w10, w12, [x9, #4]
	mov	x10, x8
	b.eq	.LBB0_130
.LBB0_66:
	add	x8, sp, #1040
	lsr	x9, x24, #32
	ldrb	w11, [x8, x27]
	add	x8, sp, #16
	cmp	w11, #4
	b.ne	.LBB0_71
	add	x8, x8, x23
	mov	w13, #100
	ldurb	w14, [x8, #-1]
	mov	w8, #25
	and	x11, x14, #0x3
	eor	x16, x11, #0x2
	madd	x8, x10, x8, x16
	add	x12, x22, x8, lsl #2
	ldr	w15, [x12, #40]
	sub	x8, x15, #1
	mul	x13, x8, x13
	ldr	w2, [x22, x13]
	cbz	w2, .LBB0_83
	add	x15, x14, #10
	mov	w17, #2
	mov	x18, x8
	mov	x1, x10
.LBB0_69:
	mov	w0, #25
	madd	x0, x2, x0, x14
	add	x0, x22, x0, lsl #2
	ldur	w0, [x0, #-44]
	cmp	w0, w23
	b.ne	.LBB0_91
	sub	x0, x2, #1
	mov	w2, #25
	mov	w3, #100
	madd	x2, x0, x2, x15
	cmp	x0, x1
	cinc	w17, w17, ne
	mul	x4, x0, x3
	ldr	w2, [x22, x2, lsl #2]
	sub	x3, x2, #1
	ldr	w2, [x22, x4]
	cmp	x3, x18
	mov	x18, x0
	mov	x1, x3
	cinc	w17, w17, ne
	cbnz	w2, .LBB0_69
	b	.LBB0_92
.LBB0_71:
	mov	w12, #25
	strb	w11, [x8, x23]
	add	x23, x23, #1
	mul	x14, x10, x12
	add	x12, x11, #10
	add	x13, x12, x14
	ldr	w13, [x22, x13, lsl #2]
	cbz	w13, .LBB0_85
	sub	x8, x13, #1
.LBB0_73:
	mov	w10, #100
	mul	x13, x8, x10
	add	x16, x22, x13
	ldr	w10, [x16, #72]
	add	w15, w10, #1
	str	w15, [x16, #72]
	cbnz	w10, .LBB0_75
	add	w10, w23, #1
	str	w10, [x16, #80]
.LBB0_75:
	and	x10, x11, #0x3
	mov	w15, #25
	add	x14, x14, x11
	eor	x10, x10, #0x2
	add	x14, x22, x14, lsl #2
	cmp	w11, #0
	madd	x10, x8, x15, x10
	add	x18, x8, #1
	ldr	w15, [x14, #84]
	add	w15, w15, #1
	str	w15, [x14, #84]
	add	x17, x22, x10, lsl #2
	cinc	x10, x24, eq
	cmp	w11, #2
	cset	w14, hi
	str	w15, [x17, #84]
	cset	w15, eq
	cmp	w11, #1
	ldr	w0, [x16, #72]
	cinc	x9, x9, eq
	cmp	x18, x25
	csinc	x25, x25, x8, ls
	cmp	w0, #1
	b.ne	.LBB0_77
	ldr	x16, [sp, #8]
	add	x16, x16, #1
	str	x16, [sp, #8]
	b	.LBB0_79
.LBB0_77:
	mov	w18, #65535
	cmp	x20, x18
	b.ne	.LBB0_79
	ldr	w16, [x16, #80]
	mov	x20, x23
	sub	x26, x16, #1
.LBB0_79:
	ldr	w18, [x17, #40]
	mov	w16, #100
	sub	x17, x18, #1
	mul	x16, x17, x16
	ldr	w1, [x22, x16]
	cbz	w1, .LBB0_89
	mov	w16, #2
	mov	x0, x8
.LBB0_81:
	mov	w18, #25
	madd	x18, x1, x18, x11
	add	x18, x22, x18, lsl #2
	ldur	w18, [x18, #-44]
	cmp	w18, w23
	b.ne	.LBB0_102
	sub	x18, x1, #1
	mov	w1, #25
	mov	w2, #100
	madd	x1, x18, x1, x12
	cmp	x18, x0
	cinc	w16, w16, ne
	mul	x3, x18, x2
	ldr	w1, [x22, x1, lsl #2]
	sub	x2, x1, #1
	ldr	w1, [x22, x3]
	cmp	x2, x17
	mov	x17, x18
	mov	x0, x2
	cinc	w16, w16, ne
	cbnz	w1, .LBB0_81
	b	.LBB0_103
.LBB0_83:
	mov	w17, #2
	mov	w18, #100
	madd	x18, x10, x18, x22
	ldr	w0, [x18, #76]
	cmp	w0, w23
	b.eq	.LBB0_93
.LBB0_84:
	mov	w0, wzr
	b	.LBB0_94
.LBB0_85:
	cmp	w11, #0
	mov	x13, xzr
	mov	w18, w9
	cset	w8, eq
	cmp	w11, #2
	mov	w0, w24
	cset	w15, eq
	cset	w16, hi
	cmp	w11, #1
	sub	w15, w8, w15
	cset	w8, eq
	sub	w16, w8, w16
.LBB0_86:
	add	w8, w0, w15
	add	w17, w18, w18, lsr #31
	add	w1, w18, w16
	add	w2, w0, w0, lsr #31
	add	w8, w8, w8, lsr #31
	add	w3, w1, w1, lsr #31
	asr	w17, w17, #1
	asr	w1, w2, #1
	asr	w8, w8, #1
	cmp	w17, w3, asr #1
	ccmp	w1, w8, #0, eq
	b.eq	.LBB0_106
	mov	w8, #100
	add	x13, x13, #1
	mov	w0, w1
	mul	x8, x10, x8
	ldr	w8, [x22, x8]
	sub	x10, x8, #1
	mov	w8, #25
	mul	x8, x10, x8
	add	x18, x8, x12
	ldr	w2, [x22, x18, lsl #2]
	mov	w18, w17
	cbz	w2, .LBB0_86
	mov	w0, w1
	mov	w18, w17
	b	.LBB0_107
.LBB0_89:
	mov	w16, #2
	add	x11, x22, x13
	ldr	w12, [x11, #76]
	cmp	w12, w23
	b.eq	.LBB0_104
.LBB0_90:
	mov	w11, wzr
	b	.LBB0_105
.LBB0_91:
	mov	x3, x1
	mov	x0, x18
.LBB0_92:
	add	x15, x0, #1
	mov	w18, #100
	madd	x18, x3, x18, x22
	ldr	w0, [x18, #76]
	cmp	w0, w23
	b.ne	.LBB0_84
.LBB0_93:
	ldr	w18, [x18]
	cmp	x15, x18
	cset	w0, ne
.LBB0_94:
	mov	w15, #25
	mov	w18, #100
	madd	x15, x8, x15, x14
	madd	x18, x10, x18, x22
	add	x1, x22, x15, lsl #2
	ldr	w15, [x1, #84]
	sub	w2, w15, #1
	ldr	w15, [x18, #72]
	str	w2, [x1, #84]
	str	w2, [x12, #84]
	ldr	w12, [x18, #72]
	subs	w12, w12, #1
	str	w12, [x18, #72]
	b.ne	.LBB0_96
	str	wzr, [x18, #80]
.LBB0_96:
	add	w12, w0, w17
	sub	x16, x16, #25
	mov	x17, x8
.LBB0_97:
	mov	w0, #25
	madd	x0, x17, x0, x14
	add	x0, x22, x0, lsl #2
	ldr	w1, [x0, #56]
	cmp	w1, w23
	b.ne	.LBB0_99
	ldr	w1, [x0, #40]
	mov	w2, #25
	str	wzr, [x0, #40]
	str	wzr, [x0, #56]
	umaddl	x1, w1, w2, x16
	mov	w2, #100
	mul	x17, x17, x2
	add	x1, x22, x1, lsl #2
	str	wzr, [x1, #40]
	str	wzr, [x1, #56]
	ldr	w0, [x22, x17]
	sub	x17, x0, #1
	cbnz	w0, .LBB0_97
.LBB0_99:
	ldr	w14, [x18, #76]
	cmp	w14, w23
	b.ne	.LBB0_64
	mov	w14, w9
	mov	w16, w24
.LBB0_101:
	mov	w17, #100
	tst	w16, #0x1
	mov	w0, #4
	madd	x18, x10, x17, x22
	mov	w10, #7
	mov	w1, #1
	csel	x10, x0, x10, eq
	cmn	w16, #1
	movi	v0.2d, #0000000000000000
	csinc	x0, x10, xzr, ne
	tst	w14, #0x1
	add	w16, w16, w16, lsr #31
	cinc	x10, x1, ne
	cmn	w14, #1
	mov	w1, #25
	csel	x3, xzr, x10, eq
	add	w14, w14, w14, lsr #31
	asr	w16, w16, #1
	ldr	w2, [x18]
	add	x0, x0, x3
	sub	x25, x25, #1
	asr	w14, w14, #1
	sub	x10, x2, #1
	umaddl	x17, w2, w17, x22
	madd	x0, x10, x1, x0
	str	wzr, [x22, x0, lsl #2]
	str	wzr, [x18, #96]
	stp	q0, q0, [x18]
	stp	q0, q0, [x18, #32]
	stp	q0, q0, [x18, #64]
	ldur	w17, [x17, #-24]
	cmp	w17, w23
	b.eq	.LBB0_101
	b	.LBB0_64
.LBB0_102:
	mov	x2, x0
	mov	x18, x17
.LBB0_103:
	mov	w11, #100
	add	x18, x18, #1
	mul	x11, x2, x11
	add	x11, x22, x11
	ldr	w12, [x11, #76]
	cmp	w12, w23
	b.ne	.LBB0_90
.LBB0_104:
	ldr	w11, [x11]
	cmp	x18, x11
	cset	w11, ne
.LBB0_105:
	sub	x24, x10, x15
	sub	x9, x9, x14
	add	w12, w11, w16
	bfi	x24, x9, #32, #32
	b	.LBB0_65
.LBB0_106:
	mov	w8, #25
	mul	x8, x10, x8
.LBB0_107:
	add	x17, x8, x11
	add	x17, x22, x17, lsl #2
	ldr	w1, [x17, #40]
	cbz	w1, .LBB0_109
	sub	x8, x1, #1
	b	.LBB0_118
.LBB0_109:
	add	w2, w0, w15
	add	w1, w18, w16
	orr	w3, w1, w2
	cbz	w3, .LBB0_114
	orr	w0, w18, w0
	mov	x18, x10
	cbz	w0, .LBB0_112
	mov	w8, #100
	mul	x8, x10, x8
	ldr	w8, [x22, x8]
	sub	x18, x8, #1
	mov	w8, #25
	mul	x8, x18, x8
.LBB0_112:
	tst	w2, #0x1
	mov	w0, #7
	mov	w3, #4
	csel	x0, x3, x0, eq
	cmn	w2, #1
	mov	w2, #1
	csinc	x0, x0, xzr, ne
	tst	w1, #0x1
	cinc	x2, x2, ne
	cmn	w1, #1
	csel	x1, xzr, x2, eq
	add	x0, x1, x0
	add	x8, x0, x8
	ldr	w0, [x22, x8, lsl #2]
	cbz	w0, .LBB0_115
	sub	x8, x0, #1
	b	.LBB0_117
.LBB0_114:
	ubfiz	x18, x11, #2, #2
	mov	w0, #1
	str	w23, [x17, #56]
	add	w1, w10, #1
	str	w0, [x17, #40]
	mov	x8, xzr
	eor	x18, x18, #0x8
	add	x17, x22, x18
	str	w1, [x17, #40]
	str	w23, [x17, #56]
	b	.LBB0_118
.LBB0_115:
	add	x0, x25, #1
	mov	w1, #25
	mov	w2, #8000
	mul	x1, x0, x1
	cmp	x1, x2
	b.hi	.LBB0_129
	mov	w1, #100
	str	w0, [x22, x8, lsl #2]
	add	w8, w18, #1
	madd	x1, x25, x1, x22
	str	w8, [x1]
	mov	x8, x25
	str	w23, [x1, #76]
.LBB0_117:
	and	x18, x11, #0x3
	mov	w0, #25
	add	w1, w10, #1
	eor	x18, x18, #0x2
	str	w23, [x17, #56]
	madd	x18, x8, x0, x18
	add	w0, w8, #1
	str	w0, [x17, #40]
	add	x18, x22, x18, lsl #2
	str	w1, [x18, #40]
	str	w23, [x18, #56]
.LBB0_118:
	cbz	x13, .LBB0_73
	and	x17, x11, #0x3
	sub	x18, x13, #1
	eor	x17, x17, #0x2
	b	.LBB0_122
.LBB0_120:
	sub	x8, x2, #1
.LBB0_121:
	sub	x10, x10, #1
	mov	w0, #25
	add	w2, w8, #1
	madd	x1, x10, x0, x11
	sub	x18, x18, #1
	madd	x0, x8, x0, x17
	add	x1, x22, x1, lsl #2
	add	x0, x22, x0, lsl #2
	str	w2, [x1, #40]
	add	w2, w10, #1
	str	w23, [x1, #56]
	str	w2, [x0, #40]
	str	w23, [x0, #56]
	cbz	x13, .LBB0_73
.LBB0_122:
	subs	x13, x13, #1
	mov	w1, w24
	mov	w0, w9
	b.eq	.LBB0_125
	mov	x2, x18
	mov	w0, w9
	mov	w1, w24
.LBB0_124:
	add	w1, w1, w1, lsr #31
	add	w0, w0, w0, lsr #31
	subs	x2, x2, #1
	asr	w1, w1, #1
	asr	w0, w0, #1
	b.ne	.LBB0_124
.LBB0_125:
	tst	w1, #0x1
	mov	w2, #7
	mov	w3, #4
	csel	x4, x3, x2, eq
	cmn	w1, #1
	mov	w5, #1
	csinc	x4, x4, xzr, ne
	tst	w0, #0x1
	add	x6, x8, #1
	cinc	x7, x5, ne
	cmn	w0, #1
	add	w30, w1, w15
	csel	x7, xzr, x7, eq
	cmp	x6, x25
	add	w0, w0, w16
	csinc	x1, x25, x8, ls
	tst	w30, #0x1
	csel	x2, x3, x2, eq
	cmn	w30, #1
	mov	w3, #25
	csinc	x2, x2, xzr, ne
	madd	x10, x10, x3, x4
	tst	w0, #0x1
	madd	x2, x8, x3, x2
	cinc	x3, x5, ne
	cmn	w0, #1
	csel	x0, xzr, x3, eq
	add	x10, x10, x7
	ldr	w10, [x22, x10, lsl #2]
	add	x0, x2, x0
	ldr	w2, [x22, x0, lsl #2]
	cbnz	w2, .LBB0_120
	add	x2, x1, #1
	mov	w3, #25
	mov	w4, #8000
	mul	x3, x2, x3
	cmp	x3, x4
	b.hi	.LBB0_129
	mov	w3, #100
	add	w8, w8, #1
	str	w2, [x22, x0, lsl #2]
	madd	x3, x1, x3, x22
	str	w8, [x3]
	mov	x8, x1
	str	w23, [x3, #76]
	b	.LBB0_121
.LBB0_128:
	mov	w23, wzr
	mov	w24, wzr
	mov	w8, #25
	mov	w9, #1
	mov	w20, #65535
	mov	w27, #24
	mov	w26, #65535
	mov	w25, #1
	str	x9, [sp, #8]
	b	.LBB0_142
.LBB0_129:
	mov	x0, x22
	mov	w1, wzr
	mov	w2, #32000
	bl	memset
	add	x8, x28, x28, lsl #1
	ldr	x22, [sp]
	mov	w1, wzr
	lsl	x20, x8, #2
	mov	x0, x22
	sub	x2, x20, #4
	bl	memset
	add	x8, x22, x20
	mov	w3, #7
	stur	wzr, [x8, #-4]
	b	.LBB0_22
.LBB0_130:
	cmp	x28, x23
	b.eq	.LBB0_134
	mvn	x8, x23
	add	x9, sp, #16
	adds	x28, x28, x8
	add	x27, x9, x23
	b.eq	.LBB0_133
	mov	x0, x27
	mov	w1, wzr
	mov	x2, x28
	bl	memset
.LBB0_133:
	strb	wzr, [x27, x28]
	mov	x28, x23
.LBB0_134:
	cbz	w24, .LBB0_136
	cbnz	x28, .LBB0_138
	b	.LBB0_139
.LBB0_136:
	cbz	x28, .LBB0_139
	cbz	x24, .LBB0_156
.LBB0_138:
	mov	w8, #65535
	mov	w23, wzr
	cmp	x20, x8
	mov	w8, #3
	csinc	w24, w8, wzr, ne
	b	.LBB0_140
.LBB0_139:
	mov	w23, wzr
	mov	w24, wzr
.LBB0_140:
	cbz	x25, .LBB0_144
	mov	w8, #25
	mul	x8, x25, x8
	subs	x27, x8, #1
	b.eq	.LBB0_153
.LBB0_142:
	lsl	x8, x8, #2
	mov	x0, x22
	mov	w1, wzr
	sub	x2, x8, #4
	bl	memset
	lsl	x8, x27, #2
.LBB0_143:
	str	wzr, [x22, x8]
.LBB0_144:
	adrp	x8, .LCPI0_0
	mov	w3, w24
	add	x1, x21, #4
	ldr	d0, [x8, :lo12:.LCPI0_0]
	mov	x0, x19
	mov	w2, #20
	str	s0, [x19, x21]
	bl	"sheet_cells::spell_decimal"
	mov	w21, #44
	strb	w21, [x19, x0]
	add	x1, x0, #1
	mov	x0, x19
	mov	w2, #20
	mov	x3, x28
	bl	"sheet_cells::spell_decimal"
	strb	w21, [x19, x0]
	add	x1, x0, #1
	mov	x0, x19
	mov	w2, #20
	mov	x3, x25
	bl	"sheet_cells::spell_decimal"
	ldr	x3, [sp, #8]
	strb	w21, [x19, x0]
	add	x1, x0, #1
	mov	x0, x19
	mov	w2, #20
	bl	"sheet_cells::spell_decimal"
	strb	w21, [x19, x0]
	add	x1, x0, #1
	mov	x0, x19
	mov	w2, #20
	mov	x3, x26
	bl	"sheet_cells::spell_decimal"
	strb	w21, [x19, x0]
	add	x1, x0, #1
	mov	x0, x19
	mov	w2, #20
	mov	x3, x20
	bl	"sheet_cells::spell_decimal"
	mov	w3, w23
	add	x1, x0, #1
	strb	w21, [x19, x0]
	tbz	w23, #31, .LBB0_146
	mov	x8, #4294967296
	mov	w9, #45
	strb	w9, [x19, x1]
	sub	x3, x8, x3
	add	x1, x0, #2
.LBB0_146:
	mov	x0, x19
	mov	w2, #20
	bl	"sheet_cells::spell_decimal"
	mov	x21, x0
	mov	w8, #44
	strb	w8, [x19, x0]
	add	x20, x0, #1
	add	x0, sp, #1040
	mov	w1, wzr
	mov	w2, #16413
	bl	memset
	cmp	x28, #8, lsl #12
	b.hi	.LBB0_23
	cmp	x28, #4, lsl #12
	b.hi	.LBB0_171
	cbz	x28, .LBB0_175
	cmp	x28, #4
	b.hs	.LBB0_154
	mov	w9, wzr
	mov	x8, xzr
	b	.LBB0_168
.LBB0_151:
	mov	w3, #4
	b	.LBB0_22
.LBB0_152:
	mov	w3, #5
	b	.LBB0_22
.LBB0_153:
	mov	x8, xzr
	b	.LBB0_143
.LBB0_154:
	cmp	x28, #32
	b.hs	.LBB0_161
	mov	x8, xzr
	mov	w9, wzr
	b	.LBB0_165
.LBB0_156:
	mov	w23, wzr
	mov	w24, #4
	cbnz	x26, .LBB0_140
	cmp	x20, x28
	b.ne	.LBB0_140
	cmp	x20, #2
	b.hi	.LBB0_216
	cmp	x28, #1
	b.eq	.LBB0_216
	mov	w23, wzr
	mov	x26, xzr
	mov	w24, #5
	b	.LBB0_219
.LBB0_161:
	movi	v0.2d, #0000000000000000
	movi	v1.2d, #0000000000000000
	add	x9, sp, #16
	and	x10, x28, #0x1c
	and	x8, x28, #0x7fe0
	add	x9, x9, #16
	and	x11, x28, #0x7fe0
.LBB0_162:
	ldp	q2, q3, [x9, #-16]
	subs	x11, x11, #32
	add	x9, x9, #32
	umax	v0.16b, v2.16b, v0.16b
	umax	v1.16b, v3.16b, v1.16b
	b.ne	.LBB0_162
	umax	v0.16b, v0.16b, v1.16b
	cmp	x28, x8
	umaxv	b0, v0.16b
	fmov	w9, s0
	b.eq	.LBB0_170
	cbz	x10, .LBB0_168
.LBB0_165:
	dup	v0.4h, w9
	mov	x10, x8
	and	x8, x28, #0x7ffc
	add	x11, sp, #16
	sub	x9, x10, x8
	add	x10, x11, x10
.LBB0_166:
	ldr	s1, [x10], #4
	bic	v0.4h, #255, lsl #8
	adds	x9, x9, #4
	ushll	v1.8h, v1.8b, #0
	umax	v0.4h, v1.4h, v0.4h
	b.ne	.LBB0_166
	umaxv	h0, v0.4h
	cmp	x28, x8
	fmov	w9, s0
	b.eq	.LBB0_170
.LBB0_168:
	add	x11, sp, #16
	sub	x10, x28, x8
	add	x8, x11, x8
.LBB0_169:
	ldrb	w11, [x8], #1
	and	w9, w9, #0xff
	cmp	w11, w9
	csel	w9, w11, w9, hi
	subs	x10, x10, #1
	b.ne	.LBB0_169
.LBB0_170:
	and	w8, w9, #0xff
	cmp	w8, #4
	b.lo	.LBB0_175
.LBB0_171:
	mov	x8, xzr
.LBB0_172:
	cmp	x8, #4, lsl #12
	b.eq	.LBB0_23
	add	x9, sp, #16
	ldrb	w9, [x9, x8]
	cmp	w9, #3
	b.hi	.LBB0_23
	add	x8, x8, #1
	cmp	x28, x8
	b.ne	.LBB0_172
.LBB0_175:
	adrp	x8, .LCPI0_1
	adrp	x9, .LCPI0_2
	ldr	q0, [x8, :lo12:.LCPI0_1]
	adrp	x8, .LCPI0_3
	ldr	q1, [x9, :lo12:.LCPI0_2]
	adrp	x9, .LCPI0_4
	ldr	q2, [x8, :lo12:.LCPI0_3]
	str	q0, [sp, #17456]
	ldr	q0, [x9, :lo12:.LCPI0_4]
	str	q1, [sp, #17472]
	stp	q2, q0, [x29, #-48]
	cbz	x28, .LBB0_179
	add	x11, sp, #16
	mov	w8, #16384
	mov	x15, x28
	mov	w14, #16384
	mov	w12, #16384
	mov	w10, #16384
	mov	w9, #16384
	mov	w13, #16384
.LBB0_177:
	ldrb	w16, [x11], #1
	add	x17, sp, #4, lsl #12
	add	x17, x17, #1072
	sub	x18, x29, #48
	ldr	x17, [x17, x16, lsl #3]
	ldr	x16, [x18, x16, lsl #3]
	add	x14, x17, x14
	add	x12, x16, x12
	cmp	x14, x8
	csel	x8, x14, x8, lo
	cmp	x14, x10
	csel	x10, x14, x10, hi
	cmp	x12, x9
	csel	x9, x12, x9, lo
	cmp	x12, x13
	csel	x13, x12, x13, hi
	subs	x15, x15, #1
	b.ne	.LBB0_177
	cmp	x14, #4, lsl #12
	mov	w11, #16384
	ccmp	x12, x11, #0, eq
	add	x11, x13, #1
	cset	w12, ne
	b	.LBB0_180
.LBB0_179:
	mov	w12, wzr
	mov	w9, #16384
	mov	w11, #16385
	mov	w10, #16384
	mov	w8, #16384
.LBB0_180:
	cmp	x28, #4
	b.lo	.LBB0_23
	tbnz	w12, #0, .LBB0_23
	sub	x10, x10, x8
	mov	w12, #16384
	sub	x11, x11, x9
	add	x3, x10, #1
	sub	x9, x12, x9
	neg	x8, x8
	mul	x11, x3, x11
	madd	x9, x3, x9, x8
	sub	x8, x29, #48
	cmp	x11, #256
	add	x22, x9, #4, lsl #12
	b.hi	.LBB0_186
	movi	v0.2d, #0000000000000000
	mov	w9, #1
	mvn	x10, x10
	stp	x9, x3, [x8]
	mov	x9, #-1
	stp	x9, x10, [x8, #16]
	add	x8, sp, #16
	mov	x9, x28
	str	q0, [sp, #17456]
	str	q0, [sp, #17472]
	str	q0, [sp, #17488]
	str	q0, [sp, #17504]
	str	q0, [sp, #17520]
	str	q0, [sp, #17536]
	str	q0, [sp, #17552]
	str	q0, [sp, #17568]
	str	q0, [sp, #17584]
	str	q0, [sp, #17600]
	str	q0, [sp, #17616]
	str	q0, [sp, #17632]
	str	q0, [sp, #17648]
	str	q0, [sp, #17664]
	str	q0, [sp, #17680]
	str	q0, [sp, #17696]
.LBB0_184:
	add	x10, sp, #4, lsl #12
	add	x10, x10, #1072
	ldrb	w11, [x10, x22]
	cbnz	w11, .LBB0_23
	ldrb	w11, [x8], #1
	sub	x12, x29, #48
	subs	x9, x9, #1
	ldr	x11, [x12, x11, lsl #3]
	mov	w12, #1
	strb	w12, [x10, x22]
	add	x22, x11, x22
	b.ne	.LBB0_184
	b	.LBB0_199
.LBB0_186:
	cmp	x11, #2048
	b.hi	.LBB0_190
	mov	w9, #1
	add	x0, sp, #4, lsl #12
	mvn	x10, x10
	stp	x9, x3, [x8]
	mov	x9, #-1
	add	x0, x0, #1072
	mov	w1, wzr
	mov	w2, #2048
	add	x23, sp, #4, lsl #12
	stp	x9, x10, [x8, #16]
	add	x23, x23, #1072
	bl	memset
	add	x8, sp, #16
	mov	x9, x28
.LBB0_188:
	ldrb	w10, [x23, x22]
	cbnz	w10, .LBB0_23
	ldrb	w10, [x8], #1
	sub	x11, x29, #48
	subs	x9, x9, #1
	mov	w12, #1
	ldr	x10, [x11, x10, lsl #3]
	add	x11, sp, #4, lsl #12
	add	x11, x11, #1072
	strb	w12, [x11, x22]
	add	x22, x10, x22
	b.ne	.LBB0_188
	b	.LBB0_199
.LBB0_190:
	cmp	x28, #257
	b.lo	.LBB0_195
	cmp	x11, #4, lsl #12
	b.hi	.LBB0_195
	mov	w9, #1
	add	x0, sp, #4, lsl #12
	mvn	x10, x10
	stp	x9, x3, [x8]
	mov	x9, #-1
	add	x0, x0, #1072
	mov	w1, wzr
	mov	w2, #16384
	add	x23, sp, #4, lsl #12
	stp	x9, x10, [x8, #16]
	add	x23, x23, #1072
	bl	memset
	add	x8, sp, #16
	mov	x9, x28
.LBB0_193:
	ldrb	w10, [x23, x22]
	cbnz	w10, .LBB0_23
	ldrb	w10, [x8], #1
	sub	x11, x29, #48
	subs	x9, x9, #1
	mov	w12, #1
	ldr	x10, [x11, x10, lsl #3]
	add	x11, sp, #4, lsl #12
	add	x11, x11, #1072
	strb	w12, [x11, x22]
	add	x22, x10, x22
	b.ne	.LBB0_193
	b	.LBB0_199
.LBB0_195:
	cmp	x28, #2049
	b.lo	.LBB0_198
	cmp	x11, #32, lsl #12
	b.hi	.LBB0_198
	add	x0, sp, #16
	mov	x1, x28
	mov	x2, x22
	bl	"room_map::lone_sized::<=131072>"
	tbz	w0, #0, .LBB0_23
	b	.LBB0_199
.LBB0_198:
	add	x0, sp, #16
	mov	x1, x28
	bl	"room_threads::is_room"
	tbz	w0, #0, .LBB0_23
.LBB0_199:
	ldrb	w8, [sp, #16]
	cmp	x28, #32
	b.hs	.LBB0_201
	mov	w10, wzr
	mov	x9, xzr
	mov	w11, w8
	b	.LBB0_205
.LBB0_201:
	movi	v0.2d, #0000000000000000
	movi	v2.2d, #0000000000000000
	add	x10, sp, #16
	movi	v3.2d, #0000000000000000
	movi	v4.2d, #0000000000000000
	and	x9, x28, #0xffe0
	dup	v1.16b, w8
	add	x10, x10, #16
	and	x11, x28, #0xffe0
.LBB0_202:
	mov	v6.16b, v1.16b
	ldp	q5, q1, [x10, #-16]
	subs	x11, x11, #32
	add	x10, x10, #32
	ext	v6.16b, v6.16b, v5.16b, #15
	ext	v7.16b, v5.16b, v1.16b, #15
	cmeq	v5.16b, v6.16b, v5.16b
	cmeq	v6.16b, v7.16b, v1.16b
	movi	v7.8h, #1
	mvn	v5.16b, v5.16b
	mvn	v6.16b, v6.16b
	ushll2	v16.8h, v5.16b, #0
	ushll	v5.8h, v5.8b, #0
	ushll	v17.8h, v6.8b, #0
	ushll2	v6.8h, v6.16b, #0
	and	v16.16b, v16.16b, v7.16b
	and	v5.16b, v5.16b, v7.16b
	and	v17.16b, v17.16b, v7.16b
	and	v6.16b, v6.16b, v7.16b
	add	v3.8h, v3.8h, v16.8h
	add	v2.8h, v2.8h, v5.8h
	add	v4.8h, v4.8h, v17.8h
	add	v0.8h, v0.8h, v6.8h
	b.ne	.LBB0_202
	add	v2.8h, v4.8h, v2.8h
	add	v0.8h, v0.8h, v3.8h
	cmp	x28, x9
	add	v0.8h, v2.8h, v0.8h
	addv	h0, v0.8h
	fmov	w10, s0
	b.eq	.LBB0_207
	umov	w11, v1.b[15]
.LBB0_205:
	add	x13, sp, #16
	sub	x12, x28, x9
	add	x9, x13, x9
.LBB0_206:
	mov	w13, w11
	ldrb	w11, [x9], #1
	cmp	w11, w13, uxtb
	cinc	w10, w10, ne
	subs	x12, x12, #1
	b.ne	.LBB0_206
.LBB0_207:
	and	x9, x10, #0xffff
	mov	w10, #13
	mov	w11, #16413
	add	x13, x9, #2
	bfi	x10, x13, #4, #17
	cmp	x10, x11
	b.hi	.LBB0_23
	movi	d0, #0000000000000000
	adrp	x14, .LCPI0_5
	add	x15, sp, #1040
	ldr	d1, [x14, :lo12:.LCPI0_5]
	add	x16, sp, #1040
	stur	w13, [x15, #9]
	lsl	x13, x13, #4
	mov	w12, wzr
	mov	x10, xzr
	mov	w11, wzr
	add	x14, x16, #13
	str	d1, [sp, #1040]
	stur	d0, [x15, #13]
	stur	d0, [x15, #21]
	add	x15, x16, #29
	add	x16, sp, #16
	strb	wzr, [sp, #1048]
	b	.LBB0_210
.LBB0_209:
	cmp	w17, #0
	cinc	w8, w12, eq
	cmp	w17, #2
	cset	w12, eq
	cset	w18, hi
	cmp	w17, #1
	cinc	w11, w11, eq
	subs	x28, x28, #1
	sub	w12, w8, w12
	sub	w11, w11, w18
	mov	w8, w17
	b.eq	.LBB0_212
.LBB0_210:
	ldrb	w17, [x16], #1
	cmp	w17, w8, uxtb
	b.eq	.LBB0_209
	mov	w8, #600
	mul	w18, w12, w8
	mul	w8, w11, w8
	scvtf	d1, w18
	scvtf	d2, w8
	add	x8, x15, x10, lsl #4
	add	x10, x10, #1
	stp	d1, d2, [x8]
	b	.LBB0_209
.LBB0_212:
	add	x10, x14, x10, lsl #4
	and	x8, x13, #0x7fe0
	add	x11, x21, x19
	add	x12, sp, #1040
	add	x20, x20, x8, lsl #1
	stp	d0, d0, [x10, #16]
	add	x10, x11, #33
	add	x11, x12, #16
	mov	x12, x8
.LBB0_213:
	movi	v0.16b, #15
	ldp	q1, q2, [x11, #-16]
	movi	v3.16b, #10
	movi	v4.16b, #48
	movi	v5.16b, #87
	movi	v6.16b, #160
	movi	v7.16b, #48
	sub	x13, x10, #32
	movi	v16.16b, #87
	subs	x12, x12, #32
	add	x11, x11, #32
	and	v17.16b, v1.16b, v0.16b
	and	v0.16b, v2.16b, v0.16b
	usra	v7.16b, v1.16b, #4
	cmhi	v18.16b, v3.16b, v17.16b
	orr	v19.16b, v17.16b, v4.16b
	add	v17.16b, v17.16b, v5.16b
	usra	v16.16b, v1.16b, #4
	cmhi	v1.16b, v6.16b, v1.16b
	cmhi	v3.16b, v3.16b, v0.16b
	bsl	v18.16b, v19.16b, v17.16b
	orr	v19.16b, v0.16b, v4.16b
	add	v0.16b, v0.16b, v5.16b
	mov	v17.16b, v1.16b
	cmhi	v1.16b, v6.16b, v2.16b
	usra	v4.16b, v2.16b, #4
	usra	v5.16b, v2.16b, #4
	bsl	v3.16b, v19.16b, v0.16b
	mov	v2.16b, v1.16b
	bsl	v17.16b, v7.16b, v16.16b
	bsl	v2.16b, v4.16b, v5.16b
	st2	{ v17.16b, v18.16b }, [x13]
	st2	{ v2.16b, v3.16b }, [x10]
	add	x10, x10, #64
	b.ne	.LBB0_213
	lsl	x9, x9, #4
	add	x10, sp, #1040
	sub	x9, x9, x8
	add	x8, x10, x8
	add	x9, x9, #45
.LBB0_215:
	ldrb	w10, [x8], #1
	mov	w11, #48
	and	w12, w10, #0xf
	bfxil	w11, w10, #0, #4
	lsr	w13, w10, #4
	add	w14, w12, #87
	cmp	w12, #10
	add	x12, x19, x20
	csel	w11, w11, w14, lo
	orr	w14, w13, #0x30
	add	w13, w13, #87
	cmp	w10, #160
	add	x20, x20, #2
	strb	w11, [x12, #1]
	csel	w10, w14, w13, lo
	subs	x9, x9, #1
	strb	w10, [x12]
	b.ne	.LBB0_215
	b	.LBB0_23
.LBB0_216:
	mov	w9, wzr
	mov	x8, xzr
	mov	w23, wzr
.LBB0_217:
	add	x10, sp, #16
	mov	w24, #2
	ldrb	w10, [x10, x8]
	add	x8, x8, #1
	cmp	w10, #1
	cset	w11, eq
	cmp	w10, #2
	cset	w12, hi
	sub	w11, w11, w12
	cset	w12, eq
	cmp	w10, #0
	madd	w23, w11, w9, w23
	cinc	w9, w9, eq
	cmp	x20, x8
	sub	w9, w9, w12
	b.ne	.LBB0_217
	mov	x26, xzr
.LBB0_219:
	mov	x28, x20
	b	.LBB0_140
.Lfunc_end0:
	.size	"lines::tell", .Lfunc_end0-"lines::tell"

	.section	".text.room_map::lone_sized::<=131072>","ax",@progbits
	.p2align	2
	.type	"room_map::lone_sized::<=131072>",@function
"room_map::lone_sized::<=131072>":
	stp	x29, x30, [sp, #-64]!
	sub	x9, sp, #31, lsl #12
	str	x28, [sp, #16]
	mov	x29, sp
	sub	x9, x9, #2048
	stp	x22, x21, [sp, #32]
	stp	x20, x19, [sp, #48]
.LBB1_1:
	sub	sp, sp, #3072
	cmp	sp, x9
	str	xzr, [sp]
	b.ne	.LBB1_1
	sub	sp, sp, #2080
	sub	x8, x29, #32
	mov	w9, #1
	str	xzr, [sp]
	mov	x19, x2
	mov	x20, x1
	mov	x21, x0
	stp	x9, x3, [x8]
	mov	x9, #-1
	neg	x10, x3
	mov	x0, sp
	mov	w1, wzr
	mov	w2, #131072
	stp	x9, x10, [x8, #16]
	mov	x22, sp
	bl	memset
.LBB1_3:
	ldrb	w8, [x22, x19]
	cbnz	w8, .LBB1_5
	ldrb	w9, [x21], #1
	sub	x10, x29, #32
	subs	x20, x20, #1
	mov	w11, #1
	ldr	x9, [x10, x9, lsl #3]
	mov	x10, sp
	strb	w11, [x10, x19]
	add	x19, x9, x19
	b.ne	.LBB1_3
.LBB1_5:
	cmp	w8, #0
	cset	w0, eq
	add	sp, sp, #32, lsl #12
	add	sp, sp, #32
	ldp	x20, x19, [sp, #48]
	ldr	x28, [sp, #16]
	ldp	x22, x21, [sp, #32]
	ldp	x29, x30, [sp], #64
	ret
.Lfunc_end1:
	.size	"room_map::lone_sized::<=131072>", .Lfunc_end1-"room_map::lone_sized::<=131072>"

	.section	.rodata.cst16,"aM",@progbits,16
	.p2align	4, 0x0
.LCPI2_0:
	.word	1
	.word	0
	.word	4294967295
	.word	0
	.section	".text.room_threads::is_room","ax",@progbits
	.p2align	2
	.type	"room_threads::is_room",@function
"room_threads::is_room":
	stp	x29, x30, [sp, #-96]!
	sub	x9, sp, #31, lsl #12
	stp	x28, x27, [sp, #16]
	mov	x29, sp
	sub	x9, x9, #2048
	stp	x26, x25, [sp, #32]
	stp	x24, x23, [sp, #48]
	stp	x22, x21, [sp, #64]
	stp	x20, x19, [sp, #80]
.LBB2_1:
	sub	sp, sp, #3072
	cmp	sp, x9
	str	xzr, [sp]
	b.ne	.LBB2_1
	sub	sp, sp, #2096
	mov	x24, #65536
	mov	x19, x1
	mov	x20, x0
	cmp	x1, #257
	sub	x23, x29, #24
	movk	x24, #65535, lsl #48
	str	xzr, [sp]
	b.hs	.LBB2_10
	add	x0, sp, #24, lsl #12
	mov	w1, wzr
	mov	w2, #516
	add	x0, x0, #20
	add	x21, sp, #24, lsl #12
	add	x21, x21, #20
	bl	memset
	add	x0, sp, #16, lsl #12
	mov	w1, wzr
	mov	w2, #516
	add	x0, x0, #16
	add	x22, sp, #16, lsl #12
	add	x22, x22, #16
	bl	memset
	add	x0, sp, #8, lsl #12
	mov	w1, wzr
	mov	w2, #516
	add	x0, x0, #12
	add	x25, sp, #8, lsl #12
	add	x25, x25, #12
	bl	memset
	add	x0, sp, #8
	mov	w1, wzr
	mov	w2, #516
	bl	memset
	lsr	x9, x19, #1
	adrp	x10, .LCPI2_0
	mov	x8, xzr
	ldr	q0, [x10, :lo12:.LCPI2_0]
	str	x24, [x23]
	add	w9, w9, #1
	and	w10, w9, #0xffff
	mov	w11, w9
	stur	q0, [x23, #8]
.LBB2_4:
	ldrb	w12, [x20, x8]
	ldrh	w13, [x21, w10, uxtw #1]
	sub	x14, x29, #24
	strh	w13, [x22, x8, lsl #1]
	sub	x13, x29, #16
	ldr	w13, [x13, x12, lsl #2]
	ldrh	w12, [x14, x12, lsl #1]
	strh	w11, [x25, x8, lsl #1]
	add	x8, x8, #1
	strh	w8, [x21, w10, uxtw #1]
	cmp	x19, x8
	add	w10, w13, w10
	add	w11, w12, w11
	b.ne	.LBB2_4
	ubfiz	x8, x9, #1, #15
	mov	x9, xzr
	b	.LBB2_7
.LBB2_6:
	cmp	x9, x8
	b.eq	.LBB2_28
.LBB2_7:
	add	x10, sp, #24, lsl #12
	add	x10, x10, #20
	ldrh	w10, [x10, x9, lsl #1]
	add	x9, x9, #1
	cbz	w10, .LBB2_6
.LBB2_8:
	ubfiz	x10, x10, #1, #32
	add	x11, sp, #8, lsl #12
	add	x12, sp, #8
	add	x11, x11, #12
	sub	x10, x10, #2
	ldrh	w11, [x11, x10]
	ldrh	w13, [x12, x11, lsl #1]
	cmp	w13, w9, uxth
	b.eq	.LBB2_26
	add	x13, sp, #16, lsl #12
	strh	w9, [x12, x11, lsl #1]
	add	x13, x13, #16
	ldrh	w10, [x13, x10]
	cbnz	w10, .LBB2_8
	b	.LBB2_6
.LBB2_10:
	lsr	x8, x19, #1
	add	x0, sp, #24, lsl #12
	cmp	x19, #2048
	add	x0, x0, #20
	mov	w1, wzr
	add	w21, w8, #1
	and	w22, w21, #0xffff
	b.hi	.LBB2_18
	mov	w2, #4100
	add	x25, sp, #24, lsl #12
	add	x25, x25, #20
	bl	memset
	add	x0, sp, #16, lsl #12
	mov	w1, wzr
	mov	w2, #4100
	add	x0, x0, #16
	add	x26, sp, #16, lsl #12
	add	x26, x26, #16
	bl	memset
	add	x0, sp, #8, lsl #12
	mov	w1, wzr
	mov	w2, #4100
	add	x0, x0, #12
	add	x27, sp, #8, lsl #12
	add	x27, x27, #12
	bl	memset
	add	x0, sp, #8
	mov	w1, wzr
	mov	w2, #4100
	bl	memset
	adrp	x9, .LCPI2_0
	mov	x8, xzr
	str	x24, [x23]
	ldr	q0, [x9, :lo12:.LCPI2_0]
	mov	w9, w21
	stur	q0, [x23, #8]
.LBB2_12:
	ldrb	w10, [x20, x8]
	ldrh	w11, [x25, w22, uxtw #1]
	sub	x12, x29, #24
	strh	w11, [x26, x8, lsl #1]
	sub	x11, x29, #16
	ldr	w11, [x11, x10, lsl #2]
	ldrh	w10, [x12, x10, lsl #1]
	strh	w9, [x27, x8, lsl #1]
	add	x8, x8, #1
	strh	w8, [x25, w22, uxtw #1]
	cmp	x19, x8
	add	w22, w11, w22
	add	w9, w10, w9
	b.ne	.LBB2_12
	ubfiz	x8, x21, #1, #15
	mov	x9, xzr
	b	.LBB2_15
.LBB2_14:
	cmp	x9, x8
	b.eq	.LBB2_28
.LBB2_15:
	add	x10, sp, #24, lsl #12
	add	x10, x10, #20
	ldrh	w10, [x10, x9, lsl #1]
	add	x9, x9, #1
	cbz	w10, .LBB2_14
.LBB2_16:
	ubfiz	x10, x10, #1, #32
	add	x11, sp, #8, lsl #12
	add	x12, sp, #8
	add	x11, x11, #12
	sub	x10, x10, #2
	ldrh	w11, [x11, x10]
	ldrh	w13, [x12, x11, lsl #1]
	cmp	w13, w9, uxth
	b.eq	.LBB2_26
	add	x13, sp, #16, lsl #12
	strh	w9, [x12, x11, lsl #1]
	add	x13, x13, #16
	ldrh	w10, [x13, x10]
	cbnz	w10, .LBB2_16
	b	.LBB2_14
.LBB2_18:
	mov	w2, #32772
	add	x25, sp, #24, lsl #12
	add	x25, x25, #20
	bl	memset
	add	x0, sp, #16, lsl #12
	mov	w1, wzr
	mov	w2, #32772
	add	x0, x0, #16
	add	x26, sp, #16, lsl #12
	add	x26, x26, #16
	bl	memset
	add	x0, sp, #8, lsl #12
	mov	w1, wzr
	mov	w2, #32772
	add	x0, x0, #12
	add	x27, sp, #8, lsl #12
	add	x27, x27, #12
	bl	memset
	add	x0, sp, #8
	mov	w1, wzr
	mov	w2, #32772
	bl	memset
	adrp	x9, .LCPI2_0
	mov	x8, xzr
	str	x24, [x23]
	ldr	q0, [x9, :lo12:.LCPI2_0]
	mov	w9, w21
	stur	q0, [x23, #8]
.LBB2_19:
	ldrb	w10, [x20, x8]
	ldrh	w11, [x25, w22, uxtw #1]
	sub	x12, x29, #24
	strh	w11, [x26, x8, lsl #1]
	sub	x11, x29, #16
	ldr	w11, [x11, x10, lsl #2]
	ldrh	w10, [x12, x10, lsl #1]
	strh	w9, [x27, x8, lsl #1]
	add	x8, x8, #1
	strh	w8, [x25, w22, uxtw #1]
	cmp	x19, x8
	add	w22, w11, w22
	add	w9, w10, w9
	b.ne	.LBB2_19
	tst	w21, #0xffff
	b.eq	.LBB2_28
	ubfiz	x8, x21, #1, #16
	mov	x9, xzr
	b	.LBB2_23
.LBB2_22:
	cmp	x9, x8
	b.eq	.LBB2_28
.LBB2_23:
	add	x10, sp, #24, lsl #12
	add	x10, x10, #20
	ldrh	w10, [x10, x9, lsl #1]
	add	x9, x9, #1
	cbz	w10, .LBB2_22
.LBB2_24:
	ubfiz	x10, x10, #1, #32
	add	x11, sp, #8, lsl #12
	add	x12, sp, #8
	add	x11, x11, #12
	sub	x10, x10, #2
	ldrh	w11, [x11, x10]
	ldrh	w13, [x12, x11, lsl #1]
	cmp	w13, w9, uxth
	b.eq	.LBB2_26
	add	x13, sp, #16, lsl #12
	strh	w9, [x12, x11, lsl #1]
	add	x13, x13, #16
	ldrh	w10, [x13, x10]
	cbnz	w10, .LBB2_24
	b	.LBB2_22
.LBB2_26:
	mov	w0, wzr
.LBB2_27:
	add	sp, sp, #32, lsl #12
	add	sp, sp, #48
	ldp	x20, x19, [sp, #80]
	ldp	x22, x21, [sp, #64]
	ldp	x24, x23, [sp, #48]
	ldp	x26, x25, [sp, #32]
	ldp	x28, x27, [sp, #16]
	ldp	x29, x30, [sp], #96
	ret
.LBB2_28:
	mov	w0, #1
	b	.LBB2_27
.Lfunc_end2:
	.size	"room_threads::is_room", .Lfunc_end2-"room_threads::is_room"

	.section	".text.sheet_cells::spell_decimal","ax",@progbits
	.p2align	2
	.type	"sheet_cells::spell_decimal",@function
"sheet_cells::spell_decimal":
	cbz	x2, .LBB3_4
	cmp	x3, #9
	b.hi	.LBB3_3
	orr	w8, w3, #0x30
	strb	w8, [x0, x1]
	add	x0, x1, #1
	ret
.LBB3_3:
	stp	x29, x30, [sp, #-48]!
	mov	x8, #-3689348814741910324
	stp	x20, x19, [sp, #32]
	sub	x2, x2, #1
	movk	x8, #52429
	str	x21, [sp, #16]
	mov	x21, x3
	umulh	x8, x3, x8
	mov	x29, sp
	mov	x20, x0
	lsr	x19, x8, #3
	mov	x3, x19
	bl	"sheet_cells::spell_decimal"
	mov	w8, #10
	add	x1, x0, #1
	msub	w8, w19, w8, w21
	ldr	x21, [sp, #16]
	orr	w8, w8, #0x30
	strb	w8, [x20, x0]
	ldp	x20, x19, [sp, #32]
	ldp	x29, x30, [sp], #48
.LBB3_4:
	mov	x0, x1
	ret
.Lfunc_end3:
	.size	"sheet_cells::spell_decimal", .Lfunc_end3-"sheet_cells::spell_decimal"

	.section	.rodata.cst16,"aM",@progbits,16
	.p2align	4, 0x0
.LCPI4_0:
	.byte	105
	.byte	100
	.byte	44
	.byte	114
	.byte	101
	.byte	102
	.byte	117
	.byte	115
	.byte	97
	.byte	108
	.byte	44
	.byte	112
	.byte	108
	.byte	97
	.byte	99
	.byte	101
.LCPI4_1:
	.byte	44
	.byte	118
	.byte	101
	.byte	114
	.byte	100
	.byte	105
	.byte	99
	.byte	116
	.byte	44
	.byte	115
	.byte	116
	.byte	101
	.byte	112
	.byte	115
	.byte	44
	.byte	110
.LCPI4_2:
	.byte	111
	.byte	100
	.byte	101
	.byte	115
	.byte	44
	.byte	99
	.byte	111
	.byte	114
	.byte	110
	.byte	101
	.byte	114
	.byte	115
	.byte	44
	.byte	106
	.byte	44
	.byte	107
.LCPI4_4:
	.byte	0
	.byte	1
	.byte	2
	.byte	3
	.byte	4
	.byte	5
	.byte	6
	.byte	7
	.byte	8
	.byte	9
	.byte	10
	.byte	11
	.byte	12
	.byte	13
	.byte	14
	.byte	15
.LCPI4_5:
	.byte	16
	.byte	17
	.byte	18
	.byte	19
	.byte	20
	.byte	21
	.byte	22
	.byte	23
	.byte	24
	.byte	25
	.byte	26
	.byte	27
	.byte	28
	.byte	29
	.byte	30
	.byte	31
	.section	.rodata.cst8,"aM",@progbits,8
	.p2align	3, 0x0
.LCPI4_3:
	.byte	44
	.byte	97
	.byte	114
	.byte	101
	.byte	97
	.byte	44
	.byte	119
	.byte	107
.LCPI4_6:
	.byte	32
	.byte	33
	.byte	34
	.byte	35
	.byte	36
	.byte	37
	.byte	38
	.byte	39
	.section	".text.line_io::send::<#df9e9f1468b30f79>","ax",@progbits
	.p2align	2
	.type	"line_io::send::<#df9e9f1468b30f79>",@function
"line_io::send::<#df9e9f1468b30f79>":
	sub	sp, sp, #224
	stp	x28, x27, [sp, #144]
	mov	x27, xzr
	stp	x24, x23, [sp, #176]
	mov	w24, w2
	stp	x22, x21, [sp, #192]
	mov	x21, x5
	stp	x20, x19, [sp, #208]
	mov	x20, x1
	stp	x29, x30, [sp, #128]
	add	x29, sp, #128
	stp	x26, x25, [sp, #160]
	stp	x3, x0, [sp, #8]
	stur	wzr, [sp, #27]
	str	wzr, [sp, #24]
.LBB4_1:
	sub	x8, x4, x27
	mov	w9, #16384
	cmp	x8, #4, lsl #12
	csel	x23, x8, x9, lo
	tbnz	x20, #63, .LBB4_19
	mov	x19, x4
	cbz	x20, .LBB4_4
	mov	x25, xzr
	cmp	x20, #1
	csinc	x20, x20, xzr, hi
	cmp	x19, x27
	b.eq	.LBB4_5
	b	.LBB4_13
.LBB4_4:
	adrp	x8, .LCPI4_0
	adrp	x9, .LCPI4_1
	mov	w25, #58
	ldr	q0, [x8, :lo12:.LCPI4_0]
	ldr	q1, [x9, :lo12:.LCPI4_1]
	adrp	x8, .LCPI4_2
	adrp	x9, .LCPI4_3
	ldr	q2, [x8, :lo12:.LCPI4_2]
	mov	w8, #2658
	stp	q0, q1, [x21]
	ldr	d0, [x9, :lo12:.LCPI4_3]
	str	q2, [x21, #32]
	str	d0, [x21, #48]
	strh	w8, [x21, #56]
	cmp	x20, #1
	csinc	x20, x20, xzr, hi
	cmp	x19, x27
	b.ne	.LBB4_13
.LBB4_5:
	add	x27, x23, x27
	mov	w28, #1
	mov	x26, x21
	b	.LBB4_9
.LBB4_6:
	cbz	x0, .LBB4_19
	cmp	x0, x25
	csel	x8, x0, x25, lo
	add	x26, x26, x8
	sub	x25, x25, x8
.LBB4_8:
	adds	x28, x28, #1
	b.hs	.LBB4_19
.LBB4_9:
	cbz	x25, .LBB4_17
	mov	w0, #1
	mov	x1, x26
	mov	x2, x25
	bl	write
	tbz	x0, #63, .LBB4_6
	add	x0, sp, #32
	add	x22, sp, #32
	bl	"std_io::io::error::last_error"
	adrp	x9, .LCPI4_4
	ldr	x8, [sp, #32]
	adrp	x10, .LCPI4_5
	ldr	q0, [x9, :lo12:.LCPI4_4]
	adrp	x9, .LCPI4_6
	ldr	q1, [x10, :lo12:.LCPI4_5]
	ldr	d2, [x9, :lo12:.LCPI4_6]
	ubfx	w9, w8, #8, #8
	mov	w10, #40
	stp	q0, q1, [sp, #32]
	cmp	w9, #41
	str	d2, [sp, #64]
	strb	w10, [sp, #72]
	b.hs	.LBB4_19
	ubfx	x8, x8, #8, #6
	ldrb	w8, [x22, x8]
	cmp	w8, #35
	b.eq	.LBB4_8
	b	.LBB4_19
.LBB4_13:
	ldr	x8, [sp, #8]
	mov	x26, x23
	add	x28, x8, x27
	b	.LBB4_15
.LBB4_14:
	cmp	w22, #10
	strb	w22, [x21, x25]
	add	x25, x25, #1
	cset	w24, eq
	cinc	x20, x20, eq
	subs	x26, x26, #1
	b.eq	.LBB4_5
.LBB4_15:
	ldrb	w22, [x28], #1
	tbz	w24, #0, .LBB4_14
	mov	x0, x21
	mov	x1, x25
	mov	w2, #20
	mov	x3, x20
	bl	"sheet_cells::spell_decimal"
	add	x25, x0, #1
	mov	w8, #44
	strb	w8, [x21, x0]
	b	.LBB4_14
.LBB4_17:
	mov	x4, x19
	cmp	x19, x27
	b.hi	.LBB4_1
	mov	w9, wzr
	and	w8, w24, #0x1
	stur	wzr, [sp, #27]
	b	.LBB4_20
.LBB4_19:
	mov	x20, xzr
	mov	w8, wzr
	stur	wzr, [sp, #27]
	mov	w9, #1
.LBB4_20:
	ldr	x10, [sp, #16]
	str	wzr, [sp, #24]
	ldp	x22, x21, [sp, #192]
	str	x20, [x10, #8]
	ldp	x20, x19, [sp, #208]
	strb	w8, [x10, #16]
	ldur	w8, [sp, #27]
	ldp	x24, x23, [sp, #176]
	strb	w9, [x10]
	strb	w9, [x10, #1]
	ldp	x26, x25, [sp, #160]
	stur	wzr, [x10, #17]
	str	w8, [x10, #20]
	ldp	x28, x27, [sp, #144]
	ldp	x29, x30, [sp, #128]
	add	sp, sp, #224
	ret
.Lfunc_end4:
	.size	"line_io::send::<#df9e9f1468b30f79>", .Lfunc_end4-"line_io::send::<#df9e9f1468b30f79>"

	.section	".text.std_io::io::error::last_error","ax",@progbits
	.p2align	2
	.type	"std_io::io::error::last_error",@function
"std_io::io::error::last_error":
	stp	x29, x30, [sp, #-32]!
	str	x19, [sp, #16]
	mov	x29, sp
	mov	x19, x0
	bl	rattle_errno
	tbnz	w0, #31, .LBB5_4
	sub	w8, w0, #1
	cmp	w8, #121
	b.hi	.LBB5_4
	adrp	x9, .LJTI5_0
	add	x9, x9, :lo12:.LJTI5_0
	adr	x10, .LBB5_3
	ldrb	w11, [x9, x8]
	add	x10, x10, x11, lsl #2
	mov	w8, #1
	br	x10
.LBB5_3:
	mov	w8, #36
	b	.LBB5_5
.LBB5_4:
	mov	w8, #41
.LBB5_5:
	movi	v0.2d, #0000000000000000
	strb	wzr, [x19]
	strb	w8, [x19, #1]
	strh	wzr, [x19, #2]
	str	w0, [x19, #4]
	stur	q0, [x19, #8]
	stur	q0, [x19, #24]
	stur	q0, [x19, #40]
	stur	q0, [x19, #56]
	stur	q0, [x19, #72]
	ldr	x19, [sp, #16]
	ldp	x29, x30, [sp], #32
	ret
.LBB5_6:
	mov	w8, #4
	b	.LBB5_5
.LBB5_7:
	mov	w8, #7
	b	.LBB5_5
.LBB5_8:
	mov	w8, #26
	b	.LBB5_5
.LBB5_9:
	mov	w8, #39
	b	.LBB5_5
.LBB5_10:
	mov	w8, #9
	b	.LBB5_5
.LBB5_11:
	mov	w8, #8
	b	.LBB5_5
.LBB5_12:
	mov	w8, #30
	b	.LBB5_5
.LBB5_13:
	mov	w8, #25
	b	.LBB5_5
.LBB5_14:
	mov	w8, #32
	b	.LBB5_5
.LBB5_15:
	mov	w8, #33
	b	.LBB5_5
.LBB5_16:
	mov	w8, #22
	b	.LBB5_5
.LBB5_17:
	mov	w8, #31
	b	.LBB5_5
.LBB5_18:
	mov	w8, #29
	b	.LBB5_5
.LBB5_19:
	mov	w8, #18
	b	.LBB5_5
.LBB5_20:
	mov	w8, #10
	b	.LBB5_5
.LBB5_21:
	mov	w8, #28
	b	.LBB5_5
.LBB5_22:
	mov	w8, #14
	b	.LBB5_5
.LBB5_23:
	mov	w8, #12
	b	.LBB5_5
.LBB5_24:
	mov	w8, #5
	b	.LBB5_5
.LBB5_25:
	mov	w8, #3
	b	.LBB5_5
.LBB5_26:
	mov	w8, wzr
	b	.LBB5_5
.LBB5_27:
	mov	w8, #13
	b	.LBB5_5
.LBB5_28:
	mov	w8, #38
	b	.LBB5_5
.LBB5_29:
	mov	w8, #11
	b	.LBB5_5
.LBB5_30:
	mov	w8, #35
	b	.LBB5_5
.LBB5_31:
	mov	w8, #34
	b	.LBB5_5
.LBB5_32:
	mov	w8, #20
	b	.LBB5_5
.LBB5_33:
	mov	w8, #15
	b	.LBB5_5
.LBB5_34:
	mov	w8, #19
	b	.LBB5_5
.LBB5_35:
	mov	w8, #16
	b	.LBB5_5
.LBB5_36:
	mov	w8, #6
	b	.LBB5_5
.LBB5_37:
	mov	w8, #27
	b	.LBB5_5
.LBB5_38:
	mov	w8, #24
	b	.LBB5_5
.LBB5_39:
	mov	w8, #2
	b	.LBB5_5
.LBB5_40:
	mov	w8, #17
	b	.LBB5_5
.Lfunc_end5:
	.size	"std_io::io::error::last_error", .Lfunc_end5-"std_io::io::error::last_error"
	.section	".rodata.std_io::io::error::last_error","a",@progbits
.LJTI5_0:
	.byte	(.LBB5_5-.LBB5_3)>>2
	.byte	(.LBB5_26-.LBB5_3)>>2
	.byte	(.LBB5_4-.LBB5_3)>>2
	.byte	(.LBB5_30-.LBB5_3)>>2
	.byte	(.LBB5_4-.LBB5_3)>>2
	.byte	(.LBB5_4-.LBB5_3)>>2
	.byte	(.LBB5_31-.LBB5_3)>>2
	.byte	(.LBB5_4-.LBB5_3)>>2
	.byte	(.LBB5_4-.LBB5_3)>>2
	.byte	(.LBB5_4-.LBB5_3)>>2
	.byte	(.LBB5_27-.LBB5_3)>>2
	.byte	(.LBB5_28-.LBB5_3)>>2
	.byte	(.LBB5_5-.LBB5_3)>>2
	.byte	(.LBB5_4-.LBB5_3)>>2
	.byte	(.LBB5_4-.LBB5_3)>>2
	.byte	(.LBB5_21-.LBB5_3)>>2
	.byte	(.LBB5_23-.LBB5_3)>>2
	.byte	(.LBB5_17-.LBB5_3)>>2
	.byte	(.LBB5_4-.LBB5_3)>>2
	.byte	(.LBB5_22-.LBB5_3)>>2
	.byte	(.LBB5_33-.LBB5_3)>>2
	.byte	(.LBB5_32-.LBB5_3)>>2
	.byte	(.LBB5_4-.LBB5_3)>>2
	.byte	(.LBB5_4-.LBB5_3)>>2
	.byte	(.LBB5_4-.LBB5_3)>>2
	.byte	(.LBB5_18-.LBB5_3)>>2
	.byte	(.LBB5_37-.LBB5_3)>>2
	.byte	(.LBB5_38-.LBB5_3)>>2
	.byte	(.LBB5_13-.LBB5_3)>>2
	.byte	(.LBB5_40-.LBB5_3)>>2
	.byte	(.LBB5_14-.LBB5_3)>>2
	.byte	(.LBB5_29-.LBB5_3)>>2
	.byte	(.LBB5_4-.LBB5_3)>>2
	.byte	(.LBB5_4-.LBB5_3)>>2
	.byte	(.LBB5_12-.LBB5_3)>>2
	.byte	(.LBB5_15-.LBB5_3)>>2
	.byte	(.LBB5_4-.LBB5_3)>>2
	.byte	(.LBB5_3-.LBB5_3)>>2
	.byte	(.LBB5_35-.LBB5_3)>>2
	.byte	(.LBB5_19-.LBB5_3)>>2
	.byte	(.LBB5_4-.LBB5_3)>>2
	.byte	(.LBB5_4-.LBB5_3)>>2
	.byte	(.LBB5_4-.LBB5_3)>>2
	.byte	(.LBB5_4-.LBB5_3)>>2
	.byte	(.LBB5_4-.LBB5_3)>>2
	.byte	(.LBB5_4-.LBB5_3)>>2
	.byte	(.LBB5_4-.LBB5_3)>>2
	.byte	(.LBB5_4-.LBB5_3)>>2
	.byte	(.LBB5_4-.LBB5_3)>>2
	.byte	(.LBB5_4-.LBB5_3)>>2
	.byte	(.LBB5_4-.LBB5_3)>>2
	.byte	(.LBB5_4-.LBB5_3)>>2
	.byte	(.LBB5_4-.LBB5_3)>>2
	.byte	(.LBB5_4-.LBB5_3)>>2
	.byte	(.LBB5_4-.LBB5_3)>>2
	.byte	(.LBB5_4-.LBB5_3)>>2
	.byte	(.LBB5_4-.LBB5_3)>>2
	.byte	(.LBB5_4-.LBB5_3)>>2
	.byte	(.LBB5_4-.LBB5_3)>>2
	.byte	(.LBB5_4-.LBB5_3)>>2
	.byte	(.LBB5_4-.LBB5_3)>>2
	.byte	(.LBB5_4-.LBB5_3)>>2
	.byte	(.LBB5_4-.LBB5_3)>>2
	.byte	(.LBB5_4-.LBB5_3)>>2
	.byte	(.LBB5_4-.LBB5_3)>>2
	.byte	(.LBB5_4-.LBB5_3)>>2
	.byte	(.LBB5_4-.LBB5_3)>>2
	.byte	(.LBB5_4-.LBB5_3)>>2
	.byte	(.LBB5_4-.LBB5_3)>>2
	.byte	(.LBB5_4-.LBB5_3)>>2
	.byte	(.LBB5_4-.LBB5_3)>>2
	.byte	(.LBB5_4-.LBB5_3)>>2
	.byte	(.LBB5_4-.LBB5_3)>>2
	.byte	(.LBB5_4-.LBB5_3)>>2
	.byte	(.LBB5_4-.LBB5_3)>>2
	.byte	(.LBB5_4-.LBB5_3)>>2
	.byte	(.LBB5_4-.LBB5_3)>>2
	.byte	(.LBB5_4-.LBB5_3)>>2
	.byte	(.LBB5_4-.LBB5_3)>>2
	.byte	(.LBB5_4-.LBB5_3)>>2
	.byte	(.LBB5_4-.LBB5_3)>>2
	.byte	(.LBB5_4-.LBB5_3)>>2
	.byte	(.LBB5_4-.LBB5_3)>>2
	.byte	(.LBB5_4-.LBB5_3)>>2
	.byte	(.LBB5_4-.LBB5_3)>>2
	.byte	(.LBB5_4-.LBB5_3)>>2
	.byte	(.LBB5_4-.LBB5_3)>>2
	.byte	(.LBB5_4-.LBB5_3)>>2
	.byte	(.LBB5_4-.LBB5_3)>>2
	.byte	(.LBB5_4-.LBB5_3)>>2
	.byte	(.LBB5_4-.LBB5_3)>>2
	.byte	(.LBB5_4-.LBB5_3)>>2
	.byte	(.LBB5_4-.LBB5_3)>>2
	.byte	(.LBB5_4-.LBB5_3)>>2
	.byte	(.LBB5_3-.LBB5_3)>>2
	.byte	(.LBB5_4-.LBB5_3)>>2
	.byte	(.LBB5_4-.LBB5_3)>>2
	.byte	(.LBB5_11-.LBB5_3)>>2
	.byte	(.LBB5_10-.LBB5_3)>>2
	.byte	(.LBB5_20-.LBB5_3)>>2
	.byte	(.LBB5_24-.LBB5_3)>>2
	.byte	(.LBB5_4-.LBB5_3)>>2
	.byte	(.LBB5_36-.LBB5_3)>>2
	.byte	(.LBB5_25-.LBB5_3)>>2
	.byte	(.LBB5_4-.LBB5_3)>>2
	.byte	(.LBB5_4-.LBB5_3)>>2
	.byte	(.LBB5_7-.LBB5_3)>>2
	.byte	(.LBB5_4-.LBB5_3)>>2
	.byte	(.LBB5_4-.LBB5_3)>>2
	.byte	(.LBB5_16-.LBB5_3)>>2
	.byte	(.LBB5_39-.LBB5_3)>>2
	.byte	(.LBB5_4-.LBB5_3)>>2
	.byte	(.LBB5_6-.LBB5_3)>>2
	.byte	(.LBB5_4-.LBB5_3)>>2
	.byte	(.LBB5_9-.LBB5_3)>>2
	.byte	(.LBB5_34-.LBB5_3)>>2
	.byte	(.LBB5_4-.LBB5_3)>>2
	.byte	(.LBB5_4-.LBB5_3)>>2
	.byte	(.LBB5_4-.LBB5_3)>>2
	.byte	(.LBB5_4-.LBB5_3)>>2
	.byte	(.LBB5_4-.LBB5_3)>>2
	.byte	(.LBB5_8-.LBB5_3)>>2

	.section	.rodata.cst16,"aM",@progbits,16
	.p2align	4, 0x0
.LCPI6_0:
	.byte	1
	.byte	2
	.byte	4
	.byte	8
	.byte	16
	.byte	32
	.byte	64
	.byte	128
	.byte	1
	.byte	2
	.byte	4
	.byte	8
	.byte	16
	.byte	32
	.byte	64
	.byte	128
	.section	.text.main,"ax",@progbits
	.globl	main
	.p2align	2
	.type	main,@function
main:
	stp	x29, x30, [sp, #-96]!
	sub	x9, sp, #148, lsl #12
	stp	x28, x27, [sp, #16]
	mov	x29, sp
	sub	x9, x9, #2048
	stp	x26, x25, [sp, #32]
	stp	x24, x23, [sp, #48]
	stp	x22, x21, [sp, #64]
	stp	x20, x19, [sp, #80]
.LBB6_1:
	sub	sp, sp, #3072
	cmp	sp, x9
	str	xzr, [sp]
	b.ne	.LBB6_1
	sub	sp, sp, #2432
	add	x19, sp, #136, lsl #12
	mov	w0, #13
	mov	w1, #1
	str	xzr, [sp]
	add	x19, x19, #1112
	mov	w24, #1
	bl	__sysv_signal
	add	x0, sp, #136, lsl #12
	mov	w1, wzr
	mov	w2, #1031
	add	x0, x0, #81
	bl	memset
	add	x0, sp, #120, lsl #12
	mov	w1, wzr
	mov	w2, #65536
	add	x0, x0, #81
	bl	memset
	add	x0, sp, #88, lsl #12
	mov	w1, wzr
	mov	w2, #131072
	add	x0, x0, #81
	bl	memset
	mov	w2, #32826
	add	x0, sp, #23
	mov	w1, wzr
	movk	w2, #5, lsl #16
	bl	memset
	mov	x25, xzr
	mov	x27, xzr
	mov	x20, xzr
	mov	x26, xzr
	mov	x21, xzr
	b	.LBB6_5
.LBB6_3:
	add	x0, sp, #136, lsl #12
	add	x3, sp, #88, lsl #12
	ldr	x1, [sp, #8]
	add	x0, x0, #1112
	add	x3, x3, #81
	add	x5, sp, #23
	mov	w2, w24
	mov	x4, x22
	bl	"line_io::send::<#df9e9f1468b30f79>"
	add	x19, sp, #136, lsl #12
	add	x19, x19, #1112
	ldrb	w8, [x19]
	cbnz	w8, .LBB6_32
	ldr	x20, [x19, #8]
	ldrb	w24, [x19, #16]
	add	x25, x25, #1
	cmn	x25, #1
	b.eq	.LBB6_26
.LBB6_5:
	cmp	x26, x27
	b.hs	.LBB6_23
	add	x0, sp, #136, lsl #12
	mov	w1, wzr
	mov	w2, #52488
	add	x0, x0, #1136
	str	x20, [sp, #8]
	stp	xzr, xzr, [x19]
	str	xzr, [x19, #16]
	bl	memset
	mov	x22, xzr
	neg	x28, x27
	b	.LBB6_8
.LBB6_7:
	mov	w8, #1031
	sub	x8, x8, x21
	cmp	x8, x19
	csel	x23, x8, x19, lo
	add	x8, sp, #136, lsl #12
	add	x8, x8, #81
	mov	x2, x23
	add	x0, x8, x21
	bl	memcpy
	add	x21, x23, x21
	add	x26, x19, x26
	cmp	x26, x27
	b.hs	.LBB6_3
.LBB6_8:
	mov	x8, #-32520
	mov	w9, #33017
	movk	x8, #65534, lsl #16
	add	x8, x22, x8
	cmp	x8, x9
	b.lo	.LBB6_3
	add	x8, sp, #120, lsl #12
	sub	x19, x27, x26
	add	x8, x8, #81
	cmp	x19, #32
	add	x1, x8, x26
	mov	x8, xzr
	b.lo	.LBB6_14
	sub	x9, x27, x26
.LBB6_11:
	movi	v0.16b, #10
	add	x10, x1, x8
	ldp	q1, q2, [x10]
	adrp	x10, .LCPI6_0
	cmeq	v2.16b, v2.16b, v0.16b
	cmeq	v0.16b, v1.16b, v0.16b
	ldr	q1, [x10, :lo12:.LCPI6_0]
	and	v2.16b, v2.16b, v1.16b
	and	v0.16b, v0.16b, v1.16b
	ext	v1.16b, v2.16b, v2.16b, #8
	ext	v3.16b, v0.16b, v0.16b, #8
	zip1	v1.16b, v2.16b, v1.16b
	zip1	v0.16b, v0.16b, v3.16b
	addv	h1, v1.8h
	addv	h0, v0.8h
	fmov	w10, s1
	fmov	w11, s0
	orr	w10, w11, w10
	tst	w10, #0xffff
	b.ne	.LBB6_14
	sub	x9, x9, #32
	add	x8, x8, #32
	cmp	x9, #31
	b.hi	.LBB6_11
	and	x8, x19, #0xffffffffffffffe0
.LBB6_14:
	cmp	x8, x19
	b.hs	.LBB6_7
	add	x10, sp, #120, lsl #12
	add	x9, x26, x8
	neg	x20, x8
	add	x10, x10, #81
	add	x8, x28, x26
	add	x9, x10, x9
.LBB6_16:
	ldrb	w10, [x9], #1
	cmp	w10, #10
	b.eq	.LBB6_18
	sub	x20, x20, #1
	cmp	x8, x20
	b.ne	.LBB6_16
	b	.LBB6_7
.LBB6_18:
	neg	x8, x20
	cmp	x19, x8
	neg	x19, x20
	b.ls	.LBB6_7
	cbz	x21, .LBB6_21
	mov	w9, #1031
	sub	x9, x9, x21
	cmp	x9, x8
	csel	x23, x9, x8, lo
	add	x8, sp, #136, lsl #12
	add	x8, x8, #81
	mov	x2, x23
	add	x0, x8, x21
	bl	memcpy
	add	x0, sp, #136, lsl #12
	add	x2, sp, #136, lsl #12
	add	x3, sp, #88, lsl #12
	add	x0, x0, #81
	add	x1, x23, x21
	add	x2, x2, #1136
	add	x3, x3, #81
	b	.LBB6_22
.LBB6_21:
	cmp	x8, #1031
	mov	w9, #1031
	add	x2, sp, #136, lsl #12
	csel	x8, x8, x9, lo
	add	x3, sp, #88, lsl #12
	add	x2, x2, #1136
	add	x3, x3, #81
	mov	x0, x1
	mov	x1, x8
.LBB6_22:
	mov	x4, x22
	bl	"lines::tell"
	sub	x8, x26, x20
	mov	x22, x0
	mov	x21, xzr
	add	x26, x8, #1
	cmp	x26, x27
	b.lo	.LBB6_8
	b	.LBB6_3
.LBB6_23:
	add	x1, sp, #120, lsl #12
	mov	w0, wzr
	mov	w2, #65536
	add	x1, x1, #81
	bl	read
	tbnz	x0, #63, .LBB6_27
	cbz	x0, .LBB6_28
	cmp	x0, #16, lsl #12
	mov	w8, #65536
	mov	x26, xzr
	csel	x27, x0, x8, lo
	add	x25, x25, #1
	cmn	x25, #1
	b.ne	.LBB6_5
.LBB6_26:
	mov	w0, #1
	b	.LBB6_33
.LBB6_27:
	add	x0, sp, #136, lsl #12
	add	x0, x0, #1136
	bl	"std_io::io::error::last_error"
	mov	w0, #1
	b	.LBB6_33
.LBB6_28:
	stp	xzr, xzr, [x19]
	str	xzr, [x19, #16]
	cbz	x21, .LBB6_30
	add	x0, sp, #136, lsl #12
	mov	w1, wzr
	mov	w2, #52488
	add	x0, x0, #1136
	bl	memset
	add	x0, sp, #136, lsl #12
	add	x2, sp, #136, lsl #12
	add	x3, sp, #88, lsl #12
	add	x0, x0, #81
	add	x2, x2, #1136
	add	x3, x3, #81
	mov	x1, x21
	mov	x4, xzr
	bl	"lines::tell"
	mov	x4, x0
	b	.LBB6_31
.LBB6_30:
	mov	x4, xzr
.LBB6_31:
	add	x0, sp, #136, lsl #12
	add	x3, sp, #88, lsl #12
	add	x5, sp, #23
	add	x0, x0, #1112
	add	x3, x3, #81
	mov	x1, x20
	mov	w2, w24
	bl	"line_io::send::<#df9e9f1468b30f79>"
	ldrb	w8, [x19]
	cbz	w8, .LBB6_34
.LBB6_32:
	ldrb	w8, [x19, #1]
	tst	w8, #0xff
	mov	w8, #1
	cinc	w0, w8, ne
.LBB6_33:
	add	sp, sp, #149, lsl #12
	add	sp, sp, #384
	ldp	x20, x19, [sp, #80]
	ldp	x22, x21, [sp, #64]
	ldp	x24, x23, [sp, #48]
	ldp	x26, x25, [sp, #32]
	ldp	x28, x27, [sp, #16]
	ldp	x29, x30, [sp], #96
	ret
.LBB6_34:
	mov	w0, wzr
	b	.LBB6_33
.Lfunc_end6:
	.size	main, .Lfunc_end6-main

	.ident	"rattle logic=dac8208d650f15bf3e2dc313a14fa4c783a3acf887bdfab66e1714b038d9e11b"
	.section	".note.GNU-stack","",@progbits
