/* Undrwyth, the program rows for aarch64 under Linux: made by scripts/dist from the sources of state 6ebe34014c5cbdcaab53ada40270abd81a24510c61112a54dce22a0a74dc2a61, which the Rattle kit proved; do not edit. SPDX-License-Identifier: MIT */
	.file	"rattle"
	.section	.rodata.cst16,"aM",@progbits,16
	.p2align	4, 0x0
.LCPI0_0:
	.xword	1
	.xword	0
.LCPI0_1:
	.xword	-1
	.xword	0
.LCPI0_2:
	.xword	0
	.xword	1
.LCPI0_3:
	.xword	0
	.xword	-1
.LCPI0_4:
	.byte	8
	.byte	255
	.byte	255
	.byte	255
	.byte	9
	.byte	255
	.byte	255
	.byte	255
	.byte	10
	.byte	255
	.byte	255
	.byte	255
	.byte	11
	.byte	255
	.byte	255
	.byte	255
.LCPI0_5:
	.byte	4
	.byte	255
	.byte	255
	.byte	255
	.byte	5
	.byte	255
	.byte	255
	.byte	255
	.byte	6
	.byte	255
	.byte	255
	.byte	255
	.byte	7
	.byte	255
	.byte	255
	.byte	255
.LCPI0_6:
	.byte	0
	.byte	255
	.byte	255
	.byte	255
	.byte	1
	.byte	255
	.byte	255
	.byte	255
	.byte	2
	.byte	255
	.byte	255
	.byte	255
	.byte	3
	.byte	255
	.byte	255
	.byte	255
.LCPI0_7:
	.byte	12
	.byte	255
	.byte	255
	.byte	255
	.byte	13
	.byte	255
	.byte	255
	.byte	255
	.byte	14
	.byte	255
	.byte	255
	.byte	255
	.byte	15
	.byte	255
	.byte	255
	.byte	255
.LCPI0_8:
	.byte	0
	.byte	4
	.byte	8
	.byte	12
	.byte	16
	.byte	20
	.byte	24
	.byte	28
	.byte	32
	.byte	36
	.byte	40
	.byte	44
	.byte	48
	.byte	52
	.byte	56
	.byte	60
.LCPI0_9:
	.byte	8
	.byte	9
	.byte	24
	.byte	25
	.byte	40
	.byte	41
	.byte	56
	.byte	57
	.byte	255
	.byte	255
	.byte	255
	.byte	255
	.byte	255
	.byte	255
	.byte	255
	.byte	255
.LCPI0_10:
	.word	4294967284
	.word	4294967288
	.word	0
	.word	0
	.section	.rodata.cst8,"aM",@progbits,8
	.p2align	3, 0x0
.LCPI0_11:
	.hword	15
	.hword	15
	.hword	255
	.hword	15
.LCPI0_12:
	.hword	10
	.hword	10
	.hword	160
	.hword	10
	.section	".text.lines::tell","ax",@progbits
	.p2align	2
	.type	"lines::tell",@function
"lines::tell":
	stp	d15, d14, [sp, #-160]!
	sub	x9, sp, #32, lsl #12
	stp	d13, d12, [sp, #16]
	sub	x9, x9, #1024
	stp	d11, d10, [sp, #32]
	stp	d9, d8, [sp, #48]
	stp	x29, x30, [sp, #64]
	add	x29, sp, #64
	stp	x28, x27, [sp, #80]
	stp	x26, x25, [sp, #96]
	stp	x24, x23, [sp, #112]
	stp	x22, x21, [sp, #128]
	stp	x20, x19, [sp, #144]
.LBB0_1:
	sub	sp, sp, #3072
	cmp	sp, x9
	str	xzr, [sp]
	b.ne	.LBB0_1
	sub	sp, sp, #320
	mov	x20, x2
	mov	x24, x1
	mov	x23, x0
	sub	x22, x1, #1031
	add	x0, sp, #240
	mov	w1, wzr
	mov	w2, #1024
	mov	x21, x4
	mov	x19, x3
	bl	memset
	cmn	x22, #1025
	b.lo	.LBB0_21
	cmp	x24, #8
	b.hs	.LBB0_5
	mov	x8, xzr
	mov	w9, #1
	b	.LBB0_14
.LBB0_5:
	cmp	x24, #32
	b.hs	.LBB0_7
	mov	x8, xzr
	mov	w9, #1
	b	.LBB0_11
.LBB0_7:
	movi	v0.16b, #1
	movi	v1.16b, #1
	and	x10, x24, #0x18
	and	x8, x24, #0x7e0
	add	x9, x23, #16
	and	x11, x24, #0x7e0
.LBB0_8:
	movi	v2.16b, #208
	movi	v3.16b, #159
	subs	x11, x11, #32
	ldp	q4, q5, [x9, #-16]
	movi	v6.16b, #10
	movi	v7.16b, #6
	add	x9, x9, #32
	add	v16.16b, v4.16b, v2.16b
	add	v2.16b, v5.16b, v2.16b
	add	v4.16b, v4.16b, v3.16b
	add	v3.16b, v5.16b, v3.16b
	cmhi	v5.16b, v6.16b, v16.16b
	cmhi	v2.16b, v6.16b, v2.16b
	cmhi	v4.16b, v7.16b, v4.16b
	cmhi	v3.16b, v7.16b, v3.16b
	orr	v4.16b, v5.16b, v4.16b
	orr	v2.16b, v2.16b, v3.16b
	and	v0.16b, v0.16b, v4.16b
	and	v1.16b, v1.16b, v2.16b
	b.ne	.LBB0_8
	and	v0.16b, v1.16b, v0.16b
	cmp	x24, x8
	shl	v0.16b, v0.16b, #7
	cmlt	v0.16b, v0.16b, #0
	uminv	b0, v0.16b
	fmov	w9, s0
	b.eq	.LBB0_16
	cbz	x10, .LBB0_14
.LBB0_11:
	movi	v0.2d, #0xffffffffffffffff
	mov	x10, x8
	and	x8, x24, #0x7f8
	mov	v0.b[0], w9
	sub	x9, x10, x8
	add	x10, x23, x10
.LBB0_12:
	movi	v1.8b, #208
	movi	v2.8b, #159
	adds	x9, x9, #8
	ldr	d3, [x10], #8
	movi	v4.8b, #10
	movi	v5.8b, #6
	add	v1.8b, v3.8b, v1.8b
	add	v2.8b, v3.8b, v2.8b
	cmhi	v1.8b, v4.8b, v1.8b
	cmhi	v2.8b, v5.8b, v2.8b
	orr	v1.8b, v1.8b, v2.8b
	and	v0.8b, v0.8b, v1.8b
	b.ne	.LBB0_12
	shl	v0.8b, v0.8b, #7
	cmp	x24, x8
	cmlt	v0.8b, v0.8b, #0
	uminv	b0, v0.8b
	fmov	w9, s0
	b.eq	.LBB0_16
.LBB0_14:
	sub	x10, x24, x8
	add	x8, x23, x8
.LBB0_15:
	ldrb	w11, [x8], #1
	sub	w12, w11, #48
	sub	w11, w11, #97
	cmp	w12, #10
	ccmp	w11, #6, #0, hs
	cset	w11, lo
	subs	x10, x10, #1
	and	w9, w9, w11
	b.ne	.LBB0_15
.LBB0_16:
	tbz	w9, #0, .LBB0_21
	ldrb	w9, [x23]
	mov	w8, #-87
	mov	w10, #-48
	ldrb	w12, [x23, #1]
	cmp	w9, #58
	csel	w11, w10, w8, lo
	cmp	w12, #58
	add	w9, w11, w9
	and	x9, x9, #0xff
	lsl	x11, x9, #4
	csel	w9, w10, w8, lo
	add	w9, w9, w12
	add	x11, x11, w9, uxtb
	cmp	x11, #1
	b.hi	.LBB0_21
	ldrb	w11, [x23, #2]
	ldrb	w12, [x23, #3]
	ldrb	w14, [x23, #4]
	ldrb	w15, [x23, #5]
	cmp	w11, #58
	csel	w13, w10, w8, lo
	cmp	w12, #58
	add	w11, w13, w11
	csel	w13, w10, w8, lo
	cmp	w14, #58
	add	w12, w13, w12
	ubfiz	x25, x11, #12, #8
	csel	w11, w10, w8, lo
	ubfiz	x26, x12, #8, #8
	cmp	w15, #58
	csel	w8, w10, w8, lo
	add	w10, w11, w14
	add	w28, w8, w15
	add	x8, x26, x25
	ubfiz	x27, x10, #4, #8
	bfxil	x8, x28, #0, #8
	add	x22, x8, x27
	sub	x8, x24, #6
	cmp	x8, x22
	b.ne	.LBB0_21
	tst	w9, #0xff
	b.eq	.LBB0_23
	mov	x3, xzr
	mov	w2, #18
	b	.LBB0_22
.LBB0_21:
	mov	x3, xzr
	mov	w2, #8
.LBB0_22:
	mov	x0, x19
	mov	x1, x21
	add	sp, sp, #32, lsl #12
	add	sp, sp, #1344
	ldp	x20, x19, [sp, #144]
	ldp	x22, x21, [sp, #128]
	ldp	x24, x23, [sp, #112]
	ldp	x26, x25, [sp, #96]
	ldp	x28, x27, [sp, #80]
	ldp	x29, x30, [sp, #64]
	ldp	d9, d8, [sp, #48]
	ldp	d11, d10, [sp, #32]
	ldp	d13, d12, [sp, #16]
	ldp	d15, d14, [sp], #160
	b	"line_rows::tell_refusal"
.LBB0_23:
	add	x0, sp, #24, lsl #12
	mov	w1, wzr
	mov	w2, #1024
	add	x0, x0, #1312
	bl	memset
	cbz	x22, .LBB0_58
	cmp	x22, #8
	and	x8, x28, #0xff
	b.hs	.LBB0_26
	mov	x9, xzr
	b	.LBB0_35
.LBB0_26:
	cmp	x22, #32
	b.hs	.LBB0_28
	mov	x9, xzr
	b	.LBB0_32
.LBB0_28:
	add	x11, sp, #24, lsl #12
	and	x10, x22, #0x18
	and	x9, x22, #0x3fffe0
	add	x11, x11, #1312
	add	x12, x23, #22
	and	x13, x22, #0x3fffe0
	add	x11, x11, #16
.LBB0_29:
	movi	v0.16b, #58
	ldp	q1, q2, [x12, #-16]
	movi	v3.16b, #169
	movi	v4.16b, #208
	subs	x13, x13, #32
	add	x12, x12, #32
	cmhi	v5.16b, v0.16b, v1.16b
	cmhi	v0.16b, v0.16b, v2.16b
	bsl	v5.16b, v4.16b, v3.16b
	bsl	v0.16b, v4.16b, v3.16b
	add	v1.16b, v5.16b, v1.16b
	add	v0.16b, v0.16b, v2.16b
	stp	q1, q0, [x11, #-16]
	add	x11, x11, #32
	b.ne	.LBB0_29
	cmp	x22, x9
	b.eq	.LBB0_37
	cbz	x10, .LBB0_35
.LBB0_32:
	and	x10, x8, #0x7
	add	x12, sp, #24, lsl #12
	add	x14, x9, x23
	add	x11, x9, x10
	add	x12, x12, #1312
	sub	x11, x11, x8
	sub	x11, x11, x27
	sub	x13, x11, x26
	add	x11, x12, x9
	sub	x9, x22, x10
	sub	x12, x13, x25
	add	x13, x14, #6
.LBB0_33:
	movi	v0.8b, #58
	ldr	d1, [x13], #8
	movi	v2.8b, #169
	movi	v3.8b, #208
	adds	x12, x12, #8
	cmhi	v0.8b, v0.8b, v1.8b
	bsl	v0.8b, v3.8b, v2.8b
	add	v0.8b, v0.8b, v1.8b
	str	d0, [x11], #8
	b.ne	.LBB0_33
	cbz	x10, .LBB0_37
.LBB0_35:
	add	x10, x25, x26
	add	x11, sp, #24, lsl #12
	add	x12, x9, x23
	add	x10, x10, x27
	add	x11, x11, #1312
	add	x10, x10, x8
	sub	x10, x10, x9
	add	x9, x11, x9
	add	x11, x12, #6
.LBB0_36:
	ldrb	w12, [x11], #1
	mov	w13, #-87
	mov	w14, #-48
	cmp	w12, #58
	csel	w13, w14, w13, lo
	subs	x10, x10, #1
	add	w12, w13, w12
	strb	w12, [x9], #1
	b.ne	.LBB0_36
.LBB0_37:
	cmp	x22, #4
	b.hs	.LBB0_39
	mov	w10, wzr
	mov	x9, xzr
	b	.LBB0_48
.LBB0_39:
	cmp	x22, #32
	b.hs	.LBB0_41
	mov	x9, xzr
	mov	w10, wzr
	b	.LBB0_45
.LBB0_41:
	movi	v0.2d, #0000000000000000
	movi	v1.2d, #0000000000000000
	add	x10, sp, #24, lsl #12
	add	x10, x10, #1312
	and	x11, x22, #0x1c
	and	x9, x22, #0x3fffe0
	add	x10, x10, #16
	and	x12, x22, #0x3fffe0
.LBB0_42:
	ldp	q2, q3, [x10, #-16]
	subs	x12, x12, #32
	add	x10, x10, #32
	umax	v0.16b, v2.16b, v0.16b
	umax	v1.16b, v3.16b, v1.16b
	b.ne	.LBB0_42
	umax	v0.16b, v0.16b, v1.16b
	cmp	x22, x9
	umaxv	b0, v0.16b
	fmov	w10, s0
	b.eq	.LBB0_50
	cbz	x11, .LBB0_48
.LBB0_45:
	and	x11, x8, #0x3
	dup	v0.4h, w10
	add	x12, x9, x11
	sub	x10, x12, x8
	sub	x10, x10, x27
	sub	x12, x10, x26
	add	x10, sp, #24, lsl #12
	add	x10, x10, #1312
	sub	x12, x12, x25
	add	x10, x10, x9
	sub	x9, x22, x11
.LBB0_46:
	ldr	s1, [x10], #4
	bic	v0.4h, #255, lsl #8
	adds	x12, x12, #4
	ushll	v1.8h, v1.8b, #0
	umax	v0.4h, v1.4h, v0.4h
	b.ne	.LBB0_46
	umaxv	h0, v0.4h
	fmov	w10, s0
	cbz	x11, .LBB0_50
.LBB0_48:
	add	x11, x25, x26
	add	x11, x11, x27
	add	x8, x11, x8
	add	x11, sp, #24, lsl #12
	add	x11, x11, #1312
	sub	x8, x8, x9
	add	x9, x11, x9
.LBB0_49:
	ldrb	w11, [x9], #1
	and	w10, w10, #0xff
	cmp	w11, w10
	csel	w10, w11, w10, hi
	subs	x8, x8, #1
	b.ne	.LBB0_49
.LBB0_50:
	and	w8, w10, #0xff
	cmp	w8, #4
	b.lo	.LBB0_58
	mov	x8, xzr
	mov	x3, xzr
.LBB0_52:
	add	x9, sp, #24, lsl #12
	add	x9, x9, #1312
	ldrb	w9, [x9, x3]
	cmp	w9, #4
	b.ne	.LBB0_55
	cbz	x8, .LBB0_141
	mov	x9, #-1
	add	x3, x3, #1
	add	x8, x9, x8
	cmp	x22, x3
	b.ne	.LBB0_52
	b	.LBB0_58
.LBB0_55:
	cmp	w9, #3
	b.hi	.LBB0_140
	lsr	x9, x8, #14
	cbnz	x9, .LBB0_142
	mov	w9, #1
	add	x3, x3, #1
	add	x8, x9, x8
	cmp	x22, x3
	b.ne	.LBB0_52
.LBB0_58:
	ldr	w8, [x20, #72]
	add	w9, w8, #1
	str	w9, [x20, #72]
	cbnz	w8, .LBB0_60
	mov	w8, #1
	str	w8, [x20, #80]
.LBB0_60:
	cbz	x22, .LBB0_122
	mov	w10, #32000
	mov	x8, xzr
	mov	x24, xzr
	mov	x9, xzr
	mov	x12, xzr
	add	x23, x20, x10
	mov	w25, #1
	b	.LBB0_64
.LBB0_62:
	cmp	x13, #0
	sub	x24, x24, #1
	cset	w12, eq
	cmp	x13, #2
	cinc	w9, w9, eq
	cmp	x13, #1
	cset	w16, eq
	cmp	x13, #3
	sub	w9, w9, w12
	cinc	w10, w10, eq
	sub	w10, w10, w16
	orr	x9, x9, x10, lsl #32
.LBB0_63:
	mov	w10, #12
	add	x12, x20, x15
	madd	x10, x8, x10, x23
	add	x8, x8, #1
	cmp	x8, x22
	str	w25, [x10]
	ldr	w12, [x12, #72]
	stp	w12, w14, [x10, #4]
	mov	x12, x11
	b.eq	.LBB0_124
.LBB0_64:
	add	x10, sp, #24, lsl #12
	add	x11, sp, #240
	add	x10, x10, #1312
	ldrb	w13, [x10, x8]
	lsr	x10, x9, #32
	cmp	w13, #4
	b.ne	.LBB0_71
	add	x11, x11, x24
	mov	w15, #100
	ldurb	w16, [x11, #-1]
	mov	w11, #25
	and	x13, x16, #0x3
	eor	x17, x13, #0x2
	madd	x11, x12, x11, x17
	add	x14, x20, x11, lsl #2
	ldr	w0, [x14, #40]
	sub	x11, x0, #1
	mul	x15, x11, x15
	ldr	w4, [x20, x15]
	cbz	w4, .LBB0_79
	add	x0, x16, #10
	mov	w18, #2
	mov	x1, x11
	mov	x3, x12
.LBB0_67:
	mov	w2, #25
	madd	x2, x4, x2, x16
	add	x2, x20, x2, lsl #2
	ldur	w2, [x2, #-44]
	cmp	w2, w24
	b.ne	.LBB0_95
	sub	x2, x4, #1
	mov	w4, #25
	mov	w5, #100
	madd	x4, x2, x4, x0
	cmp	x2, x3
	cinc	w18, w18, ne
	mul	x6, x2, x5
	ldr	w4, [x20, x4, lsl #2]
	sub	x5, x4, #1
	ldr	w4, [x20, x6]
	cmp	x5, x1
	mov	x1, x2
	mov	x3, x5
	cinc	w18, w18, ne
	cbnz	w4, .LBB0_67
	add	x0, x2, #1
	mov	w1, #100
	madd	x1, x5, x1, x20
	ldr	w2, [x1, #76]
	cmp	w2, w24
	b.ne	.LBB0_80
.LBB0_70:
	ldr	w1, [x1]
	cmp	x0, x1
	cset	w1, ne
	b	.LBB0_81
.LBB0_71:
	mov	w14, #25
	strb	w13, [x11, x24]
	add	x24, x24, #1
	mul	x16, x12, x14
	add	x14, x13, #10
	add	x15, x14, x16
	ldr	w15, [x20, x15, lsl #2]
	cbz	w15, .LBB0_89
	sub	x11, x15, #1
.LBB0_73:
	mov	w12, #100
	mul	x15, x11, x12
	add	x12, x20, x15
	ldr	w17, [x12, #72]
	add	w18, w17, #1
	str	w18, [x12, #72]
	cbnz	w17, .LBB0_75
	add	w17, w24, #1
	str	w17, [x12, #80]
.LBB0_75:
	and	x12, x13, #0x3
	mov	w17, #25
	add	x16, x16, x13
	eor	x12, x12, #0x2
	add	x16, x20, x16, lsl #2
	cmp	w13, #0
	madd	x12, x11, x17, x12
	cinc	x9, x9, eq
	cmp	w13, #2
	ldr	w17, [x16, #84]
	add	w17, w17, #1
	str	w17, [x16, #84]
	mov	w16, #100
	add	x12, x20, x12, lsl #2
	ldr	w0, [x12, #40]
	str	w17, [x12, #84]
	cset	w12, hi
	add	x17, x11, #1
	sub	x18, x0, #1
	mul	x1, x18, x16
	cset	w16, eq
	cmp	w13, #1
	cinc	x10, x10, eq
	cmp	x17, x25
	mov	w17, #2
	csinc	x25, x25, x11, ls
	ldr	w1, [x20, x1]
	cbz	w1, .LBB0_93
	mov	x2, x11
.LBB0_77:
	mov	w0, #25
	madd	x0, x1, x0, x13
	add	x0, x20, x0, lsl #2
	ldur	w0, [x0, #-44]
	cmp	w0, w24
	b.ne	.LBB0_96
	sub	x0, x1, #1
	mov	w1, #25
	mov	w3, #100
	madd	x1, x0, x1, x14
	cmp	x0, x2
	cinc	w17, w17, ne
	mul	x4, x0, x3
	ldr	w1, [x20, x1, lsl #2]
	sub	x3, x1, #1
	ldr	w1, [x20, x4]
	cmp	x3, x18
	mov	x18, x0
	mov	x2, x3
	cinc	w17, w17, ne
	cbnz	w1, .LBB0_77
	b	.LBB0_97
.LBB0_79:
	mov	w18, #2
	mov	w1, #100
	madd	x1, x12, x1, x20
	ldr	w2, [x1, #76]
	cmp	w2, w24
	b.eq	.LBB0_70
.LBB0_80:
	mov	w1, wzr
.LBB0_81:
	mov	w0, #25
	madd	x0, x11, x0, x16
	add	x2, x20, x0, lsl #2
	mov	w0, #100
	madd	x0, x12, x0, x20
	ldr	w3, [x2, #84]
	sub	w3, w3, #1
	str	w3, [x2, #84]
	str	w3, [x14, #84]
	ldr	w14, [x0, #72]
	subs	w14, w14, #1
	str	w14, [x0, #72]
	b.ne	.LBB0_83
	str	wzr, [x0, #80]
.LBB0_83:
	add	w14, w1, w18
	sub	x17, x17, #25
	mov	x18, x11
.LBB0_84:
	mov	w1, #25
	madd	x1, x18, x1, x16
	add	x1, x20, x1, lsl #2
	ldr	w2, [x1, #56]
	cmp	w2, w24
	b.ne	.LBB0_86
	ldr	w2, [x1, #40]
	mov	w3, #25
	str	wzr, [x1, #40]
	str	wzr, [x1, #56]
	umaddl	x2, w2, w3, x17
	mov	w3, #100
	mul	x18, x18, x3
	add	x2, x20, x2, lsl #2
	str	wzr, [x2, #40]
	str	wzr, [x2, #56]
	ldr	w1, [x20, x18]
	sub	x18, x1, #1
	cbnz	w1, .LBB0_84
.LBB0_86:
	ldr	w16, [x0, #76]
	cmp	w16, w24
	b.ne	.LBB0_62
	mov	w16, w10
	mov	w17, w9
.LBB0_88:
	mov	w18, #100
	tst	w17, #0x1
	mov	w1, #4
	madd	x0, x12, x18, x20
	mov	w12, #7
	mov	w2, #1
	csel	x12, x1, x12, eq
	cmn	w17, #1
	movi	v0.2d, #0000000000000000
	csinc	x1, x12, xzr, ne
	tst	w16, #0x1
	add	w17, w17, w17, lsr #31
	cinc	x12, x2, ne
	cmn	w16, #1
	mov	w2, #25
	csel	x4, xzr, x12, eq
	add	w16, w16, w16, lsr #31
	asr	w17, w17, #1
	ldr	w3, [x0]
	add	x1, x1, x4
	sub	x25, x25, #1
	asr	w16, w16, #1
	sub	x12, x3, #1
	umaddl	x18, w3, w18, x20
	madd	x1, x12, x2, x1
	str	wzr, [x20, x1, lsl #2]
	str	wzr, [x0, #96]
	stp	q0, q0, [x0]
	stp	q0, q0, [x0, #32]
	stp	q0, q0, [x0, #64]
	ldur	w18, [x18, #-24]
	cmp	w18, w24
	b.eq	.LBB0_88
	b	.LBB0_62
.LBB0_89:
	cmp	w13, #0
	mov	x15, xzr
	mov	w1, w10
	cset	w11, eq
	cmp	w13, #2
	mov	w2, w9
	cset	w17, eq
	cset	w18, hi
	cmp	w13, #1
	sub	w17, w11, w17
	cset	w11, eq
	sub	w18, w11, w18
.LBB0_90:
	add	w11, w2, w17
	add	w0, w1, w1, lsr #31
	add	w3, w1, w18
	add	w4, w2, w2, lsr #31
	add	w11, w11, w11, lsr #31
	add	w5, w3, w3, lsr #31
	asr	w0, w0, #1
	asr	w3, w4, #1
	asr	w11, w11, #1
	cmp	w0, w5, asr #1
	ccmp	w3, w11, #0, eq
	b.eq	.LBB0_100
	mov	w11, #100
	add	x15, x15, #1
	mov	w2, w3
	mul	x11, x12, x11
	ldr	w11, [x20, x11]
	sub	x12, x11, #1
	mov	w11, #25
	mul	x11, x12, x11
	add	x1, x11, x14
	ldr	w4, [x20, x1, lsl #2]
	mov	w1, w0
	cbz	w4, .LBB0_90
	mov	w2, w3
	mov	w1, w0
	b	.LBB0_101
.LBB0_93:
	add	x13, x20, x15
	ldr	w14, [x13, #76]
	cmp	w14, w24
	b.eq	.LBB0_98
.LBB0_94:
	mov	w13, wzr
	b	.LBB0_99
.LBB0_95:
	add	x0, x1, #1
	mov	w1, #100
	madd	x1, x3, x1, x20
	ldr	w2, [x1, #76]
	cmp	w2, w24
	b.ne	.LBB0_80
	b	.LBB0_70
.LBB0_96:
	mov	x3, x2
	mov	x0, x18
.LBB0_97:
	mov	w13, #100
	add	x0, x0, #1
	mul	x13, x3, x13
	add	x13, x20, x13
	ldr	w14, [x13, #76]
	cmp	w14, w24
	b.ne	.LBB0_94
.LBB0_98:
	ldr	w13, [x13]
	cmp	x0, x13
	cset	w13, ne
.LBB0_99:
	sub	x9, x9, x16
	sub	x10, x10, x12
	add	w14, w13, w17
	bfi	x9, x10, #32, #32
	b	.LBB0_63
.LBB0_100:
	mov	w11, #25
	mul	x11, x12, x11
.LBB0_101:
	add	x0, x11, x13
	add	x0, x20, x0, lsl #2
	ldr	w3, [x0, #40]
	cbz	w3, .LBB0_103
	sub	x11, x3, #1
	b	.LBB0_112
.LBB0_103:
	add	w4, w2, w17
	add	w3, w1, w18
	orr	w5, w3, w4
	cbz	w5, .LBB0_108
	orr	w2, w1, w2
	mov	x1, x12
	cbz	w2, .LBB0_106
	mov	w11, #100
	mul	x11, x12, x11
	ldr	w11, [x20, x11]
	sub	x1, x11, #1
	mov	w11, #25
	mul	x11, x1, x11
.LBB0_106:
	tst	w4, #0x1
	mov	w2, #7
	mov	w5, #4
	csel	x2, x5, x2, eq
	cmn	w4, #1
	mov	w4, #1
	csinc	x2, x2, xzr, ne
	tst	w3, #0x1
	cinc	x4, x4, ne
	cmn	w3, #1
	csel	x3, xzr, x4, eq
	add	x2, x3, x2
	add	x11, x2, x11
	ldr	w2, [x20, x11, lsl #2]
	cbz	w2, .LBB0_109
	sub	x11, x2, #1
	b	.LBB0_111
.LBB0_108:
	ubfiz	x1, x13, #2, #2
	mov	w2, #1
	str	w24, [x0, #56]
	add	w3, w12, #1
	str	w2, [x0, #40]
	mov	x11, xzr
	eor	x1, x1, #0x8
	add	x0, x20, x1
	str	w3, [x0, #40]
	str	w24, [x0, #56]
	b	.LBB0_112
.LBB0_109:
	add	x2, x25, #1
	mov	w3, #25
	mov	w4, #8000
	mul	x3, x2, x3
	cmp	x3, x4
	b.hi	.LBB0_123
	mov	w3, #100
	str	w2, [x20, x11, lsl #2]
	add	w11, w1, #1
	madd	x3, x25, x3, x20
	str	w11, [x3]
	mov	x11, x25
	str	w24, [x3, #76]
.LBB0_111:
	and	x1, x13, #0x3
	mov	w2, #25
	add	w3, w12, #1
	eor	x1, x1, #0x2
	str	w24, [x0, #56]
	madd	x1, x11, x2, x1
	add	w2, w11, #1
	str	w2, [x0, #40]
	add	x1, x20, x1, lsl #2
	str	w3, [x1, #40]
	str	w24, [x1, #56]
.LBB0_112:
	cbz	x15, .LBB0_73
	and	x0, x13, #0x3
	sub	x1, x15, #1
	eor	x0, x0, #0x2
	b	.LBB0_116
.LBB0_114:
	sub	x11, x4, #1
.LBB0_115:
	sub	x12, x12, #1
	mov	w2, #25
	add	w4, w11, #1
	madd	x3, x12, x2, x13
	sub	x1, x1, #1
	madd	x2, x11, x2, x0
	add	x3, x20, x3, lsl #2
	add	x2, x20, x2, lsl #2
	str	w4, [x3, #40]
	add	w4, w12, #1
	str	w24, [x3, #56]
	str	w4, [x2, #40]
	str	w24, [x2, #56]
	cbz	x15, .LBB0_73
.LBB0_116:
	subs	x15, x15, #1
	mov	w3, w9
	mov	w2, w10
	b.eq	.LBB0_119
	mov	x4, x1
	mov	w2, w10
	mov	w3, w9
.LBB0_118:
	add	w3, w3, w3, lsr #31
	add	w2, w2, w2, lsr #31
	subs	x4, x4, #1
	asr	w3, w3, #1
	asr	w2, w2, #1
	b.ne	.LBB0_118
.LBB0_119:
	tst	w3, #0x1
	mov	w4, #7
	mov	w5, #4
	csel	x6, x5, x4, eq
	cmn	w3, #1
	mov	w7, #1
	csinc	x6, x6, xzr, ne
	tst	w2, #0x1
	add	x26, x11, #1
	cinc	x27, x7, ne
	cmn	w2, #1
	add	w28, w3, w17
	csel	x27, xzr, x27, eq
	cmp	x26, x25
	add	w2, w2, w18
	csinc	x3, x25, x11, ls
	tst	w28, #0x1
	csel	x4, x5, x4, eq
	cmn	w28, #1
	mov	w5, #25
	csinc	x4, x4, xzr, ne
	madd	x12, x12, x5, x6
	tst	w2, #0x1
	madd	x4, x11, x5, x4
	cinc	x5, x7, ne
	cmn	w2, #1
	csel	x2, xzr, x5, eq
	add	x12, x12, x27
	ldr	w12, [x20, x12, lsl #2]
	add	x2, x4, x2
	ldr	w4, [x20, x2, lsl #2]
	cbnz	w4, .LBB0_114
	add	x4, x3, #1
	mov	w5, #25
	mov	w6, #8000
	mul	x5, x4, x5
	cmp	x5, x6
	b.hi	.LBB0_123
	mov	w5, #100
	add	w11, w11, #1
	str	w4, [x20, x2, lsl #2]
	madd	x5, x3, x5, x20
	str	w11, [x5]
	mov	x11, x3
	str	w24, [x5, #76]
	b	.LBB0_115
.LBB0_122:
	mov	w8, #25
	mov	w23, #24
	b	.LBB0_130
.LBB0_123:
	mov	x0, x20
	mov	w1, wzr
	mov	w2, #32000
	mov	x20, x8
	bl	memset
	add	x8, x22, x22, lsl #1
	mov	x0, x23
	mov	w1, wzr
	lsl	x22, x8, #2
	sub	x2, x22, #4
	bl	memset
	add	x8, x23, x22
	mov	x3, x20
	mov	w2, #6
	stur	wzr, [x8, #-4]
	b	.LBB0_22
.LBB0_124:
	cmp	x22, x24
	b.eq	.LBB0_128
	mvn	x8, x24
	add	x9, sp, #240
	adds	x22, x22, x8
	add	x23, x9, x24
	b.eq	.LBB0_127
	mov	x0, x23
	mov	w1, wzr
	mov	x2, x22
	bl	memset
.LBB0_127:
	strb	wzr, [x23, x22]
	mov	x22, x24
.LBB0_128:
	cbz	x25, .LBB0_132
	mov	w8, #25
	mul	x8, x25, x8
	subs	x23, x8, #1
	b.eq	.LBB0_143
.LBB0_130:
	lsl	x8, x8, #2
	mov	x0, x20
	mov	w1, wzr
	sub	x2, x8, #4
	bl	memset
	lsl	x8, x23, #2
.LBB0_131:
	str	wzr, [x20, x8]
.LBB0_132:
	cmp	x22, #8, lsl #12
	str	xzr, [sp, #1272]
	str	xzr, [sp, #1264]
	str	xzr, [sp, #1280]
	b.ls	.LBB0_136
	mov	x3, xzr
	mov	w2, wzr
.LBB0_134:
	mov	x0, x19
	mov	x1, x21
	bl	"line_rows::tell_refusal"
.LBB0_135:
	add	sp, sp, #32, lsl #12
	add	sp, sp, #1344
	ldp	x20, x19, [sp, #144]
	ldp	x22, x21, [sp, #128]
	ldp	x24, x23, [sp, #112]
	ldp	x26, x25, [sp, #96]
	ldp	x28, x27, [sp, #80]
	ldp	x29, x30, [sp, #64]
	ldp	d9, d8, [sp, #48]
	ldp	d11, d10, [sp, #32]
	ldp	d13, d12, [sp, #16]
	ldp	d15, d14, [sp], #160
	ret
.LBB0_136:
	cmp	x22, #4, lsl #12
	b.hi	.LBB0_156
	cbz	x22, .LBB0_160
	cmp	x22, #4
	b.hs	.LBB0_144
	mov	w9, wzr
	mov	x8, xzr
	b	.LBB0_153
.LBB0_140:
	mov	w2, #3
	b	.LBB0_22
.LBB0_141:
	mov	w2, #4
	b	.LBB0_22
.LBB0_142:
	mov	w2, #5
	b	.LBB0_22
.LBB0_143:
	mov	x8, xzr
	b	.LBB0_131
.LBB0_144:
	cmp	x22, #32
	b.hs	.LBB0_146
	mov	x8, xzr
	mov	w9, wzr
	b	.LBB0_150
.LBB0_146:
	movi	v0.2d, #0000000000000000
	movi	v1.2d, #0000000000000000
	add	x9, sp, #240
	and	x10, x22, #0x1c
	and	x8, x22, #0x7fe0
	add	x9, x9, #16
	and	x11, x22, #0x7fe0
.LBB0_147:
	ldp	q2, q3, [x9, #-16]
	subs	x11, x11, #32
	add	x9, x9, #32
	umax	v0.16b, v2.16b, v0.16b
	umax	v1.16b, v3.16b, v1.16b
	b.ne	.LBB0_147
	umax	v0.16b, v0.16b, v1.16b
	cmp	x22, x8
	umaxv	b0, v0.16b
	fmov	w9, s0
	b.eq	.LBB0_155
	cbz	x10, .LBB0_153
.LBB0_150:
	dup	v0.4h, w9
	mov	x10, x8
	and	x8, x22, #0x7ffc
	add	x11, sp, #240
	sub	x9, x10, x8
	add	x10, x11, x10
.LBB0_151:
	ldr	s1, [x10], #4
	bic	v0.4h, #255, lsl #8
	adds	x9, x9, #4
	ushll	v1.8h, v1.8b, #0
	umax	v0.4h, v1.4h, v0.4h
	b.ne	.LBB0_151
	umaxv	h0, v0.4h
	cmp	x22, x8
	fmov	w9, s0
	b.eq	.LBB0_155
.LBB0_153:
	add	x11, sp, #240
	sub	x10, x22, x8
	add	x8, x11, x8
.LBB0_154:
	ldrb	w11, [x8], #1
	and	w9, w9, #0xff
	cmp	w11, w9
	csel	w9, w11, w9, hi
	subs	x10, x10, #1
	b.ne	.LBB0_154
.LBB0_155:
	and	w8, w9, #0xff
	cmp	w8, #4
	b.lo	.LBB0_160
.LBB0_156:
	mov	x3, xzr
.LBB0_157:
	add	x8, sp, #240
	ldrb	w8, [x8, x3]
	cmp	w8, #3
	b.hi	.LBB0_164
	cmp	x3, #4, lsl #12
	b.eq	.LBB0_165
	add	x3, x3, #1
	cmp	x22, x3
	b.ne	.LBB0_157
.LBB0_160:
	adrp	x8, .LCPI0_0
	adrp	x9, .LCPI0_1
	adrp	x10, .LCPI0_2
	ldr	q0, [x8, :lo12:.LCPI0_0]
	add	x8, sp, #16, lsl #12
	ldr	q1, [x9, :lo12:.LCPI0_1]
	add	x8, x8, #1296
	adrp	x9, .LCPI0_3
	ldr	q2, [x10, :lo12:.LCPI0_2]
	str	q0, [x8, #32784]
	ldr	q0, [x9, :lo12:.LCPI0_3]
	str	q1, [x8, #32800]
	stp	q2, q0, [x8]
	cbz	x22, .LBB0_166
	add	x12, sp, #240
	mov	w9, #16384
	mov	x16, x22
	mov	w15, #16384
	mov	w13, #16384
	mov	w11, #16384
	mov	w10, #16384
	mov	w14, #16384
.LBB0_162:
	ldrb	w17, [x12], #1
	add	x18, sp, #24, lsl #12
	add	x18, x18, #1312
	add	x0, sp, #16, lsl #12
	ldr	x18, [x18, x17, lsl #3]
	add	x0, x0, #1296
	ldr	x17, [x0, x17, lsl #3]
	add	x15, x18, x15
	cmp	x15, x9
	add	x13, x17, x13
	csel	x9, x15, x9, lo
	cmp	x15, x11
	csel	x11, x15, x11, hi
	cmp	x13, x10
	csel	x10, x13, x10, lo
	cmp	x13, x14
	csel	x14, x13, x14, hi
	subs	x16, x16, #1
	b.ne	.LBB0_162
	cmp	x15, #4, lsl #12
	mov	w12, #16384
	ccmp	x13, x12, #0, eq
	add	x12, x14, #1
	cset	w13, ne
	b	.LBB0_167
.LBB0_164:
	mov	w2, #3
	b	.LBB0_134
.LBB0_165:
	mov	w2, #5
	b	.LBB0_134
.LBB0_166:
	mov	w13, wzr
	mov	w10, #16384
	mov	w12, #16385
	mov	w11, #16384
	mov	w9, #16384
.LBB0_167:
	mov	x3, xzr
	cmp	x22, #4
	mov	w2, #11
	b.lo	.LBB0_134
	tbnz	w13, #0, .LBB0_134
	sub	x11, x11, x9
	mov	w13, #16384
	sub	x12, x12, x10
	add	x3, x11, #1
	sub	x10, x13, x10
	neg	x9, x9
	mul	x12, x3, x12
	madd	x9, x3, x10, x9
	cmp	x12, #256
	add	x23, x9, #4, lsl #12
	b.hi	.LBB0_173
	movi	v0.2d, #0000000000000000
	mov	w9, #1
	mvn	x10, x11
	stp	x9, x3, [x8]
	mov	x9, #-1
	stp	x9, x10, [x8, #16]
	add	x9, sp, #240
	mov	x10, x22
	str	q0, [x8, #32784]
	str	q0, [x8, #32800]
	str	q0, [x8, #32816]
	str	q0, [x8, #32832]
	str	q0, [x8, #32848]
	str	q0, [x8, #32864]
	str	q0, [x8, #32880]
	str	q0, [x8, #32896]
	str	q0, [x8, #32912]
	str	q0, [x8, #32928]
	str	q0, [x8, #32944]
	str	q0, [x8, #32960]
	str	q0, [x8, #32976]
	str	q0, [x8, #32992]
	str	q0, [x8, #33008]
	str	q0, [x8, #33024]
.LBB0_171:
	add	x8, sp, #24, lsl #12
	add	x8, x8, #1312
	ldrb	w11, [x8, x23]
	cbnz	w11, .LBB0_185
	ldrb	w11, [x9], #1
	add	x12, sp, #16, lsl #12
	add	x12, x12, #1296
	subs	x10, x10, #1
	ldr	x11, [x12, x11, lsl #3]
	mov	w12, #1
	strb	w12, [x8, x23]
	add	x23, x11, x23
	b.ne	.LBB0_171
	b	.LBB0_187
.LBB0_173:
	cmp	x12, #2048
	b.hi	.LBB0_177
	mov	w9, #1
	add	x0, sp, #24, lsl #12
	mvn	x10, x11
	stp	x9, x3, [x8]
	mov	x9, #-1
	add	x0, x0, #1312
	mov	w1, wzr
	mov	w2, #2048
	add	x24, sp, #24, lsl #12
	stp	x9, x10, [x8, #16]
	add	x24, x24, #1312
	bl	memset
	add	x8, sp, #240
	mov	x9, x22
.LBB0_175:
	ldrb	w10, [x24, x23]
	cbnz	w10, .LBB0_185
	ldrb	w10, [x8], #1
	add	x11, sp, #16, lsl #12
	add	x11, x11, #1296
	subs	x9, x9, #1
	mov	w12, #1
	ldr	x10, [x11, x10, lsl #3]
	add	x11, sp, #24, lsl #12
	add	x11, x11, #1312
	strb	w12, [x11, x23]
	add	x23, x10, x23
	b.ne	.LBB0_175
	b	.LBB0_187
.LBB0_177:
	cmp	x22, #257
	b.lo	.LBB0_182
	cmp	x12, #4, lsl #12
	b.hi	.LBB0_182
	mov	w9, #1
	add	x0, sp, #24, lsl #12
	mvn	x10, x11
	stp	x9, x3, [x8]
	mov	x9, #-1
	add	x0, x0, #1312
	mov	w1, wzr
	mov	w2, #16384
	add	x24, sp, #24, lsl #12
	stp	x9, x10, [x8, #16]
	add	x24, x24, #1312
	bl	memset
	add	x8, sp, #240
	mov	x9, x22
.LBB0_180:
	ldrb	w10, [x24, x23]
	cbnz	w10, .LBB0_185
	ldrb	w10, [x8], #1
	add	x11, sp, #16, lsl #12
	add	x11, x11, #1296
	subs	x9, x9, #1
	mov	w12, #1
	ldr	x10, [x11, x10, lsl #3]
	add	x11, sp, #24, lsl #12
	add	x11, x11, #1312
	strb	w12, [x11, x23]
	add	x23, x10, x23
	b.ne	.LBB0_180
	b	.LBB0_187
.LBB0_182:
	cmp	x22, #2049
	b.lo	.LBB0_186
	cmp	x12, #32, lsl #12
	b.hi	.LBB0_186
	add	x0, sp, #240
	mov	x1, x22
	mov	x2, x23
	bl	"room_map::lone_sized::<=131072>"
	tbnz	w0, #0, .LBB0_187
.LBB0_185:
	mov	x3, xzr
	mov	w2, #11
	b	.LBB0_134
.LBB0_186:
	add	x0, sp, #240
	mov	x1, x22
	bl	"room_threads::is_room"
	tbz	w0, #0, .LBB0_185
.LBB0_187:
	add	x8, sp, #240
	cmp	x22, #8
	str	xzr, [sp, #1264]
	str	x8, [sp, #1272]
	str	x22, [sp, #1280]
	b.hs	.LBB0_189
	mov	x25, xzr
	mov	x11, xzr
	b	.LBB0_198
.LBB0_189:
	cmp	x22, #32
	adrp	x9, .LCPI0_5
	adrp	x10, .LCPI0_6
	b.hs	.LBB0_191
	mov	x11, xzr
	mov	x25, xzr
	b	.LBB0_195
.LBB0_191:
	movi	v1.2d, #0000000000000000
	movi	v2.2d, #0000000000000000
	add	x13, sp, #240
	movi	v6.2d, #0000000000000000
	movi	v0.2d, #0000000000000000
	and	x12, x22, #0x18
	movi	v17.2d, #0000000000000000
	movi	v4.2d, #0000000000000000
	and	x11, x22, #0xffe0
	movi	v5.2d, #0000000000000000
	movi	v3.2d, #0000000000000000
	add	x13, x13, #16
	movi	v21.2d, #0000000000000000
	movi	v16.2d, #0000000000000000
	and	x14, x22, #0xffe0
	movi	v7.2d, #0000000000000000
	movi	v22.2d, #0000000000000000
	movi	v19.2d, #0000000000000000
	movi	v20.2d, #0000000000000000
	movi	v18.2d, #0000000000000000
	movi	v23.2d, #0000000000000000
.LBB0_192:
	movi	v24.16b, #1
	ldp	q25, q26, [x13, #-16]
	adrp	x15, .LCPI0_4
	ldr	q27, [x9, :lo12:.LCPI0_5]
	ldr	q28, [x10, :lo12:.LCPI0_6]
	ldr	q29, [x15, :lo12:.LCPI0_4]
	adrp	x15, .LCPI0_7
	subs	x14, x14, #32
	add	x13, x13, #32
	and	v25.16b, v25.16b, v24.16b
	and	v24.16b, v26.16b, v24.16b
	ldr	q26, [x15, :lo12:.LCPI0_7]
	tbl	v30.16b, { v25.16b }, v27.16b
	tbl	v31.16b, { v25.16b }, v29.16b
	tbl	v8.16b, { v25.16b }, v28.16b
	tbl	v25.16b, { v25.16b }, v26.16b
	tbl	v27.16b, { v24.16b }, v27.16b
	tbl	v28.16b, { v24.16b }, v28.16b
	tbl	v29.16b, { v24.16b }, v29.16b
	tbl	v24.16b, { v24.16b }, v26.16b
	uaddw2	v17.2d, v17.2d, v30.4s
	uaddw2	v6.2d, v6.2d, v8.4s
	uaddw	v4.2d, v4.2d, v31.2s
	uaddw	v0.2d, v0.2d, v30.2s
	uaddw	v2.2d, v2.2d, v8.2s
	uaddw2	v5.2d, v5.2d, v31.4s
	uaddw	v3.2d, v3.2d, v25.2s
	uaddw2	v21.2d, v21.2d, v25.4s
	uaddw2	v22.2d, v22.2d, v27.4s
	uaddw2	v1.2d, v1.2d, v28.4s
	uaddw	v19.2d, v19.2d, v29.2s
	uaddw	v7.2d, v7.2d, v27.2s
	uaddw	v16.2d, v16.2d, v28.2s
	uaddw2	v20.2d, v20.2d, v29.4s
	uaddw	v18.2d, v18.2d, v24.2s
	uaddw2	v23.2d, v23.2d, v24.4s
	b.ne	.LBB0_192
	add	v17.2d, v22.2d, v17.2d
	add	v21.2d, v23.2d, v21.2d
	cmp	x22, x11
	add	v1.2d, v1.2d, v6.2d
	add	v2.2d, v16.2d, v2.2d
	add	v4.2d, v19.2d, v4.2d
	add	v5.2d, v20.2d, v5.2d
	add	v0.2d, v7.2d, v0.2d
	add	v3.2d, v18.2d, v3.2d
	add	v2.2d, v2.2d, v4.2d
	add	v0.2d, v0.2d, v3.2d
	add	v1.2d, v1.2d, v5.2d
	add	v3.2d, v17.2d, v21.2d
	add	v0.2d, v2.2d, v0.2d
	add	v1.2d, v1.2d, v3.2d
	add	v0.2d, v0.2d, v1.2d
	addp	d0, v0.2d
	fmov	x25, d0
	b.eq	.LBB0_200
	cbz	x12, .LBB0_198
.LBB0_195:
	movi	v0.2d, #0000000000000000
	movi	v1.2d, #0000000000000000
	mov	x13, x11
	movi	v2.2d, #0000000000000000
	movi	v3.2d, #0000000000000000
	and	x11, x22, #0xfff8
	add	x14, sp, #240
	sub	x12, x13, x11
	add	x13, x14, x13
	mov	v0.d[0], x25
.LBB0_196:
	movi	v4.8b, #1
	ldr	d5, [x13], #8
	ldr	q6, [x10, :lo12:.LCPI0_6]
	adds	x12, x12, #8
	and	v4.8b, v5.8b, v4.8b
	ldr	q5, [x9, :lo12:.LCPI0_5]
	tbl	v5.16b, { v4.16b }, v5.16b
	tbl	v4.16b, { v4.16b }, v6.16b
	uaddw2	v3.2d, v3.2d, v5.4s
	uaddw2	v2.2d, v2.2d, v4.4s
	uaddw	v1.2d, v1.2d, v5.2s
	uaddw	v0.2d, v0.2d, v4.2s
	b.ne	.LBB0_196
	add	v0.2d, v0.2d, v1.2d
	add	v1.2d, v2.2d, v3.2d
	cmp	x22, x11
	add	v0.2d, v0.2d, v1.2d
	addp	d0, v0.2d
	fmov	x25, d0
	b.eq	.LBB0_200
.LBB0_198:
	sub	x9, x22, x11
	add	x8, x8, x11
.LBB0_199:
	ldrb	w10, [x8], #1
	subs	x9, x9, #1
	and	x10, x10, #0x1
	add	x25, x25, x10
	b.ne	.LBB0_199
.LBB0_200:
	lsr	x24, x25, #1
	add	x8, x24, x24, lsl #1
	cmp	x8, #2050
	b.ls	.LBB0_202
	mov	x3, xzr
	mov	w2, #20
	b	.LBB0_134
.LBB0_202:
	mov	w8, #44288
	cmp	x22, #256
	add	x23, x20, x8
	b.hi	.LBB0_204
	add	x0, sp, #24, lsl #12
	mov	w1, wzr
	mov	w2, #516
	add	x0, x0, #1312
	bl	memset
	add	x0, sp, #16, lsl #12
	mov	w1, wzr
	mov	w2, #516
	add	x0, x0, #1296
	bl	memset
	add	x0, sp, #8, lsl #12
	mov	w1, wzr
	mov	w2, #516
	add	x0, x0, #1292
	bl	memset
	add	x0, sp, #1288
	mov	w1, wzr
	mov	w2, #516
	bl	memset
	lsr	x8, x22, #1
	add	x0, sp, #1264
	add	w1, w8, #1
	b	.LBB0_208
.LBB0_204:
	lsr	x26, x22, #1
	add	x0, sp, #24, lsl #12
	cmp	x22, #2048
	add	x0, x0, #1312
	b.hi	.LBB0_206
	mov	w1, wzr
	mov	w2, #4100
	bl	memset
	add	x0, sp, #16, lsl #12
	mov	w1, wzr
	mov	w2, #4100
	add	x0, x0, #1296
	bl	memset
	add	x0, sp, #8, lsl #12
	mov	w1, wzr
	mov	w2, #4100
	add	x0, x0, #1292
	bl	memset
	add	x0, sp, #1288
	mov	w1, wzr
	mov	w2, #4100
	b	.LBB0_207
.LBB0_206:
	mov	w1, wzr
	mov	w2, #32772
	bl	memset
	add	x0, sp, #16, lsl #12
	mov	w1, wzr
	mov	w2, #32772
	add	x0, x0, #1296
	bl	memset
	add	x0, sp, #8, lsl #12
	mov	w1, wzr
	mov	w2, #32772
	add	x0, x0, #1292
	bl	memset
	add	x0, sp, #1288
	mov	w1, wzr
	mov	w2, #32772
.LBB0_207:
	bl	memset
	add	x0, sp, #1264
	add	w1, w26, #1
.LBB0_208:
	add	x2, sp, #24, lsl #12
	add	x3, sp, #16, lsl #12
	add	x4, sp, #8, lsl #12
	add	x2, x2, #1312
	add	x3, x3, #1296
	add	x4, x4, #1292
	add	x5, sp, #1288
	mov	x6, x23
	bl	"row_call::list_in"
	cbz	x24, .LBB0_215
	cmp	x25, #32
	b.hs	.LBB0_216
.LBB0_210:
	mov	x8, xzr
.LBB0_211:
	mov	x0, x21
.LBB0_212:
	mov	w9, #12
	mov	w11, #44296
	madd	x10, x8, x9, x20
	neg	x9, x0
	sub	x8, x24, x8
	add	x10, x10, x11
	add	x11, x19, x0
.LBB0_213:
	ldur	w12, [x10, #-8]
	adrp	x13, .LCPI0_10
	movi	v4.4h, #87
	ldr	q1, [x13, :lo12:.LCPI0_10]
	adrp	x13, .LCPI0_11
	subs	x8, x8, #1
	dup	v0.4s, w12
	ldr	d2, [x13, :lo12:.LCPI0_11]
	adrp	x13, .LCPI0_12
	ldr	d3, [x13, :lo12:.LCPI0_12]
	ubfx	w12, w12, #4, #4
	sub	x9, x9, #13
	ushl	v0.4s, v0.4s, v1.4s
	xtn	v0.4h, v0.4s
	and	v0.8b, v0.8b, v2.8b
	cmhi	v5.4h, v3.4h, v0.4h
	mov	v0.h[2], w12
	add	v6.4h, v0.4h, v4.4h
	orr	v0.4h, #48
	bif	v0.8b, v6.8b, v5.8b
	uzp1	v0.8b, v0.8b, v0.8b
	str	s0, [x11]
	ldur	w12, [x10, #-4]
	dup	v0.4s, w12
	ubfx	w12, w12, #4, #4
	ushl	v0.4s, v0.4s, v1.4s
	xtn	v0.4h, v0.4s
	and	v0.8b, v0.8b, v2.8b
	cmhi	v5.4h, v3.4h, v0.4h
	mov	v0.h[2], w12
	add	v6.4h, v0.4h, v4.4h
	orr	v0.4h, #48
	bif	v0.8b, v6.8b, v5.8b
	uzp1	v0.8b, v0.8b, v0.8b
	str	s0, [x11, #4]
	ldr	w12, [x10], #12
	dup	v0.4s, w12
	ubfx	w12, w12, #4, #4
	ushl	v0.4s, v0.4s, v1.4s
	xtn	v0.4h, v0.4s
	and	v0.8b, v0.8b, v2.8b
	cmhi	v1.4h, v3.4h, v0.4h
	mov	v0.h[2], w12
	mov	w12, #10
	strb	w12, [x11, #12]
	add	v2.4h, v0.4h, v4.4h
	orr	v0.4h, #48
	bif	v0.8b, v2.8b, v1.8b
	uzp1	v0.8b, v0.8b, v0.8b
	str	s0, [x11, #8]
	add	x11, x11, #13
	b.ne	.LBB0_213
	neg	x0, x9
	b	.LBB0_135
.LBB0_215:
	mov	x0, x21
	b	.LBB0_135
.LBB0_216:
	sub	x10, x24, #1
	mov	w8, #13
	add	x13, x19, x21
	umulh	x9, x10, x8
	add	x14, x13, #3
	mul	x11, x10, x8
	mov	w8, #12
	umulh	x8, x10, x8
	cmp	xzr, x9
	cset	w12, ne
	add	x15, x14, x11
	cmp	xzr, x8
	mov	x8, xzr
	cset	w9, ne
	cmp	x15, x14
	b.lo	.LBB0_211
	tbnz	w12, #0, .LBB0_211
	add	x14, x13, #2
	add	x15, x14, x11
	cmp	x15, x14
	b.lo	.LBB0_211
	tbnz	w12, #0, .LBB0_211
	add	x14, x13, #1
	add	x15, x14, x11
	cmp	x15, x14
	b.lo	.LBB0_211
	tbnz	w12, #0, .LBB0_211
	add	x14, x13, x11
	cmp	x14, x13
	b.lo	.LBB0_211
	tbnz	w12, #0, .LBB0_211
	add	x14, x13, #7
	add	x15, x14, x11
	cmp	x15, x14
	b.lo	.LBB0_211
	tbnz	w12, #0, .LBB0_211
	add	x14, x13, #6
	add	x15, x14, x11
	cmp	x15, x14
	b.lo	.LBB0_211
	tbnz	w12, #0, .LBB0_211
	add	x14, x13, #5
	add	x15, x14, x11
	cmp	x15, x14
	b.lo	.LBB0_211
	tbnz	w12, #0, .LBB0_211
	add	x14, x13, #4
	add	x15, x14, x11
	cmp	x15, x14
	b.lo	.LBB0_211
	tbnz	w12, #0, .LBB0_211
	add	x14, x13, #11
	add	x15, x14, x11
	cmp	x15, x14
	b.lo	.LBB0_211
	tbnz	w12, #0, .LBB0_211
	add	x14, x13, #10
	add	x15, x14, x11
	cmp	x15, x14
	b.lo	.LBB0_211
	tbnz	w12, #0, .LBB0_211
	add	x14, x13, #9
	add	x15, x14, x11
	cmp	x15, x14
	b.lo	.LBB0_211
	tbnz	w12, #0, .LBB0_211
	add	x14, x13, #8
	add	x15, x14, x11
	cmp	x15, x14
	b.lo	.LBB0_211
	tbnz	w12, #0, .LBB0_211
	add	x13, x13, #12
	add	x11, x13, x11
	cmp	x11, x13
	b.lo	.LBB0_211
	tbnz	w12, #0, .LBB0_211
	add	x10, x10, x10, lsl #1
	lsl	x10, x10, #2
	add	x11, x23, x10
	cmp	x11, x23
	b.lo	.LBB0_211
	tbnz	w9, #0, .LBB0_211
	mov	w11, #44292
	add	x11, x20, x11
	add	x12, x11, x10
	cmp	x12, x11
	b.lo	.LBB0_211
	tbnz	w9, #0, .LBB0_211
	mov	w11, #44296
	add	x11, x20, x11
	add	x10, x11, x10
	cmp	x10, x11
	b.lo	.LBB0_211
	tbnz	w9, #0, .LBB0_211
	mov	w8, #12
	mov	w10, #44288
	madd	x9, x24, x8, x20
	add	x8, x19, x21
	add	x9, x9, x10
	cmp	x8, x9
	b.hs	.LBB0_250
	mov	w9, #13
	madd	x8, x24, x9, x8
	cmp	x23, x8
	b.lo	.LBB0_210
.LBB0_250:
	and	x8, x24, #0x7ffffffffffffff0
	mov	w9, #13
	and	x10, x24, #0x7ffffffffffffff0
	madd	x0, x8, x9, x21
	add	x9, x21, x19
	add	x9, x9, #103
.LBB0_251:
	mov	x11, x23
	movi	v30.16b, #87
	add	x12, sp, #144
	ld3	{ v3.4s, v4.4s, v5.4s }, [x11], #48
	ld3	{ v0.4s, v1.4s, v2.4s }, [x11]
	add	x11, sp, #192
	subs	x10, x10, #16
	st1	{ v0.2d, v1.2d, v2.2d }, [x11]
	add	x11, x23, #96
	mov	v26.16b, v3.16b
	ld3	{ v20.4s, v21.4s, v22.4s }, [x11]
	add	x11, x23, #144
	mov	v27.16b, v0.16b
	ld3	{ v16.4s, v17.4s, v18.4s }, [x11]
	adrp	x11, .LCPI0_8
	mov	v6.16b, v5.16b
	ldr	q0, [x11, :lo12:.LCPI0_8]
	mov	v5.16b, v4.16b
	mov	v4.16b, v3.16b
	movi	v3.16b, #15
	movi	v1.16b, #48
	movi	v2.16b, #87
	str	q0, [sp]
	add	x11, sp, #96
	add	x23, x23, #192
	mov	v28.16b, v20.16b
	st1	{ v4.2d, v5.2d, v6.2d }, [x11]
	add	x11, sp, #144
	mov	v29.16b, v16.16b
	mov	v19.16b, v18.16b
	mov	v18.16b, v17.16b
	mov	v17.16b, v16.16b
	tbl	v27.16b, { v26.16b, v27.16b, v28.16b, v29.16b }, v0.16b
	movi	v0.16b, #10
	st1	{ v17.2d, v18.2d, v19.2d }, [x11]
	add	x11, sp, #16
	st1	{ v20.2d, v21.2d, v22.2d, v23.2d }, [x11]
	add	x11, sp, #192
	and	v26.16b, v27.16b, v3.16b
	usra	v30.16b, v27.16b, #4
	cmhi	v28.16b, v0.16b, v26.16b
	orr	v29.16b, v26.16b, v1.16b
	add	v26.16b, v26.16b, v2.16b
	movi	v0.16b, #160
	mov	v11.16b, v28.16b
	cmhi	v14.16b, v0.16b, v27.16b
	ushr	v0.4s, v4.4s, #8
	bsl	v11.16b, v29.16b, v26.16b
	movi	v29.16b, #48
	ld1	{ v24.2d, v25.2d, v26.2d }, [x11]
	ushr	v3.4s, v17.4s, #8
	add	x11, sp, #96
	mov	v10.16b, v14.16b
	ushr	v2.4s, v20.4s, #8
	mov	b31, v11.b[3]
	mov	b28, v11.b[2]
	mov	b12, v11.b[4]
	mov	b13, v11.b[5]
	mov	b15, v11.b[6]
	usra	v29.16b, v27.16b, #4
	mov	b27, v11.b[7]
	ushr	v1.4s, v24.4s, #8
	mov	b7, v11.b[14]
	mov	b16, v11.b[15]
	stur	b31, [x9, #-61]
	mov	b31, v11.b[10]
	stur	b28, [x9, #-74]
	mov	b28, v11.b[9]
	stur	b12, [x9, #-48]
	mov	b12, v11.b[11]
	stur	b13, [x9, #-35]
	mov	b13, v11.b[12]
	stur	b31, [x9, #30]
	ldr	q31, [sp]
	stur	b15, [x9, #-22]
	mov	b15, v11.b[13]
	bsl	v10.16b, v29.16b, v30.16b
	stur	b27, [x9, #-9]
	tbl	v0.16b, { v0.16b, v1.16b, v2.16b, v3.16b }, v31.16b
	stur	b28, [x9, #17]
	ushr	v27.4s, v4.4s, #12
	movi	v4.16b, #15
	ushr	v30.4s, v17.4s, #12
	movi	v19.16b, #48
	movi	v6.16b, #87
	mov	b3, v10.b[5]
	ushr	v29.4s, v20.4s, #12
	movi	v20.16b, #10
	mov	b1, v10.b[3]
	mov	b2, v10.b[4]
	ushr	v28.4s, v24.4s, #12
	and	v0.16b, v0.16b, v4.16b
	stur	b7, [x9, #82]
	mov	b7, v10.b[6]
	stur	b16, [x9, #95]
	mov	b17, v10.b[11]
	mov	v22.16b, v24.16b
	stur	b3, [x9, #-36]
	tbl	v18.16b, { v27.16b, v28.16b, v29.16b, v30.16b }, v31.16b
	mov	b27, v10.b[12]
	cmhi	v3.16b, v20.16b, v0.16b
	stur	b1, [x9, #-62]
	mov	b1, v10.b[7]
	stur	b2, [x9, #-49]
	mov	b2, v10.b[9]
	orr	v16.16b, v0.16b, v19.16b
	add	v0.16b, v0.16b, v6.16b
	stur	b12, [x9, #43]
	mov	b12, v10.b[2]
	mov	v9.16b, v3.16b
	stur	b7, [x9, #-23]
	mov	b7, v10.b[10]
	stur	b1, [x9, #-10]
	mov	b1, v10.b[13]
	mov	b30, v10.b[15]
	stur	b2, [x9, #16]
	mov	b2, v10.b[14]
	mov	v24.16b, v26.16b
	bsl	v9.16b, v16.16b, v0.16b
	and	v0.16b, v18.16b, v4.16b
	stur	b17, [x9, #42]
	stur	b13, [x9, #56]
	mov	v26.16b, v31.16b
	mov	v23.16b, v25.16b
	stur	b15, [x9, #69]
	movi	v5.16b, #15
	cmhi	v17.16b, v20.16b, v0.16b
	orr	v18.16b, v0.16b, v19.16b
	add	v0.16b, v0.16b, v6.16b
	stur	b12, [x9, #-75]
	mov	b3, v9.b[3]
	mov	b16, v9.b[5]
	stur	b7, [x9, #29]
	mov	b7, v9.b[4]
	mov	b12, v9.b[6]
	mov	v8.16b, v17.16b
	stur	b27, [x9, #55]
	mov	b13, v9.b[7]
	stur	b1, [x9, #68]
	mov	b1, v9.b[2]
	mov	b14, v9.b[9]
	mov	b15, v9.b[10]
	mov	b4, v9.b[11]
	mov	b31, v9.b[12]
	mov	b27, v9.b[13]
	mov	b29, v9.b[14]
	mov	b28, v9.b[15]
	bsl	v8.16b, v18.16b, v0.16b
	zip1	v0.8b, v9.8b, v0.8b
	ld1	{ v19.2d, v20.2d, v21.2d }, [x11]
	stur	b1, [x9, #-76]
	add	x11, sp, #16
	stur	b2, [x9, #81]
	stur	b30, [x9, #94]
	zip1	v1.8b, v8.8b, v0.8b
	stur	b3, [x9, #-63]
	stur	b13, [x9, #-11]
	stur	b16, [x9, #-37]
	ld1	{ v16.2d, v17.2d, v18.2d }, [x12]
	stur	b12, [x9, #-24]
	zip1	v30.4h, v1.4h, v0.4h
	trn2	v13.4h, v1.4h, v0.4h
	mov	v0.16b, v20.16b
	mov	v1.16b, v23.16b
	ld1	{ v22.2d, v23.2d, v24.2d, v25.2d }, [x11]
	adrp	x11, .LCPI0_9
	stur	b4, [x9, #41]
	mov	b4, v8.b[2]
	stur	b7, [x9, #-50]
	movi	v7.16b, #87
	mov	v30.b[4], v10.b[0]
	mov	v13.b[4], v10.b[1]
	stur	b31, [x9, #54]
	mov	v2.16b, v23.16b
	stur	b29, [x9, #80]
	mov	v3.16b, v17.16b
	stur	b4, [x9, #-77]
	mov	b4, v8.b[6]
	stur	b28, [x9, #93]
	mov	v30.b[6], v11.b[0]
	mov	v13.b[6], v11.b[1]
	stur	b14, [x9, #15]
	tbl	v12.16b, { v0.16b, v1.16b, v2.16b, v3.16b }, v26.16b
	ldr	q2, [x11, :lo12:.LCPI0_9]
	mov	b1, v8.b[4]
	mov	b0, v8.b[3]
	mov	b3, v8.b[5]
	stur	b4, [x9, #-25]
	str	q2, [sp, #80]
	tbl	v2.16b, { v8.16b, v9.16b, v10.16b, v11.16b }, v2.16b
	movi	v4.16b, #48
	add	x11, sp, #192
	stur	b15, [x9, #28]
	stur	b1, [x9, #-51]
	and	v5.16b, v12.16b, v5.16b
	stur	b0, [x9, #-64]
	mov	b0, v8.b[7]
	xtn	v1.8b, v2.8h
	movi	v2.16b, #10
	stur	b3, [x9, #-38]
	orr	v4.16b, v5.16b, v4.16b
	stur	b27, [x9, #67]
	mov	v27.16b, v26.16b
	uzp1	v3.8b, v30.8b, v0.8b
	uzp1	v6.8b, v13.8b, v0.8b
	stur	b0, [x9, #-12]
	cmhi	v2.16b, v2.16b, v5.16b
	mov	b0, v8.b[9]
	add	v5.16b, v5.16b, v7.16b
	stur	s1, [x9, #1]
	mov	b1, v8.b[10]
	mov	v31.16b, v2.16b
	stur	s3, [x9, #-103]
	mov	b3, v8.b[11]
	stur	b0, [x9, #14]
	mov	b0, v8.b[13]
	mov	b2, v8.b[15]
	stur	b1, [x9, #27]
	mov	b1, v8.b[14]
	bsl	v31.16b, v4.16b, v5.16b
	movi	v5.16b, #87
	stur	s6, [x9, #-90]
	stur	b3, [x9, #40]
	mov	b6, v8.b[12]
	stur	b0, [x9, #66]
	stur	b1, [x9, #79]
	mov	b3, v31.b[2]
	mov	b0, v31.b[3]
	stur	b2, [x9, #92]
	mov	b9, v31.b[5]
	mov	b10, v31.b[6]
	usra	v5.16b, v12.16b, #4
	stur	b6, [x9, #53]
	mov	b6, v31.b[9]
	mov	b8, v31.b[4]
	mov	b4, v31.b[7]
	mov	b7, v31.b[14]
	stur	b3, [x9, #-70]
	stur	b0, [x9, #-57]
	ushr	v0.4s, v20.4s, #8
	mov	v19.16b, v25.16b
	ushr	v3.4s, v17.4s, #8
	mov	v16.16b, v22.16b
	mov	v17.16b, v23.16b
	ld1	{ v20.2d, v21.2d, v22.2d }, [x11]
	stur	b9, [x9, #-31]
	movi	v9.16b, #48
	mov	v18.16b, v24.16b
	mov	b24, v31.b[11]
	add	x11, sp, #96
	ushr	v2.4s, v17.4s, #8
	stur	b10, [x9, #-18]
	stur	b6, [x9, #21]
	mov	b6, v31.b[13]
	ushr	v1.4s, v21.4s, #8
	usra	v9.16b, v12.16b, #4
	stur	b8, [x9, #-44]
	stur	b24, [x9, #47]
	movi	v24.16b, #15
	mov	b8, v31.b[15]
	stur	b4, [x9, #-5]
	mov	b4, v31.b[12]
	tbl	v23.16b, { v0.16b, v1.16b, v2.16b, v3.16b }, v26.16b
	movi	v3.16b, #160
	mov	b1, v31.b[10]
	stur	b6, [x9, #73]
	stur	b7, [x9, #86]
	stur	b4, [x9, #60]
	cmhi	v3.16b, v3.16b, v12.16b
	ld1	{ v10.2d, v11.2d, v12.2d }, [x11]
	add	x11, sp, #144
	stur	b1, [x9, #34]
	ld1	{ v0.2d, v1.2d, v2.2d }, [x11]
	add	x11, sp, #16
	stur	b8, [x9, #99]
	mov	v30.16b, v3.16b
	ushr	v10.4s, v11.4s, #12
	ushr	v13.4s, v1.4s, #12
	and	v0.16b, v23.16b, v24.16b
	ushr	v12.4s, v17.4s, #12
	movi	v19.16b, #10
	bsl	v30.16b, v9.16b, v5.16b
	ushr	v11.4s, v21.4s, #12
	movi	v20.16b, #48
	movi	v21.16b, #87
	cmhi	v5.16b, v19.16b, v0.16b
	tbl	v3.16b, { v10.16b, v11.16b, v12.16b, v13.16b }, v26.16b
	mov	b1, v30.b[2]
	orr	v6.16b, v0.16b, v20.16b
	add	v0.16b, v0.16b, v21.16b
	mov	b2, v30.b[3]
	mov	b4, v30.b[4]
	mov	b7, v30.b[5]
	mov	b16, v30.b[6]
	mov	v29.16b, v5.16b
	mov	b17, v30.b[7]
	mov	b18, v30.b[9]
	mov	b11, v30.b[10]
	mov	b12, v30.b[11]
	mov	b13, v30.b[12]
	mov	b14, v30.b[13]
	mov	b15, v30.b[14]
	mov	b9, v30.b[15]
	bsl	v29.16b, v6.16b, v0.16b
	and	v0.16b, v3.16b, v24.16b
	stur	b1, [x9, #-71]
	stur	b2, [x9, #-58]
	stur	b11, [x9, #33]
	cmhi	v1.16b, v19.16b, v0.16b
	orr	v2.16b, v0.16b, v20.16b
	add	v3.16b, v0.16b, v21.16b
	mov	b5, v29.b[2]
	mov	b6, v29.b[3]
	mov	b0, v29.b[4]
	mov	b24, v29.b[5]
	mov	b25, v29.b[6]
	mov	b19, v29.b[7]
	mov	v28.16b, v1.16b
	mov	b20, v29.b[9]
	mov	b21, v29.b[10]
	mov	b22, v29.b[11]
	mov	b23, v29.b[12]
	mov	b10, v29.b[13]
	mov	b26, v29.b[14]
	mov	b8, v29.b[15]
	stur	b13, [x9, #59]
	bsl	v28.16b, v2.16b, v3.16b
	zip1	v1.8b, v29.8b, v0.8b
	stur	b14, [x9, #72]
	stur	b20, [x9, #19]
	stur	b21, [x9, #32]
	stur	b22, [x9, #45]
	zip1	v2.8b, v28.8b, v0.8b
	stur	b23, [x9, #58]
	ld1	{ v20.2d, v21.2d, v22.2d, v23.2d }, [x11]
	add	x11, sp, #96
	stur	b15, [x9, #85]
	ld1	{ v13.2d, v14.2d, v15.2d }, [x11]
	add	x11, sp, #192
	stur	b4, [x9, #-45]
	stur	b0, [x9, #-46]
	zip1	v3.4h, v2.4h, v1.4h
	trn2	v11.4h, v2.4h, v1.4h
	stur	b24, [x9, #-33]
	stur	b25, [x9, #-20]
	stur	b26, [x9, #84]
	mov	v20.16b, v15.16b
	stur	b12, [x9, #46]
	mov	v3.b[4], v30.b[0]
	mov	v11.b[4], v30.b[1]
	stur	b5, [x9, #-72]
	movi	v5.16b, #10
	stur	b7, [x9, #-32]
	movi	v7.16b, #87
	stur	b6, [x9, #-59]
	movi	v6.16b, #48
	stur	b9, [x9, #98]
	mov	v3.b[6], v31.b[0]
	mov	v11.b[6], v31.b[1]
	stur	b10, [x9, #71]
	stur	b8, [x9, #97]
	stur	b16, [x9, #-19]
	stur	b17, [x9, #-6]
	uzp1	v0.8b, v3.8b, v0.8b
	ld1	{ v2.2d, v3.2d, v4.2d }, [x11]
	add	x11, sp, #144
	ld1	{ v24.2d, v25.2d, v26.2d }, [x11]
	add	x11, sp, #192
	stur	b18, [x9, #20]
	stur	b19, [x9, #-7]
	ushr	v16.4s, v15.4s, #8
	mov	v21.16b, v4.16b
	mov	b3, v28.b[3]
	uzp1	v1.8b, v11.8b, v0.8b
	mov	v23.16b, v26.16b
	ldr	q4, [sp, #80]
	mov	b2, v28.b[2]
	stur	s0, [x9, #-99]
	mov	b0, v28.b[4]
	tbl	v4.16b, { v28.16b, v29.16b, v30.16b, v31.16b }, v4.16b
	tbl	v12.16b, { v20.16b, v21.16b, v22.16b, v23.16b }, v27.16b
	stur	b3, [x9, #-60]
	movi	v3.16b, #15
	stur	s1, [x9, #-86]
	mov	b1, v28.b[5]
	stur	b2, [x9, #-73]
	mov	b2, v28.b[6]
	stur	b0, [x9, #-47]
	mov	b0, v28.b[7]
	and	v3.16b, v12.16b, v3.16b
	stur	b1, [x9, #-34]
	xtn	v1.8b, v4.8h
	mov	b4, v28.b[9]
	stur	b2, [x9, #-21]
	mov	b2, v28.b[10]
	cmhi	v5.16b, v5.16b, v3.16b
	orr	v6.16b, v3.16b, v6.16b
	add	v3.16b, v3.16b, v7.16b
	stur	b0, [x9, #-8]
	mov	b0, v28.b[11]
	stur	s1, [x9, #5]
	mov	b1, v28.b[12]
	mov	v11.16b, v5.16b
	stur	b2, [x9, #31]
	mov	b2, v28.b[14]
	stur	b4, [x9, #18]
	movi	v4.16b, #160
	stur	b0, [x9, #44]
	mov	b0, v28.b[15]
	mov	v31.16b, v26.16b
	bsl	v11.16b, v6.16b, v3.16b
	mov	b3, v28.b[13]
	stur	b1, [x9, #57]
	stur	b2, [x9, #83]
	mov	v29.16b, v24.16b
	mov	v30.16b, v25.16b
	ld1	{ v24.2d, v25.2d, v26.2d }, [x11]
	cmhi	v4.16b, v4.16b, v12.16b
	ushr	v19.4s, v31.4s, #8
	stur	b0, [x9, #96]
	ushr	v18.4s, v22.4s, #8
	mov	w11, #10
	mov	b1, v11.b[2]
	stur	b3, [x9, #70]
	mov	b3, v11.b[3]
	mov	b2, v11.b[4]
	mov	b0, v11.b[5]
	mov	v10.16b, v4.16b
	ushr	v17.4s, v26.4s, #8
	mov	b5, v11.b[10]
	mov	b6, v11.b[11]
	mov	b7, v11.b[14]
	sturb	w11, [x9, #-91]
	stur	b1, [x9, #-66]
	mov	b1, v11.b[6]
	stur	b3, [x9, #-53]
	mov	b3, v11.b[9]
	stur	b2, [x9, #-40]
	movi	v2.16b, #48
	stur	b0, [x9, #-27]
	movi	v0.16b, #87
	stur	b1, [x9, #-14]
	mov	b1, v11.b[7]
	stur	b3, [x9, #25]
	mov	b3, v11.b[13]
	usra	v2.16b, v12.16b, #4
	stur	b5, [x9, #38]
	usra	v0.16b, v12.16b, #4
	mov	b12, v11.b[15]
	stur	b6, [x9, #51]
	stur	b1, [x9, #-1]
	mov	b1, v11.b[12]
	stur	b3, [x9, #77]
	bsl	v10.16b, v2.16b, v0.16b
	tbl	v0.16b, { v16.16b, v17.16b, v18.16b, v19.16b }, v27.16b
	stur	b7, [x9, #90]
	stur	b12, [x9, #103]
	stur	b1, [x9, #64]
	ushr	v1.4s, v15.4s, #12
	movi	v13.16b, #15
	ushr	v4.4s, v31.4s, #12
	movi	v29.16b, #48
	movi	v30.16b, #87
	ushr	v3.4s, v22.4s, #12
	mov	b28, v10.b[2]
	mov	b5, v10.b[3]
	ushr	v2.4s, v26.4s, #12
	movi	v26.16b, #10
	mov	b6, v10.b[4]
	and	v0.16b, v0.16b, v13.16b
	mov	b7, v10.b[5]
	mov	b16, v10.b[6]
	mov	b17, v10.b[7]
	mov	b20, v10.b[9]
	mov	b21, v10.b[10]
	tbl	v1.16b, { v1.16b, v2.16b, v3.16b, v4.16b }, v27.16b
	mov	b22, v10.b[11]
	mov	b23, v10.b[12]
	cmhi	v18.16b, v26.16b, v0.16b
	orr	v19.16b, v0.16b, v29.16b
	add	v0.16b, v0.16b, v30.16b
	mov	b24, v10.b[13]
	mov	b2, v10.b[14]
	mov	b3, v10.b[15]
	stur	b28, [x9, #-67]
	mov	v9.16b, v18.16b
	stur	b5, [x9, #-54]
	stur	b6, [x9, #-41]
	stur	b7, [x9, #-28]
	bsl	v9.16b, v19.16b, v0.16b
	and	v0.16b, v1.16b, v13.16b
	stur	b2, [x9, #89]
	stur	b3, [x9, #102]
	stur	b16, [x9, #-15]
	cmhi	v26.16b, v26.16b, v0.16b
	orr	v28.16b, v0.16b, v29.16b
	add	v0.16b, v0.16b, v30.16b
	mov	b1, v9.b[2]
	mov	b4, v9.b[3]
	mov	b5, v9.b[4]
	mov	b18, v9.b[5]
	mov	b19, v9.b[6]
	mov	b25, v9.b[7]
	mov	v8.16b, v26.16b
	mov	b29, v9.b[9]
	mov	b30, v9.b[10]
	mov	b31, v9.b[11]
	mov	b12, v9.b[12]
	mov	b13, v9.b[13]
	mov	b14, v9.b[14]
	mov	b15, v9.b[15]
	stur	b1, [x9, #-68]
	bsl	v8.16b, v28.16b, v0.16b
	zip1	v0.8b, v9.8b, v0.8b
	stur	b4, [x9, #-55]
	ldr	q4, [sp, #80]
	stur	b17, [x9, #-2]
	stur	b20, [x9, #24]
	stur	b21, [x9, #37]
	zip1	v6.8b, v8.8b, v0.8b
	mov	b2, v8.b[2]
	mov	b3, v8.b[3]
	tbl	v4.16b, { v8.16b, v9.16b, v10.16b, v11.16b }, v4.16b
	stur	b22, [x9, #50]
	stur	b23, [x9, #63]
	stur	b24, [x9, #76]
	zip1	v7.4h, v6.4h, v0.4h
	trn2	v0.4h, v6.4h, v0.4h
	stur	b2, [x9, #-69]
	mov	b2, v8.b[6]
	stur	b3, [x9, #-56]
	mov	b3, v8.b[7]
	stur	b5, [x9, #-42]
	stur	b18, [x9, #-29]
	mov	v7.b[4], v10.b[0]
	mov	v0.b[4], v10.b[1]
	stur	b19, [x9, #-16]
	stur	b2, [x9, #-17]
	mov	b2, v8.b[10]
	stur	b3, [x9, #-4]
	mov	b3, v8.b[11]
	stur	b25, [x9, #-3]
	mov	v7.b[6], v11.b[0]
	mov	v0.b[6], v11.b[1]
	stur	b29, [x9, #23]
	stur	b2, [x9, #35]
	mov	b2, v8.b[14]
	stur	b3, [x9, #48]
	mov	b3, v8.b[15]
	stur	b30, [x9, #36]
	uzp1	v1.8b, v7.8b, v0.8b
	uzp1	v0.8b, v0.8b, v0.8b
	stur	b31, [x9, #49]
	stur	b12, [x9, #62]
	stur	b13, [x9, #75]
	stur	b14, [x9, #88]
	stur	s1, [x9, #-95]
	mov	b1, v8.b[4]
	stur	s0, [x9, #-82]
	mov	b0, v8.b[5]
	stur	b15, [x9, #101]
	stur	b2, [x9, #87]
	stur	b1, [x9, #-43]
	xtn	v1.8b, v4.8h
	stur	b0, [x9, #-30]
	mov	b0, v8.b[9]
	stur	b3, [x9, #100]
	sturb	w11, [x9, #-78]
	stur	s1, [x9, #9]
	mov	b1, v8.b[12]
	stur	b0, [x9, #22]
	mov	b0, v8.b[13]
	sturb	w11, [x9, #-65]
	sturb	w11, [x9, #-52]
	stur	b1, [x9, #61]
	stur	b0, [x9, #74]
	sturb	w11, [x9, #-39]
	sturb	w11, [x9, #-26]
	sturb	w11, [x9, #-13]
	strb	w11, [x9]
	strb	w11, [x9, #13]
	strb	w11, [x9, #26]
	strb	w11, [x9, #39]
	strb	w11, [x9, #52]
	strb	w11, [x9, #65]
	strb	w11, [x9, #78]
	strb	w11, [x9, #91]
	strb	w11, [x9, #104]
	add	x9, x9, #208
	b.ne	.LBB0_251
	cmp	x24, x8
	b.eq	.LBB0_135
	b	.LBB0_212
.Lfunc_end0:
	.size	"lines::tell", .Lfunc_end0-"lines::tell"

	.section	".text.room_map::lone_sized::<=131072>","ax",@progbits
	.p2align	2
	.type	"room_map::lone_sized::<=131072>",@function
"room_map::lone_sized::<=131072>":
	stp	x29, x30, [sp, #-64]!
	sub	x9, sp, #31, lsl #12
	str	x28, [sp, #16]
	mov	x29, sp
	sub	x9, x9, #2048
	stp	x22, x21, [sp, #32]
	stp	x20, x19, [sp, #48]
.LBB1_1:
	sub	sp, sp, #3072
	cmp	sp, x9
	str	xzr, [sp]
	b.ne	.LBB1_1
	sub	sp, sp, #2080
	sub	x8, x29, #32
	mov	w9, #1
	str	xzr, [sp]
	mov	x19, x2
	mov	x20, x1
	mov	x21, x0
	stp	x9, x3, [x8]
	mov	x9, #-1
	neg	x10, x3
	mov	x0, sp
	mov	w1, wzr
	mov	w2, #131072
	stp	x9, x10, [x8, #16]
	mov	x22, sp
	bl	memset
.LBB1_3:
	ldrb	w8, [x22, x19]
	cbnz	w8, .LBB1_5
	ldrb	w9, [x21], #1
	sub	x10, x29, #32
	subs	x20, x20, #1
	mov	w11, #1
	ldr	x9, [x10, x9, lsl #3]
	mov	x10, sp
	strb	w11, [x10, x19]
	add	x19, x9, x19
	b.ne	.LBB1_3
.LBB1_5:
	cmp	w8, #0
	cset	w0, eq
	add	sp, sp, #32, lsl #12
	add	sp, sp, #32
	ldp	x20, x19, [sp, #48]
	ldr	x28, [sp, #16]
	ldp	x22, x21, [sp, #32]
	ldp	x29, x30, [sp], #64
	ret
.Lfunc_end1:
	.size	"room_map::lone_sized::<=131072>", .Lfunc_end1-"room_map::lone_sized::<=131072>"

	.section	.rodata.cst16,"aM",@progbits,16
	.p2align	4, 0x0
.LCPI2_0:
	.word	1
	.word	0
	.word	4294967295
	.word	0
	.section	".text.room_threads::is_room","ax",@progbits
	.p2align	2
	.type	"room_threads::is_room",@function
"room_threads::is_room":
	stp	x29, x30, [sp, #-96]!
	sub	x9, sp, #31, lsl #12
	stp	x28, x27, [sp, #16]
	mov	x29, sp
	sub	x9, x9, #2048
	stp	x26, x25, [sp, #32]
	stp	x24, x23, [sp, #48]
	stp	x22, x21, [sp, #64]
	stp	x20, x19, [sp, #80]
.LBB2_1:
	sub	sp, sp, #3072
	cmp	sp, x9
	str	xzr, [sp]
	b.ne	.LBB2_1
	sub	sp, sp, #2096
	mov	x24, #65536
	mov	x19, x1
	mov	x20, x0
	cmp	x1, #257
	sub	x23, x29, #24
	movk	x24, #65535, lsl #48
	str	xzr, [sp]
	b.hs	.LBB2_10
	add	x0, sp, #24, lsl #12
	mov	w1, wzr
	mov	w2, #516
	add	x0, x0, #20
	add	x21, sp, #24, lsl #12
	add	x21, x21, #20
	bl	memset
	add	x0, sp, #16, lsl #12
	mov	w1, wzr
	mov	w2, #516
	add	x0, x0, #16
	add	x22, sp, #16, lsl #12
	add	x22, x22, #16
	bl	memset
	add	x0, sp, #8, lsl #12
	mov	w1, wzr
	mov	w2, #516
	add	x0, x0, #12
	add	x25, sp, #8, lsl #12
	add	x25, x25, #12
	bl	memset
	add	x0, sp, #8
	mov	w1, wzr
	mov	w2, #516
	bl	memset
	lsr	x9, x19, #1
	adrp	x10, .LCPI2_0
	mov	x8, xzr
	ldr	q0, [x10, :lo12:.LCPI2_0]
	str	x24, [x23]
	add	w9, w9, #1
	and	w10, w9, #0xffff
	mov	w11, w9
	stur	q0, [x23, #8]
.LBB2_4:
	ldrb	w12, [x20, x8]
	ldrh	w13, [x21, w10, uxtw #1]
	sub	x14, x29, #24
	strh	w13, [x22, x8, lsl #1]
	sub	x13, x29, #16
	ldr	w13, [x13, x12, lsl #2]
	ldrh	w12, [x14, x12, lsl #1]
	strh	w11, [x25, x8, lsl #1]
	add	x8, x8, #1
	strh	w8, [x21, w10, uxtw #1]
	cmp	x19, x8
	add	w10, w13, w10
	add	w11, w12, w11
	b.ne	.LBB2_4
	ubfiz	x8, x9, #1, #15
	mov	x9, xzr
	b	.LBB2_7
.LBB2_6:
	cmp	x9, x8
	b.eq	.LBB2_28
.LBB2_7:
	add	x10, sp, #24, lsl #12
	add	x10, x10, #20
	ldrh	w10, [x10, x9, lsl #1]
	add	x9, x9, #1
	cbz	w10, .LBB2_6
.LBB2_8:
	ubfiz	x10, x10, #1, #32
	add	x11, sp, #8, lsl #12
	add	x12, sp, #8
	add	x11, x11, #12
	sub	x10, x10, #2
	ldrh	w11, [x11, x10]
	ldrh	w13, [x12, x11, lsl #1]
	cmp	w13, w9, uxth
	b.eq	.LBB2_26
	add	x13, sp, #16, lsl #12
	strh	w9, [x12, x11, lsl #1]
	add	x13, x13, #16
	ldrh	w10, [x13, x10]
	cbnz	w10, .LBB2_8
	b	.LBB2_6
.LBB2_10:
	lsr	x8, x19, #1
	add	x0, sp, #24, lsl #12
	cmp	x19, #2048
	add	x0, x0, #20
	mov	w1, wzr
	add	w21, w8, #1
	and	w22, w21, #0xffff
	b.hi	.LBB2_18
	mov	w2, #4100
	add	x25, sp, #24, lsl #12
	add	x25, x25, #20
	bl	memset
	add	x0, sp, #16, lsl #12
	mov	w1, wzr
	mov	w2, #4100
	add	x0, x0, #16
	add	x26, sp, #16, lsl #12
	add	x26, x26, #16
	bl	memset
	add	x0, sp, #8, lsl #12
	mov	w1, wzr
	mov	w2, #4100
	add	x0, x0, #12
	add	x27, sp, #8, lsl #12
	add	x27, x27, #12
	bl	memset
	add	x0, sp, #8
	mov	w1, wzr
	mov	w2, #4100
	bl	memset
	adrp	x9, .LCPI2_0
	mov	x8, xzr
	str	x24, [x23]
	ldr	q0, [x9, :lo12:.LCPI2_0]
	mov	w9, w21
	stur	q0, [x23, #8]
.LBB2_12:
	ldrb	w10, [x20, x8]
	ldrh	w11, [x25, w22, uxtw #1]
	sub	x12, x29, #24
	strh	w11, [x26, x8, lsl #1]
	sub	x11, x29, #16
	ldr	w11, [x11, x10, lsl #2]
	ldrh	w10, [x12, x10, lsl #1]
	strh	w9, [x27, x8, lsl #1]
	add	x8, x8, #1
	strh	w8, [x25, w22, uxtw #1]
	cmp	x19, x8
	add	w22, w11, w22
	add	w9, w10, w9
	b.ne	.LBB2_12
	ubfiz	x8, x21, #1, #15
	mov	x9, xzr
	b	.LBB2_15
.LBB2_14:
	cmp	x9, x8
	b.eq	.LBB2_28
.LBB2_15:
	add	x10, sp, #24, lsl #12
	add	x10, x10, #20
	ldrh	w10, [x10, x9, lsl #1]
	add	x9, x9, #1
	cbz	w10, .LBB2_14
.LBB2_16:
	ubfiz	x10, x10, #1, #32
	add	x11, sp, #8, lsl #12
	add	x12, sp, #8
	add	x11, x11, #12
	sub	x10, x10, #2
	ldrh	w11, [x11, x10]
	ldrh	w13, [x12, x11, lsl #1]
	cmp	w13, w9, uxth
	b.eq	.LBB2_26
	add	x13, sp, #16, lsl #12
	strh	w9, [x12, x11, lsl #1]
	add	x13, x13, #16
	ldrh	w10, [x13, x10]
	cbnz	w10, .LBB2_16
	b	.LBB2_14
.LBB2_18:
	mov	w2, #32772
	add	x25, sp, #24, lsl #12
	add	x25, x25, #20
	bl	memset
	add	x0, sp, #16, lsl #12
	mov	w1, wzr
	mov	w2, #32772
	add	x0, x0, #16
	add	x26, sp, #16, lsl #12
	add	x26, x26, #16
	bl	memset
	add	x0, sp, #8, lsl #12
	mov	w1, wzr
	mov	w2, #32772
	add	x0, x0, #12
	add	x27, sp, #8, lsl #12
	add	x27, x27, #12
	bl	memset
	add	x0, sp, #8
	mov	w1, wzr
	mov	w2, #32772
	bl	memset
	adrp	x9, .LCPI2_0
	mov	x8, xzr
	str	x24, [x23]
	ldr	q0, [x9, :lo12:.LCPI2_0]
	mov	w9, w21
	stur	q0, [x23, #8]
.LBB2_19:
	ldrb	w10, [x20, x8]
	ldrh	w11, [x25, w22, uxtw #1]
	sub	x12, x29, #24
	strh	w11, [x26, x8, lsl #1]
	sub	x11, x29, #16
	ldr	w11, [x11, x10, lsl #2]
	ldrh	w10, [x12, x10, lsl #1]
	strh	w9, [x27, x8, lsl #1]
	add	x8, x8, #1
	strh	w8, [x25, w22, uxtw #1]
	cmp	x19, x8
	add	w22, w11, w22
	add	w9, w10, w9
	b.ne	.LBB2_19
	tst	w21, #0xffff
	b.eq	.LBB2_28
	ubfiz	x8, x21, #1, #16
	mov	x9, xzr
	b	.LBB2_23
.LBB2_22:
	cmp	x9, x8
	b.eq	.LBB2_28
.LBB2_23:
	add	x10, sp, #24, lsl #12
	add	x10, x10, #20
	ldrh	w10, [x10, x9, lsl #1]
	add	x9, x9, #1
	cbz	w10, .LBB2_22
.LBB2_24:
	ubfiz	x10, x10, #1, #32
	add	x11, sp, #8, lsl #12
	add	x12, sp, #8
	add	x11, x11, #12
	sub	x10, x10, #2
	ldrh	w11, [x11, x10]
	ldrh	w13, [x12, x11, lsl #1]
	cmp	w13, w9, uxth
	b.eq	.LBB2_26
	add	x13, sp, #16, lsl #12
	strh	w9, [x12, x11, lsl #1]
	add	x13, x13, #16
	ldrh	w10, [x13, x10]
	cbnz	w10, .LBB2_24
	b	.LBB2_22
.LBB2_26:
	mov	w0, wzr
.LBB2_27:
	add	sp, sp, #32, lsl #12
	add	sp, sp, #48
	ldp	x20, x19, [sp, #80]
	ldp	x22, x21, [sp, #64]
	ldp	x24, x23, [sp, #48]
	ldp	x26, x25, [sp, #32]
	ldp	x28, x27, [sp, #16]
	ldp	x29, x30, [sp], #96
	ret
.LBB2_28:
	mov	w0, #1
	b	.LBB2_27
.Lfunc_end2:
	.size	"room_threads::is_room", .Lfunc_end2-"room_threads::is_room"

	.section	.rodata.cst16,"aM",@progbits,16
	.p2align	4, 0x0
.LCPI3_0:
	.word	1
	.word	0
	.word	4294967295
	.word	0
	.section	".text.row_call::list_in","ax",@progbits
	.p2align	2
	.type	"row_call::list_in",@function
"row_call::list_in":
	sub	sp, sp, #32
	adrp	x8, .LCPI3_0
	mov	x10, #65536
	ldr	q0, [x8, :lo12:.LCPI3_0]
	ldp	x9, x8, [x0, #8]
	movk	x10, #65535, lsl #48
	str	x10, [sp, #8]
	str	q0, [sp, #16]
	cbz	x8, .LBB3_3
	mov	x10, xzr
	and	w11, w1, #0xffff
	mov	w12, w1
.LBB3_2:
	ldrb	w13, [x9, x10]
	and	x14, x13, #0x1
	cmp	x13, #2
	umull	x14, w14, w11
	cset	w15, hi
	sub	w15, w12, w15
	strh	w15, [x5, x10, lsl #1]
	add	x15, sp, #16
	ldrh	w16, [x2, x14, lsl #1]
	ldr	w15, [x15, x13, lsl #2]
	strh	w16, [x4, x10, lsl #1]
	add	x16, sp, #8
	ldrh	w13, [x16, x13, lsl #1]
	add	w16, w10, #1
	add	x10, x10, #1
	cmp	x8, x10
	add	w11, w15, w11
	strh	w16, [x2, x14, lsl #1]
	add	w12, w13, w12
	b.ne	.LBB3_2
.LBB3_3:
	tst	w1, #0xffff
	b.eq	.LBB3_14
	ubfiz	x8, x1, #1, #16
	mov	x9, x8
	b	.LBB3_6
.LBB3_5:
	cmp	x9, #1
	b.ls	.LBB3_8
.LBB3_6:
	sub	x9, x9, #1
	ldrh	w10, [x2, x9, lsl #1]
	cbz	w10, .LBB3_5
.LBB3_7:
	mov	w10, w10
	sub	x11, x10, #1
	ldrh	w12, [x5, x11, lsl #1]
	ldrh	w10, [x4, x11, lsl #1]
	strh	w9, [x5, x11, lsl #1]
	ldrh	w13, [x3, x12, lsl #1]
	strh	w13, [x4, x11, lsl #1]
	add	w11, w11, #1
	strh	w11, [x3, x12, lsl #1]
	cbnz	w10, .LBB3_7
	b	.LBB3_5
.LBB3_8:
	ldp	w10, w11, [x0]
	and	w12, w1, #0xffff
	mov	x9, xzr
	mov	x14, xzr
	add	x13, x6, #8
	sub	w10, w10, w12
	sub	w11, w11, w12
	sub	w12, w10, #1
	b	.LBB3_10
.LBB3_9:
	add	x9, x9, #1
	cmp	x9, x8
	b.eq	.LBB3_14
.LBB3_10:
	ldrh	w17, [x3, x9, lsl #1]
	cbz	w17, .LBB3_9
	add	x15, x13, x14, lsl #2
	add	w16, w11, w9
	add	x14, x14, #1
.LBB3_12:
	ubfiz	x17, x17, #1, #32
	add	x14, x14, #3
	sub	x17, x17, #2
	ldrh	w18, [x4, x17]
	ldrh	w17, [x5, x17]
	lsl	x18, x18, #1
	add	w17, w10, w17
	sub	x18, x18, #2
	ldrh	w0, [x5, x18]
	stp	w16, w17, [x15, #-8]
	add	w0, w12, w0
	str	w0, [x15], #12
	ldrh	w17, [x4, x18]
	cbnz	w17, .LBB3_12
	sub	x14, x14, #1
	b	.LBB3_9
.LBB3_14:
	add	sp, sp, #32
	ret
.Lfunc_end3:
	.size	"row_call::list_in", .Lfunc_end3-"row_call::list_in"

	.section	.rodata.cst16,"aM",@progbits,16
	.p2align	4, 0x0
.LCPI4_0:
	.xword	-24
	.xword	-20
.LCPI4_1:
	.xword	0
	.xword	-28
.LCPI4_2:
	.xword	-8
	.xword	0
.LCPI4_3:
	.xword	-16
	.xword	-12
	.section	.rodata.cst8,"aM",@progbits,8
	.p2align	3, 0x0
.LCPI4_4:
	.byte	15
	.byte	15
	.byte	15
	.byte	15
	.byte	15
	.byte	15
	.byte	15
	.byte	255
.LCPI4_5:
	.byte	10
	.byte	10
	.byte	10
	.byte	10
	.byte	10
	.byte	10
	.byte	10
	.byte	160
	.section	".text.line_rows::tell_refusal","ax",@progbits
	.p2align	2
	.type	"line_rows::tell_refusal",@function
"line_rows::tell_refusal":
	and	w8, w2, #0xff
	mov	w9, #1
	adrp	x10, .LCPI4_0
	lsl	w8, w9, w8
	mov	w9, #65415
	adrp	x11, .LCPI4_1
	movk	w9, #55, lsl #16
	adrp	x12, .LCPI4_2
	ldr	q2, [x10, :lo12:.LCPI4_0]
	tst	w8, w9
	and	x9, x2, #0xff
	adrp	x10, .LCPI4_3
	add	x9, x9, #1
	csel	x8, xzr, x3, ne
	ldr	q3, [x11, :lo12:.LCPI4_1]
	fmov	d1, x9
	dup	v0.2d, x8
	ldr	q4, [x12, :lo12:.LCPI4_2]
	ldr	q5, [x10, :lo12:.LCPI4_3]
	adrp	x10, .LCPI4_4
	ubfx	w11, w8, #4, #4
	lsr	w9, w9, #4
	mov	v1.d[1], x8
	ushl	v2.2d, v0.2d, v2.2d
	ushl	v4.2d, v0.2d, v4.2d
	ushl	v0.2d, v0.2d, v5.2d
	orr	w9, w9, #0x38
	ushl	v1.2d, v1.2d, v3.2d
	uzp1	v0.4s, v0.4s, v4.4s
	movi	v3.8b, #87
	uzp1	v1.4s, v1.4s, v2.4s
	movi	v2.8b, #48
	uzp1	v0.8h, v1.8h, v0.8h
	ldr	d1, [x10, :lo12:.LCPI4_4]
	adrp	x10, .LCPI4_5
	xtn	v0.8b, v0.8h
	and	v0.8b, v0.8b, v1.8b
	ldr	d1, [x10, :lo12:.LCPI4_5]
	mov	w10, #48
	bfxil	w10, w8, #0, #4
	cmhi	v1.8b, v1.8b, v0.8b
	mov	v0.b[7], w11
	and	w11, w8, #0xf
	add	w8, w11, #87
	cmp	w11, #10
	add	x11, x0, x1
	csel	w8, w10, w8, lo
	add	x0, x1, #11
	strb	w9, [x11]
	strb	w8, [x11, #9]
	mov	w8, #10
	orr	v2.8b, v0.8b, v2.8b
	add	v0.8b, v0.8b, v3.8b
	strb	w8, [x11, #10]
	bit	v0.8b, v2.8b, v1.8b
	stur	d0, [x11, #1]
	ret
.Lfunc_end4:
	.size	"line_rows::tell_refusal", .Lfunc_end4-"line_rows::tell_refusal"

	.section	.rodata.cst16,"aM",@progbits,16
	.p2align	4, 0x0
.LCPI5_0:
	.byte	0
	.byte	1
	.byte	2
	.byte	3
	.byte	4
	.byte	5
	.byte	6
	.byte	7
	.byte	8
	.byte	9
	.byte	10
	.byte	11
	.byte	12
	.byte	13
	.byte	14
	.byte	15
.LCPI5_1:
	.byte	16
	.byte	17
	.byte	18
	.byte	19
	.byte	20
	.byte	21
	.byte	22
	.byte	23
	.byte	24
	.byte	25
	.byte	26
	.byte	27
	.byte	28
	.byte	29
	.byte	30
	.byte	31
	.section	.rodata.cst8,"aM",@progbits,8
	.p2align	3, 0x0
.LCPI5_2:
	.byte	32
	.byte	33
	.byte	34
	.byte	35
	.byte	36
	.byte	37
	.byte	38
	.byte	39
	.section	".text.line_io::send::<#df9e9f1468b30f79>","ax",@progbits
	.p2align	2
	.type	"line_io::send::<#df9e9f1468b30f79>",@function
"line_io::send::<#df9e9f1468b30f79>":
	sub	sp, sp, #176
	stp	x24, x23, [sp, #128]
	mov	x23, x3
	mov	w24, #1
	stp	x22, x21, [sp, #144]
	mov	x22, x4
	mov	x21, x1
	stp	x20, x19, [sp, #160]
	mov	w20, w2
	mov	x19, x0
	stp	x29, x30, [sp, #96]
	add	x29, sp, #96
	str	x25, [sp, #112]
	b	.LBB5_2
.LBB5_1:
	adds	x24, x24, #1
	b.hs	.LBB5_8
.LBB5_2:
	cbz	x22, .LBB5_9
	mov	w0, #1
	mov	x1, x23
	mov	x2, x22
	bl	write
	tbnz	x0, #63, .LBB5_6
	cbz	x0, .LBB5_8
	cmp	x0, x22
	csel	x8, x0, x22, lo
	add	x23, x23, x8
	sub	x22, x22, x8
	b	.LBB5_1
.LBB5_6:
	mov	x0, sp
	mov	x25, sp
	bl	"std_io::io::error::last_error"
	adrp	x9, .LCPI5_0
	ldr	x8, [sp]
	adrp	x10, .LCPI5_1
	ldr	q0, [x9, :lo12:.LCPI5_0]
	adrp	x9, .LCPI5_2
	ldr	q1, [x10, :lo12:.LCPI5_1]
	ldr	d2, [x9, :lo12:.LCPI5_2]
	ubfx	w9, w8, #8, #8
	mov	w10, #40
	stp	q0, q1, [sp]
	cmp	w9, #41
	str	d2, [sp, #32]
	strb	w10, [sp, #40]
	b.hs	.LBB5_8
	ubfx	x8, x8, #8, #6
	ldrb	w8, [x25, x8]
	cmp	w8, #35
	b.eq	.LBB5_1
.LBB5_8:
	mov	x21, xzr
	mov	w20, wzr
	stur	wzr, [x29, #27]
	mov	w8, #1
	b	.LBB5_10
.LBB5_9:
	mov	w8, wzr
	stur	wzr, [x29, #27]
.LBB5_10:
	str	wzr, [x29, #24]
	ldp	x24, x23, [sp, #128]
	ldur	w9, [x29, #27]
	strb	w8, [x19]
	ldr	x25, [sp, #112]
	strb	w8, [x19, #1]
	str	x21, [x19, #8]
	ldp	x22, x21, [sp, #144]
	strb	w20, [x19, #16]
	ldp	x29, x30, [sp, #96]
	stur	wzr, [x19, #17]
	str	w9, [x19, #20]
	ldp	x20, x19, [sp, #160]
	add	sp, sp, #176
	ret
.Lfunc_end5:
	.size	"line_io::send::<#df9e9f1468b30f79>", .Lfunc_end5-"line_io::send::<#df9e9f1468b30f79>"

	.section	".text.std_io::io::error::last_error","ax",@progbits
	.p2align	2
	.type	"std_io::io::error::last_error",@function
"std_io::io::error::last_error":
	stp	x29, x30, [sp, #-32]!
	str	x19, [sp, #16]
	mov	x29, sp
	mov	x19, x0
	bl	rattle_errno
	tbnz	w0, #31, .LBB6_4
	sub	w8, w0, #1
	cmp	w8, #121
	b.hi	.LBB6_4
	adrp	x9, .LJTI6_0
	add	x9, x9, :lo12:.LJTI6_0
	adr	x10, .LBB6_3
	ldrb	w11, [x9, x8]
	add	x10, x10, x11, lsl #2
	mov	w8, #1
	br	x10
.LBB6_3:
	mov	w8, #36
	b	.LBB6_5
.LBB6_4:
	mov	w8, #41
.LBB6_5:
	movi	v0.2d, #0000000000000000
	strb	wzr, [x19]
	strb	w8, [x19, #1]
	strh	wzr, [x19, #2]
	str	w0, [x19, #4]
	stur	q0, [x19, #8]
	stur	q0, [x19, #24]
	stur	q0, [x19, #40]
	stur	q0, [x19, #56]
	stur	q0, [x19, #72]
	ldr	x19, [sp, #16]
	ldp	x29, x30, [sp], #32
	ret
.LBB6_6:
	mov	w8, #4
	b	.LBB6_5
.LBB6_7:
	mov	w8, #7
	b	.LBB6_5
.LBB6_8:
	mov	w8, #26
	b	.LBB6_5
.LBB6_9:
	mov	w8, #39
	b	.LBB6_5
.LBB6_10:
	mov	w8, #9
	b	.LBB6_5
.LBB6_11:
	mov	w8, #8
	b	.LBB6_5
.LBB6_12:
	mov	w8, #30
	b	.LBB6_5
.LBB6_13:
	mov	w8, #25
	b	.LBB6_5
.LBB6_14:
	mov	w8, #32
	b	.LBB6_5
.LBB6_15:
	mov	w8, #33
	b	.LBB6_5
.LBB6_16:
	mov	w8, #22
	b	.LBB6_5
.LBB6_17:
	mov	w8, #31
	b	.LBB6_5
.LBB6_18:
	mov	w8, #29
	b	.LBB6_5
.LBB6_19:
	mov	w8, #18
	b	.LBB6_5
.LBB6_20:
	mov	w8, #10
	b	.LBB6_5
.LBB6_21:
	mov	w8, #28
	b	.LBB6_5
.LBB6_22:
	mov	w8, #14
	b	.LBB6_5
.LBB6_23:
	mov	w8, #12
	b	.LBB6_5
.LBB6_24:
	mov	w8, #5
	b	.LBB6_5
.LBB6_25:
	mov	w8, #3
	b	.LBB6_5
.LBB6_26:
	mov	w8, wzr
	b	.LBB6_5
.LBB6_27:
	mov	w8, #13
	b	.LBB6_5
.LBB6_28:
	mov	w8, #38
	b	.LBB6_5
.LBB6_29:
	mov	w8, #11
	b	.LBB6_5
.LBB6_30:
	mov	w8, #35
	b	.LBB6_5
.LBB6_31:
	mov	w8, #34
	b	.LBB6_5
.LBB6_32:
	mov	w8, #20
	b	.LBB6_5
.LBB6_33:
	mov	w8, #15
	b	.LBB6_5
.LBB6_34:
	mov	w8, #19
	b	.LBB6_5
.LBB6_35:
	mov	w8, #16
	b	.LBB6_5
.LBB6_36:
	mov	w8, #6
	b	.LBB6_5
.LBB6_37:
	mov	w8, #27
	b	.LBB6_5
.LBB6_38:
	mov	w8, #24
	b	.LBB6_5
.LBB6_39:
	mov	w8, #2
	b	.LBB6_5
.LBB6_40:
	mov	w8, #17
	b	.LBB6_5
.Lfunc_end6:
	.size	"std_io::io::error::last_error", .Lfunc_end6-"std_io::io::error::last_error"
	.section	".rodata.std_io::io::error::last_error","a",@progbits
.LJTI6_0:
	.byte	(.LBB6_5-.LBB6_3)>>2
	.byte	(.LBB6_26-.LBB6_3)>>2
	.byte	(.LBB6_4-.LBB6_3)>>2
	.byte	(.LBB6_30-.LBB6_3)>>2
	.byte	(.LBB6_4-.LBB6_3)>>2
	.byte	(.LBB6_4-.LBB6_3)>>2
	.byte	(.LBB6_31-.LBB6_3)>>2
	.byte	(.LBB6_4-.LBB6_3)>>2
	.byte	(.LBB6_4-.LBB6_3)>>2
	.byte	(.LBB6_4-.LBB6_3)>>2
	.byte	(.LBB6_27-.LBB6_3)>>2
	.byte	(.LBB6_28-.LBB6_3)>>2
	.byte	(.LBB6_5-.LBB6_3)>>2
	.byte	(.LBB6_4-.LBB6_3)>>2
	.byte	(.LBB6_4-.LBB6_3)>>2
	.byte	(.LBB6_21-.LBB6_3)>>2
	.byte	(.LBB6_23-.LBB6_3)>>2
	.byte	(.LBB6_17-.LBB6_3)>>2
	.byte	(.LBB6_4-.LBB6_3)>>2
	.byte	(.LBB6_22-.LBB6_3)>>2
	.byte	(.LBB6_33-.LBB6_3)>>2
	.byte	(.LBB6_32-.LBB6_3)>>2
	.byte	(.LBB6_4-.LBB6_3)>>2
	.byte	(.LBB6_4-.LBB6_3)>>2
	.byte	(.LBB6_4-.LBB6_3)>>2
	.byte	(.LBB6_18-.LBB6_3)>>2
	.byte	(.LBB6_37-.LBB6_3)>>2
	.byte	(.LBB6_38-.LBB6_3)>>2
	.byte	(.LBB6_13-.LBB6_3)>>2
	.byte	(.LBB6_40-.LBB6_3)>>2
	.byte	(.LBB6_14-.LBB6_3)>>2
	.byte	(.LBB6_29-.LBB6_3)>>2
	.byte	(.LBB6_4-.LBB6_3)>>2
	.byte	(.LBB6_4-.LBB6_3)>>2
	.byte	(.LBB6_12-.LBB6_3)>>2
	.byte	(.LBB6_15-.LBB6_3)>>2
	.byte	(.LBB6_4-.LBB6_3)>>2
	.byte	(.LBB6_3-.LBB6_3)>>2
	.byte	(.LBB6_35-.LBB6_3)>>2
	.byte	(.LBB6_19-.LBB6_3)>>2
	.byte	(.LBB6_4-.LBB6_3)>>2
	.byte	(.LBB6_4-.LBB6_3)>>2
	.byte	(.LBB6_4-.LBB6_3)>>2
	.byte	(.LBB6_4-.LBB6_3)>>2
	.byte	(.LBB6_4-.LBB6_3)>>2
	.byte	(.LBB6_4-.LBB6_3)>>2
	.byte	(.LBB6_4-.LBB6_3)>>2
	.byte	(.LBB6_4-.LBB6_3)>>2
	.byte	(.LBB6_4-.LBB6_3)>>2
	.byte	(.LBB6_4-.LBB6_3)>>2
	.byte	(.LBB6_4-.LBB6_3)>>2
	.byte	(.LBB6_4-.LBB6_3)>>2
	.byte	(.LBB6_4-.LBB6_3)>>2
	.byte	(.LBB6_4-.LBB6_3)>>2
	.byte	(.LBB6_4-.LBB6_3)>>2
	.byte	(.LBB6_4-.LBB6_3)>>2
	.byte	(.LBB6_4-.LBB6_3)>>2
	.byte	(.LBB6_4-.LBB6_3)>>2
	.byte	(.LBB6_4-.LBB6_3)>>2
	.byte	(.LBB6_4-.LBB6_3)>>2
	.byte	(.LBB6_4-.LBB6_3)>>2
	.byte	(.LBB6_4-.LBB6_3)>>2
	.byte	(.LBB6_4-.LBB6_3)>>2
	.byte	(.LBB6_4-.LBB6_3)>>2
	.byte	(.LBB6_4-.LBB6_3)>>2
	.byte	(.LBB6_4-.LBB6_3)>>2
	.byte	(.LBB6_4-.LBB6_3)>>2
	.byte	(.LBB6_4-.LBB6_3)>>2
	.byte	(.LBB6_4-.LBB6_3)>>2
	.byte	(.LBB6_4-.LBB6_3)>>2
	.byte	(.LBB6_4-.LBB6_3)>>2
	.byte	(.LBB6_4-.LBB6_3)>>2
	.byte	(.LBB6_4-.LBB6_3)>>2
	.byte	(.LBB6_4-.LBB6_3)>>2
	.byte	(.LBB6_4-.LBB6_3)>>2
	.byte	(.LBB6_4-.LBB6_3)>>2
	.byte	(.LBB6_4-.LBB6_3)>>2
	.byte	(.LBB6_4-.LBB6_3)>>2
	.byte	(.LBB6_4-.LBB6_3)>>2
	.byte	(.LBB6_4-.LBB6_3)>>2
	.byte	(.LBB6_4-.LBB6_3)>>2
	.byte	(.LBB6_4-.LBB6_3)>>2
	.byte	(.LBB6_4-.LBB6_3)>>2
	.byte	(.LBB6_4-.LBB6_3)>>2
	.byte	(.LBB6_4-.LBB6_3)>>2
	.byte	(.LBB6_4-.LBB6_3)>>2
	.byte	(.LBB6_4-.LBB6_3)>>2
	.byte	(.LBB6_4-.LBB6_3)>>2
	.byte	(.LBB6_4-.LBB6_3)>>2
	.byte	(.LBB6_4-.LBB6_3)>>2
	.byte	(.LBB6_4-.LBB6_3)>>2
	.byte	(.LBB6_4-.LBB6_3)>>2
	.byte	(.LBB6_4-.LBB6_3)>>2
	.byte	(.LBB6_4-.LBB6_3)>>2
	.byte	(.LBB6_3-.LBB6_3)>>2
	.byte	(.LBB6_4-.LBB6_3)>>2
	.byte	(.LBB6_4-.LBB6_3)>>2
	.byte	(.LBB6_11-.LBB6_3)>>2
	.byte	(.LBB6_10-.LBB6_3)>>2
	.byte	(.LBB6_20-.LBB6_3)>>2
	.byte	(.LBB6_24-.LBB6_3)>>2
	.byte	(.LBB6_4-.LBB6_3)>>2
	.byte	(.LBB6_36-.LBB6_3)>>2
	.byte	(.LBB6_25-.LBB6_3)>>2
	.byte	(.LBB6_4-.LBB6_3)>>2
	.byte	(.LBB6_4-.LBB6_3)>>2
	.byte	(.LBB6_7-.LBB6_3)>>2
	.byte	(.LBB6_4-.LBB6_3)>>2
	.byte	(.LBB6_4-.LBB6_3)>>2
	.byte	(.LBB6_16-.LBB6_3)>>2
	.byte	(.LBB6_39-.LBB6_3)>>2
	.byte	(.LBB6_4-.LBB6_3)>>2
	.byte	(.LBB6_6-.LBB6_3)>>2
	.byte	(.LBB6_4-.LBB6_3)>>2
	.byte	(.LBB6_9-.LBB6_3)>>2
	.byte	(.LBB6_34-.LBB6_3)>>2
	.byte	(.LBB6_4-.LBB6_3)>>2
	.byte	(.LBB6_4-.LBB6_3)>>2
	.byte	(.LBB6_4-.LBB6_3)>>2
	.byte	(.LBB6_4-.LBB6_3)>>2
	.byte	(.LBB6_4-.LBB6_3)>>2
	.byte	(.LBB6_8-.LBB6_3)>>2

	.section	.rodata.cst16,"aM",@progbits,16
	.p2align	4, 0x0
.LCPI7_0:
	.byte	1
	.byte	2
	.byte	4
	.byte	8
	.byte	16
	.byte	32
	.byte	64
	.byte	128
	.byte	1
	.byte	2
	.byte	4
	.byte	8
	.byte	16
	.byte	32
	.byte	64
	.byte	128
	.section	.text.main,"ax",@progbits
	.globl	main
	.p2align	2
	.type	main,@function
main:
	stp	x29, x30, [sp, #-96]!
	sub	x9, sp, #60, lsl #12
	stp	x28, x27, [sp, #16]
	mov	x29, sp
	sub	x9, x9, #3072
	stp	x26, x25, [sp, #32]
	stp	x24, x23, [sp, #48]
	stp	x22, x21, [sp, #64]
	stp	x20, x19, [sp, #80]
.LBB7_1:
	sub	sp, sp, #3072
	cmp	sp, x9
	str	xzr, [sp]
	b.ne	.LBB7_1
	sub	sp, sp, #1344
	add	x19, sp, #48, lsl #12
	mov	w0, #13
	mov	w1, #1
	str	xzr, [sp]
	add	x19, x19, #1048
	mov	w24, #1
	bl	__sysv_signal
	add	x0, sp, #48, lsl #12
	mov	w1, wzr
	mov	w2, #1031
	add	x0, x0, #17
	bl	memset
	add	x0, sp, #32, lsl #12
	mov	w1, wzr
	mov	w2, #65536
	add	x0, x0, #17
	bl	memset
	add	x0, sp, #17
	mov	w1, wzr
	mov	w2, #131072
	bl	memset
	mov	x25, xzr
	mov	x27, xzr
	mov	x20, xzr
	mov	x26, xzr
	mov	x21, xzr
	b	.LBB7_5
.LBB7_3:
	add	x0, sp, #48, lsl #12
	ldr	x1, [sp, #8]
	add	x3, sp, #17
	add	x0, x0, #1048
	mov	w2, w24
	mov	x4, x22
	bl	"line_io::send::<#df9e9f1468b30f79>"
	add	x19, sp, #48, lsl #12
	add	x19, x19, #1048
	ldrb	w8, [x19]
	cbnz	w8, .LBB7_32
	ldr	x20, [x19, #8]
	ldrb	w24, [x19, #16]
	add	x25, x25, #1
	cmn	x25, #1
	b.eq	.LBB7_26
.LBB7_5:
	cmp	x26, x27
	b.hs	.LBB7_23
	add	x0, sp, #48, lsl #12
	mov	w1, wzr
	mov	w2, #52488
	add	x0, x0, #1072
	str	x20, [sp, #8]
	stp	xzr, xzr, [x19]
	str	xzr, [x19, #16]
	bl	memset
	mov	x22, xzr
	neg	x28, x27
	b	.LBB7_8
.LBB7_7:
	mov	w8, #1031
	sub	x8, x8, x21
	cmp	x8, x19
	csel	x23, x8, x19, lo
	add	x8, sp, #48, lsl #12
	add	x8, x8, #17
	mov	x2, x23
	add	x0, x8, x21
	bl	memcpy
	add	x21, x23, x21
	add	x26, x19, x26
	cmp	x26, x27
	b.hs	.LBB7_3
.LBB7_8:
	mov	x8, #-58881
	movk	x8, #65534, lsl #16
	add	x8, x22, x8
	lsr	x8, x8, #9
	cmp	x8, #13
	b.lo	.LBB7_3
	add	x8, sp, #32, lsl #12
	sub	x19, x27, x26
	add	x8, x8, #17
	cmp	x19, #32
	add	x1, x8, x26
	mov	x8, xzr
	b.lo	.LBB7_14
	sub	x9, x27, x26
.LBB7_11:
	movi	v0.16b, #10
	add	x10, x1, x8
	ldp	q1, q2, [x10]
	adrp	x10, .LCPI7_0
	cmeq	v2.16b, v2.16b, v0.16b
	cmeq	v0.16b, v1.16b, v0.16b
	ldr	q1, [x10, :lo12:.LCPI7_0]
	and	v2.16b, v2.16b, v1.16b
	and	v0.16b, v0.16b, v1.16b
	ext	v1.16b, v2.16b, v2.16b, #8
	ext	v3.16b, v0.16b, v0.16b, #8
	zip1	v1.16b, v2.16b, v1.16b
	zip1	v0.16b, v0.16b, v3.16b
	addv	h1, v1.8h
	addv	h0, v0.8h
	fmov	w10, s1
	fmov	w11, s0
	orr	w10, w11, w10
	tst	w10, #0xffff
	b.ne	.LBB7_14
	sub	x9, x9, #32
	add	x8, x8, #32
	cmp	x9, #31
	b.hi	.LBB7_11
	and	x8, x19, #0xffffffffffffffe0
.LBB7_14:
	cmp	x8, x19
	b.hs	.LBB7_7
	add	x10, sp, #32, lsl #12
	add	x9, x26, x8
	neg	x20, x8
	add	x10, x10, #17
	add	x8, x28, x26
	add	x9, x10, x9
.LBB7_16:
	ldrb	w10, [x9], #1
	cmp	w10, #10
	b.eq	.LBB7_18
	sub	x20, x20, #1
	cmp	x8, x20
	b.ne	.LBB7_16
	b	.LBB7_7
.LBB7_18:
	neg	x8, x20
	cmp	x19, x8
	neg	x19, x20
	b.ls	.LBB7_7
	cbz	x21, .LBB7_21
	mov	w9, #1031
	sub	x9, x9, x21
	cmp	x9, x8
	csel	x23, x9, x8, lo
	add	x8, sp, #48, lsl #12
	add	x8, x8, #17
	mov	x2, x23
	add	x0, x8, x21
	bl	memcpy
	add	x0, sp, #48, lsl #12
	add	x2, sp, #48, lsl #12
	add	x1, x23, x21
	add	x0, x0, #17
	add	x2, x2, #1072
	add	x3, sp, #17
	b	.LBB7_22
.LBB7_21:
	cmp	x8, #1031
	mov	w9, #1031
	add	x2, sp, #48, lsl #12
	csel	x8, x8, x9, lo
	add	x2, x2, #1072
	add	x3, sp, #17
	mov	x0, x1
	mov	x1, x8
.LBB7_22:
	mov	x4, x22
	bl	"lines::tell"
	sub	x8, x26, x20
	mov	x22, x0
	mov	x21, xzr
	add	x26, x8, #1
	cmp	x26, x27
	b.lo	.LBB7_8
	b	.LBB7_3
.LBB7_23:
	add	x1, sp, #32, lsl #12
	mov	w0, wzr
	mov	w2, #65536
	add	x1, x1, #17
	bl	read
	tbnz	x0, #63, .LBB7_27
	cbz	x0, .LBB7_28
	cmp	x0, #16, lsl #12
	mov	w8, #65536
	mov	x26, xzr
	csel	x27, x0, x8, lo
	add	x25, x25, #1
	cmn	x25, #1
	b.ne	.LBB7_5
.LBB7_26:
	mov	w0, #1
	b	.LBB7_33
.LBB7_27:
	add	x0, sp, #48, lsl #12
	add	x0, x0, #1072
	bl	"std_io::io::error::last_error"
	mov	w0, #1
	b	.LBB7_33
.LBB7_28:
	stp	xzr, xzr, [x19]
	str	xzr, [x19, #16]
	cbz	x21, .LBB7_30
	add	x0, sp, #48, lsl #12
	mov	w1, wzr
	mov	w2, #52488
	add	x0, x0, #1072
	bl	memset
	add	x0, sp, #48, lsl #12
	add	x2, sp, #48, lsl #12
	add	x3, sp, #17
	add	x0, x0, #17
	add	x2, x2, #1072
	mov	x1, x21
	mov	x4, xzr
	bl	"lines::tell"
	mov	x4, x0
	b	.LBB7_31
.LBB7_30:
	mov	x4, xzr
.LBB7_31:
	add	x0, sp, #48, lsl #12
	add	x3, sp, #17
	mov	x1, x20
	add	x0, x0, #1048
	mov	w2, w24
	bl	"line_io::send::<#df9e9f1468b30f79>"
	ldrb	w8, [x19]
	cbz	w8, .LBB7_34
.LBB7_32:
	ldrb	w8, [x19, #1]
	tst	w8, #0xff
	mov	w8, #1
	cinc	w0, w8, ne
.LBB7_33:
	add	sp, sp, #61, lsl #12
	add	sp, sp, #320
	ldp	x20, x19, [sp, #80]
	ldp	x22, x21, [sp, #64]
	ldp	x24, x23, [sp, #48]
	ldp	x26, x25, [sp, #32]
	ldp	x28, x27, [sp, #16]
	ldp	x29, x30, [sp], #96
	ret
.LBB7_34:
	mov	w0, wzr
	b	.LBB7_33
.Lfunc_end7:
	.size	main, .Lfunc_end7-main

	.ident	"rattle logic=dac8208d650f15bf3e2dc313a14fa4c783a3acf887bdfab66e1714b038d9e11b"
	.section	".note.GNU-stack","",@progbits
