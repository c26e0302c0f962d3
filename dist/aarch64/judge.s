/* Undrwyth, the program judge for aarch64 under Linux: made by scripts/dist from the sources of state 6ebe34014c5cbdcaab53ada40270abd81a24510c61112a54dce22a0a74dc2a61, which the Rattle kit proved; do not edit. SPDX-License-Identifier: MIT */
	.file	"rattle"
	.section	.rodata.cst16,"aM",@progbits,16
	.p2align	4, 0x0
.LCPI0_0:
	.xword	0
	.xword	1
.LCPI0_1:
	.word	1
	.word	0
	.word	4294967295
	.word	0
.LCPI0_2:
	.xword	-12
	.xword	-8
.LCPI0_3:
	.xword	-28
	.xword	-24
.LCPI0_4:
	.xword	-20
	.xword	-16
.LCPI0_5:
	.byte	255
	.byte	15
	.byte	15
	.byte	15
	.byte	255
	.byte	15
	.byte	15
	.byte	15
	.byte	15
	.byte	15
	.byte	15
	.byte	15
	.byte	255
	.byte	15
	.byte	15
	.byte	15
.LCPI0_6:
	.byte	160
	.byte	10
	.byte	10
	.byte	10
	.byte	160
	.byte	10
	.byte	10
	.byte	10
	.byte	10
	.byte	10
	.byte	10
	.byte	10
	.byte	160
	.byte	10
	.byte	10
	.byte	10
.LCPI0_7:
	.word	4294967272
	.word	4294967276
	.word	4294967280
	.word	4294967284
.LCPI0_8:
	.xword	0
	.xword	-12
.LCPI0_9:
	.xword	-8
	.xword	0
.LCPI0_10:
	.byte	15
	.byte	255
	.byte	15
	.byte	15
	.byte	15
	.byte	255
	.byte	15
	.byte	255
	.byte	15
	.byte	15
	.byte	15
	.byte	15
	.byte	15
	.byte	255
	.byte	15
	.byte	15
.LCPI0_16:
	.byte	0
	.byte	4
	.byte	8
	.byte	12
	.byte	16
	.byte	20
	.byte	24
	.byte	28
	.byte	32
	.byte	36
	.byte	40
	.byte	44
	.byte	48
	.byte	52
	.byte	56
	.byte	60
.LCPI0_17:
	.word	4294967284
	.word	4294967288
	.word	0
	.word	0
.LCPI0_20:
	.xword	-24
	.xword	-20
.LCPI0_21:
	.xword	-16
	.xword	-12
	.section	.rodata.cst8,"aM",@progbits,8
	.p2align	3, 0x0
.LCPI0_11:
	.word	10
	.word	160
.LCPI0_12:
	.hword	15
	.hword	255
	.hword	15
	.hword	15
.LCPI0_13:
	.hword	10
	.hword	160
	.hword	10
	.hword	10
.LCPI0_14:
	.byte	15
	.byte	15
	.byte	15
	.byte	15
	.byte	15
	.byte	255
	.byte	15
	.byte	15
.LCPI0_15:
	.byte	10
	.byte	10
	.byte	10
	.byte	10
	.byte	10
	.byte	160
	.byte	10
	.byte	10
.LCPI0_18:
	.hword	15
	.hword	15
	.hword	255
	.hword	15
.LCPI0_19:
	.hword	10
	.hword	10
	.hword	160
	.hword	10
.LCPI0_22:
	.byte	15
	.byte	15
	.byte	15
	.byte	15
	.byte	15
	.byte	15
	.byte	15
	.byte	255
.LCPI0_23:
	.byte	10
	.byte	10
	.byte	10
	.byte	10
	.byte	10
	.byte	10
	.byte	10
	.byte	160
	.section	".text.lines::tell","ax",@progbits
	.p2align	2
	.type	"lines::tell",@function
"lines::tell":
	stp	x29, x30, [sp, #-96]!
	stp	x28, x27, [sp, #16]
	mov	x29, sp
	stp	x26, x25, [sp, #32]
	stp	x24, x23, [sp, #48]
	stp	x22, x21, [sp, #64]
	stp	x20, x19, [sp, #80]
	sub	sp, sp, #3072
	str	xzr, [sp]
	sub	sp, sp, #3072
	str	xzr, [sp]
	sub	sp, sp, #3072
	str	xzr, [sp], #-224
	mov	x21, x2
	mov	x23, x1
	mov	x22, x0
	sub	x24, x1, #1031
	add	x0, sp, #128
	mov	w1, wzr
	mov	w2, #1024
	mov	x20, x4
	mov	x19, x3
	bl	memset
	cmn	x24, #1025
	b.lo	.LBB0_19
	cmp	x23, #8
	b.hs	.LBB0_3
	mov	x8, xzr
	mov	w9, #1
	b	.LBB0_12
.LBB0_3:
	cmp	x23, #32
	b.hs	.LBB0_5
	mov	x8, xzr
	mov	w9, #1
	b	.LBB0_9
.LBB0_5:
	movi	v0.16b, #1
	movi	v1.16b, #1
	and	x10, x23, #0x18
	and	x8, x23, #0x7e0
	add	x9, x22, #16
	and	x11, x23, #0x7e0
.LBB0_6:
	movi	v2.16b, #208
	movi	v3.16b, #159
	subs	x11, x11, #32
	ldp	q4, q5, [x9, #-16]
	movi	v6.16b, #10
	movi	v7.16b, #6
	add	x9, x9, #32
	add	v16.16b, v4.16b, v2.16b
	add	v2.16b, v5.16b, v2.16b
	add	v4.16b, v4.16b, v3.16b
	add	v3.16b, v5.16b, v3.16b
	cmhi	v5.16b, v6.16b, v16.16b
	cmhi	v2.16b, v6.16b, v2.16b
	cmhi	v4.16b, v7.16b, v4.16b
	cmhi	v3.16b, v7.16b, v3.16b
	orr	v4.16b, v5.16b, v4.16b
	orr	v2.16b, v2.16b, v3.16b
	and	v0.16b, v0.16b, v4.16b
	and	v1.16b, v1.16b, v2.16b
	b.ne	.LBB0_6
	and	v0.16b, v1.16b, v0.16b
	cmp	x23, x8
	shl	v0.16b, v0.16b, #7
	cmlt	v0.16b, v0.16b, #0
	uminv	b0, v0.16b
	fmov	w9, s0
	b.eq	.LBB0_14
	cbz	x10, .LBB0_12
.LBB0_9:
	movi	v0.2d, #0xffffffffffffffff
	mov	x10, x8
	and	x8, x23, #0x7f8
	mov	v0.b[0], w9
	sub	x9, x10, x8
	add	x10, x22, x10
.LBB0_10:
	movi	v1.8b, #208
	movi	v2.8b, #159
	adds	x9, x9, #8
	ldr	d3, [x10], #8
	movi	v4.8b, #10
	movi	v5.8b, #6
	add	v1.8b, v3.8b, v1.8b
	add	v2.8b, v3.8b, v2.8b
	cmhi	v1.8b, v4.8b, v1.8b
	cmhi	v2.8b, v5.8b, v2.8b
	orr	v1.8b, v1.8b, v2.8b
	and	v0.8b, v0.8b, v1.8b
	b.ne	.LBB0_10
	shl	v0.8b, v0.8b, #7
	cmp	x23, x8
	cmlt	v0.8b, v0.8b, #0
	uminv	b0, v0.8b
	fmov	w9, s0
	b.eq	.LBB0_14
.LBB0_12:
	sub	x10, x23, x8
	add	x8, x22, x8
.LBB0_13:
	ldrb	w11, [x8], #1
	sub	w12, w11, #48
	sub	w11, w11, #97
	cmp	w12, #10
	ccmp	w11, #6, #0, hs
	cset	w11, lo
	subs	x10, x10, #1
	and	w9, w9, w11
	b.ne	.LBB0_13
.LBB0_14:
	tbz	w9, #0, .LBB0_19
	ldrb	w9, [x22]
	mov	w8, #-87
	mov	w10, #-48
	ldrb	w12, [x22, #1]
	cmp	w9, #58
	csel	w11, w10, w8, lo
	cmp	w12, #58
	add	w9, w11, w9
	and	x9, x9, #0xff
	lsl	x11, x9, #4
	csel	w9, w10, w8, lo
	add	w9, w9, w12
	add	x11, x11, w9, uxtb
	cmp	x11, #1
	b.hi	.LBB0_19
	ldrb	w11, [x22, #2]
	ldrb	w12, [x22, #3]
	ldrb	w14, [x22, #4]
	ldrb	w15, [x22, #5]
	cmp	w11, #58
	csel	w13, w10, w8, lo
	cmp	w12, #58
	add	w11, w13, w11
	csel	w13, w10, w8, lo
	cmp	w14, #58
	add	w12, w13, w12
	ubfiz	x25, x11, #12, #8
	csel	w11, w10, w8, lo
	ubfiz	x26, x12, #8, #8
	cmp	w15, #58
	csel	w8, w10, w8, lo
	add	w10, w11, w14
	add	w28, w8, w15
	add	x8, x26, x25
	ubfiz	x27, x10, #4, #8
	bfxil	x8, x28, #0, #8
	add	x24, x8, x27
	sub	x8, x23, #6
	cmp	x8, x24
	b.ne	.LBB0_19
	tst	w9, #0xff
	b.eq	.LBB0_22
	mov	x23, xzr
	mov	w8, #19
	b	.LBB0_20
.LBB0_19:
	mov	x23, xzr
	mov	w8, #9
.LBB0_20:
	dup	v0.2d, x23
	adrp	x9, .LCPI0_20
	fmov	s2, w8
	ldr	q1, [x9, :lo12:.LCPI0_20]
	lsr	x9, x23, #28
	ubfx	w10, w23, #4, #4
	movi	v5.8b, #48
	movi	v6.8b, #87
	lsr	w8, w8, #4
	ushl	v1.2d, v0.2d, v1.2d
	mov	v2.b[1], w9
	adrp	x9, .LCPI0_21
	ldr	q3, [x9, :lo12:.LCPI0_21]
	and	w11, w23, #0xf
	orr	w8, w8, #0x38
	add	w12, w11, #87
	cmp	w11, #10
	xtn	v1.2s, v1.2d
	ushl	v3.2d, v0.2d, v3.2d
	xtn	v3.2s, v3.2d
	mov	w9, v1.s[1]
	mov	v2.b[2], v1.b[0]
	mov	v2.b[3], w9
	adrp	x9, .LCPI0_9
	ldr	q4, [x9, :lo12:.LCPI0_9]
	mov	w9, v3.s[1]
	ushl	v0.2d, v0.2d, v4.2d
	mov	v2.b[4], v3.b[0]
	xtn	v0.2s, v0.2d
	mov	v2.b[5], w9
	mov	w9, v0.s[1]
	mov	v2.b[6], v0.b[0]
	mov	v2.b[7], w9
	adrp	x9, .LCPI0_22
	ldr	d4, [x9, :lo12:.LCPI0_22]
	adrp	x9, .LCPI0_23
	and	v2.8b, v2.8b, v4.8b
	ldr	d4, [x9, :lo12:.LCPI0_23]
	mov	w9, #48
	bfxil	w9, w23, #0, #4
	cmhi	v4.8b, v4.8b, v2.8b
	mov	v2.b[7], w10
	add	x10, x19, x20
	strb	w8, [x10]
	csel	w8, w9, w12, lo
	add	x9, x20, #10
	strb	w8, [x10, #9]
	orr	v5.8b, v2.8b, v5.8b
	add	v2.8b, v2.8b, v6.8b
	bit	v2.8b, v5.8b, v4.8b
	stur	d2, [x10, #1]
.LBB0_21:
	add	x0, x9, #1
	mov	w8, #10
	strb	w8, [x19, x9]
	add	sp, sp, #2, lsl #12
	add	sp, sp, #1248
	ldp	x20, x19, [sp, #80]
	ldp	x22, x21, [sp, #64]
	ldp	x24, x23, [sp, #48]
	ldp	x26, x25, [sp, #32]
	ldp	x28, x27, [sp, #16]
	ldp	x29, x30, [sp], #96
	ret
.LBB0_22:
	add	x0, sp, #1, lsl #12
	mov	w1, wzr
	mov	w2, #1024
	add	x0, x0, #3248
	bl	memset
	cbz	x24, .LBB0_57
	cmp	x24, #8
	and	x8, x28, #0xff
	b.hs	.LBB0_25
	mov	x9, xzr
	b	.LBB0_34
.LBB0_25:
	cmp	x24, #32
	b.hs	.LBB0_27
	mov	x9, xzr
	b	.LBB0_31
.LBB0_27:
	add	x11, sp, #1, lsl #12
	and	x10, x24, #0x18
	and	x9, x24, #0x3fffe0
	add	x11, x11, #3248
	add	x12, x22, #22
	and	x13, x24, #0x3fffe0
	add	x11, x11, #16
.LBB0_28:
	movi	v0.16b, #58
	ldp	q1, q2, [x12, #-16]
	movi	v3.16b, #169
	movi	v4.16b, #208
	subs	x13, x13, #32
	add	x12, x12, #32
	cmhi	v5.16b, v0.16b, v1.16b
	cmhi	v0.16b, v0.16b, v2.16b
	bsl	v5.16b, v4.16b, v3.16b
	bsl	v0.16b, v4.16b, v3.16b
	add	v1.16b, v5.16b, v1.16b
	add	v0.16b, v0.16b, v2.16b
	stp	q1, q0, [x11, #-16]
	add	x11, x11, #32
	b.ne	.LBB0_28
	cmp	x24, x9
	b.eq	.LBB0_36
	cbz	x10, .LBB0_34
.LBB0_31:
	and	x10, x8, #0x7
	add	x12, sp, #1, lsl #12
	add	x14, x9, x22
	add	x11, x9, x10
	add	x12, x12, #3248
	sub	x11, x11, x8
	sub	x11, x11, x27
	sub	x13, x11, x26
	add	x11, x12, x9
	sub	x9, x24, x10
	sub	x12, x13, x25
	add	x13, x14, #6
.LBB0_32:
	movi	v0.8b, #58
	ldr	d1, [x13], #8
	movi	v2.8b, #169
	movi	v3.8b, #208
	adds	x12, x12, #8
	cmhi	v0.8b, v0.8b, v1.8b
	bsl	v0.8b, v3.8b, v2.8b
	add	v0.8b, v0.8b, v1.8b
	str	d0, [x11], #8
	b.ne	.LBB0_32
	cbz	x10, .LBB0_36
.LBB0_34:
	add	x10, x25, x26
	add	x11, sp, #1, lsl #12
	add	x12, x9, x22
	add	x10, x10, x27
	add	x11, x11, #3248
	add	x10, x10, x8
	sub	x10, x10, x9
	add	x9, x11, x9
	add	x11, x12, #6
.LBB0_35:
	ldrb	w12, [x11], #1
	mov	w13, #-87
	mov	w14, #-48
	cmp	w12, #58
	csel	w13, w14, w13, lo
	subs	x10, x10, #1
	add	w12, w13, w12
	strb	w12, [x9], #1
	b.ne	.LBB0_35
.LBB0_36:
	cmp	x24, #4
	b.hs	.LBB0_38
	mov	w10, wzr
	mov	x9, xzr
	b	.LBB0_47
.LBB0_38:
	cmp	x24, #32
	b.hs	.LBB0_40
	mov	x9, xzr
	mov	w10, wzr
	b	.LBB0_44
.LBB0_40:
	movi	v0.2d, #0000000000000000
	movi	v1.2d, #0000000000000000
	add	x10, sp, #1, lsl #12
	add	x10, x10, #3248
	and	x11, x24, #0x1c
	and	x9, x24, #0x3fffe0
	add	x10, x10, #16
	and	x12, x24, #0x3fffe0
.LBB0_41:
	ldp	q2, q3, [x10, #-16]
	subs	x12, x12, #32
	add	x10, x10, #32
	umax	v0.16b, v2.16b, v0.16b
	umax	v1.16b, v3.16b, v1.16b
	b.ne	.LBB0_41
	umax	v0.16b, v0.16b, v1.16b
	cmp	x24, x9
	umaxv	b0, v0.16b
	fmov	w10, s0
	b.eq	.LBB0_49
	cbz	x11, .LBB0_47
.LBB0_44:
	and	x11, x8, #0x3
	dup	v0.4h, w10
	add	x12, x9, x11
	sub	x10, x12, x8
	sub	x10, x10, x27
	sub	x12, x10, x26
	add	x10, sp, #1, lsl #12
	add	x10, x10, #3248
	sub	x12, x12, x25
	add	x10, x10, x9
	sub	x9, x24, x11
.LBB0_45:
	ldr	s1, [x10], #4
	bic	v0.4h, #255, lsl #8
	adds	x12, x12, #4
	ushll	v1.8h, v1.8b, #0
	umax	v0.4h, v1.4h, v0.4h
	b.ne	.LBB0_45
	umaxv	h0, v0.4h
	fmov	w10, s0
	cbz	x11, .LBB0_49
.LBB0_47:
	add	x11, x25, x26
	add	x11, x11, x27
	add	x8, x11, x8
	add	x11, sp, #1, lsl #12
	add	x11, x11, #3248
	sub	x8, x8, x9
	add	x9, x11, x9
.LBB0_48:
	ldrb	w11, [x9], #1
	and	w10, w10, #0xff
	cmp	w11, w10
	csel	w10, w11, w10, hi
	subs	x8, x8, #1
	b.ne	.LBB0_48
.LBB0_49:
	and	w8, w10, #0xff
	cmp	w8, #4
	b.lo	.LBB0_57
	mov	x8, xzr
	mov	x23, xzr
.LBB0_51:
	add	x9, sp, #1, lsl #12
	add	x9, x9, #3248
	ldrb	w9, [x9, x23]
	cmp	w9, #4
	b.ne	.LBB0_54
	cbz	x8, .LBB0_150
	mov	x9, #-1
	add	x23, x23, #1
	add	x8, x9, x8
	cmp	x24, x23
	b.ne	.LBB0_51
	b	.LBB0_57
.LBB0_54:
	cmp	w9, #3
	b.hi	.LBB0_149
	lsr	x9, x8, #14
	cbnz	x9, .LBB0_151
	mov	w9, #1
	add	x23, x23, #1
	add	x8, x9, x8
	cmp	x24, x23
	b.ne	.LBB0_51
.LBB0_57:
	ldr	w8, [x21, #72]
	add	w9, w8, #1
	str	w9, [x21, #72]
	cbnz	w8, .LBB0_59
	mov	w8, #1
	str	w8, [x21, #80]
.LBB0_59:
	cbz	x24, .LBB0_125
	mov	w8, #32000
	mov	x23, xzr
	mov	x27, xzr
	add	x8, x21, x8
	mov	x22, xzr
	mov	x10, xzr
	str	x8, [sp, #96]
	mov	w8, #1
	mov	w26, #65535
	mov	w28, #65535
	mov	w25, #1
	str	x8, [sp, #112]
	b	.LBB0_63
.LBB0_61:
	cmp	x26, x27
	mov	w10, #65535
	sub	x27, x27, #1
	csel	x14, x10, x26, eq
	csel	x10, x10, x28, eq
	cmp	w15, #1
	cset	w15, eq
	csel	x26, x26, x14, eq
	csel	x28, x28, x10, eq
	cmp	x11, #0
	cset	w10, eq
	cmp	x11, #2
	cinc	w14, w22, eq
	cmp	x11, #1
	cset	w16, eq
	cmp	x11, #3
	sub	w10, w14, w10
	cinc	w9, w9, eq
	sub	w9, w9, w16
	orr	x22, x10, x9, lsl #32
	ldr	x9, [sp, #112]
	sub	x9, x9, x15
	str	x9, [sp, #112]
.LBB0_62:
	mov	w9, #12
	ldr	x10, [sp, #96]
	madd	x9, x23, x9, x10
	add	x10, x21, x13
	add	x23, x23, #1
	cmp	x23, x24
	str	w25, [x9]
	ldr	w10, [x10, #72]
	stp	w10, w12, [x9, #4]
	mov	x10, x8
	b.eq	.LBB0_127
.LBB0_63:
	add	x8, sp, #1, lsl #12
	lsr	x9, x22, #32
	add	x8, x8, #3248
	ldrb	w11, [x8, x23]
	add	x8, sp, #128
	cmp	w11, #4
	b.ne	.LBB0_70
	add	x8, x8, x27
	mov	w13, #100
	ldurb	w14, [x8, #-1]
	mov	w8, #25
	and	x11, x14, #0x3
	eor	x16, x11, #0x2
	madd	x8, x10, x8, x16
	add	x12, x21, x8, lsl #2
	ldr	w15, [x12, #40]
	sub	x8, x15, #1
	mul	x13, x8, x13
	ldr	w2, [x21, x13]
	cbz	w2, .LBB0_82
	add	x15, x14, #10
	mov	w17, #2
	mov	x18, x8
	mov	x1, x10
.LBB0_66:
	mov	w0, #25
	madd	x0, x2, x0, x14
	add	x0, x21, x0, lsl #2
	ldur	w0, [x0, #-44]
	cmp	w0, w27
	b.ne	.LBB0_98
	sub	x0, x2, #1
	mov	w2, #25
	mov	w3, #100
	madd	x2, x0, x2, x15
	cmp	x0, x1
	cinc	w17, w17, ne
	mul	x4, x0, x3
	ldr	w2, [x21, x2, lsl #2]
	sub	x3, x2, #1
	ldr	w2, [x21, x4]
	cmp	x3, x18
	mov	x18, x0
	mov	x1, x3
	cinc	w17, w17, ne
	cbnz	w2, .LBB0_66
	add	x15, x0, #1
	mov	w18, #100
	madd	x18, x3, x18, x21
	ldr	w0, [x18, #76]
	cmp	w0, w27
	b.ne	.LBB0_83
.LBB0_69:
	ldr	w18, [x18]
	cmp	x15, x18
	cset	w0, ne
	b	.LBB0_84
.LBB0_70:
	mov	w12, #25
	strb	w11, [x8, x27]
	add	x27, x27, #1
	mul	x14, x10, x12
	add	x12, x11, #10
	add	x13, x12, x14
	ldr	w13, [x21, x13, lsl #2]
	cbz	w13, .LBB0_92
	sub	x8, x13, #1
.LBB0_72:
	mov	w10, #100
	mul	x13, x8, x10
	add	x16, x21, x13
	ldr	w10, [x16, #72]
	add	w15, w10, #1
	str	w15, [x16, #72]
	cbnz	w10, .LBB0_74
	add	w10, w27, #1
	str	w10, [x16, #80]
.LBB0_74:
	and	x10, x11, #0x3
	mov	w15, #25
	add	x14, x14, x11
	eor	x10, x10, #0x2
	add	x14, x21, x14, lsl #2
	cmp	w11, #0
	madd	x10, x8, x15, x10
	add	x18, x8, #1
	ldr	w15, [x14, #84]
	add	w15, w15, #1
	str	w15, [x14, #84]
	add	x17, x21, x10, lsl #2
	cinc	x10, x22, eq
	cmp	w11, #2
	cset	w14, hi
	str	w15, [x17, #84]
	cset	w15, eq
	cmp	w11, #1
	ldr	w0, [x16, #72]
	cinc	x9, x9, eq
	cmp	x18, x25
	csinc	x25, x25, x8, ls
	cmp	w0, #1
	b.ne	.LBB0_76
	ldr	x16, [sp, #112]
	add	x16, x16, #1
	str	x16, [sp, #112]
	b	.LBB0_78
.LBB0_76:
	mov	w18, #65535
	cmp	x26, x18
	b.ne	.LBB0_78
	ldr	w16, [x16, #80]
	mov	x26, x27
	sub	x28, x16, #1
.LBB0_78:
	ldr	w18, [x17, #40]
	mov	w16, #100
	sub	x17, x18, #1
	mul	x16, x17, x16
	ldr	w1, [x21, x16]
	cbz	w1, .LBB0_96
	mov	w16, #2
	mov	x0, x8
.LBB0_80:
	mov	w18, #25
	madd	x18, x1, x18, x11
	add	x18, x21, x18, lsl #2
	ldur	w18, [x18, #-44]
	cmp	w18, w27
	b.ne	.LBB0_99
	sub	x18, x1, #1
	mov	w1, #25
	mov	w2, #100
	madd	x1, x18, x1, x12
	cmp	x18, x0
	cinc	w16, w16, ne
	mul	x3, x18, x2
	ldr	w1, [x21, x1, lsl #2]
	sub	x2, x1, #1
	ldr	w1, [x21, x3]
	cmp	x2, x17
	mov	x17, x18
	mov	x0, x2
	cinc	w16, w16, ne
	cbnz	w1, .LBB0_80
	b	.LBB0_100
.LBB0_82:
	mov	w17, #2
	mov	w18, #100
	madd	x18, x10, x18, x21
	ldr	w0, [x18, #76]
	cmp	w0, w27
	b.eq	.LBB0_69
.LBB0_83:
	mov	w0, wzr
.LBB0_84:
	mov	w15, #25
	mov	w18, #100
	madd	x15, x8, x15, x14
	madd	x18, x10, x18, x21
	add	x1, x21, x15, lsl #2
	ldr	w15, [x1, #84]
	sub	w2, w15, #1
	ldr	w15, [x18, #72]
	str	w2, [x1, #84]
	str	w2, [x12, #84]
	ldr	w12, [x18, #72]
	subs	w12, w12, #1
	str	w12, [x18, #72]
	b.ne	.LBB0_86
	str	wzr, [x18, #80]
.LBB0_86:
	add	w12, w0, w17
	sub	x16, x16, #25
	mov	x17, x8
.LBB0_87:
	mov	w0, #25
	madd	x0, x17, x0, x14
	add	x0, x21, x0, lsl #2
	ldr	w1, [x0, #56]
	cmp	w1, w27
	b.ne	.LBB0_89
	ldr	w1, [x0, #40]
	mov	w2, #25
	str	wzr, [x0, #40]
	str	wzr, [x0, #56]
	umaddl	x1, w1, w2, x16
	mov	w2, #100
	mul	x17, x17, x2
	add	x1, x21, x1, lsl #2
	str	wzr, [x1, #40]
	str	wzr, [x1, #56]
	ldr	w0, [x21, x17]
	sub	x17, x0, #1
	cbnz	w0, .LBB0_87
.LBB0_89:
	ldr	w14, [x18, #76]
	cmp	w14, w27
	b.ne	.LBB0_61
	mov	w14, w9
	mov	w16, w22
.LBB0_91:
	mov	w17, #100
	tst	w16, #0x1
	mov	w0, #4
	madd	x18, x10, x17, x21
	mov	w10, #7
	mov	w1, #1
	csel	x10, x0, x10, eq
	cmn	w16, #1
	movi	v0.2d, #0000000000000000
	csinc	x0, x10, xzr, ne
	tst	w14, #0x1
	add	w16, w16, w16, lsr #31
	cinc	x10, x1, ne
	cmn	w14, #1
	mov	w1, #25
	csel	x3, xzr, x10, eq
	add	w14, w14, w14, lsr #31
	asr	w16, w16, #1
	ldr	w2, [x18]
	add	x0, x0, x3
	sub	x25, x25, #1
	asr	w14, w14, #1
	sub	x10, x2, #1
	umaddl	x17, w2, w17, x21
	madd	x0, x10, x1, x0
	str	wzr, [x21, x0, lsl #2]
	str	wzr, [x18, #96]
	stp	q0, q0, [x18]
	stp	q0, q0, [x18, #32]
	stp	q0, q0, [x18, #64]
	ldur	w17, [x17, #-24]
	cmp	w17, w27
	b.eq	.LBB0_91
	b	.LBB0_61
.LBB0_92:
	cmp	w11, #0
	mov	x13, xzr
	mov	w18, w9
	cset	w8, eq
	cmp	w11, #2
	mov	w0, w22
	cset	w15, eq
	cset	w16, hi
	cmp	w11, #1
	sub	w15, w8, w15
	cset	w8, eq
	sub	w16, w8, w16
.LBB0_93:
	add	w8, w0, w15
	add	w17, w18, w18, lsr #31
	add	w1, w18, w16
	add	w2, w0, w0, lsr #31
	add	w8, w8, w8, lsr #31
	add	w3, w1, w1, lsr #31
	asr	w17, w17, #1
	asr	w1, w2, #1
	asr	w8, w8, #1
	cmp	w17, w3, asr #1
	ccmp	w1, w8, #0, eq
	b.eq	.LBB0_103
	mov	w8, #100
	add	x13, x13, #1
	mov	w0, w1
	mul	x8, x10, x8
	ldr	w8, [x21, x8]
	sub	x10, x8, #1
	mov	w8, #25
	mul	x8, x10, x8
	add	x18, x8, x12
	ldr	w2, [x21, x18, lsl #2]
	mov	w18, w17
	cbz	w2, .LBB0_93
	mov	w0, w1
	mov	w18, w17
	b	.LBB0_104
.LBB0_96:
	mov	w16, #2
	add	x11, x21, x13
	ldr	w12, [x11, #76]
	cmp	w12, w27
	b.eq	.LBB0_101
.LBB0_97:
	mov	w11, wzr
	b	.LBB0_102
.LBB0_98:
	add	x15, x18, #1
	mov	w18, #100
	madd	x18, x1, x18, x21
	ldr	w0, [x18, #76]
	cmp	w0, w27
	b.ne	.LBB0_83
	b	.LBB0_69
.LBB0_99:
	mov	x2, x0
	mov	x18, x17
.LBB0_100:
	mov	w11, #100
	add	x18, x18, #1
	mul	x11, x2, x11
	add	x11, x21, x11
	ldr	w12, [x11, #76]
	cmp	w12, w27
	b.ne	.LBB0_97
.LBB0_101:
	ldr	w11, [x11]
	cmp	x18, x11
	cset	w11, ne
.LBB0_102:
	sub	x22, x10, x15
	sub	x9, x9, x14
	add	w12, w11, w16
	bfi	x22, x9, #32, #32
	b	.LBB0_62
.LBB0_103:
	mov	w8, #25
	mul	x8, x10, x8
.LBB0_104:
	add	x17, x8, x11
	add	x17, x21, x17, lsl #2
	ldr	w1, [x17, #40]
	cbz	w1, .LBB0_106
	sub	x8, x1, #1
	b	.LBB0_115
.LBB0_106:
	add	w2, w0, w15
	add	w1, w18, w16
	orr	w3, w1, w2
	cbz	w3, .LBB0_111
	orr	w0, w18, w0
	mov	x18, x10
	cbz	w0, .LBB0_109
	mov	w8, #100
	mul	x8, x10, x8
	ldr	w8, [x21, x8]
	sub	x18, x8, #1
	mov	w8, #25
	mul	x8, x18, x8
.LBB0_109:
	tst	w2, #0x1
	mov	w0, #7
	mov	w3, #4
	csel	x0, x3, x0, eq
	cmn	w2, #1
	mov	w2, #1
	csinc	x0, x0, xzr, ne
	tst	w1, #0x1
	cinc	x2, x2, ne
	cmn	w1, #1
	csel	x1, xzr, x2, eq
	add	x0, x1, x0
	add	x8, x0, x8
	ldr	w0, [x21, x8, lsl #2]
	cbz	w0, .LBB0_112
	sub	x8, x0, #1
	b	.LBB0_114
.LBB0_111:
	ubfiz	x18, x11, #2, #2
	mov	w0, #1
	str	w27, [x17, #56]
	add	w1, w10, #1
	str	w0, [x17, #40]
	mov	x8, xzr
	eor	x18, x18, #0x8
	add	x17, x21, x18
	str	w1, [x17, #40]
	str	w27, [x17, #56]
	b	.LBB0_115
.LBB0_112:
	add	x0, x25, #1
	mov	w1, #25
	mov	w2, #8000
	mul	x1, x0, x1
	cmp	x1, x2
	b.hi	.LBB0_126
	mov	w1, #100
	str	w0, [x21, x8, lsl #2]
	add	w8, w18, #1
	madd	x1, x25, x1, x21
	str	w8, [x1]
	mov	x8, x25
	str	w27, [x1, #76]
.LBB0_114:
	and	x18, x11, #0x3
	mov	w0, #25
	add	w1, w10, #1
	eor	x18, x18, #0x2
	str	w27, [x17, #56]
	madd	x18, x8, x0, x18
	add	w0, w8, #1
	str	w0, [x17, #40]
	add	x18, x21, x18, lsl #2
	str	w1, [x18, #40]
	str	w27, [x18, #56]
.LBB0_115:
	cbz	x13, .LBB0_72
	and	x17, x11, #0x3
	sub	x18, x13, #1
	eor	x17, x17, #0x2
	b	.LBB0_119
.LBB0_117:
	sub	x8, x2, #1
.LBB0_118:
	sub	x10, x10, #1
	mov	w0, #25
	add	w2, w8, #1
	madd	x1, x10, x0, x11
	sub	x18, x18, #1
	madd	x0, x8, x0, x17
	add	x1, x21, x1, lsl #2
	add	x0, x21, x0, lsl #2
	str	w2, [x1, #40]
	add	w2, w10, #1
	str	w27, [x1, #56]
	str	w2, [x0, #40]
	str	w27, [x0, #56]
	cbz	x13, .LBB0_72
.LBB0_119:
	subs	x13, x13, #1
	mov	w1, w22
	mov	w0, w9
	b.eq	.LBB0_122
	mov	x2, x18
	mov	w0, w9
	mov	w1, w22
.LBB0_121:
	add	w1, w1, w1, lsr #31
	add	w0, w0, w0, lsr #31
	subs	x2, x2, #1
	asr	w1, w1, #1
	asr	w0, w0, #1
	b.ne	.LBB0_121
.LBB0_122:
	tst	w1, #0x1
	mov	w2, #7
	mov	w3, #4
	csel	x4, x3, x2, eq
	cmn	w1, #1
	mov	w5, #1
	csinc	x4, x4, xzr, ne
	tst	w0, #0x1
	add	x6, x8, #1
	cinc	x7, x5, ne
	cmn	w0, #1
	add	w30, w1, w15
	csel	x7, xzr, x7, eq
	cmp	x6, x25
	add	w0, w0, w16
	csinc	x1, x25, x8, ls
	tst	w30, #0x1
	csel	x2, x3, x2, eq
	cmn	w30, #1
	mov	w3, #25
	csinc	x2, x2, xzr, ne
	madd	x10, x10, x3, x4
	tst	w0, #0x1
	madd	x2, x8, x3, x2
	cinc	x3, x5, ne
	cmn	w0, #1
	csel	x0, xzr, x3, eq
	add	x10, x10, x7
	ldr	w10, [x21, x10, lsl #2]
	add	x0, x2, x0
	ldr	w2, [x21, x0, lsl #2]
	cbnz	w2, .LBB0_117
	add	x2, x1, #1
	mov	w3, #25
	mov	w4, #8000
	mul	x3, x2, x3
	cmp	x3, x4
	b.hi	.LBB0_126
	mov	w3, #100
	add	w8, w8, #1
	str	w2, [x21, x0, lsl #2]
	madd	x3, x1, x3, x21
	str	w8, [x3]
	mov	x8, x1
	str	w27, [x3, #76]
	b	.LBB0_118
.LBB0_125:
	movi	v0.2d, #0x0000000000ffff
	adrp	x8, .LCPI0_0
	mov	w23, wzr
	mov	w25, wzr
	mov	w28, #1
	mov	w22, #24
	str	q0, [sp, #96]
	ldr	q0, [x8, :lo12:.LCPI0_0]
	mov	w8, #25
	str	q0, [sp, #80]
	b	.LBB0_140
.LBB0_126:
	mov	x0, x21
	mov	w1, wzr
	mov	w2, #32000
	bl	memset
	add	x8, x24, x24, lsl #1
	ldr	x22, [sp, #96]
	mov	w1, wzr
	lsl	x21, x8, #2
	mov	x0, x22
	sub	x2, x21, #4
	bl	memset
	add	x8, x22, x21
	stur	wzr, [x8, #-4]
	mov	w8, #7
	b	.LBB0_20
.LBB0_127:
	cmp	x24, x27
	b.eq	.LBB0_131
	mvn	x8, x27
	add	x9, sp, #128
	adds	x24, x24, x8
	add	x23, x9, x27
	b.eq	.LBB0_130
	mov	x0, x23
	mov	w1, wzr
	mov	x2, x24
	bl	memset
.LBB0_130:
	strb	wzr, [x23, x24]
	mov	x24, x27
.LBB0_131:
	cbz	w22, .LBB0_133
	cbnz	x24, .LBB0_135
	b	.LBB0_136
.LBB0_133:
	cbz	x24, .LBB0_136
	cbz	x22, .LBB0_156
.LBB0_135:
	mov	w8, #65535
	mov	w23, wzr
	cmp	x26, x8
	mov	w8, #3
	csinc	w9, w8, wzr, ne
	b	.LBB0_137
.LBB0_136:
	mov	w23, wzr
	mov	w9, wzr
.LBB0_137:
	movi	v0.2d, #0000000000000000
	fmov	d19, x28
	mov	v19.d[1], x26
	mov	v0.d[0], x24
	cbz	x25, .LBB0_148
	mov	w8, #25
	mov	v0.d[1], x25
	ldr	x28, [sp, #112]
	mul	x8, x25, x8
	subs	x22, x8, #1
	b.eq	.LBB0_152
	mov	w25, w9
	stp	q0, q19, [sp, #80]
.LBB0_140:
	lsl	x8, x8, #2
	mov	x0, x21
	mov	w1, wzr
	sub	x2, x8, #4
	bl	memset
	ldp	q0, q19, [sp, #80]
	lsl	x8, x22, #2
.LBB0_141:
	str	wzr, [x21, x8]
.LBB0_142:
	fmov	x22, d0
	dup	v4.2d, v19.d[0]
	mov	w8, #44288
	dup	v20.2d, v0.d[1]
	dup	v7.2d, v0.d[0]
	add	x27, x21, x8
	fmov	x26, d19
	cmp	x22, #8, lsl #12
	b.ls	.LBB0_144
	mov	x8, xzr
	b	.LBB0_181
.LBB0_144:
	cmp	x22, #4, lsl #12
	b.hi	.LBB0_171
	cbz	x22, .LBB0_153
	cmp	x22, #4
	b.hs	.LBB0_154
	mov	w9, wzr
	mov	x8, xzr
	b	.LBB0_168
.LBB0_148:
	ldr	x28, [sp, #112]
	mov	w25, w9
	b	.LBB0_142
.LBB0_149:
	mov	w8, #4
	b	.LBB0_20
.LBB0_150:
	mov	w8, #5
	b	.LBB0_20
.LBB0_151:
	mov	w8, #6
	b	.LBB0_20
.LBB0_152:
	mov	x8, xzr
	mov	w25, w9
	b	.LBB0_141
.LBB0_153:
	str	w23, [sp, #60]
	mov	w24, #16384
	mov	w23, #16384
	b	.LBB0_177
.LBB0_154:
	cmp	x22, #32
	b.hs	.LBB0_161
	mov	x8, xzr
	mov	w9, wzr
	b	.LBB0_165
.LBB0_156:
	mov	w23, wzr
	mov	w9, #4
	cbnz	x28, .LBB0_137
	cmp	x26, x24
	b.ne	.LBB0_137
	cmp	x26, #2
	b.hi	.LBB0_196
	cmp	x24, #1
	b.eq	.LBB0_196
	mov	w23, wzr
	mov	x28, xzr
	mov	w9, #5
	b	.LBB0_199
.LBB0_161:
	movi	v0.2d, #0000000000000000
	movi	v1.2d, #0000000000000000
	add	x9, sp, #128
	and	x10, x22, #0x1c
	and	x8, x22, #0x7fe0
	add	x9, x9, #16
	and	x11, x22, #0x7fe0
.LBB0_162:
	ldp	q2, q3, [x9, #-16]
	subs	x11, x11, #32
	add	x9, x9, #32
	umax	v0.16b, v2.16b, v0.16b
	umax	v1.16b, v3.16b, v1.16b
	b.ne	.LBB0_162
	umax	v0.16b, v0.16b, v1.16b
	cmp	x22, x8
	umaxv	b0, v0.16b
	fmov	w9, s0
	b.eq	.LBB0_170
	cbz	x10, .LBB0_168
.LBB0_165:
	dup	v0.4h, w9
	mov	x10, x8
	and	x8, x22, #0x7ffc
	add	x11, sp, #128
	sub	x9, x10, x8
	add	x10, x11, x10
.LBB0_166:
	ldr	s1, [x10], #4
	bic	v0.4h, #255, lsl #8
	adds	x9, x9, #4
	ushll	v1.8h, v1.8b, #0
	umax	v0.4h, v1.4h, v0.4h
	b.ne	.LBB0_166
	umaxv	h0, v0.4h
	cmp	x22, x8
	fmov	w9, s0
	b.eq	.LBB0_170
.LBB0_168:
	add	x11, sp, #128
	sub	x10, x22, x8
	add	x8, x11, x8
.LBB0_169:
	ldrb	w11, [x8], #1
	and	w9, w9, #0xff
	cmp	w11, w9
	csel	w9, w11, w9, hi
	subs	x10, x10, #1
	b.ne	.LBB0_169
.LBB0_170:
	and	w8, w9, #0xff
	cmp	w8, #4
	b.lo	.LBB0_175
.LBB0_171:
	mov	x9, xzr
.LBB0_172:
	cmp	x9, #4, lsl #12
	mov	x8, xzr
	b.eq	.LBB0_181
	add	x10, sp, #128
	ldrb	w10, [x10, x9]
	cmp	w10, #3
	b.hi	.LBB0_181
	add	x9, x9, #1
	cmp	x22, x9
	b.ne	.LBB0_172
.LBB0_175:
	adrp	x8, .LCPI0_1
	str	w23, [sp, #60]
	mov	w23, #16384
	ldr	q0, [x8, :lo12:.LCPI0_1]
	add	x8, sp, #128
	mov	x9, x22
	mov	w10, w23
	mov	w24, #16384
	str	q0, [sp, #7344]
.LBB0_176:
	ldrb	w11, [x8], #1
	add	x12, sp, #1, lsl #12
	add	x12, x12, #3248
	ldr	w11, [x12, x11, lsl #2]
	add	w10, w11, w10
	cmp	x10, x23
	csel	x23, x10, x23, lo
	cmp	x10, x24
	csel	x24, x10, x24, hi
	subs	x9, x9, #1
	b.ne	.LBB0_176
.LBB0_177:
	sub	x8, x24, x23
	stp	q4, q7, [sp, #64]
	cmp	x8, #256
	add	x6, x8, #1
	stp	q19, q20, [sp, #96]
	b.lo	.LBB0_179
	add	x0, sp, #1, lsl #12
	mov	w1, #255
	mov	w2, #2050
	add	x0, x0, #3248
	stp	xzr, xzr, [x29, #-32]
	stur	xzr, [x29, #-40]
	str	x26, [sp, #48]
	mov	x26, x6
	bl	memset
	add	x0, sp, #1, lsl #12
	mov	w1, #255
	mov	w2, #2050
	add	x0, x0, #1184
	bl	memset
	add	x0, sp, #3216
	mov	w1, wzr
	mov	w2, #2050
	bl	memset
	add	x0, sp, #1152
	mov	w1, wzr
	mov	w2, #2050
	bl	memset
	mov	w8, #1025
	add	x9, sp, #1152
	add	x5, sp, #1, lsl #12
	stp	x8, x27, [sp, #32]
	add	x7, sp, #1, lsl #12
	mov	x6, x26
	stp	x8, x9, [sp, #16]
	add	x8, sp, #3216
	sub	x0, x29, #40
	stp	x26, x8, [sp]
	ldr	x26, [sp, #48]
	add	x1, sp, #128
	add	x5, x5, #3248
	add	x7, x7, #1184
	mov	x2, x22
	mov	x3, x23
	mov	x4, x24
	b	.LBB0_180
.LBB0_179:
	movi	v0.2d, #0xffffffffffffffff
	add	x5, sp, #1, lsl #12
	add	x7, sp, #1, lsl #12
	mov	w8, #256
	add	x9, sp, #1152
	add	x10, sp, #3216
	sub	x0, x29, #40
	add	x1, sp, #128
	add	x5, x5, #3248
	add	x7, x7, #1184
	mov	x2, x22
	mov	x3, x23
	str	q0, [sp, #7344]
	mov	x4, x24
	str	q0, [sp, #7360]
	str	q0, [sp, #7376]
	str	q0, [sp, #7392]
	str	q0, [sp, #7408]
	str	q0, [sp, #7424]
	str	q0, [sp, #7440]
	str	q0, [sp, #7456]
	str	q0, [sp, #7472]
	str	q0, [sp, #7488]
	str	q0, [sp, #7504]
	str	q0, [sp, #7520]
	str	q0, [sp, #7536]
	str	q0, [sp, #7552]
	str	q0, [sp, #7568]
	str	q0, [sp, #7584]
	str	q0, [sp, #7600]
	str	q0, [sp, #7616]
	str	q0, [sp, #7632]
	str	q0, [sp, #7648]
	str	q0, [sp, #7664]
	str	q0, [sp, #7680]
	str	q0, [sp, #7696]
	str	q0, [sp, #7712]
	str	q0, [sp, #7728]
	str	q0, [sp, #7744]
	str	q0, [sp, #7760]
	str	q0, [sp, #7776]
	str	q0, [sp, #7792]
	str	q0, [sp, #7808]
	str	q0, [sp, #7824]
	str	q0, [sp, #7840]
	str	q0, [sp, #5776]
	str	q0, [sp, #5760]
	str	q0, [sp, #5744]
	str	q0, [sp, #5728]
	str	q0, [sp, #5712]
	str	q0, [sp, #5696]
	str	q0, [sp, #5680]
	str	q0, [sp, #5664]
	str	q0, [sp, #5648]
	str	q0, [sp, #5632]
	str	q0, [sp, #5616]
	str	q0, [sp, #5600]
	str	q0, [sp, #5584]
	str	q0, [sp, #5568]
	str	q0, [sp, #5552]
	str	q0, [sp, #5536]
	str	q0, [sp, #5520]
	str	q0, [sp, #5504]
	str	q0, [sp, #5488]
	str	q0, [sp, #5472]
	str	q0, [sp, #5456]
	str	q0, [sp, #5440]
	str	q0, [sp, #5424]
	str	q0, [sp, #5408]
	str	q0, [sp, #5392]
	str	q0, [sp, #5376]
	str	q0, [sp, #5360]
	str	q0, [sp, #5344]
	str	q0, [sp, #5328]
	str	q0, [sp, #5312]
	str	q0, [sp, #5296]
	str	q0, [sp, #5280]
	movi	v0.2d, #0000000000000000
	stp	xzr, xzr, [x29, #-32]
	stur	xzr, [x29, #-40]
	stp	x8, x27, [sp, #32]
	str	q0, [sp, #3712]
	str	q0, [sp, #3696]
	str	q0, [sp, #3680]
	str	q0, [sp, #3664]
	str	q0, [sp, #3648]
	str	q0, [sp, #3632]
	str	q0, [sp, #3616]
	str	q0, [sp, #3600]
	str	q0, [sp, #3584]
	str	q0, [sp, #3568]
	str	q0, [sp, #3552]
	str	q0, [sp, #3536]
	str	q0, [sp, #3520]
	str	q0, [sp, #3504]
	str	q0, [sp, #3488]
	str	q0, [sp, #3472]
	str	q0, [sp, #3456]
	str	q0, [sp, #3440]
	str	q0, [sp, #3424]
	str	q0, [sp, #3408]
	str	q0, [sp, #3392]
	str	q0, [sp, #3376]
	str	q0, [sp, #3360]
	str	q0, [sp, #3344]
	str	q0, [sp, #3328]
	str	q0, [sp, #3312]
	str	q0, [sp, #3296]
	str	q0, [sp, #3280]
	str	q0, [sp, #3264]
	str	q0, [sp, #3248]
	str	q0, [sp, #3232]
	str	q0, [sp, #3216]
	str	q0, [sp, #1648]
	str	q0, [sp, #1632]
	str	q0, [sp, #1616]
	str	q0, [sp, #1600]
	str	q0, [sp, #1584]
	str	q0, [sp, #1568]
	str	q0, [sp, #1552]
	str	q0, [sp, #1536]
	str	q0, [sp, #1520]
	str	q0, [sp, #1504]
	str	q0, [sp, #1488]
	str	q0, [sp, #1472]
	str	q0, [sp, #1456]
	str	q0, [sp, #1440]
	str	q0, [sp, #1424]
	str	q0, [sp, #1408]
	str	q0, [sp, #1392]
	str	q0, [sp, #1376]
	str	q0, [sp, #1360]
	str	q0, [sp, #1344]
	str	q0, [sp, #1328]
	str	q0, [sp, #1312]
	str	q0, [sp, #1296]
	str	q0, [sp, #1280]
	str	q0, [sp, #1264]
	str	q0, [sp, #1248]
	str	q0, [sp, #1232]
	str	q0, [sp, #1216]
	str	q0, [sp, #1200]
	str	q0, [sp, #1184]
	str	q0, [sp, #1168]
	str	q0, [sp, #1152]
	stp	x8, x9, [sp, #16]
	stp	x6, x10, [sp]
.LBB0_180:
	bl	"hull_call::list_in"
	sub	x8, x29, #40
	ldur	x9, [x29, #-32]
	ldr	w23, [sp, #60]
	ldrb	w8, [x8]
	ldp	q19, q20, [sp, #96]
	ldp	q4, q7, [sp, #64]
	tst	w8, #0xff
	csel	x8, x9, xzr, eq
.LBB0_181:
	adrp	x9, .LCPI0_9
	lsr	w13, w23, #8
	dup	v5.2d, x28
	ldr	q0, [x9, :lo12:.LCPI0_9]
	adrp	x9, .LCPI0_8
	xtn	v16.2s, v7.2d
	ubfx	w16, w23, #4, #4
	mov	w1, #48
	ushl	v1.2d, v4.2d, v0.2d
	ldr	q0, [x9, :lo12:.LCPI0_8]
	ubfx	w9, w26, #4, #4
	bfxil	w1, w8, #4, #4
	ushl	v2.2d, v19.2d, v0.2d
	xtn	v4.2s, v1.2d
	xtn	v0.2s, v2.2d
	uzp1	v1.4s, v1.4s, v2.4s
	mov	w10, v4.s[1]
	mov	v4.b[1], w9
	mov	w9, v0.s[1]
	dup	v0.4s, w23
	xtn	v1.4h, v1.4s
	mov	v4.b[2], w10
	adrp	x10, .LCPI0_7
	ldr	q3, [x10, :lo12:.LCPI0_7]
	lsr	w10, w23, #28
	ushl	v0.4s, v0.4s, v3.4s
	mov	v4.b[3], w9
	umov	w9, v19.b[8]
	xtn	v0.4h, v0.4s
	mov	v4.b[4], v19.b[9]
	ubfx	w11, w9, #4, #4
	and	w9, w9, #0xf
	umov	w15, v0.h[0]
	umov	w14, v0.h[1]
	umov	w12, v0.h[3]
	mov	v4.b[5], w11
	umov	w11, v0.h[2]
	mov	v4.b[6], v19.b[8]
	mov	v4.b[7], w10
	adrp	x10, .LCPI0_2
	ldr	q3, [x10, :lo12:.LCPI0_2]
	adrp	x10, .LCPI0_3
	ldr	q6, [x10, :lo12:.LCPI0_3]
	adrp	x10, .LCPI0_4
	ushl	v0.2d, v7.2d, v3.2d
	fmov	s7, w25
	ldr	q17, [x10, :lo12:.LCPI0_4]
	mov	v4.b[8], w15
	ushl	v6.2d, v20.2d, v6.2d
	ushl	v5.2d, v5.2d, v3.2d
	ushl	v18.2d, v20.2d, v3.2d
	ushl	v17.2d, v20.2d, v17.2d
	mov	w10, v16.s[1]
	xtn	v0.2s, v0.2d
	mov	v7.b[1], w25
	xtn	v3.2s, v6.2d
	uzp1	v5.4s, v20.4s, v5.4s
	mov	v4.b[9], w14
	uzp1	v6.4s, v17.4s, v18.4s
	movi	d18, #0x0000ff000000ff
	mov	v16.b[1], w10
	lsr	w10, w8, #12
	mov	v7.b[2], v0.b[0]
	mov	w17, v3.s[1]
	mov	v4.b[10], w11
	uzp1	v5.8h, v6.8h, v5.8h
	fmov	s6, w15
	mov	v16.b[2], v3.b[0]
	mov	w15, #48
	bfxil	w15, w8, #8, #4
	mov	v6.b[1], w14
	and	w14, w28, #0xf
	mov	v4.b[11], w12
	add	w18, w14, #87
	cmp	w14, #10
	mov	v16.b[3], w17
	and	w17, w28, #0xff
	ubfx	w14, w28, #4, #4
	mov	v6.b[2], w11
	add	w14, w14, #87
	mov	v4.b[12], w13
	mov	v6.b[3], w12
	mov	v4.b[13], w16
	mov	w16, v0.s[1]
	mov	v6.b[4], w13
	mov	v4.b[14], w23
	mov	v7.b[3], w16
	adrp	x16, .LCPI0_10
	ldr	q17, [x16, :lo12:.LCPI0_10]
	mov	w16, #48
	bfxil	w16, w28, #0, #4
	mov	v6.b[5], w23
	mov	v4.b[15], w10
	xtn2	v7.16b, v5.8h
	csel	w11, w16, w18, lo
	mov	w16, #48
	adrp	x18, .LCPI0_5
	cmp	w17, #160
	bfxil	w16, w28, #4, #4
	ubfx	w17, w26, #12, #4
	xtn	v5.8b, v5.8h
	mov	v6.b[6], w23
	and	v4.16b, v4.16b, v17.16b
	mov	v7.s[1], v16.s[0]
	ldr	q16, [x18, :lo12:.LCPI0_5]
	csel	w12, w16, w14, lo
	add	w14, w17, #87
	cmp	w17, #10
	adrp	x17, .LCPI0_11
	mov	w18, #48
	lsr	w16, w23, #29
	mov	b17, v4.b[4]
	bfxil	w18, w26, #12, #4
	mov	v6.b[7], w10
	and	v16.16b, v7.16b, v16.16b
	csel	w13, w18, w14, lo
	mov	w14, #48
	cmp	w16, #5
	and	w18, w8, #0xf
	bfxil	w14, w8, #0, #4
	cset	w16, lo
	mov	v17.b[4], v19.b[8]
	add	w0, w18, #87
	cmp	w18, #10
	and	w18, w8, #0xff
	csel	w14, w14, w0, lo
	ubfx	w0, w8, #4, #4
	cmp	w18, #160
	ubfx	w18, w8, #8, #4
	add	w0, w0, #87
	and	v7.8b, v17.8b, v18.8b
	ldr	d17, [x17, :lo12:.LCPI0_11]
	adrp	x17, .LCPI0_6
	ldr	q2, [x17, :lo12:.LCPI0_6]
	csel	w17, w1, w0, lo
	add	w0, w18, #87
	cmp	w18, #10
	cmhi	v7.2s, v17.2s, v7.2s
	csel	w15, w15, w0, lo
	cmp	w9, #10
	adrp	x9, .LCPI0_12
	cset	w10, lo
	cmhi	v2.16b, v2.16b, v16.16b
	ldr	d18, [x9, :lo12:.LCPI0_12]
	adrp	x9, .LCPI0_14
	mov	v16.b[0], wzr
	mov	w2, v7.s[1]
	mov	v17.b[4], v7.b[0]
	ldr	d19, [x9, :lo12:.LCPI0_14]
	and	v1.8b, v1.8b, v18.8b
	adrp	x9, .LCPI0_13
	and	v6.8b, v6.8b, v19.8b
	ldr	d18, [x9, :lo12:.LCPI0_13]
	umov	w9, v5.b[4]
	mov	v17.b[5], w2
	cmhi	v1.4h, v18.4h, v1.4h
	ubfx	w9, w9, #4, #4
	uzp1	v1.8b, v1.8b, v0.8b
	mov	v17.b[6], w10
	adrp	x10, .LCPI0_15
	ldr	d19, [x10, :lo12:.LCPI0_15]
	ubfx	w10, w22, #4, #4
	cmhi	v5.8b, v19.8b, v6.8b
	mov	v16.b[4], w10
	movi	v6.16b, #87
	mov	v17.b[7], w16
	lsl	x10, x8, #1
	mov	v16.b[12], w9
	add	x9, x19, x20
	mov	v17.d[1], v5.d[0]
	movi	v5.16b, #48
	strb	w11, [x9, #17]
	strb	w12, [x9, #16]
	strb	w13, [x9, #18]
	strb	w14, [x9, #37]
	mov	v17.s[0], v1.s[0]
	orr	v1.16b, v16.16b, v5.16b
	add	v16.16b, v16.16b, v6.16b
	strb	w17, [x9, #36]
	strb	w15, [x9, #35]
	bif	v1.16b, v16.16b, v2.16b
	orr	v2.16b, v4.16b, v5.16b
	add	v4.16b, v4.16b, v6.16b
	shl	v17.16b, v17.16b, #7
	cmlt	v5.16b, v17.16b, #0
	str	q1, [x9]
	mov	v1.16b, v5.16b
	bsl	v1.16b, v2.16b, v4.16b
	stur	q1, [x9, #19]
	add	x9, x20, #38
	cbz	x10, .LBB0_21
	cmp	x10, #16
	b.lo	.LBB0_190
	sub	x13, x10, #1
	add	x12, x19, x9
	lsl	x14, x13, #2
	add	x11, x12, x14
	cmp	x11, x12
	mov	x11, xzr
	b.lo	.LBB0_191
	add	x15, x19, x20
	add	x16, x15, #39
	add	x17, x16, x14
	cmp	x17, x16
	b.lo	.LBB0_191
	add	x16, x15, #41
	add	x17, x16, x14
	cmp	x17, x16
	b.lo	.LBB0_191
	add	x15, x15, #40
	add	x14, x15, x14
	cmp	x14, x15
	b.lo	.LBB0_191
	lsr	x13, x13, #62
	cbnz	x13, .LBB0_191
	lsl	x8, x8, #3
	add	x11, x19, x20
	add	x11, x11, x8
	add	x11, x11, #38
	cmp	x27, x11
	b.hs	.LBB0_193
	mov	w11, #44288
	add	x11, x21, x11
	add	x8, x11, x8
	add	x11, x19, x9
	cmp	x11, x8
	b.hs	.LBB0_193
.LBB0_190:
	mov	x11, xzr
.LBB0_191:
	add	x12, x21, x11, lsl #2
	mov	w13, #44288
	sub	x8, x11, x10
	add	x10, x12, x13
.LBB0_192:
	ldr	w11, [x10], #4
	adrp	x12, .LCPI0_17
	ldr	q1, [x12, :lo12:.LCPI0_17]
	adrp	x12, .LCPI0_18
	movi	v2.4h, #87
	dup	v0.4s, w11
	ubfx	w11, w11, #4, #4
	adds	x8, x8, #1
	ushl	v0.4s, v0.4s, v1.4s
	ldr	d1, [x12, :lo12:.LCPI0_18]
	adrp	x12, .LCPI0_19
	xtn	v0.4h, v0.4s
	and	v0.8b, v0.8b, v1.8b
	ldr	d1, [x12, :lo12:.LCPI0_19]
	cmhi	v1.4h, v1.4h, v0.4h
	mov	v0.h[2], w11
	add	v2.4h, v0.4h, v2.4h
	orr	v0.4h, #48
	bif	v0.8b, v2.8b, v1.8b
	uzp1	v0.8b, v0.8b, v0.8b
	str	s0, [x19, x9]
	add	x9, x9, #4
	b.lo	.LBB0_192
	b	.LBB0_21
.LBB0_193:
	and	x11, x10, #0x7ffffffffffffff0
	and	x8, x10, #0x7ffffffffffffff0
	add	x9, x9, x11, lsl #2
.LBB0_194:
	ldp	q2, q3, [x27, #32]
	adrp	x13, .LCPI0_16
	ldp	q0, q1, [x27], #64
	ldr	q20, [x13, :lo12:.LCPI0_16]
	movi	v21.16b, #15
	subs	x8, x8, #16
	ushr	v7.4s, v3.4s, #8
	ushr	v19.4s, v3.4s, #12
	ushr	v6.4s, v2.4s, #8
	ushr	v18.4s, v2.4s, #12
	ushr	v5.4s, v1.4s, #8
	ushr	v17.4s, v1.4s, #12
	ushr	v4.4s, v0.4s, #8
	ushr	v16.4s, v0.4s, #12
	tbl	v0.16b, { v0.16b, v1.16b, v2.16b, v3.16b }, v20.16b
	movi	v1.16b, #10
	movi	v2.16b, #48
	movi	v3.16b, #87
	tbl	v4.16b, { v4.16b, v5.16b, v6.16b, v7.16b }, v20.16b
	tbl	v5.16b, { v16.16b, v17.16b, v18.16b, v19.16b }, v20.16b
	movi	v6.16b, #160
	and	v7.16b, v0.16b, v21.16b
	and	v4.16b, v4.16b, v21.16b
	and	v5.16b, v5.16b, v21.16b
	cmhi	v6.16b, v6.16b, v0.16b
	orr	v20.16b, v7.16b, v2.16b
	add	v21.16b, v7.16b, v3.16b
	cmhi	v17.16b, v1.16b, v4.16b
	orr	v19.16b, v4.16b, v2.16b
	add	v4.16b, v4.16b, v3.16b
	cmhi	v16.16b, v1.16b, v5.16b
	orr	v18.16b, v5.16b, v2.16b
	add	v5.16b, v5.16b, v3.16b
	usra	v2.16b, v0.16b, #4
	usra	v3.16b, v0.16b, #4
	cmhi	v0.16b, v1.16b, v7.16b
	mov	v23.16b, v17.16b
	bsl	v23.16b, v19.16b, v4.16b
	mov	v22.16b, v16.16b
	bsl	v22.16b, v18.16b, v5.16b
	mov	v24.16b, v6.16b
	bsl	v24.16b, v2.16b, v3.16b
	mov	v25.16b, v0.16b
	bsl	v25.16b, v20.16b, v21.16b
	st4	{ v22.16b, v23.16b, v24.16b, v25.16b }, [x12], #64
	b.ne	.LBB0_194
	cmp	x10, x11
	b.eq	.LBB0_21
	b	.LBB0_191
.LBB0_196:
	mov	w9, wzr
	mov	x8, xzr
	mov	w23, wzr
.LBB0_197:
	add	x10, sp, #128
	ldrb	w10, [x10, x8]
	add	x8, x8, #1
	cmp	w10, #1
	cset	w11, eq
	cmp	w10, #2
	cset	w12, hi
	sub	w11, w11, w12
	cset	w12, eq
	cmp	w10, #0
	madd	w23, w11, w9, w23
	cinc	w9, w9, eq
	cmp	x26, x8
	sub	w9, w9, w12
	b.ne	.LBB0_197
	mov	w9, #2
	mov	x28, xzr
.LBB0_199:
	mov	x24, x26
	b	.LBB0_137
.Lfunc_end0:
	.size	"lines::tell", .Lfunc_end0-"lines::tell"

	.section	.rodata.cst16,"aM",@progbits,16
	.p2align	4, 0x0
.LCPI1_0:
	.word	1
	.word	0
	.word	4294967295
	.word	0
	.section	".text.hull_call::list_in","ax",@progbits
	.p2align	2
	.type	"hull_call::list_in",@function
"hull_call::list_in":
	sub	sp, sp, #112
	adrp	x8, .LCPI1_0
	mov	x9, #65536
	stp	x29, x30, [sp, #16]
	ldr	q0, [x8, :lo12:.LCPI1_0]
	stp	x24, x23, [sp, #64]
	add	x29, sp, #16
	stp	x22, x21, [sp, #80]
	mov	x24, x6
	mov	x22, x5
	stp	x20, x19, [sp, #96]
	mov	x20, x7
	mov	x21, x4
	mov	x23, x3
	mov	x19, x0
	movk	x9, #65535, lsl #48
	str	x27, [sp, #32]
	stp	x26, x25, [sp, #48]
	str	x9, [x29, #24]
	str	q0, [sp]
	cbz	x2, .LBB1_3
	mov	w9, #16384
	mov	w8, w9
.LBB1_2:
	mov	w10, w9
	and	w12, w8, #0xffff
	mov	x14, sp
	sub	x10, x10, x23
	ldrb	w13, [x1], #1
	ldrh	w11, [x22, x10, lsl #1]
	add	x15, x29, #24
	ldr	w14, [x14, x13, lsl #2]
	ldrh	w13, [x15, x13, lsl #1]
	cmp	w12, w11
	csel	w11, w12, w11, lo
	strh	w11, [x22, x10, lsl #1]
	add	w9, w14, w9
	mov	w11, #-32768
	ldrh	w12, [x20, x10, lsl #1]
	sub	w11, w11, w8
	add	w8, w13, w8
	and	w11, w11, #0xffff
	cmp	w11, w12
	csel	w11, w11, w12, lo
	subs	x2, x2, #1
	strh	w11, [x20, x10, lsl #1]
	b.ne	.LBB1_2
	b	.LBB1_4
.LBB1_3:
	mov	w8, #16384
	mov	w9, #16384
.LBB1_4:
	sub	x9, x9, x23
	and	w11, w8, #0xffff
	sub	x26, x21, x23
	ldrh	w10, [x22, x9, lsl #1]
	ldr	x25, [x29, #112]
	ldr	x27, [x29, #96]
	cmp	w11, w10
	csel	w10, w11, w10, lo
	strh	w10, [x22, x9, lsl #1]
	mov	w10, #-32768
	sub	w8, w10, w8
	ldrh	w10, [x20, x9, lsl #1]
	and	w11, w8, #0xffff
	add	x8, x26, #1
	cmp	w11, w10
	csel	w10, w11, w10, lo
	cmp	x8, #15
	strh	w10, [x20, x9, lsl #1]
	b.ls	.LBB1_6
	lsr	x2, x8, #1
	mov	x0, x20
	sub	x8, x8, x2
	add	x1, x20, x8, lsl #1
	bl	"core::slice::edits::mirror::<i16>"
	b	.LBB1_13
.LBB1_6:
	cmp	x8, #2
	b.lo	.LBB1_13
	sub	x9, x26, #1
	mov	x8, xzr
	sub	x10, x21, x23
	lsr	x9, x9, #1
	add	x9, x9, #1
	b	.LBB1_10
.LBB1_8:
	ldrh	w11, [x20, x10, lsl #1]
	ldrh	w12, [x20, x8, lsl #1]
	strh	w11, [x20, x8, lsl #1]
	strh	w12, [x20, x10, lsl #1]
.LBB1_9:
	add	x8, x8, #1
	sub	x10, x10, #1
	cmp	x9, x8
	b.eq	.LBB1_13
.LBB1_10:
	cmp	x8, x10
	b.lo	.LBB1_8
	cmp	x10, x8
	b.hs	.LBB1_9
	ldrh	w11, [x20, x8, lsl #1]
	ldrh	w12, [x20, x10, lsl #1]
	strh	w11, [x20, x10, lsl #1]
	strh	w12, [x20, x8, lsl #1]
	b	.LBB1_9
.LBB1_13:
	ldr	x10, [x29, #128]
	ldr	x9, [x29, #104]
	cbz	x24, .LBB1_26
	mov	x11, x24
	mov	x8, x25
	b	.LBB1_17
.LBB1_15:
	sub	x8, x25, #1
.LBB1_16:
	sub	x8, x8, #1
	strh	w11, [x9, x8, lsl #1]
	cbz	x11, .LBB1_27
.LBB1_17:
	cmp	x11, x24
	b.ne	.LBB1_19
	sub	x11, x11, #1
	b	.LBB1_22
.LBB1_19:
	add	x12, x22, x11, lsl #1
.LBB1_20:
	subs	x11, x11, #1
	b.eq	.LBB1_22
	mov	x14, x12
	ldurh	w13, [x12, #-4]
	ldrh	w12, [x12]
	ldrh	w15, [x14, #-2]!
	add	x12, x12, x13, lsl #1
	add	x15, x13, x15, lsl #1
	cmp	x15, x12
	mov	x12, x14
	b.hs	.LBB1_20
.LBB1_22:
	sub	x12, x25, x8
	cmp	x12, #2
	b.lo	.LBB1_16
	ldrh	w13, [x22, x11, lsl #1]
.LBB1_24:
	add	x14, x9, x8, lsl #1
	ldrh	w15, [x14]
	ldrh	w14, [x14, #2]
	sub	x16, x15, x11
	sub	x18, x14, x11
	ldrh	w15, [x22, x15, lsl #1]
	mul	x17, x16, x13
	ldrh	w14, [x22, x14, lsl #1]
	mul	x0, x18, x13
	madd	x15, x18, x15, x17
	madd	x14, x16, x14, x0
	cmp	x15, x14
	b.lo	.LBB1_16
	sub	x12, x12, #1
	add	x8, x8, #1
	cmp	x12, #1
	b.hi	.LBB1_24
	b	.LBB1_15
.LBB1_26:
	mov	x8, x25
.LBB1_27:
	ldr	x11, [x29, #120]
	cbz	x27, .LBB1_40
	mov	x13, x27
	mov	x12, x10
	b	.LBB1_31
.LBB1_29:
	sub	x12, x10, #1
.LBB1_30:
	sub	x12, x12, #1
	strh	w13, [x11, x12, lsl #1]
	cbz	x13, .LBB1_41
.LBB1_31:
	cmp	x13, x27
	b.ne	.LBB1_33
	sub	x13, x13, #1
	b	.LBB1_36
.LBB1_33:
	add	x14, x20, x13, lsl #1
.LBB1_34:
	subs	x13, x13, #1
	b.eq	.LBB1_36
	mov	x16, x14
	ldurh	w15, [x14, #-4]
	ldrh	w14, [x14]
	ldrh	w17, [x16, #-2]!
	add	x14, x14, x15, lsl #1
	add	x17, x15, x17, lsl #1
	cmp	x17, x14
	mov	x14, x16
	b.hs	.LBB1_34
.LBB1_36:
	sub	x14, x10, x12
	cmp	x14, #2
	b.lo	.LBB1_30
	ldrh	w15, [x20, x13, lsl #1]
.LBB1_38:
	add	x16, x11, x12, lsl #1
	ldrh	w17, [x16]
	ldrh	w16, [x16, #2]
	sub	x18, x17, x13
	sub	x1, x16, x13
	ldrh	w17, [x20, x17, lsl #1]
	mul	x0, x18, x15
	ldrh	w16, [x20, x16, lsl #1]
	mul	x2, x1, x15
	madd	x17, x1, x17, x0
	madd	x16, x18, x16, x2
	cmp	x17, x16
	b.lo	.LBB1_30
	sub	x14, x14, #1
	add	x12, x12, #1
	cmp	x14, #1
	b.hi	.LBB1_38
	b	.LBB1_29
.LBB1_40:
	mov	x12, x10
.LBB1_41:
	ldrh	w13, [x22, x26, lsl #1]
	ldrh	w14, [x20]
	sub	x10, x10, x12
	ldrh	w15, [x20, x26, lsl #1]
	sub	x18, x25, x8
	add	w16, w14, w13
	ldrh	w13, [x22]
	cmp	w16, #8, lsl #12
	cset	w14, eq
	add	w13, w15, w13
	mov	w15, #32768
	cmp	x10, x14
	ccmp	w13, w15, #0, hi
	cset	w13, eq
	sub	x15, x10, x13
	sub	x13, x15, x14
	add	x10, x13, x18
	lsl	x17, x10, #1
	cmp	x17, #2050
	b.ls	.LBB1_43
	mov	w10, #7
	mov	w8, #1
	b	.LBB1_50
.LBB1_43:
	cmp	w16, #8, lsl #12
	mov	w17, #2
	ldr	x16, [x29, #136]
	csel	x17, x17, xzr, eq
	cmp	x25, x8
	b.eq	.LBB1_46
	add	x9, x9, x8, lsl #1
	sub	w0, w23, #4, lsl #12
	add	x1, x16, #4
.LBB1_45:
	ldrh	w2, [x9], #2
	subs	x18, x18, #1
	ldrh	w3, [x22, w2, uxtw #1]
	add	w2, w0, w2
	sub	w3, w3, #4, lsl #12
	stp	w2, w3, [x1, #-4]
	add	x1, x1, #8
	b.ne	.LBB1_45
.LBB1_46:
	cmp	x15, x14
	b.eq	.LBB1_49
	sub	x8, x16, x8, lsl #3
	add	x9, x11, x12, lsl #1
	add	x11, x8, x25, lsl #3
	add	x8, x9, x17
	sub	w9, w21, #4, lsl #12
	add	x11, x11, #4
.LBB1_48:
	ldrh	w12, [x8], #2
	mov	w15, #16384
	subs	x13, x13, #1
	ldrh	w14, [x20, w12, uxtw #1]
	sub	w12, w9, w12
	sub	w14, w15, w14
	stp	w12, w14, [x11, #-4]
	add	x11, x11, #8
	b.ne	.LBB1_48
.LBB1_49:
	mov	x8, xzr
.LBB1_50:
	stp	x8, x10, [x19]
	ldp	x22, x21, [sp, #80]
	str	xzr, [x19, #16]
	ldr	x27, [sp, #32]
	ldp	x20, x19, [sp, #96]
	ldp	x24, x23, [sp, #64]
	ldp	x26, x25, [sp, #48]
	ldp	x29, x30, [sp, #16]
	add	sp, sp, #112
	ret
.Lfunc_end1:
	.size	"hull_call::list_in", .Lfunc_end1-"hull_call::list_in"

	.section	".text.core::slice::edits::mirror::<i16>","ax",@progbits
	.p2align	2
	.type	"core::slice::edits::mirror::<i16>",@function
"core::slice::edits::mirror::<i16>":
	lsl	x8, x2, #1
	add	x9, x1, x8
	add	x8, x0, x8
	cmp	x0, x9
	ccmp	x1, x8, #2, lo
	b.lo	.LBB2_4
	add	x9, x1, x2, lsl #1
	and	x8, x2, #0x7ffffffffffffff8
	mov	x10, x0
	and	x11, x2, #0x7ffffffffffffff8
	sub	x9, x9, #16
.LBB2_2:
	ldr	q0, [x9]
	ldr	q1, [x10]
	subs	x11, x11, #8
	rev64	v0.8h, v0.8h
	rev64	v1.8h, v1.8h
	ext	v0.16b, v0.16b, v0.16b, #8
	ext	v1.16b, v1.16b, v1.16b, #8
	str	q0, [x10], #16
	str	q1, [x9], #-16
	b.ne	.LBB2_2
	cmp	x2, x8
	b.ne	.LBB2_5
	b	.LBB2_7
.LBB2_4:
	mov	x8, xzr
.LBB2_5:
	add	x9, x0, x8, lsl #1
	sub	x8, x2, x8
	sub	x10, x1, #2
.LBB2_6:
	ldrh	w11, [x10, x8, lsl #1]
	ldrh	w12, [x9]
	strh	w11, [x9], #2
	strh	w12, [x10, x8, lsl #1]
	subs	x8, x8, #1
	b.ne	.LBB2_6
.LBB2_7:
	ret
.Lfunc_end2:
	.size	"core::slice::edits::mirror::<i16>", .Lfunc_end2-"core::slice::edits::mirror::<i16>"

	.section	.rodata.cst16,"aM",@progbits,16
	.p2align	4, 0x0
.LCPI3_0:
	.byte	0
	.byte	1
	.byte	2
	.byte	3
	.byte	4
	.byte	5
	.byte	6
	.byte	7
	.byte	8
	.byte	9
	.byte	10
	.byte	11
	.byte	12
	.byte	13
	.byte	14
	.byte	15
.LCPI3_1:
	.byte	16
	.byte	17
	.byte	18
	.byte	19
	.byte	20
	.byte	21
	.byte	22
	.byte	23
	.byte	24
	.byte	25
	.byte	26
	.byte	27
	.byte	28
	.byte	29
	.byte	30
	.byte	31
	.section	.rodata.cst8,"aM",@progbits,8
	.p2align	3, 0x0
.LCPI3_2:
	.byte	32
	.byte	33
	.byte	34
	.byte	35
	.byte	36
	.byte	37
	.byte	38
	.byte	39
	.section	".text.line_io::send::<#df9e9f1468b30f79>","ax",@progbits
	.p2align	2
	.type	"line_io::send::<#df9e9f1468b30f79>",@function
"line_io::send::<#df9e9f1468b30f79>":
	sub	sp, sp, #176
	stp	x24, x23, [sp, #128]
	mov	x23, x3
	mov	w24, #1
	stp	x22, x21, [sp, #144]
	mov	x22, x4
	mov	x21, x1
	stp	x20, x19, [sp, #160]
	mov	w20, w2
	mov	x19, x0
	stp	x29, x30, [sp, #96]
	add	x29, sp, #96
	str	x25, [sp, #112]
	b	.LBB3_2
.LBB3_1:
	adds	x24, x24, #1
	b.hs	.LBB3_8
.LBB3_2:
	cbz	x22, .LBB3_9
	mov	w0, #1
	mov	x1, x23
	mov	x2, x22
	bl	write
	tbnz	x0, #63, .LBB3_6
	cbz	x0, .LBB3_8
	cmp	x0, x22
	csel	x8, x0, x22, lo
	add	x23, x23, x8
	sub	x22, x22, x8
	b	.LBB3_1
.LBB3_6:
	mov	x0, sp
	mov	x25, sp
	bl	"std_io::io::error::last_error"
	adrp	x9, .LCPI3_0
	ldr	x8, [sp]
	adrp	x10, .LCPI3_1
	ldr	q0, [x9, :lo12:.LCPI3_0]
	adrp	x9, .LCPI3_2
	ldr	q1, [x10, :lo12:.LCPI3_1]
	ldr	d2, [x9, :lo12:.LCPI3_2]
	ubfx	w9, w8, #8, #8
	mov	w10, #40
	stp	q0, q1, [sp]
	cmp	w9, #41
	str	d2, [sp, #32]
	strb	w10, [sp, #40]
	b.hs	.LBB3_8
	ubfx	x8, x8, #8, #6
	ldrb	w8, [x25, x8]
	cmp	w8, #35
	b.eq	.LBB3_1
.LBB3_8:
	mov	x21, xzr
	mov	w20, wzr
	stur	wzr, [x29, #27]
	mov	w8, #1
	b	.LBB3_10
.LBB3_9:
	mov	w8, wzr
	stur	wzr, [x29, #27]
.LBB3_10:
	str	wzr, [x29, #24]
	ldp	x24, x23, [sp, #128]
	ldur	w9, [x29, #27]
	strb	w8, [x19]
	ldr	x25, [sp, #112]
	strb	w8, [x19, #1]
	str	x21, [x19, #8]
	ldp	x22, x21, [sp, #144]
	strb	w20, [x19, #16]
	ldp	x29, x30, [sp, #96]
	stur	wzr, [x19, #17]
	str	w9, [x19, #20]
	ldp	x20, x19, [sp, #160]
	add	sp, sp, #176
	ret
.Lfunc_end3:
	.size	"line_io::send::<#df9e9f1468b30f79>", .Lfunc_end3-"line_io::send::<#df9e9f1468b30f79>"

	.section	".text.std_io::io::error::last_error","ax",@progbits
	.p2align	2
	.type	"std_io::io::error::last_error",@function
"std_io::io::error::last_error":
	stp	x29, x30, [sp, #-32]!
	str	x19, [sp, #16]
	mov	x29, sp
	mov	x19, x0
	bl	rattle_errno
	tbnz	w0, #31, .LBB4_4
	sub	w8, w0, #1
	cmp	w8, #121
	b.hi	.LBB4_4
	adrp	x9, .LJTI4_0
	add	x9, x9, :lo12:.LJTI4_0
	adr	x10, .LBB4_3
	ldrb	w11, [x9, x8]
	add	x10, x10, x11, lsl #2
	mov	w8, #1
	br	x10
.LBB4_3:
	mov	w8, #36
	b	.LBB4_5
.LBB4_4:
	mov	w8, #41
.LBB4_5:
	movi	v0.2d, #0000000000000000
	strb	wzr, [x19]
	strb	w8, [x19, #1]
	strh	wzr, [x19, #2]
	str	w0, [x19, #4]
	stur	q0, [x19, #8]
	stur	q0, [x19, #24]
	stur	q0, [x19, #40]
	stur	q0, [x19, #56]
	stur	q0, [x19, #72]
	ldr	x19, [sp, #16]
	ldp	x29, x30, [sp], #32
	ret
.LBB4_6:
	mov	w8, #4
	b	.LBB4_5
.LBB4_7:
	mov	w8, #7
	b	.LBB4_5
.LBB4_8:
	mov	w8, #26
	b	.LBB4_5
.LBB4_9:
	mov	w8, #39
	b	.LBB4_5
.LBB4_10:
	mov	w8, #9
	b	.LBB4_5
.LBB4_11:
	mov	w8, #8
	b	.LBB4_5
.LBB4_12:
	mov	w8, #30
	b	.LBB4_5
.LBB4_13:
	mov	w8, #25
	b	.LBB4_5
.LBB4_14:
	mov	w8, #32
	b	.LBB4_5
.LBB4_15:
	mov	w8, #33
	b	.LBB4_5
.LBB4_16:
	mov	w8, #22
	b	.LBB4_5
.LBB4_17:
	mov	w8, #31
	b	.LBB4_5
.LBB4_18:
	mov	w8, #29
	b	.LBB4_5
.LBB4_19:
	mov	w8, #18
	b	.LBB4_5
.LBB4_20:
	mov	w8, #10
	b	.LBB4_5
.LBB4_21:
	mov	w8, #28
	b	.LBB4_5
.LBB4_22:
	mov	w8, #14
	b	.LBB4_5
.LBB4_23:
	mov	w8, #12
	b	.LBB4_5
.LBB4_24:
	mov	w8, #5
	b	.LBB4_5
.LBB4_25:
	mov	w8, #3
	b	.LBB4_5
.LBB4_26:
	mov	w8, wzr
	b	.LBB4_5
.LBB4_27:
	mov	w8, #13
	b	.LBB4_5
.LBB4_28:
	mov	w8, #38
	b	.LBB4_5
.LBB4_29:
	mov	w8, #11
	b	.LBB4_5
.LBB4_30:
	mov	w8, #35
	b	.LBB4_5
.LBB4_31:
	mov	w8, #34
	b	.LBB4_5
.LBB4_32:
	mov	w8, #20
	b	.LBB4_5
.LBB4_33:
	mov	w8, #15
	b	.LBB4_5
.LBB4_34:
	mov	w8, #19
	b	.LBB4_5
.LBB4_35:
	mov	w8, #16
	b	.LBB4_5
.LBB4_36:
	mov	w8, #6
	b	.LBB4_5
.LBB4_37:
	mov	w8, #27
	b	.LBB4_5
.LBB4_38:
	mov	w8, #24
	b	.LBB4_5
.LBB4_39:
	mov	w8, #2
	b	.LBB4_5
.LBB4_40:
	mov	w8, #17
	b	.LBB4_5
.Lfunc_end4:
	.size	"std_io::io::error::last_error", .Lfunc_end4-"std_io::io::error::last_error"
	.section	".rodata.std_io::io::error::last_error","a",@progbits
.LJTI4_0:
	.byte	(.LBB4_5-.LBB4_3)>>2
	.byte	(.LBB4_26-.LBB4_3)>>2
	.byte	(.LBB4_4-.LBB4_3)>>2
	.byte	(.LBB4_30-.LBB4_3)>>2
	.byte	(.LBB4_4-.LBB4_3)>>2
	.byte	(.LBB4_4-.LBB4_3)>>2
	.byte	(.LBB4_31-.LBB4_3)>>2
	.byte	(.LBB4_4-.LBB4_3)>>2
	.byte	(.LBB4_4-.LBB4_3)>>2
	.byte	(.LBB4_4-.LBB4_3)>>2
	.byte	(.LBB4_27-.LBB4_3)>>2
	.byte	(.LBB4_28-.LBB4_3)>>2
	.byte	(.LBB4_5-.LBB4_3)>>2
	.byte	(.LBB4_4-.LBB4_3)>>2
	.byte	(.LBB4_4-.LBB4_3)>>2
	.byte	(.LBB4_21-.LBB4_3)>>2
	.byte	(.LBB4_23-.LBB4_3)>>2
	.byte	(.LBB4_17-.LBB4_3)>>2
	.byte	(.LBB4_4-.LBB4_3)>>2
	.byte	(.LBB4_22-.LBB4_3)>>2
	.byte	(.LBB4_33-.LBB4_3)>>2
	.byte	(.LBB4_32-.LBB4_3)>>2
	.byte	(.LBB4_4-.LBB4_3)>>2
	.byte	(.LBB4_4-.LBB4_3)>>2
	.byte	(.LBB4_4-.LBB4_3)>>2
	.byte	(.LBB4_18-.LBB4_3)>>2
	.byte	(.LBB4_37-.LBB4_3)>>2
	.byte	(.LBB4_38-.LBB4_3)>>2
	.byte	(.LBB4_13-.LBB4_3)>>2
	.byte	(.LBB4_40-.LBB4_3)>>2
	.byte	(.LBB4_14-.LBB4_3)>>2
	.byte	(.LBB4_29-.LBB4_3)>>2
	.byte	(.LBB4_4-.LBB4_3)>>2
	.byte	(.LBB4_4-.LBB4_3)>>2
	.byte	(.LBB4_12-.LBB4_3)>>2
	.byte	(.LBB4_15-.LBB4_3)>>2
	.byte	(.LBB4_4-.LBB4_3)>>2
	.byte	(.LBB4_3-.LBB4_3)>>2
	.byte	(.LBB4_35-.LBB4_3)>>2
	.byte	(.LBB4_19-.LBB4_3)>>2
	.byte	(.LBB4_4-.LBB4_3)>>2
	.byte	(.LBB4_4-.LBB4_3)>>2
	.byte	(.LBB4_4-.LBB4_3)>>2
	.byte	(.LBB4_4-.LBB4_3)>>2
	.byte	(.LBB4_4-.LBB4_3)>>2
	.byte	(.LBB4_4-.LBB4_3)>>2
	.byte	(.LBB4_4-.LBB4_3)>>2
	.byte	(.LBB4_4-.LBB4_3)>>2
	.byte	(.LBB4_4-.LBB4_3)>>2
	.byte	(.LBB4_4-.LBB4_3)>>2
	.byte	(.LBB4_4-.LBB4_3)>>2
	.byte	(.LBB4_4-.LBB4_3)>>2
	.byte	(.LBB4_4-.LBB4_3)>>2
	.byte	(.LBB4_4-.LBB4_3)>>2
	.byte	(.LBB4_4-.LBB4_3)>>2
	.byte	(.LBB4_4-.LBB4_3)>>2
	.byte	(.LBB4_4-.LBB4_3)>>2
	.byte	(.LBB4_4-.LBB4_3)>>2
	.byte	(.LBB4_4-.LBB4_3)>>2
	.byte	(.LBB4_4-.LBB4_3)>>2
	.byte	(.LBB4_4-.LBB4_3)>>2
	.byte	(.LBB4_4-.LBB4_3)>>2
	.byte	(.LBB4_4-.LBB4_3)>>2
	.byte	(.LBB4_4-.LBB4_3)>>2
	.byte	(.LBB4_4-.LBB4_3)>>2
	.byte	(.LBB4_4-.LBB4_3)>>2
	.byte	(.LBB4_4-.LBB4_3)>>2
	.byte	(.LBB4_4-.LBB4_3)>>2
	.byte	(.LBB4_4-.LBB4_3)>>2
	.byte	(.LBB4_4-.LBB4_3)>>2
	.byte	(.LBB4_4-.LBB4_3)>>2
	.byte	(.LBB4_4-.LBB4_3)>>2
	.byte	(.LBB4_4-.LBB4_3)>>2
	.byte	(.LBB4_4-.LBB4_3)>>2
	.byte	(.LBB4_4-.LBB4_3)>>2
	.byte	(.LBB4_4-.LBB4_3)>>2
	.byte	(.LBB4_4-.LBB4_3)>>2
	.byte	(.LBB4_4-.LBB4_3)>>2
	.byte	(.LBB4_4-.LBB4_3)>>2
	.byte	(.LBB4_4-.LBB4_3)>>2
	.byte	(.LBB4_4-.LBB4_3)>>2
	.byte	(.LBB4_4-.LBB4_3)>>2
	.byte	(.LBB4_4-.LBB4_3)>>2
	.byte	(.LBB4_4-.LBB4_3)>>2
	.byte	(.LBB4_4-.LBB4_3)>>2
	.byte	(.LBB4_4-.LBB4_3)>>2
	.byte	(.LBB4_4-.LBB4_3)>>2
	.byte	(.LBB4_4-.LBB4_3)>>2
	.byte	(.LBB4_4-.LBB4_3)>>2
	.byte	(.LBB4_4-.LBB4_3)>>2
	.byte	(.LBB4_4-.LBB4_3)>>2
	.byte	(.LBB4_4-.LBB4_3)>>2
	.byte	(.LBB4_4-.LBB4_3)>>2
	.byte	(.LBB4_4-.LBB4_3)>>2
	.byte	(.LBB4_3-.LBB4_3)>>2
	.byte	(.LBB4_4-.LBB4_3)>>2
	.byte	(.LBB4_4-.LBB4_3)>>2
	.byte	(.LBB4_11-.LBB4_3)>>2
	.byte	(.LBB4_10-.LBB4_3)>>2
	.byte	(.LBB4_20-.LBB4_3)>>2
	.byte	(.LBB4_24-.LBB4_3)>>2
	.byte	(.LBB4_4-.LBB4_3)>>2
	.byte	(.LBB4_36-.LBB4_3)>>2
	.byte	(.LBB4_25-.LBB4_3)>>2
	.byte	(.LBB4_4-.LBB4_3)>>2
	.byte	(.LBB4_4-.LBB4_3)>>2
	.byte	(.LBB4_7-.LBB4_3)>>2
	.byte	(.LBB4_4-.LBB4_3)>>2
	.byte	(.LBB4_4-.LBB4_3)>>2
	.byte	(.LBB4_16-.LBB4_3)>>2
	.byte	(.LBB4_39-.LBB4_3)>>2
	.byte	(.LBB4_4-.LBB4_3)>>2
	.byte	(.LBB4_6-.LBB4_3)>>2
	.byte	(.LBB4_4-.LBB4_3)>>2
	.byte	(.LBB4_9-.LBB4_3)>>2
	.byte	(.LBB4_34-.LBB4_3)>>2
	.byte	(.LBB4_4-.LBB4_3)>>2
	.byte	(.LBB4_4-.LBB4_3)>>2
	.byte	(.LBB4_4-.LBB4_3)>>2
	.byte	(.LBB4_4-.LBB4_3)>>2
	.byte	(.LBB4_4-.LBB4_3)>>2
	.byte	(.LBB4_8-.LBB4_3)>>2

	.section	.rodata.cst16,"aM",@progbits,16
	.p2align	4, 0x0
.LCPI5_0:
	.byte	1
	.byte	2
	.byte	4
	.byte	8
	.byte	16
	.byte	32
	.byte	64
	.byte	128
	.byte	1
	.byte	2
	.byte	4
	.byte	8
	.byte	16
	.byte	32
	.byte	64
	.byte	128
	.section	.text.main,"ax",@progbits
	.globl	main
	.p2align	2
	.type	main,@function
main:
	stp	x29, x30, [sp, #-96]!
	sub	x9, sp, #60, lsl #12
	stp	x28, x27, [sp, #16]
	mov	x29, sp
	sub	x9, x9, #3072
	stp	x26, x25, [sp, #32]
	stp	x24, x23, [sp, #48]
	stp	x22, x21, [sp, #64]
	stp	x20, x19, [sp, #80]
.LBB5_1:
	sub	sp, sp, #3072
	cmp	sp, x9
	str	xzr, [sp]
	b.ne	.LBB5_1
	sub	sp, sp, #1344
	add	x19, sp, #48, lsl #12
	mov	w0, #13
	mov	w1, #1
	str	xzr, [sp]
	add	x19, x19, #1048
	mov	w24, #1
	bl	__sysv_signal
	add	x0, sp, #48, lsl #12
	mov	w1, wzr
	mov	w2, #1031
	add	x0, x0, #17
	bl	memset
	add	x0, sp, #32, lsl #12
	mov	w1, wzr
	mov	w2, #65536
	add	x0, x0, #17
	bl	memset
	add	x0, sp, #17
	mov	w1, wzr
	mov	w2, #131072
	bl	memset
	mov	x25, xzr
	mov	x27, xzr
	mov	x20, xzr
	mov	x26, xzr
	mov	x21, xzr
	b	.LBB5_5
.LBB5_3:
	add	x0, sp, #48, lsl #12
	ldr	x1, [sp, #8]
	add	x3, sp, #17
	add	x0, x0, #1048
	mov	w2, w24
	mov	x4, x22
	bl	"line_io::send::<#df9e9f1468b30f79>"
	add	x19, sp, #48, lsl #12
	add	x19, x19, #1048
	ldrb	w8, [x19]
	cbnz	w8, .LBB5_32
	ldr	x20, [x19, #8]
	ldrb	w24, [x19, #16]
	add	x25, x25, #1
	cmn	x25, #1
	b.eq	.LBB5_26
.LBB5_5:
	cmp	x26, x27
	b.hs	.LBB5_23
	add	x0, sp, #48, lsl #12
	mov	w1, wzr
	mov	w2, #52488
	add	x0, x0, #1072
	str	x20, [sp, #8]
	stp	xzr, xzr, [x19]
	str	xzr, [x19, #16]
	bl	memset
	mov	x22, xzr
	neg	x28, x27
	b	.LBB5_8
.LBB5_7:
	mov	w8, #1031
	sub	x8, x8, x21
	cmp	x8, x19
	csel	x23, x8, x19, lo
	add	x8, sp, #48, lsl #12
	add	x8, x8, #17
	mov	x2, x23
	add	x0, x8, x21
	bl	memcpy
	add	x21, x23, x21
	add	x26, x19, x26
	cmp	x26, x27
	b.hs	.LBB5_3
.LBB5_8:
	mov	x8, #-57297
	movk	x8, #65534, lsl #16
	add	x8, x22, x8
	lsr	x8, x8, #4
	cmp	x8, #515
	b.lo	.LBB5_3
	add	x8, sp, #32, lsl #12
	sub	x19, x27, x26
	add	x8, x8, #17
	cmp	x19, #32
	add	x1, x8, x26
	mov	x8, xzr
	b.lo	.LBB5_14
	sub	x9, x27, x26
.LBB5_11:
	movi	v0.16b, #10
	add	x10, x1, x8
	ldp	q1, q2, [x10]
	adrp	x10, .LCPI5_0
	cmeq	v2.16b, v2.16b, v0.16b
	cmeq	v0.16b, v1.16b, v0.16b
	ldr	q1, [x10, :lo12:.LCPI5_0]
	and	v2.16b, v2.16b, v1.16b
	and	v0.16b, v0.16b, v1.16b
	ext	v1.16b, v2.16b, v2.16b, #8
	ext	v3.16b, v0.16b, v0.16b, #8
	zip1	v1.16b, v2.16b, v1.16b
	zip1	v0.16b, v0.16b, v3.16b
	addv	h1, v1.8h
	addv	h0, v0.8h
	fmov	w10, s1
	fmov	w11, s0
	orr	w10, w11, w10
	tst	w10, #0xffff
	b.ne	.LBB5_14
	sub	x9, x9, #32
	add	x8, x8, #32
	cmp	x9, #31
	b.hi	.LBB5_11
	and	x8, x19, #0xffffffffffffffe0
.LBB5_14:
	cmp	x8, x19
	b.hs	.LBB5_7
	add	x10, sp, #32, lsl #12
	add	x9, x26, x8
	neg	x20, x8
	add	x10, x10, #17
	add	x8, x28, x26
	add	x9, x10, x9
.LBB5_16:
	ldrb	w10, [x9], #1
	cmp	w10, #10
	b.eq	.LBB5_18
	sub	x20, x20, #1
	cmp	x8, x20
	b.ne	.LBB5_16
	b	.LBB5_7
.LBB5_18:
	neg	x8, x20
	cmp	x19, x8
	neg	x19, x20
	b.ls	.LBB5_7
	cbz	x21, .LBB5_21
	mov	w9, #1031
	sub	x9, x9, x21
	cmp	x9, x8
	csel	x23, x9, x8, lo
	add	x8, sp, #48, lsl #12
	add	x8, x8, #17
	mov	x2, x23
	add	x0, x8, x21
	bl	memcpy
	add	x0, sp, #48, lsl #12
	add	x2, sp, #48, lsl #12
	add	x1, x23, x21
	add	x0, x0, #17
	add	x2, x2, #1072
	add	x3, sp, #17
	b	.LBB5_22
.LBB5_21:
	cmp	x8, #1031
	mov	w9, #1031
	add	x2, sp, #48, lsl #12
	csel	x8, x8, x9, lo
	add	x2, x2, #1072
	add	x3, sp, #17
	mov	x0, x1
	mov	x1, x8
.LBB5_22:
	mov	x4, x22
	bl	"lines::tell"
	sub	x8, x26, x20
	mov	x22, x0
	mov	x21, xzr
	add	x26, x8, #1
	cmp	x26, x27
	b.lo	.LBB5_8
	b	.LBB5_3
.LBB5_23:
	add	x1, sp, #32, lsl #12
	mov	w0, wzr
	mov	w2, #65536
	add	x1, x1, #17
	bl	read
	tbnz	x0, #63, .LBB5_27
	cbz	x0, .LBB5_28
	cmp	x0, #16, lsl #12
	mov	w8, #65536
	mov	x26, xzr
	csel	x27, x0, x8, lo
	add	x25, x25, #1
	cmn	x25, #1
	b.ne	.LBB5_5
.LBB5_26:
	mov	w0, #1
	b	.LBB5_33
.LBB5_27:
	add	x0, sp, #48, lsl #12
	add	x0, x0, #1072
	bl	"std_io::io::error::last_error"
	mov	w0, #1
	b	.LBB5_33
.LBB5_28:
	stp	xzr, xzr, [x19]
	str	xzr, [x19, #16]
	cbz	x21, .LBB5_30
	add	x0, sp, #48, lsl #12
	mov	w1, wzr
	mov	w2, #52488
	add	x0, x0, #1072
	bl	memset
	add	x0, sp, #48, lsl #12
	add	x2, sp, #48, lsl #12
	add	x3, sp, #17
	add	x0, x0, #17
	add	x2, x2, #1072
	mov	x1, x21
	mov	x4, xzr
	bl	"lines::tell"
	mov	x4, x0
	b	.LBB5_31
.LBB5_30:
	mov	x4, xzr
.LBB5_31:
	add	x0, sp, #48, lsl #12
	add	x3, sp, #17
	mov	x1, x20
	add	x0, x0, #1048
	mov	w2, w24
	bl	"line_io::send::<#df9e9f1468b30f79>"
	ldrb	w8, [x19]
	cbz	w8, .LBB5_34
.LBB5_32:
	ldrb	w8, [x19, #1]
	tst	w8, #0xff
	mov	w8, #1
	cinc	w0, w8, ne
.LBB5_33:
	add	sp, sp, #61, lsl #12
	add	sp, sp, #320
	ldp	x20, x19, [sp, #80]
	ldp	x22, x21, [sp, #64]
	ldp	x24, x23, [sp, #48]
	ldp	x26, x25, [sp, #32]
	ldp	x28, x27, [sp, #16]
	ldp	x29, x30, [sp], #96
	ret
.LBB5_34:
	mov	w0, wzr
	b	.LBB5_33
.Lfunc_end5:
	.size	main, .Lfunc_end5-main

	.ident	"rattle logic=dac8208d650f15bf3e2dc313a14fa4c783a3acf887bdfab66e1714b038d9e11b"
	.section	".note.GNU-stack","",@progbits
