/* Undrwyth, the program convert for x86_64 under Linux: made by scripts/dist from the sources of state 6ebe34014c5cbdcaab53ada40270abd81a24510c61112a54dce22a0a74dc2a61, which the Rattle kit proved; do not edit. SPDX-License-Identifier: MIT */
	.file	"rattle"
	.section	.rodata.cst16,"aM",@progbits,16
	.p2align	4, 0x0
.LCPI0_0:
	.zero	16,1
.LCPI0_1:
	.zero	16,208
.LCPI0_2:
	.zero	16,9
.LCPI0_3:
	.zero	16,159
.LCPI0_4:
	.zero	16,5
.LCPI0_5:
	.zero	2
	.short	65535
	.short	65535
	.short	65535
	.short	65535
	.short	65535
	.short	65535
	.short	65535
.LCPI0_6:
	.byte	208
	.byte	208
	.byte	208
	.byte	208
	.byte	208
	.byte	208
	.byte	208
	.byte	208
	.zero	1
	.zero	1
	.zero	1
	.zero	1
	.zero	1
	.zero	1
	.zero	1
	.zero	1
.LCPI0_7:
	.byte	10
	.byte	10
	.byte	10
	.byte	10
	.byte	10
	.byte	10
	.byte	10
	.byte	10
	.zero	1
	.zero	1
	.zero	1
	.zero	1
	.zero	1
	.zero	1
	.zero	1
	.zero	1
.LCPI0_8:
	.byte	159
	.byte	159
	.byte	159
	.byte	159
	.byte	159
	.byte	159
	.byte	159
	.byte	159
	.zero	1
	.zero	1
	.zero	1
	.zero	1
	.zero	1
	.zero	1
	.zero	1
	.zero	1
.LCPI0_9:
	.byte	6
	.byte	6
	.byte	6
	.byte	6
	.byte	6
	.byte	6
	.byte	6
	.byte	6
	.zero	1
	.zero	1
	.zero	1
	.zero	1
	.zero	1
	.zero	1
	.zero	1
	.zero	1
.LCPI0_10:
	.zero	16,57
.LCPI0_11:
	.zero	16,169
.LCPI0_12:
	.byte	58
	.byte	58
	.byte	58
	.byte	58
	.byte	58
	.byte	58
	.byte	58
	.byte	58
	.zero	1
	.zero	1
	.zero	1
	.zero	1
	.zero	1
	.zero	1
	.zero	1
	.zero	1
.LCPI0_13:
	.byte	169
	.byte	169
	.byte	169
	.byte	169
	.byte	169
	.byte	169
	.byte	169
	.byte	169
	.zero	1
	.zero	1
	.zero	1
	.zero	1
	.zero	1
	.zero	1
	.zero	1
	.zero	1
.LCPI0_14:
	.zero	16,48
.LCPI0_15:
	.zero	16,87
.LCPI0_16:
	.byte	48
	.byte	48
	.byte	48
	.byte	48
	.byte	48
	.byte	48
	.byte	48
	.byte	48
	.zero	1
	.zero	1
	.zero	1
	.zero	1
	.zero	1
	.zero	1
	.zero	1
	.zero	1
.LCPI0_17:
	.byte	87
	.byte	87
	.byte	87
	.byte	87
	.byte	87
	.byte	87
	.byte	87
	.byte	87
	.zero	1
	.zero	1
	.zero	1
	.zero	1
	.zero	1
	.zero	1
	.zero	1
	.zero	1
	.section	".text.line_convert::end_line","ax",@progbits
	.p2align	4
	.type	"line_convert::end_line",@function
"line_convert::end_line":
	movq	%rcx, %rax
	cmpq	$1031, %rsi
	jb	.LBB0_2
	retq
.LBB0_2:
	cmpq	$2, %rsi
	jae	.LBB0_4
	testq	%rsi, %rsi
	jne	.LBB0_9
	jmp	.LBB0_28
.LBB0_4:
	cmpb	$48, (%rdi)
	jne	.LBB0_9
	cmpb	$49, 1(%rdi)
	jne	.LBB0_9
	pushq	%rbp
	pushq	%r15
	pushq	%r14
	pushq	%r13
	pushq	%r12
	pushq	%rbx
	subq	$2088, %rsp
	cmpq	$6, %rsi
	jb	.LBB0_45
	cmpq	$8, %rsi
	jae	.LBB0_29
	movb	$1, %r8b
	xorl	%ecx, %ecx
	jmp	.LBB0_38
.LBB0_9:
	leaq	(%rdx,%rax), %rcx
	cmpq	$4, %rsi
	jb	.LBB0_10
	movq	%rcx, %r8
	subq	%rdi, %r8
	cmpq	$32, %r8
	jae	.LBB0_13
.LBB0_10:
	xorl	%r8d, %r8d
.LBB0_22:
	movq	%rsi, %r10
	movq	%r8, %r9
	andq	$3, %r10
	je	.LBB0_25
	movq	%r8, %r9
	.p2align	4
.LBB0_24:
	movzbl	(%rdi,%r9), %r11d
	movb	%r11b, (%rcx,%r9)
	incq	%r9
	decq	%r10
	jne	.LBB0_24
.LBB0_25:
	subq	%rsi, %r8
	cmpq	$-4, %r8
	ja	.LBB0_28
	leaq	(%rax,%rdx), %rcx
	addq	$3, %rcx
	.p2align	4
.LBB0_27:
	movzbl	(%rdi,%r9), %edx
	movb	%dl, -3(%rcx,%r9)
	movzbl	1(%rdi,%r9), %edx
	movb	%dl, -2(%rcx,%r9)
	movzbl	2(%rdi,%r9), %edx
	movb	%dl, -1(%rcx,%r9)
	movzbl	3(%rdi,%r9), %edx
	movb	%dl, (%rcx,%r9)
	addq	$4, %r9
	cmpq	%r9, %rsi
	jne	.LBB0_27
.LBB0_28:
	addq	%rsi, %rax
	retq
.LBB0_13:
	cmpq	$32, %rsi
	jae	.LBB0_15
	xorl	%r8d, %r8d
	jmp	.LBB0_19
.LBB0_15:
	movl	%esi, %r8d
	andl	$2016, %r8d
	leaq	(%rax,%rdx), %r9
	addq	$16, %r9
	xorl	%r10d, %r10d
	.p2align	4
.LBB0_16:
	movups	(%rdi,%r10), %xmm0
	movups	16(%rdi,%r10), %xmm1
	movups	%xmm0, -16(%r9,%r10)
	movups	%xmm1, (%r9,%r10)
	addq	$32, %r10
	cmpq	%r10, %r8
	jne	.LBB0_16
	cmpq	%r8, %rsi
	je	.LBB0_28
	testb	$28, %sil
	je	.LBB0_22
.LBB0_19:
	movq	%r8, %r9
	movl	%esi, %r8d
	andl	$2044, %r8d
	.p2align	4
.LBB0_20:
	movl	(%rdi,%r9), %r10d
	movl	%r10d, (%rcx,%r9)
	addq	$4, %r9
	cmpq	%r9, %r8
	jne	.LBB0_20
	cmpq	%r8, %rsi
	je	.LBB0_28
	jmp	.LBB0_22
.LBB0_29:
	cmpq	$32, %rsi
	jae	.LBB0_31
	movb	$1, %r8b
	xorl	%ecx, %ecx
	jmp	.LBB0_35
.LBB0_31:
	movl	%esi, %ecx
	andl	$2016, %ecx
	movdqa	.LCPI0_0(%rip), %xmm0
	xorl	%r8d, %r8d
	movdqa	%xmm0, %xmm1
	.p2align	4
.LBB0_32:
	movdqu	(%rdi,%r8), %xmm2
	movdqu	16(%rdi,%r8), %xmm3
	movdqa	.LCPI0_1(%rip), %xmm4
	movdqa	%xmm2, %xmm5
	paddb	%xmm4, %xmm5
	paddb	%xmm3, %xmm4
	movdqa	.LCPI0_2(%rip), %xmm6
	movdqa	%xmm5, %xmm7
	pminub	%xmm6, %xmm7
	pcmpeqb	%xmm5, %xmm7
	pminub	%xmm4, %xmm6
	pcmpeqb	%xmm4, %xmm6
	movdqa	.LCPI0_3(%rip), %xmm4
	paddb	%xmm4, %xmm2
	paddb	%xmm4, %xmm3
	movdqa	.LCPI0_4(%rip), %xmm4
	movdqa	%xmm2, %xmm5
	pminub	%xmm4, %xmm5
	pcmpeqb	%xmm2, %xmm5
	por	%xmm7, %xmm5
	pand	%xmm5, %xmm1
	pminub	%xmm3, %xmm4
	pcmpeqb	%xmm3, %xmm4
	por	%xmm6, %xmm4
	pand	%xmm4, %xmm0
	addq	$32, %r8
	cmpq	%r8, %rcx
	jne	.LBB0_32
	pand	%xmm1, %xmm0
	psllw	$7, %xmm0
	pmovmskb	%xmm0, %r8d
	cmpl	$65535, %r8d
	sete	%r8b
	cmpq	%rcx, %rsi
	je	.LBB0_40
	testb	$24, %sil
	je	.LBB0_38
.LBB0_35:
	movq	%rcx, %r9
	movl	%esi, %ecx
	andl	$2040, %ecx
	movzbl	%r8b, %r8d
	movdqa	.LCPI0_5(%rip), %xmm0
	pinsrw	$0, %r8d, %xmm0
	.p2align	4
.LBB0_36:
	movq	(%rdi,%r9), %xmm1
	movdqa	.LCPI0_6(%rip), %xmm2
	paddb	%xmm1, %xmm2
	movdqa	.LCPI0_7(%rip), %xmm3
	pmaxub	%xmm2, %xmm3
	pcmpeqb	%xmm2, %xmm3
	pcmpeqd	%xmm2, %xmm2
	pxor	%xmm2, %xmm3
	paddb	.LCPI0_8(%rip), %xmm1
	movdqa	.LCPI0_9(%rip), %xmm4
	pmaxub	%xmm1, %xmm4
	pcmpeqb	%xmm1, %xmm4
	pxor	%xmm2, %xmm4
	por	%xmm3, %xmm4
	punpcklbw	%xmm4, %xmm4
	pand	%xmm4, %xmm0
	addq	$8, %r9
	cmpq	%r9, %rcx
	jne	.LBB0_36
	psllw	$7, %xmm0
	pmovmskb	%xmm0, %r8d
	notl	%r8d
	testl	$21845, %r8d
	sete	%r8b
	jmp	.LBB0_39
.LBB0_38:
	movzbl	(%rdi,%rcx), %r9d
	leal	-48(%r9), %r10d
	cmpb	$10, %r10b
	setb	%r10b
	addb	$-97, %r9b
	cmpb	$6, %r9b
	setb	%r9b
	orb	%r10b, %r9b
	andb	%r9b, %r8b
	incq	%rcx
.LBB0_39:
	cmpq	%rcx, %rsi
	jne	.LBB0_38
.LBB0_40:
	testb	%r8b, %r8b
	je	.LBB0_45
	movzbl	2(%rdi), %r8d
	cmpb	$58, %r8b
	movl	$208, %ecx
	movl	$169, %r9d
	cmovbl	%ecx, %r9d
	movzbl	3(%rdi), %r10d
	addb	%r8b, %r9b
	cmpb	$58, %r10b
	movl	$169, %r8d
	cmovbl	%ecx, %r8d
	addb	%r10b, %r8b
	movzbl	%r9b, %r13d
	shll	$12, %r13d
	movzbl	%r8b, %ebp
	shll	$8, %ebp
	movzbl	4(%rdi), %r8d
	cmpb	$58, %r8b
	movl	$169, %r9d
	cmovbl	%ecx, %r9d
	movl	$169, %r10d
	addb	%r8b, %r9b
	movzbl	%r9b, %r15d
	shll	$4, %r15d
	movzbl	5(%rdi), %r8d
	cmpb	$58, %r8b
	cmovbl	%ecx, %r10d
	addb	%r8b, %r10b
	movzbl	%r10b, %r12d
	movq	%rbp, %r14
	addq	%r13, %r14
	leaq	(%r14,%r12), %rbx
	addq	%r15, %rbx
	leaq	-6(%rsi), %rcx
	cmpq	%rbx, %rcx
	jne	.LBB0_45
	movq	%rdi, (%rsp)
	movq	%rsi, 32(%rsp)
	movq	%rdx, 24(%rsp)
	movq	%rax, 16(%rsp)
	leaq	40(%rsp), %rdi
	movl	$1024, %edx
	xorl	%esi, %esi
	callq	memset@PLT
	testq	%rbx, %rbx
	je	.LBB0_66
	cmpl	$8, %ebx
	jae	.LBB0_67
	xorl	%ecx, %ecx
	movq	(%rsp), %rax
	jmp	.LBB0_76
.LBB0_45:
	leaq	(%rdx,%rax), %rcx
	cmpq	$4, %rsi
	jb	.LBB0_46
	movq	%rcx, %r8
	subq	%rdi, %r8
	cmpq	$32, %r8
	jae	.LBB0_49
.LBB0_46:
	xorl	%r8d, %r8d
.LBB0_58:
	movq	%rsi, %r10
	movq	%r8, %r9
	andq	$3, %r10
	je	.LBB0_61
	movq	%r8, %r9
	.p2align	4
.LBB0_60:
	movzbl	(%rdi,%r9), %r11d
	movb	%r11b, (%rcx,%r9)
	incq	%r9
	decq	%r10
	jne	.LBB0_60
.LBB0_61:
	subq	%rsi, %r8
	cmpq	$-4, %r8
	ja	.LBB0_64
	leaq	(%rax,%rdx), %rcx
	addq	$3, %rcx
	.p2align	4
.LBB0_63:
	movzbl	(%rdi,%r9), %edx
	movb	%dl, -3(%rcx,%r9)
	movzbl	1(%rdi,%r9), %edx
	movb	%dl, -2(%rcx,%r9)
	movzbl	2(%rdi,%r9), %edx
	movb	%dl, -1(%rcx,%r9)
	movzbl	3(%rdi,%r9), %edx
	movb	%dl, (%rcx,%r9)
	addq	$4, %r9
	cmpq	%r9, %rsi
	jne	.LBB0_63
.LBB0_64:
	addq	%rsi, %rax
.LBB0_65:
	addq	$2088, %rsp
	popq	%rbx
	popq	%r12
	popq	%r13
	popq	%r14
	popq	%r15
	popq	%rbp
	retq
.LBB0_49:
	cmpq	$32, %rsi
	jae	.LBB0_51
	xorl	%r8d, %r8d
	jmp	.LBB0_55
.LBB0_51:
	movl	%esi, %r8d
	andl	$2016, %r8d
	leaq	(%rax,%rdx), %r9
	addq	$16, %r9
	xorl	%r10d, %r10d
	.p2align	4
.LBB0_52:
	movdqu	(%rdi,%r10), %xmm0
	movdqu	16(%rdi,%r10), %xmm1
	movdqu	%xmm0, -16(%r9,%r10)
	movdqu	%xmm1, (%r9,%r10)
	addq	$32, %r10
	cmpq	%r10, %r8
	jne	.LBB0_52
	cmpq	%r8, %rsi
	je	.LBB0_64
	testb	$28, %sil
	je	.LBB0_58
.LBB0_55:
	movq	%r8, %r9
	movl	%esi, %r8d
	andl	$2044, %r8d
	.p2align	4
.LBB0_56:
	movl	(%rdi,%r9), %r10d
	movl	%r10d, (%rcx,%r9)
	addq	$4, %r9
	cmpq	%r9, %r8
	jne	.LBB0_56
	cmpq	%r8, %rsi
	je	.LBB0_64
	jmp	.LBB0_58
.LBB0_66:
	leaq	1064(%rsp), %rdi
	movl	$1024, %edx
	xorl	%esi, %esi
	callq	memset@PLT
	movq	16(%rsp), %rax
	movq	24(%rsp), %rcx
	jmp	.LBB0_104
.LBB0_67:
	cmpl	$32, %ebx
	movq	(%rsp), %rax
	jae	.LBB0_69
	xorl	%ecx, %ecx
	jmp	.LBB0_73
.LBB0_69:
	movl	%ebx, %ecx
	andl	$-32, %ecx
	xorl	%edx, %edx
.LBB0_70:
	movdqu	6(%rax,%rdx), %xmm0
	movdqu	22(%rax,%rdx), %xmm1
	movdqa	.LCPI0_10(%rip), %xmm2
	movdqa	%xmm0, %xmm3
	pminub	%xmm2, %xmm3
	pcmpeqb	%xmm0, %xmm3
	pminub	%xmm1, %xmm2
	pcmpeqb	%xmm1, %xmm2
	movdqa	.LCPI0_11(%rip), %xmm4
	movdqa	%xmm3, %xmm5
	pandn	%xmm4, %xmm5
	movdqa	.LCPI0_1(%rip), %xmm6
	pand	%xmm6, %xmm3
	por	%xmm5, %xmm3
	movdqa	%xmm2, %xmm5
	pandn	%xmm4, %xmm5
	pand	%xmm6, %xmm2
	por	%xmm5, %xmm2
	paddb	%xmm0, %xmm3
	paddb	%xmm1, %xmm2
	movdqu	%xmm3, 40(%rsp,%rdx)
	movdqu	%xmm2, 56(%rsp,%rdx)
	addq	$32, %rdx
	cmpq	%rdx, %rcx
	jne	.LBB0_70
	cmpl	%ecx, %ebx
	je	.LBB0_80
	testb	$24, %bl
	je	.LBB0_76
.LBB0_73:
	movl	%r12d, %edx
	andl	$7, %edx
	leaq	(%r15,%r12), %rsi
	addq	%r14, %rsi
	subq	%rcx, %rsi
	leaq	(%rsp,%rcx), %rdi
	addq	$40, %rdi
	leaq	(%rcx,%rax), %r8
	addq	$6, %r8
	movq	%rbx, %rcx
	subq	%rdx, %rcx
	subq	%rdx, %rsi
	xorl	%r9d, %r9d
.LBB0_74:
	movq	(%r8,%r9), %xmm0
	movdqa	.LCPI0_12(%rip), %xmm1
	pmaxub	%xmm0, %xmm1
	pcmpeqb	%xmm0, %xmm1
	movdqa	.LCPI0_13(%rip), %xmm2
	pand	%xmm1, %xmm2
	pandn	.LCPI0_6(%rip), %xmm1
	por	%xmm2, %xmm1
	paddb	%xmm0, %xmm1
	movq	%xmm1, (%rdi,%r9)
	addq	$8, %r9
	cmpq	%r9, %rsi
	jne	.LBB0_74
	testq	%rdx, %rdx
	je	.LBB0_80
.LBB0_76:
	leaq	(%r15,%r12), %rdx
	addq	%r14, %rdx
	subq	%rcx, %rdx
	leaq	(%rsp,%rcx), %rsi
	addq	$40, %rsi
	addq	%rcx, %rax
	addq	$6, %rax
	xorl	%ecx, %ecx
	jmp	.LBB0_78
.LBB0_77:
	addb	%dil, %r8b
	movb	%r8b, (%rsi,%rcx)
	incq	%rcx
	cmpq	%rcx, %rdx
	je	.LBB0_80
.LBB0_78:
	movzbl	(%rax,%rcx), %edi
	movl	$208, %r8d
	cmpb	$58, %dil
	jb	.LBB0_77
	movl	$169, %r8d
	jmp	.LBB0_77
.LBB0_80:
	movq	%r12, 8(%rsp)
	leaq	1064(%rsp), %rdi
	xorl	%r12d, %r12d
	movl	$1024, %edx
	xorl	%esi, %esi
	callq	memset@PLT
	cmpl	$4, %ebx
	jae	.LBB0_82
	xorl	%edi, %edi
	movq	16(%rsp), %rax
	movq	24(%rsp), %rcx
	movq	32(%rsp), %rdx
	movq	(%rsp), %rsi
	jmp	.LBB0_91
.LBB0_82:
	cmpl	$32, %ebx
	movq	16(%rsp), %rax
	movq	24(%rsp), %rcx
	movq	32(%rsp), %rdx
	jae	.LBB0_84
	xorl	%edi, %edi
	xorl	%r12d, %r12d
	movq	(%rsp), %rsi
	jmp	.LBB0_88
.LBB0_84:
	movl	%ebx, %edi
	andl	$-32, %edi
	pxor	%xmm0, %xmm0
	xorl	%esi, %esi
	pxor	%xmm1, %xmm1
.LBB0_85:
	movdqu	40(%rsp,%rsi), %xmm2
	pmaxub	%xmm2, %xmm0
	movdqu	56(%rsp,%rsi), %xmm2
	pmaxub	%xmm2, %xmm1
	addq	$32, %rsi
	cmpq	%rsi, %rdi
	jne	.LBB0_85
	pmaxub	%xmm1, %xmm0
	pshufd	$238, %xmm0, %xmm1
	pmaxub	%xmm0, %xmm1
	pshufd	$85, %xmm1, %xmm0
	pmaxub	%xmm1, %xmm0
	movdqa	%xmm0, %xmm1
	psrld	$16, %xmm1
	pmaxub	%xmm0, %xmm1
	movdqa	%xmm1, %xmm0
	psrlw	$8, %xmm0
	pmaxub	%xmm1, %xmm0
	movd	%xmm0, %r12d
	cmpl	%edi, %ebx
	movq	(%rsp), %rsi
	je	.LBB0_93
	testb	$28, %bl
	je	.LBB0_91
.LBB0_88:
	movq	8(%rsp), %r9
	movl	%r9d, %r8d
	andl	$3, %r8d
	addq	%r15, %r9
	addq	%r14, %r9
	subq	%rdi, %r9
	leaq	(%rsp,%rdi), %r10
	addq	$40, %r10
	movq	%rbx, %rdi
	subq	%r8, %rdi
	movzbl	%r12b, %r11d
	movd	%r11d, %xmm0
	punpcklbw	%xmm0, %xmm0
	pshuflw	$0, %xmm0, %xmm0
	subq	%r8, %r9
	xorl	%r11d, %r11d
.LBB0_89:
	movd	(%r10,%r11), %xmm1
	pmaxub	%xmm1, %xmm0
	addq	$4, %r11
	cmpq	%r11, %r9
	jne	.LBB0_89
	movdqa	%xmm0, %xmm1
	psrld	$16, %xmm1
	pmaxub	%xmm0, %xmm1
	movdqa	%xmm1, %xmm0
	psrlw	$8, %xmm0
	pmaxub	%xmm1, %xmm0
	movd	%xmm0, %r12d
	testq	%r8, %r8
	je	.LBB0_93
.LBB0_91:
	movq	8(%rsp), %r8
	addq	%r15, %r8
	addq	%r14, %r8
	subq	%rdi, %r8
	addq	%rsp, %rdi
	addq	$40, %rdi
	xorl	%r9d, %r9d
.LBB0_92:
	movzbl	(%rdi,%r9), %r10d
	movzbl	%r12b, %r12d
	cmpb	%r12b, %r10b
	cmoval	%r10d, %r12d
	incq	%r9
	cmpq	%r9, %r8
	jne	.LBB0_92
.LBB0_93:
	cmpb	$4, %r12b
	movq	8(%rsp), %r12
	jb	.LBB0_97
	xorl	%edi, %edi
.LBB0_95:
	cmpb	$3, 40(%rsp,%rdi)
	ja	.LBB0_109
	incq	%rdi
	cmpq	%rdi, %rbx
	jne	.LBB0_95
.LBB0_97:
	addl	%ebp, %r13d
	leal	(%r15,%r13), %edx
	leal	(%r12,%rdx), %esi
	decl	%esi
	movl	%r12d, %edx
	andl	$3, %edx
	cmpl	$3, %esi
	jae	.LBB0_99
	xorl	%esi, %esi
	xorl	%edi, %edi
	jmp	.LBB0_102
.LBB0_99:
	movq	%rbx, %r8
	subq	%rdx, %r8
	xorl	%esi, %esi
	xorl	%edi, %edi
.LBB0_100:
	addb	40(%rsp,%rdi), %sil
	movl	%esi, %r9d
	andb	$3, %r9b
	movb	%r9b, 1064(%rsp,%rdi)
	addb	41(%rsp,%rdi), %sil
	movl	%esi, %r9d
	andb	$3, %r9b
	movb	%r9b, 1065(%rsp,%rdi)
	addb	42(%rsp,%rdi), %sil
	movl	%esi, %r9d
	andb	$3, %r9b
	movb	%r9b, 1066(%rsp,%rdi)
	addb	43(%rsp,%rdi), %sil
	andb	$3, %sil
	movb	%sil, 1067(%rsp,%rdi)
	addq	$4, %rdi
	cmpq	%rdi, %r8
	jne	.LBB0_100
	testq	%rdx, %rdx
	je	.LBB0_104
.LBB0_102:
	leaq	(%rsp,%rdi), %r8
	addq	$1064, %r8
	addq	%rsp, %rdi
	addq	$40, %rdi
	xorl	%r9d, %r9d
.LBB0_103:
	addb	(%rdi,%r9), %sil
	andb	$3, %sil
	movb	%sil, (%r8,%r9)
	incq	%r9
	cmpq	%r9, %rdx
	jne	.LBB0_103
.LBB0_104:
	movl	%ebx, %edx
	andb	$15, %dl
	leal	48(%rdx), %esi
	leal	87(%rdx), %edi
	cmpb	$10, %dl
	movzbl	%sil, %edx
	movzbl	%dil, %esi
	cmovbl	%edx, %esi
	movl	%ebx, %edx
	shrb	$4, %dl
	leal	48(%rdx), %edi
	addb	$87, %dl
	cmpb	$-96, %bl
	movzbl	%dil, %edi
	movzbl	%dl, %r8d
	cmovbl	%edi, %r8d
	movl	%ebx, %edi
	shrl	$8, %edi
	orb	$48, %dil
	leaq	6(%rax), %rdx
	movw	$12336, (%rcx,%rax)
	movb	%sil, 5(%rcx,%rax)
	movb	%r8b, 4(%rcx,%rax)
	movb	%dil, 3(%rcx,%rax)
	movb	$48, 2(%rcx,%rax)
	testq	%rbx, %rbx
	je	.LBB0_120
	cmpl	$8, %ebx
	jae	.LBB0_107
	xorl	%esi, %esi
	jmp	.LBB0_118
.LBB0_107:
	cmpl	$32, %ebx
	jae	.LBB0_111
	xorl	%esi, %esi
	jmp	.LBB0_115
.LBB0_109:
	leaq	(%rcx,%rax), %rdi
	movq	%rdi, %r8
	subq	%rsi, %r8
	cmpq	$32, %r8
	jae	.LBB0_121
	xorl	%r8d, %r8d
	jmp	.LBB0_130
.LBB0_111:
	movl	%ebx, %esi
	andl	$-32, %esi
	leaq	(%rax,%rcx), %rdi
	addq	$22, %rdi
	xorl	%r8d, %r8d
.LBB0_112:
	movdqu	1064(%rsp,%r8), %xmm0
	movdqu	1080(%rsp,%r8), %xmm1
	movdqa	.LCPI0_2(%rip), %xmm2
	movdqa	%xmm0, %xmm3
	pminub	%xmm2, %xmm3
	pcmpeqb	%xmm0, %xmm3
	pminub	%xmm1, %xmm2
	pcmpeqb	%xmm1, %xmm2
	movdqa	.LCPI0_14(%rip), %xmm4
	movdqa	%xmm0, %xmm5
	por	%xmm4, %xmm5
	por	%xmm1, %xmm4
	movdqa	.LCPI0_15(%rip), %xmm6
	paddb	%xmm6, %xmm0
	paddb	%xmm6, %xmm1
	pand	%xmm3, %xmm5
	pandn	%xmm0, %xmm3
	por	%xmm5, %xmm3
	pand	%xmm2, %xmm4
	pandn	%xmm1, %xmm2
	por	%xmm4, %xmm2
	movdqu	%xmm3, -16(%rdi,%r8)
	movdqu	%xmm2, (%rdi,%r8)
	addq	$32, %r8
	cmpq	%r8, %rsi
	jne	.LBB0_112
	cmpl	%esi, %ebx
	je	.LBB0_120
	testb	$24, %bl
	je	.LBB0_118
.LBB0_115:
	movl	%r12d, %edi
	andl	$7, %edi
	leaq	(%r15,%r12), %r8
	addq	%r14, %r8
	subq	%rsi, %r8
	leaq	(%rsi,%rax), %r10
	leaq	(%rsp,%rsi), %r9
	addq	$1064, %r9
	movq	%rbx, %rsi
	subq	%rdi, %rsi
	subq	%rdi, %r8
	addq	%rcx, %r10
	addq	$6, %r10
	xorl	%r11d, %r11d
.LBB0_116:
	movq	(%r9,%r11), %xmm0
	movdqa	.LCPI0_7(%rip), %xmm1
	pmaxub	%xmm0, %xmm1
	pcmpeqb	%xmm0, %xmm1
	movdqa	.LCPI0_16(%rip), %xmm2
	por	%xmm0, %xmm2
	paddb	.LCPI0_17(%rip), %xmm0
	pand	%xmm1, %xmm0
	pandn	%xmm2, %xmm1
	por	%xmm0, %xmm1
	movq	%xmm1, (%r10,%r11)
	addq	$8, %r11
	cmpq	%r11, %r8
	jne	.LBB0_116
	testq	%rdi, %rdi
	je	.LBB0_120
.LBB0_118:
	addq	%r12, %r15
	addq	%r15, %r14
	subq	%rsi, %r14
	addq	%rsi, %rax
	addq	%rcx, %rax
	addq	$6, %rax
	leaq	(%rsp,%rsi), %rcx
	addq	$1064, %rcx
	xorl	%esi, %esi
.LBB0_119:
	movzbl	(%rcx,%rsi), %edi
	movl	%edi, %r8d
	orb	$48, %r8b
	leal	87(%rdi), %r9d
	cmpb	$10, %dil
	movzbl	%r8b, %edi
	movzbl	%r9b, %r8d
	cmovbl	%edi, %r8d
	movb	%r8b, (%rax,%rsi)
	incq	%rsi
	cmpq	%rsi, %r14
	jne	.LBB0_119
.LBB0_120:
	addq	%rdx, %rbx
	movq	%rbx, %rax
	jmp	.LBB0_65
.LBB0_121:
	cmpq	$32, %rdx
	jae	.LBB0_123
	xorl	%r8d, %r8d
	jmp	.LBB0_127
.LBB0_123:
	movl	%edx, %r8d
	andl	$2016, %r8d
	leaq	(%rax,%rcx), %r9
	addq	$16, %r9
	xorl	%r10d, %r10d
.LBB0_124:
	movdqu	(%rsi,%r10), %xmm0
	movdqu	16(%rsi,%r10), %xmm1
	movdqu	%xmm0, -16(%r9,%r10)
	movdqu	%xmm1, (%r9,%r10)
	addq	$32, %r10
	cmpq	%r10, %r8
	jne	.LBB0_124
	cmpq	%r8, %rdx
	je	.LBB0_136
	testb	$28, %dl
	je	.LBB0_130
.LBB0_127:
	movq	%r8, %r9
	movl	%edx, %r8d
	andl	$2044, %r8d
.LBB0_128:
	movl	(%rsi,%r9), %r10d
	movl	%r10d, (%rdi,%r9)
	addq	$4, %r9
	cmpq	%r9, %r8
	jne	.LBB0_128
	cmpq	%r8, %rdx
	je	.LBB0_136
.LBB0_130:
	movq	%rdx, %r10
	movq	%r8, %r9
	andq	$3, %r10
	je	.LBB0_133
	movq	%r8, %r9
.LBB0_132:
	movzbl	(%rsi,%r9), %r11d
	movb	%r11b, (%rdi,%r9)
	incq	%r9
	decq	%r10
	jne	.LBB0_132
.LBB0_133:
	subq	%rdx, %r8
	cmpq	$-4, %r8
	ja	.LBB0_136
	addq	%rax, %rcx
	addq	$3, %rcx
.LBB0_135:
	movzbl	(%rsi,%r9), %edi
	movb	%dil, -3(%rcx,%r9)
	movzbl	1(%rsi,%r9), %edi
	movb	%dil, -2(%rcx,%r9)
	movzbl	2(%rsi,%r9), %edi
	movb	%dil, -1(%rcx,%r9)
	movzbl	3(%rsi,%r9), %edi
	movb	%dil, (%rcx,%r9)
	addq	$4, %r9
	cmpq	%r9, %rdx
	jne	.LBB0_135
.LBB0_136:
	addq	%rdx, %rax
	jmp	.LBB0_65
.Lfunc_end0:
	.size	"line_convert::end_line", .Lfunc_end0-"line_convert::end_line"

	.section	.rodata.cst16,"aM",@progbits,16
	.p2align	4, 0x0
.LCPI1_0:
	.byte	0
	.byte	1
	.byte	2
	.byte	3
	.byte	4
	.byte	5
	.byte	6
	.byte	7
	.byte	8
	.byte	9
	.byte	10
	.byte	11
	.byte	12
	.byte	13
	.byte	14
	.byte	15
.LCPI1_1:
	.byte	16
	.byte	17
	.byte	18
	.byte	19
	.byte	20
	.byte	21
	.byte	22
	.byte	23
	.byte	24
	.byte	25
	.byte	26
	.byte	27
	.byte	28
	.byte	29
	.byte	30
	.byte	31
	.section	".text.line_io::send::<#df9e9f1468b30f79>","ax",@progbits
	.p2align	4
	.type	"line_io::send::<#df9e9f1468b30f79>",@function
"line_io::send::<#df9e9f1468b30f79>":
	pushq	%rbp
	pushq	%r15
	pushq	%r14
	pushq	%r13
	pushq	%r12
	pushq	%rbx
	subq	$104, %rsp
	movq	%r8, %r12
	movq	%rcx, %r13
	movl	%edx, %r15d
	movq	%rsi, %r14
	movq	%rdi, %rbx
	movl	$1, %ebp
	jmp	.LBB1_1
	.p2align	4
.LBB1_7:
	incq	%rbp
	je	.LBB1_8
.LBB1_1:
	testq	%r12, %r12
	je	.LBB1_9
	movl	$1, %edi
	movq	%r13, %rsi
	movq	%r12, %rdx
	callq	write@PLT
	testq	%rax, %rax
	js	.LBB1_5
	je	.LBB1_8
	cmpq	%r12, %rax
	cmovaeq	%r12, %rax
	addq	%rax, %r13
	subq	%rax, %r12
	jmp	.LBB1_7
	.p2align	4
.LBB1_5:
	leaq	16(%rsp), %rdi
	callq	"std_io::io::error::last_error"
	movq	16(%rsp), %rax
	shrq	$8, %rax
	movaps	.LCPI1_0(%rip), %xmm0
	movaps	%xmm0, 16(%rsp)
	movaps	.LCPI1_1(%rip), %xmm0
	movaps	%xmm0, 32(%rsp)
	movabsq	$2820983053732684064, %rcx
	movq	%rcx, 48(%rsp)
	movb	$40, 56(%rsp)
	cmpb	$41, %al
	jae	.LBB1_8
	andl	$63, %eax
	cmpb	$35, 16(%rsp,%rax)
	je	.LBB1_7
.LBB1_8:
	movl	$0, 11(%rsp)
	movl	$0, 8(%rsp)
	movb	$1, %al
	xorl	%r14d, %r14d
	xorl	%r15d, %r15d
	jmp	.LBB1_10
.LBB1_9:
	movl	$0, 11(%rsp)
	movl	$0, 8(%rsp)
	xorl	%eax, %eax
.LBB1_10:
	movb	%al, (%rbx)
	movb	%al, 1(%rbx)
	movq	%r14, 8(%rbx)
	movb	%r15b, 16(%rbx)
	movl	8(%rsp), %eax
	movl	11(%rsp), %ecx
	movl	%eax, 17(%rbx)
	movl	%ecx, 20(%rbx)
	addq	$104, %rsp
	popq	%rbx
	popq	%r12
	popq	%r13
	popq	%r14
	popq	%r15
	popq	%rbp
	retq
.Lfunc_end1:
	.size	"line_io::send::<#df9e9f1468b30f79>", .Lfunc_end1-"line_io::send::<#df9e9f1468b30f79>"

	.section	".text.std_io::io::error::last_error","ax",@progbits
	.p2align	4
	.type	"std_io::io::error::last_error",@function
"std_io::io::error::last_error":
	pushq	%rbx
	movq	%rdi, %rbx
	callq	rattle_errno@PLT
	movl	%eax, %ecx
	movb	$41, %dl
	testl	%eax, %eax
	js	.LBB2_40
	decl	%eax
	cmpl	$121, %eax
	ja	.LBB2_40
	leaq	.LJTI2_0(%rip), %rsi
	movslq	(%rsi,%rax,4), %rax
	addq	%rsi, %rax
	jmpq	*%rax
.LBB2_3:
	movb	$1, %dl
	jmp	.LBB2_40
.LBB2_24:
	movb	$36, %dl
	jmp	.LBB2_40
.LBB2_36:
	movb	$4, %dl
	jmp	.LBB2_40
.LBB2_33:
	movb	$7, %dl
	jmp	.LBB2_40
.LBB2_39:
	movb	$26, %dl
	jmp	.LBB2_40
.LBB2_37:
	movb	$39, %dl
	jmp	.LBB2_40
.LBB2_28:
	movb	$9, %dl
	jmp	.LBB2_40
.LBB2_27:
	movb	$8, %dl
	jmp	.LBB2_40
.LBB2_22:
	movb	$30, %dl
	jmp	.LBB2_40
.LBB2_18:
	movb	$25, %dl
	jmp	.LBB2_40
.LBB2_20:
	movb	$32, %dl
	jmp	.LBB2_40
.LBB2_23:
	movb	$33, %dl
	jmp	.LBB2_40
.LBB2_34:
	movb	$22, %dl
	jmp	.LBB2_40
.LBB2_11:
	movb	$31, %dl
	jmp	.LBB2_40
.LBB2_15:
	movb	$29, %dl
	jmp	.LBB2_40
.LBB2_26:
	movb	$18, %dl
	jmp	.LBB2_40
.LBB2_29:
	movb	$10, %dl
	jmp	.LBB2_40
.LBB2_9:
	movb	$28, %dl
	jmp	.LBB2_40
.LBB2_12:
	movb	$14, %dl
	jmp	.LBB2_40
.LBB2_10:
	movb	$12, %dl
	jmp	.LBB2_40
.LBB2_30:
	movb	$5, %dl
	jmp	.LBB2_40
.LBB2_32:
	movb	$3, %dl
	jmp	.LBB2_40
.LBB2_4:
	xorl	%edx, %edx
	jmp	.LBB2_40
.LBB2_7:
	movb	$13, %dl
	jmp	.LBB2_40
.LBB2_8:
	movb	$38, %dl
	jmp	.LBB2_40
.LBB2_21:
	movb	$11, %dl
	jmp	.LBB2_40
.LBB2_5:
	movb	$35, %dl
	jmp	.LBB2_40
.LBB2_6:
	movb	$34, %dl
	jmp	.LBB2_40
.LBB2_14:
	movb	$20, %dl
	jmp	.LBB2_40
.LBB2_13:
	movb	$15, %dl
	jmp	.LBB2_40
.LBB2_38:
	movb	$19, %dl
	jmp	.LBB2_40
.LBB2_25:
	movb	$16, %dl
	jmp	.LBB2_40
.LBB2_31:
	movb	$6, %dl
	jmp	.LBB2_40
.LBB2_16:
	movb	$27, %dl
	jmp	.LBB2_40
.LBB2_17:
	movb	$24, %dl
	jmp	.LBB2_40
.LBB2_35:
	movb	$2, %dl
	jmp	.LBB2_40
.LBB2_19:
	movb	$17, %dl
.LBB2_40:
	movb	$0, (%rbx)
	movb	%dl, 1(%rbx)
	movw	$0, 2(%rbx)
	movl	%ecx, 4(%rbx)
	xorps	%xmm0, %xmm0
	movups	%xmm0, 8(%rbx)
	movups	%xmm0, 24(%rbx)
	movups	%xmm0, 40(%rbx)
	movups	%xmm0, 56(%rbx)
	movups	%xmm0, 72(%rbx)
	popq	%rbx
	retq
.Lfunc_end2:
	.size	"std_io::io::error::last_error", .Lfunc_end2-"std_io::io::error::last_error"
	.section	".rodata.std_io::io::error::last_error","a",@progbits
	.p2align	2, 0x0
.LJTI2_0:
	.long	.LBB2_3-.LJTI2_0
	.long	.LBB2_4-.LJTI2_0
	.long	.LBB2_40-.LJTI2_0
	.long	.LBB2_5-.LJTI2_0
	.long	.LBB2_40-.LJTI2_0
	.long	.LBB2_40-.LJTI2_0
	.long	.LBB2_6-.LJTI2_0
	.long	.LBB2_40-.LJTI2_0
	.long	.LBB2_40-.LJTI2_0
	.long	.LBB2_40-.LJTI2_0
	.long	.LBB2_7-.LJTI2_0
	.long	.LBB2_8-.LJTI2_0
	.long	.LBB2_3-.LJTI2_0
	.long	.LBB2_40-.LJTI2_0
	.long	.LBB2_40-.LJTI2_0
	.long	.LBB2_9-.LJTI2_0
	.long	.LBB2_10-.LJTI2_0
	.long	.LBB2_11-.LJTI2_0
	.long	.LBB2_40-.LJTI2_0
	.long	.LBB2_12-.LJTI2_0
	.long	.LBB2_13-.LJTI2_0
	.long	.LBB2_14-.LJTI2_0
	.long	.LBB2_40-.LJTI2_0
	.long	.LBB2_40-.LJTI2_0
	.long	.LBB2_40-.LJTI2_0
	.long	.LBB2_15-.LJTI2_0
	.long	.LBB2_16-.LJTI2_0
	.long	.LBB2_17-.LJTI2_0
	.long	.LBB2_18-.LJTI2_0
	.long	.LBB2_19-.LJTI2_0
	.long	.LBB2_20-.LJTI2_0
	.long	.LBB2_21-.LJTI2_0
	.long	.LBB2_40-.LJTI2_0
	.long	.LBB2_40-.LJTI2_0
	.long	.LBB2_22-.LJTI2_0
	.long	.LBB2_23-.LJTI2_0
	.long	.LBB2_40-.LJTI2_0
	.long	.LBB2_24-.LJTI2_0
	.long	.LBB2_25-.LJTI2_0
	.long	.LBB2_26-.LJTI2_0
	.long	.LBB2_40-.LJTI2_0
	.long	.LBB2_40-.LJTI2_0
	.long	.LBB2_40-.LJTI2_0
	.long	.LBB2_40-.LJTI2_0
	.long	.LBB2_40-.LJTI2_0
	.long	.LBB2_40-.LJTI2_0
	.long	.LBB2_40-.LJTI2_0
	.long	.LBB2_40-.LJTI2_0
	.long	.LBB2_40-.LJTI2_0
	.long	.LBB2_40-.LJTI2_0
	.long	.LBB2_40-.LJTI2_0
	.long	.LBB2_40-.LJTI2_0
	.long	.LBB2_40-.LJTI2_0
	.long	.LBB2_40-.LJTI2_0
	.long	.LBB2_40-.LJTI2_0
	.long	.LBB2_40-.LJTI2_0
	.long	.LBB2_40-.LJTI2_0
	.long	.LBB2_40-.LJTI2_0
	.long	.LBB2_40-.LJTI2_0
	.long	.LBB2_40-.LJTI2_0
	.long	.LBB2_40-.LJTI2_0
	.long	.LBB2_40-.LJTI2_0
	.long	.LBB2_40-.LJTI2_0
	.long	.LBB2_40-.LJTI2_0
	.long	.LBB2_40-.LJTI2_0
	.long	.LBB2_40-.LJTI2_0
	.long	.LBB2_40-.LJTI2_0
	.long	.LBB2_40-.LJTI2_0
	.long	.LBB2_40-.LJTI2_0
	.long	.LBB2_40-.LJTI2_0
	.long	.LBB2_40-.LJTI2_0
	.long	.LBB2_40-.LJTI2_0
	.long	.LBB2_40-.LJTI2_0
	.long	.LBB2_40-.LJTI2_0
	.long	.LBB2_40-.LJTI2_0
	.long	.LBB2_40-.LJTI2_0
	.long	.LBB2_40-.LJTI2_0
	.long	.LBB2_40-.LJTI2_0
	.long	.LBB2_40-.LJTI2_0
	.long	.LBB2_40-.LJTI2_0
	.long	.LBB2_40-.LJTI2_0
	.long	.LBB2_40-.LJTI2_0
	.long	.LBB2_40-.LJTI2_0
	.long	.LBB2_40-.LJTI2_0
	.long	.LBB2_40-.LJTI2_0
	.long	.LBB2_40-.LJTI2_0
	.long	.LBB2_40-.LJTI2_0
	.long	.LBB2_40-.LJTI2_0
	.long	.LBB2_40-.LJTI2_0
	.long	.LBB2_40-.LJTI2_0
	.long	.LBB2_40-.LJTI2_0
	.long	.LBB2_40-.LJTI2_0
	.long	.LBB2_40-.LJTI2_0
	.long	.LBB2_40-.LJTI2_0
	.long	.LBB2_24-.LJTI2_0
	.long	.LBB2_40-.LJTI2_0
	.long	.LBB2_40-.LJTI2_0
	.long	.LBB2_27-.LJTI2_0
	.long	.LBB2_28-.LJTI2_0
	.long	.LBB2_29-.LJTI2_0
	.long	.LBB2_30-.LJTI2_0
	.long	.LBB2_40-.LJTI2_0
	.long	.LBB2_31-.LJTI2_0
	.long	.LBB2_32-.LJTI2_0
	.long	.LBB2_40-.LJTI2_0
	.long	.LBB2_40-.LJTI2_0
	.long	.LBB2_33-.LJTI2_0
	.long	.LBB2_40-.LJTI2_0
	.long	.LBB2_40-.LJTI2_0
	.long	.LBB2_34-.LJTI2_0
	.long	.LBB2_35-.LJTI2_0
	.long	.LBB2_40-.LJTI2_0
	.long	.LBB2_36-.LJTI2_0
	.long	.LBB2_40-.LJTI2_0
	.long	.LBB2_37-.LJTI2_0
	.long	.LBB2_38-.LJTI2_0
	.long	.LBB2_40-.LJTI2_0
	.long	.LBB2_40-.LJTI2_0
	.long	.LBB2_40-.LJTI2_0
	.long	.LBB2_40-.LJTI2_0
	.long	.LBB2_40-.LJTI2_0
	.long	.LBB2_39-.LJTI2_0

	.section	.rodata.cst16,"aM",@progbits,16
	.p2align	4, 0x0
.LCPI3_0:
	.zero	16,10
	.section	.text.main,"ax",@progbits
	.globl	main
	.p2align	4
	.type	main,@function
main:
	pushq	%rbp
	pushq	%r15
	pushq	%r14
	pushq	%r13
	pushq	%r12
	pushq	%rbx
	movq	%rsp, %r11
	subq	$196608, %r11
.LBB3_1:
	subq	$3072, %rsp
	movq	$0, (%rsp)
	cmpq	%r11, %rsp
	jne	.LBB3_1
	subq	$1160, %rsp
	movl	$1, %esi
	movl	$13, %edi
	callq	__sysv_signal@PLT
	leaq	129(%rsp), %rdi
	xorl	%ebp, %ebp
	movl	$1031, %edx
	xorl	%esi, %esi
	callq	memset@PLT
	leaq	132232(%rsp), %rdi
	movl	$65536, %edx
	xorl	%esi, %esi
	callq	memset@PLT
	leaq	1160(%rsp), %rdi
	movl	$131072, %edx
	xorl	%esi, %esi
	callq	memset@PLT
	movb	$1, 7(%rsp)
	xorl	%eax, %eax
	xorl	%r15d, %r15d
	xorl	%ebx, %ebx
	xorl	%r14d, %r14d
	jmp	.LBB3_3
	.p2align	4
.LBB3_32:
	movzbl	7(%rsp), %edx
	leaq	32(%rsp), %rdi
	leaq	1160(%rsp), %rcx
	movq	24(%rsp), %rsi
	movq	%r15, %r8
	callq	"line_io::send::<#df9e9f1468b30f79>"
	cmpb	$0, 32(%rsp)
	jne	.LBB3_42
	movq	40(%rsp), %r15
	movzbl	48(%rsp), %eax
	movb	%al, 7(%rsp)
	movq	16(%rsp), %rax
	incq	%rax
	cmpq	$-1, %rax
	je	.LBB3_14
.LBB3_3:
	movq	%rax, 16(%rsp)
	cmpq	%rbp, %rbx
	jae	.LBB3_34
	movq	%r15, 24(%rsp)
	pxor	%xmm0, %xmm0
	movdqa	%xmm0, 32(%rsp)
	movq	$0, 48(%rsp)
	xorl	%r15d, %r15d
	movq	%rbp, 8(%rsp)
	jmp	.LBB3_5
	.p2align	4
.LBB3_26:
	movl	$1031, %ebp
	subq	%r14, %rbp
	cmpq	%r13, %rbp
	cmovaeq	%r13, %rbp
	leaq	(%rsp,%r14), %rdi
	addq	$129, %rdi
	movq	%r12, %rsi
	movq	%rbp, %rdx
	callq	memcpy@PLT
	addq	%rbp, %r14
	addq	%r13, %rbx
	movq	8(%rsp), %rbp
	cmpq	%rbp, %rbx
	jae	.LBB3_32
.LBB3_5:
	leaq	-63475(%r15), %rax
	cmpq	$67598, %rax
	jb	.LBB3_32
	leaq	(%rsp,%rbx), %r12
	addq	$132232, %r12
	subq	%rbx, %rbp
	xorl	%eax, %eax
	cmpq	$32, %rbp
	jb	.LBB3_10
	movq	%rbp, %rcx
	.p2align	4
.LBB3_8:
	movdqu	(%r12,%rax), %xmm0
	movdqu	16(%r12,%rax), %xmm1
	movdqa	.LCPI3_0(%rip), %xmm2
	pcmpeqb	%xmm2, %xmm1
	pcmpeqb	%xmm2, %xmm0
	por	%xmm1, %xmm0
	pmovmskb	%xmm0, %edx
	testl	%edx, %edx
	jne	.LBB3_10
	addq	$32, %rax
	addq	$-32, %rcx
	cmpq	$31, %rcx
	ja	.LBB3_8
.LBB3_10:
	movq	%rbp, %r13
	cmpq	%rbp, %rax
	jae	.LBB3_17
	.p2align	4
.LBB3_11:
	cmpb	$10, (%r12,%rax)
	je	.LBB3_12
	incq	%rax
	cmpq	%rax, %rbp
	jne	.LBB3_11
	movq	%rbp, %r13
.LBB3_17:
	cmpq	$1031, %r14
	jb	.LBB3_18
.LBB3_22:
	testq	%r13, %r13
	je	.LBB3_24
.LBB3_23:
	leaq	(%rsp,%r15), %rdi
	addq	$1160, %rdi
	movq	%r12, %rsi
	movq	%r13, %rdx
	callq	memcpy@PLT
.LBB3_24:
	addq	%r13, %r15
	jmp	.LBB3_25
	.p2align	4
.LBB3_12:
	movq	%rax, %r13
	cmpq	$1031, %r14
	jae	.LBB3_22
.LBB3_18:
	leaq	(%r14,%r13), %rax
	cmpq	$1031, %rax
	jae	.LBB3_19
.LBB3_25:
	cmpq	%r13, %rbp
	jbe	.LBB3_26
	testq	%r14, %r14
	je	.LBB3_28
	movl	$1031, %ebp
	subq	%r14, %rbp
	cmpq	%r13, %rbp
	cmovaeq	%r13, %rbp
	leaq	(%rsp,%r14), %rdi
	addq	$129, %rdi
	movq	%r12, %rsi
	movq	%rbp, %rdx
	callq	memcpy@PLT
	addq	%r14, %rbp
	leaq	129(%rsp), %rdi
	leaq	1160(%rsp), %rdx
	movq	%rbp, %rsi
	jmp	.LBB3_30
	.p2align	4
.LBB3_19:
	testq	%r14, %r14
	je	.LBB3_21
	leaq	(%rsp,%r15), %rdi
	addq	$1160, %rdi
	leaq	129(%rsp), %rsi
	movq	%r14, %rdx
	callq	memcpy@PLT
.LBB3_21:
	addq	%r14, %r15
	testq	%r13, %r13
	jne	.LBB3_23
	jmp	.LBB3_24
.LBB3_28:
	cmpq	$1031, %r13
	movl	$1031, %esi
	cmovbq	%r13, %rsi
	leaq	1160(%rsp), %rdx
	movq	%r12, %rdi
.LBB3_30:
	movq	%r15, %rcx
	callq	"line_convert::end_line"
	movq	%rax, %r15
	movb	$10, 1160(%rsp,%rax)
	movq	8(%rsp), %rbp
	incq	%r15
	addq	%r13, %rbx
	incq	%rbx
	xorl	%r14d, %r14d
	cmpq	%rbp, %rbx
	jb	.LBB3_5
	jmp	.LBB3_32
	.p2align	4
.LBB3_34:
	leaq	132232(%rsp), %rsi
	movl	$65536, %edx
	xorl	%edi, %edi
	callq	read@PLT
	testq	%rax, %rax
	js	.LBB3_35
	je	.LBB3_38
	cmpq	$65536, %rax
	movl	$65536, %ebp
	cmovbq	%rax, %rbp
	xorl	%ebx, %ebx
	movq	16(%rsp), %rax
	incq	%rax
	cmpq	$-1, %rax
	jne	.LBB3_3
.LBB3_14:
	movl	$1, %eax
	jmp	.LBB3_43
.LBB3_35:
	leaq	32(%rsp), %rdi
	callq	"std_io::io::error::last_error"
	movl	$1, %eax
	jmp	.LBB3_43
.LBB3_38:
	pxor	%xmm0, %xmm0
	movdqa	%xmm0, 32(%rsp)
	movq	$0, 48(%rsp)
	testq	%r14, %r14
	je	.LBB3_39
	leaq	129(%rsp), %rdi
	leaq	1160(%rsp), %rdx
	movq	%r14, %rsi
	xorl	%ecx, %ecx
	callq	"line_convert::end_line"
	movq	%rax, %r8
	jmp	.LBB3_41
.LBB3_39:
	xorl	%r8d, %r8d
.LBB3_41:
	movzbl	7(%rsp), %edx
	leaq	32(%rsp), %rdi
	leaq	1160(%rsp), %rcx
	movq	%r15, %rsi
	callq	"line_io::send::<#df9e9f1468b30f79>"
	cmpb	$0, 32(%rsp)
	movl	$0, %eax
	je	.LBB3_43
.LBB3_42:
	movzbl	33(%rsp), %eax
	cmpb	$1, %al
	movl	$2, %eax
	sbbl	$0, %eax
.LBB3_43:
	addq	$197768, %rsp
	popq	%rbx
	popq	%r12
	popq	%r13
	popq	%r14
	popq	%r15
	popq	%rbp
	retq
.Lfunc_end3:
	.size	main, .Lfunc_end3-main

	.ident	"rattle logic=dac8208d650f15bf3e2dc313a14fa4c783a3acf887bdfab66e1714b038d9e11b"
	.section	".note.GNU-stack","",@progbits
