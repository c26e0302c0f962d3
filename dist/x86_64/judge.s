/* Undrwyth, the program judge for x86_64 under Linux: made by scripts/dist from the sources of state 6ebe34014c5cbdcaab53ada40270abd81a24510c61112a54dce22a0a74dc2a61, which the Rattle kit proved; do not edit. SPDX-License-Identifier: MIT */
	.file	"rattle"
	.section	.rodata.cst16,"aM",@progbits,16
	.p2align	4, 0x0
.LCPI0_0:
	.zero	16,1
.LCPI0_1:
	.zero	16,208
.LCPI0_2:
	.zero	16,9
.LCPI0_3:
	.zero	16,159
.LCPI0_4:
	.zero	16,5
.LCPI0_5:
	.zero	2
	.short	65535
	.short	65535
	.short	65535
	.short	65535
	.short	65535
	.short	65535
	.short	65535
.LCPI0_6:
	.byte	208
	.byte	208
	.byte	208
	.byte	208
	.byte	208
	.byte	208
	.byte	208
	.byte	208
	.zero	1
	.zero	1
	.zero	1
	.zero	1
	.zero	1
	.zero	1
	.zero	1
	.zero	1
.LCPI0_7:
	.byte	10
	.byte	10
	.byte	10
	.byte	10
	.byte	10
	.byte	10
	.byte	10
	.byte	10
	.zero	1
	.zero	1
	.zero	1
	.zero	1
	.zero	1
	.zero	1
	.zero	1
	.zero	1
.LCPI0_8:
	.byte	159
	.byte	159
	.byte	159
	.byte	159
	.byte	159
	.byte	159
	.byte	159
	.byte	159
	.zero	1
	.zero	1
	.zero	1
	.zero	1
	.zero	1
	.zero	1
	.zero	1
	.zero	1
.LCPI0_9:
	.byte	6
	.byte	6
	.byte	6
	.byte	6
	.byte	6
	.byte	6
	.byte	6
	.byte	6
	.zero	1
	.zero	1
	.zero	1
	.zero	1
	.zero	1
	.zero	1
	.zero	1
	.zero	1
.LCPI0_10:
	.zero	16,57
.LCPI0_11:
	.zero	16,169
.LCPI0_12:
	.byte	58
	.byte	58
	.byte	58
	.byte	58
	.byte	58
	.byte	58
	.byte	58
	.byte	58
	.zero	1
	.zero	1
	.zero	1
	.zero	1
	.zero	1
	.zero	1
	.zero	1
	.zero	1
.LCPI0_13:
	.byte	169
	.byte	169
	.byte	169
	.byte	169
	.byte	169
	.byte	169
	.byte	169
	.byte	169
	.zero	1
	.zero	1
	.zero	1
	.zero	1
	.zero	1
	.zero	1
	.zero	1
	.zero	1
.LCPI0_14:
	.long	1
	.long	0
	.long	4294967295
	.long	0
.LCPI0_15:
	.byte	15
	.byte	15
	.byte	15
	.byte	15
	.zero	1
	.zero	1
	.zero	1
	.zero	1
	.zero	1
	.zero	1
	.zero	1
	.zero	1
	.zero	1
	.zero	1
	.zero	1
	.zero	1
.LCPI0_16:
	.byte	9
	.byte	9
	.byte	9
	.byte	9
	.zero	1
	.zero	1
	.zero	1
	.zero	1
	.zero	1
	.zero	1
	.zero	1
	.zero	1
	.zero	1
	.zero	1
	.zero	1
	.zero	1
.LCPI0_17:
	.byte	48
	.byte	48
	.byte	48
	.byte	48
	.zero	1
	.zero	1
	.zero	1
	.zero	1
	.zero	1
	.zero	1
	.zero	1
	.zero	1
	.zero	1
	.zero	1
	.zero	1
	.zero	1
.LCPI0_18:
	.byte	87
	.byte	87
	.byte	87
	.byte	87
	.zero	1
	.zero	1
	.zero	1
	.zero	1
	.zero	1
	.zero	1
	.zero	1
	.zero	1
	.zero	1
	.zero	1
	.zero	1
	.zero	1
.LCPI0_19:
	.byte	15
	.byte	15
	.byte	15
	.byte	255
	.byte	15
	.byte	15
	.byte	15
	.byte	255
	.zero	1
	.zero	1
	.zero	1
	.zero	1
	.zero	1
	.zero	1
	.zero	1
	.zero	1
.LCPI0_20:
	.byte	15
	.byte	15
	.byte	15
	.zero	1
	.byte	15
	.byte	15
	.byte	15
	.zero	1
	.zero	1
	.zero	1
	.zero	1
	.zero	1
	.zero	1
	.zero	1
	.zero	1
	.zero	1
.LCPI0_21:
	.byte	255
	.byte	255
	.byte	255
	.byte	0
	.byte	255
	.byte	255
	.byte	255
	.byte	0
	.byte	255
	.byte	255
	.byte	255
	.byte	255
	.byte	255
	.byte	255
	.byte	255
	.byte	255
.LCPI0_22:
	.byte	10
	.byte	10
	.byte	10
	.byte	160
	.byte	10
	.byte	10
	.byte	10
	.byte	160
	.zero	1
	.zero	1
	.zero	1
	.zero	1
	.zero	1
	.zero	1
	.zero	1
	.zero	1
.LCPI0_23:
	.byte	48
	.byte	48
	.byte	48
	.byte	48
	.byte	48
	.byte	48
	.byte	48
	.byte	48
	.zero	1
	.zero	1
	.zero	1
	.zero	1
	.zero	1
	.zero	1
	.zero	1
	.zero	1
.LCPI0_24:
	.byte	87
	.byte	87
	.byte	87
	.byte	87
	.byte	87
	.byte	87
	.byte	87
	.byte	87
	.zero	1
	.zero	1
	.zero	1
	.zero	1
	.zero	1
	.zero	1
	.zero	1
	.zero	1
.LCPI0_25:
	.short	255
	.short	0
	.short	255
	.short	0
	.short	255
	.short	0
	.short	255
	.short	0
.LCPI0_26:
	.byte	10
	.byte	10
	.byte	10
	.byte	10
	.zero	1
	.zero	1
	.zero	1
	.zero	1
	.zero	1
	.zero	1
	.zero	1
	.zero	1
	.zero	1
	.zero	1
	.zero	1
	.zero	1
.LCPI0_27:
	.zero	16,15
.LCPI0_28:
	.byte	160
	.byte	160
	.byte	160
	.byte	160
	.zero	1
	.zero	1
	.zero	1
	.zero	1
	.zero	1
	.zero	1
	.zero	1
	.zero	1
	.zero	1
	.zero	1
	.zero	1
	.zero	1
.LCPI0_29:
	.short	65535
	.short	0
	.short	65535
	.short	0
	.short	65535
	.short	0
	.short	65535
	.short	0
.LCPI0_30:
	.byte	255
	.byte	255
	.byte	255
	.byte	255
	.byte	255
	.byte	255
	.byte	255
	.byte	0
	.byte	255
	.byte	255
	.byte	255
	.byte	255
	.byte	255
	.byte	255
	.byte	255
	.byte	255
.LCPI0_31:
	.byte	15
	.byte	15
	.byte	15
	.byte	15
	.byte	15
	.byte	15
	.byte	15
	.byte	255
	.zero	1
	.zero	1
	.zero	1
	.zero	1
	.zero	1
	.zero	1
	.zero	1
	.zero	1
.LCPI0_32:
	.byte	15
	.byte	15
	.byte	15
	.byte	15
	.byte	15
	.byte	15
	.byte	15
	.zero	1
	.zero	1
	.zero	1
	.zero	1
	.zero	1
	.zero	1
	.zero	1
	.zero	1
	.zero	1
.LCPI0_33:
	.byte	10
	.byte	10
	.byte	10
	.byte	10
	.byte	10
	.byte	10
	.byte	10
	.byte	160
	.zero	1
	.zero	1
	.zero	1
	.zero	1
	.zero	1
	.zero	1
	.zero	1
	.zero	1
.LCPI0_34:
	.byte	10
	.byte	10
	.byte	10
	.byte	10
	.byte	10
	.byte	10
	.byte	10
	.byte	160
	.byte	0
	.byte	0
	.byte	0
	.byte	0
	.byte	0
	.byte	0
	.byte	0
	.byte	0
.LCPI0_35:
	.byte	15
	.byte	15
	.byte	15
	.byte	255
	.byte	15
	.byte	15
	.byte	15
	.byte	255
	.byte	0
	.byte	0
	.byte	0
	.byte	0
	.byte	0
	.byte	0
	.byte	0
	.byte	0
.LCPI0_36:
	.byte	10
	.byte	10
	.byte	10
	.byte	160
	.byte	10
	.byte	10
	.byte	10
	.byte	160
	.byte	0
	.byte	0
	.byte	0
	.byte	0
	.byte	0
	.byte	0
	.byte	0
	.byte	0
	.section	".text.lines::tell","ax",@progbits
	.p2align	4
	.type	"lines::tell",@function
"lines::tell":
	pushq	%rbp
	pushq	%r15
	pushq	%r14
	pushq	%r13
	pushq	%r12
	pushq	%rbx
	subq	$3072, %rsp
	movq	$0, (%rsp)
	subq	$3072, %rsp
	movq	$0, (%rsp)
	subq	$3072, %rsp
	movq	$0, (%rsp)
	subq	$232, %rsp
	movq	%r8, 104(%rsp)
	movq	%rcx, %r14
	movq	%rdx, %r15
	movq	%rsi, %rbp
	movq	%rdi, %r12
	leaq	-1031(%rsi), %rbx
	leaq	224(%rsp), %rdi
	xorl	%r13d, %r13d
	movl	$1024, %edx
	xorl	%esi, %esi
	callq	memset@PLT
	movb	$9, %al
	cmpq	$-1025, %rbx
	jb	.LBB0_20
	cmpq	$8, %rbp
	jae	.LBB0_3
	movb	$1, %dl
	xorl	%ecx, %ecx
	jmp	.LBB0_12
.LBB0_3:
	cmpq	$32, %rbp
	jae	.LBB0_5
	movb	$1, %dl
	xorl	%ecx, %ecx
	jmp	.LBB0_9
.LBB0_5:
	movl	%ebp, %ecx
	andl	$2016, %ecx
	movdqa	.LCPI0_0(%rip), %xmm0
	xorl	%edx, %edx
	movdqa	%xmm0, %xmm1
	.p2align	4
.LBB0_6:
	movdqu	(%r12,%rdx), %xmm2
	movdqu	16(%r12,%rdx), %xmm3
	movdqa	.LCPI0_1(%rip), %xmm4
	movdqa	%xmm2, %xmm5
	paddb	%xmm4, %xmm5
	paddb	%xmm3, %xmm4
	movdqa	.LCPI0_2(%rip), %xmm6
	movdqa	%xmm5, %xmm7
	pminub	%xmm6, %xmm7
	pcmpeqb	%xmm5, %xmm7
	pminub	%xmm4, %xmm6
	pcmpeqb	%xmm4, %xmm6
	movdqa	.LCPI0_3(%rip), %xmm4
	paddb	%xmm4, %xmm2
	paddb	%xmm4, %xmm3
	movdqa	.LCPI0_4(%rip), %xmm4
	movdqa	%xmm2, %xmm5
	pminub	%xmm4, %xmm5
	pcmpeqb	%xmm2, %xmm5
	por	%xmm7, %xmm5
	pand	%xmm5, %xmm1
	pminub	%xmm3, %xmm4
	pcmpeqb	%xmm3, %xmm4
	por	%xmm6, %xmm4
	pand	%xmm4, %xmm0
	addq	$32, %rdx
	cmpq	%rdx, %rcx
	jne	.LBB0_6
	pand	%xmm1, %xmm0
	psllw	$7, %xmm0
	pmovmskb	%xmm0, %edx
	cmpl	$65535, %edx
	sete	%dl
	cmpq	%rcx, %rbp
	je	.LBB0_14
	testb	$24, %bpl
	je	.LBB0_12
.LBB0_9:
	movq	%rcx, %rsi
	movl	%ebp, %ecx
	andl	$2040, %ecx
	movzbl	%dl, %edx
	movdqa	.LCPI0_5(%rip), %xmm0
	pinsrw	$0, %edx, %xmm0
	.p2align	4
.LBB0_10:
	movq	(%r12,%rsi), %xmm1
	movdqa	.LCPI0_6(%rip), %xmm2
	paddb	%xmm1, %xmm2
	movdqa	.LCPI0_7(%rip), %xmm3
	pmaxub	%xmm2, %xmm3
	pcmpeqb	%xmm2, %xmm3
	pcmpeqd	%xmm2, %xmm2
	pxor	%xmm2, %xmm3
	paddb	.LCPI0_8(%rip), %xmm1
	movdqa	.LCPI0_9(%rip), %xmm4
	pmaxub	%xmm1, %xmm4
	pcmpeqb	%xmm1, %xmm4
	pxor	%xmm2, %xmm4
	por	%xmm3, %xmm4
	punpcklbw	%xmm4, %xmm4
	pand	%xmm4, %xmm0
	addq	$8, %rsi
	cmpq	%rsi, %rcx
	jne	.LBB0_10
	psllw	$7, %xmm0
	pmovmskb	%xmm0, %edx
	notl	%edx
	testl	$21845, %edx
	sete	%dl
	jmp	.LBB0_13
.LBB0_12:
	movzbl	(%r12,%rcx), %esi
	leal	-48(%rsi), %edi
	cmpb	$10, %dil
	setb	%dil
	addb	$-97, %sil
	cmpb	$6, %sil
	setb	%sil
	orb	%dil, %sil
	andb	%sil, %dl
	incq	%rcx
.LBB0_13:
	cmpq	%rcx, %rbp
	jne	.LBB0_12
.LBB0_14:
	testb	%dl, %dl
	je	.LBB0_19
	movzbl	(%r12), %ecx
	movzbl	1(%r12), %edi
	cmpb	$58, %cl
	movl	$208, %edx
	movl	$169, %r8d
	cmovbl	%edx, %r8d
	movl	$169, %esi
	addb	%cl, %r8b
	movzbl	%r8b, %r8d
	shll	$4, %r8d
	cmpb	$58, %dil
	movl	$169, %ecx
	cmovbl	%edx, %ecx
	addb	%dil, %cl
	movzbl	%cl, %edi
	addl	%r8d, %edi
	cmpl	$1, %edi
	ja	.LBB0_19
	movzbl	2(%r12), %edi
	cmpb	$58, %dil
	movl	$169, %r8d
	cmovbl	%edx, %r8d
	movzbl	3(%r12), %r9d
	addb	%dil, %r8b
	cmpb	$58, %r9b
	movl	$169, %edi
	cmovbl	%edx, %edi
	addb	%r9b, %dil
	movzbl	%r8b, %r8d
	shll	$12, %r8d
	movzbl	%dil, %ebx
	shll	$8, %ebx
	movzbl	4(%r12), %edi
	cmpb	$58, %dil
	movl	$169, %r9d
	cmovbl	%edx, %r9d
	addb	%dil, %r9b
	movzbl	%r9b, %r13d
	shll	$4, %r13d
	movzbl	5(%r12), %edi
	cmpb	$58, %dil
	cmovbl	%edx, %esi
	addb	%dil, %sil
	movzbl	%sil, %edx
	addq	%r8, %rbx
	leaq	(%rbx,%rdx), %r8
	addq	%r13, %r8
	addq	$-6, %rbp
	cmpq	%r8, %rbp
	jne	.LBB0_19
	testb	%cl, %cl
	je	.LBB0_22
	movb	$19, %al
.LBB0_19:
	xorl	%r13d, %r13d
.LBB0_20:
	movq	104(%rsp), %r10
	movl	%eax, %ecx
	shrb	$4, %cl
	orb	$56, %cl
	movb	%cl, (%r14,%r10)
	movl	%r13d, %ecx
	shrl	$8, %ecx
	movl	%r13d, %esi
	shrl	$16, %esi
	movq	%r13, %rdx
	shrq	$28, %rdx
	movl	%r13d, %edi
	andb	$15, %dil
	leal	48(%rdi), %r8d
	leal	87(%rdi), %r9d
	cmpb	$10, %dil
	movzbl	%r8b, %edi
	movzbl	%r9b, %r8d
	cmovbl	%edi, %r8d
	movb	%r8b, 9(%r14,%r10)
	movl	%r13d, %edi
	shrl	$4, %edi
	andl	$65280, %edi
	movzbl	%sil, %esi
	orl	%edi, %esi
	movzbl	%al, %eax
	movzbl	%dl, %edx
	shll	$8, %edx
	orl	%eax, %edx
	movl	%ecx, %eax
	andl	$16711680, %eax
	orl	%edx, %eax
	movd	%r13d, %xmm1
	shll	$4, %r13d
	andl	$-16777216, %r13d
	orl	%eax, %r13d
	movd	%r13d, %xmm2
	pinsrw	$2, %esi, %xmm2
	pinsrw	$3, %ecx, %xmm2
	movdqa	.LCPI0_30(%rip), %xmm0
	pand	%xmm0, %xmm2
	psllq	$56, %xmm1
	movdqa	%xmm0, %xmm3
	pandn	%xmm1, %xmm3
	por	%xmm2, %xmm3
	pand	.LCPI0_31(%rip), %xmm3
	pand	.LCPI0_32(%rip), %xmm2
	psrlw	$4, %xmm1
	pandn	%xmm1, %xmm0
	por	%xmm2, %xmm0
	movq	.LCPI0_34(%rip), %xmm1
	pmaxub	%xmm3, %xmm1
	pcmpeqb	%xmm3, %xmm1
	movdqa	.LCPI0_23(%rip), %xmm2
	por	%xmm0, %xmm2
	paddb	.LCPI0_24(%rip), %xmm0
	pand	%xmm1, %xmm0
	pandn	%xmm2, %xmm1
	por	%xmm0, %xmm1
	movq	%xmm1, 1(%r14,%r10)
	addq	$10, %r10
	movq	%r10, %rax
.LBB0_21:
	movb	$10, (%r14,%rax)
	incq	%rax
	addq	$9448, %rsp
	popq	%rbx
	popq	%r12
	popq	%r13
	popq	%r14
	popq	%r15
	popq	%rbp
	retq
.LBB0_22:
	movq	%rdx, %rbp
	leaq	1248(%rsp), %rdi
	movl	$1024, %edx
	xorl	%esi, %esi
	movq	%r8, 160(%rsp)
	callq	memset@PLT
	movq	160(%rsp), %r9
	testq	%r9, %r9
	je	.LBB0_59
	cmpl	$8, %r9d
	jae	.LBB0_25
	xorl	%eax, %eax
	movq	%rbp, %r10
	jmp	.LBB0_34
.LBB0_25:
	cmpl	$32, %r9d
	movq	%rbp, %r10
	jae	.LBB0_27
	xorl	%eax, %eax
	jmp	.LBB0_31
.LBB0_27:
	movl	%r9d, %eax
	andl	$-32, %eax
	xorl	%ecx, %ecx
.LBB0_28:
	movdqu	6(%r12,%rcx), %xmm0
	movdqu	22(%r12,%rcx), %xmm1
	movdqa	.LCPI0_10(%rip), %xmm2
	movdqa	%xmm0, %xmm3
	pminub	%xmm2, %xmm3
	pcmpeqb	%xmm0, %xmm3
	pminub	%xmm1, %xmm2
	pcmpeqb	%xmm1, %xmm2
	movdqa	.LCPI0_11(%rip), %xmm4
	movdqa	%xmm3, %xmm5
	pandn	%xmm4, %xmm5
	movdqa	.LCPI0_1(%rip), %xmm6
	pand	%xmm6, %xmm3
	por	%xmm5, %xmm3
	movdqa	%xmm2, %xmm5
	pandn	%xmm4, %xmm5
	pand	%xmm6, %xmm2
	por	%xmm5, %xmm2
	paddb	%xmm0, %xmm3
	paddb	%xmm1, %xmm2
	movdqu	%xmm3, 1248(%rsp,%rcx)
	movdqu	%xmm2, 1264(%rsp,%rcx)
	addq	$32, %rcx
	cmpq	%rcx, %rax
	jne	.LBB0_28
	cmpl	%eax, %r9d
	je	.LBB0_38
	testb	$24, %r9b
	je	.LBB0_34
.LBB0_31:
	movl	%r10d, %ecx
	andl	$7, %ecx
	leaq	(%r10,%r13), %rdx
	addq	%rbx, %rdx
	subq	%rax, %rdx
	leaq	(%rsp,%rax), %rsi
	addq	$1248, %rsi
	leaq	(%rax,%r12), %rdi
	addq	$6, %rdi
	movq	%r9, %rax
	subq	%rcx, %rax
	subq	%rcx, %rdx
	xorl	%r8d, %r8d
.LBB0_32:
	movq	(%rdi,%r8), %xmm0
	movdqa	.LCPI0_12(%rip), %xmm1
	pmaxub	%xmm0, %xmm1
	pcmpeqb	%xmm0, %xmm1
	movdqa	.LCPI0_13(%rip), %xmm2
	pand	%xmm1, %xmm2
	pandn	.LCPI0_6(%rip), %xmm1
	por	%xmm2, %xmm1
	paddb	%xmm0, %xmm1
	movq	%xmm1, (%rsi,%r8)
	addq	$8, %r8
	cmpq	%r8, %rdx
	jne	.LBB0_32
	testq	%rcx, %rcx
	je	.LBB0_38
.LBB0_34:
	leaq	(%r10,%r13), %rcx
	addq	%rbx, %rcx
	subq	%rax, %rcx
	leaq	(%rsp,%rax), %rdx
	addq	$1248, %rdx
	addq	%r12, %rax
	addq	$6, %rax
	xorl	%esi, %esi
	jmp	.LBB0_36
	.p2align	4
.LBB0_35:
	addb	%dil, %r8b
	movb	%r8b, (%rdx,%rsi)
	incq	%rsi
	cmpq	%rsi, %rcx
	je	.LBB0_38
.LBB0_36:
	movzbl	(%rax,%rsi), %edi
	movl	$208, %r8d
	cmpb	$58, %dil
	jb	.LBB0_35
	movl	$169, %r8d
	jmp	.LBB0_35
.LBB0_38:
	cmpl	$4, %r9d
	jae	.LBB0_40
	xorl	%ecx, %ecx
	xorl	%eax, %eax
	jmp	.LBB0_49
.LBB0_40:
	cmpl	$32, %r9d
	jae	.LBB0_42
	xorl	%eax, %eax
	xorl	%ecx, %ecx
	jmp	.LBB0_46
.LBB0_42:
	movl	%r9d, %eax
	andl	$-32, %eax
	pxor	%xmm0, %xmm0
	xorl	%ecx, %ecx
	pxor	%xmm1, %xmm1
.LBB0_43:
	movdqu	1248(%rsp,%rcx), %xmm2
	pmaxub	%xmm2, %xmm0
	movdqu	1264(%rsp,%rcx), %xmm2
	pmaxub	%xmm2, %xmm1
	addq	$32, %rcx
	cmpq	%rcx, %rax
	jne	.LBB0_43
	pmaxub	%xmm1, %xmm0
	pshufd	$238, %xmm0, %xmm1
	pmaxub	%xmm0, %xmm1
	pshufd	$85, %xmm1, %xmm0
	pmaxub	%xmm1, %xmm0
	movdqa	%xmm0, %xmm1
	psrld	$16, %xmm1
	pmaxub	%xmm0, %xmm1
	movdqa	%xmm1, %xmm0
	psrlw	$8, %xmm0
	pmaxub	%xmm1, %xmm0
	movd	%xmm0, %ecx
	cmpl	%eax, %r9d
	je	.LBB0_51
	testb	$28, %r9b
	je	.LBB0_49
.LBB0_46:
	movl	%r10d, %edx
	andl	$3, %edx
	leaq	(%r10,%r13), %rsi
	addq	%rbx, %rsi
	subq	%rax, %rsi
	leaq	(%rsp,%rax), %rdi
	addq	$1248, %rdi
	movq	%r9, %rax
	subq	%rdx, %rax
	movzbl	%cl, %ecx
	movd	%ecx, %xmm0
	punpcklbw	%xmm0, %xmm0
	pshuflw	$0, %xmm0, %xmm0
	subq	%rdx, %rsi
	xorl	%ecx, %ecx
.LBB0_47:
	movd	(%rdi,%rcx), %xmm1
	pmaxub	%xmm1, %xmm0
	addq	$4, %rcx
	cmpq	%rcx, %rsi
	jne	.LBB0_47
	movdqa	%xmm0, %xmm1
	psrld	$16, %xmm1
	pmaxub	%xmm0, %xmm1
	movdqa	%xmm1, %xmm0
	psrlw	$8, %xmm0
	pmaxub	%xmm1, %xmm0
	movd	%xmm0, %ecx
	testq	%rdx, %rdx
	je	.LBB0_51
.LBB0_49:
	addq	%r10, %r13
	addq	%r13, %rbx
	subq	%rax, %rbx
	addq	%rsp, %rax
	addq	$1248, %rax
	xorl	%edx, %edx
	.p2align	4
.LBB0_50:
	movzbl	(%rax,%rdx), %esi
	movzbl	%cl, %ecx
	cmpb	%cl, %sil
	cmoval	%esi, %ecx
	incq	%rdx
	cmpq	%rdx, %rbx
	jne	.LBB0_50
.LBB0_51:
	cmpb	$4, %cl
	jb	.LBB0_59
	xorl	%r13d, %r13d
	xorl	%eax, %eax
	jmp	.LBB0_55
.LBB0_53:
	movq	$-1, %rcx
	testq	%rax, %rax
	je	.LBB0_159
.LBB0_54:
	addq	%rcx, %rax
	incq	%r13
	cmpq	%r13, %r9
	je	.LBB0_59
.LBB0_55:
	movzbl	1248(%rsp,%r13), %ecx
	cmpb	$4, %cl
	je	.LBB0_53
	jae	.LBB0_158
	movl	$1, %ecx
	cmpq	$16383, %rax
	jbe	.LBB0_54
	movb	$6, %al
	jmp	.LBB0_20
.LBB0_59:
	movl	72(%r15), %eax
	leal	1(%rax), %ecx
	movl	%ecx, 72(%r15)
	testl	%eax, %eax
	jne	.LBB0_61
	movl	$1, 80(%r15)
.LBB0_61:
	testq	%r9, %r9
	movq	%r14, 152(%rsp)
	je	.LBB0_133
	movl	$1, %eax
	movq	%rax, 144(%rsp)
	movl	$65535, %eax
	movq	%rax, 112(%rsp)
	xorl	%r13d, %r13d
	movq	%rax, 88(%rsp)
	movl	$1, %r11d
	xorl	%r14d, %r14d
	xorl	%r10d, %r10d
	xorl	%r12d, %r12d
	jmp	.LBB0_65
.LBB0_63:
	addl	%eax, %r8d
	movzbl	120(%rsp), %eax
	movb	%al, %r9b
	movq	96(%rsp), %r10
	subq	%r9, %r10
	movq	80(%rsp), %rsi
	shlq	$32, %rsi
	movl	%r10d, %r10d
	orq	%rsi, %r10
.LBB0_64:
	leaq	(,%r13,2), %rax
	addq	%r13, %rax
	movl	%r11d, 32000(%r15,%rax,4)
	movl	72(%r15,%rdi), %ecx
	movl	%ecx, 32004(%r15,%rax,4)
	movl	%r8d, 32008(%r15,%rax,4)
	incq	%r13
	movq	%rdx, %r12
	movq	160(%rsp), %rdx
	cmpq	%rdx, %r13
	je	.LBB0_135
.LBB0_65:
	movzbl	1248(%rsp,%r13), %r8d
	movq	%r10, %rax
	shrq	$32, %rax
	movq	%rax, 80(%rsp)
	cmpq	$4, %r8
	movq	%r10, 96(%rsp)
	movq	%r11, 136(%rsp)
	jne	.LBB0_70
	movq	%r14, %rdi
	movzbl	223(%rsp,%r14), %esi
	movl	%esi, %r10d
	andl	$3, %r10d
	movq	%r10, 120(%rsp)
	xorq	$2, %r10
	leaq	(%r12,%r12,4), %rax
	leaq	(%rax,%rax,4), %r14
	addq	%r10, %r14
	movl	40(%r15,%r14,4), %eax
	leaq	-1(%rax), %rdx
	imulq	$100, %rdx, %rcx
	movq	%rcx, 128(%rsp)
	movl	(%r15,%rcx), %r9d
	testl	%r9d, %r9d
	je	.LBB0_78
	leaq	10(%rsi), %rbx
	movl	$2, %ebp
	movq	%rdx, %r8
	movq	%r12, %rcx
	.p2align	4
.LBB0_68:
	movl	%r9d, %eax
	leaq	(%rax,%rax,4), %r9
	leaq	(%r9,%r9,4), %r9
	addq	%rsi, %r9
	cmpl	%edi, -44(%r15,%r9,4)
	jne	.LBB0_86
	decq	%rax
	leaq	(%rax,%rax,4), %r9
	leaq	(%r9,%r9,4), %r9
	addq	%rbx, %r9
	movl	(%r15,%r9,4), %r11d
	decq	%r11
	xorl	%r9d, %r9d
	cmpq	%rcx, %rax
	setne	%r9b
	xorl	%ecx, %ecx
	cmpq	%r8, %r11
	setne	%cl
	addl	%r9d, %ebp
	addl	%ecx, %ebp
	imulq	$100, %rax, %rcx
	movl	(%r15,%rcx), %r9d
	movq	%rax, %r8
	movq	%r11, %rcx
	testl	%r9d, %r9d
	jne	.LBB0_68
	jmp	.LBB0_87
.LBB0_70:
	movb	%r8b, 224(%rsp,%r14)
	incq	%r14
	leaq	10(%r8), %rax
	movq	%rax, 128(%rsp)
	leaq	(%r12,%r12,4), %rax
	leaq	(%rax,%rax,4), %rax
	movq	%rax, 208(%rsp)
	addq	%r8, %rax
	addq	$10, %rax
	movl	(%r15,%rax,4), %edx
	testq	%rdx, %rdx
	movq	%r14, 72(%rsp)
	movq	%r8, %rbx
	je	.LBB0_79
	decq	%rdx
.LBB0_72:
	imulq	$100, %rdx, %rbp
	movl	72(%r15,%rbp), %eax
	leal	1(%rax), %ecx
	movl	%ecx, 72(%r15,%rbp)
	testl	%eax, %eax
	movq	72(%rsp), %r14
	jne	.LBB0_74
	leal	1(%r14), %eax
	movl	%eax, 80(%r15,%rbp)
.LBB0_74:
	cmpb	$1, %r8b
	adcq	$0, %r10
	xorl	%ecx, %ecx
	cmpb	$1, %r8b
	sete	%cl
	movq	208(%rsp), %r12
	addq	%r8, %r12
	movl	84(%r15,%r12,4), %edi
	incl	%edi
	movl	%r8d, %eax
	andl	$3, %eax
	leaq	(%rdx,%rdx,4), %rsi
	leaq	(%rsi,%rsi,4), %rsi
	xorq	$2, %rax
	addq	%rsi, %rax
	xorl	%r9d, %r9d
	cmpb	$2, %r8b
	sete	120(%rsp)
	movq	80(%rsp), %rsi
	addq	%rcx, %rsi
	cmpb	$3, %r8b
	adcq	$-1, %rsi
	movq	%rsi, 80(%rsp)
	leaq	1(%rdx), %rcx
	movq	136(%rsp), %r11
	cmpq	%r11, %rcx
	cmovaq	%rcx, %r11
	movl	%edi, 84(%r15,%r12,4)
	movl	%edi, 84(%r15,%rax,4)
	cmpl	$1, 72(%r15,%rbp)
	movq	%r10, 96(%rsp)
	jne	.LBB0_76
	movq	%rbp, %rsi
	incq	144(%rsp)
	jmp	.LBB0_101
.LBB0_76:
	cmpq	$65535, 112(%rsp)
	jne	.LBB0_100
	movq	%rbp, %rsi
	movl	80(%r15,%rbp), %ecx
	decq	%rcx
	movq	%rcx, 88(%rsp)
	movq	%r14, 112(%rsp)
	jmp	.LBB0_101
.LBB0_78:
	movl	$2, %ebp
	movq	%r12, %r11
	jmp	.LBB0_88
.LBB0_79:
	xorl	%eax, %eax
	cmpb	$2, %r8b
	sete	%al
	cmpb	$1, %r8b
	sbbl	$0, %eax
	xorl	%ebp, %ebp
	cmpb	$1, %r8b
	sete	%bpl
	negl	%eax
	movq	%rax, 120(%rsp)
	cmpb	$3, %r8b
	adcl	$-1, %ebp
	xorl	%r11d, %r11d
	movq	80(%rsp), %rax
	movl	%r10d, %esi
	jmp	.LBB0_81
	.p2align	4
.LBB0_80:
	imulq	$100, %r12, %rax
	movl	(%r15,%rax), %r12d
	decq	%r12
	incq	%r11
	leaq	(%r12,%r12,4), %rax
	leaq	(%rax,%rax,4), %r9
	movq	128(%rsp), %rax
	addq	%r9, %rax
	cmpl	$0, (%r15,%rax,4)
	movl	%r8d, %eax
	movl	%edi, %esi
	jne	.LBB0_84
.LBB0_81:
	leal	(%rax,%rbp), %edx
	movl	%esi, %edi
	shrl	$31, %edi
	addl	%esi, %edi
	sarl	%edi
	movl	%eax, %r8d
	shrl	$31, %r8d
	addl	%eax, %r8d
	sarl	%r8d
	movl	%edx, %r9d
	shrl	$31, %r9d
	addl	%edx, %r9d
	sarl	%r9d
	cmpl	%r9d, %r8d
	jne	.LBB0_80
	movq	120(%rsp), %rcx
	leal	(%rsi,%rcx), %edx
	movl	%edx, %r9d
	shrl	$31, %r9d
	addl	%edx, %r9d
	sarl	%r9d
	cmpl	%r9d, %edi
	jne	.LBB0_80
	leaq	(%r12,%r12,4), %rdx
	leaq	(%rdx,%rdx,4), %r9
	movl	%esi, %edi
	movl	%eax, %r8d
.LBB0_84:
	leaq	(%r9,%rbx), %rax
	movl	40(%r15,%rax,4), %esi
	testq	%rsi, %rsi
	je	.LBB0_110
	decq	%rsi
	movq	%rbx, %r8
	jmp	.LBB0_119
.LBB0_86:
	movq	%rcx, %r11
	movq	%r8, %rax
.LBB0_87:
	incq	%rax
.LBB0_88:
	imulq	$100, %r11, %rcx
	xorl	%r11d, %r11d
	cmpl	%edi, 76(%r15,%rcx)
	jne	.LBB0_90
	movl	(%r15,%rcx), %ecx
	xorl	%r11d, %r11d
	cmpq	%rcx, %rax
	setne	%r11b
.LBB0_90:
	imulq	$100, %r12, %rax
	movl	72(%r15,%rax), %ecx
	movl	%ecx, 168(%rsp)
	leaq	(%rdx,%rdx,4), %rcx
	leaq	(%rcx,%rcx,4), %rcx
	addq	%rsi, %rcx
	movl	84(%r15,%rcx,4), %r8d
	decl	%r8d
	movl	%r8d, 84(%r15,%rcx,4)
	movl	%r8d, 84(%r15,%r14,4)
	decl	72(%r15,%rax)
	jne	.LBB0_92
	movl	$0, 80(%r15,%rax)
.LBB0_92:
	addl	%ebp, %r11d
	addq	$-25, %r10
	movq	%rdx, %rcx
	movq	%rdi, %r14
	.p2align	4
.LBB0_93:
	leaq	(%rcx,%rcx,4), %r8
	leaq	(%r8,%r8,4), %r8
	addq	%rsi, %r8
	cmpl	%r14d, 56(%r15,%r8,4)
	jne	.LBB0_95
	movl	40(%r15,%r8,4), %r9d
	movl	$0, 40(%r15,%r8,4)
	movl	$0, 56(%r15,%r8,4)
	leaq	(%r9,%r9,4), %r8
	leaq	(%r8,%r8,4), %r8
	addq	%r10, %r8
	movl	$0, 40(%r15,%r8,4)
	movl	$0, 56(%r15,%r8,4)
	imulq	$100, %rcx, %rcx
	movl	(%r15,%rcx), %r8d
	leaq	-1(%r8), %rcx
	testq	%r8, %r8
	jne	.LBB0_93
.LBB0_95:
	movl	%r11d, 72(%rsp)
	cmpl	%r14d, 76(%r15,%rax)
	jne	.LBB0_98
	movq	80(%rsp), %rax
	movl	%eax, %r10d
	movq	96(%rsp), %rax
	movl	%eax, %ebp
	movl	%r10d, %esi
	movq	136(%rsp), %rbx
	.p2align	4
.LBB0_97:
	imulq	$100, %r12, %r8
	movl	(%r15,%r8), %r14d
	leaq	-1(%r14), %r12
	movl	%ebp, %ecx
	andl	$1, %ecx
	cmpl	$-1, %ebp
	leaq	4(%rcx,%rcx,2), %rcx
	movl	$1, %r9d
	cmovneq	%rcx, %r9
	movl	%r10d, %ecx
	andl	$1, %ecx
	incq	%rcx
	xorl	%r11d, %r11d
	cmpl	$-1, %r10d
	cmovneq	%rcx, %r11
	addq	%r9, %r11
	leaq	(%r12,%r12,4), %rcx
	leaq	(%rcx,%rcx,4), %rcx
	addq	%r11, %rcx
	movl	$0, (%r15,%rcx,4)
	pxor	%xmm0, %xmm0
	movdqu	%xmm0, 80(%r15,%r8)
	movdqu	%xmm0, 64(%r15,%r8)
	movdqu	%xmm0, 48(%r15,%r8)
	movdqu	%xmm0, 32(%r15,%r8)
	movdqu	%xmm0, 16(%r15,%r8)
	movdqu	%xmm0, (%r15,%r8)
	movl	$0, 96(%r15,%r8)
	decq	%rbx
	shrl	$31, %eax
	addl	%ebp, %eax
	sarl	%eax
	shrl	$31, %esi
	addl	%r10d, %esi
	sarl	%esi
	imulq	$100, %r14, %rcx
	movq	%rdi, %r14
	movl	%esi, %r10d
	movl	%eax, %ebp
	cmpl	%r14d, -24(%rcx,%r15)
	je	.LBB0_97
	jmp	.LBB0_99
.LBB0_98:
	movq	136(%rsp), %rbx
.LBB0_99:
	xorl	%eax, %eax
	movq	120(%rsp), %rdi
	cmpq	$2, %rdi
	sete	%al
	addl	96(%rsp), %eax
	cmpq	$1, %rdi
	sbbl	$0, %eax
	xorl	%ecx, %ecx
	cmpq	$1, %rdi
	sete	%cl
	movq	112(%rsp), %r10
	cmpq	%r14, %r10
	movl	$65535, %esi
	movq	%r10, %r8
	cmoveq	%rsi, %r8
	movq	88(%rsp), %r11
	cmovneq	%r11, %rsi
	xorl	%r9d, %r9d
	cmpl	$1, 168(%rsp)
	sete	%r9b
	cmovneq	%r8, %r10
	movq	%r10, 112(%rsp)
	cmovneq	%rsi, %r11
	movq	%r11, 88(%rsp)
	subq	%r9, 144(%rsp)
	xorl	%esi, %esi
	cmpq	$3, %rdi
	sete	%sil
	addl	80(%rsp), %esi
	subl	%ecx, %esi
	decq	%r14
	shlq	$32, %rsi
	orq	%rsi, %rax
	movq	%rax, %r10
	movq	%rbx, %r11
	movq	128(%rsp), %rdi
	movl	72(%rsp), %r8d
	jmp	.LBB0_64
.LBB0_100:
	movq	%rbp, %rsi
.LBB0_101:
	movl	40(%r15,%rax,4), %r10d
	leaq	-1(%r10), %rdi
	imulq	$100, %rdi, %rax
	movl	(%r15,%rax), %ebp
	testl	%ebp, %ebp
	je	.LBB0_105
	movq	%r11, %r12
	movl	$2, %eax
	movq	%rdx, %r11
	.p2align	4
.LBB0_103:
	movl	%ebp, %r10d
	leaq	(%r10,%r10,4), %rcx
	leaq	(%rcx,%rcx,4), %rcx
	addq	%rbx, %rcx
	cmpl	%r14d, -44(%r15,%rcx,4)
	jne	.LBB0_106
	decq	%r10
	leaq	(%r10,%r10,4), %rcx
	leaq	(%rcx,%rcx,4), %rcx
	addq	128(%rsp), %rcx
	movl	(%r15,%rcx,4), %r8d
	decq	%r8
	xorl	%ecx, %ecx
	cmpq	%r11, %r10
	setne	%cl
	xorl	%r11d, %r11d
	cmpq	%rdi, %r8
	setne	%r11b
	addl	%ecx, %eax
	addl	%r11d, %eax
	imulq	$100, %r10, %rcx
	movl	(%r15,%rcx), %ebp
	movq	%r10, %rdi
	movq	%r8, %r11
	testl	%ebp, %ebp
	jne	.LBB0_103
	jmp	.LBB0_107
.LBB0_105:
	movl	$2, %eax
	movq	%rsi, %rdi
	movq	%rsi, %rcx
	jmp	.LBB0_108
.LBB0_106:
	movq	%r11, %r8
	movq	%rdi, %r10
.LBB0_107:
	incq	%r10
	imulq	$100, %r8, %rcx
	movq	%r12, %r11
	movq	%rsi, %rdi
.LBB0_108:
	xorl	%r8d, %r8d
	cmpl	%r14d, 76(%r15,%rcx)
	jne	.LBB0_63
	movl	(%r15,%rcx), %ecx
	xorl	%r8d, %r8d
	cmpq	%rcx, %r10
	setne	%r8b
	jmp	.LBB0_63
.LBB0_110:
	movq	120(%rsp), %rcx
	leal	(%rdi,%rcx), %edx
	leal	(%r8,%rbp), %esi
	movl	%esi, %r10d
	orl	%edx, %r10d
	je	.LBB0_115
	orl	%edi, %r8d
	movq	%r12, %rdi
	je	.LBB0_113
	imulq	$100, %r12, %rdi
	movl	(%r15,%rdi), %edi
	decq	%rdi
	leaq	(%rdi,%rdi,4), %r8
	leaq	(%r8,%r8,4), %r9
.LBB0_113:
	movl	%edx, %r8d
	andl	$1, %r8d
	cmpl	$-1, %edx
	leaq	4(%r8,%r8,2), %rdx
	movl	$1, %r8d
	cmovneq	%rdx, %r8
	movl	%esi, %r10d
	andl	$1, %r10d
	incq	%r10
	xorl	%edx, %edx
	cmpl	$-1, %esi
	cmovneq	%r10, %rdx
	addq	%r8, %rdx
	addq	%r9, %rdx
	movl	(%r15,%rdx,4), %esi
	testq	%rsi, %rsi
	je	.LBB0_116
	decq	%rsi
	movq	96(%rsp), %r10
	movq	%rbx, %r8
	jmp	.LBB0_118
.LBB0_115:
	movl	$1, 40(%r15,%rax,4)
	movl	%r14d, 56(%r15,%rax,4)
	leal	1(%r12), %eax
	movq	%rbx, %r8
	leal	(,%rbx,4), %edx
	andl	$12, %edx
	xorq	$8, %rdx
	movl	%eax, 40(%r15,%rdx)
	movl	%r14d, 56(%r15,%rdx)
	xorl	%esi, %esi
	movq	96(%rsp), %r10
	jmp	.LBB0_119
.LBB0_116:
	movq	136(%rsp), %rcx
	leaq	1(%rcx), %rsi
	leaq	(%rsi,%rsi,4), %r8
	leaq	(%r8,%r8,4), %r8
	cmpq	$8000, %r8
	movq	96(%rsp), %r10
	ja	.LBB0_134
	movq	%rbx, %r8
	movl	%esi, (%r15,%rdx,4)
	incl	%edi
	movq	136(%rsp), %rsi
	imulq	$100, %rsi, %rdx
	movl	%edi, (%r15,%rdx)
	movq	72(%rsp), %r14
	movl	%r14d, 76(%r15,%rdx)
.LBB0_118:
	movl	%r8d, %edx
	andl	$3, %edx
	xorq	$2, %rdx
	leal	1(%rsi), %edi
	movl	%edi, 40(%r15,%rax,4)
	movl	%r14d, 56(%r15,%rax,4)
	leal	1(%r12), %eax
	leaq	(%rsi,%rsi,4), %rdi
	leaq	(%rdi,%rdi,4), %rdi
	addq	%rdx, %rdi
	movl	%eax, 40(%r15,%rdi,4)
	movl	%r14d, 56(%r15,%rdi,4)
.LBB0_119:
	testq	%r11, %r11
	je	.LBB0_132
	movq	%rbp, 168(%rsp)
	andl	$3, %r8d
	xorq	$2, %r8
	movq	%r8, 216(%rsp)
	leaq	-1(%r11), %rbp
	xorl	%r9d, %r9d
	movq	%r11, %r14
	jmp	.LBB0_123
	.p2align	4
.LBB0_121:
	decq	%rdi
	movq	%rdi, %rdx
	movq	72(%rsp), %rsi
	movq	96(%rsp), %r10
	movq	%rbx, %r8
.LBB0_122:
	decq	%r12
	leal	1(%rdx), %eax
	leaq	(%r12,%r12,4), %rcx
	leaq	(%rcx,%rcx,4), %rcx
	addq	%r8, %rcx
	movl	%eax, 40(%r15,%rcx,4)
	movl	%esi, 56(%r15,%rcx,4)
	leal	1(%r12), %eax
	leaq	(%rdx,%rdx,4), %rcx
	leaq	(%rcx,%rcx,4), %rcx
	addq	216(%rsp), %rcx
	movl	%eax, 40(%r15,%rcx,4)
	movl	%esi, 56(%r15,%rcx,4)
	incq	%r9
	decq	%rbp
	movq	%rdx, %rsi
	testq	%r14, %r14
	je	.LBB0_72
.LBB0_123:
	movl	%r10d, %edi
	movq	80(%rsp), %rax
	decq	%r14
	je	.LBB0_129
	movq	80(%rsp), %rax
	movl	%r10d, %edi
	leaq	-2(%r11), %rcx
	cmpq	%r9, %rcx
	je	.LBB0_128
	movq	%rbp, %rdx
	andq	$-2, %rdx
	movq	%r9, %r8
	notq	%r8
	addq	%r11, %r8
	movq	80(%rsp), %rax
	movl	%r10d, %edi
	.p2align	4
.LBB0_126:
	leal	3(%rdi), %r10d
	testl	%edi, %edi
	cmovnsl	%edi, %r10d
	movl	%r10d, %edi
	sarl	$2, %edi
	leal	3(%rax), %r10d
	testl	%eax, %eax
	cmovnsl	%eax, %r10d
	movl	%r10d, %eax
	sarl	$2, %eax
	addq	$-2, %rdx
	jne	.LBB0_126
	testb	$1, %r8b
	je	.LBB0_129
.LBB0_128:
	movl	%edi, %edx
	shrl	$31, %edx
	addl	%edi, %edx
	sarl	%edx
	movl	%eax, %r8d
	shrl	$31, %r8d
	addl	%eax, %r8d
	sarl	%r8d
	movl	%edx, %edi
	movl	%r8d, %eax
.LBB0_129:
	movl	%edi, %edx
	andl	$1, %edx
	cmpl	$-1, %edi
	leaq	4(%rdx,%rdx,2), %rdx
	movl	$1, %r8d
	cmoveq	%r8, %rdx
	movl	%eax, %ecx
	andl	$1, %ecx
	incq	%rcx
	xorl	%r10d, %r10d
	cmpl	$-1, %eax
	cmoveq	%r10, %rcx
	leaq	(%r12,%r12,4), %r12
	leaq	(%r12,%r12,4), %r12
	addq	%rdx, %r12
	addq	%rcx, %r12
	addl	120(%rsp), %edi
	addl	168(%rsp), %eax
	leaq	1(%rsi), %rdx
	movq	136(%rsp), %rcx
	cmpq	%rcx, %rdx
	cmovbeq	%rcx, %rdx
	movl	(%r15,%r12,4), %r12d
	movl	%edi, %ecx
	andl	$1, %ecx
	cmpl	$-1, %edi
	leaq	4(%rcx,%rcx,2), %rcx
	cmoveq	%r8, %rcx
	movl	%eax, %edi
	andl	$1, %edi
	incq	%rdi
	cmpl	$-1, %eax
	cmoveq	%r10, %rdi
	leaq	(%rsi,%rsi,4), %rax
	leaq	(%rax,%rax,4), %rax
	addq	%rcx, %rax
	addq	%rdi, %rax
	movl	(%r15,%rax,4), %edi
	testq	%rdi, %rdi
	jne	.LBB0_121
	leaq	1(%rdx), %rdi
	leaq	(%rdi,%rdi,4), %rcx
	leaq	(%rcx,%rcx,4), %rcx
	cmpq	$8000, %rcx
	movq	96(%rsp), %r10
	ja	.LBB0_134
	movq	%rbx, %r8
	movl	%edi, (%r15,%rax,4)
	incl	%esi
	imulq	$100, %rdx, %rax
	movl	%esi, (%r15,%rax)
	movq	72(%rsp), %rsi
	movl	%esi, 76(%r15,%rax)
	jmp	.LBB0_122
.LBB0_132:
	movq	%rsi, %rdx
	jmp	.LBB0_72
.LBB0_133:
	movl	$25, %eax
	movl	$1, %ecx
	movq	%rcx, 144(%rsp)
	movl	$65535, %ebp
	movq	$0, 80(%rsp)
	movl	$24, %r14d
	movl	$65535, %ecx
	movq	%rcx, 88(%rsp)
	movl	$1, %ebx
	xorl	%r13d, %r13d
	movq	$0, 128(%rsp)
	movq	104(%rsp), %r12
	jmp	.LBB0_149
.LBB0_134:
	movl	$32000, %edx
	movq	%r15, %rdi
	xorl	%esi, %esi
	callq	memset@PLT
	movq	160(%rsp), %rax
	shll	$2, %eax
	leaq	(%rax,%rax,2), %rbx
	leaq	(%rax,%rax,2), %rdx
	addq	$-4, %rdx
	leaq	32000(%r15), %rdi
	xorl	%esi, %esi
	callq	memset@PLT
	movl	$0, 31996(%r15,%rbx)
	movb	$7, %al
	movq	152(%rsp), %r14
	jmp	.LBB0_20
.LBB0_135:
	cmpq	%r14, %rdx
	jne	.LBB0_137
	movq	%rdx, %r14
	movq	104(%rsp), %r12
	jmp	.LBB0_140
.LBB0_137:
	leaq	(%rsp,%r14), %rcx
	addq	$224, %rcx
	movq	%r14, %rax
	notq	%rax
	addq	%rax, %rdx
	movq	104(%rsp), %r12
	je	.LBB0_139
	leaq	(%rsp,%r14), %rdi
	addq	$224, %rdi
	xorl	%esi, %esi
	movq	%rdx, %rbp
	movq	%r10, %r13
	movq	%r11, %rbx
	callq	memset@PLT
	leaq	(%rsp,%r14), %rcx
	addq	$224, %rcx
	movq	%rbx, %r11
	movq	%r13, %r10
	movq	%rbp, %rdx
.LBB0_139:
	movb	$0, (%rcx,%rdx)
.LBB0_140:
	testl	%r10d, %r10d
	movq	112(%rsp), %rbp
	movq	88(%rsp), %rax
	je	.LBB0_143
	testq	%r14, %r14
	jne	.LBB0_145
	xorl	%r8d, %r8d
	jmp	.LBB0_146
.LBB0_143:
	xorl	%r8d, %r8d
	testq	%r14, %r14
	je	.LBB0_146
	testq	%r10, %r10
	je	.LBB0_164
.LBB0_145:
	cmpq	$65535, %rbp
	setne	%dl
	addb	%dl, %dl
	incb	%dl
	xorl	%r8d, %r8d
	jmp	.LBB0_147
.LBB0_146:
	xorl	%r14d, %r14d
	xorl	%edx, %edx
.LBB0_147:
	movq	%rdx, 128(%rsp)
	testq	%r11, %r11
	movq	%r8, 80(%rsp)
	je	.LBB0_157
	movq	%r14, %r13
	movq	%rax, 88(%rsp)
	movq	%r11, %rbx
	leaq	(%r11,%r11,4), %rax
	leaq	(%rax,%rax,4), %rax
	movq	%rax, %r14
	decq	%r14
	je	.LBB0_160
.LBB0_149:
	leaq	-4(,%rax,4), %rdx
	movq	%r15, %rdi
	xorl	%esi, %esi
	callq	memset@PLT
	shlq	$2, %r14
.LBB0_150:
	movl	$0, (%r15,%r14)
	movq	88(%rsp), %rax
	movq	%r13, %r14
.LBB0_151:
	movq	%rax, 88(%rsp)
	leaq	44288(%r15), %r11
	cmpq	$32768, %r14
	movq	%r14, %rax
	movq	152(%rsp), %r14
	movq	%rax, 72(%rsp)
	jbe	.LBB0_153
	xorl	%ecx, %ecx
	jmp	.LBB0_196
.LBB0_153:
	cmpq	$16384, %rax
	ja	.LBB0_182
	movq	72(%rsp), %rsi
	testq	%rsi, %rsi
	je	.LBB0_161
	cmpq	$4, %rsi
	jae	.LBB0_162
	xorl	%ecx, %ecx
	xorl	%eax, %eax
	jmp	.LBB0_179
.LBB0_157:
	xorl	%ebx, %ebx
	jmp	.LBB0_151
.LBB0_158:
	movb	$4, %al
	jmp	.LBB0_20
.LBB0_159:
	movb	$5, %al
	jmp	.LBB0_20
.LBB0_160:
	xorl	%r14d, %r14d
	jmp	.LBB0_150
.LBB0_161:
	movq	%rbp, 112(%rsp)
	movl	$16384, %ebp
	movl	$16384, %r13d
	jmp	.LBB0_192
.LBB0_162:
	cmpq	$32, %rsi
	jae	.LBB0_169
	xorl	%eax, %eax
	xorl	%ecx, %ecx
	jmp	.LBB0_173
.LBB0_164:
	movb	$4, %dl
	testq	%rax, %rax
	jne	.LBB0_147
	cmpq	%r14, %rbp
	jne	.LBB0_147
	cmpq	$2, %rbp
	ja	.LBB0_176
	cmpq	$1, %r14
	je	.LBB0_176
	xorl	%r8d, %r8d
	movb	$5, %dl
	xorl	%eax, %eax
	movq	%rbp, %r14
	jmp	.LBB0_147
.LBB0_169:
	movl	%esi, %eax
	andl	$32736, %eax
	pxor	%xmm0, %xmm0
	xorl	%ecx, %ecx
	pxor	%xmm1, %xmm1
.LBB0_170:
	movdqu	224(%rsp,%rcx), %xmm2
	pmaxub	%xmm2, %xmm0
	movdqu	240(%rsp,%rcx), %xmm2
	pmaxub	%xmm2, %xmm1
	addq	$32, %rcx
	cmpq	%rcx, %rax
	jne	.LBB0_170
	pmaxub	%xmm1, %xmm0
	pshufd	$238, %xmm0, %xmm1
	pmaxub	%xmm0, %xmm1
	pshufd	$85, %xmm1, %xmm0
	pmaxub	%xmm1, %xmm0
	movdqa	%xmm0, %xmm1
	psrld	$16, %xmm1
	pmaxub	%xmm0, %xmm1
	movdqa	%xmm1, %xmm0
	psrlw	$8, %xmm0
	pmaxub	%xmm1, %xmm0
	movd	%xmm0, %ecx
	movq	72(%rsp), %rsi
	cmpq	%rax, %rsi
	je	.LBB0_181
	testb	$28, %sil
	je	.LBB0_179
.LBB0_173:
	movq	%rax, %rdx
	movl	%esi, %eax
	andl	$32764, %eax
	movzbl	%cl, %ecx
	movd	%ecx, %xmm0
	punpcklbw	%xmm0, %xmm0
	pshuflw	$0, %xmm0, %xmm0
.LBB0_174:
	movd	224(%rsp,%rdx), %xmm1
	pmaxub	%xmm1, %xmm0
	addq	$4, %rdx
	cmpq	%rdx, %rax
	jne	.LBB0_174
	movdqa	%xmm0, %xmm1
	psrld	$16, %xmm1
	pmaxub	%xmm0, %xmm1
	movdqa	%xmm1, %xmm0
	psrlw	$8, %xmm0
	pmaxub	%xmm1, %xmm0
	movd	%xmm0, %ecx
	movq	72(%rsp), %rsi
	jmp	.LBB0_180
.LBB0_176:
	xorl	%ecx, %ecx
	xorl	%eax, %eax
	xorl	%r8d, %r8d
.LBB0_177:
	movzbl	224(%rsp,%rax), %edx
	xorl	%esi, %esi
	cmpb	$1, %dl
	sete	%sil
	movl	%ecx, %edi
	adcl	$0, %edi
	cmpb	$3, %dl
	adcl	$-1, %esi
	imull	%ecx, %esi
	addl	%esi, %r8d
	xorl	%ecx, %ecx
	cmpb	$2, %dl
	sete	%cl
	subl	%ecx, %edi
	incq	%rax
	movb	$2, %dl
	movl	%edi, %ecx
	cmpq	%rax, %rbp
	jne	.LBB0_177
	movq	%rbp, %r14
	xorl	%eax, %eax
	jmp	.LBB0_147
.LBB0_179:
	movzbl	224(%rsp,%rax), %edx
	movzbl	%cl, %ecx
	cmpb	%cl, %dl
	cmoval	%edx, %ecx
	incq	%rax
.LBB0_180:
	cmpq	%rax, %rsi
	jne	.LBB0_179
.LBB0_181:
	cmpb	$4, %cl
	jb	.LBB0_186
.LBB0_182:
	xorl	%eax, %eax
.LBB0_183:
	xorl	%ecx, %ecx
	cmpq	$16384, %rax
	je	.LBB0_196
	cmpb	$3, 224(%rsp,%rax)
	ja	.LBB0_196
	incq	%rax
	cmpq	%rax, 72(%rsp)
	jne	.LBB0_183
.LBB0_186:
	movq	%rbp, 112(%rsp)
	movdqa	.LCPI0_14(%rip), %xmm0
	movdqa	%xmm0, 1248(%rsp)
	movq	72(%rsp), %rdi
	cmpq	$1, %rdi
	jne	.LBB0_188
	movl	$16384, %r13d
	movl	$16384, %eax
	xorl	%ecx, %ecx
	movl	$16384, %ebp
	jmp	.LBB0_191
.LBB0_188:
	movl	%edi, %edx
	andl	$65534, %edx
	movl	$16384, %r13d
	movl	$16384, %eax
	xorl	%ecx, %ecx
	movl	$16384, %ebp
.LBB0_189:
	movzbl	224(%rsp,%rcx), %esi
	addl	1248(%rsp,%rsi,4), %eax
	cmpq	%r13, %rax
	cmovbq	%rax, %r13
	cmpq	%rbp, %rax
	cmovaq	%rax, %rbp
	movzbl	225(%rsp,%rcx), %esi
	addl	1248(%rsp,%rsi,4), %eax
	cmpq	%r13, %rax
	cmovbq	%rax, %r13
	cmpq	%rbp, %rax
	cmovaq	%rax, %rbp
	addq	$2, %rcx
	cmpq	%rcx, %rdx
	jne	.LBB0_189
	testb	$1, %dil
	je	.LBB0_192
.LBB0_191:
	movzbl	224(%rsp,%rcx), %ecx
	addl	1248(%rsp,%rcx,4), %eax
	cmpq	%r13, %rax
	cmovbq	%rax, %r13
	cmpq	%rbp, %rax
	cmovaq	%rax, %rbp
.LBB0_192:
	movq	%rbp, %rax
	subq	%r13, %rax
	leaq	1(%rax), %r14
	pxor	%xmm0, %xmm0
	cmpq	$256, %rax
	jb	.LBB0_194
	movdqa	%xmm0, 176(%rsp)
	movq	$0, 192(%rsp)
	leaq	1248(%rsp), %rdi
	movl	$2050, %edx
	movl	$255, %esi
	callq	memset@PLT
	leaq	7398(%rsp), %rdi
	movl	$2050, %edx
	movl	$255, %esi
	callq	memset@PLT
	leaq	5348(%rsp), %rdi
	movl	$2050, %edx
	xorl	%esi, %esi
	callq	memset@PLT
	leaq	3298(%rsp), %rdi
	movl	$2050, %edx
	xorl	%esi, %esi
	callq	memset@PLT
	leaq	44288(%r15), %rax
	movq	%rax, 56(%rsp)
	leaq	3298(%rsp), %rax
	movq	%rax, 40(%rsp)
	leaq	5348(%rsp), %rax
	movq	%rax, 24(%rsp)
	movq	%r14, 16(%rsp)
	leaq	7398(%rsp), %rax
	movq	%rax, 8(%rsp)
	movq	%r14, (%rsp)
	movq	$1025, 48(%rsp)
	movq	$1025, 32(%rsp)
	jmp	.LBB0_195
.LBB0_194:
	movdqa	%xmm0, 176(%rsp)
	movq	$0, 192(%rsp)
	leaq	1248(%rsp), %rdi
	movl	$512, %edx
	movl	$255, %esi
	callq	memset@PLT
	leaq	7398(%rsp), %rdi
	movl	$512, %edx
	movl	$255, %esi
	callq	memset@PLT
	leaq	5348(%rsp), %rdi
	movl	$512, %edx
	xorl	%esi, %esi
	callq	memset@PLT
	leaq	3298(%rsp), %rdi
	movl	$512, %edx
	xorl	%esi, %esi
	callq	memset@PLT
	leaq	44288(%r15), %rax
	movq	%rax, 56(%rsp)
	leaq	3298(%rsp), %rax
	movq	%rax, 40(%rsp)
	leaq	5348(%rsp), %rax
	movq	%rax, 24(%rsp)
	movq	%r14, 16(%rsp)
	leaq	7398(%rsp), %rax
	movq	%rax, 8(%rsp)
	movq	%r14, (%rsp)
	movq	$256, 48(%rsp)
	movq	$256, 32(%rsp)
.LBB0_195:
	leaq	176(%rsp), %rdi
	leaq	224(%rsp), %rsi
	movq	72(%rsp), %rdx
	movq	%r13, %rcx
	movq	%rbp, %r8
	leaq	1248(%rsp), %r9
	callq	"hull_call::list_in"
	movzbl	176(%rsp), %edx
	movq	184(%rsp), %rax
	xorl	%ecx, %ecx
	testb	%dl, %dl
	cmoveq	%rax, %rcx
	movq	152(%rsp), %r14
	movq	112(%rsp), %rbp
	leaq	44288(%r15), %r11
.LBB0_196:
	movq	128(%rsp), %rsi
	leal	48(%rsi), %eax
	leal	87(%rsi), %edx
	cmpb	$10, %sil
	movzbl	%al, %eax
	movzbl	%dl, %edx
	cmovbl	%eax, %edx
	movb	%dl, 1(%r14,%r12)
	cmpb	$-96, %sil
	movl	$48, %eax
	movl	$87, %edx
	cmovbl	%eax, %edx
	movb	%dl, (%r14,%r12)
	movq	72(%rsp), %rdi
	movl	%edi, %eax
	andb	$15, %al
	leal	48(%rax), %edx
	leal	87(%rax), %esi
	cmpb	$10, %al
	movzbl	%dl, %eax
	movzbl	%sil, %edx
	cmovbl	%eax, %edx
	movb	%dl, 5(%r14,%r12)
	movl	%edi, %eax
	shrb	$4, %al
	leal	48(%rax), %edx
	addb	$87, %al
	cmpb	$-96, %dil
	movzbl	%dl, %edx
	movzbl	%al, %eax
	cmovbl	%edx, %eax
	movb	%al, 4(%r14,%r12)
	movl	%edi, %eax
	shrl	$8, %eax
	andb	$15, %al
	leal	48(%rax), %edx
	leal	87(%rax), %esi
	cmpb	$10, %al
	movzbl	%dl, %eax
	movzbl	%sil, %edx
	cmovbl	%eax, %edx
	shrl	$12, %edi
	andb	$15, %dil
	leal	48(%rdi), %eax
	leal	87(%rdi), %esi
	cmpb	$10, %dil
	movzbl	%al, %eax
	movzbl	%sil, %esi
	cmovbl	%eax, %esi
	movb	%dl, 3(%r14,%r12)
	movb	%sil, 2(%r14,%r12)
	movl	%ebx, %eax
	andb	$15, %al
	leal	48(%rax), %edx
	leal	87(%rax), %esi
	cmpb	$10, %al
	movzbl	%dl, %eax
	movzbl	%sil, %edx
	cmovbl	%eax, %edx
	movl	%ebx, %eax
	shrb	$4, %al
	leal	48(%rax), %esi
	addb	$87, %al
	cmpb	$-96, %bl
	movzbl	%sil, %esi
	movzbl	%al, %eax
	cmovbl	%esi, %eax
	movb	%dl, 13(%r14,%r12)
	movb	%al, 12(%r14,%r12)
	movl	%ebx, %eax
	shrl	$8, %eax
	andb	$15, %al
	leal	48(%rax), %edx
	leal	87(%rax), %esi
	cmpb	$10, %al
	movzbl	%dl, %eax
	movzbl	%sil, %edx
	cmovbl	%eax, %edx
	movb	%dl, 11(%r14,%r12)
	movl	%ebx, %eax
	shrl	$20, %eax
	movzbl	%al, %eax
	shldl	$8, %ebx, %eax
	movl	%ebx, %edx
	andl	$16711680, %edx
	orl	%eax, %edx
	movl	%ebx, %eax
	shll	$12, %eax
	andl	$-16777216, %eax
	orl	%edx, %eax
	movd	%eax, %xmm0
	pand	.LCPI0_15(%rip), %xmm0
	movdqa	%xmm0, %xmm1
	pcmpgtb	.LCPI0_16(%rip), %xmm1
	movdqa	.LCPI0_17(%rip), %xmm2
	por	%xmm0, %xmm2
	paddb	.LCPI0_18(%rip), %xmm0
	pand	%xmm1, %xmm0
	pandn	%xmm2, %xmm1
	por	%xmm0, %xmm1
	movd	%xmm1, 7(%r14,%r12)
	shrl	$28, %ebx
	leal	48(%rbx), %eax
	leal	87(%rbx), %edx
	cmpb	$10, %bl
	movzbl	%al, %eax
	movzbl	%dl, %edx
	cmovbl	%eax, %edx
	movq	144(%rsp), %r8
	movl	%r8d, %eax
	andb	$15, %al
	leal	48(%rax), %esi
	leal	87(%rax), %edi
	cmpb	$10, %al
	movzbl	%sil, %eax
	movzbl	%dil, %esi
	cmovbl	%eax, %esi
	movb	%dl, 6(%r14,%r12)
	movb	%sil, 17(%r14,%r12)
	movl	%r8d, %eax
	shrb	$4, %al
	leal	48(%rax), %edx
	addb	$87, %al
	cmpb	$-96, %r8b
	movzbl	%dl, %edx
	movzbl	%al, %eax
	cmovbl	%edx, %eax
	movb	%al, 16(%r14,%r12)
	movl	%r8d, %eax
	shrl	$8, %eax
	andb	$15, %al
	leal	48(%rax), %edx
	leal	87(%rax), %esi
	cmpb	$10, %al
	movzbl	%dl, %eax
	movzbl	%sil, %edx
	cmovbl	%eax, %edx
	movb	%dl, 15(%r14,%r12)
	shrl	$12, %r8d
	andb	$15, %r8b
	leal	48(%r8), %eax
	leal	87(%r8), %edx
	cmpb	$10, %r8b
	movzbl	%al, %eax
	movzbl	%dl, %edx
	cmovbl	%eax, %edx
	movb	%dl, 14(%r14,%r12)
	movq	88(%rsp), %rdi
	movl	%edi, %eax
	andb	$15, %al
	leal	48(%rax), %edx
	leal	87(%rax), %esi
	cmpb	$10, %al
	movzbl	%dl, %eax
	movzbl	%sil, %edx
	cmovbl	%eax, %edx
	movb	%dl, 21(%r14,%r12)
	movl	%edi, %eax
	shrb	$4, %al
	leal	48(%rax), %edx
	addb	$87, %al
	cmpb	$-96, %dil
	movzbl	%dl, %edx
	movzbl	%al, %eax
	cmovbl	%edx, %eax
	movb	%al, 20(%r14,%r12)
	movl	%edi, %eax
	shrl	$8, %eax
	andb	$15, %al
	leal	48(%rax), %edx
	leal	87(%rax), %esi
	cmpb	$10, %al
	movzbl	%dl, %eax
	movzbl	%sil, %edx
	cmovbl	%eax, %edx
	shrl	$12, %edi
	andb	$15, %dil
	leal	48(%rdi), %eax
	leal	87(%rdi), %esi
	cmpb	$10, %dil
	movzbl	%al, %eax
	movzbl	%sil, %esi
	cmovbl	%eax, %esi
	movb	%dl, 19(%r14,%r12)
	movb	%sil, 18(%r14,%r12)
	movl	%ebp, %eax
	andb	$15, %al
	leal	48(%rax), %edx
	leal	87(%rax), %esi
	cmpb	$10, %al
	movzbl	%dl, %eax
	movzbl	%sil, %edx
	cmovbl	%eax, %edx
	movl	%ebp, %eax
	shrb	$4, %al
	leal	48(%rax), %esi
	addb	$87, %al
	cmpb	$-96, %bpl
	movzbl	%sil, %esi
	movzbl	%al, %eax
	cmovbl	%esi, %eax
	movb	%dl, 25(%r14,%r12)
	movb	%al, 24(%r14,%r12)
	movl	%ebp, %eax
	shrl	$8, %eax
	andb	$15, %al
	leal	48(%rax), %edx
	leal	87(%rax), %esi
	cmpb	$10, %al
	movzbl	%dl, %eax
	movzbl	%sil, %edx
	cmovbl	%eax, %edx
	movb	%dl, 23(%r14,%r12)
	shrl	$12, %ebp
	andb	$15, %bpl
	leal	48(%rbp), %eax
	leal	87(%rbp), %edx
	cmpb	$10, %bpl
	movzbl	%al, %eax
	movzbl	%dl, %edx
	cmovbl	%eax, %edx
	movb	%dl, 22(%r14,%r12)
	movq	80(%rsp), %r10
	movl	%r10d, %eax
	shrl	$16, %eax
	movl	%r10d, %edx
	shrl	$20, %edx
	andb	$15, %dl
	leal	48(%rdx), %esi
	leal	87(%rdx), %edi
	cmpb	$10, %dl
	movzbl	%sil, %edx
	movzbl	%dil, %esi
	cmovbl	%edx, %esi
	movb	%sil, 28(%r14,%r12)
	movl	%r10d, %edx
	shrl	$24, %edx
	andb	$15, %dl
	leal	48(%rdx), %esi
	leal	87(%rdx), %edi
	cmpb	$10, %dl
	movzbl	%sil, %edx
	movzbl	%dil, %edi
	cmovbl	%edx, %edi
	movl	%r10d, %edx
	shrl	$28, %edx
	leal	48(%rdx), %esi
	addb	$87, %dl
	cmpl	$-1610612736, %r10d
	movzbl	%sil, %esi
	movzbl	%dl, %edx
	cmovbl	%esi, %edx
	movl	%ecx, %esi
	andb	$15, %sil
	leal	48(%rsi), %r8d
	leal	87(%rsi), %r9d
	cmpb	$10, %sil
	movzbl	%r8b, %r8d
	movzbl	%r9b, %esi
	cmovbl	%r8d, %esi
	movb	%dil, 27(%r14,%r12)
	movl	%ecx, %ebx
	shll	$8, %ebx
	movzbl	%ch, %edi
	orl	%ebx, %edi
	movl	%r10d, %r8d
	shrl	$4, %r8d
	andl	$65280, %r8d
	movzbl	%al, %eax
	orl	%r8d, %eax
	movl	%r10d, %r8d
	shll	$8, %r8d
	andl	$16711680, %r8d
	orl	%eax, %r8d
	shll	$24, %r10d
	orl	%r8d, %r10d
	movd	%r10d, %xmm0
	movl	%ecx, %eax
	shrl	$4, %eax
	andl	$65280, %eax
	pinsrw	$2, %eax, %xmm0
	pinsrw	$3, %edi, %xmm0
	movb	%dl, 26(%r14,%r12)
	pxor	%xmm1, %xmm1
	movdqa	%xmm0, %xmm2
	punpcklbw	%xmm1, %xmm2
	pshufd	$198, %xmm2, %xmm1
	pshuflw	$231, %xmm1, %xmm1
	pshufd	$198, %xmm1, %xmm1
	packuswb	%xmm1, %xmm1
	movq	.LCPI0_35(%rip), %xmm2
	pand	%xmm1, %xmm2
	pand	.LCPI0_20(%rip), %xmm1
	movb	%sil, 37(%r14,%r12)
	psrlw	$4, %xmm0
	movdqa	.LCPI0_21(%rip), %xmm3
	pand	%xmm3, %xmm1
	pandn	%xmm0, %xmm3
	por	%xmm1, %xmm3
	movq	.LCPI0_36(%rip), %xmm0
	pmaxub	%xmm2, %xmm0
	movdqa	.LCPI0_23(%rip), %xmm1
	por	%xmm3, %xmm1
	paddb	.LCPI0_24(%rip), %xmm3
	pcmpeqb	%xmm2, %xmm0
	pand	%xmm0, %xmm3
	pandn	%xmm1, %xmm0
	por	%xmm3, %xmm0
	movq	%xmm0, 29(%r14,%r12)
	leaq	38(%r12), %rax
	movq	%rcx, %rdx
	addq	%rcx, %rdx
	je	.LBB0_21
	cmpq	$20, %rdx
	jb	.LBB0_198
	leaq	(%r14,%rax), %rdi
	leaq	(%rdi,%rdx,4), %r8
	addq	$-4, %r8
	xorl	%esi, %esi
	cmpq	%rdi, %r8
	jb	.LBB0_209
	leaq	(%r14,%r12), %r8
	leaq	(%r14,%r12), %r9
	addq	$39, %r9
	leaq	(%r8,%rdx,4), %r10
	addq	$35, %r10
	cmpq	%r9, %r10
	jb	.LBB0_209
	leaq	(%r14,%r12), %r9
	addq	$41, %r9
	leaq	(%r8,%rdx,4), %r10
	addq	$37, %r10
	cmpq	%r9, %r10
	jb	.LBB0_209
	leaq	(%r14,%r12), %r9
	addq	$40, %r9
	leaq	(%r8,%rdx,4), %r10
	addq	$36, %r10
	cmpq	%r9, %r10
	jb	.LBB0_209
	leaq	-1(%rdx), %r9
	shrq	$62, %r9
	jne	.LBB0_209
	leaq	(%r15,%rcx,8), %rsi
	addq	$44288, %rsi
	leaq	(%r8,%rcx,8), %rcx
	addq	$38, %rcx
	cmpq	%rcx, %r11
	setb	%cl
	cmpq	%rsi, %rdi
	setb	%sil
	testb	%sil, %cl
	je	.LBB0_206
.LBB0_198:
	xorl	%esi, %esi
	jmp	.LBB0_209
.LBB0_206:
	movabsq	$9223372036854775804, %rsi
	andq	%rdx, %rsi
	leaq	(%rax,%rsi,4), %rax
	xorl	%ecx, %ecx
.LBB0_207:
	movdqu	(%r11,%rcx,4), %xmm0
	movdqa	.LCPI0_25(%rip), %xmm2
	movdqa	%xmm0, %xmm1
	pand	%xmm2, %xmm1
	packuswb	%xmm1, %xmm1
	packuswb	%xmm1, %xmm1
	movdqa	.LCPI0_15(%rip), %xmm3
	movdqa	%xmm1, %xmm7
	movdqa	.LCPI0_28(%rip), %xmm4
	pmaxub	%xmm1, %xmm4
	pcmpeqb	%xmm1, %xmm4
	movdqa	%xmm1, %xmm8
	pand	%xmm3, %xmm8
	movdqa	.LCPI0_26(%rip), %xmm1
	movdqa	%xmm1, %xmm9
	pcmpgtb	%xmm8, %xmm9
	movdqa	.LCPI0_17(%rip), %xmm5
	movdqa	%xmm8, %xmm10
	por	%xmm5, %xmm10
	movdqa	.LCPI0_18(%rip), %xmm6
	paddb	%xmm6, %xmm8
	pand	%xmm9, %xmm10
	pandn	%xmm8, %xmm9
	por	%xmm10, %xmm9
	psrlw	$4, %xmm7
	pand	.LCPI0_27(%rip), %xmm7
	movdqa	%xmm7, %xmm8
	por	%xmm5, %xmm8
	paddb	%xmm6, %xmm7
	pand	%xmm4, %xmm7
	pandn	%xmm8, %xmm4
	por	%xmm7, %xmm4
	punpckldq	%xmm9, %xmm4
	movdqa	%xmm0, %xmm8
	psrld	$8, %xmm8
	pand	%xmm2, %xmm8
	packuswb	%xmm8, %xmm8
	packuswb	%xmm8, %xmm8
	pand	%xmm3, %xmm8
	movdqa	%xmm1, %xmm7
	pcmpgtb	%xmm8, %xmm7
	movdqa	%xmm8, %xmm9
	por	%xmm5, %xmm9
	paddb	%xmm6, %xmm8
	pand	%xmm7, %xmm9
	pandn	%xmm8, %xmm7
	por	%xmm9, %xmm7
	psrld	$12, %xmm0
	pand	%xmm2, %xmm0
	packuswb	%xmm0, %xmm0
	packuswb	%xmm0, %xmm0
	pand	%xmm3, %xmm0
	pcmpgtb	%xmm0, %xmm1
	por	%xmm0, %xmm5
	paddb	%xmm6, %xmm0
	pand	%xmm1, %xmm5
	pandn	%xmm0, %xmm1
	por	%xmm5, %xmm1
	punpckldq	%xmm7, %xmm1
	pxor	%xmm0, %xmm0
	punpcklbw	%xmm0, %xmm4
	pshufd	$215, %xmm4, %xmm2
	pshuflw	$36, %xmm2, %xmm2
	pshufhw	$212, %xmm2, %xmm2
	pshufd	$40, %xmm4, %xmm3
	pshuflw	$132, %xmm3, %xmm3
	pshufhw	$116, %xmm3, %xmm3
	packuswb	%xmm2, %xmm3
	movdqa	.LCPI0_29(%rip), %xmm2
	punpcklbw	%xmm0, %xmm1
	pshufd	$215, %xmm1, %xmm0
	pshuflw	$226, %xmm0, %xmm0
	pshufhw	$237, %xmm0, %xmm0
	pshufd	$40, %xmm1, %xmm1
	pshuflw	$232, %xmm1, %xmm1
	pshufhw	$231, %xmm1, %xmm1
	packuswb	%xmm0, %xmm1
	pand	%xmm2, %xmm1
	pandn	%xmm3, %xmm2
	por	%xmm1, %xmm2
	movdqu	%xmm2, (%rdi,%rcx,4)
	addq	$4, %rcx
	cmpq	%rcx, %rsi
	jne	.LBB0_207
.LBB0_208:
	cmpq	%rsi, %rdx
	je	.LBB0_21
.LBB0_209:
	movl	(%r11,%rsi,4), %ecx
	movl	%ecx, %edi
	andb	$15, %dil
	leal	48(%rdi), %r8d
	leal	87(%rdi), %r9d
	cmpb	$10, %dil
	movzbl	%r8b, %edi
	movzbl	%r9b, %r8d
	cmovbl	%edi, %r8d
	movb	%r8b, 3(%r14,%rax)
	movl	%ecx, %edi
	shrb	$4, %dil
	leal	48(%rdi), %r8d
	addb	$87, %dil
	cmpb	$-96, %cl
	movzbl	%r8b, %r8d
	movzbl	%dil, %edi
	cmovbl	%r8d, %edi
	movb	%dil, 2(%r14,%rax)
	movl	%ecx, %edi
	shrl	$8, %edi
	andb	$15, %dil
	leal	48(%rdi), %r8d
	leal	87(%rdi), %r9d
	cmpb	$10, %dil
	movzbl	%r8b, %edi
	movzbl	%r9b, %r8d
	cmovbl	%edi, %r8d
	movb	%r8b, 1(%r14,%rax)
	shrl	$12, %ecx
	andb	$15, %cl
	leal	48(%rcx), %edi
	leal	87(%rcx), %r8d
	cmpb	$10, %cl
	movzbl	%dil, %ecx
	movzbl	%r8b, %edi
	cmovbl	%ecx, %edi
	movb	%dil, (%r14,%rax)
	addq	$4, %rax
	incq	%rsi
	jmp	.LBB0_208
.Lfunc_end0:
	.size	"lines::tell", .Lfunc_end0-"lines::tell"

	.section	.rodata.cst16,"aM",@progbits,16
	.p2align	4, 0x0
.LCPI1_0:
	.long	1
	.long	0
	.long	4294967295
	.long	0
	.section	".text.hull_call::list_in","ax",@progbits
	.p2align	4
	.type	"hull_call::list_in",@function
"hull_call::list_in":
	pushq	%rbp
	pushq	%r15
	pushq	%r14
	pushq	%r13
	pushq	%r12
	pushq	%rbx
	subq	$104, %rsp
	movq	%r9, %r13
	movq	%r8, 48(%rsp)
	movq	%rdi, 24(%rsp)
	movq	168(%rsp), %r15
	movabsq	$-281474976645120, %rax
	movq	%rax, 72(%rsp)
	movaps	.LCPI1_0(%rip), %xmm0
	movaps	%xmm0, 80(%rsp)
	testq	%rdx, %rdx
	movq	%rcx, 40(%rsp)
	je	.LBB1_1
	movw	$16384, %ax
	movl	$16384, %ebx
	xorl	%edi, %edi
	.p2align	4
.LBB1_3:
	movl	%ebx, %r8d
	subq	%rcx, %r8
	movzwl	(%r13,%r8,2), %r9d
	cmpw	%r9w, %ax
	cmovbl	%eax, %r9d
	movzbl	(%rsi,%rdi), %r10d
	movw	%r9w, (%r13,%r8,2)
	movl	$-32768, %r9d
	subl	%eax, %r9d
	movzwl	(%r15,%r8,2), %r11d
	cmpw	%r11w, %r9w
	cmovael	%r11d, %r9d
	movw	%r9w, (%r15,%r8,2)
	addl	80(%rsp,%r10,4), %ebx
	addw	72(%rsp,%r10,2), %ax
	incq	%rdi
	cmpq	%rdi, %rdx
	jne	.LBB1_3
	movl	%ebx, %ecx
	jmp	.LBB1_5
.LBB1_1:
	movl	$16384, %ecx
	movw	$16384, %ax
.LBB1_5:
	movq	160(%rsp), %rbx
	movq	40(%rsp), %rsi
	subq	%rsi, %rcx
	movzwl	(%r13,%rcx,2), %edx
	cmpw	%dx, %ax
	cmovbl	%eax, %edx
	movw	%dx, (%r13,%rcx,2)
	movl	$-32768, %edx
	subl	%eax, %edx
	movzwl	(%r15,%rcx,2), %eax
	cmpw	%ax, %dx
	cmovael	%eax, %edx
	movw	%dx, (%r15,%rcx,2)
	movq	48(%rsp), %rax
	subq	%rsi, %rax
	movq	%rax, 32(%rsp)
	incq	%rax
	cmpq	$15, %rax
	jbe	.LBB1_6
	movq	%rax, %rdx
	shrq	%rdx
	subq	%rdx, %rax
	leaq	(%r15,%rax,2), %rsi
	movq	%r15, %rdi
	callq	"core::slice::edits::mirror::<i16>"
	jmp	.LBB1_13
.LBB1_6:
	cmpq	$2, %rax
	jb	.LBB1_13
	movq	32(%rsp), %rdx
	leaq	-1(%rdx), %rax
	shrq	%rax
	incq	%rax
	xorl	%ecx, %ecx
	jmp	.LBB1_8
	.p2align	4
.LBB1_9:
	movzwl	(%r15,%rcx,2), %esi
	movzwl	(%r15,%rdx,2), %edi
	movw	%di, (%r15,%rcx,2)
	movw	%si, (%r15,%rdx,2)
.LBB1_12:
	incq	%rcx
	decq	%rdx
	cmpq	%rcx, %rax
	je	.LBB1_13
.LBB1_8:
	cmpq	%rdx, %rcx
	jb	.LBB1_9
	jbe	.LBB1_12
	movzwl	(%r15,%rdx,2), %esi
	movzwl	(%r15,%rcx,2), %edi
	movw	%di, (%r15,%rdx,2)
	movw	%si, (%r15,%rcx,2)
	jmp	.LBB1_12
.LBB1_13:
	movq	192(%rsp), %rdi
	movq	184(%rsp), %rax
	movq	176(%rsp), %r9
	movq	%rdi, %rcx
	testq	%rbx, %rbx
	je	.LBB1_26
	leaq	-1(%rdi), %r12
	movq	%rbx, %rsi
	movq	%rdi, %rcx
	jmp	.LBB1_15
	.p2align	4
.LBB1_24:
	movq	%r12, %rcx
.LBB1_25:
	movw	%si, -2(%rax,%rcx,2)
	decq	%rcx
	testq	%rsi, %rsi
	je	.LBB1_26
.LBB1_15:
	cmpq	%rbx, %rsi
	jne	.LBB1_17
	decq	%rsi
	movq	%rdi, %r8
	subq	%rcx, %r8
	cmpq	$2, %r8
	jb	.LBB1_25
	jmp	.LBB1_21
	.p2align	4
.LBB1_17:
	cmpq	$1, %rsi
	je	.LBB1_18
	movzwl	-4(%r13,%rsi,2), %r8d
	movzwl	-2(%r13,%rsi,2), %r10d
	movzwl	(%r13,%rsi,2), %r11d
	leal	(%r8,%r10,2), %r10d
	leal	(%r11,%r8,2), %r8d
	decq	%rsi
	cmpl	%r8d, %r10d
	jae	.LBB1_17
	movq	%rdi, %r8
	subq	%rcx, %r8
	cmpq	$2, %r8
	jb	.LBB1_25
	jmp	.LBB1_21
	.p2align	4
.LBB1_18:
	xorl	%esi, %esi
	movq	%rdi, %r8
	subq	%rcx, %r8
	cmpq	$2, %r8
	jb	.LBB1_25
.LBB1_21:
	movzwl	(%r13,%rsi,2), %r10d
	.p2align	4
.LBB1_22:
	movzwl	(%rax,%rcx,2), %r11d
	movzwl	2(%rax,%rcx,2), %ebp
	movzwl	(%r13,%r11,2), %r14d
	subq	%rsi, %r11
	movzwl	(%r13,%rbp,2), %edx
	subq	%rsi, %rbp
	imulq	%rbp, %r14
	imulq	%r11, %rdx
	imulq	%r10, %r11
	addq	%r14, %r11
	imulq	%r10, %rbp
	addq	%rdx, %rbp
	cmpq	%rbp, %r11
	jb	.LBB1_25
	incq	%rcx
	decq	%r8
	cmpq	$1, %r8
	ja	.LBB1_22
	jmp	.LBB1_24
.LBB1_26:
	movq	208(%rsp), %r8
	movq	200(%rsp), %rdx
	movq	%r8, %rsi
	testq	%r9, %r9
	je	.LBB1_40
	leaq	-1(%r8), %rsi
	movq	%rsi, 16(%rsp)
	movq	%r9, %r11
	movq	%r8, %rsi
	jmp	.LBB1_28
	.p2align	4
.LBB1_37:
	movq	16(%rsp), %rsi
.LBB1_38:
	movq	%r12, %rdi
	movq	%r8, %r9
	movq	208(%rsp), %r8
.LBB1_39:
	movw	%r11w, -2(%rdx,%rsi,2)
	decq	%rsi
	testq	%r11, %r11
	je	.LBB1_40
.LBB1_28:
	cmpq	%r9, %r11
	jne	.LBB1_30
	decq	%r11
	movq	%r8, %rbx
	subq	%rsi, %rbx
	cmpq	$2, %rbx
	jb	.LBB1_39
	jmp	.LBB1_34
	.p2align	4
.LBB1_30:
	cmpq	$1, %r11
	je	.LBB1_31
	movzwl	-4(%r15,%r11,2), %ebx
	movzwl	-2(%r15,%r11,2), %r14d
	movzwl	(%r15,%r11,2), %ebp
	leal	(%rbx,%r14,2), %r14d
	leal	(%rbp,%rbx,2), %ebx
	decq	%r11
	cmpl	%ebx, %r14d
	jae	.LBB1_30
	movq	%r8, %rbx
	subq	%rsi, %rbx
	cmpq	$2, %rbx
	jb	.LBB1_39
	jmp	.LBB1_34
	.p2align	4
.LBB1_31:
	xorl	%r11d, %r11d
	movq	%r8, %rbx
	subq	%rsi, %rbx
	cmpq	$2, %rbx
	jb	.LBB1_39
.LBB1_34:
	movq	%r9, %r8
	movq	%rdi, %r12
	movzwl	(%r15,%r11,2), %ebp
	.p2align	4
.LBB1_35:
	movzwl	(%rdx,%rsi,2), %r14d
	movzwl	2(%rdx,%rsi,2), %r10d
	movzwl	(%r15,%r14,2), %edi
	subq	%r11, %r14
	movzwl	(%r15,%r10,2), %r9d
	subq	%r11, %r10
	imulq	%r10, %rdi
	imulq	%r14, %r9
	imulq	%rbp, %r14
	addq	%rdi, %r14
	imulq	%rbp, %r10
	addq	%r9, %r10
	cmpq	%r10, %r14
	jb	.LBB1_38
	incq	%rsi
	decq	%rbx
	cmpq	$1, %rbx
	ja	.LBB1_35
	jmp	.LBB1_37
.LBB1_40:
	movq	%rdi, %r9
	subq	%rcx, %r9
	movq	%r8, %rbp
	subq	%rsi, %rbp
	movq	32(%rsp), %rbx
	movq	%rdi, %r14
	movzwl	(%r13,%rbx,2), %edi
	movzwl	(%r15), %r10d
	addl	%edi, %r10d
	xorl	%r12d, %r12d
	cmpl	$32768, %r10d
	sete	%r12b
	movzwl	(%r13), %edi
	cmpq	%r12, %rbp
	seta	%r11b
	movzwl	(%r15,%rbx,2), %ebx
	addl	%edi, %ebx
	cmpl	$32768, %ebx
	sete	%dil
	andb	%r11b, %dil
	movzbl	%dil, %r11d
	subq	%r11, %rbp
	movq	%rbp, 64(%rsp)
	movq	%r12, 32(%rsp)
	subq	%r12, %rbp
	leaq	(%r9,%rbp), %r12
	leaq	(%r12,%r12), %rdi
	cmpq	$2050, %rdi
	jbe	.LBB1_42
	movl	$7, %r12d
	movl	$1, %eax
	jmp	.LBB1_58
.LBB1_42:
	movq	%r11, 56(%rsp)
	movq	216(%rsp), %r11
	xorl	%ebx, %ebx
	cmpl	$32768, %r10d
	sete	15(%rsp)
	cmpq	%rcx, %r14
	je	.LBB1_50
	movq	%r14, %rdi
	movq	40(%rsp), %r14
	addl	$-16384, %r14d
	movq	%rdi, %r10
	leaq	1(%rcx), %rdi
	cmpq	%rdi, %r10
	jne	.LBB1_45
	xorl	%edi, %edi
	xorl	%r10d, %r10d
	jmp	.LBB1_49
.LBB1_45:
	movq	%rbp, 40(%rsp)
	leaq	(%rcx,%rcx), %rdi
	movq	%r9, %r10
	andq	$-2, %r10
	movq	%r10, 16(%rsp)
	leaq	(%rdi,%rax), %rbx
	addq	$2, %rbx
	xorl	%edi, %edi
	xorl	%r10d, %r10d
	.p2align	4
.LBB1_46:
	movzwl	-2(%rbx,%r10,2), %ebp
	movzwl	(%r13,%rbp,2), %r12d
	addl	%r14d, %ebp
	movl	%ebp, (%r11,%r10,8)
	addl	$-16384, %r12d
	movl	%r12d, 4(%r11,%r10,8)
	movzwl	(%rbx,%r10,2), %r12d
	movzwl	(%r13,%r12,2), %ebp
	addl	%r14d, %r12d
	movl	%r12d, 8(%r11,%r10,8)
	addl	$-16384, %ebp
	movl	%ebp, 12(%r11,%r10,8)
	addq	$2, %r10
	addq	$-4, %rdi
	cmpq	%r10, 16(%rsp)
	jne	.LBB1_46
	testb	$1, %r9b
	movq	40(%rsp), %rbp
	leaq	(%rbp,%r9), %r12
	movl	$0, %ebx
	je	.LBB1_50
	negq	%rdi
.LBB1_49:
	leaq	(%rax,%rcx,2), %rax
	movzwl	(%rax,%r10,2), %eax
	movzwl	(%r13,%rax,2), %ecx
	addl	%eax, %r14d
	movl	%r14d, (%r11,%rdi,4)
	addl	$-16384, %ecx
	movl	%ecx, 4(%r11,%rdi,4)
.LBB1_50:
	movq	32(%rsp), %rcx
	cmpq	%rcx, 64(%rsp)
	je	.LBB1_57
	movzbl	15(%rsp), %eax
	movb	%al, %bl
	addl	%ebx, %ebx
	movq	56(%rsp), %rax
	negq	%rax
	movq	48(%rsp), %r14
	addl	$-16384, %r14d
	addq	%r9, %r9
	addq	%rax, %r8
	movq	%rsi, %rax
	notq	%rax
	addq	%r8, %rax
	cmpq	%rcx, %rax
	jne	.LBB1_53
	xorl	%eax, %eax
	jmp	.LBB1_56
.LBB1_53:
	leaq	(%rsi,%rsi), %rax
	movq	%rbp, %r13
	movq	%rbp, %rcx
	andq	$-2, %rcx
	movq	%rbx, 16(%rsp)
	addq	%rbx, %rax
	leaq	(%rdx,%rax), %rdi
	addq	$2, %rdi
	xorl	%eax, %eax
	.p2align	4
.LBB1_54:
	movzwl	-2(%rdi,%rax,2), %r8d
	movzwl	(%r15,%r8,2), %r10d
	movl	%r14d, %ebx
	subl	%r8d, %ebx
	movl	%ebx, (%r11,%r9,4)
	movl	$16384, %r8d
	movl	$16384, %ebx
	subl	%r10d, %ebx
	movl	%ebx, 4(%r11,%r9,4)
	movzwl	(%rdi,%rax,2), %r10d
	movzwl	(%r15,%r10,2), %ebx
	movl	%r14d, %ebp
	subl	%r10d, %ebp
	movl	%ebp, 8(%r11,%r9,4)
	subl	%ebx, %r8d
	movl	%r8d, 12(%r11,%r9,4)
	addq	$4, %r9
	addq	$2, %rax
	cmpq	%rax, %rcx
	jne	.LBB1_54
	testb	$1, %r13b
	movq	16(%rsp), %rbx
	je	.LBB1_57
.LBB1_56:
	leaq	(%rdx,%rsi,2), %rcx
	addq	%rbx, %rcx
	movzwl	(%rcx,%rax,2), %eax
	movzwl	(%r15,%rax,2), %ecx
	subl	%eax, %r14d
	movl	%r14d, (%r11,%r9,4)
	movl	$16384, %eax
	subl	%ecx, %eax
	movl	%eax, 4(%r11,%r9,4)
.LBB1_57:
	xorl	%eax, %eax
.LBB1_58:
	movq	24(%rsp), %rcx
	movq	%rax, (%rcx)
	movq	%r12, 8(%rcx)
	movq	$0, 16(%rcx)
	addq	$104, %rsp
	popq	%rbx
	popq	%r12
	popq	%r13
	popq	%r14
	popq	%r15
	popq	%rbp
	retq
.Lfunc_end1:
	.size	"hull_call::list_in", .Lfunc_end1-"hull_call::list_in"

	.section	".text.core::slice::edits::mirror::<i16>","ax",@progbits
	.p2align	4
	.type	"core::slice::edits::mirror::<i16>",@function
"core::slice::edits::mirror::<i16>":
	leaq	(%rdi,%rdx,2), %rax
	leaq	(%rsi,%rdx,2), %rcx
	cmpq	%rcx, %rdi
	setb	%cl
	cmpq	%rax, %rsi
	setb	%al
	testb	%al, %cl
	je	.LBB2_2
	xorl	%eax, %eax
	jmp	.LBB2_5
.LBB2_2:
	movabsq	$9223372036854775800, %rax
	andq	%rdx, %rax
	movq	%rdx, %rcx
	andq	$-8, %rcx
	negq	%rcx
	leaq	(%rsi,%rdx,2), %r8
	addq	$-16, %r8
	xorl	%r9d, %r9d
	movq	%rdi, %r10
	.p2align	4
.LBB2_3:
	movdqu	(%r10), %xmm0
	movdqu	(%r8,%r9,2), %xmm1
	pshufd	$78, %xmm1, %xmm1
	pshuflw	$27, %xmm1, %xmm1
	pshufhw	$27, %xmm1, %xmm1
	movdqu	%xmm1, (%r10)
	pshufd	$78, %xmm0, %xmm0
	pshuflw	$27, %xmm0, %xmm0
	pshufhw	$27, %xmm0, %xmm0
	movdqu	%xmm0, (%r8,%r9,2)
	addq	$-8, %r9
	addq	$16, %r10
	cmpq	%r9, %rcx
	jne	.LBB2_3
	cmpq	%rax, %rdx
	je	.LBB2_10
.LBB2_5:
	movq	%rax, %rcx
	orq	$1, %rcx
	testb	$1, %dl
	je	.LBB2_7
	movq	%rax, %r8
	notq	%r8
	addq	%rdx, %r8
	movzwl	(%rdi,%rax,2), %r9d
	movzwl	(%rsi,%r8,2), %r10d
	movw	%r10w, (%rdi,%rax,2)
	movw	%r9w, (%rsi,%r8,2)
	movq	%rcx, %rax
.LBB2_7:
	cmpq	%rcx, %rdx
	je	.LBB2_10
	subq	%rax, %rdx
	leaq	(%rdi,%rax,2), %rax
	addq	$2, %rax
	.p2align	4
.LBB2_9:
	movzwl	-2(%rax), %ecx
	movzwl	-2(%rsi,%rdx,2), %edi
	movw	%di, -2(%rax)
	movw	%cx, -2(%rsi,%rdx,2)
	movzwl	(%rax), %ecx
	movzwl	-4(%rsi,%rdx,2), %edi
	movw	%di, (%rax)
	movw	%cx, -4(%rsi,%rdx,2)
	addq	$4, %rax
	addq	$-2, %rdx
	jne	.LBB2_9
.LBB2_10:
	retq
.Lfunc_end2:
	.size	"core::slice::edits::mirror::<i16>", .Lfunc_end2-"core::slice::edits::mirror::<i16>"

	.section	.rodata.cst16,"aM",@progbits,16
	.p2align	4, 0x0
.LCPI3_0:
	.byte	0
	.byte	1
	.byte	2
	.byte	3
	.byte	4
	.byte	5
	.byte	6
	.byte	7
	.byte	8
	.byte	9
	.byte	10
	.byte	11
	.byte	12
	.byte	13
	.byte	14
	.byte	15
.LCPI3_1:
	.byte	16
	.byte	17
	.byte	18
	.byte	19
	.byte	20
	.byte	21
	.byte	22
	.byte	23
	.byte	24
	.byte	25
	.byte	26
	.byte	27
	.byte	28
	.byte	29
	.byte	30
	.byte	31
	.section	".text.line_io::send::<#df9e9f1468b30f79>","ax",@progbits
	.p2align	4
	.type	"line_io::send::<#df9e9f1468b30f79>",@function
"line_io::send::<#df9e9f1468b30f79>":
	pushq	%rbp
	pushq	%r15
	pushq	%r14
	pushq	%r13
	pushq	%r12
	pushq	%rbx
	subq	$104, %rsp
	movq	%r8, %r12
	movq	%rcx, %r13
	movl	%edx, %r15d
	movq	%rsi, %r14
	movq	%rdi, %rbx
	movl	$1, %ebp
	jmp	.LBB3_1
	.p2align	4
.LBB3_7:
	incq	%rbp
	je	.LBB3_8
.LBB3_1:
	testq	%r12, %r12
	je	.LBB3_9
	movl	$1, %edi
	movq	%r13, %rsi
	movq	%r12, %rdx
	callq	write@PLT
	testq	%rax, %rax
	js	.LBB3_5
	je	.LBB3_8
	cmpq	%r12, %rax
	cmovaeq	%r12, %rax
	addq	%rax, %r13
	subq	%rax, %r12
	jmp	.LBB3_7
	.p2align	4
.LBB3_5:
	leaq	16(%rsp), %rdi
	callq	"std_io::io::error::last_error"
	movq	16(%rsp), %rax
	shrq	$8, %rax
	movaps	.LCPI3_0(%rip), %xmm0
	movaps	%xmm0, 16(%rsp)
	movaps	.LCPI3_1(%rip), %xmm0
	movaps	%xmm0, 32(%rsp)
	movabsq	$2820983053732684064, %rcx
	movq	%rcx, 48(%rsp)
	movb	$40, 56(%rsp)
	cmpb	$41, %al
	jae	.LBB3_8
	andl	$63, %eax
	cmpb	$35, 16(%rsp,%rax)
	je	.LBB3_7
.LBB3_8:
	movl	$0, 11(%rsp)
	movl	$0, 8(%rsp)
	movb	$1, %al
	xorl	%r14d, %r14d
	xorl	%r15d, %r15d
	jmp	.LBB3_10
.LBB3_9:
	movl	$0, 11(%rsp)
	movl	$0, 8(%rsp)
	xorl	%eax, %eax
.LBB3_10:
	movb	%al, (%rbx)
	movb	%al, 1(%rbx)
	movq	%r14, 8(%rbx)
	movb	%r15b, 16(%rbx)
	movl	8(%rsp), %eax
	movl	11(%rsp), %ecx
	movl	%eax, 17(%rbx)
	movl	%ecx, 20(%rbx)
	addq	$104, %rsp
	popq	%rbx
	popq	%r12
	popq	%r13
	popq	%r14
	popq	%r15
	popq	%rbp
	retq
.Lfunc_end3:
	.size	"line_io::send::<#df9e9f1468b30f79>", .Lfunc_end3-"line_io::send::<#df9e9f1468b30f79>"

	.section	".text.std_io::io::error::last_error","ax",@progbits
	.p2align	4
	.type	"std_io::io::error::last_error",@function
"std_io::io::error::last_error":
	pushq	%rbx
	movq	%rdi, %rbx
	callq	rattle_errno@PLT
	movl	%eax, %ecx
	movb	$41, %dl
	testl	%eax, %eax
	js	.LBB4_40
	decl	%eax
	cmpl	$121, %eax
	ja	.LBB4_40
	leaq	.LJTI4_0(%rip), %rsi
	movslq	(%rsi,%rax,4), %rax
	addq	%rsi, %rax
	jmpq	*%rax
.LBB4_3:
	movb	$1, %dl
	jmp	.LBB4_40
.LBB4_24:
	movb	$36, %dl
	jmp	.LBB4_40
.LBB4_36:
	movb	$4, %dl
	jmp	.LBB4_40
.LBB4_33:
	movb	$7, %dl
	jmp	.LBB4_40
.LBB4_39:
	movb	$26, %dl
	jmp	.LBB4_40
.LBB4_37:
	movb	$39, %dl
	jmp	.LBB4_40
.LBB4_28:
	movb	$9, %dl
	jmp	.LBB4_40
.LBB4_27:
	movb	$8, %dl
	jmp	.LBB4_40
.LBB4_22:
	movb	$30, %dl
	jmp	.LBB4_40
.LBB4_18:
	movb	$25, %dl
	jmp	.LBB4_40
.LBB4_20:
	movb	$32, %dl
	jmp	.LBB4_40
.LBB4_23:
	movb	$33, %dl
	jmp	.LBB4_40
.LBB4_34:
	movb	$22, %dl
	jmp	.LBB4_40
.LBB4_11:
	movb	$31, %dl
	jmp	.LBB4_40
.LBB4_15:
	movb	$29, %dl
	jmp	.LBB4_40
.LBB4_26:
	movb	$18, %dl
	jmp	.LBB4_40
.LBB4_29:
	movb	$10, %dl
	jmp	.LBB4_40
.LBB4_9:
	movb	$28, %dl
	jmp	.LBB4_40
.LBB4_12:
	movb	$14, %dl
	jmp	.LBB4_40
.LBB4_10:
	movb	$12, %dl
	jmp	.LBB4_40
.LBB4_30:
	movb	$5, %dl
	jmp	.LBB4_40
.LBB4_32:
	movb	$3, %dl
	jmp	.LBB4_40
.LBB4_4:
	xorl	%edx, %edx
	jmp	.LBB4_40
.LBB4_7:
	movb	$13, %dl
	jmp	.LBB4_40
.LBB4_8:
	movb	$38, %dl
	jmp	.LBB4_40
.LBB4_21:
	movb	$11, %dl
	jmp	.LBB4_40
.LBB4_5:
	movb	$35, %dl
	jmp	.LBB4_40
.LBB4_6:
	movb	$34, %dl
	jmp	.LBB4_40
.LBB4_14:
	movb	$20, %dl
	jmp	.LBB4_40
.LBB4_13:
	movb	$15, %dl
	jmp	.LBB4_40
.LBB4_38:
	movb	$19, %dl
	jmp	.LBB4_40
.LBB4_25:
	movb	$16, %dl
	jmp	.LBB4_40
.LBB4_31:
	movb	$6, %dl
	jmp	.LBB4_40
.LBB4_16:
	movb	$27, %dl
	jmp	.LBB4_40
.LBB4_17:
	movb	$24, %dl
	jmp	.LBB4_40
.LBB4_35:
	movb	$2, %dl
	jmp	.LBB4_40
.LBB4_19:
	movb	$17, %dl
.LBB4_40:
	movb	$0, (%rbx)
	movb	%dl, 1(%rbx)
	movw	$0, 2(%rbx)
	movl	%ecx, 4(%rbx)
	xorps	%xmm0, %xmm0
	movups	%xmm0, 8(%rbx)
	movups	%xmm0, 24(%rbx)
	movups	%xmm0, 40(%rbx)
	movups	%xmm0, 56(%rbx)
	movups	%xmm0, 72(%rbx)
	popq	%rbx
	retq
.Lfunc_end4:
	.size	"std_io::io::error::last_error", .Lfunc_end4-"std_io::io::error::last_error"
	.section	".rodata.std_io::io::error::last_error","a",@progbits
	.p2align	2, 0x0
.LJTI4_0:
	.long	.LBB4_3-.LJTI4_0
	.long	.LBB4_4-.LJTI4_0
	.long	.LBB4_40-.LJTI4_0
	.long	.LBB4_5-.LJTI4_0
	.long	.LBB4_40-.LJTI4_0
	.long	.LBB4_40-.LJTI4_0
	.long	.LBB4_6-.LJTI4_0
	.long	.LBB4_40-.LJTI4_0
	.long	.LBB4_40-.LJTI4_0
	.long	.LBB4_40-.LJTI4_0
	.long	.LBB4_7-.LJTI4_0
	.long	.LBB4_8-.LJTI4_0
	.long	.LBB4_3-.LJTI4_0
	.long	.LBB4_40-.LJTI4_0
	.long	.LBB4_40-.LJTI4_0
	.long	.LBB4_9-.LJTI4_0
	.long	.LBB4_10-.LJTI4_0
	.long	.LBB4_11-.LJTI4_0
	.long	.LBB4_40-.LJTI4_0
	.long	.LBB4_12-.LJTI4_0
	.long	.LBB4_13-.LJTI4_0
	.long	.LBB4_14-.LJTI4_0
	.long	.LBB4_40-.LJTI4_0
	.long	.LBB4_40-.LJTI4_0
	.long	.LBB4_40-.LJTI4_0
	.long	.LBB4_15-.LJTI4_0
	.long	.LBB4_16-.LJTI4_0
	.long	.LBB4_17-.LJTI4_0
	.long	.LBB4_18-.LJTI4_0
	.long	.LBB4_19-.LJTI4_0
	.long	.LBB4_20-.LJTI4_0
	.long	.LBB4_21-.LJTI4_0
	.long	.LBB4_40-.LJTI4_0
	.long	.LBB4_40-.LJTI4_0
	.long	.LBB4_22-.LJTI4_0
	.long	.LBB4_23-.LJTI4_0
	.long	.LBB4_40-.LJTI4_0
	.long	.LBB4_24-.LJTI4_0
	.long	.LBB4_25-.LJTI4_0
	.long	.LBB4_26-.LJTI4_0
	.long	.LBB4_40-.LJTI4_0
	.long	.LBB4_40-.LJTI4_0
	.long	.LBB4_40-.LJTI4_0
	.long	.LBB4_40-.LJTI4_0
	.long	.LBB4_40-.LJTI4_0
	.long	.LBB4_40-.LJTI4_0
	.long	.LBB4_40-.LJTI4_0
	.long	.LBB4_40-.LJTI4_0
	.long	.LBB4_40-.LJTI4_0
	.long	.LBB4_40-.LJTI4_0
	.long	.LBB4_40-.LJTI4_0
	.long	.LBB4_40-.LJTI4_0
	.long	.LBB4_40-.LJTI4_0
	.long	.LBB4_40-.LJTI4_0
	.long	.LBB4_40-.LJTI4_0
	.long	.LBB4_40-.LJTI4_0
	.long	.LBB4_40-.LJTI4_0
	.long	.LBB4_40-.LJTI4_0
	.long	.LBB4_40-.LJTI4_0
	.long	.LBB4_40-.LJTI4_0
	.long	.LBB4_40-.LJTI4_0
	.long	.LBB4_40-.LJTI4_0
	.long	.LBB4_40-.LJTI4_0
	.long	.LBB4_40-.LJTI4_0
	.long	.LBB4_40-.LJTI4_0
	.long	.LBB4_40-.LJTI4_0
	.long	.LBB4_40-.LJTI4_0
	.long	.LBB4_40-.LJTI4_0
	.long	.LBB4_40-.LJTI4_0
	.long	.LBB4_40-.LJTI4_0
	.long	.LBB4_40-.LJTI4_0
	.long	.LBB4_40-.LJTI4_0
	.long	.LBB4_40-.LJTI4_0
	.long	.LBB4_40-.LJTI4_0
	.long	.LBB4_40-.LJTI4_0
	.long	.LBB4_40-.LJTI4_0
	.long	.LBB4_40-.LJTI4_0
	.long	.LBB4_40-.LJTI4_0
	.long	.LBB4_40-.LJTI4_0
	.long	.LBB4_40-.LJTI4_0
	.long	.LBB4_40-.LJTI4_0
	.long	.LBB4_40-.LJTI4_0
	.long	.LBB4_40-.LJTI4_0
	.long	.LBB4_40-.LJTI4_0
	.long	.LBB4_40-.LJTI4_0
	.long	.LBB4_40-.LJTI4_0
	.long	.LBB4_40-.LJTI4_0
	.long	.LBB4_40-.LJTI4_0
	.long	.LBB4_40-.LJTI4_0
	.long	.LBB4_40-.LJTI4_0
	.long	.LBB4_40-.LJTI4_0
	.long	.LBB4_40-.LJTI4_0
	.long	.LBB4_40-.LJTI4_0
	.long	.LBB4_40-.LJTI4_0
	.long	.LBB4_24-.LJTI4_0
	.long	.LBB4_40-.LJTI4_0
	.long	.LBB4_40-.LJTI4_0
	.long	.LBB4_27-.LJTI4_0
	.long	.LBB4_28-.LJTI4_0
	.long	.LBB4_29-.LJTI4_0
	.long	.LBB4_30-.LJTI4_0
	.long	.LBB4_40-.LJTI4_0
	.long	.LBB4_31-.LJTI4_0
	.long	.LBB4_32-.LJTI4_0
	.long	.LBB4_40-.LJTI4_0
	.long	.LBB4_40-.LJTI4_0
	.long	.LBB4_33-.LJTI4_0
	.long	.LBB4_40-.LJTI4_0
	.long	.LBB4_40-.LJTI4_0
	.long	.LBB4_34-.LJTI4_0
	.long	.LBB4_35-.LJTI4_0
	.long	.LBB4_40-.LJTI4_0
	.long	.LBB4_36-.LJTI4_0
	.long	.LBB4_40-.LJTI4_0
	.long	.LBB4_37-.LJTI4_0
	.long	.LBB4_38-.LJTI4_0
	.long	.LBB4_40-.LJTI4_0
	.long	.LBB4_40-.LJTI4_0
	.long	.LBB4_40-.LJTI4_0
	.long	.LBB4_40-.LJTI4_0
	.long	.LBB4_40-.LJTI4_0
	.long	.LBB4_39-.LJTI4_0

	.section	.rodata.cst16,"aM",@progbits,16
	.p2align	4, 0x0
.LCPI5_0:
	.zero	16,10
	.section	.text.main,"ax",@progbits
	.globl	main
	.p2align	4
	.type	main,@function
main:
	pushq	%rbp
	pushq	%r15
	pushq	%r14
	pushq	%r13
	pushq	%r12
	pushq	%rbx
	movq	%rsp, %r11
	subq	$248832, %r11
.LBB5_1:
	subq	$3072, %rsp
	movq	$0, (%rsp)
	cmpq	%r11, %rsp
	jne	.LBB5_1
	subq	$1352, %rsp
	movl	$1, %esi
	movl	$13, %edi
	callq	__sysv_signal@PLT
	leaq	57(%rsp), %rdi
	xorl	%r15d, %r15d
	movl	$1031, %edx
	xorl	%esi, %esi
	callq	memset@PLT
	leaq	184648(%rsp), %rdi
	movl	$65536, %edx
	xorl	%esi, %esi
	callq	memset@PLT
	leaq	53576(%rsp), %rdi
	movl	$131072, %edx
	xorl	%esi, %esi
	callq	memset@PLT
	movb	$1, 7(%rsp)
	xorl	%ebx, %ebx
	movq	$0, 40(%rsp)
	xorl	%ebp, %ebp
	xorl	%r14d, %r14d
	jmp	.LBB5_3
	.p2align	4
.LBB5_6:
	movq	%r14, %r12
.LBB5_24:
	movzbl	7(%rsp), %edx
	leaq	16(%rsp), %rdi
	leaq	53576(%rsp), %rcx
	movq	40(%rsp), %rsi
	movq	8(%rsp), %r8
	callq	"line_io::send::<#df9e9f1468b30f79>"
	cmpb	$0, 16(%rsp)
	jne	.LBB5_34
	movq	24(%rsp), %rax
	movq	%rax, 40(%rsp)
	movzbl	32(%rsp), %eax
	movb	%al, 7(%rsp)
	movq	%r12, %r14
	movq	48(%rsp), %rbx
	incq	%rbx
	cmpq	$-1, %rbx
	je	.LBB5_8
.LBB5_3:
	cmpq	%r15, %rbp
	jae	.LBB5_26
	movq	%rbx, 48(%rsp)
	pxor	%xmm0, %xmm0
	movdqa	%xmm0, 16(%rsp)
	movq	$0, 32(%rsp)
	leaq	1088(%rsp), %rdi
	movq	$0, 8(%rsp)
	movl	$52488, %edx
	xorl	%esi, %esi
	callq	memset@PLT
	jmp	.LBB5_5
.LBB5_17:
	movq	%rbx, %r13
	.p2align	4
.LBB5_18:
	movl	$1031, %r12d
	subq	%r14, %r12
	cmpq	%r13, %r12
	cmovaeq	%r13, %r12
	leaq	(%rsp,%r14), %rdi
	addq	$57, %rdi
	movq	%r12, %rdx
	callq	memcpy@PLT
	addq	%r14, %r12
	addq	%r13, %rbp
	movq	%r12, %r14
	cmpq	%r15, %rbp
	jae	.LBB5_24
.LBB5_5:
	movq	8(%rsp), %rax
	addq	$-122833, %rax
	cmpq	$8240, %rax
	jb	.LBB5_6
	leaq	(%rsp,%rbp), %rsi
	addq	$184648, %rsi
	movq	%r15, %r13
	subq	%rbp, %r13
	xorl	%ebx, %ebx
	cmpq	$32, %r13
	jb	.LBB5_13
	movq	%r13, %rax
	.p2align	4
.LBB5_11:
	movdqu	(%rsi,%rbx), %xmm0
	movdqu	16(%rsi,%rbx), %xmm1
	movdqa	.LCPI5_0(%rip), %xmm2
	pcmpeqb	%xmm2, %xmm1
	pcmpeqb	%xmm2, %xmm0
	por	%xmm1, %xmm0
	pmovmskb	%xmm0, %ecx
	testl	%ecx, %ecx
	jne	.LBB5_13
	addq	$32, %rbx
	addq	$-32, %rax
	cmpq	$31, %rax
	ja	.LBB5_11
.LBB5_13:
	cmpq	%r13, %rbx
	jae	.LBB5_18
	.p2align	4
.LBB5_14:
	cmpb	$10, (%rsi,%rbx)
	je	.LBB5_16
	incq	%rbx
	cmpq	%rbx, %r13
	jne	.LBB5_14
	jmp	.LBB5_18
	.p2align	4
.LBB5_16:
	cmpq	%rbx, %r13
	jbe	.LBB5_17
	testq	%r14, %r14
	je	.LBB5_20
	movl	$1031, %r12d
	subq	%r14, %r12
	cmpq	%rbx, %r12
	cmovaeq	%rbx, %r12
	leaq	(%rsp,%r14), %rdi
	addq	$57, %rdi
	movq	%r12, %rdx
	callq	memcpy@PLT
	addq	%r14, %r12
	leaq	57(%rsp), %rdi
	leaq	1088(%rsp), %rdx
	leaq	53576(%rsp), %rcx
	movq	%r12, %rsi
	jmp	.LBB5_22
.LBB5_20:
	cmpq	$1031, %rbx
	movl	$1031, %eax
	cmovbq	%rbx, %rax
	leaq	1088(%rsp), %rdx
	leaq	53576(%rsp), %rcx
	movq	%rsi, %rdi
	movq	%rax, %rsi
.LBB5_22:
	movq	8(%rsp), %r8
	callq	"lines::tell"
	movq	%rax, 8(%rsp)
	addq	%rbx, %rbp
	incq	%rbp
	xorl	%r12d, %r12d
	movq	%r12, %r14
	cmpq	%r15, %rbp
	jb	.LBB5_5
	jmp	.LBB5_24
	.p2align	4
.LBB5_26:
	leaq	184648(%rsp), %rsi
	movl	$65536, %edx
	xorl	%edi, %edi
	callq	read@PLT
	testq	%rax, %rax
	js	.LBB5_27
	je	.LBB5_30
	cmpq	$65536, %rax
	movl	$65536, %r15d
	cmovbq	%rax, %r15
	xorl	%ebp, %ebp
	incq	%rbx
	cmpq	$-1, %rbx
	jne	.LBB5_3
.LBB5_8:
	movl	$1, %eax
	jmp	.LBB5_35
.LBB5_27:
	leaq	1088(%rsp), %rdi
	callq	"std_io::io::error::last_error"
	movl	$1, %eax
	jmp	.LBB5_35
.LBB5_30:
	pxor	%xmm0, %xmm0
	movdqa	%xmm0, 16(%rsp)
	movq	$0, 32(%rsp)
	testq	%r14, %r14
	je	.LBB5_31
	leaq	1088(%rsp), %r15
	movl	$52488, %edx
	movq	%r15, %rdi
	xorl	%esi, %esi
	callq	memset@PLT
	leaq	57(%rsp), %rdi
	leaq	53576(%rsp), %rcx
	movq	%r14, %rsi
	movq	%r15, %rdx
	xorl	%r8d, %r8d
	callq	"lines::tell"
	movq	%rax, %r8
	jmp	.LBB5_33
.LBB5_31:
	xorl	%r8d, %r8d
.LBB5_33:
	movzbl	7(%rsp), %edx
	leaq	16(%rsp), %rdi
	leaq	53576(%rsp), %rcx
	movq	40(%rsp), %rsi
	callq	"line_io::send::<#df9e9f1468b30f79>"
	cmpb	$0, 16(%rsp)
	movl	$0, %eax
	je	.LBB5_35
.LBB5_34:
	movzbl	17(%rsp), %eax
	cmpb	$1, %al
	movl	$2, %eax
	sbbl	$0, %eax
.LBB5_35:
	addq	$250184, %rsp
	popq	%rbx
	popq	%r12
	popq	%r13
	popq	%r14
	popq	%r15
	popq	%rbp
	retq
.Lfunc_end5:
	.size	main, .Lfunc_end5-main

	.ident	"rattle logic=dac8208d650f15bf3e2dc313a14fa4c783a3acf887bdfab66e1714b038d9e11b"
	.section	".note.GNU-stack","",@progbits
