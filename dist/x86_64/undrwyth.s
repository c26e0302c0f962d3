/* Undrwyth, the library for x86_64 under Linux: made by scripts/dist from the sources of state 6ebe34014c5cbdcaab53ada40270abd81a24510c61112a54dce22a0a74dc2a61, which the Rattle kit proved; do not edit. SPDX-License-Identifier: MIT */
	.file	"rattle"
	.section	.rodata.cst16,"aM",@progbits,16
	.p2align	4, 0x0
.LCPI0_0:
	.zero	16,1
.LCPI0_1:
	.zero	16,208
.LCPI0_2:
	.zero	16,9
.LCPI0_3:
	.zero	16,159
.LCPI0_4:
	.zero	16,5
.LCPI0_5:
	.zero	2
	.short	65535
	.short	65535
	.short	65535
	.short	65535
	.short	65535
	.short	65535
	.short	65535
.LCPI0_6:
	.byte	208
	.byte	208
	.byte	208
	.byte	208
	.byte	208
	.byte	208
	.byte	208
	.byte	208
	.zero	1
	.zero	1
	.zero	1
	.zero	1
	.zero	1
	.zero	1
	.zero	1
	.zero	1
.LCPI0_7:
	.byte	10
	.byte	10
	.byte	10
	.byte	10
	.byte	10
	.byte	10
	.byte	10
	.byte	10
	.zero	1
	.zero	1
	.zero	1
	.zero	1
	.zero	1
	.zero	1
	.zero	1
	.zero	1
.LCPI0_8:
	.byte	159
	.byte	159
	.byte	159
	.byte	159
	.byte	159
	.byte	159
	.byte	159
	.byte	159
	.zero	1
	.zero	1
	.zero	1
	.zero	1
	.zero	1
	.zero	1
	.zero	1
	.zero	1
.LCPI0_9:
	.byte	6
	.byte	6
	.byte	6
	.byte	6
	.byte	6
	.byte	6
	.byte	6
	.byte	6
	.zero	1
	.zero	1
	.zero	1
	.zero	1
	.zero	1
	.zero	1
	.zero	1
	.zero	1
	.section	".text.line_parts::read","ax",@progbits
	.p2align	4
	.type	"line_parts::read",@function
"line_parts::read":
	cmpq	$5, %rdx
	jbe	.LBB0_19
	cmpq	$1030, %rdx
	ja	.LBB0_19
	cmpq	$8, %rdx
	jae	.LBB0_5
	movb	$1, %cl
	xorl	%eax, %eax
	jmp	.LBB0_4
.LBB0_5:
	cmpq	$32, %rdx
	jae	.LBB0_7
	movb	$1, %cl
	xorl	%eax, %eax
	jmp	.LBB0_11
.LBB0_7:
	movl	%edx, %eax
	andl	$2016, %eax
	movdqa	.LCPI0_0(%rip), %xmm0
	xorl	%ecx, %ecx
	movdqa	%xmm0, %xmm1
	.p2align	4
.LBB0_8:
	movdqu	(%rsi,%rcx), %xmm2
	movdqu	16(%rsi,%rcx), %xmm3
	movdqa	.LCPI0_1(%rip), %xmm4
	movdqa	%xmm2, %xmm5
	paddb	%xmm4, %xmm5
	paddb	%xmm3, %xmm4
	movdqa	.LCPI0_2(%rip), %xmm6
	movdqa	%xmm5, %xmm7
	pminub	%xmm6, %xmm7
	pcmpeqb	%xmm5, %xmm7
	pminub	%xmm4, %xmm6
	pcmpeqb	%xmm4, %xmm6
	movdqa	.LCPI0_3(%rip), %xmm4
	paddb	%xmm4, %xmm2
	paddb	%xmm4, %xmm3
	movdqa	.LCPI0_4(%rip), %xmm4
	movdqa	%xmm2, %xmm5
	pminub	%xmm4, %xmm5
	pcmpeqb	%xmm2, %xmm5
	por	%xmm7, %xmm5
	pand	%xmm5, %xmm1
	pminub	%xmm3, %xmm4
	pcmpeqb	%xmm3, %xmm4
	por	%xmm6, %xmm4
	pand	%xmm4, %xmm0
	addq	$32, %rcx
	cmpq	%rcx, %rax
	jne	.LBB0_8
	pand	%xmm1, %xmm0
	psllw	$7, %xmm0
	pmovmskb	%xmm0, %ecx
	cmpl	$65535, %ecx
	sete	%cl
	cmpq	%rax, %rdx
	je	.LBB0_15
	testb	$24, %dl
	je	.LBB0_4
.LBB0_11:
	movq	%rax, %r8
	movl	%edx, %eax
	andl	$2040, %eax
	movzbl	%cl, %ecx
	movdqa	.LCPI0_5(%rip), %xmm0
	pinsrw	$0, %ecx, %xmm0
	.p2align	4
.LBB0_12:
	movq	(%rsi,%r8), %xmm1
	movdqa	.LCPI0_6(%rip), %xmm2
	paddb	%xmm1, %xmm2
	movdqa	.LCPI0_7(%rip), %xmm3
	pmaxub	%xmm2, %xmm3
	pcmpeqb	%xmm2, %xmm3
	pcmpeqd	%xmm2, %xmm2
	pxor	%xmm2, %xmm3
	paddb	.LCPI0_8(%rip), %xmm1
	movdqa	.LCPI0_9(%rip), %xmm4
	pmaxub	%xmm1, %xmm4
	pcmpeqb	%xmm1, %xmm4
	pxor	%xmm2, %xmm4
	por	%xmm3, %xmm4
	punpcklbw	%xmm4, %xmm4
	pand	%xmm4, %xmm0
	addq	$8, %r8
	cmpq	%r8, %rax
	jne	.LBB0_12
	psllw	$7, %xmm0
	pmovmskb	%xmm0, %ecx
	notl	%ecx
	testl	$21845, %ecx
	sete	%cl
	jmp	.LBB0_14
.LBB0_4:
	movzbl	(%rsi,%rax), %r8d
	leal	-48(%r8), %r9d
	cmpb	$10, %r9b
	setb	%r9b
	addb	$-97, %r8b
	cmpb	$6, %r8b
	setb	%r8b
	orb	%r9b, %r8b
	andb	%r8b, %cl
	incq	%rax
.LBB0_14:
	cmpq	%rax, %rdx
	jne	.LBB0_4
.LBB0_15:
	testb	%cl, %cl
	je	.LBB0_19
	movzbl	(%rsi), %eax
	movzbl	1(%rsi), %r9d
	cmpb	$58, %al
	movl	$208, %ecx
	movl	$169, %r10d
	cmovbl	%ecx, %r10d
	movl	$169, %r8d
	addb	%al, %r10b
	movzbl	%r10b, %r10d
	shll	$4, %r10d
	cmpb	$58, %r9b
	movl	$169, %eax
	cmovbl	%ecx, %eax
	addb	%r9b, %al
	movzbl	%al, %eax
	addl	%eax, %r10d
	cmpl	$2, %r10d
	jae	.LBB0_19
	pushq	%rbx
	movzbl	2(%rsi), %r9d
	cmpb	$58, %r9b
	movl	$169, %r10d
	cmovbl	%ecx, %r10d
	movzbl	3(%rsi), %r11d
	addb	%r9b, %r10b
	cmpb	$58, %r11b
	movl	$169, %r9d
	cmovbl	%ecx, %r9d
	addb	%r11b, %r9b
	movzbl	%r10b, %r10d
	shll	$12, %r10d
	movzbl	%r9b, %r9d
	shll	$8, %r9d
	movzbl	4(%rsi), %r11d
	cmpb	$58, %r11b
	movl	$169, %ebx
	cmovbl	%ecx, %ebx
	addb	%r11b, %bl
	movzbl	%bl, %r11d
	shll	$4, %r11d
	movzbl	5(%rsi), %esi
	cmpb	$58, %sil
	cmovbl	%ecx, %r8d
	addb	%sil, %r8b
	movzbl	%r8b, %ecx
	addq	%r10, %r9
	orq	%rcx, %r9
	addq	%r11, %r9
	addq	$-6, %rdx
	cmpq	%r9, %rdx
	popq	%rbx
	jne	.LBB0_19
	movq	$1, (%rdi)
	movq	%rax, 8(%rdi)
	movq	%r9, 16(%rdi)
	retq
.LBB0_19:
	pxor	%xmm0, %xmm0
	movdqu	%xmm0, (%rdi)
	movq	$0, 16(%rdi)
	retq
.Lfunc_end0:
	.size	"line_parts::read", .Lfunc_end0-"line_parts::read"

	.section	.rodata.cst16,"aM",@progbits,16
	.p2align	4, 0x0
.LCPI1_0:
	.zero	16,57
.LCPI1_1:
	.zero	16,169
.LCPI1_2:
	.zero	16,208
.LCPI1_3:
	.byte	58
	.byte	58
	.byte	58
	.byte	58
	.byte	58
	.byte	58
	.byte	58
	.byte	58
	.zero	1
	.zero	1
	.zero	1
	.zero	1
	.zero	1
	.zero	1
	.zero	1
	.zero	1
.LCPI1_4:
	.byte	169
	.byte	169
	.byte	169
	.byte	169
	.byte	169
	.byte	169
	.byte	169
	.byte	169
	.zero	1
	.zero	1
	.zero	1
	.zero	1
	.zero	1
	.zero	1
	.zero	1
	.zero	1
.LCPI1_5:
	.byte	208
	.byte	208
	.byte	208
	.byte	208
	.byte	208
	.byte	208
	.byte	208
	.byte	208
	.zero	1
	.zero	1
	.zero	1
	.zero	1
	.zero	1
	.zero	1
	.zero	1
	.zero	1
.LCPI1_6:
	.zero	16,9
.LCPI1_7:
	.zero	16,48
.LCPI1_8:
	.zero	16,87
.LCPI1_9:
	.byte	10
	.byte	10
	.byte	10
	.byte	10
	.byte	10
	.byte	10
	.byte	10
	.byte	10
	.zero	1
	.zero	1
	.zero	1
	.zero	1
	.zero	1
	.zero	1
	.zero	1
	.zero	1
.LCPI1_10:
	.byte	48
	.byte	48
	.byte	48
	.byte	48
	.byte	48
	.byte	48
	.byte	48
	.byte	48
	.zero	1
	.zero	1
	.zero	1
	.zero	1
	.zero	1
	.zero	1
	.zero	1
	.zero	1
.LCPI1_11:
	.byte	87
	.byte	87
	.byte	87
	.byte	87
	.byte	87
	.byte	87
	.byte	87
	.byte	87
	.zero	1
	.zero	1
	.zero	1
	.zero	1
	.zero	1
	.zero	1
	.zero	1
	.zero	1
	.section	".text.line_convert::convert_frame","ax",@progbits
	.p2align	4
	.type	"line_convert::convert_frame",@function
"line_convert::convert_frame":
	pushq	%r15
	pushq	%r14
	pushq	%r12
	pushq	%rbx
	subq	$2056, %rsp
	movq	%rcx, %rbx
	movq	%rdx, %r14
	movq	%rsi, %r15
	movq	%rdi, %r12
	leaq	8(%rsp), %rdi
	movl	$1024, %edx
	xorl	%esi, %esi
	callq	memset@PLT
	movq	%r15, %rax
	addq	$-6, %rax
	je	.LBB1_15
	cmpq	$8, %rax
	jae	.LBB1_3
	xorl	%ecx, %ecx
	jmp	.LBB1_12
.LBB1_3:
	cmpq	$32, %rax
	jae	.LBB1_5
	xorl	%ecx, %ecx
	jmp	.LBB1_9
.LBB1_5:
	movq	%rax, %rcx
	andq	$-32, %rcx
	xorl	%edx, %edx
	.p2align	4
.LBB1_6:
	movdqu	6(%r12,%rdx), %xmm0
	movdqu	22(%r12,%rdx), %xmm1
	movdqa	.LCPI1_0(%rip), %xmm2
	movdqa	%xmm0, %xmm3
	pminub	%xmm2, %xmm3
	pcmpeqb	%xmm0, %xmm3
	pminub	%xmm1, %xmm2
	pcmpeqb	%xmm1, %xmm2
	movdqa	.LCPI1_1(%rip), %xmm4
	movdqa	%xmm3, %xmm5
	pandn	%xmm4, %xmm5
	movdqa	.LCPI1_2(%rip), %xmm6
	pand	%xmm6, %xmm3
	por	%xmm5, %xmm3
	movdqa	%xmm2, %xmm5
	pandn	%xmm4, %xmm5
	pand	%xmm6, %xmm2
	por	%xmm5, %xmm2
	paddb	%xmm0, %xmm3
	paddb	%xmm1, %xmm2
	movdqu	%xmm3, 8(%rsp,%rdx)
	movdqu	%xmm2, 24(%rsp,%rdx)
	addq	$32, %rdx
	cmpq	%rdx, %rcx
	jne	.LBB1_6
	cmpq	%rcx, %rax
	je	.LBB1_15
	testb	$24, %al
	je	.LBB1_12
.LBB1_9:
	movq	%rcx, %rdx
	movq	%rax, %rcx
	andq	$-8, %rcx
	.p2align	4
.LBB1_10:
	movq	6(%r12,%rdx), %xmm0
	movdqa	.LCPI1_3(%rip), %xmm1
	pmaxub	%xmm0, %xmm1
	pcmpeqb	%xmm0, %xmm1
	movdqa	.LCPI1_4(%rip), %xmm2
	pand	%xmm1, %xmm2
	pandn	.LCPI1_5(%rip), %xmm1
	por	%xmm2, %xmm1
	paddb	%xmm0, %xmm1
	movq	%xmm1, 8(%rsp,%rdx)
	addq	$8, %rdx
	cmpq	%rdx, %rcx
	jne	.LBB1_10
.LBB1_11:
	cmpq	%rcx, %rax
	je	.LBB1_15
.LBB1_12:
	movzbl	6(%r12,%rcx), %edx
	movl	$208, %esi
	cmpb	$58, %dl
	jb	.LBB1_14
	movl	$169, %esi
.LBB1_14:
	addb	%dl, %sil
	movb	%sil, 8(%rsp,%rcx)
	incq	%rcx
	jmp	.LBB1_11
.LBB1_15:
	leaq	1032(%rsp), %rdi
	movl	$1024, %edx
	xorl	%esi, %esi
	callq	memset@PLT
	cmpq	$32768, %r14
	ja	.LBB1_55
	testq	%r14, %r14
	je	.LBB1_41
	cmpq	$4, %r14
	jae	.LBB1_20
	xorl	%ecx, %ecx
	xorl	%eax, %eax
	jmp	.LBB1_19
.LBB1_20:
	cmpq	$32, %r14
	jae	.LBB1_22
	xorl	%eax, %eax
	xorl	%ecx, %ecx
	jmp	.LBB1_26
.LBB1_22:
	movl	%r14d, %eax
	andl	$65504, %eax
	pxor	%xmm0, %xmm0
	xorl	%ecx, %ecx
	pxor	%xmm1, %xmm1
	.p2align	4
.LBB1_23:
	movdqu	8(%rsp,%rcx), %xmm2
	pmaxub	%xmm2, %xmm0
	movdqu	24(%rsp,%rcx), %xmm2
	pmaxub	%xmm2, %xmm1
	addq	$32, %rcx
	cmpq	%rcx, %rax
	jne	.LBB1_23
	pmaxub	%xmm1, %xmm0
	pshufd	$238, %xmm0, %xmm1
	pmaxub	%xmm0, %xmm1
	pshufd	$85, %xmm1, %xmm0
	pmaxub	%xmm1, %xmm0
	movdqa	%xmm0, %xmm1
	psrld	$16, %xmm1
	pmaxub	%xmm0, %xmm1
	movdqa	%xmm1, %xmm0
	psrlw	$8, %xmm0
	pmaxub	%xmm1, %xmm0
	movd	%xmm0, %ecx
	cmpq	%rax, %r14
	je	.LBB1_30
	testb	$28, %r14b
	je	.LBB1_19
.LBB1_26:
	movq	%rax, %rdx
	movl	%r14d, %eax
	andl	$65532, %eax
	movzbl	%cl, %ecx
	movd	%ecx, %xmm0
	punpcklbw	%xmm0, %xmm0
	pshuflw	$0, %xmm0, %xmm0
	.p2align	4
.LBB1_27:
	movd	8(%rsp,%rdx), %xmm1
	pmaxub	%xmm1, %xmm0
	addq	$4, %rdx
	cmpq	%rdx, %rax
	jne	.LBB1_27
	movdqa	%xmm0, %xmm1
	psrld	$16, %xmm1
	pmaxub	%xmm0, %xmm1
	movdqa	%xmm1, %xmm0
	psrlw	$8, %xmm0
	pmaxub	%xmm1, %xmm0
	movd	%xmm0, %ecx
	jmp	.LBB1_29
.LBB1_19:
	movzbl	8(%rsp,%rax), %edx
	movzbl	%cl, %ecx
	cmpb	%cl, %dl
	cmoval	%edx, %ecx
	incq	%rax
.LBB1_29:
	cmpq	%rax, %r14
	jne	.LBB1_19
.LBB1_30:
	cmpb	$4, %cl
	jb	.LBB1_34
	xorl	%eax, %eax
	.p2align	4
.LBB1_32:
	cmpb	$3, 8(%rsp,%rax)
	ja	.LBB1_55
	incq	%rax
	cmpq	%rax, %r14
	jne	.LBB1_32
.LBB1_34:
	leaq	-1(%r14), %rcx
	movl	%r14d, %eax
	andl	$3, %eax
	cmpq	$3, %rcx
	jae	.LBB1_36
	xorl	%ecx, %ecx
	xorl	%edx, %edx
	jmp	.LBB1_39
.LBB1_55:
	testq	%r15, %r15
	je	.LBB1_56
	cmpq	$4, %r15
	setb	%al
	movq	%rbx, %rcx
	subq	%r12, %rcx
	cmpq	$32, %rcx
	setb	%cl
	orb	%al, %cl
	je	.LBB1_59
	xorl	%eax, %eax
	jmp	.LBB1_68
.LBB1_56:
	xorl	%r15d, %r15d
	jmp	.LBB1_73
.LBB1_59:
	cmpq	$32, %r15
	jae	.LBB1_61
	xorl	%eax, %eax
	jmp	.LBB1_65
.LBB1_36:
	movl	%r14d, %esi
	andl	$65532, %esi
	xorl	%ecx, %ecx
	xorl	%edx, %edx
	.p2align	4
.LBB1_37:
	addb	8(%rsp,%rdx), %cl
	movl	%ecx, %edi
	andb	$3, %dil
	movb	%dil, 1032(%rsp,%rdx)
	addb	9(%rsp,%rdx), %cl
	movl	%ecx, %edi
	andb	$3, %dil
	movb	%dil, 1033(%rsp,%rdx)
	addb	10(%rsp,%rdx), %cl
	movl	%ecx, %edi
	andb	$3, %dil
	movb	%dil, 1034(%rsp,%rdx)
	addb	11(%rsp,%rdx), %cl
	andb	$3, %cl
	movb	%cl, 1035(%rsp,%rdx)
	addq	$4, %rdx
	cmpq	%rdx, %rsi
	jne	.LBB1_37
	testq	%rax, %rax
	je	.LBB1_41
.LBB1_39:
	leaq	(%rsp,%rdx), %rsi
	addq	$1032, %rsi
	addq	%rsp, %rdx
	addq	$8, %rdx
	xorl	%edi, %edi
	.p2align	4
.LBB1_40:
	addb	(%rdx,%rdi), %cl
	andb	$3, %cl
	movb	%cl, (%rsi,%rdi)
	incq	%rdi
	cmpq	%rdi, %rax
	jne	.LBB1_40
.LBB1_41:
	movl	%r14d, %eax
	andb	$15, %al
	leal	48(%rax), %ecx
	leal	87(%rax), %edx
	cmpb	$10, %al
	movzbl	%cl, %ecx
	movzbl	%dl, %eax
	cmovbl	%ecx, %eax
	movl	%r14d, %ecx
	shrb	$4, %cl
	leal	48(%rcx), %edx
	addb	$87, %cl
	cmpb	$-96, %r14b
	movzbl	%dl, %edx
	movzbl	%cl, %ecx
	cmovbl	%edx, %ecx
	movl	%r14d, %edx
	shrl	$8, %edx
	andb	$15, %dl
	leal	48(%rdx), %esi
	leal	87(%rdx), %edi
	cmpb	$10, %dl
	movzbl	%sil, %edx
	movzbl	%dil, %esi
	cmovbl	%edx, %esi
	movl	%r14d, %edx
	shrl	$12, %edx
	orb	$48, %dl
	movw	$12336, (%rbx)
	movb	%al, 5(%rbx)
	movb	%cl, 4(%rbx)
	movb	%sil, 3(%rbx)
	movb	%dl, 2(%rbx)
	testq	%r14, %r14
	je	.LBB1_54
	cmpq	$8, %r14
	jae	.LBB1_45
	xorl	%eax, %eax
	jmp	.LBB1_44
.LBB1_45:
	cmpq	$32, %r14
	jae	.LBB1_47
	xorl	%eax, %eax
	jmp	.LBB1_51
.LBB1_61:
	movq	%r15, %rax
	andq	$-32, %rax
	xorl	%ecx, %ecx
	.p2align	4
.LBB1_62:
	movdqu	(%r12,%rcx), %xmm0
	movdqu	16(%r12,%rcx), %xmm1
	movdqu	%xmm0, (%rbx,%rcx)
	movdqu	%xmm1, 16(%rbx,%rcx)
	addq	$32, %rcx
	cmpq	%rcx, %rax
	jne	.LBB1_62
	cmpq	%rax, %r15
	je	.LBB1_73
	testb	$28, %r15b
	je	.LBB1_68
.LBB1_65:
	movq	%rax, %rcx
	movq	%r15, %rax
	andq	$-4, %rax
	.p2align	4
.LBB1_66:
	movl	(%r12,%rcx), %edx
	movl	%edx, (%rbx,%rcx)
	addq	$4, %rcx
	cmpq	%rcx, %rax
	jne	.LBB1_66
	cmpq	%rax, %r15
	je	.LBB1_73
.LBB1_68:
	movq	%r15, %rdx
	movq	%rax, %rcx
	andq	$3, %rdx
	je	.LBB1_71
	movq	%rax, %rcx
	.p2align	4
.LBB1_70:
	movzbl	(%r12,%rcx), %esi
	movb	%sil, (%rbx,%rcx)
	incq	%rcx
	decq	%rdx
	jne	.LBB1_70
.LBB1_71:
	subq	%r15, %rax
	cmpq	$-4, %rax
	ja	.LBB1_73
	.p2align	4
.LBB1_72:
	movzbl	(%r12,%rcx), %eax
	movb	%al, (%rbx,%rcx)
	movzbl	1(%r12,%rcx), %eax
	movb	%al, 1(%rbx,%rcx)
	movzbl	2(%r12,%rcx), %eax
	movb	%al, 2(%rbx,%rcx)
	movzbl	3(%r12,%rcx), %eax
	movb	%al, 3(%rbx,%rcx)
	addq	$4, %rcx
	cmpq	%rcx, %r15
	jne	.LBB1_72
	jmp	.LBB1_73
.LBB1_47:
	movl	%r14d, %eax
	andl	$65504, %eax
	xorl	%ecx, %ecx
	.p2align	4
.LBB1_48:
	movdqu	1032(%rsp,%rcx), %xmm0
	movdqu	1048(%rsp,%rcx), %xmm1
	movdqa	.LCPI1_6(%rip), %xmm2
	movdqa	%xmm0, %xmm3
	pminub	%xmm2, %xmm3
	pcmpeqb	%xmm0, %xmm3
	pminub	%xmm1, %xmm2
	pcmpeqb	%xmm1, %xmm2
	movdqa	.LCPI1_7(%rip), %xmm4
	movdqa	%xmm0, %xmm5
	por	%xmm4, %xmm5
	por	%xmm1, %xmm4
	movdqa	.LCPI1_8(%rip), %xmm6
	paddb	%xmm6, %xmm0
	paddb	%xmm6, %xmm1
	pand	%xmm3, %xmm5
	pandn	%xmm0, %xmm3
	por	%xmm5, %xmm3
	pand	%xmm2, %xmm4
	pandn	%xmm1, %xmm2
	por	%xmm4, %xmm2
	movdqu	%xmm3, 6(%rbx,%rcx)
	movdqu	%xmm2, 22(%rbx,%rcx)
	addq	$32, %rcx
	cmpq	%rcx, %rax
	jne	.LBB1_48
	cmpq	%rax, %r14
	je	.LBB1_54
	testb	$24, %r14b
	je	.LBB1_44
.LBB1_51:
	movq	%rax, %rcx
	movl	%r14d, %eax
	andl	$65528, %eax
	.p2align	4
.LBB1_52:
	movq	1032(%rsp,%rcx), %xmm0
	movdqa	.LCPI1_9(%rip), %xmm1
	pmaxub	%xmm0, %xmm1
	pcmpeqb	%xmm0, %xmm1
	movdqa	.LCPI1_10(%rip), %xmm2
	por	%xmm0, %xmm2
	paddb	.LCPI1_11(%rip), %xmm0
	pand	%xmm1, %xmm0
	pandn	%xmm2, %xmm1
	por	%xmm0, %xmm1
	movq	%xmm1, 6(%rbx,%rcx)
	addq	$8, %rcx
	cmpq	%rcx, %rax
	jne	.LBB1_52
	jmp	.LBB1_53
.LBB1_44:
	movzbl	1032(%rsp,%rax), %ecx
	movl	%ecx, %edx
	orb	$48, %dl
	leal	87(%rcx), %esi
	cmpb	$10, %cl
	movzbl	%dl, %ecx
	movzbl	%sil, %edx
	cmovbl	%ecx, %edx
	movb	%dl, 6(%rbx,%rax)
	incq	%rax
.LBB1_53:
	cmpq	%rax, %r14
	jne	.LBB1_44
.LBB1_54:
	addq	$6, %r14
	movq	%r14, %r15
.LBB1_73:
	movq	%r15, %rax
	addq	$2056, %rsp
	popq	%rbx
	popq	%r12
	popq	%r14
	popq	%r15
	retq
.Lfunc_end1:
	.size	"line_convert::convert_frame", .Lfunc_end1-"line_convert::convert_frame"

	.section	".text.room_map::is_room_in","ax",@progbits
	.p2align	4
	.type	"room_map::is_room_in",@function
"room_map::is_room_in":
	cmpq	$4, %rsi
	jb	.LBB2_2
	testb	$1, 24(%rdx)
	je	.LBB2_2
	subq	$296, %rsp
	movq	(%rdx), %rcx
	movq	%rdx, %rax
	movq	16(%rdx), %rdx
	movq	8(%rax), %rax
	imulq	%rcx, %rax
	cmpq	$256, %rax
	ja	.LBB2_8
	movq	$1, (%rsp)
	movq	%rcx, 8(%rsp)
	negq	%rcx
	movq	$-1, 16(%rsp)
	movq	%rcx, 24(%rsp)
	xorps	%xmm0, %xmm0
	movaps	%xmm0, 32(%rsp)
	movaps	%xmm0, 48(%rsp)
	movaps	%xmm0, 64(%rsp)
	movaps	%xmm0, 80(%rsp)
	movaps	%xmm0, 96(%rsp)
	movaps	%xmm0, 112(%rsp)
	movaps	%xmm0, 128(%rsp)
	movaps	%xmm0, 144(%rsp)
	movaps	%xmm0, 160(%rsp)
	movaps	%xmm0, 176(%rsp)
	movaps	%xmm0, 192(%rsp)
	movaps	%xmm0, 208(%rsp)
	movaps	%xmm0, 224(%rsp)
	movaps	%xmm0, 240(%rsp)
	movaps	%xmm0, 256(%rsp)
	movaps	%xmm0, 272(%rsp)
	xorl	%ecx, %ecx
	.p2align	4
.LBB2_6:
	cmpb	$0, 32(%rsp,%rdx)
	sete	%al
	jne	.LBB2_16
	movzbl	(%rdi,%rcx), %r8d
	movb	$1, 32(%rsp,%rdx)
	addq	(%rsp,%r8,8), %rdx
	incq	%rcx
	cmpq	%rcx, %rsi
	jne	.LBB2_6
.LBB2_16:
	addq	$296, %rsp
	retq
.LBB2_2:
	xorl	%eax, %eax
	retq
.LBB2_8:
	cmpq	$2048, %rax
	ja	.LBB2_10
	callq	"room_map::lone_sized::<=2048>"
	addq	$296, %rsp
	retq
.LBB2_10:
	cmpq	$257, %rsi
	setb	%r8b
	cmpq	$16385, %rax
	setae	%r9b
	orb	%r8b, %r9b
	jne	.LBB2_12
	callq	"room_map::lone_sized::<=16384>"
	addq	$296, %rsp
	retq
.LBB2_12:
	cmpq	$2049, %rsi
	setb	%r8b
	cmpq	$131073, %rax
	setae	%al
	orb	%r8b, %al
	jne	.LBB2_14
	callq	"room_map::lone_sized::<=131072>"
	addq	$296, %rsp
	retq
.LBB2_14:
	callq	"room_threads::is_room"
	addq	$296, %rsp
	retq
.Lfunc_end2:
	.size	"room_map::is_room_in", .Lfunc_end2-"room_map::is_room_in"

	.section	".text.room_map::lone_sized::<=2048>","ax",@progbits
	.p2align	4
	.type	"room_map::lone_sized::<=2048>",@function
"room_map::lone_sized::<=2048>":
	pushq	%r15
	pushq	%r14
	pushq	%r12
	pushq	%rbx
	subq	$2088, %rsp
	movq	%rdx, %rbx
	movq	%rsi, %r14
	movq	%rdi, %r15
	movq	$1, 8(%rsp)
	movq	%rcx, 16(%rsp)
	negq	%rcx
	movq	$-1, 24(%rsp)
	movq	%rcx, 32(%rsp)
	leaq	40(%rsp), %rdi
	xorl	%r12d, %r12d
	movl	$2048, %edx
	xorl	%esi, %esi
	callq	memset@PLT
	.p2align	4
.LBB3_1:
	movzbl	40(%rsp,%rbx), %eax
	testb	%al, %al
	jne	.LBB3_3
	movzbl	(%r15,%r12), %ecx
	movb	$1, 40(%rsp,%rbx)
	addq	8(%rsp,%rcx,8), %rbx
	incq	%r12
	cmpq	%r12, %r14
	jne	.LBB3_1
.LBB3_3:
	testb	%al, %al
	sete	%al
	addq	$2088, %rsp
	popq	%rbx
	popq	%r12
	popq	%r14
	popq	%r15
	retq
.Lfunc_end3:
	.size	"room_map::lone_sized::<=2048>", .Lfunc_end3-"room_map::lone_sized::<=2048>"

	.section	".text.room_map::lone_sized::<=16384>","ax",@progbits
	.p2align	4
	.type	"room_map::lone_sized::<=16384>",@function
"room_map::lone_sized::<=16384>":
	pushq	%r15
	pushq	%r14
	pushq	%r12
	pushq	%rbx
	subq	$3072, %rsp
	movq	$0, (%rsp)
	subq	$3072, %rsp
	movq	$0, (%rsp)
	subq	$3072, %rsp
	movq	$0, (%rsp)
	subq	$3072, %rsp
	movq	$0, (%rsp)
	subq	$3072, %rsp
	movq	$0, (%rsp)
	subq	$1064, %rsp
	movq	%rdx, %rbx
	movq	%rsi, %r14
	movq	%rdi, %r15
	movq	$1, 8(%rsp)
	movq	%rcx, 16(%rsp)
	negq	%rcx
	movq	$-1, 24(%rsp)
	movq	%rcx, 32(%rsp)
	leaq	40(%rsp), %rdi
	xorl	%r12d, %r12d
	movl	$16384, %edx
	xorl	%esi, %esi
	callq	memset@PLT
	.p2align	4
.LBB4_1:
	movzbl	40(%rsp,%rbx), %eax
	testb	%al, %al
	jne	.LBB4_3
	movzbl	(%r15,%r12), %ecx
	movb	$1, 40(%rsp,%rbx)
	addq	8(%rsp,%rcx,8), %rbx
	incq	%r12
	cmpq	%r12, %r14
	jne	.LBB4_1
.LBB4_3:
	testb	%al, %al
	sete	%al
	addq	$16424, %rsp
	popq	%rbx
	popq	%r12
	popq	%r14
	popq	%r15
	retq
.Lfunc_end4:
	.size	"room_map::lone_sized::<=16384>", .Lfunc_end4-"room_map::lone_sized::<=16384>"

	.section	".text.room_map::lone_sized::<=131072>","ax",@progbits
	.p2align	4
	.type	"room_map::lone_sized::<=131072>",@function
"room_map::lone_sized::<=131072>":
	pushq	%r15
	pushq	%r14
	pushq	%r12
	pushq	%rbx
	movq	%rsp, %r11
	subq	$129024, %r11
.LBB5_1:
	subq	$3072, %rsp
	movq	$0, (%rsp)
	cmpq	%r11, %rsp
	jne	.LBB5_1
	subq	$2088, %rsp
	movq	%rdx, %rbx
	movq	%rsi, %r14
	movq	%rdi, %r15
	movq	$1, 8(%rsp)
	movq	%rcx, 16(%rsp)
	negq	%rcx
	movq	$-1, 24(%rsp)
	movq	%rcx, 32(%rsp)
	leaq	40(%rsp), %rdi
	xorl	%r12d, %r12d
	movl	$131072, %edx
	xorl	%esi, %esi
	callq	memset@PLT
	.p2align	4
.LBB5_3:
	movzbl	40(%rsp,%rbx), %eax
	testb	%al, %al
	jne	.LBB5_5
	movzbl	(%r15,%r12), %ecx
	movb	$1, 40(%rsp,%rbx)
	addq	8(%rsp,%rcx,8), %rbx
	incq	%r12
	cmpq	%r12, %r14
	jne	.LBB5_3
.LBB5_5:
	testb	%al, %al
	sete	%al
	addq	$131112, %rsp
	popq	%rbx
	popq	%r12
	popq	%r14
	popq	%r15
	retq
.Lfunc_end5:
	.size	"room_map::lone_sized::<=131072>", .Lfunc_end5-"room_map::lone_sized::<=131072>"

	.section	".text.room_threads::is_room","ax",@progbits
	.p2align	4
	.type	"room_threads::is_room",@function
"room_threads::is_room":
	pushq	%rax
	cmpq	$257, %rsi
	jae	.LBB6_2
	callq	"room_threads::told_sized::<=258>"
	popq	%rcx
	retq
.LBB6_2:
	cmpq	$2048, %rsi
	ja	.LBB6_4
	callq	"room_threads::told_sized::<=2050>"
	popq	%rcx
	retq
.LBB6_4:
	callq	"room_threads::told_sized::<=16386>"
	popq	%rcx
	retq
.Lfunc_end6:
	.size	"room_threads::is_room", .Lfunc_end6-"room_threads::is_room"

	.section	.rodata.cst16,"aM",@progbits,16
	.p2align	4, 0x0
.LCPI7_0:
	.long	1
	.long	0
	.long	4294967295
	.long	0
	.section	".text.room_threads::told_sized::<=258>","ax",@progbits
	.p2align	4
	.type	"room_threads::told_sized::<=258>",@function
"room_threads::told_sized::<=258>":
	pushq	%r15
	pushq	%r14
	pushq	%rbx
	subq	$2096, %rsp
	movq	%rsi, %rbx
	movq	%rdi, %r14
	leaq	32(%rsp), %rdi
	xorl	%r15d, %r15d
	movl	$516, %edx
	xorl	%esi, %esi
	callq	memset@PLT
	leaq	1580(%rsp), %rdi
	movl	$516, %edx
	xorl	%esi, %esi
	callq	memset@PLT
	leaq	1064(%rsp), %rdi
	movl	$516, %edx
	xorl	%esi, %esi
	callq	memset@PLT
	leaq	548(%rsp), %rdi
	movl	$516, %edx
	xorl	%esi, %esi
	callq	memset@PLT
	movl	%ebx, %eax
	shrl	%eax
	incl	%eax
	movabsq	$-281474976645120, %rcx
	movq	%rcx, 8(%rsp)
	movaps	.LCPI7_0(%rip), %xmm0
	movaps	%xmm0, 16(%rsp)
	movzwl	%ax, %ecx
	movl	%eax, %edx
	.p2align	4
.LBB7_1:
	movzbl	(%r14,%r15), %esi
	movw	%dx, 1064(%rsp,%r15,2)
	movl	%ecx, %edi
	movzwl	32(%rsp,%rdi,2), %r8d
	movw	%r8w, 1580(%rsp,%r15,2)
	incq	%r15
	addl	16(%rsp,%rsi,4), %ecx
	movw	%r15w, 32(%rsp,%rdi,2)
	addw	8(%rsp,%rsi,2), %dx
	cmpq	%r15, %rbx
	jne	.LBB7_1
	addl	%eax, %eax
	movzwl	%ax, %eax
	xorl	%ecx, %ecx
	jmp	.LBB7_3
	.p2align	4
.LBB7_8:
	cmpq	%rax, %rcx
	je	.LBB7_9
.LBB7_3:
	movzwl	32(%rsp,%rcx,2), %edx
	incq	%rcx
	testw	%dx, %dx
	je	.LBB7_8
	.p2align	4
.LBB7_5:
	movzwl	%dx, %edx
	movzwl	1062(%rsp,%rdx,2), %esi
	cmpw	%cx, 548(%rsp,%rsi,2)
	je	.LBB7_6
	movw	%cx, 548(%rsp,%rsi,2)
	movzwl	1578(%rsp,%rdx,2), %edx
	testw	%dx, %dx
	jne	.LBB7_5
	jmp	.LBB7_8
.LBB7_6:
	xorl	%eax, %eax
.LBB7_10:
	addq	$2096, %rsp
	popq	%rbx
	popq	%r14
	popq	%r15
	retq
.LBB7_9:
	movb	$1, %al
	jmp	.LBB7_10
.Lfunc_end7:
	.size	"room_threads::told_sized::<=258>", .Lfunc_end7-"room_threads::told_sized::<=258>"

	.section	.rodata.cst16,"aM",@progbits,16
	.p2align	4, 0x0
.LCPI8_0:
	.long	1
	.long	0
	.long	4294967295
	.long	0
	.section	".text.room_threads::told_sized::<=2050>","ax",@progbits
	.p2align	4
	.type	"room_threads::told_sized::<=2050>",@function
"room_threads::told_sized::<=2050>":
	pushq	%r15
	pushq	%r14
	pushq	%rbx
	subq	$3072, %rsp
	movq	$0, (%rsp)
	subq	$3072, %rsp
	movq	$0, (%rsp)
	subq	$3072, %rsp
	movq	$0, (%rsp)
	subq	$3072, %rsp
	movq	$0, (%rsp)
	subq	$3072, %rsp
	movq	$0, (%rsp)
	subq	$1072, %rsp
	movq	%rsi, %rbx
	movq	%rdi, %r14
	leaq	32(%rsp), %rdi
	xorl	%r15d, %r15d
	movl	$4100, %edx
	xorl	%esi, %esi
	callq	memset@PLT
	leaq	12332(%rsp), %rdi
	movl	$4100, %edx
	xorl	%esi, %esi
	callq	memset@PLT
	leaq	8232(%rsp), %rdi
	movl	$4100, %edx
	xorl	%esi, %esi
	callq	memset@PLT
	leaq	4132(%rsp), %rdi
	movl	$4100, %edx
	xorl	%esi, %esi
	callq	memset@PLT
	movl	%ebx, %eax
	shrl	%eax
	incl	%eax
	movabsq	$-281474976645120, %rcx
	movq	%rcx, 8(%rsp)
	movaps	.LCPI8_0(%rip), %xmm0
	movaps	%xmm0, 16(%rsp)
	movzwl	%ax, %ecx
	movl	%eax, %edx
	.p2align	4
.LBB8_1:
	movzbl	(%r14,%r15), %esi
	movw	%dx, 8232(%rsp,%r15,2)
	movl	%ecx, %edi
	movzwl	32(%rsp,%rdi,2), %r8d
	movw	%r8w, 12332(%rsp,%r15,2)
	incq	%r15
	addl	16(%rsp,%rsi,4), %ecx
	movw	%r15w, 32(%rsp,%rdi,2)
	addw	8(%rsp,%rsi,2), %dx
	cmpq	%r15, %rbx
	jne	.LBB8_1
	addl	%eax, %eax
	movzwl	%ax, %eax
	xorl	%ecx, %ecx
	jmp	.LBB8_3
	.p2align	4
.LBB8_8:
	cmpq	%rax, %rcx
	je	.LBB8_9
.LBB8_3:
	movzwl	32(%rsp,%rcx,2), %edx
	incq	%rcx
	testw	%dx, %dx
	je	.LBB8_8
	.p2align	4
.LBB8_5:
	movzwl	%dx, %edx
	movzwl	8230(%rsp,%rdx,2), %esi
	cmpw	%cx, 4132(%rsp,%rsi,2)
	je	.LBB8_6
	movw	%cx, 4132(%rsp,%rsi,2)
	movzwl	12330(%rsp,%rdx,2), %edx
	testw	%dx, %dx
	jne	.LBB8_5
	jmp	.LBB8_8
.LBB8_6:
	xorl	%eax, %eax
.LBB8_10:
	addq	$16432, %rsp
	popq	%rbx
	popq	%r14
	popq	%r15
	retq
.LBB8_9:
	movb	$1, %al
	jmp	.LBB8_10
.Lfunc_end8:
	.size	"room_threads::told_sized::<=2050>", .Lfunc_end8-"room_threads::told_sized::<=2050>"

	.section	.rodata.cst16,"aM",@progbits,16
	.p2align	4, 0x0
.LCPI9_0:
	.long	1
	.long	0
	.long	4294967295
	.long	0
	.section	".text.room_threads::told_sized::<=16386>","ax",@progbits
	.p2align	4
	.type	"room_threads::told_sized::<=16386>",@function
"room_threads::told_sized::<=16386>":
	pushq	%r15
	pushq	%r14
	pushq	%rbx
	movq	%rsp, %r11
	subq	$129024, %r11
.LBB9_1:
	subq	$3072, %rsp
	movq	$0, (%rsp)
	cmpq	%r11, %rsp
	jne	.LBB9_1
	subq	$2096, %rsp
	movq	%rsi, %rbx
	movq	%rdi, %r14
	leaq	32(%rsp), %rdi
	xorl	%r15d, %r15d
	movl	$32772, %edx
	xorl	%esi, %esi
	callq	memset@PLT
	leaq	98348(%rsp), %rdi
	movl	$32772, %edx
	xorl	%esi, %esi
	callq	memset@PLT
	leaq	65576(%rsp), %rdi
	movl	$32772, %edx
	xorl	%esi, %esi
	callq	memset@PLT
	leaq	32804(%rsp), %rdi
	movl	$32772, %edx
	xorl	%esi, %esi
	callq	memset@PLT
	movl	%ebx, %ecx
	shrl	%ecx
	incl	%ecx
	movabsq	$-281474976645120, %rax
	movq	%rax, 8(%rsp)
	movaps	.LCPI9_0(%rip), %xmm0
	movaps	%xmm0, 16(%rsp)
	movzwl	%cx, %eax
	movl	%ecx, %edx
	.p2align	4
.LBB9_3:
	movzbl	(%r14,%r15), %esi
	movw	%dx, 65576(%rsp,%r15,2)
	movl	%eax, %edi
	movzwl	32(%rsp,%rdi,2), %r8d
	movw	%r8w, 98348(%rsp,%r15,2)
	incq	%r15
	addl	16(%rsp,%rsi,4), %eax
	movw	%r15w, 32(%rsp,%rdi,2)
	addw	8(%rsp,%rsi,2), %dx
	cmpq	%r15, %rbx
	jne	.LBB9_3
	movb	$1, %al
	testw	%cx, %cx
	je	.LBB9_12
	movzwl	%cx, %ecx
	addl	%ecx, %ecx
	xorl	%edx, %edx
	jmp	.LBB9_6
	.p2align	4
.LBB9_11:
	cmpq	%rcx, %rdx
	je	.LBB9_12
.LBB9_6:
	movzwl	32(%rsp,%rdx,2), %esi
	incq	%rdx
	testw	%si, %si
	je	.LBB9_11
	.p2align	4
.LBB9_8:
	movzwl	%si, %esi
	movzwl	65574(%rsp,%rsi,2), %edi
	cmpw	%dx, 32804(%rsp,%rdi,2)
	je	.LBB9_9
	movw	%dx, 32804(%rsp,%rdi,2)
	movzwl	98346(%rsp,%rsi,2), %esi
	testw	%si, %si
	jne	.LBB9_8
	jmp	.LBB9_11
.LBB9_9:
	xorl	%eax, %eax
.LBB9_12:
	addq	$131120, %rsp
	popq	%rbx
	popq	%r14
	popq	%r15
	retq
.Lfunc_end9:
	.size	"room_threads::told_sized::<=16386>", .Lfunc_end9-"room_threads::told_sized::<=16386>"

	.section	".text.convex_call::in_sized::<=257>","ax",@progbits
	.p2align	4
	.type	"convex_call::in_sized::<=257>",@function
"convex_call::in_sized::<=257>":
	pushq	%r15
	pushq	%r14
	pushq	%r13
	pushq	%r12
	pushq	%rbx
	subq	$1552, %rsp
	movq	%rsi, %rbx
	movq	%rdi, %r14
	leaq	1038(%rsp), %r15
	movl	$514, %edx
	movq	%r15, %rdi
	xorl	%esi, %esi
	callq	memset@PLT
	leaq	524(%rsp), %r12
	movl	$514, %edx
	movq	%r12, %rdi
	xorl	%esi, %esi
	callq	memset@PLT
	leaq	10(%rsp), %r13
	movl	$514, %edx
	movq	%r13, %rdi
	xorl	%esi, %esi
	callq	memset@PLT
	movl	$257, %r9d
	movq	%r14, %rdi
	movq	%rbx, %rsi
	movq	%r15, %rdx
	movq	%r12, %rcx
	movq	%r13, %r8
	callq	"convex_call::in_store"
	addq	$1552, %rsp
	popq	%rbx
	popq	%r12
	popq	%r13
	popq	%r14
	popq	%r15
	retq
.Lfunc_end10:
	.size	"convex_call::in_sized::<=257>", .Lfunc_end10-"convex_call::in_sized::<=257>"

	.section	.rodata.cst16,"aM",@progbits,16
	.p2align	4, 0x0
.LCPI11_0:
	.zero	16,3
.LCPI11_1:
	.zero	16,2
.LCPI11_2:
	.byte	3
	.byte	3
	.byte	3
	.byte	3
	.byte	3
	.byte	3
	.byte	3
	.byte	3
	.zero	1
	.zero	1
	.zero	1
	.zero	1
	.zero	1
	.zero	1
	.zero	1
	.zero	1
.LCPI11_3:
	.byte	2
	.byte	2
	.byte	2
	.byte	2
	.byte	2
	.byte	2
	.byte	2
	.byte	2
	.zero	1
	.zero	1
	.zero	1
	.zero	1
	.zero	1
	.zero	1
	.zero	1
	.zero	1
	.section	".text.convex_call::in_store","ax",@progbits
	.p2align	4
	.type	"convex_call::in_store",@function
"convex_call::in_store":
	pushq	%rbp
	pushq	%r15
	pushq	%r14
	pushq	%r13
	pushq	%r12
	pushq	%rbx
	subq	$56, %rsp
	movq	%r9, %r12
	movq	%r8, %r13
	movq	%rdx, (%rsp)
	testq	%rsi, %rsi
	movq	%rcx, 16(%rsp)
	movq	%rsi, 32(%rsp)
	je	.LBB11_11
	movq	%rsi, %r15
	movl	$16384, %r8d
	xorl	%ebx, %ebx
	xorl	%edx, %edx
	xorl	%eax, %eax
	movq	%r8, %rsi
	.p2align	4
.LBB11_2:
	movzbl	(%rdi,%rax), %r9d
	xorl	%r10d, %r10d
	cmpb	$1, %r9b
	movl	$0, %r11d
	cmoveq	%r8, %r11
	adcq	$0, %rsi
	addq	%r11, %rbx
	cmpb	$3, %r9b
	cmovaeq	%r8, %r10
	addq	%r10, %rdx
	xorl	%r8d, %r8d
	cmpb	$2, %r9b
	sete	%r8b
	subq	%r8, %rsi
	incq	%rax
	movq	%rsi, %r8
	cmpq	%rax, %r15
	jne	.LBB11_2
	movq	(%rsp), %rax
	addq	%r15, %rax
	cmpq	%rbx, %rdx
	jae	.LBB11_12
	leaq	(%rdi,%r15), %r11
	cmpq	$8, %r15
	jae	.LBB11_14
	xorl	%edx, %edx
	movq	(%rsp), %rbx
.LBB11_6:
	movq	%rdx, %rsi
	orq	$1, %rsi
	testb	$1, %r15b
	je	.LBB11_8
	movq	%rdx, %r8
	notq	%r8
	movzbl	(%r11,%r8), %r8d
	andb	$3, %r8b
	xorb	$2, %r8b
	movb	%r8b, (%rbx,%rdx)
	movb	%r8b, (%rax,%rdx)
	movq	%rsi, %rdx
.LBB11_8:
	cmpq	%rsi, %r15
	je	.LBB11_35
	movq	%r15, %rax
	subq	%rdx, %rax
	leaq	(%rdx,%rbx), %rsi
	incq	%rsi
	.p2align	4
.LBB11_10:
	movzbl	-1(%rdi,%rax), %edx
	andb	$3, %dl
	xorb	$2, %dl
	movb	%dl, -1(%rsi)
	movb	%dl, -1(%rsi,%r15)
	movzbl	-2(%rdi,%rax), %edx
	andb	$3, %dl
	xorb	$2, %dl
	movb	%dl, (%rsi)
	movb	%dl, (%rsi,%r15)
	addq	$2, %rsi
	addq	$-2, %rax
	jne	.LBB11_10
	jmp	.LBB11_35
.LBB11_11:
	xorl	%r15d, %r15d
	xorl	%ebp, %ebp
	xorl	%r14d, %r14d
	xorl	%ebx, %ebx
	cmpl	%ebp, %r15d
	jae	.LBB11_44
	jmp	.LBB11_51
.LBB11_12:
	cmpq	$4, %r15
	jae	.LBB11_18
	xorl	%r9d, %r9d
	movq	(%rsp), %rbx
	jmp	.LBB11_29
.LBB11_14:
	movq	(%rsp), %rbx
	leaq	(%rbx,%r15,2), %rdx
	cmpq	%r11, %rax
	setb	%r9b
	cmpq	%rdx, %rdi
	setb	%r10b
	cmpq	%r11, %rbx
	setb	%sil
	cmpq	%rax, %rdi
	setb	%r8b
	xorl	%edx, %edx
	testb	%r10b, %r9b
	jne	.LBB11_6
	andb	%r8b, %sil
	jne	.LBB11_6
	cmpq	$32, %r15
	jae	.LBB11_52
	xorl	%edx, %edx
	jmp	.LBB11_56
.LBB11_18:
	movq	%rax, %rdx
	subq	%rdi, %rdx
	cmpq	$32, %rdx
	setb	%sil
	movq	(%rsp), %rbx
	movq	%rbx, %rdx
	subq	%rdi, %rdx
	cmpq	$32, %rdx
	setb	%dl
	orb	%sil, %dl
	je	.LBB11_20
	xorl	%r9d, %r9d
	jmp	.LBB11_29
.LBB11_20:
	cmpq	$32, %r15
	jae	.LBB11_22
	xorl	%r9d, %r9d
	jmp	.LBB11_26
.LBB11_22:
	movq	%r15, %r9
	andq	$-32, %r9
	leaq	(%r15,%rbx), %rdx
	addq	$16, %rdx
	xorl	%esi, %esi
	.p2align	4
.LBB11_23:
	movdqu	(%rdi,%rsi), %xmm0
	movdqu	16(%rdi,%rsi), %xmm1
	movdqu	%xmm0, (%rbx,%rsi)
	movdqu	%xmm1, 16(%rbx,%rsi)
	movdqu	%xmm0, -16(%rdx,%rsi)
	movdqu	%xmm1, (%rdx,%rsi)
	addq	$32, %rsi
	cmpq	%rsi, %r9
	jne	.LBB11_23
	cmpq	%r9, %r15
	je	.LBB11_35
	testb	$28, %r15b
	je	.LBB11_29
.LBB11_26:
	movq	%r9, %rdx
	movq	%r15, %r9
	andq	$-4, %r9
	.p2align	4
.LBB11_27:
	movl	(%rdi,%rdx), %esi
	movl	%esi, (%rbx,%rdx)
	movl	%esi, (%rax,%rdx)
	addq	$4, %rdx
	cmpq	%rdx, %r9
	jne	.LBB11_27
	cmpq	%r9, %r15
	je	.LBB11_35
.LBB11_29:
	movq	%r15, %rsi
	movq	%r9, %rdx
	andq	$3, %rsi
	je	.LBB11_32
	movq	%r9, %rdx
	.p2align	4
.LBB11_31:
	movzbl	(%rdi,%rdx), %r8d
	movb	%r8b, (%rbx,%rdx)
	movb	%r8b, (%rax,%rdx)
	incq	%rdx
	decq	%rsi
	jne	.LBB11_31
.LBB11_32:
	subq	%r15, %r9
	cmpq	$-4, %r9
	ja	.LBB11_35
	movq	%r15, %rax
	subq	%rdx, %rax
	leaq	(%rdx,%r15), %rsi
	leaq	(%rbx,%rsi), %r9
	addq	$3, %r9
	leaq	(%rbx,%rdx), %rsi
	addq	$3, %rsi
	addq	%rdi, %rdx
	addq	$3, %rdx
	xorl	%edi, %edi
	.p2align	4
.LBB11_34:
	movzbl	-3(%rdx,%rdi), %r8d
	movb	%r8b, -3(%rsi,%rdi)
	movb	%r8b, -3(%r9,%rdi)
	movzbl	-2(%rdx,%rdi), %r8d
	movb	%r8b, -2(%rsi,%rdi)
	movb	%r8b, -2(%r9,%rdi)
	movzbl	-1(%rdx,%rdi), %r8d
	movb	%r8b, -1(%rsi,%rdi)
	movb	%r8b, -1(%r9,%rdi)
	movzbl	(%rdx,%rdi), %r8d
	movb	%r8b, (%rsi,%rdi)
	movb	%r8b, (%r9,%rdi)
	addq	$4, %rdi
	cmpq	%rdi, %rax
	jne	.LBB11_34
.LBB11_35:
	movq	%r12, 48(%rsp)
	movw	$16384, %r9w
	movl	$16384, %r10d
	movabsq	$35184908959744, %r14
	xorl	%ecx, %ecx
	movq	%r14, %rax
	.p2align	4
.LBB11_36:
	movq	%r10, %rdx
	movzbl	(%rbx,%rcx), %edi
	cmpb	$1, %dil
	adcq	$0, %r10
	movl	%r9d, %esi
	xorl	%r9d, %r9d
	cmpb	$1, %dil
	sete	%r9b
	xorl	%r8d, %r8d
	cmpb	$2, %dil
	sete	%r8b
	subq	%r8, %r10
	addl	%esi, %r9d
	cmpb	$3, %dil
	adcw	$-1, %r9w
	movq	%rax, %r8
	movq	%r10, %rax
	shlq	$31, %rax
	movzwl	%r9w, %r11d
	shll	$15, %r11d
	orq	%rax, %r11
	leaq	(%rcx,%r11), %rax
	incq	%rax
	incq	%rcx
	cmpq	%r8, %rax
	cmovaeq	%r8, %rax
	cmpq	%rcx, %r15
	jne	.LBB11_36
	movq	%r13, 40(%rsp)
	xorl	%r9d, %r9d
	cmpb	$2, %dil
	sete	%r9b
	andl	$32767, %eax
	addq	%rbx, %rax
	movq	%rdx, 24(%rsp)
	movq	%rdx, %r11
	subq	%r9, %r11
	xorl	%r10d, %r10d
	cmpb	$1, %dil
	sete	%r10b
	adcq	$0, %r11
	shlq	$31, %r11
	cmpb	$3, %dil
	movabsq	$70368744177665, %r9
	movq	%rbx, %rdx
	movl	%esi, 12(%rsp)
	movl	%esi, %ebx
	adcw	$-1, %bx
	addl	%ebx, %r10d
	movzwl	%r10w, %r10d
	shll	$15, %r10d
	orq	%r11, %r10
	addq	%rcx, %r10
	cmpq	%r10, %r8
	cmovbq	%r8, %r10
	andl	$32767, %r10d
	addq	%rdx, %r10
	movq	%r9, %rdx
	movw	$16384, %r11w
	movl	$16384, %ebx
	movq	%r15, %r12
	xorl	%r15d, %r15d
	movq	%r14, %rbp
	.p2align	4
.LBB11_38:
	movq	%rbp, %r13
	movzbl	(%r10,%r15), %ebp
	cmpb	$1, %bpl
	adcq	$0, %rbx
	xorl	%r9d, %r9d
	cmpb	$1, %bpl
	sete	%r9b
	movq	%r12, %rsi
	xorl	%r12d, %r12d
	cmpb	$2, %bpl
	sete	%r12b
	subq	%r12, %rbx
	addl	%r9d, %r11d
	cmpb	$3, %bpl
	adcw	$-1, %r11w
	leaq	1(%r15), %r9
	movzwl	%r11w, %r12d
	movq	%rbx, %rbp
	shlq	$15, %rbp
	addq	%rdx, %r15
	shlq	$31, %r12
	subq	%r12, %rbp
	movq	%rsi, %r12
	addq	%r15, %rbp
	cmpq	%r13, %rbp
	cmovaeq	%r13, %rbp
	movq	%r9, %r15
	cmpq	%r9, %rsi
	jne	.LBB11_38
	xorl	%r9d, %r9d
	cmpb	$2, %dil
	sete	%r9b
	movq	24(%rsp), %r11
	subq	%r9, %r11
	xorl	%r9d, %r9d
	cmpb	$1, %dil
	sete	%r9b
	adcq	$0, %r11
	shlq	$31, %r11
	cmpb	$3, %dil
	movl	12(%rsp), %r10d
	adcw	$-1, %r10w
	addl	%r10d, %r9d
	movzwl	%r9w, %r10d
	shll	$15, %r10d
	orq	%r11, %r10
	addq	%rcx, %r10
	cmpq	%r10, %r8
	cmovbq	%r8, %r10
	andl	$32767, %r10d
	addq	(%rsp), %r10
	movw	$16384, %r11w
	movl	$16384, %ebx
	xorl	%r13d, %r13d
	movq	%r14, %r15
	.p2align	4
.LBB11_40:
	movzbl	(%r10,%r13), %r9d
	cmpb	$1, %r9b
	adcq	$0, %rbx
	xorl	%r12d, %r12d
	cmpb	$1, %r9b
	sete	%r12b
	xorl	%edx, %edx
	cmpb	$2, %r9b
	sete	%dl
	subq	%rdx, %rbx
	addl	%r12d, %r11d
	cmpb	$3, %r9b
	adcw	$-1, %r11w
	movzwl	%r11w, %edx
	movabsq	$562949953355776, %r9
	imulq	%rbx, %r9
	subq	%rdx, %r9
	shlq	$15, %r9
	movabsq	$70368744177665, %rdx
	addq	%r13, %rdx
	incq	%r13
	addq	%r9, %rdx
	addq	$1073741824, %rdx
	cmpq	%r15, %rdx
	cmovbq	%rdx, %r15
	cmpq	%r13, %rsi
	jne	.LBB11_40
	xorl	%edx, %edx
	cmpb	$2, %dil
	sete	%dl
	movq	%rsi, %r9
	negq	%r9
	movq	24(%rsp), %r10
	subq	%rdx, %r10
	xorl	%edx, %edx
	cmpb	$1, %dil
	sete	%dl
	adcq	$0, %r10
	shlq	$31, %r10
	cmpb	$3, %dil
	movl	12(%rsp), %esi
	adcw	$-1, %si
	addl	%esi, %edx
	movzwl	%dx, %edx
	shll	$15, %edx
	orq	%r10, %rdx
	addq	%rcx, %rdx
	cmpq	%rdx, %r8
	cmovbq	%r8, %rdx
	andl	$32767, %edx
	movq	(%rsp), %rbx
	addq	%rdx, %rbx
	movw	$16384, %cx
	movl	$16384, %edx
	movl	$1073741825, %esi
	.p2align	4
.LBB11_42:
	movq	%r14, %rdi
	movzbl	-1073741825(%rbx,%rsi), %r8d
	cmpb	$1, %r8b
	adcq	$0, %rdx
	xorl	%r10d, %r10d
	cmpb	$1, %r8b
	sete	%r10b
	xorl	%r11d, %r11d
	cmpb	$2, %r8b
	sete	%r11b
	subq	%r11, %rdx
	addl	%r10d, %ecx
	cmpb	$3, %r8b
	adcw	$-1, %cx
	movzwl	%cx, %r14d
	shlq	$31, %r14
	movq	%rdx, %r8
	shlq	$15, %r8
	subq	%r8, %r14
	addq	%rsi, %r14
	cmpq	%rdi, %r14
	cmovaeq	%rdi, %r14
	leaq	(%r9,%rsi), %rdi
	incq	%rdi
	incq	%rsi
	cmpq	$1073741825, %rdi
	jne	.LBB11_42
	andl	$32767, %ebp
	andl	$32767, %r15d
	andl	$32767, %r14d
	movq	%rax, (%rsp)
	movq	48(%rsp), %r12
	movq	40(%rsp), %r13
	xorl	%ebx, %ebx
	cmpl	%ebp, %r15d
	jb	.LBB11_51
.LBB11_44:
	cmpl	%r15d, %r14d
	jb	.LBB11_51
	xorl	%ebx, %ebx
	movq	(%rsp), %rdi
	movq	%rbp, %rsi
	xorl	%edx, %edx
	movq	16(%rsp), %rcx
	movq	%r13, %r8
	movq	%r12, %r9
	callq	"convex_part::judge"
	testb	%al, %al
	je	.LBB11_51
	movq	%r15, %rsi
	subq	%rbp, %rsi
	movq	%r12, %rax
	movq	%r13, %r12
	movq	(%rsp), %r13
	addq	%r13, %rbp
	movq	%rbp, %rdi
	movq	%rax, %rbp
	movl	$1, %edx
	movq	16(%rsp), %rbx
	movq	%rbx, %rcx
	movq	%r12, %r8
	movq	%rax, %r9
	callq	"convex_part::judge"
	testb	%al, %al
	je	.LBB11_50
	leaq	(%r15,%r13), %rdi
	movq	%r14, %rsi
	subq	%r15, %rsi
	movl	$2, %edx
	movq	%rbx, %rcx
	movq	%r12, %r8
	movq	%rbp, %r9
	callq	"convex_part::judge"
	testb	%al, %al
	je	.LBB11_50
	movq	32(%rsp), %rsi
	subq	%r14, %rsi
	addq	%r14, %r13
	movq	%r13, %rdi
	movl	$3, %edx
	movq	%rbx, %rcx
	movq	%r12, %r8
	movq	%rbp, %r9
	callq	"convex_part::judge"
	movl	%eax, %ebx
	jmp	.LBB11_51
.LBB11_50:
	xorl	%ebx, %ebx
.LBB11_51:
	movl	%ebx, %eax
	addq	$56, %rsp
	popq	%rbx
	popq	%r12
	popq	%r13
	popq	%r14
	popq	%r15
	popq	%rbp
	retq
.LBB11_52:
	movq	%r15, %rdx
	andq	$-32, %rdx
	leaq	(%r15,%rbx), %rsi
	addq	$16, %rsi
	leaq	(%r15,%rdi), %r8
	addq	$-16, %r8
	xorl	%r9d, %r9d
	.p2align	4
.LBB11_53:
	movdqu	-16(%r8), %xmm0
	movdqu	(%r8), %xmm1
	movdqa	.LCPI11_0(%rip), %xmm2
	pand	%xmm2, %xmm1
	pand	%xmm2, %xmm0
	movdqa	.LCPI11_1(%rip), %xmm2
	pxor	%xmm2, %xmm1
	pxor	%xmm3, %xmm3
	movdqa	%xmm1, %xmm4
	punpcklbw	%xmm3, %xmm4
	pshufd	$78, %xmm4, %xmm4
	pshuflw	$27, %xmm4, %xmm4
	pshufhw	$27, %xmm4, %xmm4
	punpckhbw	%xmm3, %xmm1
	pshufd	$78, %xmm1, %xmm1
	pshuflw	$27, %xmm1, %xmm1
	pshufhw	$27, %xmm1, %xmm1
	packuswb	%xmm4, %xmm1
	pxor	%xmm2, %xmm0
	movdqa	%xmm0, %xmm2
	punpcklbw	%xmm3, %xmm2
	pshufd	$78, %xmm2, %xmm2
	pshuflw	$27, %xmm2, %xmm2
	pshufhw	$27, %xmm2, %xmm2
	punpckhbw	%xmm3, %xmm0
	pshufd	$78, %xmm0, %xmm0
	pshuflw	$27, %xmm0, %xmm0
	pshufhw	$27, %xmm0, %xmm0
	packuswb	%xmm2, %xmm0
	movdqu	%xmm1, (%rbx,%r9)
	movdqu	%xmm0, 16(%rbx,%r9)
	movdqu	%xmm1, -16(%rsi,%r9)
	movdqu	%xmm0, (%rsi,%r9)
	addq	$32, %r9
	addq	$-32, %r8
	cmpq	%r9, %rdx
	jne	.LBB11_53
	cmpq	%rdx, %r15
	je	.LBB11_35
	testb	$24, %r15b
	je	.LBB11_6
.LBB11_56:
	movq	%rdx, %rsi
	movq	%r15, %rdx
	andq	$-8, %rdx
	movq	%r15, %r8
	subq	%rsi, %r8
	addq	%rdi, %r8
	addq	$-8, %r8
	.p2align	4
.LBB11_57:
	movq	(%r8), %xmm0
	pand	.LCPI11_2(%rip), %xmm0
	pxor	.LCPI11_3(%rip), %xmm0
	pxor	%xmm1, %xmm1
	punpcklbw	%xmm1, %xmm0
	pshufd	$78, %xmm0, %xmm0
	pshuflw	$27, %xmm0, %xmm0
	pshufhw	$27, %xmm0, %xmm0
	packuswb	%xmm0, %xmm0
	movq	%xmm0, (%rbx,%rsi)
	movq	%xmm0, (%rax,%rsi)
	addq	$8, %rsi
	addq	$-8, %r8
	cmpq	%rsi, %rdx
	jne	.LBB11_57
	cmpq	%rdx, %r15
	jne	.LBB11_6
	jmp	.LBB11_35
.Lfunc_end11:
	.size	"convex_call::in_store", .Lfunc_end11-"convex_call::in_store"

	.section	".text.convex_part::judge","ax",@progbits
	.p2align	4
	.type	"convex_part::judge",@function
"convex_part::judge":
	pushq	%rbp
	pushq	%r15
	pushq	%r14
	pushq	%r13
	pushq	%r12
	pushq	%rbx
	testq	%rsi, %rsi
	je	.LBB12_2
	xorl	%eax, %eax
	.p2align	4
.LBB12_4:
	movzbl	(%rdi,%rax), %r10d
	addb	%dl, %r10b
	testb	$2, %r10b
	jne	.LBB12_5
	incq	%rax
	cmpq	%rax, %rsi
	jne	.LBB12_4
	cmpq	$1, %rsi
	jne	.LBB12_9
	xorl	%eax, %eax
	movl	%esi, %r10d
	xorl	%r11d, %r11d
	jmp	.LBB12_12
.LBB12_2:
	movw	$0, (%rcx)
	movl	$1, %eax
	jmp	.LBB12_14
.LBB12_9:
	movq	%rsi, %rbx
	andq	$-2, %rbx
	xorl	%eax, %eax
	movl	%esi, %r10d
	xorl	%r11d, %r11d
	.p2align	4
.LBB12_10:
	movzbl	(%rdi,%r11), %ebp
	addb	%dl, %bpl
	movw	%r10w, (%rcx,%rax,2)
	xorl	%r14d, %r14d
	xorl	%r15d, %r15d
	testb	$3, %bpl
	sete	%r14b
	setne	%r15b
	addq	%rax, %r14
	subl	%r15d, %r10d
	movzbl	1(%rdi,%r11), %ebp
	addb	%dl, %bpl
	movw	%r10w, (%rcx,%r14,2)
	xorl	%eax, %eax
	xorl	%r15d, %r15d
	testb	$3, %bpl
	sete	%al
	setne	%r15b
	addq	%r14, %rax
	subl	%r15d, %r10d
	addq	$2, %r11
	cmpq	%r11, %rbx
	jne	.LBB12_10
	testb	$1, %sil
	je	.LBB12_13
.LBB12_12:
	movq	%rax, %rsi
	addb	(%rdi,%r11), %dl
	movw	%r10w, (%rcx,%rax,2)
	xorl	%eax, %eax
	xorl	%edi, %edi
	testb	$3, %dl
	sete	%al
	setne	%dil
	addq	%rsi, %rax
	subl	%edi, %r10d
.LBB12_13:
	movw	%r10w, (%rcx,%rax,2)
	movq	%r9, %rdx
	incq	%rax
	jne	.LBB12_14
.LBB12_26:
	subq	%rdx, %r9
	movb	$1, %al
	cmpq	$2, %r9
	jb	.LBB12_6
	leaq	(%r8,%rdx,2), %rdx
	movl	$1, %esi
.LBB12_28:
	movzwl	-2(%rdx,%rsi,2), %edi
	movzwl	(%rdx,%rsi,2), %r8d
	movq	%r8, %r10
	subq	%rdi, %r10
	leaq	(%rcx,%rdi,2), %r11
	movl	$1, %ebx
	.p2align	4
.LBB12_29:
	leaq	(%rdi,%rbx), %r14
	cmpq	%r8, %r14
	jae	.LBB12_31
	movzwl	(%r11), %r14d
	movzwl	(%rcx,%r8,2), %r15d
	movzwl	(%r11,%rbx,2), %r12d
	imulq	%r10, %r12
	movq	%rbx, %r13
	imulq	%r14, %r13
	addq	%r12, %r13
	imulq	%rbx, %r15
	incq	%r14
	imulq	%r10, %r14
	addq	%r15, %r14
	incq	%rbx
	cmpq	%r14, %r13
	jb	.LBB12_29
	jmp	.LBB12_5
	.p2align	4
.LBB12_31:
	incq	%rsi
	cmpq	%r9, %rsi
	jne	.LBB12_28
	jmp	.LBB12_6
.LBB12_5:
	xorl	%eax, %eax
.LBB12_6:
	popq	%rbx
	popq	%r12
	popq	%r13
	popq	%r14
	popq	%r15
	popq	%rbp
	retq
.LBB12_14:
	leaq	-1(%r9), %rsi
	movq	%rax, %rdi
	movq	%r9, %rdx
	jmp	.LBB12_15
	.p2align	4
.LBB12_24:
	movq	%rsi, %rdx
.LBB12_25:
	movw	%di, -2(%r8,%rdx,2)
	decq	%rdx
	testq	%rdi, %rdi
	je	.LBB12_26
.LBB12_15:
	cmpq	%rax, %rdi
	jne	.LBB12_17
	decq	%rdi
	movq	%r9, %r10
	subq	%rdx, %r10
	cmpq	$2, %r10
	jb	.LBB12_25
	jmp	.LBB12_21
	.p2align	4
.LBB12_17:
	cmpq	$1, %rdi
	je	.LBB12_18
	movzwl	-4(%rcx,%rdi,2), %r10d
	movzwl	-2(%rcx,%rdi,2), %r11d
	movzwl	(%rcx,%rdi,2), %ebx
	leal	(%r10,%r11,2), %r11d
	leal	(%rbx,%r10,2), %r10d
	decq	%rdi
	cmpl	%r10d, %r11d
	jae	.LBB12_17
	movq	%r9, %r10
	subq	%rdx, %r10
	cmpq	$2, %r10
	jb	.LBB12_25
	jmp	.LBB12_21
	.p2align	4
.LBB12_18:
	xorl	%edi, %edi
	movq	%r9, %r10
	subq	%rdx, %r10
	cmpq	$2, %r10
	jb	.LBB12_25
.LBB12_21:
	movzwl	(%rcx,%rdi,2), %r11d
	.p2align	4
.LBB12_22:
	movzwl	(%r8,%rdx,2), %ebx
	movzwl	2(%r8,%rdx,2), %r14d
	movzwl	(%rcx,%rbx,2), %r15d
	subq	%rdi, %rbx
	movzwl	(%rcx,%r14,2), %r12d
	subq	%rdi, %r14
	imulq	%r14, %r15
	imulq	%rbx, %r12
	imulq	%r11, %rbx
	addq	%r15, %rbx
	imulq	%r11, %r14
	addq	%r12, %r14
	cmpq	%r14, %rbx
	jb	.LBB12_25
	incq	%rdx
	decq	%r10
	cmpq	$1, %r10
	ja	.LBB12_22
	jmp	.LBB12_24
.Lfunc_end12:
	.size	"convex_part::judge", .Lfunc_end12-"convex_part::judge"

	.section	".text.convex_call::in_sized::<=2049>","ax",@progbits
	.p2align	4
	.type	"convex_call::in_sized::<=2049>",@function
"convex_call::in_sized::<=2049>":
	pushq	%r15
	pushq	%r14
	pushq	%r13
	pushq	%r12
	pushq	%rbx
	subq	$3072, %rsp
	movq	$0, (%rsp)
	subq	$3072, %rsp
	movq	$0, (%rsp)
	subq	$3072, %rsp
	movq	$0, (%rsp)
	subq	$3072, %rsp
	movq	$0, (%rsp)
	subq	$16, %rsp
	movq	%rsi, %rbx
	movq	%rdi, %r14
	leaq	8206(%rsp), %r15
	movl	$4098, %edx
	movq	%r15, %rdi
	xorl	%esi, %esi
	callq	memset@PLT
	leaq	4108(%rsp), %r12
	movl	$4098, %edx
	movq	%r12, %rdi
	xorl	%esi, %esi
	callq	memset@PLT
	leaq	10(%rsp), %r13
	movl	$4098, %edx
	movq	%r13, %rdi
	xorl	%esi, %esi
	callq	memset@PLT
	movl	$2049, %r9d
	movq	%r14, %rdi
	movq	%rbx, %rsi
	movq	%r15, %rdx
	movq	%r12, %rcx
	movq	%r13, %r8
	callq	"convex_call::in_store"
	addq	$12304, %rsp
	popq	%rbx
	popq	%r12
	popq	%r13
	popq	%r14
	popq	%r15
	retq
.Lfunc_end13:
	.size	"convex_call::in_sized::<=2049>", .Lfunc_end13-"convex_call::in_sized::<=2049>"

	.section	".text.convex_call::in_sized::<=16385>","ax",@progbits
	.p2align	4
	.type	"convex_call::in_sized::<=16385>",@function
"convex_call::in_sized::<=16385>":
	pushq	%r15
	pushq	%r14
	pushq	%r13
	pushq	%r12
	pushq	%rbx
	movq	%rsp, %r11
	subq	$98304, %r11
.LBB14_1:
	subq	$3072, %rsp
	movq	$0, (%rsp)
	cmpq	%r11, %rsp
	jne	.LBB14_1
	subq	$16, %rsp
	movq	%rsi, %rbx
	movq	%rdi, %r14
	leaq	65550(%rsp), %r15
	movl	$32770, %edx
	movq	%r15, %rdi
	xorl	%esi, %esi
	callq	memset@PLT
	leaq	32780(%rsp), %r12
	movl	$32770, %edx
	movq	%r12, %rdi
	xorl	%esi, %esi
	callq	memset@PLT
	leaq	10(%rsp), %r13
	movl	$32770, %edx
	movq	%r13, %rdi
	xorl	%esi, %esi
	callq	memset@PLT
	movl	$16385, %r9d
	movq	%r14, %rdi
	movq	%rbx, %rsi
	movq	%r15, %rdx
	movq	%r12, %rcx
	movq	%r13, %r8
	callq	"convex_call::in_store"
	addq	$98320, %rsp
	popq	%rbx
	popq	%r12
	popq	%r13
	popq	%r14
	popq	%r15
	retq
.Lfunc_end14:
	.size	"convex_call::in_sized::<=16385>", .Lfunc_end14-"convex_call::in_sized::<=16385>"

	.section	.rodata.cst16,"aM",@progbits,16
	.p2align	4, 0x0
.LCPI15_0:
	.long	1
	.long	0
	.long	4294967295
	.long	0
	.section	".text.hull_call::list_in","ax",@progbits
	.p2align	4
	.type	"hull_call::list_in",@function
"hull_call::list_in":
	pushq	%rbp
	pushq	%r15
	pushq	%r14
	pushq	%r13
	pushq	%r12
	pushq	%rbx
	subq	$136, %rsp
	movq	%r8, 56(%rsp)
	movq	%rcx, 48(%rsp)
	movq	%rdi, 88(%rsp)
	movq	216(%rsp), %r15
	movq	200(%rsp), %rbp
	movabsq	$-281474976645120, %rax
	movq	%rax, 104(%rsp)
	movaps	.LCPI15_0(%rip), %xmm0
	movaps	%xmm0, 112(%rsp)
	testq	%rdx, %rdx
	movq	%r9, 32(%rsp)
	je	.LBB15_1
	movw	$16384, %ax
	movl	$16384, %ecx
	xorl	%edi, %edi
	.p2align	4
.LBB15_3:
	movl	%ecx, %r8d
	subq	%r9, %r8
	movzwl	(%rbp,%r8,2), %r11d
	cmpw	%r11w, %ax
	cmovbl	%eax, %r11d
	movzbl	(%rsi,%rdi), %r10d
	movw	%r11w, (%rbp,%r8,2)
	movl	$-32768, %ebx
	subl	%eax, %ebx
	movzwl	(%r15,%r8,2), %r11d
	cmpw	%r11w, %bx
	cmovael	%r11d, %ebx
	movw	%bx, (%r15,%r8,2)
	addl	112(%rsp,%r10,4), %ecx
	addw	104(%rsp,%r10,2), %ax
	incq	%rdi
	cmpq	%rdi, %rdx
	jne	.LBB15_3
	movl	%ecx, %ecx
	jmp	.LBB15_5
.LBB15_1:
	movl	$16384, %ecx
	movw	$16384, %ax
.LBB15_5:
	movq	208(%rsp), %rbx
	movq	32(%rsp), %rsi
	subq	%rsi, %rcx
	movzwl	(%rbp,%rcx,2), %edx
	cmpw	%dx, %ax
	cmovbl	%eax, %edx
	movw	%dx, (%rbp,%rcx,2)
	movl	$-32768, %edx
	subl	%eax, %edx
	movzwl	(%r15,%rcx,2), %eax
	cmpw	%ax, %dx
	cmovael	%eax, %edx
	movw	%dx, (%r15,%rcx,2)
	movq	192(%rsp), %rax
	subq	%rsi, %rax
	movq	%rax, 24(%rsp)
	incq	%rax
	cmpq	$15, %rax
	jbe	.LBB15_6
	movq	%rax, %rdx
	shrq	%rdx
	subq	%rdx, %rax
	leaq	(%r15,%rax,2), %rsi
	movq	%r15, %rdi
	callq	"core::slice::edits::mirror::<i16>"
	jmp	.LBB15_13
.LBB15_6:
	cmpq	$2, %rax
	jb	.LBB15_13
	movq	24(%rsp), %rdx
	leaq	-1(%rdx), %rax
	shrq	%rax
	incq	%rax
	xorl	%ecx, %ecx
	jmp	.LBB15_8
	.p2align	4
.LBB15_9:
	movzwl	(%r15,%rcx,2), %esi
	movzwl	(%r15,%rdx,2), %edi
	movw	%di, (%r15,%rcx,2)
	movw	%si, (%r15,%rdx,2)
.LBB15_12:
	incq	%rcx
	decq	%rdx
	cmpq	%rcx, %rax
	je	.LBB15_13
.LBB15_8:
	cmpq	%rdx, %rcx
	jb	.LBB15_9
	jbe	.LBB15_12
	movzwl	(%r15,%rdx,2), %esi
	movzwl	(%r15,%rcx,2), %edi
	movw	%di, (%r15,%rdx,2)
	movw	%si, (%r15,%rcx,2)
	jmp	.LBB15_12
.LBB15_13:
	movq	240(%rsp), %rdi
	movq	232(%rsp), %rax
	movq	224(%rsp), %r9
	movq	%rdi, %rcx
	testq	%rbx, %rbx
	je	.LBB15_26
	leaq	-1(%rdi), %r13
	movq	%rbx, %rsi
	movq	%rdi, %rcx
	jmp	.LBB15_15
	.p2align	4
.LBB15_24:
	movq	%r13, %rcx
.LBB15_25:
	movw	%si, -2(%rax,%rcx,2)
	decq	%rcx
	testq	%rsi, %rsi
	je	.LBB15_26
.LBB15_15:
	cmpq	%rbx, %rsi
	jne	.LBB15_17
	decq	%rsi
	movq	%rdi, %r8
	subq	%rcx, %r8
	cmpq	$2, %r8
	jb	.LBB15_25
	jmp	.LBB15_21
	.p2align	4
.LBB15_17:
	cmpq	$1, %rsi
	je	.LBB15_18
	movzwl	-4(%rbp,%rsi,2), %r8d
	movzwl	-2(%rbp,%rsi,2), %r10d
	movzwl	(%rbp,%rsi,2), %r11d
	leal	(%r8,%r10,2), %r10d
	leal	(%r11,%r8,2), %r8d
	decq	%rsi
	cmpl	%r8d, %r10d
	jae	.LBB15_17
	movq	%rdi, %r8
	subq	%rcx, %r8
	cmpq	$2, %r8
	jb	.LBB15_25
	jmp	.LBB15_21
	.p2align	4
.LBB15_18:
	xorl	%esi, %esi
	movq	%rdi, %r8
	subq	%rcx, %r8
	cmpq	$2, %r8
	jb	.LBB15_25
.LBB15_21:
	movzwl	(%rbp,%rsi,2), %r10d
	.p2align	4
.LBB15_22:
	movzwl	(%rax,%rcx,2), %r11d
	movzwl	2(%rax,%rcx,2), %r12d
	movzwl	(%rbp,%r11,2), %r14d
	subq	%rsi, %r11
	movzwl	(%rbp,%r12,2), %edx
	subq	%rsi, %r12
	imulq	%r12, %r14
	imulq	%r11, %rdx
	imulq	%r10, %r11
	addq	%r14, %r11
	imulq	%r10, %r12
	addq	%rdx, %r12
	cmpq	%r12, %r11
	jb	.LBB15_25
	incq	%rcx
	decq	%r8
	cmpq	$1, %r8
	ja	.LBB15_22
	jmp	.LBB15_24
.LBB15_26:
	movq	256(%rsp), %r8
	movq	248(%rsp), %rdx
	movq	%r8, %rsi
	testq	%r9, %r9
	je	.LBB15_40
	leaq	-1(%r8), %rsi
	movq	%rsi, 16(%rsp)
	movq	%r9, %rbx
	movq	%r8, %rsi
	jmp	.LBB15_28
	.p2align	4
.LBB15_37:
	movq	16(%rsp), %rsi
.LBB15_38:
	movq	%r13, %rdi
	movq	%r8, %r9
	movq	256(%rsp), %r8
.LBB15_39:
	movw	%bx, -2(%rdx,%rsi,2)
	decq	%rsi
	testq	%rbx, %rbx
	je	.LBB15_40
.LBB15_28:
	cmpq	%r9, %rbx
	jne	.LBB15_30
	decq	%rbx
	movq	%r8, %r12
	subq	%rsi, %r12
	cmpq	$2, %r12
	jb	.LBB15_39
	jmp	.LBB15_34
	.p2align	4
.LBB15_30:
	cmpq	$1, %rbx
	je	.LBB15_31
	movzwl	-4(%r15,%rbx,2), %r11d
	movzwl	-2(%r15,%rbx,2), %r14d
	movzwl	(%r15,%rbx,2), %r12d
	leal	(%r11,%r14,2), %r14d
	leal	(%r12,%r11,2), %r11d
	decq	%rbx
	cmpl	%r11d, %r14d
	jae	.LBB15_30
	movq	%r8, %r12
	subq	%rsi, %r12
	cmpq	$2, %r12
	jb	.LBB15_39
	jmp	.LBB15_34
	.p2align	4
.LBB15_31:
	xorl	%ebx, %ebx
	movq	%r8, %r12
	subq	%rsi, %r12
	cmpq	$2, %r12
	jb	.LBB15_39
.LBB15_34:
	movq	%r9, %r8
	movq	%rdi, %r13
	movzwl	(%r15,%rbx,2), %r11d
	.p2align	4
.LBB15_35:
	movzwl	(%rdx,%rsi,2), %r14d
	movzwl	2(%rdx,%rsi,2), %r10d
	movzwl	(%r15,%r14,2), %edi
	subq	%rbx, %r14
	movzwl	(%r15,%r10,2), %r9d
	subq	%rbx, %r10
	imulq	%r10, %rdi
	imulq	%r14, %r9
	imulq	%r11, %r14
	addq	%rdi, %r14
	imulq	%r11, %r10
	addq	%r9, %r10
	cmpq	%r10, %r14
	jb	.LBB15_38
	incq	%rsi
	decq	%r12
	cmpq	$1, %r12
	ja	.LBB15_35
	jmp	.LBB15_37
.LBB15_40:
	movq	%rdi, %r9
	subq	%rcx, %r9
	movq	%r8, %r13
	subq	%rsi, %r13
	movq	24(%rsp), %rbx
	movq	%rdi, %r14
	movzwl	(%rbp,%rbx,2), %edi
	movzwl	(%r15), %r10d
	addl	%edi, %r10d
	xorl	%r12d, %r12d
	cmpl	$32768, %r10d
	sete	%r12b
	movzwl	(%rbp), %edi
	cmpq	%r12, %r13
	seta	%r11b
	movzwl	(%r15,%rbx,2), %ebx
	addl	%edi, %ebx
	cmpl	$32768, %ebx
	sete	%dil
	andb	%r11b, %dil
	movq	%r12, %r11
	movzbl	%dil, %ebx
	subq	%rbx, %r13
	movq	%r13, 80(%rsp)
	subq	%r12, %r13
	leaq	(%r9,%r13), %r12
	leaq	(%r12,%r12), %rdi
	cmpq	%rdi, 272(%rsp)
	jae	.LBB15_42
	movl	$7, %r12d
	movl	$1, %eax
	jmp	.LBB15_58
.LBB15_42:
	movq	%rbx, 72(%rsp)
	xorl	%ebx, %ebx
	cmpl	$32768, %r10d
	sete	15(%rsp)
	cmpq	%rcx, %r14
	je	.LBB15_50
	movq	%r11, 40(%rsp)
	movq	%r14, %r10
	movq	48(%rsp), %rdi
	movq	32(%rsp), %r11
	addl	%r11d, %edi
	addl	$-16384, %edi
	movl	%edi, 16(%rsp)
	movq	56(%rsp), %rdi
	leal	-16384(%rdi), %r14d
	leaq	1(%rcx), %rdi
	cmpq	%rdi, %r10
	jne	.LBB15_45
	xorl	%edi, %edi
	xorl	%r10d, %r10d
	movq	40(%rsp), %r11
	jmp	.LBB15_49
.LBB15_45:
	movq	%r13, 64(%rsp)
	leaq	(%rcx,%rcx), %rdi
	movq	%r9, %r10
	andq	$-2, %r10
	movq	%r10, 32(%rsp)
	addq	%rax, %rdi
	addq	$2, %rdi
	movq	%rdi, 96(%rsp)
	xorl	%edi, %edi
	xorl	%r10d, %r10d
	movl	%r14d, 24(%rsp)
	.p2align	4
.LBB15_46:
	movq	96(%rsp), %r13
	movzwl	-2(%r13,%r10,2), %ebx
	movzwl	(%rbp,%rbx,2), %r11d
	movl	16(%rsp), %r8d
	addl	%r8d, %ebx
	movq	264(%rsp), %r12
	movl	%ebx, (%r12,%r10,8)
	movl	24(%rsp), %r14d
	addl	%r14d, %r11d
	movl	%r11d, 4(%r12,%r10,8)
	movzwl	(%r13,%r10,2), %r11d
	movzwl	(%rbp,%r11,2), %ebx
	addl	%r8d, %r11d
	movl	%r11d, 8(%r12,%r10,8)
	addl	%r14d, %ebx
	movl	%ebx, 12(%r12,%r10,8)
	addq	$2, %r10
	addq	$-4, %rdi
	cmpq	%r10, 32(%rsp)
	jne	.LBB15_46
	movl	24(%rsp), %r14d
	testb	$1, %r9b
	movq	64(%rsp), %r13
	leaq	(%r13,%r9), %r12
	movl	$0, %ebx
	movq	40(%rsp), %r11
	movq	256(%rsp), %r8
	je	.LBB15_50
	negq	%rdi
.LBB15_49:
	leaq	(%rax,%rcx,2), %rax
	movzwl	(%rax,%r10,2), %eax
	movzwl	(%rbp,%rax,2), %ecx
	movl	16(%rsp), %r10d
	addl	%eax, %r10d
	movq	264(%rsp), %rax
	movl	%r10d, (%rax,%rdi,4)
	addl	%ecx, %r14d
	movl	%r14d, 4(%rax,%rdi,4)
.LBB15_50:
	cmpq	%r11, 80(%rsp)
	je	.LBB15_57
	movzbl	15(%rsp), %eax
	movb	%al, %bl
	addl	%ebx, %ebx
	movq	72(%rsp), %rdi
	negq	%rdi
	movq	48(%rsp), %rax
	movq	192(%rsp), %rcx
	addl	%ecx, %eax
	addl	$-16384, %eax
	movq	56(%rsp), %r14
	addl	$16384, %r14d
	addq	%r9, %r9
	addq	%rdi, %r8
	movq	%rsi, %rcx
	notq	%rcx
	addq	%r8, %rcx
	cmpq	%r11, %rcx
	jne	.LBB15_53
	xorl	%ecx, %ecx
	movq	264(%rsp), %r13
	jmp	.LBB15_56
.LBB15_53:
	leaq	(%rsi,%rsi), %rcx
	movq	%r13, %rbp
	movq	%r13, %rdi
	andq	$-2, %rdi
	movq	%rbx, 16(%rsp)
	addq	%rbx, %rcx
	leaq	(%rdx,%rcx), %r8
	addq	$2, %r8
	xorl	%ecx, %ecx
	movq	264(%rsp), %r13
	.p2align	4
.LBB15_54:
	movzwl	-2(%r8,%rcx,2), %r10d
	movzwl	(%r15,%r10,2), %r11d
	movl	%eax, %ebx
	subl	%r10d, %ebx
	movl	%ebx, (%r13,%r9,4)
	movl	%r14d, %r10d
	subl	%r11d, %r10d
	movl	%r10d, 4(%r13,%r9,4)
	movzwl	(%r8,%rcx,2), %r10d
	movzwl	(%r15,%r10,2), %r11d
	movl	%eax, %ebx
	subl	%r10d, %ebx
	movl	%ebx, 8(%r13,%r9,4)
	movl	%r14d, %r10d
	subl	%r11d, %r10d
	movl	%r10d, 12(%r13,%r9,4)
	addq	$4, %r9
	addq	$2, %rcx
	cmpq	%rcx, %rdi
	jne	.LBB15_54
	testb	$1, %bpl
	movq	16(%rsp), %rbx
	je	.LBB15_57
.LBB15_56:
	leaq	(%rdx,%rsi,2), %rdx
	addq	%rbx, %rdx
	movzwl	(%rdx,%rcx,2), %ecx
	movzwl	(%r15,%rcx,2), %edx
	subl	%ecx, %eax
	movl	%eax, (%r13,%r9,4)
	subl	%edx, %r14d
	movl	%r14d, 4(%r13,%r9,4)
.LBB15_57:
	xorl	%eax, %eax
.LBB15_58:
	movq	88(%rsp), %rcx
	movq	%rax, (%rcx)
	movq	%r12, 8(%rcx)
	movq	$0, 16(%rcx)
	addq	$136, %rsp
	popq	%rbx
	popq	%r12
	popq	%r13
	popq	%r14
	popq	%r15
	popq	%rbp
	retq
.Lfunc_end15:
	.size	"hull_call::list_in", .Lfunc_end15-"hull_call::list_in"

	.section	".text.core::slice::edits::mirror::<i16>","ax",@progbits
	.p2align	4
	.type	"core::slice::edits::mirror::<i16>",@function
"core::slice::edits::mirror::<i16>":
	leaq	(%rdi,%rdx,2), %rax
	leaq	(%rsi,%rdx,2), %rcx
	cmpq	%rcx, %rdi
	setb	%cl
	cmpq	%rax, %rsi
	setb	%al
	testb	%al, %cl
	je	.LBB16_2
	xorl	%eax, %eax
	jmp	.LBB16_5
.LBB16_2:
	movabsq	$9223372036854775800, %rax
	andq	%rdx, %rax
	movq	%rdx, %rcx
	andq	$-8, %rcx
	negq	%rcx
	leaq	(%rsi,%rdx,2), %r8
	addq	$-16, %r8
	xorl	%r9d, %r9d
	movq	%rdi, %r10
	.p2align	4
.LBB16_3:
	movdqu	(%r10), %xmm0
	movdqu	(%r8,%r9,2), %xmm1
	pshufd	$78, %xmm1, %xmm1
	pshuflw	$27, %xmm1, %xmm1
	pshufhw	$27, %xmm1, %xmm1
	movdqu	%xmm1, (%r10)
	pshufd	$78, %xmm0, %xmm0
	pshuflw	$27, %xmm0, %xmm0
	pshufhw	$27, %xmm0, %xmm0
	movdqu	%xmm0, (%r8,%r9,2)
	addq	$-8, %r9
	addq	$16, %r10
	cmpq	%r9, %rcx
	jne	.LBB16_3
	cmpq	%rax, %rdx
	je	.LBB16_10
.LBB16_5:
	movq	%rax, %rcx
	orq	$1, %rcx
	testb	$1, %dl
	je	.LBB16_7
	movq	%rax, %r8
	notq	%r8
	addq	%rdx, %r8
	movzwl	(%rdi,%rax,2), %r9d
	movzwl	(%rsi,%r8,2), %r10d
	movw	%r10w, (%rdi,%rax,2)
	movw	%r9w, (%rsi,%r8,2)
	movq	%rcx, %rax
.LBB16_7:
	cmpq	%rcx, %rdx
	je	.LBB16_10
	subq	%rax, %rdx
	leaq	(%rdi,%rax,2), %rax
	addq	$2, %rax
	.p2align	4
.LBB16_9:
	movzwl	-2(%rax), %ecx
	movzwl	-2(%rsi,%rdx,2), %edi
	movw	%di, -2(%rax)
	movw	%cx, -2(%rsi,%rdx,2)
	movzwl	(%rax), %ecx
	movzwl	-4(%rsi,%rdx,2), %edi
	movw	%di, (%rax)
	movw	%cx, -4(%rsi,%rdx,2)
	addq	$4, %rax
	addq	$-2, %rdx
	jne	.LBB16_9
.LBB16_10:
	retq
.Lfunc_end16:
	.size	"core::slice::edits::mirror::<i16>", .Lfunc_end16-"core::slice::edits::mirror::<i16>"

	.section	".text.hull_call::list_sized::<=256>","ax",@progbits
	.p2align	4
	.type	"hull_call::list_sized::<=256>",@function
"hull_call::list_sized::<=256>":
	pushq	%rbp
	pushq	%r15
	pushq	%r14
	pushq	%r13
	pushq	%r12
	pushq	%rbx
	subq	$2184, %rsp
	movq	%r9, %r14
	movl	%r8d, 100(%rsp)
	movl	%ecx, 96(%rsp)
	movq	%rdx, 104(%rsp)
	movq	%rsi, %r13
	movq	%rdi, %rbx
	xorps	%xmm0, %xmm0
	movaps	%xmm0, 112(%rsp)
	movq	$0, 128(%rsp)
	leaq	136(%rsp), %rdi
	movl	$512, %edx
	movl	$255, %esi
	callq	memset@PLT
	leaq	1672(%rsp), %rbp
	movl	$512, %edx
	movq	%rbp, %rdi
	movl	$255, %esi
	callq	memset@PLT
	leaq	1160(%rsp), %r15
	movl	$512, %edx
	movq	%r15, %rdi
	xorl	%esi, %esi
	callq	memset@PLT
	leaq	648(%rsp), %r12
	movl	$512, %edx
	movq	%r12, %rdi
	xorl	%esi, %esi
	callq	memset@PLT
	movq	2240(%rsp), %rcx
	movq	%rcx, %rax
	subq	%r14, %rax
	incq	%rax
	movups	2248(%rsp), %xmm0
	movups	%xmm0, 72(%rsp)
	movq	%r12, 56(%rsp)
	movq	%r15, 40(%rsp)
	movq	%rax, 32(%rsp)
	movq	%rbp, 24(%rsp)
	movq	%rax, 16(%rsp)
	leaq	136(%rsp), %rax
	movq	%rax, 8(%rsp)
	movq	%rcx, (%rsp)
	movq	$256, 64(%rsp)
	movq	$256, 48(%rsp)
	leaq	112(%rsp), %rdi
	movq	%r13, %rsi
	movq	104(%rsp), %rdx
	movl	96(%rsp), %ecx
	movl	100(%rsp), %r8d
	movq	%r14, %r9
	callq	"hull_call::list_in"
	movzbl	112(%rsp), %eax
	movq	%rax, (%rbx)
	movups	120(%rsp), %xmm0
	movups	%xmm0, 8(%rbx)
	addq	$2184, %rsp
	popq	%rbx
	popq	%r12
	popq	%r13
	popq	%r14
	popq	%r15
	popq	%rbp
	retq
.Lfunc_end17:
	.size	"hull_call::list_sized::<=256>", .Lfunc_end17-"hull_call::list_sized::<=256>"

	.section	".text.hull_call::list_sized::<=2048>","ax",@progbits
	.p2align	4
	.type	"hull_call::list_sized::<=2048>",@function
"hull_call::list_sized::<=2048>":
	pushq	%rbp
	pushq	%r15
	pushq	%r14
	pushq	%r13
	pushq	%r12
	pushq	%rbx
	subq	$3072, %rsp
	movq	$0, (%rsp)
	subq	$3072, %rsp
	movq	$0, (%rsp)
	subq	$3072, %rsp
	movq	$0, (%rsp)
	subq	$3072, %rsp
	movq	$0, (%rsp)
	subq	$3072, %rsp
	movq	$0, (%rsp)
	subq	$1160, %rsp
	movq	%r9, %r14
	movl	%r8d, 100(%rsp)
	movl	%ecx, 96(%rsp)
	movq	%rdx, 104(%rsp)
	movq	%rsi, %r13
	movq	%rdi, %rbx
	xorps	%xmm0, %xmm0
	movaps	%xmm0, 112(%rsp)
	movq	$0, 128(%rsp)
	leaq	136(%rsp), %rdi
	movl	$4096, %edx
	movl	$255, %esi
	callq	memset@PLT
	leaq	12424(%rsp), %rbp
	movl	$4096, %edx
	movq	%rbp, %rdi
	movl	$255, %esi
	callq	memset@PLT
	leaq	8328(%rsp), %r15
	movl	$4096, %edx
	movq	%r15, %rdi
	xorl	%esi, %esi
	callq	memset@PLT
	leaq	4232(%rsp), %r12
	movl	$4096, %edx
	movq	%r12, %rdi
	xorl	%esi, %esi
	callq	memset@PLT
	movq	16576(%rsp), %rcx
	movq	%rcx, %rax
	subq	%r14, %rax
	incq	%rax
	movups	16584(%rsp), %xmm0
	movups	%xmm0, 72(%rsp)
	movq	%r12, 56(%rsp)
	movq	%r15, 40(%rsp)
	movq	%rax, 32(%rsp)
	movq	%rbp, 24(%rsp)
	movq	%rax, 16(%rsp)
	leaq	136(%rsp), %rax
	movq	%rax, 8(%rsp)
	movq	%rcx, (%rsp)
	movq	$2048, 64(%rsp)
	movq	$2048, 48(%rsp)
	leaq	112(%rsp), %rdi
	movq	%r13, %rsi
	movq	104(%rsp), %rdx
	movl	96(%rsp), %ecx
	movl	100(%rsp), %r8d
	movq	%r14, %r9
	callq	"hull_call::list_in"
	movzbl	112(%rsp), %eax
	movq	%rax, (%rbx)
	movups	120(%rsp), %xmm0
	movups	%xmm0, 8(%rbx)
	addq	$16520, %rsp
	popq	%rbx
	popq	%r12
	popq	%r13
	popq	%r14
	popq	%r15
	popq	%rbp
	retq
.Lfunc_end18:
	.size	"hull_call::list_sized::<=2048>", .Lfunc_end18-"hull_call::list_sized::<=2048>"

	.section	".text.hull_call::list_sized::<=16385>","ax",@progbits
	.p2align	4
	.type	"hull_call::list_sized::<=16385>",@function
"hull_call::list_sized::<=16385>":
	pushq	%rbp
	pushq	%r15
	pushq	%r14
	pushq	%r13
	pushq	%r12
	pushq	%rbx
	movq	%rsp, %r11
	subq	$129024, %r11
.LBB19_1:
	subq	$3072, %rsp
	movq	$0, (%rsp)
	cmpq	%r11, %rsp
	jne	.LBB19_1
	subq	$2200, %rsp
	movq	%r9, %r14
	movl	%r8d, 100(%rsp)
	movl	%ecx, 96(%rsp)
	movq	%rdx, 104(%rsp)
	movq	%rsi, %r13
	movq	%rdi, %rbx
	xorps	%xmm0, %xmm0
	movaps	%xmm0, 112(%rsp)
	movq	$0, 128(%rsp)
	leaq	144(%rsp), %rdi
	movl	$32770, %edx
	movl	$255, %esi
	callq	memset@PLT
	leaq	98454(%rsp), %rbp
	movl	$32770, %edx
	movq	%rbp, %rdi
	movl	$255, %esi
	callq	memset@PLT
	leaq	65684(%rsp), %r15
	movl	$32770, %edx
	movq	%r15, %rdi
	xorl	%esi, %esi
	callq	memset@PLT
	leaq	32914(%rsp), %r12
	movl	$32770, %edx
	movq	%r12, %rdi
	xorl	%esi, %esi
	callq	memset@PLT
	movq	131280(%rsp), %rcx
	movq	%rcx, %rax
	subq	%r14, %rax
	incq	%rax
	movups	131288(%rsp), %xmm0
	movups	%xmm0, 72(%rsp)
	movq	%r12, 56(%rsp)
	movq	%r15, 40(%rsp)
	movq	%rax, 32(%rsp)
	movq	%rbp, 24(%rsp)
	movq	%rax, 16(%rsp)
	leaq	144(%rsp), %rax
	movq	%rax, 8(%rsp)
	movq	%rcx, (%rsp)
	movq	$16385, 64(%rsp)
	movq	$16385, 48(%rsp)
	leaq	112(%rsp), %rdi
	movq	%r13, %rsi
	movq	104(%rsp), %rdx
	movl	96(%rsp), %ecx
	movl	100(%rsp), %r8d
	movq	%r14, %r9
	callq	"hull_call::list_in"
	movzbl	112(%rsp), %eax
	movq	%rax, (%rbx)
	movups	120(%rsp), %xmm0
	movups	%xmm0, 8(%rbx)
	addq	$131224, %rsp
	popq	%rbx
	popq	%r12
	popq	%r13
	popq	%r14
	popq	%r15
	popq	%rbp
	retq
.Lfunc_end19:
	.size	"hull_call::list_sized::<=16385>", .Lfunc_end19-"hull_call::list_sized::<=16385>"

	.section	".text.line_reply::reply","ax",@progbits
	.p2align	4
	.type	"line_reply::reply",@function
"line_reply::reply":
	cmpq	$8240, %rcx
	jae	.LBB20_2
	xorl	%eax, %eax
	retq
.LBB20_2:
	pushq	%r15
	pushq	%r14
	pushq	%r13
	pushq	%r12
	pushq	%rbx
	movq	%rsp, %r11
	subq	$52224, %r11
.LBB20_3:
	subq	$3072, %rsp
	movq	$0, (%rsp)
	cmpq	%r11, %rsp
	jne	.LBB20_3
	subq	$272, %rsp
	movq	%rdx, %rbx
	leaq	20496(%rsp), %r14
	movl	$32000, %edx
	movq	%rdi, %r15
	movq	%r14, %rdi
	movq	%rsi, %r12
	xorl	%esi, %esi
	callq	memset@PLT
	leaq	8(%rsp), %r13
	movl	$8200, %edx
	movq	%r13, %rdi
	xorl	%esi, %esi
	callq	memset@PLT
	leaq	8208(%rsp), %rcx
	movq	%r15, %rdi
	movq	%r12, %rsi
	movq	%r14, %rdx
	movq	%r13, %r8
	movq	%rbx, %r9
	callq	"line_reply::answer_line"
	addq	$52496, %rsp
	popq	%rbx
	popq	%r12
	popq	%r13
	popq	%r14
	popq	%r15
	retq
.Lfunc_end20:
	.size	"line_reply::reply", .Lfunc_end20-"line_reply::reply"

	.section	.rodata.cst16,"aM",@progbits,16
	.p2align	4, 0x0
.LCPI21_0:
	.byte	15
	.byte	15
	.zero	1
	.zero	1
	.zero	1
	.zero	1
	.zero	1
	.zero	1
	.zero	1
	.zero	1
	.zero	1
	.zero	1
	.zero	1
	.zero	1
	.zero	1
	.zero	1
.LCPI21_1:
	.byte	255
	.byte	255
	.byte	0
	.byte	255
	.byte	255
	.byte	255
	.byte	255
	.byte	255
	.byte	255
	.byte	255
	.byte	255
	.byte	255
	.byte	255
	.byte	255
	.byte	255
	.byte	255
.LCPI21_2:
	.byte	255
	.byte	255
	.byte	255
	.byte	0
	.byte	255
	.byte	255
	.byte	255
	.byte	255
	.byte	255
	.byte	255
	.byte	255
	.byte	255
	.byte	255
	.byte	255
	.byte	255
	.byte	255
.LCPI21_3:
	.byte	9
	.byte	9
	.byte	9
	.byte	9
	.zero	1
	.zero	1
	.zero	1
	.zero	1
	.zero	1
	.zero	1
	.zero	1
	.zero	1
	.zero	1
	.zero	1
	.zero	1
	.zero	1
.LCPI21_4:
	.byte	48
	.byte	48
	.byte	48
	.byte	48
	.zero	1
	.zero	1
	.zero	1
	.zero	1
	.zero	1
	.zero	1
	.zero	1
	.zero	1
	.zero	1
	.zero	1
	.zero	1
	.zero	1
.LCPI21_5:
	.byte	87
	.byte	87
	.byte	87
	.byte	87
	.zero	1
	.zero	1
	.zero	1
	.zero	1
	.zero	1
	.zero	1
	.zero	1
	.zero	1
	.zero	1
	.zero	1
	.zero	1
	.zero	1
.LCPI21_6:
	.long	1
	.long	0
	.long	4294967295
	.long	0
.LCPI21_7:
	.byte	15
	.byte	15
	.byte	15
	.byte	15
	.zero	1
	.zero	1
	.zero	1
	.zero	1
	.zero	1
	.zero	1
	.zero	1
	.zero	1
	.zero	1
	.zero	1
	.zero	1
	.zero	1
.LCPI21_8:
	.byte	255
	.byte	0
	.byte	0
	.byte	0
	.byte	0
	.byte	0
	.byte	0
	.byte	0
	.byte	255
	.byte	0
	.byte	0
	.byte	0
	.byte	0
	.byte	0
	.byte	0
	.byte	0
.LCPI21_9:
	.long	252645135
	.long	268374015
	.long	252645135
	.long	268374015
.LCPI21_10:
	.byte	15
	.byte	15
	.zero	1
	.byte	15
	.byte	15
	.byte	15
	.zero	1
	.byte	15
	.byte	15
	.byte	15
	.zero	1
	.byte	15
	.byte	15
	.byte	15
	.zero	1
	.byte	15
.LCPI21_11:
	.zero	16,15
.LCPI21_12:
	.byte	255
	.byte	255
	.byte	0
	.byte	255
	.byte	255
	.byte	255
	.byte	0
	.byte	255
	.byte	255
	.byte	255
	.byte	0
	.byte	255
	.byte	255
	.byte	255
	.byte	0
	.byte	255
.LCPI21_13:
	.byte	9
	.byte	9
	.byte	159
	.byte	9
	.byte	9
	.byte	9
	.byte	159
	.byte	9
	.byte	9
	.byte	9
	.byte	159
	.byte	9
	.byte	9
	.byte	9
	.byte	159
	.byte	9
.LCPI21_14:
	.zero	16,48
.LCPI21_15:
	.zero	16,87
.LCPI21_16:
	.byte	15
	.byte	15
	.byte	15
	.byte	255
	.byte	15
	.byte	15
	.byte	15
	.byte	255
	.zero	1
	.zero	1
	.zero	1
	.zero	1
	.zero	1
	.zero	1
	.zero	1
	.zero	1
.LCPI21_17:
	.byte	15
	.byte	15
	.byte	15
	.zero	1
	.byte	15
	.byte	15
	.byte	15
	.zero	1
	.zero	1
	.zero	1
	.zero	1
	.zero	1
	.zero	1
	.zero	1
	.zero	1
	.zero	1
.LCPI21_18:
	.byte	255
	.byte	255
	.byte	255
	.byte	0
	.byte	255
	.byte	255
	.byte	255
	.byte	0
	.byte	255
	.byte	255
	.byte	255
	.byte	255
	.byte	255
	.byte	255
	.byte	255
	.byte	255
.LCPI21_19:
	.byte	10
	.byte	10
	.byte	10
	.byte	160
	.byte	10
	.byte	10
	.byte	10
	.byte	160
	.zero	1
	.zero	1
	.zero	1
	.zero	1
	.zero	1
	.zero	1
	.zero	1
	.zero	1
.LCPI21_20:
	.byte	48
	.byte	48
	.byte	48
	.byte	48
	.byte	48
	.byte	48
	.byte	48
	.byte	48
	.zero	1
	.zero	1
	.zero	1
	.zero	1
	.zero	1
	.zero	1
	.zero	1
	.zero	1
.LCPI21_21:
	.byte	87
	.byte	87
	.byte	87
	.byte	87
	.byte	87
	.byte	87
	.byte	87
	.byte	87
	.zero	1
	.zero	1
	.zero	1
	.zero	1
	.zero	1
	.zero	1
	.zero	1
	.zero	1
.LCPI21_22:
	.short	255
	.short	0
	.short	255
	.short	0
	.short	255
	.short	0
	.short	255
	.short	0
.LCPI21_23:
	.byte	10
	.byte	10
	.byte	10
	.byte	10
	.zero	1
	.zero	1
	.zero	1
	.zero	1
	.zero	1
	.zero	1
	.zero	1
	.zero	1
	.zero	1
	.zero	1
	.zero	1
	.zero	1
.LCPI21_24:
	.byte	160
	.byte	160
	.byte	160
	.byte	160
	.zero	1
	.zero	1
	.zero	1
	.zero	1
	.zero	1
	.zero	1
	.zero	1
	.zero	1
	.zero	1
	.zero	1
	.zero	1
	.zero	1
.LCPI21_25:
	.short	65535
	.short	0
	.short	65535
	.short	0
	.short	65535
	.short	0
	.short	65535
	.short	0
.LCPI21_26:
	.byte	15
	.byte	15
	.byte	15
	.byte	255
	.byte	15
	.byte	15
	.byte	15
	.byte	255
	.byte	0
	.byte	0
	.byte	0
	.byte	0
	.byte	0
	.byte	0
	.byte	0
	.byte	0
.LCPI21_27:
	.byte	10
	.byte	10
	.byte	10
	.byte	160
	.byte	10
	.byte	10
	.byte	10
	.byte	160
	.byte	0
	.byte	0
	.byte	0
	.byte	0
	.byte	0
	.byte	0
	.byte	0
	.byte	0
	.section	".text.line_reply::answer_line","ax",@progbits
	.p2align	4
	.type	"line_reply::answer_line",@function
"line_reply::answer_line":
	pushq	%rbp
	pushq	%r15
	pushq	%r14
	pushq	%r13
	pushq	%r12
	pushq	%rbx
	subq	$1240, %rsp
	movq	%r9, %rbx
	movq	%r8, 56(%rsp)
	movq	%rcx, %r15
	movq	%rdx, %r12
	movq	%rsi, %r13
	movq	%rdi, %rbp
	leaq	216(%rsp), %r14
	movl	$1024, %edx
	movq	%r14, %rdi
	xorl	%esi, %esi
	callq	memset@PLT
	xorps	%xmm0, %xmm0
	movaps	%xmm0, 32(%rsp)
	movq	$0, 48(%rsp)
	movaps	%xmm0, 64(%rsp)
	movaps	%xmm0, 80(%rsp)
	movaps	%xmm0, 96(%rsp)
	movaps	%xmm0, 112(%rsp)
	movq	$0, 128(%rsp)
	leaq	32(%rsp), %rdi
	movq	%rbp, %rsi
	movq	%r13, %rdx
	callq	"line_parts::read"
	cmpb	$1, 32(%rsp)
	jne	.LBB21_3
	cmpb	$0, 40(%rsp)
	je	.LBB21_7
	movb	$18, %r14b
	jmp	.LBB21_4
.LBB21_3:
	movb	$8, %r14b
.LBB21_4:
	xorl	%r15d, %r15d
.LBB21_5:
	incb	%r14b
	movl	%r14d, %eax
	shrb	$4, %al
	orb	$56, %al
	movb	%al, (%rbx)
	movl	%r15d, %eax
	andb	$15, %al
	leal	48(%rax), %ecx
	leal	87(%rax), %edx
	cmpb	$10, %al
	movzbl	%cl, %eax
	movzbl	%dl, %ecx
	cmovbl	%eax, %ecx
	movl	%r15d, %eax
	shrb	$4, %al
	leal	48(%rax), %edx
	addb	$87, %al
	cmpb	$-96, %r15b
	movzbl	%dl, %edx
	movzbl	%al, %eax
	cmovbl	%edx, %eax
	movb	%cl, 9(%rbx)
	movb	%al, 8(%rbx)
	movl	%r15d, %eax
	shrl	$8, %eax
	andb	$15, %al
	leal	48(%rax), %ecx
	leal	87(%rax), %edx
	cmpb	$10, %al
	movzbl	%cl, %eax
	movzbl	%dl, %ecx
	cmovbl	%eax, %ecx
	movb	%cl, 7(%rbx)
	movl	%r15d, %eax
	shrl	$12, %eax
	andb	$15, %al
	leal	48(%rax), %ecx
	leal	87(%rax), %edx
	cmpb	$10, %al
	movzbl	%cl, %eax
	movzbl	%dl, %ecx
	cmovbl	%eax, %ecx
	movb	%cl, 6(%rbx)
	movl	%r15d, %eax
	shrl	$16, %eax
	andb	$15, %al
	leal	48(%rax), %ecx
	leal	87(%rax), %edx
	cmpb	$10, %al
	movzbl	%cl, %eax
	movzbl	%dl, %ecx
	cmovbl	%eax, %ecx
	movb	%cl, 5(%rbx)
	movl	%r15d, %eax
	shrl	$20, %eax
	shrl	$24, %r15d
	movl	%eax, %ecx
	andb	$15, %cl
	andb	$15, %r15b
	movzbl	%r14b, %edx
	andl	$3840, %eax
	orl	%edx, %eax
	movd	%eax, %xmm0
	pand	.LCPI21_0(%rip), %xmm0
	movzbl	%r15b, %eax
	movd	%eax, %xmm1
	pslld	$16, %xmm1
	movdqa	.LCPI21_1(%rip), %xmm2
	pandn	%xmm1, %xmm2
	por	%xmm0, %xmm2
	movdqa	.LCPI21_2(%rip), %xmm0
	pand	%xmm0, %xmm2
	movzbl	%cl, %eax
	movd	%eax, %xmm1
	pslld	$24, %xmm1
	pandn	%xmm1, %xmm0
	por	%xmm2, %xmm0
	movdqa	%xmm0, %xmm1
	pcmpgtb	.LCPI21_3(%rip), %xmm1
	movdqa	.LCPI21_4(%rip), %xmm2
	por	%xmm0, %xmm2
	paddb	.LCPI21_5(%rip), %xmm0
	pand	%xmm1, %xmm0
	pandn	%xmm2, %xmm1
	por	%xmm0, %xmm1
	movd	%xmm1, 1(%rbx)
	movl	$10, %eax
.LBB21_6:
	addq	$1240, %rsp
	popq	%rbx
	popq	%r12
	popq	%r13
	popq	%r14
	popq	%r15
	popq	%rbp
	retq
.LBB21_7:
	movq	48(%rsp), %rcx
	movq	%r14, (%rsp)
	leaq	64(%rsp), %rdi
	movq	%rbp, %rsi
	movq	%r13, %rdx
	movq	%r12, %r8
	movq	%r15, %r9
	callq	"line_walk::walk_digits"
	movzbl	72(%rsp), %r14d
	movq	80(%rsp), %r15
	cmpb	$0, 64(%rsp)
	je	.LBB21_9
	movzbl	%r14b, %eax
	movl	$3669895, %ecx
	btl	%eax, %ecx
	jb	.LBB21_4
	jmp	.LBB21_5
.LBB21_9:
	movdqu	88(%rsp), %xmm0
	movdqu	104(%rsp), %xmm1
	pshufd	$238, %xmm1, %xmm9
	pshufd	$68, %xmm1, %xmm8
	pshufd	$238, %xmm0, %xmm10
	pshufd	$68, %xmm0, %xmm7
	movq	88(%rsp), %r12
	movl	120(%rsp), %ebp
	cmpq	$32768, %r15
	jbe	.LBB21_11
	xorl	%ecx, %ecx
	movq	56(%rsp), %r13
	jmp	.LBB21_43
.LBB21_11:
	cmpq	$16384, %r15
	movq	56(%rsp), %r13
	ja	.LBB21_27
	testq	%r15, %r15
	je	.LBB21_31
	cmpq	$4, %r15
	jae	.LBB21_15
	xorl	%ecx, %ecx
	xorl	%eax, %eax
	jmp	.LBB21_24
.LBB21_15:
	cmpq	$32, %r15
	jae	.LBB21_17
	xorl	%eax, %eax
	xorl	%ecx, %ecx
	jmp	.LBB21_21
.LBB21_17:
	movl	%r15d, %eax
	andl	$32736, %eax
	pxor	%xmm0, %xmm0
	xorl	%ecx, %ecx
	pxor	%xmm1, %xmm1
.LBB21_18:
	movdqu	216(%rsp,%rcx), %xmm2
	pmaxub	%xmm2, %xmm0
	movdqu	232(%rsp,%rcx), %xmm2
	pmaxub	%xmm2, %xmm1
	addq	$32, %rcx
	cmpq	%rcx, %rax
	jne	.LBB21_18
	pmaxub	%xmm1, %xmm0
	pshufd	$238, %xmm0, %xmm1
	pmaxub	%xmm0, %xmm1
	pshufd	$85, %xmm1, %xmm0
	pmaxub	%xmm1, %xmm0
	movdqa	%xmm0, %xmm1
	psrld	$16, %xmm1
	pmaxub	%xmm0, %xmm1
	movdqa	%xmm1, %xmm0
	psrlw	$8, %xmm0
	pmaxub	%xmm1, %xmm0
	movd	%xmm0, %ecx
	cmpq	%rax, %r15
	je	.LBB21_26
	testb	$28, %r15b
	je	.LBB21_24
.LBB21_21:
	movq	%rax, %rdx
	movl	%r15d, %eax
	andl	$32764, %eax
	movzbl	%cl, %ecx
	movd	%ecx, %xmm0
	punpcklbw	%xmm0, %xmm0
	pshuflw	$0, %xmm0, %xmm0
.LBB21_22:
	movd	216(%rsp,%rdx), %xmm1
	pmaxub	%xmm1, %xmm0
	addq	$4, %rdx
	cmpq	%rdx, %rax
	jne	.LBB21_22
	movdqa	%xmm0, %xmm1
	psrld	$16, %xmm1
	pmaxub	%xmm0, %xmm1
	movdqa	%xmm1, %xmm0
	psrlw	$8, %xmm0
	pmaxub	%xmm1, %xmm0
	movd	%xmm0, %ecx
	jmp	.LBB21_25
.LBB21_24:
	movzbl	216(%rsp,%rax), %edx
	movzbl	%cl, %ecx
	cmpb	%cl, %dl
	cmoval	%edx, %ecx
	incq	%rax
.LBB21_25:
	cmpq	%rax, %r15
	jne	.LBB21_24
.LBB21_26:
	cmpb	$4, %cl
	jb	.LBB21_31
.LBB21_27:
	xorl	%eax, %eax
	.p2align	4
.LBB21_28:
	xorl	%ecx, %ecx
	cmpq	$16384, %rax
	je	.LBB21_43
	cmpb	$3, 216(%rsp,%rax)
	ja	.LBB21_43
	incq	%rax
	cmpq	%rax, %r15
	jne	.LBB21_28
.LBB21_31:
	pxor	%xmm0, %xmm0
	movdqa	%xmm0, 64(%rsp)
	movq	$0, 80(%rsp)
	movdqa	.LCPI21_6(%rip), %xmm0
	movdqa	%xmm0, 32(%rsp)
	testq	%r15, %r15
	je	.LBB21_34
	cmpq	$1, %r15
	jne	.LBB21_35
	movl	$16384, %r9d
	movl	$16384, %eax
	xorl	%ecx, %ecx
	movl	$16384, %r8d
	jmp	.LBB21_38
.LBB21_34:
	movl	$16384, %r8d
	movl	$16384, %r9d
	jmp	.LBB21_39
.LBB21_35:
	movl	%r15d, %edx
	andl	$65534, %edx
	movl	$16384, %r9d
	movl	$16384, %eax
	xorl	%ecx, %ecx
	movl	$16384, %r8d
	.p2align	4
.LBB21_36:
	movzbl	216(%rsp,%rcx), %esi
	addl	32(%rsp,%rsi,4), %eax
	cmpq	%r9, %rax
	cmovbq	%rax, %r9
	cmpq	%r8, %rax
	cmovaq	%rax, %r8
	movzbl	217(%rsp,%rcx), %esi
	addl	32(%rsp,%rsi,4), %eax
	cmpq	%r9, %rax
	cmovbq	%rax, %r9
	cmpq	%r8, %rax
	cmovaq	%rax, %r8
	addq	$2, %rcx
	cmpq	%rcx, %rdx
	jne	.LBB21_36
	testb	$1, %r15b
	je	.LBB21_39
.LBB21_38:
	movzbl	216(%rsp,%rcx), %ecx
	addl	32(%rsp,%rcx,4), %eax
	cmpq	%r9, %rax
	cmovbq	%rax, %r9
	cmpq	%r8, %rax
	cmovaq	%rax, %r8
.LBB21_39:
	movdqa	%xmm10, 144(%rsp)
	movdqa	%xmm9, 160(%rsp)
	movdqa	%xmm8, 176(%rsp)
	movdqa	%xmm7, 192(%rsp)
	movq	%r8, %rax
	subq	%r9, %rax
	cmpq	$256, %rax
	jb	.LBB21_41
	leaq	64(%rsp), %rdi
	leaq	216(%rsp), %rsi
	movq	%r15, %rdx
	movq	%r9, %rcx
	movq	%r13, %r9
	callq	"hull_call::list_sized::<=1025>"
	jmp	.LBB21_42
.LBB21_41:
	movq	%r13, 8(%rsp)
	movq	%r8, (%rsp)
	movq	$2050, 16(%rsp)
	leaq	64(%rsp), %rdi
	leaq	216(%rsp), %rsi
	movq	%r15, %rdx
	xorl	%ecx, %ecx
	xorl	%r8d, %r8d
	callq	"hull_call::list_sized::<=256>"
.LBB21_42:
	movq	72(%rsp), %rax
	xorl	%ecx, %ecx
	cmpb	$0, 64(%rsp)
	cmoveq	%rax, %rcx
	movdqa	192(%rsp), %xmm7
	movdqa	176(%rsp), %xmm8
	movdqa	160(%rsp), %xmm9
	movdqa	144(%rsp), %xmm10
.LBB21_43:
	movl	%r14d, %eax
	andb	$15, %al
	leal	48(%rax), %edx
	leal	87(%rax), %esi
	cmpb	$10, %al
	movzbl	%dl, %eax
	movzbl	%sil, %edx
	cmovbl	%eax, %edx
	movb	%dl, 1(%rbx)
	movl	%r14d, %eax
	shrb	$4, %al
	leal	48(%rax), %edx
	addb	$87, %al
	cmpb	$-96, %r14b
	movzbl	%dl, %edx
	movzbl	%al, %eax
	cmovbl	%edx, %eax
	movb	%al, (%rbx)
	movl	%r15d, %eax
	andb	$15, %al
	leal	48(%rax), %edx
	leal	87(%rax), %esi
	cmpb	$10, %al
	movzbl	%dl, %eax
	movzbl	%sil, %edx
	cmovbl	%eax, %edx
	movb	%dl, 5(%rbx)
	movl	%r15d, %eax
	shrb	$4, %al
	leal	48(%rax), %edx
	addb	$87, %al
	cmpb	$-96, %r15b
	movzbl	%dl, %edx
	movzbl	%al, %eax
	cmovbl	%edx, %eax
	movb	%al, 4(%rbx)
	movl	%r15d, %eax
	shrl	$8, %eax
	andb	$15, %al
	leal	48(%rax), %edx
	leal	87(%rax), %esi
	cmpb	$10, %al
	movzbl	%dl, %eax
	movzbl	%sil, %edx
	cmovbl	%eax, %edx
	shrl	$12, %r15d
	andb	$15, %r15b
	leal	48(%r15), %eax
	leal	87(%r15), %esi
	cmpb	$10, %r15b
	movzbl	%al, %eax
	movzbl	%sil, %esi
	cmovbl	%eax, %esi
	movb	%dl, 3(%rbx)
	movb	%sil, 2(%rbx)
	movdqa	%xmm9, %xmm1
	psrlq	$12, %xmm1
	movdqa	%xmm9, %xmm0
	psrlq	$8, %xmm0
	movsd	%xmm1, %xmm0
	movdqa	%xmm8, %xmm1
	psrlq	$12, %xmm1
	movdqa	%xmm8, %xmm2
	psrlq	$8, %xmm2
	movsd	%xmm1, %xmm2
	movdqa	%xmm10, %xmm1
	psrlq	$12, %xmm1
	movdqa	%xmm10, %xmm3
	psrlq	$8, %xmm3
	movsd	%xmm1, %xmm3
	movdqa	%xmm7, %xmm4
	psrlq	$12, %xmm4
	movdqa	%xmm7, %xmm1
	psrlq	$8, %xmm1
	movsd	%xmm4, %xmm1
	movq	%r12, %rax
	shrq	$28, %rax
	movl	%r12d, %edx
	shrl	$16, %edx
	andl	$65280, %edx
	movzbl	%al, %eax
	orl	%edx, %eax
	movl	%r12d, %edx
	shrl	$4, %edx
	andl	$16711680, %edx
	orl	%eax, %edx
	shll	$8, %r12d
	andl	$-16777216, %r12d
	orl	%edx, %r12d
	movd	%r12d, %xmm5
	pand	.LCPI21_7(%rip), %xmm5
	movdqa	%xmm5, %xmm4
	pcmpgtb	.LCPI21_3(%rip), %xmm4
	movdqa	.LCPI21_4(%rip), %xmm6
	por	%xmm5, %xmm6
	paddb	.LCPI21_5(%rip), %xmm5
	pand	%xmm4, %xmm5
	pandn	%xmm6, %xmm4
	por	%xmm5, %xmm4
	movdqa	.LCPI21_8(%rip), %xmm5
	pand	%xmm5, %xmm7
	pand	%xmm5, %xmm10
	packuswb	%xmm10, %xmm7
	pand	%xmm5, %xmm8
	pand	%xmm5, %xmm9
	packuswb	%xmm9, %xmm8
	packuswb	%xmm8, %xmm7
	andpd	%xmm5, %xmm1
	andpd	%xmm5, %xmm3
	packuswb	%xmm3, %xmm1
	andpd	%xmm5, %xmm2
	andpd	%xmm5, %xmm0
	packuswb	%xmm0, %xmm2
	packuswb	%xmm2, %xmm1
	packuswb	%xmm7, %xmm1
	pshufd	$216, %xmm1, %xmm0
	pand	.LCPI21_9(%rip), %xmm0
	movd	%xmm4, 6(%rbx)
	pshuflw	$216, %xmm0, %xmm0
	pshufhw	$216, %xmm0, %xmm2
	pxor	%xmm0, %xmm0
	movdqa	%xmm1, %xmm3
	punpcklbw	%xmm0, %xmm3
	punpckhbw	%xmm0, %xmm1
	pshufhw	$160, %xmm1, %xmm4
	movdqa	%xmm3, %xmm5
	punpckhdq	%xmm4, %xmm5
	pshuflw	$160, %xmm1, %xmm1
	punpckldq	%xmm1, %xmm3
	packuswb	%xmm5, %xmm3
	movdqa	.LCPI21_10(%rip), %xmm1
	pand	%xmm3, %xmm1
	psrlw	$4, %xmm3
	pand	.LCPI21_11(%rip), %xmm3
	movdqa	.LCPI21_12(%rip), %xmm4
	pand	%xmm4, %xmm1
	pandn	%xmm3, %xmm4
	por	%xmm1, %xmm4
	movdqa	.LCPI21_13(%rip), %xmm1
	pminub	%xmm2, %xmm1
	movdqa	.LCPI21_14(%rip), %xmm3
	por	%xmm4, %xmm3
	paddb	.LCPI21_15(%rip), %xmm4
	pcmpeqb	%xmm2, %xmm1
	pand	%xmm1, %xmm3
	pandn	%xmm4, %xmm1
	por	%xmm3, %xmm1
	movl	%ebp, %r8d
	shrl	$16, %r8d
	movl	%ebp, %edx
	shrl	$20, %edx
	andb	$15, %dl
	leal	48(%rdx), %esi
	leal	87(%rdx), %edi
	cmpb	$10, %dl
	movzbl	%sil, %edx
	movzbl	%dil, %esi
	cmovbl	%edx, %esi
	movdqu	%xmm1, 10(%rbx)
	movb	%sil, 28(%rbx)
	movl	%ebp, %edx
	shrl	$24, %edx
	andb	$15, %dl
	leal	48(%rdx), %esi
	leal	87(%rdx), %edi
	cmpb	$10, %dl
	movzbl	%sil, %edx
	movzbl	%dil, %esi
	cmovbl	%edx, %esi
	movb	%sil, 27(%rbx)
	movl	%ebp, %edx
	shrl	$28, %edx
	leal	48(%rdx), %esi
	addb	$87, %dl
	cmpl	$-1610612736, %ebp
	movzbl	%sil, %esi
	movzbl	%dl, %edx
	cmovbl	%esi, %edx
	movb	%dl, 26(%rbx)
	movl	%ecx, %edx
	andb	$15, %dl
	leal	48(%rdx), %esi
	leal	87(%rdx), %edi
	cmpb	$10, %dl
	movzbl	%sil, %edx
	movzbl	%dil, %esi
	cmovbl	%edx, %esi
	movb	%sil, 37(%rbx)
	movl	%ecx, %eax
	shll	$8, %eax
	movzbl	%ch, %edx
	orl	%eax, %edx
	movl	%ebp, %eax
	shrl	$4, %eax
	andl	$65280, %eax
	movzbl	%r8b, %esi
	orl	%eax, %esi
	movl	%ebp, %eax
	shll	$8, %eax
	andl	$16711680, %eax
	orl	%esi, %eax
	shll	$24, %ebp
	orl	%eax, %ebp
	movd	%ebp, %xmm1
	movl	%ecx, %eax
	shrl	$4, %eax
	andl	$65280, %eax
	pinsrw	$2, %eax, %xmm1
	pinsrw	$3, %edx, %xmm1
	movdqa	%xmm1, %xmm2
	punpcklbw	%xmm0, %xmm2
	pshufd	$198, %xmm2, %xmm0
	pshuflw	$231, %xmm0, %xmm0
	pshufd	$198, %xmm0, %xmm0
	packuswb	%xmm0, %xmm0
	movq	.LCPI21_26(%rip), %xmm2
	pand	%xmm0, %xmm2
	pand	.LCPI21_17(%rip), %xmm0
	psrlw	$4, %xmm1
	movdqa	.LCPI21_18(%rip), %xmm3
	pand	%xmm3, %xmm0
	pandn	%xmm1, %xmm3
	por	%xmm0, %xmm3
	movq	.LCPI21_27(%rip), %xmm0
	pmaxub	%xmm2, %xmm0
	pcmpeqb	%xmm2, %xmm0
	movdqa	.LCPI21_20(%rip), %xmm1
	por	%xmm3, %xmm1
	paddb	.LCPI21_21(%rip), %xmm3
	pand	%xmm0, %xmm3
	pandn	%xmm1, %xmm0
	por	%xmm3, %xmm0
	movq	%xmm0, 29(%rbx)
	movq	%rcx, %rdx
	movl	$38, %eax
	addq	%rcx, %rdx
	je	.LBB21_6
	cmpq	$16, %rdx
	jb	.LBB21_45
	leaq	38(%rbx), %rdi
	leaq	(%rbx,%rdx,4), %r8
	addq	$34, %r8
	xorl	%esi, %esi
	cmpq	%rdi, %r8
	jb	.LBB21_56
	leaq	39(%rbx), %r8
	leaq	(%rbx,%rdx,4), %r9
	addq	$35, %r9
	cmpq	%r8, %r9
	jb	.LBB21_56
	leaq	41(%rbx), %r8
	leaq	(%rbx,%rdx,4), %r9
	addq	$37, %r9
	cmpq	%r8, %r9
	jb	.LBB21_56
	leaq	40(%rbx), %r8
	leaq	(%rbx,%rdx,4), %r9
	addq	$36, %r9
	cmpq	%r8, %r9
	jb	.LBB21_56
	leaq	-1(%rdx), %r8
	shrq	$62, %r8
	jne	.LBB21_56
	leaq	(,%rcx,8), %rsi
	addq	%r13, %rsi
	leaq	(%rbx,%rcx,8), %rcx
	addq	$38, %rcx
	cmpq	%rcx, %r13
	setb	%cl
	cmpq	%rsi, %rdi
	setb	%sil
	testb	%sil, %cl
	je	.LBB21_53
.LBB21_45:
	xorl	%esi, %esi
	jmp	.LBB21_56
.LBB21_53:
	movabsq	$9223372036854775804, %rsi
	andq	%rdx, %rsi
	leaq	38(,%rsi,4), %rax
	xorl	%ecx, %ecx
.LBB21_54:
	movdqu	(%r13,%rcx,4), %xmm0
	movdqa	.LCPI21_22(%rip), %xmm2
	movdqa	%xmm0, %xmm1
	pand	%xmm2, %xmm1
	packuswb	%xmm1, %xmm1
	packuswb	%xmm1, %xmm1
	movdqa	.LCPI21_7(%rip), %xmm3
	movdqa	%xmm1, %xmm7
	movdqa	.LCPI21_24(%rip), %xmm4
	pmaxub	%xmm1, %xmm4
	pcmpeqb	%xmm1, %xmm4
	movdqa	%xmm1, %xmm8
	pand	%xmm3, %xmm8
	movdqa	.LCPI21_23(%rip), %xmm1
	movdqa	%xmm1, %xmm9
	pcmpgtb	%xmm8, %xmm9
	movdqa	.LCPI21_4(%rip), %xmm5
	movdqa	%xmm8, %xmm10
	por	%xmm5, %xmm10
	movdqa	.LCPI21_5(%rip), %xmm6
	paddb	%xmm6, %xmm8
	pand	%xmm9, %xmm10
	pandn	%xmm8, %xmm9
	por	%xmm10, %xmm9
	psrlw	$4, %xmm7
	pand	.LCPI21_11(%rip), %xmm7
	movdqa	%xmm7, %xmm8
	por	%xmm5, %xmm8
	paddb	%xmm6, %xmm7
	pand	%xmm4, %xmm7
	pandn	%xmm8, %xmm4
	por	%xmm7, %xmm4
	punpckldq	%xmm9, %xmm4
	movdqa	%xmm0, %xmm8
	psrld	$8, %xmm8
	pand	%xmm2, %xmm8
	packuswb	%xmm8, %xmm8
	packuswb	%xmm8, %xmm8
	pand	%xmm3, %xmm8
	movdqa	%xmm1, %xmm7
	pcmpgtb	%xmm8, %xmm7
	movdqa	%xmm8, %xmm9
	por	%xmm5, %xmm9
	paddb	%xmm6, %xmm8
	pand	%xmm7, %xmm9
	pandn	%xmm8, %xmm7
	por	%xmm9, %xmm7
	psrld	$12, %xmm0
	pand	%xmm2, %xmm0
	packuswb	%xmm0, %xmm0
	packuswb	%xmm0, %xmm0
	pand	%xmm3, %xmm0
	pcmpgtb	%xmm0, %xmm1
	por	%xmm0, %xmm5
	paddb	%xmm6, %xmm0
	pand	%xmm1, %xmm5
	pandn	%xmm0, %xmm1
	por	%xmm5, %xmm1
	punpckldq	%xmm7, %xmm1
	pxor	%xmm0, %xmm0
	punpcklbw	%xmm0, %xmm4
	pshufd	$215, %xmm4, %xmm2
	pshuflw	$36, %xmm2, %xmm2
	pshufhw	$212, %xmm2, %xmm2
	pshufd	$40, %xmm4, %xmm3
	pshuflw	$132, %xmm3, %xmm3
	pshufhw	$116, %xmm3, %xmm3
	packuswb	%xmm2, %xmm3
	movdqa	.LCPI21_25(%rip), %xmm2
	punpcklbw	%xmm0, %xmm1
	pshufd	$215, %xmm1, %xmm0
	pshuflw	$226, %xmm0, %xmm0
	pshufhw	$237, %xmm0, %xmm0
	pshufd	$40, %xmm1, %xmm1
	pshuflw	$232, %xmm1, %xmm1
	pshufhw	$231, %xmm1, %xmm1
	packuswb	%xmm0, %xmm1
	pand	%xmm2, %xmm1
	pandn	%xmm3, %xmm2
	por	%xmm1, %xmm2
	movdqu	%xmm2, (%rdi,%rcx,4)
	addq	$4, %rcx
	cmpq	%rcx, %rsi
	jne	.LBB21_54
.LBB21_55:
	cmpq	%rsi, %rdx
	je	.LBB21_6
.LBB21_56:
	movl	(%r13,%rsi,4), %ecx
	movl	%ecx, %edi
	andb	$15, %dil
	leal	48(%rdi), %r8d
	leal	87(%rdi), %r9d
	cmpb	$10, %dil
	movzbl	%r8b, %edi
	movzbl	%r9b, %r8d
	cmovbl	%edi, %r8d
	movb	%r8b, 3(%rbx,%rax)
	movl	%ecx, %edi
	shrb	$4, %dil
	leal	48(%rdi), %r8d
	addb	$87, %dil
	cmpb	$-96, %cl
	movzbl	%r8b, %r8d
	movzbl	%dil, %edi
	cmovbl	%r8d, %edi
	movb	%dil, 2(%rbx,%rax)
	movl	%ecx, %edi
	shrl	$8, %edi
	andb	$15, %dil
	leal	48(%rdi), %r8d
	leal	87(%rdi), %r9d
	cmpb	$10, %dil
	movzbl	%r8b, %edi
	movzbl	%r9b, %r8d
	cmovbl	%edi, %r8d
	movb	%r8b, 1(%rbx,%rax)
	shrl	$12, %ecx
	andb	$15, %cl
	leal	48(%rcx), %edi
	leal	87(%rcx), %r8d
	cmpb	$10, %cl
	movzbl	%dil, %ecx
	movzbl	%r8b, %edi
	cmovbl	%ecx, %edi
	movb	%dil, (%rbx,%rax)
	addq	$4, %rax
	incq	%rsi
	jmp	.LBB21_55
.Lfunc_end21:
	.size	"line_reply::answer_line", .Lfunc_end21-"line_reply::answer_line"

	.section	.rodata.cst16,"aM",@progbits,16
	.p2align	4, 0x0
.LCPI22_0:
	.zero	16,57
.LCPI22_1:
	.zero	16,169
.LCPI22_2:
	.zero	16,208
.LCPI22_3:
	.byte	58
	.byte	58
	.byte	58
	.byte	58
	.byte	58
	.byte	58
	.byte	58
	.byte	58
	.zero	1
	.zero	1
	.zero	1
	.zero	1
	.zero	1
	.zero	1
	.zero	1
	.zero	1
.LCPI22_4:
	.byte	169
	.byte	169
	.byte	169
	.byte	169
	.byte	169
	.byte	169
	.byte	169
	.byte	169
	.zero	1
	.zero	1
	.zero	1
	.zero	1
	.zero	1
	.zero	1
	.zero	1
	.zero	1
.LCPI22_5:
	.byte	208
	.byte	208
	.byte	208
	.byte	208
	.byte	208
	.byte	208
	.byte	208
	.byte	208
	.zero	1
	.zero	1
	.zero	1
	.zero	1
	.zero	1
	.zero	1
	.zero	1
	.zero	1
	.section	".text.line_walk::walk_digits","ax",@progbits
	.p2align	4
	.type	"line_walk::walk_digits",@function
"line_walk::walk_digits":
	pushq	%rbp
	pushq	%r15
	pushq	%r14
	pushq	%r13
	pushq	%r12
	pushq	%rbx
	subq	$1208, %rsp
	movq	%r9, %r12
	movq	%r8, %r14
	movq	%rcx, %r15
	movq	%rdx, %r13
	movq	%rsi, %rbp
	movq	%rdi, %rbx
	leaq	184(%rsp), %rdi
	movl	$1024, %edx
	xorl	%esi, %esi
	callq	memset@PLT
	addq	$-6, %r13
	je	.LBB22_15
	cmpq	$8, %r13
	jae	.LBB22_3
	xorl	%eax, %eax
	jmp	.LBB22_12
.LBB22_3:
	cmpq	$32, %r13
	jae	.LBB22_5
	xorl	%eax, %eax
	jmp	.LBB22_9
.LBB22_5:
	movq	%r13, %rax
	andq	$-32, %rax
	xorl	%ecx, %ecx
	.p2align	4
.LBB22_6:
	movdqu	6(%rbp,%rcx), %xmm0
	movdqu	22(%rbp,%rcx), %xmm1
	movdqa	.LCPI22_0(%rip), %xmm2
	movdqa	%xmm0, %xmm3
	pminub	%xmm2, %xmm3
	pcmpeqb	%xmm0, %xmm3
	pminub	%xmm1, %xmm2
	pcmpeqb	%xmm1, %xmm2
	movdqa	.LCPI22_1(%rip), %xmm4
	movdqa	%xmm3, %xmm5
	pandn	%xmm4, %xmm5
	movdqa	.LCPI22_2(%rip), %xmm6
	pand	%xmm6, %xmm3
	por	%xmm5, %xmm3
	movdqa	%xmm2, %xmm5
	pandn	%xmm4, %xmm5
	pand	%xmm6, %xmm2
	por	%xmm5, %xmm2
	paddb	%xmm0, %xmm3
	paddb	%xmm1, %xmm2
	movdqu	%xmm3, 184(%rsp,%rcx)
	movdqu	%xmm2, 200(%rsp,%rcx)
	addq	$32, %rcx
	cmpq	%rcx, %rax
	jne	.LBB22_6
	cmpq	%rax, %r13
	je	.LBB22_15
	testb	$24, %r13b
	je	.LBB22_12
.LBB22_9:
	movq	%rax, %rcx
	movq	%r13, %rax
	andq	$-8, %rax
	.p2align	4
.LBB22_10:
	movq	6(%rbp,%rcx), %xmm0
	movdqa	.LCPI22_3(%rip), %xmm1
	pmaxub	%xmm0, %xmm1
	pcmpeqb	%xmm0, %xmm1
	movdqa	.LCPI22_4(%rip), %xmm2
	pand	%xmm1, %xmm2
	pandn	.LCPI22_5(%rip), %xmm1
	por	%xmm2, %xmm1
	paddb	%xmm0, %xmm1
	movq	%xmm1, 184(%rsp,%rcx)
	addq	$8, %rcx
	cmpq	%rcx, %rax
	jne	.LBB22_10
.LBB22_11:
	cmpq	%rax, %r13
	je	.LBB22_15
.LBB22_12:
	movzbl	6(%rbp,%rax), %ecx
	movl	$208, %edx
	cmpb	$58, %cl
	jb	.LBB22_14
	movl	$169, %edx
.LBB22_14:
	addb	%cl, %dl
	movb	%dl, 184(%rsp,%rax)
	incq	%rax
	jmp	.LBB22_11
.LBB22_15:
	pxor	%xmm0, %xmm0
	movdqa	%xmm0, 160(%rsp)
	movdqa	%xmm0, 144(%rsp)
	movdqa	%xmm0, 128(%rsp)
	movdqa	%xmm0, 112(%rsp)
	movq	$0, 176(%rsp)
	cmpq	$32768, %r15
	jbe	.LBB22_17
	xorl	%eax, %eax
	xorl	%ecx, %ecx
.LBB22_41:
	movq	%rcx, 120(%rsp)
	movq	%rax, 128(%rsp)
	movq	120(%rsp), %rax
	movq	%rax, 48(%rsp)
	movq	128(%rsp), %rax
	movq	%rax, 56(%rsp)
	movdqa	%xmm0, 64(%rsp)
	movdqa	%xmm0, 80(%rsp)
	movq	$0, 96(%rsp)
	movb	$1, %al
	xorl	%r15d, %r15d
.LBB22_47:
	movzbl	%al, %eax
	movq	%rax, (%rbx)
	movq	48(%rsp), %rax
	movq	%rax, 8(%rbx)
	movq	56(%rsp), %rax
	movq	%rax, 16(%rbx)
	movq	%r15, 24(%rbx)
	movaps	64(%rsp), %xmm0
	movaps	80(%rsp), %xmm1
	movups	%xmm0, 32(%rbx)
	movups	%xmm1, 48(%rbx)
	movq	96(%rsp), %rax
	movq	%rax, 64(%rbx)
	addq	$1208, %rsp
	popq	%rbx
	popq	%r12
	popq	%r13
	popq	%r14
	popq	%r15
	popq	%rbp
	retq
.LBB22_17:
	cmpq	$16384, %r15
	ja	.LBB22_33
	testq	%r15, %r15
	je	.LBB22_43
	cmpq	$4, %r15
	jae	.LBB22_22
	xorl	%ecx, %ecx
	xorl	%eax, %eax
	jmp	.LBB22_21
.LBB22_22:
	cmpq	$32, %r15
	jae	.LBB22_24
	xorl	%eax, %eax
	xorl	%ecx, %ecx
	jmp	.LBB22_28
.LBB22_24:
	movl	%r15d, %eax
	andl	$32736, %eax
	pxor	%xmm1, %xmm1
	xorl	%ecx, %ecx
	pxor	%xmm2, %xmm2
	.p2align	4
.LBB22_25:
	movdqu	184(%rsp,%rcx), %xmm3
	pmaxub	%xmm3, %xmm1
	movdqu	200(%rsp,%rcx), %xmm3
	pmaxub	%xmm3, %xmm2
	addq	$32, %rcx
	cmpq	%rcx, %rax
	jne	.LBB22_25
	pmaxub	%xmm2, %xmm1
	pshufd	$238, %xmm1, %xmm2
	pmaxub	%xmm1, %xmm2
	pshufd	$85, %xmm2, %xmm1
	pmaxub	%xmm2, %xmm1
	movdqa	%xmm1, %xmm2
	psrld	$16, %xmm2
	pmaxub	%xmm1, %xmm2
	movdqa	%xmm2, %xmm1
	psrlw	$8, %xmm1
	pmaxub	%xmm2, %xmm1
	movd	%xmm1, %ecx
	cmpq	%rax, %r15
	je	.LBB22_32
	testb	$28, %r15b
	je	.LBB22_21
.LBB22_28:
	movq	%rax, %rdx
	movl	%r15d, %eax
	andl	$32764, %eax
	movzbl	%cl, %ecx
	movd	%ecx, %xmm1
	punpcklbw	%xmm1, %xmm1
	pshuflw	$0, %xmm1, %xmm1
	.p2align	4
.LBB22_29:
	movd	184(%rsp,%rdx), %xmm2
	pmaxub	%xmm2, %xmm1
	addq	$4, %rdx
	cmpq	%rdx, %rax
	jne	.LBB22_29
	movdqa	%xmm1, %xmm2
	psrld	$16, %xmm2
	pmaxub	%xmm1, %xmm2
	movdqa	%xmm2, %xmm1
	psrlw	$8, %xmm1
	pmaxub	%xmm2, %xmm1
	movd	%xmm1, %ecx
	jmp	.LBB22_31
.LBB22_21:
	movzbl	184(%rsp,%rax), %edx
	movzbl	%cl, %ecx
	cmpb	%cl, %dl
	cmoval	%edx, %ecx
	incq	%rax
.LBB22_31:
	cmpq	%rax, %r15
	jne	.LBB22_21
.LBB22_32:
	cmpb	$4, %cl
	jb	.LBB22_43
.LBB22_33:
	xorl	%eax, %eax
	xorl	%ecx, %ecx
	jmp	.LBB22_34
	.p2align	4
.LBB22_35:
	movq	$-1, %rdx
	testq	%rcx, %rcx
	je	.LBB22_36
.LBB22_42:
	addq	%rdx, %rcx
	incq	%rax
	cmpq	%rax, %r15
	je	.LBB22_43
.LBB22_34:
	movzbl	184(%rsp,%rax), %edx
	cmpb	$4, %dl
	je	.LBB22_35
	jae	.LBB22_38
	movl	$1, %edx
	cmpq	$16383, %rcx
	jbe	.LBB22_42
	movl	$5, %ecx
	jmp	.LBB22_41
.LBB22_43:
	movq	1264(%rsp), %rax
	leaq	(%r15,%r15,2), %rcx
	movq	%r15, 32(%rsp)
	movq	%rax, 24(%rsp)
	movq	%rcx, 16(%rsp)
	movq	%r12, 8(%rsp)
	movq	$8000, (%rsp)
	leaq	112(%rsp), %rdi
	leaq	184(%rsp), %rcx
	xorl	%esi, %esi
	xorl	%edx, %edx
	movq	%r15, %r8
	movq	%r14, %r9
	callq	"walk_call::set_out"
	movzbl	112(%rsp), %eax
	movups	120(%rsp), %xmm0
	movaps	%xmm0, 48(%rsp)
	movq	136(%rsp), %r15
	movaps	144(%rsp), %xmm0
	movaps	%xmm0, 64(%rsp)
	movdqa	160(%rsp), %xmm0
	movdqa	%xmm0, 80(%rsp)
	movq	176(%rsp), %rcx
	movq	%rcx, 96(%rsp)
	testb	%al, %al
	setne	%cl
	testq	%r15, %r15
	sete	%dl
	orb	%cl, %dl
	jne	.LBB22_47
	leaq	(%r15,%r15,4), %rax
	leaq	(%rax,%rax,4), %r12
	cmpq	$1, %r12
	je	.LBB22_46
	imulq	$100, %r15, %rdx
	addq	$-4, %rdx
	movq	%r14, %rdi
	xorl	%esi, %esi
	callq	memset@PLT
.LBB22_46:
	movl	$0, -4(%r14,%r12,4)
	xorl	%eax, %eax
	jmp	.LBB22_47
.LBB22_38:
	movl	$3, %ecx
	jmp	.LBB22_41
.LBB22_36:
	movl	$4, %ecx
	jmp	.LBB22_41
.Lfunc_end22:
	.size	"line_walk::walk_digits", .Lfunc_end22-"line_walk::walk_digits"

	.section	".text.walk_call::set_out","ax",@progbits
	.p2align	4
	.type	"walk_call::set_out",@function
"walk_call::set_out":
	pushq	%rbp
	pushq	%r15
	pushq	%r14
	pushq	%r13
	pushq	%r12
	pushq	%rbx
	subq	$136, %rsp
	movq	%r8, 96(%rsp)
	movq	%rcx, 120(%rsp)
	movq	%rdi, %r15
	movq	192(%rsp), %r12
	movq	%rdx, %rax
	movq	%rdx, 48(%rsp)
	movl	%esi, 12(%rsp)
	orl	%esi, %eax
	je	.LBB23_15
	movq	$-1, %rax
	movq	48(%rsp), %rcx
	movl	%ecx, %esi
	movl	12(%rsp), %edi
	movl	%edi, %ecx
	movl	%esi, %edx
	.p2align	4
.LBB23_2:
	shrl	$31, %ecx
	addl	%edi, %ecx
	sarl	%ecx
	shrl	$31, %edx
	addl	%esi, %edx
	sarl	%edx
	incq	%rax
	movl	%ecx, %esi
	orl	%edx, %esi
	movl	%edx, %esi
	movl	%ecx, %edi
	jne	.LBB23_2
	movq	%rax, %rcx
	xorl	%r14d, %r14d
	incq	%rcx
	je	.LBB23_16
	movq	%rax, %rdx
	xorl	%esi, %esi
	jmp	.LBB23_6
	.p2align	4
.LBB23_5:
	decq	%r8
	movq	%r8, %r14
	incq	%rsi
	decq	%rdx
	testq	%rcx, %rcx
	je	.LBB23_16
.LBB23_6:
	movl	12(%rsp), %edi
	movl	%edi, %r10d
	movq	48(%rsp), %r8
	decq	%rcx
	je	.LBB23_12
	leaq	1(%rsi), %r11
	movq	48(%rsp), %r8
	movl	12(%rsp), %edi
	movl	%edi, %r10d
	cmpq	%r11, %rax
	je	.LBB23_11
	movq	%rdx, %r11
	andq	$-2, %r11
	movq	%rax, %rdi
	subq	%rsi, %rdi
	movq	48(%rsp), %r8
	movl	12(%rsp), %r10d
	.p2align	4
.LBB23_9:
	leal	3(%r10), %ebx
	testl	%r10d, %r10d
	cmovnsl	%r10d, %ebx
	movl	%ebx, %r10d
	sarl	$2, %r10d
	leal	3(%r8), %ebx
	testl	%r8d, %r8d
	cmovnsl	%r8d, %ebx
	movl	%ebx, %r8d
	sarl	$2, %r8d
	addq	$-2, %r11
	jne	.LBB23_9
	testb	$1, %dil
	je	.LBB23_12
.LBB23_11:
	movl	%r10d, %edi
	shrl	$31, %edi
	addl	%r10d, %edi
	sarl	%edi
	movl	%r8d, %r11d
	shrl	$31, %r11d
	addl	%r8d, %r11d
	sarl	%r11d
	movl	%edi, %r10d
	movl	%r11d, %r8d
.LBB23_12:
	movl	%r10d, %edi
	andl	$1, %edi
	cmpl	$-1, %r10d
	leaq	4(%rdi,%rdi,2), %rdi
	movl	$1, %r10d
	cmovneq	%rdi, %r10
	movl	%r8d, %edi
	andl	$1, %edi
	incq	%rdi
	xorl	%r11d, %r11d
	cmpl	$-1, %r8d
	cmovneq	%rdi, %r11
	leaq	(%r14,%r14,4), %rdi
	leaq	(%rdi,%rdi,4), %rdi
	addq	%r10, %rdi
	addq	%r11, %rdi
	movl	(%r9,%rdi,4), %r8d
	testq	%r8, %r8
	jne	.LBB23_5
	leaq	2(%r14), %r8
	leaq	(%r8,%r8,4), %r10
	leaq	(%r10,%r10,4), %r10
	cmpq	%r10, %r12
	jb	.LBB23_18
	leaq	1(%r14), %r10
	movl	%r8d, (%r9,%rdi,4)
	incl	%r14d
	imulq	$100, %r10, %rdi
	movl	%r14d, (%r9,%rdi)
	movl	$0, 76(%r9,%rdi)
	movq	%r10, %r14
	incq	%rsi
	decq	%rdx
	testq	%rcx, %rcx
	jne	.LBB23_6
	jmp	.LBB23_16
.LBB23_15:
	xorl	%r14d, %r14d
.LBB23_16:
	movb	$1, %al
	imulq	$100, %r14, %rcx
	movl	72(%r9,%rcx), %edx
	leal	1(%rdx), %esi
	movl	%esi, 72(%r9,%rcx)
	testl	%edx, %edx
	jne	.LBB23_23
	movl	$1, 80(%r9,%rcx)
	jmp	.LBB23_23
.LBB23_18:
	testq	%r12, %r12
	je	.LBB23_22
	cmpq	$1, %r12
	je	.LBB23_21
	leaq	-4(,%r12,4), %rdx
	movq	%r9, %rdi
	xorl	%esi, %esi
	movq	%r9, %rbx
	callq	memset@PLT
	movq	%rbx, %r9
.LBB23_21:
	movl	$0, -4(%r9,%r12,4)
.LBB23_22:
	xorl	%eax, %eax
	xorl	%r14d, %r14d
.LBB23_23:
	movq	224(%rsp), %r12
	movq	216(%rsp), %rbx
	movq	208(%rsp), %r13
	movq	200(%rsp), %rbp
	cmpb	$1, %al
	jne	.LBB23_91
	movq	%r15, 104(%rsp)
	leaq	1(%r14), %rbp
	movq	48(%rsp), %rax
	shlq	$32, %rax
	movl	12(%rsp), %ecx
	orq	%rax, %rcx
	movq	%rcx, 16(%rsp)
	cmpq	$0, 96(%rsp)
	je	.LBB23_100
	movl	$1, %eax
	movq	%rax, 80(%rsp)
	movl	$65535, %eax
	movq	%rax, 32(%rsp)
	xorl	%r11d, %r11d
	movq	%rax, 64(%rsp)
	xorl	%r13d, %r13d
	jmp	.LBB23_28
	.p2align	4
.LBB23_65:
	xorl	%esi, %esi
	movq	56(%rsp), %rcx
	cmpq	$2, %rcx
	sete	%sil
	addl	16(%rsp), %esi
	cmpq	$1, %rcx
	sbbl	$0, %esi
	xorl	%edi, %edi
	cmpq	$1, %rcx
	sete	%dil
	movq	32(%rsp), %r11
	cmpq	%r13, %r11
	movl	$65535, %eax
	movq	%r11, %r8
	cmoveq	%rax, %r8
	movq	64(%rsp), %r14
	cmovneq	%r14, %rax
	xorl	%r10d, %r10d
	cmpl	$1, 88(%rsp)
	sete	%r10b
	cmovneq	%r8, %r11
	movq	%r11, 32(%rsp)
	cmovneq	%rax, %r14
	movq	%r14, 64(%rsp)
	subq	%r10, 80(%rsp)
	xorl	%eax, %eax
	cmpq	$3, %rcx
	sete	%al
	addl	24(%rsp), %eax
	subl	%edi, %eax
	decq	%r13
	shlq	$32, %rax
	orq	%rax, %rsi
	movq	%rsi, 16(%rsp)
	movq	40(%rsp), %r11
	movq	72(%rsp), %r14
.LBB23_27:
	leaq	(%r11,%r11,2), %rax
	movq	200(%rsp), %rsi
	movl	%ebp, (%rsi,%rax,4)
	movl	72(%r9,%r14), %ecx
	movl	%ecx, 4(%rsi,%rax,4)
	movl	%edx, 8(%rsi,%rax,4)
	incq	%r11
	movq	%rbx, %r14
	cmpq	96(%rsp), %r11
	movq	216(%rsp), %rbx
	je	.LBB23_101
.LBB23_28:
	movq	120(%rsp), %rax
	movzbl	(%rax,%r11), %r10d
	movq	16(%rsp), %rax
	shrq	$32, %rax
	movq	%rax, 24(%rsp)
	cmpq	$4, %r10
	movq	%r11, 40(%rsp)
	jne	.LBB23_33
	movzbl	-1(%rbx,%r13), %esi
	movl	%esi, %r8d
	andl	$3, %r8d
	movq	%r8, 56(%rsp)
	xorq	$2, %r8
	leaq	(%r14,%r14,4), %rax
	leaq	(%rax,%rax,4), %r11
	addq	%r8, %r11
	movl	40(%r9,%r11,4), %r10d
	leaq	-1(%r10), %rbx
	imulq	$100, %rbx, %rax
	movq	%rax, 72(%rsp)
	movl	(%r9,%rax), %eax
	testl	%eax, %eax
	je	.LBB23_45
	movq	%r13, %rcx
	leaq	10(%rsi), %rdx
	movl	$2, %r15d
	movq	%rbx, %r13
	movq	%r14, %rdi
	.p2align	4
.LBB23_31:
	movl	%eax, %r10d
	leaq	(%r10,%r10,4), %rax
	leaq	(%rax,%rax,4), %rax
	addq	%rsi, %rax
	cmpl	%ecx, -44(%r9,%rax,4)
	jne	.LBB23_54
	decq	%r10
	leaq	(%r10,%r10,4), %rax
	leaq	(%rax,%rax,4), %rax
	addq	%rdx, %rax
	movl	(%r9,%rax,4), %r12d
	decq	%r12
	xorl	%eax, %eax
	cmpq	%rdi, %r10
	setne	%al
	xorl	%edi, %edi
	cmpq	%r13, %r12
	setne	%dil
	addl	%eax, %r15d
	addl	%edi, %r15d
	imulq	$100, %r10, %rax
	movl	(%r9,%rax), %eax
	movq	%r10, %r13
	movq	%r12, %rdi
	testl	%eax, %eax
	jne	.LBB23_31
	jmp	.LBB23_55
	.p2align	4
.LBB23_33:
	movb	%r10b, (%rbx,%r13)
	incq	%r13
	leaq	(%r14,%r14,4), %rax
	leaq	(%rax,%rax,4), %rax
	movq	%rax, 112(%rsp)
	addq	%r10, %rax
	addq	$10, %rax
	movl	(%r9,%rax,4), %ebx
	testq	%rbx, %rbx
	movq	%r13, 56(%rsp)
	je	.LBB23_46
	decq	%rbx
.LBB23_35:
	imulq	$100, %rbx, %r14
	movl	72(%r9,%r14), %eax
	leal	1(%rax), %ecx
	movl	%ecx, 72(%r9,%r14)
	testl	%eax, %eax
	movq	56(%rsp), %r13
	jne	.LBB23_37
	leal	1(%r13), %eax
	movl	%eax, 80(%r9,%r14)
.LBB23_37:
	cmpb	$1, %r10b
	adcq	$0, 16(%rsp)
	xorl	%eax, %eax
	cmpb	$1, %r10b
	sete	%al
	movq	112(%rsp), %r11
	addq	%r10, %r11
	movl	84(%r9,%r11,4), %edi
	incl	%edi
	movl	%r10d, %edx
	andl	$3, %edx
	leaq	(%rbx,%rbx,4), %rcx
	leaq	(%rcx,%rcx,4), %rcx
	xorq	$2, %rdx
	addq	%rcx, %rdx
	xorl	%ecx, %ecx
	cmpb	$2, %r10b
	sete	%r12b
	movq	24(%rsp), %r8
	addq	%rax, %r8
	cmpb	$3, %r10b
	adcq	$-1, %r8
	movq	%r8, 24(%rsp)
	leaq	1(%rbx), %rax
	cmpq	%rbp, %rax
	cmovaq	%rax, %rbp
	movl	%edi, 84(%r9,%r11,4)
	movl	%edi, 84(%r9,%rdx,4)
	cmpl	$1, 72(%r9,%r14)
	jne	.LBB23_39
	incq	80(%rsp)
	jmp	.LBB23_41
	.p2align	4
.LBB23_39:
	cmpq	$65535, 32(%rsp)
	jne	.LBB23_41
	movl	80(%r9,%r14), %eax
	decq	%rax
	movq	%rax, 64(%rsp)
	movq	%r13, 32(%rsp)
.LBB23_41:
	movl	40(%r9,%rdx,4), %r8d
	leaq	-1(%r8), %rdx
	imulq	$100, %rdx, %rax
	movl	(%r9,%rax), %eax
	testl	%eax, %eax
	je	.LBB23_53
	movq	%r14, %rsi
	movl	$2, %edi
	movq	%rbx, %r15
	.p2align	4
.LBB23_43:
	movl	%eax, %r8d
	leaq	(%r8,%r8,4), %rax
	leaq	(%rax,%rax,4), %rax
	addq	%r10, %rax
	cmpl	%r13d, -44(%r9,%rax,4)
	jne	.LBB23_66
	decq	%r8
	leaq	(%r8,%r8,4), %rax
	leaq	(%rax,%rax,4), %rax
	leaq	10(%r10), %r11
	addq	%r11, %rax
	movl	(%r9,%rax,4), %r11d
	decq	%r11
	xorl	%eax, %eax
	cmpq	%r15, %r8
	setne	%al
	xorl	%r14d, %r14d
	cmpq	%rdx, %r11
	setne	%r14b
	addl	%eax, %edi
	addl	%r14d, %edi
	imulq	$100, %r8, %rax
	movl	(%r9,%rax), %eax
	movq	%r8, %rdx
	movq	%r11, %r15
	testl	%eax, %eax
	jne	.LBB23_43
	jmp	.LBB23_67
.LBB23_45:
	movl	$2, %r15d
	movq	%r14, %r12
	imulq	$100, %r12, %rax
	xorl	%edx, %edx
	cmpl	%r13d, 76(%r9,%rax)
	je	.LBB23_56
	jmp	.LBB23_57
.LBB23_46:
	xorl	%eax, %eax
	cmpb	$2, %r10b
	sete	%al
	cmpb	$1, %r10b
	sbbl	$0, %eax
	xorl	%r15d, %r15d
	cmpb	$1, %r10b
	sete	%r15b
	negl	%eax
	movq	%rax, 72(%rsp)
	cmpb	$3, %r10b
	adcl	$-1, %r15d
	xorl	%r8d, %r8d
	movq	24(%rsp), %rax
	movq	16(%rsp), %r11
	jmp	.LBB23_48
	.p2align	4
.LBB23_47:
	imulq	$100, %r14, %rax
	movl	(%r9,%rax), %r14d
	decq	%r14
	incq	%r8
	leaq	(%r14,%r14,4), %rax
	leaq	(%rax,%rax,4), %rbx
	leaq	10(%r10), %rax
	addq	%rbx, %rax
	cmpl	$0, (%r9,%rax,4)
	movl	%esi, %eax
	movl	%edx, %r11d
	jne	.LBB23_51
.LBB23_48:
	leal	(%rax,%r15), %ecx
	movl	%r11d, %edx
	shrl	$31, %edx
	addl	%r11d, %edx
	sarl	%edx
	movl	%eax, %esi
	shrl	$31, %esi
	addl	%eax, %esi
	sarl	%esi
	movl	%ecx, %edi
	shrl	$31, %edi
	addl	%ecx, %edi
	sarl	%edi
	cmpl	%edi, %esi
	jne	.LBB23_47
	movq	72(%rsp), %rcx
	addl	%r11d, %ecx
	movl	%ecx, %edi
	shrl	$31, %edi
	addl	%ecx, %edi
	sarl	%edi
	cmpl	%edi, %edx
	jne	.LBB23_47
	leaq	(%r14,%r14,4), %rcx
	leaq	(%rcx,%rcx,4), %rbx
	movl	%r11d, %edx
	movl	%eax, %esi
.LBB23_51:
	leaq	(%rbx,%r10), %rax
	movl	40(%r9,%rax,4), %r11d
	testq	%r11, %r11
	je	.LBB23_69
	decq	%r11
	testq	%r8, %r8
	je	.LBB23_75
.LBB23_79:
	movq	%r15, 88(%rsp)
	movl	%r10d, %eax
	andl	$3, %eax
	xorq	$2, %rax
	movq	%rax, 128(%rsp)
	leaq	-1(%r8), %rdx
	xorl	%r13d, %r13d
	movq	%r8, %r15
	jmp	.LBB23_82
	.p2align	4
.LBB23_80:
	decq	%rcx
	movq	%rcx, %rbx
	movq	56(%rsp), %rsi
.LBB23_81:
	decq	%r14
	leal	1(%rbx), %eax
	leaq	(%r14,%r14,4), %rcx
	leaq	(%rcx,%rcx,4), %rcx
	addq	%r10, %rcx
	movl	%eax, 40(%r9,%rcx,4)
	movl	%esi, 56(%r9,%rcx,4)
	leal	1(%r14), %eax
	leaq	(%rbx,%rbx,4), %rcx
	leaq	(%rcx,%rcx,4), %rcx
	addq	128(%rsp), %rcx
	movl	%eax, 40(%r9,%rcx,4)
	movl	%esi, 56(%r9,%rcx,4)
	incq	%r13
	decq	%rdx
	movq	%rbx, %r11
	testq	%r15, %r15
	je	.LBB23_35
.LBB23_82:
	movq	16(%rsp), %r12
	movq	24(%rsp), %rax
	decq	%r15
	je	.LBB23_88
	movq	24(%rsp), %rax
	movq	16(%rsp), %r12
	leaq	-2(%r8), %rcx
	cmpq	%r13, %rcx
	je	.LBB23_87
	movq	%rdx, %rsi
	andq	$-2, %rsi
	movq	%r13, %rcx
	notq	%rcx
	addq	%r8, %rcx
	movq	24(%rsp), %rax
	movq	16(%rsp), %r12
	.p2align	4
.LBB23_85:
	leal	3(%r12), %edi
	testl	%r12d, %r12d
	cmovnsl	%r12d, %edi
	movl	%edi, %r12d
	sarl	$2, %r12d
	leal	3(%rax), %edi
	testl	%eax, %eax
	cmovnsl	%eax, %edi
	movl	%edi, %eax
	sarl	$2, %eax
	addq	$-2, %rsi
	jne	.LBB23_85
	testb	$1, %cl
	je	.LBB23_88
.LBB23_87:
	movl	%r12d, %ecx
	shrl	$31, %ecx
	addl	%r12d, %ecx
	sarl	%ecx
	movl	%eax, %esi
	shrl	$31, %esi
	addl	%eax, %esi
	sarl	%esi
	movl	%ecx, %r12d
	movl	%esi, %eax
.LBB23_88:
	movl	%r12d, %ecx
	andl	$1, %ecx
	cmpl	$-1, %r12d
	leaq	4(%rcx,%rcx,2), %rdi
	movl	$1, %esi
	cmoveq	%rsi, %rdi
	movl	%eax, %ebx
	andl	$1, %ebx
	incq	%rbx
	xorl	%ecx, %ecx
	cmpl	$-1, %eax
	cmoveq	%rcx, %rbx
	leaq	(%r14,%r14,4), %r14
	leaq	(%r14,%r14,4), %r14
	addq	%rdi, %r14
	addq	%rbx, %r14
	addl	72(%rsp), %r12d
	addl	88(%rsp), %eax
	leaq	1(%r11), %rbx
	cmpq	%rbp, %rbx
	cmovbeq	%rbp, %rbx
	movl	(%r9,%r14,4), %r14d
	movl	%r12d, %edi
	andl	$1, %edi
	cmpl	$-1, %r12d
	leaq	4(%rdi,%rdi,2), %rdi
	cmoveq	%rsi, %rdi
	movl	%eax, %esi
	andl	$1, %esi
	incq	%rsi
	cmpl	$-1, %eax
	cmoveq	%rcx, %rsi
	leaq	(%r11,%r11,4), %rax
	leaq	(%rax,%rax,4), %rax
	addq	%rdi, %rax
	addq	%rsi, %rax
	movl	(%r9,%rax,4), %ecx
	testq	%rcx, %rcx
	jne	.LBB23_80
	leaq	1(%rbx), %rcx
	leaq	(%rcx,%rcx,4), %rsi
	leaq	(%rsi,%rsi,4), %rsi
	cmpq	%rsi, 192(%rsp)
	jb	.LBB23_115
	movl	%ecx, (%r9,%rax,4)
	incl	%r11d
	imulq	$100, %rbx, %rax
	movl	%r11d, (%r9,%rax)
	movq	56(%rsp), %rsi
	movl	%esi, 76(%r9,%rax)
	jmp	.LBB23_81
.LBB23_53:
	movl	$2, %edi
	movq	%r14, %rax
	xorl	%edx, %edx
	cmpl	%r13d, 76(%r9,%rax)
	movq	40(%rsp), %r11
	je	.LBB23_68
	jmp	.LBB23_26
.LBB23_54:
	movq	%rdi, %r12
	movq	%r13, %r10
.LBB23_55:
	incq	%r10
	movq	%rcx, %r13
	imulq	$100, %r12, %rax
	xorl	%edx, %edx
	cmpl	%r13d, 76(%r9,%rax)
	jne	.LBB23_57
.LBB23_56:
	movl	(%r9,%rax), %eax
	xorl	%edx, %edx
	cmpq	%rax, %r10
	setne	%dl
.LBB23_57:
	imulq	$100, %r14, %r12
	movl	72(%r9,%r12), %ecx
	leaq	(%rbx,%rbx,4), %rax
	leaq	(%rax,%rax,4), %rax
	addq	%rsi, %rax
	movl	84(%r9,%rax,4), %edi
	decl	%edi
	movl	%edi, 84(%r9,%rax,4)
	movl	%edi, 84(%r9,%r11,4)
	decl	72(%r9,%r12)
	jne	.LBB23_59
	movl	$0, 80(%r9,%r12)
.LBB23_59:
	addl	%r15d, %edx
	addq	$-25, %r8
	movq	%rbx, %rax
	.p2align	4
.LBB23_60:
	leaq	(%rax,%rax,4), %rdi
	leaq	(%rdi,%rdi,4), %rdi
	addq	%rsi, %rdi
	cmpl	%r13d, 56(%r9,%rdi,4)
	jne	.LBB23_62
	movl	40(%r9,%rdi,4), %r11d
	movl	$0, 40(%r9,%rdi,4)
	movl	$0, 56(%r9,%rdi,4)
	leaq	(%r11,%r11,4), %rdi
	leaq	(%rdi,%rdi,4), %rdi
	addq	%r8, %rdi
	movl	$0, 40(%r9,%rdi,4)
	movl	$0, 56(%r9,%rdi,4)
	imulq	$100, %rax, %rax
	movl	(%r9,%rax), %edi
	leaq	-1(%rdi), %rax
	testq	%rdi, %rdi
	jne	.LBB23_60
.LBB23_62:
	cmpl	%r13d, 76(%r9,%r12)
	movl	%ecx, 88(%rsp)
	jne	.LBB23_65
	movq	24(%rsp), %rax
	movl	%eax, %r11d
	movq	16(%rsp), %rax
	movl	%eax, %r15d
	movl	%eax, %esi
	movl	%r11d, %r8d
	.p2align	4
.LBB23_64:
	movq	%r13, %rcx
	imulq	$100, %r14, %r13
	movl	(%r9,%r13), %r12d
	leaq	-1(%r12), %r14
	movl	%r15d, %eax
	andl	$1, %eax
	cmpl	$-1, %r15d
	leaq	4(%rax,%rax,2), %rax
	movl	$1, %edi
	cmovneq	%rax, %rdi
	movl	%r11d, %eax
	andl	$1, %eax
	incq	%rax
	xorl	%r10d, %r10d
	cmpl	$-1, %r11d
	cmovneq	%rax, %r10
	addq	%rdi, %r10
	leaq	(%r14,%r14,4), %rax
	leaq	(%rax,%rax,4), %rax
	addq	%r10, %rax
	movl	$0, (%r9,%rax,4)
	xorps	%xmm0, %xmm0
	movups	%xmm0, 80(%r9,%r13)
	movups	%xmm0, 64(%r9,%r13)
	movups	%xmm0, 48(%r9,%r13)
	movups	%xmm0, 32(%r9,%r13)
	movups	%xmm0, 16(%r9,%r13)
	movups	%xmm0, (%r9,%r13)
	movl	$0, 96(%r9,%r13)
	movq	%rcx, %r13
	decq	%rbp
	shrl	$31, %esi
	addl	%r15d, %esi
	sarl	%esi
	shrl	$31, %r8d
	addl	%r11d, %r8d
	sarl	%r8d
	imulq	$100, %r12, %rax
	movl	%r8d, %r11d
	movl	%esi, %r15d
	cmpl	%r13d, -24(%rax,%r9)
	je	.LBB23_64
	jmp	.LBB23_65
.LBB23_66:
	movq	%r15, %r11
	movq	%rdx, %r8
.LBB23_67:
	incq	%r8
	imulq	$100, %r11, %rax
	movq	%rsi, %r14
	xorl	%edx, %edx
	cmpl	%r13d, 76(%r9,%rax)
	movq	40(%rsp), %r11
	jne	.LBB23_26
.LBB23_68:
	movl	(%r9,%rax), %eax
	xorl	%edx, %edx
	cmpq	%rax, %r8
	setne	%dl
.LBB23_26:
	addl	%edi, %edx
	movb	%r12b, %cl
	movq	16(%rsp), %rax
	subq	%rcx, %rax
	movq	24(%rsp), %r12
	shlq	$32, %r12
	movl	%eax, %eax
	orq	%r12, %rax
	movq	%rax, 16(%rsp)
	jmp	.LBB23_27
.LBB23_69:
	movq	72(%rsp), %rcx
	addl	%edx, %ecx
	leal	(%rsi,%r15), %r11d
	movl	%r11d, %edi
	orl	%ecx, %edi
	je	.LBB23_74
	orl	%edx, %esi
	movq	%r14, %rdx
	je	.LBB23_72
	imulq	$100, %r14, %rdx
	movl	(%r9,%rdx), %edx
	decq	%rdx
	leaq	(%rdx,%rdx,4), %rsi
	leaq	(%rsi,%rsi,4), %rbx
.LBB23_72:
	movl	%ecx, %esi
	andl	$1, %esi
	cmpl	$-1, %ecx
	leaq	4(%rsi,%rsi,2), %rcx
	movl	$1, %esi
	cmovneq	%rcx, %rsi
	movl	%r11d, %edi
	andl	$1, %edi
	incq	%rdi
	xorl	%ecx, %ecx
	cmpl	$-1, %r11d
	cmovneq	%rdi, %rcx
	addq	%rsi, %rcx
	addq	%rbx, %rcx
	movl	(%r9,%rcx,4), %r11d
	testq	%r11, %r11
	je	.LBB23_76
	decq	%r11
	jmp	.LBB23_78
.LBB23_74:
	movl	$1, 40(%r9,%rax,4)
	movl	%r13d, 56(%r9,%rax,4)
	leal	1(%r14), %eax
	leal	(,%r10,4), %ecx
	andl	$12, %ecx
	xorq	$8, %rcx
	movl	%eax, 40(%r9,%rcx)
	movl	%r13d, 56(%r9,%rcx)
	xorl	%r11d, %r11d
	testq	%r8, %r8
	jne	.LBB23_79
	jmp	.LBB23_75
.LBB23_76:
	leaq	1(%rbp), %rsi
	leaq	(%rsi,%rsi,4), %rdi
	leaq	(%rdi,%rdi,4), %rdi
	cmpq	%rdi, 192(%rsp)
	jb	.LBB23_115
	movl	%esi, (%r9,%rcx,4)
	incl	%edx
	imulq	$100, %rbp, %rcx
	movl	%edx, (%r9,%rcx)
	movq	56(%rsp), %r13
	movl	%r13d, 76(%r9,%rcx)
	movq	%rbp, %r11
.LBB23_78:
	movl	%r10d, %ecx
	andl	$3, %ecx
	xorq	$2, %rcx
	leal	1(%r11), %edx
	movl	%edx, 40(%r9,%rax,4)
	movl	%r13d, 56(%r9,%rax,4)
	leal	1(%r14), %eax
	leaq	(%r11,%r11,4), %rdx
	leaq	(%rdx,%rdx,4), %rdx
	addq	%rcx, %rdx
	movl	%eax, 40(%r9,%rdx,4)
	movl	%r13d, 56(%r9,%rdx,4)
	testq	%r8, %r8
	jne	.LBB23_79
.LBB23_75:
	movq	%r11, %rbx
	jmp	.LBB23_35
.LBB23_91:
	testq	%r13, %r13
	je	.LBB23_95
	cmpq	$1, %r13
	je	.LBB23_94
	leaq	-4(,%r13,4), %rdx
	movq	%rbp, %rdi
	xorl	%esi, %esi
	callq	memset@PLT
.LBB23_94:
	movl	$0, -4(%rbp,%r13,4)
.LBB23_95:
	testq	%r12, %r12
	je	.LBB23_99
	decq	%r12
	je	.LBB23_98
	movq	%rbx, %rdi
	xorl	%esi, %esi
	movq	%r12, %rdx
	callq	memset@PLT
.LBB23_98:
	movb	$0, (%rbx,%r12)
.LBB23_99:
	movq	$1, (%r15)
	movq	$6, 8(%r15)
	xorps	%xmm0, %xmm0
	movups	%xmm0, 16(%r15)
	movups	%xmm0, 32(%r15)
	movups	%xmm0, 48(%r15)
	movq	$0, 64(%r15)
	jmp	.LBB23_131
.LBB23_100:
	movl	$65535, %eax
	movq	%rax, 64(%rsp)
	movl	$1, %eax
	movq	%rax, 80(%rsp)
	xorl	%r13d, %r13d
	movl	$65535, %eax
	movq	%rax, 32(%rsp)
.LBB23_101:
	movq	224(%rsp), %r14
	cmpq	%r13, %r14
	jne	.LBB23_103
	movq	%r14, %rdi
	jmp	.LBB23_106
.LBB23_103:
	movq	%r13, %rax
	addq	%rbx, %r13
	movq	%rax, %rbx
	notq	%rax
	addq	%rax, %r14
	je	.LBB23_105
	movq	%r13, %rdi
	xorl	%esi, %esi
	movq	%r14, %rdx
	callq	memset@PLT
.LBB23_105:
	movb	$0, (%r13,%r14)
	movq	%rbx, %rdi
.LBB23_106:
	movq	16(%rsp), %rax
	cmpl	%eax, 12(%rsp)
	movq	80(%rsp), %r8
	movq	32(%rsp), %rsi
	movq	64(%rsp), %rdx
	jne	.LBB23_113
	testq	%rdi, %rdi
	je	.LBB23_128
	movq	16(%rsp), %rax
	shrq	$32, %rax
	cmpl	%eax, 48(%rsp)
	jne	.LBB23_114
	xorl	%ebx, %ebx
	movl	$4, %r15d
	testq	%rdx, %rdx
	jne	.LBB23_129
	cmpq	%rdi, %rsi
	jne	.LBB23_129
	cmpq	$1, %rdi
	setne	%al
	cmpq	$3, %rsi
	setb	%cl
	testb	%al, %cl
	je	.LBB23_134
	xorl	%ebx, %ebx
	movl	$5, %r15d
	movq	%rsi, %rdi
	xorl	%edx, %edx
	jmp	.LBB23_129
.LBB23_113:
	testq	%rdi, %rdi
	je	.LBB23_128
.LBB23_114:
	xorl	%eax, %eax
	cmpq	$65535, %rsi
	setne	%al
	leaq	1(,%rax,2), %r15
	xorl	%ebx, %ebx
	jmp	.LBB23_129
.LBB23_115:
	movq	192(%rsp), %r14
	testq	%r14, %r14
	movq	224(%rsp), %r12
	movq	40(%rsp), %rdi
	movq	208(%rsp), %r15
	movq	200(%rsp), %r13
	je	.LBB23_119
	cmpq	$1, %r14
	je	.LBB23_118
	leaq	-4(,%r14,4), %rdx
	movq	%r9, %rdi
	xorl	%esi, %esi
	movq	%r9, %rbx
	callq	memset@PLT
	movq	40(%rsp), %rdi
	movq	%rbx, %r9
.LBB23_118:
	movl	$0, -4(%r9,%r14,4)
.LBB23_119:
	testq	%r15, %r15
	je	.LBB23_123
	cmpq	$1, %r15
	je	.LBB23_122
	leaq	-4(,%r15,4), %rdx
	movq	%r13, %rdi
	xorl	%esi, %esi
	callq	memset@PLT
	movq	40(%rsp), %rdi
.LBB23_122:
	movl	$0, -4(%r13,%r15,4)
.LBB23_123:
	movl	$6, %r15d
	movl	$1, %ebx
	testq	%r12, %r12
	je	.LBB23_127
	decq	%r12
	movq	216(%rsp), %r14
	je	.LBB23_126
	movq	%r14, %rdi
	xorl	%esi, %esi
	movq	%r12, %rdx
	callq	memset@PLT
	movq	40(%rsp), %rdi
.LBB23_126:
	movb	$0, (%r14,%r12)
.LBB23_127:
	xorl	%ebp, %ebp
	xorl	%r8d, %r8d
	xorl	%edx, %edx
	xorl	%esi, %esi
	xorl	%eax, %eax
	movq	$0, 16(%rsp)
	jmp	.LBB23_130
.LBB23_128:
	xorl	%ebx, %ebx
	xorl	%r15d, %r15d
	xorl	%edi, %edi
.LBB23_129:
	xorl	%eax, %eax
.LBB23_130:
	movq	104(%rsp), %rcx
	movq	%rbx, (%rcx)
	movq	%r15, 8(%rcx)
	movq	%rdi, 16(%rcx)
	movq	%rbp, 24(%rcx)
	movq	%r8, 32(%rcx)
	movq	%rdx, 40(%rcx)
	movq	%rsi, 48(%rcx)
	movl	%eax, 56(%rcx)
	movq	16(%rsp), %rax
	movq	%rax, 60(%rcx)
	movl	$0, 68(%rcx)
.LBB23_131:
	addq	$136, %rsp
	popq	%rbx
	popq	%r12
	popq	%r13
	popq	%r14
	popq	%r15
	popq	%rbp
	retq
.LBB23_134:
	xorl	%eax, %eax
	xorl	%ecx, %ecx
	movl	12(%rsp), %edx
	movq	%rsi, %r10
	movq	216(%rsp), %r9
	.p2align	4
.LBB23_135:
	movzbl	(%r9,%rcx), %esi
	xorl	%edi, %edi
	cmpb	$1, %sil
	sete	%dil
	adcl	$0, %edx
	cmpb	$3, %sil
	adcl	$-1, %edi
	imull	12(%rsp), %edi
	addl	%edi, %eax
	xorl	%edi, %edi
	cmpb	$2, %sil
	sete	%dil
	subl	%edi, %edx
	incq	%rcx
	movl	$2, %r15d
	xorl	%ebx, %ebx
	movl	%edx, 12(%rsp)
	cmpq	%rcx, %r10
	jne	.LBB23_135
	movq	%r10, %rdi
	xorl	%edx, %edx
	movq	%r10, %rsi
	jmp	.LBB23_130
.Lfunc_end23:
	.size	"walk_call::set_out", .Lfunc_end23-"walk_call::set_out"

	.section	".text.hull_call::list_sized::<=1025>","ax",@progbits
	.p2align	4
	.type	"hull_call::list_sized::<=1025>",@function
"hull_call::list_sized::<=1025>":
	pushq	%rbp
	pushq	%r15
	pushq	%r14
	pushq	%r13
	pushq	%r12
	pushq	%rbx
	subq	$3072, %rsp
	movq	$0, (%rsp)
	subq	$3072, %rsp
	movq	$0, (%rsp)
	subq	$2200, %rsp
	movq	%r9, %rbp
	movq	%r8, %r13
	movq	%rcx, %r14
	movq	%rdx, 104(%rsp)
	movq	%rsi, 96(%rsp)
	movq	%rdi, %rbx
	xorps	%xmm0, %xmm0
	movaps	%xmm0, 112(%rsp)
	movq	$0, 128(%rsp)
	leaq	2194(%rsp), %rdi
	movl	$2050, %edx
	movl	$255, %esi
	callq	memset@PLT
	leaq	144(%rsp), %rdi
	movl	$2050, %edx
	movl	$255, %esi
	callq	memset@PLT
	leaq	6294(%rsp), %r12
	movl	$2050, %edx
	movq	%r12, %rdi
	xorl	%esi, %esi
	callq	memset@PLT
	leaq	4244(%rsp), %r15
	movl	$2050, %edx
	movq	%r15, %rdi
	xorl	%esi, %esi
	callq	memset@PLT
	movq	%r13, %rax
	subq	%r14, %rax
	incq	%rax
	movq	%rbp, 72(%rsp)
	movq	%r15, 56(%rsp)
	movq	%r12, 40(%rsp)
	movq	%rax, 32(%rsp)
	leaq	144(%rsp), %rcx
	movq	%rcx, 24(%rsp)
	movq	%rax, 16(%rsp)
	leaq	2194(%rsp), %rax
	movq	%rax, 8(%rsp)
	movq	%r13, (%rsp)
	movq	$2050, 80(%rsp)
	movq	$1025, 64(%rsp)
	movq	$1025, 48(%rsp)
	leaq	112(%rsp), %rdi
	movq	96(%rsp), %rsi
	movq	104(%rsp), %rdx
	xorl	%ecx, %ecx
	xorl	%r8d, %r8d
	movq	%r14, %r9
	callq	"hull_call::list_in"
	movzbl	112(%rsp), %eax
	movq	%rax, (%rbx)
	movups	120(%rsp), %xmm0
	movups	%xmm0, 8(%rbx)
	addq	$8344, %rsp
	popq	%rbx
	popq	%r12
	popq	%r13
	popq	%r14
	popq	%r15
	popq	%rbp
	retq
.Lfunc_end24:
	.size	"hull_call::list_sized::<=1025>", .Lfunc_end24-"hull_call::list_sized::<=1025>"

	.section	".text.room_judge::judge","ax",@progbits
	.p2align	4
	.type	"room_judge::judge",@function
"room_judge::judge":
	cmpq	$32768, %r8
	jbe	.LBB25_2
	xorl	%eax, %eax
	xorl	%edx, %edx
.LBB25_41:
	movb	$1, (%rdi)
	movq	%rdx, 8(%rdi)
	movq	%rax, 16(%rdi)
	retq
.LBB25_2:
	addl	$16384, %esi
	cmpl	$32769, %esi
	setae	%al
	addl	$16384, %edx
	cmpl	$32769, %edx
	setae	%dl
	orb	%al, %dl
	jne	.LBB25_3
	cmpq	$16384, %r8
	ja	.LBB25_20
	testq	%r8, %r8
	je	.LBB25_31
	cmpq	$4, %r8
	jae	.LBB25_9
	xorl	%edx, %edx
	xorl	%eax, %eax
	jmp	.LBB25_8
.LBB25_3:
	movl	$9, %edx
	xorl	%eax, %eax
	movb	$1, (%rdi)
	movq	%rdx, 8(%rdi)
	movq	%rax, 16(%rdi)
	retq
.LBB25_9:
	cmpq	$32, %r8
	jae	.LBB25_11
	xorl	%eax, %eax
	xorl	%edx, %edx
	jmp	.LBB25_15
.LBB25_11:
	movl	%r8d, %eax
	andl	$32736, %eax
	pxor	%xmm0, %xmm0
	xorl	%edx, %edx
	pxor	%xmm1, %xmm1
	.p2align	4
.LBB25_12:
	movdqu	(%rcx,%rdx), %xmm2
	pmaxub	%xmm2, %xmm0
	movdqu	16(%rcx,%rdx), %xmm2
	pmaxub	%xmm2, %xmm1
	addq	$32, %rdx
	cmpq	%rdx, %rax
	jne	.LBB25_12
	pmaxub	%xmm1, %xmm0
	pshufd	$238, %xmm0, %xmm1
	pmaxub	%xmm0, %xmm1
	pshufd	$85, %xmm1, %xmm0
	pmaxub	%xmm1, %xmm0
	movdqa	%xmm0, %xmm1
	psrld	$16, %xmm1
	pmaxub	%xmm0, %xmm1
	movdqa	%xmm1, %xmm0
	psrlw	$8, %xmm0
	pmaxub	%xmm1, %xmm0
	movd	%xmm0, %edx
	cmpq	%rax, %r8
	je	.LBB25_19
	testb	$28, %r8b
	je	.LBB25_8
.LBB25_15:
	movq	%rax, %rsi
	movl	%r8d, %eax
	andl	$32764, %eax
	movzbl	%dl, %edx
	movd	%edx, %xmm0
	punpcklbw	%xmm0, %xmm0
	pshuflw	$0, %xmm0, %xmm0
	.p2align	4
.LBB25_16:
	movd	(%rcx,%rsi), %xmm1
	pmaxub	%xmm1, %xmm0
	addq	$4, %rsi
	cmpq	%rsi, %rax
	jne	.LBB25_16
	movdqa	%xmm0, %xmm1
	psrld	$16, %xmm1
	pmaxub	%xmm0, %xmm1
	movdqa	%xmm1, %xmm0
	psrlw	$8, %xmm0
	pmaxub	%xmm1, %xmm0
	movd	%xmm0, %edx
	jmp	.LBB25_18
.LBB25_8:
	movzbl	(%rcx,%rax), %esi
	movzbl	%dl, %edx
	cmpb	%dl, %sil
	cmoval	%esi, %edx
	incq	%rax
.LBB25_18:
	cmpq	%rax, %r8
	jne	.LBB25_8
.LBB25_19:
	cmpb	$4, %dl
	jb	.LBB25_31
.LBB25_20:
	leaq	-3(%r8), %rsi
	leaq	-2(%r8), %r9
	leaq	-1(%r8), %r10
	xorl	%eax, %eax
.LBB25_21:
	movl	$3, %edx
	cmpb	$3, (%rcx,%rax)
	ja	.LBB25_41
	cmpq	$16384, %rax
	je	.LBB25_23
	cmpq	%rax, %r10
	je	.LBB25_31
	cmpb	$3, 1(%rcx,%rax)
	ja	.LBB25_38
	cmpq	%rax, %r9
	je	.LBB25_31
	cmpb	$3, 2(%rcx,%rax)
	ja	.LBB25_39
	cmpq	%rax, %rsi
	je	.LBB25_31
	cmpb	$3, 3(%rcx,%rax)
	ja	.LBB25_40
	addq	$4, %rax
	cmpq	%rax, %r8
	jne	.LBB25_21
.LBB25_31:
	pushq	%r15
	pushq	%r14
	pushq	%rbx
	subq	$96, %rsp
	movq	$1, 64(%rsp)
	movq	$0, 72(%rsp)
	movq	$-1, 80(%rsp)
	movq	$0, 88(%rsp)
	movq	$0, 32(%rsp)
	movq	$1, 40(%rsp)
	movq	$0, 48(%rsp)
	movq	$-1, 56(%rsp)
	movl	$16384, %eax
	testq	%r8, %r8
	je	.LBB25_32
	movl	$16384, %r11d
	xorl	%ebx, %ebx
	movl	$16384, %r14d
	movl	$16384, %r9d
	movl	$16384, %esi
	movl	$16384, %r10d
	movl	$16384, %edx
	.p2align	4
.LBB25_34:
	movzbl	(%rcx,%rbx), %r15d
	shll	$3, %r15d
	addq	64(%rsp,%r15), %r11
	addq	32(%rsp,%r15), %r14
	cmpq	%r9, %r11
	cmovbq	%r11, %r9
	cmpq	%rsi, %r11
	cmovaq	%r11, %rsi
	cmpq	%r10, %r14
	cmovbq	%r14, %r10
	cmpq	%rdx, %r14
	cmovaq	%r14, %rdx
	incq	%rbx
	cmpq	%rbx, %r8
	jne	.LBB25_34
	movq	%rdi, %rbx
	xorq	$16384, %r11
	xorq	$16384, %r14
	orq	%r11, %r14
	sete	%dil
	incq	%rdx
	jmp	.LBB25_36
.LBB25_32:
	movq	%rdi, %rbx
	movb	$1, %dil
	movl	$16385, %edx
	movl	$16384, %r10d
	movl	$16384, %esi
	movl	$16384, %r9d
.LBB25_36:
	subq	%r9, %rsi
	incq	%rsi
	subq	%r10, %rdx
	subq	%r10, %rax
	imulq	%rsi, %rax
	subq	%r9, %rax
	addq	$16384, %rax
	movq	%rsi, (%rsp)
	movq	%rdx, 8(%rsp)
	movq	%rax, 16(%rsp)
	movb	%dil, 24(%rsp)
	movl	$0, 25(%rsp)
	movl	$0, 28(%rsp)
	movq	%rsp, %rdx
	movq	%rcx, %rdi
	movq	%r8, %rsi
	callq	"room_map::is_room_in"
	movl	%eax, %ecx
	xorb	$1, %cl
	movb	%cl, (%rbx)
	xorl	%ecx, %ecx
	testb	%al, %al
	movl	$11, %eax
	cmovneq	%rcx, %rax
	movq	%rax, 8(%rbx)
	movq	$0, 16(%rbx)
	addq	$96, %rsp
	popq	%rbx
	popq	%r14
	popq	%r15
	retq
.LBB25_23:
	movl	$5, %edx
	movl	$16384, %eax
	movb	$1, (%rdi)
	movq	%rdx, 8(%rdi)
	movq	%rax, 16(%rdi)
	retq
.LBB25_38:
	incq	%rax
	movb	$1, (%rdi)
	movq	%rdx, 8(%rdi)
	movq	%rax, 16(%rdi)
	retq
.LBB25_39:
	addq	$2, %rax
	movb	$1, (%rdi)
	movq	%rdx, 8(%rdi)
	movq	%rax, 16(%rdi)
	retq
.LBB25_40:
	addq	$3, %rax
	movb	$1, (%rdi)
	movq	%rdx, 8(%rdi)
	movq	%rax, 16(%rdi)
	retq
.Lfunc_end25:
	.size	"room_judge::judge", .Lfunc_end25-"room_judge::judge"

	.section	".text.orthogonal_call::outline_sized::<=258>","ax",@progbits
	.p2align	4
	.type	"orthogonal_call::outline_sized::<=258>",@function
"orthogonal_call::outline_sized::<=258>":
	pushq	%rbp
	pushq	%r15
	pushq	%r14
	pushq	%r13
	pushq	%r12
	pushq	%rbx
	subq	$1608, %rsp
	movq	%rcx, %r12
	movq	%rdx, %r14
	movq	%rsi, %r15
	movq	%rdi, %rbx
	xorps	%xmm0, %xmm0
	movaps	%xmm0, 32(%rsp)
	movaps	%xmm0, 16(%rsp)
	leaq	60(%rsp), %rdi
	movl	$516, %edx
	movl	$255, %esi
	callq	memset@PLT
	leaq	1092(%rsp), %rbp
	movl	$516, %edx
	movq	%rbp, %rdi
	movl	$255, %esi
	callq	memset@PLT
	leaq	576(%rsp), %r13
	movl	$516, %edx
	movq	%r13, %rdi
	xorl	%esi, %esi
	callq	memset@PLT
	movq	%r12, (%rsp)
	leaq	16(%rsp), %rdi
	movq	%r15, %rsi
	leaq	60(%rsp), %rdx
	movq	%rbp, %rcx
	movq	%r13, %r8
	movq	%r14, %r9
	callq	"orthogonal_call::outline_in"
	movzbl	16(%rsp), %eax
	movq	%rax, (%rbx)
	movups	24(%rsp), %xmm0
	movups	%xmm0, 8(%rbx)
	movq	40(%rsp), %rax
	movq	%rax, 24(%rbx)
	addq	$1608, %rsp
	popq	%rbx
	popq	%r12
	popq	%r13
	popq	%r14
	popq	%r15
	popq	%rbp
	retq
.Lfunc_end26:
	.size	"orthogonal_call::outline_sized::<=258>", .Lfunc_end26-"orthogonal_call::outline_sized::<=258>"

	.section	.rodata.cst16,"aM",@progbits,16
	.p2align	4, 0x0
.LCPI27_0:
	.long	1
	.long	0
	.long	4294967295
	.long	0
	.section	".text.orthogonal_call::outline_in","ax",@progbits
	.p2align	4
	.type	"orthogonal_call::outline_in",@function
"orthogonal_call::outline_in":
	pushq	%rbp
	pushq	%r15
	pushq	%r14
	pushq	%r13
	pushq	%r12
	pushq	%rbx
	subq	$152, %rsp
	movq	%r9, 32(%rsp)
	movq	%rcx, 40(%rsp)
	movq	24(%rsi), %r10
	testq	%r10, %r10
	je	.LBB27_163
	movq	%rdx, %r12
	movq	16(%rsi), %r11
	movl	%r11d, %ebx
	shrl	%ebx
	incl	%ebx
	movzwl	%bx, %r14d
	leaq	-2(,%r14,2), %rax
	movq	%rax, %rcx
	orq	%r10, %rcx
	shrq	$32, %rcx
	movq	%rdi, 72(%rsp)
	je	.LBB27_2
	xorl	%edx, %edx
	divq	%r10
	jmp	.LBB27_4
.LBB27_2:
	xorl	%edx, %edx
	divl	%r10d
.LBB27_4:
	movq	%rax, (%rsp)
	movq	8(%rsi), %r15
	movl	%r10d, %edi
	shll	$15, %edi
	subl	%r14d, %edi
	movl	(%rsi), %eax
	addl	%edi, %eax
	movslq	%eax, %rdx
	addl	4(%rsi), %edi
	movslq	%edi, %r9
	movq	%rdx, %rsi
	orq	%r10, %rsi
	shrq	$32, %rsi
	je	.LBB27_5
	movq	%rdx, %rax
	xorl	%edx, %edx
	divq	%r10
	movq	%rdx, %rsi
	jmp	.LBB27_7
.LBB27_5:
	xorl	%edx, %edx
	divl	%r10d
	movl	%edx, %esi
.LBB27_7:
	movq	%rax, 88(%rsp)
	movq	%r9, %rax
	orq	%r10, %rax
	shrq	$32, %rax
	movq	%r12, 56(%rsp)
	je	.LBB27_8
	movq	%r9, %rax
	xorl	%edx, %edx
	divq	%r10
	movq	%rdx, %rdi
	jmp	.LBB27_10
.LBB27_8:
	movl	%edi, %eax
	xorl	%edx, %edx
	divl	%r10d
	movl	%edx, %edi
.LBB27_10:
	movq	%rax, 64(%rsp)
	movq	(%rsp), %rax
	addq	$2, %rax
	movq	%rax, 48(%rsp)
	movabsq	$-281474976645120, %rax
	movq	%rax, 120(%rsp)
	movdqa	.LCPI27_0(%rip), %xmm0
	movdqa	%xmm0, 128(%rsp)
	testq	%r11, %r11
	je	.LBB27_18
	movq	(%rsp), %rax
	leaq	2(%rax), %r9
	imulq	%r10, %r9
	xorl	%r12d, %r12d
	jmp	.LBB27_12
	.p2align	4
.LBB27_15:
	xorl	%edx, %edx
	divq	%r10
.LBB27_16:
	movl	%r14d, %edx
	addq	%rsi, %rdx
	movq	56(%rsp), %rcx
	movzwl	(%rcx,%rax,2), %ebp
	cmpw	%bp, %dx
	cmovbl	%edx, %ebp
	movw	%bp, (%rcx,%rax,2)
	movl	%r9d, %ebp
	subl	%edx, %ebp
	movq	40(%rsp), %rcx
	movzwl	(%rcx,%rax,2), %edx
	cmpw	%dx, %bp
	cmovael	%edx, %ebp
	movw	%bp, (%rcx,%rax,2)
.LBB27_17:
	addl	128(%rsp,%r13,4), %r14d
	addw	120(%rsp,%r13,2), %bx
	incq	%r12
	cmpq	%r12, %r11
	je	.LBB27_18
.LBB27_12:
	movzbl	(%r15,%r12), %r13d
	testb	$1, %r13b
	je	.LBB27_17
	cmpb	$3, %r13b
	movl	%ebx, %eax
	adcw	$-1, %ax
	movzwl	%ax, %eax
	addq	%rdi, %rax
	movq	%rax, %rdx
	orq	%r10, %rdx
	shrq	$32, %rdx
	jne	.LBB27_15
	xorl	%edx, %edx
	divl	%r10d
	jmp	.LBB27_16
.LBB27_18:
	movq	(%rsp), %rax
	leaq	2(%rax), %r13
	xorl	%ecx, %ecx
	testq	%r13, %r13
	je	.LBB27_19
	movq	56(%rsp), %r12
	.p2align	4
.LBB27_21:
	cmpw	$-1, (%r12,%rcx,2)
	jne	.LBB27_24
	incq	%rcx
	cmpq	%rcx, %r13
	jne	.LBB27_21
	movq	%r13, %rcx
	jmp	.LBB27_24
.LBB27_19:
	movq	56(%rsp), %r12
.LBB27_24:
	movq	208(%rsp), %r11
	xorl	%eax, %eax
	movq	%rcx, %rdx
	movq	%r13, %rsi
	.p2align	4
.LBB27_25:
	movq	%rsi, %rbp
	movq	%rax, %rbx
	movq	%rdx, %r9
	testq	%rsi, %rsi
	je	.LBB27_27
	leaq	-1(%rbp), %rsi
	leaq	1(%rbx), %rax
	leaq	1(%r9), %rdx
	cmpw	$-1, -2(%r12,%rbp,2)
	je	.LBB27_25
.LBB27_27:
	leaq	(%rcx,%rcx), %rax
	movq	%rax, 112(%rsp)
	movq	40(%rsp), %rax
	leaq	(%rax,%rcx,2), %r15
	leaq	(%r12,%rcx,2), %r14
	subq	%rcx, %rbp
	movq	%rbp, 8(%rsp)
	movq	%r15, 24(%rsp)
	movq	%r14, 80(%rsp)
	movq	%rcx, 16(%rsp)
	je	.LBB27_28
	movzwl	-2(%r14,%rbp,2), %eax
	cmpq	%r10, %rax
	jb	.LBB27_30
	xorl	%edx, %edx
	divl	%r10d
	movl	%eax, %esi
	jmp	.LBB27_32
.LBB27_28:
	xorl	%edi, %edi
	xorl	%eax, %eax
	jmp	.LBB27_113
.LBB27_30:
	xorl	%esi, %esi
.LBB27_32:
	leaq	(%r8,%rcx,2), %r14
	movq	(%rsp), %rax
	leaq	1(%rax), %r11
	testb	$1, %bpl
	jne	.LBB27_34
	movq	%rbp, %r15
	cmpq	%r11, %r9
	je	.LBB27_47
	jmp	.LBB27_39
.LBB27_34:
	leaq	(%r12,%rcx,2), %rax
	movzwl	-2(%rax,%rbp,2), %eax
	cmpq	%r10, %rax
	jb	.LBB27_35
	xorl	%edx, %edx
	divl	%r10d
	jmp	.LBB27_37
.LBB27_35:
	xorl	%eax, %eax
.LBB27_37:
	leaq	-1(%rbp), %r15
	cmpq	%rsi, %rax
	cmovbq	%rax, %rsi
	movq	16(%rsp), %rcx
	leaq	(%r12,%rcx,2), %rcx
	movw	%ax, -2(%rcx,%rbp,2)
	movq	16(%rsp), %rcx
	movw	%si, -2(%r14,%rbp,2)
	cmpq	%r11, %r9
	jne	.LBB27_39
.LBB27_47:
	leaq	(%r12,%rcx,2), %rax
	movzwl	(%rax), %edx
	cmpq	%r11, %r9
	jne	.LBB27_49
	xorl	%eax, %eax
	movq	8(%rsp), %rcx
	movq	24(%rsp), %r15
	jmp	.LBB27_58
.LBB27_39:
	leaq	(%rcx,%rcx), %rax
	leaq	(%r12,%rax), %r13
	addq	$-2, %r13
	leaq	(%r8,%rax), %rbp
	addq	$-2, %rbp
	jmp	.LBB27_40
	.p2align	4
.LBB27_45:
	xorl	%edx, %edx
	divl	%r10d
.LBB27_46:
	addq	$-2, %r15
	cmpq	%rsi, %rax
	cmovbq	%rax, %rsi
	movw	%ax, 2(%r13,%r15,2)
	movw	%si, 2(%rbp,%r15,2)
	testq	%r15, %r15
	je	.LBB27_47
.LBB27_40:
	movzwl	(%r13,%r15,2), %eax
	cmpq	%r10, %rax
	jb	.LBB27_41
	xorl	%edx, %edx
	divl	%r10d
	jmp	.LBB27_43
	.p2align	4
.LBB27_41:
	xorl	%eax, %eax
.LBB27_43:
	cmpq	%rsi, %rax
	cmovbq	%rax, %rsi
	movw	%ax, (%r13,%r15,2)
	movw	%si, (%rbp,%r15,2)
	movzwl	-2(%r13,%r15,2), %eax
	cmpq	%r10, %rax
	jae	.LBB27_45
	xorl	%eax, %eax
	jmp	.LBB27_46
.LBB27_49:
	movq	8(%rsp), %rsi
	andq	$-2, %rsi
	leaq	(%rcx,%rcx), %rax
	leaq	(%r12,%rax), %r15
	addq	$2, %r15
	leaq	(%r8,%rax), %r13
	addq	$2, %r13
	xorl	%eax, %eax
	jmp	.LBB27_50
	.p2align	4
.LBB27_56:
	movw	%bp, (%r15,%rax,2)
	addq	$2, %rax
	cmpq	%rax, %rsi
	je	.LBB27_57
.LBB27_50:
	movzwl	-2(%r15,%rax,2), %ebp
	cmpw	%dx, %bp
	cmovael	%edx, %ebp
	movzwl	-2(%r13,%rax,2), %edx
	cmpw	%bp, %dx
	jbe	.LBB27_51
	movw	%dx, -2(%r15,%rax,2)
	movzwl	(%r15,%rax,2), %edx
	cmpw	%bp, %dx
	jae	.LBB27_53
.LBB27_54:
	movzwl	(%r13,%rax,2), %ebp
	cmpw	%dx, %bp
	ja	.LBB27_56
	jmp	.LBB27_55
	.p2align	4
.LBB27_51:
	movl	%ebp, %edx
	movw	%dx, -2(%r15,%rax,2)
	movzwl	(%r15,%rax,2), %edx
	cmpw	%bp, %dx
	jb	.LBB27_54
.LBB27_53:
	movl	%ebp, %edx
	movzwl	(%r13,%rax,2), %ebp
	cmpw	%dx, %bp
	ja	.LBB27_56
.LBB27_55:
	movl	%edx, %ebp
	jmp	.LBB27_56
.LBB27_57:
	movq	8(%rsp), %rcx
	testb	$1, %cl
	movq	24(%rsp), %r15
	je	.LBB27_59
.LBB27_58:
	movq	16(%rsp), %rsi
	leaq	(%r12,%rsi,2), %r13
	movzwl	(%r13,%rax,2), %esi
	cmpw	%dx, %si
	cmovael	%edx, %esi
	movzwl	(%r14,%rax,2), %edx
	cmpw	%si, %dx
	cmoval	%edx, %esi
	movw	%si, (%r13,%rax,2)
.LBB27_59:
	movzwl	-2(%r15,%rcx,2), %eax
	cmpq	%r10, %rax
	jb	.LBB27_60
	xorl	%edx, %edx
	divl	%r10d
	movl	%eax, %esi
	testb	$1, %cl
	je	.LBB27_63
.LBB27_64:
	movzwl	-2(%r15,%rcx,2), %eax
	cmpq	%r10, %rax
	jb	.LBB27_65
	xorl	%edx, %edx
	divl	%r10d
	jmp	.LBB27_67
.LBB27_60:
	xorl	%esi, %esi
	testb	$1, %cl
	jne	.LBB27_64
.LBB27_63:
	movq	%rcx, %r15
	cmpq	%r11, %r9
	movq	16(%rsp), %rcx
	je	.LBB27_77
	jmp	.LBB27_69
.LBB27_65:
	xorl	%eax, %eax
.LBB27_67:
	leaq	-1(%rcx), %r15
	cmpq	%rsi, %rax
	cmovbq	%rax, %rsi
	movq	24(%rsp), %rdx
	movw	%ax, -2(%rdx,%rcx,2)
	movw	%si, -2(%r14,%rcx,2)
	cmpq	%r11, %r9
	movq	16(%rsp), %rcx
	jne	.LBB27_69
.LBB27_77:
	movq	24(%rsp), %r15
	movzwl	(%r15), %edx
	cmpq	%r11, %r9
	jne	.LBB27_79
	xorl	%eax, %eax
	movq	(%rsp), %rsi
	leaq	2(%rsi), %r13
	movq	8(%rsp), %rbp
	jmp	.LBB27_88
.LBB27_69:
	movq	40(%rsp), %rax
	movq	16(%rsp), %rcx
	addq	%rcx, %rcx
	leaq	(%rax,%rcx), %r13
	addq	$-2, %r13
	leaq	(%r8,%rcx), %rbp
	addq	$-2, %rbp
	movq	16(%rsp), %rcx
	jmp	.LBB27_70
	.p2align	4
.LBB27_75:
	xorl	%edx, %edx
	divl	%r10d
.LBB27_76:
	addq	$-2, %r15
	cmpq	%rsi, %rax
	cmovbq	%rax, %rsi
	movw	%ax, 2(%r13,%r15,2)
	movw	%si, 2(%rbp,%r15,2)
	testq	%r15, %r15
	je	.LBB27_77
.LBB27_70:
	movzwl	(%r13,%r15,2), %eax
	cmpq	%r10, %rax
	jb	.LBB27_71
	xorl	%edx, %edx
	divl	%r10d
	jmp	.LBB27_73
	.p2align	4
.LBB27_71:
	xorl	%eax, %eax
.LBB27_73:
	cmpq	%rsi, %rax
	cmovbq	%rax, %rsi
	movw	%ax, (%r13,%r15,2)
	movw	%si, (%rbp,%r15,2)
	movzwl	-2(%r13,%r15,2), %eax
	cmpq	%r10, %rax
	jae	.LBB27_75
	xorl	%eax, %eax
	jmp	.LBB27_76
.LBB27_79:
	movq	8(%rsp), %rsi
	andq	$-2, %rsi
	movq	40(%rsp), %rax
	addq	%rcx, %rcx
	leaq	(%rax,%rcx), %r10
	addq	$2, %r10
	addq	%rcx, %r8
	addq	$2, %r8
	xorl	%eax, %eax
	movq	(%rsp), %rcx
	leaq	2(%rcx), %r13
	jmp	.LBB27_80
	.p2align	4
.LBB27_86:
	movw	%bp, (%r10,%rax,2)
	addq	$2, %rax
	cmpq	%rax, %rsi
	je	.LBB27_87
.LBB27_80:
	movzwl	-2(%r10,%rax,2), %ebp
	cmpw	%dx, %bp
	cmovael	%edx, %ebp
	movzwl	-2(%r8,%rax,2), %edx
	cmpw	%bp, %dx
	jbe	.LBB27_81
	movw	%dx, -2(%r10,%rax,2)
	movzwl	(%r10,%rax,2), %edx
	cmpw	%bp, %dx
	jae	.LBB27_83
.LBB27_84:
	movzwl	(%r8,%rax,2), %ebp
	cmpw	%dx, %bp
	ja	.LBB27_86
	jmp	.LBB27_85
	.p2align	4
.LBB27_81:
	movl	%ebp, %edx
	movw	%dx, -2(%r10,%rax,2)
	movzwl	(%r10,%rax,2), %edx
	cmpw	%bp, %dx
	jb	.LBB27_84
.LBB27_83:
	movl	%ebp, %edx
	movzwl	(%r8,%rax,2), %ebp
	cmpw	%dx, %bp
	ja	.LBB27_86
.LBB27_85:
	movl	%edx, %ebp
	jmp	.LBB27_86
.LBB27_87:
	movq	8(%rsp), %rbp
	testb	$1, %bpl
	movq	16(%rsp), %rcx
	je	.LBB27_89
.LBB27_88:
	movzwl	(%r15,%rax,2), %esi
	cmpw	%dx, %si
	cmovael	%edx, %esi
	movzwl	(%r14,%rax,2), %edx
	cmpw	%si, %dx
	cmoval	%edx, %esi
	movw	%si, (%r15,%rax,2)
.LBB27_89:
	cmpq	$1, %rbp
	jne	.LBB27_91
	xorl	%edi, %edi
	xorl	%eax, %eax
	leaq	(%r12,%rcx,2), %r14
	jmp	.LBB27_112
.LBB27_91:
	addq	%rcx, %rbx
	subq	%rbx, %r11
	cmpq	%r9, (%rsp)
	leaq	(%r12,%rcx,2), %r14
	jne	.LBB27_93
	movl	$1, %eax
	xorl	%edi, %edi
	jmp	.LBB27_100
.LBB27_93:
	movq	%r11, %rdx
	andq	$-2, %rdx
	leaq	(%rcx,%rcx), %rax
	leaq	(%rax,%r12), %rsi
	addq	$2, %rsi
	movl	$1, %eax
	xorl	%edi, %edi
	jmp	.LBB27_94
	.p2align	4
.LBB27_98:
	addq	$2, %rax
	cmpq	%rdx, %r10
	je	.LBB27_99
.LBB27_94:
	movzwl	-2(%rsi,%rax,2), %r10d
	movq	%rax, %r8
	cmpw	(%r14,%rdi,2), %r10w
	jb	.LBB27_96
	movq	%rdi, %r8
.LBB27_96:
	movzwl	(%rsi,%rax,2), %ebx
	leaq	1(%rax), %r10
	movq	%r10, %rdi
	cmpw	(%r14,%r8,2), %bx
	jb	.LBB27_98
	movq	%r8, %rdi
	jmp	.LBB27_98
.LBB27_99:
	testb	$1, %r11b
	je	.LBB27_101
.LBB27_100:
	movzwl	(%r14,%rax,2), %edx
	cmpw	(%r14,%rdi,2), %dx
	cmovbq	%rax, %rdi
.LBB27_101:
	cmpq	%r9, (%rsp)
	jne	.LBB27_103
	movl	$1, %ecx
	xorl	%eax, %eax
	jmp	.LBB27_110
.LBB27_103:
	movq	%r11, %rdx
	andq	$-2, %rdx
	movq	40(%rsp), %rax
	addq	%rcx, %rcx
	leaq	(%rcx,%rax), %rsi
	addq	$2, %rsi
	movl	$1, %ecx
	xorl	%eax, %eax
	jmp	.LBB27_104
	.p2align	4
.LBB27_108:
	addq	$2, %rcx
	cmpq	%rdx, %r9
	je	.LBB27_109
.LBB27_104:
	movzwl	-2(%rsi,%rcx,2), %r9d
	movq	%rcx, %r8
	cmpw	(%r15,%rax,2), %r9w
	jb	.LBB27_106
	movq	%rax, %r8
.LBB27_106:
	movzwl	(%rsi,%rcx,2), %r10d
	leaq	1(%rcx), %r9
	movq	%r9, %rax
	cmpw	(%r15,%r8,2), %r10w
	jb	.LBB27_108
	movq	%r8, %rax
	jmp	.LBB27_108
.LBB27_109:
	testb	$1, %r11b
	je	.LBB27_111
.LBB27_110:
	movzwl	(%r15,%rcx,2), %edx
	cmpw	(%r15,%rax,2), %dx
	cmovbq	%rcx, %rax
.LBB27_111:
	addq	%rax, %rax
	movq	16(%rsp), %rcx
.LBB27_112:
	movq	208(%rsp), %r11
.LBB27_113:
	movzwl	(%r15,%rax), %eax
	movzwl	(%r14,%rdi,2), %r15d
	movq	%rbp, %rdx
	addq	%r13, %rdx
	addq	%r15, %rax
	subq	%rax, %rdx
	addq	%rdx, %rdx
	cmpq	%rdx, %r11
	jae	.LBB27_115
	movl	$17, %esi
	movl	$1, %edx
	xorl	%eax, %eax
	xorl	%ecx, %ecx
	movq	72(%rsp), %rdi
	jmp	.LBB27_162
.LBB27_115:
	movq	%rdx, 104(%rsp)
	testq	%rdi, %rdi
	movq	%rdi, (%rsp)
	je	.LBB27_116
	leaq	(%rcx,%rcx), %rax
	leaq	(%rax,%r12), %rdx
	addq	$-2, %rdx
	xorl	%ebp, %ebp
	movq	%rdi, %r13
	movq	32(%rsp), %rcx
	movq	%rdx, 96(%rsp)
	jmp	.LBB27_118
	.p2align	4
.LBB27_121:
	movb	$0, (%r14,%r12)
.LBB27_127:
	decq	%r13
	leaq	(%rbx,%rbp), %rax
	movb	$3, (%rcx,%rax)
	addq	%rbx, %rbp
	incq	%rbp
	testq	%r13, %r13
	je	.LBB27_128
.LBB27_118:
	movq	%r15, %r12
	movzwl	(%rdx,%r13,2), %r15d
	leaq	(%rcx,%rbp), %r14
	cmpq	%r15, %r12
	jae	.LBB27_122
	movq	%r15, %rbx
	subq	%r12, %rbx
	movq	%rbx, %r12
	decq	%r12
	je	.LBB27_121
	movq	%r14, %rdi
	xorl	%esi, %esi
	movq	%r12, %rdx
	callq	memset@PLT
	movq	96(%rsp), %rdx
	movq	32(%rsp), %rcx
	jmp	.LBB27_121
	.p2align	4
.LBB27_122:
	subq	%r15, %r12
	je	.LBB27_123
	movq	%r12, %rbx
	decq	%rbx
	je	.LBB27_126
	movq	%r14, %rdi
	movl	$2, %esi
	movq	%rbx, %rdx
	callq	memset@PLT
	movq	96(%rsp), %rdx
	movq	32(%rsp), %rcx
.LBB27_126:
	movb	$2, (%r14,%rbx)
	movq	%r12, %rbx
	jmp	.LBB27_127
.LBB27_123:
	xorl	%ebx, %ebx
	jmp	.LBB27_127
.LBB27_116:
	xorl	%ebp, %ebp
	movq	32(%rsp), %rcx
.LBB27_128:
	cmpq	$0, 8(%rsp)
	je	.LBB27_140
	movq	80(%rsp), %rax
	movzwl	(%rax), %r12d
	xorl	%r15d, %r15d
	jmp	.LBB27_130
	.p2align	4
.LBB27_133:
	movb	$0, (%r14,%r13)
.LBB27_139:
	leaq	(%rbx,%rbp), %rax
	movb	$1, (%rcx,%rax)
	addq	%rbx, %rbp
	incq	%rbp
	incq	%r15
	cmpq	%r15, 8(%rsp)
	je	.LBB27_140
.LBB27_130:
	movq	%r12, %r13
	movq	24(%rsp), %rax
	movzwl	(%rax,%r15,2), %eax
	movq	48(%rsp), %r12
	subq	%rax, %r12
	leaq	(%rcx,%rbp), %r14
	cmpq	%r12, %r13
	jae	.LBB27_134
	movq	%r12, %rbx
	subq	%r13, %rbx
	movq	%rbx, %r13
	decq	%r13
	je	.LBB27_133
	movq	%r14, %rdi
	xorl	%esi, %esi
	movq	%r13, %rdx
	callq	memset@PLT
	movq	32(%rsp), %rcx
	jmp	.LBB27_133
	.p2align	4
.LBB27_134:
	subq	%r12, %r13
	je	.LBB27_135
	movq	%r13, %rbx
	decq	%rbx
	je	.LBB27_138
	movq	%r14, %rdi
	movl	$2, %esi
	movq	%rbx, %rdx
	callq	memset@PLT
	movq	32(%rsp), %rcx
.LBB27_138:
	movb	$2, (%r14,%rbx)
	movq	%r13, %rbx
	jmp	.LBB27_139
.LBB27_135:
	xorl	%ebx, %ebx
	jmp	.LBB27_139
.LBB27_140:
	movq	16(%rsp), %rax
	addq	%rax, 64(%rsp)
	movq	(%rsp), %rax
	cmpq	8(%rsp), %rax
	movq	80(%rsp), %r14
	jae	.LBB27_152
	movq	8(%rsp), %r13
	movq	24(%rsp), %rax
	movzwl	-2(%rax,%r13,2), %eax
	movq	48(%rsp), %r15
	subq	%rax, %r15
	jmp	.LBB27_142
	.p2align	4
.LBB27_145:
	movb	$0, (%r14,%r12)
.LBB27_151:
	decq	%r13
	leaq	(%rbx,%rbp), %rax
	movb	$3, (%rcx,%rax)
	addq	%rbx, %rbp
	incq	%rbp
	cmpq	%r13, (%rsp)
	movq	80(%rsp), %r14
	jae	.LBB27_152
.LBB27_142:
	movq	%r15, %r12
	movzwl	-2(%r14,%r13,2), %r15d
	leaq	(%rcx,%rbp), %r14
	cmpq	%r15, %r12
	jae	.LBB27_146
	movq	%r15, %rbx
	subq	%r12, %rbx
	movq	%rbx, %r12
	decq	%r12
	je	.LBB27_145
	movq	%r14, %rdi
	xorl	%esi, %esi
	movq	%r12, %rdx
	callq	memset@PLT
	movq	32(%rsp), %rcx
	jmp	.LBB27_145
	.p2align	4
.LBB27_146:
	subq	%r15, %r12
	je	.LBB27_147
	movq	%r12, %rbx
	decq	%rbx
	je	.LBB27_150
	movq	%r14, %rdi
	movl	$2, %esi
	movq	%rbx, %rdx
	callq	memset@PLT
	movq	32(%rsp), %rcx
.LBB27_150:
	movb	$2, (%r14,%rbx)
	movq	%r12, %rbx
	jmp	.LBB27_151
.LBB27_147:
	xorl	%ebx, %ebx
	jmp	.LBB27_151
.LBB27_152:
	movq	(%rsp), %rdx
	movzwl	(%r14,%rdx,2), %eax
	movl	$4294934528, %ecx
	movq	88(%rsp), %r8
	addq	%rcx, %r8
	addq	%rax, %r8
	movq	64(%rsp), %r9
	addq	%rdx, %r9
	movq	8(%rsp), %r11
	testq	%r11, %r11
	movq	56(%rsp), %rdx
	je	.LBB27_153
	cmpq	$4, %r11
	movq	72(%rsp), %rdi
	jae	.LBB27_157
	xorl	%ecx, %ecx
	xorl	%eax, %eax
	movq	48(%rsp), %r10
	movq	24(%rsp), %rbx
	jmp	.LBB27_156
.LBB27_153:
	xorl	%ecx, %ecx
	movq	72(%rsp), %rdi
	jmp	.LBB27_161
.LBB27_157:
	movq	%r11, %rax
	andq	$-4, %rax
	movq	48(%rsp), %r10
	movq	%r10, %xmm0
	pshufd	$68, %xmm0, %xmm0
	movq	40(%rsp), %rcx
	movq	112(%rsp), %rsi
	addq	%rsi, %rcx
	addq	$4, %rcx
	addq	%rsi, %rdx
	addq	$4, %rdx
	pxor	%xmm2, %xmm2
	xorl	%esi, %esi
	pxor	%xmm3, %xmm3
	pxor	%xmm1, %xmm1
	movq	24(%rsp), %rbx
	.p2align	4
.LBB27_158:
	movd	-4(%rdx,%rsi,2), %xmm4
	movd	(%rdx,%rsi,2), %xmm5
	movd	-4(%rcx,%rsi,2), %xmm6
	movd	(%rcx,%rsi,2), %xmm7
	punpcklwd	%xmm2, %xmm6
	punpckldq	%xmm2, %xmm6
	punpcklwd	%xmm2, %xmm7
	punpckldq	%xmm2, %xmm7
	punpcklwd	%xmm2, %xmm4
	punpckldq	%xmm2, %xmm4
	paddq	%xmm6, %xmm4
	punpcklwd	%xmm2, %xmm5
	punpckldq	%xmm2, %xmm5
	paddq	%xmm7, %xmm5
	paddq	%xmm0, %xmm3
	psubq	%xmm4, %xmm3
	paddq	%xmm0, %xmm1
	psubq	%xmm5, %xmm1
	addq	$4, %rsi
	cmpq	%rsi, %rax
	jne	.LBB27_158
	paddq	%xmm3, %xmm1
	pshufd	$238, %xmm1, %xmm0
	paddq	%xmm1, %xmm0
	movq	%xmm0, %rcx
	jmp	.LBB27_160
.LBB27_163:
	ud2
.LBB27_156:
	movzwl	(%r14,%rax,2), %edx
	movzwl	(%rbx,%rax,2), %esi
	addq	%rdx, %rsi
	addq	%r10, %rcx
	subq	%rsi, %rcx
	incq	%rax
.LBB27_160:
	cmpq	%rax, %r11
	jne	.LBB27_156
.LBB27_161:
	shlq	$32, %r9
	movl	%r8d, %edx
	orq	%r9, %rdx
	movabsq	$-140737488355328, %rax
	addq	%rdx, %rax
	xorl	%edx, %edx
	movq	104(%rsp), %rsi
.LBB27_162:
	movq	%rdx, (%rdi)
	movq	%rsi, 8(%rdi)
	movq	%rax, 16(%rdi)
	movq	%rcx, 24(%rdi)
	addq	$152, %rsp
	popq	%rbx
	popq	%r12
	popq	%r13
	popq	%r14
	popq	%r15
	popq	%rbp
	retq
.Lfunc_end27:
	.size	"orthogonal_call::outline_in", .Lfunc_end27-"orthogonal_call::outline_in"

	.section	".text.orthogonal_call::outline_sized::<=2050>","ax",@progbits
	.p2align	4
	.type	"orthogonal_call::outline_sized::<=2050>",@function
"orthogonal_call::outline_sized::<=2050>":
	pushq	%rbp
	pushq	%r15
	pushq	%r14
	pushq	%r13
	pushq	%r12
	pushq	%rbx
	subq	$3072, %rsp
	movq	$0, (%rsp)
	subq	$3072, %rsp
	movq	$0, (%rsp)
	subq	$3072, %rsp
	movq	$0, (%rsp)
	subq	$3072, %rsp
	movq	$0, (%rsp)
	subq	$72, %rsp
	movq	%rcx, %r12
	movq	%rdx, %r14
	movq	%rsi, %r15
	movq	%rdi, %rbx
	xorps	%xmm0, %xmm0
	movaps	%xmm0, 32(%rsp)
	movaps	%xmm0, 16(%rsp)
	leaq	60(%rsp), %rdi
	movl	$4100, %edx
	movl	$255, %esi
	callq	memset@PLT
	leaq	8260(%rsp), %rbp
	movl	$4100, %edx
	movq	%rbp, %rdi
	movl	$255, %esi
	callq	memset@PLT
	leaq	4160(%rsp), %r13
	movl	$4100, %edx
	movq	%r13, %rdi
	xorl	%esi, %esi
	callq	memset@PLT
	movq	%r12, (%rsp)
	leaq	16(%rsp), %rdi
	movq	%r15, %rsi
	leaq	60(%rsp), %rdx
	movq	%rbp, %rcx
	movq	%r13, %r8
	movq	%r14, %r9
	callq	"orthogonal_call::outline_in"
	movzbl	16(%rsp), %eax
	movq	%rax, (%rbx)
	movups	24(%rsp), %xmm0
	movups	%xmm0, 8(%rbx)
	movq	40(%rsp), %rax
	movq	%rax, 24(%rbx)
	addq	$12360, %rsp
	popq	%rbx
	popq	%r12
	popq	%r13
	popq	%r14
	popq	%r15
	popq	%rbp
	retq
.Lfunc_end28:
	.size	"orthogonal_call::outline_sized::<=2050>", .Lfunc_end28-"orthogonal_call::outline_sized::<=2050>"

	.section	".text.orthogonal_call::outline_sized::<=16386>","ax",@progbits
	.p2align	4
	.type	"orthogonal_call::outline_sized::<=16386>",@function
"orthogonal_call::outline_sized::<=16386>":
	pushq	%rbp
	pushq	%r15
	pushq	%r14
	pushq	%r13
	pushq	%r12
	pushq	%rbx
	movq	%rsp, %r11
	subq	$98304, %r11
.LBB29_1:
	subq	$3072, %rsp
	movq	$0, (%rsp)
	cmpq	%r11, %rsp
	jne	.LBB29_1
	subq	$72, %rsp
	movq	%rcx, %r12
	movq	%rdx, %r14
	movq	%rsi, %r15
	movq	%rdi, %rbx
	xorps	%xmm0, %xmm0
	movaps	%xmm0, 32(%rsp)
	movaps	%xmm0, 16(%rsp)
	leaq	60(%rsp), %rdi
	movl	$32772, %edx
	movl	$255, %esi
	callq	memset@PLT
	leaq	65604(%rsp), %rbp
	movl	$32772, %edx
	movq	%rbp, %rdi
	movl	$255, %esi
	callq	memset@PLT
	leaq	32832(%rsp), %r13
	movl	$32772, %edx
	movq	%r13, %rdi
	xorl	%esi, %esi
	callq	memset@PLT
	movq	%r12, (%rsp)
	leaq	16(%rsp), %rdi
	movq	%r15, %rsi
	leaq	60(%rsp), %rdx
	movq	%rbp, %rcx
	movq	%r13, %r8
	movq	%r14, %r9
	callq	"orthogonal_call::outline_in"
	movzbl	16(%rsp), %eax
	movq	%rax, (%rbx)
	movups	24(%rsp), %xmm0
	movups	%xmm0, 8(%rbx)
	movq	40(%rsp), %rax
	movq	%rax, 24(%rbx)
	addq	$98376, %rsp
	popq	%rbx
	popq	%r12
	popq	%r13
	popq	%r14
	popq	%r15
	popq	%rbp
	retq
.Lfunc_end29:
	.size	"orthogonal_call::outline_sized::<=16386>", .Lfunc_end29-"orthogonal_call::outline_sized::<=16386>"

	.section	".text.outline_call::map_sized::<=4096>","ax",@progbits
	.p2align	4
	.type	"outline_call::map_sized::<=4096>",@function
"outline_call::map_sized::<=4096>":
	pushq	%rbp
	pushq	%r15
	pushq	%r14
	pushq	%r13
	pushq	%r12
	pushq	%rbx
	subq	$3072, %rsp
	movq	$0, (%rsp)
	subq	$1112, %rsp
	movq	%r9, %r15
	movq	%r8, %r14
	movq	%rdx, %r12
	movq	%rsi, %r13
	movq	%rdi, %rbx
	movups	(%rcx), %xmm0
	movups	16(%rcx), %xmm1
	movaps	%xmm1, 64(%rsp)
	movaps	%xmm0, 48(%rsp)
	xorps	%xmm0, %xmm0
	movaps	%xmm0, 16(%rsp)
	movq	$0, 32(%rsp)
	leaq	88(%rsp), %rbp
	movl	$4096, %edx
	movq	%rbp, %rdi
	xorl	%esi, %esi
	callq	memset@PLT
	movq	%r15, (%rsp)
	leaq	16(%rsp), %rdi
	leaq	48(%rsp), %rcx
	movq	%r13, %rsi
	movq	%r12, %rdx
	movq	%rbp, %r8
	movq	%r14, %r9
	callq	"outline_call::write_on"
	movzbl	16(%rsp), %eax
	movq	%rax, (%rbx)
	movups	24(%rsp), %xmm0
	movups	%xmm0, 8(%rbx)
	addq	$4184, %rsp
	popq	%rbx
	popq	%r12
	popq	%r13
	popq	%r14
	popq	%r15
	popq	%rbp
	retq
.Lfunc_end30:
	.size	"outline_call::map_sized::<=4096>", .Lfunc_end30-"outline_call::map_sized::<=4096>"

	.section	".text.outline_call::write_on","ax",@progbits
	.p2align	4
	.type	"outline_call::write_on",@function
"outline_call::write_on":
	pushq	%rbp
	pushq	%r15
	pushq	%r14
	pushq	%r12
	pushq	%rbx
	movq	(%rcx), %r11
	movq	8(%rcx), %rbx
	movq	16(%rcx), %rax
	movq	%rbx, %rcx
	negq	%rcx
	movq	%rbx, -32(%rsp)
	movq	$1, -24(%rsp)
	movq	%rcx, -16(%rsp)
	movq	$-1, -8(%rsp)
	testq	%r11, %r11
	je	.LBB31_39
	movq	%rdx, %r10
	movq	%rax, %rcx
	orq	%r11, %rcx
	shrq	$32, %rcx
	je	.LBB31_2
	xorl	%edx, %edx
	divq	%r11
	jmp	.LBB31_4
.LBB31_2:
	xorl	%edx, %edx
	divl	%r11d
.LBB31_4:
	movq	48(%rsp), %r11
	imulq	%rbx, %rdx
	addq	%rax, %rdx
	testq	%r10, %r10
	je	.LBB31_5
	xorl	%r14d, %r14d
	movq	%rdx, %rax
	xorl	%ebx, %ebx
	.p2align	4
.LBB31_7:
	movzbl	(%rsi,%rbx), %ecx
	movb	$1, %bpl
	shlb	%cl, %bpl
	orb	%r14b, %bpl
	orb	%bpl, (%r8,%rax)
	movb	$1, %bpl
	addq	-32(%rsp,%rcx,8), %rax
	cmpq	%rdx, %rax
	cmovbq	%rax, %rdx
	andb	$3, %cl
	xorb	$2, %cl
	shlb	%cl, %bpl
	incq	%rbx
	movl	%ebp, %r14d
	cmpq	%rbx, %r10
	jne	.LBB31_7
	jmp	.LBB31_8
.LBB31_5:
	xorl	%ebp, %ebp
	movq	%rdx, %rax
.LBB31_8:
	orb	%bpl, (%r8,%rax)
	movzbl	(%r8,%rdx), %ecx
	andl	$1, %ecx
	movq	%rcx, %rax
	xorq	$1, %rax
	addq	%r10, %r10
	cmpq	%r11, %r10
	jbe	.LBB31_24
	movq	-32(%rsp,%rax,8), %r10
	leaq	(%r10,%rdx), %rsi
	movzbl	(%r8,%rsi), %ebp
	xorl	%ebx, %ebx
	testb	%cl, %cl
	setne	%bl
	leal	(%rbx,%rbx,2), %ebx
	btl	%ebx, %ebp
	jb	.LBB31_12
	movzbl	%al, %ebx
	movzbl	%bpl, %ebp
	btl	%ebx, %ebp
	movl	%eax, %ebx
	jb	.LBB31_12
	movb	$2, %bl
	subb	%cl, %bl
	movzbl	%bl, %r14d
	movl	%ecx, %ebx
	xorb	$3, %bl
	btl	%r14d, %ebp
	movzbl	%bl, %ebx
	cmovbl	%r14d, %ebx
.LBB31_12:
	testq	%r10, %r10
	jne	.LBB31_14
	movl	$1, %r10d
	cmpb	%al, %bl
	je	.LBB31_22
.LBB31_14:
	movl	$1, %r10d
	.p2align	4
.LBB31_15:
	movzbl	%bl, %r14d
	addq	-32(%rsp,%r14,8), %rsi
	movzbl	(%r8,%rsi), %r15d
	leal	-1(%r14), %ebp
	andb	$3, %bpl
	movzbl	%bpl, %r12d
	btl	%r12d, %r15d
	jb	.LBB31_20
	movzbl	%r15b, %r15d
	btl	%r14d, %r15d
	jae	.LBB31_18
	movl	%ebx, %ebp
	jmp	.LBB31_20
.LBB31_18:
	leal	1(%rbx), %ebp
	andb	$3, %bpl
	movzbl	%bpl, %ebp
	btl	%ebp, %r15d
	jb	.LBB31_20
	xorb	$2, %bl
	movzbl	%bl, %ebp
	.p2align	4
.LBB31_20:
	incq	%r10
	movl	%ebp, %ebx
	cmpq	%rdx, %rsi
	jne	.LBB31_15
	movl	%ebp, %ebx
	cmpb	%al, %bpl
	jne	.LBB31_15
.LBB31_22:
	cmpq	%r11, %r10
	jbe	.LBB31_24
	movq	$1, (%rdi)
	movq	$10, 8(%rdi)
	jmp	.LBB31_38
.LBB31_24:
	movb	%al, (%r9)
	movq	-32(%rsp,%rax,8), %r11
	leaq	(%r11,%rdx), %rsi
	movzbl	(%r8,%rsi), %ebx
	xorl	%r10d, %r10d
	testb	%cl, %cl
	setne	%r10b
	leal	(%r10,%r10,2), %r10d
	btl	%r10d, %ebx
	jb	.LBB31_27
	movzbl	%al, %r10d
	movzbl	%bl, %ebx
	btl	%r10d, %ebx
	movl	%eax, %r10d
	jb	.LBB31_27
	movb	$2, %r10b
	subb	%cl, %r10b
	movzbl	%r10b, %ebp
	xorb	$3, %cl
	btl	%ebp, %ebx
	movzbl	%cl, %r10d
	cmovbl	%ebp, %r10d
.LBB31_27:
	testq	%r11, %r11
	jne	.LBB31_29
	movl	$1, %ecx
	cmpb	%al, %r10b
	je	.LBB31_37
.LBB31_29:
	movl	$1, %ecx
	.p2align	4
.LBB31_30:
	movb	%r10b, (%r9,%rcx)
	movzbl	%r10b, %ebx
	addq	-32(%rsp,%rbx,8), %rsi
	movzbl	(%r8,%rsi), %ebp
	leal	-1(%rbx), %r11d
	andb	$3, %r11b
	movzbl	%r11b, %r14d
	btl	%r14d, %ebp
	jb	.LBB31_35
	movzbl	%bpl, %ebp
	btl	%ebx, %ebp
	jae	.LBB31_33
	movl	%r10d, %r11d
	jmp	.LBB31_35
.LBB31_33:
	leal	1(%r10), %r11d
	andb	$3, %r11b
	movzbl	%r11b, %r11d
	btl	%r11d, %ebp
	jb	.LBB31_35
	xorb	$2, %r10b
	movzbl	%r10b, %r11d
	.p2align	4
.LBB31_35:
	incq	%rcx
	movl	%r11d, %r10d
	cmpq	%rdx, %rsi
	jne	.LBB31_30
	movl	%r11d, %r10d
	cmpb	%al, %r11b
	jne	.LBB31_30
.LBB31_37:
	movq	$0, (%rdi)
	movq	%rcx, 8(%rdi)
.LBB31_38:
	movq	$0, 16(%rdi)
	popq	%rbx
	popq	%r12
	popq	%r14
	popq	%r15
	popq	%rbp
	retq
.LBB31_39:
	ud2
.Lfunc_end31:
	.size	"outline_call::write_on", .Lfunc_end31-"outline_call::write_on"

	.section	".text.outline_call::write_sized::<=257>","ax",@progbits
	.p2align	4
	.type	"outline_call::write_sized::<=257>",@function
"outline_call::write_sized::<=257>":
	pushq	%r15
	pushq	%r14
	pushq	%r13
	pushq	%r12
	pushq	%rbx
	subq	$3072, %rsp
	movq	$0, (%rsp)
	subq	$1088, %rsp
	movq	%r8, %r13
	movq	%rcx, %r12
	movq	%rdx, %r14
	movq	%rsi, %r15
	movq	%rdi, %rbx
	xorps	%xmm0, %xmm0
	movaps	%xmm0, 16(%rsp)
	movq	$0, 32(%rsp)
	leaq	48(%rsp), %rdi
	movl	$1028, %edx
	xorl	%esi, %esi
	callq	memset@PLT
	leaq	1076(%rsp), %rdi
	movl	$2056, %edx
	xorl	%esi, %esi
	callq	memset@PLT
	leaq	3136(%rsp), %rdi
	movl	$1024, %edx
	xorl	%esi, %esi
	callq	memset@PLT
	xorps	%xmm0, %xmm0
	movaps	%xmm0, 48(%rsp)
	movaps	%xmm0, 64(%rsp)
	movaps	%xmm0, 80(%rsp)
	movaps	%xmm0, 96(%rsp)
	movaps	%xmm0, 112(%rsp)
	movaps	%xmm0, 128(%rsp)
	movaps	%xmm0, 144(%rsp)
	movaps	%xmm0, 160(%rsp)
	movaps	%xmm0, 176(%rsp)
	movaps	%xmm0, 192(%rsp)
	movaps	%xmm0, 208(%rsp)
	movaps	%xmm0, 224(%rsp)
	movaps	%xmm0, 240(%rsp)
	movaps	%xmm0, 256(%rsp)
	movaps	%xmm0, 272(%rsp)
	movaps	%xmm0, 288(%rsp)
	movaps	%xmm0, 304(%rsp)
	movaps	%xmm0, 320(%rsp)
	movaps	%xmm0, 336(%rsp)
	movaps	%xmm0, 352(%rsp)
	movaps	%xmm0, 368(%rsp)
	movaps	%xmm0, 384(%rsp)
	movaps	%xmm0, 400(%rsp)
	movaps	%xmm0, 416(%rsp)
	movaps	%xmm0, 432(%rsp)
	movaps	%xmm0, 448(%rsp)
	movaps	%xmm0, 464(%rsp)
	movaps	%xmm0, 480(%rsp)
	movaps	%xmm0, 496(%rsp)
	movaps	%xmm0, 512(%rsp)
	movaps	%xmm0, 528(%rsp)
	movaps	%xmm0, 544(%rsp)
	movaps	%xmm0, 560(%rsp)
	movaps	%xmm0, 576(%rsp)
	movaps	%xmm0, 592(%rsp)
	movaps	%xmm0, 608(%rsp)
	movaps	%xmm0, 624(%rsp)
	movaps	%xmm0, 640(%rsp)
	movaps	%xmm0, 656(%rsp)
	movaps	%xmm0, 672(%rsp)
	movaps	%xmm0, 688(%rsp)
	movaps	%xmm0, 704(%rsp)
	movaps	%xmm0, 720(%rsp)
	movaps	%xmm0, 736(%rsp)
	movaps	%xmm0, 752(%rsp)
	movaps	%xmm0, 768(%rsp)
	movaps	%xmm0, 784(%rsp)
	movaps	%xmm0, 800(%rsp)
	movaps	%xmm0, 816(%rsp)
	movaps	%xmm0, 832(%rsp)
	movaps	%xmm0, 848(%rsp)
	movaps	%xmm0, 864(%rsp)
	movaps	%xmm0, 880(%rsp)
	movaps	%xmm0, 896(%rsp)
	movaps	%xmm0, 912(%rsp)
	movaps	%xmm0, 928(%rsp)
	movaps	%xmm0, 944(%rsp)
	movaps	%xmm0, 960(%rsp)
	movaps	%xmm0, 976(%rsp)
	movaps	%xmm0, 992(%rsp)
	movaps	%xmm0, 1008(%rsp)
	movaps	%xmm0, 1024(%rsp)
	movaps	%xmm0, 1040(%rsp)
	movaps	%xmm0, 1056(%rsp)
	movl	$0, 1072(%rsp)
	movl	$14, %eax
	.p2align	4
.LBB32_1:
	movups	%xmm0, 964(%rsp,%rax,8)
	movups	%xmm0, 980(%rsp,%rax,8)
	movups	%xmm0, 996(%rsp,%rax,8)
	movups	%xmm0, 1012(%rsp,%rax,8)
	movups	%xmm0, 1028(%rsp,%rax,8)
	movups	%xmm0, 1044(%rsp,%rax,8)
	movups	%xmm0, 1060(%rsp,%rax,8)
	movups	%xmm0, 1076(%rsp,%rax,8)
	addq	$16, %rax
	cmpq	$270, %rax
	jne	.LBB32_1
	movq	$0, 3124(%rsp)
	movq	%r13, 8(%rsp)
	movq	%r12, (%rsp)
	leaq	16(%rsp), %rdi
	leaq	3132(%rsp), %rcx
	leaq	48(%rsp), %r8
	leaq	1076(%rsp), %r9
	movq	%r15, %rsi
	movq	%r14, %rdx
	callq	"outline_call::write_in"
	movzbl	16(%rsp), %eax
	movq	%rax, (%rbx)
	movups	24(%rsp), %xmm0
	movups	%xmm0, 8(%rbx)
	addq	$4160, %rsp
	popq	%rbx
	popq	%r12
	popq	%r13
	popq	%r14
	popq	%r15
	retq
.Lfunc_end32:
	.size	"outline_call::write_sized::<=257>", .Lfunc_end32-"outline_call::write_sized::<=257>"

	.section	".text.outline_call::write_in","ax",@progbits
	.p2align	4
	.type	"outline_call::write_in",@function
"outline_call::write_in":
	pushq	%rbp
	pushq	%r15
	pushq	%r14
	pushq	%r13
	pushq	%r12
	pushq	%rbx
	movq	%rdi, -24(%rsp)
	movl	$536903680, (%rcx)
	testq	%rdx, %rdx
	je	.LBB33_1
	movq	%rsi, %r11
	movl	$1, %eax
	movq	%rax, -8(%rsp)
	movl	$536903680, %r10d
	xorl	%r15d, %r15d
	movl	$536903680, %ebx
	xorl	%r14d, %r14d
	xorl	%eax, %eax
	movq	%r9, -16(%rsp)
	jmp	.LBB33_3
	.p2align	4
.LBB33_11:
	decq	%r13
.LBB33_20:
	cmpl	%ebx, %r10d
	cmovbq	%r13, %rax
	cmovbl	%r10d, %ebx
	incq	%r14
	movq	%r13, %r15
	cmpq	%rdx, %r14
	je	.LBB33_21
.LBB33_3:
	movzbl	(%r11,%r14), %r12d
	cmpl	$2, %r12d
	je	.LBB33_8
	cmpl	$1, %r12d
	je	.LBB33_7
	testl	%r12d, %r12d
	jne	.LBB33_9
	addl	$32769, %r10d
	leaq	(%r9,%r15,8), %rsi
	movzwl	(%rsi,%r12,2), %r13d
	testq	%r13, %r13
	jne	.LBB33_11
	jmp	.LBB33_12
	.p2align	4
.LBB33_7:
	incl	%r10d
	leaq	(%r9,%r15,8), %rsi
	movzwl	(%rsi,%r12,2), %r13d
	testq	%r13, %r13
	jne	.LBB33_11
	jmp	.LBB33_12
	.p2align	4
.LBB33_8:
	addl	$-32769, %r10d
	leaq	(%r9,%r15,8), %rsi
	movzwl	(%rsi,%r12,2), %r13d
	testq	%r13, %r13
	jne	.LBB33_11
	jmp	.LBB33_12
	.p2align	4
.LBB33_9:
	decl	%r10d
	leaq	(%r9,%r15,8), %rsi
	movzwl	(%rsi,%r12,2), %r13d
	testq	%r13, %r13
	jne	.LBB33_11
.LBB33_12:
	cmpl	%r10d, (%rcx)
	jne	.LBB33_15
	xorl	%r13d, %r13d
	jmp	.LBB33_19
.LBB33_15:
	movq	%r11, %r9
	xorl	%r13d, %r13d
	movl	%r10d, %r11d
	.p2align	4
.LBB33_16:
	leal	(%r11,%r11), %edi
	andl	$2, %edi
	leaq	(%r8,%r13,4), %rbp
	movzwl	(%rdi,%rbp), %r13d
	testq	%r13, %r13
	je	.LBB33_17
	shrl	%r11d
	cmpl	%r10d, (%rcx,%r13,4)
	jne	.LBB33_16
	jmp	.LBB33_18
.LBB33_17:
	movq	-8(%rsp), %r11
	movl	%r10d, (%rcx,%r11,4)
	movw	%r11w, (%rbp,%rdi)
	movq	%r11, %r13
	leaq	1(%r11), %rdi
	movq	%rdi, -8(%rsp)
.LBB33_18:
	movq	%r9, %r11
	movq	-16(%rsp), %r9
.LBB33_19:
	leal	1(%r13), %edi
	movw	%di, (%rsi,%r12,2)
	incl	%r15d
	leal	(%r12,%r12), %edi
	andb	$6, %dil
	movzbl	%dil, %esi
	xorq	$4, %rsi
	leaq	(%r9,%r13,8), %rdi
	movw	%r15w, (%rsi,%rdi)
	jmp	.LBB33_20
.LBB33_1:
	xorl	%eax, %eax
.LBB33_21:
	movq	64(%rsp), %rdx
	leaq	(%r9,%rax,8), %rsi
	movzwl	(%r9,%rax,8), %r8d
	xorl	%r10d, %r10d
	xorl	%ecx, %ecx
	testw	%r8w, %r8w
	setne	%r10b
	sete	%cl
	movl	%ecx, %r11d
	addl	%r11d, %r11d
	movzwl	(%r11,%rsi), %esi
	leal	(%r10,%r10), %edi
	leal	(%rdi,%rdi,2), %ebx
	leaq	(%r9,%rsi,8), %rdi
	addq	$-8, %rdi
	decq	%rsi
	cmpw	$0, (%rbx,%rdi)
	je	.LBB33_23
	leal	(%r10,%r10,2), %r10d
.LBB33_26:
	movq	$-1, %r8
	.p2align	4
.LBB33_27:
	movzbl	%r10b, %edi
	leaq	(%r9,%rsi,8), %rsi
	movzwl	(%rsi,%rdi,2), %esi
	movl	%edi, %r11d
	decb	%r11b
	andb	$3, %r11b
	movzbl	%r11b, %r14d
	leaq	(%r9,%rsi,8), %rbx
	addq	$-8, %rbx
	cmpw	$0, (%rbx,%r14,2)
	jne	.LBB33_32
	cmpw	$0, (%rbx,%rdi,2)
	je	.LBB33_30
	movl	%r10d, %r11d
	jmp	.LBB33_32
.LBB33_30:
	leal	1(%r10), %edi
	andb	$3, %dil
	movzbl	%dil, %r11d
	cmpw	$0, (%rbx,%r11,2)
	jne	.LBB33_32
	xorb	$2, %r10b
	movzbl	%r10b, %r11d
	.p2align	4
.LBB33_32:
	decq	%rsi
	decq	%r8
	movl	%r11d, %r10d
	cmpq	%rax, %rsi
	jne	.LBB33_27
	movl	%r11d, %r10d
	cmpb	%cl, %r11b
	jne	.LBB33_27
	movq	%r8, %rsi
	negq	%rsi
	cmpq	%rsi, %rdx
	jae	.LBB33_36
.LBB33_35:
	movq	-24(%rsp), %rax
	movq	$1, (%rax)
	movq	$10, 8(%rax)
	jmp	.LBB33_47
.LBB33_36:
	testq	%r8, %r8
	jne	.LBB33_39
	xorl	%esi, %esi
.LBB33_46:
	movq	-24(%rsp), %rax
	movq	$0, (%rax)
	movq	%rsi, 8(%rax)
.LBB33_47:
	movq	$0, 16(%rax)
	popq	%rbx
	popq	%r12
	popq	%r13
	popq	%r14
	popq	%r15
	popq	%rbp
	retq
.LBB33_23:
	cmpw	$0, (%rdi,%r11)
	je	.LBB33_24
	movl	%ecx, %r10d
	cmpq	%rax, %rsi
	jne	.LBB33_26
	movl	$1, %esi
	testq	%rdx, %rdx
	je	.LBB33_35
.LBB33_39:
	movq	56(%rsp), %rdx
	xorl	%r8d, %r8d
	jmp	.LBB33_40
	.p2align	4
.LBB33_42:
	movl	%ecx, %r10d
.LBB33_45:
	decq	%rax
	incq	%r8
	movl	%r10d, %ecx
	cmpq	%r8, %rsi
	je	.LBB33_46
.LBB33_40:
	movb	%cl, (%rdx,%r8)
	movzbl	%cl, %edi
	leaq	(%r9,%rax,8), %rax
	movzwl	(%rax,%rdi,2), %eax
	movl	%edi, %r10d
	decb	%r10b
	andb	$3, %r10b
	movzbl	%r10b, %ebx
	leaq	(%r9,%rax,8), %r11
	addq	$-8, %r11
	cmpw	$0, (%r11,%rbx,2)
	jne	.LBB33_45
	cmpw	$0, (%r11,%rdi,2)
	jne	.LBB33_42
	leal	1(%rcx), %edi
	andb	$3, %dil
	movzbl	%dil, %r10d
	cmpw	$0, (%r11,%r10,2)
	jne	.LBB33_45
	xorb	$2, %cl
	movzbl	%cl, %r10d
	jmp	.LBB33_45
.LBB33_24:
	xorl	%r10d, %r10d
	testw	%r8w, %r8w
	sete	%r10b
	movl	%r10d, %r8d
	incb	%r8b
	leal	2(%rcx), %r11d
	cmpw	$0, 2(%rdi,%r10,2)
	movzbl	%r11b, %edi
	movzbl	%r8b, %r10d
	cmovel	%edi, %r10d
	jmp	.LBB33_26
.Lfunc_end33:
	.size	"outline_call::write_in", .Lfunc_end33-"outline_call::write_in"

	.section	".text.outline_call::map_sized::<=32768>","ax",@progbits
	.p2align	4
	.type	"outline_call::map_sized::<=32768>",@function
"outline_call::map_sized::<=32768>":
	pushq	%rbp
	pushq	%r15
	pushq	%r14
	pushq	%r13
	pushq	%r12
	pushq	%rbx
	movq	%rsp, %r11
	subq	$30720, %r11
.LBB34_1:
	subq	$3072, %rsp
	movq	$0, (%rsp)
	cmpq	%r11, %rsp
	jne	.LBB34_1
	subq	$2136, %rsp
	movq	%r9, %r15
	movq	%r8, %r14
	movq	%rdx, %r12
	movq	%rsi, %r13
	movq	%rdi, %rbx
	movups	(%rcx), %xmm0
	movups	16(%rcx), %xmm1
	movaps	%xmm1, 64(%rsp)
	movaps	%xmm0, 48(%rsp)
	xorps	%xmm0, %xmm0
	movaps	%xmm0, 16(%rsp)
	movq	$0, 32(%rsp)
	leaq	88(%rsp), %rbp
	movl	$32768, %edx
	movq	%rbp, %rdi
	xorl	%esi, %esi
	callq	memset@PLT
	movq	%r15, (%rsp)
	leaq	16(%rsp), %rdi
	leaq	48(%rsp), %rcx
	movq	%r13, %rsi
	movq	%r12, %rdx
	movq	%rbp, %r8
	movq	%r14, %r9
	callq	"outline_call::write_on"
	movzbl	16(%rsp), %eax
	movq	%rax, (%rbx)
	movups	24(%rsp), %xmm0
	movups	%xmm0, 8(%rbx)
	addq	$32856, %rsp
	popq	%rbx
	popq	%r12
	popq	%r13
	popq	%r14
	popq	%r15
	popq	%rbp
	retq
.Lfunc_end34:
	.size	"outline_call::map_sized::<=32768>", .Lfunc_end34-"outline_call::map_sized::<=32768>"

	.section	".text.outline_call::write_sized::<=2049>","ax",@progbits
	.p2align	4
	.type	"outline_call::write_sized::<=2049>",@function
"outline_call::write_sized::<=2049>":
	pushq	%r15
	pushq	%r14
	pushq	%r13
	pushq	%r12
	pushq	%rbx
	movq	%rsp, %r11
	subq	$30720, %r11
.LBB35_1:
	subq	$3072, %rsp
	movq	$0, (%rsp)
	cmpq	%r11, %rsp
	jne	.LBB35_1
	subq	$2112, %rsp
	movq	%r8, %r13
	movq	%rcx, %r12
	movq	%rdx, %r14
	movq	%rsi, %r15
	movq	%rdi, %rbx
	xorps	%xmm0, %xmm0
	movaps	%xmm0, 16(%rsp)
	movq	$0, 32(%rsp)
	leaq	48(%rsp), %rdi
	movl	$8196, %edx
	xorl	%esi, %esi
	callq	memset@PLT
	leaq	8244(%rsp), %rdi
	movl	$16392, %edx
	xorl	%esi, %esi
	callq	memset@PLT
	leaq	24640(%rsp), %rdi
	movl	$8192, %edx
	xorl	%esi, %esi
	callq	memset@PLT
	xorps	%xmm0, %xmm0
	movl	$28, %eax
	.p2align	4
.LBB35_3:
	movups	%xmm0, -64(%rsp,%rax,4)
	movups	%xmm0, -48(%rsp,%rax,4)
	movups	%xmm0, -32(%rsp,%rax,4)
	movups	%xmm0, -16(%rsp,%rax,4)
	movups	%xmm0, (%rsp,%rax,4)
	movups	%xmm0, 16(%rsp,%rax,4)
	movups	%xmm0, 32(%rsp,%rax,4)
	movups	%xmm0, 48(%rsp,%rax,4)
	addq	$32, %rax
	cmpq	$2076, %rax
	jne	.LBB35_3
	movl	$0, 8240(%rsp)
	movl	$14, %eax
	.p2align	4
.LBB35_5:
	xorps	%xmm0, %xmm0
	movups	%xmm0, 8132(%rsp,%rax,8)
	movups	%xmm0, 8148(%rsp,%rax,8)
	movups	%xmm0, 8164(%rsp,%rax,8)
	movups	%xmm0, 8180(%rsp,%rax,8)
	movups	%xmm0, 8196(%rsp,%rax,8)
	movups	%xmm0, 8212(%rsp,%rax,8)
	movups	%xmm0, 8228(%rsp,%rax,8)
	movups	%xmm0, 8244(%rsp,%rax,8)
	addq	$16, %rax
	cmpq	$2062, %rax
	jne	.LBB35_5
	movq	$0, 24628(%rsp)
	movq	%r13, 8(%rsp)
	movq	%r12, (%rsp)
	leaq	16(%rsp), %rdi
	leaq	24636(%rsp), %rcx
	leaq	48(%rsp), %r8
	leaq	8244(%rsp), %r9
	movq	%r15, %rsi
	movq	%r14, %rdx
	callq	"outline_call::write_in"
	movzbl	16(%rsp), %eax
	movq	%rax, (%rbx)
	movups	24(%rsp), %xmm0
	movups	%xmm0, 8(%rbx)
	addq	$32832, %rsp
	popq	%rbx
	popq	%r12
	popq	%r13
	popq	%r14
	popq	%r15
	retq
.Lfunc_end35:
	.size	"outline_call::write_sized::<=2049>", .Lfunc_end35-"outline_call::write_sized::<=2049>"

	.section	".text.outline_call::map_sized::<=262144>","ax",@progbits
	.p2align	4
	.type	"outline_call::map_sized::<=262144>",@function
"outline_call::map_sized::<=262144>":
	pushq	%rbp
	pushq	%r15
	pushq	%r14
	pushq	%r13
	pushq	%r12
	pushq	%rbx
	movq	%rsp, %r11
	subq	$261120, %r11
.LBB36_1:
	subq	$3072, %rsp
	movq	$0, (%rsp)
	cmpq	%r11, %rsp
	jne	.LBB36_1
	subq	$1112, %rsp
	movq	%r9, %r15
	movq	%r8, %r14
	movq	%rdx, %r12
	movq	%rsi, %r13
	movq	%rdi, %rbx
	movups	(%rcx), %xmm0
	movups	16(%rcx), %xmm1
	movaps	%xmm1, 64(%rsp)
	movaps	%xmm0, 48(%rsp)
	xorps	%xmm0, %xmm0
	movaps	%xmm0, 16(%rsp)
	movq	$0, 32(%rsp)
	leaq	88(%rsp), %rbp
	movl	$262144, %edx
	movq	%rbp, %rdi
	xorl	%esi, %esi
	callq	memset@PLT
	movq	%r15, (%rsp)
	leaq	16(%rsp), %rdi
	leaq	48(%rsp), %rcx
	movq	%r13, %rsi
	movq	%r12, %rdx
	movq	%rbp, %r8
	movq	%r14, %r9
	callq	"outline_call::write_on"
	movzbl	16(%rsp), %eax
	movq	%rax, (%rbx)
	movups	24(%rsp), %xmm0
	movups	%xmm0, 8(%rbx)
	addq	$262232, %rsp
	popq	%rbx
	popq	%r12
	popq	%r13
	popq	%r14
	popq	%r15
	popq	%rbp
	retq
.Lfunc_end36:
	.size	"outline_call::map_sized::<=262144>", .Lfunc_end36-"outline_call::map_sized::<=262144>"

	.section	".text.outline_call::write_sized::<=16385>","ax",@progbits
	.p2align	4
	.type	"outline_call::write_sized::<=16385>",@function
"outline_call::write_sized::<=16385>":
	pushq	%r15
	pushq	%r14
	pushq	%r13
	pushq	%r12
	pushq	%rbx
	movq	%rsp, %r11
	subq	$261120, %r11
.LBB37_1:
	subq	$3072, %rsp
	movq	$0, (%rsp)
	cmpq	%r11, %rsp
	jne	.LBB37_1
	subq	$1088, %rsp
	movq	%r8, %r13
	movq	%rcx, %r12
	movq	%rdx, %r14
	movq	%rsi, %r15
	movq	%rdi, %rbx
	xorps	%xmm0, %xmm0
	movaps	%xmm0, 16(%rsp)
	movq	$0, 32(%rsp)
	leaq	48(%rsp), %rdi
	movl	$65540, %edx
	xorl	%esi, %esi
	callq	memset@PLT
	leaq	65588(%rsp), %rdi
	movl	$131080, %edx
	xorl	%esi, %esi
	callq	memset@PLT
	leaq	196672(%rsp), %rdi
	movl	$65536, %edx
	xorl	%esi, %esi
	callq	memset@PLT
	xorps	%xmm0, %xmm0
	movl	$28, %eax
	.p2align	4
.LBB37_3:
	movups	%xmm0, -64(%rsp,%rax,4)
	movups	%xmm0, -48(%rsp,%rax,4)
	movups	%xmm0, -32(%rsp,%rax,4)
	movups	%xmm0, -16(%rsp,%rax,4)
	movups	%xmm0, (%rsp,%rax,4)
	movups	%xmm0, 16(%rsp,%rax,4)
	movups	%xmm0, 32(%rsp,%rax,4)
	movups	%xmm0, 48(%rsp,%rax,4)
	addq	$32, %rax
	cmpq	$16412, %rax
	jne	.LBB37_3
	movl	$0, 65584(%rsp)
	movl	$14, %eax
	.p2align	4
.LBB37_5:
	xorps	%xmm0, %xmm0
	movups	%xmm0, 65476(%rsp,%rax,8)
	movups	%xmm0, 65492(%rsp,%rax,8)
	movups	%xmm0, 65508(%rsp,%rax,8)
	movups	%xmm0, 65524(%rsp,%rax,8)
	movups	%xmm0, 65540(%rsp,%rax,8)
	movups	%xmm0, 65556(%rsp,%rax,8)
	movups	%xmm0, 65572(%rsp,%rax,8)
	movups	%xmm0, 65588(%rsp,%rax,8)
	addq	$16, %rax
	cmpq	$16398, %rax
	jne	.LBB37_5
	movq	$0, 196660(%rsp)
	movq	%r13, 8(%rsp)
	movq	%r12, (%rsp)
	leaq	16(%rsp), %rdi
	leaq	196668(%rsp), %rcx
	leaq	48(%rsp), %r8
	leaq	65588(%rsp), %r9
	movq	%r15, %rsi
	movq	%r14, %rdx
	callq	"outline_call::write_in"
	movzbl	16(%rsp), %eax
	movq	%rax, (%rbx)
	movups	24(%rsp), %xmm0
	movups	%xmm0, 8(%rbx)
	addq	$262208, %rsp
	popq	%rbx
	popq	%r12
	popq	%r13
	popq	%r14
	popq	%r15
	retq
.Lfunc_end37:
	.size	"outline_call::write_sized::<=16385>", .Lfunc_end37-"outline_call::write_sized::<=16385>"

	.section	".text.overlay_call::list_sized::<=384>","ax",@progbits
	.p2align	4
	.type	"overlay_call::list_sized::<=384>",@function
"overlay_call::list_sized::<=384>":
	pushq	%rbp
	pushq	%r15
	pushq	%r14
	pushq	%r13
	pushq	%r12
	pushq	%rbx
	subq	$2408, %rsp
	movq	%r9, %rbp
	movq	%r8, %r13
	movq	%rcx, 40(%rsp)
	movq	%rdx, %r15
	movq	%rsi, %r12
	movq	%rdi, %rbx
	xorps	%xmm0, %xmm0
	movaps	%xmm0, 80(%rsp)
	movaps	%xmm0, 64(%rsp)
	movaps	%xmm0, 48(%rsp)
	movq	$0, 96(%rsp)
	leaq	104(%rsp), %rdi
	movl	$768, %edx
	xorl	%esi, %esi
	callq	memset@PLT
	leaq	872(%rsp), %r14
	movl	$1536, %edx
	movq	%r14, %rdi
	xorl	%esi, %esi
	callq	memset@PLT
	movq	2480(%rsp), %rax
	movq	%rax, 32(%rsp)
	movaps	2464(%rsp), %xmm0
	movups	%xmm0, 16(%rsp)
	movq	%rbp, 8(%rsp)
	movq	%r13, (%rsp)
	leaq	48(%rsp), %rdi
	leaq	104(%rsp), %rsi
	movq	%r14, %rdx
	movq	%r12, %rcx
	movq	%r15, %r8
	movq	40(%rsp), %r9
	callq	"overlay_call::list_in"
	movzbl	48(%rsp), %eax
	movq	%rax, (%rbx)
	movups	56(%rsp), %xmm0
	movups	72(%rsp), %xmm1
	movups	88(%rsp), %xmm2
	movups	%xmm0, 8(%rbx)
	movups	%xmm1, 24(%rbx)
	movups	%xmm2, 40(%rbx)
	addq	$2408, %rsp
	popq	%rbx
	popq	%r12
	popq	%r13
	popq	%r14
	popq	%r15
	popq	%rbp
	retq
.Lfunc_end38:
	.size	"overlay_call::list_sized::<=384>", .Lfunc_end38-"overlay_call::list_sized::<=384>"

	.section	.rodata.cst16,"aM",@progbits,16
	.p2align	4, 0x0
.LCPI39_0:
	.byte	1
	.byte	1
	.zero	1
	.zero	1
	.zero	1
	.zero	1
	.zero	1
	.zero	1
	.zero	1
	.zero	1
	.zero	1
	.zero	1
	.zero	1
	.zero	1
	.zero	1
	.zero	1
.LCPI39_1:
	.long	20
	.long	0
	.long	0
	.long	0
	.section	.rodata.cst4,"aM",@progbits,4
	.p2align	2, 0x0
.LCPI39_2:
	.long	20
	.section	".text.overlay_call::list_in","ax",@progbits
	.p2align	4
	.type	"overlay_call::list_in",@function
"overlay_call::list_in":
	pushq	%rbp
	pushq	%r15
	pushq	%r14
	pushq	%r13
	pushq	%r12
	pushq	%rbx
	subq	$200, %rsp
	movq	%r8, %r13
	movq	%rdx, %r15
	movq	%rsi, %r12
	movq	%rdi, %rbx
	movq	16(%rcx), %rax
	testq	%rax, %rax
	movq	%r9, 136(%rsp)
	je	.LBB39_3
	movq	8(%rcx), %rdx
	cmpq	$4, %rax
	jae	.LBB39_4
	xorl	%edi, %edi
	xorl	%esi, %esi
	jmp	.LBB39_7
.LBB39_3:
	xorl	%ebp, %ebp
	jmp	.LBB39_10
.LBB39_4:
	movq	%rax, %rsi
	andq	$-4, %rsi
	pxor	%xmm1, %xmm1
	xorl	%edi, %edi
	pxor	%xmm2, %xmm2
	pxor	%xmm0, %xmm0
	.p2align	4
.LBB39_5:
	movzwl	(%rdx,%rdi), %r8d
	movd	%r8d, %xmm3
	movzwl	2(%rdx,%rdi), %r8d
	movd	%r8d, %xmm4
	movdqa	.LCPI39_0(%rip), %xmm5
	pand	%xmm5, %xmm3
	pand	%xmm5, %xmm4
	punpcklbw	%xmm1, %xmm3
	punpcklwd	%xmm1, %xmm3
	punpckldq	%xmm1, %xmm3
	paddq	%xmm3, %xmm2
	punpcklbw	%xmm1, %xmm4
	punpcklwd	%xmm1, %xmm4
	punpckldq	%xmm1, %xmm4
	paddq	%xmm4, %xmm0
	addq	$4, %rdi
	cmpq	%rdi, %rsi
	jne	.LBB39_5
	paddq	%xmm2, %xmm0
	pshufd	$238, %xmm0, %xmm1
	paddq	%xmm0, %xmm1
	movq	%xmm1, %rdi
	jmp	.LBB39_8
.LBB39_7:
	movzbl	(%rdx,%rsi), %r8d
	andl	$1, %r8d
	addq	%r8, %rdi
	incq	%rsi
.LBB39_8:
	cmpq	%rsi, %rax
	jne	.LBB39_7
	shrq	%rdi
	leaq	(%rdi,%rdi,2), %rbp
	cmpq	$256, %rax
	ja	.LBB39_14
.LBB39_10:
	movq	%rcx, %rdi
	movq	%r15, %rsi
	callq	"row_call::list_sized::<=258>"
.LBB39_11:
	testq	%rbp, %rbp
	je	.LBB39_27
	cmpq	$12, %rbp
	jb	.LBB39_13
	leaq	(%r12,%rbp,2), %rax
	leaq	(%r15,%rbp,4), %rcx
	cmpq	%rcx, %r12
	setb	%cl
	cmpq	%rax, %r15
	setb	%al
	testb	%al, %cl
	je	.LBB39_19
.LBB39_13:
	xorl	%eax, %eax
.LBB39_22:
	movq	%rbp, %rdx
	movq	%rax, %rcx
	andq	$3, %rdx
	je	.LBB39_25
	movq	%rax, %rcx
	.p2align	4
.LBB39_24:
	movzwl	(%r15,%rcx,4), %esi
	movw	%si, (%r12,%rcx,2)
	incq	%rcx
	decq	%rdx
	jne	.LBB39_24
.LBB39_25:
	subq	%rbp, %rax
	cmpq	$-4, %rax
	ja	.LBB39_27
	.p2align	4
.LBB39_26:
	movzwl	(%r15,%rcx,4), %eax
	movw	%ax, (%r12,%rcx,2)
	movzwl	4(%r15,%rcx,4), %eax
	movw	%ax, 2(%r12,%rcx,2)
	movzwl	8(%r15,%rcx,4), %eax
	movw	%ax, 4(%r12,%rcx,2)
	movzwl	12(%r15,%rcx,4), %eax
	movw	%ax, 6(%r12,%rcx,2)
	addq	$4, %rcx
	cmpq	%rcx, %rbp
	jne	.LBB39_26
	jmp	.LBB39_27
.LBB39_14:
	movq	%rcx, %rdi
	movq	%r15, %rsi
	cmpq	$2048, %rax
	ja	.LBB39_18
	callq	"row_call::list_sized::<=2050>"
	jmp	.LBB39_11
.LBB39_19:
	movq	%rbp, %rax
	andq	$-8, %rax
	xorl	%ecx, %ecx
	.p2align	4
.LBB39_20:
	movdqu	(%r15,%rcx,4), %xmm0
	movdqu	16(%r15,%rcx,4), %xmm1
	pshuflw	$232, %xmm0, %xmm0
	pshufhw	$232, %xmm0, %xmm0
	pshufd	$232, %xmm0, %xmm0
	pshuflw	$232, %xmm1, %xmm1
	pshufhw	$232, %xmm1, %xmm1
	pshufd	$232, %xmm1, %xmm1
	punpcklqdq	%xmm1, %xmm0
	movdqu	%xmm0, (%r12,%rcx,2)
	addq	$8, %rcx
	cmpq	%rcx, %rax
	jne	.LBB39_20
	cmpq	%rax, %rbp
	jne	.LBB39_22
.LBB39_27:
	movq	16(%r13), %rax
	testq	%rax, %rax
	movq	%rbx, 144(%rsp)
	je	.LBB39_30
	movq	8(%r13), %rcx
	cmpq	$4, %rax
	jae	.LBB39_31
	xorl	%esi, %esi
	xorl	%edx, %edx
	jmp	.LBB39_34
.LBB39_30:
	xorl	%r14d, %r14d
	jmp	.LBB39_37
.LBB39_31:
	movq	%rax, %rdx
	andq	$-4, %rdx
	pxor	%xmm1, %xmm1
	xorl	%esi, %esi
	pxor	%xmm2, %xmm2
	pxor	%xmm0, %xmm0
	.p2align	4
.LBB39_32:
	movzwl	(%rcx,%rsi), %edi
	movd	%edi, %xmm3
	movzwl	2(%rcx,%rsi), %edi
	movd	%edi, %xmm4
	movdqa	.LCPI39_0(%rip), %xmm5
	pand	%xmm5, %xmm3
	pand	%xmm5, %xmm4
	punpcklbw	%xmm1, %xmm3
	punpcklwd	%xmm1, %xmm3
	punpckldq	%xmm1, %xmm3
	paddq	%xmm3, %xmm2
	punpcklbw	%xmm1, %xmm4
	punpcklwd	%xmm1, %xmm4
	punpckldq	%xmm1, %xmm4
	paddq	%xmm4, %xmm0
	addq	$4, %rsi
	cmpq	%rsi, %rdx
	jne	.LBB39_32
	paddq	%xmm2, %xmm0
	pshufd	$238, %xmm0, %xmm1
	paddq	%xmm0, %xmm1
	movq	%xmm1, %rsi
	jmp	.LBB39_35
.LBB39_18:
	callq	"row_call::list_sized::<=16386>"
	jmp	.LBB39_11
.LBB39_34:
	movzbl	(%rcx,%rdx), %edi
	andl	$1, %edi
	addq	%rdi, %rsi
	incq	%rdx
.LBB39_35:
	cmpq	%rdx, %rax
	jne	.LBB39_34
	shrq	%rsi
	leaq	(%rsi,%rsi,2), %r14
	cmpq	$256, %rax
	ja	.LBB39_48
.LBB39_37:
	movq	%r13, %rdi
	movq	%r15, %rsi
	callq	"row_call::list_sized::<=258>"
.LBB39_38:
	movq	280(%rsp), %rsi
	movq	272(%rsp), %rbx
	movq	264(%rsp), %rdx
	movq	256(%rsp), %r13
	leaq	(%r14,%rbp), %rax
	movq	288(%rsp), %rcx
	cmpq	%rcx, %rax
	ja	.LBB39_43
	cmpq	%r13, %rax
	ja	.LBB39_43
	cmpq	%rbx, %rax
	ja	.LBB39_43
	pxor	%xmm0, %xmm0
	movdqa	%xmm0, 80(%rsp)
	movdqa	%xmm0, 64(%rsp)
	movdqa	%xmm0, 48(%rsp)
	movq	%rcx, 32(%rsp)
	movq	%rsi, 24(%rsp)
	movq	%rbx, 16(%rsp)
	movq	%rdx, 8(%rsp)
.LBB39_42:
	movq	%r13, (%rsp)
	leaq	48(%rsp), %rdi
	movq	%r12, %rsi
	movq	%rbp, %rdx
	movq	%r15, %rcx
	movq	%r14, %r8
	movq	136(%rsp), %r9
	callq	"overlay_sweep::sweep"
	movaps	48(%rsp), %xmm0
	movdqa	64(%rsp), %xmm1
	movdqa	80(%rsp), %xmm2
	movdqa	%xmm2, 176(%rsp)
	movdqa	%xmm1, 160(%rsp)
	movdqa	%xmm1, 96(%rsp)
	movdqa	%xmm2, 112(%rsp)
	xorl	%eax, %eax
	jmp	.LBB39_47
.LBB39_43:
	pxor	%xmm0, %xmm0
	movdqa	%xmm0, 48(%rsp)
	movdqa	%xmm0, 64(%rsp)
	movdqa	%xmm0, 80(%rsp)
	leaq	152(%rsp), %rax
	movq	%rax, 24(%rsp)
	leaq	156(%rsp), %rax
	movq	%rax, 8(%rsp)
	movq	$1, 32(%rsp)
	movq	$1, 16(%rsp)
	movq	$1, (%rsp)
	leaq	48(%rsp), %rdi
	leaq	160(%rsp), %r9
	movq	%r12, %rsi
	movq	%rbp, %rdx
	movq	%r15, %rcx
	movq	%r14, %r8
	callq	"overlay_sweep::sweep"
	movq	56(%rsp), %rax
	leaq	(%rax,%rax,2), %rax
	cmpq	%rax, %r13
	jb	.LBB39_46
	movq	72(%rsp), %rax
	leaq	(%rax,%rax,2), %rax
	cmpq	%rax, %rbx
	jb	.LBB39_46
	movq	88(%rsp), %rax
	leaq	(%rax,%rax,2), %rax
	movq	288(%rsp), %rcx
	cmpq	%rax, %rcx
	jae	.LBB39_51
.LBB39_46:
	pxor	%xmm0, %xmm0
	movdqa	%xmm0, 112(%rsp)
	movdqa	%xmm0, 96(%rsp)
	movss	.LCPI39_2(%rip), %xmm0
	movl	$1, %eax
.LBB39_47:
	movq	144(%rsp), %rcx
	movq	%rax, (%rcx)
	movups	%xmm0, 8(%rcx)
	movaps	96(%rsp), %xmm0
	movaps	112(%rsp), %xmm1
	movups	%xmm0, 24(%rcx)
	movups	%xmm1, 40(%rcx)
	addq	$200, %rsp
	popq	%rbx
	popq	%r12
	popq	%r13
	popq	%r14
	popq	%r15
	popq	%rbp
	retq
.LBB39_48:
	movq	%r13, %rdi
	movq	%r15, %rsi
	cmpq	$2048, %rax
	ja	.LBB39_50
	callq	"row_call::list_sized::<=2050>"
	jmp	.LBB39_38
.LBB39_50:
	callq	"row_call::list_sized::<=16386>"
	jmp	.LBB39_38
.LBB39_51:
	pxor	%xmm0, %xmm0
	movdqa	%xmm0, 80(%rsp)
	movdqa	%xmm0, 64(%rsp)
	movdqa	%xmm0, 48(%rsp)
	movq	%rcx, 32(%rsp)
	movq	280(%rsp), %rax
	movq	%rax, 24(%rsp)
	movq	%rbx, 16(%rsp)
	movq	264(%rsp), %rax
	movq	%rax, 8(%rsp)
	jmp	.LBB39_42
.Lfunc_end39:
	.size	"overlay_call::list_in", .Lfunc_end39-"overlay_call::list_in"

	.section	".text.row_call::list_sized::<=258>","ax",@progbits
	.p2align	4
	.type	"row_call::list_sized::<=258>",@function
"row_call::list_sized::<=258>":
	pushq	%rbp
	pushq	%r15
	pushq	%r14
	pushq	%r13
	pushq	%r12
	pushq	%rbx
	subq	$2072, %rsp
	movq	%rsi, %r14
	movq	%rdi, %rbx
	leaq	1556(%rsp), %r15
	movl	$516, %edx
	movq	%r15, %rdi
	xorl	%esi, %esi
	callq	memset@PLT
	leaq	1040(%rsp), %r12
	movl	$516, %edx
	movq	%r12, %rdi
	xorl	%esi, %esi
	callq	memset@PLT
	leaq	524(%rsp), %r13
	movl	$516, %edx
	movq	%r13, %rdi
	xorl	%esi, %esi
	callq	memset@PLT
	leaq	8(%rsp), %rbp
	movl	$516, %edx
	movq	%rbp, %rdi
	xorl	%esi, %esi
	callq	memset@PLT
	movl	16(%rbx), %esi
	shrl	%esi
	incl	%esi
	movq	%r14, (%rsp)
	movq	%rbx, %rdi
	movq	%r15, %rdx
	movq	%r12, %rcx
	movq	%r13, %r8
	movq	%rbp, %r9
	callq	"row_call::list_in"
	addq	$2072, %rsp
	popq	%rbx
	popq	%r12
	popq	%r13
	popq	%r14
	popq	%r15
	popq	%rbp
	retq
.Lfunc_end40:
	.size	"row_call::list_sized::<=258>", .Lfunc_end40-"row_call::list_sized::<=258>"

	.section	.rodata.cst16,"aM",@progbits,16
	.p2align	4, 0x0
.LCPI41_0:
	.long	1
	.long	0
	.long	4294967295
	.long	0
	.section	".text.row_call::list_in","ax",@progbits
	.p2align	4
	.type	"row_call::list_in",@function
"row_call::list_in":
	pushq	%rbp
	pushq	%r15
	pushq	%r14
	pushq	%r12
	pushq	%rbx
	movq	8(%rdi), %rax
	movq	16(%rdi), %r10
	movabsq	$-281474976645120, %r11
	movq	%r11, -24(%rsp)
	movaps	.LCPI41_0(%rip), %xmm0
	movaps	%xmm0, -16(%rsp)
	testq	%r10, %r10
	je	.LBB41_3
	movzwl	%si, %r11d
	xorl	%ebx, %ebx
	movl	%esi, %ebp
	.p2align	4
.LBB41_2:
	movzbl	(%rax,%rbx), %r14d
	cmpl	$3, %r14d
	movl	%ebp, %r15d
	adcw	$-1, %r15w
	movw	%r15w, (%r9,%rbx,2)
	movl	%r11d, %r15d
	movl	%r14d, %r12d
	andl	$1, %r12d
	imulq	%r15, %r12
	movzwl	(%rdx,%r12,2), %r15d
	movw	%r15w, (%r8,%rbx,2)
	incq	%rbx
	movw	%bx, (%rdx,%r12,2)
	addl	-16(%rsp,%r14,4), %r11d
	addw	-24(%rsp,%r14,2), %bp
	cmpq	%rbx, %r10
	jne	.LBB41_2
.LBB41_3:
	testw	%si, %si
	je	.LBB41_14
	movq	48(%rsp), %rax
	movzwl	%si, %r10d
	leal	(%r10,%r10), %esi
	movq	%rsi, %r11
	movzwl	-2(%rdx,%r11,2), %ebx
	decq	%r11
	testw	%bx, %bx
	jne	.LBB41_6
	.p2align	4
.LBB41_8:
	cmpq	$1, %r11
	jbe	.LBB41_9
	movzwl	-2(%rdx,%r11,2), %ebx
	decq	%r11
	testw	%bx, %bx
	je	.LBB41_8
	.p2align	4
.LBB41_6:
	movzwl	%bx, %r14d
	leaq	-1(%r14), %r15
	movzwl	-2(%r9,%r14,2), %r12d
	movzwl	-2(%r8,%r14,2), %ebx
	movw	%r11w, -2(%r9,%r14,2)
	movzwl	(%rcx,%r12,2), %ebp
	movw	%bp, -2(%r8,%r14,2)
	incl	%r15d
	movw	%r15w, (%rcx,%r12,2)
	testw	%bx, %bx
	jne	.LBB41_6
	jmp	.LBB41_8
.LBB41_9:
	movl	(%rdi), %edx
	movl	4(%rdi), %edi
	subl	%r10d, %edx
	subl	%r10d, %edi
	leal	-1(%rdx), %r10d
	xorl	%r11d, %r11d
	xorl	%ebx, %ebx
	jmp	.LBB41_10
	.p2align	4
.LBB41_13:
	incq	%r11
	cmpq	%rsi, %r11
	je	.LBB41_14
.LBB41_10:
	movzwl	(%rcx,%r11,2), %r14d
	testw	%r14w, %r14w
	je	.LBB41_13
	leal	(%rdi,%r11), %ebp
	.p2align	4
.LBB41_12:
	movzwl	%r14w, %r14d
	movzwl	-2(%r8,%r14,2), %r15d
	movzwl	-2(%r9,%r14,2), %r14d
	movzwl	-2(%r9,%r15,2), %r12d
	addl	%r10d, %r12d
	addl	%edx, %r14d
	movl	%ebp, (%rax,%rbx,4)
	movl	%r14d, 4(%rax,%rbx,4)
	movl	%r12d, 8(%rax,%rbx,4)
	addq	$3, %rbx
	movzwl	-2(%r8,%r15,2), %r14d
	testw	%r14w, %r14w
	jne	.LBB41_12
	jmp	.LBB41_13
.LBB41_14:
	popq	%rbx
	popq	%r12
	popq	%r14
	popq	%r15
	popq	%rbp
	retq
.Lfunc_end41:
	.size	"row_call::list_in", .Lfunc_end41-"row_call::list_in"

	.section	".text.row_call::list_sized::<=2050>","ax",@progbits
	.p2align	4
	.type	"row_call::list_sized::<=2050>",@function
"row_call::list_sized::<=2050>":
	pushq	%rbp
	pushq	%r15
	pushq	%r14
	pushq	%r13
	pushq	%r12
	pushq	%rbx
	subq	$3072, %rsp
	movq	$0, (%rsp)
	subq	$3072, %rsp
	movq	$0, (%rsp)
	subq	$3072, %rsp
	movq	$0, (%rsp)
	subq	$3072, %rsp
	movq	$0, (%rsp)
	subq	$3072, %rsp
	movq	$0, (%rsp)
	subq	$1048, %rsp
	movq	%rsi, %r14
	movq	%rdi, %rbx
	leaq	12308(%rsp), %r15
	movl	$4100, %edx
	movq	%r15, %rdi
	xorl	%esi, %esi
	callq	memset@PLT
	leaq	8208(%rsp), %r12
	movl	$4100, %edx
	movq	%r12, %rdi
	xorl	%esi, %esi
	callq	memset@PLT
	leaq	4108(%rsp), %r13
	movl	$4100, %edx
	movq	%r13, %rdi
	xorl	%esi, %esi
	callq	memset@PLT
	leaq	8(%rsp), %rbp
	movl	$4100, %edx
	movq	%rbp, %rdi
	xorl	%esi, %esi
	callq	memset@PLT
	movl	16(%rbx), %esi
	shrl	%esi
	incl	%esi
	movq	%r14, (%rsp)
	movq	%rbx, %rdi
	movq	%r15, %rdx
	movq	%r12, %rcx
	movq	%r13, %r8
	movq	%rbp, %r9
	callq	"row_call::list_in"
	addq	$16408, %rsp
	popq	%rbx
	popq	%r12
	popq	%r13
	popq	%r14
	popq	%r15
	popq	%rbp
	retq
.Lfunc_end42:
	.size	"row_call::list_sized::<=2050>", .Lfunc_end42-"row_call::list_sized::<=2050>"

	.section	".text.row_call::list_sized::<=16386>","ax",@progbits
	.p2align	4
	.type	"row_call::list_sized::<=16386>",@function
"row_call::list_sized::<=16386>":
	pushq	%rbp
	pushq	%r15
	pushq	%r14
	pushq	%r13
	pushq	%r12
	pushq	%rbx
	movq	%rsp, %r11
	subq	$129024, %r11
.LBB43_1:
	subq	$3072, %rsp
	movq	$0, (%rsp)
	cmpq	%r11, %rsp
	jne	.LBB43_1
	subq	$2072, %rsp
	movq	%rsi, %r14
	movq	%rdi, %rbx
	leaq	98324(%rsp), %r15
	movl	$32772, %edx
	movq	%r15, %rdi
	xorl	%esi, %esi
	callq	memset@PLT
	leaq	65552(%rsp), %r12
	movl	$32772, %edx
	movq	%r12, %rdi
	xorl	%esi, %esi
	callq	memset@PLT
	leaq	32780(%rsp), %r13
	movl	$32772, %edx
	movq	%r13, %rdi
	xorl	%esi, %esi
	callq	memset@PLT
	leaq	8(%rsp), %rbp
	movl	$32772, %edx
	movq	%rbp, %rdi
	xorl	%esi, %esi
	callq	memset@PLT
	movl	16(%rbx), %esi
	shrl	%esi
	incl	%esi
	movq	%r14, (%rsp)
	movq	%rbx, %rdi
	movq	%r15, %rdx
	movq	%r12, %rcx
	movq	%r13, %r8
	movq	%rbp, %r9
	callq	"row_call::list_in"
	addq	$131096, %rsp
	popq	%rbx
	popq	%r12
	popq	%r13
	popq	%r14
	popq	%r15
	popq	%rbp
	retq
.Lfunc_end43:
	.size	"row_call::list_sized::<=16386>", .Lfunc_end43-"row_call::list_sized::<=16386>"

	.section	".text.overlay_sweep::sweep","ax",@progbits
	.p2align	4
	.type	"overlay_sweep::sweep",@function
"overlay_sweep::sweep":
	pushq	%rbp
	pushq	%r15
	pushq	%r14
	pushq	%r13
	pushq	%r12
	pushq	%rbx
	movq	%r9, -32(%rsp)
	movq	%rcx, -16(%rsp)
	movq	%rdx, %rax
	movq	%rsi, -24(%rsp)
	movq	%rdi, -40(%rsp)
	movabsq	$-6148914691236517205, %rdi
	mulq	%rdi
	movq	%rdx, %rcx
	andq	$-2, %rcx
	movq	%r8, %rax
	mulq	%rdi
	andq	$-2, %rdx
	movq	%rdx, %r15
	movq	%rcx, -8(%rsp)
	addq	%rcx, %r15
	je	.LBB44_1
	movabsq	$17179869184, %rsi
	xorl	%r12d, %r12d
	xorl	%edi, %edi
	xorl	%r14d, %r14d
	xorl	%ebx, %ebx
	xorl	%r10d, %r10d
	movq	$0, -56(%rsp)
	xorl	%r11d, %r11d
	movq	$0, -64(%rsp)
	movq	$0, -80(%rsp)
	movq	$0, -72(%rsp)
	movq	%r15, -48(%rsp)
	jmp	.LBB44_3
	.p2align	4
.LBB44_19:
	addq	-64(%rsp), %r12
	addq	%rdi, %r12
	incq	%r11
	movq	%r12, -64(%rsp)
.LBB44_20:
	cmpq	%rbp, %r9
	sbbq	$-1, %rbx
	xorl	%eax, %eax
	cmpq	%rbp, %r9
	setbe	%al
	addq	%rax, %r14
	movq	%rdi, %r12
	negq	%r12
	leaq	(%r14,%rbx), %rax
	cmpq	%r15, %rax
	jae	.LBB44_21
.LBB44_3:
	movq	%rdi, %rcx
	movq	%rsi, %rbp
	cmpq	%rbx, -8(%rsp)
	jbe	.LBB44_5
	movq	%rbx, %rdi
	shrq	%rdi
	leaq	(%rdi,%rdi,2), %rdi
	movq	-24(%rsp), %rax
	movswq	(%rax,%rdi,2), %r9
	movl	%ebx, %r13d
	andl	$1, %r13d
	addq	%r13, %rdi
	movswq	2(%rax,%rdi,2), %rdi
	addq	%r13, %rdi
	shlq	$17, %r9
	movabsq	$4294967296, %r13
	addq	%r9, %r13
	movabsq	$562949953290240, %r9
	andq	%r13, %r9
	leaq	(%r9,%rdi), %rbp
	addq	$32768, %rbp
.LBB44_5:
	cmpq	%r14, %rdx
	jbe	.LBB44_6
	movq	%r14, %rdi
	shrq	%rdi
	leaq	(%rdi,%rdi,2), %rdi
	movl	%r14d, %r13d
	andl	$1, %r13d
	leaq	(%rdi,%r13), %r9
	movq	-16(%rsp), %r8
	movl	4(%r8,%r9,4), %eax
	movl	$32768, %r9d
	addl	(%r8,%rdi,4), %r9d
	movslq	%r9d, %r9
	addl	%r13d, %eax
	addl	$32768, %eax
	cltq
	shlq	$17, %r9
	addq	%rax, %r9
	jmp	.LBB44_8
	.p2align	4
.LBB44_6:
	movl	%r14d, %r13d
	andl	$1, %r13d
	movq	%rsi, %r9
.LBB44_8:
	cmpq	%rbp, %r9
	movq	%rbp, %rdi
	cmovbq	%r9, %rdi
	testb	$1, %bl
	jne	.LBB44_9
	testq	%r13, %r13
	je	.LBB44_20
	leaq	(%r11,%r11,2), %rax
	addq	$2, %rax
	cmpq	72(%rsp), %rax
	jae	.LBB44_19
	leaq	(%r11,%r11,2), %rax
	movl	%edi, %r15d
	andl	$131071, %r15d
	addl	$-32769, %r15d
	movq	%rcx, %r13
	shrq	$17, %r13
	addl	$-32768, %r13d
	andl	$131071, %ecx
	addl	$-32768, %ecx
	movq	64(%rsp), %rsi
	movl	%r13d, (%rsi,%rax,4)
	movl	%ecx, 4(%rsi,%rax,4)
	movl	%r15d, 8(%rsi,%rax,4)
	movabsq	$17179869184, %rsi
	movq	-48(%rsp), %r15
	jmp	.LBB44_19
	.p2align	4
.LBB44_9:
	testq	%r13, %r13
	je	.LBB44_13
	leaq	(%r10,%r10,2), %rax
	addq	$2, %rax
	cmpq	88(%rsp), %rax
	jae	.LBB44_12
	leaq	(%r10,%r10,2), %rax
	movl	%edi, %r13d
	andl	$131071, %r13d
	addl	$-32769, %r13d
	movq	%rcx, %r15
	shrq	$17, %r15
	addl	$-32768, %r15d
	andl	$131071, %ecx
	addl	$-32768, %ecx
	movq	80(%rsp), %r8
	movl	%r15d, (%r8,%rax,4)
	movq	-48(%rsp), %r15
	movl	%ecx, 4(%r8,%rax,4)
	movl	%r13d, 8(%r8,%rax,4)
	movabsq	$17179869184, %rsi
.LBB44_12:
	addq	-56(%rsp), %r12
	addq	%rdi, %r12
	incq	%r10
	movq	%r12, -56(%rsp)
	jmp	.LBB44_20
.LBB44_13:
	movq	-80(%rsp), %rax
	leaq	(%rax,%rax,2), %rax
	addq	$2, %rax
	cmpq	56(%rsp), %rax
	jae	.LBB44_15
	movq	-80(%rsp), %rax
	leaq	(%rax,%rax,2), %rax
	movl	%edi, %r15d
	andl	$131071, %r15d
	addl	$-32769, %r15d
	movq	%rcx, %r13
	shrq	$17, %r13
	addl	$-32768, %r13d
	andl	$131071, %ecx
	addl	$-32768, %ecx
	movq	-32(%rsp), %rsi
	movl	%r13d, (%rsi,%rax,4)
	movl	%ecx, 4(%rsi,%rax,4)
	movl	%r15d, 8(%rsi,%rax,4)
	movabsq	$17179869184, %rsi
	movq	-48(%rsp), %r15
.LBB44_15:
	addq	-72(%rsp), %r12
	addq	%rdi, %r12
	incq	-80(%rsp)
	movq	%r12, -72(%rsp)
	jmp	.LBB44_20
.LBB44_1:
	movq	$0, -72(%rsp)
	movq	$0, -80(%rsp)
	movq	$0, -64(%rsp)
	xorl	%r11d, %r11d
	movq	$0, -56(%rsp)
	xorl	%r10d, %r10d
.LBB44_21:
	movq	-40(%rsp), %rax
	movq	-72(%rsp), %rcx
	movq	%rcx, (%rax)
	movq	-80(%rsp), %rcx
	movq	%rcx, 8(%rax)
	movq	-64(%rsp), %rcx
	movq	%rcx, 16(%rax)
	movq	%r11, 24(%rax)
	movq	-56(%rsp), %rcx
	movq	%rcx, 32(%rax)
	movq	%r10, 40(%rax)
	popq	%rbx
	popq	%r12
	popq	%r13
	popq	%r14
	popq	%r15
	popq	%rbp
	retq
.Lfunc_end44:
	.size	"overlay_sweep::sweep", .Lfunc_end44-"overlay_sweep::sweep"

	.section	".text.overlay_call::list_sized::<=3072>","ax",@progbits
	.p2align	4
	.type	"overlay_call::list_sized::<=3072>",@function
"overlay_call::list_sized::<=3072>":
	pushq	%rbp
	pushq	%r15
	pushq	%r14
	pushq	%r13
	pushq	%r12
	pushq	%rbx
	subq	$3072, %rsp
	movq	$0, (%rsp)
	subq	$3072, %rsp
	movq	$0, (%rsp)
	subq	$3072, %rsp
	movq	$0, (%rsp)
	subq	$3072, %rsp
	movq	$0, (%rsp)
	subq	$3072, %rsp
	movq	$0, (%rsp)
	subq	$3072, %rsp
	movq	$0, (%rsp)
	subq	$104, %rsp
	movq	%r9, %rbp
	movq	%r8, %r13
	movq	%rcx, 40(%rsp)
	movq	%rdx, %r15
	movq	%rsi, %r12
	movq	%rdi, %rbx
	xorps	%xmm0, %xmm0
	movaps	%xmm0, 80(%rsp)
	movaps	%xmm0, 64(%rsp)
	movaps	%xmm0, 48(%rsp)
	movq	$0, 96(%rsp)
	leaq	104(%rsp), %rdi
	movl	$6144, %edx
	xorl	%esi, %esi
	callq	memset@PLT
	leaq	6248(%rsp), %r14
	movl	$12288, %edx
	movq	%r14, %rdi
	xorl	%esi, %esi
	callq	memset@PLT
	movq	18608(%rsp), %rax
	movq	%rax, 32(%rsp)
	movaps	18592(%rsp), %xmm0
	movups	%xmm0, 16(%rsp)
	movq	%rbp, 8(%rsp)
	movq	%r13, (%rsp)
	leaq	48(%rsp), %rdi
	leaq	104(%rsp), %rsi
	movq	%r14, %rdx
	movq	%r12, %rcx
	movq	%r15, %r8
	movq	40(%rsp), %r9
	callq	"overlay_call::list_in"
	movzbl	48(%rsp), %eax
	movq	%rax, (%rbx)
	movups	56(%rsp), %xmm0
	movups	72(%rsp), %xmm1
	movups	88(%rsp), %xmm2
	movups	%xmm0, 8(%rbx)
	movups	%xmm1, 24(%rbx)
	movups	%xmm2, 40(%rbx)
	addq	$18536, %rsp
	popq	%rbx
	popq	%r12
	popq	%r13
	popq	%r14
	popq	%r15
	popq	%rbp
	retq
.Lfunc_end45:
	.size	"overlay_call::list_sized::<=3072>", .Lfunc_end45-"overlay_call::list_sized::<=3072>"

	.section	".text.overlay_call::list_sized::<=24576>","ax",@progbits
	.p2align	4
	.type	"overlay_call::list_sized::<=24576>",@function
"overlay_call::list_sized::<=24576>":
	pushq	%rbp
	pushq	%r15
	pushq	%r14
	pushq	%r13
	pushq	%r12
	pushq	%rbx
	movq	%rsp, %r11
	subq	$147456, %r11
.LBB46_1:
	subq	$3072, %rsp
	movq	$0, (%rsp)
	cmpq	%r11, %rsp
	jne	.LBB46_1
	subq	$104, %rsp
	movq	%r9, %rbp
	movq	%r8, %r13
	movq	%rcx, 40(%rsp)
	movq	%rdx, %r15
	movq	%rsi, %r12
	movq	%rdi, %rbx
	xorps	%xmm0, %xmm0
	movaps	%xmm0, 80(%rsp)
	movaps	%xmm0, 64(%rsp)
	movaps	%xmm0, 48(%rsp)
	movq	$0, 96(%rsp)
	leaq	104(%rsp), %rdi
	movl	$49152, %edx
	xorl	%esi, %esi
	callq	memset@PLT
	leaq	49256(%rsp), %r14
	movl	$98304, %edx
	movq	%r14, %rdi
	xorl	%esi, %esi
	callq	memset@PLT
	movq	147632(%rsp), %rax
	movq	%rax, 32(%rsp)
	movaps	147616(%rsp), %xmm0
	movups	%xmm0, 16(%rsp)
	movq	%rbp, 8(%rsp)
	movq	%r13, (%rsp)
	leaq	48(%rsp), %rdi
	leaq	104(%rsp), %rsi
	movq	%r14, %rdx
	movq	%r12, %rcx
	movq	%r15, %r8
	movq	40(%rsp), %r9
	callq	"overlay_call::list_in"
	movzbl	48(%rsp), %eax
	movq	%rax, (%rbx)
	movups	56(%rsp), %xmm0
	movups	72(%rsp), %xmm1
	movups	88(%rsp), %xmm2
	movups	%xmm0, 8(%rbx)
	movups	%xmm1, 24(%rbx)
	movups	%xmm2, 40(%rbx)
	addq	$147560, %rsp
	popq	%rbx
	popq	%r12
	popq	%r13
	popq	%r14
	popq	%r15
	popq	%rbp
	retq
.Lfunc_end46:
	.size	"overlay_call::list_sized::<=24576>", .Lfunc_end46-"overlay_call::list_sized::<=24576>"

	.section	".text.pair_plant::plant","ax",@progbits
	.p2align	4
	.type	"pair_plant::plant",@function
"pair_plant::plant":
	pushq	%rbp
	pushq	%r15
	pushq	%r14
	pushq	%r13
	pushq	%r12
	pushq	%rbx
	movq	%r8, -24(%rsp)
	movl	64(%rsp), %r10d
	movl	56(%rsp), %r12d
	movl	%r10d, %eax
	orl	%r12d, %eax
	je	.LBB47_5
	movq	$-1, %r11
	movl	%r10d, %ebx
	movl	%r12d, %ebp
	movl	%r12d, %eax
	movl	%r10d, %r8d
	.p2align	4
.LBB47_2:
	shrl	$31, %eax
	addl	%ebp, %eax
	sarl	%eax
	shrl	$31, %r8d
	addl	%ebx, %r8d
	sarl	%r8d
	incq	%r11
	movl	%eax, %ebx
	orl	%r8d, %ebx
	movl	%r8d, %ebx
	movl	%eax, %ebp
	jne	.LBB47_2
	movq	%r11, %rbx
	incq	%rbx
	jne	.LBB47_9
.LBB47_5:
	xorl	%ebp, %ebp
.LBB47_6:
	leaq	(%rcx,%rcx,4), %rax
	leaq	(%rcx,%rax,2), %rax
	leaq	(,%rbp,8), %rcx
	addq	%rbp, %rcx
	leaq	(%rax,%rcx,4), %rax
	movl	72(%rsi,%rax,4), %ecx
	leal	1(%rcx), %edx
	movl	%edx, 72(%rsi,%rax,4)
	testl	%ecx, %ecx
	jne	.LBB47_8
	movl	$1, 80(%rsi,%rax,4)
.LBB47_8:
	movq	$1, (%rdi)
	movq	%rbp, 8(%rdi)
	movq	-24(%rsp), %rax
	movq	%rax, 16(%rdi)
	movq	%r9, 24(%rdi)
	jmp	.LBB47_28
.LBB47_9:
	leaq	(%rcx,%rcx,4), %rax
	leaq	(%rcx,%rax,2), %rax
	addq	$19, %rax
	movq	%rax, -8(%rsp)
	imulq	$44, %rcx, %rax
	addq	%rsi, %rax
	movq	%rax, -16(%rsp)
	xorl	%r14d, %r14d
	movq	%r11, %r8
	xorl	%r13d, %r13d
.LBB47_10:
	movl	%r12d, %r15d
	movl	%r10d, %ebp
	decq	%rbx
	je	.LBB47_16
	leaq	1(%r13), %rax
	movl	%r10d, %ebp
	movl	%r12d, %r15d
	cmpq	%rax, %r11
	je	.LBB47_15
	movl	%r12d, %r15d
	movq	%r8, %r12
	andq	$-2, %r12
	movq	%r11, %rax
	subq	%r13, %rax
	movl	%r10d, %ebp
	.p2align	4
.LBB47_13:
	leal	3(%r15), %r10d
	testl	%r15d, %r15d
	cmovnsl	%r15d, %r10d
	movl	%r10d, %r15d
	sarl	$2, %r15d
	leal	3(%rbp), %r10d
	testl	%ebp, %ebp
	cmovnsl	%ebp, %r10d
	movl	%r10d, %ebp
	sarl	$2, %ebp
	addq	$-2, %r12
	jne	.LBB47_13
	testb	$1, %al
	je	.LBB47_16
.LBB47_15:
	movl	%r15d, %eax
	shrl	$31, %eax
	addl	%r15d, %eax
	sarl	%eax
	movl	%ebp, %r10d
	shrl	$31, %r10d
	addl	%ebp, %r10d
	sarl	%r10d
	movl	%eax, %r15d
	movl	%r10d, %ebp
.LBB47_16:
	movl	%r15d, %eax
	andl	$1, %eax
	cmpl	$-1, %r15d
	leaq	4(%rax,%rax,2), %rax
	movl	$1, %r10d
	cmovneq	%rax, %r10
	movl	%ebp, %eax
	andl	$1, %eax
	incq	%rax
	xorl	%r12d, %r12d
	cmpl	$-1, %ebp
	cmovneq	%rax, %r12
	leaq	(%r14,%r14,8), %rax
	leaq	(%r10,%rax,4), %r15
	addq	%r12, %r15
	movl	(%rsi,%r15,4), %ebp
	testq	%rbp, %rbp
	je	.LBB47_20
	decq	%rbp
	leaq	(,%rbp,8), %rax
	addq	%rbp, %rax
	movq	-8(%rsp), %r10
	leaq	(%r10,%rax,4), %rax
	cmpl	$0, (%rsi,%rax,4)
	jne	.LBB47_19
	movl	$1, (%rsi,%rax,4)
.LBB47_19:
	movl	64(%rsp), %r10d
	movl	56(%rsp), %r12d
	jmp	.LBB47_26
	.p2align	4
.LBB47_20:
	leaq	(%r9,%r9,8), %rax
	leaq	36(,%rax,4), %rax
	cmpq	%rdx, %rax
	movl	64(%rsp), %r10d
	movl	56(%rsp), %r12d
	ja	.LBB47_27
	incq	%r9
	.p2align	4
.LBB47_22:
	cmpl	$0, -144(%rsi,%rax,4)
	je	.LBB47_24
	incq	%r9
	addq	$36, %rax
	cmpq	%rdx, %rax
	jbe	.LBB47_22
	jmp	.LBB47_27
.LBB47_24:
	cmpq	%rdx, %rax
	ja	.LBB47_27
	leaq	-1(%r9), %rbp
	movl	%r9d, (%rsi,%r15,4)
	incl	%r14d
	movl	%r14d, -144(%rsi,%rax,4)
	movq	-16(%rsp), %r14
	movl	$1, -68(%r14,%rax,4)
	incq	-24(%rsp)
.LBB47_26:
	incq	%r13
	decq	%r8
	movq	%rbp, %r14
	testq	%rbx, %rbx
	jne	.LBB47_10
	jmp	.LBB47_6
.LBB47_27:
	xorps	%xmm0, %xmm0
	movups	%xmm0, 16(%rdi)
	movups	%xmm0, (%rdi)
.LBB47_28:
	popq	%rbx
	popq	%r12
	popq	%r13
	popq	%r14
	popq	%r15
	popq	%rbp
	retq
.Lfunc_end47:
	.size	"pair_plant::plant", .Lfunc_end47-"pair_plant::plant"

	.section	".text.pair_run::perform","ax",@progbits
	.p2align	4
	.type	"pair_run::perform",@function
"pair_run::perform":
	pushq	%rbp
	pushq	%r15
	pushq	%r14
	pushq	%r13
	pushq	%r12
	pushq	%rbx
	subq	$360, %rsp
	movq	%r9, %r14
	movq	%rdx, 40(%rsp)
	movq	%rsi, %r15
	movq	%rdi, %r13
	movq	416(%rsp), %rax
	movq	(%rax), %rbp
	movq	8(%rax), %r12
	movq	16(%rax), %r11
	movq	24(%rax), %r9
	movq	32(%rax), %rdi
	movq	40(%rax), %r10
	movq	48(%rax), %rbx
	movq	56(%rax), %rdx
	movq	%r12, %rax
	shrq	$32, %rax
	movq	%rax, 8(%rsp)
	movzbl	424(%rsp), %esi
	cmpb	$4, %sil
	movq	%r12, 48(%rsp)
	movq	%rcx, 256(%rsp)
	movq	%rdx, 32(%rsp)
	jne	.LBB48_1
	movq	%rbx, 24(%rsp)
	movq	%r13, 168(%rsp)
	movzbl	-1(%r8,%r11), %r13d
	movq	%rbp, 312(%rsp)
	movq	%r12, 320(%rsp)
	movq	%r11, 16(%rsp)
	movq	%r11, 328(%rsp)
	movq	%r9, 184(%rsp)
	movq	%r9, 336(%rsp)
	movq	%rdi, 80(%rsp)
	movq	%rdi, 344(%rsp)
	movq	%r10, 72(%rsp)
	movq	%r10, 352(%rsp)
	leaq	312(%rsp), %rdx
	movq	%r15, %rdi
	movq	%r14, %rsi
	movl	%r13d, %ecx
	callq	"pair_change::changed"
	movl	%eax, %r12d
	leaq	(%r14,%r14,4), %rax
	leaq	(%r14,%rax,2), %rdi
	leaq	(,%rbp,4), %rcx
	leaq	(%rcx,%rcx,8), %rsi
	leaq	(%rsi,%rdi), %rcx
	movl	72(%r15,%rcx,4), %edx
	movl	%edx, 56(%rsp)
	movl	%r13d, %r8d
	andl	$3, %r8d
	movq	%r8, 248(%rsp)
	xorq	$2, %r8
	leaq	(%r8,%rsi), %rdx
	movl	40(%r15,%rdx,4), %edx
	movq	%rdx, %r9
	leaq	-4(,%rdx,4), %rdx
	leaq	(%rdx,%rdx,8), %r10
	movq	%rdi, 40(%rsp)
	leaq	(%rdi,%r13), %rdx
	addq	$21, %rdx
	movq	%r10, 176(%rsp)
	addq	%r10, %rdx
	movl	(%r15,%rdx,4), %edi
	decl	%edi
	movl	%edi, (%r15,%rdx,4)
	leaq	(%r14,%rax,2), %rax
	addq	$21, %rax
	addq	%rsi, %rax
	addq	%r8, %rax
	movl	%edi, (%r15,%rax,4)
	decl	72(%r15,%rcx,4)
	jne	.LBB48_36
	movl	$0, 80(%r15,%rcx,4)
.LBB48_36:
	movq	%r9, %rcx
	decq	%rcx
	leaq	14(%r13), %r9
	xorq	$1, %r14
	leaq	(%r14,%r14,4), %rax
	leaq	(%r14,%rax,2), %rdi
	movq	40(%rsp), %rdx
	leaq	14(%rdx), %r10
	leaq	14(%r8,%rdx), %rax
	movq	%rax, 88(%rsp)
	movq	%rcx, 64(%rsp)
	movq	%rcx, %r14
	jmp	.LBB48_37
	.p2align	4
.LBB48_40:
	movl	$0, (%r15,%rax,4)
	leaq	(%rdx,%rdx,8), %rax
	movq	88(%rsp), %rcx
	leaq	(%rcx,%rax,4), %rax
.LBB48_41:
	movl	$0, (%r15,%rax,4)
	leaq	(%r14,%r14,8), %rax
	shlq	$4, %rax
	movl	(%r15,%rax), %eax
	leaq	-1(%rax), %r14
	testq	%rax, %rax
	movq	40(%rsp), %rdx
	je	.LBB48_42
.LBB48_37:
	leaq	(,%r14,4), %rax
	leaq	(%rax,%rax,8), %rcx
	leaq	(%r9,%rcx), %rbx
	leaq	(%rbx,%rdx), %rax
	movq	16(%rsp), %r11
	cmpl	%r11d, (%r15,%rax,4)
	jne	.LBB48_42
	addq	%r13, %rcx
	movl	40(%r15,%rcx,4), %edx
	decq	%rdx
	addq	%rdi, %rbx
	cmpl	$0, (%r15,%rbx,4)
	jne	.LBB48_40
	movl	$0, 40(%r15,%rcx,4)
	addq	%r10, %rcx
	movl	$0, (%r15,%rcx,4)
	shlq	$2, %rdx
	leaq	(%rdx,%rdx,8), %rax
	orq	%r8, %rax
	movl	$0, 40(%r15,%rax,4)
	addq	%r10, %rax
	jmp	.LBB48_41
.LBB48_1:
	movb	%sil, (%r8,%r11)
	incq	%r11
	movzbl	%sil, %r8d
	leaq	(%r14,%r14,4), %rcx
	leaq	(,%rbp,4), %rax
	leaq	(%rax,%rax,8), %rsi
	movq	%rcx, 176(%rsp)
	leaq	(%r14,%rcx,2), %r12
	addq	$14, %r12
	leaq	(%rsi,%r8), %rax
	leaq	(%rax,%r12), %rcx
	cmpl	$0, (%r15,%rcx,4)
	movq	%r11, 16(%rsp)
	movq	%r8, 56(%rsp)
	je	.LBB48_7
	movl	40(%r15,%rax,4), %ecx
	decq	%rcx
	movq	%rax, %rsi
	jmp	.LBB48_3
.LBB48_42:
	movq	16(%rsp), %rax
	leal	1(%rax), %r8d
	leaq	(%rsi,%rdx), %rax
	addq	$19, %rax
	cmpl	%r8d, (%r15,%rax,4)
	jne	.LBB48_43
	leaq	19(%rdx), %r9
	leaq	(%r15,%rax,4), %rcx
	addq	$19, %rdi
	movq	8(%rsp), %rax
	movl	%eax, %r10d
	movq	48(%rsp), %rax
	movl	%eax, %r11d
	jmp	.LBB48_45
	.p2align	4
.LBB48_47:
	movl	$0, (%rcx)
	leaq	(,%r14,4), %rax
	leaq	(%rax,%rax,8), %rsi
.LBB48_48:
	movl	%r11d, %eax
	shrl	$31, %eax
	addl	%r11d, %eax
	sarl	%eax
	movl	%r10d, %edx
	shrl	$31, %edx
	addl	%r10d, %edx
	sarl	%edx
	leaq	(%rsi,%r9), %rbx
	leaq	(%r15,%rbx,4), %rcx
	movl	%edx, %r10d
	movl	%eax, %r11d
	movq	%r14, %rbp
	cmpl	%r8d, (%r15,%rbx,4)
	movl	%r12d, %ebx
	jne	.LBB48_49
.LBB48_45:
	leaq	(,%rbp,8), %r13
	addq	%rbp, %r13
	shlq	$4, %r13
	movl	(%r15,%r13), %r14d
	decq	%r14
	addq	%rdi, %rsi
	cmpl	$0, (%r15,%rsi,4)
	jne	.LBB48_47
	addq	%r15, %r13
	movl	%r11d, %eax
	andl	$1, %eax
	cmpl	$-1, %r11d
	leaq	4(%rax,%rax,2), %rax
	movl	$1, %ecx
	cmovneq	%rax, %rcx
	movl	%r10d, %eax
	andl	$1, %eax
	incq	%rax
	xorl	%edx, %edx
	cmpl	$-1, %r10d
	cmovneq	%rax, %rdx
	leaq	(,%r14,4), %rax
	leaq	(%rax,%rax,8), %rsi
	addq	%rcx, %rdx
	addq	%rsi, %rdx
	movl	$0, (%r15,%rdx,4)
	xorps	%xmm0, %xmm0
	movups	%xmm0, 128(%r13)
	movups	%xmm0, 112(%r13)
	movups	%xmm0, 96(%r13)
	movups	%xmm0, 80(%r13)
	movups	%xmm0, 64(%r13)
	movups	%xmm0, 48(%r13)
	movups	%xmm0, 32(%r13)
	movups	%xmm0, 16(%r13)
	movups	%xmm0, (%r13)
	decq	24(%rsp)
	movq	32(%rsp), %rax
	cmpq	%rax, %rbp
	cmovbq	%rbp, %rax
	movq	%rax, 32(%rsp)
	jmp	.LBB48_48
.LBB48_43:
	movl	%r12d, %ebx
.LBB48_49:
	xorl	%r8d, %r8d
	movq	248(%rsp), %rcx
	cmpb	$3, %cl
	sete	%r8b
	addl	8(%rsp), %r8d
	xorl	%ebp, %ebp
	cmpb	$2, %cl
	sete	%bpl
	addl	48(%rsp), %ebp
	xorl	%eax, %eax
	cmpb	$1, %cl
	sete	%al
	sbbl	$0, %ebp
	subl	%eax, %r8d
	movq	16(%rsp), %r12
	movq	72(%rsp), %r9
	cmpq	%r12, %r9
	movl	$65535, %edx
	movq	%r9, %rdi
	cmoveq	%rdx, %rdi
	movq	80(%rsp), %rcx
	cmovneq	%rcx, %rdx
	xorl	%eax, %eax
	cmpl	$1, 56(%rsp)
	sete	%al
	cmoveq	%r9, %rdi
	cmoveq	%rcx, %rdx
	movq	184(%rsp), %r9
	subq	%rax, %r9
	decq	%r12
	shlq	$32, %r8
	orq	%r8, %rbp
	movq	168(%rsp), %r13
	movq	64(%rsp), %r11
	jmp	.LBB48_52
.LBB48_7:
	movq	%rax, 64(%rsp)
	movq	%r14, 88(%rsp)
	movq	%rbx, 24(%rsp)
	movq	%r10, 72(%rsp)
	movq	%rdi, 80(%rsp)
	movq	%r9, 184(%rsp)
	leaq	(%r12,%r8), %rdi
	leaq	(%rsi,%rdi), %rcx
	cmpl	$0, (%r15,%rcx,4)
	movq	%r12, %rax
	je	.LBB48_9
	xorl	%r14d, %r14d
	movq	48(%rsp), %rcx
	movq	8(%rsp), %rdx
	jmp	.LBB48_14
.LBB48_9:
	xorl	%r8d, %r8d
	movzbl	424(%rsp), %ecx
	cmpb	$2, %cl
	sete	%r8b
	cmpb	$1, %cl
	sbbl	$0, %r8d
	xorl	%r9d, %r9d
	cmpb	$1, %cl
	sete	%r9b
	negl	%r8d
	cmpb	$3, %cl
	adcl	$-1, %r9d
	xorl	%r14d, %r14d
	movq	8(%rsp), %r10
	movq	48(%rsp), %r11
	jmp	.LBB48_10
	.p2align	4
.LBB48_13:
	leaq	(,%rbp,8), %rsi
	addq	%rbp, %rsi
	shlq	$4, %rsi
	movl	(%r15,%rsi), %ebp
	incq	%r14
	leaq	-4(,%rbp,4), %rsi
	decq	%rbp
	leaq	(%rsi,%rsi,8), %rsi
	leaq	(%rsi,%rdi), %r10
	cmpl	$0, (%r15,%r10,4)
	movl	%edx, %r10d
	movl	%ecx, %r11d
	jne	.LBB48_14
.LBB48_10:
	leal	(%r9,%r10), %esi
	movl	%r11d, %ecx
	shrl	$31, %ecx
	addl	%r11d, %ecx
	sarl	%ecx
	movl	%r10d, %edx
	shrl	$31, %edx
	addl	%r10d, %edx
	sarl	%edx
	movl	%esi, %ebx
	shrl	$31, %ebx
	addl	%esi, %ebx
	sarl	%ebx
	cmpl	%ebx, %edx
	jne	.LBB48_13
	leal	(%r8,%r11), %esi
	movl	%esi, %ebx
	shrl	$31, %ebx
	addl	%esi, %ebx
	sarl	%ebx
	cmpl	%ebx, %ecx
	jne	.LBB48_13
	leaq	(,%rbp,4), %rcx
	leaq	(%rcx,%rcx,8), %rsi
	movl	%r11d, %ecx
	movl	%r10d, %edx
.LBB48_14:
	movq	%r13, 168(%rsp)
	movq	%rdx, %rdi
	shlq	$32, %rdi
	movl	%ecx, %r8d
	orq	%rdi, %r8
	movq	%rbp, 96(%rsp)
	movq	%r8, 104(%rsp)
	movzbl	424(%rsp), %ebx
	movb	%bl, 112(%rsp)
	movw	$0, 113(%rsp)
	movb	$0, 115(%rsp)
	movq	16(%rsp), %r11
	movl	%r11d, 116(%rsp)
	xorps	%xmm0, %xmm0
	movaps	%xmm0, 128(%rsp)
	movaps	%xmm0, 144(%rsp)
	addq	56(%rsp), %rsi
	leaq	(%rsi,%rax), %rdi
	cmpl	$0, (%r15,%rdi,4)
	je	.LBB48_28
	movl	40(%r15,%rsi,4), %eax
	decq	%rax
	movq	%rax, 136(%rsp)
.LBB48_16:
	movq	24(%rsp), %rax
	movq	%rax, 144(%rsp)
	movq	32(%rsp), %rax
	movq	%rax, 152(%rsp)
	movq	%rax, 208(%rsp)
	movq	136(%rsp), %rax
	movq	%rax, 192(%rsp)
	movq	144(%rsp), %rax
	movq	%rax, 200(%rsp)
.LBB48_17:
	movq	$0, 240(%rsp)
	xorps	%xmm0, %xmm0
	movaps	%xmm0, 128(%rsp)
	movaps	%xmm0, 144(%rsp)
	movq	192(%rsp), %rax
	movq	%rax, 96(%rsp)
	movq	200(%rsp), %rax
	movq	%rax, 104(%rsp)
	movq	208(%rsp), %rax
	movq	%rax, 112(%rsp)
	testq	%r14, %r14
	je	.LBB48_27
	leaq	-1(%r14), %r13
	xorl	%ebx, %ebx
	movq	%r14, %r12
	.p2align	4
.LBB48_19:
	movq	48(%rsp), %rdi
	movl	%edi, %ecx
	movq	8(%rsp), %rax
	decq	%r12
	je	.LBB48_25
	movq	8(%rsp), %rax
	movl	%edi, %ecx
	leaq	-2(%r14), %rdx
	cmpq	%rbx, %rdx
	je	.LBB48_24
	movq	%r13, %rsi
	andq	$-2, %rsi
	movq	%rbx, %rdx
	notq	%rdx
	addq	%r14, %rdx
	movq	8(%rsp), %rax
	movl	%edi, %ecx
	.p2align	4
.LBB48_22:
	leal	3(%rcx), %edi
	testl	%ecx, %ecx
	cmovnsl	%ecx, %edi
	movl	%edi, %ecx
	sarl	$2, %ecx
	leal	3(%rax), %edi
	testl	%eax, %eax
	cmovnsl	%eax, %edi
	movl	%edi, %eax
	sarl	$2, %eax
	addq	$-2, %rsi
	jne	.LBB48_22
	testb	$1, %dl
	je	.LBB48_25
.LBB48_24:
	movl	%ecx, %edx
	shrl	$31, %edx
	addl	%ecx, %edx
	sarl	%edx
	movl	%eax, %esi
	shrl	$31, %esi
	addl	%eax, %esi
	sarl	%esi
	movl	%edx, %ecx
	movl	%esi, %eax
.LBB48_25:
	movl	%ecx, %edx
	andl	$1, %edx
	cmpl	$-1, %ecx
	leaq	4(%rdx,%rdx,2), %rdx
	movl	$1, %esi
	cmovneq	%rdx, %rsi
	movl	%eax, %edx
	andl	$1, %edx
	incq	%rdx
	xorl	%edi, %edi
	cmpl	$-1, %eax
	cmovneq	%rdx, %rdi
	leaq	(,%rbp,8), %rdx
	addq	%rbp, %rdx
	leaq	(%rsi,%rdx,4), %rdx
	addq	%rdi, %rdx
	movl	(%r15,%rdx,4), %ebp
	decq	%rbp
	movq	%rbp, 224(%rsp)
	movl	%ecx, 232(%rsp)
	movl	%eax, 236(%rsp)
	movzbl	424(%rsp), %eax
	movb	%al, 240(%rsp)
	movl	%r11d, 244(%rsp)
	leaq	128(%rsp), %rdi
	leaq	96(%rsp), %r8
	leaq	224(%rsp), %r9
	movq	%r15, %rsi
	movq	40(%rsp), %rdx
	movq	88(%rsp), %rcx
	callq	"pair_lookup::level_down"
	cmpb	$1, 128(%rsp)
	jne	.LBB48_33
	leaq	136(%rsp), %rcx
	movq	16(%rcx), %rax
	movq	%rax, 112(%rsp)
	movups	(%rcx), %xmm0
	movaps	%xmm0, 96(%rsp)
	incq	%rbx
	decq	%r13
	testq	%r12, %r12
	movq	16(%rsp), %r11
	jne	.LBB48_19
.LBB48_27:
	movq	96(%rsp), %rcx
	movq	104(%rsp), %rbx
	movq	112(%rsp), %rax
	movq	%rax, 32(%rsp)
	movq	168(%rsp), %r13
	movq	184(%rsp), %r9
	movq	80(%rsp), %rdi
	movq	72(%rsp), %r10
	movq	88(%rsp), %r14
	movq	64(%rsp), %rsi
.LBB48_3:
	movq	176(%rsp), %rax
	leaq	(%r14,%rax,2), %rbp
	movq	%rcx, 64(%rsp)
	leaq	(,%rcx,4), %rax
	leaq	(%rax,%rax,8), %r12
	leaq	(%r12,%rbp), %rax
	movl	72(%r15,%rax,4), %ecx
	leal	1(%rcx), %edx
	movl	%edx, 72(%r15,%rax,4)
	testl	%ecx, %ecx
	movq	56(%rsp), %rcx
	jne	.LBB48_5
	leal	1(%r11), %edx
	movl	%edx, 80(%r15,%rax,4)
.LBB48_5:
	leaq	(%rsi,%rbp), %r8
	addq	$21, %r8
	movl	(%r15,%r8,4), %edx
	incl	%edx
	movl	%ecx, %esi
	andl	$3, %esi
	xorq	$2, %rsi
	movl	%edx, (%r15,%r8,4)
	movq	%rbp, 40(%rsp)
	addq	%rbp, %rsi
	addq	$21, %rsi
	addq	%r12, %rsi
	movl	%edx, (%r15,%rsi,4)
	cmpl	$1, 72(%r15,%rax,4)
	movq	%rbx, 24(%rsp)
	movq	%r12, 176(%rsp)
	movq	%r14, %rsi
	jne	.LBB48_50
	incq	%r9
	jmp	.LBB48_51
.LBB48_50:
	movl	80(%r15,%rax,4), %eax
	decq	%rax
	cmpq	$65535, %r10
	cmoveq	%rax, %rdi
	cmoveq	%r11, %r10
.LBB48_51:
	movq	%r10, 72(%rsp)
	movq	%rdi, 80(%rsp)
	movzbl	424(%rsp), %edx
	cmpb	$1, %dl
	movq	48(%rsp), %rbp
	adcl	$0, %ebp
	xorl	%r14d, %r14d
	cmpb	$1, %dl
	sete	%r14b
	xorl	%eax, %eax
	cmpb	$2, %dl
	sete	%al
	subl	%eax, %ebp
	cmpb	$3, %dl
	adcl	$-1, %r14d
	addl	8(%rsp), %r14d
	movq	64(%rsp), %r12
	movq	%r12, 264(%rsp)
	movl	%ebp, 272(%rsp)
	movl	%r14d, 276(%rsp)
	movq	%r11, 280(%rsp)
	movq	%r9, 288(%rsp)
	movq	%rdi, 296(%rsp)
	movq	%r10, 304(%rsp)
	leaq	264(%rsp), %rdx
	movq	%r15, %rdi
	movq	%r9, %rbx
	callq	"pair_change::changed"
	movq	%r12, %r11
	movq	16(%rsp), %r12
	movq	%rbx, %r9
	movl	%eax, %ebx
	shlq	$32, %r14
	orq	%r14, %rbp
	movq	80(%rsp), %rdx
	movq	72(%rsp), %rdi
.LBB48_52:
	movq	432(%rsp), %rax
	leaq	(%rax,%rax,2), %rax
	movq	256(%rsp), %r8
	movq	24(%rsp), %r10
	movl	%r10d, (%r8,%rax,4)
	movq	176(%rsp), %rcx
	addq	40(%rsp), %rcx
	movl	72(%r15,%rcx,4), %ecx
	movl	%ecx, 4(%r8,%rax,4)
	movl	%ebx, 8(%r8,%rax,4)
	movq	$0, (%r13)
	movq	%r11, 8(%r13)
	movq	%rbp, 16(%r13)
	movq	%r12, 24(%r13)
	movq	%r9, 32(%r13)
	movq	%rdx, 40(%r13)
	movq	%rdi, 48(%r13)
	movq	%r10, 56(%r13)
	movq	32(%rsp), %rax
	movq	%rax, 64(%r13)
.LBB48_53:
	addq	$360, %rsp
	popq	%rbx
	popq	%r12
	popq	%r13
	popq	%r14
	popq	%r15
	popq	%rbp
	retq
.LBB48_28:
	cmpb	$1, %bl
	movl	%ecx, %r8d
	adcl	$0, %r8d
	xorl	%r9d, %r9d
	cmpb	$1, %bl
	sete	%r9b
	xorl	%r10d, %r10d
	cmpb	$2, %bl
	sete	%r10b
	subl	%r10d, %r8d
	cmpb	$3, %bl
	adcl	$-1, %r9d
	addl	%edx, %r9d
	orl	%r8d, %r9d
	je	.LBB48_29
	orl	%ecx, %edx
	movq	%rbp, %rax
	je	.LBB48_32
	leaq	(,%rbp,8), %rax
	addq	%rbp, %rax
	shlq	$4, %rax
	movl	(%r15,%rax), %eax
	decq	%rax
.LBB48_32:
	movq	%rax, 224(%rsp)
	movq	24(%rsp), %rax
	movq	%rax, 232(%rsp)
	movq	32(%rsp), %rax
	movq	%rax, 240(%rsp)
	leaq	128(%rsp), %rdi
	leaq	224(%rsp), %r8
	leaq	96(%rsp), %r9
	movq	%r15, %rsi
	movq	40(%rsp), %rdx
	movq	88(%rsp), %rcx
	callq	"pair_lookup::level_down"
	movzbl	128(%rsp), %eax
	movups	136(%rsp), %xmm0
	movaps	%xmm0, 192(%rsp)
	movq	152(%rsp), %rcx
	movq	%rcx, 208(%rsp)
	cmpb	$1, %al
	movq	16(%rsp), %r11
	je	.LBB48_17
.LBB48_33:
	movq	432(%rsp), %rcx
	movq	168(%rsp), %rax
	movq	$1, (%rax)
	movq	$6, 8(%rax)
	movq	%rcx, 16(%rax)
	xorps	%xmm0, %xmm0
	movups	%xmm0, 24(%rax)
	movups	%xmm0, 40(%rax)
	movups	%xmm0, 56(%rax)
	jmp	.LBB48_53
.LBB48_29:
	movq	56(%rsp), %rcx
	andl	$3, %ecx
	movl	$1, 40(%r15,%rsi,4)
	movl	%r11d, (%r15,%rdi,4)
	leal	1(%rbp), %edx
	xorq	$2, %rcx
	movl	%edx, 40(%r15,%rcx,4)
	addq	%rax, %rcx
	movl	%r11d, (%r15,%rcx,4)
	jmp	.LBB48_16
.Lfunc_end48:
	.size	"pair_run::perform", .Lfunc_end48-"pair_run::perform"

	.section	".text.pair_lookup::level_down","ax",@progbits
	.p2align	4
	.type	"pair_lookup::level_down",@function
"pair_lookup::level_down":
	pushq	%rbp
	pushq	%r15
	pushq	%r14
	pushq	%r13
	pushq	%r12
	pushq	%rbx
	movq	(%r8), %rbx
	movq	8(%r8), %rax
	movq	16(%r8), %r8
	movq	(%r9), %r10
	movl	8(%r9), %r14d
	movzbl	16(%r9), %r11d
	xorl	%r15d, %r15d
	cmpq	$2, %r11
	sete	%r15b
	xorl	%ebp, %ebp
	cmpq	$1, %r11
	sete	%bpl
	adcl	$0, %r14d
	addl	12(%r9), %ebp
	subl	%r15d, %r14d
	cmpq	$3, %r11
	adcl	$-1, %ebp
	movl	20(%r9), %r9d
	movl	%r14d, %r15d
	andl	$1, %r15d
	cmpl	$-1, %r14d
	leaq	4(%r15,%r15,2), %r14
	movl	$1, %r15d
	cmovneq	%r14, %r15
	movl	%ebp, %r14d
	andl	$1, %r14d
	incq	%r14
	xorl	%r13d, %r13d
	cmpl	$-1, %ebp
	cmovneq	%r14, %r13
	leaq	(%rbx,%rbx,8), %r14
	leaq	(%r15,%r14,4), %r12
	addq	%r13, %r12
	movl	(%rsi,%r12,4), %r14d
	testq	%r14, %r14
	je	.LBB49_1
	leaq	(%rcx,%rcx,4), %rdx
	leaq	(%rcx,%rdx,2), %rdx
	leaq	-4(,%r14,4), %rcx
	decq	%r14
	leaq	(%rcx,%rcx,8), %r15
	leaq	(%rdx,%r15), %rcx
	cmpl	$0, 76(%rsi,%rcx,4)
	jne	.LBB49_8
	leaq	(%rdx,%r15), %rcx
	addq	$19, %rcx
	leal	1(%r9), %ebx
	movl	%ebx, (%rsi,%rcx,4)
.LBB49_8:
	movl	%r11d, %ecx
	andl	$3, %ecx
	orq	%r15, %rcx
	leal	1(%r14), %ebx
	leaq	(%r10,%r10,8), %r15
	leaq	(%r11,%r15,4), %r11
	movl	%ebx, 40(%rsi,%r11,4)
	addq	%rdx, %r11
	addq	$14, %r11
	movl	%r9d, (%rsi,%r11,4)
	incl	%r10d
	xorq	$2, %rcx
	movl	%r10d, 40(%rsi,%rcx,4)
	addq	%rdx, %rcx
	addq	$14, %rcx
	movl	%r9d, (%rsi,%rcx,4)
	movq	$1, (%rdi)
	movq	%r14, 8(%rdi)
	movq	%rax, 16(%rdi)
	movq	%r8, 24(%rdi)
	jmp	.LBB49_11
.LBB49_1:
	leaq	(%r8,%r8,8), %r14
	leaq	36(,%r14,4), %r14
	cmpq	%rdx, %r14
	ja	.LBB49_10
	leaq	1(%r8), %r14
	shlq	$2, %r8
	leaq	(%r8,%r8,8), %r15
	movq	%r14, %r8
	.p2align	4
.LBB49_3:
	cmpl	$0, (%rsi,%r15,4)
	je	.LBB49_9
	incq	%r8
	leaq	36(%r15), %r14
	addq	$72, %r15
	cmpq	%rdx, %r15
	movq	%r14, %r15
	jbe	.LBB49_3
	jmp	.LBB49_10
.LBB49_9:
	leaq	36(%r15), %r14
	cmpq	%rdx, %r14
	jbe	.LBB49_7
.LBB49_10:
	xorps	%xmm0, %xmm0
	movups	%xmm0, 16(%rdi)
	movups	%xmm0, (%rdi)
.LBB49_11:
	popq	%rbx
	popq	%r12
	popq	%r13
	popq	%r14
	popq	%r15
	popq	%rbp
	retq
.LBB49_7:
	leaq	-1(%r8), %r14
	leaq	(%rsi,%r15,4), %r13
	movl	%r8d, (%rsi,%r12,4)
	incl	%ebx
	movl	%ebx, (%rsi,%r15,4)
	leal	1(%r9), %ebx
	leaq	(%rcx,%rcx,4), %rdx
	leaq	(%rcx,%rdx,2), %rdx
	imulq	$44, %rcx, %rcx
	movl	%ebx, 76(%rcx,%r13)
	incq	%rax
	jmp	.LBB49_8
.Lfunc_end49:
	.size	"pair_lookup::level_down", .Lfunc_end49-"pair_lookup::level_down"

	.section	".text.pair_change::changed","ax",@progbits
	.p2align	4
	.type	"pair_change::changed",@function
"pair_change::changed":
	pushq	%rbp
	pushq	%r15
	pushq	%r14
	pushq	%rbx
	movq	(%rdx), %r9
	movl	16(%rdx), %edx
	movl	%ecx, %eax
	andb	$3, %al
	xorb	$2, %al
	movzbl	%al, %eax
	leaq	(,%r9,4), %r8
	leaq	(%r8,%r8,8), %rbx
	orq	%rbx, %rax
	movl	40(%rdi,%rax,4), %r8d
	leaq	-1(%r8), %r11
	leaq	(%r11,%r11,8), %rax
	shlq	$4, %rax
	movl	(%rdi,%rax), %ebp
	testl	%ebp, %ebp
	je	.LBB50_1
	movzbl	%cl, %eax
	leaq	(%rsi,%rsi,4), %rcx
	leaq	(%rsi,%rcx,2), %r10
	leaq	(%rax,%r10), %rbx
	addq	$-22, %rbx
	addq	$10, %rax
	movl	$2, %ecx
	.p2align	4
.LBB50_3:
	movl	%ebp, %r8d
	leaq	(%r8,%r8,8), %r14
	leaq	(%rbx,%r14,4), %r14
	cmpl	%edx, (%rdi,%r14,4)
	jne	.LBB50_4
	decq	%r8
	leaq	(%r8,%r8,8), %r15
	leaq	(%rax,%r15,4), %r14
	movl	(%rdi,%r14,4), %r14d
	decq	%r14
	xorl	%ebp, %ebp
	cmpq	%r9, %r8
	setne	%bpl
	xorl	%r9d, %r9d
	cmpq	%r11, %r14
	setne	%r9b
	addl	%ebp, %ecx
	addl	%r9d, %ecx
	shlq	$4, %r15
	movl	(%rdi,%r15), %ebp
	movq	%r8, %r11
	movq	%r14, %r9
	testl	%ebp, %ebp
	jne	.LBB50_3
	jmp	.LBB50_6
.LBB50_1:
	leaq	(%rsi,%rsi,4), %rax
	leaq	(%rsi,%rax,2), %r10
	movl	$2, %ecx
	jmp	.LBB50_7
.LBB50_4:
	movq	%r9, %r14
	movq	%r11, %r8
.LBB50_6:
	leaq	(,%r14,4), %rax
	leaq	(%rax,%rax,8), %rbx
	incq	%r8
	movq	%r14, %r9
.LBB50_7:
	addq	%rbx, %r10
	incl	%edx
	xorl	%eax, %eax
	cmpl	%edx, 76(%rdi,%r10,4)
	jne	.LBB50_10
	xorq	$1, %rsi
	leaq	(%rsi,%rsi,4), %rdx
	leaq	(%rsi,%rdx,2), %rdx
	addq	%rbx, %rdx
	cmpl	$0, 76(%rdi,%rdx,4)
	jne	.LBB50_10
	leaq	(%r9,%r9,8), %rax
	shlq	$4, %rax
	movl	(%rdi,%rax), %edx
	xorl	%eax, %eax
	cmpq	%rdx, %r8
	setne	%al
.LBB50_10:
	addl	%ecx, %eax
	popq	%rbx
	popq	%r14
	popq	%r15
	popq	%rbp
	retq
.Lfunc_end50:
	.size	"pair_change::changed", .Lfunc_end50-"pair_change::changed"

	.section	.text.undrwyth_chain_of_polygon,"ax",@progbits
	.globl	undrwyth_chain_of_polygon
	.p2align	4
	.type	undrwyth_chain_of_polygon,@function
undrwyth_chain_of_polygon:
	pushq	%rbp
	pushq	%r15
	pushq	%r14
	pushq	%r13
	pushq	%r12
	pushq	%rbx
	subq	$120, %rsp
	movq	%r8, 80(%rsp)
	xorl	%r9d, %r9d
	testq	%rdi, %rdi
	sete	%r11b
	movq	%rdx, 72(%rsp)
	testq	%rdx, %rdx
	sete	%dl
	xorl	%r8d, %r8d
	movl	$14, %eax
	cmpq	$13, %rsi
	jae	.LBB51_1
.LBB51_63:
	xorl	%ecx, %ecx
.LBB51_64:
	xorl	%esi, %esi
	xorl	%ebx, %ebx
.LBB51_65:
	movq	80(%rsp), %rdx
	movl	%eax, (%rdx)
	movl	%r8d, 4(%rdx)
	movl	%ecx, 8(%rdx)
	movl	%esi, 12(%rdx)
	movl	%ebx, 16(%rdx)
	addq	$120, %rsp
	popq	%rbx
	popq	%r12
	popq	%r13
	popq	%r14
	popq	%r15
	popq	%rbp
	retq
.LBB51_1:
	movb	%dl, 8(%rsp)
	movb	%r11b, %r9b
	shll	$12, %r9d
	movzbl	(%rdi,%r9), %r12d
	movzbl	1(%rdi,%r9), %r13d
	movzbl	3(%rdi,%r9), %ebx
	movzbl	4(%rdi,%r9), %r15d
	movzbl	5(%rdi,%r9), %r10d
	movzbl	7(%rdi,%r9), %edx
	movzbl	8(%rdi,%r9), %ebp
	movl	%r13d, %r11d
	xorb	$3, %r11b
	movl	%r10d, %r14d
	xorb	$1, %r14b
	orb	2(%rdi,%r9), %bl
	orb	%r11b, %r14b
	movl	%r15d, %r11d
	orb	%bpl, %r11b
	orb	%bl, %r11b
	orb	%r14b, %r11b
	orb	6(%rdi,%r9), %dl
	orb	%dl, %r11b
	movl	%r12d, %r14d
	xorb	$1, %r14b
	orb	%r11b, %r14b
	sete	%r14b
	jne	.LBB51_3
	movl	9(%rdi,%r9), %r15d
	addq	$-13, %rsi
	testb	$15, %sil
	je	.LBB51_10
	jmp	.LBB51_63
.LBB51_3:
	orb	%r12b, %r10b
	orb	%dl, %r10b
	jne	.LBB51_4
	cmpb	$3, %r15b
	jne	.LBB51_4
	orb	%r13b, %bl
	jne	.LBB51_4
	cmpb	$1, %bpl
	jne	.LBB51_4
	movl	9(%rdi,%r9), %r15d
	bswapl	%r15d
	addq	$-13, %rsi
	testb	$15, %sil
	jne	.LBB51_63
.LBB51_10:
	movq	%rsi, %rdx
	shrq	$4, %rdx
	cmpq	%rdx, %r15
	jne	.LBB51_63
	movl	$17, %eax
	testq	%r15, %r15
	je	.LBB51_63
	movq	%rcx, 24(%rsp)
	movabsq	$9223372036854775807, %r8
	movq	13(%rdi,%r9), %rcx
	movq	%rcx, %r11
	bswapq	%r11
	movabsq	$9218868437227405312, %rdx
	testb	%r14b, %r14b
	cmovneq	%rcx, %r11
	movq	21(%rdi,%r9), %rcx
	movq	%rcx, %r10
	bswapq	%r10
	cmovneq	%rcx, %r10
	movq	%r11, %rcx
	andq	%r8, %rcx
	cmpq	%rdx, %rcx
	cmovaq	%rdx, %r11
	movq	%r10, %rcx
	andq	%r8, %rcx
	cmpq	%rdx, %rcx
	cmovaq	%rdx, %r10
	movabsq	$-4647714815446351872, %r13
	movabsq	$72057594037927936, %rbp
	movq	%r11, %rbx
	andq	%r8, %rbx
	je	.LBB51_13
	leaq	(%rbx,%r13), %rax
	cmpq	%rbp, %rax
	jae	.LBB51_62
	movabsq	$4503599627370495, %rax
	movq	%rbx, %rcx
	andq	%rax, %rcx
	leaq	(%rcx,%rax), %rdx
	incq	%rdx
	shrq	$52, %rbx
	movl	$1075, %ecx
	subq	%rbx, %rcx
	movq	%rdx, %rbx
	shrq	%cl, %rbx
	cmpq	$9830999, %rbx
	ja	.LBB51_62
	imulq	$458129845, %rbx, %rbx
	shrq	$38, %rbx
	imull	$600, %ebx, %eax
	shlq	%cl, %rax
	cmpq	%rdx, %rax
	jne	.LBB51_62
	movl	%ebx, %r12d
	negl	%r12d
	testq	%r11, %r11
	cmovnsl	%ebx, %r12d
	movl	$17, %eax
	jmp	.LBB51_18
.LBB51_4:
	movl	$15, %eax
	jmp	.LBB51_63
.LBB51_13:
	xorl	%r12d, %r12d
.LBB51_18:
	movq	%r10, %r11
	andq	%r8, %r11
	je	.LBB51_19
	leaq	(%r11,%r13), %rax
	cmpq	%rbp, %rax
	jae	.LBB51_62
	movabsq	$4503599627370495, %rax
	movq	%r11, %rcx
	andq	%rax, %rcx
	leaq	(%rcx,%rax), %rdx
	incq	%rdx
	shrq	$52, %r11
	movl	$1075, %ecx
	subq	%r11, %rcx
	movq	%rdx, %r11
	shrq	%cl, %r11
	cmpq	$9830999, %r11
	ja	.LBB51_62
	imulq	$458129845, %r11, %r11
	shrq	$38, %r11
	imull	$600, %r11d, %eax
	shlq	%cl, %rax
	cmpq	%rdx, %rax
	jne	.LBB51_62
	movq	%r8, %rcx
	movb	%r14b, 7(%rsp)
	movl	%r11d, %eax
	negl	%eax
	testq	%r10, %r10
	cmovnsl	%r11d, %eax
	shlq	$32, %rax
	orq	%rax, %r12
	movl	$17, %eax
	jmp	.LBB51_24
.LBB51_19:
	movq	%r8, %rcx
	movb	%r14b, 7(%rsp)
.LBB51_24:
	xorl	%r8d, %r8d
	cmpl	$1, %r15d
	je	.LBB51_63
	xorl	%eax, %eax
	movzbl	8(%rsp), %edx
	movb	%dl, %al
	shll	$12, %eax
	addq	%rax, 72(%rsp)
	movq	%r12, %rax
	shrq	$32, %rax
	movq	%r15, 40(%rsp)
	leaq	-1(%r15), %rbx
	leaq	(%r9,%rdi), %r10
	addq	$41, %r10
	movb	$1, 16(%rsp)
	xorl	%ebp, %ebp
	movq	%r12, 64(%rsp)
	movl	%r12d, %r13d
	movq	%rax, 32(%rsp)
	movl	%eax, %r12d
	movq	%rcx, %r8
	jmp	.LBB51_26
.LBB51_43:
	xorb	%dl, %r11b
	andb	%r11b, 16(%rsp)
	addq	$16, %r10
	movl	%r15d, %r13d
	movl	%ecx, %r12d
	decq	%rbx
	je	.LBB51_44
.LBB51_26:
	movq	-12(%r10), %rax
	movq	-4(%r10), %r11
	movq	%rax, %rdx
	bswapq	%rdx
	cmpb	$0, 7(%rsp)
	cmovneq	%rax, %rdx
	movq	%r11, %rcx
	bswapq	%rcx
	cmovneq	%r11, %rcx
	movq	%rdx, %rax
	andq	%r8, %rax
	movabsq	$9218868437227405312, %r11
	movq	%r11, %r14
	cmpq	%r11, %rax
	ja	.LBB51_28
	movq	%rdx, %r14
.LBB51_28:
	movq	%rcx, %rax
	andq	%r8, %rax
	movabsq	$9218868437227405312, %rdx
	movq	%rdx, %r11
	cmpq	%rdx, %rax
	ja	.LBB51_30
	movq	%rcx, %r11
.LBB51_30:
	movq	%rbp, 8(%rsp)
	movq	%r14, %r15
	andq	%r8, %r15
	je	.LBB51_31
	movabsq	$-4647714815446351872, %rax
	addq	%r15, %rax
	movabsq	$72057594037927936, %rcx
	cmpq	%rcx, %rax
	jae	.LBB51_62
	movq	%r15, %rax
	movabsq	$4503599627370495, %rcx
	andq	%rcx, %rax
	leaq	(%rcx,%rax), %rdx
	incq	%rdx
	shrq	$52, %r15
	movl	$1075, %ecx
	subq	%r15, %rcx
	movq	%rdx, %r15
	shrq	%cl, %r15
	cmpq	$19661399, %r15
	ja	.LBB51_62
	imulq	$458129845, %r15, %rbp
	shrq	$38, %rbp
	imull	$600, %ebp, %eax
	shlq	%cl, %rax
	cmpq	%rdx, %rax
	jne	.LBB51_62
	movl	%ebp, %r15d
	negl	%r15d
	testq	%r14, %r14
	cmovnsl	%ebp, %r15d
	movabsq	$72057594037927936, %rcx
	movq	%r11, %r14
	andq	%r8, %r14
	jne	.LBB51_37
	jmp	.LBB51_41
.LBB51_31:
	xorl	%r15d, %r15d
	movabsq	$72057594037927936, %rcx
	movq	%r11, %r14
	andq	%r8, %r14
	je	.LBB51_41
.LBB51_37:
	movabsq	$-4647714815446351872, %rax
	addq	%r14, %rax
	cmpq	%rcx, %rax
	jae	.LBB51_62
	movq	%r14, %rax
	movabsq	$4503599627370495, %rcx
	andq	%rcx, %rax
	leaq	(%rcx,%rax), %rdx
	incq	%rdx
	shrq	$52, %r14
	movl	$1075, %ecx
	subq	%r14, %rcx
	movq	%rdx, %r14
	shrq	%cl, %r14
	cmpq	$19661399, %r14
	ja	.LBB51_62
	imulq	$458129845, %r14, %r14
	shrq	$38, %r14
	imull	$600, %r14d, %eax
	shlq	%cl, %rax
	cmpq	%rdx, %rax
	jne	.LBB51_62
	movl	%r14d, %eax
	negl	%eax
	testq	%r11, %r11
	cmovnsl	%r14d, %eax
	shlq	$32, %rax
	orq	%rax, %r15
.LBB51_41:
	movq	%r15, %rcx
	shrq	$32, %rcx
	movl	%r12d, %eax
	subl	%ecx, %eax
	sete	%dl
	movl	%r13d, %ebp
	subl	%r15d, %ebp
	sete	%r11b
	movl	%r15d, %r14d
	subl	%r13d, %r14d
	cmovll	%ebp, %r14d
	movl	%ecx, %r13d
	subl	%r12d, %r13d
	cmovll	%eax, %r13d
	movq	8(%rsp), %rax
	addq	%r14, %rax
	movq	%rax, %r14
	addq	%r13, %r14
	movq	%r14, %rbp
	cmpq	$16385, %r14
	movq	24(%rsp), %rax
	jb	.LBB51_43
	movl	$16385, %ebp
	jmp	.LBB51_43
.LBB51_62:
	movl	$0, 48(%rsp)
	movq	$15, 52(%rsp)
	movq	48(%rsp), %rax
	shrq	$32, %rax
	movzbl	%al, %eax
	incl	%eax
	xorl	%r8d, %r8d
	jmp	.LBB51_63
.LBB51_44:
	movq	64(%rsp), %r11
	cmpl	%r11d, %r15d
	sete	%dl
	cmpl	32(%rsp), %ecx
	sete	%r10b
	xorl	%ecx, %ecx
	cmpq	$64, %rsi
	jb	.LBB51_45
	andb	%dl, %r10b
	andb	16(%rsp), %r10b
	je	.LBB51_45
	cmpq	$16384, %r14
	jbe	.LBB51_49
	movl	$16384, %r8d
	movl	$6, %eax
	jmp	.LBB51_64
.LBB51_45:
	xorl	%r8d, %r8d
	xorl	%esi, %esi
	xorl	%ebx, %ebx
	movl	$17, %eax
	jmp	.LBB51_65
.LBB51_49:
	movq	%rax, %rdx
	movl	$18, %eax
	movl	$0, %r8d
	movl	$0, %esi
	movl	$0, %ebx
	cmpq	%rbp, %rdx
	jb	.LBB51_65
	movq	%rbp, 8(%rsp)
	movq	40(%rsp), %r15
	decq	%r15
	leaq	(%r9,%rdi), %rbx
	addq	$41, %rbx
	movq	$0, 24(%rsp)
	movl	%r11d, %edi
	movq	32(%rsp), %rax
	movl	%eax, %esi
	movabsq	$9223372036854775807, %r8
	jmp	.LBB51_51
.LBB51_59:
	movb	%r12b, (%r15,%rbx)
	movq	16(%rsp), %rbx
	movq	40(%rsp), %r15
.LBB51_60:
	addq	%r14, 24(%rsp)
	addq	$16, %rbx
	movl	%ebp, %edi
	movl	%r13d, %esi
	decq	%r15
	movq	64(%rsp), %rdx
	je	.LBB51_61
.LBB51_51:
	movq	-12(%rbx), %rax
	movq	%rax, %r10
	bswapq	%r10
	movzbl	7(%rsp), %r11d
	testb	%r11b, %r11b
	cmovneq	%rax, %r10
	movq	%r10, %rdx
	movabsq	$30744573456182587, %r9
	movl	$0, %ebp
	andq	%r8, %rdx
	je	.LBB51_53
	movq	%r10, %rax
	movabsq	$4503599627370495, %rcx
	andq	%rcx, %rax
	addq	%rcx, %rax
	incq	%rax
	shrq	$52, %rdx
	movb	$51, %cl
	subb	%dl, %cl
	shrq	%cl, %rax
	mulq	%r9
	movq	%rdx, %rax
	movl	%eax, %ebp
	negl	%ebp
	testq	%r10, %r10
	cmovnsl	%eax, %ebp
.LBB51_53:
	movq	-4(%rbx), %rax
	movq	%rax, %r10
	bswapq	%r10
	testb	%r11b, %r11b
	cmovneq	%rax, %r10
	movq	%r10, %rdx
	andq	%r8, %rdx
	je	.LBB51_54
	movq	%r10, %rax
	movabsq	$4503599627370495, %rcx
	andq	%rcx, %rax
	addq	%rcx, %rax
	incq	%rax
	shrq	$52, %rdx
	movb	$51, %cl
	subb	%dl, %cl
	shrq	%cl, %rax
	mulq	%r9
	movq	%rdx, %rax
	movl	%eax, %r13d
	negl	%r13d
	testq	%r10, %r10
	cmovnsl	%eax, %r13d
	jmp	.LBB51_56
.LBB51_54:
	xorl	%r13d, %r13d
.LBB51_56:
	cmpl	%ebp, %edi
	setge	%al
	movl	%esi, %ecx
	subl	%r13d, %ecx
	setge	%dl
	addb	%al, %al
	addb	%dl, %dl
	incb	%dl
	movl	%edi, %r9d
	subl	%ebp, %r9d
	movzbl	%al, %eax
	movzbl	%dl, %r12d
	cmovnel	%eax, %r12d
	movl	%ebp, %eax
	subl	%edi, %eax
	cmovll	%r9d, %eax
	movl	%r13d, %r14d
	subl	%esi, %r14d
	cmovll	%ecx, %r14d
	addq	%rax, %r14
	je	.LBB51_60
	movq	%r15, 40(%rsp)
	movq	%rbx, 16(%rsp)
	movq	72(%rsp), %rax
	movq	24(%rsp), %rcx
	leaq	(%rax,%rcx), %r15
	movq	%r14, %rbx
	decq	%rbx
	je	.LBB51_59
	movzbl	%r12b, %esi
	movq	%r15, %rdi
	movq	%rbx, %rdx
	callq	memset@PLT
	movabsq	$9223372036854775807, %r8
	jmp	.LBB51_59
.LBB51_61:
	xorl	%eax, %eax
	xorl	%r8d, %r8d
	movq	8(%rsp), %rcx
	movl	%edx, %esi
	movq	32(%rsp), %rdx
	movl	%edx, %ebx
	jmp	.LBB51_65
.Lfunc_end51:
	.size	undrwyth_chain_of_polygon, .Lfunc_end51-undrwyth_chain_of_polygon

	.section	.text.undrwyth_convert_line,"ax",@progbits
	.globl	undrwyth_convert_line
	.p2align	4
	.type	undrwyth_convert_line,@function
undrwyth_convert_line:
	pushq	%rbp
	pushq	%r15
	pushq	%r14
	pushq	%r13
	pushq	%r12
	pushq	%rbx
	subq	$40, %rsp
	movq	%rsi, %rax
	xorl	%r12d, %r12d
	testq	%rdi, %rdi
	sete	%r8b
	xorl	%r13d, %r13d
	testq	%rdx, %rdx
	sete	%sil
	cmpq	%rax, %rcx
	jae	.LBB52_2
.LBB52_1:
	xorl	%eax, %eax
.LBB52_29:
	addq	$40, %rsp
	popq	%rbx
	popq	%r12
	popq	%r13
	popq	%r14
	popq	%r15
	popq	%rbp
	retq
.LBB52_2:
	movb	%r8b, %r12b
	shll	$12, %r12d
	leaq	(%rdi,%r12), %rbx
	movb	%sil, %r13b
	shll	$12, %r13d
	leaq	(%rdx,%r13), %r14
	xorps	%xmm0, %xmm0
	movaps	%xmm0, 16(%rsp)
	movq	$0, 32(%rsp)
	cmpq	$2, %rax
	jae	.LBB52_5
	testq	%rax, %rax
	jne	.LBB52_10
	jmp	.LBB52_1
.LBB52_5:
	cmpb	$48, (%rbx)
	jne	.LBB52_10
	cmpb	$49, 1(%rbx)
	jne	.LBB52_10
	movq	%rdx, 8(%rsp)
	movq	%rdi, %rbp
	leaq	16(%rsp), %rdi
	movq	%rbx, %rsi
	movq	%rax, %r15
	movq	%rax, %rdx
	callq	"line_parts::read"
	cmpb	$1, 16(%rsp)
	jne	.LBB52_30
	cmpb	$0, 24(%rsp)
	je	.LBB52_34
	movq	32(%rsp), %rdx
	movq	%rbx, %rdi
	movq	%r15, %rsi
	movq	%r14, %rcx
	callq	"line_convert::convert_frame"
	jmp	.LBB52_29
.LBB52_10:
	cmpq	$4, %rax
	jb	.LBB52_11
	movq	%r14, %rcx
	subq	%rbx, %rcx
	cmpq	$32, %rcx
	jae	.LBB52_14
.LBB52_11:
	xorl	%ecx, %ecx
.LBB52_23:
	movq	%rax, %r8
	movq	%rcx, %rsi
	andq	$3, %r8
	je	.LBB52_26
	movq	%rcx, %rsi
	.p2align	4
.LBB52_25:
	movzbl	(%rbx,%rsi), %r9d
	movb	%r9b, (%r14,%rsi)
	incq	%rsi
	decq	%r8
	jne	.LBB52_25
.LBB52_26:
	subq	%rax, %rcx
	cmpq	$-4, %rcx
	ja	.LBB52_29
	leaq	(%rdx,%r13), %rcx
	addq	$3, %rcx
	leaq	(%r12,%rdi), %rdx
	addq	$3, %rdx
	.p2align	4
.LBB52_28:
	movzbl	-3(%rdx,%rsi), %edi
	movb	%dil, -3(%rcx,%rsi)
	movzbl	-2(%rdx,%rsi), %edi
	movb	%dil, -2(%rcx,%rsi)
	movzbl	-1(%rdx,%rsi), %edi
	movb	%dil, -1(%rcx,%rsi)
	movzbl	(%rdx,%rsi), %edi
	movb	%dil, (%rcx,%rsi)
	addq	$4, %rsi
	cmpq	%rsi, %rax
	jne	.LBB52_28
	jmp	.LBB52_29
.LBB52_14:
	cmpq	$32, %rax
	jae	.LBB52_16
	xorl	%ecx, %ecx
	jmp	.LBB52_20
.LBB52_16:
	movq	%rax, %rcx
	andq	$-32, %rcx
	leaq	(%rdx,%r13), %rsi
	addq	$16, %rsi
	leaq	(%r12,%rdi), %r8
	addq	$16, %r8
	xorl	%r9d, %r9d
	.p2align	4
.LBB52_17:
	movups	-16(%r8,%r9), %xmm0
	movups	(%r8,%r9), %xmm1
	movups	%xmm0, -16(%rsi,%r9)
	movups	%xmm1, (%rsi,%r9)
	addq	$32, %r9
	cmpq	%r9, %rcx
	jne	.LBB52_17
	cmpq	%rcx, %rax
	je	.LBB52_29
	testb	$28, %al
	je	.LBB52_23
.LBB52_20:
	movq	%rcx, %rsi
	movq	%rax, %rcx
	andq	$-4, %rcx
	.p2align	4
.LBB52_21:
	movl	(%rbx,%rsi), %r8d
	movl	%r8d, (%r14,%rsi)
	addq	$4, %rsi
	cmpq	%rsi, %rcx
	jne	.LBB52_21
	cmpq	%rcx, %rax
	je	.LBB52_29
	jmp	.LBB52_23
.LBB52_30:
	movq	%r15, %rax
	cmpq	$4, %r15
	jae	.LBB52_32
	xorl	%esi, %esi
	movq	8(%rsp), %rdx
	jmp	.LBB52_47
.LBB52_32:
	movq	%r14, %rcx
	subq	%rbx, %rcx
	cmpq	$32, %rcx
	movq	8(%rsp), %rdx
	jae	.LBB52_36
	xorl	%esi, %esi
	jmp	.LBB52_47
.LBB52_34:
	movq	%r15, %rax
	cmpq	$4, %r15
	jae	.LBB52_38
	xorl	%esi, %esi
	movq	8(%rsp), %rdx
	jmp	.LBB52_62
.LBB52_36:
	cmpq	$32, %rax
	jae	.LBB52_40
	xorl	%esi, %esi
	jmp	.LBB52_44
.LBB52_38:
	movq	%r14, %rcx
	subq	%rbx, %rcx
	cmpq	$32, %rcx
	movq	8(%rsp), %rdx
	jae	.LBB52_53
	xorl	%esi, %esi
	jmp	.LBB52_62
.LBB52_40:
	movq	%rax, %rsi
	andq	$-32, %rsi
	leaq	(%rdx,%r13), %rdi
	addq	$16, %rdi
	leaq	(%r12,%rbp), %r8
	addq	$16, %r8
	xorl	%r9d, %r9d
.LBB52_41:
	movups	-16(%r8,%r9), %xmm0
	movups	(%r8,%r9), %xmm1
	movups	%xmm0, -16(%rdi,%r9)
	movups	%xmm1, (%rdi,%r9)
	addq	$32, %r9
	cmpq	%r9, %rsi
	jne	.LBB52_41
	cmpq	%rsi, %rax
	je	.LBB52_29
	testb	$28, %al
	je	.LBB52_47
.LBB52_44:
	movq	%rsi, %rdi
	movq	%rax, %rsi
	andq	$-4, %rsi
.LBB52_45:
	movl	(%rbx,%rdi), %r8d
	movl	%r8d, (%r14,%rdi)
	addq	$4, %rdi
	cmpq	%rdi, %rsi
	jne	.LBB52_45
	cmpq	%rsi, %rax
	je	.LBB52_29
.LBB52_47:
	movq	%rax, %r8
	movq	%rsi, %rdi
	andq	$3, %r8
	je	.LBB52_50
	movq	%rsi, %rdi
	.p2align	4
.LBB52_49:
	movzbl	(%rbx,%rdi), %r9d
	movb	%r9b, (%r14,%rdi)
	incq	%rdi
	decq	%r8
	jne	.LBB52_49
.LBB52_50:
	subq	%rax, %rsi
	cmpq	$-4, %rsi
	ja	.LBB52_29
	addq	%r13, %rdx
	addq	$3, %rdx
	leaq	(%r12,%rbp), %rcx
	addq	$3, %rcx
	.p2align	4
.LBB52_52:
	movzbl	-3(%rcx,%rdi), %esi
	movb	%sil, -3(%rdx,%rdi)
	movzbl	-2(%rcx,%rdi), %esi
	movb	%sil, -2(%rdx,%rdi)
	movzbl	-1(%rcx,%rdi), %esi
	movb	%sil, -1(%rdx,%rdi)
	movzbl	(%rcx,%rdi), %esi
	movb	%sil, (%rdx,%rdi)
	addq	$4, %rdi
	cmpq	%rdi, %rax
	jne	.LBB52_52
	jmp	.LBB52_29
.LBB52_53:
	cmpq	$32, %rax
	jae	.LBB52_55
	xorl	%esi, %esi
	jmp	.LBB52_59
.LBB52_55:
	movq	%rax, %rsi
	andq	$-32, %rsi
	leaq	(%rdx,%r13), %rdi
	addq	$16, %rdi
	leaq	(%r12,%rbp), %r8
	addq	$16, %r8
	xorl	%r9d, %r9d
.LBB52_56:
	movups	-16(%r8,%r9), %xmm0
	movups	(%r8,%r9), %xmm1
	movups	%xmm0, -16(%rdi,%r9)
	movups	%xmm1, (%rdi,%r9)
	addq	$32, %r9
	cmpq	%r9, %rsi
	jne	.LBB52_56
	cmpq	%rsi, %rax
	je	.LBB52_29
	testb	$28, %al
	je	.LBB52_62
.LBB52_59:
	movq	%rsi, %rdi
	movq	%rax, %rsi
	andq	$-4, %rsi
.LBB52_60:
	movl	(%rbx,%rdi), %r8d
	movl	%r8d, (%r14,%rdi)
	addq	$4, %rdi
	cmpq	%rdi, %rsi
	jne	.LBB52_60
	cmpq	%rsi, %rax
	je	.LBB52_29
.LBB52_62:
	movq	%rax, %r8
	movq	%rsi, %rdi
	andq	$3, %r8
	je	.LBB52_65
	movq	%rsi, %rdi
.LBB52_64:
	movzbl	(%rbx,%rdi), %r9d
	movb	%r9b, (%r14,%rdi)
	incq	%rdi
	decq	%r8
	jne	.LBB52_64
.LBB52_65:
	subq	%rax, %rsi
	cmpq	$-4, %rsi
	ja	.LBB52_29
	addq	%r13, %rdx
	addq	$3, %rdx
	leaq	(%r12,%rbp), %rcx
	addq	$3, %rcx
.LBB52_67:
	movzbl	-3(%rcx,%rdi), %esi
	movb	%sil, -3(%rdx,%rdi)
	movzbl	-2(%rcx,%rdi), %esi
	movb	%sil, -2(%rdx,%rdi)
	movzbl	-1(%rcx,%rdi), %esi
	movb	%sil, -1(%rdx,%rdi)
	movzbl	(%rcx,%rdi), %esi
	movb	%sil, (%rdx,%rdi)
	addq	$4, %rdi
	cmpq	%rdi, %rax
	jne	.LBB52_67
	jmp	.LBB52_29
.Lfunc_end52:
	.size	undrwyth_convert_line, .Lfunc_end52-undrwyth_convert_line

	.section	.text.undrwyth_convex,"ax",@progbits
	.globl	undrwyth_convex
	.p2align	4
	.type	undrwyth_convex,@function
undrwyth_convex:
	pushq	%rbp
	pushq	%r15
	pushq	%r14
	pushq	%r13
	pushq	%r12
	pushq	%rbx
	subq	$72, %rsp
	xorl	%r9d, %r9d
	testq	%rdx, %rdx
	sete	%r10b
	xorl	%ebp, %ebp
	movl	$1, %eax
	cmpq	$32768, %rcx
	ja	.LBB53_51
	addl	$16384, %edi
	cmpl	$32769, %edi
	setae	%dil
	addl	$16384, %esi
	cmpl	$32769, %esi
	setae	%sil
	movl	$10, %eax
	orb	%dil, %sil
	jne	.LBB53_51
	movb	%r10b, %r9b
	shll	$12, %r9d
	leaq	(%rdx,%r9), %rbx
	cmpq	$16384, %rcx
	ja	.LBB53_20
	testq	%rcx, %rcx
	je	.LBB53_30
	cmpq	$4, %rcx
	jae	.LBB53_8
	xorl	%edx, %edx
	xorl	%eax, %eax
	jmp	.LBB53_17
.LBB53_8:
	cmpq	$32, %rcx
	jae	.LBB53_10
	xorl	%eax, %eax
	xorl	%edx, %edx
	jmp	.LBB53_14
.LBB53_10:
	movl	%ecx, %eax
	andl	$32736, %eax
	addq	%r9, %rdx
	addq	$16, %rdx
	pxor	%xmm0, %xmm0
	xorl	%esi, %esi
	pxor	%xmm1, %xmm1
	.p2align	4
.LBB53_11:
	movdqu	-16(%rdx,%rsi), %xmm2
	pmaxub	%xmm2, %xmm0
	movdqu	(%rdx,%rsi), %xmm2
	pmaxub	%xmm2, %xmm1
	addq	$32, %rsi
	cmpq	%rsi, %rax
	jne	.LBB53_11
	pmaxub	%xmm1, %xmm0
	pshufd	$238, %xmm0, %xmm1
	pmaxub	%xmm0, %xmm1
	pshufd	$85, %xmm1, %xmm0
	pmaxub	%xmm1, %xmm0
	movdqa	%xmm0, %xmm1
	psrld	$16, %xmm1
	pmaxub	%xmm0, %xmm1
	movdqa	%xmm1, %xmm0
	psrlw	$8, %xmm0
	pmaxub	%xmm1, %xmm0
	movd	%xmm0, %edx
	cmpq	%rax, %rcx
	je	.LBB53_19
	testb	$28, %cl
	je	.LBB53_17
.LBB53_14:
	movq	%rax, %rsi
	movl	%ecx, %eax
	andl	$32764, %eax
	movzbl	%dl, %edx
	movd	%edx, %xmm0
	punpcklbw	%xmm0, %xmm0
	pshuflw	$0, %xmm0, %xmm0
	.p2align	4
.LBB53_15:
	movd	(%rbx,%rsi), %xmm1
	pmaxub	%xmm1, %xmm0
	addq	$4, %rsi
	cmpq	%rsi, %rax
	jne	.LBB53_15
	movdqa	%xmm0, %xmm1
	psrld	$16, %xmm1
	pmaxub	%xmm0, %xmm1
	movdqa	%xmm1, %xmm0
	psrlw	$8, %xmm0
	pmaxub	%xmm1, %xmm0
	movd	%xmm0, %edx
	jmp	.LBB53_18
.LBB53_17:
	movzbl	(%rbx,%rax), %esi
	movzbl	%dl, %edx
	cmpb	%dl, %sil
	cmoval	%esi, %edx
	incq	%rax
.LBB53_18:
	cmpq	%rax, %rcx
	jne	.LBB53_17
.LBB53_19:
	cmpb	$4, %dl
	jb	.LBB53_30
.LBB53_20:
	movq	%rcx, %rax
	negq	%rax
	movl	$3, %edx
.LBB53_21:
	cmpb	$3, -3(%rbx,%rdx)
	ja	.LBB53_40
	cmpq	$16387, %rdx
	je	.LBB53_41
	leaq	(%rax,%rdx), %rsi
	cmpq	$2, %rsi
	je	.LBB53_30
	cmpb	$3, -2(%rbx,%rdx)
	ja	.LBB53_44
	cmpq	$1, %rsi
	je	.LBB53_30
	cmpb	$3, -1(%rbx,%rdx)
	ja	.LBB53_45
	movq	%rax, %rsi
	addq	%rdx, %rsi
	je	.LBB53_30
	cmpb	$3, (%rbx,%rdx)
	ja	.LBB53_46
	leaq	(%rax,%rdx), %rsi
	addq	$4, %rsi
	addq	$4, %rdx
	cmpq	$3, %rsi
	jne	.LBB53_21
.LBB53_30:
	movq	$1, 8(%rsp)
	movq	$0, 16(%rsp)
	movq	$-1, 24(%rsp)
	movq	$0, 32(%rsp)
	movq	$0, 40(%rsp)
	movq	$1, 48(%rsp)
	movq	$0, 56(%rsp)
	movq	$-1, 64(%rsp)
	movl	$16384, %eax
	testq	%rcx, %rcx
	movq	%r8, %r14
	je	.LBB53_34
	movl	$16384, %edi
	xorl	%r9d, %r9d
	movl	$16384, %r8d
	movl	$16384, %edx
	movl	$16384, %r15d
	movl	$16384, %esi
	movl	$16384, %r12d
	.p2align	4
.LBB53_32:
	movzbl	(%rbx,%r9), %r10d
	shll	$3, %r10d
	addq	8(%rsp,%r10), %rdi
	addq	40(%rsp,%r10), %r8
	cmpq	%rdx, %rdi
	cmovbq	%rdi, %rdx
	cmpq	%r15, %rdi
	cmovaq	%rdi, %r15
	cmpq	%rsi, %r8
	cmovbq	%r8, %rsi
	cmpq	%r12, %r8
	cmovaq	%r8, %r12
	incq	%r9
	cmpq	%r9, %rcx
	jne	.LBB53_32
	xorq	$16384, %rdi
	xorq	$16384, %r8
	orq	%rdi, %r8
	sete	%dil
	incq	%r12
	jmp	.LBB53_35
.LBB53_34:
	movb	$1, %dil
	movl	$16385, %r12d
	movl	$16384, %esi
	movl	$16384, %r15d
	movl	$16384, %edx
.LBB53_35:
	subq	%rdx, %r15
	incq	%r15
	subq	%rsi, %r12
	subq	%rsi, %rax
	imulq	%r15, %rax
	subq	%rdx, %rax
	addq	$16384, %rax
	movq	%r15, 8(%rsp)
	movq	%r12, 16(%rsp)
	movq	%rax, 24(%rsp)
	movb	%dil, 32(%rsp)
	movl	$0, 33(%rsp)
	movl	$0, 36(%rsp)
	leaq	8(%rsp), %rdx
	movq	%rbx, %rdi
	movq	%rcx, %r13
	movq	%rcx, %rsi
	callq	"room_map::is_room_in"
	testb	%al, %al
	je	.LBB53_39
	addq	%r12, %r15
	addq	%r15, %r15
	leaq	4(%r13), %rdx
	xorl	%eax, %eax
	movl	$0, %ecx
	cmpq	%rdx, %r15
	movq	%r14, %r8
	jb	.LBB53_50
	movq	%r13, %rsi
	movq	%rbx, %rdi
	cmpq	$256, %r13
	ja	.LBB53_42
	callq	"convex_call::in_sized::<=257>"
	movq	%r14, %r8
	movl	%eax, %ecx
	jmp	.LBB53_49
.LBB53_39:
	movl	$12, %eax
	xorl	%edx, %edx
	movq	%r14, %r8
	jmp	.LBB53_52
.LBB53_40:
	movl	$4, %eax
	addq	$-3, %rdx
	jmp	.LBB53_52
.LBB53_41:
	movl	$6, %eax
	addq	$-3, %rdx
	jmp	.LBB53_52
.LBB53_42:
	cmpq	$2048, %rsi
	ja	.LBB53_47
	callq	"convex_call::in_sized::<=2049>"
	jmp	.LBB53_48
.LBB53_44:
	addq	$-2, %rdx
	jmp	.LBB53_46
.LBB53_45:
	decq	%rdx
.LBB53_46:
	movl	$4, %eax
	jmp	.LBB53_52
.LBB53_47:
	callq	"convex_call::in_sized::<=16385>"
.LBB53_48:
	movl	%eax, %ecx
	movq	%r14, %r8
.LBB53_49:
	xorl	%eax, %eax
.LBB53_50:
	movzbl	%cl, %ebp
.LBB53_51:
	xorl	%edx, %edx
.LBB53_52:
	movl	%eax, (%r8)
	movl	%edx, 4(%r8)
	movl	%ebp, 8(%r8)
	addq	$72, %rsp
	popq	%rbx
	popq	%r12
	popq	%r13
	popq	%r14
	popq	%r15
	popq	%rbp
	retq
.Lfunc_end53:
	.size	undrwyth_convex, .Lfunc_end53-undrwyth_convex

	.section	.rodata.cst16,"aM",@progbits,16
	.p2align	4, 0x0
.LCPI54_0:
	.long	1
	.long	0
	.long	4294967295
	.long	0
	.section	.text.undrwyth_hull,"ax",@progbits
	.globl	undrwyth_hull
	.p2align	4
	.type	undrwyth_hull,@function
undrwyth_hull:
	pushq	%rbp
	pushq	%r15
	pushq	%r14
	pushq	%r13
	pushq	%r12
	pushq	%rbx
	subq	$424, %rsp
	movq	480(%rsp), %r13
	xorl	%eax, %eax
	testq	%rdx, %rdx
	sete	%bl
	xorl	%r11d, %r11d
	testq	%r8, %r8
	sete	%bpl
	xorl	%r14d, %r14d
	cmpq	$32768, %rcx
	jbe	.LBB54_2
	xorl	%r15d, %r15d
	xorl	%r10d, %r10d
	jmp	.LBB54_59
.LBB54_2:
	leal	16384(%rdi), %r10d
	cmpl	$32769, %r10d
	setae	%r10b
	leal	16384(%rsi), %r14d
	cmpl	$32769, %r14d
	setae	%r14b
	movl	$9, %r15d
	orb	%r10b, %r14b
	movl	$0, %r14d
	movl	$0, %r10d
	jne	.LBB54_59
	movq	%rsi, 88(%rsp)
	movb	%bl, %al
	shll	$12, %eax
	leaq	(%rdx,%rax), %rsi
	cmpq	$16384, %rcx
	ja	.LBB54_19
	testq	%rcx, %rcx
	je	.LBB54_30
	cmpq	$4, %rcx
	jae	.LBB54_8
	xorl	%r12d, %r12d
	xorl	%r15d, %r15d
	jmp	.LBB54_7
.LBB54_8:
	cmpq	$32, %rcx
	jae	.LBB54_10
	xorl	%r15d, %r15d
	xorl	%r12d, %r12d
	jmp	.LBB54_14
.LBB54_10:
	movl	%ecx, %r15d
	andl	$32736, %r15d
	leaq	(%rax,%rdx), %r10
	addq	$16, %r10
	pxor	%xmm0, %xmm0
	xorl	%ebx, %ebx
	pxor	%xmm1, %xmm1
	.p2align	4
.LBB54_11:
	movdqu	-16(%r10,%rbx), %xmm2
	pmaxub	%xmm2, %xmm0
	movdqu	(%r10,%rbx), %xmm2
	pmaxub	%xmm2, %xmm1
	addq	$32, %rbx
	cmpq	%rbx, %r15
	jne	.LBB54_11
	pmaxub	%xmm1, %xmm0
	pshufd	$238, %xmm0, %xmm1
	pmaxub	%xmm0, %xmm1
	pshufd	$85, %xmm1, %xmm0
	pmaxub	%xmm1, %xmm0
	movdqa	%xmm0, %xmm1
	psrld	$16, %xmm1
	pmaxub	%xmm0, %xmm1
	movdqa	%xmm1, %xmm0
	psrlw	$8, %xmm0
	pmaxub	%xmm1, %xmm0
	movd	%xmm0, %r12d
	cmpq	%r15, %rcx
	je	.LBB54_18
	testb	$28, %cl
	je	.LBB54_7
.LBB54_14:
	movq	%r15, %r10
	movl	%ecx, %r15d
	andl	$32764, %r15d
	movzbl	%r12b, %ebx
	movd	%ebx, %xmm0
	punpcklbw	%xmm0, %xmm0
	pshuflw	$0, %xmm0, %xmm0
	.p2align	4
.LBB54_15:
	movd	(%rsi,%r10), %xmm1
	pmaxub	%xmm1, %xmm0
	addq	$4, %r10
	cmpq	%r10, %r15
	jne	.LBB54_15
	movdqa	%xmm0, %xmm1
	psrld	$16, %xmm1
	pmaxub	%xmm0, %xmm1
	movdqa	%xmm1, %xmm0
	psrlw	$8, %xmm0
	pmaxub	%xmm1, %xmm0
	movd	%xmm0, %r12d
	jmp	.LBB54_17
.LBB54_7:
	movzbl	(%rsi,%r15), %r10d
	movzbl	%r12b, %r12d
	cmpb	%r12b, %r10b
	cmoval	%r10d, %r12d
	incq	%r15
.LBB54_17:
	cmpq	%r15, %rcx
	jne	.LBB54_7
.LBB54_18:
	cmpb	$4, %r12b
	jb	.LBB54_30
.LBB54_19:
	leaq	-3(%rcx), %r13
	leaq	(%rax,%rdx), %r10
	addq	$3, %r10
	leaq	-2(%rcx), %rbx
	leaq	-1(%rcx), %r14
	xorl	%r12d, %r12d
.LBB54_20:
	movl	$3, %r15d
	cmpb	$3, -3(%r10,%r12)
	ja	.LBB54_57
	cmpq	$16384, %r12
	je	.LBB54_22
	cmpq	%r12, %r14
	je	.LBB54_30
	cmpb	$3, -2(%r10,%r12)
	ja	.LBB54_54
	cmpq	%r12, %rbx
	je	.LBB54_30
	cmpb	$3, -1(%r10,%r12)
	ja	.LBB54_55
	cmpq	%r12, %r13
	je	.LBB54_30
	cmpb	$3, (%r10,%r12)
	ja	.LBB54_56
	addq	$4, %r12
	cmpq	%r12, %rcx
	jne	.LBB54_20
.LBB54_30:
	movb	%bpl, %r11b
	shll	$12, %r11d
	addq	%r11, %r8
	pxor	%xmm0, %xmm0
	movdqa	%xmm0, 96(%rsp)
	movq	$0, 112(%rsp)
	movdqa	.LCPI54_0(%rip), %xmm0
	movdqa	%xmm0, 160(%rsp)
	testq	%rcx, %rcx
	je	.LBB54_33
	cmpq	$1, %rcx
	jne	.LBB54_34
	movl	$16384, %eax
	movl	$16384, %r11d
	xorl	%r15d, %r15d
	movl	$16384, %edx
	xorl	%r14d, %r14d
	jmp	.LBB54_37
.LBB54_33:
	movq	88(%rsp), %r10
	movq	%rdi, %r11
	movl	$16384, %edx
	xorl	%r15d, %r15d
	movl	$16384, %eax
	movq	480(%rsp), %r13
	xorl	%r14d, %r14d
	jmp	.LBB54_44
.LBB54_34:
	movl	%ecx, %r12d
	andl	$65534, %r12d
	leaq	(%rax,%rdx), %r13
	incq	%r13
	movl	$16384, %eax
	movl	$16384, %r11d
	xorl	%r15d, %r15d
	movl	$16384, %edx
	.p2align	4
.LBB54_35:
	movzbl	-1(%r13,%r15), %r10d
	addl	160(%rsp,%r10,4), %r11d
	cmpq	%rax, %r11
	cmovbq	%r11, %rax
	cmpq	%rdx, %r11
	cmovaq	%r11, %rdx
	movzbl	(%r13,%r15), %r10d
	addl	160(%rsp,%r10,4), %r11d
	cmpq	%rax, %r11
	cmovbq	%r11, %rax
	cmpq	%rdx, %r11
	cmovaq	%r11, %rdx
	addq	$2, %r15
	cmpq	%r15, %r12
	jne	.LBB54_35
	testb	$1, %cl
	movl	$0, %r14d
	je	.LBB54_38
.LBB54_37:
	movzbl	(%rsi,%r15), %r10d
	addl	160(%rsp,%r10,4), %r11d
	cmpq	%rax, %r11
	cmovbq	%r11, %rax
	cmpq	%rdx, %r11
	cmovaq	%r11, %rdx
.LBB54_38:
	movq	%rdx, %r15
	subq	%rax, %r15
	cmpq	%rcx, %r15
	movq	480(%rsp), %r13
	jne	.LBB54_42
	cmpq	$3, %r9
	ja	.LBB54_41
	xorl	%r10d, %r10d
	movl	$7, %r15d
	jmp	.LBB54_59
.LBB54_42:
	cmpq	$31, %rcx
	ja	.LBB54_45
	movq	88(%rsp), %r10
	movq	%rdi, %r11
.LBB54_44:
	pxor	%xmm0, %xmm0
	movdqa	%xmm0, 128(%rsp)
	movq	$0, 144(%rsp)
	pcmpeqd	%xmm1, %xmm1
	movdqa	%xmm1, 160(%rsp)
	movdqa	%xmm1, 176(%rsp)
	movdqa	%xmm1, 192(%rsp)
	movdqa	%xmm1, 208(%rsp)
	movdqa	%xmm1, 352(%rsp)
	movdqa	%xmm1, 368(%rsp)
	movdqa	%xmm1, 384(%rsp)
	movdqa	%xmm1, 400(%rsp)
	movdqa	%xmm0, 288(%rsp)
	movdqa	%xmm0, 304(%rsp)
	movdqa	%xmm0, 320(%rsp)
	movdqa	%xmm0, 336(%rsp)
	movdqa	%xmm0, 224(%rsp)
	movdqa	%xmm0, 240(%rsp)
	movdqa	%xmm0, 256(%rsp)
	movdqa	%xmm0, 272(%rsp)
	incq	%r15
	movq	%r9, 80(%rsp)
	movq	%r8, 72(%rsp)
	leaq	224(%rsp), %rdi
	movq	%rdi, 56(%rsp)
	leaq	288(%rsp), %rdi
	movq	%rdi, 40(%rsp)
	movq	%r15, 32(%rsp)
	leaq	352(%rsp), %rdi
	movq	%rdi, 24(%rsp)
	movq	%r15, 16(%rsp)
	leaq	160(%rsp), %rdi
	movq	%rdi, 8(%rsp)
	movq	%rdx, (%rsp)
	movq	$32, 64(%rsp)
	movq	$32, 48(%rsp)
	leaq	128(%rsp), %rdi
	movq	%rcx, %rdx
	movl	%r11d, %ecx
	movl	%r10d, %r8d
	movq	%rax, %r9
	callq	"hull_call::list_in"
	movzbl	128(%rsp), %eax
	movdqu	136(%rsp), %xmm0
	movq	%xmm0, %r15
	testb	%al, %al
	jne	.LBB54_53
	jmp	.LBB54_52
.LBB54_41:
	addl	%edi, %eax
	addl	$-16384, %eax
	movl	%eax, (%r8)
	movq	88(%rsp), %rax
	movl	%eax, 4(%r8)
	movzwl	%dx, %ecx
	leal	-16384(%rcx,%rdi), %ecx
	movl	%ecx, 8(%r8)
	movl	%eax, 12(%r8)
	movl	$2, %r15d
	jmp	.LBB54_52
.LBB54_45:
	cmpq	$255, %r15
	ja	.LBB54_47
	movq	%r9, 16(%rsp)
	movq	%r8, 8(%rsp)
	movq	%rdx, (%rsp)
	leaq	96(%rsp), %rdx
	movq	%rdi, %r9
	movq	%rdx, %rdi
	movq	%rcx, %rdx
	movl	%r9d, %ecx
	movq	88(%rsp), %r8
	movq	%rax, %r9
	callq	"hull_call::list_sized::<=256>"
	jmp	.LBB54_50
.LBB54_22:
	movl	$16384, %r12d
	movl	$5, %r15d
	jmp	.LBB54_57
.LBB54_54:
	incq	%r12
	jmp	.LBB54_57
.LBB54_55:
	addq	$2, %r12
	jmp	.LBB54_57
.LBB54_56:
	addq	$3, %r12
.LBB54_57:
	movq	480(%rsp), %r13
	xorl	%r14d, %r14d
.LBB54_58:
	movl	%r12d, %r10d
	jmp	.LBB54_59
.LBB54_47:
	movq	88(%rsp), %r10
	movq	%rdi, %r11
	cmpq	$2047, %r15
	ja	.LBB54_49
	movq	%r9, 16(%rsp)
	movq	%r8, 8(%rsp)
	movq	%rdx, (%rsp)
	leaq	96(%rsp), %rdi
	movq	%rcx, %rdx
	movl	%r11d, %ecx
	movl	%r10d, %r8d
	movq	%rax, %r9
	callq	"hull_call::list_sized::<=2048>"
	jmp	.LBB54_50
.LBB54_49:
	movq	%r9, 16(%rsp)
	movq	%r8, 8(%rsp)
	movq	%rdx, (%rsp)
	leaq	96(%rsp), %rdi
	movq	%rcx, %rdx
	movl	%r11d, %ecx
	movl	%r10d, %r8d
	movq	%rax, %r9
	callq	"hull_call::list_sized::<=16385>"
.LBB54_50:
	movzbl	96(%rsp), %eax
	movdqu	104(%rsp), %xmm0
	movq	%xmm0, %r15
	testb	%al, %al
	je	.LBB54_52
.LBB54_53:
	pshufd	$238, %xmm0, %xmm0
	movq	%xmm0, %r12
	movzbl	%r15b, %eax
	movl	$3669895, %ecx
	btl	%eax, %ecx
	movl	$0, %r10d
	jae	.LBB54_58
.LBB54_59:
	movzbl	%r15b, %eax
	incl	%eax
.LBB54_60:
	movl	%eax, (%r13)
	movl	%r10d, 4(%r13)
	movl	%r14d, 8(%r13)
	addq	$424, %rsp
	popq	%rbx
	popq	%r12
	popq	%r13
	popq	%r14
	popq	%r15
	popq	%rbp
	retq
.LBB54_52:
	xorl	%eax, %eax
	xorl	%r10d, %r10d
	movl	%r15d, %r14d
	jmp	.LBB54_60
.Lfunc_end54:
	.size	undrwyth_hull, .Lfunc_end54-undrwyth_hull

	.section	.text.undrwyth_line,"ax",@progbits
	.globl	undrwyth_line
	.p2align	4
	.type	undrwyth_line,@function
undrwyth_line:
	xorl	%eax, %eax
	testq	%rdi, %rdi
	sete	%al
	shll	$12, %eax
	addq	%rax, %rdi
	xorl	%eax, %eax
	testq	%rdx, %rdx
	sete	%al
	shll	$12, %eax
	addq	%rax, %rdx
	jmp	"line_reply::reply"
.Lfunc_end55:
	.size	undrwyth_line, .Lfunc_end55-undrwyth_line

	.section	.text.undrwyth_orthogonal_hull,"ax",@progbits
	.globl	undrwyth_orthogonal_hull
	.p2align	4
	.type	undrwyth_orthogonal_hull,@function
undrwyth_orthogonal_hull:
	pushq	%rbp
	pushq	%r15
	pushq	%r14
	pushq	%r13
	pushq	%r12
	pushq	%rbx
	subq	$88, %rsp
	movq	152(%rsp), %rbx
	xorl	%eax, %eax
	testq	%rdx, %rdx
	sete	%r11b
	xorl	%r14d, %r14d
	testq	%r9, %r9
	sete	%bpl
	xorps	%xmm0, %xmm0
	movaps	%xmm0, (%rsp)
	movq	$0, 16(%rsp)
	cmpq	$32768, %rcx
	jbe	.LBB56_2
	xorl	%r10d, %r10d
	jmp	.LBB56_4
.LBB56_2:
	leal	16384(%rdi), %r10d
	cmpl	$32769, %r10d
	setae	%r15b
	leal	16384(%rsi), %r10d
	cmpl	$32769, %r10d
	setae	%r12b
	movb	$9, %r10b
	orb	%r15b, %r12b
	jne	.LBB56_4
	leal	-1(%r8), %r15d
	movb	$21, %r10b
	cmpl	$16384, %r15d
	jae	.LBB56_4
	movq	%r8, 48(%rsp)
	movq	%r9, 40(%rsp)
	movb	%r11b, %al
	shll	$12, %eax
	addq	%rax, %rdx
	movq	%rsp, %rax
	movq	%rdi, %r8
	movq	%rax, %rdi
	movq	%rsi, %rax
	movq	%r8, %r12
	movl	%r8d, %esi
	movq	%rdx, %r9
	movq	%rax, %rdx
	movq	%rax, 32(%rsp)
	movq	%rcx, %r8
	movq	%r9, %r13
	movq	%r9, %rcx
	movq	%r8, %r15
	callq	"room_judge::judge"
	cmpb	$0, (%rsp)
	je	.LBB56_10
	movzbl	8(%rsp), %r10d
	movq	16(%rsp), %rcx
	jmp	.LBB56_5
.LBB56_4:
	xorl	%ecx, %ecx
.LBB56_5:
	movzbl	%r10b, %eax
	xorl	%esi, %esi
	movl	$3669895, %edx
	btl	%eax, %edx
	jb	.LBB56_7
	movl	%ecx, %esi
.LBB56_7:
	incl	%eax
	xorl	%r10d, %r10d
	xorl	%ecx, %ecx
	xorl	%edi, %edi
	xorl	%edx, %edx
.LBB56_14:
	movl	%eax, (%rbx)
	movl	%esi, 4(%rbx)
	movl	%r10d, 8(%rbx)
	movl	%ecx, 12(%rbx)
	movl	%edi, 16(%rbx)
	movl	%edx, 20(%rbx)
	addq	$88, %rsp
	popq	%rbx
	popq	%r12
	popq	%r13
	popq	%r14
	popq	%r15
	popq	%rbp
	retq
.LBB56_10:
	movq	144(%rsp), %rcx
	movb	%bpl, %r14b
	shll	$12, %r14d
	movq	40(%rsp), %rdx
	addq	%r14, %rdx
	movl	48(%rsp), %esi
	movl	%r12d, 56(%rsp)
	movq	32(%rsp), %rax
	movl	%eax, 60(%rsp)
	movq	%r13, 64(%rsp)
	movq	%r15, 72(%rsp)
	movq	%rsi, 80(%rsp)
	xorps	%xmm0, %xmm0
	movaps	%xmm0, 16(%rsp)
	movaps	%xmm0, (%rsp)
	movq	%rsp, %rdi
	leaq	56(%rsp), %rsi
	cmpq	$256, %r15
	ja	.LBB56_15
	callq	"orthogonal_call::outline_sized::<=258>"
	jmp	.LBB56_12
.LBB56_15:
	cmpq	$2048, %r15
	ja	.LBB56_17
	callq	"orthogonal_call::outline_sized::<=2050>"
	jmp	.LBB56_12
.LBB56_17:
	callq	"orthogonal_call::outline_sized::<=16386>"
.LBB56_12:
	movq	8(%rsp), %r10
	movq	16(%rsp), %rcx
	movq	24(%rsp), %rdx
	cmpb	$0, (%rsp)
	jne	.LBB56_5
	movq	%rcx, %rdi
	shrq	$32, %rdi
	xorl	%eax, %eax
	xorl	%esi, %esi
	jmp	.LBB56_14
.Lfunc_end56:
	.size	undrwyth_orthogonal_hull, .Lfunc_end56-undrwyth_orthogonal_hull

	.section	.text.undrwyth_outline,"ax",@progbits
	.globl	undrwyth_outline
	.p2align	4
	.type	undrwyth_outline,@function
undrwyth_outline:
	pushq	%rbp
	pushq	%r15
	pushq	%r14
	pushq	%r13
	pushq	%r12
	pushq	%rbx
	subq	$120, %rsp
	movq	176(%rsp), %rbx
	xorl	%r11d, %r11d
	testq	%rdx, %rdx
	sete	%bpl
	xorl	%eax, %eax
	testq	%r8, %r8
	sete	%r10b
	xorl	%r14d, %r14d
	cmpq	$32768, %rcx
	jbe	.LBB57_2
	xorl	%edi, %edi
	xorl	%esi, %esi
	jmp	.LBB57_51
.LBB57_2:
	addl	$16384, %edi
	cmpl	$32769, %edi
	setae	%r15b
	addl	$16384, %esi
	cmpl	$32769, %esi
	setae	%sil
	movl	$9, %edi
	orb	%r15b, %sil
	movl	$0, %esi
	jne	.LBB57_51
	movb	%bpl, %r11b
	shll	$12, %r11d
	leaq	(%rdx,%r11), %rsi
	cmpq	$16384, %rcx
	ja	.LBB57_20
	testq	%rcx, %rcx
	je	.LBB57_5
	cmpq	$4, %rcx
	jae	.LBB57_9
	xorl	%r15d, %r15d
	xorl	%edi, %edi
	jmp	.LBB57_8
.LBB57_5:
	xorl	%edi, %edi
	jmp	.LBB57_45
.LBB57_9:
	cmpq	$32, %rcx
	jae	.LBB57_11
	xorl	%edi, %edi
	xorl	%r15d, %r15d
	jmp	.LBB57_15
.LBB57_11:
	movl	%ecx, %edi
	andl	$32736, %edi
	leaq	(%r11,%rdx), %r15
	addq	$16, %r15
	pxor	%xmm0, %xmm0
	xorl	%r12d, %r12d
	pxor	%xmm1, %xmm1
	.p2align	4
.LBB57_12:
	movdqu	-16(%r15,%r12), %xmm2
	pmaxub	%xmm2, %xmm0
	movdqu	(%r15,%r12), %xmm2
	pmaxub	%xmm2, %xmm1
	addq	$32, %r12
	cmpq	%r12, %rdi
	jne	.LBB57_12
	pmaxub	%xmm1, %xmm0
	pshufd	$238, %xmm0, %xmm1
	pmaxub	%xmm0, %xmm1
	pshufd	$85, %xmm1, %xmm0
	pmaxub	%xmm1, %xmm0
	movdqa	%xmm0, %xmm1
	psrld	$16, %xmm1
	pmaxub	%xmm0, %xmm1
	movdqa	%xmm1, %xmm0
	psrlw	$8, %xmm0
	pmaxub	%xmm1, %xmm0
	movd	%xmm0, %r15d
	cmpq	%rdi, %rcx
	je	.LBB57_19
	testb	$28, %cl
	je	.LBB57_8
.LBB57_15:
	movq	%rdi, %r12
	movl	%ecx, %edi
	andl	$32764, %edi
	movzbl	%r15b, %ebp
	movd	%ebp, %xmm0
	punpcklbw	%xmm0, %xmm0
	pshuflw	$0, %xmm0, %xmm0
	.p2align	4
.LBB57_16:
	movd	(%rsi,%r12), %xmm1
	pmaxub	%xmm1, %xmm0
	addq	$4, %r12
	cmpq	%r12, %rdi
	jne	.LBB57_16
	movdqa	%xmm0, %xmm1
	psrld	$16, %xmm1
	pmaxub	%xmm0, %xmm1
	movdqa	%xmm1, %xmm0
	psrlw	$8, %xmm0
	pmaxub	%xmm1, %xmm0
	movd	%xmm0, %r15d
	jmp	.LBB57_18
.LBB57_8:
	movzbl	(%rsi,%rdi), %ebp
	movzbl	%r15b, %r15d
	cmpb	%r15b, %bpl
	cmoval	%ebp, %r15d
	incq	%rdi
.LBB57_18:
	cmpq	%rdi, %rcx
	jne	.LBB57_8
.LBB57_19:
	cmpb	$4, %r15b
	jb	.LBB57_31
.LBB57_20:
	leaq	-3(%rcx), %r15
	addq	%rdx, %r11
	addq	$3, %r11
	leaq	-2(%rcx), %r12
	leaq	-1(%rcx), %r13
	xorl	%edx, %edx
.LBB57_21:
	movl	$3, %edi
	cmpb	$3, -3(%r11,%rdx)
	ja	.LBB57_50
	cmpq	$16384, %rdx
	je	.LBB57_23
	cmpq	%rdx, %r13
	je	.LBB57_31
	cmpb	$3, -2(%r11,%rdx)
	ja	.LBB57_47
	cmpq	%rdx, %r12
	je	.LBB57_31
	cmpb	$3, -1(%r11,%rdx)
	ja	.LBB57_48
	cmpq	%rdx, %r15
	je	.LBB57_31
	cmpb	$3, (%r11,%rdx)
	ja	.LBB57_49
	addq	$4, %rdx
	cmpq	%rdx, %rcx
	jne	.LBB57_21
.LBB57_31:
	movb	%r10b, %al
	shll	$12, %eax
	addq	%rax, %r8
	pxor	%xmm0, %xmm0
	movdqa	%xmm0, (%rsp)
	movq	$0, 16(%rsp)
	movq	$1, 88(%rsp)
	movq	$0, 96(%rsp)
	movq	$-1, 104(%rsp)
	movq	$0, 112(%rsp)
	movq	$0, 56(%rsp)
	movq	$1, 64(%rsp)
	movq	$0, 72(%rsp)
	movq	$-1, 80(%rsp)
	movl	$16384, %edi
	xorl	%r12d, %r12d
	movl	$16384, %r10d
	movl	$16384, %r11d
	movl	$16384, %edx
	movl	$16384, %r15d
	movl	$16384, %eax
	.p2align	4
.LBB57_32:
	movzbl	(%rsi,%r12), %r13d
	shll	$3, %r13d
	addq	88(%rsp,%r13), %rdi
	addq	56(%rsp,%r13), %r10
	cmpq	%r11, %rdi
	cmovbq	%rdi, %r11
	cmpq	%rdx, %rdi
	cmovaq	%rdi, %rdx
	cmpq	%r15, %r10
	cmovbq	%r10, %r15
	cmpq	%rax, %r10
	cmovaq	%r10, %rax
	incq	%r12
	cmpq	%r12, %rcx
	jne	.LBB57_32
	xorq	$16384, %rdi
	xorq	$16384, %r10
	subq	%r11, %rdx
	incq	%rdx
	subq	%r15, %rax
	incq	%rax
	movl	$16384, %r12d
	subq	%r15, %r12
	imulq	%rdx, %r12
	subq	%r11, %r12
	addq	$16384, %r12
	orq	%rdi, %r10
	movq	%rdx, 24(%rsp)
	movq	%rax, 32(%rsp)
	movq	%r12, 40(%rsp)
	sete	48(%rsp)
	movl	$0, 49(%rsp)
	movl	$0, 52(%rsp)
	imulq	%rdx, %rax
	movq	%rsp, %rdi
	cmpq	$4096, %rax
	ja	.LBB57_35
	leaq	24(%rsp), %rax
	movq	%rcx, %rdx
	movq	%rax, %rcx
	callq	"outline_call::map_sized::<=4096>"
	jmp	.LBB57_44
.LBB57_35:
	cmpq	$256, %rcx
	ja	.LBB57_37
	movq	%rcx, %rdx
	movq	%r8, %rcx
	movq	%r9, %r8
	callq	"outline_call::write_sized::<=257>"
	jmp	.LBB57_44
.LBB57_37:
	cmpq	$32768, %rax
	ja	.LBB57_39
	leaq	24(%rsp), %rax
	movq	%rcx, %rdx
	movq	%rax, %rcx
	callq	"outline_call::map_sized::<=32768>"
	jmp	.LBB57_44
.LBB57_23:
	movl	$16384, %edx
	movl	$5, %edi
	jmp	.LBB57_50
.LBB57_47:
	incq	%rdx
	jmp	.LBB57_50
.LBB57_48:
	addq	$2, %rdx
	jmp	.LBB57_50
.LBB57_49:
	addq	$3, %rdx
	jmp	.LBB57_50
.LBB57_39:
	cmpq	$2048, %rcx
	ja	.LBB57_41
	movq	%rcx, %rdx
	movq	%r8, %rcx
	movq	%r9, %r8
	callq	"outline_call::write_sized::<=2049>"
	jmp	.LBB57_44
.LBB57_41:
	cmpq	$262144, %rax
	ja	.LBB57_43
	leaq	24(%rsp), %rax
	movq	%rcx, %rdx
	movq	%rax, %rcx
	callq	"outline_call::map_sized::<=262144>"
	jmp	.LBB57_44
.LBB57_43:
	movq	%rcx, %rdx
	movq	%r8, %rcx
	movq	%r9, %r8
	callq	"outline_call::write_sized::<=16385>"
.LBB57_44:
	movdqu	8(%rsp), %xmm0
	movq	%xmm0, %rdi
	cmpb	$0, (%rsp)
	je	.LBB57_45
	pshufd	$238, %xmm0, %xmm0
	movq	%xmm0, %rdx
	movzbl	%dil, %eax
	xorl	%esi, %esi
	movl	$3669895, %ecx
	btl	%eax, %ecx
	jb	.LBB57_51
.LBB57_50:
	movl	%edx, %esi
.LBB57_51:
	movzbl	%dil, %eax
	incl	%eax
.LBB57_52:
	movl	%eax, (%rbx)
	movl	%esi, 4(%rbx)
	movl	%r14d, 8(%rbx)
	addq	$120, %rsp
	popq	%rbx
	popq	%r12
	popq	%r13
	popq	%r14
	popq	%r15
	popq	%rbp
	retq
.LBB57_45:
	xorl	%eax, %eax
	xorl	%esi, %esi
	movl	%edi, %r14d
	jmp	.LBB57_52
.Lfunc_end57:
	.size	undrwyth_outline, .Lfunc_end57-undrwyth_outline

	.section	.text.undrwyth_overlay,"ax",@progbits
	.globl	undrwyth_overlay
	.p2align	4
	.type	undrwyth_overlay,@function
undrwyth_overlay:
	pushq	%rbp
	pushq	%r15
	pushq	%r14
	pushq	%r13
	pushq	%r12
	pushq	%rbx
	subq	$184, %rsp
	movl	%r9d, 44(%rsp)
	movl	%r8d, 40(%rsp)
	movq	%rcx, %rbp
	movl	%esi, %r12d
	movl	%edi, %r14d
	xorl	%ebx, %ebx
	testq	%rdx, %rdx
	sete	%bl
	shll	$12, %ebx
	addq	%rdx, %rbx
	xorl	%r15d, %r15d
	cmpq	$0, 240(%rsp)
	sete	35(%rsp)
	cmpq	$0, 256(%rsp)
	sete	33(%rsp)
	cmpq	$0, 272(%rsp)
	sete	34(%rsp)
	cmpq	$0, 288(%rsp)
	pxor	%xmm0, %xmm0
	movdqa	%xmm0, 48(%rsp)
	movq	$0, 64(%rsp)
	sete	%r13b
	leaq	48(%rsp), %rdi
	movl	%r14d, %esi
	movl	%r12d, %edx
	movq	%rbx, %rcx
	movq	%rbp, %r8
	callq	"room_judge::judge"
	cmpb	$0, 48(%rsp)
	jne	.LBB58_10
	movb	%r13b, 32(%rsp)
	movl	%r14d, 36(%rsp)
	movq	248(%rsp), %r8
	movzbl	35(%rsp), %eax
	movb	%al, %r15b
	shll	$12, %r15d
	movq	240(%rsp), %r13
	addq	%r15, %r13
	leaq	48(%rsp), %rdi
	movl	40(%rsp), %r15d
	movl	%r15d, %esi
	movl	44(%rsp), %r14d
	movl	%r14d, %edx
	movq	%r13, %rcx
	callq	"room_judge::judge"
	cmpb	$0, 48(%rsp)
	je	.LBB58_2
.LBB58_10:
	movq	64(%rsp), %rdx
	movzbl	56(%rsp), %ecx
.LBB58_11:
	movzbl	%cl, %eax
	xorl	%esi, %esi
	movl	$3669895, %ecx
	btl	%eax, %ecx
	jb	.LBB58_13
	movl	%edx, %esi
.LBB58_13:
	incl	%eax
	pxor	%xmm0, %xmm0
	xorl	%ecx, %ecx
	xorl	%edx, %edx
.LBB58_14:
	movq	304(%rsp), %rdi
	movl	%eax, (%rdi)
	movl	%esi, 4(%rdi)
	movl	%ecx, 8(%rdi)
	movdqu	%xmm0, 12(%rdi)
	movl	%edx, 28(%rdi)
	addq	$184, %rsp
	popq	%rbx
	popq	%r12
	popq	%r13
	popq	%r14
	popq	%r15
	popq	%rbp
	retq
.LBB58_2:
	xorl	%eax, %eax
	movzbl	33(%rsp), %ecx
	movb	%cl, %al
	shll	$12, %eax
	movq	256(%rsp), %rcx
	addq	%rax, %rcx
	xorl	%eax, %eax
	movzbl	34(%rsp), %edx
	movb	%dl, %al
	shll	$12, %eax
	movq	272(%rsp), %r9
	addq	%rax, %r9
	xorl	%eax, %eax
	movzbl	32(%rsp), %edx
	movb	%dl, %al
	shll	$12, %eax
	movq	288(%rsp), %rsi
	addq	%rax, %rsi
	movl	36(%rsp), %eax
	movl	%eax, 160(%rsp)
	movl	%r12d, 164(%rsp)
	movq	%rbx, 168(%rsp)
	movl	%r15d, 136(%rsp)
	movl	%r14d, 140(%rsp)
	movq	296(%rsp), %rdx
	movq	%r13, 144(%rsp)
	movq	280(%rsp), %rax
	movq	%rbp, 176(%rsp)
	movq	248(%rsp), %rdi
	cmpq	%rbp, %rdi
	cmovaq	%rdi, %rbp
	movq	%rdi, 152(%rsp)
	movq	264(%rsp), %r8
	pxor	%xmm0, %xmm0
	movdqa	%xmm0, 112(%rsp)
	movdqa	%xmm0, 96(%rsp)
	movdqa	%xmm0, 80(%rsp)
	movq	$0, 128(%rsp)
	cmpq	$256, %rbp
	ja	.LBB58_6
	movq	%rdx, 16(%rsp)
	movq	%rsi, 8(%rsp)
	movq	%rax, (%rsp)
	leaq	80(%rsp), %rdi
	leaq	160(%rsp), %rsi
	leaq	136(%rsp), %rdx
	callq	"overlay_call::list_sized::<=384>"
	jmp	.LBB58_4
.LBB58_6:
	cmpq	$2048, %rbp
	ja	.LBB58_8
	movq	%rdx, 16(%rsp)
	movq	%rsi, 8(%rsp)
	movq	%rax, (%rsp)
	leaq	80(%rsp), %rdi
	leaq	160(%rsp), %rsi
	leaq	136(%rsp), %rdx
	callq	"overlay_call::list_sized::<=3072>"
	jmp	.LBB58_4
.LBB58_8:
	movq	%rdx, 16(%rsp)
	movq	%rsi, 8(%rsp)
	movq	%rax, (%rsp)
	leaq	80(%rsp), %rdi
	leaq	160(%rsp), %rsi
	leaq	136(%rsp), %rdx
	callq	"overlay_call::list_sized::<=24576>"
.LBB58_4:
	movq	88(%rsp), %rcx
	movaps	112(%rsp), %xmm1
	movdqa	96(%rsp), %xmm0
	movq	128(%rsp), %rdx
	cmpb	$0, 80(%rsp)
	je	.LBB58_9
	movd	%xmm0, %edx
	jmp	.LBB58_11
.LBB58_9:
	shufps	$136, %xmm1, %xmm0
	pshufd	$141, %xmm0, %xmm0
	xorl	%eax, %eax
	xorl	%esi, %esi
	jmp	.LBB58_14
.Lfunc_end58:
	.size	undrwyth_overlay, .Lfunc_end58-undrwyth_overlay

	.section	.rodata.cst16,"aM",@progbits,16
	.p2align	4, 0x0
.LCPI59_0:
	.byte	255
	.byte	255
	.byte	255
	.byte	255
	.byte	255
	.byte	255
	.byte	255
	.byte	0
	.byte	255
	.byte	255
	.byte	255
	.byte	255
	.byte	255
	.byte	255
	.byte	255
	.byte	255
.LCPI59_1:
	.short	1
	.short	1
	.short	1
	.short	1
	.short	1
	.short	1
	.short	1
	.short	1
	.section	.text.undrwyth_polygon_of_room,"ax",@progbits
	.globl	undrwyth_polygon_of_room
	.p2align	4
	.type	undrwyth_polygon_of_room,@function
undrwyth_polygon_of_room:
	pushq	%rbp
	pushq	%r15
	pushq	%r14
	pushq	%r13
	pushq	%r12
	pushq	%rbx
	subq	$56, %rsp
	movq	%r9, 48(%rsp)
	movq	%r8, %r12
	movq	%rcx, %r14
	movq	%rdx, %r13
	movl	%esi, %ebp
	movl	%edi, %r15d
	xorl	%ebx, %ebx
	testq	%rdx, %rdx
	sete	%bl
	shll	$12, %ebx
	leaq	(%rdx,%rbx), %rcx
	testq	%r8, %r8
	sete	15(%rsp)
	pxor	%xmm0, %xmm0
	movdqa	%xmm0, 16(%rsp)
	movq	$0, 32(%rsp)
	leaq	16(%rsp), %rdi
	movl	%r15d, %esi
	movl	%ebp, %edx
	movq	%r14, %r8
	callq	"room_judge::judge"
	cmpb	$0, 16(%rsp)
	je	.LBB59_1
	movq	32(%rsp), %rcx
	movzbl	24(%rsp), %eax
	movzbl	%al, %esi
	xorl	%edx, %edx
	movl	$3669895, %edi
	btl	%esi, %edi
	movq	112(%rsp), %r11
	jb	.LBB59_24
	movl	%ecx, %edx
	jmp	.LBB59_24
.LBB59_1:
	movzbl	15(%rsp), %r9d
	movq	48(%rsp), %r8
	leaq	(%rbx,%r13), %rdi
	testq	%r14, %r14
	je	.LBB59_2
	movzbl	(%rdi), %edx
	cmpq	$16, %r14
	movq	112(%rsp), %r11
	jae	.LBB59_5
	xorl	%ecx, %ecx
	xorl	%eax, %eax
	movq	%r12, %rbx
	jmp	.LBB59_10
.LBB59_2:
	movl	$2, %esi
	movq	112(%rsp), %r11
	movq	%r12, %rbx
	movq	%rdi, %r12
	jmp	.LBB59_13
.LBB59_5:
	movq	%r14, %rax
	andq	$-16, %rax
	movzbl	%dl, %ecx
	movd	%ecx, %xmm0
	psllq	$56, %xmm0
	leaq	(%rbx,%r13), %rcx
	addq	$8, %rcx
	pxor	%xmm1, %xmm1
	xorl	%edx, %edx
	pxor	%xmm2, %xmm2
	.p2align	4
.LBB59_6:
	movq	-8(%rcx,%rdx), %xmm4
	movq	%xmm0, %xmm3
	movq	(%rcx,%rdx), %xmm0
	movdqa	%xmm4, %xmm5
	psllq	$8, %xmm5
	movdqa	.LCPI59_0(%rip), %xmm6
	movdqa	%xmm4, %xmm7
	pand	%xmm6, %xmm7
	por	%xmm7, %xmm3
	psrlq	$56, %xmm3
	por	%xmm5, %xmm3
	pand	%xmm0, %xmm6
	por	%xmm4, %xmm6
	psrlq	$56, %xmm6
	movdqa	%xmm0, %xmm5
	psllq	$8, %xmm5
	por	%xmm6, %xmm5
	pcmpeqb	%xmm4, %xmm3
	pcmpeqd	%xmm4, %xmm4
	pxor	%xmm4, %xmm3
	punpcklbw	%xmm3, %xmm3
	movdqa	.LCPI59_1(%rip), %xmm6
	pand	%xmm6, %xmm3
	paddw	%xmm3, %xmm2
	pcmpeqb	%xmm0, %xmm5
	pxor	%xmm4, %xmm5
	punpcklbw	%xmm5, %xmm5
	pand	%xmm6, %xmm5
	paddw	%xmm5, %xmm1
	addq	$16, %rdx
	cmpq	%rdx, %rax
	jne	.LBB59_6
	paddw	%xmm2, %xmm1
	pshufd	$238, %xmm1, %xmm2
	paddw	%xmm1, %xmm2
	pshufd	$85, %xmm2, %xmm1
	paddw	%xmm2, %xmm1
	movdqa	%xmm1, %xmm2
	psrld	$16, %xmm2
	paddw	%xmm1, %xmm2
	movd	%xmm2, %ecx
	cmpq	%rax, %r14
	movq	%r12, %rbx
	jne	.LBB59_9
	movq	%rdi, %r12
	jmp	.LBB59_12
.LBB59_9:
	pextrw	$3, %xmm0, %edx
	shrl	$8, %edx
.LBB59_10:
	movq	%rdi, %r12
	.p2align	4
.LBB59_11:
	movzbl	(%r12,%rax), %esi
	xorl	%edi, %edi
	cmpb	%sil, %dl
	setne	%dil
	addl	%edi, %ecx
	incq	%rax
	movl	%esi, %edx
	cmpq	%rax, %r14
	jne	.LBB59_11
.LBB59_12:
	movzwl	%cx, %esi
	addq	$2, %rsi
.LBB59_13:
	xorl	%eax, %eax
	movl	%esi, %ecx
	shll	$4, %ecx
	orq	$13, %rcx
	cmpq	%rcx, %r8
	jae	.LBB59_14
	xorl	%edx, %edx
	movb	$12, %al
.LBB59_24:
	movzbl	%al, %eax
	incl	%eax
	xorl	%ecx, %ecx
.LBB59_25:
	movl	%eax, (%r11)
	movl	%edx, 4(%r11)
	movl	%ecx, 8(%r11)
	addq	$56, %rsp
	popq	%rbx
	popq	%r12
	popq	%r13
	popq	%r14
	popq	%r15
	popq	%rbp
	retq
.LBB59_14:
	movb	%r9b, %al
	shll	$12, %eax
	addq	%rax, %rbx
	leaq	13(%rbx), %rdx
	imull	$600, %r15d, %edi
	imull	$600, %ebp, %r8d
	xorl	%eax, %eax
	movabsq	$1099511628545, %r9
	movq	%r9, (%rbx)
	movb	$0, 8(%rbx)
	movl	%esi, 9(%rbx)
	xorps	%xmm0, %xmm0
	cvtsi2sd	%edi, %xmm0
	movq	%xmm0, 13(%rbx)
	xorps	%xmm1, %xmm1
	cvtsi2sd	%r8d, %xmm1
	movq	%xmm1, 21(%rbx)
	testq	%r14, %r14
	je	.LBB59_15
	movzbl	(%r12), %r8d
	xorl	%esi, %esi
	xorl	%edi, %edi
	jmp	.LBB59_17
	.p2align	4
.LBB59_19:
	cmpb	$1, %r8b
	adcl	$0, %r15d
	xorl	%r9d, %r9d
	cmpb	$1, %r8b
	sete	%r9b
	xorl	%r10d, %r10d
	cmpb	$2, %r8b
	sete	%r10b
	subl	%r10d, %r15d
	addl	%r9d, %ebp
	cmpb	$3, %r8b
	adcl	$-1, %ebp
	incq	%rdi
	cmpq	%rdi, %r14
	je	.LBB59_20
.LBB59_17:
	movl	%r8d, %r9d
	movzbl	(%r12,%rdi), %r8d
	cmpb	%r8b, %r9b
	je	.LBB59_19
	movq	%rsi, %r9
	shlq	$4, %r9
	imull	$600, %r15d, %r10d
	xorps	%xmm2, %xmm2
	cvtsi2sd	%r10d, %xmm2
	movsd	%xmm2, 29(%rbx,%r9)
	imull	$600, %ebp, %r10d
	xorps	%xmm2, %xmm2
	cvtsi2sd	%r10d, %xmm2
	movq	%xmm2, 37(%rbx,%r9)
	incq	%rsi
	jmp	.LBB59_19
.LBB59_20:
	shlq	$4, %rsi
	jmp	.LBB59_21
.LBB59_15:
	xorl	%esi, %esi
.LBB59_21:
	movq	%xmm0, 16(%rdx,%rsi)
	movq	%xmm1, 24(%rdx,%rsi)
	xorl	%edx, %edx
	jmp	.LBB59_25
.Lfunc_end59:
	.size	undrwyth_polygon_of_room, .Lfunc_end59-undrwyth_polygon_of_room

	.section	.rodata.cst16,"aM",@progbits,16
	.p2align	4, 0x0
.LCPI60_0:
	.byte	1
	.byte	1
	.zero	1
	.zero	1
	.zero	1
	.zero	1
	.zero	1
	.zero	1
	.zero	1
	.zero	1
	.zero	1
	.zero	1
	.zero	1
	.zero	1
	.zero	1
	.zero	1
	.section	.text.undrwyth_rows,"ax",@progbits
	.globl	undrwyth_rows
	.p2align	4
	.type	undrwyth_rows,@function
undrwyth_rows:
	pushq	%rbp
	pushq	%r15
	pushq	%r14
	pushq	%r13
	pushq	%r12
	pushq	%rbx
	subq	$88, %rsp
	movq	%r9, 80(%rsp)
	movq	%r8, %r15
	movq	%rcx, %r14
	movq	%rdx, %r13
	movl	%esi, %edx
	movl	%edi, %esi
	xorl	%ebx, %ebx
	testq	%r13, %r13
	sete	%bl
	shll	$12, %ebx
	leaq	(%rbx,%r13), %r12
	xorl	%ebp, %ebp
	testq	%r8, %r8
	sete	15(%rsp)
	pxor	%xmm0, %xmm0
	movdqa	%xmm0, 48(%rsp)
	movq	$0, 64(%rsp)
	leaq	48(%rsp), %rdi
	movl	%esi, 16(%rsp)
	movl	%edx, 20(%rsp)
	movq	%r12, %rcx
	movq	%r14, %r8
	callq	"room_judge::judge"
	cmpb	$0, 48(%rsp)
	je	.LBB60_1
	movq	64(%rsp), %rdx
	movzbl	56(%rsp), %eax
	movzbl	%al, %esi
	xorl	%ecx, %ecx
	movl	$3669895, %edi
	btl	%esi, %edi
	movq	144(%rsp), %rbx
	jb	.LBB60_19
	movl	%edx, %ecx
	jmp	.LBB60_19
.LBB60_1:
	movq	80(%rsp), %r8
	movzbl	15(%rsp), %eax
	movb	%al, %bpl
	shll	$12, %ebp
	addq	%rbp, %r15
	movl	16(%rsp), %eax
	movl	%eax, 24(%rsp)
	movl	20(%rsp), %eax
	movl	%eax, 28(%rsp)
	movq	%r12, 32(%rsp)
	movq	%r14, 40(%rsp)
	testq	%r14, %r14
	movq	%r15, %rsi
	je	.LBB60_2
	cmpq	$4, %r14
	jae	.LBB60_5
	xorl	%r15d, %r15d
	xorl	%eax, %eax
	movq	144(%rsp), %rbx
	jmp	.LBB60_8
.LBB60_2:
	xorl	%r15d, %r15d
	movq	144(%rsp), %rbx
	jmp	.LBB60_11
.LBB60_5:
	movq	%r14, %rax
	andq	$-4, %rax
	leaq	(%rbx,%r13), %rcx
	addq	$2, %rcx
	pxor	%xmm1, %xmm1
	xorl	%edx, %edx
	pxor	%xmm2, %xmm2
	pxor	%xmm0, %xmm0
	.p2align	4
.LBB60_6:
	movzwl	-2(%rcx,%rdx), %edi
	movd	%edi, %xmm3
	movzwl	(%rcx,%rdx), %edi
	movd	%edi, %xmm4
	movdqa	.LCPI60_0(%rip), %xmm5
	pand	%xmm5, %xmm3
	pand	%xmm5, %xmm4
	punpcklbw	%xmm1, %xmm3
	punpcklwd	%xmm1, %xmm3
	punpckldq	%xmm1, %xmm3
	paddq	%xmm3, %xmm2
	punpcklbw	%xmm1, %xmm4
	punpcklwd	%xmm1, %xmm4
	punpckldq	%xmm1, %xmm4
	paddq	%xmm4, %xmm0
	addq	$4, %rdx
	cmpq	%rdx, %rax
	jne	.LBB60_6
	paddq	%xmm2, %xmm0
	pshufd	$238, %xmm0, %xmm1
	paddq	%xmm0, %xmm1
	movq	%xmm1, %r15
	cmpq	%rax, %r14
	movq	144(%rsp), %rbx
	je	.LBB60_9
	.p2align	4
.LBB60_8:
	movzbl	(%r12,%rax), %ecx
	andl	$1, %ecx
	addq	%rcx, %r15
	incq	%rax
	cmpq	%rax, %r14
	jne	.LBB60_8
.LBB60_9:
	shrq	%r15
	leaq	(%r15,%r15,2), %rax
	cmpq	%rax, %r8
	jae	.LBB60_10
	xorl	%ecx, %ecx
	movb	$20, %al
.LBB60_19:
	movzbl	%al, %eax
	incl	%eax
	xorl	%r15d, %r15d
	jmp	.LBB60_20
.LBB60_10:
	cmpq	$256, %r14
	ja	.LBB60_12
.LBB60_11:
	leaq	24(%rsp), %rdi
	callq	"row_call::list_sized::<=258>"
.LBB60_16:
	xorl	%eax, %eax
	xorl	%ecx, %ecx
.LBB60_20:
	movl	%eax, (%rbx)
	movl	%ecx, 4(%rbx)
	movl	%r15d, 8(%rbx)
	addq	$88, %rsp
	popq	%rbx
	popq	%r12
	popq	%r13
	popq	%r14
	popq	%r15
	popq	%rbp
	retq
.LBB60_12:
	leaq	24(%rsp), %rdi
	cmpq	$2048, %r14
	ja	.LBB60_15
	callq	"row_call::list_sized::<=2050>"
	jmp	.LBB60_16
.LBB60_15:
	callq	"row_call::list_sized::<=16386>"
	jmp	.LBB60_16
.Lfunc_end60:
	.size	undrwyth_rows, .Lfunc_end60-undrwyth_rows

	.section	.text.undrwyth_steps_of_turns,"ax",@progbits
	.globl	undrwyth_steps_of_turns
	.p2align	4
	.type	undrwyth_steps_of_turns,@function
undrwyth_steps_of_turns:
	pushq	%rbp
	pushq	%r14
	pushq	%rbx
	xorl	%r10d, %r10d
	testq	%rdi, %rdi
	sete	%bl
	xorl	%r9d, %r9d
	testq	%rdx, %rdx
	sete	%r11b
	movl	$1, %eax
	cmpq	$32768, %rsi
	ja	.LBB61_28
	movl	$3, %eax
	cmpq	%rsi, %rcx
	jne	.LBB61_28
	testq	%rsi, %rsi
	je	.LBB61_27
	movb	%bl, %r10b
	shll	$12, %r10d
	leaq	(%rdi,%r10), %rcx
	cmpq	$4, %rsi
	jae	.LBB61_6
	xorl	%ebx, %ebx
	xorl	%eax, %eax
	jmp	.LBB61_5
.LBB61_6:
	cmpq	$32, %rsi
	jae	.LBB61_8
	xorl	%eax, %eax
	xorl	%ebx, %ebx
	jmp	.LBB61_12
.LBB61_8:
	movl	%esi, %eax
	andl	$65504, %eax
	leaq	(%r10,%rdi), %rbx
	addq	$16, %rbx
	pxor	%xmm0, %xmm0
	xorl	%r14d, %r14d
	pxor	%xmm1, %xmm1
	.p2align	4
.LBB61_9:
	movdqu	-16(%rbx,%r14), %xmm2
	pmaxub	%xmm2, %xmm0
	movdqu	(%rbx,%r14), %xmm2
	pmaxub	%xmm2, %xmm1
	addq	$32, %r14
	cmpq	%r14, %rax
	jne	.LBB61_9
	pmaxub	%xmm1, %xmm0
	pshufd	$238, %xmm0, %xmm1
	pmaxub	%xmm0, %xmm1
	pshufd	$85, %xmm1, %xmm0
	pmaxub	%xmm1, %xmm0
	movdqa	%xmm0, %xmm1
	psrld	$16, %xmm1
	pmaxub	%xmm0, %xmm1
	movdqa	%xmm1, %xmm0
	psrlw	$8, %xmm0
	pmaxub	%xmm1, %xmm0
	movd	%xmm0, %ebx
	cmpq	%rax, %rsi
	je	.LBB61_16
	testb	$28, %sil
	je	.LBB61_5
.LBB61_12:
	movq	%rax, %r14
	movl	%esi, %eax
	andl	$65532, %eax
	movzbl	%bl, %ebx
	movd	%ebx, %xmm0
	punpcklbw	%xmm0, %xmm0
	pshuflw	$0, %xmm0, %xmm0
	.p2align	4
.LBB61_13:
	movd	(%rcx,%r14), %xmm1
	pmaxub	%xmm1, %xmm0
	addq	$4, %r14
	cmpq	%r14, %rax
	jne	.LBB61_13
	movdqa	%xmm0, %xmm1
	psrld	$16, %xmm1
	pmaxub	%xmm0, %xmm1
	movdqa	%xmm1, %xmm0
	psrlw	$8, %xmm0
	pmaxub	%xmm1, %xmm0
	movd	%xmm0, %ebx
	jmp	.LBB61_15
.LBB61_5:
	movzbl	(%rcx,%rax), %ebp
	movzbl	%bl, %ebx
	cmpb	%bl, %bpl
	cmoval	%ebp, %ebx
	incq	%rax
.LBB61_15:
	cmpq	%rax, %rsi
	jne	.LBB61_5
.LBB61_16:
	cmpb	$4, %bl
	jb	.LBB61_20
	movl	$4, %eax
	xorl	%ebx, %ebx
	.p2align	4
.LBB61_18:
	cmpb	$3, (%rcx,%rbx)
	ja	.LBB61_28
	incq	%rbx
	movabsq	$4294967296, %r14
	addq	%r14, %rax
	cmpq	%rbx, %rsi
	jne	.LBB61_18
.LBB61_20:
	movb	%r11b, %r9b
	shll	$12, %r9d
	movl	%esi, %eax
	andl	$3, %eax
	cmpq	$4, %rsi
	jae	.LBB61_22
	xorl	%edi, %edi
	xorl	%r10d, %r10d
	jmp	.LBB61_25
.LBB61_22:
	andl	$65532, %esi
	leaq	(%r10,%rdi), %r11
	addq	$3, %r11
	leaq	(%r9,%rdx), %rbx
	addq	$3, %rbx
	xorl	%edi, %edi
	xorl	%r10d, %r10d
	.p2align	4
.LBB61_23:
	addb	-3(%r11,%r10), %dil
	movl	%edi, %ebp
	andb	$3, %bpl
	movb	%bpl, -3(%rbx,%r10)
	addb	-2(%r11,%r10), %dil
	movl	%edi, %ebp
	andb	$3, %bpl
	movb	%bpl, -2(%rbx,%r10)
	addb	-1(%r11,%r10), %dil
	movl	%edi, %ebp
	andb	$3, %bpl
	movb	%bpl, -1(%rbx,%r10)
	addb	(%r11,%r10), %dil
	andb	$3, %dil
	movb	%dil, (%rbx,%r10)
	addq	$4, %r10
	cmpq	%r10, %rsi
	jne	.LBB61_23
	testq	%rax, %rax
	je	.LBB61_27
.LBB61_25:
	addq	%r9, %rdx
	addq	%r10, %rdx
	addq	%r10, %rcx
	xorl	%esi, %esi
	.p2align	4
.LBB61_26:
	addb	(%rcx,%rsi), %dil
	andb	$3, %dil
	movb	%dil, (%rdx,%rsi)
	incq	%rsi
	cmpq	%rsi, %rax
	jne	.LBB61_26
.LBB61_27:
	xorl	%eax, %eax
.LBB61_28:
	movq	%rax, (%r8)
	popq	%rbx
	popq	%r14
	popq	%rbp
	retq
.Lfunc_end61:
	.size	undrwyth_steps_of_turns, .Lfunc_end61-undrwyth_steps_of_turns

	.section	.rodata.cst16,"aM",@progbits,16
	.p2align	4, 0x0
.LCPI62_0:
	.zero	16,3
	.section	.text.undrwyth_turns_of_steps,"ax",@progbits
	.globl	undrwyth_turns_of_steps
	.p2align	4
	.type	undrwyth_turns_of_steps,@function
undrwyth_turns_of_steps:
	pushq	%rbp
	pushq	%r15
	pushq	%r14
	pushq	%r12
	pushq	%rbx
	xorl	%r9d, %r9d
	testq	%rdi, %rdi
	sete	%bl
	xorl	%r10d, %r10d
	testq	%rdx, %rdx
	sete	%r11b
	movl	$1, %eax
	cmpq	$32768, %rsi
	ja	.LBB62_33
	movl	$3, %eax
	cmpq	%rsi, %rcx
	jne	.LBB62_33
	testq	%rsi, %rsi
	je	.LBB62_32
	movb	%bl, %r9b
	shll	$12, %r9d
	leaq	(%rdi,%r9), %rcx
	cmpq	$4, %rsi
	jae	.LBB62_6
	xorl	%ebx, %ebx
	xorl	%eax, %eax
	jmp	.LBB62_5
.LBB62_6:
	cmpq	$32, %rsi
	jae	.LBB62_8
	xorl	%eax, %eax
	xorl	%ebx, %ebx
	jmp	.LBB62_12
.LBB62_8:
	movl	%esi, %eax
	andl	$65504, %eax
	leaq	(%r9,%rdi), %rbx
	addq	$16, %rbx
	pxor	%xmm0, %xmm0
	xorl	%r14d, %r14d
	pxor	%xmm1, %xmm1
	.p2align	4
.LBB62_9:
	movdqu	-16(%rbx,%r14), %xmm2
	pmaxub	%xmm2, %xmm0
	movdqu	(%rbx,%r14), %xmm2
	pmaxub	%xmm2, %xmm1
	addq	$32, %r14
	cmpq	%r14, %rax
	jne	.LBB62_9
	pmaxub	%xmm1, %xmm0
	pshufd	$238, %xmm0, %xmm1
	pmaxub	%xmm0, %xmm1
	pshufd	$85, %xmm1, %xmm0
	pmaxub	%xmm1, %xmm0
	movdqa	%xmm0, %xmm1
	psrld	$16, %xmm1
	pmaxub	%xmm0, %xmm1
	movdqa	%xmm1, %xmm0
	psrlw	$8, %xmm0
	pmaxub	%xmm1, %xmm0
	movd	%xmm0, %ebx
	cmpq	%rax, %rsi
	je	.LBB62_16
	testb	$28, %sil
	je	.LBB62_5
.LBB62_12:
	movq	%rax, %r14
	movl	%esi, %eax
	andl	$65532, %eax
	movzbl	%bl, %ebx
	movd	%ebx, %xmm0
	punpcklbw	%xmm0, %xmm0
	pshuflw	$0, %xmm0, %xmm0
	.p2align	4
.LBB62_13:
	movd	(%rcx,%r14), %xmm1
	pmaxub	%xmm1, %xmm0
	addq	$4, %r14
	cmpq	%r14, %rax
	jne	.LBB62_13
	movdqa	%xmm0, %xmm1
	psrld	$16, %xmm1
	pmaxub	%xmm0, %xmm1
	movdqa	%xmm1, %xmm0
	psrlw	$8, %xmm0
	pmaxub	%xmm1, %xmm0
	movd	%xmm0, %ebx
	jmp	.LBB62_15
.LBB62_5:
	movzbl	(%rcx,%rax), %ebp
	movzbl	%bl, %ebx
	cmpb	%bl, %bpl
	cmoval	%ebp, %ebx
	incq	%rax
.LBB62_15:
	cmpq	%rax, %rsi
	jne	.LBB62_5
.LBB62_16:
	cmpb	$4, %bl
	jb	.LBB62_20
	movl	$4, %eax
	xorl	%ebx, %ebx
	.p2align	4
.LBB62_18:
	cmpb	$3, (%rcx,%rbx)
	ja	.LBB62_33
	incq	%rbx
	movabsq	$4294967296, %r14
	addq	%r14, %rax
	cmpq	%rbx, %rsi
	jne	.LBB62_18
.LBB62_20:
	movb	%r11b, %r10b
	shll	$12, %r10d
	leaq	(%rdx,%r10), %rax
	cmpq	$32, %rsi
	jb	.LBB62_21
	movq	%rax, %r11
	subq	%rcx, %r11
	cmpq	$32, %r11
	jae	.LBB62_23
.LBB62_21:
	xorl	%ebx, %ebx
	xorl	%r11d, %r11d
	movq	%rsi, %r15
	movq	%r11, %r14
	andq	$3, %r15
	je	.LBB62_29
	.p2align	4
.LBB62_28:
	movl	%ebx, %ebp
	movzbl	(%rcx,%r14), %ebx
	movl	%ebx, %r12d
	subb	%bpl, %r12b
	andb	$3, %r12b
	movb	%r12b, (%rax,%r14)
	incq	%r14
	decq	%r15
	jne	.LBB62_28
.LBB62_29:
	subq	%rsi, %r11
	cmpq	$-4, %r11
	ja	.LBB62_32
	leaq	(%r10,%rdx), %rax
	addq	$3, %rax
	leaq	(%r9,%rdi), %rcx
	addq	$3, %rcx
	.p2align	4
.LBB62_31:
	movzbl	-3(%rcx,%r14), %edx
	movl	%edx, %edi
	subb	%bl, %dil
	andb	$3, %dil
	movb	%dil, -3(%rax,%r14)
	movzbl	-2(%rcx,%r14), %edi
	movl	%edi, %r9d
	subb	%dl, %r9b
	andb	$3, %r9b
	movb	%r9b, -2(%rax,%r14)
	movzbl	-1(%rcx,%r14), %edx
	movl	%edx, %r9d
	subb	%dil, %r9b
	andb	$3, %r9b
	movb	%r9b, -1(%rax,%r14)
	movzbl	(%rcx,%r14), %ebx
	movl	%ebx, %edi
	subb	%dl, %dil
	andb	$3, %dil
	movb	%dil, (%rax,%r14)
	addq	$4, %r14
	cmpq	%r14, %rsi
	jne	.LBB62_31
	jmp	.LBB62_32
.LBB62_23:
	movl	%esi, %r11d
	andl	$65504, %r11d
	leaq	(%r10,%rdx), %rbx
	addq	$16, %rbx
	leaq	(%r9,%rdi), %r14
	addq	$16, %r14
	pxor	%xmm0, %xmm0
	xorl	%r15d, %r15d
	.p2align	4
.LBB62_24:
	movdqu	-16(%r14,%r15), %xmm1
	movdqa	%xmm1, %xmm2
	pslldq	$1, %xmm2
	psrldq	$15, %xmm0
	por	%xmm2, %xmm0
	movdqa	%xmm1, %xmm2
	psubb	%xmm0, %xmm1
	movdqu	(%r14,%r15), %xmm0
	psrldq	$15, %xmm2
	movdqa	%xmm0, %xmm3
	pslldq	$1, %xmm3
	por	%xmm2, %xmm3
	movdqa	%xmm0, %xmm2
	psubb	%xmm3, %xmm2
	movdqa	.LCPI62_0(%rip), %xmm3
	pand	%xmm3, %xmm1
	pand	%xmm3, %xmm2
	movdqu	%xmm1, -16(%rbx,%r15)
	movdqu	%xmm2, (%rbx,%r15)
	addq	$32, %r15
	cmpq	%r15, %r11
	jne	.LBB62_24
	cmpq	%r11, %rsi
	jne	.LBB62_26
.LBB62_32:
	xorl	%eax, %eax
.LBB62_33:
	movq	%rax, (%r8)
	popq	%rbx
	popq	%r12
	popq	%r14
	popq	%r15
	popq	%rbp
	retq
.LBB62_26:
	pextrw	$7, %xmm0, %ebx
	shrl	$8, %ebx
	movq	%rsi, %r15
	movq	%r11, %r14
	andq	$3, %r15
	jne	.LBB62_28
	jmp	.LBB62_29
.Lfunc_end62:
	.size	undrwyth_turns_of_steps, .Lfunc_end62-undrwyth_turns_of_steps

	.section	.text.undrwyth_walk,"ax",@progbits
	.globl	undrwyth_walk
	.p2align	4
	.type	undrwyth_walk,@function
undrwyth_walk:
	pushq	%rbp
	pushq	%r15
	pushq	%r14
	pushq	%r13
	pushq	%r12
	pushq	%rbx
	subq	$168, %rsp
	movq	256(%rsp), %r12
	movq	240(%rsp), %rbp
	xorl	%r10d, %r10d
	testq	%rdx, %rdx
	sete	%bl
	xorl	%eax, %eax
	testq	%r8, %r8
	sete	%r11b
	cmpq	$0, 224(%rsp)
	sete	%r13b
	testq	%rbp, %rbp
	sete	%r14b
	pxor	%xmm0, %xmm0
	movdqa	%xmm0, 144(%rsp)
	movdqa	%xmm0, 128(%rsp)
	movdqa	%xmm0, 112(%rsp)
	movdqa	%xmm0, 96(%rsp)
	movq	$0, 160(%rsp)
	cmpq	$32768, %rcx
	jbe	.LBB63_2
	xorl	%edx, %edx
	xorl	%eax, %eax
	jmp	.LBB63_41
.LBB63_2:
	movb	%r14b, 55(%rsp)
	movabsq	$-8116567392432202711, %r14
	imulq	%r9, %r14
	movabsq	$737869762948382064, %r15
	cmpq	%r15, %r14
	seta	%r14b
	leaq	-25(%r9), %r15
	cmpq	$3278700, %r15
	setae	%r15b
	orb	%r14b, %r15b
	jne	.LBB63_3
	leaq	(%rcx,%rcx,2), %r14
	xorq	232(%rsp), %r14
	movq	248(%rsp), %r15
	xorq	%rcx, %r15
	orq	%r14, %r15
	jne	.LBB63_5
	leal	16384(%rdi), %r14d
	cmpl	$32769, %r14d
	setae	%r14b
	leal	16384(%rsi), %r15d
	cmpl	$32769, %r15d
	setae	%r15b
	orb	%r14b, %r15b
	jne	.LBB63_7
	movb	%bl, %r10b
	shll	$12, %r10d
	leaq	(%rdx,%r10), %rbx
	movb	%r11b, %al
	shll	$12, %eax
	addq	%rax, %r8
	cmpq	$16384, %rcx
	movl	$0, %r14d
	movl	%r13d, %r15d
	ja	.LBB63_24
	testq	%rcx, %rcx
	je	.LBB63_36
	cmpq	$4, %rcx
	jae	.LBB63_13
	xorl	%edx, %edx
	xorl	%eax, %eax
	jmp	.LBB63_12
.LBB63_3:
	movb	$1, %al
	xorl	%edx, %edx
	jmp	.LBB63_41
.LBB63_5:
	movb	$2, %al
	xorl	%edx, %edx
	jmp	.LBB63_41
.LBB63_7:
	movb	$9, %al
	xorl	%edx, %edx
	jmp	.LBB63_41
.LBB63_13:
	cmpq	$32, %rcx
	jae	.LBB63_15
	xorl	%eax, %eax
	xorl	%edx, %edx
	jmp	.LBB63_19
.LBB63_15:
	movl	%ecx, %eax
	andl	$32736, %eax
	addq	%r10, %rdx
	addq	$16, %rdx
	xorl	%r10d, %r10d
	pxor	%xmm1, %xmm1
.LBB63_16:
	movdqu	-16(%rdx,%r10), %xmm2
	pmaxub	%xmm2, %xmm0
	movdqu	(%rdx,%r10), %xmm2
	pmaxub	%xmm2, %xmm1
	addq	$32, %r10
	cmpq	%r10, %rax
	jne	.LBB63_16
	pmaxub	%xmm1, %xmm0
	pshufd	$238, %xmm0, %xmm1
	pmaxub	%xmm0, %xmm1
	pshufd	$85, %xmm1, %xmm0
	pmaxub	%xmm1, %xmm0
	movdqa	%xmm0, %xmm1
	psrld	$16, %xmm1
	pmaxub	%xmm0, %xmm1
	movdqa	%xmm1, %xmm0
	psrlw	$8, %xmm0
	pmaxub	%xmm1, %xmm0
	movd	%xmm0, %edx
	cmpq	%rax, %rcx
	je	.LBB63_23
	testb	$28, %cl
	je	.LBB63_12
.LBB63_19:
	movq	%rax, %r10
	movl	%ecx, %eax
	andl	$32764, %eax
	movzbl	%dl, %edx
	movd	%edx, %xmm0
	punpcklbw	%xmm0, %xmm0
	pshuflw	$0, %xmm0, %xmm0
	.p2align	4
.LBB63_20:
	movd	(%rbx,%r10), %xmm1
	pmaxub	%xmm1, %xmm0
	addq	$4, %r10
	cmpq	%r10, %rax
	jne	.LBB63_20
	movdqa	%xmm0, %xmm1
	psrld	$16, %xmm1
	pmaxub	%xmm0, %xmm1
	movdqa	%xmm1, %xmm0
	psrlw	$8, %xmm0
	pmaxub	%xmm1, %xmm0
	movd	%xmm0, %edx
	jmp	.LBB63_22
.LBB63_12:
	movzbl	(%rbx,%rax), %r10d
	movzbl	%dl, %edx
	cmpb	%dl, %r10b
	cmoval	%r10d, %edx
	incq	%rax
.LBB63_22:
	cmpq	%rax, %rcx
	jne	.LBB63_12
.LBB63_23:
	cmpb	$4, %dl
	jb	.LBB63_36
.LBB63_24:
	xorl	%edx, %edx
	xorl	%eax, %eax
	jmp	.LBB63_25
	.p2align	4
.LBB63_26:
	movq	$-1, %r10
	testq	%rax, %rax
	je	.LBB63_27
.LBB63_32:
	addq	%r10, %rax
	incq	%rdx
	cmpq	%rdx, %rcx
	je	.LBB63_33
.LBB63_25:
	movzbl	(%rbx,%rdx), %r10d
	cmpb	$4, %r10b
	je	.LBB63_26
	jae	.LBB63_29
	movl	$1, %r10d
	cmpq	$16383, %rax
	jbe	.LBB63_32
	movb	$5, %al
	jmp	.LBB63_41
.LBB63_36:
	movq	%rdi, 56(%rsp)
	movq	%rsi, 64(%rsp)
	leaq	-1(%r9), %r13
	jmp	.LBB63_37
.LBB63_33:
	movq	%rdi, 56(%rsp)
	movq	%rsi, 64(%rsp)
	testq	%r9, %r9
	je	.LBB63_39
	movq	%r9, %r13
	decq	%r13
	je	.LBB63_35
.LBB63_37:
	leaq	-4(,%r9,4), %rdx
	movq	%r8, %rdi
	xorl	%esi, %esi
	movq	%r8, 88(%rsp)
	movq	%rcx, 72(%rsp)
	movq	%r9, 80(%rsp)
	callq	memset@PLT
	movq	80(%rsp), %r9
	movq	72(%rsp), %rcx
	movq	88(%rsp), %r8
	shlq	$2, %r13
.LBB63_38:
	movl	$0, (%r8,%r13)
.LBB63_39:
	xorl	%eax, %eax
	movb	%r15b, %al
	shll	$12, %eax
	movq	224(%rsp), %rdx
	addq	%rax, %rdx
	movzbl	55(%rsp), %eax
	movb	%al, %r14b
	shll	$12, %r14d
	addq	%r14, %rbp
	movq	%rcx, 32(%rsp)
	movq	%rbp, 24(%rsp)
	movq	232(%rsp), %rax
	movq	%rax, 16(%rsp)
	movq	%rdx, 8(%rsp)
	movq	%r9, (%rsp)
	leaq	96(%rsp), %rdi
	movq	56(%rsp), %rsi
	movq	64(%rsp), %rdx
	movq	%rcx, %rax
	movq	%rbx, %rcx
	movq	%r8, %r9
	movq	%rax, %r8
	callq	"walk_call::set_out"
	movzbl	104(%rsp), %eax
	cmpb	$0, 96(%rsp)
	je	.LBB63_45
	movq	112(%rsp), %rdx
	jmp	.LBB63_41
.LBB63_45:
	movzbl	%al, %edx
	movaps	112(%rsp), %xmm0
	movq	144(%rsp), %rsi
	movq	152(%rsp), %xmm1
	movl	160(%rsp), %edi
	shufps	$136, 128(%rsp), %xmm0
	xorl	%eax, %eax
	xorl	%ecx, %ecx
	jmp	.LBB63_44
.LBB63_29:
	movb	$3, %al
	jmp	.LBB63_41
.LBB63_27:
	movb	$4, %al
.LBB63_41:
	movzbl	%al, %eax
	xorl	%ecx, %ecx
	movl	$3669895, %esi
	btl	%eax, %esi
	jb	.LBB63_43
	movl	%edx, %ecx
.LBB63_43:
	incl	%eax
	pxor	%xmm0, %xmm0
	xorl	%edx, %edx
	xorl	%esi, %esi
	xorl	%edi, %edi
	pxor	%xmm1, %xmm1
.LBB63_44:
	movl	%eax, (%r12)
	movl	%ecx, 4(%r12)
	movl	%edx, 8(%r12)
	movups	%xmm0, 12(%r12)
	movl	%esi, 28(%r12)
	movq	%xmm1, 32(%r12)
	movl	%edi, 40(%r12)
	addq	$168, %rsp
	popq	%rbx
	popq	%r12
	popq	%r13
	popq	%r14
	popq	%r15
	popq	%rbp
	retq
.LBB63_35:
	xorl	%r13d, %r13d
	jmp	.LBB63_38
.Lfunc_end63:
	.size	undrwyth_walk, .Lfunc_end63-undrwyth_walk

	.section	.text.undrwyth_walk_two,"ax",@progbits
	.globl	undrwyth_walk_two
	.p2align	4
	.type	undrwyth_walk_two,@function
undrwyth_walk_two:
	pushq	%rbp
	pushq	%r15
	pushq	%r14
	pushq	%r13
	pushq	%r12
	pushq	%rbx
	subq	$456, %rsp
	xorl	%r10d, %r10d
	testq	%r8, %r8
	sete	%r12b
	xorl	%eax, %eax
	cmpq	$0, 512(%rsp)
	sete	%r11b
	cmpq	$0, 528(%rsp)
	sete	48(%rsp)
	cmpq	$0, 544(%rsp)
	sete	%r13b
	cmpq	$0, 560(%rsp)
	sete	%bpl
	movq	576(%rsp), %rbx
	movl	$0, %r15d
	movl	$0, %r14d
	cmpq	$32768, %r9
	ja	.LBB64_54
	movq	520(%rsp), %r14
	movabsq	$-8198552921648689607, %rbx
	imulq	%r14, %rbx
	rorq	$2, %rbx
	movabsq	$512409557603043100, %r15
	cmpq	%r15, %rbx
	seta	%bl
	leaq	-36(%r14), %r15
	cmpq	$9442656, %r15
	setae	%r14b
	movb	$1, %r15b
	orb	%bl, %r14b
	movq	576(%rsp), %rbx
	movl	$0, %r14d
	jne	.LBB64_54
	leaq	(%r9,%r9,2), %rbx
	xorq	536(%rsp), %rbx
	movq	552(%rsp), %r14
	xorq	%r9, %r14
	orq	%rbx, %r14
	movq	568(%rsp), %rbx
	xorq	%r9, %rbx
	movb	$2, %r15b
	orq	%r14, %rbx
	movq	576(%rsp), %rbx
	movl	$0, %r14d
	jne	.LBB64_54
	leal	16384(%rdi), %ebx
	cmpl	$32769, %ebx
	setae	%bl
	leal	16384(%rsi), %r14d
	cmpl	$32769, %r14d
	setae	%r14b
	movb	$9, %r15b
	orb	%bl, %r14b
	jne	.LBB64_17
	leal	16384(%rdx), %ebx
	cmpl	$32769, %ebx
	setae	%bl
	leal	16384(%rcx), %r14d
	cmpl	$32769, %r14d
	setae	%r14b
	orb	%bl, %r14b
	movl	$0, %r14d
	movq	576(%rsp), %rbx
	jne	.LBB64_54
	movb	%r12b, %r10b
	shll	$12, %r10d
	addq	%r10, %r8
	movb	%r11b, %al
	shll	$12, %eax
	movq	512(%rsp), %r12
	addq	%rax, %r12
	testq	%r9, %r9
	movq	%r9, 64(%rsp)
	movq	%rdx, 32(%rsp)
	movq	%rdi, 56(%rsp)
	movq	%rsi, 40(%rsp)
	je	.LBB64_18
	xorl	%eax, %eax
	xorl	%edx, %edx
	xorl	%r11d, %r11d
	jmp	.LBB64_8
.LBB64_7:
	addq	%rbx, %rdx
	addq	%r11, %rax
	movq	%r14, %r11
	incq	%r11
	cmpq	%r11, %r9
	je	.LBB64_43
.LBB64_8:
	movzbl	(%r8,%r11), %r10d
	cmpb	$16, %r10b
	movq	%rax, %rbx
	cmovbq	%rdx, %rbx
	cmpb	$31, %r10b
	ja	.LBB64_42
	movq	%r11, %r14
	movl	%r10d, %r11d
	andb	$15, %r11b
	cmpb	$4, %r11b
	jne	.LBB64_11
	movq	$-1, %r11
	testq	%rbx, %rbx
	jne	.LBB64_13
	jmp	.LBB64_49
.LBB64_11:
	jae	.LBB64_48
	movl	$1, %r11d
	cmpq	$16383, %rbx
	ja	.LBB64_50
.LBB64_13:
	shrb	$4, %r10b
	movq	%r11, %rbx
	je	.LBB64_15
	xorl	%ebx, %ebx
.LBB64_15:
	cmpb	$1, %r10b
	je	.LBB64_7
	xorl	%r11d, %r11d
	jmp	.LBB64_7
.LBB64_17:
	xorl	%r14d, %r14d
	movq	576(%rsp), %rbx
	jmp	.LBB64_54
.LBB64_18:
	movq	%r8, 248(%rsp)
	movq	%rcx, %r15
	xorps	%xmm0, %xmm0
	movaps	%xmm0, 192(%rsp)
	movaps	%xmm0, 176(%rsp)
	movq	520(%rsp), %rdx
	leaq	-1(%rdx), %rbx
	movq	560(%rsp), %r14
.LBB64_19:
	leaq	-4(,%rdx,4), %rdx
	movq	%r12, %rdi
	xorl	%esi, %esi
	callq	memset@PLT
	movq	520(%rsp), %rdx
	movq	40(%rsp), %rsi
	movq	56(%rsp), %rdi
	shlq	$2, %rbx
.LBB64_20:
	xorl	%r8d, %r8d
	xorl	%r9d, %r9d
	xorl	%r10d, %r10d
	movzbl	48(%rsp), %eax
	movl	$0, (%r12,%rbx)
	movl	$0, 120(%rsp)
	movq	%r12, %rcx
.LBB64_21:
	movb	%al, %r10b
	shll	$12, %r10d
	movq	528(%rsp), %rbx
	addq	%r10, %rbx
	movb	%r13b, %r9b
	shll	$12, %r9d
	movq	544(%rsp), %r12
	addq	%r9, %r12
	movb	%bpl, %r8b
	shll	$12, %r8d
	addq	%r8, %r14
	movl	$1, 76(%rcx)
	movl	$1, 120(%rcx)
	movl	%esi, 8(%rsp)
	movl	%edi, (%rsp)
	leaq	176(%rsp), %rdi
	movl	$1, %r8d
	movl	$1, %r9d
	movq	%rcx, 128(%rsp)
	movq	%rcx, %rsi
	xorl	%ecx, %ecx
	callq	"pair_plant::plant"
	cmpb	$1, 176(%rsp)
	jne	.LBB64_31
	movq	184(%rsp), %rbp
	movq	192(%rsp), %r8
	movq	200(%rsp), %r9
	movl	%r15d, 8(%rsp)
	movq	32(%rsp), %rax
	movl	%eax, (%rsp)
	leaq	176(%rsp), %rdi
	movl	$1, %ecx
	movq	128(%rsp), %rsi
	movq	520(%rsp), %rdx
	callq	"pair_plant::plant"
	cmpb	$1, 176(%rsp)
	jne	.LBB64_31
	movq	40(%rsp), %r8
	movq	%r8, %rax
	shlq	$32, %rax
	movq	56(%rsp), %rsi
	movl	%esi, %r10d
	orq	%rax, %r10
	movq	%r15, %rcx
	movq	%r15, %rdx
	shlq	$32, %rdx
	movq	32(%rsp), %rax
	movl	%eax, %r11d
	orq	%rdx, %r11
	movq	184(%rsp), %r15
	movq	192(%rsp), %rdx
	movq	%rdx, 96(%rsp)
	movq	200(%rsp), %rdi
	xorps	%xmm0, %xmm0
	movaps	%xmm0, 176(%rsp)
	movaps	%xmm0, 192(%rsp)
	movaps	%xmm0, 208(%rsp)
	movaps	%xmm0, 224(%rsp)
	movq	$0, 240(%rsp)
	movaps	%xmm0, 256(%rsp)
	movaps	%xmm0, 272(%rsp)
	movaps	%xmm0, 288(%rsp)
	movaps	%xmm0, 304(%rsp)
	movq	$0, 320(%rsp)
	movq	64(%rsp), %rdx
	testq	%rdx, %rdx
	movq	%r14, 168(%rsp)
	je	.LBB64_57
	movq	%rbx, 144(%rsp)
	movq	%r12, 136(%rsp)
	movl	$1, %eax
	movq	%rax, 160(%rsp)
	movl	$65535, %eax
	movq	%rax, 152(%rsp)
	movq	$0, 80(%rsp)
	movq	%rax, 72(%rsp)
	movq	%rax, 48(%rsp)
	movq	%rax, 88(%rsp)
	movl	$1, %eax
	movq	%rax, 112(%rsp)
	movq	$0, 104(%rsp)
	xorl	%r14d, %r14d
	movq	248(%rsp), %r9
	jmp	.LBB64_26
.LBB64_25:
	incq	%r14
	movq	64(%rsp), %rdx
	cmpq	%r14, %rdx
	movq	%r12, %r9
	je	.LBB64_58
.LBB64_26:
	movq	%rcx, %r13
	movq	%r9, %r12
	movzbl	(%r9,%r14), %eax
	cmpb	$15, %al
	ja	.LBB64_29
	movq	%r11, %rbx
	movq	%rbp, 392(%rsp)
	movq	%r10, 400(%rsp)
	movq	80(%rsp), %rcx
	movq	%rcx, 408(%rsp)
	movq	160(%rsp), %rcx
	movq	%rcx, 416(%rsp)
	movq	72(%rsp), %rcx
	movq	%rcx, 424(%rsp)
	movq	152(%rsp), %rcx
	movq	%rcx, 432(%rsp)
	movq	96(%rsp), %rcx
	movq	%rcx, 440(%rsp)
	movq	%rdi, 448(%rsp)
	movq	%r14, 16(%rsp)
	movzbl	%al, %eax
	movl	%eax, 8(%rsp)
	leaq	392(%rsp), %rax
	movq	%rax, (%rsp)
	leaq	176(%rsp), %rdi
	movq	128(%rsp), %rsi
	movq	520(%rsp), %rdx
	movq	144(%rsp), %rcx
	movq	136(%rsp), %r8
	xorl	%r9d, %r9d
	callq	"pair_run::perform"
	movq	184(%rsp), %rbp
	movq	192(%rsp), %r10
	cmpb	$0, 176(%rsp)
	jne	.LBB64_68
	movq	200(%rsp), %rax
	movq	%rax, 80(%rsp)
	movq	208(%rsp), %rax
	movq	%rax, 160(%rsp)
	movq	216(%rsp), %rax
	movq	%rax, 72(%rsp)
	movq	224(%rsp), %rax
	movq	%rax, 152(%rsp)
	movq	232(%rsp), %rax
	movq	%rax, 96(%rsp)
	movq	240(%rsp), %rdi
	movq	32(%rsp), %rax
	movq	%r13, %rcx
	movq	56(%rsp), %rsi
	movq	40(%rsp), %r8
	movq	%rbx, %r11
	jmp	.LBB64_25
.LBB64_29:
	movq	%r10, %rbx
	movq	%r15, 328(%rsp)
	movq	%r11, 336(%rsp)
	movq	104(%rsp), %rcx
	movq	%rcx, 344(%rsp)
	movq	112(%rsp), %rcx
	movq	%rcx, 352(%rsp)
	movq	88(%rsp), %rcx
	movq	%rcx, 360(%rsp)
	movq	48(%rsp), %rcx
	movq	%rcx, 368(%rsp)
	movq	96(%rsp), %rcx
	movq	%rcx, 376(%rsp)
	movq	%rdi, 384(%rsp)
	addb	$-16, %al
	movq	%r14, 16(%rsp)
	movzbl	%al, %eax
	movl	%eax, 8(%rsp)
	leaq	328(%rsp), %rax
	movq	%rax, (%rsp)
	leaq	256(%rsp), %rdi
	movl	$1, %r9d
	movq	128(%rsp), %rsi
	movq	520(%rsp), %rdx
	movq	144(%rsp), %rcx
	movq	168(%rsp), %r8
	callq	"pair_run::perform"
	movq	264(%rsp), %r15
	movq	272(%rsp), %r11
	cmpb	$0, 256(%rsp)
	jne	.LBB64_69
	movq	280(%rsp), %rax
	movq	%rax, 104(%rsp)
	movq	288(%rsp), %rax
	movq	%rax, 112(%rsp)
	movq	296(%rsp), %rax
	movq	%rax, 88(%rsp)
	movq	304(%rsp), %rax
	movq	%rax, 48(%rsp)
	movq	312(%rsp), %rax
	movq	%rax, 96(%rsp)
	movq	320(%rsp), %rdi
	movq	32(%rsp), %rax
	movq	%r13, %rcx
	movq	56(%rsp), %rsi
	movq	40(%rsp), %r8
	movq	%rbx, %r10
	jmp	.LBB64_25
.LBB64_31:
	movb	$6, %r15b
	xorl	%r11d, %r11d
	movq	520(%rsp), %rax
	movl	120(%rsp), %ecx
	testb	%cl, %cl
	movq	64(%rsp), %rdx
	jne	.LBB64_35
.LBB64_32:
	cmpq	$1, %rax
	movq	128(%rsp), %r13
	je	.LBB64_34
	leaq	-4(,%rax,4), %rdx
	movq	%r13, %rdi
	xorl	%esi, %esi
	movq	%rbx, %rbp
	movq	%r11, %rbx
	callq	memset@PLT
	movq	520(%rsp), %rax
	movq	%rbx, %r11
	movq	%rbp, %rbx
	movq	64(%rsp), %rdx
.LBB64_34:
	movl	$0, -4(%r13,%rax,4)
.LBB64_35:
	movq	536(%rsp), %rax
	testq	%rax, %rax
	je	.LBB64_39
	cmpq	$1, %rax
	je	.LBB64_38
	leaq	-4(,%rax,4), %rdx
	movq	%rbx, %rdi
	xorl	%esi, %esi
	movq	%rbx, %r13
	movq	%r11, %rbx
	callq	memset@PLT
	movq	536(%rsp), %rax
	movq	%rbx, %r11
	movq	%r13, %rbx
	movq	64(%rsp), %rdx
.LBB64_38:
	movl	$0, -4(%rbx,%rax,4)
.LBB64_39:
	testq	%rdx, %rdx
	je	.LBB64_47
	decq	%rdx
	je	.LBB64_46
	movq	%r12, %rdi
	xorl	%esi, %esi
	movq	%rdx, %rbx
	movq	%r11, %r13
	callq	memset@PLT
	movb	$0, (%r12,%rbx)
	movq	%r14, %rdi
	xorl	%esi, %esi
	movq	%rbx, %rdx
	callq	memset@PLT
	movq	%r13, %r11
	movb	$0, (%r14,%rbx)
	jmp	.LBB64_47
.LBB64_42:
	movb	$19, %r15b
	jmp	.LBB64_52
.LBB64_43:
	xorps	%xmm0, %xmm0
	movaps	%xmm0, 192(%rsp)
	movaps	%xmm0, 176(%rsp)
	movq	520(%rsp), %rdx
	testq	%rdx, %rdx
	movq	560(%rsp), %r14
	movq	%r8, 248(%rsp)
	movq	%rcx, %r15
	je	.LBB64_56
	movq	%rdx, %rbx
	decq	%rbx
	jne	.LBB64_19
	xorl	%ebx, %ebx
	jmp	.LBB64_20
.LBB64_46:
	movb	$0, (%r12)
	movb	$0, (%r14,%rdx)
.LBB64_47:
	movzbl	%r15b, %eax
	xorl	%r14d, %r14d
	movl	$3669895, %ecx
	btl	%eax, %ecx
	movq	576(%rsp), %rbx
	jb	.LBB64_54
	jmp	.LBB64_53
.LBB64_48:
	movb	$3, %r15b
	jmp	.LBB64_51
.LBB64_49:
	movb	$4, %r15b
	jmp	.LBB64_51
.LBB64_50:
	movb	$5, %r15b
.LBB64_51:
	movq	%r14, %r11
.LBB64_52:
	movq	576(%rsp), %rbx
.LBB64_53:
	movl	%r11d, %r14d
.LBB64_54:
	movl	%r14d, 64(%rsp)
	movq	%rbx, %r12
	movzbl	%r15b, %eax
	incl	%eax
	xorl	%ebp, %ebp
	xorl	%esi, %esi
	movq	$0, 160(%rsp)
	xorl	%ebx, %ebx
	xorl	%r8d, %r8d
	xorl	%r13d, %r13d
	xorl	%r9d, %r9d
	xorl	%r11d, %r11d
	xorl	%r15d, %r15d
	movq	$0, 40(%rsp)
	xorl	%ecx, %ecx
	xorl	%r10d, %r10d
	movq	$0, 48(%rsp)
	movq	$0, 56(%rsp)
	xorl	%edi, %edi
	xorl	%r14d, %r14d
	movl	$0, 96(%rsp)
.LBB64_55:
	movl	%eax, (%r12)
	movl	64(%rsp), %edx
	movl	%edx, 4(%r12)
	movl	96(%rsp), %edx
	movl	%edx, 8(%r12)
	movl	%ebp, 12(%r12)
	movl	%esi, 16(%r12)
	movq	160(%rsp), %rdx
	movl	%edx, 20(%r12)
	movl	%ebx, 24(%r12)
	movl	%r8d, 28(%r12)
	movl	%r13d, 32(%r12)
	movl	%r9d, 36(%r12)
	movl	%r11d, 40(%r12)
	movl	%r15d, 44(%r12)
	movq	40(%rsp), %rdx
	movl	%edx, 48(%r12)
	movl	%ecx, 52(%r12)
	movl	%r10d, 56(%r12)
	movq	48(%rsp), %rcx
	movl	%ecx, 60(%r12)
	movq	56(%rsp), %rcx
	movl	%ecx, 64(%r12)
	movl	%edi, 68(%r12)
	movl	%r14d, 72(%r12)
	addq	$456, %rsp
	popq	%rbx
	popq	%r12
	popq	%r13
	popq	%r14
	popq	%r15
	popq	%rbp
	retq
.LBB64_56:
	movb	$1, %al
	movl	%eax, 120(%rsp)
	movq	%r12, %rcx
	xorl	%r8d, %r8d
	xorl	%r9d, %r9d
	xorl	%r10d, %r10d
	movzbl	48(%rsp), %eax
	jmp	.LBB64_21
.LBB64_57:
	movq	$0, 80(%rsp)
	movl	$65535, %edi
	movq	%rdi, 72(%rsp)
	movl	$1, %edi
	movq	%rdi, 160(%rsp)
	movl	$65535, %r14d
	xorl	%r9d, %r9d
	movl	$1, %edi
	movq	%rdi, 112(%rsp)
	movl	$65535, %r13d
	movl	$65535, %edi
	movq	%rdi, 48(%rsp)
	jmp	.LBB64_59
.LBB64_58:
	movq	136(%rsp), %r12
	movq	152(%rsp), %r14
	movq	88(%rsp), %r13
	movq	104(%rsp), %r9
.LBB64_59:
	movq	%r10, %rbx
	shrq	$32, %rbx
	cmpl	%r10d, %esi
	movq	%rbx, 128(%rsp)
	movq	%r14, 152(%rsp)
	jne	.LBB64_66
	xorl	%r15d, %r15d
	movq	80(%rsp), %rdi
	testq	%rdi, %rdi
	je	.LBB64_70
	cmpl	%ebx, %r8d
	jne	.LBB64_67
	movl	$4, %r8d
	cmpq	$0, 72(%rsp)
	jne	.LBB64_93
	movq	%rdi, %rbx
	cmpq	%rdi, %r14
	jne	.LBB64_72
	cmpq	$1, %rdi
	movq	%rdi, %r8
	setne	%dil
	cmpq	$3, %r8
	setb	%r8b
	testb	%r8b, %dil
	je	.LBB64_95
	movq	$0, 72(%rsp)
	movq	80(%rsp), %rdi
	xorl	%r15d, %r15d
	movq	%rdi, %rbx
	movl	$5, %r8d
	jmp	.LBB64_72
.LBB64_66:
	movq	80(%rsp), %rdi
	testq	%rdi, %rdi
	je	.LBB64_71
.LBB64_67:
	xorl	%esi, %esi
	cmpq	$65535, %r14
	setne	%sil
	leal	1(,%rsi,2), %r8d
	xorl	%r15d, %r15d
	movq	%rdi, %rbx
	jmp	.LBB64_72
.LBB64_68:
	movq	%rbp, %r15
	movq	%r10, %r11
.LBB64_69:
	movl	120(%rsp), %ecx
	movq	168(%rsp), %r14
	movq	136(%rsp), %r12
	movq	144(%rsp), %rbx
	movq	520(%rsp), %rax
	testb	%cl, %cl
	movq	64(%rsp), %rdx
	je	.LBB64_32
	jmp	.LBB64_35
.LBB64_70:
	xorl	%ebx, %ebx
	xorl	%r8d, %r8d
	jmp	.LBB64_72
.LBB64_71:
	xorl	%ebx, %ebx
	xorl	%r8d, %r8d
	xorl	%r15d, %r15d
.LBB64_72:
	movl	%r8d, 144(%rsp)
	movq	%r13, 88(%rsp)
	movq	%r11, %rsi
	shrq	$32, %rsi
	cmpq	%rdi, %rdx
	movq	112(%rsp), %rbp
	movq	%rbx, 120(%rsp)
	movq	48(%rsp), %r13
	je	.LBB64_76
	movq	%r12, %r14
	addq	%rdi, %r14
	notq	%rbx
	addq	%rdx, %rbx
	je	.LBB64_75
	movq	%r14, %rdi
	movq	%rsi, 40(%rsp)
	xorl	%esi, %esi
	movq	%rbx, %rdx
	movq	%rbx, 136(%rsp)
	movq	%rcx, %rbx
	movq	%r11, 56(%rsp)
	movq	%r10, %r12
	movq	%r9, 104(%rsp)
	callq	memset@PLT
	movq	40(%rsp), %rsi
	movq	104(%rsp), %r9
	movq	112(%rsp), %rbp
	movq	48(%rsp), %r13
	movq	%r12, %r10
	movq	56(%rsp), %r11
	movq	%rbx, %rcx
	movq	136(%rsp), %rbx
	movq	32(%rsp), %rax
	movq	64(%rsp), %rdx
.LBB64_75:
	movb	$0, (%r14,%rbx)
.LBB64_76:
	movq	%rbp, 112(%rsp)
	cmpl	%r11d, %eax
	movq	%r13, 48(%rsp)
	movq	%r15, 80(%rsp)
	jne	.LBB64_83
	xorl	%ebp, %ebp
	testq	%r9, %r9
	je	.LBB64_86
	cmpl	%esi, %ecx
	jne	.LBB64_84
	cmpq	$0, 88(%rsp)
	jne	.LBB64_94
	movl	$4, 32(%rsp)
	movq	%r9, %r15
	cmpq	%r9, %r13
	movq	576(%rsp), %r12
	jne	.LBB64_88
	movq	%rsi, %r15
	cmpq	$1, %r9
	setne	%cl
	cmpq	$3, %r9
	setb	%sil
	testb	%sil, %cl
	je	.LBB64_98
	movq	$0, 88(%rsp)
	movl	$5, 32(%rsp)
	xorl	%ebp, %ebp
	movq	%r15, %rsi
	movq	%r9, %r15
	cmpq	%r9, %rdx
	jne	.LBB64_89
	jmp	.LBB64_92
.LBB64_83:
	testq	%r9, %r9
	je	.LBB64_87
.LBB64_84:
	xorl	%eax, %eax
	cmpq	$65535, %r13
	setne	%al
	leal	1(,%rax,2), %eax
	movl	%eax, 32(%rsp)
	xorl	%ebp, %ebp
.LBB64_85:
	movq	%r9, %r15
	movq	576(%rsp), %r12
	cmpq	%r9, %rdx
	jne	.LBB64_89
	jmp	.LBB64_92
.LBB64_86:
	xorl	%r15d, %r15d
	movl	$0, 32(%rsp)
	movq	576(%rsp), %r12
	cmpq	%r9, %rdx
	jne	.LBB64_89
	jmp	.LBB64_92
.LBB64_87:
	xorl	%r15d, %r15d
	movl	$0, 32(%rsp)
	xorl	%ebp, %ebp
	movq	576(%rsp), %r12
.LBB64_88:
	cmpq	%r9, %rdx
	je	.LBB64_92
.LBB64_89:
	movq	168(%rsp), %rbx
	addq	%r9, %rbx
	movq	%r15, %rax
	notq	%rax
	addq	%rax, %rdx
	movq	72(%rsp), %rax
	je	.LBB64_91
	movq	%rbx, %rdi
	movq	%rsi, %r14
	xorl	%esi, %esi
	movq	%rdx, 64(%rsp)
	movq	%r11, 56(%rsp)
	movq	%r10, 40(%rsp)
	callq	memset@PLT
	movq	%r14, %rsi
	movq	576(%rsp), %r12
	movq	72(%rsp), %rax
	movq	40(%rsp), %r10
	movq	56(%rsp), %r11
	movq	64(%rsp), %rdx
.LBB64_91:
	movq	%rax, 72(%rsp)
	movb	$0, (%rbx,%rdx)
.LBB64_92:
	xorl	%eax, %eax
	movl	$0, 64(%rsp)
	movq	96(%rsp), %rcx
	movl	%ecx, 96(%rsp)
	movq	%r10, %r9
	movq	88(%rsp), %r10
	movq	%r11, %rdi
	movq	128(%rsp), %r11
	movq	80(%rsp), %r13
	movq	152(%rsp), %r8
	movq	%rbp, 56(%rsp)
	movl	144(%rsp), %ebp
	movq	%rsi, %r14
	movq	120(%rsp), %rsi
	movq	72(%rsp), %rbx
	movq	112(%rsp), %rcx
	movq	%r15, 40(%rsp)
	movl	32(%rsp), %r15d
	jmp	.LBB64_55
.LBB64_93:
	movq	%rdi, %rbx
	jmp	.LBB64_72
.LBB64_94:
	movl	$4, 32(%rsp)
	jmp	.LBB64_85
.LBB64_95:
	movq	%r9, 104(%rsp)
	movq	%r10, 40(%rsp)
	xorl	%r15d, %r15d
	xorl	%edi, %edi
	movq	80(%rsp), %rbx
.LBB64_96:
	movzbl	(%r12,%rdi), %r8d
	xorl	%r9d, %r9d
	cmpb	$1, %r8b
	sete	%r9b
	movl	%esi, %r10d
	adcl	$0, %r10d
	cmpb	$3, %r8b
	adcl	$-1, %r9d
	imull	%esi, %r9d
	addl	%r9d, %r15d
	xorl	%esi, %esi
	cmpb	$2, %r8b
	sete	%sil
	subl	%esi, %r10d
	incq	%rdi
	movl	%r10d, %esi
	cmpq	%rdi, %rbx
	jne	.LBB64_96
	movq	$0, 72(%rsp)
	movq	40(%rsp), %r10
	movq	104(%rsp), %r9
	movq	%rbx, %rdi
	movl	$2, %r8d
	jmp	.LBB64_72
.LBB64_98:
	xorl	%ebp, %ebp
	xorl	%ecx, %ecx
	movq	%r9, %rbx
	movq	168(%rsp), %r9
.LBB64_99:
	movzbl	(%r9,%rcx), %esi
	xorl	%edi, %edi
	cmpb	$1, %sil
	sete	%dil
	movl	%eax, %r8d
	adcl	$0, %r8d
	cmpb	$3, %sil
	adcl	$-1, %edi
	imull	%eax, %edi
	addl	%edi, %ebp
	xorl	%eax, %eax
	cmpb	$2, %sil
	sete	%al
	subl	%eax, %r8d
	incq	%rcx
	movl	%r8d, %eax
	cmpq	%rcx, %rbx
	jne	.LBB64_99
	movl	$2, 32(%rsp)
	movq	$0, 88(%rsp)
	movq	%rbx, %r9
	movq	%r15, %rsi
	movq	%rbx, %r15
	cmpq	%r9, %rdx
	jne	.LBB64_89
	jmp	.LBB64_92
.Lfunc_end64:
	.size	undrwyth_walk_two, .Lfunc_end64-undrwyth_walk_two

	.ident	"rattle logic=dac8208d650f15bf3e2dc313a14fa4c783a3acf887bdfab66e1714b038d9e11b"
	.section	".note.GNU-stack","",@progbits
