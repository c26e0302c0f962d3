/* Undrwyth, the program rows for x86_64 under Linux: made by scripts/dist from the sources of state 6ebe34014c5cbdcaab53ada40270abd81a24510c61112a54dce22a0a74dc2a61, which the Rattle kit proved; do not edit. SPDX-License-Identifier: MIT */
	.file	"rattle"
	.section	.rodata.cst16,"aM",@progbits,16
	.p2align	4, 0x0
.LCPI0_0:
	.zero	16,1
.LCPI0_1:
	.zero	16,208
.LCPI0_2:
	.zero	16,9
.LCPI0_3:
	.zero	16,159
.LCPI0_4:
	.zero	16,5
.LCPI0_5:
	.zero	2
	.short	65535
	.short	65535
	.short	65535
	.short	65535
	.short	65535
	.short	65535
	.short	65535
.LCPI0_6:
	.byte	208
	.byte	208
	.byte	208
	.byte	208
	.byte	208
	.byte	208
	.byte	208
	.byte	208
	.zero	1
	.zero	1
	.zero	1
	.zero	1
	.zero	1
	.zero	1
	.zero	1
	.zero	1
.LCPI0_7:
	.byte	10
	.byte	10
	.byte	10
	.byte	10
	.byte	10
	.byte	10
	.byte	10
	.byte	10
	.zero	1
	.zero	1
	.zero	1
	.zero	1
	.zero	1
	.zero	1
	.zero	1
	.zero	1
.LCPI0_8:
	.byte	159
	.byte	159
	.byte	159
	.byte	159
	.byte	159
	.byte	159
	.byte	159
	.byte	159
	.zero	1
	.zero	1
	.zero	1
	.zero	1
	.zero	1
	.zero	1
	.zero	1
	.zero	1
.LCPI0_9:
	.byte	6
	.byte	6
	.byte	6
	.byte	6
	.byte	6
	.byte	6
	.byte	6
	.byte	6
	.zero	1
	.zero	1
	.zero	1
	.zero	1
	.zero	1
	.zero	1
	.zero	1
	.zero	1
.LCPI0_10:
	.zero	16,57
.LCPI0_11:
	.zero	16,169
.LCPI0_12:
	.byte	58
	.byte	58
	.byte	58
	.byte	58
	.byte	58
	.byte	58
	.byte	58
	.byte	58
	.zero	1
	.zero	1
	.zero	1
	.zero	1
	.zero	1
	.zero	1
	.zero	1
	.zero	1
.LCPI0_13:
	.byte	169
	.byte	169
	.byte	169
	.byte	169
	.byte	169
	.byte	169
	.byte	169
	.byte	169
	.zero	1
	.zero	1
	.zero	1
	.zero	1
	.zero	1
	.zero	1
	.zero	1
	.zero	1
.LCPI0_14:
	.byte	1
	.byte	1
	.zero	1
	.zero	1
	.zero	1
	.zero	1
	.zero	1
	.zero	1
	.zero	1
	.zero	1
	.zero	1
	.zero	1
	.zero	1
	.zero	1
	.zero	1
	.zero	1
	.section	".text.lines::tell","ax",@progbits
	.p2align	4
	.type	"lines::tell",@function
"lines::tell":
	pushq	%rbp
	pushq	%r15
	pushq	%r14
	pushq	%r13
	pushq	%r12
	pushq	%rbx
	movq	%rsp, %r11
	subq	$132096, %r11
.LBB0_1:
	subq	$3072, %rsp
	movq	$0, (%rsp)
	cmpq	%r11, %rsp
	jne	.LBB0_1
	subq	$152, %rsp
	movq	%r8, %r14
	movq	%rcx, %r12
	movq	%rdx, %r15
	movq	%rsi, %rbp
	movq	%rdi, %r13
	leaq	-1031(%rsi), %rbx
	leaq	128(%rsp), %rdi
	movl	$1024, %edx
	xorl	%esi, %esi
	callq	memset@PLT
	movb	$8, %al
	cmpq	$-1025, %rbx
	jb	.LBB0_3
	cmpq	$8, %rbp
	jae	.LBB0_6
	movb	$1, %dl
	xorl	%ecx, %ecx
	jmp	.LBB0_15
.LBB0_6:
	cmpq	$32, %rbp
	jae	.LBB0_8
	movb	$1, %dl
	xorl	%ecx, %ecx
	jmp	.LBB0_12
.LBB0_8:
	movl	%ebp, %ecx
	andl	$2016, %ecx
	movdqa	.LCPI0_0(%rip), %xmm0
	xorl	%edx, %edx
	movdqa	%xmm0, %xmm1
	.p2align	4
.LBB0_9:
	movdqu	(%r13,%rdx), %xmm2
	movdqu	16(%r13,%rdx), %xmm3
	movdqa	.LCPI0_1(%rip), %xmm4
	movdqa	%xmm2, %xmm5
	paddb	%xmm4, %xmm5
	paddb	%xmm3, %xmm4
	movdqa	.LCPI0_2(%rip), %xmm6
	movdqa	%xmm5, %xmm7
	pminub	%xmm6, %xmm7
	pcmpeqb	%xmm5, %xmm7
	pminub	%xmm4, %xmm6
	pcmpeqb	%xmm4, %xmm6
	movdqa	.LCPI0_3(%rip), %xmm4
	paddb	%xmm4, %xmm2
	paddb	%xmm4, %xmm3
	movdqa	.LCPI0_4(%rip), %xmm4
	movdqa	%xmm2, %xmm5
	pminub	%xmm4, %xmm5
	pcmpeqb	%xmm2, %xmm5
	por	%xmm7, %xmm5
	pand	%xmm5, %xmm1
	pminub	%xmm3, %xmm4
	pcmpeqb	%xmm3, %xmm4
	por	%xmm6, %xmm4
	pand	%xmm4, %xmm0
	addq	$32, %rdx
	cmpq	%rdx, %rcx
	jne	.LBB0_9
	pand	%xmm1, %xmm0
	psllw	$7, %xmm0
	pmovmskb	%xmm0, %edx
	cmpl	$65535, %edx
	sete	%dl
	cmpq	%rcx, %rbp
	je	.LBB0_17
	testb	$24, %bpl
	je	.LBB0_15
.LBB0_12:
	movq	%rcx, %rsi
	movl	%ebp, %ecx
	andl	$2040, %ecx
	movzbl	%dl, %edx
	movdqa	.LCPI0_5(%rip), %xmm0
	pinsrw	$0, %edx, %xmm0
	.p2align	4
.LBB0_13:
	movq	(%r13,%rsi), %xmm1
	movdqa	.LCPI0_6(%rip), %xmm2
	paddb	%xmm1, %xmm2
	movdqa	.LCPI0_7(%rip), %xmm3
	pmaxub	%xmm2, %xmm3
	pcmpeqb	%xmm2, %xmm3
	pcmpeqd	%xmm2, %xmm2
	pxor	%xmm2, %xmm3
	paddb	.LCPI0_8(%rip), %xmm1
	movdqa	.LCPI0_9(%rip), %xmm4
	pmaxub	%xmm1, %xmm4
	pcmpeqb	%xmm1, %xmm4
	pxor	%xmm2, %xmm4
	por	%xmm3, %xmm4
	punpcklbw	%xmm4, %xmm4
	pand	%xmm4, %xmm0
	addq	$8, %rsi
	cmpq	%rsi, %rcx
	jne	.LBB0_13
	psllw	$7, %xmm0
	pmovmskb	%xmm0, %edx
	notl	%edx
	testl	$21845, %edx
	sete	%dl
	jmp	.LBB0_16
.LBB0_3:
	xorl	%ecx, %ecx
.LBB0_26:
	movzbl	%al, %edx
	movq	%r12, %rdi
	movq	%r14, %rsi
	addq	$132248, %rsp
	popq	%rbx
	popq	%r12
	popq	%r13
	popq	%r14
	popq	%r15
	popq	%rbp
	jmp	"line_rows::tell_refusal"
.LBB0_15:
	movzbl	(%r13,%rcx), %esi
	leal	-48(%rsi), %edi
	cmpb	$10, %dil
	setb	%dil
	addb	$-97, %sil
	cmpb	$6, %sil
	setb	%sil
	orb	%dil, %sil
	andb	%sil, %dl
	incq	%rcx
.LBB0_16:
	cmpq	%rcx, %rbp
	jne	.LBB0_15
.LBB0_17:
	testb	%dl, %dl
	je	.LBB0_3
	movzbl	(%r13), %ecx
	movzbl	1(%r13), %edi
	cmpb	$58, %cl
	movl	$208, %edx
	movl	$169, %r8d
	cmovbl	%edx, %r8d
	movl	$169, %esi
	addb	%cl, %r8b
	movzbl	%r8b, %r8d
	shll	$4, %r8d
	cmpb	$58, %dil
	movl	$169, %ecx
	cmovbl	%edx, %ecx
	addb	%dil, %cl
	movzbl	%cl, %edi
	addl	%r8d, %edi
	cmpl	$1, %edi
	ja	.LBB0_3
	movq	%r12, 24(%rsp)
	movq	%r14, 16(%rsp)
	movzbl	2(%r13), %edi
	cmpb	$58, %dil
	movl	$169, %r8d
	cmovbl	%edx, %r8d
	movzbl	3(%r13), %r9d
	addb	%dil, %r8b
	cmpb	$58, %r9b
	movl	$169, %edi
	cmovbl	%edx, %edi
	addb	%r9b, %dil
	movzbl	%r8b, %r8d
	shll	$12, %r8d
	movzbl	%dil, %r14d
	shll	$8, %r14d
	movzbl	4(%r13), %edi
	cmpb	$58, %dil
	movl	$169, %r9d
	cmovbl	%edx, %r9d
	addb	%dil, %r9b
	movzbl	%r9b, %r12d
	shll	$4, %r12d
	movzbl	5(%r13), %edi
	cmpb	$58, %dil
	cmovbl	%edx, %esi
	addb	%dil, %sil
	movzbl	%sil, %ebx
	addq	%r8, %r14
	leaq	(%r14,%rbx), %r8
	addq	%r12, %r8
	addq	$-6, %rbp
	cmpq	%r8, %rbp
	jne	.LBB0_24
	testb	%cl, %cl
	je	.LBB0_27
	movb	$18, %al
.LBB0_24:
	xorl	%ecx, %ecx
.LBB0_25:
	movq	16(%rsp), %r14
	movq	24(%rsp), %r12
	jmp	.LBB0_26
.LBB0_27:
	leaq	1152(%rsp), %rdi
	movl	$1024, %edx
	xorl	%esi, %esi
	movq	%r8, 64(%rsp)
	callq	memset@PLT
	movq	64(%rsp), %r9
	testq	%r9, %r9
	je	.LBB0_64
	cmpl	$8, %r9d
	jae	.LBB0_30
	xorl	%eax, %eax
	jmp	.LBB0_39
.LBB0_30:
	cmpl	$32, %r9d
	jae	.LBB0_32
	xorl	%eax, %eax
	jmp	.LBB0_36
.LBB0_32:
	movl	%r9d, %eax
	andl	$-32, %eax
	xorl	%ecx, %ecx
.LBB0_33:
	movdqu	6(%r13,%rcx), %xmm0
	movdqu	22(%r13,%rcx), %xmm1
	movdqa	.LCPI0_10(%rip), %xmm2
	movdqa	%xmm0, %xmm3
	pminub	%xmm2, %xmm3
	pcmpeqb	%xmm0, %xmm3
	pminub	%xmm1, %xmm2
	pcmpeqb	%xmm1, %xmm2
	movdqa	.LCPI0_11(%rip), %xmm4
	movdqa	%xmm3, %xmm5
	pandn	%xmm4, %xmm5
	movdqa	.LCPI0_1(%rip), %xmm6
	pand	%xmm6, %xmm3
	por	%xmm5, %xmm3
	movdqa	%xmm2, %xmm5
	pandn	%xmm4, %xmm5
	pand	%xmm6, %xmm2
	por	%xmm5, %xmm2
	paddb	%xmm0, %xmm3
	paddb	%xmm1, %xmm2
	movdqu	%xmm3, 1152(%rsp,%rcx)
	movdqu	%xmm2, 1168(%rsp,%rcx)
	addq	$32, %rcx
	cmpq	%rcx, %rax
	jne	.LBB0_33
	cmpl	%eax, %r9d
	je	.LBB0_43
	testb	$24, %r9b
	je	.LBB0_39
.LBB0_36:
	movl	%ebx, %ecx
	andl	$7, %ecx
	leaq	(%r12,%rbx), %rdx
	addq	%r14, %rdx
	subq	%rax, %rdx
	leaq	(%rsp,%rax), %rsi
	addq	$1152, %rsi
	leaq	(%rax,%r13), %rdi
	addq	$6, %rdi
	movq	%r9, %rax
	subq	%rcx, %rax
	subq	%rcx, %rdx
	xorl	%r8d, %r8d
.LBB0_37:
	movq	(%rdi,%r8), %xmm0
	movdqa	.LCPI0_12(%rip), %xmm1
	pmaxub	%xmm0, %xmm1
	pcmpeqb	%xmm0, %xmm1
	movdqa	.LCPI0_13(%rip), %xmm2
	pand	%xmm1, %xmm2
	pandn	.LCPI0_6(%rip), %xmm1
	por	%xmm2, %xmm1
	paddb	%xmm0, %xmm1
	movq	%xmm1, (%rsi,%r8)
	addq	$8, %r8
	cmpq	%r8, %rdx
	jne	.LBB0_37
	testq	%rcx, %rcx
	je	.LBB0_43
.LBB0_39:
	leaq	(%r12,%rbx), %rcx
	addq	%r14, %rcx
	subq	%rax, %rcx
	leaq	(%rsp,%rax), %rdx
	addq	$1152, %rdx
	addq	%r13, %rax
	addq	$6, %rax
	xorl	%esi, %esi
	jmp	.LBB0_41
	.p2align	4
.LBB0_40:
	addb	%dil, %r8b
	movb	%r8b, (%rdx,%rsi)
	incq	%rsi
	cmpq	%rsi, %rcx
	je	.LBB0_43
.LBB0_41:
	movzbl	(%rax,%rsi), %edi
	movl	$208, %r8d
	cmpb	$58, %dil
	jb	.LBB0_40
	movl	$169, %r8d
	jmp	.LBB0_40
.LBB0_43:
	cmpl	$4, %r9d
	jae	.LBB0_45
	xorl	%ecx, %ecx
	xorl	%eax, %eax
	jmp	.LBB0_54
.LBB0_45:
	cmpl	$32, %r9d
	jae	.LBB0_47
	xorl	%eax, %eax
	xorl	%ecx, %ecx
	jmp	.LBB0_51
.LBB0_47:
	movl	%r9d, %eax
	andl	$-32, %eax
	pxor	%xmm0, %xmm0
	xorl	%ecx, %ecx
	pxor	%xmm1, %xmm1
.LBB0_48:
	movdqu	1152(%rsp,%rcx), %xmm2
	pmaxub	%xmm2, %xmm0
	movdqu	1168(%rsp,%rcx), %xmm2
	pmaxub	%xmm2, %xmm1
	addq	$32, %rcx
	cmpq	%rcx, %rax
	jne	.LBB0_48
	pmaxub	%xmm1, %xmm0
	pshufd	$238, %xmm0, %xmm1
	pmaxub	%xmm0, %xmm1
	pshufd	$85, %xmm1, %xmm0
	pmaxub	%xmm1, %xmm0
	movdqa	%xmm0, %xmm1
	psrld	$16, %xmm1
	pmaxub	%xmm0, %xmm1
	movdqa	%xmm1, %xmm0
	psrlw	$8, %xmm0
	pmaxub	%xmm1, %xmm0
	movd	%xmm0, %ecx
	cmpl	%eax, %r9d
	je	.LBB0_56
	testb	$28, %r9b
	je	.LBB0_54
.LBB0_51:
	movl	%ebx, %edx
	andl	$3, %edx
	leaq	(%r12,%rbx), %rsi
	addq	%r14, %rsi
	subq	%rax, %rsi
	leaq	(%rsp,%rax), %rdi
	addq	$1152, %rdi
	movq	%r9, %rax
	subq	%rdx, %rax
	movzbl	%cl, %ecx
	movd	%ecx, %xmm0
	punpcklbw	%xmm0, %xmm0
	pshuflw	$0, %xmm0, %xmm0
	subq	%rdx, %rsi
	xorl	%ecx, %ecx
.LBB0_52:
	movd	(%rdi,%rcx), %xmm1
	pmaxub	%xmm1, %xmm0
	addq	$4, %rcx
	cmpq	%rcx, %rsi
	jne	.LBB0_52
	movdqa	%xmm0, %xmm1
	psrld	$16, %xmm1
	pmaxub	%xmm0, %xmm1
	movdqa	%xmm1, %xmm0
	psrlw	$8, %xmm0
	pmaxub	%xmm1, %xmm0
	movd	%xmm0, %ecx
	testq	%rdx, %rdx
	je	.LBB0_56
.LBB0_54:
	addq	%rbx, %r12
	addq	%r12, %r14
	subq	%rax, %r14
	addq	%rsp, %rax
	addq	$1152, %rax
	xorl	%edx, %edx
	.p2align	4
.LBB0_55:
	movzbl	(%rax,%rdx), %esi
	movzbl	%cl, %ecx
	cmpb	%cl, %sil
	cmoval	%esi, %ecx
	incq	%rdx
	cmpq	%rdx, %r14
	jne	.LBB0_55
.LBB0_56:
	cmpb	$4, %cl
	jb	.LBB0_64
	xorl	%ecx, %ecx
	xorl	%eax, %eax
	jmp	.LBB0_60
.LBB0_58:
	movq	$-1, %rdx
	testq	%rax, %rax
	je	.LBB0_150
.LBB0_59:
	addq	%rdx, %rax
	incq	%rcx
	cmpq	%rcx, %r9
	je	.LBB0_64
.LBB0_60:
	movzbl	1152(%rsp,%rcx), %edx
	cmpb	$4, %dl
	je	.LBB0_58
	jae	.LBB0_149
	movl	$1, %edx
	cmpq	$16383, %rax
	jbe	.LBB0_59
	movb	$5, %al
	jmp	.LBB0_25
.LBB0_64:
	movl	72(%r15), %eax
	leal	1(%rax), %ecx
	movl	%ecx, 72(%r15)
	testl	%eax, %eax
	jne	.LBB0_66
	movl	$1, 80(%r15)
.LBB0_66:
	testq	%r9, %r9
	je	.LBB0_132
	movl	$1, %ebp
	xorl	%r8d, %r8d
	xorl	%ebx, %ebx
	movq	$0, 32(%rsp)
	xorl	%r13d, %r13d
	jmp	.LBB0_70
.LBB0_68:
	addl	%ecx, %edi
	movb	%r14b, %al
	movq	32(%rsp), %rcx
	subq	%rax, %rcx
	shlq	$32, %r13
	movl	%ecx, %ecx
	orq	%r13, %rcx
	movq	%rcx, 32(%rsp)
.LBB0_69:
	leaq	(%r8,%r8,2), %rax
	movl	%ebp, 32000(%r15,%rax,4)
	movl	72(%r15,%r11), %ecx
	movl	%ecx, 32004(%r15,%rax,4)
	movl	%edi, 32008(%r15,%rax,4)
	incq	%r8
	movq	%r12, %r13
	cmpq	%rdx, %r8
	je	.LBB0_134
.LBB0_70:
	movzbl	1152(%rsp,%r8), %esi
	movq	32(%rsp), %rax
	shrq	$32, %rax
	movq	%rax, 56(%rsp)
	cmpq	$4, %rsi
	movq	%r8, 72(%rsp)
	jne	.LBB0_75
	movq	%rbx, %rsi
	movzbl	127(%rsp,%rbx), %eax
	movl	%eax, %r9d
	andl	$3, %r9d
	movq	%r9, 40(%rsp)
	xorq	$2, %r9
	leaq	(,%r13,4), %rcx
	addq	%r13, %rcx
	leaq	(%rcx,%rcx,4), %r11
	addq	%r9, %r11
	movl	40(%r15,%r11,4), %ecx
	leaq	-1(%rcx), %r12
	imulq	$100, %r12, %rdx
	movq	%rdx, 48(%rsp)
	movl	(%r15,%rdx), %r10d
	testl	%r10d, %r10d
	je	.LBB0_83
	leaq	10(%rax), %rdi
	movl	$2, %ebx
	movq	%r12, %r8
	movq	%r13, %rdx
	.p2align	4
.LBB0_73:
	movl	%r10d, %ecx
	leaq	(%rcx,%rcx,4), %r10
	leaq	(%r10,%r10,4), %r10
	addq	%rax, %r10
	cmpl	%esi, -44(%r15,%r10,4)
	jne	.LBB0_92
	decq	%rcx
	leaq	(%rcx,%rcx,4), %r10
	leaq	(%r10,%r10,4), %r10
	addq	%rdi, %r10
	movl	(%r15,%r10,4), %r14d
	decq	%r14
	xorl	%r10d, %r10d
	cmpq	%rdx, %rcx
	setne	%r10b
	xorl	%edx, %edx
	cmpq	%r8, %r14
	setne	%dl
	addl	%r10d, %ebx
	addl	%edx, %ebx
	imulq	$100, %rcx, %rdx
	movl	(%r15,%rdx), %r10d
	movq	%rcx, %r8
	movq	%r14, %rdx
	testl	%r10d, %r10d
	jne	.LBB0_73
	jmp	.LBB0_93
.LBB0_75:
	movb	%sil, 128(%rsp,%rbx)
	incq	%rbx
	movq	%rbx, 40(%rsp)
	leaq	(,%r13,4), %rax
	addq	%r13, %rax
	leaq	(%rax,%rax,4), %r10
	leaq	(%rsi,%r10), %rax
	addq	$10, %rax
	movl	(%r15,%rax,4), %r12d
	testq	%r12, %r12
	movq	%r10, 104(%rsp)
	je	.LBB0_84
	decq	%r12
.LBB0_77:
	imulq	$100, %r12, %r11
	movl	72(%r15,%r11), %eax
	leal	1(%rax), %ecx
	movl	%ecx, 72(%r15,%r11)
	testl	%eax, %eax
	movq	40(%rsp), %rbx
	jne	.LBB0_79
	leal	1(%rbx), %eax
	movl	%eax, 80(%r15,%r11)
.LBB0_79:
	cmpb	$1, %sil
	adcq	$0, 32(%rsp)
	xorl	%ecx, %ecx
	cmpb	$1, %sil
	sete	%cl
	movq	104(%rsp), %rdx
	addq	%rsi, %rdx
	movl	84(%r15,%rdx,4), %eax
	incl	%eax
	movl	%esi, %edi
	andl	$3, %edi
	movl	%eax, 84(%r15,%rdx,4)
	leaq	(%r12,%r12,4), %rdx
	leaq	(%rdx,%rdx,4), %rdx
	xorq	$2, %rdi
	addq	%rdx, %rdi
	movl	%eax, 84(%r15,%rdi,4)
	xorl	%eax, %eax
	cmpb	$2, %sil
	sete	%r14b
	movq	56(%rsp), %r13
	addq	%rcx, %r13
	cmpb	$3, %sil
	adcq	$-1, %r13
	leaq	1(%r12), %rcx
	cmpq	%rbp, %rcx
	cmovaq	%rcx, %rbp
	movl	40(%r15,%rdi,4), %r9d
	leaq	-1(%r9), %rdi
	imulq	$100, %rdi, %rcx
	movl	(%r15,%rcx), %r10d
	testl	%r10d, %r10d
	je	.LBB0_91
	movq	%r11, 48(%rsp)
	movl	$2, %ecx
	movq	%r12, %r11
	leaq	10(%rsi), %rdx
	.p2align	4
.LBB0_81:
	movl	%r10d, %r9d
	leaq	(%r9,%r9,4), %r8
	leaq	(%r8,%r8,4), %r8
	addq	%rsi, %r8
	cmpl	%ebx, -44(%r15,%r8,4)
	jne	.LBB0_105
	decq	%r9
	leaq	(%r9,%r9,4), %r8
	leaq	(%r8,%r8,4), %r8
	addq	%rdx, %r8
	movl	(%r15,%r8,4), %r8d
	decq	%r8
	xorl	%r10d, %r10d
	cmpq	%r11, %r9
	setne	%r10b
	xorl	%r11d, %r11d
	cmpq	%rdi, %r8
	setne	%r11b
	addl	%r10d, %ecx
	addl	%r11d, %ecx
	imulq	$100, %r9, %rdi
	movl	(%r15,%rdi), %r10d
	movq	%r9, %rdi
	movq	%r8, %r11
	testl	%r10d, %r10d
	jne	.LBB0_81
	jmp	.LBB0_106
.LBB0_83:
	movl	$2, %ebx
	movq	%r13, %r14
	jmp	.LBB0_94
.LBB0_84:
	xorl	%eax, %eax
	cmpb	$2, %sil
	sete	%al
	cmpb	$1, %sil
	sbbl	$0, %eax
	xorl	%r11d, %r11d
	cmpb	$1, %sil
	sete	%r11b
	negl	%eax
	movq	%rax, 48(%rsp)
	cmpb	$3, %sil
	adcl	$-1, %r11d
	xorl	%r14d, %r14d
	movq	56(%rsp), %rax
	movq	32(%rsp), %r9
	jmp	.LBB0_86
	.p2align	4
.LBB0_85:
	imulq	$100, %r13, %rax
	movl	(%r15,%rax), %r13d
	decq	%r13
	incq	%r14
	leaq	(,%r13,4), %rax
	addq	%r13, %rax
	leaq	(%rax,%rax,4), %r8
	leaq	10(%rsi), %rax
	addq	%r8, %rax
	cmpl	$0, (%r15,%rax,4)
	movl	%edi, %eax
	movl	%ecx, %r9d
	jne	.LBB0_89
.LBB0_86:
	leal	(%rax,%r11), %edx
	movl	%r9d, %ecx
	shrl	$31, %ecx
	addl	%r9d, %ecx
	sarl	%ecx
	movl	%eax, %edi
	shrl	$31, %edi
	addl	%eax, %edi
	sarl	%edi
	movl	%edx, %r8d
	shrl	$31, %r8d
	addl	%edx, %r8d
	sarl	%r8d
	cmpl	%r8d, %edi
	jne	.LBB0_85
	movq	48(%rsp), %rdx
	addl	%r9d, %edx
	movl	%edx, %r8d
	shrl	$31, %r8d
	addl	%edx, %r8d
	sarl	%r8d
	cmpl	%r8d, %ecx
	jne	.LBB0_85
	leaq	(,%r13,4), %rcx
	addq	%r13, %rcx
	leaq	(%rcx,%rcx,4), %r8
	movl	%r9d, %ecx
	movl	%eax, %edi
.LBB0_89:
	leaq	(%r8,%rsi), %rax
	movl	40(%r15,%rax,4), %ebx
	testq	%rbx, %rbx
	je	.LBB0_109
	decq	%rbx
	jmp	.LBB0_118
.LBB0_91:
	movl	$2, %ecx
	movq	%r11, %rsi
	jmp	.LBB0_107
.LBB0_92:
	movq	%rdx, %r14
	movq	%r8, %rcx
.LBB0_93:
	incq	%rcx
.LBB0_94:
	imulq	$100, %r14, %rdx
	xorl	%edi, %edi
	cmpl	%esi, 76(%r15,%rdx)
	jne	.LBB0_96
	movl	(%r15,%rdx), %edx
	xorl	%edi, %edi
	cmpq	%rdx, %rcx
	setne	%dil
.LBB0_96:
	imulq	$100, %r13, %rcx
	leaq	(%r12,%r12,4), %rdx
	leaq	(%rdx,%rdx,4), %rdx
	addq	%rax, %rdx
	movl	84(%r15,%rdx,4), %r8d
	decl	%r8d
	movl	%r8d, 84(%r15,%rdx,4)
	movl	%r8d, 84(%r15,%r11,4)
	decl	72(%r15,%rcx)
	jne	.LBB0_98
	movl	$0, 80(%r15,%rcx)
.LBB0_98:
	addl	%ebx, %edi
	addq	$-25, %r9
	movq	%r12, %rdx
	movq	%rsi, %rbx
	.p2align	4
.LBB0_99:
	leaq	(%rdx,%rdx,4), %r8
	leaq	(%r8,%r8,4), %r8
	addq	%rax, %r8
	cmpl	%ebx, 56(%r15,%r8,4)
	jne	.LBB0_101
	movl	40(%r15,%r8,4), %r10d
	movl	$0, 40(%r15,%r8,4)
	movl	$0, 56(%r15,%r8,4)
	leaq	(%r10,%r10,4), %r8
	leaq	(%r8,%r8,4), %r8
	addq	%r9, %r8
	movl	$0, 40(%r15,%r8,4)
	movl	$0, 56(%r15,%r8,4)
	imulq	$100, %rdx, %rdx
	movl	(%r15,%rdx), %r8d
	leaq	-1(%r8), %rdx
	testq	%r8, %r8
	jne	.LBB0_99
.LBB0_101:
	cmpl	%ebx, 76(%r15,%rcx)
	jne	.LBB0_104
	movq	56(%rsp), %rax
	movl	%eax, %r9d
	movq	32(%rsp), %rax
	movl	%eax, %r11d
	movl	%r9d, %ecx
	.p2align	4
.LBB0_103:
	imulq	$100, %r13, %r8
	movl	(%r15,%r8), %ebx
	leaq	-1(%rbx), %r13
	movl	%r11d, %edx
	andl	$1, %edx
	cmpl	$-1, %r11d
	leaq	4(%rdx,%rdx,2), %rdx
	movl	$1, %r10d
	cmovneq	%rdx, %r10
	movl	%r9d, %edx
	andl	$1, %edx
	incq	%rdx
	xorl	%r14d, %r14d
	cmpl	$-1, %r9d
	cmovneq	%rdx, %r14
	addq	%r10, %r14
	leaq	(,%r13,4), %rdx
	addq	%r13, %rdx
	leaq	(%rdx,%rdx,4), %rdx
	addq	%r14, %rdx
	movl	$0, (%r15,%rdx,4)
	pxor	%xmm0, %xmm0
	movdqu	%xmm0, 80(%r15,%r8)
	movdqu	%xmm0, 64(%r15,%r8)
	movdqu	%xmm0, 48(%r15,%r8)
	movdqu	%xmm0, 32(%r15,%r8)
	movdqu	%xmm0, 16(%r15,%r8)
	movdqu	%xmm0, (%r15,%r8)
	movl	$0, 96(%r15,%r8)
	decq	%rbp
	shrl	$31, %eax
	addl	%r11d, %eax
	sarl	%eax
	shrl	$31, %ecx
	addl	%r9d, %ecx
	sarl	%ecx
	imulq	$100, %rbx, %rdx
	movq	%rsi, %rbx
	movl	%ecx, %r9d
	movl	%eax, %r11d
	cmpl	%ebx, -24(%rdx,%r15)
	je	.LBB0_103
.LBB0_104:
	xorl	%eax, %eax
	movq	40(%rsp), %rsi
	cmpq	$2, %rsi
	sete	%al
	addl	32(%rsp), %eax
	cmpq	$1, %rsi
	sbbl	$0, %eax
	xorl	%ecx, %ecx
	cmpq	$1, %rsi
	sete	%cl
	xorl	%edx, %edx
	cmpq	$3, %rsi
	sete	%dl
	addl	56(%rsp), %edx
	subl	%ecx, %edx
	decq	%rbx
	shlq	$32, %rdx
	orq	%rdx, %rax
	movq	%rax, 32(%rsp)
	movq	64(%rsp), %rdx
	movq	72(%rsp), %r8
	movq	48(%rsp), %r11
	jmp	.LBB0_69
.LBB0_105:
	movq	%r11, %r8
	movq	%rdi, %r9
.LBB0_106:
	incq	%r9
	imulq	$100, %r8, %rsi
	movq	48(%rsp), %r11
.LBB0_107:
	xorl	%edi, %edi
	cmpl	%ebx, 76(%r15,%rsi)
	movq	64(%rsp), %rdx
	movq	72(%rsp), %r8
	jne	.LBB0_68
	movl	(%r15,%rsi), %esi
	xorl	%edi, %edi
	cmpq	%rsi, %r9
	setne	%dil
	jmp	.LBB0_68
.LBB0_109:
	movq	48(%rsp), %rdx
	addl	%ecx, %edx
	leal	(%rdi,%r11), %r9d
	movl	%r9d, %r10d
	orl	%edx, %r10d
	je	.LBB0_114
	orl	%ecx, %edi
	movq	%r13, %rcx
	je	.LBB0_112
	imulq	$100, %r13, %rcx
	movl	(%r15,%rcx), %ecx
	decq	%rcx
	leaq	(%rcx,%rcx,4), %rdi
	leaq	(%rdi,%rdi,4), %r8
.LBB0_112:
	movl	%edx, %edi
	andl	$1, %edi
	cmpl	$-1, %edx
	leaq	4(%rdi,%rdi,2), %rdx
	movl	$1, %edi
	cmovneq	%rdx, %rdi
	movl	%r9d, %r10d
	andl	$1, %r10d
	incq	%r10
	xorl	%edx, %edx
	cmpl	$-1, %r9d
	cmovneq	%r10, %rdx
	addq	%rdi, %rdx
	addq	%r8, %rdx
	movl	(%r15,%rdx,4), %ebx
	testq	%rbx, %rbx
	je	.LBB0_115
	decq	%rbx
	movq	40(%rsp), %rdi
	jmp	.LBB0_117
.LBB0_114:
	movl	$1, 40(%r15,%rax,4)
	movq	40(%rsp), %rdx
	movl	%edx, 56(%r15,%rax,4)
	leal	1(%r13), %eax
	leal	(,%rsi,4), %ecx
	andl	$12, %ecx
	xorq	$8, %rcx
	movl	%eax, 40(%r15,%rcx)
	movl	%edx, 56(%r15,%rcx)
	xorl	%ebx, %ebx
	jmp	.LBB0_118
.LBB0_115:
	leaq	1(%rbp), %rdi
	leaq	(%rdi,%rdi,4), %r8
	leaq	(%r8,%r8,4), %r8
	cmpq	$8000, %r8
	ja	.LBB0_133
	movl	%edi, (%r15,%rdx,4)
	incl	%ecx
	imulq	$100, %rbp, %rdx
	movl	%ecx, (%r15,%rdx)
	movq	40(%rsp), %rdi
	movl	%edi, 76(%r15,%rdx)
	movq	%rbp, %rbx
.LBB0_117:
	movl	%esi, %ecx
	andl	$3, %ecx
	xorq	$2, %rcx
	leal	1(%rbx), %edx
	movl	%edx, 40(%r15,%rax,4)
	movl	%edi, 56(%r15,%rax,4)
	leal	1(%r13), %eax
	leaq	(%rbx,%rbx,4), %rdx
	leaq	(%rdx,%rdx,4), %rdx
	addq	%rcx, %rdx
	movl	%eax, 40(%r15,%rdx,4)
	movl	%edi, 56(%r15,%rdx,4)
.LBB0_118:
	testq	%r14, %r14
	je	.LBB0_131
	movq	%r11, 120(%rsp)
	movl	%esi, %eax
	andl	$3, %eax
	xorq	$2, %rax
	movq	%rax, 112(%rsp)
	leaq	-1(%r14), %rdi
	xorl	%r10d, %r10d
	movq	%r14, %rax
	jmp	.LBB0_122
	.p2align	4
.LBB0_120:
	decq	%rdx
	movq	%rdx, %r12
	movq	40(%rsp), %r8
.LBB0_121:
	decq	%r13
	leal	1(%r12), %ecx
	leaq	(,%r13,4), %rdx
	addq	%r13, %rdx
	leaq	(%rdx,%rdx,4), %rdx
	addq	%rsi, %rdx
	movl	%ecx, 40(%r15,%rdx,4)
	movl	%r8d, 56(%r15,%rdx,4)
	leal	1(%r13), %ecx
	leaq	(%r12,%r12,4), %rdx
	leaq	(%rdx,%rdx,4), %rdx
	addq	112(%rsp), %rdx
	movl	%ecx, 40(%r15,%rdx,4)
	movl	%r8d, 56(%r15,%rdx,4)
	incq	%r10
	decq	%rdi
	movq	%r12, %rbx
	testq	%rax, %rax
	je	.LBB0_77
.LBB0_122:
	movq	32(%rsp), %r9
	movq	56(%rsp), %rcx
	decq	%rax
	je	.LBB0_128
	movq	56(%rsp), %rcx
	movq	32(%rsp), %r9
	leaq	-2(%r14), %rdx
	cmpq	%r10, %rdx
	je	.LBB0_127
	movq	%rdi, %rdx
	andq	$-2, %rdx
	movq	%r10, %r8
	notq	%r8
	addq	%r14, %r8
	movq	56(%rsp), %rcx
	movq	32(%rsp), %r9
	.p2align	4
.LBB0_125:
	leal	3(%r9), %r11d
	testl	%r9d, %r9d
	cmovnsl	%r9d, %r11d
	movl	%r11d, %r9d
	sarl	$2, %r9d
	leal	3(%rcx), %r11d
	testl	%ecx, %ecx
	cmovnsl	%ecx, %r11d
	movl	%r11d, %ecx
	sarl	$2, %ecx
	addq	$-2, %rdx
	jne	.LBB0_125
	testb	$1, %r8b
	je	.LBB0_128
.LBB0_127:
	movl	%r9d, %edx
	shrl	$31, %edx
	addl	%r9d, %edx
	sarl	%edx
	movl	%ecx, %r8d
	shrl	$31, %r8d
	addl	%ecx, %r8d
	sarl	%r8d
	movl	%edx, %r9d
	movl	%r8d, %ecx
.LBB0_128:
	movl	%r9d, %edx
	andl	$1, %edx
	cmpl	$-1, %r9d
	leaq	4(%rdx,%rdx,2), %rdx
	movl	$1, %r8d
	cmoveq	%r8, %rdx
	movl	%ecx, %r12d
	andl	$1, %r12d
	incq	%r12
	xorl	%r11d, %r11d
	cmpl	$-1, %ecx
	cmoveq	%r11, %r12
	leaq	(%r13,%r13,4), %r13
	leaq	(%r13,%r13,4), %r13
	addq	%rdx, %r13
	addq	%r12, %r13
	addl	48(%rsp), %r9d
	addl	120(%rsp), %ecx
	leaq	1(%rbx), %r12
	cmpq	%rbp, %r12
	cmovbeq	%rbp, %r12
	movl	(%r15,%r13,4), %r13d
	movl	%r9d, %edx
	andl	$1, %edx
	cmpl	$-1, %r9d
	leaq	4(%rdx,%rdx,2), %rdx
	cmoveq	%r8, %rdx
	movl	%ecx, %r8d
	andl	$1, %r8d
	incq	%r8
	cmpl	$-1, %ecx
	cmoveq	%r11, %r8
	leaq	(%rbx,%rbx,4), %rcx
	leaq	(%rcx,%rcx,4), %rcx
	addq	%rdx, %rcx
	addq	%r8, %rcx
	movl	(%r15,%rcx,4), %edx
	testq	%rdx, %rdx
	jne	.LBB0_120
	leaq	1(%r12), %rdx
	leaq	(%rdx,%rdx,4), %r8
	leaq	(%r8,%r8,4), %r8
	cmpq	$8000, %r8
	ja	.LBB0_133
	movl	%edx, (%r15,%rcx,4)
	incl	%ebx
	imulq	$100, %r12, %rcx
	movl	%ebx, (%r15,%rcx)
	movq	40(%rsp), %r8
	movl	%r8d, 76(%r15,%rcx)
	jmp	.LBB0_121
.LBB0_131:
	movq	%rbx, %r12
	jmp	.LBB0_77
.LBB0_132:
	movl	$25, %eax
	movl	$24, %ebx
	xorl	%r13d, %r13d
	movq	16(%rsp), %r14
	movq	24(%rsp), %r12
	jmp	.LBB0_141
.LBB0_133:
	movl	$32000, %edx
	movq	%r15, %rdi
	xorl	%esi, %esi
	callq	memset@PLT
	movq	64(%rsp), %rax
	shll	$2, %eax
	leaq	(%rax,%rax,2), %rbx
	leaq	(%rax,%rax,2), %rdx
	addq	$-4, %rdx
	leaq	32000(%r15), %rdi
	xorl	%esi, %esi
	callq	memset@PLT
	movl	$0, 31996(%r15,%rbx)
	movb	$6, %al
	movq	72(%rsp), %rcx
	jmp	.LBB0_25
.LBB0_134:
	cmpq	%rbx, %rdx
	jne	.LBB0_136
	movq	%rdx, %rbx
	jmp	.LBB0_139
.LBB0_136:
	leaq	(%rsp,%rbx), %r12
	addq	$128, %r12
	movq	%rbx, %rax
	notq	%rax
	addq	%rax, %rdx
	je	.LBB0_138
	movq	%r12, %rdi
	xorl	%esi, %esi
	movq	%rdx, %r14
	callq	memset@PLT
	movq	%r14, %rdx
.LBB0_138:
	movb	$0, (%r12,%rdx)
.LBB0_139:
	testq	%rbp, %rbp
	movq	16(%rsp), %r14
	movq	24(%rsp), %r12
	je	.LBB0_143
	movq	%rbx, %r13
	leaq	(,%rbp,4), %rax
	addq	%rbp, %rax
	leaq	(%rax,%rax,4), %rax
	movq	%rax, %rbx
	decq	%rbx
	je	.LBB0_151
.LBB0_141:
	leaq	-4(,%rax,4), %rdx
	movq	%r15, %rdi
	xorl	%esi, %esi
	callq	memset@PLT
	shlq	$2, %rbx
.LBB0_142:
	movl	$0, (%r15,%rbx)
	movq	%r13, %rbx
.LBB0_143:
	pxor	%xmm0, %xmm0
	movdqa	%xmm0, 80(%rsp)
	movq	$0, 96(%rsp)
	cmpq	$32768, %rbx
	jbe	.LBB0_145
	xorl	%ecx, %ecx
	xorl	%ebx, %ebx
	jmp	.LBB0_215
.LBB0_145:
	movq	%rbx, %r13
	cmpq	$16384, %rbx
	ja	.LBB0_164
	testq	%r13, %r13
	je	.LBB0_174
	movq	%r13, %rsi
	cmpq	$4, %r13
	jae	.LBB0_152
	xorl	%ecx, %ecx
	xorl	%eax, %eax
	jmp	.LBB0_161
.LBB0_149:
	movb	$3, %al
	jmp	.LBB0_25
.LBB0_150:
	movb	$4, %al
	jmp	.LBB0_25
.LBB0_151:
	xorl	%ebx, %ebx
	jmp	.LBB0_142
.LBB0_152:
	cmpq	$32, %rsi
	jae	.LBB0_154
	xorl	%eax, %eax
	xorl	%ecx, %ecx
	jmp	.LBB0_158
.LBB0_154:
	movl	%esi, %eax
	andl	$32736, %eax
	xorl	%ecx, %ecx
	pxor	%xmm1, %xmm1
.LBB0_155:
	movdqu	128(%rsp,%rcx), %xmm2
	pmaxub	%xmm2, %xmm0
	movdqu	144(%rsp,%rcx), %xmm2
	pmaxub	%xmm2, %xmm1
	addq	$32, %rcx
	cmpq	%rcx, %rax
	jne	.LBB0_155
	pmaxub	%xmm1, %xmm0
	pshufd	$238, %xmm0, %xmm1
	pmaxub	%xmm0, %xmm1
	pshufd	$85, %xmm1, %xmm0
	pmaxub	%xmm1, %xmm0
	movdqa	%xmm0, %xmm1
	psrld	$16, %xmm1
	pmaxub	%xmm0, %xmm1
	movdqa	%xmm1, %xmm0
	psrlw	$8, %xmm0
	pmaxub	%xmm1, %xmm0
	movd	%xmm0, %ecx
	cmpq	%rax, %rsi
	je	.LBB0_163
	testb	$28, %sil
	je	.LBB0_161
.LBB0_158:
	movq	%rax, %rdx
	movl	%esi, %eax
	andl	$32764, %eax
	movzbl	%cl, %ecx
	movd	%ecx, %xmm0
	punpcklbw	%xmm0, %xmm0
	pshuflw	$0, %xmm0, %xmm0
.LBB0_159:
	movd	128(%rsp,%rdx), %xmm1
	pmaxub	%xmm1, %xmm0
	addq	$4, %rdx
	cmpq	%rdx, %rax
	jne	.LBB0_159
	movdqa	%xmm0, %xmm1
	psrld	$16, %xmm1
	pmaxub	%xmm0, %xmm1
	movdqa	%xmm1, %xmm0
	psrlw	$8, %xmm0
	pmaxub	%xmm1, %xmm0
	movd	%xmm0, %ecx
	jmp	.LBB0_162
.LBB0_161:
	movzbl	128(%rsp,%rax), %edx
	movzbl	%cl, %ecx
	cmpb	%cl, %dl
	cmoval	%edx, %ecx
	incq	%rax
.LBB0_162:
	cmpq	%rax, %rsi
	jne	.LBB0_161
.LBB0_163:
	cmpb	$4, %cl
	jb	.LBB0_174
.LBB0_164:
	leaq	-3(%r13), %rax
	leaq	-2(%r13), %rdx
	leaq	-1(%r13), %rsi
	xorl	%ecx, %ecx
.LBB0_165:
	movb	$3, %bl
	cmpb	$3, 128(%rsp,%rcx)
	ja	.LBB0_215
	cmpq	$16384, %rcx
	je	.LBB0_189
	cmpq	%rcx, %rsi
	je	.LBB0_174
	cmpb	$3, 129(%rsp,%rcx)
	ja	.LBB0_195
	cmpq	%rcx, %rdx
	je	.LBB0_174
	cmpb	$3, 130(%rsp,%rcx)
	ja	.LBB0_196
	cmpq	%rcx, %rax
	je	.LBB0_174
	cmpb	$3, 131(%rsp,%rcx)
	ja	.LBB0_197
	addq	$4, %rcx
	cmpq	%rcx, %r13
	jne	.LBB0_165
.LBB0_174:
	movq	$1, 1152(%rsp)
	movq	$0, 1160(%rsp)
	movq	$-1, 1168(%rsp)
	movq	$0, 1176(%rsp)
	movq	$0, 33928(%rsp)
	movq	$1, 33936(%rsp)
	movq	$0, 33944(%rsp)
	movq	$-1, 33952(%rsp)
	movl	$16384, %r12d
	testq	%r13, %r13
	je	.LBB0_178
	movq	%r13, %r11
	movl	$16384, %ecx
	xorl	%r9d, %r9d
	movl	$16384, %r8d
	movl	$16384, %edi
	movl	$16384, %eax
	movl	$16384, %esi
	movl	$16384, %edx
.LBB0_176:
	movzbl	128(%rsp,%r9), %r10d
	shll	$3, %r10d
	addq	1152(%rsp,%r10), %rcx
	addq	33928(%rsp,%r10), %r8
	cmpq	%rdi, %rcx
	cmovbq	%rcx, %rdi
	cmpq	%rax, %rcx
	cmovaq	%rcx, %rax
	cmpq	%rsi, %r8
	cmovbq	%r8, %rsi
	cmpq	%rdx, %r8
	cmovaq	%r8, %rdx
	incq	%r9
	cmpq	%r9, %r11
	jne	.LBB0_176
	xorq	$16384, %rcx
	xorq	$16384, %r8
	orq	%rcx, %r8
	sete	%r8b
	incq	%rdx
	jmp	.LBB0_179
.LBB0_178:
	movb	$1, %r8b
	movl	$16385, %edx
	movl	$16384, %esi
	movl	$16384, %eax
	movl	$16384, %edi
.LBB0_179:
	xorl	%ecx, %ecx
	movb	$11, %bl
	cmpq	$4, %r13
	jb	.LBB0_214
	testb	%r8b, %r8b
	je	.LBB0_214
	subq	%rdi, %rax
	leaq	1(%rax), %rcx
	subq	%rsi, %r12
	imulq	%rcx, %r12
	subq	%rdi, %r12
	addq	$16384, %r12
	subq	%rsi, %rdx
	imulq	%rcx, %rdx
	cmpq	$256, %rdx
	ja	.LBB0_185
	notq	%rax
	movq	$1, 33928(%rsp)
	movq	%rcx, 33936(%rsp)
	movq	$-1, 33944(%rsp)
	movq	%rax, 33952(%rsp)
	pxor	%xmm0, %xmm0
	movdqa	%xmm0, 1152(%rsp)
	movdqa	%xmm0, 1168(%rsp)
	movdqa	%xmm0, 1184(%rsp)
	movdqa	%xmm0, 1200(%rsp)
	movdqa	%xmm0, 1216(%rsp)
	movdqa	%xmm0, 1232(%rsp)
	movdqa	%xmm0, 1248(%rsp)
	movdqa	%xmm0, 1264(%rsp)
	movdqa	%xmm0, 1280(%rsp)
	movdqa	%xmm0, 1296(%rsp)
	movdqa	%xmm0, 1312(%rsp)
	movdqa	%xmm0, 1328(%rsp)
	movdqa	%xmm0, 1344(%rsp)
	movdqa	%xmm0, 1360(%rsp)
	movdqa	%xmm0, 1376(%rsp)
	movdqa	%xmm0, 1392(%rsp)
	xorl	%eax, %eax
.LBB0_183:
	cmpb	$0, 1152(%rsp,%r12)
	jne	.LBB0_213
	movzbl	128(%rsp,%rax), %ecx
	movb	$1, 1152(%rsp,%r12)
	addq	33928(%rsp,%rcx,8), %r12
	incq	%rax
	cmpq	%rax, %r13
	jne	.LBB0_183
	jmp	.LBB0_203
.LBB0_185:
	cmpq	$2048, %rdx
	ja	.LBB0_190
	notq	%rax
	movq	$1, 33928(%rsp)
	movq	%rcx, 33936(%rsp)
	movq	$-1, 33944(%rsp)
	movq	%rax, 33952(%rsp)
	leaq	1152(%rsp), %rdi
	xorl	%r14d, %r14d
	movl	$2048, %edx
	xorl	%esi, %esi
	callq	memset@PLT
.LBB0_187:
	cmpb	$0, 1152(%rsp,%r12)
	jne	.LBB0_213
	movzbl	128(%rsp,%r14), %eax
	movb	$1, 1152(%rsp,%r12)
	addq	33928(%rsp,%rax,8), %r12
	incq	%r14
	cmpq	%r14, %r13
	jne	.LBB0_187
	jmp	.LBB0_203
.LBB0_189:
	movb	$5, %bl
	movl	$16384, %ecx
	jmp	.LBB0_215
.LBB0_190:
	cmpq	$257, %r13
	jb	.LBB0_198
	cmpq	$16384, %rdx
	ja	.LBB0_198
	notq	%rax
	movq	$1, 33928(%rsp)
	movq	%rcx, 33936(%rsp)
	movq	$-1, 33944(%rsp)
	movq	%rax, 33952(%rsp)
	leaq	1152(%rsp), %rdi
	xorl	%r14d, %r14d
	movl	$16384, %edx
	xorl	%esi, %esi
	callq	memset@PLT
.LBB0_193:
	cmpb	$0, 1152(%rsp,%r12)
	jne	.LBB0_213
	movzbl	128(%rsp,%r14), %eax
	movb	$1, 1152(%rsp,%r12)
	addq	33928(%rsp,%rax,8), %r12
	incq	%r14
	cmpq	%r14, %r13
	jne	.LBB0_193
	jmp	.LBB0_203
.LBB0_195:
	incq	%rcx
	jmp	.LBB0_215
.LBB0_196:
	addq	$2, %rcx
	jmp	.LBB0_215
.LBB0_197:
	addq	$3, %rcx
	jmp	.LBB0_215
.LBB0_198:
	cmpq	$2049, %r13
	jb	.LBB0_202
	cmpq	$131072, %rdx
	ja	.LBB0_202
	leaq	128(%rsp), %rdi
	movq	%r13, %rsi
	movq	%r12, %rdx
	callq	"room_map::lone_sized::<=131072>"
	testb	%al, %al
	movq	16(%rsp), %r14
	movq	24(%rsp), %r12
	jne	.LBB0_203
.LBB0_201:
	xorl	%ecx, %ecx
	jmp	.LBB0_215
.LBB0_202:
	leaq	128(%rsp), %rdi
	movq	%r13, %rsi
	callq	"room_threads::is_room"
	testb	%al, %al
	movq	16(%rsp), %r14
	movq	24(%rsp), %r12
	je	.LBB0_201
.LBB0_203:
	movq	$0, 80(%rsp)
	leaq	128(%rsp), %rax
	movq	%rax, 88(%rsp)
	movq	%r13, 96(%rsp)
	cmpq	$4, %r13
	jae	.LBB0_205
	xorl	%r12d, %r12d
	xorl	%eax, %eax
	jmp	.LBB0_209
.LBB0_205:
	movl	%r13d, %eax
	andl	$65532, %eax
	pxor	%xmm1, %xmm1
	xorl	%ecx, %ecx
	pxor	%xmm2, %xmm2
	pxor	%xmm0, %xmm0
.LBB0_206:
	movzwl	128(%rsp,%rcx), %edx
	movd	%edx, %xmm3
	movzwl	130(%rsp,%rcx), %edx
	movd	%edx, %xmm4
	movdqa	.LCPI0_14(%rip), %xmm5
	pand	%xmm5, %xmm3
	pand	%xmm5, %xmm4
	punpcklbw	%xmm1, %xmm3
	punpcklwd	%xmm1, %xmm3
	punpckldq	%xmm1, %xmm3
	paddq	%xmm3, %xmm2
	punpcklbw	%xmm1, %xmm4
	punpcklwd	%xmm1, %xmm4
	punpckldq	%xmm1, %xmm4
	paddq	%xmm4, %xmm0
	addq	$4, %rcx
	cmpq	%rcx, %rax
	jne	.LBB0_206
	paddq	%xmm2, %xmm0
	pshufd	$238, %xmm0, %xmm1
	paddq	%xmm0, %xmm1
	movq	%xmm1, %r12
	jmp	.LBB0_210
.LBB0_209:
	movzbl	128(%rsp,%rax), %ecx
	andl	$1, %ecx
	addq	%rcx, %r12
	incq	%rax
.LBB0_210:
	cmpq	%rax, %r13
	jne	.LBB0_209
	shrq	%r12
	leaq	(%r12,%r12,2), %rax
	cmpq	$2050, %rax
	jbe	.LBB0_217
	movb	$20, %bl
.LBB0_213:
	xorl	%ecx, %ecx
.LBB0_214:
	movq	16(%rsp), %r14
	movq	24(%rsp), %r12
.LBB0_215:
	movzbl	%bl, %edx
	movq	%r12, %rdi
	movq	%r14, %rsi
	callq	"line_rows::tell_refusal"
.LBB0_216:
	addq	$132248, %rsp
	popq	%rbx
	popq	%r12
	popq	%r13
	popq	%r14
	popq	%r15
	popq	%rbp
	retq
.LBB0_217:
	movq	%r13, %r14
	leaq	44288(%r15), %rbx
	cmpq	$256, %r13
	ja	.LBB0_219
	leaq	1152(%rsp), %r13
	movl	$516, %edx
	movq	%r13, %rdi
	xorl	%esi, %esi
	callq	memset@PLT
	leaq	33928(%rsp), %rdi
	movl	$516, %edx
	xorl	%esi, %esi
	callq	memset@PLT
	leaq	66704(%rsp), %rbx
	movl	$516, %edx
	movq	%rbx, %rdi
	xorl	%esi, %esi
	callq	memset@PLT
	leaq	99476(%rsp), %rbp
	movl	$516, %edx
	movq	%rbp, %rdi
	xorl	%esi, %esi
	callq	memset@PLT
	shrl	%r14d
	incl	%r14d
	leaq	44288(%r15), %rax
	movq	%rax, (%rsp)
	leaq	80(%rsp), %rdi
	movl	%r14d, %esi
	movq	%r13, %rdx
	leaq	33928(%rsp), %rcx
	movq	%rbx, %r8
	movq	%rbp, %r9
	jmp	.LBB0_223
.LBB0_219:
	movl	%r14d, %ebp
	shrl	%ebp
	incl	%ebp
	cmpq	$2048, %r14
	ja	.LBB0_221
	leaq	1152(%rsp), %r14
	movl	$4100, %edx
	movq	%r14, %rdi
	xorl	%esi, %esi
	callq	memset@PLT
	leaq	33928(%rsp), %rdi
	movl	$4100, %edx
	xorl	%esi, %esi
	callq	memset@PLT
	leaq	66704(%rsp), %rdi
	movl	$4100, %edx
	xorl	%esi, %esi
	callq	memset@PLT
	leaq	99476(%rsp), %r13
	movl	$4100, %edx
	jmp	.LBB0_222
.LBB0_221:
	leaq	1152(%rsp), %r14
	movl	$32772, %edx
	movq	%r14, %rdi
	xorl	%esi, %esi
	callq	memset@PLT
	leaq	33928(%rsp), %rdi
	movl	$32772, %edx
	xorl	%esi, %esi
	callq	memset@PLT
	leaq	66704(%rsp), %rdi
	movl	$32772, %edx
	xorl	%esi, %esi
	callq	memset@PLT
	leaq	99476(%rsp), %r13
	movl	$32772, %edx
.LBB0_222:
	movq	%r13, %rdi
	xorl	%esi, %esi
	callq	memset@PLT
	movq	%rbx, (%rsp)
	leaq	80(%rsp), %rdi
	movl	%ebp, %esi
	movq	%r14, %rdx
	leaq	33928(%rsp), %rcx
	leaq	66704(%rsp), %r8
	movq	%r13, %r9
.LBB0_223:
	callq	"row_call::list_in"
	testq	%r12, %r12
	je	.LBB0_226
	addq	$44296, %r15
	movq	16(%rsp), %rax
	movq	24(%rsp), %r8
.LBB0_225:
	movl	-8(%r15), %edi
	movl	%edi, %ecx
	andb	$15, %cl
	leal	48(%rcx), %edx
	leal	87(%rcx), %esi
	cmpb	$10, %cl
	movzbl	%dl, %ecx
	movzbl	%sil, %edx
	cmovbl	%ecx, %edx
	movb	%dl, 3(%r8,%rax)
	movl	%edi, %ecx
	shrb	$4, %cl
	leal	48(%rcx), %edx
	addb	$87, %cl
	cmpb	$-96, %dil
	movzbl	%dl, %edx
	movzbl	%cl, %ecx
	cmovbl	%edx, %ecx
	movl	%edi, %edx
	shrl	$8, %edx
	andb	$15, %dl
	leal	48(%rdx), %esi
	cmpb	$10, %dl
	leal	87(%rdx), %edx
	movzbl	%sil, %esi
	movzbl	%dl, %edx
	cmovbl	%esi, %edx
	movb	%cl, 2(%r8,%rax)
	movb	%dl, 1(%r8,%rax)
	shrl	$12, %edi
	andb	$15, %dil
	leal	48(%rdi), %ecx
	leal	87(%rdi), %edx
	cmpb	$10, %dil
	movzbl	%cl, %esi
	movzbl	%dl, %ecx
	cmovbl	%esi, %ecx
	movb	%cl, (%r8,%rax)
	movl	-4(%r15), %edi
	movl	%edi, %ecx
	andb	$15, %cl
	leal	48(%rcx), %edx
	leal	87(%rcx), %esi
	cmpb	$10, %cl
	movzbl	%dl, %ecx
	movzbl	%sil, %edx
	cmovbl	%ecx, %edx
	movb	%dl, 7(%r8,%rax)
	movl	%edi, %ecx
	shrb	$4, %cl
	leal	48(%rcx), %edx
	addb	$87, %cl
	cmpb	$-96, %dil
	movzbl	%dl, %edx
	movzbl	%cl, %ecx
	cmovbl	%edx, %ecx
	movb	%cl, 6(%r8,%rax)
	movl	%edi, %ecx
	shrl	$8, %ecx
	andb	$15, %cl
	leal	48(%rcx), %edx
	leal	87(%rcx), %esi
	cmpb	$10, %cl
	movzbl	%dl, %ecx
	movzbl	%sil, %edx
	cmovbl	%ecx, %edx
	shrl	$12, %edi
	andb	$15, %dil
	leal	48(%rdi), %ecx
	leal	87(%rdi), %esi
	cmpb	$10, %dil
	movzbl	%cl, %edi
	movzbl	%sil, %ecx
	cmovbl	%edi, %ecx
	movb	%dl, 5(%r8,%rax)
	movb	%cl, 4(%r8,%rax)
	movl	(%r15), %edi
	movl	%edi, %ecx
	andb	$15, %cl
	leal	48(%rcx), %edx
	leal	87(%rcx), %esi
	cmpb	$10, %cl
	movzbl	%dl, %ecx
	movzbl	%sil, %edx
	cmovbl	%ecx, %edx
	movb	%dl, 11(%r8,%rax)
	movl	%edi, %ecx
	shrb	$4, %cl
	leal	48(%rcx), %edx
	addb	$87, %cl
	cmpb	$-96, %dil
	movzbl	%dl, %edx
	movzbl	%cl, %ecx
	cmovbl	%edx, %ecx
	movl	%edi, %edx
	shrl	$8, %edx
	andb	$15, %dl
	leal	48(%rdx), %esi
	cmpb	$10, %dl
	leal	87(%rdx), %edx
	movzbl	%sil, %esi
	movzbl	%dl, %edx
	cmovbl	%esi, %edx
	movb	%cl, 10(%r8,%rax)
	movb	%dl, 9(%r8,%rax)
	shrl	$12, %edi
	andb	$15, %dil
	leal	48(%rdi), %ecx
	leal	87(%rdi), %edx
	cmpb	$10, %dil
	movzbl	%cl, %esi
	movzbl	%dl, %ecx
	cmovbl	%esi, %ecx
	movb	%cl, 8(%r8,%rax)
	movb	$10, 12(%r8,%rax)
	addq	$13, %rax
	addq	$12, %r15
	decq	%r12
	jne	.LBB0_225
	jmp	.LBB0_216
.LBB0_226:
	movq	16(%rsp), %rax
	jmp	.LBB0_216
.Lfunc_end0:
	.size	"lines::tell", .Lfunc_end0-"lines::tell"

	.section	".text.room_map::lone_sized::<=131072>","ax",@progbits
	.p2align	4
	.type	"room_map::lone_sized::<=131072>",@function
"room_map::lone_sized::<=131072>":
	pushq	%r15
	pushq	%r14
	pushq	%r12
	pushq	%rbx
	movq	%rsp, %r11
	subq	$129024, %r11
.LBB1_1:
	subq	$3072, %rsp
	movq	$0, (%rsp)
	cmpq	%r11, %rsp
	jne	.LBB1_1
	subq	$2088, %rsp
	movq	%rdx, %rbx
	movq	%rsi, %r14
	movq	%rdi, %r15
	movq	$1, 8(%rsp)
	movq	%rcx, 16(%rsp)
	negq	%rcx
	movq	$-1, 24(%rsp)
	movq	%rcx, 32(%rsp)
	leaq	40(%rsp), %rdi
	xorl	%r12d, %r12d
	movl	$131072, %edx
	xorl	%esi, %esi
	callq	memset@PLT
	.p2align	4
.LBB1_3:
	movzbl	40(%rsp,%rbx), %eax
	testb	%al, %al
	jne	.LBB1_5
	movzbl	(%r15,%r12), %ecx
	movb	$1, 40(%rsp,%rbx)
	addq	8(%rsp,%rcx,8), %rbx
	incq	%r12
	cmpq	%r12, %r14
	jne	.LBB1_3
.LBB1_5:
	testb	%al, %al
	sete	%al
	addq	$131112, %rsp
	popq	%rbx
	popq	%r12
	popq	%r14
	popq	%r15
	retq
.Lfunc_end1:
	.size	"room_map::lone_sized::<=131072>", .Lfunc_end1-"room_map::lone_sized::<=131072>"

	.section	.rodata.cst16,"aM",@progbits,16
	.p2align	4, 0x0
.LCPI2_0:
	.long	1
	.long	0
	.long	4294967295
	.long	0
	.section	".text.room_threads::is_room","ax",@progbits
	.p2align	4
	.type	"room_threads::is_room",@function
"room_threads::is_room":
	pushq	%rbp
	pushq	%r15
	pushq	%r14
	pushq	%r13
	pushq	%r12
	pushq	%rbx
	movq	%rsp, %r11
	subq	$129024, %r11
.LBB2_1:
	subq	$3072, %rsp
	movq	$0, (%rsp)
	cmpq	%r11, %rsp
	jne	.LBB2_1
	subq	$2104, %rsp
	movq	%rsi, %rbx
	movq	%rdi, %r14
	movabsq	$-281474976645120, %r12
	cmpq	$257, %rsi
	jae	.LBB2_10
	leaq	40(%rsp), %rdi
	xorl	%r15d, %r15d
	movl	$516, %edx
	xorl	%esi, %esi
	callq	memset@PLT
	leaq	98356(%rsp), %rdi
	movl	$516, %edx
	xorl	%esi, %esi
	callq	memset@PLT
	leaq	65584(%rsp), %rdi
	movl	$516, %edx
	xorl	%esi, %esi
	callq	memset@PLT
	leaq	32812(%rsp), %rdi
	movl	$516, %edx
	xorl	%esi, %esi
	callq	memset@PLT
	movl	%ebx, %eax
	shrl	%eax
	incl	%eax
	movq	%r12, 8(%rsp)
	movaps	.LCPI2_0(%rip), %xmm0
	movaps	%xmm0, 16(%rsp)
	movzwl	%ax, %ecx
	movl	%eax, %edx
	.p2align	4
.LBB2_4:
	movzbl	(%r14,%r15), %esi
	movw	%dx, 65584(%rsp,%r15,2)
	movl	%ecx, %edi
	movzwl	40(%rsp,%rdi,2), %r8d
	movw	%r8w, 98356(%rsp,%r15,2)
	incq	%r15
	addl	16(%rsp,%rsi,4), %ecx
	movw	%r15w, 40(%rsp,%rdi,2)
	addw	8(%rsp,%rsi,2), %dx
	cmpq	%r15, %rbx
	jne	.LBB2_4
	addl	%eax, %eax
	movzwl	%ax, %eax
	xorl	%ecx, %ecx
.LBB2_7:
	movzwl	40(%rsp,%rcx,2), %edx
	incq	%rcx
	testw	%dx, %dx
	je	.LBB2_6
	.p2align	4
.LBB2_8:
	movzwl	%dx, %edx
	movzwl	65582(%rsp,%rdx,2), %esi
	cmpw	%cx, 32812(%rsp,%rsi,2)
	je	.LBB2_28
	movw	%cx, 32812(%rsp,%rsi,2)
	movzwl	98354(%rsp,%rdx,2), %edx
	testw	%dx, %dx
	jne	.LBB2_8
.LBB2_6:
	cmpq	%rax, %rcx
	jne	.LBB2_7
	jmp	.LBB2_31
.LBB2_10:
	movl	%ebx, %ebp
	shrl	%ebp
	incl	%ebp
	movzwl	%bp, %r15d
	leaq	40(%rsp), %rdi
	xorl	%r13d, %r13d
	cmpq	$2048, %rbx
	ja	.LBB2_19
	movl	$4100, %edx
	xorl	%esi, %esi
	callq	memset@PLT
	leaq	98356(%rsp), %rdi
	movl	$4100, %edx
	xorl	%esi, %esi
	callq	memset@PLT
	leaq	65584(%rsp), %rdi
	movl	$4100, %edx
	xorl	%esi, %esi
	callq	memset@PLT
	leaq	32812(%rsp), %rdi
	movl	$4100, %edx
	xorl	%esi, %esi
	callq	memset@PLT
	movq	%r12, 8(%rsp)
	movaps	.LCPI2_0(%rip), %xmm0
	movaps	%xmm0, 16(%rsp)
	movl	%ebp, %eax
	.p2align	4
.LBB2_12:
	movzbl	(%r14,%r13), %ecx
	movw	%ax, 65584(%rsp,%r13,2)
	movl	%r15d, %edx
	movzwl	40(%rsp,%rdx,2), %esi
	movw	%si, 98356(%rsp,%r13,2)
	incq	%r13
	addl	16(%rsp,%rcx,4), %r15d
	movw	%r13w, 40(%rsp,%rdx,2)
	addw	8(%rsp,%rcx,2), %ax
	cmpq	%r13, %rbx
	jne	.LBB2_12
	addl	%ebp, %ebp
	movzwl	%bp, %eax
	xorl	%ecx, %ecx
.LBB2_15:
	movzwl	40(%rsp,%rcx,2), %edx
	incq	%rcx
	testw	%dx, %dx
	je	.LBB2_14
	.p2align	4
.LBB2_16:
	movzwl	%dx, %edx
	movzwl	65582(%rsp,%rdx,2), %esi
	cmpw	%cx, 32812(%rsp,%rsi,2)
	je	.LBB2_28
	movw	%cx, 32812(%rsp,%rsi,2)
	movzwl	98354(%rsp,%rdx,2), %edx
	testw	%dx, %dx
	jne	.LBB2_16
.LBB2_14:
	cmpq	%rax, %rcx
	jne	.LBB2_15
.LBB2_31:
	movb	$1, %al
	jmp	.LBB2_29
.LBB2_19:
	movl	$32772, %edx
	xorl	%esi, %esi
	callq	memset@PLT
	leaq	98356(%rsp), %rdi
	movl	$32772, %edx
	xorl	%esi, %esi
	callq	memset@PLT
	leaq	65584(%rsp), %rdi
	movl	$32772, %edx
	xorl	%esi, %esi
	callq	memset@PLT
	leaq	32812(%rsp), %rdi
	movl	$32772, %edx
	xorl	%esi, %esi
	callq	memset@PLT
	movq	%r12, 8(%rsp)
	movaps	.LCPI2_0(%rip), %xmm0
	movaps	%xmm0, 16(%rsp)
	movl	%ebp, %eax
	.p2align	4
.LBB2_20:
	movzbl	(%r14,%r13), %ecx
	movw	%ax, 65584(%rsp,%r13,2)
	movl	%r15d, %edx
	movzwl	40(%rsp,%rdx,2), %esi
	movw	%si, 98356(%rsp,%r13,2)
	incq	%r13
	addl	16(%rsp,%rcx,4), %r15d
	movw	%r13w, 40(%rsp,%rdx,2)
	addw	8(%rsp,%rcx,2), %ax
	cmpq	%r13, %rbx
	jne	.LBB2_20
	movb	$1, %al
	testw	%bp, %bp
	je	.LBB2_29
	movzwl	%bp, %ecx
	addl	%ecx, %ecx
	xorl	%edx, %edx
.LBB2_24:
	movzwl	40(%rsp,%rdx,2), %esi
	incq	%rdx
	testw	%si, %si
	je	.LBB2_23
	.p2align	4
.LBB2_25:
	movzwl	%si, %esi
	movzwl	65582(%rsp,%rsi,2), %edi
	cmpw	%dx, 32812(%rsp,%rdi,2)
	je	.LBB2_28
	movw	%dx, 32812(%rsp,%rdi,2)
	movzwl	98354(%rsp,%rsi,2), %esi
	testw	%si, %si
	jne	.LBB2_25
.LBB2_23:
	cmpq	%rcx, %rdx
	jne	.LBB2_24
	jmp	.LBB2_29
.LBB2_28:
	xorl	%eax, %eax
.LBB2_29:
	addq	$131128, %rsp
	popq	%rbx
	popq	%r12
	popq	%r13
	popq	%r14
	popq	%r15
	popq	%rbp
	retq
.Lfunc_end2:
	.size	"room_threads::is_room", .Lfunc_end2-"room_threads::is_room"

	.section	.rodata.cst16,"aM",@progbits,16
	.p2align	4, 0x0
.LCPI3_0:
	.long	1
	.long	0
	.long	4294967295
	.long	0
	.section	".text.row_call::list_in","ax",@progbits
	.p2align	4
	.type	"row_call::list_in",@function
"row_call::list_in":
	pushq	%rbp
	pushq	%r15
	pushq	%r14
	pushq	%r12
	pushq	%rbx
	movq	8(%rdi), %rax
	movq	16(%rdi), %r10
	movabsq	$-281474976645120, %r11
	movq	%r11, -24(%rsp)
	movaps	.LCPI3_0(%rip), %xmm0
	movaps	%xmm0, -16(%rsp)
	testq	%r10, %r10
	je	.LBB3_3
	movzwl	%si, %r11d
	xorl	%ebx, %ebx
	movl	%esi, %ebp
	.p2align	4
.LBB3_2:
	movzbl	(%rax,%rbx), %r14d
	cmpl	$3, %r14d
	movl	%ebp, %r15d
	adcw	$-1, %r15w
	movw	%r15w, (%r9,%rbx,2)
	movl	%r11d, %r15d
	movl	%r14d, %r12d
	andl	$1, %r12d
	imulq	%r15, %r12
	movzwl	(%rdx,%r12,2), %r15d
	movw	%r15w, (%r8,%rbx,2)
	incq	%rbx
	movw	%bx, (%rdx,%r12,2)
	addl	-16(%rsp,%r14,4), %r11d
	addw	-24(%rsp,%r14,2), %bp
	cmpq	%rbx, %r10
	jne	.LBB3_2
.LBB3_3:
	testw	%si, %si
	je	.LBB3_14
	movq	48(%rsp), %rax
	movzwl	%si, %r10d
	leal	(%r10,%r10), %esi
	movq	%rsi, %r11
	movzwl	-2(%rdx,%r11,2), %ebx
	decq	%r11
	testw	%bx, %bx
	jne	.LBB3_6
	.p2align	4
.LBB3_8:
	cmpq	$1, %r11
	jbe	.LBB3_9
	movzwl	-2(%rdx,%r11,2), %ebx
	decq	%r11
	testw	%bx, %bx
	je	.LBB3_8
	.p2align	4
.LBB3_6:
	movzwl	%bx, %r14d
	leaq	-1(%r14), %r15
	movzwl	-2(%r9,%r14,2), %r12d
	movzwl	-2(%r8,%r14,2), %ebx
	movw	%r11w, -2(%r9,%r14,2)
	movzwl	(%rcx,%r12,2), %ebp
	movw	%bp, -2(%r8,%r14,2)
	incl	%r15d
	movw	%r15w, (%rcx,%r12,2)
	testw	%bx, %bx
	jne	.LBB3_6
	jmp	.LBB3_8
.LBB3_9:
	movl	(%rdi), %edx
	movl	4(%rdi), %edi
	subl	%r10d, %edx
	subl	%r10d, %edi
	leal	-1(%rdx), %r10d
	xorl	%r11d, %r11d
	xorl	%ebx, %ebx
	jmp	.LBB3_10
	.p2align	4
.LBB3_13:
	incq	%r11
	cmpq	%rsi, %r11
	je	.LBB3_14
.LBB3_10:
	movzwl	(%rcx,%r11,2), %r14d
	testw	%r14w, %r14w
	je	.LBB3_13
	leal	(%rdi,%r11), %ebp
	.p2align	4
.LBB3_12:
	movzwl	%r14w, %r14d
	movzwl	-2(%r8,%r14,2), %r15d
	movzwl	-2(%r9,%r14,2), %r14d
	movzwl	-2(%r9,%r15,2), %r12d
	addl	%r10d, %r12d
	addl	%edx, %r14d
	movl	%ebp, (%rax,%rbx,4)
	movl	%r14d, 4(%rax,%rbx,4)
	movl	%r12d, 8(%rax,%rbx,4)
	addq	$3, %rbx
	movzwl	-2(%r8,%r15,2), %r14d
	testw	%r14w, %r14w
	jne	.LBB3_12
	jmp	.LBB3_13
.LBB3_14:
	popq	%rbx
	popq	%r12
	popq	%r14
	popq	%r15
	popq	%rbp
	retq
.Lfunc_end3:
	.size	"row_call::list_in", .Lfunc_end3-"row_call::list_in"

	.section	.rodata.cst16,"aM",@progbits,16
	.p2align	4, 0x0
.LCPI4_0:
	.byte	15
	.byte	15
	.byte	15
	.byte	15
	.zero	1
	.zero	1
	.zero	1
	.zero	1
	.zero	1
	.zero	1
	.zero	1
	.zero	1
	.zero	1
	.zero	1
	.zero	1
	.zero	1
.LCPI4_1:
	.byte	9
	.byte	9
	.byte	9
	.byte	9
	.zero	1
	.zero	1
	.zero	1
	.zero	1
	.zero	1
	.zero	1
	.zero	1
	.zero	1
	.zero	1
	.zero	1
	.zero	1
	.zero	1
.LCPI4_2:
	.byte	48
	.byte	48
	.byte	48
	.byte	48
	.zero	1
	.zero	1
	.zero	1
	.zero	1
	.zero	1
	.zero	1
	.zero	1
	.zero	1
	.zero	1
	.zero	1
	.zero	1
	.zero	1
.LCPI4_3:
	.byte	87
	.byte	87
	.byte	87
	.byte	87
	.zero	1
	.zero	1
	.zero	1
	.zero	1
	.zero	1
	.zero	1
	.zero	1
	.zero	1
	.zero	1
	.zero	1
	.zero	1
	.zero	1
	.section	".text.line_rows::tell_refusal","ax",@progbits
	.p2align	4
	.type	"line_rows::tell_refusal",@function
"line_rows::tell_refusal":
	movq	%rsi, %rax
	movzbl	%dl, %esi
	xorl	%edx, %edx
	movl	$3669895, %r8d
	btl	%esi, %r8d
	jb	.LBB4_2
	movq	%rcx, %rdx
.LBB4_2:
	movl	%edx, %ecx
	andb	$15, %cl
	leal	48(%rcx), %r8d
	leal	87(%rcx), %r9d
	cmpb	$10, %cl
	movzbl	%r8b, %ecx
	movzbl	%r9b, %r8d
	cmovbl	%ecx, %r8d
	movb	%r8b, 9(%rdi,%rax)
	movl	%edx, %ecx
	shrb	$4, %cl
	leal	48(%rcx), %r8d
	addb	$87, %cl
	cmpb	$-96, %dl
	movzbl	%r8b, %r8d
	movzbl	%cl, %ecx
	cmovbl	%r8d, %ecx
	movb	%cl, 8(%rdi,%rax)
	movl	%edx, %ecx
	shrl	$8, %ecx
	movl	%ecx, %r8d
	andb	$15, %r8b
	leal	48(%r8), %r9d
	leal	87(%r8), %r10d
	cmpb	$10, %r8b
	movzbl	%r9b, %r8d
	movzbl	%r10b, %r9d
	cmovbl	%r8d, %r9d
	movl	%edx, %r8d
	shrl	$12, %r8d
	andb	$15, %r8b
	leal	48(%r8), %r10d
	cmpb	$10, %r8b
	leal	87(%r8), %r8d
	movzbl	%r10b, %r10d
	movzbl	%r8b, %r8d
	cmovbl	%r10d, %r8d
	movb	%r9b, 7(%rdi,%rax)
	movb	%r8b, 6(%rdi,%rax)
	movl	%edx, %r8d
	shrl	$16, %r8d
	andb	$15, %r8b
	leal	48(%r8), %r9d
	leal	87(%r8), %r10d
	cmpb	$10, %r8b
	movzbl	%r9b, %r8d
	movzbl	%r10b, %r9d
	cmovbl	%r8d, %r9d
	movb	%r9b, 5(%rdi,%rax)
	incl	%esi
	movl	%esi, %r8d
	shrl	$4, %r8d
	movl	%edx, %r9d
	shrl	$20, %r9d
	andl	$3840, %r9d
	orl	%esi, %r9d
	andl	$16711680, %ecx
	orl	%r9d, %ecx
	shll	$4, %edx
	andl	$-16777216, %edx
	orl	%ecx, %edx
	movd	%edx, %xmm0
	pand	.LCPI4_0(%rip), %xmm0
	orb	$56, %r8b
	movdqa	%xmm0, %xmm1
	pcmpgtb	.LCPI4_1(%rip), %xmm1
	movdqa	.LCPI4_2(%rip), %xmm2
	por	%xmm0, %xmm2
	paddb	.LCPI4_3(%rip), %xmm0
	movb	%r8b, (%rdi,%rax)
	pand	%xmm1, %xmm0
	pandn	%xmm2, %xmm1
	por	%xmm0, %xmm1
	movd	%xmm1, 1(%rdi,%rax)
	movb	$10, 10(%rdi,%rax)
	addq	$11, %rax
	retq
.Lfunc_end4:
	.size	"line_rows::tell_refusal", .Lfunc_end4-"line_rows::tell_refusal"

	.section	.rodata.cst16,"aM",@progbits,16
	.p2align	4, 0x0
.LCPI5_0:
	.byte	0
	.byte	1
	.byte	2
	.byte	3
	.byte	4
	.byte	5
	.byte	6
	.byte	7
	.byte	8
	.byte	9
	.byte	10
	.byte	11
	.byte	12
	.byte	13
	.byte	14
	.byte	15
.LCPI5_1:
	.byte	16
	.byte	17
	.byte	18
	.byte	19
	.byte	20
	.byte	21
	.byte	22
	.byte	23
	.byte	24
	.byte	25
	.byte	26
	.byte	27
	.byte	28
	.byte	29
	.byte	30
	.byte	31
	.section	".text.line_io::send::<#df9e9f1468b30f79>","ax",@progbits
	.p2align	4
	.type	"line_io::send::<#df9e9f1468b30f79>",@function
"line_io::send::<#df9e9f1468b30f79>":
	pushq	%rbp
	pushq	%r15
	pushq	%r14
	pushq	%r13
	pushq	%r12
	pushq	%rbx
	subq	$104, %rsp
	movq	%r8, %r12
	movq	%rcx, %r13
	movl	%edx, %r15d
	movq	%rsi, %r14
	movq	%rdi, %rbx
	movl	$1, %ebp
	jmp	.LBB5_1
	.p2align	4
.LBB5_7:
	incq	%rbp
	je	.LBB5_8
.LBB5_1:
	testq	%r12, %r12
	je	.LBB5_9
	movl	$1, %edi
	movq	%r13, %rsi
	movq	%r12, %rdx
	callq	write@PLT
	testq	%rax, %rax
	js	.LBB5_5
	je	.LBB5_8
	cmpq	%r12, %rax
	cmovaeq	%r12, %rax
	addq	%rax, %r13
	subq	%rax, %r12
	jmp	.LBB5_7
	.p2align	4
.LBB5_5:
	leaq	16(%rsp), %rdi
	callq	"std_io::io::error::last_error"
	movq	16(%rsp), %rax
	shrq	$8, %rax
	movaps	.LCPI5_0(%rip), %xmm0
	movaps	%xmm0, 16(%rsp)
	movaps	.LCPI5_1(%rip), %xmm0
	movaps	%xmm0, 32(%rsp)
	movabsq	$2820983053732684064, %rcx
	movq	%rcx, 48(%rsp)
	movb	$40, 56(%rsp)
	cmpb	$41, %al
	jae	.LBB5_8
	andl	$63, %eax
	cmpb	$35, 16(%rsp,%rax)
	je	.LBB5_7
.LBB5_8:
	movl	$0, 11(%rsp)
	movl	$0, 8(%rsp)
	movb	$1, %al
	xorl	%r14d, %r14d
	xorl	%r15d, %r15d
	jmp	.LBB5_10
.LBB5_9:
	movl	$0, 11(%rsp)
	movl	$0, 8(%rsp)
	xorl	%eax, %eax
.LBB5_10:
	movb	%al, (%rbx)
	movb	%al, 1(%rbx)
	movq	%r14, 8(%rbx)
	movb	%r15b, 16(%rbx)
	movl	8(%rsp), %eax
	movl	11(%rsp), %ecx
	movl	%eax, 17(%rbx)
	movl	%ecx, 20(%rbx)
	addq	$104, %rsp
	popq	%rbx
	popq	%r12
	popq	%r13
	popq	%r14
	popq	%r15
	popq	%rbp
	retq
.Lfunc_end5:
	.size	"line_io::send::<#df9e9f1468b30f79>", .Lfunc_end5-"line_io::send::<#df9e9f1468b30f79>"

	.section	".text.std_io::io::error::last_error","ax",@progbits
	.p2align	4
	.type	"std_io::io::error::last_error",@function
"std_io::io::error::last_error":
	pushq	%rbx
	movq	%rdi, %rbx
	callq	rattle_errno@PLT
	movl	%eax, %ecx
	movb	$41, %dl
	testl	%eax, %eax
	js	.LBB6_40
	decl	%eax
	cmpl	$121, %eax
	ja	.LBB6_40
	leaq	.LJTI6_0(%rip), %rsi
	movslq	(%rsi,%rax,4), %rax
	addq	%rsi, %rax
	jmpq	*%rax
.LBB6_3:
	movb	$1, %dl
	jmp	.LBB6_40
.LBB6_24:
	movb	$36, %dl
	jmp	.LBB6_40
.LBB6_36:
	movb	$4, %dl
	jmp	.LBB6_40
.LBB6_33:
	movb	$7, %dl
	jmp	.LBB6_40
.LBB6_39:
	movb	$26, %dl
	jmp	.LBB6_40
.LBB6_37:
	movb	$39, %dl
	jmp	.LBB6_40
.LBB6_28:
	movb	$9, %dl
	jmp	.LBB6_40
.LBB6_27:
	movb	$8, %dl
	jmp	.LBB6_40
.LBB6_22:
	movb	$30, %dl
	jmp	.LBB6_40
.LBB6_18:
	movb	$25, %dl
	jmp	.LBB6_40
.LBB6_20:
	movb	$32, %dl
	jmp	.LBB6_40
.LBB6_23:
	movb	$33, %dl
	jmp	.LBB6_40
.LBB6_34:
	movb	$22, %dl
	jmp	.LBB6_40
.LBB6_11:
	movb	$31, %dl
	jmp	.LBB6_40
.LBB6_15:
	movb	$29, %dl
	jmp	.LBB6_40
.LBB6_26:
	movb	$18, %dl
	jmp	.LBB6_40
.LBB6_29:
	movb	$10, %dl
	jmp	.LBB6_40
.LBB6_9:
	movb	$28, %dl
	jmp	.LBB6_40
.LBB6_12:
	movb	$14, %dl
	jmp	.LBB6_40
.LBB6_10:
	movb	$12, %dl
	jmp	.LBB6_40
.LBB6_30:
	movb	$5, %dl
	jmp	.LBB6_40
.LBB6_32:
	movb	$3, %dl
	jmp	.LBB6_40
.LBB6_4:
	xorl	%edx, %edx
	jmp	.LBB6_40
.LBB6_7:
	movb	$13, %dl
	jmp	.LBB6_40
.LBB6_8:
	movb	$38, %dl
	jmp	.LBB6_40
.LBB6_21:
	movb	$11, %dl
	jmp	.LBB6_40
.LBB6_5:
	movb	$35, %dl
	jmp	.LBB6_40
.LBB6_6:
	movb	$34, %dl
	jmp	.LBB6_40
.LBB6_14:
	movb	$20, %dl
	jmp	.LBB6_40
.LBB6_13:
	movb	$15, %dl
	jmp	.LBB6_40
.LBB6_38:
	movb	$19, %dl
	jmp	.LBB6_40
.LBB6_25:
	movb	$16, %dl
	jmp	.LBB6_40
.LBB6_31:
	movb	$6, %dl
	jmp	.LBB6_40
.LBB6_16:
	movb	$27, %dl
	jmp	.LBB6_40
.LBB6_17:
	movb	$24, %dl
	jmp	.LBB6_40
.LBB6_35:
	movb	$2, %dl
	jmp	.LBB6_40
.LBB6_19:
	movb	$17, %dl
.LBB6_40:
	movb	$0, (%rbx)
	movb	%dl, 1(%rbx)
	movw	$0, 2(%rbx)
	movl	%ecx, 4(%rbx)
	xorps	%xmm0, %xmm0
	movups	%xmm0, 8(%rbx)
	movups	%xmm0, 24(%rbx)
	movups	%xmm0, 40(%rbx)
	movups	%xmm0, 56(%rbx)
	movups	%xmm0, 72(%rbx)
	popq	%rbx
	retq
.Lfunc_end6:
	.size	"std_io::io::error::last_error", .Lfunc_end6-"std_io::io::error::last_error"
	.section	".rodata.std_io::io::error::last_error","a",@progbits
	.p2align	2, 0x0
.LJTI6_0:
	.long	.LBB6_3-.LJTI6_0
	.long	.LBB6_4-.LJTI6_0
	.long	.LBB6_40-.LJTI6_0
	.long	.LBB6_5-.LJTI6_0
	.long	.LBB6_40-.LJTI6_0
	.long	.LBB6_40-.LJTI6_0
	.long	.LBB6_6-.LJTI6_0
	.long	.LBB6_40-.LJTI6_0
	.long	.LBB6_40-.LJTI6_0
	.long	.LBB6_40-.LJTI6_0
	.long	.LBB6_7-.LJTI6_0
	.long	.LBB6_8-.LJTI6_0
	.long	.LBB6_3-.LJTI6_0
	.long	.LBB6_40-.LJTI6_0
	.long	.LBB6_40-.LJTI6_0
	.long	.LBB6_9-.LJTI6_0
	.long	.LBB6_10-.LJTI6_0
	.long	.LBB6_11-.LJTI6_0
	.long	.LBB6_40-.LJTI6_0
	.long	.LBB6_12-.LJTI6_0
	.long	.LBB6_13-.LJTI6_0
	.long	.LBB6_14-.LJTI6_0
	.long	.LBB6_40-.LJTI6_0
	.long	.LBB6_40-.LJTI6_0
	.long	.LBB6_40-.LJTI6_0
	.long	.LBB6_15-.LJTI6_0
	.long	.LBB6_16-.LJTI6_0
	.long	.LBB6_17-.LJTI6_0
	.long	.LBB6_18-.LJTI6_0
	.long	.LBB6_19-.LJTI6_0
	.long	.LBB6_20-.LJTI6_0
	.long	.LBB6_21-.LJTI6_0
	.long	.LBB6_40-.LJTI6_0
	.long	.LBB6_40-.LJTI6_0
	.long	.LBB6_22-.LJTI6_0
	.long	.LBB6_23-.LJTI6_0
	.long	.LBB6_40-.LJTI6_0
	.long	.LBB6_24-.LJTI6_0
	.long	.LBB6_25-.LJTI6_0
	.long	.LBB6_26-.LJTI6_0
	.long	.LBB6_40-.LJTI6_0
	.long	.LBB6_40-.LJTI6_0
	.long	.LBB6_40-.LJTI6_0
	.long	.LBB6_40-.LJTI6_0
	.long	.LBB6_40-.LJTI6_0
	.long	.LBB6_40-.LJTI6_0
	.long	.LBB6_40-.LJTI6_0
	.long	.LBB6_40-.LJTI6_0
	.long	.LBB6_40-.LJTI6_0
	.long	.LBB6_40-.LJTI6_0
	.long	.LBB6_40-.LJTI6_0
	.long	.LBB6_40-.LJTI6_0
	.long	.LBB6_40-.LJTI6_0
	.long	.LBB6_40-.LJTI6_0
	.long	.LBB6_40-.LJTI6_0
	.long	.LBB6_40-.LJTI6_0
	.long	.LBB6_40-.LJTI6_0
	.long	.LBB6_40-.LJTI6_0
	.long	.LBB6_40-.LJTI6_0
	.long	.LBB6_40-.LJTI6_0
	.long	.LBB6_40-.LJTI6_0
	.long	.LBB6_40-.LJTI6_0
	.long	.LBB6_40-.LJTI6_0
	.long	.LBB6_40-.LJTI6_0
	.long	.LBB6_40-.LJTI6_0
	.long	.LBB6_40-.LJTI6_0
	.long	.LBB6_40-.LJTI6_0
	.long	.LBB6_40-.LJTI6_0
	.long	.LBB6_40-.LJTI6_0
	.long	.LBB6_40-.LJTI6_0
	.long	.LBB6_40-.LJTI6_0
	.long	.LBB6_40-.LJTI6_0
	.long	.LBB6_40-.LJTI6_0
	.long	.LBB6_40-.LJTI6_0
	.long	.LBB6_40-.LJTI6_0
	.long	.LBB6_40-.LJTI6_0
	.long	.LBB6_40-.LJTI6_0
	.long	.LBB6_40-.LJTI6_0
	.long	.LBB6_40-.LJTI6_0
	.long	.LBB6_40-.LJTI6_0
	.long	.LBB6_40-.LJTI6_0
	.long	.LBB6_40-.LJTI6_0
	.long	.LBB6_40-.LJTI6_0
	.long	.LBB6_40-.LJTI6_0
	.long	.LBB6_40-.LJTI6_0
	.long	.LBB6_40-.LJTI6_0
	.long	.LBB6_40-.LJTI6_0
	.long	.LBB6_40-.LJTI6_0
	.long	.LBB6_40-.LJTI6_0
	.long	.LBB6_40-.LJTI6_0
	.long	.LBB6_40-.LJTI6_0
	.long	.LBB6_40-.LJTI6_0
	.long	.LBB6_40-.LJTI6_0
	.long	.LBB6_40-.LJTI6_0
	.long	.LBB6_24-.LJTI6_0
	.long	.LBB6_40-.LJTI6_0
	.long	.LBB6_40-.LJTI6_0
	.long	.LBB6_27-.LJTI6_0
	.long	.LBB6_28-.LJTI6_0
	.long	.LBB6_29-.LJTI6_0
	.long	.LBB6_30-.LJTI6_0
	.long	.LBB6_40-.LJTI6_0
	.long	.LBB6_31-.LJTI6_0
	.long	.LBB6_32-.LJTI6_0
	.long	.LBB6_40-.LJTI6_0
	.long	.LBB6_40-.LJTI6_0
	.long	.LBB6_33-.LJTI6_0
	.long	.LBB6_40-.LJTI6_0
	.long	.LBB6_40-.LJTI6_0
	.long	.LBB6_34-.LJTI6_0
	.long	.LBB6_35-.LJTI6_0
	.long	.LBB6_40-.LJTI6_0
	.long	.LBB6_36-.LJTI6_0
	.long	.LBB6_40-.LJTI6_0
	.long	.LBB6_37-.LJTI6_0
	.long	.LBB6_38-.LJTI6_0
	.long	.LBB6_40-.LJTI6_0
	.long	.LBB6_40-.LJTI6_0
	.long	.LBB6_40-.LJTI6_0
	.long	.LBB6_40-.LJTI6_0
	.long	.LBB6_40-.LJTI6_0
	.long	.LBB6_39-.LJTI6_0

	.section	.rodata.cst16,"aM",@progbits,16
	.p2align	4, 0x0
.LCPI7_0:
	.zero	16,10
	.section	.text.main,"ax",@progbits
	.globl	main
	.p2align	4
	.type	main,@function
main:
	pushq	%rbp
	pushq	%r15
	pushq	%r14
	pushq	%r13
	pushq	%r12
	pushq	%rbx
	movq	%rsp, %r11
	subq	$248832, %r11
.LBB7_1:
	subq	$3072, %rsp
	movq	$0, (%rsp)
	cmpq	%r11, %rsp
	jne	.LBB7_1
	subq	$1352, %rsp
	movl	$1, %esi
	movl	$13, %edi
	callq	__sysv_signal@PLT
	leaq	57(%rsp), %rdi
	xorl	%r15d, %r15d
	movl	$1031, %edx
	xorl	%esi, %esi
	callq	memset@PLT
	leaq	184648(%rsp), %rdi
	movl	$65536, %edx
	xorl	%esi, %esi
	callq	memset@PLT
	leaq	53576(%rsp), %rdi
	movl	$131072, %edx
	xorl	%esi, %esi
	callq	memset@PLT
	movb	$1, 7(%rsp)
	xorl	%ebx, %ebx
	movq	$0, 40(%rsp)
	xorl	%ebp, %ebp
	xorl	%r14d, %r14d
	jmp	.LBB7_3
	.p2align	4
.LBB7_6:
	movq	%r14, %r12
.LBB7_24:
	movzbl	7(%rsp), %edx
	leaq	16(%rsp), %rdi
	leaq	53576(%rsp), %rcx
	movq	40(%rsp), %rsi
	movq	8(%rsp), %r8
	callq	"line_io::send::<#df9e9f1468b30f79>"
	cmpb	$0, 16(%rsp)
	jne	.LBB7_34
	movq	24(%rsp), %rax
	movq	%rax, 40(%rsp)
	movzbl	32(%rsp), %eax
	movb	%al, 7(%rsp)
	movq	%r12, %r14
	movq	48(%rsp), %rbx
	incq	%rbx
	cmpq	$-1, %rbx
	je	.LBB7_8
.LBB7_3:
	cmpq	%r15, %rbp
	jae	.LBB7_26
	movq	%rbx, 48(%rsp)
	pxor	%xmm0, %xmm0
	movdqa	%xmm0, 16(%rsp)
	movq	$0, 32(%rsp)
	leaq	1088(%rsp), %rdi
	movq	$0, 8(%rsp)
	movl	$52488, %edx
	xorl	%esi, %esi
	callq	memset@PLT
	jmp	.LBB7_5
.LBB7_17:
	movq	%rbx, %r13
	.p2align	4
.LBB7_18:
	movl	$1031, %r12d
	subq	%r14, %r12
	cmpq	%r13, %r12
	cmovaeq	%r13, %r12
	leaq	(%rsp,%r14), %rdi
	addq	$57, %rdi
	movq	%r12, %rdx
	callq	memcpy@PLT
	addq	%r14, %r12
	addq	%r13, %rbp
	movq	%r12, %r14
	cmpq	%r15, %rbp
	jae	.LBB7_24
.LBB7_5:
	movq	8(%rsp), %rax
	addq	$-124417, %rax
	cmpq	$6656, %rax
	jb	.LBB7_6
	leaq	(%rsp,%rbp), %rsi
	addq	$184648, %rsi
	movq	%r15, %r13
	subq	%rbp, %r13
	xorl	%ebx, %ebx
	cmpq	$32, %r13
	jb	.LBB7_13
	movq	%r13, %rax
	.p2align	4
.LBB7_11:
	movdqu	(%rsi,%rbx), %xmm0
	movdqu	16(%rsi,%rbx), %xmm1
	movdqa	.LCPI7_0(%rip), %xmm2
	pcmpeqb	%xmm2, %xmm1
	pcmpeqb	%xmm2, %xmm0
	por	%xmm1, %xmm0
	pmovmskb	%xmm0, %ecx
	testl	%ecx, %ecx
	jne	.LBB7_13
	addq	$32, %rbx
	addq	$-32, %rax
	cmpq	$31, %rax
	ja	.LBB7_11
.LBB7_13:
	cmpq	%r13, %rbx
	jae	.LBB7_18
	.p2align	4
.LBB7_14:
	cmpb	$10, (%rsi,%rbx)
	je	.LBB7_16
	incq	%rbx
	cmpq	%rbx, %r13
	jne	.LBB7_14
	jmp	.LBB7_18
	.p2align	4
.LBB7_16:
	cmpq	%rbx, %r13
	jbe	.LBB7_17
	testq	%r14, %r14
	je	.LBB7_20
	movl	$1031, %r12d
	subq	%r14, %r12
	cmpq	%rbx, %r12
	cmovaeq	%rbx, %r12
	leaq	(%rsp,%r14), %rdi
	addq	$57, %rdi
	movq	%r12, %rdx
	callq	memcpy@PLT
	addq	%r14, %r12
	leaq	57(%rsp), %rdi
	leaq	1088(%rsp), %rdx
	leaq	53576(%rsp), %rcx
	movq	%r12, %rsi
	jmp	.LBB7_22
.LBB7_20:
	cmpq	$1031, %rbx
	movl	$1031, %eax
	cmovbq	%rbx, %rax
	leaq	1088(%rsp), %rdx
	leaq	53576(%rsp), %rcx
	movq	%rsi, %rdi
	movq	%rax, %rsi
.LBB7_22:
	movq	8(%rsp), %r8
	callq	"lines::tell"
	movq	%rax, 8(%rsp)
	addq	%rbx, %rbp
	incq	%rbp
	xorl	%r12d, %r12d
	movq	%r12, %r14
	cmpq	%r15, %rbp
	jb	.LBB7_5
	jmp	.LBB7_24
	.p2align	4
.LBB7_26:
	leaq	184648(%rsp), %rsi
	movl	$65536, %edx
	xorl	%edi, %edi
	callq	read@PLT
	testq	%rax, %rax
	js	.LBB7_27
	je	.LBB7_30
	cmpq	$65536, %rax
	movl	$65536, %r15d
	cmovbq	%rax, %r15
	xorl	%ebp, %ebp
	incq	%rbx
	cmpq	$-1, %rbx
	jne	.LBB7_3
.LBB7_8:
	movl	$1, %eax
	jmp	.LBB7_35
.LBB7_27:
	leaq	1088(%rsp), %rdi
	callq	"std_io::io::error::last_error"
	movl	$1, %eax
	jmp	.LBB7_35
.LBB7_30:
	pxor	%xmm0, %xmm0
	movdqa	%xmm0, 16(%rsp)
	movq	$0, 32(%rsp)
	testq	%r14, %r14
	je	.LBB7_31
	leaq	1088(%rsp), %r15
	movl	$52488, %edx
	movq	%r15, %rdi
	xorl	%esi, %esi
	callq	memset@PLT
	leaq	57(%rsp), %rdi
	leaq	53576(%rsp), %rcx
	movq	%r14, %rsi
	movq	%r15, %rdx
	xorl	%r8d, %r8d
	callq	"lines::tell"
	movq	%rax, %r8
	jmp	.LBB7_33
.LBB7_31:
	xorl	%r8d, %r8d
.LBB7_33:
	movzbl	7(%rsp), %edx
	leaq	16(%rsp), %rdi
	leaq	53576(%rsp), %rcx
	movq	40(%rsp), %rsi
	callq	"line_io::send::<#df9e9f1468b30f79>"
	cmpb	$0, 16(%rsp)
	movl	$0, %eax
	je	.LBB7_35
.LBB7_34:
	movzbl	17(%rsp), %eax
	cmpb	$1, %al
	movl	$2, %eax
	sbbl	$0, %eax
.LBB7_35:
	addq	$250184, %rsp
	popq	%rbx
	popq	%r12
	popq	%r13
	popq	%r14
	popq	%r15
	popq	%rbp
	retq
.Lfunc_end7:
	.size	main, .Lfunc_end7-main

	.ident	"rattle logic=dac8208d650f15bf3e2dc313a14fa4c783a3acf887bdfab66e1714b038d9e11b"
	.section	".note.GNU-stack","",@progbits
