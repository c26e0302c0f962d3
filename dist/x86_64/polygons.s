/* Undrwyth, the program polygons for x86_64 under Linux: made by scripts/dist from the sources of state 6ebe34014c5cbdcaab53ada40270abd81a24510c61112a54dce22a0a74dc2a61, which the Rattle kit proved; do not edit. SPDX-License-Identifier: MIT */
	.file	"rattle"
	.section	.rodata.cst16,"aM",@progbits,16
	.p2align	4, 0x0
.LCPI0_0:
	.zero	16,1
.LCPI0_1:
	.zero	16,208
.LCPI0_2:
	.zero	16,9
.LCPI0_3:
	.zero	16,159
.LCPI0_4:
	.zero	16,5
.LCPI0_5:
	.zero	2
	.short	65535
	.short	65535
	.short	65535
	.short	65535
	.short	65535
	.short	65535
	.short	65535
.LCPI0_6:
	.byte	208
	.byte	208
	.byte	208
	.byte	208
	.byte	208
	.byte	208
	.byte	208
	.byte	208
	.zero	1
	.zero	1
	.zero	1
	.zero	1
	.zero	1
	.zero	1
	.zero	1
	.zero	1
.LCPI0_7:
	.byte	10
	.byte	10
	.byte	10
	.byte	10
	.byte	10
	.byte	10
	.byte	10
	.byte	10
	.zero	1
	.zero	1
	.zero	1
	.zero	1
	.zero	1
	.zero	1
	.zero	1
	.zero	1
.LCPI0_8:
	.byte	159
	.byte	159
	.byte	159
	.byte	159
	.byte	159
	.byte	159
	.byte	159
	.byte	159
	.zero	1
	.zero	1
	.zero	1
	.zero	1
	.zero	1
	.zero	1
	.zero	1
	.zero	1
.LCPI0_9:
	.byte	6
	.byte	6
	.byte	6
	.byte	6
	.byte	6
	.byte	6
	.byte	6
	.byte	6
	.zero	1
	.zero	1
	.zero	1
	.zero	1
	.zero	1
	.zero	1
	.zero	1
	.zero	1
.LCPI0_10:
	.zero	16,57
.LCPI0_11:
	.zero	16,169
.LCPI0_12:
	.byte	58
	.byte	58
	.byte	58
	.byte	58
	.byte	58
	.byte	58
	.byte	58
	.byte	58
	.zero	1
	.zero	1
	.zero	1
	.zero	1
	.zero	1
	.zero	1
	.zero	1
	.zero	1
.LCPI0_13:
	.byte	169
	.byte	169
	.byte	169
	.byte	169
	.byte	169
	.byte	169
	.byte	169
	.byte	169
	.zero	1
	.zero	1
	.zero	1
	.zero	1
	.zero	1
	.zero	1
	.zero	1
	.zero	1
.LCPI0_14:
	.byte	255
	.byte	255
	.byte	255
	.byte	255
	.byte	255
	.byte	255
	.byte	255
	.byte	0
	.byte	255
	.byte	255
	.byte	255
	.byte	255
	.byte	255
	.byte	255
	.byte	255
	.byte	255
.LCPI0_15:
	.short	1
	.short	1
	.short	1
	.short	1
	.short	1
	.short	1
	.short	1
	.short	1
.LCPI0_16:
	.byte	15
	.byte	15
	.byte	15
	.byte	15
	.byte	15
	.byte	15
	.byte	15
	.byte	15
	.zero	1
	.zero	1
	.zero	1
	.zero	1
	.zero	1
	.zero	1
	.zero	1
	.zero	1
.LCPI0_17:
	.byte	9
	.byte	9
	.byte	9
	.byte	9
	.byte	9
	.byte	9
	.byte	9
	.byte	9
	.zero	1
	.zero	1
	.zero	1
	.zero	1
	.zero	1
	.zero	1
	.zero	1
	.zero	1
.LCPI0_18:
	.byte	48
	.byte	48
	.byte	48
	.byte	48
	.byte	48
	.byte	48
	.byte	48
	.byte	48
	.zero	1
	.zero	1
	.zero	1
	.zero	1
	.zero	1
	.zero	1
	.zero	1
	.zero	1
.LCPI0_19:
	.byte	87
	.byte	87
	.byte	87
	.byte	87
	.byte	87
	.byte	87
	.byte	87
	.byte	87
	.zero	1
	.zero	1
	.zero	1
	.zero	1
	.zero	1
	.zero	1
	.zero	1
	.zero	1
.LCPI0_20:
	.zero	16,15
.LCPI0_21:
	.byte	160
	.byte	160
	.byte	160
	.byte	160
	.byte	160
	.byte	160
	.byte	160
	.byte	160
	.zero	1
	.zero	1
	.zero	1
	.zero	1
	.zero	1
	.zero	1
	.zero	1
	.zero	1
	.section	".text.lines::tell","ax",@progbits
	.p2align	4
	.type	"lines::tell",@function
"lines::tell":
	pushq	%rbp
	pushq	%r15
	pushq	%r14
	pushq	%r13
	pushq	%r12
	pushq	%rbx
	movq	%rsp, %r11
	subq	$33792, %r11
.LBB0_1:
	subq	$3072, %rsp
	movq	$0, (%rsp)
	cmpq	%r11, %rsp
	jne	.LBB0_1
	subq	$184, %rsp
	movq	%r8, %r13
	movq	%rcx, %r14
	movq	%rdx, %r12
	movq	%rsi, %rbp
	movq	%rdi, %r15
	leaq	-1031(%rsi), %rbx
	leaq	144(%rsp), %rdi
	movl	$1024, %edx
	xorl	%esi, %esi
	callq	memset@PLT
	movl	$9, %ecx
	cmpq	$-1025, %rbx
	jb	.LBB0_3
	cmpq	$8, %rbp
	jae	.LBB0_6
	movb	$1, %dl
	xorl	%eax, %eax
	jmp	.LBB0_15
.LBB0_6:
	cmpq	$32, %rbp
	jae	.LBB0_8
	movb	$1, %dl
	xorl	%eax, %eax
	jmp	.LBB0_12
.LBB0_8:
	movl	%ebp, %eax
	andl	$2016, %eax
	movdqa	.LCPI0_0(%rip), %xmm0
	xorl	%edx, %edx
	movdqa	%xmm0, %xmm1
	.p2align	4
.LBB0_9:
	movdqu	(%r15,%rdx), %xmm2
	movdqu	16(%r15,%rdx), %xmm3
	movdqa	.LCPI0_1(%rip), %xmm4
	movdqa	%xmm2, %xmm5
	paddb	%xmm4, %xmm5
	paddb	%xmm3, %xmm4
	movdqa	.LCPI0_2(%rip), %xmm6
	movdqa	%xmm5, %xmm7
	pminub	%xmm6, %xmm7
	pcmpeqb	%xmm5, %xmm7
	pminub	%xmm4, %xmm6
	pcmpeqb	%xmm4, %xmm6
	movdqa	.LCPI0_3(%rip), %xmm4
	paddb	%xmm4, %xmm2
	paddb	%xmm4, %xmm3
	movdqa	.LCPI0_4(%rip), %xmm4
	movdqa	%xmm2, %xmm5
	pminub	%xmm4, %xmm5
	pcmpeqb	%xmm2, %xmm5
	por	%xmm7, %xmm5
	pand	%xmm5, %xmm1
	pminub	%xmm3, %xmm4
	pcmpeqb	%xmm3, %xmm4
	por	%xmm6, %xmm4
	pand	%xmm4, %xmm0
	addq	$32, %rdx
	cmpq	%rdx, %rax
	jne	.LBB0_9
	pand	%xmm1, %xmm0
	psllw	$7, %xmm0
	pmovmskb	%xmm0, %edx
	cmpl	$65535, %edx
	sete	%dl
	cmpq	%rax, %rbp
	je	.LBB0_17
	testb	$24, %bpl
	je	.LBB0_15
.LBB0_12:
	movq	%rax, %rsi
	movl	%ebp, %eax
	andl	$2040, %eax
	movzbl	%dl, %edx
	movdqa	.LCPI0_5(%rip), %xmm0
	pinsrw	$0, %edx, %xmm0
	.p2align	4
.LBB0_13:
	movq	(%r15,%rsi), %xmm1
	movdqa	.LCPI0_6(%rip), %xmm2
	paddb	%xmm1, %xmm2
	movdqa	.LCPI0_7(%rip), %xmm3
	pmaxub	%xmm2, %xmm3
	pcmpeqb	%xmm2, %xmm3
	pcmpeqd	%xmm2, %xmm2
	pxor	%xmm2, %xmm3
	paddb	.LCPI0_8(%rip), %xmm1
	movdqa	.LCPI0_9(%rip), %xmm4
	pmaxub	%xmm1, %xmm4
	pcmpeqb	%xmm1, %xmm4
	pxor	%xmm2, %xmm4
	por	%xmm3, %xmm4
	punpcklbw	%xmm4, %xmm4
	pand	%xmm4, %xmm0
	addq	$8, %rsi
	cmpq	%rsi, %rax
	jne	.LBB0_13
	psllw	$7, %xmm0
	pmovmskb	%xmm0, %edx
	notl	%edx
	testl	$21845, %edx
	sete	%dl
	jmp	.LBB0_16
.LBB0_3:
	xorl	%r15d, %r15d
.LBB0_26:
	movl	$20, %edx
	movq	%r14, %rdi
	movq	%r13, %rsi
	callq	"sheet_cells::spell_decimal"
	movb	$44, (%r14,%rax)
	leaq	1(%rax), %rsi
	movl	$20, %edx
	movq	%r14, %rdi
	movq	%r15, %rcx
	callq	"sheet_cells::spell_decimal"
	movabsq	$3182967604875373612, %rcx
	movq	%rcx, (%r14,%rax)
	addq	$8, %rax
.LBB0_27:
	movb	$10, (%r14,%rax)
	incq	%rax
	addq	$33976, %rsp
	popq	%rbx
	popq	%r12
	popq	%r13
	popq	%r14
	popq	%r15
	popq	%rbp
	retq
.LBB0_15:
	movzbl	(%r15,%rax), %esi
	leal	-48(%rsi), %edi
	cmpb	$10, %dil
	setb	%dil
	addb	$-97, %sil
	cmpb	$6, %sil
	setb	%sil
	orb	%dil, %sil
	andb	%sil, %dl
	incq	%rax
.LBB0_16:
	cmpq	%rax, %rbp
	jne	.LBB0_15
.LBB0_17:
	testb	%dl, %dl
	je	.LBB0_3
	movzbl	(%r15), %eax
	movzbl	1(%r15), %edi
	cmpb	$58, %al
	movl	$208, %edx
	movl	$169, %r8d
	cmovbl	%edx, %r8d
	movl	$169, %esi
	addb	%al, %r8b
	movzbl	%r8b, %r8d
	shll	$4, %r8d
	cmpb	$58, %dil
	movl	$169, %eax
	cmovbl	%edx, %eax
	addb	%dil, %al
	movzbl	%al, %edi
	addl	%r8d, %edi
	cmpl	$1, %edi
	ja	.LBB0_3
	movq	%r13, 64(%rsp)
	movq	%r14, 8(%rsp)
	movzbl	2(%r15), %edi
	cmpb	$58, %dil
	movl	$169, %r8d
	cmovbl	%edx, %r8d
	movzbl	3(%r15), %r9d
	addb	%dil, %r8b
	cmpb	$58, %r9b
	movl	$169, %edi
	cmovbl	%edx, %edi
	addb	%r9b, %dil
	movzbl	%r8b, %r8d
	shll	$12, %r8d
	movzbl	%dil, %r14d
	shll	$8, %r14d
	movzbl	4(%r15), %edi
	cmpb	$58, %dil
	movl	$169, %r9d
	cmovbl	%edx, %r9d
	addb	%dil, %r9b
	movzbl	%r9b, %r13d
	shll	$4, %r13d
	movzbl	5(%r15), %edi
	cmpb	$58, %dil
	cmovbl	%edx, %esi
	addb	%dil, %sil
	movzbl	%sil, %edx
	addq	%r8, %r14
	leaq	(%r14,%rdx), %rbx
	addq	%r13, %rbx
	addq	$-6, %rbp
	cmpq	%rbx, %rbp
	jne	.LBB0_24
	testb	%al, %al
	je	.LBB0_28
	movl	$19, %ecx
.LBB0_24:
	xorl	%r15d, %r15d
.LBB0_25:
	movq	8(%rsp), %r14
	movq	64(%rsp), %r13
	jmp	.LBB0_26
.LBB0_28:
	movq	%rdx, %rbp
	leaq	17560(%rsp), %rdi
	movl	$1024, %edx
	xorl	%esi, %esi
	callq	memset@PLT
	testq	%rbx, %rbx
	je	.LBB0_65
	cmpl	$8, %ebx
	jae	.LBB0_31
	xorl	%eax, %eax
	movq	%rbp, %r9
	jmp	.LBB0_40
.LBB0_31:
	cmpl	$32, %ebx
	movq	%rbp, %r9
	jae	.LBB0_33
	xorl	%eax, %eax
	jmp	.LBB0_37
.LBB0_33:
	movl	%ebx, %eax
	andl	$-32, %eax
	xorl	%ecx, %ecx
.LBB0_34:
	movdqu	6(%r15,%rcx), %xmm0
	movdqu	22(%r15,%rcx), %xmm1
	movdqa	.LCPI0_10(%rip), %xmm2
	movdqa	%xmm0, %xmm3
	pminub	%xmm2, %xmm3
	pcmpeqb	%xmm0, %xmm3
	pminub	%xmm1, %xmm2
	pcmpeqb	%xmm1, %xmm2
	movdqa	.LCPI0_11(%rip), %xmm4
	movdqa	%xmm3, %xmm5
	pandn	%xmm4, %xmm5
	movdqa	.LCPI0_1(%rip), %xmm6
	pand	%xmm6, %xmm3
	por	%xmm5, %xmm3
	movdqa	%xmm2, %xmm5
	pandn	%xmm4, %xmm5
	pand	%xmm6, %xmm2
	por	%xmm5, %xmm2
	paddb	%xmm0, %xmm3
	paddb	%xmm1, %xmm2
	movdqu	%xmm3, 17560(%rsp,%rcx)
	movdqu	%xmm2, 17576(%rsp,%rcx)
	addq	$32, %rcx
	cmpq	%rcx, %rax
	jne	.LBB0_34
	cmpl	%eax, %ebx
	je	.LBB0_44
	testb	$24, %bl
	je	.LBB0_40
.LBB0_37:
	movl	%r9d, %ecx
	andl	$7, %ecx
	leaq	(%r9,%r13), %rdx
	addq	%r14, %rdx
	subq	%rax, %rdx
	leaq	(%rsp,%rax), %rsi
	addq	$17560, %rsi
	leaq	(%rax,%r15), %rdi
	addq	$6, %rdi
	movq	%rbx, %rax
	subq	%rcx, %rax
	subq	%rcx, %rdx
	xorl	%r8d, %r8d
.LBB0_38:
	movq	(%rdi,%r8), %xmm0
	movdqa	.LCPI0_12(%rip), %xmm1
	pmaxub	%xmm0, %xmm1
	pcmpeqb	%xmm0, %xmm1
	movdqa	.LCPI0_13(%rip), %xmm2
	pand	%xmm1, %xmm2
	pandn	.LCPI0_6(%rip), %xmm1
	por	%xmm2, %xmm1
	paddb	%xmm0, %xmm1
	movq	%xmm1, (%rsi,%r8)
	addq	$8, %r8
	cmpq	%r8, %rdx
	jne	.LBB0_38
	testq	%rcx, %rcx
	je	.LBB0_44
.LBB0_40:
	leaq	(%r9,%r13), %rcx
	addq	%r14, %rcx
	subq	%rax, %rcx
	leaq	(%rsp,%rax), %rdx
	addq	$17560, %rdx
	addq	%r15, %rax
	addq	$6, %rax
	xorl	%esi, %esi
	jmp	.LBB0_42
	.p2align	4
.LBB0_41:
	addb	%dil, %r8b
	movb	%r8b, (%rdx,%rsi)
	incq	%rsi
	cmpq	%rsi, %rcx
	je	.LBB0_44
.LBB0_42:
	movzbl	(%rax,%rsi), %edi
	movl	$208, %r8d
	cmpb	$58, %dil
	jb	.LBB0_41
	movl	$169, %r8d
	jmp	.LBB0_41
.LBB0_44:
	cmpl	$4, %ebx
	jae	.LBB0_46
	xorl	%ecx, %ecx
	xorl	%eax, %eax
	jmp	.LBB0_55
.LBB0_46:
	cmpl	$32, %ebx
	jae	.LBB0_48
	xorl	%eax, %eax
	xorl	%ecx, %ecx
	jmp	.LBB0_52
.LBB0_48:
	movl	%ebx, %eax
	andl	$-32, %eax
	pxor	%xmm0, %xmm0
	xorl	%ecx, %ecx
	pxor	%xmm1, %xmm1
.LBB0_49:
	movdqu	17560(%rsp,%rcx), %xmm2
	pmaxub	%xmm2, %xmm0
	movdqu	17576(%rsp,%rcx), %xmm2
	pmaxub	%xmm2, %xmm1
	addq	$32, %rcx
	cmpq	%rcx, %rax
	jne	.LBB0_49
	pmaxub	%xmm1, %xmm0
	pshufd	$238, %xmm0, %xmm1
	pmaxub	%xmm0, %xmm1
	pshufd	$85, %xmm1, %xmm0
	pmaxub	%xmm1, %xmm0
	movdqa	%xmm0, %xmm1
	psrld	$16, %xmm1
	pmaxub	%xmm0, %xmm1
	movdqa	%xmm1, %xmm0
	psrlw	$8, %xmm0
	pmaxub	%xmm1, %xmm0
	movd	%xmm0, %ecx
	cmpl	%eax, %ebx
	je	.LBB0_57
	testb	$28, %bl
	je	.LBB0_55
.LBB0_52:
	movl	%r9d, %edx
	andl	$3, %edx
	leaq	(%r9,%r13), %rsi
	addq	%r14, %rsi
	subq	%rax, %rsi
	leaq	(%rsp,%rax), %rdi
	addq	$17560, %rdi
	movq	%rbx, %rax
	subq	%rdx, %rax
	movzbl	%cl, %ecx
	movd	%ecx, %xmm0
	punpcklbw	%xmm0, %xmm0
	pshuflw	$0, %xmm0, %xmm0
	subq	%rdx, %rsi
	xorl	%ecx, %ecx
.LBB0_53:
	movd	(%rdi,%rcx), %xmm1
	pmaxub	%xmm1, %xmm0
	addq	$4, %rcx
	cmpq	%rcx, %rsi
	jne	.LBB0_53
	movdqa	%xmm0, %xmm1
	psrld	$16, %xmm1
	pmaxub	%xmm0, %xmm1
	movdqa	%xmm1, %xmm0
	psrlw	$8, %xmm0
	pmaxub	%xmm1, %xmm0
	movd	%xmm0, %ecx
	testq	%rdx, %rdx
	je	.LBB0_57
.LBB0_55:
	addq	%r9, %r13
	addq	%r13, %r14
	subq	%rax, %r14
	addq	%rsp, %rax
	addq	$17560, %rax
	xorl	%edx, %edx
	.p2align	4
.LBB0_56:
	movzbl	(%rax,%rdx), %esi
	movzbl	%cl, %ecx
	cmpb	%cl, %sil
	cmoval	%esi, %ecx
	incq	%rdx
	cmpq	%rdx, %r14
	jne	.LBB0_56
.LBB0_57:
	cmpb	$4, %cl
	jb	.LBB0_65
	xorl	%r15d, %r15d
	xorl	%eax, %eax
	jmp	.LBB0_61
.LBB0_59:
	movq	$-1, %rcx
	testq	%rax, %rax
	je	.LBB0_167
.LBB0_60:
	addq	%rcx, %rax
	incq	%r15
	cmpq	%r15, %rbx
	je	.LBB0_65
.LBB0_61:
	movzbl	17560(%rsp,%r15), %ecx
	cmpb	$4, %cl
	je	.LBB0_59
	jae	.LBB0_166
	movl	$1, %ecx
	cmpq	$16383, %rax
	jbe	.LBB0_60
	movl	$6, %ecx
	jmp	.LBB0_25
.LBB0_65:
	movl	72(%r12), %eax
	leal	1(%rax), %ecx
	movl	%ecx, 72(%r12)
	testl	%eax, %eax
	jne	.LBB0_67
	movl	$1, 80(%r12)
.LBB0_67:
	testq	%rbx, %rbx
	je	.LBB0_138
	movq	%rbx, 104(%rsp)
	movl	$1, %eax
	movq	%rax, 56(%rsp)
	movl	$65535, %eax
	movq	%rax, 16(%rsp)
	xorl	%edx, %edx
	movq	%rax, 48(%rsp)
	movl	$1, %ebp
	xorl	%ebx, %ebx
	xorl	%r10d, %r10d
	xorl	%r15d, %r15d
	jmp	.LBB0_71
.LBB0_69:
	addl	%eax, %edi
	movzbl	32(%rsp), %eax
	movb	%al, %cl
	movq	%r14, %r10
	subq	%rcx, %r10
	shlq	$32, %r15
	movl	%r10d, %r10d
	orq	%r15, %r10
.LBB0_70:
	movq	120(%rsp), %rdx
	leaq	(%rdx,%rdx,2), %rax
	movl	%ebp, 32000(%r12,%rax,4)
	movl	72(%r12,%r8), %ecx
	movl	%ecx, 32004(%r12,%rax,4)
	movl	%edi, 32008(%r12,%rax,4)
	incq	%rdx
	movq	%r13, %r15
	cmpq	104(%rsp), %rdx
	je	.LBB0_140
.LBB0_71:
	movq	%rdx, 120(%rsp)
	movzbl	17560(%rsp,%rdx), %edx
	movq	%r10, %rax
	shrq	$32, %rax
	movq	%rax, 40(%rsp)
	cmpq	$4, %rdx
	movq	%r10, 24(%rsp)
	jne	.LBB0_76
	movq	%rbx, %rdx
	movzbl	143(%rsp,%rbx), %esi
	movl	%esi, %r10d
	andl	$3, %r10d
	movq	%r10, (%rsp)
	xorq	$2, %r10
	leaq	(%r15,%r15,4), %rax
	leaq	(%rax,%rax,4), %rbx
	addq	%r10, %rbx
	movl	40(%r12,%rbx,4), %eax
	leaq	-1(%rax), %r13
	imulq	$100, %r13, %rcx
	movq	%rcx, 32(%rsp)
	movl	(%r12,%rcx), %r9d
	testl	%r9d, %r9d
	je	.LBB0_84
	leaq	10(%rsi), %rdi
	movl	$2, %r14d
	movq	%r13, %r8
	movq	%r15, %rcx
	.p2align	4
.LBB0_74:
	movl	%r9d, %eax
	leaq	(%rax,%rax,4), %r9
	leaq	(%r9,%r9,4), %r9
	addq	%rsi, %r9
	cmpl	%edx, -44(%r12,%r9,4)
	jne	.LBB0_92
	decq	%rax
	leaq	(%rax,%rax,4), %r9
	leaq	(%r9,%r9,4), %r9
	addq	%rdi, %r9
	movl	(%r12,%r9,4), %r11d
	decq	%r11
	xorl	%r9d, %r9d
	cmpq	%rcx, %rax
	setne	%r9b
	xorl	%ecx, %ecx
	cmpq	%r8, %r11
	setne	%cl
	addl	%r9d, %r14d
	addl	%ecx, %r14d
	imulq	$100, %rax, %rcx
	movl	(%r12,%rcx), %r9d
	movq	%rax, %r8
	movq	%r11, %rcx
	testl	%r9d, %r9d
	jne	.LBB0_74
	jmp	.LBB0_93
.LBB0_76:
	movb	%dl, 144(%rsp,%rbx)
	incq	%rbx
	leaq	(%r15,%r15,4), %rax
	leaq	(%rax,%rax,4), %rax
	movq	%rax, 128(%rsp)
	addq	%rdx, %rax
	addq	$10, %rax
	movl	(%r12,%rax,4), %r13d
	testq	%r13, %r13
	movq	%rbx, (%rsp)
	je	.LBB0_85
	decq	%r13
.LBB0_78:
	imulq	$100, %r13, %rsi
	movl	72(%r12,%rsi), %eax
	leal	1(%rax), %ecx
	movl	%ecx, 72(%r12,%rsi)
	testl	%eax, %eax
	movq	(%rsp), %rbx
	jne	.LBB0_80
	leal	1(%rbx), %eax
	movl	%eax, 80(%r12,%rsi)
.LBB0_80:
	cmpb	$1, %dl
	adcq	$0, %r10
	xorl	%r8d, %r8d
	cmpb	$1, %dl
	sete	%r8b
	movq	128(%rsp), %r11
	addq	%rdx, %r11
	movl	84(%r12,%r11,4), %edi
	incl	%edi
	movl	%edx, %eax
	andl	$3, %eax
	leaq	(,%r13,4), %rcx
	addq	%r13, %rcx
	leaq	(%rcx,%rcx,4), %rcx
	xorq	$2, %rax
	addq	%rcx, %rax
	xorl	%ecx, %ecx
	cmpb	$2, %dl
	sete	32(%rsp)
	movq	40(%rsp), %r15
	addq	%r8, %r15
	cmpb	$3, %dl
	adcq	$-1, %r15
	leaq	1(%r13), %r8
	cmpq	%rbp, %r8
	cmovaq	%r8, %rbp
	movq	%rsi, %r8
	movl	%edi, 84(%r12,%r11,4)
	movl	%edi, 84(%r12,%rax,4)
	cmpl	$1, 72(%r12,%rsi)
	jne	.LBB0_82
	movq	%r10, %r14
	incq	56(%rsp)
	jmp	.LBB0_106
.LBB0_82:
	cmpq	$65535, 16(%rsp)
	jne	.LBB0_105
	movq	%r10, %r14
	movl	80(%r12,%r8), %edi
	decq	%rdi
	movq	%rdi, 48(%rsp)
	movq	%rbx, 16(%rsp)
	jmp	.LBB0_106
.LBB0_84:
	movl	$2, %r14d
	movq	%r15, %r11
	jmp	.LBB0_94
.LBB0_85:
	xorl	%eax, %eax
	cmpb	$2, %dl
	sete	%al
	cmpb	$1, %dl
	sbbl	$0, %eax
	xorl	%r14d, %r14d
	cmpb	$1, %dl
	sete	%r14b
	negl	%eax
	movq	%rax, 32(%rsp)
	cmpb	$3, %dl
	adcl	$-1, %r14d
	xorl	%r11d, %r11d
	movq	40(%rsp), %rax
	movl	%r10d, %esi
	jmp	.LBB0_87
	.p2align	4
.LBB0_86:
	imulq	$100, %r15, %rax
	movl	(%r12,%rax), %r15d
	decq	%r15
	incq	%r11
	leaq	(%r15,%r15,4), %rax
	leaq	(%rax,%rax,4), %r9
	leaq	10(%rdx), %rax
	addq	%r9, %rax
	cmpl	$0, (%r12,%rax,4)
	movl	%r8d, %eax
	movl	%edi, %esi
	jne	.LBB0_90
.LBB0_87:
	leal	(%rax,%r14), %ecx
	movl	%esi, %edi
	shrl	$31, %edi
	addl	%esi, %edi
	sarl	%edi
	movl	%eax, %r8d
	shrl	$31, %r8d
	addl	%eax, %r8d
	sarl	%r8d
	movl	%ecx, %r9d
	shrl	$31, %r9d
	addl	%ecx, %r9d
	sarl	%r9d
	cmpl	%r9d, %r8d
	jne	.LBB0_86
	movq	32(%rsp), %rcx
	addl	%esi, %ecx
	movl	%ecx, %r9d
	shrl	$31, %r9d
	addl	%ecx, %r9d
	sarl	%r9d
	cmpl	%r9d, %edi
	jne	.LBB0_86
	leaq	(%r15,%r15,4), %rcx
	leaq	(%rcx,%rcx,4), %r9
	movl	%esi, %edi
	movl	%eax, %r8d
.LBB0_90:
	leaq	(%r9,%rdx), %rax
	movl	40(%r12,%rax,4), %esi
	testq	%rsi, %rsi
	je	.LBB0_115
	decq	%rsi
	jmp	.LBB0_124
.LBB0_92:
	movq	%rcx, %r11
	movq	%r8, %rax
.LBB0_93:
	incq	%rax
.LBB0_94:
	imulq	$100, %r11, %rcx
	xorl	%edi, %edi
	cmpl	%edx, 76(%r12,%rcx)
	jne	.LBB0_96
	movl	(%r12,%rcx), %ecx
	xorl	%edi, %edi
	cmpq	%rcx, %rax
	setne	%dil
.LBB0_96:
	imulq	$100, %r15, %rax
	movl	72(%r12,%rax), %ecx
	movl	%ecx, 112(%rsp)
	leaq	(,%r13,4), %rcx
	addq	%r13, %rcx
	leaq	(%rcx,%rcx,4), %rcx
	addq	%rsi, %rcx
	movl	84(%r12,%rcx,4), %r8d
	decl	%r8d
	movl	%r8d, 84(%r12,%rcx,4)
	movl	%r8d, 84(%r12,%rbx,4)
	decl	72(%r12,%rax)
	jne	.LBB0_98
	movl	$0, 80(%r12,%rax)
.LBB0_98:
	addl	%r14d, %edi
	addq	$-25, %r10
	movq	%r13, %rcx
	movq	%rdx, %r11
	.p2align	4
.LBB0_99:
	leaq	(%rcx,%rcx,4), %r8
	leaq	(%r8,%r8,4), %r8
	addq	%rsi, %r8
	cmpl	%r11d, 56(%r12,%r8,4)
	jne	.LBB0_101
	movl	40(%r12,%r8,4), %r9d
	movl	$0, 40(%r12,%r8,4)
	movl	$0, 56(%r12,%r8,4)
	leaq	(%r9,%r9,4), %r8
	leaq	(%r8,%r8,4), %r8
	addq	%r10, %r8
	movl	$0, 40(%r12,%r8,4)
	movl	$0, 56(%r12,%r8,4)
	imulq	$100, %rcx, %rcx
	movl	(%r12,%rcx), %r8d
	leaq	-1(%r8), %rcx
	testq	%r8, %r8
	jne	.LBB0_99
.LBB0_101:
	cmpl	%r11d, 76(%r12,%rax)
	jne	.LBB0_104
	movq	40(%rsp), %rax
	movl	%eax, %r10d
	movq	24(%rsp), %rax
	movl	%eax, %ebx
	movl	%r10d, %esi
	.p2align	4
.LBB0_103:
	imulq	$100, %r15, %r8
	movl	(%r12,%r8), %r14d
	leaq	-1(%r14), %r15
	movl	%ebx, %ecx
	andl	$1, %ecx
	cmpl	$-1, %ebx
	leaq	4(%rcx,%rcx,2), %rcx
	movl	$1, %r9d
	cmovneq	%rcx, %r9
	movl	%r10d, %ecx
	andl	$1, %ecx
	incq	%rcx
	xorl	%r11d, %r11d
	cmpl	$-1, %r10d
	cmovneq	%rcx, %r11
	addq	%r9, %r11
	leaq	(%r15,%r15,4), %rcx
	leaq	(%rcx,%rcx,4), %rcx
	addq	%r11, %rcx
	movl	$0, (%r12,%rcx,4)
	pxor	%xmm0, %xmm0
	movdqu	%xmm0, 80(%r12,%r8)
	movdqu	%xmm0, 64(%r12,%r8)
	movdqu	%xmm0, 48(%r12,%r8)
	movdqu	%xmm0, 32(%r12,%r8)
	movdqu	%xmm0, 16(%r12,%r8)
	movdqu	%xmm0, (%r12,%r8)
	movl	$0, 96(%r12,%r8)
	decq	%rbp
	shrl	$31, %eax
	addl	%ebx, %eax
	sarl	%eax
	shrl	$31, %esi
	addl	%r10d, %esi
	sarl	%esi
	imulq	$100, %r14, %rcx
	movl	%esi, %r10d
	movl	%eax, %ebx
	cmpl	%edx, -24(%rcx,%r12)
	je	.LBB0_103
.LBB0_104:
	xorl	%eax, %eax
	movq	(%rsp), %rbx
	cmpq	$2, %rbx
	sete	%al
	addl	24(%rsp), %eax
	cmpq	$1, %rbx
	sbbl	$0, %eax
	xorl	%ecx, %ecx
	cmpq	$1, %rbx
	sete	%cl
	movq	16(%rsp), %r10
	cmpq	%rdx, %r10
	movl	$65535, %esi
	movq	%r10, %r8
	cmoveq	%rsi, %r8
	movq	48(%rsp), %r11
	cmovneq	%r11, %rsi
	xorl	%r9d, %r9d
	cmpl	$1, 112(%rsp)
	sete	%r9b
	cmovneq	%r8, %r10
	movq	%r10, 16(%rsp)
	cmovneq	%rsi, %r11
	movq	%r11, 48(%rsp)
	subq	%r9, 56(%rsp)
	xorl	%esi, %esi
	cmpq	$3, %rbx
	sete	%sil
	addl	40(%rsp), %esi
	subl	%ecx, %esi
	decq	%rdx
	shlq	$32, %rsi
	orq	%rsi, %rax
	movq	%rax, %r10
	movq	%rdx, %rbx
	movq	32(%rsp), %r8
	jmp	.LBB0_70
.LBB0_105:
	movq	%r10, %r14
.LBB0_106:
	movl	40(%r12,%rax,4), %r10d
	leaq	-1(%r10), %rdi
	imulq	$100, %rdi, %rax
	movl	(%r12,%rax), %r9d
	movl	$2, %eax
	testl	%r9d, %r9d
	je	.LBB0_110
	movq	%r13, %r11
	.p2align	4
.LBB0_108:
	movl	%r9d, %r10d
	leaq	(%r10,%r10,4), %r8
	leaq	(%r8,%r8,4), %r8
	addq	%rdx, %r8
	cmpl	%ebx, -44(%r12,%r8,4)
	jne	.LBB0_111
	decq	%r10
	leaq	(%r10,%r10,4), %r8
	leaq	(%r8,%r8,4), %r8
	leaq	10(%rdx), %r9
	addq	%r9, %r8
	movl	(%r12,%r8,4), %r8d
	decq	%r8
	xorl	%r9d, %r9d
	cmpq	%r11, %r10
	setne	%r9b
	xorl	%r11d, %r11d
	cmpq	%rdi, %r8
	setne	%r11b
	addl	%r9d, %eax
	addl	%r11d, %eax
	imulq	$100, %r10, %rdi
	movl	(%r12,%rdi), %r9d
	movq	%r10, %rdi
	movq	%r8, %r11
	testl	%r9d, %r9d
	jne	.LBB0_108
	jmp	.LBB0_112
.LBB0_110:
	movq	%r8, %rdx
	jmp	.LBB0_113
.LBB0_111:
	movq	%r11, %r8
	movq	%rdi, %r10
.LBB0_112:
	incq	%r10
	imulq	$100, %r8, %rdx
	movq	%rsi, %r8
.LBB0_113:
	xorl	%edi, %edi
	cmpl	%ebx, 76(%r12,%rdx)
	jne	.LBB0_69
	movl	(%r12,%rdx), %edx
	xorl	%edi, %edi
	cmpq	%rdx, %r10
	setne	%dil
	jmp	.LBB0_69
.LBB0_115:
	movq	32(%rsp), %rcx
	addl	%edi, %ecx
	leal	(%r8,%r14), %esi
	movl	%esi, %r10d
	orl	%ecx, %r10d
	je	.LBB0_120
	orl	%edi, %r8d
	movq	%r15, %rdi
	je	.LBB0_118
	imulq	$100, %r15, %rdi
	movl	(%r12,%rdi), %edi
	decq	%rdi
	leaq	(%rdi,%rdi,4), %r8
	leaq	(%r8,%r8,4), %r9
.LBB0_118:
	movl	%ecx, %r8d
	andl	$1, %r8d
	cmpl	$-1, %ecx
	leaq	4(%r8,%r8,2), %rcx
	movl	$1, %r8d
	cmovneq	%rcx, %r8
	movl	%esi, %r10d
	andl	$1, %r10d
	incq	%r10
	xorl	%ecx, %ecx
	cmpl	$-1, %esi
	cmovneq	%r10, %rcx
	addq	%r8, %rcx
	addq	%r9, %rcx
	movl	(%r12,%rcx,4), %esi
	testq	%rsi, %rsi
	je	.LBB0_121
	decq	%rsi
	movq	24(%rsp), %r10
	jmp	.LBB0_123
.LBB0_120:
	movl	$1, 40(%r12,%rax,4)
	movl	%ebx, 56(%r12,%rax,4)
	leal	1(%r15), %eax
	leal	(,%rdx,4), %ecx
	andl	$12, %ecx
	xorq	$8, %rcx
	movl	%eax, 40(%r12,%rcx)
	movl	%ebx, 56(%r12,%rcx)
	xorl	%esi, %esi
	movq	24(%rsp), %r10
	jmp	.LBB0_124
.LBB0_121:
	leaq	1(%rbp), %rsi
	leaq	(%rsi,%rsi,4), %r8
	leaq	(%r8,%r8,4), %r8
	cmpq	$8000, %r8
	movq	24(%rsp), %r10
	ja	.LBB0_139
	movl	%esi, (%r12,%rcx,4)
	incl	%edi
	imulq	$100, %rbp, %rcx
	movl	%edi, (%r12,%rcx)
	movq	(%rsp), %rbx
	movl	%ebx, 76(%r12,%rcx)
	movq	%rbp, %rsi
.LBB0_123:
	movl	%edx, %ecx
	andl	$3, %ecx
	xorq	$2, %rcx
	leal	1(%rsi), %edi
	movl	%edi, 40(%r12,%rax,4)
	movl	%ebx, 56(%r12,%rax,4)
	leal	1(%r15), %eax
	leaq	(%rsi,%rsi,4), %rdi
	leaq	(%rdi,%rdi,4), %rdi
	addq	%rcx, %rdi
	movl	%eax, 40(%r12,%rdi,4)
	movl	%ebx, 56(%r12,%rdi,4)
.LBB0_124:
	testq	%r11, %r11
	je	.LBB0_137
	movq	%r14, 112(%rsp)
	movl	%edx, %eax
	andl	$3, %eax
	xorq	$2, %rax
	movq	%rax, 136(%rsp)
	leaq	-1(%r11), %rbx
	xorl	%r14d, %r14d
	movq	%r11, %r9
	jmp	.LBB0_128
	.p2align	4
.LBB0_126:
	decq	%rcx
	movq	%rcx, %r13
	movq	(%rsp), %rsi
	movq	24(%rsp), %r10
.LBB0_127:
	decq	%r15
	leal	1(%r13), %eax
	leaq	(%r15,%r15,4), %rcx
	leaq	(%rcx,%rcx,4), %rcx
	addq	%rdx, %rcx
	movl	%eax, 40(%r12,%rcx,4)
	movl	%esi, 56(%r12,%rcx,4)
	leal	1(%r15), %eax
	leaq	(,%r13,4), %rcx
	addq	%r13, %rcx
	leaq	(%rcx,%rcx,4), %rcx
	addq	136(%rsp), %rcx
	movl	%eax, 40(%r12,%rcx,4)
	movl	%esi, 56(%r12,%rcx,4)
	incq	%r14
	decq	%rbx
	movq	%r13, %rsi
	testq	%r9, %r9
	je	.LBB0_78
.LBB0_128:
	movl	%r10d, %edi
	movq	40(%rsp), %rax
	decq	%r9
	je	.LBB0_134
	movq	40(%rsp), %rax
	movl	%r10d, %edi
	leaq	-2(%r11), %rcx
	cmpq	%r14, %rcx
	je	.LBB0_133
	movq	%rbx, %rcx
	andq	$-2, %rcx
	movq	%r14, %r8
	notq	%r8
	addq	%r11, %r8
	movq	40(%rsp), %rax
	movl	%r10d, %edi
	.p2align	4
.LBB0_131:
	leal	3(%rdi), %r10d
	testl	%edi, %edi
	cmovnsl	%edi, %r10d
	movl	%r10d, %edi
	sarl	$2, %edi
	leal	3(%rax), %r10d
	testl	%eax, %eax
	cmovnsl	%eax, %r10d
	movl	%r10d, %eax
	sarl	$2, %eax
	addq	$-2, %rcx
	jne	.LBB0_131
	testb	$1, %r8b
	je	.LBB0_134
.LBB0_133:
	movl	%edi, %ecx
	shrl	$31, %ecx
	addl	%edi, %ecx
	sarl	%ecx
	movl	%eax, %r8d
	shrl	$31, %r8d
	addl	%eax, %r8d
	sarl	%r8d
	movl	%ecx, %edi
	movl	%r8d, %eax
.LBB0_134:
	movl	%edi, %ecx
	andl	$1, %ecx
	cmpl	$-1, %edi
	leaq	4(%rcx,%rcx,2), %rcx
	movl	$1, %r8d
	cmoveq	%r8, %rcx
	movl	%eax, %r13d
	andl	$1, %r13d
	incq	%r13
	xorl	%r10d, %r10d
	cmpl	$-1, %eax
	cmoveq	%r10, %r13
	leaq	(%r15,%r15,4), %r15
	leaq	(%r15,%r15,4), %r15
	addq	%rcx, %r15
	addq	%r13, %r15
	addl	32(%rsp), %edi
	addl	112(%rsp), %eax
	leaq	1(%rsi), %r13
	cmpq	%rbp, %r13
	cmovbeq	%rbp, %r13
	movl	(%r12,%r15,4), %r15d
	movl	%edi, %ecx
	andl	$1, %ecx
	cmpl	$-1, %edi
	leaq	4(%rcx,%rcx,2), %rcx
	cmoveq	%r8, %rcx
	movl	%eax, %edi
	andl	$1, %edi
	incq	%rdi
	cmpl	$-1, %eax
	cmoveq	%r10, %rdi
	leaq	(%rsi,%rsi,4), %rax
	leaq	(%rax,%rax,4), %rax
	addq	%rcx, %rax
	addq	%rdi, %rax
	movl	(%r12,%rax,4), %ecx
	testq	%rcx, %rcx
	jne	.LBB0_126
	leaq	1(%r13), %rcx
	leaq	(%rcx,%rcx,4), %rdi
	leaq	(%rdi,%rdi,4), %rdi
	cmpq	$8000, %rdi
	movq	24(%rsp), %r10
	ja	.LBB0_139
	movl	%ecx, (%r12,%rax,4)
	incl	%esi
	imulq	$100, %r13, %rax
	movl	%esi, (%r12,%rax)
	movq	(%rsp), %rsi
	movl	%esi, 76(%r12,%rax)
	jmp	.LBB0_127
.LBB0_137:
	movq	%rsi, %r13
	jmp	.LBB0_78
.LBB0_138:
	movl	$25, %eax
	movl	$1, %ecx
	movq	%rcx, 56(%rsp)
	movl	$65535, %ecx
	movq	%rcx, 16(%rsp)
	xorl	%r13d, %r13d
	movl	$24, %r14d
	movl	$65535, %r15d
	movl	$1, %ebp
	movq	$0, (%rsp)
	xorl	%ebx, %ebx
	jmp	.LBB0_154
.LBB0_139:
	movl	$32000, %edx
	movq	%r12, %rdi
	xorl	%esi, %esi
	callq	memset@PLT
	movq	104(%rsp), %rax
	shll	$2, %eax
	leaq	(%rax,%rax,2), %rbx
	leaq	(%rax,%rax,2), %rdx
	addq	$-4, %rdx
	leaq	32000(%r12), %rdi
	xorl	%esi, %esi
	callq	memset@PLT
	movl	$0, 31996(%r12,%rbx)
	movl	$7, %ecx
	movq	120(%rsp), %r15
	jmp	.LBB0_25
.LBB0_140:
	movq	104(%rsp), %r14
	cmpq	%rbx, %r14
	jne	.LBB0_142
	movq	%r14, %rbx
	jmp	.LBB0_145
.LBB0_142:
	leaq	(%rsp,%rbx), %r13
	addq	$144, %r13
	movq	%rbx, %rax
	notq	%rax
	addq	%rax, %r14
	je	.LBB0_144
	movq	%r13, %rdi
	xorl	%esi, %esi
	movq	%r14, %rdx
	movq	%r10, %r15
	callq	memset@PLT
	movq	%r15, %r10
.LBB0_144:
	movb	$0, (%r13,%r14)
.LBB0_145:
	movq	16(%rsp), %rax
	movq	48(%rsp), %rdx
	testl	%r10d, %r10d
	je	.LBB0_148
	testq	%rbx, %rbx
	jne	.LBB0_150
	xorl	%r13d, %r13d
	jmp	.LBB0_151
.LBB0_148:
	xorl	%r13d, %r13d
	testq	%rbx, %rbx
	je	.LBB0_151
	testq	%r10, %r10
	je	.LBB0_171
.LBB0_150:
	movq	%rbx, (%rsp)
	cmpq	$65535, %rax
	setne	%bl
	addb	%bl, %bl
	incb	%bl
	xorl	%r13d, %r13d
	jmp	.LBB0_152
.LBB0_151:
	movq	$0, (%rsp)
	xorl	%ebx, %ebx
.LBB0_152:
	testq	%rbp, %rbp
	je	.LBB0_165
	leaq	(,%rbp,4), %rax
	addq	%rbp, %rax
	leaq	(%rax,%rax,4), %rax
	movq	%rax, %r14
	movq	%rdx, %r15
	decq	%r14
	je	.LBB0_168
.LBB0_154:
	leaq	-4(,%rax,4), %rdx
	movq	%r12, %rdi
	xorl	%esi, %esi
	callq	memset@PLT
	shlq	$2, %r14
.LBB0_155:
	movl	$0, (%r12,%r14)
.LBB0_156:
	movq	8(%rsp), %r14
	movq	64(%rsp), %rsi
	movl	$741354544, (%r14,%rsi)
	addq	$4, %rsi
	movzbl	%bl, %ecx
	movl	$20, %edx
	movq	%r14, %rdi
	callq	"sheet_cells::spell_decimal"
	movb	$44, (%r14,%rax)
	leaq	1(%rax), %rsi
	movl	$20, %edx
	movq	%r14, %rdi
	movq	(%rsp), %rbx
	movq	%rbx, %rcx
	callq	"sheet_cells::spell_decimal"
	movb	$44, (%r14,%rax)
	leaq	1(%rax), %rsi
	movl	$20, %edx
	movq	%r14, %rdi
	movq	%rbp, %rcx
	callq	"sheet_cells::spell_decimal"
	movb	$44, (%r14,%rax)
	leaq	1(%rax), %rsi
	movl	$20, %edx
	movq	%r14, %rdi
	movq	56(%rsp), %rcx
	callq	"sheet_cells::spell_decimal"
	movb	$44, (%r14,%rax)
	leaq	1(%rax), %rsi
	movl	$20, %edx
	movq	%r14, %rdi
	movq	%r15, %rcx
	callq	"sheet_cells::spell_decimal"
	movb	$44, (%r14,%rax)
	leaq	1(%rax), %rsi
	movl	$20, %edx
	movq	%r14, %rdi
	movq	16(%rsp), %rcx
	callq	"sheet_cells::spell_decimal"
	movb	$44, (%r14,%rax)
	movl	%r13d, %ecx
	testl	%r13d, %r13d
	js	.LBB0_158
	incq	%rax
	movl	$20, %edx
	movq	%r14, %rdi
	movq	%rax, %rsi
	jmp	.LBB0_159
.LBB0_158:
	movb	$45, 1(%r14,%rax)
	addq	$2, %rax
	movabsq	$4294967296, %r8
	subq	%rcx, %r8
	movl	$20, %edx
	movq	%r14, %rdi
	movq	%rax, %rsi
	movq	%r8, %rcx
.LBB0_159:
	callq	"sheet_cells::spell_decimal"
	movb	$44, (%r14,%rax)
	incq	%rax
	movq	%rax, %r12
	leaq	17560(%rsp), %rdi
	movl	$16413, %edx
	xorl	%esi, %esi
	callq	memset@PLT
	cmpq	$32768, %rbx
	jbe	.LBB0_161
	movq	%r12, %rax
	jmp	.LBB0_27
.LBB0_161:
	cmpq	$16384, %rbx
	movq	%r12, %rax
	ja	.LBB0_189
	testq	%rbx, %rbx
	je	.LBB0_193
	cmpq	$4, %rbx
	jae	.LBB0_169
	xorl	%edx, %edx
	xorl	%ecx, %ecx
	jmp	.LBB0_186
.LBB0_165:
	movq	%rdx, %r15
	xorl	%ebp, %ebp
	jmp	.LBB0_156
.LBB0_166:
	movl	$4, %ecx
	jmp	.LBB0_25
.LBB0_167:
	movl	$5, %ecx
	jmp	.LBB0_25
.LBB0_168:
	xorl	%r14d, %r14d
	jmp	.LBB0_155
.LBB0_169:
	cmpq	$32, %rbx
	jae	.LBB0_176
	xorl	%ecx, %ecx
	xorl	%edx, %edx
	jmp	.LBB0_180
.LBB0_171:
	movq	%rbx, (%rsp)
	movb	$4, %bl
	testq	%rdx, %rdx
	jne	.LBB0_152
	cmpq	(%rsp), %rax
	jne	.LBB0_152
	cmpq	$2, %rax
	ja	.LBB0_183
	cmpq	$1, (%rsp)
	je	.LBB0_183
	xorl	%r13d, %r13d
	movb	$5, %bl
	xorl	%edx, %edx
	movq	%rax, (%rsp)
	jmp	.LBB0_152
.LBB0_176:
	movl	%ebx, %ecx
	andl	$32736, %ecx
	pxor	%xmm0, %xmm0
	xorl	%edx, %edx
	pxor	%xmm1, %xmm1
.LBB0_177:
	movdqu	144(%rsp,%rdx), %xmm2
	pmaxub	%xmm2, %xmm0
	movdqu	160(%rsp,%rdx), %xmm2
	pmaxub	%xmm2, %xmm1
	addq	$32, %rdx
	cmpq	%rdx, %rcx
	jne	.LBB0_177
	pmaxub	%xmm1, %xmm0
	pshufd	$238, %xmm0, %xmm1
	pmaxub	%xmm0, %xmm1
	pshufd	$85, %xmm1, %xmm0
	pmaxub	%xmm1, %xmm0
	movdqa	%xmm0, %xmm1
	psrld	$16, %xmm1
	pmaxub	%xmm0, %xmm1
	movdqa	%xmm1, %xmm0
	psrlw	$8, %xmm0
	pmaxub	%xmm1, %xmm0
	movd	%xmm0, %edx
	cmpq	%rcx, %rbx
	je	.LBB0_188
	testb	$28, %bl
	je	.LBB0_186
.LBB0_180:
	movq	%rcx, %rsi
	movl	%ebx, %ecx
	andl	$32764, %ecx
	movzbl	%dl, %edx
	movd	%edx, %xmm0
	punpcklbw	%xmm0, %xmm0
	pshuflw	$0, %xmm0, %xmm0
.LBB0_181:
	movd	144(%rsp,%rsi), %xmm1
	pmaxub	%xmm1, %xmm0
	addq	$4, %rsi
	cmpq	%rsi, %rcx
	jne	.LBB0_181
	movdqa	%xmm0, %xmm1
	psrld	$16, %xmm1
	pmaxub	%xmm0, %xmm1
	movdqa	%xmm1, %xmm0
	psrlw	$8, %xmm0
	pmaxub	%xmm1, %xmm0
	movd	%xmm0, %edx
	jmp	.LBB0_187
.LBB0_183:
	xorl	%ecx, %ecx
	xorl	%eax, %eax
	xorl	%r13d, %r13d
.LBB0_184:
	movzbl	144(%rsp,%rax), %edx
	xorl	%esi, %esi
	cmpb	$1, %dl
	sete	%sil
	movl	%ecx, %edi
	adcl	$0, %edi
	cmpb	$3, %dl
	adcl	$-1, %esi
	imull	%ecx, %esi
	addl	%esi, %r13d
	xorl	%ecx, %ecx
	cmpb	$2, %dl
	movq	16(%rsp), %r15
	sete	%cl
	subl	%ecx, %edi
	incq	%rax
	movb	$2, %bl
	xorl	%edx, %edx
	movl	%edi, %ecx
	cmpq	%rax, %r15
	jne	.LBB0_184
	movq	%r15, (%rsp)
	jmp	.LBB0_152
.LBB0_186:
	movzbl	144(%rsp,%rcx), %esi
	movzbl	%dl, %edx
	cmpb	%dl, %sil
	cmoval	%esi, %edx
	incq	%rcx
.LBB0_187:
	cmpq	%rcx, %rbx
	jne	.LBB0_186
.LBB0_188:
	cmpb	$4, %dl
	jb	.LBB0_193
.LBB0_189:
	xorl	%ecx, %ecx
.LBB0_190:
	cmpq	$16384, %rcx
	je	.LBB0_27
	cmpb	$3, 144(%rsp,%rcx)
	ja	.LBB0_27
	incq	%rcx
	cmpq	%rcx, %rbx
	jne	.LBB0_190
.LBB0_193:
	movq	$1, 1168(%rsp)
	movq	$0, 1176(%rsp)
	movq	$-1, 1184(%rsp)
	movq	$0, 1192(%rsp)
	movq	$0, 72(%rsp)
	movq	$1, 80(%rsp)
	movq	$0, 88(%rsp)
	movq	$-1, 96(%rsp)
	movl	$16384, %r14d
	testq	%rbx, %rbx
	je	.LBB0_197
	movl	$16384, %ecx
	xorl	%r10d, %r10d
	movl	$16384, %r9d
	movl	$16384, %r8d
	movl	$16384, %edx
	movl	$16384, %edi
	movl	$16384, %esi
.LBB0_195:
	movzbl	144(%rsp,%r10), %r11d
	shll	$3, %r11d
	addq	1168(%rsp,%r11), %rcx
	addq	72(%rsp,%r11), %r9
	cmpq	%r8, %rcx
	cmovbq	%rcx, %r8
	cmpq	%rdx, %rcx
	cmovaq	%rcx, %rdx
	cmpq	%rdi, %r9
	cmovbq	%r9, %rdi
	cmpq	%rsi, %r9
	cmovaq	%r9, %rsi
	incq	%r10
	cmpq	%r10, %rbx
	jne	.LBB0_195
	xorq	$16384, %rcx
	xorq	$16384, %r9
	orq	%rcx, %r9
	sete	%cl
	incq	%rsi
	jmp	.LBB0_198
.LBB0_197:
	movb	$1, %cl
	movl	$16385, %esi
	movl	$16384, %edi
	movl	$16384, %edx
	movl	$16384, %r8d
.LBB0_198:
	cmpq	$4, %rbx
	jb	.LBB0_206
	testb	%cl, %cl
	je	.LBB0_206
	subq	%r8, %rdx
	leaq	1(%rdx), %rcx
	subq	%rdi, %r14
	imulq	%rcx, %r14
	subq	%r8, %r14
	addq	$16384, %r14
	subq	%rdi, %rsi
	imulq	%rcx, %rsi
	cmpq	$256, %rsi
	ja	.LBB0_207
	notq	%rdx
	movq	$1, 72(%rsp)
	movq	%rcx, 80(%rsp)
	movq	$-1, 88(%rsp)
	movq	%rdx, 96(%rsp)
	pxor	%xmm0, %xmm0
	movdqa	%xmm0, 1168(%rsp)
	movdqa	%xmm0, 1184(%rsp)
	movdqa	%xmm0, 1200(%rsp)
	movdqa	%xmm0, 1216(%rsp)
	movdqa	%xmm0, 1232(%rsp)
	movdqa	%xmm0, 1248(%rsp)
	movdqa	%xmm0, 1264(%rsp)
	movdqa	%xmm0, 1280(%rsp)
	movdqa	%xmm0, 1296(%rsp)
	movdqa	%xmm0, 1312(%rsp)
	movdqa	%xmm0, 1328(%rsp)
	movdqa	%xmm0, 1344(%rsp)
	movdqa	%xmm0, 1360(%rsp)
	movdqa	%xmm0, 1376(%rsp)
	movdqa	%xmm0, 1392(%rsp)
	movdqa	%xmm0, 1408(%rsp)
	xorl	%ecx, %ecx
.LBB0_202:
	cmpb	$0, 1168(%rsp,%r14)
	jne	.LBB0_206
	movzbl	144(%rsp,%rcx), %edx
	movb	$1, 1168(%rsp,%r14)
	addq	72(%rsp,%rdx,8), %r14
	incq	%rcx
	cmpq	%rcx, %rbx
	jne	.LBB0_202
	movq	8(%rsp), %r14
	jmp	.LBB0_225
.LBB0_207:
	cmpq	$2048, %rsi
	ja	.LBB0_212
	notq	%rdx
	movq	$1, 72(%rsp)
	movq	%rcx, 80(%rsp)
	movq	$-1, 88(%rsp)
	movq	%rdx, 96(%rsp)
	leaq	1168(%rsp), %rdi
	xorl	%ebx, %ebx
	movl	$2048, %edx
	xorl	%esi, %esi
	callq	memset@PLT
	movq	%r12, %rax
.LBB0_209:
	cmpb	$0, 1168(%rsp,%r14)
	jne	.LBB0_206
	movzbl	144(%rsp,%rbx), %ecx
	movb	$1, 1168(%rsp,%r14)
	addq	72(%rsp,%rcx,8), %r14
	incq	%rbx
	cmpq	%rbx, (%rsp)
	jne	.LBB0_209
	jmp	.LBB0_217
.LBB0_212:
	cmpq	$257, %rbx
	jb	.LBB0_219
	cmpq	$16384, %rsi
	ja	.LBB0_219
	notq	%rdx
	movq	$1, 72(%rsp)
	movq	%rcx, 80(%rsp)
	movq	$-1, 88(%rsp)
	movq	%rdx, 96(%rsp)
	leaq	1168(%rsp), %rdi
	xorl	%ebx, %ebx
	movl	$16384, %edx
	xorl	%esi, %esi
	callq	memset@PLT
	movq	%r12, %rax
.LBB0_215:
	cmpb	$0, 1168(%rsp,%r14)
	jne	.LBB0_206
	movzbl	144(%rsp,%rbx), %ecx
	movb	$1, 1168(%rsp,%r14)
	addq	72(%rsp,%rcx,8), %r14
	incq	%rbx
	cmpq	%rbx, (%rsp)
	jne	.LBB0_215
.LBB0_217:
	movq	8(%rsp), %r14
	movq	(%rsp), %rbx
	jmp	.LBB0_225
.LBB0_206:
	movq	8(%rsp), %r14
	jmp	.LBB0_27
.LBB0_219:
	cmpq	$2049, %rbx
	jb	.LBB0_223
	cmpq	$131072, %rsi
	ja	.LBB0_223
	leaq	144(%rsp), %rdi
	movq	%rbx, %rsi
	movq	%r14, %rdx
	callq	"room_map::lone_sized::<=131072>"
	jmp	.LBB0_224
.LBB0_223:
	leaq	144(%rsp), %rdi
	movq	%rbx, %rsi
	callq	"room_threads::is_room"
.LBB0_224:
	testb	%al, %al
	movq	%r12, %rax
	movq	8(%rsp), %r14
	je	.LBB0_27
.LBB0_225:
	movzbl	144(%rsp), %edx
	cmpq	$16, %rbx
	jae	.LBB0_227
	xorl	%esi, %esi
	movl	%edx, %edi
	xorl	%ecx, %ecx
	jmp	.LBB0_231
.LBB0_227:
	movl	%ebx, %ecx
	andl	$65520, %ecx
	movzbl	%dl, %esi
	movd	%esi, %xmm0
	psllq	$56, %xmm0
	pxor	%xmm1, %xmm1
	xorl	%esi, %esi
	pxor	%xmm2, %xmm2
.LBB0_228:
	movq	144(%rsp,%rsi), %xmm3
	movq	%xmm0, %xmm4
	movq	152(%rsp,%rsi), %xmm0
	movdqa	.LCPI0_14(%rip), %xmm5
	movdqa	%xmm3, %xmm6
	pand	%xmm5, %xmm6
	por	%xmm6, %xmm4
	psrlq	$56, %xmm4
	movdqa	%xmm3, %xmm6
	psllq	$8, %xmm6
	por	%xmm4, %xmm6
	pand	%xmm0, %xmm5
	por	%xmm3, %xmm5
	psrlq	$56, %xmm5
	movdqa	%xmm0, %xmm4
	psllq	$8, %xmm4
	por	%xmm5, %xmm4
	pcmpeqb	%xmm3, %xmm6
	pcmpeqd	%xmm3, %xmm3
	pxor	%xmm3, %xmm6
	punpcklbw	%xmm6, %xmm6
	movdqa	.LCPI0_15(%rip), %xmm5
	pand	%xmm5, %xmm6
	paddw	%xmm6, %xmm2
	pcmpeqb	%xmm0, %xmm4
	pxor	%xmm3, %xmm4
	punpcklbw	%xmm4, %xmm4
	pand	%xmm5, %xmm4
	paddw	%xmm4, %xmm1
	addq	$16, %rsi
	cmpq	%rsi, %rcx
	jne	.LBB0_228
	paddw	%xmm2, %xmm1
	pshufd	$238, %xmm1, %xmm2
	paddw	%xmm1, %xmm2
	pshufd	$85, %xmm2, %xmm1
	paddw	%xmm2, %xmm1
	movdqa	%xmm1, %xmm2
	psrld	$16, %xmm2
	paddw	%xmm1, %xmm2
	movd	%xmm2, %esi
	cmpq	%rcx, %rbx
	je	.LBB0_232
	pextrw	$3, %xmm0, %edi
	shrl	$8, %edi
.LBB0_231:
	movzbl	144(%rsp,%rcx), %r8d
	xorl	%r9d, %r9d
	cmpb	%r8b, %dil
	setne	%r9b
	addl	%r9d, %esi
	incq	%rcx
	movl	%r8d, %edi
	cmpq	%rcx, %rbx
	jne	.LBB0_231
.LBB0_232:
	movzwl	%si, %esi
	leaq	2(%rsi), %rdi
	movl	%edi, %ecx
	shll	$4, %ecx
	leal	12(%rcx), %r8d
	cmpl	$16413, %r8d
	ja	.LBB0_27
	movabsq	$1099511628545, %r8
	movq	%r8, 17560(%rsp)
	movb	$0, 17568(%rsp)
	movl	%edi, 17569(%rsp)
	pxor	%xmm0, %xmm0
	movq	%xmm0, 17573(%rsp)
	movq	%xmm0, 17581(%rsp)
	xorl	%edi, %edi
	xorl	%r8d, %r8d
	xorl	%r9d, %r9d
	xorl	%r10d, %r10d
	jmp	.LBB0_235
.LBB0_234:
	cmpb	$1, %dl
	adcl	$0, %r8d
	xorl	%r11d, %r11d
	cmpb	$1, %dl
	sete	%r11b
	xorl	%ebx, %ebx
	cmpb	$2, %dl
	sete	%bl
	subl	%ebx, %r8d
	addl	%r11d, %r10d
	cmpb	$3, %dl
	adcl	$-1, %r10d
	incq	%r9
	cmpq	%r9, (%rsp)
	je	.LBB0_237
.LBB0_235:
	movl	%edx, %r11d
	movzbl	144(%rsp,%r9), %edx
	cmpb	%dl, %r11b
	je	.LBB0_234
	movq	%rdi, %r11
	shlq	$4, %r11
	imull	$600, %r8d, %ebx
	xorps	%xmm1, %xmm1
	cvtsi2sd	%ebx, %xmm1
	movsd	%xmm1, 17589(%rsp,%r11)
	imull	$600, %r10d, %ebx
	xorps	%xmm1, %xmm1
	cvtsi2sd	%ebx, %xmm1
	movq	%xmm1, 17597(%rsp,%r11)
	incq	%rdi
	jmp	.LBB0_234
.LBB0_237:
	shlq	$4, %rdi
	movq	%xmm0, 17589(%rsp,%rdi)
	movq	%xmm0, 17597(%rsp,%rdi)
	movq	%rcx, %rdi
	orq	$8, %rdi
	leaq	(%rax,%rcx,2), %rdx
	addq	$16, %rdx
	addq	%r14, %rax
	shll	$4, %esi
	addq	$40, %rsi
	xorl	%r8d, %r8d
.LBB0_238:
	movq	17560(%rsp,%r8), %xmm1
	movdqa	.LCPI0_16(%rip), %xmm2
	pand	%xmm1, %xmm2
	movdqa	%xmm2, %xmm0
	pcmpgtb	.LCPI0_17(%rip), %xmm0
	movdqa	.LCPI0_18(%rip), %xmm3
	movdqa	%xmm2, %xmm4
	por	%xmm3, %xmm4
	movdqa	.LCPI0_19(%rip), %xmm5
	paddb	%xmm5, %xmm2
	pand	%xmm0, %xmm2
	pandn	%xmm4, %xmm0
	por	%xmm2, %xmm0
	movdqa	.LCPI0_21(%rip), %xmm2
	pmaxub	%xmm1, %xmm2
	pcmpeqb	%xmm1, %xmm2
	psrlw	$4, %xmm1
	pand	.LCPI0_20(%rip), %xmm1
	por	%xmm1, %xmm3
	paddb	%xmm5, %xmm1
	pand	%xmm2, %xmm1
	pandn	%xmm3, %xmm2
	por	%xmm1, %xmm2
	punpcklbw	%xmm0, %xmm2
	movdqu	%xmm2, (%rax,%r8,2)
	addq	$8, %r8
	cmpq	%r8, %rsi
	jne	.LBB0_238
	movzbl	17560(%rsp,%rdi), %eax
	movl	%eax, %esi
	andb	$15, %sil
	leal	48(%rsi), %edi
	leal	87(%rsi), %r8d
	cmpb	$10, %sil
	movzbl	%dil, %esi
	movzbl	%r8b, %edi
	cmovbl	%esi, %edi
	movb	%dil, 1(%r14,%rdx)
	movl	%eax, %esi
	shrb	$4, %sil
	leal	48(%rsi), %edi
	addb	$87, %sil
	cmpb	$-96, %al
	movzbl	%dil, %eax
	movzbl	%sil, %esi
	cmovbl	%eax, %esi
	movb	%sil, (%r14,%rdx)
	movzbl	17569(%rsp,%rcx), %eax
	movl	%eax, %esi
	andb	$15, %sil
	leal	48(%rsi), %edi
	leal	87(%rsi), %r8d
	cmpb	$10, %sil
	movzbl	%dil, %esi
	movzbl	%r8b, %edi
	cmovbl	%esi, %edi
	movl	%eax, %esi
	shrb	$4, %sil
	leal	48(%rsi), %r8d
	addb	$87, %sil
	cmpb	$-96, %al
	movzbl	%r8b, %eax
	movzbl	%sil, %esi
	cmovbl	%eax, %esi
	movb	%dil, 3(%r14,%rdx)
	movb	%sil, 2(%r14,%rdx)
	movzbl	17570(%rsp,%rcx), %eax
	movl	%eax, %esi
	andb	$15, %sil
	leal	48(%rsi), %edi
	leal	87(%rsi), %r8d
	cmpb	$10, %sil
	movzbl	%dil, %esi
	movzbl	%r8b, %edi
	cmovbl	%esi, %edi
	movb	%dil, 5(%r14,%rdx)
	movl	%eax, %esi
	shrb	$4, %sil
	leal	48(%rsi), %edi
	addb	$87, %sil
	cmpb	$-96, %al
	movzbl	%dil, %eax
	movzbl	%sil, %esi
	cmovbl	%eax, %esi
	movb	%sil, 4(%r14,%rdx)
	movzbl	17571(%rsp,%rcx), %eax
	movl	%eax, %esi
	andb	$15, %sil
	leal	48(%rsi), %edi
	leal	87(%rsi), %r8d
	cmpb	$10, %sil
	movzbl	%dil, %esi
	movzbl	%r8b, %edi
	cmovbl	%esi, %edi
	movb	%dil, 7(%r14,%rdx)
	movl	%eax, %esi
	shrb	$4, %sil
	leal	48(%rsi), %edi
	addb	$87, %sil
	cmpb	$-96, %al
	movzbl	%dil, %eax
	movzbl	%sil, %esi
	cmovbl	%eax, %esi
	movb	%sil, 6(%r14,%rdx)
	movzbl	17572(%rsp,%rcx), %eax
	movl	%eax, %ecx
	andb	$15, %cl
	leal	48(%rcx), %esi
	leal	87(%rcx), %edi
	cmpb	$10, %cl
	movzbl	%sil, %ecx
	movzbl	%dil, %esi
	cmovbl	%ecx, %esi
	movl	%eax, %ecx
	shrb	$4, %cl
	leal	48(%rcx), %edi
	addb	$87, %cl
	cmpb	$-96, %al
	movzbl	%dil, %eax
	movzbl	%cl, %ecx
	cmovbl	%eax, %ecx
	movb	%sil, 9(%r14,%rdx)
	movb	%cl, 8(%r14,%rdx)
	addq	$10, %rdx
	movq	%rdx, %rax
	jmp	.LBB0_27
.Lfunc_end0:
	.size	"lines::tell", .Lfunc_end0-"lines::tell"

	.section	".text.room_map::lone_sized::<=131072>","ax",@progbits
	.p2align	4
	.type	"room_map::lone_sized::<=131072>",@function
"room_map::lone_sized::<=131072>":
	pushq	%r15
	pushq	%r14
	pushq	%r12
	pushq	%rbx
	movq	%rsp, %r11
	subq	$129024, %r11
.LBB1_1:
	subq	$3072, %rsp
	movq	$0, (%rsp)
	cmpq	%r11, %rsp
	jne	.LBB1_1
	subq	$2088, %rsp
	movq	%rdx, %rbx
	movq	%rsi, %r14
	movq	%rdi, %r15
	movq	$1, 8(%rsp)
	movq	%rcx, 16(%rsp)
	negq	%rcx
	movq	$-1, 24(%rsp)
	movq	%rcx, 32(%rsp)
	leaq	40(%rsp), %rdi
	xorl	%r12d, %r12d
	movl	$131072, %edx
	xorl	%esi, %esi
	callq	memset@PLT
	.p2align	4
.LBB1_3:
	movzbl	40(%rsp,%rbx), %eax
	testb	%al, %al
	jne	.LBB1_5
	movzbl	(%r15,%r12), %ecx
	movb	$1, 40(%rsp,%rbx)
	addq	8(%rsp,%rcx,8), %rbx
	incq	%r12
	cmpq	%r12, %r14
	jne	.LBB1_3
.LBB1_5:
	testb	%al, %al
	sete	%al
	addq	$131112, %rsp
	popq	%rbx
	popq	%r12
	popq	%r14
	popq	%r15
	retq
.Lfunc_end1:
	.size	"room_map::lone_sized::<=131072>", .Lfunc_end1-"room_map::lone_sized::<=131072>"

	.section	.rodata.cst16,"aM",@progbits,16
	.p2align	4, 0x0
.LCPI2_0:
	.long	1
	.long	0
	.long	4294967295
	.long	0
	.section	".text.room_threads::is_room","ax",@progbits
	.p2align	4
	.type	"room_threads::is_room",@function
"room_threads::is_room":
	pushq	%rbp
	pushq	%r15
	pushq	%r14
	pushq	%r13
	pushq	%r12
	pushq	%rbx
	movq	%rsp, %r11
	subq	$129024, %r11
.LBB2_1:
	subq	$3072, %rsp
	movq	$0, (%rsp)
	cmpq	%r11, %rsp
	jne	.LBB2_1
	subq	$2104, %rsp
	movq	%rsi, %rbx
	movq	%rdi, %r14
	movabsq	$-281474976645120, %r12
	cmpq	$257, %rsi
	jae	.LBB2_10
	leaq	40(%rsp), %rdi
	xorl	%r15d, %r15d
	movl	$516, %edx
	xorl	%esi, %esi
	callq	memset@PLT
	leaq	98356(%rsp), %rdi
	movl	$516, %edx
	xorl	%esi, %esi
	callq	memset@PLT
	leaq	65584(%rsp), %rdi
	movl	$516, %edx
	xorl	%esi, %esi
	callq	memset@PLT
	leaq	32812(%rsp), %rdi
	movl	$516, %edx
	xorl	%esi, %esi
	callq	memset@PLT
	movl	%ebx, %eax
	shrl	%eax
	incl	%eax
	movq	%r12, 8(%rsp)
	movaps	.LCPI2_0(%rip), %xmm0
	movaps	%xmm0, 16(%rsp)
	movzwl	%ax, %ecx
	movl	%eax, %edx
	.p2align	4
.LBB2_4:
	movzbl	(%r14,%r15), %esi
	movw	%dx, 65584(%rsp,%r15,2)
	movl	%ecx, %edi
	movzwl	40(%rsp,%rdi,2), %r8d
	movw	%r8w, 98356(%rsp,%r15,2)
	incq	%r15
	addl	16(%rsp,%rsi,4), %ecx
	movw	%r15w, 40(%rsp,%rdi,2)
	addw	8(%rsp,%rsi,2), %dx
	cmpq	%r15, %rbx
	jne	.LBB2_4
	addl	%eax, %eax
	movzwl	%ax, %eax
	xorl	%ecx, %ecx
.LBB2_7:
	movzwl	40(%rsp,%rcx,2), %edx
	incq	%rcx
	testw	%dx, %dx
	je	.LBB2_6
	.p2align	4
.LBB2_8:
	movzwl	%dx, %edx
	movzwl	65582(%rsp,%rdx,2), %esi
	cmpw	%cx, 32812(%rsp,%rsi,2)
	je	.LBB2_28
	movw	%cx, 32812(%rsp,%rsi,2)
	movzwl	98354(%rsp,%rdx,2), %edx
	testw	%dx, %dx
	jne	.LBB2_8
.LBB2_6:
	cmpq	%rax, %rcx
	jne	.LBB2_7
	jmp	.LBB2_31
.LBB2_10:
	movl	%ebx, %ebp
	shrl	%ebp
	incl	%ebp
	movzwl	%bp, %r15d
	leaq	40(%rsp), %rdi
	xorl	%r13d, %r13d
	cmpq	$2048, %rbx
	ja	.LBB2_19
	movl	$4100, %edx
	xorl	%esi, %esi
	callq	memset@PLT
	leaq	98356(%rsp), %rdi
	movl	$4100, %edx
	xorl	%esi, %esi
	callq	memset@PLT
	leaq	65584(%rsp), %rdi
	movl	$4100, %edx
	xorl	%esi, %esi
	callq	memset@PLT
	leaq	32812(%rsp), %rdi
	movl	$4100, %edx
	xorl	%esi, %esi
	callq	memset@PLT
	movq	%r12, 8(%rsp)
	movaps	.LCPI2_0(%rip), %xmm0
	movaps	%xmm0, 16(%rsp)
	movl	%ebp, %eax
	.p2align	4
.LBB2_12:
	movzbl	(%r14,%r13), %ecx
	movw	%ax, 65584(%rsp,%r13,2)
	movl	%r15d, %edx
	movzwl	40(%rsp,%rdx,2), %esi
	movw	%si, 98356(%rsp,%r13,2)
	incq	%r13
	addl	16(%rsp,%rcx,4), %r15d
	movw	%r13w, 40(%rsp,%rdx,2)
	addw	8(%rsp,%rcx,2), %ax
	cmpq	%r13, %rbx
	jne	.LBB2_12
	addl	%ebp, %ebp
	movzwl	%bp, %eax
	xorl	%ecx, %ecx
.LBB2_15:
	movzwl	40(%rsp,%rcx,2), %edx
	incq	%rcx
	testw	%dx, %dx
	je	.LBB2_14
	.p2align	4
.LBB2_16:
	movzwl	%dx, %edx
	movzwl	65582(%rsp,%rdx,2), %esi
	cmpw	%cx, 32812(%rsp,%rsi,2)
	je	.LBB2_28
	movw	%cx, 32812(%rsp,%rsi,2)
	movzwl	98354(%rsp,%rdx,2), %edx
	testw	%dx, %dx
	jne	.LBB2_16
.LBB2_14:
	cmpq	%rax, %rcx
	jne	.LBB2_15
.LBB2_31:
	movb	$1, %al
	jmp	.LBB2_29
.LBB2_19:
	movl	$32772, %edx
	xorl	%esi, %esi
	callq	memset@PLT
	leaq	98356(%rsp), %rdi
	movl	$32772, %edx
	xorl	%esi, %esi
	callq	memset@PLT
	leaq	65584(%rsp), %rdi
	movl	$32772, %edx
	xorl	%esi, %esi
	callq	memset@PLT
	leaq	32812(%rsp), %rdi
	movl	$32772, %edx
	xorl	%esi, %esi
	callq	memset@PLT
	movq	%r12, 8(%rsp)
	movaps	.LCPI2_0(%rip), %xmm0
	movaps	%xmm0, 16(%rsp)
	movl	%ebp, %eax
	.p2align	4
.LBB2_20:
	movzbl	(%r14,%r13), %ecx
	movw	%ax, 65584(%rsp,%r13,2)
	movl	%r15d, %edx
	movzwl	40(%rsp,%rdx,2), %esi
	movw	%si, 98356(%rsp,%r13,2)
	incq	%r13
	addl	16(%rsp,%rcx,4), %r15d
	movw	%r13w, 40(%rsp,%rdx,2)
	addw	8(%rsp,%rcx,2), %ax
	cmpq	%r13, %rbx
	jne	.LBB2_20
	movb	$1, %al
	testw	%bp, %bp
	je	.LBB2_29
	movzwl	%bp, %ecx
	addl	%ecx, %ecx
	xorl	%edx, %edx
.LBB2_24:
	movzwl	40(%rsp,%rdx,2), %esi
	incq	%rdx
	testw	%si, %si
	je	.LBB2_23
	.p2align	4
.LBB2_25:
	movzwl	%si, %esi
	movzwl	65582(%rsp,%rsi,2), %edi
	cmpw	%dx, 32812(%rsp,%rdi,2)
	je	.LBB2_28
	movw	%dx, 32812(%rsp,%rdi,2)
	movzwl	98354(%rsp,%rsi,2), %esi
	testw	%si, %si
	jne	.LBB2_25
.LBB2_23:
	cmpq	%rcx, %rdx
	jne	.LBB2_24
	jmp	.LBB2_29
.LBB2_28:
	xorl	%eax, %eax
.LBB2_29:
	addq	$131128, %rsp
	popq	%rbx
	popq	%r12
	popq	%r13
	popq	%r14
	popq	%r15
	popq	%rbp
	retq
.Lfunc_end2:
	.size	"room_threads::is_room", .Lfunc_end2-"room_threads::is_room"

	.section	".text.sheet_cells::spell_decimal","ax",@progbits
	.p2align	4
	.type	"sheet_cells::spell_decimal",@function
"sheet_cells::spell_decimal":
	testq	%rdx, %rdx
	je	.LBB3_4
	cmpq	$9, %rcx
	ja	.LBB3_3
	orb	$48, %cl
	movb	%cl, (%rdi,%rsi)
	incq	%rsi
	movq	%rsi, %rax
	retq
.LBB3_3:
	pushq	%r15
	pushq	%r14
	pushq	%rbx
	decq	%rdx
	movabsq	$-3689348814741910323, %r9
	movq	%rcx, %rax
	movq	%rdx, %r8
	mulq	%r9
	movq	%rdx, %rbx
	shrq	$3, %rbx
	movq	%rdi, %r14
	movq	%r8, %rdx
	movq	%rcx, %r15
	movq	%rbx, %rcx
	callq	"sheet_cells::spell_decimal"
	movq	%rax, %rsi
	addl	%ebx, %ebx
	leal	(%rbx,%rbx,4), %eax
	subl	%eax, %r15d
	orb	$48, %r15b
	movb	%r15b, (%r14,%rsi)
	incq	%rsi
	popq	%rbx
	popq	%r14
	popq	%r15
.LBB3_4:
	movq	%rsi, %rax
	retq
.Lfunc_end3:
	.size	"sheet_cells::spell_decimal", .Lfunc_end3-"sheet_cells::spell_decimal"

	.section	.rodata.cst16,"aM",@progbits,16
	.p2align	4, 0x0
.LCPI4_0:
	.byte	105
	.byte	100
	.byte	44
	.byte	114
	.byte	101
	.byte	102
	.byte	117
	.byte	115
	.byte	97
	.byte	108
	.byte	44
	.byte	112
	.byte	108
	.byte	97
	.byte	99
	.byte	101
.LCPI4_1:
	.byte	44
	.byte	118
	.byte	101
	.byte	114
	.byte	100
	.byte	105
	.byte	99
	.byte	116
	.byte	44
	.byte	115
	.byte	116
	.byte	101
	.byte	112
	.byte	115
	.byte	44
	.byte	110
.LCPI4_2:
	.byte	111
	.byte	100
	.byte	101
	.byte	115
	.byte	44
	.byte	99
	.byte	111
	.byte	114
	.byte	110
	.byte	101
	.byte	114
	.byte	115
	.byte	44
	.byte	106
	.byte	44
	.byte	107
.LCPI4_3:
	.byte	0
	.byte	1
	.byte	2
	.byte	3
	.byte	4
	.byte	5
	.byte	6
	.byte	7
	.byte	8
	.byte	9
	.byte	10
	.byte	11
	.byte	12
	.byte	13
	.byte	14
	.byte	15
.LCPI4_4:
	.byte	16
	.byte	17
	.byte	18
	.byte	19
	.byte	20
	.byte	21
	.byte	22
	.byte	23
	.byte	24
	.byte	25
	.byte	26
	.byte	27
	.byte	28
	.byte	29
	.byte	30
	.byte	31
	.section	".text.line_io::send::<#df9e9f1468b30f79>","ax",@progbits
	.p2align	4
	.type	"line_io::send::<#df9e9f1468b30f79>",@function
"line_io::send::<#df9e9f1468b30f79>":
	pushq	%rbp
	pushq	%r15
	pushq	%r14
	pushq	%r13
	pushq	%r12
	pushq	%rbx
	subq	$136, %rsp
	movq	%r9, 16(%rsp)
	movq	%r8, %r12
	movq	%rcx, 24(%rsp)
	movl	%edx, %ebp
	movq	%rsi, %r14
	movq	%rdi, 32(%rsp)
	movl	$0, 3(%rsp)
	movl	$0, (%rsp)
	xorl	%ecx, %ecx
	movq	%r8, 40(%rsp)
.LBB4_1:
	movq	%r12, %rax
	movq	%rcx, 8(%rsp)
	subq	%rcx, %rax
	cmpq	$16384, %rax
	movl	$16384, %r15d
	cmovbq	%rax, %r15
	testq	%r14, %r14
	js	.LBB4_19
	je	.LBB4_4
	xorl	%r13d, %r13d
	jmp	.LBB4_5
	.p2align	4
.LBB4_4:
	movaps	.LCPI4_0(%rip), %xmm0
	movq	16(%rsp), %rcx
	movups	%xmm0, (%rcx)
	movaps	.LCPI4_1(%rip), %xmm0
	movups	%xmm0, 16(%rcx)
	movaps	.LCPI4_2(%rip), %xmm0
	movups	%xmm0, 32(%rcx)
	movabsq	$7743706881112301868, %rax
	movq	%rax, 48(%rcx)
	movw	$2658, 56(%rcx)
	movl	$58, %r13d
.LBB4_5:
	movq	8(%rsp), %rcx
	cmpq	$1, %r14
	adcq	$0, %r14
	cmpq	%rcx, %r12
	jne	.LBB4_6
.LBB4_11:
	addq	%r15, 8(%rsp)
	movl	$1, %ebx
	movq	16(%rsp), %r15
	movq	40(%rsp), %r12
	jmp	.LBB4_12
	.p2align	4
.LBB4_14:
	je	.LBB4_19
	cmpq	%r13, %rax
	cmovaeq	%r13, %rax
	addq	%rax, %r15
	subq	%rax, %r13
.LBB4_18:
	incq	%rbx
	je	.LBB4_19
.LBB4_12:
	testq	%r13, %r13
	je	.LBB4_20
	movl	$1, %edi
	movq	%r15, %rsi
	movq	%r13, %rdx
	callq	write@PLT
	testq	%rax, %rax
	jns	.LBB4_14
	leaq	48(%rsp), %rdi
	callq	"std_io::io::error::last_error"
	movq	48(%rsp), %rax
	shrq	$8, %rax
	movaps	.LCPI4_3(%rip), %xmm0
	movaps	%xmm0, 48(%rsp)
	movaps	.LCPI4_4(%rip), %xmm0
	movaps	%xmm0, 64(%rsp)
	movabsq	$2820983053732684064, %rcx
	movq	%rcx, 80(%rsp)
	movb	$40, 88(%rsp)
	cmpb	$41, %al
	jae	.LBB4_19
	andl	$63, %eax
	cmpb	$35, 48(%rsp,%rax)
	je	.LBB4_18
	jmp	.LBB4_19
	.p2align	4
.LBB4_6:
	movq	24(%rsp), %rax
	addq	%rax, %rcx
	xorl	%ebx, %ebx
	jmp	.LBB4_7
	.p2align	4
.LBB4_9:
	movq	16(%rsp), %rax
	movb	%r12b, (%rax,%r13)
.LBB4_10:
	incq	%r13
	xorl	%ebp, %ebp
	cmpb	$10, %r12b
	sete	%bpl
	addq	%rbp, %r14
	incq	%rbx
	cmpq	%rbx, %r15
	je	.LBB4_11
.LBB4_7:
	movzbl	(%rcx,%rbx), %r12d
	testb	$1, %bpl
	je	.LBB4_9
	movl	$20, %edx
	movq	16(%rsp), %rbp
	movq	%rbp, %rdi
	movq	%r13, %rsi
	movq	%rcx, %r13
	movq	%r14, %rcx
	callq	"sheet_cells::spell_decimal"
	movq	%r13, %rcx
	movq	%rax, %r13
	movb	$44, (%rbp,%rax)
	movb	%r12b, 1(%rbp,%rax)
	incq	%r13
	jmp	.LBB4_10
	.p2align	4
.LBB4_20:
	movq	8(%rsp), %rcx
	cmpq	%rcx, %r12
	ja	.LBB4_1
	andb	$1, %bpl
	movl	$0, 3(%rsp)
	movl	$0, (%rsp)
	xorl	%eax, %eax
	jmp	.LBB4_22
.LBB4_19:
	movl	$0, 3(%rsp)
	movl	$0, (%rsp)
	movb	$1, %al
	xorl	%r14d, %r14d
	xorl	%ebp, %ebp
.LBB4_22:
	movq	32(%rsp), %rdx
	movb	%al, (%rdx)
	movb	%al, 1(%rdx)
	movq	%r14, 8(%rdx)
	movb	%bpl, 16(%rdx)
	movl	(%rsp), %eax
	movl	3(%rsp), %ecx
	movl	%eax, 17(%rdx)
	movl	%ecx, 20(%rdx)
	addq	$136, %rsp
	popq	%rbx
	popq	%r12
	popq	%r13
	popq	%r14
	popq	%r15
	popq	%rbp
	retq
.Lfunc_end4:
	.size	"line_io::send::<#df9e9f1468b30f79>", .Lfunc_end4-"line_io::send::<#df9e9f1468b30f79>"

	.section	".text.std_io::io::error::last_error","ax",@progbits
	.p2align	4
	.type	"std_io::io::error::last_error",@function
"std_io::io::error::last_error":
	pushq	%rbx
	movq	%rdi, %rbx
	callq	rattle_errno@PLT
	movl	%eax, %ecx
	movb	$41, %dl
	testl	%eax, %eax
	js	.LBB5_40
	decl	%eax
	cmpl	$121, %eax
	ja	.LBB5_40
	leaq	.LJTI5_0(%rip), %rsi
	movslq	(%rsi,%rax,4), %rax
	addq	%rsi, %rax
	jmpq	*%rax
.LBB5_3:
	movb	$1, %dl
	jmp	.LBB5_40
.LBB5_24:
	movb	$36, %dl
	jmp	.LBB5_40
.LBB5_36:
	movb	$4, %dl
	jmp	.LBB5_40
.LBB5_33:
	movb	$7, %dl
	jmp	.LBB5_40
.LBB5_39:
	movb	$26, %dl
	jmp	.LBB5_40
.LBB5_37:
	movb	$39, %dl
	jmp	.LBB5_40
.LBB5_28:
	movb	$9, %dl
	jmp	.LBB5_40
.LBB5_27:
	movb	$8, %dl
	jmp	.LBB5_40
.LBB5_22:
	movb	$30, %dl
	jmp	.LBB5_40
.LBB5_18:
	movb	$25, %dl
	jmp	.LBB5_40
.LBB5_20:
	movb	$32, %dl
	jmp	.LBB5_40
.LBB5_23:
	movb	$33, %dl
	jmp	.LBB5_40
.LBB5_34:
	movb	$22, %dl
	jmp	.LBB5_40
.LBB5_11:
	movb	$31, %dl
	jmp	.LBB5_40
.LBB5_15:
	movb	$29, %dl
	jmp	.LBB5_40
.LBB5_26:
	movb	$18, %dl
	jmp	.LBB5_40
.LBB5_29:
	movb	$10, %dl
	jmp	.LBB5_40
.LBB5_9:
	movb	$28, %dl
	jmp	.LBB5_40
.LBB5_12:
	movb	$14, %dl
	jmp	.LBB5_40
.LBB5_10:
	movb	$12, %dl
	jmp	.LBB5_40
.LBB5_30:
	movb	$5, %dl
	jmp	.LBB5_40
.LBB5_32:
	movb	$3, %dl
	jmp	.LBB5_40
.LBB5_4:
	xorl	%edx, %edx
	jmp	.LBB5_40
.LBB5_7:
	movb	$13, %dl
	jmp	.LBB5_40
.LBB5_8:
	movb	$38, %dl
	jmp	.LBB5_40
.LBB5_21:
	movb	$11, %dl
	jmp	.LBB5_40
.LBB5_5:
	movb	$35, %dl
	jmp	.LBB5_40
.LBB5_6:
	movb	$34, %dl
	jmp	.LBB5_40
.LBB5_14:
	movb	$20, %dl
	jmp	.LBB5_40
.LBB5_13:
	movb	$15, %dl
	jmp	.LBB5_40
.LBB5_38:
	movb	$19, %dl
	jmp	.LBB5_40
.LBB5_25:
	movb	$16, %dl
	jmp	.LBB5_40
.LBB5_31:
	movb	$6, %dl
	jmp	.LBB5_40
.LBB5_16:
	movb	$27, %dl
	jmp	.LBB5_40
.LBB5_17:
	movb	$24, %dl
	jmp	.LBB5_40
.LBB5_35:
	movb	$2, %dl
	jmp	.LBB5_40
.LBB5_19:
	movb	$17, %dl
.LBB5_40:
	movb	$0, (%rbx)
	movb	%dl, 1(%rbx)
	movw	$0, 2(%rbx)
	movl	%ecx, 4(%rbx)
	xorps	%xmm0, %xmm0
	movups	%xmm0, 8(%rbx)
	movups	%xmm0, 24(%rbx)
	movups	%xmm0, 40(%rbx)
	movups	%xmm0, 56(%rbx)
	movups	%xmm0, 72(%rbx)
	popq	%rbx
	retq
.Lfunc_end5:
	.size	"std_io::io::error::last_error", .Lfunc_end5-"std_io::io::error::last_error"
	.section	".rodata.std_io::io::error::last_error","a",@progbits
	.p2align	2, 0x0
.LJTI5_0:
	.long	.LBB5_3-.LJTI5_0
	.long	.LBB5_4-.LJTI5_0
	.long	.LBB5_40-.LJTI5_0
	.long	.LBB5_5-.LJTI5_0
	.long	.LBB5_40-.LJTI5_0
	.long	.LBB5_40-.LJTI5_0
	.long	.LBB5_6-.LJTI5_0
	.long	.LBB5_40-.LJTI5_0
	.long	.LBB5_40-.LJTI5_0
	.long	.LBB5_40-.LJTI5_0
	.long	.LBB5_7-.LJTI5_0
	.long	.LBB5_8-.LJTI5_0
	.long	.LBB5_3-.LJTI5_0
	.long	.LBB5_40-.LJTI5_0
	.long	.LBB5_40-.LJTI5_0
	.long	.LBB5_9-.LJTI5_0
	.long	.LBB5_10-.LJTI5_0
	.long	.LBB5_11-.LJTI5_0
	.long	.LBB5_40-.LJTI5_0
	.long	.LBB5_12-.LJTI5_0
	.long	.LBB5_13-.LJTI5_0
	.long	.LBB5_14-.LJTI5_0
	.long	.LBB5_40-.LJTI5_0
	.long	.LBB5_40-.LJTI5_0
	.long	.LBB5_40-.LJTI5_0
	.long	.LBB5_15-.LJTI5_0
	.long	.LBB5_16-.LJTI5_0
	.long	.LBB5_17-.LJTI5_0
	.long	.LBB5_18-.LJTI5_0
	.long	.LBB5_19-.LJTI5_0
	.long	.LBB5_20-.LJTI5_0
	.long	.LBB5_21-.LJTI5_0
	.long	.LBB5_40-.LJTI5_0
	.long	.LBB5_40-.LJTI5_0
	.long	.LBB5_22-.LJTI5_0
	.long	.LBB5_23-.LJTI5_0
	.long	.LBB5_40-.LJTI5_0
	.long	.LBB5_24-.LJTI5_0
	.long	.LBB5_25-.LJTI5_0
	.long	.LBB5_26-.LJTI5_0
	.long	.LBB5_40-.LJTI5_0
	.long	.LBB5_40-.LJTI5_0
	.long	.LBB5_40-.LJTI5_0
	.long	.LBB5_40-.LJTI5_0
	.long	.LBB5_40-.LJTI5_0
	.long	.LBB5_40-.LJTI5_0
	.long	.LBB5_40-.LJTI5_0
	.long	.LBB5_40-.LJTI5_0
	.long	.LBB5_40-.LJTI5_0
	.long	.LBB5_40-.LJTI5_0
	.long	.LBB5_40-.LJTI5_0
	.long	.LBB5_40-.LJTI5_0
	.long	.LBB5_40-.LJTI5_0
	.long	.LBB5_40-.LJTI5_0
	.long	.LBB5_40-.LJTI5_0
	.long	.LBB5_40-.LJTI5_0
	.long	.LBB5_40-.LJTI5_0
	.long	.LBB5_40-.LJTI5_0
	.long	.LBB5_40-.LJTI5_0
	.long	.LBB5_40-.LJTI5_0
	.long	.LBB5_40-.LJTI5_0
	.long	.LBB5_40-.LJTI5_0
	.long	.LBB5_40-.LJTI5_0
	.long	.LBB5_40-.LJTI5_0
	.long	.LBB5_40-.LJTI5_0
	.long	.LBB5_40-.LJTI5_0
	.long	.LBB5_40-.LJTI5_0
	.long	.LBB5_40-.LJTI5_0
	.long	.LBB5_40-.LJTI5_0
	.long	.LBB5_40-.LJTI5_0
	.long	.LBB5_40-.LJTI5_0
	.long	.LBB5_40-.LJTI5_0
	.long	.LBB5_40-.LJTI5_0
	.long	.LBB5_40-.LJTI5_0
	.long	.LBB5_40-.LJTI5_0
	.long	.LBB5_40-.LJTI5_0
	.long	.LBB5_40-.LJTI5_0
	.long	.LBB5_40-.LJTI5_0
	.long	.LBB5_40-.LJTI5_0
	.long	.LBB5_40-.LJTI5_0
	.long	.LBB5_40-.LJTI5_0
	.long	.LBB5_40-.LJTI5_0
	.long	.LBB5_40-.LJTI5_0
	.long	.LBB5_40-.LJTI5_0
	.long	.LBB5_40-.LJTI5_0
	.long	.LBB5_40-.LJTI5_0
	.long	.LBB5_40-.LJTI5_0
	.long	.LBB5_40-.LJTI5_0
	.long	.LBB5_40-.LJTI5_0
	.long	.LBB5_40-.LJTI5_0
	.long	.LBB5_40-.LJTI5_0
	.long	.LBB5_40-.LJTI5_0
	.long	.LBB5_40-.LJTI5_0
	.long	.LBB5_40-.LJTI5_0
	.long	.LBB5_24-.LJTI5_0
	.long	.LBB5_40-.LJTI5_0
	.long	.LBB5_40-.LJTI5_0
	.long	.LBB5_27-.LJTI5_0
	.long	.LBB5_28-.LJTI5_0
	.long	.LBB5_29-.LJTI5_0
	.long	.LBB5_30-.LJTI5_0
	.long	.LBB5_40-.LJTI5_0
	.long	.LBB5_31-.LJTI5_0
	.long	.LBB5_32-.LJTI5_0
	.long	.LBB5_40-.LJTI5_0
	.long	.LBB5_40-.LJTI5_0
	.long	.LBB5_33-.LJTI5_0
	.long	.LBB5_40-.LJTI5_0
	.long	.LBB5_40-.LJTI5_0
	.long	.LBB5_34-.LJTI5_0
	.long	.LBB5_35-.LJTI5_0
	.long	.LBB5_40-.LJTI5_0
	.long	.LBB5_36-.LJTI5_0
	.long	.LBB5_40-.LJTI5_0
	.long	.LBB5_37-.LJTI5_0
	.long	.LBB5_38-.LJTI5_0
	.long	.LBB5_40-.LJTI5_0
	.long	.LBB5_40-.LJTI5_0
	.long	.LBB5_40-.LJTI5_0
	.long	.LBB5_40-.LJTI5_0
	.long	.LBB5_40-.LJTI5_0
	.long	.LBB5_39-.LJTI5_0

	.section	.rodata.cst16,"aM",@progbits,16
	.p2align	4, 0x0
.LCPI6_0:
	.zero	16,10
	.section	.text.main,"ax",@progbits
	.globl	main
	.p2align	4
	.type	main,@function
main:
	pushq	%rbp
	pushq	%r15
	pushq	%r14
	pushq	%r13
	pushq	%r12
	pushq	%rbx
	movq	%rsp, %r11
	subq	$608256, %r11
.LBB6_1:
	subq	$3072, %rsp
	movq	$0, (%rsp)
	cmpq	%r11, %rsp
	jne	.LBB6_1
	subq	$2440, %rsp
	movl	$1, %esi
	movl	$13, %edi
	callq	__sysv_signal@PLT
	leaq	57(%rsp), %rdi
	xorl	%r15d, %r15d
	movl	$1031, %edx
	xorl	%esi, %esi
	callq	memset@PLT
	leaq	184654(%rsp), %rdi
	movl	$65536, %edx
	xorl	%esi, %esi
	callq	memset@PLT
	leaq	53582(%rsp), %rdi
	movl	$131072, %edx
	xorl	%esi, %esi
	callq	memset@PLT
	leaq	250190(%rsp), %rdi
	movl	$360506, %edx
	xorl	%esi, %esi
	callq	memset@PLT
	movb	$1, 7(%rsp)
	xorl	%ebx, %ebx
	movq	$0, 40(%rsp)
	xorl	%ebp, %ebp
	xorl	%r14d, %r14d
	jmp	.LBB6_3
	.p2align	4
.LBB6_6:
	movq	%r14, %r12
.LBB6_24:
	movzbl	7(%rsp), %edx
	leaq	16(%rsp), %rdi
	leaq	53582(%rsp), %rcx
	leaq	250190(%rsp), %r9
	movq	40(%rsp), %rsi
	movq	8(%rsp), %r8
	callq	"line_io::send::<#df9e9f1468b30f79>"
	cmpb	$0, 16(%rsp)
	jne	.LBB6_34
	movq	24(%rsp), %rax
	movq	%rax, 40(%rsp)
	movzbl	32(%rsp), %eax
	movb	%al, 7(%rsp)
	movq	%r12, %r14
	movq	48(%rsp), %rbx
	incq	%rbx
	cmpq	$-1, %rbx
	je	.LBB6_8
.LBB6_3:
	cmpq	%r15, %rbp
	jae	.LBB6_26
	movq	%rbx, 48(%rsp)
	pxor	%xmm0, %xmm0
	movdqa	%xmm0, 16(%rsp)
	movq	$0, 32(%rsp)
	leaq	1088(%rsp), %rdi
	movq	$0, 8(%rsp)
	movl	$52488, %edx
	xorl	%esi, %esi
	callq	memset@PLT
	jmp	.LBB6_5
.LBB6_17:
	movq	%rbx, %r13
	.p2align	4
.LBB6_18:
	movl	$1031, %r12d
	subq	%r14, %r12
	cmpq	%r13, %r12
	cmovaeq	%r13, %r12
	leaq	(%rsp,%r14), %rdi
	addq	$57, %rdi
	movq	%r12, %rdx
	callq	memcpy@PLT
	addq	%r14, %r12
	addq	%r13, %rbp
	movq	%r12, %r14
	cmpq	%r15, %rbp
	jae	.LBB6_24
.LBB6_5:
	movq	8(%rsp), %rax
	addq	$-98056, %rax
	cmpq	$33017, %rax
	jb	.LBB6_6
	leaq	(%rsp,%rbp), %rsi
	addq	$184654, %rsi
	movq	%r15, %r13
	subq	%rbp, %r13
	xorl	%ebx, %ebx
	cmpq	$32, %r13
	jb	.LBB6_13
	movq	%r13, %rax
	.p2align	4
.LBB6_11:
	movdqu	(%rsi,%rbx), %xmm0
	movdqu	16(%rsi,%rbx), %xmm1
	movdqa	.LCPI6_0(%rip), %xmm2
	pcmpeqb	%xmm2, %xmm1
	pcmpeqb	%xmm2, %xmm0
	por	%xmm1, %xmm0
	pmovmskb	%xmm0, %ecx
	testl	%ecx, %ecx
	jne	.LBB6_13
	addq	$32, %rbx
	addq	$-32, %rax
	cmpq	$31, %rax
	ja	.LBB6_11
.LBB6_13:
	cmpq	%r13, %rbx
	jae	.LBB6_18
	.p2align	4
.LBB6_14:
	cmpb	$10, (%rsi,%rbx)
	je	.LBB6_16
	incq	%rbx
	cmpq	%rbx, %r13
	jne	.LBB6_14
	jmp	.LBB6_18
	.p2align	4
.LBB6_16:
	cmpq	%rbx, %r13
	jbe	.LBB6_17
	testq	%r14, %r14
	je	.LBB6_20
	movl	$1031, %r12d
	subq	%r14, %r12
	cmpq	%rbx, %r12
	cmovaeq	%rbx, %r12
	leaq	(%rsp,%r14), %rdi
	addq	$57, %rdi
	movq	%r12, %rdx
	callq	memcpy@PLT
	addq	%r14, %r12
	leaq	57(%rsp), %rdi
	leaq	1088(%rsp), %rdx
	leaq	53582(%rsp), %rcx
	movq	%r12, %rsi
	jmp	.LBB6_22
.LBB6_20:
	cmpq	$1031, %rbx
	movl	$1031, %eax
	cmovbq	%rbx, %rax
	leaq	1088(%rsp), %rdx
	leaq	53582(%rsp), %rcx
	movq	%rsi, %rdi
	movq	%rax, %rsi
.LBB6_22:
	movq	8(%rsp), %r8
	callq	"lines::tell"
	movq	%rax, 8(%rsp)
	addq	%rbx, %rbp
	incq	%rbp
	xorl	%r12d, %r12d
	movq	%r12, %r14
	cmpq	%r15, %rbp
	jb	.LBB6_5
	jmp	.LBB6_24
	.p2align	4
.LBB6_26:
	leaq	184654(%rsp), %rsi
	movl	$65536, %edx
	xorl	%edi, %edi
	callq	read@PLT
	testq	%rax, %rax
	js	.LBB6_27
	je	.LBB6_30
	cmpq	$65536, %rax
	movl	$65536, %r15d
	cmovbq	%rax, %r15
	xorl	%ebp, %ebp
	incq	%rbx
	cmpq	$-1, %rbx
	jne	.LBB6_3
.LBB6_8:
	movl	$1, %eax
	jmp	.LBB6_35
.LBB6_27:
	leaq	1088(%rsp), %rdi
	callq	"std_io::io::error::last_error"
	movl	$1, %eax
	jmp	.LBB6_35
.LBB6_30:
	pxor	%xmm0, %xmm0
	movdqa	%xmm0, 16(%rsp)
	movq	$0, 32(%rsp)
	testq	%r14, %r14
	je	.LBB6_31
	leaq	1088(%rsp), %r15
	movl	$52488, %edx
	movq	%r15, %rdi
	xorl	%esi, %esi
	callq	memset@PLT
	leaq	57(%rsp), %rdi
	leaq	53582(%rsp), %rcx
	movq	%r14, %rsi
	movq	%r15, %rdx
	xorl	%r8d, %r8d
	callq	"lines::tell"
	movq	%rax, %r8
	jmp	.LBB6_33
.LBB6_31:
	xorl	%r8d, %r8d
.LBB6_33:
	movzbl	7(%rsp), %edx
	leaq	16(%rsp), %rdi
	leaq	53582(%rsp), %rcx
	leaq	250190(%rsp), %r9
	movq	40(%rsp), %rsi
	callq	"line_io::send::<#df9e9f1468b30f79>"
	cmpb	$0, 16(%rsp)
	movl	$0, %eax
	je	.LBB6_35
.LBB6_34:
	movzbl	17(%rsp), %eax
	cmpb	$1, %al
	movl	$2, %eax
	sbbl	$0, %eax
.LBB6_35:
	addq	$610696, %rsp
	popq	%rbx
	popq	%r12
	popq	%r13
	popq	%r14
	popq	%r15
	popq	%rbp
	retq
.Lfunc_end6:
	.size	main, .Lfunc_end6-main

	.ident	"rattle logic=dac8208d650f15bf3e2dc313a14fa4c783a3acf887bdfab66e1714b038d9e11b"
	.section	".note.GNU-stack","",@progbits
