/* nm_set 0.1.0: the code of nm_set_c for x86-64 Linux, as c/build has made it. Do not edit.
 *
 * proved: nm_set_c and all crates that it depends on
 * kit: rattle-kit-13f logic dac8208d650f15bf
 * sources: sha256 8b3d7b5499e920c56f79e4790921cd6d0c5cb2f4c0580f9327dc58dc49c02d06
 *
 * dist/README.md says how this file is made, checked and used, and what is trusted.
 */
#if !defined(__x86_64__) || !defined(__linux__) || !defined(__LP64__)
#error "nm_set has code for 64-bit x86 Linux alone, and this compiler compiles for another machine"
#endif
	.file	"nm_set-x86_64.S"
	.hidden	nm_host_alloc
	.hidden	nm_host_dealloc
	.hidden	nm_host_realloc
	.section	".text.std_alloc::arc::Arc::drop::<#58f27b66bb4955cb>","ax",@progbits
	.p2align	4
	.type	"std_alloc::arc::Arc::drop::<#58f27b66bb4955cb>",@function
"std_alloc::arc::Arc::drop::<#58f27b66bb4955cb>":
	.cfi_sections .eh_frame
	.cfi_startproc
	pushq	%rbp
	.cfi_def_cfa_offset 16
	pushq	%r15
	.cfi_def_cfa_offset 24
	pushq	%r14
	.cfi_def_cfa_offset 32
	pushq	%r13
	.cfi_def_cfa_offset 40
	pushq	%r12
	.cfi_def_cfa_offset 48
	pushq	%rbx
	.cfi_def_cfa_offset 56
	subq	$72, %rsp
	.cfi_def_cfa_offset 128
	.cfi_offset %rbx, -56
	.cfi_offset %r12, -48
	.cfi_offset %r13, -40
	.cfi_offset %r14, -32
	.cfi_offset %r15, -24
	.cfi_offset %rbp, -16
	lock		decq	(%rdi)
	jne	.LBB0_12
	movq	40(%rdi), %r13
	movq	56(%rdi), %rbp
	movq	112(%rdi), %r14
	movq	128(%rdi), %r15
	movq	136(%rdi), %r12
	movq	152(%rdi), %rax
	movq	%rax, 40(%rsp)
	movq	168(%rdi), %rax
	movq	%rax, 32(%rsp)
	movq	184(%rdi), %rax
	movq	%rax, 48(%rsp)
	movq	192(%rdi), %rax
	movq	%rax, 64(%rsp)
	movq	200(%rdi), %rbx
	movq	208(%rdi), %rax
	movq	%rax, 56(%rsp)
	callq	nm_host_dealloc@PLT
	movq	%r13, %rdi
	callq	nm_host_dealloc@PLT
	movq	%rbp, %rdi
	callq	nm_host_dealloc@PLT
	testq	%r15, %r15
	je	.LBB0_6
	addq	$136, %r14
	jmp	.LBB0_3
	.p2align	4
.LBB0_5:
	addq	$144, %r14
	decq	%r15
	je	.LBB0_6
.LBB0_3:
	cmpb	$0, -136(%r14)
	je	.LBB0_5
	movq	(%r14), %r13
	movq	-48(%r14), %rax
	movq	%rax, 16(%rsp)
	movups	-64(%r14), %xmm0
	movaps	%xmm0, (%rsp)
	movq	%rsp, %rdi
	callq	"std_alloc::vec::Vec::drop::<#032578a7531b7385>"
	movq	%r13, %rdi
	callq	nm_host_dealloc@PLT
	jmp	.LBB0_5
.LBB0_6:
	movq	%r12, %rdi
	callq	nm_host_dealloc@PLT
	movq	40(%rsp), %rdi
	callq	nm_host_dealloc@PLT
	cmpq	$0, 48(%rsp)
	je	.LBB0_8
	movq	32(%rsp), %rdi
	callq	nm_host_dealloc@PLT
.LBB0_8:
	testq	%rbx, %rbx
	movq	64(%rsp), %r12
	je	.LBB0_11
	leaq	128(%r12), %r15
	.p2align	4
.LBB0_10:
	movq	(%r15), %r14
	movq	-48(%r15), %rax
	movq	%rax, 16(%rsp)
	movups	-64(%r15), %xmm0
	movaps	%xmm0, (%rsp)
	movq	%rsp, %rdi
	callq	"std_alloc::vec::Vec::drop::<#032578a7531b7385>"
	movq	%r14, %rdi
	callq	nm_host_dealloc@PLT
	addq	$136, %r15
	decq	%rbx
	jne	.LBB0_10
.LBB0_11:
	cmpq	$0, 56(%rsp)
	je	.LBB0_12
	movq	%r12, %rdi
	addq	$72, %rsp
	.cfi_def_cfa_offset 56
	popq	%rbx
	.cfi_def_cfa_offset 48
	popq	%r12
	.cfi_def_cfa_offset 40
	popq	%r13
	.cfi_def_cfa_offset 32
	popq	%r14
	.cfi_def_cfa_offset 24
	popq	%r15
	.cfi_def_cfa_offset 16
	popq	%rbp
	.cfi_def_cfa_offset 8
	jmp	nm_host_dealloc@PLT
.LBB0_12:
	.cfi_def_cfa_offset 128
	addq	$72, %rsp
	.cfi_def_cfa_offset 56
	popq	%rbx
	.cfi_def_cfa_offset 48
	popq	%r12
	.cfi_def_cfa_offset 40
	popq	%r13
	.cfi_def_cfa_offset 32
	popq	%r14
	.cfi_def_cfa_offset 24
	popq	%r15
	.cfi_def_cfa_offset 16
	popq	%rbp
	.cfi_def_cfa_offset 8
	retq
.Lfunc_end0:
	.size	"std_alloc::arc::Arc::drop::<#58f27b66bb4955cb>", .Lfunc_end0-"std_alloc::arc::Arc::drop::<#58f27b66bb4955cb>"
	.cfi_endproc
	.section	".text.std_alloc::vec::Vec::drop::<#032578a7531b7385>","ax",@progbits
	.p2align	4
	.type	"std_alloc::vec::Vec::drop::<#032578a7531b7385>",@function
"std_alloc::vec::Vec::drop::<#032578a7531b7385>":
	.cfi_startproc
	pushq	%rbp
	.cfi_def_cfa_offset 16
	pushq	%r15
	.cfi_def_cfa_offset 24
	pushq	%r14
	.cfi_def_cfa_offset 32
	pushq	%r13
	.cfi_def_cfa_offset 40
	pushq	%r12
	.cfi_def_cfa_offset 48
	pushq	%rbx
	.cfi_def_cfa_offset 56
	subq	$24, %rsp
	.cfi_def_cfa_offset 80
	.cfi_offset %rbx, -56
	.cfi_offset %r12, -48
	.cfi_offset %r13, -40
	.cfi_offset %r14, -32
	.cfi_offset %r15, -24
	.cfi_offset %rbp, -16
	movq	(%rdi), %rbx
	movq	8(%rdi), %rcx
	movq	16(%rdi), %rax
	movq	%rax, 8(%rsp)
	movq	%rcx, 16(%rsp)
	testq	%rcx, %rcx
	je	.LBB1_18
	xorl	%r12d, %r12d
	jmp	.LBB1_2
	.p2align	4
.LBB1_17:
	incq	%r12
	cmpq	16(%rsp), %r12
	je	.LBB1_18
.LBB1_2:
	movq	%r12, %rax
	shlq	$5, %rax
	leaq	(%rax,%rax,2), %rsi
	movq	8(%rbx,%rsi), %rcx
	movl	24(%rbx,%rsi), %r13d
	movq	32(%rbx,%rsi), %r14
	movl	48(%rbx,%rsi), %ebp
	movl	60(%rbx,%rsi), %edx
	testl	%edx, %edx
	je	.LBB1_3
	movl	56(%rbx,%rsi), %r8d
	movq	40(%rbx,%rsi), %rsi
	jmp	.LBB1_5
	.p2align	4
.LBB1_6:
	movq	%rcx, %rdi
	decl	%edx
	je	.LBB1_12
.LBB1_5:
	incl	%r8d
	cmpl	$32, %r8d
	jne	.LBB1_6
	movq	(%rcx), %rdi
	testl	%ebp, %ebp
	je	.LBB1_8
	movq	$0, (%rcx)
	movq	%rcx, (%rsi)
	jmp	.LBB1_10
.LBB1_8:
	movq	$0, (%rcx)
	movq	%rcx, %r14
.LBB1_10:
	decl	%r13d
	incl	%ebp
	xorl	%r8d, %r8d
	movq	%rcx, %rsi
	movq	%rdi, %rcx
	decl	%edx
	jne	.LBB1_5
.LBB1_12:
	testl	%r13d, %r13d
	je	.LBB1_14
	.p2align	4
.LBB1_13:
	movq	(%rdi), %r15
	callq	nm_host_dealloc@PLT
	movq	%r15, %rdi
	decl	%r13d
	jne	.LBB1_13
.LBB1_14:
	testl	%ebp, %ebp
	je	.LBB1_17
	movq	%r14, %rdi
	.p2align	4
.LBB1_16:
	movq	(%rdi), %r14
	callq	nm_host_dealloc@PLT
	movq	%r14, %rdi
	decl	%ebp
	jne	.LBB1_16
	jmp	.LBB1_17
	.p2align	4
.LBB1_3:
	movq	%rcx, %rdi
	testl	%r13d, %r13d
	jne	.LBB1_13
	jmp	.LBB1_14
.LBB1_18:
	cmpq	$0, 8(%rsp)
	je	.LBB1_19
	movq	%rbx, %rdi
	addq	$24, %rsp
	.cfi_def_cfa_offset 56
	popq	%rbx
	.cfi_def_cfa_offset 48
	popq	%r12
	.cfi_def_cfa_offset 40
	popq	%r13
	.cfi_def_cfa_offset 32
	popq	%r14
	.cfi_def_cfa_offset 24
	popq	%r15
	.cfi_def_cfa_offset 16
	popq	%rbp
	.cfi_def_cfa_offset 8
	jmp	nm_host_dealloc@PLT
.LBB1_19:
	.cfi_def_cfa_offset 80
	addq	$24, %rsp
	.cfi_def_cfa_offset 56
	popq	%rbx
	.cfi_def_cfa_offset 48
	popq	%r12
	.cfi_def_cfa_offset 40
	popq	%r13
	.cfi_def_cfa_offset 32
	popq	%r14
	.cfi_def_cfa_offset 24
	popq	%r15
	.cfi_def_cfa_offset 16
	popq	%rbp
	.cfi_def_cfa_offset 8
	retq
.Lfunc_end1:
	.size	"std_alloc::vec::Vec::drop::<#032578a7531b7385>", .Lfunc_end1-"std_alloc::vec::Vec::drop::<#032578a7531b7385>"
	.cfi_endproc
	.section	".text.nm_set::member::Member::drop::<#1bca8a4dd8d4d294>","ax",@progbits
	.p2align	4
	.type	"nm_set::member::Member::drop::<#1bca8a4dd8d4d294>",@function
"nm_set::member::Member::drop::<#1bca8a4dd8d4d294>":
	.cfi_startproc
	pushq	%rbp
	.cfi_def_cfa_offset 16
	pushq	%r15
	.cfi_def_cfa_offset 24
	pushq	%r14
	.cfi_def_cfa_offset 32
	pushq	%r13
	.cfi_def_cfa_offset 40
	pushq	%r12
	.cfi_def_cfa_offset 48
	pushq	%rbx
	.cfi_def_cfa_offset 56
	subq	$296, %rsp
	.cfi_def_cfa_offset 352
	.cfi_offset %rbx, -56
	.cfi_offset %r12, -48
	.cfi_offset %r13, -40
	.cfi_offset %r14, -32
	.cfi_offset %r15, -24
	.cfi_offset %rbp, -16
	movq	(%rdi), %rbx
	movl	12(%rdi), %eax
	movsd	8(%rdi), %xmm0
	movaps	%xmm0, 128(%rsp)
	movq	64(%rdi), %rcx
	movq	%rcx, 40(%rsp)
	movq	72(%rdi), %rcx
	movq	%rcx, 32(%rsp)
	movq	96(%rdi), %rcx
	movq	%rcx, 48(%rsp)
	movq	104(%rdi), %r13
	movq	136(%rdi), %rcx
	movq	%rcx, 56(%rsp)
	movl	144(%rdi), %esi
	movq	152(%rdi), %rcx
	movq	%rcx, 64(%rsp)
	movups	16(%rdi), %xmm0
	movups	32(%rdi), %xmm1
	movups	48(%rdi), %xmm2
	movaps	%xmm2, 112(%rsp)
	movaps	%xmm1, 96(%rsp)
	movaps	%xmm0, 80(%rsp)
	movups	80(%rdi), %xmm0
	movaps	%xmm0, 144(%rsp)
	movq	128(%rdi), %rcx
	movq	%rcx, 16(%rsp)
	movups	112(%rdi), %xmm0
	movaps	%xmm0, (%rsp)
	cmpb	$1, %r13b
	jne	.LBB2_1
	movq	8(%rbx), %rcx
	xorps	%xmm0, %xmm0
	movaps	%xmm0, 160(%rsp)
	movq	$0, 176(%rsp)
	xorl	%r13d, %r13d
	xorl	%edx, %edx
	xchgq	%rdx, (%rcx,%rax,8)
	movaps	%xmm0, 112(%rsp)
	movaps	%xmm0, 96(%rsp)
	movaps	160(%rsp), %xmm0
	movaps	%xmm0, (%rsp)
	movq	176(%rsp), %rax
	movq	%rax, 16(%rsp)
	xorl	%r12d, %r12d
	jmp	.LBB2_3
.LBB2_1:
	movq	%r13, %r12
	shrq	$8, %r12
.LBB2_3:
	movq	8(%rbx), %rax
	movq	(%rax), %rax
	movq	112(%rbx), %r15
	movq	%rsi, 72(%rsp)
	leaq	(%rsi,%rsi,8), %rbp
	shlq	$4, %rbp
	movzbl	(%r15,%rbp), %r14d
	leaq	(%r15,%rbp), %rsi
	addq	$8, %rsi
	leaq	160(%rsp), %rdi
	movl	$136, %edx
	callq	memcpy@PLT
	movq	$1, (%r15,%rbp)
	movaps	128(%rsp), %xmm0
	movlps	%xmm0, 8(%r15,%rbp)
	movaps	80(%rsp), %xmm0
	movaps	96(%rsp), %xmm1
	movaps	112(%rsp), %xmm2
	movups	%xmm0, 16(%r15,%rbp)
	movups	%xmm1, 32(%r15,%rbp)
	movups	%xmm2, 48(%r15,%rbp)
	movq	40(%rsp), %rax
	movq	%rax, 64(%r15,%rbp)
	movq	32(%rsp), %rax
	movq	%rax, 72(%r15,%rbp)
	movaps	144(%rsp), %xmm0
	movups	%xmm0, 80(%r15,%rbp)
	movq	48(%rsp), %rax
	movq	%rax, 96(%r15,%rbp)
	movb	%r13b, 104(%r15,%rbp)
	movq	%r12, %rax
	shrq	$48, %rax
	movb	%al, 111(%r15,%rbp)
	movq	%r12, %rax
	shrq	$32, %rax
	movw	%ax, 109(%r15,%rbp)
	movl	%r12d, 105(%r15,%rbp)
	movq	16(%rsp), %rax
	movq	%rax, 128(%r15,%rbp)
	movaps	(%rsp), %xmm0
	movups	%xmm0, 112(%r15,%rbp)
	movq	56(%rsp), %rax
	movq	%rax, 136(%r15,%rbp)
	cmpb	$1, %r14b
	jne	.LBB2_5
	leaq	160(%rsp), %rdi
	callq	"nm_set::nm_tree++worker++Worker+Destruct::drop"
.LBB2_5:
	movq	64(%rsp), %rax
	leaq	3(,%rax,2), %rax
	movq	104(%rbx), %rcx
	movq	72(%rsp), %rdx
	xchgq	%rax, (%rcx,%rdx,8)
	movq	%rbx, %rdi
	addq	$296, %rsp
	.cfi_def_cfa_offset 56
	popq	%rbx
	.cfi_def_cfa_offset 48
	popq	%r12
	.cfi_def_cfa_offset 40
	popq	%r13
	.cfi_def_cfa_offset 32
	popq	%r14
	.cfi_def_cfa_offset 24
	popq	%r15
	.cfi_def_cfa_offset 16
	popq	%rbp
	.cfi_def_cfa_offset 8
	jmp	"std_alloc::arc::Arc::drop::<#ee99c0b4357605a3>"
.Lfunc_end2:
	.size	"nm_set::member::Member::drop::<#1bca8a4dd8d4d294>", .Lfunc_end2-"nm_set::member::Member::drop::<#1bca8a4dd8d4d294>"
	.cfi_endproc
	.section	".text.nm_set::nm_tree++worker++Worker+Destruct::drop","ax",@progbits
	.p2align	4
	.type	"nm_set::nm_tree++worker++Worker+Destruct::drop",@function
"nm_set::nm_tree++worker++Worker+Destruct::drop":
	.cfi_startproc
	pushq	%rbp
	.cfi_def_cfa_offset 16
	pushq	%r15
	.cfi_def_cfa_offset 24
	pushq	%r14
	.cfi_def_cfa_offset 32
	pushq	%r13
	.cfi_def_cfa_offset 40
	pushq	%r12
	.cfi_def_cfa_offset 48
	pushq	%rbx
	.cfi_def_cfa_offset 56
	subq	$24, %rsp
	.cfi_def_cfa_offset 80
	.cfi_offset %rbx, -56
	.cfi_offset %r12, -48
	.cfi_offset %r13, -40
	.cfi_offset %r14, -32
	.cfi_offset %r15, -24
	.cfi_offset %rbp, -16
	movq	64(%rdi), %r14
	movq	72(%rdi), %rcx
	movq	80(%rdi), %rax
	movq	%rax, (%rsp)
	movq	128(%rdi), %rax
	movq	%rax, 8(%rsp)
	movq	%rcx, 16(%rsp)
	testq	%rcx, %rcx
	je	.LBB3_18
	xorl	%r13d, %r13d
	jmp	.LBB3_2
	.p2align	4
.LBB3_17:
	incq	%r13
	cmpq	16(%rsp), %r13
	je	.LBB3_18
.LBB3_2:
	movq	%r13, %rax
	shlq	$5, %rax
	leaq	(%rax,%rax,2), %rsi
	movq	8(%r14,%rsi), %rcx
	movl	24(%r14,%rsi), %ebx
	movq	32(%r14,%rsi), %r15
	movl	48(%r14,%rsi), %ebp
	movl	60(%r14,%rsi), %edx
	testl	%edx, %edx
	je	.LBB3_3
	movl	56(%r14,%rsi), %r8d
	movq	40(%r14,%rsi), %rsi
	jmp	.LBB3_5
	.p2align	4
.LBB3_6:
	movq	%rcx, %rdi
	decl	%edx
	je	.LBB3_12
.LBB3_5:
	incl	%r8d
	cmpl	$32, %r8d
	jne	.LBB3_6
	movq	(%rcx), %rdi
	testl	%ebp, %ebp
	je	.LBB3_8
	movq	$0, (%rcx)
	movq	%rcx, (%rsi)
	jmp	.LBB3_10
.LBB3_8:
	movq	$0, (%rcx)
	movq	%rcx, %r15
.LBB3_10:
	decl	%ebx
	incl	%ebp
	xorl	%r8d, %r8d
	movq	%rcx, %rsi
	movq	%rdi, %rcx
	decl	%edx
	jne	.LBB3_5
.LBB3_12:
	testl	%ebx, %ebx
	je	.LBB3_14
	.p2align	4
.LBB3_13:
	movq	(%rdi), %r12
	callq	nm_host_dealloc@PLT
	movq	%r12, %rdi
	decl	%ebx
	jne	.LBB3_13
.LBB3_14:
	testl	%ebp, %ebp
	je	.LBB3_17
	movq	%r15, %rdi
	.p2align	4
.LBB3_16:
	movq	(%rdi), %rbx
	callq	nm_host_dealloc@PLT
	movq	%rbx, %rdi
	decl	%ebp
	jne	.LBB3_16
	jmp	.LBB3_17
	.p2align	4
.LBB3_3:
	movq	%rcx, %rdi
	testl	%ebx, %ebx
	jne	.LBB3_13
	jmp	.LBB3_14
.LBB3_18:
	cmpq	$0, (%rsp)
	je	.LBB3_20
	movq	%r14, %rdi
	callq	nm_host_dealloc@PLT
.LBB3_20:
	movq	8(%rsp), %rdi
	addq	$24, %rsp
	.cfi_def_cfa_offset 56
	popq	%rbx
	.cfi_def_cfa_offset 48
	popq	%r12
	.cfi_def_cfa_offset 40
	popq	%r13
	.cfi_def_cfa_offset 32
	popq	%r14
	.cfi_def_cfa_offset 24
	popq	%r15
	.cfi_def_cfa_offset 16
	popq	%rbp
	.cfi_def_cfa_offset 8
	jmp	nm_host_dealloc@PLT
.Lfunc_end3:
	.size	"nm_set::nm_tree++worker++Worker+Destruct::drop", .Lfunc_end3-"nm_set::nm_tree++worker++Worker+Destruct::drop"
	.cfi_endproc
	.section	".text.std_alloc::arc::Arc::drop::<#ee99c0b4357605a3>","ax",@progbits
	.p2align	4
	.type	"std_alloc::arc::Arc::drop::<#ee99c0b4357605a3>",@function
"std_alloc::arc::Arc::drop::<#ee99c0b4357605a3>":
	.cfi_startproc
	pushq	%rbp
	.cfi_def_cfa_offset 16
	pushq	%r15
	.cfi_def_cfa_offset 24
	pushq	%r14
	.cfi_def_cfa_offset 32
	pushq	%r13
	.cfi_def_cfa_offset 40
	pushq	%r12
	.cfi_def_cfa_offset 48
	pushq	%rbx
	.cfi_def_cfa_offset 56
	subq	$184, %rsp
	.cfi_def_cfa_offset 240
	.cfi_offset %rbx, -56
	.cfi_offset %r12, -48
	.cfi_offset %r13, -40
	.cfi_offset %r14, -32
	.cfi_offset %r15, -24
	.cfi_offset %rbp, -16
	lock		decq	(%rdi)
	jne	.LBB4_12
	movq	40(%rdi), %rbp
	movq	56(%rdi), %rbx
	movq	112(%rdi), %r13
	movq	128(%rdi), %r14
	movq	136(%rdi), %r12
	movq	152(%rdi), %rax
	movq	%rax, 16(%rsp)
	movq	168(%rdi), %rax
	movq	%rax, 8(%rsp)
	movq	184(%rdi), %rax
	movq	%rax, 24(%rsp)
	movq	192(%rdi), %rax
	movq	%rax, 40(%rsp)
	movq	200(%rdi), %r15
	movq	208(%rdi), %rax
	movq	%rax, 32(%rsp)
	callq	nm_host_dealloc@PLT
	movq	%rbp, %rdi
	callq	nm_host_dealloc@PLT
	movq	%rbx, %rdi
	callq	nm_host_dealloc@PLT
	testq	%r14, %r14
	je	.LBB4_6
	addq	$8, %r13
	jmp	.LBB4_3
	.p2align	4
.LBB4_5:
	addq	$144, %r13
	decq	%r14
	je	.LBB4_6
.LBB4_3:
	cmpb	$0, -8(%r13)
	je	.LBB4_5
	leaq	48(%rsp), %rbx
	movl	$136, %edx
	movq	%rbx, %rdi
	movq	%r13, %rsi
	callq	memcpy@PLT
	movq	%rbx, %rdi
	callq	"nm_set::nm_tree++worker++Worker+Destruct::drop"
	jmp	.LBB4_5
.LBB4_6:
	movq	%r12, %rdi
	callq	nm_host_dealloc@PLT
	movq	16(%rsp), %rdi
	callq	nm_host_dealloc@PLT
	cmpq	$0, 24(%rsp)
	je	.LBB4_8
	movq	8(%rsp), %rdi
	callq	nm_host_dealloc@PLT
.LBB4_8:
	testq	%r15, %r15
	movq	40(%rsp), %r12
	je	.LBB4_11
	movq	%r12, %r14
	.p2align	4
.LBB4_10:
	leaq	48(%rsp), %rbx
	movl	$136, %edx
	movq	%rbx, %rdi
	movq	%r14, %rsi
	callq	memcpy@PLT
	movq	%rbx, %rdi
	callq	"nm_set::nm_tree++worker++Worker+Destruct::drop"
	addq	$136, %r14
	decq	%r15
	jne	.LBB4_10
.LBB4_11:
	cmpq	$0, 32(%rsp)
	je	.LBB4_12
	movq	%r12, %rdi
	addq	$184, %rsp
	.cfi_def_cfa_offset 56
	popq	%rbx
	.cfi_def_cfa_offset 48
	popq	%r12
	.cfi_def_cfa_offset 40
	popq	%r13
	.cfi_def_cfa_offset 32
	popq	%r14
	.cfi_def_cfa_offset 24
	popq	%r15
	.cfi_def_cfa_offset 16
	popq	%rbp
	.cfi_def_cfa_offset 8
	jmp	nm_host_dealloc@PLT
.LBB4_12:
	.cfi_def_cfa_offset 240
	addq	$184, %rsp
	.cfi_def_cfa_offset 56
	popq	%rbx
	.cfi_def_cfa_offset 48
	popq	%r12
	.cfi_def_cfa_offset 40
	popq	%r13
	.cfi_def_cfa_offset 32
	popq	%r14
	.cfi_def_cfa_offset 24
	popq	%r15
	.cfi_def_cfa_offset 16
	popq	%rbp
	.cfi_def_cfa_offset 8
	retq
.Lfunc_end4:
	.size	"std_alloc::arc::Arc::drop::<#ee99c0b4357605a3>", .Lfunc_end4-"std_alloc::arc::Arc::drop::<#ee99c0b4357605a3>"
	.cfi_endproc
	.section	".text.nm_set::member::Member::drop::<#801ed3b42cb27f26>","ax",@progbits
	.p2align	4
	.type	"nm_set::member::Member::drop::<#801ed3b42cb27f26>",@function
"nm_set::member::Member::drop::<#801ed3b42cb27f26>":
	.cfi_startproc
	pushq	%rbp
	.cfi_def_cfa_offset 16
	pushq	%r15
	.cfi_def_cfa_offset 24
	pushq	%r14
	.cfi_def_cfa_offset 32
	pushq	%r13
	.cfi_def_cfa_offset 40
	pushq	%r12
	.cfi_def_cfa_offset 48
	pushq	%rbx
	.cfi_def_cfa_offset 56
	subq	$296, %rsp
	.cfi_def_cfa_offset 352
	.cfi_offset %rbx, -56
	.cfi_offset %r12, -48
	.cfi_offset %r13, -40
	.cfi_offset %r14, -32
	.cfi_offset %r15, -24
	.cfi_offset %rbp, -16
	movq	(%rdi), %rbx
	movl	12(%rdi), %eax
	movsd	8(%rdi), %xmm0
	movaps	%xmm0, 128(%rsp)
	movq	64(%rdi), %rcx
	movq	%rcx, 40(%rsp)
	movq	72(%rdi), %rcx
	movq	%rcx, 32(%rsp)
	movq	96(%rdi), %rcx
	movq	%rcx, 48(%rsp)
	movq	104(%rdi), %r13
	movq	136(%rdi), %rcx
	movq	%rcx, 56(%rsp)
	movl	144(%rdi), %esi
	movq	152(%rdi), %rcx
	movq	%rcx, 64(%rsp)
	movups	16(%rdi), %xmm0
	movups	32(%rdi), %xmm1
	movups	48(%rdi), %xmm2
	movaps	%xmm2, 112(%rsp)
	movaps	%xmm1, 96(%rsp)
	movaps	%xmm0, 80(%rsp)
	movups	80(%rdi), %xmm0
	movaps	%xmm0, 144(%rsp)
	movq	128(%rdi), %rcx
	movq	%rcx, 16(%rsp)
	movups	112(%rdi), %xmm0
	movaps	%xmm0, (%rsp)
	cmpb	$1, %r13b
	jne	.LBB5_1
	movq	8(%rbx), %rcx
	xorps	%xmm0, %xmm0
	movaps	%xmm0, 160(%rsp)
	movq	$0, 176(%rsp)
	xorl	%r13d, %r13d
	xorl	%edx, %edx
	xchgq	%rdx, (%rcx,%rax,8)
	movaps	%xmm0, 112(%rsp)
	movaps	%xmm0, 96(%rsp)
	movaps	160(%rsp), %xmm0
	movaps	%xmm0, (%rsp)
	movq	176(%rsp), %rax
	movq	%rax, 16(%rsp)
	xorl	%r12d, %r12d
	jmp	.LBB5_3
.LBB5_1:
	movq	%r13, %r12
	shrq	$8, %r12
.LBB5_3:
	movq	8(%rbx), %rax
	movq	(%rax), %rax
	movq	112(%rbx), %r15
	movq	%rsi, 72(%rsp)
	leaq	(%rsi,%rsi,8), %rbp
	shlq	$4, %rbp
	movzbl	(%r15,%rbp), %r14d
	leaq	(%r15,%rbp), %rsi
	addq	$8, %rsi
	leaq	160(%rsp), %rdi
	movl	$136, %edx
	callq	memcpy@PLT
	movq	$1, (%r15,%rbp)
	movaps	128(%rsp), %xmm0
	movlps	%xmm0, 8(%r15,%rbp)
	movaps	80(%rsp), %xmm0
	movaps	96(%rsp), %xmm1
	movaps	112(%rsp), %xmm2
	movups	%xmm0, 16(%r15,%rbp)
	movups	%xmm1, 32(%r15,%rbp)
	movups	%xmm2, 48(%r15,%rbp)
	movq	40(%rsp), %rax
	movq	%rax, 64(%r15,%rbp)
	movq	32(%rsp), %rax
	movq	%rax, 72(%r15,%rbp)
	movaps	144(%rsp), %xmm0
	movups	%xmm0, 80(%r15,%rbp)
	movq	48(%rsp), %rax
	movq	%rax, 96(%r15,%rbp)
	movb	%r13b, 104(%r15,%rbp)
	movq	%r12, %rax
	shrq	$48, %rax
	movb	%al, 111(%r15,%rbp)
	movq	%r12, %rax
	shrq	$32, %rax
	movw	%ax, 109(%r15,%rbp)
	movl	%r12d, 105(%r15,%rbp)
	movq	16(%rsp), %rax
	movq	%rax, 128(%r15,%rbp)
	movaps	(%rsp), %xmm0
	movups	%xmm0, 112(%r15,%rbp)
	movq	56(%rsp), %rax
	movq	%rax, 136(%r15,%rbp)
	cmpb	$1, %r14b
	jne	.LBB5_5
	leaq	160(%rsp), %rdi
	callq	"nm_set::nm_tree++worker++Worker+Destruct::drop"
.LBB5_5:
	movq	64(%rsp), %rax
	leaq	3(,%rax,2), %rax
	movq	104(%rbx), %rcx
	movq	72(%rsp), %rdx
	xchgq	%rax, (%rcx,%rdx,8)
	movq	%rbx, %rdi
	addq	$296, %rsp
	.cfi_def_cfa_offset 56
	popq	%rbx
	.cfi_def_cfa_offset 48
	popq	%r12
	.cfi_def_cfa_offset 40
	popq	%r13
	.cfi_def_cfa_offset 32
	popq	%r14
	.cfi_def_cfa_offset 24
	popq	%r15
	.cfi_def_cfa_offset 16
	popq	%rbp
	.cfi_def_cfa_offset 8
	jmp	"std_alloc::arc::Arc::drop::<#ee99c0b4357605a3>"
.Lfunc_end5:
	.size	"nm_set::member::Member::drop::<#801ed3b42cb27f26>", .Lfunc_end5-"nm_set::member::Member::drop::<#801ed3b42cb27f26>"
	.cfi_endproc
	.section	".text.nm_set::home::Home::gather","ax",@progbits
	.p2align	4
	.type	"nm_set::home::Home::gather",@function
"nm_set::home::Home::gather":
	.cfi_startproc
	pushq	%rbp
	.cfi_def_cfa_offset 16
	pushq	%r15
	.cfi_def_cfa_offset 24
	pushq	%r14
	.cfi_def_cfa_offset 32
	pushq	%r13
	.cfi_def_cfa_offset 40
	pushq	%r12
	.cfi_def_cfa_offset 48
	pushq	%rbx
	.cfi_def_cfa_offset 56
	subq	$328, %rsp
	.cfi_def_cfa_offset 384
	.cfi_offset %rbx, -56
	.cfi_offset %r12, -48
	.cfi_offset %r13, -40
	.cfi_offset %r14, -32
	.cfi_offset %r15, -24
	.cfi_offset %rbp, -16
	movq	%rdi, 88(%rsp)
	movq	96(%rsi), %r12
	movq	104(%rsi), %r14
	movq	120(%rsi), %rbp
	movq	128(%rsi), %rax
	movq	%rax, 56(%rsp)
	movq	144(%rsi), %rax
	movq	%rax, 64(%rsp)
	movq	160(%rsi), %rax
	movq	%rax, 48(%rsp)
	movq	176(%rsi), %rax
	movq	%rax, 72(%rsp)
	movq	184(%rsi), %rdi
	movq	192(%rsi), %rbx
	movq	200(%rsi), %rax
	movq	%rax, 8(%rsp)
	movq	(%rdx), %r8
	movq	8(%rdx), %r13
	movq	16(%rdx), %rax
	movq	%rax, 16(%rsp)
	movups	80(%rsi), %xmm0
	movaps	%xmm0, 176(%rsp)
	movups	64(%rsi), %xmm0
	movaps	%xmm0, 160(%rsp)
	movups	(%rsi), %xmm0
	movups	16(%rsi), %xmm1
	movups	32(%rsi), %xmm2
	movups	48(%rsi), %xmm3
	movaps	%xmm3, 144(%rsp)
	movaps	%xmm2, 128(%rsp)
	movaps	%xmm1, 112(%rsp)
	movaps	%xmm0, 96(%rsp)
	testq	%r13, %r13
	movq	%r8, 32(%rsp)
	movq	%r8, %rax
	movq	%rdi, 40(%rsp)
	cmoveq	%rdi, %rax
	movq	%rax, 24(%rsp)
	movq	%r13, 80(%rsp)
	cmoveq	%rbx, %r13
	testq	%rbp, %rbp
	je	.LBB6_8
	addq	$8, %r14
	xorl	%r15d, %r15d
	jmp	.LBB6_2
	.p2align	4
.LBB6_7:
	incq	%r15
	addq	$144, %r14
	cmpq	%r15, %rbp
	je	.LBB6_8
.LBB6_2:
	movzbl	-8(%r14), %eax
	testb	$1, (%r12,%r15,8)
	jne	.LBB6_5
	cmpb	$1, %al
	jne	.LBB6_7
	leaq	192(%rsp), %rdi
	movl	$136, %edx
	movq	%r14, %rsi
	callq	memcpy@PLT
	leaq	192(%rsp), %rdi
	callq	"nm_set::nm_tree++worker++Worker+Destruct::drop"
	jmp	.LBB6_7
	.p2align	4
.LBB6_5:
	cmpb	$1, %al
	jne	.LBB6_7
	movq	%r13, %rax
	shlq	$7, %rax
	leaq	(%rax,%r13,8), %rdi
	addq	24(%rsp), %rdi
	movl	$136, %edx
	movq	%r14, %rsi
	callq	memmove@PLT
	incq	%r13
	jmp	.LBB6_7
.LBB6_8:
	movq	56(%rsp), %rdi
	callq	nm_host_dealloc@PLT
	movq	64(%rsp), %rdi
	callq	nm_host_dealloc@PLT
	movq	80(%rsp), %r15
	testq	%r15, %r15
	je	.LBB6_14
	testq	%rbx, %rbx
	movq	40(%rsp), %rbp
	je	.LBB6_12
	movq	%rbp, %r14
	.p2align	4
.LBB6_11:
	leaq	192(%rsp), %r12
	movl	$136, %edx
	movq	%r12, %rdi
	movq	%r14, %rsi
	callq	memcpy@PLT
	movq	%r12, %rdi
	callq	"nm_set::nm_tree++worker++Worker+Destruct::drop"
	addq	$136, %r14
	decq	%rbx
	jne	.LBB6_11
.LBB6_12:
	movq	8(%rsp), %r14
	testq	%r14, %r14
	movq	16(%rsp), %rbx
	je	.LBB6_17
	movq	%rbp, %rdi
	jmp	.LBB6_16
.LBB6_14:
	movq	16(%rsp), %rbx
	testq	%rbx, %rbx
	movq	8(%rsp), %r14
	je	.LBB6_17
	movq	32(%rsp), %rdi
.LBB6_16:
	callq	nm_host_dealloc@PLT
.LBB6_17:
	cmpq	$0, 72(%rsp)
	je	.LBB6_19
	movq	48(%rsp), %rdi
	callq	nm_host_dealloc@PLT
.LBB6_19:
	testq	%r15, %r15
	cmoveq	%r14, %rbx
	movaps	176(%rsp), %xmm0
	movq	88(%rsp), %rax
	movups	%xmm0, 80(%rax)
	movaps	160(%rsp), %xmm0
	movups	%xmm0, 64(%rax)
	movaps	96(%rsp), %xmm0
	movaps	112(%rsp), %xmm1
	movaps	128(%rsp), %xmm2
	movaps	144(%rsp), %xmm3
	movups	%xmm3, 48(%rax)
	movups	%xmm2, 32(%rax)
	movups	%xmm1, 16(%rax)
	movups	%xmm0, (%rax)
	movq	24(%rsp), %rcx
	movq	%rcx, 96(%rax)
	movq	%r13, 104(%rax)
	movq	%rbx, 112(%rax)
	addq	$328, %rsp
	.cfi_def_cfa_offset 56
	popq	%rbx
	.cfi_def_cfa_offset 48
	popq	%r12
	.cfi_def_cfa_offset 40
	popq	%r13
	.cfi_def_cfa_offset 32
	popq	%r14
	.cfi_def_cfa_offset 24
	popq	%r15
	.cfi_def_cfa_offset 16
	popq	%rbp
	.cfi_def_cfa_offset 8
	retq
.Lfunc_end6:
	.size	"nm_set::home::Home::gather", .Lfunc_end6-"nm_set::home::Home::gather"
	.cfi_endproc
	.section	.rodata.cst16,"aM",@progbits,16
	.p2align	4, 0x0
.LCPI7_0:
	.long	1
	.long	0
	.long	0
	.long	0
	.section	.rodata.cst4,"aM",@progbits,4
	.p2align	2, 0x0
.LCPI7_1:
	.long	1
	.section	".text.nm_tree::tree::Tree::end","ax",@progbits
	.p2align	4
	.type	"nm_tree::tree::Tree::end",@function
"nm_tree::tree::Tree::end":
	.cfi_startproc
	pushq	%rbp
	.cfi_def_cfa_offset 16
	pushq	%r15
	.cfi_def_cfa_offset 24
	pushq	%r14
	.cfi_def_cfa_offset 32
	pushq	%r13
	.cfi_def_cfa_offset 40
	pushq	%r12
	.cfi_def_cfa_offset 48
	pushq	%rbx
	.cfi_def_cfa_offset 56
	subq	$664, %rsp
	.cfi_def_cfa_offset 720
	.cfi_offset %rbx, -56
	.cfi_offset %r12, -48
	.cfi_offset %r13, -40
	.cfi_offset %r14, -32
	.cfi_offset %r15, -24
	.cfi_offset %rbp, -16
	movq	%rdi, %r12
	movq	(%rsi), %rax
	movq	%rax, 56(%rsp)
	movq	8(%rsi), %rax
	movq	%rax, 16(%rsp)
	movq	16(%rsi), %rax
	movq	%rax, 24(%rsp)
	movq	24(%rsi), %rax
	movq	%rax, 80(%rsp)
	movq	32(%rsi), %rax
	movq	%rax, 96(%rsp)
	movq	40(%rsi), %rax
	movq	%rax, 104(%rsp)
	movq	48(%rsi), %rax
	movq	%rax, 32(%rsp)
	movq	56(%rsi), %rax
	movq	%rax, 88(%rsp)
	movq	64(%rsi), %rbx
	movq	%rbx, %r13
	shrq	$32, %r13
	movq	72(%rsi), %rax
	movq	%rax, 136(%rsp)
	movq	80(%rsi), %rax
	movq	%rax, 48(%rsp)
	movq	(%rdx), %r15
	movq	8(%rdx), %r14
	movq	16(%rdx), %rbp
	movq	%r15, %rdi
	movq	%r14, %rsi
	callq	"nm_tree::closing::count_given"
	movq	%r13, %rcx
	cmpl	%ecx, %eax
	jae	.LBB7_2
	movq	$1, (%r12)
	movl	$0, 8(%r12)
	movl	%eax, 12(%r12)
	movl	%ecx, 16(%r12)
	movl	$0, 20(%r12)
	movq	56(%rsp), %rax
	movq	%rax, 24(%r12)
	movq	16(%rsp), %rax
	movq	%rax, 32(%r12)
	movq	24(%rsp), %rax
	movq	%rax, 40(%r12)
	movq	80(%rsp), %rax
	movq	%rax, 48(%r12)
	movq	96(%rsp), %rax
	movq	%rax, 56(%r12)
	movq	104(%rsp), %rax
	movq	%rax, 64(%r12)
	movq	32(%rsp), %rax
	movq	%rax, 72(%r12)
	movq	88(%rsp), %rax
	movq	%rax, 80(%r12)
	movq	%rbx, 88(%r12)
	movq	136(%rsp), %rax
	movq	%rax, 96(%r12)
	movq	48(%rsp), %rax
	movq	%rax, 104(%r12)
	movq	%r15, 112(%r12)
	movq	%r14, 120(%r12)
	movq	%rbp, 128(%r12)
	xorps	%xmm0, %xmm0
	movups	%xmm0, 168(%r12)
	movups	%xmm0, 152(%r12)
	movups	%xmm0, 136(%r12)
	jmp	.LBB7_52
.LBB7_2:
	movq	136(%rsp), %r13
	movq	%r14, 112(%rsp)
	movq	%rbp, 40(%rsp)
	movq	%r15, 208(%rsp)
	movq	%rbx, 72(%rsp)
	testq	%rcx, %rcx
	je	.LBB7_5
	movq	%rcx, %r15
	movq	%rcx, %rax
	shlq	$5, %rax
	leaq	(%rax,%rax,2), %rdi
	movl	$8, %esi
	callq	nm_host_alloc@PLT
	testb	$1, %al
	movq	72(%rsp), %r14
	movq	104(%rsp), %rcx
	movq	96(%rsp), %rsi
	movq	%r12, %rbx
	movq	56(%rsp), %rbp
	je	.LBB7_11
	movq	%r15, %rcx
	jmp	.LBB7_6
.LBB7_5:
	leaq	8(%rsp), %rdx
	movq	72(%rsp), %r14
	movq	%r12, %rbx
	movq	56(%rsp), %rbp
.LBB7_6:
	movq	%r13, %r12
	movq	%rdx, 456(%rsp)
	movq	$0, 464(%rsp)
	movq	%rcx, 448(%rsp)
	movq	%rcx, 472(%rsp)
	movl	%r14d, %eax
	testl	%r14d, %r14d
	movq	%rax, 360(%rsp)
	je	.LBB7_12
	leaq	(,%rax,8), %rdi
	movl	$8, %esi
	callq	nm_host_alloc@PLT
	testb	$1, %al
	movq	40(%rsp), %r15
	je	.LBB7_50
	movq	%rdx, 64(%rsp)
	movq	360(%rsp), %r12
	leaq	(,%r12,4), %rdi
	movl	$4, %esi
	callq	nm_host_alloc@PLT
	testb	$1, %al
	je	.LBB7_49
	movq	%rdx, 128(%rsp)
	leaq	8(,%r12,8), %rdi
	movl	$4, %esi
	callq	nm_host_alloc@PLT
	testb	$1, %al
	je	.LBB7_48
	leaq	1(%r12), %rax
	movq	%rax, 352(%rsp)
	jmp	.LBB7_14
.LBB7_11:
	movq	$1, (%rbx)
	movss	.LCPI7_1(%rip), %xmm0
	movups	%xmm0, 8(%rbx)
	movq	%rbp, 24(%rbx)
	movq	16(%rsp), %rax
	movq	%rax, 32(%rbx)
	movq	24(%rsp), %rax
	movq	%rax, 40(%rbx)
	movq	80(%rsp), %rax
	movq	%rax, 48(%rbx)
	movq	%rsi, 56(%rbx)
	movq	%rcx, 64(%rbx)
	movq	32(%rsp), %rax
	movq	%rax, 72(%rbx)
	movq	88(%rsp), %rax
	movq	%rax, 80(%rbx)
	movq	%r14, 88(%rbx)
	movq	%r13, 96(%rbx)
	movq	48(%rsp), %rax
	movq	%rax, 104(%rbx)
	movq	208(%rsp), %rax
	movq	%rax, 112(%rbx)
	movq	112(%rsp), %rax
	movq	%rax, 120(%rbx)
	movq	40(%rsp), %rax
	movq	%rax, 128(%rbx)
	jmp	.LBB7_51
.LBB7_12:
	movl	$8, %edi
	movl	$4, %esi
	callq	nm_host_alloc@PLT
	testb	$1, %al
	movq	40(%rsp), %r15
	je	.LBB7_50
	leaq	8(%rsp), %rax
	movl	$1, %ecx
	movq	%rcx, 352(%rsp)
	movq	%rax, 128(%rsp)
	movq	%rax, 64(%rsp)
.LBB7_14:
	movq	%rdx, %r13
	xorps	%xmm0, %xmm0
	movaps	%xmm0, 576(%rsp)
	movaps	%xmm0, 592(%rsp)
	movaps	%xmm0, 608(%rsp)
	movq	$0, 624(%rsp)
	movaps	%xmm0, 368(%rsp)
	movq	$0, 384(%rsp)
	movq	112(%rsp), %rdx
	testq	%rdx, %rdx
	movq	208(%rsp), %r14
	je	.LBB7_60
	leaq	-1(%rdx), %r15
	movq	%r15, %rax
	shlq	$7, %rax
	leaq	(%rax,%rdx,8), %rax
	addq	$-8, %rax
	movq	128(%r14,%rax), %rcx
	movq	%rcx, 440(%rsp)
	movq	56(%r14,%rax), %rcx
	movq	%rcx, 192(%rsp)
	movups	8(%r14,%rax), %xmm0
	movups	24(%r14,%rax), %xmm1
	movups	40(%r14,%rax), %xmm2
	movaps	%xmm2, 176(%rsp)
	movaps	%xmm1, 160(%rsp)
	movaps	%xmm0, 144(%rsp)
	movq	80(%r14,%rax), %rcx
	movq	%rcx, 304(%rsp)
	movups	64(%r14,%rax), %xmm0
	movaps	%xmm0, 288(%rsp)
	movq	120(%r14,%rax), %rcx
	movq	%rcx, 416(%rsp)
	movups	104(%r14,%rax), %xmm0
	movaps	%xmm0, 400(%rsp)
	movq	472(%rsp), %rax
	movq	%rax, 496(%rsp)
	movups	456(%rsp), %xmm0
	movaps	%xmm0, 480(%rsp)
	leaq	480(%rsp), %rdi
	movq	%rdx, %r12
	leaq	288(%rsp), %rsi
	callq	"nm_tree::resigning::take_over"
	movaps	480(%rsp), %xmm4
	movq	496(%rsp), %rdx
	testq	%r15, %r15
	je	.LBB7_18
	movq	%r12, %rax
	shlq	$7, %rax
	leaq	(%rax,%r12,8), %rax
	addq	%rax, %r14
	addq	$-144, %r14
	.p2align	4
.LBB7_17:
	movq	(%r14), %r12
	xorps	%xmm0, %xmm0
	movaps	%xmm0, 256(%rsp)
	movaps	%xmm0, 240(%rsp)
	movaps	%xmm0, 224(%rsp)
	movq	$0, 272(%rsp)
	movq	192(%rsp), %rax
	movq	%rax, 336(%rsp)
	movaps	144(%rsp), %xmm0
	movaps	160(%rsp), %xmm1
	movaps	176(%rsp), %xmm2
	movaps	%xmm2, 320(%rsp)
	movaps	%xmm1, 304(%rsp)
	movaps	%xmm0, 288(%rsp)
	movq	%rdx, 528(%rsp)
	movq	416(%rsp), %rax
	movq	%rax, 560(%rsp)
	movaps	400(%rsp), %xmm0
	movaps	%xmm0, 544(%rsp)
	movq	-48(%r14), %rax
	movq	%rax, 656(%rsp)
	movups	-64(%r14), %xmm0
	movaps	%xmm0, 640(%rsp)
	movaps	%xmm4, 512(%rsp)
	movq	(%rbp), %rax
	movq	(%rbp), %rax
	movq	336(%rsp), %rax
	movq	%rax, 272(%rsp)
	movaps	288(%rsp), %xmm0
	movaps	304(%rsp), %xmm1
	movaps	320(%rsp), %xmm2
	movaps	%xmm2, 256(%rsp)
	movaps	%xmm1, 240(%rsp)
	movaps	%xmm0, 224(%rsp)
	leaq	512(%rsp), %rdi
	leaq	640(%rsp), %rsi
	callq	"nm_tree::resigning::take_over"
	movq	%r12, %rdi
	callq	nm_host_dealloc@PLT
	addq	$-136, %r14
	movq	272(%rsp), %rax
	movq	%rax, 624(%rsp)
	movaps	224(%rsp), %xmm0
	movaps	240(%rsp), %xmm1
	movaps	256(%rsp), %xmm2
	movaps	%xmm2, 608(%rsp)
	movaps	%xmm1, 592(%rsp)
	movaps	%xmm0, 576(%rsp)
	movaps	512(%rsp), %xmm4
	movq	528(%rsp), %rdx
	movaps	544(%rsp), %xmm3
	movaps	%xmm3, 368(%rsp)
	movq	560(%rsp), %rcx
	movq	%rcx, 384(%rsp)
	movaps	%xmm0, 144(%rsp)
	movaps	%xmm1, 160(%rsp)
	movaps	%xmm2, 176(%rsp)
	movq	%rax, 192(%rsp)
	movq	384(%rsp), %rax
	movq	%rax, 416(%rsp)
	movaps	368(%rsp), %xmm0
	movaps	%xmm0, 400(%rsp)
	decq	%r15
	jne	.LBB7_17
.LBB7_18:
	movq	%rdx, 432(%rsp)
	movaps	%xmm4, 112(%rsp)
	cmpq	$0, 40(%rsp)
	je	.LBB7_20
	movq	208(%rsp), %rdi
	callq	nm_host_dealloc@PLT
.LBB7_20:
	movq	440(%rsp), %rdi
	callq	nm_host_dealloc@PLT
	movq	64(%rsp), %rax
	movq	%rax, 288(%rsp)
	movq	$0, 296(%rsp)
	movq	360(%rsp), %rax
	movq	%rax, 304(%rsp)
	movq	128(%rsp), %rcx
	movq	%rcx, 224(%rsp)
	movq	$0, 232(%rsp)
	movq	%rax, 240(%rsp)
	movq	%r13, %rdi
	movq	%r13, 144(%rsp)
	movq	352(%rsp), %rcx
	movq	%rcx, 160(%rsp)
	shlq	$32, %rax
	incq	%rax
	movq	%rax, (%r13)
	movq	$0, 40(%rsp)
	movl	$1, %eax
	movq	48(%rsp), %r11
	movq	32(%rsp), %r10
	movq	24(%rsp), %r8
	movq	16(%rsp), %r9
	jmp	.LBB7_23
	.p2align	4
.LBB7_21:
	movq	56(%rsp), %rbp
.LBB7_22:
	movq	%r14, %rax
	testq	%r14, %r14
	je	.LBB7_41
.LBB7_23:
	leaq	-1(%rax), %r14
	movq	%r14, 152(%rsp)
	movq	-8(%rdi,%rax,8), %r12
	testl	%r12d, %r12d
	sete	%cl
	movq	%r12, %rdx
	shrq	$32, %rdx
	sete	%dl
	orb	%cl, %dl
	jne	.LBB7_22
	leal	(%r11,%r12,4), %ecx
	addl	$-4, %ecx
	movq	(%rbp,%rcx,8), %r15
	leal	-3(%r11,%r12,4), %ecx
	movq	(%rbp,%rcx,8), %r13
	leal	(%r11,%r12,4), %ecx
	addl	$-2, %ecx
	movq	(%rbp,%rcx,8), %rbp
	cmpq	%r14, 160(%rsp)
	je	.LBB7_33
	leaq	-8(,%rax,8), %rcx
.LBB7_26:
	movq	%rbp, %rdx
	shrq	$2, %rdx
	movq	%r12, %r14
	movabsq	$-4294967296, %rsi
	andq	%rsi, %r14
	addq	%rsi, %r14
	movl	%edx, %edx
	orq	%r14, %rdx
	movq	%rdx, (%rdi,%rcx)
	movq	%rax, 152(%rsp)
	cmpq	%rax, 160(%rsp)
	je	.LBB7_35
.LBB7_27:
	movq	40(%rsp), %rcx
	incl	%ecx
	movq	%rcx, 40(%rsp)
	movq	%r13, %rcx
	shrq	$2, %rcx
	movq	144(%rsp), %rdi
	movl	%ecx, %ecx
	orq	%r14, %rcx
	movq	%rcx, (%rdi,%rax,8)
	movq	%rax, %r14
	incq	%r14
	movq	%r14, 152(%rsp)
	cmpq	$-4, %r15
	ja	.LBB7_21
	orq	%r13, %rbp
	movabsq	$17179869180, %rax
	andq	%rbp, %rax
	jne	.LBB7_21
	movq	296(%rsp), %rax
	cmpq	%rax, 304(%rsp)
	movq	56(%rsp), %rbp
	je	.LBB7_37
.LBB7_30:
	movq	288(%rsp), %rcx
	movq	%r15, (%rcx,%rax,8)
	incq	%rax
	movq	%rax, 296(%rsp)
	movq	232(%rsp), %rax
	cmpq	%rax, 240(%rsp)
	je	.LBB7_39
.LBB7_31:
	movq	224(%rsp), %rcx
	movl	%r12d, (%rcx,%rax,4)
	incq	%rax
	movq	%rax, 232(%rsp)
	jmp	.LBB7_22
.LBB7_33:
	leaq	144(%rsp), %rdi
	callq	"std_alloc::vec::Vec::grow_amortized::<#559067137cac8b4f>"
	testb	%al, %al
	je	.LBB7_60
	movq	144(%rsp), %rdi
	movq	152(%rsp), %rax
	leaq	(,%rax,8), %rcx
	incq	%rax
	movq	48(%rsp), %r11
	movq	32(%rsp), %r10
	movq	24(%rsp), %r8
	movq	16(%rsp), %r9
	jmp	.LBB7_26
.LBB7_35:
	leaq	144(%rsp), %rdi
	callq	"std_alloc::vec::Vec::grow_amortized::<#559067137cac8b4f>"
	testb	%al, %al
	je	.LBB7_60
	movq	152(%rsp), %rax
	movq	48(%rsp), %r11
	movq	32(%rsp), %r10
	movq	24(%rsp), %r8
	movq	16(%rsp), %r9
	jmp	.LBB7_27
.LBB7_37:
	movq	%rdi, %r13
	leaq	288(%rsp), %rdi
	callq	"std_alloc::vec::Vec::grow_amortized::<#89eda37bc510a1b2>"
	testb	%al, %al
	je	.LBB7_60
	movq	296(%rsp), %rax
	movq	48(%rsp), %r11
	movq	32(%rsp), %r10
	movq	24(%rsp), %r8
	movq	16(%rsp), %r9
	movq	%r13, %rdi
	jmp	.LBB7_30
.LBB7_39:
	movq	%rdi, %r15
	leaq	224(%rsp), %rdi
	callq	"std_alloc::vec::Vec::grow_amortized::<#90d08258613d4490>"
	testb	%al, %al
	je	.LBB7_60
	movq	232(%rsp), %rax
	movq	48(%rsp), %r11
	movq	32(%rsp), %r10
	movq	24(%rsp), %r8
	movq	16(%rsp), %r9
	movq	%r15, %rdi
	jmp	.LBB7_31
.LBB7_41:
	xorl	%r12d, %r12d
	movq	40(%rsp), %rax
	subl	$5, %eax
	cmovbl	%r12d, %eax
	movq	%rax, 40(%rsp)
	movq	72(%rsp), %rdx
	leal	-6(%rdx), %ecx
	cmpl	$-8, %ecx
	ja	.LBB7_47
	leal	(%r11,%rdx,4), %eax
	testl	%ecx, %ecx
	movaps	112(%rsp), %xmm0
	je	.LBB7_53
	movq	%rdi, %r14
	addl	$-5, %edx
	movl	%edx, %esi
	andl	$-2, %esi
	negl	%esi
	xorl	%r12d, %r12d
	movl	$69, %ecx
	.p2align	4
.LBB7_44:
	leal	-63(%rcx), %edi
	leal	-64(%rcx), %r8d
	shrl	$6, %r8d
	addl	%eax, %r8d
	movq	(%rbp,%r8,8), %r8
	movl	%ecx, %r9d
	xorl	%r10d, %r10d
	btq	%r9, %r8
	setb	%r10b
	movl	%edi, %r8d
	shrl	$6, %r8d
	addl	%eax, %r8d
	andl	$62, %edi
	movq	(%rbp,%r8,8), %r8
	btq	%rdi, %r8
	adcl	%r10d, %r12d
	addl	$2, %ecx
	leal	(%rsi,%r9), %edi
	addl	$2, %edi
	cmpl	$69, %edi
	jne	.LBB7_44
	testb	$1, %dl
	jne	.LBB7_54
	movq	32(%rsp), %r10
	movq	24(%rsp), %r8
	movq	16(%rsp), %r9
	movq	%r14, %rdi
	jmp	.LBB7_56
.LBB7_47:
	movaps	112(%rsp), %xmm0
	jmp	.LBB7_57
.LBB7_48:
	movq	128(%rsp), %rdi
	callq	nm_host_dealloc@PLT
.LBB7_49:
	movq	64(%rsp), %rdi
	callq	nm_host_dealloc@PLT
	movq	%r13, %r12
.LBB7_50:
	leaq	456(%rsp), %rdi
	callq	"std_alloc::vec::Vec::drop::<#0e12e637e6be23a4>"
	movq	$1, (%rbx)
	movss	.LCPI7_1(%rip), %xmm0
	movups	%xmm0, 8(%rbx)
	movq	%rbp, 24(%rbx)
	movq	16(%rsp), %rax
	movq	%rax, 32(%rbx)
	movq	24(%rsp), %rax
	movq	%rax, 40(%rbx)
	movq	80(%rsp), %rax
	movq	%rax, 48(%rbx)
	movq	96(%rsp), %rax
	movq	%rax, 56(%rbx)
	movq	104(%rsp), %rax
	movq	%rax, 64(%rbx)
	movq	32(%rsp), %rax
	movq	%rax, 72(%rbx)
	movq	88(%rsp), %rax
	movq	%rax, 80(%rbx)
	movq	%r14, 88(%rbx)
	movq	%r12, 96(%rbx)
	movq	48(%rsp), %rax
	movq	%rax, 104(%rbx)
	movq	208(%rsp), %rax
	movq	%rax, 112(%rbx)
	movq	112(%rsp), %rax
	movq	%rax, 120(%rbx)
	movq	%r15, 128(%rbx)
.LBB7_51:
	xorps	%xmm0, %xmm0
	movups	%xmm0, 136(%rbx)
	movups	%xmm0, 152(%rbx)
	movups	%xmm0, 168(%rbx)
.LBB7_52:
	addq	$664, %rsp
	.cfi_def_cfa_offset 56
	popq	%rbx
	.cfi_def_cfa_offset 48
	popq	%r12
	.cfi_def_cfa_offset 40
	popq	%r13
	.cfi_def_cfa_offset 32
	popq	%r14
	.cfi_def_cfa_offset 24
	popq	%r15
	.cfi_def_cfa_offset 16
	popq	%rbp
	.cfi_def_cfa_offset 8
	retq
.LBB7_53:
	.cfi_def_cfa_offset 720
	movl	$6, %ecx
	jmp	.LBB7_55
.LBB7_54:
	addl	$-63, %ecx
	movq	32(%rsp), %r10
	movq	24(%rsp), %r8
	movq	16(%rsp), %r9
	movq	%r14, %rdi
.LBB7_55:
	decl	%ecx
	movl	%ecx, %edx
	shrl	$6, %edx
	addl	%edx, %eax
	movq	(%rbp,%rax,8), %rax
	btq	%rcx, %rax
	adcl	$0, %r12d
.LBB7_56:
	movl	%r12d, %r12d
.LBB7_57:
	movq	288(%rsp), %rbp
	movups	296(%rsp), %xmm1
	movq	224(%rsp), %r14
	movq	232(%rsp), %r15
	movq	240(%rsp), %r13
	cmpq	$0, 160(%rsp)
	je	.LBB7_59
	movaps	%xmm1, 208(%rsp)
	callq	nm_host_dealloc@PLT
	movaps	208(%rsp), %xmm1
	movaps	112(%rsp), %xmm0
	movq	16(%rsp), %r9
	movq	24(%rsp), %r8
	movq	32(%rsp), %r10
	movq	48(%rsp), %r11
.LBB7_59:
	movq	72(%rsp), %rdx
	movl	%edx, %eax
	shrl	$6, %eax
	movl	%edx, %ecx
	andl	$63, %ecx
	cmpl	$1, %ecx
	leal	(%rax,%rdx,4), %eax
	sbbl	$-1, %eax
	movq	40(%rsp), %rdi
	shlq	$32, %rdi
	orq	%r12, %rdi
	movq	$0, (%rbx)
	movups	%xmm0, 8(%rbx)
	movq	432(%rsp), %rcx
	movq	%rcx, 24(%rbx)
	movq	%rbp, 32(%rbx)
	movups	%xmm1, 40(%rbx)
	movq	%rdi, 56(%rbx)
	movq	%r14, 64(%rbx)
	movq	%r15, 72(%rbx)
	movq	%r13, 80(%rbx)
	movq	56(%rsp), %rcx
	movq	%rcx, 88(%rbx)
	movq	%r8, 96(%rbx)
	movq	%r9, 104(%rbx)
	movq	80(%rsp), %rcx
	movq	%rcx, 112(%rbx)
	movq	96(%rsp), %rcx
	movq	%rcx, 120(%rbx)
	movq	104(%rsp), %rcx
	movq	%rcx, 128(%rbx)
	movq	%r10, 136(%rbx)
	movq	88(%rsp), %rcx
	movq	%rcx, 144(%rbx)
	addl	%r11d, %eax
	movq	%rax, 152(%rbx)
	movl	%edx, 160(%rbx)
	movq	448(%rsp), %rax
	movl	%eax, 164(%rbx)
	movq	136(%rsp), %rax
	movq	%rax, 168(%rbx)
	movl	%r11d, 176(%rbx)
	movl	$0, 180(%rbx)
	jmp	.LBB7_52
.LBB7_60:
	ud2
.Lfunc_end7:
	.size	"nm_tree::tree::Tree::end", .Lfunc_end7-"nm_tree::tree::Tree::end"
	.cfi_endproc
	.section	".text.nm_tree::closing::count_given","ax",@progbits
	.p2align	4
	.type	"nm_tree::closing::count_given",@function
"nm_tree::closing::count_given":
	.cfi_startproc
	testq	%rsi, %rsi
	je	.LBB8_1
	pushq	%rbx
	.cfi_def_cfa_offset 16
	.cfi_offset %rbx, -16
	decq	%rsi
	movl	72(%rdi), %ebx
	addq	$136, %rdi
	callq	"nm_tree::closing::count_given"
	addl	%ebx, %eax
	movl	$-1, %ecx
	cmovbl	%ecx, %eax
	popq	%rbx
	.cfi_def_cfa_offset 8
	retq
.LBB8_1:
	.cfi_restore %rbx
	xorl	%eax, %eax
	retq
.Lfunc_end8:
	.size	"nm_tree::closing::count_given", .Lfunc_end8-"nm_tree::closing::count_given"
	.cfi_endproc
	.section	".text.std_alloc::vec::Vec::drop::<#0e12e637e6be23a4>","ax",@progbits
	.p2align	4
	.type	"std_alloc::vec::Vec::drop::<#0e12e637e6be23a4>",@function
"std_alloc::vec::Vec::drop::<#0e12e637e6be23a4>":
	.cfi_startproc
	pushq	%rbp
	.cfi_def_cfa_offset 16
	pushq	%r15
	.cfi_def_cfa_offset 24
	pushq	%r14
	.cfi_def_cfa_offset 32
	pushq	%r13
	.cfi_def_cfa_offset 40
	pushq	%r12
	.cfi_def_cfa_offset 48
	pushq	%rbx
	.cfi_def_cfa_offset 56
	subq	$24, %rsp
	.cfi_def_cfa_offset 80
	.cfi_offset %rbx, -56
	.cfi_offset %r12, -48
	.cfi_offset %r13, -40
	.cfi_offset %r14, -32
	.cfi_offset %r15, -24
	.cfi_offset %rbp, -16
	movq	(%rdi), %rbx
	movq	8(%rdi), %rcx
	movq	16(%rdi), %rax
	movq	%rax, 8(%rsp)
	movq	%rcx, 16(%rsp)
	testq	%rcx, %rcx
	je	.LBB9_18
	xorl	%r12d, %r12d
	jmp	.LBB9_2
	.p2align	4
.LBB9_17:
	incq	%r12
	cmpq	16(%rsp), %r12
	je	.LBB9_18
.LBB9_2:
	movq	%r12, %rax
	shlq	$5, %rax
	leaq	(%rax,%rax,2), %rsi
	movq	8(%rbx,%rsi), %rcx
	movl	24(%rbx,%rsi), %r13d
	movq	32(%rbx,%rsi), %r14
	movl	48(%rbx,%rsi), %ebp
	movl	60(%rbx,%rsi), %edx
	testl	%edx, %edx
	je	.LBB9_3
	movl	56(%rbx,%rsi), %r8d
	movq	40(%rbx,%rsi), %rsi
	jmp	.LBB9_5
	.p2align	4
.LBB9_6:
	movq	%rcx, %rdi
	decl	%edx
	je	.LBB9_12
.LBB9_5:
	incl	%r8d
	cmpl	$32, %r8d
	jne	.LBB9_6
	movq	(%rcx), %rdi
	testl	%ebp, %ebp
	je	.LBB9_8
	movq	$0, (%rcx)
	movq	%rcx, (%rsi)
	jmp	.LBB9_10
.LBB9_8:
	movq	$0, (%rcx)
	movq	%rcx, %r14
.LBB9_10:
	decl	%r13d
	incl	%ebp
	xorl	%r8d, %r8d
	movq	%rcx, %rsi
	movq	%rdi, %rcx
	decl	%edx
	jne	.LBB9_5
.LBB9_12:
	testl	%r13d, %r13d
	je	.LBB9_14
	.p2align	4
.LBB9_13:
	movq	(%rdi), %r15
	callq	nm_host_dealloc@PLT
	movq	%r15, %rdi
	decl	%r13d
	jne	.LBB9_13
.LBB9_14:
	testl	%ebp, %ebp
	je	.LBB9_17
	movq	%r14, %rdi
	.p2align	4
.LBB9_16:
	movq	(%rdi), %r14
	callq	nm_host_dealloc@PLT
	movq	%r14, %rdi
	decl	%ebp
	jne	.LBB9_16
	jmp	.LBB9_17
	.p2align	4
.LBB9_3:
	movq	%rcx, %rdi
	testl	%r13d, %r13d
	jne	.LBB9_13
	jmp	.LBB9_14
.LBB9_18:
	cmpq	$0, 8(%rsp)
	je	.LBB9_19
	movq	%rbx, %rdi
	addq	$24, %rsp
	.cfi_def_cfa_offset 56
	popq	%rbx
	.cfi_def_cfa_offset 48
	popq	%r12
	.cfi_def_cfa_offset 40
	popq	%r13
	.cfi_def_cfa_offset 32
	popq	%r14
	.cfi_def_cfa_offset 24
	popq	%r15
	.cfi_def_cfa_offset 16
	popq	%rbp
	.cfi_def_cfa_offset 8
	jmp	nm_host_dealloc@PLT
.LBB9_19:
	.cfi_def_cfa_offset 80
	addq	$24, %rsp
	.cfi_def_cfa_offset 56
	popq	%rbx
	.cfi_def_cfa_offset 48
	popq	%r12
	.cfi_def_cfa_offset 40
	popq	%r13
	.cfi_def_cfa_offset 32
	popq	%r14
	.cfi_def_cfa_offset 24
	popq	%r15
	.cfi_def_cfa_offset 16
	popq	%rbp
	.cfi_def_cfa_offset 8
	retq
.Lfunc_end9:
	.size	"std_alloc::vec::Vec::drop::<#0e12e637e6be23a4>", .Lfunc_end9-"std_alloc::vec::Vec::drop::<#0e12e637e6be23a4>"
	.cfi_endproc
	.section	".text.nm_limbo::queue::BlockQueue::drop::<#cde2c94f8f64e8f5>","ax",@progbits
	.p2align	4
	.type	"nm_limbo::queue::BlockQueue::drop::<#cde2c94f8f64e8f5>",@function
"nm_limbo::queue::BlockQueue::drop::<#cde2c94f8f64e8f5>":
	.cfi_startproc
	pushq	%rbp
	.cfi_def_cfa_offset 16
	pushq	%r15
	.cfi_def_cfa_offset 24
	pushq	%r14
	.cfi_def_cfa_offset 32
	pushq	%rbx
	.cfi_def_cfa_offset 40
	pushq	%rax
	.cfi_def_cfa_offset 48
	.cfi_offset %rbx, -40
	.cfi_offset %r14, -32
	.cfi_offset %r15, -24
	.cfi_offset %rbp, -16
	movq	(%rdi), %rcx
	movl	16(%rdi), %ebp
	movq	24(%rdi), %rax
	movl	40(%rdi), %ebx
	movl	52(%rdi), %edx
	testl	%edx, %edx
	je	.LBB10_1
	movl	48(%rdi), %r8d
	movq	32(%rdi), %rsi
	jmp	.LBB10_3
	.p2align	4
.LBB10_4:
	movq	%rcx, %rdi
	decl	%edx
	je	.LBB10_10
.LBB10_3:
	incl	%r8d
	cmpl	$32, %r8d
	jne	.LBB10_4
	movq	(%rcx), %rdi
	testl	%ebx, %ebx
	je	.LBB10_6
	movq	$0, (%rcx)
	movq	%rcx, (%rsi)
	jmp	.LBB10_8
.LBB10_6:
	movq	$0, (%rcx)
	movq	%rcx, %rax
.LBB10_8:
	decl	%ebp
	incl	%ebx
	xorl	%r8d, %r8d
	movq	%rcx, %rsi
	movq	%rdi, %rcx
	decl	%edx
	jne	.LBB10_3
.LBB10_10:
	movq	%rax, %r14
	testl	%ebp, %ebp
	je	.LBB10_12
	.p2align	4
.LBB10_11:
	movq	(%rdi), %r15
	callq	nm_host_dealloc@PLT
	movq	%r15, %rdi
	decl	%ebp
	jne	.LBB10_11
.LBB10_12:
	testl	%ebx, %ebx
	je	.LBB10_15
	movq	%r14, %rdi
	.p2align	4
.LBB10_14:
	movq	(%rdi), %r14
	callq	nm_host_dealloc@PLT
	movq	%r14, %rdi
	decl	%ebx
	jne	.LBB10_14
.LBB10_15:
	addq	$8, %rsp
	.cfi_def_cfa_offset 40
	popq	%rbx
	.cfi_def_cfa_offset 32
	popq	%r14
	.cfi_def_cfa_offset 24
	popq	%r15
	.cfi_def_cfa_offset 16
	popq	%rbp
	.cfi_def_cfa_offset 8
	retq
.LBB10_1:
	.cfi_def_cfa_offset 48
	movq	%rcx, %rdi
	movq	%rax, %r14
	testl	%ebp, %ebp
	jne	.LBB10_11
	jmp	.LBB10_12
.Lfunc_end10:
	.size	"nm_limbo::queue::BlockQueue::drop::<#cde2c94f8f64e8f5>", .Lfunc_end10-"nm_limbo::queue::BlockQueue::drop::<#cde2c94f8f64e8f5>"
	.cfi_endproc
	.section	".text.nm_tree::resigning::take_over","ax",@progbits
	.p2align	4
	.type	"nm_tree::resigning::take_over",@function
"nm_tree::resigning::take_over":
	.cfi_startproc
	pushq	%rbp
	.cfi_def_cfa_offset 16
	pushq	%r15
	.cfi_def_cfa_offset 24
	pushq	%r14
	.cfi_def_cfa_offset 32
	pushq	%r13
	.cfi_def_cfa_offset 40
	pushq	%r12
	.cfi_def_cfa_offset 48
	pushq	%rbx
	.cfi_def_cfa_offset 56
	subq	$328, %rsp
	.cfi_def_cfa_offset 384
	.cfi_offset %rbx, -56
	.cfi_offset %r12, -48
	.cfi_offset %r13, -40
	.cfi_offset %r14, -32
	.cfi_offset %r15, -24
	.cfi_offset %rbp, -16
	movq	(%rsi), %r14
	movq	8(%rsi), %r12
	movq	16(%rsi), %r15
	testq	%r12, %r12
	je	.LBB11_14
	movq	%rdi, %rbx
	leaq	36(%rsp), %r13
	leaq	236(%rsp), %rbp
	jmp	.LBB11_2
	.p2align	4
.LBB11_9:
	movl	%eax, 232(%rsp)
	movups	76(%rdx), %xmm0
	movups	%xmm0, 76(%rbp)
	movups	64(%rdx), %xmm0
	movups	%xmm0, 64(%rbp)
	movups	(%rdx), %xmm0
	movups	16(%rdx), %xmm1
	movups	32(%rdx), %xmm2
	movups	48(%rdx), %xmm3
	movups	%xmm3, 48(%rbp)
	movups	%xmm2, 32(%rbp)
	movups	%xmm1, 16(%rbp)
	movups	%xmm0, (%rbp)
	leaq	232(%rsp), %rdx
	movq	%rbx, %rdi
	callq	"std_alloc::vec::Vec::put_at::<#0b7962f0fe0749a2>"
	testq	%r12, %r12
	je	.LBB11_14
.LBB11_2:
	decq	%r12
	leaq	(%r12,%r12,2), %rdx
	shlq	$5, %rdx
	movl	(%r14,%rdx), %eax
	movq	8(%rbx), %rcx
	testq	%rcx, %rcx
	je	.LBB11_3
	movq	(%rbx), %rdi
	xorl	%esi, %esi
	.p2align	4
.LBB11_5:
	cmpl	%eax, (%rdi)
	jae	.LBB11_8
	addq	$96, %rdi
	incq	%rsi
	cmpq	%rsi, %rcx
	jne	.LBB11_5
	movq	%rcx, %rsi
	jmp	.LBB11_8
	.p2align	4
.LBB11_3:
	xorl	%esi, %esi
.LBB11_8:
	addq	%r14, %rdx
	addq	$4, %rdx
	movl	%eax, 32(%rsp)
	movups	76(%rdx), %xmm0
	movups	%xmm0, 76(%r13)
	movups	64(%rdx), %xmm0
	movups	%xmm0, 64(%r13)
	movups	(%rdx), %xmm0
	movups	16(%rdx), %xmm1
	movups	32(%rdx), %xmm2
	movups	48(%rdx), %xmm3
	movups	%xmm3, 48(%r13)
	movups	%xmm2, 32(%r13)
	movups	%xmm1, 16(%r13)
	movups	%xmm0, (%r13)
	movq	16(%rbx), %rdi
	cmpq	%rdi, %rcx
	jb	.LBB11_9
	je	.LBB11_11
.LBB11_12:
	leaq	32(%rsp), %rdx
	movq	%rbx, %rdi
	callq	"std_alloc::vec::Vec::put_at::<#0b7962f0fe0749a2>"
	testq	%r12, %r12
	jne	.LBB11_2
	jmp	.LBB11_14
.LBB11_11:
	movq	%rbx, %rdi
	movq	%r15, (%rsp)
	movq	%rsi, %r15
	callq	"std_alloc::vec::Vec::grow_amortized::<#0b7962f0fe0749a2>"
	movq	%r15, %rsi
	movq	(%rsp), %r15
	testb	%al, %al
	jne	.LBB11_12
	movups	112(%rsp), %xmm0
	movups	%xmm0, 216(%rsp)
	movups	96(%rsp), %xmm0
	movups	%xmm0, 200(%rsp)
	movups	32(%rsp), %xmm0
	movups	48(%rsp), %xmm1
	movups	64(%rsp), %xmm2
	movups	80(%rsp), %xmm3
	movups	%xmm3, 184(%rsp)
	movups	%xmm2, 168(%rsp)
	movups	%xmm1, 152(%rsp)
	movups	%xmm0, 136(%rsp)
	movups	144(%rsp), %xmm0
	movaps	%xmm0, 32(%rsp)
	movups	160(%rsp), %xmm0
	movaps	%xmm0, 48(%rsp)
	movups	176(%rsp), %xmm0
	movaps	%xmm0, 64(%rsp)
	movq	192(%rsp), %rax
	movq	%rax, 80(%rsp)
	leaq	32(%rsp), %rdi
	callq	"nm_limbo::queue::BlockQueue::drop::<#cde2c94f8f64e8f5>"
	ud2
.LBB11_14:
	movq	%r14, 8(%rsp)
	movq	$0, 16(%rsp)
	movq	%r15, 24(%rsp)
	leaq	8(%rsp), %rdi
	callq	"std_alloc::vec::Vec::drop::<#0e12e637e6be23a4>"
	addq	$328, %rsp
	.cfi_def_cfa_offset 56
	popq	%rbx
	.cfi_def_cfa_offset 48
	popq	%r12
	.cfi_def_cfa_offset 40
	popq	%r13
	.cfi_def_cfa_offset 32
	popq	%r14
	.cfi_def_cfa_offset 24
	popq	%r15
	.cfi_def_cfa_offset 16
	popq	%rbp
	.cfi_def_cfa_offset 8
	retq
.Lfunc_end11:
	.size	"nm_tree::resigning::take_over", .Lfunc_end11-"nm_tree::resigning::take_over"
	.cfi_endproc
	.section	".text.unlikely.std_alloc::vec::Vec::grow_amortized::<#0b7962f0fe0749a2>","ax",@progbits
	.p2align	4
	.type	"std_alloc::vec::Vec::grow_amortized::<#0b7962f0fe0749a2>",@function
"std_alloc::vec::Vec::grow_amortized::<#0b7962f0fe0749a2>":
	.cfi_startproc
	movq	8(%rdi), %rax
	cmpq	$-1, %rax
	je	.LBB12_5
	pushq	%r14
	.cfi_def_cfa_offset 16
	pushq	%rbx
	.cfi_def_cfa_offset 24
	pushq	%rax
	.cfi_def_cfa_offset 32
	.cfi_offset %rbx, -24
	.cfi_offset %r14, -16
	movq	16(%rdi), %rcx
	cmpq	$4, %rax
	movl	$3, %ebx
	cmovaeq	%rax, %rbx
	incq	%rbx
	movq	%rcx, %rsi
	shrq	$62, %rsi
	leaq	(%rcx,%rcx), %rdx
	cmpq	%rdx, %rbx
	cmovaq	%rbx, %rdx
	testq	%rsi, %rsi
	cmoveq	%rdx, %rbx
	movabsq	$96076792050570581, %rsi
	cmpq	%rsi, %rbx
	ja	.LBB12_6
	testq	%rcx, %rcx
	je	.LBB12_8
	movq	%rdi, %r14
	movq	(%rdi), %rdi
	shlq	$5, %rax
	leaq	(%rax,%rax,2), %rsi
	movq	%rbx, %rax
	shlq	$5, %rax
	leaq	(%rax,%rax,2), %rdx
	movl	$8, %ecx
	callq	nm_host_realloc@PLT
	testb	$1, %al
	je	.LBB12_6
.LBB12_9:
	movq	%rdx, (%r14)
	movq	%rbx, 16(%r14)
	movb	$1, %al
	addq	$8, %rsp
	.cfi_def_cfa_offset 24
	popq	%rbx
	.cfi_def_cfa_offset 16
	popq	%r14
	.cfi_def_cfa_offset 8
	.cfi_restore %rbx
	.cfi_restore %r14
	retq
.LBB12_5:
	xorl	%eax, %eax
	retq
.LBB12_8:
	.cfi_def_cfa_offset 32
	.cfi_offset %rbx, -24
	.cfi_offset %r14, -16
	movq	%rdi, %r14
	shlq	$5, %rdx
	leaq	(%rdx,%rdx,2), %rdi
	movl	$8, %esi
	callq	nm_host_alloc@PLT
	testb	$1, %al
	jne	.LBB12_9
.LBB12_6:
	xorl	%eax, %eax
	addq	$8, %rsp
	.cfi_def_cfa_offset 24
	popq	%rbx
	.cfi_def_cfa_offset 16
	popq	%r14
	.cfi_def_cfa_offset 8
	.cfi_restore %rbx
	.cfi_restore %r14
	retq
.Lfunc_end12:
	.size	"std_alloc::vec::Vec::grow_amortized::<#0b7962f0fe0749a2>", .Lfunc_end12-"std_alloc::vec::Vec::grow_amortized::<#0b7962f0fe0749a2>"
	.cfi_endproc
	.section	.rodata.cst16,"aM",@progbits,16
	.p2align	4, 0x0
.LCPI13_0:
	.long	1
	.long	0
	.long	0
	.long	0
	.section	".text.std_alloc::vec::Vec::put_at::<#0b7962f0fe0749a2>","ax",@progbits
	.p2align	4
	.type	"std_alloc::vec::Vec::put_at::<#0b7962f0fe0749a2>",@function
"std_alloc::vec::Vec::put_at::<#0b7962f0fe0749a2>":
	.cfi_startproc
	pushq	%rbx
	.cfi_def_cfa_offset 16
	.cfi_offset %rbx, -16
	movups	80(%rdx), %xmm0
	movaps	%xmm0, -16(%rsp)
	movups	64(%rdx), %xmm0
	movaps	%xmm0, -32(%rsp)
	movups	(%rdx), %xmm0
	movups	16(%rdx), %xmm1
	movups	32(%rdx), %xmm2
	movups	48(%rdx), %xmm3
	movaps	%xmm3, -48(%rsp)
	movaps	%xmm2, -64(%rsp)
	movaps	%xmm1, -80(%rsp)
	movaps	%xmm0, -96(%rsp)
	movq	(%rdi), %rax
	movq	8(%rdi), %r8
	movdqu	8(%rdi), %xmm0
	xorps	%xmm1, %xmm1
	movups	%xmm1, 8(%rdi)
	movq	%rsi, %r10
	incq	%r10
	je	.LBB13_1
	cmpq	%rsi, %r8
	je	.LBB13_26
	movq	%r8, %r9
	subq	%rsi, %r9
	leaq	(%rsi,%rsi,2), %rcx
	shlq	$5, %rcx
	addq	%rax, %rcx
	leaq	(%r10,%r10,2), %rdx
	shlq	$5, %rdx
	addq	%rax, %rdx
	cmpq	%r10, %r8
	jne	.LBB13_22
	xorl	%r8d, %r8d
	jmp	.LBB13_25
.LBB13_1:
	leaq	1(%r8), %rdx
	cmpq	$22, %rdx
	jb	.LBB13_27
	leaq	-96(%rax), %r10
	xorl	%ecx, %ecx
	xorl	%r9d, %r9d
	jmp	.LBB13_3
	.p2align	4
.LBB13_5:
	movups	80(%r11), %xmm1
	movups	%xmm1, 80(%rbx)
	movups	64(%r11), %xmm1
	movups	%xmm1, 64(%rbx)
	movups	(%r11), %xmm1
	movups	16(%r11), %xmm2
	movups	32(%r11), %xmm3
	movups	48(%r11), %xmm4
	movups	%xmm4, 48(%rbx)
	movups	%xmm3, 32(%rbx)
	movups	%xmm2, 16(%rbx)
	movups	%xmm1, (%rbx)
	movups	80(%r11), %xmm1
	movups	%xmm1, 272(%r10,%rcx)
	movups	64(%r11), %xmm1
	movups	%xmm1, 256(%r10,%rcx)
	movups	(%r11), %xmm1
	movups	16(%r11), %xmm2
	movups	32(%r11), %xmm3
	movups	48(%r11), %xmm4
	movups	%xmm4, 240(%r10,%rcx)
	movups	%xmm3, 224(%r10,%rcx)
	movups	%xmm2, 208(%r10,%rcx)
	movups	%xmm1, 192(%r10,%rcx)
	movups	(%r11), %xmm1
	movups	16(%r11), %xmm2
	movups	32(%r11), %xmm3
	movups	48(%r11), %xmm4
	movups	%xmm1, 288(%r10,%rcx)
	movups	%xmm2, 304(%r10,%rcx)
	movups	%xmm3, 320(%r10,%rcx)
	movups	%xmm4, 336(%r10,%rcx)
	movups	64(%r11), %xmm1
	movups	%xmm1, 352(%r10,%rcx)
	movups	80(%r11), %xmm1
	movups	%xmm1, 368(%r10,%rcx)
	movups	(%r11), %xmm1
	movups	16(%r11), %xmm2
	movups	32(%r11), %xmm3
	movups	48(%r11), %xmm4
	movups	%xmm1, 384(%r10,%rcx)
	movups	%xmm2, 400(%r10,%rcx)
	movups	%xmm3, 416(%r10,%rcx)
	movups	%xmm4, 432(%r10,%rcx)
	movups	64(%r11), %xmm1
	movups	%xmm1, 448(%r10,%rcx)
	movups	80(%r11), %xmm1
	movups	%xmm1, 464(%r10,%rcx)
	movups	80(%r11), %xmm1
	movups	%xmm1, 560(%r10,%rcx)
	movups	64(%r11), %xmm1
	movups	%xmm1, 544(%r10,%rcx)
	movups	(%r11), %xmm1
	movups	16(%r11), %xmm2
	movups	32(%r11), %xmm3
	movups	48(%r11), %xmm4
	movups	%xmm4, 528(%r10,%rcx)
	movups	%xmm3, 512(%r10,%rcx)
	movups	%xmm2, 496(%r10,%rcx)
	movups	%xmm1, 480(%r10,%rcx)
	movups	(%r11), %xmm1
	movups	16(%r11), %xmm2
	movups	32(%r11), %xmm3
	movups	48(%r11), %xmm4
	movups	%xmm1, 576(%r10,%rcx)
	movups	%xmm2, 592(%r10,%rcx)
	movups	%xmm3, 608(%r10,%rcx)
	movups	%xmm4, 624(%r10,%rcx)
	movups	64(%r11), %xmm1
	movups	%xmm1, 640(%r10,%rcx)
	movups	80(%r11), %xmm1
	movups	%xmm1, 656(%r10,%rcx)
	movups	80(%r11), %xmm1
	movups	%xmm1, 752(%r10,%rcx)
	movups	64(%r11), %xmm1
	movups	%xmm1, 736(%r10,%rcx)
	movups	(%r11), %xmm1
	movups	16(%r11), %xmm2
	movups	32(%r11), %xmm3
	movups	48(%r11), %xmm4
	movups	%xmm4, 720(%r10,%rcx)
	movups	%xmm3, 704(%r10,%rcx)
	movups	%xmm2, 688(%r10,%rcx)
	movups	%xmm1, 672(%r10,%rcx)
	movups	(%r11), %xmm1
	movups	16(%r11), %xmm2
	movups	32(%r11), %xmm3
	movups	48(%r11), %xmm4
	movups	%xmm1, 768(%r10,%rcx)
	movups	%xmm2, 784(%r10,%rcx)
	movups	%xmm3, 800(%r10,%rcx)
	movups	%xmm4, 816(%r10,%rcx)
	movups	64(%r11), %xmm1
	movups	%xmm1, 832(%r10,%rcx)
	movups	80(%r11), %xmm1
	movups	%xmm1, 848(%r10,%rcx)
	movups	80(%r11), %xmm1
	movups	%xmm1, 944(%r10,%rcx)
	movups	64(%r11), %xmm1
	movups	%xmm1, 928(%r10,%rcx)
	movups	(%r11), %xmm1
	movups	16(%r11), %xmm2
	movups	32(%r11), %xmm3
	movups	48(%r11), %xmm4
	movups	%xmm4, 912(%r10,%rcx)
	movups	%xmm3, 896(%r10,%rcx)
	movups	%xmm2, 880(%r10,%rcx)
	movups	%xmm1, 864(%r10,%rcx)
	movups	(%r11), %xmm1
	movups	16(%r11), %xmm2
	movups	32(%r11), %xmm3
	movups	48(%r11), %xmm4
	movups	%xmm1, 960(%r10,%rcx)
	movups	%xmm2, 976(%r10,%rcx)
	movups	%xmm3, 992(%r10,%rcx)
	movups	%xmm4, 1008(%r10,%rcx)
	movups	64(%r11), %xmm1
	movups	%xmm1, 1024(%r10,%rcx)
	movups	80(%r11), %xmm1
	movups	%xmm1, 1040(%r10,%rcx)
	movups	80(%r11), %xmm1
	movups	%xmm1, 1136(%r10,%rcx)
	movups	64(%r11), %xmm1
	movups	%xmm1, 1120(%r10,%rcx)
	movups	(%r11), %xmm1
	movups	16(%r11), %xmm2
	movups	32(%r11), %xmm3
	movups	48(%r11), %xmm4
	movups	%xmm4, 1104(%r10,%rcx)
	movups	%xmm3, 1088(%r10,%rcx)
	movups	%xmm2, 1072(%r10,%rcx)
	movups	%xmm1, 1056(%r10,%rcx)
	movups	(%r11), %xmm1
	movups	16(%r11), %xmm2
	movups	32(%r11), %xmm3
	movups	48(%r11), %xmm4
	movups	%xmm1, 1152(%r10,%rcx)
	movups	%xmm2, 1168(%r10,%rcx)
	movups	%xmm3, 1184(%r10,%rcx)
	movups	%xmm4, 1200(%r10,%rcx)
	movups	64(%r11), %xmm1
	movups	%xmm1, 1216(%r10,%rcx)
	movups	80(%r11), %xmm1
	movups	%xmm1, 1232(%r10,%rcx)
	movups	80(%r11), %xmm1
	movups	%xmm1, 1328(%r10,%rcx)
	movups	64(%r11), %xmm1
	movups	%xmm1, 1312(%r10,%rcx)
	movups	(%r11), %xmm1
	movups	16(%r11), %xmm2
	movups	32(%r11), %xmm3
	movups	48(%r11), %xmm4
	movups	%xmm4, 1296(%r10,%rcx)
	movups	%xmm3, 1280(%r10,%rcx)
	movups	%xmm2, 1264(%r10,%rcx)
	movups	%xmm1, 1248(%r10,%rcx)
	movups	(%r11), %xmm1
	movups	16(%r11), %xmm2
	movups	32(%r11), %xmm3
	movups	48(%r11), %xmm4
	movups	%xmm1, 1344(%r10,%rcx)
	movups	%xmm2, 1360(%r10,%rcx)
	movups	%xmm3, 1376(%r10,%rcx)
	movups	%xmm4, 1392(%r10,%rcx)
	movups	64(%r11), %xmm1
	movups	%xmm1, 1408(%r10,%rcx)
	movups	80(%r11), %xmm1
	movups	%xmm1, 1424(%r10,%rcx)
	movups	80(%r11), %xmm1
	movups	%xmm1, 1520(%r10,%rcx)
	movups	64(%r11), %xmm1
	movups	%xmm1, 1504(%r10,%rcx)
	movups	(%r11), %xmm1
	movups	16(%r11), %xmm2
	movups	32(%r11), %xmm3
	movups	48(%r11), %xmm4
	movups	%xmm4, 1488(%r10,%rcx)
	movups	%xmm3, 1472(%r10,%rcx)
	movups	%xmm2, 1456(%r10,%rcx)
	movups	%xmm1, 1440(%r10,%rcx)
	movups	(%r11), %xmm1
	movups	16(%r11), %xmm2
	movups	32(%r11), %xmm3
	movups	48(%r11), %xmm4
	movups	%xmm1, 1536(%r10,%rcx)
	movups	%xmm2, 1552(%r10,%rcx)
	movups	%xmm3, 1568(%r10,%rcx)
	movups	%xmm4, 1584(%r10,%rcx)
	movups	64(%r11), %xmm1
	movups	%xmm1, 1600(%r10,%rcx)
	movups	80(%r11), %xmm1
	movups	%xmm1, 1616(%r10,%rcx)
	movups	80(%r11), %xmm1
	movups	%xmm1, 1712(%r10,%rcx)
	movups	64(%r11), %xmm1
	movups	%xmm1, 1696(%r10,%rcx)
	movups	(%r11), %xmm1
	movups	16(%r11), %xmm2
	movups	32(%r11), %xmm3
	movups	48(%r11), %xmm4
	movups	%xmm4, 1680(%r10,%rcx)
	movups	%xmm3, 1664(%r10,%rcx)
	movups	%xmm2, 1648(%r10,%rcx)
	movups	%xmm1, 1632(%r10,%rcx)
	movups	(%r11), %xmm1
	movups	16(%r11), %xmm2
	movups	32(%r11), %xmm3
	movups	48(%r11), %xmm4
	movups	%xmm1, 1728(%r10,%rcx)
	movups	%xmm2, 1744(%r10,%rcx)
	movups	%xmm3, 1760(%r10,%rcx)
	movups	%xmm4, 1776(%r10,%rcx)
	movups	64(%r11), %xmm1
	movups	%xmm1, 1792(%r10,%rcx)
	movups	80(%r11), %xmm1
	movups	%xmm1, 1808(%r10,%rcx)
	movups	80(%r11), %xmm1
	movups	%xmm1, 1904(%r10,%rcx)
	movups	64(%r11), %xmm1
	movups	%xmm1, 1888(%r10,%rcx)
	movups	(%r11), %xmm1
	movups	16(%r11), %xmm2
	movups	32(%r11), %xmm3
	movups	48(%r11), %xmm4
	movups	%xmm4, 1872(%r10,%rcx)
	movups	%xmm3, 1856(%r10,%rcx)
	movups	%xmm2, 1840(%r10,%rcx)
	movups	%xmm1, 1824(%r10,%rcx)
	movups	(%r11), %xmm1
	movups	16(%r11), %xmm2
	movups	32(%r11), %xmm3
	movups	48(%r11), %xmm4
	movups	%xmm1, 1920(%r10,%rcx)
	movups	%xmm2, 1936(%r10,%rcx)
	movups	%xmm3, 1952(%r10,%rcx)
	movups	%xmm4, 1968(%r10,%rcx)
	movups	64(%r11), %xmm1
	movups	%xmm1, 1984(%r10,%rcx)
	movups	80(%r11), %xmm1
	movups	%xmm1, 2000(%r10,%rcx)
	movups	80(%r11), %xmm1
	movups	%xmm1, 2096(%r10,%rcx)
	movups	64(%r11), %xmm1
	movups	%xmm1, 2080(%r10,%rcx)
	movups	(%r11), %xmm1
	movups	16(%r11), %xmm2
	movups	32(%r11), %xmm3
	movups	48(%r11), %xmm4
	movups	%xmm4, 2064(%r10,%rcx)
	movups	%xmm3, 2048(%r10,%rcx)
	movups	%xmm1, 2016(%r10,%rcx)
	movups	%xmm2, 2032(%r10,%rcx)
.LBB13_6:
	leaq	(%rdx,%r9), %r11
	addq	$-21, %r11
	addq	$-21, %r9
	addq	$2016, %rcx
	cmpq	$21, %r11
	jbe	.LBB13_7
.LBB13_3:
	leaq	(%r10,%rcx), %r11
	leaq	(%r10,%rcx), %rbx
	addq	$96, %rbx
	testq	%r9, %r9
	je	.LBB13_5
	movups	2000(%r10,%rcx), %xmm1
	movups	%xmm1, 2096(%r10,%rcx)
	movups	1984(%r10,%rcx), %xmm1
	movups	%xmm1, 2080(%r10,%rcx)
	movups	1968(%r10,%rcx), %xmm1
	movups	%xmm1, 2064(%r10,%rcx)
	movups	1952(%r10,%rcx), %xmm1
	movups	%xmm1, 2048(%r10,%rcx)
	movups	1936(%r10,%rcx), %xmm1
	movups	%xmm1, 2032(%r10,%rcx)
	movups	1920(%r10,%rcx), %xmm1
	movups	%xmm1, 2016(%r10,%rcx)
	movups	1824(%r10,%rcx), %xmm1
	movups	1840(%r10,%rcx), %xmm2
	movups	1856(%r10,%rcx), %xmm3
	movups	1872(%r10,%rcx), %xmm4
	movups	%xmm1, 1920(%r10,%rcx)
	movups	%xmm2, 1936(%r10,%rcx)
	movups	%xmm3, 1952(%r10,%rcx)
	movups	%xmm4, 1968(%r10,%rcx)
	movups	1888(%r10,%rcx), %xmm1
	movups	%xmm1, 1984(%r10,%rcx)
	movups	1904(%r10,%rcx), %xmm1
	movups	%xmm1, 2000(%r10,%rcx)
	movups	1728(%r10,%rcx), %xmm1
	movups	%xmm1, 1824(%r10,%rcx)
	movups	1808(%r10,%rcx), %xmm1
	movups	%xmm1, 1904(%r10,%rcx)
	movups	1792(%r10,%rcx), %xmm1
	movups	%xmm1, 1888(%r10,%rcx)
	movups	1776(%r10,%rcx), %xmm1
	movups	%xmm1, 1872(%r10,%rcx)
	movups	1760(%r10,%rcx), %xmm1
	movups	%xmm1, 1856(%r10,%rcx)
	movups	1744(%r10,%rcx), %xmm1
	movups	%xmm1, 1840(%r10,%rcx)
	movups	1712(%r10,%rcx), %xmm1
	movups	%xmm1, 1808(%r10,%rcx)
	movups	1696(%r10,%rcx), %xmm1
	movups	%xmm1, 1792(%r10,%rcx)
	movups	1632(%r10,%rcx), %xmm1
	movups	1648(%r10,%rcx), %xmm2
	movups	1664(%r10,%rcx), %xmm3
	movups	1680(%r10,%rcx), %xmm4
	movups	%xmm4, 1776(%r10,%rcx)
	movups	%xmm3, 1760(%r10,%rcx)
	movups	%xmm2, 1744(%r10,%rcx)
	movups	%xmm1, 1728(%r10,%rcx)
	movups	1616(%r10,%rcx), %xmm1
	movups	%xmm1, 1712(%r10,%rcx)
	movups	1600(%r10,%rcx), %xmm1
	movups	%xmm1, 1696(%r10,%rcx)
	movups	1536(%r10,%rcx), %xmm1
	movups	1552(%r10,%rcx), %xmm2
	movups	1568(%r10,%rcx), %xmm3
	movups	1584(%r10,%rcx), %xmm4
	movups	%xmm4, 1680(%r10,%rcx)
	movups	%xmm3, 1664(%r10,%rcx)
	movups	%xmm2, 1648(%r10,%rcx)
	movups	%xmm1, 1632(%r10,%rcx)
	movups	1520(%r10,%rcx), %xmm1
	movups	%xmm1, 1616(%r10,%rcx)
	movups	1504(%r10,%rcx), %xmm1
	movups	%xmm1, 1600(%r10,%rcx)
	movups	1440(%r10,%rcx), %xmm1
	movups	1456(%r10,%rcx), %xmm2
	movups	1472(%r10,%rcx), %xmm3
	movups	1488(%r10,%rcx), %xmm4
	movups	%xmm4, 1584(%r10,%rcx)
	movups	%xmm3, 1568(%r10,%rcx)
	movups	%xmm2, 1552(%r10,%rcx)
	movups	%xmm1, 1536(%r10,%rcx)
	movups	1424(%r10,%rcx), %xmm1
	movups	%xmm1, 1520(%r10,%rcx)
	movups	1408(%r10,%rcx), %xmm1
	movups	%xmm1, 1504(%r10,%rcx)
	movups	1344(%r10,%rcx), %xmm1
	movups	1360(%r10,%rcx), %xmm2
	movups	1376(%r10,%rcx), %xmm3
	movups	1392(%r10,%rcx), %xmm4
	movups	%xmm4, 1488(%r10,%rcx)
	movups	%xmm3, 1472(%r10,%rcx)
	movups	%xmm2, 1456(%r10,%rcx)
	movups	%xmm1, 1440(%r10,%rcx)
	movups	1328(%r10,%rcx), %xmm1
	movups	%xmm1, 1424(%r10,%rcx)
	movups	1312(%r10,%rcx), %xmm1
	movups	%xmm1, 1408(%r10,%rcx)
	movups	1248(%r10,%rcx), %xmm1
	movups	1264(%r10,%rcx), %xmm2
	movups	1280(%r10,%rcx), %xmm3
	movups	1296(%r10,%rcx), %xmm4
	movups	%xmm4, 1392(%r10,%rcx)
	movups	%xmm3, 1376(%r10,%rcx)
	movups	%xmm2, 1360(%r10,%rcx)
	movups	%xmm1, 1344(%r10,%rcx)
	movups	1232(%r10,%rcx), %xmm1
	movups	%xmm1, 1328(%r10,%rcx)
	movups	1216(%r10,%rcx), %xmm1
	movups	%xmm1, 1312(%r10,%rcx)
	movups	1152(%r10,%rcx), %xmm1
	movups	1168(%r10,%rcx), %xmm2
	movups	1184(%r10,%rcx), %xmm3
	movups	1200(%r10,%rcx), %xmm4
	movups	%xmm4, 1296(%r10,%rcx)
	movups	%xmm3, 1280(%r10,%rcx)
	movups	%xmm2, 1264(%r10,%rcx)
	movups	%xmm1, 1248(%r10,%rcx)
	movups	1136(%r10,%rcx), %xmm1
	movups	%xmm1, 1232(%r10,%rcx)
	movups	1120(%r10,%rcx), %xmm1
	movups	%xmm1, 1216(%r10,%rcx)
	movups	1056(%r10,%rcx), %xmm1
	movups	1072(%r10,%rcx), %xmm2
	movups	1088(%r10,%rcx), %xmm3
	movups	1104(%r10,%rcx), %xmm4
	movups	%xmm4, 1200(%r10,%rcx)
	movups	%xmm3, 1184(%r10,%rcx)
	movups	%xmm2, 1168(%r10,%rcx)
	movups	%xmm1, 1152(%r10,%rcx)
	movups	1040(%r10,%rcx), %xmm1
	movups	%xmm1, 1136(%r10,%rcx)
	movups	1024(%r10,%rcx), %xmm1
	movups	%xmm1, 1120(%r10,%rcx)
	movups	960(%r10,%rcx), %xmm1
	movups	976(%r10,%rcx), %xmm2
	movups	992(%r10,%rcx), %xmm3
	movups	1008(%r10,%rcx), %xmm4
	movups	%xmm4, 1104(%r10,%rcx)
	movups	%xmm3, 1088(%r10,%rcx)
	movups	%xmm2, 1072(%r10,%rcx)
	movups	%xmm1, 1056(%r10,%rcx)
	movups	944(%r10,%rcx), %xmm1
	movups	%xmm1, 1040(%r10,%rcx)
	movups	928(%r10,%rcx), %xmm1
	movups	%xmm1, 1024(%r10,%rcx)
	movups	864(%r10,%rcx), %xmm1
	movups	880(%r10,%rcx), %xmm2
	movups	896(%r10,%rcx), %xmm3
	movups	912(%r10,%rcx), %xmm4
	movups	%xmm4, 1008(%r10,%rcx)
	movups	%xmm3, 992(%r10,%rcx)
	movups	%xmm2, 976(%r10,%rcx)
	movups	%xmm1, 960(%r10,%rcx)
	movups	848(%r10,%rcx), %xmm1
	movups	%xmm1, 944(%r10,%rcx)
	movups	832(%r10,%rcx), %xmm1
	movups	%xmm1, 928(%r10,%rcx)
	movups	768(%r10,%rcx), %xmm1
	movups	784(%r10,%rcx), %xmm2
	movups	800(%r10,%rcx), %xmm3
	movups	816(%r10,%rcx), %xmm4
	movups	%xmm4, 912(%r10,%rcx)
	movups	%xmm3, 896(%r10,%rcx)
	movups	%xmm2, 880(%r10,%rcx)
	movups	%xmm1, 864(%r10,%rcx)
	movups	752(%r10,%rcx), %xmm1
	movups	%xmm1, 848(%r10,%rcx)
	movups	736(%r10,%rcx), %xmm1
	movups	%xmm1, 832(%r10,%rcx)
	movups	672(%r10,%rcx), %xmm1
	movups	688(%r10,%rcx), %xmm2
	movups	704(%r10,%rcx), %xmm3
	movups	720(%r10,%rcx), %xmm4
	movups	%xmm4, 816(%r10,%rcx)
	movups	%xmm3, 800(%r10,%rcx)
	movups	%xmm2, 784(%r10,%rcx)
	movups	%xmm1, 768(%r10,%rcx)
	movups	656(%r10,%rcx), %xmm1
	movups	%xmm1, 752(%r10,%rcx)
	movups	640(%r10,%rcx), %xmm1
	movups	%xmm1, 736(%r10,%rcx)
	movups	576(%r10,%rcx), %xmm1
	movups	592(%r10,%rcx), %xmm2
	movups	608(%r10,%rcx), %xmm3
	movups	624(%r10,%rcx), %xmm4
	movups	%xmm4, 720(%r10,%rcx)
	movups	%xmm3, 704(%r10,%rcx)
	movups	%xmm2, 688(%r10,%rcx)
	movups	%xmm1, 672(%r10,%rcx)
	movups	560(%r10,%rcx), %xmm1
	movups	%xmm1, 656(%r10,%rcx)
	movups	544(%r10,%rcx), %xmm1
	movups	%xmm1, 640(%r10,%rcx)
	movups	480(%r10,%rcx), %xmm1
	movups	496(%r10,%rcx), %xmm2
	movups	512(%r10,%rcx), %xmm3
	movups	528(%r10,%rcx), %xmm4
	movups	%xmm4, 624(%r10,%rcx)
	movups	%xmm3, 608(%r10,%rcx)
	movups	%xmm2, 592(%r10,%rcx)
	movups	%xmm1, 576(%r10,%rcx)
	movups	464(%r10,%rcx), %xmm1
	movups	%xmm1, 560(%r10,%rcx)
	movups	448(%r10,%rcx), %xmm1
	movups	%xmm1, 544(%r10,%rcx)
	movups	384(%r10,%rcx), %xmm1
	movups	400(%r10,%rcx), %xmm2
	movups	416(%r10,%rcx), %xmm3
	movups	432(%r10,%rcx), %xmm4
	movups	%xmm4, 528(%r10,%rcx)
	movups	%xmm3, 512(%r10,%rcx)
	movups	%xmm2, 496(%r10,%rcx)
	movups	%xmm1, 480(%r10,%rcx)
	movups	368(%r10,%rcx), %xmm1
	movups	%xmm1, 464(%r10,%rcx)
	movups	352(%r10,%rcx), %xmm1
	movups	%xmm1, 448(%r10,%rcx)
	movups	288(%r10,%rcx), %xmm1
	movups	304(%r10,%rcx), %xmm2
	movups	320(%r10,%rcx), %xmm3
	movups	336(%r10,%rcx), %xmm4
	movups	%xmm4, 432(%r10,%rcx)
	movups	%xmm3, 416(%r10,%rcx)
	movups	%xmm2, 400(%r10,%rcx)
	movups	%xmm1, 384(%r10,%rcx)
	movups	272(%r10,%rcx), %xmm1
	movups	%xmm1, 368(%r10,%rcx)
	movups	256(%r10,%rcx), %xmm1
	movups	%xmm1, 352(%r10,%rcx)
	movups	192(%r10,%rcx), %xmm1
	movups	208(%r10,%rcx), %xmm2
	movups	224(%r10,%rcx), %xmm3
	movups	240(%r10,%rcx), %xmm4
	movups	%xmm4, 336(%r10,%rcx)
	movups	%xmm3, 320(%r10,%rcx)
	movups	%xmm2, 304(%r10,%rcx)
	movups	%xmm1, 288(%r10,%rcx)
	movups	80(%rbx), %xmm1
	movups	%xmm1, 272(%r10,%rcx)
	movups	64(%rbx), %xmm1
	movups	%xmm1, 256(%r10,%rcx)
	movups	(%rbx), %xmm1
	movups	16(%rbx), %xmm2
	movups	32(%rbx), %xmm3
	movups	48(%rbx), %xmm4
	movups	%xmm4, 240(%r10,%rcx)
	movups	%xmm3, 224(%r10,%rcx)
	movups	%xmm2, 208(%r10,%rcx)
	movups	%xmm1, 192(%r10,%rcx)
	movups	(%r11), %xmm1
	movups	16(%r11), %xmm2
	movups	32(%r11), %xmm3
	movups	48(%r11), %xmm4
	movups	%xmm1, (%rbx)
	movups	%xmm2, 16(%rbx)
	movups	%xmm3, 32(%rbx)
	movups	%xmm4, 48(%rbx)
	movups	64(%r11), %xmm1
	movups	%xmm1, 64(%rbx)
	movups	80(%r11), %xmm1
	movups	%xmm1, 80(%rbx)
	jmp	.LBB13_6
.LBB13_27:
	shlq	$5, %r10
	leaq	(%r10,%r10,2), %rcx
	movq	%rdx, %r10
	jmp	.LBB13_8
.LBB13_7:
	leaq	(%rdx,%r9), %r10
	testq	%r9, %r9
	je	.LBB13_8
	testq	%r10, %r10
	je	.LBB13_26
	addq	%r9, %rdx
	leaq	(%r8,%r8,2), %rcx
	shlq	$5, %rcx
	addq	%rax, %rcx
	.p2align	4
.LBB13_18:
	movups	-16(%rcx), %xmm1
	movups	%xmm1, 80(%rcx)
	movups	-32(%rcx), %xmm1
	movups	%xmm1, 64(%rcx)
	movups	-96(%rcx), %xmm1
	movups	-80(%rcx), %xmm2
	movups	-64(%rcx), %xmm3
	movups	-48(%rcx), %xmm4
	movups	%xmm4, 48(%rcx)
	movups	%xmm3, 32(%rcx)
	movups	%xmm2, 16(%rcx)
	movups	%xmm1, (%rcx)
	addq	$-96, %rcx
	decq	%rdx
	jne	.LBB13_18
	jmp	.LBB13_26
.LBB13_8:
	testq	%rdx, %rdx
	je	.LBB13_26
	leaq	-1(%r10), %r8
	movl	%r10d, %edx
	andl	$3, %edx
	cmpq	$3, %r8
	jae	.LBB13_11
	xorl	%r8d, %r8d
	jmp	.LBB13_14
.LBB13_22:
	movq	%r9, %r10
	andq	$-2, %r10
	leaq	(%r8,%r8,2), %r11
	shlq	$5, %r11
	addq	%rax, %r11
	xorl	%r8d, %r8d
	.p2align	4
.LBB13_23:
	movups	-16(%r11), %xmm1
	movups	%xmm1, 80(%r11)
	movups	-32(%r11), %xmm1
	movups	%xmm1, 64(%r11)
	movups	-96(%r11), %xmm1
	movups	-80(%r11), %xmm2
	movups	-64(%r11), %xmm3
	movups	-48(%r11), %xmm4
	movups	%xmm4, 48(%r11)
	movups	%xmm3, 32(%r11)
	movups	%xmm2, 16(%r11)
	movups	%xmm1, (%r11)
	movabsq	$576460752303423486, %rbx
	xorq	%r8, %rbx
	addq	%r9, %rbx
	shlq	$5, %rbx
	leaq	(%rbx,%rbx,2), %rbx
	movups	80(%rcx,%rbx), %xmm1
	movups	%xmm1, 80(%rdx,%rbx)
	movups	64(%rcx,%rbx), %xmm1
	movups	%xmm1, 64(%rdx,%rbx)
	movups	(%rcx,%rbx), %xmm1
	movups	16(%rcx,%rbx), %xmm2
	movups	32(%rcx,%rbx), %xmm3
	movups	48(%rcx,%rbx), %xmm4
	movups	%xmm4, 48(%rdx,%rbx)
	movups	%xmm3, 32(%rdx,%rbx)
	movups	%xmm2, 16(%rdx,%rbx)
	movups	%xmm1, (%rdx,%rbx)
	addq	$2, %r8
	addq	$-192, %r11
	cmpq	%r8, %r10
	jne	.LBB13_23
	testb	$1, %r9b
	je	.LBB13_26
.LBB13_25:
	notq	%r8
	addq	%r8, %r9
	shlq	$5, %r9
	leaq	(%r9,%r9,2), %r8
	movups	80(%rcx,%r8), %xmm1
	movups	%xmm1, 80(%rdx,%r8)
	movups	64(%rcx,%r8), %xmm1
	movups	%xmm1, 64(%rdx,%r8)
	movups	(%rcx,%r8), %xmm1
	movups	16(%rcx,%r8), %xmm2
	movups	32(%rcx,%r8), %xmm3
	movups	48(%rcx,%r8), %xmm4
	movups	%xmm4, 48(%rdx,%r8)
	movups	%xmm3, 32(%rdx,%r8)
	movups	%xmm2, 16(%rdx,%r8)
	movups	%xmm1, (%rdx,%r8)
	jmp	.LBB13_26
.LBB13_11:
	andl	$28, %r10d
	leaq	(%rax,%rcx), %r9
	xorl	%r8d, %r8d
	.p2align	4
.LBB13_12:
	movups	-16(%r9), %xmm1
	movups	%xmm1, 80(%r9)
	movups	-32(%r9), %xmm2
	movups	%xmm2, 64(%r9)
	movups	-96(%r9), %xmm3
	movups	-80(%r9), %xmm4
	movups	-64(%r9), %xmm5
	movups	-48(%r9), %xmm6
	movups	%xmm6, 48(%r9)
	movups	%xmm5, 32(%r9)
	movups	%xmm4, 16(%r9)
	movups	%xmm3, (%r9)
	movups	%xmm3, 96(%r9)
	movups	%xmm4, 112(%r9)
	movups	%xmm5, 128(%r9)
	movups	%xmm6, 144(%r9)
	movups	%xmm2, 160(%r9)
	movups	%xmm1, 176(%r9)
	movups	176(%r9), %xmm1
	movups	%xmm1, 272(%r9)
	movups	160(%r9), %xmm2
	movups	%xmm2, 256(%r9)
	movups	96(%r9), %xmm3
	movups	112(%r9), %xmm4
	movups	128(%r9), %xmm5
	movups	144(%r9), %xmm6
	movups	%xmm6, 240(%r9)
	movups	%xmm5, 224(%r9)
	movups	%xmm4, 208(%r9)
	movups	%xmm3, 192(%r9)
	movups	%xmm3, 288(%r9)
	movups	%xmm4, 304(%r9)
	movups	%xmm5, 320(%r9)
	movups	%xmm6, 336(%r9)
	movups	%xmm2, 352(%r9)
	movups	%xmm1, 368(%r9)
	addq	$4, %r8
	addq	$384, %r9
	cmpq	%r8, %r10
	jne	.LBB13_12
	testq	%rdx, %rdx
	je	.LBB13_26
.LBB13_14:
	leaq	(%r8,%r8,2), %r8
	shlq	$5, %r8
	addq	%r8, %rcx
	addq	%rax, %rcx
	shll	$5, %edx
	leaq	(%rdx,%rdx,2), %rdx
	xorl	%r8d, %r8d
	.p2align	4
.LBB13_15:
	movups	-16(%rcx,%r8), %xmm1
	movups	%xmm1, 80(%rcx,%r8)
	movups	-32(%rcx,%r8), %xmm1
	movups	%xmm1, 64(%rcx,%r8)
	movups	-96(%rcx,%r8), %xmm1
	movups	-80(%rcx,%r8), %xmm2
	movups	-64(%rcx,%r8), %xmm3
	movups	-48(%rcx,%r8), %xmm4
	movups	%xmm4, 48(%rcx,%r8)
	movups	%xmm3, 32(%rcx,%r8)
	movups	%xmm2, 16(%rcx,%r8)
	movups	%xmm1, (%rcx,%r8)
	addq	$96, %r8
	cmpq	%r8, %rdx
	jne	.LBB13_15
.LBB13_26:
	leaq	(%rsi,%rsi,2), %rcx
	shlq	$5, %rcx
	movaps	-16(%rsp), %xmm1
	movups	%xmm1, 80(%rax,%rcx)
	movaps	-32(%rsp), %xmm1
	movups	%xmm1, 64(%rax,%rcx)
	movaps	-96(%rsp), %xmm1
	movaps	-80(%rsp), %xmm2
	movaps	-64(%rsp), %xmm3
	movaps	-48(%rsp), %xmm4
	movups	%xmm4, 48(%rax,%rcx)
	movups	%xmm3, 32(%rax,%rcx)
	movups	%xmm2, 16(%rax,%rcx)
	movups	%xmm1, (%rax,%rcx)
	movq	%rax, (%rdi)
	paddq	.LCPI13_0(%rip), %xmm0
	movdqu	%xmm0, 8(%rdi)
	popq	%rbx
	.cfi_def_cfa_offset 8
	retq
.Lfunc_end13:
	.size	"std_alloc::vec::Vec::put_at::<#0b7962f0fe0749a2>", .Lfunc_end13-"std_alloc::vec::Vec::put_at::<#0b7962f0fe0749a2>"
	.cfi_endproc
	.section	".text.unlikely.std_alloc::vec::Vec::grow_amortized::<#559067137cac8b4f>","ax",@progbits
	.p2align	4
	.type	"std_alloc::vec::Vec::grow_amortized::<#559067137cac8b4f>",@function
"std_alloc::vec::Vec::grow_amortized::<#559067137cac8b4f>":
	.cfi_startproc
	movq	8(%rdi), %rsi
	cmpq	$-1, %rsi
	je	.LBB14_5
	pushq	%r14
	.cfi_def_cfa_offset 16
	pushq	%rbx
	.cfi_def_cfa_offset 24
	pushq	%rax
	.cfi_def_cfa_offset 32
	.cfi_offset %rbx, -24
	.cfi_offset %r14, -16
	movq	16(%rdi), %rcx
	cmpq	$4, %rsi
	movl	$3, %ebx
	cmovaeq	%rsi, %rbx
	incq	%rbx
	movq	%rcx, %rdx
	shrq	$62, %rdx
	leaq	(%rcx,%rcx), %rax
	cmpq	%rax, %rbx
	cmovaq	%rbx, %rax
	testq	%rdx, %rdx
	cmoveq	%rax, %rbx
	movq	%rbx, %rdx
	shrq	$60, %rdx
	jne	.LBB14_6
	testq	%rcx, %rcx
	je	.LBB14_8
	movq	%rdi, %r14
	movq	(%rdi), %rdi
	shlq	$3, %rsi
	leaq	(,%rbx,8), %rdx
	movl	$4, %ecx
	callq	nm_host_realloc@PLT
	testb	$1, %al
	je	.LBB14_6
.LBB14_9:
	movq	%rdx, (%r14)
	movq	%rbx, 16(%r14)
	movb	$1, %al
	addq	$8, %rsp
	.cfi_def_cfa_offset 24
	popq	%rbx
	.cfi_def_cfa_offset 16
	popq	%r14
	.cfi_def_cfa_offset 8
	.cfi_restore %rbx
	.cfi_restore %r14
	retq
.LBB14_5:
	xorl	%eax, %eax
	retq
.LBB14_8:
	.cfi_def_cfa_offset 32
	.cfi_offset %rbx, -24
	.cfi_offset %r14, -16
	movq	%rdi, %r14
	shlq	$3, %rax
	movl	$4, %esi
	movq	%rax, %rdi
	callq	nm_host_alloc@PLT
	testb	$1, %al
	jne	.LBB14_9
.LBB14_6:
	xorl	%eax, %eax
	addq	$8, %rsp
	.cfi_def_cfa_offset 24
	popq	%rbx
	.cfi_def_cfa_offset 16
	popq	%r14
	.cfi_def_cfa_offset 8
	.cfi_restore %rbx
	.cfi_restore %r14
	retq
.Lfunc_end14:
	.size	"std_alloc::vec::Vec::grow_amortized::<#559067137cac8b4f>", .Lfunc_end14-"std_alloc::vec::Vec::grow_amortized::<#559067137cac8b4f>"
	.cfi_endproc
	.section	".text.unlikely.std_alloc::vec::Vec::grow_amortized::<#89eda37bc510a1b2>","ax",@progbits
	.p2align	4
	.type	"std_alloc::vec::Vec::grow_amortized::<#89eda37bc510a1b2>",@function
"std_alloc::vec::Vec::grow_amortized::<#89eda37bc510a1b2>":
	.cfi_startproc
	movq	8(%rdi), %rsi
	cmpq	$-1, %rsi
	je	.LBB15_5
	pushq	%r14
	.cfi_def_cfa_offset 16
	pushq	%rbx
	.cfi_def_cfa_offset 24
	pushq	%rax
	.cfi_def_cfa_offset 32
	.cfi_offset %rbx, -24
	.cfi_offset %r14, -16
	movq	16(%rdi), %rcx
	cmpq	$4, %rsi
	movl	$3, %ebx
	cmovaeq	%rsi, %rbx
	incq	%rbx
	movq	%rcx, %rdx
	shrq	$62, %rdx
	leaq	(%rcx,%rcx), %rax
	cmpq	%rax, %rbx
	cmovaq	%rbx, %rax
	testq	%rdx, %rdx
	cmoveq	%rax, %rbx
	movq	%rbx, %rdx
	shrq	$60, %rdx
	jne	.LBB15_6
	testq	%rcx, %rcx
	je	.LBB15_8
	movq	%rdi, %r14
	movq	(%rdi), %rdi
	shlq	$3, %rsi
	leaq	(,%rbx,8), %rdx
	movl	$8, %ecx
	callq	nm_host_realloc@PLT
	testb	$1, %al
	je	.LBB15_6
.LBB15_9:
	movq	%rdx, (%r14)
	movq	%rbx, 16(%r14)
	movb	$1, %al
	addq	$8, %rsp
	.cfi_def_cfa_offset 24
	popq	%rbx
	.cfi_def_cfa_offset 16
	popq	%r14
	.cfi_def_cfa_offset 8
	.cfi_restore %rbx
	.cfi_restore %r14
	retq
.LBB15_5:
	xorl	%eax, %eax
	retq
.LBB15_8:
	.cfi_def_cfa_offset 32
	.cfi_offset %rbx, -24
	.cfi_offset %r14, -16
	movq	%rdi, %r14
	shlq	$3, %rax
	movl	$8, %esi
	movq	%rax, %rdi
	callq	nm_host_alloc@PLT
	testb	$1, %al
	jne	.LBB15_9
.LBB15_6:
	xorl	%eax, %eax
	addq	$8, %rsp
	.cfi_def_cfa_offset 24
	popq	%rbx
	.cfi_def_cfa_offset 16
	popq	%r14
	.cfi_def_cfa_offset 8
	.cfi_restore %rbx
	.cfi_restore %r14
	retq
.Lfunc_end15:
	.size	"std_alloc::vec::Vec::grow_amortized::<#89eda37bc510a1b2>", .Lfunc_end15-"std_alloc::vec::Vec::grow_amortized::<#89eda37bc510a1b2>"
	.cfi_endproc
	.section	".text.unlikely.std_alloc::vec::Vec::grow_amortized::<#90d08258613d4490>","ax",@progbits
	.p2align	4
	.type	"std_alloc::vec::Vec::grow_amortized::<#90d08258613d4490>",@function
"std_alloc::vec::Vec::grow_amortized::<#90d08258613d4490>":
	.cfi_startproc
	movq	8(%rdi), %rsi
	cmpq	$-1, %rsi
	je	.LBB16_5
	pushq	%r14
	.cfi_def_cfa_offset 16
	pushq	%rbx
	.cfi_def_cfa_offset 24
	pushq	%rax
	.cfi_def_cfa_offset 32
	.cfi_offset %rbx, -24
	.cfi_offset %r14, -16
	movq	16(%rdi), %rcx
	cmpq	$4, %rsi
	movl	$3, %ebx
	cmovaeq	%rsi, %rbx
	incq	%rbx
	movq	%rcx, %rdx
	shrq	$62, %rdx
	leaq	(%rcx,%rcx), %rax
	cmpq	%rax, %rbx
	cmovaq	%rbx, %rax
	testq	%rdx, %rdx
	cmoveq	%rax, %rbx
	movq	%rbx, %rdx
	shrq	$61, %rdx
	jne	.LBB16_6
	testq	%rcx, %rcx
	je	.LBB16_8
	movq	%rdi, %r14
	movq	(%rdi), %rdi
	shlq	$2, %rsi
	leaq	(,%rbx,4), %rdx
	movl	$4, %ecx
	callq	nm_host_realloc@PLT
	testb	$1, %al
	je	.LBB16_6
.LBB16_9:
	movq	%rdx, (%r14)
	movq	%rbx, 16(%r14)
	movb	$1, %al
	addq	$8, %rsp
	.cfi_def_cfa_offset 24
	popq	%rbx
	.cfi_def_cfa_offset 16
	popq	%r14
	.cfi_def_cfa_offset 8
	.cfi_restore %rbx
	.cfi_restore %r14
	retq
.LBB16_5:
	xorl	%eax, %eax
	retq
.LBB16_8:
	.cfi_def_cfa_offset 32
	.cfi_offset %rbx, -24
	.cfi_offset %r14, -16
	movq	%rdi, %r14
	shlq	$2, %rax
	movl	$4, %esi
	movq	%rax, %rdi
	callq	nm_host_alloc@PLT
	testb	$1, %al
	jne	.LBB16_9
.LBB16_6:
	xorl	%eax, %eax
	addq	$8, %rsp
	.cfi_def_cfa_offset 24
	popq	%rbx
	.cfi_def_cfa_offset 16
	popq	%r14
	.cfi_def_cfa_offset 8
	.cfi_restore %rbx
	.cfi_restore %r14
	retq
.Lfunc_end16:
	.size	"std_alloc::vec::Vec::grow_amortized::<#90d08258613d4490>", .Lfunc_end16-"std_alloc::vec::Vec::grow_amortized::<#90d08258613d4490>"
	.cfi_endproc
	.section	".text.unlikely.nm_set::map_managed::Member+Values::finish_and_get","ax",@progbits
	.p2align	4
	.type	"nm_set::map_managed::Member+Values::finish_and_get",@function
"nm_set::map_managed::Member+Values::finish_and_get":
	.cfi_startproc
	pushq	%r15
	.cfi_def_cfa_offset 16
	pushq	%r14
	.cfi_def_cfa_offset 24
	pushq	%r12
	.cfi_def_cfa_offset 32
	pushq	%rbx
	.cfi_def_cfa_offset 40
	subq	$24, %rsp
	.cfi_def_cfa_offset 64
	.cfi_offset %rbx, -40
	.cfi_offset %r12, -32
	.cfi_offset %r14, -24
	.cfi_offset %r15, -16
	movq	%rdi, %rbx
	xorps	%xmm0, %xmm0
	movaps	%xmm0, (%rsp)
	movq	$0, 16(%rsp)
	cmpb	$2, 104(%rsi)
	jne	.LBB17_2
	leaq	8(%rsi), %rax
	movq	(%rsi), %rdi
	addq	$8, %rdi
	movl	(%rcx), %r8d
	movl	4(%rcx), %r9d
	incq	%r9
	imulq	%r9, %r8
	movl	$4294967295, %r9d
	cmpq	%r9, %r8
	cmovaeq	%r9, %r8
	movq	%rsi, %r14
	movq	%rax, %rsi
	movq	%rdx, %r15
	movl	%r8d, %edx
	movq	%rcx, %r12
	callq	"nm_tree::tree::Tree::finish_pending"
	movq	%r14, %rsi
	movq	%r15, %rdx
	movq	%r12, %rcx
	testb	%al, %al
	je	.LBB17_2
	movw	$1025, (%rbx)
	xorps	%xmm0, %xmm0
	movups	%xmm0, 8(%rbx)
	jmp	.LBB17_4
.LBB17_2:
	movq	%rsp, %rdi
	callq	"nm_set::map_managed::Member+Values::get_again"
	movzbl	(%rsp), %eax
	movb	%al, (%rbx)
	movzbl	1(%rsp), %eax
	movb	%al, 1(%rbx)
	movzbl	8(%rsp), %eax
	movq	%rax, 8(%rbx)
	movq	16(%rsp), %rax
	movq	%rax, 16(%rbx)
.LBB17_4:
	addq	$24, %rsp
	.cfi_def_cfa_offset 40
	popq	%rbx
	.cfi_def_cfa_offset 32
	popq	%r12
	.cfi_def_cfa_offset 24
	popq	%r14
	.cfi_def_cfa_offset 16
	popq	%r15
	.cfi_def_cfa_offset 8
	retq
.Lfunc_end17:
	.size	"nm_set::map_managed::Member+Values::finish_and_get", .Lfunc_end17-"nm_set::map_managed::Member+Values::finish_and_get"
	.cfi_endproc
	.section	".text.unlikely.nm_tree::tree::Tree::finish_pending","ax",@progbits
	.p2align	4
	.type	"nm_tree::tree::Tree::finish_pending",@function
"nm_tree::tree::Tree::finish_pending":
	.cfi_startproc
	pushq	%r14
	.cfi_def_cfa_offset 16
	pushq	%rbx
	.cfi_def_cfa_offset 24
	subq	$56, %rsp
	.cfi_def_cfa_offset 80
	.cfi_offset %rbx, -24
	.cfi_offset %r14, -16
	xorps	%xmm0, %xmm0
	movaps	%xmm0, (%rsp)
	movq	$0, 16(%rsp)
	cmpb	$2, 96(%rsi)
	jne	.LBB18_3
	movl	%edx, %r9d
	movq	120(%rsi), %rax
	movq	%rax, 48(%rsp)
	movups	104(%rsi), %xmm0
	movaps	%xmm0, 32(%rsp)
	movq	88(%rsi), %rax
	movq	128(%rsi), %rdx
	leaq	(%rax,%rax,2), %rcx
	shlq	$5, %rcx
	addq	64(%rsi), %rcx
	leaq	32(%rsp), %r8
	movq	%rdi, %rbx
	movq	%rsi, %r14
	callq	"nm_calls::deleting::remove"
	testb	%al, %al
	je	.LBB18_5
	movb	$1, %al
	movb	$3, %dl
	addq	$56, %rsp
	.cfi_def_cfa_offset 24
	popq	%rbx
	.cfi_def_cfa_offset 16
	popq	%r14
	.cfi_def_cfa_offset 8
	retq
.LBB18_3:
	.cfi_def_cfa_offset 80
	xorl	%edx, %edx
	xorl	%eax, %eax
	addq	$56, %rsp
	.cfi_def_cfa_offset 24
	popq	%rbx
	.cfi_def_cfa_offset 16
	popq	%r14
	.cfi_def_cfa_offset 8
	retq
.LBB18_5:
	.cfi_def_cfa_offset 80
	movq	(%rbx), %rax
	movl	4(%r14), %ecx
	xorl	%edx, %edx
	xchgq	%rdx, (%rax,%rcx,8)
	leaq	104(%r14), %rcx
	xorl	%eax, %eax
	xorps	%xmm0, %xmm0
	movups	%xmm0, 40(%r14)
	movups	%xmm0, 24(%r14)
	movq	$0, 96(%r14)
	movq	16(%rsp), %rdx
	movq	%rdx, 16(%rcx)
	movaps	(%rsp), %xmm0
	movups	%xmm0, (%rcx)
	movb	$1, %dl
	addq	$56, %rsp
	.cfi_def_cfa_offset 24
	popq	%rbx
	.cfi_def_cfa_offset 16
	popq	%r14
	.cfi_def_cfa_offset 8
	retq
.Lfunc_end18:
	.size	"nm_tree::tree::Tree::finish_pending", .Lfunc_end18-"nm_tree::tree::Tree::finish_pending"
	.cfi_endproc
	.section	".text.nm_calls::deleting::remove","ax",@progbits
	.p2align	4
	.type	"nm_calls::deleting::remove",@function
"nm_calls::deleting::remove":
	.cfi_startproc
	pushq	%rbp
	.cfi_def_cfa_offset 16
	pushq	%r15
	.cfi_def_cfa_offset 24
	pushq	%r14
	.cfi_def_cfa_offset 32
	pushq	%r13
	.cfi_def_cfa_offset 40
	pushq	%r12
	.cfi_def_cfa_offset 48
	pushq	%rbx
	.cfi_def_cfa_offset 56
	subq	$104, %rsp
	.cfi_def_cfa_offset 160
	.cfi_offset %rbx, -56
	.cfi_offset %r12, -48
	.cfi_offset %r13, -40
	.cfi_offset %r14, -32
	.cfi_offset %r15, -24
	.cfi_offset %rbp, -16
	movq	%r8, 56(%rsp)
	movq	%rdi, (%rsp)
	movb	$2, %al
	movl	%r9d, 40(%rsp)
	testl	%r9d, %r9d
	je	.LBB19_45
	movq	%rcx, %rbx
	movq	%rdx, %r11
	movq	%rsi, 16(%rsp)
	leaq	528(%rdx), %rax
	movq	%rax, 32(%rsp)
	leaq	1048(%rdx), %rax
	movq	%rax, 64(%rsp)
	xorl	%ebp, %ebp
	movq	%rcx, 48(%rsp)
	movq	%rdx, 8(%rsp)
	jmp	.LBB19_3
	.p2align	4
.LBB19_2:
	movl	44(%rsp), %ebp
	incl	%ebp
	cmpl	40(%rsp), %ebp
	movq	48(%rsp), %rbx
	je	.LBB19_53
.LBB19_3:
	movl	48(%rbx), %eax
	cmpl	$3, %eax
	ja	.LBB19_5
	movl	60(%rbx), %ecx
	addl	24(%rbx), %eax
	shll	$5, %eax
	addl	56(%rbx), %ecx
	subl	%ecx, %eax
	cmpl	$127, %eax
	jbe	.LBB19_15
.LBB19_5:
	movq	56(%rsp), %rax
	movq	(%rax), %r13
	movq	1040(%r11), %rdx
	testq	%rdx, %rdx
	je	.LBB19_7
	shlq	$3, %rdx
	movq	32(%rsp), %rdi
	xorl	%esi, %esi
	callq	memset@PLT
	movq	8(%rsp), %r11
	movq	$0, 1040(%r11)
.LBB19_7:
	movq	(%rsp), %rbx
	movl	64(%rbx), %edx
	movl	80(%rbx), %esi
	movq	(%rbx), %rax
	decl	%edx
	testb	$1, 76(%rbx)
	leal	4(%rsi), %ecx
	movq	8(%rax,%rcx,8), %r15
	movl	$65, %eax
	cmovnel	%eax, %edx
	testl	%edx, %edx
	movl	%ebp, 44(%rsp)
	je	.LBB19_18
	addl	$-4, %esi
	movl	$4, %r12d
	movl	$8, %r8d
	xorl	%ecx, %ecx
	.p2align	4
.LBB19_9:
	movl	%r8d, %r14d
	testb	$3, %r15b
	jne	.LBB19_19
	movq	(%rbx), %rdi
	leal	(%rsi,%r15), %r8d
	movq	(%rdi,%r8,8), %r9
	movq	(%rbx), %rdi
	movq	8(%rdi,%r8,8), %r10
	movq	(%rbx), %rdi
	movq	16(%rdi,%r8,8), %rdi
	cmpq	%r9, %r13
	cmovbq	%r10, %rdi
	testq	%rdi, %rdi
	je	.LBB19_31
	xorl	%r8d, %r8d
	cmpq	%r9, %r13
	setae	%r8b
	orl	%r15d, %r8d
	incl	%ecx
	movq	%rdi, %r15
	movl	%r14d, %r12d
	cmpl	%ecx, %edx
	jne	.LBB19_9
	movq	%r13, 24(%rsp)
	movl	%r14d, %r12d
	movl	%r8d, %r14d
	movq	%rdi, %r15
	movl	%edx, %ecx
	jmp	.LBB19_20
	.p2align	4
.LBB19_13:
	movq	40(%rbx), %rax
	movq	$0, (%rdx)
	movq	%rdx, (%rax)
.LBB19_14:
	movq	8(%rsp), %r11
	movq	%rdx, 40(%rbx)
	movl	48(%rbx), %eax
	movl	60(%rbx), %ecx
	incl	%eax
	movl	%eax, 48(%rbx)
	addl	24(%rbx), %eax
	shll	$5, %eax
	addl	56(%rbx), %ecx
	subl	%ecx, %eax
	cmpl	$128, %eax
	jae	.LBB19_5
.LBB19_15:
	movl	$776, %edi
	movl	$8, %esi
	callq	nm_host_alloc@PLT
	testb	$1, %al
	je	.LBB19_44
	cmpl	$0, 48(%rbx)
	jne	.LBB19_13
	movq	$0, (%rdx)
	movq	%rdx, 32(%rbx)
	jmp	.LBB19_14
	.p2align	4
.LBB19_18:
	movq	%r13, 24(%rsp)
	xorl	%ecx, %ecx
	movl	$8, %r14d
	movl	$4, %r12d
	jmp	.LBB19_20
.LBB19_19:
	movq	%r13, 24(%rsp)
.LBB19_20:
	movl	64(%rbx), %ebp
	decl	%ebp
	testb	$1, 76(%rbx)
	cmovnel	%eax, %ebp
	subl	%ecx, %ebp
	jbe	.LBB19_2
	movq	(%rsp), %rax
	movl	80(%rax), %eax
	movl	%r12d, %r8d
	shrl	$2, %r8d
	andb	$1, %r12b
	movl	%r14d, %r13d
	shrl	$2, %r13d
	andb	$1, %r14b
	addl	$-4, %eax
	movq	%rax, 72(%rsp)
	movl	%r14d, %ebx
	movl	%r13d, %r9d
	jmp	.LBB19_26
	.p2align	4
.LBB19_24:
	movl	%r13d, %r9d
	movl	%r14d, %r12d
	movl	%ecx, %r8d
	decl	%ebp
	jne	.LBB19_26
	jmp	.LBB19_2
	.p2align	4
.LBB19_22:
	testq	%rdx, %rdx
	je	.LBB19_24
	shlq	$3, %rdx
	movq	32(%rsp), %rdi
	xorl	%esi, %esi
	movq	%rcx, %r12
	callq	memset@PLT
	movq	%r12, %rcx
	movq	8(%rsp), %r11
	movq	$0, 1040(%r11)
	jmp	.LBB19_24
	.p2align	4
.LBB19_26:
	movl	%r13d, %ecx
	movl	%ebx, %r14d
	movq	%r15, %rax
	movq	%r15, %r13
	shrq	$2, %r13
	movq	(%rsp), %rdi
	movq	(%rdi), %rsi
	movq	72(%rsp), %rdx
	leal	(%rdx,%r13,4), %edx
	movq	(%rsi,%rdx,8), %r10
	movq	(%rdi), %rsi
	movq	8(%rsi,%rdx,8), %rsi
	movq	(%rdi), %rdi
	movq	16(%rdi,%rdx,8), %r15
	cmpq	%r10, 24(%rsp)
	setae	%bl
	cmovbq	%rsi, %r15
	testq	%r15, %r15
	je	.LBB19_32
	movq	1040(%r11), %rdx
	testb	$2, %al
	je	.LBB19_22
	leaq	1(%rdx), %rax
	cmpq	$63, %rax
	ja	.LBB19_2
	movzbl	%r14b, %edi
	shlq	$32, %rdi
	movl	%ecx, %esi
	orq	%rdi, %rsi
	movq	%rsi, 528(%r11,%rdx,8)
	movq	%rax, 1040(%r11)
	movl	%r12d, %r14d
	movl	%r8d, %ecx
	movl	%r14d, %r12d
	movl	%ecx, %r8d
	decl	%ebp
	jne	.LBB19_26
	jmp	.LBB19_2
.LBB19_31:
	movl	%r14d, %r9d
	shrl	$2, %r9d
	movl	%r12d, %r8d
	shrl	$2, %r8d
	andb	$1, %r12b
	andb	$1, %r14b
	shrq	$2, %r15
	movl	%r15d, %r13d
	movl	%r9d, %ecx
	movq	56(%rsp), %rax
	cmpl	%r13d, 8(%rax)
	leaq	1048(%r11), %rdi
	je	.LBB19_33
	jmp	.LBB19_55
.LBB19_32:
	movq	(%rsp), %rbx
	movq	56(%rsp), %rax
	cmpl	%r13d, 8(%rax)
	leaq	1048(%r11), %rdi
	jne	.LBB19_55
.LBB19_33:
	movq	1040(%r11), %r10
	movq	3096(%r11), %rdx
	testq	%rdx, %rdx
	je	.LBB19_35
	shlq	$4, %rdx
	xorl	%esi, %esi
	movq	%r8, %r15
	movl	%r9d, %ebp
	movq	%rcx, %r13
	movq	%r10, 24(%rsp)
	callq	memset@PLT
	movq	24(%rsp), %r10
	movq	%r13, %rcx
	movl	%ebp, %r9d
	movq	%r15, %r8
	movq	8(%rsp), %r11
	movq	$0, 3096(%r11)
.LBB19_35:
	movl	80(%rbx), %eax
	xorl	%edi, %edi
	testb	%r14b, %r14b
	sete	%dil
	movq	(%rbx), %rdx
	leal	(%rax,%rcx,4), %eax
	addl	$-4, %eax
	movq	%rax, %rsi
	subq	%rdi, %rsi
	movq	16(%rdx,%rsi,8), %rdx
	movq	(%rbx), %rsi
	addq	%rax, %rdi
	movq	8(%rsi,%rdi,8), %rax
	testb	$1, %dl
	jne	.LBB19_37
	testb	$1, %al
	je	.LBB19_2
	jmp	.LBB19_38
.LBB19_37:
	testb	%r14b, %r14b
	sete	%r14b
.LBB19_38:
	movl	%r9d, %ebp
	movq	%r8, %r13
	leal	(,%rcx,4), %edi
	movq	(%rsp), %rbx
	movq	(%rbx), %rdx
	addl	80(%rbx), %edi
	cmpb	$1, %r14b
	sbbl	$0, %edi
	addl	$-2, %edi
	.p2align	4
.LBB19_39:
	movq	(%rdx,%rdi,8), %r15
	movq	%r15, %rsi
	orq	$2, %rsi
	movq	%r15, %rax
	lock		cmpxchgq	%rsi, (%rdx,%rdi,8)
	jne	.LBB19_39
	movzbl	%r14b, %r8d
	movq	%rbx, %rdi
	movq	32(%rsp), %rsi
	movq	%r10, %rdx
	leaq	1048(%r11), %r9
	callq	"nm_walks::cutting::freeze"
	movq	8(%rsp), %r11
	shll	$2, %r13d
	addl	80(%rbx), %r13d
	cmpb	$1, %r12b
	sbbl	$0, %r13d
	addl	$-2, %r13d
	movl	%ebp, %eax
	shlq	$2, %rax
	andq	$-3, %r15
	movq	(%rbx), %rcx
	lock		cmpxchgq	%r15, (%rcx,%r13,8)
	jne	.LBB19_2
	movq	16(%rsp), %rcx
	movb	$1, 56(%rcx)
	movq	(%rsp), %rax
	movq	(%rax), %rax
	movq	(%rax), %rax
	testb	$1, 56(%rcx)
	je	.LBB19_56
	movq	$1, 8(%rcx)
	movq	%rax, 16(%rcx)
	movb	$0, 56(%rcx)
	movq	3096(%r11), %rcx
	testq	%rcx, %rcx
	movq	48(%rsp), %r9
	movq	64(%rsp), %r10
	je	.LBB19_54
	movl	60(%r9), %edx
	jmp	.LBB19_48
.LBB19_44:
	movb	$1, %al
.LBB19_45:
	addq	$104, %rsp
	.cfi_def_cfa_offset 56
	popq	%rbx
	.cfi_def_cfa_offset 48
	popq	%r12
	.cfi_def_cfa_offset 40
	popq	%r13
	.cfi_def_cfa_offset 32
	popq	%r14
	.cfi_def_cfa_offset 24
	popq	%r15
	.cfi_def_cfa_offset 16
	popq	%rbp
	.cfi_def_cfa_offset 8
	retq
	.p2align	4
.LBB19_46:
	.cfi_def_cfa_offset 160
	movq	16(%r9), %rsi
.LBB19_47:
	addq	$16, %r10
	decq	%rcx
	subl	%edi, %edx
	addl	$32, %edx
	leaq	(%rdx,%rdx,2), %rdx
	movaps	80(%rsp), %xmm0
	movups	%xmm0, 8(%rsi,%rdx,8)
	movq	%rax, 24(%rsi,%rdx,8)
	movl	60(%r9), %edx
	incl	%edx
	movl	%edx, 60(%r9)
	testq	%rcx, %rcx
	je	.LBB19_54
.LBB19_48:
	movups	(%r10), %xmm0
	movaps	%xmm0, 80(%rsp)
	addl	56(%r9), %edx
	movl	24(%r9), %r8d
	movl	%r8d, %edi
	shll	$5, %edi
	cmpl	%edi, %edx
	jne	.LBB19_46
	movq	32(%r9), %rsi
	movq	(%rsi), %rdi
	movq	%rdi, 32(%r9)
	decl	48(%r9)
	testl	%r8d, %r8d
	je	.LBB19_51
	movq	16(%r9), %rdi
	movq	$0, (%rsi)
	movq	%rsi, (%rdi)
	jmp	.LBB19_52
.LBB19_51:
	movq	$0, (%rsi)
	movq	%rsi, 8(%r9)
.LBB19_52:
	movq	%rsi, 16(%r9)
	movl	24(%r9), %edi
	incl	%edi
	movl	%edi, 24(%r9)
	shll	$5, %edi
	jmp	.LBB19_47
.LBB19_53:
	movb	$2, %al
	jmp	.LBB19_45
.LBB19_54:
	movq	80(%r9), %rax
	incq	%rax
	movq	$-1, %rcx
	cmovneq	%rax, %rcx
	movq	%rcx, 80(%r9)
.LBB19_55:
	xorl	%eax, %eax
	jmp	.LBB19_45
.LBB19_56:
	cmpb	$0, 40(%rcx)
	jne	.LBB19_61
	movq	16(%rsp), %rcx
	cmpb	$1, 24(%rcx)
	jne	.LBB19_61
	movq	16(%rsp), %rcx
	cmpq	%rax, 32(%rcx)
	movq	$1, 8(%rcx)
	movq	%rax, 16(%rcx)
	jne	.LBB19_60
	movq	16(%rsp), %rcx
	movq	$1, 40(%rcx)
	movq	%rax, 48(%rcx)
.LBB19_60:
	ud2
.LBB19_61:
	movq	16(%rsp), %rcx
	movq	$1, 8(%rcx)
	movq	%rax, 16(%rcx)
	ud2
.Lfunc_end19:
	.size	"nm_calls::deleting::remove", .Lfunc_end19-"nm_calls::deleting::remove"
	.cfi_endproc
	.section	".text.nm_walks::cutting::freeze","ax",@progbits
	.p2align	4
	.type	"nm_walks::cutting::freeze",@function
"nm_walks::cutting::freeze":
	.cfi_startproc
	pushq	%r15
	.cfi_def_cfa_offset 16
	pushq	%r14
	.cfi_def_cfa_offset 24
	pushq	%r12
	.cfi_def_cfa_offset 32
	pushq	%rbx
	.cfi_def_cfa_offset 40
	.cfi_offset %rbx, -40
	.cfi_offset %r12, -32
	.cfi_offset %r14, -24
	.cfi_offset %r15, -16
	testq	%rdx, %rdx
	je	.LBB20_3
	xorl	%eax, %eax
	.p2align	4
.LBB20_2:
	movl	(%rsi,%rax,8), %r10d
	movl	80(%rdi), %r11d
	movq	(%rdi), %rbx
	cmpb	$1, 4(%rsi,%rax,8)
	leal	-4(%r11,%r10,4), %r11d
	adcq	$0, %r11
	movq	8(%rbx,%r11,8), %r11
	shrq	$2, %r11
	movq	(%rdi), %rbx
	movl	80(%rdi), %r14d
	leal	(%r14,%r10,4), %r14d
	decl	%r14d
	movq	(%rbx,%r14,8), %rbx
	movq	(%rdi), %r14
	movl	80(%rdi), %r15d
	leal	-1(%r15,%r11,4), %r15d
	movq	(%r14,%r15,8), %r14
	movq	2048(%r9), %r15
	movq	%r15, %r12
	shlq	$4, %r12
	movl	%r10d, (%r9,%r12)
	movl	$0, 4(%r9,%r12)
	movq	%rbx, 8(%r9,%r12)
	movl	%r11d, 16(%r9,%r12)
	movl	$0, 20(%r9,%r12)
	movq	%r14, 24(%r9,%r12)
	addq	$2, %r15
	movq	%r15, 2048(%r9)
	incq	%rax
	cmpq	%rax, %rdx
	jne	.LBB20_2
.LBB20_3:
	movl	80(%rdi), %eax
	leal	(%rax,%rcx,4), %eax
	addl	$-4, %eax
	cmpb	$1, %r8b
	adcq	$0, %rax
	movq	(%rdi), %rdx
	movq	8(%rdx,%rax,8), %rax
	shrq	$2, %rax
	movq	(%rdi), %rdx
	movl	80(%rdi), %esi
	leal	(%rsi,%rcx,4), %esi
	decl	%esi
	movq	(%rdx,%rsi,8), %rdx
	movq	(%rdi), %rsi
	movl	80(%rdi), %edi
	leal	-1(%rdi,%rax,4), %edi
	movq	(%rsi,%rdi,8), %rsi
	movq	2048(%r9), %rdi
	movq	%rdi, %r8
	shlq	$4, %r8
	movl	%ecx, (%r9,%r8)
	movl	$0, 4(%r9,%r8)
	movq	%rdx, 8(%r9,%r8)
	movl	%eax, 16(%r9,%r8)
	movl	$0, 20(%r9,%r8)
	movq	%rsi, 24(%r9,%r8)
	addq	$2, %rdi
	movq	%rdi, 2048(%r9)
	popq	%rbx
	.cfi_def_cfa_offset 32
	popq	%r12
	.cfi_def_cfa_offset 24
	popq	%r14
	.cfi_def_cfa_offset 16
	popq	%r15
	.cfi_def_cfa_offset 8
	retq
.Lfunc_end20:
	.size	"nm_walks::cutting::freeze", .Lfunc_end20-"nm_walks::cutting::freeze"
	.cfi_endproc
	.section	".text.nm_walks::labelling::label","ax",@progbits
	.p2align	4
	.type	"nm_walks::labelling::label",@function
"nm_walks::labelling::label":
	.cfi_startproc
	movq	(%rdi), %rax
	testb	$1, 56(%rsi)
	je	.LBB21_1
	movq	$1, 8(%rsi)
	movq	%rax, 16(%rsi)
	movb	$0, 56(%rsi)
	retq
.LBB21_1:
	cmpb	$0, 40(%rsi)
	jne	.LBB21_3
	cmpb	$1, 24(%rsi)
	jne	.LBB21_3
	cmpq	%rax, 32(%rsi)
	movq	$1, 8(%rsi)
	movq	%rax, 16(%rsi)
	jne	.LBB21_6
	movq	$1, 40(%rsi)
	movq	%rax, 48(%rsi)
.LBB21_6:
	ud2
.LBB21_3:
	movq	$1, 8(%rsi)
	movq	%rax, 16(%rsi)
	ud2
.Lfunc_end21:
	.size	"nm_walks::labelling::label", .Lfunc_end21-"nm_walks::labelling::label"
	.cfi_endproc
	.section	".text.nm_walks::cleaning::push_labelled","ax",@progbits
	.p2align	4
	.type	"nm_walks::cleaning::push_labelled",@function
"nm_walks::cleaning::push_labelled":
	.cfi_startproc
	testq	%rdx, %rdx
	je	.LBB22_9
	movl	52(%rdi), %eax
	jmp	.LBB22_2
	.p2align	4
.LBB22_3:
	movq	8(%rdi), %r8
.LBB22_8:
	addq	$16, %rsi
	decq	%rdx
	subl	%r9d, %eax
	addl	$32, %eax
	leaq	(%rax,%rax,2), %rax
	movaps	-24(%rsp), %xmm0
	movups	%xmm0, 8(%r8,%rax,8)
	movq	%rcx, 24(%r8,%rax,8)
	movl	52(%rdi), %eax
	incl	%eax
	movl	%eax, 52(%rdi)
	testq	%rdx, %rdx
	je	.LBB22_9
.LBB22_2:
	movups	(%rsi), %xmm0
	movaps	%xmm0, -24(%rsp)
	addl	48(%rdi), %eax
	movl	16(%rdi), %r10d
	movl	%r10d, %r9d
	shll	$5, %r9d
	cmpl	%r9d, %eax
	jne	.LBB22_3
	movq	24(%rdi), %r8
	movq	(%r8), %r9
	movq	%r9, 24(%rdi)
	decl	40(%rdi)
	testl	%r10d, %r10d
	je	.LBB22_5
	movq	8(%rdi), %r9
	movq	$0, (%r8)
	movq	%r8, (%r9)
	jmp	.LBB22_7
.LBB22_5:
	movq	$0, (%r8)
	movq	%r8, (%rdi)
.LBB22_7:
	movq	%r8, 8(%rdi)
	movl	16(%rdi), %r9d
	incl	%r9d
	movl	%r9d, 16(%rdi)
	shll	$5, %r9d
	jmp	.LBB22_8
.LBB22_9:
	retq
.Lfunc_end22:
	.size	"nm_walks::cleaning::push_labelled", .Lfunc_end22-"nm_walks::cleaning::push_labelled"
	.cfi_endproc
	.section	".text.unlikely.nm_set::map_managed::Member+Values::get_again","ax",@progbits
	.p2align	4
	.type	"nm_set::map_managed::Member+Values::get_again",@function
"nm_set::map_managed::Member+Values::get_again":
	.cfi_startproc
	pushq	%rbp
	.cfi_def_cfa_offset 16
	pushq	%r15
	.cfi_def_cfa_offset 24
	pushq	%r14
	.cfi_def_cfa_offset 32
	pushq	%r12
	.cfi_def_cfa_offset 40
	pushq	%rbx
	.cfi_def_cfa_offset 48
	subq	$64, %rsp
	.cfi_def_cfa_offset 112
	.cfi_offset %rbx, -48
	.cfi_offset %r12, -40
	.cfi_offset %r14, -32
	.cfi_offset %r15, -24
	.cfi_offset %rbp, -16
	movq	%rcx, %r12
	movq	%rdx, %r14
	movq	%rsi, %r15
	movq	%rdi, %rbx
	xorps	%xmm0, %xmm0
	movaps	%xmm0, 32(%rsp)
	movq	$0, 48(%rsp)
	movaps	%xmm0, (%rsp)
	movq	$0, 16(%rsp)
	movl	4(%rcx), %ebp
	testl	%ebp, %ebp
	je	.LBB23_1
.LBB23_3:
	movl	(%r12), %ecx
	movq	%rsp, %rdi
	movq	%r15, %rsi
	movq	%r14, %rdx
	callq	"nm_set::map_managed::Member+Values::get_apart"
	movzbl	(%rsp), %eax
	movzbl	1(%rsp), %ecx
	movl	%eax, %edx
	xorb	$1, %dl
	orb	%cl, %dl
	jne	.LBB23_4
	decl	%ebp
	jne	.LBB23_3
.LBB23_1:
	movl	(%r12), %ecx
	leaq	32(%rsp), %rdi
	movq	%r15, %rsi
	movq	%r14, %rdx
	callq	"nm_set::map_managed::Member+Values::get_apart"
	movzbl	32(%rsp), %eax
	movb	%al, (%rbx)
	movzbl	33(%rsp), %eax
	movb	%al, 1(%rbx)
	movzbl	40(%rsp), %eax
	movq	%rax, 8(%rbx)
	movq	48(%rsp), %rax
	movq	%rax, 16(%rbx)
	jmp	.LBB23_5
.LBB23_4:
	movq	16(%rsp), %rdx
	movzbl	8(%rsp), %esi
	movb	%al, (%rbx)
	movb	%cl, 1(%rbx)
	movq	%rsi, 8(%rbx)
	movq	%rdx, 16(%rbx)
.LBB23_5:
	addq	$64, %rsp
	.cfi_def_cfa_offset 48
	popq	%rbx
	.cfi_def_cfa_offset 40
	popq	%r12
	.cfi_def_cfa_offset 32
	popq	%r14
	.cfi_def_cfa_offset 24
	popq	%r15
	.cfi_def_cfa_offset 16
	popq	%rbp
	.cfi_def_cfa_offset 8
	retq
.Lfunc_end23:
	.size	"nm_set::map_managed::Member+Values::get_again", .Lfunc_end23-"nm_set::map_managed::Member+Values::get_again"
	.cfi_endproc
	.section	".text.unlikely.nm_set::map_managed::Member+Values::get_apart","ax",@progbits
	.p2align	4
	.type	"nm_set::map_managed::Member+Values::get_apart",@function
"nm_set::map_managed::Member+Values::get_apart":
	.cfi_startproc
	pushq	%r15
	.cfi_def_cfa_offset 16
	pushq	%r14
	.cfi_def_cfa_offset 24
	pushq	%r12
	.cfi_def_cfa_offset 32
	pushq	%rbx
	.cfi_def_cfa_offset 40
	.cfi_offset %rbx, -40
	.cfi_offset %r12, -32
	.cfi_offset %r14, -24
	.cfi_offset %r15, -16
	movzbl	104(%rsi), %r8d
	movb	$1, %al
	cmpb	$1, %r8b
	jne	.LBB24_2
	movb	$5, %dl
	jmp	.LBB24_22
.LBB24_2:
	cmpb	$2, %r8b
	jne	.LBB24_4
	movb	$4, %dl
	jmp	.LBB24_22
.LBB24_4:
	testl	%ecx, %ecx
	je	.LBB24_5
	movq	(%rsi), %r9
	movq	8(%r9), %r8
	movq	(%r8), %r10
	movq	$1, 16(%rsi)
	movq	%r10, 24(%rsi)
	leaq	32(%rsi), %r8
	.p2align	4
.LBB24_8:
	movl	12(%rsi), %r11d
	leaq	1(%r10), %rbx
	movq	8(%r9), %r14
	xchgq	%rbx, (%r14,%r11,8)
	movq	$1, 32(%rsi)
	movq	%r10, 40(%rsi)
	movq	8(%r9), %r10
	movq	(%r10), %r10
	testb	$1, 64(%rsi)
	jne	.LBB24_24
	cmpb	$0, 48(%rsi)
	jne	.LBB24_25
	cmpb	$1, 32(%rsi)
	jne	.LBB24_25
	cmpq	%r10, 40(%rsi)
	movq	$1, 16(%rsi)
	movq	%r10, 24(%rsi)
	je	.LBB24_12
	decl	%ecx
	jne	.LBB24_8
	movq	8(%r9), %rcx
	movl	12(%rsi), %edx
	xorl	%esi, %esi
	xchgq	%rsi, (%rcx,%rdx,8)
	xorl	%edx, %edx
	xorps	%xmm0, %xmm0
	movups	%xmm0, 16(%r8)
	movups	%xmm0, (%r8)
	jmp	.LBB24_22
.LBB24_5:
	xorl	%edx, %edx
.LBB24_22:
	xorl	%ecx, %ecx
	xorl	%r10d, %r10d
.LBB24_23:
	movb	%al, (%rdi)
	movb	%dl, 1(%rdi)
	movq	%rcx, 8(%rdi)
	movq	%r10, 16(%rdi)
	popq	%rbx
	.cfi_def_cfa_offset 32
	popq	%r12
	.cfi_def_cfa_offset 24
	popq	%r14
	.cfi_def_cfa_offset 16
	popq	%r15
	.cfi_def_cfa_offset 8
	retq
.LBB24_12:
	.cfi_def_cfa_offset 40
	movq	$1, 48(%rsi)
	movq	%r10, 56(%rsi)
	movl	72(%r9), %eax
	movl	88(%r9), %ecx
	movq	8(%r9), %r10
	leal	4(%rcx), %r11d
	decl	%eax
	testb	$1, 84(%r9)
	movq	8(%r10,%r11,8), %rbx
	movl	$65, %r11d
	cmovel	%eax, %r11d
	movb	$1, %al
	testl	%r11d, %r11d
	je	.LBB24_13
	addl	$-4, %ecx
	.p2align	4
.LBB24_16:
	movq	%rbx, %r10
	shrq	$2, %r10
	movq	8(%r9), %rbx
	leal	(%rcx,%r10,4), %r15d
	movq	(%rbx,%r15,8), %r14
	movq	8(%r9), %rbx
	movq	8(%rbx,%r15,8), %r12
	movq	8(%r9), %rbx
	movq	16(%rbx,%r15,8), %rbx
	cmpq	%r14, %rdx
	cmovbq	%r12, %rbx
	testq	%rbx, %rbx
	je	.LBB24_17
	decl	%r11d
	jne	.LBB24_16
	jmp	.LBB24_13
.LBB24_17:
	cmpq	%rdx, %r14
	jne	.LBB24_18
	movl	72(%r9), %eax
	leal	(,%rax,4), %ecx
	movl	%eax, %edx
	shrl	$6, %edx
	andl	$63, %eax
	addl	88(%r9), %ecx
	addl	%edx, %ecx
	cmpl	$1, %eax
	sbbl	$-1, %ecx
	decl	%r10d
	addq	%rcx, %r10
	movq	8(%r9), %rax
	movq	(%rax,%r10,8), %r10
	movl	$1, %ecx
	xorl	%eax, %eax
	jmp	.LBB24_20
.LBB24_18:
	xorl	%eax, %eax
.LBB24_13:
	xorl	%ecx, %ecx
	xorl	%r10d, %r10d
.LBB24_20:
	movq	8(%r9), %r9
	movl	12(%rsi), %esi
	xorl	%edx, %edx
	xorl	%r11d, %r11d
	xchgq	%r11, (%r9,%rsi,8)
	xorps	%xmm0, %xmm0
	movups	%xmm0, 16(%r8)
	movups	%xmm0, (%r8)
	jmp	.LBB24_23
.LBB24_24:
	movq	$1, 16(%rsi)
	movq	%r10, 24(%rsi)
	movb	$0, 64(%rsi)
	ud2
.LBB24_25:
	movq	$1, 16(%rsi)
	movq	%r10, 24(%rsi)
	ud2
.Lfunc_end24:
	.size	"nm_set::map_managed::Member+Values::get_apart", .Lfunc_end24-"nm_set::map_managed::Member+Values::get_apart"
	.cfi_endproc
	.section	".text.unlikely.nm_set::member::Member::ask::<#de9872852a7d50e8>","ax",@progbits
	.p2align	4
	.type	"nm_set::member::Member::ask::<#de9872852a7d50e8>",@function
"nm_set::member::Member::ask::<#de9872852a7d50e8>":
	.cfi_startproc
	pushq	%r14
	.cfi_def_cfa_offset 16
	pushq	%rbx
	.cfi_def_cfa_offset 24
	pushq	%rax
	.cfi_def_cfa_offset 32
	.cfi_offset %rbx, -24
	.cfi_offset %r14, -16
	movq	%rdi, %rbx
	movq	(%rdi), %rdi
	addq	$8, %rdi
	cmpb	$2, %sil
	jne	.LBB25_1
	addq	$8, %rbx
	movq	%rbx, %rsi
	movq	%r8, %rcx
	movl	%r9d, %r8d
	addq	$8, %rsp
	.cfi_def_cfa_offset 24
	popq	%rbx
	.cfi_def_cfa_offset 16
	popq	%r14
	.cfi_def_cfa_offset 8
	jmp	"nm_tree::tree::Tree::delete_with_value"
.LBB25_1:
	.cfi_def_cfa_offset 32
	cmpb	$2, 104(%rbx)
	jne	.LBB25_3
	movb	$1, %al
	movb	$4, %dl
	addq	$8, %rsp
	.cfi_def_cfa_offset 24
	popq	%rbx
	.cfi_def_cfa_offset 16
	popq	%r14
	.cfi_def_cfa_offset 8
	retq
.LBB25_3:
	.cfi_def_cfa_offset 32
	leaq	8(%rbx), %rsi
	movq	96(%rbx), %r10
	movq	136(%rbx), %rax
	leaq	(%r10,%r10,2), %r10
	shlq	$5, %r10
	addq	72(%rbx), %r10
	movl	%r9d, (%rsp)
	movq	%rdx, %r11
	movq	%rax, %rdx
	movq	%rcx, %r9
	movq	%r10, %rcx
	movq	%r8, %r14
	movq	%r11, %r8
	callq	"nm_calls::inserting::insert"
	movq	136(%rbx), %rcx
	movq	3104(%rcx), %rcx
	movq	%rcx, (%r14)
	addq	$8, %rsp
	.cfi_def_cfa_offset 24
	popq	%rbx
	.cfi_def_cfa_offset 16
	popq	%r14
	.cfi_def_cfa_offset 8
	retq
.Lfunc_end25:
	.size	"nm_set::member::Member::ask::<#de9872852a7d50e8>", .Lfunc_end25-"nm_set::member::Member::ask::<#de9872852a7d50e8>"
	.cfi_endproc
	.section	".text.nm_calls::inserting::insert","ax",@progbits
	.p2align	4
	.type	"nm_calls::inserting::insert",@function
"nm_calls::inserting::insert":
	.cfi_startproc
	pushq	%rbp
	.cfi_def_cfa_offset 16
	pushq	%r15
	.cfi_def_cfa_offset 24
	pushq	%r14
	.cfi_def_cfa_offset 32
	pushq	%r13
	.cfi_def_cfa_offset 40
	pushq	%r12
	.cfi_def_cfa_offset 48
	pushq	%rbx
	.cfi_def_cfa_offset 56
	subq	$264, %rsp
	.cfi_def_cfa_offset 320
	.cfi_offset %rbx, -56
	.cfi_offset %r12, -48
	.cfi_offset %r13, -40
	.cfi_offset %r14, -32
	.cfi_offset %r15, -24
	.cfi_offset %rbp, -16
	movq	%r9, 256(%rsp)
	movb	$1, %al
	cmpl	$0, 320(%rsp)
	je	.LBB26_13
	movq	%r8, %r13
	movq	%rcx, %r12
	movq	%rdx, %r8
	movq	%rsi, %rbx
	movq	%rdi, %r14
	movl	48(%rcx), %eax
	cmpl	$3, %eax
	movq	%rdx, 56(%rsp)
	ja	.LBB26_3
	movl	60(%r12), %ecx
	addl	24(%r12), %eax
	shll	$5, %eax
	addl	56(%r12), %ecx
	subl	%ecx, %eax
	cmpl	$127, %eax
	jbe	.LBB26_10
.LBB26_3:
	movq	(%r14), %rax
	movq	(%rax), %rax
	movq	$1, 8(%rbx)
	movq	%rax, 16(%rbx)
	leaq	24(%rbx), %rcx
	movq	%rcx, 112(%rsp)
	movl	320(%rsp), %ecx
	.p2align	4
.LBB26_4:
	movl	4(%rbx), %edx
	leaq	1(%rax), %rsi
	movq	(%r14), %rdi
	xchgq	%rsi, (%rdi,%rdx,8)
	movq	$1, 24(%rbx)
	movq	%rax, 32(%rbx)
	movq	(%r14), %rdx
	movq	(%rdx), %rdx
	movq	$1, 8(%rbx)
	movq	%rdx, 16(%rbx)
	cmpq	%rax, %rdx
	je	.LBB26_14
	movq	%rdx, %rax
	decl	%ecx
	jne	.LBB26_4
	movq	(%r14), %rax
	movl	4(%rbx), %ecx
	xorl	%edx, %edx
	xorl	%esi, %esi
	xchgq	%rsi, (%rax,%rcx,8)
.LBB26_7:
	xorps	%xmm0, %xmm0
	movq	112(%rsp), %rax
	movups	%xmm0, 16(%rax)
	movups	%xmm0, (%rax)
	jmp	.LBB26_120
	.p2align	4
.LBB26_8:
	movq	40(%r12), %rax
	movq	$0, (%rdx)
	movq	%rdx, (%rax)
.LBB26_9:
	movq	56(%rsp), %r8
	movq	%rdx, 40(%r12)
	movl	48(%r12), %eax
	movl	60(%r12), %ecx
	incl	%eax
	movl	%eax, 48(%r12)
	addl	24(%r12), %eax
	shll	$5, %eax
	addl	56(%r12), %ecx
	subl	%ecx, %eax
	cmpl	$128, %eax
	jae	.LBB26_3
.LBB26_10:
	movl	$776, %edi
	movl	$8, %esi
	callq	nm_host_alloc@PLT
	testb	$1, %al
	je	.LBB26_119
	cmpl	$0, 48(%r12)
	jne	.LBB26_8
	movq	$0, (%rdx)
	movq	%rdx, 32(%r12)
	jmp	.LBB26_9
.LBB26_13:
	xorl	%edx, %edx
	jmp	.LBB26_121
.LBB26_14:
	movq	$1, 40(%rbx)
	movq	%rax, 48(%rbx)
	leaq	528(%r8), %rax
	movq	%rax, 136(%rsp)
	leaq	1048(%r8), %rax
	movq	%rax, 192(%rsp)
	movq	$0, 96(%rsp)
	xorl	%r15d, %r15d
	movq	$0, 104(%rsp)
	movl	$0, 68(%rsp)
	movq	%rbx, 72(%rsp)
	movq	%r14, 80(%rsp)
	movq	%r12, 120(%rsp)
	movq	%r13, 88(%rsp)
	.p2align	4
.LBB26_18:
	testl	%r15d, %r15d
	je	.LBB26_21
	movl	48(%r12), %eax
	cmpl	$3, %eax
	ja	.LBB26_21
	movl	60(%r12), %ecx
	addl	24(%r12), %eax
	shll	$5, %eax
	addl	56(%r12), %ecx
	subl	%ecx, %eax
	cmpl	$127, %eax
	jbe	.LBB26_26
	.p2align	4
.LBB26_21:
	xorps	%xmm0, %xmm0
	movaps	%xmm0, 208(%rsp)
	movaps	%xmm0, 224(%rsp)
	movq	$0, 240(%rsp)
	movw	$0, 52(%rsp)
	movb	$0, 54(%rsp)
	movl	$0, 128(%rsp)
	movl	$0, 131(%rsp)
	movw	$0, 12(%rsp)
	movb	$0, 14(%rsp)
	movl	$0, 28(%rsp)
	movl	$0, 31(%rsp)
	testb	$1, 76(%r14)
	movl	%r15d, 64(%rsp)
	je	.LBB26_29
	movw	$0, 24(%rsp)
	movb	$0, 26(%rsp)
	movl	$0, 144(%rsp)
	movl	$0, 147(%rsp)
	movw	$0, 20(%rsp)
	movb	$0, 22(%rsp)
	movl	$0, 44(%rsp)
	movl	$0, 47(%rsp)
	movw	$0, 16(%rsp)
	movb	$0, 18(%rsp)
	movl	$0, 36(%rsp)
	movl	$0, 39(%rsp)
	movq	56(%rsp), %r11
	movq	1040(%r11), %rdx
	testq	%rdx, %rdx
	je	.LBB26_31
	shlq	$3, %rdx
	movq	136(%rsp), %rdi
	xorl	%esi, %esi
	callq	memset@PLT
	movq	56(%rsp), %r11
	movq	$0, 1040(%r11)
	movzbl	76(%r14), %eax
	jmp	.LBB26_32
	.p2align	4
.LBB26_24:
	movq	40(%r12), %rax
	movq	$0, (%rdx)
	movq	%rdx, (%rax)
.LBB26_25:
	movq	%rdx, 40(%r12)
	movl	48(%r12), %eax
	movl	60(%r12), %ecx
	incl	%eax
	movl	%eax, 48(%r12)
	addl	24(%r12), %eax
	shll	$5, %eax
	addl	56(%r12), %ecx
	subl	%ecx, %eax
	cmpl	$128, %eax
	jae	.LBB26_21
.LBB26_26:
	movl	$776, %edi
	movl	$8, %esi
	callq	nm_host_alloc@PLT
	testb	$1, %al
	je	.LBB26_110
	cmpl	$0, 48(%r12)
	jne	.LBB26_24
	movq	$0, (%rdx)
	movq	%rdx, 32(%r12)
	jmp	.LBB26_25
	.p2align	4
.LBB26_29:
	movw	$0, 24(%rsp)
	movb	$0, 26(%rsp)
	movl	$0, 144(%rsp)
	movl	$0, 147(%rsp)
	movw	$0, 20(%rsp)
	movb	$0, 22(%rsp)
	movl	$0, 44(%rsp)
	movl	$0, 47(%rsp)
	movw	$0, 16(%rsp)
	movb	$0, 18(%rsp)
	movl	$0, 36(%rsp)
	movl	$0, 39(%rsp)
	movq	56(%rsp), %r11
	movq	1040(%r11), %rdx
	testq	%rdx, %rdx
	je	.LBB26_40
	shlq	$3, %rdx
	movq	136(%rsp), %rdi
	xorl	%esi, %esi
	callq	memset@PLT
	movq	56(%rsp), %r11
	movq	$0, 1040(%r11)
	movzbl	76(%r14), %eax
	jmp	.LBB26_41
.LBB26_31:
	movb	$1, %al
.LBB26_32:
	movl	64(%r14), %edx
	movl	80(%r14), %edi
	movq	(%r14), %rcx
	leal	4(%rdi), %esi
	movq	8(%rcx,%rsi,8), %rbp
	movl	$65, %ecx
	testb	$1, %al
	jne	.LBB26_34
	decl	%edx
	movl	%edx, %ecx
	je	.LBB26_51
.LBB26_34:
	addl	$-4, %edi
	movl	$4, %eax
	movl	$8, %r8d
	xorl	%esi, %esi
	.p2align	4
.LBB26_35:
	movl	%r8d, %r15d
	testb	$3, %bpl
	jne	.LBB26_50
	movq	(%r14), %rdx
	leal	(%rdi,%rbp), %r8d
	movq	(%rdx,%r8,8), %rdx
	movq	(%r14), %r9
	movq	8(%r9,%r8,8), %r10
	movq	(%r14), %r9
	movq	16(%r9,%r8,8), %r9
	cmpq	%rdx, %r13
	cmovbq	%r10, %r9
	testq	%r9, %r9
	je	.LBB26_48
	movq	%rdx, %r8
	xorq	%r13, %r8
	shrq	%r8
	movq	%rdx, %r10
	negq	%r10
	andq	%rdx, %r10
	cmpq	%r10, %r8
	jae	.LBB26_48
	xorl	%r8d, %r8d
	cmpq	%rdx, %r13
	setae	%r8b
	orl	%ebp, %r8d
	incl	%esi
	movq	%r9, %rbp
	movl	%r15d, %eax
	cmpl	%esi, %ecx
	jne	.LBB26_35
	movq	%r9, %rbp
	jmp	.LBB26_52
.LBB26_40:
	xorl	%eax, %eax
.LBB26_41:
	movl	64(%r14), %edx
	movl	80(%r14), %edi
	movq	(%r14), %rcx
	leal	4(%rdi), %esi
	movq	8(%rcx,%rsi,8), %rbp
	movl	$65, %ecx
	testb	$1, %al
	jne	.LBB26_43
	decl	%edx
	movl	%edx, %ecx
	je	.LBB26_64
.LBB26_43:
	addl	$-4, %edi
	movl	$4, %eax
	movl	$8, %r8d
	xorl	%esi, %esi
	.p2align	4
.LBB26_44:
	movl	%r8d, %r15d
	testb	$3, %bpl
	jne	.LBB26_49
	movq	(%r14), %rdx
	leal	(%rdi,%rbp), %r8d
	movq	(%rdx,%r8,8), %rdx
	movq	(%r14), %r9
	movq	8(%r9,%r8,8), %r10
	movq	(%r14), %r9
	movq	16(%r9,%r8,8), %r9
	cmpq	%rdx, %r13
	cmovbq	%r10, %r9
	testq	%r9, %r9
	je	.LBB26_48
	xorl	%r8d, %r8d
	cmpq	%rdx, %r13
	setae	%r8b
	orl	%ebp, %r8d
	incl	%esi
	movq	%r9, %rbp
	movl	%r15d, %eax
	cmpl	%esi, %ecx
	jne	.LBB26_44
	movq	%r9, %rbp
	jmp	.LBB26_65
	.p2align	4
.LBB26_48:
	movl	%r15d, %ecx
	shrl	$2, %ecx
	movl	%eax, %esi
	shrl	$2, %esi
	andb	$1, %al
	andb	$1, %r15b
	movb	$0, 14(%rsp)
	movw	$0, 12(%rsp)
	movl	$0, 28(%rsp)
	movl	$0, 31(%rsp)
	movb	$1, %dil
	movl	%ecx, %r13d
	jmp	.LBB26_79
.LBB26_49:
	movb	$0, 18(%rsp)
	movw	$0, 16(%rsp)
	movl	$0, 36(%rsp)
	movl	$0, 39(%rsp)
	jmp	.LBB26_66
.LBB26_50:
	movb	$0, 18(%rsp)
	movw	$0, 16(%rsp)
	movl	$0, 36(%rsp)
	movl	$0, 39(%rsp)
	jmp	.LBB26_53
.LBB26_51:
	xorl	%ecx, %ecx
	movl	$8, %r8d
	movl	$4, %r15d
.LBB26_52:
	movb	$0, 18(%rsp)
	movw	$0, 16(%rsp)
	movl	$0, 36(%rsp)
	movl	$0, 39(%rsp)
	movl	%r15d, %eax
	movl	%r8d, %r15d
	movl	%ecx, %esi
.LBB26_53:
	movzbl	18(%rsp), %ecx
	movb	%cl, 22(%rsp)
	movzwl	16(%rsp), %ecx
	movw	%cx, 20(%rsp)
	movl	36(%rsp), %ecx
	movl	39(%rsp), %edx
	movl	%edx, 47(%rsp)
	movl	%ecx, 44(%rsp)
	movl	64(%r14), %ecx
	decl	%ecx
	testb	$1, 76(%r14)
	movl	$65, %r12d
	cmovel	%ecx, %r12d
	subl	%esi, %r12d
	jbe	.LBB26_76
	movq	80(%rsp), %rcx
	movl	80(%rcx), %ecx
	movl	%eax, %esi
	shrl	$2, %esi
	andb	$1, %al
	movl	%r15d, %ebx
	shrl	$2, %ebx
	andb	$1, %r15b
	addl	$-4, %ecx
	movq	%rcx, 200(%rsp)
	movl	%r15d, %r14d
	movl	%ebx, %ecx
	jmp	.LBB26_57
	.p2align	4
.LBB26_55:
	movl	%ebx, %ecx
.LBB26_56:
	movb	$0, 22(%rsp)
	movw	$0, 20(%rsp)
	movl	$0, 44(%rsp)
	movl	$0, 47(%rsp)
	movl	%r15d, %eax
	movl	%r13d, %esi
	decl	%r12d
	je	.LBB26_76
.LBB26_57:
	movl	%ebx, %r13d
	movl	%r14d, %r15d
	movq	%rbp, %r8
	movq	%rbp, %rbx
	shrq	$2, %rbx
	movq	80(%rsp), %r10
	movq	(%r10), %rdx
	movq	200(%rsp), %rdi
	leal	(%rdi,%rbx,4), %edi
	movq	(%rdx,%rdi,8), %rdx
	movq	(%r10), %r9
	movq	8(%r9,%rdi,8), %r9
	movq	(%r10), %r10
	movq	16(%r10,%rdi,8), %rbp
	movq	88(%rsp), %r10
	cmpq	%rdx, %r10
	setae	%r14b
	cmovbq	%r9, %rbp
	testq	%rbp, %rbp
	je	.LBB26_77
	movq	%rdx, %rdi
	xorq	%r10, %rdi
	shrq	%rdi
	movq	%rdx, %r9
	negq	%r9
	andq	%rdx, %r9
	cmpq	%r9, %rdi
	jae	.LBB26_77
	movq	1040(%r11), %rdx
	testb	$2, %r8b
	jne	.LBB26_62
	testq	%rdx, %rdx
	je	.LBB26_55
	shlq	$3, %rdx
	movq	136(%rsp), %rdi
	xorl	%esi, %esi
	callq	memset@PLT
	movq	56(%rsp), %r11
	movq	$0, 1040(%r11)
	jmp	.LBB26_55
	.p2align	4
.LBB26_62:
	leaq	1(%rdx), %rdi
	cmpq	$63, %rdi
	ja	.LBB26_76
	movzbl	%r15b, %r8d
	shlq	$32, %r8
	movl	%r13d, %r9d
	orq	%r8, %r9
	movq	%r9, 528(%r11,%rdx,8)
	movq	%rdi, 1040(%r11)
	movl	%eax, %r15d
	movl	%esi, %r13d
	jmp	.LBB26_56
.LBB26_64:
	xorl	%ecx, %ecx
	movl	$8, %r8d
	movl	$4, %r15d
.LBB26_65:
	movb	$0, 18(%rsp)
	movw	$0, 16(%rsp)
	movl	$0, 36(%rsp)
	movl	$0, 39(%rsp)
	movl	%r15d, %eax
	movl	%r8d, %r15d
	movl	%ecx, %esi
.LBB26_66:
	movzbl	18(%rsp), %ecx
	movb	%cl, 22(%rsp)
	movzwl	16(%rsp), %ecx
	movw	%cx, 20(%rsp)
	movl	36(%rsp), %ecx
	movl	39(%rsp), %edx
	movl	%edx, 47(%rsp)
	movl	%ecx, 44(%rsp)
	movl	64(%r14), %ecx
	decl	%ecx
	testb	$1, 76(%r14)
	movl	$65, %r12d
	cmovel	%ecx, %r12d
	subl	%esi, %r12d
	jbe	.LBB26_76
	movq	80(%rsp), %rcx
	movl	80(%rcx), %ecx
	movl	%eax, %esi
	shrl	$2, %esi
	andb	$1, %al
	movl	%r15d, %r14d
	shrl	$2, %r14d
	andb	$1, %r15b
	addl	$-4, %ecx
	movq	%rcx, 200(%rsp)
	movl	%r15d, %ebx
	movl	%r14d, %ecx
	jmp	.LBB26_70
	.p2align	4
.LBB26_68:
	movl	%r14d, %ecx
.LBB26_69:
	movb	$0, 22(%rsp)
	movw	$0, 20(%rsp)
	movl	$0, 44(%rsp)
	movl	$0, 47(%rsp)
	movl	%r15d, %eax
	movl	%r13d, %esi
	decl	%r12d
	je	.LBB26_76
.LBB26_70:
	movl	%r14d, %r13d
	movl	%ebx, %r15d
	movq	%rbp, %r8
	movq	%rbp, %r14
	shrq	$2, %r14
	movq	80(%rsp), %r10
	movq	(%r10), %rdx
	movq	200(%rsp), %rdi
	leal	(%rdi,%r14,4), %edi
	movq	(%rdx,%rdi,8), %rdx
	movq	(%r10), %r9
	movq	8(%r9,%rdi,8), %r9
	movq	(%r10), %r10
	movq	16(%r10,%rdi,8), %rbp
	cmpq	%rdx, 88(%rsp)
	setae	%bl
	cmovbq	%r9, %rbp
	testq	%rbp, %rbp
	je	.LBB26_77
	movq	1040(%r11), %rdx
	testb	$2, %r8b
	jne	.LBB26_74
	testq	%rdx, %rdx
	je	.LBB26_68
	shlq	$3, %rdx
	movq	136(%rsp), %rdi
	xorl	%esi, %esi
	callq	memset@PLT
	movq	56(%rsp), %r11
	movq	$0, 1040(%r11)
	jmp	.LBB26_68
	.p2align	4
.LBB26_74:
	leaq	1(%rdx), %rdi
	cmpq	$63, %rdi
	ja	.LBB26_76
	movzbl	%r15b, %r8d
	shlq	$32, %r8
	movl	%r13d, %r9d
	orq	%r8, %r9
	movq	%r9, 528(%r11,%rdx,8)
	movq	%rdi, 1040(%r11)
	movl	%eax, %r15d
	movl	%esi, %r13d
	jmp	.LBB26_69
	.p2align	4
.LBB26_76:
	movzbl	26(%rsp), %eax
	movb	%al, 14(%rsp)
	movzwl	24(%rsp), %eax
	movw	%ax, 12(%rsp)
	movl	144(%rsp), %eax
	movl	147(%rsp), %ecx
	movl	%eax, 28(%rsp)
	movl	%ecx, 31(%rsp)
	xorl	%esi, %esi
	xorl	%eax, %eax
	xorl	%ecx, %ecx
	xorl	%r13d, %r13d
	xorl	%r15d, %r15d
	xorl	%ebp, %ebp
	xorl	%edx, %edx
	xorl	%edi, %edi
	jmp	.LBB26_78
.LBB26_77:
	movzbl	22(%rsp), %edi
	movb	%dil, 14(%rsp)
	movzwl	20(%rsp), %edi
	movw	%di, 12(%rsp)
	movl	44(%rsp), %edi
	movl	47(%rsp), %r9d
	movl	%edi, 28(%rsp)
	movl	%r9d, 31(%rsp)
	movb	$1, %dil
	movq	%r8, %rbp
.LBB26_78:
	movq	72(%rsp), %rbx
	movq	80(%rsp), %r14
	movq	120(%rsp), %r12
.LBB26_79:
	movzbl	14(%rsp), %r8d
	movb	%r8b, 54(%rsp)
	movzwl	12(%rsp), %r8d
	movw	%r8w, 52(%rsp)
	movl	28(%rsp), %r8d
	movl	31(%rsp), %r9d
	movl	%r8d, 128(%rsp)
	movl	%r9d, 131(%rsp)
	testb	%dil, %dil
	je	.LBB26_15
	movl	%esi, 208(%rsp)
	movb	%al, 212(%rsp)
	movzbl	54(%rsp), %eax
	leaq	213(%rsp), %rsi
	movb	%al, 2(%rsi)
	movzwl	52(%rsp), %eax
	movw	%ax, (%rsi)
	movl	%ecx, 216(%rsp)
	movl	%r13d, 220(%rsp)
	movb	%r15b, 224(%rsp)
	movl	128(%rsp), %eax
	movl	131(%rsp), %ecx
	movl	%ecx, 15(%rsi)
	movl	%eax, 12(%rsi)
	movq	%rbp, 232(%rsp)
	movq	%rdx, 240(%rsp)
	cmpq	88(%rsp), %rdx
	je	.LBB26_131
	xorps	%xmm0, %xmm0
	movaps	%xmm0, 160(%rsp)
	movaps	%xmm0, 144(%rsp)
	movq	$0, 176(%rsp)
	cmpb	$1, 68(%rsp)
	jne	.LBB26_83
	movq	96(%rsp), %r9
	movq	104(%rsp), %r8
	jmp	.LBB26_85
	.p2align	4
.LBB26_83:
	leaq	144(%rsp), %rdi
	movq	%r14, %rsi
	movq	%r11, %rdx
	callq	"nm_walks::growing::claim_new_nodes"
	cmpb	$1, 144(%rsp)
	jne	.LBB26_143
	movl	152(%rsp), %r8d
	movl	168(%rsp), %r9d
.LBB26_85:
	leaq	208(%rsp), %rcx
	movq	%r14, %rdi
	movq	88(%rsp), %rsi
	movq	256(%rsp), %rdx
	movq	%r8, 104(%rsp)
	movq	%r9, 96(%rsp)
	callq	"nm_walks::growing::grow"
	testb	%al, %al
	je	.LBB26_142
	movb	$1, %al
	movl	%eax, 68(%rsp)
	testb	$3, %dl
	movq	56(%rsp), %r11
	je	.LBB26_15
	shrq	$2, %rdx
	shrq	$2, %rbp
	cmpl	%ebp, %edx
	jne	.LBB26_15
	movq	1040(%r11), %r9
	movq	3096(%r11), %rdx
	testq	%rdx, %rdx
	je	.LBB26_90
	shlq	$4, %rdx
	movq	192(%rsp), %rdi
	xorl	%esi, %esi
	movq	%r9, %rbp
	callq	memset@PLT
	movq	%rbp, %r9
	movq	56(%rsp), %r11
	movq	$0, 3096(%r11)
.LBB26_90:
	movl	80(%r14), %eax
	xorl	%ecx, %ecx
	testb	%r15b, %r15b
	sete	%cl
	movq	(%r14), %rdx
	leal	(%rax,%r13,4), %esi
	addl	$-4, %esi
	subq	%rcx, %rsi
	movq	16(%rdx,%rsi,8), %rdx
	movl	220(%rsp), %esi
	movq	(%r14), %rdi
	leal	(%rax,%rsi,4), %eax
	addl	$-4, %eax
	addq	%rcx, %rax
	movq	8(%rdi,%rax,8), %rax
	testb	$1, %dl
	jne	.LBB26_93
	testb	$1, %al
	movq	88(%rsp), %r13
	je	.LBB26_16
	movzbl	224(%rsp), %edx
	jmp	.LBB26_95
	.p2align	4
.LBB26_15:
	movq	88(%rsp), %r13
.LBB26_16:
	movl	64(%rsp), %r15d
.LBB26_17:
	incl	%r15d
	cmpl	320(%rsp), %r15d
	jne	.LBB26_18
	jmp	.LBB26_122
.LBB26_93:
	testb	%r15b, %r15b
	sete	%dl
	movq	88(%rsp), %r13
.LBB26_95:
	movl	64(%rsp), %r15d
	movl	220(%rsp), %ecx
	movq	(%r14), %rsi
	shll	$2, %ecx
	addl	80(%r14), %ecx
	cmpb	$1, %dl
	sbbl	$0, %ecx
	addl	$-2, %ecx
	.p2align	4
.LBB26_96:
	movq	(%rsi,%rcx,8), %rbp
	movq	%rbp, %rdi
	orq	$2, %rdi
	movq	%rbp, %rax
	lock		cmpxchgq	%rdi, (%rsi,%rcx,8)
	jne	.LBB26_96
	movl	220(%rsp), %ecx
	movzbl	%dl, %r8d
	movq	%r14, %rdi
	movq	136(%rsp), %rsi
	movq	%r9, %rdx
	movq	192(%rsp), %r9
	callq	"nm_walks::cutting::freeze"
	movl	208(%rsp), %ecx
	movl	216(%rsp), %eax
	shll	$2, %ecx
	addl	80(%r14), %ecx
	cmpb	$1, 212(%rsp)
	sbbl	$0, %ecx
	addl	$-2, %ecx
	shlq	$2, %rax
	andq	$-3, %rbp
	movq	(%r14), %rdx
	lock		cmpxchgq	%rbp, (%rdx,%rcx,8)
	jne	.LBB26_108
	movb	$1, 56(%rbx)
	movq	(%r14), %rax
	movq	(%rax), %rax
	testb	$1, 56(%rbx)
	movq	56(%rsp), %r11
	je	.LBB26_144
	movq	$1, 8(%rbx)
	movq	%rax, 16(%rbx)
	movb	$0, 56(%rbx)
	movq	3096(%r11), %rcx
	testq	%rcx, %rcx
	je	.LBB26_109
	movl	60(%r12), %esi
	movq	192(%rsp), %rdx
	jmp	.LBB26_103
	.p2align	4
.LBB26_101:
	movq	16(%r12), %rdi
.LBB26_102:
	addq	$16, %rdx
	decq	%rcx
	subl	%r8d, %esi
	addl	$32, %esi
	leaq	(%rsi,%rsi,2), %rsi
	movaps	144(%rsp), %xmm0
	movups	%xmm0, 8(%rdi,%rsi,8)
	movq	%rax, 24(%rdi,%rsi,8)
	movl	60(%r12), %esi
	incl	%esi
	movl	%esi, 60(%r12)
	testq	%rcx, %rcx
	je	.LBB26_109
.LBB26_103:
	movups	(%rdx), %xmm0
	movaps	%xmm0, 144(%rsp)
	addl	56(%r12), %esi
	movl	24(%r12), %r9d
	movl	%r9d, %r8d
	shll	$5, %r8d
	cmpl	%r8d, %esi
	jne	.LBB26_101
	movq	32(%r12), %rdi
	movq	(%rdi), %r8
	movq	%r8, 32(%r12)
	decl	48(%r12)
	testl	%r9d, %r9d
	je	.LBB26_106
	movq	16(%r12), %r8
	movq	$0, (%rdi)
	movq	%rdi, (%r8)
	jmp	.LBB26_107
.LBB26_106:
	movq	$0, (%rdi)
	movq	%rdi, 8(%r12)
.LBB26_107:
	movq	%rdi, 16(%r12)
	movl	24(%r12), %r8d
	incl	%r8d
	movl	%r8d, 24(%r12)
	shll	$5, %r8d
	jmp	.LBB26_102
.LBB26_108:
	movq	56(%rsp), %r11
	jmp	.LBB26_17
.LBB26_109:
	movq	80(%r12), %rax
	incq	%rax
	movq	$-1, %rcx
	cmovneq	%rax, %rcx
	movq	%rcx, 80(%r12)
	jmp	.LBB26_17
.LBB26_110:
	cmpb	$1, 68(%rsp)
	movq	56(%rsp), %r8
	movq	96(%rsp), %r9
	movq	104(%rsp), %r10
	jne	.LBB26_118
	movl	64(%r14), %eax
	leal	-1(%r10), %ecx
	movl	%ecx, %edx
	shrl	$6, %edx
	leal	(%rdx,%rax,4), %edx
	addl	80(%r14), %edx
	movl	$1, %esi
	shlq	%cl, %rsi
	movq	(%r14), %rcx
	.p2align	4
.LBB26_112:
	movq	(%rcx,%rdx,8), %rax
	movq	%rax, %rdi
	orq	%rsi, %rdi
	lock		cmpxchgq	%rdi, (%rcx,%rdx,8)
	jne	.LBB26_112
	movl	64(%r14), %eax
	leal	-1(%r9), %ecx
	movl	%ecx, %edx
	shrl	$6, %edx
	leal	(%rdx,%rax,4), %edx
	addl	80(%r14), %edx
	movl	$1, %esi
	shlq	%cl, %rsi
	movq	(%r14), %rcx
	.p2align	4
.LBB26_114:
	movq	(%rcx,%rdx,8), %rax
	movq	%rax, %rdi
	orq	%rsi, %rdi
	lock		cmpxchgq	%rdi, (%rcx,%rdx,8)
	jne	.LBB26_114
	movq	520(%r8), %rax
	cmpq	$128, %rax
	je	.LBB26_118
	movl	%r10d, 8(%r8,%rax,4)
	leaq	1(%rax), %rcx
	movq	%rcx, 520(%r8)
	cmpq	$128, %rcx
	je	.LBB26_118
	movl	%r9d, 12(%r8,%rax,4)
	addq	$2, %rax
	movq	%rax, 520(%r8)
.LBB26_118:
	movq	(%r14), %rax
	movl	4(%rbx), %ecx
	xorl	%edx, %edx
	xchgq	%rdx, (%rax,%rcx,8)
	xorps	%xmm0, %xmm0
	movq	112(%rsp), %rax
	movups	%xmm0, 16(%rax)
	movups	%xmm0, (%rax)
.LBB26_119:
	movb	$2, %dl
.LBB26_120:
	movb	$1, %al
.LBB26_121:
	addq	$264, %rsp
	.cfi_def_cfa_offset 56
	popq	%rbx
	.cfi_def_cfa_offset 48
	popq	%r12
	.cfi_def_cfa_offset 40
	popq	%r13
	.cfi_def_cfa_offset 32
	popq	%r14
	.cfi_def_cfa_offset 24
	popq	%r15
	.cfi_def_cfa_offset 16
	popq	%rbp
	.cfi_def_cfa_offset 8
	retq
.LBB26_122:
	.cfi_def_cfa_offset 320
	cmpb	$0, 68(%rsp)
	je	.LBB26_130
	movl	64(%r14), %eax
	movq	104(%rsp), %rcx
	decl	%ecx
	movl	%ecx, %edx
	shrl	$6, %edx
	leal	(%rdx,%rax,4), %edx
	addl	80(%r14), %edx
	movl	$1, %esi
	shlq	%cl, %rsi
	movq	(%r14), %rcx
	.p2align	4
.LBB26_124:
	movq	(%rcx,%rdx,8), %rax
	movq	%rax, %rdi
	orq	%rsi, %rdi
	lock		cmpxchgq	%rdi, (%rcx,%rdx,8)
	jne	.LBB26_124
	movl	64(%r14), %eax
	movq	96(%rsp), %rcx
	decl	%ecx
	movl	%ecx, %edx
	shrl	$6, %edx
	leal	(%rdx,%rax,4), %edx
	addl	80(%r14), %edx
	movl	$1, %esi
	shlq	%cl, %rsi
	movq	(%r14), %rcx
	.p2align	4
.LBB26_126:
	movq	(%rcx,%rdx,8), %rax
	movq	%rax, %rdi
	orq	%rsi, %rdi
	lock		cmpxchgq	%rdi, (%rcx,%rdx,8)
	jne	.LBB26_126
	movq	520(%r11), %rax
	cmpq	$128, %rax
	je	.LBB26_130
	movq	104(%rsp), %rcx
	movl	%ecx, 8(%r11,%rax,4)
	leaq	1(%rax), %rcx
	movq	%rcx, 520(%r11)
	cmpq	$128, %rcx
	je	.LBB26_130
	movq	96(%rsp), %rcx
	movl	%ecx, 12(%r11,%rax,4)
	addq	$2, %rax
	movq	%rax, 520(%r11)
.LBB26_130:
	movq	(%r14), %rax
	movl	4(%rbx), %ecx
	xorl	%edx, %edx
	xorl	%esi, %esi
	xchgq	%rsi, (%rax,%rcx,8)
	jmp	.LBB26_7
.LBB26_131:
	cmpb	$1, 68(%rsp)
	jne	.LBB26_139
	movl	64(%r14), %eax
	movq	104(%rsp), %rcx
	decl	%ecx
	movl	%ecx, %edx
	shrl	$6, %edx
	leal	(%rdx,%rax,4), %edx
	addl	80(%r14), %edx
	movl	$1, %esi
	shlq	%cl, %rsi
	movq	(%r14), %rcx
	.p2align	4
.LBB26_133:
	movq	(%rcx,%rdx,8), %rax
	movq	%rax, %rdi
	orq	%rsi, %rdi
	lock		cmpxchgq	%rdi, (%rcx,%rdx,8)
	jne	.LBB26_133
	movl	64(%r14), %eax
	movq	96(%rsp), %rcx
	decl	%ecx
	movl	%ecx, %edx
	shrl	$6, %edx
	leal	(%rdx,%rax,4), %edx
	addl	80(%r14), %edx
	movl	$1, %esi
	shlq	%cl, %rsi
	movq	(%r14), %rcx
	.p2align	4
.LBB26_135:
	movq	(%rcx,%rdx,8), %rax
	movq	%rax, %rdi
	orq	%rsi, %rdi
	lock		cmpxchgq	%rdi, (%rcx,%rdx,8)
	jne	.LBB26_135
	movq	520(%r11), %rax
	cmpq	$128, %rax
	je	.LBB26_139
	movq	104(%rsp), %rcx
	movl	%ecx, 8(%r11,%rax,4)
	leaq	1(%rax), %rcx
	movq	%rcx, 520(%r11)
	cmpq	$128, %rcx
	je	.LBB26_139
	movq	96(%rsp), %rcx
	movl	%ecx, 12(%r11,%rax,4)
	addq	$2, %rax
	movq	%rax, 520(%r11)
.LBB26_139:
	cmpb	$1, 84(%r14)
	jne	.LBB26_141
	shrq	$2, %rbp
	movl	64(%r14), %eax
	leal	(,%rax,4), %ecx
	movl	%eax, %edx
	shrl	$6, %edx
	andl	$63, %eax
	addl	80(%r14), %ecx
	addl	%edx, %ecx
	cmpl	$1, %eax
	sbbl	$-1, %ecx
	decl	%ebp
	addq	%rcx, %rbp
	movq	(%r14), %rax
	movq	(%rax,%rbp,8), %rax
	movq	%rax, 3104(%r11)
.LBB26_141:
	movq	(%r14), %rax
	movl	4(%rbx), %ecx
	xorl	%edx, %edx
	xorl	%esi, %esi
	xchgq	%rsi, (%rax,%rcx,8)
	xorps	%xmm0, %xmm0
	movq	112(%rsp), %rax
	movups	%xmm0, 16(%rax)
	movups	%xmm0, (%rax)
	xorl	%eax, %eax
	jmp	.LBB26_121
.LBB26_142:
	movq	64(%r12), %rax
	incq	%rax
	movq	$-1, %rcx
	cmovneq	%rax, %rcx
	movq	%rcx, 64(%r12)
	movq	(%r14), %rsi
	movl	4(%rbx), %ecx
	xorl	%eax, %eax
	xorl	%edx, %edx
	xchgq	%rdx, (%rsi,%rcx,8)
	xorps	%xmm0, %xmm0
	movq	112(%rsp), %rcx
	movups	%xmm0, 16(%rcx)
	movups	%xmm0, (%rcx)
	movb	$1, %dl
	jmp	.LBB26_121
.LBB26_143:
	movq	(%r14), %rax
	movl	4(%rbx), %ecx
	xorl	%edx, %edx
	xchgq	%rdx, (%rax,%rcx,8)
	xorps	%xmm0, %xmm0
	movq	112(%rsp), %rax
	movups	%xmm0, 16(%rax)
	movups	%xmm0, (%rax)
	movb	$1, %dl
	jmp	.LBB26_120
.LBB26_144:
	cmpb	$0, 40(%rbx)
	jne	.LBB26_149
	movq	72(%rsp), %rcx
	cmpb	$1, 24(%rcx)
	jne	.LBB26_149
	movq	72(%rsp), %rcx
	cmpq	%rax, 32(%rcx)
	movq	$1, 8(%rcx)
	movq	%rax, 16(%rcx)
	jne	.LBB26_148
	movq	72(%rsp), %rcx
	movq	$1, 40(%rcx)
	movq	%rax, 48(%rcx)
.LBB26_148:
	ud2
.LBB26_149:
	movq	72(%rsp), %rcx
	movq	$1, 8(%rcx)
	movq	%rax, 16(%rcx)
	ud2
.Lfunc_end26:
	.size	"nm_calls::inserting::insert", .Lfunc_end26-"nm_calls::inserting::insert"
	.cfi_endproc
	.section	".text.nm_walks::growing::claim_new_nodes","ax",@progbits
	.p2align	4
	.type	"nm_walks::growing::claim_new_nodes",@function
"nm_walks::growing::claim_new_nodes":
	.cfi_startproc
	pushq	%r15
	.cfi_def_cfa_offset 16
	pushq	%r14
	.cfi_def_cfa_offset 24
	pushq	%r13
	.cfi_def_cfa_offset 32
	pushq	%r12
	.cfi_def_cfa_offset 40
	pushq	%rbx
	.cfi_def_cfa_offset 48
	.cfi_offset %rbx, -48
	.cfi_offset %r12, -40
	.cfi_offset %r13, -32
	.cfi_offset %r14, -24
	.cfi_offset %r15, -16
	movq	%rdx, %r14
	movq	%rsi, %r15
	movq	%rdi, %rbx
	cmpb	$0, (%rdx)
	je	.LBB27_23
	movl	64(%r15), %eax
	movq	520(%r14), %rdx
	movl	%eax, %ecx
	testq	%rdx, %rdx
	je	.LBB27_4
	leaq	-1(%rdx), %rcx
	movq	%rcx, 520(%r14)
	movl	4(%r14,%rdx,4), %r12d
	movl	$0, 4(%r14,%rdx,4)
	testl	%r12d, %r12d
	jne	.LBB27_5
	movl	64(%r15), %ecx
.LBB27_4:
	movl	4(%r14), %edx
	cmpl	$7, %edx
	movl	$6, %esi
	movl	$6, %edi
	cmovael	%edx, %edi
	cmpl	%ecx, %edx
	cmoval	%esi, %edi
	shll	$2, %ecx
	leal	-1(%rdi), %edx
	movl	%edx, %esi
	shrl	$6, %esi
	addl	80(%r15), %ecx
	addl	%esi, %ecx
	andl	$63, %edx
	movq	(%r15), %rsi
	movq	(%rsi,%rcx,8), %rcx
	subl	%edx, %edi
	rep		bsfq	%rcx, %rdx
	addl	%edi, %edx
	xorl	%r12d, %r12d
	testq	%rcx, %rcx
	cmovnel	%edx, %r12d
	je	.LBB27_26
.LBB27_5:
	cmpl	$6, %r12d
	jb	.LBB27_26
	cmpl	%r12d, %eax
	jb	.LBB27_26
	movl	64(%r15), %eax
	leal	-1(%r12), %ecx
	movl	%ecx, %esi
	shrl	$6, %esi
	leal	(%rsi,%rax,4), %edi
	movl	$1, %edx
	shlq	%cl, %rdx
	addl	80(%r15), %edi
	movq	$-2, %r8
	rolq	%cl, %r8
	movq	(%r15), %r9
	.p2align	4
.LBB27_8:
	movq	(%r9,%rdi,8), %rcx
	movq	%rcx, %r10
	andq	%r8, %r10
	movq	%rcx, %rax
	lock		cmpxchgq	%r10, (%r9,%rdi,8)
	jne	.LBB27_8
	testq	%rdx, %rcx
	je	.LBB27_26
	leal	-1(,%r12,4), %ecx
	movl	80(%r15), %eax
	addl	%ecx, %eax
	movq	(%r15), %rdi
	movq	(%rdi,%rax,8), %r13
	movabsq	$4611686018427387904, %rdi
	movl	80(%r15), %eax
	cmpq	%rdi, %r13
	je	.LBB27_24
	incq	%r13
	addl	%ecx, %eax
	movq	(%r15), %rcx
	movq	%r13, %rdx
	xchgq	%rdx, (%rcx,%rax,8)
	cmpb	$0, (%r14)
	je	.LBB27_28
.LBB27_12:
	movl	64(%r15), %eax
	movq	520(%r14), %rdx
	movl	%eax, %ecx
	testq	%rdx, %rdx
	je	.LBB27_15
	leaq	-1(%rdx), %rcx
	movq	%rcx, 520(%r14)
	movl	4(%r14,%rdx,4), %esi
	movl	$0, 4(%r14,%rdx,4)
	testl	%esi, %esi
	jne	.LBB27_16
	movl	64(%r15), %ecx
.LBB27_15:
	movl	4(%r14), %edx
	cmpl	$7, %edx
	movl	$6, %esi
	movl	$6, %edi
	cmovael	%edx, %edi
	cmpl	%ecx, %edx
	cmoval	%esi, %edi
	shll	$2, %ecx
	leal	-1(%rdi), %edx
	movl	%edx, %esi
	shrl	$6, %esi
	addl	80(%r15), %ecx
	addl	%esi, %ecx
	andl	$63, %edx
	movq	(%r15), %rsi
	movq	(%rsi,%rcx,8), %rcx
	subl	%edx, %edi
	rep		bsfq	%rcx, %rdx
	addl	%edi, %edx
	xorl	%esi, %esi
	testq	%rcx, %rcx
	cmovnel	%edx, %esi
	je	.LBB27_31
.LBB27_16:
	cmpl	$6, %esi
	jb	.LBB27_31
	cmpl	%esi, %eax
	jb	.LBB27_31
	movl	64(%r15), %eax
	leal	-1(%rsi), %ecx
	movl	%ecx, %edx
	shrl	$6, %edx
	leal	(%rdx,%rax,4), %edx
	movl	$1, %edi
	shlq	%cl, %rdi
	addl	80(%r15), %edx
	movq	$-2, %r8
	rolq	%cl, %r8
	movq	(%r15), %r9
	.p2align	4
.LBB27_19:
	movq	(%r9,%rdx,8), %rcx
	movq	%rcx, %r10
	andq	%r8, %r10
	movq	%rcx, %rax
	lock		cmpxchgq	%r10, (%r9,%rdx,8)
	jne	.LBB27_19
	testq	%rdi, %rcx
	je	.LBB27_31
	leal	-1(,%rsi,4), %eax
	movl	80(%r15), %ecx
	addl	%eax, %ecx
	movq	(%r15), %rdx
	movq	(%rdx,%rcx,8), %rdx
	movabsq	$4611686018427387904, %rcx
	cmpq	%rcx, %rdx
	je	.LBB27_30
	addl	80(%r15), %eax
	incq	%rdx
	movq	(%r15), %rcx
	movq	%rdx, %rdi
	xchgq	%rdi, (%rcx,%rax,8)
	jmp	.LBB27_33
.LBB27_23:
	movq	%r15, %rdi
	callq	"nm_pool::nodes::claim"
	testq	%rdx, %rdx
	jne	.LBB27_27
	jmp	.LBB27_38
.LBB27_24:
	movl	64(%r15), %ecx
	leal	(%rsi,%rcx,4), %ecx
	addl	%eax, %ecx
	movq	(%r15), %rsi
	.p2align	4
.LBB27_25:
	movq	(%rsi,%rcx,8), %rax
	movq	%rax, %rdi
	orq	%rdx, %rdi
	lock		cmpxchgq	%rdi, (%rsi,%rcx,8)
	jne	.LBB27_25
.LBB27_26:
	movq	%r15, %rdi
	movq	%r14, %rsi
	callq	"nm_pool::claims::claim_in_turn"
	testq	%rdx, %rdx
	je	.LBB27_38
.LBB27_27:
	movl	%eax, %r12d
	movq	%rdx, %r13
	cmpb	$0, (%r14)
	jne	.LBB27_12
.LBB27_28:
	movq	%r15, %rdi
	callq	"nm_pool::nodes::claim"
	testq	%rdx, %rdx
	je	.LBB27_34
.LBB27_32:
	movl	%eax, %esi
.LBB27_33:
	movq	$1, (%rbx)
	movl	%r12d, 8(%rbx)
	movl	$0, 12(%rbx)
	movq	%r13, 16(%rbx)
	movl	%esi, 24(%rbx)
	movl	$0, 28(%rbx)
	movq	%rdx, 32(%rbx)
	jmp	.LBB27_39
.LBB27_30:
	movq	%r15, %rdi
	callq	"nm_pool::nodes::put"
.LBB27_31:
	movq	%r15, %rdi
	movq	%r14, %rsi
	callq	"nm_pool::claims::claim_in_turn"
	testq	%rdx, %rdx
	jne	.LBB27_32
.LBB27_34:
	movl	64(%r15), %eax
	leal	-1(%r12), %ecx
	movl	%ecx, %edx
	shrl	$6, %edx
	leal	(%rdx,%rax,4), %edx
	addl	80(%r15), %edx
	movl	$1, %esi
	shlq	%cl, %rsi
	movq	(%r15), %rcx
	.p2align	4
.LBB27_35:
	movq	(%rcx,%rdx,8), %rax
	movq	%rax, %rdi
	orq	%rsi, %rdi
	lock		cmpxchgq	%rdi, (%rcx,%rdx,8)
	jne	.LBB27_35
	movq	520(%r14), %rax
	cmpq	$128, %rax
	je	.LBB27_38
	movl	%r12d, 8(%r14,%rax,4)
	incq	%rax
	movq	%rax, 520(%r14)
.LBB27_38:
	xorps	%xmm0, %xmm0
	movups	%xmm0, 16(%rbx)
	movups	%xmm0, (%rbx)
	movq	$0, 32(%rbx)
.LBB27_39:
	popq	%rbx
	.cfi_def_cfa_offset 40
	popq	%r12
	.cfi_def_cfa_offset 32
	popq	%r13
	.cfi_def_cfa_offset 24
	popq	%r14
	.cfi_def_cfa_offset 16
	popq	%r15
	.cfi_def_cfa_offset 8
	retq
.Lfunc_end27:
	.size	"nm_walks::growing::claim_new_nodes", .Lfunc_end27-"nm_walks::growing::claim_new_nodes"
	.cfi_endproc
	.section	".text.nm_pool::nodes::claim","ax",@progbits
	.p2align	4
	.type	"nm_pool::nodes::claim",@function
"nm_pool::nodes::claim":
	.cfi_startproc
	pushq	%r15
	.cfi_def_cfa_offset 16
	pushq	%r14
	.cfi_def_cfa_offset 24
	pushq	%rbx
	.cfi_def_cfa_offset 32
	subq	$32, %rsp
	.cfi_def_cfa_offset 64
	.cfi_offset %rbx, -32
	.cfi_offset %r14, -24
	.cfi_offset %r15, -16
	movq	%rdi, %rsi
	xorps	%xmm0, %xmm0
	movaps	%xmm0, (%rsp)
	movq	$0, 16(%rsp)
	movl	64(%rdi), %r8d
	leal	-5(%r8), %ecx
	cmpl	$59, %ecx
	movl	$59, %eax
	cmovbl	%ecx, %eax
	leal	(,%r8,4), %ecx
	addl	80(%rdi), %ecx
	movq	(%rdi), %rdx
	movq	(%rdx,%rcx,8), %rcx
	testq	%rcx, %rcx
	je	.LBB28_1
	shrq	$5, %rcx
	movl	$64, %edx
	rep		bsfq	%rcx, %rdx
	cmpl	%edx, %eax
	movl	%edx, %edi
	cmovbl	%eax, %edi
	leal	6(%rdi), %r9d
	cmpl	%edx, %eax
	jbe	.LBB28_10
	movl	64(%rsi), %eax
	leal	5(%rdi), %ecx
	movl	%ecx, %r11d
	shrl	$6, %r11d
	leal	(%r11,%rax,4), %edx
	movl	$1, %r10d
	shlq	%cl, %r10
	addl	80(%rsi), %edx
	movq	$-2, %rbx
	rolq	%cl, %rbx
	movq	(%rsi), %r14
	.p2align	4
.LBB28_4:
	movq	(%r14,%rdx,8), %rcx
	movq	%rcx, %r15
	andq	%rbx, %r15
	movq	%rcx, %rax
	lock		cmpxchgq	%r15, (%r14,%rdx,8)
	jne	.LBB28_4
	testq	%r10, %rcx
	je	.LBB28_9
	leal	-1(,%r9,4), %ecx
	movl	80(%rsi), %eax
	addl	%ecx, %eax
	movq	(%rsi), %rdx
	movq	(%rdx,%rax,8), %rdx
	movabsq	$4611686018427387904, %rbx
	movl	80(%rsi), %eax
	cmpq	%rbx, %rdx
	je	.LBB28_7
	incq	%rdx
	addl	%ecx, %eax
	movq	(%rsi), %rcx
	movq	%rdx, %rsi
	xchgq	%rsi, (%rcx,%rax,8)
.LBB28_13:
	movl	%r9d, %eax
	addq	$32, %rsp
	.cfi_def_cfa_offset 32
	popq	%rbx
	.cfi_def_cfa_offset 24
	popq	%r14
	.cfi_def_cfa_offset 16
	popq	%r15
	.cfi_def_cfa_offset 8
	retq
.LBB28_1:
	.cfi_def_cfa_offset 64
	addl	$6, %eax
	movl	%eax, %r9d
	jmp	.LBB28_10
.LBB28_7:
	movl	64(%rsi), %ecx
	leal	(%r11,%rcx,4), %ecx
	addl	%eax, %ecx
	movq	(%rsi), %rdx
	.p2align	4
.LBB28_8:
	movq	(%rdx,%rcx,8), %rax
	movq	%rax, %r9
	orq	%r10, %r9
	lock		cmpxchgq	%r9, (%rdx,%rcx,8)
	jne	.LBB28_8
.LBB28_9:
	addl	$7, %edi
	movl	%edi, %r9d
.LBB28_10:
	incl	%r8d
	movq	%rsp, %rdi
	movl	%r9d, %edx
	movl	%r8d, %ecx
	callq	"nm_pool::nodes::claim_by_rows"
	cmpb	$1, (%rsp)
	jne	.LBB28_11
	movl	8(%rsp), %r9d
	movq	16(%rsp), %rdx
	jmp	.LBB28_13
.LBB28_11:
	xorl	%r9d, %r9d
	xorl	%edx, %edx
	jmp	.LBB28_13
.Lfunc_end28:
	.size	"nm_pool::nodes::claim", .Lfunc_end28-"nm_pool::nodes::claim"
	.cfi_endproc
	.section	".text.nm_pool::nodes::put","ax",@progbits
	.p2align	4
	.type	"nm_pool::nodes::put",@function
"nm_pool::nodes::put":
	.cfi_startproc
	movl	64(%rdi), %eax
	leal	-1(%rsi), %ecx
	movl	%ecx, %edx
	shrl	$6, %edx
	leal	(%rdx,%rax,4), %edx
	addl	80(%rdi), %edx
	movl	$1, %esi
	shlq	%cl, %rsi
	movq	(%rdi), %rcx
	.p2align	4
.LBB29_1:
	movq	(%rcx,%rdx,8), %rax
	movq	%rax, %rdi
	orq	%rsi, %rdi
	lock		cmpxchgq	%rdi, (%rcx,%rdx,8)
	jne	.LBB29_1
	retq
.Lfunc_end29:
	.size	"nm_pool::nodes::put", .Lfunc_end29-"nm_pool::nodes::put"
	.cfi_endproc
	.section	".text.unlikely.nm_pool::nodes::claim_by_rows","ax",@progbits
	.p2align	4
	.type	"nm_pool::nodes::claim_by_rows",@function
"nm_pool::nodes::claim_by_rows":
	.cfi_startproc
	pushq	%r15
	.cfi_def_cfa_offset 16
	pushq	%r14
	.cfi_def_cfa_offset 24
	pushq	%rbx
	.cfi_def_cfa_offset 32
	.cfi_offset %rbx, -32
	.cfi_offset %r14, -24
	.cfi_offset %r15, -16
	cmpl	%ecx, %edx
	jae	.LBB30_13
	movl	%ecx, %r8d
	jmp	.LBB30_2
	.p2align	4
.LBB30_3:
	addl	%edx, %eax
	movl	%eax, %r9d
.LBB30_12:
	movl	%r9d, %edx
	cmpl	%r8d, %r9d
	jae	.LBB30_13
.LBB30_2:
	movl	%r8d, %r9d
	subl	%edx, %r9d
	leal	-1(%rdx), %r10d
	movl	%r10d, %ecx
	andl	$63, %ecx
	movl	$64, %eax
	subl	%ecx, %eax
	cmpl	%r9d, %eax
	cmovael	%r9d, %eax
	movl	64(%rsi), %r9d
	shrl	$6, %r10d
	leal	(%r10,%r9,4), %r9d
	addl	80(%rsi), %r9d
	movq	(%rsi), %r10
	movq	(%r10,%r9,8), %r9
	testq	%r9, %r9
	je	.LBB30_3
	shrq	%cl, %r9
	movl	$64, %ecx
	rep		bsfq	%r9, %rcx
	cmpl	%ecx, %eax
	movl	%ecx, %r9d
	cmovbl	%eax, %r9d
	addl	%edx, %r9d
	cmpl	%ecx, %eax
	jbe	.LBB30_12
	movl	64(%rsi), %eax
	leal	-1(%r9), %ecx
	movl	%ecx, %r10d
	shrl	$6, %r10d
	leal	(%r10,%rax,4), %r11d
	movl	$1, %edx
	shlq	%cl, %rdx
	addl	80(%rsi), %r11d
	movq	$-2, %rbx
	rolq	%cl, %rbx
	movq	(%rsi), %r14
	.p2align	4
.LBB30_6:
	movq	(%r14,%r11,8), %rcx
	movq	%rcx, %r15
	andq	%rbx, %r15
	movq	%rcx, %rax
	lock		cmpxchgq	%r15, (%r14,%r11,8)
	jne	.LBB30_6
	testq	%rdx, %rcx
	je	.LBB30_11
	leal	-1(,%r9,4), %r11d
	movl	80(%rsi), %eax
	addl	%r11d, %eax
	movq	(%rsi), %rcx
	movq	(%rcx,%rax,8), %rax
	movabsq	$4611686018427387904, %rbx
	movl	80(%rsi), %ecx
	cmpq	%rbx, %rax
	jne	.LBB30_15
	movl	64(%rsi), %eax
	leal	(%r10,%rax,4), %r10d
	addl	%ecx, %r10d
	movq	(%rsi), %rcx
	.p2align	4
.LBB30_10:
	movq	(%rcx,%r10,8), %rax
	movq	%rax, %r11
	orq	%rdx, %r11
	lock		cmpxchgq	%r11, (%rcx,%r10,8)
	jne	.LBB30_10
.LBB30_11:
	incl	%r9d
	jmp	.LBB30_12
.LBB30_13:
	xorps	%xmm0, %xmm0
	movups	%xmm0, (%rdi)
	movq	$0, 16(%rdi)
	popq	%rbx
	.cfi_def_cfa_offset 24
	popq	%r14
	.cfi_def_cfa_offset 16
	popq	%r15
	.cfi_def_cfa_offset 8
	retq
.LBB30_15:
	.cfi_def_cfa_offset 32
	incq	%rax
	addl	%r11d, %ecx
	movq	(%rsi), %rdx
	movq	%rax, %rsi
	xchgq	%rsi, (%rdx,%rcx,8)
	movq	$1, (%rdi)
	movl	%r9d, 8(%rdi)
	movl	$0, 12(%rdi)
	movq	%rax, 16(%rdi)
	popq	%rbx
	.cfi_def_cfa_offset 24
	popq	%r14
	.cfi_def_cfa_offset 16
	popq	%r15
	.cfi_def_cfa_offset 8
	retq
.Lfunc_end30:
	.size	"nm_pool::nodes::claim_by_rows", .Lfunc_end30-"nm_pool::nodes::claim_by_rows"
	.cfi_endproc
	.section	".text.unlikely.nm_pool::claims::claim_in_turn","ax",@progbits
	.p2align	4
	.type	"nm_pool::claims::claim_in_turn",@function
"nm_pool::claims::claim_in_turn":
	.cfi_startproc
	pushq	%r15
	.cfi_def_cfa_offset 16
	pushq	%r14
	.cfi_def_cfa_offset 24
	pushq	%rbx
	.cfi_def_cfa_offset 32
	subq	$64, %rsp
	.cfi_def_cfa_offset 96
	.cfi_offset %rbx, -32
	.cfi_offset %r14, -24
	.cfi_offset %r15, -16
	movq	%rsi, %rbx
	movq	%rdi, %r14
	xorps	%xmm0, %xmm0
	movaps	%xmm0, 32(%rsp)
	movq	$0, 48(%rsp)
	movaps	%xmm0, (%rsp)
	movq	$0, 16(%rsp)
	movl	64(%rdi), %ecx
	movl	4(%rsi), %eax
	cmpl	$7, %eax
	movl	$6, %edx
	movl	$6, %r15d
	cmovael	%eax, %r15d
	cmpl	%ecx, %eax
	cmoval	%edx, %r15d
	leal	-1(%r15), %eax
	andl	$63, %eax
	subl	%eax, %r15d
	cmpl	$7, %r15d
	cmovbl	%edx, %r15d
	incl	%ecx
	leaq	32(%rsp), %rdi
	movq	%r14, %rsi
	movl	%r15d, %edx
	callq	"nm_pool::nodes::claim_by_rows"
	cmpb	$1, 32(%rsp)
	jne	.LBB31_2
	movl	40(%rsp), %eax
	movq	48(%rsp), %rdx
.LBB31_5:
	movl	%eax, 4(%rbx)
.LBB31_6:
	addq	$64, %rsp
	.cfi_def_cfa_offset 32
	popq	%rbx
	.cfi_def_cfa_offset 24
	popq	%r14
	.cfi_def_cfa_offset 16
	popq	%r15
	.cfi_def_cfa_offset 8
	retq
.LBB31_2:
	.cfi_def_cfa_offset 96
	movq	%rsp, %rdi
	movq	%r14, %rsi
	movl	$6, %edx
	movl	%r15d, %ecx
	callq	"nm_pool::nodes::claim_by_rows"
	cmpb	$1, (%rsp)
	jne	.LBB31_3
	movl	8(%rsp), %eax
	movq	16(%rsp), %rdx
	jmp	.LBB31_5
.LBB31_3:
	xorl	%edx, %edx
	xorl	%eax, %eax
	jmp	.LBB31_6
.Lfunc_end31:
	.size	"nm_pool::claims::claim_in_turn", .Lfunc_end31-"nm_pool::claims::claim_in_turn"
	.cfi_endproc
	.section	".text.nm_walks::growing::grow","ax",@progbits
	.p2align	4
	.type	"nm_walks::growing::grow",@function
"nm_walks::growing::grow":
	.cfi_startproc
	pushq	%r15
	.cfi_def_cfa_offset 16
	pushq	%r14
	.cfi_def_cfa_offset 24
	pushq	%rbx
	.cfi_def_cfa_offset 32
	.cfi_offset %rbx, -32
	.cfi_offset %r14, -24
	.cfi_offset %r15, -16
	movq	%rcx, %r10
	movq	24(%rcx), %rax
	movq	32(%rcx), %r14
	movq	%rax, %r11
	shrq	$2, %r11
	cmpq	%r14, %rsi
	movq	%r14, %rbx
	cmovaq	%rsi, %rbx
	testb	$1, 76(%rdi)
	je	.LBB32_2
	movq	%r14, %rcx
	xorq	%rsi, %rcx
	movl	$127, %r15d
	bsrq	%rcx, %r15
	xorl	$63, %r15d
	movb	$63, %cl
	subb	%r15b, %cl
	shrq	%cl, %rbx
	shlq	%cl, %rbx
.LBB32_2:
	cmpq	%r14, %rsi
	movl	%r11d, %ecx
	cmovbl	%r9d, %ecx
	movl	80(%rdi), %r14d
	leal	-4(%r14,%r8,4), %r14d
	movq	(%rdi), %r15
	xchgq	%rbx, (%r15,%r14,8)
	cmovael	%r9d, %r11d
	movl	80(%rdi), %ebx
	leal	(%rbx,%r8,4), %ebx
	addl	$-3, %ebx
	shlq	$2, %rcx
	movq	(%rdi), %r14
	xchgq	%rcx, (%r14,%rbx,8)
	movl	80(%rdi), %ecx
	leal	(%rcx,%r8,4), %ecx
	addl	$-2, %ecx
	shlq	$2, %r11
	movq	(%rdi), %rbx
	xchgq	%r11, (%rbx,%rcx,8)
	movl	80(%rdi), %ecx
	leal	-4(%rcx,%r9,4), %ecx
	movq	(%rdi), %r11
	xchgq	%rsi, (%r11,%rcx,8)
	movl	80(%rdi), %ecx
	leal	(%rcx,%r9,4), %ecx
	addl	$-3, %ecx
	movq	(%rdi), %rsi
	xorl	%r11d, %r11d
	xorl	%ebx, %ebx
	xchgq	%rbx, (%rsi,%rcx,8)
	movl	80(%rdi), %ecx
	leal	(%rcx,%r9,4), %ecx
	addl	$-2, %ecx
	movq	(%rdi), %rsi
	xchgq	%r11, (%rsi,%rcx,8)
	cmpb	$1, 84(%rdi)
	jne	.LBB32_4
	movl	64(%rdi), %ecx
	leal	(,%rcx,4), %esi
	movl	%ecx, %r11d
	shrl	$6, %r11d
	andl	$63, %ecx
	addl	80(%rdi), %esi
	addl	%r11d, %esi
	cmpl	$1, %ecx
	sbbl	$-1, %esi
	decl	%r9d
	addq	%rsi, %r9
	movq	(%rdi), %rcx
	xchgq	%rdx, (%rcx,%r9,8)
.LBB32_4:
	movl	12(%r10), %ecx
	shll	$2, %ecx
	addl	80(%rdi), %ecx
	cmpb	$1, 16(%r10)
	sbbl	$0, %ecx
	addl	$-2, %ecx
	movabsq	$17179869180, %rdx
	andq	%rdx, %rax
	movl	%r8d, %esi
	shlq	$2, %rsi
	movq	(%rdi), %rdi
	xorl	%edx, %edx
	lock		cmpxchgq	%rsi, (%rdi,%rcx,8)
	setne	%cl
	cmovneq	%rax, %rdx
	movl	%ecx, %eax
	popq	%rbx
	.cfi_def_cfa_offset 24
	popq	%r14
	.cfi_def_cfa_offset 16
	popq	%r15
	.cfi_def_cfa_offset 8
	retq
.Lfunc_end32:
	.size	"nm_walks::growing::grow", .Lfunc_end32-"nm_walks::growing::grow"
	.cfi_endproc
	.section	".text.nm_tree::tree::Tree::delete_with_value","ax",@progbits
	.p2align	4
	.type	"nm_tree::tree::Tree::delete_with_value",@function
"nm_tree::tree::Tree::delete_with_value":
	.cfi_startproc
	pushq	%rbp
	.cfi_def_cfa_offset 16
	pushq	%r15
	.cfi_def_cfa_offset 24
	pushq	%r14
	.cfi_def_cfa_offset 32
	pushq	%r13
	.cfi_def_cfa_offset 40
	pushq	%r12
	.cfi_def_cfa_offset 48
	pushq	%rbx
	.cfi_def_cfa_offset 56
	subq	$168, %rsp
	.cfi_def_cfa_offset 224
	.cfi_offset %rbx, -56
	.cfi_offset %r12, -48
	.cfi_offset %r13, -40
	.cfi_offset %r14, -32
	.cfi_offset %r15, -24
	.cfi_offset %rbp, -16
	movq	%rdx, %r12
	movb	$1, %al
	movb	$4, %dl
	cmpb	$2, 96(%rsi)
	je	.LBB33_71
	movl	%r8d, %ebp
	testl	%r8d, %r8d
	je	.LBB33_14
	movq	%rsi, %rbx
	movq	%rcx, %r15
	movq	88(%rsi), %rax
	movq	128(%rsi), %rcx
	movq	%rcx, 8(%rsp)
	leaq	(%rax,%rax,2), %r14
	shlq	$5, %r14
	addq	64(%rsi), %r14
	movl	48(%r14), %eax
	cmpl	$3, %eax
	movq	%rdi, 24(%rsp)
	ja	.LBB33_4
	movl	60(%r14), %ecx
	addl	24(%r14), %eax
	shll	$5, %eax
	addl	56(%r14), %ecx
	subl	%ecx, %eax
	cmpl	$127, %eax
	jbe	.LBB33_11
.LBB33_4:
	movq	(%rdi), %rax
	movq	(%rax), %rax
	movq	$1, 8(%rbx)
	movq	%rax, 16(%rbx)
	leaq	24(%rbx), %rcx
	movq	%rcx, 64(%rsp)
	movl	%ebp, %ecx
	.p2align	4
.LBB33_5:
	movl	4(%rbx), %edx
	leaq	1(%rax), %rsi
	movq	(%rdi), %r8
	xchgq	%rsi, (%r8,%rdx,8)
	movq	$1, 24(%rbx)
	movq	%rax, 32(%rbx)
	movq	(%rdi), %rdx
	movq	(%rdx), %rdx
	movq	$1, 8(%rbx)
	movq	%rdx, 16(%rbx)
	cmpq	%rax, %rdx
	je	.LBB33_15
	movq	%rdx, %rax
	decl	%ecx
	jne	.LBB33_5
	movq	(%rdi), %rax
	movl	4(%rbx), %ecx
	xorl	%edx, %edx
	xorl	%esi, %esi
	xchgq	%rsi, (%rax,%rcx,8)
.LBB33_8:
	xorps	%xmm0, %xmm0
	movq	64(%rsp), %rax
	movups	%xmm0, 16(%rax)
	movups	%xmm0, (%rax)
	jmp	.LBB33_70
	.p2align	4
.LBB33_9:
	movq	40(%r14), %rax
	movq	$0, (%rdx)
	movq	%rdx, (%rax)
.LBB33_10:
	movq	24(%rsp), %rdi
	movq	%rdx, 40(%r14)
	movl	48(%r14), %eax
	movl	60(%r14), %ecx
	incl	%eax
	movl	%eax, 48(%r14)
	addl	24(%r14), %eax
	shll	$5, %eax
	addl	56(%r14), %ecx
	subl	%ecx, %eax
	cmpl	$128, %eax
	jae	.LBB33_4
.LBB33_11:
	movl	$776, %edi
	movl	$8, %esi
	callq	nm_host_alloc@PLT
	testb	$1, %al
	je	.LBB33_69
	cmpl	$0, 48(%r14)
	jne	.LBB33_9
	movq	$0, (%rdx)
	movq	%rdx, 32(%r14)
	jmp	.LBB33_10
.LBB33_14:
	xorl	%edx, %edx
	jmp	.LBB33_71
.LBB33_15:
	movq	%r15, 136(%rsp)
	movq	$1, 40(%rbx)
	movq	%rax, 48(%rbx)
	movq	8(%rsp), %r8
	leaq	528(%r8), %rax
	movq	%rax, 80(%rsp)
	leaq	1048(%r8), %rax
	movq	%rax, 48(%rsp)
	xorl	%r15d, %r15d
	movq	%r12, 56(%rsp)
	movq	%rbx, 16(%rsp)
	movq	%r14, 72(%rsp)
	movl	%ebp, 36(%rsp)
	jmp	.LBB33_18
.LBB33_16:
	movq	80(%r11), %rax
	incq	%rax
	movq	$-1, %rcx
	cmovneq	%rax, %rcx
	movq	%rcx, 80(%r11)
	movq	8(%rsp), %r8
	.p2align	4
.LBB33_17:
	movl	40(%rsp), %r15d
	incl	%r15d
	movl	36(%rsp), %ebp
	cmpl	%ebp, %r15d
	movq	16(%rsp), %rbx
	movq	72(%rsp), %r14
	movq	56(%rsp), %r12
	je	.LBB33_72
.LBB33_18:
	testl	%r15d, %r15d
	je	.LBB33_21
	movl	48(%r14), %eax
	cmpl	$3, %eax
	ja	.LBB33_21
	movl	60(%r14), %ecx
	addl	24(%r14), %eax
	shll	$5, %eax
	addl	56(%r14), %ecx
	subl	%ecx, %eax
	cmpl	$127, %eax
	jbe	.LBB33_32
	.p2align	4
.LBB33_21:
	movl	%r15d, 40(%rsp)
	movq	1040(%r8), %rdx
	testq	%rdx, %rdx
	je	.LBB33_23
	shlq	$3, %rdx
	movq	80(%rsp), %rdi
	xorl	%esi, %esi
	callq	memset@PLT
	movq	8(%rsp), %r8
	movq	$0, 1040(%r8)
.LBB33_23:
	movq	24(%rsp), %rdi
	movl	64(%rdi), %edx
	movl	80(%rdi), %esi
	movq	(%rdi), %rax
	decl	%edx
	testb	$1, 76(%rdi)
	leal	4(%rsi), %ecx
	movq	8(%rax,%rcx,8), %r15
	movl	$65, %eax
	cmovnel	%eax, %edx
	testl	%edx, %edx
	je	.LBB33_35
	addl	$-4, %esi
	movl	$4, %ebx
	movl	$8, %r9d
	xorl	%ecx, %ecx
	.p2align	4
.LBB33_25:
	movl	%r9d, %r13d
	testb	$3, %r15b
	jne	.LBB33_29
	movq	(%rdi), %r9
	leal	(%rsi,%r15), %r8d
	movq	(%r9,%r8,8), %r11
	movq	(%rdi), %r9
	movq	8(%r9,%r8,8), %r9
	movq	(%rdi), %r10
	movq	16(%r10,%r8,8), %r8
	cmpq	%r11, %r12
	cmovbq	%r9, %r8
	testq	%r8, %r8
	je	.LBB33_45
	xorl	%r9d, %r9d
	cmpq	%r11, %r12
	setae	%r9b
	orl	%r15d, %r9d
	incl	%ecx
	movq	%r8, %r15
	movl	%r13d, %ebx
	cmpl	%ecx, %edx
	jne	.LBB33_25
	movl	%r13d, %ebx
	movl	%r9d, %r13d
	movq	%r8, %r15
	movl	%edx, %ecx
.LBB33_29:
	movq	8(%rsp), %r8
	jmp	.LBB33_36
	.p2align	4
.LBB33_30:
	movq	40(%r14), %rax
	movq	$0, (%rdx)
	movq	%rdx, (%rax)
.LBB33_31:
	movq	8(%rsp), %r8
	movq	%rdx, 40(%r14)
	movl	48(%r14), %eax
	movl	60(%r14), %ecx
	incl	%eax
	movl	%eax, 48(%r14)
	addl	24(%r14), %eax
	shll	$5, %eax
	addl	56(%r14), %ecx
	subl	%ecx, %eax
	cmpl	$128, %eax
	jae	.LBB33_21
.LBB33_32:
	movl	$776, %edi
	movl	$8, %esi
	callq	nm_host_alloc@PLT
	testb	$1, %al
	je	.LBB33_68
	cmpl	$0, 48(%r14)
	jne	.LBB33_30
	movq	$0, (%rdx)
	movq	%rdx, 32(%r14)
	jmp	.LBB33_31
	.p2align	4
.LBB33_35:
	xorl	%ecx, %ecx
	movl	$8, %r13d
	movl	$4, %ebx
.LBB33_36:
	movl	64(%rdi), %r12d
	decl	%r12d
	testb	$1, 76(%rdi)
	cmovnel	%eax, %r12d
	subl	%ecx, %r12d
	jbe	.LBB33_17
	movl	80(%rdi), %eax
	movl	%ebx, %r9d
	shrl	$2, %r9d
	andb	$1, %bl
	movl	%ebx, 44(%rsp)
	movl	%r13d, %ebp
	shrl	$2, %ebp
	andb	$1, %r13b
	addl	$-4, %eax
	movq	%rax, 88(%rsp)
	movl	%r13d, %r14d
	movl	%ebp, %r10d
	jmp	.LBB33_39
	.p2align	4
.LBB33_38:
	movl	%ebp, %r10d
	movq	%rbx, %r9
	movl	%r13d, 44(%rsp)
	decl	%r12d
	je	.LBB33_17
.LBB33_39:
	movl	%ebp, %ebx
	movl	%r14d, %r13d
	movq	%r15, %rax
	movq	%r15, %rbp
	shrq	$2, %rbp
	movq	(%rdi), %rcx
	movq	88(%rsp), %rdx
	leal	(%rdx,%rbp,4), %edx
	movq	(%rcx,%rdx,8), %r11
	movq	(%rdi), %rcx
	movq	8(%rcx,%rdx,8), %rcx
	movq	(%rdi), %rsi
	movq	16(%rsi,%rdx,8), %r15
	cmpq	%r11, 56(%rsp)
	setae	%r14b
	cmovbq	%rcx, %r15
	testq	%r15, %r15
	je	.LBB33_46
	movq	1040(%r8), %rdx
	testb	$2, %al
	jne	.LBB33_43
	testq	%rdx, %rdx
	je	.LBB33_38
	shlq	$3, %rdx
	movq	80(%rsp), %rdi
	xorl	%esi, %esi
	callq	memset@PLT
	movq	8(%rsp), %r8
	movq	24(%rsp), %rdi
	movq	$0, 1040(%r8)
	jmp	.LBB33_38
	.p2align	4
.LBB33_43:
	leaq	1(%rdx), %rax
	cmpq	$63, %rax
	ja	.LBB33_17
	movzbl	%r13b, %ecx
	shlq	$32, %rcx
	movl	%ebx, %esi
	orq	%rcx, %rsi
	movq	%rsi, 528(%r8,%rdx,8)
	movq	%rax, 1040(%r8)
	movl	44(%rsp), %r13d
	movl	%r13d, 44(%rsp)
	decl	%r12d
	jne	.LBB33_39
	jmp	.LBB33_17
.LBB33_45:
	movl	%r13d, %r10d
	shrl	$2, %r10d
	movl	%ebx, %r9d
	shrl	$2, %r9d
	andb	$1, %bl
	movl	%ebx, 44(%rsp)
	andb	$1, %r13b
	movl	%r10d, %ebx
	movq	8(%rsp), %r8
	cmpq	%r12, %r11
	je	.LBB33_47
	jmp	.LBB33_73
.LBB33_46:
	movq	%rax, %r15
	movq	56(%rsp), %r12
	cmpq	%r12, %r11
	jne	.LBB33_73
.LBB33_47:
	movq	%r15, %r11
	shrq	$2, %r11
	movq	(%rdi), %rax
	movl	80(%rdi), %ecx
	leal	(%rcx,%r11,4), %ecx
	decl	%ecx
	movq	(%rax,%rcx,8), %r14
	movq	(%rdi), %rcx
	movq	%rbx, 88(%rsp)
	leal	(,%rbx,4), %ebx
	movl	80(%rdi), %edx
	addl	%ebx, %edx
	cmpb	$1, %r13b
	sbbl	$0, %edx
	addl	$-2, %edx
	movabsq	$17179869180, %rax
	andq	%r15, %rax
	leaq	1(%rax), %rsi
	lock		cmpxchgq	%rsi, (%rcx,%rdx,8)
	je	.LBB33_74
	testb	$3, %al
	je	.LBB33_17
	shrq	$2, %rax
	cmpl	%r11d, %eax
	jne	.LBB33_17
	movq	1040(%r8), %r12
	movq	3096(%r8), %rdx
	testq	%rdx, %rdx
	je	.LBB33_52
	shlq	$4, %rdx
	movq	48(%rsp), %rdi
	xorl	%esi, %esi
	movq	%r9, %r14
	movl	%r10d, %ebp
	callq	memset@PLT
	movl	%ebp, %r10d
	movq	%r14, %r9
	movq	8(%rsp), %r8
	movq	24(%rsp), %rdi
	movq	$0, 3096(%r8)
.LBB33_52:
	xorl	%eax, %eax
	testb	%r13b, %r13b
	sete	%al
	movl	80(%rdi), %ecx
	movq	(%rdi), %rdx
	addl	%ebx, %ecx
	addl	$-4, %ecx
	movq	%rcx, %rsi
	subq	%rax, %rsi
	movq	16(%rdx,%rsi,8), %rdx
	movq	(%rdi), %rsi
	addq	%rcx, %rax
	movq	8(%rsi,%rax,8), %rax
	testb	$1, %dl
	jne	.LBB33_54
	testb	$1, %al
	je	.LBB33_17
	jmp	.LBB33_55
.LBB33_54:
	testb	%r13b, %r13b
	sete	%r13b
.LBB33_55:
	movl	%r10d, %ebp
	movq	%r9, %r14
	movq	(%rdi), %rcx
	addl	80(%rdi), %ebx
	cmpb	$1, %r13b
	sbbl	$0, %ebx
	addl	$-2, %ebx
	.p2align	4
.LBB33_56:
	movq	(%rcx,%rbx,8), %r15
	movq	%r15, %rdx
	orq	$2, %rdx
	movq	%r15, %rax
	lock		cmpxchgq	%rdx, (%rcx,%rbx,8)
	jne	.LBB33_56
	movzbl	%r13b, %r8d
	movq	80(%rsp), %rsi
	movq	%r12, %rdx
	movq	88(%rsp), %rcx
	movq	48(%rsp), %r9
	callq	"nm_walks::cutting::freeze"
	movq	24(%rsp), %rdi
	shll	$2, %r14d
	addl	80(%rdi), %r14d
	cmpb	$1, 44(%rsp)
	sbbl	$0, %r14d
	addl	$-2, %r14d
	movl	%ebp, %eax
	shlq	$2, %rax
	andq	$-3, %r15
	movq	(%rdi), %rcx
	lock		cmpxchgq	%r15, (%rcx,%r14,8)
	movq	8(%rsp), %r8
	jne	.LBB33_17
	movq	16(%rsp), %rcx
	movb	$1, 56(%rcx)
	movq	(%rdi), %rax
	movq	(%rax), %rax
	testb	$1, 56(%rcx)
	je	.LBB33_108
	movq	$1, 8(%rcx)
	movq	%rax, 16(%rcx)
	movb	$0, 56(%rcx)
	movq	3096(%r8), %rcx
	testq	%rcx, %rcx
	movq	72(%rsp), %r11
	je	.LBB33_16
	movl	60(%r11), %esi
	movq	48(%rsp), %rdx
	jmp	.LBB33_63
	.p2align	4
.LBB33_61:
	movq	16(%r11), %r10
.LBB33_62:
	addq	$16, %rdx
	decq	%rcx
	subl	%r8d, %esi
	addl	$32, %esi
	leaq	(%rsi,%rsi,2), %rsi
	movaps	96(%rsp), %xmm0
	movups	%xmm0, 8(%r10,%rsi,8)
	movq	%rax, 24(%r10,%rsi,8)
	movl	60(%r11), %esi
	incl	%esi
	movl	%esi, 60(%r11)
	testq	%rcx, %rcx
	je	.LBB33_16
.LBB33_63:
	movups	(%rdx), %xmm0
	movaps	%xmm0, 96(%rsp)
	addl	56(%r11), %esi
	movl	24(%r11), %r9d
	movl	%r9d, %r8d
	shll	$5, %r8d
	cmpl	%r8d, %esi
	jne	.LBB33_61
	movq	32(%r11), %r10
	movq	(%r10), %r8
	movq	%r8, 32(%r11)
	decl	48(%r11)
	testl	%r9d, %r9d
	je	.LBB33_66
	movq	16(%r11), %r8
	movq	$0, (%r10)
	movq	%r10, (%r8)
	jmp	.LBB33_67
.LBB33_66:
	movq	$0, (%r10)
	movq	%r10, 8(%r11)
.LBB33_67:
	movq	%r10, 16(%r11)
	movl	24(%r11), %r8d
	incl	%r8d
	movl	%r8d, 24(%r11)
	shll	$5, %r8d
	jmp	.LBB33_62
.LBB33_68:
	movq	24(%rsp), %rax
	movq	(%rax), %rax
	movl	4(%rbx), %ecx
	xorl	%edx, %edx
	xchgq	%rdx, (%rax,%rcx,8)
	xorps	%xmm0, %xmm0
	movq	64(%rsp), %rax
	movups	%xmm0, 16(%rax)
	movups	%xmm0, (%rax)
.LBB33_69:
	movb	$2, %dl
.LBB33_70:
	movb	$1, %al
.LBB33_71:
	addq	$168, %rsp
	.cfi_def_cfa_offset 56
	popq	%rbx
	.cfi_def_cfa_offset 48
	popq	%r12
	.cfi_def_cfa_offset 40
	popq	%r13
	.cfi_def_cfa_offset 32
	popq	%r14
	.cfi_def_cfa_offset 24
	popq	%r15
	.cfi_def_cfa_offset 16
	popq	%rbp
	.cfi_def_cfa_offset 8
	retq
.LBB33_72:
	.cfi_def_cfa_offset 224
	movq	(%rdi), %rax
	movl	4(%rbx), %ecx
	xorl	%edx, %edx
	xorl	%esi, %esi
	xchgq	%rsi, (%rax,%rcx,8)
	jmp	.LBB33_8
.LBB33_73:
	movq	(%rdi), %rax
	movq	16(%rsp), %rcx
	movl	4(%rcx), %ecx
	xorl	%edx, %edx
	xorl	%esi, %esi
	xchgq	%rsi, (%rax,%rcx,8)
	xorps	%xmm0, %xmm0
	movq	64(%rsp), %rax
	movups	%xmm0, 16(%rax)
	movups	%xmm0, (%rax)
	xorl	%eax, %eax
	jmp	.LBB33_71
.LBB33_74:
	movq	%r14, 56(%rsp)
	cmpb	$1, 84(%rdi)
	movq	136(%rsp), %rsi
	movq	%r11, 120(%rsp)
	movq	%rbx, 128(%rsp)
	jne	.LBB33_76
	movl	64(%rdi), %eax
	leal	(,%rax,4), %ecx
	movl	%eax, %edx
	shrl	$6, %edx
	andl	$63, %eax
	addl	80(%rdi), %ecx
	addl	%edx, %ecx
	cmpl	$1, %eax
	sbbl	$-1, %ecx
	movl	%r11d, %eax
	decl	%eax
	addq	%rcx, %rax
	movq	(%rdi), %rcx
	movq	(%rcx,%rax,8), %rax
	jmp	.LBB33_77
.LBB33_76:
	xorl	%eax, %eax
.LBB33_77:
	movq	72(%rsp), %r14
	movl	36(%rsp), %ebp
	movl	40(%rsp), %edx
	movq	%rax, (%rsi)
	movq	72(%r14), %rax
	incq	%rax
	movq	$-1, %rcx
	cmovneq	%rax, %rcx
	movq	%rcx, 72(%r14)
	notl	%edx
	xorps	%xmm0, %xmm0
	movaps	%xmm0, 96(%rsp)
	movq	$0, 112(%rsp)
	addl	%edx, %ebp
	je	.LBB33_89
	movl	48(%r14), %eax
	cmpl	$3, %eax
	ja	.LBB33_80
	movl	60(%r14), %ecx
	addl	24(%r14), %eax
	shll	$5, %eax
	addl	56(%r14), %ecx
	subl	%ecx, %eax
	cmpl	$127, %eax
	jbe	.LBB33_86
.LBB33_80:
	movq	8(%rsp), %rax
	movq	1040(%rax), %r11
	movq	3096(%rax), %rdx
	testq	%rdx, %rdx
	je	.LBB33_82
	shlq	$4, %rdx
	movq	48(%rsp), %rdi
	xorl	%esi, %esi
	movq	%r9, %r15
	movl	%ebp, 36(%rsp)
	movl	%r10d, %ebp
	movq	%r11, %rbx
	callq	memset@PLT
	movq	%rbx, %r11
	movl	%ebp, %r10d
	movl	36(%rsp), %ebp
	movq	%r15, %r9
	movq	24(%rsp), %rdi
	movq	8(%rsp), %rax
	movq	$0, 3096(%rax)
.LBB33_82:
	xorl	%eax, %eax
	testb	%r13b, %r13b
	sete	%al
	movl	80(%rdi), %ecx
	movq	(%rdi), %rdx
	movq	128(%rsp), %rbx
	addl	%ebx, %ecx
	addl	$-4, %ecx
	movq	%rcx, %rsi
	subq	%rax, %rsi
	movq	16(%rdx,%rsi,8), %rdx
	movq	(%rdi), %rsi
	addq	%rcx, %rax
	movq	8(%rsi,%rax,8), %rax
	testb	$1, %dl
	jne	.LBB33_90
	testb	$1, %al
	jne	.LBB33_91
	jmp	.LBB33_104
.LBB33_84:
	movq	40(%r14), %rax
	movq	$0, (%rdx)
	movq	%rdx, (%rax)
.LBB33_85:
	movq	%rdx, 40(%r14)
	movl	48(%r14), %eax
	movl	60(%r14), %ecx
	incl	%eax
	movl	%eax, 48(%r14)
	addl	24(%r14), %eax
	shll	$5, %eax
	addl	56(%r14), %ecx
	subl	%ecx, %eax
	cmpl	$128, %eax
	jae	.LBB33_80
.LBB33_86:
	movl	$776, %edi
	movl	$8, %esi
	movq	%r9, %r15
	movl	%ebp, %ebx
	movl	%r10d, %ebp
	callq	nm_host_alloc@PLT
	movq	24(%rsp), %rdi
	testb	$1, %al
	je	.LBB33_89
	movl	%ebp, %r10d
	movl	%ebx, %ebp
	movq	%r15, %r9
	cmpl	$0, 48(%r14)
	jne	.LBB33_84
	movq	$0, (%rdx)
	movq	%rdx, 32(%r14)
	jmp	.LBB33_85
.LBB33_89:
	movq	16(%rsp), %rbx
	movq	120(%rsp), %r15
	movq	56(%rsp), %r13
	jmp	.LBB33_105
.LBB33_90:
	testb	%r13b, %r13b
	sete	%r13b
.LBB33_91:
	movl	%r10d, 40(%rsp)
	movq	%r9, %r15
	movq	(%rdi), %rcx
	addl	80(%rdi), %ebx
	cmpb	$1, %r13b
	sbbl	$0, %ebx
	addl	$-2, %ebx
.LBB33_92:
	movq	(%rcx,%rbx,8), %rsi
	movq	%rsi, %rdx
	orq	$2, %rdx
	movq	%rsi, %rax
	lock		cmpxchgq	%rdx, (%rcx,%rbx,8)
	jne	.LBB33_92
	movzbl	%r13b, %r8d
	movq	%rsi, %rbx
	movq	80(%rsp), %rsi
	movq	%r11, %rdx
	movq	88(%rsp), %rcx
	movq	48(%rsp), %r9
	callq	"nm_walks::cutting::freeze"
	movq	24(%rsp), %rdi
	shll	$2, %r15d
	addl	80(%rdi), %r15d
	cmpb	$1, 44(%rsp)
	sbbl	$0, %r15d
	addl	$-2, %r15d
	movl	40(%rsp), %eax
	shlq	$2, %rax
	andq	$-3, %rbx
	movq	(%rdi), %rcx
	lock		cmpxchgq	%rbx, (%rcx,%r15,8)
	jne	.LBB33_104
	movq	16(%rsp), %rbx
	movb	$1, 56(%rbx)
	movq	(%rdi), %rax
	movq	(%rax), %rax
	testb	$1, 56(%rbx)
	movq	8(%rsp), %rcx
	je	.LBB33_113
	movq	$1, 8(%rbx)
	movq	%rax, 16(%rbx)
	movb	$0, 56(%rbx)
	movq	3096(%rcx), %rcx
	testq	%rcx, %rcx
	movq	48(%rsp), %r8
	je	.LBB33_106
	movl	60(%r14), %edx
	jmp	.LBB33_99
.LBB33_97:
	movq	16(%r14), %rsi
	movq	%r10, %r8
.LBB33_98:
	addq	$16, %r8
	decq	%rcx
	subl	%r9d, %edx
	addl	$32, %edx
	leaq	(%rdx,%rdx,2), %rdx
	movaps	144(%rsp), %xmm0
	movups	%xmm0, 8(%rsi,%rdx,8)
	movq	%rax, 24(%rsi,%rdx,8)
	movl	60(%r14), %edx
	incl	%edx
	movl	%edx, 60(%r14)
	testq	%rcx, %rcx
	je	.LBB33_106
.LBB33_99:
	movq	%r8, %r10
	movups	(%r8), %xmm0
	movaps	%xmm0, 144(%rsp)
	addl	56(%r14), %edx
	movl	24(%r14), %r8d
	movl	%r8d, %r9d
	shll	$5, %r9d
	cmpl	%r9d, %edx
	jne	.LBB33_97
	movq	32(%r14), %rsi
	movq	(%rsi), %r9
	movq	%r9, 32(%r14)
	decl	48(%r14)
	testl	%r8d, %r8d
	je	.LBB33_102
	movq	16(%r14), %r8
	movq	$0, (%rsi)
	movq	%rsi, (%r8)
	jmp	.LBB33_103
.LBB33_102:
	movq	$0, (%rsi)
	movq	%rsi, 8(%r14)
.LBB33_103:
	movq	%r10, %r8
	movq	%rsi, 16(%r14)
	movl	24(%r14), %r9d
	incl	%r9d
	movl	%r9d, 24(%r14)
	shll	$5, %r9d
	jmp	.LBB33_98
.LBB33_104:
	movq	%r12, 96(%rsp)
	movq	120(%rsp), %r15
	movl	%r15d, 104(%rsp)
	movl	$0, 108(%rsp)
	movq	56(%rsp), %r13
	movq	%r13, 112(%rsp)
	decl	%ebp
	leaq	96(%rsp), %r8
	movq	16(%rsp), %rbx
	movq	%rbx, %rsi
	movq	8(%rsp), %rdx
	movq	%r14, %rcx
	movl	%ebp, %r9d
	callq	"nm_calls::deleting::remove"
	movq	24(%rsp), %rdi
	testb	%al, %al
	je	.LBB33_107
.LBB33_105:
	movq	$2, 96(%rbx)
	movq	%r12, 104(%rbx)
	movl	%r15d, 112(%rbx)
	movl	$0, 116(%rbx)
	movq	%r13, 120(%rbx)
	movb	$3, %dl
	jmp	.LBB33_70
.LBB33_106:
	movq	80(%r14), %rax
	incq	%rax
	movq	$-1, %rcx
	cmovneq	%rax, %rcx
	movq	%rcx, 80(%r14)
.LBB33_107:
	movq	(%rdi), %rax
	movl	4(%rbx), %ecx
	xorl	%edx, %edx
	xchgq	%rdx, (%rax,%rcx,8)
	xorl	%eax, %eax
	xorps	%xmm0, %xmm0
	movq	64(%rsp), %rcx
	movups	%xmm0, 16(%rcx)
	movups	%xmm0, (%rcx)
	movb	$1, %dl
	jmp	.LBB33_71
.LBB33_108:
	cmpb	$0, 40(%rcx)
	jne	.LBB33_114
.LBB33_109:
	movq	16(%rsp), %rcx
	cmpb	$1, 24(%rcx)
	jne	.LBB33_114
	movq	16(%rsp), %rcx
	cmpq	%rax, 32(%rcx)
	movq	$1, 8(%rcx)
	movq	%rax, 16(%rcx)
	jne	.LBB33_112
	movq	16(%rsp), %rcx
	movq	$1, 40(%rcx)
	movq	%rax, 48(%rcx)
.LBB33_112:
	ud2
.LBB33_113:
	cmpb	$0, 40(%rbx)
	je	.LBB33_109
.LBB33_114:
	movq	16(%rsp), %rcx
	movq	$1, 8(%rcx)
	movq	%rax, 16(%rcx)
	ud2
.Lfunc_end33:
	.size	"nm_tree::tree::Tree::delete_with_value", .Lfunc_end33-"nm_tree::tree::Tree::delete_with_value"
	.cfi_endproc
	.section	".text.nm_tree::tree::Tree::pin","ax",@progbits
	.p2align	4
	.type	"nm_tree::tree::Tree::pin",@function
"nm_tree::tree::Tree::pin":
	.cfi_startproc
	pushq	%rbx
	.cfi_def_cfa_offset 16
	.cfi_offset %rbx, -16
	xorps	%xmm0, %xmm0
	movaps	%xmm0, -16(%rsp)
	cmpb	$2, 96(%rdx)
	jne	.LBB34_2
	movq	$1, (%rdi)
	movq	$1, 8(%rdi)
	movq	$0, 16(%rdi)
	popq	%rbx
	.cfi_def_cfa_offset 8
	retq
.LBB34_2:
	.cfi_def_cfa_offset 16
	movq	(%rsi), %rax
	movq	(%rax), %rax
	movq	$1, 8(%rdx)
	movq	%rax, 16(%rdx)
	movl	$1, %r8d
	testl	%ecx, %ecx
	je	.LBB34_3
	leaq	24(%rdx), %r9
	.p2align	4
.LBB34_6:
	movl	4(%rdx), %r10d
	leaq	1(%rax), %r11
	movq	(%rsi), %rbx
	xchgq	%r11, (%rbx,%r10,8)
	movq	$1, 24(%rdx)
	movq	%rax, 32(%rdx)
	movq	(%rsi), %rax
	movq	(%rax), %rax
	testb	$1, 56(%rdx)
	jne	.LBB34_13
	cmpb	$0, 40(%rdx)
	jne	.LBB34_14
	cmpb	$1, 24(%rdx)
	jne	.LBB34_14
	cmpq	%rax, 32(%rdx)
	movq	$1, 8(%rdx)
	movq	%rax, 16(%rdx)
	je	.LBB34_10
	decl	%ecx
	jne	.LBB34_6
	movq	(%rsi), %rsi
	movl	4(%rdx), %edx
	xorl	%ecx, %ecx
	xorl	%r10d, %r10d
	xchgq	%r10, (%rsi,%rdx,8)
	xorps	%xmm0, %xmm0
	movups	%xmm0, 16(%r9)
	movups	%xmm0, (%r9)
	jmp	.LBB34_11
.LBB34_3:
	xorl	%ecx, %ecx
	jmp	.LBB34_11
.LBB34_10:
	movq	$1, 40(%rdx)
	movq	%rax, 48(%rdx)
	movq	$1, 96(%rdx)
	movq	%rax, 104(%rdx)
	movaps	-16(%rsp), %xmm0
	movups	%xmm0, 112(%rdx)
	xorl	%r8d, %r8d
	movq	%rax, %rcx
	xorl	%eax, %eax
.LBB34_11:
	movq	%r8, (%rdi)
	movq	%rcx, 8(%rdi)
	movq	%rax, 16(%rdi)
	popq	%rbx
	.cfi_def_cfa_offset 8
	retq
.LBB34_13:
	.cfi_def_cfa_offset 16
	movq	$1, 8(%rdx)
	movq	%rax, 16(%rdx)
	movb	$0, 56(%rdx)
	ud2
.LBB34_14:
	movq	$1, 8(%rdx)
	movq	%rax, 16(%rdx)
	ud2
.Lfunc_end34:
	.size	"nm_tree::tree::Tree::pin", .Lfunc_end34-"nm_tree::tree::Tree::pin"
	.cfi_endproc
	.section	".text.nm_tree::tree::Tree::advance","ax",@progbits
	.p2align	4
	.type	"nm_tree::tree::Tree::advance",@function
"nm_tree::tree::Tree::advance":
	.cfi_startproc
	pushq	%rbx
	.cfi_def_cfa_offset 16
	.cfi_offset %rbx, -16
	movl	(%rdx), %r9d
	movq	(%rsi), %rax
	movq	(%rax), %r8
	testb	$1, 56(%rdx)
	je	.LBB35_2
	movq	$1, 8(%rdx)
	movq	%r8, 16(%rdx)
	movb	$0, 56(%rdx)
	movl	68(%rsi), %r10d
	testl	%r10d, %r10d
	jne	.LBB35_8
	jmp	.LBB35_15
.LBB35_2:
	cmpb	$0, 40(%rdx)
	jne	.LBB35_4
	cmpb	$1, 24(%rdx)
	jne	.LBB35_4
	cmpq	%r8, 32(%rdx)
	movq	$1, 8(%rdx)
	movq	%r8, 16(%rdx)
	jne	.LBB35_7
	movq	$1, 40(%rdx)
	movq	%r8, 48(%rdx)
.LBB35_7:
	movl	68(%rsi), %r10d
	testl	%r10d, %r10d
	je	.LBB35_15
.LBB35_8:
	xorl	%ecx, %ecx
	.p2align	4
.LBB35_9:
	cmpl	%ecx, %r9d
	jne	.LBB35_11
	movq	48(%rdx), %rax
	cmpb	$1, 40(%rdx)
	sete	%r11b
	cmpq	%r8, %rax
	setne	%bl
	testb	%bl, %r11b
	je	.LBB35_14
	jmp	.LBB35_13
	.p2align	4
.LBB35_11:
	movl	72(%rsi), %eax
	xorl	%r11d, %r11d
	movl	%eax, %ebx
	subl	$2, %ebx
	cmovbl	%r11d, %ebx
	incl	%eax
	imull	%ecx, %eax
	addl	%ebx, %eax
	incl	%eax
	movq	(%rsi), %r11
	movq	(%r11,%rax,8), %rax
	testq	%rax, %rax
	setne	%r11b
	cmpq	$1, %rax
	adcq	$-1, %rax
	cmpq	%r8, %rax
	setne	%bl
	testb	%bl, %r11b
	jne	.LBB35_13
.LBB35_14:
	incl	%ecx
	cmpl	%ecx, %r10d
	jne	.LBB35_9
	jmp	.LBB35_15
.LBB35_13:
	movl	$1, %esi
	jmp	.LBB35_19
.LBB35_4:
	movq	$1, 8(%rdx)
	movq	%r8, 16(%rdx)
	movl	68(%rsi), %r10d
	testl	%r10d, %r10d
	jne	.LBB35_8
.LBB35_15:
	xorl	%ecx, %ecx
	movabsq	$4611686018427387904, %rax
	cmpq	%rax, %r8
	jne	.LBB35_17
	movl	$3, %esi
	xorl	%eax, %eax
	jmp	.LBB35_19
.LBB35_17:
	cmpb	$1, 8(%rdx)
	jne	.LBB35_20
	movq	16(%rdx), %rax
	leaq	1(%rax), %r8
	movq	(%rsi), %r9
	xorl	%esi, %esi
	lock		cmpxchgq	%r8, (%r9)
	cmoveq	%r8, %rax
	movq	$1, 8(%rdx)
	movq	%rax, 16(%rdx)
	setne	%sil
	addl	%esi, %esi
.LBB35_19:
	movl	%esi, (%rdi)
	movl	%ecx, 4(%rdi)
	movq	%rax, 8(%rdi)
	popq	%rbx
	.cfi_def_cfa_offset 8
	retq
.LBB35_20:
	.cfi_def_cfa_offset 16
	ud2
.Lfunc_end35:
	.size	"nm_tree::tree::Tree::advance", .Lfunc_end35-"nm_tree::tree::Tree::advance"
	.cfi_endproc
	.section	".text.nm_tree::tree::Tree::scan","ax",@progbits
	.p2align	4
	.type	"nm_tree::tree::Tree::scan",@function
"nm_tree::tree::Tree::scan":
	.cfi_startproc
	pushq	%rbp
	.cfi_def_cfa_offset 16
	pushq	%r15
	.cfi_def_cfa_offset 24
	pushq	%r14
	.cfi_def_cfa_offset 32
	pushq	%r13
	.cfi_def_cfa_offset 40
	pushq	%r12
	.cfi_def_cfa_offset 48
	pushq	%rbx
	.cfi_def_cfa_offset 56
	subq	$2168, %rsp
	.cfi_def_cfa_offset 2224
	.cfi_offset %rbx, -56
	.cfi_offset %r12, -48
	.cfi_offset %r13, -40
	.cfi_offset %r14, -32
	.cfi_offset %r15, -24
	.cfi_offset %rbp, -16
	movb	$1, %al
	cmpb	$2, 96(%rdx)
	jne	.LBB36_3
	movb	$4, %dl
	jmp	.LBB36_2
.LBB36_3:
	movl	2232(%rsp), %r10d
	testl	%r10d, %r10d
	je	.LBB36_4
	movq	%rdx, %r14
	movq	%rsi, %r15
	movq	%rdi, 64(%rsp)
	movq	2224(%rsp), %rdx
	movq	(%rsi), %rsi
	movq	(%rsi), %rsi
	movq	$1, 8(%r14)
	movq	%rsi, 16(%r14)
	leaq	24(%r14), %rdi
	movq	%rdi, 56(%rsp)
	movl	%r10d, %edi
	.p2align	4
.LBB36_7:
	movl	4(%r14), %ebx
	leaq	1(%rsi), %r10
	movq	(%r15), %r11
	xchgq	%r10, (%r11,%rbx,8)
	movq	$1, 24(%r14)
	movq	%rsi, 32(%r14)
	movq	(%r15), %rsi
	movq	(%rsi), %rsi
	testb	$1, 56(%r14)
	jne	.LBB36_61
	cmpb	$0, 40(%r14)
	jne	.LBB36_62
	cmpb	$1, 24(%r14)
	jne	.LBB36_62
	cmpq	%rsi, 32(%r14)
	movq	$1, 8(%r14)
	movq	%rsi, 16(%r14)
	je	.LBB36_11
	decl	%edi
	jne	.LBB36_7
	movq	(%r15), %rcx
	movl	4(%r14), %edx
	xorl	%esi, %esi
	xchgq	%rsi, (%rcx,%rdx,8)
	xorl	%edx, %edx
	xorps	%xmm0, %xmm0
	movq	56(%rsp), %rcx
	movups	%xmm0, 16(%rcx)
	movups	%xmm0, (%rcx)
	xorl	%r9d, %r9d
	xorl	%ecx, %ecx
	xorl	%r10d, %r10d
	jmp	.LBB36_59
.LBB36_4:
	xorl	%edx, %edx
.LBB36_2:
	xorl	%r9d, %r9d
	xorl	%ecx, %ecx
	xorl	%r10d, %r10d
	jmp	.LBB36_60
.LBB36_11:
	movq	$1, 40(%r14)
	movq	%rsi, 48(%r14)
	cmpq	$-3, %r8
	movq	$-3, %rax
	cmovbq	%r8, %rax
	movq	%rax, 24(%rsp)
	cmpq	$1024, %rdx
	movl	$1024, %eax
	cmovbq	%rdx, %rax
	movq	%rax, 80(%rsp)
	cmpq	%rcx, %r8
	jbe	.LBB36_12
	movq	%r9, 72(%rsp)
	movq	%rcx, 8(%rsp)
	leaq	112(%rsp), %rdi
	xorl	%ebp, %ebp
	movl	$2056, %edx
	xorl	%esi, %esi
	callq	memset@PLT
	movl	80(%r15), %eax
	movq	(%r15), %rcx
	addl	$4, %eax
	movq	8(%rcx,%rax,8), %r13
	movl	64(%r15), %eax
	decl	%eax
	testb	$1, 76(%r15)
	movl	$65, %r12d
	cmovel	%eax, %r12d
	testl	%r12d, %r12d
	je	.LBB36_15
	testq	%r13, %r13
	je	.LBB36_26
	movl	80(%r15), %r9d
	addl	$-4, %r9d
	movq	24(%rsp), %r8
	movq	8(%rsp), %rax
	movl	%r9d, 20(%rsp)
	.p2align	4
.LBB36_19:
	andl	$-4, %r13d
	movl	%r13d, %ecx
	addl	%r9d, %ecx
	movq	(%r15), %rdx
	movq	(%rdx,%rcx,8), %rbp
	movq	(%r15), %rdx
	movq	8(%rdx,%rcx,8), %rdx
	movq	(%r15), %rsi
	movq	16(%rsi,%rcx,8), %r13
	cmpq	%rbp, %rax
	setb	%sil
	cmovbq	%rdx, %r13
	testq	%r13, %r13
	setne	%dl
	cmpq	%rbp, %r8
	seta	%dil
	andb	%sil, %dil
	andb	%dl, %dil
	cmpb	$1, %dil
	jne	.LBB36_23
	movq	(%r15), %rdx
	movq	16(%rdx,%rcx,8), %rdx
	movq	2160(%rsp), %rbx
	cmpq	$64, %rbx
	jne	.LBB36_22
	leaq	112(%rsp), %rdi
	xorl	%ebx, %ebx
	movq	%rdx, 32(%rsp)
	movl	$2048, %edx
	xorl	%esi, %esi
	movq	%r8, 40(%rsp)
	callq	memset@PLT
	movq	32(%rsp), %rdx
	movl	20(%rsp), %r9d
	movq	40(%rsp), %r8
	movq	8(%rsp), %rax
.LBB36_22:
	movq	%rbx, %rcx
	shlq	$5, %rcx
	movq	%rbp, 112(%rsp,%rcx)
	movq	%r8, 120(%rsp,%rcx)
	movq	%rdx, 128(%rsp,%rcx)
	movq	%rbp, 136(%rsp,%rcx)
	incq	%rbx
	movq	%rbx, 2160(%rsp)
	movq	%rbp, %r8
.LBB36_23:
	decl	%r12d
	je	.LBB36_24
	testq	%r13, %r13
	jne	.LBB36_19
	jmp	.LBB36_27
.LBB36_12:
	xorl	%eax, %eax
	jmp	.LBB36_13
.LBB36_15:
	movq	24(%rsp), %r8
	movq	8(%rsp), %rax
.LBB36_24:
	testq	%r13, %r13
	je	.LBB36_27
	movb	$1, %al
.LBB36_13:
	xorl	%r9d, %r9d
	xorl	%ecx, %ecx
	xorl	%r10d, %r10d
	jmp	.LBB36_57
.LBB36_26:
	xorl	%ebp, %ebp
	movq	24(%rsp), %r8
	movq	8(%rsp), %rax
.LBB36_27:
	movl	2232(%rsp), %r12d
	movl	%r12d, %ecx
	addq	$1023, %rcx
	movq	%rcx, 88(%rsp)
	xorl	%ecx, %ecx
	xorl	%r9d, %r9d
	movq	%r15, 104(%rsp)
	jmp	.LBB36_28
	.p2align	4
.LBB36_52:
	testq	%rbx, %rbx
	jne	.LBB36_53
.LBB36_55:
	movq	%r10, %rax
	movq	96(%rsp), %rcx
	cmpq	88(%rsp), %rcx
	leaq	1(%rcx), %rcx
	movl	20(%rsp), %r12d
	movq	32(%rsp), %r9
	je	.LBB36_56
.LBB36_28:
	movq	%r8, %r10
	cmpq	%rax, %rbp
	jb	.LBB36_30
	cmpq	%rbp, %r10
	jbe	.LBB36_30
	cmpq	%r9, 80(%rsp)
	jbe	.LBB36_32
	movq	72(%rsp), %rax
	movq	%rbp, (%rax,%r9,8)
	incq	%r9
	jmp	.LBB36_34
	.p2align	4
.LBB36_30:
	decl	%r12d
.LBB36_34:
	testl	%r12d, %r12d
	je	.LBB36_54
	cmpq	24(%rsp), %r10
	jae	.LBB36_54
	movq	%rcx, 96(%rsp)
	movq	%r9, 32(%rsp)
	movq	2160(%rsp), %rax
	testq	%rax, %rax
	movq	%r10, 8(%rsp)
	je	.LBB36_40
	decq	%rax
	movq	%rax, 2160(%rsp)
	shlq	$5, %rax
	movq	112(%rsp,%rax), %rcx
	movq	120(%rsp,%rax), %r8
	movq	128(%rsp,%rax), %rbx
	movq	136(%rsp,%rax), %rbp
	xorps	%xmm0, %xmm0
	movups	%xmm0, 112(%rsp,%rax)
	movups	%xmm0, 128(%rsp,%rax)
	cmpq	%r10, %rcx
	je	.LBB36_41
	movq	2160(%rsp), %rdx
	testq	%rdx, %rdx
	je	.LBB36_40
	shlq	$5, %rdx
	leaq	112(%rsp), %rdi
	xorl	%esi, %esi
	callq	memset@PLT
	movq	8(%rsp), %r10
	movq	$0, 2160(%rsp)
.LBB36_40:
	movl	80(%r15), %eax
	movq	(%r15), %rcx
	addl	$4, %eax
	movq	8(%rcx,%rax,8), %rbx
	xorl	%ebp, %ebp
	movq	24(%rsp), %r8
.LBB36_41:
	movl	%r12d, 20(%rsp)
	movl	64(%r15), %eax
	decl	%eax
	testb	$1, 76(%r15)
	movl	$65, %r12d
	cmovel	%eax, %r12d
	testl	%r12d, %r12d
	je	.LBB36_52
	testq	%rbx, %rbx
	je	.LBB36_55
	movl	80(%r15), %esi
	addl	$-4, %esi
	movl	%esi, 52(%rsp)
	.p2align	4
.LBB36_45:
	andl	$-4, %ebx
	movl	%ebx, %eax
	addl	%esi, %eax
	movq	(%r15), %rcx
	movq	(%rcx,%rax,8), %rbp
	movq	(%r15), %rcx
	movq	8(%rcx,%rax,8), %rcx
	movq	(%r15), %rdx
	movq	16(%rdx,%rax,8), %rbx
	cmpq	%rbp, %r10
	cmovbq	%rcx, %rbx
	testq	%rbx, %rbx
	je	.LBB36_51
	cmpq	%rbp, %r10
	jae	.LBB36_51
	cmpq	%rbp, %r8
	jbe	.LBB36_51
	movq	(%r15), %rcx
	movq	16(%rcx,%rax,8), %r13
	movq	2160(%rsp), %r15
	cmpq	$64, %r15
	jne	.LBB36_50
	leaq	112(%rsp), %rdi
	xorl	%r15d, %r15d
	movl	$2048, %edx
	xorl	%esi, %esi
	movq	%r8, 40(%rsp)
	callq	memset@PLT
	movl	52(%rsp), %esi
	movq	40(%rsp), %r8
	movq	8(%rsp), %r10
.LBB36_50:
	movq	%r15, %rax
	shlq	$5, %rax
	movq	%rbp, 112(%rsp,%rax)
	movq	%r8, 120(%rsp,%rax)
	movq	%r13, 128(%rsp,%rax)
	movq	%rbp, 136(%rsp,%rax)
	incq	%r15
	movq	%r15, 2160(%rsp)
	movq	%rbp, %r8
	movq	104(%rsp), %r15
.LBB36_51:
	decl	%r12d
	je	.LBB36_52
	testq	%rbx, %rbx
	jne	.LBB36_45
	jmp	.LBB36_55
.LBB36_56:
	movl	$1, %ecx
	xorl	%eax, %eax
	jmp	.LBB36_57
.LBB36_53:
	movq	32(%rsp), %r9
	jmp	.LBB36_54
.LBB36_32:
	movq	%rax, %r10
.LBB36_54:
	xorl	%eax, %eax
	xorl	%ecx, %ecx
	cmpq	24(%rsp), %r10
	setb	%cl
	cmovaeq	%rax, %r10
.LBB36_57:
	movq	(%r15), %rsi
	movl	4(%r14), %edi
	xorl	%edx, %edx
	xorl	%r8d, %r8d
	xchgq	%r8, (%rsi,%rdi,8)
	xorps	%xmm0, %xmm0
	movq	56(%rsp), %rsi
	movups	%xmm0, 16(%rsi)
	movups	%xmm0, (%rsi)
.LBB36_59:
	movq	64(%rsp), %rdi
.LBB36_60:
	movb	%al, (%rdi)
	movb	%dl, 1(%rdi)
	movq	%r9, 8(%rdi)
	movq	%rcx, 16(%rdi)
	movq	%r10, 24(%rdi)
	addq	$2168, %rsp
	.cfi_def_cfa_offset 56
	popq	%rbx
	.cfi_def_cfa_offset 48
	popq	%r12
	.cfi_def_cfa_offset 40
	popq	%r13
	.cfi_def_cfa_offset 32
	popq	%r14
	.cfi_def_cfa_offset 24
	popq	%r15
	.cfi_def_cfa_offset 16
	popq	%rbp
	.cfi_def_cfa_offset 8
	retq
.LBB36_61:
	.cfi_def_cfa_offset 2224
	movq	$1, 8(%r14)
	movq	%rsi, 16(%r14)
	movb	$0, 56(%r14)
	ud2
.LBB36_62:
	movq	$1, 8(%r14)
	movq	%rsi, 16(%r14)
	ud2
.Lfunc_end36:
	.size	"nm_tree::tree::Tree::scan", .Lfunc_end36-"nm_tree::tree::Tree::scan"
	.cfi_endproc
	.section	".text.nm_tree::tree::Tree::scan_back","ax",@progbits
	.p2align	4
	.type	"nm_tree::tree::Tree::scan_back",@function
"nm_tree::tree::Tree::scan_back":
	.cfi_startproc
	pushq	%rbp
	.cfi_def_cfa_offset 16
	pushq	%r15
	.cfi_def_cfa_offset 24
	pushq	%r14
	.cfi_def_cfa_offset 32
	pushq	%r13
	.cfi_def_cfa_offset 40
	pushq	%r12
	.cfi_def_cfa_offset 48
	pushq	%rbx
	.cfi_def_cfa_offset 56
	subq	$2168, %rsp
	.cfi_def_cfa_offset 2224
	.cfi_offset %rbx, -56
	.cfi_offset %r12, -48
	.cfi_offset %r13, -40
	.cfi_offset %r14, -32
	.cfi_offset %r15, -24
	.cfi_offset %rbp, -16
	movb	$1, %al
	cmpb	$2, 96(%rdx)
	jne	.LBB37_2
	movb	$4, %sil
	jmp	.LBB37_11
.LBB37_2:
	movl	2232(%rsp), %r10d
	testl	%r10d, %r10d
	je	.LBB37_10
	movq	%rdx, %r14
	movq	%rsi, %r15
	movq	%rdi, 56(%rsp)
	movq	2224(%rsp), %rdx
	movq	(%rsi), %rsi
	movq	(%rsi), %rsi
	movq	$1, 8(%r14)
	movq	%rsi, 16(%r14)
	leaq	24(%r14), %rdi
	movq	%rdi, 48(%rsp)
	movl	%r10d, %edi
	.p2align	4
.LBB37_4:
	movl	4(%r14), %ebx
	leaq	1(%rsi), %r10
	movq	(%r15), %r11
	xchgq	%r10, (%r11,%rbx,8)
	movq	$1, 24(%r14)
	movq	%rsi, 32(%r14)
	movq	(%r15), %rsi
	movq	(%rsi), %rsi
	testb	$1, 56(%r14)
	jne	.LBB37_66
	cmpb	$0, 40(%r14)
	jne	.LBB37_67
	cmpb	$1, 24(%r14)
	jne	.LBB37_67
	cmpq	%rsi, 32(%r14)
	movq	$1, 8(%r14)
	movq	%rsi, 16(%r14)
	je	.LBB37_12
	decl	%edi
	jne	.LBB37_4
	movq	(%r15), %rcx
	movl	4(%r14), %edx
	xorl	%esi, %esi
	xchgq	%rsi, (%rcx,%rdx,8)
	xorl	%esi, %esi
	xorps	%xmm0, %xmm0
	movq	48(%rsp), %rcx
	movups	%xmm0, 16(%rcx)
	movups	%xmm0, (%rcx)
	xorl	%r10d, %r10d
	xorl	%edx, %edx
	xorl	%ecx, %ecx
	jmp	.LBB37_64
.LBB37_10:
	xorl	%esi, %esi
.LBB37_11:
	xorl	%r10d, %r10d
	xorl	%edx, %edx
	xorl	%ecx, %ecx
	jmp	.LBB37_65
.LBB37_12:
	movq	$1, 40(%r14)
	movq	%rsi, 48(%r14)
	cmpq	$-3, %r8
	movq	$-3, %rax
	cmovbq	%r8, %rax
	movq	%rax, 16(%rsp)
	cmpq	$1024, %rdx
	movl	$1024, %eax
	cmovbq	%rdx, %rax
	movq	%rax, 72(%rsp)
	cmpq	%rcx, %r8
	jbe	.LBB37_14
	xorl	%eax, %eax
	jmp	.LBB37_28
.LBB37_14:
	movq	%r9, 64(%rsp)
	movq	%rcx, 8(%rsp)
	leaq	112(%rsp), %rdi
	xorl	%r13d, %r13d
	movl	$2056, %edx
	xorl	%esi, %esi
	callq	memset@PLT
	movl	80(%r15), %eax
	movq	(%r15), %rcx
	addl	$4, %eax
	movq	8(%rcx,%rax,8), %r12
	movl	64(%r15), %eax
	decl	%eax
	testb	$1, 76(%r15)
	movl	$65, %ebx
	cmovel	%eax, %ebx
	testl	%ebx, %ebx
	je	.LBB37_25
	testq	%r12, %r12
	je	.LBB37_29
	movl	80(%r15), %edi
	addl	$-4, %edi
	movq	16(%rsp), %rsi
	movq	8(%rsp), %rax
	movl	%edi, 24(%rsp)
	jmp	.LBB37_17
.LBB37_22:
	xorl	%r12d, %r12d
	decl	%ebx
	je	.LBB37_26
.LBB37_24:
	testq	%r12, %r12
	je	.LBB37_30
.LBB37_17:
	andl	$-4, %r12d
	addl	%edi, %r12d
	movq	(%r15), %rcx
	movq	(%rcx,%r12,8), %r13
	movq	(%r15), %rcx
	movq	8(%rcx,%r12,8), %rcx
	movq	(%r15), %rdx
	movq	16(%rdx,%r12,8), %rbp
	cmpq	%r13, %rsi
	cmovbq	%rcx, %rbp
	testq	%rbp, %rbp
	je	.LBB37_22
	cmpq	%r13, %rsi
	setae	%cl
	cmpq	%r13, %rax
	setb	%dl
	orb	%cl, %dl
	jne	.LBB37_23
	movq	(%r15), %rcx
	movq	16(%rcx,%r12,8), %r12
	movq	2160(%rsp), %rdx
	cmpq	$64, %rdx
	jne	.LBB37_21
	leaq	112(%rsp), %rdi
	movl	$2048, %edx
	movq	%rsi, 32(%rsp)
	xorl	%esi, %esi
	callq	memset@PLT
	xorl	%edx, %edx
	movl	24(%rsp), %edi
	movq	32(%rsp), %rsi
	movq	8(%rsp), %rax
.LBB37_21:
	movq	%rdx, %rcx
	shlq	$5, %rcx
	movq	%rsi, 112(%rsp,%rcx)
	movq	%r13, 120(%rsp,%rcx)
	movq	%rbp, 128(%rsp,%rcx)
	movq	%r13, 136(%rsp,%rcx)
	incq	%rdx
	movq	%rdx, 2160(%rsp)
	movq	%r13, %rsi
	decl	%ebx
	jne	.LBB37_24
	jmp	.LBB37_26
.LBB37_23:
	movq	%rbp, %r12
	decl	%ebx
	jne	.LBB37_24
	jmp	.LBB37_26
.LBB37_25:
	movq	16(%rsp), %rsi
	movq	8(%rsp), %rax
.LBB37_26:
	testq	%r12, %r12
	je	.LBB37_30
	movb	$1, %al
.LBB37_28:
	xorl	%r10d, %r10d
	xorl	%edx, %edx
	xorl	%ecx, %ecx
	jmp	.LBB37_63
.LBB37_29:
	xorl	%r13d, %r13d
	movq	16(%rsp), %rsi
	movq	8(%rsp), %rax
.LBB37_30:
	incq	%rax
	movl	2232(%rsp), %ebx
	movl	%ebx, %ecx
	addq	$1023, %rcx
	movq	%rcx, 24(%rsp)
	xorl	%r8d, %r8d
	xorl	%r10d, %r10d
	movq	%r15, 104(%rsp)
	jmp	.LBB37_33
	.p2align	4
.LBB37_31:
	testq	%rbp, %rbp
	jne	.LBB37_61
.LBB37_32:
	movq	%rdi, %rax
	cmpq	24(%rsp), %r8
	leaq	1(%r8), %r8
	movl	8(%rsp), %ebx
	je	.LBB37_59
.LBB37_33:
	movq	%rsi, %rdi
	cmpq	%rsi, %r13
	jb	.LBB37_37
	cmpq	%r13, %rax
	jbe	.LBB37_37
	cmpq	%r10, 72(%rsp)
	jbe	.LBB37_60
	movq	64(%rsp), %rax
	movq	%r13, (%rax,%r10,8)
	incq	%r10
	jmp	.LBB37_38
	.p2align	4
.LBB37_37:
	decl	%ebx
.LBB37_38:
	testl	%ebx, %ebx
	je	.LBB37_61
	cmpq	%rdi, 16(%rsp)
	jae	.LBB37_61
	movq	2160(%rsp), %rax
	testq	%rax, %rax
	je	.LBB37_44
	decq	%rax
	movq	%rax, 2160(%rsp)
	shlq	$5, %rax
	movq	112(%rsp,%rax), %rsi
	movq	120(%rsp,%rax), %rcx
	movq	128(%rsp,%rax), %rbp
	movq	136(%rsp,%rax), %r13
	xorps	%xmm0, %xmm0
	movups	%xmm0, 112(%rsp,%rax)
	movups	%xmm0, 128(%rsp,%rax)
	cmpq	%rdi, %rcx
	je	.LBB37_45
	movq	2160(%rsp), %rdx
	testq	%rdx, %rdx
	je	.LBB37_44
	shlq	$5, %rdx
	movq	%rdi, %r13
	leaq	112(%rsp), %rdi
	xorl	%esi, %esi
	movq	%r10, %r12
	movq	%r8, %rbp
	callq	memset@PLT
	movq	%rbp, %r8
	movq	%r13, %rdi
	movq	%r12, %r10
	movq	$0, 2160(%rsp)
.LBB37_44:
	movl	80(%r15), %eax
	movq	(%r15), %rcx
	addl	$4, %eax
	movq	8(%rcx,%rax,8), %rbp
	xorl	%r13d, %r13d
	movq	16(%rsp), %rsi
.LBB37_45:
	movl	%ebx, 8(%rsp)
	movl	64(%r15), %eax
	decl	%eax
	testb	$1, 76(%r15)
	movl	$65, %r12d
	cmovel	%eax, %r12d
	testl	%r12d, %r12d
	je	.LBB37_31
	testq	%rbp, %rbp
	je	.LBB37_32
	movl	80(%r15), %edx
	addl	$-4, %edx
	movq	%r10, 96(%rsp)
	movq	%rdi, 88(%rsp)
	movq	%r8, 80(%rsp)
	movl	%edx, 44(%rsp)
	.p2align	4
.LBB37_48:
	andl	$-4, %ebp
	addl	%edx, %ebp
	movq	(%r15), %rax
	movq	(%rax,%rbp,8), %r13
	movq	(%r15), %rax
	movq	8(%rax,%rbp,8), %rax
	movq	(%r15), %rcx
	movq	16(%rcx,%rbp,8), %rbx
	cmpq	%r13, %rsi
	cmovbq	%rax, %rbx
	testq	%rbx, %rbx
	je	.LBB37_54
	cmpq	%r13, %rsi
	jae	.LBB37_56
	cmpq	%r13, %rdi
	jbe	.LBB37_56
	movq	(%r15), %rax
	movq	16(%rax,%rbp,8), %rbp
	movq	2160(%rsp), %r15
	cmpq	$64, %r15
	jne	.LBB37_53
	leaq	112(%rsp), %rdi
	xorl	%r15d, %r15d
	movl	$2048, %edx
	movq	%rsi, 32(%rsp)
	xorl	%esi, %esi
	callq	memset@PLT
	movl	44(%rsp), %edx
	movq	80(%rsp), %r8
	movq	88(%rsp), %rdi
	movq	32(%rsp), %rsi
	movq	96(%rsp), %r10
.LBB37_53:
	movq	%r15, %rax
	shlq	$5, %rax
	movq	%rsi, 112(%rsp,%rax)
	movq	%r13, 120(%rsp,%rax)
	movq	%rbx, 128(%rsp,%rax)
	movq	%r13, 136(%rsp,%rax)
	incq	%r15
	movq	%r15, 2160(%rsp)
	movq	%r13, %rsi
	movq	104(%rsp), %r15
	decl	%r12d
	jne	.LBB37_58
	jmp	.LBB37_31
	.p2align	4
.LBB37_54:
	xorl	%ebp, %ebp
	decl	%r12d
	jne	.LBB37_58
	jmp	.LBB37_31
	.p2align	4
.LBB37_56:
	movq	%rbx, %rbp
	decl	%r12d
	je	.LBB37_31
.LBB37_58:
	testq	%rbp, %rbp
	jne	.LBB37_48
	jmp	.LBB37_32
.LBB37_59:
	leaq	-1(%rdi), %rdx
	xorl	%ecx, %ecx
	cmpq	$-2, %rdi
	setb	%al
	cmovbq	%rdx, %rcx
	jmp	.LBB37_62
.LBB37_60:
	movq	%rax, %rdi
.LBB37_61:
	cmpq	%rdi, 16(%rsp)
	setb	%dl
	decq	%rdi
	cmpq	$-3, %rdi
	setb	%al
	xorl	%ecx, %ecx
	andb	%dl, %al
	cmovneq	%rdi, %rcx
.LBB37_62:
	movzbl	%al, %edx
	xorl	%eax, %eax
.LBB37_63:
	movq	(%r15), %rdi
	movl	4(%r14), %r8d
	xorl	%esi, %esi
	xorl	%r9d, %r9d
	xchgq	%r9, (%rdi,%r8,8)
	xorps	%xmm0, %xmm0
	movq	48(%rsp), %rdi
	movups	%xmm0, 16(%rdi)
	movups	%xmm0, (%rdi)
.LBB37_64:
	movq	56(%rsp), %rdi
.LBB37_65:
	movb	%al, (%rdi)
	movb	%sil, 1(%rdi)
	movq	%r10, 8(%rdi)
	movq	%rdx, 16(%rdi)
	movq	%rcx, 24(%rdi)
	addq	$2168, %rsp
	.cfi_def_cfa_offset 56
	popq	%rbx
	.cfi_def_cfa_offset 48
	popq	%r12
	.cfi_def_cfa_offset 40
	popq	%r13
	.cfi_def_cfa_offset 32
	popq	%r14
	.cfi_def_cfa_offset 24
	popq	%r15
	.cfi_def_cfa_offset 16
	popq	%rbp
	.cfi_def_cfa_offset 8
	retq
.LBB37_66:
	.cfi_def_cfa_offset 2224
	movq	$1, 8(%r14)
	movq	%rsi, 16(%r14)
	movb	$0, 56(%r14)
	ud2
.LBB37_67:
	movq	$1, 8(%r14)
	movq	%rsi, 16(%r14)
	ud2
.Lfunc_end37:
	.size	"nm_tree::tree::Tree::scan_back", .Lfunc_end37-"nm_tree::tree::Tree::scan_back"
	.cfi_endproc
	.section	".text.nm_set::member::Member::free::<#f118e792109c5fac>","ax",@progbits
	.p2align	4
	.type	"nm_set::member::Member::free::<#f118e792109c5fac>",@function
"nm_set::member::Member::free::<#f118e792109c5fac>":
	.cfi_startproc
	pushq	%rbp
	.cfi_def_cfa_offset 16
	pushq	%r15
	.cfi_def_cfa_offset 24
	pushq	%r14
	.cfi_def_cfa_offset 32
	pushq	%r13
	.cfi_def_cfa_offset 40
	pushq	%r12
	.cfi_def_cfa_offset 48
	pushq	%rbx
	.cfi_def_cfa_offset 56
	subq	$24, %rsp
	.cfi_def_cfa_offset 80
	.cfi_offset %rbx, -56
	.cfi_offset %r12, -48
	.cfi_offset %r13, -40
	.cfi_offset %r14, -32
	.cfi_offset %r15, -24
	.cfi_offset %rbp, -16
	movq	(%rdi), %r15
	movq	72(%rdi), %rbp
	movq	136(%rdi), %r10
	movq	80(%rdi), %r13
	movq	8(%r15), %rax
	movq	(%rax), %r9
	testb	$1, 64(%rdi)
	je	.LBB38_2
	movq	$1, 16(%rdi)
	movq	%r9, 24(%rdi)
	movb	$0, 64(%rdi)
	testq	%r13, %r13
	jne	.LBB38_9
	jmp	.LBB38_8
.LBB38_2:
	cmpb	$0, 48(%rdi)
	jne	.LBB38_4
	cmpb	$1, 32(%rdi)
	jne	.LBB38_4
	cmpq	%r9, 40(%rdi)
	movq	$1, 16(%rdi)
	movq	%r9, 24(%rdi)
	jne	.LBB38_7
	movq	$1, 48(%rdi)
	movq	%r9, 56(%rdi)
.LBB38_7:
	testq	%r13, %r13
	je	.LBB38_8
.LBB38_9:
	leaq	-2(%r9), %r11
	xorl	%r14d, %r14d
	movq	%r9, 16(%rsp)
	movq	%r10, 8(%rsp)
	movq	%r11, (%rsp)
	jmp	.LBB38_10
	.p2align	4
.LBB38_30:
	decq	%r13
	subl	%eax, %ebx
	addq	%rbx, %r14
	addq	88(%rbp), %rbx
	movq	$-1, %rax
	cmovaeq	%rbx, %rax
	movq	%rax, 88(%rbp)
	addq	$96, %rbp
	testq	%r13, %r13
	je	.LBB38_31
.LBB38_10:
	movl	60(%rbp), %ebx
	movl	$0, %eax
	testl	%ebx, %ebx
	je	.LBB38_27
	movl	%ebx, %eax
	cmpq	$2, %r9
	jb	.LBB38_27
	movl	56(%rbp), %eax
	movq	8(%rbp), %rcx
	leaq	(%rax,%rax,2), %rdx
	movl	%ebx, %eax
	cmpq	%r11, 24(%rcx,%rdx,8)
	ja	.LBB38_27
	leaq	(%rcx,%rdx,8), %rcx
	addq	$8, %rcx
	.p2align	4
.LBB38_15:
	movl	(%rcx), %edx
	movl	72(%r15), %eax
	leal	-1(%rdx), %ecx
	movl	%ecx, %esi
	shrl	$6, %esi
	leal	(%rsi,%rax,4), %esi
	addl	88(%r15), %esi
	movl	$1, %edi
	shlq	%cl, %rdi
	movq	8(%r15), %rcx
	.p2align	4
.LBB38_16:
	movq	(%rcx,%rsi,8), %rax
	movq	%rax, %r8
	orq	%rdi, %r8
	lock		cmpxchgq	%r8, (%rcx,%rsi,8)
	jne	.LBB38_16
	movl	60(%rbp), %ecx
	testl	%ecx, %ecx
	je	.LBB38_23
	movl	56(%rbp), %esi
	movq	8(%rbp), %rax
	decl	%ecx
	movl	%ecx, 60(%rbp)
	incl	%esi
	movl	%esi, 56(%rbp)
	cmpl	$32, %esi
	jne	.LBB38_23
	movl	$0, 56(%rbp)
	movq	(%rax), %rcx
	movq	%rcx, 8(%rbp)
	decl	24(%rbp)
	cmpl	$0, 48(%rbp)
	je	.LBB38_20
	movq	40(%rbp), %rcx
	movq	$0, (%rax)
	movq	%rax, (%rcx)
	jmp	.LBB38_22
.LBB38_20:
	movq	$0, (%rax)
	movq	%rax, 32(%rbp)
.LBB38_22:
	movq	%rax, 40(%rbp)
	incl	48(%rbp)
.LBB38_23:
	movq	520(%r10), %rax
	cmpq	$128, %rax
	je	.LBB38_25
	movl	%edx, 8(%r10,%rax,4)
	incq	%rax
	movq	%rax, 520(%r10)
.LBB38_25:
	movl	60(%rbp), %eax
	testl	%eax, %eax
	je	.LBB38_26
	movl	56(%rbp), %ecx
	movq	8(%rbp), %rdx
	leaq	(%rcx,%rcx,2), %rsi
	leaq	(%rdx,%rsi,8), %rcx
	addq	$8, %rcx
	cmpq	%r11, 24(%rdx,%rsi,8)
	jbe	.LBB38_15
	jmp	.LBB38_27
.LBB38_26:
	xorl	%eax, %eax
	.p2align	4
.LBB38_27:
	movl	24(%rbp), %edx
	movl	48(%rbp), %ecx
	shll	$5, %edx
	movl	%ecx, %esi
	shll	$5, %esi
	movl	56(%rbp), %edi
	addl	%eax, %edi
	subl	%edi, %edx
	addl	%esi, %edx
	xorl	%esi, %esi
	subl	$256, %edx
	cmovbl	%esi, %edx
	shrl	$5, %edx
	movl	%ecx, %r12d
	subl	%edx, %r12d
	cmpl	%ecx, %r12d
	jae	.LBB38_30
	.p2align	4
.LBB38_28:
	movq	32(%rbp), %rdi
	movq	(%rdi), %rax
	movq	%rax, 32(%rbp)
	decl	%ecx
	movl	%ecx, 48(%rbp)
	callq	nm_host_dealloc@PLT
	movl	48(%rbp), %ecx
	cmpl	%ecx, %r12d
	jb	.LBB38_28
	movl	60(%rbp), %eax
	movq	16(%rsp), %r9
	movq	8(%rsp), %r10
	movq	(%rsp), %r11
	jmp	.LBB38_30
.LBB38_4:
	movq	$1, 16(%rdi)
	movq	%r9, 24(%rdi)
	testq	%r13, %r13
	jne	.LBB38_9
.LBB38_8:
	xorl	%r14d, %r14d
.LBB38_31:
	movq	%r9, %rax
	movq	%r14, %rdx
	addq	$24, %rsp
	.cfi_def_cfa_offset 56
	popq	%rbx
	.cfi_def_cfa_offset 48
	popq	%r12
	.cfi_def_cfa_offset 40
	popq	%r13
	.cfi_def_cfa_offset 32
	popq	%r14
	.cfi_def_cfa_offset 24
	popq	%r15
	.cfi_def_cfa_offset 16
	popq	%rbp
	.cfi_def_cfa_offset 8
	retq
.Lfunc_end38:
	.size	"nm_set::member::Member::free::<#f118e792109c5fac>", .Lfunc_end38-"nm_set::member::Member::free::<#f118e792109c5fac>"
	.cfi_endproc
	.section	".text.unlikely.nm_set::member::Member::contains_after::<#f118e792109c5fac>","ax",@progbits
	.p2align	4
	.type	"nm_set::member::Member::contains_after::<#f118e792109c5fac>",@function
"nm_set::member::Member::contains_after::<#f118e792109c5fac>":
	.cfi_startproc
	pushq	%r15
	.cfi_def_cfa_offset 16
	pushq	%r14
	.cfi_def_cfa_offset 24
	pushq	%rbx
	.cfi_def_cfa_offset 32
	subq	$16, %rsp
	.cfi_def_cfa_offset 48
	.cfi_offset %rbx, -32
	.cfi_offset %r14, -24
	.cfi_offset %r15, -16
	cmpb	$4, %cl
	je	.LBB39_5
	testb	%cl, %cl
	jne	.LBB39_3
	movl	4(%rdx), %eax
	testl	%eax, %eax
	jne	.LBB39_4
.LBB39_3:
	movb	$1, %al
.LBB39_10:
	movl	%ecx, %edx
	addq	$16, %rsp
	.cfi_def_cfa_offset 32
	popq	%rbx
	.cfi_def_cfa_offset 24
	popq	%r14
	.cfi_def_cfa_offset 16
	popq	%r15
	.cfi_def_cfa_offset 8
	retq
.LBB39_5:
	.cfi_def_cfa_offset 48
	movq	%rsi, %rbx
	cmpb	$2, 104(%rdi)
	jne	.LBB39_8
	leaq	8(%rdi), %rsi
	movq	(%rdi), %rax
	addq	$8, %rax
	movl	(%rdx), %ecx
	movl	4(%rdx), %r8d
	incq	%r8
	imulq	%r8, %rcx
	movl	$4294967295, %r8d
	cmpq	%r8, %rcx
	cmovaeq	%r8, %rcx
	movq	%rdi, %r14
	movq	%rax, %rdi
	movq	%rdx, %r15
	movl	%ecx, %edx
	callq	"nm_tree::tree::Tree::finish_pending"
	movq	%r15, %rdx
	movq	%r14, %rdi
	testb	%al, %al
	je	.LBB39_8
	movb	$1, %al
	movb	$4, %cl
	jmp	.LBB39_10
.LBB39_8:
	xorl	%esi, %esi
	movq	%rdx, %rcx
	movq	%rbx, %rdx
	jmp	.LBB39_9
.LBB39_4:
	decl	%eax
	movl	(%rdx), %ecx
	movl	8(%rdx), %edx
	movl	%ecx, 4(%rsp)
	movl	%eax, 8(%rsp)
	movl	%edx, 12(%rsp)
	leaq	4(%rsp), %rcx
	movq	%rsi, %rdx
	xorl	%esi, %esi
.LBB39_9:
	callq	"nm_set::member::Member::ask_with_retries::<#f118e792109c5fac>"
	movl	%edx, %ecx
	jmp	.LBB39_10
.Lfunc_end39:
	.size	"nm_set::member::Member::contains_after::<#f118e792109c5fac>", .Lfunc_end39-"nm_set::member::Member::contains_after::<#f118e792109c5fac>"
	.cfi_endproc
	.section	".text.unlikely.nm_set::member::Member::ask_with_retries::<#f118e792109c5fac>","ax",@progbits
	.p2align	4
	.type	"nm_set::member::Member::ask_with_retries::<#f118e792109c5fac>",@function
"nm_set::member::Member::ask_with_retries::<#f118e792109c5fac>":
	.cfi_startproc
	pushq	%rbp
	.cfi_def_cfa_offset 16
	pushq	%r15
	.cfi_def_cfa_offset 24
	pushq	%r14
	.cfi_def_cfa_offset 32
	pushq	%r12
	.cfi_def_cfa_offset 40
	pushq	%rbx
	.cfi_def_cfa_offset 48
	subq	$16, %rsp
	.cfi_def_cfa_offset 64
	.cfi_offset %rbx, -48
	.cfi_offset %r12, -40
	.cfi_offset %r14, -32
	.cfi_offset %r15, -24
	.cfi_offset %rbp, -16
	movq	%rcx, %r15
	movq	%rdx, %rbx
	movq	%rdi, %r14
	movl	4(%rcx), %r12d
	movzbl	%sil, %ebp
	testl	%r12d, %r12d
	je	.LBB40_1
.LBB40_3:
	movl	(%r15), %r8d
	leaq	8(%rsp), %rcx
	movq	%r14, %rdi
	movl	%ebp, %esi
	movq	%rbx, %rdx
	callq	"nm_set::member::Member::ask::<#f118e792109c5fac>"
	movl	%eax, %ecx
	xorb	$1, %cl
	orb	%dl, %cl
	jne	.LBB40_4
	decl	%r12d
	jne	.LBB40_3
.LBB40_1:
	movl	(%r15), %r8d
	leaq	8(%rsp), %rcx
	movq	%r14, %rdi
	movl	%ebp, %esi
	movq	%rbx, %rdx
	callq	"nm_set::member::Member::ask::<#f118e792109c5fac>"
.LBB40_4:
	addq	$16, %rsp
	.cfi_def_cfa_offset 48
	popq	%rbx
	.cfi_def_cfa_offset 40
	popq	%r12
	.cfi_def_cfa_offset 32
	popq	%r14
	.cfi_def_cfa_offset 24
	popq	%r15
	.cfi_def_cfa_offset 16
	popq	%rbp
	.cfi_def_cfa_offset 8
	retq
.Lfunc_end40:
	.size	"nm_set::member::Member::ask_with_retries::<#f118e792109c5fac>", .Lfunc_end40-"nm_set::member::Member::ask_with_retries::<#f118e792109c5fac>"
	.cfi_endproc
	.section	".text.unlikely.nm_set::member::Member::ask::<#f118e792109c5fac>","ax",@progbits
	.p2align	4
	.type	"nm_set::member::Member::ask::<#f118e792109c5fac>",@function
"nm_set::member::Member::ask::<#f118e792109c5fac>":
	.cfi_startproc
	pushq	%rbp
	.cfi_def_cfa_offset 16
	pushq	%r15
	.cfi_def_cfa_offset 24
	pushq	%r14
	.cfi_def_cfa_offset 32
	pushq	%r13
	.cfi_def_cfa_offset 40
	pushq	%r12
	.cfi_def_cfa_offset 48
	pushq	%rbx
	.cfi_def_cfa_offset 56
	subq	$24, %rsp
	.cfi_def_cfa_offset 80
	.cfi_offset %rbx, -56
	.cfi_offset %r12, -48
	.cfi_offset %r13, -40
	.cfi_offset %r14, -32
	.cfi_offset %r15, -24
	.cfi_offset %rbp, -16
	movq	%rcx, %rbx
	movq	(%rdi), %r10
	leaq	8(%r10), %r9
	cmpb	$2, %sil
	je	.LBB41_31
	movzbl	%sil, %eax
	cmpl	$1, %eax
	jne	.LBB41_2
	cmpb	$2, 104(%rdi)
	jne	.LBB41_27
	movb	$1, %al
	movb	$4, %dl
	jmp	.LBB41_28
.LBB41_31:
	addq	$8, %rdi
	movq	%rdi, %rsi
	movq	%r9, %rdi
	movq	%rbx, %rcx
	addq	$24, %rsp
	.cfi_def_cfa_offset 56
	popq	%rbx
	.cfi_def_cfa_offset 48
	popq	%r12
	.cfi_def_cfa_offset 40
	popq	%r13
	.cfi_def_cfa_offset 32
	popq	%r14
	.cfi_def_cfa_offset 24
	popq	%r15
	.cfi_def_cfa_offset 16
	popq	%rbp
	.cfi_def_cfa_offset 8
	jmp	"nm_tree::tree::Tree::delete_with_value"
.LBB41_2:
	.cfi_def_cfa_offset 80
	movb	$1, %al
	cmpb	$2, 104(%rdi)
	jne	.LBB41_4
	movb	$4, %dl
	jmp	.LBB41_28
.LBB41_27:
	leaq	8(%rdi), %rsi
	movq	96(%rdi), %rcx
	movq	136(%rdi), %rax
	leaq	(%rcx,%rcx,2), %rcx
	shlq	$5, %rcx
	addq	72(%rdi), %rcx
	movl	%r8d, (%rsp)
	movq	%rdi, %r14
	movq	%r9, %rdi
	movq	%rdx, %r8
	movq	%rax, %rdx
	xorl	%r9d, %r9d
	callq	"nm_calls::inserting::insert"
	movq	136(%r14), %rcx
	movq	3104(%rcx), %rcx
	movq	%rcx, (%rbx)
	jmp	.LBB41_28
.LBB41_4:
	testl	%r8d, %r8d
	je	.LBB41_5
	movq	(%r9), %rcx
	movq	(%rcx), %rsi
	movq	$1, 16(%rdi)
	movq	%rsi, 24(%rdi)
	leaq	32(%rdi), %rcx
	movl	%r8d, %r11d
	.p2align	4
.LBB41_8:
	movl	12(%rdi), %ebx
	leaq	1(%rsi), %r14
	movq	(%r9), %r15
	xchgq	%r14, (%r15,%rbx,8)
	movq	$1, 32(%rdi)
	movq	%rsi, 40(%rdi)
	movq	(%r9), %rbx
	movq	(%rbx), %rbx
	movq	$1, 16(%rdi)
	movq	%rbx, 24(%rdi)
	cmpq	%rsi, %rbx
	je	.LBB41_9
	movq	%rbx, %rsi
	decl	%r11d
	jne	.LBB41_8
	movq	(%r9), %rsi
	movl	12(%rdi), %edi
	xorl	%edx, %edx
	xorl	%r8d, %r8d
	xchgq	%r8, (%rsi,%rdi,8)
	xorps	%xmm0, %xmm0
	jmp	.LBB41_24
.LBB41_5:
	xorl	%edx, %edx
	jmp	.LBB41_28
.LBB41_9:
	movq	%rcx, 16(%rsp)
	movq	$1, 48(%rdi)
	movq	%rsi, 56(%rdi)
	xorl	%esi, %esi
	jmp	.LBB41_10
.LBB41_21:
	incl	%esi
	cmpl	%r8d, %esi
	je	.LBB41_22
.LBB41_10:
	movl	72(%r10), %ebp
	movl	88(%r10), %r14d
	movq	8(%r10), %r11
	decl	%ebp
	testb	$1, 84(%r10)
	leal	4(%r14), %ebx
	movq	8(%r11,%rbx,8), %r11
	movl	$65, %ebx
	cmovnel	%ebx, %ebp
	testl	%ebp, %ebp
	je	.LBB41_11
	addl	$-4, %r14d
	xorl	%r15d, %r15d
	.p2align	4
.LBB41_13:
	testb	$3, %r11b
	jne	.LBB41_17
	movq	(%r9), %r12
	addl	%r14d, %r11d
	movq	(%r12,%r11,8), %r12
	movq	(%r9), %r13
	movq	8(%r13,%r11,8), %r13
	movq	(%r9), %rcx
	movq	16(%rcx,%r11,8), %r11
	cmpq	%r12, %rdx
	cmovbq	%r13, %r11
	testq	%r11, %r11
	je	.LBB41_30
	incl	%r15d
	cmpl	%r15d, %ebp
	jne	.LBB41_13
	movl	%ebp, %r15d
	jmp	.LBB41_17
.LBB41_11:
	xorl	%r15d, %r15d
.LBB41_17:
	movl	72(%r10), %ebp
	decl	%ebp
	testb	$1, 84(%r10)
	cmovnel	%ebx, %ebp
	subl	%r15d, %ebp
	jbe	.LBB41_21
	movl	88(%r10), %ebx
	addl	$-4, %ebx
	.p2align	4
.LBB41_19:
	andl	$-4, %r11d
	addl	%ebx, %r11d
	movq	(%r9), %rcx
	movq	(%rcx,%r11,8), %r12
	movq	(%r9), %rcx
	movq	8(%rcx,%r11,8), %rcx
	movq	(%r9), %r14
	movq	16(%r14,%r11,8), %r11
	cmpq	%r12, %rdx
	cmovbq	%rcx, %r11
	testq	%r11, %r11
	je	.LBB41_30
	decl	%ebp
	jne	.LBB41_19
	jmp	.LBB41_21
.LBB41_30:
	cmpq	%rdx, %r12
	sete	%dl
	movq	(%r9), %rcx
	movl	12(%rdi), %esi
	xorl	%eax, %eax
	xorl	%edi, %edi
	xchgq	%rdi, (%rcx,%rsi,8)
.LBB41_23:
	xorps	%xmm0, %xmm0
	movq	16(%rsp), %rcx
.LBB41_24:
	movups	%xmm0, 16(%rcx)
	movups	%xmm0, (%rcx)
.LBB41_28:
	addq	$24, %rsp
	.cfi_def_cfa_offset 56
	popq	%rbx
	.cfi_def_cfa_offset 48
	popq	%r12
	.cfi_def_cfa_offset 40
	popq	%r13
	.cfi_def_cfa_offset 32
	popq	%r14
	.cfi_def_cfa_offset 24
	popq	%r15
	.cfi_def_cfa_offset 16
	popq	%rbp
	.cfi_def_cfa_offset 8
	retq
.LBB41_22:
	.cfi_def_cfa_offset 80
	movq	(%r9), %rcx
	movl	12(%rdi), %esi
	xorl	%edx, %edx
	xorl	%edi, %edi
	xchgq	%rdi, (%rcx,%rsi,8)
	jmp	.LBB41_23
.Lfunc_end41:
	.size	"nm_set::member::Member::ask::<#f118e792109c5fac>", .Lfunc_end41-"nm_set::member::Member::ask::<#f118e792109c5fac>"
	.cfi_endproc
	.section	".text.unlikely.nm_set::member::Member::insert_untidy::<#f118e792109c5fac>","ax",@progbits
	.p2align	4
	.type	"nm_set::member::Member::insert_untidy::<#f118e792109c5fac>",@function
"nm_set::member::Member::insert_untidy::<#f118e792109c5fac>":
	.cfi_startproc
	pushq	%rbp
	.cfi_def_cfa_offset 16
	pushq	%r15
	.cfi_def_cfa_offset 24
	pushq	%r14
	.cfi_def_cfa_offset 32
	pushq	%r12
	.cfi_def_cfa_offset 40
	pushq	%rbx
	.cfi_def_cfa_offset 48
	subq	$48, %rsp
	.cfi_def_cfa_offset 96
	.cfi_offset %rbx, -48
	.cfi_offset %r12, -40
	.cfi_offset %r14, -32
	.cfi_offset %r15, -24
	.cfi_offset %rbp, -16
	movq	%rcx, %rbx
	xorps	%xmm0, %xmm0
	movaps	%xmm0, 16(%rsp)
	movaps	%xmm0, (%rsp)
	cmpb	$2, 104(%rsi)
	je	.LBB42_2
	xorl	%ebp, %ebp
.LBB42_3:
	movq	80(%rsi), %r9
	testq	%r9, %r9
	je	.LBB42_4
	movq	72(%rsi), %rcx
	cmpq	$1, %r9
	jne	.LBB42_6
	movl	60(%rcx), %eax
	jmp	.LBB42_14
.LBB42_4:
	movq	%r9, %rax
	jmp	.LBB42_14
.LBB42_6:
	leaq	-1(%r9), %rax
	movl	%r9d, %r8d
	andl	$3, %r8d
	cmpq	$3, %rax
	jae	.LBB42_9
	xorl	%eax, %eax
	xorl	%r10d, %r10d
	jmp	.LBB42_12
.LBB42_9:
	andq	$-4, %r9
	leaq	348(%rcx), %r11
	xorl	%eax, %eax
	xorl	%r10d, %r10d
	.p2align	4
.LBB42_10:
	movl	-288(%r11), %r14d
	movl	-192(%r11), %r15d
	addq	%rax, %r14
	movl	-96(%r11), %r12d
	addq	%r15, %r12
	addq	%r14, %r12
	movl	(%r11), %eax
	addq	%r12, %rax
	addq	$4, %r10
	addq	$384, %r11
	cmpq	%r10, %r9
	jne	.LBB42_10
	testq	%r8, %r8
	je	.LBB42_14
.LBB42_12:
	leaq	(%r10,%r10,2), %r9
	shlq	$5, %r9
	addq	%r9, %rcx
	addq	$60, %rcx
	shll	$5, %r8d
	leaq	(%r8,%r8,2), %r8
	xorl	%r9d, %r9d
	.p2align	4
.LBB42_13:
	movl	(%rcx,%r9), %r10d
	addq	%r10, %rax
	addq	$96, %r9
	cmpq	%r9, %r8
	jne	.LBB42_13
.LBB42_14:
	movl	8(%rbx), %ecx
	cmpq	%rcx, %rax
	jae	.LBB42_15
.LBB42_16:
	xorl	%eax, %eax
.LBB42_17:
	cmpb	$1, %bpl
	jne	.LBB42_20
	movw	$1, (%rdi)
	movb	$1, 8(%rdi)
	movb	%al, 9(%rdi)
	xorps	%xmm0, %xmm0
	movups	%xmm0, 16(%rdi)
.LBB42_19:
	addq	$48, %rsp
	.cfi_def_cfa_offset 48
	popq	%rbx
	.cfi_def_cfa_offset 40
	popq	%r12
	.cfi_def_cfa_offset 32
	popq	%r14
	.cfi_def_cfa_offset 24
	popq	%r15
	.cfi_def_cfa_offset 16
	popq	%rbp
	.cfi_def_cfa_offset 8
	retq
.LBB42_2:
	.cfi_def_cfa_offset 96
	leaq	8(%rsi), %rax
	movq	(%rsi), %rcx
	addq	$8, %rcx
	movl	(%rbx), %r8d
	movl	4(%rbx), %r9d
	incq	%r9
	imulq	%r9, %r8
	movl	$4294967295, %r9d
	cmpq	%r9, %r8
	cmovaeq	%r9, %r8
	movq	%rdi, %r14
	movq	%rcx, %rdi
	movq	%rsi, %r15
	movq	%rax, %rsi
	movq	%rdx, %r12
	movl	%r8d, %edx
	callq	"nm_tree::tree::Tree::finish_pending"
	movq	%r15, %rsi
	movq	%r12, %rdx
	movq	%r14, %rdi
	movl	%eax, %ebp
	movb	$4, %al
	testb	%bpl, %bpl
	jne	.LBB42_17
	jmp	.LBB42_3
.LBB42_20:
	movq	%rdi, %r12
	movl	(%rbx), %r8d
	leaq	40(%rsp), %rcx
	movq	%rsi, %r14
	movq	%rsi, %rdi
	movl	$1, %esi
	movq	%rdx, %r15
	callq	"nm_set::member::Member::ask::<#f118e792109c5fac>"
	testb	%al, %al
	jne	.LBB42_22
	andb	$1, %dl
	xorl	%eax, %eax
	xorl	%ecx, %ecx
	xorl	%esi, %esi
	xorl	%edi, %edi
	xorl	%r8d, %r8d
	xorl	%r9d, %r9d
.LBB42_23:
	movb	%r9b, (%r12)
	movb	%dl, 1(%r12)
	movb	%r8b, 8(%r12)
	movb	%dil, 9(%r12)
	movq	%rsi, 16(%r12)
	movl	%ecx, 24(%r12)
	movl	%eax, 28(%r12)
	jmp	.LBB42_19
.LBB42_15:
	movq	%rdi, %r14
	movq	%rsi, %rdi
	movq	%rdx, %r15
	movq	%rsi, %r12
	callq	"nm_set::member::Member::relieve::<#f118e792109c5fac>"
	movq	%r12, %rsi
	movq	%r15, %rdx
	movq	%r14, %rdi
	jmp	.LBB42_16
.LBB42_22:
	movzbl	%dl, %r8d
	movq	%rsp, %rdi
	movq	%r14, %rsi
	movq	%r15, %rdx
	movq	%rbx, %rcx
	callq	"nm_set::member::Member::retry_insert::<#f118e792109c5fac>"
	movzbl	(%rsp), %r9d
	movzbl	1(%rsp), %edx
	movzbl	8(%rsp), %r8d
	movzbl	9(%rsp), %edi
	movq	16(%rsp), %rsi
	movzbl	24(%rsp), %ecx
	movl	28(%rsp), %eax
	jmp	.LBB42_23
.Lfunc_end42:
	.size	"nm_set::member::Member::insert_untidy::<#f118e792109c5fac>", .Lfunc_end42-"nm_set::member::Member::insert_untidy::<#f118e792109c5fac>"
	.cfi_endproc
	.section	".text.unlikely.nm_set::member::Member::relieve::<#f118e792109c5fac>","ax",@progbits
	.p2align	4
	.type	"nm_set::member::Member::relieve::<#f118e792109c5fac>",@function
"nm_set::member::Member::relieve::<#f118e792109c5fac>":
	.cfi_startproc
	pushq	%rbp
	.cfi_def_cfa_offset 16
	pushq	%r15
	.cfi_def_cfa_offset 24
	pushq	%r14
	.cfi_def_cfa_offset 32
	pushq	%rbx
	.cfi_def_cfa_offset 40
	subq	$24, %rsp
	.cfi_def_cfa_offset 64
	.cfi_offset %rbx, -40
	.cfi_offset %r14, -32
	.cfi_offset %r15, -24
	.cfi_offset %rbp, -16
	movq	%rdi, %rbx
	xorps	%xmm0, %xmm0
	movaps	%xmm0, (%rsp)
	movq	(%rdi), %rsi
	addq	$8, %rsi
	leaq	8(%rdi), %r14
	movq	%rsp, %rdi
	movq	%r14, %rdx
	callq	"nm_tree::tree::Tree::advance"
	xorl	%ebp, %ebp
	cmpb	$1, (%rsp)
	jne	.LBB43_2
	movl	4(%rsp), %ebp
.LBB43_2:
	xorps	%xmm0, %xmm0
	movaps	%xmm0, (%rsp)
	movq	(%rbx), %rsi
	sete	%r15b
	addq	$8, %rsi
	movq	%rsp, %rdi
	movq	%r14, %rdx
	callq	"nm_tree::tree::Tree::advance"
	cmpb	$1, (%rsp)
	jne	.LBB43_4
	movl	4(%rsp), %ebp
.LBB43_4:
	sete	%r14b
	movq	%rbx, %rdi
	callq	"nm_set::member::Member::free::<#f118e792109c5fac>"
	orb	%r15b, %r14b
	movl	%r14d, %eax
	movl	%ebp, %edx
	addq	$24, %rsp
	.cfi_def_cfa_offset 40
	popq	%rbx
	.cfi_def_cfa_offset 32
	popq	%r14
	.cfi_def_cfa_offset 24
	popq	%r15
	.cfi_def_cfa_offset 16
	popq	%rbp
	.cfi_def_cfa_offset 8
	retq
.Lfunc_end43:
	.size	"nm_set::member::Member::relieve::<#f118e792109c5fac>", .Lfunc_end43-"nm_set::member::Member::relieve::<#f118e792109c5fac>"
	.cfi_endproc
	.section	".text.unlikely.nm_set::member::Member::retry_insert::<#f118e792109c5fac>","ax",@progbits
	.p2align	4
	.type	"nm_set::member::Member::retry_insert::<#f118e792109c5fac>",@function
"nm_set::member::Member::retry_insert::<#f118e792109c5fac>":
	.cfi_startproc
	pushq	%rbp
	.cfi_def_cfa_offset 16
	pushq	%r15
	.cfi_def_cfa_offset 24
	pushq	%r14
	.cfi_def_cfa_offset 32
	pushq	%r13
	.cfi_def_cfa_offset 40
	pushq	%r12
	.cfi_def_cfa_offset 48
	pushq	%rbx
	.cfi_def_cfa_offset 56
	subq	$24, %rsp
	.cfi_def_cfa_offset 80
	.cfi_offset %rbx, -56
	.cfi_offset %r12, -48
	.cfi_offset %r13, -40
	.cfi_offset %r14, -32
	.cfi_offset %r15, -24
	.cfi_offset %rbp, -16
	movq	%rsi, %r14
	testb	%r8b, %r8b
	jne	.LBB44_2
	movl	4(%rcx), %eax
	testl	%eax, %eax
	jne	.LBB44_3
.LBB44_2:
	movb	$1, %al
.LBB44_4:
	movl	%eax, %esi
	xorb	$1, %sil
	movl	%r8d, %r9d
	xorb	$1, %r9b
	orb	%sil, %r9b
	je	.LBB44_6
	xorl	%ecx, %ecx
	testb	%al, %al
	movzbl	%r8b, %edx
	cmovel	%ecx, %edx
	sete	%cl
	andb	%r8b, %cl
	movb	%al, (%rdi)
	movb	%cl, 1(%rdi)
	movb	%al, 8(%rdi)
	movb	%dl, 9(%rdi)
	xorps	%xmm0, %xmm0
	movups	%xmm0, 16(%rdi)
.LBB44_24:
	addq	$24, %rsp
	.cfi_def_cfa_offset 56
	popq	%rbx
	.cfi_def_cfa_offset 48
	popq	%r12
	.cfi_def_cfa_offset 40
	popq	%r13
	.cfi_def_cfa_offset 32
	popq	%r14
	.cfi_def_cfa_offset 24
	popq	%r15
	.cfi_def_cfa_offset 16
	popq	%rbp
	.cfi_def_cfa_offset 8
	retq
.LBB44_6:
	.cfi_def_cfa_offset 80
	movq	%rdi, %r13
	movq	%r14, %rdi
	movq	%rcx, %r15
	movq	%rdx, %r12
	callq	"nm_set::member::Member::relieve::<#f118e792109c5fac>"
	movl	%eax, %ebp
	movl	%edx, %ebx
	movq	%r14, %rdi
	movl	$1, %esi
	movq	%r12, %rdx
	movq	%r15, %rcx
	callq	"nm_set::member::Member::ask_with_retries::<#f118e792109c5fac>"
	movq	80(%r14), %r9
	testq	%r9, %r9
	je	.LBB44_7
	movq	72(%r14), %rdi
	cmpq	$1, %r9
	jne	.LBB44_9
	movl	60(%rdi), %esi
	movq	%r13, %rcx
	jmp	.LBB44_17
.LBB44_3:
	decl	%eax
	movl	(%rcx), %esi
	movl	8(%rcx), %r8d
	movl	%esi, 12(%rsp)
	movl	%eax, 16(%rsp)
	movl	%r8d, 20(%rsp)
	leaq	12(%rsp), %rax
	movq	%rdi, %r15
	movq	%r14, %rdi
	movl	$1, %esi
	movq	%rdx, %rbx
	movq	%rcx, %r12
	movq	%rax, %rcx
	callq	"nm_set::member::Member::ask_with_retries::<#f118e792109c5fac>"
	movq	%r12, %rcx
	movq	%r15, %rdi
	movl	%edx, %r8d
	movq	%rbx, %rdx
	jmp	.LBB44_4
.LBB44_7:
	movq	%r9, %rsi
	movq	%r13, %rcx
	jmp	.LBB44_17
.LBB44_9:
	leaq	-1(%r9), %rcx
	movl	%r9d, %r8d
	andl	$3, %r8d
	cmpq	$3, %rcx
	movq	%r13, %rcx
	jae	.LBB44_12
	xorl	%esi, %esi
	xorl	%r10d, %r10d
	jmp	.LBB44_15
.LBB44_12:
	andq	$-4, %r9
	leaq	348(%rdi), %r11
	xorl	%esi, %esi
	xorl	%r10d, %r10d
	.p2align	4
.LBB44_13:
	movl	-288(%r11), %r14d
	movl	-192(%r11), %r15d
	addq	%rsi, %r14
	movl	-96(%r11), %r12d
	addq	%r15, %r12
	addq	%r14, %r12
	movl	(%r11), %esi
	addq	%r12, %rsi
	addq	$4, %r10
	addq	$384, %r11
	cmpq	%r10, %r9
	jne	.LBB44_13
	testq	%r8, %r8
	je	.LBB44_17
.LBB44_15:
	leaq	(%r10,%r10,2), %r9
	shlq	$5, %r9
	addq	%r9, %rdi
	addq	$60, %rdi
	shll	$5, %r8d
	leaq	(%r8,%r8,2), %r8
	xorl	%r9d, %r9d
	.p2align	4
.LBB44_16:
	movl	(%rdi,%r9), %r10d
	addq	%r10, %rsi
	addq	$96, %r9
	cmpq	%r9, %r8
	jne	.LBB44_16
.LBB44_17:
	testb	%al, %al
	je	.LBB44_18
	cmpb	$1, %dl
	jne	.LBB44_21
	movzbl	%bpl, %r9d
	xorl	%edx, %edx
	xorl	%edi, %edi
	xorl	%r8d, %r8d
	jmp	.LBB44_23
.LBB44_18:
	andb	$1, %dl
	xorl	%edi, %edi
	xorl	%r8d, %r8d
	jmp	.LBB44_19
.LBB44_21:
	movl	%edx, %r8d
	xorl	%edx, %edx
	movb	$1, %dil
.LBB44_19:
	xorl	%esi, %esi
	xorl	%r9d, %r9d
	xorl	%ebx, %ebx
.LBB44_23:
	movb	%al, (%rcx)
	movb	%dl, 1(%rcx)
	movb	%dil, 8(%rcx)
	movb	%r8b, 9(%rcx)
	movq	%rsi, 16(%rcx)
	movl	%r9d, 24(%rcx)
	movl	%ebx, 28(%rcx)
	jmp	.LBB44_24
.Lfunc_end44:
	.size	"nm_set::member::Member::retry_insert::<#f118e792109c5fac>", .Lfunc_end44-"nm_set::member::Member::retry_insert::<#f118e792109c5fac>"
	.cfi_endproc
	.section	".text.unlikely.nm_set::member::Member::insert_after::<#f118e792109c5fac>","ax",@progbits
	.p2align	4
	.type	"nm_set::member::Member::insert_after::<#f118e792109c5fac>",@function
"nm_set::member::Member::insert_after::<#f118e792109c5fac>":
	.cfi_startproc
	pushq	%rbx
	.cfi_def_cfa_offset 16
	subq	$32, %rsp
	.cfi_def_cfa_offset 48
	.cfi_offset %rbx, -16
	movq	%rdi, %rbx
	xorps	%xmm0, %xmm0
	movaps	%xmm0, 16(%rsp)
	movaps	%xmm0, (%rsp)
	cmpb	$4, %r8b
	jne	.LBB45_2
	movq	%rsp, %rdi
	callq	"nm_set::member::Member::insert_untidy::<#f118e792109c5fac>"
	jmp	.LBB45_3
.LBB45_2:
	movzbl	%r8b, %r8d
	movq	%rsp, %rdi
	callq	"nm_set::member::Member::retry_insert::<#f118e792109c5fac>"
.LBB45_3:
	movzwl	(%rsp), %eax
	movzwl	8(%rsp), %ecx
	movq	16(%rsp), %rdx
	movzbl	24(%rsp), %esi
	movl	28(%rsp), %edi
	movw	%ax, (%rbx)
	movw	%cx, 8(%rbx)
	movq	%rdx, 16(%rbx)
	movl	%esi, 24(%rbx)
	movl	%edi, 28(%rbx)
	addq	$32, %rsp
	.cfi_def_cfa_offset 16
	popq	%rbx
	.cfi_def_cfa_offset 8
	retq
.Lfunc_end45:
	.size	"nm_set::member::Member::insert_after::<#f118e792109c5fac>", .Lfunc_end45-"nm_set::member::Member::insert_after::<#f118e792109c5fac>"
	.cfi_endproc
	.section	".text.nm_tree::tree::Tree::next","ax",@progbits
	.p2align	4
	.type	"nm_tree::tree::Tree::next",@function
"nm_tree::tree::Tree::next":
	.cfi_startproc
	pushq	%rbp
	.cfi_def_cfa_offset 16
	pushq	%r15
	.cfi_def_cfa_offset 24
	pushq	%r14
	.cfi_def_cfa_offset 32
	pushq	%r12
	.cfi_def_cfa_offset 40
	pushq	%rbx
	.cfi_def_cfa_offset 48
	.cfi_offset %rbx, -48
	.cfi_offset %r12, -40
	.cfi_offset %r14, -32
	.cfi_offset %r15, -24
	.cfi_offset %rbp, -16
	movb	$1, %r9b
	cmpb	$2, 96(%rdx)
	jne	.LBB46_2
	movb	$4, %dl
	jmp	.LBB46_29
.LBB46_2:
	testl	%r8d, %r8d
	je	.LBB46_3
	movq	(%rsi), %rax
	movq	(%rax), %r10
	movq	$1, 8(%rdx)
	movq	%r10, 16(%rdx)
	leaq	24(%rdx), %rax
	movl	%r8d, %r11d
	.p2align	4
.LBB46_6:
	movl	4(%rdx), %ebx
	leaq	1(%r10), %r14
	movq	(%rsi), %r15
	xchgq	%r14, (%r15,%rbx,8)
	movq	$1, 24(%rdx)
	movq	%r10, 32(%rdx)
	movq	(%rsi), %r10
	movq	(%r10), %r10
	testb	$1, 56(%rdx)
	jne	.LBB46_31
	cmpb	$0, 40(%rdx)
	jne	.LBB46_32
	cmpb	$1, 24(%rdx)
	jne	.LBB46_32
	cmpq	%r10, 32(%rdx)
	movq	$1, 8(%rdx)
	movq	%r10, 16(%rdx)
	je	.LBB46_10
	decl	%r11d
	jne	.LBB46_6
	movq	(%rsi), %rcx
	movl	4(%rdx), %edx
	xorl	%esi, %esi
	xchgq	%rsi, (%rcx,%rdx,8)
	xorl	%edx, %edx
	xorps	%xmm0, %xmm0
	movups	%xmm0, 16(%rax)
	movups	%xmm0, (%rax)
	jmp	.LBB46_29
.LBB46_3:
	xorl	%edx, %edx
.LBB46_29:
	xorl	%ecx, %ecx
	xorl	%r10d, %r10d
.LBB46_30:
	movb	%r9b, (%rdi)
	movb	%dl, 1(%rdi)
	movq	%rcx, 8(%rdi)
	movq	%r10, 16(%rdi)
	popq	%rbx
	.cfi_def_cfa_offset 40
	popq	%r12
	.cfi_def_cfa_offset 32
	popq	%r14
	.cfi_def_cfa_offset 24
	popq	%r15
	.cfi_def_cfa_offset 16
	popq	%rbp
	.cfi_def_cfa_offset 8
	retq
.LBB46_10:
	.cfi_def_cfa_offset 48
	movq	$1, 40(%rdx)
	movq	%r10, 48(%rdx)
	xorl	%r9d, %r9d
	.p2align	4
.LBB46_11:
	movl	64(%rsi), %r10d
	movl	80(%rsi), %r11d
	movq	(%rsi), %rbx
	leal	4(%r11), %r14d
	decl	%r10d
	testb	$1, 76(%rsi)
	movq	8(%rbx,%r14,8), %rbx
	movl	$65, %ebp
	cmovel	%r10d, %ebp
	shrq	$2, %rbx
	testl	%ebp, %ebp
	je	.LBB46_12
	testl	%ebx, %ebx
	je	.LBB46_16
	addl	$-4, %r11d
	movq	$-3, %r14
	.p2align	4
.LBB46_19:
	movq	%r14, %r15
	movq	(%rsi), %r10
	leal	(%r11,%rbx,4), %ebx
	movq	(%r10,%rbx,8), %r10
	movq	(%rsi), %r14
	movq	8(%r14,%rbx,8), %r14
	movq	(%rsi), %r12
	movq	16(%r12,%rbx,8), %rbx
	cmpq	%r10, %rcx
	cmovbq	%r14, %rbx
	testq	%rbx, %rbx
	movq	%r10, %r14
	cmoveq	%r15, %r14
	cmpq	%r15, %r10
	cmovaeq	%r15, %r14
	cmpq	%r10, %rcx
	cmovaeq	%r15, %r14
	shrq	$2, %rbx
	decl	%ebp
	je	.LBB46_20
	testl	%ebx, %ebx
	jne	.LBB46_19
	jmp	.LBB46_21
	.p2align	4
.LBB46_12:
	movq	$-3, %r14
	xorl	%r10d, %r10d
.LBB46_20:
	testl	%ebx, %ebx
	jne	.LBB46_14
.LBB46_21:
	cmpq	%r10, %rcx
	ja	.LBB46_24
.LBB46_22:
	cmpq	%r14, %r10
	jb	.LBB46_23
.LBB46_24:
	cmpq	$-3, %r14
	je	.LBB46_25
	incl	%r9d
	movq	%r14, %rcx
	cmpl	%r8d, %r9d
	jne	.LBB46_11
	jmp	.LBB46_14
	.p2align	4
.LBB46_16:
	movq	$-3, %r14
	xorl	%r10d, %r10d
	cmpq	%r10, %rcx
	jbe	.LBB46_22
	jmp	.LBB46_24
.LBB46_14:
	movb	$1, %r9b
	jmp	.LBB46_26
.LBB46_23:
	xorl	%r9d, %r9d
	xorl	%ecx, %ecx
	cmpq	$-3, %r10
	setb	%cl
	cmovaeq	%r9, %r10
	jmp	.LBB46_27
.LBB46_25:
	xorl	%r9d, %r9d
.LBB46_26:
	xorl	%ecx, %ecx
	xorl	%r10d, %r10d
.LBB46_27:
	movq	(%rsi), %rsi
	movl	4(%rdx), %r8d
	xorl	%edx, %edx
	xorl	%r11d, %r11d
	xchgq	%r11, (%rsi,%r8,8)
	xorps	%xmm0, %xmm0
	movups	%xmm0, 16(%rax)
	movups	%xmm0, (%rax)
	jmp	.LBB46_30
.LBB46_31:
	movq	$1, 8(%rdx)
	movq	%r10, 16(%rdx)
	movb	$0, 56(%rdx)
	ud2
.LBB46_32:
	movq	$1, 8(%rdx)
	movq	%r10, 16(%rdx)
	ud2
.Lfunc_end46:
	.size	"nm_tree::tree::Tree::next", .Lfunc_end46-"nm_tree::tree::Tree::next"
	.cfi_endproc
	.section	".text.nm_set::member::Member::pop::<#f118e792109c5fac>","ax",@progbits
	.p2align	4
	.type	"nm_set::member::Member::pop::<#f118e792109c5fac>",@function
"nm_set::member::Member::pop::<#f118e792109c5fac>":
	.cfi_startproc
	pushq	%rbp
	.cfi_def_cfa_offset 16
	pushq	%r15
	.cfi_def_cfa_offset 24
	pushq	%r14
	.cfi_def_cfa_offset 32
	pushq	%r13
	.cfi_def_cfa_offset 40
	pushq	%r12
	.cfi_def_cfa_offset 48
	pushq	%rbx
	.cfi_def_cfa_offset 56
	subq	$56, %rsp
	.cfi_def_cfa_offset 112
	.cfi_offset %rbx, -56
	.cfi_offset %r12, -48
	.cfi_offset %r13, -40
	.cfi_offset %r14, -32
	.cfi_offset %r15, -24
	.cfi_offset %rbp, -16
	movq	%rdi, %rbx
	movzbl	104(%rsi), %eax
	cmpb	$1, %al
	jne	.LBB47_4
	movw	$1281, (%rbx)
.LBB47_2:
	xorps	%xmm0, %xmm0
	movups	%xmm0, 8(%rbx)
	jmp	.LBB47_3
.LBB47_4:
	movq	%r8, %r14
	movq	%rcx, %r15
	movq	%rsi, %r12
	cmpb	$2, %al
	je	.LBB47_5
.LBB47_6:
	xorps	%xmm0, %xmm0
	movaps	%xmm0, 32(%rsp)
	movq	$0, 48(%rsp)
	movaps	%xmm0, (%rsp)
	movq	$0, 16(%rsp)
	movl	4(%r14), %r13d
	movzbl	%dl, %ebp
	testl	%r13d, %r13d
	je	.LBB47_7
	.p2align	4
.LBB47_9:
	movq	%rsp, %rdi
	movq	%r12, %rsi
	movl	%ebp, %edx
	movq	%r15, %rcx
	movq	%r14, %r8
	callq	"nm_set::member::Member::pop_once::<#f118e792109c5fac>"
	movzbl	(%rsp), %eax
	movzbl	1(%rsp), %ecx
	cmpb	$1, %al
	jne	.LBB47_11
	testb	%cl, %cl
	jne	.LBB47_11
	decl	%r13d
	jne	.LBB47_9
.LBB47_7:
	leaq	32(%rsp), %rdi
	movq	%r12, %rsi
	movl	%ebp, %edx
	movq	%r15, %rcx
	movq	%r14, %r8
	callq	"nm_set::member::Member::pop_once::<#f118e792109c5fac>"
	movzbl	32(%rsp), %eax
	movzbl	33(%rsp), %ecx
	movzbl	40(%rsp), %esi
	movq	48(%rsp), %rdx
	jmp	.LBB47_12
.LBB47_11:
	movq	16(%rsp), %rdx
	movzbl	8(%rsp), %esi
.LBB47_12:
	movb	%al, (%rbx)
	movb	%cl, 1(%rbx)
	movzbl	%sil, %eax
	movq	%rax, 8(%rbx)
	movq	%rdx, 16(%rbx)
.LBB47_3:
	addq	$56, %rsp
	.cfi_def_cfa_offset 56
	popq	%rbx
	.cfi_def_cfa_offset 48
	popq	%r12
	.cfi_def_cfa_offset 40
	popq	%r13
	.cfi_def_cfa_offset 32
	popq	%r14
	.cfi_def_cfa_offset 24
	popq	%r15
	.cfi_def_cfa_offset 16
	popq	%rbp
	.cfi_def_cfa_offset 8
	retq
.LBB47_5:
	.cfi_def_cfa_offset 112
	leaq	8(%r12), %rsi
	movq	(%r12), %rdi
	addq	$8, %rdi
	movl	(%r14), %eax
	movl	4(%r14), %ecx
	incq	%rcx
	imulq	%rcx, %rax
	movl	$4294967295, %ecx
	cmpq	%rcx, %rax
	cmovaeq	%rcx, %rax
	movl	%edx, %ebp
	movl	%eax, %edx
	callq	"nm_tree::tree::Tree::finish_pending"
	movl	%ebp, %edx
	testb	%al, %al
	je	.LBB47_6
	movw	$1025, (%rbx)
	jmp	.LBB47_2
.Lfunc_end47:
	.size	"nm_set::member::Member::pop::<#f118e792109c5fac>", .Lfunc_end47-"nm_set::member::Member::pop::<#f118e792109c5fac>"
	.cfi_endproc
	.section	".text.nm_set::member::Member::pop_once::<#f118e792109c5fac>","ax",@progbits
	.p2align	4
	.type	"nm_set::member::Member::pop_once::<#f118e792109c5fac>",@function
"nm_set::member::Member::pop_once::<#f118e792109c5fac>":
	.cfi_startproc
	pushq	%rbp
	.cfi_def_cfa_offset 16
	pushq	%r15
	.cfi_def_cfa_offset 24
	pushq	%r14
	.cfi_def_cfa_offset 32
	pushq	%r13
	.cfi_def_cfa_offset 40
	pushq	%r12
	.cfi_def_cfa_offset 48
	pushq	%rbx
	.cfi_def_cfa_offset 56
	subq	$24, %rsp
	.cfi_def_cfa_offset 80
	.cfi_offset %rbx, -56
	.cfi_offset %r12, -48
	.cfi_offset %r13, -40
	.cfi_offset %r14, -32
	.cfi_offset %r15, -24
	.cfi_offset %rbp, -16
	movq	%r8, %r14
	movq	%rcx, %rbp
	movl	%edx, %r12d
	movq	%rsi, %r15
	movq	%rdi, %rbx
	movl	(%r8), %r8d
	xorps	%xmm0, %xmm0
	movaps	%xmm0, (%rsp)
	movq	$0, 16(%rsp)
	movq	(%rsi), %rsi
	addq	$8, %rsi
	leaq	8(%r15), %r13
	movq	%rsp, %rdi
	movq	%r13, %rdx
	cmpb	$1, %r12b
	ja	.LBB48_2
	xorl	%ecx, %ecx
	callq	"nm_tree::tree::Tree::next"
	cmpb	$0, (%rsp)
	je	.LBB48_4
.LBB48_30:
	movzbl	1(%rsp), %eax
	movb	$1, (%rbx)
	movb	%al, 1(%rbx)
	jmp	.LBB48_8
.LBB48_2:
	movq	$-4, %rcx
	callq	"nm_tree::tree::Tree::prev"
	cmpb	$0, (%rsp)
	jne	.LBB48_30
.LBB48_4:
	cmpb	$1, 8(%rsp)
	jne	.LBB48_7
	movq	16(%rsp), %r9
	movzbl	%r12b, %eax
	leaq	.LJTI48_0(%rip), %rcx
	movslq	(%rcx,%rax,4), %rax
	addq	%rcx, %rax
	jmpq	*%rax
.LBB48_11:
	movb	$5, %dl
	cmpb	$1, 104(%r15)
	jne	.LBB48_12
.LBB48_29:
	movb	$1, (%rbx)
	movb	%dl, 1(%rbx)
	jmp	.LBB48_8
.LBB48_12:
	movq	80(%r15), %rsi
	testq	%rsi, %rsi
	movq	%r9, %r12
	je	.LBB48_13
	movq	72(%r15), %rcx
	cmpq	$1, %rsi
	jne	.LBB48_15
	movl	60(%rcx), %eax
	jmp	.LBB48_23
.LBB48_6:
	cmpq	%rbp, %r9
	jb	.LBB48_11
	jmp	.LBB48_7
.LBB48_10:
	cmpq	%r9, %rbp
	jbe	.LBB48_11
.LBB48_7:
	movw	$0, (%rbx)
.LBB48_8:
	xorps	%xmm0, %xmm0
	movups	%xmm0, 8(%rbx)
.LBB48_9:
	addq	$24, %rsp
	.cfi_def_cfa_offset 56
	popq	%rbx
	.cfi_def_cfa_offset 48
	popq	%r12
	.cfi_def_cfa_offset 40
	popq	%r13
	.cfi_def_cfa_offset 32
	popq	%r14
	.cfi_def_cfa_offset 24
	popq	%r15
	.cfi_def_cfa_offset 16
	popq	%rbp
	.cfi_def_cfa_offset 8
	retq
.LBB48_13:
	.cfi_def_cfa_offset 80
	movq	%rsi, %rax
	jmp	.LBB48_23
.LBB48_15:
	leaq	-1(%rsi), %rax
	movl	%esi, %edx
	andl	$3, %edx
	cmpq	$3, %rax
	jae	.LBB48_18
	xorl	%eax, %eax
	xorl	%edi, %edi
	jmp	.LBB48_21
.LBB48_18:
	andq	$-4, %rsi
	leaq	348(%rcx), %r8
	xorl	%eax, %eax
	xorl	%edi, %edi
	.p2align	4
.LBB48_19:
	movl	-288(%r8), %r9d
	movl	-192(%r8), %r10d
	addq	%rax, %r9
	movl	-96(%r8), %r11d
	addq	%r10, %r11
	addq	%r9, %r11
	movl	(%r8), %eax
	addq	%r11, %rax
	addq	$4, %rdi
	addq	$384, %r8
	cmpq	%rdi, %rsi
	jne	.LBB48_19
	testq	%rdx, %rdx
	movq	%r12, %r9
	je	.LBB48_23
.LBB48_21:
	leaq	(%rdi,%rdi,2), %rsi
	shlq	$5, %rsi
	addq	%rsi, %rcx
	addq	$60, %rcx
	shll	$5, %edx
	leaq	(%rdx,%rdx,2), %rdx
	xorl	%esi, %esi
	.p2align	4
.LBB48_22:
	movl	(%rcx,%rsi), %edi
	addq	%rdi, %rax
	addq	$96, %rsi
	cmpq	%rsi, %rdx
	jne	.LBB48_22
.LBB48_23:
	movl	8(%r14), %ecx
	cmpq	%rcx, %rax
	jae	.LBB48_24
	movq	(%r15), %rdi
	addq	$8, %rdi
	movl	(%r14), %r8d
	movq	%rsp, %rcx
	movq	%r13, %rsi
	movq	%r9, %rdx
	callq	"nm_tree::tree::Tree::delete_with_value"
	movq	%r12, %rsi
	testb	%al, %al
	jne	.LBB48_26
.LBB48_28:
	andb	$1, %dl
	movl	%edx, %eax
	xorb	$1, %al
	xorl	%ecx, %ecx
	testb	%dl, %dl
	cmovneq	%rsi, %rcx
	movb	%al, (%rbx)
	movb	$0, 1(%rbx)
	movzbl	%dl, %eax
	movq	%rax, 8(%rbx)
	movq	%rcx, 16(%rbx)
	jmp	.LBB48_9
.LBB48_24:
	movq	%r15, %rdi
	movq	%r9, %rsi
	movq	%r14, %rdx
	callq	"nm_set::member::Member::remove_untidy::<#f118e792109c5fac>"
	jmp	.LBB48_27
.LBB48_26:
	movzbl	%dl, %ecx
	movq	%r15, %rdi
	movq	%r14, %rdx
	callq	"nm_set::member::Member::remove_after::<#f118e792109c5fac>"
.LBB48_27:
	testb	%al, %al
	movq	%r12, %rsi
	jne	.LBB48_29
	jmp	.LBB48_28
.Lfunc_end48:
	.size	"nm_set::member::Member::pop_once::<#f118e792109c5fac>", .Lfunc_end48-"nm_set::member::Member::pop_once::<#f118e792109c5fac>"
	.cfi_endproc
	.section	".rodata.nm_set::member::Member::pop_once::<#f118e792109c5fac>","a",@progbits
	.p2align	2, 0x0
.LJTI48_0:
	.long	.LBB48_11-.LJTI48_0
	.long	.LBB48_6-.LJTI48_0
	.long	.LBB48_11-.LJTI48_0
	.long	.LBB48_10-.LJTI48_0
	.section	".text.nm_tree::tree::Tree::prev","ax",@progbits
	.p2align	4
	.type	"nm_tree::tree::Tree::prev",@function
"nm_tree::tree::Tree::prev":
	.cfi_startproc
	pushq	%rbp
	.cfi_def_cfa_offset 16
	pushq	%r15
	.cfi_def_cfa_offset 24
	pushq	%r14
	.cfi_def_cfa_offset 32
	pushq	%r12
	.cfi_def_cfa_offset 40
	pushq	%rbx
	.cfi_def_cfa_offset 48
	.cfi_offset %rbx, -48
	.cfi_offset %r12, -40
	.cfi_offset %r14, -32
	.cfi_offset %r15, -24
	.cfi_offset %rbp, -16
	movb	$1, %r9b
	cmpb	$2, 96(%rdx)
	jne	.LBB49_2
	movb	$4, %dl
	jmp	.LBB49_29
.LBB49_2:
	testl	%r8d, %r8d
	je	.LBB49_3
	movq	(%rsi), %rax
	movq	(%rax), %r10
	movq	$1, 8(%rdx)
	movq	%r10, 16(%rdx)
	leaq	24(%rdx), %rax
	movl	%r8d, %r11d
	.p2align	4
.LBB49_6:
	movl	4(%rdx), %ebx
	leaq	1(%r10), %r14
	movq	(%rsi), %r15
	xchgq	%r14, (%r15,%rbx,8)
	movq	$1, 24(%rdx)
	movq	%r10, 32(%rdx)
	movq	(%rsi), %r10
	movq	(%r10), %r10
	testb	$1, 56(%rdx)
	jne	.LBB49_31
	cmpb	$0, 40(%rdx)
	jne	.LBB49_32
	cmpb	$1, 24(%rdx)
	jne	.LBB49_32
	cmpq	%r10, 32(%rdx)
	movq	$1, 8(%rdx)
	movq	%r10, 16(%rdx)
	je	.LBB49_10
	decl	%r11d
	jne	.LBB49_6
	movq	(%rsi), %rcx
	movl	4(%rdx), %edx
	xorl	%esi, %esi
	xchgq	%rsi, (%rcx,%rdx,8)
	xorl	%edx, %edx
	xorps	%xmm0, %xmm0
	movups	%xmm0, 16(%rax)
	movups	%xmm0, (%rax)
	jmp	.LBB49_29
.LBB49_3:
	xorl	%edx, %edx
.LBB49_29:
	xorl	%ecx, %ecx
	xorl	%r10d, %r10d
.LBB49_30:
	movb	%r9b, (%rdi)
	movb	%dl, 1(%rdi)
	movq	%rcx, 8(%rdi)
	movq	%r10, 16(%rdi)
	popq	%rbx
	.cfi_def_cfa_offset 40
	popq	%r12
	.cfi_def_cfa_offset 32
	popq	%r14
	.cfi_def_cfa_offset 24
	popq	%r15
	.cfi_def_cfa_offset 16
	popq	%rbp
	.cfi_def_cfa_offset 8
	retq
.LBB49_10:
	.cfi_def_cfa_offset 48
	movq	$1, 40(%rdx)
	movq	%r10, 48(%rdx)
	xorl	%r9d, %r9d
	jmp	.LBB49_11
	.p2align	4
.LBB49_24:
	decq	%rbx
	incl	%r9d
	movq	%rbx, %rcx
	cmpl	%r8d, %r9d
	je	.LBB49_25
.LBB49_11:
	movl	64(%rsi), %r10d
	movl	80(%rsi), %r11d
	movq	(%rsi), %rbx
	leal	4(%r11), %r14d
	decl	%r10d
	testb	$1, 76(%rsi)
	movq	8(%rbx,%r14,8), %r14
	movl	$65, %ebp
	cmovel	%r10d, %ebp
	shrq	$2, %r14
	testl	%ebp, %ebp
	je	.LBB49_12
	testl	%r14d, %r14d
	je	.LBB49_14
	addl	$-4, %r11d
	xorl	%ebx, %ebx
	.p2align	4
.LBB49_17:
	movq	%rbx, %r15
	movq	(%rsi), %r10
	leal	(%r11,%r14,4), %ebx
	movq	(%r10,%rbx,8), %r10
	movq	(%rsi), %r14
	movq	8(%r14,%rbx,8), %r12
	movq	(%rsi), %r14
	movq	16(%r14,%rbx,8), %r14
	cmpq	%r10, %r15
	movq	%r10, %rbx
	cmovaq	%r15, %rbx
	cmpq	%r10, %rcx
	cmovbq	%r12, %r14
	cmovbq	%r15, %rbx
	shrq	$2, %r14
	decl	%ebp
	je	.LBB49_18
	testl	%r14d, %r14d
	jne	.LBB49_17
	jmp	.LBB49_19
	.p2align	4
.LBB49_12:
	xorl	%ebx, %ebx
	xorl	%r10d, %r10d
.LBB49_18:
	testl	%r14d, %r14d
	jne	.LBB49_25
.LBB49_19:
	cmpq	%r10, %rbx
	ja	.LBB49_24
.LBB49_20:
	cmpq	%rcx, %r10
	jbe	.LBB49_21
	testq	%rbx, %rbx
	jne	.LBB49_24
	jmp	.LBB49_23
	.p2align	4
.LBB49_14:
	xorl	%ebx, %ebx
	xorl	%r10d, %r10d
	cmpq	%r10, %rbx
	ja	.LBB49_24
	jmp	.LBB49_20
.LBB49_25:
	movb	$1, %r9b
	jmp	.LBB49_26
.LBB49_21:
	xorl	%r9d, %r9d
	xorl	%ecx, %ecx
	cmpq	$-3, %r10
	setb	%cl
	cmovaeq	%r9, %r10
	jmp	.LBB49_27
.LBB49_23:
	xorl	%r9d, %r9d
.LBB49_26:
	xorl	%ecx, %ecx
	xorl	%r10d, %r10d
.LBB49_27:
	movq	(%rsi), %rsi
	movl	4(%rdx), %r8d
	xorl	%edx, %edx
	xorl	%r11d, %r11d
	xchgq	%r11, (%rsi,%r8,8)
	xorps	%xmm0, %xmm0
	movups	%xmm0, 16(%rax)
	movups	%xmm0, (%rax)
	jmp	.LBB49_30
.LBB49_31:
	movq	$1, 8(%rdx)
	movq	%r10, 16(%rdx)
	movb	$0, 56(%rdx)
	ud2
.LBB49_32:
	movq	$1, 8(%rdx)
	movq	%r10, 16(%rdx)
	ud2
.Lfunc_end49:
	.size	"nm_tree::tree::Tree::prev", .Lfunc_end49-"nm_tree::tree::Tree::prev"
	.cfi_endproc
	.section	".text.unlikely.nm_set::member::Member::remove_untidy::<#f118e792109c5fac>","ax",@progbits
	.p2align	4
	.type	"nm_set::member::Member::remove_untidy::<#f118e792109c5fac>",@function
"nm_set::member::Member::remove_untidy::<#f118e792109c5fac>":
	.cfi_startproc
	pushq	%rbp
	.cfi_def_cfa_offset 16
	pushq	%r15
	.cfi_def_cfa_offset 24
	pushq	%r14
	.cfi_def_cfa_offset 32
	pushq	%rbx
	.cfi_def_cfa_offset 40
	pushq	%rax
	.cfi_def_cfa_offset 48
	.cfi_offset %rbx, -40
	.cfi_offset %r14, -32
	.cfi_offset %r15, -24
	.cfi_offset %rbp, -16
	movq	%rdx, %rbx
	cmpb	$2, 104(%rdi)
	je	.LBB50_2
	xorl	%ebp, %ebp
.LBB50_3:
	movq	80(%rdi), %r8
	testq	%r8, %r8
	je	.LBB50_4
	movq	72(%rdi), %rcx
	cmpq	$1, %r8
	jne	.LBB50_6
	movl	60(%rcx), %eax
	jmp	.LBB50_14
.LBB50_4:
	movq	%r8, %rax
	jmp	.LBB50_14
.LBB50_6:
	leaq	-1(%r8), %rax
	movl	%r8d, %edx
	andl	$3, %edx
	cmpq	$3, %rax
	jae	.LBB50_9
	xorl	%eax, %eax
	xorl	%r9d, %r9d
	jmp	.LBB50_12
.LBB50_9:
	andq	$-4, %r8
	leaq	348(%rcx), %r10
	xorl	%eax, %eax
	xorl	%r9d, %r9d
	.p2align	4
.LBB50_10:
	movl	-288(%r10), %r11d
	movl	-192(%r10), %r14d
	addq	%rax, %r11
	movl	-96(%r10), %r15d
	addq	%r14, %r15
	addq	%r11, %r15
	movl	(%r10), %eax
	addq	%r15, %rax
	addq	$4, %r9
	addq	$384, %r10
	cmpq	%r9, %r8
	jne	.LBB50_10
	testq	%rdx, %rdx
	je	.LBB50_14
.LBB50_12:
	leaq	(%r9,%r9,2), %r8
	shlq	$5, %r8
	addq	%r8, %rcx
	addq	$60, %rcx
	shll	$5, %edx
	leaq	(%rdx,%rdx,2), %rdx
	xorl	%r8d, %r8d
	.p2align	4
.LBB50_13:
	movl	(%rcx,%r8), %r9d
	addq	%r9, %rax
	addq	$96, %r8
	cmpq	%r8, %rdx
	jne	.LBB50_13
.LBB50_14:
	movl	8(%rbx), %ecx
	cmpq	%rcx, %rax
	jae	.LBB50_15
.LBB50_16:
	xorl	%edx, %edx
.LBB50_17:
	testb	%bpl, %bpl
	je	.LBB50_18
	movb	$1, %al
.LBB50_22:
	addq	$8, %rsp
	.cfi_def_cfa_offset 40
	popq	%rbx
	.cfi_def_cfa_offset 32
	popq	%r14
	.cfi_def_cfa_offset 24
	popq	%r15
	.cfi_def_cfa_offset 16
	popq	%rbp
	.cfi_def_cfa_offset 8
	retq
.LBB50_2:
	.cfi_def_cfa_offset 48
	leaq	8(%rdi), %rax
	movq	(%rdi), %rcx
	addq	$8, %rcx
	movl	(%rbx), %edx
	movl	4(%rbx), %r8d
	incq	%r8
	imulq	%r8, %rdx
	movl	$4294967295, %r8d
	cmpq	%r8, %rdx
	cmovaeq	%r8, %rdx
	movq	%rdi, %r14
	movq	%rcx, %rdi
	movq	%rsi, %r15
	movq	%rax, %rsi
	callq	"nm_tree::tree::Tree::finish_pending"
	movq	%r14, %rdi
	movq	%r15, %rsi
	movl	%eax, %ebp
	movb	$4, %dl
	testb	%al, %al
	jne	.LBB50_17
	jmp	.LBB50_3
.LBB50_18:
	movl	(%rbx), %r8d
	movq	%rsp, %rcx
	movq	%rdi, %r14
	movq	%rsi, %rdx
	movl	$2, %esi
	movq	%rdx, %r15
	callq	"nm_set::member::Member::ask::<#f118e792109c5fac>"
	testb	%al, %al
	jne	.LBB50_20
	andb	$1, %dl
	xorl	%eax, %eax
	jmp	.LBB50_22
.LBB50_15:
	movq	%rdi, %r14
	movq	%rsi, %r15
	callq	"nm_set::member::Member::relieve::<#f118e792109c5fac>"
	movq	%r14, %rdi
	movq	%r15, %rsi
	jmp	.LBB50_16
.LBB50_20:
	movzbl	%dl, %ecx
	movq	%r14, %rdi
	movq	%r15, %rsi
	movq	%rbx, %rdx
	addq	$8, %rsp
	.cfi_def_cfa_offset 40
	popq	%rbx
	.cfi_def_cfa_offset 32
	popq	%r14
	.cfi_def_cfa_offset 24
	popq	%r15
	.cfi_def_cfa_offset 16
	popq	%rbp
	.cfi_def_cfa_offset 8
	jmp	"nm_set::member::Member::retry_remove::<#f118e792109c5fac>"
.Lfunc_end50:
	.size	"nm_set::member::Member::remove_untidy::<#f118e792109c5fac>", .Lfunc_end50-"nm_set::member::Member::remove_untidy::<#f118e792109c5fac>"
	.cfi_endproc
	.section	".text.unlikely.nm_set::member::Member::retry_remove::<#f118e792109c5fac>","ax",@progbits
	.p2align	4
	.type	"nm_set::member::Member::retry_remove::<#f118e792109c5fac>",@function
"nm_set::member::Member::retry_remove::<#f118e792109c5fac>":
	.cfi_startproc
	pushq	%r14
	.cfi_def_cfa_offset 16
	pushq	%rbx
	.cfi_def_cfa_offset 24
	subq	$24, %rsp
	.cfi_def_cfa_offset 48
	.cfi_offset %rbx, -24
	.cfi_offset %r14, -16
	movq	%rdi, %rbx
	testb	%cl, %cl
	jne	.LBB51_2
	movl	4(%rdx), %eax
	testl	%eax, %eax
	jne	.LBB51_3
.LBB51_2:
	movb	$1, %al
.LBB51_4:
	movl	%eax, %esi
	xorb	$1, %sil
	movl	%ecx, %edi
	xorb	$3, %dil
	orb	%sil, %dil
	jne	.LBB51_8
	cmpb	$2, 104(%rbx)
	je	.LBB51_7
	xorl	%ecx, %ecx
	xorl	%eax, %eax
.LBB51_8:
	movl	%ecx, %edx
	addq	$24, %rsp
	.cfi_def_cfa_offset 24
	popq	%rbx
	.cfi_def_cfa_offset 16
	popq	%r14
	.cfi_def_cfa_offset 8
	retq
.LBB51_7:
	.cfi_def_cfa_offset 48
	movq	(%rbx), %rdi
	addq	$8, %rbx
	addq	$8, %rdi
	movl	(%rdx), %eax
	movl	4(%rdx), %ecx
	incq	%rcx
	imulq	%rcx, %rax
	movl	$4294967295, %ecx
	cmpq	%rcx, %rax
	cmovaeq	%rcx, %rax
	movq	%rbx, %rsi
	movl	%eax, %edx
	callq	"nm_tree::tree::Tree::finish_pending"
	movl	%edx, %ecx
	jmp	.LBB51_8
.LBB51_3:
	decl	%eax
	movl	(%rdx), %ecx
	movl	8(%rdx), %edi
	movl	%ecx, 12(%rsp)
	movl	%eax, 16(%rsp)
	movl	%edi, 20(%rsp)
	leaq	12(%rsp), %rcx
	movq	%rbx, %rdi
	movq	%rsi, %rax
	movl	$2, %esi
	movq	%rdx, %r14
	movq	%rax, %rdx
	callq	"nm_set::member::Member::ask_with_retries::<#f118e792109c5fac>"
	movl	%edx, %ecx
	movq	%r14, %rdx
	jmp	.LBB51_4
.Lfunc_end51:
	.size	"nm_set::member::Member::retry_remove::<#f118e792109c5fac>", .Lfunc_end51-"nm_set::member::Member::retry_remove::<#f118e792109c5fac>"
	.cfi_endproc
	.section	".text.unlikely.nm_set::member::Member::remove_after::<#f118e792109c5fac>","ax",@progbits
	.p2align	4
	.type	"nm_set::member::Member::remove_after::<#f118e792109c5fac>",@function
"nm_set::member::Member::remove_after::<#f118e792109c5fac>":
	.cfi_startproc
	cmpb	$4, %cl
	jne	.LBB52_2
	jmp	"nm_set::member::Member::remove_untidy::<#f118e792109c5fac>"
.LBB52_2:
	movzbl	%cl, %ecx
	jmp	"nm_set::member::Member::retry_remove::<#f118e792109c5fac>"
.Lfunc_end52:
	.size	"nm_set::member::Member::remove_after::<#f118e792109c5fac>", .Lfunc_end52-"nm_set::member::Member::remove_after::<#f118e792109c5fac>"
	.cfi_endproc
	.section	".text.nm_set::attach::take_any","ax",@progbits
	.p2align	4
	.type	"nm_set::attach::take_any",@function
"nm_set::attach::take_any":
	.cfi_startproc
	pushq	%rbp
	.cfi_def_cfa_offset 16
	pushq	%r15
	.cfi_def_cfa_offset 24
	pushq	%r14
	.cfi_def_cfa_offset 32
	pushq	%r12
	.cfi_def_cfa_offset 40
	pushq	%rbx
	.cfi_def_cfa_offset 48
	subq	$928, %rsp
	.cfi_def_cfa_offset 976
	.cfi_offset %rbx, -48
	.cfi_offset %r12, -40
	.cfi_offset %r14, -32
	.cfi_offset %r15, -24
	.cfi_offset %rbp, -16
	xorps	%xmm0, %xmm0
	movaps	%xmm0, 608(%rsp)
	movaps	%xmm0, 592(%rsp)
	movaps	%xmm0, 576(%rsp)
	movaps	%xmm0, 560(%rsp)
	movaps	%xmm0, 544(%rsp)
	movaps	%xmm0, 528(%rsp)
	movaps	%xmm0, 512(%rsp)
	movq	$0, 624(%rsp)
	movaps	%xmm0, (%rsp)
	movaps	%xmm0, 16(%rsp)
	movaps	%xmm0, 32(%rsp)
	movaps	%xmm0, 48(%rsp)
	movaps	%xmm0, 64(%rsp)
	movaps	%xmm0, 80(%rsp)
	movaps	%xmm0, 96(%rsp)
	movq	$0, 112(%rsp)
	movq	168(%rsi), %rax
	testq	%rax, %rax
	je	.LBB53_10
	movl	$4294967295, %edx
	cmpq	%rdx, %rax
	cmovbq	%rax, %rdx
	movl	$24, %ecx
	xorl	%r14d, %r14d
	jmp	.LBB53_2
	.p2align	4
.LBB53_3:
	movaps	%xmm1, 96(%rsp)
	movaps	%xmm1, 80(%rsp)
	movaps	%xmm1, 64(%rsp)
	movaps	%xmm1, 48(%rsp)
	movaps	%xmm1, 32(%rsp)
	movaps	%xmm1, 16(%rsp)
	movaps	%xmm1, (%rsp)
	movq	$0, 112(%rsp)
	incq	%r14
	addq	$144, %rcx
	cmpq	%r14, %rdx
	je	.LBB53_10
.LBB53_2:
	xorps	%xmm1, %xmm1
	movaps	%xmm1, 128(%rsp)
	movaps	%xmm1, 144(%rsp)
	movaps	%xmm1, 160(%rsp)
	movaps	%xmm1, 176(%rsp)
	movaps	%xmm1, 192(%rsp)
	movaps	%xmm1, 208(%rsp)
	movaps	%xmm1, 224(%rsp)
	movq	$0, 240(%rsp)
	movaps	%xmm1, 640(%rsp)
	movaps	%xmm1, 656(%rsp)
	movaps	%xmm1, 672(%rsp)
	movaps	%xmm1, 688(%rsp)
	movaps	%xmm1, 704(%rsp)
	movaps	%xmm1, 720(%rsp)
	movaps	%xmm1, 736(%rsp)
	movq	$0, 752(%rsp)
	cmpq	%r14, 112(%rsi)
	jbe	.LBB53_3
	movq	96(%rsi), %rax
	movq	(%rax), %rax
	movaps	%xmm1, 480(%rsp)
	movaps	%xmm1, 464(%rsp)
	movaps	%xmm1, 448(%rsp)
	movaps	%xmm1, 432(%rsp)
	movaps	%xmm1, 416(%rsp)
	movaps	%xmm1, 400(%rsp)
	movaps	%xmm1, 384(%rsp)
	movq	$0, 496(%rsp)
	movq	96(%rsi), %rax
	movq	(%rax,%r14,8), %rbx
	cmpq	$-30, %rbx
	setb	%al
	testb	%bl, %al
	je	.LBB53_8
	movaps	%xmm1, 256(%rsp)
	movaps	%xmm1, 272(%rsp)
	movaps	%xmm1, 288(%rsp)
	movaps	%xmm1, 304(%rsp)
	movaps	%xmm1, 320(%rsp)
	movaps	%xmm1, 336(%rsp)
	movaps	%xmm1, 352(%rsp)
	movq	$0, 368(%rsp)
	movaps	%xmm1, 784(%rsp)
	movaps	%xmm1, 800(%rsp)
	movaps	%xmm1, 816(%rsp)
	movaps	%xmm1, 832(%rsp)
	movaps	%xmm1, 848(%rsp)
	movaps	%xmm1, 864(%rsp)
	movaps	%xmm1, 880(%rsp)
	movaps	%xmm1, 896(%rsp)
	movq	$0, 912(%rsp)
	movq	%rbx, %r8
	andq	$-2, %r8
	addq	$2, %r8
	movq	96(%rsi), %r9
	movq	%rbx, %rax
	lock		cmpxchgq	%r8, (%r9,%r14,8)
	je	.LBB53_6
.LBB53_8:
	movq	752(%rsp), %rax
	movq	%rax, 112(%rsp)
	movaps	736(%rsp), %xmm1
	movaps	%xmm1, 96(%rsp)
	movaps	720(%rsp), %xmm1
	movaps	%xmm1, 80(%rsp)
	movaps	704(%rsp), %xmm1
	movaps	%xmm1, 64(%rsp)
	movaps	640(%rsp), %xmm1
	movaps	656(%rsp), %xmm2
	movaps	672(%rsp), %xmm3
	movaps	688(%rsp), %xmm4
	movaps	%xmm4, 48(%rsp)
	movaps	%xmm3, 32(%rsp)
	movaps	%xmm2, 16(%rsp)
	movaps	%xmm1, (%rsp)
	incq	%r14
	addq	$144, %rcx
	cmpq	%r14, %rdx
	jne	.LBB53_2
.LBB53_10:
	movups	%xmm0, (%rdi)
	movq	$0, 16(%rdi)
	movaps	512(%rsp), %xmm1
	movaps	528(%rsp), %xmm2
	movaps	544(%rsp), %xmm3
	movaps	560(%rsp), %xmm4
	movups	%xmm1, 24(%rdi)
	movups	%xmm2, 40(%rdi)
	movups	%xmm3, 56(%rdi)
	movups	%xmm4, 72(%rdi)
	movaps	576(%rsp), %xmm1
	movups	%xmm1, 88(%rdi)
	movaps	592(%rsp), %xmm1
	movups	%xmm1, 104(%rdi)
	movaps	608(%rsp), %xmm1
	movups	%xmm1, 120(%rdi)
	movq	624(%rsp), %rax
	movq	%rax, 136(%rdi)
	movups	%xmm0, 144(%rdi)
.LBB53_11:
	addq	$928, %rsp
	.cfi_def_cfa_offset 48
	popq	%rbx
	.cfi_def_cfa_offset 40
	popq	%r12
	.cfi_def_cfa_offset 32
	popq	%r14
	.cfi_def_cfa_offset 24
	popq	%r15
	.cfi_def_cfa_offset 16
	popq	%rbp
	.cfi_def_cfa_offset 8
	retq
.LBB53_6:
	.cfi_def_cfa_offset 976
	movq	%rdi, %r15
	movq	104(%rsi), %rax
	movzbl	-24(%rax,%rcx), %ebp
	leaq	(%rax,%rcx), %rdi
	addq	$-16, %rdi
	movsd	-16(%rax,%rcx), %xmm0
	movaps	%xmm0, 768(%rsp)
	movq	-8(%rax,%rcx), %r12
	movq	112(%rax,%rcx), %rdx
	movq	%rdx, 368(%rsp)
	movups	96(%rax,%rcx), %xmm0
	movaps	%xmm0, 352(%rsp)
	movups	80(%rax,%rcx), %xmm0
	movaps	%xmm0, 336(%rsp)
	movups	64(%rax,%rcx), %xmm0
	movaps	%xmm0, 320(%rsp)
	movups	48(%rax,%rcx), %xmm0
	movaps	%xmm0, 304(%rsp)
	movups	32(%rax,%rcx), %xmm0
	movaps	%xmm0, 288(%rsp)
	movups	16(%rax,%rcx), %xmm0
	movaps	%xmm0, 272(%rsp)
	movups	(%rax,%rcx), %xmm0
	movaps	%xmm0, 256(%rsp)
	movq	$0, -24(%rax,%rcx)
	leaq	784(%rsp), %rsi
	movl	$136, %edx
	callq	memcpy@PLT
	cmpb	$1, %bpl
	jne	.LBB53_12
	shrq	%rbx
	movq	368(%rsp), %rax
	movq	%rax, 496(%rsp)
	movaps	352(%rsp), %xmm0
	movaps	%xmm0, 480(%rsp)
	movaps	336(%rsp), %xmm1
	movaps	%xmm1, 464(%rsp)
	movaps	320(%rsp), %xmm2
	movaps	%xmm2, 448(%rsp)
	movaps	256(%rsp), %xmm3
	movaps	272(%rsp), %xmm4
	movaps	288(%rsp), %xmm5
	movaps	304(%rsp), %xmm6
	movaps	%xmm6, 432(%rsp)
	movaps	%xmm5, 416(%rsp)
	movaps	%xmm4, 400(%rsp)
	movaps	%xmm3, 384(%rsp)
	movaps	%xmm0, 224(%rsp)
	movaps	%xmm1, 208(%rsp)
	movaps	%xmm2, 192(%rsp)
	movaps	%xmm6, 176(%rsp)
	movaps	%xmm5, 160(%rsp)
	movaps	%xmm4, 144(%rsp)
	movaps	%xmm3, 128(%rsp)
	movq	496(%rsp), %rax
	movq	%rax, 240(%rsp)
	movq	240(%rsp), %rax
	movq	%rax, 112(%rsp)
	movaps	224(%rsp), %xmm0
	movaps	%xmm0, 96(%rsp)
	movaps	208(%rsp), %xmm0
	movaps	%xmm0, 80(%rsp)
	movaps	192(%rsp), %xmm0
	movaps	%xmm0, 64(%rsp)
	movaps	128(%rsp), %xmm0
	movaps	144(%rsp), %xmm1
	movaps	160(%rsp), %xmm2
	movaps	176(%rsp), %xmm3
	movaps	%xmm3, 48(%rsp)
	movaps	%xmm2, 32(%rsp)
	movaps	%xmm1, 16(%rsp)
	movaps	%xmm0, (%rsp)
	movq	$1, (%r15)
	movaps	768(%rsp), %xmm0
	movlps	%xmm0, 8(%r15)
	movq	%r12, 16(%r15)
	movaps	(%rsp), %xmm0
	movaps	16(%rsp), %xmm1
	movaps	32(%rsp), %xmm2
	movaps	48(%rsp), %xmm3
	movups	%xmm0, 24(%r15)
	movups	%xmm1, 40(%r15)
	movups	%xmm2, 56(%r15)
	movups	%xmm3, 72(%r15)
	movaps	64(%rsp), %xmm0
	movups	%xmm0, 88(%r15)
	movaps	80(%rsp), %xmm0
	movups	%xmm0, 104(%r15)
	movaps	96(%rsp), %xmm0
	movups	%xmm0, 120(%r15)
	movq	112(%rsp), %rax
	movq	%rax, 136(%r15)
	movl	%r14d, 144(%r15)
	movl	$0, 148(%r15)
	movq	%rbx, 152(%r15)
	jmp	.LBB53_11
.LBB53_12:
	ud2
.Lfunc_end53:
	.size	"nm_set::attach::take_any", .Lfunc_end53-"nm_set::attach::take_any"
	.cfi_endproc
	.section	".text.nm_set_c::opening::open","ax",@progbits
	.p2align	4
	.type	"nm_set_c::opening::open",@function
"nm_set_c::opening::open":
	.cfi_startproc
	pushq	%rbp
	.cfi_def_cfa_offset 16
	pushq	%r15
	.cfi_def_cfa_offset 24
	pushq	%r14
	.cfi_def_cfa_offset 32
	pushq	%r13
	.cfi_def_cfa_offset 40
	pushq	%r12
	.cfi_def_cfa_offset 48
	pushq	%rbx
	.cfi_def_cfa_offset 56
	subq	$584, %rsp
	.cfi_def_cfa_offset 640
	.cfi_offset %rbx, -56
	.cfi_offset %r12, -48
	.cfi_offset %r13, -40
	.cfi_offset %r14, -32
	.cfi_offset %r15, -24
	.cfi_offset %rbp, -16
	movq	%rdi, 168(%rsp)
	movzbl	(%rsi), %eax
	movq	%rax, 160(%rsp)
	movzbl	8(%rsi), %r14d
	movq	16(%rsi), %r12
	movq	24(%rsi), %rax
	movq	%rax, 128(%rsp)
	movq	32(%rsi), %rax
	movq	%rax, 48(%rsp)
	movq	40(%rsi), %rax
	movq	%rax, 112(%rsp)
	movq	48(%rsi), %r15
	movq	56(%rsi), %rax
	movq	%rax, 120(%rsp)
	movq	64(%rsi), %rbp
	movq	72(%rsi), %rax
	movq	%rax, 136(%rsp)
	movq	104(%rsi), %rax
	movq	%rax, 56(%rsp)
	movq	112(%rsi), %rax
	movq	%rax, 16(%rsp)
	movq	120(%rsi), %rbx
	movq	128(%rsi), %rax
	movq	%rax, 8(%rsp)
	movq	136(%rsi), %rax
	movq	%rax, 144(%rsp)
	movq	144(%rsi), %rax
	movq	%rax, 72(%rsp)
	movq	152(%rsi), %rax
	movq	%rax, 152(%rsp)
	movq	160(%rsi), %rax
	movq	%rax, 64(%rsp)
	movl	$0, 3(%rsp)
	movl	$0, (%rsp)
	xorps	%xmm0, %xmm0
	movaps	%xmm0, 400(%rsp)
	movaps	%xmm0, 416(%rsp)
	movaps	%xmm0, 432(%rsp)
	movaps	%xmm0, 448(%rsp)
	movaps	%xmm0, 464(%rsp)
	movaps	%xmm0, 480(%rsp)
	movaps	%xmm0, 496(%rsp)
	movaps	%xmm0, 512(%rsp)
	movaps	%xmm0, 528(%rsp)
	movaps	%xmm0, 544(%rsp)
	movaps	%xmm0, 240(%rsp)
	movaps	%xmm0, 256(%rsp)
	movaps	%xmm0, 272(%rsp)
	movaps	%xmm0, 288(%rsp)
	movaps	%xmm0, 304(%rsp)
	movaps	%xmm0, 320(%rsp)
	movaps	%xmm0, 336(%rsp)
	movaps	%xmm0, 352(%rsp)
	movaps	%xmm0, 368(%rsp)
	movaps	%xmm0, 384(%rsp)
	movaps	%xmm0, 176(%rsp)
	movq	$0, 192(%rsp)
	movl	9(%rsi), %eax
	movl	12(%rsi), %ecx
	movl	%ecx, 27(%rsp)
	movl	%eax, 24(%rsp)
	movq	96(%rsi), %rax
	movq	%rax, 96(%rsp)
	movups	80(%rsi), %xmm0
	movaps	%xmm0, 80(%rsp)
	movq	184(%rsi), %rax
	movq	%rax, 576(%rsp)
	movups	168(%rsi), %xmm0
	movq	%rbp, %r13
	shrq	$8, %r13
	movaps	%xmm0, 560(%rsp)
	movl	$192, %edi
	movl	$8, %esi
	callq	nm_host_alloc@PLT
	testb	$1, %al
	je	.LBB54_2
	movq	160(%rsp), %rax
	movq	%rax, (%rdx)
	movb	%r14b, 8(%rdx)
	movl	24(%rsp), %eax
	movl	27(%rsp), %ecx
	movl	%eax, 9(%rdx)
	movl	%ecx, 12(%rdx)
	movq	%r12, 16(%rdx)
	movq	128(%rsp), %rax
	movq	%rax, 24(%rdx)
	movq	48(%rsp), %rax
	movq	%rax, 32(%rdx)
	movq	112(%rsp), %rax
	movq	%rax, 40(%rdx)
	movq	%r15, 48(%rdx)
	movq	120(%rsp), %rax
	movq	%rax, 56(%rdx)
	movb	%bpl, 64(%rdx)
	movq	%r13, %rax
	shrq	$48, %rax
	movb	%al, 71(%rdx)
	movq	%r13, %rax
	shrq	$32, %rax
	movw	%ax, 69(%rdx)
	movl	%r13d, 65(%rdx)
	movq	136(%rsp), %rax
	movq	%rax, 72(%rdx)
	movaps	80(%rsp), %xmm0
	movups	%xmm0, 80(%rdx)
	movq	96(%rsp), %rax
	movq	%rax, 96(%rdx)
	movq	56(%rsp), %rax
	movq	%rax, 104(%rdx)
	movq	16(%rsp), %rax
	movq	%rax, 112(%rdx)
	movq	%rbx, 120(%rdx)
	movq	8(%rsp), %rax
	movq	%rax, 128(%rdx)
	movq	144(%rsp), %rax
	movq	%rax, 136(%rdx)
	movq	72(%rsp), %rax
	movq	%rax, 144(%rdx)
	movq	152(%rsp), %rax
	movq	%rax, 152(%rdx)
	movq	64(%rsp), %rax
	movq	%rax, 160(%rdx)
	movq	576(%rsp), %rax
	movq	%rax, 184(%rdx)
	movaps	560(%rsp), %xmm0
	movups	%xmm0, 168(%rdx)
	movl	$0, (%rsp)
	movl	$0, 3(%rsp)
	xorps	%xmm0, %xmm0
	movaps	%xmm0, 208(%rsp)
	movq	$0, 224(%rsp)
	movq	168(%rsp), %rcx
	movq	%rdx, (%rcx)
	xorl	%eax, %eax
	xchgq	%rax, 8(%rcx)
	movb	$2, %bpl
	jmp	.LBB54_25
.LBB54_2:
	movl	%r14d, %r11d
	movq	112(%rsp), %r10
	movq	128(%rsp), %r9
	movq	120(%rsp), %r8
	movq	%r15, 32(%rsp)
	movq	136(%rsp), %r14
	movq	%rbp, 40(%rsp)
	movq	144(%rsp), %rsi
	movq	152(%rsp), %rdx
	movl	24(%rsp), %eax
	movl	27(%rsp), %ecx
	movl	%ecx, 3(%rsp)
	movl	%eax, (%rsp)
	movaps	80(%rsp), %xmm0
	movaps	%xmm0, 208(%rsp)
	movq	96(%rsp), %rax
	movq	%rax, 224(%rsp)
	xorl	%eax, %eax
	movq	168(%rsp), %rcx
	xchgq	%rax, 8(%rcx)
	movb	$14, %bpl
	leaq	.LJTI54_0(%rip), %rax
	movq	160(%rsp), %rcx
	movslq	(%rax,%rcx,4), %rcx
	addq	%rax, %rcx
	jmpq	*%rcx
.LBB54_3:
	testb	%r11b, %r11b
	je	.LBB54_4
	movq	32(%rsp), %rdi
	callq	nm_host_dealloc@PLT
	movq	40(%rsp), %rdi
	callq	nm_host_dealloc@PLT
	movq	16(%rsp), %r12
	movq	8(%rsp), %r13
	testq	%rbx, %rbx
	jne	.LBB54_7
	jmp	.LBB54_9
.LBB54_18:
	movb	%r11b, 240(%rsp)
	movl	(%rsp), %eax
	movl	%eax, 241(%rsp)
	movl	3(%rsp), %eax
	movl	%eax, 244(%rsp)
	movq	%r12, 248(%rsp)
	movq	%r9, 256(%rsp)
	movq	48(%rsp), %rax
	movq	%rax, 264(%rsp)
	movq	%r10, 272(%rsp)
	movq	32(%rsp), %rax
	movq	%rax, 280(%rsp)
	movq	%r8, 288(%rsp)
	movq	40(%rsp), %rax
	movb	%al, 296(%rsp)
	movq	%r13, %rax
	shrq	$48, %rax
	movb	%al, 303(%rsp)
	movl	%r13d, 297(%rsp)
	shrq	$32, %r13
	movw	%r13w, 301(%rsp)
	movq	%r14, 304(%rsp)
	movq	224(%rsp), %rax
	movq	%rax, 328(%rsp)
	movaps	208(%rsp), %xmm0
	movups	%xmm0, 312(%rsp)
	movq	56(%rsp), %rax
	movq	%rax, 336(%rsp)
	movq	16(%rsp), %rax
	movq	%rax, 344(%rsp)
	movq	%rbx, 352(%rsp)
	movq	8(%rsp), %rax
	movq	%rax, 360(%rsp)
	movq	%rsi, 368(%rsp)
	movq	72(%rsp), %rax
	movq	%rax, 376(%rsp)
	movq	%rdx, 384(%rsp)
	movq	64(%rsp), %rax
	movq	%rax, 392(%rsp)
	leaq	240(%rsp), %rdi
	callq	"nm_set::member::Member::drop::<#801ed3b42cb27f26>"
	jmp	.LBB54_25
.LBB54_11:
	movb	%r11b, 400(%rsp)
	movl	(%rsp), %eax
	movl	%eax, 401(%rsp)
	movl	3(%rsp), %eax
	movl	%eax, 404(%rsp)
	movq	%r12, 408(%rsp)
	movq	%r9, 416(%rsp)
	movq	48(%rsp), %rax
	movq	%rax, 424(%rsp)
	movq	%r10, 432(%rsp)
	movq	32(%rsp), %rax
	movq	%rax, 440(%rsp)
	movq	%r8, 448(%rsp)
	movq	40(%rsp), %rax
	movb	%al, 456(%rsp)
	movq	%r13, %rax
	shrq	$48, %rax
	movb	%al, 463(%rsp)
	movl	%r13d, 457(%rsp)
	shrq	$32, %r13
	movw	%r13w, 461(%rsp)
	movq	%r14, 464(%rsp)
	movq	224(%rsp), %rax
	movq	%rax, 488(%rsp)
	movaps	208(%rsp), %xmm0
	movups	%xmm0, 472(%rsp)
	movq	56(%rsp), %rax
	movq	%rax, 496(%rsp)
	movq	16(%rsp), %rax
	movq	%rax, 504(%rsp)
	movq	%rbx, 512(%rsp)
	movq	8(%rsp), %rax
	movq	%rax, 520(%rsp)
	movq	%rsi, 528(%rsp)
	movq	72(%rsp), %rax
	movq	%rax, 536(%rsp)
	movq	%rdx, 544(%rsp)
	movq	64(%rsp), %rax
	movq	%rax, 552(%rsp)
	leaq	400(%rsp), %rdi
	callq	"nm_set::member::Member::drop::<#1bca8a4dd8d4d294>"
	jmp	.LBB54_25
.LBB54_12:
	testb	%r11b, %r11b
	je	.LBB54_13
	movq	32(%rsp), %rdi
	callq	nm_host_dealloc@PLT
	movq	40(%rsp), %rdi
	callq	nm_host_dealloc@PLT
	movq	16(%rsp), %r12
	movq	8(%rsp), %r13
	testq	%rbx, %rbx
	jne	.LBB54_16
	jmp	.LBB54_9
.LBB54_19:
	movb	%r11b, 176(%rsp)
	movl	(%rsp), %eax
	movl	3(%rsp), %ecx
	movl	%eax, 177(%rsp)
	movl	%ecx, 180(%rsp)
	movq	%r12, 184(%rsp)
	movq	%r9, 192(%rsp)
	leaq	176(%rsp), %rdi
	callq	"std_alloc::vec::Vec::drop::<#032578a7531b7385>"
	cmpq	$0, 32(%rsp)
	je	.LBB54_21
	movq	48(%rsp), %rdi
	callq	nm_host_dealloc@PLT
.LBB54_21:
	cmpb	$1, 40(%rsp)
	movq	72(%rsp), %r14
	movq	64(%rsp), %r15
	movq	56(%rsp), %rdi
	jne	.LBB54_25
	callq	nm_host_dealloc@PLT
	movq	%rbx, %rdi
	callq	nm_host_dealloc@PLT
	testq	%r15, %r15
	je	.LBB54_25
	movq	%r14, %rdi
	jmp	.LBB54_24
.LBB54_13:
	movq	%r12, %rdi
	callq	"std_alloc::arc::Arc::drop::<#58f27b66bb4955cb>"
	movq	16(%rsp), %r12
	movq	8(%rsp), %r13
	testq	%rbx, %rbx
	je	.LBB54_9
.LBB54_16:
	leaq	128(%r12), %r15
	.p2align	4
.LBB54_17:
	movq	(%r15), %r14
	movq	-48(%r15), %rax
	movq	%rax, 96(%rsp)
	movups	-64(%r15), %xmm0
	movaps	%xmm0, 80(%rsp)
	leaq	80(%rsp), %rdi
	callq	"std_alloc::vec::Vec::drop::<#032578a7531b7385>"
	movq	%r14, %rdi
	callq	nm_host_dealloc@PLT
	addq	$136, %r15
	decq	%rbx
	jne	.LBB54_17
	jmp	.LBB54_9
.LBB54_4:
	movq	%r12, %rdi
	callq	"std_alloc::arc::Arc::drop::<#58f27b66bb4955cb>"
	movq	16(%rsp), %r12
	movq	8(%rsp), %r13
	testq	%rbx, %rbx
	je	.LBB54_9
.LBB54_7:
	leaq	128(%r12), %r15
	.p2align	4
.LBB54_8:
	movq	(%r15), %r14
	movq	-48(%r15), %rax
	movq	%rax, 96(%rsp)
	movups	-64(%r15), %xmm0
	movaps	%xmm0, 80(%rsp)
	leaq	80(%rsp), %rdi
	callq	"std_alloc::vec::Vec::drop::<#032578a7531b7385>"
	movq	%r14, %rdi
	callq	nm_host_dealloc@PLT
	addq	$136, %r15
	decq	%rbx
	jne	.LBB54_8
.LBB54_9:
	testq	%r13, %r13
	je	.LBB54_25
	movq	%r12, %rdi
.LBB54_24:
	callq	nm_host_dealloc@PLT
.LBB54_25:
	movl	%ebp, %eax
	addq	$584, %rsp
	.cfi_def_cfa_offset 56
	popq	%rbx
	.cfi_def_cfa_offset 48
	popq	%r12
	.cfi_def_cfa_offset 40
	popq	%r13
	.cfi_def_cfa_offset 32
	popq	%r14
	.cfi_def_cfa_offset 24
	popq	%r15
	.cfi_def_cfa_offset 16
	popq	%rbp
	.cfi_def_cfa_offset 8
	retq
.Lfunc_end54:
	.size	"nm_set_c::opening::open", .Lfunc_end54-"nm_set_c::opening::open"
	.cfi_endproc
	.section	".rodata.nm_set_c::opening::open","a",@progbits
	.p2align	2, 0x0
.LJTI54_0:
	.long	.LBB54_3-.LJTI54_0
	.long	.LBB54_11-.LJTI54_0
	.long	.LBB54_12-.LJTI54_0
	.long	.LBB54_18-.LJTI54_0
	.long	.LBB54_19-.LJTI54_0
	.long	.LBB54_25-.LJTI54_0
	.section	".text.nm_steps::pass::making::opening_words","ax",@progbits
	.p2align	4
	.type	"nm_steps::pass::making::opening_words",@function
"nm_steps::pass::making::opening_words":
	.cfi_startproc
	pushq	%rbp
	.cfi_def_cfa_offset 16
	pushq	%r15
	.cfi_def_cfa_offset 24
	pushq	%r14
	.cfi_def_cfa_offset 32
	pushq	%r13
	.cfi_def_cfa_offset 40
	pushq	%r12
	.cfi_def_cfa_offset 48
	pushq	%rbx
	.cfi_def_cfa_offset 56
	subq	$24, %rsp
	.cfi_def_cfa_offset 80
	.cfi_offset %rbx, -56
	.cfi_offset %r12, -48
	.cfi_offset %r13, -40
	.cfi_offset %r14, -32
	.cfi_offset %r15, -24
	.cfi_offset %rbp, -16
	movq	%rdi, %rbx
	movl	(%rsi), %r12d
	movl	16(%rsi), %r13d
	movl	%r12d, %r15d
	shrl	$6, %r15d
	movl	%r12d, %eax
	andl	$63, %eax
	leal	(%r13,%r12,4), %ebp
	addl	%ebp, %r15d
	cmpl	$1, %eax
	sbbl	$-1, %r15d
	je	.LBB55_1
	leaq	(,%r15,8), %r14
	movl	$8, %esi
	movq	%r14, %rdi
	callq	nm_host_alloc@PLT
	testb	$1, %al
	je	.LBB55_16
	cmpl	$1, %r15d
	jne	.LBB55_5
	xorl	%edi, %edi
	jmp	.LBB55_6
.LBB55_1:
	leaq	8(%rsp), %rdx
	xorl	%edi, %edi
	jmp	.LBB55_7
.LBB55_16:
	movb	$1, (%rbx)
	xorps	%xmm0, %xmm0
	movups	%xmm0, 8(%rbx)
	movq	$0, 24(%rbx)
	jmp	.LBB55_17
.LBB55_5:
	addq	$-8, %r14
	movq	%rdx, %rdi
	xorl	%esi, %esi
	movq	%rdx, 16(%rsp)
	movq	%r14, %rdx
	callq	memset@PLT
	movq	16(%rsp), %rdx
	leaq	-1(%r15), %rdi
.LBB55_6:
	movq	$0, (%rdx,%rdi,8)
	incq	%rdi
.LBB55_7:
	movq	$-1, (%rdx,%r13,8)
	leal	1(%r13), %eax
	movq	$8, (%rdx,%rax,8)
	leal	2(%r13), %eax
	movq	$20, (%rdx,%rax,8)
	leal	4(%r13), %eax
	movq	$-2, (%rdx,%rax,8)
	leal	5(%r13), %eax
	movq	$12, (%rdx,%rax,8)
	leal	6(%r13), %eax
	movq	$16, (%rdx,%rax,8)
	leal	8(%r13), %eax
	movq	$-3, (%rdx,%rax,8)
	leal	9(%r13), %eax
	movq	$0, (%rdx,%rax,8)
	leal	10(%r13), %eax
	movq	$0, (%rdx,%rax,8)
	leal	12(%r13), %eax
	movq	$-2, (%rdx,%rax,8)
	leal	13(%r13), %eax
	movq	$0, (%rdx,%rax,8)
	leal	14(%r13), %eax
	movq	$0, (%rdx,%rax,8)
	leal	16(%r13), %eax
	movq	$-1, (%rdx,%rax,8)
	leal	17(%r13), %eax
	movq	$0, (%rdx,%rax,8)
	leal	18(%r13), %eax
	movq	$0, (%rdx,%rax,8)
	leal	-6(%r12), %eax
	cmpl	$-8, %eax
	ja	.LBB55_15
	testl	%eax, %eax
	je	.LBB55_9
	addl	$-5, %r12d
	movl	%r12d, %r8d
	andl	$-2, %r8d
	negl	%r8d
	movl	$69, %eax
	.p2align	4
.LBB55_11:
	leal	-63(%rax), %esi
	leal	-64(%rax), %r9d
	shrl	$6, %r9d
	movl	$1, %r10d
	movl	%eax, %ecx
	shlq	%cl, %r10
	addl	%ebp, %r9d
	orq	%r10, (%rdx,%r9,8)
	movl	$1, %r9d
	movl	%esi, %r10d
	shrl	$6, %r10d
	andb	$62, %sil
	movl	%esi, %ecx
	shlq	%cl, %r9
	addl	%ebp, %r10d
	orq	%r9, (%rdx,%r10,8)
	movl	%eax, %ecx
	addl	$2, %eax
	addl	%r8d, %ecx
	addl	$2, %ecx
	cmpl	$69, %ecx
	jne	.LBB55_11
	testb	$1, %r12b
	je	.LBB55_15
	addl	$-63, %eax
	jmp	.LBB55_14
.LBB55_9:
	movl	$6, %eax
.LBB55_14:
	decl	%eax
	movl	%eax, %esi
	shrl	$6, %esi
	movl	$1, %r8d
	movl	%eax, %ecx
	shlq	%cl, %r8
	addl	%ebp, %esi
	orq	%r8, (%rdx,%rsi,8)
.LBB55_15:
	movb	$0, (%rbx)
	movq	%rdx, 8(%rbx)
	movq	%rdi, 16(%rbx)
	movq	%r15, 24(%rbx)
.LBB55_17:
	addq	$24, %rsp
	.cfi_def_cfa_offset 56
	popq	%rbx
	.cfi_def_cfa_offset 48
	popq	%r12
	.cfi_def_cfa_offset 40
	popq	%r13
	.cfi_def_cfa_offset 32
	popq	%r14
	.cfi_def_cfa_offset 24
	popq	%r15
	.cfi_def_cfa_offset 16
	popq	%rbp
	.cfi_def_cfa_offset 8
	retq
.Lfunc_end55:
	.size	"nm_steps::pass::making::opening_words", .Lfunc_end55-"nm_steps::pass::making::opening_words"
	.cfi_endproc
	.section	".text.unlikely.std_alloc::vec::Vec::grow_amortized::<#228f364035548015>","ax",@progbits
	.p2align	4
	.type	"std_alloc::vec::Vec::grow_amortized::<#228f364035548015>",@function
"std_alloc::vec::Vec::grow_amortized::<#228f364035548015>":
	.cfi_startproc
	movq	%rsi, %rax
	movq	8(%rdi), %rsi
	addq	%rsi, %rax
	jae	.LBB56_2
	xorl	%eax, %eax
	retq
.LBB56_2:
	pushq	%r14
	.cfi_def_cfa_offset 16
	pushq	%rbx
	.cfi_def_cfa_offset 24
	pushq	%rax
	.cfi_def_cfa_offset 32
	.cfi_offset %rbx, -24
	.cfi_offset %r14, -16
	movq	16(%rdi), %rcx
	cmpq	$5, %rax
	movl	$4, %ebx
	cmovaeq	%rax, %rbx
	movq	%rcx, %rdx
	shrq	$62, %rdx
	leaq	(%rcx,%rcx), %rax
	cmpq	%rax, %rbx
	cmovaq	%rbx, %rax
	testq	%rdx, %rdx
	cmoveq	%rax, %rbx
	movq	%rbx, %rdx
	shrq	$60, %rdx
	jne	.LBB56_6
	testq	%rcx, %rcx
	je	.LBB56_8
	movq	%rdi, %r14
	movq	(%rdi), %rdi
	shlq	$3, %rsi
	leaq	(,%rbx,8), %rdx
	movl	$8, %ecx
	callq	nm_host_realloc@PLT
	testb	$1, %al
	je	.LBB56_6
.LBB56_9:
	movq	%rdx, (%r14)
	movq	%rbx, 16(%r14)
	movb	$1, %al
	addq	$8, %rsp
	.cfi_def_cfa_offset 24
	popq	%rbx
	.cfi_def_cfa_offset 16
	popq	%r14
	.cfi_def_cfa_offset 8
	.cfi_restore %rbx
	.cfi_restore %r14
	retq
.LBB56_8:
	.cfi_def_cfa_offset 32
	.cfi_offset %rbx, -24
	.cfi_offset %r14, -16
	movq	%rdi, %r14
	shlq	$3, %rax
	movl	$8, %esi
	movq	%rax, %rdi
	callq	nm_host_alloc@PLT
	testb	$1, %al
	jne	.LBB56_9
.LBB56_6:
	xorl	%eax, %eax
	addq	$8, %rsp
	.cfi_def_cfa_offset 24
	popq	%rbx
	.cfi_def_cfa_offset 16
	popq	%r14
	.cfi_def_cfa_offset 8
	.cfi_restore %rbx
	.cfi_restore %r14
	retq
.Lfunc_end56:
	.size	"std_alloc::vec::Vec::grow_amortized::<#228f364035548015>", .Lfunc_end56-"std_alloc::vec::Vec::grow_amortized::<#228f364035548015>"
	.cfi_endproc
	.section	".text.nm_steps::pass::making::dealt","ax",@progbits
	.p2align	4
	.type	"nm_steps::pass::making::dealt",@function
"nm_steps::pass::making::dealt":
	.cfi_startproc
	pushq	%rbp
	.cfi_def_cfa_offset 16
	pushq	%r15
	.cfi_def_cfa_offset 24
	pushq	%r14
	.cfi_def_cfa_offset 32
	pushq	%r13
	.cfi_def_cfa_offset 40
	pushq	%r12
	.cfi_def_cfa_offset 48
	pushq	%rbx
	.cfi_def_cfa_offset 56
	subq	$168, %rsp
	.cfi_def_cfa_offset 224
	.cfi_offset %rbx, -56
	.cfi_offset %r12, -48
	.cfi_offset %r13, -40
	.cfi_offset %r14, -32
	.cfi_offset %r15, -24
	.cfi_offset %rbp, -16
	movl	%ecx, 60(%rsp)
	movq	%rdi, 64(%rsp)
	movl	4(%rsi), %r15d
	movl	8(%rsi), %ebx
	movsd	(%rsi), %xmm0
	movaps	%xmm0, 144(%rsp)
	movq	12(%rsi), %rax
	movq	%rax, 104(%rsp)
	movq	(%rdx), %r13
	movq	32(%rdx), %rax
	movq	%rax, 72(%rsp)
	movq	40(%rdx), %rax
	movq	%rax, 96(%rsp)
	movq	48(%rdx), %rax
	movq	%rax, 80(%rsp)
	movq	56(%rdx), %rax
	movq	%rax, 88(%rsp)
	movb	$0, 14(%rsp)
	movw	$0, 12(%rsp)
	movl	$0, 24(%rsp)
	movl	$0, 27(%rsp)
	movups	8(%rdx), %xmm0
	movaps	%xmm0, 112(%rsp)
	movq	24(%rdx), %rax
	movq	%rax, 128(%rsp)
	leaq	16(%rsp), %rax
	movq	%rax, 32(%rsp)
	xorps	%xmm0, %xmm0
	movups	%xmm0, 40(%rsp)
	testl	%r15d, %r15d
	je	.LBB57_6
	cmpl	$2, %ebx
	movl	$2, %eax
	cmovbl	%ebx, %eax
	leal	1(%rbx), %ebp
	negl	%eax
	leal	(%rbx,%rax), %r14d
	incl	%r14d
	xorl	%r12d, %r12d
	jmp	.LBB57_2
	.p2align	4
.LBB57_5:
	movq	32(%rsp), %rcx
	movq	%rax, %rdx
	shlq	$6, %rdx
	movl	%r12d, (%rcx,%rdx)
	movl	%r14d, 4(%rcx,%rdx)
	xorps	%xmm0, %xmm0
	movups	%xmm0, 40(%rcx,%rdx)
	movups	%xmm0, 24(%rcx,%rdx)
	movups	%xmm0, 8(%rcx,%rdx)
	movb	$0, 56(%rcx,%rdx)
	movl	24(%rsp), %esi
	movl	27(%rsp), %edi
	movl	%esi, 57(%rcx,%rdx)
	movl	%edi, 60(%rcx,%rdx)
	incq	%rax
	movq	%rax, 40(%rsp)
	incl	%r12d
	addl	%ebp, %r14d
	cmpl	%r12d, %r15d
	je	.LBB57_6
.LBB57_2:
	movq	(%r13), %rax
	movq	40(%rsp), %rax
	cmpq	%rax, 48(%rsp)
	jne	.LBB57_5
	leaq	32(%rsp), %rdi
	callq	"std_alloc::vec::Vec::grow_amortized::<#f3a3b8203449a558>"
	testb	%al, %al
	je	.LBB57_7
	movq	40(%rsp), %rax
	jmp	.LBB57_5
.LBB57_6:
	movq	64(%rsp), %rcx
	movb	$0, (%rcx)
	movq	%r13, 8(%rcx)
	movaps	112(%rsp), %xmm0
	movups	%xmm0, 16(%rcx)
	movq	128(%rsp), %rax
	movq	%rax, 32(%rcx)
	movq	72(%rsp), %rax
	movq	%rax, 40(%rcx)
	movq	96(%rsp), %rax
	movq	%rax, 48(%rcx)
	movq	80(%rsp), %rax
	movq	%rax, 56(%rcx)
	movq	88(%rsp), %rax
	movq	%rax, 64(%rcx)
	movaps	144(%rsp), %xmm0
	movlps	%xmm0, 72(%rcx)
	movl	%ebx, 80(%rcx)
	movq	104(%rsp), %rax
	movq	%rax, 84(%rcx)
	movl	60(%rsp), %eax
	movb	%al, 92(%rcx)
	movzwl	12(%rsp), %eax
	movw	%ax, 93(%rcx)
	movzbl	14(%rsp), %eax
	movb	%al, 95(%rcx)
	movups	32(%rsp), %xmm0
	movups	%xmm0, 96(%rcx)
	movq	48(%rsp), %rax
	movq	%rax, 112(%rcx)
.LBB57_10:
	addq	$168, %rsp
	.cfi_def_cfa_offset 56
	popq	%rbx
	.cfi_def_cfa_offset 48
	popq	%r12
	.cfi_def_cfa_offset 40
	popq	%r13
	.cfi_def_cfa_offset 32
	popq	%r14
	.cfi_def_cfa_offset 24
	popq	%r15
	.cfi_def_cfa_offset 16
	popq	%rbp
	.cfi_def_cfa_offset 8
	retq
.LBB57_7:
	.cfi_def_cfa_offset 224
	cmpq	$0, 48(%rsp)
	je	.LBB57_9
	movq	32(%rsp), %rdi
	callq	nm_host_dealloc@PLT
.LBB57_9:
	movq	72(%rsp), %rdi
	callq	nm_host_dealloc@PLT
	movq	80(%rsp), %rdi
	callq	nm_host_dealloc@PLT
	movq	64(%rsp), %rax
	movb	$1, (%rax)
	xorps	%xmm0, %xmm0
	movups	%xmm0, 8(%rax)
	movups	%xmm0, 24(%rax)
	movups	%xmm0, 40(%rax)
	movups	%xmm0, 56(%rax)
	movups	%xmm0, 72(%rax)
	movups	%xmm0, 88(%rax)
	movups	%xmm0, 104(%rax)
	jmp	.LBB57_10
.Lfunc_end57:
	.size	"nm_steps::pass::making::dealt", .Lfunc_end57-"nm_steps::pass::making::dealt"
	.cfi_endproc
	.section	".text.unlikely.std_alloc::vec::Vec::grow_amortized::<#f3a3b8203449a558>","ax",@progbits
	.p2align	4
	.type	"std_alloc::vec::Vec::grow_amortized::<#f3a3b8203449a558>",@function
"std_alloc::vec::Vec::grow_amortized::<#f3a3b8203449a558>":
	.cfi_startproc
	movq	8(%rdi), %rsi
	cmpq	$-1, %rsi
	je	.LBB58_5
	pushq	%r14
	.cfi_def_cfa_offset 16
	pushq	%rbx
	.cfi_def_cfa_offset 24
	pushq	%rax
	.cfi_def_cfa_offset 32
	.cfi_offset %rbx, -24
	.cfi_offset %r14, -16
	movq	16(%rdi), %rcx
	cmpq	$4, %rsi
	movl	$3, %ebx
	cmovaeq	%rsi, %rbx
	incq	%rbx
	movq	%rcx, %rdx
	shrq	$62, %rdx
	leaq	(%rcx,%rcx), %rax
	cmpq	%rax, %rbx
	cmovaq	%rbx, %rax
	testq	%rdx, %rdx
	cmoveq	%rax, %rbx
	movq	%rbx, %rdx
	shrq	$57, %rdx
	jne	.LBB58_6
	testq	%rcx, %rcx
	je	.LBB58_8
	movq	%rdi, %r14
	movq	(%rdi), %rdi
	shlq	$6, %rsi
	movq	%rbx, %rdx
	shlq	$6, %rdx
	movl	$8, %ecx
	callq	nm_host_realloc@PLT
	testb	$1, %al
	je	.LBB58_6
.LBB58_9:
	movq	%rdx, (%r14)
	movq	%rbx, 16(%r14)
	movb	$1, %al
	addq	$8, %rsp
	.cfi_def_cfa_offset 24
	popq	%rbx
	.cfi_def_cfa_offset 16
	popq	%r14
	.cfi_def_cfa_offset 8
	.cfi_restore %rbx
	.cfi_restore %r14
	retq
.LBB58_5:
	xorl	%eax, %eax
	retq
.LBB58_8:
	.cfi_def_cfa_offset 32
	.cfi_offset %rbx, -24
	.cfi_offset %r14, -16
	movq	%rdi, %r14
	shlq	$6, %rax
	movl	$8, %esi
	movq	%rax, %rdi
	callq	nm_host_alloc@PLT
	testb	$1, %al
	jne	.LBB58_9
.LBB58_6:
	xorl	%eax, %eax
	addq	$8, %rsp
	.cfi_def_cfa_offset 24
	popq	%rbx
	.cfi_def_cfa_offset 16
	popq	%r14
	.cfi_def_cfa_offset 8
	.cfi_restore %rbx
	.cfi_restore %r14
	retq
.Lfunc_end58:
	.size	"std_alloc::vec::Vec::grow_amortized::<#f3a3b8203449a558>", .Lfunc_end58-"std_alloc::vec::Vec::grow_amortized::<#f3a3b8203449a558>"
	.cfi_endproc
	.section	".text.nm_tree::tree::with_workers","ax",@progbits
	.p2align	4
	.type	"nm_tree::tree::with_workers",@function
"nm_tree::tree::with_workers":
	.cfi_startproc
	pushq	%rbp
	.cfi_def_cfa_offset 16
	pushq	%r15
	.cfi_def_cfa_offset 24
	pushq	%r14
	.cfi_def_cfa_offset 32
	pushq	%r13
	.cfi_def_cfa_offset 40
	pushq	%r12
	.cfi_def_cfa_offset 48
	pushq	%rbx
	.cfi_def_cfa_offset 56
	subq	$472, %rsp
	.cfi_def_cfa_offset 528
	.cfi_offset %rbx, -56
	.cfi_offset %r12, -48
	.cfi_offset %r13, -40
	.cfi_offset %r14, -32
	.cfi_offset %r15, -24
	.cfi_offset %rbp, -16
	movq	%rdi, %rbp
	movq	32(%rsi), %r14
	movq	40(%rsi), %rax
	movq	%rax, 176(%rsp)
	movq	48(%rsi), %r12
	movq	56(%rsi), %rax
	movq	%rax, 168(%rsp)
	movl	64(%rsi), %r8d
	movl	68(%rsi), %r9d
	movl	84(%rsi), %eax
	movl	%eax, 104(%rsp)
	movq	(%rdx), %r15
	movq	8(%rdx), %r10
	movq	16(%rdx), %rdi
	xorps	%xmm0, %xmm0
	movups	%xmm0, 415(%rsp)
	movaps	%xmm0, 400(%rsp)
	movups	(%rsi), %xmm1
	movups	16(%rsi), %xmm2
	movaps	%xmm1, 432(%rsp)
	movaps	%xmm2, 448(%rsp)
	movq	72(%rsi), %rax
	movq	%rax, 112(%rsp)
	movl	80(%rsi), %eax
	cmpl	$1, %r9d
	movl	%r9d, 96(%rsp)
	movl	%r9d, %esi
	adcl	$0, %esi
	movl	%eax, 120(%rsp)
	movl	%r8d, 100(%rsp)
	movl	%r8d, %eax
	xorl	%edx, %edx
	divl	%esi
	movl	%eax, 108(%rsp)
	movaps	%xmm0, 32(%rsp)
	movq	$0, 48(%rsp)
	testq	%r10, %r10
	je	.LBB59_1
	movabsq	$67818912035696880, %rax
	cmpq	%rax, %r10
	ja	.LBB59_13
	movq	%r10, %rax
	shlq	$7, %rax
	movq	%rdi, 8(%rsp)
	leaq	(%rax,%r10,8), %rdi
	movl	$8, %esi
	movl	%ecx, %ebx
	movq	%r10, %r13
	callq	nm_host_alloc@PLT
	movq	8(%rsp), %rdi
	testb	$1, %al
	je	.LBB59_13
	movq	%r13, %rsi
	movl	%ebx, %ecx
	movq	%rdx, %r13
	movq	%r14, 80(%rsp)
	movq	%r12, 24(%rsp)
	movq	%rbp, 64(%rsp)
	movq	%rdx, 32(%rsp)
	movq	$0, 40(%rsp)
	movq	%rsi, 48(%rsp)
	movzbl	%cl, %eax
	movq	%rax, 184(%rsp)
	movq	%rsi, %rax
	shlq	$6, %rax
	movq	%r15, 72(%rsp)
	leaq	(%rax,%r15), %r12
	addq	$-60, %r12
	xorl	%ebx, %ebx
	.p2align	4
.LBB59_5:
	movq	%rsi, 88(%rsp)
	movl	-4(%r12), %r15d
	movups	(%r12), %xmm0
	movups	16(%r12), %xmm1
	movups	32(%r12), %xmm2
	movups	44(%r12), %xmm3
	movaps	%xmm0, 256(%rsp)
	movaps	%xmm1, 272(%rsp)
	movaps	%xmm2, 288(%rsp)
	movups	%xmm3, 300(%rsp)
	movl	$96, %edi
	movl	$8, %esi
	callq	nm_host_alloc@PLT
	testb	$1, %al
	je	.LBB59_6
	movq	%rdx, %rbp
	movl	%r15d, (%rdx)
	xorps	%xmm0, %xmm0
	movups	%xmm0, 4(%rdx)
	movups	%xmm0, 20(%rdx)
	movups	%xmm0, 36(%rdx)
	movups	%xmm0, 52(%rdx)
	movups	%xmm0, 68(%rdx)
	movups	%xmm0, 80(%rdx)
	movl	$3112, %edi
	movl	$8, %esi
	callq	nm_host_alloc@PLT
	testb	$1, %al
	je	.LBB59_41
	movq	%rdx, %r14
	movl	%r15d, %ecx
	movl	108(%rsp), %edx
	imull	%edx, %ecx
	addl	$6, %ecx
	movl	$-1, %esi
	cmovbl	%esi, %ecx
	movl	%r15d, %eax
	mull	%edx
	cmovol	%esi, %ecx
	testl	%r15d, %r15d
	movl	$6, %eax
	cmovnel	%ecx, %eax
	shlq	$32, %rax
	addq	184(%rsp), %rax
	movq	%rax, (%r14)
	movq	%r14, %rdi
	addq	$8, %rdi
	movl	$3104, %edx
	xorl	%esi, %esi
	callq	memset@PLT
	movq	%r14, %rdx
	movups	300(%rsp), %xmm0
	movups	%xmm0, 236(%rsp)
	movaps	256(%rsp), %xmm0
	movaps	272(%rsp), %xmm1
	movaps	288(%rsp), %xmm2
	movaps	%xmm2, 224(%rsp)
	movaps	%xmm1, 208(%rsp)
	movaps	%xmm0, 192(%rsp)
	movaps	%xmm0, 256(%rsp)
	movaps	%xmm1, 272(%rsp)
	movaps	224(%rsp), %xmm0
	movaps	%xmm0, 288(%rsp)
	movups	236(%rsp), %xmm0
	movups	%xmm0, 300(%rsp)
	xorps	%xmm0, %xmm0
	movaps	%xmm0, 128(%rsp)
	movaps	%xmm0, 144(%rsp)
	movq	$0, 160(%rsp)
	movq	%rbx, %rcx
	cmpq	%rbx, 48(%rsp)
	je	.LBB59_19
.LBB59_21:
	movq	88(%rsp), %rsi
	decq	%rsi
	movq	%rcx, %rax
	shlq	$7, %rax
	leaq	(%rax,%rcx,8), %r14
	movl	%r15d, (%r13,%r14)
	movaps	256(%rsp), %xmm0
	movaps	272(%rsp), %xmm1
	movaps	288(%rsp), %xmm2
	movups	%xmm0, 4(%r13,%r14)
	movups	%xmm1, 20(%r13,%r14)
	movups	%xmm2, 36(%r13,%r14)
	movups	300(%rsp), %xmm0
	movups	%xmm0, 48(%r13,%r14)
	movq	%rbp, 64(%r13,%r14)
	movq	$1, 72(%r13,%r14)
	movq	$1, 80(%r13,%r14)
	movaps	128(%rsp), %xmm0
	movaps	144(%rsp), %xmm1
	movups	%xmm0, 88(%r13,%r14)
	movups	%xmm1, 104(%r13,%r14)
	movq	160(%rsp), %rax
	movq	%rax, 120(%r13,%r14)
	movq	%rdx, 128(%r13,%r14)
	leaq	1(%rcx), %rbx
	movq	%rbx, 40(%rsp)
	addq	$-64, %r12
	testq	%rsi, %rsi
	jne	.LBB59_5
	jmp	.LBB59_22
.LBB59_19:
	movq	%rdx, %rbx
	leaq	32(%rsp), %rdi
	callq	"std_alloc::vec::Vec::grow_amortized::<#418a4f0393c6c552>"
	testb	%al, %al
	je	.LBB59_27
	movq	32(%rsp), %r13
	movq	40(%rsp), %rcx
	movq	%rbx, %rdx
	jmp	.LBB59_21
.LBB59_13:
	testq	%rdi, %rdi
	je	.LBB59_16
	movq	%r15, %rdi
.LBB59_15:
	callq	nm_host_dealloc@PLT
.LBB59_16:
	movq	%r14, %rdi
	callq	nm_host_dealloc@PLT
	movq	%r12, %rdi
	callq	nm_host_dealloc@PLT
	movb	$1, (%rbp)
	xorps	%xmm0, %xmm0
	movups	%xmm0, 8(%rbp)
	movups	%xmm0, 24(%rbp)
	movups	%xmm0, 40(%rbp)
	movups	%xmm0, 56(%rbp)
	movups	%xmm0, 72(%rbp)
	movups	%xmm0, 88(%rbp)
	movups	%xmm0, 104(%rbp)
	jmp	.LBB59_40
.LBB59_1:
	movq	%r15, 72(%rsp)
	movq	%r14, 80(%rsp)
	leaq	16(%rsp), %rax
	movq	%rax, 32(%rsp)
.LBB59_37:
	testq	%rdi, %rdi
	je	.LBB59_39
	movq	72(%rsp), %rdi
	callq	nm_host_dealloc@PLT
.LBB59_39:
	movq	48(%rsp), %rax
	movq	%rax, 423(%rsp)
	movaps	32(%rsp), %xmm0
	movups	%xmm0, 407(%rsp)
	movb	$0, (%rbp)
	movaps	432(%rsp), %xmm0
	movaps	448(%rsp), %xmm1
	movups	%xmm0, 8(%rbp)
	movups	%xmm1, 24(%rbp)
	movq	80(%rsp), %rax
	movq	%rax, 40(%rbp)
	movq	176(%rsp), %rax
	movq	%rax, 48(%rbp)
	movq	%r12, 56(%rbp)
	movq	168(%rsp), %rax
	movq	%rax, 64(%rbp)
	movl	100(%rsp), %eax
	movl	%eax, 72(%rbp)
	movl	96(%rsp), %eax
	movl	%eax, 76(%rbp)
	movq	112(%rsp), %rax
	movq	%rax, 80(%rbp)
	movl	120(%rsp), %eax
	movl	%eax, 88(%rbp)
	movl	104(%rsp), %eax
	movl	%eax, 92(%rbp)
	movups	407(%rsp), %xmm0
	movups	%xmm0, 96(%rbp)
	movq	423(%rsp), %rax
	movq	%rax, 112(%rbp)
.LBB59_40:
	addq	$472, %rsp
	.cfi_def_cfa_offset 56
	popq	%rbx
	.cfi_def_cfa_offset 48
	popq	%r12
	.cfi_def_cfa_offset 40
	popq	%r13
	.cfi_def_cfa_offset 32
	popq	%r14
	.cfi_def_cfa_offset 24
	popq	%r15
	.cfi_def_cfa_offset 16
	popq	%rbp
	.cfi_def_cfa_offset 8
	retq
.LBB59_41:
	.cfi_def_cfa_offset 528
	movq	%rbp, 128(%rsp)
	movq	$1, 136(%rsp)
	movq	$1, 144(%rsp)
	leaq	128(%rsp), %rdi
	callq	"std_alloc::vec::Vec::drop::<#0e12e637e6be23a4>"
.LBB59_6:
	xorps	%xmm0, %xmm0
	movups	%xmm0, 236(%rsp)
	movaps	%xmm0, 224(%rsp)
	movaps	%xmm0, 208(%rsp)
	movaps	%xmm0, 192(%rsp)
	movq	48(%rsp), %r15
	testq	%rbx, %rbx
	movq	64(%rsp), %rbp
	je	.LBB59_9
	leaq	128(%r13), %r12
	.p2align	4
.LBB59_8:
	movq	(%r12), %r14
	movq	-48(%r12), %rax
	movq	%rax, 272(%rsp)
	movups	-64(%r12), %xmm0
	movaps	%xmm0, 256(%rsp)
	leaq	256(%rsp), %rdi
	callq	"std_alloc::vec::Vec::drop::<#0e12e637e6be23a4>"
	movq	%r14, %rdi
	callq	nm_host_dealloc@PLT
	addq	$136, %r12
	decq	%rbx
	jne	.LBB59_8
.LBB59_9:
	testq	%r15, %r15
	je	.LBB59_12
	movq	%r13, %rdi
.LBB59_11:
	callq	nm_host_dealloc@PLT
.LBB59_12:
	cmpq	$0, 8(%rsp)
	movq	24(%rsp), %r12
	movq	80(%rsp), %r14
	movq	72(%rsp), %rdi
	jne	.LBB59_15
	jmp	.LBB59_16
.LBB59_22:
	movq	32(%rsp), %r15
	cmpq	$15, %rbx
	jbe	.LBB59_23
	movq	%rbx, %rdx
	shrq	%rdx
	subq	%rdx, %rbx
	movq	%rbx, %rax
	shlq	$7, %rax
	leaq	(%rax,%rbx,8), %rsi
	addq	%r15, %rsi
	movq	%r15, %rdi
	callq	"core::slice::edits::mirror::<23'nm_tree::worker::Worker>"
	movq	64(%rsp), %rbp
	movq	24(%rsp), %r12
	movq	8(%rsp), %rdi
	jmp	.LBB59_37
.LBB59_23:
	cmpq	$2, %rbx
	movq	64(%rsp), %rbp
	movq	24(%rsp), %r12
	movq	8(%rsp), %rdi
	jb	.LBB59_37
	leaq	-1(%rcx), %rax
	shrq	%rax
	incq	%rax
	movq	%rax, 88(%rsp)
	addq	%r15, %r14
	xorl	%r13d, %r13d
	jmp	.LBB59_25
.LBB59_26:
	leaq	256(%rsp), %r12
	movl	$136, %edx
	movq	%r12, %rdi
	movq	%r15, %rsi
	movq	%rcx, %rbx
	callq	memcpy@PLT
	movl	$136, %edx
	movq	%r15, %rdi
	movq	%r14, %rsi
	callq	memmove@PLT
	movl	$136, %edx
	movq	%r14, %rdi
.LBB59_35:
	movq	%r12, %rsi
	movq	24(%rsp), %r12
	callq	memcpy@PLT
	movq	%rbx, %rcx
	movq	8(%rsp), %rdi
.LBB59_36:
	incq	%r13
	addq	$136, %r15
	addq	$-136, %r14
	decq	%rcx
	cmpq	%r13, 88(%rsp)
	je	.LBB59_37
.LBB59_25:
	cmpq	%rcx, %r13
	jb	.LBB59_26
	jbe	.LBB59_36
	leaq	256(%rsp), %r12
	movl	$136, %edx
	movq	%r12, %rdi
	movq	%r14, %rsi
	movq	%rcx, %rbx
	callq	memcpy@PLT
	movl	$136, %edx
	movq	%r14, %rdi
	movq	%r15, %rsi
	callq	memmove@PLT
	movl	$136, %edx
	movq	%r15, %rdi
	jmp	.LBB59_35
.LBB59_27:
	movq	%rbp, 256(%rsp)
	movq	$1, 264(%rsp)
	movq	$1, 272(%rsp)
	leaq	256(%rsp), %rdi
	callq	"std_alloc::vec::Vec::drop::<#0e12e637e6be23a4>"
	movq	%rbx, %rdi
	callq	nm_host_dealloc@PLT
	movq	32(%rsp), %r14
	movq	40(%rsp), %r12
	movq	48(%rsp), %rbx
	testq	%r12, %r12
	je	.LBB59_30
	leaq	128(%r14), %r13
.LBB59_29:
	movq	(%r13), %r15
	movq	-48(%r13), %rax
	movq	%rax, 272(%rsp)
	movups	-64(%r13), %xmm0
	movaps	%xmm0, 256(%rsp)
	leaq	256(%rsp), %rdi
	callq	"std_alloc::vec::Vec::drop::<#0e12e637e6be23a4>"
	movq	%r15, %rdi
	callq	nm_host_dealloc@PLT
	addq	$136, %r13
	decq	%r12
	jne	.LBB59_29
.LBB59_30:
	testq	%rbx, %rbx
	movq	64(%rsp), %rbp
	je	.LBB59_12
	movq	%r14, %rdi
	jmp	.LBB59_11
.Lfunc_end59:
	.size	"nm_tree::tree::with_workers", .Lfunc_end59-"nm_tree::tree::with_workers"
	.cfi_endproc
	.section	".text.unlikely.std_alloc::vec::Vec::grow_amortized::<#418a4f0393c6c552>","ax",@progbits
	.p2align	4
	.type	"std_alloc::vec::Vec::grow_amortized::<#418a4f0393c6c552>",@function
"std_alloc::vec::Vec::grow_amortized::<#418a4f0393c6c552>":
	.cfi_startproc
	movq	8(%rdi), %rax
	cmpq	$-1, %rax
	je	.LBB60_5
	pushq	%r14
	.cfi_def_cfa_offset 16
	pushq	%rbx
	.cfi_def_cfa_offset 24
	pushq	%rax
	.cfi_def_cfa_offset 32
	.cfi_offset %rbx, -24
	.cfi_offset %r14, -16
	movq	16(%rdi), %rcx
	cmpq	$4, %rax
	movl	$3, %ebx
	cmovaeq	%rax, %rbx
	incq	%rbx
	movq	%rcx, %rsi
	shrq	$62, %rsi
	leaq	(%rcx,%rcx), %rdx
	cmpq	%rdx, %rbx
	cmovaq	%rbx, %rdx
	testq	%rsi, %rsi
	cmoveq	%rdx, %rbx
	movabsq	$67818912035696880, %rsi
	cmpq	%rsi, %rbx
	ja	.LBB60_6
	testq	%rcx, %rcx
	je	.LBB60_8
	movq	%rdi, %r14
	movq	(%rdi), %rdi
	movq	%rax, %rcx
	shlq	$7, %rcx
	leaq	(%rcx,%rax,8), %rsi
	movq	%rbx, %rax
	shlq	$7, %rax
	leaq	(%rax,%rbx,8), %rdx
	movl	$8, %ecx
	callq	nm_host_realloc@PLT
	testb	$1, %al
	je	.LBB60_6
.LBB60_9:
	movq	%rdx, (%r14)
	movq	%rbx, 16(%r14)
	movb	$1, %al
	addq	$8, %rsp
	.cfi_def_cfa_offset 24
	popq	%rbx
	.cfi_def_cfa_offset 16
	popq	%r14
	.cfi_def_cfa_offset 8
	.cfi_restore %rbx
	.cfi_restore %r14
	retq
.LBB60_5:
	xorl	%eax, %eax
	retq
.LBB60_8:
	.cfi_def_cfa_offset 32
	.cfi_offset %rbx, -24
	.cfi_offset %r14, -16
	movq	%rdi, %r14
	movq	%rdx, %rax
	shlq	$7, %rax
	leaq	(%rax,%rdx,8), %rdi
	movl	$8, %esi
	callq	nm_host_alloc@PLT
	testb	$1, %al
	jne	.LBB60_9
.LBB60_6:
	xorl	%eax, %eax
	addq	$8, %rsp
	.cfi_def_cfa_offset 24
	popq	%rbx
	.cfi_def_cfa_offset 16
	popq	%r14
	.cfi_def_cfa_offset 8
	.cfi_restore %rbx
	.cfi_restore %r14
	retq
.Lfunc_end60:
	.size	"std_alloc::vec::Vec::grow_amortized::<#418a4f0393c6c552>", .Lfunc_end60-"std_alloc::vec::Vec::grow_amortized::<#418a4f0393c6c552>"
	.cfi_endproc
	.section	".text.core::slice::edits::mirror::<23'nm_tree::worker::Worker>","ax",@progbits
	.p2align	4
	.type	"core::slice::edits::mirror::<23'nm_tree::worker::Worker>",@function
"core::slice::edits::mirror::<23'nm_tree::worker::Worker>":
	.cfi_startproc
	pushq	%r15
	.cfi_def_cfa_offset 16
	pushq	%r14
	.cfi_def_cfa_offset 24
	pushq	%r12
	.cfi_def_cfa_offset 32
	pushq	%rbx
	.cfi_def_cfa_offset 40
	subq	$136, %rsp
	.cfi_def_cfa_offset 176
	.cfi_offset %rbx, -40
	.cfi_offset %r12, -32
	.cfi_offset %r14, -24
	.cfi_offset %r15, -16
	movq	%rdx, %rbx
	movq	%rdi, %r14
	movq	%rdx, %rax
	shlq	$7, %rax
	leaq	(%rax,%rdx,8), %rax
	leaq	(%rsi,%rax), %r15
	addq	$-136, %r15
	.p2align	4
.LBB61_1:
	movq	%rsp, %r12
	movl	$136, %edx
	movq	%r12, %rdi
	movq	%r14, %rsi
	callq	memcpy@PLT
	movl	$136, %edx
	movq	%r14, %rdi
	movq	%r15, %rsi
	callq	memmove@PLT
	movl	$136, %edx
	movq	%r15, %rdi
	movq	%r12, %rsi
	callq	memcpy@PLT
	addq	$136, %r14
	addq	$-136, %r15
	decq	%rbx
	jne	.LBB61_1
	addq	$136, %rsp
	.cfi_def_cfa_offset 40
	popq	%rbx
	.cfi_def_cfa_offset 32
	popq	%r12
	.cfi_def_cfa_offset 24
	popq	%r14
	.cfi_def_cfa_offset 16
	popq	%r15
	.cfi_def_cfa_offset 8
	retq
.Lfunc_end61:
	.size	"core::slice::edits::mirror::<23'nm_tree::worker::Worker>", .Lfunc_end61-"core::slice::edits::mirror::<23'nm_tree::worker::Worker>"
	.cfi_endproc
	.section	.rodata.cst16,"aM",@progbits,16
	.p2align	4, 0x0
.LCPI62_0:
	.quad	1
	.quad	1
	.section	".text.nm_set::home::Home::of","ax",@progbits
	.p2align	4
	.type	"nm_set::home::Home::of",@function
"nm_set::home::Home::of":
	.cfi_startproc
	pushq	%rbp
	.cfi_def_cfa_offset 16
	pushq	%r15
	.cfi_def_cfa_offset 24
	pushq	%r14
	.cfi_def_cfa_offset 32
	pushq	%r13
	.cfi_def_cfa_offset 40
	pushq	%r12
	.cfi_def_cfa_offset 48
	pushq	%rbx
	.cfi_def_cfa_offset 56
	subq	$520, %rsp
	.cfi_def_cfa_offset 576
	.cfi_offset %rbx, -56
	.cfi_offset %r12, -48
	.cfi_offset %r13, -40
	.cfi_offset %r14, -32
	.cfi_offset %r15, -24
	.cfi_offset %rbp, -16
	movq	%rdi, %rbp
	movq	32(%rsi), %rax
	movq	%rax, 32(%rsp)
	movq	40(%rsi), %r12
	movq	48(%rsi), %r13
	movq	56(%rsi), %rax
	movq	%rax, 264(%rsp)
	movq	88(%rsi), %rax
	movq	%rax, 272(%rsp)
	movq	(%rdx), %r14
	movq	8(%rdx), %rbx
	movq	16(%rdx), %rax
	movq	%rax, 16(%rsp)
	xorps	%xmm0, %xmm0
	movaps	%xmm0, 336(%rsp)
	movaps	%xmm0, 320(%rsp)
	movq	$0, 351(%rsp)
	movaps	%xmm0, 144(%rsp)
	movq	$0, 160(%rsp)
	movaps	%xmm0, 112(%rsp)
	movq	$0, 128(%rsp)
	movups	(%rsi), %xmm0
	movups	16(%rsi), %xmm1
	movaps	%xmm0, 288(%rsp)
	movaps	%xmm1, 304(%rsp)
	movups	64(%rsi), %xmm0
	movaps	%xmm0, 176(%rsp)
	movq	80(%rsi), %rax
	movq	%rax, 192(%rsp)
	movl	%ecx, 100(%rsp)
	movl	%ecx, %ecx
	leaq	1(%rcx), %r15
	movq	%r15, %rax
	shlq	$7, %rax
	movq	%rcx, 280(%rsp)
	leaq	(%rax,%rcx,8), %rdi
	addq	$8, %rdi
	movl	$8, %esi
	callq	nm_host_alloc@PLT
	xorl	%ecx, %ecx
	testb	$1, %al
	movl	$0, %eax
	cmovneq	%rdx, %rax
	cmoveq	%rcx, %r15
	movq	%r15, 256(%rsp)
	je	.LBB62_17
	movq	%rax, 88(%rsp)
	testq	%rbx, %rbx
	je	.LBB62_2
	movq	%rdx, %r15
	movabsq	$64051194700380388, %rax
	cmpq	%rax, %rbx
	movq	%r13, 72(%rsp)
	jae	.LBB62_5
	movq	%rbx, %rax
	shlq	$4, %rax
	leaq	(%rax,%rax,8), %rdi
	movl	$8, %esi
	callq	nm_host_alloc@PLT
	testb	$1, %al
	je	.LBB62_5
	movq	%r12, 64(%rsp)
	movq	%rbp, 80(%rsp)
	movq	%rdx, 24(%rsp)
	leaq	8(%rdx), %r15
	movq	%r14, %r12
	movq	%rbx, %rbp
	.p2align	4
.LBB62_11:
	leaq	384(%rsp), %r13
	movl	$136, %edx
	movq	%r13, %rdi
	movq	%r12, %rsi
	callq	memcpy@PLT
	movq	$1, -8(%r15)
	movl	$136, %edx
	movq	%r15, %rdi
	movq	%r13, %rsi
	callq	memcpy@PLT
	addq	$144, %r15
	addq	$136, %r12
	decq	%rbp
	jne	.LBB62_11
	movq	80(%rsp), %rbp
	movq	72(%rsp), %r13
	movq	64(%rsp), %r12
	cmpq	$0, 16(%rsp)
	jne	.LBB62_14
	jmp	.LBB62_15
.LBB62_17:
	testq	%rbx, %rbx
	je	.LBB62_20
	movq	%r14, %r15
	.p2align	4
.LBB62_19:
	leaq	384(%rsp), %r12
	movl	$136, %edx
	movq	%r12, %rdi
	movq	%r15, %rsi
	callq	memcpy@PLT
	movq	%r12, %rdi
	callq	"nm_set::nm_tree++worker++Worker+Destruct::drop"
	addq	$136, %r15
	decq	%rbx
	jne	.LBB62_19
.LBB62_20:
	cmpq	$0, 16(%rsp)
	je	.LBB62_23
	movq	%r14, %rdi
	jmp	.LBB62_22
.LBB62_5:
	movq	%r14, %r12
	.p2align	4
.LBB62_6:
	leaq	384(%rsp), %r13
	movl	$136, %edx
	movq	%r13, %rdi
	movq	%r12, %rsi
	callq	memcpy@PLT
	movq	%r13, %rdi
	callq	"nm_set::nm_tree++worker++Worker+Destruct::drop"
	addq	$136, %r12
	decq	%rbx
	jne	.LBB62_6
	cmpq	$0, 16(%rsp)
	je	.LBB62_9
	movq	%r14, %rdi
	callq	nm_host_dealloc@PLT
.LBB62_9:
	movq	%r15, %rdi
	callq	nm_host_dealloc@PLT
	movq	32(%rsp), %rdi
	callq	nm_host_dealloc@PLT
	movq	72(%rsp), %rdi
	jmp	.LBB62_24
.LBB62_2:
	leaq	8(%rsp), %rax
	movq	%rax, 24(%rsp)
	cmpq	$0, 16(%rsp)
	je	.LBB62_15
.LBB62_14:
	movq	%r14, %rdi
	callq	nm_host_dealloc@PLT
.LBB62_15:
	movq	%r12, 64(%rsp)
	testq	%rbx, %rbx
	je	.LBB62_16
	leaq	(,%rbx,8), %rdi
	movl	$8, %esi
	callq	nm_host_alloc@PLT
	testb	$1, %al
	je	.LBB62_26
	movq	%rdx, %r12
	cmpq	$1, %rbx
	jne	.LBB62_35
	xorl	%r14d, %r14d
	jmp	.LBB62_41
.LBB62_16:
	leaq	8(%rsp), %r12
	xorl	%edi, %edi
	xorl	%r14d, %r14d
	movl	$8, %esi
	callq	nm_host_alloc@PLT
	testb	$1, %al
	jne	.LBB62_43
.LBB62_70:
	testq	%rbx, %rbx
	jne	.LBB62_71
	jmp	.LBB62_32
.LBB62_26:
	movq	24(%rsp), %rax
	leaq	8(%rax), %r14
	jmp	.LBB62_27
	.p2align	4
.LBB62_29:
	addq	$144, %r14
	decq	%rbx
	je	.LBB62_30
.LBB62_27:
	cmpb	$0, -8(%r14)
	je	.LBB62_29
	leaq	384(%rsp), %r15
	movl	$136, %edx
	movq	%r15, %rdi
	movq	%r14, %rsi
	callq	memcpy@PLT
	movq	%r15, %rdi
	callq	"nm_set::nm_tree++worker++Worker+Destruct::drop"
	jmp	.LBB62_29
.LBB62_30:
	movq	24(%rsp), %rdi
	jmp	.LBB62_31
.LBB62_35:
	leaq	-1(%rbx), %r14
	cmpq	$5, %rbx
	jae	.LBB62_38
	xorl	%eax, %eax
	jmp	.LBB62_37
.LBB62_38:
	movq	%r14, %rax
	andq	$-4, %rax
	xorl	%ecx, %ecx
	.p2align	4
.LBB62_39:
	movaps	.LCPI62_0(%rip), %xmm0
	movups	%xmm0, (%r12,%rcx,8)
	movups	%xmm0, 16(%r12,%rcx,8)
	addq	$4, %rcx
	cmpq	%rcx, %rax
	jne	.LBB62_39
	jmp	.LBB62_40
.LBB62_22:
	callq	nm_host_dealloc@PLT
.LBB62_23:
	movq	32(%rsp), %rdi
	callq	nm_host_dealloc@PLT
	movq	%r13, %rdi
.LBB62_24:
	callq	nm_host_dealloc@PLT
	movb	$1, (%rbp)
	xorps	%xmm0, %xmm0
	movups	%xmm0, 8(%rbp)
	movups	%xmm0, 24(%rbp)
	movups	%xmm0, 40(%rbp)
	movups	%xmm0, 56(%rbp)
	movups	%xmm0, 72(%rbp)
	movups	%xmm0, 88(%rbp)
	movups	%xmm0, 104(%rbp)
	movups	%xmm0, 120(%rbp)
	movups	%xmm0, 136(%rbp)
	movups	%xmm0, 152(%rbp)
	movups	%xmm0, 168(%rbp)
	movups	%xmm0, 184(%rbp)
	movups	%xmm0, 200(%rbp)
.LBB62_80:
	addq	$520, %rsp
	.cfi_def_cfa_offset 56
	popq	%rbx
	.cfi_def_cfa_offset 48
	popq	%r12
	.cfi_def_cfa_offset 40
	popq	%r13
	.cfi_def_cfa_offset 32
	popq	%r14
	.cfi_def_cfa_offset 24
	popq	%r15
	.cfi_def_cfa_offset 16
	popq	%rbp
	.cfi_def_cfa_offset 8
	retq
.LBB62_31:
	.cfi_def_cfa_offset 576
	callq	nm_host_dealloc@PLT
.LBB62_32:
	movq	88(%rsp), %rdi
	jmp	.LBB62_22
.LBB62_37:
	movq	$1, (%r12,%rax,8)
	incq	%rax
.LBB62_40:
	cmpq	%rax, %r14
	jne	.LBB62_37
.LBB62_41:
	movq	$1, (%r12,%r14,8)
	leaq	8(,%r14,8), %rdi
	incq	%r14
	movl	$8, %esi
	callq	nm_host_alloc@PLT
	testb	$1, %al
	je	.LBB62_70
.LBB62_43:
	movq	%rdx, %r15
	movq	%rbx, %rax
	shlq	$4, %rax
	leaq	(%rax,%rax,8), %rdi
	movl	$8, %esi
	callq	nm_host_alloc@PLT
	movq	%rdx, 16(%rsp)
	testb	$1, %al
	je	.LBB62_69
	testq	%r14, %r14
	je	.LBB62_55
	xorl	%eax, %eax
	cmpq	$4, %r14
	jb	.LBB62_50
	movq	%r15, %rcx
	subq	%r12, %rcx
	cmpq	$32, %rcx
	jb	.LBB62_50
	movq	%r14, %rax
	andq	$-4, %rax
	xorl	%ecx, %ecx
	.p2align	4
.LBB62_48:
	movups	(%r12,%rcx,8), %xmm0
	movups	16(%r12,%rcx,8), %xmm1
	movups	%xmm0, (%r15,%rcx,8)
	movups	%xmm1, 16(%r15,%rcx,8)
	addq	$4, %rcx
	cmpq	%rcx, %rax
	jne	.LBB62_48
	cmpq	%rax, %r14
	je	.LBB62_55
.LBB62_50:
	movq	%r14, %rdx
	movq	%rax, %rcx
	andq	$3, %rdx
	je	.LBB62_53
	movq	%rax, %rcx
	.p2align	4
.LBB62_52:
	movq	(%r12,%rcx,8), %rsi
	movq	%rsi, (%r15,%rcx,8)
	incq	%rcx
	decq	%rdx
	jne	.LBB62_52
.LBB62_53:
	subq	%r14, %rax
	cmpq	$-4, %rax
	ja	.LBB62_55
	.p2align	4
.LBB62_54:
	movq	(%r12,%rcx,8), %rax
	movq	%rax, (%r15,%rcx,8)
	movq	8(%r12,%rcx,8), %rax
	movq	%rax, 8(%r15,%rcx,8)
	movq	16(%r12,%rcx,8), %rax
	movq	%rax, 16(%r15,%rcx,8)
	movq	24(%r12,%rcx,8), %rax
	movq	%rax, 24(%r15,%rcx,8)
	addq	$4, %rcx
	cmpq	%rcx, %r14
	jne	.LBB62_54
.LBB62_55:
	movq	%r15, 104(%rsp)
	movq	%r14, 248(%rsp)
	testq	%rbx, %rbx
	je	.LBB62_62
	movq	%r12, 240(%rsp)
	movq	%r13, 72(%rsp)
	movq	%rbp, 80(%rsp)
	movq	%rbx, %r14
	testb	$1, %bl
	je	.LBB62_58
	leaq	-1(%rbx), %r14
	movq	%r14, %rax
	shlq	$4, %rax
	leaq	(%rax,%rax,8), %r13
	movq	24(%rsp), %rax
	movzbl	(%rax,%r13), %ebp
	leaq	(%rax,%r13), %rsi
	addq	$8, %rsi
	leaq	384(%rsp), %r15
	movl	$136, %edx
	movq	%r15, %rdi
	callq	memcpy@PLT
	movq	16(%rsp), %rax
	movq	%rbp, (%rax,%r13)
	leaq	(%rax,%r13), %rdi
	addq	$8, %rdi
	movl	$136, %edx
	movq	%r15, %rsi
	callq	memcpy@PLT
.LBB62_58:
	cmpq	$1, %rbx
	movq	24(%rsp), %r12
	movq	16(%rsp), %r15
	je	.LBB62_61
	leaq	(%r14,%r14,8), %r13
	shlq	$4, %r13
	addq	$-136, %r13
	.p2align	4
.LBB62_60:
	leaq	(%r12,%r13), %rsi
	movzbl	-8(%r12,%r13), %ebp
	leaq	384(%rsp), %rdi
	movl	$136, %edx
	callq	memcpy@PLT
	movq	%rbp, -8(%r15,%r13)
	movl	$136, %edx
	leaq	(%r15,%r13), %rdi
	leaq	384(%rsp), %rsi
	callq	memcpy@PLT
	movzbl	-152(%r12,%r13), %ebp
	leaq	(%r12,%r13), %rsi
	addq	$-144, %rsi
	movl	$136, %edx
	leaq	384(%rsp), %rdi
	callq	memcpy@PLT
	movq	%rbp, -152(%r15,%r13)
	leaq	(%r15,%r13), %rdi
	addq	$-144, %rdi
	movl	$136, %edx
	leaq	384(%rsp), %rsi
	callq	memcpy@PLT
	addq	$-288, %r13
	addq	$-2, %r14
	jne	.LBB62_60
.LBB62_61:
	movq	%r12, %rdi
	callq	nm_host_dealloc@PLT
	movq	240(%rsp), %rdi
	callq	nm_host_dealloc@PLT
	movq	80(%rsp), %rbp
	movq	72(%rsp), %r13
.LBB62_62:
	movl	100(%rsp), %r15d
	testl	%r15d, %r15d
	movq	280(%rsp), %r12
	je	.LBB62_78
	movq	%r12, %rdi
	shlq	$5, %rdi
	movl	$8, %esi
	callq	nm_host_alloc@PLT
	testb	$1, %al
	movq	64(%rsp), %r14
	je	.LBB62_81
	movq	%rdx, 40(%rsp)
	movq	$0, 48(%rsp)
	movq	%r12, 56(%rsp)
	movaps	288(%rsp), %xmm0
	movaps	304(%rsp), %xmm1
	movaps	%xmm0, 384(%rsp)
	movaps	%xmm1, 400(%rsp)
	movaps	176(%rsp), %xmm0
	movaps	%xmm0, 208(%rsp)
	movq	192(%rsp), %rax
	movq	%rax, 224(%rsp)
	xorl	%eax, %eax
	jmp	.LBB62_65
	.p2align	4
.LBB62_68:
	movq	%rax, %rcx
	shlq	$5, %rcx
	movups	%xmm0, (%rdx,%rcx)
	movaps	368(%rsp), %xmm0
	movups	%xmm0, 16(%rdx,%rcx)
	incq	%rax
	movq	%rax, 48(%rsp)
	decl	%r15d
	je	.LBB62_79
.LBB62_65:
	xorps	%xmm0, %xmm0
	movaps	%xmm0, 368(%rsp)
	cmpq	%rax, 56(%rsp)
	jne	.LBB62_68
	leaq	40(%rsp), %rdi
	callq	"std_alloc::vec::Vec::grow_amortized::<#f7287c8d019efe07>"
	testb	%al, %al
	je	.LBB62_76
	movq	40(%rsp), %rdx
	movq	48(%rsp), %rax
	xorps	%xmm0, %xmm0
	jmp	.LBB62_68
.LBB62_69:
	movq	%r15, %rdi
	callq	nm_host_dealloc@PLT
	testq	%rbx, %rbx
	je	.LBB62_32
.LBB62_71:
	movq	24(%rsp), %rax
	leaq	8(%rax), %r14
	jmp	.LBB62_72
	.p2align	4
.LBB62_74:
	addq	$144, %r14
	decq	%rbx
	je	.LBB62_75
.LBB62_72:
	cmpb	$0, -8(%r14)
	je	.LBB62_74
	leaq	384(%rsp), %r15
	movl	$136, %edx
	movq	%r15, %rdi
	movq	%r14, %rsi
	callq	memcpy@PLT
	movq	%r15, %rdi
	callq	"nm_set::nm_tree++worker++Worker+Destruct::drop"
	jmp	.LBB62_74
.LBB62_75:
	movq	24(%rsp), %rdi
	callq	nm_host_dealloc@PLT
	movq	%r12, %rdi
	jmp	.LBB62_31
.LBB62_78:
	leaq	8(%rsp), %rax
	movq	%rax, 40(%rsp)
	movq	$0, 48(%rsp)
	movq	%r12, 56(%rsp)
	movaps	288(%rsp), %xmm0
	movaps	304(%rsp), %xmm1
	movaps	%xmm0, 384(%rsp)
	movaps	%xmm1, 400(%rsp)
	movaps	176(%rsp), %xmm0
	movaps	%xmm0, 208(%rsp)
	movq	192(%rsp), %rax
	movq	%rax, 224(%rsp)
	movq	64(%rsp), %r14
.LBB62_79:
	movaps	384(%rsp), %xmm0
	movaps	400(%rsp), %xmm1
	movups	%xmm1, 343(%rsp)
	movups	%xmm0, 327(%rsp)
	movaps	208(%rsp), %xmm0
	movaps	%xmm0, 144(%rsp)
	movq	224(%rsp), %rax
	movq	%rax, 160(%rsp)
	movq	40(%rsp), %rax
	movq	%rax, 112(%rsp)
	movq	48(%rsp), %rax
	movq	%rax, 120(%rsp)
	movq	56(%rsp), %rax
	movq	%rax, 128(%rsp)
	movb	$0, (%rbp)
	movups	327(%rsp), %xmm0
	movups	343(%rsp), %xmm1
	movups	%xmm0, 8(%rbp)
	movups	%xmm1, 24(%rbp)
	movq	32(%rsp), %rax
	movq	%rax, 40(%rbp)
	movq	%r14, 48(%rbp)
	movq	%r13, 56(%rbp)
	movq	264(%rsp), %rax
	movq	%rax, 64(%rbp)
	movaps	144(%rsp), %xmm0
	movups	%xmm0, 72(%rbp)
	movq	160(%rsp), %rax
	movq	%rax, 88(%rbp)
	movq	272(%rsp), %rax
	movq	%rax, 96(%rbp)
	movq	104(%rsp), %rcx
	movq	%rcx, 104(%rbp)
	movq	16(%rsp), %rdx
	movq	%rdx, 112(%rbp)
	movq	248(%rsp), %rax
	movq	%rax, 120(%rbp)
	movq	%rbx, 128(%rbp)
	movq	%rcx, 136(%rbp)
	movq	%rax, 144(%rbp)
	movq	%rdx, 152(%rbp)
	movq	%rbx, 160(%rbp)
	movq	128(%rsp), %rax
	movq	%rax, 184(%rbp)
	movaps	112(%rsp), %xmm0
	movups	%xmm0, 168(%rbp)
	movq	88(%rsp), %rax
	movq	%rax, 192(%rbp)
	movq	$0, 200(%rbp)
	movq	256(%rsp), %rax
	movq	%rax, 208(%rbp)
	jmp	.LBB62_80
.LBB62_81:
	movq	32(%rsp), %rdi
	callq	nm_host_dealloc@PLT
	movq	%r13, %rdi
.LBB62_82:
	callq	nm_host_dealloc@PLT
.LBB62_83:
	testq	%rbx, %rbx
	movq	16(%rsp), %r14
	je	.LBB62_88
	movq	%r14, %r15
	addq	$8, %r15
	jmp	.LBB62_85
	.p2align	4
.LBB62_87:
	addq	$144, %r15
	decq	%rbx
	je	.LBB62_88
.LBB62_85:
	cmpb	$0, -8(%r15)
	je	.LBB62_87
	leaq	384(%rsp), %r12
	movl	$136, %edx
	movq	%r12, %rdi
	movq	%r15, %rsi
	callq	memcpy@PLT
	movq	%r12, %rdi
	callq	"nm_set::nm_tree++worker++Worker+Destruct::drop"
	jmp	.LBB62_87
.LBB62_88:
	movq	104(%rsp), %rdi
	callq	nm_host_dealloc@PLT
	movq	%r14, %rdi
	callq	nm_host_dealloc@PLT
	movq	88(%rsp), %rdi
	jmp	.LBB62_24
.LBB62_76:
	movq	32(%rsp), %rdi
	callq	nm_host_dealloc@PLT
	movq	%r13, %rdi
	callq	nm_host_dealloc@PLT
	cmpq	$0, 56(%rsp)
	je	.LBB62_83
	movq	40(%rsp), %rdi
	jmp	.LBB62_82
.Lfunc_end62:
	.size	"nm_set::home::Home::of", .Lfunc_end62-"nm_set::home::Home::of"
	.cfi_endproc
	.section	".text.unlikely.std_alloc::vec::Vec::grow_amortized::<#f7287c8d019efe07>","ax",@progbits
	.p2align	4
	.type	"std_alloc::vec::Vec::grow_amortized::<#f7287c8d019efe07>",@function
"std_alloc::vec::Vec::grow_amortized::<#f7287c8d019efe07>":
	.cfi_startproc
	movq	8(%rdi), %rsi
	cmpq	$-1, %rsi
	je	.LBB63_5
	pushq	%r14
	.cfi_def_cfa_offset 16
	pushq	%rbx
	.cfi_def_cfa_offset 24
	pushq	%rax
	.cfi_def_cfa_offset 32
	.cfi_offset %rbx, -24
	.cfi_offset %r14, -16
	movq	16(%rdi), %rcx
	cmpq	$4, %rsi
	movl	$3, %ebx
	cmovaeq	%rsi, %rbx
	incq	%rbx
	movq	%rcx, %rdx
	shrq	$62, %rdx
	leaq	(%rcx,%rcx), %rax
	cmpq	%rax, %rbx
	cmovaq	%rbx, %rax
	testq	%rdx, %rdx
	cmoveq	%rax, %rbx
	movq	%rbx, %rdx
	shrq	$58, %rdx
	jne	.LBB63_6
	testq	%rcx, %rcx
	je	.LBB63_8
	movq	%rdi, %r14
	movq	(%rdi), %rdi
	shlq	$5, %rsi
	movq	%rbx, %rdx
	shlq	$5, %rdx
	movl	$8, %ecx
	callq	nm_host_realloc@PLT
	testb	$1, %al
	je	.LBB63_6
.LBB63_9:
	movq	%rdx, (%r14)
	movq	%rbx, 16(%r14)
	movb	$1, %al
	addq	$8, %rsp
	.cfi_def_cfa_offset 24
	popq	%rbx
	.cfi_def_cfa_offset 16
	popq	%r14
	.cfi_def_cfa_offset 8
	.cfi_restore %rbx
	.cfi_restore %r14
	retq
.LBB63_5:
	xorl	%eax, %eax
	retq
.LBB63_8:
	.cfi_def_cfa_offset 32
	.cfi_offset %rbx, -24
	.cfi_offset %r14, -16
	movq	%rdi, %r14
	shlq	$5, %rax
	movl	$8, %esi
	movq	%rax, %rdi
	callq	nm_host_alloc@PLT
	testb	$1, %al
	jne	.LBB63_9
.LBB63_6:
	xorl	%eax, %eax
	addq	$8, %rsp
	.cfi_def_cfa_offset 24
	popq	%rbx
	.cfi_def_cfa_offset 16
	popq	%r14
	.cfi_def_cfa_offset 8
	.cfi_restore %rbx
	.cfi_restore %r14
	retq
.Lfunc_end63:
	.size	"std_alloc::vec::Vec::grow_amortized::<#f7287c8d019efe07>", .Lfunc_end63-"std_alloc::vec::Vec::grow_amortized::<#f7287c8d019efe07>"
	.cfi_endproc
	.section	".text.nm_set::set::made::<#f118e792109c5fac>","ax",@progbits
	.p2align	4
	.type	"nm_set::set::made::<#f118e792109c5fac>",@function
"nm_set::set::made::<#f118e792109c5fac>":
	.cfi_startproc
	pushq	%rbp
	.cfi_def_cfa_offset 16
	pushq	%r15
	.cfi_def_cfa_offset 24
	pushq	%r14
	.cfi_def_cfa_offset 32
	pushq	%r13
	.cfi_def_cfa_offset 40
	pushq	%r12
	.cfi_def_cfa_offset 48
	pushq	%rbx
	.cfi_def_cfa_offset 56
	subq	$1416, %rsp
	.cfi_def_cfa_offset 1472
	.cfi_offset %rbx, -56
	.cfi_offset %r12, -48
	.cfi_offset %r13, -40
	.cfi_offset %r14, -32
	.cfi_offset %r15, -24
	.cfi_offset %rbp, -16
	movl	%edx, %r14d
	movq	%rdi, %rbx
	movl	(%rsi), %eax
	movl	4(%rsi), %ebp
	movl	16(%rsi), %ecx
	movl	%ecx, 620(%rsp)
	movq	8(%rsi), %rcx
	movq	%rcx, 612(%rsp)
	xorps	%xmm0, %xmm0
	movaps	%xmm0, 48(%rsp)
	movaps	%xmm0, 64(%rsp)
	movaps	%xmm0, 80(%rsp)
	movaps	%xmm0, 96(%rsp)
	movaps	%xmm0, 112(%rsp)
	movq	$0, 128(%rsp)
	movaps	%xmm0, 144(%rsp)
	movaps	%xmm0, 816(%rsp)
	movaps	%xmm0, 832(%rsp)
	movaps	%xmm0, 848(%rsp)
	movaps	%xmm0, 864(%rsp)
	movaps	%xmm0, 880(%rsp)
	movaps	%xmm0, 896(%rsp)
	movaps	%xmm0, 912(%rsp)
	movq	$0, 926(%rsp)
	movl	%eax, 584(%rsp)
	movl	%ebp, 588(%rsp)
	movq	8(%rsi), %rcx
	movq	%rcx, 592(%rsp)
	movl	16(%rsi), %ecx
	movl	%ecx, 600(%rsp)
	movaps	%xmm0, 384(%rsp)
	movaps	%xmm0, 400(%rsp)
	movaps	%xmm0, 416(%rsp)
	movaps	%xmm0, 432(%rsp)
	movaps	%xmm0, 448(%rsp)
	movaps	%xmm0, 464(%rsp)
	movaps	%xmm0, 480(%rsp)
	movq	$0, 494(%rsp)
	movaps	%xmm0, 944(%rsp)
	movaps	%xmm0, 960(%rsp)
	movaps	%xmm0, 976(%rsp)
	movaps	%xmm0, 992(%rsp)
	movaps	%xmm0, 1008(%rsp)
	movaps	%xmm0, 1024(%rsp)
	movaps	%xmm0, 1040(%rsp)
	movq	$0, 1054(%rsp)
	movaps	%xmm0, 1168(%rsp)
	movaps	%xmm0, 1184(%rsp)
	movaps	%xmm0, 1200(%rsp)
	movaps	%xmm0, 1216(%rsp)
	movaps	%xmm0, 1232(%rsp)
	movaps	%xmm0, 1248(%rsp)
	movaps	%xmm0, 1264(%rsp)
	movq	$0, 1280(%rsp)
	movaps	%xmm0, 1072(%rsp)
	movaps	%xmm0, 1088(%rsp)
	movaps	%xmm0, 1104(%rsp)
	movaps	%xmm0, 1120(%rsp)
	movaps	%xmm0, 1136(%rsp)
	movq	$0, 1152(%rsp)
	movaps	%xmm0, 784(%rsp)
	movq	$0, 800(%rsp)
	movl	%eax, 604(%rsp)
	movl	%ebp, 608(%rsp)
	movaps	%xmm0, 752(%rsp)
	movaps	%xmm0, 736(%rsp)
	movaps	%xmm0, 720(%rsp)
	movaps	%xmm0, 704(%rsp)
	movaps	%xmm0, 688(%rsp)
	movaps	%xmm0, 672(%rsp)
	movaps	%xmm0, 656(%rsp)
	movq	$0, 767(%rsp)
	movaps	%xmm0, 160(%rsp)
	movaps	%xmm0, 176(%rsp)
	movaps	%xmm0, 192(%rsp)
	movaps	%xmm0, 208(%rsp)
	movaps	%xmm0, 224(%rsp)
	movaps	%xmm0, 240(%rsp)
	movaps	%xmm0, 256(%rsp)
	movq	$0, 272(%rsp)
	movaps	%xmm0, 624(%rsp)
	movaps	%xmm0, 640(%rsp)
	leaq	624(%rsp), %rdi
	leaq	584(%rsp), %rsi
	callq	"nm_steps::pass::making::opening_words"
	cmpb	$0, 624(%rsp)
	jne	.LBB64_24
	movl	%r14d, 8(%rsp)
	movq	632(%rsp), %r15
	movq	640(%rsp), %r14
	movq	648(%rsp), %r13
	leaq	(,%r14,8), %rdi
	testq	%rdi, %rdi
	js	.LBB64_22
	movl	$8, %esi
	callq	nm_host_alloc@PLT
	testb	$1, %al
	je	.LBB64_22
	movq	%rdx, %r12
	movl	$1, %esi
	xorl	%edi, %edi
	callq	nm_host_alloc@PLT
	testb	$1, %al
	je	.LBB64_21
	testq	%r14, %r14
	je	.LBB64_15
	cmpq	$4, %r14
	setb	%al
	movq	%r12, %rcx
	subq	%r15, %rcx
	cmpq	$32, %rcx
	setb	%cl
	orb	%al, %cl
	je	.LBB64_7
	xorl	%eax, %eax
	jmp	.LBB64_10
.LBB64_21:
	movq	%r12, %rdi
	callq	nm_host_dealloc@PLT
.LBB64_22:
	testq	%r13, %r13
	je	.LBB64_24
	movq	%r15, %rdi
	callq	nm_host_dealloc@PLT
.LBB64_24:
	xorps	%xmm0, %xmm0
	movups	%xmm0, 390(%rsp)
	movups	%xmm0, 406(%rsp)
	movups	%xmm0, 422(%rsp)
	movups	%xmm0, 438(%rsp)
	movups	%xmm0, 454(%rsp)
	movups	%xmm0, 470(%rsp)
	movups	%xmm0, 486(%rsp)
.LBB64_20:
	movw	$513, (%rbx)
	movups	%xmm0, 8(%rbx)
	movups	%xmm0, 24(%rbx)
	movups	%xmm0, 40(%rbx)
	movups	%xmm0, 56(%rbx)
	movups	%xmm0, 72(%rbx)
	movups	%xmm0, 88(%rbx)
	movups	%xmm0, 104(%rbx)
.LBB64_42:
	movups	%xmm0, 120(%rbx)
	addq	$1416, %rsp
	.cfi_def_cfa_offset 56
	popq	%rbx
	.cfi_def_cfa_offset 48
	popq	%r12
	.cfi_def_cfa_offset 40
	popq	%r13
	.cfi_def_cfa_offset 32
	popq	%r14
	.cfi_def_cfa_offset 24
	popq	%r15
	.cfi_def_cfa_offset 16
	popq	%rbp
	.cfi_def_cfa_offset 8
	retq
.LBB64_7:
	.cfi_def_cfa_offset 1472
	movq	%r14, %rax
	andq	$-4, %rax
	xorl	%ecx, %ecx
	.p2align	4
.LBB64_8:
	movups	(%r15,%rcx,8), %xmm0
	movups	16(%r15,%rcx,8), %xmm1
	movups	%xmm0, (%r12,%rcx,8)
	movups	%xmm1, 16(%r12,%rcx,8)
	addq	$4, %rcx
	cmpq	%rcx, %rax
	jne	.LBB64_8
	cmpq	%rax, %r14
	je	.LBB64_15
.LBB64_10:
	movq	%r14, %rsi
	movq	%rax, %rcx
	andq	$3, %rsi
	je	.LBB64_13
	movq	%rax, %rcx
	.p2align	4
.LBB64_12:
	movq	(%r15,%rcx,8), %rdi
	movq	%rdi, (%r12,%rcx,8)
	incq	%rcx
	decq	%rsi
	jne	.LBB64_12
.LBB64_13:
	subq	%r14, %rax
	cmpq	$-4, %rax
	ja	.LBB64_15
	.p2align	4
.LBB64_14:
	movq	(%r15,%rcx,8), %rax
	movq	%rax, (%r12,%rcx,8)
	movq	8(%r15,%rcx,8), %rax
	movq	%rax, 8(%r12,%rcx,8)
	movq	16(%r15,%rcx,8), %rax
	movq	%rax, 16(%r12,%rcx,8)
	movq	24(%r15,%rcx,8), %rax
	movq	%rax, 24(%r12,%rcx,8)
	addq	$4, %rcx
	cmpq	%rcx, %r14
	jne	.LBB64_14
.LBB64_15:
	movq	%r12, 1312(%rsp)
	movq	%rdx, 1320(%rsp)
	movq	%r14, 1328(%rsp)
	movq	$0, 1336(%rsp)
	movq	%r12, 1344(%rsp)
	movq	%r14, 1352(%rsp)
	movq	%rdx, 1360(%rsp)
	movq	$0, 1368(%rsp)
	leaq	160(%rsp), %rdi
	leaq	604(%rsp), %rsi
	leaq	1312(%rsp), %rdx
	xorl	%ecx, %ecx
	callq	"nm_steps::pass::making::dealt"
	testq	%r13, %r13
	je	.LBB64_17
	movq	%r15, %rdi
	callq	nm_host_dealloc@PLT
.LBB64_17:
	movups	168(%rsp), %xmm0
	movups	184(%rsp), %xmm1
	movups	200(%rsp), %xmm2
	movups	216(%rsp), %xmm3
	movups	%xmm0, 663(%rsp)
	movups	%xmm1, 679(%rsp)
	movups	%xmm2, 695(%rsp)
	movups	%xmm3, 711(%rsp)
	movups	232(%rsp), %xmm0
	movups	%xmm0, 727(%rsp)
	movups	248(%rsp), %xmm0
	movups	%xmm0, 743(%rsp)
	movups	264(%rsp), %xmm0
	movups	%xmm0, 759(%rsp)
	cmpb	$0, 160(%rsp)
	jne	.LBB64_24
	leaq	663(%rsp), %rax
	movups	96(%rax), %xmm0
	movups	%xmm0, 1046(%rsp)
	movups	80(%rax), %xmm0
	movups	%xmm0, 1030(%rsp)
	movups	64(%rax), %xmm0
	movups	%xmm0, 1014(%rsp)
	movups	(%rax), %xmm1
	movups	16(%rax), %xmm2
	movups	32(%rax), %xmm3
	movups	48(%rax), %xmm4
	movups	%xmm4, 998(%rsp)
	movups	%xmm3, 982(%rsp)
	movups	%xmm2, 966(%rsp)
	movups	%xmm1, 950(%rsp)
	movaps	%xmm1, 1072(%rsp)
	movaps	%xmm2, 1088(%rsp)
	movaps	%xmm3, 1104(%rsp)
	movaps	%xmm4, 1120(%rsp)
	movaps	%xmm0, 1136(%rsp)
	movq	1030(%rsp), %rax
	movq	%rax, 1152(%rsp)
	movups	1038(%rsp), %xmm0
	movaps	%xmm0, 784(%rsp)
	movq	1054(%rsp), %rax
	movq	%rax, 800(%rsp)
	movl	8(%rsp), %r14d
	movzbl	%r14b, %ecx
	leaq	1168(%rsp), %rdi
	leaq	1072(%rsp), %rsi
	leaq	784(%rsp), %rdx
	callq	"nm_tree::tree::with_workers"
	cmpb	$0, 1168(%rsp)
	je	.LBB64_25
	xorps	%xmm0, %xmm0
	movups	%xmm0, 486(%rsp)
	movups	%xmm0, 470(%rsp)
	movups	%xmm0, 454(%rsp)
	movups	%xmm0, 438(%rsp)
	movups	%xmm0, 422(%rsp)
	movups	%xmm0, 406(%rsp)
	movups	%xmm0, 390(%rsp)
	jmp	.LBB64_20
.LBB64_25:
	movups	1272(%rsp), %xmm0
	movups	%xmm0, 486(%rsp)
	movups	1256(%rsp), %xmm0
	movups	%xmm0, 470(%rsp)
	movups	1240(%rsp), %xmm1
	movups	%xmm1, 454(%rsp)
	movups	1176(%rsp), %xmm2
	movups	1192(%rsp), %xmm3
	movups	1208(%rsp), %xmm4
	movups	1224(%rsp), %xmm5
	movups	%xmm5, 438(%rsp)
	movups	%xmm4, 422(%rsp)
	movups	%xmm3, 406(%rsp)
	movups	%xmm2, 390(%rsp)
	movups	%xmm0, 902(%rsp)
	movups	%xmm1, 886(%rsp)
	movups	%xmm5, 870(%rsp)
	movups	%xmm4, 854(%rsp)
	movups	%xmm3, 838(%rsp)
	movups	%xmm2, 822(%rsp)
	movups	486(%rsp), %xmm0
	movups	%xmm0, 918(%rsp)
	xorps	%xmm0, %xmm0
	movaps	%xmm0, 160(%rsp)
	movaps	%xmm0, 176(%rsp)
	movaps	%xmm0, 192(%rsp)
	movaps	%xmm0, 208(%rsp)
	movaps	%xmm0, 224(%rsp)
	movaps	%xmm0, 240(%rsp)
	movaps	%xmm0, 256(%rsp)
	movaps	%xmm0, 272(%rsp)
	movaps	%xmm0, 288(%rsp)
	movaps	%xmm0, 304(%rsp)
	movaps	%xmm0, 320(%rsp)
	movaps	%xmm0, 336(%rsp)
	movaps	%xmm0, 352(%rsp)
	movq	$0, 368(%rsp)
	movups	822(%rsp), %xmm0
	movups	838(%rsp), %xmm1
	movups	854(%rsp), %xmm2
	movups	870(%rsp), %xmm3
	movaps	%xmm0, 656(%rsp)
	movaps	%xmm1, 672(%rsp)
	movaps	%xmm2, 688(%rsp)
	movaps	%xmm3, 704(%rsp)
	movups	886(%rsp), %xmm0
	movaps	%xmm0, 720(%rsp)
	movq	902(%rsp), %rax
	movq	%rax, 736(%rsp)
	movb	%r14b, 744(%rsp)
	movl	$0, 748(%rsp)
	movl	$0, 745(%rsp)
	movq	926(%rsp), %rax
	movq	%rax, 960(%rsp)
	movups	910(%rsp), %xmm0
	movaps	%xmm0, 944(%rsp)
	leaq	160(%rsp), %rdi
	leaq	656(%rsp), %rsi
	leaq	944(%rsp), %rdx
	movl	%ebp, %ecx
	callq	"nm_set::home::Home::of"
	cmpb	$0, 160(%rsp)
	je	.LBB64_26
.LBB64_40:
	xorps	%xmm0, %xmm0
	movaps	%xmm0, 112(%rsp)
	movaps	%xmm0, 96(%rsp)
	movaps	%xmm0, 80(%rsp)
	movaps	%xmm0, 64(%rsp)
	movaps	%xmm0, 48(%rsp)
	movq	$0, 128(%rsp)
	movaps	%xmm0, 144(%rsp)
	movb	$2, %sil
	movb	$1, %cl
	xorl	%edx, %edx
	xorl	%eax, %eax
.LBB64_41:
	movb	%cl, (%rbx)
	movb	%sil, 1(%rbx)
	movq	$0, 8(%rbx)
	movq	%rdx, 16(%rbx)
	movaps	48(%rsp), %xmm0
	movaps	64(%rsp), %xmm1
	movaps	80(%rsp), %xmm2
	movaps	96(%rsp), %xmm3
	movups	%xmm0, 24(%rbx)
	movups	%xmm1, 40(%rbx)
	movups	%xmm2, 56(%rbx)
	movups	%xmm3, 72(%rbx)
	movaps	112(%rsp), %xmm0
	movups	%xmm0, 88(%rbx)
	movq	128(%rsp), %rcx
	movq	%rcx, 104(%rbx)
	movq	%rax, 112(%rbx)
	movaps	144(%rsp), %xmm0
	jmp	.LBB64_42
.LBB64_26:
	movq	168(%rsp), %rax
	movq	%rax, 536(%rsp)
	movq	200(%rsp), %r15
	movq	208(%rsp), %rax
	movq	%rax, 552(%rsp)
	movq	216(%rsp), %rax
	movq	%rax, 24(%rsp)
	movq	224(%rsp), %rax
	movq	%rax, 544(%rsp)
	movaps	256(%rsp), %xmm0
	movaps	%xmm0, 512(%rsp)
	movq	272(%rsp), %rbp
	movq	288(%rsp), %r13
	movups	280(%rsp), %xmm0
	movaps	%xmm0, 1392(%rsp)
	movq	296(%rsp), %rax
	movq	%rax, 40(%rsp)
	movq	304(%rsp), %rax
	movq	%rax, 568(%rsp)
	movq	312(%rsp), %rax
	movq	%rax, 32(%rsp)
	movq	320(%rsp), %rax
	movq	%rax, 560(%rsp)
	movq	328(%rsp), %rax
	movq	%rax, 16(%rsp)
	movq	344(%rsp), %rax
	movq	%rax, 576(%rsp)
	movaps	336(%rsp), %xmm0
	movaps	%xmm0, 1376(%rsp)
	movq	352(%rsp), %rax
	movq	%rax, 8(%rsp)
	movq	360(%rsp), %r12
	movq	368(%rsp), %r14
	movl	$216, %edi
	movl	$8, %esi
	callq	nm_host_alloc@PLT
	testb	$1, %al
	je	.LBB64_28
	movq	$1, (%rdx)
	movq	536(%rsp), %rax
	movq	%rax, 8(%rdx)
	movaps	176(%rsp), %xmm0
	movups	%xmm0, 16(%rdx)
	movq	192(%rsp), %rax
	movq	%rax, 32(%rdx)
	movq	%r15, 40(%rdx)
	movq	552(%rsp), %rax
	movq	%rax, 48(%rdx)
	movq	24(%rsp), %rax
	movq	%rax, 56(%rdx)
	movq	544(%rsp), %rax
	movq	%rax, 64(%rdx)
	movups	232(%rsp), %xmm0
	movups	%xmm0, 72(%rdx)
	movq	248(%rsp), %rax
	movq	%rax, 88(%rdx)
	movaps	512(%rsp), %xmm0
	movups	%xmm0, 96(%rdx)
	movq	%rbp, 112(%rdx)
	movaps	1392(%rsp), %xmm0
	movups	%xmm0, 120(%rdx)
	movq	40(%rsp), %rax
	movq	%rax, 136(%rdx)
	movq	568(%rsp), %rax
	movq	%rax, 144(%rdx)
	movq	32(%rsp), %rax
	movq	%rax, 152(%rdx)
	movq	560(%rsp), %rax
	movq	%rax, 160(%rdx)
	movq	16(%rsp), %rax
	movq	%rax, 168(%rdx)
	movaps	1376(%rsp), %xmm0
	movups	%xmm0, 176(%rdx)
	movq	8(%rsp), %rax
	movq	%rax, 192(%rdx)
	movq	%r12, 200(%rdx)
	movq	%r14, 208(%rdx)
	xorps	%xmm0, %xmm0
	movaps	%xmm0, 112(%rsp)
	movaps	%xmm0, 96(%rsp)
	movaps	%xmm0, 80(%rsp)
	movaps	%xmm0, 64(%rsp)
	movaps	%xmm0, 48(%rsp)
	movq	$0, 128(%rsp)
	movaps	%xmm0, 144(%rsp)
	movq	%rsp, %rax
	xorl	%ecx, %ecx
	xorl	%esi, %esi
	jmp	.LBB64_41
.LBB64_28:
	movq	%r14, 512(%rsp)
	movq	%r15, %rdi
	callq	nm_host_dealloc@PLT
	movq	24(%rsp), %rdi
	callq	nm_host_dealloc@PLT
	testq	%r13, %r13
	movq	32(%rsp), %r14
	movq	40(%rsp), %r15
	je	.LBB64_33
	addq	$8, %rbp
	jmp	.LBB64_30
.LBB64_32:
	addq	$144, %rbp
	decq	%r13
	je	.LBB64_33
.LBB64_30:
	cmpb	$0, -8(%rbp)
	je	.LBB64_32
	leaq	1168(%rsp), %rdi
	movl	$136, %edx
	movq	%rbp, %rsi
	callq	memcpy@PLT
	leaq	1168(%rsp), %rdi
	callq	"nm_set::nm_tree++worker++Worker+Destruct::drop"
	jmp	.LBB64_32
.LBB64_33:
	movq	%r15, %rdi
	callq	nm_host_dealloc@PLT
	movq	%r14, %rdi
	callq	nm_host_dealloc@PLT
	cmpq	$0, 576(%rsp)
	je	.LBB64_35
	movq	16(%rsp), %rdi
	callq	nm_host_dealloc@PLT
.LBB64_35:
	testq	%r12, %r12
	movq	8(%rsp), %r13
	movq	512(%rsp), %rbp
	je	.LBB64_38
	movq	%r13, %r14
.LBB64_37:
	leaq	1168(%rsp), %r15
	movl	$136, %edx
	movq	%r15, %rdi
	movq	%r14, %rsi
	callq	memcpy@PLT
	movq	%r15, %rdi
	callq	"nm_set::nm_tree++worker++Worker+Destruct::drop"
	addq	$136, %r14
	decq	%r12
	jne	.LBB64_37
.LBB64_38:
	testq	%rbp, %rbp
	je	.LBB64_40
	movq	%r13, %rdi
	callq	nm_host_dealloc@PLT
	jmp	.LBB64_40
.Lfunc_end64:
	.size	"nm_set::set::made::<#f118e792109c5fac>", .Lfunc_end64-"nm_set::set::made::<#f118e792109c5fac>"
	.cfi_endproc
	.section	".text.unlikely.std_alloc::vec::Vec::grow_amortized::<#9a2635718dfc78f3>","ax",@progbits
	.p2align	4
	.type	"std_alloc::vec::Vec::grow_amortized::<#9a2635718dfc78f3>",@function
"std_alloc::vec::Vec::grow_amortized::<#9a2635718dfc78f3>":
	.cfi_startproc
	movq	8(%rdi), %rsi
	cmpq	$-1, %rsi
	je	.LBB65_5
	pushq	%r14
	.cfi_def_cfa_offset 16
	pushq	%rbx
	.cfi_def_cfa_offset 24
	pushq	%rax
	.cfi_def_cfa_offset 32
	.cfi_offset %rbx, -24
	.cfi_offset %r14, -16
	movq	16(%rdi), %rcx
	cmpq	$4, %rsi
	movl	$3, %ebx
	cmovaeq	%rsi, %rbx
	incq	%rbx
	movq	%rcx, %rdx
	shrq	$62, %rdx
	leaq	(%rcx,%rcx), %rax
	cmpq	%rax, %rbx
	cmovaq	%rbx, %rax
	testq	%rdx, %rdx
	cmoveq	%rax, %rbx
	movq	%rbx, %rdx
	shrq	$58, %rdx
	jne	.LBB65_6
	testq	%rcx, %rcx
	je	.LBB65_8
	movq	%rdi, %r14
	movq	(%rdi), %rdi
	shlq	$5, %rsi
	movq	%rbx, %rdx
	shlq	$5, %rdx
	movl	$8, %ecx
	callq	nm_host_realloc@PLT
	testb	$1, %al
	je	.LBB65_6
.LBB65_9:
	movq	%rdx, (%r14)
	movq	%rbx, 16(%r14)
	movb	$1, %al
	addq	$8, %rsp
	.cfi_def_cfa_offset 24
	popq	%rbx
	.cfi_def_cfa_offset 16
	popq	%r14
	.cfi_def_cfa_offset 8
	.cfi_restore %rbx
	.cfi_restore %r14
	retq
.LBB65_5:
	xorl	%eax, %eax
	retq
.LBB65_8:
	.cfi_def_cfa_offset 32
	.cfi_offset %rbx, -24
	.cfi_offset %r14, -16
	movq	%rdi, %r14
	shlq	$5, %rax
	movl	$8, %esi
	movq	%rax, %rdi
	callq	nm_host_alloc@PLT
	testb	$1, %al
	jne	.LBB65_9
.LBB65_6:
	xorl	%eax, %eax
	addq	$8, %rsp
	.cfi_def_cfa_offset 24
	popq	%rbx
	.cfi_def_cfa_offset 16
	popq	%r14
	.cfi_def_cfa_offset 8
	.cfi_restore %rbx
	.cfi_restore %r14
	retq
.Lfunc_end65:
	.size	"std_alloc::vec::Vec::grow_amortized::<#9a2635718dfc78f3>", .Lfunc_end65-"std_alloc::vec::Vec::grow_amortized::<#9a2635718dfc78f3>"
	.cfi_endproc
	.section	".text.nm_set_c::map_many::ask","ax",@progbits
	.p2align	4
	.type	"nm_set_c::map_many::ask",@function
"nm_set_c::map_many::ask":
	.cfi_startproc
	cmpb	$1, 104(%rdi)
	jne	.LBB66_1
	pushq	%r15
	.cfi_def_cfa_offset 16
	pushq	%r14
	.cfi_def_cfa_offset 24
	pushq	%r13
	.cfi_def_cfa_offset 32
	pushq	%r12
	.cfi_def_cfa_offset 40
	pushq	%rbx
	.cfi_def_cfa_offset 48
	.cfi_offset %rbx, -48
	.cfi_offset %r12, -40
	.cfi_offset %r13, -32
	.cfi_offset %r14, -24
	.cfi_offset %r15, -16
	movq	(%rdi), %rax
	movl	72(%rax), %edi
	movzbl	84(%rax), %r8d
	movl	88(%rax), %ecx
	movq	8(%rax), %r9
	leal	4(%rcx), %r10d
	movq	8(%r9,%r10,8), %r9
	testq	%rdx, %rdx
	je	.LBB66_25
	shrq	$2, %r9
	movl	%edx, %r10d
	andl	$3, %r10d
	cmpq	$4, %rdx
	jae	.LBB66_6
	xorl	%r11d, %r11d
	jmp	.LBB66_9
.LBB66_1:
	.cfi_def_cfa_offset 8
	.cfi_restore %rbx
	.cfi_restore %r12
	.cfi_restore %r13
	.cfi_restore %r14
	.cfi_restore %r15
	movb	$1, %al
	xorl	%edx, %edx
	retq
.LBB66_25:
	.cfi_def_cfa_offset 48
	.cfi_offset %rbx, -48
	.cfi_offset %r12, -40
	.cfi_offset %r13, -32
	.cfi_offset %r14, -24
	.cfi_offset %r15, -16
	cmpl	$1, %edi
	setne	%cl
	orb	%cl, %r8b
	testb	$1, %r8b
	je	.LBB66_21
	jmp	.LBB66_26
.LBB66_6:
	movq	%rdx, %rbx
	andq	$-4, %rbx
	leaq	124(%rsi), %r14
	xorl	%r11d, %r11d
	.p2align	4
.LBB66_7:
	xorps	%xmm0, %xmm0
	movups	%xmm0, -116(%r14)
	movl	%r9d, -100(%r14)
	movl	$0, -96(%r14)
	movups	%xmm0, -84(%r14)
	movl	%r9d, -68(%r14)
	movl	$0, -64(%r14)
	movups	%xmm0, -52(%r14)
	movl	%r9d, -36(%r14)
	movl	$0, -32(%r14)
	movups	%xmm0, -20(%r14)
	movl	%r9d, -4(%r14)
	movl	$0, (%r14)
	addq	$4, %r11
	subq	$-128, %r14
	cmpq	%r11, %rbx
	jne	.LBB66_7
	testq	%r10, %r10
	je	.LBB66_11
.LBB66_9:
	shlq	$5, %r11
	addq	%rsi, %r11
	addq	$28, %r11
	shll	$5, %r10d
	xorl	%ebx, %ebx
	.p2align	4
.LBB66_10:
	xorps	%xmm0, %xmm0
	movups	%xmm0, -20(%r11,%rbx)
	movl	%r9d, -4(%r11,%rbx)
	movl	$0, (%r11,%rbx)
	addq	$32, %rbx
	cmpq	%rbx, %r10
	jne	.LBB66_10
.LBB66_11:
	decl	%edi
	testb	$1, %r8b
	movl	$65, %r8d
	cmovel	%edi, %r8d
	testl	%r8d, %r8d
	je	.LBB66_21
	addl	$-4, %ecx
	leaq	24(%rsi), %rdi
	xorl	%r9d, %r9d
.LBB66_13:
	movq	$-1, %r10
	movq	%rdi, %r11
	.p2align	4
.LBB66_14:
	incq	%r10
	cmpq	%r10, %rdx
	je	.LBB66_28
	cmpl	$0, (%r11)
	leaq	32(%r11), %r11
	je	.LBB66_14
	movq	%rdi, %r10
	movq	%rdx, %r11
	jmp	.LBB66_17
	.p2align	4
.LBB66_19:
	addq	$32, %r10
	decq	%r11
	je	.LBB66_20
.LBB66_17:
	movl	(%r10), %ebx
	testl	%ebx, %ebx
	je	.LBB66_19
	movq	-24(%r10), %r14
	movq	8(%rax), %r15
	leal	(%rcx,%rbx,4), %ebx
	movq	(%r15,%rbx,8), %r15
	movq	8(%rax), %r12
	movq	8(%r12,%rbx,8), %r12
	movq	8(%rax), %r13
	movq	16(%r13,%rbx,8), %rbx
	cmpq	%r15, %r14
	cmovbq	%r12, %rbx
	cmpq	-24(%r10), %r15
	sete	-16(%r10)
	movl	(%r10), %r14d
	movq	%r14, -8(%r10)
	shrq	$2, %rbx
	movl	%ebx, (%r10)
	jmp	.LBB66_19
.LBB66_20:
	incl	%r9d
	cmpl	%r8d, %r9d
	jne	.LBB66_13
.LBB66_21:
	leaq	24(%rsi), %rdi
	leaq	1(%rdx), %rcx
	.p2align	4
.LBB66_22:
	decq	%rcx
	je	.LBB66_28
	cmpl	$0, (%rdi)
	leaq	32(%rdi), %rdi
	je	.LBB66_22
	movb	$1, %dl
	movb	$1, %al
	jmp	.LBB66_27
.LBB66_28:
	testq	%rdx, %rdx
	je	.LBB66_26
	addq	$16, %rsi
	jmp	.LBB66_30
	.p2align	4
.LBB66_32:
	addq	$32, %rsi
	decq	%rdx
	je	.LBB66_26
.LBB66_30:
	cmpb	$1, -8(%rsi)
	jne	.LBB66_32
	movl	72(%rax), %ecx
	leal	(,%rcx,4), %edi
	movl	%ecx, %r8d
	shrl	$6, %r8d
	andl	$63, %ecx
	addl	88(%rax), %edi
	addl	%r8d, %edi
	cmpl	$1, %ecx
	sbbl	$-1, %edi
	movl	(%rsi), %ecx
	decl	%ecx
	addq	%rdi, %rcx
	movq	8(%rax), %rdi
	movq	(%rdi,%rcx,8), %rcx
	movq	%rcx, (%rsi)
	jmp	.LBB66_32
.LBB66_26:
	xorl	%edx, %edx
	xorl	%eax, %eax
.LBB66_27:
	popq	%rbx
	.cfi_def_cfa_offset 40
	popq	%r12
	.cfi_def_cfa_offset 32
	popq	%r13
	.cfi_def_cfa_offset 24
	popq	%r14
	.cfi_def_cfa_offset 16
	popq	%r15
	.cfi_def_cfa_offset 8
	.cfi_restore %rbx
	.cfi_restore %r12
	.cfi_restore %r13
	.cfi_restore %r14
	.cfi_restore %r15
	retq
.Lfunc_end66:
	.size	"nm_set_c::map_many::ask", .Lfunc_end66-"nm_set_c::map_many::ask"
	.cfi_endproc
	.section	".text.nm_set_c::many::ask","ax",@progbits
	.p2align	4
	.type	"nm_set_c::many::ask",@function
"nm_set_c::many::ask":
	.cfi_startproc
	pushq	%rbp
	.cfi_def_cfa_offset 16
	pushq	%r15
	.cfi_def_cfa_offset 24
	pushq	%r14
	.cfi_def_cfa_offset 32
	pushq	%r13
	.cfi_def_cfa_offset 40
	pushq	%r12
	.cfi_def_cfa_offset 48
	pushq	%rbx
	.cfi_def_cfa_offset 56
	.cfi_offset %rbx, -56
	.cfi_offset %r12, -48
	.cfi_offset %r13, -40
	.cfi_offset %r14, -32
	.cfi_offset %r15, -24
	.cfi_offset %rbp, -16
	movzbl	104(%rdi), %r9d
	movb	$1, %al
	movb	$5, %r8b
	cmpb	$1, %r9b
	je	.LBB67_39
	movb	$4, %r8b
	cmpb	$2, %r9b
	je	.LBB67_39
	testl	%ecx, %ecx
	je	.LBB67_10
	movq	(%rdi), %r8
	movq	8(%r8), %r9
	movq	(%r9), %r10
	movq	$1, 16(%rdi)
	movq	%r10, 24(%rdi)
	leaq	32(%rdi), %r9
	.p2align	4
.LBB67_4:
	movl	12(%rdi), %r11d
	leaq	1(%r10), %rbx
	movq	8(%r8), %r14
	xchgq	%rbx, (%r14,%r11,8)
	movq	$1, 32(%rdi)
	movq	%r10, 40(%rdi)
	movq	8(%r8), %r10
	movq	(%r10), %r10
	testb	$1, 64(%rdi)
	jne	.LBB67_40
	cmpb	$0, 48(%rdi)
	jne	.LBB67_41
	cmpb	$1, 32(%rdi)
	jne	.LBB67_41
	cmpq	%r10, 40(%rdi)
	movq	$1, 16(%rdi)
	movq	%r10, 24(%rdi)
	je	.LBB67_11
	decl	%ecx
	jne	.LBB67_4
	movq	8(%r8), %rcx
	movl	12(%rdi), %edx
	xorl	%r8d, %r8d
	xorl	%esi, %esi
	xchgq	%rsi, (%rcx,%rdx,8)
	jmp	.LBB67_38
.LBB67_10:
	xorl	%r8d, %r8d
	jmp	.LBB67_39
.LBB67_11:
	movq	$1, 48(%rdi)
	movq	%r10, 56(%rdi)
	movl	72(%r8), %ecx
	movzbl	84(%r8), %r10d
	movl	88(%r8), %eax
	movq	8(%r8), %r11
	leal	4(%rax), %ebx
	movq	8(%r11,%rbx,8), %r11
	testq	%rdx, %rdx
	je	.LBB67_14
	shrq	$2, %r11
	movl	%edx, %ebx
	andl	$3, %ebx
	cmpq	$4, %rdx
	jae	.LBB67_16
	xorl	%r14d, %r14d
	jmp	.LBB67_19
.LBB67_14:
	cmpl	$1, %ecx
	setne	%al
	orb	%al, %r10b
	testb	$1, %r10b
	je	.LBB67_31
.LBB67_36:
	xorl	%eax, %eax
	jmp	.LBB67_37
.LBB67_16:
	movq	%rdx, %r15
	andq	$-4, %r15
	leaq	124(%rsi), %r12
	xorl	%r14d, %r14d
	.p2align	4
.LBB67_17:
	xorps	%xmm0, %xmm0
	movups	%xmm0, -116(%r12)
	movl	%r11d, -100(%r12)
	movl	$0, -96(%r12)
	movups	%xmm0, -84(%r12)
	movl	%r11d, -68(%r12)
	movl	$0, -64(%r12)
	movups	%xmm0, -52(%r12)
	movl	%r11d, -36(%r12)
	movl	$0, -32(%r12)
	movups	%xmm0, -20(%r12)
	movl	%r11d, -4(%r12)
	movl	$0, (%r12)
	addq	$4, %r14
	subq	$-128, %r12
	cmpq	%r14, %r15
	jne	.LBB67_17
	testq	%rbx, %rbx
	je	.LBB67_21
.LBB67_19:
	shlq	$5, %r14
	addq	%rsi, %r14
	addq	$28, %r14
	shll	$5, %ebx
	xorl	%r15d, %r15d
	.p2align	4
.LBB67_20:
	xorps	%xmm0, %xmm0
	movups	%xmm0, -20(%r14,%r15)
	movl	%r11d, -4(%r14,%r15)
	movl	$0, (%r14,%r15)
	addq	$32, %r15
	cmpq	%r15, %rbx
	jne	.LBB67_20
.LBB67_21:
	decl	%ecx
	testb	$1, %r10b
	movl	$65, %r10d
	cmovel	%ecx, %r10d
	testl	%r10d, %r10d
	je	.LBB67_31
	addl	$-4, %eax
	leaq	24(%rsi), %r14
	xorl	%r11d, %r11d
.LBB67_23:
	movq	$-1, %rbx
	.p2align	4
.LBB67_24:
	incq	%rbx
	cmpq	%rbx, %rdx
	je	.LBB67_36
	cmpl	$0, (%r14)
	leaq	32(%r14), %r14
	je	.LBB67_24
	movq	%rsi, %rbx
	movq	%rdx, %r14
	jmp	.LBB67_28
	.p2align	4
.LBB67_27:
	addq	$32, %rbx
	decq	%r14
	je	.LBB67_30
.LBB67_28:
	movl	24(%rbx), %r15d
	testl	%r15d, %r15d
	je	.LBB67_27
	movq	(%rbx), %r12
	movq	8(%r8), %r13
	leal	(%rax,%r15,4), %r15d
	movq	(%r13,%r15,8), %r13
	movq	8(%r8), %rbp
	movq	8(%rbp,%r15,8), %rbp
	movq	8(%r8), %rcx
	movq	16(%rcx,%r15,8), %rcx
	cmpq	%r13, %r12
	cmovbq	%rbp, %rcx
	cmpq	(%rbx), %r13
	sete	8(%rbx)
	shrq	$2, %rcx
	movl	%ecx, 24(%rbx)
	jmp	.LBB67_27
.LBB67_30:
	incl	%r11d
	cmpl	%r10d, %r11d
	leaq	24(%rsi), %r14
	jne	.LBB67_23
.LBB67_31:
	addq	$24, %rsi
	incq	%rdx
	.p2align	4
.LBB67_32:
	decq	%rdx
	je	.LBB67_36
	cmpl	$0, (%rsi)
	leaq	32(%rsi), %rsi
	je	.LBB67_32
	movb	$1, %al
.LBB67_37:
	movq	8(%r8), %rcx
	movl	12(%rdi), %edx
	xorl	%r8d, %r8d
	xorl	%esi, %esi
	xchgq	%rsi, (%rcx,%rdx,8)
.LBB67_38:
	xorps	%xmm0, %xmm0
	movups	%xmm0, 16(%r9)
	movups	%xmm0, (%r9)
.LBB67_39:
	movl	%r8d, %edx
	popq	%rbx
	.cfi_def_cfa_offset 48
	popq	%r12
	.cfi_def_cfa_offset 40
	popq	%r13
	.cfi_def_cfa_offset 32
	popq	%r14
	.cfi_def_cfa_offset 24
	popq	%r15
	.cfi_def_cfa_offset 16
	popq	%rbp
	.cfi_def_cfa_offset 8
	retq
.LBB67_40:
	.cfi_def_cfa_offset 56
	movq	$1, 16(%rdi)
	movq	%r10, 24(%rdi)
	movb	$0, 64(%rdi)
	ud2
.LBB67_41:
	movq	$1, 16(%rdi)
	movq	%r10, 24(%rdi)
	ud2
.Lfunc_end67:
	.size	"nm_set_c::many::ask", .Lfunc_end67-"nm_set_c::many::ask"
	.cfi_endproc
	.section	".text.nm_set::map_putting::Member+Values::put","ax",@progbits
	.p2align	4
	.type	"nm_set::map_putting::Member+Values::put",@function
"nm_set::map_putting::Member+Values::put":
	.cfi_startproc
	pushq	%rbp
	.cfi_def_cfa_offset 16
	pushq	%r15
	.cfi_def_cfa_offset 24
	pushq	%r14
	.cfi_def_cfa_offset 32
	pushq	%r13
	.cfi_def_cfa_offset 40
	pushq	%r12
	.cfi_def_cfa_offset 48
	pushq	%rbx
	.cfi_def_cfa_offset 56
	subq	$88, %rsp
	.cfi_def_cfa_offset 144
	.cfi_offset %rbx, -56
	.cfi_offset %r12, -48
	.cfi_offset %r13, -40
	.cfi_offset %r14, -32
	.cfi_offset %r15, -24
	.cfi_offset %rbp, -16
	movzbl	104(%rsi), %eax
	cmpb	$1, %al
	jne	.LBB68_4
	movw	$1281, (%rdi)
.LBB68_2:
	xorps	%xmm0, %xmm0
	movups	%xmm0, 8(%rdi)
	jmp	.LBB68_3
.LBB68_4:
	movq	%r9, %r14
	movq	%rcx, %r15
	movq	%rdx, %r12
	movq	%rsi, %r13
	movq	144(%rsp), %rcx
	cmpb	$2, %al
	je	.LBB68_5
.LBB68_6:
	movq	%rdi, 80(%rsp)
	xorps	%xmm0, %xmm0
	movaps	%xmm0, 48(%rsp)
	movq	$0, 64(%rsp)
	movaps	%xmm0, 16(%rsp)
	movq	$0, 32(%rsp)
	movl	4(%rcx), %ebx
	movzbl	%r8b, %ebp
	testl	%ebx, %ebx
	je	.LBB68_7
	.p2align	4
.LBB68_9:
	movl	(%rcx), %eax
	movl	%eax, (%rsp)
	leaq	16(%rsp), %rdi
	movq	%r13, %rsi
	movq	%r12, %rdx
	movq	%r15, %rcx
	movl	%ebp, %r8d
	movq	%r14, %r9
	callq	"nm_set::map_putting::Member+Values::try_put"
	movzbl	16(%rsp), %eax
	movzbl	17(%rsp), %ecx
	cmpb	$1, %al
	jne	.LBB68_11
	testb	%cl, %cl
	jne	.LBB68_11
	decl	%ebx
	movq	144(%rsp), %rcx
	jne	.LBB68_9
.LBB68_7:
	movl	(%rcx), %eax
	movl	%eax, (%rsp)
	leaq	48(%rsp), %rdi
	movq	%r13, %rsi
	movq	%r12, %rdx
	movq	%r15, %rcx
	movl	%ebp, %r8d
	movq	%r14, %r9
	callq	"nm_set::map_putting::Member+Values::try_put"
	movzbl	48(%rsp), %eax
	movzbl	49(%rsp), %ecx
	movzbl	56(%rsp), %esi
	movq	64(%rsp), %rdx
	jmp	.LBB68_12
.LBB68_11:
	movq	32(%rsp), %rdx
	movzbl	24(%rsp), %esi
.LBB68_12:
	movq	80(%rsp), %rdi
	movb	%al, (%rdi)
	movb	%cl, 1(%rdi)
	movzbl	%sil, %eax
	movq	%rax, 8(%rdi)
	movq	%rdx, 16(%rdi)
.LBB68_3:
	addq	$88, %rsp
	.cfi_def_cfa_offset 56
	popq	%rbx
	.cfi_def_cfa_offset 48
	popq	%r12
	.cfi_def_cfa_offset 40
	popq	%r13
	.cfi_def_cfa_offset 32
	popq	%r14
	.cfi_def_cfa_offset 24
	popq	%r15
	.cfi_def_cfa_offset 16
	popq	%rbp
	.cfi_def_cfa_offset 8
	retq
.LBB68_5:
	.cfi_def_cfa_offset 144
	leaq	8(%r13), %rsi
	movq	%rdi, %rbp
	movq	(%r13), %rdi
	addq	$8, %rdi
	movl	(%rcx), %edx
	movl	4(%rcx), %eax
	incq	%rax
	imulq	%rax, %rdx
	movl	$4294967295, %eax
	cmpq	%rax, %rdx
	cmovaeq	%rax, %rdx
	movl	%r8d, %ebx
	callq	"nm_tree::tree::Tree::finish_pending"
	movq	144(%rsp), %rcx
	movq	%rbp, %rdi
	movl	%ebx, %r8d
	testb	%al, %al
	je	.LBB68_6
	movw	$1025, (%rdi)
	jmp	.LBB68_2
.Lfunc_end68:
	.size	"nm_set::map_putting::Member+Values::put", .Lfunc_end68-"nm_set::map_putting::Member+Values::put"
	.cfi_endproc
	.section	".text.nm_set::map_putting::Member+Values::try_put","ax",@progbits
	.p2align	4
	.type	"nm_set::map_putting::Member+Values::try_put",@function
"nm_set::map_putting::Member+Values::try_put":
	.cfi_startproc
	pushq	%rbp
	.cfi_def_cfa_offset 16
	pushq	%r15
	.cfi_def_cfa_offset 24
	pushq	%r14
	.cfi_def_cfa_offset 32
	pushq	%r13
	.cfi_def_cfa_offset 40
	pushq	%r12
	.cfi_def_cfa_offset 48
	pushq	%rbx
	.cfi_def_cfa_offset 56
	subq	$376, %rsp
	.cfi_def_cfa_offset 432
	.cfi_offset %rbx, -56
	.cfi_offset %r12, -48
	.cfi_offset %r13, -40
	.cfi_offset %r14, -32
	.cfi_offset %r15, -24
	.cfi_offset %rbp, -16
	movzbl	104(%rsi), %eax
	cmpb	$1, %al
	jne	.LBB69_3
	movw	$1281, (%rdi)
	xorps	%xmm0, %xmm0
	movups	%xmm0, 8(%rdi)
	jmp	.LBB69_2
.LBB69_3:
	movb	$1, %bl
	cmpb	$2, %al
	jne	.LBB69_6
	movb	$4, %cl
	jmp	.LBB69_5
.LBB69_6:
	cmpl	$0, 432(%rsp)
	je	.LBB69_7
	movq	%r9, %r12
	movl	%r8d, %r13d
	movq	%rcx, %rbp
	movq	%rsi, %r15
	movq	%rdx, 104(%rsp)
	movq	%rdi, 168(%rsp)
	movq	(%rsi), %rax
	movq	%rax, 88(%rsp)
	movq	96(%rsi), %rax
	movq	136(%rsi), %rcx
	movq	%rcx, 72(%rsp)
	leaq	(%rax,%rax,2), %r14
	shlq	$5, %r14
	addq	72(%rsi), %r14
	movl	48(%r14), %eax
	cmpl	$3, %eax
	ja	.LBB69_17
	movl	60(%r14), %ecx
	addl	24(%r14), %eax
	shll	$5, %eax
	addl	56(%r14), %ecx
	subl	%ecx, %eax
	cmpl	$127, %eax
	jbe	.LBB69_10
.LBB69_17:
	leaq	8(%r15), %rax
	movq	%rax, 288(%rsp)
	movq	88(%rsp), %rax
	leaq	8(%rax), %rbx
	movq	(%rbx), %rax
	movq	(%rax), %rax
	movq	$1, 16(%r15)
	movq	%rax, 24(%r15)
	leaq	32(%r15), %rcx
	movq	%rcx, 224(%rsp)
	movl	432(%rsp), %ecx
	movq	168(%rsp), %rdi
	movq	104(%rsp), %r11
	.p2align	4
.LBB69_19:
	movl	12(%r15), %edx
	leaq	1(%rax), %rsi
	movq	(%rbx), %r8
	xchgq	%rsi, (%r8,%rdx,8)
	movq	$1, 32(%r15)
	movq	%rax, 40(%r15)
	movq	(%rbx), %rdx
	movq	(%rdx), %rdx
	movq	$1, 16(%r15)
	movq	%rdx, 24(%r15)
	cmpq	%rax, %rdx
	je	.LBB69_20
	movq	%rdx, %rax
	decl	%ecx
	jne	.LBB69_19
	movq	(%rbx), %rax
	movl	12(%r15), %ecx
	xorl	%edx, %edx
	xchgq	%rdx, (%rax,%rcx,8)
	xorl	%ecx, %ecx
	xorps	%xmm0, %xmm0
	movq	224(%rsp), %rax
	movups	%xmm0, 16(%rax)
	movups	%xmm0, (%rax)
	xorl	%eax, %eax
	xorl	%edx, %edx
	jmp	.LBB69_140
	.p2align	4
.LBB69_15:
	movq	40(%r14), %rax
	movq	$0, (%rdx)
	movq	%rdx, (%rax)
.LBB69_16:
	movq	%rdx, 40(%r14)
	movl	48(%r14), %eax
	movl	60(%r14), %ecx
	incl	%eax
	movl	%eax, 48(%r14)
	addl	24(%r14), %eax
	shll	$5, %eax
	addl	56(%r14), %ecx
	subl	%ecx, %eax
	cmpl	$128, %eax
	jae	.LBB69_17
.LBB69_10:
	movl	$776, %edi
	movl	$8, %esi
	callq	nm_host_alloc@PLT
	testb	$1, %al
	je	.LBB69_11
	cmpl	$0, 48(%r14)
	jne	.LBB69_15
	movq	$0, (%rdx)
	movq	%rdx, 32(%r14)
	jmp	.LBB69_16
.LBB69_7:
	xorl	%ecx, %ecx
.LBB69_5:
	xorl	%eax, %eax
	xorl	%edx, %edx
	jmp	.LBB69_141
.LBB69_20:
	movq	$1, 48(%r15)
	movq	%rax, 56(%r15)
	movq	72(%rsp), %rax
	leaq	528(%rax), %rcx
	movq	%rcx, 232(%rsp)
	addq	$1048, %rax
	movq	%rax, 280(%rsp)
	xorl	%eax, %eax
	movq	%r15, 96(%rsp)
	movq	%r12, 120(%rsp)
	movq	%rbp, 216(%rsp)
	movl	%r13d, 140(%rsp)
	movq	%rbx, 176(%rsp)
	.p2align	4
.LBB69_21:
	movl	%eax, 300(%rsp)
	testl	%eax, %eax
	je	.LBB69_29
	movl	48(%r14), %eax
	cmpl	$3, %eax
	ja	.LBB69_29
	movl	60(%r14), %ecx
	addl	24(%r14), %eax
	shll	$5, %eax
	addl	56(%r14), %ecx
	subl	%ecx, %eax
	cmpl	$127, %eax
	jbe	.LBB69_24
	.p2align	4
.LBB69_29:
	xorps	%xmm0, %xmm0
	movaps	%xmm0, 192(%rsp)
	movq	$0, 208(%rsp)
	cmpb	$2, %r13b
	je	.LBB69_131
	movzbl	%r13b, %eax
	cmpl	$1, %eax
	jne	.LBB69_31
	movq	%rbp, (%rsp)
	movq	$0, 16(%rsp)
	movl	$1, 8(%rsp)
	jmp	.LBB69_132
	.p2align	4
.LBB69_27:
	movq	40(%r14), %rax
	movq	$0, (%rdx)
	movq	%rdx, (%rax)
.LBB69_28:
	movq	104(%rsp), %r11
	movq	%rdx, 40(%r14)
	movl	48(%r14), %eax
	movl	60(%r14), %ecx
	incl	%eax
	movl	%eax, 48(%r14)
	addl	24(%r14), %eax
	shll	$5, %eax
	addl	56(%r14), %ecx
	subl	%ecx, %eax
	cmpl	$128, %eax
	jae	.LBB69_29
.LBB69_24:
	movl	$776, %edi
	movl	$8, %esi
	callq	nm_host_alloc@PLT
	testb	$1, %al
	je	.LBB69_34
	cmpl	$0, 48(%r14)
	jne	.LBB69_27
	movq	$0, (%rdx)
	movq	%rdx, 32(%r14)
	jmp	.LBB69_28
.LBB69_131:
	movq	%r12, 16(%rsp)
	movq	%rbp, (%rsp)
	movl	$2, 8(%rsp)
.LBB69_132:
	leaq	192(%rsp), %rdi
	movq	%rbx, %rsi
	movq	288(%rsp), %rdx
	movq	72(%rsp), %rcx
	movq	%r14, %r8
	movq	%r11, %r9
	callq	"nm_puts::putting::try_replace"
.LBB69_133:
	movzbl	192(%rsp), %eax
	cmpl	$2, %eax
	jne	.LBB69_134
	movl	300(%rsp), %eax
	incl	%eax
	cmpl	432(%rsp), %eax
	movq	104(%rsp), %r11
	jne	.LBB69_21
	jmp	.LBB69_138
.LBB69_31:
	movaps	%xmm0, 304(%rsp)
	movq	$0, 320(%rsp)
	movaps	%xmm0, 240(%rsp)
	movaps	%xmm0, 256(%rsp)
	movq	$0, 272(%rsp)
	movw	$0, 84(%rsp)
	movb	$0, 86(%rsp)
	movl	$0, 184(%rsp)
	movl	$0, 187(%rsp)
	movaps	%xmm0, 336(%rsp)
	movaps	%xmm0, 352(%rsp)
	movq	$0, 368(%rsp)
	movw	$0, 32(%rsp)
	movb	$0, 34(%rsp)
	movl	$0, 48(%rsp)
	movl	$0, 51(%rsp)
	movq	88(%rsp), %rbp
	testb	$1, 84(%rbp)
	je	.LBB69_61
	movw	$0, 44(%rsp)
	movb	$0, 46(%rsp)
	movl	$0, 144(%rsp)
	movl	$0, 147(%rsp)
	movw	$0, 40(%rsp)
	movb	$0, 42(%rsp)
	movl	$0, 64(%rsp)
	movl	$0, 67(%rsp)
	movw	$0, 36(%rsp)
	movb	$0, 38(%rsp)
	movl	$0, 56(%rsp)
	movl	$0, 59(%rsp)
	movq	72(%rsp), %rbx
	movq	1040(%rbx), %rdx
	testq	%rdx, %rdx
	je	.LBB69_33
	shlq	$3, %rdx
	movq	232(%rsp), %rdi
	xorl	%esi, %esi
	callq	memset@PLT
	movq	104(%rsp), %r11
	movq	$0, 1040(%rbx)
	movzbl	84(%rbp), %eax
	jmp	.LBB69_37
.LBB69_61:
	movw	$0, 44(%rsp)
	movb	$0, 46(%rsp)
	movl	$0, 144(%rsp)
	movl	$0, 147(%rsp)
	movw	$0, 40(%rsp)
	movb	$0, 42(%rsp)
	movl	$0, 64(%rsp)
	movl	$0, 67(%rsp)
	movw	$0, 36(%rsp)
	movb	$0, 38(%rsp)
	movl	$0, 56(%rsp)
	movl	$0, 59(%rsp)
	movq	72(%rsp), %rbx
	movq	1040(%rbx), %rdx
	testq	%rdx, %rdx
	je	.LBB69_62
	shlq	$3, %rdx
	movq	232(%rsp), %rdi
	xorl	%esi, %esi
	callq	memset@PLT
	movq	104(%rsp), %r11
	movq	$0, 1040(%rbx)
	movzbl	84(%rbp), %eax
	jmp	.LBB69_64
.LBB69_33:
	movb	$1, %al
.LBB69_37:
	movl	72(%rbp), %edx
	movl	88(%rbp), %edi
	movq	8(%rbp), %rcx
	leal	4(%rdi), %esi
	movq	8(%rcx,%rsi,8), %rbp
	movl	$65, %ecx
	testb	$1, %al
	movq	176(%rsp), %rbx
	jne	.LBB69_40
	decl	%edx
	movl	%edx, %ecx
	je	.LBB69_39
.LBB69_40:
	addl	$-4, %edi
	movl	$4, %eax
	movl	$8, %r8d
	xorl	%esi, %esi
	.p2align	4
.LBB69_41:
	movl	%r8d, %r13d
	testb	$3, %bpl
	jne	.LBB69_42
	movq	(%rbx), %rdx
	leal	(%rdi,%rbp), %r8d
	movq	(%rdx,%r8,8), %rdx
	movq	(%rbx), %r9
	movq	8(%r9,%r8,8), %r10
	movq	(%rbx), %r9
	movq	16(%r9,%r8,8), %r9
	cmpq	%rdx, %r11
	cmovbq	%r10, %r9
	testq	%r9, %r9
	je	.LBB69_142
	movq	%rdx, %r8
	xorq	%r11, %r8
	shrq	%r8
	movq	%rdx, %r10
	negq	%r10
	andq	%rdx, %r10
	cmpq	%r10, %r8
	jae	.LBB69_142
	xorl	%r8d, %r8d
	cmpq	%rdx, %r11
	setae	%r8b
	orl	%ebp, %r8d
	incl	%esi
	movq	%r9, %rbp
	movl	%r13d, %eax
	cmpl	%esi, %ecx
	jne	.LBB69_41
	movq	%r9, %rbp
	jmp	.LBB69_47
.LBB69_62:
	xorl	%eax, %eax
.LBB69_64:
	movl	72(%rbp), %edx
	movl	88(%rbp), %edi
	movq	8(%rbp), %rcx
	leal	4(%rdi), %esi
	movq	8(%rcx,%rsi,8), %rbp
	movl	$65, %ecx
	testb	$1, %al
	movq	176(%rsp), %rbx
	jne	.LBB69_67
	decl	%edx
	movl	%edx, %ecx
	je	.LBB69_66
.LBB69_67:
	addl	$-4, %edi
	movl	$4, %eax
	movl	$8, %r8d
	xorl	%esi, %esi
	.p2align	4
.LBB69_68:
	movl	%r8d, %r13d
	testb	$3, %bpl
	jne	.LBB69_69
	movq	(%rbx), %rdx
	leal	(%rdi,%rbp), %r8d
	movq	(%rdx,%r8,8), %rdx
	movq	(%rbx), %r9
	movq	8(%r9,%r8,8), %r10
	movq	(%rbx), %r9
	movq	16(%r9,%r8,8), %r9
	cmpq	%rdx, %r11
	cmovbq	%r10, %r9
	testq	%r9, %r9
	je	.LBB69_142
	xorl	%r8d, %r8d
	cmpq	%rdx, %r11
	setae	%r8b
	orl	%ebp, %r8d
	incl	%esi
	movq	%r9, %rbp
	movl	%r13d, %eax
	cmpl	%esi, %ecx
	jne	.LBB69_68
	movq	%r14, 128(%rsp)
	movq	%r9, %rbp
	jmp	.LBB69_73
.LBB69_142:
	movl	%r13d, %ecx
	shrl	$2, %ecx
	movl	%eax, %esi
	shrl	$2, %esi
	andb	$1, %al
	andb	$1, %r13b
	movb	$0, 34(%rsp)
	movw	$0, 32(%rsp)
	movl	$0, 48(%rsp)
	movl	$0, 51(%rsp)
	movb	$1, %dil
	movl	%ecx, %r10d
	jmp	.LBB69_87
.LBB69_69:
	movq	%r14, 128(%rsp)
	movb	$0, 38(%rsp)
	movw	$0, 36(%rsp)
	movl	$0, 56(%rsp)
	movl	$0, 59(%rsp)
	jmp	.LBB69_74
.LBB69_42:
	movb	$0, 38(%rsp)
	movw	$0, 36(%rsp)
	movl	$0, 56(%rsp)
	movl	$0, 59(%rsp)
	jmp	.LBB69_48
.LBB69_39:
	xorl	%ecx, %ecx
	movl	$8, %r8d
	movl	$4, %r13d
.LBB69_47:
	movb	$0, 38(%rsp)
	movw	$0, 36(%rsp)
	movl	$0, 56(%rsp)
	movl	$0, 59(%rsp)
	movl	%r13d, %eax
	movl	%r8d, %r13d
	movl	%ecx, %esi
.LBB69_48:
	movzbl	38(%rsp), %ecx
	movb	%cl, 42(%rsp)
	movzwl	36(%rsp), %ecx
	movw	%cx, 40(%rsp)
	movl	56(%rsp), %ecx
	movl	59(%rsp), %edx
	movl	%edx, 67(%rsp)
	movl	%ecx, 64(%rsp)
	movq	88(%rsp), %rdx
	movl	72(%rdx), %ecx
	decl	%ecx
	testb	$1, 84(%rdx)
	movl	$65, %edx
	cmovel	%ecx, %edx
	subl	%esi, %edx
	jbe	.LBB69_60
	movq	88(%rsp), %rcx
	movl	88(%rcx), %ecx
	movl	%eax, %esi
	shrl	$2, %esi
	andb	$1, %al
	movl	%r13d, %r15d
	shrl	$2, %r15d
	andb	$1, %r13b
	addl	$-4, %ecx
	movq	%rcx, 328(%rsp)
	movl	%r13d, %r12d
	movl	%r15d, %ecx
	jmp	.LBB69_50
.LBB69_55:
	movl	%r15d, %ecx
	movl	112(%rsp), %edx
.LBB69_59:
	movb	$0, 42(%rsp)
	movw	$0, 40(%rsp)
	movl	$0, 64(%rsp)
	movl	$0, 67(%rsp)
	movl	%r13d, %eax
	movl	%edx, %esi
	movl	128(%rsp), %edx
	decl	%edx
	je	.LBB69_60
.LBB69_50:
	movl	%edx, 128(%rsp)
	movl	%r15d, 112(%rsp)
	movl	%r12d, %r13d
	movq	%rbp, %r8
	movq	%rbp, %r15
	shrq	$2, %r15
	movq	(%rbx), %rdx
	movq	328(%rsp), %rdi
	leal	(%rdi,%r15,4), %edi
	movq	(%rdx,%rdi,8), %rdx
	movq	(%rbx), %r9
	movq	8(%r9,%rdi,8), %r9
	movq	(%rbx), %r10
	movq	16(%r10,%rdi,8), %rbp
	cmpq	%rdx, %r11
	setae	%r12b
	cmovbq	%r9, %rbp
	testq	%rbp, %rbp
	je	.LBB69_52
	movq	%rdx, %rdi
	xorq	%r11, %rdi
	shrq	%rdi
	movq	%rdx, %r9
	negq	%r9
	andq	%rdx, %r9
	cmpq	%r9, %rdi
	jae	.LBB69_52
	movq	72(%rsp), %rdx
	movq	1040(%rdx), %rdx
	testb	$2, %r8b
	jne	.LBB69_57
	testq	%rdx, %rdx
	je	.LBB69_55
	shlq	$3, %rdx
	movq	232(%rsp), %rdi
	xorl	%esi, %esi
	callq	memset@PLT
	movq	104(%rsp), %r11
	movq	72(%rsp), %rax
	movq	$0, 1040(%rax)
	jmp	.LBB69_55
.LBB69_57:
	leaq	1(%rdx), %rdi
	cmpq	$63, %rdi
	ja	.LBB69_60
	movzbl	%r13b, %r8d
	shlq	$32, %r8
	movl	112(%rsp), %r9d
	orq	%r8, %r9
	movq	72(%rsp), %r8
	movq	%r9, 528(%r8,%rdx,8)
	movq	%rdi, 1040(%r8)
	movl	%eax, %r13d
	movl	%esi, %edx
	jmp	.LBB69_59
.LBB69_60:
	movzbl	46(%rsp), %eax
	movb	%al, 34(%rsp)
	movzwl	44(%rsp), %eax
	movw	%ax, 32(%rsp)
	movl	144(%rsp), %eax
	movl	147(%rsp), %ecx
	movl	%eax, 48(%rsp)
	movl	%ecx, 51(%rsp)
	xorl	%esi, %esi
	xorl	%eax, %eax
	xorl	%ecx, %ecx
	xorl	%r10d, %r10d
	xorl	%r13d, %r13d
	xorl	%ebp, %ebp
	xorl	%edx, %edx
	xorl	%edi, %edi
	movq	96(%rsp), %r15
	movq	120(%rsp), %r12
	jmp	.LBB69_87
.LBB69_66:
	movq	%r14, 128(%rsp)
	xorl	%ecx, %ecx
	movl	$8, %r8d
	movl	$4, %r13d
.LBB69_73:
	movb	$0, 38(%rsp)
	movw	$0, 36(%rsp)
	movl	$0, 56(%rsp)
	movl	$0, 59(%rsp)
	movl	%r13d, %eax
	movl	%r8d, %r13d
	movl	%ecx, %esi
.LBB69_74:
	movzbl	38(%rsp), %ecx
	movb	%cl, 42(%rsp)
	movzwl	36(%rsp), %ecx
	movw	%cx, 40(%rsp)
	movl	56(%rsp), %ecx
	movl	59(%rsp), %edx
	movl	%edx, 67(%rsp)
	movl	%ecx, 64(%rsp)
	movq	88(%rsp), %rdx
	movl	72(%rdx), %ecx
	decl	%ecx
	testb	$1, 84(%rdx)
	movl	$65, %r15d
	cmovel	%ecx, %r15d
	subl	%esi, %r15d
	jbe	.LBB69_85
	movq	88(%rsp), %rcx
	movl	88(%rcx), %ecx
	movl	%eax, %esi
	shrl	$2, %esi
	andb	$1, %al
	movl	%r13d, %r12d
	shrl	$2, %r12d
	andb	$1, %r13b
	addl	$-4, %ecx
	movq	%rcx, 112(%rsp)
	movl	%r13d, %ebx
	movl	%r12d, %ecx
	jmp	.LBB69_76
.LBB69_81:
	movl	%r12d, %ecx
.LBB69_84:
	movb	$0, 42(%rsp)
	movw	$0, 40(%rsp)
	movl	$0, 64(%rsp)
	movl	$0, 67(%rsp)
	movl	%r13d, %eax
	movl	%r14d, %esi
	decl	%r15d
	je	.LBB69_85
.LBB69_76:
	movl	%r12d, %r14d
	movl	%ebx, %r13d
	movq	%rbp, %r8
	movq	%rbp, %r12
	shrq	$2, %r12
	movq	176(%rsp), %r10
	movq	(%r10), %rdx
	movq	112(%rsp), %rdi
	leal	(%rdi,%r12,4), %edi
	movq	(%rdx,%rdi,8), %rdx
	movq	(%r10), %r9
	movq	8(%r9,%rdi,8), %r9
	movq	(%r10), %r10
	movq	16(%r10,%rdi,8), %rbp
	cmpq	%rdx, %r11
	setae	%bl
	cmovbq	%r9, %rbp
	testq	%rbp, %rbp
	je	.LBB69_77
	movq	72(%rsp), %rdx
	movq	1040(%rdx), %rdx
	testb	$2, %r8b
	jne	.LBB69_82
	testq	%rdx, %rdx
	je	.LBB69_81
	shlq	$3, %rdx
	movq	232(%rsp), %rdi
	xorl	%esi, %esi
	callq	memset@PLT
	movq	104(%rsp), %r11
	movq	72(%rsp), %rax
	movq	$0, 1040(%rax)
	jmp	.LBB69_81
.LBB69_82:
	leaq	1(%rdx), %rdi
	cmpq	$63, %rdi
	ja	.LBB69_85
	movzbl	%r13b, %r8d
	shlq	$32, %r8
	movl	%r14d, %r9d
	orq	%r8, %r9
	movq	72(%rsp), %r8
	movq	%r9, 528(%r8,%rdx,8)
	movq	%rdi, 1040(%r8)
	movl	%eax, %r13d
	movl	%esi, %r14d
	jmp	.LBB69_84
.LBB69_85:
	movzbl	46(%rsp), %eax
	movb	%al, 34(%rsp)
	movzwl	44(%rsp), %eax
	movw	%ax, 32(%rsp)
	movl	144(%rsp), %eax
	movl	147(%rsp), %ecx
	movl	%eax, 48(%rsp)
	movl	%ecx, 51(%rsp)
	xorl	%esi, %esi
	xorl	%eax, %eax
	xorl	%ecx, %ecx
	xorl	%r10d, %r10d
	xorl	%r13d, %r13d
	xorl	%ebp, %ebp
	xorl	%edx, %edx
	xorl	%edi, %edi
	movq	96(%rsp), %r15
	movq	120(%rsp), %r12
	movq	176(%rsp), %rbx
	jmp	.LBB69_86
.LBB69_52:
	movzbl	42(%rsp), %edi
	movb	%dil, 34(%rsp)
	movzwl	40(%rsp), %edi
	movw	%di, 32(%rsp)
	movl	64(%rsp), %edi
	movl	67(%rsp), %r9d
	movl	%edi, 48(%rsp)
	movl	%r9d, 51(%rsp)
	movb	$1, %dil
	movq	%r8, %rbp
	movq	96(%rsp), %r15
	movq	120(%rsp), %r12
	movl	112(%rsp), %r10d
	jmp	.LBB69_87
.LBB69_77:
	movzbl	42(%rsp), %edi
	movb	%dil, 34(%rsp)
	movzwl	40(%rsp), %edi
	movw	%di, 32(%rsp)
	movl	64(%rsp), %edi
	movl	67(%rsp), %r9d
	movl	%edi, 48(%rsp)
	movl	%r9d, 51(%rsp)
	movb	$1, %dil
	movq	%r8, %rbp
	movq	96(%rsp), %r15
	movq	120(%rsp), %r12
	movq	176(%rsp), %rbx
	movl	%r14d, %r10d
.LBB69_86:
	movq	128(%rsp), %r14
.LBB69_87:
	movzbl	34(%rsp), %r8d
	movb	%r8b, 86(%rsp)
	movzwl	32(%rsp), %r8d
	movw	%r8w, 84(%rsp)
	movl	48(%rsp), %r8d
	movl	51(%rsp), %r9d
	movl	%r8d, 184(%rsp)
	movl	%r9d, 187(%rsp)
	testb	%dil, %dil
	je	.LBB69_143
	movl	%esi, 240(%rsp)
	movb	%al, 244(%rsp)
	movzbl	86(%rsp), %eax
	leaq	245(%rsp), %rsi
	movb	%al, 2(%rsi)
	movzwl	84(%rsp), %eax
	movw	%ax, (%rsi)
	movl	%ecx, 248(%rsp)
	movl	%r10d, 252(%rsp)
	movb	%r13b, 256(%rsp)
	movl	184(%rsp), %eax
	movl	187(%rsp), %ecx
	movl	%ecx, 15(%rsi)
	movl	%eax, 12(%rsi)
	movq	%rbp, 264(%rsp)
	movq	%rdx, 272(%rsp)
	cmpq	%r11, %rdx
	jne	.LBB69_90
	leaq	240(%rsp), %rax
	movq	%rax, 8(%rsp)
	movq	216(%rsp), %rbp
	movq	%rbp, (%rsp)
	leaq	304(%rsp), %rdi
	movq	%rbx, %rsi
	movq	288(%rsp), %rdx
	movq	72(%rsp), %rcx
	movq	%r14, %r8
	movq	%r11, %r9
	callq	"nm_puts::putting::replace_at"
	movzbl	304(%rsp), %eax
	movq	%rax, 192(%rsp)
	movzbl	312(%rsp), %eax
	movq	%rax, 200(%rsp)
	movq	320(%rsp), %rax
	movq	%rax, 208(%rsp)
	movl	140(%rsp), %r13d
	jmp	.LBB69_133
.LBB69_143:
	movq	$2, 192(%rsp)
	movzbl	312(%rsp), %eax
	movq	%rax, 200(%rsp)
	movq	320(%rsp), %rax
	movq	%rax, 208(%rsp)
	movl	140(%rsp), %r13d
	movq	216(%rsp), %rbp
	jmp	.LBB69_133
.LBB69_90:
	leaq	336(%rsp), %rdi
	movq	%rbx, %rsi
	movq	72(%rsp), %rdx
	callq	"nm_walks::growing::claim_new_nodes"
	cmpb	$1, 336(%rsp)
	movl	140(%rsp), %r13d
	movq	216(%rsp), %rbp
	jne	.LBB69_144
	movl	344(%rsp), %r12d
	movl	360(%rsp), %r9d
	leaq	240(%rsp), %rcx
	movq	%rbx, %rdi
	movq	104(%rsp), %rsi
	movq	%rbp, %rdx
	movl	%r12d, %r8d
	movq	%r9, 112(%rsp)
	callq	"nm_walks::growing::grow"
	testb	%al, %al
	je	.LBB69_92
	movq	88(%rsp), %r8
	movl	72(%r8), %eax
	leal	-1(%r12), %ecx
	movl	%ecx, %esi
	shrl	$6, %esi
	leal	(%rsi,%rax,4), %esi
	addl	88(%r8), %esi
	movl	$1, %edi
	shlq	%cl, %rdi
	movq	8(%r8), %rcx
	.p2align	4
.LBB69_94:
	movq	(%rcx,%rsi,8), %rax
	movq	%rax, %r8
	orq	%rdi, %r8
	lock		cmpxchgq	%r8, (%rcx,%rsi,8)
	jne	.LBB69_94
	movq	88(%rsp), %r8
	movl	72(%r8), %eax
	movq	112(%rsp), %r10
	leal	-1(%r10), %ecx
	movl	%ecx, %esi
	shrl	$6, %esi
	leal	(%rsi,%rax,4), %esi
	addl	88(%r8), %esi
	movl	$1, %edi
	shlq	%cl, %rdi
	movq	8(%r8), %rcx
	movq	72(%rsp), %r9
	.p2align	4
.LBB69_96:
	movq	(%rcx,%rsi,8), %rax
	movq	%rax, %r8
	orq	%rdi, %r8
	lock		cmpxchgq	%r8, (%rcx,%rsi,8)
	jne	.LBB69_96
	movq	520(%r9), %rax
	cmpq	$128, %rax
	je	.LBB69_100
	movl	%r12d, 8(%r9,%rax,4)
	leaq	1(%rax), %rcx
	movq	%rcx, 520(%r9)
	cmpq	$128, %rcx
	je	.LBB69_100
	movl	%r10d, 12(%r9,%rax,4)
	addq	$2, %rax
	movq	%rax, 520(%r9)
.LBB69_100:
	movl	$2, %r12d
	testb	$3, %dl
	je	.LBB69_129
	movq	264(%rsp), %rax
	shrq	$2, %rdx
	shrq	$2, %rax
	cmpl	%eax, %edx
	jne	.LBB69_129
	movq	1040(%r9), %r10
	movq	3096(%r9), %rdx
	testq	%rdx, %rdx
	je	.LBB69_104
	shlq	$4, %rdx
	movq	280(%rsp), %rdi
	xorl	%esi, %esi
	movq	%r10, %r12
	callq	memset@PLT
	movq	%r12, %r10
	movl	$2, %r12d
	movq	72(%rsp), %rax
	movq	$0, 3096(%rax)
.LBB69_104:
	movq	88(%rsp), %r8
	movl	88(%r8), %ecx
	movzbl	256(%rsp), %eax
	xorl	%edx, %edx
	testb	%al, %al
	sete	%dl
	movl	252(%rsp), %esi
	movq	8(%r8), %rdi
	leal	(%rcx,%rsi,4), %esi
	addl	$-4, %esi
	subq	%rdx, %rsi
	movq	16(%rdi,%rsi,8), %rsi
	movl	252(%rsp), %edi
	movq	8(%r8), %r8
	leal	(%rcx,%rdi,4), %ecx
	addl	$-4, %ecx
	addq	%rdx, %rcx
	movq	8(%r8,%rcx,8), %rcx
	testb	$1, %sil
	jne	.LBB69_105
	testb	$1, %cl
	je	.LBB69_129
	movzbl	256(%rsp), %edx
	jmp	.LBB69_108
.LBB69_144:
	movq	$1, 192(%rsp)
	movzbl	312(%rsp), %eax
	movq	%rax, 200(%rsp)
	movq	320(%rsp), %rax
	movq	%rax, 208(%rsp)
	jmp	.LBB69_133
.LBB69_92:
	movq	64(%r14), %rax
	incq	%rax
	movq	$-1, %rcx
	cmovneq	%rax, %rcx
	movq	%rcx, 64(%r14)
	xorl	%r12d, %r12d
	jmp	.LBB69_129
.LBB69_105:
	testb	%al, %al
	sete	%dl
.LBB69_108:
	movl	252(%rsp), %ecx
	movq	88(%rsp), %rax
	movq	8(%rax), %rsi
	shll	$2, %ecx
	addl	88(%rax), %ecx
	cmpb	$1, %dl
	sbbl	$0, %ecx
	addl	$-2, %ecx
.LBB69_109:
	movq	(%rsi,%rcx,8), %rbp
	movq	%rbp, %rdi
	orq	$2, %rdi
	movq	%rbp, %rax
	lock		cmpxchgq	%rdi, (%rsi,%rcx,8)
	jne	.LBB69_109
	movl	252(%rsp), %ecx
	movzbl	%dl, %r8d
	movq	%rbx, %rdi
	movq	232(%rsp), %rsi
	movq	%r10, %rdx
	movq	280(%rsp), %r9
	callq	"nm_walks::cutting::freeze"
	movl	240(%rsp), %ecx
	movl	248(%rsp), %eax
	shll	$2, %ecx
	movq	88(%rsp), %rdx
	addl	88(%rdx), %ecx
	cmpb	$1, 244(%rsp)
	sbbl	$0, %ecx
	addl	$-2, %ecx
	shlq	$2, %rax
	andq	$-3, %rbp
	movq	8(%rdx), %rdx
	lock		cmpxchgq	%rbp, (%rdx,%rcx,8)
	jne	.LBB69_111
	movb	$1, 64(%r15)
	movq	(%rbx), %rax
	movq	(%rax), %rax
	testb	$1, 64(%r15)
	movq	216(%rsp), %rbp
	je	.LBB69_113
	movq	$1, 16(%r15)
	movq	%rax, 24(%r15)
	movb	$0, 64(%r15)
	movq	72(%rsp), %rcx
	movq	3096(%rcx), %rcx
	testq	%rcx, %rcx
	je	.LBB69_128
	movl	60(%r14), %esi
	movq	280(%rsp), %rdx
	jmp	.LBB69_121
.LBB69_122:
	movq	16(%r14), %rdi
.LBB69_127:
	addq	$16, %rdx
	decq	%rcx
	subl	%r8d, %esi
	addl	$32, %esi
	leaq	(%rsi,%rsi,2), %rsi
	movaps	144(%rsp), %xmm0
	movups	%xmm0, 8(%rdi,%rsi,8)
	movq	%rax, 24(%rdi,%rsi,8)
	movl	60(%r14), %esi
	incl	%esi
	movl	%esi, 60(%r14)
	testq	%rcx, %rcx
	je	.LBB69_128
.LBB69_121:
	movups	(%rdx), %xmm0
	movaps	%xmm0, 144(%rsp)
	addl	56(%r14), %esi
	movl	24(%r14), %r9d
	movl	%r9d, %r8d
	shll	$5, %r8d
	cmpl	%r8d, %esi
	jne	.LBB69_122
	movq	32(%r14), %rdi
	movq	(%rdi), %r8
	movq	%r8, 32(%r14)
	decl	48(%r14)
	testl	%r9d, %r9d
	je	.LBB69_124
	movq	16(%r14), %r8
	movq	$0, (%rdi)
	movq	%rdi, (%r8)
	jmp	.LBB69_126
.LBB69_124:
	movq	$0, (%rdi)
	movq	%rdi, 8(%r14)
.LBB69_126:
	movq	%rdi, 16(%r14)
	movl	24(%r14), %r8d
	incl	%r8d
	movl	%r8d, 24(%r14)
	shll	$5, %r8d
	jmp	.LBB69_127
.LBB69_111:
	movq	216(%rsp), %rbp
	jmp	.LBB69_129
.LBB69_128:
	movq	80(%r14), %rax
	incq	%rax
	movq	$-1, %rcx
	cmovneq	%rax, %rcx
	movq	%rcx, 80(%r14)
.LBB69_129:
	movq	%r12, 192(%rsp)
	xorps	%xmm0, %xmm0
	leaq	200(%rsp), %rax
	movups	%xmm0, (%rax)
	movq	120(%rsp), %r12
	jmp	.LBB69_133
.LBB69_34:
	movq	(%rbx), %rax
	movl	12(%r15), %ecx
	xorl	%edx, %edx
	xchgq	%rdx, (%rax,%rcx,8)
	xorl	%eax, %eax
	xorps	%xmm0, %xmm0
	movq	224(%rsp), %rcx
	movups	%xmm0, 16(%rcx)
	movups	%xmm0, (%rcx)
	movb	$2, %cl
	jmp	.LBB69_35
.LBB69_134:
	cmpl	$1, %eax
	jne	.LBB69_135
	movq	(%rbx), %rax
	movl	12(%r15), %ecx
	xorl	%edx, %edx
	xchgq	%rdx, (%rax,%rcx,8)
	xorl	%eax, %eax
	xorps	%xmm0, %xmm0
	movq	224(%rsp), %rcx
	movups	%xmm0, 16(%rcx)
	movups	%xmm0, (%rcx)
	movb	$1, %bl
	movb	$1, %cl
	jmp	.LBB69_12
.LBB69_11:
	movb	$2, %cl
	xorl	%eax, %eax
.LBB69_12:
	xorl	%edx, %edx
	movq	168(%rsp), %rdi
	jmp	.LBB69_141
.LBB69_135:
	movzbl	200(%rsp), %eax
	movq	208(%rsp), %rdx
	movq	168(%rsp), %rdi
	movq	(%rbx), %rcx
	movl	12(%r15), %esi
	xorl	%ebx, %ebx
	xorl	%r8d, %r8d
	xchgq	%r8, (%rcx,%rsi,8)
	xorps	%xmm0, %xmm0
	movq	224(%rsp), %rcx
	movups	%xmm0, 16(%rcx)
	movups	%xmm0, (%rcx)
	xorl	%ecx, %ecx
	jmp	.LBB69_141
.LBB69_138:
	movq	(%rbx), %rax
	movl	12(%r15), %ecx
	xorl	%edx, %edx
	xchgq	%rdx, (%rax,%rcx,8)
	xorl	%ecx, %ecx
	xorps	%xmm0, %xmm0
	movq	224(%rsp), %rax
	movups	%xmm0, 16(%rax)
	movups	%xmm0, (%rax)
	xorl	%eax, %eax
.LBB69_35:
	xorl	%edx, %edx
	movq	168(%rsp), %rdi
.LBB69_140:
	movb	$1, %bl
.LBB69_141:
	movb	%bl, (%rdi)
	movb	%cl, 1(%rdi)
	movq	%rax, 8(%rdi)
	movq	%rdx, 16(%rdi)
.LBB69_2:
	addq	$376, %rsp
	.cfi_def_cfa_offset 56
	popq	%rbx
	.cfi_def_cfa_offset 48
	popq	%r12
	.cfi_def_cfa_offset 40
	popq	%r13
	.cfi_def_cfa_offset 32
	popq	%r14
	.cfi_def_cfa_offset 24
	popq	%r15
	.cfi_def_cfa_offset 16
	popq	%rbp
	.cfi_def_cfa_offset 8
	retq
.LBB69_113:
	.cfi_def_cfa_offset 432
	cmpb	$0, 48(%r15)
	jne	.LBB69_115
	movq	96(%rsp), %rcx
	cmpb	$1, 32(%rcx)
	jne	.LBB69_115
	movq	96(%rsp), %rcx
	cmpq	%rax, 40(%rcx)
	movq	$1, 16(%rcx)
	movq	%rax, 24(%rcx)
	jne	.LBB69_118
	movq	96(%rsp), %rcx
	movq	$1, 48(%rcx)
	movq	%rax, 56(%rcx)
.LBB69_118:
	ud2
.LBB69_115:
	movq	96(%rsp), %rcx
	movq	$1, 16(%rcx)
	movq	%rax, 24(%rcx)
	ud2
.Lfunc_end69:
	.size	"nm_set::map_putting::Member+Values::try_put", .Lfunc_end69-"nm_set::map_putting::Member+Values::try_put"
	.cfi_endproc
	.section	.rodata.cst16,"aM",@progbits,16
	.p2align	4, 0x0
.LCPI70_0:
	.long	2
	.long	0
	.long	0
	.long	0
.LCPI70_1:
	.byte	0
	.byte	0
	.byte	0
	.byte	0
	.byte	0
	.byte	0
	.byte	0
	.byte	0
	.byte	1
	.byte	0
	.byte	0
	.byte	0
	.byte	0
	.byte	0
	.byte	0
	.byte	0
	.section	.rodata.cst4,"aM",@progbits,4
	.p2align	2, 0x0
.LCPI70_2:
	.long	2
	.section	".text.nm_puts::putting::replace_at","ax",@progbits
	.p2align	4
	.type	"nm_puts::putting::replace_at",@function
"nm_puts::putting::replace_at":
	.cfi_startproc
	pushq	%rbp
	.cfi_def_cfa_offset 16
	pushq	%r15
	.cfi_def_cfa_offset 24
	pushq	%r14
	.cfi_def_cfa_offset 32
	pushq	%r13
	.cfi_def_cfa_offset 40
	pushq	%r12
	.cfi_def_cfa_offset 48
	pushq	%rbx
	.cfi_def_cfa_offset 56
	subq	$40, %rsp
	.cfi_def_cfa_offset 96
	.cfi_offset %rbx, -56
	.cfi_offset %r12, -48
	.cfi_offset %r13, -40
	.cfi_offset %r14, -32
	.cfi_offset %r15, -24
	.cfi_offset %rbp, -16
	movq	%r9, %rbp
	movq	%r8, %r14
	movq	%rcx, %r13
	movq	%rdx, %r15
	movq	%rsi, %r12
	movq	%rdi, %rbx
	cmpb	$0, (%rcx)
	je	.LBB70_1
	movl	64(%r12), %eax
	movq	520(%r13), %rdx
	movl	%eax, %ecx
	testq	%rdx, %rdx
	movq	%r15, 8(%rsp)
	je	.LBB70_6
	leaq	-1(%rdx), %rcx
	movq	%rcx, 520(%r13)
	movl	4(%r13,%rdx,4), %esi
	movl	$0, 4(%r13,%rdx,4)
	testl	%esi, %esi
	jne	.LBB70_7
	movl	64(%r12), %ecx
.LBB70_6:
	movl	4(%r13), %edx
	cmpl	$7, %edx
	movl	$6, %esi
	movl	$6, %edi
	cmovael	%edx, %edi
	cmpl	%ecx, %edx
	cmoval	%esi, %edi
	shll	$2, %ecx
	leal	-1(%rdi), %edx
	movl	%edx, %esi
	shrl	$6, %esi
	addl	80(%r12), %ecx
	addl	%esi, %ecx
	andl	$63, %edx
	movq	(%r12), %rsi
	movq	(%rsi,%rcx,8), %rcx
	subl	%edx, %edi
	rep		bsfq	%rcx, %rdx
	addl	%edi, %edx
	xorl	%esi, %esi
	testq	%rcx, %rcx
	cmovnel	%edx, %esi
	je	.LBB70_15
.LBB70_7:
	cmpl	$6, %esi
	jb	.LBB70_15
	cmpl	%esi, %eax
	jb	.LBB70_15
	movl	64(%r12), %eax
	leal	-1(%rsi), %ecx
	movl	%ecx, %edi
	shrl	$6, %edi
	leal	(%rdi,%rax,4), %r8d
	movl	$1, %edx
	shlq	%cl, %rdx
	addl	80(%r12), %r8d
	movq	$-2, %r9
	rolq	%cl, %r9
	movq	(%r12), %r10
	.p2align	4
.LBB70_10:
	movq	(%r10,%r8,8), %rcx
	movq	%rcx, %r11
	andq	%r9, %r11
	movq	%rcx, %rax
	lock		cmpxchgq	%r11, (%r10,%r8,8)
	jne	.LBB70_10
	testq	%rdx, %rcx
	je	.LBB70_15
	leal	-1(,%rsi,4), %ecx
	movl	80(%r12), %eax
	addl	%ecx, %eax
	movq	(%r12), %r8
	movq	(%r8,%rax,8), %r8
	movabsq	$4611686018427387904, %r9
	movl	80(%r12), %eax
	cmpq	%r9, %r8
	je	.LBB70_13
	incq	%r8
	addl	%ecx, %eax
	movq	(%r12), %rcx
	xchgq	%r8, (%rcx,%rax,8)
	jmp	.LBB70_17
.LBB70_1:
	movq	%r12, %rdi
	callq	"nm_pool::nodes::claim"
	testq	%rdx, %rdx
	je	.LBB70_34
	movl	%eax, %esi
	movq	%r15, 8(%rsp)
	jmp	.LBB70_17
.LBB70_13:
	movl	64(%r12), %ecx
	leal	(%rdi,%rcx,4), %ecx
	addl	%eax, %ecx
	movq	(%r12), %rsi
	.p2align	4
.LBB70_14:
	movq	(%rsi,%rcx,8), %rax
	movq	%rax, %rdi
	orq	%rdx, %rdi
	lock		cmpxchgq	%rdi, (%rsi,%rcx,8)
	jne	.LBB70_14
.LBB70_15:
	movq	%r12, %rdi
	movq	%r13, %rsi
	callq	"nm_pool::claims::claim_in_turn"
	testq	%rdx, %rdx
	je	.LBB70_34
	movl	%eax, %esi
.LBB70_17:
	movq	104(%rsp), %r15
	movq	24(%r15), %rax
	movq	%rax, %rcx
	shrq	$2, %rcx
	movq	(%r12), %rdx
	movl	80(%r12), %edi
	leal	(%rdi,%rcx,4), %edi
	decl	%edi
	movq	(%rdx,%rdi,8), %rdi
	movl	80(%r12), %edx
	leal	-4(%rdx,%rsi,4), %edx
	movq	(%r12), %r8
	xchgq	%rbp, (%r8,%rdx,8)
	movl	80(%r12), %edx
	leal	(%rdx,%rsi,4), %edx
	addl	$-3, %edx
	movq	(%r12), %r8
	xorl	%r9d, %r9d
	xorl	%r10d, %r10d
	xchgq	%r10, (%r8,%rdx,8)
	movl	80(%r12), %edx
	leal	(%rdx,%rsi,4), %edx
	addl	$-2, %edx
	movq	(%r12), %r8
	xchgq	%r9, (%r8,%rdx,8)
	cmpb	$1, 84(%r12)
	jne	.LBB70_19
	movq	96(%rsp), %rdx
	movl	64(%r12), %r8d
	leal	(,%r8,4), %r9d
	movl	%r8d, %r10d
	shrl	$6, %r10d
	andl	$63, %r8d
	addl	80(%r12), %r9d
	addl	%r10d, %r9d
	cmpl	$1, %r8d
	sbbl	$-1, %r9d
	leal	-1(%rsi), %r8d
	addq	%r9, %r8
	movq	(%r12), %r9
	xchgq	%rdx, (%r9,%r8,8)
.LBB70_19:
	movl	12(%r15), %edx
	shll	$2, %edx
	addl	80(%r12), %edx
	cmpb	$1, 16(%r15)
	sbbl	$0, %edx
	addl	$-2, %edx
	movabsq	$17179869180, %r8
	andq	%r8, %rax
	movl	%esi, %r8d
	shlq	$2, %r8
	movq	(%r12), %r9
	lock		cmpxchgq	%r8, (%r9,%rdx,8)
	jne	.LBB70_35
	movq	8(%rsp), %r8
	movb	$1, 56(%r8)
	movl	64(%r12), %eax
	leal	(,%rax,4), %edx
	movl	%eax, %esi
	shrl	$6, %esi
	andl	$63, %eax
	addl	80(%r12), %edx
	addl	%esi, %edx
	cmpl	$1, %eax
	sbbl	$-1, %edx
	movl	%ecx, %eax
	decl	%eax
	addq	%rdx, %rax
	movq	(%r12), %rdx
	movq	(%rdx,%rax,8), %rax
	movq	(%r12), %rdx
	movq	(%rdx), %rdx
	testb	$1, 56(%r8)
	je	.LBB70_21
	movq	$1, 8(%r8)
	movq	%rdx, 16(%r8)
	movb	$0, 56(%r8)
	movl	60(%r14), %esi
	addl	56(%r14), %esi
	movl	24(%r14), %r10d
	movl	%r10d, %r9d
	shll	$5, %r9d
	cmpl	%r9d, %esi
	jne	.LBB70_28
	movq	32(%r14), %r8
	movq	(%r8), %r9
	movq	%r9, 32(%r14)
	decl	48(%r14)
	testl	%r10d, %r10d
	je	.LBB70_30
	movq	16(%r14), %r9
	movq	$0, (%r8)
	movq	%r8, (%r9)
	jmp	.LBB70_32
.LBB70_35:
	movq	%rax, %rdx
	movl	64(%r12), %eax
	leal	-1(%rsi), %ecx
	movl	%ecx, %edi
	shrl	$6, %edi
	leal	(%rdi,%rax,4), %edi
	addl	80(%r12), %edi
	movl	$1, %r8d
	shlq	%cl, %r8
	movq	(%r12), %rcx
	.p2align	4
.LBB70_36:
	movq	(%rcx,%rdi,8), %rax
	movq	%rax, %r9
	orq	%r8, %r9
	lock		cmpxchgq	%r9, (%rcx,%rdi,8)
	jne	.LBB70_36
	movq	520(%r13), %rax
	cmpq	$128, %rax
	je	.LBB70_39
	movl	%esi, 8(%r13,%rax,4)
	incq	%rax
	movq	%rax, 520(%r13)
.LBB70_39:
	xorl	%eax, %eax
	movss	.LCPI70_2(%rip), %xmm0
	testb	$3, %dl
	je	.LBB70_69
	movq	24(%r15), %rcx
	shrq	$2, %rdx
	shrq	$2, %rcx
	cmpl	%ecx, %edx
	jne	.LBB70_69
	movq	1040(%r13), %r9
	leaq	1048(%r13), %rbp
	movq	3096(%r13), %rdx
	testq	%rdx, %rdx
	je	.LBB70_43
	shlq	$4, %rdx
	movq	%rbp, %rdi
	xorl	%esi, %esi
	movq	%rbx, %r15
	movq	%r9, %rbx
	callq	memset@PLT
	movq	%rbx, %r9
	movq	%r15, %rbx
	movq	104(%rsp), %r15
	movss	.LCPI70_2(%rip), %xmm0
	movq	$0, 3096(%r13)
.LBB70_43:
	movl	80(%r12), %ecx
	movzbl	16(%r15), %eax
	xorl	%edx, %edx
	testb	%al, %al
	sete	%dl
	movl	12(%r15), %esi
	movq	(%r12), %rdi
	leal	(%rcx,%rsi,4), %esi
	addl	$-4, %esi
	subq	%rdx, %rsi
	movq	16(%rdi,%rsi,8), %rsi
	movl	12(%r15), %edi
	movq	(%r12), %r8
	leal	(%rcx,%rdi,4), %ecx
	addl	$-4, %ecx
	addq	%rdx, %rcx
	movq	8(%r8,%rcx,8), %rcx
	testb	$1, %sil
	jne	.LBB70_44
	testb	$1, %cl
	jne	.LBB70_47
	xorl	%eax, %eax
	jmp	.LBB70_69
.LBB70_28:
	movq	16(%r14), %r8
	jmp	.LBB70_33
.LBB70_34:
	movq	$1, (%rbx)
	xorps	%xmm0, %xmm0
	movups	%xmm0, 8(%rbx)
	jmp	.LBB70_70
.LBB70_44:
	movq	%rbx, (%rsp)
	testb	%al, %al
	sete	%dl
	jmp	.LBB70_48
.LBB70_30:
	movq	$0, (%r8)
	movq	%r8, 8(%r14)
.LBB70_32:
	movq	%r8, 16(%r14)
	movl	24(%r14), %r9d
	incl	%r9d
	movl	%r9d, 24(%r14)
	shll	$5, %r9d
.LBB70_33:
	subl	%r9d, %esi
	addl	$32, %esi
	leaq	(%rsi,%rsi,2), %rsi
	movl	%ecx, 8(%r8,%rsi,8)
	movl	$0, 12(%r8,%rsi,8)
	movq	%rdi, 16(%r8,%rsi,8)
	movq	%rdx, 24(%r8,%rsi,8)
	incl	60(%r14)
	movaps	.LCPI70_1(%rip), %xmm0
	jmp	.LBB70_69
.LBB70_47:
	movq	%rbx, (%rsp)
	movzbl	16(%r15), %edx
.LBB70_48:
	leaq	528(%r13), %rsi
	movl	12(%r15), %ecx
	movq	(%r12), %rdi
	shll	$2, %ecx
	addl	80(%r12), %ecx
	cmpb	$1, %dl
	sbbl	$0, %ecx
	addl	$-2, %ecx
	.p2align	4
.LBB70_49:
	movq	(%rdi,%rcx,8), %rbx
	movq	%rbx, %r8
	orq	$2, %r8
	movq	%rbx, %rax
	lock		cmpxchgq	%r8, (%rdi,%rcx,8)
	jne	.LBB70_49
	movl	12(%r15), %ecx
	movzbl	%dl, %r8d
	movq	%r12, %rdi
	movq	%r9, %rdx
	movq	%rbp, %r9
	callq	"nm_walks::cutting::freeze"
	movl	(%r15), %ecx
	movl	8(%r15), %eax
	shll	$2, %ecx
	addl	80(%r12), %ecx
	cmpb	$1, 4(%r15)
	sbbl	$0, %ecx
	addl	$-2, %ecx
	shlq	$2, %rax
	andq	$-3, %rbx
	movq	(%r12), %rdx
	lock		cmpxchgq	%rbx, (%rdx,%rcx,8)
	jne	.LBB70_51
	movq	8(%rsp), %rdx
	movb	$1, 56(%rdx)
	movq	(%r12), %rax
	movq	(%rax), %rax
	testb	$1, 56(%rdx)
	je	.LBB70_53
	movq	$1, 8(%rdx)
	movq	%rax, 16(%rdx)
	movb	$0, 56(%rdx)
	movq	3096(%r13), %rcx
	testq	%rcx, %rcx
	movq	(%rsp), %rbx
	je	.LBB70_67
	movl	60(%r14), %edx
	jmp	.LBB70_60
	.p2align	4
.LBB70_61:
	movq	16(%r14), %rsi
.LBB70_66:
	addq	$16, %rbp
	decq	%rcx
	subl	%edi, %edx
	addl	$32, %edx
	leaq	(%rdx,%rdx,2), %rdx
	movaps	16(%rsp), %xmm0
	movups	%xmm0, 8(%rsi,%rdx,8)
	movq	%rax, 24(%rsi,%rdx,8)
	movl	60(%r14), %edx
	incl	%edx
	movl	%edx, 60(%r14)
	testq	%rcx, %rcx
	je	.LBB70_67
.LBB70_60:
	movups	(%rbp), %xmm0
	movaps	%xmm0, 16(%rsp)
	addl	56(%r14), %edx
	movl	24(%r14), %r8d
	movl	%r8d, %edi
	shll	$5, %edi
	cmpl	%edi, %edx
	jne	.LBB70_61
	movq	32(%r14), %rsi
	movq	(%rsi), %rdi
	movq	%rdi, 32(%r14)
	decl	48(%r14)
	testl	%r8d, %r8d
	je	.LBB70_63
	movq	16(%r14), %rdi
	movq	$0, (%rsi)
	movq	%rsi, (%rdi)
	jmp	.LBB70_65
.LBB70_63:
	movq	$0, (%rsi)
	movq	%rsi, 8(%r14)
.LBB70_65:
	movq	%rsi, 16(%r14)
	movl	24(%r14), %edi
	incl	%edi
	movl	%edi, 24(%r14)
	shll	$5, %edi
	jmp	.LBB70_66
.LBB70_51:
	xorl	%eax, %eax
	movq	(%rsp), %rbx
	jmp	.LBB70_68
.LBB70_67:
	movq	80(%r14), %rax
	incq	%rax
	movq	$-1, %rcx
	cmovneq	%rax, %rcx
	movq	%rcx, 80(%r14)
	xorl	%eax, %eax
.LBB70_68:
	movss	.LCPI70_2(%rip), %xmm0
.LBB70_69:
	movups	%xmm0, (%rbx)
	movq	%rax, 16(%rbx)
.LBB70_70:
	addq	$40, %rsp
	.cfi_def_cfa_offset 56
	popq	%rbx
	.cfi_def_cfa_offset 48
	popq	%r12
	.cfi_def_cfa_offset 40
	popq	%r13
	.cfi_def_cfa_offset 32
	popq	%r14
	.cfi_def_cfa_offset 24
	popq	%r15
	.cfi_def_cfa_offset 16
	popq	%rbp
	.cfi_def_cfa_offset 8
	retq
.LBB70_21:
	.cfi_def_cfa_offset 96
	movq	%r8, %rax
	cmpb	$0, 40(%r8)
	jne	.LBB70_23
	cmpb	$1, 24(%rax)
	jne	.LBB70_23
	cmpq	%rdx, 32(%rax)
	movq	$1, 8(%rax)
	movq	%rdx, 16(%rax)
	jne	.LBB70_26
	movq	$1, 40(%rax)
	movq	%rdx, 48(%rax)
.LBB70_26:
	ud2
.LBB70_23:
	movq	$1, 8(%rax)
	movq	%rdx, 16(%rax)
	ud2
.LBB70_53:
	movq	%rdx, %rcx
	cmpb	$0, 40(%rdx)
	jne	.LBB70_55
	cmpb	$1, 24(%rcx)
	jne	.LBB70_55
	cmpq	%rax, 32(%rcx)
	movq	$1, 8(%rcx)
	movq	%rax, 16(%rcx)
	jne	.LBB70_26
	movq	$1, 40(%rcx)
	movq	%rax, 48(%rcx)
	ud2
.LBB70_55:
	movq	$1, 8(%rcx)
	movq	%rax, 16(%rcx)
	ud2
.Lfunc_end70:
	.size	"nm_puts::putting::replace_at", .Lfunc_end70-"nm_puts::putting::replace_at"
	.cfi_endproc
	.section	.rodata.cst16,"aM",@progbits,16
	.p2align	4, 0x0
.LCPI71_0:
	.byte	0
	.byte	8
	.zero	1
	.zero	1
	.zero	1
	.zero	1
	.zero	1
	.zero	1
	.zero	1
	.zero	1
	.zero	1
	.zero	1
	.zero	1
	.zero	1
	.zero	1
	.zero	1
.LCPI71_1:
	.byte	0
	.byte	3
	.zero	1
	.zero	1
	.zero	1
	.zero	1
	.zero	1
	.zero	1
	.zero	1
	.zero	1
	.zero	1
	.zero	1
	.zero	1
	.zero	1
	.zero	1
	.zero	1
.LCPI71_2:
	.byte	0
	.byte	3
	.byte	0
	.byte	0
	.byte	0
	.byte	0
	.byte	0
	.byte	0
	.byte	0
	.byte	0
	.byte	0
	.byte	0
	.byte	0
	.byte	0
	.byte	0
	.byte	0
	.section	".text.nm_puts::putting::try_replace","ax",@progbits
	.p2align	4
	.type	"nm_puts::putting::try_replace",@function
"nm_puts::putting::try_replace":
	.cfi_startproc
	pushq	%rbp
	.cfi_def_cfa_offset 16
	pushq	%r15
	.cfi_def_cfa_offset 24
	pushq	%r14
	.cfi_def_cfa_offset 32
	pushq	%r13
	.cfi_def_cfa_offset 40
	pushq	%r12
	.cfi_def_cfa_offset 48
	pushq	%rbx
	.cfi_def_cfa_offset 56
	subq	$216, %rsp
	.cfi_def_cfa_offset 272
	.cfi_offset %rbx, -56
	.cfi_offset %r12, -48
	.cfi_offset %r13, -40
	.cfi_offset %r14, -32
	.cfi_offset %r15, -24
	.cfi_offset %rbp, -16
	movq	%r8, %r14
	movq	%rcx, %rbp
	movq	%rdx, 176(%rsp)
	movq	%rsi, %r12
	movq	%rdi, %rbx
	pxor	%xmm0, %xmm0
	movdqa	%xmm0, 144(%rsp)
	movdqa	%xmm0, 128(%rsp)
	movq	$0, 160(%rsp)
	movw	$0, 32(%rsp)
	movb	$0, 34(%rsp)
	movl	$0, 40(%rsp)
	movl	$0, 43(%rsp)
	leaq	528(%rcx), %r15
	movw	$0, 36(%rsp)
	movb	$0, 38(%rsp)
	movl	$0, 96(%rsp)
	movl	$0, 99(%rsp)
	movw	$0, 28(%rsp)
	movb	$0, 30(%rsp)
	movl	$0, 64(%rsp)
	movl	$0, 67(%rsp)
	movq	1040(%rcx), %rdx
	testq	%rdx, %rdx
	movq	%r9, 184(%rsp)
	je	.LBB71_2
	shlq	$3, %rdx
	movq	%r15, %rdi
	xorl	%esi, %esi
	callq	memset@PLT
	movq	184(%rsp), %r9
	movq	$0, 1040(%rbp)
.LBB71_2:
	movq	%r15, 200(%rsp)
	movl	64(%r12), %eax
	movl	80(%r12), %esi
	movq	(%r12), %rcx
	decl	%eax
	testb	$1, 76(%r12)
	leal	4(%rsi), %edx
	movq	8(%rcx,%rdx,8), %r8
	movl	$65, %ecx
	cmovel	%eax, %ecx
	testl	%ecx, %ecx
	movq	%r12, 56(%rsp)
	je	.LBB71_7
	addl	$-4, %esi
	movl	$4, %eax
	movl	$8, %r10d
	xorl	%edi, %edi
	movq	%r8, %r13
	.p2align	4
.LBB71_4:
	movl	%r10d, %r15d
	testb	$3, %r13b
	jne	.LBB71_9
	movq	(%r12), %rdx
	leal	(%rsi,%r13), %r8d
	movq	(%rdx,%r8,8), %rdx
	movq	(%r12), %r10
	movq	8(%r10,%r8,8), %r11
	movq	(%r12), %r10
	movq	16(%r10,%r8,8), %r8
	cmpq	%rdx, %r9
	cmovbq	%r11, %r8
	testq	%r8, %r8
	je	.LBB71_22
	xorl	%r10d, %r10d
	cmpq	%rdx, %r9
	setae	%r10b
	orl	%r13d, %r10d
	incl	%edi
	movq	%r8, %r13
	movl	%r15d, %eax
	cmpl	%edi, %ecx
	jne	.LBB71_4
	jmp	.LBB71_8
.LBB71_7:
	movl	$8, %r10d
	movl	$4, %r15d
.LBB71_8:
	movq	%rbp, 48(%rsp)
	movq	%rbx, 120(%rsp)
	movb	$0, 30(%rsp)
	movw	$0, 28(%rsp)
	movl	$0, 64(%rsp)
	movl	$0, 67(%rsp)
	movl	%r15d, %eax
	movl	%r10d, %r15d
	movq	%r8, %r13
	jmp	.LBB71_10
.LBB71_9:
	movq	%rbp, 48(%rsp)
	movq	%rbx, 120(%rsp)
	movb	$0, 30(%rsp)
	movw	$0, 28(%rsp)
	movl	$0, 64(%rsp)
	movl	$0, 67(%rsp)
	movl	%edi, %ecx
.LBB71_10:
	movq	%r14, 192(%rsp)
	movzbl	30(%rsp), %edx
	movb	%dl, 38(%rsp)
	movzwl	28(%rsp), %edx
	movw	%dx, 36(%rsp)
	movl	64(%rsp), %edx
	movl	67(%rsp), %esi
	movl	%esi, 99(%rsp)
	movl	%edx, 96(%rsp)
	movl	64(%r12), %edx
	decl	%edx
	testb	$1, 76(%r12)
	movl	$65, %ebx
	cmovel	%edx, %ebx
	subl	%ecx, %ebx
	jbe	.LBB71_21
	movq	56(%rsp), %rcx
	movl	80(%rcx), %ecx
	movl	%eax, %esi
	shrl	$2, %esi
	andb	$1, %al
	movl	%r15d, %r14d
	shrl	$2, %r14d
	andb	$1, %r15b
	addl	$-4, %ecx
	movq	%rcx, 208(%rsp)
	movl	%r15d, %ebp
	movl	%r14d, %ecx
	jmp	.LBB71_16
	.p2align	4
.LBB71_14:
	movl	%r14d, %ecx
.LBB71_15:
	movb	$0, 38(%rsp)
	movw	$0, 36(%rsp)
	movl	$0, 96(%rsp)
	movl	$0, 99(%rsp)
	movl	%r15d, %eax
	movl	%r12d, %esi
	decl	%ebx
	je	.LBB71_21
.LBB71_16:
	movl	%r14d, %r12d
	movl	%ebp, %r15d
	movq	%r13, %rdi
	movq	%r13, %r14
	shrq	$2, %r14
	movq	56(%rsp), %r13
	movq	(%r13), %rdx
	movq	208(%rsp), %r8
	leal	(%r8,%r14,4), %r8d
	movq	(%rdx,%r8,8), %rdx
	movq	(%r13), %r10
	movq	8(%r10,%r8,8), %r11
	movq	(%r13), %r10
	movq	16(%r10,%r8,8), %r13
	cmpq	%rdx, %r9
	setae	%bpl
	cmovbq	%r11, %r13
	testq	%r13, %r13
	je	.LBB71_23
	movq	48(%rsp), %rdx
	movq	1040(%rdx), %rdx
	testb	$2, %dil
	jne	.LBB71_18
	testq	%rdx, %rdx
	je	.LBB71_14
	shlq	$3, %rdx
	movq	200(%rsp), %rdi
	xorl	%esi, %esi
	callq	memset@PLT
	movq	184(%rsp), %r9
	movq	48(%rsp), %rax
	movq	$0, 1040(%rax)
	jmp	.LBB71_14
	.p2align	4
.LBB71_18:
	leaq	1(%rdx), %rdi
	cmpq	$63, %rdi
	ja	.LBB71_21
	movzbl	%r15b, %r8d
	shlq	$32, %r8
	movl	%r12d, %r10d
	orq	%r8, %r10
	movq	48(%rsp), %r8
	movq	%r10, 528(%r8,%rdx,8)
	movq	%rdi, 1040(%r8)
	movl	%eax, %r15d
	movl	%esi, %r12d
	jmp	.LBB71_15
.LBB71_21:
	movq	120(%rsp), %rax
	movq	$2, (%rax)
	pxor	%xmm0, %xmm0
	movdqu	%xmm0, 8(%rax)
	jmp	.LBB71_32
.LBB71_22:
	movl	%r15d, %ecx
	shrl	$2, %ecx
	movl	%eax, %esi
	shrl	$2, %esi
	andb	$1, %al
	andb	$1, %r15b
	movb	$0, 30(%rsp)
	movw	$0, 28(%rsp)
	movw	$0, 32(%rsp)
	movb	$0, 34(%rsp)
	movl	$0, 40(%rsp)
	movl	$0, 43(%rsp)
	movl	%ecx, %r12d
	jmp	.LBB71_24
.LBB71_23:
	movzbl	38(%rsp), %r8d
	movb	%r8b, 34(%rsp)
	movzwl	36(%rsp), %r8d
	movw	%r8w, 32(%rsp)
	movl	96(%rsp), %r8d
	movl	99(%rsp), %r10d
	movl	%r8d, 40(%rsp)
	movl	%r10d, 43(%rsp)
	movq	%rdi, %r13
	movq	120(%rsp), %rbx
	movq	192(%rsp), %r14
	movq	48(%rsp), %rbp
.LBB71_24:
	movl	%esi, 128(%rsp)
	movb	%al, 132(%rsp)
	movzwl	32(%rsp), %eax
	movw	%ax, 133(%rsp)
	movzbl	34(%rsp), %eax
	movb	%al, 135(%rsp)
	movl	%ecx, 136(%rsp)
	movl	%r12d, 140(%rsp)
	movb	%r15b, 144(%rsp)
	movl	40(%rsp), %eax
	movl	43(%rsp), %ecx
	movl	%eax, 145(%rsp)
	movl	%ecx, 148(%rsp)
	movq	%r13, 152(%rsp)
	movq	%rdx, 160(%rsp)
	cmpq	%r9, %rdx
	jne	.LBB71_28
	movzbl	280(%rsp), %ecx
	movq	272(%rsp), %rax
	pxor	%xmm0, %xmm0
	movdqa	%xmm0, 64(%rsp)
	movq	$0, 80(%rsp)
	cmpb	$2, %cl
	jne	.LBB71_29
	movdqa	%xmm0, 96(%rsp)
	movq	$0, 112(%rsp)
	shrq	$2, %r13
	movq	56(%rsp), %rsi
	movl	64(%rsi), %ecx
	leal	(,%rcx,4), %edx
	movl	%ecx, %edi
	shrl	$6, %edi
	andl	$63, %ecx
	addl	80(%rsi), %edx
	addl	%edi, %edx
	cmpl	$1, %ecx
	sbbl	$-1, %edx
	movq	288(%rsp), %rdi
	decl	%r13d
	addq	%rdx, %r13
	movq	(%rsi), %rcx
	movq	(%rcx,%r13,8), %rcx
	cmpq	%rdi, %rcx
	jne	.LBB71_30
	leaq	128(%rsp), %rcx
	movq	%rcx, 8(%rsp)
	movq	%rax, (%rsp)
	leaq	96(%rsp), %rdi
	movq	176(%rsp), %rdx
	movq	%rbp, %rcx
	movq	%r14, %r8
	callq	"nm_puts::putting::replace_at"
	movdqa	96(%rsp), %xmm0
	pshufb	.LCPI71_0(%rip), %xmm0
	movq	112(%rsp), %rcx
	jmp	.LBB71_31
.LBB71_28:
	movq	$0, (%rbx)
	movq	$2, 8(%rbx)
	movq	$0, 16(%rbx)
	jmp	.LBB71_32
.LBB71_29:
	leaq	128(%rsp), %rcx
	movq	%rcx, 8(%rsp)
	movq	%rax, (%rsp)
	leaq	64(%rsp), %rdi
	movq	56(%rsp), %rsi
	movq	176(%rsp), %rdx
	movq	%rbp, %rcx
	movq	%r14, %r8
	callq	"nm_puts::putting::replace_at"
	movq	80(%rsp), %rcx
	movdqa	64(%rsp), %xmm0
	pshufb	.LCPI71_0(%rip), %xmm0
	jmp	.LBB71_31
.LBB71_30:
	movd	.LCPI71_2(%rip), %xmm0
.LBB71_31:
	pmovzxbq	%xmm0, %xmm0
	movdqu	%xmm0, (%rbx)
	movq	%rcx, 16(%rbx)
.LBB71_32:
	addq	$216, %rsp
	.cfi_def_cfa_offset 56
	popq	%rbx
	.cfi_def_cfa_offset 48
	popq	%r12
	.cfi_def_cfa_offset 40
	popq	%r13
	.cfi_def_cfa_offset 32
	popq	%r14
	.cfi_def_cfa_offset 24
	popq	%r15
	.cfi_def_cfa_offset 16
	popq	%rbp
	.cfi_def_cfa_offset 8
	retq
.Lfunc_end71:
	.size	"nm_puts::putting::try_replace", .Lfunc_end71-"nm_puts::putting::try_replace"
	.cfi_endproc
	.section	".text.unlikely.nm_set::map_removing::Member+Values::remove_if_with_retries","ax",@progbits
	.p2align	4
	.type	"nm_set::map_removing::Member+Values::remove_if_with_retries",@function
"nm_set::map_removing::Member+Values::remove_if_with_retries":
	.cfi_startproc
	pushq	%rbp
	.cfi_def_cfa_offset 16
	pushq	%r15
	.cfi_def_cfa_offset 24
	pushq	%r14
	.cfi_def_cfa_offset 32
	pushq	%r13
	.cfi_def_cfa_offset 40
	pushq	%r12
	.cfi_def_cfa_offset 48
	pushq	%rbx
	.cfi_def_cfa_offset 56
	subq	$56, %rsp
	.cfi_def_cfa_offset 112
	.cfi_offset %rbx, -56
	.cfi_offset %r12, -48
	.cfi_offset %r13, -40
	.cfi_offset %r14, -32
	.cfi_offset %r15, -24
	.cfi_offset %rbp, -16
	movq	%r8, %r13
	movq	%rcx, %r14
	movq	%rdx, %r15
	movq	%rsi, %r12
	movq	%rdi, %rbx
	xorps	%xmm0, %xmm0
	movaps	%xmm0, 32(%rsp)
	movq	$0, 48(%rsp)
	movaps	%xmm0, (%rsp)
	movq	$0, 16(%rsp)
	movl	4(%r8), %ebp
	testl	%ebp, %ebp
	je	.LBB72_1
.LBB72_3:
	movl	(%r13), %r8d
	movq	%rsp, %rdi
	movq	%r12, %rsi
	movq	%r15, %rdx
	movq	%r14, %rcx
	callq	"nm_set::map_removing::Member+Values::remove_if_once"
	movzbl	(%rsp), %eax
	movzbl	1(%rsp), %ecx
	movl	%eax, %edx
	xorb	$1, %dl
	orb	%cl, %dl
	jne	.LBB72_4
	decl	%ebp
	jne	.LBB72_3
.LBB72_1:
	movl	(%r13), %r8d
	leaq	32(%rsp), %rdi
	movq	%r12, %rsi
	movq	%r15, %rdx
	movq	%r14, %rcx
	callq	"nm_set::map_removing::Member+Values::remove_if_once"
	movzbl	32(%rsp), %eax
	movb	%al, (%rbx)
	movzbl	33(%rsp), %eax
	movb	%al, 1(%rbx)
	movzbl	40(%rsp), %eax
	movq	%rax, 8(%rbx)
	movq	48(%rsp), %rax
	movq	%rax, 16(%rbx)
	jmp	.LBB72_5
.LBB72_4:
	movq	16(%rsp), %rdx
	movzbl	8(%rsp), %esi
	movb	%al, (%rbx)
	movb	%cl, 1(%rbx)
	movq	%rsi, 8(%rbx)
	movq	%rdx, 16(%rbx)
.LBB72_5:
	addq	$56, %rsp
	.cfi_def_cfa_offset 56
	popq	%rbx
	.cfi_def_cfa_offset 48
	popq	%r12
	.cfi_def_cfa_offset 40
	popq	%r13
	.cfi_def_cfa_offset 32
	popq	%r14
	.cfi_def_cfa_offset 24
	popq	%r15
	.cfi_def_cfa_offset 16
	popq	%rbp
	.cfi_def_cfa_offset 8
	retq
.Lfunc_end72:
	.size	"nm_set::map_removing::Member+Values::remove_if_with_retries", .Lfunc_end72-"nm_set::map_removing::Member+Values::remove_if_with_retries"
	.cfi_endproc
	.section	".text.unlikely.nm_set::map_removing::Member+Values::remove_if_once","ax",@progbits
	.p2align	4
	.type	"nm_set::map_removing::Member+Values::remove_if_once",@function
"nm_set::map_removing::Member+Values::remove_if_once":
	.cfi_startproc
	pushq	%rbp
	.cfi_def_cfa_offset 16
	pushq	%r15
	.cfi_def_cfa_offset 24
	pushq	%r14
	.cfi_def_cfa_offset 32
	pushq	%r13
	.cfi_def_cfa_offset 40
	pushq	%r12
	.cfi_def_cfa_offset 48
	pushq	%rbx
	.cfi_def_cfa_offset 56
	subq	$168, %rsp
	.cfi_def_cfa_offset 224
	.cfi_offset %rbx, -56
	.cfi_offset %r12, -48
	.cfi_offset %r13, -40
	.cfi_offset %r14, -32
	.cfi_offset %r15, -24
	.cfi_offset %rbp, -16
	movq	%rsi, %rbx
	movb	$1, %sil
	cmpb	$2, 104(%rbx)
	jne	.LBB73_3
	movb	$4, %al
	jmp	.LBB73_2
.LBB73_3:
	movl	%r8d, %ebp
	testl	%r8d, %r8d
	je	.LBB73_4
	movq	%rcx, 88(%rsp)
	movq	%rdx, 24(%rsp)
	movq	%rdi, 32(%rsp)
	movq	(%rbx), %r12
	movq	96(%rbx), %rax
	movq	136(%rbx), %rcx
	movq	%rcx, (%rsp)
	leaq	(%rax,%rax,2), %r14
	shlq	$5, %r14
	addq	72(%rbx), %r14
	movl	48(%r14), %eax
	cmpl	$3, %eax
	ja	.LBB73_15
	movl	60(%r14), %ecx
	addl	24(%r14), %eax
	shll	$5, %eax
	addl	56(%r14), %ecx
	subl	%ecx, %eax
	cmpl	$127, %eax
	jbe	.LBB73_7
.LBB73_15:
	leaq	8(%r12), %r11
	leaq	8(%rbx), %rax
	movq	%rax, 152(%rsp)
	leaq	8(%r14), %rax
	movq	%rax, 160(%rsp)
	movq	(%r11), %rax
	movq	(%rax), %rax
	movq	$1, 16(%rbx)
	movq	%rax, 24(%rbx)
	leaq	32(%rbx), %rcx
	movq	%rcx, 72(%rsp)
	movl	%ebp, %ecx
	movq	24(%rsp), %r10
	.p2align	4
.LBB73_17:
	movl	12(%rbx), %edx
	leaq	1(%rax), %rsi
	movq	(%r11), %rdi
	xchgq	%rsi, (%rdi,%rdx,8)
	movq	$1, 32(%rbx)
	movq	%rax, 40(%rbx)
	movq	(%r11), %rdx
	movq	(%rdx), %rdx
	movq	$1, 16(%rbx)
	movq	%rdx, 24(%rbx)
	cmpq	%rax, %rdx
	je	.LBB73_18
	movq	%rdx, %rax
	decl	%ecx
	jne	.LBB73_17
	movq	(%r11), %rax
	movl	12(%rbx), %ecx
	xorl	%edx, %edx
	xchgq	%rdx, (%rax,%rcx,8)
	xorl	%eax, %eax
.LBB73_90:
	xorps	%xmm0, %xmm0
	movq	72(%rsp), %rcx
	movups	%xmm0, 16(%rcx)
	movups	%xmm0, (%rcx)
.LBB73_9:
	xorl	%ecx, %ecx
	jmp	.LBB73_10
	.p2align	4
.LBB73_13:
	movq	40(%r14), %rax
	movq	$0, (%rdx)
	movq	%rdx, (%rax)
.LBB73_14:
	movq	%rdx, 40(%r14)
	movl	48(%r14), %eax
	movl	60(%r14), %ecx
	incl	%eax
	movl	%eax, 48(%r14)
	addl	24(%r14), %eax
	shll	$5, %eax
	addl	56(%r14), %ecx
	subl	%ecx, %eax
	cmpl	$128, %eax
	jae	.LBB73_15
.LBB73_7:
	movl	$776, %edi
	movl	$8, %esi
	callq	nm_host_alloc@PLT
	testb	$1, %al
	je	.LBB73_8
	cmpl	$0, 48(%r14)
	jne	.LBB73_13
	movq	$0, (%rdx)
	movq	%rdx, 32(%r14)
	jmp	.LBB73_14
.LBB73_4:
	xorl	%eax, %eax
.LBB73_2:
	xorl	%ecx, %ecx
	xorl	%edx, %edx
	jmp	.LBB73_110
.LBB73_18:
	movq	$1, 48(%rbx)
	movq	%rax, 56(%rbx)
	movq	(%rsp), %rdi
	leaq	528(%rdi), %rax
	movq	%rax, 120(%rsp)
	leaq	1048(%rdi), %rax
	movq	%rax, 64(%rsp)
	xorl	%r15d, %r15d
	movq	%r12, 40(%rsp)
	movq	%rbx, 8(%rsp)
	movq	%r14, 104(%rsp)
	movl	%ebp, 60(%rsp)
	movq	%r11, 16(%rsp)
	jmp	.LBB73_19
.LBB73_87:
	movq	80(%r11), %rax
	incq	%rax
	movq	$-1, %rcx
	cmovneq	%rax, %rcx
	movq	%rcx, 80(%r11)
	movq	(%rsp), %rdi
	movq	16(%rsp), %r11
	.p2align	4
.LBB73_88:
	movl	112(%rsp), %r15d
	incl	%r15d
	movl	60(%rsp), %ebp
	cmpl	%ebp, %r15d
	movq	8(%rsp), %rbx
	movq	104(%rsp), %r14
	movq	40(%rsp), %r12
	movq	24(%rsp), %r10
	je	.LBB73_89
.LBB73_19:
	testl	%r15d, %r15d
	je	.LBB73_27
	movl	48(%r14), %eax
	cmpl	$3, %eax
	ja	.LBB73_27
	movl	60(%r14), %ecx
	addl	24(%r14), %eax
	shll	$5, %eax
	addl	56(%r14), %ecx
	subl	%ecx, %eax
	cmpl	$127, %eax
	jbe	.LBB73_22
	.p2align	4
.LBB73_27:
	movq	1040(%rdi), %rdx
	testq	%rdx, %rdx
	je	.LBB73_29
	shlq	$3, %rdx
	movq	120(%rsp), %rdi
	xorl	%esi, %esi
	callq	memset@PLT
	movq	(%rsp), %rdi
	movq	24(%rsp), %r10
	movq	$0, 1040(%rdi)
.LBB73_29:
	movl	%r15d, 112(%rsp)
	movl	72(%r12), %edx
	movl	88(%r12), %esi
	movq	8(%r12), %rax
	decl	%edx
	testb	$1, 84(%r12)
	leal	4(%rsi), %ecx
	movq	8(%rax,%rcx,8), %r13
	movl	$65, %eax
	cmovnel	%eax, %edx
	testl	%edx, %edx
	je	.LBB73_30
	addl	$-4, %esi
	movl	$4, %ebx
	movl	$8, %r8d
	xorl	%ecx, %ecx
	movq	16(%rsp), %r11
	.p2align	4
.LBB73_32:
	movl	%r8d, %r15d
	testb	$3, %r13b
	jne	.LBB73_33
	movq	(%r11), %rdi
	leal	(%rsi,%r13), %r8d
	movq	(%rdi,%r8,8), %r14
	movq	(%r11), %rdi
	movq	8(%rdi,%r8,8), %r9
	movq	(%r11), %rdi
	movq	16(%rdi,%r8,8), %rdi
	cmpq	%r14, %r10
	cmovbq	%r9, %rdi
	testq	%rdi, %rdi
	je	.LBB73_49
	xorl	%r8d, %r8d
	cmpq	%r14, %r10
	setae	%r8b
	orl	%r13d, %r8d
	incl	%ecx
	movq	%rdi, %r13
	movl	%r15d, %ebx
	cmpl	%ecx, %edx
	jne	.LBB73_32
	movl	%r15d, %r10d
	movl	%r8d, %r15d
	movq	%rdi, %r13
	movl	%edx, %ecx
	jmp	.LBB73_37
	.p2align	4
.LBB73_25:
	movq	40(%r14), %rax
	movq	$0, (%rdx)
	movq	%rdx, (%rax)
.LBB73_26:
	movq	24(%rsp), %r10
	movq	(%rsp), %rdi
	movq	%rdx, 40(%r14)
	movl	48(%r14), %eax
	movl	60(%r14), %ecx
	incl	%eax
	movl	%eax, 48(%r14)
	addl	24(%r14), %eax
	shll	$5, %eax
	addl	56(%r14), %ecx
	subl	%ecx, %eax
	cmpl	$128, %eax
	jae	.LBB73_27
.LBB73_22:
	movl	$776, %edi
	movl	$8, %esi
	callq	nm_host_alloc@PLT
	testb	$1, %al
	je	.LBB73_111
	cmpl	$0, 48(%r14)
	jne	.LBB73_25
	movq	$0, (%rdx)
	movq	%rdx, 32(%r14)
	jmp	.LBB73_26
	.p2align	4
.LBB73_30:
	xorl	%ecx, %ecx
	movl	$8, %r15d
	movl	$4, %r10d
	movq	16(%rsp), %r11
	jmp	.LBB73_38
.LBB73_33:
	movl	%ebx, %r10d
.LBB73_37:
	movq	(%rsp), %rdi
.LBB73_38:
	movl	72(%r12), %ebp
	decl	%ebp
	testb	$1, 84(%r12)
	cmovnel	%eax, %ebp
	subl	%ecx, %ebp
	jbe	.LBB73_88
	movq	40(%rsp), %rax
	movl	88(%rax), %eax
	movl	%r10d, %r9d
	shrl	$2, %r9d
	andb	$1, %r10b
	movl	%r15d, %ebx
	shrl	$2, %ebx
	andb	$1, %r15b
	addl	$-4, %eax
	movq	%rax, 96(%rsp)
	movl	%r15d, %r12d
	movl	%ebx, 48(%rsp)
	jmp	.LBB73_40
	.p2align	4
.LBB73_44:
	movl	%ebx, 48(%rsp)
	movl	%r15d, %r10d
	movl	%r8d, %r9d
	decl	%ebp
	je	.LBB73_88
.LBB73_40:
	movl	%ebx, %r8d
	movl	%r12d, %r15d
	movq	%r13, %rax
	movq	%r13, %rbx
	shrq	$2, %rbx
	movq	(%r11), %rcx
	movq	96(%rsp), %rdx
	leal	(%rdx,%rbx,4), %edx
	movq	(%rcx,%rdx,8), %r14
	movq	(%r11), %rcx
	movq	8(%rcx,%rdx,8), %rcx
	movq	(%r11), %rsi
	movq	16(%rsi,%rdx,8), %r13
	cmpq	%r14, 24(%rsp)
	setae	%r12b
	cmovbq	%rcx, %r13
	testq	%r13, %r13
	je	.LBB73_41
	movq	1040(%rdi), %rdx
	testb	$2, %al
	jne	.LBB73_46
	testq	%rdx, %rdx
	je	.LBB73_44
	shlq	$3, %rdx
	movq	120(%rsp), %rdi
	xorl	%esi, %esi
	movq	%r8, %r14
	callq	memset@PLT
	movq	%r14, %r8
	movq	16(%rsp), %r11
	movq	(%rsp), %rdi
	movq	$0, 1040(%rdi)
	jmp	.LBB73_44
	.p2align	4
.LBB73_46:
	leaq	1(%rdx), %rax
	cmpq	$63, %rax
	ja	.LBB73_88
	movzbl	%r15b, %ecx
	shlq	$32, %rcx
	movl	%r8d, %esi
	orq	%rcx, %rsi
	movq	%rsi, 528(%rdi,%rdx,8)
	movq	%rax, 1040(%rdi)
	movl	%r9d, %r8d
	movl	%r8d, %r9d
	decl	%ebp
	jne	.LBB73_40
	jmp	.LBB73_88
.LBB73_49:
	movl	%r15d, %eax
	shrl	$2, %eax
	movl	%ebx, %r9d
	shrl	$2, %r9d
	andb	$1, %bl
	andb	$1, %r15b
	movl	%eax, 48(%rsp)
	movl	%eax, %r8d
	cmpq	%r10, %r14
	je	.LBB73_51
	jmp	.LBB73_105
.LBB73_41:
	movq	%rax, %r13
	movq	40(%rsp), %r12
	movl	%r10d, %ebx
	movq	24(%rsp), %r10
	cmpq	%r10, %r14
	jne	.LBB73_105
.LBB73_51:
	movq	%r13, %rsi
	shrq	$2, %rsi
	movl	72(%r12), %eax
	leal	(,%rax,4), %edx
	movl	%eax, %ecx
	shrl	$6, %ecx
	andl	$63, %eax
	addl	88(%r12), %edx
	addl	%ecx, %edx
	cmpl	$1, %eax
	sbbl	$-1, %edx
	leal	-1(%rsi), %ecx
	addq	%rcx, %rdx
	movq	8(%r12), %rax
	movq	(%rax,%rdx,8), %rdx
	cmpq	88(%rsp), %rdx
	jne	.LBB73_109
	movq	8(%r12), %rax
	movl	88(%r12), %edx
	movq	%rsi, 80(%rsp)
	leal	(%rdx,%rsi,4), %edx
	decl	%edx
	movq	(%rax,%rdx,8), %rbp
	movq	8(%r12), %rdx
	leal	(,%r8,4), %eax
	movl	88(%r12), %esi
	movq	%rax, 96(%rsp)
	addl	%eax, %esi
	cmpb	$1, %r15b
	sbbl	$0, %esi
	addl	$-2, %esi
	movabsq	$17179869180, %rax
	andq	%rax, %r13
	leaq	1(%r13), %rdi
	movq	%r13, %rax
	lock		cmpxchgq	%rdi, (%rdx,%rsi,8)
	je	.LBB73_53
	testb	$3, %al
	movq	(%rsp), %rdi
	je	.LBB73_88
	shrq	$2, %rax
	cmpl	80(%rsp), %eax
	jne	.LBB73_88
	movl	%ebx, %r12d
	movq	%r8, 80(%rsp)
	movq	1040(%rdi), %r14
	movq	3096(%rdi), %rdx
	testq	%rdx, %rdx
	je	.LBB73_65
	shlq	$4, %rdx
	movq	64(%rsp), %rdi
	xorl	%esi, %esi
	movq	%r9, %rbx
	callq	memset@PLT
	movq	%rbx, %r9
	movq	16(%rsp), %r11
	movq	(%rsp), %rdi
	movq	$0, 3096(%rdi)
.LBB73_65:
	xorl	%eax, %eax
	movl	%r15d, %r10d
	testb	%r10b, %r10b
	sete	%al
	movq	40(%rsp), %r8
	movl	88(%r8), %ecx
	movq	8(%r8), %rdx
	movq	96(%rsp), %rsi
	addl	%esi, %ecx
	addl	$-4, %ecx
	movq	%rcx, %rsi
	subq	%rax, %rsi
	movq	16(%rdx,%rsi,8), %rdx
	movq	8(%r8), %rsi
	addq	%rcx, %rax
	movq	8(%rsi,%rax,8), %rax
	testb	$1, %dl
	jne	.LBB73_66
	testb	$1, %al
	je	.LBB73_88
	jmp	.LBB73_68
.LBB73_66:
	testb	%r10b, %r10b
	sete	%r15b
.LBB73_68:
	movq	%r14, %rdx
	movq	%r9, %r14
	movq	40(%rsp), %rbx
	movq	8(%rbx), %rcx
	movl	88(%rbx), %eax
	cmpb	$1, %r15b
	movq	96(%rsp), %rbp
	sbbl	$0, %ebp
	leal	(%rax,%rbp), %edi
	addl	$-2, %edi
	.p2align	4
.LBB73_69:
	movq	(%rcx,%rdi,8), %r13
	movq	%r13, %rsi
	orq	$2, %rsi
	movq	%r13, %rax
	lock		cmpxchgq	%rsi, (%rcx,%rdi,8)
	jne	.LBB73_69
	movzbl	%r15b, %r8d
	movq	%r11, %rdi
	movq	120(%rsp), %rsi
	movq	80(%rsp), %rcx
	movq	64(%rsp), %r9
	callq	"nm_walks::cutting::freeze"
	movq	16(%rsp), %r11
	shll	$2, %r14d
	addl	88(%rbx), %r14d
	cmpb	$1, %r12b
	sbbl	$0, %r14d
	addl	$-2, %r14d
	movl	48(%rsp), %eax
	shlq	$2, %rax
	andq	$-3, %r13
	movq	8(%rbx), %rcx
	lock		cmpxchgq	%r13, (%rcx,%r14,8)
	movq	(%rsp), %rdi
	jne	.LBB73_88
	movq	8(%rsp), %rcx
	movb	$1, 64(%rcx)
	movq	(%r11), %rax
	movq	(%rax), %rax
	testb	$1, 64(%rcx)
	je	.LBB73_72
	movq	$1, 16(%rcx)
	movq	%rax, 24(%rcx)
	movb	$0, 64(%rcx)
	movq	3096(%rdi), %rcx
	testq	%rcx, %rcx
	movq	104(%rsp), %r11
	movq	160(%rsp), %rbx
	je	.LBB73_87
	movl	60(%r11), %esi
	movq	64(%rsp), %rdx
	jmp	.LBB73_80
	.p2align	4
.LBB73_81:
	movq	16(%r11), %rdi
.LBB73_86:
	addq	$16, %rdx
	decq	%rcx
	subl	%r8d, %esi
	addl	$32, %esi
	leaq	(%rsi,%rsi,2), %rsi
	movaps	128(%rsp), %xmm0
	movups	%xmm0, 8(%rdi,%rsi,8)
	movq	%rax, 24(%rdi,%rsi,8)
	movl	60(%r11), %esi
	incl	%esi
	movl	%esi, 60(%r11)
	testq	%rcx, %rcx
	je	.LBB73_87
.LBB73_80:
	movups	(%rdx), %xmm0
	movaps	%xmm0, 128(%rsp)
	addl	56(%r11), %esi
	movl	24(%r11), %r9d
	movl	%r9d, %r8d
	shll	$5, %r8d
	cmpl	%r8d, %esi
	jne	.LBB73_81
	movq	32(%r11), %rdi
	movq	(%rdi), %r8
	movq	%r8, 32(%r11)
	decl	48(%r11)
	testl	%r9d, %r9d
	je	.LBB73_83
	movq	16(%r11), %r8
	movq	$0, (%rdi)
	movq	%rdi, (%r8)
	jmp	.LBB73_85
.LBB73_83:
	movq	$0, (%rdi)
	movq	%rdi, (%rbx)
.LBB73_85:
	movq	%rdi, 16(%r11)
	movl	24(%r11), %r8d
	incl	%r8d
	movl	%r8d, 24(%r11)
	shll	$5, %r8d
	jmp	.LBB73_86
.LBB73_111:
	movq	16(%rsp), %rax
	movq	(%rax), %rax
	movl	12(%rbx), %ecx
	xorl	%edx, %edx
	xchgq	%rdx, (%rax,%rcx,8)
	xorl	%ecx, %ecx
	xorps	%xmm0, %xmm0
	movq	72(%rsp), %rax
	movups	%xmm0, 16(%rax)
	movups	%xmm0, (%rax)
	movb	$2, %al
.LBB73_10:
	xorl	%edx, %edx
	movq	32(%rsp), %rdi
	movb	$1, %sil
.LBB73_110:
	movb	%sil, (%rdi)
	movb	%al, 1(%rdi)
	movq	%rcx, 8(%rdi)
	movq	%rdx, 16(%rdi)
	addq	$168, %rsp
	.cfi_def_cfa_offset 56
	popq	%rbx
	.cfi_def_cfa_offset 48
	popq	%r12
	.cfi_def_cfa_offset 40
	popq	%r13
	.cfi_def_cfa_offset 32
	popq	%r14
	.cfi_def_cfa_offset 24
	popq	%r15
	.cfi_def_cfa_offset 16
	popq	%rbp
	.cfi_def_cfa_offset 8
	retq
.LBB73_8:
	.cfi_def_cfa_offset 224
	movb	$2, %al
	jmp	.LBB73_9
.LBB73_89:
	movq	(%r11), %rax
	movl	12(%rbx), %ecx
	xorl	%edx, %edx
	xchgq	%rdx, (%rax,%rcx,8)
	xorl	%eax, %eax
	jmp	.LBB73_90
.LBB73_105:
	movq	(%r11), %rax
	movq	8(%rsp), %rcx
	movl	12(%rcx), %ecx
	xorl	%edx, %edx
	xchgq	%rdx, (%rax,%rcx,8)
	xorps	%xmm0, %xmm0
	movq	72(%rsp), %rax
	movups	%xmm0, 16(%rax)
	movups	%xmm0, (%rax)
	movq	32(%rsp), %rdi
	jmp	.LBB73_106
.LBB73_109:
	movq	(%r11), %rax
	movq	8(%rsp), %rcx
	movl	12(%rcx), %ecx
	xorl	%esi, %esi
	xchgq	%rsi, (%rax,%rcx,8)
	xorl	%esi, %esi
	xorps	%xmm0, %xmm0
	movq	72(%rsp), %rax
	movups	%xmm0, 16(%rax)
	movups	%xmm0, (%rax)
	movl	$2, %ecx
	xorl	%eax, %eax
	movq	32(%rsp), %rdi
	jmp	.LBB73_110
.LBB73_53:
	movq	%rbp, 88(%rsp)
	cmpb	$1, 92(%r12)
	jne	.LBB73_55
	movl	72(%r12), %eax
	leal	(,%rax,4), %edx
	movl	%eax, %esi
	shrl	$6, %esi
	andl	$63, %eax
	addl	88(%r12), %edx
	addl	%esi, %edx
	cmpl	$1, %eax
	sbbl	$-1, %edx
	addq	%rdx, %rcx
	movq	8(%r12), %rax
	movq	(%rax,%rcx,8), %rax
.LBB73_55:
	movq	104(%rsp), %r13
	movq	72(%r13), %rax
	incq	%rax
	movq	$-1, %rcx
	cmovneq	%rax, %rcx
	movq	%rcx, 72(%r13)
	cmpb	$1, %bl
	movl	$-2, %ebp
	sbbl	$0, %ebp
	movl	112(%rsp), %eax
	notl	%eax
	xorps	%xmm0, %xmm0
	movaps	%xmm0, 128(%rsp)
	movq	$0, 144(%rsp)
	addl	%eax, 60(%rsp)
	je	.LBB73_107
	movl	48(%r13), %eax
	cmpl	$3, %eax
	ja	.LBB73_93
	movl	60(%r13), %ecx
	addl	24(%r13), %eax
	shll	$5, %eax
	addl	56(%r13), %ecx
	subl	%ecx, %eax
	cmpl	$127, %eax
	jbe	.LBB73_58
.LBB73_93:
	movq	%rbp, 112(%rsp)
	movq	(%rsp), %rax
	movq	1040(%rax), %r10
	movq	3096(%rax), %rdx
	testq	%rdx, %rdx
	je	.LBB73_95
	shlq	$4, %rdx
	movq	64(%rsp), %rdi
	xorl	%esi, %esi
	movq	%r9, %rbx
	movq	%r8, %r12
	movq	%r10, %rbp
	callq	memset@PLT
	movq	%rbp, %r10
	movq	%r12, %r8
	movq	%rbx, %r9
	movq	16(%rsp), %r11
	movq	(%rsp), %rax
	movq	$0, 3096(%rax)
.LBB73_95:
	xorl	%eax, %eax
	testb	%r15b, %r15b
	sete	%al
	movq	40(%rsp), %rdi
	movl	88(%rdi), %ecx
	movq	8(%rdi), %rdx
	movq	96(%rsp), %rbp
	addl	%ebp, %ecx
	addl	$-4, %ecx
	movq	%rcx, %rsi
	subq	%rax, %rsi
	movq	16(%rdx,%rsi,8), %rdx
	movq	8(%rdi), %rsi
	addq	%rcx, %rax
	movq	8(%rsi,%rax,8), %rax
	testb	$1, %dl
	jne	.LBB73_96
	testb	$1, %al
	movq	88(%rsp), %r12
	jne	.LBB73_98
	jmp	.LBB73_102
.LBB73_91:
	movq	40(%r13), %rax
	movq	$0, (%rdx)
	movq	%rdx, (%rax)
.LBB73_92:
	movq	%rdx, 40(%r13)
	movl	48(%r13), %eax
	movl	60(%r13), %ecx
	incl	%eax
	movl	%eax, 48(%r13)
	addl	24(%r13), %eax
	shll	$5, %eax
	addl	56(%r13), %ecx
	subl	%ecx, %eax
	cmpl	$128, %eax
	jae	.LBB73_93
.LBB73_58:
	movl	$776, %edi
	movl	$8, %esi
	movq	%r9, %rbx
	movq	%r8, %r12
	callq	nm_host_alloc@PLT
	movq	16(%rsp), %r11
	testb	$1, %al
	je	.LBB73_107
	movq	%r12, %r8
	movq	%rbx, %r9
	cmpl	$0, 48(%r13)
	jne	.LBB73_91
	movq	$0, (%rdx)
	movq	%rdx, 32(%r13)
	jmp	.LBB73_92
.LBB73_107:
	movq	8(%rsp), %rbx
	movq	80(%rsp), %rbp
	movq	88(%rsp), %r12
	jmp	.LBB73_108
.LBB73_96:
	testb	%r15b, %r15b
	sete	%r15b
	movq	88(%rsp), %r12
.LBB73_98:
	movq	%r8, %rcx
	movl	48(%rsp), %eax
	shll	$2, %r9d
	movq	%r9, %rbx
	shlq	$2, %rax
	movq	%rax, 48(%rsp)
	movq	40(%rsp), %rax
	movq	8(%rax), %rsi
	addl	88(%rax), %ebp
	cmpb	$1, %r15b
	sbbl	$0, %ebp
	addl	$-2, %ebp
.LBB73_99:
	movq	(%rsi,%rbp,8), %r13
	movq	%r13, %rdx
	orq	$2, %rdx
	movq	%r13, %rax
	lock		cmpxchgq	%rdx, (%rsi,%rbp,8)
	jne	.LBB73_99
	movzbl	%r15b, %r8d
	movq	%r11, %rdi
	movq	120(%rsp), %rsi
	movq	%r10, %rdx
	movq	64(%rsp), %r9
	callq	"nm_walks::cutting::freeze"
	movq	16(%rsp), %r11
	movq	112(%rsp), %rdx
	addl	%ebx, %edx
	movq	40(%rsp), %rax
	addl	88(%rax), %edx
	andq	$-3, %r13
	movq	8(%rax), %rcx
	movq	48(%rsp), %rax
	lock		cmpxchgq	%r13, (%rcx,%rdx,8)
	movq	104(%rsp), %r13
	jne	.LBB73_102
	movq	8(%rsp), %rbx
	movb	$1, 64(%rbx)
	movq	(%r11), %rdi
	movq	152(%rsp), %rsi
	movq	%r11, %r15
	callq	"nm_walks::labelling::label"
	movq	(%rsp), %rcx
	movq	3096(%rcx), %rdx
	movq	160(%rsp), %rdi
	movq	64(%rsp), %rsi
	movq	%rax, %rcx
	callq	"nm_walks::cleaning::push_labelled"
	movq	80(%r13), %rax
	incq	%rax
	movq	$-1, %rcx
	cmovneq	%rax, %rcx
	movq	%rcx, 80(%r13)
	jmp	.LBB73_103
.LBB73_102:
	movq	24(%rsp), %rax
	movq	%rax, 128(%rsp)
	movq	80(%rsp), %rbp
	movl	%ebp, 136(%rsp)
	movl	$0, 140(%rsp)
	movq	%r12, 144(%rsp)
	movl	60(%rsp), %r9d
	decl	%r9d
	leaq	128(%rsp), %r8
	movq	%r11, %rdi
	movq	152(%rsp), %rsi
	movq	(%rsp), %rdx
	movq	%r13, %rcx
	movq	%r11, %r15
	callq	"nm_calls::deleting::remove"
	testb	%al, %al
	movq	8(%rsp), %rbx
	je	.LBB73_103
.LBB73_108:
	movq	$2, 104(%rbx)
	movq	24(%rsp), %rax
	movq	%rax, 112(%rbx)
	movl	%ebp, 120(%rbx)
	movl	$0, 124(%rbx)
	movq	%r12, 128(%rbx)
	movb	$3, %al
	jmp	.LBB73_9
.LBB73_103:
	movq	(%r15), %rax
	movl	12(%rbx), %ecx
	xorl	%edx, %edx
	xchgq	%rdx, (%rax,%rcx,8)
	xorps	%xmm0, %xmm0
	movq	72(%rsp), %rax
	movups	%xmm0, 16(%rax)
	movups	%xmm0, (%rax)
	movq	32(%rsp), %rdi
	movq	24(%rsp), %r10
.LBB73_106:
	xorl	%ecx, %ecx
	cmpq	%r10, %r14
	setne	%cl
	xorl	%esi, %esi
	xorl	%eax, %eax
	xorl	%edx, %edx
	jmp	.LBB73_110
.LBB73_72:
	cmpb	$0, 48(%rcx)
	jne	.LBB73_74
	movq	8(%rsp), %rcx
	cmpb	$1, 32(%rcx)
	jne	.LBB73_74
	movq	8(%rsp), %rcx
	cmpq	%rax, 40(%rcx)
	movq	$1, 16(%rcx)
	movq	%rax, 24(%rcx)
	jne	.LBB73_77
	movq	8(%rsp), %rcx
	movq	$1, 48(%rcx)
	movq	%rax, 56(%rcx)
.LBB73_77:
	ud2
.LBB73_74:
	movq	8(%rsp), %rcx
	movq	$1, 16(%rcx)
	movq	%rax, 24(%rcx)
	ud2
.Lfunc_end73:
	.size	"nm_set::map_removing::Member+Values::remove_if_once", .Lfunc_end73-"nm_set::map_removing::Member+Values::remove_if_once"
	.cfi_endproc
	.section	".text.nm_set::member::Member::pop::<#de9872852a7d50e8>","ax",@progbits
	.p2align	4
	.type	"nm_set::member::Member::pop::<#de9872852a7d50e8>",@function
"nm_set::member::Member::pop::<#de9872852a7d50e8>":
	.cfi_startproc
	pushq	%rbp
	.cfi_def_cfa_offset 16
	pushq	%r15
	.cfi_def_cfa_offset 24
	pushq	%r14
	.cfi_def_cfa_offset 32
	pushq	%r13
	.cfi_def_cfa_offset 40
	pushq	%r12
	.cfi_def_cfa_offset 48
	pushq	%rbx
	.cfi_def_cfa_offset 56
	subq	$72, %rsp
	.cfi_def_cfa_offset 128
	.cfi_offset %rbx, -56
	.cfi_offset %r12, -48
	.cfi_offset %r13, -40
	.cfi_offset %r14, -32
	.cfi_offset %r15, -24
	.cfi_offset %rbp, -16
	movzbl	104(%rsi), %eax
	cmpb	$1, %al
	jne	.LBB74_4
	movw	$1281, (%rdi)
.LBB74_2:
	xorps	%xmm0, %xmm0
	movups	%xmm0, 8(%rdi)
	jmp	.LBB74_3
.LBB74_4:
	movq	%r9, %r14
	movq	%r8, %r15
	movq	%rcx, %r12
	movq	%rsi, %r13
	cmpb	$2, %al
	je	.LBB74_5
.LBB74_6:
	movq	%rdi, 64(%rsp)
	xorps	%xmm0, %xmm0
	movaps	%xmm0, 32(%rsp)
	movq	$0, 48(%rsp)
	movaps	%xmm0, (%rsp)
	movq	$0, 16(%rsp)
	movl	4(%r14), %ebx
	movzbl	%dl, %ebp
	testl	%ebx, %ebx
	je	.LBB74_7
	.p2align	4
.LBB74_9:
	movq	%rsp, %rdi
	movq	%r13, %rsi
	movl	%ebp, %edx
	movq	%r12, %rcx
	movq	%r15, %r8
	movq	%r14, %r9
	callq	"nm_set::member::Member::pop_once::<#de9872852a7d50e8>"
	movzbl	(%rsp), %eax
	movzbl	1(%rsp), %ecx
	cmpb	$1, %al
	jne	.LBB74_11
	testb	%cl, %cl
	jne	.LBB74_11
	decl	%ebx
	jne	.LBB74_9
.LBB74_7:
	leaq	32(%rsp), %rdi
	movq	%r13, %rsi
	movl	%ebp, %edx
	movq	%r12, %rcx
	movq	%r15, %r8
	movq	%r14, %r9
	callq	"nm_set::member::Member::pop_once::<#de9872852a7d50e8>"
	movzbl	32(%rsp), %eax
	movzbl	33(%rsp), %ecx
	movzbl	40(%rsp), %esi
	movq	48(%rsp), %rdx
	jmp	.LBB74_12
.LBB74_11:
	movq	16(%rsp), %rdx
	movzbl	8(%rsp), %esi
.LBB74_12:
	movq	64(%rsp), %rdi
	movb	%al, (%rdi)
	movb	%cl, 1(%rdi)
	movzbl	%sil, %eax
	movq	%rax, 8(%rdi)
	movq	%rdx, 16(%rdi)
.LBB74_3:
	addq	$72, %rsp
	.cfi_def_cfa_offset 56
	popq	%rbx
	.cfi_def_cfa_offset 48
	popq	%r12
	.cfi_def_cfa_offset 40
	popq	%r13
	.cfi_def_cfa_offset 32
	popq	%r14
	.cfi_def_cfa_offset 24
	popq	%r15
	.cfi_def_cfa_offset 16
	popq	%rbp
	.cfi_def_cfa_offset 8
	retq
.LBB74_5:
	.cfi_def_cfa_offset 128
	leaq	8(%r13), %rsi
	movq	%rdi, %rbp
	movq	(%r13), %rdi
	addq	$8, %rdi
	movl	(%r14), %eax
	movl	4(%r14), %ecx
	incq	%rcx
	imulq	%rcx, %rax
	movl	$4294967295, %ecx
	cmpq	%rcx, %rax
	cmovaeq	%rcx, %rax
	movl	%edx, %ebx
	movl	%eax, %edx
	callq	"nm_tree::tree::Tree::finish_pending"
	movq	%rbp, %rdi
	movl	%ebx, %edx
	testb	%al, %al
	je	.LBB74_6
	movw	$1025, (%rdi)
	jmp	.LBB74_2
.Lfunc_end74:
	.size	"nm_set::member::Member::pop::<#de9872852a7d50e8>", .Lfunc_end74-"nm_set::member::Member::pop::<#de9872852a7d50e8>"
	.cfi_endproc
	.section	".text.nm_set::member::Member::pop_once::<#de9872852a7d50e8>","ax",@progbits
	.p2align	4
	.type	"nm_set::member::Member::pop_once::<#de9872852a7d50e8>",@function
"nm_set::member::Member::pop_once::<#de9872852a7d50e8>":
	.cfi_startproc
	pushq	%rbp
	.cfi_def_cfa_offset 16
	pushq	%r15
	.cfi_def_cfa_offset 24
	pushq	%r14
	.cfi_def_cfa_offset 32
	pushq	%r13
	.cfi_def_cfa_offset 40
	pushq	%r12
	.cfi_def_cfa_offset 48
	pushq	%rbx
	.cfi_def_cfa_offset 56
	subq	$40, %rsp
	.cfi_def_cfa_offset 96
	.cfi_offset %rbx, -56
	.cfi_offset %r12, -48
	.cfi_offset %r13, -40
	.cfi_offset %r14, -32
	.cfi_offset %r15, -24
	.cfi_offset %rbp, -16
	movq	%r9, %r12
	movq	%r8, 8(%rsp)
	movq	%rcx, %r14
	movl	%edx, %ebp
	movq	%rsi, %r13
	movq	%rdi, %rbx
	movl	(%r9), %r8d
	xorps	%xmm0, %xmm0
	movaps	%xmm0, 16(%rsp)
	movq	$0, 32(%rsp)
	movq	(%rsi), %rsi
	addq	$8, %rsi
	leaq	8(%r13), %r15
	leaq	16(%rsp), %rdi
	movq	%r15, %rdx
	cmpb	$1, %bpl
	ja	.LBB75_2
	xorl	%ecx, %ecx
	callq	"nm_tree::tree::Tree::next"
	cmpb	$0, 16(%rsp)
	je	.LBB75_4
.LBB75_26:
	movzbl	17(%rsp), %eax
	movb	$1, (%rbx)
	movb	%al, 1(%rbx)
	jmp	.LBB75_8
.LBB75_2:
	movq	$-4, %rcx
	callq	"nm_tree::tree::Tree::prev"
	cmpb	$0, 16(%rsp)
	jne	.LBB75_26
.LBB75_4:
	cmpb	$1, 24(%rsp)
	jne	.LBB75_7
	movq	32(%rsp), %r8
	movzbl	%bpl, %eax
	leaq	.LJTI75_0(%rip), %rcx
	movslq	(%rcx,%rax,4), %rax
	addq	%rcx, %rax
	jmpq	*%rax
.LBB75_11:
	movzbl	104(%r13), %eax
	movb	$5, %dl
	cmpb	$1, %al
	je	.LBB75_25
	cmpb	$2, %al
	je	.LBB75_13
.LBB75_14:
	movl	4(%r12), %ebp
	testl	%ebp, %ebp
	je	.LBB75_15
.LBB75_17:
	movl	(%r12), %r9d
	movq	%r13, %rdi
	movl	$2, %esi
	movq	%r8, %r14
	movq	%r8, %rdx
	xorl	%ecx, %ecx
	movq	8(%rsp), %r8
	callq	"nm_set::member::Member::ask::<#de9872852a7d50e8>"
	movl	%eax, %ecx
	xorb	$1, %cl
	orb	%dl, %cl
	jne	.LBB75_18
	decl	%ebp
	movq	%r14, %r8
	jne	.LBB75_17
.LBB75_15:
	movl	(%r12), %r9d
	movq	%r13, %rdi
	movl	$2, %esi
	movq	%r8, %r14
	movq	%r8, %rdx
	xorl	%ecx, %ecx
	movq	8(%rsp), %r8
	callq	"nm_set::member::Member::ask::<#de9872852a7d50e8>"
.LBB75_18:
	movl	%eax, %ecx
	xorb	$1, %cl
	movl	%edx, %esi
	xorb	$3, %sil
	orb	%cl, %sil
	jne	.LBB75_19
	cmpb	$2, 104(%r13)
	movq	%r14, %r8
	je	.LBB75_22
	xorl	%edx, %edx
	jmp	.LBB75_24
.LBB75_6:
	cmpq	%r14, %r8
	jb	.LBB75_11
	jmp	.LBB75_7
.LBB75_10:
	cmpq	%r8, %r14
	jbe	.LBB75_11
.LBB75_7:
	movw	$0, (%rbx)
	jmp	.LBB75_8
.LBB75_19:
	movq	%r14, %r8
	testb	%al, %al
	je	.LBB75_24
.LBB75_25:
	movb	$1, (%rbx)
	movb	%dl, 1(%rbx)
.LBB75_8:
	xorps	%xmm0, %xmm0
	movups	%xmm0, 8(%rbx)
.LBB75_9:
	addq	$40, %rsp
	.cfi_def_cfa_offset 56
	popq	%rbx
	.cfi_def_cfa_offset 48
	popq	%r12
	.cfi_def_cfa_offset 40
	popq	%r13
	.cfi_def_cfa_offset 32
	popq	%r14
	.cfi_def_cfa_offset 24
	popq	%r15
	.cfi_def_cfa_offset 16
	popq	%rbp
	.cfi_def_cfa_offset 8
	retq
.LBB75_13:
	.cfi_def_cfa_offset 96
	movq	(%r13), %rdi
	addq	$8, %rdi
	movl	(%r12), %edx
	movl	4(%r12), %eax
	incq	%rax
	imulq	%rax, %rdx
	movl	$4294967295, %eax
	cmpq	%rax, %rdx
	cmovaeq	%rax, %rdx
	movq	%r15, %rsi
	movq	%r8, %r14
	callq	"nm_tree::tree::Tree::finish_pending"
	movq	%r14, %r8
	movb	$4, %dl
	testb	%al, %al
	jne	.LBB75_25
	jmp	.LBB75_14
.LBB75_22:
	movq	(%r13), %rdi
	addq	$8, %rdi
	movl	(%r12), %edx
	movl	4(%r12), %eax
	incq	%rax
	imulq	%rax, %rdx
	movl	$4294967295, %eax
	cmpq	%rax, %rdx
	cmovaeq	%rax, %rdx
	movq	%r15, %rsi
	movq	%r8, %r14
	callq	"nm_tree::tree::Tree::finish_pending"
	movq	%r14, %r8
	testb	%al, %al
	jne	.LBB75_25
.LBB75_24:
	andb	$1, %dl
	movl	%edx, %eax
	xorb	$1, %al
	xorl	%ecx, %ecx
	testb	%dl, %dl
	cmovneq	%r8, %rcx
	movb	%al, (%rbx)
	movb	$0, 1(%rbx)
	movzbl	%dl, %eax
	movq	%rax, 8(%rbx)
	movq	%rcx, 16(%rbx)
	jmp	.LBB75_9
.Lfunc_end75:
	.size	"nm_set::member::Member::pop_once::<#de9872852a7d50e8>", .Lfunc_end75-"nm_set::member::Member::pop_once::<#de9872852a7d50e8>"
	.cfi_endproc
	.section	".rodata.nm_set::member::Member::pop_once::<#de9872852a7d50e8>","a",@progbits
	.p2align	2, 0x0
.LJTI75_0:
	.long	.LBB75_11-.LJTI75_0
	.long	.LBB75_6-.LJTI75_0
	.long	.LBB75_11-.LJTI75_0
	.long	.LBB75_10-.LJTI75_0
	.section	.text.nm_set_version,"ax",@progbits
	.globl	nm_set_version
	.p2align	4
	.type	nm_set_version,@function
nm_set_version:
	.cfi_startproc
	movl	$0, (%rdi)
	movl	$1, (%rsi)
	movl	$0, (%rdx)
	movl	$2, %eax
	retq
.Lfunc_end76:
	.size	nm_set_version, .Lfunc_end76-nm_set_version
	.cfi_endproc
	.section	.text.nm_drop,"ax",@progbits
	.globl	nm_drop
	.p2align	4
	.type	nm_drop,@function
nm_drop:
	.cfi_startproc
	movl	$1, %edx
	xchgq	%rdx, 8(%rdi)
	movl	$-22, %eax
	testq	%rdx, %rdx
	je	.LBB77_1
	retq
.LBB77_1:
	movq	%rdi, %rcx
	movq	(%rdi), %rdi
	movq	$0, (%rcx)
	testq	%rdi, %rdi
	je	.LBB77_24
	pushq	%rbp
	.cfi_def_cfa_offset 16
	pushq	%r15
	.cfi_def_cfa_offset 24
	pushq	%r14
	.cfi_def_cfa_offset 32
	pushq	%r13
	.cfi_def_cfa_offset 40
	pushq	%r12
	.cfi_def_cfa_offset 48
	pushq	%rbx
	.cfi_def_cfa_offset 56
	subq	$312, %rsp
	.cfi_def_cfa_offset 368
	.cfi_offset %rbx, -56
	.cfi_offset %r12, -48
	.cfi_offset %r13, -40
	.cfi_offset %r14, -32
	.cfi_offset %r15, -24
	.cfi_offset %rbp, -16
	movq	%rcx, 264(%rsp)
	movzbl	(%rdi), %r12d
	movzbl	8(%rdi), %ebp
	movl	12(%rdi), %eax
	movl	%eax, 3(%rsp)
	movl	9(%rdi), %eax
	movl	%eax, (%rsp)
	movq	16(%rdi), %r14
	movq	24(%rdi), %rax
	movq	%rax, 40(%rsp)
	movq	32(%rdi), %rax
	movq	%rax, 32(%rsp)
	movq	40(%rdi), %rax
	movq	%rax, 64(%rsp)
	movq	48(%rdi), %r15
	movq	56(%rdi), %rax
	movq	%rax, 72(%rsp)
	movq	64(%rdi), %r13
	movups	88(%rdi), %xmm0
	movaps	%xmm0, 288(%rsp)
	movups	72(%rdi), %xmm0
	movaps	%xmm0, 272(%rsp)
	movq	104(%rdi), %rax
	movq	%rax, 8(%rsp)
	movq	112(%rdi), %rax
	movq	%rax, 16(%rsp)
	movq	120(%rdi), %rbx
	movq	128(%rdi), %rax
	movq	%rax, 24(%rsp)
	movq	136(%rdi), %rax
	movq	%rax, 80(%rsp)
	movq	144(%rdi), %rax
	movq	%rax, 48(%rsp)
	movq	152(%rdi), %rax
	movq	%rax, 88(%rsp)
	movq	160(%rdi), %rax
	movq	%rax, 56(%rsp)
	callq	nm_host_dealloc@PLT
	leaq	.LJTI77_0(%rip), %rax
	movslq	(%rax,%r12,4), %rcx
	addq	%rax, %rcx
	jmpq	*%rcx
.LBB77_3:
	movq	%r13, 8(%rsp)
	movq	24(%rsp), %r13
	movq	16(%rsp), %r12
	testb	%bpl, %bpl
	je	.LBB77_4
	movq	%r15, %rdi
	callq	nm_host_dealloc@PLT
	movq	8(%rsp), %rdi
	callq	nm_host_dealloc@PLT
	jmp	.LBB77_6
.LBB77_24:
	.cfi_def_cfa_offset 8
	.cfi_restore %rbx
	.cfi_restore %rbp
	.cfi_restore %r12
	.cfi_restore %r13
	.cfi_restore %r14
	.cfi_restore %r15
	xorl	%eax, %eax
	xchgq	%rax, 8(%rcx)
	movl	$-1, %eax
	retq
.LBB77_17:
	.cfi_def_cfa_offset 368
	.cfi_offset %rbx, -56
	.cfi_offset %rbp, -16
	.cfi_offset %r12, -48
	.cfi_offset %r13, -40
	.cfi_offset %r14, -32
	.cfi_offset %r15, -24
	movb	%bpl, 96(%rsp)
	movl	(%rsp), %eax
	movl	%eax, 97(%rsp)
	movl	3(%rsp), %eax
	movl	%eax, 100(%rsp)
	movq	%r14, 104(%rsp)
	movq	40(%rsp), %rax
	movq	%rax, 112(%rsp)
	movq	32(%rsp), %rax
	movq	%rax, 120(%rsp)
	movq	64(%rsp), %rax
	movq	%rax, 128(%rsp)
	movq	%r15, 136(%rsp)
	movq	72(%rsp), %rax
	movq	%rax, 144(%rsp)
	movq	%r13, 152(%rsp)
	movaps	272(%rsp), %xmm0
	movaps	288(%rsp), %xmm1
	movups	%xmm0, 160(%rsp)
	movups	%xmm1, 176(%rsp)
	movq	8(%rsp), %rax
	movq	%rax, 192(%rsp)
	movq	16(%rsp), %rax
	movq	%rax, 200(%rsp)
	movq	%rbx, 208(%rsp)
	movq	24(%rsp), %rax
	movq	%rax, 216(%rsp)
	movq	80(%rsp), %rax
	movq	%rax, 224(%rsp)
	movq	48(%rsp), %rax
	movq	%rax, 232(%rsp)
	movq	88(%rsp), %rax
	movq	%rax, 240(%rsp)
	movq	56(%rsp), %rax
	movq	%rax, 248(%rsp)
	leaq	96(%rsp), %rdi
	callq	"nm_set::member::Member::drop::<#801ed3b42cb27f26>"
	jmp	.LBB77_23
.LBB77_10:
	movb	%bpl, 96(%rsp)
	movl	(%rsp), %eax
	movl	%eax, 97(%rsp)
	movl	3(%rsp), %eax
	movl	%eax, 100(%rsp)
	movq	%r14, 104(%rsp)
	movq	40(%rsp), %rax
	movq	%rax, 112(%rsp)
	movq	32(%rsp), %rax
	movq	%rax, 120(%rsp)
	movq	64(%rsp), %rax
	movq	%rax, 128(%rsp)
	movq	%r15, 136(%rsp)
	movq	72(%rsp), %rax
	movq	%rax, 144(%rsp)
	movq	%r13, 152(%rsp)
	movaps	272(%rsp), %xmm0
	movaps	288(%rsp), %xmm1
	movups	%xmm0, 160(%rsp)
	movups	%xmm1, 176(%rsp)
	movq	8(%rsp), %rax
	movq	%rax, 192(%rsp)
	movq	16(%rsp), %rax
	movq	%rax, 200(%rsp)
	movq	%rbx, 208(%rsp)
	movq	24(%rsp), %rax
	movq	%rax, 216(%rsp)
	movq	80(%rsp), %rax
	movq	%rax, 224(%rsp)
	movq	48(%rsp), %rax
	movq	%rax, 232(%rsp)
	movq	88(%rsp), %rax
	movq	%rax, 240(%rsp)
	movq	56(%rsp), %rax
	movq	%rax, 248(%rsp)
	leaq	96(%rsp), %rdi
	callq	"nm_set::member::Member::drop::<#1bca8a4dd8d4d294>"
	jmp	.LBB77_23
.LBB77_11:
	movq	%r14, %rax
	movq	%r15, %rdi
	movq	24(%rsp), %r15
	movq	16(%rsp), %r14
	testb	%bpl, %bpl
	je	.LBB77_12
	callq	nm_host_dealloc@PLT
	movq	%r13, %rdi
	callq	nm_host_dealloc@PLT
	jmp	.LBB77_14
.LBB77_18:
	movq	48(%rsp), %r12
	movb	%bpl, 96(%rsp)
	movl	(%rsp), %eax
	movl	3(%rsp), %ecx
	movl	%eax, 97(%rsp)
	movl	%ecx, 100(%rsp)
	movq	%r14, 104(%rsp)
	movq	40(%rsp), %rax
	movq	%rax, 112(%rsp)
	leaq	96(%rsp), %rdi
	callq	"std_alloc::vec::Vec::drop::<#032578a7531b7385>"
	testq	%r15, %r15
	je	.LBB77_20
	movq	32(%rsp), %rdi
	callq	nm_host_dealloc@PLT
.LBB77_20:
	testb	%r13b, %r13b
	movq	56(%rsp), %r15
	movq	8(%rsp), %rdi
	je	.LBB77_23
	callq	nm_host_dealloc@PLT
	movq	%rbx, %rdi
	callq	nm_host_dealloc@PLT
	testq	%r15, %r15
	jne	.LBB77_22
	jmp	.LBB77_23
.LBB77_12:
	movq	%rax, %rdi
	callq	"std_alloc::arc::Arc::drop::<#58f27b66bb4955cb>"
.LBB77_14:
	movq	%r14, %r12
	movq	%r15, %r13
	testq	%rbx, %rbx
	je	.LBB77_9
	leaq	128(%r12), %r15
	.p2align	4
.LBB77_16:
	movq	(%r15), %r14
	movq	-48(%r15), %rax
	movq	%rax, 112(%rsp)
	movups	-64(%r15), %xmm0
	movaps	%xmm0, 96(%rsp)
	leaq	96(%rsp), %rdi
	callq	"std_alloc::vec::Vec::drop::<#032578a7531b7385>"
	movq	%r14, %rdi
	callq	nm_host_dealloc@PLT
	addq	$136, %r15
	decq	%rbx
	jne	.LBB77_16
	jmp	.LBB77_9
.LBB77_4:
	movq	%r14, %rdi
	callq	"std_alloc::arc::Arc::drop::<#58f27b66bb4955cb>"
.LBB77_6:
	testq	%rbx, %rbx
	je	.LBB77_9
	leaq	128(%r12), %r15
	.p2align	4
.LBB77_8:
	movq	(%r15), %r14
	movq	-48(%r15), %rax
	movq	%rax, 112(%rsp)
	movups	-64(%r15), %xmm0
	movaps	%xmm0, 96(%rsp)
	leaq	96(%rsp), %rdi
	callq	"std_alloc::vec::Vec::drop::<#032578a7531b7385>"
	movq	%r14, %rdi
	callq	nm_host_dealloc@PLT
	addq	$136, %r15
	decq	%rbx
	jne	.LBB77_8
.LBB77_9:
	testq	%r13, %r13
	je	.LBB77_23
.LBB77_22:
	movq	%r12, %rdi
	callq	nm_host_dealloc@PLT
.LBB77_23:
	xorl	%ecx, %ecx
	movq	264(%rsp), %rax
	xchgq	%rcx, 8(%rax)
	movl	$2, %eax
	addq	$312, %rsp
	.cfi_def_cfa_offset 56
	popq	%rbx
	.cfi_def_cfa_offset 48
	popq	%r12
	.cfi_def_cfa_offset 40
	popq	%r13
	.cfi_def_cfa_offset 32
	popq	%r14
	.cfi_def_cfa_offset 24
	popq	%r15
	.cfi_def_cfa_offset 16
	popq	%rbp
	.cfi_def_cfa_offset 8
	.cfi_restore %rbx
	.cfi_restore %r12
	.cfi_restore %r13
	.cfi_restore %r14
	.cfi_restore %r15
	.cfi_restore %rbp
	retq
.Lfunc_end77:
	.size	nm_drop, .Lfunc_end77-nm_drop
	.cfi_endproc
	.section	.rodata.nm_drop,"a",@progbits
	.p2align	2, 0x0
.LJTI77_0:
	.long	.LBB77_3-.LJTI77_0
	.long	.LBB77_10-.LJTI77_0
	.long	.LBB77_11-.LJTI77_0
	.long	.LBB77_17-.LJTI77_0
	.long	.LBB77_18-.LJTI77_0
	.long	.LBB77_23-.LJTI77_0
	.section	.text.nm_map_attached,"ax",@progbits
	.globl	nm_map_attached
	.p2align	4
	.type	nm_map_attached,@function
nm_map_attached:
	.cfi_startproc
	movl	$8388607, %eax
	.p2align	4
.LBB78_1:
	movl	$1, %ecx
	xchgq	%rcx, 8(%rdi)
	testq	%rcx, %rcx
	je	.LBB78_2
	pause
	decl	%eax
	jne	.LBB78_1
	movl	$1, %ecx
	xchgq	%rcx, 8(%rdi)
	movl	$-22, %eax
	testq	%rcx, %rcx
	je	.LBB78_6
	retq
.LBB78_2:
	movq	(%rdi), %rax
	movq	$0, (%rdi)
	testq	%rax, %rax
	jne	.LBB78_8
	xorl	%eax, %eax
	xchgq	%rax, 8(%rdi)
	movl	$-1, %eax
	retq
.LBB78_6:
	movq	(%rdi), %rax
	movq	$0, (%rdi)
	testq	%rax, %rax
	je	.LBB78_7
.LBB78_8:
	cmpb	$2, (%rax)
	jne	.LBB78_9
	cmpb	$0, 8(%rax)
	je	.LBB78_12
	movq	%rax, (%rdi)
	xorl	%eax, %eax
	xchgq	%rax, 8(%rdi)
	movl	$-19, %eax
	retq
.LBB78_9:
	movq	%rax, (%rdi)
	xorl	%eax, %eax
	xchgq	%rax, 8(%rdi)
	movl	$-3, %eax
	retq
.LBB78_12:
	movq	16(%rax), %rdx
	movl	%esi, %ecx
	cmpq	%rcx, 120(%rdx)
	jbe	.LBB78_13
	movq	104(%rdx), %rsi
	movq	(%rsi), %rsi
	movq	104(%rdx), %rdx
	movq	(%rdx,%rcx,8), %rcx
	testb	$1, %cl
	sete	%dl
	cmpq	$-2, %rcx
	setne	%cl
	movq	%rax, (%rdi)
	xorl	%eax, %eax
	xchgq	%rax, 8(%rdi)
	andb	%dl, %cl
	movzbl	%cl, %eax
	retq
.LBB78_7:
	xorl	%eax, %eax
	xchgq	%rax, 8(%rdi)
	movl	$-1, %eax
	retq
.LBB78_13:
	movq	%rax, (%rdi)
	xorl	%eax, %eax
	xchgq	%rax, 8(%rdi)
	movl	$-5, %eax
	retq
.Lfunc_end78:
	.size	nm_map_attached, .Lfunc_end78-nm_map_attached
	.cfi_endproc
	.section	.text.nm_map_close,"ax",@progbits
	.globl	nm_map_close
	.p2align	4
	.type	nm_map_close,@function
nm_map_close:
	.cfi_startproc
	pushq	%rbp
	.cfi_def_cfa_offset 16
	pushq	%r15
	.cfi_def_cfa_offset 24
	pushq	%r14
	.cfi_def_cfa_offset 32
	pushq	%r13
	.cfi_def_cfa_offset 40
	pushq	%r12
	.cfi_def_cfa_offset 48
	pushq	%rbx
	.cfi_def_cfa_offset 56
	subq	$2040, %rsp
	.cfi_def_cfa_offset 2096
	.cfi_offset %rbx, -56
	.cfi_offset %r12, -48
	.cfi_offset %r13, -40
	.cfi_offset %r14, -32
	.cfi_offset %r15, -24
	.cfi_offset %rbp, -16
	xorps	%xmm0, %xmm0
	movaps	%xmm0, 432(%rsp)
	movl	$0, 448(%rsp)
	movaps	%xmm0, 640(%rsp)
	movl	$0, 656(%rsp)
	movaps	%xmm0, 1648(%rsp)
	movaps	%xmm0, 1664(%rsp)
	movaps	%xmm0, 1680(%rsp)
	movaps	%xmm0, 1696(%rsp)
	movaps	%xmm0, 1712(%rsp)
	movaps	%xmm0, 1728(%rsp)
	movaps	%xmm0, 1744(%rsp)
	movaps	%xmm0, 1760(%rsp)
	movaps	%xmm0, 1776(%rsp)
	movaps	%xmm0, 1792(%rsp)
	movaps	%xmm0, 1808(%rsp)
	movq	$0, 1824(%rsp)
	movl	$0, 35(%rsp)
	movl	$0, 32(%rsp)
	movaps	%xmm0, 608(%rsp)
	movq	$0, 624(%rsp)
	movaps	%xmm0, 1232(%rsp)
	movaps	%xmm0, 1216(%rsp)
	movaps	%xmm0, 1200(%rsp)
	movaps	%xmm0, 1184(%rsp)
	movaps	%xmm0, 1168(%rsp)
	movaps	%xmm0, 1152(%rsp)
	movaps	%xmm0, 1136(%rsp)
	movaps	%xmm0, 1120(%rsp)
	movaps	%xmm0, 1104(%rsp)
	movaps	%xmm0, 1088(%rsp)
	movaps	%xmm0, 1072(%rsp)
	movaps	%xmm0, 1056(%rsp)
	movaps	%xmm0, 1040(%rsp)
	movaps	%xmm0, 1024(%rsp)
	movaps	%xmm0, 1008(%rsp)
	movaps	%xmm0, 992(%rsp)
	movaps	%xmm0, 976(%rsp)
	movaps	%xmm0, 960(%rsp)
	movaps	%xmm0, 944(%rsp)
	movaps	%xmm0, 928(%rsp)
	movaps	%xmm0, 576(%rsp)
	movq	$0, 592(%rsp)
	movl	$8388607, %eax
	.p2align	4
.LBB79_1:
	movl	$1, %ecx
	xchgq	%rcx, 8(%rdi)
	testq	%rcx, %rcx
	je	.LBB79_2
	pause
	decl	%eax
	jne	.LBB79_1
	movl	$1, %ecx
	xchgq	%rcx, 8(%rdi)
	movl	$-22, %eax
	testq	%rcx, %rcx
	jne	.LBB79_47
	movq	(%rdi), %r13
	movq	$0, (%rdi)
	testq	%r13, %r13
	jne	.LBB79_8
	xorl	%eax, %eax
	xchgq	%rax, 8(%rdi)
	movl	$-1, %eax
	jmp	.LBB79_47
.LBB79_2:
	movq	(%rdi), %r13
	movq	$0, (%rdi)
	testq	%r13, %r13
	je	.LBB79_3
.LBB79_8:
	movq	%rdi, 920(%rsp)
	movzbl	(%r13), %eax
	movb	%al, 304(%rsp)
	movq	8(%r13), %rax
	movq	%rax, 360(%rsp)
	movq	16(%r13), %rax
	movq	%rax, 16(%rsp)
	movq	24(%r13), %rax
	movq	%rax, 336(%rsp)
	movq	32(%r13), %rax
	movq	%rax, 320(%rsp)
	movzbl	40(%r13), %eax
	movq	%rax, 352(%rsp)
	movzwl	45(%r13), %eax
	movzbl	47(%r13), %ecx
	shll	$16, %ecx
	orl	%eax, %ecx
	shlq	$32, %rcx
	movl	41(%r13), %eax
	orq	%rcx, %rax
	movq	%rax, 56(%rsp)
	movq	48(%r13), %rax
	movq	%rax, 24(%rsp)
	movzbl	56(%r13), %eax
	movq	%rax, 344(%rsp)
	movzwl	61(%r13), %eax
	movzbl	63(%r13), %ecx
	shll	$16, %ecx
	orl	%eax, %ecx
	shlq	$32, %rcx
	movl	57(%r13), %eax
	orq	%rcx, %rax
	movq	%rax, 328(%rsp)
	movq	64(%r13), %rax
	movq	%rax, 48(%rsp)
	movq	72(%r13), %rax
	movq	%rax, 72(%rsp)
	movzwl	85(%r13), %eax
	movzbl	87(%r13), %ecx
	shll	$16, %ecx
	orl	%eax, %ecx
	shlq	$32, %rcx
	movl	81(%r13), %eax
	orq	%rcx, %rax
	movq	%rax, 80(%rsp)
	movzwl	133(%r13), %eax
	movzbl	135(%r13), %ecx
	shll	$16, %ecx
	orl	%eax, %ecx
	shlq	$32, %rcx
	movl	129(%r13), %ebx
	orq	%rcx, %rbx
	movzbl	80(%r13), %eax
	movq	%rax, 64(%rsp)
	movups	88(%r13), %xmm0
	movaps	%xmm0, 528(%rsp)
	movups	112(%r13), %xmm0
	movaps	%xmm0, 416(%rsp)
	movzbl	128(%r13), %eax
	movb	%al, 14(%rsp)
	movzbl	104(%r13), %eax
	movq	%rax, 40(%rsp)
	movzwl	109(%r13), %r14d
	movzbl	111(%r13), %ebp
	movl	105(%r13), %eax
	movq	%rax, 400(%rsp)
	movq	136(%r13), %rax
	movq	%rax, 88(%rsp)
	movq	144(%r13), %rax
	movq	%rax, 384(%rsp)
	movzbl	152(%r13), %eax
	movq	%rax, 376(%rsp)
	movzwl	157(%r13), %r12d
	movzbl	159(%r13), %r15d
	movl	153(%r13), %eax
	movq	%rax, 408(%rsp)
	movq	160(%r13), %rax
	movq	%rax, 392(%rsp)
	movl	184(%r13), %eax
	movl	%eax, 656(%rsp)
	movups	168(%r13), %xmm0
	movaps	%xmm0, 640(%rsp)
	movl	188(%r13), %eax
	movl	%eax, 312(%rsp)
	movq	$5, (%r13)
	leaq	8(%r13), %rdi
	leaq	1648(%rsp), %rsi
	movl	$184, %edx
	callq	memcpy@PLT
	xorps	%xmm0, %xmm0
	movaps	%xmm0, 1280(%rsp)
	movl	$0, 1296(%rsp)
	movaps	%xmm0, 464(%rsp)
	movl	$0, 480(%rsp)
	movaps	%xmm0, 1248(%rsp)
	movl	$0, 1264(%rsp)
	movzbl	304(%rsp), %eax
	cmpb	$2, %al
	jne	.LBB79_48
	movaps	%xmm0, 672(%rsp)
	movl	$0, 688(%rsp)
	movaps	%xmm0, 496(%rsp)
	movl	$0, 512(%rsp)
	movaps	%xmm0, 1840(%rsp)
	movaps	%xmm0, 1856(%rsp)
	movaps	%xmm0, 1872(%rsp)
	movaps	%xmm0, 1888(%rsp)
	movaps	%xmm0, 1904(%rsp)
	movaps	%xmm0, 1920(%rsp)
	movaps	%xmm0, 1936(%rsp)
	movaps	%xmm0, 1952(%rsp)
	movaps	%xmm0, 1968(%rsp)
	movaps	%xmm0, 1984(%rsp)
	movaps	%xmm0, 2000(%rsp)
	movaps	%xmm0, 2016(%rsp)
	movq	$0, 2032(%rsp)
	movaps	%xmm0, 704(%rsp)
	movl	$0, 720(%rsp)
	movaps	%xmm0, 1616(%rsp)
	movaps	%xmm0, 1600(%rsp)
	movaps	%xmm0, 1584(%rsp)
	movaps	%xmm0, 1568(%rsp)
	movaps	%xmm0, 1552(%rsp)
	movaps	%xmm0, 1536(%rsp)
	movaps	%xmm0, 1520(%rsp)
	movq	$0, 1632(%rsp)
	movaps	%xmm0, 1312(%rsp)
	movaps	%xmm0, 1328(%rsp)
	movaps	%xmm0, 1344(%rsp)
	movaps	%xmm0, 1360(%rsp)
	movaps	%xmm0, 1376(%rsp)
	movaps	%xmm0, 1392(%rsp)
	movaps	%xmm0, 1408(%rsp)
	movaps	%xmm0, 1424(%rsp)
	movaps	%xmm0, 1440(%rsp)
	movaps	%xmm0, 1456(%rsp)
	movaps	%xmm0, 1472(%rsp)
	movaps	%xmm0, 1488(%rsp)
	movaps	%xmm0, 1504(%rsp)
	movaps	416(%rsp), %xmm2
	movaps	%xmm2, 864(%rsp)
	movzbl	14(%rsp), %edi
	movb	%dil, 880(%rsp)
	movq	%rbx, %rax
	shrq	$48, %rax
	movb	%al, 887(%rsp)
	movq	%rbx, %rcx
	shrq	$32, %rcx
	movw	%cx, 885(%rsp)
	movl	%ebx, 881(%rsp)
	cmpb	$1, 360(%rsp)
	jne	.LBB79_14
	movq	16(%rsp), %rdx
	movq	%rdx, 768(%rsp)
	movq	336(%rsp), %rdx
	movq	%rdx, 776(%rsp)
	movq	320(%rsp), %rdx
	movq	%rdx, 784(%rsp)
	movq	352(%rsp), %rdx
	movb	%dl, 792(%rsp)
	movq	56(%rsp), %rsi
	movq	%rsi, %rdx
	shrq	$48, %rdx
	movb	%dl, 799(%rsp)
	movl	%esi, 793(%rsp)
	shrq	$32, %rsi
	movw	%si, 797(%rsp)
	movq	24(%rsp), %rdx
	movq	%rdx, 800(%rsp)
	movq	344(%rsp), %rdx
	movb	%dl, 808(%rsp)
	movq	328(%rsp), %rsi
	movq	%rsi, %rdx
	shrq	$48, %rdx
	movb	%dl, 815(%rsp)
	movl	%esi, 809(%rsp)
	shrq	$32, %rsi
	movw	%si, 813(%rsp)
	movq	48(%rsp), %rdx
	movq	%rdx, 816(%rsp)
	movq	72(%rsp), %rdx
	movq	%rdx, 824(%rsp)
	movq	64(%rsp), %rdx
	movb	%dl, 832(%rsp)
	movq	80(%rsp), %rsi
	movq	%rsi, %rdx
	shrq	$48, %rdx
	movb	%dl, 839(%rsp)
	movl	%esi, 833(%rsp)
	shrq	$32, %rsi
	movw	%si, 837(%rsp)
	movaps	%xmm2, 896(%rsp)
	movb	%dil, 912(%rsp)
	movb	%al, 919(%rsp)
	movw	%cx, 917(%rsp)
	movl	%ebx, 913(%rsp)
	movaps	%xmm0, 96(%rsp)
	movaps	%xmm0, 112(%rsp)
	movaps	%xmm0, 128(%rsp)
	movaps	%xmm0, 144(%rsp)
	movaps	%xmm0, 160(%rsp)
	movaps	%xmm0, 176(%rsp)
	movaps	%xmm0, 192(%rsp)
	movaps	%xmm0, 208(%rsp)
	movaps	%xmm0, 224(%rsp)
	movaps	%xmm0, 240(%rsp)
	movaps	%xmm0, 256(%rsp)
	movq	$0, 272(%rsp)
	movaps	%xmm0, 736(%rsp)
	movl	$0, 752(%rsp)
	movaps	528(%rsp), %xmm0
	movups	%xmm0, 840(%rsp)
	leaq	96(%rsp), %rdi
	leaq	768(%rsp), %rsi
	leaq	896(%rsp), %rdx
	callq	"nm_tree::tree::Tree::end"
	movzbl	96(%rsp), %eax
	movq	120(%rsp), %r12
	testb	%al, %al
	je	.LBB79_11
	movzbl	104(%rsp), %ecx
	movq	128(%rsp), %r11
	movq	136(%rsp), %rdx
	movq	%rdx, 24(%rsp)
	movzbl	144(%rsp), %r15d
	movzbl	151(%rsp), %edx
	shll	$16, %edx
	movzwl	149(%rsp), %esi
	orl	%edx, %esi
	shlq	$32, %rsi
	movl	145(%rsp), %edx
	orq	%rsi, %rdx
	movq	%rdx, 56(%rsp)
	movq	152(%rsp), %rdx
	movzbl	160(%rsp), %esi
	movzbl	167(%rsp), %edi
	shll	$16, %edi
	movzwl	165(%rsp), %r8d
	orl	%edi, %r8d
	shlq	$32, %r8
	movl	161(%rsp), %ebp
	orq	%r8, %rbp
	movq	168(%rsp), %rdi
	movq	%rdi, 48(%rsp)
	movq	176(%rsp), %rdi
	movq	%rdi, 72(%rsp)
	movzbl	184(%rsp), %edi
	movq	%rdi, 64(%rsp)
	movzbl	191(%rsp), %edi
	shll	$16, %edi
	movzwl	189(%rsp), %r8d
	orl	%edi, %r8d
	shlq	$32, %r8
	movl	185(%rsp), %edi
	orq	%r8, %rdi
	movq	%rdi, 80(%rsp)
	movaps	192(%rsp), %xmm1
	movaps	208(%rsp), %xmm2
	movzbl	231(%rsp), %edi
	shll	$16, %edi
	movzwl	229(%rsp), %r8d
	orl	%edi, %r8d
	shlq	$32, %r8
	movl	225(%rsp), %ebx
	orq	%r8, %rbx
	movzbl	224(%rsp), %edi
	movb	%dil, 14(%rsp)
	movq	%r12, 16(%rsp)
	xorl	%r14d, %r14d
	movq	$0, 88(%rsp)
	xorl	%edi, %edi
	movl	$1, %r12d
	jmp	.LBB79_13
.LBB79_48:
	movl	%eax, %r9d
	shll	$16, %ebp
	orl	%ebp, %r14d
	shlq	$32, %r14
	addq	%r14, 400(%rsp)
	shll	$16, %r15d
	orl	%r15d, %r12d
	shlq	$32, %r12
	addq	%r12, 408(%rsp)
	movl	656(%rsp), %eax
	movl	%eax, 448(%rsp)
	movaps	640(%rsp), %xmm0
	movaps	%xmm0, 432(%rsp)
	movl	$7, %eax
	movq	%rax, 368(%rsp)
	movb	$5, 15(%rsp)
	movq	40(%rsp), %r8
	movq	16(%rsp), %rbp
	movaps	528(%rsp), %xmm1
	movaps	416(%rsp), %xmm2
	movl	312(%rsp), %r10d
	jmp	.LBB79_25
.LBB79_3:
	xorl	%eax, %eax
	xchgq	%rax, 8(%rdi)
	movl	$-1, %eax
	jmp	.LBB79_47
.LBB79_14:
	xorps	%xmm1, %xmm1
	movaps	%xmm1, 272(%rsp)
	movaps	%xmm1, 256(%rsp)
	movaps	%xmm1, 240(%rsp)
	movaps	%xmm1, 224(%rsp)
	movaps	%xmm1, 208(%rsp)
	movaps	%xmm1, 192(%rsp)
	movaps	%xmm1, 176(%rsp)
	movaps	%xmm1, 160(%rsp)
	movaps	%xmm1, 144(%rsp)
	movaps	%xmm1, 128(%rsp)
	movaps	%xmm1, 112(%rsp)
	movaps	%xmm1, 96(%rsp)
	movq	$0, 288(%rsp)
	movq	16(%rsp), %r15
	movq	(%r15), %rax
	cmpq	$1, %rax
	jne	.LBB79_19
	movq	8(%r15), %r12
	leaq	16(%r15), %rsi
	leaq	96(%rsp), %r14
	movl	$200, %edx
	movq	%r14, %rdi
	callq	memcpy@PLT
	movq	%r15, %rdi
	callq	nm_host_dealloc@PLT
	leaq	1840(%rsp), %r15
	movl	$200, %edx
	movq	%r15, %rdi
	movq	%r14, %rsi
	callq	memcpy@PLT
	movq	%r12, 1312(%rsp)
	leaq	1320(%rsp), %rdi
	movl	$200, %edx
	movq	%r15, %rsi
	callq	memcpy@PLT
	leaq	1520(%rsp), %r14
	leaq	1312(%rsp), %rsi
	leaq	864(%rsp), %rdx
	movq	%r14, %rdi
	callq	"nm_set::home::Home::gather"
	movzbl	1608(%rsp), %ebx
	leaq	1616(%rsp), %rdx
	xorps	%xmm0, %xmm0
	movaps	%xmm0, 96(%rsp)
	movaps	%xmm0, 112(%rsp)
	movaps	%xmm0, 128(%rsp)
	movaps	%xmm0, 144(%rsp)
	movaps	%xmm0, 160(%rsp)
	movaps	%xmm0, 176(%rsp)
	movaps	%xmm0, 192(%rsp)
	movaps	%xmm0, 208(%rsp)
	movaps	%xmm0, 224(%rsp)
	movaps	%xmm0, 240(%rsp)
	movaps	%xmm0, 256(%rsp)
	movq	$0, 272(%rsp)
	movaps	%xmm0, 768(%rsp)
	movl	$0, 784(%rsp)
	leaq	96(%rsp), %rdi
	movq	%r14, %rsi
	callq	"nm_tree::tree::Tree::end"
	movzbl	96(%rsp), %eax
	movq	120(%rsp), %r12
	testb	%al, %al
	je	.LBB79_16
	movq	%rbx, 40(%rsp)
	movzbl	104(%rsp), %ecx
	movq	128(%rsp), %r11
	movq	136(%rsp), %rdx
	movq	%rdx, 24(%rsp)
	movzbl	144(%rsp), %r15d
	movzbl	151(%rsp), %edx
	shll	$16, %edx
	movzwl	149(%rsp), %esi
	orl	%edx, %esi
	shlq	$32, %rsi
	movl	145(%rsp), %edx
	orq	%rsi, %rdx
	movq	%rdx, 56(%rsp)
	movq	152(%rsp), %rdx
	movzbl	160(%rsp), %esi
	movzbl	167(%rsp), %edi
	shll	$16, %edi
	movzwl	165(%rsp), %r8d
	orl	%edi, %r8d
	shlq	$32, %r8
	movl	161(%rsp), %ebp
	orq	%r8, %rbp
	movq	168(%rsp), %rdi
	movq	%rdi, 48(%rsp)
	movq	176(%rsp), %rdi
	movq	%rdi, 72(%rsp)
	movzbl	184(%rsp), %edi
	movq	%rdi, 64(%rsp)
	movzbl	191(%rsp), %edi
	shll	$16, %edi
	movzwl	189(%rsp), %r8d
	orl	%edi, %r8d
	shlq	$32, %r8
	movl	185(%rsp), %edi
	orq	%r8, %rdi
	movq	%rdi, 80(%rsp)
	movaps	192(%rsp), %xmm1
	movaps	208(%rsp), %xmm2
	movzbl	231(%rsp), %edi
	shll	$16, %edi
	movzwl	229(%rsp), %r8d
	orl	%edi, %r8d
	shlq	$32, %r8
	movl	225(%rsp), %ebx
	orq	%r8, %rbx
	movzbl	224(%rsp), %edi
	movb	%dil, 14(%rsp)
	movq	%r12, 16(%rsp)
	xorl	%r14d, %r14d
	movq	$0, 88(%rsp)
	xorl	%edi, %edi
	movl	$1, %r12d
	jmp	.LBB79_18
.LBB79_19:
	xorl	%r11d, %r11d
	movl	$2, %ecx
	movb	$1, %al
	movq	$0, 24(%rsp)
	xorl	%r15d, %r15d
	movq	$0, 56(%rsp)
	xorl	%ebp, %ebp
	movq	$0, 80(%rsp)
	xorl	%r14d, %r14d
	xorl	%edx, %edx
	xorl	%esi, %esi
	movq	$0, 48(%rsp)
	movq	$0, 64(%rsp)
	movq	$0, 72(%rsp)
	movq	$0, 88(%rsp)
	xorl	%r9d, %r9d
	xorl	%r8d, %r8d
	xorl	%edi, %edi
	xorl	%r12d, %r12d
	movq	$0, 40(%rsp)
	jmp	.LBB79_20
.LBB79_11:
	movl	104(%rsp), %ecx
	movl	116(%rsp), %edi
	movzbl	216(%rsp), %edx
	movq	%rdx, 40(%rsp)
	movq	128(%rsp), %rdx
	movq	%rdx, 16(%rsp)
	movq	136(%rsp), %r11
	movq	144(%rsp), %rdx
	movq	%rdx, 24(%rsp)
	movzbl	152(%rsp), %r15d
	movzbl	159(%rsp), %edx
	shll	$16, %edx
	movzwl	157(%rsp), %esi
	orl	%edx, %esi
	shlq	$32, %rsi
	movl	153(%rsp), %edx
	orq	%rsi, %rdx
	movq	%rdx, 56(%rsp)
	movq	160(%rsp), %rdx
	movzbl	168(%rsp), %esi
	movzbl	175(%rsp), %r8d
	shll	$16, %r8d
	movzwl	173(%rsp), %r9d
	orl	%r8d, %r9d
	shlq	$32, %r9
	movl	169(%rsp), %ebp
	orq	%r9, %rbp
	movzbl	199(%rsp), %r8d
	shll	$16, %r8d
	movzwl	197(%rsp), %r9d
	orl	%r8d, %r9d
	shlq	$32, %r9
	movl	193(%rsp), %r8d
	orq	%r9, %r8
	movq	%r8, 80(%rsp)
	movzbl	223(%rsp), %r8d
	shll	$16, %r8d
	movzwl	221(%rsp), %r9d
	orl	%r8d, %r9d
	shlq	$32, %r9
	movl	217(%rsp), %r14d
	orq	%r9, %r14
	movzbl	247(%rsp), %r8d
	shll	$16, %r8d
	movzwl	245(%rsp), %r9d
	orl	%r8d, %r9d
	shlq	$32, %r9
	movl	241(%rsp), %ebx
	orq	%r9, %rbx
	movl	272(%rsp), %r8d
	movl	%r8d, 752(%rsp)
	movq	176(%rsp), %r8
	movq	%r8, 48(%rsp)
	movups	200(%rsp), %xmm1
	movaps	224(%rsp), %xmm2
	movaps	256(%rsp), %xmm0
	movaps	%xmm0, 736(%rsp)
	movzbl	240(%rsp), %r8d
	movb	%r8b, 14(%rsp)
	movq	184(%rsp), %r8
	movq	%r8, 72(%rsp)
	movzbl	192(%rsp), %r8d
	movq	%r8, 64(%rsp)
	movq	248(%rsp), %r8
	movq	%r8, 88(%rsp)
.LBB79_13:
	movl	108(%rsp), %r9d
	movl	112(%rsp), %r8d
	movl	752(%rsp), %r10d
	movl	%r10d, 512(%rsp)
	movaps	736(%rsp), %xmm0
	jmp	.LBB79_21
.LBB79_16:
	movl	104(%rsp), %ecx
	movl	116(%rsp), %edi
	movzbl	216(%rsp), %edx
	movq	%rdx, 40(%rsp)
	movq	128(%rsp), %rdx
	movq	%rdx, 16(%rsp)
	movq	136(%rsp), %r11
	movq	144(%rsp), %rdx
	movq	%rdx, 24(%rsp)
	movzbl	152(%rsp), %r15d
	movzbl	159(%rsp), %edx
	shll	$16, %edx
	movzwl	157(%rsp), %esi
	orl	%edx, %esi
	shlq	$32, %rsi
	movl	153(%rsp), %edx
	orq	%rsi, %rdx
	movq	%rdx, 56(%rsp)
	movq	160(%rsp), %rdx
	movzbl	168(%rsp), %esi
	movzbl	175(%rsp), %r8d
	shll	$16, %r8d
	movzwl	173(%rsp), %r9d
	orl	%r8d, %r9d
	shlq	$32, %r9
	movl	169(%rsp), %ebp
	orq	%r9, %rbp
	movzbl	199(%rsp), %r8d
	shll	$16, %r8d
	movzwl	197(%rsp), %r9d
	orl	%r8d, %r9d
	shlq	$32, %r9
	movl	193(%rsp), %r8d
	orq	%r9, %r8
	movq	%r8, 80(%rsp)
	movzbl	223(%rsp), %r8d
	shll	$16, %r8d
	movzwl	221(%rsp), %r9d
	orl	%r8d, %r9d
	shlq	$32, %r9
	movl	217(%rsp), %r14d
	orq	%r9, %r14
	movzbl	247(%rsp), %r8d
	shll	$16, %r8d
	movzwl	245(%rsp), %r9d
	orl	%r8d, %r9d
	shlq	$32, %r9
	movl	241(%rsp), %ebx
	orq	%r9, %rbx
	movl	272(%rsp), %r8d
	movl	%r8d, 784(%rsp)
	movq	176(%rsp), %r8
	movq	%r8, 48(%rsp)
	movups	200(%rsp), %xmm1
	movaps	224(%rsp), %xmm2
	movaps	256(%rsp), %xmm0
	movaps	%xmm0, 768(%rsp)
	movzbl	240(%rsp), %r8d
	movb	%r8b, 14(%rsp)
	movq	184(%rsp), %r8
	movq	%r8, 72(%rsp)
	movzbl	192(%rsp), %r8d
	movq	%r8, 64(%rsp)
	movq	248(%rsp), %r8
	movq	%r8, 88(%rsp)
.LBB79_18:
	movl	108(%rsp), %r9d
	movl	112(%rsp), %r8d
	movl	784(%rsp), %r10d
	movl	%r10d, 720(%rsp)
	movaps	768(%rsp), %xmm0
	movaps	%xmm0, 704(%rsp)
.LBB79_20:
	movl	720(%rsp), %r10d
	movl	%r10d, 512(%rsp)
	movaps	704(%rsp), %xmm0
.LBB79_21:
	movaps	%xmm0, 496(%rsp)
	movl	512(%rsp), %r10d
	movl	%r10d, 688(%rsp)
	movaps	496(%rsp), %xmm0
	movaps	%xmm0, 672(%rsp)
	testb	%al, %al
	je	.LBB79_22
	movq	%rbp, 328(%rsp)
	movzbl	%r12b, %eax
	movq	%rax, 360(%rsp)
	shll	$3, %ecx
	movl	$1576474, %edi
	shrl	%cl, %edi
	movaps	1248(%rsp), %xmm0
	movaps	%xmm0, 464(%rsp)
	movl	1264(%rsp), %eax
	movl	%eax, 480(%rsp)
	addl	$30, %edi
	andl	$30, %edi
	movq	%rdi, 368(%rsp)
	movb	$2, %r9b
	xorl	%r8d, %r8d
	movq	%r11, 336(%rsp)
	movq	24(%rsp), %rax
	movq	%rax, 320(%rsp)
	movl	%r15d, %eax
	movq	%rax, 352(%rsp)
	movq	$0, 88(%rsp)
	movq	$0, 384(%rsp)
	movq	$0, 376(%rsp)
	movq	$0, 392(%rsp)
	movq	%rdx, 24(%rsp)
	movq	%rsi, 344(%rsp)
	movq	16(%rsp), %rbp
	jmp	.LBB79_24
.LBB79_22:
	movq	%r12, 336(%rsp)
	movq	%r15, 344(%rsp)
	movl	688(%rsp), %eax
	movl	%eax, 1296(%rsp)
	movaps	672(%rsp), %xmm0
	movaps	%xmm0, 1280(%rsp)
	shlq	$32, %r9
	movl	%ecx, %ecx
	orq	%r9, %rcx
	movq	%rcx, 360(%rsp)
	shlq	$32, %rdi
	movq	16(%rsp), %rcx
	movq	%rcx, 320(%rsp)
	movl	%r8d, %ecx
	orq	%rdi, %rcx
	movq	%rbp, %r8
	movq	56(%rsp), %rdi
	movq	%rdi, 328(%rsp)
	movq	%r11, 352(%rsp)
	movq	%r11, %rdi
	shrq	$8, %rdi
	movaps	%xmm0, 464(%rsp)
	movl	%eax, 480(%rsp)
	movb	$4, %r9b
	movq	$0, 368(%rsp)
	movq	%rdi, 56(%rsp)
	movq	%rdx, 384(%rsp)
	movq	%rsi, 376(%rsp)
	movq	48(%rsp), %rax
	movq	%rax, 392(%rsp)
	movq	%rcx, %rbp
	movl	$1, %eax
	movq	%rax, 48(%rsp)
.LBB79_24:
	movq	%r8, 408(%rsp)
	movl	480(%rsp), %eax
	movl	%eax, 448(%rsp)
	movaps	464(%rsp), %xmm0
	movaps	%xmm0, 432(%rsp)
	movzbl	(%r13), %eax
	movb	%al, 15(%rsp)
	xorl	%r10d, %r10d
	movq	40(%rsp), %r8
	movq	%r14, 400(%rsp)
.LBB79_25:
	movzbl	8(%r13), %r11d
	movl	12(%r13), %ecx
	movl	%ecx, 35(%rsp)
	movl	9(%r13), %ecx
	movl	%ecx, 32(%rsp)
	movq	16(%r13), %rdi
	movq	24(%r13), %rax
	movq	%rax, 416(%rsp)
	movq	32(%r13), %rax
	movq	%rax, 304(%rsp)
	movq	40(%r13), %rax
	movq	%rax, 552(%rsp)
	movq	48(%r13), %r12
	movq	56(%r13), %rax
	movq	%rax, 560(%rsp)
	movq	64(%r13), %rsi
	movq	72(%r13), %rax
	movq	%rax, 568(%rsp)
	leaq	80(%r13), %rdx
	movq	16(%rdx), %rcx
	movq	%rcx, 624(%rsp)
	movups	(%rdx), %xmm0
	movaps	%xmm0, 608(%rsp)
	movzbl	%r9b, %r14d
	movq	104(%r13), %rdx
	movq	112(%r13), %r9
	movq	120(%r13), %r15
	movq	128(%r13), %rcx
	movq	136(%r13), %rax
	movq	%rax, 312(%rsp)
	movq	144(%r13), %rax
	movq	%rax, 40(%rsp)
	movq	152(%r13), %rax
	movq	%rax, 528(%rsp)
	movq	160(%r13), %rax
	movq	%rax, 16(%rsp)
	movq	%r14, (%r13)
	movq	360(%rsp), %r14
	movq	%r14, 8(%r13)
	movq	%rbp, 16(%r13)
	movq	336(%rsp), %r14
	movq	%r14, 24(%r13)
	movq	320(%rsp), %r14
	movq	%r14, 32(%r13)
	movq	352(%rsp), %r14
	movb	%r14b, 40(%r13)
	movq	56(%rsp), %rbp
	movq	%rbp, %r14
	shrq	$48, %r14
	movb	%r14b, 47(%r13)
	movq	%rbp, %r14
	shrq	$32, %r14
	movw	%r14w, 45(%r13)
	movl	%ebp, 41(%r13)
	movq	24(%rsp), %r14
	movq	%r14, 48(%r13)
	movq	344(%rsp), %r14
	movb	%r14b, 56(%r13)
	movq	328(%rsp), %rbp
	movq	%rbp, %r14
	shrq	$48, %r14
	movb	%r14b, 63(%r13)
	movq	%rbp, %r14
	shrq	$32, %r14
	movw	%r14w, 61(%r13)
	movl	%ebp, 57(%r13)
	movq	48(%rsp), %r14
	movq	%r14, 64(%r13)
	movq	72(%rsp), %r14
	movq	%r14, 72(%r13)
	movq	64(%rsp), %r14
	movb	%r14b, 80(%r13)
	movq	80(%rsp), %rbp
	movq	%rbp, %r14
	shrq	$48, %r14
	movb	%r14b, 87(%r13)
	movq	%rbp, %r14
	shrq	$32, %r14
	movw	%r14w, 85(%r13)
	movl	%ebp, 81(%r13)
	movups	%xmm1, 88(%r13)
	movb	%r8b, 104(%r13)
	movq	400(%rsp), %r8
	movq	%r8, %r14
	shrq	$48, %r14
	movb	%r14b, 111(%r13)
	movq	%r8, %r14
	shrq	$32, %r14
	movw	%r14w, 109(%r13)
	movl	%r8d, 105(%r13)
	movups	%xmm2, 112(%r13)
	movzbl	14(%rsp), %ebp
	movb	%bpl, 128(%r13)
	movq	%rbx, %r14
	shrq	$48, %r14
	movb	%r14b, 135(%r13)
	movq	%rbx, %r14
	shrq	$32, %r14
	movw	%r14w, 133(%r13)
	movl	%ebx, 129(%r13)
	movq	88(%rsp), %r8
	movq	%r8, 136(%r13)
	movq	384(%rsp), %r8
	movq	%r8, 144(%r13)
	movq	376(%rsp), %r8
	movb	%r8b, 152(%r13)
	movq	408(%rsp), %r8
	movq	%r8, %r14
	shrq	$48, %r14
	movb	%r14b, 159(%r13)
	movq	%r8, %r14
	shrq	$32, %r14
	movw	%r14w, 157(%r13)
	movl	%r8d, 153(%r13)
	movq	392(%rsp), %r8
	movq	%r8, 160(%r13)
	movl	448(%rsp), %ebp
	leaq	168(%r13), %r14
	movl	%ebp, 16(%r14)
	movaps	432(%rsp), %xmm0
	movups	%xmm0, (%r14)
	movl	%r10d, 188(%r13)
	movzbl	15(%rsp), %eax
	leaq	.LJTI79_0(%rip), %r14
	movslq	(%r14,%rax,4), %rax
	addq	%r14, %rax
	jmpq	*%rax
.LBB79_26:
	movq	%rcx, %rbp
	movq	%r9, %rbx
	testb	%r11b, %r11b
	je	.LBB79_27
	movq	%rsi, %r14
	movq	%r12, %rdi
	callq	nm_host_dealloc@PLT
	movq	%r14, %rdi
	callq	nm_host_dealloc@PLT
	testq	%r15, %r15
	jne	.LBB79_30
	jmp	.LBB79_32
.LBB79_40:
	movb	%r11b, 928(%rsp)
	movl	32(%rsp), %eax
	movl	%eax, 929(%rsp)
	movl	35(%rsp), %eax
	movl	%eax, 932(%rsp)
	movq	%rdi, 936(%rsp)
	movq	416(%rsp), %rax
	movq	%rax, 944(%rsp)
	movq	304(%rsp), %rax
	movq	%rax, 952(%rsp)
	movq	552(%rsp), %rax
	movq	%rax, 960(%rsp)
	movq	%r12, 968(%rsp)
	movq	560(%rsp), %rax
	movq	%rax, 976(%rsp)
	movq	%rsi, 984(%rsp)
	movq	568(%rsp), %rax
	movq	%rax, 992(%rsp)
	movq	624(%rsp), %rax
	movq	%rax, 1016(%rsp)
	movaps	608(%rsp), %xmm0
	movups	%xmm0, 1000(%rsp)
	movq	%rdx, 1024(%rsp)
	movq	%r9, 1032(%rsp)
	movq	%r15, 1040(%rsp)
	movq	%rcx, 1048(%rsp)
	movq	312(%rsp), %rax
	movq	%rax, 1056(%rsp)
	movq	40(%rsp), %rax
	movq	%rax, 1064(%rsp)
	movq	528(%rsp), %rax
	movq	%rax, 1072(%rsp)
	movq	16(%rsp), %rax
	movq	%rax, 1080(%rsp)
	leaq	928(%rsp), %rdi
	callq	"nm_set::member::Member::drop::<#801ed3b42cb27f26>"
	jmp	.LBB79_46
.LBB79_33:
	movb	%r11b, 1088(%rsp)
	movl	32(%rsp), %eax
	movl	%eax, 1089(%rsp)
	movl	35(%rsp), %eax
	movl	%eax, 1092(%rsp)
	movq	%rdi, 1096(%rsp)
	movq	416(%rsp), %rax
	movq	%rax, 1104(%rsp)
	movq	304(%rsp), %rax
	movq	%rax, 1112(%rsp)
	movq	552(%rsp), %rax
	movq	%rax, 1120(%rsp)
	movq	%r12, 1128(%rsp)
	movq	560(%rsp), %rax
	movq	%rax, 1136(%rsp)
	movq	%rsi, 1144(%rsp)
	movq	568(%rsp), %rax
	movq	%rax, 1152(%rsp)
	movq	624(%rsp), %rax
	movq	%rax, 1176(%rsp)
	movaps	608(%rsp), %xmm0
	movups	%xmm0, 1160(%rsp)
	movq	%rdx, 1184(%rsp)
	movq	%r9, 1192(%rsp)
	movq	%r15, 1200(%rsp)
	movq	%rcx, 1208(%rsp)
	movq	312(%rsp), %rax
	movq	%rax, 1216(%rsp)
	movq	40(%rsp), %rax
	movq	%rax, 1224(%rsp)
	movq	528(%rsp), %rax
	movq	%rax, 1232(%rsp)
	movq	16(%rsp), %rax
	movq	%rax, 1240(%rsp)
	leaq	1088(%rsp), %rdi
	callq	"nm_set::member::Member::drop::<#1bca8a4dd8d4d294>"
	jmp	.LBB79_46
.LBB79_34:
	movq	%rcx, %rbp
	movq	%r9, %rbx
	testb	%r11b, %r11b
	je	.LBB79_35
	movq	%rsi, %r14
	movq	%r12, %rdi
	callq	nm_host_dealloc@PLT
	movq	%r14, %rdi
	callq	nm_host_dealloc@PLT
	testq	%r15, %r15
	jne	.LBB79_38
	jmp	.LBB79_32
.LBB79_41:
	movq	%rdx, 24(%rsp)
	movq	%rsi, %rbp
	movq	16(%rsp), %r14
	movq	40(%rsp), %rbx
	movb	%r11b, 576(%rsp)
	movl	32(%rsp), %eax
	movl	35(%rsp), %ecx
	movl	%eax, 577(%rsp)
	movl	%ecx, 580(%rsp)
	movq	%rdi, 584(%rsp)
	movq	416(%rsp), %rax
	movq	%rax, 592(%rsp)
	leaq	576(%rsp), %rdi
	callq	"std_alloc::vec::Vec::drop::<#032578a7531b7385>"
	testq	%r12, %r12
	je	.LBB79_43
	movq	304(%rsp), %rdi
	callq	nm_host_dealloc@PLT
.LBB79_43:
	cmpb	$1, %bpl
	movq	24(%rsp), %rdi
	jne	.LBB79_46
	callq	nm_host_dealloc@PLT
	movq	%r15, %rdi
	callq	nm_host_dealloc@PLT
	testq	%r14, %r14
	jne	.LBB79_45
	jmp	.LBB79_46
.LBB79_35:
	callq	"std_alloc::arc::Arc::drop::<#58f27b66bb4955cb>"
	testq	%r15, %r15
	je	.LBB79_32
.LBB79_38:
	leaq	128(%rbx), %r12
	.p2align	4
.LBB79_39:
	movq	(%r12), %r14
	movq	-48(%r12), %rax
	movq	%rax, 1328(%rsp)
	movups	-64(%r12), %xmm0
	movaps	%xmm0, 1312(%rsp)
	leaq	1312(%rsp), %rdi
	callq	"std_alloc::vec::Vec::drop::<#032578a7531b7385>"
	movq	%r14, %rdi
	callq	nm_host_dealloc@PLT
	addq	$136, %r12
	decq	%r15
	jne	.LBB79_39
	jmp	.LBB79_32
.LBB79_27:
	callq	"std_alloc::arc::Arc::drop::<#58f27b66bb4955cb>"
	testq	%r15, %r15
	je	.LBB79_32
.LBB79_30:
	leaq	128(%rbx), %r12
	.p2align	4
.LBB79_31:
	movq	(%r12), %r14
	movq	-48(%r12), %rax
	movq	%rax, 1328(%rsp)
	movups	-64(%r12), %xmm0
	movaps	%xmm0, 1312(%rsp)
	leaq	1312(%rsp), %rdi
	callq	"std_alloc::vec::Vec::drop::<#032578a7531b7385>"
	movq	%r14, %rdi
	callq	nm_host_dealloc@PLT
	addq	$136, %r12
	decq	%r15
	jne	.LBB79_31
.LBB79_32:
	testq	%rbp, %rbp
	je	.LBB79_46
.LBB79_45:
	movq	%rbx, %rdi
	callq	nm_host_dealloc@PLT
.LBB79_46:
	movq	920(%rsp), %rcx
	movq	%r13, (%rcx)
	xorl	%eax, %eax
	xchgq	%rax, 8(%rcx)
	leaq	.Lswitch.table.nm_worker_end(%rip), %rax
	movq	368(%rsp), %rcx
	movl	(%rax,%rcx,4), %eax
.LBB79_47:
	addq	$2040, %rsp
	.cfi_def_cfa_offset 56
	popq	%rbx
	.cfi_def_cfa_offset 48
	popq	%r12
	.cfi_def_cfa_offset 40
	popq	%r13
	.cfi_def_cfa_offset 32
	popq	%r14
	.cfi_def_cfa_offset 24
	popq	%r15
	.cfi_def_cfa_offset 16
	popq	%rbp
	.cfi_def_cfa_offset 8
	retq
.Lfunc_end79:
	.size	nm_map_close, .Lfunc_end79-nm_map_close
	.cfi_endproc
	.section	.rodata.nm_map_close,"a",@progbits
	.p2align	2, 0x0
.LJTI79_0:
	.long	.LBB79_26-.LJTI79_0
	.long	.LBB79_33-.LJTI79_0
	.long	.LBB79_34-.LJTI79_0
	.long	.LBB79_40-.LJTI79_0
	.long	.LBB79_41-.LJTI79_0
	.long	.LBB79_46-.LJTI79_0
	.section	.text.nm_map_get,"ax",@progbits
	.globl	nm_map_get
	.p2align	4
	.type	nm_map_get,@function
nm_map_get:
	.cfi_startproc
	pushq	%rbp
	.cfi_def_cfa_offset 16
	pushq	%r15
	.cfi_def_cfa_offset 24
	pushq	%r14
	.cfi_def_cfa_offset 32
	pushq	%r13
	.cfi_def_cfa_offset 40
	pushq	%r12
	.cfi_def_cfa_offset 48
	pushq	%rbx
	.cfi_def_cfa_offset 56
	subq	$40, %rsp
	.cfi_def_cfa_offset 96
	.cfi_offset %rbx, -56
	.cfi_offset %r12, -48
	.cfi_offset %r13, -40
	.cfi_offset %r14, -32
	.cfi_offset %r15, -24
	.cfi_offset %rbp, -16
	movl	$1, %r8d
	xchgq	%r8, 8(%rdi)
	movl	$-22, %eax
	testq	%r8, %r8
	je	.LBB80_1
.LBB80_40:
	addq	$40, %rsp
	.cfi_def_cfa_offset 56
	popq	%rbx
	.cfi_def_cfa_offset 48
	popq	%r12
	.cfi_def_cfa_offset 40
	popq	%r13
	.cfi_def_cfa_offset 32
	popq	%r14
	.cfi_def_cfa_offset 24
	popq	%r15
	.cfi_def_cfa_offset 16
	popq	%rbp
	.cfi_def_cfa_offset 8
	retq
.LBB80_1:
	.cfi_def_cfa_offset 96
	movq	(%rdi), %rbx
	movq	$0, (%rdi)
	testq	%rbx, %rbx
	je	.LBB80_41
	cmpb	$3, (%rbx)
	jne	.LBB80_39
	xorl	%eax, %eax
	cmpq	$-3, %rsi
	cmovbq	%rsi, %rax
	jae	.LBB80_32
	movzbl	112(%rbx), %r8d
	cmpb	$1, %r8b
	jne	.LBB80_5
.LBB80_38:
	movq	%rbx, (%rdi)
	xorl	%eax, %eax
	xchgq	%rax, 8(%rdi)
	movl	$-13, %eax
	jmp	.LBB80_40
.LBB80_41:
	xorl	%eax, %eax
	xchgq	%rax, 8(%rdi)
	movl	$-1, %eax
	jmp	.LBB80_40
.LBB80_39:
	movq	%rbx, (%rdi)
	xorl	%eax, %eax
	xchgq	%rax, 8(%rdi)
	movl	$-3, %eax
	jmp	.LBB80_40
.LBB80_32:
	movq	%rbx, (%rdi)
	xorl	%eax, %eax
	xchgq	%rax, 8(%rdi)
	movl	$-4, %eax
	jmp	.LBB80_40
.LBB80_5:
	cmpb	$2, %r8b
	je	.LBB80_23
	movl	(%rdx), %r9d
	testl	%r9d, %r9d
	je	.LBB80_25
	movq	8(%rbx), %r8
	movq	8(%r8), %rsi
	movq	(%rsi), %r10
	movq	$1, 24(%rbx)
	movq	%r10, 32(%rbx)
	leaq	40(%rbx), %rsi
	.p2align	4
.LBB80_9:
	movl	20(%rbx), %r11d
	leaq	1(%r10), %r14
	movq	8(%r8), %r15
	xchgq	%r14, (%r15,%r11,8)
	movq	$1, 40(%rbx)
	movq	%r10, 48(%rbx)
	movq	8(%r8), %r10
	movq	(%r10), %r10
	testb	$1, 72(%rbx)
	jne	.LBB80_42
	cmpb	$0, 56(%rbx)
	jne	.LBB80_43
	cmpb	$1, 40(%rbx)
	jne	.LBB80_43
	cmpq	%r10, 48(%rbx)
	movq	$1, 24(%rbx)
	movq	%r10, 32(%rbx)
	je	.LBB80_13
	decl	%r9d
	jne	.LBB80_9
	movq	8(%r8), %r8
	movl	20(%rbx), %r9d
	xorl	%r10d, %r10d
	xchgq	%r10, (%r8,%r9,8)
	xorps	%xmm0, %xmm0
	movups	%xmm0, 16(%rsi)
	movups	%xmm0, (%rsi)
	jmp	.LBB80_25
.LBB80_13:
	movq	$1, 56(%rbx)
	movq	%r10, 64(%rbx)
	movl	72(%r8), %r10d
	movl	88(%r8), %r9d
	movq	8(%r8), %r11
	decl	%r10d
	testb	$1, 84(%r8)
	leal	4(%r9), %r14d
	movq	8(%r11,%r14,8), %r14
	movl	$65, %r11d
	cmovel	%r10d, %r11d
	testl	%r11d, %r11d
	je	.LBB80_14
	addl	$-4, %r9d
.LBB80_18:
	movq	%r14, %r10
	shrq	$2, %r10
	movq	8(%r8), %r14
	leal	(%r9,%r10,4), %r12d
	movq	(%r14,%r12,8), %r15
	movq	8(%r8), %r14
	movq	8(%r14,%r12,8), %r13
	movq	8(%r8), %r14
	movq	16(%r14,%r12,8), %r14
	cmpq	%r15, %rax
	cmovbq	%r13, %r14
	testq	%r14, %r14
	je	.LBB80_19
	decl	%r11d
	jne	.LBB80_18
.LBB80_14:
	xorl	%r11d, %r11d
.LBB80_15:
	xorl	%r9d, %r9d
	xorl	%r10d, %r10d
.LBB80_22:
	movq	8(%r8), %r8
	movl	20(%rbx), %r14d
	xorl	%r15d, %r15d
	xchgq	%r15, (%r8,%r14,8)
	xorps	%xmm0, %xmm0
	movups	%xmm0, 16(%rsi)
	movups	%xmm0, (%rsi)
	testb	%r11b, %r11b
	jne	.LBB80_28
.LBB80_25:
	xorps	%xmm0, %xmm0
	movaps	%xmm0, (%rsp)
	movq	$0, 16(%rsp)
	movl	4(%rdx), %esi
	testl	%esi, %esi
	jne	.LBB80_26
.LBB80_34:
	movq	%rbx, (%rdi)
	xorl	%eax, %eax
	xchgq	%rax, 8(%rdi)
	movl	$-9, %eax
	jmp	.LBB80_40
.LBB80_19:
	cmpq	%rax, %r15
	jne	.LBB80_20
	movl	72(%r8), %r9d
	leal	(,%r9,4), %r11d
	movl	%r9d, %ebp
	shrl	$6, %ebp
	andl	$63, %r9d
	addl	88(%r8), %r11d
	addl	%ebp, %r11d
	cmpl	$1, %r9d
	sbbl	$-1, %r11d
	decl	%r10d
	addq	%r11, %r10
	movq	8(%r8), %r9
	movq	(%r9,%r10,8), %r10
	movb	$1, %r11b
	movb	$1, %r9b
	jmp	.LBB80_22
.LBB80_23:
	movq	%rcx, %r14
	movq	%rdi, %r15
	xorps	%xmm0, %xmm0
	movaps	%xmm0, (%rsp)
	movq	$0, 16(%rsp)
	leaq	8(%rbx), %rax
	movq	%rsp, %rdi
	movq	%rsi, %r8
	movq	%rax, %rsi
	movq	%rdx, %rcx
	movq	%r8, %rdx
	callq	"nm_set::map_managed::Member+Values::finish_and_get"
	jmp	.LBB80_27
.LBB80_20:
	movb	$1, %r11b
	jmp	.LBB80_15
.LBB80_26:
	movq	%rcx, %r14
	movq	%rdi, %r15
	decl	%esi
	movl	(%rdx), %ecx
	movl	8(%rdx), %edx
	movl	%ecx, 28(%rsp)
	movl	%esi, 32(%rsp)
	movl	%edx, 36(%rsp)
	leaq	8(%rbx), %rsi
	movq	%rsp, %rdi
	leaq	28(%rsp), %rcx
	movq	%rax, %rdx
	callq	"nm_set::map_managed::Member+Values::get_again"
.LBB80_27:
	movzbl	1(%rsp), %eax
	movzbl	8(%rsp), %r9d
	movq	16(%rsp), %r10
	cmpb	$0, (%rsp)
	movq	%r15, %rdi
	movq	%r14, %rcx
	je	.LBB80_28
	movzbl	%al, %eax
	leaq	.LJTI80_0(%rip), %rcx
	movslq	(%rcx,%rax,4), %rax
	addq	%rcx, %rax
	jmpq	*%rax
.LBB80_35:
	movq	%rbx, (%rdi)
	xorl	%eax, %eax
	xchgq	%rax, 8(%rdi)
	movl	$-10, %eax
	jmp	.LBB80_40
.LBB80_28:
	cmpb	$1, %r9b
	jne	.LBB80_29
	movq	%r10, (%rcx)
	movq	%rbx, (%rdi)
	xorl	%eax, %eax
	xchgq	%rax, 8(%rdi)
	movl	$1, %eax
	jmp	.LBB80_40
.LBB80_29:
	movq	%rbx, (%rdi)
	xorl	%eax, %eax
	xorl	%ecx, %ecx
	xchgq	%rcx, 8(%rdi)
	jmp	.LBB80_40
.LBB80_36:
	movq	%rbx, (%rdi)
	xorl	%eax, %eax
	xchgq	%rax, 8(%rdi)
	movl	$-11, %eax
	jmp	.LBB80_40
.LBB80_33:
	movq	%rbx, (%rdi)
	xorl	%eax, %eax
	xchgq	%rax, 8(%rdi)
	movl	$-8, %eax
	jmp	.LBB80_40
.LBB80_37:
	movq	%rbx, (%rdi)
	xorl	%eax, %eax
	xchgq	%rax, 8(%rdi)
	movl	$-12, %eax
	jmp	.LBB80_40
.LBB80_42:
	movq	$1, 24(%rbx)
	movq	%r10, 32(%rbx)
	movb	$0, 72(%rbx)
	ud2
.LBB80_43:
	movq	$1, 24(%rbx)
	movq	%r10, 32(%rbx)
	ud2
.Lfunc_end80:
	.size	nm_map_get, .Lfunc_end80-nm_map_get
	.cfi_endproc
	.section	.rodata.nm_map_get,"a",@progbits
	.p2align	2, 0x0
.LJTI80_0:
	.long	.LBB80_34-.LJTI80_0
	.long	.LBB80_35-.LJTI80_0
	.long	.LBB80_33-.LJTI80_0
	.long	.LBB80_36-.LJTI80_0
	.long	.LBB80_37-.LJTI80_0
	.long	.LBB80_38-.LJTI80_0
	.section	.text.nm_map_get_pinned,"ax",@progbits
	.globl	nm_map_get_pinned
	.p2align	4
	.type	nm_map_get_pinned,@function
nm_map_get_pinned:
	.cfi_startproc
	pushq	%r15
	.cfi_def_cfa_offset 16
	pushq	%r14
	.cfi_def_cfa_offset 24
	pushq	%rbx
	.cfi_def_cfa_offset 32
	.cfi_offset %rbx, -32
	.cfi_offset %r14, -24
	.cfi_offset %r15, -16
	movl	$1, %ecx
	xchgq	%rcx, 8(%rdi)
	movl	$-22, %eax
	testq	%rcx, %rcx
	je	.LBB81_2
	popq	%rbx
	.cfi_def_cfa_offset 24
	popq	%r14
	.cfi_def_cfa_offset 16
	popq	%r15
	.cfi_def_cfa_offset 8
	retq
.LBB81_2:
	.cfi_def_cfa_offset 32
	movq	(%rdi), %rax
	movq	$0, (%rdi)
	testq	%rax, %rax
	je	.LBB81_11
	cmpb	$3, (%rax)
	jne	.LBB81_12
	xorl	%r8d, %r8d
	cmpq	$-3, %rsi
	cmovbq	%rsi, %r8
	jae	.LBB81_13
	cmpb	$1, 112(%rax)
	jne	.LBB81_14
	movq	8(%rax), %rcx
	movl	72(%rcx), %r9d
	movl	88(%rcx), %esi
	movq	8(%rcx), %r10
	decl	%r9d
	testb	$1, 84(%rcx)
	leal	4(%rsi), %r11d
	movq	8(%r10,%r11,8), %r11
	movl	$65, %r10d
	cmovel	%r9d, %r10d
	testl	%r10d, %r10d
	je	.LBB81_10
	addl	$-4, %esi
	.p2align	4
.LBB81_8:
	movq	%r11, %r9
	shrq	$2, %r9
	movq	8(%rcx), %r11
	leal	(%rsi,%r9,4), %r14d
	movq	(%r11,%r14,8), %rbx
	movq	8(%rcx), %r11
	movq	8(%r11,%r14,8), %r15
	movq	8(%rcx), %r11
	movq	16(%r11,%r14,8), %r11
	cmpq	%rbx, %r8
	cmovbq	%r15, %r11
	testq	%r11, %r11
	je	.LBB81_15
	decl	%r10d
	jne	.LBB81_8
.LBB81_10:
	movq	%rax, (%rdi)
	xorl	%eax, %eax
	xchgq	%rax, 8(%rdi)
	movl	$-9, %eax
	popq	%rbx
	.cfi_def_cfa_offset 24
	popq	%r14
	.cfi_def_cfa_offset 16
	popq	%r15
	.cfi_def_cfa_offset 8
	retq
.LBB81_11:
	.cfi_def_cfa_offset 32
	xorl	%eax, %eax
	xchgq	%rax, 8(%rdi)
	movl	$-1, %eax
	popq	%rbx
	.cfi_def_cfa_offset 24
	popq	%r14
	.cfi_def_cfa_offset 16
	popq	%r15
	.cfi_def_cfa_offset 8
	retq
.LBB81_12:
	.cfi_def_cfa_offset 32
	movq	%rax, (%rdi)
	xorl	%eax, %eax
	xchgq	%rax, 8(%rdi)
	movl	$-3, %eax
	popq	%rbx
	.cfi_def_cfa_offset 24
	popq	%r14
	.cfi_def_cfa_offset 16
	popq	%r15
	.cfi_def_cfa_offset 8
	retq
.LBB81_13:
	.cfi_def_cfa_offset 32
	movq	%rax, (%rdi)
	xorl	%eax, %eax
	xchgq	%rax, 8(%rdi)
	movl	$-4, %eax
	popq	%rbx
	.cfi_def_cfa_offset 24
	popq	%r14
	.cfi_def_cfa_offset 16
	popq	%r15
	.cfi_def_cfa_offset 8
	retq
.LBB81_14:
	.cfi_def_cfa_offset 32
	movq	%rax, (%rdi)
	xorl	%eax, %eax
	xchgq	%rax, 8(%rdi)
	movl	$-14, %eax
	popq	%rbx
	.cfi_def_cfa_offset 24
	popq	%r14
	.cfi_def_cfa_offset 16
	popq	%r15
	.cfi_def_cfa_offset 8
	retq
.LBB81_15:
	.cfi_def_cfa_offset 32
	cmpq	%r8, %rbx
	jne	.LBB81_17
	movl	72(%rcx), %esi
	leal	(,%rsi,4), %r8d
	movl	%esi, %r10d
	shrl	$6, %r10d
	andl	$63, %esi
	addl	88(%rcx), %r8d
	addl	%r10d, %r8d
	cmpl	$1, %esi
	sbbl	$-1, %r8d
	decl	%r9d
	addq	%r8, %r9
	movq	8(%rcx), %rcx
	movq	(%rcx,%r9,8), %rcx
	movq	%rcx, (%rdx)
	movq	%rax, (%rdi)
	xorl	%eax, %eax
	xchgq	%rax, 8(%rdi)
	movl	$1, %eax
	popq	%rbx
	.cfi_def_cfa_offset 24
	popq	%r14
	.cfi_def_cfa_offset 16
	popq	%r15
	.cfi_def_cfa_offset 8
	retq
.LBB81_17:
	.cfi_def_cfa_offset 32
	movq	%rax, (%rdi)
	xorl	%eax, %eax
	xorl	%ecx, %ecx
	xchgq	%rcx, 8(%rdi)
	popq	%rbx
	.cfi_def_cfa_offset 24
	popq	%r14
	.cfi_def_cfa_offset 16
	popq	%r15
	.cfi_def_cfa_offset 8
	retq
.Lfunc_end81:
	.size	nm_map_get_pinned, .Lfunc_end81-nm_map_get_pinned
	.cfi_endproc
	.section	.text.nm_map_insert,"ax",@progbits
	.globl	nm_map_insert
	.p2align	4
	.type	nm_map_insert,@function
nm_map_insert:
	.cfi_startproc
	pushq	%rbp
	.cfi_def_cfa_offset 16
	pushq	%r15
	.cfi_def_cfa_offset 24
	pushq	%r14
	.cfi_def_cfa_offset 32
	pushq	%r13
	.cfi_def_cfa_offset 40
	pushq	%r12
	.cfi_def_cfa_offset 48
	pushq	%rbx
	.cfi_def_cfa_offset 56
	pushq	%rax
	.cfi_def_cfa_offset 64
	.cfi_offset %rbx, -56
	.cfi_offset %r12, -48
	.cfi_offset %r13, -40
	.cfi_offset %r14, -32
	.cfi_offset %r15, -24
	.cfi_offset %rbp, -16
	movl	$1, %r8d
	xchgq	%r8, 8(%rdi)
	movl	$-22, %eax
	testq	%r8, %r8
	je	.LBB82_1
.LBB82_22:
	addq	$8, %rsp
	.cfi_def_cfa_offset 56
	popq	%rbx
	.cfi_def_cfa_offset 48
	popq	%r12
	.cfi_def_cfa_offset 40
	popq	%r13
	.cfi_def_cfa_offset 32
	popq	%r14
	.cfi_def_cfa_offset 24
	popq	%r15
	.cfi_def_cfa_offset 16
	popq	%rbp
	.cfi_def_cfa_offset 8
	retq
.LBB82_1:
	.cfi_def_cfa_offset 64
	movq	(%rdi), %r15
	movq	$0, (%rdi)
	testq	%r15, %r15
	je	.LBB82_23
	cmpb	$3, (%r15)
	jne	.LBB82_21
	xorl	%ebx, %ebx
	cmpq	$-3, %rsi
	cmovbq	%rsi, %rbx
	jae	.LBB82_4
	movzbl	112(%r15), %eax
	cmpb	$1, %al
	jne	.LBB82_6
.LBB82_19:
	movq	%r15, (%rdi)
	xorl	%eax, %eax
	xchgq	%rax, 8(%rdi)
	movl	$-13, %eax
	jmp	.LBB82_22
.LBB82_23:
	xorl	%eax, %eax
	xchgq	%rax, 8(%rdi)
	movl	$-1, %eax
	jmp	.LBB82_22
.LBB82_21:
	movq	%r15, (%rdi)
	xorl	%eax, %eax
	xchgq	%rax, 8(%rdi)
	movl	$-3, %eax
	jmp	.LBB82_22
.LBB82_4:
	movq	%r15, (%rdi)
	xorl	%eax, %eax
	xchgq	%rax, 8(%rdi)
	movl	$-4, %eax
	jmp	.LBB82_22
.LBB82_6:
	cmpb	$2, %al
	movq	%rcx, %r12
	je	.LBB82_7
.LBB82_8:
	movq	%rdx, %r14
	movq	%rdi, %r13
	movl	4(%rcx), %ebp
	testl	%ebp, %ebp
	je	.LBB82_9
.LBB82_11:
	movl	(%rcx), %r9d
	leaq	8(%r15), %rdi
	movq	%rsp, %r8
	movl	$1, %esi
	movq	%rbx, %rdx
	movq	%r14, %rcx
	callq	"nm_set::member::Member::ask::<#de9872852a7d50e8>"
	movl	%eax, %ecx
	xorb	$1, %cl
	orb	%dl, %cl
	jne	.LBB82_12
	decl	%ebp
	movq	%r12, %rcx
	jne	.LBB82_11
.LBB82_9:
	movl	(%rcx), %r9d
	leaq	8(%r15), %rdi
	movq	%rsp, %r8
	movl	$1, %esi
	movq	%rbx, %rdx
	movq	%r14, %rcx
	callq	"nm_set::member::Member::ask::<#de9872852a7d50e8>"
.LBB82_12:
	movq	%r13, %rdi
	testb	%al, %al
	je	.LBB82_20
	movzbl	%dl, %eax
	leaq	.LJTI82_0(%rip), %rcx
	movslq	(%rcx,%rax,4), %rax
	addq	%rcx, %rax
	jmpq	*%rax
.LBB82_14:
	movq	%r15, (%rdi)
	xorl	%eax, %eax
	xchgq	%rax, 8(%rdi)
	movl	$-9, %eax
	jmp	.LBB82_22
.LBB82_20:
	movq	%r15, (%rdi)
	xorl	%eax, %eax
	xchgq	%rax, 8(%rdi)
	andb	$1, %dl
	movzbl	%dl, %eax
	jmp	.LBB82_22
.LBB82_17:
	movq	%r15, (%rdi)
	xorl	%eax, %eax
	xchgq	%rax, 8(%rdi)
	movl	$-11, %eax
	jmp	.LBB82_22
.LBB82_15:
	movq	%r15, (%rdi)
	xorl	%eax, %eax
	xchgq	%rax, 8(%rdi)
	movl	$-10, %eax
	jmp	.LBB82_22
.LBB82_16:
	movq	%r15, (%rdi)
	xorl	%eax, %eax
	xchgq	%rax, 8(%rdi)
	movl	$-8, %eax
	jmp	.LBB82_22
.LBB82_7:
	leaq	16(%r15), %rsi
	movq	8(%r15), %rax
	addq	$8, %rax
	movl	(%rcx), %r8d
	movl	4(%rcx), %ecx
	incq	%rcx
	imulq	%rcx, %r8
	movl	$4294967295, %ecx
	cmpq	%rcx, %r8
	cmovaeq	%rcx, %r8
	movq	%rdi, %r14
	movq	%rax, %rdi
	movq	%rdx, %r13
	movl	%r8d, %edx
	callq	"nm_tree::tree::Tree::finish_pending"
	movq	%r12, %rcx
	movq	%r13, %rdx
	movq	%r14, %rdi
	testb	%al, %al
	je	.LBB82_8
.LBB82_18:
	movq	%r15, (%rdi)
	xorl	%eax, %eax
	xchgq	%rax, 8(%rdi)
	movl	$-12, %eax
	jmp	.LBB82_22
.Lfunc_end82:
	.size	nm_map_insert, .Lfunc_end82-nm_map_insert
	.cfi_endproc
	.section	.rodata.nm_map_insert,"a",@progbits
	.p2align	2, 0x0
.LJTI82_0:
	.long	.LBB82_14-.LJTI82_0
	.long	.LBB82_15-.LJTI82_0
	.long	.LBB82_16-.LJTI82_0
	.long	.LBB82_17-.LJTI82_0
	.long	.LBB82_18-.LJTI82_0
	.long	.LBB82_19-.LJTI82_0
	.section	.text.nm_map_number,"ax",@progbits
	.globl	nm_map_number
	.p2align	4
	.type	nm_map_number,@function
nm_map_number:
	.cfi_startproc
	movl	$1, %ecx
	xchgq	%rcx, 8(%rdi)
	movl	$-22, %eax
	testq	%rcx, %rcx
	je	.LBB83_1
	retq
.LBB83_1:
	movq	(%rdi), %rax
	movq	$0, (%rdi)
	testq	%rax, %rax
	je	.LBB83_6
	cmpb	$3, (%rax)
	jne	.LBB83_4
	movl	16(%rax), %ecx
	movl	%ecx, (%rsi)
	movq	%rax, (%rdi)
	xorl	%eax, %eax
	xchgq	%rax, 8(%rdi)
	movl	$2, %eax
	retq
.LBB83_6:
	xorl	%eax, %eax
	xchgq	%rax, 8(%rdi)
	movl	$-1, %eax
	retq
.LBB83_4:
	movq	%rax, (%rdi)
	xorl	%eax, %eax
	xchgq	%rax, 8(%rdi)
	movl	$-3, %eax
	retq
.Lfunc_end83:
	.size	nm_map_number, .Lfunc_end83-nm_map_number
	.cfi_endproc
	.section	.text.nm_map_pending,"ax",@progbits
	.globl	nm_map_pending
	.p2align	4
	.type	nm_map_pending,@function
nm_map_pending:
	.cfi_startproc
	movl	$1, %ecx
	xchgq	%rcx, 8(%rdi)
	movl	$-22, %eax
	testq	%rcx, %rcx
	je	.LBB84_1
	retq
.LBB84_1:
	movq	(%rdi), %rax
	movq	$0, (%rdi)
	testq	%rax, %rax
	je	.LBB84_8
	cmpb	$3, (%rax)
	jne	.LBB84_6
	cmpb	$2, 112(%rax)
	jne	.LBB84_4
	movq	120(%rax), %rcx
	movq	%rcx, (%rsi)
	movq	%rax, (%rdi)
	xorl	%eax, %eax
	xchgq	%rax, 8(%rdi)
	movl	$1, %eax
	retq
.LBB84_8:
	xorl	%eax, %eax
	xchgq	%rax, 8(%rdi)
	movl	$-1, %eax
	retq
.LBB84_6:
	movq	%rax, (%rdi)
	xorl	%eax, %eax
	xchgq	%rax, 8(%rdi)
	movl	$-3, %eax
	retq
.LBB84_4:
	movq	%rax, (%rdi)
	xorl	%eax, %eax
	xorl	%ecx, %ecx
	xchgq	%rcx, 8(%rdi)
	retq
.Lfunc_end84:
	.size	nm_map_pending, .Lfunc_end84-nm_map_pending
	.cfi_endproc
	.section	.text.nm_map_pin,"ax",@progbits
	.globl	nm_map_pin
	.p2align	4
	.type	nm_map_pin,@function
nm_map_pin:
	.cfi_startproc
	pushq	%r15
	.cfi_def_cfa_offset 16
	pushq	%r14
	.cfi_def_cfa_offset 24
	pushq	%rbx
	.cfi_def_cfa_offset 32
	subq	$32, %rsp
	.cfi_def_cfa_offset 64
	.cfi_offset %rbx, -32
	.cfi_offset %r14, -24
	.cfi_offset %r15, -16
	movl	$1, %r8d
	xchgq	%r8, 8(%rdi)
	movl	$-22, %eax
	testq	%r8, %r8
	je	.LBB85_1
.LBB85_12:
	addq	$32, %rsp
	.cfi_def_cfa_offset 32
	popq	%rbx
	.cfi_def_cfa_offset 24
	popq	%r14
	.cfi_def_cfa_offset 16
	popq	%r15
	.cfi_def_cfa_offset 8
	retq
.LBB85_1:
	.cfi_def_cfa_offset 64
	movq	(%rdi), %rbx
	movq	$0, (%rdi)
	testq	%rbx, %rbx
	je	.LBB85_13
	cmpb	$3, (%rbx)
	jne	.LBB85_11
	xorps	%xmm0, %xmm0
	movaps	%xmm0, (%rsp)
	movq	$0, 16(%rsp)
	cmpb	$1, 112(%rbx)
	jne	.LBB85_4
.LBB85_10:
	movq	%rbx, (%rdi)
	xorl	%eax, %eax
	xchgq	%rax, 8(%rdi)
	movl	$-13, %eax
	jmp	.LBB85_12
.LBB85_13:
	xorl	%eax, %eax
	xchgq	%rax, 8(%rdi)
	movl	$-1, %eax
	jmp	.LBB85_12
.LBB85_11:
	movq	%rbx, (%rdi)
	xorl	%eax, %eax
	xchgq	%rax, 8(%rdi)
	movl	$-3, %eax
	jmp	.LBB85_12
.LBB85_4:
	movl	%esi, %ecx
	movq	%rdx, %r15
	movq	%rdi, %r14
	leaq	16(%rbx), %rdx
	movq	8(%rbx), %rsi
	addq	$8, %rsi
	movq	%rsp, %rdi
	callq	"nm_tree::tree::Tree::pin"
	movq	8(%rsp), %rax
	cmpb	$0, (%rsp)
	je	.LBB85_8
	testb	%al, %al
	movq	%r14, %rdi
	je	.LBB85_9
	movzbl	%al, %eax
	cmpl	$1, %eax
	jne	.LBB85_10
	movq	%rbx, (%rdi)
	xorl	%eax, %eax
	xchgq	%rax, 8(%rdi)
	movl	$-12, %eax
	jmp	.LBB85_12
.LBB85_8:
	movq	%rax, (%r15)
	movq	%rbx, (%r14)
	xorl	%eax, %eax
	xchgq	%rax, 8(%r14)
	movl	$2, %eax
	jmp	.LBB85_12
.LBB85_9:
	movq	16(%rsp), %rax
	movq	%rax, (%r15)
	movq	%rbx, (%rdi)
	xorl	%eax, %eax
	xchgq	%rax, 8(%rdi)
	movl	$-9, %eax
	jmp	.LBB85_12
.Lfunc_end85:
	.size	nm_map_pin, .Lfunc_end85-nm_map_pin
	.cfi_endproc
	.section	.text.nm_map_queue_len,"ax",@progbits
	.globl	nm_map_queue_len
	.p2align	4
	.type	nm_map_queue_len,@function
nm_map_queue_len:
	.cfi_startproc
	movl	$1, %ecx
	xchgq	%rcx, 8(%rdi)
	movl	$-22, %eax
	testq	%rcx, %rcx
	je	.LBB86_1
	retq
.LBB86_1:
	movq	(%rdi), %rax
	movq	$0, (%rdi)
	testq	%rax, %rax
	je	.LBB86_17
	cmpb	$3, (%rax)
	jne	.LBB86_15
	pushq	%r15
	.cfi_def_cfa_offset 16
	pushq	%r14
	.cfi_def_cfa_offset 24
	pushq	%rbx
	.cfi_def_cfa_offset 32
	.cfi_offset %rbx, -32
	.cfi_offset %r14, -24
	.cfi_offset %r15, -16
	movq	88(%rax), %r9
	testq	%r9, %r9
	je	.LBB86_4
	movq	80(%rax), %rdx
	cmpq	$1, %r9
	jne	.LBB86_6
	movl	60(%rdx), %ecx
	jmp	.LBB86_14
.LBB86_17:
	.cfi_def_cfa_offset 8
	.cfi_restore %rbx
	.cfi_restore %r14
	.cfi_restore %r15
	xorl	%eax, %eax
	xchgq	%rax, 8(%rdi)
	movl	$-1, %eax
	retq
.LBB86_15:
	movq	%rax, (%rdi)
	xorl	%eax, %eax
	xchgq	%rax, 8(%rdi)
	movl	$-3, %eax
	retq
.LBB86_4:
	.cfi_def_cfa_offset 32
	.cfi_offset %rbx, -32
	.cfi_offset %r14, -24
	.cfi_offset %r15, -16
	movq	%r9, %rcx
	jmp	.LBB86_14
.LBB86_6:
	leaq	-1(%r9), %rcx
	movl	%r9d, %r8d
	andl	$3, %r8d
	cmpq	$3, %rcx
	jae	.LBB86_9
	xorl	%ecx, %ecx
	xorl	%r10d, %r10d
	jmp	.LBB86_12
.LBB86_9:
	andq	$-4, %r9
	leaq	348(%rdx), %r11
	xorl	%ecx, %ecx
	xorl	%r10d, %r10d
	.p2align	4
.LBB86_10:
	movl	-288(%r11), %ebx
	movl	-192(%r11), %r14d
	addq	%rcx, %rbx
	movl	-96(%r11), %r15d
	addq	%r14, %r15
	addq	%rbx, %r15
	movl	(%r11), %ecx
	addq	%r15, %rcx
	addq	$4, %r10
	addq	$384, %r11
	cmpq	%r10, %r9
	jne	.LBB86_10
	testq	%r8, %r8
	je	.LBB86_14
.LBB86_12:
	leaq	(%r10,%r10,2), %r9
	shlq	$5, %r9
	addq	%r9, %rdx
	addq	$60, %rdx
	shll	$5, %r8d
	leaq	(%r8,%r8,2), %r8
	xorl	%r9d, %r9d
	.p2align	4
.LBB86_13:
	movl	(%rdx,%r9), %r10d
	addq	%r10, %rcx
	addq	$96, %r9
	cmpq	%r9, %r8
	jne	.LBB86_13
.LBB86_14:
	movq	%rcx, (%rsi)
	movq	%rax, (%rdi)
	xorl	%eax, %eax
	xchgq	%rax, 8(%rdi)
	movl	$2, %eax
	popq	%rbx
	.cfi_def_cfa_offset 24
	popq	%r14
	.cfi_def_cfa_offset 16
	popq	%r15
	.cfi_def_cfa_offset 8
	.cfi_restore %rbx
	.cfi_restore %r14
	.cfi_restore %r15
	retq
.Lfunc_end86:
	.size	nm_map_queue_len, .Lfunc_end86-nm_map_queue_len
	.cfi_endproc
	.section	.text.nm_map_reclaim,"ax",@progbits
	.globl	nm_map_reclaim
	.p2align	4
	.type	nm_map_reclaim,@function
nm_map_reclaim:
	.cfi_startproc
	pushq	%rbp
	.cfi_def_cfa_offset 16
	pushq	%r15
	.cfi_def_cfa_offset 24
	pushq	%r14
	.cfi_def_cfa_offset 32
	pushq	%r13
	.cfi_def_cfa_offset 40
	pushq	%r12
	.cfi_def_cfa_offset 48
	pushq	%rbx
	.cfi_def_cfa_offset 56
	subq	$120, %rsp
	.cfi_def_cfa_offset 176
	.cfi_offset %rbx, -56
	.cfi_offset %r12, -48
	.cfi_offset %r13, -40
	.cfi_offset %r14, -32
	.cfi_offset %r15, -24
	.cfi_offset %rbp, -16
	xorl	%r12d, %r12d
	testq	%rsi, %rsi
	movl	$1, %r9d
	xchgq	%r9, 8(%rdi)
	sete	%r13b
	movl	$-22, %eax
	testq	%r9, %r9
	je	.LBB87_2
.LBB87_1:
	addq	$120, %rsp
	.cfi_def_cfa_offset 56
	popq	%rbx
	.cfi_def_cfa_offset 48
	popq	%r12
	.cfi_def_cfa_offset 40
	popq	%r13
	.cfi_def_cfa_offset 32
	popq	%r14
	.cfi_def_cfa_offset 24
	popq	%r15
	.cfi_def_cfa_offset 16
	popq	%rbp
	.cfi_def_cfa_offset 8
	retq
.LBB87_2:
	.cfi_def_cfa_offset 176
	movq	(%rdi), %rax
	movq	$0, (%rdi)
	testq	%rax, %rax
	je	.LBB87_6
	cmpb	$3, (%rax)
	jne	.LBB87_7
	movq	%rsi, %r15
	movq	%rdx, 24(%rsp)
	movq	%rcx, 72(%rsp)
	movq	%r8, 80(%rsp)
	movq	%rdi, 88(%rsp)
	xorps	%xmm0, %xmm0
	movaps	%xmm0, 32(%rsp)
	movq	8(%rax), %rsi
	addq	$8, %rsi
	leaq	16(%rax), %rbp
	leaq	32(%rsp), %rdi
	movq	%rbp, %rdx
	movq	%rax, 16(%rsp)
	callq	"nm_tree::tree::Tree::advance"
	movzbl	32(%rsp), %eax
	movb	%al, 15(%rsp)
	movl	36(%rsp), %eax
	movl	%eax, 68(%rsp)
	xorps	%xmm0, %xmm0
	movaps	%xmm0, 32(%rsp)
	movq	16(%rsp), %rax
	movq	8(%rax), %rsi
	addq	$8, %rsi
	leaq	32(%rsp), %rdi
	movq	%rbp, %rdx
	callq	"nm_tree::tree::Tree::advance"
	movzbl	32(%rsp), %edx
	movl	36(%rsp), %ecx
	movq	16(%rsp), %rax
	movq	8(%rax), %rbp
	movq	16(%rsp), %rax
	movq	80(%rax), %rbx
	movq	16(%rsp), %rax
	movq	144(%rax), %r11
	movq	16(%rsp), %rax
	movq	88(%rax), %r14
	movq	8(%rbp), %rax
	movq	(%rax), %rsi
	movq	16(%rsp), %rax
	testb	$1, 72(%rax)
	movl	%ecx, 64(%rsp)
	movb	%dl, 14(%rsp)
	movq	%rsi, 56(%rsp)
	je	.LBB87_8
	movq	$1, 24(%rax)
	movq	%rsi, 32(%rax)
	movb	$0, 72(%rax)
	movq	24(%rsp), %r9
	movq	%r15, %r10
	jmp	.LBB87_13
.LBB87_6:
	xorl	%eax, %eax
	xchgq	%rax, 8(%rdi)
	movl	$-1, %eax
	jmp	.LBB87_1
.LBB87_7:
	movq	%rax, (%rdi)
	xorl	%eax, %eax
	xchgq	%rax, 8(%rdi)
	movl	$-3, %eax
	jmp	.LBB87_1
.LBB87_8:
	cmpb	$0, 56(%rax)
	movq	%r15, %r10
	jne	.LBB87_12
	cmpb	$1, 40(%rax)
	jne	.LBB87_12
	cmpq	%rsi, 48(%rax)
	movq	$1, 24(%rax)
	movq	%rsi, 32(%rax)
	movq	24(%rsp), %r9
	jne	.LBB87_13
	movq	$1, 56(%rax)
	movq	56(%rsp), %rcx
	movq	%rcx, 64(%rax)
	jmp	.LBB87_13
.LBB87_12:
	movq	$1, 24(%rax)
	movq	%rsi, 32(%rax)
	movq	24(%rsp), %r9
.LBB87_13:
	testq	%r14, %r14
	je	.LBB87_42
	movb	%r13b, %r12b
	shll	$12, %r12d
	addq	%r12, %r10
	movq	56(%rsp), %rax
	leaq	-2(%rax), %r15
	xorl	%r13d, %r13d
	movq	%r15, 112(%rsp)
	movq	%r11, 96(%rsp)
	jmp	.LBB87_16
	.p2align	4
.LBB87_15:
	decq	%r14
	subl	%eax, %r12d
	addq	88(%rbx), %r12
	movq	$-1, %rax
	cmovaeq	%r12, %rax
	movq	%rax, 88(%rbx)
	addq	$96, %rbx
	testq	%r14, %r14
	movq	112(%rsp), %r15
	je	.LBB87_43
.LBB87_16:
	movl	60(%rbx), %r12d
	cmpq	%r9, %r13
	jae	.LBB87_35
	cmpq	$2, 56(%rsp)
	jae	.LBB87_20
.LBB87_35:
	movl	%r12d, %eax
.LBB87_36:
	movl	24(%rbx), %edx
	movl	48(%rbx), %ecx
	shll	$5, %edx
	movl	%ecx, %esi
	shll	$5, %esi
	movl	56(%rbx), %edi
	addl	%eax, %edi
	subl	%edi, %edx
	addl	%esi, %edx
	xorl	%esi, %esi
	subl	$256, %edx
	cmovbl	%esi, %edx
	shrl	$5, %edx
	movl	%ecx, %r15d
	subl	%edx, %r15d
	cmpl	%ecx, %r15d
	jae	.LBB87_15
	movq	%r14, 104(%rsp)
	movq	%r10, %r14
	.p2align	4
.LBB87_38:
	movq	32(%rbx), %rdi
	movq	(%rdi), %rax
	movq	%rax, 32(%rbx)
	decl	%ecx
	movl	%ecx, 48(%rbx)
	callq	nm_host_dealloc@PLT
	movl	48(%rbx), %ecx
	cmpl	%ecx, %r15d
	jb	.LBB87_38
	movl	60(%rbx), %eax
	movq	24(%rsp), %r9
	movq	%r14, %r10
	movq	96(%rsp), %r11
	movq	104(%rsp), %r14
	jmp	.LBB87_15
	.p2align	4
.LBB87_19:
	cmpq	%r9, %r13
	jae	.LBB87_41
.LBB87_20:
	movl	60(%rbx), %eax
	testl	%eax, %eax
	je	.LBB87_40
	movl	56(%rbx), %edx
	movq	8(%rbx), %rcx
	shlq	$3, %rdx
	leaq	(%rdx,%rdx,2), %rdx
	cmpq	%r15, 24(%rcx,%rdx)
	ja	.LBB87_36
	movl	8(%rcx,%rdx), %edx
	movl	88(%rbp), %eax
	leal	(%rax,%rdx,4), %eax
	addl	$-3, %eax
	movq	8(%rbp), %rcx
	movq	(%rcx,%rax,8), %rax
	cmpq	$4, %rax
	jae	.LBB87_24
	movl	72(%rbp), %eax
	leal	(,%rax,4), %ecx
	movl	%eax, %esi
	shrl	$6, %esi
	andl	$63, %eax
	addl	88(%rbp), %ecx
	addl	%esi, %ecx
	cmpl	$1, %eax
	sbbl	$-1, %ecx
	leal	-1(%rdx), %eax
	addq	%rax, %rcx
	movq	8(%rbp), %rsi
	movq	(%rsi,%rcx,8), %rcx
	movq	%rcx, (%r10,%r13,8)
	incq	%r13
	jmp	.LBB87_25
	.p2align	4
.LBB87_24:
	leal	-1(%rdx), %eax
.LBB87_25:
	movl	72(%rbp), %ecx
	shrl	$6, %eax
	leal	(%rax,%rcx,4), %esi
	addl	88(%rbp), %esi
	leal	-1(%rdx), %ecx
	movl	$1, %edi
	shlq	%cl, %rdi
	movq	8(%rbp), %rcx
	.p2align	4
.LBB87_26:
	movq	(%rcx,%rsi,8), %rax
	movq	%rax, %r8
	orq	%rdi, %r8
	lock		cmpxchgq	%r8, (%rcx,%rsi,8)
	jne	.LBB87_26
	movl	60(%rbx), %ecx
	testl	%ecx, %ecx
	je	.LBB87_33
	movl	56(%rbx), %esi
	movq	8(%rbx), %rax
	decl	%ecx
	movl	%ecx, 60(%rbx)
	incl	%esi
	movl	%esi, 56(%rbx)
	cmpl	$32, %esi
	jne	.LBB87_33
	movl	$0, 56(%rbx)
	movq	(%rax), %rcx
	movq	%rcx, 8(%rbx)
	decl	24(%rbx)
	cmpl	$0, 48(%rbx)
	je	.LBB87_31
	movq	40(%rbx), %rcx
	movq	$0, (%rax)
	movq	%rax, (%rcx)
	jmp	.LBB87_32
.LBB87_31:
	movq	$0, (%rax)
	movq	%rax, 32(%rbx)
.LBB87_32:
	movq	%rax, 40(%rbx)
	incl	48(%rbx)
.LBB87_33:
	movq	520(%r11), %rax
	cmpq	$128, %rax
	je	.LBB87_19
	movl	%edx, 8(%r11,%rax,4)
	incq	%rax
	movq	%rax, 520(%r11)
	jmp	.LBB87_19
.LBB87_40:
	xorl	%eax, %eax
	jmp	.LBB87_36
.LBB87_41:
	movl	60(%rbx), %eax
	jmp	.LBB87_36
.LBB87_42:
	xorl	%r13d, %r13d
.LBB87_43:
	cmpb	$1, 15(%rsp)
	movl	$-1, %eax
	cmovel	68(%rsp), %eax
	cmpb	$1, 14(%rsp)
	cmovel	64(%rsp), %eax
	movq	72(%rsp), %rcx
	movq	%r13, (%rcx)
	movq	80(%rsp), %rcx
	movl	%eax, (%rcx)
	movq	88(%rsp), %rcx
	movq	16(%rsp), %rax
	movq	%rax, (%rcx)
	xorl	%eax, %eax
	xchgq	%rax, 8(%rcx)
	movl	$2, %eax
	jmp	.LBB87_1
.Lfunc_end87:
	.size	nm_map_reclaim, .Lfunc_end87-nm_map_reclaim
	.cfi_endproc
	.section	.text.nm_map_scan,"ax",@progbits
	.globl	nm_map_scan
	.p2align	4
	.type	nm_map_scan,@function
nm_map_scan:
	.cfi_startproc
	pushq	%r15
	.cfi_def_cfa_offset 16
	pushq	%r14
	.cfi_def_cfa_offset 24
	pushq	%rbx
	.cfi_def_cfa_offset 32
	subq	$48, %rsp
	.cfi_def_cfa_offset 80
	.cfi_offset %rbx, -32
	.cfi_offset %r14, -24
	.cfi_offset %r15, -16
	movq	%rcx, %r10
	movq	%rsi, %rcx
	xorl	%esi, %esi
	testq	%r10, %r10
	movl	$1, %ebx
	xchgq	%rbx, 8(%rdi)
	sete	%r11b
	movl	$-22, %eax
	testq	%rbx, %rbx
	je	.LBB88_1
.LBB88_18:
	addq	$48, %rsp
	.cfi_def_cfa_offset 32
	popq	%rbx
	.cfi_def_cfa_offset 24
	popq	%r14
	.cfi_def_cfa_offset 16
	popq	%r15
	.cfi_def_cfa_offset 8
	retq
.LBB88_1:
	.cfi_def_cfa_offset 80
	movq	(%rdi), %rbx
	movq	$0, (%rdi)
	testq	%rbx, %rbx
	je	.LBB88_19
	cmpb	$3, (%rbx)
	jne	.LBB88_17
	cmpq	$-3, %rcx
	jae	.LBB88_4
	xorps	%xmm0, %xmm0
	movaps	%xmm0, 32(%rsp)
	movaps	%xmm0, 16(%rsp)
	cmpb	$1, 112(%rbx)
	jne	.LBB88_6
.LBB88_15:
	movq	%rbx, (%rdi)
	xorl	%eax, %eax
	xchgq	%rax, 8(%rdi)
	movl	$-13, %eax
	jmp	.LBB88_18
.LBB88_19:
	xorl	%eax, %eax
	xchgq	%rax, 8(%rdi)
	movl	$-1, %eax
	jmp	.LBB88_18
.LBB88_17:
	movq	%rbx, (%rdi)
	xorl	%eax, %eax
	xchgq	%rax, 8(%rdi)
	movl	$-3, %eax
	jmp	.LBB88_18
.LBB88_4:
	movq	%rbx, (%rdi)
	xorl	%eax, %eax
	xchgq	%rax, 8(%rdi)
	movl	$-4, %eax
	jmp	.LBB88_18
.LBB88_6:
	movq	%r9, %r15
	movq	%rdi, %r14
	movl	88(%rsp), %edi
	movb	%r11b, %sil
	shll	$12, %esi
	addq	%rsi, %r10
	leaq	16(%rbx), %rax
	movq	8(%rbx), %rsi
	addq	$8, %rsi
	movl	%edi, 8(%rsp)
	movq	%r8, (%rsp)
	leaq	16(%rsp), %rdi
	movq	%rdx, %r8
	movq	%rax, %rdx
	movq	%r10, %r9
	callq	"nm_tree::tree::Tree::scan"
	cmpb	$0, 16(%rsp)
	je	.LBB88_7
	movzbl	17(%rsp), %eax
	movl	%eax, %eax
	leaq	.LJTI88_0(%rip), %rcx
	movslq	(%rcx,%rax,4), %rax
	addq	%rcx, %rax
	movq	%r14, %rdi
	jmpq	*%rax
.LBB88_10:
	movq	%rbx, (%rdi)
	xorl	%eax, %eax
	xchgq	%rax, 8(%rdi)
	movl	$-9, %eax
	jmp	.LBB88_18
.LBB88_7:
	movq	24(%rsp), %rdx
	movq	40(%rsp), %rcx
	movzbl	32(%rsp), %eax
	movq	%rdx, (%r15)
	cmpl	$1, %eax
	jne	.LBB88_16
	movq	80(%rsp), %rax
	movq	%rcx, (%rax)
	movq	%rbx, (%r14)
	xorl	%eax, %eax
	xchgq	%rax, 8(%r14)
	movl	$1, %eax
	jmp	.LBB88_18
.LBB88_16:
	movq	%rbx, (%r14)
	xorl	%ecx, %ecx
	xchgq	%rcx, 8(%r14)
	leaq	.Lswitch.table.nm_worker_scan_back(%rip), %rcx
	movl	(%rcx,%rax,4), %eax
	jmp	.LBB88_18
.LBB88_13:
	movq	%rbx, (%rdi)
	xorl	%eax, %eax
	xchgq	%rax, 8(%rdi)
	movl	$-11, %eax
	jmp	.LBB88_18
.LBB88_11:
	movq	%rbx, (%rdi)
	xorl	%eax, %eax
	xchgq	%rax, 8(%rdi)
	movl	$-10, %eax
	jmp	.LBB88_18
.LBB88_12:
	movq	%rbx, (%rdi)
	xorl	%eax, %eax
	xchgq	%rax, 8(%rdi)
	movl	$-8, %eax
	jmp	.LBB88_18
.LBB88_14:
	movq	%rbx, (%rdi)
	xorl	%eax, %eax
	xchgq	%rax, 8(%rdi)
	movl	$-12, %eax
	jmp	.LBB88_18
.Lfunc_end88:
	.size	nm_map_scan, .Lfunc_end88-nm_map_scan
	.cfi_endproc
	.section	.rodata.nm_map_scan,"a",@progbits
	.p2align	2, 0x0
.LJTI88_0:
	.long	.LBB88_10-.LJTI88_0
	.long	.LBB88_11-.LJTI88_0
	.long	.LBB88_12-.LJTI88_0
	.long	.LBB88_13-.LJTI88_0
	.long	.LBB88_14-.LJTI88_0
	.long	.LBB88_15-.LJTI88_0
	.section	.text.nm_map_scan_back,"ax",@progbits
	.globl	nm_map_scan_back
	.p2align	4
	.type	nm_map_scan_back,@function
nm_map_scan_back:
	.cfi_startproc
	pushq	%r15
	.cfi_def_cfa_offset 16
	pushq	%r14
	.cfi_def_cfa_offset 24
	pushq	%rbx
	.cfi_def_cfa_offset 32
	subq	$48, %rsp
	.cfi_def_cfa_offset 80
	.cfi_offset %rbx, -32
	.cfi_offset %r14, -24
	.cfi_offset %r15, -16
	movq	%rcx, %r10
	movq	%rsi, %rcx
	xorl	%esi, %esi
	testq	%r10, %r10
	movl	$1, %ebx
	xchgq	%rbx, 8(%rdi)
	sete	%r11b
	movl	$-22, %eax
	testq	%rbx, %rbx
	je	.LBB89_1
.LBB89_18:
	addq	$48, %rsp
	.cfi_def_cfa_offset 32
	popq	%rbx
	.cfi_def_cfa_offset 24
	popq	%r14
	.cfi_def_cfa_offset 16
	popq	%r15
	.cfi_def_cfa_offset 8
	retq
.LBB89_1:
	.cfi_def_cfa_offset 80
	movq	(%rdi), %rbx
	movq	$0, (%rdi)
	testq	%rbx, %rbx
	je	.LBB89_19
	cmpb	$3, (%rbx)
	jne	.LBB89_17
	cmpq	$-3, %rcx
	jae	.LBB89_4
	xorps	%xmm0, %xmm0
	movaps	%xmm0, 32(%rsp)
	movaps	%xmm0, 16(%rsp)
	cmpb	$1, 112(%rbx)
	jne	.LBB89_6
.LBB89_15:
	movq	%rbx, (%rdi)
	xorl	%eax, %eax
	xchgq	%rax, 8(%rdi)
	movl	$-13, %eax
	jmp	.LBB89_18
.LBB89_19:
	xorl	%eax, %eax
	xchgq	%rax, 8(%rdi)
	movl	$-1, %eax
	jmp	.LBB89_18
.LBB89_17:
	movq	%rbx, (%rdi)
	xorl	%eax, %eax
	xchgq	%rax, 8(%rdi)
	movl	$-3, %eax
	jmp	.LBB89_18
.LBB89_4:
	movq	%rbx, (%rdi)
	xorl	%eax, %eax
	xchgq	%rax, 8(%rdi)
	movl	$-4, %eax
	jmp	.LBB89_18
.LBB89_6:
	movq	%r9, %r15
	movq	%rdi, %r14
	movl	88(%rsp), %edi
	movb	%r11b, %sil
	shll	$12, %esi
	addq	%rsi, %r10
	leaq	16(%rbx), %rax
	movq	8(%rbx), %rsi
	addq	$8, %rsi
	movl	%edi, 8(%rsp)
	movq	%r8, (%rsp)
	leaq	16(%rsp), %rdi
	movq	%rdx, %r8
	movq	%rax, %rdx
	movq	%r10, %r9
	callq	"nm_tree::tree::Tree::scan_back"
	cmpb	$0, 16(%rsp)
	je	.LBB89_7
	movzbl	17(%rsp), %eax
	movl	%eax, %eax
	leaq	.LJTI89_0(%rip), %rcx
	movslq	(%rcx,%rax,4), %rax
	addq	%rcx, %rax
	movq	%r14, %rdi
	jmpq	*%rax
.LBB89_10:
	movq	%rbx, (%rdi)
	xorl	%eax, %eax
	xchgq	%rax, 8(%rdi)
	movl	$-9, %eax
	jmp	.LBB89_18
.LBB89_7:
	movq	24(%rsp), %rdx
	movq	40(%rsp), %rcx
	movzbl	32(%rsp), %eax
	movq	%rdx, (%r15)
	cmpl	$1, %eax
	jne	.LBB89_16
	movq	80(%rsp), %rax
	movq	%rcx, (%rax)
	movq	%rbx, (%r14)
	xorl	%eax, %eax
	xchgq	%rax, 8(%r14)
	movl	$1, %eax
	jmp	.LBB89_18
.LBB89_16:
	movq	%rbx, (%r14)
	xorl	%ecx, %ecx
	xchgq	%rcx, 8(%r14)
	leaq	.Lswitch.table.nm_worker_scan_back(%rip), %rcx
	movl	(%rcx,%rax,4), %eax
	jmp	.LBB89_18
.LBB89_13:
	movq	%rbx, (%rdi)
	xorl	%eax, %eax
	xchgq	%rax, 8(%rdi)
	movl	$-11, %eax
	jmp	.LBB89_18
.LBB89_11:
	movq	%rbx, (%rdi)
	xorl	%eax, %eax
	xchgq	%rax, 8(%rdi)
	movl	$-10, %eax
	jmp	.LBB89_18
.LBB89_12:
	movq	%rbx, (%rdi)
	xorl	%eax, %eax
	xchgq	%rax, 8(%rdi)
	movl	$-8, %eax
	jmp	.LBB89_18
.LBB89_14:
	movq	%rbx, (%rdi)
	xorl	%eax, %eax
	xchgq	%rax, 8(%rdi)
	movl	$-12, %eax
	jmp	.LBB89_18
.Lfunc_end89:
	.size	nm_map_scan_back, .Lfunc_end89-nm_map_scan_back
	.cfi_endproc
	.section	.rodata.nm_map_scan_back,"a",@progbits
	.p2align	2, 0x0
.LJTI89_0:
	.long	.LBB89_10-.LJTI89_0
	.long	.LBB89_11-.LJTI89_0
	.long	.LBB89_12-.LJTI89_0
	.long	.LBB89_13-.LJTI89_0
	.long	.LBB89_14-.LJTI89_0
	.long	.LBB89_15-.LJTI89_0
	.section	.text.nm_map_scan_entries,"ax",@progbits
	.globl	nm_map_scan_entries
	.p2align	4
	.type	nm_map_scan_entries,@function
nm_map_scan_entries:
	.cfi_startproc
	pushq	%rbp
	.cfi_def_cfa_offset 16
	pushq	%r15
	.cfi_def_cfa_offset 24
	pushq	%r14
	.cfi_def_cfa_offset 32
	pushq	%r13
	.cfi_def_cfa_offset 40
	pushq	%r12
	.cfi_def_cfa_offset 48
	pushq	%rbx
	.cfi_def_cfa_offset 56
	subq	$2184, %rsp
	.cfi_def_cfa_offset 2240
	.cfi_offset %rbx, -56
	.cfi_offset %r12, -48
	.cfi_offset %r13, -40
	.cfi_offset %r14, -32
	.cfi_offset %r15, -24
	.cfi_offset %rbp, -16
	xorl	%r14d, %r14d
	testq	%rcx, %rcx
	movl	$1, %r11d
	xchgq	%r11, 8(%rdi)
	sete	%r10b
	movl	$-22, %eax
	testq	%r11, %r11
	je	.LBB90_1
.LBB90_75:
	addq	$2184, %rsp
	.cfi_def_cfa_offset 56
	popq	%rbx
	.cfi_def_cfa_offset 48
	popq	%r12
	.cfi_def_cfa_offset 40
	popq	%r13
	.cfi_def_cfa_offset 32
	popq	%r14
	.cfi_def_cfa_offset 24
	popq	%r15
	.cfi_def_cfa_offset 16
	popq	%rbp
	.cfi_def_cfa_offset 8
	retq
.LBB90_1:
	.cfi_def_cfa_offset 2240
	movq	(%rdi), %rbx
	movq	$0, (%rdi)
	testq	%rbx, %rbx
	je	.LBB90_76
	cmpb	$3, (%rbx)
	jne	.LBB90_74
	xorl	%r15d, %r15d
	cmpq	$-3, %rsi
	cmovbq	%rsi, %r15
	jae	.LBB90_71
	movzbl	112(%rbx), %eax
	cmpb	$1, %al
	jne	.LBB90_5
	movq	%rbx, (%rdi)
	xorl	%eax, %eax
	xchgq	%rax, 8(%rdi)
	movl	$-13, %eax
	jmp	.LBB90_75
.LBB90_76:
	xorl	%eax, %eax
	xchgq	%rax, 8(%rdi)
	movl	$-1, %eax
	jmp	.LBB90_75
.LBB90_74:
	movq	%rbx, (%rdi)
	xorl	%eax, %eax
	xchgq	%rax, 8(%rdi)
	movl	$-3, %eax
	jmp	.LBB90_75
.LBB90_71:
	movq	%rbx, (%rdi)
	xorl	%eax, %eax
	xchgq	%rax, 8(%rdi)
	movl	$-4, %eax
	jmp	.LBB90_75
.LBB90_5:
	cmpb	$2, %al
	jne	.LBB90_6
	movq	%rbx, (%rdi)
	xorl	%eax, %eax
	xchgq	%rax, 8(%rdi)
	movl	$-12, %eax
	jmp	.LBB90_75
.LBB90_6:
	movl	2248(%rsp), %esi
	testl	%esi, %esi
	je	.LBB90_68
	movb	%r10b, %r14b
	shll	$12, %r14d
	movq	%r14, 80(%rsp)
	leaq	(%rcx,%r14), %rax
	movq	%rax, 104(%rsp)
	movq	8(%rbx), %r12
	movq	8(%r12), %rax
	movq	(%rax), %rax
	movq	$1, 24(%rbx)
	movq	%rax, 32(%rbx)
.LBB90_9:
	movl	20(%rbx), %r10d
	leaq	1(%rax), %r11
	movq	8(%r12), %r14
	xchgq	%r11, (%r14,%r10,8)
	movq	$1, 40(%rbx)
	movq	%rax, 48(%rbx)
	movq	8(%r12), %rax
	movq	(%rax), %rax
	testb	$1, 72(%rbx)
	jne	.LBB90_77
	cmpb	$0, 56(%rbx)
	jne	.LBB90_78
	cmpb	$1, 40(%rbx)
	jne	.LBB90_78
	cmpq	%rax, 48(%rbx)
	movq	$1, 24(%rbx)
	movq	%rax, 32(%rbx)
	je	.LBB90_13
	decl	%esi
	jne	.LBB90_9
	movq	8(%r12), %rax
	movl	20(%rbx), %ecx
	xorl	%edx, %edx
	xchgq	%rdx, (%rax,%rcx,8)
.LBB90_67:
	xorps	%xmm0, %xmm0
	leaq	40(%rbx), %rax
	movups	%xmm0, 16(%rax)
	movups	%xmm0, (%rax)
.LBB90_68:
	movq	%rbx, (%rdi)
	xorl	%eax, %eax
	xchgq	%rax, 8(%rdi)
	movl	$-9, %eax
	jmp	.LBB90_75
.LBB90_13:
	movq	$1, 56(%rbx)
	movq	%rax, 64(%rbx)
	cmpq	$-3, %rdx
	movq	$-3, %rax
	cmovbq	%rdx, %rax
	movq	%rax, (%rsp)
	cmpq	$1024, %r8
	movl	$1024, %eax
	cmovbq	%r8, %rax
	movq	%rax, 88(%rsp)
	cmpq	%r15, %rdx
	jbe	.LBB90_14
	movq	%rcx, 8(%rsp)
	movq	%r9, 16(%rsp)
	movq	%rdi, 24(%rsp)
	leaq	128(%rsp), %rdi
	movl	$2056, %edx
	xorl	%esi, %esi
	callq	memset@PLT
	movl	88(%r12), %eax
	movq	8(%r12), %rcx
	addl	$4, %eax
	movq	8(%rcx,%rax,8), %rbp
	movl	72(%r12), %eax
	decl	%eax
	testb	$1, 84(%r12)
	movl	$65, %ecx
	cmovel	%eax, %ecx
	testl	%ecx, %ecx
	movq	%r12, 72(%rsp)
	je	.LBB90_19
	testq	%rbp, %rbp
	movq	24(%rsp), %rdi
	je	.LBB90_22
	movl	88(%r12), %eax
	addl	$-4, %eax
	movq	%rax, 48(%rsp)
	movq	(%rsp), %r8
	movq	16(%rsp), %r9
	movq	8(%rsp), %rax
.LBB90_24:
	movl	%ecx, 56(%rsp)
	shrq	$2, %rbp
	movl	%ebp, %r10d
	movq	8(%r12), %rdx
	movq	48(%rsp), %rcx
	leal	(%rcx,%rbp,4), %ecx
	movq	(%rdx,%rcx,8), %r11
	movq	8(%r12), %rdx
	movq	8(%rdx,%rcx,8), %rdx
	movq	8(%r12), %rsi
	movq	16(%rsi,%rcx,8), %rbp
	cmpq	%r11, %r15
	setb	%sil
	cmovbq	%rdx, %rbp
	testq	%rbp, %rbp
	setne	%dl
	movq	%r8, %r13
	movq	%r11, %r14
	cmpq	%r11, %r8
	seta	%r8b
	andb	%sil, %r8b
	andb	%dl, %r8b
	cmpb	$1, %r8b
	jne	.LBB90_25
	movq	8(%r12), %rdx
	movq	16(%rdx,%rcx,8), %rdx
	movq	2176(%rsp), %r12
	cmpq	$64, %r12
	jne	.LBB90_28
	leaq	128(%rsp), %rdi
	xorl	%r12d, %r12d
	movq	%rdx, 32(%rsp)
	movl	$2048, %edx
	xorl	%esi, %esi
	movq	%r10, 40(%rsp)
	callq	memset@PLT
	movq	32(%rsp), %rdx
	movq	40(%rsp), %r10
	movq	8(%rsp), %rax
	movq	16(%rsp), %r9
	movq	24(%rsp), %rdi
.LBB90_28:
	movq	%r12, %rcx
	shlq	$5, %rcx
	movq	%r14, %rsi
	movq	%r14, 128(%rsp,%rcx)
	movq	%r13, 136(%rsp,%rcx)
	movq	%rdx, 144(%rsp,%rcx)
	movq	%r14, 152(%rsp,%rcx)
	incq	%r12
	movq	%r12, 2176(%rsp)
	movq	%r14, %r8
	movq	72(%rsp), %r12
	jmp	.LBB90_29
.LBB90_25:
	movq	%r13, %r8
	movq	%r14, %rsi
.LBB90_29:
	movl	56(%rsp), %ecx
	decl	%ecx
	je	.LBB90_30
	testq	%rbp, %rbp
	jne	.LBB90_24
	jmp	.LBB90_31
.LBB90_14:
	xorl	%r13d, %r13d
	xorl	%ecx, %ecx
	xorl	%r11d, %r11d
.LBB90_15:
	leaq	40(%rbx), %r8
	jmp	.LBB90_16
.LBB90_19:
	movq	(%rsp), %r8
	xorl	%esi, %esi
	movq	24(%rsp), %rdi
	movq	16(%rsp), %r9
	movq	8(%rsp), %rax
	xorl	%r10d, %r10d
.LBB90_30:
	testq	%rbp, %rbp
	je	.LBB90_31
	movq	8(%r12), %rax
	movl	20(%rbx), %ecx
	xorl	%edx, %edx
	xchgq	%rdx, (%rax,%rcx,8)
	jmp	.LBB90_67
.LBB90_22:
	xorl	%esi, %esi
	movq	(%rsp), %r8
	xorl	%r10d, %r10d
	movq	16(%rsp), %r9
	movq	8(%rsp), %rax
.LBB90_31:
	movl	2248(%rsp), %r14d
	movl	%r14d, %ecx
	addq	$1023, %rcx
	movq	%rcx, 96(%rsp)
	xorl	%ebp, %ebp
	xorl	%r13d, %r13d
	jmp	.LBB90_32
.LBB90_56:
	testq	%r15, %r15
	jne	.LBB90_57
.LBB90_59:
	movq	%r11, %r15
	movq	120(%rsp), %rcx
	cmpq	96(%rsp), %rcx
	leaq	1(%rcx), %rbp
	movl	68(%rsp), %r14d
	movq	32(%rsp), %r13
	je	.LBB90_60
.LBB90_32:
	movq	%r8, %r11
	cmpq	%r15, %rsi
	jb	.LBB90_34
	cmpq	%rsi, %r11
	jbe	.LBB90_34
	cmpq	%r13, 88(%rsp)
	jbe	.LBB90_36
	movl	%r10d, %ecx
	movq	%r13, %rdx
	shlq	$4, %rdx
	movq	%rsi, %r8
	movq	104(%rsp), %rsi
	movq	%r8, (%rsi,%rdx)
	movq	%rcx, 8(%rsi,%rdx)
	incq	%r13
	jmp	.LBB90_38
.LBB90_34:
	decl	%r14d
.LBB90_38:
	testl	%r14d, %r14d
	je	.LBB90_58
	cmpq	(%rsp), %r11
	jae	.LBB90_58
	movq	2176(%rsp), %rcx
	testq	%rcx, %rcx
	movq	%r11, 40(%rsp)
	je	.LBB90_44
	decq	%rcx
	movq	%rcx, 2176(%rsp)
	shlq	$5, %rcx
	movq	128(%rsp,%rcx), %rdx
	movq	136(%rsp,%rcx), %r8
	movq	144(%rsp,%rcx), %r15
	movq	152(%rsp,%rcx), %rsi
	xorps	%xmm0, %xmm0
	movups	%xmm0, 128(%rsp,%rcx)
	movups	%xmm0, 144(%rsp,%rcx)
	cmpq	%r11, %rdx
	sete	%cl
	testq	%r15, %r15
	setne	%dl
	testb	%dl, %cl
	jne	.LBB90_45
	movq	2176(%rsp), %rdx
	testq	%rdx, %rdx
	je	.LBB90_44
	shlq	$5, %rdx
	leaq	128(%rsp), %rdi
	xorl	%esi, %esi
	movq	%r10, %r15
	callq	memset@PLT
	movq	40(%rsp), %r11
	movq	%r15, %r10
	movq	8(%rsp), %rax
	movq	16(%rsp), %r9
	movq	24(%rsp), %rdi
	movq	$0, 2176(%rsp)
.LBB90_44:
	movl	88(%r12), %ecx
	movq	8(%r12), %rdx
	addl	$4, %ecx
	movq	8(%rdx,%rcx,8), %r15
	xorl	%esi, %esi
	movq	(%rsp), %r8
.LBB90_45:
	movq	%rbp, 120(%rsp)
	movq	%r13, 32(%rsp)
	movl	%r14d, 68(%rsp)
	movl	72(%r12), %ecx
	decl	%ecx
	testb	$1, 84(%r12)
	movl	$65, %ebp
	cmovel	%ecx, %ebp
	testl	%ebp, %ebp
	je	.LBB90_56
	testq	%r15, %r15
	je	.LBB90_59
	movl	88(%r12), %r13d
	addl	$-4, %r13d
	movq	%r13, 112(%rsp)
.LBB90_49:
	shrq	$2, %r15
	movl	%r15d, %r10d
	movq	8(%r12), %rdx
	leal	(%r13,%r15,4), %ecx
	movq	(%rdx,%rcx,8), %r14
	movq	8(%r12), %rdx
	movq	8(%rdx,%rcx,8), %rdx
	movq	8(%r12), %rsi
	movq	16(%rsi,%rcx,8), %r15
	movq	%r14, %rsi
	cmpq	%r14, %r11
	cmovbq	%rdx, %r15
	jae	.LBB90_55
	testq	%r15, %r15
	je	.LBB90_55
	cmpq	%rsi, %r8
	jbe	.LBB90_55
	movq	8(%r12), %rdx
	movq	16(%rdx,%rcx,8), %r12
	movq	2176(%rsp), %r14
	cmpq	$64, %r14
	jne	.LBB90_54
	leaq	128(%rsp), %rdi
	xorl	%r14d, %r14d
	movl	$2048, %edx
	movq	%rsi, 48(%rsp)
	xorl	%esi, %esi
	movq	%r10, %r13
	movq	%r8, 56(%rsp)
	callq	memset@PLT
	movq	48(%rsp), %rsi
	movq	56(%rsp), %r8
	movq	40(%rsp), %r11
	movq	%r13, %r10
	movq	112(%rsp), %r13
	movq	8(%rsp), %rax
	movq	16(%rsp), %r9
	movq	24(%rsp), %rdi
.LBB90_54:
	movq	%r14, %rcx
	shlq	$5, %rcx
	movq	%rsi, 128(%rsp,%rcx)
	movq	%r8, 136(%rsp,%rcx)
	movq	%r12, 144(%rsp,%rcx)
	movq	%rsi, 152(%rsp,%rcx)
	incq	%r14
	movq	%r14, 2176(%rsp)
	movq	%rsi, %r8
	movq	72(%rsp), %r12
.LBB90_55:
	decl	%ebp
	je	.LBB90_56
	testq	%r15, %r15
	jne	.LBB90_49
	jmp	.LBB90_59
.LBB90_60:
	movb	$1, %cl
	jmp	.LBB90_61
.LBB90_57:
	movq	32(%rsp), %r13
	jmp	.LBB90_58
.LBB90_36:
	movq	%r15, %r11
.LBB90_58:
	xorl	%edx, %edx
	cmpq	(%rsp), %r11
	setb	%cl
	cmovaeq	%rdx, %r11
.LBB90_61:
	testq	%r13, %r13
	je	.LBB90_62
	movq	%r11, %r14
	movq	80(%rsp), %rdx
	addq	%rdx, %rax
	addq	$8, %rax
	movq	%r13, %rdx
.LBB90_64:
	movl	(%rax), %esi
	movl	72(%r12), %r8d
	leal	(,%r8,4), %r10d
	movl	%r8d, %r11d
	shrl	$6, %r11d
	andl	$63, %r8d
	addl	88(%r12), %r10d
	addl	%r11d, %r10d
	cmpl	$1, %r8d
	sbbl	$-1, %r10d
	decl	%esi
	addq	%r10, %rsi
	movq	8(%r12), %r8
	movq	(%r8,%rsi,8), %rsi
	movq	%rsi, (%rax)
	addq	$16, %rax
	decq	%rdx
	jne	.LBB90_64
	leaq	40(%rbx), %r8
	movq	%r14, %r11
.LBB90_16:
	movq	8(%r12), %rax
	movl	20(%rbx), %edx
	xorl	%esi, %esi
	xchgq	%rsi, (%rax,%rdx,8)
	xorl	%eax, %eax
	xorps	%xmm0, %xmm0
	movups	%xmm0, 16(%r8)
	movups	%xmm0, (%r8)
	movq	%r13, (%r9)
	testb	%cl, %cl
	je	.LBB90_17
	movq	2240(%rsp), %rax
	movq	%r11, (%rax)
	movq	%rbx, (%rdi)
	xorl	%eax, %eax
	xchgq	%rax, 8(%rdi)
	movl	$1, %eax
	jmp	.LBB90_75
.LBB90_17:
	movq	%rbx, (%rdi)
	xorl	%ecx, %ecx
	xchgq	%rcx, 8(%rdi)
	jmp	.LBB90_75
.LBB90_62:
	xorl	%r13d, %r13d
	jmp	.LBB90_15
.LBB90_77:
	movq	$1, 24(%rbx)
	movq	%rax, 32(%rbx)
	movb	$0, 72(%rbx)
	ud2
.LBB90_78:
	movq	$1, 24(%rbx)
	movq	%rax, 32(%rbx)
	ud2
.Lfunc_end90:
	.size	nm_map_scan_entries, .Lfunc_end90-nm_map_scan_entries
	.cfi_endproc
	.section	.text.nm_map_scan_entries_back,"ax",@progbits
	.globl	nm_map_scan_entries_back
	.p2align	4
	.type	nm_map_scan_entries_back,@function
nm_map_scan_entries_back:
	.cfi_startproc
	pushq	%rbp
	.cfi_def_cfa_offset 16
	pushq	%r15
	.cfi_def_cfa_offset 24
	pushq	%r14
	.cfi_def_cfa_offset 32
	pushq	%r13
	.cfi_def_cfa_offset 40
	pushq	%r12
	.cfi_def_cfa_offset 48
	pushq	%rbx
	.cfi_def_cfa_offset 56
	subq	$2184, %rsp
	.cfi_def_cfa_offset 2240
	.cfi_offset %rbx, -56
	.cfi_offset %r12, -48
	.cfi_offset %r13, -40
	.cfi_offset %r14, -32
	.cfi_offset %r15, -24
	.cfi_offset %rbp, -16
	xorl	%r12d, %r12d
	testq	%rcx, %rcx
	movl	$1, %r11d
	xchgq	%r11, 8(%rdi)
	sete	%r10b
	movl	$-22, %eax
	testq	%r11, %r11
	je	.LBB91_2
.LBB91_1:
	addq	$2184, %rsp
	.cfi_def_cfa_offset 56
	popq	%rbx
	.cfi_def_cfa_offset 48
	popq	%r12
	.cfi_def_cfa_offset 40
	popq	%r13
	.cfi_def_cfa_offset 32
	popq	%r14
	.cfi_def_cfa_offset 24
	popq	%r15
	.cfi_def_cfa_offset 16
	popq	%rbp
	.cfi_def_cfa_offset 8
	retq
.LBB91_2:
	.cfi_def_cfa_offset 2240
	movq	(%rdi), %rbx
	movq	$0, (%rdi)
	testq	%rbx, %rbx
	je	.LBB91_7
	cmpb	$3, (%rbx)
	jne	.LBB91_8
	xorl	%r15d, %r15d
	cmpq	$-3, %rsi
	cmovbq	%rsi, %r15
	jae	.LBB91_9
	movzbl	112(%rbx), %eax
	cmpb	$1, %al
	jne	.LBB91_10
	movq	%rbx, (%rdi)
	xorl	%eax, %eax
	xchgq	%rax, 8(%rdi)
	movl	$-13, %eax
	jmp	.LBB91_1
.LBB91_7:
	xorl	%eax, %eax
	xchgq	%rax, 8(%rdi)
	movl	$-1, %eax
	jmp	.LBB91_1
.LBB91_8:
	movq	%rbx, (%rdi)
	xorl	%eax, %eax
	xchgq	%rax, 8(%rdi)
	movl	$-3, %eax
	jmp	.LBB91_1
.LBB91_9:
	movq	%rbx, (%rdi)
	xorl	%eax, %eax
	xchgq	%rax, 8(%rdi)
	movl	$-4, %eax
	jmp	.LBB91_1
.LBB91_10:
	cmpb	$2, %al
	jne	.LBB91_12
	movq	%rbx, (%rdi)
	xorl	%eax, %eax
	xchgq	%rax, 8(%rdi)
	movl	$-12, %eax
	jmp	.LBB91_1
.LBB91_12:
	movl	2248(%rsp), %r13d
	testl	%r13d, %r13d
	je	.LBB91_21
	movb	%r10b, %r12b
	shll	$12, %r12d
	leaq	(%rcx,%r12), %rax
	movq	%rax, 112(%rsp)
	movq	8(%rbx), %rbp
	movq	8(%rbp), %rax
	movq	(%rax), %rax
	movq	$1, 24(%rbx)
	movq	%rax, 32(%rbx)
	movl	%r13d, %esi
.LBB91_14:
	movl	20(%rbx), %r10d
	leaq	1(%rax), %r11
	movq	8(%rbp), %r14
	xchgq	%r11, (%r14,%r10,8)
	movq	$1, 40(%rbx)
	movq	%rax, 48(%rbx)
	movq	8(%rbp), %rax
	movq	(%rax), %rax
	testb	$1, 72(%rbx)
	jne	.LBB91_78
	cmpb	$0, 56(%rbx)
	jne	.LBB91_79
	cmpb	$1, 40(%rbx)
	jne	.LBB91_79
	cmpq	%rax, 48(%rbx)
	movq	$1, 24(%rbx)
	movq	%rax, 32(%rbx)
	je	.LBB91_22
	decl	%esi
	jne	.LBB91_14
	movq	8(%rbp), %rax
	movl	20(%rbx), %ecx
	xorl	%edx, %edx
	xchgq	%rdx, (%rax,%rcx,8)
.LBB91_20:
	xorps	%xmm0, %xmm0
	leaq	40(%rbx), %rax
	movups	%xmm0, 16(%rax)
	movups	%xmm0, (%rax)
.LBB91_21:
	movq	%rbx, (%rdi)
	xorl	%eax, %eax
	xchgq	%rax, 8(%rdi)
	movl	$-9, %eax
	jmp	.LBB91_1
.LBB91_22:
	movq	$1, 56(%rbx)
	movq	%rax, 64(%rbx)
	cmpq	$-3, %rdx
	movq	$-3, %rax
	cmovbq	%rdx, %rax
	movq	%rax, 32(%rsp)
	cmpq	$1024, %r8
	movl	$1024, %eax
	cmovbq	%r8, %rax
	movq	%rax, 104(%rsp)
	cmpq	%r15, %rdx
	jbe	.LBB91_24
	movq	8(%rbp), %rax
	movl	20(%rbx), %ecx
	xorl	%edx, %edx
	xchgq	%rdx, (%rax,%rcx,8)
	xorps	%xmm0, %xmm0
	leaq	40(%rbx), %rax
	movups	%xmm0, 16(%rax)
	movups	%xmm0, (%rax)
	movq	$0, (%r9)
	jmp	.LBB91_77
.LBB91_24:
	movq	%rcx, 8(%rsp)
	movq	%r9, 24(%rsp)
	movq	%rdi, 16(%rsp)
	leaq	128(%rsp), %rdi
	movl	$2056, %edx
	xorl	%esi, %esi
	callq	memset@PLT
	movl	88(%rbp), %eax
	movq	8(%rbp), %rcx
	addl	$4, %eax
	movq	8(%rcx,%rax,8), %r8
	movl	72(%rbp), %eax
	decl	%eax
	testb	$1, 84(%rbp)
	movl	$65, %r11d
	cmovel	%eax, %r11d
	testl	%r11d, %r11d
	movq	%r12, 56(%rsp)
	movq	%rbp, (%rsp)
	je	.LBB91_35
	testq	%r8, %r8
	je	.LBB91_38
	movl	88(%rbp), %eax
	addl	$-4, %eax
	movq	%rax, 80(%rsp)
	movq	32(%rsp), %r10
	movq	16(%rsp), %rdi
	movq	24(%rsp), %rax
	movq	8(%rsp), %rcx
.LBB91_27:
	shrq	$2, %r8
	movl	%r8d, %r9d
	movq	8(%rbp), %rsi
	movq	80(%rsp), %rdx
	leal	(%rdx,%r8,4), %edx
	movq	(%rsi,%rdx,8), %r14
	movq	8(%rbp), %rsi
	movq	8(%rsi,%rdx,8), %rsi
	movq	8(%rbp), %r8
	movq	16(%r8,%rdx,8), %r13
	cmpq	%r14, %r10
	cmovbq	%rsi, %r13
	testq	%r13, %r13
	je	.LBB91_39
	cmpq	%r14, %r10
	setae	%sil
	cmpq	%r14, %r15
	setb	%r8b
	orb	%sil, %r8b
	jne	.LBB91_32
	movq	8(%rbp), %rsi
	movq	16(%rsi,%rdx,8), %r8
	movq	2176(%rsp), %rbp
	cmpq	$64, %rbp
	jne	.LBB91_31
	leaq	128(%rsp), %rdi
	xorl	%ebp, %ebp
	movl	$2048, %edx
	xorl	%esi, %esi
	movq	%r9, 72(%rsp)
	movq	%r10, %r12
	movl	%r11d, 48(%rsp)
	movq	%r8, 64(%rsp)
	callq	memset@PLT
	movq	64(%rsp), %r8
	movl	48(%rsp), %r11d
	movq	%r12, %r10
	movq	72(%rsp), %r9
	movq	8(%rsp), %rcx
	movq	24(%rsp), %rax
	movq	16(%rsp), %rdi
.LBB91_31:
	movq	%rbp, %rdx
	shlq	$5, %rdx
	movq	%r10, 128(%rsp,%rdx)
	movq	%r14, 136(%rsp,%rdx)
	movq	%r13, 144(%rsp,%rdx)
	movq	%r14, 152(%rsp,%rdx)
	incq	%rbp
	movq	%rbp, 2176(%rsp)
	movq	%r14, %r10
	movq	56(%rsp), %r12
	movq	(%rsp), %rbp
	jmp	.LBB91_33
.LBB91_32:
	movq	%r13, %r8
.LBB91_33:
	decl	%r11d
	movl	2248(%rsp), %r13d
	je	.LBB91_36
	testq	%r8, %r8
	jne	.LBB91_27
	jmp	.LBB91_40
.LBB91_35:
	movq	32(%rsp), %r10
	xorl	%r14d, %r14d
	movq	16(%rsp), %rdi
	movq	24(%rsp), %rax
	movq	8(%rsp), %rcx
	xorl	%r9d, %r9d
.LBB91_36:
	testq	%r8, %r8
	je	.LBB91_40
	movq	8(%rbp), %rax
	movl	20(%rbx), %ecx
	xorl	%edx, %edx
	xchgq	%rdx, (%rax,%rcx,8)
	jmp	.LBB91_20
.LBB91_38:
	xorl	%r14d, %r14d
	movq	32(%rsp), %r10
	xorl	%r9d, %r9d
	movq	16(%rsp), %rdi
	movq	24(%rsp), %rax
	movq	8(%rsp), %rcx
	jmp	.LBB91_40
.LBB91_39:
	movl	2248(%rsp), %r13d
.LBB91_40:
	incq	%r15
	movl	%r13d, %edx
	addq	$1023, %rdx
	movq	%rdx, 120(%rsp)
	movq	$0, 96(%rsp)
	movq	$0, 40(%rsp)
	jmp	.LBB91_43
.LBB91_41:
	testq	%r13, %r13
	jne	.LBB91_70
.LBB91_42:
	movq	%r11, %r15
	movq	96(%rsp), %rdx
	cmpq	120(%rsp), %rdx
	leaq	1(%rdx), %rdx
	movq	%rdx, 96(%rsp)
	movq	56(%rsp), %r12
	movq	(%rsp), %rbp
	movl	92(%rsp), %r13d
	je	.LBB91_68
.LBB91_43:
	movq	%r10, %r11
	cmpq	%r10, %r14
	jb	.LBB91_47
	cmpq	%r14, %r15
	jbe	.LBB91_47
	movq	40(%rsp), %r10
	cmpq	%r10, 104(%rsp)
	jbe	.LBB91_69
	movl	%r9d, %edx
	movq	%r10, %rsi
	shlq	$4, %rsi
	movq	112(%rsp), %r8
	movq	%r14, (%r8,%rsi)
	movq	%rdx, 8(%r8,%rsi)
	incq	%r10
	movq	%r10, 40(%rsp)
	jmp	.LBB91_48
.LBB91_47:
	decl	%r13d
.LBB91_48:
	cmpq	%r11, 32(%rsp)
	jae	.LBB91_71
	testl	%r13d, %r13d
	je	.LBB91_71
	movl	%r13d, 92(%rsp)
	movq	2176(%rsp), %rdx
	testq	%rdx, %rdx
	movq	%r11, 48(%rsp)
	je	.LBB91_54
	decq	%rdx
	movq	%rdx, 2176(%rsp)
	shlq	$5, %rdx
	movq	128(%rsp,%rdx), %r10
	movq	136(%rsp,%rdx), %rsi
	movq	144(%rsp,%rdx), %r13
	movq	152(%rsp,%rdx), %r14
	xorps	%xmm0, %xmm0
	movups	%xmm0, 128(%rsp,%rdx)
	movups	%xmm0, 144(%rsp,%rdx)
	cmpq	%r11, %rsi
	sete	%dl
	testq	%r13, %r13
	setne	%sil
	testb	%sil, %dl
	jne	.LBB91_55
	movq	2176(%rsp), %rdx
	testq	%rdx, %rdx
	je	.LBB91_54
	shlq	$5, %rdx
	leaq	128(%rsp), %rdi
	xorl	%esi, %esi
	movq	%r9, %r14
	callq	memset@PLT
	movq	48(%rsp), %r11
	movq	%r14, %r9
	movq	8(%rsp), %rcx
	movq	24(%rsp), %rax
	movq	16(%rsp), %rdi
	movq	$0, 2176(%rsp)
.LBB91_54:
	movl	88(%rbp), %edx
	movq	8(%rbp), %rsi
	addl	$4, %edx
	movq	8(%rsi,%rdx,8), %r13
	xorl	%r14d, %r14d
	movq	32(%rsp), %r10
.LBB91_55:
	movl	72(%rbp), %edx
	decl	%edx
	testb	$1, 84(%rbp)
	movl	$65, %ebp
	cmovel	%edx, %ebp
	testl	%ebp, %ebp
	je	.LBB91_41
	testq	%r13, %r13
	je	.LBB91_42
	movq	(%rsp), %rdx
	movl	88(%rdx), %r12d
	addl	$-4, %r12d
	movq	%r12, 80(%rsp)
.LBB91_58:
	shrq	$2, %r13
	movl	%r13d, %r9d
	movq	(%rsp), %r8
	movq	8(%r8), %rsi
	leal	(%r12,%r13,4), %edx
	movq	(%rsi,%rdx,8), %r14
	movq	8(%r8), %rsi
	movq	8(%rsi,%rdx,8), %rsi
	movq	8(%r8), %r8
	movq	16(%r8,%rdx,8), %r15
	cmpq	%r14, %r10
	cmovbq	%rsi, %r15
	testq	%r15, %r15
	je	.LBB91_42
	cmpq	%r14, %r10
	jae	.LBB91_65
	cmpq	%r14, %r11
	jbe	.LBB91_65
	movq	(%rsp), %rsi
	movq	8(%rsi), %rsi
	movq	16(%rsi,%rdx,8), %r13
	movq	2176(%rsp), %r12
	cmpq	$64, %r12
	jne	.LBB91_63
	leaq	128(%rsp), %rdi
	xorl	%r12d, %r12d
	movl	$2048, %edx
	xorl	%esi, %esi
	movq	%r9, 72(%rsp)
	movq	%r10, 64(%rsp)
	callq	memset@PLT
	movq	48(%rsp), %r11
	movq	64(%rsp), %r10
	movq	72(%rsp), %r9
	movq	8(%rsp), %rcx
	movq	24(%rsp), %rax
	movq	16(%rsp), %rdi
.LBB91_63:
	movq	%r12, %rdx
	shlq	$5, %rdx
	movq	%r10, 128(%rsp,%rdx)
	movq	%r14, 136(%rsp,%rdx)
	movq	%r15, 144(%rsp,%rdx)
	movq	%r14, 152(%rsp,%rdx)
	incq	%r12
	movq	%r12, 2176(%rsp)
	movq	%r14, %r10
	movq	80(%rsp), %r12
	jmp	.LBB91_66
.LBB91_65:
	movq	%r15, %r13
.LBB91_66:
	decl	%ebp
	je	.LBB91_41
	testq	%r13, %r13
	jne	.LBB91_58
	jmp	.LBB91_42
.LBB91_68:
	leaq	-1(%r11), %r8
	xorl	%edx, %edx
	cmpq	$-2, %r11
	setb	%sil
	cmovbq	%r8, %rdx
	jmp	.LBB91_72
.LBB91_69:
	movq	%r15, %r11
	jmp	.LBB91_71
.LBB91_70:
	movq	56(%rsp), %r12
	movq	(%rsp), %rbp
.LBB91_71:
	cmpq	%r11, 32(%rsp)
	setb	%r8b
	decq	%r11
	cmpq	$-3, %r11
	setb	%sil
	xorl	%edx, %edx
	andb	%r8b, %sil
	cmovneq	%r11, %rdx
.LBB91_72:
	movq	40(%rsp), %r15
	testq	%r15, %r15
	je	.LBB91_75
	addq	%r12, %rcx
	addq	$8, %rcx
	movq	%r15, %r8
.LBB91_74:
	movl	(%rcx), %r9d
	movl	72(%rbp), %r10d
	leal	(,%r10,4), %r11d
	movl	%r10d, %ebp
	shrl	$6, %ebp
	andl	$63, %r10d
	movq	(%rsp), %r14
	addl	88(%r14), %r11d
	addl	%ebp, %r11d
	movq	(%rsp), %rbp
	cmpl	$1, %r10d
	sbbl	$-1, %r11d
	decl	%r9d
	addq	%r11, %r9
	movq	8(%rbp), %r10
	movq	(%r10,%r9,8), %r9
	movq	%r9, (%rcx)
	addq	$16, %rcx
	decq	%r8
	jne	.LBB91_74
.LBB91_75:
	movq	8(%rbp), %rcx
	movl	20(%rbx), %r8d
	xorl	%r9d, %r9d
	xchgq	%r9, (%rcx,%r8,8)
	xorps	%xmm0, %xmm0
	leaq	40(%rbx), %rcx
	movups	%xmm0, 16(%rcx)
	movups	%xmm0, (%rcx)
	movq	%r15, (%rax)
	testb	%sil, %sil
	je	.LBB91_77
	movq	2240(%rsp), %rax
	movq	%rdx, (%rax)
	movq	%rbx, (%rdi)
	xorl	%eax, %eax
	xchgq	%rax, 8(%rdi)
	movl	$1, %eax
	jmp	.LBB91_1
.LBB91_77:
	movq	%rbx, (%rdi)
	xorl	%eax, %eax
	xorl	%ecx, %ecx
	xchgq	%rcx, 8(%rdi)
	jmp	.LBB91_1
.LBB91_78:
	movq	$1, 24(%rbx)
	movq	%rax, 32(%rbx)
	movb	$0, 72(%rbx)
	ud2
.LBB91_79:
	movq	$1, 24(%rbx)
	movq	%rax, 32(%rbx)
	ud2
.Lfunc_end91:
	.size	nm_map_scan_entries_back, .Lfunc_end91-nm_map_scan_entries_back
	.cfi_endproc
	.section	.text.nm_map_unpin,"ax",@progbits
	.globl	nm_map_unpin
	.p2align	4
	.type	nm_map_unpin,@function
nm_map_unpin:
	.cfi_startproc
	movl	$1, %ecx
	xchgq	%rcx, 8(%rdi)
	movl	$-22, %eax
	testq	%rcx, %rcx
	je	.LBB92_1
	retq
.LBB92_1:
	movq	(%rdi), %rax
	movq	$0, (%rdi)
	testq	%rax, %rax
	je	.LBB92_8
	cmpb	$3, (%rax)
	jne	.LBB92_6
	cmpb	$1, 112(%rax)
	jne	.LBB92_5
	movq	8(%rax), %rcx
	movq	8(%rcx), %rcx
	xorps	%xmm0, %xmm0
	movaps	%xmm0, -24(%rsp)
	movq	$0, -8(%rsp)
	movl	20(%rax), %edx
	xorl	%esi, %esi
	xorl	%r8d, %r8d
	xchgq	%r8, (%rcx,%rdx,8)
	movups	%xmm0, 56(%rax)
	movups	%xmm0, 40(%rax)
	movq	$0, 112(%rax)
	movaps	-24(%rsp), %xmm0
	movups	%xmm0, 120(%rax)
	movq	-8(%rsp), %rcx
	movq	%rcx, 136(%rax)
	movq	%rax, (%rdi)
	xchgq	%rsi, 8(%rdi)
	movl	$2, %eax
	retq
.LBB92_8:
	xorl	%eax, %eax
	xchgq	%rax, 8(%rdi)
	movl	$-1, %eax
	retq
.LBB92_6:
	movq	%rax, (%rdi)
	xorl	%eax, %eax
	xchgq	%rax, 8(%rdi)
	movl	$-3, %eax
	retq
.LBB92_5:
	movq	%rax, (%rdi)
	xorl	%eax, %eax
	xchgq	%rax, 8(%rdi)
	movl	$-14, %eax
	retq
.Lfunc_end92:
	.size	nm_map_unpin, .Lfunc_end92-nm_map_unpin
	.cfi_endproc
	.section	.text.nm_report_key,"ax",@progbits
	.globl	nm_report_key
	.p2align	4
	.type	nm_report_key,@function
nm_report_key:
	.cfi_startproc
	movl	$1, %ecx
	xchgq	%rcx, 8(%rdi)
	movl	$-22, %eax
	testq	%rcx, %rcx
	je	.LBB93_1
	retq
.LBB93_1:
	movq	(%rdi), %rax
	movq	$0, (%rdi)
	testq	%rax, %rax
	je	.LBB93_8
	cmpb	$4, (%rax)
	jne	.LBB93_6
	cmpq	40(%rax), %rsi
	jae	.LBB93_5
	movq	32(%rax), %rcx
	movq	(%rcx,%rsi,8), %rcx
	movq	%rcx, (%rdx)
	movq	%rax, (%rdi)
	xorl	%eax, %eax
	xchgq	%rax, 8(%rdi)
	movl	$2, %eax
	retq
.LBB93_8:
	xorl	%eax, %eax
	xchgq	%rax, 8(%rdi)
	movl	$-1, %eax
	retq
.LBB93_6:
	movq	%rax, (%rdi)
	xorl	%eax, %eax
	xchgq	%rax, 8(%rdi)
	movl	$-3, %eax
	retq
.LBB93_5:
	movq	%rax, (%rdi)
	xorl	%eax, %eax
	xchgq	%rax, 8(%rdi)
	movl	$-5, %eax
	retq
.Lfunc_end93:
	.size	nm_report_key, .Lfunc_end93-nm_report_key
	.cfi_endproc
	.section	.text.nm_report_keys,"ax",@progbits
	.globl	nm_report_keys
	.p2align	4
	.type	nm_report_keys,@function
nm_report_keys:
	.cfi_startproc
	movl	$1, %ecx
	xchgq	%rcx, 8(%rdi)
	movl	$-22, %eax
	testq	%rcx, %rcx
	je	.LBB94_1
	retq
.LBB94_1:
	movq	(%rdi), %rax
	movq	$0, (%rdi)
	testq	%rax, %rax
	je	.LBB94_6
	cmpb	$4, (%rax)
	jne	.LBB94_4
	movq	40(%rax), %rcx
	movq	%rcx, (%rsi)
	movq	%rax, (%rdi)
	xorl	%eax, %eax
	xchgq	%rax, 8(%rdi)
	movl	$2, %eax
	retq
.LBB94_6:
	xorl	%eax, %eax
	xchgq	%rax, 8(%rdi)
	movl	$-1, %eax
	retq
.LBB94_4:
	movq	%rax, (%rdi)
	xorl	%eax, %eax
	xchgq	%rax, 8(%rdi)
	movl	$-3, %eax
	retq
.Lfunc_end94:
	.size	nm_report_keys, .Lfunc_end94-nm_report_keys
	.cfi_endproc
	.section	.text.nm_report_queue,"ax",@progbits
	.globl	nm_report_queue
	.p2align	4
	.type	nm_report_queue,@function
nm_report_queue:
	.cfi_startproc
	movl	$1, %ecx
	xchgq	%rcx, 8(%rdi)
	movl	$-22, %eax
	testq	%rcx, %rcx
	je	.LBB95_1
	retq
.LBB95_1:
	movq	(%rdi), %rax
	movq	$0, (%rdi)
	testq	%rax, %rax
	je	.LBB95_8
	cmpb	$4, (%rax)
	jne	.LBB95_6
	movl	%esi, %ecx
	cmpq	%rcx, 16(%rax)
	jbe	.LBB95_5
	movq	8(%rax), %rsi
	leaq	(%rcx,%rcx,2), %rcx
	shlq	$5, %rcx
	movl	60(%rsi,%rcx), %ecx
	movq	%rcx, (%rdx)
	movq	%rax, (%rdi)
	xorl	%eax, %eax
	xchgq	%rax, 8(%rdi)
	movl	$2, %eax
	retq
.LBB95_8:
	xorl	%eax, %eax
	xchgq	%rax, 8(%rdi)
	movl	$-1, %eax
	retq
.LBB95_6:
	movq	%rax, (%rdi)
	xorl	%eax, %eax
	xchgq	%rax, 8(%rdi)
	movl	$-3, %eax
	retq
.LBB95_5:
	movq	%rax, (%rdi)
	xorl	%eax, %eax
	xchgq	%rax, 8(%rdi)
	movl	$-5, %eax
	retq
.Lfunc_end95:
	.size	nm_report_queue, .Lfunc_end95-nm_report_queue
	.cfi_endproc
	.section	.text.nm_report_slots,"ax",@progbits
	.globl	nm_report_slots
	.p2align	4
	.type	nm_report_slots,@function
nm_report_slots:
	.cfi_startproc
	movl	$1, %ecx
	xchgq	%rcx, 8(%rdi)
	movl	$-22, %eax
	testq	%rcx, %rcx
	je	.LBB96_1
	retq
.LBB96_1:
	movq	(%rdi), %rax
	movq	$0, (%rdi)
	testq	%rax, %rax
	je	.LBB96_6
	cmpb	$4, (%rax)
	jne	.LBB96_4
	movl	56(%rax), %ecx
	movl	%ecx, (%rsi)
	movl	60(%rax), %ecx
	movl	%ecx, (%rdx)
	movq	%rax, (%rdi)
	xorl	%eax, %eax
	xchgq	%rax, 8(%rdi)
	movl	$2, %eax
	retq
.LBB96_6:
	xorl	%eax, %eax
	xchgq	%rax, 8(%rdi)
	movl	$-1, %eax
	retq
.LBB96_4:
	movq	%rax, (%rdi)
	xorl	%eax, %eax
	xchgq	%rax, 8(%rdi)
	movl	$-3, %eax
	retq
.Lfunc_end96:
	.size	nm_report_slots, .Lfunc_end96-nm_report_slots
	.cfi_endproc
	.section	.text.nm_report_waiting,"ax",@progbits
	.globl	nm_report_waiting
	.p2align	4
	.type	nm_report_waiting,@function
nm_report_waiting:
	.cfi_startproc
	movl	$1, %ecx
	xchgq	%rcx, 8(%rdi)
	movl	$-22, %eax
	testq	%rcx, %rcx
	je	.LBB97_1
	retq
.LBB97_1:
	movq	(%rdi), %rax
	movq	$0, (%rdi)
	testq	%rax, %rax
	je	.LBB97_15
	cmpb	$4, (%rax)
	jne	.LBB97_13
	movl	%esi, %esi
	cmpq	%rsi, 16(%rax)
	jbe	.LBB97_12
	movq	8(%rax), %rcx
	shlq	$5, %rsi
	leaq	(%rsi,%rsi,2), %rsi
	movl	60(%rcx,%rsi), %r10d
	testl	%r10d, %r10d
	je	.LBB97_5
	pushq	%rbx
	.cfi_def_cfa_offset 16
	.cfi_offset %rbx, -16
	movl	56(%rcx,%rsi), %r11d
	movq	8(%rcx,%rsi), %r9
	leaq	(%r11,%r11,2), %rbx
	movl	8(%r9,%rbx,8), %r8d
	movups	16(%r9,%rbx,8), %xmm0
	decl	%r10d
	movl	%r10d, 60(%rcx,%rsi)
	leal	1(%r11), %r10d
	movl	%r10d, 56(%rcx,%rsi)
	cmpl	$32, %r10d
	jne	.LBB97_11
	movl	$0, 56(%rcx,%rsi)
	movq	(%r9), %r10
	movq	%r10, 8(%rcx,%rsi)
	decl	24(%rcx,%rsi)
	cmpl	$0, 48(%rcx,%rsi)
	je	.LBB97_8
	movq	40(%rcx,%rsi), %r10
	movq	$0, (%r9)
	movq	%r9, (%r10)
	jmp	.LBB97_10
.LBB97_15:
	.cfi_def_cfa_offset 8
	.cfi_restore %rbx
	xorl	%eax, %eax
	xchgq	%rax, 8(%rdi)
	movl	$-1, %eax
	retq
.LBB97_13:
	movq	%rax, (%rdi)
	xorl	%eax, %eax
	xchgq	%rax, 8(%rdi)
	movl	$-3, %eax
	retq
.LBB97_12:
	movq	%rax, (%rdi)
	xorl	%eax, %eax
	xchgq	%rax, 8(%rdi)
	movl	$-5, %eax
	retq
.LBB97_5:
	movq	%rax, (%rdi)
	xorl	%eax, %eax
	xorl	%ecx, %ecx
	xchgq	%rcx, 8(%rdi)
	retq
.LBB97_8:
	.cfi_def_cfa_offset 16
	.cfi_offset %rbx, -16
	movq	$0, (%r9)
	movq	%r9, 32(%rcx,%rsi)
.LBB97_10:
	movq	%r9, 40(%rcx,%rsi)
	incl	48(%rcx,%rsi)
.LBB97_11:
	movq	%r8, (%rdx)
	movups	%xmm0, 8(%rdx)
	movq	%rax, (%rdi)
	xorl	%eax, %eax
	xchgq	%rax, 8(%rdi)
	movl	$1, %eax
	popq	%rbx
	.cfi_def_cfa_offset 8
	.cfi_restore %rbx
	retq
.Lfunc_end97:
	.size	nm_report_waiting, .Lfunc_end97-nm_report_waiting
	.cfi_endproc
	.section	.text.nm_set_attached,"ax",@progbits
	.globl	nm_set_attached
	.p2align	4
	.type	nm_set_attached,@function
nm_set_attached:
	.cfi_startproc
	movl	$8388607, %eax
	.p2align	4
.LBB98_1:
	movl	$1, %ecx
	xchgq	%rcx, 8(%rdi)
	testq	%rcx, %rcx
	je	.LBB98_2
	pause
	decl	%eax
	jne	.LBB98_1
	movl	$1, %ecx
	xchgq	%rcx, 8(%rdi)
	movl	$-22, %eax
	testq	%rcx, %rcx
	je	.LBB98_6
	retq
.LBB98_2:
	movq	(%rdi), %rax
	movq	$0, (%rdi)
	testq	%rax, %rax
	jne	.LBB98_8
	xorl	%eax, %eax
	xchgq	%rax, 8(%rdi)
	movl	$-1, %eax
	retq
.LBB98_6:
	movq	(%rdi), %rax
	movq	$0, (%rdi)
	testq	%rax, %rax
	je	.LBB98_7
.LBB98_8:
	cmpb	$0, (%rax)
	je	.LBB98_10
	movq	%rax, (%rdi)
	xorl	%eax, %eax
	xchgq	%rax, 8(%rdi)
	movl	$-3, %eax
	retq
.LBB98_10:
	cmpb	$0, 8(%rax)
	je	.LBB98_12
	movq	%rax, (%rdi)
	xorl	%eax, %eax
	xchgq	%rax, 8(%rdi)
	movl	$-19, %eax
	retq
.LBB98_7:
	xorl	%eax, %eax
	xchgq	%rax, 8(%rdi)
	movl	$-1, %eax
	retq
.LBB98_12:
	movq	16(%rax), %rdx
	movl	%esi, %ecx
	cmpq	%rcx, 120(%rdx)
	jbe	.LBB98_13
	movq	104(%rdx), %rsi
	movq	(%rsi), %rsi
	movq	104(%rdx), %rdx
	movq	(%rdx,%rcx,8), %rcx
	testb	$1, %cl
	sete	%dl
	cmpq	$-2, %rcx
	setne	%cl
	movq	%rax, (%rdi)
	xorl	%eax, %eax
	xchgq	%rax, 8(%rdi)
	andb	%dl, %cl
	movzbl	%cl, %eax
	retq
.LBB98_13:
	movq	%rax, (%rdi)
	xorl	%eax, %eax
	xchgq	%rax, 8(%rdi)
	movl	$-5, %eax
	retq
.Lfunc_end98:
	.size	nm_set_attached, .Lfunc_end98-nm_set_attached
	.cfi_endproc
	.section	.text.nm_set_close,"ax",@progbits
	.globl	nm_set_close
	.p2align	4
	.type	nm_set_close,@function
nm_set_close:
	.cfi_startproc
	pushq	%rbp
	.cfi_def_cfa_offset 16
	pushq	%r15
	.cfi_def_cfa_offset 24
	pushq	%r14
	.cfi_def_cfa_offset 32
	pushq	%r13
	.cfi_def_cfa_offset 40
	pushq	%r12
	.cfi_def_cfa_offset 48
	pushq	%rbx
	.cfi_def_cfa_offset 56
	subq	$2232, %rsp
	.cfi_def_cfa_offset 2288
	.cfi_offset %rbx, -56
	.cfi_offset %r12, -48
	.cfi_offset %r13, -40
	.cfi_offset %r14, -32
	.cfi_offset %r15, -24
	.cfi_offset %rbp, -16
	movq	%rdi, %rbx
	xorps	%xmm0, %xmm0
	movaps	%xmm0, 592(%rsp)
	movaps	%xmm0, 608(%rsp)
	movaps	%xmm0, 432(%rsp)
	movaps	%xmm0, 448(%rsp)
	movaps	%xmm0, 464(%rsp)
	movq	$0, 480(%rsp)
	movaps	%xmm0, 560(%rsp)
	movaps	%xmm0, 576(%rsp)
	movaps	%xmm0, 720(%rsp)
	movaps	%xmm0, 736(%rsp)
	movaps	%xmm0, 752(%rsp)
	movq	$0, 768(%rsp)
	movaps	%xmm0, 2000(%rsp)
	movaps	%xmm0, 1984(%rsp)
	movaps	%xmm0, 1968(%rsp)
	movaps	%xmm0, 1952(%rsp)
	movaps	%xmm0, 1936(%rsp)
	movaps	%xmm0, 1920(%rsp)
	movaps	%xmm0, 1904(%rsp)
	movaps	%xmm0, 1888(%rsp)
	movaps	%xmm0, 1872(%rsp)
	movaps	%xmm0, 1856(%rsp)
	movaps	%xmm0, 1840(%rsp)
	movq	$0, 2016(%rsp)
	movl	$0, 11(%rsp)
	movl	$0, 8(%rsp)
	movaps	%xmm0, 400(%rsp)
	movq	$0, 416(%rsp)
	movaps	%xmm0, 1088(%rsp)
	movaps	%xmm0, 1072(%rsp)
	movaps	%xmm0, 1056(%rsp)
	movaps	%xmm0, 1040(%rsp)
	movaps	%xmm0, 1024(%rsp)
	movaps	%xmm0, 1008(%rsp)
	movaps	%xmm0, 992(%rsp)
	movaps	%xmm0, 976(%rsp)
	movaps	%xmm0, 960(%rsp)
	movaps	%xmm0, 944(%rsp)
	movaps	%xmm0, 928(%rsp)
	movaps	%xmm0, 912(%rsp)
	movaps	%xmm0, 896(%rsp)
	movaps	%xmm0, 880(%rsp)
	movaps	%xmm0, 864(%rsp)
	movaps	%xmm0, 848(%rsp)
	movaps	%xmm0, 832(%rsp)
	movaps	%xmm0, 816(%rsp)
	movaps	%xmm0, 800(%rsp)
	movaps	%xmm0, 784(%rsp)
	movaps	%xmm0, 368(%rsp)
	movq	$0, 384(%rsp)
	movl	$8388607, %eax
	.p2align	4
.LBB99_1:
	movl	$1, %ecx
	xchgq	%rcx, 8(%rbx)
	testq	%rcx, %rcx
	je	.LBB99_2
	pause
	decl	%eax
	jne	.LBB99_1
	movl	$1, %ecx
	xchgq	%rcx, 8(%rbx)
	movl	$-22, %eax
	testq	%rcx, %rcx
	jne	.LBB99_51
	movq	(%rbx), %r15
	movq	$0, (%rbx)
	testq	%r15, %r15
	jne	.LBB99_8
	xorl	%eax, %eax
	xchgq	%rax, 8(%rbx)
	movl	$-1, %eax
	jmp	.LBB99_51
.LBB99_2:
	movq	(%rbx), %r15
	movq	$0, (%rbx)
	testq	%r15, %r15
	je	.LBB99_3
.LBB99_8:
	movzbl	(%r15), %r13d
	leaq	8(%r15), %rdi
	movq	8(%r15), %rax
	movq	%rax, 40(%rsp)
	movq	16(%r15), %r12
	movq	24(%r15), %rax
	movq	%rax, 80(%rsp)
	movq	32(%r15), %rax
	movq	%rax, 16(%rsp)
	movq	40(%r15), %rax
	movq	%rax, 24(%rsp)
	movq	48(%r15), %rax
	movq	%rax, 88(%rsp)
	movups	56(%r15), %xmm0
	movaps	%xmm0, 48(%rsp)
	movups	88(%r15), %xmm0
	movaps	%xmm0, 576(%rsp)
	movups	72(%r15), %xmm0
	movaps	%xmm0, 560(%rsp)
	movq	104(%r15), %rax
	movq	%rax, 72(%rsp)
	movq	112(%r15), %r14
	movq	120(%r15), %rax
	movq	%rax, (%rsp)
	movq	128(%r15), %rbp
	movq	184(%r15), %rax
	movq	%rax, 768(%rsp)
	movups	168(%r15), %xmm0
	movaps	%xmm0, 752(%rsp)
	movups	152(%r15), %xmm0
	movaps	%xmm0, 736(%rsp)
	movups	136(%r15), %xmm0
	movaps	%xmm0, 720(%rsp)
	movq	$5, (%r15)
	leaq	1840(%rsp), %rsi
	movl	$184, %edx
	callq	memcpy@PLT
	xorps	%xmm0, %xmm0
	movaps	%xmm0, 1472(%rsp)
	movaps	%xmm0, 1488(%rsp)
	movaps	%xmm0, 1376(%rsp)
	movaps	%xmm0, 1392(%rsp)
	movaps	%xmm0, 1408(%rsp)
	movq	$0, 1424(%rsp)
	movaps	%xmm0, 1440(%rsp)
	movaps	%xmm0, 1456(%rsp)
	movaps	%xmm0, 624(%rsp)
	movaps	%xmm0, 640(%rsp)
	movaps	%xmm0, 496(%rsp)
	movaps	%xmm0, 512(%rsp)
	movaps	%xmm0, 528(%rsp)
	movq	$0, 544(%rsp)
	movaps	%xmm0, 1312(%rsp)
	movaps	%xmm0, 1328(%rsp)
	movaps	%xmm0, 1344(%rsp)
	movq	$0, 1360(%rsp)
	testb	%r13b, %r13b
	je	.LBB99_9
	movq	%rbp, 312(%rsp)
	movq	%r14, 320(%rsp)
	movq	%r12, 32(%rsp)
	movaps	560(%rsp), %xmm0
	movaps	576(%rsp), %xmm1
	movaps	%xmm1, 608(%rsp)
	movaps	%xmm0, 592(%rsp)
	movaps	720(%rsp), %xmm0
	movaps	736(%rsp), %xmm1
	movaps	752(%rsp), %xmm2
	movaps	%xmm0, 432(%rsp)
	movaps	%xmm1, 448(%rsp)
	movaps	%xmm2, 464(%rsp)
	movq	768(%rsp), %rax
	movq	%rax, 480(%rsp)
	movl	$7, %eax
	movq	%rax, 304(%rsp)
	movb	$5, %al
	movq	24(%rsp), %rdx
	movdqa	48(%rsp), %xmm3
	movl	%r13d, %ebp
	jmp	.LBB99_27
.LBB99_3:
	xorl	%eax, %eax
	xchgq	%rax, 8(%rbx)
	movl	$-1, %eax
	jmp	.LBB99_51
.LBB99_9:
	movaps	%xmm0, 1120(%rsp)
	movaps	%xmm0, 1104(%rsp)
	movaps	%xmm0, 688(%rsp)
	movaps	%xmm0, 704(%rsp)
	movaps	%xmm0, 2032(%rsp)
	movaps	%xmm0, 2048(%rsp)
	movaps	%xmm0, 2064(%rsp)
	movaps	%xmm0, 2080(%rsp)
	movaps	%xmm0, 2096(%rsp)
	movaps	%xmm0, 2112(%rsp)
	movaps	%xmm0, 2128(%rsp)
	movaps	%xmm0, 2144(%rsp)
	movaps	%xmm0, 2160(%rsp)
	movaps	%xmm0, 2176(%rsp)
	movaps	%xmm0, 2192(%rsp)
	movaps	%xmm0, 2208(%rsp)
	movq	$0, 2224(%rsp)
	movaps	%xmm0, 656(%rsp)
	movaps	%xmm0, 672(%rsp)
	movaps	%xmm0, 1808(%rsp)
	movaps	%xmm0, 1792(%rsp)
	movaps	%xmm0, 1776(%rsp)
	movaps	%xmm0, 1760(%rsp)
	movaps	%xmm0, 1744(%rsp)
	movaps	%xmm0, 1728(%rsp)
	movaps	%xmm0, 1712(%rsp)
	movq	$0, 1824(%rsp)
	movaps	%xmm0, 1504(%rsp)
	movaps	%xmm0, 1520(%rsp)
	movaps	%xmm0, 1536(%rsp)
	movaps	%xmm0, 1552(%rsp)
	movaps	%xmm0, 1568(%rsp)
	movaps	%xmm0, 1584(%rsp)
	movaps	%xmm0, 1600(%rsp)
	movaps	%xmm0, 1616(%rsp)
	movaps	%xmm0, 1632(%rsp)
	movaps	%xmm0, 1648(%rsp)
	movaps	%xmm0, 1664(%rsp)
	movaps	%xmm0, 1680(%rsp)
	movaps	%xmm0, 1696(%rsp)
	movq	%r14, 1264(%rsp)
	movq	(%rsp), %rcx
	movq	%rcx, 1272(%rsp)
	movq	%rbp, 1280(%rsp)
	cmpb	$1, 40(%rsp)
	movq	%r14, %rsi
	movq	%rbp, %r11
	jne	.LBB99_14
	movaps	%xmm0, 96(%rsp)
	movaps	%xmm0, 112(%rsp)
	movaps	%xmm0, 128(%rsp)
	movaps	%xmm0, 144(%rsp)
	movaps	%xmm0, 160(%rsp)
	movaps	%xmm0, 176(%rsp)
	movaps	%xmm0, 192(%rsp)
	movaps	%xmm0, 208(%rsp)
	movaps	%xmm0, 224(%rsp)
	movaps	%xmm0, 240(%rsp)
	movaps	%xmm0, 256(%rsp)
	movq	$0, 272(%rsp)
	movq	%r12, 1168(%rsp)
	movq	80(%rsp), %rax
	movq	%rax, 1176(%rsp)
	movq	16(%rsp), %rax
	movq	%rax, 1184(%rsp)
	movq	24(%rsp), %rax
	movq	%rax, 1192(%rsp)
	movq	88(%rsp), %rax
	movq	%rax, 1200(%rsp)
	movaps	48(%rsp), %xmm0
	movups	%xmm0, 1208(%rsp)
	movaps	560(%rsp), %xmm0
	movaps	576(%rsp), %xmm1
	movups	%xmm1, 1240(%rsp)
	movups	%xmm0, 1224(%rsp)
	movq	%rsi, 1288(%rsp)
	movq	%rcx, 1296(%rsp)
	movq	%r11, 1304(%rsp)
	leaq	96(%rsp), %rdi
	leaq	1168(%rsp), %rsi
	leaq	1288(%rsp), %rdx
	callq	"nm_tree::tree::Tree::end"
	movzbl	96(%rsp), %eax
	movq	120(%rsp), %r9
	testb	%al, %al
	je	.LBB99_11
	movzbl	104(%rsp), %ebp
	movq	128(%rsp), %rdx
	movq	136(%rsp), %r8
	movq	144(%rsp), %rcx
	movq	%rcx, 48(%rsp)
	movq	152(%rsp), %rdi
	movdqa	160(%rsp), %xmm3
	movaps	176(%rsp), %xmm0
	movaps	%xmm0, 1136(%rsp)
	movaps	192(%rsp), %xmm0
	movaps	%xmm0, 1152(%rsp)
	movq	208(%rsp), %rsi
	movq	216(%rsp), %rcx
	movq	%rcx, (%rsp)
	xorl	%r14d, %r14d
	movq	224(%rsp), %r11
	movq	%r9, 32(%rsp)
	movq	$0, 16(%rsp)
	movl	$1, %r9d
	movq	72(%rsp), %r10
	jmp	.LBB99_13
.LBB99_14:
	pxor	%xmm3, %xmm3
	movdqa	%xmm3, 272(%rsp)
	movdqa	%xmm3, 256(%rsp)
	movdqa	%xmm3, 240(%rsp)
	movdqa	%xmm3, 224(%rsp)
	movdqa	%xmm3, 208(%rsp)
	movdqa	%xmm3, 192(%rsp)
	movdqa	%xmm3, 176(%rsp)
	movdqa	%xmm3, 160(%rsp)
	movdqa	%xmm3, 144(%rsp)
	movdqa	%xmm3, 128(%rsp)
	movdqa	%xmm3, 112(%rsp)
	movdqa	%xmm3, 96(%rsp)
	movq	$0, 288(%rsp)
	movq	(%r12), %rax
	cmpq	$1, %rax
	jne	.LBB99_19
	movq	8(%r12), %r13
	leaq	16(%r12), %rsi
	leaq	96(%rsp), %r14
	movl	$200, %edx
	movq	%r14, %rdi
	callq	memcpy@PLT
	movq	%r12, %rdi
	callq	nm_host_dealloc@PLT
	leaq	2032(%rsp), %r12
	movl	$200, %edx
	movq	%r12, %rdi
	movq	%r14, %rsi
	callq	memcpy@PLT
	movq	%r13, 1504(%rsp)
	leaq	1512(%rsp), %rdi
	movl	$200, %edx
	movq	%r12, %rsi
	callq	memcpy@PLT
	leaq	1712(%rsp), %r14
	leaq	1504(%rsp), %rsi
	leaq	1264(%rsp), %rdx
	movq	%r14, %rdi
	callq	"nm_set::home::Home::gather"
	movzbl	1800(%rsp), %r12d
	leaq	1808(%rsp), %rdx
	xorps	%xmm0, %xmm0
	movaps	%xmm0, 96(%rsp)
	movaps	%xmm0, 112(%rsp)
	movaps	%xmm0, 128(%rsp)
	movaps	%xmm0, 144(%rsp)
	movaps	%xmm0, 160(%rsp)
	movaps	%xmm0, 176(%rsp)
	movaps	%xmm0, 192(%rsp)
	movaps	%xmm0, 208(%rsp)
	movaps	%xmm0, 224(%rsp)
	movaps	%xmm0, 240(%rsp)
	movaps	%xmm0, 256(%rsp)
	movq	$0, 272(%rsp)
	leaq	96(%rsp), %rdi
	movq	%r14, %rsi
	callq	"nm_tree::tree::Tree::end"
	movzbl	96(%rsp), %eax
	movq	120(%rsp), %r9
	testb	%al, %al
	je	.LBB99_16
	movzbl	104(%rsp), %ebp
	movq	128(%rsp), %rdx
	movq	136(%rsp), %r8
	movq	144(%rsp), %rcx
	movq	%rcx, 48(%rsp)
	movq	152(%rsp), %rdi
	movdqa	160(%rsp), %xmm3
	movaps	176(%rsp), %xmm0
	movaps	%xmm0, 1168(%rsp)
	movaps	192(%rsp), %xmm0
	movaps	%xmm0, 1184(%rsp)
	movq	208(%rsp), %rsi
	movq	216(%rsp), %rcx
	movq	%rcx, (%rsp)
	xorl	%r14d, %r14d
	movq	224(%rsp), %r11
	movq	%r9, 32(%rsp)
	movq	$0, 16(%rsp)
	movl	$1, %r9d
	movq	%r12, %r10
	jmp	.LBB99_18
.LBB99_19:
	movq	%r12, 32(%rsp)
	movdqa	%xmm3, 656(%rsp)
	movdqa	%xmm3, 672(%rsp)
	xorl	%edx, %edx
	movl	$2, %ebp
	movb	$1, %al
	xorl	%r8d, %r8d
	movq	$0, 48(%rsp)
	xorl	%edi, %edi
	xorl	%r14d, %r14d
	xorl	%r13d, %r13d
	xorl	%r12d, %r12d
	movq	$0, 16(%rsp)
	xorl	%r9d, %r9d
	xorl	%r10d, %r10d
	jmp	.LBB99_20
.LBB99_11:
	movl	104(%rsp), %ebp
	movl	116(%rsp), %ecx
	movq	%rcx, 16(%rsp)
	movzbl	216(%rsp), %r10d
	movq	128(%rsp), %rcx
	movq	%rcx, 32(%rsp)
	movq	136(%rsp), %rsi
	movq	144(%rsp), %r8
	movq	152(%rsp), %rcx
	movq	%rcx, 48(%rsp)
	movq	160(%rsp), %rdi
	movdqu	168(%rsp), %xmm3
	movups	184(%rsp), %xmm0
	movaps	%xmm0, 1136(%rsp)
	movups	200(%rsp), %xmm0
	movaps	%xmm0, 1152(%rsp)
	movzbl	223(%rsp), %ecx
	shll	$16, %ecx
	movzwl	221(%rsp), %edx
	orl	%ecx, %edx
	shlq	$32, %rdx
	movl	217(%rsp), %r14d
	orq	%rdx, %r14
	movq	%rsi, %rdx
	movq	224(%rsp), %rsi
	movq	232(%rsp), %rcx
	movq	%rcx, (%rsp)
	movq	240(%rsp), %r11
.LBB99_13:
	movl	108(%rsp), %r13d
	movl	112(%rsp), %r12d
	movaps	1136(%rsp), %xmm0
	movaps	1152(%rsp), %xmm1
	jmp	.LBB99_21
.LBB99_16:
	movl	104(%rsp), %ebp
	movl	116(%rsp), %ecx
	movq	%rcx, 16(%rsp)
	movzbl	216(%rsp), %r10d
	movq	128(%rsp), %rcx
	movq	%rcx, 32(%rsp)
	movq	136(%rsp), %rsi
	movq	144(%rsp), %r8
	movq	152(%rsp), %rcx
	movq	%rcx, 48(%rsp)
	movq	160(%rsp), %rdi
	movdqu	168(%rsp), %xmm3
	movups	184(%rsp), %xmm0
	movaps	%xmm0, 1168(%rsp)
	movups	200(%rsp), %xmm0
	movaps	%xmm0, 1184(%rsp)
	movzbl	223(%rsp), %ecx
	shll	$16, %ecx
	movzwl	221(%rsp), %edx
	orl	%ecx, %edx
	shlq	$32, %rdx
	movl	217(%rsp), %r14d
	orq	%rdx, %r14
	movq	%rsi, %rdx
	movq	224(%rsp), %rsi
	movq	232(%rsp), %rcx
	movq	%rcx, (%rsp)
	movq	240(%rsp), %r11
.LBB99_18:
	movl	108(%rsp), %r13d
	movl	112(%rsp), %r12d
	movaps	1168(%rsp), %xmm0
	movaps	1184(%rsp), %xmm1
	movaps	%xmm1, 672(%rsp)
	movaps	%xmm0, 656(%rsp)
.LBB99_20:
	movaps	656(%rsp), %xmm0
	movaps	672(%rsp), %xmm1
.LBB99_21:
	movaps	%xmm1, 704(%rsp)
	movaps	%xmm0, 688(%rsp)
	movaps	688(%rsp), %xmm0
	movaps	704(%rsp), %xmm1
	movaps	%xmm1, 1120(%rsp)
	movaps	%xmm0, 1104(%rsp)
	movzbl	%r10b, %ecx
	shlq	$8, %r14
	orq	%rcx, %r14
	testb	%al, %al
	je	.LBB99_22
	movq	%r11, 312(%rsp)
	movq	%rsi, 320(%rsp)
	movaps	1104(%rsp), %xmm0
	movaps	1120(%rsp), %xmm1
	movaps	%xmm1, 1456(%rsp)
	shll	$3, %ebp
	movl	$1576474, %esi
	movl	%ebp, %ecx
	shrl	%cl, %esi
	movaps	%xmm0, 1440(%rsp)
	movzbl	%r9b, %eax
	movq	%rax, 40(%rsp)
	movaps	%xmm0, 624(%rsp)
	movaps	%xmm1, 640(%rsp)
	movaps	1312(%rsp), %xmm0
	movaps	1328(%rsp), %xmm1
	movaps	1344(%rsp), %xmm2
	movaps	%xmm0, 496(%rsp)
	movaps	%xmm1, 512(%rsp)
	movaps	%xmm2, 528(%rsp)
	movq	1360(%rsp), %rax
	movq	%rax, 544(%rsp)
	addl	$30, %esi
	andl	$30, %esi
	movq	%rsi, 304(%rsp)
	xorl	%ebp, %ebp
	movq	%rdx, 80(%rsp)
	movq	%r8, 16(%rsp)
	movq	48(%rsp), %rdx
	movq	%rdi, 88(%rsp)
	movq	%r14, 72(%rsp)
	jmp	.LBB99_26
.LBB99_22:
	movq	%r9, 80(%rsp)
	movq	%r8, 88(%rsp)
	movq	%rdx, 24(%rsp)
	pextrq	$1, %xmm3, %rax
	testq	%rax, %rax
	je	.LBB99_24
	callq	nm_host_dealloc@PLT
.LBB99_24:
	movq	%r14, %rdi
	callq	nm_host_dealloc@PLT
	movq	(%rsp), %rdi
	callq	nm_host_dealloc@PLT
	shlq	$32, %r13
	movl	%ebp, %eax
	orq	%r13, %rax
	movq	%rax, 40(%rsp)
	movq	16(%rsp), %rcx
	shlq	$32, %rcx
	movq	32(%rsp), %rax
	movq	%rax, 16(%rsp)
	movl	%r12d, %eax
	orq	%rcx, %rax
	movaps	1472(%rsp), %xmm0
	movaps	1488(%rsp), %xmm1
	movaps	%xmm0, 624(%rsp)
	movaps	%xmm1, 640(%rsp)
	movaps	1376(%rsp), %xmm0
	movaps	1392(%rsp), %xmm1
	movaps	1408(%rsp), %xmm2
	movaps	%xmm0, 496(%rsp)
	movaps	%xmm1, 512(%rsp)
	movaps	%xmm2, 528(%rsp)
	movq	1424(%rsp), %rcx
	movq	%rcx, 544(%rsp)
	movq	48(%rsp), %xmm3
	movb	$4, %bpl
	movq	$0, 72(%rsp)
	movq	%rax, 32(%rsp)
	movq	$0, 320(%rsp)
	movq	$0, (%rsp)
	movq	$0, 312(%rsp)
	movq	$0, 304(%rsp)
	movq	24(%rsp), %rdx
.LBB99_26:
	movaps	624(%rsp), %xmm0
	movaps	640(%rsp), %xmm1
	movaps	%xmm1, 608(%rsp)
	movaps	%xmm0, 592(%rsp)
	movq	544(%rsp), %rax
	movq	%rax, 480(%rsp)
	movaps	496(%rsp), %xmm0
	movaps	512(%rsp), %xmm1
	movaps	528(%rsp), %xmm2
	movaps	%xmm2, 464(%rsp)
	movaps	%xmm1, 448(%rsp)
	movaps	%xmm0, 432(%rsp)
	movzbl	(%r15), %eax
.LBB99_27:
	movzbl	8(%r15), %r11d
	movl	12(%r15), %ecx
	movl	%ecx, 11(%rsp)
	movl	9(%r15), %ecx
	movl	%ecx, 8(%rsp)
	movq	16(%r15), %rdi
	movq	24(%r15), %rsi
	movq	32(%r15), %r9
	movq	40(%r15), %rcx
	movq	%rcx, 328(%rsp)
	movq	48(%r15), %r13
	movq	56(%r15), %rcx
	movq	%rcx, 336(%rsp)
	movq	64(%r15), %r8
	movq	72(%r15), %rcx
	movq	%rcx, 344(%rsp)
	movq	96(%r15), %rcx
	movq	%rcx, 416(%rsp)
	movzbl	%bpl, %ecx
	movups	80(%r15), %xmm0
	movaps	%xmm0, 400(%rsp)
	movq	104(%r15), %r10
	movq	%r10, 48(%rsp)
	movq	112(%r15), %r14
	movq	120(%r15), %r12
	movq	128(%r15), %rbp
	movq	136(%r15), %r10
	movq	%r10, 352(%rsp)
	movq	144(%r15), %r10
	movq	%r10, 296(%rsp)
	movq	152(%r15), %r10
	movq	%r10, 360(%rsp)
	movq	160(%r15), %r10
	movq	%r10, 24(%rsp)
	movq	%rcx, (%r15)
	movq	40(%rsp), %rcx
	movq	%rcx, 8(%r15)
	movq	32(%rsp), %rcx
	movq	%rcx, 16(%r15)
	movq	80(%rsp), %rcx
	movq	%rcx, 24(%r15)
	movq	16(%rsp), %rcx
	movq	%rcx, 32(%r15)
	movq	%rdx, 40(%r15)
	movq	88(%rsp), %rcx
	movq	%rcx, 48(%r15)
	movdqu	%xmm3, 56(%r15)
	movaps	592(%rsp), %xmm0
	movaps	608(%rsp), %xmm1
	leaq	72(%r15), %rcx
	movups	%xmm1, 16(%rcx)
	movups	%xmm0, (%rcx)
	movq	72(%rsp), %rcx
	movq	%rcx, 104(%r15)
	movq	320(%rsp), %rcx
	movq	%rcx, 112(%r15)
	movq	(%rsp), %rcx
	movq	%rcx, 120(%r15)
	movq	312(%rsp), %rcx
	movq	%rcx, 128(%r15)
	movq	480(%rsp), %rcx
	leaq	136(%r15), %rdx
	movq	%rcx, 48(%rdx)
	movaps	432(%rsp), %xmm0
	movaps	448(%rsp), %xmm1
	movaps	464(%rsp), %xmm2
	movups	%xmm2, 32(%rdx)
	movups	%xmm1, 16(%rdx)
	movups	%xmm0, (%rdx)
	movzbl	%al, %eax
	leaq	.LJTI99_0(%rip), %rcx
	movslq	(%rcx,%rax,4), %rax
	addq	%rcx, %rax
	jmpq	*%rax
.LBB99_28:
	movq	%r8, 40(%rsp)
	movq	%rbp, (%rsp)
	testb	%r11b, %r11b
	je	.LBB99_29
	movq	%r13, %rdi
	callq	nm_host_dealloc@PLT
	movq	40(%rsp), %rdi
	callq	nm_host_dealloc@PLT
	movq	%r14, %rbp
	testq	%r12, %r12
	jne	.LBB99_32
	jmp	.LBB99_34
.LBB99_43:
	movb	%r11b, 784(%rsp)
	movl	8(%rsp), %eax
	movl	%eax, 785(%rsp)
	movl	11(%rsp), %eax
	movl	%eax, 788(%rsp)
	movq	%rdi, 792(%rsp)
	movq	%rsi, 800(%rsp)
	movq	%r9, 808(%rsp)
	movq	328(%rsp), %rax
	movq	%rax, 816(%rsp)
	movq	%r13, 824(%rsp)
	movq	336(%rsp), %rax
	movq	%rax, 832(%rsp)
	movq	%r8, 840(%rsp)
	movq	344(%rsp), %rax
	movq	%rax, 848(%rsp)
	movq	416(%rsp), %rax
	movq	%rax, 872(%rsp)
	movaps	400(%rsp), %xmm0
	movups	%xmm0, 856(%rsp)
	movq	48(%rsp), %rax
	movq	%rax, 880(%rsp)
	movq	%r14, 888(%rsp)
	movq	%r12, 896(%rsp)
	movq	%rbp, 904(%rsp)
	movq	352(%rsp), %rax
	movq	%rax, 912(%rsp)
	movq	296(%rsp), %rax
	movq	%rax, 920(%rsp)
	movq	360(%rsp), %rax
	movq	%rax, 928(%rsp)
	movq	24(%rsp), %rax
	movq	%rax, 936(%rsp)
	leaq	784(%rsp), %rdi
	callq	"nm_set::member::Member::drop::<#801ed3b42cb27f26>"
	jmp	.LBB99_50
.LBB99_36:
	movb	%r11b, 944(%rsp)
	movl	8(%rsp), %eax
	movl	%eax, 945(%rsp)
	movl	11(%rsp), %eax
	movl	%eax, 948(%rsp)
	movq	%rdi, 952(%rsp)
	movq	%rsi, 960(%rsp)
	movq	%r9, 968(%rsp)
	movq	328(%rsp), %rax
	movq	%rax, 976(%rsp)
	movq	%r13, 984(%rsp)
	movq	336(%rsp), %rax
	movq	%rax, 992(%rsp)
	movq	%r8, 1000(%rsp)
	movq	344(%rsp), %rax
	movq	%rax, 1008(%rsp)
	movq	416(%rsp), %rax
	movq	%rax, 1032(%rsp)
	movaps	400(%rsp), %xmm0
	movups	%xmm0, 1016(%rsp)
	movq	48(%rsp), %rax
	movq	%rax, 1040(%rsp)
	movq	%r14, 1048(%rsp)
	movq	%r12, 1056(%rsp)
	movq	%rbp, 1064(%rsp)
	movq	352(%rsp), %rax
	movq	%rax, 1072(%rsp)
	movq	296(%rsp), %rax
	movq	%rax, 1080(%rsp)
	movq	360(%rsp), %rax
	movq	%rax, 1088(%rsp)
	movq	24(%rsp), %rax
	movq	%rax, 1096(%rsp)
	leaq	944(%rsp), %rdi
	callq	"nm_set::member::Member::drop::<#1bca8a4dd8d4d294>"
	jmp	.LBB99_50
.LBB99_37:
	movq	%r8, 40(%rsp)
	movq	%rbp, (%rsp)
	testb	%r11b, %r11b
	je	.LBB99_38
	movq	%r13, %rdi
	callq	nm_host_dealloc@PLT
	movq	40(%rsp), %rdi
	callq	nm_host_dealloc@PLT
	movq	%r14, %rbp
	testq	%r12, %r12
	jne	.LBB99_41
	jmp	.LBB99_34
.LBB99_44:
	movq	%r9, (%rsp)
	movq	%r8, %rbp
	movq	296(%rsp), %r14
	movb	%r11b, 368(%rsp)
	movl	8(%rsp), %eax
	movl	11(%rsp), %ecx
	movl	%eax, 369(%rsp)
	movl	%ecx, 372(%rsp)
	movq	%rdi, 376(%rsp)
	movq	%rsi, 384(%rsp)
	leaq	368(%rsp), %rdi
	callq	"std_alloc::vec::Vec::drop::<#032578a7531b7385>"
	testq	%r13, %r13
	je	.LBB99_46
	movq	(%rsp), %rdi
	callq	nm_host_dealloc@PLT
.LBB99_46:
	cmpb	$1, %bpl
	movq	24(%rsp), %rbp
	movq	48(%rsp), %rdi
	jne	.LBB99_50
	callq	nm_host_dealloc@PLT
	movq	%r12, %rdi
	callq	nm_host_dealloc@PLT
	testq	%rbp, %rbp
	je	.LBB99_50
	movq	%r14, %rdi
	jmp	.LBB99_49
.LBB99_38:
	callq	"std_alloc::arc::Arc::drop::<#58f27b66bb4955cb>"
	movq	%r14, %rbp
	testq	%r12, %r12
	je	.LBB99_34
.LBB99_41:
	leaq	128(%rbp), %r13
	.p2align	4
.LBB99_42:
	movq	(%r13), %r14
	movq	-48(%r13), %rax
	movq	%rax, 1520(%rsp)
	movups	-64(%r13), %xmm0
	movaps	%xmm0, 1504(%rsp)
	leaq	1504(%rsp), %rdi
	callq	"std_alloc::vec::Vec::drop::<#032578a7531b7385>"
	movq	%r14, %rdi
	callq	nm_host_dealloc@PLT
	addq	$136, %r13
	decq	%r12
	jne	.LBB99_42
	jmp	.LBB99_34
.LBB99_29:
	callq	"std_alloc::arc::Arc::drop::<#58f27b66bb4955cb>"
	movq	%r14, %rbp
	testq	%r12, %r12
	je	.LBB99_34
.LBB99_32:
	leaq	128(%rbp), %r13
	.p2align	4
.LBB99_33:
	movq	(%r13), %r14
	movq	-48(%r13), %rax
	movq	%rax, 1520(%rsp)
	movups	-64(%r13), %xmm0
	movaps	%xmm0, 1504(%rsp)
	leaq	1504(%rsp), %rdi
	callq	"std_alloc::vec::Vec::drop::<#032578a7531b7385>"
	movq	%r14, %rdi
	callq	nm_host_dealloc@PLT
	addq	$136, %r13
	decq	%r12
	jne	.LBB99_33
.LBB99_34:
	cmpq	$0, (%rsp)
	je	.LBB99_50
	movq	%rbp, %rdi
.LBB99_49:
	callq	nm_host_dealloc@PLT
.LBB99_50:
	movq	%r15, (%rbx)
	xorl	%eax, %eax
	xchgq	%rax, 8(%rbx)
	leaq	.Lswitch.table.nm_worker_end(%rip), %rax
	movq	304(%rsp), %rcx
	movl	(%rax,%rcx,4), %eax
.LBB99_51:
	addq	$2232, %rsp
	.cfi_def_cfa_offset 56
	popq	%rbx
	.cfi_def_cfa_offset 48
	popq	%r12
	.cfi_def_cfa_offset 40
	popq	%r13
	.cfi_def_cfa_offset 32
	popq	%r14
	.cfi_def_cfa_offset 24
	popq	%r15
	.cfi_def_cfa_offset 16
	popq	%rbp
	.cfi_def_cfa_offset 8
	retq
.Lfunc_end99:
	.size	nm_set_close, .Lfunc_end99-nm_set_close
	.cfi_endproc
	.section	.rodata.nm_set_close,"a",@progbits
	.p2align	2, 0x0
.LJTI99_0:
	.long	.LBB99_28-.LJTI99_0
	.long	.LBB99_36-.LJTI99_0
	.long	.LBB99_37-.LJTI99_0
	.long	.LBB99_43-.LJTI99_0
	.long	.LBB99_44-.LJTI99_0
	.long	.LBB99_50-.LJTI99_0
	.section	.text.nm_worker_advance,"ax",@progbits
	.globl	nm_worker_advance
	.p2align	4
	.type	nm_worker_advance,@function
nm_worker_advance:
	.cfi_startproc
	pushq	%r15
	.cfi_def_cfa_offset 16
	pushq	%r14
	.cfi_def_cfa_offset 24
	pushq	%r12
	.cfi_def_cfa_offset 32
	pushq	%rbx
	.cfi_def_cfa_offset 40
	subq	$24, %rsp
	.cfi_def_cfa_offset 64
	.cfi_offset %rbx, -40
	.cfi_offset %r12, -32
	.cfi_offset %r14, -24
	.cfi_offset %r15, -16
	movl	$1, %ecx
	xchgq	%rcx, 8(%rdi)
	movl	$-22, %eax
	testq	%rcx, %rcx
	je	.LBB100_1
.LBB100_9:
	addq	$24, %rsp
	.cfi_def_cfa_offset 40
	popq	%rbx
	.cfi_def_cfa_offset 32
	popq	%r12
	.cfi_def_cfa_offset 24
	popq	%r14
	.cfi_def_cfa_offset 16
	popq	%r15
	.cfi_def_cfa_offset 8
	retq
.LBB100_1:
	.cfi_def_cfa_offset 64
	movq	(%rdi), %rbx
	movq	$0, (%rdi)
	testq	%rbx, %rbx
	je	.LBB100_10
	cmpb	$1, (%rbx)
	jne	.LBB100_8
	movq	%rsi, %r15
	movq	%rdx, %r12
	movq	%rdi, %r14
	xorps	%xmm0, %xmm0
	movaps	%xmm0, (%rsp)
	movq	8(%rbx), %rsi
	addq	$8, %rsi
	leaq	16(%rbx), %rdx
	movq	%rsp, %rdi
	callq	"nm_tree::tree::Tree::advance"
	movzbl	(%rsp), %ecx
	movq	8(%rsp), %rax
	leaq	.LJTI100_0(%rip), %rdx
	movslq	(%rdx,%rcx,4), %rcx
	addq	%rdx, %rcx
	jmpq	*%rcx
.LBB100_4:
	movq	%rax, (%r15)
	movq	%rbx, (%r14)
	xorl	%eax, %eax
	xchgq	%rax, 8(%r14)
	movl	$2, %eax
	jmp	.LBB100_9
.LBB100_10:
	xorl	%eax, %eax
	xchgq	%rax, 8(%rdi)
	movl	$-1, %eax
	jmp	.LBB100_9
.LBB100_8:
	movq	%rbx, (%rdi)
	xorl	%eax, %eax
	xchgq	%rax, 8(%rdi)
	movl	$-3, %eax
	jmp	.LBB100_9
.LBB100_6:
	movq	%rax, (%r15)
	movq	%rbx, (%r14)
	xorl	%eax, %eax
	xchgq	%rax, 8(%r14)
	movl	$-16, %eax
	jmp	.LBB100_9
.LBB100_7:
	movq	%rbx, (%r14)
	xorl	%eax, %eax
	xchgq	%rax, 8(%r14)
	movl	$-17, %eax
	jmp	.LBB100_9
.LBB100_5:
	movl	4(%rsp), %ecx
	movl	%ecx, (%r12)
	movq	%rax, (%r15)
	movq	%rbx, (%r14)
	xorl	%eax, %eax
	xchgq	%rax, 8(%r14)
	movl	$-15, %eax
	jmp	.LBB100_9
.Lfunc_end100:
	.size	nm_worker_advance, .Lfunc_end100-nm_worker_advance
	.cfi_endproc
	.section	.rodata.nm_worker_advance,"a",@progbits
	.p2align	2, 0x0
.LJTI100_0:
	.long	.LBB100_4-.LJTI100_0
	.long	.LBB100_5-.LJTI100_0
	.long	.LBB100_6-.LJTI100_0
	.long	.LBB100_7-.LJTI100_0
	.section	.text.nm_worker_behind,"ax",@progbits
	.globl	nm_worker_behind
	.p2align	4
	.type	nm_worker_behind,@function
nm_worker_behind:
	.cfi_startproc
	movl	$1, %ecx
	xchgq	%rcx, 8(%rdi)
	movl	$-22, %eax
	testq	%rcx, %rcx
	je	.LBB101_1
	retq
.LBB101_1:
	movq	(%rdi), %rax
	movq	$0, (%rdi)
	testq	%rax, %rax
	je	.LBB101_22
	cmpb	$1, (%rax)
	jne	.LBB101_20
	movq	8(%rax), %r9
	movq	8(%r9), %rcx
	movq	(%rcx), %r8
	testb	$1, 72(%rax)
	je	.LBB101_5
	movq	$1, 24(%rax)
	movq	%r8, 32(%rax)
	movb	$0, 72(%rax)
	jmp	.LBB101_10
.LBB101_22:
	xorl	%eax, %eax
	xchgq	%rax, 8(%rdi)
	movl	$-1, %eax
	retq
.LBB101_20:
	movq	%rax, (%rdi)
	xorl	%eax, %eax
	xchgq	%rax, 8(%rdi)
	movl	$-3, %eax
	retq
.LBB101_5:
	cmpb	$0, 56(%rax)
	jne	.LBB101_7
	cmpb	$1, 40(%rax)
	jne	.LBB101_7
	cmpq	%r8, 48(%rax)
	movq	$1, 24(%rax)
	movq	%r8, 32(%rax)
	jne	.LBB101_10
	movq	$1, 56(%rax)
	movq	%r8, 64(%rax)
	jmp	.LBB101_10
.LBB101_7:
	movq	$1, 24(%rax)
	movq	%r8, 32(%rax)
.LBB101_10:
	pushq	%rbp
	.cfi_def_cfa_offset 16
	pushq	%r15
	.cfi_def_cfa_offset 24
	pushq	%r14
	.cfi_def_cfa_offset 32
	pushq	%r12
	.cfi_def_cfa_offset 40
	pushq	%rbx
	.cfi_def_cfa_offset 48
	.cfi_offset %rbx, -48
	.cfi_offset %r12, -40
	.cfi_offset %r14, -32
	.cfi_offset %r15, -24
	.cfi_offset %rbp, -16
	movl	76(%r9), %r10d
	testq	%r10, %r10
	je	.LBB101_11
	movl	16(%rax), %ebx
	xorl	%ecx, %ecx
	xorl	%r11d, %r11d
	jmp	.LBB101_13
	.p2align	4
.LBB101_18:
	testb	%bpl, %bpl
	cmovneq	%r15, %r12
	addq	%r12, %r11
	incq	%rcx
	cmpq	%rcx, %r10
	je	.LBB101_19
.LBB101_13:
	cmpq	%rcx, %rbx
	jne	.LBB101_15
	movq	64(%rax), %r14
	cmpb	$1, 56(%rax)
	sete	%bpl
	jmp	.LBB101_16
	.p2align	4
.LBB101_15:
	movl	80(%r9), %ebp
	xorl	%r14d, %r14d
	movl	%ebp, %r15d
	subl	$2, %r15d
	cmovbl	%r14d, %r15d
	incl	%ebp
	movl	%ecx, %r14d
	imull	%ebp, %r14d
	addl	%r15d, %r14d
	incl	%r14d
	movq	8(%r9), %r15
	movq	(%r15,%r14,8), %r14
	testq	%r14, %r14
	setne	%bpl
	cmpq	$1, %r14
	adcq	$-1, %r14
.LBB101_16:
	movl	$1, %r15d
	shlq	%cl, %r15
	xorl	%r12d, %r12d
	cmpq	%r8, %r14
	jne	.LBB101_18
	xorl	%r15d, %r15d
	jmp	.LBB101_18
.LBB101_11:
	xorl	%r11d, %r11d
.LBB101_19:
	movq	%r8, (%rsi)
	movq	%r11, (%rdx)
	movq	%rax, (%rdi)
	xorl	%eax, %eax
	xchgq	%rax, 8(%rdi)
	movl	$2, %eax
	popq	%rbx
	.cfi_def_cfa_offset 40
	popq	%r12
	.cfi_def_cfa_offset 32
	popq	%r14
	.cfi_def_cfa_offset 24
	popq	%r15
	.cfi_def_cfa_offset 16
	popq	%rbp
	.cfi_def_cfa_offset 8
	.cfi_restore %rbx
	.cfi_restore %r12
	.cfi_restore %r14
	.cfi_restore %r15
	.cfi_restore %rbp
	retq
.Lfunc_end101:
	.size	nm_worker_behind, .Lfunc_end101-nm_worker_behind
	.cfi_endproc
	.section	.text.nm_worker_collect,"ax",@progbits
	.globl	nm_worker_collect
	.p2align	4
	.type	nm_worker_collect,@function
nm_worker_collect:
	.cfi_startproc
	pushq	%r15
	.cfi_def_cfa_offset 16
	pushq	%r14
	.cfi_def_cfa_offset 24
	pushq	%r12
	.cfi_def_cfa_offset 32
	pushq	%rbx
	.cfi_def_cfa_offset 40
	pushq	%rax
	.cfi_def_cfa_offset 48
	.cfi_offset %rbx, -40
	.cfi_offset %r12, -32
	.cfi_offset %r14, -24
	.cfi_offset %r15, -16
	movl	$1, %ecx
	xchgq	%rcx, 8(%rdi)
	movl	$-22, %eax
	testq	%rcx, %rcx
	je	.LBB102_1
.LBB102_5:
	addq	$8, %rsp
	.cfi_def_cfa_offset 40
	popq	%rbx
	.cfi_def_cfa_offset 32
	popq	%r12
	.cfi_def_cfa_offset 24
	popq	%r14
	.cfi_def_cfa_offset 16
	popq	%r15
	.cfi_def_cfa_offset 8
	retq
.LBB102_1:
	.cfi_def_cfa_offset 48
	movq	(%rdi), %rbx
	movq	$0, (%rdi)
	testq	%rbx, %rbx
	je	.LBB102_6
	cmpb	$1, (%rbx)
	jne	.LBB102_4
	leaq	8(%rbx), %rax
	movq	%rdi, %r14
	movq	%rax, %rdi
	movq	%rdx, %r15
	movq	%rsi, %r12
	callq	"nm_set::member::Member::free::<#f118e792109c5fac>"
	movq	%rax, (%r12)
	movq	%rdx, (%r15)
	movq	%rbx, (%r14)
	xorl	%eax, %eax
	xchgq	%rax, 8(%r14)
	movl	$2, %eax
	jmp	.LBB102_5
.LBB102_6:
	xorl	%eax, %eax
	xchgq	%rax, 8(%rdi)
	movl	$-1, %eax
	jmp	.LBB102_5
.LBB102_4:
	movq	%rbx, (%rdi)
	xorl	%eax, %eax
	xchgq	%rax, 8(%rdi)
	movl	$-3, %eax
	jmp	.LBB102_5
.Lfunc_end102:
	.size	nm_worker_collect, .Lfunc_end102-nm_worker_collect
	.cfi_endproc
	.section	.text.nm_worker_contains,"ax",@progbits
	.globl	nm_worker_contains
	.p2align	4
	.type	nm_worker_contains,@function
nm_worker_contains:
	.cfi_startproc
	pushq	%rbp
	.cfi_def_cfa_offset 16
	pushq	%r15
	.cfi_def_cfa_offset 24
	pushq	%r14
	.cfi_def_cfa_offset 32
	pushq	%r13
	.cfi_def_cfa_offset 40
	pushq	%r12
	.cfi_def_cfa_offset 48
	pushq	%rbx
	.cfi_def_cfa_offset 56
	pushq	%rax
	.cfi_def_cfa_offset 64
	.cfi_offset %rbx, -56
	.cfi_offset %r12, -48
	.cfi_offset %r13, -40
	.cfi_offset %r14, -32
	.cfi_offset %r15, -24
	.cfi_offset %rbp, -16
	movl	$1, %ecx
	xchgq	%rcx, 8(%rdi)
	movl	$-22, %eax
	testq	%rcx, %rcx
	je	.LBB103_1
.LBB103_40:
	addq	$8, %rsp
	.cfi_def_cfa_offset 56
	popq	%rbx
	.cfi_def_cfa_offset 48
	popq	%r12
	.cfi_def_cfa_offset 40
	popq	%r13
	.cfi_def_cfa_offset 32
	popq	%r14
	.cfi_def_cfa_offset 24
	popq	%r15
	.cfi_def_cfa_offset 16
	popq	%rbp
	.cfi_def_cfa_offset 8
	retq
.LBB103_1:
	.cfi_def_cfa_offset 64
	movq	(%rdi), %rbx
	movq	$0, (%rdi)
	testq	%rbx, %rbx
	je	.LBB103_41
	cmpb	$1, (%rbx)
	jne	.LBB103_42
	movq	%rsi, %rax
	xorl	%esi, %esi
	cmpq	$-3, %rax
	cmovbq	%rax, %rsi
	jae	.LBB103_39
	movzbl	112(%rbx), %eax
	cmpb	$1, %al
	jne	.LBB103_5
.LBB103_36:
	movq	%rbx, (%rdi)
	xorl	%eax, %eax
	xchgq	%rax, 8(%rdi)
	movl	$-13, %eax
	jmp	.LBB103_40
.LBB103_41:
	xorl	%eax, %eax
	xchgq	%rax, 8(%rdi)
	movl	$-1, %eax
	jmp	.LBB103_40
.LBB103_42:
	movq	%rbx, (%rdi)
	xorl	%eax, %eax
	xchgq	%rax, 8(%rdi)
	movl	$-3, %eax
	jmp	.LBB103_40
.LBB103_39:
	movq	%rbx, (%rdi)
	xorl	%eax, %eax
	xchgq	%rax, 8(%rdi)
	movl	$-4, %eax
	jmp	.LBB103_40
.LBB103_5:
	cmpb	$2, %al
	je	.LBB103_6
	movl	(%rdx), %r8d
	testl	%r8d, %r8d
	je	.LBB103_10
	movq	8(%rbx), %rcx
	movq	8(%rcx), %rax
	movq	(%rax), %r9
	movq	$1, 24(%rbx)
	movq	%r9, 32(%rbx)
	leaq	40(%rbx), %rax
	movl	%r8d, %r10d
	.p2align	4
.LBB103_13:
	movl	20(%rbx), %r11d
	leaq	1(%r9), %r14
	movq	8(%rcx), %r15
	xchgq	%r14, (%r15,%r11,8)
	movq	$1, 40(%rbx)
	movq	%r9, 48(%rbx)
	movq	8(%rcx), %r11
	movq	(%r11), %r11
	movq	$1, 24(%rbx)
	movq	%r11, 32(%rbx)
	cmpq	%r9, %r11
	je	.LBB103_14
	movq	%r11, %r9
	decl	%r10d
	jne	.LBB103_13
	movq	%rdi, %r14
	movq	8(%rcx), %rdi
	movl	20(%rbx), %r8d
	xorl	%ecx, %ecx
	xorl	%r9d, %r9d
	xchgq	%r9, (%rdi,%r8,8)
	xorps	%xmm0, %xmm0
.LBB103_18:
	movups	%xmm0, 16(%rax)
	movups	%xmm0, (%rax)
	jmp	.LBB103_7
.LBB103_14:
	movq	$1, 56(%rbx)
	movq	%r9, 64(%rbx)
	xorl	%r9d, %r9d
	jmp	.LBB103_15
.LBB103_28:
	incl	%r9d
	cmpl	%r8d, %r9d
	je	.LBB103_29
.LBB103_15:
	movl	72(%rcx), %ebp
	movl	88(%rcx), %r14d
	movq	8(%rcx), %r10
	decl	%ebp
	testb	$1, 84(%rcx)
	leal	4(%r14), %r11d
	movq	8(%r10,%r11,8), %r10
	movl	$65, %r11d
	cmovnel	%r11d, %ebp
	testl	%ebp, %ebp
	je	.LBB103_16
	addl	$-4, %r14d
	xorl	%r15d, %r15d
	.p2align	4
.LBB103_20:
	testb	$3, %r10b
	jne	.LBB103_24
	movq	8(%rcx), %r12
	addl	%r14d, %r10d
	movq	(%r12,%r10,8), %r12
	movq	8(%rcx), %r13
	movq	8(%r13,%r10,8), %r13
	movq	8(%rcx), %rax
	movq	16(%rax,%r10,8), %r10
	cmpq	%r12, %rsi
	cmovbq	%r13, %r10
	testq	%r10, %r10
	je	.LBB103_37
	incl	%r15d
	cmpl	%r15d, %ebp
	jne	.LBB103_20
	movl	%ebp, %r15d
	jmp	.LBB103_24
.LBB103_16:
	xorl	%r15d, %r15d
.LBB103_24:
	movl	72(%rcx), %ebp
	decl	%ebp
	testb	$1, 84(%rcx)
	cmovnel	%r11d, %ebp
	subl	%r15d, %ebp
	jbe	.LBB103_28
	movl	88(%rcx), %r11d
	addl	$-4, %r11d
	.p2align	4
.LBB103_26:
	andl	$-4, %r10d
	addl	%r11d, %r10d
	movq	8(%rcx), %rax
	movq	(%rax,%r10,8), %r12
	movq	8(%rcx), %rax
	movq	8(%rax,%r10,8), %rax
	movq	8(%rcx), %r14
	movq	16(%r14,%r10,8), %r10
	cmpq	%r12, %rsi
	cmovbq	%rax, %r10
	testq	%r10, %r10
	je	.LBB103_37
	decl	%ebp
	jne	.LBB103_26
	jmp	.LBB103_28
.LBB103_37:
	cmpq	%rsi, %r12
	sete	%dl
	movq	8(%rcx), %rax
	movl	20(%rbx), %ecx
	xorl	%esi, %esi
	xchgq	%rsi, (%rax,%rcx,8)
	xorps	%xmm0, %xmm0
	leaq	40(%rbx), %rax
	movups	%xmm0, 16(%rax)
	movups	%xmm0, (%rax)
.LBB103_38:
	movq	%rbx, (%rdi)
	xorl	%eax, %eax
	xchgq	%rax, 8(%rdi)
	andb	$1, %dl
	movzbl	%dl, %eax
	jmp	.LBB103_40
.LBB103_6:
	movq	%rdi, %r14
	movb	$4, %cl
	jmp	.LBB103_7
.LBB103_10:
	movq	%rdi, %r14
	xorl	%ecx, %ecx
.LBB103_7:
	leaq	8(%rbx), %rdi
	movzbl	%cl, %ecx
	callq	"nm_set::member::Member::contains_after::<#f118e792109c5fac>"
	testb	%al, %al
	je	.LBB103_8
	movzbl	%dl, %eax
	leaq	.LJTI103_0(%rip), %rcx
	movslq	(%rcx,%rax,4), %rax
	addq	%rcx, %rax
	movq	%r14, %rdi
	jmpq	*%rax
.LBB103_31:
	movq	%rbx, (%rdi)
	xorl	%eax, %eax
	xchgq	%rax, 8(%rdi)
	movl	$-9, %eax
	jmp	.LBB103_40
.LBB103_8:
	movq	%r14, %rdi
	jmp	.LBB103_38
.LBB103_34:
	movq	%rbx, (%rdi)
	xorl	%eax, %eax
	xchgq	%rax, 8(%rdi)
	movl	$-11, %eax
	jmp	.LBB103_40
.LBB103_32:
	movq	%rbx, (%rdi)
	xorl	%eax, %eax
	xchgq	%rax, 8(%rdi)
	movl	$-10, %eax
	jmp	.LBB103_40
.LBB103_33:
	movq	%rbx, (%rdi)
	xorl	%eax, %eax
	xchgq	%rax, 8(%rdi)
	movl	$-8, %eax
	jmp	.LBB103_40
.LBB103_35:
	movq	%rbx, (%rdi)
	xorl	%eax, %eax
	xchgq	%rax, 8(%rdi)
	movl	$-12, %eax
	jmp	.LBB103_40
.LBB103_29:
	movq	%rdi, %r14
	movq	8(%rcx), %rax
	movl	20(%rbx), %edi
	xorl	%ecx, %ecx
	xorl	%r8d, %r8d
	xchgq	%r8, (%rax,%rdi,8)
	xorps	%xmm0, %xmm0
	leaq	40(%rbx), %rax
	jmp	.LBB103_18
.Lfunc_end103:
	.size	nm_worker_contains, .Lfunc_end103-nm_worker_contains
	.cfi_endproc
	.section	.rodata.nm_worker_contains,"a",@progbits
	.p2align	2, 0x0
.LJTI103_0:
	.long	.LBB103_31-.LJTI103_0
	.long	.LBB103_32-.LJTI103_0
	.long	.LBB103_33-.LJTI103_0
	.long	.LBB103_34-.LJTI103_0
	.long	.LBB103_35-.LJTI103_0
	.long	.LBB103_36-.LJTI103_0
	.section	.text.nm_worker_end,"ax",@progbits
	.globl	nm_worker_end
	.p2align	4
	.type	nm_worker_end,@function
nm_worker_end:
	.cfi_startproc
	pushq	%rbp
	.cfi_def_cfa_offset 16
	pushq	%r15
	.cfi_def_cfa_offset 24
	pushq	%r14
	.cfi_def_cfa_offset 32
	pushq	%r13
	.cfi_def_cfa_offset 40
	pushq	%r12
	.cfi_def_cfa_offset 48
	pushq	%rbx
	.cfi_def_cfa_offset 56
	subq	$1432, %rsp
	.cfi_def_cfa_offset 1488
	.cfi_offset %rbx, -56
	.cfi_offset %r12, -48
	.cfi_offset %r13, -40
	.cfi_offset %r14, -32
	.cfi_offset %r15, -24
	.cfi_offset %rbp, -16
	xorps	%xmm0, %xmm0
	movaps	%xmm0, 560(%rsp)
	movq	$0, 576(%rsp)
	movaps	%xmm0, 672(%rsp)
	movq	$0, 688(%rsp)
	movaps	%xmm0, 1248(%rsp)
	movaps	%xmm0, 1264(%rsp)
	movaps	%xmm0, 1280(%rsp)
	movaps	%xmm0, 1296(%rsp)
	movaps	%xmm0, 1312(%rsp)
	movaps	%xmm0, 1328(%rsp)
	movaps	%xmm0, 1344(%rsp)
	movaps	%xmm0, 1360(%rsp)
	movaps	%xmm0, 1376(%rsp)
	movaps	%xmm0, 1392(%rsp)
	movaps	%xmm0, 1408(%rsp)
	movq	$0, 1424(%rsp)
	movl	$0, 19(%rsp)
	movl	$0, 16(%rsp)
	movaps	%xmm0, 528(%rsp)
	movq	$0, 544(%rsp)
	movaps	%xmm0, 976(%rsp)
	movaps	%xmm0, 992(%rsp)
	movaps	%xmm0, 1008(%rsp)
	movaps	%xmm0, 1024(%rsp)
	movaps	%xmm0, 1040(%rsp)
	movaps	%xmm0, 1056(%rsp)
	movaps	%xmm0, 1072(%rsp)
	movaps	%xmm0, 1088(%rsp)
	movaps	%xmm0, 1104(%rsp)
	movaps	%xmm0, 1120(%rsp)
	movaps	%xmm0, 816(%rsp)
	movaps	%xmm0, 832(%rsp)
	movaps	%xmm0, 848(%rsp)
	movaps	%xmm0, 864(%rsp)
	movaps	%xmm0, 880(%rsp)
	movaps	%xmm0, 896(%rsp)
	movaps	%xmm0, 912(%rsp)
	movaps	%xmm0, 928(%rsp)
	movaps	%xmm0, 944(%rsp)
	movaps	%xmm0, 960(%rsp)
	movaps	%xmm0, 496(%rsp)
	movq	$0, 512(%rsp)
	movl	$1, %ecx
	xchgq	%rcx, 8(%rdi)
	movl	$-22, %eax
	testq	%rcx, %rcx
	jne	.LBB104_49
	movq	(%rdi), %rbx
	movq	$0, (%rdi)
	testq	%rbx, %rbx
	je	.LBB104_25
	movq	%rdi, 808(%rsp)
	movzbl	(%rbx), %r15d
	movq	8(%rbx), %r14
	movq	16(%rbx), %rax
	movq	%rax, 64(%rsp)
	movq	24(%rbx), %rax
	movq	%rax, 120(%rsp)
	movq	32(%rbx), %r13
	movq	40(%rbx), %rax
	movq	%rax, 144(%rsp)
	movq	48(%rbx), %rax
	movq	%rax, 152(%rsp)
	movq	56(%rbx), %rax
	movq	%rax, 56(%rsp)
	movq	64(%rbx), %rax
	movq	%rax, 192(%rsp)
	movzbl	72(%rbx), %eax
	movq	%rax, 112(%rsp)
	movzwl	77(%rbx), %eax
	movzbl	79(%rbx), %ecx
	shll	$16, %ecx
	orl	%eax, %ecx
	shlq	$32, %rcx
	movl	73(%rbx), %eax
	orq	%rcx, %rax
	movq	%rax, 136(%rsp)
	movzbl	80(%rbx), %eax
	movq	%rax, 104(%rsp)
	movzwl	85(%rbx), %eax
	movzbl	87(%rbx), %ecx
	shll	$16, %ecx
	orl	%eax, %ecx
	shlq	$32, %rcx
	movl	81(%rbx), %eax
	orq	%rcx, %rax
	movq	%rax, 128(%rsp)
	movq	88(%rbx), %rax
	movq	%rax, 8(%rsp)
	movq	96(%rbx), %rax
	movq	%rax, 72(%rsp)
	movq	104(%rbx), %rax
	movq	%rax, 176(%rsp)
	movq	112(%rbx), %rax
	movq	%rax, 168(%rsp)
	movq	120(%rbx), %rax
	movq	%rax, 160(%rsp)
	movq	128(%rbx), %rax
	movq	%rax, 184(%rsp)
	movq	136(%rbx), %rax
	movq	%rax, 40(%rsp)
	movq	144(%rbx), %rax
	movq	%rax, 48(%rsp)
	movl	152(%rbx), %eax
	movl	%eax, 32(%rsp)
	movl	156(%rbx), %ebp
	movq	160(%rbx), %rax
	movq	%rax, 88(%rsp)
	movq	184(%rbx), %rax
	movq	%rax, 688(%rsp)
	movups	168(%rbx), %xmm0
	movaps	%xmm0, 672(%rsp)
	movq	$5, (%rbx)
	leaq	8(%rbx), %rdi
	leaq	80(%rbx), %r12
	leaq	1248(%rsp), %rsi
	movl	$184, %edx
	callq	memcpy@PLT
	xorps	%xmm0, %xmm0
	movaps	%xmm0, 1200(%rsp)
	movq	$0, 1216(%rsp)
	movaps	%xmm0, 240(%rsp)
	movq	$0, 256(%rsp)
	movaps	%xmm0, 1168(%rsp)
	movq	$0, 1184(%rsp)
	movaps	%xmm0, 1136(%rsp)
	movq	$0, 1152(%rsp)
	cmpb	$1, %r15b
	jne	.LBB104_51
	movq	(%r14), %rax
	movq	%rax, 96(%rsp)
	cmpq	$1, %rax
	jne	.LBB104_18
	movq	8(%r14), %rax
	movq	%rax, 80(%rsp)
	movsd	16(%r14), %xmm0
	movaps	%xmm0, 480(%rsp)
	movups	24(%r14), %xmm0
	movaps	%xmm0, 464(%rsp)
	movq	40(%r14), %rax
	movq	%rax, 232(%rsp)
	movzbl	48(%r14), %eax
	movb	%al, 224(%rsp)
	movzwl	53(%r14), %eax
	movzbl	55(%r14), %ecx
	shll	$16, %ecx
	orl	%eax, %ecx
	shlq	$32, %rcx
	movq	%rcx, 768(%rsp)
	movl	49(%r14), %eax
	movq	%rax, 216(%rsp)
	movzbl	56(%r14), %eax
	movb	%al, 208(%rsp)
	movzwl	61(%r14), %eax
	movzbl	63(%r14), %ecx
	shll	$16, %ecx
	orl	%eax, %ecx
	shlq	$32, %rcx
	movq	%rcx, 760(%rsp)
	movl	57(%r14), %eax
	movq	%rax, 200(%rsp)
	movzbl	64(%r14), %eax
	movb	%al, 7(%rsp)
	movzwl	69(%r14), %eax
	movzbl	71(%r14), %ecx
	shll	$16, %ecx
	orl	%eax, %ecx
	shlq	$32, %rcx
	movq	%rcx, 752(%rsp)
	movl	65(%r14), %eax
	movq	%rax, 800(%rsp)
	movzbl	72(%r14), %eax
	movb	%al, 6(%rsp)
	movzwl	77(%r14), %eax
	movzbl	79(%r14), %ecx
	shll	$16, %ecx
	orl	%eax, %ecx
	shlq	$32, %rcx
	movq	%rcx, 744(%rsp)
	movl	73(%r14), %eax
	movq	%rax, 792(%rsp)
	movzwl	85(%r14), %eax
	movzbl	87(%r14), %ecx
	shll	$16, %ecx
	orl	%eax, %ecx
	movzwl	93(%r14), %eax
	movzbl	95(%r14), %edx
	shll	$16, %edx
	orl	%eax, %edx
	movzbl	80(%r14), %eax
	movb	%al, 4(%rsp)
	shlq	$32, %rcx
	movq	%rcx, 736(%rsp)
	movzbl	88(%r14), %eax
	movb	%al, 5(%rsp)
	shlq	$32, %rdx
	movq	%rdx, 728(%rsp)
	movzbl	96(%r14), %eax
	movb	%al, 3(%rsp)
	movl	81(%r14), %eax
	movq	%rax, 88(%rsp)
	movl	89(%r14), %eax
	movq	%rax, 784(%rsp)
	movq	104(%r14), %r12
	movq	112(%r14), %rbp
	movq	128(%r14), %r15
	movq	136(%r14), %rax
	movq	%rax, 704(%rsp)
	movq	152(%r14), %rax
	movq	%rax, 712(%rsp)
	movq	168(%r14), %rax
	movq	%rax, 696(%rsp)
	movq	184(%r14), %rax
	movq	%rax, 720(%rsp)
	movq	%r13, 24(%rsp)
	movq	192(%r14), %r13
	movq	200(%r14), %rax
	movq	%rax, 32(%rsp)
	movq	208(%r14), %rax
	movq	%rax, 776(%rsp)
	movq	%r14, %rdi
	callq	nm_host_dealloc@PLT
	movq	32(%rsp), %rcx
	movq	%rcx, %rax
	shlq	$7, %rax
	leaq	(%rax,%rcx,8), %rax
	movq	%rcx, %rsi
	movq	64(%rsp), %rcx
	movq	%rcx, (%r13,%rax)
	movq	120(%rsp), %rcx
	movq	%rcx, 8(%r13,%rax)
	movq	24(%rsp), %rcx
	movq	%rcx, 16(%r13,%rax)
	movq	144(%rsp), %rcx
	movq	%rcx, 24(%r13,%rax)
	movq	152(%rsp), %rcx
	movq	%rcx, 32(%r13,%rax)
	movq	56(%rsp), %rcx
	movq	%rcx, 40(%r13,%rax)
	movq	192(%rsp), %rcx
	movq	%rcx, 48(%r13,%rax)
	movq	112(%rsp), %rcx
	movb	%cl, 56(%r13,%rax)
	movq	136(%rsp), %rdx
	movq	%rdx, %rcx
	shrq	$48, %rcx
	movb	%cl, 63(%r13,%rax)
	movq	%rdx, %rcx
	shrq	$32, %rcx
	movw	%cx, 61(%r13,%rax)
	movl	%edx, 57(%r13,%rax)
	movq	104(%rsp), %rcx
	movb	%cl, 64(%r13,%rax)
	movq	128(%rsp), %rdx
	movq	%rdx, %rcx
	shrq	$48, %rcx
	movb	%cl, 71(%r13,%rax)
	movq	%rdx, %rcx
	shrq	$32, %rcx
	movw	%cx, 69(%r13,%rax)
	movl	%edx, 65(%r13,%rax)
	movq	8(%rsp), %rcx
	movq	%rcx, 72(%r13,%rax)
	movq	72(%rsp), %rcx
	movq	%rcx, 80(%r13,%rax)
	movq	176(%rsp), %rcx
	movq	%rcx, 88(%r13,%rax)
	movq	168(%rsp), %rcx
	movq	%rcx, 96(%r13,%rax)
	movq	160(%rsp), %rcx
	movq	%rcx, 104(%r13,%rax)
	movq	184(%rsp), %rcx
	movq	%rcx, 112(%r13,%rax)
	movq	40(%rsp), %rcx
	movq	%rcx, 120(%r13,%rax)
	movq	48(%rsp), %rcx
	movq	%r13, 8(%rsp)
	movq	%rcx, 128(%r13,%rax)
	incq	%rsi
	movq	%rsi, 32(%rsp)
	testq	%r15, %r15
	je	.LBB104_12
	addq	$8, %rbp
	xorl	%r13d, %r13d
	jmp	.LBB104_6
	.p2align	4
.LBB104_11:
	incq	%r13
	addq	$144, %rbp
	cmpq	%r13, %r15
	je	.LBB104_12
.LBB104_6:
	movzbl	-8(%rbp), %eax
	testb	$1, (%r12,%r13,8)
	jne	.LBB104_9
	cmpb	$1, %al
	jne	.LBB104_11
	leaq	272(%rsp), %r14
	movl	$136, %edx
	movq	%r14, %rdi
	movq	%rbp, %rsi
	callq	memcpy@PLT
	movq	%r14, %rdi
	callq	"nm_set::nm_tree++worker++Worker+Destruct::drop"
	jmp	.LBB104_11
	.p2align	4
.LBB104_9:
	cmpb	$1, %al
	jne	.LBB104_11
	movq	32(%rsp), %r14
	movq	%r14, %rax
	shlq	$7, %rax
	leaq	(%rax,%r14,8), %rdi
	addq	8(%rsp), %rdi
	movl	$136, %edx
	movq	%rbp, %rsi
	callq	memmove@PLT
	incq	%r14
	movq	%r14, 32(%rsp)
	jmp	.LBB104_11
.LBB104_25:
	xorl	%eax, %eax
	xchgq	%rax, 8(%rdi)
	movl	$-1, %eax
	jmp	.LBB104_49
.LBB104_51:
	movq	%r13, 24(%rsp)
	movq	688(%rsp), %rax
	movq	%rax, 576(%rsp)
	movaps	672(%rsp), %xmm0
	movaps	%xmm0, 560(%rsp)
	movl	$7, %eax
	movq	%rax, 96(%rsp)
	movb	$5, 80(%rsp)
	movq	48(%rsp), %rsi
	movq	40(%rsp), %rax
	jmp	.LBB104_24
.LBB104_18:
	movq	56(%rsp), %rbp
	movl	%ebp, %edi
	shrq	$8, %rbp
	movq	8(%rsp), %rax
	shrq	$8, %rax
	movq	%rax, 24(%rsp)
	movq	72(%rsp), %rax
	shrq	$8, %rax
	movq	184(%rsp), %r9
	movb	%r9b, 80(%rsp)
	shrq	$8, %r9
	movq	192(%rsp), %r15
	movb	%r15b, 56(%rsp)
	shrq	$8, %r15
	movq	176(%rsp), %r8
	movq	%r8, %rcx
	shrq	$8, %rcx
	movq	168(%rsp), %rsi
	movq	%rsi, %r12
	shrq	$8, %r12
	movq	160(%rsp), %r10
	movq	%r10, %r11
	andq	$-256, %r11
	movl	%r10d, %edx
	movabsq	$-4294967296, %r10
	andq	64(%rsp), %r10
	jmp	.LBB104_19
.LBB104_12:
	movq	216(%rsp), %r14
	addq	768(%rsp), %r14
	movq	200(%rsp), %r15
	addq	760(%rsp), %r15
	movq	800(%rsp), %r12
	addq	752(%rsp), %r12
	movq	792(%rsp), %r13
	addq	744(%rsp), %r13
	movq	736(%rsp), %rax
	addq	%rax, 88(%rsp)
	movq	784(%rsp), %rbp
	addq	728(%rsp), %rbp
	movq	704(%rsp), %rdi
	callq	nm_host_dealloc@PLT
	movq	712(%rsp), %rdi
	callq	nm_host_dealloc@PLT
	cmpq	$0, 720(%rsp)
	je	.LBB104_14
	movq	696(%rsp), %rdi
	callq	nm_host_dealloc@PLT
.LBB104_14:
	movq	80(%rsp), %rax
	movq	%rax, 584(%rsp)
	movaps	480(%rsp), %xmm0
	movlps	%xmm0, 592(%rsp)
	movaps	464(%rsp), %xmm0
	movups	%xmm0, 600(%rsp)
	movq	232(%rsp), %rax
	movq	%rax, 616(%rsp)
	movzbl	224(%rsp), %eax
	movb	%al, 624(%rsp)
	movl	%r14d, 625(%rsp)
	movq	%r14, %rax
	shrq	$48, %rax
	movb	%al, 631(%rsp)
	shrq	$32, %r14
	movw	%r14w, 629(%rsp)
	movzbl	208(%rsp), %eax
	movb	%al, 632(%rsp)
	movl	%r15d, 633(%rsp)
	movq	%r15, %rax
	shrq	$48, %rax
	movb	%al, 639(%rsp)
	shrq	$32, %r15
	movw	%r15w, 637(%rsp)
	movzbl	7(%rsp), %eax
	movb	%al, 640(%rsp)
	movl	%r12d, 641(%rsp)
	movq	%r12, %rax
	shrq	$48, %rax
	movb	%al, 647(%rsp)
	shrq	$32, %r12
	movw	%r12w, 645(%rsp)
	movzbl	6(%rsp), %eax
	movb	%al, 648(%rsp)
	movl	%r13d, 649(%rsp)
	movq	%r13, %rax
	shrq	$48, %rax
	movb	%al, 655(%rsp)
	shrq	$32, %r13
	movw	%r13w, 653(%rsp)
	movzbl	4(%rsp), %eax
	movb	%al, 656(%rsp)
	movq	88(%rsp), %rcx
	movl	%ecx, 657(%rsp)
	movq	%rcx, %rax
	shrq	$48, %rax
	movb	%al, 663(%rsp)
	shrq	$32, %rcx
	movw	%cx, 661(%rsp)
	movzbl	5(%rsp), %eax
	movb	%al, 664(%rsp)
	movl	%ebp, 665(%rsp)
	movq	%rbp, %rax
	shrq	$48, %rax
	movb	%al, 671(%rsp)
	shrq	$32, %rbp
	movw	%bp, 669(%rsp)
	movq	8(%rsp), %rax
	movq	%rax, 1224(%rsp)
	movq	32(%rsp), %rax
	movq	%rax, 1232(%rsp)
	movq	776(%rsp), %rax
	movq	%rax, 1240(%rsp)
	xorps	%xmm0, %xmm0
	movaps	%xmm0, 432(%rsp)
	movaps	%xmm0, 416(%rsp)
	movaps	%xmm0, 400(%rsp)
	movaps	%xmm0, 384(%rsp)
	movaps	%xmm0, 368(%rsp)
	movaps	%xmm0, 352(%rsp)
	movaps	%xmm0, 336(%rsp)
	movaps	%xmm0, 320(%rsp)
	movaps	%xmm0, 304(%rsp)
	movaps	%xmm0, 288(%rsp)
	movaps	%xmm0, 272(%rsp)
	movq	$0, 448(%rsp)
	leaq	272(%rsp), %rdi
	leaq	584(%rsp), %rsi
	leaq	1224(%rsp), %rdx
	callq	"nm_tree::tree::Tree::end"
	cmpb	$0, 272(%rsp)
	movl	284(%rsp), %r13d
	movl	288(%rsp), %eax
	movq	%rax, 64(%rsp)
	je	.LBB104_15
	movzbl	280(%rsp), %r11d
	movq	296(%rsp), %r10
	movq	304(%rsp), %rax
	movq	%rax, 144(%rsp)
	movq	312(%rsp), %rax
	movq	%rax, 152(%rsp)
	movzbl	327(%rsp), %eax
	shll	$16, %eax
	movzwl	325(%rsp), %ecx
	orl	%eax, %ecx
	shlq	$32, %rcx
	movl	321(%rsp), %ebp
	orq	%rcx, %rbp
	movzbl	335(%rsp), %eax
	shll	$16, %eax
	movzwl	333(%rsp), %ecx
	orl	%eax, %ecx
	shlq	$32, %rcx
	movl	329(%rsp), %r15d
	orq	%rcx, %r15
	movzbl	343(%rsp), %eax
	shll	$16, %eax
	movzwl	341(%rsp), %ecx
	orl	%eax, %ecx
	shlq	$32, %rcx
	movl	337(%rsp), %eax
	orq	%rcx, %rax
	movq	%rax, 136(%rsp)
	movzbl	351(%rsp), %eax
	shll	$16, %eax
	movzwl	349(%rsp), %ecx
	orl	%eax, %ecx
	shlq	$32, %rcx
	movl	345(%rsp), %eax
	orq	%rcx, %rax
	movq	%rax, 128(%rsp)
	movzbl	359(%rsp), %eax
	shll	$16, %eax
	movzwl	357(%rsp), %ecx
	orl	%eax, %ecx
	shlq	$32, %rcx
	movl	353(%rsp), %eax
	orq	%rcx, %rax
	movq	%rax, 24(%rsp)
	movzbl	367(%rsp), %eax
	shll	$16, %eax
	movzwl	365(%rsp), %ecx
	orl	%eax, %ecx
	shlq	$32, %rcx
	movl	361(%rsp), %eax
	orq	%rcx, %rax
	movzbl	375(%rsp), %ecx
	shll	$16, %ecx
	movzwl	373(%rsp), %esi
	orl	%ecx, %esi
	shlq	$32, %rsi
	movl	369(%rsp), %ecx
	orq	%rsi, %rcx
	movzbl	383(%rsp), %esi
	shll	$16, %esi
	movzwl	381(%rsp), %edi
	orl	%esi, %edi
	shlq	$32, %rdi
	movl	377(%rsp), %r12d
	orq	%rdi, %r12
	movzbl	391(%rsp), %edi
	shll	$16, %edi
	movzwl	389(%rsp), %r8d
	orl	%edi, %r8d
	shlq	$32, %r8
	movl	385(%rsp), %r9d
	orq	%r8, %r9
	movzbl	320(%rsp), %edi
	movzbl	328(%rsp), %edx
	movb	%dl, 56(%rsp)
	shlq	$32, %r13
	orq	%r11, %r13
	movzbl	336(%rsp), %esi
	movq	%rsi, 112(%rsp)
	movq	%r13, %r14
	movq	%r10, %r13
	movzbl	384(%rsp), %edx
	movb	%dl, 80(%rsp)
	movzbl	344(%rsp), %esi
	movq	%rsi, 104(%rsp)
	movzbl	352(%rsp), %r8d
	movq	%r8, 8(%rsp)
	movzbl	360(%rsp), %esi
	movq	%rsi, 72(%rsp)
	movzbl	368(%rsp), %r8d
	movzbl	376(%rsp), %esi
	movq	392(%rsp), %r10
	movq	%r10, 40(%rsp)
	movq	400(%rsp), %r10
	movq	%r10, 48(%rsp)
	movl	$1, %r10d
	movq	%r10, 120(%rsp)
	movq	$0, 88(%rsp)
	movl	$0, 32(%rsp)
	xorl	%r11d, %r11d
	xorl	%r10d, %r10d
	movzbl	3(%rsp), %edx
.LBB104_19:
	movzbl	%dil, %edi
	shlq	$8, %rbp
	orq	%rdi, %rbp
	movzbl	56(%rsp), %edi
	shlq	$8, %r15
	orq	%rdi, %r15
	shlq	$8, %rcx
	movzbl	%r8b, %r8d
	orq	%rcx, %r8
	shlq	$8, %r12
	movzbl	%sil, %esi
	orq	%r12, %rsi
	movzbl	%dl, %r12d
	orq	%r11, %r12
	movzbl	80(%rsp), %ecx
	shlq	$8, %r9
	orq	%rcx, %r9
	cmpq	$1, 96(%rsp)
	jne	.LBB104_20
	movq	136(%rsp), %rcx
	shlq	$8, %rcx
	movq	%r8, %r10
	movq	%rsi, %r11
	movzbl	112(%rsp), %edi
	orq	%rcx, %rdi
	movq	128(%rsp), %rcx
	shlq	$8, %rcx
	movzbl	104(%rsp), %esi
	orq	%rcx, %rsi
	movq	1152(%rsp), %rcx
	movq	%rcx, 256(%rsp)
	movzbl	120(%rsp), %r8d
	movq	144(%rsp), %rcx
	movq	%rcx, 120(%rsp)
	movq	%rbp, 144(%rsp)
	shll	$3, %r14d
	movl	$1576474, %edx
	movl	%r14d, %ecx
	shrl	%cl, %edx
	movq	%r13, 64(%rsp)
	movq	152(%rsp), %r13
	movq	%r15, 152(%rsp)
	movaps	1136(%rsp), %xmm0
	movaps	%xmm0, 240(%rsp)
	addl	$30, %edx
	andl	$30, %edx
	movq	%rdx, 96(%rsp)
	movq	%rdi, 56(%rsp)
	movq	8(%rsp), %rcx
	movq	%rcx, 112(%rsp)
	movq	24(%rsp), %rcx
	movq	%rcx, 136(%rsp)
	movq	72(%rsp), %rcx
	movq	%rcx, 104(%rsp)
	movq	%rax, 128(%rsp)
	movq	%r10, 8(%rsp)
	movq	%r11, 72(%rsp)
	movq	%r12, 176(%rsp)
	movq	%r9, 168(%rsp)
	movq	40(%rsp), %rax
	movq	%rax, 160(%rsp)
	movq	48(%rsp), %rax
	movq	%rax, 184(%rsp)
	movq	%r8, %r14
	movq	%rsi, 192(%rsp)
	xorl	%ecx, %ecx
	xorl	%esi, %esi
	movl	$0, 32(%rsp)
	movq	$0, 88(%rsp)
	xorl	%r15d, %r15d
	jmp	.LBB104_22
.LBB104_20:
	movq	%r12, 160(%rsp)
	movq	%rsi, 168(%rsp)
	movq	%r8, 176(%rsp)
	movq	%r9, 184(%rsp)
	movq	%r15, 192(%rsp)
	movq	%rbp, 56(%rsp)
	movl	64(%rsp), %ecx
	orq	%rcx, %r10
	movzbl	72(%rsp), %ecx
	shlq	$8, %rax
	orq	%rcx, %rax
	movq	24(%rsp), %rdx
	shlq	$8, %rdx
	movq	8(%rsp), %rcx
	movzbl	%cl, %ecx
	orq	%rdx, %rcx
	movq	%rcx, 8(%rsp)
	movq	1184(%rsp), %rcx
	movq	%rcx, 256(%rsp)
	movaps	1168(%rsp), %xmm0
	movaps	%xmm0, 240(%rsp)
	movl	$22, %ecx
	movq	%rcx, 96(%rsp)
	movb	$1, %r15b
	movq	40(%rsp), %rcx
	movq	48(%rsp), %rsi
	movq	%r10, 64(%rsp)
	movq	%rax, 72(%rsp)
.LBB104_22:
	leaq	80(%rbx), %r12
.LBB104_23:
	movq	%r13, 24(%rsp)
	movq	256(%rsp), %rax
	movq	%rax, 576(%rsp)
	movaps	240(%rsp), %xmm0
	movaps	%xmm0, 560(%rsp)
	movzbl	(%rbx), %eax
	movb	%al, 80(%rsp)
	xorl	%ebp, %ebp
	movq	%rcx, %rax
.LBB104_24:
	movzbl	8(%rbx), %r11d
	movl	12(%rbx), %ecx
	movl	%ecx, 19(%rsp)
	movl	9(%rbx), %ecx
	movl	%ecx, 16(%rsp)
	movq	16(%rbx), %rdi
	movq	24(%rbx), %rcx
	movq	%rcx, 464(%rsp)
	movq	32(%rbx), %r8
	movq	40(%rbx), %rcx
	movq	%rcx, 200(%rsp)
	movq	48(%rbx), %r13
	movq	56(%rbx), %rcx
	movq	%rcx, 208(%rsp)
	movq	64(%rbx), %r10
	movq	72(%rbx), %rcx
	movq	%rcx, 216(%rsp)
	movq	16(%r12), %rcx
	movq	%rcx, 544(%rsp)
	movups	(%r12), %xmm0
	movzbl	%r15b, %r12d
	movaps	%xmm0, 528(%rsp)
	movq	104(%rbx), %rcx
	movq	%rcx, 48(%rsp)
	movq	112(%rbx), %rcx
	movq	120(%rbx), %r15
	movq	128(%rbx), %r9
	movq	136(%rbx), %rdx
	movq	%rdx, 224(%rsp)
	movq	144(%rbx), %rdx
	movq	%rdx, 480(%rsp)
	movq	152(%rbx), %rdx
	movq	%rdx, 232(%rsp)
	movq	160(%rbx), %rdx
	movq	%rdx, 40(%rsp)
	movq	%r12, (%rbx)
	movq	%r14, 8(%rbx)
	movq	64(%rsp), %r14
	movq	%r14, 16(%rbx)
	movq	120(%rsp), %r14
	movq	%r14, 24(%rbx)
	movq	24(%rsp), %rdx
	movq	%rdx, 32(%rbx)
	movq	144(%rsp), %rdx
	movq	%rdx, 40(%rbx)
	movq	152(%rsp), %rdx
	movq	%rdx, 48(%rbx)
	movq	56(%rsp), %rdx
	movq	%rdx, 56(%rbx)
	movq	192(%rsp), %rdx
	movq	%rdx, 64(%rbx)
	movq	112(%rsp), %rdx
	movb	%dl, 72(%rbx)
	movq	136(%rsp), %rdx
	movq	%rdx, %r14
	shrq	$48, %r14
	movb	%r14b, 79(%rbx)
	movq	%rdx, %r14
	shrq	$32, %r14
	movw	%r14w, 77(%rbx)
	movl	%edx, 73(%rbx)
	movq	104(%rsp), %rdx
	movb	%dl, 80(%rbx)
	movq	128(%rsp), %rdx
	movq	%rdx, %r14
	shrq	$48, %r14
	movb	%r14b, 87(%rbx)
	movq	%rdx, %r14
	shrq	$32, %r14
	movw	%r14w, 85(%rbx)
	movl	%edx, 81(%rbx)
	movq	8(%rsp), %rdx
	movq	%rdx, 88(%rbx)
	movq	72(%rsp), %rdx
	movq	%rdx, 96(%rbx)
	movq	176(%rsp), %rdx
	movq	%rdx, 104(%rbx)
	movq	168(%rsp), %rdx
	movq	%rdx, 112(%rbx)
	movq	160(%rsp), %rdx
	movq	%rdx, 120(%rbx)
	movq	184(%rsp), %rdx
	movq	%rdx, 128(%rbx)
	movq	%rax, 136(%rbx)
	movq	%rsi, 144(%rbx)
	movl	32(%rsp), %eax
	movl	%eax, 152(%rbx)
	movl	%ebp, 156(%rbx)
	movq	88(%rsp), %rax
	movq	%rax, 160(%rbx)
	movq	576(%rsp), %r14
	leaq	168(%rbx), %r12
	movq	%r14, 16(%r12)
	movaps	560(%rsp), %xmm0
	movups	%xmm0, (%r12)
	movzbl	80(%rsp), %eax
	leaq	.LJTI104_0(%rip), %r14
	movslq	(%r14,%rax,4), %rax
	addq	%r14, %rax
	jmpq	*%rax
.LBB104_26:
	movq	%r9, %rbp
	movq	%rcx, %r14
	testb	%r11b, %r11b
	je	.LBB104_27
	movq	%r10, %r12
	movq	%r13, %rdi
	callq	nm_host_dealloc@PLT
	movq	%r12, %rdi
	callq	nm_host_dealloc@PLT
	jmp	.LBB104_29
.LBB104_41:
	movb	%r11b, 816(%rsp)
	movl	16(%rsp), %eax
	movl	%eax, 817(%rsp)
	movl	19(%rsp), %eax
	movl	%eax, 820(%rsp)
	movq	%rdi, 824(%rsp)
	movq	464(%rsp), %rax
	movq	%rax, 832(%rsp)
	movq	%r8, 840(%rsp)
	movq	200(%rsp), %rax
	movq	%rax, 848(%rsp)
	movq	%r13, 856(%rsp)
	movq	208(%rsp), %rax
	movq	%rax, 864(%rsp)
	movq	%r10, 872(%rsp)
	movq	216(%rsp), %rax
	movq	%rax, 880(%rsp)
	movq	544(%rsp), %rax
	movq	%rax, 904(%rsp)
	movaps	528(%rsp), %xmm0
	movups	%xmm0, 888(%rsp)
	movq	48(%rsp), %rax
	movq	%rax, 912(%rsp)
	movq	%rcx, 920(%rsp)
	movq	%r15, 928(%rsp)
	movq	%r9, 936(%rsp)
	movq	224(%rsp), %rax
	movq	%rax, 944(%rsp)
	movq	480(%rsp), %rax
	movq	%rax, 952(%rsp)
	movq	232(%rsp), %rax
	movq	%rax, 960(%rsp)
	movq	40(%rsp), %rax
	movq	%rax, 968(%rsp)
	leaq	816(%rsp), %rdi
	callq	"nm_set::member::Member::drop::<#801ed3b42cb27f26>"
	jmp	.LBB104_48
.LBB104_34:
	movb	%r11b, 976(%rsp)
	movl	16(%rsp), %eax
	movl	%eax, 977(%rsp)
	movl	19(%rsp), %eax
	movl	%eax, 980(%rsp)
	movq	%rdi, 984(%rsp)
	movq	464(%rsp), %rax
	movq	%rax, 992(%rsp)
	movq	%r8, 1000(%rsp)
	movq	200(%rsp), %rax
	movq	%rax, 1008(%rsp)
	movq	%r13, 1016(%rsp)
	movq	208(%rsp), %rax
	movq	%rax, 1024(%rsp)
	movq	%r10, 1032(%rsp)
	movq	216(%rsp), %rax
	movq	%rax, 1040(%rsp)
	movq	544(%rsp), %rax
	movq	%rax, 1064(%rsp)
	movaps	528(%rsp), %xmm0
	movups	%xmm0, 1048(%rsp)
	movq	48(%rsp), %rax
	movq	%rax, 1072(%rsp)
	movq	%rcx, 1080(%rsp)
	movq	%r15, 1088(%rsp)
	movq	%r9, 1096(%rsp)
	movq	224(%rsp), %rax
	movq	%rax, 1104(%rsp)
	movq	480(%rsp), %rax
	movq	%rax, 1112(%rsp)
	movq	232(%rsp), %rax
	movq	%rax, 1120(%rsp)
	movq	40(%rsp), %rax
	movq	%rax, 1128(%rsp)
	leaq	976(%rsp), %rdi
	callq	"nm_set::member::Member::drop::<#1bca8a4dd8d4d294>"
	jmp	.LBB104_48
.LBB104_35:
	movq	%r9, %rbp
	movq	%rcx, %r14
	testb	%r11b, %r11b
	je	.LBB104_36
	movq	%r10, %r12
	movq	%r13, %rdi
	callq	nm_host_dealloc@PLT
	movq	%r12, %rdi
	callq	nm_host_dealloc@PLT
	jmp	.LBB104_38
.LBB104_42:
	movq	%r8, 8(%rsp)
	movq	%r10, %rbp
	movq	40(%rsp), %r12
	movq	480(%rsp), %r14
	movb	%r11b, 496(%rsp)
	movl	16(%rsp), %eax
	movl	19(%rsp), %ecx
	movl	%eax, 497(%rsp)
	movl	%ecx, 500(%rsp)
	movq	%rdi, 504(%rsp)
	movq	464(%rsp), %rax
	movq	%rax, 512(%rsp)
	leaq	496(%rsp), %rdi
	callq	"std_alloc::vec::Vec::drop::<#032578a7531b7385>"
	testq	%r13, %r13
	je	.LBB104_44
	movq	8(%rsp), %rdi
	callq	nm_host_dealloc@PLT
.LBB104_44:
	cmpb	$1, %bpl
	movq	48(%rsp), %rdi
	jne	.LBB104_48
	callq	nm_host_dealloc@PLT
	movq	%r15, %rdi
	callq	nm_host_dealloc@PLT
	testq	%r12, %r12
	je	.LBB104_48
	movq	%r14, %rdi
	jmp	.LBB104_47
.LBB104_15:
	movl	280(%rsp), %ebp
	movl	292(%rsp), %r12d
	movq	296(%rsp), %rax
	movq	%rax, 120(%rsp)
	movq	392(%rsp), %r14
	movq	304(%rsp), %rax
	movq	%rax, 24(%rsp)
	movq	312(%rsp), %rax
	movq	%rax, 144(%rsp)
	movq	320(%rsp), %rax
	movq	%rax, 152(%rsp)
	movq	328(%rsp), %rax
	movq	%rax, 56(%rsp)
	movq	408(%rsp), %r15
	shlq	$32, %r13
	shlq	$32, %r12
	cmpq	$0, 352(%rsp)
	je	.LBB104_17
	movq	336(%rsp), %rdi
	callq	nm_host_dealloc@PLT
.LBB104_17:
	movq	%r14, %rdi
	callq	nm_host_dealloc@PLT
	movq	%r15, %rdi
	callq	nm_host_dealloc@PLT
	movl	%ebp, %eax
	andl	$-256, %eax
	orq	%rax, %r13
	movq	64(%rsp), %rcx
	movl	%ecx, %eax
	andl	$-256, %eax
	orq	%rax, %r12
	movzbl	%bpl, %r14d
	orq	%r13, %r14
	movzbl	%cl, %ecx
	orq	%r12, %rcx
	movq	%rcx, 64(%rsp)
	movq	1216(%rsp), %rax
	movq	%rax, 256(%rsp)
	movaps	1200(%rsp), %xmm0
	movaps	%xmm0, 240(%rsp)
	movb	$4, %r15b
	xorl	%ecx, %ecx
	xorl	%esi, %esi
	movl	$0, 32(%rsp)
	movq	$0, 88(%rsp)
	movq	$0, 112(%rsp)
	movq	$0, 136(%rsp)
	movq	$0, 104(%rsp)
	movq	$0, 128(%rsp)
	movq	$0, 8(%rsp)
	movq	$0, 72(%rsp)
	movq	$0, 176(%rsp)
	movq	$0, 168(%rsp)
	movq	$0, 160(%rsp)
	movq	$0, 184(%rsp)
	movq	$0, 192(%rsp)
	movq	$0, 96(%rsp)
	leaq	80(%rbx), %r12
	movq	24(%rsp), %r13
	jmp	.LBB104_23
.LBB104_36:
	callq	"std_alloc::arc::Arc::drop::<#58f27b66bb4955cb>"
.LBB104_38:
	movq	%r14, %r13
	testq	%r15, %r15
	je	.LBB104_32
	leaq	128(%r13), %r12
	.p2align	4
.LBB104_40:
	movq	(%r12), %r14
	movq	-48(%r12), %rax
	movq	%rax, 288(%rsp)
	movups	-64(%r12), %xmm0
	movaps	%xmm0, 272(%rsp)
	leaq	272(%rsp), %rdi
	callq	"std_alloc::vec::Vec::drop::<#032578a7531b7385>"
	movq	%r14, %rdi
	callq	nm_host_dealloc@PLT
	addq	$136, %r12
	decq	%r15
	jne	.LBB104_40
	jmp	.LBB104_32
.LBB104_27:
	callq	"std_alloc::arc::Arc::drop::<#58f27b66bb4955cb>"
.LBB104_29:
	movq	%r14, %r13
	testq	%r15, %r15
	je	.LBB104_32
	leaq	128(%r13), %r12
	.p2align	4
.LBB104_31:
	movq	(%r12), %r14
	movq	-48(%r12), %rax
	movq	%rax, 288(%rsp)
	movups	-64(%r12), %xmm0
	movaps	%xmm0, 272(%rsp)
	leaq	272(%rsp), %rdi
	callq	"std_alloc::vec::Vec::drop::<#032578a7531b7385>"
	movq	%r14, %rdi
	callq	nm_host_dealloc@PLT
	addq	$136, %r12
	decq	%r15
	jne	.LBB104_31
.LBB104_32:
	testq	%rbp, %rbp
	je	.LBB104_48
	movq	%r13, %rdi
.LBB104_47:
	callq	nm_host_dealloc@PLT
.LBB104_48:
	movq	808(%rsp), %rcx
	movq	%rbx, (%rcx)
	xorl	%eax, %eax
	xchgq	%rax, 8(%rcx)
	leaq	.Lswitch.table.nm_worker_end(%rip), %rax
	movq	96(%rsp), %rcx
	movl	(%rax,%rcx,4), %eax
.LBB104_49:
	addq	$1432, %rsp
	.cfi_def_cfa_offset 56
	popq	%rbx
	.cfi_def_cfa_offset 48
	popq	%r12
	.cfi_def_cfa_offset 40
	popq	%r13
	.cfi_def_cfa_offset 32
	popq	%r14
	.cfi_def_cfa_offset 24
	popq	%r15
	.cfi_def_cfa_offset 16
	popq	%rbp
	.cfi_def_cfa_offset 8
	retq
.Lfunc_end104:
	.size	nm_worker_end, .Lfunc_end104-nm_worker_end
	.cfi_endproc
	.section	.rodata.nm_worker_end,"a",@progbits
	.p2align	2, 0x0
.LJTI104_0:
	.long	.LBB104_26-.LJTI104_0
	.long	.LBB104_34-.LJTI104_0
	.long	.LBB104_35-.LJTI104_0
	.long	.LBB104_41-.LJTI104_0
	.long	.LBB104_42-.LJTI104_0
	.long	.LBB104_48-.LJTI104_0
	.section	.text.nm_worker_finish,"ax",@progbits
	.globl	nm_worker_finish
	.p2align	4
	.type	nm_worker_finish,@function
nm_worker_finish:
	.cfi_startproc
	pushq	%r14
	.cfi_def_cfa_offset 16
	pushq	%rbx
	.cfi_def_cfa_offset 24
	pushq	%rax
	.cfi_def_cfa_offset 32
	.cfi_offset %rbx, -24
	.cfi_offset %r14, -16
	movl	$1, %ecx
	xchgq	%rcx, 8(%rdi)
	movl	$-22, %eax
	testq	%rcx, %rcx
	je	.LBB105_2
	addq	$8, %rsp
	.cfi_def_cfa_offset 24
	popq	%rbx
	.cfi_def_cfa_offset 16
	popq	%r14
	.cfi_def_cfa_offset 8
	retq
.LBB105_2:
	.cfi_def_cfa_offset 32
	movq	(%rdi), %rbx
	movq	$0, (%rdi)
	testq	%rbx, %rbx
	je	.LBB105_6
	cmpb	$1, (%rbx)
	jne	.LBB105_7
	cmpb	$2, 112(%rbx)
	je	.LBB105_8
	movq	%rbx, (%rdi)
	xorl	%eax, %eax
	xorl	%ecx, %ecx
	xchgq	%rcx, 8(%rdi)
	addq	$8, %rsp
	.cfi_def_cfa_offset 24
	popq	%rbx
	.cfi_def_cfa_offset 16
	popq	%r14
	.cfi_def_cfa_offset 8
	retq
.LBB105_6:
	.cfi_def_cfa_offset 32
	xorl	%eax, %eax
	xchgq	%rax, 8(%rdi)
	movl	$-1, %eax
	addq	$8, %rsp
	.cfi_def_cfa_offset 24
	popq	%rbx
	.cfi_def_cfa_offset 16
	popq	%r14
	.cfi_def_cfa_offset 8
	retq
.LBB105_7:
	.cfi_def_cfa_offset 32
	movq	%rbx, (%rdi)
	xorl	%eax, %eax
	xchgq	%rax, 8(%rdi)
	movl	$-3, %eax
	addq	$8, %rsp
	.cfi_def_cfa_offset 24
	popq	%rbx
	.cfi_def_cfa_offset 16
	popq	%r14
	.cfi_def_cfa_offset 8
	retq
.LBB105_8:
	.cfi_def_cfa_offset 32
	movl	%esi, %edx
	movq	%rdi, %r14
	leaq	16(%rbx), %rsi
	movq	8(%rbx), %rdi
	addq	$8, %rdi
	callq	"nm_tree::tree::Tree::finish_pending"
	testb	%al, %al
	je	.LBB105_10
	movq	%rbx, (%r14)
	xorl	%eax, %eax
	xchgq	%rax, 8(%r14)
	movzbl	%dl, %eax
	leaq	.Lswitch.table.nm_map_remove_if(%rip), %rcx
	movl	(%rcx,%rax,4), %eax
	addq	$8, %rsp
	.cfi_def_cfa_offset 24
	popq	%rbx
	.cfi_def_cfa_offset 16
	popq	%r14
	.cfi_def_cfa_offset 8
	retq
.LBB105_10:
	.cfi_def_cfa_offset 32
	movq	%rbx, (%r14)
	xorl	%eax, %eax
	xchgq	%rax, 8(%r14)
	andb	$1, %dl
	movzbl	%dl, %eax
	addq	$8, %rsp
	.cfi_def_cfa_offset 24
	popq	%rbx
	.cfi_def_cfa_offset 16
	popq	%r14
	.cfi_def_cfa_offset 8
	retq
.Lfunc_end105:
	.size	nm_worker_finish, .Lfunc_end105-nm_worker_finish
	.cfi_endproc
	.section	.text.nm_worker_insert,"ax",@progbits
	.globl	nm_worker_insert
	.p2align	4
	.type	nm_worker_insert,@function
nm_worker_insert:
	.cfi_startproc
	pushq	%r15
	.cfi_def_cfa_offset 16
	pushq	%r14
	.cfi_def_cfa_offset 24
	pushq	%r13
	.cfi_def_cfa_offset 32
	pushq	%r12
	.cfi_def_cfa_offset 40
	pushq	%rbx
	.cfi_def_cfa_offset 48
	subq	$80, %rsp
	.cfi_def_cfa_offset 128
	.cfi_offset %rbx, -48
	.cfi_offset %r12, -40
	.cfi_offset %r13, -32
	.cfi_offset %r14, -24
	.cfi_offset %r15, -16
	movl	$1, %ecx
	xchgq	%rcx, 8(%rdi)
	movl	$-22, %eax
	testq	%rcx, %rcx
	je	.LBB106_1
.LBB106_34:
	addq	$80, %rsp
	.cfi_def_cfa_offset 48
	popq	%rbx
	.cfi_def_cfa_offset 40
	popq	%r12
	.cfi_def_cfa_offset 32
	popq	%r13
	.cfi_def_cfa_offset 24
	popq	%r14
	.cfi_def_cfa_offset 16
	popq	%r15
	.cfi_def_cfa_offset 8
	retq
.LBB106_1:
	.cfi_def_cfa_offset 128
	movq	(%rdi), %r12
	movq	$0, (%rdi)
	testq	%r12, %r12
	je	.LBB106_35
	cmpb	$1, (%r12)
	jne	.LBB106_36
	cmpq	$-3, %rsi
	jae	.LBB106_33
	xorps	%xmm0, %xmm0
	movaps	%xmm0, 48(%rsp)
	movaps	%xmm0, 64(%rsp)
	movaps	%xmm0, 16(%rsp)
	movaps	%xmm0, 32(%rsp)
	movzbl	112(%r12), %eax
	cmpb	$1, %al
	jne	.LBB106_5
.LBB106_31:
	movq	%r12, (%rdi)
	xorl	%eax, %eax
	xchgq	%rax, 8(%rdi)
	movl	$-13, %eax
	jmp	.LBB106_34
.LBB106_35:
	xorl	%eax, %eax
	xchgq	%rax, 8(%rdi)
	movl	$-1, %eax
	jmp	.LBB106_34
.LBB106_36:
	movq	%r12, (%rdi)
	xorl	%eax, %eax
	xchgq	%rax, 8(%rdi)
	movl	$-3, %eax
	jmp	.LBB106_34
.LBB106_33:
	movq	%r12, (%rdi)
	xorl	%eax, %eax
	xchgq	%rax, 8(%rdi)
	movl	$-4, %eax
	jmp	.LBB106_34
.LBB106_5:
	movq	80(%r12), %rcx
	movq	88(%r12), %r10
	testq	%r10, %r10
	je	.LBB106_6
	cmpq	$1, %r10
	jne	.LBB106_8
	movl	60(%rcx), %r8d
	jmp	.LBB106_16
.LBB106_6:
	movq	%r10, %r8
	jmp	.LBB106_16
.LBB106_8:
	leaq	-1(%r10), %r8
	movl	%r10d, %r9d
	andl	$3, %r9d
	cmpq	$3, %r8
	jae	.LBB106_11
	xorl	%r8d, %r8d
	xorl	%r11d, %r11d
	jmp	.LBB106_14
.LBB106_11:
	andq	$-4, %r10
	leaq	348(%rcx), %rbx
	xorl	%r8d, %r8d
	xorl	%r11d, %r11d
.LBB106_12:
	movl	-288(%rbx), %r14d
	movl	-192(%rbx), %r15d
	addq	%r8, %r14
	movl	-96(%rbx), %r13d
	addq	%r15, %r13
	addq	%r14, %r13
	movl	(%rbx), %r8d
	addq	%r13, %r8
	addq	$4, %r11
	addq	$384, %rbx
	cmpq	%r11, %r10
	jne	.LBB106_12
	testq	%r9, %r9
	je	.LBB106_16
.LBB106_14:
	leaq	(%r11,%r11,2), %r10
	shlq	$5, %r10
	addq	%rcx, %r10
	addq	$60, %r10
	shll	$5, %r9d
	leaq	(%r9,%r9,2), %r9
	xorl	%r11d, %r11d
	.p2align	4
.LBB106_15:
	movl	(%r10,%r11), %ebx
	addq	%rbx, %r8
	addq	$96, %r11
	cmpq	%r11, %r9
	jne	.LBB106_15
.LBB106_16:
	movl	8(%rdx), %r9d
	cmpq	%r9, %r8
	jae	.LBB106_17
	movq	%rsi, %rbx
	movq	%rdi, %r13
	cmpb	$2, %al
	je	.LBB106_22
	leaq	16(%r12), %rsi
	movq	%rdx, %r14
	movl	(%rdx), %eax
	movq	8(%r12), %rdi
	movq	104(%r12), %rdx
	addq	$8, %rdi
	leaq	(%rdx,%rdx,2), %rdx
	shlq	$5, %rdx
	addq	%rdx, %rcx
	movq	144(%r12), %rdx
	movl	%eax, (%rsp)
	movq	%rbx, %r8
	xorl	%r9d, %r9d
	callq	"nm_calls::inserting::insert"
	testb	%al, %al
	jne	.LBB106_23
	movq	%r13, %rdi
.LBB106_26:
	movq	%r12, (%rdi)
	xorl	%eax, %eax
	xchgq	%rax, 8(%rdi)
	andb	$1, %dl
	movzbl	%dl, %eax
	jmp	.LBB106_34
.LBB106_17:
	movq	%rdi, %r13
	leaq	8(%r12), %rax
	leaq	48(%rsp), %r15
	movq	%r15, %rdi
	movq	%rsi, %r8
	movq	%rax, %rsi
	movq	%rdx, %rcx
	movq	%r8, %rdx
	callq	"nm_set::member::Member::insert_untidy::<#f118e792109c5fac>"
	movzbl	49(%rsp), %edx
	movzbl	56(%rsp), %ecx
	movzbl	57(%rsp), %eax
	jmp	.LBB106_18
.LBB106_22:
	movq	%rdx, %r14
	movb	$4, %dl
.LBB106_23:
	leaq	8(%r12), %rsi
	movzbl	%dl, %r8d
	leaq	16(%rsp), %r15
	movq	%r15, %rdi
	movq	%rbx, %rdx
	movq	%r14, %rcx
	callq	"nm_set::member::Member::insert_after::<#f118e792109c5fac>"
	movzbl	17(%rsp), %edx
	movzbl	24(%rsp), %ecx
	movzbl	25(%rsp), %eax
.LBB106_18:
	cmpb	$0, (%r15)
	movq	%r13, %rdi
	je	.LBB106_26
	testb	%cl, %cl
	je	.LBB106_32
	movzbl	%al, %eax
	leaq	.LJTI106_0(%rip), %rcx
	movslq	(%rcx,%rax,4), %rax
	addq	%rcx, %rax
	jmpq	*%rax
.LBB106_27:
	movq	%r12, (%rdi)
	xorl	%eax, %eax
	xchgq	%rax, 8(%rdi)
	movl	$-9, %eax
	jmp	.LBB106_34
.LBB106_32:
	movq	%r12, (%rdi)
	xorl	%eax, %eax
	xchgq	%rax, 8(%rdi)
	movl	$-10, %eax
	jmp	.LBB106_34
.LBB106_29:
	movq	%r12, (%rdi)
	xorl	%eax, %eax
	xchgq	%rax, 8(%rdi)
	movl	$-11, %eax
	jmp	.LBB106_34
.LBB106_28:
	movq	%r12, (%rdi)
	xorl	%eax, %eax
	xchgq	%rax, 8(%rdi)
	movl	$-8, %eax
	jmp	.LBB106_34
.LBB106_30:
	movq	%r12, (%rdi)
	xorl	%eax, %eax
	xchgq	%rax, 8(%rdi)
	movl	$-12, %eax
	jmp	.LBB106_34
.Lfunc_end106:
	.size	nm_worker_insert, .Lfunc_end106-nm_worker_insert
	.cfi_endproc
	.section	.rodata.nm_worker_insert,"a",@progbits
	.p2align	2, 0x0
.LJTI106_0:
	.long	.LBB106_27-.LJTI106_0
	.long	.LBB106_32-.LJTI106_0
	.long	.LBB106_28-.LJTI106_0
	.long	.LBB106_29-.LJTI106_0
	.long	.LBB106_30-.LJTI106_0
	.long	.LBB106_31-.LJTI106_0
	.section	.text.nm_worker_next,"ax",@progbits
	.globl	nm_worker_next
	.p2align	4
	.type	nm_worker_next,@function
nm_worker_next:
	.cfi_startproc
	pushq	%r15
	.cfi_def_cfa_offset 16
	pushq	%r14
	.cfi_def_cfa_offset 24
	pushq	%rbx
	.cfi_def_cfa_offset 32
	subq	$32, %rsp
	.cfi_def_cfa_offset 64
	.cfi_offset %rbx, -32
	.cfi_offset %r14, -24
	.cfi_offset %r15, -16
	movl	%edx, %r8d
	movl	$1, %edx
	xchgq	%rdx, 8(%rdi)
	movl	$-22, %eax
	testq	%rdx, %rdx
	je	.LBB107_1
.LBB107_18:
	addq	$32, %rsp
	.cfi_def_cfa_offset 32
	popq	%rbx
	.cfi_def_cfa_offset 24
	popq	%r14
	.cfi_def_cfa_offset 16
	popq	%r15
	.cfi_def_cfa_offset 8
	retq
.LBB107_1:
	.cfi_def_cfa_offset 64
	movq	(%rdi), %rbx
	movq	$0, (%rdi)
	testq	%rbx, %rbx
	je	.LBB107_19
	cmpb	$1, (%rbx)
	jne	.LBB107_17
	cmpq	$-4, %rsi
	ja	.LBB107_10
	xorps	%xmm0, %xmm0
	movaps	%xmm0, (%rsp)
	movq	$0, 16(%rsp)
	cmpb	$1, 112(%rbx)
	jne	.LBB107_5
.LBB107_16:
	movq	%rbx, (%rdi)
	xorl	%eax, %eax
	xchgq	%rax, 8(%rdi)
	movl	$-13, %eax
	jmp	.LBB107_18
.LBB107_19:
	xorl	%eax, %eax
	xchgq	%rax, 8(%rdi)
	movl	$-1, %eax
	jmp	.LBB107_18
.LBB107_17:
	movq	%rbx, (%rdi)
	xorl	%eax, %eax
	xchgq	%rax, 8(%rdi)
	movl	$-3, %eax
	jmp	.LBB107_18
.LBB107_10:
	movq	%rbx, (%rdi)
	xorl	%eax, %eax
	xchgq	%rax, 8(%rdi)
	movl	$-4, %eax
	jmp	.LBB107_18
.LBB107_5:
	movq	%rcx, %r15
	movq	%rdi, %r14
	leaq	16(%rbx), %rdx
	movq	8(%rbx), %rax
	addq	$8, %rax
	movq	%rsp, %rdi
	movq	%rsi, %rcx
	movq	%rax, %rsi
	callq	"nm_tree::tree::Tree::next"
	cmpb	$0, (%rsp)
	je	.LBB107_6
	movzbl	1(%rsp), %eax
	movl	%eax, %eax
	leaq	.LJTI107_0(%rip), %rcx
	movslq	(%rcx,%rax,4), %rax
	addq	%rcx, %rax
	movq	%r14, %rdi
	jmpq	*%rax
.LBB107_12:
	movq	%rbx, (%rdi)
	xorl	%eax, %eax
	xchgq	%rax, 8(%rdi)
	movl	$-9, %eax
	jmp	.LBB107_18
.LBB107_6:
	cmpb	$1, 8(%rsp)
	jne	.LBB107_7
	movq	16(%rsp), %rax
	movq	%rax, (%r15)
	movq	%rbx, (%r14)
	xorl	%eax, %eax
	xchgq	%rax, 8(%r14)
	movl	$1, %eax
	jmp	.LBB107_18
.LBB107_7:
	movq	%rbx, (%r14)
	xorl	%eax, %eax
	xorl	%ecx, %ecx
	xchgq	%rcx, 8(%r14)
	jmp	.LBB107_18
.LBB107_14:
	movq	%rbx, (%rdi)
	xorl	%eax, %eax
	xchgq	%rax, 8(%rdi)
	movl	$-11, %eax
	jmp	.LBB107_18
.LBB107_13:
	movq	%rbx, (%rdi)
	xorl	%eax, %eax
	xchgq	%rax, 8(%rdi)
	movl	$-10, %eax
	jmp	.LBB107_18
.LBB107_11:
	movq	%rbx, (%rdi)
	xorl	%eax, %eax
	xchgq	%rax, 8(%rdi)
	movl	$-8, %eax
	jmp	.LBB107_18
.LBB107_15:
	movq	%rbx, (%rdi)
	xorl	%eax, %eax
	xchgq	%rax, 8(%rdi)
	movl	$-12, %eax
	jmp	.LBB107_18
.Lfunc_end107:
	.size	nm_worker_next, .Lfunc_end107-nm_worker_next
	.cfi_endproc
	.section	.rodata.nm_worker_next,"a",@progbits
	.p2align	2, 0x0
.LJTI107_0:
	.long	.LBB107_12-.LJTI107_0
	.long	.LBB107_13-.LJTI107_0
	.long	.LBB107_11-.LJTI107_0
	.long	.LBB107_14-.LJTI107_0
	.long	.LBB107_15-.LJTI107_0
	.long	.LBB107_16-.LJTI107_0
	.section	.text.nm_worker_number,"ax",@progbits
	.globl	nm_worker_number
	.p2align	4
	.type	nm_worker_number,@function
nm_worker_number:
	.cfi_startproc
	movl	$1, %ecx
	xchgq	%rcx, 8(%rdi)
	movl	$-22, %eax
	testq	%rcx, %rcx
	je	.LBB108_1
	retq
.LBB108_1:
	movq	(%rdi), %rax
	movq	$0, (%rdi)
	testq	%rax, %rax
	je	.LBB108_6
	cmpb	$1, (%rax)
	jne	.LBB108_4
	movl	16(%rax), %ecx
	movl	%ecx, (%rsi)
	movq	%rax, (%rdi)
	xorl	%eax, %eax
	xchgq	%rax, 8(%rdi)
	movl	$2, %eax
	retq
.LBB108_6:
	xorl	%eax, %eax
	xchgq	%rax, 8(%rdi)
	movl	$-1, %eax
	retq
.LBB108_4:
	movq	%rax, (%rdi)
	xorl	%eax, %eax
	xchgq	%rax, 8(%rdi)
	movl	$-3, %eax
	retq
.Lfunc_end108:
	.size	nm_worker_number, .Lfunc_end108-nm_worker_number
	.cfi_endproc
	.section	.text.nm_worker_observe,"ax",@progbits
	.globl	nm_worker_observe
	.p2align	4
	.type	nm_worker_observe,@function
nm_worker_observe:
	.cfi_startproc
	pushq	%rbx
	.cfi_def_cfa_offset 16
	.cfi_offset %rbx, -16
	movl	$1, %r8d
	xchgq	%r8, 8(%rdi)
	movl	$-22, %eax
	testq	%r8, %r8
	je	.LBB109_1
	popq	%rbx
	.cfi_def_cfa_offset 8
	retq
.LBB109_1:
	.cfi_def_cfa_offset 16
	movq	(%rdi), %r8
	movq	$0, (%rdi)
	testq	%r8, %r8
	je	.LBB109_15
	cmpb	$1, (%r8)
	jne	.LBB109_13
	movq	8(%r8), %r9
	movl	%esi, %esi
	cmpq	%rsi, 176(%r9)
	jbe	.LBB109_11
	shlq	$5, %rsi
	addq	168(%r9), %rsi
	xorps	%xmm0, %xmm0
	movaps	%xmm0, -16(%rsp)
	movl	$3, %r10d
	movl	$1, %eax
	lock		cmpxchgq	%r10, (%rsi)
	cmpq	$1, %rax
	je	.LBB109_7
	testq	%rax, %rax
	je	.LBB109_6
	movq	%r8, (%rdi)
	xorl	%eax, %eax
	xchgq	%rax, 8(%rdi)
	movl	$-9, %eax
	popq	%rbx
	.cfi_def_cfa_offset 8
	retq
.LBB109_15:
	.cfi_def_cfa_offset 16
	xorl	%eax, %eax
	xchgq	%rax, 8(%rdi)
	movl	$-1, %eax
	popq	%rbx
	.cfi_def_cfa_offset 8
	retq
.LBB109_13:
	.cfi_def_cfa_offset 16
	movq	%r8, (%rdi)
	xorl	%eax, %eax
	xchgq	%rax, 8(%rdi)
	movl	$-3, %eax
	popq	%rbx
	.cfi_def_cfa_offset 8
	retq
.LBB109_11:
	.cfi_def_cfa_offset 16
	movq	%r8, (%rdi)
	xorl	%eax, %eax
	xchgq	%rax, 8(%rdi)
	movl	$-5, %eax
	popq	%rbx
	.cfi_def_cfa_offset 8
	retq
.LBB109_7:
	.cfi_def_cfa_offset 16
	movzbl	8(%rsi), %eax
	movq	16(%rsi), %r10
	movq	24(%rsi), %r11
	movq	$0, 8(%rsi)
	movaps	-16(%rsp), %xmm0
	movups	%xmm0, 16(%rsi)
	movl	$2, %ebx
	xchgq	%rbx, (%rsi)
	cmpb	$1, %al
	jne	.LBB109_6
	movq	8(%r9), %rax
	movq	(%rax), %rax
	movq	8(%r9), %rax
	movq	(%rax), %rax
	movq	8(%r9), %rax
	movq	(%rax), %rax
	movl	$3, %r9d
	movl	$2, %eax
	lock		cmpxchgq	%r9, (%rsi)
	jne	.LBB109_10
	movq	$1, 8(%rsi)
	movq	%r10, 16(%rsi)
	movq	%r11, 24(%rsi)
	movl	$1, %eax
	xchgq	%rax, (%rsi)
.LBB109_10:
	movq	%r10, (%rdx)
	movq	%r11, (%rcx)
	movq	%r8, (%rdi)
	xorl	%eax, %eax
	xchgq	%rax, 8(%rdi)
	movl	$1, %eax
	popq	%rbx
	.cfi_def_cfa_offset 8
	retq
.LBB109_6:
	.cfi_def_cfa_offset 16
	movq	%r8, (%rdi)
	xorl	%eax, %eax
	xorl	%ecx, %ecx
	xchgq	%rcx, 8(%rdi)
	popq	%rbx
	.cfi_def_cfa_offset 8
	retq
.Lfunc_end109:
	.size	nm_worker_observe, .Lfunc_end109-nm_worker_observe
	.cfi_endproc
	.section	.text.nm_worker_pending,"ax",@progbits
	.globl	nm_worker_pending
	.p2align	4
	.type	nm_worker_pending,@function
nm_worker_pending:
	.cfi_startproc
	movl	$1, %ecx
	xchgq	%rcx, 8(%rdi)
	movl	$-22, %eax
	testq	%rcx, %rcx
	je	.LBB110_1
	retq
.LBB110_1:
	movq	(%rdi), %rax
	movq	$0, (%rdi)
	testq	%rax, %rax
	je	.LBB110_8
	cmpb	$1, (%rax)
	jne	.LBB110_6
	cmpb	$2, 112(%rax)
	jne	.LBB110_4
	movq	120(%rax), %rcx
	movq	%rcx, (%rsi)
	movq	%rax, (%rdi)
	xorl	%eax, %eax
	xchgq	%rax, 8(%rdi)
	movl	$1, %eax
	retq
.LBB110_8:
	xorl	%eax, %eax
	xchgq	%rax, 8(%rdi)
	movl	$-1, %eax
	retq
.LBB110_6:
	movq	%rax, (%rdi)
	xorl	%eax, %eax
	xchgq	%rax, 8(%rdi)
	movl	$-3, %eax
	retq
.LBB110_4:
	movq	%rax, (%rdi)
	xorl	%eax, %eax
	xorl	%ecx, %ecx
	xchgq	%rcx, 8(%rdi)
	retq
.Lfunc_end110:
	.size	nm_worker_pending, .Lfunc_end110-nm_worker_pending
	.cfi_endproc
	.section	.text.nm_worker_pin,"ax",@progbits
	.globl	nm_worker_pin
	.p2align	4
	.type	nm_worker_pin,@function
nm_worker_pin:
	.cfi_startproc
	pushq	%r15
	.cfi_def_cfa_offset 16
	pushq	%r14
	.cfi_def_cfa_offset 24
	pushq	%rbx
	.cfi_def_cfa_offset 32
	subq	$32, %rsp
	.cfi_def_cfa_offset 64
	.cfi_offset %rbx, -32
	.cfi_offset %r14, -24
	.cfi_offset %r15, -16
	movl	$1, %r8d
	xchgq	%r8, 8(%rdi)
	movl	$-22, %eax
	testq	%r8, %r8
	je	.LBB111_1
.LBB111_12:
	addq	$32, %rsp
	.cfi_def_cfa_offset 32
	popq	%rbx
	.cfi_def_cfa_offset 24
	popq	%r14
	.cfi_def_cfa_offset 16
	popq	%r15
	.cfi_def_cfa_offset 8
	retq
.LBB111_1:
	.cfi_def_cfa_offset 64
	movq	(%rdi), %rbx
	movq	$0, (%rdi)
	testq	%rbx, %rbx
	je	.LBB111_13
	cmpb	$1, (%rbx)
	jne	.LBB111_11
	xorps	%xmm0, %xmm0
	movaps	%xmm0, (%rsp)
	movq	$0, 16(%rsp)
	cmpb	$1, 112(%rbx)
	jne	.LBB111_4
.LBB111_10:
	movq	%rbx, (%rdi)
	xorl	%eax, %eax
	xchgq	%rax, 8(%rdi)
	movl	$-13, %eax
	jmp	.LBB111_12
.LBB111_13:
	xorl	%eax, %eax
	xchgq	%rax, 8(%rdi)
	movl	$-1, %eax
	jmp	.LBB111_12
.LBB111_11:
	movq	%rbx, (%rdi)
	xorl	%eax, %eax
	xchgq	%rax, 8(%rdi)
	movl	$-3, %eax
	jmp	.LBB111_12
.LBB111_4:
	movl	%esi, %ecx
	movq	%rdx, %r15
	movq	%rdi, %r14
	leaq	16(%rbx), %rdx
	movq	8(%rbx), %rsi
	addq	$8, %rsi
	movq	%rsp, %rdi
	callq	"nm_tree::tree::Tree::pin"
	movq	8(%rsp), %rax
	cmpb	$0, (%rsp)
	je	.LBB111_8
	testb	%al, %al
	movq	%r14, %rdi
	je	.LBB111_9
	movzbl	%al, %eax
	cmpl	$1, %eax
	jne	.LBB111_10
	movq	%rbx, (%rdi)
	xorl	%eax, %eax
	xchgq	%rax, 8(%rdi)
	movl	$-12, %eax
	jmp	.LBB111_12
.LBB111_8:
	movq	%rax, (%r15)
	movq	%rbx, (%r14)
	xorl	%eax, %eax
	xchgq	%rax, 8(%r14)
	movl	$2, %eax
	jmp	.LBB111_12
.LBB111_9:
	movq	16(%rsp), %rax
	movq	%rax, (%r15)
	movq	%rbx, (%rdi)
	xorl	%eax, %eax
	xchgq	%rax, 8(%rdi)
	movl	$-9, %eax
	jmp	.LBB111_12
.Lfunc_end111:
	.size	nm_worker_pin, .Lfunc_end111-nm_worker_pin
	.cfi_endproc
	.section	.text.nm_worker_pinned,"ax",@progbits
	.globl	nm_worker_pinned
	.p2align	4
	.type	nm_worker_pinned,@function
nm_worker_pinned:
	.cfi_startproc
	movl	$1, %ecx
	xchgq	%rcx, 8(%rdi)
	movl	$-22, %eax
	testq	%rcx, %rcx
	je	.LBB112_1
	retq
.LBB112_1:
	movq	(%rdi), %rax
	movq	$0, (%rdi)
	testq	%rax, %rax
	je	.LBB112_8
	cmpb	$1, (%rax)
	jne	.LBB112_6
	cmpb	$1, 112(%rax)
	jne	.LBB112_4
	movq	120(%rax), %rcx
	movq	%rcx, (%rsi)
	movq	%rax, (%rdi)
	xorl	%eax, %eax
	xchgq	%rax, 8(%rdi)
	movl	$1, %eax
	retq
.LBB112_8:
	xorl	%eax, %eax
	xchgq	%rax, 8(%rdi)
	movl	$-1, %eax
	retq
.LBB112_6:
	movq	%rax, (%rdi)
	xorl	%eax, %eax
	xchgq	%rax, 8(%rdi)
	movl	$-3, %eax
	retq
.LBB112_4:
	movq	%rax, (%rdi)
	xorl	%eax, %eax
	xorl	%ecx, %ecx
	xchgq	%rcx, 8(%rdi)
	retq
.Lfunc_end112:
	.size	nm_worker_pinned, .Lfunc_end112-nm_worker_pinned
	.cfi_endproc
	.section	.text.nm_worker_pop_first,"ax",@progbits
	.globl	nm_worker_pop_first
	.p2align	4
	.type	nm_worker_pop_first,@function
nm_worker_pop_first:
	.cfi_startproc
	pushq	%r15
	.cfi_def_cfa_offset 16
	pushq	%r14
	.cfi_def_cfa_offset 24
	pushq	%rbx
	.cfi_def_cfa_offset 32
	subq	$32, %rsp
	.cfi_def_cfa_offset 64
	.cfi_offset %rbx, -32
	.cfi_offset %r14, -24
	.cfi_offset %r15, -16
	movl	$1, %ecx
	xchgq	%rcx, 8(%rdi)
	movl	$-22, %eax
	testq	%rcx, %rcx
	je	.LBB113_1
.LBB113_19:
	addq	$32, %rsp
	.cfi_def_cfa_offset 32
	popq	%rbx
	.cfi_def_cfa_offset 24
	popq	%r14
	.cfi_def_cfa_offset 16
	popq	%r15
	.cfi_def_cfa_offset 8
	retq
.LBB113_1:
	.cfi_def_cfa_offset 64
	movq	(%rdi), %rbx
	movq	$0, (%rdi)
	testq	%rbx, %rbx
	je	.LBB113_20
	cmpb	$1, (%rbx)
	jne	.LBB113_18
	movq	%rsi, %r8
	movq	%rdx, %r14
	movq	%rdi, %r15
	leaq	8(%rbx), %rsi
	xorps	%xmm0, %xmm0
	movaps	%xmm0, (%rsp)
	movq	$0, 16(%rsp)
	movq	%rsp, %rdi
	xorl	%edx, %edx
	xorl	%ecx, %ecx
	callq	"nm_set::member::Member::pop::<#f118e792109c5fac>"
	movzbl	(%rsp), %edi
	movzbl	1(%rsp), %edx
	movzbl	8(%rsp), %esi
	movq	16(%rsp), %rax
	movl	%edi, %ecx
	xorb	$1, %cl
	movl	%edx, %r8d
	xorb	$3, %r8b
	orb	%cl, %r8b
	sete	%cl
	cmpb	$2, 112(%rbx)
	jne	.LBB113_7
	testb	%cl, %cl
	movq	%r15, %rcx
	je	.LBB113_8
	movq	120(%rbx), %rax
	movq	%rax, (%r14)
	jmp	.LBB113_6
.LBB113_20:
	xorl	%eax, %eax
	xchgq	%rax, 8(%rdi)
	movl	$-1, %eax
	jmp	.LBB113_19
.LBB113_18:
	movq	%rbx, (%rdi)
	xorl	%eax, %eax
	xchgq	%rax, 8(%rdi)
	movl	$-3, %eax
	jmp	.LBB113_19
.LBB113_7:
	testb	%cl, %cl
	movq	%r15, %rcx
	je	.LBB113_8
.LBB113_6:
	movq	%rbx, (%rcx)
	xorl	%eax, %eax
	xchgq	%rax, 8(%rcx)
	movl	$-11, %eax
	jmp	.LBB113_19
.LBB113_8:
	testb	%dil, %dil
	je	.LBB113_9
	movzbl	%dl, %eax
	movl	%eax, %eax
	leaq	.LJTI113_0(%rip), %rdx
	movslq	(%rdx,%rax,4), %rax
	addq	%rdx, %rax
	jmpq	*%rax
.LBB113_14:
	movq	%rbx, (%rcx)
	xorl	%eax, %eax
	xchgq	%rax, 8(%rcx)
	movl	$-9, %eax
	jmp	.LBB113_19
.LBB113_9:
	cmpb	$1, %sil
	jne	.LBB113_10
	movq	%rax, (%r14)
	movq	%rbx, (%rcx)
	xorl	%eax, %eax
	xchgq	%rax, 8(%rcx)
	movl	$1, %eax
	jmp	.LBB113_19
.LBB113_10:
	movq	%rbx, (%rcx)
	xorl	%eax, %eax
	xorl	%edx, %edx
	xchgq	%rdx, 8(%rcx)
	jmp	.LBB113_19
.LBB113_16:
	movq	%rbx, (%rcx)
	xorl	%eax, %eax
	xchgq	%rax, 8(%rcx)
	movl	$-12, %eax
	jmp	.LBB113_19
.LBB113_15:
	movq	%rbx, (%rcx)
	xorl	%eax, %eax
	xchgq	%rax, 8(%rcx)
	movl	$-10, %eax
	jmp	.LBB113_19
.LBB113_13:
	movq	%rbx, (%rcx)
	xorl	%eax, %eax
	xchgq	%rax, 8(%rcx)
	movl	$-8, %eax
	jmp	.LBB113_19
.LBB113_17:
	movq	%rbx, (%rcx)
	xorl	%eax, %eax
	xchgq	%rax, 8(%rcx)
	movl	$-13, %eax
	jmp	.LBB113_19
.Lfunc_end113:
	.size	nm_worker_pop_first, .Lfunc_end113-nm_worker_pop_first
	.cfi_endproc
	.section	.rodata.nm_worker_pop_first,"a",@progbits
	.p2align	2, 0x0
.LJTI113_0:
	.long	.LBB113_14-.LJTI113_0
	.long	.LBB113_15-.LJTI113_0
	.long	.LBB113_13-.LJTI113_0
	.long	.LBB113_6-.LJTI113_0
	.long	.LBB113_16-.LJTI113_0
	.long	.LBB113_17-.LJTI113_0
	.section	.text.nm_worker_pop_first_below,"ax",@progbits
	.globl	nm_worker_pop_first_below
	.p2align	4
	.type	nm_worker_pop_first_below,@function
nm_worker_pop_first_below:
	.cfi_startproc
	pushq	%r15
	.cfi_def_cfa_offset 16
	pushq	%r14
	.cfi_def_cfa_offset 24
	pushq	%rbx
	.cfi_def_cfa_offset 32
	subq	$32, %rsp
	.cfi_def_cfa_offset 64
	.cfi_offset %rbx, -32
	.cfi_offset %r14, -24
	.cfi_offset %r15, -16
	movq	%rdx, %r8
	movl	$1, %edx
	xchgq	%rdx, 8(%rdi)
	movl	$-22, %eax
	testq	%rdx, %rdx
	je	.LBB114_1
.LBB114_19:
	addq	$32, %rsp
	.cfi_def_cfa_offset 32
	popq	%rbx
	.cfi_def_cfa_offset 24
	popq	%r14
	.cfi_def_cfa_offset 16
	popq	%r15
	.cfi_def_cfa_offset 8
	retq
.LBB114_1:
	.cfi_def_cfa_offset 64
	movq	(%rdi), %rbx
	movq	$0, (%rdi)
	testq	%rbx, %rbx
	je	.LBB114_20
	cmpb	$1, (%rbx)
	jne	.LBB114_18
	movq	%rcx, %r14
	movq	%rdi, %r15
	leaq	8(%rbx), %rax
	xorps	%xmm0, %xmm0
	movaps	%xmm0, (%rsp)
	movq	$0, 16(%rsp)
	movq	%rsp, %rdi
	movq	%rsi, %rcx
	movq	%rax, %rsi
	movl	$1, %edx
	callq	"nm_set::member::Member::pop::<#f118e792109c5fac>"
	movzbl	(%rsp), %edi
	movzbl	1(%rsp), %edx
	movzbl	8(%rsp), %esi
	movq	16(%rsp), %rax
	movl	%edi, %ecx
	xorb	$1, %cl
	movl	%edx, %r8d
	xorb	$3, %r8b
	orb	%cl, %r8b
	sete	%cl
	cmpb	$2, 112(%rbx)
	jne	.LBB114_7
	testb	%cl, %cl
	movq	%r15, %rcx
	je	.LBB114_8
	movq	120(%rbx), %rax
	movq	%rax, (%r14)
	jmp	.LBB114_6
.LBB114_20:
	xorl	%eax, %eax
	xchgq	%rax, 8(%rdi)
	movl	$-1, %eax
	jmp	.LBB114_19
.LBB114_18:
	movq	%rbx, (%rdi)
	xorl	%eax, %eax
	xchgq	%rax, 8(%rdi)
	movl	$-3, %eax
	jmp	.LBB114_19
.LBB114_7:
	testb	%cl, %cl
	movq	%r15, %rcx
	je	.LBB114_8
.LBB114_6:
	movq	%rbx, (%rcx)
	xorl	%eax, %eax
	xchgq	%rax, 8(%rcx)
	movl	$-11, %eax
	jmp	.LBB114_19
.LBB114_8:
	testb	%dil, %dil
	je	.LBB114_9
	movzbl	%dl, %eax
	movl	%eax, %eax
	leaq	.LJTI114_0(%rip), %rdx
	movslq	(%rdx,%rax,4), %rax
	addq	%rdx, %rax
	jmpq	*%rax
.LBB114_14:
	movq	%rbx, (%rcx)
	xorl	%eax, %eax
	xchgq	%rax, 8(%rcx)
	movl	$-9, %eax
	jmp	.LBB114_19
.LBB114_9:
	cmpb	$1, %sil
	jne	.LBB114_10
	movq	%rax, (%r14)
	movq	%rbx, (%rcx)
	xorl	%eax, %eax
	xchgq	%rax, 8(%rcx)
	movl	$1, %eax
	jmp	.LBB114_19
.LBB114_10:
	movq	%rbx, (%rcx)
	xorl	%eax, %eax
	xorl	%edx, %edx
	xchgq	%rdx, 8(%rcx)
	jmp	.LBB114_19
.LBB114_16:
	movq	%rbx, (%rcx)
	xorl	%eax, %eax
	xchgq	%rax, 8(%rcx)
	movl	$-12, %eax
	jmp	.LBB114_19
.LBB114_15:
	movq	%rbx, (%rcx)
	xorl	%eax, %eax
	xchgq	%rax, 8(%rcx)
	movl	$-10, %eax
	jmp	.LBB114_19
.LBB114_13:
	movq	%rbx, (%rcx)
	xorl	%eax, %eax
	xchgq	%rax, 8(%rcx)
	movl	$-8, %eax
	jmp	.LBB114_19
.LBB114_17:
	movq	%rbx, (%rcx)
	xorl	%eax, %eax
	xchgq	%rax, 8(%rcx)
	movl	$-13, %eax
	jmp	.LBB114_19
.Lfunc_end114:
	.size	nm_worker_pop_first_below, .Lfunc_end114-nm_worker_pop_first_below
	.cfi_endproc
	.section	.rodata.nm_worker_pop_first_below,"a",@progbits
	.p2align	2, 0x0
.LJTI114_0:
	.long	.LBB114_14-.LJTI114_0
	.long	.LBB114_15-.LJTI114_0
	.long	.LBB114_13-.LJTI114_0
	.long	.LBB114_6-.LJTI114_0
	.long	.LBB114_16-.LJTI114_0
	.long	.LBB114_17-.LJTI114_0
	.section	.text.nm_worker_pop_last,"ax",@progbits
	.globl	nm_worker_pop_last
	.p2align	4
	.type	nm_worker_pop_last,@function
nm_worker_pop_last:
	.cfi_startproc
	pushq	%r15
	.cfi_def_cfa_offset 16
	pushq	%r14
	.cfi_def_cfa_offset 24
	pushq	%rbx
	.cfi_def_cfa_offset 32
	subq	$32, %rsp
	.cfi_def_cfa_offset 64
	.cfi_offset %rbx, -32
	.cfi_offset %r14, -24
	.cfi_offset %r15, -16
	movl	$1, %ecx
	xchgq	%rcx, 8(%rdi)
	movl	$-22, %eax
	testq	%rcx, %rcx
	je	.LBB115_1
.LBB115_19:
	addq	$32, %rsp
	.cfi_def_cfa_offset 32
	popq	%rbx
	.cfi_def_cfa_offset 24
	popq	%r14
	.cfi_def_cfa_offset 16
	popq	%r15
	.cfi_def_cfa_offset 8
	retq
.LBB115_1:
	.cfi_def_cfa_offset 64
	movq	(%rdi), %rbx
	movq	$0, (%rdi)
	testq	%rbx, %rbx
	je	.LBB115_20
	cmpb	$1, (%rbx)
	jne	.LBB115_18
	movq	%rsi, %r8
	movq	%rdx, %r14
	movq	%rdi, %r15
	leaq	8(%rbx), %rsi
	xorps	%xmm0, %xmm0
	movaps	%xmm0, (%rsp)
	movq	$0, 16(%rsp)
	movq	%rsp, %rdi
	movl	$2, %edx
	xorl	%ecx, %ecx
	callq	"nm_set::member::Member::pop::<#f118e792109c5fac>"
	movzbl	(%rsp), %edi
	movzbl	1(%rsp), %edx
	movzbl	8(%rsp), %esi
	movq	16(%rsp), %rax
	movl	%edi, %ecx
	xorb	$1, %cl
	movl	%edx, %r8d
	xorb	$3, %r8b
	orb	%cl, %r8b
	sete	%cl
	cmpb	$2, 112(%rbx)
	jne	.LBB115_7
	testb	%cl, %cl
	movq	%r15, %rcx
	je	.LBB115_8
	movq	120(%rbx), %rax
	movq	%rax, (%r14)
	jmp	.LBB115_6
.LBB115_20:
	xorl	%eax, %eax
	xchgq	%rax, 8(%rdi)
	movl	$-1, %eax
	jmp	.LBB115_19
.LBB115_18:
	movq	%rbx, (%rdi)
	xorl	%eax, %eax
	xchgq	%rax, 8(%rdi)
	movl	$-3, %eax
	jmp	.LBB115_19
.LBB115_7:
	testb	%cl, %cl
	movq	%r15, %rcx
	je	.LBB115_8
.LBB115_6:
	movq	%rbx, (%rcx)
	xorl	%eax, %eax
	xchgq	%rax, 8(%rcx)
	movl	$-11, %eax
	jmp	.LBB115_19
.LBB115_8:
	testb	%dil, %dil
	je	.LBB115_9
	movzbl	%dl, %eax
	movl	%eax, %eax
	leaq	.LJTI115_0(%rip), %rdx
	movslq	(%rdx,%rax,4), %rax
	addq	%rdx, %rax
	jmpq	*%rax
.LBB115_14:
	movq	%rbx, (%rcx)
	xorl	%eax, %eax
	xchgq	%rax, 8(%rcx)
	movl	$-9, %eax
	jmp	.LBB115_19
.LBB115_9:
	cmpb	$1, %sil
	jne	.LBB115_10
	movq	%rax, (%r14)
	movq	%rbx, (%rcx)
	xorl	%eax, %eax
	xchgq	%rax, 8(%rcx)
	movl	$1, %eax
	jmp	.LBB115_19
.LBB115_10:
	movq	%rbx, (%rcx)
	xorl	%eax, %eax
	xorl	%edx, %edx
	xchgq	%rdx, 8(%rcx)
	jmp	.LBB115_19
.LBB115_16:
	movq	%rbx, (%rcx)
	xorl	%eax, %eax
	xchgq	%rax, 8(%rcx)
	movl	$-12, %eax
	jmp	.LBB115_19
.LBB115_15:
	movq	%rbx, (%rcx)
	xorl	%eax, %eax
	xchgq	%rax, 8(%rcx)
	movl	$-10, %eax
	jmp	.LBB115_19
.LBB115_13:
	movq	%rbx, (%rcx)
	xorl	%eax, %eax
	xchgq	%rax, 8(%rcx)
	movl	$-8, %eax
	jmp	.LBB115_19
.LBB115_17:
	movq	%rbx, (%rcx)
	xorl	%eax, %eax
	xchgq	%rax, 8(%rcx)
	movl	$-13, %eax
	jmp	.LBB115_19
.Lfunc_end115:
	.size	nm_worker_pop_last, .Lfunc_end115-nm_worker_pop_last
	.cfi_endproc
	.section	.rodata.nm_worker_pop_last,"a",@progbits
	.p2align	2, 0x0
.LJTI115_0:
	.long	.LBB115_14-.LJTI115_0
	.long	.LBB115_15-.LJTI115_0
	.long	.LBB115_13-.LJTI115_0
	.long	.LBB115_6-.LJTI115_0
	.long	.LBB115_16-.LJTI115_0
	.long	.LBB115_17-.LJTI115_0
	.section	.text.nm_worker_pop_last_from,"ax",@progbits
	.globl	nm_worker_pop_last_from
	.p2align	4
	.type	nm_worker_pop_last_from,@function
nm_worker_pop_last_from:
	.cfi_startproc
	pushq	%r15
	.cfi_def_cfa_offset 16
	pushq	%r14
	.cfi_def_cfa_offset 24
	pushq	%rbx
	.cfi_def_cfa_offset 32
	subq	$32, %rsp
	.cfi_def_cfa_offset 64
	.cfi_offset %rbx, -32
	.cfi_offset %r14, -24
	.cfi_offset %r15, -16
	movq	%rdx, %r8
	movl	$1, %edx
	xchgq	%rdx, 8(%rdi)
	movl	$-22, %eax
	testq	%rdx, %rdx
	je	.LBB116_1
.LBB116_19:
	addq	$32, %rsp
	.cfi_def_cfa_offset 32
	popq	%rbx
	.cfi_def_cfa_offset 24
	popq	%r14
	.cfi_def_cfa_offset 16
	popq	%r15
	.cfi_def_cfa_offset 8
	retq
.LBB116_1:
	.cfi_def_cfa_offset 64
	movq	(%rdi), %rbx
	movq	$0, (%rdi)
	testq	%rbx, %rbx
	je	.LBB116_20
	cmpb	$1, (%rbx)
	jne	.LBB116_18
	movq	%rcx, %r14
	movq	%rdi, %r15
	leaq	8(%rbx), %rax
	xorps	%xmm0, %xmm0
	movaps	%xmm0, (%rsp)
	movq	$0, 16(%rsp)
	movq	%rsp, %rdi
	movq	%rsi, %rcx
	movq	%rax, %rsi
	movl	$3, %edx
	callq	"nm_set::member::Member::pop::<#f118e792109c5fac>"
	movzbl	(%rsp), %edi
	movzbl	1(%rsp), %edx
	movzbl	8(%rsp), %esi
	movq	16(%rsp), %rax
	movl	%edi, %ecx
	xorb	$1, %cl
	movl	%edx, %r8d
	xorb	$3, %r8b
	orb	%cl, %r8b
	sete	%cl
	cmpb	$2, 112(%rbx)
	jne	.LBB116_7
	testb	%cl, %cl
	movq	%r15, %rcx
	je	.LBB116_8
	movq	120(%rbx), %rax
	movq	%rax, (%r14)
	jmp	.LBB116_6
.LBB116_20:
	xorl	%eax, %eax
	xchgq	%rax, 8(%rdi)
	movl	$-1, %eax
	jmp	.LBB116_19
.LBB116_18:
	movq	%rbx, (%rdi)
	xorl	%eax, %eax
	xchgq	%rax, 8(%rdi)
	movl	$-3, %eax
	jmp	.LBB116_19
.LBB116_7:
	testb	%cl, %cl
	movq	%r15, %rcx
	je	.LBB116_8
.LBB116_6:
	movq	%rbx, (%rcx)
	xorl	%eax, %eax
	xchgq	%rax, 8(%rcx)
	movl	$-11, %eax
	jmp	.LBB116_19
.LBB116_8:
	testb	%dil, %dil
	je	.LBB116_9
	movzbl	%dl, %eax
	movl	%eax, %eax
	leaq	.LJTI116_0(%rip), %rdx
	movslq	(%rdx,%rax,4), %rax
	addq	%rdx, %rax
	jmpq	*%rax
.LBB116_14:
	movq	%rbx, (%rcx)
	xorl	%eax, %eax
	xchgq	%rax, 8(%rcx)
	movl	$-9, %eax
	jmp	.LBB116_19
.LBB116_9:
	cmpb	$1, %sil
	jne	.LBB116_10
	movq	%rax, (%r14)
	movq	%rbx, (%rcx)
	xorl	%eax, %eax
	xchgq	%rax, 8(%rcx)
	movl	$1, %eax
	jmp	.LBB116_19
.LBB116_10:
	movq	%rbx, (%rcx)
	xorl	%eax, %eax
	xorl	%edx, %edx
	xchgq	%rdx, 8(%rcx)
	jmp	.LBB116_19
.LBB116_16:
	movq	%rbx, (%rcx)
	xorl	%eax, %eax
	xchgq	%rax, 8(%rcx)
	movl	$-12, %eax
	jmp	.LBB116_19
.LBB116_15:
	movq	%rbx, (%rcx)
	xorl	%eax, %eax
	xchgq	%rax, 8(%rcx)
	movl	$-10, %eax
	jmp	.LBB116_19
.LBB116_13:
	movq	%rbx, (%rcx)
	xorl	%eax, %eax
	xchgq	%rax, 8(%rcx)
	movl	$-8, %eax
	jmp	.LBB116_19
.LBB116_17:
	movq	%rbx, (%rcx)
	xorl	%eax, %eax
	xchgq	%rax, 8(%rcx)
	movl	$-13, %eax
	jmp	.LBB116_19
.Lfunc_end116:
	.size	nm_worker_pop_last_from, .Lfunc_end116-nm_worker_pop_last_from
	.cfi_endproc
	.section	.rodata.nm_worker_pop_last_from,"a",@progbits
	.p2align	2, 0x0
.LJTI116_0:
	.long	.LBB116_14-.LJTI116_0
	.long	.LBB116_15-.LJTI116_0
	.long	.LBB116_13-.LJTI116_0
	.long	.LBB116_6-.LJTI116_0
	.long	.LBB116_16-.LJTI116_0
	.long	.LBB116_17-.LJTI116_0
	.section	.text.nm_worker_prev,"ax",@progbits
	.globl	nm_worker_prev
	.p2align	4
	.type	nm_worker_prev,@function
nm_worker_prev:
	.cfi_startproc
	pushq	%r15
	.cfi_def_cfa_offset 16
	pushq	%r14
	.cfi_def_cfa_offset 24
	pushq	%rbx
	.cfi_def_cfa_offset 32
	subq	$32, %rsp
	.cfi_def_cfa_offset 64
	.cfi_offset %rbx, -32
	.cfi_offset %r14, -24
	.cfi_offset %r15, -16
	movl	%edx, %r8d
	movl	$1, %edx
	xchgq	%rdx, 8(%rdi)
	movl	$-22, %eax
	testq	%rdx, %rdx
	je	.LBB117_1
.LBB117_18:
	addq	$32, %rsp
	.cfi_def_cfa_offset 32
	popq	%rbx
	.cfi_def_cfa_offset 24
	popq	%r14
	.cfi_def_cfa_offset 16
	popq	%r15
	.cfi_def_cfa_offset 8
	retq
.LBB117_1:
	.cfi_def_cfa_offset 64
	movq	(%rdi), %rbx
	movq	$0, (%rdi)
	testq	%rbx, %rbx
	je	.LBB117_19
	cmpb	$1, (%rbx)
	jne	.LBB117_17
	cmpq	$-4, %rsi
	ja	.LBB117_10
	xorps	%xmm0, %xmm0
	movaps	%xmm0, (%rsp)
	movq	$0, 16(%rsp)
	cmpb	$1, 112(%rbx)
	jne	.LBB117_5
.LBB117_16:
	movq	%rbx, (%rdi)
	xorl	%eax, %eax
	xchgq	%rax, 8(%rdi)
	movl	$-13, %eax
	jmp	.LBB117_18
.LBB117_19:
	xorl	%eax, %eax
	xchgq	%rax, 8(%rdi)
	movl	$-1, %eax
	jmp	.LBB117_18
.LBB117_17:
	movq	%rbx, (%rdi)
	xorl	%eax, %eax
	xchgq	%rax, 8(%rdi)
	movl	$-3, %eax
	jmp	.LBB117_18
.LBB117_10:
	movq	%rbx, (%rdi)
	xorl	%eax, %eax
	xchgq	%rax, 8(%rdi)
	movl	$-4, %eax
	jmp	.LBB117_18
.LBB117_5:
	movq	%rcx, %r15
	movq	%rdi, %r14
	leaq	16(%rbx), %rdx
	movq	8(%rbx), %rax
	addq	$8, %rax
	movq	%rsp, %rdi
	movq	%rsi, %rcx
	movq	%rax, %rsi
	callq	"nm_tree::tree::Tree::prev"
	cmpb	$0, (%rsp)
	je	.LBB117_6
	movzbl	1(%rsp), %eax
	movl	%eax, %eax
	leaq	.LJTI117_0(%rip), %rcx
	movslq	(%rcx,%rax,4), %rax
	addq	%rcx, %rax
	movq	%r14, %rdi
	jmpq	*%rax
.LBB117_12:
	movq	%rbx, (%rdi)
	xorl	%eax, %eax
	xchgq	%rax, 8(%rdi)
	movl	$-9, %eax
	jmp	.LBB117_18
.LBB117_6:
	cmpb	$1, 8(%rsp)
	jne	.LBB117_7
	movq	16(%rsp), %rax
	movq	%rax, (%r15)
	movq	%rbx, (%r14)
	xorl	%eax, %eax
	xchgq	%rax, 8(%r14)
	movl	$1, %eax
	jmp	.LBB117_18
.LBB117_7:
	movq	%rbx, (%r14)
	xorl	%eax, %eax
	xorl	%ecx, %ecx
	xchgq	%rcx, 8(%r14)
	jmp	.LBB117_18
.LBB117_14:
	movq	%rbx, (%rdi)
	xorl	%eax, %eax
	xchgq	%rax, 8(%rdi)
	movl	$-11, %eax
	jmp	.LBB117_18
.LBB117_13:
	movq	%rbx, (%rdi)
	xorl	%eax, %eax
	xchgq	%rax, 8(%rdi)
	movl	$-10, %eax
	jmp	.LBB117_18
.LBB117_11:
	movq	%rbx, (%rdi)
	xorl	%eax, %eax
	xchgq	%rax, 8(%rdi)
	movl	$-8, %eax
	jmp	.LBB117_18
.LBB117_15:
	movq	%rbx, (%rdi)
	xorl	%eax, %eax
	xchgq	%rax, 8(%rdi)
	movl	$-12, %eax
	jmp	.LBB117_18
.Lfunc_end117:
	.size	nm_worker_prev, .Lfunc_end117-nm_worker_prev
	.cfi_endproc
	.section	.rodata.nm_worker_prev,"a",@progbits
	.p2align	2, 0x0
.LJTI117_0:
	.long	.LBB117_12-.LJTI117_0
	.long	.LBB117_13-.LJTI117_0
	.long	.LBB117_11-.LJTI117_0
	.long	.LBB117_14-.LJTI117_0
	.long	.LBB117_15-.LJTI117_0
	.long	.LBB117_16-.LJTI117_0
	.section	.text.nm_worker_publish,"ax",@progbits
	.globl	nm_worker_publish
	.p2align	4
	.type	nm_worker_publish,@function
nm_worker_publish:
	.cfi_startproc
	pushq	%rbx
	.cfi_def_cfa_offset 16
	.cfi_offset %rbx, -16
	movl	$1, %ecx
	xchgq	%rcx, 8(%rdi)
	movl	$-22, %eax
	testq	%rcx, %rcx
	je	.LBB118_1
	popq	%rbx
	.cfi_def_cfa_offset 8
	retq
.LBB118_1:
	.cfi_def_cfa_offset 16
	movq	(%rdi), %rcx
	movq	$0, (%rdi)
	testq	%rcx, %rcx
	je	.LBB118_14
	cmpb	$1, (%rcx)
	jne	.LBB118_12
	movl	16(%rcx), %r8d
	movq	8(%rcx), %rax
	cmpq	%r8, 176(%rax)
	jbe	.LBB118_11
	movq	168(%rax), %r9
	shlq	$5, %r8
	movq	8(%rax), %rax
	movq	80(%rcx), %r11
	movq	104(%rcx), %r10
	leaq	(%r10,%r10,2), %rbx
	shlq	$5, %rbx
	movq	72(%r11,%rbx), %r10
	cmpb	$2, 112(%rcx)
	jne	.LBB118_6
	cmpq	$1, %r10
	adcq	$-1, %r10
.LBB118_6:
	movq	64(%r11,%rbx), %r11
	movq	(%rax), %rax
	movl	$3, %ebx
	movl	$1, %eax
	lock		cmpxchgq	%rbx, (%r9,%r8)
	movl	$1, %eax
	jne	.LBB118_8
	movq	$1, 8(%r9,%r8)
	movq	%r11, 16(%r9,%r8)
	movq	%r10, 24(%r9,%r8)
	xchgq	%rax, (%r9,%r8)
	jmp	.LBB118_10
.LBB118_14:
	xorl	%eax, %eax
	xchgq	%rax, 8(%rdi)
	movl	$-1, %eax
	popq	%rbx
	.cfi_def_cfa_offset 8
	retq
.LBB118_12:
	.cfi_def_cfa_offset 16
	movq	%rcx, (%rdi)
	xorl	%eax, %eax
	xchgq	%rax, 8(%rdi)
	movl	$-3, %eax
	popq	%rbx
	.cfi_def_cfa_offset 8
	retq
.LBB118_8:
	.cfi_def_cfa_offset 16
	xorl	%eax, %eax
	lock		cmpxchgq	%rbx, (%r9,%r8)
	jne	.LBB118_11
	movq	$1, 8(%r9,%r8)
	movq	%r11, 16(%r9,%r8)
	movq	%r10, 24(%r9,%r8)
	movl	$1, %eax
	xchgq	%rax, (%r9,%r8)
.LBB118_10:
	movq	%r11, (%rsi)
	movq	%r10, (%rdx)
	movq	%rcx, (%rdi)
	xorl	%eax, %eax
	xchgq	%rax, 8(%rdi)
	movl	$2, %eax
	popq	%rbx
	.cfi_def_cfa_offset 8
	retq
.LBB118_11:
	.cfi_def_cfa_offset 16
	movq	%rcx, (%rdi)
	xorl	%eax, %eax
	xchgq	%rax, 8(%rdi)
	movl	$-9, %eax
	popq	%rbx
	.cfi_def_cfa_offset 8
	retq
.Lfunc_end118:
	.size	nm_worker_publish, .Lfunc_end118-nm_worker_publish
	.cfi_endproc
	.section	.text.nm_worker_queue_len,"ax",@progbits
	.globl	nm_worker_queue_len
	.p2align	4
	.type	nm_worker_queue_len,@function
nm_worker_queue_len:
	.cfi_startproc
	movl	$1, %ecx
	xchgq	%rcx, 8(%rdi)
	movl	$-22, %eax
	testq	%rcx, %rcx
	je	.LBB119_1
	retq
.LBB119_1:
	movq	(%rdi), %rax
	movq	$0, (%rdi)
	testq	%rax, %rax
	je	.LBB119_17
	cmpb	$1, (%rax)
	jne	.LBB119_15
	pushq	%r15
	.cfi_def_cfa_offset 16
	pushq	%r14
	.cfi_def_cfa_offset 24
	pushq	%rbx
	.cfi_def_cfa_offset 32
	.cfi_offset %rbx, -32
	.cfi_offset %r14, -24
	.cfi_offset %r15, -16
	movq	88(%rax), %r9
	testq	%r9, %r9
	je	.LBB119_4
	movq	80(%rax), %rdx
	cmpq	$1, %r9
	jne	.LBB119_6
	movl	60(%rdx), %ecx
	jmp	.LBB119_14
.LBB119_17:
	.cfi_def_cfa_offset 8
	.cfi_restore %rbx
	.cfi_restore %r14
	.cfi_restore %r15
	xorl	%eax, %eax
	xchgq	%rax, 8(%rdi)
	movl	$-1, %eax
	retq
.LBB119_15:
	movq	%rax, (%rdi)
	xorl	%eax, %eax
	xchgq	%rax, 8(%rdi)
	movl	$-3, %eax
	retq
.LBB119_4:
	.cfi_def_cfa_offset 32
	.cfi_offset %rbx, -32
	.cfi_offset %r14, -24
	.cfi_offset %r15, -16
	movq	%r9, %rcx
	jmp	.LBB119_14
.LBB119_6:
	leaq	-1(%r9), %rcx
	movl	%r9d, %r8d
	andl	$3, %r8d
	cmpq	$3, %rcx
	jae	.LBB119_9
	xorl	%ecx, %ecx
	xorl	%r10d, %r10d
	jmp	.LBB119_12
.LBB119_9:
	andq	$-4, %r9
	leaq	348(%rdx), %r11
	xorl	%ecx, %ecx
	xorl	%r10d, %r10d
	.p2align	4
.LBB119_10:
	movl	-288(%r11), %ebx
	movl	-192(%r11), %r14d
	addq	%rcx, %rbx
	movl	-96(%r11), %r15d
	addq	%r14, %r15
	addq	%rbx, %r15
	movl	(%r11), %ecx
	addq	%r15, %rcx
	addq	$4, %r10
	addq	$384, %r11
	cmpq	%r10, %r9
	jne	.LBB119_10
	testq	%r8, %r8
	je	.LBB119_14
.LBB119_12:
	leaq	(%r10,%r10,2), %r9
	shlq	$5, %r9
	addq	%r9, %rdx
	addq	$60, %rdx
	shll	$5, %r8d
	leaq	(%r8,%r8,2), %r8
	xorl	%r9d, %r9d
	.p2align	4
.LBB119_13:
	movl	(%rdx,%r9), %r10d
	addq	%r10, %rcx
	addq	$96, %r9
	cmpq	%r9, %r8
	jne	.LBB119_13
.LBB119_14:
	movq	%rcx, (%rsi)
	movq	%rax, (%rdi)
	xorl	%eax, %eax
	xchgq	%rax, 8(%rdi)
	movl	$2, %eax
	popq	%rbx
	.cfi_def_cfa_offset 24
	popq	%r14
	.cfi_def_cfa_offset 16
	popq	%r15
	.cfi_def_cfa_offset 8
	.cfi_restore %rbx
	.cfi_restore %r14
	.cfi_restore %r15
	retq
.Lfunc_end119:
	.size	nm_worker_queue_len, .Lfunc_end119-nm_worker_queue_len
	.cfi_endproc
	.section	.text.nm_worker_remove,"ax",@progbits
	.globl	nm_worker_remove
	.p2align	4
	.type	nm_worker_remove,@function
nm_worker_remove:
	.cfi_startproc
	pushq	%r15
	.cfi_def_cfa_offset 16
	pushq	%r14
	.cfi_def_cfa_offset 24
	pushq	%r12
	.cfi_def_cfa_offset 32
	pushq	%rbx
	.cfi_def_cfa_offset 40
	pushq	%rax
	.cfi_def_cfa_offset 48
	.cfi_offset %rbx, -40
	.cfi_offset %r12, -32
	.cfi_offset %r14, -24
	.cfi_offset %r15, -16
	movl	$1, %ecx
	xchgq	%rcx, 8(%rdi)
	movl	$-22, %eax
	testq	%rcx, %rcx
	je	.LBB120_1
.LBB120_30:
	addq	$8, %rsp
	.cfi_def_cfa_offset 40
	popq	%rbx
	.cfi_def_cfa_offset 32
	popq	%r12
	.cfi_def_cfa_offset 24
	popq	%r14
	.cfi_def_cfa_offset 16
	popq	%r15
	.cfi_def_cfa_offset 8
	retq
.LBB120_1:
	.cfi_def_cfa_offset 48
	movq	(%rdi), %r15
	movq	$0, (%rdi)
	testq	%r15, %r15
	je	.LBB120_31
	cmpb	$1, (%r15)
	jne	.LBB120_32
	cmpq	$-3, %rsi
	jae	.LBB120_29
	cmpb	$1, 112(%r15)
	jne	.LBB120_5
.LBB120_27:
	movq	%r15, (%rdi)
	xorl	%eax, %eax
	xchgq	%rax, 8(%rdi)
	movl	$-13, %eax
	jmp	.LBB120_30
.LBB120_31:
	xorl	%eax, %eax
	xchgq	%rax, 8(%rdi)
	movl	$-1, %eax
	jmp	.LBB120_30
.LBB120_32:
	movq	%r15, (%rdi)
	xorl	%eax, %eax
	xchgq	%rax, 8(%rdi)
	movl	$-3, %eax
	jmp	.LBB120_30
.LBB120_29:
	movq	%r15, (%rdi)
	xorl	%eax, %eax
	xchgq	%rax, 8(%rdi)
	movl	$-4, %eax
	jmp	.LBB120_30
.LBB120_5:
	movq	88(%r15), %r9
	testq	%r9, %r9
	je	.LBB120_6
	movq	80(%r15), %rcx
	cmpq	$1, %r9
	jne	.LBB120_8
	movl	60(%rcx), %eax
	jmp	.LBB120_16
.LBB120_6:
	movq	%r9, %rax
	jmp	.LBB120_16
.LBB120_8:
	leaq	-1(%r9), %rax
	movl	%r9d, %r8d
	andl	$3, %r8d
	cmpq	$3, %rax
	jae	.LBB120_11
	xorl	%eax, %eax
	xorl	%r10d, %r10d
	jmp	.LBB120_14
.LBB120_11:
	andq	$-4, %r9
	leaq	348(%rcx), %r11
	xorl	%eax, %eax
	xorl	%r10d, %r10d
.LBB120_12:
	movl	-288(%r11), %ebx
	movl	-192(%r11), %r14d
	addq	%rax, %rbx
	movl	-96(%r11), %r12d
	addq	%r14, %r12
	addq	%rbx, %r12
	movl	(%r11), %eax
	addq	%r12, %rax
	addq	$4, %r10
	addq	$384, %r11
	cmpq	%r10, %r9
	jne	.LBB120_12
	testq	%r8, %r8
	je	.LBB120_16
.LBB120_14:
	leaq	(%r10,%r10,2), %r9
	shlq	$5, %r9
	addq	%r9, %rcx
	addq	$60, %rcx
	shll	$5, %r8d
	leaq	(%r8,%r8,2), %r8
	xorl	%r9d, %r9d
	.p2align	4
.LBB120_15:
	movl	(%rcx,%r9), %r10d
	addq	%r10, %rax
	addq	$96, %r9
	cmpq	%r9, %r8
	jne	.LBB120_15
.LBB120_16:
	movq	%rdi, %r12
	movl	8(%rdx), %ecx
	cmpq	%rcx, %rax
	jae	.LBB120_17
	movq	8(%r15), %rdi
	addq	$8, %rdi
	leaq	16(%r15), %rax
	movq	%rdx, %rbx
	movl	(%rdx), %r8d
	movq	%rsp, %rcx
	movq	%rsi, %rdx
	movq	%rax, %rsi
	movq	%rdx, %r14
	callq	"nm_tree::tree::Tree::delete_with_value"
	testb	%al, %al
	jne	.LBB120_19
.LBB120_28:
	movq	%r15, (%r12)
	xorl	%eax, %eax
	xchgq	%rax, 8(%r12)
	andb	$1, %dl
	movzbl	%dl, %eax
	jmp	.LBB120_30
.LBB120_17:
	leaq	8(%r15), %rdi
	callq	"nm_set::member::Member::remove_untidy::<#f118e792109c5fac>"
	jmp	.LBB120_20
.LBB120_19:
	leaq	8(%r15), %rdi
	movzbl	%dl, %ecx
	movq	%r14, %rsi
	movq	%rbx, %rdx
	callq	"nm_set::member::Member::remove_after::<#f118e792109c5fac>"
.LBB120_20:
	testb	%al, %al
	je	.LBB120_28
	movzbl	%dl, %eax
	leaq	.LJTI120_0(%rip), %rcx
	movslq	(%rcx,%rax,4), %rax
	addq	%rcx, %rax
	movq	%r12, %rdi
	jmpq	*%rax
.LBB120_22:
	movq	%r15, (%rdi)
	xorl	%eax, %eax
	xchgq	%rax, 8(%rdi)
	movl	$-9, %eax
	jmp	.LBB120_30
.LBB120_25:
	movq	%r15, (%rdi)
	xorl	%eax, %eax
	xchgq	%rax, 8(%rdi)
	movl	$-11, %eax
	jmp	.LBB120_30
.LBB120_23:
	movq	%r15, (%rdi)
	xorl	%eax, %eax
	xchgq	%rax, 8(%rdi)
	movl	$-10, %eax
	jmp	.LBB120_30
.LBB120_24:
	movq	%r15, (%rdi)
	xorl	%eax, %eax
	xchgq	%rax, 8(%rdi)
	movl	$-8, %eax
	jmp	.LBB120_30
.LBB120_26:
	movq	%r15, (%rdi)
	xorl	%eax, %eax
	xchgq	%rax, 8(%rdi)
	movl	$-12, %eax
	jmp	.LBB120_30
.Lfunc_end120:
	.size	nm_worker_remove, .Lfunc_end120-nm_worker_remove
	.cfi_endproc
	.section	.rodata.nm_worker_remove,"a",@progbits
	.p2align	2, 0x0
.LJTI120_0:
	.long	.LBB120_22-.LJTI120_0
	.long	.LBB120_23-.LJTI120_0
	.long	.LBB120_24-.LJTI120_0
	.long	.LBB120_25-.LJTI120_0
	.long	.LBB120_26-.LJTI120_0
	.long	.LBB120_27-.LJTI120_0
	.section	.rodata.cst16,"aM",@progbits,16
	.p2align	4, 0x0
.LCPI121_0:
	.long	4
	.long	0
	.long	0
	.long	0
	.section	.rodata.cst4,"aM",@progbits,4
	.p2align	2, 0x0
.LCPI121_1:
	.long	4
	.section	.text.nm_worker_resign,"ax",@progbits
	.globl	nm_worker_resign
	.p2align	4
	.type	nm_worker_resign,@function
nm_worker_resign:
	.cfi_startproc
	pushq	%rbp
	.cfi_def_cfa_offset 16
	pushq	%r15
	.cfi_def_cfa_offset 24
	pushq	%r14
	.cfi_def_cfa_offset 32
	pushq	%r13
	.cfi_def_cfa_offset 40
	pushq	%r12
	.cfi_def_cfa_offset 48
	pushq	%rbx
	.cfi_def_cfa_offset 56
	subq	$1768, %rsp
	.cfi_def_cfa_offset 1824
	.cfi_offset %rbx, -56
	.cfi_offset %r12, -48
	.cfi_offset %r13, -40
	.cfi_offset %r14, -32
	.cfi_offset %r15, -24
	.cfi_offset %rbp, -16
	xorps	%xmm0, %xmm0
	movaps	%xmm0, 720(%rsp)
	movq	$0, 736(%rsp)
	movaps	%xmm0, 880(%rsp)
	movq	$0, 896(%rsp)
	movaps	%xmm0, 1584(%rsp)
	movaps	%xmm0, 1600(%rsp)
	movaps	%xmm0, 1616(%rsp)
	movaps	%xmm0, 1632(%rsp)
	movaps	%xmm0, 1648(%rsp)
	movaps	%xmm0, 1664(%rsp)
	movaps	%xmm0, 1680(%rsp)
	movaps	%xmm0, 1696(%rsp)
	movaps	%xmm0, 1712(%rsp)
	movaps	%xmm0, 1728(%rsp)
	movaps	%xmm0, 1744(%rsp)
	movq	$0, 1760(%rsp)
	movl	$0, 27(%rsp)
	movl	$0, 24(%rsp)
	movaps	%xmm0, 688(%rsp)
	movq	$0, 704(%rsp)
	movaps	%xmm0, 1344(%rsp)
	movaps	%xmm0, 1360(%rsp)
	movaps	%xmm0, 1376(%rsp)
	movaps	%xmm0, 1392(%rsp)
	movaps	%xmm0, 1408(%rsp)
	movaps	%xmm0, 1424(%rsp)
	movaps	%xmm0, 1440(%rsp)
	movaps	%xmm0, 1456(%rsp)
	movaps	%xmm0, 1472(%rsp)
	movaps	%xmm0, 1488(%rsp)
	movaps	%xmm0, 1184(%rsp)
	movaps	%xmm0, 1200(%rsp)
	movaps	%xmm0, 1216(%rsp)
	movaps	%xmm0, 1232(%rsp)
	movaps	%xmm0, 1248(%rsp)
	movaps	%xmm0, 1264(%rsp)
	movaps	%xmm0, 1280(%rsp)
	movaps	%xmm0, 1296(%rsp)
	movaps	%xmm0, 1312(%rsp)
	movaps	%xmm0, 1328(%rsp)
	movaps	%xmm0, 656(%rsp)
	movq	$0, 672(%rsp)
	movl	$1, %ecx
	xchgq	%rcx, 8(%rdi)
	movl	$-22, %eax
	testq	%rcx, %rcx
	jne	.LBB121_69
	movq	(%rdi), %r12
	movq	$0, (%rdi)
	testq	%r12, %r12
	je	.LBB121_45
	movq	%rdi, 1032(%rsp)
	movl	%esi, %ebx
	movzbl	(%r12), %r14d
	movq	8(%r12), %r15
	movups	16(%r12), %xmm0
	movaps	%xmm0, 160(%rsp)
	movups	32(%r12), %xmm0
	movaps	%xmm0, 176(%rsp)
	movl	16(%r12), %ebp
	movups	24(%r12), %xmm0
	movaps	%xmm0, 288(%rsp)
	movups	40(%r12), %xmm0
	movaps	%xmm0, 144(%rsp)
	movq	56(%r12), %rax
	movq	%rax, 32(%rsp)
	movq	64(%r12), %rax
	movq	%rax, 40(%rsp)
	movq	72(%r12), %rax
	movq	%rax, 112(%rsp)
	movq	80(%r12), %rax
	movq	%rax, 8(%rsp)
	movq	88(%r12), %rax
	movq	%rax, 16(%rsp)
	movq	96(%r12), %rax
	movq	%rax, (%rsp)
	movq	104(%r12), %rax
	movq	%rax, 104(%rsp)
	movq	112(%r12), %rax
	movq	%rax, 48(%rsp)
	movq	120(%r12), %rax
	movq	%rax, 72(%rsp)
	movq	128(%r12), %rax
	movq	%rax, 64(%rsp)
	movq	136(%r12), %rax
	movq	%rax, 56(%rsp)
	movq	144(%r12), %rax
	movq	%rax, 192(%rsp)
	movq	152(%r12), %r13
	movq	160(%r12), %rax
	movq	%rax, 1024(%rsp)
	movq	184(%r12), %rax
	movq	%rax, 896(%rsp)
	movups	168(%r12), %xmm0
	movaps	%xmm0, 880(%rsp)
	movq	$5, (%r12)
	leaq	8(%r12), %rdi
	leaq	1584(%rsp), %rsi
	movl	$184, %edx
	callq	memcpy@PLT
	xorps	%xmm0, %xmm0
	movaps	%xmm0, 752(%rsp)
	movq	$0, 768(%rsp)
	movaps	%xmm0, 1536(%rsp)
	movq	$0, 1552(%rsp)
	movaps	%xmm0, 1504(%rsp)
	movq	$0, 1520(%rsp)
	cmpq	$1, %r14
	movq	%r15, 616(%rsp)
	jne	.LBB121_41
	movaps	%xmm0, 912(%rsp)
	movaps	%xmm0, 928(%rsp)
	movaps	%xmm0, 944(%rsp)
	movaps	%xmm0, 816(%rsp)
	movaps	%xmm0, 848(%rsp)
	movups	%xmm0, 863(%rsp)
	movaps	%xmm0, 416(%rsp)
	movaps	%xmm0, 432(%rsp)
	movaps	%xmm0, 448(%rsp)
	movaps	%xmm0, 832(%rsp)
	movaps	%xmm0, 784(%rsp)
	movups	%xmm0, 799(%rsp)
	movl	%ebx, %esi
	movb	$2, %bl
	cmpq	%rsi, 176(%r15)
	movq	16(%rsp), %r14
	movdqa	144(%rsp), %xmm0
	jbe	.LBB121_14
	.p2align	4
.LBB121_4:
	movq	(%r15), %rax
	movabsq	$9223372036854775806, %rcx
	cmpq	%rcx, %rax
	ja	.LBB121_5
	leaq	1(%rax), %rcx
	lock		cmpxchgq	%rcx, (%r15)
	jne	.LBB121_4
	pxor	%xmm0, %xmm0
	movdqa	%xmm0, 464(%rsp)
	movdqa	%xmm0, 480(%rsp)
	movdqa	%xmm0, 496(%rsp)
	movdqa	%xmm0, 352(%rsp)
	movdqa	%xmm0, 384(%rsp)
	movdqu	%xmm0, 399(%rsp)
	movb	$2, %bl
	cmpq	%rsi, 120(%r15)
	jbe	.LBB121_13
	movq	104(%r15), %rax
	movq	(%rax), %rax
	movdqa	%xmm0, 304(%rsp)
	movdqa	%xmm0, 320(%rsp)
	movdqa	%xmm0, 336(%rsp)
	movdqa	%xmm0, 512(%rsp)
	movdqa	%xmm0, 256(%rsp)
	movdqu	%xmm0, 271(%rsp)
	movq	104(%r15), %rax
	movq	(%rax,%rsi,8), %rax
	cmpq	$-30, %rax
	setb	%cl
	testb	%al, %cl
	je	.LBB121_12
	movq	%rax, %rdi
	andq	$-2, %rdi
	movdqa	%xmm0, 208(%rsp)
	movdqa	%xmm0, 224(%rsp)
	movdqa	%xmm0, 240(%rsp)
	movdqa	%xmm0, 624(%rsp)
	movdqa	%xmm0, 544(%rsp)
	movdqu	%xmm0, 559(%rsp)
	movdqa	%xmm0, 1040(%rsp)
	movdqa	%xmm0, 1056(%rsp)
	movdqa	%xmm0, 1072(%rsp)
	movdqa	%xmm0, 1088(%rsp)
	movdqa	%xmm0, 1104(%rsp)
	movdqa	%xmm0, 1120(%rsp)
	movdqa	%xmm0, 1136(%rsp)
	movdqa	%xmm0, 1152(%rsp)
	movq	$0, 1168(%rsp)
	leaq	2(%rdi), %rcx
	movq	104(%r15), %rdx
	lock		cmpxchgq	%rcx, (%rdx,%rsi,8)
	jne	.LBB121_12
	movq	%rdi, 1016(%rsp)
	movq	112(%r15), %rax
	movq	%rsi, 592(%rsp)
	movq	%rsi, %rcx
	shlq	$4, %rcx
	leaq	(%rcx,%rcx,8), %rbx
	movzbl	(%rax,%rbx), %ecx
	movb	%cl, 128(%rsp)
	leaq	(%rax,%rbx), %rdi
	addq	$8, %rdi
	movsd	8(%rax,%rbx), %xmm0
	movaps	%xmm0, 576(%rsp)
	movq	16(%rax,%rbx), %rcx
	movq	%rcx, 608(%rsp)
	movups	56(%rax,%rbx), %xmm0
	movaps	%xmm0, 240(%rsp)
	movups	40(%rax,%rbx), %xmm0
	movaps	%xmm0, 224(%rsp)
	movups	24(%rax,%rbx), %xmm0
	movaps	%xmm0, 208(%rsp)
	movq	72(%rax,%rbx), %rcx
	movq	%rcx, 88(%rsp)
	movups	80(%rax,%rbx), %xmm0
	movaps	%xmm0, 624(%rsp)
	movq	96(%rax,%rbx), %rcx
	movq	%rcx, 600(%rsp)
	movzbl	104(%rax,%rbx), %r14d
	movups	120(%rax,%rbx), %xmm0
	movups	%xmm0, 559(%rsp)
	movups	105(%rax,%rbx), %xmm0
	movaps	%xmm0, 544(%rsp)
	movq	136(%rax,%rbx), %rcx
	movq	%rcx, 96(%rsp)
	movq	$0, (%rax,%rbx)
	leaq	1040(%rsp), %rsi
	movl	$136, %edx
	callq	memcpy@PLT
	cmpb	$1, 128(%rsp)
	jne	.LBB121_11
	movzbl	%r14b, %eax
	movaps	208(%rsp), %xmm0
	movaps	224(%rsp), %xmm1
	movaps	240(%rsp), %xmm2
	movaps	%xmm2, 336(%rsp)
	movaps	%xmm1, 320(%rsp)
	movaps	%xmm0, 304(%rsp)
	movaps	624(%rsp), %xmm3
	movaps	%xmm3, 512(%rsp)
	movaps	544(%rsp), %xmm3
	movaps	%xmm3, 256(%rsp)
	movdqu	559(%rsp), %xmm3
	movdqu	%xmm3, 271(%rsp)
	movaps	%xmm0, 464(%rsp)
	movaps	%xmm1, 480(%rsp)
	movaps	%xmm2, 496(%rsp)
	movaps	512(%rsp), %xmm0
	movaps	%xmm0, 352(%rsp)
	movups	271(%rsp), %xmm0
	movups	%xmm0, 399(%rsp)
	movaps	256(%rsp), %xmm0
	movaps	%xmm0, 384(%rsp)
	movaps	464(%rsp), %xmm0
	movaps	480(%rsp), %xmm1
	movaps	496(%rsp), %xmm2
	movaps	%xmm2, 448(%rsp)
	movaps	%xmm1, 432(%rsp)
	movaps	%xmm0, 416(%rsp)
	movaps	352(%rsp), %xmm0
	movaps	%xmm0, 832(%rsp)
	movups	399(%rsp), %xmm0
	movups	%xmm0, 799(%rsp)
	movaps	384(%rsp), %xmm0
	movaps	%xmm0, 784(%rsp)
	movaps	416(%rsp), %xmm0
	movaps	432(%rsp), %xmm1
	movaps	448(%rsp), %xmm2
	movaps	%xmm2, 944(%rsp)
	movaps	%xmm1, 928(%rsp)
	movaps	%xmm0, 912(%rsp)
	movaps	832(%rsp), %xmm0
	movaps	%xmm0, 816(%rsp)
	movups	799(%rsp), %xmm0
	movups	%xmm0, 863(%rsp)
	movaps	784(%rsp), %xmm0
	movaps	%xmm0, 848(%rsp)
	xorps	%xmm0, %xmm0
	movaps	%xmm0, 416(%rsp)
	movaps	%xmm0, 432(%rsp)
	movaps	%xmm0, 448(%rsp)
	movaps	%xmm0, 960(%rsp)
	movaps	%xmm0, 624(%rsp)
	movups	%xmm0, 639(%rsp)
	movaps	%xmm0, 304(%rsp)
	movaps	%xmm0, 320(%rsp)
	movaps	%xmm0, 336(%rsp)
	movaps	%xmm0, 976(%rsp)
	movaps	%xmm0, 384(%rsp)
	movups	%xmm0, 399(%rsp)
	movaps	%xmm0, 464(%rsp)
	movaps	%xmm0, 480(%rsp)
	movaps	%xmm0, 496(%rsp)
	movaps	%xmm0, 1568(%rsp)
	movaps	%xmm0, 784(%rsp)
	movups	%xmm0, 799(%rsp)
	movaps	%xmm0, 208(%rsp)
	movaps	%xmm0, 224(%rsp)
	movaps	%xmm0, 240(%rsp)
	movaps	%xmm0, 992(%rsp)
	movaps	%xmm0, 256(%rsp)
	movups	%xmm0, 271(%rsp)
	testl	%eax, %eax
	movq	(%rsp), %rcx
	movq	8(%rsp), %rsi
	je	.LBB121_18
	cmpl	$1, %eax
	jne	.LBB121_30
	xorl	%ebp, %ebp
	jmp	.LBB121_31
.LBB121_45:
	xorl	%eax, %eax
	xchgq	%rax, 8(%rdi)
	movl	$-1, %eax
	jmp	.LBB121_69
.LBB121_41:
	movq	896(%rsp), %rax
	movq	%rax, 736(%rsp)
	movaps	880(%rsp), %xmm0
	movaps	%xmm0, 720(%rsp)
	pshufd	$238, 144(%rsp), %xmm3
	movl	$7, %eax
	movq	%rax, 144(%rsp)
	movb	$5, 288(%rsp)
	movq	%r13, 128(%rsp)
	movq	40(%rsp), %rbp
	movq	(%rsp), %r9
	movq	32(%rsp), %rax
	movq	8(%rsp), %rbx
	movq	112(%rsp), %r8
	movq	16(%rsp), %rdi
	movaps	176(%rsp), %xmm1
	movaps	160(%rsp), %xmm2
	jmp	.LBB121_44
.LBB121_5:
	movb	$3, %bl
	jmp	.LBB121_14
.LBB121_12:
	movb	$3, %bl
.LBB121_13:
	movq	%r15, %rdi
	callq	"std_alloc::arc::Arc::drop::<#ee99c0b4357605a3>"
	movdqa	144(%rsp), %xmm0
.LBB121_14:
	pshufd	$238, %xmm0, %xmm3
	xorl	%edi, %edi
	xorl	%eax, %eax
	movl	%ebx, %ebp
.LBB121_38:
	movzbl	%bpl, %ecx
	shll	$3, %ecx
	movabsq	$60532920851, %rbx
	shrq	%cl, %rbx
	movq	1520(%rsp), %rcx
	movq	%rcx, 768(%rsp)
	movaps	1504(%rsp), %xmm0
	movaps	%xmm0, 752(%rsp)
	testb	%al, %al
	je	.LBB121_40
	movdqa	%xmm3, 128(%rsp)
	callq	"std_alloc::arc::Arc::drop::<#58f27b66bb4955cb>"
	movdqa	128(%rsp), %xmm3
.LBB121_40:
	movq	8(%rsp), %rcx
	movq	%r14, %r11
	movq	32(%rsp), %rdx
	movq	40(%rsp), %rbp
	movq	112(%rsp), %rax
	movq	(%rsp), %r14
	movq	104(%rsp), %r10
	movq	48(%rsp), %r9
	movq	72(%rsp), %rsi
	movq	%rsi, 48(%rsp)
	movq	64(%rsp), %rsi
	movq	56(%rsp), %rdi
	movq	192(%rsp), %r8
	movaps	160(%rsp), %xmm2
	movaps	176(%rsp), %xmm1
.LBB121_43:
	movq	%r8, 192(%rsp)
	movq	%rdi, 56(%rsp)
	movq	%rsi, 64(%rsp)
	movq	48(%rsp), %rsi
	movq	%rsi, 72(%rsp)
	movq	%r9, 48(%rsp)
	movq	%r10, 104(%rsp)
	movq	%r14, %r9
	movq	%rax, %r8
	movq	%r11, %rdi
	movl	%r13d, %r13d
	movq	%r13, 128(%rsp)
	movq	768(%rsp), %rax
	movq	%rax, 736(%rsp)
	movaps	752(%rsp), %xmm0
	movaps	%xmm0, 720(%rsp)
	movzbl	(%r12), %eax
	movb	%al, 288(%rsp)
	addb	$-2, %bl
	movzbl	%bl, %eax
	movq	%rax, 144(%rsp)
	movl	$1, %r14d
	movq	%rdx, %rax
	movq	%rcx, %rbx
.LBB121_44:
	movzbl	8(%r12), %r11d
	movl	12(%r12), %ecx
	movl	%ecx, 27(%rsp)
	movl	9(%r12), %ecx
	movl	%ecx, 24(%rsp)
	leaq	80(%r12), %rcx
	movq	16(%r12), %r10
	movq	24(%r12), %rdx
	movq	%rdx, 32(%rsp)
	movq	32(%r12), %rdx
	movq	%rdx, 112(%rsp)
	movq	40(%r12), %rdx
	movq	%rdx, 576(%rsp)
	movq	48(%r12), %r13
	movq	56(%r12), %rdx
	movq	%rdx, 88(%rsp)
	movq	64(%r12), %rsi
	movq	72(%r12), %rdx
	movq	%rdx, 96(%rsp)
	movq	16(%rcx), %rdx
	movq	%rdx, 704(%rsp)
	movups	(%rcx), %xmm0
	movaps	%xmm0, 688(%rsp)
	movq	104(%r12), %rcx
	movq	%rcx, (%rsp)
	movq	112(%r12), %rdx
	movq	120(%r12), %r15
	movq	128(%r12), %rcx
	movq	%rcx, 16(%rsp)
	movq	136(%r12), %rcx
	movq	%rcx, 160(%rsp)
	movq	144(%r12), %rcx
	movq	%rcx, 40(%rsp)
	movq	152(%r12), %rcx
	movq	%rcx, 176(%rsp)
	movq	160(%r12), %rcx
	movq	%rcx, 8(%rsp)
	movq	%r14, (%r12)
	movq	616(%rsp), %rcx
	movq	%rcx, 8(%r12)
	movups	%xmm2, 16(%r12)
	movups	%xmm1, 32(%r12)
	movd	%xmm3, 48(%r12)
	pextrd	$1, %xmm3, 52(%r12)
	movq	%rax, 56(%r12)
	movq	%rbp, 64(%r12)
	movq	%r8, 72(%r12)
	movq	%rbx, 80(%r12)
	movq	%rdi, 88(%r12)
	movq	%r9, 96(%r12)
	movq	104(%rsp), %rax
	movq	%rax, 104(%r12)
	movq	48(%rsp), %rax
	movq	%rax, 112(%r12)
	movq	72(%rsp), %rax
	movq	%rax, 120(%r12)
	movq	64(%rsp), %rax
	movq	%rax, 128(%r12)
	movq	56(%rsp), %rax
	movq	%rax, 136(%r12)
	movq	192(%rsp), %rax
	movq	%rax, 144(%r12)
	movq	128(%rsp), %rax
	movq	%rax, 152(%r12)
	movq	1024(%rsp), %rcx
	movq	%rcx, 160(%r12)
	leaq	168(%r12), %r14
	movq	736(%rsp), %rcx
	movq	%rcx, 16(%r14)
	movaps	720(%rsp), %xmm0
	movups	%xmm0, (%r14)
	movzbl	288(%rsp), %eax
	leaq	.LJTI121_0(%rip), %rcx
	movslq	(%rcx,%rax,4), %rax
	addq	%rcx, %rax
	jmpq	*%rax
.LBB121_46:
	movq	%r13, %rdi
	movq	16(%rsp), %rbp
	movq	%rdx, %r13
	testb	%r11b, %r11b
	je	.LBB121_47
	movq	%rsi, %rbx
	callq	nm_host_dealloc@PLT
	movq	%rbx, %rdi
	callq	nm_host_dealloc@PLT
	jmp	.LBB121_49
.LBB121_61:
	movb	%r11b, 1184(%rsp)
	movl	24(%rsp), %eax
	movl	%eax, 1185(%rsp)
	movl	27(%rsp), %eax
	movl	%eax, 1188(%rsp)
	movq	%r10, 1192(%rsp)
	movq	32(%rsp), %rax
	movq	%rax, 1200(%rsp)
	movq	112(%rsp), %rax
	movq	%rax, 1208(%rsp)
	movq	576(%rsp), %rax
	movq	%rax, 1216(%rsp)
	movq	%r13, 1224(%rsp)
	movq	88(%rsp), %rax
	movq	%rax, 1232(%rsp)
	movq	%rsi, 1240(%rsp)
	movq	96(%rsp), %rax
	movq	%rax, 1248(%rsp)
	movq	704(%rsp), %rax
	movq	%rax, 1272(%rsp)
	movaps	688(%rsp), %xmm0
	movups	%xmm0, 1256(%rsp)
	movq	(%rsp), %rax
	movq	%rax, 1280(%rsp)
	movq	%rdx, 1288(%rsp)
	movq	%r15, 1296(%rsp)
	movq	16(%rsp), %rax
	movq	%rax, 1304(%rsp)
	movq	160(%rsp), %rax
	movq	%rax, 1312(%rsp)
	movq	40(%rsp), %rax
	movq	%rax, 1320(%rsp)
	movq	176(%rsp), %rax
	movq	%rax, 1328(%rsp)
	movq	8(%rsp), %rax
	movq	%rax, 1336(%rsp)
	leaq	1184(%rsp), %rdi
	callq	"nm_set::member::Member::drop::<#801ed3b42cb27f26>"
	jmp	.LBB121_68
.LBB121_54:
	movb	%r11b, 1344(%rsp)
	movl	24(%rsp), %eax
	movl	%eax, 1345(%rsp)
	movl	27(%rsp), %eax
	movl	%eax, 1348(%rsp)
	movq	%r10, 1352(%rsp)
	movq	32(%rsp), %rax
	movq	%rax, 1360(%rsp)
	movq	112(%rsp), %rax
	movq	%rax, 1368(%rsp)
	movq	576(%rsp), %rax
	movq	%rax, 1376(%rsp)
	movq	%r13, 1384(%rsp)
	movq	88(%rsp), %rax
	movq	%rax, 1392(%rsp)
	movq	%rsi, 1400(%rsp)
	movq	96(%rsp), %rax
	movq	%rax, 1408(%rsp)
	movq	704(%rsp), %rax
	movq	%rax, 1432(%rsp)
	movaps	688(%rsp), %xmm0
	movups	%xmm0, 1416(%rsp)
	movq	(%rsp), %rax
	movq	%rax, 1440(%rsp)
	movq	%rdx, 1448(%rsp)
	movq	%r15, 1456(%rsp)
	movq	16(%rsp), %rax
	movq	%rax, 1464(%rsp)
	movq	160(%rsp), %rax
	movq	%rax, 1472(%rsp)
	movq	40(%rsp), %rax
	movq	%rax, 1480(%rsp)
	movq	176(%rsp), %rax
	movq	%rax, 1488(%rsp)
	movq	8(%rsp), %rax
	movq	%rax, 1496(%rsp)
	leaq	1344(%rsp), %rdi
	callq	"nm_set::member::Member::drop::<#1bca8a4dd8d4d294>"
	jmp	.LBB121_68
.LBB121_55:
	movq	%r13, %rdi
	movq	16(%rsp), %rbp
	movq	%rdx, %r13
	testb	%r11b, %r11b
	je	.LBB121_56
	movq	%rsi, %rbx
	callq	nm_host_dealloc@PLT
	movq	%rbx, %rdi
	callq	nm_host_dealloc@PLT
	jmp	.LBB121_58
.LBB121_62:
	movq	%rsi, %rbp
	movq	8(%rsp), %r14
	movq	40(%rsp), %rbx
	movb	%r11b, 656(%rsp)
	movl	24(%rsp), %eax
	movl	27(%rsp), %ecx
	movl	%eax, 657(%rsp)
	movl	%ecx, 660(%rsp)
	movq	%r10, 664(%rsp)
	movq	32(%rsp), %rax
	movq	%rax, 672(%rsp)
	leaq	656(%rsp), %rdi
	callq	"std_alloc::vec::Vec::drop::<#032578a7531b7385>"
	testq	%r13, %r13
	je	.LBB121_64
	movq	112(%rsp), %rdi
	callq	nm_host_dealloc@PLT
.LBB121_64:
	cmpb	$1, %bpl
	movq	(%rsp), %rdi
	jne	.LBB121_68
	callq	nm_host_dealloc@PLT
	movq	%r15, %rdi
	callq	nm_host_dealloc@PLT
	testq	%r14, %r14
	je	.LBB121_68
	movq	%rbx, %rdi
	jmp	.LBB121_67
.LBB121_56:
	movq	%r10, %rdi
	callq	"std_alloc::arc::Arc::drop::<#58f27b66bb4955cb>"
.LBB121_58:
	testq	%r15, %r15
	je	.LBB121_52
	leaq	128(%r13), %r14
	.p2align	4
.LBB121_60:
	movq	(%r14), %rbx
	movq	-48(%r14), %rax
	movq	%rax, 1056(%rsp)
	movups	-64(%r14), %xmm0
	movaps	%xmm0, 1040(%rsp)
	leaq	1040(%rsp), %rdi
	callq	"std_alloc::vec::Vec::drop::<#032578a7531b7385>"
	movq	%rbx, %rdi
	callq	nm_host_dealloc@PLT
	addq	$136, %r14
	decq	%r15
	jne	.LBB121_60
	jmp	.LBB121_52
.LBB121_47:
	movq	%r10, %rdi
	callq	"std_alloc::arc::Arc::drop::<#58f27b66bb4955cb>"
.LBB121_49:
	testq	%r15, %r15
	je	.LBB121_52
	leaq	128(%r13), %r14
	.p2align	4
.LBB121_51:
	movq	(%r14), %rbx
	movq	-48(%r14), %rax
	movq	%rax, 1056(%rsp)
	movups	-64(%r14), %xmm0
	movaps	%xmm0, 1040(%rsp)
	leaq	1040(%rsp), %rdi
	callq	"std_alloc::vec::Vec::drop::<#032578a7531b7385>"
	movq	%rbx, %rdi
	callq	nm_host_dealloc@PLT
	addq	$136, %r14
	decq	%r15
	jne	.LBB121_51
.LBB121_52:
	testq	%rbp, %rbp
	je	.LBB121_68
	movq	%r13, %rdi
.LBB121_67:
	callq	nm_host_dealloc@PLT
.LBB121_68:
	movq	1032(%rsp), %rcx
	movq	%r12, (%rcx)
	xorl	%eax, %eax
	xchgq	%rax, 8(%rcx)
	leaq	.Lswitch.table.nm_worker_resign(%rip), %rax
	movq	144(%rsp), %rcx
	movl	(%rax,%rcx,4), %eax
.LBB121_69:
	addq	$1768, %rsp
	.cfi_def_cfa_offset 56
	popq	%rbx
	.cfi_def_cfa_offset 48
	popq	%r12
	.cfi_def_cfa_offset 40
	popq	%r13
	.cfi_def_cfa_offset 32
	popq	%r14
	.cfi_def_cfa_offset 24
	popq	%r15
	.cfi_def_cfa_offset 16
	popq	%rbp
	.cfi_def_cfa_offset 8
	retq
.LBB121_18:
	.cfi_def_cfa_offset 1824
	movaps	%xmm0, 1040(%rsp)
	movaps	%xmm0, 1056(%rsp)
	movaps	%xmm0, 1072(%rsp)
	movaps	%xmm0, 832(%rsp)
	movaps	%xmm0, 544(%rsp)
	movups	%xmm0, 559(%rsp)
	movl	76(%r15), %r14d
	testq	%r14, %r14
	je	.LBB121_19
	movq	%r14, %rax
	shlq	$5, %rax
	leaq	(%rax,%rax,2), %rdi
	movl	$8, %esi
	callq	nm_host_alloc@PLT
	testb	$1, %al
	je	.LBB121_32
	movq	(%rsp), %rcx
	movq	8(%rsp), %rsi
	jmp	.LBB121_22
.LBB121_30:
	movb	$1, %bpl
.LBB121_31:
	movl	%r14d, 288(%rsp)
	movaps	912(%rsp), %xmm0
	movaps	928(%rsp), %xmm1
	movaps	944(%rsp), %xmm2
	movaps	%xmm2, 336(%rsp)
	movaps	%xmm1, 320(%rsp)
	movaps	%xmm0, 304(%rsp)
	movaps	816(%rsp), %xmm0
	movaps	%xmm0, 976(%rsp)
	movaps	848(%rsp), %xmm0
	movaps	%xmm0, 384(%rsp)
	movups	863(%rsp), %xmm0
	movups	%xmm0, 399(%rsp)
	pshufd	$238, 144(%rsp), %xmm0
	movdqa	%xmm0, 128(%rsp)
.LBB121_35:
	movaps	304(%rsp), %xmm0
	movaps	320(%rsp), %xmm1
	movaps	336(%rsp), %xmm2
	movaps	%xmm2, 448(%rsp)
	movaps	%xmm1, 432(%rsp)
	movaps	%xmm0, 416(%rsp)
	movaps	976(%rsp), %xmm0
	movaps	%xmm0, 960(%rsp)
	movaps	384(%rsp), %xmm0
	movaps	%xmm0, 624(%rsp)
	movups	399(%rsp), %xmm0
	movups	%xmm0, 639(%rsp)
	movaps	416(%rsp), %xmm0
	movaps	432(%rsp), %xmm1
	movaps	448(%rsp), %xmm2
	movaps	%xmm2, 1072(%rsp)
	movaps	%xmm1, 1056(%rsp)
	movaps	%xmm0, 1040(%rsp)
	movaps	960(%rsp), %xmm0
	movaps	%xmm0, 544(%rsp)
	movups	639(%rsp), %xmm0
	movups	%xmm0, 319(%rsp)
	movaps	624(%rsp), %xmm0
	movaps	%xmm0, 304(%rsp)
	movq	8(%r15), %rax
	xorps	%xmm0, %xmm0
	movaps	%xmm0, 208(%rsp)
	movaps	%xmm0, 224(%rsp)
	movaps	%xmm0, 240(%rsp)
	movaps	%xmm0, 256(%rsp)
	movaps	%xmm0, 464(%rsp)
	movups	%xmm0, 479(%rsp)
	movq	(%rax), %rax
	movaps	1040(%rsp), %xmm0
	movaps	1056(%rsp), %xmm1
	movaps	1072(%rsp), %xmm2
	movaps	%xmm2, 240(%rsp)
	movaps	%xmm1, 224(%rsp)
	movaps	%xmm0, 208(%rsp)
	movaps	544(%rsp), %xmm0
	movaps	%xmm0, 256(%rsp)
	movaps	304(%rsp), %xmm0
	movaps	%xmm0, 464(%rsp)
	movups	319(%rsp), %xmm0
	movups	%xmm0, 479(%rsp)
	movq	112(%r15), %r14
	movzbl	(%r14,%rbx), %r15d
	leaq	(%r14,%rbx), %rsi
	addq	$8, %rsi
	leaq	1040(%rsp), %rdi
	movl	$136, %edx
	callq	memcpy@PLT
	movq	$1, (%r14,%rbx)
	movaps	576(%rsp), %xmm0
	movlps	%xmm0, 8(%r14,%rbx)
	movq	608(%rsp), %rax
	movq	%rax, 16(%r14,%rbx)
	movaps	208(%rsp), %xmm0
	movaps	224(%rsp), %xmm1
	movaps	240(%rsp), %xmm2
	movups	%xmm0, 24(%r14,%rbx)
	movups	%xmm1, 40(%r14,%rbx)
	movups	%xmm2, 56(%r14,%rbx)
	movq	88(%rsp), %rax
	movq	%rax, 72(%r14,%rbx)
	movaps	256(%rsp), %xmm0
	movups	%xmm0, 80(%r14,%rbx)
	movq	600(%rsp), %rax
	movq	%rax, 96(%r14,%rbx)
	movl	288(%rsp), %eax
	movb	%al, 104(%r14,%rbx)
	movups	479(%rsp), %xmm0
	movups	%xmm0, 120(%r14,%rbx)
	movdqa	464(%rsp), %xmm0
	movdqu	%xmm0, 105(%r14,%rbx)
	movq	96(%rsp), %rax
	movq	%rax, 136(%r14,%rbx)
	cmpb	$1, %r15b
	jne	.LBB121_37
	leaq	1040(%rsp), %rdi
	callq	"nm_set::nm_tree++worker++Worker+Destruct::drop"
.LBB121_37:
	movq	1016(%rsp), %rdx
	addq	$3, %rdx
	movq	616(%rsp), %rdi
	movq	104(%rdi), %rax
	movq	592(%rsp), %rcx
	xchgq	%rdx, (%rax,%rcx,8)
	movb	$1, %al
	movq	16(%rsp), %r14
	movdqa	128(%rsp), %xmm3
	jmp	.LBB121_38
.LBB121_19:
	leaq	80(%rsp), %rdx
.LBB121_22:
	movq	%rsi, 512(%rsp)
	movq	16(%rsp), %rax
	movq	%rax, 520(%rsp)
	movq	%rcx, 528(%rsp)
	movzbl	48(%rsp), %eax
	movq	%rax, 104(%rsp)
	movq	%rdx, 352(%rsp)
	movq	$0, 360(%rsp)
	movq	%r14, 368(%rsp)
	leaq	352(%rsp), %r14
	leaq	512(%rsp), %rsi
	movq	%r14, %rdi
	callq	"nm_tree::resigning::take_over"
	movq	88(%rsp), %rax
	movq	%rax, 512(%rsp)
	movaps	816(%rsp), %xmm0
	movups	%xmm0, 520(%rsp)
	movq	8(%r15), %rax
	movq	(%rax), %rax
	movq	8(%r15), %rax
	movq	(%rax), %rax
	leaq	512(%rsp), %rsi
	movq	%r14, %rdi
	callq	"nm_tree::resigning::take_over"
	movq	360(%rsp), %rdx
	testq	%rdx, %rdx
	movq	%rdx, 8(%rsp)
	je	.LBB121_23
	movq	352(%rsp), %r14
	xorl	%ecx, %ecx
	movq	%r14, %rax
.LBB121_25:
	cmpl	%ebp, (%rax)
	jae	.LBB121_26
	addq	$96, %rax
	incq	%rcx
	cmpq	%rcx, %rdx
	jne	.LBB121_25
	movq	%rdx, (%rsp)
	jmp	.LBB121_29
.LBB121_32:
	movaps	912(%rsp), %xmm0
	movaps	928(%rsp), %xmm1
	movaps	944(%rsp), %xmm2
	movaps	%xmm2, 240(%rsp)
	movaps	%xmm1, 224(%rsp)
	movaps	%xmm0, 208(%rsp)
	movaps	816(%rsp), %xmm0
	movaps	%xmm0, 992(%rsp)
	movaps	848(%rsp), %xmm0
	movaps	%xmm0, 256(%rsp)
	movups	863(%rsp), %xmm0
	movups	%xmm0, 271(%rsp)
	movd	.LCPI121_1(%rip), %xmm4
	movdqa	160(%rsp), %xmm3
	punpcklqdq	%xmm3, %xmm4
	movdqa	176(%rsp), %xmm0
	movdqa	%xmm0, %xmm5
	palignr	$8, %xmm3, %xmm5
	pshufd	$238, 144(%rsp), %xmm2
	movdqa	%xmm2, 128(%rsp)
	movb	$4, %bpl
	xorl	%eax, %eax
	movdqa	%xmm0, 144(%rsp)
	movq	112(%rsp), %r14
	movq	192(%rsp), %rcx
	movq	48(%rsp), %rdx
	jmp	.LBB121_33
.LBB121_23:
	movq	352(%rsp), %r14
	movq	$0, (%rsp)
	jmp	.LBB121_29
.LBB121_26:
	movq	%rcx, (%rsp)
.LBB121_29:
	movsd	32(%rsp), %xmm0
	movaps	%xmm0, 128(%rsp)
	movq	96(%rsp), %rdi
	callq	nm_host_dealloc@PLT
	movq	368(%rsp), %rax
	movq	%rax, 16(%rsp)
	movaps	1040(%rsp), %xmm0
	movaps	1056(%rsp), %xmm1
	movdqa	1072(%rsp), %xmm2
	movaps	%xmm0, 208(%rsp)
	movaps	%xmm1, 224(%rsp)
	movdqa	%xmm2, 240(%rsp)
	movaps	832(%rsp), %xmm0
	movaps	%xmm0, 992(%rsp)
	movaps	544(%rsp), %xmm0
	movaps	%xmm0, 256(%rsp)
	movdqu	559(%rsp), %xmm0
	movdqu	%xmm0, 271(%rsp)
	pxor	%xmm0, %xmm0
	movdqa	%xmm0, 576(%rsp)
	movb	$1, %al
	movq	$0, 608(%rsp)
	movq	$0, 88(%rsp)
	movq	$0, 600(%rsp)
	movq	40(%rsp), %rcx
	movq	%rcx, 32(%rsp)
	movq	112(%rsp), %rcx
	movq	%rcx, 40(%rsp)
	movq	72(%rsp), %rdx
	movq	64(%rsp), %rcx
	movq	%rcx, 72(%rsp)
	movq	56(%rsp), %rcx
	movq	%rcx, 64(%rsp)
	movq	192(%rsp), %rcx
	movq	%rcx, 56(%rsp)
	xorl	%ecx, %ecx
	movq	$0, 96(%rsp)
	movdqa	160(%rsp), %xmm4
	movdqa	176(%rsp), %xmm5
	movdqa	288(%rsp), %xmm3
.LBB121_33:
	movaps	208(%rsp), %xmm0
	movaps	224(%rsp), %xmm1
	movaps	240(%rsp), %xmm2
	movaps	%xmm0, 304(%rsp)
	movaps	%xmm1, 320(%rsp)
	movaps	%xmm2, 336(%rsp)
	movaps	992(%rsp), %xmm0
	movaps	%xmm0, 976(%rsp)
	movaps	256(%rsp), %xmm0
	movaps	%xmm0, 384(%rsp)
	movups	271(%rsp), %xmm0
	movups	%xmm0, 399(%rsp)
	testb	%al, %al
	movq	%rdx, 48(%rsp)
	je	.LBB121_34
	movaps	464(%rsp), %xmm0
	movaps	480(%rsp), %xmm1
	movaps	496(%rsp), %xmm2
	movaps	%xmm2, 448(%rsp)
	movaps	%xmm1, 432(%rsp)
	movaps	%xmm0, 416(%rsp)
	movaps	1568(%rsp), %xmm0
	movaps	%xmm0, 960(%rsp)
	movaps	784(%rsp), %xmm0
	movaps	%xmm0, 624(%rsp)
	movups	799(%rsp), %xmm0
	movups	%xmm0, 639(%rsp)
	movq	104(%r15), %rax
	movq	$-2, %rcx
	movq	592(%rsp), %rsi
	xchgq	%rcx, (%rax,%rsi,8)
	movq	%r15, %rdi
	movdqa	%xmm4, 192(%rsp)
	movdqa	%xmm5, 112(%rsp)
	callq	"std_alloc::arc::Arc::drop::<#ee99c0b4357605a3>"
	movaps	112(%rsp), %xmm1
	movaps	192(%rsp), %xmm2
	movdqa	128(%rsp), %xmm0
	movq	%xmm0, %rdx
	movaps	1536(%rsp), %xmm0
	movaps	%xmm0, 752(%rsp)
	movq	1552(%rsp), %rax
	movq	%rax, 768(%rsp)
	pshufd	$238, 144(%rsp), %xmm3
	movb	$2, %bl
	movq	%r14, %rcx
	movq	40(%rsp), %rax
	movq	72(%rsp), %rsi
	movq	64(%rsp), %rdi
	movq	56(%rsp), %r8
	movq	104(%rsp), %r9
	movq	(%rsp), %r10
	movq	32(%rsp), %rbp
	movq	8(%rsp), %r11
	movq	16(%rsp), %r14
	jmp	.LBB121_43
.LBB121_34:
	movq	%rcx, 192(%rsp)
	movq	%r14, 112(%rsp)
	movl	$0, 288(%rsp)
	movdqa	%xmm3, 160(%rsp)
	movdqa	144(%rsp), %xmm0
	movdqa	%xmm0, 176(%rsp)
	jmp	.LBB121_35
.LBB121_11:
	ud2
.Lfunc_end121:
	.size	nm_worker_resign, .Lfunc_end121-nm_worker_resign
	.cfi_endproc
	.section	.rodata.nm_worker_resign,"a",@progbits
	.p2align	2, 0x0
.LJTI121_0:
	.long	.LBB121_46-.LJTI121_0
	.long	.LBB121_54-.LJTI121_0
	.long	.LBB121_55-.LJTI121_0
	.long	.LBB121_61-.LJTI121_0
	.long	.LBB121_62-.LJTI121_0
	.long	.LBB121_68-.LJTI121_0
	.section	.text.nm_worker_scan,"ax",@progbits
	.globl	nm_worker_scan
	.p2align	4
	.type	nm_worker_scan,@function
nm_worker_scan:
	.cfi_startproc
	pushq	%r15
	.cfi_def_cfa_offset 16
	pushq	%r14
	.cfi_def_cfa_offset 24
	pushq	%rbx
	.cfi_def_cfa_offset 32
	subq	$48, %rsp
	.cfi_def_cfa_offset 80
	.cfi_offset %rbx, -32
	.cfi_offset %r14, -24
	.cfi_offset %r15, -16
	movq	%rcx, %r10
	movq	%rsi, %rcx
	xorl	%esi, %esi
	testq	%r10, %r10
	movl	$1, %ebx
	xchgq	%rbx, 8(%rdi)
	sete	%r11b
	movl	$-22, %eax
	testq	%rbx, %rbx
	je	.LBB122_1
.LBB122_18:
	addq	$48, %rsp
	.cfi_def_cfa_offset 32
	popq	%rbx
	.cfi_def_cfa_offset 24
	popq	%r14
	.cfi_def_cfa_offset 16
	popq	%r15
	.cfi_def_cfa_offset 8
	retq
.LBB122_1:
	.cfi_def_cfa_offset 80
	movq	(%rdi), %rbx
	movq	$0, (%rdi)
	testq	%rbx, %rbx
	je	.LBB122_19
	cmpb	$1, (%rbx)
	jne	.LBB122_17
	cmpq	$-3, %rcx
	jae	.LBB122_4
	xorps	%xmm0, %xmm0
	movaps	%xmm0, 32(%rsp)
	movaps	%xmm0, 16(%rsp)
	cmpb	$1, 112(%rbx)
	jne	.LBB122_6
.LBB122_15:
	movq	%rbx, (%rdi)
	xorl	%eax, %eax
	xchgq	%rax, 8(%rdi)
	movl	$-13, %eax
	jmp	.LBB122_18
.LBB122_19:
	xorl	%eax, %eax
	xchgq	%rax, 8(%rdi)
	movl	$-1, %eax
	jmp	.LBB122_18
.LBB122_17:
	movq	%rbx, (%rdi)
	xorl	%eax, %eax
	xchgq	%rax, 8(%rdi)
	movl	$-3, %eax
	jmp	.LBB122_18
.LBB122_4:
	movq	%rbx, (%rdi)
	xorl	%eax, %eax
	xchgq	%rax, 8(%rdi)
	movl	$-4, %eax
	jmp	.LBB122_18
.LBB122_6:
	movq	%r9, %r15
	movq	%rdi, %r14
	movl	88(%rsp), %edi
	movb	%r11b, %sil
	shll	$12, %esi
	addq	%rsi, %r10
	leaq	16(%rbx), %rax
	movq	8(%rbx), %rsi
	addq	$8, %rsi
	movl	%edi, 8(%rsp)
	movq	%r8, (%rsp)
	leaq	16(%rsp), %rdi
	movq	%rdx, %r8
	movq	%rax, %rdx
	movq	%r10, %r9
	callq	"nm_tree::tree::Tree::scan"
	cmpb	$0, 16(%rsp)
	je	.LBB122_7
	movzbl	17(%rsp), %eax
	movl	%eax, %eax
	leaq	.LJTI122_0(%rip), %rcx
	movslq	(%rcx,%rax,4), %rax
	addq	%rcx, %rax
	movq	%r14, %rdi
	jmpq	*%rax
.LBB122_10:
	movq	%rbx, (%rdi)
	xorl	%eax, %eax
	xchgq	%rax, 8(%rdi)
	movl	$-9, %eax
	jmp	.LBB122_18
.LBB122_7:
	movq	24(%rsp), %rdx
	movq	40(%rsp), %rcx
	movzbl	32(%rsp), %eax
	movq	%rdx, (%r15)
	cmpl	$1, %eax
	jne	.LBB122_16
	movq	80(%rsp), %rax
	movq	%rcx, (%rax)
	movq	%rbx, (%r14)
	xorl	%eax, %eax
	xchgq	%rax, 8(%r14)
	movl	$1, %eax
	jmp	.LBB122_18
.LBB122_16:
	movq	%rbx, (%r14)
	xorl	%ecx, %ecx
	xchgq	%rcx, 8(%r14)
	leaq	.Lswitch.table.nm_worker_scan_back(%rip), %rcx
	movl	(%rcx,%rax,4), %eax
	jmp	.LBB122_18
.LBB122_13:
	movq	%rbx, (%rdi)
	xorl	%eax, %eax
	xchgq	%rax, 8(%rdi)
	movl	$-11, %eax
	jmp	.LBB122_18
.LBB122_11:
	movq	%rbx, (%rdi)
	xorl	%eax, %eax
	xchgq	%rax, 8(%rdi)
	movl	$-10, %eax
	jmp	.LBB122_18
.LBB122_12:
	movq	%rbx, (%rdi)
	xorl	%eax, %eax
	xchgq	%rax, 8(%rdi)
	movl	$-8, %eax
	jmp	.LBB122_18
.LBB122_14:
	movq	%rbx, (%rdi)
	xorl	%eax, %eax
	xchgq	%rax, 8(%rdi)
	movl	$-12, %eax
	jmp	.LBB122_18
.Lfunc_end122:
	.size	nm_worker_scan, .Lfunc_end122-nm_worker_scan
	.cfi_endproc
	.section	.rodata.nm_worker_scan,"a",@progbits
	.p2align	2, 0x0
.LJTI122_0:
	.long	.LBB122_10-.LJTI122_0
	.long	.LBB122_11-.LJTI122_0
	.long	.LBB122_12-.LJTI122_0
	.long	.LBB122_13-.LJTI122_0
	.long	.LBB122_14-.LJTI122_0
	.long	.LBB122_15-.LJTI122_0
	.section	.text.nm_worker_scan_back,"ax",@progbits
	.globl	nm_worker_scan_back
	.p2align	4
	.type	nm_worker_scan_back,@function
nm_worker_scan_back:
	.cfi_startproc
	pushq	%r15
	.cfi_def_cfa_offset 16
	pushq	%r14
	.cfi_def_cfa_offset 24
	pushq	%rbx
	.cfi_def_cfa_offset 32
	subq	$48, %rsp
	.cfi_def_cfa_offset 80
	.cfi_offset %rbx, -32
	.cfi_offset %r14, -24
	.cfi_offset %r15, -16
	movq	%rcx, %r10
	movq	%rsi, %rcx
	xorl	%esi, %esi
	testq	%r10, %r10
	movl	$1, %ebx
	xchgq	%rbx, 8(%rdi)
	sete	%r11b
	movl	$-22, %eax
	testq	%rbx, %rbx
	je	.LBB123_1
.LBB123_18:
	addq	$48, %rsp
	.cfi_def_cfa_offset 32
	popq	%rbx
	.cfi_def_cfa_offset 24
	popq	%r14
	.cfi_def_cfa_offset 16
	popq	%r15
	.cfi_def_cfa_offset 8
	retq
.LBB123_1:
	.cfi_def_cfa_offset 80
	movq	(%rdi), %rbx
	movq	$0, (%rdi)
	testq	%rbx, %rbx
	je	.LBB123_19
	cmpb	$1, (%rbx)
	jne	.LBB123_17
	cmpq	$-3, %rcx
	jae	.LBB123_4
	xorps	%xmm0, %xmm0
	movaps	%xmm0, 32(%rsp)
	movaps	%xmm0, 16(%rsp)
	cmpb	$1, 112(%rbx)
	jne	.LBB123_6
.LBB123_15:
	movq	%rbx, (%rdi)
	xorl	%eax, %eax
	xchgq	%rax, 8(%rdi)
	movl	$-13, %eax
	jmp	.LBB123_18
.LBB123_19:
	xorl	%eax, %eax
	xchgq	%rax, 8(%rdi)
	movl	$-1, %eax
	jmp	.LBB123_18
.LBB123_17:
	movq	%rbx, (%rdi)
	xorl	%eax, %eax
	xchgq	%rax, 8(%rdi)
	movl	$-3, %eax
	jmp	.LBB123_18
.LBB123_4:
	movq	%rbx, (%rdi)
	xorl	%eax, %eax
	xchgq	%rax, 8(%rdi)
	movl	$-4, %eax
	jmp	.LBB123_18
.LBB123_6:
	movq	%r9, %r15
	movq	%rdi, %r14
	movl	88(%rsp), %edi
	movb	%r11b, %sil
	shll	$12, %esi
	addq	%rsi, %r10
	leaq	16(%rbx), %rax
	movq	8(%rbx), %rsi
	addq	$8, %rsi
	movl	%edi, 8(%rsp)
	movq	%r8, (%rsp)
	leaq	16(%rsp), %rdi
	movq	%rdx, %r8
	movq	%rax, %rdx
	movq	%r10, %r9
	callq	"nm_tree::tree::Tree::scan_back"
	cmpb	$0, 16(%rsp)
	je	.LBB123_7
	movzbl	17(%rsp), %eax
	movl	%eax, %eax
	leaq	.LJTI123_0(%rip), %rcx
	movslq	(%rcx,%rax,4), %rax
	addq	%rcx, %rax
	movq	%r14, %rdi
	jmpq	*%rax
.LBB123_10:
	movq	%rbx, (%rdi)
	xorl	%eax, %eax
	xchgq	%rax, 8(%rdi)
	movl	$-9, %eax
	jmp	.LBB123_18
.LBB123_7:
	movq	24(%rsp), %rdx
	movq	40(%rsp), %rcx
	movzbl	32(%rsp), %eax
	movq	%rdx, (%r15)
	cmpl	$1, %eax
	jne	.LBB123_16
	movq	80(%rsp), %rax
	movq	%rcx, (%rax)
	movq	%rbx, (%r14)
	xorl	%eax, %eax
	xchgq	%rax, 8(%r14)
	movl	$1, %eax
	jmp	.LBB123_18
.LBB123_16:
	movq	%rbx, (%r14)
	xorl	%ecx, %ecx
	xchgq	%rcx, 8(%r14)
	leaq	.Lswitch.table.nm_worker_scan_back(%rip), %rcx
	movl	(%rcx,%rax,4), %eax
	jmp	.LBB123_18
.LBB123_13:
	movq	%rbx, (%rdi)
	xorl	%eax, %eax
	xchgq	%rax, 8(%rdi)
	movl	$-11, %eax
	jmp	.LBB123_18
.LBB123_11:
	movq	%rbx, (%rdi)
	xorl	%eax, %eax
	xchgq	%rax, 8(%rdi)
	movl	$-10, %eax
	jmp	.LBB123_18
.LBB123_12:
	movq	%rbx, (%rdi)
	xorl	%eax, %eax
	xchgq	%rax, 8(%rdi)
	movl	$-8, %eax
	jmp	.LBB123_18
.LBB123_14:
	movq	%rbx, (%rdi)
	xorl	%eax, %eax
	xchgq	%rax, 8(%rdi)
	movl	$-12, %eax
	jmp	.LBB123_18
.Lfunc_end123:
	.size	nm_worker_scan_back, .Lfunc_end123-nm_worker_scan_back
	.cfi_endproc
	.section	.rodata.nm_worker_scan_back,"a",@progbits
	.p2align	2, 0x0
.LJTI123_0:
	.long	.LBB123_10-.LJTI123_0
	.long	.LBB123_11-.LJTI123_0
	.long	.LBB123_12-.LJTI123_0
	.long	.LBB123_13-.LJTI123_0
	.long	.LBB123_14-.LJTI123_0
	.long	.LBB123_15-.LJTI123_0
	.section	.text.nm_worker_stats,"ax",@progbits
	.globl	nm_worker_stats
	.p2align	4
	.type	nm_worker_stats,@function
nm_worker_stats:
	.cfi_startproc
	movl	$1, %ecx
	xchgq	%rcx, 8(%rdi)
	movl	$-22, %eax
	testq	%rcx, %rcx
	je	.LBB124_1
	retq
.LBB124_1:
	movq	(%rdi), %rax
	movq	$0, (%rdi)
	testq	%rax, %rax
	je	.LBB124_6
	cmpb	$1, (%rax)
	jne	.LBB124_4
	pushq	%rbx
	.cfi_def_cfa_offset 16
	.cfi_offset %rbx, -16
	movq	80(%rax), %rcx
	movq	104(%rax), %rdx
	leaq	(%rdx,%rdx,2), %rdx
	shlq	$5, %rdx
	movl	60(%rcx,%rdx), %r8d
	movq	80(%rcx,%rdx), %r9
	movq	88(%rcx,%rdx), %r10
	movq	%r8, %r11
	addq	%r10, %r11
	movq	$-1, %rbx
	cmovaeq	%r11, %rbx
	movups	64(%rcx,%rdx), %xmm0
	movups	%xmm0, (%rsi)
	movq	%r9, 16(%rsi)
	movq	%rbx, 24(%rsi)
	movq	%r10, 32(%rsi)
	movq	%r8, 40(%rsi)
	movq	%rax, (%rdi)
	xorl	%eax, %eax
	xchgq	%rax, 8(%rdi)
	movl	$2, %eax
	popq	%rbx
	.cfi_def_cfa_offset 8
	.cfi_restore %rbx
	retq
.LBB124_6:
	xorl	%eax, %eax
	xchgq	%rax, 8(%rdi)
	movl	$-1, %eax
	retq
.LBB124_4:
	movq	%rax, (%rdi)
	xorl	%eax, %eax
	xchgq	%rax, 8(%rdi)
	movl	$-3, %eax
	retq
.Lfunc_end124:
	.size	nm_worker_stats, .Lfunc_end124-nm_worker_stats
	.cfi_endproc
	.section	.text.nm_worker_try_contains,"ax",@progbits
	.globl	nm_worker_try_contains
	.p2align	4
	.type	nm_worker_try_contains,@function
nm_worker_try_contains:
	.cfi_startproc
	pushq	%rbp
	.cfi_def_cfa_offset 16
	pushq	%r15
	.cfi_def_cfa_offset 24
	pushq	%r14
	.cfi_def_cfa_offset 32
	pushq	%r13
	.cfi_def_cfa_offset 40
	pushq	%r12
	.cfi_def_cfa_offset 48
	pushq	%rbx
	.cfi_def_cfa_offset 56
	.cfi_offset %rbx, -56
	.cfi_offset %r12, -48
	.cfi_offset %r13, -40
	.cfi_offset %r14, -32
	.cfi_offset %r15, -24
	.cfi_offset %rbp, -16
	movl	$1, %ecx
	xchgq	%rcx, 8(%rdi)
	movl	$-22, %eax
	testq	%rcx, %rcx
	je	.LBB125_1
.LBB125_30:
	popq	%rbx
	.cfi_def_cfa_offset 48
	popq	%r12
	.cfi_def_cfa_offset 40
	popq	%r13
	.cfi_def_cfa_offset 32
	popq	%r14
	.cfi_def_cfa_offset 24
	popq	%r15
	.cfi_def_cfa_offset 16
	popq	%rbp
	.cfi_def_cfa_offset 8
	retq
.LBB125_1:
	.cfi_def_cfa_offset 56
	movq	(%rdi), %rcx
	movq	$0, (%rdi)
	testq	%rcx, %rcx
	je	.LBB125_31
	cmpb	$1, (%rcx)
	jne	.LBB125_32
	xorl	%r8d, %r8d
	cmpq	$-3, %rsi
	cmovbq	%rsi, %r8
	jae	.LBB125_29
	movzbl	112(%rcx), %eax
	cmpb	$1, %al
	jne	.LBB125_6
	movq	%rcx, (%rdi)
	xorl	%eax, %eax
	xchgq	%rax, 8(%rdi)
	movl	$-13, %eax
	jmp	.LBB125_30
.LBB125_31:
	xorl	%eax, %eax
	xchgq	%rax, 8(%rdi)
	movl	$-1, %eax
	jmp	.LBB125_30
.LBB125_32:
	movq	%rcx, (%rdi)
	xorl	%eax, %eax
	xchgq	%rax, 8(%rdi)
	movl	$-3, %eax
	jmp	.LBB125_30
.LBB125_29:
	movq	%rcx, (%rdi)
	xorl	%eax, %eax
	xchgq	%rax, 8(%rdi)
	movl	$-4, %eax
	jmp	.LBB125_30
.LBB125_6:
	cmpb	$2, %al
	jne	.LBB125_8
	movq	%rcx, (%rdi)
	xorl	%eax, %eax
	xchgq	%rax, 8(%rdi)
	movl	$-12, %eax
	jmp	.LBB125_30
.LBB125_8:
	testl	%edx, %edx
	je	.LBB125_27
	movq	8(%rcx), %r9
	movq	8(%r9), %rax
	movq	(%rax), %rax
	movq	$1, 24(%rcx)
	movq	%rax, 32(%rcx)
	leaq	40(%rcx), %rsi
	movl	%edx, %r10d
.LBB125_11:
	movl	20(%rcx), %r11d
	leaq	1(%rax), %rbx
	movq	8(%r9), %r14
	xchgq	%rbx, (%r14,%r11,8)
	movq	$1, 40(%rcx)
	movq	%rax, 48(%rcx)
	movq	8(%r9), %r11
	movq	(%r11), %r11
	movq	$1, 24(%rcx)
	movq	%r11, 32(%rcx)
	cmpq	%rax, %r11
	je	.LBB125_12
	movq	%r11, %rax
	decl	%r10d
	jne	.LBB125_11
	movq	8(%r9), %rax
	movl	20(%rcx), %edx
	xorl	%r8d, %r8d
	xchgq	%r8, (%rax,%rdx,8)
.LBB125_26:
	xorps	%xmm0, %xmm0
	movups	%xmm0, 16(%rsi)
	movups	%xmm0, (%rsi)
.LBB125_27:
	movq	%rcx, (%rdi)
	xorl	%eax, %eax
	xchgq	%rax, 8(%rdi)
	movl	$-9, %eax
	jmp	.LBB125_30
.LBB125_12:
	movq	$1, 56(%rcx)
	movq	%rax, 64(%rcx)
	xorl	%eax, %eax
	jmp	.LBB125_13
.LBB125_24:
	incl	%eax
	cmpl	%edx, %eax
	je	.LBB125_25
.LBB125_13:
	movl	72(%r9), %ebx
	movl	88(%r9), %r14d
	movq	8(%r9), %r10
	decl	%ebx
	testb	$1, 84(%r9)
	leal	4(%r14), %r11d
	movq	8(%r10,%r11,8), %r10
	movl	$65, %r11d
	cmovnel	%r11d, %ebx
	testl	%ebx, %ebx
	je	.LBB125_14
	addl	$-4, %r14d
	xorl	%ebp, %ebp
.LBB125_16:
	testb	$3, %r10b
	jne	.LBB125_20
	movq	8(%r9), %r15
	addl	%r14d, %r10d
	movq	(%r15,%r10,8), %r15
	movq	8(%r9), %r12
	movq	8(%r12,%r10,8), %r12
	movq	8(%r9), %r13
	movq	16(%r13,%r10,8), %r10
	cmpq	%r15, %r8
	cmovbq	%r12, %r10
	testq	%r10, %r10
	je	.LBB125_28
	incl	%ebp
	cmpl	%ebp, %ebx
	jne	.LBB125_16
	movl	%ebx, %ebp
	jmp	.LBB125_20
.LBB125_14:
	xorl	%ebp, %ebp
.LBB125_20:
	movl	72(%r9), %ebx
	decl	%ebx
	testb	$1, 84(%r9)
	cmovnel	%r11d, %ebx
	subl	%ebp, %ebx
	jbe	.LBB125_24
	movl	88(%r9), %r11d
	addl	$-4, %r11d
.LBB125_22:
	andl	$-4, %r10d
	addl	%r11d, %r10d
	movq	8(%r9), %r14
	movq	(%r14,%r10,8), %r15
	movq	8(%r9), %r14
	movq	8(%r14,%r10,8), %r14
	movq	8(%r9), %r12
	movq	16(%r12,%r10,8), %r10
	cmpq	%r15, %r8
	cmovbq	%r14, %r10
	testq	%r10, %r10
	je	.LBB125_28
	decl	%ebx
	jne	.LBB125_22
	jmp	.LBB125_24
.LBB125_28:
	xorl	%eax, %eax
	cmpq	%r8, %r15
	sete	%al
	movq	8(%r9), %rdx
	movl	20(%rcx), %r8d
	xorl	%r9d, %r9d
	xchgq	%r9, (%rdx,%r8,8)
	xorl	%edx, %edx
	xorps	%xmm0, %xmm0
	movups	%xmm0, 16(%rsi)
	movups	%xmm0, (%rsi)
	movq	%rcx, (%rdi)
	xchgq	%rdx, 8(%rdi)
	jmp	.LBB125_30
.LBB125_25:
	movq	8(%r9), %rax
	movl	20(%rcx), %edx
	xorl	%r8d, %r8d
	xchgq	%r8, (%rax,%rdx,8)
	jmp	.LBB125_26
.Lfunc_end125:
	.size	nm_worker_try_contains, .Lfunc_end125-nm_worker_try_contains
	.cfi_endproc
	.section	.text.nm_worker_try_insert,"ax",@progbits
	.globl	nm_worker_try_insert
	.p2align	4
	.type	nm_worker_try_insert,@function
nm_worker_try_insert:
	.cfi_startproc
	pushq	%r14
	.cfi_def_cfa_offset 16
	pushq	%rbx
	.cfi_def_cfa_offset 24
	pushq	%rax
	.cfi_def_cfa_offset 32
	.cfi_offset %rbx, -24
	.cfi_offset %r14, -16
	movl	$1, %ecx
	xchgq	%rcx, 8(%rdi)
	movl	$-22, %eax
	testq	%rcx, %rcx
	je	.LBB126_1
	addq	$8, %rsp
	.cfi_def_cfa_offset 24
	popq	%rbx
	.cfi_def_cfa_offset 16
	popq	%r14
	.cfi_def_cfa_offset 8
	retq
.LBB126_1:
	.cfi_def_cfa_offset 32
	movq	(%rdi), %rbx
	movq	$0, (%rdi)
	testq	%rbx, %rbx
	je	.LBB126_17
	cmpb	$1, (%rbx)
	jne	.LBB126_18
	movq	%rsi, %r8
	cmpq	$-3, %rsi
	jae	.LBB126_15
	movzbl	112(%rbx), %eax
	cmpl	$1, %eax
	je	.LBB126_13
	cmpl	$2, %eax
	jne	.LBB126_6
.LBB126_12:
	movq	%rbx, (%rdi)
	xorl	%eax, %eax
	xchgq	%rax, 8(%rdi)
	movl	$-12, %eax
	addq	$8, %rsp
	.cfi_def_cfa_offset 24
	popq	%rbx
	.cfi_def_cfa_offset 16
	popq	%r14
	.cfi_def_cfa_offset 8
	retq
.LBB126_17:
	.cfi_def_cfa_offset 32
	xorl	%eax, %eax
	xchgq	%rax, 8(%rdi)
	movl	$-1, %eax
	addq	$8, %rsp
	.cfi_def_cfa_offset 24
	popq	%rbx
	.cfi_def_cfa_offset 16
	popq	%r14
	.cfi_def_cfa_offset 8
	retq
.LBB126_18:
	.cfi_def_cfa_offset 32
	movq	%rbx, (%rdi)
	xorl	%eax, %eax
	xchgq	%rax, 8(%rdi)
	movl	$-3, %eax
	addq	$8, %rsp
	.cfi_def_cfa_offset 24
	popq	%rbx
	.cfi_def_cfa_offset 16
	popq	%r14
	.cfi_def_cfa_offset 8
	retq
.LBB126_15:
	.cfi_def_cfa_offset 32
	movq	%rbx, (%rdi)
	xorl	%eax, %eax
	xchgq	%rax, 8(%rdi)
	movl	$-4, %eax
	addq	$8, %rsp
	.cfi_def_cfa_offset 24
	popq	%rbx
	.cfi_def_cfa_offset 16
	popq	%r14
	.cfi_def_cfa_offset 8
	retq
.LBB126_6:
	.cfi_def_cfa_offset 32
	movq	%rdi, %r14
	leaq	16(%rbx), %rsi
	movq	8(%rbx), %rdi
	movq	104(%rbx), %rax
	addq	$8, %rdi
	leaq	(%rax,%rax,2), %rcx
	shlq	$5, %rcx
	addq	80(%rbx), %rcx
	movq	144(%rbx), %rax
	movl	%edx, (%rsp)
	movq	%rax, %rdx
	xorl	%r9d, %r9d
	callq	"nm_calls::inserting::insert"
	testb	%al, %al
	je	.LBB126_14
	movzbl	%dl, %eax
	leaq	.LJTI126_0(%rip), %rcx
	movslq	(%rcx,%rax,4), %rax
	addq	%rcx, %rax
	movq	%r14, %rdi
	jmpq	*%rax
.LBB126_8:
	movq	%rbx, (%rdi)
	xorl	%eax, %eax
	xchgq	%rax, 8(%rdi)
	movl	$-9, %eax
	addq	$8, %rsp
	.cfi_def_cfa_offset 24
	popq	%rbx
	.cfi_def_cfa_offset 16
	popq	%r14
	.cfi_def_cfa_offset 8
	retq
.LBB126_13:
	.cfi_def_cfa_offset 32
	movq	%rbx, (%rdi)
	xorl	%eax, %eax
	xchgq	%rax, 8(%rdi)
	movl	$-13, %eax
	addq	$8, %rsp
	.cfi_def_cfa_offset 24
	popq	%rbx
	.cfi_def_cfa_offset 16
	popq	%r14
	.cfi_def_cfa_offset 8
	retq
.LBB126_14:
	.cfi_def_cfa_offset 32
	movq	%rbx, (%r14)
	xorl	%eax, %eax
	xchgq	%rax, 8(%r14)
	andb	$1, %dl
	movzbl	%dl, %eax
	addq	$8, %rsp
	.cfi_def_cfa_offset 24
	popq	%rbx
	.cfi_def_cfa_offset 16
	popq	%r14
	.cfi_def_cfa_offset 8
	retq
.LBB126_10:
	.cfi_def_cfa_offset 32
	movq	%rbx, (%rdi)
	xorl	%eax, %eax
	xchgq	%rax, 8(%rdi)
	movl	$-8, %eax
	addq	$8, %rsp
	.cfi_def_cfa_offset 24
	popq	%rbx
	.cfi_def_cfa_offset 16
	popq	%r14
	.cfi_def_cfa_offset 8
	retq
.LBB126_9:
	.cfi_def_cfa_offset 32
	movq	%rbx, (%rdi)
	xorl	%eax, %eax
	xchgq	%rax, 8(%rdi)
	movl	$-10, %eax
	addq	$8, %rsp
	.cfi_def_cfa_offset 24
	popq	%rbx
	.cfi_def_cfa_offset 16
	popq	%r14
	.cfi_def_cfa_offset 8
	retq
.LBB126_11:
	.cfi_def_cfa_offset 32
	movq	%rbx, (%rdi)
	xorl	%eax, %eax
	xchgq	%rax, 8(%rdi)
	movl	$-11, %eax
	addq	$8, %rsp
	.cfi_def_cfa_offset 24
	popq	%rbx
	.cfi_def_cfa_offset 16
	popq	%r14
	.cfi_def_cfa_offset 8
	retq
.Lfunc_end126:
	.size	nm_worker_try_insert, .Lfunc_end126-nm_worker_try_insert
	.cfi_endproc
	.section	.rodata.nm_worker_try_insert,"a",@progbits
	.p2align	2, 0x0
.LJTI126_0:
	.long	.LBB126_8-.LJTI126_0
	.long	.LBB126_9-.LJTI126_0
	.long	.LBB126_10-.LJTI126_0
	.long	.LBB126_11-.LJTI126_0
	.long	.LBB126_12-.LJTI126_0
	.long	.LBB126_13-.LJTI126_0
	.section	.text.nm_worker_try_remove,"ax",@progbits
	.globl	nm_worker_try_remove
	.p2align	4
	.type	nm_worker_try_remove,@function
nm_worker_try_remove:
	.cfi_startproc
	pushq	%r14
	.cfi_def_cfa_offset 16
	pushq	%rbx
	.cfi_def_cfa_offset 24
	pushq	%rax
	.cfi_def_cfa_offset 32
	.cfi_offset %rbx, -24
	.cfi_offset %r14, -16
	movl	$1, %ecx
	xchgq	%rcx, 8(%rdi)
	movl	$-22, %eax
	testq	%rcx, %rcx
	je	.LBB127_1
	addq	$8, %rsp
	.cfi_def_cfa_offset 24
	popq	%rbx
	.cfi_def_cfa_offset 16
	popq	%r14
	.cfi_def_cfa_offset 8
	retq
.LBB127_1:
	.cfi_def_cfa_offset 32
	movq	(%rdi), %rbx
	movq	$0, (%rdi)
	testq	%rbx, %rbx
	je	.LBB127_16
	cmpb	$1, (%rbx)
	jne	.LBB127_17
	movl	%edx, %r8d
	movq	%rsi, %rdx
	cmpq	$-3, %rsi
	jae	.LBB127_14
	cmpb	$1, 112(%rbx)
	jne	.LBB127_5
.LBB127_12:
	movq	%rbx, (%rdi)
	xorl	%eax, %eax
	xchgq	%rax, 8(%rdi)
	movl	$-13, %eax
	addq	$8, %rsp
	.cfi_def_cfa_offset 24
	popq	%rbx
	.cfi_def_cfa_offset 16
	popq	%r14
	.cfi_def_cfa_offset 8
	retq
.LBB127_16:
	.cfi_def_cfa_offset 32
	xorl	%eax, %eax
	xchgq	%rax, 8(%rdi)
	movl	$-1, %eax
	addq	$8, %rsp
	.cfi_def_cfa_offset 24
	popq	%rbx
	.cfi_def_cfa_offset 16
	popq	%r14
	.cfi_def_cfa_offset 8
	retq
.LBB127_17:
	.cfi_def_cfa_offset 32
	movq	%rbx, (%rdi)
	xorl	%eax, %eax
	xchgq	%rax, 8(%rdi)
	movl	$-3, %eax
	addq	$8, %rsp
	.cfi_def_cfa_offset 24
	popq	%rbx
	.cfi_def_cfa_offset 16
	popq	%r14
	.cfi_def_cfa_offset 8
	retq
.LBB127_14:
	.cfi_def_cfa_offset 32
	movq	%rbx, (%rdi)
	xorl	%eax, %eax
	xchgq	%rax, 8(%rdi)
	movl	$-4, %eax
	addq	$8, %rsp
	.cfi_def_cfa_offset 24
	popq	%rbx
	.cfi_def_cfa_offset 16
	popq	%r14
	.cfi_def_cfa_offset 8
	retq
.LBB127_5:
	.cfi_def_cfa_offset 32
	movq	%rdi, %r14
	leaq	16(%rbx), %rsi
	movq	8(%rbx), %rdi
	addq	$8, %rdi
	movq	%rsp, %rcx
	callq	"nm_tree::tree::Tree::delete_with_value"
	testb	%al, %al
	je	.LBB127_13
	movzbl	%dl, %eax
	leaq	.LJTI127_0(%rip), %rcx
	movslq	(%rcx,%rax,4), %rax
	addq	%rcx, %rax
	movq	%r14, %rdi
	jmpq	*%rax
.LBB127_7:
	movq	%rbx, (%rdi)
	xorl	%eax, %eax
	xchgq	%rax, 8(%rdi)
	movl	$-9, %eax
	addq	$8, %rsp
	.cfi_def_cfa_offset 24
	popq	%rbx
	.cfi_def_cfa_offset 16
	popq	%r14
	.cfi_def_cfa_offset 8
	retq
.LBB127_13:
	.cfi_def_cfa_offset 32
	movq	%rbx, (%r14)
	xorl	%eax, %eax
	xchgq	%rax, 8(%r14)
	andb	$1, %dl
	movzbl	%dl, %eax
	addq	$8, %rsp
	.cfi_def_cfa_offset 24
	popq	%rbx
	.cfi_def_cfa_offset 16
	popq	%r14
	.cfi_def_cfa_offset 8
	retq
.LBB127_10:
	.cfi_def_cfa_offset 32
	movq	%rbx, (%rdi)
	xorl	%eax, %eax
	xchgq	%rax, 8(%rdi)
	movl	$-11, %eax
	addq	$8, %rsp
	.cfi_def_cfa_offset 24
	popq	%rbx
	.cfi_def_cfa_offset 16
	popq	%r14
	.cfi_def_cfa_offset 8
	retq
.LBB127_8:
	.cfi_def_cfa_offset 32
	movq	%rbx, (%rdi)
	xorl	%eax, %eax
	xchgq	%rax, 8(%rdi)
	movl	$-10, %eax
	addq	$8, %rsp
	.cfi_def_cfa_offset 24
	popq	%rbx
	.cfi_def_cfa_offset 16
	popq	%r14
	.cfi_def_cfa_offset 8
	retq
.LBB127_9:
	.cfi_def_cfa_offset 32
	movq	%rbx, (%rdi)
	xorl	%eax, %eax
	xchgq	%rax, 8(%rdi)
	movl	$-8, %eax
	addq	$8, %rsp
	.cfi_def_cfa_offset 24
	popq	%rbx
	.cfi_def_cfa_offset 16
	popq	%r14
	.cfi_def_cfa_offset 8
	retq
.LBB127_11:
	.cfi_def_cfa_offset 32
	movq	%rbx, (%rdi)
	xorl	%eax, %eax
	xchgq	%rax, 8(%rdi)
	movl	$-12, %eax
	addq	$8, %rsp
	.cfi_def_cfa_offset 24
	popq	%rbx
	.cfi_def_cfa_offset 16
	popq	%r14
	.cfi_def_cfa_offset 8
	retq
.Lfunc_end127:
	.size	nm_worker_try_remove, .Lfunc_end127-nm_worker_try_remove
	.cfi_endproc
	.section	.rodata.nm_worker_try_remove,"a",@progbits
	.p2align	2, 0x0
.LJTI127_0:
	.long	.LBB127_7-.LJTI127_0
	.long	.LBB127_8-.LJTI127_0
	.long	.LBB127_9-.LJTI127_0
	.long	.LBB127_10-.LJTI127_0
	.long	.LBB127_11-.LJTI127_0
	.long	.LBB127_12-.LJTI127_0
	.section	.text.nm_worker_unpin,"ax",@progbits
	.globl	nm_worker_unpin
	.p2align	4
	.type	nm_worker_unpin,@function
nm_worker_unpin:
	.cfi_startproc
	movl	$1, %ecx
	xchgq	%rcx, 8(%rdi)
	movl	$-22, %eax
	testq	%rcx, %rcx
	je	.LBB128_1
	retq
.LBB128_1:
	movq	(%rdi), %rax
	movq	$0, (%rdi)
	testq	%rax, %rax
	je	.LBB128_8
	cmpb	$1, (%rax)
	jne	.LBB128_6
	cmpb	$1, 112(%rax)
	jne	.LBB128_5
	movq	8(%rax), %rcx
	movq	8(%rcx), %rcx
	xorps	%xmm0, %xmm0
	movaps	%xmm0, -24(%rsp)
	movq	$0, -8(%rsp)
	movl	20(%rax), %edx
	xorl	%esi, %esi
	xorl	%r8d, %r8d
	xchgq	%r8, (%rcx,%rdx,8)
	movups	%xmm0, 56(%rax)
	movups	%xmm0, 40(%rax)
	movq	$0, 112(%rax)
	movaps	-24(%rsp), %xmm0
	movups	%xmm0, 120(%rax)
	movq	-8(%rsp), %rcx
	movq	%rcx, 136(%rax)
	movq	%rax, (%rdi)
	xchgq	%rsi, 8(%rdi)
	movl	$2, %eax
	retq
.LBB128_8:
	xorl	%eax, %eax
	xchgq	%rax, 8(%rdi)
	movl	$-1, %eax
	retq
.LBB128_6:
	movq	%rax, (%rdi)
	xorl	%eax, %eax
	xchgq	%rax, 8(%rdi)
	movl	$-3, %eax
	retq
.LBB128_5:
	movq	%rax, (%rdi)
	xorl	%eax, %eax
	xchgq	%rax, 8(%rdi)
	movl	$-14, %eax
	retq
.Lfunc_end128:
	.size	nm_worker_unpin, .Lfunc_end128-nm_worker_unpin
	.cfi_endproc
	.section	.text.nm_map_attach,"ax",@progbits
	.globl	nm_map_attach
	.p2align	4
	.type	nm_map_attach,@function
nm_map_attach:
	.cfi_startproc
	pushq	%rbp
	.cfi_def_cfa_offset 16
	pushq	%r15
	.cfi_def_cfa_offset 24
	pushq	%r14
	.cfi_def_cfa_offset 32
	pushq	%r13
	.cfi_def_cfa_offset 40
	pushq	%r12
	.cfi_def_cfa_offset 48
	pushq	%rbx
	.cfi_def_cfa_offset 56
	subq	$744, %rsp
	.cfi_def_cfa_offset 800
	.cfi_offset %rbx, -56
	.cfi_offset %r12, -48
	.cfi_offset %r13, -40
	.cfi_offset %r14, -32
	.cfi_offset %r15, -24
	.cfi_offset %rbp, -16
	xorps	%xmm0, %xmm0
	movaps	%xmm0, 320(%rsp)
	movaps	%xmm0, 336(%rsp)
	movaps	%xmm0, 352(%rsp)
	movaps	%xmm0, 368(%rsp)
	movaps	%xmm0, 384(%rsp)
	movaps	%xmm0, 400(%rsp)
	movaps	%xmm0, 416(%rsp)
	movaps	%xmm0, 432(%rsp)
	movq	$0, 448(%rsp)
	movaps	%xmm0, 16(%rsp)
	movq	$0, 32(%rsp)
	movl	$1, %ecx
	xchgq	%rcx, 8(%rsi)
	movl	$-22, %eax
	testq	%rcx, %rcx
	jne	.LBB129_29
	movq	(%rsi), %rcx
	movq	$0, (%rsi)
	testq	%rcx, %rcx
	je	.LBB129_3
	movq	%rcx, (%rsi)
	xorl	%eax, %eax
	xchgq	%rax, 8(%rsi)
	movl	$-2, %eax
	jmp	.LBB129_29
.LBB129_3:
	movl	$8388607, %ecx
	.p2align	4
.LBB129_4:
	movl	$1, %edx
	xchgq	%rdx, 8(%rdi)
	testq	%rdx, %rdx
	je	.LBB129_5
	pause
	decl	%ecx
	jne	.LBB129_4
	movl	$1, %ecx
	xchgq	%rcx, 8(%rdi)
	testq	%rcx, %rcx
	je	.LBB129_9
	xorl	%ecx, %ecx
	xchgq	%rcx, 8(%rsi)
	jmp	.LBB129_29
.LBB129_5:
	movq	(%rdi), %r15
	movq	$0, (%rdi)
	testq	%r15, %r15
	jne	.LBB129_12
	xorl	%eax, %eax
	xchgq	%rax, 8(%rdi)
	jmp	.LBB129_11
.LBB129_9:
	movq	(%rdi), %r15
	movq	$0, (%rdi)
	testq	%r15, %r15
	je	.LBB129_10
.LBB129_12:
	xorps	%xmm0, %xmm0
	movaps	%xmm0, 608(%rsp)
	movaps	%xmm0, 624(%rsp)
	movaps	%xmm0, 640(%rsp)
	movaps	%xmm0, 656(%rsp)
	movaps	%xmm0, 672(%rsp)
	movaps	%xmm0, 688(%rsp)
	movaps	%xmm0, 704(%rsp)
	movaps	%xmm0, 720(%rsp)
	movq	$0, 736(%rsp)
	movaps	%xmm0, 464(%rsp)
	movaps	%xmm0, 480(%rsp)
	movaps	%xmm0, 496(%rsp)
	movaps	%xmm0, 512(%rsp)
	movaps	%xmm0, 528(%rsp)
	movaps	%xmm0, 544(%rsp)
	movaps	%xmm0, 560(%rsp)
	movaps	%xmm0, 576(%rsp)
	movq	$0, 592(%rsp)
	movaps	%xmm0, 48(%rsp)
	movq	$0, 64(%rsp)
	movaps	%xmm0, 288(%rsp)
	movq	$0, 304(%rsp)
	cmpb	$2, (%r15)
	jne	.LBB129_30
	movaps	%xmm0, 240(%rsp)
	movaps	%xmm0, 224(%rsp)
	movaps	%xmm0, 208(%rsp)
	movaps	%xmm0, 192(%rsp)
	movaps	%xmm0, 176(%rsp)
	movaps	%xmm0, 160(%rsp)
	movaps	%xmm0, 144(%rsp)
	movaps	%xmm0, 128(%rsp)
	movaps	%xmm0, 112(%rsp)
	movaps	%xmm0, 96(%rsp)
	cmpb	$0, 8(%r15)
	movq	%rdi, 88(%rsp)
	movq	%rsi, 80(%rsp)
	je	.LBB129_14
	movb	$25, %bpl
	jmp	.LBB129_22
.LBB129_30:
	movaps	%xmm0, 432(%rsp)
	movaps	%xmm0, 416(%rsp)
	movaps	%xmm0, 400(%rsp)
	movaps	%xmm0, 384(%rsp)
	movaps	%xmm0, 368(%rsp)
	movaps	%xmm0, 352(%rsp)
	movaps	%xmm0, 336(%rsp)
	movaps	%xmm0, 320(%rsp)
	movq	$0, 448(%rsp)
	movaps	%xmm0, 16(%rsp)
	movq	$0, 32(%rsp)
	xorl	%r14d, %r14d
	movb	$9, %bpl
	xorl	%r12d, %r12d
	xorl	%ebx, %ebx
	movl	$0, 12(%rsp)
	xorl	%r13d, %r13d
	jmp	.LBB129_24
.LBB129_14:
	movq	16(%r15), %rbx
.LBB129_15:
	movq	(%rbx), %rax
	movabsq	$9223372036854775806, %rcx
	cmpq	%rcx, %rax
	ja	.LBB129_21
	leaq	1(%rax), %rcx
	lock		cmpxchgq	%rcx, (%rbx)
	jne	.LBB129_15
	leaq	8(%rbx), %rsi
	leaq	96(%rsp), %rdi
	callq	"nm_set::attach::take_any"
	cmpb	$1, 96(%rsp)
	jne	.LBB129_19
	leaq	104(%rsp), %rsi
	movl	240(%rsp), %eax
	movl	%eax, 12(%rsp)
	movq	248(%rsp), %r13
	leaq	608(%rsp), %rbp
	movl	$136, %edx
	movq	%rbp, %rdi
	callq	memcpy@PLT
	leaq	464(%rsp), %rdi
	movl	$136, %edx
	movq	%rbp, %rsi
	callq	memcpy@PLT
	movaps	288(%rsp), %xmm0
	movaps	%xmm0, 48(%rsp)
	movq	304(%rsp), %rax
	movq	%rax, 64(%rsp)
	movl	$3, %r12d
	movb	$1, %r14b
	xorl	%ebp, %ebp
	jmp	.LBB129_23
.LBB129_10:
	xorl	%eax, %eax
	xchgq	%rax, 8(%rdi)
.LBB129_11:
	xorl	%eax, %eax
	xchgq	%rax, 8(%rsi)
	movl	$-1, %eax
	jmp	.LBB129_29
.LBB129_21:
	movb	$27, %bpl
	jmp	.LBB129_22
.LBB129_19:
	movq	%rbx, %rdi
	callq	"std_alloc::arc::Arc::drop::<#ee99c0b4357605a3>"
	movb	$29, %bpl
.LBB129_22:
	xorl	%r14d, %r14d
	xorl	%ebx, %ebx
	movl	$0, 12(%rsp)
	xorl	%r13d, %r13d
	xorl	%r12d, %r12d
.LBB129_23:
	leaq	320(%rsp), %rdi
	leaq	464(%rsp), %rsi
	movl	$136, %edx
	callq	memcpy@PLT
	movaps	48(%rsp), %xmm0
	movaps	%xmm0, 16(%rsp)
	movq	64(%rsp), %rax
	movq	%rax, 32(%rsp)
	movq	80(%rsp), %rsi
	movq	88(%rsp), %rdi
.LBB129_24:
	movq	%r15, (%rdi)
	xorl	%eax, %eax
	xchgq	%rax, 8(%rdi)
	xorps	%xmm0, %xmm0
	movaps	%xmm0, 272(%rsp)
	movaps	%xmm0, 256(%rsp)
	movaps	%xmm0, 240(%rsp)
	movaps	%xmm0, 224(%rsp)
	movaps	%xmm0, 208(%rsp)
	movaps	%xmm0, 192(%rsp)
	movaps	%xmm0, 176(%rsp)
	movaps	%xmm0, 160(%rsp)
	movaps	%xmm0, 144(%rsp)
	movaps	%xmm0, 128(%rsp)
	movaps	%xmm0, 112(%rsp)
	movaps	%xmm0, 96(%rsp)
	testb	%r14b, %r14b
	je	.LBB129_26
	movq	%r12, 96(%rsp)
	movq	%rbx, 104(%rsp)
	leaq	112(%rsp), %rdi
	leaq	320(%rsp), %rax
	movl	$136, %edx
	movq	%rsi, %rbx
	movq	%rax, %rsi
	callq	memcpy@PLT
	movl	12(%rsp), %eax
	movl	%eax, 248(%rsp)
	movq	%r13, 256(%rsp)
	movaps	16(%rsp), %xmm0
	movups	%xmm0, 264(%rsp)
	movq	32(%rsp), %rax
	movq	%rax, 280(%rsp)
	leaq	96(%rsp), %rsi
	movq	%rbx, %rdi
	callq	"nm_set_c::opening::open"
	movl	%eax, %ebp
	jmp	.LBB129_27
.LBB129_26:
	xorl	%eax, %eax
	xchgq	%rax, 8(%rsi)
.LBB129_27:
	movzbl	%bpl, %eax
	leaq	.Lswitch.table.nm_set_new_unbalanced.493(%rip), %rcx
	movl	(%rcx,%rax,4), %eax
.LBB129_29:
	addq	$744, %rsp
	.cfi_def_cfa_offset 56
	popq	%rbx
	.cfi_def_cfa_offset 48
	popq	%r12
	.cfi_def_cfa_offset 40
	popq	%r13
	.cfi_def_cfa_offset 32
	popq	%r14
	.cfi_def_cfa_offset 24
	popq	%r15
	.cfi_def_cfa_offset 16
	popq	%rbp
	.cfi_def_cfa_offset 8
	retq
.Lfunc_end129:
	.size	nm_map_attach, .Lfunc_end129-nm_map_attach
	.cfi_endproc
	.section	.text.nm_map_new,"ax",@progbits
	.globl	nm_map_new
	.p2align	4
	.type	nm_map_new,@function
nm_map_new:
	.cfi_startproc
	pushq	%rbp
	.cfi_def_cfa_offset 16
	pushq	%r15
	.cfi_def_cfa_offset 24
	pushq	%r14
	.cfi_def_cfa_offset 32
	pushq	%r13
	.cfi_def_cfa_offset 40
	pushq	%r12
	.cfi_def_cfa_offset 48
	pushq	%rbx
	.cfi_def_cfa_offset 56
	subq	$1864, %rsp
	.cfi_def_cfa_offset 1920
	.cfi_offset %rbx, -56
	.cfi_offset %r12, -48
	.cfi_offset %r13, -40
	.cfi_offset %r14, -32
	.cfi_offset %r15, -24
	.cfi_offset %rbp, -16
	xorps	%xmm0, %xmm0
	movaps	%xmm0, 128(%rsp)
	movaps	%xmm0, 144(%rsp)
	movaps	%xmm0, 160(%rsp)
	movaps	%xmm0, 176(%rsp)
	movaps	%xmm0, 192(%rsp)
	movq	$0, 208(%rsp)
	movaps	%xmm0, 320(%rsp)
	movaps	%xmm0, 1664(%rsp)
	movaps	%xmm0, 1680(%rsp)
	movaps	%xmm0, 1696(%rsp)
	movaps	%xmm0, 1712(%rsp)
	movaps	%xmm0, 1728(%rsp)
	movaps	%xmm0, 1744(%rsp)
	movaps	%xmm0, 1760(%rsp)
	movaps	%xmm0, 1776(%rsp)
	movaps	%xmm0, 1792(%rsp)
	movaps	%xmm0, 1808(%rsp)
	movaps	%xmm0, 1824(%rsp)
	movaps	%xmm0, 1840(%rsp)
	movl	$1, %ecx
	xchgq	%rcx, 8(%rdi)
	movl	$-22, %eax
	testq	%rcx, %rcx
	jne	.LBB130_59
	movq	(%rdi), %rax
	movq	$0, (%rdi)
	testq	%rax, %rax
	je	.LBB130_3
	movq	%rax, (%rdi)
	xorl	%eax, %eax
	xchgq	%rax, 8(%rdi)
	movl	$-2, %eax
	jmp	.LBB130_59
.LBB130_3:
	movaps	%xmm0, 784(%rsp)
	movaps	%xmm0, 800(%rsp)
	movaps	%xmm0, 816(%rsp)
	movaps	%xmm0, 832(%rsp)
	movaps	%xmm0, 848(%rsp)
	movq	$0, 864(%rsp)
	movaps	%xmm0, 1008(%rsp)
	leal	-7(%rsi), %ecx
	xorl	%eax, %eax
	cmpl	$268435449, %ecx
	ja	.LBB130_57
	leal	-1(%rdx), %ecx
	movl	$-1, %eax
	cmpl	$63, %ecx
	ja	.LBB130_57
	movq	%rdi, %rbp
	movl	%edx, %eax
	shll	$4, %eax
	orl	$14, %eax
	movl	$15, 92(%rsp)
	movb	$1, 96(%rsp)
	movw	$0, 97(%rsp)
	movb	$0, 99(%rsp)
	movl	%eax, 100(%rsp)
	movaps	%xmm0, 224(%rsp)
	movaps	%xmm0, 240(%rsp)
	movaps	%xmm0, 256(%rsp)
	movaps	%xmm0, 272(%rsp)
	movaps	%xmm0, 288(%rsp)
	movq	$0, 304(%rsp)
	movaps	%xmm0, 336(%rsp)
	movaps	%xmm0, 880(%rsp)
	movaps	%xmm0, 896(%rsp)
	movaps	%xmm0, 912(%rsp)
	movaps	%xmm0, 928(%rsp)
	movaps	%xmm0, 944(%rsp)
	movaps	%xmm0, 960(%rsp)
	movaps	%xmm0, 976(%rsp)
	movq	$0, 990(%rsp)
	movl	$0, 59(%rsp)
	movl	$0, 56(%rsp)
	movl	%esi, 64(%rsp)
	movl	%edx, 68(%rsp)
	movl	$15, 72(%rsp)
	movb	$1, 76(%rsp)
	movw	$0, 77(%rsp)
	movb	$0, 79(%rsp)
	movl	%eax, 80(%rsp)
	movaps	%xmm0, 1488(%rsp)
	movaps	%xmm0, 1504(%rsp)
	movaps	%xmm0, 1520(%rsp)
	movaps	%xmm0, 1536(%rsp)
	movaps	%xmm0, 1552(%rsp)
	movaps	%xmm0, 1568(%rsp)
	movaps	%xmm0, 1584(%rsp)
	movq	$0, 1598(%rsp)
	movaps	%xmm0, 1056(%rsp)
	movaps	%xmm0, 1072(%rsp)
	movaps	%xmm0, 1088(%rsp)
	movaps	%xmm0, 1104(%rsp)
	movaps	%xmm0, 1120(%rsp)
	movaps	%xmm0, 1136(%rsp)
	movaps	%xmm0, 1152(%rsp)
	movq	$0, 1166(%rsp)
	movaps	%xmm0, 1344(%rsp)
	movaps	%xmm0, 1360(%rsp)
	movaps	%xmm0, 1376(%rsp)
	movaps	%xmm0, 1392(%rsp)
	movaps	%xmm0, 1408(%rsp)
	movaps	%xmm0, 1424(%rsp)
	movaps	%xmm0, 1440(%rsp)
	movq	$0, 1456(%rsp)
	movaps	%xmm0, 1184(%rsp)
	movaps	%xmm0, 1200(%rsp)
	movaps	%xmm0, 1216(%rsp)
	movaps	%xmm0, 1232(%rsp)
	movaps	%xmm0, 1248(%rsp)
	movq	$0, 1264(%rsp)
	movaps	%xmm0, 752(%rsp)
	movq	$0, 768(%rsp)
	movq	%rsi, %rbx
	movl	%esi, 84(%rsp)
	movq	%rdx, 8(%rsp)
	movl	%edx, 88(%rsp)
	movaps	%xmm0, 720(%rsp)
	movaps	%xmm0, 704(%rsp)
	movaps	%xmm0, 688(%rsp)
	movaps	%xmm0, 672(%rsp)
	movaps	%xmm0, 656(%rsp)
	movaps	%xmm0, 640(%rsp)
	movaps	%xmm0, 624(%rsp)
	movq	$0, 735(%rsp)
	movaps	%xmm0, 352(%rsp)
	movaps	%xmm0, 368(%rsp)
	movaps	%xmm0, 384(%rsp)
	movaps	%xmm0, 400(%rsp)
	movaps	%xmm0, 416(%rsp)
	movaps	%xmm0, 432(%rsp)
	movaps	%xmm0, 448(%rsp)
	movq	$0, 464(%rsp)
	movaps	%xmm0, 1024(%rsp)
	movaps	%xmm0, 1040(%rsp)
	leaq	1024(%rsp), %rdi
	leaq	64(%rsp), %rsi
	callq	"nm_steps::pass::making::opening_words"
	cmpb	$0, 1024(%rsp)
	jne	.LBB130_41
	movl	%ebx, %r14d
	movups	1032(%rsp), %xmm0
	movaps	%xmm0, 16(%rsp)
	movq	1048(%rsp), %rax
	movq	%rax, 32(%rsp)
	movq	24(%rsp), %rdi
	leaq	(%rdi,%r14), %rbx
	cmpq	%rdi, %rbx
	jbe	.LBB130_13
	movq	32(%rsp), %r15
	movq	%r15, %rax
	subq	%rdi, %rax
	cmpq	%r14, %rax
	jb	.LBB130_8
	cmpq	%rbx, %rdi
	jae	.LBB130_12
.LBB130_11:
	shlq	$3, %rdi
	addq	16(%rsp), %rdi
	leaq	(,%r14,8), %rdx
	xorl	%esi, %esi
	callq	memset@PLT
.LBB130_12:
	movq	%r15, 32(%rsp)
.LBB130_13:
	movl	$1, %esi
	xorl	%edi, %edi
	callq	nm_host_alloc@PLT
	testb	$1, %al
	je	.LBB130_20
	movq	%rdx, %r12
	movq	16(%rsp), %r15
	leaq	(,%rbx,8), %rdi
	testq	%rdi, %rdi
	js	.LBB130_38
	movl	$8, %esi
	callq	nm_host_alloc@PLT
	testb	$1, %al
	je	.LBB130_38
	movq	%rdx, %r13
	movl	$1, %esi
	xorl	%edi, %edi
	callq	nm_host_alloc@PLT
	testb	$1, %al
	je	.LBB130_37
	movq	%rdx, 48(%rsp)
	testq	%rbx, %rbx
	je	.LBB130_30
	cmpq	$4, %rbx
	setb	%al
	movq	%r13, %rcx
	subq	%r15, %rcx
	cmpq	$32, %rcx
	setb	%cl
	orb	%al, %cl
	je	.LBB130_22
	xorl	%eax, %eax
	jmp	.LBB130_25
.LBB130_57:
	movaps	%xmm0, 192(%rsp)
	movaps	%xmm0, 176(%rsp)
	movaps	%xmm0, 160(%rsp)
	movaps	%xmm0, 144(%rsp)
	movaps	%xmm0, 128(%rsp)
	movq	$0, 208(%rsp)
	movaps	%xmm0, 320(%rsp)
.LBB130_58:
	xorl	%ecx, %ecx
	xchgq	%rcx, 8(%rdi)
	addl	$-6, %eax
	jmp	.LBB130_59
.LBB130_37:
	movq	%r13, %rdi
	callq	nm_host_dealloc@PLT
.LBB130_38:
	movq	%r12, %rdi
	callq	nm_host_dealloc@PLT
	cmpq	$0, 32(%rsp)
	je	.LBB130_41
	movq	%r15, %rdi
	jmp	.LBB130_40
.LBB130_8:
	leaq	16(%rsp), %rdi
	movq	%r14, %rsi
	callq	"std_alloc::vec::Vec::grow_amortized::<#228f364035548015>"
	testb	%al, %al
	je	.LBB130_20
	movq	24(%rsp), %rdi
	movq	32(%rsp), %r15
	leaq	(%rdi,%r14), %rbx
	cmpq	%rbx, %rdi
	jb	.LBB130_11
	jmp	.LBB130_12
.LBB130_20:
	cmpq	$0, 32(%rsp)
	je	.LBB130_41
	movq	16(%rsp), %rdi
.LBB130_40:
	callq	nm_host_dealloc@PLT
.LBB130_41:
	xorps	%xmm0, %xmm0
	movaps	%xmm0, 128(%rsp)
	movaps	%xmm0, 144(%rsp)
	movaps	%xmm0, 160(%rsp)
	movaps	%xmm0, 176(%rsp)
	movaps	%xmm0, 192(%rsp)
	movq	$0, 208(%rsp)
	movaps	%xmm0, 320(%rsp)
	xorl	%eax, %eax
	xchgq	%rax, 8(%rbp)
	movl	$-8, %eax
.LBB130_59:
	addq	$1864, %rsp
	.cfi_def_cfa_offset 56
	popq	%rbx
	.cfi_def_cfa_offset 48
	popq	%r12
	.cfi_def_cfa_offset 40
	popq	%r13
	.cfi_def_cfa_offset 32
	popq	%r14
	.cfi_def_cfa_offset 24
	popq	%r15
	.cfi_def_cfa_offset 16
	popq	%rbp
	.cfi_def_cfa_offset 8
	retq
.LBB130_22:
	.cfi_def_cfa_offset 1920
	movq	%rbx, %rax
	andq	$-4, %rax
	xorl	%ecx, %ecx
.LBB130_23:
	movups	(%r15,%rcx,8), %xmm0
	movups	16(%r15,%rcx,8), %xmm1
	movups	%xmm0, (%r13,%rcx,8)
	movups	%xmm1, 16(%r13,%rcx,8)
	addq	$4, %rcx
	cmpq	%rcx, %rax
	jne	.LBB130_23
	cmpq	%rax, %rbx
	je	.LBB130_30
.LBB130_25:
	movq	%rbx, %rdx
	movq	%rax, %rcx
	andq	$3, %rdx
	je	.LBB130_28
	movq	%rax, %rcx
.LBB130_27:
	movq	(%r15,%rcx,8), %rsi
	movq	%rsi, (%r13,%rcx,8)
	incq	%rcx
	decq	%rdx
	jne	.LBB130_27
.LBB130_28:
	subq	%rbx, %rax
	cmpq	$-4, %rax
	ja	.LBB130_30
.LBB130_29:
	movq	(%r15,%rcx,8), %rax
	movq	%rax, (%r13,%rcx,8)
	movq	8(%r15,%rcx,8), %rax
	movq	%rax, 8(%r13,%rcx,8)
	movq	16(%r15,%rcx,8), %rax
	movq	%rax, 16(%r13,%rcx,8)
	movq	24(%r15,%rcx,8), %rax
	movq	%rax, 24(%r13,%rcx,8)
	addq	$4, %rcx
	cmpq	%rcx, %rbx
	jne	.LBB130_29
.LBB130_30:
	movq	%r12, %rdi
	callq	nm_host_dealloc@PLT
	movq	%r13, 1280(%rsp)
	movq	48(%rsp), %rax
	movq	%rax, 1288(%rsp)
	movq	%rbx, 1296(%rsp)
	movq	%r14, 1304(%rsp)
	movq	%r13, 1312(%rsp)
	movq	%rbx, 1320(%rsp)
	movq	%rax, 1328(%rsp)
	movq	%r14, 1336(%rsp)
	leaq	352(%rsp), %rdi
	leaq	84(%rsp), %rsi
	leaq	1280(%rsp), %rdx
	movl	$1, %ecx
	callq	"nm_steps::pass::making::dealt"
	cmpq	$0, 32(%rsp)
	je	.LBB130_32
	movq	%r15, %rdi
	callq	nm_host_dealloc@PLT
.LBB130_32:
	movups	360(%rsp), %xmm0
	movups	376(%rsp), %xmm1
	movups	392(%rsp), %xmm2
	movups	408(%rsp), %xmm3
	movups	%xmm0, 631(%rsp)
	movups	%xmm1, 647(%rsp)
	movups	%xmm2, 663(%rsp)
	movups	%xmm3, 679(%rsp)
	movups	424(%rsp), %xmm0
	movups	%xmm0, 695(%rsp)
	movups	440(%rsp), %xmm0
	movups	%xmm0, 711(%rsp)
	movups	456(%rsp), %xmm0
	movups	%xmm0, 727(%rsp)
	cmpb	$0, 352(%rsp)
	jne	.LBB130_41
	leaq	631(%rsp), %rax
	movups	96(%rax), %xmm0
	movups	%xmm0, 1158(%rsp)
	movups	80(%rax), %xmm0
	movups	%xmm0, 1142(%rsp)
	movups	64(%rax), %xmm0
	movups	%xmm0, 1126(%rsp)
	movups	(%rax), %xmm1
	movups	16(%rax), %xmm2
	movups	32(%rax), %xmm3
	movups	48(%rax), %xmm4
	movups	%xmm4, 1110(%rsp)
	movups	%xmm3, 1094(%rsp)
	movups	%xmm2, 1078(%rsp)
	movups	%xmm1, 1062(%rsp)
	movaps	%xmm1, 1184(%rsp)
	movaps	%xmm2, 1200(%rsp)
	movaps	%xmm3, 1216(%rsp)
	movaps	%xmm4, 1232(%rsp)
	movaps	%xmm0, 1248(%rsp)
	movq	1142(%rsp), %rax
	movq	%rax, 1264(%rsp)
	movups	1150(%rsp), %xmm0
	movaps	%xmm0, 752(%rsp)
	movq	1166(%rsp), %rax
	movq	%rax, 768(%rsp)
	leaq	1344(%rsp), %rdi
	leaq	1184(%rsp), %rsi
	leaq	752(%rsp), %rdx
	movl	$1, %ecx
	callq	"nm_tree::tree::with_workers"
	cmpb	$0, 1344(%rsp)
	jne	.LBB130_41
	movups	1448(%rsp), %xmm0
	movups	%xmm0, 1590(%rsp)
	movups	1432(%rsp), %xmm0
	movups	%xmm0, 1574(%rsp)
	movups	1416(%rsp), %xmm1
	movups	%xmm1, 1558(%rsp)
	movups	1352(%rsp), %xmm2
	movups	1368(%rsp), %xmm3
	movups	1384(%rsp), %xmm4
	movups	1400(%rsp), %xmm5
	movups	%xmm5, 1542(%rsp)
	movups	%xmm4, 1526(%rsp)
	movups	%xmm3, 1510(%rsp)
	movups	%xmm2, 1494(%rsp)
	movups	%xmm0, 966(%rsp)
	movups	%xmm1, 950(%rsp)
	movups	%xmm5, 934(%rsp)
	movups	%xmm4, 918(%rsp)
	movups	%xmm3, 902(%rsp)
	movups	%xmm2, 886(%rsp)
	movups	1590(%rsp), %xmm0
	movups	%xmm0, 982(%rsp)
	xorps	%xmm0, %xmm0
	movaps	%xmm0, 352(%rsp)
	movaps	%xmm0, 368(%rsp)
	movaps	%xmm0, 384(%rsp)
	movaps	%xmm0, 400(%rsp)
	movaps	%xmm0, 416(%rsp)
	movaps	%xmm0, 432(%rsp)
	movaps	%xmm0, 448(%rsp)
	movaps	%xmm0, 464(%rsp)
	movaps	%xmm0, 480(%rsp)
	movaps	%xmm0, 496(%rsp)
	movaps	%xmm0, 512(%rsp)
	movaps	%xmm0, 528(%rsp)
	movaps	%xmm0, 544(%rsp)
	movq	$0, 560(%rsp)
	movups	886(%rsp), %xmm0
	movups	902(%rsp), %xmm1
	movups	918(%rsp), %xmm2
	movups	934(%rsp), %xmm3
	movaps	%xmm0, 624(%rsp)
	movaps	%xmm1, 640(%rsp)
	movaps	%xmm2, 656(%rsp)
	movaps	%xmm3, 672(%rsp)
	movups	950(%rsp), %xmm0
	movaps	%xmm0, 688(%rsp)
	movq	966(%rsp), %rax
	movq	%rax, 704(%rsp)
	movb	$1, 712(%rsp)
	movl	56(%rsp), %eax
	movl	59(%rsp), %ecx
	movl	%ecx, 716(%rsp)
	movl	%eax, 713(%rsp)
	movq	990(%rsp), %rax
	movq	%rax, 1072(%rsp)
	movups	974(%rsp), %xmm0
	movaps	%xmm0, 1056(%rsp)
	leaq	352(%rsp), %rdi
	leaq	624(%rsp), %rsi
	leaq	1056(%rsp), %rdx
	movq	8(%rsp), %rcx
	callq	"nm_set::home::Home::of"
	cmpb	$0, 352(%rsp)
	je	.LBB130_35
.LBB130_54:
	xorps	%xmm0, %xmm0
	movaps	%xmm0, 288(%rsp)
	movaps	%xmm0, 272(%rsp)
	movaps	%xmm0, 256(%rsp)
	movaps	%xmm0, 240(%rsp)
	movaps	%xmm0, 224(%rsp)
	movq	$0, 304(%rsp)
	movaps	%xmm0, 336(%rsp)
	movl	$-2, %eax
	xorl	%esi, %esi
	xorl	%edx, %edx
	xorl	%ecx, %ecx
.LBB130_55:
	movaps	224(%rsp), %xmm0
	movaps	240(%rsp), %xmm1
	movaps	256(%rsp), %xmm2
	movaps	272(%rsp), %xmm3
	movaps	%xmm0, 784(%rsp)
	movaps	%xmm1, 800(%rsp)
	movaps	%xmm2, 816(%rsp)
	movaps	%xmm3, 832(%rsp)
	movaps	288(%rsp), %xmm0
	movaps	%xmm0, 848(%rsp)
	movq	304(%rsp), %rdi
	movq	%rdi, 864(%rsp)
	movaps	336(%rsp), %xmm0
	movaps	%xmm0, 1008(%rsp)
	movq	864(%rsp), %rdi
	movq	%rdi, 208(%rsp)
	movaps	848(%rsp), %xmm0
	movaps	%xmm0, 192(%rsp)
	movaps	784(%rsp), %xmm0
	movaps	800(%rsp), %xmm1
	movaps	816(%rsp), %xmm2
	movaps	832(%rsp), %xmm3
	movaps	%xmm3, 176(%rsp)
	movaps	%xmm2, 160(%rsp)
	movaps	%xmm1, 144(%rsp)
	movaps	%xmm0, 128(%rsp)
	movaps	1008(%rsp), %xmm0
	movaps	%xmm0, 320(%rsp)
	testb	%sil, %sil
	movq	%rbp, %rdi
	je	.LBB130_58
	movq	$2, 1664(%rsp)
	movq	$0, 1672(%rsp)
	movq	%rdx, 1680(%rsp)
	movaps	128(%rsp), %xmm0
	movaps	144(%rsp), %xmm1
	movaps	160(%rsp), %xmm2
	movaps	176(%rsp), %xmm3
	movups	%xmm0, 1688(%rsp)
	movups	%xmm1, 1704(%rsp)
	movups	%xmm2, 1720(%rsp)
	movups	%xmm3, 1736(%rsp)
	movaps	192(%rsp), %xmm0
	movups	%xmm0, 1752(%rsp)
	movq	208(%rsp), %rax
	movq	%rax, 1768(%rsp)
	movq	%rcx, 1776(%rsp)
	movaps	320(%rsp), %xmm0
	movups	%xmm0, 1784(%rsp)
	leaq	1664(%rsp), %rsi
	callq	"nm_set_c::opening::open"
	movzbl	%al, %eax
	leaq	.Lswitch.table.nm_set_new_unbalanced(%rip), %rcx
	movl	-8(%rcx,%rax,4), %eax
	jmp	.LBB130_59
.LBB130_35:
	movq	360(%rsp), %rax
	movq	%rax, 576(%rsp)
	movq	392(%rsp), %rbx
	movq	400(%rsp), %rax
	movq	%rax, 592(%rsp)
	movq	408(%rsp), %r14
	movq	416(%rsp), %rax
	movq	%rax, 584(%rsp)
	movaps	448(%rsp), %xmm0
	movaps	%xmm0, 1648(%rsp)
	movq	464(%rsp), %r13
	movq	480(%rsp), %r12
	movups	472(%rsp), %xmm0
	movaps	%xmm0, 1632(%rsp)
	movq	488(%rsp), %rax
	movq	%rax, 112(%rsp)
	movq	496(%rsp), %rax
	movq	%rax, 608(%rsp)
	movq	504(%rsp), %rax
	movq	%rax, 120(%rsp)
	movq	512(%rsp), %rax
	movq	%rax, 600(%rsp)
	movq	520(%rsp), %rax
	movq	%rax, 104(%rsp)
	movq	536(%rsp), %rax
	movq	%rax, 616(%rsp)
	movaps	528(%rsp), %xmm0
	movaps	%xmm0, 1616(%rsp)
	movq	544(%rsp), %rax
	movq	%rax, 8(%rsp)
	movq	552(%rsp), %r15
	movq	560(%rsp), %rax
	movq	%rax, 48(%rsp)
	movl	$216, %edi
	movl	$8, %esi
	callq	nm_host_alloc@PLT
	testb	$1, %al
	je	.LBB130_42
	movq	$1, (%rdx)
	movq	576(%rsp), %rax
	movq	%rax, 8(%rdx)
	movaps	368(%rsp), %xmm0
	movups	%xmm0, 16(%rdx)
	movq	384(%rsp), %rax
	movq	%rax, 32(%rdx)
	movq	%rbx, 40(%rdx)
	movq	592(%rsp), %rax
	movq	%rax, 48(%rdx)
	movq	%r14, 56(%rdx)
	movq	584(%rsp), %rax
	movq	%rax, 64(%rdx)
	movups	424(%rsp), %xmm0
	movups	%xmm0, 72(%rdx)
	movq	440(%rsp), %rax
	movq	%rax, 88(%rdx)
	movaps	1648(%rsp), %xmm0
	movups	%xmm0, 96(%rdx)
	movq	%r13, 112(%rdx)
	movaps	1632(%rsp), %xmm0
	movups	%xmm0, 120(%rdx)
	movq	112(%rsp), %rax
	movq	%rax, 136(%rdx)
	movq	608(%rsp), %rax
	movq	%rax, 144(%rdx)
	movq	120(%rsp), %rax
	movq	%rax, 152(%rdx)
	movq	600(%rsp), %rax
	movq	%rax, 160(%rdx)
	movq	104(%rsp), %rax
	movq	%rax, 168(%rdx)
	movaps	1616(%rsp), %xmm0
	movups	%xmm0, 176(%rdx)
	movq	8(%rsp), %rax
	movq	%rax, 192(%rdx)
	movq	%r15, 200(%rdx)
	movq	48(%rsp), %rax
	movq	%rax, 208(%rdx)
	xorps	%xmm0, %xmm0
	movaps	%xmm0, 288(%rsp)
	movaps	%xmm0, 272(%rsp)
	movaps	%xmm0, 256(%rsp)
	movaps	%xmm0, 240(%rsp)
	movaps	%xmm0, 224(%rsp)
	movq	$0, 304(%rsp)
	movaps	%xmm0, 336(%rsp)
	movq	%rsp, %rcx
	xorl	%eax, %eax
	movb	$1, %sil
	jmp	.LBB130_55
.LBB130_42:
	movq	%rbx, %rdi
	callq	nm_host_dealloc@PLT
	movq	%r14, %rdi
	callq	nm_host_dealloc@PLT
	testq	%r12, %r12
	je	.LBB130_47
	addq	$8, %r13
	jmp	.LBB130_44
.LBB130_46:
	addq	$144, %r13
	decq	%r12
	je	.LBB130_47
.LBB130_44:
	cmpb	$0, -8(%r13)
	je	.LBB130_46
	leaq	1344(%rsp), %rbx
	movl	$136, %edx
	movq	%rbx, %rdi
	movq	%r13, %rsi
	callq	memcpy@PLT
	movq	%rbx, %rdi
	callq	"nm_set::nm_tree++worker++Worker+Destruct::drop"
	jmp	.LBB130_46
.LBB130_47:
	movq	112(%rsp), %rdi
	callq	nm_host_dealloc@PLT
	movq	120(%rsp), %rdi
	callq	nm_host_dealloc@PLT
	cmpq	$0, 616(%rsp)
	je	.LBB130_49
	movq	104(%rsp), %rdi
	callq	nm_host_dealloc@PLT
.LBB130_49:
	testq	%r15, %r15
	je	.LBB130_52
	movq	8(%rsp), %rbx
.LBB130_51:
	leaq	1344(%rsp), %r14
	movl	$136, %edx
	movq	%r14, %rdi
	movq	%rbx, %rsi
	callq	memcpy@PLT
	movq	%r14, %rdi
	callq	"nm_set::nm_tree++worker++Worker+Destruct::drop"
	addq	$136, %rbx
	decq	%r15
	jne	.LBB130_51
.LBB130_52:
	cmpq	$0, 48(%rsp)
	je	.LBB130_54
	movq	8(%rsp), %rdi
	callq	nm_host_dealloc@PLT
	jmp	.LBB130_54
.Lfunc_end130:
	.size	nm_map_new, .Lfunc_end130-nm_map_new
	.cfi_endproc
	.section	.text.nm_map_worker,"ax",@progbits
	.globl	nm_map_worker
	.p2align	4
	.type	nm_map_worker,@function
nm_map_worker:
	.cfi_startproc
	pushq	%rbp
	.cfi_def_cfa_offset 16
	pushq	%r15
	.cfi_def_cfa_offset 24
	pushq	%r14
	.cfi_def_cfa_offset 32
	pushq	%r13
	.cfi_def_cfa_offset 40
	pushq	%r12
	.cfi_def_cfa_offset 48
	pushq	%rbx
	.cfi_def_cfa_offset 56
	subq	$1224, %rsp
	.cfi_def_cfa_offset 1280
	.cfi_offset %rbx, -56
	.cfi_offset %r12, -48
	.cfi_offset %r13, -40
	.cfi_offset %r14, -32
	.cfi_offset %r15, -24
	.cfi_offset %rbp, -16
	xorps	%xmm0, %xmm0
	movaps	%xmm0, 48(%rsp)
	movaps	%xmm0, 64(%rsp)
	movaps	%xmm0, 80(%rsp)
	movaps	%xmm0, 96(%rsp)
	movaps	%xmm0, 112(%rsp)
	movaps	%xmm0, 128(%rsp)
	movaps	%xmm0, 144(%rsp)
	movq	$0, 160(%rsp)
	movaps	%xmm0, 16(%rsp)
	movq	$0, 32(%rsp)
	movl	$1, %ecx
	xchgq	%rcx, 8(%rsi)
	movl	$-22, %eax
	testq	%rcx, %rcx
	jne	.LBB131_36
	movq	(%rsi), %rcx
	movq	$0, (%rsi)
	testq	%rcx, %rcx
	je	.LBB131_3
	movq	%rcx, (%rsi)
	xorl	%eax, %eax
	xchgq	%rax, 8(%rsi)
	movl	$-2, %eax
	jmp	.LBB131_36
.LBB131_3:
	movl	$8388607, %ecx
	.p2align	4
.LBB131_4:
	movl	$1, %r8d
	xchgq	%r8, 8(%rdi)
	testq	%r8, %r8
	je	.LBB131_5
	pause
	decl	%ecx
	jne	.LBB131_4
	movl	$1, %ecx
	xchgq	%rcx, 8(%rdi)
	testq	%rcx, %rcx
	je	.LBB131_9
	xorl	%ecx, %ecx
	xchgq	%rcx, 8(%rsi)
	jmp	.LBB131_36
.LBB131_5:
	movq	(%rdi), %r14
	movq	$0, (%rdi)
	testq	%r14, %r14
	jne	.LBB131_12
	xorl	%eax, %eax
	xchgq	%rax, 8(%rdi)
	jmp	.LBB131_11
.LBB131_9:
	movq	(%rdi), %r14
	movq	$0, (%rdi)
	testq	%r14, %r14
	je	.LBB131_10
.LBB131_12:
	xorps	%xmm4, %xmm4
	movaps	%xmm4, 528(%rsp)
	movaps	%xmm4, 544(%rsp)
	movaps	%xmm4, 560(%rsp)
	movaps	%xmm4, 576(%rsp)
	movaps	%xmm4, 592(%rsp)
	movaps	%xmm4, 608(%rsp)
	movaps	%xmm4, 624(%rsp)
	movq	$0, 640(%rsp)
	movaps	%xmm4, 400(%rsp)
	movaps	%xmm4, 416(%rsp)
	movaps	%xmm4, 432(%rsp)
	movaps	%xmm4, 448(%rsp)
	movaps	%xmm4, 464(%rsp)
	movaps	%xmm4, 480(%rsp)
	movaps	%xmm4, 496(%rsp)
	movq	$0, 512(%rsp)
	movaps	%xmm4, 176(%rsp)
	movq	$0, 192(%rsp)
	movaps	%xmm4, 1040(%rsp)
	movq	$0, 1056(%rsp)
	cmpb	$2, (%r14)
	jne	.LBB131_23
	movaps	%xmm4, 752(%rsp)
	movaps	%xmm4, 736(%rsp)
	movaps	%xmm4, 720(%rsp)
	movaps	%xmm4, 704(%rsp)
	movaps	%xmm4, 688(%rsp)
	movaps	%xmm4, 672(%rsp)
	movaps	%xmm4, 656(%rsp)
	movq	$0, 768(%rsp)
	cmpb	$0, 8(%r14)
	je	.LBB131_14
	movb	$25, %al
	jmp	.LBB131_29
.LBB131_23:
	movaps	%xmm4, 144(%rsp)
	movaps	%xmm4, 128(%rsp)
	movaps	%xmm4, 112(%rsp)
	movaps	%xmm4, 96(%rsp)
	movaps	%xmm4, 80(%rsp)
	movaps	%xmm4, 64(%rsp)
	movaps	%xmm4, 48(%rsp)
	movq	$0, 160(%rsp)
	movaps	%xmm4, 16(%rsp)
	movq	$0, 32(%rsp)
	xorl	%ecx, %ecx
	movb	$9, %al
	xorl	%r8d, %r8d
	xorl	%ebp, %ebp
	xorl	%r15d, %r15d
	xorl	%edx, %edx
	xorl	%ebx, %ebx
	jmp	.LBB131_31
.LBB131_14:
	movq	16(%r14), %rcx
	movl	%edx, %r8d
	cmpq	%r8, 176(%rcx)
	jbe	.LBB131_26
.LBB131_15:
	movq	(%rcx), %rax
	movabsq	$9223372036854775806, %r9
	cmpq	%r9, %rax
	ja	.LBB131_28
	leaq	1(%rax), %r9
	lock		cmpxchgq	%r9, (%rcx)
	jne	.LBB131_15
	xorps	%xmm0, %xmm0
	movaps	%xmm0, 880(%rsp)
	movaps	%xmm0, 864(%rsp)
	movaps	%xmm0, 848(%rsp)
	movaps	%xmm0, 832(%rsp)
	movaps	%xmm0, 816(%rsp)
	movaps	%xmm0, 800(%rsp)
	movaps	%xmm0, 784(%rsp)
	movq	$0, 896(%rsp)
	cmpq	%r8, 120(%rcx)
	jbe	.LBB131_25
	movq	104(%rcx), %rax
	movq	(%rax), %rax
	movaps	%xmm0, 1168(%rsp)
	movaps	%xmm0, 1152(%rsp)
	movaps	%xmm0, 1136(%rsp)
	movaps	%xmm0, 1120(%rsp)
	movaps	%xmm0, 1104(%rsp)
	movaps	%xmm0, 1088(%rsp)
	movaps	%xmm0, 1072(%rsp)
	movq	$0, 1184(%rsp)
	movq	104(%rcx), %rax
	movq	(%rax,%r8,8), %rbx
	cmpq	$-30, %rbx
	setb	%al
	testb	%bl, %al
	je	.LBB131_19
	movaps	%xmm0, 912(%rsp)
	movaps	%xmm0, 928(%rsp)
	movaps	%xmm0, 944(%rsp)
	movaps	%xmm0, 960(%rsp)
	movaps	%xmm0, 976(%rsp)
	movaps	%xmm0, 992(%rsp)
	movaps	%xmm0, 1008(%rsp)
	movq	$0, 1024(%rsp)
	movaps	%xmm0, 208(%rsp)
	movaps	%xmm0, 224(%rsp)
	movaps	%xmm0, 240(%rsp)
	movaps	%xmm0, 256(%rsp)
	movaps	%xmm0, 272(%rsp)
	movaps	%xmm0, 288(%rsp)
	movaps	%xmm0, 304(%rsp)
	movaps	%xmm0, 320(%rsp)
	movq	$0, 336(%rsp)
	movq	%rbx, %r9
	andq	$-2, %r9
	addq	$2, %r9
	movq	104(%rcx), %r10
	movq	%rbx, %rax
	lock		cmpxchgq	%r9, (%r10,%r8,8)
	jne	.LBB131_19
	movl	%edx, 12(%rsp)
	movq	%rdi, 200(%rsp)
	movq	%rsi, %r13
	movq	%rcx, %rbp
	movq	112(%rcx), %rax
	leaq	(%r8,%r8,8), %rcx
	shlq	$4, %rcx
	movzbl	(%rax,%rcx), %r12d
	leaq	(%rax,%rcx), %rdi
	addq	$8, %rdi
	movsd	8(%rax,%rcx), %xmm0
	movaps	%xmm0, 1200(%rsp)
	movq	16(%rax,%rcx), %r15
	movq	136(%rax,%rcx), %rdx
	movq	%rdx, 1024(%rsp)
	movups	120(%rax,%rcx), %xmm0
	movaps	%xmm0, 1008(%rsp)
	movups	104(%rax,%rcx), %xmm0
	movaps	%xmm0, 992(%rsp)
	movups	88(%rax,%rcx), %xmm0
	movaps	%xmm0, 976(%rsp)
	movups	72(%rax,%rcx), %xmm0
	movaps	%xmm0, 960(%rsp)
	movups	56(%rax,%rcx), %xmm0
	movaps	%xmm0, 944(%rsp)
	movups	40(%rax,%rcx), %xmm0
	movaps	%xmm0, 928(%rsp)
	movups	24(%rax,%rcx), %xmm0
	movaps	%xmm0, 912(%rsp)
	movq	$0, (%rax,%rcx)
	leaq	208(%rsp), %rsi
	movl	$136, %edx
	callq	memcpy@PLT
	cmpb	$1, %r12b
	jne	.LBB131_22
	shrq	%rbx
	movq	1024(%rsp), %rax
	movq	%rax, 1184(%rsp)
	movaps	1008(%rsp), %xmm0
	movaps	%xmm0, 1168(%rsp)
	movaps	992(%rsp), %xmm1
	movaps	%xmm1, 1152(%rsp)
	movaps	976(%rsp), %xmm2
	movaps	%xmm2, 1136(%rsp)
	movaps	912(%rsp), %xmm3
	movaps	928(%rsp), %xmm4
	movaps	944(%rsp), %xmm5
	movaps	960(%rsp), %xmm6
	movaps	%xmm6, 1120(%rsp)
	movaps	%xmm5, 1104(%rsp)
	movaps	%xmm4, 1088(%rsp)
	movaps	%xmm3, 1072(%rsp)
	movaps	%xmm0, 880(%rsp)
	movaps	%xmm1, 864(%rsp)
	movaps	%xmm2, 848(%rsp)
	movaps	%xmm6, 832(%rsp)
	movaps	%xmm5, 816(%rsp)
	movaps	%xmm4, 800(%rsp)
	movaps	%xmm3, 784(%rsp)
	movq	1184(%rsp), %rax
	movq	%rax, 896(%rsp)
	movq	896(%rsp), %rax
	movq	%rax, 768(%rsp)
	movaps	880(%rsp), %xmm0
	movaps	%xmm0, 752(%rsp)
	movaps	864(%rsp), %xmm0
	movaps	%xmm0, 736(%rsp)
	movaps	848(%rsp), %xmm0
	movaps	%xmm0, 720(%rsp)
	movaps	784(%rsp), %xmm0
	movaps	800(%rsp), %xmm1
	movaps	816(%rsp), %xmm2
	movaps	832(%rsp), %xmm3
	movaps	%xmm3, 704(%rsp)
	movaps	%xmm2, 688(%rsp)
	movaps	%xmm1, 672(%rsp)
	movaps	%xmm0, 656(%rsp)
	movq	768(%rsp), %rax
	movq	%rax, 640(%rsp)
	movaps	752(%rsp), %xmm0
	movaps	%xmm0, 624(%rsp)
	movaps	736(%rsp), %xmm0
	movaps	%xmm0, 608(%rsp)
	movaps	720(%rsp), %xmm0
	movaps	%xmm0, 592(%rsp)
	movaps	656(%rsp), %xmm0
	movaps	672(%rsp), %xmm1
	movaps	688(%rsp), %xmm2
	movaps	704(%rsp), %xmm3
	movaps	%xmm3, 576(%rsp)
	movaps	%xmm2, 560(%rsp)
	movaps	%xmm1, 544(%rsp)
	movaps	%xmm0, 528(%rsp)
	movq	640(%rsp), %rax
	movq	%rax, 512(%rsp)
	movaps	624(%rsp), %xmm0
	movaps	%xmm0, 496(%rsp)
	movaps	608(%rsp), %xmm0
	movaps	%xmm0, 480(%rsp)
	movaps	592(%rsp), %xmm0
	movaps	%xmm0, 464(%rsp)
	movaps	528(%rsp), %xmm0
	movaps	544(%rsp), %xmm1
	movaps	560(%rsp), %xmm2
	movaps	576(%rsp), %xmm3
	movaps	%xmm3, 448(%rsp)
	movaps	%xmm2, 432(%rsp)
	movaps	%xmm1, 416(%rsp)
	movaps	%xmm0, 400(%rsp)
	movq	1056(%rsp), %rax
	movq	%rax, 192(%rsp)
	movaps	1040(%rsp), %xmm0
	movaps	%xmm0, 176(%rsp)
	movl	$3, %r8d
	movb	$1, %cl
	xorl	%eax, %eax
	movq	%r13, %rsi
	movq	200(%rsp), %rdi
	movl	12(%rsp), %edx
	movaps	1200(%rsp), %xmm4
	jmp	.LBB131_30
.LBB131_10:
	xorl	%eax, %eax
	xchgq	%rax, 8(%rdi)
.LBB131_11:
	xorl	%eax, %eax
	xchgq	%rax, 8(%rsi)
	movl	$-1, %eax
	jmp	.LBB131_36
.LBB131_28:
	movb	$27, %al
	jmp	.LBB131_29
.LBB131_25:
	movq	%rdi, %rbx
	movq	%rcx, %rdi
	movq	%rsi, %r15
	callq	"std_alloc::arc::Arc::drop::<#ee99c0b4357605a3>"
	xorps	%xmm4, %xmm4
	movq	%rbx, %rdi
	movq	%r15, %rsi
.LBB131_26:
	movb	$11, %al
.LBB131_29:
	xorl	%ecx, %ecx
	xorl	%ebp, %ebp
	xorl	%r15d, %r15d
	xorl	%edx, %edx
	xorl	%ebx, %ebx
	xorl	%r8d, %r8d
.LBB131_30:
	movq	512(%rsp), %r9
	movq	%r9, 160(%rsp)
	movaps	496(%rsp), %xmm0
	movaps	%xmm0, 144(%rsp)
	movaps	480(%rsp), %xmm0
	movaps	%xmm0, 128(%rsp)
	movaps	464(%rsp), %xmm0
	movaps	%xmm0, 112(%rsp)
	movaps	400(%rsp), %xmm0
	movaps	416(%rsp), %xmm1
	movaps	432(%rsp), %xmm2
	movaps	448(%rsp), %xmm3
	movaps	%xmm3, 96(%rsp)
	movaps	%xmm2, 80(%rsp)
	movaps	%xmm1, 64(%rsp)
	movaps	%xmm0, 48(%rsp)
	movaps	176(%rsp), %xmm0
	movaps	%xmm0, 16(%rsp)
	movq	192(%rsp), %r9
	movq	%r9, 32(%rsp)
.LBB131_31:
	movq	%r14, (%rdi)
	xorl	%r9d, %r9d
	xchgq	%r9, 8(%rdi)
	xorps	%xmm0, %xmm0
	movaps	%xmm0, 384(%rsp)
	movaps	%xmm0, 368(%rsp)
	movaps	%xmm0, 352(%rsp)
	movaps	%xmm0, 336(%rsp)
	movaps	%xmm0, 320(%rsp)
	movaps	%xmm0, 304(%rsp)
	movaps	%xmm0, 288(%rsp)
	movaps	%xmm0, 272(%rsp)
	movaps	%xmm0, 256(%rsp)
	movaps	%xmm0, 240(%rsp)
	movaps	%xmm0, 224(%rsp)
	movaps	%xmm0, 208(%rsp)
	testb	%cl, %cl
	je	.LBB131_33
	movq	%r8, 208(%rsp)
	movq	%rbp, 216(%rsp)
	movlps	%xmm4, 224(%rsp)
	movq	%r15, 232(%rsp)
	movaps	48(%rsp), %xmm0
	movaps	64(%rsp), %xmm1
	movaps	80(%rsp), %xmm2
	movaps	96(%rsp), %xmm3
	movaps	%xmm0, 240(%rsp)
	movaps	%xmm1, 256(%rsp)
	movaps	%xmm2, 272(%rsp)
	movaps	%xmm3, 288(%rsp)
	movaps	112(%rsp), %xmm0
	movaps	%xmm0, 304(%rsp)
	movaps	128(%rsp), %xmm0
	movaps	%xmm0, 320(%rsp)
	movaps	144(%rsp), %xmm0
	movaps	%xmm0, 336(%rsp)
	movq	160(%rsp), %rax
	movq	%rax, 352(%rsp)
	movl	%edx, 360(%rsp)
	movq	%rbx, 368(%rsp)
	movaps	16(%rsp), %xmm0
	movups	%xmm0, 376(%rsp)
	movq	32(%rsp), %rax
	movq	%rax, 392(%rsp)
	leaq	208(%rsp), %rax
	movq	%rsi, %rdi
	movq	%rax, %rsi
	callq	"nm_set_c::opening::open"
	jmp	.LBB131_34
.LBB131_33:
	xorl	%ecx, %ecx
	xchgq	%rcx, 8(%rsi)
.LBB131_34:
	movzbl	%al, %eax
	leaq	.Lswitch.table.nm_set_worker(%rip), %rcx
	movl	(%rcx,%rax,4), %eax
.LBB131_36:
	addq	$1224, %rsp
	.cfi_def_cfa_offset 56
	popq	%rbx
	.cfi_def_cfa_offset 48
	popq	%r12
	.cfi_def_cfa_offset 40
	popq	%r13
	.cfi_def_cfa_offset 32
	popq	%r14
	.cfi_def_cfa_offset 24
	popq	%r15
	.cfi_def_cfa_offset 16
	popq	%rbp
	.cfi_def_cfa_offset 8
	retq
.LBB131_19:
	.cfi_def_cfa_offset 1280
	movq	%rdi, %r12
	movq	%rsi, %r13
	movq	%rcx, %rdi
	callq	"std_alloc::arc::Arc::drop::<#ee99c0b4357605a3>"
	xorps	%xmm4, %xmm4
	movb	$24, %al
	xorl	%ecx, %ecx
	xorl	%ebp, %ebp
	xorl	%r15d, %r15d
	xorl	%edx, %edx
	xorl	%ebx, %ebx
	xorl	%r8d, %r8d
	movq	%r13, %rsi
	movq	%r12, %rdi
	jmp	.LBB131_30
.LBB131_22:
	ud2
.Lfunc_end131:
	.size	nm_map_worker, .Lfunc_end131-nm_map_worker
	.cfi_endproc
	.section	.text.nm_set_attach,"ax",@progbits
	.globl	nm_set_attach
	.p2align	4
	.type	nm_set_attach,@function
nm_set_attach:
	.cfi_startproc
	pushq	%rbp
	.cfi_def_cfa_offset 16
	pushq	%r15
	.cfi_def_cfa_offset 24
	pushq	%r14
	.cfi_def_cfa_offset 32
	pushq	%r13
	.cfi_def_cfa_offset 40
	pushq	%r12
	.cfi_def_cfa_offset 48
	pushq	%rbx
	.cfi_def_cfa_offset 56
	subq	$744, %rsp
	.cfi_def_cfa_offset 800
	.cfi_offset %rbx, -56
	.cfi_offset %r12, -48
	.cfi_offset %r13, -40
	.cfi_offset %r14, -32
	.cfi_offset %r15, -24
	.cfi_offset %rbp, -16
	xorps	%xmm0, %xmm0
	movaps	%xmm0, 320(%rsp)
	movaps	%xmm0, 336(%rsp)
	movaps	%xmm0, 352(%rsp)
	movaps	%xmm0, 368(%rsp)
	movaps	%xmm0, 384(%rsp)
	movaps	%xmm0, 400(%rsp)
	movaps	%xmm0, 416(%rsp)
	movaps	%xmm0, 432(%rsp)
	movq	$0, 448(%rsp)
	movaps	%xmm0, 16(%rsp)
	movq	$0, 32(%rsp)
	movl	$1, %ecx
	xchgq	%rcx, 8(%rsi)
	movl	$-22, %eax
	testq	%rcx, %rcx
	jne	.LBB132_29
	movq	(%rsi), %rcx
	movq	$0, (%rsi)
	testq	%rcx, %rcx
	je	.LBB132_3
	movq	%rcx, (%rsi)
	xorl	%eax, %eax
	xchgq	%rax, 8(%rsi)
	movl	$-2, %eax
	jmp	.LBB132_29
.LBB132_3:
	movl	$8388607, %ecx
	.p2align	4
.LBB132_4:
	movl	$1, %edx
	xchgq	%rdx, 8(%rdi)
	testq	%rdx, %rdx
	je	.LBB132_5
	pause
	decl	%ecx
	jne	.LBB132_4
	movl	$1, %ecx
	xchgq	%rcx, 8(%rdi)
	testq	%rcx, %rcx
	je	.LBB132_9
	xorl	%ecx, %ecx
	xchgq	%rcx, 8(%rsi)
	jmp	.LBB132_29
.LBB132_5:
	movq	(%rdi), %r15
	movq	$0, (%rdi)
	testq	%r15, %r15
	jne	.LBB132_12
	xorl	%eax, %eax
	xchgq	%rax, 8(%rdi)
	jmp	.LBB132_11
.LBB132_9:
	movq	(%rdi), %r15
	movq	$0, (%rdi)
	testq	%r15, %r15
	je	.LBB132_10
.LBB132_12:
	xorps	%xmm0, %xmm0
	movaps	%xmm0, 608(%rsp)
	movaps	%xmm0, 624(%rsp)
	movaps	%xmm0, 640(%rsp)
	movaps	%xmm0, 656(%rsp)
	movaps	%xmm0, 672(%rsp)
	movaps	%xmm0, 688(%rsp)
	movaps	%xmm0, 704(%rsp)
	movaps	%xmm0, 720(%rsp)
	movq	$0, 736(%rsp)
	movaps	%xmm0, 464(%rsp)
	movaps	%xmm0, 480(%rsp)
	movaps	%xmm0, 496(%rsp)
	movaps	%xmm0, 512(%rsp)
	movaps	%xmm0, 528(%rsp)
	movaps	%xmm0, 544(%rsp)
	movaps	%xmm0, 560(%rsp)
	movaps	%xmm0, 576(%rsp)
	movq	$0, 592(%rsp)
	movaps	%xmm0, 48(%rsp)
	movq	$0, 64(%rsp)
	movaps	%xmm0, 288(%rsp)
	movq	$0, 304(%rsp)
	cmpb	$0, (%r15)
	je	.LBB132_13
	movaps	%xmm0, 432(%rsp)
	movaps	%xmm0, 416(%rsp)
	movaps	%xmm0, 400(%rsp)
	movaps	%xmm0, 384(%rsp)
	movaps	%xmm0, 368(%rsp)
	movaps	%xmm0, 352(%rsp)
	movaps	%xmm0, 336(%rsp)
	movaps	%xmm0, 320(%rsp)
	movq	$0, 448(%rsp)
	movaps	%xmm0, 16(%rsp)
	movq	$0, 32(%rsp)
	xorl	%r14d, %r14d
	movb	$9, %bpl
	xorl	%r12d, %r12d
	xorl	%ebx, %ebx
	movl	$0, 12(%rsp)
	xorl	%r13d, %r13d
	jmp	.LBB132_24
.LBB132_13:
	movaps	%xmm0, 240(%rsp)
	movaps	%xmm0, 224(%rsp)
	movaps	%xmm0, 208(%rsp)
	movaps	%xmm0, 192(%rsp)
	movaps	%xmm0, 176(%rsp)
	movaps	%xmm0, 160(%rsp)
	movaps	%xmm0, 144(%rsp)
	movaps	%xmm0, 128(%rsp)
	movaps	%xmm0, 112(%rsp)
	movaps	%xmm0, 96(%rsp)
	cmpb	$0, 8(%r15)
	movq	%rdi, 88(%rsp)
	movq	%rsi, 80(%rsp)
	je	.LBB132_14
	movb	$25, %bpl
	jmp	.LBB132_22
.LBB132_10:
	xorl	%eax, %eax
	xchgq	%rax, 8(%rdi)
.LBB132_11:
	xorl	%eax, %eax
	xchgq	%rax, 8(%rsi)
	movl	$-1, %eax
	jmp	.LBB132_29
.LBB132_14:
	movq	16(%r15), %rbx
.LBB132_15:
	movq	(%rbx), %rax
	movabsq	$9223372036854775806, %rcx
	cmpq	%rcx, %rax
	ja	.LBB132_21
	leaq	1(%rax), %rcx
	lock		cmpxchgq	%rcx, (%rbx)
	jne	.LBB132_15
	leaq	8(%rbx), %rsi
	leaq	96(%rsp), %rdi
	callq	"nm_set::attach::take_any"
	cmpb	$1, 96(%rsp)
	jne	.LBB132_19
	leaq	104(%rsp), %rsi
	movl	240(%rsp), %eax
	movl	%eax, 12(%rsp)
	movq	248(%rsp), %r13
	leaq	608(%rsp), %rbp
	movl	$136, %edx
	movq	%rbp, %rdi
	callq	memcpy@PLT
	leaq	464(%rsp), %rdi
	movl	$136, %edx
	movq	%rbp, %rsi
	callq	memcpy@PLT
	movaps	288(%rsp), %xmm0
	movaps	%xmm0, 48(%rsp)
	movq	304(%rsp), %rax
	movq	%rax, 64(%rsp)
	movl	$1, %r12d
	movb	$1, %r14b
	xorl	%ebp, %ebp
	jmp	.LBB132_23
.LBB132_21:
	movb	$27, %bpl
	jmp	.LBB132_22
.LBB132_19:
	movq	%rbx, %rdi
	callq	"std_alloc::arc::Arc::drop::<#ee99c0b4357605a3>"
	movb	$29, %bpl
.LBB132_22:
	xorl	%r14d, %r14d
	xorl	%ebx, %ebx
	movl	$0, 12(%rsp)
	xorl	%r13d, %r13d
	xorl	%r12d, %r12d
.LBB132_23:
	leaq	320(%rsp), %rdi
	leaq	464(%rsp), %rsi
	movl	$136, %edx
	callq	memcpy@PLT
	movaps	48(%rsp), %xmm0
	movaps	%xmm0, 16(%rsp)
	movq	64(%rsp), %rax
	movq	%rax, 32(%rsp)
	movq	80(%rsp), %rsi
	movq	88(%rsp), %rdi
.LBB132_24:
	movq	%r15, (%rdi)
	xorl	%eax, %eax
	xchgq	%rax, 8(%rdi)
	xorps	%xmm0, %xmm0
	movaps	%xmm0, 272(%rsp)
	movaps	%xmm0, 256(%rsp)
	movaps	%xmm0, 240(%rsp)
	movaps	%xmm0, 224(%rsp)
	movaps	%xmm0, 208(%rsp)
	movaps	%xmm0, 192(%rsp)
	movaps	%xmm0, 176(%rsp)
	movaps	%xmm0, 160(%rsp)
	movaps	%xmm0, 144(%rsp)
	movaps	%xmm0, 128(%rsp)
	movaps	%xmm0, 112(%rsp)
	movaps	%xmm0, 96(%rsp)
	testb	%r14b, %r14b
	je	.LBB132_26
	movq	%r12, 96(%rsp)
	movq	%rbx, 104(%rsp)
	leaq	112(%rsp), %rdi
	leaq	320(%rsp), %rax
	movl	$136, %edx
	movq	%rsi, %rbx
	movq	%rax, %rsi
	callq	memcpy@PLT
	movl	12(%rsp), %eax
	movl	%eax, 248(%rsp)
	movq	%r13, 256(%rsp)
	movaps	16(%rsp), %xmm0
	movups	%xmm0, 264(%rsp)
	movq	32(%rsp), %rax
	movq	%rax, 280(%rsp)
	leaq	96(%rsp), %rsi
	movq	%rbx, %rdi
	callq	"nm_set_c::opening::open"
	movl	%eax, %ebp
	jmp	.LBB132_27
.LBB132_26:
	xorl	%eax, %eax
	xchgq	%rax, 8(%rsi)
.LBB132_27:
	movzbl	%bpl, %eax
	leaq	.Lswitch.table.nm_set_new_unbalanced.493(%rip), %rcx
	movl	(%rcx,%rax,4), %eax
.LBB132_29:
	addq	$744, %rsp
	.cfi_def_cfa_offset 56
	popq	%rbx
	.cfi_def_cfa_offset 48
	popq	%r12
	.cfi_def_cfa_offset 40
	popq	%r13
	.cfi_def_cfa_offset 32
	popq	%r14
	.cfi_def_cfa_offset 24
	popq	%r15
	.cfi_def_cfa_offset 16
	popq	%rbp
	.cfi_def_cfa_offset 8
	retq
.Lfunc_end132:
	.size	nm_set_attach, .Lfunc_end132-nm_set_attach
	.cfi_endproc
	.section	.text.nm_set_new,"ax",@progbits
	.globl	nm_set_new
	.p2align	4
	.type	nm_set_new,@function
nm_set_new:
	.cfi_startproc
	pushq	%rbx
	.cfi_def_cfa_offset 16
	subq	$496, %rsp
	.cfi_def_cfa_offset 512
	.cfi_offset %rbx, -16
	xorps	%xmm0, %xmm0
	movaps	%xmm0, 64(%rsp)
	movaps	%xmm0, 80(%rsp)
	movaps	%xmm0, 96(%rsp)
	movaps	%xmm0, 112(%rsp)
	movaps	%xmm0, 128(%rsp)
	movaps	%xmm0, 144(%rsp)
	movaps	%xmm0, 32(%rsp)
	movq	$0, 48(%rsp)
	movaps	%xmm0, 304(%rsp)
	movaps	%xmm0, 320(%rsp)
	movaps	%xmm0, 336(%rsp)
	movaps	%xmm0, 352(%rsp)
	movaps	%xmm0, 368(%rsp)
	movaps	%xmm0, 384(%rsp)
	movaps	%xmm0, 400(%rsp)
	movaps	%xmm0, 416(%rsp)
	movaps	%xmm0, 432(%rsp)
	movaps	%xmm0, 448(%rsp)
	movaps	%xmm0, 464(%rsp)
	movaps	%xmm0, 480(%rsp)
	movl	$1, %ecx
	xchgq	%rcx, 8(%rdi)
	movl	$-22, %eax
	testq	%rcx, %rcx
	je	.LBB133_1
	addq	$496, %rsp
	.cfi_def_cfa_offset 16
	popq	%rbx
	.cfi_def_cfa_offset 8
	retq
.LBB133_1:
	.cfi_def_cfa_offset 512
	movq	(%rdi), %rax
	movq	$0, (%rdi)
	testq	%rax, %rax
	je	.LBB133_3
	movq	%rax, (%rdi)
	xorl	%eax, %eax
	xchgq	%rax, 8(%rdi)
	movl	$-2, %eax
	addq	$496, %rsp
	.cfi_def_cfa_offset 16
	popq	%rbx
	.cfi_def_cfa_offset 8
	retq
.LBB133_3:
	.cfi_def_cfa_offset 512
	movaps	%xmm0, 160(%rsp)
	movaps	%xmm0, 176(%rsp)
	movaps	%xmm0, 192(%rsp)
	movaps	%xmm0, 208(%rsp)
	movaps	%xmm0, 224(%rsp)
	movaps	%xmm0, 240(%rsp)
	movaps	%xmm0, 256(%rsp)
	movaps	%xmm0, 272(%rsp)
	movq	$0, 288(%rsp)
	leal	-7(%rsi), %eax
	cmpl	$268435449, %eax
	ja	.LBB133_4
	leal	-1(%rdx), %ecx
	movb	$1, %al
	cmpl	$64, %ecx
	jae	.LBB133_6
	movl	%edx, %eax
	shll	$4, %eax
	orl	$14, %eax
	movl	%esi, 12(%rsp)
	movl	%edx, 16(%rsp)
	movl	$15, 20(%rsp)
	movb	$1, 24(%rsp)
	movw	$0, 25(%rsp)
	movb	$0, 27(%rsp)
	movl	%eax, 28(%rsp)
	leaq	160(%rsp), %rax
	leaq	12(%rsp), %rsi
	movq	%rdi, %rbx
	movq	%rax, %rdi
	movl	$1, %edx
	callq	"nm_set::set::made::<#f118e792109c5fac>"
	movq	%rbx, %rdi
	movzbl	161(%rsp), %eax
	movzbl	168(%rsp), %ecx
	movaps	176(%rsp), %xmm0
	movaps	%xmm0, 64(%rsp)
	movaps	192(%rsp), %xmm0
	movaps	%xmm0, 80(%rsp)
	movaps	208(%rsp), %xmm0
	movaps	%xmm0, 96(%rsp)
	movaps	224(%rsp), %xmm0
	movaps	%xmm0, 112(%rsp)
	movaps	240(%rsp), %xmm0
	movaps	%xmm0, 128(%rsp)
	movaps	256(%rsp), %xmm0
	movaps	%xmm0, 144(%rsp)
	movaps	272(%rsp), %xmm0
	movaps	%xmm0, 32(%rsp)
	movq	288(%rsp), %rdx
	movq	%rdx, 48(%rsp)
	cmpb	$0, 160(%rsp)
	jne	.LBB133_7
	movq	$0, 304(%rsp)
	movq	%rcx, 312(%rsp)
	movaps	64(%rsp), %xmm0
	movaps	80(%rsp), %xmm1
	movaps	96(%rsp), %xmm2
	movaps	112(%rsp), %xmm3
	movaps	%xmm0, 320(%rsp)
	movaps	%xmm1, 336(%rsp)
	movaps	%xmm2, 352(%rsp)
	movaps	%xmm3, 368(%rsp)
	movaps	128(%rsp), %xmm0
	movaps	%xmm0, 384(%rsp)
	movaps	144(%rsp), %xmm0
	movaps	%xmm0, 400(%rsp)
	movaps	32(%rsp), %xmm0
	movaps	%xmm0, 416(%rsp)
	movq	48(%rsp), %rax
	movq	%rax, 432(%rsp)
	leaq	304(%rsp), %rsi
	callq	"nm_set_c::opening::open"
	movzbl	%al, %eax
	leaq	.Lswitch.table.nm_set_new_unbalanced(%rip), %rcx
	movl	-8(%rcx,%rax,4), %eax
	addq	$496, %rsp
	.cfi_def_cfa_offset 16
	popq	%rbx
	.cfi_def_cfa_offset 8
	retq
.LBB133_4:
	.cfi_def_cfa_offset 512
	xorl	%eax, %eax
.LBB133_6:
	movaps	%xmm0, 144(%rsp)
	movaps	%xmm0, 128(%rsp)
	movaps	%xmm0, 112(%rsp)
	movaps	%xmm0, 96(%rsp)
	movaps	%xmm0, 80(%rsp)
	movaps	%xmm0, 64(%rsp)
	movaps	%xmm0, 32(%rsp)
	movq	$0, 48(%rsp)
.LBB133_7:
	xorl	%ecx, %ecx
	xchgq	%rcx, 8(%rdi)
	movsbq	%al, %rax
	leaq	.Lswitch.table.nm_set_new_unbalanced.493(%rip), %rcx
	movl	48(%rcx,%rax,4), %eax
	addq	$496, %rsp
	.cfi_def_cfa_offset 16
	popq	%rbx
	.cfi_def_cfa_offset 8
	retq
.Lfunc_end133:
	.size	nm_set_new, .Lfunc_end133-nm_set_new
	.cfi_endproc
	.section	.text.nm_set_new_first_fit,"ax",@progbits
	.globl	nm_set_new_first_fit
	.p2align	4
	.type	nm_set_new_first_fit,@function
nm_set_new_first_fit:
	.cfi_startproc
	pushq	%rbx
	.cfi_def_cfa_offset 16
	subq	$496, %rsp
	.cfi_def_cfa_offset 512
	.cfi_offset %rbx, -16
	xorps	%xmm0, %xmm0
	movaps	%xmm0, 32(%rsp)
	movaps	%xmm0, 48(%rsp)
	movaps	%xmm0, 64(%rsp)
	movaps	%xmm0, 80(%rsp)
	movaps	%xmm0, 96(%rsp)
	movaps	%xmm0, 112(%rsp)
	movaps	%xmm0, (%rsp)
	movq	$0, 16(%rsp)
	movaps	%xmm0, 304(%rsp)
	movaps	%xmm0, 320(%rsp)
	movaps	%xmm0, 336(%rsp)
	movaps	%xmm0, 352(%rsp)
	movaps	%xmm0, 368(%rsp)
	movaps	%xmm0, 384(%rsp)
	movaps	%xmm0, 400(%rsp)
	movaps	%xmm0, 416(%rsp)
	movaps	%xmm0, 432(%rsp)
	movaps	%xmm0, 448(%rsp)
	movaps	%xmm0, 464(%rsp)
	movaps	%xmm0, 480(%rsp)
	movl	$1, %ecx
	xchgq	%rcx, 8(%rdi)
	movl	$-22, %eax
	testq	%rcx, %rcx
	je	.LBB134_1
	addq	$496, %rsp
	.cfi_def_cfa_offset 16
	popq	%rbx
	.cfi_def_cfa_offset 8
	retq
.LBB134_1:
	.cfi_def_cfa_offset 512
	movq	(%rdi), %rax
	movq	$0, (%rdi)
	testq	%rax, %rax
	je	.LBB134_3
	movq	%rax, (%rdi)
	xorl	%eax, %eax
	xchgq	%rax, 8(%rdi)
	movl	$-2, %eax
	addq	$496, %rsp
	.cfi_def_cfa_offset 16
	popq	%rbx
	.cfi_def_cfa_offset 8
	retq
.LBB134_3:
	.cfi_def_cfa_offset 512
	movaps	%xmm0, 160(%rsp)
	movaps	%xmm0, 176(%rsp)
	movaps	%xmm0, 192(%rsp)
	movaps	%xmm0, 208(%rsp)
	movaps	%xmm0, 224(%rsp)
	movaps	%xmm0, 240(%rsp)
	movaps	%xmm0, 256(%rsp)
	movaps	%xmm0, 272(%rsp)
	movq	$0, 288(%rsp)
	leal	-7(%rsi), %eax
	cmpl	$268435449, %eax
	ja	.LBB134_4
	leal	-1(%rdx), %ecx
	movb	$1, %al
	cmpl	$64, %ecx
	jae	.LBB134_6
	movl	%edx, %eax
	shll	$4, %eax
	orl	$14, %eax
	movl	%esi, 140(%rsp)
	movl	%edx, 144(%rsp)
	movq	$15, 148(%rsp)
	movl	%eax, 156(%rsp)
	leaq	160(%rsp), %rax
	leaq	140(%rsp), %rsi
	movq	%rdi, %rbx
	movq	%rax, %rdi
	xorl	%edx, %edx
	callq	"nm_set::set::made::<#f118e792109c5fac>"
	movq	%rbx, %rdi
	movzbl	161(%rsp), %eax
	movzbl	168(%rsp), %ecx
	movaps	176(%rsp), %xmm0
	movaps	%xmm0, 32(%rsp)
	movaps	192(%rsp), %xmm0
	movaps	%xmm0, 48(%rsp)
	movaps	208(%rsp), %xmm0
	movaps	%xmm0, 64(%rsp)
	movaps	224(%rsp), %xmm0
	movaps	%xmm0, 80(%rsp)
	movaps	240(%rsp), %xmm0
	movaps	%xmm0, 96(%rsp)
	movaps	256(%rsp), %xmm0
	movaps	%xmm0, 112(%rsp)
	movaps	272(%rsp), %xmm0
	movaps	%xmm0, (%rsp)
	movq	288(%rsp), %rdx
	movq	%rdx, 16(%rsp)
	cmpb	$0, 160(%rsp)
	jne	.LBB134_7
	movq	$0, 304(%rsp)
	movq	%rcx, 312(%rsp)
	movaps	32(%rsp), %xmm0
	movaps	48(%rsp), %xmm1
	movaps	64(%rsp), %xmm2
	movaps	80(%rsp), %xmm3
	movaps	%xmm0, 320(%rsp)
	movaps	%xmm1, 336(%rsp)
	movaps	%xmm2, 352(%rsp)
	movaps	%xmm3, 368(%rsp)
	movaps	96(%rsp), %xmm0
	movaps	%xmm0, 384(%rsp)
	movaps	112(%rsp), %xmm0
	movaps	%xmm0, 400(%rsp)
	movaps	(%rsp), %xmm0
	movaps	%xmm0, 416(%rsp)
	movq	16(%rsp), %rax
	movq	%rax, 432(%rsp)
	leaq	304(%rsp), %rsi
	callq	"nm_set_c::opening::open"
	movzbl	%al, %eax
	leaq	.Lswitch.table.nm_set_new_unbalanced(%rip), %rcx
	movl	-8(%rcx,%rax,4), %eax
	addq	$496, %rsp
	.cfi_def_cfa_offset 16
	popq	%rbx
	.cfi_def_cfa_offset 8
	retq
.LBB134_4:
	.cfi_def_cfa_offset 512
	xorl	%eax, %eax
.LBB134_6:
	movaps	%xmm0, 112(%rsp)
	movaps	%xmm0, 96(%rsp)
	movaps	%xmm0, 80(%rsp)
	movaps	%xmm0, 64(%rsp)
	movaps	%xmm0, 48(%rsp)
	movaps	%xmm0, 32(%rsp)
	movaps	%xmm0, (%rsp)
	movq	$0, 16(%rsp)
.LBB134_7:
	xorl	%ecx, %ecx
	xchgq	%rcx, 8(%rdi)
	movsbq	%al, %rax
	leaq	.Lswitch.table.nm_set_new_unbalanced.493(%rip), %rcx
	movl	48(%rcx,%rax,4), %eax
	addq	$496, %rsp
	.cfi_def_cfa_offset 16
	popq	%rbx
	.cfi_def_cfa_offset 8
	retq
.Lfunc_end134:
	.size	nm_set_new_first_fit, .Lfunc_end134-nm_set_new_first_fit
	.cfi_endproc
	.section	.text.nm_set_new_unbalanced,"ax",@progbits
	.globl	nm_set_new_unbalanced
	.p2align	4
	.type	nm_set_new_unbalanced,@function
nm_set_new_unbalanced:
	.cfi_startproc
	pushq	%rbx
	.cfi_def_cfa_offset 16
	subq	$496, %rsp
	.cfi_def_cfa_offset 512
	.cfi_offset %rbx, -16
	xorps	%xmm0, %xmm0
	movaps	%xmm0, 32(%rsp)
	movaps	%xmm0, 48(%rsp)
	movaps	%xmm0, 64(%rsp)
	movaps	%xmm0, 80(%rsp)
	movaps	%xmm0, 96(%rsp)
	movaps	%xmm0, 112(%rsp)
	movaps	%xmm0, (%rsp)
	movq	$0, 16(%rsp)
	movaps	%xmm0, 304(%rsp)
	movaps	%xmm0, 320(%rsp)
	movaps	%xmm0, 336(%rsp)
	movaps	%xmm0, 352(%rsp)
	movaps	%xmm0, 368(%rsp)
	movaps	%xmm0, 384(%rsp)
	movaps	%xmm0, 400(%rsp)
	movaps	%xmm0, 416(%rsp)
	movaps	%xmm0, 432(%rsp)
	movaps	%xmm0, 448(%rsp)
	movaps	%xmm0, 464(%rsp)
	movaps	%xmm0, 480(%rsp)
	movl	$1, %ecx
	xchgq	%rcx, 8(%rdi)
	movl	$-22, %eax
	testq	%rcx, %rcx
	je	.LBB135_1
	addq	$496, %rsp
	.cfi_def_cfa_offset 16
	popq	%rbx
	.cfi_def_cfa_offset 8
	retq
.LBB135_1:
	.cfi_def_cfa_offset 512
	movq	(%rdi), %rax
	movq	$0, (%rdi)
	testq	%rax, %rax
	je	.LBB135_3
	movq	%rax, (%rdi)
	xorl	%eax, %eax
	xchgq	%rax, 8(%rdi)
	movl	$-2, %eax
	addq	$496, %rsp
	.cfi_def_cfa_offset 16
	popq	%rbx
	.cfi_def_cfa_offset 8
	retq
.LBB135_3:
	.cfi_def_cfa_offset 512
	movaps	%xmm0, 160(%rsp)
	movaps	%xmm0, 176(%rsp)
	movaps	%xmm0, 192(%rsp)
	movaps	%xmm0, 208(%rsp)
	movaps	%xmm0, 224(%rsp)
	movaps	%xmm0, 240(%rsp)
	movaps	%xmm0, 256(%rsp)
	movaps	%xmm0, 272(%rsp)
	movq	$0, 288(%rsp)
	leal	-7(%rsi), %eax
	cmpl	$268435449, %eax
	ja	.LBB135_4
	leal	-1(%rdx), %ecx
	movb	$1, %al
	cmpl	$64, %ecx
	jae	.LBB135_6
	movl	%edx, %eax
	shll	$4, %eax
	orl	$14, %eax
	movl	%esi, 140(%rsp)
	movl	%edx, 144(%rsp)
	movq	$15, 148(%rsp)
	movl	%eax, 156(%rsp)
	leaq	160(%rsp), %rax
	leaq	140(%rsp), %rsi
	movq	%rdi, %rbx
	movq	%rax, %rdi
	movl	$1, %edx
	callq	"nm_set::set::made::<#f118e792109c5fac>"
	movq	%rbx, %rdi
	movzbl	161(%rsp), %eax
	movzbl	168(%rsp), %ecx
	movaps	176(%rsp), %xmm0
	movaps	%xmm0, 32(%rsp)
	movaps	192(%rsp), %xmm0
	movaps	%xmm0, 48(%rsp)
	movaps	208(%rsp), %xmm0
	movaps	%xmm0, 64(%rsp)
	movaps	224(%rsp), %xmm0
	movaps	%xmm0, 80(%rsp)
	movaps	240(%rsp), %xmm0
	movaps	%xmm0, 96(%rsp)
	movaps	256(%rsp), %xmm0
	movaps	%xmm0, 112(%rsp)
	movaps	272(%rsp), %xmm0
	movaps	%xmm0, (%rsp)
	movq	288(%rsp), %rdx
	movq	%rdx, 16(%rsp)
	cmpb	$0, 160(%rsp)
	jne	.LBB135_7
	movq	$0, 304(%rsp)
	movq	%rcx, 312(%rsp)
	movaps	32(%rsp), %xmm0
	movaps	48(%rsp), %xmm1
	movaps	64(%rsp), %xmm2
	movaps	80(%rsp), %xmm3
	movaps	%xmm0, 320(%rsp)
	movaps	%xmm1, 336(%rsp)
	movaps	%xmm2, 352(%rsp)
	movaps	%xmm3, 368(%rsp)
	movaps	96(%rsp), %xmm0
	movaps	%xmm0, 384(%rsp)
	movaps	112(%rsp), %xmm0
	movaps	%xmm0, 400(%rsp)
	movaps	(%rsp), %xmm0
	movaps	%xmm0, 416(%rsp)
	movq	16(%rsp), %rax
	movq	%rax, 432(%rsp)
	leaq	304(%rsp), %rsi
	callq	"nm_set_c::opening::open"
	movzbl	%al, %eax
	leaq	.Lswitch.table.nm_set_new_unbalanced(%rip), %rcx
	movl	-8(%rcx,%rax,4), %eax
	addq	$496, %rsp
	.cfi_def_cfa_offset 16
	popq	%rbx
	.cfi_def_cfa_offset 8
	retq
.LBB135_4:
	.cfi_def_cfa_offset 512
	xorl	%eax, %eax
.LBB135_6:
	movaps	%xmm0, 112(%rsp)
	movaps	%xmm0, 96(%rsp)
	movaps	%xmm0, 80(%rsp)
	movaps	%xmm0, 64(%rsp)
	movaps	%xmm0, 48(%rsp)
	movaps	%xmm0, 32(%rsp)
	movaps	%xmm0, (%rsp)
	movq	$0, 16(%rsp)
.LBB135_7:
	xorl	%ecx, %ecx
	xchgq	%rcx, 8(%rdi)
	movsbq	%al, %rax
	leaq	.Lswitch.table.nm_set_new_unbalanced.493(%rip), %rcx
	movl	48(%rcx,%rax,4), %eax
	addq	$496, %rsp
	.cfi_def_cfa_offset 16
	popq	%rbx
	.cfi_def_cfa_offset 8
	retq
.Lfunc_end135:
	.size	nm_set_new_unbalanced, .Lfunc_end135-nm_set_new_unbalanced
	.cfi_endproc
	.section	.text.nm_set_worker,"ax",@progbits
	.globl	nm_set_worker
	.p2align	4
	.type	nm_set_worker,@function
nm_set_worker:
	.cfi_startproc
	pushq	%rbp
	.cfi_def_cfa_offset 16
	pushq	%r15
	.cfi_def_cfa_offset 24
	pushq	%r14
	.cfi_def_cfa_offset 32
	pushq	%r13
	.cfi_def_cfa_offset 40
	pushq	%r12
	.cfi_def_cfa_offset 48
	pushq	%rbx
	.cfi_def_cfa_offset 56
	subq	$1224, %rsp
	.cfi_def_cfa_offset 1280
	.cfi_offset %rbx, -56
	.cfi_offset %r12, -48
	.cfi_offset %r13, -40
	.cfi_offset %r14, -32
	.cfi_offset %r15, -24
	.cfi_offset %rbp, -16
	xorps	%xmm0, %xmm0
	movaps	%xmm0, 48(%rsp)
	movaps	%xmm0, 64(%rsp)
	movaps	%xmm0, 80(%rsp)
	movaps	%xmm0, 96(%rsp)
	movaps	%xmm0, 112(%rsp)
	movaps	%xmm0, 128(%rsp)
	movaps	%xmm0, 144(%rsp)
	movq	$0, 160(%rsp)
	movaps	%xmm0, 16(%rsp)
	movq	$0, 32(%rsp)
	movl	$1, %ecx
	xchgq	%rcx, 8(%rsi)
	movl	$-22, %eax
	testq	%rcx, %rcx
	jne	.LBB136_36
	movq	(%rsi), %rcx
	movq	$0, (%rsi)
	testq	%rcx, %rcx
	je	.LBB136_3
	movq	%rcx, (%rsi)
	xorl	%eax, %eax
	xchgq	%rax, 8(%rsi)
	movl	$-2, %eax
	jmp	.LBB136_36
.LBB136_3:
	movl	$8388607, %ecx
	.p2align	4
.LBB136_4:
	movl	$1, %r8d
	xchgq	%r8, 8(%rdi)
	testq	%r8, %r8
	je	.LBB136_5
	pause
	decl	%ecx
	jne	.LBB136_4
	movl	$1, %ecx
	xchgq	%rcx, 8(%rdi)
	testq	%rcx, %rcx
	je	.LBB136_9
	xorl	%ecx, %ecx
	xchgq	%rcx, 8(%rsi)
	jmp	.LBB136_36
.LBB136_5:
	movq	(%rdi), %r14
	movq	$0, (%rdi)
	testq	%r14, %r14
	jne	.LBB136_12
	xorl	%eax, %eax
	xchgq	%rax, 8(%rdi)
	jmp	.LBB136_11
.LBB136_9:
	movq	(%rdi), %r14
	movq	$0, (%rdi)
	testq	%r14, %r14
	je	.LBB136_10
.LBB136_12:
	xorps	%xmm4, %xmm4
	movaps	%xmm4, 528(%rsp)
	movaps	%xmm4, 544(%rsp)
	movaps	%xmm4, 560(%rsp)
	movaps	%xmm4, 576(%rsp)
	movaps	%xmm4, 592(%rsp)
	movaps	%xmm4, 608(%rsp)
	movaps	%xmm4, 624(%rsp)
	movq	$0, 640(%rsp)
	movaps	%xmm4, 400(%rsp)
	movaps	%xmm4, 416(%rsp)
	movaps	%xmm4, 432(%rsp)
	movaps	%xmm4, 448(%rsp)
	movaps	%xmm4, 464(%rsp)
	movaps	%xmm4, 480(%rsp)
	movaps	%xmm4, 496(%rsp)
	movq	$0, 512(%rsp)
	movaps	%xmm4, 176(%rsp)
	movq	$0, 192(%rsp)
	movaps	%xmm4, 1040(%rsp)
	movq	$0, 1056(%rsp)
	cmpb	$0, (%r14)
	je	.LBB136_13
	movaps	%xmm4, 144(%rsp)
	movaps	%xmm4, 128(%rsp)
	movaps	%xmm4, 112(%rsp)
	movaps	%xmm4, 96(%rsp)
	movaps	%xmm4, 80(%rsp)
	movaps	%xmm4, 64(%rsp)
	movaps	%xmm4, 48(%rsp)
	movq	$0, 160(%rsp)
	movaps	%xmm4, 16(%rsp)
	movq	$0, 32(%rsp)
	xorl	%ecx, %ecx
	movb	$9, %al
	xorl	%r8d, %r8d
	xorl	%ebp, %ebp
	xorl	%r15d, %r15d
	xorl	%edx, %edx
	xorl	%ebx, %ebx
	jmp	.LBB136_31
.LBB136_13:
	movaps	%xmm4, 752(%rsp)
	movaps	%xmm4, 736(%rsp)
	movaps	%xmm4, 720(%rsp)
	movaps	%xmm4, 704(%rsp)
	movaps	%xmm4, 688(%rsp)
	movaps	%xmm4, 672(%rsp)
	movaps	%xmm4, 656(%rsp)
	movq	$0, 768(%rsp)
	cmpb	$0, 8(%r14)
	je	.LBB136_14
	movb	$25, %al
	jmp	.LBB136_29
.LBB136_10:
	xorl	%eax, %eax
	xchgq	%rax, 8(%rdi)
.LBB136_11:
	xorl	%eax, %eax
	xchgq	%rax, 8(%rsi)
	movl	$-1, %eax
	jmp	.LBB136_36
.LBB136_14:
	movq	16(%r14), %rcx
	movl	%edx, %r8d
	cmpq	%r8, 176(%rcx)
	jbe	.LBB136_26
.LBB136_15:
	movq	(%rcx), %rax
	movabsq	$9223372036854775806, %r9
	cmpq	%r9, %rax
	ja	.LBB136_28
	leaq	1(%rax), %r9
	lock		cmpxchgq	%r9, (%rcx)
	jne	.LBB136_15
	xorps	%xmm0, %xmm0
	movaps	%xmm0, 880(%rsp)
	movaps	%xmm0, 864(%rsp)
	movaps	%xmm0, 848(%rsp)
	movaps	%xmm0, 832(%rsp)
	movaps	%xmm0, 816(%rsp)
	movaps	%xmm0, 800(%rsp)
	movaps	%xmm0, 784(%rsp)
	movq	$0, 896(%rsp)
	cmpq	%r8, 120(%rcx)
	jbe	.LBB136_25
	movq	104(%rcx), %rax
	movq	(%rax), %rax
	movaps	%xmm0, 1168(%rsp)
	movaps	%xmm0, 1152(%rsp)
	movaps	%xmm0, 1136(%rsp)
	movaps	%xmm0, 1120(%rsp)
	movaps	%xmm0, 1104(%rsp)
	movaps	%xmm0, 1088(%rsp)
	movaps	%xmm0, 1072(%rsp)
	movq	$0, 1184(%rsp)
	movq	104(%rcx), %rax
	movq	(%rax,%r8,8), %rbx
	cmpq	$-30, %rbx
	setb	%al
	testb	%bl, %al
	je	.LBB136_19
	movaps	%xmm0, 912(%rsp)
	movaps	%xmm0, 928(%rsp)
	movaps	%xmm0, 944(%rsp)
	movaps	%xmm0, 960(%rsp)
	movaps	%xmm0, 976(%rsp)
	movaps	%xmm0, 992(%rsp)
	movaps	%xmm0, 1008(%rsp)
	movq	$0, 1024(%rsp)
	movaps	%xmm0, 208(%rsp)
	movaps	%xmm0, 224(%rsp)
	movaps	%xmm0, 240(%rsp)
	movaps	%xmm0, 256(%rsp)
	movaps	%xmm0, 272(%rsp)
	movaps	%xmm0, 288(%rsp)
	movaps	%xmm0, 304(%rsp)
	movaps	%xmm0, 320(%rsp)
	movq	$0, 336(%rsp)
	movq	%rbx, %r9
	andq	$-2, %r9
	addq	$2, %r9
	movq	104(%rcx), %r10
	movq	%rbx, %rax
	lock		cmpxchgq	%r9, (%r10,%r8,8)
	jne	.LBB136_19
	movl	%edx, 12(%rsp)
	movq	%rdi, 200(%rsp)
	movq	%rsi, %r13
	movq	%rcx, %rbp
	movq	112(%rcx), %rax
	leaq	(%r8,%r8,8), %rcx
	shlq	$4, %rcx
	movzbl	(%rax,%rcx), %r12d
	leaq	(%rax,%rcx), %rdi
	addq	$8, %rdi
	movsd	8(%rax,%rcx), %xmm0
	movaps	%xmm0, 1200(%rsp)
	movq	16(%rax,%rcx), %r15
	movq	136(%rax,%rcx), %rdx
	movq	%rdx, 1024(%rsp)
	movups	120(%rax,%rcx), %xmm0
	movaps	%xmm0, 1008(%rsp)
	movups	104(%rax,%rcx), %xmm0
	movaps	%xmm0, 992(%rsp)
	movups	88(%rax,%rcx), %xmm0
	movaps	%xmm0, 976(%rsp)
	movups	72(%rax,%rcx), %xmm0
	movaps	%xmm0, 960(%rsp)
	movups	56(%rax,%rcx), %xmm0
	movaps	%xmm0, 944(%rsp)
	movups	40(%rax,%rcx), %xmm0
	movaps	%xmm0, 928(%rsp)
	movups	24(%rax,%rcx), %xmm0
	movaps	%xmm0, 912(%rsp)
	movq	$0, (%rax,%rcx)
	leaq	208(%rsp), %rsi
	movl	$136, %edx
	callq	memcpy@PLT
	cmpb	$1, %r12b
	jne	.LBB136_22
	shrq	%rbx
	movq	1024(%rsp), %rax
	movq	%rax, 1184(%rsp)
	movaps	1008(%rsp), %xmm0
	movaps	%xmm0, 1168(%rsp)
	movaps	992(%rsp), %xmm1
	movaps	%xmm1, 1152(%rsp)
	movaps	976(%rsp), %xmm2
	movaps	%xmm2, 1136(%rsp)
	movaps	912(%rsp), %xmm3
	movaps	928(%rsp), %xmm4
	movaps	944(%rsp), %xmm5
	movaps	960(%rsp), %xmm6
	movaps	%xmm6, 1120(%rsp)
	movaps	%xmm5, 1104(%rsp)
	movaps	%xmm4, 1088(%rsp)
	movaps	%xmm3, 1072(%rsp)
	movaps	%xmm0, 880(%rsp)
	movaps	%xmm1, 864(%rsp)
	movaps	%xmm2, 848(%rsp)
	movaps	%xmm6, 832(%rsp)
	movaps	%xmm5, 816(%rsp)
	movaps	%xmm4, 800(%rsp)
	movaps	%xmm3, 784(%rsp)
	movq	1184(%rsp), %rax
	movq	%rax, 896(%rsp)
	movq	896(%rsp), %rax
	movq	%rax, 768(%rsp)
	movaps	880(%rsp), %xmm0
	movaps	%xmm0, 752(%rsp)
	movaps	864(%rsp), %xmm0
	movaps	%xmm0, 736(%rsp)
	movaps	848(%rsp), %xmm0
	movaps	%xmm0, 720(%rsp)
	movaps	784(%rsp), %xmm0
	movaps	800(%rsp), %xmm1
	movaps	816(%rsp), %xmm2
	movaps	832(%rsp), %xmm3
	movaps	%xmm3, 704(%rsp)
	movaps	%xmm2, 688(%rsp)
	movaps	%xmm1, 672(%rsp)
	movaps	%xmm0, 656(%rsp)
	movq	768(%rsp), %rax
	movq	%rax, 640(%rsp)
	movaps	752(%rsp), %xmm0
	movaps	%xmm0, 624(%rsp)
	movaps	736(%rsp), %xmm0
	movaps	%xmm0, 608(%rsp)
	movaps	720(%rsp), %xmm0
	movaps	%xmm0, 592(%rsp)
	movaps	656(%rsp), %xmm0
	movaps	672(%rsp), %xmm1
	movaps	688(%rsp), %xmm2
	movaps	704(%rsp), %xmm3
	movaps	%xmm3, 576(%rsp)
	movaps	%xmm2, 560(%rsp)
	movaps	%xmm1, 544(%rsp)
	movaps	%xmm0, 528(%rsp)
	movq	640(%rsp), %rax
	movq	%rax, 512(%rsp)
	movaps	624(%rsp), %xmm0
	movaps	%xmm0, 496(%rsp)
	movaps	608(%rsp), %xmm0
	movaps	%xmm0, 480(%rsp)
	movaps	592(%rsp), %xmm0
	movaps	%xmm0, 464(%rsp)
	movaps	528(%rsp), %xmm0
	movaps	544(%rsp), %xmm1
	movaps	560(%rsp), %xmm2
	movaps	576(%rsp), %xmm3
	movaps	%xmm3, 448(%rsp)
	movaps	%xmm2, 432(%rsp)
	movaps	%xmm1, 416(%rsp)
	movaps	%xmm0, 400(%rsp)
	movq	1056(%rsp), %rax
	movq	%rax, 192(%rsp)
	movaps	1040(%rsp), %xmm0
	movaps	%xmm0, 176(%rsp)
	movl	$1, %r8d
	movb	$1, %cl
	xorl	%eax, %eax
	movq	%r13, %rsi
	movq	200(%rsp), %rdi
	movl	12(%rsp), %edx
	movaps	1200(%rsp), %xmm4
	jmp	.LBB136_30
.LBB136_28:
	movb	$27, %al
	jmp	.LBB136_29
.LBB136_25:
	movq	%rdi, %rbx
	movq	%rcx, %rdi
	movq	%rsi, %r15
	callq	"std_alloc::arc::Arc::drop::<#ee99c0b4357605a3>"
	xorps	%xmm4, %xmm4
	movq	%rbx, %rdi
	movq	%r15, %rsi
.LBB136_26:
	movb	$11, %al
.LBB136_29:
	xorl	%ecx, %ecx
	xorl	%ebp, %ebp
	xorl	%r15d, %r15d
	xorl	%edx, %edx
	xorl	%ebx, %ebx
	xorl	%r8d, %r8d
.LBB136_30:
	movq	512(%rsp), %r9
	movq	%r9, 160(%rsp)
	movaps	496(%rsp), %xmm0
	movaps	%xmm0, 144(%rsp)
	movaps	480(%rsp), %xmm0
	movaps	%xmm0, 128(%rsp)
	movaps	464(%rsp), %xmm0
	movaps	%xmm0, 112(%rsp)
	movaps	400(%rsp), %xmm0
	movaps	416(%rsp), %xmm1
	movaps	432(%rsp), %xmm2
	movaps	448(%rsp), %xmm3
	movaps	%xmm3, 96(%rsp)
	movaps	%xmm2, 80(%rsp)
	movaps	%xmm1, 64(%rsp)
	movaps	%xmm0, 48(%rsp)
	movaps	176(%rsp), %xmm0
	movaps	%xmm0, 16(%rsp)
	movq	192(%rsp), %r9
	movq	%r9, 32(%rsp)
.LBB136_31:
	movq	%r14, (%rdi)
	xorl	%r9d, %r9d
	xchgq	%r9, 8(%rdi)
	xorps	%xmm0, %xmm0
	movaps	%xmm0, 384(%rsp)
	movaps	%xmm0, 368(%rsp)
	movaps	%xmm0, 352(%rsp)
	movaps	%xmm0, 336(%rsp)
	movaps	%xmm0, 320(%rsp)
	movaps	%xmm0, 304(%rsp)
	movaps	%xmm0, 288(%rsp)
	movaps	%xmm0, 272(%rsp)
	movaps	%xmm0, 256(%rsp)
	movaps	%xmm0, 240(%rsp)
	movaps	%xmm0, 224(%rsp)
	movaps	%xmm0, 208(%rsp)
	testb	%cl, %cl
	je	.LBB136_33
	movq	%r8, 208(%rsp)
	movq	%rbp, 216(%rsp)
	movlps	%xmm4, 224(%rsp)
	movq	%r15, 232(%rsp)
	movaps	48(%rsp), %xmm0
	movaps	64(%rsp), %xmm1
	movaps	80(%rsp), %xmm2
	movaps	96(%rsp), %xmm3
	movaps	%xmm0, 240(%rsp)
	movaps	%xmm1, 256(%rsp)
	movaps	%xmm2, 272(%rsp)
	movaps	%xmm3, 288(%rsp)
	movaps	112(%rsp), %xmm0
	movaps	%xmm0, 304(%rsp)
	movaps	128(%rsp), %xmm0
	movaps	%xmm0, 320(%rsp)
	movaps	144(%rsp), %xmm0
	movaps	%xmm0, 336(%rsp)
	movq	160(%rsp), %rax
	movq	%rax, 352(%rsp)
	movl	%edx, 360(%rsp)
	movq	%rbx, 368(%rsp)
	movaps	16(%rsp), %xmm0
	movups	%xmm0, 376(%rsp)
	movq	32(%rsp), %rax
	movq	%rax, 392(%rsp)
	leaq	208(%rsp), %rax
	movq	%rsi, %rdi
	movq	%rax, %rsi
	callq	"nm_set_c::opening::open"
	jmp	.LBB136_34
.LBB136_33:
	xorl	%ecx, %ecx
	xchgq	%rcx, 8(%rsi)
.LBB136_34:
	movzbl	%al, %eax
	leaq	.Lswitch.table.nm_set_worker(%rip), %rcx
	movl	(%rcx,%rax,4), %eax
.LBB136_36:
	addq	$1224, %rsp
	.cfi_def_cfa_offset 56
	popq	%rbx
	.cfi_def_cfa_offset 48
	popq	%r12
	.cfi_def_cfa_offset 40
	popq	%r13
	.cfi_def_cfa_offset 32
	popq	%r14
	.cfi_def_cfa_offset 24
	popq	%r15
	.cfi_def_cfa_offset 16
	popq	%rbp
	.cfi_def_cfa_offset 8
	retq
.LBB136_19:
	.cfi_def_cfa_offset 1280
	movq	%rdi, %r12
	movq	%rsi, %r13
	movq	%rcx, %rdi
	callq	"std_alloc::arc::Arc::drop::<#ee99c0b4357605a3>"
	xorps	%xmm4, %xmm4
	movb	$24, %al
	xorl	%ecx, %ecx
	xorl	%ebp, %ebp
	xorl	%r15d, %r15d
	xorl	%edx, %edx
	xorl	%ebx, %ebx
	xorl	%r8d, %r8d
	movq	%r13, %rsi
	movq	%r12, %rdi
	jmp	.LBB136_30
.LBB136_22:
	ud2
.Lfunc_end136:
	.size	nm_set_worker, .Lfunc_end136-nm_set_worker
	.cfi_endproc
	.section	.text.nm_map_report_value,"ax",@progbits
	.globl	nm_map_report_value
	.p2align	4
	.type	nm_map_report_value,@function
nm_map_report_value:
	.cfi_startproc
	movl	$1, %ecx
	xchgq	%rcx, 8(%rdi)
	movl	$-22, %eax
	testq	%rcx, %rcx
	je	.LBB137_1
	retq
.LBB137_1:
	movq	(%rdi), %rax
	movq	$0, (%rdi)
	testq	%rax, %rax
	je	.LBB137_11
	cmpb	$4, (%rax)
	jne	.LBB137_8
	cmpb	$1, 64(%rax)
	jne	.LBB137_6
	cmpq	152(%rax), %rsi
	jae	.LBB137_7
	movq	72(%rax), %rcx
	movq	144(%rax), %r8
	movl	(%r8,%rsi,4), %esi
	decl	%esi
	addq	136(%rax), %rsi
	movq	(%rcx,%rsi,8), %rcx
	movq	%rcx, (%rdx)
	movq	%rax, (%rdi)
	xorl	%eax, %eax
	xchgq	%rax, 8(%rdi)
	movl	$2, %eax
	retq
.LBB137_11:
	xorl	%eax, %eax
	xchgq	%rax, 8(%rdi)
	movl	$-1, %eax
	retq
.LBB137_8:
	movq	%rax, (%rdi)
	xorl	%eax, %eax
	xchgq	%rax, 8(%rdi)
	movl	$-3, %eax
	retq
.LBB137_6:
	movq	%rax, (%rdi)
	xorl	%eax, %eax
	xchgq	%rax, 8(%rdi)
	movl	$-3, %eax
	retq
.LBB137_7:
	movq	%rax, (%rdi)
	xorl	%eax, %eax
	xchgq	%rax, 8(%rdi)
	movl	$-5, %eax
	retq
.Lfunc_end137:
	.size	nm_map_report_value, .Lfunc_end137-nm_map_report_value
	.cfi_endproc
	.section	.text.nm_map_get_many_pinned,"ax",@progbits
	.globl	nm_map_get_many_pinned
	.p2align	4
	.type	nm_map_get_many_pinned,@function
nm_map_get_many_pinned:
	.cfi_startproc
	pushq	%rbp
	.cfi_def_cfa_offset 16
	pushq	%r15
	.cfi_def_cfa_offset 24
	pushq	%r14
	.cfi_def_cfa_offset 32
	pushq	%r13
	.cfi_def_cfa_offset 40
	pushq	%r12
	.cfi_def_cfa_offset 48
	pushq	%rbx
	.cfi_def_cfa_offset 56
	subq	$88, %rsp
	.cfi_def_cfa_offset 144
	.cfi_offset %rbx, -56
	.cfi_offset %r12, -48
	.cfi_offset %r13, -40
	.cfi_offset %r14, -32
	.cfi_offset %r15, -24
	.cfi_offset %rbp, -16
	xorl	%ebx, %ebx
	testq	%rsi, %rsi
	movl	$1, %r8d
	xchgq	%r8, 8(%rdi)
	sete	%cl
	movl	$-22, %eax
	testq	%r8, %r8
	je	.LBB138_1
.LBB138_50:
	addq	$88, %rsp
	.cfi_def_cfa_offset 56
	popq	%rbx
	.cfi_def_cfa_offset 48
	popq	%r12
	.cfi_def_cfa_offset 40
	popq	%r13
	.cfi_def_cfa_offset 32
	popq	%r14
	.cfi_def_cfa_offset 24
	popq	%r15
	.cfi_def_cfa_offset 16
	popq	%rbp
	.cfi_def_cfa_offset 8
	retq
.LBB138_1:
	.cfi_def_cfa_offset 144
	movq	(%rdi), %r15
	movq	$0, (%rdi)
	testq	%r15, %r15
	je	.LBB138_51
	cmpb	$3, (%r15)
	jne	.LBB138_49
	movb	%cl, %bl
	shll	$12, %ebx
	leaq	(%rsi,%rbx), %r14
	leaq	8(%r15), %r8
	movq	$-1, %rax
	movq	%r14, %rcx
	.p2align	4
.LBB138_4:
	incq	%rax
	cmpq	%rax, %rdx
	je	.LBB138_7
	cmpq	$-3, (%rcx)
	leaq	24(%rcx), %rcx
	jb	.LBB138_4
.LBB138_6:
	movq	%r15, (%rdi)
	xorl	%eax, %eax
	xchgq	%rax, 8(%rdi)
	movl	$-4, %eax
	jmp	.LBB138_50
.LBB138_51:
	xorl	%eax, %eax
	xchgq	%rax, 8(%rdi)
	movl	$-1, %eax
	jmp	.LBB138_50
.LBB138_49:
	movq	%r15, (%rdi)
	xorl	%eax, %eax
	xchgq	%rax, 8(%rdi)
	movl	$-3, %eax
	jmp	.LBB138_50
.LBB138_7:
	testq	%rdx, %rdx
	je	.LBB138_45
	movabsq	$288230376151711742, %rax
	addq	$2, %rax
	cmpq	%rax, %rdx
	jae	.LBB138_23
	movq	%rdx, %rax
	shlq	$5, %rax
	movq	%rsi, 56(%rsp)
	movl	$8, %esi
	movq	%rdi, 8(%rsp)
	movq	%rax, %rdi
	movq	%rdx, 48(%rsp)
	callq	nm_host_alloc@PLT
	movq	8(%rsp), %rdi
	movq	48(%rsp), %r12
	testb	$1, %al
	je	.LBB138_23
	movq	%rdx, 24(%rsp)
	movq	$0, 32(%rsp)
	movq	%r12, 40(%rsp)
	xorl	%eax, %eax
	movq	%r14, %r13
.LBB138_11:
	movq	(%r13), %rbp
	cmpq	$-4, %rbp
	ja	.LBB138_19
	xorps	%xmm0, %xmm0
	movaps	%xmm0, 64(%rsp)
	movq	$0, 80(%rsp)
	cmpq	%rax, 40(%rsp)
	je	.LBB138_13
.LBB138_15:
	movq	%rax, %rcx
	shlq	$5, %rcx
	movq	%rbp, (%rdx,%rcx)
	movaps	64(%rsp), %xmm0
	movups	%xmm0, 8(%rdx,%rcx)
	movq	80(%rsp), %rsi
	movq	%rsi, 24(%rdx,%rcx)
	incq	%rax
	movq	%rax, 32(%rsp)
	addq	$24, %r13
	decq	%r12
	jne	.LBB138_11
	jmp	.LBB138_16
.LBB138_13:
	leaq	24(%rsp), %rdi
	callq	"std_alloc::vec::Vec::grow_amortized::<#9a2635718dfc78f3>"
	testb	%al, %al
	je	.LBB138_21
	movq	24(%rsp), %rdx
	movq	32(%rsp), %rax
	movq	8(%rsp), %rdi
	jmp	.LBB138_15
.LBB138_45:
	leaq	16(%rsp), %rsi
	movq	%rdi, %rbx
	movq	%r8, %rdi
	xorl	%edx, %edx
	callq	"nm_set_c::map_many::ask"
	movq	%rbx, %rcx
	testb	%al, %al
	je	.LBB138_46
	testb	%dl, %dl
	je	.LBB138_48
.LBB138_44:
	movq	%r15, (%rcx)
	xorl	%eax, %eax
	xchgq	%rax, 8(%rcx)
	movl	$-9, %eax
	jmp	.LBB138_50
.LBB138_19:
	cmpq	$0, 40(%rsp)
	je	.LBB138_6
	movq	%rdx, %rdi
	callq	nm_host_dealloc@PLT
	movq	8(%rsp), %rdi
	jmp	.LBB138_6
.LBB138_16:
	movq	24(%rsp), %r13
	movq	40(%rsp), %rbp
	leaq	8(%r15), %rdi
	movq	%r13, %rsi
	movq	%rax, %rdx
	callq	"nm_set_c::map_many::ask"
	testb	%al, %al
	je	.LBB138_17
	testb	%dl, %dl
	movq	8(%rsp), %rcx
	je	.LBB138_39
	testq	%rbp, %rbp
	je	.LBB138_44
	movq	%r13, %rdi
	callq	nm_host_dealloc@PLT
	movq	8(%rsp), %rcx
	jmp	.LBB138_44
.LBB138_17:
	movq	48(%rsp), %r12
	cmpq	$1, %r12
	movq	8(%rsp), %rcx
	jne	.LBB138_24
	xorl	%eax, %eax
	jmp	.LBB138_33
.LBB138_39:
	testq	%rbp, %rbp
	je	.LBB138_48
	movq	%r13, %rdi
	callq	nm_host_dealloc@PLT
	movq	8(%rsp), %rcx
.LBB138_48:
	movq	%r15, (%rcx)
	xorl	%eax, %eax
	xchgq	%rax, 8(%rcx)
	movl	$-14, %eax
	jmp	.LBB138_50
.LBB138_24:
	movabsq	$288230376151711742, %r10
	andq	%r12, %r10
	leaq	48(%r13), %rdx
	movq	56(%rsp), %rax
	leaq	(%rbx,%rax), %rsi
	addq	$40, %rsi
	xorl	%eax, %eax
	jmp	.LBB138_25
.LBB138_30:
	movq	(%rdx), %r8
.LBB138_31:
	movq	-16(%rdx), %r9
	movq	%r9, -16(%rsi)
	movq	%rdi, -8(%rsi)
	movq	%r8, (%rsi)
	addq	$2, %rax
	addq	$64, %rdx
	addq	$48, %rsi
	cmpq	%rax, %r10
	je	.LBB138_32
.LBB138_25:
	movzbl	-40(%rdx), %edi
	cmpq	$1, %rdi
	jne	.LBB138_26
	movq	-32(%rdx), %r8
	jmp	.LBB138_28
.LBB138_26:
	xorl	%r8d, %r8d
.LBB138_28:
	movq	-48(%rdx), %r9
	movq	%r9, -40(%rsi)
	movq	%rdi, -32(%rsi)
	movq	%r8, -24(%rsi)
	movzbl	-8(%rdx), %edi
	cmpq	$1, %rdi
	je	.LBB138_30
	xorl	%r8d, %r8d
	jmp	.LBB138_31
.LBB138_32:
	testb	$1, %r12b
	je	.LBB138_37
.LBB138_33:
	movq	%rax, %rdi
	shlq	$5, %rdi
	movq	(%r13,%rdi), %rdx
	movzbl	8(%r13,%rdi), %esi
	cmpq	$1, %rsi
	jne	.LBB138_34
	movq	16(%r13,%rdi), %rdi
	jmp	.LBB138_36
.LBB138_34:
	xorl	%edi, %edi
.LBB138_36:
	leaq	(%rax,%rax,2), %rax
	movq	%rdx, (%r14,%rax,8)
	movq	%rsi, 8(%r14,%rax,8)
	movq	%rdi, 16(%r14,%rax,8)
.LBB138_37:
	testq	%rbp, %rbp
	je	.LBB138_46
	movq	%r13, %rdi
	callq	nm_host_dealloc@PLT
	movq	8(%rsp), %rcx
.LBB138_46:
	movq	%r15, (%rcx)
	xorl	%eax, %eax
	xchgq	%rax, 8(%rcx)
	movl	$2, %eax
	jmp	.LBB138_50
.LBB138_21:
	cmpq	$0, 40(%rsp)
	movq	8(%rsp), %rdi
	je	.LBB138_23
	movq	24(%rsp), %rdi
	callq	nm_host_dealloc@PLT
	movq	8(%rsp), %rdi
.LBB138_23:
	movq	%r15, (%rdi)
	xorl	%eax, %eax
	xchgq	%rax, 8(%rdi)
	movl	$-8, %eax
	jmp	.LBB138_50
.Lfunc_end138:
	.size	nm_map_get_many_pinned, .Lfunc_end138-nm_map_get_many_pinned
	.cfi_endproc
	.section	.text.nm_worker_contains_many,"ax",@progbits
	.globl	nm_worker_contains_many
	.p2align	4
	.type	nm_worker_contains_many,@function
nm_worker_contains_many:
	.cfi_startproc
	pushq	%rbp
	.cfi_def_cfa_offset 16
	pushq	%r15
	.cfi_def_cfa_offset 24
	pushq	%r14
	.cfi_def_cfa_offset 32
	pushq	%r13
	.cfi_def_cfa_offset 40
	pushq	%r12
	.cfi_def_cfa_offset 48
	pushq	%rbx
	.cfi_def_cfa_offset 56
	subq	$88, %rsp
	.cfi_def_cfa_offset 144
	.cfi_offset %rbx, -56
	.cfi_offset %r12, -48
	.cfi_offset %r13, -40
	.cfi_offset %r14, -32
	.cfi_offset %r15, -24
	.cfi_offset %rbp, -16
	xorl	%ebp, %ebp
	testq	%rsi, %rsi
	movl	$1, %r9d
	xchgq	%r9, 8(%rdi)
	sete	%r8b
	movl	$-22, %eax
	testq	%r9, %r9
	je	.LBB139_2
.LBB139_1:
	addq	$88, %rsp
	.cfi_def_cfa_offset 56
	popq	%rbx
	.cfi_def_cfa_offset 48
	popq	%r12
	.cfi_def_cfa_offset 40
	popq	%r13
	.cfi_def_cfa_offset 32
	popq	%r14
	.cfi_def_cfa_offset 24
	popq	%r15
	.cfi_def_cfa_offset 16
	popq	%rbp
	.cfi_def_cfa_offset 8
	retq
.LBB139_2:
	.cfi_def_cfa_offset 144
	movq	(%rdi), %r15
	movq	$0, (%rdi)
	testq	%r15, %r15
	je	.LBB139_8
	cmpb	$1, (%r15)
	jne	.LBB139_9
	movb	%r8b, %bpl
	shll	$12, %ebp
	leaq	(%rsi,%rbp), %r13
	leaq	8(%r15), %r9
	movq	$-1, %rax
	movq	%r13, %r8
	.p2align	4
.LBB139_5:
	incq	%rax
	cmpq	%rax, %rdx
	je	.LBB139_10
	cmpq	$-3, (%r8)
	leaq	16(%r8), %r8
	jb	.LBB139_5
	movb	$10, %r12b
	jmp	.LBB139_30
.LBB139_8:
	xorl	%eax, %eax
	xchgq	%rax, 8(%rdi)
	movl	$-1, %eax
	jmp	.LBB139_1
.LBB139_9:
	movq	%r15, (%rdi)
	xorl	%eax, %eax
	xchgq	%rax, 8(%rdi)
	movl	$-3, %eax
	jmp	.LBB139_1
.LBB139_10:
	testq	%rdx, %rdx
	je	.LBB139_19
	movabsq	$288230376151711742, %rax
	addq	$2, %rax
	movb	$14, %r12b
	cmpq	%rax, %rdx
	jae	.LBB139_30
	movl	%ecx, 12(%rsp)
	movq	%rsi, 56(%rsp)
	movq	%rdi, (%rsp)
	movq	%rdx, 48(%rsp)
	movq	%rdx, %rdi
	shlq	$5, %rdi
	movl	$8, %esi
	callq	nm_host_alloc@PLT
	testb	$1, %al
	je	.LBB139_29
	movq	%rdx, 16(%rsp)
	movq	$0, 24(%rsp)
	movq	48(%rsp), %r14
	movq	%r14, 32(%rsp)
	xorl	%eax, %eax
	movq	%r13, 40(%rsp)
	movl	12(%rsp), %ecx
.LBB139_14:
	movq	(%r13), %rbx
	cmpq	$-4, %rbx
	ja	.LBB139_24
	xorps	%xmm0, %xmm0
	movaps	%xmm0, 64(%rsp)
	movq	$0, 80(%rsp)
	cmpq	%rax, 32(%rsp)
	je	.LBB139_17
.LBB139_16:
	movq	%rax, %rsi
	shlq	$5, %rsi
	movq	%rbx, (%rdx,%rsi)
	movaps	64(%rsp), %xmm0
	movups	%xmm0, 8(%rdx,%rsi)
	movq	80(%rsp), %rdi
	movq	%rdi, 24(%rdx,%rsi)
	incq	%rax
	movq	%rax, 24(%rsp)
	addq	$16, %r13
	decq	%r14
	jne	.LBB139_14
	jmp	.LBB139_27
.LBB139_17:
	leaq	16(%rsp), %rdi
	callq	"std_alloc::vec::Vec::grow_amortized::<#9a2635718dfc78f3>"
	testb	%al, %al
	je	.LBB139_40
	movq	16(%rsp), %rdx
	movq	24(%rsp), %rax
	movl	12(%rsp), %ecx
	jmp	.LBB139_16
.LBB139_19:
	leaq	8(%rsp), %r14
	movq	%rdi, %rbx
	movq	%r9, %rdi
	movq	%r14, %rsi
	xorl	%edx, %edx
	callq	"nm_set_c::many::ask"
	movq	%rbx, %rdi
	testb	%al, %al
	je	.LBB139_39
	movb	$1, %r13b
.LBB139_21:
	movzbl	%dl, %ecx
	shll	$3, %ecx
	movabsq	$20968316473359, %r12
	shrq	%cl, %r12
	testb	%r13b, %r13b
	jne	.LBB139_30
	movq	%rdi, %rbx
	movq	%r14, %rdi
	callq	nm_host_dealloc@PLT
	movq	%rbx, %rdi
	jmp	.LBB139_30
.LBB139_24:
	movb	$10, %r12b
	cmpq	$0, 32(%rsp)
	je	.LBB139_29
	movq	%rdx, %rdi
.LBB139_26:
	callq	nm_host_dealloc@PLT
.LBB139_29:
	movq	(%rsp), %rdi
.LBB139_30:
	movq	%r15, (%rdi)
	xorl	%eax, %eax
	xchgq	%rax, 8(%rdi)
	addb	$-10, %r12b
	movzbl	%r12b, %ecx
	movl	$-4, %eax
	subl	%ecx, %eax
	jmp	.LBB139_1
.LBB139_27:
	movq	16(%rsp), %r14
	movq	32(%rsp), %r12
	testq	%r12, %r12
	sete	%r13b
	leaq	8(%r15), %rdi
	movq	%r14, %rsi
	movq	%rax, %rdx
	callq	"nm_set_c::many::ask"
	testb	%al, %al
	je	.LBB139_31
	movq	(%rsp), %rdi
	jmp	.LBB139_21
.LBB139_31:
	movq	48(%rsp), %rcx
	cmpq	$1, %rcx
	movq	(%rsp), %rdi
	jne	.LBB139_33
	xorl	%eax, %eax
	movq	40(%rsp), %r10
	jmp	.LBB139_36
.LBB139_33:
	movabsq	$288230376151711742, %r11
	andq	%rcx, %r11
	movq	56(%rsp), %rax
	leaq	(%rax,%rbp), %rdx
	addq	$24, %rdx
	xorl	%eax, %eax
	xorl	%esi, %esi
	movq	40(%rsp), %r10
.LBB139_34:
	movq	(%r14,%rsi,2), %r8
	movzbl	8(%r14,%rsi,2), %r9d
	movq	%r8, -24(%rdx,%rsi)
	movq	%r9, -16(%rdx,%rsi)
	movq	32(%r14,%rsi,2), %r8
	movzbl	40(%r14,%rsi,2), %r9d
	movq	%r8, -8(%rdx,%rsi)
	movq	%r9, (%rdx,%rsi)
	addq	$2, %rax
	addq	$32, %rsi
	cmpq	%rax, %r11
	jne	.LBB139_34
	testb	$1, %cl
	je	.LBB139_37
.LBB139_36:
	movq	%rax, %rcx
	shlq	$5, %rcx
	movq	(%r14,%rcx), %rdx
	movzbl	8(%r14,%rcx), %ecx
	shlq	$4, %rax
	movq	%rdx, (%r10,%rax)
	movq	%rcx, 8(%r10,%rax)
.LBB139_37:
	testq	%r12, %r12
	je	.LBB139_39
	movq	%r14, %rdi
	callq	nm_host_dealloc@PLT
	movq	(%rsp), %rdi
.LBB139_39:
	movq	%r15, (%rdi)
	xorl	%eax, %eax
	xchgq	%rax, 8(%rdi)
	movl	$2, %eax
	jmp	.LBB139_1
.LBB139_40:
	cmpq	$0, 32(%rsp)
	je	.LBB139_29
	movq	16(%rsp), %rdi
	jmp	.LBB139_26
.Lfunc_end139:
	.size	nm_worker_contains_many, .Lfunc_end139-nm_worker_contains_many
	.cfi_endproc
	.section	.text.nm_map_compare_replace,"ax",@progbits
	.globl	nm_map_compare_replace
	.p2align	4
	.type	nm_map_compare_replace,@function
nm_map_compare_replace:
	.cfi_startproc
	pushq	%r15
	.cfi_def_cfa_offset 16
	pushq	%r14
	.cfi_def_cfa_offset 24
	pushq	%rbx
	.cfi_def_cfa_offset 32
	subq	$48, %rsp
	.cfi_def_cfa_offset 80
	.cfi_offset %rbx, -32
	.cfi_offset %r14, -24
	.cfi_offset %r15, -16
	movl	$1, %r10d
	xchgq	%r10, 8(%rdi)
	movl	$-22, %eax
	testq	%r10, %r10
	je	.LBB140_1
.LBB140_12:
	addq	$48, %rsp
	.cfi_def_cfa_offset 32
	popq	%rbx
	.cfi_def_cfa_offset 24
	popq	%r14
	.cfi_def_cfa_offset 16
	popq	%r15
	.cfi_def_cfa_offset 8
	retq
.LBB140_1:
	.cfi_def_cfa_offset 80
	movq	(%rdi), %rbx
	movq	$0, (%rdi)
	testq	%rbx, %rbx
	je	.LBB140_13
	cmpb	$3, (%rbx)
	jne	.LBB140_11
	xorps	%xmm0, %xmm0
	movaps	%xmm0, 16(%rsp)
	movq	$0, 32(%rsp)
	cmpq	$-3, %rsi
	jae	.LBB140_4
	movq	%r9, %r14
	movq	%rdi, %r15
	leaq	8(%rbx), %rax
	movq	%r8, (%rsp)
	leaq	16(%rsp), %rdi
	movq	%rsi, %r8
	movq	%rax, %rsi
	movq	%rdx, %r9
	movq	%r8, %rdx
	movl	$2, %r8d
	callq	"nm_set::map_putting::Member+Values::put"
	cmpb	$0, 16(%rsp)
	je	.LBB140_6
	movzbl	17(%rsp), %eax
	movq	%rbx, (%r15)
	xorl	%ecx, %ecx
	xchgq	%rcx, 8(%r15)
	leaq	.Lswitch.table.nm_map_remove_if(%rip), %rcx
	movl	(%rcx,%rax,4), %eax
	jmp	.LBB140_12
.LBB140_13:
	xorl	%eax, %eax
	xchgq	%rax, 8(%rdi)
	movl	$-1, %eax
	jmp	.LBB140_12
.LBB140_11:
	movq	%rbx, (%rdi)
	xorl	%eax, %eax
	xchgq	%rax, 8(%rdi)
	movl	$-3, %eax
	jmp	.LBB140_12
.LBB140_4:
	movq	%rbx, (%rdi)
	xorl	%eax, %eax
	xchgq	%rax, 8(%rdi)
	movl	$-4, %eax
	jmp	.LBB140_12
.LBB140_6:
	movzbl	24(%rsp), %eax
	movq	32(%rsp), %rcx
	movl	%eax, %edx
	leaq	.LJTI140_0(%rip), %rsi
	movslq	(%rsi,%rdx,4), %rdx
	addq	%rsi, %rdx
	jmpq	*%rdx
.LBB140_10:
	movq	%rbx, (%r15)
	xorl	%ecx, %ecx
	xchgq	%rcx, 8(%r15)
	addl	$3, %eax
	jmp	.LBB140_12
.LBB140_7:
	movq	%rcx, (%r14)
	movq	%rbx, (%r15)
	xorl	%eax, %eax
	xchgq	%rax, 8(%r15)
	movl	$4, %eax
	jmp	.LBB140_12
.LBB140_8:
	movq	%rcx, (%r14)
	movq	%rbx, (%r15)
	xorl	%eax, %eax
	xchgq	%rax, 8(%r15)
	movl	$6, %eax
	jmp	.LBB140_12
.Lfunc_end140:
	.size	nm_map_compare_replace, .Lfunc_end140-nm_map_compare_replace
	.cfi_endproc
	.section	.rodata.nm_map_compare_replace,"a",@progbits
	.p2align	2, 0x0
.LJTI140_0:
	.long	.LBB140_10-.LJTI140_0
	.long	.LBB140_7-.LJTI140_0
	.long	.LBB140_10-.LJTI140_0
	.long	.LBB140_8-.LJTI140_0
	.section	.text.nm_map_put,"ax",@progbits
	.globl	nm_map_put
	.p2align	4
	.type	nm_map_put,@function
nm_map_put:
	.cfi_startproc
	pushq	%r15
	.cfi_def_cfa_offset 16
	pushq	%r14
	.cfi_def_cfa_offset 24
	pushq	%rbx
	.cfi_def_cfa_offset 32
	subq	$48, %rsp
	.cfi_def_cfa_offset 80
	.cfi_offset %rbx, -32
	.cfi_offset %r14, -24
	.cfi_offset %r15, -16
	movl	$1, %r9d
	xchgq	%r9, 8(%rdi)
	movl	$-22, %eax
	testq	%r9, %r9
	je	.LBB141_1
.LBB141_12:
	addq	$48, %rsp
	.cfi_def_cfa_offset 32
	popq	%rbx
	.cfi_def_cfa_offset 24
	popq	%r14
	.cfi_def_cfa_offset 16
	popq	%r15
	.cfi_def_cfa_offset 8
	retq
.LBB141_1:
	.cfi_def_cfa_offset 80
	movq	(%rdi), %rbx
	movq	$0, (%rdi)
	testq	%rbx, %rbx
	je	.LBB141_13
	cmpb	$3, (%rbx)
	jne	.LBB141_11
	xorps	%xmm0, %xmm0
	movaps	%xmm0, 16(%rsp)
	movq	$0, 32(%rsp)
	cmpq	$-3, %rsi
	jae	.LBB141_4
	movq	%r8, %r14
	movq	%rdi, %r15
	leaq	8(%rbx), %rax
	movq	%rcx, (%rsp)
	leaq	16(%rsp), %rdi
	movq	%rsi, %r8
	movq	%rax, %rsi
	movq	%rdx, %rcx
	movq	%r8, %rdx
	xorl	%r8d, %r8d
	xorl	%r9d, %r9d
	callq	"nm_set::map_putting::Member+Values::put"
	cmpb	$0, 16(%rsp)
	je	.LBB141_6
	movzbl	17(%rsp), %eax
	movq	%rbx, (%r15)
	xorl	%ecx, %ecx
	xchgq	%rcx, 8(%r15)
	leaq	.Lswitch.table.nm_map_remove_if(%rip), %rcx
	movl	(%rcx,%rax,4), %eax
	jmp	.LBB141_12
.LBB141_13:
	xorl	%eax, %eax
	xchgq	%rax, 8(%rdi)
	movl	$-1, %eax
	jmp	.LBB141_12
.LBB141_11:
	movq	%rbx, (%rdi)
	xorl	%eax, %eax
	xchgq	%rax, 8(%rdi)
	movl	$-3, %eax
	jmp	.LBB141_12
.LBB141_4:
	movq	%rbx, (%rdi)
	xorl	%eax, %eax
	xchgq	%rax, 8(%rdi)
	movl	$-4, %eax
	jmp	.LBB141_12
.LBB141_6:
	movzbl	24(%rsp), %eax
	movq	32(%rsp), %rcx
	movl	%eax, %edx
	leaq	.LJTI141_0(%rip), %rsi
	movslq	(%rsi,%rdx,4), %rdx
	addq	%rsi, %rdx
	jmpq	*%rdx
.LBB141_10:
	movq	%rbx, (%r15)
	xorl	%ecx, %ecx
	xchgq	%rcx, 8(%r15)
	addl	$3, %eax
	jmp	.LBB141_12
.LBB141_7:
	movq	%rcx, (%r14)
	movq	%rbx, (%r15)
	xorl	%eax, %eax
	xchgq	%rax, 8(%r15)
	movl	$4, %eax
	jmp	.LBB141_12
.LBB141_8:
	movq	%rcx, (%r14)
	movq	%rbx, (%r15)
	xorl	%eax, %eax
	xchgq	%rax, 8(%r15)
	movl	$6, %eax
	jmp	.LBB141_12
.Lfunc_end141:
	.size	nm_map_put, .Lfunc_end141-nm_map_put
	.cfi_endproc
	.section	.rodata.nm_map_put,"a",@progbits
	.p2align	2, 0x0
.LJTI141_0:
	.long	.LBB141_10-.LJTI141_0
	.long	.LBB141_7-.LJTI141_0
	.long	.LBB141_10-.LJTI141_0
	.long	.LBB141_8-.LJTI141_0
	.section	.text.nm_map_replace,"ax",@progbits
	.globl	nm_map_replace
	.p2align	4
	.type	nm_map_replace,@function
nm_map_replace:
	.cfi_startproc
	pushq	%r15
	.cfi_def_cfa_offset 16
	pushq	%r14
	.cfi_def_cfa_offset 24
	pushq	%rbx
	.cfi_def_cfa_offset 32
	subq	$48, %rsp
	.cfi_def_cfa_offset 80
	.cfi_offset %rbx, -32
	.cfi_offset %r14, -24
	.cfi_offset %r15, -16
	movl	$1, %r9d
	xchgq	%r9, 8(%rdi)
	movl	$-22, %eax
	testq	%r9, %r9
	je	.LBB142_1
.LBB142_12:
	addq	$48, %rsp
	.cfi_def_cfa_offset 32
	popq	%rbx
	.cfi_def_cfa_offset 24
	popq	%r14
	.cfi_def_cfa_offset 16
	popq	%r15
	.cfi_def_cfa_offset 8
	retq
.LBB142_1:
	.cfi_def_cfa_offset 80
	movq	(%rdi), %rbx
	movq	$0, (%rdi)
	testq	%rbx, %rbx
	je	.LBB142_13
	cmpb	$3, (%rbx)
	jne	.LBB142_11
	xorps	%xmm0, %xmm0
	movaps	%xmm0, 16(%rsp)
	movq	$0, 32(%rsp)
	cmpq	$-3, %rsi
	jae	.LBB142_4
	movq	%r8, %r14
	movq	%rdi, %r15
	leaq	8(%rbx), %rax
	movq	%rcx, (%rsp)
	leaq	16(%rsp), %rdi
	movq	%rsi, %r8
	movq	%rax, %rsi
	movq	%rdx, %rcx
	movq	%r8, %rdx
	movl	$1, %r8d
	xorl	%r9d, %r9d
	callq	"nm_set::map_putting::Member+Values::put"
	cmpb	$0, 16(%rsp)
	je	.LBB142_6
	movzbl	17(%rsp), %eax
	movq	%rbx, (%r15)
	xorl	%ecx, %ecx
	xchgq	%rcx, 8(%r15)
	leaq	.Lswitch.table.nm_map_remove_if(%rip), %rcx
	movl	(%rcx,%rax,4), %eax
	jmp	.LBB142_12
.LBB142_13:
	xorl	%eax, %eax
	xchgq	%rax, 8(%rdi)
	movl	$-1, %eax
	jmp	.LBB142_12
.LBB142_11:
	movq	%rbx, (%rdi)
	xorl	%eax, %eax
	xchgq	%rax, 8(%rdi)
	movl	$-3, %eax
	jmp	.LBB142_12
.LBB142_4:
	movq	%rbx, (%rdi)
	xorl	%eax, %eax
	xchgq	%rax, 8(%rdi)
	movl	$-4, %eax
	jmp	.LBB142_12
.LBB142_6:
	movzbl	24(%rsp), %eax
	movq	32(%rsp), %rcx
	movl	%eax, %edx
	leaq	.LJTI142_0(%rip), %rsi
	movslq	(%rsi,%rdx,4), %rdx
	addq	%rsi, %rdx
	jmpq	*%rdx
.LBB142_10:
	movq	%rbx, (%r15)
	xorl	%ecx, %ecx
	xchgq	%rcx, 8(%r15)
	addl	$3, %eax
	jmp	.LBB142_12
.LBB142_7:
	movq	%rcx, (%r14)
	movq	%rbx, (%r15)
	xorl	%eax, %eax
	xchgq	%rax, 8(%r15)
	movl	$4, %eax
	jmp	.LBB142_12
.LBB142_8:
	movq	%rcx, (%r14)
	movq	%rbx, (%r15)
	xorl	%eax, %eax
	xchgq	%rax, 8(%r15)
	movl	$6, %eax
	jmp	.LBB142_12
.Lfunc_end142:
	.size	nm_map_replace, .Lfunc_end142-nm_map_replace
	.cfi_endproc
	.section	.rodata.nm_map_replace,"a",@progbits
	.p2align	2, 0x0
.LJTI142_0:
	.long	.LBB142_10-.LJTI142_0
	.long	.LBB142_7-.LJTI142_0
	.long	.LBB142_10-.LJTI142_0
	.long	.LBB142_8-.LJTI142_0
	.section	.text.nm_map_remove_if,"ax",@progbits
	.globl	nm_map_remove_if
	.p2align	4
	.type	nm_map_remove_if,@function
nm_map_remove_if:
	.cfi_startproc
	pushq	%rbp
	.cfi_def_cfa_offset 16
	pushq	%r15
	.cfi_def_cfa_offset 24
	pushq	%r14
	.cfi_def_cfa_offset 32
	pushq	%r13
	.cfi_def_cfa_offset 40
	pushq	%r12
	.cfi_def_cfa_offset 48
	pushq	%rbx
	.cfi_def_cfa_offset 56
	subq	$24, %rsp
	.cfi_def_cfa_offset 80
	.cfi_offset %rbx, -56
	.cfi_offset %r12, -48
	.cfi_offset %r13, -40
	.cfi_offset %r14, -32
	.cfi_offset %r15, -24
	.cfi_offset %rbp, -16
	movl	$1, %r9d
	xchgq	%r9, 8(%rdi)
	movl	$-22, %eax
	testq	%r9, %r9
	je	.LBB143_1
.LBB143_23:
	addq	$24, %rsp
	.cfi_def_cfa_offset 56
	popq	%rbx
	.cfi_def_cfa_offset 48
	popq	%r12
	.cfi_def_cfa_offset 40
	popq	%r13
	.cfi_def_cfa_offset 32
	popq	%r14
	.cfi_def_cfa_offset 24
	popq	%r15
	.cfi_def_cfa_offset 16
	popq	%rbp
	.cfi_def_cfa_offset 8
	retq
.LBB143_1:
	.cfi_def_cfa_offset 80
	movq	(%rdi), %rbx
	movq	$0, (%rdi)
	testq	%rbx, %rbx
	je	.LBB143_24
	cmpb	$3, (%rbx)
	jne	.LBB143_22
	cmpq	$-4, %rsi
	ja	.LBB143_21
	xorps	%xmm0, %xmm0
	movaps	%xmm0, (%rsp)
	movq	$0, 16(%rsp)
	movzbl	112(%rbx), %eax
	movb	$5, %r9b
	cmpb	$1, %al
	jne	.LBB143_5
.LBB143_18:
	movq	%rbx, (%rdi)
	xorl	%eax, %eax
	xchgq	%rax, 8(%rdi)
	movzbl	%r9b, %eax
	leaq	.Lswitch.table.nm_map_remove_if(%rip), %rcx
	movl	(%rcx,%rax,4), %eax
	jmp	.LBB143_23
.LBB143_24:
	xorl	%eax, %eax
	xchgq	%rax, 8(%rdi)
	movl	$-1, %eax
	jmp	.LBB143_23
.LBB143_22:
	movq	%rbx, (%rdi)
	xorl	%eax, %eax
	xchgq	%rax, 8(%rdi)
	movl	$-3, %eax
	jmp	.LBB143_23
.LBB143_21:
	movq	%rbx, (%rdi)
	xorl	%eax, %eax
	xchgq	%rax, 8(%rdi)
	movl	$-4, %eax
	jmp	.LBB143_23
.LBB143_5:
	cmpb	$2, %al
	jne	.LBB143_7
	movq	8(%rbx), %rax
	addq	$8, %rax
	movl	(%rcx), %r9d
	movl	4(%rcx), %r10d
	incq	%r10
	imulq	%r10, %r9
	movl	$4294967295, %r10d
	cmpq	%r10, %r9
	cmovaeq	%r10, %r9
	leaq	16(%rbx), %r10
	movq	%rdi, %r14
	movq	%rax, %rdi
	movq	%rsi, %r15
	movq	%r10, %rsi
	movq	%rdx, %r12
	movl	%r9d, %edx
	movq	%r8, %r13
	movq	%rcx, %rbp
	callq	"nm_tree::tree::Tree::finish_pending"
	movq	%r15, %rsi
	movq	%r12, %rdx
	movq	%rbp, %rcx
	movq	%r13, %r8
	movq	%r14, %rdi
	movb	$4, %r9b
	testb	%al, %al
	jne	.LBB143_18
.LBB143_7:
	movq	%r8, %r15
	movq	%rdi, %r14
	leaq	8(%rbx), %rax
	movq	%rsp, %rdi
	movq	%rsi, %r8
	movq	%rax, %rsi
	movq	%rdx, %rax
	movq	%r8, %rdx
	movq	%rcx, %r8
	movq	%rax, %rcx
	movq	%r8, %r12
	callq	"nm_set::map_removing::Member+Values::remove_if_with_retries"
	movzbl	(%rsp), %eax
	movzbl	1(%rsp), %r9d
	movl	%eax, %ecx
	xorb	$1, %cl
	movl	%r9d, %edx
	xorb	$3, %dl
	orb	%cl, %dl
	jne	.LBB143_13
	cmpb	$2, 112(%rbx)
	je	.LBB143_10
	movq	%r14, %rdi
	movq	%r15, %rax
	xorl	%r9d, %r9d
.LBB143_12:
	notb	%r9b
	andb	$1, %r9b
	xorl	%ecx, %ecx
	jmp	.LBB143_15
.LBB143_13:
	testb	%al, %al
	movq	%r14, %rdi
	jne	.LBB143_18
	movq	%r15, %rax
	movq	16(%rsp), %rcx
	movzbl	8(%rsp), %r9d
.LBB143_15:
	testb	%r9b, %r9b
	je	.LBB143_19
	movzbl	%r9b, %edx
	cmpl	$1, %edx
	jne	.LBB143_17
	movq	%rbx, (%rdi)
	xorl	%eax, %eax
	xchgq	%rax, 8(%rdi)
	movl	$5, %eax
	jmp	.LBB143_23
.LBB143_19:
	movq	%rbx, (%rdi)
	xorl	%eax, %eax
	xchgq	%rax, 8(%rdi)
	movl	$1, %eax
	jmp	.LBB143_23
.LBB143_17:
	movq	%rcx, (%rax)
	movq	%rbx, (%rdi)
	xorl	%eax, %eax
	xchgq	%rax, 8(%rdi)
	movl	$6, %eax
	jmp	.LBB143_23
.LBB143_10:
	movq	8(%rbx), %rdi
	addq	$8, %rdi
	movl	(%r12), %edx
	movl	4(%r12), %eax
	incq	%rax
	imulq	%rax, %rdx
	movl	$4294967295, %eax
	cmpq	%rax, %rdx
	cmovaeq	%rax, %rdx
	leaq	16(%rbx), %rsi
	callq	"nm_tree::tree::Tree::finish_pending"
	movl	%edx, %r9d
	movq	%r14, %rdi
	testb	%al, %al
	jne	.LBB143_18
	movq	%r15, %rax
	jmp	.LBB143_12
.Lfunc_end143:
	.size	nm_map_remove_if, .Lfunc_end143-nm_map_remove_if
	.cfi_endproc
	.section	.text.nm_map_remove,"ax",@progbits
	.globl	nm_map_remove
	.p2align	4
	.type	nm_map_remove,@function
nm_map_remove:
	.cfi_startproc
	pushq	%rbp
	.cfi_def_cfa_offset 16
	pushq	%r15
	.cfi_def_cfa_offset 24
	pushq	%r14
	.cfi_def_cfa_offset 32
	pushq	%r13
	.cfi_def_cfa_offset 40
	pushq	%r12
	.cfi_def_cfa_offset 48
	pushq	%rbx
	.cfi_def_cfa_offset 56
	pushq	%rax
	.cfi_def_cfa_offset 64
	.cfi_offset %rbx, -56
	.cfi_offset %r12, -48
	.cfi_offset %r13, -40
	.cfi_offset %r14, -32
	.cfi_offset %r15, -24
	.cfi_offset %rbp, -16
	movl	$1, %r8d
	xchgq	%r8, 8(%rdi)
	movl	$-22, %eax
	testq	%r8, %r8
	je	.LBB144_1
.LBB144_28:
	addq	$8, %rsp
	.cfi_def_cfa_offset 56
	popq	%rbx
	.cfi_def_cfa_offset 48
	popq	%r12
	.cfi_def_cfa_offset 40
	popq	%r13
	.cfi_def_cfa_offset 32
	popq	%r14
	.cfi_def_cfa_offset 24
	popq	%r15
	.cfi_def_cfa_offset 16
	popq	%rbp
	.cfi_def_cfa_offset 8
	retq
.LBB144_1:
	.cfi_def_cfa_offset 64
	movq	(%rdi), %r14
	movq	$0, (%rdi)
	testq	%r14, %r14
	je	.LBB144_29
	cmpb	$3, (%r14)
	jne	.LBB144_27
	xorl	%ebx, %ebx
	cmpq	$-3, %rsi
	cmovbq	%rsi, %rbx
	jae	.LBB144_21
	movq	$0, (%rsp)
	movzbl	112(%r14), %eax
	cmpb	$1, %al
	jne	.LBB144_5
.LBB144_26:
	movq	%r14, (%rdi)
	xorl	%eax, %eax
	xchgq	%rax, 8(%rdi)
	movl	$-13, %eax
	jmp	.LBB144_28
.LBB144_29:
	xorl	%eax, %eax
	xchgq	%rax, 8(%rdi)
	movl	$-1, %eax
	jmp	.LBB144_28
.LBB144_27:
	movq	%r14, (%rdi)
	xorl	%eax, %eax
	xchgq	%rax, 8(%rdi)
	movl	$-3, %eax
	jmp	.LBB144_28
.LBB144_21:
	movq	%r14, (%rdi)
	xorl	%eax, %eax
	xchgq	%rax, 8(%rdi)
	movl	$-4, %eax
	jmp	.LBB144_28
.LBB144_5:
	cmpb	$2, %al
	movq	%rdx, %r15
	je	.LBB144_6
.LBB144_7:
	movq	%rcx, %r13
	movq	%rdi, %r12
	movl	4(%rdx), %ebp
	testl	%ebp, %ebp
	je	.LBB144_8
.LBB144_10:
	movl	(%rdx), %r9d
	leaq	8(%r14), %rdi
	movq	%rsp, %r8
	movl	$2, %esi
	movq	%rbx, %rdx
	xorl	%ecx, %ecx
	callq	"nm_set::member::Member::ask::<#de9872852a7d50e8>"
	movl	%eax, %ecx
	xorb	$1, %cl
	orb	%dl, %cl
	jne	.LBB144_11
	decl	%ebp
	movq	%r15, %rdx
	jne	.LBB144_10
.LBB144_8:
	movl	(%rdx), %r9d
	leaq	8(%r14), %rdi
	movq	%rsp, %r8
	movl	$2, %esi
	movq	%rbx, %rdx
	xorl	%ecx, %ecx
	callq	"nm_set::member::Member::ask::<#de9872852a7d50e8>"
.LBB144_11:
	movl	%eax, %ecx
	xorb	$1, %cl
	movl	%edx, %esi
	xorb	$3, %sil
	orb	%cl, %sil
	movq	%r12, %rdi
	jne	.LBB144_12
	cmpb	$2, 112(%r14)
	je	.LBB144_14
.LBB144_17:
	movq	%r14, (%rdi)
	xorl	%eax, %eax
	xorl	%ecx, %ecx
	xchgq	%rcx, 8(%rdi)
	jmp	.LBB144_28
.LBB144_12:
	movq	%r13, %rcx
	movq	(%rsp), %rsi
	testb	%al, %al
	je	.LBB144_16
.LBB144_18:
	movzbl	%dl, %eax
	leaq	.LJTI144_0(%rip), %rdx
	movslq	(%rdx,%rax,4), %rax
	addq	%rdx, %rax
	jmpq	*%rax
.LBB144_23:
	movq	%r14, (%rdi)
	xorl	%eax, %eax
	xchgq	%rax, 8(%rdi)
	movl	$-9, %eax
	jmp	.LBB144_28
.LBB144_6:
	movq	8(%r14), %rax
	addq	$8, %rax
	movl	(%rdx), %r8d
	movl	4(%rdx), %edx
	incq	%rdx
	imulq	%rdx, %r8
	movl	$4294967295, %edx
	cmpq	%rdx, %r8
	cmovaeq	%rdx, %r8
	leaq	16(%r14), %rsi
	movq	%rdi, %r12
	movq	%rax, %rdi
	movl	%r8d, %edx
	movq	%rcx, %r13
	callq	"nm_tree::tree::Tree::finish_pending"
	movq	%r15, %rdx
	movq	%r13, %rcx
	movq	%r12, %rdi
	testb	%al, %al
	je	.LBB144_7
.LBB144_25:
	movq	%r14, (%rdi)
	xorl	%eax, %eax
	xchgq	%rax, 8(%rdi)
	movl	$-12, %eax
	jmp	.LBB144_28
.LBB144_19:
	movq	%rsi, (%rcx)
	movq	%r14, (%rdi)
	xorl	%eax, %eax
	xchgq	%rax, 8(%rdi)
	movl	$-11, %eax
	jmp	.LBB144_28
.LBB144_24:
	movq	%r14, (%rdi)
	xorl	%eax, %eax
	xchgq	%rax, 8(%rdi)
	movl	$-10, %eax
	jmp	.LBB144_28
.LBB144_22:
	movq	%r14, (%rdi)
	xorl	%eax, %eax
	xchgq	%rax, 8(%rdi)
	movl	$-8, %eax
	jmp	.LBB144_28
.LBB144_14:
	movq	8(%r14), %rdi
	addq	$8, %rdi
	movl	(%r15), %edx
	movl	4(%r15), %eax
	incq	%rax
	imulq	%rax, %rdx
	movl	$4294967295, %eax
	cmpq	%rax, %rdx
	cmovaeq	%rax, %rdx
	leaq	16(%r14), %rsi
	callq	"nm_tree::tree::Tree::finish_pending"
	movq	%r13, %rcx
	movq	%r12, %rdi
	movq	(%rsp), %rsi
	testb	%al, %al
	jne	.LBB144_18
.LBB144_16:
	testb	$1, %dl
	je	.LBB144_17
	movq	%rsi, (%rcx)
	movq	%r14, (%rdi)
	xorl	%eax, %eax
	xchgq	%rax, 8(%rdi)
	movl	$1, %eax
	jmp	.LBB144_28
.Lfunc_end144:
	.size	nm_map_remove, .Lfunc_end144-nm_map_remove
	.cfi_endproc
	.section	.rodata.nm_map_remove,"a",@progbits
	.p2align	2, 0x0
.LJTI144_0:
	.long	.LBB144_23-.LJTI144_0
	.long	.LBB144_24-.LJTI144_0
	.long	.LBB144_22-.LJTI144_0
	.long	.LBB144_19-.LJTI144_0
	.long	.LBB144_25-.LJTI144_0
	.long	.LBB144_26-.LJTI144_0
	.section	.text.nm_map_get_or_insert,"ax",@progbits
	.globl	nm_map_get_or_insert
	.p2align	4
	.type	nm_map_get_or_insert,@function
nm_map_get_or_insert:
	.cfi_startproc
	pushq	%rbp
	.cfi_def_cfa_offset 16
	pushq	%r15
	.cfi_def_cfa_offset 24
	pushq	%r14
	.cfi_def_cfa_offset 32
	pushq	%r13
	.cfi_def_cfa_offset 40
	pushq	%r12
	.cfi_def_cfa_offset 48
	pushq	%rbx
	.cfi_def_cfa_offset 56
	subq	$24, %rsp
	.cfi_def_cfa_offset 80
	.cfi_offset %rbx, -56
	.cfi_offset %r12, -48
	.cfi_offset %r13, -40
	.cfi_offset %r14, -32
	.cfi_offset %r15, -24
	.cfi_offset %rbp, -16
	movl	$1, %r9d
	xchgq	%r9, 8(%rdi)
	movl	$-22, %eax
	testq	%r9, %r9
	je	.LBB145_1
.LBB145_24:
	addq	$24, %rsp
	.cfi_def_cfa_offset 56
	popq	%rbx
	.cfi_def_cfa_offset 48
	popq	%r12
	.cfi_def_cfa_offset 40
	popq	%r13
	.cfi_def_cfa_offset 32
	popq	%r14
	.cfi_def_cfa_offset 24
	popq	%r15
	.cfi_def_cfa_offset 16
	popq	%rbp
	.cfi_def_cfa_offset 8
	retq
.LBB145_1:
	.cfi_def_cfa_offset 80
	movq	(%rdi), %r15
	movq	$0, (%rdi)
	testq	%r15, %r15
	je	.LBB145_25
	cmpb	$3, (%r15)
	jne	.LBB145_23
	xorl	%ebx, %ebx
	cmpq	$-3, %rsi
	cmovbq	%rsi, %rbx
	jae	.LBB145_16
	movq	$0, 8(%rsp)
	movzbl	112(%r15), %eax
	cmpb	$1, %al
	jne	.LBB145_5
.LBB145_22:
	movq	%r15, (%rdi)
	xorl	%eax, %eax
	xchgq	%rax, 8(%rdi)
	movl	$-13, %eax
	jmp	.LBB145_24
.LBB145_25:
	xorl	%eax, %eax
	xchgq	%rax, 8(%rdi)
	movl	$-1, %eax
	jmp	.LBB145_24
.LBB145_23:
	movq	%r15, (%rdi)
	xorl	%eax, %eax
	xchgq	%rax, 8(%rdi)
	movl	$-3, %eax
	jmp	.LBB145_24
.LBB145_16:
	movq	%r15, (%rdi)
	xorl	%eax, %eax
	xchgq	%rax, 8(%rdi)
	movl	$-4, %eax
	jmp	.LBB145_24
.LBB145_5:
	cmpb	$2, %al
	movq	%rcx, %r12
	je	.LBB145_6
.LBB145_7:
	movq	%r8, 16(%rsp)
	movq	%rdx, %r14
	movq	%rdi, %rbp
	movl	4(%rcx), %r13d
	testl	%r13d, %r13d
	je	.LBB145_8
.LBB145_10:
	movl	(%rcx), %r9d
	leaq	8(%r15), %rdi
	leaq	8(%rsp), %r8
	movl	$1, %esi
	movq	%rbx, %rdx
	movq	%r14, %rcx
	callq	"nm_set::member::Member::ask::<#de9872852a7d50e8>"
	movl	%eax, %ecx
	xorb	$1, %cl
	orb	%dl, %cl
	jne	.LBB145_11
	decl	%r13d
	movq	%r12, %rcx
	jne	.LBB145_10
.LBB145_8:
	movl	(%rcx), %r9d
	leaq	8(%r15), %rdi
	leaq	8(%rsp), %r8
	movl	$1, %esi
	movq	%rbx, %rdx
	movq	%r14, %rcx
	callq	"nm_set::member::Member::ask::<#de9872852a7d50e8>"
.LBB145_11:
	testb	%al, %al
	movq	%rbp, %rdi
	movq	16(%rsp), %rax
	je	.LBB145_12
	movzbl	%dl, %eax
	leaq	.LJTI145_0(%rip), %rcx
	movslq	(%rcx,%rax,4), %rax
	addq	%rcx, %rax
	jmpq	*%rax
.LBB145_18:
	movq	%r15, (%rdi)
	xorl	%eax, %eax
	xchgq	%rax, 8(%rdi)
	movl	$-9, %eax
	jmp	.LBB145_24
.LBB145_12:
	testb	$1, %dl
	je	.LBB145_13
	movq	%r15, (%rdi)
	xorl	%eax, %eax
	xchgq	%rax, 8(%rdi)
	movl	$1, %eax
	jmp	.LBB145_24
.LBB145_13:
	movq	8(%rsp), %rcx
	movq	%rcx, (%rax)
	movq	%r15, (%rdi)
	xorl	%eax, %eax
	xorl	%ecx, %ecx
	xchgq	%rcx, 8(%rdi)
	jmp	.LBB145_24
.LBB145_20:
	movq	%r15, (%rdi)
	xorl	%eax, %eax
	xchgq	%rax, 8(%rdi)
	movl	$-11, %eax
	jmp	.LBB145_24
.LBB145_19:
	movq	%r15, (%rdi)
	xorl	%eax, %eax
	xchgq	%rax, 8(%rdi)
	movl	$-10, %eax
	jmp	.LBB145_24
.LBB145_17:
	movq	%r15, (%rdi)
	xorl	%eax, %eax
	xchgq	%rax, 8(%rdi)
	movl	$-8, %eax
	jmp	.LBB145_24
.LBB145_6:
	leaq	16(%r15), %rsi
	movq	8(%r15), %rax
	addq	$8, %rax
	movl	(%rcx), %r9d
	movl	4(%rcx), %ecx
	incq	%rcx
	imulq	%rcx, %r9
	movl	$4294967295, %ecx
	cmpq	%rcx, %r9
	cmovaeq	%rcx, %r9
	movq	%rdi, %r14
	movq	%rax, %rdi
	movq	%rdx, %r13
	movl	%r9d, %edx
	movq	%r8, %rbp
	callq	"nm_tree::tree::Tree::finish_pending"
	movq	%r12, %rcx
	movq	%r13, %rdx
	movq	%rbp, %r8
	movq	%r14, %rdi
	testb	%al, %al
	je	.LBB145_7
.LBB145_21:
	movq	%r15, (%rdi)
	xorl	%eax, %eax
	xchgq	%rax, 8(%rdi)
	movl	$-12, %eax
	jmp	.LBB145_24
.Lfunc_end145:
	.size	nm_map_get_or_insert, .Lfunc_end145-nm_map_get_or_insert
	.cfi_endproc
	.section	.rodata.nm_map_get_or_insert,"a",@progbits
	.p2align	2, 0x0
.LJTI145_0:
	.long	.LBB145_18-.LJTI145_0
	.long	.LBB145_19-.LJTI145_0
	.long	.LBB145_17-.LJTI145_0
	.long	.LBB145_20-.LJTI145_0
	.long	.LBB145_21-.LJTI145_0
	.long	.LBB145_22-.LJTI145_0
	.section	.text.nm_map_next,"ax",@progbits
	.globl	nm_map_next
	.p2align	4
	.type	nm_map_next,@function
nm_map_next:
	.cfi_startproc
	pushq	%rbp
	.cfi_def_cfa_offset 16
	pushq	%r15
	.cfi_def_cfa_offset 24
	pushq	%r14
	.cfi_def_cfa_offset 32
	pushq	%r13
	.cfi_def_cfa_offset 40
	pushq	%r12
	.cfi_def_cfa_offset 48
	pushq	%rbx
	.cfi_def_cfa_offset 56
	.cfi_offset %rbx, -56
	.cfi_offset %r12, -48
	.cfi_offset %r13, -40
	.cfi_offset %r14, -32
	.cfi_offset %r15, -24
	.cfi_offset %rbp, -16
	movl	$1, %r9d
	xchgq	%r9, 8(%rdi)
	movl	$-22, %eax
	testq	%r9, %r9
	je	.LBB146_1
.LBB146_37:
	popq	%rbx
	.cfi_def_cfa_offset 48
	popq	%r12
	.cfi_def_cfa_offset 40
	popq	%r13
	.cfi_def_cfa_offset 32
	popq	%r14
	.cfi_def_cfa_offset 24
	popq	%r15
	.cfi_def_cfa_offset 16
	popq	%rbp
	.cfi_def_cfa_offset 8
	retq
.LBB146_1:
	.cfi_def_cfa_offset 56
	movq	(%rdi), %r9
	movq	$0, (%rdi)
	testq	%r9, %r9
	je	.LBB146_38
	cmpb	$3, (%r9)
	jne	.LBB146_36
	xorl	%r10d, %r10d
	cmpq	$-3, %rsi
	cmovbq	%rsi, %r10
	jae	.LBB146_31
	movzbl	112(%r9), %eax
	cmpb	$1, %al
	jne	.LBB146_5
	movq	%r9, (%rdi)
	xorl	%eax, %eax
	xchgq	%rax, 8(%rdi)
	movl	$-13, %eax
	jmp	.LBB146_37
.LBB146_38:
	xorl	%eax, %eax
	xchgq	%rax, 8(%rdi)
	movl	$-1, %eax
	jmp	.LBB146_37
.LBB146_36:
	movq	%r9, (%rdi)
	xorl	%eax, %eax
	xchgq	%rax, 8(%rdi)
	movl	$-3, %eax
	jmp	.LBB146_37
.LBB146_31:
	movq	%r9, (%rdi)
	xorl	%eax, %eax
	xchgq	%rax, 8(%rdi)
	movl	$-4, %eax
	jmp	.LBB146_37
.LBB146_5:
	cmpb	$2, %al
	jne	.LBB146_6
	movq	%r9, (%rdi)
	xorl	%eax, %eax
	xchgq	%rax, 8(%rdi)
	movl	$-12, %eax
	jmp	.LBB146_37
.LBB146_6:
	testl	%edx, %edx
	je	.LBB146_33
	movq	8(%r9), %rax
	movq	8(%rax), %rsi
	movq	(%rsi), %r11
	movq	$1, 24(%r9)
	movq	%r11, 32(%r9)
	leaq	40(%r9), %rsi
	movl	%edx, %ebx
.LBB146_9:
	movl	20(%r9), %r14d
	leaq	1(%r11), %r15
	movq	8(%rax), %r12
	xchgq	%r15, (%r12,%r14,8)
	movq	$1, 40(%r9)
	movq	%r11, 48(%r9)
	movq	8(%rax), %r11
	movq	(%r11), %r11
	testb	$1, 72(%r9)
	jne	.LBB146_39
	cmpb	$0, 56(%r9)
	jne	.LBB146_40
	cmpb	$1, 40(%r9)
	jne	.LBB146_40
	cmpq	%r11, 48(%r9)
	movq	$1, 24(%r9)
	movq	%r11, 32(%r9)
	je	.LBB146_13
	decl	%ebx
	jne	.LBB146_9
	movq	8(%rax), %rax
	movl	20(%r9), %ecx
	xorl	%edx, %edx
	xchgq	%rdx, (%rax,%rcx,8)
	xorps	%xmm0, %xmm0
	movups	%xmm0, 16(%rsi)
	movups	%xmm0, (%rsi)
	jmp	.LBB146_33
.LBB146_13:
	movq	$1, 56(%r9)
	movq	%r11, 64(%r9)
	movl	$0, -4(%rsp)
.LBB146_15:
	movl	72(%rax), %ebx
	movl	88(%rax), %r15d
	movq	8(%rax), %r14
	leal	4(%r15), %r12d
	decl	%ebx
	testb	$1, 84(%rax)
	movq	8(%r14,%r12,8), %r12
	movl	$65, %ebp
	cmovel	%ebx, %ebp
	shrq	$2, %r12
	testl	%ebp, %ebp
	je	.LBB146_16
	testl	%r12d, %r12d
	je	.LBB146_26
	addl	$-4, %r15d
	movq	$-3, %r13
	.p2align	4
.LBB146_20:
	movq	%r12, %rbx
	movq	%r13, %rsi
	movq	8(%rax), %r14
	leal	(%r15,%r12,4), %r12d
	movq	(%r14,%r12,8), %r14
	movq	8(%rax), %r13
	movq	8(%r13,%r12,8), %r13
	movq	8(%rax), %r11
	movq	16(%r11,%r12,8), %r12
	cmpq	%r14, %r10
	cmovbq	%r13, %r12
	testq	%r12, %r12
	movq	%r14, %r13
	cmoveq	%rsi, %r13
	cmpq	%rsi, %r14
	cmovaeq	%rsi, %r13
	cmpq	%r14, %r10
	cmovaeq	%rsi, %r13
	shrq	$2, %r12
	decl	%ebp
	je	.LBB146_21
	testl	%r12d, %r12d
	jne	.LBB146_20
	jmp	.LBB146_22
.LBB146_16:
	movq	$-3, %r13
	xorl	%ebx, %ebx
	xorl	%r14d, %r14d
.LBB146_21:
	testl	%r12d, %r12d
	jne	.LBB146_28
.LBB146_22:
	cmpq	%r14, %r10
	ja	.LBB146_24
	cmpq	%r13, %r14
	jb	.LBB146_29
.LBB146_24:
	cmpq	$-3, %r13
	je	.LBB146_25
	movl	-4(%rsp), %esi
	incl	%esi
	movq	%r13, %r10
	movl	%esi, -4(%rsp)
	cmpl	%edx, %esi
	jne	.LBB146_15
.LBB146_28:
	movq	8(%rax), %rax
	movl	20(%r9), %ecx
	xorl	%edx, %edx
	xchgq	%rdx, (%rax,%rcx,8)
	xorps	%xmm0, %xmm0
	leaq	40(%r9), %rax
	movups	%xmm0, 16(%rax)
	movups	%xmm0, (%rax)
.LBB146_33:
	movq	%r9, (%rdi)
	xorl	%eax, %eax
	xchgq	%rax, 8(%rdi)
	movl	$-9, %eax
	jmp	.LBB146_37
.LBB146_29:
	cmpq	$-3, %r14
	jae	.LBB146_25
	jmp	.LBB146_30
.LBB146_26:
	testq	%r10, %r10
	je	.LBB146_27
.LBB146_25:
	movq	8(%rax), %rax
	movl	20(%r9), %ecx
	xorl	%edx, %edx
	xchgq	%rdx, (%rax,%rcx,8)
	xorl	%eax, %eax
	xorps	%xmm0, %xmm0
	leaq	40(%r9), %rcx
	movups	%xmm0, 16(%rcx)
	movups	%xmm0, (%rcx)
	movq	%r9, (%rdi)
	xorl	%ecx, %ecx
	xchgq	%rcx, 8(%rdi)
	jmp	.LBB146_37
.LBB146_27:
	xorl	%ebx, %ebx
	xorl	%r14d, %r14d
.LBB146_30:
	movl	72(%rax), %edx
	leal	(,%rdx,4), %esi
	movl	%edx, %r10d
	shrl	$6, %r10d
	andl	$63, %edx
	addl	88(%rax), %esi
	addl	%r10d, %esi
	cmpl	$1, %edx
	sbbl	$-1, %esi
	decl	%ebx
	addq	%rsi, %rbx
	movq	8(%rax), %rdx
	movq	(%rdx,%rbx,8), %rdx
	movq	8(%rax), %rax
	movl	20(%r9), %esi
	xorl	%r10d, %r10d
	xchgq	%r10, (%rax,%rsi,8)
	xorl	%eax, %eax
	xorps	%xmm0, %xmm0
	leaq	40(%r9), %rsi
	movups	%xmm0, 16(%rsi)
	movups	%xmm0, (%rsi)
	movq	%rdx, (%r8)
	movq	%r14, (%rcx)
	movq	%r9, (%rdi)
	xchgq	%rax, 8(%rdi)
	movl	$1, %eax
	jmp	.LBB146_37
.LBB146_39:
	movq	$1, 24(%r9)
	movq	%r11, 32(%r9)
	movb	$0, 72(%r9)
	ud2
.LBB146_40:
	movq	$1, 24(%r9)
	movq	%r11, 32(%r9)
	ud2
.Lfunc_end146:
	.size	nm_map_next, .Lfunc_end146-nm_map_next
	.cfi_endproc
	.section	.text.nm_map_pop_first,"ax",@progbits
	.globl	nm_map_pop_first
	.p2align	4
	.type	nm_map_pop_first,@function
nm_map_pop_first:
	.cfi_startproc
	pushq	%r15
	.cfi_def_cfa_offset 16
	pushq	%r14
	.cfi_def_cfa_offset 24
	pushq	%r13
	.cfi_def_cfa_offset 32
	pushq	%r12
	.cfi_def_cfa_offset 40
	pushq	%rbx
	.cfi_def_cfa_offset 48
	subq	$48, %rsp
	.cfi_def_cfa_offset 96
	.cfi_offset %rbx, -48
	.cfi_offset %r12, -40
	.cfi_offset %r13, -32
	.cfi_offset %r14, -24
	.cfi_offset %r15, -16
	movl	$1, %r8d
	xchgq	%r8, 8(%rdi)
	movl	$-22, %eax
	testq	%r8, %r8
	je	.LBB147_1
.LBB147_20:
	addq	$48, %rsp
	.cfi_def_cfa_offset 48
	popq	%rbx
	.cfi_def_cfa_offset 40
	popq	%r12
	.cfi_def_cfa_offset 32
	popq	%r13
	.cfi_def_cfa_offset 24
	popq	%r14
	.cfi_def_cfa_offset 16
	popq	%r15
	.cfi_def_cfa_offset 8
	retq
.LBB147_1:
	.cfi_def_cfa_offset 96
	movq	(%rdi), %rbx
	movq	$0, (%rdi)
	testq	%rbx, %rbx
	je	.LBB147_21
	cmpb	$3, (%rbx)
	jne	.LBB147_19
	movq	%rsi, %r9
	movq	%rcx, %r15
	movq	%rdx, %r12
	movq	%rdi, %r13
	leaq	8(%rbx), %rsi
	movq	$0, 8(%rsp)
	xorps	%xmm0, %xmm0
	movaps	%xmm0, 16(%rsp)
	movq	$0, 32(%rsp)
	xorl	%r14d, %r14d
	leaq	16(%rsp), %rdi
	leaq	8(%rsp), %r8
	xorl	%edx, %edx
	xorl	%ecx, %ecx
	callq	"nm_set::member::Member::pop::<#de9872852a7d50e8>"
	movzbl	16(%rsp), %edx
	movzbl	112(%rbx), %eax
	cmpb	$2, %al
	jne	.LBB147_5
	movq	120(%rbx), %r14
.LBB147_5:
	testb	%dl, %dl
	movq	%r13, %rcx
	je	.LBB147_6
	movzbl	17(%rsp), %esi
	xorb	$1, %dl
	movl	%esi, %edi
	xorb	$3, %dil
	orb	%dl, %dil
	jne	.LBB147_9
	cmpb	$2, %al
	jne	.LBB147_12
	movq	%r14, (%r12)
	jmp	.LBB147_12
.LBB147_21:
	xorl	%eax, %eax
	xchgq	%rax, 8(%rdi)
	movl	$-1, %eax
	jmp	.LBB147_20
.LBB147_19:
	movq	%rbx, (%rdi)
	xorl	%eax, %eax
	xchgq	%rax, 8(%rdi)
	movl	$-3, %eax
	jmp	.LBB147_20
.LBB147_6:
	cmpb	$1, 24(%rsp)
	jne	.LBB147_7
	movq	32(%rsp), %rax
	movq	8(%rsp), %rdx
	movq	%rdx, (%r15)
	movq	%rax, (%r12)
	movq	%rbx, (%rcx)
	xorl	%eax, %eax
	xchgq	%rax, 8(%rcx)
	movl	$1, %eax
	jmp	.LBB147_20
.LBB147_9:
	movl	%esi, %eax
	leaq	.LJTI147_0(%rip), %rdx
	movslq	(%rdx,%rax,4), %rax
	addq	%rdx, %rax
	jmpq	*%rax
.LBB147_15:
	movq	%rbx, (%rcx)
	xorl	%eax, %eax
	xchgq	%rax, 8(%rcx)
	movl	$-9, %eax
	jmp	.LBB147_20
.LBB147_12:
	movq	%rbx, (%rcx)
	xorl	%eax, %eax
	xchgq	%rax, 8(%rcx)
	movl	$-11, %eax
	jmp	.LBB147_20
.LBB147_7:
	movq	%rbx, (%rcx)
	xorl	%eax, %eax
	xorl	%edx, %edx
	xchgq	%rdx, 8(%rcx)
	jmp	.LBB147_20
.LBB147_17:
	movq	%rbx, (%rcx)
	xorl	%eax, %eax
	xchgq	%rax, 8(%rcx)
	movl	$-12, %eax
	jmp	.LBB147_20
.LBB147_16:
	movq	%rbx, (%rcx)
	xorl	%eax, %eax
	xchgq	%rax, 8(%rcx)
	movl	$-10, %eax
	jmp	.LBB147_20
.LBB147_14:
	movq	%rbx, (%rcx)
	xorl	%eax, %eax
	xchgq	%rax, 8(%rcx)
	movl	$-8, %eax
	jmp	.LBB147_20
.LBB147_18:
	movq	%rbx, (%rcx)
	xorl	%eax, %eax
	xchgq	%rax, 8(%rcx)
	movl	$-13, %eax
	jmp	.LBB147_20
.Lfunc_end147:
	.size	nm_map_pop_first, .Lfunc_end147-nm_map_pop_first
	.cfi_endproc
	.section	.rodata.nm_map_pop_first,"a",@progbits
	.p2align	2, 0x0
.LJTI147_0:
	.long	.LBB147_15-.LJTI147_0
	.long	.LBB147_16-.LJTI147_0
	.long	.LBB147_14-.LJTI147_0
	.long	.LBB147_12-.LJTI147_0
	.long	.LBB147_17-.LJTI147_0
	.long	.LBB147_18-.LJTI147_0
	.section	.text.nm_map_pop_first_below,"ax",@progbits
	.globl	nm_map_pop_first_below
	.p2align	4
	.type	nm_map_pop_first_below,@function
nm_map_pop_first_below:
	.cfi_startproc
	pushq	%r15
	.cfi_def_cfa_offset 16
	pushq	%r14
	.cfi_def_cfa_offset 24
	pushq	%r12
	.cfi_def_cfa_offset 32
	pushq	%rbx
	.cfi_def_cfa_offset 40
	subq	$40, %rsp
	.cfi_def_cfa_offset 80
	.cfi_offset %rbx, -40
	.cfi_offset %r12, -32
	.cfi_offset %r14, -24
	.cfi_offset %r15, -16
	movq	%rdx, %r9
	movl	$1, %edx
	xchgq	%rdx, 8(%rdi)
	movl	$-22, %eax
	testq	%rdx, %rdx
	je	.LBB148_1
.LBB148_21:
	addq	$40, %rsp
	.cfi_def_cfa_offset 40
	popq	%rbx
	.cfi_def_cfa_offset 32
	popq	%r12
	.cfi_def_cfa_offset 24
	popq	%r14
	.cfi_def_cfa_offset 16
	popq	%r15
	.cfi_def_cfa_offset 8
	retq
.LBB148_1:
	.cfi_def_cfa_offset 80
	movq	(%rdi), %rbx
	movq	$0, (%rdi)
	testq	%rbx, %rbx
	je	.LBB148_22
	cmpb	$3, (%rbx)
	jne	.LBB148_20
	movq	%r8, %r15
	movq	%rcx, %r12
	movq	%rdi, %r14
	leaq	8(%rbx), %rax
	movq	$0, 8(%rsp)
	xorps	%xmm0, %xmm0
	movaps	%xmm0, 16(%rsp)
	movq	$0, 32(%rsp)
	leaq	16(%rsp), %rdi
	leaq	8(%rsp), %r8
	movq	%rsi, %rcx
	movq	%rax, %rsi
	movl	$1, %edx
	callq	"nm_set::member::Member::pop::<#de9872852a7d50e8>"
	movzbl	16(%rsp), %edi
	movzbl	112(%rbx), %edx
	cmpb	$2, %dl
	jne	.LBB148_4
	movq	120(%rbx), %rsi
	movq	%r12, %rax
	testb	%dil, %dil
	movq	%r14, %rcx
	je	.LBB148_7
.LBB148_9:
	movzbl	17(%rsp), %r8d
	xorb	$1, %dil
	movl	%r8d, %r9d
	xorb	$3, %r9b
	orb	%dil, %r9b
	jne	.LBB148_10
	cmpb	$2, %dl
	jne	.LBB148_13
	movq	%rsi, (%rax)
	jmp	.LBB148_13
.LBB148_22:
	xorl	%eax, %eax
	xchgq	%rax, 8(%rdi)
	movl	$-1, %eax
	jmp	.LBB148_21
.LBB148_20:
	movq	%rbx, (%rdi)
	xorl	%eax, %eax
	xchgq	%rax, 8(%rdi)
	movl	$-3, %eax
	jmp	.LBB148_21
.LBB148_4:
	xorl	%esi, %esi
	movq	%r12, %rax
	testb	%dil, %dil
	movq	%r14, %rcx
	jne	.LBB148_9
.LBB148_7:
	cmpb	$1, 24(%rsp)
	jne	.LBB148_8
	movq	32(%rsp), %rdx
	movq	8(%rsp), %rsi
	movq	%rsi, (%r15)
	movq	%rdx, (%rax)
	movq	%rbx, (%rcx)
	xorl	%eax, %eax
	xchgq	%rax, 8(%rcx)
	movl	$1, %eax
	jmp	.LBB148_21
.LBB148_10:
	movl	%r8d, %eax
	leaq	.LJTI148_0(%rip), %rdx
	movslq	(%rdx,%rax,4), %rax
	addq	%rdx, %rax
	jmpq	*%rax
.LBB148_16:
	movq	%rbx, (%rcx)
	xorl	%eax, %eax
	xchgq	%rax, 8(%rcx)
	movl	$-9, %eax
	jmp	.LBB148_21
.LBB148_13:
	movq	%rbx, (%rcx)
	xorl	%eax, %eax
	xchgq	%rax, 8(%rcx)
	movl	$-11, %eax
	jmp	.LBB148_21
.LBB148_8:
	movq	%rbx, (%rcx)
	xorl	%eax, %eax
	xorl	%edx, %edx
	xchgq	%rdx, 8(%rcx)
	jmp	.LBB148_21
.LBB148_18:
	movq	%rbx, (%rcx)
	xorl	%eax, %eax
	xchgq	%rax, 8(%rcx)
	movl	$-12, %eax
	jmp	.LBB148_21
.LBB148_17:
	movq	%rbx, (%rcx)
	xorl	%eax, %eax
	xchgq	%rax, 8(%rcx)
	movl	$-10, %eax
	jmp	.LBB148_21
.LBB148_15:
	movq	%rbx, (%rcx)
	xorl	%eax, %eax
	xchgq	%rax, 8(%rcx)
	movl	$-8, %eax
	jmp	.LBB148_21
.LBB148_19:
	movq	%rbx, (%rcx)
	xorl	%eax, %eax
	xchgq	%rax, 8(%rcx)
	movl	$-13, %eax
	jmp	.LBB148_21
.Lfunc_end148:
	.size	nm_map_pop_first_below, .Lfunc_end148-nm_map_pop_first_below
	.cfi_endproc
	.section	.rodata.nm_map_pop_first_below,"a",@progbits
	.p2align	2, 0x0
.LJTI148_0:
	.long	.LBB148_16-.LJTI148_0
	.long	.LBB148_17-.LJTI148_0
	.long	.LBB148_15-.LJTI148_0
	.long	.LBB148_13-.LJTI148_0
	.long	.LBB148_18-.LJTI148_0
	.long	.LBB148_19-.LJTI148_0
	.section	.text.nm_map_pop_last,"ax",@progbits
	.globl	nm_map_pop_last
	.p2align	4
	.type	nm_map_pop_last,@function
nm_map_pop_last:
	.cfi_startproc
	pushq	%r15
	.cfi_def_cfa_offset 16
	pushq	%r14
	.cfi_def_cfa_offset 24
	pushq	%r13
	.cfi_def_cfa_offset 32
	pushq	%r12
	.cfi_def_cfa_offset 40
	pushq	%rbx
	.cfi_def_cfa_offset 48
	subq	$48, %rsp
	.cfi_def_cfa_offset 96
	.cfi_offset %rbx, -48
	.cfi_offset %r12, -40
	.cfi_offset %r13, -32
	.cfi_offset %r14, -24
	.cfi_offset %r15, -16
	movl	$1, %r8d
	xchgq	%r8, 8(%rdi)
	movl	$-22, %eax
	testq	%r8, %r8
	je	.LBB149_1
.LBB149_20:
	addq	$48, %rsp
	.cfi_def_cfa_offset 48
	popq	%rbx
	.cfi_def_cfa_offset 40
	popq	%r12
	.cfi_def_cfa_offset 32
	popq	%r13
	.cfi_def_cfa_offset 24
	popq	%r14
	.cfi_def_cfa_offset 16
	popq	%r15
	.cfi_def_cfa_offset 8
	retq
.LBB149_1:
	.cfi_def_cfa_offset 96
	movq	(%rdi), %rbx
	movq	$0, (%rdi)
	testq	%rbx, %rbx
	je	.LBB149_21
	cmpb	$3, (%rbx)
	jne	.LBB149_19
	movq	%rsi, %r9
	movq	%rcx, %r15
	movq	%rdx, %r12
	movq	%rdi, %r13
	leaq	8(%rbx), %rsi
	movq	$0, 8(%rsp)
	xorps	%xmm0, %xmm0
	movaps	%xmm0, 16(%rsp)
	movq	$0, 32(%rsp)
	xorl	%r14d, %r14d
	leaq	16(%rsp), %rdi
	leaq	8(%rsp), %r8
	movl	$2, %edx
	xorl	%ecx, %ecx
	callq	"nm_set::member::Member::pop::<#de9872852a7d50e8>"
	movzbl	16(%rsp), %edx
	movzbl	112(%rbx), %eax
	cmpb	$2, %al
	jne	.LBB149_5
	movq	120(%rbx), %r14
.LBB149_5:
	testb	%dl, %dl
	movq	%r13, %rcx
	je	.LBB149_6
	movzbl	17(%rsp), %esi
	xorb	$1, %dl
	movl	%esi, %edi
	xorb	$3, %dil
	orb	%dl, %dil
	jne	.LBB149_9
	cmpb	$2, %al
	jne	.LBB149_12
	movq	%r14, (%r12)
	jmp	.LBB149_12
.LBB149_21:
	xorl	%eax, %eax
	xchgq	%rax, 8(%rdi)
	movl	$-1, %eax
	jmp	.LBB149_20
.LBB149_19:
	movq	%rbx, (%rdi)
	xorl	%eax, %eax
	xchgq	%rax, 8(%rdi)
	movl	$-3, %eax
	jmp	.LBB149_20
.LBB149_6:
	cmpb	$1, 24(%rsp)
	jne	.LBB149_7
	movq	32(%rsp), %rax
	movq	8(%rsp), %rdx
	movq	%rdx, (%r15)
	movq	%rax, (%r12)
	movq	%rbx, (%rcx)
	xorl	%eax, %eax
	xchgq	%rax, 8(%rcx)
	movl	$1, %eax
	jmp	.LBB149_20
.LBB149_9:
	movl	%esi, %eax
	leaq	.LJTI149_0(%rip), %rdx
	movslq	(%rdx,%rax,4), %rax
	addq	%rdx, %rax
	jmpq	*%rax
.LBB149_15:
	movq	%rbx, (%rcx)
	xorl	%eax, %eax
	xchgq	%rax, 8(%rcx)
	movl	$-9, %eax
	jmp	.LBB149_20
.LBB149_12:
	movq	%rbx, (%rcx)
	xorl	%eax, %eax
	xchgq	%rax, 8(%rcx)
	movl	$-11, %eax
	jmp	.LBB149_20
.LBB149_7:
	movq	%rbx, (%rcx)
	xorl	%eax, %eax
	xorl	%edx, %edx
	xchgq	%rdx, 8(%rcx)
	jmp	.LBB149_20
.LBB149_17:
	movq	%rbx, (%rcx)
	xorl	%eax, %eax
	xchgq	%rax, 8(%rcx)
	movl	$-12, %eax
	jmp	.LBB149_20
.LBB149_16:
	movq	%rbx, (%rcx)
	xorl	%eax, %eax
	xchgq	%rax, 8(%rcx)
	movl	$-10, %eax
	jmp	.LBB149_20
.LBB149_14:
	movq	%rbx, (%rcx)
	xorl	%eax, %eax
	xchgq	%rax, 8(%rcx)
	movl	$-8, %eax
	jmp	.LBB149_20
.LBB149_18:
	movq	%rbx, (%rcx)
	xorl	%eax, %eax
	xchgq	%rax, 8(%rcx)
	movl	$-13, %eax
	jmp	.LBB149_20
.Lfunc_end149:
	.size	nm_map_pop_last, .Lfunc_end149-nm_map_pop_last
	.cfi_endproc
	.section	.rodata.nm_map_pop_last,"a",@progbits
	.p2align	2, 0x0
.LJTI149_0:
	.long	.LBB149_15-.LJTI149_0
	.long	.LBB149_16-.LJTI149_0
	.long	.LBB149_14-.LJTI149_0
	.long	.LBB149_12-.LJTI149_0
	.long	.LBB149_17-.LJTI149_0
	.long	.LBB149_18-.LJTI149_0
	.section	.text.nm_map_pop_last_from,"ax",@progbits
	.globl	nm_map_pop_last_from
	.p2align	4
	.type	nm_map_pop_last_from,@function
nm_map_pop_last_from:
	.cfi_startproc
	pushq	%r15
	.cfi_def_cfa_offset 16
	pushq	%r14
	.cfi_def_cfa_offset 24
	pushq	%r12
	.cfi_def_cfa_offset 32
	pushq	%rbx
	.cfi_def_cfa_offset 40
	subq	$40, %rsp
	.cfi_def_cfa_offset 80
	.cfi_offset %rbx, -40
	.cfi_offset %r12, -32
	.cfi_offset %r14, -24
	.cfi_offset %r15, -16
	movq	%rdx, %r9
	movl	$1, %edx
	xchgq	%rdx, 8(%rdi)
	movl	$-22, %eax
	testq	%rdx, %rdx
	je	.LBB150_1
.LBB150_21:
	addq	$40, %rsp
	.cfi_def_cfa_offset 40
	popq	%rbx
	.cfi_def_cfa_offset 32
	popq	%r12
	.cfi_def_cfa_offset 24
	popq	%r14
	.cfi_def_cfa_offset 16
	popq	%r15
	.cfi_def_cfa_offset 8
	retq
.LBB150_1:
	.cfi_def_cfa_offset 80
	movq	(%rdi), %rbx
	movq	$0, (%rdi)
	testq	%rbx, %rbx
	je	.LBB150_22
	cmpb	$3, (%rbx)
	jne	.LBB150_20
	movq	%r8, %r15
	movq	%rcx, %r12
	movq	%rdi, %r14
	leaq	8(%rbx), %rax
	movq	$0, 8(%rsp)
	xorps	%xmm0, %xmm0
	movaps	%xmm0, 16(%rsp)
	movq	$0, 32(%rsp)
	leaq	16(%rsp), %rdi
	leaq	8(%rsp), %r8
	movq	%rsi, %rcx
	movq	%rax, %rsi
	movl	$3, %edx
	callq	"nm_set::member::Member::pop::<#de9872852a7d50e8>"
	movzbl	16(%rsp), %edi
	movzbl	112(%rbx), %edx
	cmpb	$2, %dl
	jne	.LBB150_4
	movq	120(%rbx), %rsi
	movq	%r12, %rax
	testb	%dil, %dil
	movq	%r14, %rcx
	je	.LBB150_7
.LBB150_9:
	movzbl	17(%rsp), %r8d
	xorb	$1, %dil
	movl	%r8d, %r9d
	xorb	$3, %r9b
	orb	%dil, %r9b
	jne	.LBB150_10
	cmpb	$2, %dl
	jne	.LBB150_13
	movq	%rsi, (%rax)
	jmp	.LBB150_13
.LBB150_22:
	xorl	%eax, %eax
	xchgq	%rax, 8(%rdi)
	movl	$-1, %eax
	jmp	.LBB150_21
.LBB150_20:
	movq	%rbx, (%rdi)
	xorl	%eax, %eax
	xchgq	%rax, 8(%rdi)
	movl	$-3, %eax
	jmp	.LBB150_21
.LBB150_4:
	xorl	%esi, %esi
	movq	%r12, %rax
	testb	%dil, %dil
	movq	%r14, %rcx
	jne	.LBB150_9
.LBB150_7:
	cmpb	$1, 24(%rsp)
	jne	.LBB150_8
	movq	32(%rsp), %rdx
	movq	8(%rsp), %rsi
	movq	%rsi, (%r15)
	movq	%rdx, (%rax)
	movq	%rbx, (%rcx)
	xorl	%eax, %eax
	xchgq	%rax, 8(%rcx)
	movl	$1, %eax
	jmp	.LBB150_21
.LBB150_10:
	movl	%r8d, %eax
	leaq	.LJTI150_0(%rip), %rdx
	movslq	(%rdx,%rax,4), %rax
	addq	%rdx, %rax
	jmpq	*%rax
.LBB150_16:
	movq	%rbx, (%rcx)
	xorl	%eax, %eax
	xchgq	%rax, 8(%rcx)
	movl	$-9, %eax
	jmp	.LBB150_21
.LBB150_13:
	movq	%rbx, (%rcx)
	xorl	%eax, %eax
	xchgq	%rax, 8(%rcx)
	movl	$-11, %eax
	jmp	.LBB150_21
.LBB150_8:
	movq	%rbx, (%rcx)
	xorl	%eax, %eax
	xorl	%edx, %edx
	xchgq	%rdx, 8(%rcx)
	jmp	.LBB150_21
.LBB150_18:
	movq	%rbx, (%rcx)
	xorl	%eax, %eax
	xchgq	%rax, 8(%rcx)
	movl	$-12, %eax
	jmp	.LBB150_21
.LBB150_17:
	movq	%rbx, (%rcx)
	xorl	%eax, %eax
	xchgq	%rax, 8(%rcx)
	movl	$-10, %eax
	jmp	.LBB150_21
.LBB150_15:
	movq	%rbx, (%rcx)
	xorl	%eax, %eax
	xchgq	%rax, 8(%rcx)
	movl	$-8, %eax
	jmp	.LBB150_21
.LBB150_19:
	movq	%rbx, (%rcx)
	xorl	%eax, %eax
	xchgq	%rax, 8(%rcx)
	movl	$-13, %eax
	jmp	.LBB150_21
.Lfunc_end150:
	.size	nm_map_pop_last_from, .Lfunc_end150-nm_map_pop_last_from
	.cfi_endproc
	.section	.rodata.nm_map_pop_last_from,"a",@progbits
	.p2align	2, 0x0
.LJTI150_0:
	.long	.LBB150_16-.LJTI150_0
	.long	.LBB150_17-.LJTI150_0
	.long	.LBB150_15-.LJTI150_0
	.long	.LBB150_13-.LJTI150_0
	.long	.LBB150_18-.LJTI150_0
	.long	.LBB150_19-.LJTI150_0
	.section	.text.nm_map_prev,"ax",@progbits
	.globl	nm_map_prev
	.p2align	4
	.type	nm_map_prev,@function
nm_map_prev:
	.cfi_startproc
	pushq	%rbp
	.cfi_def_cfa_offset 16
	pushq	%r15
	.cfi_def_cfa_offset 24
	pushq	%r14
	.cfi_def_cfa_offset 32
	pushq	%r13
	.cfi_def_cfa_offset 40
	pushq	%r12
	.cfi_def_cfa_offset 48
	pushq	%rbx
	.cfi_def_cfa_offset 56
	.cfi_offset %rbx, -56
	.cfi_offset %r12, -48
	.cfi_offset %r13, -40
	.cfi_offset %r14, -32
	.cfi_offset %r15, -24
	.cfi_offset %rbp, -16
	movl	$1, %r9d
	xchgq	%r9, 8(%rdi)
	movl	$-22, %eax
	testq	%r9, %r9
	je	.LBB151_1
.LBB151_36:
	popq	%rbx
	.cfi_def_cfa_offset 48
	popq	%r12
	.cfi_def_cfa_offset 40
	popq	%r13
	.cfi_def_cfa_offset 32
	popq	%r14
	.cfi_def_cfa_offset 24
	popq	%r15
	.cfi_def_cfa_offset 16
	popq	%rbp
	.cfi_def_cfa_offset 8
	retq
.LBB151_1:
	.cfi_def_cfa_offset 56
	movq	(%rdi), %r9
	movq	$0, (%rdi)
	testq	%r9, %r9
	je	.LBB151_37
	cmpb	$3, (%r9)
	jne	.LBB151_35
	xorl	%r10d, %r10d
	cmpq	$-3, %rsi
	cmovbq	%rsi, %r10
	jae	.LBB151_30
	movzbl	112(%r9), %eax
	cmpb	$1, %al
	jne	.LBB151_5
	movq	%r9, (%rdi)
	xorl	%eax, %eax
	xchgq	%rax, 8(%rdi)
	movl	$-13, %eax
	jmp	.LBB151_36
.LBB151_37:
	xorl	%eax, %eax
	xchgq	%rax, 8(%rdi)
	movl	$-1, %eax
	jmp	.LBB151_36
.LBB151_35:
	movq	%r9, (%rdi)
	xorl	%eax, %eax
	xchgq	%rax, 8(%rdi)
	movl	$-3, %eax
	jmp	.LBB151_36
.LBB151_30:
	movq	%r9, (%rdi)
	xorl	%eax, %eax
	xchgq	%rax, 8(%rdi)
	movl	$-4, %eax
	jmp	.LBB151_36
.LBB151_5:
	cmpb	$2, %al
	jne	.LBB151_6
	movq	%r9, (%rdi)
	xorl	%eax, %eax
	xchgq	%rax, 8(%rdi)
	movl	$-12, %eax
	jmp	.LBB151_36
.LBB151_6:
	testl	%edx, %edx
	je	.LBB151_32
	movq	8(%r9), %rax
	movq	8(%rax), %rsi
	movq	(%rsi), %r11
	movq	$1, 24(%r9)
	movq	%r11, 32(%r9)
	leaq	40(%r9), %rsi
	movl	%edx, %ebx
.LBB151_9:
	movl	20(%r9), %r14d
	leaq	1(%r11), %r15
	movq	8(%rax), %r12
	xchgq	%r15, (%r12,%r14,8)
	movq	$1, 40(%r9)
	movq	%r11, 48(%r9)
	movq	8(%rax), %r11
	movq	(%r11), %r11
	testb	$1, 72(%r9)
	jne	.LBB151_38
	cmpb	$0, 56(%r9)
	jne	.LBB151_39
	cmpb	$1, 40(%r9)
	jne	.LBB151_39
	cmpq	%r11, 48(%r9)
	movq	$1, 24(%r9)
	movq	%r11, 32(%r9)
	je	.LBB151_13
	decl	%ebx
	jne	.LBB151_9
	movq	8(%rax), %rax
	movl	20(%r9), %ecx
	xorl	%edx, %edx
	xchgq	%rdx, (%rax,%rcx,8)
	xorps	%xmm0, %xmm0
	movups	%xmm0, 16(%rsi)
	movups	%xmm0, (%rsi)
	jmp	.LBB151_32
.LBB151_13:
	movq	$1, 56(%r9)
	movq	%r11, 64(%r9)
	movl	$0, -4(%rsp)
	jmp	.LBB151_14
.LBB151_25:
	decq	%r15
	movl	-4(%rsp), %esi
	incl	%esi
	movq	%r15, %r10
	movl	%esi, -4(%rsp)
	cmpl	%edx, %esi
	je	.LBB151_26
.LBB151_14:
	movl	72(%rax), %ebx
	movl	88(%rax), %r12d
	movq	8(%rax), %r14
	leal	4(%r12), %r15d
	decl	%ebx
	testb	$1, 84(%rax)
	movq	8(%r14,%r15,8), %r13
	movl	$65, %ebp
	cmovel	%ebx, %ebp
	shrq	$2, %r13
	testl	%ebp, %ebp
	je	.LBB151_15
	testl	%r13d, %r13d
	je	.LBB151_17
	addl	$-4, %r12d
	xorl	%r15d, %r15d
	.p2align	4
.LBB151_20:
	movq	%r13, %r14
	movq	%r15, %rsi
	movq	8(%rax), %rbx
	leal	(%r12,%r13,4), %r15d
	movq	(%rbx,%r15,8), %rbx
	movq	8(%rax), %r13
	movq	8(%r13,%r15,8), %r11
	movq	8(%rax), %r13
	movq	16(%r13,%r15,8), %r13
	cmpq	%rbx, %rsi
	movq	%rbx, %r15
	cmovaq	%rsi, %r15
	cmpq	%rbx, %r10
	cmovbq	%r11, %r13
	cmovbq	%rsi, %r15
	shrq	$2, %r13
	decl	%ebp
	je	.LBB151_21
	testl	%r13d, %r13d
	jne	.LBB151_20
	jmp	.LBB151_22
.LBB151_15:
	xorl	%r15d, %r15d
	xorl	%r14d, %r14d
	xorl	%ebx, %ebx
.LBB151_21:
	testl	%r13d, %r13d
	jne	.LBB151_26
.LBB151_22:
	cmpq	%rbx, %r15
	ja	.LBB151_25
	cmpq	%r10, %rbx
	jbe	.LBB151_28
	testq	%r15, %r15
	jne	.LBB151_25
	jmp	.LBB151_27
.LBB151_26:
	movq	8(%rax), %rax
	movl	20(%r9), %ecx
	xorl	%edx, %edx
	xchgq	%rdx, (%rax,%rcx,8)
	xorps	%xmm0, %xmm0
	leaq	40(%r9), %rax
	movups	%xmm0, 16(%rax)
	movups	%xmm0, (%rax)
.LBB151_32:
	movq	%r9, (%rdi)
	xorl	%eax, %eax
	xchgq	%rax, 8(%rdi)
	movl	$-9, %eax
	jmp	.LBB151_36
.LBB151_17:
	xorl	%ebx, %ebx
	xorl	%r14d, %r14d
	jmp	.LBB151_29
.LBB151_28:
	cmpq	$-3, %rbx
	jae	.LBB151_27
.LBB151_29:
	movl	72(%rax), %edx
	leal	(,%rdx,4), %esi
	movl	%edx, %r10d
	shrl	$6, %r10d
	andl	$63, %edx
	addl	88(%rax), %esi
	addl	%r10d, %esi
	cmpl	$1, %edx
	sbbl	$-1, %esi
	decl	%r14d
	addq	%rsi, %r14
	movq	8(%rax), %rdx
	movq	(%rdx,%r14,8), %rdx
	movq	8(%rax), %rax
	movl	20(%r9), %esi
	xorl	%r10d, %r10d
	xchgq	%r10, (%rax,%rsi,8)
	xorl	%eax, %eax
	xorps	%xmm0, %xmm0
	leaq	40(%r9), %rsi
	movups	%xmm0, 16(%rsi)
	movups	%xmm0, (%rsi)
	movq	%rdx, (%r8)
	movq	%rbx, (%rcx)
	movq	%r9, (%rdi)
	xchgq	%rax, 8(%rdi)
	movl	$1, %eax
	jmp	.LBB151_36
.LBB151_27:
	movq	8(%rax), %rax
	movl	20(%r9), %ecx
	xorl	%edx, %edx
	xchgq	%rdx, (%rax,%rcx,8)
	xorl	%eax, %eax
	xorps	%xmm0, %xmm0
	leaq	40(%r9), %rcx
	movups	%xmm0, 16(%rcx)
	movups	%xmm0, (%rcx)
	movq	%r9, (%rdi)
	xorl	%ecx, %ecx
	xchgq	%rcx, 8(%rdi)
	jmp	.LBB151_36
.LBB151_38:
	movq	$1, 24(%r9)
	movq	%r11, 32(%r9)
	movb	$0, 72(%r9)
	ud2
.LBB151_39:
	movq	$1, 24(%r9)
	movq	%r11, 32(%r9)
	ud2
.Lfunc_end151:
	.size	nm_map_prev, .Lfunc_end151-nm_map_prev
	.cfi_endproc
	.section	.text.nm_map_report_returned,"ax",@progbits
	.globl	nm_map_report_returned
	.p2align	4
	.type	nm_map_report_returned,@function
nm_map_report_returned:
	.cfi_startproc
	movl	$1, %ecx
	xchgq	%rcx, 8(%rdi)
	movl	$-22, %eax
	testq	%rcx, %rcx
	je	.LBB152_1
	retq
.LBB152_1:
	movq	(%rdi), %rax
	movq	$0, (%rdi)
	testq	%rax, %rax
	je	.LBB152_21
	cmpb	$4, (%rax)
	jne	.LBB152_18
	cmpb	$1, 64(%rax)
	jne	.LBB152_16
	movl	%esi, %esi
	cmpq	%rsi, 16(%rax)
	jbe	.LBB152_17
	movq	8(%rax), %rcx
	shlq	$5, %rsi
	leaq	(%rsi,%rsi,2), %rsi
	.p2align	4
.LBB152_6:
	movl	60(%rcx,%rsi), %r10d
	testl	%r10d, %r10d
	je	.LBB152_22
	movl	56(%rcx,%rsi), %r11d
	movq	8(%rcx,%rsi), %r9
	leaq	(%r11,%r11,2), %r8
	movl	8(%r9,%r8,8), %r8d
	decl	%r10d
	movl	%r10d, 60(%rcx,%rsi)
	leal	1(%r11), %r10d
	movl	%r10d, 56(%rcx,%rsi)
	cmpl	$32, %r10d
	jne	.LBB152_12
	movl	$0, 56(%rcx,%rsi)
	movq	(%r9), %r10
	movq	%r10, 8(%rcx,%rsi)
	decl	24(%rcx,%rsi)
	cmpl	$0, 48(%rcx,%rsi)
	je	.LBB152_9
	movq	40(%rcx,%rsi), %r10
	movq	$0, (%r9)
	movq	%r9, (%r10)
	jmp	.LBB152_11
.LBB152_9:
	movq	$0, (%r9)
	movq	%r9, 32(%rcx,%rsi)
.LBB152_11:
	movq	%r9, 40(%rcx,%rsi)
	incl	48(%rcx,%rsi)
.LBB152_12:
	testl	%r8d, %r8d
	je	.LBB152_6
	cmpl	%r8d, 168(%rax)
	jb	.LBB152_6
	movl	184(%rax), %r9d
	leal	(%r9,%r8,4), %r10d
	addl	$-3, %r10d
	movq	72(%rax), %r9
	cmpq	$4, (%r9,%r10,8)
	jae	.LBB152_6
	decl	%r8d
	addq	136(%rax), %r8
	movq	(%r9,%r8,8), %rcx
	movq	%rcx, (%rdx)
	movq	%rax, (%rdi)
	xorl	%eax, %eax
	xchgq	%rax, 8(%rdi)
	movl	$1, %eax
	retq
.LBB152_21:
	xorl	%eax, %eax
	xchgq	%rax, 8(%rdi)
	movl	$-1, %eax
	retq
.LBB152_18:
	movq	%rax, (%rdi)
	xorl	%eax, %eax
	xchgq	%rax, 8(%rdi)
	movl	$-3, %eax
	retq
.LBB152_16:
	movq	%rax, (%rdi)
	xorl	%eax, %eax
	xchgq	%rax, 8(%rdi)
	movl	$-3, %eax
	retq
.LBB152_17:
	movq	%rax, (%rdi)
	xorl	%eax, %eax
	xchgq	%rax, 8(%rdi)
	movl	$-5, %eax
	retq
.LBB152_22:
	movq	%rax, (%rdi)
	xorl	%eax, %eax
	xorl	%ecx, %ecx
	xchgq	%rcx, 8(%rdi)
	retq
.Lfunc_end152:
	.size	nm_map_report_returned, .Lfunc_end152-nm_map_report_returned
	.cfi_endproc
	.type	.Lswitch.table.nm_worker_end,@object
	.section	.rodata..Lswitch.table.nm_worker_end,"a",@progbits
	.p2align	2, 0x0
.Lswitch.table.nm_worker_end:
	.long	2
	.long	3
	.long	4
	.long	5
	.long	6
	.long	4294967295
	.long	4294967294
	.long	4294967293
	.long	4294967292
	.long	4294967291
	.long	4294967290
	.long	4294967289
	.long	4294967288
	.long	4294967287
	.long	4294967286
	.long	4294967285
	.long	4294967284
	.long	4294967283
	.long	4294967282
	.long	4294967281
	.long	4294967280
	.long	4294967279
	.long	4294967278
	.long	4294967277
	.long	4294967276
	.size	.Lswitch.table.nm_worker_end, 100
	.type	.Lswitch.table.nm_worker_resign,@object
	.section	.rodata..Lswitch.table.nm_worker_resign,"a",@progbits
	.p2align	2, 0x0
.Lswitch.table.nm_worker_resign:
	.long	2
	.long	3
	.long	4
	.long	5
	.long	6
	.long	4294967295
	.long	4294967294
	.long	4294967293
	.long	4294967292
	.long	4294967291
	.long	4294967290
	.long	4294967289
	.long	4294967288
	.long	4294967287
	.long	4294967286
	.long	4294967285
	.long	4294967284
	.long	4294967283
	.long	4294967282
	.long	4294967281
	.long	4294967280
	.long	4294967279
	.long	4294967278
	.size	.Lswitch.table.nm_worker_resign, 92
	.type	.Lswitch.table.nm_worker_scan_back,@object
	.section	.rodata..Lswitch.table.nm_worker_scan_back,"a",@progbits
	.p2align	2, 0x0
.Lswitch.table.nm_worker_scan_back:
	.long	0
	.zero	4
	.long	2
	.long	3
	.long	4
	.long	5
	.long	6
	.long	4294967295
	.long	4294967294
	.long	4294967293
	.long	4294967292
	.long	4294967291
	.long	4294967290
	.long	4294967289
	.long	4294967288
	.long	4294967287
	.long	4294967286
	.long	4294967285
	.long	4294967284
	.long	4294967283
	.long	4294967282
	.long	4294967281
	.long	4294967280
	.long	4294967279
	.long	4294967278
	.long	4294967277
	.long	4294967276
	.long	4294967275
	.long	4294967274
	.long	4294967273
	.size	.Lswitch.table.nm_worker_scan_back, 120
	.type	.Lswitch.table.nm_set_new_unbalanced,@object
	.section	.rodata..Lswitch.table.nm_set_new_unbalanced,"a",@progbits
	.p2align	2, 0x0
.Lswitch.table.nm_set_new_unbalanced:
	.long	2
	.long	3
	.long	4
	.long	5
	.long	6
	.long	4294967295
	.long	4294967294
	.long	4294967293
	.long	4294967292
	.long	4294967291
	.long	4294967290
	.long	4294967289
	.long	4294967288
	.size	.Lswitch.table.nm_set_new_unbalanced, 52
	.type	.Lswitch.table.nm_set_new_unbalanced.493,@object
	.section	.rodata..Lswitch.table.nm_set_new_unbalanced.493,"a",@progbits
	.p2align	2, 0x0
.Lswitch.table.nm_set_new_unbalanced.493:
	.long	0
	.long	1
	.long	2
	.long	3
	.long	4
	.long	5
	.long	6
	.long	4294967295
	.long	4294967294
	.long	4294967293
	.long	4294967292
	.long	4294967291
	.long	4294967290
	.long	4294967289
	.long	4294967288
	.long	4294967287
	.long	4294967286
	.long	4294967285
	.long	4294967284
	.long	4294967283
	.long	4294967282
	.long	4294967281
	.long	4294967280
	.long	4294967279
	.long	4294967278
	.long	4294967277
	.long	4294967276
	.long	4294967275
	.long	4294967274
	.long	4294967273
	.size	.Lswitch.table.nm_set_new_unbalanced.493, 120
	.type	.Lswitch.table.nm_set_worker,@object
	.section	.rodata..Lswitch.table.nm_set_worker,"a",@progbits
	.p2align	2, 0x0
.Lswitch.table.nm_set_worker:
	.long	0
	.long	1
	.long	2
	.long	3
	.long	4
	.long	5
	.long	6
	.long	4294967295
	.long	4294967294
	.long	4294967293
	.long	4294967292
	.long	4294967291
	.long	4294967290
	.long	4294967289
	.long	4294967288
	.long	4294967287
	.long	4294967286
	.long	4294967285
	.long	4294967284
	.long	4294967283
	.long	4294967282
	.long	4294967281
	.long	4294967280
	.long	4294967279
	.long	4294967278
	.long	4294967277
	.long	4294967276
	.long	4294967275
	.size	.Lswitch.table.nm_set_worker, 112
	.type	.Lswitch.table.nm_map_remove_if,@object
	.section	.rodata..Lswitch.table.nm_map_remove_if,"a",@progbits
	.p2align	2, 0x0
.Lswitch.table.nm_map_remove_if:
	.long	4294967287
	.long	4294967286
	.long	4294967288
	.long	4294967285
	.long	4294967284
	.long	4294967283
	.size	.Lswitch.table.nm_map_remove_if, 24
	.section	".note.GNU-stack","",@progbits
