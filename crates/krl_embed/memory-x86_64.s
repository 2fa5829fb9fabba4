# What the library takes of the C library: three calls over malloc, realloc and free. A block of no bytes gets as many
# as it is aligned to. A call returns whether there is memory, and where: if there is none, a place that nobody uses.
	.text
	.p2align	4
rattle_alloc:                           # size, align
	pushq	%rax
	testq	%rdi, %rdi
	cmoveq	%rsi, %rdi
	callq	malloc@PLT
	jmp	.Lrattle_tried
	.p2align	4
rattle_realloc:                         # block, bytes to keep, size, align
	pushq	%rax
	testq	%rdx, %rdx
	cmoveq	%rcx, %rdx
	movq	%rdx, %rsi
	callq	realloc@PLT
.Lrattle_tried:
	popq	%rcx
	leaq	.Lrattle_nothing(%rip), %rdx
	xorl	%ecx, %ecx
	testq	%rax, %rax
	setne	%cl
	cmovneq	%rax, %rdx
	movl	%ecx, %eax
	retq
	.p2align	4
rattle_dealloc:                         # block
	jmp	free@PLT
	.bss
.Lrattle_nothing:
	.zero	1
	.section	.note.GNU-stack,"",@progbits
