# What the library takes of the C library: three calls over malloc, realloc and free. A block of no bytes gets as many
# as it is aligned to. A call returns whether there is memory, and where: if there is none, a place that nobody uses.
	.text
	.p2align	2
rattle_alloc:                           // size, align
	stp	x29, x30, [sp, #-16]!
	mov	x29, sp
	cmp	x0, #0
	csel	x0, x1, x0, eq
	bl	malloc
	b	.Lrattle_tried
	.p2align	2
rattle_realloc:                         // block, bytes to keep, size, align
	stp	x29, x30, [sp, #-16]!
	mov	x29, sp
	cmp	x2, #0
	csel	x1, x3, x2, eq
	bl	realloc
.Lrattle_tried:
	adrp	x1, .Lrattle_nothing
	add	x1, x1, :lo12:.Lrattle_nothing
	cmp	x0, #0
	csel	x1, x0, x1, ne
	cset	x0, ne
	ldp	x29, x30, [sp], #16
	ret
	.p2align	2
rattle_dealloc:                         // block
	b	free
	.bss
.Lrattle_nothing:
	.zero	1
	.section	.note.GNU-stack,"",@progbits
