.data 32
fmt: .c "%d %d %d %d %d %d %d %d %d %d\n"
.code
	prolog
	arg $argc
	getarg %r0 $argc
	addi %r1 %r0 1
	addi %r2 %r0 2
	addi %v0 %r0 3
	addi %v1 %r0 4
	addi %v2 %r0 46
	prepare
		pushargi fmt
		ellipsis
		pushargr %r0
		pushargr %r0
		pushargr %r0
		pushargr %r0
		pushargr %r0
		subr %v2 %v1 %v2
		pushargr %r0
		pushargr %r1
		pushargr %r2
		pushargr %v0
		pushargr %v2
	finishi @printf
	ret
	epilog
