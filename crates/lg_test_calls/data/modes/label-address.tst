.data 8
fmt: .c "%lx\n"
.code
	prolog
	movi %r0 there
	jmpr %r0
	reti 1
there:
	movr %v0 %r0
	prepare
		pushargi fmt
		ellipsis
		pushargr %v0
	finishi @printf
	ret
	epilog
