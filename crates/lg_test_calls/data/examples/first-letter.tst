.code
	prolog
	movi	%r0 60
	addi	%r0 %r0 5
	prepare
		pushargr	%r0
	finishi	@putchar
	movi	%r0 3
	prepare
		pushargr	%r0
	finishi	@exit
	ret
	epilog
