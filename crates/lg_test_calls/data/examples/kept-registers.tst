.code
	prolog
	movi	%v0 72
	movi	%v1 33
	prepare
		pushargr	%v0
	finishi	@putchar
	addi	%v0 %v0 33
	prepare
		pushargr	%v0
	finishi	@putchar
	prepare
		pushargr	%v1
	finishi	@putchar
	movi	%r0 10
	prepare
		pushargr	%r0
	finishi	@putchar
	ret
	epilog
