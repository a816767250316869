.code
	prolog
	movi	%r0 -1
	movi	%r1 43
	addr	%r2 %r0 %r1
	prepare
		pushargr	%r2
	finishi	@exit
	ret
	epilog
