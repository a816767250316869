/* Labels that are bound in another order than they are mentioned, and one behind the last node. */
.code
	prolog
	movi %r0 1
	beqi c %r0 2
	beqi a %r0 3
	movi %r0 4
b:
a:
c:
	ret
d:
	epilog
e:
