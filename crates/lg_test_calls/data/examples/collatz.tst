/* How many steps lead from each number up to 10 to 1, where an even number is halved, and an odd one is tripled and 1 more. What is done
   with a number is a place in the code, to which a register jumps. */
.data 32
line: .c "%d: %d\n"
.code
prolog
    movi    %v0 1                   // the number
each:
    movr    %v1 %v0
    movi    %v2 0                   // its steps
step:
    beqi    told %v1 1
    addi    %v2 %v2 1
    movi    %r0 even
    movi    %r1 odd
    subr    %r1 %r1 %r0
    andi    %r2 %v1 1
    mulr    %r1 %r1 %r2
    addr    %r0 %r0 %r1
    jmpr    %r0
even:
    rshi    %v1 %v1 1
    jmpi    step
odd:
    muli    %v1 %v1 3
    addi    %v1 %v1 1
    jmpi    step
told:
    prepare pushargi line ellipsis pushargr %v0 pushargr %v2 finishi @printf
    addi    %v0 %v0 1
    blei    each %v0 10
    ret
epilog
