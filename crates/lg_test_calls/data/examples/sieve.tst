/* The square-free numbers up to 100, by a sieve that marks the multiples of squares. */
.data 160
number: .c "%d "
total:  .c "\n%d numbers\n"
marked: .size 101
.code
prolog
    movi    %v0 2                   // i, from 2 on
square:
    mulr    %v1 %v0 %v0
    bgti    show %v1 100
    movr    %v2 %v1                 // a multiple of the square of i
mark:
    movi    %r0 marked
    movi    %r1 1
    stxr_c  %r0 %v2 %r1
    addr    %v2 %v2 %v1
    blei    mark %v2 100
    addi    %v0 %v0 1
    jmpi    square
show:
    movi    %v0 1                   // a number
    movi    %v1 0                   // how many were shown
next:
    movi    %r0 marked
    ldxr_uc %r0 %r0 %v0
    bnei    skip %r0 0
    addi    %v1 %v1 1
    prepare pushargi number ellipsis pushargr %v0 finishi @printf
skip:
    addi    %v0 %v0 1
    blei    next %v0 100
    prepare pushargi total ellipsis pushargr %v1 finishi @printf
    ret
epilog
