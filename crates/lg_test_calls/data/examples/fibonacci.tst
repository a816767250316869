/* Fibonacci's numbers up to the 186th, in two words each: the last that fits 128 bits. Every 31st is shown. */
.data 32
shown: .c "%3d %016lx%016lx\n"
.code
prolog
    allocai 8 $high                 // the high word of the greater number
    movi    %v0 0                   // the lesser number, low and high word
    movi    %v1 0
    movi    %v2 1                   // the low word of the greater
    movi    %r0 0
    stxi    $high %fp %r0
    allocai 8 $index
    movi    %r1 0
next:
    stxi    $index %fp %r1
    remi    %r0 %r1 31
    bnei    quiet %r0 0
    prepare pushargi shown ellipsis pushargr %r1 pushargr %v1 pushargr %v0 finishi @printf
quiet:
    ldxi    %r2 %fp $high
    addcr   %v0 %v0 %v2             // the next is the sum of both, with the carry of the low words
    addxr   %v1 %v1 %r2
    movr    %r0 %v0                 // and both change places
    movr    %v0 %v2
    movr    %v2 %r0
    movr    %r0 %v1
    movr    %v1 %r2
    stxi    $high %fp %r0
    ldxi    %r1 %fp $index
    addi    %r1 %r1 1
    blei    next %r1 186
    ret
epilog
