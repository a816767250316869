/* Twenty pseudo-random numbers on the heap, sorted in place by quicksort. */
.data 16
item: .c "%d "
line: .c "\n"
.code
    jmpi    main

// sort(first, last): sorts the words from one address to another, both included
sort:
prolog
    arg     $first
    arg     $last
    allocai 8 $between
    getarg  %v0 $first
    getarg  %v1 $last
    bger    sorted %v0 %v1
    ldr     %v2 %v1                 // the last word divides the others
    movr    %r0 %v0                 // behind those that are less
    movr    %r1 %v0                 // the one that is looked at
look:
    bger    divided %r1 %v1
    ldr     %r2 %r1
    bger    stays %r2 %v2
    ldr     %v2 %r0                 // it is less, so both change places
    str     %r1 %v2
    str     %r0 %r2
    ldr     %v2 %v1
    addi    %r0 %r0 8
stays:
    addi    %r1 %r1 8
    jmpi    look
divided:
    ldr     %r2 %r0
    str     %r0 %v2
    str     %v1 %r2
    stxi    $between %fp %r0
    subi    %r0 %r0 8
    prepare pushargr %v0 pushargr %r0 finishi sort
    ldxi    %r0 %fp $between
    addi    %r0 %r0 8
    prepare pushargr %r0 pushargr %v1 finishi sort
sorted:
    ret
epilog

// show(first, behind): writes the words from one address to before another
show:
prolog
    arg     $first
    arg     $behind
    getarg  %v0 $first
    getarg  %v1 $behind
again:
    bger    shown %v0 %v1
    ldr     %r0 %v0
    prepare pushargi item ellipsis pushargr %r0 finishi @printf
    addi    %v0 %v0 8
    jmpi    again
shown:
    prepare pushargi line ellipsis finishi @printf
    ret
epilog

main:
prolog
    prepare pushargi 160 finishi @malloc
    retval  %v0
    addi    %v1 %v0 160
    movr    %v2 %v0
    movi    %r0 2026                // the first seed
fill:
    muli    %r0 %r0 1103515245
    addi    %r0 %r0 12345
    andi    %r0 %r0 0x7fffffff
    rshi    %r1 %r0 16
    remi    %r1 %r1 1000
    str     %v2 %r1
    addi    %v2 %v2 8
    bltr    fill %v2 %v1
    prepare pushargr %v0 pushargr %v1 finishi show
    subi    %r0 %v1 8
    prepare pushargr %v0 pushargr %r0 finishi sort
    prepare pushargr %v0 pushargr %v1 finishi show
    ret
epilog
