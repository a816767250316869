/* The product of two matrices of three rows and three columns. */
.data 256
.align 8
left:  .l 1 2 3   4 5 6   7 8 9
right: .l -1 0 2   3 1 -4   0 5 6
row:   .c "%5d %5d %5d\n"
.code
    jmpi    main

// entry(i, j): the entry in row i and column j of the product
entry:
prolog
    arg     $row
    arg     $column
    getarg  %v0 $row
    getarg  %v1 $column
    muli    %v0 %v0 24
    addi    %v0 %v0 left            // where the row begins
    lshi    %v1 %v1 3
    addi    %v1 %v1 right           // where the column begins
    movi    %v2 0
    movi    %r0 3
term:
    ldr     %r1 %v0
    ldr     %r2 %v1
    mulr    %r1 %r1 %r2
    addr    %v2 %v2 %r1
    addi    %v0 %v0 8
    addi    %v1 %v1 24
    subi    %r0 %r0 1
    bgti    term %r0 0
    retr    %v2
epilog

main:
prolog
    movi    %v0 0
next:
    prepare pushargr %v0 pushargi 0 finishi entry
    retval  %v1
    prepare pushargr %v0 pushargi 1 finishi entry
    retval  %v2
    prepare pushargr %v0 pushargi 2 finishi entry
    retval  %r0
    prepare pushargi row ellipsis pushargr %v1 pushargr %v2 pushargr %r0 finishi @printf
    addi    %v0 %v0 1
    blti    next %v0 3
    ret
epilog
