/* In how many ways n queens can stand on a board of n rows and columns, no one on a line with another, for n from 1 to 8. Sets of
   columns are bits of a word. */
.data 32
found: .c "%d queens: %d ways\n"
.code
    jmpi    main

// ways(all, columns, left, right): the ways to go on, where queens stand in these columns and threaten these by the diagonals
ways:
prolog
    arg     $all
    arg     $columns
    arg     $left
    arg     $right
    allocai 8 $count
    getarg  %v0 $all
    getarg  %v1 $columns
    beqr    whole %v1 %v0
    movi    %r0 0
    stxi    $count %fp %r0
    getarg  %r0 $left
    getarg  %r1 $right
    orr     %r0 %r0 %r1
    orr     %r0 %r0 %v1
    comr    %r0 %r0
    andr    %v2 %v0 %r0             // the free columns
column:
    beqi    counted %v2 0
    negr    %r2 %v2
    andr    %r2 %r2 %v2             // the lowest of them
    xorr    %v2 %v2 %r2
    getarg  %r0 $left
    orr     %r0 %r0 %r2
    lshi    %r0 %r0 1
    getarg  %r1 $right
    orr     %r1 %r1 %r2
    rshi_u  %r1 %r1 1
    orr     %r2 %r2 %v1
    prepare pushargr %v0 pushargr %r2 pushargr %r0 pushargr %r1 finishi ways
    retval  %r0
    ldxi    %r1 %fp $count
    addr    %r0 %r0 %r1
    stxi    $count %fp %r0
    jmpi    column
whole:
    reti    1
counted:
    ldxi    %r0 %fp $count
    retr    %r0
epilog

main:
prolog
    movi    %v0 1
board:
    movi    %r0 1
    lshr    %r0 %r0 %v0
    subi    %r0 %r0 1               // all columns
    prepare pushargr %r0 pushargi 0 pushargi 0 pushargi 0 finishi ways
    retval  %v1
    prepare pushargi found ellipsis pushargr %v0 pushargr %v1 finishi @printf
    addi    %v0 %v0 1
    blei    board %v0 8
    ret
epilog
