/* Whether 1000 and 999 are even, by two functions that call each other 1,000 levels deep. */
.data 32
told: .c "%d is even: %d\n"
.code
    jmpi    main

is_even:
prolog
    arg     $n
    getarg  %r0 $n
    beqi    zero_is_even %r0 0
    subi    %r0 %r0 1
    prepare pushargr %r0 finishi is_odd
    retval  %r0
    retr    %r0
zero_is_even:
    reti    1
epilog

is_odd:
prolog
    arg     $n
    getarg  %r0 $n
    beqi    zero_is_not_odd %r0 0
    subi    %r0 %r0 1
    prepare pushargr %r0 finishi is_even
    retval  %r0
    retr    %r0
zero_is_not_odd:
    reti    0
epilog

main:
prolog
    prepare pushargi 1000 finishi is_even
    retval  %v0
    prepare pushargi told ellipsis pushargi 1000 pushargr %v0 finishi @printf
    prepare pushargi 999 finishi is_even
    retval  %v0
    prepare pushargi told ellipsis pushargi 999 pushargr %v0 finishi @printf
    retr    %v0
epilog
