// The greatest of fifteen numbers and their sum, by functions with variable arguments: the first argument says how many follow. With it they
// are sixteen, of which some are passed in registers and some on the stack, on each target as its conventions say.
.data 64
format: .c "greatest %ld, sum %ld\n"

#define NUMBERS pushargi 15 pushargi 3 pushargi -14 pushargi 15 pushargi 92 pushargi -65 pushargi 35 pushargi 89 pushargi 79 \
    pushargi -32 pushargi 38 pushargi 46 pushargi 26 pushargi 43 pushargi 38 pushargi 32

.code
    jmpi main

greatest:
    prolog
    arg $count
    ellipsis
    getarg %v0 $count
    va_start %v1
    va_arg %v2 %v1              // the greatest so far
greatest_more:
    subi %v0 %v0 1
    blei greatest_done %v0 0
    va_arg %r0 %v1
    bler greatest_more %r0 %v2
    movr %v2 %r0
    jmpi greatest_more
greatest_done:
    va_end %v1
    retr %v2
    epilog

sum:
    prolog
    arg $count
    ellipsis
    getarg %v0 $count
    va_start %v1
    movi %v2 0
sum_more:
    blei sum_done %v0 0
    va_arg %r0 %v1
    addr %v2 %v2 %r0
    subi %v0 %v0 1
    jmpi sum_more
sum_done:
    va_end %v1
    retr %v2
    epilog

main:
    prolog
    prepare NUMBERS finishi greatest
    retval %v0
    prepare NUMBERS finishi sum
    retval %v1
    prepare pushargi format ellipsis pushargr %v0 pushargr %v1 finishi @printf
    ret
    epilog
