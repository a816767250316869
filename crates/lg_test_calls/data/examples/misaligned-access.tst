/* A word at an address that is no multiple of 8, and shifts whose counts are taken modulo 64. */
.data 48
fmt:    .c "%lx %lx %lx %lx\n"
.align 8
buf:    .size 16
.code
prolog
    movi     %v0 buf
    movi     %r0 0x1122334455667788
    stxi     3 %v0 %r0              // bytes 3 to 10
    ldxi_uc  %v1 %v0 10             // the highest of them
    ldxi_i   %v2 %v0 5
    movi     %r1 1
    lshi     %r1 %r1 65
    movi     %r2 -8
    movi     %r0 -1
    rshr     %r2 %r2 %r0            // by 63
    prepare
        pushargi fmt
        ellipsis
        pushargr %v1
        pushargr %v2
        pushargr %r1
        pushargr %r2
    finishi  @printf
    ret
epilog
