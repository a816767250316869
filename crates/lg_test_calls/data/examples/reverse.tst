/* Each argument, its bytes in reverse order. */
.code
    jmpi    main

// reverse(text): turns a string round in place
reverse:
prolog
    arg     $text
    getarg  %v0 $text
    prepare pushargr %v0 finishi @strlen
    retval  %v1
    addr    %v1 %v1 %v0
    subi    %v1 %v1 1               // its last byte
swap:
    bger    turned %v0 %v1
    ldr_c   %r0 %v0
    ldr_c   %r1 %v1
    str_c   %v0 %r1
    str_c   %v1 %r0
    addi    %v0 %v0 1
    subi    %v1 %v1 1
    jmpi    swap
turned:
    ret
epilog

main:
prolog
    arg     $argc
    arg     $argv
    getarg  %v0 $argc
    getarg  %v1 $argv
argument:
    subi    %v0 %v0 1
    blei    done %v0 0
    addi    %v1 %v1 8
    ldr     %r0 %v1
    prepare pushargr %r0 finishi @strlen
    retval  %r0
    addi    %r0 %r0 1
    prepare pushargr %r0 finishi @malloc
    retval  %v2
    ldr     %r0 %v1
    prepare pushargr %r0 finishi @strlen
    retval  %r0
    addi    %r0 %r0 1               // the zero byte too
    ldr     %r1 %v1
    prepare pushargr %v2 pushargr %r1 pushargr %r0 finishi @memcpy
    prepare pushargr %v2 finishi reverse
    prepare pushargr %v2 finishi @puts
    jmpi    argument
done:
    ret
epilog
