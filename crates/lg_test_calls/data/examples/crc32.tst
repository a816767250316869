/* The CRC-32 of each argument, bit by bit. */
.data 32
sum: .c "%08x  %s\n"
.code
    jmpi    main

// crc(text): the CRC-32 of a string
crc:
prolog
    arg     $text
    getarg  %v0 $text
    movi    %v1 0xffffffff
byte:
    ldr_uc  %r0 %v0
    beqi    ended %r0 0
    xorr    %v1 %v1 %r0
    movi    %r1 8
bit:
    andi    %r0 %v1 1
    rshi_u  %v1 %v1 1
    beqi    even %r0 0
    xori    %v1 %v1 0xedb88320
even:
    subi    %r1 %r1 1
    bgti    bit %r1 0
    addi    %v0 %v0 1
    jmpi    byte
ended:
    xori    %v1 %v1 0xffffffff
    retr    %v1
epilog

main:
prolog
    arg     $argc
    arg     $argv
    getarg  %v0 $argc
    getarg  %v1 $argv
argument:
    subi    %v0 %v0 1
    blei    done %v0 0
    addi    %v1 %v1 8
    ldr     %v2 %v1
    prepare pushargr %v2 finishi crc
    retval  %r0
    prepare pushargi sum ellipsis pushargr %r0 pushargr %v2 finishi @printf
    jmpi    argument
done:
    ret
epilog
