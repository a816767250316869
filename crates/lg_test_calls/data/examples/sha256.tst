/* The SHA-256 of the first argument, or of `abc` where there is none. */
.data 1024
.align 8
keys:
    .i 0x428a2f98 0x71374491 0xb5c0fbcf 0xe9b5dba5 0x3956c25b 0x59f111f1 0x923f82a4 0xab1c5ed5
    .i 0xd807aa98 0x12835b01 0x243185be 0x550c7dc3 0x72be5d74 0x80deb1fe 0x9bdc06a7 0xc19bf174
    .i 0xe49b69c1 0xefbe4786 0x0fc19dc6 0x240ca1cc 0x2de92c6f 0x4a7484aa 0x5cb0a9dc 0x76f988da
    .i 0x983e5152 0xa831c66d 0xb00327c8 0xbf597fc7 0xc6e00bf3 0xd5a79147 0x06ca6351 0x14292967
    .i 0x27b70a85 0x2e1b2138 0x4d2c6dfc 0x53380d13 0x650a7354 0x766a0abb 0x81c2c92e 0x92722c85
    .i 0xa2bfe8a1 0xa81a664b 0xc24b8b70 0xc76c51a3 0xd192e819 0xd6990624 0xf40e3585 0x106aa070
    .i 0x19a4c116 0x1e376c08 0x2748774c 0x34b0bcb5 0x391c0cb3 0x4ed8aa4a 0x5b9cca4f 0x682e6ff3
    .i 0x748f82ee 0x78a5636f 0x84c87814 0x8cc70208 0x90befffa 0xa4506ceb 0xbef9a3f7 0xc67178f2
start:
    .i 0x6a09e667 0xbb67ae85 0x3c6ef372 0xa54ff53a 0x510e527f 0x9b05688c 0x1f83d9ab 0x5be0cd19
sums:   .size 64                    // eight words, each in eight bytes
vars:   .size 64                    // the words a to h of a round
words:  .size 512                   // the 64 words of a block
abc:    .c "abc"
digits: .c "%08lx"
line:   .c "\n"
.code
    jmpi    main

// three(x, p, q, r): the exclusive or of x rotated to the right by p, by q and by r, in 32 bits
three:
prolog
    arg     $x
    arg     $p
    arg     $q
    arg     $r
    getarg  %v0 $x
    lshi    %v1 %v0 32
    orr     %v0 %v0 %v1             // the word twice, so that a shift rotates it
    getarg  %r0 $p
    rshr_u  %v1 %v0 %r0
    getarg  %r0 $q
    rshr_u  %v2 %v0 %r0
    xorr    %v1 %v1 %v2
    getarg  %r0 $r
    rshr_u  %v2 %v0 %r0
    xorr    %v1 %v1 %v2
    extr_ui %v1 %v1
    retr    %v1
epilog

// two(x, p, q, s): the exclusive or of x rotated by p, rotated by q and shifted by s
two:
prolog
    arg     $x
    arg     $p
    arg     $q
    arg     $s
    getarg  %v2 $x
    lshi    %v1 %v2 32
    orr     %v0 %v2 %v1
    getarg  %r0 $p
    rshr_u  %v1 %v0 %r0
    getarg  %r0 $q
    rshr_u  %v0 %v0 %r0
    xorr    %v1 %v1 %v0
    getarg  %r0 $s
    rshr_u  %v0 %v2 %r0
    xorr    %v1 %v1 %v0
    extr_ui %v1 %v1
    retr    %v1
epilog

// expand(block): the 64 words of a block of 64 bytes
expand:
prolog
    arg     $block
    getarg  %v0 $block
    movi    %v1 words
    movi    %v2 16
given:
    ldr_ui  %r0 %v0
    htonr_ui %r0 %r0
    str     %v1 %r0
    addi    %v0 %v0 4
    addi    %v1 %v1 8
    subi    %v2 %v2 1
    bgti    given %v2 0
made:
    ldxi    %r0 %v1 -16
    prepare pushargr %r0 pushargi 17 pushargi 19 pushargi 10 finishi two
    retval  %v2
    ldxi    %r0 %v1 -120
    prepare pushargr %r0 pushargi 7 pushargi 18 pushargi 3 finishi two
    retval  %r0
    addr    %v2 %v2 %r0
    ldxi    %r0 %v1 -56
    addr    %v2 %v2 %r0
    ldxi    %r0 %v1 -128
    addr    %v2 %v2 %r0
    extr_ui %v2 %v2
    str     %v1 %v2
    addi    %v1 %v1 8
    movi    %r0 words
    addi    %r0 %r0 512
    bltr    made %v1 %r0
    ret
epilog

// round(t): one of the 64 rounds on the words a to h
round:
prolog
    arg     $t
    allocai 8 $first                // what is added to d, and to a
    movi    %v0 vars
    ldxi    %r0 %v0 32              // e
    prepare pushargr %r0 pushargi 6 pushargi 11 pushargi 25 finishi three
    retval  %v1
    ldxi    %r0 %v0 32
    ldxi    %r1 %v0 40              // f
    ldxi    %r2 %v0 48              // g
    andr    %r1 %r1 %r0
    comr    %r0 %r0
    andr    %r2 %r2 %r0
    xorr    %r1 %r1 %r2
    addr    %v1 %v1 %r1
    ldxi    %r0 %v0 56              // h
    addr    %v1 %v1 %r0
    getarg  %r0 $t
    lshi    %r1 %r0 2
    movi    %r2 keys
    ldxr_ui %r1 %r2 %r1
    addr    %v1 %v1 %r1
    lshi    %r1 %r0 3
    movi    %r2 words
    ldxr    %r1 %r2 %r1
    addr    %v1 %v1 %r1
    stxi    $first %fp %v1
    ldxi    %r0 %v0 0               // a
    prepare pushargr %r0 pushargi 2 pushargi 13 pushargi 22 finishi three
    retval  %v1
    ldxi    %r0 %v0 0
    ldxi    %r1 %v0 8               // b
    ldxi    %r2 %v0 16              // c
    andr    %v2 %r0 %r1
    andr    %r0 %r0 %r2
    andr    %r1 %r1 %r2
    xorr    %v2 %v2 %r0
    xorr    %v2 %v2 %r1
    addr    %v1 %v1 %v2
    ldxi    %v2 %fp $first
    addr    %v1 %v1 %v2
    extr_ui %v1 %v1                // the new a
    movi    %r0 56
moved:                              // each word takes the place of the next
    subi    %r1 %r0 8
    ldxr    %r2 %v0 %r1
    stxr    %v0 %r0 %r2
    movr    %r0 %r1
    bgti    moved %r0 0
    stxi    0 %v0 %v1
    ldxi    %r0 %v0 32              // the new e, which was d
    addr    %r0 %r0 %v2
    extr_ui %r0 %r0
    stxi    32 %v0 %r0
    ret
epilog

// block(text): takes a block of 64 bytes into the sums
block:
prolog
    arg     $text
    getarg  %v0 $text
    prepare pushargr %v0 finishi expand
    prepare pushargi vars pushargi sums pushargi 64 finishi @memcpy
    movi    %v1 0
rounds:
    prepare pushargr %v1 finishi round
    addi    %v1 %v1 1
    blti    rounds %v1 64
    movi    %v0 sums
    movi    %v1 vars
    movi    %v2 8
added:
    ldr     %r0 %v0
    ldr     %r1 %v1
    addr    %r0 %r0 %r1
    extr_ui %r0 %r0
    str     %v0 %r0
    addi    %v0 %v0 8
    addi    %v1 %v1 8
    subi    %v2 %v2 1
    bgti    added %v2 0
    ret
epilog

// begin(): the sums before the first block
begin:
prolog
    movi    %v0 start
    movi    %v1 sums
    movi    %v2 8
begun:
    ldr_ui  %r0 %v0
    str     %v1 %r0
    addi    %v0 %v0 4
    addi    %v1 %v1 8
    subi    %v2 %v2 1
    bgti    begun %v2 0
    ret
epilog

// hash(text): the sums of a string
hash:
prolog
    arg     $text
    getarg  %v0 $text
    prepare finishi begin
    prepare pushargr %v0 finishi @strlen
    retval  %v1
    addi    %v2 %v1 72              // the bytes, one more, the number of bits, in whole blocks
    andi    %v2 %v2 -64
    prepare pushargr %v2 pushargi 1 finishi @calloc
    retval  %r0
    allocai 8 $padded
    stxi    $padded %fp %r0
    prepare pushargr %r0 pushargr %v0 pushargr %v1 finishi @memcpy
    ldxi    %v0 %fp $padded
    movi    %r0 0x80
    stxr_c  %v0 %v1 %r0
    lshi    %r0 %v1 3
    htonr_ul %r0 %r0
    addr    %v2 %v2 %v0            // behind the last block
    stxi    -8 %v2 %r0
blocks:
    prepare pushargr %v0 finishi block
    addi    %v0 %v0 64
    bltr    blocks %v0 %v2
    ret
epilog

main:
prolog
    arg     $argc
    arg     $argv
    movi    %v0 abc
    getarg  %r0 $argc
    blti    known %r0 2
    getarg  %r0 $argv
    ldxi    %v0 %r0 8
known:
    prepare pushargr %v0 finishi hash
    movi    %v0 sums
    movi    %v1 8
written:
    ldr     %r0 %v0
    prepare pushargi digits ellipsis pushargr %r0 finishi @printf
    addi    %v0 %v0 8
    subi    %v1 %v1 1
    bgti    written %v1 0
    prepare pushargi line ellipsis finishi @printf
    ret
epilog
