/* An interpreter of a byte code, and programs for it.

   The machine has a stack of 256 words, 64 frames of calls with eight locals each, and a memory of 256 words. An instruction is a byte, and behind it its
   operand: none, a number of 4 bytes, or a byte that names a local or a mark. Jumps and calls go to marks, so that a program can be written down in
   order, without counting bytes. A program is checked before it runs: the check finds the marks, and refuses what the machine could not run. What goes wrong
   in a run ends that program, and is told with its place.

   The first part names the instructions, the second is the data: tables and programs. Then come the functions:

       checked     finds the marks of a program, or its first fault
       run         runs a checked program
       list        writes a program, an instruction a line
       perform     checks a program, runs it and tells how it ended
       main        performs each of them                                                                                                      */

// ---------------------------------------------------------------------------------------------------------------------------------------------
// The instructions
// ---------------------------------------------------------------------------------------------------------------------------------------------

#define HALT        .c 0            // ends the program
#define PUSH(n)     .c 1 .i n       // a number of 4 bytes
#define LOAD(k)     .c 2 k          // what the local k holds
#define SAVE(k)     .c 3 k          // the topmost word goes to the local k
#define DUP         .c 4            // a       ->  a a
#define DROP        .c 5            // a       ->
#define SWAP        .c 6            // a b     ->  b a
#define OVER        .c 7            // a b     ->  a b a
#define ADD         .c 8            // a b     ->  a + b
#define SUB         .c 9            // a b     ->  a - b
#define MUL         .c 10           // a b     ->  a * b
#define DIV         .c 11           // a b     ->  a / b, towards zero
#define REM         .c 12           // a b     ->  what is left by it
#define AND         .c 13           // a b     ->  the bits of both
#define OR          .c 14           // a b     ->  the bits of either
#define XOR         .c 15           // a b     ->  the bits of one alone
#define SHL         .c 16           // a b     ->  a moved left by b bits
#define SHR         .c 17           // a b     ->  a moved right by b bits, with its sign
#define NEG         .c 18           // a       ->  -a
#define NOT         .c 19           // a       ->  1 where a is 0, else 0
#define LT          .c 20           // a b     ->  1 where a is less than b, else 0
#define LE          .c 21           // a b     ->  1 where a is at most b, else 0
#define EQ          .c 22           // a b     ->  1 where they are equal, else 0
#define NE          .c 23           // a b     ->  1 where they differ, else 0
#define MARK(m)     .c 24 m         // the mark m stands here
#define JUMP(m)     .c 25 m         // goes to the mark
#define ZERO(m)     .c 26 m         // a       ->          goes to the mark where a is 0
#define MORE(m)     .c 27 m         // a       ->          goes to the mark where a is not 0
#define CALL(m)     .c 28 m         // goes to the mark, in a new frame whose locals are 0
#define BACK        .c 29           // goes back behind the call; in the first frame it ends the program
#define FETCH       .c 30           // address ->  the word of the memory
#define STORE       .c 31           // a address ->        the word goes to the memory
#define PRINT       .c 32           // a       ->          writes it as a number, and a space
#define CHAR        .c 33           // a       ->          writes it as a byte

#define INSTRUCTIONS 34
#define THE_MARK 24
#define FIRST_JUMP 25
#define LAST_JUMP 28
#define FIRST_LOCAL 2
#define LAST_LOCAL 3

// sizes: of a frame in bytes (the place behind the call, and the locals), of the memory in words
#define MARKS 64
#define LOCALS 8
#define FRAME 72
#define WORDS 256

// what can go wrong, by its number in the table of faults
#define NO_FAULT 0
#define NO_INSTRUCTION 1
#define CUT_OFF 2
#define NO_NAME 3
#define TWICE 4
#define NO_MARK 5
#define STACK_EMPTY 6
#define STACK_FULL 7
#define TOO_DEEP 8
#define BY_ZERO 9
#define OUTSIDE 10
#define NO_HALT 11

.data 20480

// ---------------------------------------------------------------------------------------------------------------------------------------------
// Tables
// ---------------------------------------------------------------------------------------------------------------------------------------------

// how many bytes the operand of each instruction has
lengths:
.c 0 4 1 1              // halt push load save
.c 0 0 0 0              // dup drop swap over
.c 0 0 0 0 0            // add sub mul div rem
.c 0 0 0 0 0 0 0        // and or xor shl shr neg not
.c 0 0 0 0              // lt le eq ne
.c 1 1 1 1 1 0          // mark jump zero more call back
.c 0 0 0 0              // fetch store print char

// their names, 8 bytes each
.align 8
names:
.c "halt" .align 8
.c "push" .align 8
.c "load" .align 8
.c "save" .align 8
.c "dup" .align 8
.c "drop" .align 8
.c "swap" .align 8
.c "over" .align 8
.c "add" .align 8
.c "sub" .align 8
.c "mul" .align 8
.c "div" .align 8
.c "rem" .align 8
.c "and" .align 8
.c "or" .align 8
.c "xor" .align 8
.c "shl" .align 8
.c "shr" .align 8
.c "neg" .align 8
.c "not" .align 8
.c "lt" .align 8
.c "le" .align 8
.c "eq" .align 8
.c "ne" .align 8
.c "mark" .align 8
.c "jump" .align 8
.c "zero" .align 8
.c "more" .align 8
.c "call" .align 8
.c "back" .align 8
.c "fetch" .align 8
.c "store" .align 8
.c "print" .align 8
.c "char" .align 8

// what is said of each fault, 32 bytes each
.align 32
faults:
.c "none" .align 32
.c "no instruction" .align 32
.c "an operand is cut off" .align 32
.c "no such local or mark" .align 32
.c "a mark stands twice" .align 32
.c "a jump to no mark" .align 32
.c "the stack is empty" .align 32
.c "the stack is full" .align 32
.c "calls are too deep" .align 32
.c "a division by zero" .align 32
.c "an address is outside" .align 32
.c "the code ends with no halt" .align 32

// formats
number:     .c "%ld "
ended:      .c "\n  ended after %ld steps\n"
faulted:    .c "\n  fault at byte %ld after %ld steps: %s\n"
refused:    .c "  refused at byte %ld: %s\n"
listed:     .c "  %4ld  %s"
operand:    .c " %ld"

// ---------------------------------------------------------------------------------------------------------------------------------------------
// The machine
// ---------------------------------------------------------------------------------------------------------------------------------------------

.align 8
begin:      .l 0                // of the program: its first byte, and the place behind its last one
end:        .l 0
place:      .l 0                // of the instruction that is checked or run
steps:      .l 0                // how many instructions were run
handlers:   .size $(8 * INSTRUCTIONS)       // where the code of each instruction is
marks:      .size $(8 * MARKS)              // the place behind each mark, and 0 where there is none
stack:      .size $(8 * WORDS)
stack_end:
frames:     .size $(FRAME * 64)
frames_end:
memory:     .size $(8 * WORDS)

// ---------------------------------------------------------------------------------------------------------------------------------------------
// Programs
// ---------------------------------------------------------------------------------------------------------------------------------------------

squares_title: .c "squares"
squares:
PUSH(1) SAVE(0)                         // i is the local 0
MARK(1)
    LOAD(0) DUP MUL PRINT
    LOAD(0) PUSH(1) ADD DUP SAVE(0)
    PUSH(10) LE MORE(1)
HALT
squares_end:

factorials_title: .c "factorials, by recursion"
factorials:
PUSH(1) SAVE(0)
MARK(1)
    LOAD(0) CALL(2) PRINT
    LOAD(0) PUSH(1) ADD DUP SAVE(0)
    PUSH(20) LE MORE(1)
HALT
MARK(2)                                 // n -> n!
    SAVE(0)
    LOAD(0) PUSH(2) LT MORE(3)
    LOAD(0) PUSH(1) SUB CALL(2)
    LOAD(0) MUL BACK
MARK(3)
    PUSH(1) BACK
factorials_end:

divisors_title: .c "greatest common divisors"
divisors:
PUSH(1071) PUSH(462) CALL(1) PRINT
PUSH(270) PUSH(192) CALL(1) PRINT
PUSH(-48) PUSH(36) CALL(1) PRINT
HALT
MARK(1)                                 // a b -> their greatest common divisor
    DUP ZERO(2)
    SWAP OVER REM
    JUMP(1)
MARK(2)
    DROP
    DUP PUSH(0) LT ZERO(3)
    NEG
MARK(3)
    BACK
divisors_end:

collatz_title: .c "the steps of Collatz from 27"
collatz:
PUSH(27) SAVE(0)
PUSH(0) SAVE(1)
MARK(1)
    LOAD(0) PUSH(1) EQ MORE(4)
    LOAD(1) PUSH(1) ADD SAVE(1)
    LOAD(0) PUSH(1) AND MORE(2)
    LOAD(0) PUSH(1) SHR SAVE(0)         // even: half of it
    JUMP(1)
MARK(2)
    LOAD(0) PUSH(3) MUL PUSH(1) ADD SAVE(0)
    JUMP(1)
MARK(4)
    LOAD(1) PRINT
HALT
collatz_end:

towers_title: .c "the towers of Hanoi"
towers:
PUSH(4) PUSH('A') PUSH('C') PUSH('B') CALL(1)
HALT
MARK(1)                                 // n from to by ->      moves n discs
    SAVE(3) SAVE(2) SAVE(1) SAVE(0)
    LOAD(0) ZERO(2)
    LOAD(0) PUSH(1) SUB LOAD(1) LOAD(3) LOAD(2) CALL(1)
    LOAD(1) CHAR LOAD(2) CHAR PUSH(' ') CHAR
    LOAD(0) PUSH(1) SUB LOAD(3) LOAD(2) LOAD(1) CALL(1)
MARK(2)
    BACK
towers_end:

sorting_title: .c "sorting, in the memory"
sorting:
PUSH(7) SAVE(1)
PUSH(0) SAVE(0)
MARK(1)                                 // twelve numbers below 101
    LOAD(1) PUSH(77) MUL PUSH(13) ADD PUSH(101) REM DUP SAVE(1)
    LOAD(0) STORE
    LOAD(0) PUSH(1) ADD DUP SAVE(0)
    PUSH(12) LT MORE(1)
CALL(6)
PUSH('\n') CHAR
PUSH(11) SAVE(2)
MARK(2)                                 // the greatest of the first ones goes behind them
    PUSH(0) SAVE(0)
MARK(3)
    LOAD(0) FETCH LOAD(0) PUSH(1) ADD FETCH LE MORE(4)
    LOAD(0) FETCH
    LOAD(0) PUSH(1) ADD FETCH LOAD(0) STORE
    LOAD(0) PUSH(1) ADD STORE
MARK(4)
    LOAD(0) PUSH(1) ADD DUP SAVE(0)
    LOAD(2) LT MORE(3)
    LOAD(2) PUSH(1) SUB DUP SAVE(2)
    MORE(2)
CALL(6)
HALT
MARK(6)                                 // prints the numbers
    LOAD(0) FETCH PRINT
    LOAD(0) PUSH(1) ADD DUP SAVE(0)
    PUSH(12) LT MORE(6)
    BACK
sorting_end:

bits_title: .c "bits, and what is not a number"
bits:
PUSH(12) PUSH(10) AND PRINT
PUSH(12) PUSH(10) OR PRINT
PUSH(12) PUSH(10) XOR PRINT
PUSH(1) PUSH(40) SHL PRINT
PUSH(-1024) PUSH(3) SHR PRINT
PUSH(0) NOT PRINT
PUSH(5) NOT PRINT
PUSH(5) PUSH(6) NE PRINT
PUSH(-7) PUSH(2) DIV PRINT
PUSH(-7) PUSH(2) REM PRINT
PUSH(1) PUSH(63) SHL PUSH(-1) DIV PRINT             // the least number by -1 is the least number
PUSH(1) PUSH(63) SHL PUSH(-1) REM PRINT
HALT
bits_end:

// Numbers have 12 bits behind the point. The locals: 0 and 1 are c, 2 and 3 are z, 4 counts the turns, and 5 and 6 hold the squares of z's parts.
set_title: .c "Mandelbrot's set"
set:
PUSH(-4915) SAVE(0)
MARK(1)                                 // a row
    PUSH(-8600) SAVE(1)
MARK(2)                                 // a point
    PUSH(0) SAVE(2)
    PUSH(0) SAVE(3)
    PUSH(0) SAVE(4)
MARK(3)                                 // z * z + c
    LOAD(2) DUP MUL PUSH(12) SHR SAVE(5)
    LOAD(3) DUP MUL PUSH(12) SHR SAVE(6)
    PUSH(16384) LOAD(5) LOAD(6) ADD LT MORE(4)
    LOAD(2) LOAD(3) MUL PUSH(11) SHR LOAD(0) ADD SAVE(3)
    LOAD(5) LOAD(6) SUB LOAD(1) ADD SAVE(2)
    LOAD(4) PUSH(1) ADD DUP SAVE(4)
    PUSH(16) LT MORE(3)
MARK(4)                                 // a character by the turns
    LOAD(4) PUSH(16) LT MORE(5)
    PUSH('#') JUMP(8)
MARK(5)
    LOAD(4) PUSH(5) LT MORE(6)
    PUSH('+') JUMP(8)
MARK(6)
    LOAD(4) PUSH(3) LT MORE(7)
    PUSH('.') JUMP(8)
MARK(7)
    PUSH(' ')
MARK(8)
    CHAR
    LOAD(1) PUSH(350) ADD DUP SAVE(1)
    PUSH(2400) LT MORE(2)
    PUSH('\n') CHAR
    LOAD(0) PUSH(819) ADD DUP SAVE(0)
    PUSH(5000) LT MORE(1)
HALT
set_end:

// programs that go wrong in their run
empty_title: .c "a sum of one word"
empty:      PUSH(1) ADD HALT
empty_end:
full_title: .c "words without end"
full:       MARK(1) PUSH(1) JUMP(1)
full_end:
deep_title: .c "calls without end"
deep:       MARK(1) CALL(1)
deep_end:
zero_title: .c "a quotient by zero"
zero:       PUSH(1) PUSH(0) DIV PRINT HALT
zero_end:
outside_title: .c "a word behind the memory"
outside:    PUSH(256) FETCH PRINT HALT
outside_end:
open_title: .c "no halt"
open:       PUSH(1) PRINT
open_end:

// programs that are refused
unknown_title: .c "an instruction that is none"
unknown:    PUSH(1) .c 77 HALT
unknown_end:
cut_title:  .c "half of a number"
cut:        HALT .c 1 0 0
cut_end:
local_title: .c "the ninth local"
local:      LOAD(8) HALT
local_end:
twice_title: .c "a mark that stands twice"
twice:      MARK(1) MARK(2) MARK(1) HALT
twice_end:
lost_title: .c "a jump to nowhere"
lost:       MARK(1) JUMP(2) HALT
lost_end:

.code
    jmpi    main

// ---------------------------------------------------------------------------------------------------------------------------------------------
// checked(begin, end): finds the marks of a program. The number of its first fault, whose place is left in `place`, or NO_FAULT. First the instructions and
// marks are found, one after another, and then each name of a local or a mark is looked at.
// ---------------------------------------------------------------------------------------------------------------------------------------------
checked:
prolog
    arg     $begin
    arg     $end
    getarg  %v0 $begin                  // the instruction
    getarg  %v1 $end
    sti     begin %v0
    sti     end %v1
    prepare
        pushargi marks
        pushargi 0
        pushargi $(8 * MARKS)
    finishi @memset

find:
    bger_u  found %v0 %v1
    sti     place %v0
    ldr_uc  %r0 %v0
    bgei_u  is_none %r0 INSTRUCTIONS
    movi    %r1 lengths
    ldxr_uc %r1 %r1 %r0
    addi    %v2 %v0 1
    addr    %v2 %v2 %r1                 // the next instruction
    bgtr_u  is_cut %v2 %v1
    bnei    find_next %r0 THE_MARK
    ldxi_uc %r0 %v0 1
    bgei_u  is_no_name %r0 MARKS
    lshi    %r0 %r0 3
    movi    %r1 marks
    ldxr    %r2 %r1 %r0
    bnei    is_twice %r2 0
    stxr    %r1 %r0 %v2
find_next:
    movr    %v0 %v2
    jmpi    find

found:
    getarg  %v0 $begin
look:
    bger_u  right %v0 %v1
    sti     place %v0
    ldr_uc  %r0 %v0
    movi    %r1 lengths
    ldxr_uc %r1 %r1 %r0
    addi    %v2 %v0 1
    addr    %v2 %v2 %r1
    ldxi_uc %r2 %v0 1                   // its operand, where it has one; there is a byte of data behind each program
    blti_u  look_at_jump %r0 FIRST_LOCAL
    bgti_u  look_at_jump %r0 LAST_LOCAL
    bgei_u  is_no_name %r2 LOCALS
look_at_jump:
    blti_u  look_next %r0 FIRST_JUMP
    bgti_u  look_next %r0 LAST_JUMP
    bgei_u  is_no_name %r2 MARKS
    lshi    %r2 %r2 3
    movi    %r1 marks
    ldxr    %r1 %r1 %r2
    beqi    is_lost %r1 0
look_next:
    movr    %v0 %v2
    jmpi    look

right:
    reti    NO_FAULT
is_none:
    reti    NO_INSTRUCTION
is_cut:
    reti    CUT_OFF
is_no_name:
    reti    NO_NAME
is_twice:
    reti    TWICE
is_lost:
    reti    NO_MARK
epilog

// ---------------------------------------------------------------------------------------------------------------------------------------------
// run(): runs the program that was checked. The number of its fault, whose place is left in `place`, or NO_FAULT.
// V0 is the place of the next byte of the program, V1 that of the first free word of the stack, and V2 that of the frame.
// ---------------------------------------------------------------------------------------------------------------------------------------------

// the word under the first free one, or a fault; no word is taken
#define NEEDS(count) subi %r0 %v1 $(8 * count) blti_u no_word %r0 stack
#define NEEDS_ROOM bgei_u no_room %v1 stack_end

// takes a word, gives one: those that are there, and there is room
#define TAKE(register) subi %v1 %v1 8 ldr register %v1
#define GIVE(register) str %v1 register addi %v1 %v1 8

// the operand of an instruction, a byte
#define OPERAND(register) ldr_uc register %v0 addi %v0 %v0 1

// where the code of an instruction is; R1 is the table
#define HANDLER(number, label) movi %r0 label stxi $(8 * number) %r1 %r0

// the code of an operation on two words
#define BINARY(label, operation) \
    label: \
        NEEDS(2) \
        TAKE(%r1) \
        TAKE(%r0) \
        operation %r0 %r0 %r1 \
        GIVE(%r0) \
        jmpi next

run:
prolog
    movi    %r1 handlers
    HANDLER(0, do_halt)
    HANDLER(1, do_push)
    HANDLER(2, do_load)
    HANDLER(3, do_save)
    HANDLER(4, do_dup)
    HANDLER(5, do_drop)
    HANDLER(6, do_swap)
    HANDLER(7, do_over)
    HANDLER(8, do_add)
    HANDLER(9, do_sub)
    HANDLER(10, do_mul)
    HANDLER(11, do_div)
    HANDLER(12, do_rem)
    HANDLER(13, do_and)
    HANDLER(14, do_or)
    HANDLER(15, do_xor)
    HANDLER(16, do_shl)
    HANDLER(17, do_shr)
    HANDLER(18, do_neg)
    HANDLER(19, do_not)
    HANDLER(20, do_lt)
    HANDLER(21, do_le)
    HANDLER(22, do_eq)
    HANDLER(23, do_ne)
    HANDLER(24, do_mark)
    HANDLER(25, do_jump)
    HANDLER(26, do_zero)
    HANDLER(27, do_more)
    HANDLER(28, do_call)
    HANDLER(29, do_back)
    HANDLER(30, do_fetch)
    HANDLER(31, do_store)
    HANDLER(32, do_print)
    HANDLER(33, do_char)
    movi    %r0 0
    sti     steps %r0
    ldi     %v0 begin
    movi    %v1 stack
    movi    %v2 frames
    prepare
        pushargi frames
        pushargi 0
        pushargi FRAME
    finishi @memset

// the next instruction: its code is found by its number
next:
    sti     place %v0
    ldi     %r0 end
    bger_u  no_halt %v0 %r0
    ldi     %r0 steps
    addi    %r0 %r0 1
    sti     steps %r0
    OPERAND(%r0)
    lshi    %r0 %r0 3
    movi    %r1 handlers
    ldxr    %r0 %r1 %r0
    jmpr    %r0

do_halt:
    reti    NO_FAULT

do_push:
    NEEDS_ROOM
    ldr_i   %r0 %v0                     // wherever it stands
    addi    %v0 %v0 4
    GIVE(%r0)
    jmpi    next

do_load:
    NEEDS_ROOM
    OPERAND(%r0)
    lshi    %r0 %r0 3
    addr    %r0 %r0 %v2
    ldxi    %r0 %r0 8
    GIVE(%r0)
    jmpi    next

do_save:
    NEEDS(1)
    OPERAND(%r0)
    lshi    %r0 %r0 3
    addr    %r0 %r0 %v2
    TAKE(%r1)
    stxi    8 %r0 %r1
    jmpi    next

do_dup:
    NEEDS(1)
    NEEDS_ROOM
    ldxi    %r0 %v1 -8
    GIVE(%r0)
    jmpi    next

do_drop:
    NEEDS(1)
    TAKE(%r0)
    jmpi    next

do_swap:
    NEEDS(2)
    TAKE(%r0)
    TAKE(%r1)
    GIVE(%r0)
    GIVE(%r1)
    jmpi    next

do_over:
    NEEDS(2)
    NEEDS_ROOM
    ldxi    %r0 %v1 -16
    GIVE(%r0)
    jmpi    next

    BINARY(do_add, addr)
    BINARY(do_sub, subr)
    BINARY(do_mul, mulr)
    BINARY(do_and, andr)
    BINARY(do_or, orr)
    BINARY(do_xor, xorr)
    BINARY(do_shl, lshr)
    BINARY(do_shr, rshr)
    BINARY(do_lt, ltr)
    BINARY(do_le, ler)
    BINARY(do_eq, eqr)
    BINARY(do_ne, ner)

// a quotient by -1 is no quotient of the processor's, since that of the least number has no room
do_div:
    NEEDS(2)
    TAKE(%r1)
    TAKE(%r0)
    beqi    by_zero %r1 0
    beqi    div_by_minus_one %r1 -1
    divr    %r0 %r0 %r1
    GIVE(%r0)
    jmpi    next
div_by_minus_one:
    negr    %r0 %r0
    GIVE(%r0)
    jmpi    next

do_rem:
    NEEDS(2)
    TAKE(%r1)
    TAKE(%r0)
    beqi    by_zero %r1 0
    beqi    rem_by_minus_one %r1 -1
    remr    %r0 %r0 %r1
    GIVE(%r0)
    jmpi    next
rem_by_minus_one:
    movi    %r0 0
    GIVE(%r0)
    jmpi    next

do_neg:
    NEEDS(1)
    TAKE(%r0)
    negr    %r0 %r0
    GIVE(%r0)
    jmpi    next

do_not:
    NEEDS(1)
    TAKE(%r0)
    eqi     %r0 %r0 0
    GIVE(%r0)
    jmpi    next

do_mark:
    addi    %v0 %v0 1
    jmpi    next

// jumps go to the place behind the mark, whose number is their operand
do_jump:
    OPERAND(%r0)
to_mark:
    lshi    %r0 %r0 3
    movi    %r1 marks
    ldxr    %v0 %r1 %r0
    jmpi    next

do_zero:
    NEEDS(1)
    OPERAND(%r0)
    TAKE(%r1)
    beqi    to_mark %r1 0
    jmpi    next

do_more:
    NEEDS(1)
    OPERAND(%r0)
    TAKE(%r1)
    bnei    to_mark %r1 0
    jmpi    next

// a frame has the place behind the call, and then the locals, which are 0 at first
do_call:
    OPERAND(%r0)
    addi    %v2 %v2 FRAME
    bgei_u  too_deep %v2 frames_end
    str     %v2 %v0
    movi    %r1 0
    stxi    8 %v2 %r1
    stxi    16 %v2 %r1
    stxi    24 %v2 %r1
    stxi    32 %v2 %r1
    stxi    40 %v2 %r1
    stxi    48 %v2 %r1
    stxi    56 %v2 %r1
    stxi    64 %v2 %r1
    jmpi    to_mark

do_back:
    movi    %r0 frames
    beqr    do_halt %v2 %r0
    ldr     %v0 %v2
    subi    %v2 %v2 FRAME
    jmpi    next

do_fetch:
    NEEDS(1)
    TAKE(%r0)
    bgei_u  is_outside %r0 WORDS
    lshi    %r0 %r0 3
    movi    %r1 memory
    ldxr    %r0 %r1 %r0
    GIVE(%r0)
    jmpi    next

do_store:
    NEEDS(2)
    TAKE(%r0)
    TAKE(%r2)
    bgei_u  is_outside %r0 WORDS
    lshi    %r0 %r0 3
    movi    %r1 memory
    stxr    %r1 %r0 %r2
    jmpi    next

do_print:
    NEEDS(1)
    TAKE(%r0)
    prepare
        pushargi number
        ellipsis
        pushargr %r0
    finishi @printf
    jmpi    next

do_char:
    NEEDS(1)
    TAKE(%r0)
    prepare
        pushargr %r0
    finishi @putchar
    jmpi    next

// faults; `place` is that of the instruction
no_word:
    reti    STACK_EMPTY
no_room:
    reti    STACK_FULL
too_deep:
    reti    TOO_DEEP
by_zero:
    reti    BY_ZERO
is_outside:
    reti    OUTSIDE
no_halt:
    reti    NO_HALT
epilog

// ---------------------------------------------------------------------------------------------------------------------------------------------
// list(begin, end): writes the instructions of a program that was checked, each with its place and its operand.
// ---------------------------------------------------------------------------------------------------------------------------------------------
list:
prolog
    arg     $begin
    arg     $end
    getarg  %v0 $begin
list_next:
    getarg  %r0 $end
    bger_u  list_end %v0 %r0
    getarg  %r0 $begin
    subr    %r0 %v0 %r0                 // its place in the program
    ldr_uc  %r1 %v0
    lshi    %r2 %r1 3
    addi    %r2 %r2 names
    movi    %v2 lengths
    ldxr_uc %v2 %v2 %r1                 // how many bytes its operand has
    prepare
        pushargi listed
        ellipsis
        pushargr %r0
        pushargr %r2
    finishi @printf
    addi    %v0 %v0 1
    beqi    list_line %v2 0
    beqi    list_byte %v2 1
    ldr_i   %v1 %v0
    jmpi    list_operand
list_byte:
    ldr_uc  %v1 %v0
list_operand:
    addr    %v0 %v0 %v2
    prepare
        pushargi operand
        ellipsis
        pushargr %v1
    finishi @printf
list_line:
    prepare
        pushargi '\n'
    finishi @putchar
    jmpi    list_next
list_end:
    ret
epilog

// ---------------------------------------------------------------------------------------------------------------------------------------------
// perform(title, begin, end): checks a program, runs it, and tells how it ended. 1 where it ended well, else 0.
// ---------------------------------------------------------------------------------------------------------------------------------------------
perform:
prolog
    arg     $title
    arg     $begin
    arg     $end
    getarg  %r0 $title
    prepare
        pushargr %r0
    finishi @puts
    getarg  %r0 $begin
    getarg  %r1 $end
    prepare
        pushargr %r0
        pushargr %r1
    finishi checked
    retval  %v0
    ldi     %v1 place
    getarg  %r0 $begin
    subr    %v1 %v1 %r0
    bnei    perform_refused %v0 NO_FAULT
    calli   run
    retval  %v0
    ldi     %v1 place
    getarg  %r0 $begin
    subr    %v1 %v1 %r0
    ldi     %v2 steps
    bnei    perform_faulted %v0 NO_FAULT
    prepare
        pushargi ended
        ellipsis
        pushargr %v2
    finishi @printf
    reti    1

perform_faulted:
    lshi    %v0 %v0 5
    addi    %v0 %v0 faults
    prepare
        pushargi faulted
        ellipsis
        pushargr %v1
        pushargr %v2
        pushargr %v0
    finishi @printf
    reti    0

perform_refused:
    lshi    %v0 %v0 5
    addi    %v0 %v0 faults
    prepare
        pushargi refused
        ellipsis
        pushargr %v1
        pushargr %v0
    finishi @printf
    reti    0
epilog

// ---------------------------------------------------------------------------------------------------------------------------------------------
// main: lists the first program and performs all of them. The status is the number of those that ended well.
// ---------------------------------------------------------------------------------------------------------------------------------------------

// performs the program of a name
#define PERFORM(name) \
    prepare \
        pushargi name##_title \
        pushargi name \
        pushargi name##_end \
    finishi perform \
    retval  %r0 \
    addr    %v0 %v0 %r0

main:
prolog
    prepare
        pushargi squares
        pushargi squares_end
    finishi list
    movi    %v0 0                       // how many ended well
    PERFORM(squares)
    PERFORM(factorials)
    PERFORM(divisors)
    PERFORM(collatz)
    PERFORM(towers)
    PERFORM(sorting)
    PERFORM(bits)
    PERFORM(set)
    PERFORM(empty)
    PERFORM(full)
    PERFORM(deep)
    PERFORM(zero)
    PERFORM(outside)
    PERFORM(open)
    PERFORM(unknown)
    PERFORM(cut)
    PERFORM(local)
    PERFORM(twice)
    PERFORM(lost)
    prepare
        pushargr %v0
    finishi @exit
    ret
epilog
