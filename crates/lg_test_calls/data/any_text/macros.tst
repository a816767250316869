#define OUT(c) prepare pushargi c finishi @putchar
#define TWICE(c) OUT(c) OUT(c)
#define CAT(a, b) a##b
#if __WORDSIZE == 64 && defined(OUT)
.data 64
table: .l $(1 << 4 | 3) 0x12 017
.align 8
text: .c "one\n" 0
.code
#else
.nothing
#endif
prolog TWICE('x')
  prepare pushargi text
  finishi @puts
  CAT(re, t) epilog
# 1 "marker"
