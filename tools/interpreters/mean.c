// A plain interpreter of resolved nodes of the portable meaning, to measure lg_mean's steps against: the nodes of two texts of
// tools/speed/texts.py, `short` and `loop`, and the same checks (registers and the carry defined or not, each byte written or not, an
// access in one part). It has no calls.
// gcc -O2 -o /tmp/mean tools/interpreters/mean.c
// usage: mean short|loop STEPS
#include <stdint.h>
#include <stdio.h>
#include <stdlib.h>
#include <string.h>
typedef uint64_t u64; typedef int64_t i64; typedef uint32_t u32; typedef uint8_t u8;
enum { ADD, SUB, RSB, MUL, AND, OR, XOR, LSH, RSH, RSHU, DIV, DIVU, REM, REMU, ADDC, SUBC, ADDX, SUBX, LT, LTU, LE, LEU, GE, GEU, GT, GTU, EQ, NE,
  BLT, BLTU, BLE, BLEU, BGE, BGEU, BGT, BGTU, BEQ, BNE, BMS, BMC, MOV, MOVI, NEG, COM, JMP, LDC, LDUC, LDS, LDUS, LDI, LDUI, LDL, LDX, STC, STS, STI, STL, PROLOG };
// op; a: register of the result, or of a stored value; b, c: sources, 7 where it is an immediate; x: its word; to: a node
typedef struct { u8 op, a, b, c, ty, ix; u32 to, line; u64 x; } N;
enum { I = 7 };
typedef struct { u64 lo, size; u8 *bytes, *marks; } P; // marks: 0 none, 255 written, 1 room only
static P part[4];
static u64 reg[8]; static u8 def[8];
static u8 carry; // 0 undefined, 2|bit sum, 4|bit difference
static int answer; static u64 answer_word; static u32 at; static u64 fp;
static inline P *find(u64 a, u64 w) {
  for (int i = 0; i < 4; i++) if (a - part[i].lo < part[i].size) return part[i].size - (a - part[i].lo) >= w ? &part[i] : 0;
  return 0;
}
#define SRC(v, r) u64 v; if ((r) == I) v = n->x; else { if (!def[r]) goto undefined; v = reg[r]; }
#define SET(r, w) do { def[r] = 1; reg[r] = (w); } while (0)
#define ON do { at++; carry = 0; answer = 0; goto next; } while (0)
#define ONC do { at++; answer = 0; goto next; } while (0)
#define BIN(OP, E) case OP: { SRC(p, n->b) SRC(q, n->c) u64 w = (E); SET(n->a, w); ON; }
#define BR(OP, E) case OP: { SRC(p, n->b) SRC(q, n->c) at = (E) ? n->to : at + 1; carry = 0; answer = 0; goto next; }
#define LOADT(OP, T, U) case OP: { SRC(p, n->b) if (n->ix) { SRC(q, n->c) p += q; } P *t = find(p, sizeof(T)); if (!t) goto undefined; u64 o = p - t->lo; \
  U m; T v; memcpy(&m, t->marks + o, sizeof m); if (m != (U)~(U)0) goto undefined; memcpy(&v, t->bytes + o, sizeof v); SET(n->a, (u64)(i64)v); ONC; }
#define STORET(OP, U) case OP: { SRC(p, n->b) if (n->ix) { SRC(q, n->c) p += q; } if (!def[n->a]) goto undefined; P *t = find(p, sizeof(U)); if (!t) goto undefined; \
  u64 o = p - t->lo; for (unsigned k = 0; k < sizeof(U); k++) if (!t->marks[o + k]) goto undefined; \
  U v = reg[n->a]; U m = ~(U)0; memcpy(t->bytes + o, &v, sizeof v); memcpy(t->marks + o, &m, sizeof m); ONC; }
static int run(const N *nodes, u64 most, u64 *went) {
  u64 left = most;
  goto first;
next:
  left--;
first:
  if (!left) { *went = most; return 0; }
  const N *n = nodes + at;
  switch (n->op) {
    BIN(ADD, p + q) BIN(SUB, p - q) BIN(RSB, q - p) BIN(MUL, p * q) BIN(AND, p & q) BIN(OR, p | q) BIN(XOR, p ^ q) BIN(LSH, p << (q & 63))
    BIN(RSH, (i64)p >> (q & 63)) BIN(RSHU, p >> (q & 63)) BIN(LT, (i64)p < (i64)q) BIN(LTU, p < q) BIN(LE, (i64)p <= (i64)q) BIN(LEU, p <= q)
    BIN(GE, (i64)p >= (i64)q) BIN(GEU, p >= q) BIN(GT, (i64)p > (i64)q) BIN(GTU, p > q) BIN(EQ, p == q) BIN(NE, p != q)
    case DIV: { SRC(p, n->b) SRC(q, n->c) if (!q || (p == 1ull << 63 && q == ~0ull)) goto undefined; SET(n->a, (i64)p / (i64)q); ON; }
    case DIVU: { SRC(p, n->b) SRC(q, n->c) if (!q) goto undefined; SET(n->a, p / q); ON; }
    case REM: { SRC(p, n->b) SRC(q, n->c) if (!q || (p == 1ull << 63 && q == ~0ull)) goto undefined; SET(n->a, (i64)p % (i64)q); ON; }
    case REMU: { SRC(p, n->b) SRC(q, n->c) if (!q) goto undefined; SET(n->a, p % q); ON; }
    case ADDC: { SRC(p, n->b) SRC(q, n->c) u64 w = p + q; SET(n->a, w); at++; answer = 0; carry = 2 | (w < p); goto next; }
    case SUBC: { SRC(p, n->b) SRC(q, n->c) SET(n->a, p - q); at++; answer = 0; carry = 4 | (p < q); goto next; }
    case ADDX: { SRC(p, n->b) SRC(q, n->c) if (!(carry & 2)) goto undefined; u64 w; int o = __builtin_add_overflow(p, q, &w); o |= __builtin_add_overflow(w, (u64)(carry & 1), &w);
      SET(n->a, w); at++; answer = 0; carry = 2 | o; goto next; }
    case SUBX: { SRC(p, n->b) SRC(q, n->c) if (!(carry & 4)) goto undefined; u64 w; int o = __builtin_sub_overflow(p, q, &w); o |= __builtin_sub_overflow(w, (u64)(carry & 1), &w);
      SET(n->a, w); at++; answer = 0; carry = 4 | o; goto next; }
    BR(BLT, (i64)p < (i64)q) BR(BLTU, p < q) BR(BLE, (i64)p <= (i64)q) BR(BLEU, p <= q) BR(BGE, (i64)p >= (i64)q) BR(BGEU, p >= q)
    BR(BGT, (i64)p > (i64)q) BR(BGTU, p > q) BR(BEQ, p == q) BR(BNE, p != q) BR(BMS, (p & q) != 0) BR(BMC, (p & q) == 0)
    case MOV: { SRC(p, n->b) SET(n->a, p); ONC; }
    case MOVI: { SET(n->a, n->x); ONC; }
    case NEG: { SRC(p, n->b) SET(n->a, -p); ON; }
    case COM: { SRC(p, n->b) SET(n->a, ~p); ON; }
    case JMP: { at = n->to; carry = 0; answer = 0; goto next; }
    LOADT(LDC, int8_t, u8) LOADT(LDUC, u8, u8) LOADT(LDS, int16_t, uint16_t) LOADT(LDUS, uint16_t, uint16_t) LOADT(LDI, int32_t, u32) LOADT(LDUI, u32, u32) LOADT(LDL, u64, u64)
    STORET(STC, u8) STORET(STS, uint16_t) STORET(STI, u32) STORET(STL, u64)
    case PROLOG: ON;
  }
undefined:
  *went = most - left; return n->line;
}
// registers: r0 r1 r2 v0 v1 v2 = 0..5
static N short_[] = { {PROLOG}, {MOVI, 3, .x = 0}, {MOVI, 4, .x = 0}, {MOVI, 5, .x = 0},
  {ADD, 3, 3, I, .x = 1}, {ADD, 4, 4, 3}, {XOR, 5, 5, 4}, {BNE, 0, 5, I, .to = 4} };
static N loop_[] = { {PROLOG}, {MOVI, 3, .x = 0x20000000}, {MOVI, 4, .x = 0},
  {LDL, 0, 3}, {ADDC, 0, 0, I, .x = 1234567}, {ADDX, 4, 4, I, .x = 0}, {STL, 0, 3}, {LDUC, 1, 3, I, .ix = 1, .x = 9}, {AND, 2, 0, I, .x = 24},
  {ADD, 2, 2, 3}, {LDI, 2, 2, I, .ix = 1, .x = 4}, {STS, 2, 3, I, .ix = 1, .x = 40}, {XOR, 4, 4, 1}, {LTU, 1, 4, I, .x = 1000}, {SUB, 5, 4, I, .x = 77},
  {BGT, 0, 5, I, .x = -5, .to = 3}, {OR, 4, 4, 1}, {JMP, .to = 3} };
int main(int c, char **v) {
  static u8 data[128], marks[128]; // .l 7 11, .size 32: the data part is written
  data[64] = 0; memset(data, 0, sizeof data); data[0] = 7; data[8] = 11; memset(marks, 255, sizeof marks);
  part[0] = (P){ 0x20000000, 48 + 64, data, marks }; part[1] = (P){ 0x28000000, 0, 0, 0 };
  part[2] = (P){ 0x30000000, 0, 0, 0 }; part[3] = (P){ 0x3FF00000, 0, 0, 0 };
  u64 went; int line = run(c > 1 && v[1][0] == 's' ? short_ : loop_, strtoull(v[2], 0, 10), &went);
  printf("%d %llu at %u: %llx %llx %llx %llx %llx %llx\n", line, (unsigned long long)went, at, (unsigned long long)reg[0], (unsigned long long)reg[1], (unsigned long long)reg[2],
    (unsigned long long)reg[3], (unsigned long long)reg[4], (unsigned long long)reg[5]);
}
