// A plain interpreter of the x86-64 instructions of lg_x86, to time the model against: it decodes each instruction anew and makes the same checks, of the
// one spelling of each instruction and of undefined flags too.
// usage: x86_64 HEXFILE STEPS
#include "machine.h"

// 0, 1, or 2 where the flag is undefined
static uint8_t cf = 2, of = 2, zf = 2, sf = 2;

static inline u64 result(u64 r, int carry, int overflow) {
  cf = carry; of = overflow; zf = r == 0; sf = r >> 63;
  return r;
}

static inline u64 sum(u64 a, u64 b, u64 carry) {
  unsigned __int128 s = (unsigned __int128)a + b + carry;
  u64 r = s;
  return result(r, s >> 64, (~(a ^ b) & (a ^ r)) >> 63);
}

static inline u64 difference(u64 a, u64 b, u64 borrow) {
  u64 r = a - b - borrow;
  return result(r, (unsigned __int128)a < (unsigned __int128)b + borrow, ((a ^ b) & (a ^ r)) >> 63);
}

// 0, 1, or 2 where a flag that the condition names is undefined
static inline int holds(u32 cc) {
  int t;
  switch (cc >> 1) {
  case 0: t = of; break;
  case 1: t = cf; break;
  case 2: t = zf; break;
  case 3: t = cf == 2 || zf == 2 ? 2 : cf | zf; break;
  case 4: t = sf; break;
  case 6: t = sf == 2 || of == 2 ? 2 : sf != of; break;
  default: t = sf == 2 || of == 2 || zf == 2 ? 2 : zf || sf != of; break;
  }
  return t == 2 ? 2 : t ^ (cc & 1);
}

static inline u64 shift(u32 digit, u64 a, u32 count) {
  if (count == 0) return a;
  u64 r = digit == 4 ? a << count : digit == 5 ? a >> count : (u64)((i64)a >> count);
  int out = digit == 4 ? a >> (64 - count) & 1 : a >> (count - 1) & 1;
  result(r, out, count > 1 ? 2 : digit == 4 ? (int)(r >> 63) != out : digit == 5 ? (int)(a >> 63) : 0);
  return r;
}

int main(int argc, char **argv) {
  load_code(argv[1]);
  u64 most = strtoull(argv[2], 0, 10), k = 0, pc = CODE, x[16], stop = STOP;
  const char *fault = 0;
  for (int i = 0; i < 16; i++) x[i] = TRASH;
  x[4] = 0x3ffffff8; x[6] = 0x28000000; x[7] = 1;
  memcpy(at(x[4], 8), &stop, 8);
  for (; k < most; k++) {
    if (pc == STOP) break;
    u64 o = pc - CODE;
    if (o >= ncode) F("Fetch");
    const uint8_t *p = code + o;
    int sized = *p == 0x66, rex = 0, has_rex;
    p += sized;
    has_rex = (*p & 0xf0) == 0x40;
    if (has_rex) rex = *p++ & 15;
    int wide = rex >> 3, plain = !wide && (!has_rex || rex & 7);
    u32 op = *p++, long_op = op == 0x0f;
    if (long_op) op = 0x100 | *p++;
    if (sized && op != 0x89) F("Decode");
    u32 m = *p, reg = (m >> 3 & 7) | (rex & 4) << 1, rm = (m & 7) | (rex & 1) << 3, digit = m >> 3 & 7, is_reg = m >> 6 == 3;
    u64 next, ea = 0, r;
    // the length of what follows the opcode: ModRM, SIB, displacement
    u32 len = 1;
#define NEXT(n) do { next = pc + (u64)(p - (code + o)) + (n); if (next - CODE > ncode) F("Decode"); } while (0)
#define WIDE if (!wide || rex & 2) F("Decode")
#define PLAIN if (!plain || rex & 2) F("Decode")
#define DIGIT if (rex & 4) F("Decode")
#define MEMORY do { \
    u32 mod = m >> 6; \
    if (mod != 1 && mod != 2) F("Decode"); \
    if ((m & 7) == 4) { if ((p[1] & 0xf8) != 0x20) F("Decode"); rm = (p[1] & 7) | (rex & 1) << 3; len = 2; } \
    if (mod == 1) { ea = x[rm] + (u64)(i64)(int8_t)p[len]; len += 1; } \
    else { i32 q; memcpy(&q, p + len, 4); if (q == (int8_t)q) F("Decode"); ea = x[rm] + (u64)(i64)q; len += 4; } \
  } while (0)
    switch (op) {
    case 0x01: case 0x09: case 0x11: case 0x19: case 0x21: case 0x29: case 0x31: case 0x39: case 0x85:
    case 0x81: case 0x83: {
      WIDE;
      if (!is_reg) F("Decode");
      u64 a = x[rm], b;
      u32 what = digit;
      if (op == 0x83) { DIGIT; b = (u64)(i64)(int8_t)p[1]; NEXT(2); }
      else if (op == 0x81) { DIGIT; i32 q; memcpy(&q, p + 1, 4); if (q == (int8_t)q) F("Decode"); b = (u64)(i64)q; NEXT(5); }
      else { b = x[reg]; what = op == 0x85 ? 8 : op >> 3; NEXT(1); }
      switch (what) {
      case 0: x[rm] = sum(a, b, 0); break;
      case 1: x[rm] = result(a | b, 0, 0); break;
      case 2: if (cf == 2) F("Flag"); x[rm] = sum(a, b, cf); break;
      case 3: if (cf == 2) F("Flag"); x[rm] = difference(a, b, cf); break;
      case 4: x[rm] = result(a & b, 0, 0); break;
      case 5: x[rm] = difference(a, b, 0); break;
      case 6: x[rm] = result(a ^ b, 0, 0); break;
      case 7: difference(a, b, 0); break;
      default: result(a & b, 0, 0); break;
      }
      break;
    }
    case 0x89: case 0x88: {
      if (is_reg) { WIDE; if (sized || op == 0x88) F("Decode"); x[rm] = x[reg]; NEXT(1); break; }
      if (op == 0x88) { if (!has_rex || wide || rex & 2) F("Decode"); }
      else if (!wide) { PLAIN; }
      else if (sized || rex & 2) F("Decode");
      MEMORY;
      NEXT(len);
      u32 width = op == 0x88 ? 1 : sized ? 2 : wide ? 8 : 4;
      uint8_t *q = at(ea, width);
      if (!q) F("Memory");
      memcpy(q, &x[reg], width);
      break;
    }
    case 0x8b: case 0x63: case 0x1b6: case 0x1b7: case 0x1be: case 0x1bf: {
      u64 l = 0;
      u32 width = op == 0x8b ? (wide ? 8 : 4) : op == 0x63 ? 4 : op & 1 ? 2 : 1;
      if (op != 0x8b || wide) { WIDE; } else { PLAIN; }
      if (is_reg) {
        if (op == 0x8b && wide) F("Decode");
        l = x[rm];
        NEXT(1);
      } else {
        MEMORY;
        NEXT(len);
        uint8_t *q = at(ea, width);
        if (!q) F("Memory");
        memcpy(&l, q, width);
      }
      switch (op) {
      case 0x63: l = (u64)(i64)(i32)l; break;
      case 0x1be: l = (u64)(i64)(int8_t)l; break;
      case 0x1bf: l = (u64)(i64)(int16_t)l; break;
      case 0x1b6: l = (uint8_t)l; break;
      case 0x1b7: l = (uint16_t)l; break;
      default: if (!wide) l = (u32)l; break;
      }
      x[reg] = l;
      break;
    }
    case 0x8d:
      if (!wide) F("Decode");
      if (m >> 6 == 1 && (m & 7) == 4 && ((p[1] >> 3 & 7) | (rex & 2) << 2) != 4) {
        if (p[1] >> 6 || p[2]) F("Decode");
        ea = x[(p[1] & 7) | (rex & 1) << 3] + x[(p[1] >> 3 & 7) | (rex & 2) << 2];
        NEXT(3);
      } else { if (rex & 2) F("Decode"); MEMORY; NEXT(len); }
      x[reg] = ea;
      break;
    case 0xb8: case 0xb9: case 0xba: case 0xbb: case 0xbc: case 0xbd: case 0xbe: case 0xbf: {
      if (rex & 6) F("Decode");
      u32 to = (op & 7) | (rex & 1) << 3, q;
      if (wide) { NEXT(8); memcpy(&x[to], p, 8); }
      else { PLAIN; NEXT(4); memcpy(&q, p, 4); x[to] = q; }
      break;
    }
    case 0xc7: {
      WIDE; DIGIT;
      if (!is_reg || digit) F("Decode");
      i32 q;
      NEXT(5);
      memcpy(&q, p + 1, 4);
      x[rm] = (u64)(i64)q;
      break;
    }
    case 0xf7: {
      WIDE; DIGIT;
      if (!is_reg || digit < 2) F("Decode");
      NEXT(1);
      u64 a = x[rm];
      switch (digit) {
      case 2: x[rm] = ~a; break;
      case 3: x[rm] = result(0 - a, a != 0, a == 1ull << 63); break;
      case 4: { unsigned __int128 q = (unsigned __int128)x[0] * a; x[0] = q; x[2] = q >> 64; cf = of = x[2] != 0; zf = sf = 2; break; }
      case 5: { __int128 q = (__int128)(i64)x[0] * (i64)a; x[0] = q; x[2] = q >> 64; cf = of = q != (i64)q; zf = sf = 2; break; }
      case 6: {
        if (a <= x[2]) F("Divide");
        unsigned __int128 q = (unsigned __int128)x[2] << 64 | x[0];
        x[0] = q / a; x[2] = q % a; cf = of = zf = sf = 2;
        break;
      }
      default: {
        if (a == 0) F("Divide");
        __int128 q = (__int128)((unsigned __int128)x[2] << 64 | x[0]);
        if (a == ~0ull && x[2] == 1ull << 63 && x[0] == 0) F("Divide");
        __int128 e = q / (i64)a;
        if (e != (i64)e) F("Divide");
        x[0] = e; x[2] = q % (i64)a; cf = of = zf = sf = 2;
        break;
      }
      }
      break;
    }
    case 0x1af: {
      WIDE;
      if (!is_reg) F("Decode");
      NEXT(1);
      __int128 q = (__int128)(i64)x[reg] * (i64)x[rm];
      x[reg] = q; cf = of = q != (i64)q; zf = sf = 2;
      break;
    }
    case 0x99:
      if (rex != 8) F("Decode");
      NEXT(0);
      x[2] = (u64)((i64)x[0] >> 63);
      break;
    case 0xd3: case 0xc1: {
      WIDE; DIGIT;
      if (!is_reg || (digit != 4 && digit != 5 && digit != 7)) F("Decode");
      u32 count = x[1] & 63;
      if (op == 0xc1) { count = p[1]; if (count > 63) F("Decode"); NEXT(2); } else NEXT(1);
      x[rm] = shift(digit, x[rm], count);
      break;
    }
    case 0x1c8: case 0x1c9: case 0x1ca: case 0x1cb: case 0x1cc: case 0x1cd: case 0x1ce: case 0x1cf: {
      if (!wide || rex & 6) F("Decode");
      NEXT(0);
      u32 to = (op & 7) | (rex & 1) << 3;
      x[to] = __builtin_bswap64(x[to]);
      break;
    }
    case 0x70: case 0x71: case 0x72: case 0x73: case 0x74: case 0x75: case 0x76: case 0x77: case 0x78: case 0x79: case 0x7c: case 0x7d: case 0x7e: case 0x7f:
    case 0x180: case 0x181: case 0x182: case 0x183: case 0x184: case 0x185: case 0x186: case 0x187: case 0x188: case 0x189: case 0x18c: case 0x18d: case 0x18e: case 0x18f: {
      if (has_rex) F("Decode");
      i32 q;
      if (op < 0x100) { NEXT(1); q = (int8_t)p[0]; } else { NEXT(4); memcpy(&q, p, 4); }
      int t = holds(op & 15);
      if (t == 2) F("Flag");
      if (t) next += (u64)(i64)q;
      break;
    }
    case 0x190: case 0x191: case 0x192: case 0x193: case 0x194: case 0x195: case 0x196: case 0x197: case 0x198: case 0x199: case 0x19c: case 0x19d: case 0x19e: case 0x19f: {
      if (!has_rex || wide || rex & 6 || !is_reg || digit) F("Decode");
      NEXT(1);
      int t = holds(op & 15);
      if (t == 2) F("Flag");
      x[rm] = (x[rm] & ~0xffull) | (u64)t;
      break;
    }
    case 0xeb:
      if (has_rex) F("Decode");
      NEXT(1);
      next += (u64)(i64)(int8_t)p[0];
      break;
    case 0xe9: case 0xe8: {
      if (has_rex) F("Decode");
      i32 q;
      NEXT(4);
      memcpy(&q, p, 4);
      if (op == 0xe8) {
        uint8_t *to = at(x[4] - 8, 8);
        if (!to) F("Memory");
        memcpy(to, &next, 8);
        x[4] -= 8;
      }
      next += (u64)(i64)q;
      break;
    }
    case 0xff: {
      PLAIN; DIGIT;
      if (!is_reg || (digit != 4 && digit != 2)) F("Decode");
      NEXT(1);
      r = x[rm];
      if (digit == 2) {
        uint8_t *to = at(x[4] - 8, 8);
        if (!to) F("Memory");
        memcpy(to, &next, 8);
        x[4] -= 8;
      }
      next = r;
      break;
    }
    case 0x50: case 0x51: case 0x52: case 0x53: case 0x54: case 0x55: case 0x56: case 0x57: case 0x58: case 0x59: case 0x5a: case 0x5b: case 0x5c: case 0x5d: case 0x5e: case 0x5f: {
      PLAIN;
      if (rex & 6) F("Decode");
      NEXT(0);
      u32 to = (op & 7) | (rex & 1) << 3;
      uint8_t *q = at(op < 0x58 ? x[4] - 8 : x[4], 8);
      if (!q) F("Memory");
      if (op < 0x58) { memcpy(q, &x[to], 8); x[4] -= 8; }
      else { memcpy(&r, q, 8); x[4] += 8; x[to] = r; }
      break;
    }
    case 0xc3: {
      if (has_rex) F("Decode");
      NEXT(0);
      uint8_t *q = at(x[4], 8);
      if (!q) F("Memory");
      memcpy(&next, q, 8);
      x[4] += 8;
      break;
    }
    case 0x90:
      if (has_rex) F("Decode");
      NEXT(0);
      break;
    default: F("Decode");
    }
    pc = next;
  }
out:
  return report(fault, k, pc);
}
