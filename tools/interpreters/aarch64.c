// A plain interpreter of the AArch64 instructions of lg_a64, to time the model against: it decodes each instruction anew and makes the same checks.
// usage: aarch64 HEXFILE STEPS
#include "machine.h"

static int n, z, c, v;

static inline u64 add_flags(u64 a, u64 b, u64 carry, int set) {
  unsigned __int128 s = (unsigned __int128)a + b + carry;
  u64 r = s;
  if (set) {
    n = r >> 63; z = r == 0; c = s >> 64; v = (~(a ^ b) & (a ^ r)) >> 63;
  }
  return r;
}

static inline int holds(u32 cond) {
  switch (cond) {
  case 0: return z;
  case 1: return !z;
  case 2: return c;
  case 3: return !c;
  case 4: return n;
  case 5: return !n;
  case 6: return v;
  case 7: return !v;
  case 8: return c && !z;
  case 9: return !(c && !z);
  case 10: return n == v;
  case 11: return n != v;
  case 12: return !z && n == v;
  default: return !(!z && n == v);
  }
}

static inline u64 field(u64 a, u32 r, u32 s, int is_signed) {
  u32 count = r <= s ? s - r + 1 : s + 1;
  u64 f = (r <= s ? a >> r : a) << (64 - count);
  f = is_signed ? (u64)((i64)f >> (64 - count)) : f >> (64 - count);
  return r <= s ? f : f << (64 - r);
}

static inline u64 rev16(u64 a) { return (a & 0x00ff00ff00ff00ffull) << 8 | (a >> 8 & 0x00ff00ff00ff00ffull); }

int main(int argc, char **argv) {
  load_code(argv[1]);
  u64 most = strtoull(argv[2], 0, 10), k = 0, pc = CODE, x[32];
  const char *fault = 0;
  for (int i = 0; i < 32; i++) x[i] = TRASH;
  x[0] = 1; x[1] = 0x28000000; x[30] = STOP; x[31] = 0x40000000;
  n = 1; c = 1;
  for (; k < most; k++) {
    if (pc == STOP) break;
    if (pc & 3) F("Align");
    u64 o = pc - CODE;
    if (o >= ncode) F("Fetch");
    if (o + 4 > ncode) F("Decode");
    u32 w;
    memcpy(&w, code + o, 4);
    u32 d = w & 31, rn = w >> 5 & 31, rm = w >> 16 & 31, ra = w >> 10 & 31, sort = w >> 21 & 7, low = w >> 10 & 63;
    u64 np = pc + 4, a = rn == 31 ? 0 : x[rn], b = rm == 31 ? 0 : x[rm], r;
    switch (w >> 24) {
    case 0x8b: case 0xab: case 0xcb: case 0xeb:
      if (sort || low) F("Decode");
      r = w >> 30 & 1 ? add_flags(a, ~b, 1, w >> 29 & 1) : add_flags(a, b, 0, w >> 29 & 1);
      break;
    case 0x91: case 0xb1: case 0xd1: case 0xf1: {
      if (w >> 23 & 1) F("Decode");
      u64 i = (u64)(w >> 10 & 0xfff) << (w >> 22 & 1 ? 12 : 0);
      r = w >> 30 & 1 ? add_flags(x[rn], ~i, 1, w >> 29 & 1) : add_flags(x[rn], i, 0, w >> 29 & 1);
      if (!(w >> 29 & 1)) { x[d] = r; pc = np; continue; }
      break;
    }
    case 0x9a: case 0xba: case 0xda: case 0xfa:
      if (sort == 0 && !low) {
        r = w >> 30 & 1 ? add_flags(a, ~b, c, w >> 29 & 1) : add_flags(a, b, c, w >> 29 & 1);
      } else if (w >> 24 == 0x9a && sort == 4 && low % 4 == 1 && low >> 2 < 14) {
        r = holds(low >> 2) ? a : b + 1;
      } else if (w >> 24 == 0x9a && sort == 6) {
        switch (low) {
        case 2: r = b ? a / b : 0; break;
        case 3: r = b == 0 ? 0 : b == ~0ull ? 0 - a : (u64)((i64)a / (i64)b); break;
        case 8: r = a << (b & 63); break;
        case 9: r = a >> (b & 63); break;
        case 10: r = (i64)a >> (b & 63); break;
        default: F("Decode");
        }
      } else if (w >> 24 == 0xda && sort == 6 && rm == 0) {
        switch (low) {
        case 3: r = __builtin_bswap64(a); break;
        case 2: r = (u64)__builtin_bswap32(a) | (u64)__builtin_bswap32(a >> 32) << 32; break;
        case 1: r = rev16(a); break;
        default: F("Decode");
        }
      } else F("Decode");
      break;
    case 0x8a: case 0xaa: case 0xca: case 0xea:
      if (low) F("Decode");
      if (sort == 1 && w >> 24 == 0xaa) { r = a | ~b; break; }
      if (sort) F("Decode");
      switch (w >> 29 & 3) {
      case 0: r = a & b; break;
      case 1: r = a | b; break;
      case 2: r = a ^ b; break;
      default: r = a & b; n = r >> 63; z = r == 0; c = 0; v = 0; break;
      }
      break;
    case 0xd2: case 0x92: case 0xf2: {
      if (!(w >> 23 & 1)) F("Decode");
      u64 s = (w >> 21 & 3) * 16, i = (u64)(w >> 5 & 0xffff) << s, old = d == 31 ? 0 : x[d];
      r = w >> 24 == 0xd2 ? i : w >> 24 == 0x92 ? ~i : (old & ~(0xffffull << s)) | i;
      break;
    }
    case 0x9b:
      if (sort == 0) {
        u64 e = ra == 31 ? 0 : x[ra];
        r = w >> 15 & 1 ? e - a * b : e + a * b;
      } else if (sort == 2 && low == 31) r = (__int128)(i64)a * (i64)b >> 64;
      else if (sort == 6 && low == 31) r = (unsigned __int128)a * b >> 64;
      else F("Decode");
      break;
    case 0x93: case 0xd3:
      if ((w >> 22 & 3) != 1) F("Decode");
      r = field(a, w >> 16 & 63, low, w >> 24 == 0x93);
      break;
    case 0xf9: case 0xb9: case 0x79: case 0x39: {
      u32 size = w >> 30, kind = w >> 22 & 3;
      if (kind == 3 || (kind == 2 && size == 3)) F("Decode");
      u64 width = 1ull << size, p = x[rn] + (u64)(w >> 10 & 0xfff) * width, l = 0;
      uint8_t *q = at(p, width);
      if (!q) F("Memory");
      if (kind == 0) { l = d == 31 ? 0 : x[d]; memcpy(q, &l, width); pc = np; continue; }
      memcpy(&l, q, width);
      r = kind == 1 ? l : size == 2 ? (u64)(i64)(i32)l : size == 1 ? (u64)(i64)(int16_t)l : (u64)(i64)(int8_t)l;
      break;
    }
    case 0xf8: {
      u64 p, l = 0;
      if (sort == 3 && low == 26) p = x[rn] + b;
      else if ((sort == 2 || sort == 0) && low % 4 == 0) p = x[rn] + (u64)((i64)(i32)(w << 11) >> 23);
      else if ((w >> 21 & 5) == 0 && low % 4 == 0) p = x[rn] + (u64)((i64)(i32)(w << 11) >> 23);
      else F("Decode");
      uint8_t *q = at(p, 8);
      if (!q) F("Memory");
      if (!(w >> 22 & 1)) { l = d == 31 ? 0 : x[d]; memcpy(q, &l, 8); pc = np; continue; }
      memcpy(&l, q, 8);
      r = l;
      break;
    }
    case 0x54:
      if (w >> 4 & 1 || (w & 15) > 13) F("Decode");
      pc = holds(w & 15) ? pc + (u64)((i64)(i32)(w << 8) >> 13) * 4 : np;
      continue;
    case 0x14: case 0x15: case 0x16: case 0x17:
      pc += (u64)((i64)(i32)(w << 6) >> 6) * 4;
      continue;
    case 0x94: case 0x95: case 0x96: case 0x97:
      x[30] = np;
      pc += (u64)((i64)(i32)(w << 6) >> 6) * 4;
      continue;
    case 0xd6:
      if ((w & 0xffdffc1f) == 0xd61f0000 && sort != 3) { if (sort == 1) x[30] = np; pc = a; continue; }
      if ((w & 0xfffffc1f) == 0xd65f0000) { pc = a; continue; }
      F("Decode");
    case 0xd5:
      if (w != 0xd503201f) F("Decode");
      pc = np;
      continue;
    default: F("Decode");
    }
    if (d != 31) x[d] = r;
    pc = np;
  }
out:
  return report(fault, k, pc);
}
