// A plain interpreter of the RV64IM instructions of lg_rv, to time the model against: it decodes each instruction anew and makes the same checks.
// usage: riscv64 HEXFILE STEPS
#include "machine.h"

static inline u64 low(u64 a) { return (u64)(i64)(i32)a; }

int main(int argc, char **argv) {
  load_code(argv[1]);
  u64 most = strtoull(argv[2], 0, 10), k = 0, pc = CODE, x[32];
  const char *fault = 0;
  for (int i = 0; i < 32; i++) x[i] = TRASH;
  x[0] = 0; x[1] = STOP; x[2] = 0x40000000; x[10] = 1; x[11] = 0x28000000;
  for (; k < most; k++) {
    if (pc == STOP) break;
    if (pc & 3) F("Align");
    u64 o = pc - CODE;
    if (o >= ncode) F("Fetch");
    if (o + 4 > ncode) F("Decode");
    u32 w;
    memcpy(&w, code + o, 4);
    u32 rd = w >> 7 & 31, f3 = w >> 12 & 7, rs1 = w >> 15 & 31, rs2 = w >> 20 & 31, f7 = w >> 25;
    u64 im = (u64)(i64)((i32)w >> 20), a = x[rs1], d = x[rs2], r, np = pc + 4;
    switch (w & 127) {
    case 0x37: r = (u64)(i64)(i32)(w & 0xfffff000); break;
    case 0x17: r = pc + (u64)(i64)(i32)(w & 0xfffff000); break;
    case 0x6f: {
      u64 t = (u64)((i64)((i32)w >> 31) * (1 << 20)) | (w & 0xff000) | (w >> 9 & 0x800) | (w >> 20 & 0x7fe);
      r = np; np = pc + t;
      if (np & 3) F("Align");
      break;
    }
    case 0x67:
      if (f3) F("Decode");
      r = np; np = (a + im) & ~1ull;
      if (np & 3) F("Align");
      break;
    case 0x63: {
      int t;
      switch (f3) {
      case 0: t = a == d; break;
      case 1: t = a != d; break;
      case 4: t = (i64)a < (i64)d; break;
      case 5: t = (i64)a >= (i64)d; break;
      case 6: t = a < d; break;
      case 7: t = a >= d; break;
      default: F("Decode");
      }
      if (t) {
        np = pc + ((u64)((i64)((i32)w >> 31) * 4096) | (w << 4 & 0x800) | (w >> 20 & 0x7e0) | (w >> 7 & 0x1e));
        if (np & 3) F("Align");
      }
      pc = np;
      continue;
    }
    case 0x03: {
      if (f3 == 7) F("Decode");
      u64 p = a + im, size = 1ull << (f3 & 3), l = 0;
      if (p & (size - 1)) F("Align");
      uint8_t *q = at(p, size);
      if (!q) F("Memory");
      memcpy(&l, q, size);
      r = f3 == 0 ? (u64)(i64)(int8_t)l : f3 == 1 ? (u64)(i64)(int16_t)l : f3 == 2 ? low(l) : l;
      break;
    }
    case 0x23: {
      if (f3 > 3) F("Decode");
      u64 p = a + ((u64)((i64)((i32)w >> 25) * 32) | rd), size = 1ull << f3;
      if (p & (size - 1)) F("Align");
      uint8_t *q = at(p, size);
      if (!q) F("Memory");
      memcpy(q, &d, size);
      pc = np;
      continue;
    }
    case 0x13:
      switch (f3) {
      case 0: r = a + im; break;
      case 1: if (w >> 26) F("Decode"); r = a << (w >> 20 & 63); break;
      case 2: r = (i64)a < (i64)im; break;
      case 3: r = a < im; break;
      case 4: r = a ^ im; break;
      case 5: if (w >> 26 == 0) r = a >> (w >> 20 & 63); else if (w >> 26 == 16) r = (u64)((i64)a >> (w >> 20 & 63)); else F("Decode"); break;
      case 6: r = a | im; break;
      default: r = a & im; break;
      }
      break;
    case 0x1b:
      switch (f3) {
      case 0: r = low(a + im); break;
      case 1: if (f7) F("Decode"); r = low(a << rs2); break;
      case 5: if (f7 == 0) r = low((u32)a >> rs2); else if (f7 == 32) r = (u64)(i64)((i32)a >> rs2); else F("Decode"); break;
      default: F("Decode");
      }
      break;
    case 0x33:
      if (f7 == 0) switch (f3) {
        case 0: r = a + d; break;
        case 1: r = a << (d & 63); break;
        case 2: r = (i64)a < (i64)d; break;
        case 3: r = a < d; break;
        case 4: r = a ^ d; break;
        case 5: r = a >> (d & 63); break;
        case 6: r = a | d; break;
        default: r = a & d; break;
        }
      else if (f7 == 32 && f3 == 0) r = a - d;
      else if (f7 == 32 && f3 == 5) r = (u64)((i64)a >> (d & 63));
      else if (f7 == 1) switch (f3) {
        case 0: r = a * d; break;
        case 1: r = (u64)((__int128)(i64)a * (i64)d >> 64); break;
        case 2: r = (u64)(((__int128)(i64)a * (__int128)d) >> 64); break;
        case 3: r = (u64)((unsigned __int128)a * d >> 64); break;
        case 4: r = d == 0 ? ~0ull : d == ~0ull ? 0 - a : (u64)((i64)a / (i64)d); break;
        case 5: r = d ? a / d : ~0ull; break;
        case 6: r = d == 0 ? a : d == ~0ull ? 0 : (u64)((i64)a % (i64)d); break;
        default: r = d ? a % d : a; break;
        }
      else F("Decode");
      break;
    case 0x3b: {
      u32 e = a, g = d;
      if (f7 == 0 && f3 == 0) r = low(a + d);
      else if (f7 == 32 && f3 == 0) r = low(a - d);
      else if (f7 == 0 && f3 == 1) r = low((u64)(e << (d & 31)));
      else if (f7 == 0 && f3 == 5) r = low(e >> (d & 31));
      else if (f7 == 32 && f3 == 5) r = (u64)(i64)((i32)e >> (d & 31));
      else if (f7 == 1) switch (f3) {
        case 0: r = low(a * d); break;
        case 4: r = g == 0 ? ~0ull : g == ~0u ? low(0 - e) : low((u32)((i32)e / (i32)g)); break;
        case 5: r = g ? low(e / g) : ~0ull; break;
        case 6: r = g == 0 ? low(e) : g == ~0u ? 0 : low((u32)((i32)e % (i32)g)); break;
        case 7: r = g ? low(e % g) : low(e); break;
        default: F("Decode");
        }
      else F("Decode");
      break;
    }
    default: F("Decode");
    }
    if (rd) x[rd] = r;
    pc = np;
  }
out:
  return report(fault, k, pc);
}
