// What the interpreters share: the parts of the memory, and the code from a file of hexadecimal digits.
#include <stdint.h>
#include <stdio.h>
#include <stdlib.h>
#include <string.h>

typedef uint64_t u64;
typedef int64_t i64;
typedef uint32_t u32;
typedef int32_t i32;

#define CODE 0x10000000ull
#define STOP 0x0fe00000ull
#define TRASH 0x5a5a5a5a5a5a5a5aull

static uint8_t *code, *data, *args, *heap, *stack;
static u64 ncode, ndata = 65536, nargs = 18;

// the bytes of an access of w bytes, and 0 where not all lie in one part
static inline uint8_t *at(u64 a, u64 w) {
  if (a - 0x20000000 <= ndata - w) return data + (a - 0x20000000);
  if (a - 0x3ff00000 <= 0x100000 - w) return stack + (a - 0x3ff00000);
  if (a - 0x30000000 <= 0x400000 - w) return heap + (a - 0x30000000);
  if (a - 0x28000000 <= nargs - w) return args + (a - 0x28000000);
  return 0;
}

static void load_code(const char *file) {
  FILE *f = fopen(file, "r");
  unsigned b;
  code = calloc(1, 1 << 20);
  while (f && fscanf(f, "%2x", &b) == 1) code[ncode++] = b;
  data = calloc(1, ndata);
  args = calloc(1, nargs);
  heap = calloc(1, 4 << 20);
  stack = calloc(1, 1 << 20);
  // the one word `-`
  args[0] = 16;
  args[3] = 0x28;
  args[16] = '-';
}

static int report(const char *fault, u64 steps, u64 pc) {
  printf("%s steps=%llu pc=%llx\n", fault ? fault : pc == STOP ? "Ended" : "Went", (unsigned long long)steps, (unsigned long long)pc);
  return 0;
}

#define F(s) do { fault = s; goto out; } while (0)
