/* drawn FILE: makes the calls that FILE has (drawn.py writes it and says how) over the library, and prints a line for each.
 *
 * A line: the answer as a number, the bytes of a datagram in hexadecimal, how many slots are free, and how many each address of the
 * last list of gateways holds. `wrote` at its end: the call wrote a lent byte that it must not (of out beyond the datagram or without one,
 * of mem with a refusal other than 17, beside either). On a bare machine the last line is the deepest stack that each call took, in bytes. */
#include "../include/lift.h"

#include <stdio.h>
#include <string.h>

enum { MEM = 16400, OUT = 2056, GUARD = 32, NUMBERS = 32, WRONG_SUM = 17 };
static lift_table table;
static struct { uint32_t mem[MEM / 4 + GUARD], out[OUT / 4 + GUARD]; } lent, was;
static uint64_t numbers[NUMBERS];
static unsigned gateways;

static uint8_t buffer[4096];
static size_t have, at;
static int more(FILE *file) { /* one more byte, or -1 */
  if (at == have) {
    have = fread(buffer, 1, sizeof buffer, file);
    at = 0;
    if (have == 0) return -1;
  }
  return buffer[at++];
}
static uint64_t number(FILE *file, int bytes) { /* the lowest byte first */
  uint64_t n = 0;
  for (int i = 0; i < bytes; i++) n = n >> 8 | (uint64_t)(uint8_t)more(file) << 56;
  for (int i = bytes; i < 8; i++) n >>= 8;
  return n;
}

/* The stack below a call, filled with one word before it; what has another afterwards was used. */
enum { DEEP = 16384, FILL = 0x5a5a5a5a };
#ifdef __arm__
static uint32_t *stack_below(void) {
  uint32_t *sp;
  __asm__ volatile("mov %0, sp" : "=r"(sp));
  return sp;
}
#define PAINT() uint32_t *below = stack_below(); for (int i = 1; i <= DEEP / 4; i++) ((volatile uint32_t *)below)[-i] = FILL
#define DEPTH(most) \
  for (int i = DEEP / 4; i > (int)((most) / 4); i--) \
    if (((volatile uint32_t *)below)[-i] != FILL) { (most) = 4u * (unsigned)i; break; }
#else
#define PAINT() (void)0
#define DEPTH(most) (void)(most)
#endif
static unsigned begin_stack, receive_stack, free_stack, held_stack;

static int same(const uint32_t *a, const uint32_t *b, size_t bytes) {
  for (size_t i = 0; i < bytes / 4; i++)
    if (a[i] != b[i]) return 0;
  return 1;
}
static void copy(uint32_t *to, const uint32_t *from, size_t bytes) {
  for (size_t i = 0; i < bytes / 4; i++) to[i] = from[i];
}

static void begin(FILE *file) {
  unsigned n = (unsigned)number(file, 1);
  for (unsigned i = 0; i < n; i++) numbers[i] = number(file, 8);
  memset(&table, 0, sizeof table);
  memset(&lent, 0, sizeof lent);
  PAINT();
  uint32_t answer = lift_begin_flat(&table, numbers, n);
  DEPTH(begin_stack);
  gateways = answer ? 0 : n / 2;
  printf("%u\n", (unsigned)answer);
}

static void hexadecimal(const uint8_t *bytes, size_t n) {
  static char text[2 * OUT + 1];
  for (size_t i = 0; i < n; i++) {
    text[2 * i] = "0123456789abcdef"[bytes[i] >> 4];
    text[2 * i + 1] = "0123456789abcdef"[bytes[i] & 15];
  }
  text[2 * n] = 0;
  printf(" %s", text);
}

static void receive(FILE *file) {
  static uint8_t frame[512], contexts[512];
  uint64_t time = number(file, 8);
  size_t frame_len = (size_t)number(file, 2), contexts_len = (size_t)number(file, 2);
  size_t mem_len = (size_t)number(file, 2), out_len = (size_t)number(file, 2);
  for (size_t i = 0; i < frame_len; i++) frame[i] = (uint8_t)more(file);
  for (size_t i = 0; i < contexts_len; i++) contexts[i] = (uint8_t)more(file);
  uint8_t *mem = (uint8_t *)lent.mem, *out = (uint8_t *)lent.out;
  uint32_t answer;
  {
    PAINT();
    answer = lift_receive(&table, time, frame, frame_len, contexts, contexts_len, mem, mem_len, out, out_len);
    DEPTH(receive_stack);
  }
  size_t size = lift_kind(answer) == LIFT_OUT ? lift_number(answer) : 0;
  printf("%u", (unsigned)answer);
  if (size) hexadecimal(out, size);
  {
    PAINT();
    unsigned n = (unsigned)lift_free(&table);
    DEPTH(free_stack);
    printf(" %u", n);
  }
  for (unsigned i = 0; i < gateways; i++) {
    PAINT();
    unsigned n = (unsigned)lift_held(&table, numbers[2 * i], numbers[2 * i + 1]);
    DEPTH(held_stack);
    printf(" %u", n);
  }
  /* what the call may not have written is as it was: out behind the datagram, mem with a refusal other than 17, and beside both */
  memcpy(was.out, lent.out, size);
  int wrote = !same(was.out, lent.out, sizeof lent.out);
  if (lift_kind(answer) == LIFT_REFUSED && lift_number(answer) != WRONG_SUM) wrote |= !same(was.mem, lent.mem, sizeof lent.mem);
  else wrote |= !same(was.mem + MEM / 4, lent.mem + MEM / 4, 4 * GUARD);
  copy(was.mem, lent.mem, sizeof lent.mem);
  printf("%s\n", wrote ? " wrote" : "");
}

int main(int argc, char **argv) {
  FILE *file = argc == 2 ? fopen(argv[1], "rb") : NULL;
  if (!file) {
    fprintf(stderr, "usage: drawn FILE\n");
    return 2;
  }
  for (int kind; (kind = more(file)) != -1;) {
    if (kind == 'g') begin(file);
    else if (kind == 'c') receive(file);
    else {
      fprintf(stderr, "drawn: a record of no kind\n");
      return 1;
    }
    if (kind == 'g') memcpy(&was, &lent, sizeof lent);
  }
  fclose(file);
#ifdef __arm__
  printf("stack lift_begin_flat %u lift_receive %u lift_free %u lift_held %u\n", begin_stack, receive_stack, free_stack, held_stack);
#endif
  return 0;
}
