/* layout: checks at run time, against the library itself, what include/lift.h says of its calls: the table's size and
 * alignment, that nothing past an end is written, what a refusal leaves as it was, and the numbers that cross. */
#include "../../include/lift.h"

#include <stdio.h>
#include <string.h>

static int failures;
static void expect(int holds, const char *what) {
  if (!holds) {
    printf("not so: %s\n", what);
    failures++;
  }
}

/* the table as the crate `reassembly` declares it, #[repr(C)] */
struct node { uint64_t kind, number; };
struct source { struct node node; uint64_t pan; };
struct key { struct source src; struct node dst; uint16_t size, tag; };
struct udp_sum { uint16_t kind, ip, udp; };
struct slot { struct key key; uint64_t since, covered[4], starts[4], live; struct udp_sum sum; };
struct inside { struct slot slots[8]; uint64_t last; struct source gateways[4]; };
_Static_assert(sizeof(struct inside) == sizeof(lift_table), "size");
_Static_assert(_Alignof(struct inside) == _Alignof(lift_table), "alignment");

static struct { uint64_t before[8]; lift_table t; uint64_t after[8]; } guarded;
static struct { uint8_t before[64], mem[LIFT_MEM_BYTES], between[64], out[LIFT_OUT_BYTES], after[64]; } lent, was;

int main(void) {
  memset(guarded.before, 0xa5, sizeof guarded.before);
  memset(guarded.after, 0xa5, sizeof guarded.after);
  memset(&lent, 0x5a, sizeof lent);
  memcpy(&was, &lent, sizeof lent);
  lift_table *t = &guarded.t;
  struct inside seen;

  const uint64_t in = LIFT_IN(LIFT_SHORT, 0xabcd);
  const lift_gateway four[] = {{in, 0x0001}, {LIFT_SHORT, 0x0001}, {LIFT_EXTENDED, 0x0011223344556677}, {LIFT_IN(LIFT_SHORT, 0xffff), 0xfffe}};
  const lift_gateway wide[] = {{LIFT_SHORT, 0x10001}}, far[] = {{LIFT_IN(LIFT_SHORT, 0x10000), 0x0001}}, twice[] = {{in, 1}, {in, 1}};
  const uint64_t none = 0;
  expect(lift_begin(t, four, 4) == 0, "four gateways are taken");
  memcpy(&seen, t, sizeof seen);
  expect(seen.gateways[0].node.kind == 1 && seen.gateways[0].node.number == 1 && seen.gateways[0].pan == 0xabce, "the first gateway stands in its place");
  expect(seen.gateways[2].node.kind == 2 && seen.gateways[2].node.number == 0x0011223344556677 && seen.gateways[2].pan == 0, "the third gateway stands in its place");
  expect(t->words[147] == 0xfffe && t->words[148] == 0x10000, "the last words of the table are the last gateway's address and PAN");
  expect(t->words[136] == 0, "the last time stands after eight slots of 136 bytes");

  lift_table kept = *t;
  expect(lift_begin_flat(t, &four->kind, 7) == 14 && lift_begin(t, wide, 1) == 14 && lift_begin(t, far, 1) == 14 && lift_begin(t, twice, 2) == 14 && !memcmp(t, &kept, sizeof kept), "a refused list leaves the table as it was");
  expect(lift_free(t) == 8 && lift_held(t, in, 1) == 0, "all slots are free");

  /* a first part of 56 bytes, from gateway 0001 */
  const uint8_t part[] = {0x41, 0x88, 0x00, 0xcd, 0xab, 0xcd, 0xab, 0x01, 0x00, 0xc0, 0x88, 0x00, 0x08, 0x7e, 0x33, 0xf3, 0x12, 0x38, 0x94, 0x50, 0x41, 0x54, 0x43, 0x48, 0x20, 0x32, 0x30};
  expect(lift_receive(t, 1000, part, sizeof part, (const uint8_t *)&none, 0, lent.mem, sizeof lent.mem - 1, lent.out, sizeof lent.out) == (LIFT_REFUSED << 16 | 7), "too little memory is refused, 7");
  expect(lift_receive(t, 1000, part, sizeof part, (const uint8_t *)&none, 0, lent.mem, sizeof lent.mem, lent.out, sizeof lent.out - 1) == (LIFT_REFUSED << 16 | 7), "too little room is refused, 7");
  expect(!memcmp(t, &kept, sizeof kept), "and takes no time");
  expect(lift_receive(t, 1000, part, 8, (const uint8_t *)&none, 0, lent.mem, sizeof lent.mem, lent.out, sizeof lent.out) == (LIFT_REFUSED << 16 | 1), "a frame that is cut short is refused, 1");
  expect(!memcmp(&lent, &was, sizeof was), "a refusal writes no lent byte");
  expect(t->words[136] == 1000, "and takes the time");
  expect(lift_receive(t, 2000, part, sizeof part, (const uint8_t *)&none, 0, lent.mem, sizeof lent.mem, lent.out, sizeof lent.out) == LIFT_KEPT << 16, "a part is kept");
  expect(lift_free(t) == 7 && lift_held(t, in, 1) == 1 && lift_held(t, LIFT_SHORT, 1) == 0, "its gateway holds a slot");
  expect(!memcmp(lent.mem + 56, was.mem + 56, sizeof lent.mem - 56) && lent.mem[0] == 0x60, "its 56 bytes stand at the start of slot 0, and no other byte is written");
  expect(!memcmp(lent.out, was.out, sizeof lent.out), "a kept part leaves the output as it was");
  expect(lift_receive(t, 1999, part, sizeof part, (const uint8_t *)&none, 0, lent.mem, sizeof lent.mem, lent.out, sizeof lent.out) == (LIFT_REFUSED << 16 | 8), "an earlier time is refused, 8");
  expect(lift_receive(t, 62000, part, 8, (const uint8_t *)&none, 0, lent.mem, sizeof lent.mem, lent.out, sizeof lent.out) == (LIFT_REFUSED << 16 | 1) && lift_free(t) == 8, "a slot is gone after 60,000 ms");

  for (int i = 0; i < 8; i++) expect(guarded.before[i] == 0xa5a5a5a5a5a5a5a5 && guarded.after[i] == 0xa5a5a5a5a5a5a5a5, "nothing beside the table is written");
  expect(!memcmp(lent.before, was.before, 64) && !memcmp(lent.between, was.between, 64) && !memcmp(lent.after, was.after, 64), "nothing beside what is lent is written");
  if (failures) return 1;
  printf("layout: %zu bytes, aligned to %zu\n", sizeof(lift_table), _Alignof(lift_table));
  return 0;
}
