/* hear CAPTURE: puts together the datagrams of a capture (examples/README.md has its layout) and says what each frame came
 * to, a line for each, as the program `heard` does. The gateways are the short addresses 0001 to 0004 in PAN abcd.
 *
 * This is an example: it takes a capture's blocks as they are, and does not look at their frame check. */
#include "../../include/lift.h"

#include <stdio.h>

/* All that a receiver needs, with no heap: 1,192 bytes of table, zero at first, 16 KiB for parts, and room for a datagram. */
static lift_table table;
static uint8_t mem[LIFT_MEM_BYTES];
static uint8_t out[LIFT_OUT_BYTES];

#define IN_ABCD LIFT_IN(LIFT_SHORT, 0xabcd)
static const lift_gateway gateways[] = {{IN_ABCD, 0x0001}, {IN_ABCD, 0x0002}, {IN_ABCD, 0x0003}, {IN_ABCD, 0x0004}};

int main(int argc, char **argv) {
  FILE *file = argc == 2 ? fopen(argv[1], "rb") : NULL;
  if (!file) {
    fprintf(stderr, "usage: hear CAPTURE\n");
    return 2;
  }
  uint32_t refused = lift_begin(&table, gateways, sizeof gateways / sizeof gateways[0]);
  if (refused) {
    fprintf(stderr, "gateways: no %u\n", (unsigned)refused);
    return 1;
  }
  uint8_t block[512];
  unsigned n = 0;
  while (fread(block, 1, sizeof block, file) == sizeof block) {
    for (unsigned k = 0; k < block[4] && k < 3; k++) {
      const uint8_t *place = block + 6 + 132 * k;
      if (place[4] > 127) {
        fprintf(stderr, "hear: no capture: a frame of %u bytes\n", place[4]);
        return 1;
      }
      uint64_t time = place[0] | place[1] << 8 | place[2] << 16 | (uint64_t)place[3] << 24;
      uint32_t answer = lift_receive(&table, time, place + 5, place[4], LIFT_NONE, 0, mem, sizeof mem, out, sizeof out);
      n++;
      switch (lift_kind(answer)) {
        case LIFT_KEPT:
          printf("%u kept\n", n);
          break;
        case LIFT_OUT: /* the datagram is out[0 .. lift_number(answer) - 1] */
          printf("%u out %u\n", n, (unsigned)lift_number(answer));
          break;
        default:
          printf("%u no %u\n", n, (unsigned)lift_number(answer)); /* lift_reason has words for it */
      }
    }
  }
  printf("end %u\n", n);
  fclose(file);
  return 0;
}
