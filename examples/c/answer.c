/* answer: a controller that answers with datagrams of its own. Each is cut into frames, the frames go to the table of another
 * controller, the last one first, and what comes out there must be the datagram, to the byte.
 *
 * This is an example: the frames go from one array to the other and not over a radio. */
#include "../../include/lift.h"

#include <stdio.h>
#include <string.h>

static uint8_t datagram[LIFT_OUT_BYTES];

/* The other controller. */
static lift_table table;
static uint8_t mem[LIFT_MEM_BYTES];
static uint8_t out[LIFT_OUT_BYTES];
static const uint8_t no_contexts[1];

/* Our addresses, and the PAN of both controllers. */
static const lift_gateway ours = {LIFT_SHORT, 0x0001}, ours_extended = {LIFT_EXTENDED, 0x0011223344556677};
#define PAN 0xabcd

/* UDP from fe80::ff:fe00:1 to fe80::ff:fe00:2, of `size` bytes in all, with its checksum (RFC 768, RFC 8200 8.1). */
static void write_datagram(size_t size) {
  size_t payload = size - 40;
  uint32_t sum = (uint32_t)payload + 17;
  memset(datagram, 0, 48);
  datagram[0] = 0x60;
  datagram[4] = datagram[44] = (uint8_t)(payload >> 8);
  datagram[5] = datagram[45] = (uint8_t)payload;
  datagram[6] = 17;
  datagram[7] = 64;
  datagram[8] = datagram[24] = 0xfe;
  datagram[9] = datagram[25] = 0x80;
  datagram[19] = datagram[35] = 0xff;
  datagram[20] = datagram[36] = 0xfe;
  datagram[23] = 1;
  datagram[39] = 2;
  datagram[40] = datagram[42] = 0xf0;
  datagram[41] = 0xb1;
  datagram[43] = 0xb2;
  for (size_t i = 48; i < size; i++) datagram[i] = (uint8_t)(7 * i);
  for (size_t i = 8; i < size; i++) sum += i % 2 ? datagram[i] : (uint32_t)datagram[i] << 8;
  while (sum >> 16) sum = (sum & 0xffff) + (sum >> 16);
  sum = sum == 0xffff ? 0xffff : 0xffff - sum;
  datagram[46] = (uint8_t)(sum >> 8);
  datagram[47] = (uint8_t)sum;
}

/* Sends a datagram of `size` bytes from the address `from` in frames of at most `limit` bytes, and says how it went. */
static int answer(size_t size, lift_gateway from, uint64_t tag, uint64_t limit) {
  const lift_gateway listed = {LIFT_IN(from.kind, PAN), from.value};
  const uint64_t link[LIFT_LINK_NUMBERS] = {PAN, from.kind, from.value, LIFT_SHORT, 0x0002, 5, tag, limit};
  write_datagram(size);
  memset(&table, 0, sizeof table);
  if (lift_begin(&table, &listed, 1) != 0) return 1;
  uint32_t count = lift_frames(datagram, size, link, LIFT_LINK_NUMBERS), last = 0;
  if (lift_kind(count) != LIFT_OUT) return 1;
  printf("%u bytes, at most %u: %u frames", (unsigned)size, (unsigned)limit, (unsigned)lift_number(count));
  for (uint32_t k = lift_number(count); k > 0; k--) {
    uint8_t frame[LIFT_FRAME_BYTES];
    uint32_t written = lift_cut(datagram, size, link, LIFT_LINK_NUMBERS, (uint16_t)(k - 1), frame, sizeof frame);
    if (lift_kind(written) != LIFT_OUT) return 1;
    printf(" %u", (unsigned)lift_number(written));
    last = lift_receive(&table, 0, frame, lift_number(written), no_contexts, 0, mem, sizeof mem, out, sizeof out);
    if (k > 1 && lift_kind(last) != LIFT_KEPT) return 1;
  }
  if (lift_kind(last) != LIFT_OUT || lift_number(last) != size || memcmp(out, datagram, size) != 0) return 1;
  printf("; out %u, the same bytes\n", (unsigned)size);
  return 0;
}

int main(void) {
  const uint64_t nobody[LIFT_LINK_NUMBERS] = {PAN, 0, 0, LIFT_SHORT, 0x0002, 5, 1, 127};
  if (answer(60, ours, 1, 127) || answer(257, ours, 2, 127) || answer(1280, ours, 3, 127) || answer(1280, ours_extended, 4, 80) ||
      answer(2047, ours_extended, 5, 81)) {
    printf("; not so\n");
    return 1;
  }
  uint32_t refused = lift_frames(datagram, 2047, nobody, LIFT_LINK_NUMBERS);
  printf("from nobody: no %u\n", lift_kind(refused) == LIFT_REFUSED ? (unsigned)lift_number(refused) : 0);
  datagram[0] = 0x45;
  const uint64_t link[LIFT_LINK_NUMBERS] = {PAN, LIFT_SHORT, 0x0001, LIFT_SHORT, 0x0002, 5, 6, 127};
  refused = lift_frames(datagram, 2047, link, LIFT_LINK_NUMBERS);
  printf("IPv4: no %u\n", lift_kind(refused) == LIFT_REFUSED ? (unsigned)lift_number(refused) : 0);
  return 0;
}
