// What the frames of a datagram cost: the library's lift_cut beside plain C, a call for each frame, and beside C that writes all in one pass.
// First every frame of every size is compared.
#include "cut.h"

#include <stdbool.h>
#include <stdio.h>
#include <string.h>

#include "../include/lift.h"
#include "timing.h"

enum { MOST = 300, LAPS = 100 };

static uint8_t datagram[2047], frames[MOST * CUT_ROOM], others[MOST * CUT_ROOM], lengths[MOST];
static size_t size = 1280;
static struct cut_link link_of;
static uint64_t numbers[8];
static unsigned count;

static void set(bool udp, bool extended, bool wide, size_t bytes, size_t limit) {
  size = bytes;
  for (size_t i = 40; i < size; i++) datagram[i] = (uint8_t)(7 * i);
  memset(datagram, 0, 40);
  datagram[0] = 0x60;
  datagram[4] = (uint8_t)((size - 40) >> 8);
  datagram[5] = (uint8_t)(size - 40);
  datagram[6] = udp ? 17 : 59;
  datagram[7] = 64;
  datagram[8] = datagram[24] = wide ? 0x20 : 0xfe;
  datagram[9] = datagram[25] = wide ? 0x01 : 0x80;
  datagram[19] = datagram[35] = 0xff;
  datagram[20] = datagram[36] = 0xfe;
  datagram[23] = 1;
  datagram[39] = 2;
  if (size >= 48) memcpy(datagram + 44, datagram + 4, 2);
  link_of = (struct cut_link){0xabcd, {extended ? 2 : 1, 1}, {extended ? 2 : 1, 2}, 5, 7, limit};
  const uint64_t made[8] = {0xabcd, link_of.src.kind, 1, link_of.dst.kind, 2, 5, 7, limit};
  memcpy(numbers, made, sizeof made);
}

// Every answer and byte of the three is the same.
static bool compared(void) {
  int all = pass_cut(datagram, size, &link_of, frames, lengths);
  count = lift_number(lift_frames(datagram, size, numbers, 8));
  for (unsigned k = 0; k <= count; k++) {
    uint8_t a[CUT_ROOM + 1], b[CUT_ROOM + 1];
    memset(a, 0xa5, sizeof a);
    memset(b, 0xa5, sizeof b);
    int x = plain_cut(datagram, size, &link_of, k, a, CUT_ROOM);
    uint32_t y = lift_cut(datagram, size, numbers, 8, (uint16_t)k, b, CUT_ROOM);
    if (x < 0 ? y != 131072u - (uint32_t)x : y != 65536u + (uint32_t)x) return false;
    if (memcmp(a, b, sizeof a) != 0) return false;
    if (k < count && (x != lengths[k] || memcmp(a, frames + CUT_ROOM * k, (size_t)x) != 0)) return false;
  }
  return all == (int)count;
}

static uint64_t run(size_t kind) {
  uint64_t sum = 0;
  for (int lap = 0; lap < LAPS; lap++) {
    if (kind == 2) {
      int n = pass_cut(datagram, size, &link_of, others, lengths);
      for (int k = 0; k < n; k++) sum += lengths[k];
    } else {
      for (unsigned k = 0; k < count; k++)
        sum += kind == 0 ? lift_number(lift_cut(datagram, size, numbers, 8, (uint16_t)k, others + CUT_ROOM * k, CUT_ROOM))
                         : (uint32_t)plain_cut(datagram, size, &link_of, k, others + CUT_ROOM * k, CUT_ROOM);
    }
  }
  return sum;
}

int main(int argc, char **argv) {
  size_t repeats = argc > 1 ? (size_t)atoi(argv[1]) : 201;
  if (repeats > MOST_REPEATS) repeats = MOST_REPEATS;
  size_t kinds = 0;
  for (size_t bytes = 40; bytes <= 2047; bytes++)
    for (int bits = 0; bits < 8; bits++)
      for (size_t limit = 80; limit <= 127; limit += 47, kinds++) {
        set(bits & 1, bits & 2, bits & 4, bytes, limit);
        if (!compared()) return printf("%zu bytes, limit %zu, %d: the three differ\n", bytes, limit, bits), 1;
      }
  printf("%zu datagrams, sizes 40 to 2,047 at 80 and 127: the three write the same frames.\n\n", kinds);
  printf("| 1,280 bytes, limit 127 | frames | the library, ns | plain C | C in one pass | library / plain | library / one pass |\n|---|---|---|---|---|---|---|\n");
  for (int bits = 0; bits < 8; bits++) {
    const size_t pairs[2][2] = {{0, 1}, {0, 2}};
    struct times times[3];
    struct spread spreads[2];
    set(bits & 1, bits & 2, bits & 4, 1280, 127);
    if (!compared() || !measure_all(run, 3, LAPS, repeats, 2, pairs, times, spreads)) return printf("they differ\n"), 1;
    printf("| %s, %s addresses, IPv6 %s | %u |", bits & 1 ? "UDP" : "plain", bits & 2 ? "extended" : "short", bits & 4 ? "in full" : "link-local", count);
    for (int k = 0; k < 3; k++) printf(" %.0f (%.0f) |", times[k].best, times[k].median);
    for (int q = 0; q < 2; q++) printf(" %.2f (%.2f to %.2f) |", spreads[q].half, spreads[q].quarter, spreads[q].three_quarters);
    printf("\n");
  }
  return 0;
}
