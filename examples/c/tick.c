/* tick: what tick.h says of its clock, tried: a wrap, a tick that falls back, a late start. */
#include "tick.h"

#include <stdio.h>

int main(void) {
  static const struct { uint32_t tick; uint64_t time; } told[] = {
    {0xfffffff0u, 0xfffffff0u},    /* starts late */
    {0xfffffff0u, 0xfffffff0u},    /* stands still */
    {0x00000010u, 0x100000010u},   /* wraps */
    {0x0000000fu, 0x100000010u},   /* falls back by 1 ms: the time stays */
    {0x7fffffffu, 0x17fffffffu},   /* 24 days later */
    {0xf0000000u, 0x1f0000000u},
    {0x00000000u, 0x200000000u},   /* wraps again */
  };
  tick_clock clock = {0, 0};
  for (unsigned i = 0; i < sizeof told / sizeof told[0]; i++) {
    uint64_t time = tick_time(&clock, told[i].tick);
    if (time != told[i].time) {
      printf("not so: tick %08lx is %llx\n", (unsigned long)told[i].tick, (unsigned long long)time);
      return 1;
    }
  }
  printf("tick: as tick.h says\n");
  return 0;
}
