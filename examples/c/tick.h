/* A clock of 64 bits from a tick of 32 that wraps, for lift_receive's time. */
#ifndef TICK_H
#define TICK_H

#include <stdint.h>

/* All zero at first. */
typedef struct tick_clock {
  uint64_t now;
  int begun;
} tick_clock;

/* The time of a tick in milliseconds. Call it at least once in 24 days, and never from two places at once. A tick that is a
 * little behind the last one counts as the last one: the time never falls. */
static inline uint64_t tick_time(tick_clock *c, uint32_t tick) {
  uint32_t step = c->begun ? tick - (uint32_t)c->now : tick;
  if (!c->begun || step < 0x80000000u) c->now += step;
  c->begun = 1;
  return c->now;
}

#endif
