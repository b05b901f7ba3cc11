// Timing: several kinds in turn, many times, and the quotients of two of them turn by turn, since the machine's speed changes
// from one turn to another.
#ifndef TIMING_H
#define TIMING_H
#include <stddef.h>
#include <stdint.h>
#include <stdlib.h>
#include <time.h>

struct times {
  double best, median;
};

struct spread {
  double quarter, half, three_quarters;
};

enum { MOST_KINDS = 4, MOST_REPEATS = 1000 };

static double seconds(void) {
  struct timespec t;
  clock_gettime(CLOCK_MONOTONIC, &t);
  return (double)t.tv_sec + (double)t.tv_nsec * 1e-9;
}

static int by_value(const void *a, const void *b) {
  double x = *(const double *)a, y = *(const double *)b;
  return (x > y) - (x < y);
}

// Nanoseconds a call of each kind, where `run` makes so many calls of a kind; false where two runs answer differently.
static bool measure_all(uint64_t (*run)(size_t kind), size_t kinds, size_t calls, size_t repeats, size_t quotients, const size_t (*pairs)[2], struct times *times,
                        struct spread *spreads) {
  static double all[MOST_KINDS][MOST_REPEATS], ratios[MOST_REPEATS];
  uint64_t answer = 0;
  for (size_t r = 0; r < repeats; r++)
    for (size_t k = 0; k < kinds; k++) {
      double start = seconds();
      uint64_t a = run(k);
      all[k][r] = (seconds() - start) * 1e9 / (double)calls;
      if (r == 0 && k == 0) answer = a;
      if (a != answer) return false;
    }
  for (size_t q = 0; q < quotients; q++) {
    for (size_t r = 0; r < repeats; r++) ratios[r] = all[pairs[q][0]][r] / all[pairs[q][1]][r];
    qsort(ratios, repeats, sizeof(double), by_value);
    spreads[q] = (struct spread){ratios[repeats / 4], ratios[repeats / 2], ratios[repeats * 3 / 4]};
  }
  for (size_t k = 0; k < kinds; k++) {
    qsort(all[k], repeats, sizeof(double), by_value);
    times[k] = (struct times){all[k][0], all[k][repeats / 2]};
  }
  return true;
}
#endif
