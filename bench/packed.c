// The table in plain C with a bit for each mark, in four words.
#include <stdbool.h>
#include <stddef.h>
#include <stdint.h>

typedef struct {
  uint64_t of[4];
} Marks;

// The h low bits, h at most 64.
static uint64_t below(size_t h) { return h < 64 ? ((uint64_t)1 << h) - 1 : UINT64_MAX; }

// A unit's place in the word that begins at base: 0 before it, 64 past it.
static size_t within(size_t base, size_t u) { return u < base ? 0 : u - base > 64 ? 64 : u - base; }

static uint64_t mask(size_t base, size_t u, size_t e) { return below(within(base, e)) - below(within(base, u)); }

static bool marked(const Marks *m, size_t u) { return m->of[u / 64] >> (u % 64) & 1; }

static void mark(Marks *m, size_t u, size_t e) {
  for (size_t i = 0; i < 4; i++) m->of[i] |= mask(64 * i, u, e);
}

// Whether one of the marks from u up to, not including, e is b.
static bool has_mark(const Marks *m, bool b, size_t u, size_t e) {
  if (e <= u) return false;
  for (size_t i = 0; i < 4; i++)
    if ((b ? m->of[i] : ~m->of[i]) & mask(64 * i, u, e)) return true;
  return false;
}

#ifdef FRAMES
#include "frame.h"
const struct frame_kind packed_frames = {"packed C", sizeof(struct table), begin, receive, run};
#else
#include "parts.h"
const struct table_kind packed = {"packed C", sizeof(struct table), fresh, receive, run};
#endif
