// The table in plain C with a bool for each mark.
#include <stdbool.h>
#include <stddef.h>

typedef struct {
  bool of[256];
} Marks;

static bool marked(const Marks *m, size_t u) { return m->of[u]; }

static void mark(Marks *m, size_t u, size_t e) {
  for (size_t i = u; i < e; i++) m->of[i] = true;
}

// Whether one of the marks from u up to, not including, e is b.
static bool has_mark(const Marks *m, bool b, size_t u, size_t e) {
  for (size_t i = u; i < e; i++)
    if (m->of[i] == b) return true;
  return false;
}

#ifdef FRAMES
#include "frame.h"
const struct frame_kind plain_frames = {"plain C", sizeof(struct table), begin, receive, run};
#else
#include "parts.h"
const struct table_kind plain = {"plain C", sizeof(struct table), fresh, receive, run};
#endif
