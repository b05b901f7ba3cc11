// What a call that takes a part costs: ours, plain C and C with packed marks, in one run over the same calls.
//
//   parts check            all give the same answers, slot memory and output on the same calls; else it ends with 1
//   parts time REPEATS     nanoseconds a call, best (median): each so many times in turn, 20,000 calls at a time
//   parts count KIND LAPS  one kind alone over the first workload, for callgrind; prints the calls of a lap
//   parts stack            bytes of stack below a call
#include "bench.h"
#include "stack.h"
#include "timing.h"
#include <stdio.h>
#include <stdlib.h>
#include <string.h>

enum { MEM = 16384, ROOM = 2047, MOST = 8 * 256, KINDS = 4 };

static const struct table_kind *const kinds[KINDS] = {&looped, &referred, &plain, &packed};

// A table of each kind with the memory that is lent to it.
struct side {
  const struct table_kind *kind;
  uint64_t table[1024];
  uint8_t mem[MEM], out[ROOM];
  struct lent lent;
};

static struct side sides[KINDS];

static void begin(struct side *s, const struct table_kind *kind) {
  if (kind->size > sizeof s->table) abort();
  s->kind = kind;
  memset(s->mem, 0, MEM);
  memset(s->out, 0, ROOM);
  s->lent = (struct lent){{s->mem, MEM}, {s->out, ROOM}};
  kind->fresh(s->table);
}

static void begin_all(void) {
  for (size_t k = 0; k < KINDS; k++) begin(&sides[k], kinds[k]);
}

static uint64_t receive(struct side *s, const struct call *c) { return s->kind->receive(s->table, c, &s->lent); }

// The bytes of the datagrams, 2,048 for each stream.
uint8_t pool[8 * 2048];

static uint32_t drawn(uint64_t *state) {
  *state = *state * 6364136223846793005u + 1442695040888963407u;
  return (uint32_t)(*state >> 33);
}

static void make_bytes(void) {
  uint64_t state = 1;
  for (size_t i = 0; i < sizeof pool; i++) pool[i] = (uint8_t)drawn(&state);
}

// A workload: so many streams take turns, a part each. A stream sends datagrams of so many bytes, cut into parts, one
// datagram after the other. Stream s comes from gateway s % 4, and the streams' datagrams end at different times.
enum order { FORWARD, BACKWARD, SHUFFLED };
struct load {
  const char *name;
  unsigned streams, size, part;
  enum order order;
  bool elided, twice, stranger; // checksums elided; each part comes twice; the source is no gateway (9)
};

// A lap of a workload, in which every stream sends one datagram; and the calls before it, in which the streams begin one
// after the other. Every lap finds the table as the one before it did.
struct list {
  struct call calls[MOST];
  uint64_t numbers[NUMBERS * MOST];
  struct calls whole;
};

static struct list first, lap;

static void add(struct list *l, struct call c) {
  size_t i = l->whole.count++;
  const uint64_t numbers[NUMBERS] = {c.src, c.dst, c.size, c.tag, c.offset, c.elided, (uint64_t)(c.part.at - pool), c.part.size};
  l->calls[i] = c;
  memcpy(l->numbers + NUMBERS * i, numbers, sizeof numbers);
}

static void make_laps(const struct load *l) {
  unsigned parts = (l->size + l->part - 1) / l->part, order[256];
  uint64_t state = 7;
  for (unsigned i = 0; i < parts; i++) order[i] = l->order == BACKWARD ? parts - 1 - i : i;
  if (l->order == SHUFFLED)
    for (unsigned i = parts - 1; i > 0; i--) {
      unsigned j = drawn(&state) % (i + 1), x = order[i];
      order[i] = order[j];
      order[j] = x;
    }
  first.whole = (struct calls){first.calls, 0, first.numbers};
  lap.whole = (struct calls){lap.calls, 0, lap.numbers};
  for (unsigned r = 0; r < parts; r++)
    for (unsigned s = 0; s < l->streams; s++) {
      unsigned begins = s * parts / l->streams, at = order[(r + parts - begins) % parts] * l->part;
      struct call c = {0, s % 4 + (l->stranger ? 5 : 1), 0xffff, (uint16_t)l->size, (uint16_t)(s + 1), (uint8_t)(at / 8), l->elided, {pool + 2048 * s + at, 0}};
      c.part.size = l->size - at < l->part ? l->size - at : l->part;
      for (unsigned k = 0; k < (l->twice ? 2u : 1u); k++) {
        if (r >= begins) add(&first, c);
        add(&lap, c);
      }
    }
}

// What two sides differ in after a call or a run, or NULL.
static const char *difference(size_t a, size_t b, uint64_t answer_a, uint64_t answer_b) {
  if (answer_a != answer_b) return "answer";
  if (memcmp(sides[a].mem, sides[b].mem, MEM) != 0) return "slot memory";
  if (memcmp(sides[a].out, sides[b].out, ROOM) != 0) return "output";
  return NULL;
}

// All kinds on one call: the same answer, and the same bytes afterwards.
static uint64_t agreed(const struct call *c) {
  uint64_t answers[KINDS];
  for (size_t k = 0; k < KINDS; k++) answers[k] = receive(&sides[k], c);
  for (size_t k = 1; k < KINDS; k++) {
    const char *what = difference(0, k, answers[0], answers[k]);
    if (what == NULL) continue;
    fprintf(stderr, "parts: %s and %s differ in the %s: answers %llu and %llu, time %llu, src %llu, size %u, tag %u, offset %u, %zu bytes\n",
            sides[0].kind->name, sides[k].kind->name, what, (unsigned long long)answers[0], (unsigned long long)answers[k], (unsigned long long)c->time,
            (unsigned long long)c->src, c->size, c->tag, c->offset, c->part.size);
    exit(1);
  }
  return answers[0];
}

// A call drawn so that every answer comes up: few keys, sizes at the boundaries, parts cut as others were or not.
static struct call drawn_call(uint64_t *state, uint64_t *time, uint8_t *scratch) {
  static const uint16_t sizes[] = {39, 40, 47, 48, 49, 64, 200, 200, 200, 511, 512, 1280, 2040, 2047, 2048};
  static const uint8_t cuts[] = {8, 24, 24, 24, 64, 104, 104};
  struct call c = {.dst = 1 + drawn(state) % 2};
  c.src = drawn(state) % 40 == 0 ? 5 : drawn(state) % 4 + 1;
  c.size = sizes[drawn(state) % 15];
  c.tag = (uint16_t)(drawn(state) % 2);
  size_t cut = cuts[(c.size + c.tag + (drawn(state) % 30 == 0)) % 7];
  size_t at = cut * (drawn(state) % (c.size / cut + 1));
  size_t n = at + cut > c.size ? c.size - at : cut;
  if (drawn(state) % 60 == 0) n = drawn(state) % 128;
  if (drawn(state) % 60 == 0) at = 8 * (drawn(state) % 256);
  c.offset = (uint8_t)(at / 8);
  c.elided = (c.size + c.tag) % 2 == 0;
  for (size_t i = 0; i < n; i++) scratch[i] = pool[2048 * c.src + (at + i) % 2048];
  if (drawn(state) % 100 == 0 && n != 0) scratch[drawn(state) % n] ^= 1;
  c.part = (struct slice){scratch, n};
  uint32_t step = drawn(state) % 1000;
  if (step < 3) *time += 59999 + step;
  else if (step < 500) *time += drawn(state) % 40;
  c.time = step == 999 && *time != 0 ? *time - 1 : *time;
  return c;
}

static const struct load timed[] = {
    {"8 streams, 2,047 bytes in 20 parts", 8, 2047, 104, FORWARD, false, false, false},
    {"the same, last part first", 8, 2047, 104, BACKWARD, false, false, false},
    {"the same, parts shuffled", 8, 2047, 104, SHUFFLED, false, false, false},
    {"the same, each part twice", 8, 2047, 104, FORWARD, false, true, false},
    {"the same, checksums elided", 8, 2047, 104, FORWARD, true, false, false},
    {"the same, all refused (9)", 8, 2047, 104, FORWARD, false, false, true},
    {"4 streams, 1,280 bytes in 16 parts", 4, 1280, 80, FORWARD, false, false, false},
    {"1 stream, 1,280 bytes in 16 parts", 1, 1280, 80, FORWARD, false, false, false},
};
static const unsigned lengths[] = {40, 104, 208, 416, 624, 832, 1040, 1280, 1560, 1820, 2047};
enum { TIMED = sizeof timed / sizeof *timed, LENGTHS = sizeof lengths / sizeof *lengths };

static struct load by_length(unsigned size) { return (struct load){"", 4, size, 104, FORWARD, false, false, false}; }

static struct load by_streams(unsigned n) { return (struct load){"", n, 2047, 104, FORWARD, false, false, false}; }

static void fail(const char *why) {
  fprintf(stderr, "parts: %s\n", why);
  exit(1);
}

// A call of a workload: where a datagram comes out, it is the stream's.
static size_t check_call(const struct load *l, struct call c, uint64_t time) {
  c.time = time;
  uint64_t a = agreed(&c);
  if (a < OUT) return 0;
  if (a != OUT + l->size) fail("a datagram came out with another length");
  for (size_t j = 0; j < l->size; j++)
    if (sides[0].out[j] != pool[2048 * (c.tag - 1u) + j] && !(l->elided && (j == 46 || j == 47))) fail("a datagram came out that is not the one sent");
  return 1;
}

// A workload call by call, then as it is timed.
static void check_load(const struct load *l) {
  size_t outs = 0;
  uint64_t sums[KINDS];
  make_laps(l);
  begin_all();
  for (size_t i = 0; i < first.whole.count; i++) outs += check_call(l, first.calls[i], 0);
  for (size_t k = 1; k <= 2; k++)
    for (size_t i = 0; i < lap.whole.count; i++) outs += check_call(l, lap.calls[i], k);
  if (!l->stranger && outs < 2 * l->streams) fail("too few datagrams came out");
  begin_all();
  for (size_t k = 0; k < KINDS; k++) sums[k] = kinds[k]->run(sides[k].table, &first.whole, &lap.whole, 3, &sides[k].lent);
  for (size_t k = 1; k < KINDS; k++)
    if (difference(0, k, sums[0], sums[k]) != NULL) fail("a timed run differs");
}

static void check_drawn(size_t count) {
  uint64_t state = 42, time = 0, seen[OUT + 1] = {0};
  uint8_t scratch[128];
  begin_all();
  for (size_t i = 0; i < count; i++) {
    struct call c = drawn_call(&state, &time, scratch);
    bool shorter = drawn(&state) % 500 == 0;
    for (size_t k = 0; k < KINDS; k++) sides[k].lent.mem.size = shorter ? MEM - 1 : MEM;
    uint64_t a = agreed(&c);
    seen[a > OUT ? OUT : a]++;
  }
  printf("%zu drawn calls, the same answers, slot memory and output after each: kept %llu, out %llu", count, (unsigned long long)seen[KEPT], (unsigned long long)seen[OUT]);
  for (size_t r = NO_ROOM; r <= NO_SLOT; r++) {
    printf(", no %zu %llu", r, (unsigned long long)seen[r]);
    if (seen[r] == 0) {
      fprintf(stderr, "\nparts: refusal %zu never came up\n", r);
      exit(1);
    }
  }
  printf("\n");
}

static void check(void) {
  for (size_t i = 0; i < TIMED; i++) check_load(&timed[i]);
  for (size_t i = 0; i < LENGTHS; i++) {
    struct load l = by_length(lengths[i]);
    check_load(&l);
  }
  for (unsigned n = 1; n <= 8; n++) {
    struct load l = by_streams(n);
    check_load(&l);
  }
  printf("the timed workloads: the same answers, slot memory and output after each call\n");
  check_drawn(300000);
}

// The quotients that are printed, by the places of the kinds.
enum { QUOTIENTS = 3 };
static const size_t quotients[QUOTIENTS][2] = {{0, 2}, {1, 2}, {0, 3}};

static size_t timed_laps;

static uint64_t run_kind(size_t k) { return kinds[k]->run(sides[k].table, &first.whole, &lap.whole, timed_laps, &sides[k].lent); }

static void measure(const struct load *l, size_t repeats, struct times *times, struct spread *spreads) {
  make_laps(l);
  begin_all();
  timed_laps = 20000 / lap.whole.count;
  size_t calls = first.whole.count + timed_laps * lap.whole.count;
  if (!measure_all(run_kind, KINDS, calls, repeats, QUOTIENTS, quotients, times, spreads)) fail("the answers differ");
}

static void print_row(const char *name, const struct load *l, size_t repeats) {
  struct times t[KINDS];
  struct spread s[QUOTIENTS];
  measure(l, repeats, t, s);
  printf("| %s ", name);
  for (size_t k = 0; k < KINDS; k++) printf("| %.1f (%.1f) ", t[k].best, t[k].median);
  for (size_t q = 0; q < QUOTIENTS; q++) printf("| %.2f (%.2f to %.2f) ", s[q].half, s[q].quarter, s[q].three_quarters);
  printf("|\n");
  fflush(stdout);
}

static void print_head(const char *what) {
  printf("\n| %s | ours, ns | behind a reference | plain C | packed C | ours / plain | reference / plain | ours / packed |\n|---|---|---|---|---|---|---|---|\n", what);
}

static void print_times(size_t repeats) {
  char name[32];
  print_head("calls");
  for (size_t i = 0; i < TIMED; i++) print_row(timed[i].name, &timed[i], repeats);
  print_head("bytes of a datagram");
  for (size_t i = 0; i < LENGTHS; i++) {
    struct load l = by_length(lengths[i]);
    snprintf(name, sizeof name, "%u", lengths[i]);
    print_row(name, &l, repeats);
  }
  print_head("streams");
  for (unsigned n = 1; n <= 8; n++) {
    struct load l = by_streams(n);
    snprintf(name, sizeof name, "%u", n);
    print_row(name, &l, repeats);
  }
}

static void count(const char *name, size_t laps) {
  for (size_t k = 0; k < KINDS; k++)
    if (strcmp(kinds[k]->name, name) == 0) {
      make_laps(&timed[0]);
      begin(&sides[k], kinds[k]);
      kinds[k]->run(sides[k].table, &first.whole, &lap.whole, laps, &sides[k].lent);
      printf("%zu\n", lap.whole.count);
      return;
    }
  fail("no table is called so");
}

static void *drawn_calls(void *side) {
  struct side *s = side;
  uint64_t state = 42, time = 0;
  static uint8_t scratch[128];
  for (size_t i = 0; i < 100000; i++) {
    struct call c = drawn_call(&state, &time, scratch);
    receive(s, &c);
  }
  return NULL;
}

static void *whole_run(void *side) {
  struct side *s = side;
  s->kind->run(s->table, &first.whole, &lap.whole, 2, &s->lent);
  return NULL;
}

static uint64_t no_call(void *table, const struct call *c, const struct lent *l) {
  (void)table, (void)c, (void)l;
  return 0;
}

static void print_stack(void) {
  static const struct table_kind nothing = {"nothing", 0, NULL, no_call, NULL};
  sides[0].kind = &nothing;
  size_t empty = stack_of(drawn_calls, &sides[0]);
  printf("\n| | table, bytes | stack below a call, bytes |\n|---|---|---|\n");
  begin_all();
  for (size_t k = 1; k < KINDS; k++) printf("| %s | %zu | %zu |\n", kinds[k]->name, kinds[k]->size, stack_of(drawn_calls, &sides[k]) - empty);
  make_laps(&timed[4]);
  printf("\nThe loop that keeps its table: %zu bytes of stack, the table among them.\n", stack_of(whole_run, &sides[0]) - empty);
}

int main(int argc, char **argv) {
  make_bytes();
  if (argc == 2 && strcmp(argv[1], "check") == 0) check();
  else if (argc == 3 && strcmp(argv[1], "time") == 0 && atoi(argv[2]) >= 1 && atoi(argv[2]) <= 1000) print_times((size_t)atoi(argv[2]));
  else if (argc == 4 && strcmp(argv[1], "count") == 0) count(argv[2], (size_t)atoi(argv[3]));
  else if (argc == 2 && strcmp(argv[1], "stack") == 0) print_stack();
  else {
    fprintf(stderr, "usage: parts check | time REPEATS | count KIND LAPS | stack\n");
    return 2;
  }
  return 0;
}
