// What a call on a frame costs: the library, a loop in Rattle, plain C and C with packed marks, in one run over the same frames.
// FILE has the workloads as `bench/sent loads` writes them.
//
//   frames check FILE             every workload gets the answers that stand in the file, and all four leave the same bytes
//   frames stack                  the same as `drawn`, and how deep the stack goes
//   frames drawn                  the same answers, memory and output after every call of standard input (`bench/sent drawn`)
//   frames time FILE REPEATS      nanoseconds a call, best (median): each so many times in turn, 20,000 calls at a time, and frames a second
//   frames grow FILE REPEATS HEAD the same without frames a second, the first column headed HEAD
//   frames count FILE KIND ROW LAPS  one kind alone over a workload, for callgrind; prints the calls of a lap
//
// A difference ends with status 1.
#define _GNU_SOURCE
#include "frames.h"
#include "stack.h"
#include "timing.h"
#include <stdio.h>
#include <string.h>

enum { MEM = 16384, ROOM = 2047, MORE = 16, MOST = 8 * 64, LOADS = 32, KINDS = 4, LIBRARY = 0, LOOPED = 1 };

static const struct frame_kind *const kinds[KINDS] = {&library, &looped_frames, &plain_frames, &packed_frames};

static void fail(const char *what, const char *where) {
  fprintf(stderr, "frames: %s: %s\n", where, what);
  exit(1);
}

// A table of each kind with the memory that is lent to it.
static struct side {
  uint64_t table[1024];
  uint8_t mem[MEM + MORE], out[ROOM + MORE];
} sides[KINDS];

static struct lent lent_of(size_t k, size_t mem, size_t out) { return (struct lent){{sides[k].mem, mem}, {sides[k].out, out}}; }

static void clear(void) {
  memset(sides, 0, sizeof sides);
  for (size_t k = 0; k < KINDS; k++)
    if (kinds[k]->size > sizeof sides[k].table) abort();
}

static void same_bytes(size_t a, size_t b, const char *where) {
  if (memcmp(sides[a].mem, sides[b].mem, sizeof sides[a].mem) != 0) fail("the slot memory differs", where);
  if (memcmp(sides[a].out, sides[b].out, sizeof sides[a].out) != 0) fail("the output differs", where);
}

// Lines.

static uint8_t bytes[1 << 21];
static size_t used;

// Bytes of hexadecimal digits, `-` for none, kept among `bytes`.
static struct slice keep_hex(const char *text) {
  struct slice s = {bytes + used, 0};
  unsigned byte;
  if (*text == '-') return s;
  for (; text[0] != '\0' && sscanf(text, "%2x", &byte) == 1; text += 2) {
    if (used == sizeof bytes) fail("too many bytes", "lines");
    bytes[used++] = (uint8_t)byte;
    s.size++;
  }
  return s;
}

struct gateways {
  uint64_t of[32];
  size_t numbers;
};

static void read_gateways(char *rest, struct gateways *g) {
  g->numbers = 0;
  for (char *one = strtok(rest, " "); one != NULL; one = strtok(NULL, " ")) {
    if (g->numbers == 32) fail("too many gateways", "lines");
    char *pan = strchr(one, '@');
    uint64_t in = pan == NULL ? 0 : strtoull(pan + 1, NULL, 16) + 1;
    g->of[g->numbers++] = (*one == 's' ? 1 : *one == 'e' ? 2 : 0) | in << 16;
    g->of[g->numbers++] = strtoull(one + 1, NULL, 16);
  }
}

// Calls, and the same as the loop in Rattle reads them.
struct list {
  struct frame_call calls[MOST];
  uint64_t numbers[FRAME_NUMBERS * MOST];
  size_t count;
};

static void add(struct list *l, struct frame_call c) {
  if (l->count == MOST) fail("too many calls", "lines");
  size_t i = l->count++;
  const uint64_t numbers[FRAME_NUMBERS] = {c.time, (uint64_t)(c.frame.at - bytes), c.frame.size, (uint64_t)(c.contexts.at - bytes), c.contexts.size};
  l->calls[i] = c;
  memcpy(l->numbers + FRAME_NUMBERS * i, numbers, sizeof numbers);
}

static struct frame_run run_of(const struct gateways *g, const struct list *first, const struct list *lap, size_t laps) {
  return (struct frame_run){g->of, g->numbers, {bytes, sizeof bytes}, {first->calls, first->count, first->numbers}, {lap->calls, lap->count, lap->numbers}, laps};
}

// All kinds on a whole run: the same answers and bytes.
static void check_run(const struct frame_run *r, const char *where) {
  uint64_t sums[KINDS];
  clear();
  for (size_t k = 0; k < KINDS; k++) {
    struct lent l = lent_of(k, MEM, ROOM);
    sums[k] = kinds[k]->run(sides[k].table, r, &l);
    if (sums[k] != sums[0]) fail("a whole run is answered differently", where);
    same_bytes(0, k, where);
  }
}

// All kinds but the loop on one call.
static uint64_t agreed(const struct frame_call *c, size_t mem, size_t out, const char *where) {
  uint64_t answers[KINDS];
  for (size_t k = 0; k < KINDS; k++) {
    if (k == LOOPED) continue;
    struct lent l = lent_of(k, mem, out);
    answers[k] = kinds[k]->receive(sides[k].table, c, &l);
    if (answers[k] != answers[0]) {
      fprintf(stderr, "%s %llu, %s %llu\n", kinds[0]->name, (unsigned long long)answers[0], kinds[k]->name, (unsigned long long)answers[k]);
      fail("the answers differ", where);
    }
    same_bytes(0, k, where);
  }
  return answers[0];
}

static void begin_all(const struct gateways *g, const char *where, uint64_t wanted) {
  clear();
  for (size_t k = 0; k < KINDS; k++)
    if (kinds[k]->begin(sides[k].table, g->of, g->numbers) != wanted) fail("the gateways are answered otherwise", where);
}

// Workloads.

static struct load {
  char name[80];
  struct gateways gateways;
  struct slice contexts;
  struct list first, lap;
  char *answers[2 * MOST]; // those of the first calls, then those of a lap
} loads[LOADS];
static size_t load_count;

static void read_loads(const char *path) {
  FILE *file = fopen(path, "r");
  char *line = NULL;
  size_t room = 0;
  if (file == NULL) fail("it cannot be read", path);
  for (struct load *l = NULL; getline(&line, &room, file) > 0;) {
    line[strcspn(line, "\n")] = '\0';
    char *rest = strchr(line, ' ');
    if (rest == NULL) fail("a line is not understood", path);
    *rest++ = '\0';
    if (strcmp(line, "load") == 0) {
      if (load_count == LOADS) fail("too many workloads", path);
      l = &loads[load_count++];
      snprintf(l->name, sizeof l->name, "%s", rest);
    } else if (strcmp(line, "gateways") == 0) {
      read_gateways(rest, &l->gateways);
    } else if (strcmp(line, "contexts") == 0) {
      l->contexts = keep_hex(rest);
    } else {
      char *answer = strchr(rest, ' ');
      *answer++ = '\0';
      l->answers[l->first.count + l->lap.count] = strdup(answer);
      add(strcmp(line, "lap") == 0 ? &l->lap : &l->first, (struct frame_call){0, keep_hex(rest), l->contexts});
    }
  }
  free(line);
  fclose(file);
}

static void check_answer(const struct load *l, uint64_t answer, const char *wanted) {
  char text[16 + 2 * ROOM];
  if (answer == KEPT) {
    strcpy(text, "kept");
  } else if (answer < OUT) {
    sprintf(text, "no%llu", (unsigned long long)answer);
  } else {
    size_t n = (size_t)sprintf(text, "out");
    for (size_t i = 0; i < answer - OUT; i++) n += (size_t)sprintf(text + n, "%02x", sides[0].out[i]);
  }
  if (strcmp(text, wanted) != 0) {
    fprintf(stderr, "answer %s\nwanted %s\n", text, wanted);
    fail("another answer than the file's", l->name);
  }
}

static void check_loads(void) {
  size_t calls = 0;
  for (const struct load *l = loads; l < loads + load_count; l++) {
    begin_all(&l->gateways, l->name, 0);
    for (size_t k = 0; k <= 2; k++) {
      const struct list *list = k == 0 ? &l->first : &l->lap;
      for (size_t i = 0; i < list->count; i++, calls++) {
        struct frame_call c = list->calls[i];
        c.time = k;
        check_answer(l, agreed(&c, MEM, ROOM, l->name), l->answers[i + (k == 0 ? 0 : l->first.count)]);
      }
    }
    struct frame_run r = run_of(&l->gateways, &l->first, &l->lap, 3);
    check_run(&r, l->name);
  }
  printf("%zu workloads, %zu calls: the answers and datagrams as sent, the same slot memory and output after each\n", load_count, calls);
}

// The deepest stack of a call, and of making a table, by kind; the loop's is that of a run, its table among it.
static struct depth {
  size_t calls, begin;
} deepest[KINDS];
static const struct frame_run *deep_run;

static void *nothing(void *side) { return side; }

static void *deep_begin(void *kind) {
  const size_t k = *(const size_t *)kind;
  kinds[k]->begin(sides[k].table, deep_run->gateways, deep_run->gateway_numbers);
  return NULL;
}

static void *deep_calls(void *kind) {
  const size_t k = *(const size_t *)kind;
  struct lent l = lent_of(k, MEM, ROOM);
  if (kinds[k]->receive == NULL) kinds[k]->run(sides[k].table, deep_run, &l);
  else
    for (size_t i = 0; i < deep_run->first.count; i++) kinds[k]->receive(sides[k].table, &deep_run->first.of[i], &l);
  return NULL;
}

static size_t more_of(size_t a, size_t b) { return a < b ? b : a; }

static void deepen(const struct frame_run *r) {
  size_t k = 0, empty = stack_of(nothing, &k);
  deep_run = r;
  clear();
  for (k = 0; k < KINDS; k++) {
    deepest[k].begin = more_of(deepest[k].begin, stack_of(deep_begin, &k) - empty);
    deepest[k].calls = more_of(deepest[k].calls, stack_of(deep_calls, &k) - empty);
  }
}

static void print_depths(void) {
  printf("\n| | table, bytes | stack of a call, bytes | of making a table |\n|---|---|---|---|\n");
  for (size_t k = 0; k < KINDS; k++) printf("| %s | %zu | %zu | %zu |\n", kinds[k]->name, kinds[k]->size, deepest[k].calls, deepest[k].begin);
}

// Drawn calls, a run at a time; those of a run with rooms of the usual size once more as a whole, by the loop too.

static void check_drawn(bool depths) {
  static const struct list none;
  static struct list run;
  static uint64_t seen[OUT + 1];
  struct gateways gateways = {.numbers = 0};
  size_t calls = 0, runs = 0, looped = 0, bad_lists = 0, room = 0;
  char *line = NULL, where[48] = "";
  bool more = true;
  while (more) {
    more = getline(&line, &room, stdin) > 0;
    if (more) line[strcspn(line, "\n")] = '\0';
    if (!more || strncmp(line, "gateways", 8) == 0) {
      struct frame_run r = run_of(&gateways, &run, &none, 0);
      check_run(&r, where);
      if (depths) deepen(&r);
      looped += run.count;
      run.count = used = 0;
      if (!more) break;
      snprintf(where, sizeof where, "run %zu", runs++);
      read_gateways(line + 8, &gateways);
      clear();
      uint64_t wanted = kinds[LIBRARY]->begin(sides[LIBRARY].table, gateways.of, gateways.numbers);
      begin_all(&gateways, where, wanted);
      bad_lists += wanted != 0;
      continue;
    }
    strtok(line, " ");
    struct frame_call c = {.time = strtoull(strtok(NULL, " "), NULL, 10)};
    c.frame = keep_hex(strtok(NULL, " "));
    c.contexts = keep_hex(strtok(NULL, " "));
    size_t mem = strtoull(strtok(NULL, " "), NULL, 10), out = strtoull(strtok(NULL, " "), NULL, 10);
    if (mem > MEM + MORE || out > ROOM + MORE) fail("too much room", where);
    uint64_t a = agreed(&c, mem, out, where);
    seen[a > OUT ? OUT : a]++;
    calls++;
    if (mem >= MEM && out >= ROOM) add(&run, c);
  }
  free(line);
  printf("%zu drawn calls in %zu runs, %zu of them by the loop too: the same answers, slot memory and output; kept %llu, out %llu", calls, runs, looped,
         (unsigned long long)seen[KEPT], (unsigned long long)seen[OUT]);
  for (size_t r = CUT_SHORT; r <= NOT_TAKEN; r++) {
    printf(", no %zu %llu", r, (unsigned long long)seen[r]);
    if (seen[r] == 0) fail("a refusal never came up", "drawn");
  }
  printf(", no 17 %llu", (unsigned long long)seen[WRONG_SUM]);
  if (seen[WRONG_SUM] == 0) fail("17 never came up", "drawn");
  printf("; lists of gateways refused (14) %zu\n", bad_lists);
}

// Times.

enum { QUOTIENTS = 4 };
static const size_t quotients[QUOTIENTS][2] = {{0, 2}, {1, 2}, {0, 3}, {1, 3}};
static struct frame_run timed_run;

static uint64_t run_kind(size_t k) {
  struct lent l = lent_of(k, MEM, ROOM);
  return kinds[k]->run(sides[k].table, &timed_run, &l);
}

static void print_times(size_t repeats, const char *head) {
  static struct times t[LOADS][KINDS];
  static struct spread s[LOADS][QUOTIENTS];
  printf("\n| %s | the library, ns | ours in a loop | plain C | packed C | library / plain | loop / plain | library / packed | loop / packed |\n|---|---|---|---|---|---|---|---|---|\n", head == NULL ? "frames" : head);
  for (size_t i = 0; i < load_count; i++) {
    timed_run = run_of(&loads[i].gateways, &loads[i].first, &loads[i].lap, 20000 / loads[i].lap.count);
    clear();
    if (!measure_all(run_kind, KINDS, loads[i].first.count + timed_run.laps * loads[i].lap.count, repeats, QUOTIENTS, quotients, t[i], s[i])) fail("the answers differ", loads[i].name);
    printf("| %s ", loads[i].name);
    for (size_t k = 0; k < KINDS; k++) printf("| %.1f (%.1f) ", t[i][k].best, t[i][k].median);
    for (size_t q = 0; q < QUOTIENTS; q++) printf("| %.2f (%.2f to %.2f) ", s[i][q].half, s[i][q].quarter, s[i][q].three_quarters);
    printf("|\n");
    fflush(stdout);
  }
  if (head != NULL) return;
  printf("\n| frames a second, millions: best (median) | the library | ours in a loop | plain C | packed C |\n|---|---|---|---|---|\n");
  for (size_t i = 0; i < load_count; i++) {
    printf("| %s ", loads[i].name);
    for (size_t k = 0; k < KINDS; k++) printf("| %.1f (%.1f) ", 1e3 / t[i][k].best, 1e3 / t[i][k].median);
    printf("|\n");
  }
}

static void count(const char *name, size_t row, size_t laps) {
  for (size_t k = 0; k < KINDS; k++)
    if (strcmp(kinds[k]->name, name) == 0 && row < load_count) {
      clear();
      timed_run = run_of(&loads[row].gateways, &loads[row].first, &loads[row].lap, laps);
      run_kind(k);
      printf("%zu %s\n", loads[row].lap.count, loads[row].name);
      return;
    }
  fail("no such kind or workload", name);
}

int main(int argc, char **argv) {
  const char *what = argc > 1 ? argv[1] : "";
  if (argc > 2) read_loads(argv[2]);
  if (argc == 3 && strcmp(what, "check") == 0) check_loads();
  else if (argc == 2 && strcmp(what, "drawn") == 0) check_drawn(false);
  else if (argc == 2 && strcmp(what, "stack") == 0) check_drawn(true), print_depths();
  else if (argc == 4 && strcmp(what, "time") == 0 && atoi(argv[3]) >= 1 && atoi(argv[3]) <= MOST_REPEATS) print_times((size_t)atoi(argv[3]), NULL);
  else if (argc == 5 && strcmp(what, "grow") == 0 && atoi(argv[3]) >= 1 && atoi(argv[3]) <= MOST_REPEATS) print_times((size_t)atoi(argv[3]), argv[4]);
  else if (argc == 6 && strcmp(what, "count") == 0) count(argv[3], (size_t)atoi(argv[4]), (size_t)atoi(argv[5]));
  else {
    fprintf(stderr, "usage: frames check FILE | drawn | stack | time FILE REPEATS | grow FILE REPEATS HEAD | count FILE KIND ROW LAPS\n");
    return 2;
  }
  return 0;
}
