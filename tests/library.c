/* library: the lines of tests/README.md over the C library (include/lift.h), for tests/calls.py --counts. A call's answer is followed by ` |`, the
 * number of free slots and, for each gateway of the list, the number that it holds, in place of the open slots, which the interface does not show;
 * then the Adler-32 of the memory's first 16,384 bytes.
 *
 * It looks at every lent byte: where a call that is refused (but with 17) has changed a byte of the memory, where one that is refused or keeps a part
 * has changed the output, or where one that hands out a datagram has changed a byte behind it, the answer ends in ` wrote`. What is lent has just the
 * length that the line says, in memory of its own, so that a run under a checker of memory sees each byte past an end. */
#include "../include/lift.h"

#include <stdio.h>
#include <stdlib.h>
#include <string.h>

enum { LINE = 1 << 17, MOST_ROOM = 65536, MOST_GATEWAYS = 64, WRONG_SUM = 17 };

static char line[LINE];
static lift_table table;
static int begun;
static lift_gateway gateways[MOST_GATEWAYS];
static size_t listed;
static uint8_t memory[MOST_ROOM]; /* kept from call to call, zero at first */

/* ---- words */

static int digit(char c) {
  return c >= '0' && c <= '9' ? c - '0' : c >= 'a' && c <= 'f' ? c - 'a' + 10 : -1;
}

/* lower-case hexadecimal, n digits */
static int hexed(const char *text, size_t n, uint64_t *value) {
  *value = 0;
  for (size_t i = 0; i < n; i++) {
    int d = digit(text[i]);
    if (d < 0) return 0;
    *value = *value << 4 | (uint64_t)d;
  }
  return 1;
}

static int decimal(const char *text, uint64_t most, uint64_t *value) {
  *value = 0;
  if (!*text) return 0;
  for (; *text; text++) {
    if (*text < '0' || *text > '9') return 0;
    uint64_t d = (uint64_t)(*text - '0');
    if (*value > (UINT64_MAX - d) / 10) return 0;
    *value = *value * 10 + d;
  }
  return *value <= most;
}

/* `-` or pairs of digits, as bytes of their own length; freed by the caller */
static uint8_t *octets(const char *text, size_t *n) {
  size_t digits = strcmp(text, "-") == 0 ? 0 : strlen(text);
  uint64_t value = 0;
  if (*text == 0 || digits % 2) return NULL;
  uint8_t *bytes = malloc(digits / 2 + 1);
  for (size_t i = 0; bytes && i < digits / 2; i++) {
    if (!hexed(text + 2 * i, 2, &value)) {
      free(bytes);
      return NULL;
    }
    bytes[i] = (uint8_t)value;
  }
  *n = digits / 2;
  return bytes;
}

/* an address, `s` and 4 digits, `e` and 16, or `a`; behind an `@` its PAN, 4 digits */
static int gateway(char *text, lift_gateway *g) {
  char *pan = strchr(text, '@');
  uint64_t id = 0;
  if (pan) *pan++ = 0;
  if (pan && (strlen(pan) != 4 || !hexed(pan, 4, &id))) return 0;
  size_t n = strlen(text);
  uint64_t kind = *text == 's' ? LIFT_SHORT : *text == 'e' ? LIFT_EXTENDED : 0;
  g->kind = pan ? LIFT_IN(kind, id) : kind;
  g->value = 0;
  if (*text == 'a') return n == 1;
  return (*text == 's' ? n == 5 : *text == 'e' ? n == 17 : 0) && hexed(text + 1, n - 1, &g->value);
}

/* ---- lines */

static void begin(char **words, size_t count) {
  size_t n = count - 1;
  lift_gateway list[MOST_GATEWAYS];
  if (n > MOST_GATEWAYS) {
    puts("bad");
    return;
  }
  for (size_t i = 0; i < n; i++) {
    if (!gateway(words[i + 1], list + i)) {
      puts("bad");
      return;
    }
  }
  uint32_t refused = lift_begin(&table, list, n);
  if (refused) {
    printf("no %u\n", (unsigned)refused);
    return;
  }
  begun = 1;
  listed = n;
  memcpy(gateways, list, n * sizeof *list);
  puts("ok");
}

static void counts(void) {
  printf(" | %u", (unsigned)lift_free(&table));
  for (size_t i = 0; i < listed; i++) {
    printf(" %u", (unsigned)lift_held(&table, gateways[i].kind, gateways[i].value));
  }
}

/* Adler-32 (RFC 1950) of what every call is lent */
static uint32_t adler(void) {
  uint32_t a = 1, b = 0;
  for (size_t i = 0; i < LIFT_MEM_BYTES; i++) {
    a = (a + memory[i]) % 65521;
    b = (b + a) % 65521;
  }
  return b << 16 | a;
}

/* a byte that no call may have changed has changed */
static int wrote(uint32_t answer, const uint8_t *mem, size_t mem_len, const uint8_t *out, const uint8_t *before, size_t out_len) {
  size_t from = lift_kind(answer) == LIFT_OUT ? lift_number(answer) : 0;
  int refused = lift_kind(answer) == LIFT_REFUSED && lift_number(answer) != WRONG_SUM;
  return (refused && memcmp(mem, memory, mem_len) != 0) || from > out_len || memcmp(out + from, before + from, out_len - from) != 0;
}

static void call(uint64_t time, const uint8_t *frame, size_t frame_len, const uint8_t *contexts, size_t contexts_len, size_t mem_len, size_t out_len) {
  uint8_t *mem = malloc(mem_len + 1), *out = malloc(out_len + 1), *before = malloc(out_len + 1);
  if (!mem || !out || !before) exit(1);
  memcpy(mem, memory, mem_len);
  for (size_t i = 0; i < out_len; i++) before[i] = out[i] = (uint8_t)(0xa5 + 7 * i);
  uint32_t answer = lift_receive(&table, time, frame, frame_len, contexts, contexts_len, mem, mem_len, out, out_len);
  switch (lift_kind(answer)) {
    case LIFT_KEPT:
      printf("kept");
      break;
    case LIFT_OUT:
      printf("out %u ", (unsigned)lift_number(answer));
      for (size_t i = 0; i < lift_number(answer) && i < out_len; i++) printf("%02x", out[i]);
      break;
    default:
      printf("no %u", (unsigned)lift_number(answer));
  }
  counts();
  int too_much = wrote(answer, mem, mem_len, out, before, out_len);
  memcpy(memory, mem, mem_len);
  printf(" %08x%s\n", (unsigned)adler(), too_much ? " wrote" : "");
  free(mem);
  free(out);
  free(before);
}

static void hear(char **words) {
  uint64_t time, mem_len, out_len;
  size_t frame_len = 0, contexts_len = 0;
  uint8_t *frame = octets(words[2], &frame_len), *contexts = octets(words[3], &contexts_len);
  if (frame && contexts && decimal(words[1], UINT64_MAX, &time) && decimal(words[4], MOST_ROOM, &mem_len) && decimal(words[5], MOST_ROOM, &out_len)) {
    call(time, frame, frame_len, contexts, contexts_len, (size_t)mem_len, (size_t)out_len);
  } else {
    puts("bad");
  }
  free(frame);
  free(contexts);
}

int main(void) {
  char *words[MOST_GATEWAYS + 2];
  while (fgets(line, LINE, stdin)) {
    line[strcspn(line, "\n")] = 0;
    if (*line == '#') {
      puts(line);
      continue;
    }
    size_t count = 0;
    for (char *at = line; at && count < MOST_GATEWAYS + 2; count++) {
      words[count] = at;
      at = strchr(at, ' ');
      if (at) *at++ = 0;
    }
    if (strcmp(words[0], "gateways") == 0 && !begun) {
      begin(words, count);
    } else if (strcmp(words[0], "call") == 0 && count == 6 && begun) {
      hear(words);
    } else {
      puts("bad");
    }
  }
  return 0;
}
