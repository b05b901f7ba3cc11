// The slot table of the scope document in plain C, changed in place. The file that includes this one says what 256 marks
// are (Marks) and how they are read and set; everything else is the same for both.
#include "bench.h"
#include <string.h>

struct address {
  uint8_t kind; // 0 absent, 1 short, 2 extended
  uint64_t number;
};

// Who sends: an address and its PAN, 0 where there is none, else one more than the PAN.
struct source {
  struct address address;
  uint32_t pan;
};

struct key {
  struct source src;
  struct address dst;
  uint16_t size, tag;
};

// A checksum to care for, and where in the datagram its UDP header and the IPv6 header just outside begin.
struct sum {
  enum { NONE, ELIDED, CARRIED } kind;
  uint16_t ip, udp;
};

struct slot {
  bool live;
  struct key key;
  uint64_t since;
  struct sum sum;
  Marks covered; // units that were taken
  Marks starts;  // units at which a part that was taken starts
};

struct table {
  struct slot slots[8];
  uint64_t last;
  struct source gateways[4];
};

static bool same_address(const struct address *a, const struct address *b) {
  return a->kind == b->kind && a->number == b->number;
}

static bool same_source(const struct source *a, const struct source *b) {
  return same_address(&a->address, &b->address) && a->pan == b->pan;
}

static bool same_key(const struct key *a, const struct key *b) {
  return same_source(&a->src, &b->src) && same_address(&a->dst, &b->dst) && a->size == b->size && a->tag == b->tag;
}

static void free_slot(struct slot *s) { memset(s, 0, sizeof *s); }

// The opening rule.

static size_t held(const struct table *t, const struct source *gateway) {
  size_t n = 0;
  for (size_t i = 0; i < 8; i++)
    if (t->slots[i].live && same_source(&t->slots[i].key.src, gateway)) n++;
  return n;
}

static size_t free_slots(const struct table *t) {
  size_t n = 0;
  for (size_t i = 0; i < 8; i++)
    if (!t->slots[i].live) n++;
  return n;
}

static size_t lowest_free(const struct table *t) {
  for (size_t i = 0; i < 8; i++)
    if (!t->slots[i].live) return i;
  return 8;
}

static size_t idle_others(const struct table *t, const struct source *gateway) {
  size_t n = 0;
  for (size_t i = 0; i < 4; i++) {
    const struct source *other = &t->gateways[i];
    if (other->address.kind != 0 && !same_source(other, gateway) && held(t, other) == 0) n++;
  }
  return n;
}

// The slot that a gateway may open, or 8.
static size_t to_open(const struct table *t, const struct source *gateway) {
  size_t own = held(t, gateway);
  if (own == 0) return lowest_free(t);
  if (own < 3 && idle_others(t, gateway) < free_slots(t)) return lowest_free(t);
  return 8;
}

// A part and one slot.

static size_t units(size_t bytes) { return (bytes + 7) / 8; }

// Check 10.
static bool fits(size_t size, size_t at, size_t n) {
  if (size < 40 || size > 2047 || n == 0 || at + n > size) return false;
  return n % 8 == 0 || at + n == size;
}

// Whether a part that was taken lies exactly from unit u to unit e.
static bool is_span(const struct slot *s, size_t u, size_t e) {
  if (!marked(&s->starts, u) || has_mark(&s->covered, false, u, e) || has_mark(&s->starts, true, u + 1, e)) return false;
  return e == 256 || !marked(&s->covered, e) || marked(&s->starts, e);
}

// The checksum of RFC 768. Words are added up as they stand, and their carries at the end.
static uint64_t words(const uint8_t *d, size_t n) {
  uint64_t sum = 0;
  for (size_t i = 0; i + 1 < n; i += 2) sum += (uint64_t)d[i] << 8 | d[i + 1];
  return n % 2 ? sum + ((uint64_t)d[n - 1] << 8) : sum;
}

// The words of a datagram of n bytes that a checksum goes over, the pseudo-header's among them: the datagram's headers
// and, apart from them, the rest.
static uint64_t summed(const uint8_t *headers, size_t length, const uint8_t *rest, size_t n, const struct sum *s) {
  uint64_t sum = n - s->udp + 17 + words(rest, n - length);
  if (s->udp == s->ip + 40) return sum + words(headers + s->ip + 8, length - s->ip - 8);
  return sum + words(headers + s->ip + 8, 32) + words(headers + s->udp, length - s->udp);
}

static uint64_t folded(uint64_t sum) {
  while (sum >> 16) sum = (sum & 0xffff) + (sum >> 16);
  return sum;
}

// The checksum of a whole datagram at its place.
static void put_checksum(uint8_t *d, size_t n, const struct sum *s) {
  if (n < s->udp + 8u) return;
  d[s->udp + 6] = d[s->udp + 7] = 0;
  uint64_t sum = folded(summed(d, n, d + n, n, s));
  if (sum != 0xffff) sum = 0xffff - sum;
  d[s->udp + 6] = (uint8_t)(sum >> 8);
  d[s->udp + 7] = (uint8_t)sum;
}

// Whether a carried checksum is wrong: with it, the words must come to ffff, and it is never 0.
static bool is_wrong(const uint8_t *headers, size_t length, const uint8_t *rest, size_t n, const struct sum *s) {
  if (s->kind != CARRIED) return false;
  return (headers[s->udp + 6] | headers[s->udp + 7]) == 0 || folded(summed(headers, length, rest, n, s)) != 0xffff;
}

// Takes a part that touches nothing taken; full cover hands the datagram out, or refuses it, and frees the slot.
static uint64_t place(struct slot *s, uint8_t *room, const struct call *c, const struct sum *sum, uint8_t *out) {
  size_t u = c->offset, size = c->size;
  memcpy(room + 8 * u, c->part.at, c->part.size);
  mark(&s->covered, u, u + units(c->part.size));
  mark(&s->starts, u, u + 1);
  if (u == 0) s->sum = *sum;
  if (has_mark(&s->covered, false, 0, units(size))) return KEPT;
  struct sum whole = s->sum;
  free_slot(s);
  if (is_wrong(room, size, room + size, size, &whole)) return WRONG_SUM;
  memcpy(out, room, size);
  if (whole.kind == ELIDED) put_checksum(out, size, &whole);
  return OUT + size;
}

static uint64_t offer(struct slot *s, uint8_t *room, const struct call *c, const struct sum *sum, uint8_t *out) {
  size_t u = c->offset, e = u + units(c->part.size);
  if (is_span(s, u, e) && memcmp(room + 8 * u, c->part.at, c->part.size) == 0) return KEPT;
  if (has_mark(&s->covered, true, u, e)) {
    free_slot(s);
    return CLASH;
  }
  return place(s, room, c, sum, out);
}

static bool is_gateway(const struct table *t, const struct source *a) {
  for (size_t i = 0; i < 4; i++)
    if (t->gateways[i].address.kind != 0 && same_source(&t->gateways[i], a)) return true;
  return false;
}

// Checks 7 and 8; then the time is taken and old slots are freed. 0, or the refusal.
static uint64_t take_time(struct table *t, uint64_t time, const struct lent *l) {
  if (l->mem.size < 16384 || l->out.size < 2047) return NO_ROOM;
  if (time < t->last) return EARLIER;
  t->last = time;
  for (size_t i = 0; i < 8; i++)
    if (t->slots[i].live && time - t->slots[i].since >= 60000) free_slot(&t->slots[i]);
  return 0;
}

// A part of a gateway: checks 10 to 12, and 17.
static uint64_t take_part(struct table *t, uint64_t time, const struct key *key, const struct call *c, const struct sum *sum, const struct lent *l) {
  if (!fits(c->size, (size_t)c->offset * 8, c->part.size)) return BAD_PART;
  for (size_t i = 0; i < 8; i++)
    if (t->slots[i].live && same_key(&t->slots[i].key, key)) return offer(&t->slots[i], l->mem.at + 2048 * i, c, sum, l->out.at);
  size_t i = to_open(t, &key->src);
  if (i == 8) return NO_SLOT;
  struct slot *s = &t->slots[i];
  free_slot(s);
  s->live = true;
  s->key = *key;
  s->since = time;
  return place(s, l->mem.at + 2048 * i, c, sum, l->out.at);
}
