// Captures to pcap and back in plain C, with the same checks: what to_pcap and from_pcap are measured against.
#include <stdint.h>
#include <stdio.h>
#include <string.h>
#include <unistd.h>

enum { BLOCK = 512, ROOM = 65536, THREE = 429 };

static uint16_t table[256];
static uint8_t in[ROOM], out[ROOM];

static void make_table(void) {
  for (unsigned n = 0; n < 256; n++) {
    unsigned v = n;
    for (int i = 0; i < 8; i++) v = v >> 1 ^ (v & 1 ? 0x8408 : 0);
    table[n] = v;
  }
}

static unsigned fcs(const uint8_t *s) {
  unsigned v = 0;
  for (int i = 0; i < 510; i++) v = v >> 8 ^ table[(v ^ s[i]) & 0xff];
  return v;
}

static uint32_t le32(const uint8_t *s) { return s[0] | s[1] << 8 | s[2] << 16 | (uint32_t)s[3] << 24; }
static void put32(uint8_t *s, uint32_t x) { s[0] = x; s[1] = x >> 8; s[2] = x >> 16; s[3] = x >> 24; }

static int zero(const uint8_t *s, int n) {
  for (int i = 0; i < n; i++) if (s[i]) return 0;
  return 1;
}

static int good(const uint8_t *b, uint64_t number) {
  if (le32(b) != number || b[4] > 3 || b[5]) return 0;
  for (int k = 0; k < 3; k++) {
    const uint8_t *p = b + 6 + 132 * k;
    if (k >= b[4]) { if (!zero(p, 132)) return 0; }
    else if (p[4] > 127 || !zero(p + 5 + p[4], 127 - p[4])) return 0;
  }
  return zero(b + 402, 108) && (unsigned)(b[510] | b[511] << 8) == fcs(b);
}

static int no(int n) { fprintf(stderr, "no %d\n", n); return 1; }

static void send(const uint8_t *s, size_t n) {
  while (n) { ssize_t k = write(1, s, n); if (k <= 0) return; s += k; n -= k; }
}

static const uint8_t head[24] = {0xd4, 0xc3, 0xb2, 0xa1, 2, 0, 4, 0, 0, 0, 0, 0, 0, 0, 0, 0, 127, 0, 0, 0, 230, 0, 0, 0};

static int to(void) {
  size_t have = 0;
  uint64_t number = 0;
  send(head, 24);
  for (;;) {
    ssize_t got = read(0, in + have, ROOM - have);
    if (got <= 0) return have ? no(15) : 0;
    have += got;
    size_t at = 0, n = 0;
    for (; have - at >= BLOCK; at += BLOCK) {
      const uint8_t *b = in + at;
      if (!good(b, number++)) { send(out, n); return no(15); }
      for (int k = 0; k < b[4]; k++) {
        const uint8_t *p = b + 6 + 132 * k;
        uint32_t t = le32(p), len = p[4];
        put32(out + n, t / 1000); put32(out + n + 4, t % 1000 * 1000); put32(out + n + 8, len); put32(out + n + 12, len);
        memcpy(out + n + 16, p + 5, len);
        n += 16 + len;
      }
    }
    send(out, n);
    memmove(in, in + at, have -= at);
  }
}

// The frame at s, of n bytes: its whole length, or less than 0 for a refusal.
static int frame(const uint8_t *s, size_t n, uint8_t *place) {
  if (n < 8) return -1;
  uint32_t sec = le32(s), micro = le32(s + 4);
  uint64_t t = (uint64_t)sec * 1000 + micro / 1000;
  if (micro >= 1000000 || micro % 1000 || t >> 32) return -18;
  if (n < 12) return -1;
  uint32_t len = le32(s + 8);
  if (len > 127) return -4;
  if (n < 16) return -1;
  if (le32(s + 12) != len) return -4;
  if (n - 16 < len) return -1;
  put32(place, t);
  place[4] = len;
  memcpy(place + 5, s + 16, len);
  return 16 + len;
}

static int from(void) {
  size_t have = 0;
  uint64_t number = 0;
  int begun = 0;
  for (;;) {
    ssize_t got = read(0, in + have, ROOM - have);
    if (got < 0) return 1;
    have += got;
    size_t at = 0, n = 0;
    if (!begun) {
      if (have < 24 && got) continue;
      if (have < 24) return no(1);
      if (memcmp(in, head, 4)) return no(2);
      if (memcmp(in, head, 24)) return no(3);
      at = 24;
      begun = 1;
    }
    while (have > at && (!got || have - at >= THREE)) {
      if (ROOM - n < BLOCK) { send(out, n); n = 0; }
      uint8_t *b = out + n;
      memset(b, 0, BLOCK);
      int k = 0;
      for (; k < 3 && have > at; k++) {
        int len = frame(in + at, have - at, b + 6 + 132 * k);
        if (len < 0) { send(out, n); return no(-len); }
        if (number >> 32) { send(out, n); return no(18); }
        at += len;
      }
      put32(b, number++);
      b[4] = k;
      unsigned v = fcs(b);
      b[510] = v;
      b[511] = v >> 8;
      n += BLOCK;
    }
    send(out, n);
    memmove(in, in + at, have -= at);
    if (!got) return 0;
  }
}

int main(int argc, char **argv) {
  make_table();
  return argc == 2 && argv[1][0] == 't' ? to() : from();
}
