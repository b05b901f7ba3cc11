// The cutting of a datagram in plain C, as one would write it.
#include "cut.h"

#include <string.h>

static int present(const struct cut_address *a) { return a->kind == 1 || a->kind == 2; }

static uint16_t be16(const uint8_t *p) { return (uint16_t)(p[0] << 8 | p[1]); }

// The address low byte first.
static size_t put_address(uint8_t *p, const struct cut_address *a) {
  size_t n = a->kind == 1 ? 2 : 8;
  for (size_t i = 0; i < n; i++) p[i] = (uint8_t)(a->number >> 8 * i);
  return n;
}

static size_t put_mac(uint8_t *p, const struct cut_link *l) {
  unsigned control = 0x0041 | (l->dst.kind == 1 ? 2u : 3u) << 10 | (l->src.kind == 1 ? 2u : 3u) << 14;
  p[0] = (uint8_t)control;
  p[1] = (uint8_t)(control >> 8);
  p[2] = l->sequence;
  p[3] = (uint8_t)l->pan;
  p[4] = (uint8_t)(l->pan >> 8);
  size_t n = 5;
  n += put_address(p + n, &l->dst);
  n += put_address(p + n, &l->src);
  return n;
}

// The bytes of an address that travel inline, at `from`; the mode.
static unsigned unicast(const uint8_t *ip, const struct cut_address *a, const uint8_t **from, size_t *n) {
  static const uint8_t local[8] = {0xfe, 0x80}, shorts[6] = {0, 0, 0, 0xff, 0xfe, 0};
  if (memcmp(ip, local, 8) != 0) return *from = ip, *n = 16, 0;
  if (memcmp(ip + 8, shorts, 6) == 0) {
    if (a->kind == 1 && be16(ip + 14) == a->number) return *n = 0, 3;
    return *from = ip + 14, *n = 2, 2;
  }
  if (a->kind == 2) {
    uint64_t iid = 0;
    for (int i = 8; i < 16; i++) iid = iid << 8 | ip[i];
    if (iid == (a->number ^ (uint64_t)2 << 56)) return *n = 0, 3;
  }
  return *from = ip + 8, *n = 8, 1;
}

static size_t put_group(uint8_t *p, const uint8_t *ip, unsigned *mode) {
  static const uint8_t zero[16];
  if (ip[1] == 2 && memcmp(ip + 2, zero, 13) == 0) return *mode = 0xb, p[0] = ip[15], 1;
  if (memcmp(ip + 2, zero, 11) == 0) return *mode = 0xa, p[0] = ip[1], memcpy(p + 1, ip + 13, 3), 4;
  if (memcmp(ip + 2, zero, 9) == 0) return *mode = 0x9, p[0] = ip[1], memcpy(p + 1, ip + 11, 5), 6;
  return *mode = 8, memcpy(p, ip, 16), 16;
}

static size_t put_udp(uint8_t *p, const uint8_t *udp) {
  size_t n;
  if (udp[0] == 0xf0 && udp[1] >> 4 == 0xb && udp[2] == 0xf0 && udp[3] >> 4 == 0xb) {
    p[0] = 0xf3;
    p[1] = (uint8_t)(udp[1] << 4 | (udp[3] & 15));
    n = 2;
  } else if (udp[0] == 0xf0) {
    p[0] = 0xf2;
    memcpy(p + 1, udp + 1, 3);
    n = 4;
  } else if (udp[2] == 0xf0) {
    p[0] = 0xf1;
    memcpy(p + 1, udp, 2);
    p[3] = udp[3];
    n = 4;
  } else {
    p[0] = 0xf0;
    memcpy(p + 1, udp, 4);
    n = 5;
  }
  memcpy(p + n, udp + 6, 2);
  return n + 2;
}

// The compressed headers.
static size_t put_head(uint8_t *p, const uint8_t *d, const struct cut_link *l, int udp) {
  static const uint8_t none[16];
  const uint8_t *from = d;
  size_t n = 2, k = 0;
  unsigned hop = d[7] == 1 ? 1 : d[7] == 64 ? 2 : d[7] == 255 ? 3 : 0, src, dst;
  if (!udp) p[n++] = d[6];
  if (hop == 0) p[n++] = d[7];
  if (memcmp(d + 8, none, 16) == 0)
    src = 4;
  else
    src = unicast(d + 8, &l->src, &from, &k);
  memcpy(p + n, from, k);
  n += k;
  if (d[24] == 0xff)
    n += put_group(p + n, d + 24, &dst);
  else {
    dst = unicast(d + 24, &l->dst, &from, &k);
    memcpy(p + n, from, k);
    n += k;
  }
  p[0] = (uint8_t)(0x78 | (unsigned)udp << 2 | hop);
  p[1] = (uint8_t)(src << 4 | dst);
  return udp ? n + put_udp(p + n, d + 40) : n;
}

// What the cutting of a datagram needs to know, or minus a refusal's number.
struct plan {
  uint8_t head[70]; // the MAC header, four bytes free, and the compressed headers
  size_t mac, first, covers, part, most;
  int whole;
};

static int planned(struct plan *p, const uint8_t *d, size_t size, const struct cut_link *l) {
  if (size < 40 || size > 2047 || l->limit < 80 || l->limit > 127) return -4;
  if (!present(&l->src) || !present(&l->dst)) return -6;
  if (d[0] != 0x60 || d[1] || d[2] || d[3] || be16(d + 4) + 40u != size) return -16;
  int udp = size >= 48 && d[6] == 17 && be16(d + 44) + 40u == size;
  p->mac = put_mac(p->head, l);
  p->covers = udp ? 48 : 40;
  p->first = put_head(p->head + p->mac + 4, d, l, udp);
  p->whole = p->mac + p->first + size - p->covers <= l->limit;
  p->part = (l->limit - p->mac - 4 - p->first) / 8 * 8;
  p->most = l->limit - p->mac - 5;
  return 0;
}

static size_t put(uint8_t *out, const struct plan *p, size_t front, const uint8_t *part, size_t n) {
  memcpy(out, p->head, front);
  memcpy(out + front, part, n);
  return front + n;
}

static size_t put_whole(uint8_t *out, const struct plan *p, const uint8_t *d, size_t size) {
  memcpy(out, p->head, p->mac);
  memcpy(out + p->mac, p->head + p->mac + 4, p->first);
  memcpy(out + p->mac + p->first, d + p->covers, size - p->covers);
  return p->mac + p->first + size - p->covers;
}

static void put_fragment(struct plan *p, uint8_t dispatch, size_t size, uint16_t tag) {
  p->head[p->mac] = (uint8_t)(dispatch | size >> 8);
  p->head[p->mac + 1] = (uint8_t)size;
  p->head[p->mac + 2] = (uint8_t)(tag >> 8);
  p->head[p->mac + 3] = (uint8_t)tag;
}

int plain_cut(const uint8_t *d, size_t size, const struct cut_link *l, unsigned k, uint8_t *out, size_t room) {
  struct plan p;
  int refused = planned(&p, d, size, l);
  if (refused) return refused;
  if (p.whole) {
    if (k > 0) return -10;
    if (room < p.mac + p.first + size - p.covers) return -7;
    return (int)put_whole(out, &p, d, size);
  }
  if (k == 0) {
    put_fragment(&p, 0xc0, size, l->tag);
    if (room < p.mac + 4 + p.first + p.part) return -7;
    return (int)put(out, &p, p.mac + 4 + p.first, d + p.covers, p.part);
  }
  size_t step = p.most / 8 * 8, at = p.covers + p.part + (size_t)(k - 1) * step;
  if (k > 1 && at - step + p.most >= size) return -10;
  size_t n = size - at <= p.most ? size - at : step;
  if (room < p.mac + 5 + n) return -7;
  put_fragment(&p, 0xe0, size, l->tag);
  p.head[p.mac + 4] = (uint8_t)(at / 8);
  return (int)put(out, &p, p.mac + 5, d + at, n);
}

int pass_cut(const uint8_t *d, size_t size, const struct cut_link *l, uint8_t *out, uint8_t *lengths) {
  struct plan p;
  int refused = planned(&p, d, size, l), k = 1;
  if (refused) return refused;
  if (p.whole) return lengths[0] = (uint8_t)put_whole(out, &p, d, size), 1;
  put_fragment(&p, 0xc0, size, l->tag);
  lengths[0] = (uint8_t)put(out, &p, p.mac + 4 + p.first, d + p.covers, p.part);
  put_fragment(&p, 0xe0, size, l->tag);
  for (size_t at = p.covers + p.part, n; at < size; at += n, k++) {
    n = size - at <= p.most ? size - at : p.most / 8 * 8;
    p.head[p.mac + 4] = (uint8_t)(at / 8);
    lengths[k] = (uint8_t)put(out + CUT_ROOM * k, &p, p.mac + 5, d + at, n);
  }
  return k;
}
