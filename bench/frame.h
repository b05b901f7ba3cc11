// The call on a frame, by the scope document, in plain C: the headers are read where they stand, the table of rules.h is
// changed in place. Each check answers 0 or its refusal's number.
#include "frames.h"
#include "rules.h"

// Bytes that are left to read.
struct rest {
  const uint8_t *at;
  size_t left;
};

static const uint8_t *take(struct rest *r, size_t n) {
  if (r->left < n) return NULL;
  const uint8_t *p = r->at;
  r->at += n;
  r->left -= n;
  return p;
}

// The MAC header.

struct mac {
  struct source src;
  struct address dst;
};

// An address of a mode, least significant byte first.
static bool read_address(struct rest *r, unsigned mode, struct address *a) {
  size_t n = mode == 0 ? 0 : mode == 2 ? 2 : 8;
  const uint8_t *p = take(r, n);
  if (p == NULL) return false;
  a->kind = mode == 0 ? 0 : mode == 2 ? 1 : 2;
  a->number = 0;
  for (size_t i = n; i > 0; i--) a->number = a->number << 8 | p[i - 1];
  return true;
}

// Which PANs a frame carries.
static void pans(unsigned version, unsigned dst, unsigned src, bool compressed, bool *dst_pan, bool *src_pan) {
  if (version < 2) {
    *dst_pan = dst != 0;
    *src_pan = src != 0 && !(dst != 0 && compressed);
  } else if (dst == 0 && src == 0) {
    *dst_pan = compressed;
    *src_pan = false;
  } else if (src == 0 || (dst == 3 && src == 3)) {
    *dst_pan = !compressed;
    *src_pan = false;
  } else {
    *dst_pan = dst != 0;
    *src_pan = !compressed;
  }
}

// The addressing fields.
static bool read_addressing(struct rest *r, unsigned version, unsigned dst, unsigned src, bool compressed, struct mac *m) {
  bool dst_pan, src_pan;
  pans(version, dst, src, compressed, &dst_pan, &src_pan);
  const uint8_t *pan = NULL; // the source's where there is one, else the destination's
  if (dst_pan && (pan = take(r, 2)) == NULL) return false;
  if (!read_address(r, dst, &m->dst)) return false;
  if (src_pan && (pan = take(r, 2)) == NULL) return false;
  m->src.pan = pan == NULL ? 0 : 1u + pan[0] + 256u * pan[1];
  return read_address(r, src, &m->src.address);
}

// The auxiliary security header: a control byte, the counter unless it is suppressed, the key identifier.
static bool read_security(struct rest *r) {
  static const uint8_t identifier[4] = {0, 1, 5, 9};
  const uint8_t *control = take(r, 1);
  return control != NULL && take(r, (*control & 0x20 ? 0 : 4) + identifier[*control >> 3 & 3]) != NULL;
}

// The MAC refusals, then 13.
static uint64_t read_mac(struct rest *r, struct mac *m) {
  if (r->left < 3) return CUT_SHORT;
  if (r->left > 127) return BAD_LENGTH;
  const uint8_t *f = take(r, 2);
  unsigned type = f[0] & 7, version = f[1] >> 4 & 3, dst = f[1] >> 2 & 3, src = f[1] >> 6;
  bool suppressed = version == 2 && f[1] & 1 && type <= 3, elements = version == 2 && f[1] & 2;
  bool secured = f[0] & 0x08, compressed = f[0] & 0x40;
  if (version == 3 || dst == 1 || src == 1 || (version < 2 && compressed && dst == 0 && src == 0)) return BAD_MODE;
  if (!suppressed) take(r, 1);
  bool addressed = type == 0 || type == 1 || type == 3 || type == 5 || (type == 2 && version == 2);
  if (addressed && !read_addressing(r, version, dst, src, compressed, m)) return CUT_SHORT;
  if (secured && !read_security(r)) return CUT_SHORT;
  return secured || elements || type != 1 ? NOT_TAKEN : 0;
}

// The relays' headers: a mesh header, whose originator and final address stand for the MAC's, and a broadcast header.

// An address, most significant byte first.
static bool read_relayed(struct rest *r, bool is_short, struct address *a) {
  size_t n = is_short ? 2 : 8;
  const uint8_t *p = take(r, n);
  if (p == NULL) return false;
  a->kind = is_short ? 1 : 2;
  a->number = 0;
  for (size_t i = 0; i < n; i++) a->number = a->number << 8 | p[i];
  return true;
}

static uint64_t read_relays(struct rest *r, struct mac *m) {
  for (unsigned seen = 0; r->left > 0;) {
    uint8_t first = r->at[0];
    if (first >> 6 == 2) {
      if (seen != 0) return BAD_MODE;
      seen = 1;
      if (take(r, (first & 15) == 15 ? 2 : 1) == NULL) return CUT_SHORT;
      if (!read_relayed(r, first & 0x20, &m->src.address) || !read_relayed(r, first & 0x10, &m->dst)) return CUT_SHORT;
    } else if (first == 0x50) {
      if (seen == 2) return BAD_MODE;
      seen = 2;
      if (take(r, 2) == NULL) return CUT_SHORT;
    } else {
      break;
    }
  }
  return 0;
}

// IPHC, extension headers and UDP NHC, expanded.

struct contexts {
  const uint8_t *of; // 8 bytes each
  size_t count;
};

enum { IPV6 = 40, UDP = 8, UDP_NUMBER = 17, IPV6_NUMBER = 41, MOST_HEADERS = 8, LONGEST = 455 };

// An IPv6 address by context or link-local, of mode 01 to 11 or, carried in full, 00. An elided one is made of the
// link-layer address or, where there is one, of the enclosing IPv6 header's.
static uint64_t read_unicast(struct rest *r, bool by_context, unsigned mode, unsigned number, const struct contexts *c, const struct address *link,
                             const uint8_t *enclosing, uint8_t *ip) {
  static const uint8_t link_local[8] = {0xfe, 0x80}, from_short[6] = {0, 0, 0, 0xff, 0xfe, 0};
  const uint8_t *p;
  if (mode == 0) {
    if ((p = take(r, 16)) == NULL) return CUT_SHORT;
    memcpy(ip, p, 16);
    return 0;
  }
  if (mode == 1) {
    if ((p = take(r, 8)) == NULL) return CUT_SHORT;
    memcpy(ip + 8, p, 8);
  } else if (mode == 2) {
    if ((p = take(r, 2)) == NULL) return CUT_SHORT;
    memcpy(ip + 8, from_short, 6);
    memcpy(ip + 14, p, 2);
  } else if (enclosing != NULL) {
    memcpy(ip + 8, enclosing + 8, 8);
  } else if (link->kind == 0) {
    return NO_ADDRESS;
  } else if (link->kind == 1) {
    memcpy(ip + 8, from_short, 6);
    ip[14] = (uint8_t)(link->number >> 8);
    ip[15] = (uint8_t)link->number;
  } else {
    for (size_t i = 0; i < 8; i++) ip[8 + i] = (uint8_t)(link->number >> (56 - 8 * i));
    ip[8] ^= 2;
  }
  if (by_context && number >= c->count) return NO_CONTEXT;
  memcpy(ip, by_context ? c->of + 8 * number : link_local, 8);
  return 0;
}

static uint64_t read_multicast(struct rest *r, unsigned mode, uint8_t *ip) {
  static const uint8_t carried[4] = {16, 6, 4, 1};
  size_t n = carried[mode];
  const uint8_t *p = take(r, n);
  if (p == NULL) return CUT_SHORT;
  if (mode == 0) {
    memcpy(ip, p, 16);
    return 0;
  }
  memset(ip, 0, 16);
  ip[0] = 0xff;
  ip[1] = mode == 3 ? 2 : *p++;
  if (mode != 3) n--;
  memcpy(ip + 16 - n, p, n);
  return 0;
}

// Traffic class and flow label.
static bool read_traffic(struct rest *r, unsigned tf, uint8_t *ip) {
  static const uint8_t carried[4] = {4, 3, 1, 0};
  const uint8_t *p = take(r, carried[tf]);
  if (p == NULL) return false;
  unsigned class = tf == 3 ? 0 : p[0] >> 6;
  if (tf == 0 || tf == 2) class |= (p[0] & 0x3fu) << 2;
  ip[0] = (uint8_t)(0x60 | class >> 4);
  ip[1] = (uint8_t)(class << 4 | (tf < 2 ? p[carried[tf] - 3] & 0x0fu : 0));
  ip[2] = tf < 2 ? p[carried[tf] - 2] : 0;
  ip[3] = tf < 2 ? p[carried[tf] - 1] : 0;
  return true;
}

// The IPHC header into an IPv6 header without its payload length. *more: whether the next header is compressed too.
static uint64_t read_iphc(struct rest *r, const struct mac *m, const struct contexts *c, const uint8_t *enclosing, uint8_t *ip, bool *more) {
  static const uint8_t hops[4] = {0, 1, 64, 255};
  const uint8_t *p, *h = take(r, 2);
  if (h == NULL) return CUT_SHORT;
  if (h[0] >> 5 != 3) return OTHER_BITS;
  unsigned identifiers = 0;
  if (h[1] & 0x80) {
    if ((p = take(r, 1)) == NULL) return CUT_SHORT;
    identifiers = *p;
  }
  if (!read_traffic(r, h[0] >> 3 & 3, ip)) return CUT_SHORT;
  *more = h[0] & 4;
  if (!*more) {
    if ((p = take(r, 1)) == NULL) return CUT_SHORT;
    ip[6] = *p;
  }
  ip[7] = hops[h[0] & 3];
  if ((h[0] & 3) == 0) {
    if ((p = take(r, 1)) == NULL) return CUT_SHORT;
    ip[7] = *p;
  }
  unsigned sam = h[1] >> 4 & 3, dam = h[1] & 3;
  bool sac = h[1] & 0x40, many = h[1] & 0x08, dac = h[1] & 0x04;
  if (sac && sam == 0) {
    memset(ip + 8, 0, 16);
  } else {
    uint64_t no = read_unicast(r, sac, sam, identifiers >> 4, c, &m->src.address, enclosing == NULL ? NULL : enclosing + 8, ip + 8);
    if (no != 0) return no;
  }
  if (dac && (many || dam == 0)) return BAD_MODE;
  if (many) return read_multicast(r, dam, ip + 24);
  return read_unicast(r, dac, dam, identifiers & 15, c, &m->dst, enclosing == NULL ? NULL : enclosing + 24, ip + 24);
}

// The compressed UDP header into a UDP header without its length.
static uint64_t read_udp(struct rest *r, uint8_t *udp, bool *elided) {
  static const uint8_t carried[4] = {4, 3, 3, 1};
  const uint8_t *h = take(r, 1);
  if (h == NULL) return CUT_SHORT;
  if (*h >> 3 != 30) return OTHER_BITS;
  unsigned ports = *h & 3;
  const uint8_t *p = take(r, carried[ports]);
  if (p == NULL) return CUT_SHORT;
  if (ports == 3) {
    udp[0] = udp[2] = 0xf0;
    udp[1] = 0xb0 | p[0] >> 4;
    udp[3] = 0xb0 | (p[0] & 15);
  } else {
    udp[0] = ports == 2 ? 0xf0 : *p++;
    udp[1] = *p++;
    udp[2] = ports == 1 ? 0xf0 : *p++;
    udp[3] = *p;
  }
  *elided = *h & 4;
  udp[6] = udp[7] = 0;
  if (!*elided) {
    if ((p = take(r, 2)) == NULL) return CUT_SHORT;
    memcpy(udp + 6, p, 2);
  }
  return 0;
}

// An extension header behind its first byte; *n: its bytes in full.
static uint64_t read_extension(struct rest *r, bool options, bool more, uint8_t *to, size_t *n) {
  const uint8_t *p;
  if (!more) {
    if ((p = take(r, 1)) == NULL) return CUT_SHORT;
    to[0] = *p;
  }
  if ((p = take(r, 1)) == NULL) return CUT_SHORT;
  size_t length = *p, pad = (6 - length) & 7;
  if (!options && pad != 0) return BAD_MODE;
  if ((p = take(r, length)) == NULL) return CUT_SHORT;
  memcpy(to + 2, p, length);
  to += 2 + length;
  memset(to, 0, pad);
  if (pad > 1) {
    to[0] = 1;
    to[1] = (uint8_t)(pad - 2);
  }
  *n = 2 + length + pad;
  (to - 2 - length)[1] = (uint8_t)(*n / 8 - 1);
  return 0;
}

// Headers in full; what is left of r follows them.
struct expanded {
  size_t headers, total; // their bytes, and all bytes
  size_t tunnels, ip[MOST_HEADERS]; // where IPv6 headers begin
  size_t udp;                       // where the UDP header begins, 0 for none
  struct sum sum;
};

static uint64_t read_headers(struct rest *r, const struct mac *m, const struct contexts *c, uint8_t *to, struct expanded *e) {
  static const uint8_t numbers[5] = {0, 43, 0, 60, 135};
  bool more, elided, routed = false;
  uint64_t no = read_iphc(r, m, c, NULL, to, &more);
  if (no != 0) return no;
  uint8_t *next = to + 6; // where the number of the following header goes
  size_t at = IPV6, ip = 0, length;
  e->ip[0] = 0;
  e->tunnels = 1;
  e->udp = 0;
  e->sum = (struct sum){NONE, 0, 0};
  for (unsigned headers = 1; more; headers++) {
    if (r->left == 0) return CUT_SHORT;
    uint8_t h = r->at[0];
    if (h >> 4 != 14) {
      if ((no = read_udp(r, to + at, &elided)) != 0) return no;
      if (elided && routed) return NOT_TAKEN;
      *next = UDP_NUMBER;
      e->udp = at;
      if (!routed) e->sum = (struct sum){elided ? ELIDED : CARRIED, (uint16_t)ip, (uint16_t)at};
      at += UDP;
      break;
    }
    if (headers == MOST_HEADERS) return BAD_MODE;
    unsigned eid = h >> 1 & 7;
    more = h & 1;
    take(r, 1);
    if (eid == 7) {
      if (more) return BAD_MODE;
      if ((no = read_iphc(r, m, c, to + ip, to + at, &more)) != 0) return no;
      *next = IPV6_NUMBER;
      next = to + at + 6;
      routed = false;
      e->ip[e->tunnels++] = ip = at;
      at += IPV6;
    } else {
      if (eid > 4 || eid == 2) return NOT_TAKEN;
      if ((no = read_extension(r, eid == 0 || eid == 3, more, to + at, &length)) != 0) return no;
      *next = numbers[eid];
      next = to + at;
      routed |= eid == 1;
      at += length;
    }
  }
  e->headers = at;
  e->total = at + r->left;
  return 0;
}

static void put_16(uint8_t *to, size_t n) {
  to[0] = (uint8_t)(n >> 8);
  to[1] = (uint8_t)n;
}

// The lengths of a datagram of so many bytes.
static void put_lengths(uint8_t *to, const struct expanded *e, size_t size) {
  for (size_t i = 0; i < e->tunnels; i++) put_16(to + e->ip[i] + 4, size - e->ip[i] - IPV6);
  if (e->udp != 0) put_16(to + e->udp + 4, size - e->udp);
}

static uint64_t receive_whole(struct rest *r, const struct mac *m, const struct contexts *c, uint8_t *out) {
  uint8_t headers[LONGEST];
  struct expanded e;
  uint64_t no = read_headers(r, m, c, headers, &e);
  if (no != 0) return no;
  put_lengths(headers, &e, e.total);
  if (is_wrong(headers, e.headers, r->at, e.total, &e.sum)) return WRONG_SUM;
  memcpy(out, headers, e.headers);
  memcpy(out + e.headers, r->at, r->left);
  if (e.sum.kind == ELIDED) put_checksum(out, e.total, &e.sum);
  return OUT + e.total;
}

static uint64_t receive_fragment(struct table *t, uint64_t time, struct rest *r, const struct mac *m, const struct contexts *c, const struct lent *l) {
  uint8_t first[LONGEST];
  const uint8_t *h = take(r, 4), *offset;
  if (h == NULL) return CUT_SHORT;
  struct key key = {m->src, m->dst, (uint16_t)((h[0] & 7) << 8 | h[1]), (uint16_t)(h[2] << 8 | h[3])};
  struct call part = {.size = key.size};
  struct sum sum = {NONE, 0, 0};
  if (h[0] >> 3 == 28) {
    if ((offset = take(r, 1)) == NULL) return CUT_SHORT;
    if (*offset == 0) return BAD_PART;
    part.offset = *offset;
    part.part = (struct slice){(uint8_t *)r->at, r->left};
  } else {
    struct expanded e;
    uint64_t no = read_headers(r, m, c, first, &e);
    if (no != 0) return no;
    if (e.total > key.size) return BAD_PART;
    put_lengths(first, &e, key.size);
    memcpy(first + e.headers, r->at, r->left);
    sum = e.sum;
    part.part = (struct slice){first, e.total};
  }
  return take_part(t, time, &key, &part, &sum, l);
}

static uint64_t receive_at(struct table *t, uint64_t time, const struct frame_call *f, const struct lent *l) {
  uint64_t no = take_time(t, time, l);
  if (no != 0) return no;
  struct rest r = {f->frame.at, f->frame.size};
  struct contexts c = {f->contexts.at, f->contexts.size / 8};
  struct mac m;
  if ((no = read_mac(&r, &m)) != 0 || (no = read_relays(&r, &m)) != 0) return no;
  if (!is_gateway(t, &m.src)) return NOT_GATEWAY;
  if (m.dst.kind == 0) return NO_ADDRESS;
  if (r.left == 0) return CUT_SHORT;
  unsigned dispatch = r.at[0] >> 3;
  if (dispatch == 24 || dispatch == 28) return receive_fragment(t, time, &r, &m, &c, l);
  if (dispatch >> 2 == 3) return receive_whole(&r, &m, &c, l->out.at);
  return OTHER_BITS;
}

static uint64_t begin(void *table, const uint64_t *gateways, size_t numbers) {
  struct table *t = table;
  size_t count = numbers / 2;
  if (count > 4) return BAD_GATEWAYS;
  for (size_t i = 0; i < count; i++) {
    if ((gateways[2 * i] & 0xffff) == 0) return BAD_GATEWAYS;
    for (size_t j = 0; j < i; j++)
      if (gateways[2 * i] == gateways[2 * j] && gateways[2 * i + 1] == gateways[2 * j + 1]) return BAD_GATEWAYS;
  }
  memset(t, 0, sizeof *t);
  for (size_t i = 0; i < count; i++) t->gateways[i] = (struct source){{(uint8_t)gateways[2 * i], gateways[2 * i + 1]}, (uint32_t)(gateways[2 * i] >> 16)};
  return 0;
}

#include "frame_run.h"
