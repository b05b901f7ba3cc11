// The cutting of a datagram in C: plain_cut writes frame k in one call, as the library's lift_cut does; pass_cut every frame in one pass.
#ifndef CUT_H
#define CUT_H
#include <stddef.h>
#include <stdint.h>

struct cut_address {
  uint64_t kind, number;
};

struct cut_link {
  uint16_t pan;
  struct cut_address src, dst;
  uint8_t sequence;
  uint16_t tag;
  size_t limit;
};

enum { CUT_ROOM = 127 };

// The frame's length, or minus a refusal's number.
int plain_cut(const uint8_t *d, size_t size, const struct cut_link *l, unsigned k, uint8_t *out, size_t room);
// How many frames, each at CUT_ROOM times its number, their lengths beside them; or minus a refusal's number.
int pass_cut(const uint8_t *d, size_t size, const struct cut_link *l, uint8_t *out, uint8_t *lengths);
#endif
