/* lift.h: the receiver's side of 6LoWPAN for C and C++. IEEE 802.15.4 frames in, whole IPv6 datagrams out.
 *
 * Link with liblift.a, which `examples/archive` writes to target/staticlib/ after it has proved every function in it. The
 * library calls memcpy and memset and nothing else: it does not allocate, block, print, keep state of its own, or use threads.
 *
 * What is proved, and what is not. A call that keeps the rules below ends, and reads and writes nothing that was not lent.
 * Its answer, the table and every byte that it was lent are, on every frame, exactly what crates/lift/specs/Face.antt
 * defines. The compiler cannot check the rules themselves across this boundary, so they are yours to keep:
 *
 *   1. A pointer is not null and stands before as many bytes (or numbers) as the length beside it says. They are readable,
 *      and writable where it is not const. With a length of 0 the pointer is not looked behind, but is still not null.
 *      No length is over PTRDIFF_MAX bytes.
 *   2. What a call may write overlaps nothing else that the call takes. So table, mem and out are apart from each other and
 *      from frame and contexts. (frame and contexts may overlap each other.)
 *   3. The table's bytes are all zero before its first lift_begin, and from then on only these calls write them. It may be
 *      copied or moved as a whole, with its mem, between calls. Nothing in it is a pointer.
 *   4. mem belongs to the table: between calls nobody writes to its first 16,384 bytes. It need not be cleared at first.
 *   5. No two calls use one table, its mem or an out at the same time. Different tables are independent.
 *
 * Nothing that is lent is kept: no call remembers a pointer, so frame, contexts and out may go away, or move, when it returns.
 * mem and the table must live as long as parts are to be remembered.
 */
#ifndef LIFT_H
#define LIFT_H

#include <stddef.h>
#include <stdint.h>

#ifdef __cplusplus
extern "C" {
#endif

/* The version of this interface. It grows when a call, a size or the meaning of a number changes; a new name alone does not
 * count. The header and the archive of one release belong together. */
#define LIFT_VERSION 3u

/* The least bytes of mem and of out; with less a call answers LIFT_REFUSED with 7. */
#define LIFT_MEM_BYTES 16384u
#define LIFT_OUT_BYTES 2047u

/* What to pass with a length of 0, for contexts or a frame: the rules allow no null pointer. */
#define LIFT_NONE ((const uint8_t *)"")

/* A length. It crosses as 64 bits on every machine, 32-bit ones too, since that is the length of which the proofs speak. On
 * 64-bit machines it is size_t. A pointer is as wide as the machine's. */
typedef uint64_t lift_len;

/* A table: eight slots, the last time taken, and at most four gateways. 1,192 bytes, aligned to 8. What the words hold is
 * not part of this interface. examples/c/layout.c checks the size and the alignment at run time against the library itself. */
typedef struct lift_table {
  uint64_t words[149];
} lift_table;

/* A gateway: the kind of its address, with its PAN, and the address, the byte that the standard writes first being the highest.
 * 0x0001 is the short address 0001, 0x0011223344556677 the extended 00:11:22:33:44:55:66:77.
 *
 *   {LIFT_IN(LIFT_SHORT, 0xabcd), 0x0001}       short 0001 in PAN abcd
 *   {LIFT_SHORT, 0x0001}                        short 0001 with no PAN: "none" is a value of its own, and stands for no other
 *
 * A frame's sender is known by its address and PAN: the source PAN if the frame carries one, else the destination PAN, else
 * none. Version 1 of this interface had no PANs. A caller of it now writes LIFT_IN(kind, pan) where it wrote the kind, and
 * hands lift_begin gateways and their count where it handed numbers. */
typedef struct lift_gateway {
  uint64_t kind;
  uint64_t value;
} lift_gateway;

#define LIFT_SHORT 1u    /* a short address, below 65,536 */
#define LIFT_EXTENDED 2u /* an extended address */
#define LIFT_IN(kind, pan) ((uint64_t)(kind) | ((uint64_t)(pan) + 1u) << 16)

/* The call behind lift_begin, as the library exports it: `numbers` counts two for each gateway. */
uint32_t lift_begin_flat(lift_table *t, const uint64_t *gateways, lift_len numbers);

/* Makes *t a table of `count` gateways, with eight free slots and the last time 0.
 *
 * Answers 0, or 14 where the list is refused; then *t is as it was. It is refused where it has more than four gateways, two
 * with one address and PAN, or something that is no gateway: another kind, a short address of 65,536 or more, a PAN over ffff.
 * A table that has begun may begin again; the parts that it held are then forgotten. */
static inline uint32_t lift_begin(lift_table *t, const lift_gateway *gateways, lift_len count) {
  return lift_begin_flat(t, &gateways->kind, 2u * count);
}

/* Hands the table a frame that was heard.
 *
 *   time          in milliseconds, from any beginning, and never falling: an earlier time than the last one is refused (8)
 *   frame         the MAC frame without its frame check, at most 127 bytes
 *   contexts      the address contexts of RFC 6282, 8 bytes each, by identifier from 0 on; a shorter rest is ignored.
 *                 With none, LIFT_NONE and 0: null is not allowed, not even with a length of 0 (rule 1)
 *   mem           the memory for parts, LIFT_MEM_BYTES or more: the same bytes in every call for this table
 *   out           where a datagram goes, LIFT_OUT_BYTES or more
 *
 * The answer is a kind in the high 16 bits and a number in the low 16; lift_kind and lift_number take it apart:
 *
 *   LIFT_KEPT     0    the frame is a part of a datagram that is not whole yet, or the repeat of one. out is as it was.
 *   LIFT_OUT      L    a datagram of L bytes, 40 to 2,047, stands at the start of out; the rest of out is as it was.
 *   LIFT_REFUSED  R    the frame is refused for reason R, below. out is as it was, to the last byte. So is mem, but for 17:
 *                      then the slot's memory keeps the part just written.
 *
 * A refusal other than 7 and 8 takes the time too, and frees slots that are 60,000 ms old or older. 11 and 17 free their slot.
 * Version 2 of this interface did not test carried checksums, and had no 17. */
uint32_t lift_receive(lift_table *t, uint64_t time, const uint8_t *frame, lift_len frame_len, const uint8_t *contexts,
                      lift_len contexts_len, uint8_t *mem, lift_len mem_len, uint8_t *out, lift_len out_len);

#define LIFT_KEPT 0u
#define LIFT_OUT 1u
#define LIFT_REFUSED 2u

static inline uint32_t lift_kind(uint32_t answer) { return answer >> 16; }
static inline uint32_t lift_number(uint32_t answer) { return answer & 0xffffu; }

/* The reasons of a refusal: the product's numbers, each with its name. docs/REFUSALS.md says what usually causes each and what
 * to do. lift_receive gives 1 to 13 and 17, lift_begin 14, lift_cut and lift_frames 4, 6, 7, 10 and 16. The others belong to
 * calls that are not in this header. */
enum lift_refusal {
  LIFT_ENDED = 1,           /* the bytes end before a needed field */
  LIFT_NOT_THIS_HEADER = 2, /* the leading bits are not this header's: not 6LoWPAN, or a dispatch that is not taken here */
  LIFT_UNSUPPORTED = 3,     /* a reserved or unsupported mode or version */
  LIFT_BAD_LENGTH = 4,      /* a length that is not allowed: a frame of over 127 bytes */
  LIFT_NO_CONTEXT = 5,      /* an address context that is not in the list */
  LIFT_NO_ADDRESS = 6,      /* a needed link-layer address is absent */
  LIFT_NO_ROOM = 7,         /* mem or out is too small */
  LIFT_EARLIER_TIME = 8,    /* the time is earlier than the last one taken */
  LIFT_NOT_GATEWAY = 9,     /* the source with its PAN is not a gateway of the table */
  LIFT_BAD_PART = 10,       /* a part that no datagram can have */
  LIFT_CLASH = 11,          /* a part that clashes with bytes already taken; its slot is freed */
  LIFT_NO_SLOT = 12,        /* no slot may be opened for this gateway now */
  LIFT_NOT_EXPANDED = 13,   /* secured, with information elements, not a Data frame, or with a header that is not expanded */
  LIFT_BAD_GATEWAYS = 14,   /* a bad list of gateways */
  LIFT_BAD_BLOCK = 15,      /* a bad capture block */
  LIFT_NOT_CUT = 16,        /* a datagram that is not cut into frames */
  LIFT_BAD_CHECKSUM = 17,   /* the datagram is whole, and the UDP checksum that it carries does not hold; its slot is freed */
  LIFT_NOT_HELD = 18        /* what no capture block can hold */
};

/* A few words on a refusal's number, for a log: never null, and "?" for a number that is none. */
static inline const char *lift_reason(uint32_t number) {
  switch (number) {
    case LIFT_ENDED: return "the bytes end before a needed field";
    case LIFT_NOT_THIS_HEADER: return "the leading bits are not this header's";
    case LIFT_UNSUPPORTED: return "a reserved or unsupported mode or version";
    case LIFT_BAD_LENGTH: return "a length that is not allowed";
    case LIFT_NO_CONTEXT: return "the address context is not in the list";
    case LIFT_NO_ADDRESS: return "a needed link-layer address is absent";
    case LIFT_NO_ROOM: return "the lent room is too small";
    case LIFT_EARLIER_TIME: return "the time is earlier than the last one taken";
    case LIFT_NOT_GATEWAY: return "the source with its PAN is not a gateway of the table";
    case LIFT_BAD_PART: return "a part that no datagram can have";
    case LIFT_CLASH: return "the part clashes with bytes taken";
    case LIFT_NO_SLOT: return "no slot may be opened";
    case LIFT_NOT_EXPANDED: return "secured, not a Data frame, or a header that is not expanded";
    case LIFT_BAD_GATEWAYS: return "the list of gateways is bad";
    case LIFT_BAD_BLOCK: return "a bad capture block";
    case LIFT_NOT_CUT: return "a datagram that is not cut into frames";
    case LIFT_BAD_CHECKSUM: return "the checksum that the datagram carries does not hold";
    case LIFT_NOT_HELD: return "what no capture block can hold";
    default: return "?";
  }
}

/* How many of the eight slots are free. Slots that have grown old count as held until a call of lift_receive frees them. */
lift_len lift_free(const lift_table *t);

/* How many slots the gateway of this kind, with its PAN, and value holds, 0 to 3; 0 for anything that is no gateway. */
lift_len lift_held(const lift_table *t, uint64_t kind, uint64_t value);

/* ---- Sending: a datagram of our own, cut into frames
 *
 * What every frame of the cutting says beside the datagram is a list of eight numbers:
 *
 *   0     the PAN (its low 16 bits)
 *   1, 2  the source address: LIFT_SHORT or LIFT_EXTENDED, and the address
 *   3, 4  the destination address
 *   5     the sequence number (its low 8 bits), the same in every frame
 *   6     the datagram's tag (its low 16 bits); another for each datagram that may be under way between the two. A datagram that
 *         goes in one frame does not use it
 *   7     the longest frame, without its frame check: 80 to 127 bytes
 *
 * A number that is missing is 0, and numbers past the eighth are not looked at. Frames are Data frames of version 0 with the PAN
 * compressed. The datagram goes in one frame where one suffices, else in parts as long as the limit allows. The answers are put
 * together as lift_receive's:
 *
 *   LIFT_OUT      N    lift_cut: frame k, N bytes long, stands at the start of out, and the rest of out is as it was;
 *                      lift_frames: the datagram goes in N frames
 *   LIFT_REFUSED  R    out is as it was, to the last byte. In this order:
 *                      4   a datagram of below 40 or over 2,047 bytes, or a limit below 80 or over 127
 *                      6   an address that is none
 *                      16  the version is not 6, the payload length is not that of the bytes, or traffic class or flow label
 *                          is not 0
 *                      10  k is the number of frames or more (lift_cut only)
 *                      7   out is shorter than the frame (lift_cut only); 127 bytes are always enough
 *
 * Neither call has a state: k, counted from 0, can be asked for in any order and again. What is proved: handed to lift_receive in
 * any order, each at least once, as docs/PROMISES.md says, the frames give the same datagram. A UDP checksum is sent as it stands,
 * so have it right. lift_receive tests it where the header went compressed, and refuses a wrong one, or 0, with 17.
 * Rule 2 holds here too: out is apart from datagram and link. */
#define LIFT_LINK_NUMBERS 8u
#define LIFT_FRAME_BYTES 127u
uint32_t lift_frames(const uint8_t *datagram, lift_len datagram_len, const uint64_t *link, lift_len numbers);
uint32_t lift_cut(const uint8_t *datagram, lift_len datagram_len, const uint64_t *link, lift_len numbers, uint16_t k, uint8_t *out,
                  lift_len out_len);

#ifdef __cplusplus
}
#endif

/* In C99 as in C++, a size that is not so is an array of -1 elements here, and the compiler stops. */
typedef char lift_table_has_1192_bytes[sizeof(lift_table) == 1192 ? 1 : -1];
typedef char lift_gateway_has_16_bytes[sizeof(lift_gateway) == 16 ? 1 : -1];
typedef char lift_len_has_8_bytes[sizeof(lift_len) == 8 ? 1 : -1];
struct lift_table_behind_a_byte {
  char byte;
  lift_table table;
};
typedef char lift_table_is_aligned_to_8[sizeof(struct lift_table_behind_a_byte) == 1192 + 8 ? 1 : -1];

#endif
