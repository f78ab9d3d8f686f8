/* Sinkerpost: checking and normalising balise telegrams (TB/T 3484-2017), and the message of a group of them, proved.
 *
 * A telegram is n bits, 58 to 830, in ceil(n/8) bytes, the first bit in the highest bit of byte 0, unused low bits of the last
 * byte 0. All functions answer every input. The first two answer 0, or 1,024 times the number of a refusal plus its place, the bit, counted from 0, where
 * the offending field begins or would begin. They keep nothing between calls, allocate nothing and touch nothing but the bytes that
 * they are lent.
 *
 * The caller's own duty: `bytes` is `length` bytes and `sizes` is `telegrams` numbers that can be read; `out`, `pigs` and `numbers` are as many bytes
 * as is said that can be written; and no two of them overlap. A pointer is never null, not even with a length of 0.
 */
#ifndef SINKERPOST_H
#define SINKERPOST_H

#include <stddef.h>
#include <stdint.h>

/* Of what this header declares. The second number rises with each change that adds something, the first with one that takes something away or
 * changes an answer; before 1.0 the second stands for both. */
#define SINKERPOST_VERSION "0.5.0"
#define SINKERPOST_VERSION_NUMBER 500 /* 10,000, 100 and 1 times its three numbers */

#ifdef __cplusplus
extern "C" {
#endif

/* Room for the bytes of any telegram. */
enum { SINKERPOST_BYTES = 104 };

/* Whether the bytes and n are a telegram. */
uint64_t sinkerpost_check(const uint8_t *bytes, size_t length, uint64_t n);

/* Writes the normal form of a telegram, which has n bits too, into out, at least SINKERPOST_BYTES. Bytes past ceil(n/8) - 1 stay as they
 * were; a refusal changes none. */
uint64_t sinkerpost_normalise(const uint8_t *bytes, size_t length, uint64_t n, uint8_t *out, size_t room);

/* Lists the packets of a balise group's message: the N_PIG of each in pigs and its number in its telegram in numbers, which have room for at least
 * SINKERPOST_PACKETS each. The telegrams lie one behind the other in `bytes`, each from a fresh byte, and `sizes` has how many bits each has. The
 * answer is how many packets there are, or a refusal, which changes neither run. In an archive of its own, libgroup_face.a. */
uint64_t sinkerpost_group(const uint8_t *bytes, size_t length, const size_t *sizes, size_t telegrams, uint8_t *pigs, size_t pigs_room,
                          uint8_t *numbers, size_t numbers_room);

enum { SINKERPOST_PACKETS = 264 };

/* Of what sinkerpost_group answers: 0 for a message, and the answer is then the count of its packets; or the number of the refusal; the arrival number of the telegram that is refused by itself, or
 * the N_PIG for 23 and for 10 over the group; and the place. A 10 can be either: a telegram that holds both packets is refused by itself. */
#define SINKERPOST_GROUP_NUMBER(answer) ((answer) >> 59)
#define SINKERPOST_GROUP_WHICH(answer) ((answer) >> 10 & 0x1ffffffffffff)
#define SINKERPOST_GROUP_PLACE(answer) ((answer) % 1024)

/* The number of a refusal, and its place: 0 for 1 to 3, the L_PACKET for 8, the first bit past the end mark for 11. */
#define SINKERPOST_NUMBER(answer) ((answer) / 1024)
#define SINKERPOST_PLACE(answer) ((answer) % 1024)

/* The refusals. The functions above give 1 to 11 and 21 to 23; 12, 13 and 20 are the numbers that the writer and the import of a data sheet print, for
 * programs that read those. */
enum {
    SINKERPOST_OK = 0,
    SINKERPOST_ROOM = 1,       /* what is lent is too short: out has fewer than 104 bytes, or a run has room for fewer than 264 packets */
    SINKERPOST_SIZE = 2,       /* n outside 58..830, or the input is not ceil(n/8) bytes */
    SINKERPOST_PADDING = 3,    /* an unused low bit of the last byte is 1 */
    SINKERPOST_HEADER = 4,     /* a header rule is broken */
    SINKERPOST_ENDED = 5,      /* the bits end inside a field or before the end mark */
    SINKERPOST_UNKNOWN = 6,    /* NID_PACKET or NID_XUSER is not in the tables */
    SINKERPOST_VALUE = 7,      /* a field holds a value that is not allowed */
    SINKERPOST_LENGTH = 8,     /* L_PACKET is not the number of bits that its packet takes */
    SINKERPOST_DIRECTION = 9,  /* a CTCS packet's Q_DIR differs from that of its ETCS-44 */
    SINKERPOST_REPEATED = 10,  /* a second packet of one NID_PACKET, other than 44, with the Q_DIR of an earlier one, or one of the two is 2 */
    SINKERPOST_TRAILING = 11,  /* bits, or values, follow the end mark */
    SINKERPOST_WIDE = 12,      /* a value that is to be written does not fit its field */
    SINKERPOST_FULL = 13,      /* a field that is to be written would end past bit 830 */
    SINKERPOST_ROW = 20,       /* a row of a data sheet is none, or its name is not the one due there; the place is the row */
    SINKERPOST_IDENTITY = 21,  /* the telegrams are not one group: identity, positions, or how many there are */
    SINKERPOST_COUNTERS = 22,  /* their counters do not match */
    SINKERPOST_COPIED = 23     /* M_DUP names no balise, or one with other packets */
};

#ifdef __cplusplus
}
#endif

#endif
