/* Mulkefi for a host in C, C++ or Rust: one drawing, cut alike at a desk and on a wall.
 *
 * Link with libmulkefi.a, which `tools/staticlib mulkefi` writes to target/staticlib/. It is built for x86-64 Linux and asks for memcpy and
 * memset alone. No call allocates, keeps a pointer, or touches anything but the memory lent to it and its stack, so that calls on
 * different memory may run at once. A call takes some 50 kB of stack: a thread of the host's needs 128 KiB.
 *
 * Memory. No pointer is null, even where a length is 0; a length is no more than the memory has; numbers are aligned. What a call
 * may write overlaps nothing else that is lent to it. All other things about the arguments are tested: whatever the bytes, lengths,
 * counts, ids and numbers are, a call ends and answers as described here.
 *
 * Interface. MULKEFI_INTERFACE is the number of what this header declares. A host compares it with mulkefi_interface() before its other
 * calls, beside the formats' versions, which do not tell: since interface 2 mulkefi_desk_edit takes a window, under the name that it had. A
 * library of interface 1 has no mulkefi_interface, and a host that calls it does not link with one.
 *
 * Answers, but for those calls that refuse nothing (mulkefi_interface, mulkefi_library_version, mulkefi_versions, mulkefi_largest_magnitude).
 * 0 is accepted. Otherwise the low 16 bits are a refusal's number (enum mulkefi_refusal, MULKEFI_NUMBER), and the bits above a place
 * (MULKEFI_PLACE). After a refusal not one byte of the caller's memory has changed.
 *
 * Places. With MULKEFI_RELATIONS_UNMET and MULKEFI_RELATIONS_BROKEN the place is that of the first relation, in table order and counted
 * from 0, that is not met; with every other number it is 0. MULKEFI_RELATIONS_UNMET counts in the image's table of relations.
 * MULKEFI_RELATIONS_BROKEN counts in the table that the edit would have left: the image's, and behind it the relation that the edit adds,
 * the pin. So the place may be the image's number of relations: then it is the pin's, which the image does not hold.
 *
 * Marks. A wall may hear its neighbours' desks. So each start of a desk or a wall carries a mark of 8 bytes from the host: a desk writes
 * its mark into every message, and a wall refuses by MULKEFI_FOREIGN a message that bears another mark than its own. Any 8 bytes are a
 * mark, 0 too, and none is refused. The host owes three things.
 *   - Each start of a desk gets a mark that no start of a desk had before. Otherwise messages of the earlier start, which may still be on
 *     their way, are read as this one's.
 *   - A wall gets its desk's mark. It starts from the image that its desk started from, at count 0, or from its desk's present image and
 *     count.
 *   - Desk and wall keep the mark beside image and count, and hand it to every call until the next start, also when they resume from
 *     what they kept.
 * A host comes by a mark as 8 random bytes from the system, or as a counter of starts that it keeps on disk, with the desk's own number in
 * the upper half. In a message the mark stands in bytes 5 to 12, the highest first, for a host that routes messages; a wall may as well
 * be handed them all.
 *
 * Windows. A desk's window is its last 64 messages as they were written, in MULKEFI_WINDOW_SIZE bytes of the host's: message n stands at byte
 * 38 * (n % 64). It is zeros for a new desk; keep it with image and count, and lend it to every edit. An accepted edit puts its message into
 * it and leaves its other bytes; a refused one leaves it whole. Any bytes may be lent: a window holds message n where the 38 bytes of its
 * place are a message of the desk's mark with number n, and all else there counts as none. So zeros will do where the window alone was lost:
 * walls that are behind are then started again.
 *
 * Catching up. A wall that was out of reach, or that refuses by MULKEFI_AHEAD, tells the desk's host its count. mulkefi_catch_up writes the
 * messages after that count, up to the desk's; the host sends them, and they are delivered like all others. A wall to which they have come
 * in order has the desk's image and count. It may ask at any time, and again: what it has by then is old to it.
 *
 * Starting a wall again. Where mulkefi_catch_up refuses by MULKEFI_LEFT_WINDOW, the wall is too far back. The desk's host then sends its
 * present image, count and mark, which belong to one moment. The wall's host asks mulkefi_test for the image and, where that answers 0,
 * keeps the three in place of its own; no other call is needed. Desk and other walls go on as they were, messages up to that count are old to
 * the wall, and those after it come as ever. What the wall reports, and its chains and rings, count from this start: curves that were
 * removed before it are none of its own. A wall may be started again at any time, also one that is not too far back.
 *
 * A desk that is set back. The host owes a fourth thing.
 *   - A desk goes on from its last state alone: image, count and mark as its last accepted edit left them. So keep them, and the window,
 *     before the message is sent. A desk that is resumed from anything else, an earlier copy say, is a new start: it gets a new mark, count 0
 *     and a window of zeros, and its walls are started again from it.
 * Otherwise it writes a second message n + 1 under the same mark: some walls have the one and some the other, the rest is next or old to
 * both, and they part unseen. MULKEFI_COUNT_ABOVE tells of it where it shows: a wall has applied messages of which its desk knows nothing.
 * Do just that, then: a new mark for the desk, and a new start for its walls.
 *
 * docs/HOSTING.md goes through a host step by step, docs/FORMATS.md has both formats byte by byte, docs/HANDBOOK.md what to do at each number. */
#ifndef MULKEFI_H
#define MULKEFI_H

#include <stddef.h>
#include <stdint.h>

#ifdef __cplusplus
extern "C" {
#endif

/* The number of this interface. */
#define MULKEFI_INTERFACE 2

/* The library's version, 2.0.0: the interface's number times 65536, plus that of the additions to it times 256, plus that of the corrections
 * since. A library of the same interface and the same or a higher version has all that this header declares. */
#define MULKEFI_LIBRARY_VERSION 0x020000

/* An edit message's size, and the largest image's, in bytes. A buffer of the largest image's size is never too short. */
#define MULKEFI_MESSAGE_SIZE 38
#define MULKEFI_IMAGE_SIZE 21135

/* How many messages a desk's window holds, and its size in bytes. A buffer of this size is never too short for a catch-up. */
#define MULKEFI_WINDOW_MESSAGES 64
#define MULKEFI_WINDOW_SIZE 2432

/* What a drawing holds at most. Ids run from 1 to 4294967294. */
#define MULKEFI_MOST_POINTS 512
#define MULKEFI_MOST_CURVES 128
#define MULKEFI_MOST_RELATIONS 256

/* The largest magnitude of a coordinate and of a pick. */
#define MULKEFI_MOST_COORDINATE 1000000.0

/* For roots: the most coefficients, and the room that a search asks for. */
#define MULKEFI_MOST_COEFFICIENTS 15
#define MULKEFI_ROOTS_ROOM 28

/* How many numbers an edit or a delivery answers, and what stands where. A circle that was removed whole has no ends, and two zeros.
 *
 * Curves that stand and curves that were reported join by the ids of their ends: the pieces of a line or an arc with which the drawing
 * started make one chain from its old start to its old end, those of a circle that was cut one ring. At a wall the drawing is that of its
 * last start, and the reports are those since. */
#define MULKEFI_ANSWER_SIZE 5

enum mulkefi_answer {
    MULKEFI_ANSWER_COUNT = 0, /* edits applied so far */
    MULKEFI_ANSWER_IMAGE = 1, /* the image's size in bytes */
    MULKEFI_ANSWER_CURVE = 2, /* the id of the curve that was removed, or 0 */
    MULKEFI_ANSWER_START = 3, /* the id of its start, or 0 */
    MULKEFI_ANSWER_END = 4    /* the id of its end, or 0 */
};

enum mulkefi_operation {
    MULKEFI_TRIM = 1,
    MULKEFI_SPLIT = 2,
    MULKEFI_EXTEND = 3
};

/* The number and the place in what a call answers. */
#define MULKEFI_NUMBER(refusal) ((refusal) & 0xffff)
#define MULKEFI_PLACE(refusal) ((refusal) >> 16)

enum mulkefi_refusal {
    MULKEFI_ACCEPTED = 0,
    /* of an image or a message */
    MULKEFI_BAD_LENGTH = 1,        /* too few bytes, not as many as the length field says, or of a message not 38 */
    MULKEFI_BAD_VERSION = 2,       /* a version that this build does not read */
    MULKEFI_BAD_COUNT = 3,         /* a table over its limit, or counts that do not match the length */
    MULKEFI_BAD_VALUE = 4,         /* a value out of range, or a field not zero that has to be */
    MULKEFI_BAD_ID = 5,            /* an id out of order or range, missing, of the wrong kind, or repeated */
    MULKEFI_BAD_OPERATION = 6,     /* an unknown operation, or a message with number 0 */
    MULKEFI_AHEAD = 7,             /* an earlier message has not arrived yet */
    MULKEFI_FOREIGN = 28,          /* a message with another mark: another desk's, or of another start */
    /* of a catch-up */
    MULKEFI_LEFT_WINDOW = 26,      /* a message after the wall's count is not in the window: the wall is to be started again */
    MULKEFI_COUNT_ABOVE = 27,      /* the wall's count is above the desk's: the desk was set back */
    /* of an edit */
    MULKEFI_NO_CURVE = 8,          /* no such curve */
    MULKEFI_BAD_PICK = 9,          /* a pick that is not finite or beyond 1,000,000 */
    MULKEFI_WRONG_KIND = 10,       /* not an edit for this kind of curve */
    MULKEFI_FREEFORM_NEAR = 11,    /* not while a freeform curve is in the drawing */
    MULKEFI_NO_CUT = 12,           /* no place to split at */
    MULKEFI_RELATIONS_UNMET = 13,  /* a relation is not met; comes with the first one's place */
    MULKEFI_END_HELD = 14,         /* the line's end is used by another curve, or fixed */
    MULKEFI_OVERLAP = 15,          /* the line lies along another curve */
    MULKEFI_OFF_LINE = 16,         /* a line too short to prolong, or a hit that lies off it */
    MULKEFI_TIE = 17,              /* two curves are met equally near */
    MULKEFI_NOTHING_MET = 18,      /* the line, prolonged, meets nothing */
    MULKEFI_RELATIONS_BROKEN = 19, /* a relation would not be met afterwards; comes with the first one's place, which may be the pin's */
    /* of numbers and memory */
    MULKEFI_BAD_COEFFICIENTS = 20, /* none, more than 15, or one not finite, also in a derivative */
    MULKEFI_WORK_LIMIT = 21,       /* the budget ran out */
    MULKEFI_TABLE_FULL = 22,       /* no room for another point, curve or relation */
    MULKEFI_NUMBERS_USED_UP = 23,  /* no id or edit number is left */
    MULKEFI_OUT_OF_RANGE = 24,     /* a new coordinate is not finite or beyond 1,000,000 */
    MULKEFI_SHORT_BUFFER = 25      /* lent memory is too short */
};

/* The number of the library's interface: 2. */
uint32_t mulkefi_interface(void);

/* The library's version, as MULKEFI_LIBRARY_VERSION has it. */
uint32_t mulkefi_library_version(void);

/* The version of images times 256, plus that of messages. */
uint32_t mulkefi_versions(void);

/* The number that an image is refused by (1 to 5), or 0. */
uint32_t mulkefi_test(const uint8_t *image, size_t len);

/* The desk: an edit of a drawing.
 *
 * The drawing is the image in the first `len` bytes of `buffer`, in all `room` bytes where `len` is larger, after `count` edits since
 * the start with this `mark`; `window` is the desk's. Accepted: the new image stands at the buffer's front, the edit's message, which bears
 * the mark, in the first 38 bytes of `message` and in the window at the place of its number, the new count, and `answer` holds that count, the
 * new image's size, the removed curve and its two ends. What lies beyond is left as it was.
 *
 * Refused, in this order: the image's numbers; 6 for an unknown operation; 25 where `message_room` is below 38; 23 where `count` is
 * 4294967295; the edit's numbers, 8 to 24, as it meets them; 25 where `room` is too short for the new image. The window refuses nothing,
 * whatever its bytes are, and a refusal leaves it too. */
uint32_t mulkefi_desk_edit(uint8_t *buffer, size_t room, size_t len, uint32_t count, uint64_t mark, uint32_t operation, uint32_t curve,
                           double x, double y, uint8_t *message, size_t message_room, uint8_t window[2432], uint32_t answer[5]);

/* The desk: what is due to a wall that has applied `wall_count` edits since the start with this `mark`; `window` and `count` are the desk's.
 *
 * Accepted: the messages with the numbers `wall_count` + 1 to `count`, at most 64, stand one behind the other at the front of `messages`, 38
 * bytes each and as they were written. They are `count` - `wall_count`, and none where the two are the same, with any `room`. What lies beyond
 * is left as it was.
 *
 * Refused, in this order: 27 where `wall_count` is above `count`; 26 where more than 64 messages are due, or the window does not hold one of
 * them; 25 where `room` is below 38 bytes for each message due. */
uint32_t mulkefi_catch_up(const uint8_t window[2432], uint32_t count, uint64_t mark, uint32_t wall_count, uint8_t *messages, size_t room);

/* The wall: a message as it came, whosever it is, to a drawing given as at the desk; `mark` is that of the wall's own desk.
 *
 * Accepted, the next one: its edit is applied, and buffer and answer are left as at the desk. Accepted, an old one, whose number is not
 * above `count`: the buffer is left, and `answer` holds the count as it was, the image's size and three zeros.
 *
 * Refused, in this order: the image's numbers; 1 for a message under 5 bytes, 2 for its version, 1 for any size but 38 or length field
 * but 34; 28 where it bears another mark than `mark`, whatever its number and operation are; 6 for number 0 or an unknown operation; 7
 * where messages before it are missing; the edit's numbers; 25 where `room` is too short for the new image. The count is then still what
 * it was. */
uint32_t mulkefi_wall_deliver(uint8_t *buffer, size_t room, size_t len, uint32_t count, uint64_t mark, const uint8_t *message,
                              size_t message_len, uint32_t answer[5]);

/* The roots from 0 to 1 of the polynomial with these `n` coefficients in Bernstein form.
 *
 * Accepted: the roots stand in rising order at the front of `found`, and `answer` holds how many they are and what is left of the
 * budget, of which each bisection step takes one.
 *
 * Refused, in this order: 25 where `room` is below 28; 20 for the coefficients; 21 where the budget does not suffice. 25 and 20 spend
 * nothing of it, 21 all. */
uint32_t mulkefi_roots(const double *coefficients, size_t n, double *found, size_t room, size_t budget, uint64_t answer[2]);

/* Whether all of `n` numbers are finite, and the largest magnitude; for any `n`. It tells which coefficient mulkefi_roots refuses by 20.
 *
 * The answer is how many finite numbers the list begins with. Where that is `n`, all are finite, and `largest` holds the largest
 * magnitude, +0 where `n` is 0. Where it is less, it is the place, from 0, of the first number that is a NaN or an infinity, and
 * `largest` is left as it was. */
size_t mulkefi_largest_magnitude(const double *numbers, size_t n, double *largest);

#ifdef __cplusplus
}
#endif

#endif
