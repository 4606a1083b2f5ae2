/* What a host in C99 or C++17 needs beside mulkefi.h: screens, drawings, and the sentences of refusals.
 *
 * Every function of this header and of the two that it includes stands there whole. Nothing is linked but libmulkefi, nothing allocates, and
 * no pointer is kept. What mulkefi.h asks of memory holds for them too: no pointer is null, and what a call may write overlaps nothing else
 * that is lent to it. A call that refuses answers as those of mulkefi.h do: 0 is accepted, and after a refusal nothing has changed. Names
 * that begin with mulkefi_host_ are the headers' own, but for mulkefi_host_check.
 *
 *   Screens    what a host keeps of a desk or a wall, and the calls on it: below.
 *   Sentences  what a refusal means, in the words of docs/HANDBOOK.md: below.
 *   Drawings   the records of an image as plain structs: made, written, read: mulkefi_drawing.h.
 *   Picks      the curve under a finger: mulkefi_nearest.h.
 *
 * A screen takes 24 kB and a drawing 25 kB. Let them be static, or give their thread the stack for them beside the engine's own. */
#ifndef MULKEFI_HOST_H
#define MULKEFI_HOST_H

#include <stddef.h>
#include <stdint.h>
#include <string.h>

#include "mulkefi.h"
#include "mulkefi_drawing.h"
#include "mulkefi_nearest.h"

/* The version of messages to which this header belongs; that of images is in mulkefi_drawing.h. */
#define MULKEFI_MESSAGE_VERSION 2

/* Whether the library has the interface and the formats' versions of these headers, and is not older than they are. A host asks once, before
 * its other calls, and ends with a message where it is not so: headers and library are then of two builds. */
static inline int mulkefi_host_check(void)
{
    return mulkefi_interface() == MULKEFI_INTERFACE && mulkefi_versions() == MULKEFI_IMAGE_VERSION * 256 + MULKEFI_MESSAGE_VERSION &&
           mulkefi_library_version() >= MULKEFI_LIBRARY_VERSION;
}

/* ---- Screens
 *
 * A screen is all that a host keeps of a desk or a wall. The window is a desk's; of a wall it stays zeros.
 *
 * On a disk a host keeps image (the first `size` bytes), count and mark, of a desk the window too, all of one moment; of a desk it does so
 * after each accepted edit, and before it sends the message. mulkefi_screen_resume takes them back. No call here makes one block of bytes
 * of them: how files are named, written whole and found damaged is the host's own, and the image is tested whenever it is taken back. */
struct mulkefi_screen {
    uint64_t mark;
    size_t size;
    uint32_t count;
    uint8_t image[MULKEFI_IMAGE_SIZE];
    uint8_t window[MULKEFI_WINDOW_SIZE];
};

/* Resumes a screen as it was left: its image, mark, count and window. The window of a wall, or one that was lost, is
 * MULKEFI_WINDOW_SIZE zeros. The image and the window may be the screen's own.
 *
 * Refused: the image's numbers, 1 to 5. The screen is then as before. */
static inline uint32_t mulkefi_screen_resume(struct mulkefi_screen *screen, const uint8_t *image, size_t size, uint64_t mark,
                                             uint32_t count, const uint8_t window[MULKEFI_WINDOW_SIZE])
{
    uint32_t refusal = mulkefi_test(image, size);

    if (refusal == MULKEFI_ACCEPTED) {
        memmove(screen->image, image, size);
        memmove(screen->window, window, MULKEFI_WINDOW_SIZE);
        screen->size = size;
        screen->mark = mark;
        screen->count = count;
    }
    return refusal;
}

/* Starts a screen, with a window of zeros. A desk starts at count 0 with a mark that no start of a desk had before; a wall with its desk's
 * mark, from the image that the desk started from at count 0, or from its desk's present image and count. A wall is started again in the
 * same way, and so is a desk that was set back (27), from its own image or a wall's with a new mark.
 *
 * Refused: the image's numbers, 1 to 5. The screen is then as before. */
static inline uint32_t mulkefi_screen_start(struct mulkefi_screen *screen, const uint8_t *image, size_t size, uint64_t mark,
                                            uint32_t count)
{
    static const uint8_t empty[MULKEFI_WINDOW_SIZE] = {0};

    return mulkefi_screen_resume(screen, image, size, mark, count, empty);
}

/* The desk: an edit of the screen's drawing. Accepted: the screen has the new image, count and window, `message` is for the walls, and
 * `answer` is that of mulkefi_desk_edit, which tells the refusals too. */
static inline uint32_t mulkefi_screen_edit(struct mulkefi_screen *screen, uint32_t operation, uint32_t curve, double x, double y,
                                           uint8_t message[MULKEFI_MESSAGE_SIZE], uint32_t answer[MULKEFI_ANSWER_SIZE])
{
    uint32_t refusal = mulkefi_desk_edit(screen->image, sizeof screen->image, screen->size, screen->count, screen->mark, operation,
                                         curve, x, y, message, MULKEFI_MESSAGE_SIZE, screen->window, answer);

    if (refusal == MULKEFI_ACCEPTED) {
        screen->count = answer[MULKEFI_ANSWER_COUNT];
        screen->size = answer[MULKEFI_ANSWER_IMAGE];
    }
    return refusal;
}

/* The wall: a message as it came. Accepted: `applied` is 1 where the message was the next and its edit was applied, and 0 where it was old
 * and nothing changed; `answer` is that of mulkefi_wall_deliver, which tells the refusals too. At 7 a wall asks its desk for what is due. */
static inline uint32_t mulkefi_screen_deliver(struct mulkefi_screen *screen, const uint8_t *message, size_t len,
                                              uint32_t answer[MULKEFI_ANSWER_SIZE], int *applied)
{
    uint32_t refusal = mulkefi_wall_deliver(screen->image, sizeof screen->image, screen->size, screen->count, screen->mark, message, len,
                                            answer);

    if (refusal == MULKEFI_ACCEPTED) {
        *applied = answer[MULKEFI_ANSWER_COUNT] != screen->count;
        screen->count = answer[MULKEFI_ANSWER_COUNT];
        screen->size = answer[MULKEFI_ANSWER_IMAGE];
    }
    return refusal;
}

/* The desk: what is due to a wall that has applied `wall_count` edits. Accepted: `due` messages stand one behind the other in `messages`,
 * 38 bytes each; MULKEFI_WINDOW_SIZE bytes of room are always enough. mulkefi_catch_up tells the refusals. */
static inline uint32_t mulkefi_screen_catch_up(const struct mulkefi_screen *screen, uint32_t wall_count, uint8_t *messages, size_t room,
                                               uint32_t *due)
{
    uint32_t refusal = mulkefi_catch_up(screen->window, screen->count, screen->mark, wall_count, messages, room);

    if (refusal == MULKEFI_ACCEPTED)
        *due = screen->count - wall_count;
    return refusal;
}

/* ---- Sentences */

/* What the number in an answer means, in English: the handbook's heading of that number, below which it says what to do. */
static inline const char *mulkefi_sentence(uint32_t answer)
{
    static const char *const sentences[] = {
        "Nothing is refused.",
        "The bytes end too soon or too late for their length field.",
        "The version byte is one that this engine does not read.",
        "A table is over its limit, or the tables don't fill the image.",
        "A field holds what it may not, or one not in use isn't zero.",
        "An id is out of order or range, or leads to the wrong thing.",
        "The operation is unknown, or the edit's number is 0.",
        "An earlier message has not arrived yet.",
        "The drawing has no such curve.",
        "The pick is no place in the drawing's bounds.",
        "This kind of curve can't be edited in this way.",
        "With a freeform curve in the drawing this can't be cut.",
        "There is no place to split it there.",
        "A relation is not met, so that nothing is extended.",
        "The end is fixed, or another curve uses it.",
        "The line, prolonged, runs along another curve.",
        "The line is too short, or where it meets a curve is not exact.",
        "Two curves stop the line at one distance.",
        "The line, prolonged, meets nothing.",
        "A relation would not be met any more.",
        "The coefficients are none, too many, or not finite.",
        "The work limit is used up.",
        "A table has no room for what the edit adds.",
        "The ids, or the edits' numbers, are used up.",
        "A new point would lie out of bounds.",
        "The buffer is too short.",
        "The message after the wall's count has left the window.",
        "The wall's count is above the desk's.",
        "The message is another desk's, by its mark."};
    uint32_t number = MULKEFI_NUMBER(answer);

    if (number >= sizeof sentences / sizeof *sentences)
        return "The engine gave a number that this header doesn't know.";
    return sentences[number];
}

#endif
