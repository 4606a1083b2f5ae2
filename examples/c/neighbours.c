/* Two desks in one hall: a wall that hears both refuses the neighbour's message, and applies that of its own desk. */
#include <stdio.h>
#include <string.h>

#include "line.h"
#include "mulkefi_host.h"

/* The mark of a desk's start: the desk's own number, and behind it how often the desk was started. */
static uint64_t mark_of(uint32_t desk, uint32_t start)
{
    return (uint64_t)desk << 32 | start;
}

/* Starts a desk with the line, and splits it at x. */
static uint32_t split(uint64_t mark, double x, uint8_t message[MULKEFI_MESSAGE_SIZE])
{
    static struct mulkefi_screen desk;
    uint32_t answer[MULKEFI_ANSWER_SIZE];
    uint32_t refusal = mulkefi_screen_start(&desk, line, sizeof line, mark, 0);

    return refusal != MULKEFI_ACCEPTED ? refusal : mulkefi_screen_edit(&desk, MULKEFI_SPLIT, 3, x, 0.0, message, answer);
}

int main(void)
{
    static struct mulkefi_screen wall;
    const uint64_t mark = mark_of(1, 1), neighbours_mark = mark_of(2, 1);
    uint8_t message[MULKEFI_MESSAGE_SIZE], neighbours_message[MULKEFI_MESSAGE_SIZE];
    uint32_t answer[MULKEFI_ANSWER_SIZE], refusal;
    int applied;

    if (!mulkefi_host_check())
        return 1;
    if (split(mark, 1.0, message) != MULKEFI_ACCEPTED || split(neighbours_mark, 3.0, neighbours_message) != MULKEFI_ACCEPTED)
        return 1;
    if (mulkefi_screen_start(&wall, line, sizeof line, mark, 0) != MULKEFI_ACCEPTED)
        return 1;

    /* It has the number that the wall waits for, and still alters nothing. */
    refusal = mulkefi_screen_deliver(&wall, neighbours_message, sizeof neighbours_message, answer, &applied);
    if (refusal != MULKEFI_FOREIGN || wall.size != sizeof line || memcmp(wall.image, line, sizeof line) != 0)
        return 1;
    printf("neighbour's message: refused by %u, same image\n", (unsigned)MULKEFI_NUMBER(refusal));

    refusal = mulkefi_screen_deliver(&wall, message, sizeof message, answer, &applied);
    if (refusal != MULKEFI_ACCEPTED || !applied)
        return 1;
    printf("own message: count %u, %u bytes\n", (unsigned)wall.count, (unsigned)wall.size);
    return 0;
}
