/* A wall behind a closed door: it catches up by its desk's window and, once it is too far back for that, is started again. */
#include <stdio.h>
#include <string.h>

#include "line.h"
#include "mulkefi_host.h"

/* So many splits, each between the line's start and the split before. Their messages go by radio, and the wall does not hear them. */
static uint32_t splits(struct mulkefi_screen *desk, int number)
{
    uint8_t message[MULKEFI_MESSAGE_SIZE];
    uint32_t answer[MULKEFI_ANSWER_SIZE], refusal = MULKEFI_ACCEPTED;

    for (; number > 0 && refusal == MULKEFI_ACCEPTED; number--)
        refusal = mulkefi_screen_edit(desk, MULKEFI_SPLIT, 3, 4.0 - 0.05 * (desk->count + 1), 0.0, message, answer);
    return refusal;
}

/* The wall tells its count, and gets every later message of its desk. */
static uint32_t catch_up(const struct mulkefi_screen *desk, struct mulkefi_screen *wall)
{
    static uint8_t messages[MULKEFI_WINDOW_SIZE];
    uint32_t answer[MULKEFI_ANSWER_SIZE], place, due = 0;
    uint32_t refusal = mulkefi_screen_catch_up(desk, wall->count, messages, sizeof messages, &due);
    int applied;

    for (place = 0; place < due && refusal == MULKEFI_ACCEPTED; place++)
        refusal = mulkefi_screen_deliver(wall, messages + MULKEFI_MESSAGE_SIZE * place, MULKEFI_MESSAGE_SIZE, answer, &applied);
    return refusal;
}

/* Whether the wall has its desk's image and count. */
static int is_level(const struct mulkefi_screen *desk, const struct mulkefi_screen *wall)
{
    return wall->count == desk->count && wall->size == desk->size && memcmp(wall->image, desk->image, desk->size) == 0;
}

int main(void)
{
    static struct mulkefi_screen desk, wall;
    const uint64_t mark = 1;
    uint32_t refusal;

    if (!mulkefi_host_check())
        return 1;
    if (mulkefi_screen_start(&desk, line, sizeof line, mark, 0) != MULKEFI_ACCEPTED ||
        mulkefi_screen_start(&wall, line, sizeof line, mark, 0) != MULKEFI_ACCEPTED)
        return 1;

    /* The door is closed during ten edits. */
    if (splits(&desk, 10) != MULKEFI_ACCEPTED || catch_up(&desk, &wall) != MULKEFI_ACCEPTED || !is_level(&desk, &wall))
        return 1;
    printf("caught up by 10: count %u, same image\n", (unsigned)wall.count);

    /* The door is closed during one edit more than a window holds. */
    if (splits(&desk, MULKEFI_WINDOW_MESSAGES + 1) != MULKEFI_ACCEPTED)
        return 1;
    refusal = catch_up(&desk, &wall);
    if (refusal != MULKEFI_LEFT_WINDOW)
        return 1;
    printf("behind by %u: refused by %u\n", (unsigned)(desk.count - wall.count), (unsigned)MULKEFI_NUMBER(refusal));
    if (mulkefi_screen_start(&wall, desk.image, desk.size, desk.mark, desk.count) != MULKEFI_ACCEPTED || !is_level(&desk, &wall))
        return 1;
    printf("started again: count %u, same image\n", (unsigned)wall.count);

    /* From there on it follows as before. */
    if (splits(&desk, 1) != MULKEFI_ACCEPTED || catch_up(&desk, &wall) != MULKEFI_ACCEPTED || !is_level(&desk, &wall))
        return 1;
    printf("caught up by 1: count %u, same image\n", (unsigned)wall.count);
    return 0;
}
