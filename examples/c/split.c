/* A line is split at the desk, and the wall applies the same edit from the message alone. */
#include <stdio.h>
#include <string.h>

#include "line.h"
#include "mulkefi.h"

/* The mark of this start, which desk and wall share; the next start gets another. */
static const uint64_t mark = 1;

int main(void)
{
    static uint8_t desk[MULKEFI_IMAGE_SIZE], wall[MULKEFI_IMAGE_SIZE], window[MULKEFI_WINDOW_SIZE];
    uint8_t message[MULKEFI_MESSAGE_SIZE];
    uint32_t desk_answer[MULKEFI_ANSWER_SIZE], wall_answer[MULKEFI_ANSWER_SIZE], refusal;
    int same;

    if (mulkefi_interface() != MULKEFI_INTERFACE)
        return 1;
    memcpy(desk, line, sizeof line);
    memcpy(wall, line, sizeof line);
    refusal = mulkefi_desk_edit(desk, sizeof desk, sizeof line, 0, mark, MULKEFI_SPLIT, 3, 1.0, 3.0, message, sizeof message, window,
                                desk_answer);
    if (refusal == MULKEFI_ACCEPTED)
        refusal = mulkefi_wall_deliver(wall, sizeof wall, sizeof line, 0, mark, message, sizeof message, wall_answer);
    if (refusal != MULKEFI_ACCEPTED) {
        printf("refused by %u\n", (unsigned)MULKEFI_NUMBER(refusal));
        return 1;
    }
    same = memcmp(desk, wall, sizeof desk) == 0;
    printf("desk: count %u, %u bytes\n", (unsigned)desk_answer[MULKEFI_ANSWER_COUNT], (unsigned)desk_answer[MULKEFI_ANSWER_IMAGE]);
    printf("wall: count %u, %u bytes\n", (unsigned)wall_answer[MULKEFI_ANSWER_COUNT], (unsigned)wall_answer[MULKEFI_ANSWER_IMAGE]);
    printf("same image: %s\n", same ? "yes" : "no");
    return same ? 0 : 1;
}
