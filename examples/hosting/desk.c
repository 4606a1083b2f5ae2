/* The desk's host. */
#include <inttypes.h>
#include <string.h>

#include "host.h"

/* step: mark */
/* A mark that no start of a desk had before: 8 random bytes from the system. 0 is what walls tell that have none. */
int new_mark(uint64_t *mark)
{
    uint8_t bytes[8];
    FILE *file = fopen("/dev/urandom", "rb");
    int is_read;

    if (file == NULL)
        return 0;
    setvbuf(file, NULL, _IONBF, 0);
    is_read = fread(bytes, 1, sizeof bytes, file) == sizeof bytes;
    fclose(file);
    *mark = get(bytes, sizeof bytes);
    return is_read && *mark != 0;
}
/* end */

/* step: start */
/* A start of the desk from any image: a new mark, count 0 and a window of zeros, kept before the first edit. */
int desk_start(struct desk *desk, const uint8_t *image, size_t size)
{
    struct state *next = &desk->next;
    uint32_t refusal = mulkefi_test(image, size);

    if (refusal != MULKEFI_ACCEPTED) {
        snprintf(desk->reason, REASON_ROOM, "the image is refused by %u", (unsigned)MULKEFI_NUMBER(refusal));
        return 0;
    }
    memset(next, 0, sizeof *next);
    memcpy(next->image, image, size);
    next->size = size;
    if (!new_mark(&next->mark)) {
        snprintf(desk->reason, REASON_ROOM, "the system gives no random bytes for a mark");
        return 0;
    }
    return desk_keep(desk);
}
/* end */

/* step: boot desk */
/* The desk goes on from its last state, under its mark. Without one it is a new start, and its walls are started again. */
int desk_boot(struct desk *desk, FILE *screen)
{
    enum loaded loaded = load(desk->folder, "desk.state", &desk->now, sizeof desk->now.window, desk->reason);

    if (loaded == LOADED)
        return 1;
    if (loaded == UNREADABLE)
        fprintf(screen, "desk: %s\n", desk->reason);
    return read_image(desk->folder, "first.image", &desk->now, desk->reason) && desk_start(desk, desk->now.image, desk->now.size);
}
/* end */

/* step: edit */
/* Makes an edit in a copy of the desk's state, which becomes the state once it is kept. */
uint32_t desk_edit(struct desk *desk, uint32_t operation, object_id curve, double x, double y)
{
    struct state *next = &desk->next;
    uint32_t refusal;

    *next = desk->now;
    refusal = mulkefi_desk_edit(next->image, sizeof next->image, next->size, next->count, next->mark, operation, curve, x, y,
                                desk->message, sizeof desk->message, next->window, desk->answer);
    if (refusal == MULKEFI_ACCEPTED) {
        next->count = desk->answer[MULKEFI_ANSWER_COUNT];
        next->size = desk->answer[MULKEFI_ANSWER_IMAGE];
    }
    return refusal;
}
/* end */

/* step: show */
/* What the desk's screen shows of an edit. */
void desk_show(const struct desk *desk, uint32_t refusal, FILE *screen)
{
    uint32_t number = MULKEFI_NUMBER(refusal);
    object_id removed = desk->answer[MULKEFI_ANSWER_CURVE];

    if (number == MULKEFI_RELATIONS_UNMET || number == MULKEFI_RELATIONS_BROKEN)
        fprintf(screen, "desk: refused by %u, relation %u\n", (unsigned)number, (unsigned)MULKEFI_PLACE(refusal));
    else if (number != MULKEFI_ACCEPTED)
        fprintf(screen, "desk: refused by %u\n", (unsigned)number);
    else if (removed != 0)
        fprintf(screen, "desk: edit %" PRIu64 " removed curve %" PRIu64 ", from point %" PRIu64 " to point %" PRIu64 "\n",
                (uint64_t)desk->now.count, (uint64_t)removed, (uint64_t)desk->answer[MULKEFI_ANSWER_START],
                (uint64_t)desk->answer[MULKEFI_ANSWER_END]);
}
/* end */

/* step: keep desk */
/* After an accepted edit, and before its message is sent. Where the disk fails, the edit is taken back: no one has its message. */
int desk_keep(struct desk *desk)
{
    if (!keep(desk->folder, "desk.state", &desk->next, sizeof desk->next.window)) {
        snprintf(desk->reason, REASON_ROOM, "desk.state can't be kept");
        return 0;
    }
    desk->now = desk->next;
    return 1;
}
/* end */

/* step: send */
/* A visitor's touch: the edit, then the disk, then the screen, and the message last. */
void desk_touch(struct desk *desk, struct radio *radio, uint32_t operation, object_id curve, double x, double y, FILE *screen)
{
    uint32_t refusal = desk_edit(desk, operation, curve, x, y);

    if (refusal == MULKEFI_ACCEPTED && !desk_keep(desk)) {
        fprintf(screen, "desk: %s, and the edit is taken back\n", desk->reason);
        return;
    }
    desk_show(desk, refusal, screen);
    if (refusal == MULKEFI_ACCEPTED)
        radio_send(radio, DESK, desk->message, sizeof desk->message);
}
/* end */

/* step: give start */
/* Image, count and mark of this moment, for the wall. The file stands for a way that loses nothing. */
int give_start(struct desk *desk)
{
    desk->given++;
    return keep(desk->folder, "wall.start", &desk->now, 0);
}
/* end */

/* step: set back */
/* 27: a wall has edits that the desk has not. The desk's present drawing becomes a new start, under a new mark. */
static int start_anew(struct desk *desk, FILE *screen)
{
    fprintf(screen, "desk: a wall's count is above the desk's: started with a new mark\n");
    return desk_start(desk, desk->now.image, desk->now.size) && give_start(desk);
}
/* end */

/* step: catch up */
/* Sends a wall what it lacks, by the count that it told. */
static int catch_up(struct desk *desk, struct radio *radio, edit_count wall_count, FILE *screen)
{
    uint32_t refusal = mulkefi_catch_up(desk->now.window, desk->now.count, desk->now.mark, wall_count, desk->due, sizeof desk->due);
    edit_count place;

    switch (MULKEFI_NUMBER(refusal)) {
    case MULKEFI_ACCEPTED:
        for (place = 0; place < desk->now.count - wall_count; place++)
            radio_send(radio, DESK, desk->due + MULKEFI_MESSAGE_SIZE * place, MULKEFI_MESSAGE_SIZE);
        desk->caught_up += place > 0;
        return 1;
    case MULKEFI_LEFT_WINDOW:
        return give_start(desk);
    default: /* MULKEFI_COUNT_ABOVE; the buffer is never too short */
        return start_anew(desk, screen);
    }
}
/* end */

/* step: hear */
/* A packet from the radio. One of 16 bytes is what a wall tells: its mark and its count. */
static void hear(struct desk *desk, struct radio *radio, const struct packet *packet, FILE *screen)
{
    uint64_t mark = get(packet->bytes, 8), count = get(packet->bytes + 8, 8);
    int is_done = 1;

    if (packet->size != TOLD_SIZE || !is_edit_count(count))
        return;
    if (mark == desk->now.mark)
        is_done = catch_up(desk, radio, (edit_count)count, screen);
    else if (packet->from == WALL) /* our own wall, without a state or at the mark of an earlier start */
        is_done = give_start(desk);
    if (!is_done) /* it is tried again when the wall tells its count again */
        fprintf(screen, "desk: a start can't be written\n");
}

/* A turn of the desk's loop, beside the visitor's touches. */
void desk_turn(struct desk *desk, struct radio *radio, FILE *screen)
{
    struct packet packet;

    while (radio_receive(radio, DESK, &packet))
        hear(desk, radio, &packet, screen);
}
/* end */
