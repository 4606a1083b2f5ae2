/* The wall's host. */
#include <string.h>
#include <unistd.h>

#include "host.h"

enum { TURNS_TO_TELL = 10 };

/* step: boot wall */
/* The wall goes on from what it kept, however old that is; without it, it tells zeros, and gets a start. */
void wall_boot(struct wall *wall, struct radio *radio, FILE *screen)
{
    enum loaded loaded = load(wall->folder, "wall.state", &wall->now, 0, wall->reason);

    if (loaded == UNREADABLE)
        fprintf(screen, "wall: %s\n", wall->reason);
    if (loaded != LOADED)
        memset(&wall->now, 0, sizeof wall->now);
    wall_tell(wall, radio);
}
/* end */

/* step: deliver */
/* Takes what the radio brings, from whomever. The answer is whether an edit was applied, and the state is to be kept. */
int wall_deliver(struct wall *wall, const uint8_t *message, size_t size)
{
    struct state *now = &wall->now;
    answer_number answer[MULKEFI_ANSWER_SIZE];
    uint32_t refusal = mulkefi_wall_deliver(now->image, sizeof now->image, now->size, now->count, now->mark, message, size, answer);

    switch (MULKEFI_NUMBER(refusal)) {
    case MULKEFI_ACCEPTED:
        if (answer[MULKEFI_ANSWER_COUNT] == now->count) {
            wall->old++;
            return 0;
        }
        now->count = answer[MULKEFI_ANSWER_COUNT];
        now->size = answer[MULKEFI_ANSWER_IMAGE];
        wall->applied++;
        return 1;
    case MULKEFI_AHEAD: /* 7: tell the count */
        wall->ahead++;
        wall->is_behind = 1;
        return 0;
    case MULKEFI_FOREIGN: /* 28: another desk's, or from before this start */
        wall->foreign++;
        return 0;
    case MULKEFI_BAD_LENGTH: /* 1, 2, 6: no desk's message */
    case MULKEFI_BAD_VERSION:
    case MULKEFI_BAD_OPERATION:
        wall->unread++;
        return 0;
    default: /* the desk's edit is refused here: wall and desk have parted, and the desk is to be started with a new mark */
        wall->parted = MULKEFI_NUMBER(refusal);
        return 0;
    }
}
/* end */

/* step: keep wall */
/* A wall that can't keep its state goes on: after a power cut it is further back, and catches up. */
int wall_keep(struct wall *wall)
{
    return keep(wall->folder, "wall.state", &wall->now, 0);
}
/* end */

/* step: tell */
/* The packet of 16 bytes, which is this host's own and no format of the engine. */
void wall_tell(struct wall *wall, struct radio *radio)
{
    uint8_t told[TOLD_SIZE];

    put(told, 8, wall->now.mark);
    put(told + 8, 8, wall->now.count);
    radio_send(radio, WALL, told, sizeof told);
    wall->is_behind = 0;
}
/* end */

/* step: take start */
/* A start that has come, and that `load` has tested, takes the place of the wall's own image, count and mark. */
int take_start(struct wall *wall)
{
    char path[PATH_ROOM];

    if (load(wall->folder, "wall.start", &wall->arrived, 0, wall->reason) != LOADED)
        return 0;
    wall->now = wall->arrived;
    wall->parted = 0;
    return wall_keep(wall) && path_in(path, wall->folder, "wall.start") && unlink(path) == 0;
}
/* end */

/* step: wall loop */
/* A turn of the wall's loop, every 200 ms: it tells its count in each turn after a refusal by 7, and else every 2 seconds. */
void wall_turn(struct wall *wall, struct radio *radio, FILE *screen)
{
    struct packet packet;

    while (radio_receive(radio, WALL, &packet))
        if (wall_deliver(wall, packet.bytes, packet.size) && !wall_keep(wall))
            fprintf(screen, "wall: its state can't be kept\n");
    take_start(wall);
    if (wall->is_behind || ++wall->turns % TURNS_TO_TELL == 0)
        wall_tell(wall, radio);
}
/* end */
