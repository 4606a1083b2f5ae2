/* What happens in a hall: edits over a radio that loses, power cuts at the worst moments, a closed door, a desk that is set back, a new
 * drawing, and a neighbour. After each part the wall has its desk's image, count and mark, and both have them on disk. */
#include <inttypes.h>
#include <string.h>
#include <sys/stat.h>

#include "../c/line.h"
#include "host.h"

enum { LINE = 3, PIECE = 5, POINT_2_X = 41, COUNT_END = 23, MOST_TURNS = 5000, MOST_TRIES = 20 };

static int is_same(const struct state *desk, const struct state *wall)
{
    return desk->mark == wall->mark && desk->count == wall->count && desk->size == wall->size &&
           memcmp(desk->image, wall->image, desk->size) == 0;
}

/* Writes a file as it stands, for what other programs do to a host's folder. */
static int write_file(const struct hall *hall, const char *name, const uint8_t *bytes, size_t size)
{
    char path[PATH_ROOM];
    FILE *file = path_in(path, hall->folder, name) ? fopen(path, "wb") : NULL;
    int is_written = file != NULL && fwrite(bytes, 1, size, file) == size;

    return file != NULL && fclose(file) == 0 && is_written;
}

static size_t read_file(const struct hall *hall, const char *name, uint8_t *bytes, size_t room)
{
    char path[PATH_ROOM];
    FILE *file = path_in(path, hall->folder, name) ? fopen(path, "rb") : NULL;
    size_t size = file != NULL ? fread(bytes, 1, room, file) : 0;

    if (file != NULL)
        fclose(file);
    return size;
}

/* A power cut: the memory is gone, and the host boots. */
static int cut_desk(struct hall *hall)
{
    memset(&hall->desk.now, 0xa5, sizeof hall->desk.now);
    memset(&hall->desk.next, 0xa5, sizeof hall->desk.next);
    return desk_boot(&hall->desk, hall->screen);
}

static void cut_wall(struct hall *hall)
{
    memset(&hall->wall.now, 0xa5, sizeof hall->wall.now);
    wall_boot(&hall->wall, &hall->radio, hall->screen);
}

/* A turn of both loops. Behind a closed door the wall is not reached by any way. */
static void turn(struct hall *hall)
{
    desk_turn(&hall->desk, &hall->radio, hall->screen);
    if (!hall->radio.is_door_closed)
        wall_turn(&hall->wall, &hall->radio, hall->screen);
}

/* Whether the wall has what its desk has, and nothing is on its way. */
static int is_settled(const struct hall *hall)
{
    return is_same(&hall->desk.now, &hall->wall.now) && hall->radio.air[DESK].number == 0 && hall->radio.air[WALL].number == 0;
}

/* Goes on until the wall has what its desk has, in memory and on disk. */
static int settle(struct hall *hall)
{
    static const char *const names[] = {"desk.state", "wall.state"};
    struct state *kept = &hall->kept;
    int turns = 0;

    while (!is_settled(hall) && turns++ < MOST_TURNS)
        turn(hall);
    return hall->wall.parted == 0 && is_settled(hall) &&
           load(hall->folder, names[0], kept, MULKEFI_WINDOW_SIZE, hall->desk.reason) == LOADED && is_same(&hall->desk.now, kept) &&
           load(hall->folder, names[1], kept, 0, hall->desk.reason) == LOADED && is_same(&hall->wall.now, kept);
}

/* Each split is between the line's start and the split before. */
static double next_x(struct hall *hall)
{
    return hall->x *= 0.97;
}

static void split(struct hall *hall)
{
    desk_touch(&hall->desk, &hall->radio, MULKEFI_SPLIT, LINE, next_x(hall), 0.0, hall->screen);
}

static void splits(struct hall *hall, int number)
{
    for (; number > 0; number--) {
        split(hall);
        turn(hall);
    }
}

static int part_start(struct hall *hall)
{
    if (!write_file(hall, "first.image", line, sizeof line) || !desk_boot(&hall->desk, hall->screen))
        return 0;
    hall->x = 4.0;
    wall_boot(&hall->wall, &hall->radio, hall->screen);
    return settle(hall) && hall->desk.now.count == 0 && hall->wall.now.size == sizeof line;
}

static int part_edits(struct hall *hall)
{
    struct desk *desk = &hall->desk;

    splits(hall, 1);
    desk_touch(desk, &hall->radio, MULKEFI_TRIM, PIECE, 4.0, 0.0, hall->screen);
    desk_touch(desk, &hall->radio, MULKEFI_EXTEND, LINE, 0.0, 0.0, hall->screen);
    splits(hall, 10);
    return settle(hall) && desk->now.count == 12;
}

/* Where in its work the desk's power fails. */
enum cut { BEFORE_KEEP, IN_KEEP, BEFORE_SEND, AFTER_SEND };

static int cut_at(struct hall *hall, enum cut cut)
{
    struct desk *desk = &hall->desk;
    edit_count expected = desk->now.count + (cut == BEFORE_SEND || cut == AFTER_SEND);
    uint64_t mark = desk->now.mark;
    size_t size;

    if (desk_edit(desk, MULKEFI_SPLIT, LINE, next_x(hall), 0.0) != MULKEFI_ACCEPTED)
        return 0;
    if (cut == IN_KEEP) { /* the file beside is half written, and was not renamed */
        size = read_file(hall, "desk.state", hall->file, sizeof hall->file);
        if (!write_file(hall, "desk.state.new", hall->file, size / 2))
            return 0;
    }
    if ((cut == BEFORE_SEND || cut == AFTER_SEND) && !desk_keep(desk))
        return 0;
    if (cut == AFTER_SEND)
        radio_send(&hall->radio, DESK, desk->message, sizeof desk->message);
    return cut_desk(hall) && desk->now.count == expected && desk->now.mark == mark && settle(hall);
}

static int part_desk_cuts(struct hall *hall)
{
    return cut_at(hall, BEFORE_KEEP) && cut_at(hall, IN_KEEP) && cut_at(hall, BEFORE_SEND) && cut_at(hall, AFTER_SEND);
}

/* The wall applies an edit, and does not keep it; of the edits that are made for it some are lost. */
static int apply_one(struct hall *hall)
{
    struct packet packet;
    int tries;

    for (tries = 0; tries < MOST_TRIES && settle(hall); tries++) {
        split(hall);
        if (radio_receive(&hall->radio, WALL, &packet) && wall_deliver(&hall->wall, packet.bytes, packet.size))
            return 1;
    }
    return 0;
}

/* The wall's power fails before it keeps an edit that it has applied; then its file is damaged, and it is started again. */
static int part_wall_cuts(struct hall *hall)
{
    unsigned given = hall->desk.given;
    size_t size;

    if (!apply_one(hall))
        return 0;
    cut_wall(hall);
    if (hall->wall.now.count == hall->desk.now.count || !settle(hall) || hall->desk.given != given)
        return 0;
    size = read_file(hall, "wall.state", hall->file, sizeof hall->file);
    hall->file[COUNT_END] ^= 1; /* the image is still a good one */
    if (!write_file(hall, "wall.state", hall->file, size))
        return 0;
    cut_wall(hall);
    return hall->wall.now.size == 0 && settle(hall) && hall->desk.given > given;
}

/* The door is closed for ten edits, and the wall catches up; then for more than a window holds, and it is started again. */
static int part_door(struct hall *hall)
{
    unsigned given = hall->desk.given, caught_up = hall->desk.caught_up;

    hall->radio.is_door_closed = 1;
    splits(hall, 10);
    hall->radio.is_door_closed = 0;
    if (!settle(hall) || hall->desk.given != given || hall->desk.caught_up == caught_up)
        return 0;
    hall->radio.is_door_closed = 1;
    splits(hall, MULKEFI_WINDOW_MESSAGES + 1);
    hall->radio.is_door_closed = 0;
    return settle(hall) && hall->desk.given > given;
}

/* Someone puts an earlier copy of the desk's state in place of its last one. */
static int part_set_back(struct hall *hall)
{
    uint64_t mark = hall->desk.now.mark;
    size_t size = read_file(hall, "desk.state", hall->file, sizeof hall->file);

    splits(hall, 3);
    if (!settle(hall) || !write_file(hall, "desk.state", hall->file, size) || !cut_desk(hall) || hall->desk.now.mark != mark)
        return 0;
    if (!settle(hall) || hall->desk.now.mark == mark || hall->desk.now.count != 0)
        return 0;
    splits(hall, 3);
    return settle(hall);
}

/* A new drawing, while messages of the one before are still in the air. */
static int part_new_drawing(struct hall *hall)
{
    uint8_t image[sizeof line];
    unsigned foreign = hall->wall.foreign;
    struct air *air = &hall->radio.air[WALL];
    int tries;

    memcpy(image, line, sizeof line);
    image[POINT_2_X] = 0x20; /* point 2 at (8, 0) */
    for (tries = 0; tries < MOST_TRIES && air->number == 0; tries++)
        split(hall);
    /* step: new drawing */
    if (!desk_start(&hall->desk, image, sizeof image) || !give_start(&hall->desk) || !take_start(&hall->wall))
        return 0;
    /* end */
    hall->x = 8.0;
    splits(hall, 5);
    return settle(hall) && hall->desk.now.count == 5 && hall->wall.foreign > foreign;
}

/* A second desk and its wall use the same radio. */
static int part_neighbour(struct hall *hall)
{
    struct desk *neighbour = &hall->neighbour;
    unsigned foreign = hall->wall.foreign, given = hall->desk.given;
    uint8_t told[TOLD_SIZE] = {0};
    int edit;

    if (!path_in(hall->neighbours_folder, hall->folder, "neighbour") || mkdir(hall->neighbours_folder, 0777) != 0)
        return 0;
    neighbour->folder = hall->neighbours_folder;
    if (!desk_start(neighbour, line, sizeof line))
        return 0;
    for (edit = 1; edit <= 20; edit++) {
        if (desk_edit(neighbour, MULKEFI_SPLIT, LINE, 4.0 - 0.1 * edit, 0.0) != MULKEFI_ACCEPTED || !desk_keep(neighbour))
            return 0;
        radio_send(&hall->radio, NEIGHBOUR, neighbour->message, sizeof neighbour->message);
        put(told, 8, neighbour->now.mark);
        radio_send(&hall->radio, NEIGHBOUR, told, sizeof told);
        splits(hall, 1);
    }
    return settle(hall) && hall->desk.now.count == 25 && hall->wall.foreign > foreign && hall->desk.given == given;
}

int story(struct hall *hall)
{
    static const struct {
        const char *name;
        int (*play)(struct hall *hall);
    } parts[] = {
        {"start", part_start},
        {"edits", part_edits},
        {"power cuts of the desk", part_desk_cuts},
        {"power cuts of the wall", part_wall_cuts},
        {"closed door", part_door},
        {"desk set back", part_set_back},
        {"new drawing", part_new_drawing},
        {"neighbour", part_neighbour},
    };
    size_t part;

    for (part = 0; part < sizeof parts / sizeof parts[0]; part++) {
        if (!parts[part].play(hall)) {
            fprintf(hall->screen, "%s: failed. %s\n", parts[part].name, hall->desk.reason);
            return 0;
        }
        fprintf(hall->screen, "%s: count %" PRIu64 ", image of %zu bytes, the same at desk and wall\n", parts[part].name,
                (uint64_t)hall->desk.now.count, hall->desk.now.size);
    }
    fprintf(hall->screen, "radio: %u lost, %u came twice\n", hall->radio.lost, hall->radio.repeated);
    fprintf(hall->screen, "wall: %u applied, %u old, %u ahead, %u foreign, %u not read\n", hall->wall.applied, hall->wall.old,
            hall->wall.ahead, hall->wall.foreign, hall->wall.unread);
    fprintf(hall->screen, "desk: %u catch-ups, %u starts given\n", hall->desk.caught_up, hall->desk.given);
    return 1;
}
