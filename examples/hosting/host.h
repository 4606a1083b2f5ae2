/* A desk and a wall as a host has them. docs/HOSTING.md goes through this program step by step, and its C is the lines between
 * `step: NAME` and `end` in these files. */
#ifndef HOST_H
#define HOST_H

#include <stdio.h>

#include "mulkefi.h"

/* The engine's numbers, named in one place: a count of edits or an edit's number, an id, and one number of an answer. */
typedef uint32_t edit_count;
typedef uint32_t object_id;
typedef uint32_t answer_number;

/* The room for a path, and for a sentence on what failed. */
enum { PATH_ROOM = 1024, REASON_ROOM = 160 };

/* Who sends and hears, by the address that a radio or a network gives. The neighbour stands for all that is neither. */
enum station { DESK, WALL, NEIGHBOUR };

/* What a wall tells: its mark and its count, 8 bytes each, the highest first. A wall without a state tells zeros, and no start has mark 0. */
enum { TOLD_SIZE = 16 };

/* step: state */
struct state {
    uint8_t image[MULKEFI_IMAGE_SIZE];
    size_t size;                         /* of the image, in bytes */
    edit_count count;                    /* edits since the start */
    uint64_t mark;                       /* the start's */
    uint8_t window[MULKEFI_WINDOW_SIZE]; /* the desk's last messages; a wall has none */
};
/* end */

/* The simulated radio (radio.c), by which all hear all. It loses packets, repeats some and lets them overtake each other; behind a closed
 * door it loses all. */
enum { PACKETS_ON_AIR = 256, LISTENERS = 2 };

struct packet {
    enum station from;
    size_t size;
    uint8_t bytes[MULKEFI_MESSAGE_SIZE];
};

struct air {
    struct packet packets[PACKETS_ON_AIR];
    size_t number;
};

struct radio {
    struct air air[LISTENERS]; /* on the way to the desk, and to the wall */
    uint64_t random;
    int is_door_closed;
    unsigned lost, repeated;
};

void radio_send(struct radio *radio, enum station from, const uint8_t *bytes, size_t size);
int radio_receive(struct radio *radio, enum station to, struct packet *packet);

/* Files (state.c). A call that fails answers 0 and has written a sentence into `reason`. */
enum loaded { LOADED, ABSENT, UNREADABLE };

void put(uint8_t *bytes, size_t size, uint64_t value);
uint64_t get(const uint8_t *bytes, size_t size);
int is_edit_count(uint64_t value);
int path_in(char path[PATH_ROOM], const char *folder, const char *name);
int keep(const char *folder, const char *name, const struct state *state, size_t window_size);
enum loaded load(const char *folder, const char *name, struct state *state, size_t window_size, char reason[REASON_ROOM]);
int read_image(const char *folder, const char *name, struct state *state, char reason[REASON_ROOM]);

/* The desk (desk.c). `next` is what an edit has left and is not kept yet. */
struct desk {
    struct state now, next;
    uint8_t message[MULKEFI_MESSAGE_SIZE];
    uint8_t due[MULKEFI_WINDOW_SIZE];
    answer_number answer[MULKEFI_ANSWER_SIZE];
    const char *folder;
    char reason[REASON_ROOM];
    unsigned caught_up, given; /* catch-ups sent, and starts given to the wall */
};

int new_mark(uint64_t *mark);
int desk_start(struct desk *desk, const uint8_t *image, size_t size);
int desk_boot(struct desk *desk, FILE *screen);
uint32_t desk_edit(struct desk *desk, uint32_t operation, object_id curve, double x, double y);
int desk_keep(struct desk *desk);
void desk_show(const struct desk *desk, uint32_t refusal, FILE *screen);
void desk_touch(struct desk *desk, struct radio *radio, uint32_t operation, object_id curve, double x, double y, FILE *screen);
void desk_turn(struct desk *desk, struct radio *radio, FILE *screen);
int give_start(struct desk *desk);

/* The wall (wall.c). */
struct wall {
    struct state now, arrived; /* what it shows, and a start that has come */
    const char *folder;
    char reason[REASON_ROOM];
    int is_behind;
    uint32_t parted; /* the number by which it refused its desk's edit; 0 where none was refused */
    unsigned turns, applied, old, ahead, foreign, unread;
};

void wall_boot(struct wall *wall, struct radio *radio, FILE *screen);
void wall_turn(struct wall *wall, struct radio *radio, FILE *screen);
int wall_deliver(struct wall *wall, const uint8_t *message, size_t size);
int wall_keep(struct wall *wall);
void wall_tell(struct wall *wall, struct radio *radio);
int take_start(struct wall *wall);

/* What happens in a hall (story.c), on a thread of its own (hosting.c). */
struct hall {
    struct desk desk, neighbour;
    struct wall wall;
    struct radio radio;
    struct state kept; /* what a file holds, to compare */
    uint8_t file[MULKEFI_IMAGE_SIZE + MULKEFI_WINDOW_SIZE + 64];
    char folder[PATH_ROOM], neighbours_folder[PATH_ROOM];
    FILE *screen;
    double x; /* where the line was split last */
};

int story(struct hall *hall);

#endif
