/* A desk and a wall over a radio that loses, repeats and reorders: a wall that is refused by 7 asks for what is due, and the desk sends that
 * again by the same radio, and its last message until the wall has it. */
#include <stdio.h>
#include <string.h>

#include "bridge.h"

/* Fewer edits than a window has messages, so that no wall is ever too far back to catch up; catch_up.c has that case. */
#define EDITS 60

/* Messages that the radio holds at most; one more is lost. */
#define ROOM 256

struct radio {
    uint64_t random;  /* the generator's state, which is not 0 */
    uint32_t percent; /* of what is sent, so much is lost */
    uint32_t sent, lost, repeated;
    size_t n; /* messages on their way */
    uint8_t messages[ROOM][MULKEFI_MESSAGE_SIZE];
};

/* What the wall saw. */
struct tally {
    uint32_t applied, old, ahead, asked;
};

static struct mulkefi_screen desk, wall;
static struct radio radio;

/* A number below n, of Marsaglia's generator with shifts 13, 7 and 17. */
static uint32_t below(uint32_t n)
{
    radio.random ^= radio.random << 13;
    radio.random ^= radio.random >> 7;
    radio.random ^= radio.random << 17;
    return (uint32_t)((radio.random >> 32) % n);
}

static int is_lost(void)
{
    return below(100) < radio.percent;
}

/* Sends a message, which is lost, comes once, or comes twice. */
static void send_message(const uint8_t *message)
{
    uint32_t copies = below(10) == 0 ? 2 : 1;

    radio.sent++;
    if (is_lost() || radio.n + copies > ROOM) {
        radio.lost++;
        return;
    }
    radio.repeated += copies - 1;
    for (; copies > 0; copies--)
        memcpy(radio.messages[radio.n++], message, MULKEFI_MESSAGE_SIZE);
}

/* Takes one of the first three messages on their way, of which there is one at least. */
static void receive_message(uint8_t *message)
{
    size_t place = below(radio.n < 3 ? (uint32_t)radio.n : 3);

    memcpy(message, radio.messages[place], MULKEFI_MESSAGE_SIZE);
    radio.n--;
    memmove(radio.messages[place], radio.messages[place + 1], (radio.n - place) * MULKEFI_MESSAGE_SIZE);
}

/* The desk sends what is due to a wall with this count. */
static uint32_t send_due(uint32_t wall_count)
{
    static uint8_t messages[MULKEFI_WINDOW_SIZE];
    uint32_t place, due = 0;
    uint32_t refusal = mulkefi_screen_catch_up(&desk, wall_count, messages, sizeof messages, &due);

    for (place = 0; place < due; place++)
        send_message(messages + MULKEFI_MESSAGE_SIZE * place);
    return refusal;
}

/* A visitor touches the bridge until an edit is accepted, most often a split. Its message is sent. */
static uint32_t edit(void)
{
    static struct mulkefi_drawing drawing;
    uint8_t message[MULKEFI_MESSAGE_SIZE];
    uint32_t answer[MULKEFI_ANSWER_SIZE], refusal, curve, tries = 1000;

    do {
        double x = below(1200) / 100.0, y = below(700) / 100.0 - 2.0;

        refusal = mulkefi_drawing_read(&drawing, desk.image, desk.size);
        if (refusal != MULKEFI_ACCEPTED)
            return refusal;
        curve = mulkefi_drawing_nearest(&drawing, x, y, 1.0);
        refusal = mulkefi_screen_edit(&desk, below(8) == 0 ? MULKEFI_TRIM : MULKEFI_SPLIT, curve, x, y, message, answer);
    } while (refusal != MULKEFI_ACCEPTED && --tries > 0);
    if (refusal == MULKEFI_ACCEPTED)
        send_message(message);
    return refusal;
}

/* The wall hears messages until so many are left, and asks once for what is due where one was ahead. Its question may be lost too. */
static uint32_t hear(size_t left, struct tally *tally)
{
    uint8_t message[MULKEFI_MESSAGE_SIZE];
    uint32_t answer[MULKEFI_ANSWER_SIZE], refusal, ahead = 0;
    int applied;

    while (radio.n > left) {
        receive_message(message);
        refusal = mulkefi_screen_deliver(&wall, message, sizeof message, answer, &applied);
        if (refusal == MULKEFI_ACCEPTED && applied)
            tally->applied++;
        else if (refusal == MULKEFI_ACCEPTED)
            tally->old++;
        else if (refusal == MULKEFI_AHEAD)
            ahead++;
        else
            return refusal;
    }
    tally->ahead += ahead;
    if (ahead == 0)
        return MULKEFI_ACCEPTED;
    tally->asked++;
    return is_lost() ? (uint32_t)MULKEFI_ACCEPTED : send_due(wall.count);
}

/* A whole day, from the start of desk and wall until the wall has all edits. */
static uint32_t run(uint32_t percent, const uint8_t *image, size_t size, struct tally *tally)
{
    uint64_t mark = percent + 1;
    uint32_t refusal = mulkefi_screen_start(&desk, image, size, mark, 0);

    memset(&radio, 0, sizeof radio);
    memset(tally, 0, sizeof *tally);
    radio.random = 1;
    radio.percent = percent;
    if (refusal == MULKEFI_ACCEPTED)
        refusal = mulkefi_screen_start(&wall, image, size, mark, 0);
    while (refusal == MULKEFI_ACCEPTED && desk.count < EDITS) {
        refusal = edit();
        if (refusal == MULKEFI_ACCEPTED)
            refusal = hear(below(3), tally);
    }
    /* Where the last message was lost the wall can't know of it: the desk sends it until the wall tells its count. */
    while (refusal == MULKEFI_ACCEPTED && wall.count < desk.count) {
        refusal = send_due(desk.count - 1);
        if (refusal == MULKEFI_ACCEPTED)
            refusal = hear(0, tally);
    }
    return refusal;
}

int main(void)
{
    static const uint32_t percents[] = {0, 10, 30, 50};
    static struct mulkefi_drawing drawing;
    static uint8_t image[MULKEFI_IMAGE_SIZE];
    struct tally tally;
    size_t size = 0, place;
    int failed = 0;

    if (!mulkefi_host_check() || draw_bridge(&drawing) == 0 ||
        mulkefi_drawing_write(&drawing, image, sizeof image, &size) != MULKEFI_ACCEPTED)
        return 1;
    printf("loss   sent   lost  twice  applied    old  ahead  asked  same image\n");
    for (place = 0; place < sizeof percents / sizeof *percents; place++) {
        uint32_t refusal = run(percents[place], image, size, &tally);
        int same = wall.count == desk.count && wall.size == desk.size && memcmp(wall.image, desk.image, desk.size) == 0;

        if (refusal != MULKEFI_ACCEPTED)
            printf("refused by %u: %s\n", (unsigned)MULKEFI_NUMBER(refusal), mulkefi_sentence(refusal));
        printf("%3u%% %6u %6u %6u %8u %6u %6u %6u  %s\n", (unsigned)percents[place], (unsigned)radio.sent, (unsigned)radio.lost,
               (unsigned)radio.repeated, (unsigned)tally.applied, (unsigned)tally.old, (unsigned)tally.ahead, (unsigned)tally.asked,
               same ? "yes" : "no");
        failed |= refusal != MULKEFI_ACCEPTED || !same;
    }
    return failed;
}
