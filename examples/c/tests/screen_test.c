/* Tests of the screens in mulkefi_host.h, of picks, and of the relation that a refusal names. */
#include <string.h>

#include "check.h"
#include "mulkefi_host.h"

static struct mulkefi_drawing drawing;
static struct mulkefi_screen desk, wall, before;
static uint8_t image[MULKEFI_IMAGE_SIZE], messages[MULKEFI_WINDOW_SIZE];
static uint32_t answer[MULKEFI_ANSWER_SIZE];
static size_t size;

/* Line 3 from (0, 0) to (100, 0). */
static void draw_line(void)
{
    mulkefi_drawing_init(&drawing);
    mulkefi_drawing_add_point(&drawing, 0.0, 0.0, 0);
    mulkefi_drawing_add_point(&drawing, 100.0, 0.0, 0);
    mulkefi_drawing_add_line(&drawing, 1, 2, 0);
    CHECK(mulkefi_drawing_write(&drawing, image, sizeof image, &size) == MULKEFI_ACCEPTED);
}

static uint32_t split(struct mulkefi_screen *screen, uint8_t *message)
{
    return mulkefi_screen_edit(screen, MULKEFI_SPLIT, 3, 99.0 - screen->count, 0.0, message, answer);
}

static int is_same(const struct mulkefi_screen *a, const struct mulkefi_screen *b)
{
    return a->mark == b->mark && a->count == b->count && a->size == b->size && memcmp(a->image, b->image, a->size) == 0;
}

static void test_edits_and_deliveries(void)
{
    uint8_t first[MULKEFI_MESSAGE_SIZE], second[MULKEFI_MESSAGE_SIZE];
    int applied = 7;

    draw_line();
    CHECK(mulkefi_screen_start(&desk, image, size, 5, 0) == MULKEFI_ACCEPTED);
    CHECK(mulkefi_screen_start(&wall, image, size, 5, 0) == MULKEFI_ACCEPTED && is_same(&desk, &wall));
    CHECK(split(&desk, first) == MULKEFI_ACCEPTED && desk.count == 1 && answer[MULKEFI_ANSWER_COUNT] == 1);
    CHECK(desk.size == answer[MULKEFI_ANSWER_IMAGE] && desk.size > size && mulkefi_test(desk.image, desk.size) == MULKEFI_ACCEPTED);
    CHECK(memcmp(desk.window + MULKEFI_MESSAGE_SIZE, first, sizeof first) == 0);
    CHECK(split(&desk, second) == MULKEFI_ACCEPTED && desk.count == 2);
    memcpy(&before, &desk, sizeof before);
    CHECK(mulkefi_screen_edit(&desk, MULKEFI_TRIM, 77, 0.0, 0.0, messages, answer) == MULKEFI_NO_CURVE);
    CHECK(memcmp(&before, &desk, sizeof before) == 0);

    memcpy(&before, &wall, sizeof before);
    CHECK(mulkefi_screen_deliver(&wall, second, sizeof second, answer, &applied) == MULKEFI_AHEAD);
    CHECK(mulkefi_screen_deliver(&wall, second, 3, answer, &applied) == MULKEFI_BAD_LENGTH);
    CHECK(applied == 7 && memcmp(&before, &wall, sizeof before) == 0);
    CHECK(mulkefi_screen_deliver(&wall, first, sizeof first, answer, &applied) == MULKEFI_ACCEPTED && applied == 1 && wall.count == 1);
    CHECK(mulkefi_screen_deliver(&wall, first, sizeof first, answer, &applied) == MULKEFI_ACCEPTED && applied == 0 && wall.count == 1);
    CHECK(mulkefi_screen_deliver(&wall, second, sizeof second, answer, &applied) == MULKEFI_ACCEPTED && applied == 1);
    CHECK(is_same(&desk, &wall));
}

static void test_catching_up(void)
{
    static const uint8_t zeros[MULKEFI_WINDOW_SIZE] = {0};
    static struct mulkefi_screen resumed;
    uint8_t message[MULKEFI_MESSAGE_SIZE];
    uint32_t due = 77, number;

    draw_line();
    CHECK(mulkefi_screen_start(&desk, image, size, 6, 0) == MULKEFI_ACCEPTED);
    for (number = 0; number < MULKEFI_WINDOW_MESSAGES + 1; number++)
        CHECK(split(&desk, message) == MULKEFI_ACCEPTED);
    CHECK(mulkefi_screen_catch_up(&desk, 0, messages, sizeof messages, &due) == MULKEFI_LEFT_WINDOW);
    CHECK(mulkefi_screen_catch_up(&desk, desk.count + 1, messages, sizeof messages, &due) == MULKEFI_COUNT_ABOVE);
    CHECK(mulkefi_screen_catch_up(&desk, 1, messages, sizeof messages - 1, &due) == MULKEFI_SHORT_BUFFER && due == 77);
    CHECK(mulkefi_screen_catch_up(&desk, desk.count, messages, 0, &due) == MULKEFI_ACCEPTED && due == 0);
    CHECK(mulkefi_screen_catch_up(&desk, 1, messages, sizeof messages, &due) == MULKEFI_ACCEPTED && due == MULKEFI_WINDOW_MESSAGES);
    CHECK(memcmp(messages + sizeof messages - sizeof message, message, sizeof message) == 0);

    /* Resumed with its window the desk lets walls catch up, without it not. */
    CHECK(mulkefi_screen_resume(&resumed, desk.image, desk.size, desk.mark, desk.count, desk.window) == MULKEFI_ACCEPTED);
    CHECK(is_same(&desk, &resumed) && mulkefi_screen_catch_up(&resumed, 1, messages, sizeof messages, &due) == MULKEFI_ACCEPTED);
    CHECK(mulkefi_screen_resume(&resumed, desk.image, desk.size, desk.mark, desk.count, zeros) == MULKEFI_ACCEPTED);
    CHECK(mulkefi_screen_catch_up(&resumed, 1, messages, sizeof messages, &due) == MULKEFI_LEFT_WINDOW);

    /* Started anew from its own image the desk has a new mark, count 0 and an empty window. */
    memcpy(&before, &desk, sizeof before);
    CHECK(mulkefi_screen_start(&desk, desk.image, desk.size, 7, 0) == MULKEFI_ACCEPTED && desk.mark == 7 && desk.count == 0);
    CHECK(desk.size == before.size && memcmp(desk.image, before.image, desk.size) == 0);
    CHECK(memcmp(desk.window, zeros, sizeof zeros) == 0);
    memcpy(&before, &desk, sizeof before);
    CHECK(mulkefi_screen_resume(&desk, image, size - 1, 8, 9, messages) == MULKEFI_BAD_LENGTH);
    CHECK(memcmp(&before, &desk, sizeof before) == 0);
}

struct pick {
    double x, y, within;
    uint32_t curve;
};

static void check_picks(const struct pick *picks, size_t n)
{
    for (; n > 0; n--, picks++) {
        char what[96];

        snprintf(what, sizeof what, "the curve at (%g, %g) within %g is %u", picks->x, picks->y, picks->within, (unsigned)picks->curve);
        check(mulkefi_drawing_nearest(&drawing, picks->x, picks->y, picks->within) == picks->curve, what, __LINE__);
    }
}

/* Points 1 to 6; line 7 from (0, 0) to (4, 0), endless line 8 along y = -10, circle 9 about (20, 0), Bezier curve 10 at the line's height. */
static void test_picks_of_lines_and_circles(void)
{
    static const struct pick picks[] = {
        {1.0, 0.5, 0.5, 7},      {1.0, 0.5, 0.4999, 0},   {-3.0, 4.0, 5.0, 7},   {-3.0, 4.0, 4.9999, 0}, {7.0, 4.0, 5.0, 7},
        {900.0, -10.5, 0.5, 8},  {-900.0, -9.0, 1.0, 8},  {900.0, -9.0, 0.9, 0}, {23.0, 0.0, 0.0, 9},    {20.0, 2.5, 0.5, 9},
        {20.0, 0.0, 3.0, 9},     {20.0, 0.0, 2.9999, 0},  {22.4, 3.2, 1.0, 9},   {2.0, -5.0, 100.0, 7},  {2.0, -5.0001, 100.0, 8},
        {40.0, 0.0, 1.0, 0},     {1.0, 0.0, -1.0, 0}};
    const uint32_t bezier[] = {5, 6};
    double zero = 0.0;

    mulkefi_drawing_init(&drawing);
    mulkefi_drawing_add_point(&drawing, 0.0, 0.0, 0);
    mulkefi_drawing_add_point(&drawing, 4.0, 0.0, 0);
    mulkefi_drawing_add_point(&drawing, 0.0, -10.0, 0);
    mulkefi_drawing_add_point(&drawing, 1.0, -10.0, 0);
    mulkefi_drawing_add_point(&drawing, 20.0, 0.0, 0);
    mulkefi_drawing_add_point(&drawing, 40.0, 0.0, 0);
    CHECK(mulkefi_drawing_nearest(&drawing, 0.0, 0.0, 100.0) == 0);
    mulkefi_drawing_add_line(&drawing, 1, 2, 0);
    mulkefi_drawing_add_line(&drawing, 3, 4, MULKEFI_INFINITE);
    mulkefi_drawing_add_circle(&drawing, 5, 3.0, 0);
    mulkefi_drawing_add_bezier(&drawing, bezier, 2, 0);
    check_picks(picks, sizeof picks / sizeof *picks);
    CHECK(mulkefi_drawing_nearest(&drawing, zero / zero, 0.0, 100.0) == 0 && mulkefi_drawing_nearest(&drawing, 1.0, 0.0, zero / zero) == 0);
    CHECK(mulkefi_drawing_nearest(&drawing, 1.0 / zero, 0.0, 1000.0) == 0);
    drawing.curves[0].points[1] = 99; /* a point that is missing */
    CHECK(mulkefi_drawing_nearest(&drawing, 1.0, 0.5, 0.5) == 0);
}

/* An arc about (0, 0) with radius 5 from one direction to another, its ends at places of a circle. */
static void draw_arc(double x0, double y0, double x1, double y1)
{
    mulkefi_drawing_init(&drawing);
    mulkefi_drawing_add_point(&drawing, 0.0, 0.0, 0);
    mulkefi_drawing_add_point(&drawing, x0, y0, 0);
    mulkefi_drawing_add_point(&drawing, x1, y1, 0);
    mulkefi_drawing_add_arc(&drawing, 1, 2, 3, 0);
}

static void test_picks_of_arcs(void)
{
    static const struct pick quarter[] = {{3.0, 4.0, 0.001, 4}, {-3.0, 4.0, 0.001, 0}, {-3.0, 4.0, 3.2, 4},
                                          {3.0, -4.0, 0.001, 0}, {-3.0, -4.0, 0.001, 0}};
    static const struct pick half[] = {{3.0, 4.0, 0.001, 4}, {-3.0, 4.0, 0.001, 4}, {3.0, -4.0, 0.001, 0},
                                       {-3.0, -4.0, 0.001, 0}, {0.0, 6.0, 1.0, 4}};
    static const struct pick most[] = {{3.0, 4.0, 0.001, 0}, {-3.0, 4.0, 0.001, 4}, {3.0, -4.0, 0.001, 4},
                                       {-3.0, -4.0, 0.001, 4}, {0.0, 0.0, 5.0, 4}};
    static const struct pick whole[] = {{3.0, 4.0, 0.001, 4}, {-3.0, 4.0, 0.001, 4}, {3.0, -4.0, 0.001, 4},
                                        {-3.0, -4.0, 0.001, 4}, {5.0, 0.0, 0.001, 4}};

    draw_arc(5.0, 0.0, 0.0, 5.0);
    check_picks(quarter, 5);
    draw_arc(5.0, 0.0, -5.0, 0.0);
    check_picks(half, 5);
    draw_arc(0.0, 5.0, 5.0, 0.0);
    check_picks(most, 5);
    draw_arc(5.0, 0.0, 5.0, 0.0);
    check_picks(whole, 5);
}

static void test_unmet_relations(void)
{
    draw_line();
    CHECK(mulkefi_drawing_unmet(&drawing, MULKEFI_RELATIONS_BROKEN) == NULL);
    mulkefi_drawing_add_relation(&drawing, MULKEFI_LENGTH, 3, 0, 100.0);
    mulkefi_drawing_add_relation(&drawing, MULKEFI_DISTANCE, 1, 2, 100.0);
    CHECK(mulkefi_drawing_unmet(&drawing, MULKEFI_RELATIONS_UNMET) == drawing.relations);
    CHECK(mulkefi_drawing_unmet(&drawing, MULKEFI_RELATIONS_UNMET + 65536) == drawing.relations + 1);
    CHECK(mulkefi_drawing_unmet(&drawing, MULKEFI_RELATIONS_BROKEN + 65536) == drawing.relations + 1);
    CHECK(mulkefi_drawing_unmet(&drawing, MULKEFI_RELATIONS_BROKEN + 2 * 65536) == NULL);
    CHECK(mulkefi_drawing_unmet(&drawing, MULKEFI_TIE) == NULL && mulkefi_drawing_unmet(&drawing, MULKEFI_ACCEPTED) == NULL);
}

int main(void)
{
    CHECK(mulkefi_host_check());
    test_edits_and_deliveries();
    test_catching_up();
    test_picks_of_lines_and_circles();
    test_picks_of_arcs();
    test_unmet_relations();
    if (failures == 0)
        printf("screens and picks: passed\n");
    return failures == 0 ? 0 : 1;
}
