/* Tests of mulkefi_drawing.h, and of the sentences in mulkefi_host.h. Its argument is the handbook's path. */
#include <stdio.h>
#include <string.h>

#include "check.h"
#include "every_kind.h"
#include "mulkefi_host.h"

/* The drawing of every_kind, by the headers' calls. */
static void draw_every_kind(struct mulkefi_drawing *drawing)
{
    const uint32_t bezier[] = {1, 2, 3, 4};

    mulkefi_drawing_init(drawing);
    CHECK(mulkefi_drawing_add_point(drawing, 0.0, 0.0, 1) == 1);
    CHECK(mulkefi_drawing_add_point(drawing, 4.0, 0.5, 0) == 2);
    CHECK(mulkefi_drawing_add_point(drawing, -1.5, 2.0, 0) == 3);
    CHECK(mulkefi_drawing_add_point(drawing, 1000000.0, -0.001, 0) == 4);
    CHECK(mulkefi_drawing_add_line(drawing, 1, 2, MULKEFI_CONSTRUCTION | MULKEFI_INFINITE) == 5);
    CHECK(mulkefi_drawing_add_arc(drawing, 1, 2, 3, MULKEFI_CENTERLINE) == 6);
    CHECK(mulkefi_drawing_add_circle(drawing, 3, 2.25, 0) == 7);
    CHECK(mulkefi_drawing_add_bezier(drawing, bezier, 4, 0) == 8);
    CHECK(mulkefi_drawing_add_conic(drawing, 1, 3, 2, 0.25, 0) == 9);
    CHECK(mulkefi_drawing_add_line(drawing, 3, 4, 0) == 10);
    CHECK(mulkefi_drawing_add_relation(drawing, MULKEFI_COINCIDENT, 1, 2, 0.0));
    CHECK(mulkefi_drawing_add_relation(drawing, MULKEFI_POINT_ON_CURVE, 3, 8, 0.0));
    CHECK(mulkefi_drawing_add_relation(drawing, MULKEFI_COLLINEAR, 5, 10, 0.0));
    CHECK(mulkefi_drawing_add_relation(drawing, MULKEFI_EQUAL, 6, 7, 0.0));
    CHECK(mulkefi_drawing_add_relation(drawing, MULKEFI_LENGTH, 5, 0, 4.0));
    CHECK(mulkefi_drawing_add_relation(drawing, MULKEFI_DISTANCE, 1, 4, 100.0));
    CHECK(mulkefi_drawing_add_relation(drawing, MULKEFI_MIDPOINT, 2, 10, 0.0));
    CHECK(mulkefi_drawing_add_relation(drawing, MULKEFI_ARC_LENGTH, 7, 0, 3.0));
    CHECK(mulkefi_drawing_add_relation(drawing, MULKEFI_ARC_SWEEP, 6, 0, 1.5));
}

/* Whether a drawing is written as just these bytes, and nothing behind them is touched. */
static int is_written_as(const struct mulkefi_drawing *drawing, const uint8_t *image, size_t size)
{
    static uint8_t written[MULKEFI_IMAGE_SIZE + 1];
    size_t written_size = 0;

    memset(written, 0xa5, sizeof written);
    return mulkefi_drawing_write(drawing, written, sizeof written, &written_size) == MULKEFI_ACCEPTED && written_size == size &&
           memcmp(written, image, size) == 0 && written[size] == 0xa5;
}

static void test_writer_and_reader(void)
{
    static struct mulkefi_drawing drawing, read;
    size_t place;

    draw_every_kind(&drawing);
    CHECK(mulkefi_test(every_kind, sizeof every_kind) == MULKEFI_ACCEPTED);
    CHECK(is_written_as(&drawing, every_kind, sizeof every_kind));
    CHECK(mulkefi_drawing_read(&read, every_kind, sizeof every_kind) == MULKEFI_ACCEPTED);
    CHECK(read.next == 11 && read.npoints == 4 && read.ncurves == 6 && read.nrelations == 9);
    for (place = 0; place < 4; place++) {
        const struct mulkefi_point *a = drawing.points + place, *b = read.points + place;

        CHECK(a->id == b->id && a->fixed == b->fixed && a->x == b->x && a->y == b->y);
    }
    for (place = 0; place < 6; place++) {
        const struct mulkefi_curve *a = drawing.curves + place, *b = read.curves + place;

        CHECK(a->id == b->id && a->kind == b->kind && a->flags == b->flags && a->degree == b->degree && a->number == b->number);
        CHECK(memcmp(a->points, b->points, sizeof a->points) == 0);
    }
    for (place = 0; place < 9; place++) {
        const struct mulkefi_relation *a = drawing.relations + place, *b = read.relations + place;

        CHECK(a->kind == b->kind && a->first == b->first && a->second == b->second && a->value == b->value);
    }
    CHECK(mulkefi_drawing_point(&read, 4) == read.points + 3 && mulkefi_drawing_point(&read, 5) == NULL);
    CHECK(mulkefi_drawing_curve(&read, 5) == read.curves && mulkefi_drawing_curve(&read, 4) == NULL);
}

/* Reads bytes into a drawing that holds another. The answer is the engine's; refused, that one is left, and accepted, the bytes come back. */
static uint32_t read_over(const uint8_t *image, size_t size)
{
    static struct mulkefi_drawing before, drawing;
    uint32_t answer;

    memset(&before, 0x5a, sizeof before);
    memcpy(&drawing, &before, sizeof drawing);
    answer = mulkefi_drawing_read(&drawing, image, size);
    CHECK(answer == mulkefi_test(image, size));
    if (answer == MULKEFI_ACCEPTED)
        CHECK(is_written_as(&drawing, image, size));
    else
        CHECK(memcmp(&drawing, &before, sizeof drawing) == 0);
    return answer;
}

static void test_damaged_images(void)
{
    static const uint8_t changes[] = {0x01, 0x02, 0x04, 0x08, 0x10, 0x20, 0x40, 0x80, 0x7f, 0xff};
    static uint8_t image[sizeof every_kind + 1];
    uint32_t seen[6] = {0}, number;
    size_t at, change;

    for (at = 0; at < sizeof every_kind; at++)
        for (change = 0; change < sizeof changes; change++) {
            memcpy(image, every_kind, sizeof every_kind);
            image[at] ^= changes[change];
            number = read_over(image, sizeof every_kind);
            seen[number < 6 ? number : 0]++;
        }
    memcpy(image, every_kind, sizeof every_kind);
    image[sizeof every_kind] = 0;
    for (at = 0; at <= sizeof image; at++)
        CHECK((read_over(image, at) == MULKEFI_ACCEPTED) == (at == sizeof every_kind));
    for (number = 0; number < 6; number++)
        CHECK(seen[number] > 0);
}

static void test_full_tables(void)
{
    static struct mulkefi_drawing drawing;
    static uint8_t image[MULKEFI_IMAGE_SIZE];
    size_t size = 0;
    uint32_t place;

    mulkefi_drawing_init(&drawing);
    for (place = 0; place < MULKEFI_MOST_POINTS; place++)
        CHECK(mulkefi_drawing_add_point(&drawing, place, 1.0, 0) == place + 1);
    CHECK(mulkefi_drawing_add_point(&drawing, 0.0, 0.0, 0) == 0);
    for (place = 0; place < MULKEFI_MOST_CURVES; place++)
        CHECK(mulkefi_drawing_add_line(&drawing, place + 1, place + 2, 0) == MULKEFI_MOST_POINTS + place + 1);
    CHECK(mulkefi_drawing_add_line(&drawing, 1, 2, 0) == 0);
    CHECK(mulkefi_drawing_add_circle(&drawing, 1, 1.0, 0) == 0);
    for (place = 0; place < MULKEFI_MOST_RELATIONS; place++)
        CHECK(mulkefi_drawing_add_relation(&drawing, MULKEFI_DISTANCE, 1, place + 2, place) == 1);
    CHECK(mulkefi_drawing_add_relation(&drawing, MULKEFI_DISTANCE, 1, 2, 1.0) == 0);
    CHECK(drawing.next == MULKEFI_MOST_POINTS + MULKEFI_MOST_CURVES + 1);
    CHECK(mulkefi_drawing_write(&drawing, image, sizeof image, &size) == MULKEFI_ACCEPTED && size == MULKEFI_IMAGE_SIZE);
    CHECK(read_over(image, size) == MULKEFI_ACCEPTED);
}

static void test_what_is_not_added(void)
{
    static struct mulkefi_drawing drawing, before;
    const uint32_t points[9] = {1, 1, 1, 1, 1, 1, 1, 1, 1};

    mulkefi_drawing_init(&drawing);
    drawing.next = UINT32_MAX - 1;
    CHECK(mulkefi_drawing_add_point(&drawing, 0.0, 0.0, 0) == UINT32_MAX - 1);
    memcpy(&before, &drawing, sizeof before);
    CHECK(mulkefi_drawing_add_point(&drawing, 0.0, 0.0, 0) == 0);
    CHECK(mulkefi_drawing_add_circle(&drawing, UINT32_MAX - 1, 1.0, 0) == 0);
    drawing.next = before.next = 2;
    CHECK(mulkefi_drawing_add_bezier(&drawing, points, 0, 0) == 0);
    CHECK(mulkefi_drawing_add_bezier(&drawing, points, 1, 0) == 0);
    CHECK(mulkefi_drawing_add_bezier(&drawing, points, 9, 0) == 0);
    CHECK(memcmp(&before, &drawing, sizeof before) == 0);
    CHECK(mulkefi_drawing_add_bezier(&drawing, points, 8, 0) == 2 && drawing.curves[0].degree == 7);
}

static void test_refused_writes(void)
{
    static struct mulkefi_drawing drawing;
    static uint8_t image[MULKEFI_IMAGE_SIZE], before[MULKEFI_IMAGE_SIZE];
    size_t room, size = 77;

    draw_every_kind(&drawing);
    memset(image, 0xa5, sizeof image);
    memset(before, 0xa5, sizeof before);
    for (room = 0; room < sizeof every_kind; room++)
        CHECK(mulkefi_drawing_write(&drawing, image, room, &size) == MULKEFI_SHORT_BUFFER);
    drawing.npoints = MULKEFI_MOST_POINTS + 1;
    CHECK(mulkefi_drawing_write(&drawing, image, sizeof image, &size) == MULKEFI_BAD_COUNT);
    drawing.npoints = 4;
    drawing.ncurves = MULKEFI_MOST_CURVES + 1;
    CHECK(mulkefi_drawing_write(&drawing, image, sizeof image, &size) == MULKEFI_BAD_COUNT);
    drawing.ncurves = 6;
    drawing.nrelations = MULKEFI_MOST_RELATIONS + 1;
    CHECK(mulkefi_drawing_write(&drawing, image, sizeof image, &size) == MULKEFI_BAD_COUNT);
    CHECK(size == 77 && memcmp(image, before, sizeof image) == 0);
    drawing.nrelations = 9;
    CHECK(mulkefi_drawing_write(&drawing, image, sizeof every_kind, &size) == MULKEFI_ACCEPTED && size == sizeof every_kind);
}

/* A drawing that breaks a rule is written, and its image is refused by the rule's number. */
static void test_broken_rules(void)
{
    static struct mulkefi_drawing drawing;
    static struct mulkefi_screen screen, before;
    static uint8_t image[MULKEFI_IMAGE_SIZE];
    size_t size;

    memset(&screen, 0x5a, sizeof screen);
    memcpy(&before, &screen, sizeof before);
    draw_every_kind(&drawing);
    drawing.points[2].x = 1000001.0;
    CHECK(mulkefi_drawing_write(&drawing, image, sizeof image, &size) == MULKEFI_ACCEPTED);
    CHECK(mulkefi_screen_start(&screen, image, size, 1, 0) == MULKEFI_BAD_VALUE);
    draw_every_kind(&drawing);
    drawing.relations[8].first = 5;
    CHECK(mulkefi_drawing_write(&drawing, image, sizeof image, &size) == MULKEFI_ACCEPTED);
    CHECK(mulkefi_screen_start(&screen, image, size, 1, 0) == MULKEFI_BAD_ID);
    CHECK(memcmp(&screen, &before, sizeof screen) == 0);
}

static void test_names_and_sentences(const char *handbook)
{
    static char text[1 << 17], heading[256];
    FILE *file = fopen(handbook, "rb");
    size_t n = file ? fread(text, 1, sizeof text - 1, file) : 0;
    uint32_t number;

    CHECK(n > 0 && n < sizeof text - 1);
    if (file)
        fclose(file);
    for (number = 1; number <= 28; number++) {
        int written = snprintf(heading, sizeof heading, "\n### %u. %s\n", (unsigned)number, mulkefi_sentence(number));

        CHECK(written > 0 && (size_t)written < sizeof heading);
        check(strstr(text, heading) != NULL, heading, __LINE__);
    }
    snprintf(heading, sizeof heading, "\n### %u. ", (unsigned)number);
    CHECK(strstr(text, heading) == NULL);
    CHECK(mulkefi_sentence(19 + 7 * 65536) == mulkefi_sentence(19));
    CHECK(strcmp(mulkefi_sentence(0), "Nothing is refused.") == 0);
    CHECK(mulkefi_sentence(29) == mulkefi_sentence(65535) && strstr(mulkefi_sentence(29), "doesn't know") != NULL);
    CHECK(strcmp(mulkefi_relation_name(MULKEFI_ARC_SWEEP), "ArcSweep") == 0);
    CHECK(strcmp(mulkefi_relation_name(MULKEFI_POINT_ON_CURVE), "PointOnCurve") == 0);
    CHECK(mulkefi_relation_name(10) == mulkefi_relation_name(0));
}

int main(int argc, char **argv)
{
    if (argc != 2) {
        fprintf(stderr, "usage: drawing_test HANDBOOK\n");
        return 2;
    }
    test_writer_and_reader();
    test_damaged_images();
    test_full_tables();
    test_what_is_not_added();
    test_refused_writes();
    test_broken_rules();
    test_names_and_sentences(argv[1]);
    if (failures == 0)
        printf("drawings and sentences: passed\n");
    return failures == 0 ? 0 : 1;
}
