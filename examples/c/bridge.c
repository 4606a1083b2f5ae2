/* A bridge is drawn, touched and trimmed, and read back; then a relation forbids an extend, and the screen says so. */
#include <stdio.h>

#include "bridge.h"

static struct mulkefi_drawing drawing;
static struct mulkefi_screen desk;
static uint8_t message[MULKEFI_MESSAGE_SIZE];
static uint32_t answer[MULKEFI_ANSWER_SIZE];

/* Starts the desk with the drawing, and answers the refusal of its image. */
static uint32_t start(uint64_t mark)
{
    static uint8_t image[MULKEFI_IMAGE_SIZE];
    size_t size = 0;
    uint32_t refusal = mulkefi_drawing_write(&drawing, image, sizeof image, &size);

    return refusal != MULKEFI_ACCEPTED ? refusal : mulkefi_screen_start(&desk, image, size, mark, 0);
}

static void tell_drawing(void)
{
    printf("drawing: points %u, curves %u, relations %u, bytes %u\n", (unsigned)drawing.npoints, (unsigned)drawing.ncurves,
           (unsigned)drawing.nrelations, (unsigned)desk.size);
}

/* What a screen shows of a refusal: its sentence and, where it names one, the relation to highlight. */
static void tell_refusal(uint32_t refusal)
{
    const struct mulkefi_relation *relation = mulkefi_drawing_unmet(&drawing, refusal);

    printf("refused by %u: %s\n", (unsigned)MULKEFI_NUMBER(refusal), mulkefi_sentence(refusal));
    if (relation)
        printf("relation %u: %s of %u, %.1f\n", (unsigned)MULKEFI_PLACE(refusal), mulkefi_relation_name(relation->kind),
               (unsigned)relation->first, relation->value);
}

int main(void)
{
    const double x = 6.1, y = 0.2, finger = 0.5; /* where the finger is, and how wide */
    uint32_t stay = draw_bridge(&drawing), curve, refusal;

    if (!mulkefi_host_check() || stay == 0)
        return 1;
    refusal = start(1);
    if (refusal != MULKEFI_ACCEPTED) {
        tell_refusal(refusal);
        return 1;
    }
    tell_drawing();

    /* The deck is trimmed between the posts, and its piece there goes. */
    curve = mulkefi_drawing_nearest(&drawing, x, y, finger);
    printf("under the finger: curve %u\n", (unsigned)curve);
    refusal = mulkefi_screen_edit(&desk, MULKEFI_TRIM, curve, x, y, message, answer);
    if (refusal != MULKEFI_ACCEPTED || mulkefi_drawing_read(&drawing, desk.image, desk.size) != MULKEFI_ACCEPTED)
        return 1;
    printf("trimmed: curve %u between points %u and %u is removed\n", (unsigned)answer[MULKEFI_ANSWER_CURVE],
           (unsigned)answer[MULKEFI_ANSWER_START], (unsigned)answer[MULKEFI_ANSWER_END]);
    tell_drawing();
    printf("under the finger: curve %u\n", (unsigned)mulkefi_drawing_nearest(&drawing, x, y, finger));

    /* The stay would reach up to the arch, and be longer than 1. */
    refusal = mulkefi_screen_edit(&desk, MULKEFI_EXTEND, stay, 6.0, 2.0, message, answer);
    tell_refusal(refusal);
    return MULKEFI_NUMBER(refusal) == MULKEFI_RELATIONS_BROKEN ? 0 : 1;
}
