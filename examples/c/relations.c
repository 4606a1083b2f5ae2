/* An extend that a relation forbids: which relation it is, by the number and the place in the desk's answer. */
#include <stdio.h>

#include "mulkefi_host.h"

/* A beam from (0, 0) to (2, 0), and in front of its end a post from (5, foot) to (5, 1). Answers the beam's id. */
static uint32_t draw(struct mulkefi_drawing *drawing, double foot, uint32_t *post)
{
    uint32_t a, b, beam;

    mulkefi_drawing_init(drawing);
    a = mulkefi_drawing_add_point(drawing, 0.0, 0.0, 0);
    b = mulkefi_drawing_add_point(drawing, 2.0, 0.0, 0);
    beam = mulkefi_drawing_add_line(drawing, a, b, 0);
    a = mulkefi_drawing_add_point(drawing, 5.0, foot, 0);
    b = mulkefi_drawing_add_point(drawing, 5.0, 1.0, 0);
    *post = mulkefi_drawing_add_line(drawing, a, b, 0);
    return beam;
}

/* Extends the beam to the post, and tells which relation forbids it. */
static int extend(const struct mulkefi_drawing *drawing, uint32_t beam)
{
    static struct mulkefi_screen desk;
    static uint8_t image[MULKEFI_IMAGE_SIZE];
    const uint64_t mark = 1; /* Every edit is refused, so that no message bears it. */
    const struct mulkefi_relation *relation;
    uint8_t message[MULKEFI_MESSAGE_SIZE];
    uint32_t answer[MULKEFI_ANSWER_SIZE], refusal, number;
    size_t size;

    if (mulkefi_drawing_write(drawing, image, sizeof image, &size) != MULKEFI_ACCEPTED ||
        mulkefi_screen_start(&desk, image, size, mark, 0) != MULKEFI_ACCEPTED)
        return 1;
    refusal = mulkefi_screen_edit(&desk, MULKEFI_EXTEND, beam, 2.0, 0.0, message, answer);
    number = MULKEFI_NUMBER(refusal);
    if (number != MULKEFI_RELATIONS_UNMET && number != MULKEFI_RELATIONS_BROKEN)
        return 1;
    printf("refused by %u, relation %u: ", (unsigned)number, (unsigned)MULKEFI_PLACE(refusal));
    relation = mulkefi_drawing_unmet(drawing, refusal);
    if (relation)
        printf("%s of %u\n", mulkefi_relation_name(relation->kind), (unsigned)relation->first);
    else
        printf("the pin that the extend would have added\n");
    return 0;
}

int main(void)
{
    static struct mulkefi_drawing drawing;
    uint32_t beam, post;
    int failed;

    if (!mulkefi_host_check())
        return 1;

    /* The beam is to have length 2, and would get another. */
    beam = draw(&drawing, -1.0, &post);
    if (!mulkefi_drawing_add_relation(&drawing, MULKEFI_LENGTH, post, 0, 2.0) ||
        !mulkefi_drawing_add_relation(&drawing, MULKEFI_LENGTH, beam, 0, 2.0))
        return 1;
    failed = extend(&drawing, beam);

    /* The post is to have length 3, which it has not. */
    drawing.relations[0].value = 3.0;
    failed |= extend(&drawing, beam);

    /* Without relations, and with the post's foot at (5, -0.0000005): the beam would be pinned to it, and not lie near enough. */
    beam = draw(&drawing, -0.0000005, &post);
    return failed | extend(&drawing, beam);
}
