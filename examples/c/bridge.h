/* The drawing of bridge.c and lossy.c: a deck, two posts across it, an arch over it, and between the posts a stay of length 1. */
#include "mulkefi_host.h"

static uint32_t add_line(struct mulkefi_drawing *drawing, double x0, double y0, double x1, double y1, int fixed)
{
    uint32_t start = mulkefi_drawing_add_point(drawing, x0, y0, fixed);
    uint32_t end = mulkefi_drawing_add_point(drawing, x1, y1, fixed);

    return mulkefi_drawing_add_line(drawing, start, end, 0);
}

/* Draws the bridge, and answers the stay's id, or 0 where a table was full. */
static uint32_t draw_bridge(struct mulkefi_drawing *drawing)
{
    uint32_t centre, right, left, stay;

    mulkefi_drawing_init(drawing);
    add_line(drawing, 0.0, 0.0, 12.0, 0.0, 1);  /* the deck */
    add_line(drawing, 4.0, -2.0, 4.0, 5.0, 0);  /* the posts */
    add_line(drawing, 8.0, -2.0, 8.0, 5.0, 0);
    centre = mulkefi_drawing_add_point(drawing, 6.0, 0.0, 0);
    right = mulkefi_drawing_add_point(drawing, 10.0, 0.0, 0);
    left = mulkefi_drawing_add_point(drawing, 2.0, 0.0, 0);
    mulkefi_drawing_add_arc(drawing, centre, right, left, 0);
    stay = add_line(drawing, 6.0, 1.0, 6.0, 2.0, 0);
    return mulkefi_drawing_add_relation(drawing, MULKEFI_LENGTH, stay, 0, 1.0) ? stay : 0;
}
