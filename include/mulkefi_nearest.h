/* The curve under a finger.
 *
 * Distances are worked out by arithmetic alone, so that no host needs <math.h> or -lm: an arc's sweep by products of directions, and a
 * square root by Newton's method. They choose a curve and are no part of an edit: what is cut, the engine decides by curve and pick.
 *
 * mulkefi_host.h includes this header, and says what holds for all of its functions. */
#ifndef MULKEFI_NEAREST_H
#define MULKEFI_NEAREST_H

#include <stddef.h>
#include <stdint.h>

#include "mulkefi_drawing.h"

/* A square root, nearly: from above, each step comes nearer until the last bits. That of 0 is 0, and that of a NaN a NaN, which is no
 * distance of a curve. */
static inline double mulkefi_host_root(double value)
{
    double root = value > 1.0 ? value : 1.0, next = 0.5 * (root + value / root);

    if (!(value > 0.0))
        return value;
    while (next < root) {
        root = next;
        next = 0.5 * (root + value / root);
    }
    return root;
}

static inline double mulkefi_host_distance(double x, double y, const struct mulkefi_point *point)
{
    return mulkefi_host_root((x - point->x) * (x - point->x) + (y - point->y) * (y - point->y));
}

/* The distance to a line between two points, or to the whole of it. */
static inline double mulkefi_host_line_distance(double x, double y, const struct mulkefi_point *start, const struct mulkefi_point *end,
                                                int infinite)
{
    double dx = end->x - start->x, dy = end->y - start->y, square = dx * dx + dy * dy, share = 0.0;
    struct mulkefi_point foot = *start;

    if (square > 0.0)
        share = ((x - start->x) * dx + (y - start->y) * dy) / square;
    if (!infinite)
        share = share < 0.0 ? 0.0 : share > 1.0 ? 1.0 : share;
    foot.x += share * dx;
    foot.y += share * dy;
    return mulkefi_host_distance(x, y, &foot);
}

/* Above 0 where q lies to the left of the direction from c to p. */
static inline double mulkefi_host_side(const struct mulkefi_point *c, const struct mulkefi_point *p, const struct mulkefi_point *q)
{
    return (p->x - c->x) * (q->y - c->y) - (p->y - c->y) * (q->x - c->x);
}

/* The distance to an arc: where the direction is one of its own, that to its circle, else that to the nearer end. */
static inline double mulkefi_host_arc_distance(double x, double y, const struct mulkefi_point *centre, const struct mulkefi_point *start,
                                               const struct mulkefi_point *end)
{
    struct mulkefi_point pick = *centre;
    double radius = mulkefi_host_distance(start->x, start->y, centre), away = mulkefi_host_distance(x, y, centre), to_start, to_end;
    int within;

    pick.x = x;
    pick.y = y;
    if (mulkefi_host_side(centre, start, end) > 0.0) /* less than half a turn */
        within = mulkefi_host_side(centre, start, &pick) >= 0.0 && mulkefi_host_side(centre, &pick, end) >= 0.0;
    else
        within = !(mulkefi_host_side(centre, end, &pick) > 0.0 && mulkefi_host_side(centre, &pick, start) > 0.0);
    if (within)
        return away > radius ? away - radius : radius - away;
    to_start = mulkefi_host_distance(x, y, start);
    to_end = mulkefi_host_distance(x, y, end);
    return to_start < to_end ? to_start : to_end;
}

/* The distance to a line, arc or circle; below 0 for another kind, or where a point is missing. */
static inline double mulkefi_host_curve_distance(const struct mulkefi_drawing *drawing, const struct mulkefi_curve *curve, double x,
                                                 double y)
{
    const struct mulkefi_point *first = mulkefi_drawing_point(drawing, curve->points[0]);
    const struct mulkefi_point *second = mulkefi_drawing_point(drawing, curve->points[1]);
    const struct mulkefi_point *third = mulkefi_drawing_point(drawing, curve->points[2]);
    double away;

    if (curve->kind == MULKEFI_LINE && first && second)
        return mulkefi_host_line_distance(x, y, first, second, curve->flags & MULKEFI_INFINITE);
    if (curve->kind == MULKEFI_ARC && first && second && third)
        return mulkefi_host_arc_distance(x, y, first, second, third);
    if (curve->kind != MULKEFI_CIRCLE || !first)
        return -1.0;
    away = mulkefi_host_distance(x, y, first);
    return away > curve->number ? away - curve->number : curve->number - away;
}

/* The id of the line, arc or circle nearest to a place, not farther than `within`: the first of its table where two are equally near, and 0
 * where there is none. Bezier curves and conics are passed over, since no edit takes them (10). */
static inline uint32_t mulkefi_drawing_nearest(const struct mulkefi_drawing *drawing, double x, double y, double within)
{
    uint32_t nearest = 0;
    double least = within;
    size_t place;

    for (place = 0; place < drawing->ncurves; place++) {
        double distance = mulkefi_host_curve_distance(drawing, drawing->curves + place, x, y);

        if (distance >= 0.0 && (nearest == 0 ? distance <= least : distance < least)) {
            nearest = drawing->curves[place].id;
            least = distance;
        }
    }
    return nearest;
}

#endif
