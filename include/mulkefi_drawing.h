/* A drawing as a host makes and shows it: the records of an image as plain structs, written as an image and read from one.
 *
 * mulkefi_host.h includes this header, and says what holds for all of its functions. */
#ifndef MULKEFI_DRAWING_H
#define MULKEFI_DRAWING_H

#include <stddef.h>
#include <stdint.h>
#include <string.h>

#include "mulkefi.h"

/* The version of images that is written. */
#define MULKEFI_IMAGE_VERSION 1

enum mulkefi_curve_kind {
    MULKEFI_LINE = 1,
    MULKEFI_ARC = 2,
    MULKEFI_CIRCLE = 3,
    MULKEFI_BEZIER = 4,
    MULKEFI_CONIC = 5
};

enum mulkefi_curve_flag {
    MULKEFI_CONSTRUCTION = 1,
    MULKEFI_CENTERLINE = 2,
    MULKEFI_INFINITE = 4 /* of lines alone */
};

enum mulkefi_relation_kind {
    MULKEFI_COINCIDENT = 1,     /* two points */
    MULKEFI_POINT_ON_CURVE = 2, /* a point, and a curve */
    MULKEFI_COLLINEAR = 3,      /* two lines */
    MULKEFI_EQUAL = 4,          /* two lines, or two arcs or circles */
    MULKEFI_LENGTH = 5,         /* a line, 0, and a value */
    MULKEFI_DISTANCE = 6,       /* two points, and a value */
    MULKEFI_MIDPOINT = 7,       /* a point, and a line */
    MULKEFI_ARC_LENGTH = 8,     /* an arc or circle, 0, and a value */
    MULKEFI_ARC_SWEEP = 9       /* an arc or circle, 0, and a value */
};

/* How many points a curve's record has room for. */
#define MULKEFI_SLOTS 8

/* Where the fields of an image stand, in bytes: those of the header, and those of a record from its front. */
enum mulkefi_image_place {
    MULKEFI_VERSION_AT = 4,
    MULKEFI_NEXT_AT = 5,
    MULKEFI_POINT_COUNT_AT = 9,
    MULKEFI_CURVE_COUNT_AT = 11,
    MULKEFI_RELATION_COUNT_AT = 13,
    MULKEFI_HEADER_SIZE = 15,
    MULKEFI_POINT_X_AT = 4,
    MULKEFI_POINT_Y_AT = 12,
    MULKEFI_POINT_FLAGS_AT = 20,
    MULKEFI_POINT_SIZE = 21,
    MULKEFI_CURVE_KIND_AT = 4,
    MULKEFI_CURVE_FLAGS_AT = 5,
    MULKEFI_CURVE_DEGREE_AT = 6,
    MULKEFI_CURVE_SLOTS_AT = 7,
    MULKEFI_CURVE_NUMBER_AT = 39,
    MULKEFI_CURVE_SIZE = 47,
    MULKEFI_RELATION_FIRST_AT = 1,
    MULKEFI_RELATION_SECOND_AT = 5,
    MULKEFI_RELATION_VALUE_AT = 9,
    MULKEFI_RELATION_SIZE = 17
};

struct mulkefi_point {
    uint32_t id;
    int fixed; /* 1 or 0 */
    double x, y;
};

struct mulkefi_curve {
    uint32_t id;
    uint8_t kind;
    uint8_t flags;
    uint8_t degree;                 /* of a Bezier curve, 1 to 7; else 0 */
    uint32_t points[MULKEFI_SLOTS]; /* ids, and behind them zeros: as mulkefi_drawing_add_line and the others take them */
    double number;                  /* a circle's radius or a conic's rho; else 0 */
};

struct mulkefi_relation {
    uint8_t kind;
    uint32_t first, second; /* ids; the second is 0 where the kind has one */
    double value;           /* of a kind that measures; else 0 */
};

/* Three tables whose records name each other by id. Ids rise in each table, below the next id. A drawing may hold anything; whether its
 * image is good is for mulkefi_test to say. */
struct mulkefi_drawing {
    uint32_t next;
    size_t npoints, ncurves, nrelations;
    struct mulkefi_point points[MULKEFI_MOST_POINTS];
    struct mulkefi_curve curves[MULKEFI_MOST_CURVES];
    struct mulkefi_relation relations[MULKEFI_MOST_RELATIONS];
};

/* Makes a drawing empty. */
static inline void mulkefi_drawing_init(struct mulkefi_drawing *drawing)
{
    memset(drawing, 0, sizeof *drawing);
    drawing->next = 1;
}

/* Adds a point, and answers its id: 0, and nothing is added, where the table is full or no id is left. */
static inline uint32_t mulkefi_drawing_add_point(struct mulkefi_drawing *drawing, double x, double y, int fixed)
{
    struct mulkefi_point *point;

    if (drawing->npoints >= MULKEFI_MOST_POINTS || drawing->next == UINT32_MAX)
        return 0;
    point = drawing->points + drawing->npoints++;
    point->id = drawing->next++;
    point->fixed = fixed != 0;
    point->x = x;
    point->y = y;
    return point->id;
}

/* Adds a curve with `n` points of at most 8; the five below call it. */
static inline uint32_t mulkefi_host_add_curve(struct mulkefi_drawing *drawing, uint8_t kind, uint8_t flags, const uint32_t *points,
                                              size_t n, double number)
{
    struct mulkefi_curve *curve;

    if (drawing->ncurves >= MULKEFI_MOST_CURVES || drawing->next == UINT32_MAX)
        return 0;
    curve = drawing->curves + drawing->ncurves++;
    memset(curve, 0, sizeof *curve);
    curve->id = drawing->next++;
    curve->kind = kind;
    curve->flags = flags;
    curve->degree = (uint8_t)(kind == MULKEFI_BEZIER ? n - 1 : 0);
    memcpy(curve->points, points, n * sizeof *points);
    curve->number = number;
    return curve->id;
}

/* The five add a curve through points of these ids, with flags of enum mulkefi_curve_flag, and answer its id: 0, and nothing is added,
 * where the table is full or no id is left. */
static inline uint32_t mulkefi_drawing_add_line(struct mulkefi_drawing *drawing, uint32_t start, uint32_t end, uint8_t flags)
{
    const uint32_t points[] = {start, end};

    return mulkefi_host_add_curve(drawing, MULKEFI_LINE, flags, points, 2, 0.0);
}

/* An arc goes counter-clockwise about its centre, y upwards. */
static inline uint32_t mulkefi_drawing_add_arc(struct mulkefi_drawing *drawing, uint32_t centre, uint32_t start, uint32_t end,
                                               uint8_t flags)
{
    const uint32_t points[] = {centre, start, end};

    return mulkefi_host_add_curve(drawing, MULKEFI_ARC, flags, points, 3, 0.0);
}

static inline uint32_t mulkefi_drawing_add_circle(struct mulkefi_drawing *drawing, uint32_t centre, double radius, uint8_t flags)
{
    return mulkefi_host_add_curve(drawing, MULKEFI_CIRCLE, flags, &centre, 1, radius);
}

/* A Bezier curve has `n` points, 2 to 8; with any other number none is added. */
static inline uint32_t mulkefi_drawing_add_bezier(struct mulkefi_drawing *drawing, const uint32_t *points, size_t n, uint8_t flags)
{
    if (n < 2 || n > MULKEFI_SLOTS)
        return 0;
    return mulkefi_host_add_curve(drawing, MULKEFI_BEZIER, flags, points, n, 0.0);
}

static inline uint32_t mulkefi_drawing_add_conic(struct mulkefi_drawing *drawing, uint32_t start, uint32_t apex, uint32_t end, double rho,
                                                 uint8_t flags)
{
    const uint32_t points[] = {start, apex, end};

    return mulkefi_host_add_curve(drawing, MULKEFI_CONIC, flags, points, 3, rho);
}

/* Adds a relation of enum mulkefi_relation_kind, which says what it names. It has a place in its table and no id; the answer is 1, or 0
 * where the table is full. */
static inline int mulkefi_drawing_add_relation(struct mulkefi_drawing *drawing, uint8_t kind, uint32_t first, uint32_t second,
                                               double value)
{
    struct mulkefi_relation *relation;

    if (drawing->nrelations >= MULKEFI_MOST_RELATIONS)
        return 0;
    relation = drawing->relations + drawing->nrelations++;
    relation->kind = kind;
    relation->first = first;
    relation->second = second;
    relation->value = value;
    return 1;
}

/* The point with an id, or null. */
static inline const struct mulkefi_point *mulkefi_drawing_point(const struct mulkefi_drawing *drawing, uint32_t id)
{
    size_t place;

    for (place = 0; place < drawing->npoints; place++)
        if (drawing->points[place].id == id)
            return drawing->points + place;
    return NULL;
}

/* The curve with an id, or null. */
static inline const struct mulkefi_curve *mulkefi_drawing_curve(const struct mulkefi_drawing *drawing, uint32_t id)
{
    size_t place;

    for (place = 0; place < drawing->ncurves; place++)
        if (drawing->curves[place].id == id)
            return drawing->curves + place;
    return NULL;
}

/* The relation that a refusal by 13 or 19 names, in the drawing whose edit was refused. It is null with every other answer; and with 19
 * where it is the pin, which the edit would have added and the drawing does not hold: highlight the curve of the edit then. */
static inline const struct mulkefi_relation *mulkefi_drawing_unmet(const struct mulkefi_drawing *drawing, uint32_t answer)
{
    uint32_t number = MULKEFI_NUMBER(answer), place = MULKEFI_PLACE(answer);

    if (number != MULKEFI_RELATIONS_UNMET && number != MULKEFI_RELATIONS_BROKEN)
        return NULL;
    return place < drawing->nrelations ? drawing->relations + place : NULL;
}

/* The name of a kind of relations, as mulkefi-show prints it. */
static inline const char *mulkefi_relation_name(uint8_t kind)
{
    static const char *const names[] = {"unknown", "Coincident", "PointOnCurve", "Collinear", "Equal",
                                        "Length",  "Distance",   "Midpoint",     "ArcLength", "ArcSweep"};

    return names[kind < sizeof names / sizeof *names ? kind : 0];
}

/* ---- Drawings as images: fields have the highest byte first, and floats are stored as their bits */

static inline void mulkefi_host_put(uint8_t *field, size_t size, uint64_t value)
{
    while (size > 0) {
        field[--size] = (uint8_t)(value & 0xff);
        value >>= 8;
    }
}

static inline uint64_t mulkefi_host_get(const uint8_t *field, size_t size)
{
    uint64_t value = 0;
    size_t at;

    for (at = 0; at < size; at++)
        value = value << 8 | field[at];
    return value;
}

static inline void mulkefi_host_put_float(uint8_t *field, double value)
{
    uint64_t bits;

    memcpy(&bits, &value, sizeof bits);
    mulkefi_host_put(field, sizeof bits, bits);
}

static inline double mulkefi_host_get_float(const uint8_t *field)
{
    uint64_t bits = mulkefi_host_get(field, sizeof bits);
    double value;

    memcpy(&value, &bits, sizeof value);
    return value;
}

static inline void mulkefi_host_put_point(uint8_t *record, const struct mulkefi_point *point)
{
    mulkefi_host_put(record, 4, point->id);
    mulkefi_host_put_float(record + MULKEFI_POINT_X_AT, point->x);
    mulkefi_host_put_float(record + MULKEFI_POINT_Y_AT, point->y);
    record[MULKEFI_POINT_FLAGS_AT] = point->fixed != 0;
}

static inline void mulkefi_host_get_point(const uint8_t *record, struct mulkefi_point *point)
{
    point->id = (uint32_t)mulkefi_host_get(record, 4);
    point->x = mulkefi_host_get_float(record + MULKEFI_POINT_X_AT);
    point->y = mulkefi_host_get_float(record + MULKEFI_POINT_Y_AT);
    point->fixed = record[MULKEFI_POINT_FLAGS_AT];
}

static inline void mulkefi_host_put_curve(uint8_t *record, const struct mulkefi_curve *curve)
{
    size_t slot;

    mulkefi_host_put(record, 4, curve->id);
    record[MULKEFI_CURVE_KIND_AT] = curve->kind;
    record[MULKEFI_CURVE_FLAGS_AT] = curve->flags;
    record[MULKEFI_CURVE_DEGREE_AT] = curve->degree;
    for (slot = 0; slot < MULKEFI_SLOTS; slot++)
        mulkefi_host_put(record + MULKEFI_CURVE_SLOTS_AT + 4 * slot, 4, curve->points[slot]);
    mulkefi_host_put_float(record + MULKEFI_CURVE_NUMBER_AT, curve->number);
}

static inline void mulkefi_host_get_curve(const uint8_t *record, struct mulkefi_curve *curve)
{
    size_t slot;

    curve->id = (uint32_t)mulkefi_host_get(record, 4);
    curve->kind = record[MULKEFI_CURVE_KIND_AT];
    curve->flags = record[MULKEFI_CURVE_FLAGS_AT];
    curve->degree = record[MULKEFI_CURVE_DEGREE_AT];
    for (slot = 0; slot < MULKEFI_SLOTS; slot++)
        curve->points[slot] = (uint32_t)mulkefi_host_get(record + MULKEFI_CURVE_SLOTS_AT + 4 * slot, 4);
    curve->number = mulkefi_host_get_float(record + MULKEFI_CURVE_NUMBER_AT);
}

static inline void mulkefi_host_put_relation(uint8_t *record, const struct mulkefi_relation *relation)
{
    record[0] = relation->kind;
    mulkefi_host_put(record + MULKEFI_RELATION_FIRST_AT, 4, relation->first);
    mulkefi_host_put(record + MULKEFI_RELATION_SECOND_AT, 4, relation->second);
    mulkefi_host_put_float(record + MULKEFI_RELATION_VALUE_AT, relation->value);
}

static inline void mulkefi_host_get_relation(const uint8_t *record, struct mulkefi_relation *relation)
{
    relation->kind = record[0];
    relation->first = (uint32_t)mulkefi_host_get(record + MULKEFI_RELATION_FIRST_AT, 4);
    relation->second = (uint32_t)mulkefi_host_get(record + MULKEFI_RELATION_SECOND_AT, 4);
    relation->value = mulkefi_host_get_float(record + MULKEFI_RELATION_VALUE_AT);
}

/* Writes a drawing's image, and its size in bytes. MULKEFI_IMAGE_SIZE bytes of room are always enough. Where the drawing breaks a rule the
 * image breaks it too: mulkefi_test, and mulkefi_screen_start with it, tells which.
 *
 * Refused, in this order: 3 where a count is over its table's limit; 25 where `room` is too short. */
static inline uint32_t mulkefi_drawing_write(const struct mulkefi_drawing *drawing, uint8_t *image, size_t room, size_t *size)
{
    size_t place, needed;
    uint8_t *at;

    if (drawing->npoints > MULKEFI_MOST_POINTS || drawing->ncurves > MULKEFI_MOST_CURVES || drawing->nrelations > MULKEFI_MOST_RELATIONS)
        return MULKEFI_BAD_COUNT;
    needed = MULKEFI_HEADER_SIZE + MULKEFI_POINT_SIZE * drawing->npoints + MULKEFI_CURVE_SIZE * drawing->ncurves +
             MULKEFI_RELATION_SIZE * drawing->nrelations;
    if (room < needed)
        return MULKEFI_SHORT_BUFFER;
    mulkefi_host_put(image, 4, needed - 4);
    image[MULKEFI_VERSION_AT] = MULKEFI_IMAGE_VERSION;
    mulkefi_host_put(image + MULKEFI_NEXT_AT, 4, drawing->next);
    mulkefi_host_put(image + MULKEFI_POINT_COUNT_AT, 2, drawing->npoints);
    mulkefi_host_put(image + MULKEFI_CURVE_COUNT_AT, 2, drawing->ncurves);
    mulkefi_host_put(image + MULKEFI_RELATION_COUNT_AT, 2, drawing->nrelations);
    at = image + MULKEFI_HEADER_SIZE;
    for (place = 0; place < drawing->npoints; place++, at += MULKEFI_POINT_SIZE)
        mulkefi_host_put_point(at, drawing->points + place);
    for (place = 0; place < drawing->ncurves; place++, at += MULKEFI_CURVE_SIZE)
        mulkefi_host_put_curve(at, drawing->curves + place);
    for (place = 0; place < drawing->nrelations; place++, at += MULKEFI_RELATION_SIZE)
        mulkefi_host_put_relation(at, drawing->relations + place);
    *size = needed;
    return MULKEFI_ACCEPTED;
}

/* Reads the drawing of an image of `size` bytes.
 *
 * Refused: by the number that mulkefi_test answers. The drawing is then as before. */
static inline uint32_t mulkefi_drawing_read(struct mulkefi_drawing *drawing, const uint8_t *image, size_t size)
{
    uint32_t refusal = mulkefi_test(image, size);
    const uint8_t *at;
    size_t place;

    if (refusal != MULKEFI_ACCEPTED)
        return refusal;
    mulkefi_drawing_init(drawing);
    drawing->next = (uint32_t)mulkefi_host_get(image + MULKEFI_NEXT_AT, 4);
    drawing->npoints = (size_t)mulkefi_host_get(image + MULKEFI_POINT_COUNT_AT, 2);
    drawing->ncurves = (size_t)mulkefi_host_get(image + MULKEFI_CURVE_COUNT_AT, 2);
    drawing->nrelations = (size_t)mulkefi_host_get(image + MULKEFI_RELATION_COUNT_AT, 2);
    at = image + MULKEFI_HEADER_SIZE;
    for (place = 0; place < drawing->npoints; place++, at += MULKEFI_POINT_SIZE)
        mulkefi_host_get_point(at, drawing->points + place);
    for (place = 0; place < drawing->ncurves; place++, at += MULKEFI_CURVE_SIZE)
        mulkefi_host_get_curve(at, drawing->curves + place);
    for (place = 0; place < drawing->nrelations; place++, at += MULKEFI_RELATION_SIZE)
        mulkefi_host_get_relation(at, drawing->relations + place);
    return MULKEFI_ACCEPTED;
}

#endif
