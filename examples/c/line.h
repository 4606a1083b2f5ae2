/* The drawing of split.c, neighbours.c and catch_up.c: points 1 (0, 0) and 2 (4, 0), line 3 between them, next id 4. */
#include <stdint.h>

static const uint8_t line[] = {
    0, 0, 0, 100, 1, 0, 0, 0, 4, 0, 2, 0, 1, 0, 0,                                       /* length, version, next id, counts */
    0, 0, 0, 1, 0, 0, 0, 0, 0, 0, 0, 0, 0, 0, 0, 0, 0, 0, 0, 0, 0,                       /* point 1 */
    0, 0, 0, 2, 0x40, 0x10, 0, 0, 0, 0, 0, 0, 0, 0, 0, 0, 0, 0, 0, 0, 0,                 /* point 2 */
    0, 0, 0, 3, 1, 0, 0, 0, 0, 0, 1, 0, 0, 0, 2, 0, 0, 0, 0, 0, 0, 0, 0, 0, 0, 0, 0, 0, /* line 3 */
    0, 0, 0, 0, 0, 0, 0, 0, 0, 0, 0, 0, 0, 0, 0, 0, 0, 0, 0};
