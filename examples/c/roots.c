/* Where a polynomial vanishes between 0 and 1; and of a list that is refused, which coefficient is to blame. */
#include <math.h>
#include <stdio.h>

#include "mulkefi.h"

#define BUDGET 1000

static int show(const double *coefficients, size_t n)
{
    double found[MULKEFI_ROOTS_ROOM], largest;
    uint64_t answer[2];
    uint32_t refusal = mulkefi_roots(coefficients, n, found, MULKEFI_ROOTS_ROOM, BUDGET, answer);
    size_t finite = mulkefi_largest_magnitude(coefficients, n, &largest);

    if (refusal == MULKEFI_BAD_COEFFICIENTS && finite < n) {
        printf("refused by 20: the coefficient at place %u is not finite\n", (unsigned)finite);
        return 0;
    }
    if (refusal != MULKEFI_ACCEPTED) {
        printf("refused by %u\n", (unsigned)MULKEFI_NUMBER(refusal));
        return 1;
    }
    printf("coefficients up to %g: %u root, at %.6f\n", largest, (unsigned)answer[0], found[0]);
    return 0;
}

int main(void)
{
    const double rising[] = {-1.0, 0.5, 3.0}, spoilt[] = {-1.0, INFINITY, 3.0};

    return show(rising, 3) | show(spoilt, 3);
}
