/* Whether two triangles overlap, touch or are apart, and three calls that are refused. */
#include <inttypes.h>
#include <math.h>
#include <stddef.h>
#include <stdio.h>

#include "meskelow.h"

static const char *const kinds[] = {[MESKELOW_APART] = "apart", [MESKELOW_TOUCHING] = "touching", [MESKELOW_OVERLAPPING] = "overlapping"};

static void show(const char *what, meskelow_decision decision)
{
    if (decision.number != 0) /* the kind is zero here too, and says nothing */
        printf("%s: refused %" PRIu32 "\n", what, decision.number);
    else
        printf("%s: %s, area %.17g\n", what, kinds[decision.kind], decision.area);
}

int main(void)
{
    static const struct {
        const char *what;
        double values[MESKELOW_VALUES]; /* U, then V, the reference */
    } pairs[] = {
        {"a common part", {1, 1, -3, 1, 1, -3, 0, 0, 4, 0, 0, 4}},
        {"a common edge", {0, 0, 4, 0, 0, -4, 0, 0, 4, 0, 0, 4}},
        {"nothing in common", {10, 10, 11, 10, 10, 11, 0, 0, 4, 0, 0, 4}},
        {"a part of an edge, and rounding", {458, -958, -13747, -4524, -1189, -975, -6479, -2470, -805, -156, -12827, -4264}},
        {"the same over kilometres", {-479034, -984927, 928980, 761325, 297023, -618278, 463938, 184569, -488700, -996915, -446798, 529646}},
        {"a corner on an edge, a tie", {0, -1, -1, 0, 0, 3, 4, 1, 2, -1, 0, 1}},
        {"beyond a needle's tip, where rounding finds a ring", {327628, 2, -335623, 719289, -969092, 2, -778994, -314945, -940499, -380241, 0, 0}},
        {"a flat V", {1, 1, 2, 1, 1, 2, 0, 0, 1, 1, 2, 2}}, /* MESKELOW_REFUSED_FLAT_V */
        {"a flat V far away", {11, 11, 12, 11, 11, 12, 0, 0, 1, 1, 2, 2}},
        {"a position that is no number, far away", {11, 11, 12, 11, 11, NAN, 0, 0, 4, 0, 0, 4}}, /* MESKELOW_REFUSED_NOT_FINITE */
    };
    for (size_t i = 0; i < sizeof pairs / sizeof pairs[0]; i++)
        show(pairs[i].what, meskelow_decide(pairs[i].values, MESKELOW_VALUES));

    show("no values", meskelow_decide(NULL, 0)); /* MESKELOW_REFUSED_LENGTHS */
    return 0;
}
