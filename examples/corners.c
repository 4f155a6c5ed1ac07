/* What the corners of rings are, asked for one at a time: vertices of U, corners of V, and crossings with the fraction t and the end
 * that it is measured from. Then places where no corner is, and calls that are refused for their values. */
#include <inttypes.h>
#include <stddef.h>
#include <stdint.h>
#include <stdio.h>

#include "meskelow.h"

_Static_assert(sizeof(meskelow_corner) == 48 && offsetof(meskelow_corner, t) == 24 && offsetof(meskelow_corner, x) == 32 &&
                   offsetof(meskelow_corner, y) == 40,
               "meskelow_corner is laid out as the library has it");

/* The parameter of vertex i of U on a line of V, by the rules: plus is what is not below zero. */
static double parameter(const double *values, uint32_t i, uint32_t line)
{
    const double *u = values + 2 * i, *v = values + 6;
    double ax = v[2] - v[0], ay = v[3] - v[1]; /* V1 - V0 */
    double bx = v[4] - v[0], by = v[5] - v[1]; /* V2 - V0 */
    double rx = u[0] - v[0], ry = u[1] - v[1];
    double turn = ax * by - ay * bx < 0 ? -1 : 1; /* V may be listed either way round */
    double d = turn * (ax * by - ay * bx), x = turn * (rx * by - ry * bx), y = turn * (ax * ry - ay * rx);
    return line == 0 ? x : line == 1 ? y : (d - x) - y;
}

/* P of a crossing: the end of its edge that is plus on its line. */
static uint32_t measured_from(const double *values, meskelow_corner corner)
{
    uint32_t start = corner.edge, finish = (corner.edge + 1) % 3;
    return parameter(values, start, corner.line) >= 0 ? start : finish;
}

static void show(const double *values, size_t values_len, size_t place)
{
    meskelow_corner corner = meskelow_corner_at(values, values_len, place);
    printf("  %zu: ", place);
    if (corner.number != 0) { /* the kind is zero here too, and says nothing */
        printf("refused %" PRIu32 "\n", corner.number);
        return;
    }
    if (corner.kind == MESKELOW_VERTEX_OF_U)
        printf("vertex %" PRIu32 " of U", corner.which);
    else if (corner.kind == MESKELOW_CORNER_OF_V)
        printf("corner %" PRIu32 " of V", corner.which);
    else
        printf("crossing of edge %" PRIu32 " and line %" PRIu32 ", t %g from U%" PRIu32, corner.edge, corner.line, corner.t,
               measured_from(values, corner));
    printf(", at (%g, %g)\n", corner.x, corner.y);
}

int main(void)
{
    static const struct {
        const char *what;
        double values[MESKELOW_VALUES]; /* U, then V, the reference */
    } pairs[] = {
        {"corners of all kinds", {1, 1, -3, 1, 1, -3, 0, 0, 4, 0, 0, 4}},
        {"nothing but crossings", {6, 6, -2, 6, 6, -2, 0, 0, 8, 0, 0, 8}},
        {"a common edge, where corners coincide", {0, 0, 4, 0, 0, -4, 0, 0, 4, 0, 0, 4}},
        {"nothing in common", {10, 10, 11, 10, 10, 11, 0, 0, 4, 0, 0, 4}},
        {"a flat V", {1, 1, 2, 1, 1, 2, 0, 0, 1, 1, 2, 2}}, /* MESKELOW_REFUSED_FLAT_V, which comes before any place is looked at */
    };
    for (size_t i = 0; i < sizeof pairs / sizeof pairs[0]; i++) {
        double room[MESKELOW_CORNER_ROOM];
        meskelow_answer answer = meskelow_intersect(pairs[i].values, MESKELOW_VALUES, room, MESKELOW_CORNER_ROOM);
        printf("%s: n %" PRIu32 "\n", pairs[i].what, answer.n);
        for (size_t place = 0; place < answer.n; place++)
            show(pairs[i].values, MESKELOW_VALUES, place);
        show(pairs[i].values, MESKELOW_VALUES, answer.n); /* one too many: MESKELOW_REFUSED_NO_CORNER */
    }

    printf("no values\n");
    show(NULL, 0, 0); /* MESKELOW_REFUSED_LENGTHS */
    return 0;
}
