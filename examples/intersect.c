/* What two triangles share, and two calls that are refused. */
#include <inttypes.h>
#include <math.h>
#include <stddef.h>
#include <stdio.h>

#include "meskelow.h"

static void show(meskelow_answer answer, const double *room)
{
    printf("number %" PRIu32 ", n %" PRIu32 ", area %g\n", answer.number, answer.n, answer.area);
    for (uint32_t k = 0; k < answer.n; k++)
        printf("  (%g, %g)\n", room[2 * k], room[2 * k + 1]);
}

int main(void)
{
    double values[MESKELOW_VALUES] = {1, 1, -3, 1, 1, -3, /* U */
                                      0, 0, 4, 0, 0, 4};  /* V, the reference */
    double room[MESKELOW_CORNER_ROOM]; /* lent for the corners: there are six at most */

    show(meskelow_intersect(values, MESKELOW_VALUES, room, MESKELOW_CORNER_ROOM), room);

    values[0] = NAN; /* MESKELOW_REFUSED_NOT_FINITE, and the room stays as it was */
    show(meskelow_intersect(values, MESKELOW_VALUES, room, MESKELOW_CORNER_ROOM), room);

    /* NULL may stand for a slice of length 0; MESKELOW_REFUSED_LENGTHS */
    show(meskelow_intersect(NULL, 0, NULL, 0), NULL);
    return 0;
}
