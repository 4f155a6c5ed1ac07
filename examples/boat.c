/* A boat tool: it makes lists of a night's recordings from the boat's log, writes them as a footprint file, which it keeps if it
 * is given a name, and lists the file's leaks. Exit status: 0 no leaks, though strips may touch, 1 leaks, 2 the night is refused,
 * 3 the file or the list could not be written. */
#include <inttypes.h>
#include <stdbool.h>
#include <stddef.h>
#include <stdio.h>
#include <string.h>

#include "meskelow.h"

#define NO_FIX INT32_MIN /* what the logger puts down where the position fix dropped */

typedef struct {
    int32_t x, y; /* whole centimetres */
} point;

typedef struct {
    point left, right; /* how far the sonar reached to either side */
} edge;

enum { RECORDINGS = 4, EDGES = 3 };

static const struct {
    uint32_t id;
    uint8_t set, last; /* last is the edition of the leak rule */
    size_t edges;
    edge log[EDGES];
} night[RECORDINGS] = {
    /* Three recordings along one line. The second begins half a metre before the first ends, a sliver of its 200 m, which its edition
     * allows; the third begins at the edge where the second ends. */
    {240917101, MESKELOW_TRAINING, MESKELOW_EDITION_1, 2, {{{0, 3000}, {0, -3000}}, {{20000, 3000}, {20000, -3000}}}},
    {240917102, MESKELOW_TEST, MESKELOW_EDITION_2, 2, {{{19950, 3000}, {19950, -3000}}, {{40000, 3000}, {40000, -3000}}}},
    {240917103, MESKELOW_TRAINING, MESKELOW_EDITION_1, 2, {{{40000, 3000}, {40000, -3000}}, {{60000, 3000}, {60000, -3000}}}},
    /* The way home, across the first: both its triangles overlap both of the other. At the end the fix dropped. */
    {240917104, MESKELOW_TEST, MESKELOW_EDITION_2, 3,
     {{{12000, 10000}, {8000, 10000}}, {{12000, -10000}, {8000, -10000}}, {{NO_FIX, NO_FIX}, {8000, -30000}}}},
};

static struct {
    uint32_t ids[RECORDINGS], counts[RECORDINGS];
    uint8_t sets[RECORDINGS], lasts[RECORDINGS];
    size_t recordings;
    int32_t numbers[RECORDINGS * (EDGES - 1) * 2 * 6]; /* two triangles between two edges, six numbers each */
    size_t numbers_len;
} lists;

static uint8_t file[MESKELOW_LONGEST_FILE]; /* room for every file */

static void add_triangle(point a, point b, point c)
{
    const int32_t six[] = {a.x, a.y, b.x, b.y, c.x, c.y};
    memcpy(lists.numbers + lists.numbers_len, six, sizeof six);
    lists.numbers_len += 6;
}

static bool has_fix(edge e)
{
    return e.left.x != NO_FIX && e.left.y != NO_FIX && e.right.x != NO_FIX && e.right.y != NO_FIX;
}

/* The lists of the whole night, with or without what lies next to a dropped fix. A recording of which nothing is left is left out. */
static void make_lists(bool with_dropped)
{
    lists.recordings = lists.numbers_len = 0;
    for (size_t i = 0; i < RECORDINGS; i++) {
        size_t before = lists.numbers_len;
        for (size_t k = 0; k + 1 < night[i].edges; k++) {
            edge from = night[i].log[k], to = night[i].log[k + 1];
            if (with_dropped || (has_fix(from) && has_fix(to))) {
                add_triangle(from.left, from.right, to.left);
                add_triangle(from.right, to.right, to.left);
            }
        }
        if (lists.numbers_len == before)
            continue;
        lists.ids[lists.recordings] = night[i].id;
        lists.counts[lists.recordings] = (uint32_t)((lists.numbers_len - before) / 6);
        lists.sets[lists.recordings] = night[i].set;
        lists.lasts[lists.recordings] = night[i].last;
        lists.recordings++;
    }
}

/* What those on board are told of a refusal. */
static const char *reason(uint32_t number)
{
    switch (number) {
    case MESKELOW_REFUSED_TABLE: return "the lists do not belong together";
    case MESKELOW_REFUSED_ENTRY: return "a recording has no triangle left, is neither training nor test, or has an edition that is not for it";
    case MESKELOW_REFUSED_SAME_ID: return "two recordings have the same id";
    case MESKELOW_REFUSED_OUT_OF_RANGE: return "a position is over 10 km off the origin, or there was no fix";
    case MESKELOW_REFUSED_NO_AREA: return "the points of a triangle lie on one line";
    case MESKELOW_REFUSED_TRAILER: return "there are over 64 recordings: make two files of them";
    case MESKELOW_REFUSED_FILE_ROOM: return "there are too many triangles: make two files of them";
    default: return "this tool does not know why";
    }
}

/* Writes the lists to the front of the room. Says what came of it, and that the rest of the room stayed, which is all of it if they
 * are refused. */
static meskelow_written write_lists(const char *what)
{
    memset(file, '-', sizeof file);
    size_t n = lists.recordings;
    meskelow_written written = meskelow_write(lists.ids, n, lists.counts, n, lists.sets, n, lists.lasts, n,
                                              lists.numbers, lists.numbers_len, file, sizeof file);
    if (written.number == 0)
        printf("%s: %zu recordings in %zu bytes\n", what, n, written.length);
    else
        printf("%s: refused %" PRIu32 ", %s\n", what, written.number, reason(written.number));
    bool stayed = true;
    for (size_t i = written.length; i < sizeof file; i++)
        stayed = stayed && file[i] == '-';
    printf("from byte %zu on the room %s\n", written.length, stayed ? "is as it was" : "has changed");
    return written;
}

/* Whether the file was kept under this name. What is there if it was not may be cut off, and is not to be used. */
static bool keep(const char *name, size_t length)
{
    FILE *stream = fopen(name, "wb");
    bool whole = stream != NULL && fwrite(file, 1, length, stream) == length;
    if (!whole)
        perror(name);
    if (stream != NULL && fclose(stream) != 0 && whole) {
        perror(name);
        whole = false;
    }
    return whole;
}

int main(int argc, char **argv)
{
    static uint8_t room[MESKELOW_LIST_ROOM];

    make_lists(true);
    write_lists("as logged"); /* MESKELOW_REFUSED_OUT_OF_RANGE */
    make_lists(false);
    meskelow_written written = write_lists("without the dropped fix");
    if (written.number != 0)
        return 2;
    if (argc > 1 && !keep(argv[1], written.length))
        return 3;

    meskelow_list list = meskelow_leaks(file, written.length, room, sizeof room);
    if (list.number != 0) { /* not of what was written: no list must never look like a clean one */
        fprintf(stderr, "the list is refused: %" PRIu32 " at %" PRIu32 "\n", list.number, list.place);
        return 2;
    }
    fwrite(room, 1, list.length, stdout);
    if (fflush(stdout) != 0 || ferror(stdout)) { /* what has been printed is no whole list */
        perror("standard output");
        return 3;
    }
    return list.leaks != 0;
}
