/* Meskelow: the intersection of two triangles and what each corner of it is, whether they overlap, touch or are apart, the reader
 * and the writer of footprint files, also of files that arrive in pieces, their recordings as well-known text and the leak list,
 * proved against their rules (docs/RULES.md).
 *
 * Link target/staticlib/libmeskelow.a, which `bin/make meskelow` makes: x86-64 Linux code that calls nothing but the C
 * library's memcpy and memset, allocates nothing, keeps no state and may be called from any number of threads at once. meskelow_leaks
 * needs 400 KB of stack, the others a few KB.
 *
 * What is proved (docs/PROMISES.md names each theorem): whatever numbers, bytes and lengths are passed, every call ends and
 * returns exactly the answer of the rules, in every bit of every field and of the room; nothing is read or written outside the
 * slices that are lent; nothing changes beyond the first 2n values of the room (of a NaN there it is proved that it is still a
 * NaN) or beyond the bytes of the list, the text, the file or the piece that is written, and nothing at all by a call that is
 * refused or that is lent no room; every file that is written is accepted and has what was given; every text reads back as the
 * triangles; a file that arrives in pieces, cut anywhere, is answered as the whole file is. Not proved: the compiler's back end,
 * memcpy, memset, and the caller.
 *
 * A program that calls meskelow_write and was compiled with a header before version 0.8 has to be changed and compiled again: the
 * function takes one list more (see there), and the linker does not notice.
 *
 * What is left to the caller: the lengths are true, so that so many doubles, integers or bytes may be read, and in the room or the
 * buffer read and written; the room overlaps no values, file or list that is lent with it, and the buffer no piece; nobody writes
 * to what is lent before the call has returned, or to a buffer before its file has ended; and the processor rounds to nearest and
 * keeps subnormal values, as it does unless a program asks otherwise. A length of 0 goes with any pointer, NULL too. */
#ifndef MESKELOW_H
#define MESKELOW_H

#include <stdbool.h>
#include <stddef.h>
#include <stdint.h>

#ifdef __cplusplus
extern "C" {
#endif

/* Refusals have numbers, which are the rules' own, and names for them here. docs/RULES.md says which comes first where several
 * apply. */

enum {
    MESKELOW_VALUES = 12,     /* values of two triangles */
    MESKELOW_CORNER_ROOM = 12 /* room for the corners that they can share, in values */
};

/* A d or e that underflowed is zero too. */
enum { /* refusals.tsv: triangles */
    MESKELOW_REFUSED_LENGTHS = 1,    /* there are not twelve values, two for each vertex of U and V, or the room is shorter
                                      * than twelve */
    MESKELOW_REFUSED_NOT_FINITE = 2, /* a coordinate is not finite */
    MESKELOW_REFUSED_FLAT_V = 3,     /* V is flat: its cross d is zero */
    MESKELOW_REFUSED_OVERFLOW = 4,   /* a value that the rules compute is not finite */
    MESKELOW_REFUSED_FLAT_U = 5      /* U is flat: its cross e is zero */
};

typedef struct {
    uint32_t number;   /* 0: an answer. Else one of the refusals above, and every other field is zero */
    uint32_t n;        /* corners of the ring that the two triangles share: 0, or 3 to 6. The first 2n values of the room are
                        * x and y of each, in the ring's order; positions may coincide. meskelow_corner_at tells what each is */
    double area;       /* the ring's area, never negative; 0.0 without a ring. A ring can have area 0.0 too, as where triangles only
                        * share an edge: n says whether there is a ring, and meskelow_decide whether the two overlap */
    bool u_in_v[3];    /* vertex i of U is in V */
    bool v_in_u[3];    /* corner k of V is in U */
    bool neighbour[3]; /* of V's edge on line a: a crossing lies on it, or one of its ends is in U. Edge 0 runs between V0 and V2,
                        * edge 1 between V0 and V1, edge 2 between V1 and V2 */
} meskelow_answer;

/* values: U0x, U0y, U1x, U1y, U2x, U2y, V0x, V0y, V1x, V1y, V2x, V2y. V is the reference: with U and V exchanged rounding may
 * give another answer. Either orientation of either triangle will do. */
meskelow_answer meskelow_intersect(const double *values, size_t values_len, double *room, size_t room_len);

enum { /* the kinds of triangle pairs */
    MESKELOW_APART = 0,      /* their boxes share no point, or there is no ring */
    MESKELOW_TOUCHING = 1,   /* the boxes share a point, there is a ring, and its computed area is zero */
    MESKELOW_OVERLAPPING = 2 /* the boxes share a point, there is a ring, and its computed area is above zero */
};

typedef struct {
    uint32_t number;   /* 0: an answer. Else one of the refusals above, and both other fields are zero. Look here first: beside a
                        * refusal kind 0 does not say MESKELOW_APART, and in the leak list a refused pair counts as overlapping */
    uint32_t kind;     /* of an answer, MESKELOW_APART, MESKELOW_TOUCHING or MESKELOW_OVERLAPPING */
    double area;       /* of an answer, above zero if the two overlap, and then what meskelow_intersect computes, bit for bit; else
                        * 0.0. It is rounded: triangles that truly share no more than a part of an edge may overlap by a tiny
                        * area, and triangles that truly touch may be apart (README.md, "Neighbours") */
} meskelow_decision;

/* Whether U and V overlap, touch or are apart, which is what the leak list asks of each triangle pair. values are those of
 * meskelow_intersect. No room is lent.
 *
 * First come refusals 1, for any other number of values than twelve, and 2. Then the upright boxes around U and V are compared:
 * where they share no point, so that on one axis every coordinate of the one is below every coordinate of the other, the two are
 * apart, whatever the triangle rules would say of them, also if one is flat or would overflow. Boxes are closed: an edge or a
 * corner in common is a point. All others are given to the triangle rules, and refused exactly where meskelow_intersect refuses
 * them with a room of MESKELOW_CORNER_ROOM, 4 also for the corners' positions and the area. meskelow_intersect looks at no box. */
meskelow_decision meskelow_decide(const double *values, size_t values_len);

enum { /* the kinds of a ring's corners */
    MESKELOW_VERTEX_OF_U = 0,
    MESKELOW_CORNER_OF_V = 1,
    MESKELOW_CROSSING = 2 /* of an edge of U and a line of V */
};

enum { /* refusals.tsv: corner */
    MESKELOW_REFUSED_NO_CORNER = 6 /* the ring has no such corner: the place asked for is not below n */
};

typedef struct {
    uint32_t number;   /* 0: an answer. Else one of the refusals above, and every other field is zero. Look here first: beside a
                        * refusal kind 0 does not say MESKELOW_VERTEX_OF_U */
    uint32_t kind;     /* of an answer, MESKELOW_VERTEX_OF_U, MESKELOW_CORNER_OF_V or MESKELOW_CROSSING. Of which, edge, line and t
                        * those that the kind does not have are zero */
    uint32_t which;    /* of a vertex of U and of a corner of V, its number: 0, 1 or 2 */
    uint32_t edge;     /* of a crossing, the edge of U: edge 0 runs from U0 to U1, edge 1 from U1 to U2, edge 2 from U2 to U0; */
    uint32_t line;     /* the line of V: line 0 goes through V0 and V2, line 1 through V0 and V1, line 2 through V1 and V2; */
    double t;          /* and the fraction of the way from P to Q, the two ends of the edge (see below), at which the edge meets the
                        * line: 0 <= t <= 1, where a zero may be -0.0 */
    double x;          /* of an answer, where the corner stands: bit for bit the values that meskelow_intersect writes for it. */
    double y;          /* (The struct has 48 bytes: t is at 24, x at 32, y at 40) */
} meskelow_corner;

/* The corner at a place of the ring that U and V share. values are those of meskelow_intersect; no room is lent. Corners are asked
 * for one at a time: to get them all, ask meskelow_intersect for n, and then for the places 0 to n - 1. Each call judges the whole
 * pair anew.
 *
 * A crossing stands at P + t * (Q - P), in x and in y. t is the very value that its position was computed with, each operation
 * rounded once (so there is no fused multiply-add: -ffp-contract=off where a machine has one). P and Q are the ends of the edge,
 * and t is not always measured from where the edge starts: P is the end that is plus on the line, which is the one on V's side of
 * the line, or on the line itself; Q, the other, is minus there. examples/corners.c tells P by the rules' own formulas: the
 * parameter at P is at least zero, at Q below zero. From P, and just as it is written here, the position comes out as x and y. That
 * alone does not tell P, as from Q it may come out so too, with t = 0.5 for one; and whoever draws the crossing for another t
 * has to know which end it is.
 *
 * Corners that coincide keep their own kinds. So where U and V share an edge, the ring may have two vertices of U and, at the very
 * same positions, two crossings with t 0.
 *
 * A call is refused first exactly where meskelow_intersect refuses the values with a room of MESKELOW_CORNER_ROOM: 1 for any other
 * number of values than twelve, as for NULL and 0, and 4 also where it is only another corner's position, or the area, that is not
 * finite. Then comes 6, for every place from n on, up to SIZE_MAX; where there is no ring that is every place. No box is looked at:
 * a pair that meskelow_decide calls apart may have a ring here, by rounding. */
meskelow_corner meskelow_corner_at(const double *values, size_t values_len, size_t place);

/* Footprint files: README.md has the format. A file is lent whole, as the bytes that it has; one that comes in pieces is collected
 * first, by meskelow_piece. Reading it from a disk or writing it to one, and what can go wrong with that, is the caller's. */

enum {
    MESKELOW_LONGEST_FILE = 65536 /* bytes. Whoever reads a file into such memory should make it a byte longer, so that a longer
                                   * file is seen to be too long (which meskelow_piece sees to by itself) */
};

/* Entries are judged before 15, each for 14 and then for 16; triangles last, each for 17 and then 18. meskelow_write says 13 to 18
 * too, of its lists, in an order of its own and always with place 0. */
enum { /* refusals.tsv: file */
    MESKELOW_REFUSED_FILE_LENGTH = 11,   /* the file is shorter than 12 bytes or longer than 65,536 */
    MESKELOW_REFUSED_STORED_LENGTH = 12, /* the length in the trailer is not the file's, as after a copy that was cut off */
    MESKELOW_REFUSED_TRAILER = 13,       /* there are over 64 recordings, or in a file the table's place, 12 for each recording
                                          * and 12 for the trailer do not add up to the length (place: the trailer) */
    MESKELOW_REFUSED_ENTRY = 14,         /* an entry has no triangles, a set over 2 (over 1 in lists to be written), a last
                                          * byte over 1 (over 0 beside any set but 1), or in a file does not begin where the
                                          * one before ends, the first at 0 (place: the entry) */
    MESKELOW_REFUSED_TABLE = 15,         /* the last triangle does not end at the table, or there are no recordings and the
                                          * table is not at 0; of lists to be written: their lengths differ, a triangle is
                                          * broken off, or the counts do not add up to the triangles (place: the table) */
    MESKELOW_REFUSED_SAME_ID = 16,       /* an entry has the id of an earlier one (place: the entry) */
    MESKELOW_REFUSED_OUT_OF_RANGE = 17,  /* a coordinate is out of range, which is -1,000,000 to 1,000,000 (place: the
                                          * triangle) */
    MESKELOW_REFUSED_NO_AREA = 18        /* a triangle has no area (place: the triangle) */
};

typedef struct {
    uint32_t number;   /* 0: the file has the format. Else the first of the refusals above that applies */
    uint32_t place;    /* where, in bytes from the front of the file; 0 where no place is said above */
} meskelow_verdict;

meskelow_verdict meskelow_check(const uint8_t *file, size_t file_len);

enum {
    MESKELOW_BUFFER = 65536 /* bytes of the buffer in which a file arrives: as many as the longest file has, and exactly so many. A
                             * shorter one would not hold every file, and what a longer one has more is for nothing; so any other
                             * length is taken for a mistake */
};

enum { /* refusals.tsv: arrival */
    MESKELOW_REFUSED_AFTER_END = 22,    /* the file has already ended: it takes no further piece, not even an empty one, and no
                                         * second end */
    MESKELOW_REFUSED_BUFFER_LENGTH = 23 /* the buffer in which a file arrives does not have exactly 65,536 bytes */
};

typedef struct {
    uint32_t number;   /* of a piece, 0 or one of the refusals above. Of an end, 0 if the file is good; else the file's own refusal,
                        * 11 to 18, or one of those above */
    uint32_t place;    /* the file's own, or 0 */
    uint32_t arrived;  /* how many bytes of the file have arrived; 65,537 where there are more than 65,536, however many they are */
    uint32_t ended;    /* 0 before the file's end, 1 from its end on. Both, and not the number, go into the next call */
} meskelow_arrival;

/* A file that arrives in pieces, as over a link that delivers what it happens to have. They are put together in a lent buffer of
 * MESKELOW_BUFFER bytes, one piece a call, and when the sender says that the file has ended, so does meskelow_end. Nothing is kept in
 * the library: what has to be known from call to call are the buffer's bytes and two numbers, which are 0 and 0 before the first call
 * and then what the call before handed back.
 *
 *     meskelow_arrival a = {0, 0, 0, 0};
 *     while (there is a piece)
 *         a = meskelow_piece(a.arrived, a.ended, piece, piece_len, buffer, MESKELOW_BUFFER);
 *     a = meskelow_end(a.arrived, a.ended, buffer, MESKELOW_BUFFER);
 *     if (a.number == 0)
 *         the file is good: hand buffer and a.arrived to any other function
 *
 * A piece has any length. Its bytes are put into the buffer behind those that have arrived; the bytes behind them stay as they were
 * lent. The answer is 0 at 0, with the new arrived. An empty piece, NULL too, is one that changes nothing. Of a piece that does not
 * fit, the part that does is put down and the rest is dropped, and it is not refused: it is the end that says 11.
 *
 * The end judges the file. Its number and place are what meskelow_check answers for all pieces in one, wherever they were cut: 0 at 0,
 * or 11 to 18; 11 at 0 also where no byte has arrived, or over 65,536 have. It writes nothing, and the file has then ended, good or
 * not. Of a good file arrived is its length. After 11 for too many bytes arrived is 65,537, which is more than the buffer has: it must
 * not be handed on as a length, so look at the number first.
 *
 * A call is refused for the first of these that applies. Then nothing changes: the buffer stays, place is 0, and arrived and ended are
 * handed back as they were handed in, whatever they are.
 *
 *     23  buffer_len is not MESKELOW_BUFFER, for any piece and any end
 *     22  ended is not 0: a piece, an empty one too, or an end that comes after the end
 *
 * What is left to the caller, beside the lengths: piece and buffer do not overlap; from the first piece to the end it is the same
 * buffer, and nobody else writes to it, as the end judges the bytes that it finds there; and arrived and ended are those that the call
 * before handed back. (An arrived over 65,537, which no call hands back, is taken for too many bytes: the buffer stays, the end is 11,
 * and 65,537 is handed back.) A link that breaks off, or a read that fails, is no end of the file: say it only if the sender did. The
 * next file begins with 0 and 0 again, in this buffer or another; files that arrive at the same time have a buffer each. */
meskelow_arrival meskelow_piece(uint32_t arrived, uint32_t ended, const uint8_t *piece, size_t piece_len, uint8_t *buffer,
                                size_t buffer_len);
meskelow_arrival meskelow_end(uint32_t arrived, uint32_t ended, const uint8_t *buffer, size_t buffer_len);

enum { /* the sets of recordings, as they are stored */
    MESKELOW_TRAINING = 0,
    MESKELOW_TEST = 1,
    MESKELOW_FORMERLY_HELD_BACK = 2 /* retired: in old files only, where it counts as training; nothing is written with it. (It was
                                     * MESKELOW_HELD_BACK; whoever used that name should see README.md, "No more held back") */
};

enum { /* the editions of the leak rule, as the last byte of a recording's entry names them; meskelow_leaks says what they are */
    MESKELOW_EDITION_1 = 0, /* any overlap with a training recording is a leak. Training recordings have this byte too */
    MESKELOW_EDITION_2 = 1  /* of test recordings only: a sliver is no leak, an overlap of at most a hundredth of the own area */
};

enum { /* refusals.tsv: recording */
    MESKELOW_REFUSED_NO_RECORDING = 10 /* the file is good, but has no such recording */
};

typedef struct {
    uint32_t number;   /* 0: an answer. Else the file's own refusal, or the one above where k is not below the count of recordings,
                        * and every field below place is zero */
    uint32_t place;    /* the file's own, or 0 */
    uint32_t id;       /* of an answer, the table entry: id, */
    uint32_t first;    /* place of the first triangle, */
    uint32_t count;    /* count of triangles, one at least, */
    uint32_t set;      /* MESKELOW_TRAINING, MESKELOW_TEST or MESKELOW_FORMERLY_HELD_BACK, as the file has it, */
    uint32_t last;     /* and the entry's last byte: MESKELOW_EDITION_1, or of a test recording also MESKELOW_EDITION_2 */
} meskelow_entry;

/* Recording k of the file, from 0. Its triangles are the 24 * count bytes from file + first on, which lie in the file: six
 * little-endian int32_t each, x and y of three vertices in whole centimetres. Every call judges the whole file first. */
meskelow_entry meskelow_recording(const uint8_t *file, size_t file_len, size_t k);

enum { /* refusals.tsv: written */
    MESKELOW_REFUSED_FILE_ROOM = 19 /* the room is shorter than the file to be written, or that file would be longer than
                                     * 65,536 bytes */
};

typedef struct {       /* of what was to be written to a room: */
    uint32_t number;   /* 0: an answer. Else a refusal, and the length is zero */
    uint32_t place;    /* of meskelow_write 0, also of a refusal: there is no file yet to have a place in; of meskelow_wkt the file's
                        * own, or 0 */
    size_t length;     /* of an answer, how many bytes were written, at the front of the room; no NUL stands behind them */
} meskelow_written;

/* Writes a footprint file to the front of the room, and leaves the rest of the room as it is. ids, counts, sets and lasts have an
 * entry for each recording, in the order of the table: its id, how many triangles it has, its set, and its last byte, which is the
 * edition of the leak rule that a test recording goes by, and MESKELOW_EDITION_1 for all others. numbers has six for each triangle, x
 * and y of three vertices in whole centimetres, first all triangles of the first recording, then all of the second, and so on.
 * Where each recording begins, and the trailer, are the writer's own.
 *
 * lasts and lasts_len came with version 0.8; MESKELOW_EDITION_1 throughout is what was written before. This breaks programs that
 * were compiled with an older header, and linking them does not tell: their numbers would be taken for last bytes, their room for
 * numbers, and what happens to lie behind on the stack for a room. So they must not be linked with this library.
 *
 * meskelow_check finds every file good that was written, and meskelow_recording hands its recordings back as they were given: ids,
 * counts, sets, last bytes and triangles. The other way round, what meskelow_recording tells of a good file without
 * MESKELOW_FORMERLY_HELD_BACK, put into such lists for k from 0 on, makes that file again, byte for byte; of one with it the lists
 * are refused, 14, and with MESKELOW_TRAINING in its place they make a file of which the leak list is the same but for its last line.
 *
 * A call is refused, with nothing written, for the first of these that applies:
 *
 *     15  ids, counts, sets and lasts differ in length, or numbers_len is no multiple of 6, so that a triangle is broken off
 *     14  entry after entry: its count is 0, its set is neither MESKELOW_TRAINING nor MESKELOW_TEST, or its last byte is neither
 *                            MESKELOW_EDITION_1 nor, where the set is MESKELOW_TEST, MESKELOW_EDITION_2;
 *     16                     else its id is that of an earlier entry
 *     15  the counts do not add up to the triangles; the sum is exact, and 0 without recordings
 *     17  triangle after triangle: a number is out of range;
 *     18                           else it has no area
 *     13  there are over 64 recordings
 *     19  the room is shorter than the file, or the file would be longer than MESKELOW_LONGEST_FILE
 *
 * So MESKELOW_LONGEST_FILE bytes of room are always enough. Lengths are multiples of 12: a file of 65,532 bytes is written, one of
 * 65,544 is refused. Without recordings and numbers the file has 12 bytes.
 *
 * Lists of any length are judged by these rules in full, and those with over 64 entries are refused slowly at worst: each id is
 * compared with all earlier ones before 13 is said, which for 100,000 entries makes 5,000 million comparisons. */
meskelow_written meskelow_write(const uint32_t *ids, size_t ids_len, const uint32_t *counts, size_t counts_len,
                                const uint8_t *sets, size_t sets_len, const uint8_t *lasts, size_t lasts_len,
                                const int32_t *numbers, size_t numbers_len, uint8_t *room, size_t room_len);

enum {
    MESKELOW_TEXT_ROOM = 256545 /* bytes, which hold every recording's well-known text */
};

enum { /* refusals.tsv: text */
    MESKELOW_REFUSED_TEXT_ROOM = 20, /* the file is good and has a recording with this id, but the room is shorter than its
                                      * whole text */
    MESKELOW_REFUSED_NO_ID = 21      /* the file is good, but no recording has this id */
};

/* The footprint of a recording as well-known text, which the OGC Simple Features standard defines and chart viewers read, to the
 * front of the room; the rest of the room is left as it is. The recording is named by its id, not by its number in the table. Its
 * text is one GEOMETRYCOLLECTION of a POLYGON for each triangle, in the order in which they are stored, with a comma and a space
 * between; a polygon has one ring, the three vertices as they are stored, in either orientation, and the first again. Numbers are
 * metres with two decimals, a minus sign before those below zero; zero has none. The recording of the one triangle (0,0), (400,0),
 * (0,-5), in centimetres, gives
 *
 *     GEOMETRYCOLLECTION (POLYGON ((0.00 0.00, 4.00 0.00, 0.00 -0.05, 0.00 0.00)))
 *
 * with no line feed behind it. A recording of n triangles needs at most 94 * n + 19 bytes of room. A call is refused, with nothing
 * written, for the first of these that applies: the file's own refusal, with its place; 21, at 0, also for a room of no bytes; 20, at
 * 0, which does not tell the length that is needed. */
meskelow_written meskelow_wkt(const uint8_t *file, size_t file_len, uint32_t id, uint8_t *room, size_t room_len);

enum {
    MESKELOW_LIST_ROOM = 65536 /* bytes, which hold every list */
};

enum { /* refusals.tsv: list */
    MESKELOW_REFUSED_LIST_ROOM = 7 /* the file is good, but the room is shorter than its whole leak list */
};

typedef struct {
    uint32_t number;   /* 0: an answer. Else the file's own refusal, or the one above, and every field below place is zero */
    uint32_t place;    /* the file's own, or 0 */
    size_t length;     /* of an answer, the list's bytes, at the front of the room; no NUL stands behind them */
    uint32_t leaks;    /* how many leak lines it has: 0 says that no test recording overlaps a training recording, but for slivers
                        * where the test recording goes by MESKELOW_EDITION_2, */
    uint32_t touching; /* the number behind `touching`: how many pairs of a test and a training recording only touch, */
    uint32_t tested;   /* how many triangle pairs of test and training recordings were given to the triangle rules: those whose
                        * boxes share a point, no more and no fewer. It is no part of the list's text. (Since this field the
                        * struct has 32 bytes, where it had 24: what was compiled with an older header has to be compiled again) */
    uint32_t formerly_held_back; /* and the number of the last line: how many recordings are stored with
                                  * MESKELOW_FORMERLY_HELD_BACK. (The struct still has 32 bytes) */
} meskelow_list;

/* The leak list of the file: `leaks K`; then for each test recording and training recording that leak, in table order, a line
 * `test T train R pairs N` with their ids and the number of triangle pairs that overlap; then, always, `touching K` with the number
 * of pairs of a test and a training recording that have a triangle pair that touches and none that overlaps, each counted once;
 * last, always, `formerly held back K` with the number of recordings that are stored with MESKELOW_FORMERLY_HELD_BACK, whether they
 * meet a test recording or not: they are training recordings here. Decimal numbers, a line feed after each line. The shortest list
 * has 40 bytes.
 *
 * Whether two recordings leak goes by the test recording's edition:
 *
 *     MESKELOW_EDITION_1  a triangle pair of theirs overlaps
 *     MESKELOW_EDITION_2  100 times the sum of the areas of their triangle pairs that overlap is above the test recording's own area
 *
 * The sum is of these two recordings alone. It begins at 0.0, and the areas, which are those of meskelow_decide in square
 * centimetres, are added one by one: the test triangles as they are stored, each with the training triangles as they are stored. The
 * own area is half of what the absolute e of the test triangles, as they are stored, add up to from 0.0; e is the cross of the sides
 * from a triangle's first vertex, twice its area. Each addition and the product with 100 are rounded once, so the order can decide
 * (README.md, "Slivers", has a file where it does). What is equal is not above: one per cent is no leak. (A pair that the triangle
 * rules refuse makes a leak by either edition, whatever the sum is; no good file has one.)
 *
 * An overlap that is no leak is a sliver: it has no line, and the two do not count under `touching` either. N, touching, tested and
 * formerly_held_back are the same by either edition, and the text names none. */
meskelow_list meskelow_leaks(const uint8_t *file, size_t file_len, uint8_t *room, size_t room_len);

#ifdef __cplusplus
}
#endif

#endif
