/* A file that arrives over a link, in pieces, and its leak list.
 *
 *     arriving send FILE | arriving
 *
 * The sender cuts the file into uneven pieces, some of them empty. On the link a piece is a byte with its length, 0 to 254, and so
 * many bytes; a byte of 255 says that the file has ended. What reads on the other side gets whatever the pipe happens to have, half a
 * piece or twenty. Exit status: 0 no leaks, though strips may touch, 1 leaks, 2 the file is refused, 3 it was not sent, did not arrive
 * to its end, or the list could not be written. */
#include <errno.h>
#include <inttypes.h>
#include <stdbool.h>
#include <stddef.h>
#include <stdio.h>
#include <string.h>
#include <unistd.h>

#include "meskelow.h"

enum { ENDED = 255 }; /* in the place of a length */

static uint8_t buffer[MESKELOW_BUFFER]; /* lent to every call, and touched by nobody else from the first piece to the end */

/* Takes what the link brings until it is closed. The answer is that of the file's end, or of the last piece if there was no end;
 * late tells whether anything came after the end. */
static meskelow_arrival receive(int fd, bool *late)
{
    meskelow_arrival file = {0, 0, 0, 0}; /* nothing has arrived, and the file has not ended */
    size_t left = 0;                      /* what is still to come of a piece */
    *late = false;
    for (;;) {
        uint8_t some[1000];
        ssize_t got = read(fd, some, sizeof some);
        if (got < 0 && errno == EINTR) /* a signal came before any byte did */
            continue;
        if (got < 0)
            perror("the link");
        if (got <= 0) /* neither is an end of the file: that is the sender's word alone */
            return file;
        for (size_t at = 0; at < (size_t)got;) {
            meskelow_arrival next;
            if (left == 0 && some[at] == ENDED) {
                at++;
                next = meskelow_end(file.arrived, file.ended, buffer, sizeof buffer);
            } else {
                if (left == 0)
                    left = some[at++];
                size_t here = (size_t)got - at, length = here < left ? here : left; /* 0 if the piece is empty, or not here yet */
                next = meskelow_piece(file.arrived, file.ended, some + at, length, buffer, sizeof buffer);
                at += length;
                left -= length;
            }
            if (next.number == MESKELOW_REFUSED_AFTER_END)
                *late = true; /* and nothing has changed: the end's answer stands */
            else
                file = next;
        }
    }
}

/* Whether the buffer behind what has arrived is as it was lent. */
static bool stayed(uint32_t arrived)
{
    for (size_t i = arrived; i < sizeof buffer; i++)
        if (buffer[i] != '-')
            return false;
    return true;
}

/* Says what has arrived, and of a good file its leak list. */
static int answer(void)
{
    static uint8_t room[MESKELOW_LIST_ROOM];
    bool late;
    memset(buffer, '-', sizeof buffer);
    meskelow_arrival file = receive(STDIN_FILENO, &late);
    if (file.ended == 0) { /* nothing is said of what is there, be it a good file: more was to come */
        fprintf(stderr, "the link broke off before the sender said that the file has ended\n");
        return 3;
    }
    if (file.arrived > MESKELOW_BUFFER) /* 11, and no length: the buffer has the first bytes only */
        printf("over %d bytes have arrived\n", MESKELOW_BUFFER);
    else
        printf("%" PRIu32 " bytes have arrived, and behind them the buffer %s\n", file.arrived,
               stayed(file.arrived) ? "is as it was" : "has changed");
    if (late)
        printf("what came after the end was refused\n");
    meskelow_list list = {file.number, file.place, 0, 0, 0, 0, 0}; /* of a refused file */
    if (file.number == 0)
        list = meskelow_leaks(buffer, file.arrived, room, sizeof room);
    if (list.number == 0)
        fwrite(room, 1, list.length, stdout);
    else
        printf("refused %" PRIu32 " at %" PRIu32 "\n", list.number, list.place);
    if (fflush(stdout) != 0 || ferror(stdout)) { /* what has been printed is no whole list */
        perror("standard output");
        return 3;
    }
    return list.number != 0 ? 2 : list.leaks != 0;
}

/* Sends a file over the link, which is standard output, and says that it has ended if all of it was read and sent. */
static int send_file(const char *name)
{
    static const uint8_t lengths[] = {5, 0, 254, 1, 0, 0, 80, 13};
    FILE *stream = fopen(name, "rb");
    bool whole = stream != NULL;
    for (size_t i = 0; whole && !feof(stream); i++) {
        uint8_t piece[1 + 254];
        size_t got = fread(piece + 1, 1, lengths[i % sizeof lengths], stream);
        piece[0] = (uint8_t)got;
        fwrite(piece, 1, 1 + got, stdout);
        whole = !ferror(stream) && fflush(stdout) == 0; /* at once, so that pieces go apart */
    }
    if (!whole || putchar(ENDED) == EOF || fflush(stdout) != 0) {
        perror(name);
        return 3;
    }
    return 0;
}

int main(int argc, char **argv)
{
    if (argc == 1)
        return answer();
    if (argc == 3 && strcmp(argv[1], "send") == 0)
        return send_file(argv[2]);
    fprintf(stderr, "usage: %s send FILE | %s\n", argv[0], argv[0]);
    return 3;
}
