/* Recordings of a footprint file as well-known text, for a chart viewer: a line for each id that is named. It ends with status 0 if all
 * were shown, 1 if the file could not be read or standard output not be written, 2 if one was refused. */
#include <errno.h>
#include <inttypes.h>
#include <stddef.h>
#include <stdio.h>
#include <stdlib.h>

#include "meskelow.h"

static uint8_t file[MESKELOW_LONGEST_FILE + 1]; /* one byte more, so that a longer file is seen to be too long */
static uint8_t room[MESKELOW_TEXT_ROOM];        /* no text has more */

int main(int argc, char **argv)
{
    int status = 0;
    FILE *stream = argc < 2 ? NULL : fopen(argv[1], "rb");
    size_t length = stream == NULL ? 0 : fread(file, 1, sizeof file, stream);
    if (stream == NULL || ferror(stream)) { /* not read, or not to its end: nothing is said of it */
        perror(argc < 2 ? argv[0] : argv[1]);
        return 1;
    }
    fclose(stream);
    for (int i = 2; i < argc; i++) {
        char *end;
        errno = 0;
        unsigned long long id = strtoull(argv[i], &end, 10);
        if (errno != 0 || end == argv[i] || *end != '\0' || id > UINT32_MAX) {
            fprintf(stderr, "%s: no id\n", argv[i]);
            return 1;
        }
        meskelow_written text = meskelow_wkt(file, length, (uint32_t)id, room, sizeof room);
        if (text.number != 0) { /* 11 to 18, or 21; 20 does not come, as the room is large enough */
            printf("%llu: refused %" PRIu32 " at %" PRIu32 "\n", id, text.number, text.place);
            status = 2;
            continue;
        }
        printf("%llu: ", id);
        fwrite(room, 1, text.length, stdout); /* no line feed is a part of it */
        printf("\n");
    }
    return fflush(stdout) == 0 ? status : 1;
}
