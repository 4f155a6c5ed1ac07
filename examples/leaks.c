/* The leak list of a footprint file, and on standard error its numbers. Exit status: 0 no leaks, though strips may touch, 1 leaks,
 * 2 the file is refused, 3 it could not be read or the list not be written. */
#include <inttypes.h>
#include <stdio.h>

#include "meskelow.h"

int main(int argc, char **argv)
{
    static uint8_t file[MESKELOW_LONGEST_FILE + 1]; /* one byte more, so that a longer file is seen to be too long */
    static uint8_t room[MESKELOW_LIST_ROOM];
    const char *name = argc > 1 ? argv[1] : "";
    FILE *stream = fopen(name, "rb");
    size_t length = stream == NULL ? 0 : fread(file, 1, sizeof file, stream);
    if (stream == NULL || ferror(stream)) { /* not read, or not to its end: nothing is said of it */
        perror(name);
        return 3;
    }
    fclose(stream);
    meskelow_list list = meskelow_leaks(file, length, room, sizeof room);
    if (list.number == 0)
        fwrite(room, 1, list.length, stdout);
    else
        printf("refused %" PRIu32 " at %" PRIu32 "\n", list.number, list.place);
    if (fflush(stdout) != 0 || ferror(stdout)) { /* what has been printed is no whole list */
        perror("standard output");
        return 3;
    }
    if (list.number != 0)
        return 2;
    fprintf(stderr, "%" PRIu32 " leak, %" PRIu32 " only touch; %" PRIu32 " triangle pairs tested; %" PRIu32 " formerly held back\n",
            list.leaks, list.touching, list.tested, list.formerly_held_back);
    return list.leaks != 0;
}
