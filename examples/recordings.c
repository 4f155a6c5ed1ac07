/* What is in footprint files: a file that is refused, or its recordings and their triangles. */
#include <inttypes.h>
#include <stddef.h>
#include <stdio.h>

#include "meskelow.h"

static const char *const sets[] = {[MESKELOW_TRAINING] = "training", [MESKELOW_TEST] = "test", [MESKELOW_FORMERLY_HELD_BACK] = "formerly held back"};

/* One stored coordinate; six make a triangle. */
static int32_t coordinate(const uint8_t *bytes)
{
    uint32_t bits = bytes[0] | (uint32_t)bytes[1] << 8 | (uint32_t)bytes[2] << 16 | (uint32_t)bytes[3] << 24;
    return bits < 0x80000000 ? (int32_t)bits : -(int32_t)(UINT32_MAX - bits) - 1;
}

static void show_triangles(const uint8_t *part, uint32_t count)
{
    for (const uint8_t *t = part; t < part + 24 * (size_t)count; t += 24) {
        for (int i = 0; i < 24; i += 8)
            printf(" (%" PRId32 ", %" PRId32 ")", coordinate(t + i), coordinate(t + i + 4));
        printf("\n");
    }
}

static void show(const uint8_t *file, size_t length)
{
    meskelow_verdict verdict = meskelow_check(file, length);
    if (verdict.number != 0) {
        printf("refused %" PRIu32 " at %" PRIu32 "\n", verdict.number, verdict.place);
        return;
    }
    printf("good\n");
    for (size_t k = 0;; k++) {
        meskelow_entry entry = meskelow_recording(file, length, k);
        if (entry.number == MESKELOW_REFUSED_NO_RECORDING) /* the file is good, so no other refusal comes */
            return;
        printf("%s recording %" PRIu32 "%s:", sets[entry.set], entry.id, entry.last == MESKELOW_EDITION_2 ? " of edition 2" : "");
        show_triangles(file + entry.first, entry.count);
    }
}

int main(int argc, char **argv)
{
    static uint8_t file[MESKELOW_LONGEST_FILE + 1]; /* one byte more, so that a longer file is seen to be too long */
    for (int i = 1; i < argc; i++) {
        FILE *stream = fopen(argv[i], "rb");
        size_t length = stream == NULL ? 0 : fread(file, 1, sizeof file, stream);
        if (stream == NULL || ferror(stream)) { /* not read, or not to its end: nothing is said of it */
            perror(argv[i]);
            return 1;
        }
        fclose(stream);
        printf("%s: ", argv[i]);
        show(file, length);
    }
    return 0;
}
