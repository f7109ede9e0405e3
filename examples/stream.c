/* A field unit: stream FILE X0 X1 Y0 Y1
 *
 * Says in which sequence to fetch the tiles of a plan town for stops in the box X0..X1 by Y0..Y1, whole numbers of
 * centimetres: each tile after every tile nearer than it from all of the box. nearby_stream_order takes that from the
 * directory, so a unit knows the sequence before it has a tile; here the whole file is there. For a town with height
 * there is nearby_stream_order3.
 *
 *     gcc examples/stream.c $(pkg-config --cflags --libs nearby) -o stream      after make install
 *     gcc -Iinclude examples/stream.c target/lib/libnearby.a -o stream          after make lib */
#include "nearby.h"

#include <inttypes.h>
#include <stdio.h>

static uint8_t file[NEARBY_MAX_FILE_3 + 1]; /* so that a file over all limits is seen */

/* Gives whether the file could be read. */
static int load(const char *name, size_t *length) {
    FILE *f = fopen(name, "rb");
    if (!f) {
        perror(name);
        return 0;
    }
    *length = fread(file, 1, sizeof file, f);
    int failed = ferror(f);
    if (failed) {
        perror(name);
    }
    fclose(f);
    return !failed;
}

/* Decimal digits, after a minus or not, of a number that fits 32 bits with its sign. Gives whether it is one. */
static int number_of(const char *text, int32_t *number) {
    int minus = *text == '-';
    int64_t most = minus ? -(int64_t)INT32_MIN : INT32_MAX, sum = 0;
    text += minus;
    if (!*text) {
        return 0;
    }
    for (; *text; text++) {
        if (*text < '0' || *text > '9') {
            return 0;
        }
        sum = sum * 10 + (*text - '0');
        if (sum > most) {
            return 0;
        }
    }
    *number = (int32_t)(minus ? -sum : sum);
    return 1;
}

int main(int argc, char **argv) {
    int32_t box[4]; /* low x, high x, low y, high y */
    int good = argc == 6;
    for (int i = 0; good && i < 4; i++) {
        good = number_of(argv[2 + i], &box[i]);
    }
    if (!good) {
        fprintf(stderr, "stream FILE X0 X1 Y0 Y1, whole numbers of centimetres\n");
        return 1;
    }
    size_t length;
    if (!load(argv[1], &length)) {
        return 1;
    }
    uint32_t order[NEARBY_MAX_TILES];
    struct nearby_streamed r =
        nearby_stream_order(file, length, box[0], box[1], box[2], box[3], order, NEARBY_MAX_TILES);
    if (r.number != NEARBY_OK) {
        printf("refused %" PRIu32 " block %" PRIu32 "\n", r.number, r.block);
        return 1;
    }
    printf("tiles %" PRIu32 "\norder", r.tiles);
    for (uint32_t i = 0; i < r.tiles; i++) {
        printf(" %" PRIu32, order[i]);
    }
    printf("\n");
    return 0;
}
