/* A mixer: mixer FILE REACH
 *
 * Drives along the track of examples/host.c, with three points more on each stretch between two stops, and says of
 * each point how loud its five nearest places are: a cue with its level, or silent. REACH is the distance, in whole
 * centimetres, at which a level is 0.5; past ten times as far a place is silent. One nearby_join gives the places of
 * all points, and nearby_level the level of each from its squared distance.
 *
 * The thread that calls nearby_level must have the default rounding mode, to nearest, as a program has from its start:
 * here nothing changes it.
 *
 *     gcc examples/mixer.c $(pkg-config --cflags --libs nearby) -o mixer        after make install
 *     gcc -Iinclude examples/mixer.c target/lib/libnearby.a -o mixer            after make lib */
#include "nearby.h"

#include <inttypes.h>
#include <stdio.h>

enum { STOPS = 4, PARTS = 4, POINTS = (STOPS - 1) * PARTS + 1, K = 5 };

static uint8_t file[NEARBY_MAX_FILE_3 + 1]; /* so that a file over all limits is seen */

static size_t load(const char *name) {
    FILE *f = fopen(name, "rb");
    if (!f) {
        perror(name);
        return 0;
    }
    size_t length = fread(file, 1, sizeof file, f);
    fclose(f);
    return length;
}

/* Decimal digits and nothing else, of a number that fits 32 bits. Gives whether it is one. */
static int number_of(const char *text, uint32_t *number) {
    uint64_t sum = 0;
    if (!*text) {
        return 0;
    }
    for (; *text; text++) {
        if (*text < '0' || *text > '9') {
            return 0;
        }
        sum = sum * 10 + (uint64_t)(*text - '0');
        if (sum > UINT32_MAX) {
            return 0;
        }
    }
    *number = (uint32_t)sum;
    return 1;
}

/* Says what was refused. Gives the exit status: 2 for the question, 1 for the file. examples/host.c says more of bad
 * files. */
static int refused(uint32_t number, uint32_t block) {
    printf("refused %" PRIu32, number);
    if (number == NEARBY_REACH) {
        printf(": a reach is 1 to %d centimetres\n", NEARBY_MAX_REACH);
        return 2;
    }
    if (number == NEARBY_AXES) {
        printf(": a town with height, and the points have none\n");
        return 2;
    }
    printf(", block %" PRIu32 ": the file is bad\n", block);
    return 1;
}

/* The number `part` parts of the way from a to b. The track is such that they are whole. */
static int32_t between(int32_t a, int32_t b, int part) {
    return a + (b - a) / PARTS * part;
}

int main(int argc, char **argv) {
    uint32_t reach;
    if (argc != 3 || !number_of(argv[2], &reach)) {
        fprintf(stderr, "mixer FILE REACH, a whole number of centimetres\n");
        return 1;
    }
    /* Whether a reach is refused does not depend on the place: once is enough, for any. */
    struct nearby_leveled any = nearby_level(reach, 0);
    if (any.number != NEARBY_OK) {
        return refused(any.number, 0);
    }

    static const int32_t stop_x[STOPS] = {1200, 2600, 4100, 5600};
    static const int32_t stop_y[STOPS] = {3000, 3100, 3200, 3200};
    int32_t x[POINTS], y[POINTS];
    for (int i = 0; i < POINTS - 1; i++) {
        int from = i / PARTS, part = i % PARTS;
        x[i] = between(stop_x[from], stop_x[from + 1], part);
        y[i] = between(stop_y[from], stop_y[from + 1], part);
    }
    x[POINTS - 1] = stop_x[STOPS - 1];
    y[POINTS - 1] = stop_y[STOPS - 1];

    size_t length = load(argv[1]);
    uint64_t dist[POINTS * K];
    uint32_t site[POINTS * K], cue[POINTS * K];
    uint8_t marks[NEARBY_MAX_TILES];
    struct nearby_joined r = nearby_join(file, length, x, POINTS, y, POINTS, K, dist, POINTS * K, site, POINTS * K, cue,
                                         POINTS * K, marks, sizeof marks);
    if (r.number != NEARBY_OK) {
        return refused(r.number, r.block);
    }
    for (int i = 0; i < POINTS; i++) {
        printf("(%" PRId32 ",%" PRId32 "):", x[i], y[i]);
        for (uint32_t j = 0; j < r.used; j++) {
            struct nearby_leveled place = nearby_level(reach, dist[i * K + j]);
            printf("%s %" PRIu32, j > 0 ? "," : "", cue[i * K + j]);
            if (place.silent) {
                printf(" silent");
            } else {
                printf(" at %.4f", place.level);
            }
        }
        printf("\n");
    }
    return 0;
}
