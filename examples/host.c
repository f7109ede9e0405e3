/* A sound host: host FILE
 *
 * Checks a town's file as a host would when it arrives, then drives along a track and says which cues to play at each
 * stop. Its stops have no height, so it takes plan towns; examples/viaduct.c asks a town with height.
 *
 *     gcc examples/host.c $(pkg-config --cflags --libs nearby) -o host        after make install
 *     gcc -Iinclude examples/host.c target/lib/libnearby.a -o host            after make lib */
#include "nearby.h"

#include <inttypes.h>
#include <stdio.h>

enum { STOPS = 4, K = 3 };

static uint8_t file[NEARBY_MAX_FILE_3 + 1]; /* so that a file over all limits is seen */

static size_t load(const char *name) {
    FILE *f = fopen(name, "rb");
    if (!f) {
        perror(name);
        return 0;
    }
    size_t length = fread(file, 1, sizeof file, f);
    fclose(f);
    return length;
}

/* Every block by itself, as blocks would come over a wire. Gives how many are bad. */
static unsigned check_blocks(size_t length) {
    unsigned bad = 0;
    for (size_t at = 0; at < length; at += NEARBY_BLOCK_SIZE) {
        size_t left = length - at;
        uint32_t number = nearby_block_check(file + at, left < NEARBY_BLOCK_SIZE ? left : NEARBY_BLOCK_SIZE);
        if (number != NEARBY_OK) {
            printf("block %zu: refused %" PRIu32 "\n", at / NEARBY_BLOCK_SIZE, number);
            bad++;
        }
    }
    return bad;
}

/* What a host says, and does, about a refusal (include/nearby.h, "Where" and "What to do"). Gives the exit status. */
static int refused(uint32_t number, uint32_t block, size_t length) {
    size_t entries = file[1] == 3 ? 17 : 24; /* of a directory block: with height, or of a plan town */
    size_t directory = (length / NEARBY_BLOCK_SIZE + entries) / (entries + 1);
    printf("refused %" PRIu32, number);
    if (number == NEARBY_AXES) {
        printf(": a town with height, and the stops have none\n");
        return 2;
    }
    if (number >= NEARBY_K && number != NEARBY_MUTED) {
        printf(": the question is wrong\n");
        return 2;
    }
    if (number == NEARBY_LENGTH) {
        printf(", the length");
    } else if (block < directory) {
        printf(", block %" PRIu32 " of the directory", block);
    } else {
        printf(", block %" PRIu32 ", tile %zu", block, block - directory);
    }
    printf(": copy the whole file again%s\n", number == NEARBY_MUTED ? ", or make it again from its town" : "");
    return 1;
}

int main(int argc, char **argv) {
    if (argc != 2) {
        fprintf(stderr, "host FILE\n");
        return 1;
    }
    size_t length = load(argv[1]);
    printf("blocks %zu bad %u\n", length / NEARBY_BLOCK_SIZE, check_blocks(length));
    struct nearby_validated whole = nearby_validate(file, length);
    printf("full check: number %" PRIu32 " block %" PRIu32 " tiles %" PRIu32 "\n", whole.number, whole.block,
           whole.tiles);
    if (whole.number != NEARBY_OK) {
        return refused(whole.number, whole.block, length);
    }

    /* The box of the cab's stretch of track, a crossing, a depot behind it: is the crossing nearer from all of the
     * track? */
    int64_t margin = nearby_margin(0, 1000, 0, 0, 2000, 3000, 0, 0, 6000, 7000, 0, 0);
    printf("margin %" PRId64 ": the crossing is %s\n", margin, margin < 0 ? "nearer" : "not nearer");

    static const int32_t x[STOPS] = {1200, 2600, 4100, 5600};
    static const int32_t y[STOPS] = {3000, 3100, 3200, 3200};
    uint64_t dist[STOPS * K];
    uint32_t site[STOPS * K], cue[STOPS * K];
    uint8_t marks[NEARBY_MAX_TILES];
    struct nearby_joined r = nearby_join(file, length, x, STOPS, y, STOPS, K, dist, STOPS * K, site, STOPS * K, cue,
                                         STOPS * K, marks, sizeof marks);
    if (r.number != NEARBY_OK) {
        return refused(r.number, r.block, length);
    }
    printf("tiles %" PRIu32 " opened %" PRIu32 " struck %" PRIu32 "\n", r.tiles, r.opened, r.pruned);
    for (int i = 0; i < STOPS; i++) {
        printf("stop %d plays", i);
        for (uint32_t j = 0; j < r.used; j++) {
            printf(" %" PRIu32, cue[i * K + j]);
        }
        printf("\n");
    }
    return 0;
}
