/* A town with height: viaduct FILE
 *
 * One line runs on the ground, another above it on a viaduct. Writes the file of this town (samples/viaduct.txt has it
 * as text), checks it, and asks what is near a stop on the viaduct and near one right below it. The calls for plan
 * towns refuse it.
 *
 *     gcc examples/viaduct.c $(pkg-config --cflags --libs nearby) -o viaduct    after make install
 *     gcc -Iinclude examples/viaduct.c target/lib/libnearby.a -o viaduct        after make lib */
#include "nearby.h"

#include <inttypes.h>
#include <stdio.h>
#include <string.h>

enum { TILES = 12, SITES = 19, STOPS = 2, K = 3 };

/* Of each tile low x, low y, low z, high x, high y, high z. */
static const int32_t boxes[6 * TILES] = {
    0,    2800, 0,   999,  3200, 300, /* tiles 0 to 5: on the ground, from west to east */
    1000, 2800, 0,   1999, 3200, 300,
    2000, 2800, 0,   2999, 3200, 300,
    3000, 2800, 0,   3999, 3200, 300,
    4000, 2800, 0,   4999, 3200, 300,
    5000, 2800, 0,   5999, 3200, 300,
    2800, 0,    800, 3200, 999,  1100, /* tiles 6 to 11: on the viaduct, from south to north */
    2800, 1000, 800, 3200, 1999, 1100,
    2800, 2000, 800, 3200, 2999, 1100,
    2800, 3000, 800, 3200, 3999, 1100,
    2800, 4000, 800, 3200, 4999, 1100,
    2800, 5000, 800, 3200, 5999, 1100,
};
static const uint32_t counts[TILES] = {1, 2, 2, 3, 1, 2, 1, 2, 2, 2, 1, 0};

/* x, y, z and cue of each site, tile after tile. At (2900, 2900) and at (3000, 3000) there is one on the ground and one
 * on the viaduct. */
static const struct {
    int32_t x, y, z;
    uint32_t cue;
} sites[SITES] = {
    {420, 2850, 110, 11},
    {1210, 3140, 90, 12}, {1850, 2860, 240, 13},
    {2240, 3150, 100, 21}, {2900, 2900, 120, 22},
    {3000, 3000, 120, 31}, {3100, 3050, 150, 0}, {3640, 2870, 110, 32},
    {4480, 3130, 260, 41},
    {5020, 2840, 90, 51}, {5710, 3160, 100, 52},
    {2860, 350, 910, 161},
    {3140, 1220, 900, 171}, {2870, 1890, 1040, 172},
    {3130, 2310, 920, 181}, {2900, 2900, 920, 182},
    {3000, 3000, 920, 191}, {3150, 3700, 890, 192},
    {2840, 4410, 1060, 201},
};

static uint8_t file[NEARBY_BLOCK_SIZE * (TILES + 1)]; /* 12 tiles have 1 directory block */
static uint64_t dist[STOPS * K];
static uint32_t site[STOPS * K], cue[STOPS * K];
static uint8_t marks[TILES];

/* The file of the town. Gives its length, 0 if the library refuses. */
static size_t written(void) {
    int32_t x[SITES], y[SITES], z[SITES];
    uint32_t cues[SITES];
    for (int i = 0; i < SITES; i++) {
        x[i] = sites[i].x, y[i] = sites[i].y, z[i] = sites[i].z, cues[i] = sites[i].cue;
    }
    struct nearby_written r = nearby_write3(boxes, 6 * TILES, counts, TILES, x, SITES, y, SITES, z, SITES, cues, SITES,
                                            file, sizeof file);
    printf("written: number %" PRIu32 " bytes %zu\n", r.number, r.length);
    return r.length;
}

static int saved(const char *name, size_t length) {
    FILE *f = fopen(name, "wb");
    int good = f && fwrite(file, 1, length, f) == length;
    good = f && fclose(f) == 0 && good;
    if (!good) {
        perror(name);
    }
    return good;
}

static void print_list(const char *where, int stop, uint32_t used) {
    printf("%s:", where);
    for (uint32_t j = 0; j < used; j++) {
        size_t at = (size_t)stop * K + j;
        printf("%s %" PRIu64 " %" PRIu32 " %" PRIu32, j == 0 ? "" : ";", dist[at], site[at], cue[at]);
    }
    printf("\n");
}

int main(int argc, char **argv) {
    if (argc != 2) {
        fprintf(stderr, "viaduct FILE\n");
        return 1;
    }
    size_t length = written();
    if (length == 0 || !saved(argv[1], length)) {
        return 1;
    }
    struct nearby_validated whole = nearby_validate(file, length);
    printf("full check: number %" PRIu32 " block %" PRIu32 " tiles %" PRIu32 " axes %" PRIu32 "\n", whole.number,
           whole.block, whole.tiles, whole.axes);

    /* The track on the viaduct, a bell beside it, and a bell on the ground below that one. The plan shows the two bells
     * at one place. */
    int64_t margin = nearby_margin3(3000, 3000, 2800, 3200, 850, 850, 2990, 3010, 2990, 3010, 910, 930,
                                    2990, 3010, 2990, 3010, 110, 130);
    int64_t on_plan = nearby_margin(3000, 3000, 2800, 3200, 2990, 3010, 2990, 3010, 2990, 3010, 2990, 3010);
    printf("margin %" PRId64 ": the bell on the viaduct is %s\n", margin, margin < 0 ? "nearer" : "not nearer");
    printf("margin on the plan %" PRId64 ": it is %s\n", on_plan, on_plan < 0 ? "nearer" : "not nearer");

    /* Two stops with the same x and y. */
    static const int32_t x[STOPS] = {3000, 3000}, y[STOPS] = {3020, 3020}, z[STOPS] = {850, 50};
    struct nearby_joined r = nearby_join3(file, length, x, STOPS, y, STOPS, z, STOPS, K, dist, STOPS * K, site,
                                          STOPS * K, cue, STOPS * K, marks, TILES);
    if (r.number != NEARBY_OK) {
        printf("nearby_join3: refused %" PRIu32 " block %" PRIu32 "\n", r.number, r.block);
        return 1;
    }
    printf("tiles %" PRIu32 " opened %" PRIu32 " struck %" PRIu32 "\n", r.tiles, r.opened, r.pruned);
    print_list("on the viaduct", 0, r.used);
    print_list("below it", 1, r.used);
    printf("the lists %s\n", memcmp(cue, cue + K, sizeof cue / STOPS) != 0 ? "differ" : "are the same");

    /* The stop on the viaduct alone: the box around it is the stop itself. */
    struct nearby_pruned p = nearby_prune3(file, length, x[0], x[0], y[0], y[0], z[0], z[0], K, marks, TILES);
    printf("struck from the viaduct: %" PRIu32 " of %" PRIu32 "\n", p.pruned, p.tiles);

    /* What a host for plan towns gets: NEARBY_AXES. */
    r = nearby_join(file, length, x, STOPS, y, STOPS, K, dist, STOPS * K, site, STOPS * K, cue, STOPS * K, marks,
                    TILES);
    printf("nearby_join: refused %" PRIu32 " block %" PRIu32 "\n", r.number, r.block);
    p = nearby_prune(file, length, x[0], x[0], y[0], y[0], K, marks, TILES);
    printf("nearby_prune: refused %" PRIu32 " block %" PRIu32 "\n", p.number, p.block);
    return 0;
}
