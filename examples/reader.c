/* Reads a town's file by docs/FORMAT.md alone, without the library: reader < FILE > TEXT
 *
 * Tests the whole file in the order of the full check (nearby_validate). A good file, of a plan town or of one with
 * height, is printed as the text that examples/town.c takes. For any other, `refused NUMBER block POSITION` goes to
 * standard error, and the status is 1. */
#include <inttypes.h>
#include <stdint.h>
#include <stdio.h>

enum { BLOCK = 512, MAX_PLAN = 512000, MAX_FILE = 520704, MAX_TILES = 960, LIMIT = 1000000 };
enum { SYNC = 0xD6, HEAD = 16, CHECK = 510 };

/* What differs between the two families: kinds of blocks, bytes of an entry and of a site, how many fit a block. */
struct family {
    uint32_t axes, directory, tile, entry, entries, site, sites;
};
static const struct family PLAN = {2, 1, 2, 20, 24, 12, 40}, HEIGHT = {3, 3, 4, 28, 17, 16, 30};

static uint8_t file[MAX_FILE + 1]; /* one byte more, so that a file over the limit is seen */
static struct family of;           /* the file's own, once byte 1 of block 0 is known */

/* Numbers: the lowest byte comes first; a signed one with its highest bit set stands for that number less 2^32. */
static uint32_t u16(const uint8_t *s) { return s[0] | (uint32_t)s[1] << 8; }
static uint32_t u32(const uint8_t *s) { return u16(s) | u16(s + 2) << 16; }
static int64_t i32(const uint8_t *s) { return (int64_t)u32(s) - (s[3] < 0x80 ? 0 : INT64_C(0x100000000)); }

/* The directory: how many blocks it has, and the entry of a tile. */
static uint32_t directory_blocks(uint32_t tiles) { return (tiles + of.entries - 1) / of.entries; }
static const uint8_t *block_at(uint32_t position) { return file + BLOCK * position; }
static const uint8_t *entry_of(uint32_t tile) {
    return block_at(tile / of.entries) + HEAD + of.entry * (tile % of.entries);
}

/* An entry has a low end for each axis, then a high end for each, the count of sites, and how many of them are muted. A
 * site has a coordinate for each axis, then its cue. Axis 0 is x, 1 is y, 2 is z. */
static int64_t low(const uint8_t *e, uint32_t axis) { return i32(e + 4 * axis); }
static int64_t high(const uint8_t *e, uint32_t axis) { return i32(e + 4 * (of.axes + axis)); }
static uint32_t count(const uint8_t *e) { return u16(e + 8 * of.axes); }
static uint32_t muted(const uint8_t *e) { return u16(e + 8 * of.axes + 2); }
static int64_t coordinate(const uint8_t *site, uint32_t axis) { return i32(site + 4 * axis); }
static uint32_t cue(const uint8_t *site) { return u32(site + 4 * of.axes); }

/* Whether a byte of s[first] to s[end - 1] is not zero. */
static int nonzero(const uint8_t *s, uint32_t first, uint32_t end) {
    while (first < end && s[first] == 0) {
        first++;
    }
    return first < end;
}

/* Tests 2 and 3, which all blocks have. */
static int test_sums(const uint8_t *s) {
    uint32_t a = 0, c = 0;
    for (int i = 1; i < CHECK; i++) {
        a = (a + s[i]) % 255;
        c = (c + a) % 255;
    }
    if (s[0] != SYNC) return 2;
    if (s[CHECK] != a || s[CHECK + 1] != c) return 3;
    return 0;
}

/* Tests 2 to 9 of the directory block at a position, with that of a plan town's length after test 4. */
static int test_directory(uint32_t position, uint32_t blocks) {
    const uint8_t *s = block_at(position);
    int number = test_sums(s);
    if (number != 0) return number;

    if (position == 0) of = s[1] == HEIGHT.directory ? HEIGHT : PLAN;
    if (s[1] != of.directory) return 4;
    if (of.axes == PLAN.axes && BLOCK * blocks > MAX_PLAN) return 1;
    if (u16(s + 2) != position) return 5;

    uint32_t tiles = u16(s + 6);
    if (tiles == 0 || tiles > MAX_TILES || tiles != u16(file + 6)) return 6;
    if (directory_blocks(tiles) + tiles != blocks) return 6;

    uint32_t left = tiles - of.entries * position, due = left < of.entries ? left : of.entries;
    const uint8_t *end = s + HEAD + of.entry * due;
    if (u16(s + 4) != due) return 7;

    if (nonzero(s, 8, HEAD) || nonzero(s, HEAD + of.entry * due, CHECK)) return 8;
    for (const uint8_t *e = s + HEAD; e < end; e += of.entry) {
        for (uint32_t axis = 0; axis < of.axes; axis++) {
            if (low(e, axis) < -LIMIT || low(e, axis) > high(e, axis) || high(e, axis) > LIMIT) return 9;
        }
        if (count(e) > of.sites || muted(e) > count(e)) return 9;
    }
    return 0;
}

/* Tests 2, 3, 4, 5, 7, 8, 10 and 16 of the tile block at a position, by the tile's entry. */
static int test_tile(uint32_t position, const uint8_t *e) {
    const uint8_t *s = block_at(position), *end = s + HEAD + of.site * count(e);
    uint32_t silent = 0;
    int number = test_sums(s);
    if (number != 0) return number;

    if (s[1] != of.tile) return 4;
    if (u16(s + 2) != position) return 5;
    if (u16(s + 4) != count(e)) return 7;
    if (nonzero(s, 6, HEAD) || nonzero(s, HEAD + of.site * count(e), CHECK)) return 8;
    for (const uint8_t *site = s + HEAD; site < end; site += of.site) {
        for (uint32_t axis = 0; axis < of.axes; axis++) {
            if (coordinate(site, axis) < low(e, axis) || coordinate(site, axis) > high(e, axis)) return 10;
        }
        silent += cue(site) == 0;
    }
    return silent == muted(e) ? 0 : 16;
}

static int refused(int number, uint32_t block) {
    fprintf(stderr, "refused %d block %" PRIu32 "\n", number, block);
    return 1;
}

/* A tile's line and those of its sites. */
static void print_tile(const uint8_t *e, const uint8_t *s) {
    const uint8_t *end = s + HEAD + of.site * count(e);
    printf("tile");
    for (uint32_t axis = 0; axis < of.axes; axis++) printf(" %" PRId64, low(e, axis));
    for (uint32_t axis = 0; axis < of.axes; axis++) printf(" %" PRId64, high(e, axis));
    printf("\n");
    for (const uint8_t *site = s + HEAD; site < end; site += of.site) {
        printf("site");
        for (uint32_t axis = 0; axis < of.axes; axis++) printf(" %" PRId64, coordinate(site, axis));
        printf(" %" PRIu32 "\n", cue(site));
    }
}

int main(void) {
    size_t length = fread(file, 1, sizeof file, stdin);
    if (ferror(stdin)) {
        perror("reader");
        return 2;
    }
    if (length == 0 || length % BLOCK != 0 || length > MAX_FILE) return refused(1, 0);

    /* T is used once block 0 has passed: then it is good, and d + T are the blocks of the file. */
    uint32_t blocks = (uint32_t)(length / BLOCK), tiles = u16(file + 6), d = 1;
    for (uint32_t position = 0; position < blocks; position++) {
        int number =
            position < d ? test_directory(position, blocks) : test_tile(position, entry_of(position - d));
        if (number != 0) return refused(number, position);
        if (position == 0) d = directory_blocks(tiles);
    }
    for (uint32_t tile = 0; tile < tiles; tile++) {
        print_tile(entry_of(tile), block_at(d + tile));
    }
    return fflush(stdout) != 0 || ferror(stdout);
}
