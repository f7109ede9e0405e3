/* Violetjoist for hosts in C: the k nearest sound sites of each stop, from a town's file.
 *
 * Link with libnearby.a or libnearby.so: `make lib` puts them into target/lib, and after `make install` pkg-config
 * knows them as nearby. They are for x86-64 Linux, for processors of x86-64-v2. Every function here is proved against a
 * definition (docs/PROOF.md, "The calls for C"); this header says the same in words, and docs/PROOF.md, "What is
 * assumed", says which of them are proved and which tested or measured.
 *
 * For all functions:
 * - A slice is a pointer and the number of its elements. The pointer is not NULL, not even for 0 elements, and has that
 *   many elements behind it. Slices that are written do not overlap any other.
 * - Whatever the slices and numbers hold, a call returns, reads and writes nothing outside the slices, keeps no pointer
 *   and allocates nothing. Calls may run at the same time, also on the same file, if no slice written by one is used by
 *   another. A call takes less than 128 KiB of stack.
 * - A plan town has two axes, x and y; a town with height has three, x, y and z. A function whose name ends in 3 is for
 *   towns with height, and the one of the same name without 3 for plan towns. nearby_validate takes the file of any
 *   town and says how many axes it has, and nearby_block_check takes a block of any town.
 * - A file is the blocks of a town, as nearby_write or nearby_write3 makes them: of T tiles, first d directory blocks,
 *   then the block of each tile. d is T/24 rounded up, with height T/17 rounded up. Byte 1 of the file is 1 in a plan
 *   town, 3 in one with height. A file is one slice, whole, and must not change during the call. It may be mapped:
 *   nearby_join and nearby_join3 read the directory and the blocks of the tiles that they have to open; nearby_prune,
 *   nearby_prune3, nearby_stream_order and nearby_stream_order3 read the directory alone.
 * - A coordinate is a whole number of centimetres from -1,000,000 to 1,000,000. Distances are squared: at most
 *   8,000,000,000,000 on two axes and 12,000,000,000,000 on three.
 * - A site with cue 0 is muted: it keeps its slot in the tile and takes no place in a list. The others are sounding.
 *   The directory has, for each tile, the number of its sites and how many of them are muted.
 */
#ifndef NEARBY_H
#define NEARBY_H

#include <stddef.h>
#include <stdint.h>

#ifdef __cplusplus
extern "C" {
#endif

/* The number of a refusal, with what was due; 0 is an answer. docs/FORMAT.md of the sources says what a block holds. */
enum {
    NEARBY_OK = 0,
    /* Of a file, or of a block by itself. */
    NEARBY_LENGTH = 1,   /* of the file; due: a multiple of 512, from 512 to 520,704, and to 512,000 if block 0 is that
                            of a plan town; whether it is d + T blocks is NEARBY_TILES. nearby_block_check: 512 bytes */
    NEARBY_SYNC = 2,     /* byte 0 of the block; due: D6 hex */
    NEARBY_CHECK = 3,    /* bytes 510-511; due: the two sums over bytes 1 to 509 */
    NEARBY_KIND = 4,     /* byte 1; due: 1 in a directory block and 2 in a tile's block, with height 3 and 4. Block 0,
                            with 1 or 3, settles which */
    NEARBY_POSITION = 5, /* bytes 2-3; due: the position of the block in the file, from 0 */
    NEARBY_TILES = 6,    /* T, bytes 6-7 of a directory block; due: 1 to 960, as in block 0, and
                            T + d blocks in the file */
    NEARBY_ENTRIES = 7,  /* bytes 4-5; due: in directory block p the smaller of 24 and T - 24 * p, with height of 17 and
                            T - 17 * p; in a tile's block the count that the directory has for the tile */
    NEARBY_PADDING = 8,  /* a byte that the format does not use; due: 0 */
    NEARBY_BOX = 9,      /* an entry of the directory; due: coordinates within the limits, no low end above its high
                            end, at most 40 sites (30 with height), no more of them muted than there are */
    NEARBY_STRAY = 10,   /* a site of the tile; due: inside the box that the directory has for the tile */
    /* Of a question. */
    NEARBY_K = 11,       /* due: k from 1 to 64 */
    NEARBY_STOPS = 12,   /* due: 1 to 256 stops, as many y as x, and of nearby_join3 as many z */
    NEARBY_SPOT = 13,    /* a stop; due: all its coordinates within the limits */
    NEARBY_SHORT = 14,   /* an output slice; due: as many elements as the function needs, or more */
    NEARBY_SUPPLY = 15,  /* the writer's lists; due: in boxes four numbers a tile, of nearby_write3 six; as many x, y,
                            of nearby_write3 z, and cues as the counts add up to */
    /* Of a file again. */
    NEARBY_MUTED = 16,   /* sites of the tile with cue 0; due: as many as the directory has for the tile */
    /* Of question and file together. */
    NEARBY_AXES = 17,    /* of the town; due: two for nearby_join, nearby_prune and nearby_stream_order, three for
                            nearby_join3, nearby_prune3 and nearby_stream_order3 */
    /* Of a level. */
    NEARBY_REACH = 18    /* due: a reach from 1 to 1,000,000 */
};

/* Where. With the number goes a block: the position in the file of the block refused, from 0. It is 0 for
 * NEARBY_LENGTH, for NEARBY_K to NEARBY_SUPPLY, for NEARBY_AXES, for the box passed to nearby_prune, nearby_prune3,
 * nearby_stream_order and nearby_stream_order3, and for every refusal by nearby_write and nearby_write3; and it is 0
 * when the number is NEARBY_OK. For NEARBY_REACH it would be 0, too: nearby_level looks at no file, and leaves it out.
 * A refusal does not say T, but the file says d. Block 0 belongs to the directory in any case. If a later block is
 * refused, block 0 has passed its tests: then d is (file_len / 512 + 24) / 25 in whole numbers where byte 1 of the file
 * is 1, a plan town, and (file_len / 512 + 17) / 18 where it is 3, a town with height. A block below d belongs to the
 * directory: with m = 24, or 17 with height, block p has the entries of tiles m * p to m * p + m - 1, as far as there
 * are any. Any other block is that of tile block - d. So in a plan town block 12 is that of tile 11 in a file of 25
 * blocks, where d is 1, and a directory block in one of 400, where d is 16; in a town with height of 25 blocks d is 2,
 * and block 12 is that of tile 10. The whole directory is tested before a tile is opened: where a tile is refused, T
 * and all entries have passed their tests.
 *
 * What to do.
 * - The caller's mistake, and the same call would be refused again: NEARBY_K to NEARBY_SUPPLY, NEARBY_REACH, NEARBY_BOX
 *   for the box passed to nearby_prune, nearby_prune3, nearby_stream_order and nearby_stream_order3, and every refusal
 *   by nearby_write and nearby_write3.
 * - NEARBY_AXES: the directory is good, and the call is not the one for this town. Do not copy the file again. Ask
 *   nearby_join3, nearby_prune3 and nearby_stream_order3 where nearby_validate gives three axes, nearby_join,
 *   nearby_prune and nearby_stream_order where it gives two; byte 1 of the file says it too, 3 for three axes, 1 for
 *   two. A host that has stops without z cannot ask a town with height: it needs the plan town.
 * - All others speak of the file: copy it again from where it came, the whole of it.
 *     NEARBY_LENGTH, NEARBY_TILES: cut short or too long, or something else than a town's file.
 *     NEARBY_SYNC, NEARBY_CHECK: damaged, or something else than a town's file.
 *     NEARBY_KIND, NEARBY_POSITION: blocks lost, doubled or in another order, blocks of a plan town and of one with
 *       height in one file, or damage that the check does not see.
 *     NEARBY_ENTRIES, NEARBY_STRAY in a tile: directory and tile are of different files, or such damage.
 *     NEARBY_MUTED: the same; or a file with a cue 0 from before muted sites were counted: make it again from its
 *       town, or, if you know that it is such a file, by `nearby-town renew`.
 *     NEARBY_ENTRIES in the directory, NEARBY_PADDING, NEARBY_BOX: such damage, or a file not made by nearby_write or
 *       nearby_write3.
 *   Do not put in the refused block alone: one of an older file may pass every test, and its sites are wrong.
 *   If a full copy is refused alike, the file is bad where it came from: make it again from its town.
 * - Check a file with nearby_validate when it arrives: if it passes, the calls for its number of axes refuse only the
 *   caller's mistakes. */
enum {
    NEARBY_BLOCK_SIZE = 512,
    NEARBY_MAX_TILES = 960,
    NEARBY_MAX_SITES = 40, /* in a tile of a plan town */
    NEARBY_MAX_SITES_3 = 30, /* in a tile of a town with height */
    NEARBY_MAX_STOPS = 256, /* the program `nearby` takes 128 */
    NEARBY_MAX_K = 64,
    NEARBY_MAX_REACH = 1000000, /* centimetres */
    NEARBY_MAX_FILE = 512000, /* bytes, of a plan town */
    NEARBY_MAX_FILE_3 = 520704 /* bytes, of a town with height: room for any file */
};

/* What nearby_margin and nearby_margin3 give for a bad box. No margin is so large. */
#define NEARBY_BAD_BOX INT64_C(9000000000000000000)

/* Whether the slice is a block with the right first byte and check: NEARBY_OK, or the first that applies of
 * NEARBY_LENGTH (not 512 bytes), NEARBY_SYNC, NEARBY_CHECK. The kind and the content of the block are not looked at. */
uint32_t nearby_block_check(const uint8_t *block, size_t block_len);

/* The margin of boxes O, E and B, each low x, high x, low y, high y: the largest D(o,e) - D(o,b) over their
 * whole-number points o, e, b. Below 0 exactly when, from every point of O, all of E is nearer than all of B.
 * NEARBY_BAD_BOX if a coordinate is beyond the limits or a low end above its high end. */
int64_t nearby_margin(int32_t ox0, int32_t ox1, int32_t oy0, int32_t oy1,
                      int32_t ex0, int32_t ex1, int32_t ey0, int32_t ey1,
                      int32_t bx0, int32_t bx1, int32_t by0, int32_t by1);

/* The same with height: boxes O, E and B, each low x, high x, low y, high y, low z, high z. */
int64_t nearby_margin3(int32_t ox0, int32_t ox1, int32_t oy0, int32_t oy1, int32_t oz0, int32_t oz1,
                       int32_t ex0, int32_t ex1, int32_t ey0, int32_t ey1, int32_t ez0, int32_t ez1,
                       int32_t bx0, int32_t bx1, int32_t by0, int32_t by1, int32_t bz0, int32_t bz1);

struct nearby_joined {
    uint32_t number; /* NEARBY_OK, or the refusal; then block says where, and the other numbers are 0 */
    uint32_t block;
    uint32_t used;   /* places used for each stop: the smaller of k and the number of all sounding sites */
    uint32_t tiles;  /* T, the tiles of the file */
    uint32_t opened; /* tiles opened, whose block was read and passed its tests: as many marks are 2 */
    uint32_t pruned; /* tiles struck: as many marks are 1 */
};

/* The k nearest sounding sites of each stop, in a plan town. Stop i is at (x[i], y[i]); place j of stop i is element
 * i * k + j of dist (squared distance), site (tile * 40 + slot) and cue, nearest first, then by tile, then by slot.
 * Places past `used` are 0.
 * marks has a byte for each tile: 2 opened, 1 struck as by nearby_prune for the smallest box around the stops,
 * 0 neither.
 *
 * Needs n * k elements in dist, site and cue, where n, the number of stops, is x_len, and T in marks. Elements past
 * these never change.
 * Refuses, first that applies: NEARBY_LENGTH; of each directory block NEARBY_SYNC to NEARBY_BOX; NEARBY_K,
 * NEARBY_STOPS, NEARBY_AXES, NEARBY_SPOT, NEARBY_SHORT: all four slices are as they were. Then, of a tile that had to
 * be opened, NEARBY_SYNC, NEARBY_CHECK, NEARBY_KIND, NEARBY_POSITION, NEARBY_ENTRIES, NEARBY_PADDING, NEARBY_STRAY,
 * NEARBY_MUTED: the first n * k places and T marks are 0. A tile without a sounding site is not opened, and one that
 * is not opened may hold anything: the answer does not depend on it.
 * NEARBY_LENGTH of a plan town's file over 512,000 bytes, but not over 520,704, comes directly after NEARBY_KIND of
 * block 0. */
struct nearby_joined nearby_join(const uint8_t *file, size_t file_len,
                                 const int32_t *x, size_t x_len, const int32_t *y, size_t y_len, uint32_t k,
                                 uint64_t *dist, size_t dist_len, uint32_t *site, size_t site_len,
                                 uint32_t *cue, size_t cue_len, uint8_t *marks, size_t marks_len);

/* The same in a town with height. Stop i is at (x[i], y[i], z[i]). The number of a site is tile * 40 + slot here, too,
 * though a tile has at most 30 sites. Tiles are struck as by nearby_prune3, for the smallest box around the stops over
 * all three axes. Needs, refuses and leaves the slices as nearby_join does. */
struct nearby_joined nearby_join3(const uint8_t *file, size_t file_len,
                                  const int32_t *x, size_t x_len, const int32_t *y, size_t y_len,
                                  const int32_t *z, size_t z_len, uint32_t k,
                                  uint64_t *dist, size_t dist_len, uint32_t *site, size_t site_len,
                                  uint32_t *cue, size_t cue_len, uint8_t *marks, size_t marks_len);

struct nearby_pruned {
    uint32_t number; /* NEARBY_OK, or the refusal; then block says where, and the other numbers are 0 */
    uint32_t block;
    uint32_t tiles;  /* T */
    uint32_t pruned; /* tiles struck: as many marks are 1 */
};

/* Marks with 1 each tile of a plan town that is struck, from the directory alone: the tiles nearer than it from all of
 * the box x0..x1 by y0..y1 have k sounding sites or more, so it cannot hold one of the k nearest of any point of the
 * box. The others are marked 0.
 *
 * Needs T elements in marks; elements past these never change. Refuses, first that applies: NEARBY_LENGTH; of each
 * directory block NEARBY_SYNC to NEARBY_BOX, as nearby_join; NEARBY_K; NEARBY_AXES; NEARBY_BOX for the box (block 0);
 * NEARBY_SHORT. Then marks is as it was. If the box is good, NEARBY_BOX with block 0 is that of the directory. */
struct nearby_pruned nearby_prune(const uint8_t *file, size_t file_len,
                                  int32_t x0, int32_t x1, int32_t y0, int32_t y1, uint32_t k,
                                  uint8_t *marks, size_t marks_len);

/* The same in a town with height, for the box x0..x1 by y0..y1 by z0..z1. Needs, refuses and leaves marks as
 * nearby_prune does. */
struct nearby_pruned nearby_prune3(const uint8_t *file, size_t file_len,
                                   int32_t x0, int32_t x1, int32_t y0, int32_t y1, int32_t z0, int32_t z1, uint32_t k,
                                   uint8_t *marks, size_t marks_len);

struct nearby_streamed {
    uint32_t number; /* NEARBY_OK, or the refusal; then block says where, and tiles is 0 */
    uint32_t block;
    uint32_t tiles;  /* T, the tile numbers in order */
};

/* The sequence in which a unit fetches the tiles of a plan town over a slow link, for the box x0..x1 by y0..y1 where
 * its stops will be: each tile comes after every tile nearer than it from all of the box. Tile E is nearer than tile B
 * where nearby_margin of this box and those of E and B is below 0; of two boxes with a point in common neither is
 * nearer. A tile is free to come next when all tiles nearer than it have come; there is always one, and of those free
 * the lowest number comes first.
 *
 * The first T elements of order become the tile numbers, each tile once: those without sites, or with muted sites only,
 * are listed, too. The boxes alone settle the sequence, and the directory has them all. So fetch the directory first:
 * block 0 says T, in bytes 6-7, and T says d, at most 40, with height 57. Then pass a slice for the whole file, of
 * 512 * (T + d) bytes. The blocks of tiles need not have come: they are not read, and may hold anything.
 *
 * The sequence does not depend on k. A unit that wants at most k places for each stop need not fetch all of it: it may
 * leave out the tiles that nearby_prune strikes for the same box and k, and those without a sounding site. nearby_join
 * opens none of them for stops in the box and that k or a smaller one. Each struck tile comes after tiles with k
 * sounding sites or more.
 *
 * Needs T elements in order; elements past these never change. Refuses, first that applies: NEARBY_LENGTH; of each
 * directory block NEARBY_SYNC to NEARBY_BOX, as nearby_join; NEARBY_AXES; NEARBY_BOX for the box (block 0);
 * NEARBY_SHORT. Then order is as it was. If the box is good, NEARBY_BOX with block 0 is that of the directory. */
struct nearby_streamed nearby_stream_order(const uint8_t *file, size_t file_len,
                                           int32_t x0, int32_t x1, int32_t y0, int32_t y1,
                                           uint32_t *order, size_t order_len);

/* The same in a town with height, for the box x0..x1 by y0..y1 by z0..z1, beside nearby_margin3, nearby_prune3 and
 * nearby_join3. Needs, refuses and leaves order as nearby_stream_order does. */
struct nearby_streamed nearby_stream_order3(const uint8_t *file, size_t file_len,
                                            int32_t x0, int32_t x1, int32_t y0, int32_t y1, int32_t z0, int32_t z1,
                                            uint32_t *order, size_t order_len);

struct nearby_validated {
    uint32_t number; /* NEARBY_OK, or the refusal; then block says where, and the other numbers are 0 */
    uint32_t block;
    uint32_t tiles;  /* T */
    uint32_t axes;   /* 2 for a plan town, 3 for one with height */
};

/* The full check of any town: the directory, then every tile in order, those without sounding sites too. Gives T and
 * the axes, or the first refusal: NEARBY_LENGTH; of each directory block NEARBY_SYNC to NEARBY_BOX, as nearby_join; of
 * each tile as an opening of nearby_join. It never gives NEARBY_AXES. A file passes with two axes exactly when
 * nearby_write makes it from some town, and with three exactly when nearby_write3 does. */
struct nearby_validated nearby_validate(const uint8_t *file, size_t file_len);

struct nearby_written {
    uint32_t number; /* NEARBY_OK, or the refusal; then length is 0 */
    uint32_t block;  /* always 0 */
    size_t length;   /* of the file, in bytes: 512 * (T + d) */
};

/* Writes the file of a plan town to the start of out. T is counts_len; boxes has four numbers for each tile: low x,
 * low y, high x, high y (in this order); x, y and cues have the sites of all tiles, tile after tile. How many are muted
 * is counted from the cues.
 *
 * Needs the file's length in out; bytes past it never change. Refuses, first that applies: NEARBY_TILES (T is 0 or over
 * 960), NEARBY_SUPPLY (not four numbers a tile), NEARBY_BOX, NEARBY_SUPPLY (x, y or cues not as long as the counts add
 * up to), NEARBY_STRAY, NEARBY_SHORT. Then out is as it was. */
struct nearby_written nearby_write(const int32_t *boxes, size_t boxes_len, const uint32_t *counts, size_t counts_len,
                                   const int32_t *x, size_t x_len, const int32_t *y, size_t y_len,
                                   const uint32_t *cues, size_t cues_len, uint8_t *out, size_t out_len);

/* The same for a town with height. boxes has six numbers for each tile: low x, low y, low z, high x, high y, high z (in
 * this order); z has the sites of all tiles as x and y have. NEARBY_SUPPLY is for boxes with other than six numbers a
 * tile, and for a z that is not as long as the counts add up to, too. */
struct nearby_written nearby_write3(const int32_t *boxes, size_t boxes_len, const uint32_t *counts, size_t counts_len,
                                    const int32_t *x, size_t x_len, const int32_t *y, size_t y_len,
                                    const int32_t *z, size_t z_len, const uint32_t *cues, size_t cues_len,
                                    uint8_t *out, size_t out_len);

struct nearby_leveled {
    uint32_t number; /* NEARBY_OK, or NEARBY_REACH; then silent and level are 0 */
    uint32_t silent; /* 1: the place is silent, and level is 0 */
    double level;    /* where number and silent are 0: above 0 and at most 1 */
};

/* How loud a place is, for the mixer: from a reach, 1 to 1,000,000 centimetres, and the place's squared distance dist,
 * as nearby_join and nearby_join3 give it; any reach of 32 bits and any dist of 64 may be passed. A reach outside its
 * limits is refused with NEARBY_REACH, whatever dist is. Silent if dist is above 100 * reach * reach: beyond ten times
 * the reach. Else the level is the double nearest to the fraction of whole numbers
 *
 *     reach * reach / (reach * reach + dist)
 *
 * It is 1 exactly when dist is 0; 0.5 when dist is reach * reach, as far away as the reach; never below the double
 * nearest to 1/101. For one reach, of two places that are not silent the one with the greater dist has the smaller
 * level. For one dist, a greater reach never gives a smaller level, nor silence for a level.
 *
 * The calling thread must have the default rounding mode, to nearest (fegetround() is FE_TONEAREST), and no exception
 * of floating point enabled that stops it: no contract can promise that. In another mode the level may be the double
 * next to it. A level that is not exact sets the thread's flag FE_INEXACT. */
struct nearby_leveled nearby_level(uint32_t reach, uint64_t dist);

#ifdef __cplusplus
}
#endif

#endif
