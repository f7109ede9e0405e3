/* Makes the file of a town from text: town < TEXT > FILE
 *
 * A line is `tile LOW_X LOW_Y HIGH_X HIGH_Y`, or `site X Y CUE` for a site of the tile above it, in centimetres; what
 * follows a # is left out (docs/FORMAT.md, "The text of a town"). In the text of a town with height the lines are
 * `tile LOW_X LOW_Y LOW_Z HIGH_X HIGH_Y HIGH_Z` and `site X Y Z CUE`; the first tile settles which of the two it is.
 * Tiles are numbered from 0 in their order, and the sites of a tile from slot 0. A site with cue 0 is muted. What the
 * library would refuse is found line by line, by asking it for a town of the one tile. */
#include "nearby.h"

#include <stdarg.h>
#include <stdio.h>
#include <stdlib.h>
#include <string.h>

enum { ALL_SITES = NEARBY_MAX_TILES * NEARBY_MAX_SITES, MAX_LINE = 254, TOO_LONG = -1, NONE = -2 };

static int axes; /* 2 or 3; 0 before the first tile */
static int32_t boxes[6 * NEARBY_MAX_TILES];
static uint32_t counts[NEARBY_MAX_TILES];
static int32_t x[ALL_SITES];
static int32_t y[ALL_SITES];
static int32_t z[ALL_SITES];
static uint32_t cues[ALL_SITES];
static uint8_t file[NEARBY_MAX_FILE_3];

static int failed(int line, const char *why, ...) {
    va_list values;
    va_start(values, why);
    fprintf(stderr, "town: line %d: ", line);
    vfprintf(stderr, why, values);
    fputc('\n', stderr);
    va_end(values);
    return 1;
}

/* The library's answer for a town of some tiles, from `tile` on, whose sites are those of the lists from `first` on. */
static struct nearby_written written(size_t tile, const uint32_t *held, size_t tiles, size_t first, size_t sites) {
    const int32_t *box = boxes + 2 * (size_t)axes * tile;
    if (axes == 2) {
        return nearby_write(box, 4 * tiles, held, tiles, x + first, sites, y + first, sites, cues + first, sites, file,
                            sizeof file);
    }
    return nearby_write3(box, 6 * tiles, held, tiles, x + first, sites, y + first, sites, z + first, sites,
                         cues + first, sites, file, sizeof file);
}

/* The library's number for a town of this tile alone, with `count` sites of the lists from `first` on. */
static uint32_t alone(size_t tile, size_t first, uint32_t count) {
    return written(tile, &count, 1, first, count).number;
}

/* Whether a number fits 32 bits with a sign. */
static int fits(long long n) {
    return INT32_MIN <= n && n <= INT32_MAX;
}

/* Reads a line without its end, LF or CR LF. Gives its length, TOO_LONG, or NONE at the end of the text. */
static int next_line(char *text) {
    int length = 0, c = getchar();
    if (c == EOF) {
        return NONE;
    }
    for (; c != EOF && c != '\n'; c = getchar()) {
        if (length == MAX_LINE) {
            return TOO_LONG;
        }
        text[length++] = (char)c;
    }
    if (c == '\n' && length > 0 && text[length - 1] == '\r') {
        length--;
    }
    text[length] = 0;
    return length;
}

static const char *past_spaces(const char *at) {
    return at + strspn(at, " \t");
}

/* Reads spaces and a number, from *at on. Gives 0 if that is not there, -1 if the number has a minus, else 1. A number
 * beyond 64 bits becomes the largest or the least of 64 bits, which is beyond 32 bits, too. */
static int number(const char **at, long long *n) {
    const char *start = past_spaces(*at), *digits = start + (*start == '-' || *start == '+');
    size_t length = strspn(digits, "0123456789");
    if (start == *at || length == 0) {
        return 0;
    }
    *n = strtoll(start, NULL, 10);
    *at = digits + length;
    return *start == '-' ? -1 : 1;
}

/* Reads a word and so many numbers, which are all up to `end`. Gives 0 if that is not there, else what `number` gives
 * for the last of them. */
static int reads(const char *at, const char *end, const char *word, int count, long long *n) {
    int sign = 1;
    at = past_spaces(at);
    if (strncmp(at, word, strlen(word)) != 0) {
        return 0;
    }
    at += strlen(word);
    for (int i = 0; i < count && sign != 0; i++) {
        sign = number(&at, n + i);
    }
    return past_spaces(at) == end ? sign : 0;
}

/* Whether a line is a tile or a site of a town with so many axes. */
static int is_line(const char *text, const char *end, int of) {
    long long n[6];
    return reads(text, end, "tile", 2 * of, n) || reads(text, end, "site", of + 1, n);
}

int main(void) {
    char text[MAX_LINE + 1];
    size_t tiles = 0, sites = 0;
    int length, sign;
    for (int line = 1; (length = next_line(text)) != NONE; line++) {
        if (length == TOO_LONG) {
            return failed(line, "longer than 254 characters");
        }
        char *end = memchr(text, '#', (size_t)length);
        end = end ? end : text + length;
        *end = 0;
        long long n[6];
        if (past_spaces(text) == end) {
            continue;
        }
        if (!is_line(text, end, 2) && !is_line(text, end, 3)) {
            return failed(line, "neither a tile nor a site");
        }
        if (axes == 0) {
            axes = reads(text, end, "tile", 4, n) ? 2 : reads(text, end, "tile", 6, n) ? 3 : 0;
        }
        if (axes == 0) {
            return failed(line, "a site before the first tile");
        }
        if (reads(text, end, "tile", 2 * axes, n)) {
            if (tiles == NEARBY_MAX_TILES) {
                return failed(line, "more than 960 tiles");
            }
            int32_t *box = boxes + 2 * (size_t)axes * tiles++;
            for (int i = 0; i < 2 * axes; i++) {
                if (!fits(n[i])) {
                    return failed(line, "a number beyond 32 bits");
                }
                box[i] = (int32_t)n[i];
            }
            if (alone(tiles - 1, 0, 0) == NEARBY_BOX) {
                return failed(line, "tile %zu: a coordinate beyond 1,000,000, or a low end above its high end",
                              tiles - 1);
            }
        } else if ((sign = reads(text, end, "site", axes + 1, n)) != 0) {
            uint32_t most = axes == 2 ? NEARBY_MAX_SITES : NEARBY_MAX_SITES_3;
            if (counts[tiles - 1] == most) {
                return failed(line, "tile %zu: more than %u sites", tiles - 1, most);
            }
            if (sign < 0) {
                return failed(line, "a cue with a minus");
            }
            if (!fits(n[0]) || !fits(n[1]) || !fits(n[axes - 1]) || UINT32_MAX < n[axes]) {
                return failed(line, "a number beyond 32 bits");
            }
            x[sites] = (int32_t)n[0], y[sites] = (int32_t)n[1];
            z[sites] = (int32_t)n[axes - 1]; /* not used in a plan town */
            cues[sites] = (uint32_t)n[axes];
            if (alone(tiles - 1, sites, 1) == NEARBY_STRAY) {
                return failed(line, "tile %zu, slot %u: the site is outside the tile's box", tiles - 1,
                              counts[tiles - 1]);
            }
            counts[tiles - 1]++;
            sites++;
        } else {
            return failed(line, "not as many axes as the first tile, which has %d", axes);
        }
    }
    if (ferror(stdin)) {
        perror("town");
        return 1;
    }
    if (tiles == 0) {
        fprintf(stderr, "town: there is no tile\n");
        return 1;
    }
    struct nearby_written r = written(0, counts, tiles, 0, sites);
    if (r.number != NEARBY_OK) {
        fprintf(stderr, "town: refused %u\n", r.number);
        return 1;
    }
    if (fwrite(file, 1, r.length, stdout) != r.length || fflush(stdout) != 0) {
        perror("town");
        return 1;
    }
    return 0;
}
