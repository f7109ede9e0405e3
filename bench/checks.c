/* Written from the paper ("Three boxes", "Blocks") as a C programmer would; the check by lanes goes as the engine's. */
#include "checks.h"

#include <string.h>

uint32_t c_block_check(const uint8_t *block, size_t block_len)
{
    if (block_len != 512)
        return 1;
    if (block[0] != 0xD6)
        return 2;
    uint64_t a = 0, c = 0;
    for (int i = 1; i < 510; i++) {
        a = (a + block[i]) % 255;
        c = (c + a) % 255;
    }
    return block[510] == a && block[511] == c ? 0 : 3;
}

uint32_t c_block_check_16(const uint8_t *block, size_t block_len)
{
    if (block_len != 512)
        return 1;
    if (block[0] != 0xD6)
        return 2;
    uint16_t a = 0, c = 0;
    const uint8_t *p = block + 1;
    for (int turn = 0; turn < 24; turn++) {
        for (int i = 0; i < 21; i++) {
            a += *p++;
            c += a;
        }
        a %= 255;
        c %= 255;
    }
    for (int i = 0; i < 5; i++) {
        a += *p++;
        c += a;
    }
    return block[510] == a % 255 && block[511] == c % 255 ? 0 : 3;
}

uint32_t c_block_check_late(const uint8_t *block, size_t block_len)
{
    if (block_len != 512)
        return 1;
    if (block[0] != 0xD6)
        return 2;
    uint32_t a = 0, c = 0;
    for (uint32_t i = 1; i < 510; i++) {
        a += block[i];
        c += (510 - i) * block[i];
    }
    return block[510] == a % 255 && block[511] == c % 255 ? 0 : 3;
}

/* Eight numbers in one register: gcc's own vectors. */
typedef uint16_t Lanes __attribute__((vector_size(16)));
typedef uint8_t Row __attribute__((vector_size(8)));

static Lanes row_at(const uint8_t *p)
{
    Row row;
    memcpy(&row, p, sizeof row);
    return __builtin_convertvector(row, Lanes);
}

uint32_t c_block_check_lanes(const uint8_t *block, size_t block_len)
{
    if (block_len != 512)
        return 1;
    if (block[0] != 0xD6)
        return 2;
    Lanes x = {0}, y = {0};
    size_t i = 1;
    while (i < 505) {
        for (size_t end = i + 21 * 8; i < end; i += 8) {
            x += row_at(block + i);
            y += x;
        }
        x %= 255;
        y %= 255;
    }
    uint16_t a = 0, c = 0;
    for (int j = 0; j < 8; j++) {
        a += x[j];
        c += 8 * (y[j] + 255 - x[j]) + a;
    }
    for (; i < 510; i++) {
        a += block[i];
        c += a;
    }
    return block[510] == a % 255 && block[511] == c % 255 ? 0 : 3;
}

static int valid(int64_t low, int64_t high)
{
    return -1000000 <= low && low <= high && high <= 1000000;
}

static int64_t square(int64_t a)
{
    return a * a;
}

static int64_t larger(int64_t a, int64_t b)
{
    return a > b ? a : b;
}

static int64_t far_square(int64_t o, int64_t low, int64_t high)
{
    return larger(square(o - low), square(high - o));
}

static int64_t near_square(int64_t o, int64_t low, int64_t high)
{
    return o < low ? square(low - o) : o > high ? square(o - high) : 0;
}

static int64_t axis_margin(int64_t o0, int64_t o1, int64_t e0, int64_t e1, int64_t b0, int64_t b1)
{
    return larger(far_square(o0, e0, e1) - near_square(o0, b0, b1), far_square(o1, e0, e1) - near_square(o1, b0, b1));
}

int64_t c_margin(int32_t ox0, int32_t ox1, int32_t oy0, int32_t oy1,
                 int32_t ex0, int32_t ex1, int32_t ey0, int32_t ey1,
                 int32_t bx0, int32_t bx1, int32_t by0, int32_t by1)
{
    if (!(valid(ox0, ox1) && valid(oy0, oy1) && valid(ex0, ex1) && valid(ey0, ey1) &&
          valid(bx0, bx1) && valid(by0, by1)))
        return INT64_C(9000000000000000000);
    return axis_margin(ox0, ox1, ex0, ex1, bx0, bx1) + axis_margin(oy0, oy1, ey0, ey1, by0, by1);
}

int64_t c_margin3(int32_t ox0, int32_t ox1, int32_t oy0, int32_t oy1, int32_t oz0, int32_t oz1,
                  int32_t ex0, int32_t ex1, int32_t ey0, int32_t ey1, int32_t ez0, int32_t ez1,
                  int32_t bx0, int32_t bx1, int32_t by0, int32_t by1, int32_t bz0, int32_t bz1)
{
    if (!(valid(ox0, ox1) && valid(oy0, oy1) && valid(oz0, oz1) && valid(ex0, ex1) && valid(ey0, ey1) &&
          valid(ez0, ez1) && valid(bx0, bx1) && valid(by0, by1) && valid(bz0, bz1)))
        return INT64_C(9000000000000000000);
    return axis_margin(ox0, ox1, ex0, ex1, bx0, bx1) + axis_margin(oy0, oy1, ey0, ey1, by0, by1) +
           axis_margin(oz0, oz1, ez0, ez1, bz0, bz1);
}
