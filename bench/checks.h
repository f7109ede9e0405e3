/* The block check and the margin in C, for comparison with the proved ones. */
#ifndef CHECKS_H
#define CHECKS_H

#include <stddef.h>
#include <stdint.h>

#ifdef __cplusplus
extern "C" {
#endif

/* As nearby_block_check: 0, or 1 (not 512 bytes), 2 (first byte), 3 (check). The sums are taken as the paper says them,
 * with a remainder for each byte. */
uint32_t c_block_check(const uint8_t *block, size_t block_len);

/* The same answers by 16-bit sums, reduced as rarely as possible: after 21 bytes. */
uint32_t c_block_check_16(const uint8_t *block, size_t block_len);

/* By 32-bit sums, with a weight for each byte, reduced once at the end. */
uint32_t c_block_check_late(const uint8_t *block, size_t block_len);

/* By 16-bit sums in eight lanes, as the engine does it, reduced after 21 bytes of each: the quickest of these. */
uint32_t c_block_check_lanes(const uint8_t *block, size_t block_len);

/* As nearby_margin and nearby_margin3. */
int64_t c_margin(int32_t ox0, int32_t ox1, int32_t oy0, int32_t oy1,
                 int32_t ex0, int32_t ex1, int32_t ey0, int32_t ey1,
                 int32_t bx0, int32_t bx1, int32_t by0, int32_t by1);
int64_t c_margin3(int32_t ox0, int32_t ox1, int32_t oy0, int32_t oy1, int32_t oz0, int32_t oz1,
                  int32_t ex0, int32_t ex1, int32_t ey0, int32_t ey1, int32_t ez0, int32_t ez1,
                  int32_t bx0, int32_t bx1, int32_t by0, int32_t by1, int32_t bz0, int32_t bz1);

#ifdef __cplusplus
}
#endif

#endif
