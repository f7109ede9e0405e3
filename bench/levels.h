/* The level in C, for comparison with the proved one. */
#ifndef LEVELS_H
#define LEVELS_H

#include "../include/nearby.h"

#ifdef __cplusplus
extern "C" {
#endif

/* As nearby_level, with all its tests. */
struct nearby_leveled c_level(uint32_t reach, uint64_t dist);

#ifdef __cplusplus
}
#endif

#endif
