/* Written from document 02 ("Levels for the mixer") as a C programmer would; in a file of its own, so that it is called
 * as the proved one is. */
#include "levels.h"

struct nearby_leveled c_level(uint32_t reach, uint64_t dist)
{
    struct nearby_leveled out = {0, 0, 0.0};
    if (reach < 1 || reach > 1000000) {
        out.number = 18;
        return out;
    }
    uint64_t square = (uint64_t)reach * reach;
    if (dist > 100 * square)
        out.silent = 1;
    else
        out.level = (double)square / (double)(square + dist);
    return out;
}
