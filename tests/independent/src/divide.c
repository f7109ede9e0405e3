/* C's own quotient of s by s + d, for comparison with the library's levels. */
#include <stdint.h>

double c_quotient(uint64_t s, uint64_t d) {
    return (double)s / ((double)s + (double)d);
}
