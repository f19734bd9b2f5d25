// osnma.h as C++: it compiles, and its names are C's, or this does not link.
#include "osnma.h"

int main()
{
    uint64_t value = 0;
    if (osnma_nma_status(0x97, &value) != OSNMA_OK || value != OSNMA_NMAS_OPERATIONAL) return 1;
    if (osnma_nma_status(256, &value) != OSNMA_REFUSED_RANGE) return 1;
    return 0;
}
