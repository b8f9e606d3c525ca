/* Has a program that is run with this library in LD_PRELOAD use clock2q for its pages. */
#include "pcache_clock2q.h"

__attribute__((constructor)) static void start(void) {
    (void)clock2q_sqlite();
}
