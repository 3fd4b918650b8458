/* The transactions of GCC (-fgnu-tm), by the method that ITM_DEFAULT_METHOD names. They tell no time of their commit, so a
 * word in each transaction counts the commits: all writers meet in it, which hides write skew. */
#include "driver.h"

static uint64_t commits;

__attribute__((transaction_safe)) static uint64_t load(uint32_t a) { return words[a]; }
__attribute__((transaction_safe)) static void store(uint32_t a, uint64_t v) { words[a] = v; }

static void run(transaction *t) {
    const operation *script = operations + t->first;
    uint64_t *said = replies + t->first;
    __transaction_atomic {
        int wrote = 0;
        for (size_t i = 0; i < t->count; i++) said[i] = DO(&script[i], load, store, &wrote);
        t->wrote = wrote;
        t->place = wrote ? ++commits : commits;
    }
}
