/* A memory after one pthread mutex. With -DRELEASES_EARLY it is wrong: it lets go of the mutex between two operations. */
#include "driver.h"
#include <sched.h>

static pthread_mutex_t lock = PTHREAD_MUTEX_INITIALIZER;
static uint64_t commits;

static uint64_t load(uint32_t a) { return words[a]; }
static void store(uint32_t a, uint64_t v) { words[a] = v; }

static void run(transaction *t) {
    pthread_mutex_lock(&lock);
    for (size_t i = 0; i < t->count; i++) {
#ifdef RELEASES_EARLY
        pthread_mutex_unlock(&lock);
        sched_yield();
        pthread_mutex_lock(&lock);
#endif
        replies[t->first + i] = DO(&operations[t->first + i], load, store, &t->wrote);
    }
    /* the place, under the mutex: that of the commit, or up to which a reader has seen the memory */
    t->place = t->wrote ? ++commits : commits;
    pthread_mutex_unlock(&lock);
}
