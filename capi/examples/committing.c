#define _POSIX_C_SOURCE 200809L
/* Where another commit was faster: four threads count in one word, by attempts made by hand, until each has met AGAIN some times
 * or a second has gone by. After AGAIN only commit and cancel go on; by turns the attempt is cancelled, and leaves nothing.
 * Prints how often it came. */
#include "nekchhaul.h"
#include <pthread.h>
#include <stdio.h>
#include <stdlib.h>
#include <string.h>
#include <time.h>

enum { THREADS = 4, WANTED = 20, AT_LEAST = 2000, AT_MOST = 2000000 };
#define MUST(holds) do { if (!(holds)) { fprintf(stderr, "line %d, algorithm %u: %s\n", __LINE__, (unsigned)algorithm, #holds); abort(); } } while (0)

static uint32_t algorithm;

struct counter {
    _Alignas(128) nekchhaul_caller caller;
    uint64_t counted;
    unsigned long again;
};

static double now(void)
{
    struct timespec t;
    clock_gettime(CLOCK_MONOTONIC, &t);
    return (double)t.tv_sec + (double)t.tv_nsec * 1e-9;
}

/* What each call answers in the middle of a commit. */
static void in_the_middle(nekchhaul_caller *c)
{
    nekchhaul_state_of state;
    nekchhaul_cause why;
    uint64_t v = 77, words[1] = { 77 };
    size_t depth = 77, address = 0, taken = 77;
    MUST(nekchhaul_why(c, &why) == 0 && why.status == NEKCHHAUL_AGAIN && why.first <= 1 && why.second != why.third);
    MUST(nekchhaul_state(c, &state) == 0 && state.stand == 2 && state.algorithm == algorithm && state.range == 0);
    MUST(nekchhaul_read(c, 0, &v) == NEKCHHAUL_COMMITTING);
    MUST(nekchhaul_read_many(c, &address, 1, &v, 1) == NEKCHHAUL_COMMITTING);
    MUST(nekchhaul_write(c, 0, 5) == NEKCHHAUL_COMMITTING);
    MUST(nekchhaul_write_many(c, &address, 1, &v, 1, &taken) == NEKCHHAUL_COMMITTING && taken == 0);
    MUST(nekchhaul_checkpoint(c, &depth) == NEKCHHAUL_COMMITTING);
    MUST(nekchhaul_roll_to(c, 1) == NEKCHHAUL_COMMITTING);
    MUST(nekchhaul_drop_marks(c, 1) == NEKCHHAUL_COMMITTING);
    MUST(nekchhaul_become_irrevocable(c) == NEKCHHAUL_COMMITTING);
    MUST(nekchhaul_begin(c) == NEKCHHAUL_IN_ATTEMPT);
    MUST(nekchhaul_switch(c, NEKCHHAUL_TML) == NEKCHHAUL_IN_ATTEMPT);
    MUST(nekchhaul_close(c, words, 1) == NEKCHHAUL_IN_ATTEMPT);
    MUST(nekchhaul_reopen(c) == NEKCHHAUL_IN_ATTEMPT);
    MUST(nekchhaul_release(c) == NEKCHHAUL_IN_ATTEMPT);
    MUST(v == 77 && depth == 77 && words[0] == 77);
}

/* One attempt, which counts where it commits. */
static void count_once(struct counter *m, uint32_t *times)
{
    uint64_t v;
    uint32_t s = nekchhaul_begin(&m->caller);
    MUST(s == 0);
    if (!(s = nekchhaul_read(&m->caller, 0, &v))) s = nekchhaul_write(&m->caller, 0, v + 1);
    if (!s) s = nekchhaul_commit(&m->caller);
    while (s == NEKCHHAUL_AGAIN) {
        in_the_middle(&m->caller);
        if (++m->again % 2) {
            s = nekchhaul_cancel(&m->caller);
            MUST(s == 0);
            return;
        }
        nekchhaul_back_off(times);
        s = nekchhaul_commit(&m->caller);
    }
    MUST(s == 0 || s == NEKCHHAUL_CONFLICT);
    m->counted += s == 0;
}

static void *work(void *argument)
{
    struct counter *m = argument;
    uint32_t times = 32;
    const double end = now() + 1;
    for (long i = 0; i < AT_LEAST || (i < AT_MOST && m->again < WANTED && now() < end); i++) count_once(m, &times);
    return NULL;
}

int main(void)
{
    static struct counter all[THREADS];
    for (algorithm = NEKCHHAUL_OREC_LAZY; algorithm <= NEKCHHAUL_RING_SW; algorithm++) {
        const nekchhaul_sizes sizes = { 1, 1, 64, 8, 8, 0 };
        nekchhaul_caller callers[THREADS];
        pthread_t threads[THREADS];
        uint64_t words[1], counted = 0;
        unsigned long again = 0;
        memset(callers, 0, sizeof callers);
        MUST(nekchhaul_open(&sizes, algorithm, callers, THREADS) == 0);
        for (int i = 0; i < THREADS; i++) {
            all[i] = (struct counter){ nekchhaul_move(&callers[i]), 0, 0 };
            MUST(pthread_create(&threads[i], NULL, work, &all[i]) == 0);
        }
        for (int i = 0; i < THREADS; i++) {
            MUST(pthread_join(threads[i], NULL) == 0);
            counted += all[i].counted;
            again += all[i].again;
        }
        MUST(nekchhaul_end(&all[0].caller, words, 1) == 0 && words[0] == counted);
        for (int i = 0; i < THREADS; i++) MUST(nekchhaul_release(&all[i].caller) == 0);
        printf("algorithm %u: %llu commits, AGAIN %lu times\n", (unsigned)algorithm, (unsigned long long)counted, again);
    }
    return 0;
}
