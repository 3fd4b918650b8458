#define _GNU_SOURCE
/* turns [MILLISECONDS]: who waits behind a lock gets its turn. Eight callers run transactions of 1,000 reads, under each algorithm that
 * has one lock. Prints how many the least served caller did, the mean, and the longest wait for one; refuses a caller that did
 * less than a fifth of the mean. And two memories have a turn each: while one's is out, the other's is waited for too. */
#include "nekchhaul.h"
#include <pthread.h>
#include <stdatomic.h>
#include <stdio.h>
#include <stdlib.h>
#include <string.h>
#include <sys/resource.h>
#include <time.h>

enum { WORDS = 1000, CALLERS = 8 };
#ifndef ATOMICALLY
#define ATOMICALLY nekchhaul_atomically
#endif

struct reader {
    _Alignas(128) nekchhaul_caller caller;
    unsigned long done; /* transactions */
    double longest;     /* seconds for one */
};

static struct reader readers[CALLERS];
static atomic_int end;
static pthread_barrier_t together;

static double now(void)
{
    struct timespec t;
    clock_gettime(CLOCK_MONOTONIC, &t);
    return (double)t.tv_sec + (double)t.tv_nsec * 1e-9;
}

static uint32_t sum_up(nekchhaul_caller *caller, void *sum)
{
    for (size_t i = 0; i < WORDS; i++) {
        uint64_t v;
        uint32_t s = nekchhaul_read(caller, i, &v);
        if (s) return s;
        *(uint64_t *)sum += v;
    }
    return NEKCHHAUL_OK;
}

static void *read_on(void *argument)
{
    struct reader *r = argument;
    uint64_t sum = 0;
    pthread_barrier_wait(&together);
    for (double before = now(), after; !atomic_load(&end); before = after) {
        if (ATOMICALLY(&r->caller, sum_up, &sum)) abort();
        after = now();
        if (after - before > r->longest) r->longest = after - before;
        r->done++;
    }
    return NULL;
}

/* Whether each caller has had its turn. */
static int is_fair(uint32_t algorithm, const char *name, long milliseconds)
{
    const nekchhaul_sizes sizes = nekchhaul_sizes_of(WORDS);
    const struct timespec while_they_run = { milliseconds / 1000, milliseconds % 1000 * 1000000 };
    nekchhaul_caller callers[CALLERS];
    pthread_t threads[CALLERS];
    unsigned long all = 0, least = (unsigned long)-1;
    double longest = 0;
    memset(callers, 0, sizeof callers);
    if (nekchhaul_open(&sizes, algorithm, callers, CALLERS) || pthread_barrier_init(&together, NULL, CALLERS + 1)) abort();
    atomic_store(&end, 0);
    for (size_t i = 0; i < CALLERS; i++) {
        readers[i] = (struct reader){ nekchhaul_move(&callers[i]), 0, 0 };
        if (pthread_create(&threads[i], NULL, read_on, &readers[i])) abort();
    }
    pthread_barrier_wait(&together);
    nanosleep(&while_they_run, NULL);
    atomic_store(&end, 1);
    for (size_t i = 0; i < CALLERS; i++) {
        if (pthread_join(threads[i], NULL) || nekchhaul_release(&readers[i].caller)) abort();
        all += readers[i].done;
        if (readers[i].done < least) least = readers[i].done;
        if (readers[i].longest > longest) longest = readers[i].longest;
    }
    pthread_barrier_destroy(&together);
    printf("%s: least served %lu, mean %lu, longest wait %.3f s\n", name, least, all / CALLERS, longest);
    return 5 * least * CALLERS >= all;
}

/* Asks for a lock that another has, as a loop does, until the end: so it takes the turn. */
static void *ask_on(void *caller)
{
    nekchhaul_pause_of pause;
    while (!atomic_load(&end)) {
        if (nekchhaul_enter(caller, &pause) != NEKCHHAUL_PAUSE) abort();
        nekchhaul_pause(&pause);
    }
    return NULL;
}

/* The same with no pause, by two callers, neither of which waits so long that it takes the turn: while another has it the call sleeps.
 * Tells whether it ever did. */
static void *ask_by_two(void *callers)
{
    nekchhaul_pause_of pause;
    struct rusage before, after;
    const double until = now() + 5;
    getrusage(RUSAGE_THREAD, &before);
    do {
        for (int i = 0; i < 2; i++)
            if (nekchhaul_enter((nekchhaul_caller *)callers + i, &pause) != NEKCHHAUL_PAUSE) abort();
        getrusage(RUSAGE_THREAD, &after);
    } while (after.ru_nvcsw < before.ru_nvcsw + 10 && now() < until);
    return after.ru_nvcsw < before.ru_nvcsw + 10 ? NULL : callers;
}

/* Whether each of two memories, of which somebody has the lock by an attempt by hand, has a turn. */
static int have_turns(void)
{
    const nekchhaul_sizes sizes = nekchhaul_sizes_of(1);
    nekchhaul_caller callers[2][4];
    pthread_t asking[2], others[2];
    int have = 1;
    memset(callers, 0, sizeof callers);
    atomic_store(&end, 0);
    for (int m = 0; m < 2; m++) {
        if (nekchhaul_open(&sizes, NEKCHHAUL_CGL, callers[m], 4) || nekchhaul_begin(&callers[m][0])) abort();
        if (pthread_create(&asking[m], NULL, ask_on, &callers[m][1])) abort();
        nanosleep(&(struct timespec){ 0, 20000000 }, NULL);
    }
    for (int m = 0; m < 2; m++)
        if (pthread_create(&others[m], NULL, ask_by_two, &callers[m][2])) abort();
    for (int m = 0; m < 2; m++) {
        void *slept;
        if (pthread_join(others[m], &slept)) abort();
        if (!slept) have = 0, printf("memory %d has no turn\n", m);
    }
    atomic_store(&end, 1);
    for (int m = 0; m < 2; m++) {
        if (pthread_join(asking[m], NULL) || nekchhaul_commit(&callers[m][0])) abort();
        for (int i = 0; i < 4; i++)
            if (nekchhaul_release(&callers[m][i])) abort();
    }
    return have;
}

int main(int argc, char **argv)
{
    const long milliseconds = argc > 1 ? atol(argv[1]) : 1000;
    const int cgl = is_fair(NEKCHHAUL_CGL, "CGL", milliseconds), serial = is_fair(NEKCHHAUL_SERIAL, "Serial", milliseconds);
    return !have_turns() || !cgl || !serial;
}
