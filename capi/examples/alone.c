/* Calls that must be alone come through while others are always in attempts: switches, ranges and closes, beside 2 callers in
 * transactions of 1,000 reads and beside 4 in transactions of 100, under each algorithm. Such a call waits for the attempts
 * that ran as it closed the gate, and for no others, so of the attempts that end between its first answer BUSY and its last
 * look there is at most one for each caller. Writes how many looks and how many attempts a call took; refuses a call that saw
 * more attempts end, and a look that goes back to a caller that was seen idle. */
#include "nekchhaul.h"

#include <pthread.h>
#include <stdatomic.h>
#include <stdio.h>
#include <stdlib.h>
#include <string.h>

enum { WORDS = 1024, TIMES = 100, CLOSES = 10, MOST = 5 };
static const char *const names[] = { "CGL", "TML", "OrecLazy", "OrecEager", "RingSW", "Serial" };

/* On two cache lines of its own: the counters are its thread's, and the caller that closes the gate reads them. */
struct reader {
    _Alignas(128) nekchhaul_caller caller;
    size_t reads;
    atomic_int *end;
    atomic_ulong begun, ended; /* attempts */
};

/* What calls of one kind took. */
struct cost {
    unsigned long looks, attempts;
};

static void count(atomic_ulong *counter)
{
    atomic_store_explicit(counter, atomic_load_explicit(counter, memory_order_relaxed) + 1, memory_order_relaxed);
}

/* One attempt, by hand, so that its begin and its end can be told. */
static void read_once(struct reader *r, uint32_t *times)
{
    uint64_t v;
    uint32_t s = nekchhaul_begin(&r->caller);
    if (s) {
        nekchhaul_back_off(times);
        return;
    }
    count(&r->begun);
    for (size_t i = 0; !s && i < r->reads; i++) s = nekchhaul_read(&r->caller, i, &v);
    if (!s) s = nekchhaul_write(&r->caller, WORDS - 1, 1);
    while (!s && (s = nekchhaul_commit(&r->caller)) == NEKCHHAUL_AGAIN) s = NEKCHHAUL_OK, nekchhaul_back_off(times);
    if (s == NEKCHHAUL_FENCED) (void)nekchhaul_abandon(&r->caller); /* the memory has ended */
    else if (s > NEKCHHAUL_CONFLICT) abort();
    count(&r->ended);
}

static void *read_on(void *argument)
{
    struct reader *r = argument;
    uint32_t times = 32;
    while (!atomic_load(r->end)) read_once(r, &times);
    return NULL;
}

static unsigned long begun_of(struct reader *all, size_t readers)
{
    unsigned long sum = 0;
    for (size_t i = 0; i < readers; i++) sum += atomic_load_explicit(&all[i].begun, memory_order_relaxed);
    return sum;
}

static unsigned long ended_of(struct reader *all, size_t readers)
{
    unsigned long sum = 0;
    for (size_t i = 0; i < readers; i++) sum += atomic_load_explicit(&all[i].ended, memory_order_relaxed);
    return sum;
}

/* Waits until a reader has begun once more, so that the call comes beside attempts. */
static void let_begin(struct reader *all, size_t readers)
{
    unsigned long before = begun_of(all, readers);
    uint32_t times = 32;
    while (begun_of(all, readers) == before) nekchhaul_back_off(&times);
}

enum call { SWITCH, FENCE, GIVE_BACK, CLOSE };

static uint32_t make(nekchhaul_caller *me, enum call call, uint32_t algorithm)
{
    static uint64_t words[WORDS];
    switch (call) {
    case SWITCH: return nekchhaul_switch(me, algorithm);
    case FENCE: return nekchhaul_fence(me, WORDS - 2, 1);
    case GIVE_BACK: return nekchhaul_give_back(me);
    default: return nekchhaul_close(me, words, WORDS);
    }
}

/* Goes on until the call is done. While it answers BUSY the gate is closed, and each caller in the way comes no earlier than
 * the last one. */
static void until_done(nekchhaul_caller *me, struct reader *all, size_t readers, enum call call, uint32_t algorithm, struct cost *cost)
{
    uint32_t times = 32;
    unsigned long closed = 0, looked = 0;
    uint64_t last = 0;
    uint32_t s;
    let_begin(all, readers);
    for (int busy = 0; cost->looks++, (s = make(me, call, algorithm)) == NEKCHHAUL_BUSY; busy = 1) {
        nekchhaul_cause why;
        looked = ended_of(all, readers);
        if (!busy) closed = looked;
        if (nekchhaul_why(me, &why) || why.first < last) abort();
        last = why.first;
        nekchhaul_back_off(&times);
        looked = ended_of(all, readers);
    }
    if (s || looked - closed > readers) abort();
    cost->attempts += looked - closed;
}

static void open_all(uint32_t algorithm, size_t readers, size_t reads, nekchhaul_caller *me, struct reader *all, pthread_t *threads, atomic_int *end)
{
    nekchhaul_sizes sizes = { WORDS, 64, 64, 2048, 16, 0 };
    nekchhaul_caller callers[MOST];
    memset(callers, 0, sizeof callers);
    if (nekchhaul_open(&sizes, algorithm, callers, readers + 1)) abort();
    *me = nekchhaul_move(&callers[0]);
    for (size_t i = 0; i < readers; i++) {
        all[i].caller = nekchhaul_move(&callers[i + 1]);
        all[i].reads = reads;
        all[i].end = end;
        atomic_store(&all[i].begun, 0);
        atomic_store(&all[i].ended, 0);
        if (pthread_create(&threads[i], NULL, read_on, &all[i])) abort();
    }
}

static void let_all_go(size_t readers, nekchhaul_caller *me, struct reader *all, pthread_t *threads, atomic_int *end)
{
    atomic_store(end, 1);
    for (size_t i = 0; i < readers; i++) {
        if (pthread_join(threads[i], NULL) || nekchhaul_release(&all[i].caller)) abort();
    }
    if (nekchhaul_release(me)) abort();
}

static void beside(uint32_t algorithm, size_t readers, size_t reads)
{
    struct reader all[MOST];
    pthread_t threads[MOST];
    nekchhaul_caller mine, *me = &mine;
    atomic_int end = 0;
    struct cost switches = { 0, 0 }, ranges = { 0, 0 }, closes = { 0, 0 };
    open_all(algorithm, readers, reads, me, all, threads, &end);
    for (int i = 0; i < TIMES; i++) until_done(me, all, readers, SWITCH, algorithm, &switches);
    for (int i = 0; i < TIMES; i++) {
        until_done(me, all, readers, FENCE, algorithm, &ranges);
        if (nekchhaul_direct_write(me, WORDS - 2, (uint64_t)i)) abort();
        until_done(me, all, readers, GIVE_BACK, algorithm, &ranges);
    }
    let_all_go(readers, me, all, threads, &end);
    for (int i = 0; i < CLOSES; i++) {
        atomic_store(&end, 0);
        open_all(algorithm, readers, reads, me, all, threads, &end);
        until_done(me, all, readers, CLOSE, algorithm, &closes);
        let_all_go(readers, me, all, threads, &end);
    }
    printf("%s, %zu callers of %zu reads: looks and attempts a switch %.1f %.1f, a range's call %.1f %.1f, a close %.1f %.1f\n", names[algorithm], readers,
           reads, (double)switches.looks / TIMES, (double)switches.attempts / TIMES, (double)ranges.looks / (2 * TIMES),
           (double)ranges.attempts / (2 * TIMES), (double)closes.looks / CLOSES, (double)closes.attempts / CLOSES);
}

int main(void)
{
    for (uint32_t algorithm = 0; algorithm < 6; algorithm++) {
        beside(algorithm, 2, 1000);
        beside(algorithm, 4, 100);
    }
    return 0;
}
