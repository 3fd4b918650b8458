/* An allocator on hooks: eight threads push cells of a common pool onto a list in the memory and pop them, in transactions that also
 * stop, are retried or make a misuse. A cell that an attempt took from the pool is free again where the attempt fails, and one that it
 * popped is where it commits. Ends with 0 where each cell is in the list or in the pool at the end, once, under each algorithm. */
#include "nekchhaul.h"
#include <pthread.h>
#include <stdio.h>
#include <stdlib.h>
#include <string.h>

enum { CELLS = 64, THREADS = 8, TIMES = 20000, MOST = 3, STOPS = NEKCHHAUL_STOP + 1 };
#define TRY(call) do { uint32_t s_ = (call); if (s_) return s_; } while (0)

/* The pool, which is no part of the memory. */
static struct {
    pthread_mutex_t lock;
    size_t free[CELLS], count;
} pool = { PTHREAD_MUTEX_INITIALIZER, { 0 }, 0 };

static size_t take_cell(void)
{
    pthread_mutex_lock(&pool.lock);
    const size_t cell = pool.count ? pool.free[--pool.count] : 0;
    pthread_mutex_unlock(&pool.lock);
    return cell;
}

static void free_cell(size_t cell)
{
    pthread_mutex_lock(&pool.lock);
    if (pool.count == CELLS) abort();
    pool.free[pool.count++] = cell;
    pthread_mutex_unlock(&pool.lock);
}

enum ending { DONE, STOP, RETRIED, MISUSE, ENDINGS };

/* A transaction of a thread: how it ends, what its run took from the pool and from the list, and how often its hooks ran. */
struct work {
    nekchhaul_caller caller;
    uint64_t seed;
    enum ending ending;
    int pops, retried;
    size_t taken[MOST], took, popped[MOST], pop;
    unsigned long runs, committed, aborted, wrong;
};

static void free_taken(void *argument)
{
    struct work *w = argument;
    for (size_t i = 0; i < w->took; i++) free_cell(w->taken[i]);
    w->aborted++;
}

static void free_popped(void *argument)
{
    struct work *w = argument;
    for (size_t i = 0; i < w->pop; i++) free_cell(w->popped[i]);
    w->committed++;
}

/* Word 0 is the list's first cell, and word n the one after cell n; 0 is none. */
static uint32_t change(nekchhaul_caller *c, void *argument)
{
    struct work *w = argument;
    uint64_t first, next;
    w->took = w->pop = 0;
    w->runs++;
    TRY(nekchhaul_read(c, 0, &first));
    for (size_t i = 0; i < MOST; i++) {
        if (w->pops) {
            if (!first) break;
            TRY(nekchhaul_read(c, first, &next));
            w->popped[w->pop++] = (size_t)first;
            first = next;
        } else {
            const size_t cell = take_cell();
            if (!cell) break;
            w->taken[w->took++] = cell;
            TRY(nekchhaul_write(c, cell, first));
            first = cell;
        }
    }
    TRY(nekchhaul_write(c, 0, first));
    switch (w->ending) {
    case STOP: return STOPS;
    case RETRIED: return w->retried++ ? NEKCHHAUL_OK : (uint32_t)NEKCHHAUL_RETRY;
    case MISUSE: return nekchhaul_write(c, CELLS + 1, 0);
    default: return NEKCHHAUL_OK;
    }
}

static void *work(void *argument)
{
    static const nekchhaul_hooks hooks = { free_popped, free_taken };
    static const uint32_t wants[ENDINGS] = { NEKCHHAUL_OK, STOPS, NEKCHHAUL_OK, NEKCHHAUL_ADDRESS };
    struct work *w = argument;
    for (int i = 0; i < TIMES; i++) {
        w->seed ^= w->seed << 13, w->seed ^= w->seed >> 7, w->seed ^= w->seed << 17;
        w->pops = w->seed >> 20 & 1;
        w->ending = (enum ending)((w->seed >> 30) % ENDINGS);
        w->retried = 0;
        if (nekchhaul_atomically_with(&w->caller, change, &hooks, w) != wants[w->ending]) w->wrong++;
    }
    return NULL;
}

/* Whether each cell is in the list or in the pool, once. */
static int is_whole(const uint64_t *words)
{
    int seen[CELLS + 1] = { 0 }, whole = 1;
    for (uint64_t cell = words[0]; cell && whole; cell = words[cell]) whole = !seen[cell]++;
    for (size_t i = 0; i < pool.count; i++) seen[pool.free[i]]++;
    for (size_t cell = 1; cell <= CELLS; cell++) whole &= seen[cell] == 1;
    return whole;
}

static int run(uint32_t algorithm)
{
    const nekchhaul_sizes sizes = nekchhaul_sizes_of(CELLS + 1);
    static struct work all[THREADS];
    nekchhaul_caller callers[THREADS];
    pthread_t threads[THREADS];
    uint64_t words[CELLS + 1];
    int right = 1;
    memset(callers, 0, sizeof callers);
    if (nekchhaul_open(&sizes, algorithm, callers, THREADS)) abort();
    for (pool.count = 0; pool.count < CELLS; pool.count++) pool.free[pool.count] = pool.count + 1;
    for (size_t i = 0; i < THREADS; i++) {
        memset(&all[i], 0, sizeof all[i]);
        all[i].caller = nekchhaul_move(&callers[i]);
        all[i].seed = 88172645463325252u + 977 * i;
        if (pthread_create(&threads[i], NULL, work, &all[i])) abort();
    }
    for (size_t i = 0; i < THREADS; i++) {
        if (pthread_join(threads[i], NULL)) abort();
        right &= all[i].wrong == 0 && all[i].committed + all[i].aborted == all[i].runs;
    }
    if (nekchhaul_end(&all[0].caller, words, CELLS + 1)) abort();
    for (size_t i = 0; i < THREADS; i++)
        if (nekchhaul_release(&all[i].caller)) abort();
    if (right && is_whole(words)) return 1;
    printf("algorithm %u went wrong\n", (unsigned)algorithm);
    return 0;
}

int main(void)
{
    int right = 1;
    for (uint32_t algorithm = 0; algorithm < 6; algorithm++) right &= run(algorithm);
    return !right;
}
