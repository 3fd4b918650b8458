/* stops [SHARE]: bodies that stop leave nothing: 8 threads make 400,000 transfers, of which one in eight stops after its first write, and as many
 * make a misuse there, are retried, nest a part that stops, or have an alternative, under each algorithm, and then while another
 * caller switches 60 times. The sum at the end is the capital. */
#include "nekchhaul.h"

#include <pthread.h>
#include <stdatomic.h>
#include <stdio.h>
#include <stdlib.h>
#include <string.h>

enum { ACCOUNTS = 64, BALANCE = 1000, THREADS = 8, TRANSFERS = 50000, SWITCHES = 60, STOPS = NEKCHHAUL_STOP + 1 };

enum ending { STOP, MISUSE, RETRIED, NESTED, EITHER, PLAIN, ENDINGS = 8 };

struct transfer {
    size_t from, to;
    enum ending ending;
    int retried;
    unsigned attempts;
};

struct trader {
    _Alignas(128) nekchhaul_caller caller;
    atomic_ulong done; /* transfers, for the caller that switches */
    uint64_t seed;
    unsigned long wrong;
    unsigned most;
};

static struct trader traders[THREADS];
static unsigned long transfers = TRANSFERS; /* for slow checkers a share of them */
static atomic_int switching; /* and the traders go on meanwhile */

static uint32_t add(nekchhaul_caller *caller, size_t account, uint64_t amount)
{
    uint64_t had;
    uint32_t s = nekchhaul_read(caller, account, &had);
    return s ? s : nekchhaul_write(caller, account, had + amount);
}

static uint32_t gain(nekchhaul_caller *caller, void *argument)
{
    return add(caller, ((struct transfer *)argument)->to, 1);
}

static uint32_t gain_and_stop(nekchhaul_caller *caller, void *argument)
{
    uint32_t s = gain(caller, argument);
    return s ? s : (uint32_t)STOPS;
}

static uint32_t gain_and_retry(nekchhaul_caller *caller, void *argument)
{
    uint32_t s = gain(caller, argument);
    return s ? s : (uint32_t)NEKCHHAUL_RETRY;
}

static uint32_t move(nekchhaul_caller *caller, void *argument)
{
    struct transfer *t = argument;
    t->attempts++;
    uint32_t s = add(caller, t->from, (uint64_t)-1);
    if (s) return s;
    switch (t->ending) {
    case STOP: return STOPS;
    case MISUSE: return nekchhaul_write(caller, ACCOUNTS, 1);
    case RETRIED: return t->retried++ ? gain(caller, t) : (uint32_t)NEKCHHAUL_RETRY;
    case NESTED: return (s = nekchhaul_nested(caller, gain_and_stop, t)) == STOPS ? gain(caller, t) : s;
    case EITHER: return nekchhaul_or_else(caller, gain_and_retry, gain, t);
    default: return gain(caller, t);
    }
}

static uint64_t draw(uint64_t *seed)
{
    *seed ^= *seed << 13;
    *seed ^= *seed >> 7;
    *seed ^= *seed << 17;
    return *seed;
}

static void *trade(void *argument)
{
    struct trader *t = argument;
    for (unsigned long i = 0; i < transfers || atomic_load(&switching); i++) {
        atomic_store_explicit(&t->done, i + 1, memory_order_relaxed);
        struct transfer m = { draw(&t->seed) % ACCOUNTS, draw(&t->seed) % ACCOUNTS, (enum ending)(i % ENDINGS), 0, 0 };
        const uint32_t want = m.ending == STOP ? (uint32_t)STOPS : m.ending == MISUSE ? (uint32_t)NEKCHHAUL_ADDRESS : 0;
        if (nekchhaul_atomically(&t->caller, move, &m) != want) t->wrong++;
        if (m.attempts > t->most) t->most = m.attempts;
    }
    return NULL;
}

static unsigned long done_by_all(void)
{
    unsigned long sum = 0;
    for (size_t i = 0; i < THREADS; i++) sum += atomic_load_explicit(&traders[i].done, memory_order_relaxed);
    return sum;
}

/* Switches each time that so many more transfers are done, so that each algorithm has its share of them. */
static void *install_all(void *caller)
{
    for (uint32_t i = 0; i < SWITCHES; i++) {
        uint32_t times = 32;
        if (nekchhaul_install(caller, i % 6)) abort();
        unsigned long until = done_by_all() + THREADS * transfers / SWITCHES;
        while (done_by_all() < until) nekchhaul_back_off(&times);
    }
    atomic_store(&switching, 0);
    return NULL;
}

static int run(uint32_t algorithm, int switches)
{
    nekchhaul_sizes sizes = { ACCOUNTS, 64, 64, 1, 1, 0 };
    nekchhaul_caller callers[THREADS + 1];
    pthread_t threads[THREADS], installer;
    uint64_t words[ACCOUNTS], sum = 0;
    unsigned long wrong = 0;
    unsigned most = 0;
    memset(callers, 0, sizeof callers);
    if (nekchhaul_open(&sizes, algorithm, callers, THREADS + 1)) abort();
    if (nekchhaul_take_range(&callers[THREADS], 0, ACCOUNTS)) abort();
    for (size_t i = 0; i < ACCOUNTS; i++)
        if (nekchhaul_direct_write(&callers[THREADS], i, BALANCE)) abort();
    if (nekchhaul_return_range(&callers[THREADS])) abort();
    atomic_store(&switching, switches);
    for (size_t i = 0; i < THREADS; i++) {
        traders[i] = (struct trader){ nekchhaul_move(&callers[i]), 0, 88172645463325252u + 977 * i, 0, 0 };
        if (pthread_create(&threads[i], NULL, trade, &traders[i])) abort();
    }
    if (switches && pthread_create(&installer, NULL, install_all, &callers[THREADS])) abort();
    for (size_t i = 0; i < THREADS; i++)
        if (pthread_join(threads[i], NULL)) abort();
    if (switches && pthread_join(installer, NULL)) abort();
    if (nekchhaul_end(&callers[THREADS], words, ACCOUNTS)) abort();
    for (size_t i = 0; i < ACCOUNTS; i++) sum += words[i];
    for (size_t i = 0; i < THREADS; i++) {
        wrong += traders[i].wrong;
        if (traders[i].most > most) most = traders[i].most;
        if (nekchhaul_release(&traders[i].caller)) abort();
    }
    if (nekchhaul_release(&callers[THREADS])) abort();
    printf("algorithm %u%s: sum %llu, wrong answers %lu, most attempts at one transfer %u\n", (unsigned)algorithm, switches ? ", switching" : "",
           (unsigned long long)sum, wrong, most);
    return wrong || sum != (uint64_t)ACCOUNTS * BALANCE;
}

int main(int argc, char **argv)
{
    int wrong = 0;
    if (argc > 1) transfers /= strtoul(argv[1], NULL, 10);
    for (uint32_t algorithm = 0; algorithm < 6; algorithm++) wrong |= run(algorithm, 0);
    return wrong | run(NEKCHHAUL_OREC_LAZY, 1);
}
