#define _POSIX_C_SOURCE 200809L
/* cost WORKLOAD ALGORITHM THREADS COUNT: what a transaction costs through the C interface; prints nanoseconds a
 * transaction. WORKLOAD: count (one word and 1), bank (1,024 accounts, one sum of all in 256, as stm_perf's), reads (64
 * reads and nothing written), empty. ALGORITHM may be `mutex`: the same by one pthread mutex and no memory. */
#include "nekchhaul.h"
#include <pthread.h>
#include <stdio.h>
#include <stdlib.h>
#include <string.h>
#include <time.h>

enum { ACCOUNTS = 1024, BALANCE = 1000, MOST = 32 };
#define TRY(call) do { uint32_t s_ = (call); if (s_) return s_; } while (0)

struct job { size_t from, to; uint64_t amount, found; };

static uint32_t do_count(nekchhaul_caller *c, void *argument)
{
    uint64_t v;
    (void)argument;
    TRY(nekchhaul_read(c, 0, &v));
    return nekchhaul_write(c, 0, v + 1);
}

static uint32_t do_reads(nekchhaul_caller *c, void *argument)
{
    struct job *j = argument;
    uint64_t v, sum = 0;
    for (size_t i = 0; i < 64; i++) {
        TRY(nekchhaul_read(c, i, &v));
        sum += v;
    }
    j->found = sum;
    return NEKCHHAUL_OK;
}

static uint32_t do_nothing(nekchhaul_caller *c, void *argument)
{
    (void)c, (void)argument;
    return NEKCHHAUL_OK;
}

static uint32_t do_move(nekchhaul_caller *c, void *argument)
{
    struct job *m = argument;
    uint64_t payer, payee;
    TRY(nekchhaul_read(c, m->from, &payer));
    TRY(nekchhaul_read(c, m->to, &payee));
    if (payer < m->amount) return NEKCHHAUL_OK;
    TRY(nekchhaul_write(c, m->from, payer - m->amount));
    return nekchhaul_write(c, m->to, payee + m->amount);
}

static uint32_t do_sum(nekchhaul_caller *c, void *argument)
{
    struct job *j = argument;
    uint64_t v, sum = 0;
    for (size_t i = 0; i < ACCOUNTS; i++) {
        TRY(nekchhaul_read(c, i, &v));
        sum += v;
    }
    j->found = sum;
    return NEKCHHAUL_OK;
}

/* Eight accounts a transaction, so that no write log has to be long. */
static uint32_t do_fill(nekchhaul_caller *c, void *argument)
{
    size_t *at = argument;
    for (size_t i = *at; i < *at + 8; i++) TRY(nekchhaul_write(c, i, BALANCE));
    return NEKCHHAUL_OK;
}

/* The same by a mutex. */
static pthread_mutex_t lock = PTHREAD_MUTEX_INITIALIZER;
static uint64_t plain[ACCOUNTS];

static void locked(int kind, struct job *j)
{
    pthread_mutex_lock(&lock);
    uint64_t sum = 0;
    switch (kind) {
    case 0: plain[0]++; break;
    case 1:
        if (plain[j->from] >= j->amount) {
            plain[j->from] -= j->amount;
            plain[j->to] += j->amount;
        }
        break;
    case 2:
        for (int i = 0; i < 64; i++) sum += *(volatile uint64_t *)&plain[i];
        j->found = sum;
        break;
    case 4:
        for (int i = 0; i < ACCOUNTS; i++) sum += plain[i];
        j->found = sum;
        break;
    default: break;
    }
    pthread_mutex_unlock(&lock);
}

struct worker { nekchhaul_caller caller; uint64_t draws; long count; int kind, by_mutex; double ns; char apart[64]; };

static uint32_t one(struct worker *w, struct job *j)
{
    static const nekchhaul_body bodies[] = { do_count, do_move, do_reads, do_nothing, do_sum };
    int kind = w->kind;
    if (kind == 1) {
        uint64_t x = w->draws;
        x ^= x << 13;
        x ^= x >> 7;
        x ^= x << 17;
        w->draws = x;
        if ((x & 255) == 0) kind = 4;
        j->from = (x >> 8) % ACCOUNTS;
        j->to = (j->from + 1 + (x >> 20) % (ACCOUNTS - 1)) % ACCOUNTS;
        j->amount = (x >> 40) % 100;
    }
    uint32_t s = NEKCHHAUL_OK;
    if (w->by_mutex) locked(kind, j);
    else s = nekchhaul_atomically(&w->caller, bodies[kind], j);
    return kind == 4 && j->found != (uint64_t)ACCOUNTS * BALANCE ? 1 : s;
}

static double now(void)
{
    struct timespec t;
    clock_gettime(CLOCK_MONOTONIC, &t);
    return (double)t.tv_sec * 1e9 + (double)t.tv_nsec;
}

static pthread_barrier_t together;

static void *work(void *argument)
{
    struct worker *w = argument;
    struct job j = { 0, 0, 0, 0 };
    pthread_barrier_wait(&together);
    double from = now();
    for (long i = 0; i < w->count; i++)
        if (one(w, &j)) abort();
    w->ns = now() - from;
    return NULL;
}

static int named(const char *const *names, int n, const char *name)
{
    for (int i = 0; i < n; i++)
        if (!strcmp(names[i], name)) return i;
    return -1;
}

int main(int argc, char **argv)
{
    static const char *const algorithms[] = { "CGL", "TML", "OrecLazy", "OrecEager", "RingSW", "Serial", "mutex" };
    static const char *const kinds[] = { "count", "bank", "reads", "empty" };
    static struct worker workers[MOST];
    static pthread_t threads[MOST];
    static nekchhaul_caller callers[MOST];
    nekchhaul_sizes sizes = { 1040, 1024, 64, 2048, 16, 0 };
    if (argc != 5) return 2;
    int kind = named(kinds, 4, argv[1]), algorithm = named(algorithms, 7, argv[2]), n = atoi(argv[3]);
    long count = atol(argv[4]);
    if (kind < 0 || algorithm < 0 || n < 1 || n > MOST || count < n) return 2;
    if (nekchhaul_open(&sizes, (uint32_t)algorithm % 6, callers, (size_t)n)) return 3;
    for (size_t at = 0; kind == 1 && at < ACCOUNTS; at += 8)
        if (nekchhaul_atomically(&callers[0], do_fill, &at)) return 4;
    for (int i = 0; i < ACCOUNTS; i++) plain[i] = BALANCE;
    pthread_barrier_init(&together, NULL, (unsigned)n);
    for (int i = 0; i < n; i++) {
        workers[i].caller = nekchhaul_move(&callers[i]);
        workers[i].draws = 88172645463325252u + (uint64_t)i;
        workers[i].count = count / n;
        workers[i].kind = kind;
        workers[i].by_mutex = algorithm == 6;
        if (pthread_create(&threads[i], NULL, work, &workers[i])) return 5;
    }
    double most = 0;
    for (int i = 0; i < n; i++) {
        pthread_join(threads[i], NULL);
        if (workers[i].ns > most) most = workers[i].ns;
    }
    printf("%.1f\n", most / (double)(count / n * n));
    for (int i = 0; i < n; i++)
        if (nekchhaul_release(&workers[i].caller)) return 6;
    return 0;
}
