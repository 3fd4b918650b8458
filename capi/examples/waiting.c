/* waiting [TIMES]: who waits sleeps, and is woken by the write that it waits for, by nekchhaul_wake, by a range that is given back, a
 * switch and a close. Two threads hand a value over TIMES times under each algorithm; a consumer with nothing to do takes less than a
 * hundredth of a processor. The sleep here has no end of its own: a ring that is lost hangs, until the alarm. */
#define _GNU_SOURCE
#define nekchhaul_sleep sleep_on
#include <nekchhaul.h>
#undef nekchhaul_sleep
#include <pthread.h>
#include <stdatomic.h>
#include <stdio.h>
#include <stdlib.h>
#include <string.h>
#include <sys/resource.h>
#include <time.h>
#include <unistd.h>

enum { WORDS = 64, FAR = 40 };
#define IS(call, status) do { uint32_t s_ = (call); if (s_ != (status)) { printf("%s:%d: %s is %u, not %u\n", __FILE__, __LINE__, #call, (unsigned)s_, (unsigned)(status)); exit(1); } } while (0)

static nekchhaul_caller callers[3];
static atomic_ulong sleeps;
static atomic_int end;

/* In place of the library's, and by it: until the word has changed, however long. */
void nekchhaul_sleep(const uint64_t *at, uint32_t seen);
void sleep_on(const uint64_t *at, uint32_t seen)
{
    atomic_fetch_add(&sleeps, 1);
    while ((uint32_t)__atomic_load_n(at, __ATOMIC_SEQ_CST) == seen) nekchhaul_sleep(at, seen);
}

static void open_under(uint32_t algorithm)
{
    nekchhaul_sizes sizes = nekchhaul_sizes_of(WORDS);
    IS(nekchhaul_open(&sizes, algorithm, callers, 3), 0);
    atomic_store(&sleeps, 0);
    atomic_store(&end, 0);
}

static void release(void)
{
    for (int i = 0; i < 3; i++) IS(nekchhaul_release(&callers[i]), 0);
}

static void nap(long milliseconds)
{
    nanosleep(&(struct timespec){ milliseconds / 1000, milliseconds % 1000 * 1000000 }, NULL);
}

/* Until somebody sleeps, and then some. */
static void until_asleep(unsigned long before)
{
    while (atomic_load(&sleeps) == before) nap(1);
    nap(5);
}

/* Takes what lies in word 0, once something does; stops where it is told to. */
static uint32_t take(nekchhaul_caller *caller, void *taken)
{
    uint64_t held;
    uint32_t s = nekchhaul_read(caller, 0, &held);
    if (s) return s;
    if (held == 0) return atomic_load(&end) ? (uint32_t)NEKCHHAUL_STOP : (uint32_t)NEKCHHAUL_RETRY;
    *(uint64_t *)taken = held;
    return nekchhaul_write(caller, 0, 0);
}

/* Puts a value there, once it is empty. */
static uint32_t put(nekchhaul_caller *caller, void *value)
{
    uint64_t held;
    uint32_t s = nekchhaul_read(caller, 0, &held);
    if (s) return s;
    return held ? (uint32_t)NEKCHHAUL_RETRY : nekchhaul_write(caller, 0, *(uint64_t *)value);
}

static uint32_t write_far(nekchhaul_caller *caller, void *value)
{
    return nekchhaul_write(caller, FAR, *(uint64_t *)value);
}

static unsigned long times;

static void *take_all(void *sum)
{
    for (unsigned long i = 0; i < times; i++) {
        uint64_t value = 0;
        IS(nekchhaul_atomically(&callers[1], take, &value), 0);
        if (value != i + 1) IS(1, 0);
        *(uint64_t *)sum += value;
    }
    return NULL;
}

static void hand_over(uint32_t algorithm)
{
    pthread_t other;
    uint64_t sum = 0;
    open_under(algorithm);
    if (pthread_create(&other, NULL, take_all, &sum)) abort();
    for (uint64_t value = 1; value <= times; value++) IS(nekchhaul_atomically(&callers[0], put, &value), 0);
    pthread_join(other, NULL);
    IS(sum != (uint64_t)times * (times + 1) / 2, 0);
    release();
}

/* What one take came to, and how long its thread was awake. */
struct taken {
    uint32_t status;
    uint64_t value;
    double awake;
};

static void *take_one(void *of)
{
    struct taken *taken = of;
    struct rusage used;
    taken->status = nekchhaul_atomically(&callers[1], take, &taken->value);
    getrusage(RUSAGE_THREAD, &used);
    taken->awake = (double)(used.ru_utime.tv_sec + used.ru_stime.tv_sec) + (double)(used.ru_utime.tv_usec + used.ru_stime.tv_usec) * 1e-6;
    return NULL;
}

/* The same by attempts of its own. */
static void *look_and_wait(void *of)
{
    struct taken *taken = of;
    for (;;) {
        IS(nekchhaul_begin(&callers[1]), 0);
        IS(nekchhaul_read(&callers[1], 0, &taken->value), 0);
        IS(nekchhaul_commit(&callers[1]), 0);
        if (taken->value) return NULL;
        IS(nekchhaul_wait(&callers[1]), 0);
    }
}

static struct taken beside(void *(*waits)(void *), void (*meanwhile)(void))
{
    struct taken taken = { 0, 0, 0 };
    pthread_t other;
    if (pthread_create(&other, NULL, waits, &taken)) abort();
    until_asleep(0);
    meanwhile();
    pthread_join(other, NULL);
    return taken;
}

static void do_nothing_then_put(void)
{
    uint64_t value = 7;
    nap(1000);
    IS(atomic_load(&sleeps), 1);
    IS(nekchhaul_atomically(&callers[0], put, &value), 0);
}

/* A write of another stripe wakes nobody where the reads are known. */
static void write_elsewhere_then_put(void)
{
    uint64_t value = 7;
    for (int i = 0; i < 100; i++) IS(nekchhaul_atomically(&callers[2], write_far, &value), 0);
    nap(5);
    IS(atomic_load(&sleeps), 1);
    IS(nekchhaul_atomically(&callers[0], put, &value), 0);
}

static void put_seven(void)
{
    uint64_t value = 7;
    IS(nekchhaul_atomically(&callers[0], put, &value), 0);
}

static void tell_it_to_end(void)
{
    atomic_store_explicit(&end, 1, memory_order_relaxed);
    IS(nekchhaul_wake(&callers[0]), 0);
}

static void put_by_a_range(void)
{
    IS(nekchhaul_take_range(&callers[0], 0, 8), 0);
    IS(nekchhaul_direct_write(&callers[0], 0, 7), 0);
    nap(5);
    IS(nekchhaul_return_range(&callers[0]), 0);
}

static void switch_then_put(void)
{
    unsigned long before = atomic_load(&sleeps);
    IS(nekchhaul_install(&callers[0], NEKCHHAUL_RING_SW), 0);
    until_asleep(before);
    put_seven();
}

static void close_it(void)
{
    uint64_t words[WORDS];
    IS(nekchhaul_end(&callers[0], words, WORDS), 0);
}

int main(int argc, char **argv)
{
    times = argc > 1 ? strtoul(argv[1], NULL, 10) : 10000;
    alarm(100);
    for (uint32_t algorithm = 0; algorithm < 6; algorithm++) {
        struct taken taken;
        hand_over(algorithm);

        open_under(algorithm);
        taken = beside(take_one, put_seven);
        IS(taken.status, 0);
        IS(taken.value != 7, 0);
        release();

        open_under(algorithm);
        taken = beside(look_and_wait, put_seven);
        IS(taken.value != 7, 0);
        release();

        open_under(algorithm);
        taken = beside(take_one, tell_it_to_end);
        IS(taken.status, NEKCHHAUL_STOP);
        release();

        open_under(algorithm);
        taken = beside(take_one, put_by_a_range);
        IS(taken.status, 0);
        IS(taken.value != 7, 0);
        release();

        open_under(algorithm);
        taken = beside(take_one, switch_then_put);
        IS(taken.status, 0);
        release();

        open_under(algorithm);
        taken = beside(take_one, close_it);
        IS(taken.status, NEKCHHAUL_FENCED);
        release();
    }
    for (uint32_t algorithm = NEKCHHAUL_OREC_LAZY; algorithm <= NEKCHHAUL_RING_SW; algorithm++) {
        open_under(algorithm);
        IS(beside(take_one, write_elsewhere_then_put).status, 0);
        release();
    }
    open_under(NEKCHHAUL_OREC_LAZY);
    struct taken taken = beside(take_one, do_nothing_then_put);
    IS(taken.status, 0);
    if (taken.awake > 0.01) {
        printf("in a second it was awake for %f s\n", taken.awake);
        return 1;
    }
    release();
    return 0;
}
