/* What `capi/instructions` counts: a number of transactions of each kind, under each algorithm, by one thread. Writes a line
 * for each call of `measure`, in their order, after one that says whether the library is proved. */
#include "nekchhaul.h"
#include <stdio.h>
#include <stdlib.h>

enum { WORDS = 64, TIMES = 256 };
#define TRY(call) do { uint32_t s_ = (call); if (s_) return s_; } while (0)

static uint32_t do_nothing(nekchhaul_caller *c, void *argument)
{
    (void)c, (void)argument;
    return NEKCHHAUL_OK;
}

static uint32_t do_count(nekchhaul_caller *c, void *argument)
{
    uint64_t v;
    (void)argument;
    TRY(nekchhaul_read(c, 0, &v));
    return nekchhaul_write(c, 0, v + 1);
}

static uint32_t do_reads(nekchhaul_caller *c, void *argument)
{
    uint64_t v, *sum = argument;
    for (size_t i = 0; i < WORDS; i++) {
        TRY(nekchhaul_read(c, i, &v));
        *sum += v;
    }
    return NEKCHHAUL_OK;
}

static uint32_t do_read_many(nekchhaul_caller *c, void *argument)
{
    static size_t all[WORDS];
    static uint64_t values[WORDS];
    (void)argument;
    for (size_t i = 0; !all[WORDS - 1] && i < WORDS; i++) all[i] = i;
    return nekchhaul_read_many(c, all, WORDS, values, WORDS);
}

static uint32_t do_peek(nekchhaul_caller *c, void *argument)
{
    return nekchhaul_peek(c, 0, argument);
}

static uint32_t do_writes(nekchhaul_caller *c, void *argument)
{
    (void)argument;
    for (size_t i = 0; i < WORDS; i++) TRY(nekchhaul_write(c, i, i));
    return NEKCHHAUL_OK;
}

__attribute__((noinline)) void measure(nekchhaul_caller *caller, nekchhaul_body body)
{
    uint64_t sum = 0;
    for (int i = 0; i < TIMES; i++)
        if (body == do_peek ? body(caller, &sum) : body ? nekchhaul_atomically(caller, body, &sum) : nekchhaul_begin(caller) || nekchhaul_commit(caller)) abort();
}

int main(void)
{
    static const char *const algorithms[] = { "CGL", "TML", "OrecLazy", "OrecEager", "RingSW", "Serial" };
    static const nekchhaul_body bodies[] = { NULL, do_nothing, do_count, do_reads, do_read_many, do_writes, do_peek };
    static const char *const names[] = { "pair", "empty", "count", "reads", "read_many", "writes", "peek" };
    printf("%s\n", nekchhaul_version() & NEKCHHAUL_UNPROVED ? "unproved" : "proved");
    for (uint32_t a = 0; a < 6; a++) {
        nekchhaul_sizes sizes = { WORDS, 64, 64, 2 * WORDS, 2 * WORDS, 0 };
        nekchhaul_caller caller = NEKCHHAUL_NO_CALLER_INIT;
        if (nekchhaul_open(&sizes, a, &caller, 1)) return 1;
        for (int i = 0; i < 7; i++) {
            measure(&caller, bodies[i]);
            printf("%s %s %d %d\n", algorithms[a], names[i], TIMES, WORDS);
        }
        if (nekchhaul_release(&caller)) return 1;
    }
    return 0;
}
