/* peek [TIMES]: one word, outside attempts. A writer counts first in word 0, and then in word 1; who looks at word 1 and then at word 0
 * never finds less there, under each algorithm and across switches. And what each call answers that doesn't fit. */
#include <nekchhaul.h>
#include <pthread.h>
#include <stdio.h>
#include <stdlib.h>

enum { WORDS = 16 };
#define IS(call, status) do { uint32_t s_ = (call); if (s_ != (status)) { printf("%s:%d: %s is %u, not %u\n", __FILE__, __LINE__, #call, (unsigned)s_, (unsigned)(status)); exit(1); } } while (0)

static nekchhaul_caller callers[3];
static unsigned long times;

static uint32_t count(nekchhaul_caller *caller, void *address)
{
    uint64_t old;
    uint32_t s = nekchhaul_read(caller, *(size_t *)address, &old);
    return s ? s : nekchhaul_write(caller, *(size_t *)address, old + 1);
}

static void *write_both(void *nothing)
{
    for (unsigned long i = 0; i < times; i++)
        for (size_t address = 0; address < 2; address++) IS(nekchhaul_atomically(&callers[0], count, &address), 0);
    return nothing;
}

/* Until nothing is in the way. */
static uint64_t look(nekchhaul_caller *caller, size_t address)
{
    uint64_t value = 0;
    uint32_t s, pause = 32;
    while ((s = nekchhaul_peek(caller, address, &value)) != 0) {
        if (s != NEKCHHAUL_GATE_CLOSED && s != NEKCHHAUL_HELD && s != NEKCHHAUL_CONFLICT) IS(s, 0);
        nekchhaul_back_off(&pause);
    }
    return value;
}

static void *look_at_both(void *seen)
{
    for (uint64_t late = 0, early; late < times;) {
        uint64_t again = look(&callers[1], 1);
        if (again < late) exit(2);
        late = again;
        early = look(&callers[1], 0);
        if (early < late) exit(3);
        ++*(unsigned long *)seen;
    }
    return NULL;
}

static void beside_a_writer(uint32_t algorithm, int switches)
{
    nekchhaul_sizes sizes = nekchhaul_sizes_of(WORDS);
    pthread_t writer, reader;
    unsigned long seen = 0;
    IS(nekchhaul_open(&sizes, algorithm, callers, 3), 0);
    if (pthread_create(&writer, NULL, write_both, NULL) || pthread_create(&reader, NULL, look_at_both, &seen)) abort();
    for (uint32_t i = 0; switches && i < 100; i++) IS(nekchhaul_install(&callers[2], i % 6), 0);
    pthread_join(writer, NULL);
    pthread_join(reader, NULL);
    for (int i = 0; i < 3; i++) IS(nekchhaul_release(&callers[i]), 0);
}

static void statuses(uint32_t algorithm)
{
    nekchhaul_sizes sizes = nekchhaul_sizes_of(WORDS);
    nekchhaul_counts_of before, after;
    nekchhaul_pause_of pause;
    uint64_t value = 5;
    IS(nekchhaul_peek(&callers[0], 0, &value), NEKCHHAUL_NO_CALLER);
    IS(nekchhaul_open(&sizes, algorithm, callers, 2), 0);
    IS(nekchhaul_peek(&callers[0], WORDS, &value), NEKCHHAUL_ADDRESS);
    IS(nekchhaul_begin(&callers[0]), 0);
    IS(nekchhaul_write(&callers[0], 3, 7), 0);
    IS(nekchhaul_peek(&callers[0], 3, &value), NEKCHHAUL_IN_ATTEMPT);
    IS(nekchhaul_commit(&callers[0]), 0);
    IS(nekchhaul_enter(&callers[0], &pause), NEKCHHAUL_RUN);
    IS(nekchhaul_peek(&callers[0], 3, &value), NEKCHHAUL_IN_ATTEMPT);
    IS(nekchhaul_leave(&callers[0], 0, &pause), 0);
    IS((uint32_t)value, 5); /* so far it was refused */
    IS(nekchhaul_counts(&callers[0], &before), 0);
    IS(nekchhaul_peek(&callers[0], 3, &value), 0);
    IS((uint32_t)value, 7);
    IS(nekchhaul_counts(&callers[0], &after), 0);
    IS(after.read_only == before.read_only + 1 && after.begun == before.begun + 1, 1);
    IS(nekchhaul_take_range(&callers[1], 2, 4), 0);
    IS(nekchhaul_peek(&callers[0], 3, &value), NEKCHHAUL_FENCED);
    IS(nekchhaul_peek(&callers[1], 3, &value), NEKCHHAUL_FENCED);
    IS(nekchhaul_peek(&callers[0], 6, &value), 0);
    IS((uint32_t)value, 0);
    IS(nekchhaul_return_range(&callers[1]), 0);
    IS(nekchhaul_begin(&callers[0]), 0);
    IS(nekchhaul_switch(&callers[1], NEKCHHAUL_TML), NEKCHHAUL_BUSY);
    IS(nekchhaul_peek(&callers[1], 3, &value), NEKCHHAUL_CLOSING);
    IS(nekchhaul_commit(&callers[0]), 0);
    IS(nekchhaul_peek(&callers[0], 3, &value), NEKCHHAUL_GATE_CLOSED);
    IS(nekchhaul_reopen(&callers[1]), 0);
    for (int i = 0; i < 2; i++) IS(nekchhaul_release(&callers[i]), 0);
}

int main(int argc, char **argv)
{
    times = argc > 1 ? strtoul(argv[1], NULL, 10) : 20000;
    for (uint32_t algorithm = 0; algorithm < 6; algorithm++) {
        statuses(algorithm);
        beside_a_writer(algorithm, 0);
    }
    beside_a_writer(NEKCHHAUL_OREC_LAZY, 1);
    return 0;
}
