#define _POSIX_C_SOURCE 200809L
/* pool [THREADS]: threads that come and go, many more than callers, each with a handle of its own from one table while it works. Some
 * die in the middle of an attempt, with the gate closed or with a range, and who finds them dead puts their handles back. And 32 threads
 * join and part at once, where no handle is ever with two, and none is lost. */
#include <nekchhaul.h>
#include <pthread.h>
#include <stdatomic.h>
#include <stdio.h>
#include <stdlib.h>

enum { WORDS = 8, CALLERS = 3, AT_ONCE = 8, COUNTS = 20, MANY = 32, PLACES = 5, JOINS = 10000 };
#define IS(call, status) do { uint32_t s_ = (call); if (s_ != (status)) { printf("%s:%d: %s is %u, not %u\n", __FILE__, __LINE__, #call, (unsigned)s_, (unsigned)(status)); exit(1); } } while (0)

static nekchhaul_table table;
static nekchhaul_caller left[4]; /* of threads that are no more */

static uint32_t count(nekchhaul_caller *caller, void *nothing)
{
    uint64_t old;
    uint32_t s = nekchhaul_read(caller, 0, &old);
    (void)nothing;
    return s ? s : nekchhaul_write(caller, 0, old + 1);
}

static nekchhaul_caller joined(void)
{
    nekchhaul_caller mine = NEKCHHAUL_NO_CALLER_INIT;
    uint32_t s, pause = 32;
    while ((s = nekchhaul_join(&table, &mine)) == NEKCHHAUL_NONE_FREE) nekchhaul_back_off(&pause);
    IS(s, 0);
    IS(nekchhaul_join(&table, &mine), NEKCHHAUL_HOLDS_CALLER);
    return mine;
}

static void *work(void *nothing)
{
    nekchhaul_caller mine = joined();
    for (int i = 0; i < COUNTS; i++) IS(nekchhaul_atomically(&mine, count, NULL), 0);
    IS(nekchhaul_part(&table, &mine), 0);
    IS(nekchhaul_part(&table, &mine), NEKCHHAUL_NO_CALLER);
    return nothing;
}

/* Dies where `how` says. */
static void *die(void *how)
{
    nekchhaul_pause_of pause;
    nekchhaul_caller *mine = &left[*(int *)how];
    *mine = joined();
    switch (*(int *)how) {
    case 0: /* in a loop */
        IS(nekchhaul_enter(mine, &pause), NEKCHHAUL_RUN);
        IS(nekchhaul_write(mine, 1, 1), 0);
        IS(nekchhaul_part(&table, mine), NEKCHHAUL_IN_ATTEMPT);
        break;
    case 1: /* in an attempt of its own */
        IS(nekchhaul_begin(mine), 0);
        IS(nekchhaul_read(mine, 1, &(uint64_t){ 0 }), 0);
        IS(nekchhaul_part(&table, mine), NEKCHHAUL_IN_ATTEMPT);
        break;
    case 2: /* with a range */
        IS(nekchhaul_take_range(mine, 2, 2), 0);
        IS(nekchhaul_direct_write(mine, 2, 9), 0);
        IS(nekchhaul_part(&table, mine), NEKCHHAUL_HOLDS_RANGE);
        break;
    default: /* with the gate closed, behind another's attempt */
        IS(nekchhaul_switch(mine, NEKCHHAUL_TML), NEKCHHAUL_BUSY);
        IS(nekchhaul_part(&table, mine), NEKCHHAUL_CLOSING);
    }
    return NULL;
}

static void run(void *(*body)(void *), void *argument)
{
    pthread_t thread;
    if (pthread_create(&thread, NULL, body, argument) || pthread_join(thread, NULL)) abort();
}

static uint64_t word(nekchhaul_caller *caller, size_t address)
{
    uint64_t value;
    IS(nekchhaul_peek(caller, address, &value), 0);
    return value;
}

static void by_dead_threads(uint32_t algorithm)
{
    nekchhaul_caller mine = NEKCHHAUL_NO_CALLER_INIT;
    for (int how = 0; how < 3; how++) {
        run(die, &how);
        /* an attempt of its own under CGL can only be committed */
        IS(nekchhaul_part_for_dead(&table, &left[how]), how == 1 && algorithm == NEKCHHAUL_CGL ? NEKCHHAUL_IRREVOCABLE : 0);
        IS(nekchhaul_part_for_dead(&table, &left[how]), NEKCHHAUL_NO_CALLER);
    }
    IS(nekchhaul_join(&table, &mine), 0);
    IS(nekchhaul_begin(&mine), 0);
    run(die, &(int){ 3 });
    IS(nekchhaul_part_for_dead(&table, &left[3]), 0);
    IS(nekchhaul_commit(&mine), 0);
    IS(word(&mine, 1) != 0, 0); /* nothing is left of an attempt */
    IS(word(&mine, 2) != 9, 0); /* all that was written to a range is */
    IS(nekchhaul_part(&table, &mine), 0);
}

static void under(uint32_t algorithm, unsigned long threads)
{
    nekchhaul_sizes sizes = nekchhaul_sizes_of(WORDS);
    nekchhaul_caller callers[CALLERS] = { NEKCHHAUL_NO_CALLER_INIT }, others[1] = { NEKCHHAUL_NO_CALLER_INIT }, mine[CALLERS] = { NEKCHHAUL_NO_CALLER_INIT };
    nekchhaul_table of_others;
    pthread_t running[AT_ONCE];
    IS(nekchhaul_open(&sizes, algorithm, callers, CALLERS), 0);
    IS(nekchhaul_open(&sizes, algorithm, others, 1), 0);
    IS(nekchhaul_share(&table, callers, 0), NEKCHHAUL_ROOM);
    IS(nekchhaul_share(&table, mine, CALLERS), NEKCHHAUL_NO_CALLER);
    IS(nekchhaul_share(&table, callers, CALLERS), 0);
    IS(nekchhaul_share(&of_others, others, 1), 0);
    for (unsigned long done = 0; done < threads; done += AT_ONCE) {
        for (int i = 0; i < AT_ONCE; i++)
            if (pthread_create(&running[i], NULL, work, NULL)) abort();
        for (int i = 0; i < AT_ONCE; i++) pthread_join(running[i], NULL);
    }
    by_dead_threads(algorithm);
    for (int i = 0; i < CALLERS; i++) IS(nekchhaul_join(&table, &mine[i]), 0);
    IS(nekchhaul_join(&table, &left[0]), NEKCHHAUL_NONE_FREE);
    IS(nekchhaul_part(&of_others, &mine[0]), NEKCHHAUL_STRANGER);
    if (word(&mine[0], 0) != threads * COUNTS) {
        printf("%lu counts are missing\n", threads * COUNTS - (unsigned long)word(&mine[0], 0));
        exit(1);
    }
    for (int i = 0; i < CALLERS; i++) IS(nekchhaul_part(&table, &mine[i]), 0);
    for (int i = 0; i < CALLERS; i++) IS(nekchhaul_release(&callers[i]), 0);
    IS(nekchhaul_release(&others[0]), 0);
}

/* Handles by what they hold, and who has them now. */
static void *held[PLACES];
static atomic_int with_somebody[PLACES];
static pthread_barrier_t together;

/* Which of the shared handles it is. */
static int which(const nekchhaul_caller *caller)
{
    for (int i = 0; i < PLACES; i++)
        if (caller->at_ == held[i]) return i;
    printf("a handle that never lay in the table\n");
    exit(1);
}

static void *come_and_go(void *nothing)
{
    pthread_barrier_wait(&together);
    for (int i = 0; i < JOINS; i++) {
        nekchhaul_caller mine = joined();
        const int place = which(&mine);
        IS((uint32_t)atomic_exchange(&with_somebody[place], 1), 0); /* with nobody else */
        IS(nekchhaul_atomically(&mine, count, NULL), 0);
        atomic_store(&with_somebody[place], 0);
        IS(nekchhaul_part(&table, &mine), 0);
        IS((uint32_t)mine.tag_, 0);
    }
    return nothing;
}

static void many_at_once(void)
{
    nekchhaul_sizes sizes = nekchhaul_sizes_of(WORDS);
    nekchhaul_caller callers[PLACES + 1] = { NEKCHHAUL_NO_CALLER_INIT }, mine[PLACES] = { NEKCHHAUL_NO_CALLER_INIT };
    pthread_t running[MANY];
    IS(nekchhaul_open(&sizes, NEKCHHAUL_OREC_LAZY, callers, PLACES + 1), 0);
    for (int i = 0; i < PLACES; i++) held[i] = callers[i].at_;
    IS(nekchhaul_share(&table, callers, PLACES), 0);
    IS(nekchhaul_part(&table, &callers[PLACES]), NEKCHHAUL_ROOM); /* which never lay there */
    pthread_barrier_init(&together, NULL, MANY);
    for (int i = 0; i < MANY; i++)
        if (pthread_create(&running[i], NULL, come_and_go, NULL)) abort();
    for (int i = 0; i < MANY; i++) pthread_join(running[i], NULL);
    pthread_barrier_destroy(&together);
    for (int i = 0; i < PLACES; i++) { /* each is back, once */
        IS(nekchhaul_join(&table, &mine[i]), 0);
        IS((uint32_t)atomic_exchange(&with_somebody[which(&mine[i])], 1), 0);
    }
    IS(nekchhaul_join(&table, &left[0]), NEKCHHAUL_NONE_FREE);
    IS(word(&mine[0], 0) == (uint64_t)MANY * JOINS, 1);
    for (int i = 0; i < PLACES; i++) IS(nekchhaul_release(&callers[i]), NEKCHHAUL_NO_CALLER); /* they were moved */
    IS(nekchhaul_release(&callers[PLACES]), 0);
    for (int i = 0; i < PLACES; i++) IS(nekchhaul_release(&mine[i]), 0); /* or from the thread that joined */
}

int main(int argc, char **argv)
{
    unsigned long threads = argc > 1 ? strtoul(argv[1], NULL, 10) / AT_ONCE * AT_ONCE : 200;
    for (uint32_t algorithm = 0; algorithm < 6; algorithm++) under(algorithm, threads);
    many_at_once();
    return 0;
}
