/* Who commits, or reopens the gate, wakes who sleeps: the archive's calls mark whom they rang for (stm_bell), and wake nobody, since a
 * proved library may not reach the system. build.sh puts these in their places, under their names. */
#define _GNU_SOURCE
#include "include/nekchhaul.h"

#if defined(__linux__)
#include <limits.h>
#include <linux/futex.h>
#include <sys/syscall.h>
#include <unistd.h>
#endif
#include <time.h>

/* How many threads sleep, of all memories. Who sleeps counts itself before the system compares the word, and who rings has changed
 * the word before it looks here: so one of the two sees the other. */
static uint32_t sleepers;

void nekchhaul_sleep(const uint64_t *at, uint32_t seen)
{
#if defined(__linux__)
    const struct timespec longest = { 0, 100000000 };
    __atomic_fetch_add(&sleepers, 1, __ATOMIC_SEQ_CST);
    syscall(SYS_futex, at, FUTEX_WAIT_PRIVATE, seen, &longest, NULL, 0);
    __atomic_fetch_sub(&sleepers, 1, __ATOMIC_SEQ_CST);
#else
    (void)at, (void)seen;
    sched_yield();
#endif
}

/* Wakes those who were rung for. */
__attribute__((noinline, cold)) static uint32_t wake(nekchhaul_caller *caller, uint32_t status)
{
#if defined(__linux__)
    nekchhaul_pause_of bell;
    if (nekchhaul_bell(caller, NEKCHHAUL_RUNG, &bell)) return status;
    uint64_t *rung = (uint64_t *)bell.at;
    uint64_t beds = __atomic_load_n(rung, __ATOMIC_SEQ_CST) ? __atomic_exchange_n(rung, 0, __ATOMIC_SEQ_CST) : 0;
    for (uint32_t bed = 0; beds >> bed && bed < NEKCHHAUL_RUNG; bed++)
        if (beds >> bed & 1 && !nekchhaul_bell(caller, bed, &bell)) syscall(SYS_futex, bell.at, FUTEX_WAKE_PRIVATE, INT_MAX, NULL, NULL, 0);
#else
    (void)caller;
#endif
    return status;
}

#define WAKING(name, words, given) \
    __attribute__((visibility("hidden"))) uint32_t nekchhaul_silent_##name words; \
    uint32_t nekchhaul_##name words \
    { \
        uint32_t status = nekchhaul_silent_##name given; \
        return __builtin_expect(__atomic_load_n(&sleepers, __ATOMIC_SEQ_CST) != 0, 0) ? wake(caller, status) : status; \
    }

WAKING(commit, (nekchhaul_caller *caller), (caller))
WAKING(leave, (nekchhaul_caller *caller, uint32_t how, nekchhaul_pause_of *pause), (caller, how, pause))
WAKING(ring, (nekchhaul_caller *caller), (caller))
WAKING(reopen, (nekchhaul_caller *caller), (caller))
WAKING(switch, (nekchhaul_caller *caller, uint32_t algorithm), (caller, algorithm))
WAKING(fence, (nekchhaul_caller *caller, size_t from, size_t count), (caller, from, count))
WAKING(give_back, (nekchhaul_caller *caller), (caller))
WAKING(close, (nekchhaul_caller *caller, uint64_t *words, size_t count), (caller, words, count))

/* TURNS. Who has waited behind a lock for a slice of time takes the turn of its memory, and until it has the lock, or for so long at most,
 * no other loop of that memory asks for it. Without that the one whose cache has the words takes the lock again and again. Of so many
 * memories at once somebody may have the turn. */
enum { SLICE = 3000000, LONGEST_TURN = 50000000, TURNS = 16 }; /* nanoseconds; memories */
static struct {
    uint64_t until; /* 0 where nobody has it. Of two turns no two end at once, so that it also says which it is */
    const uint64_t *memory;
} turns[TURNS];
static uint32_t given; /* how many of them, or are about to be */

/* Of this thread: since when it is behind a lock, as which caller and after how many attempts; and the turn that it took. */
static __thread struct {
    const void *caller;
    uint64_t begun, since;
    uint64_t until;
    int turn;
} behind;

__attribute__((visibility("hidden"))) uint32_t nekchhaul_silent_enter(nekchhaul_caller *caller, nekchhaul_pause_of *pause);

static uint64_t now(void)
{
    struct timespec t;
    clock_gettime(CLOCK_MONOTONIC, &t);
    return (uint64_t)t.tv_sec * 1000000000u + (uint64_t)t.tv_nsec;
}

static const uint64_t *memory_of(nekchhaul_caller *caller)
{
    nekchhaul_pause_of bell;
    return nekchhaul_bell(caller, NEKCHHAUL_RUNG, &bell) ? NULL : bell.at;
}

static void end_turn(int turn, uint64_t until)
{
    if (__atomic_compare_exchange_n(&turns[turn].until, &until, 0, 0, __ATOMIC_SEQ_CST, __ATOMIC_SEQ_CST)) __atomic_fetch_sub(&given, 1, __ATOMIC_SEQ_CST);
}

/* Whether somebody has the turn of this memory. Ends those that have lasted too long, of each. */
static int is_given(const uint64_t *memory)
{
    const uint64_t at = now();
    int is = 0;
    for (int turn = 0; turn < TURNS; turn++) {
        const uint64_t until = __atomic_load_n(&turns[turn].until, __ATOMIC_SEQ_CST);
        if (until && at >= until) end_turn(turn, until);
        else if (until && __atomic_load_n(&turns[turn].memory, __ATOMIC_SEQ_CST) == memory) is = 1;
    }
    return is;
}

static void take_turn(const uint64_t *memory, uint64_t until)
{
    __atomic_fetch_add(&given, 1, __ATOMIC_SEQ_CST);
    for (int turn = 0; turn < TURNS; turn++) {
        uint64_t nobodys = 0;
        if (!__atomic_compare_exchange_n(&turns[turn].until, &nobodys, until, 0, __ATOMIC_SEQ_CST, __ATOMIC_SEQ_CST)) continue;
        __atomic_store_n(&turns[turn].memory, memory, __ATOMIC_SEQ_CST);
        behind.turn = turn;
        behind.until = until;
        return;
    }
    __atomic_fetch_sub(&given, 1, __ATOMIC_SEQ_CST);
}

static int has_turn(nekchhaul_caller *caller)
{
    return behind.until && behind.caller == caller->at_ && __atomic_load_n(&turns[behind.turn].until, __ATOMIC_SEQ_CST) == behind.until;
}

/* Behind a lock: takes the turn after a slice. */
static void wait_for_turn(nekchhaul_caller *caller)
{
    nekchhaul_cause why;
    nekchhaul_counts_of counts;
    if (nekchhaul_why(caller, &why) || why.status != NEKCHHAUL_HELD || nekchhaul_counts(caller, &counts)) return;
    const uint64_t at = now();
    if (behind.caller != caller->at_ || behind.begun != counts.begun) {
        behind.caller = caller->at_;
        behind.begun = counts.begun;
        behind.since = at;
        behind.until = 0;
    } else if (!has_turn(caller) && at - behind.since > SLICE) {
        const uint64_t *memory = memory_of(caller);
        if (!is_given(memory)) take_turn(memory, at + LONGEST_TURN);
    }
}

/* While somebody has a turn. */
__attribute__((noinline, cold)) static uint32_t enter_in_turn(nekchhaul_caller *caller, nekchhaul_pause_of *pause)
{
    nekchhaul_state_of state;
    const uint64_t *memory = memory_of(caller);
    const int mine = has_turn(caller);
    if (!mine && memory && !nekchhaul_state(caller, &state) && !state.stand)
        while (is_given(memory)) nanosleep(&(struct timespec){ 0, 20000 }, NULL);
    uint32_t status = nekchhaul_silent_enter(caller, pause);
    if (mine && status == NEKCHHAUL_PAUSE) pause->times = 64; /* who has it asks often */
    else if (mine) end_turn(behind.turn, behind.until);
    return status;
}

__attribute__((noinline, cold)) static uint32_t entered(nekchhaul_caller *caller, uint32_t status)
{
    if (status == NEKCHHAUL_PAUSE) wait_for_turn(caller);
    return __atomic_load_n(&sleepers, __ATOMIC_SEQ_CST) ? wake(caller, status) : status;
}

uint32_t nekchhaul_enter(nekchhaul_caller *caller, nekchhaul_pause_of *pause)
{
    uint32_t status = __builtin_expect(__atomic_load_n(&given, __ATOMIC_RELAXED) != 0, 0) ? enter_in_turn(caller, pause) : nekchhaul_silent_enter(caller, pause);
    return __builtin_expect(status != NEKCHHAUL_RUN, 0) ? entered(caller, status) : status;
}
