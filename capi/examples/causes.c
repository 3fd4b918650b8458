/* What comes in the way of a caller, made on purpose by two callers of one thread: each status with what nekchhaul_why says of
 * it, the calls that go on with the same arguments alone, full logs and a full clock; and what the loops do about it. Ends with 0,
 * or prints the line that went wrong. */
#include "nekchhaul.h"
#include <stdio.h>
#include <string.h>

static int wrong;
#define IS(call, status) do { uint64_t s_ = (call); if (s_ != (uint64_t)(status)) { printf("%s:%d: under %u %s is %llu, not %llu\n", __FILE__, __LINE__, (unsigned)algorithm, #call, (unsigned long long)s_, (unsigned long long)(status)); wrong = 1; } } while (0)

static nekchhaul_caller c[2];
static uint32_t algorithm;

static void open_two(uint64_t clock)
{
    const nekchhaul_sizes sizes = { 16, 16, 2, 3, 3, clock };
    IS(nekchhaul_open(&sizes, algorithm, c, 2), 0);
}

static void release_two(void)
{
    for (int i = 0; i < 2; i++) IS(nekchhaul_release(&c[i]), 0);
}

static nekchhaul_cause why(int i)
{
    nekchhaul_cause cause;
    memset(&cause, 0, sizeof cause);
    IS(nekchhaul_why(&c[i], &cause), 0);
    return cause;
}

/* The other caller writes that word, in a transaction of its own. */
static void commit_beside(size_t word)
{
    IS(nekchhaul_begin(&c[1]), 0);
    IS(nekchhaul_write(&c[1], word, 7), 0);
    IS(nekchhaul_commit(&c[1]), 0);
}

/* An attempt that read word 0, and then word 1 after the other caller's commits. */
static nekchhaul_cause conflict(size_t commits)
{
    uint64_t v;
    IS(nekchhaul_begin(&c[0]), 0);
    IS(nekchhaul_read(&c[0], 0, &v), 0);
    for (size_t i = 0; i < commits; i++) commit_beside(commits > 1 ? 8 + i : 0);
    if (algorithm == NEKCHHAUL_OREC_LAZY || algorithm == NEKCHHAUL_OREC_EAGER) commit_beside(1);
    IS(nekchhaul_read(&c[0], 1, &v), NEKCHHAUL_CONFLICT);
    IS(nekchhaul_read(&c[0], 1, &v), NEKCHHAUL_NO_ATTEMPT);
    IS(why(0).status, NEKCHHAUL_CONFLICT);
    return why(0);
}

static void conflicts(void)
{
    nekchhaul_counts_of counts;
    open_two(0);
    nekchhaul_cause cause = conflict(1);
    IS(nekchhaul_counts(&c[0], &counts), 0);
    switch (algorithm) {
    case NEKCHHAUL_TML:
        IS(cause.kind, 1);
        IS(cause.first < cause.second, 1);
        IS(counts.clock_conflicts, 1);
        break;
    case NEKCHHAUL_RING_SW:
        IS(cause.kind, 4);
        IS(cause.first == 1 && cause.second, 1);
        cause = conflict(3);
        IS(cause.kind, 5);
        IS(cause.first, 1);
        IS(cause.second, 4);
        IS(nekchhaul_counts(&c[0], &counts), 0);
        IS(counts.filter_conflicts, 1);
        IS(counts.overrun_conflicts, 1);
        break;
    default:
        IS(cause.kind, 2);
        IS(cause.first < 16 && cause.second > cause.third, 1);
        IS(counts.record_conflicts, 1);
    }
    release_two();
}

/* One attempt at a time has the lock; under TML the one that writes. */
static void held(void)
{
    uint64_t v;
    open_two(0);
    IS(nekchhaul_begin(&c[0]), 0);
    if (algorithm == NEKCHHAUL_TML) IS(nekchhaul_write(&c[0], 0, 1), 0);
    IS(nekchhaul_begin(&c[1]), NEKCHHAUL_HELD);
    IS(why(1).status, NEKCHHAUL_HELD);
    IS(why(1).first, 1); /* the lock word, or the odd clock */
    IS(nekchhaul_read(&c[1], 0, &v), NEKCHHAUL_NO_ATTEMPT);
    IS(nekchhaul_commit(&c[0]), 0);
    IS(nekchhaul_begin(&c[1]), 0);
    IS(nekchhaul_commit(&c[1]), 0);
    release_two();
}

/* A log is full, and full no more once it is longer; one that is asked to be shorter stays. Under the locks none is kept. */
static void full_logs(void)
{
    uint64_t v;
    const int reads = algorithm == NEKCHHAUL_OREC_LAZY || algorithm == NEKCHHAUL_OREC_EAGER;
    open_two(0);
    for (size_t longer = 3; longer < 6; longer++) {
        IS(nekchhaul_begin(&c[0]), 0);
        for (size_t a = 0; a < longer; a++) IS(nekchhaul_write(&c[0], a, 1), 0);
        for (size_t a = 0; a < longer; a++) IS(nekchhaul_write(&c[0], a, 2), 0); /* no word more */
        IS(nekchhaul_write(&c[0], longer, 1), NEKCHHAUL_LOG_FULL);
        IS(why(0).status, NEKCHHAUL_LOG_FULL);
        IS(why(0).first, longer);
        if (reads) {
            IS(nekchhaul_begin(&c[0]), 0);
            for (size_t a = 0; a < longer; a++) IS(nekchhaul_read(&c[0], a, &v), 0);
            IS(nekchhaul_read(&c[0], longer, &v), NEKCHHAUL_LOG_FULL);
            IS(why(0).first, longer);
        }
        IS(nekchhaul_reserve(&c[0], longer + 1, longer + 1), 0);
        IS(nekchhaul_reserve(&c[0], 1, 1), 0);
    }
    IS(nekchhaul_begin(&c[0]), 0);
    IS(nekchhaul_read(&c[0], 0, &v), 0);
    IS(v, 0);
    IS(nekchhaul_commit(&c[0]), 0);
    release_two();
}

/* Who asks to be irrevocable waits for those that are in attempts; of two that ask, one has the gate. */
static void irrevocable(void)
{
    uint64_t v;
    open_two(0);
    for (int i = 0; i < 2; i++) IS(nekchhaul_begin(&c[i]), 0);
    IS(nekchhaul_become_irrevocable(&c[0]), NEKCHHAUL_BUSY);
    IS(why(0).status, NEKCHHAUL_BUSY);
    IS(why(0).first, 1);
    IS(nekchhaul_read(&c[0], 0, &v), 0); /* it goes on */
    IS(nekchhaul_become_irrevocable(&c[1]), NEKCHHAUL_GATE_CLOSED);
    IS(why(1).status, NEKCHHAUL_GATE_CLOSED);
    IS(why(1).first != 0, 1);
    IS(nekchhaul_cancel(&c[1]), 0);
    IS(nekchhaul_become_irrevocable(&c[0]), 0);
    IS(nekchhaul_become_irrevocable(&c[0]), 0);
    IS(nekchhaul_cancel(&c[0]), NEKCHHAUL_IRREVOCABLE);
    IS(why(0).status, NEKCHHAUL_IRREVOCABLE);
    for (size_t a = 0; a < 16; a++) IS(nekchhaul_write(&c[0], a, a), 0); /* whatever its log's length */
    IS(nekchhaul_commit(&c[0]), 0);
    release_two();
}

/* After BUSY the same call goes on with the same arguments alone. */
static void same_arguments(void)
{
    uint64_t words[16];
    nekchhaul_state_of state;
    open_two(0);
    IS(nekchhaul_begin(&c[1]), 0);
    IS(nekchhaul_switch(&c[0], NEKCHHAUL_SERIAL), NEKCHHAUL_BUSY);
    IS(nekchhaul_switch(&c[0], NEKCHHAUL_CGL), NEKCHHAUL_CLOSING);
    IS(nekchhaul_fence(&c[0], 0, 1), NEKCHHAUL_CLOSING);
    IS(nekchhaul_close(&c[0], words, 16), NEKCHHAUL_CLOSING);
    IS(nekchhaul_state(&c[0], &state), 0);
    IS(state.stand, 3);
    IS(state.algorithm, 0);
    IS(nekchhaul_reopen(&c[0]), 0);
    IS(nekchhaul_fence(&c[0], 3, 2), NEKCHHAUL_BUSY);
    IS(nekchhaul_fence(&c[0], 3, 1), NEKCHHAUL_CLOSING);
    IS(nekchhaul_fence(&c[0], 2, 2), NEKCHHAUL_CLOSING);
    IS(nekchhaul_switch(&c[0], NEKCHHAUL_SERIAL), NEKCHHAUL_CLOSING);
    IS(nekchhaul_commit(&c[1]), 0);
    IS(nekchhaul_fence(&c[1], 0, 1), NEKCHHAUL_GATE_CLOSED);
    IS(nekchhaul_fence(&c[0], 3, 2), 0);
    IS(nekchhaul_close(&c[1], words, 16), NEKCHHAUL_RANGE_TAKEN);
    IS(why(1).status, NEKCHHAUL_RANGE_TAKEN);
    IS(nekchhaul_switch(&c[1], NEKCHHAUL_RING_SW), 0); /* beside a range */
    IS(nekchhaul_direct_write(&c[0], 4, 9), 0);
    IS(nekchhaul_give_back(&c[0]), 0);
    IS(nekchhaul_close(&c[1], words, 16), 0);
    IS(words[4], 9);
    release_two();
}

/* At its limit the clock lets attempts read, but under CGL; a switch goes through, and nothing is committed that writes. */
static void full_clock(void)
{
    uint64_t v = 77;
    uint32_t s = 0;
    open_two((uint64_t)1 << 62);
    for (uint32_t next = 1; next <= 6; next++) {
        if (algorithm == NEKCHHAUL_CGL) {
            s = nekchhaul_begin(&c[0]);
        } else {
            IS(nekchhaul_begin(&c[0]), 0);
            IS(nekchhaul_read(&c[0], 3, &v), 0);
            IS(nekchhaul_commit(&c[0]), 0);
            IS(nekchhaul_begin(&c[0]), 0);
            if (!(s = nekchhaul_write(&c[0], 3, 1))) s = nekchhaul_commit(&c[0]);
        }
        IS(s, NEKCHHAUL_CLOCK_FULL);
        IS(why(0).status, NEKCHHAUL_CLOCK_FULL);
        IS(why(0).first >= (uint64_t)1 << 62, 1);
        IS(nekchhaul_commit(&c[0]), NEKCHHAUL_NO_ATTEMPT);
        IS(nekchhaul_switch(&c[1], (algorithm + 1) % 6), 0);
        algorithm = (algorithm + 1) % 6;
    }
    uint64_t words[16];
    IS(nekchhaul_close(&c[0], words, 16), 0);
    for (size_t a = 0; a < 16; a++) IS(words[a], 0);
    release_two();
}

/* A body that writes so many words, which is run again where it asks for it. */
struct filling { size_t words; int retries, runs; };

static uint32_t fill(nekchhaul_caller *caller, void *argument)
{
    struct filling *f = argument;
    f->runs++;
    for (size_t a = 0; a < f->words; a++) {
        uint32_t s = nekchhaul_write(caller, a, a);
        if (s) return s;
    }
    return f->retries && f->retries-- ? NEKCHHAUL_RETRY : NEKCHHAUL_OK;
}

/* The same, once it can't stop. */
static uint32_t fill_for_good(nekchhaul_caller *caller, void *argument)
{
    uint32_t s;
    while ((s = nekchhaul_become_irrevocable(caller)) == NEKCHHAUL_BUSY) nekchhaul_spin(32);
    return s ? s : fill(caller, argument);
}

static uint32_t sum_up(nekchhaul_caller *caller, void *argument)
{
    struct filling *f = argument;
    uint64_t v;
    f->runs++;
    for (size_t a = 0; a < f->words; a++) {
        uint32_t s = nekchhaul_read(caller, a, &v);
        if (s) return s;
    }
    return NEKCHHAUL_OK;
}

/* A full log is made longer. */
static void loops(int records)
{
    const nekchhaul_sizes sizes = nekchhaul_sizes_of(5000);
    nekchhaul_caller one = NEKCHHAUL_NO_CALLER_INIT;
    nekchhaul_counts_of counts;
    struct filling most = { 4096, 0, 0 }, more = { 5000, 0, 0 }, again = { 1, 2, 0 }, sum = { 5000, 0, 0 };
    uint64_t words[5000];
    IS(sizes.words == 5000 && sizes.records == 5000 && sizes.ring == 64 && sizes.reads == 64 && sizes.writes == 64 && sizes.clock == 0, 1);
    IS(nekchhaul_open(&sizes, algorithm, &one, 1), 0);
    IS(nekchhaul_atomically(&one, fill, &again), 0);
    IS(again.runs, 3);
    IS(nekchhaul_atomically(&one, fill, &most), 0);
    if (records) IS(most.runs, 7); /* with logs of 64, 128, .. 4,096 */
    IS(nekchhaul_counts(&one, &counts), 0);
    IS(counts.promoted, 0);
    if (records) IS(counts.full_logs, 6);
    IS(nekchhaul_atomically(&one, sum_up, &sum), 0);
    IS(nekchhaul_atomically(&one, fill, &more), 0);
    more.runs = 0;
    IS(nekchhaul_atomically(&one, fill_for_good, &more), 0);
    IS(more.runs, 1);
    IS(nekchhaul_end(&one, words, 5000), 0);
    for (size_t a = 0; a < 5000; a++) IS(words[a], a);
    IS(nekchhaul_release(&one), 0);
}

/* Up to 1,048,576 items; with more to read or, once it is irrevocable, to write, a body comes through too. */
static void longest(void)
{
    const size_t words = 1048576 + 8192;
    const nekchhaul_sizes sizes = nekchhaul_sizes_of(words);
    nekchhaul_caller one = NEKCHHAUL_NO_CALLER_INIT;
    struct filling most = { 1048576, 0, 0 }, more = { 1048577, 0, 0 }, sum = { words, 0, 0 };
    IS(sizes.records, 65536);
    IS(nekchhaul_open(&sizes, algorithm, &one, 1), 0);
    IS(nekchhaul_atomically(&one, fill, &most), 0);
    IS(most.runs, 15); /* with logs of 64, 128, .. 1,048,576 */
    IS(nekchhaul_atomically(&one, sum_up, &sum), 0);
    IS(nekchhaul_atomically(&one, fill, &more), NEKCHHAUL_LOG_FULL);
    IS(nekchhaul_atomically(&one, fill_for_good, &more), 0);
    IS(nekchhaul_release(&one), 0);
}

/* An attempt that is given up leaves nothing, or stands where it can only be committed. */
static void abandoned(void)
{
    uint64_t v;
    const int stands = algorithm <= NEKCHHAUL_TML;
    open_two(0);
    IS(nekchhaul_abandon(&c[0]), NEKCHHAUL_NO_ATTEMPT);
    IS(nekchhaul_begin(&c[0]), 0);
    IS(nekchhaul_write(&c[0], 5, 9), 0);
    IS(nekchhaul_abandon(&c[0]), stands ? NEKCHHAUL_IRREVOCABLE : 0);
    IS(nekchhaul_begin(&c[0]), 0);
    IS(nekchhaul_read(&c[0], 5, &v), 0);
    IS(v, stands ? 9 : 0);
    IS(nekchhaul_abandon(&c[0]), algorithm == NEKCHHAUL_CGL ? NEKCHHAUL_IRREVOCABLE : 0);
    release_two();
}

static void names(void)
{
    const struct { uint32_t status; const char *name; } wants[] = {
        { 0, "OK" }, { NEKCHHAUL_CONFLICT, "CONFLICT" }, { NEKCHHAUL_NOT_CLOSING, "NOT_CLOSING" }, { NEKCHHAUL_ONE_CALLER, "ONE_CALLER" },
        { 11, "UNKNOWN" }, { 22, "UNKNOWN" }, { 255, "UNKNOWN" }, { NEKCHHAUL_STOP, "STOP" }, { UINT32_MAX, "STOP" },
    };
    for (size_t i = 0; i < sizeof wants / sizeof *wants; i++) IS(strcmp(nekchhaul_status_name(wants[i].status), wants[i].name), 0);
}

int main(void)
{
    names();
    for (algorithm = 0; algorithm < 6; algorithm++) {
        const int locks = algorithm == NEKCHHAUL_CGL || algorithm == NEKCHHAUL_SERIAL, records = !locks && algorithm != NEKCHHAUL_TML;
        if (!locks) conflicts();
        if (!records) held();
        if (records) full_logs();
        if (records) irrevocable();
        if (records) same_arguments();
        loops(records);
        if (algorithm == NEKCHHAUL_CGL || algorithm == NEKCHHAUL_OREC_LAZY) longest();
        abandoned();
        full_clock();
    }
    return wrong;
}
