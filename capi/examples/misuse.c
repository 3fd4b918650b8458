/* Every misuse of every call, which is answered and changes nothing; and the sizes and numbers of the header. Ends with
 * 0, or prints the line that went wrong. */
#include "nekchhaul.h"
#include <stdio.h>
#include <string.h>

_Static_assert(sizeof(nekchhaul_caller) == 16 && offsetof(nekchhaul_caller, at_) == 8, "a handle");
_Static_assert(sizeof(nekchhaul_sizes) == 48 && offsetof(nekchhaul_sizes, clock) == 40, "sizes");
_Static_assert(sizeof(nekchhaul_state_of) == 24 && offsetof(nekchhaul_state_of, range) == 20, "a state");
_Static_assert(sizeof(nekchhaul_cause) == 32 && offsetof(nekchhaul_cause, third) == 24, "a cause");

static int wrong;
#define IS(call, status) do { uint32_t s_ = (call); if (s_ != (status)) { printf("%s:%d: %s is %u, not %u\n", __FILE__, __LINE__, #call, (unsigned)s_, (unsigned)(status)); wrong = 1; } } while (0)

static nekchhaul_caller c[2];
static nekchhaul_sizes sizes = { 4, 4, 4, 8, 8, 0 };

/* Each call but begin and open, for a caller where it doesn't fit. */
static void outside(uint32_t status)
{
    uint64_t v = 77;
    size_t depth = 77, address = 0, taken = 77;
    nekchhaul_pause_of pause = { 77, 77, NULL };
    IS(nekchhaul_leave(&c[0], 0, &pause), status == NEKCHHAUL_NO_CALLER ? status : (uint32_t)NEKCHHAUL_NO_ATTEMPT);
    IS(nekchhaul_leave(&c[0], NEKCHHAUL_RETRY, &pause), status == NEKCHHAUL_NO_CALLER ? status : (uint32_t)NEKCHHAUL_NO_ATTEMPT);
    IS(nekchhaul_read(&c[0], 0, &v), status);
    IS(nekchhaul_read_many(&c[0], &address, 1, &v, 1), status);
    IS(nekchhaul_write(&c[0], 0, 1), status);
    IS(nekchhaul_write_many(&c[0], &address, 1, &v, 1, &taken), status);
    IS(taken, status == NEKCHHAUL_NO_CALLER ? 77 : 0);
    IS(nekchhaul_commit(&c[0]), status);
    IS(nekchhaul_cancel(&c[0]), status);
    IS(nekchhaul_become_irrevocable(&c[0]), status);
    IS(nekchhaul_checkpoint(&c[0], &depth), status);
    IS(nekchhaul_roll_to(&c[0], 1), status);
    IS(nekchhaul_drop_marks(&c[0], 1), status);
    IS(v != 77 || depth != 77 || pause.times != 77 || pause.seen != 77, 0);
}
/* The calls for a caller in no attempt; where it `gives`, it has closed the gate to give its range back. */
static void inside(uint32_t status, int gives)
{
    uint64_t v = 77, words[4] = { 77, 77, 77, 77 };
    uint32_t under = 77;
    nekchhaul_pause_of pause = { 77, 77, NULL };
    IS(nekchhaul_enter(&c[0], &pause), status);
    IS(nekchhaul_announce(&c[0], &pause), status);
    IS(nekchhaul_wait(&c[0]), status);
    IS(nekchhaul_begin(&c[0]), status);
    IS(nekchhaul_begin_under(&c[0], &under), status);
    IS(nekchhaul_switch(&c[0], NEKCHHAUL_TML), status);
    IS(nekchhaul_fence(&c[0], 0, 1), status);
    IS(nekchhaul_direct_read(&c[0], 0, &v), status);
    IS(nekchhaul_direct_write(&c[0], 0, 1), status);
    if (!gives) IS(nekchhaul_give_back(&c[0]), status);
    IS(nekchhaul_close(&c[0], words, 4), status);
    IS(nekchhaul_learn(&c[0], &c[1]), status);
    if (!gives) IS(nekchhaul_learn(&c[1], &c[0]), status); /* else c[1] is in an attempt */
    IS(nekchhaul_reserve(&c[0], 8, 8), status);
    IS(nekchhaul_release(&c[0]), status);
    IS(v != 77 || words[0] != 77 || under != 77 || pause.times != 77 || pause.seen != 77, 0);
}

/* Of each size the numbers at its limits and beside them. The first fault of these is told, so one that stands later shows that a size
 * which would take too much is in range. */
static uint32_t opened(size_t words, size_t records, size_t ring, size_t count, size_t reads, size_t writes, uint64_t clock)
{
    static nekchhaul_caller many[255];
    const nekchhaul_sizes s = { words, records, ring, reads, writes, clock };
    uint32_t status = nekchhaul_open(&s, NEKCHHAUL_OREC_LAZY, many, count);
    for (size_t i = 0; i < 255; i++)
        if (!status && i < count) IS(nekchhaul_release(&many[i]), 0);
        else IS(many[i].tag_ != 0 || many[i].at_ != NULL, 0);
    return status;
}

static void limits(void)
{
    const size_t block = 8192, small = 1048576, words = (size_t)1 << 32, records = 16777216, log = 1048576;
    const uint64_t clock = (uint64_t)1 << 62;
    IS(opened(0, 1, 2, 1, 1, 1, 0), NEKCHHAUL_SIZE_WORDS);
    IS(opened(1, 1, 2, 1, 1, 1, 0), 0);
    IS(opened(small, 1, 2, 1, 1, 1, 0), 0);
    IS(opened(small + 1, 1, 2, 1, 1, 1, 0), NEKCHHAUL_SIZE_WORDS);
    IS(opened(small + block - 1, 1, 2, 1, 1, 1, 0), NEKCHHAUL_SIZE_WORDS);
    IS(opened(small + block, 1, 2, 1, 1, 1, 0), 0);
    IS(opened(words, 0, 2, 1, 1, 1, 0), NEKCHHAUL_SIZE_RECORDS);
    IS(opened(words + block, 0, 2, 1, 1, 1, 0), NEKCHHAUL_SIZE_WORDS);
    IS(opened(1, 0, 2, 1, 1, 1, 0), NEKCHHAUL_SIZE_RECORDS);
    IS(opened(1, records, 0, 1, 1, 1, 0), NEKCHHAUL_SIZE_RING);
    IS(opened(1, records + 1, 0, 1, 1, 1, 0), NEKCHHAUL_SIZE_RECORDS);
    IS(opened(1, 1, 1, 1, 1, 1, 0), NEKCHHAUL_SIZE_RING);
    IS(opened(1, 1, 4096, 1, 1, 1, 0), 0);
    IS(opened(1, 1, 4097, 1, 1, 1, 0), NEKCHHAUL_SIZE_RING);
    IS(opened(1, 1, 2, 0, 1, 1, 0), NEKCHHAUL_SIZE_CALLERS);
    IS(opened(block - 1, 1, 2, 62, 1, 1, 0), 0);
    IS(opened(block - 1, 1, 2, 63, 1, 1, 0), NEKCHHAUL_SIZE_WORDS);
    IS(opened(block, 1, 2, 63, 1, 1, 0), 0);
    IS(opened(block, 1, 2, 254, 1, 1, 0), 0);
    IS(opened(block, 1, 2, 255, 1, 1, 0), NEKCHHAUL_SIZE_CALLERS);
    IS(opened(1, 1, 2, 1, 0, 1, 0), NEKCHHAUL_SIZE_LOGS);
    IS(opened(1, 1, 2, 1, 1, 0, 0), NEKCHHAUL_SIZE_LOGS);
    IS(opened(1, 1, 2, 1, log, log, clock + 1), NEKCHHAUL_SIZE_CLOCK);
    IS(opened(1, 1, 2, 1, log + 1, 1, 0), NEKCHHAUL_SIZE_LOGS);
    IS(opened(1, 1, 2, 1, 1, log + 1, 0), NEKCHHAUL_SIZE_LOGS);
    IS(opened(1, 1, 2, 1, 1, 1, clock), 0);
    IS(opened(1, 1, 2, 1, 1, 1, clock + 1), NEKCHHAUL_SIZE_CLOCK);
}

/* In a memory that isn't small a range is whole blocks. */
static void blocks(void)
{
    const nekchhaul_sizes s = { 4 * 8192, 1, 2, 1, 1, 0 };
    static nekchhaul_caller many[63];
    IS(nekchhaul_open(&s, NEKCHHAUL_OREC_LAZY, many, 63), 0);
    IS(nekchhaul_fence(&many[0], 1, 8192), NEKCHHAUL_ADDRESS);
    IS(nekchhaul_fence(&many[0], 8192, 8191), NEKCHHAUL_ADDRESS);
    IS(nekchhaul_fence(&many[62], 8192, 16384), 0);
    IS(nekchhaul_direct_write(&many[62], 24575, 7), 0);
    IS(nekchhaul_direct_write(&many[62], 24576, 7), NEKCHHAUL_NO_RANGE);
    IS(nekchhaul_direct_write(&many[62], 8191, 7), NEKCHHAUL_NO_RANGE);
    IS(nekchhaul_give_back(&many[62]), 0);
    for (size_t i = 0; i < 63; i++) IS(nekchhaul_release(&many[i]), 0);
}

static void opening(void)
{
    nekchhaul_sizes s = sizes;
    IS(nekchhaul_open(&s, 6, c, 2), NEKCHHAUL_ALGORITHM);
    s.words = 0;
    IS(nekchhaul_open(&s, 0, c, 2), NEKCHHAUL_SIZE_WORDS);
    for (int i = 0; i < 2; i++) IS(c[i].tag_ != 0 || c[i].at_ != NULL, 0);
    limits();
    blocks();
}

/* Many writes in one call: in order, and none after one that is refused. */
static void writes(void)
{
    const size_t addresses[4] = { 3, 0, 3, 4 };
    const uint64_t values[4] = { 1, 2, 3, 4 };
    uint64_t found[4];
    size_t taken = 77;
    IS(nekchhaul_write_many(&c[0], addresses, 3, values, 2, &taken), NEKCHHAUL_ROOM);
    IS(taken, 0);
    IS(nekchhaul_write_many(&c[0], addresses, 0, values, 0, &taken), 0);
    IS(taken, 0);
    IS(nekchhaul_write_many(&c[0], addresses, 4, values, 4, &taken), NEKCHHAUL_ADDRESS);
    IS(taken, 3);
    IS(nekchhaul_read_many(&c[0], addresses, 3, found, 4), 0);
    IS(found[0] != 3 || found[1] != 2 || found[2] != 3, 0);
    IS(nekchhaul_write_many(&c[0], addresses + 3, 1, values, 4, &taken), NEKCHHAUL_ADDRESS);
    IS(taken, 0);
    IS(nekchhaul_write_many(&c[0], addresses, 2, values + 2, 2, &taken), 0);
    IS(taken, 2);
    IS(nekchhaul_read_many(&c[0], addresses, 2, found, 2), 0);
    IS(found[0] != 3 || found[1] != 4, 0);
    const uint64_t zeros[2] = { 0, 0 };
    IS(nekchhaul_write_many(&c[0], addresses, 2, zeros, 2, &taken), 0);
}

/* Marks, logs, ranges, and what came in the way. */
static void attempts(void)
{
    uint64_t v = 77;
    size_t depth = 0;
    nekchhaul_state_of state;
    nekchhaul_cause cause;
    uint32_t under = 77;
    IS(nekchhaul_begin_under(&c[0], &under), 0);
    IS(under, NEKCHHAUL_OREC_LAZY);
    inside(NEKCHHAUL_IN_ATTEMPT, 0);
    IS(nekchhaul_read(&c[0], 4, &v), NEKCHHAUL_ADDRESS);
    IS(nekchhaul_read(&c[0], SIZE_MAX, &v), NEKCHHAUL_ADDRESS);
    IS(nekchhaul_write(&c[0], 4, 1), NEKCHHAUL_ADDRESS);
    size_t addresses[3] = { 3, 0, 4 };
    uint64_t many[3] = { 77, 77, 77 };
    IS(nekchhaul_read_many(&c[0], addresses, 3, many, 2), NEKCHHAUL_ROOM);
    IS(nekchhaul_read_many(&c[0], addresses, 3, many, 3), NEKCHHAUL_ADDRESS);
    IS(nekchhaul_read_many(&c[0], addresses, 2, many, 3), 0);
    IS(many[0] || many[1] || many[2] != 77, 0);
    IS(nekchhaul_read_many(&c[0], addresses, 0, many, 0), 0);
    writes();
    IS(nekchhaul_roll_to(&c[0], 1), NEKCHHAUL_DEPTH);
    IS(nekchhaul_drop_marks(&c[0], 0), NEKCHHAUL_DEPTH);
    for (size_t i = 1; i <= 8; i++) {
        IS(nekchhaul_checkpoint(&c[0], &depth), 0);
        IS(depth != i, 0);
    }
    IS(nekchhaul_checkpoint(&c[0], &depth), NEKCHHAUL_DEEP);
    IS(nekchhaul_why(&c[0], &cause), 0);
    IS(cause.status, NEKCHHAUL_DEEP);
    IS(cause.first != 8, 0);
    IS(nekchhaul_roll_to(&c[0], 9), NEKCHHAUL_DEPTH);
    IS(nekchhaul_roll_to(&c[0], 3), 0);
    IS(nekchhaul_drop_marks(&c[0], 1), 0);
    IS(nekchhaul_write(&c[0], 1, 5), 0);
    IS(nekchhaul_become_irrevocable(&c[0]), 0);
    IS(nekchhaul_cancel(&c[0]), NEKCHHAUL_IRREVOCABLE);
    IS(nekchhaul_state(&c[0], &state), 0);
    IS(state.stand != 1 || state.algorithm != NEKCHHAUL_OREC_LAZY || !state.irrevocable || state.marks || state.range, 0);
    IS(nekchhaul_begin(&c[1]), NEKCHHAUL_GATE_CLOSED);
    IS(nekchhaul_switch(&c[1], NEKCHHAUL_TML), NEKCHHAUL_GATE_CLOSED);
    IS(nekchhaul_reopen(&c[1]), NEKCHHAUL_NOT_CLOSING);
    IS(nekchhaul_commit(&c[0]), 0);
    outside(NEKCHHAUL_NO_ATTEMPT);
    IS(nekchhaul_switch(&c[0], NEKCHHAUL_OREC_EAGER), 0);
    IS(nekchhaul_begin(&c[0]), 0);
    IS(nekchhaul_checkpoint(&c[0], &depth), 0);
    IS(nekchhaul_write(&c[0], 1, 6), 0);
    IS(nekchhaul_roll_to(&c[0], 2), NEKCHHAUL_DEPTH);
    IS(nekchhaul_roll_to(&c[0], 1), 0);
    IS(nekchhaul_cancel(&c[0]), 0);
    IS(nekchhaul_reserve(&c[0], 0, 1), NEKCHHAUL_LOGS);
    IS(nekchhaul_reserve(&c[0], 1, 1048577), NEKCHHAUL_LOGS);
    IS(nekchhaul_reserve(&c[0], 1048577, 1), NEKCHHAUL_LOGS);
    IS(nekchhaul_reserve(&c[0], 1048576, 1), 0);
    IS(nekchhaul_reserve(&c[0], 16, 16), 0);
}

/* An attempt that met another's commit, and one whose log is short. */
static void conflicts(void)
{
    uint64_t v = 77;
    nekchhaul_cause cause;
    IS(nekchhaul_switch(&c[0], NEKCHHAUL_OREC_LAZY), 0);
    IS(nekchhaul_begin(&c[0]), 0);
    IS(nekchhaul_read(&c[0], 1, &v), 0);
    IS(v != 5, 0);
    IS(nekchhaul_begin(&c[1]), 0);
    IS(nekchhaul_write(&c[1], 1, 6), 0);
    IS(nekchhaul_commit(&c[1]), 0);
    IS(nekchhaul_write(&c[0], 1, 7), 0);
    IS(nekchhaul_commit(&c[0]), NEKCHHAUL_CONFLICT);
    IS(nekchhaul_why(&c[0], &cause), 0);
    IS(cause.status, NEKCHHAUL_CONFLICT);
    IS(cause.kind == 0, 0);
    IS(nekchhaul_commit(&c[0]), NEKCHHAUL_NO_ATTEMPT);
}

static void ranges(void)
{
    uint64_t v = 77, words[5] = { 77, 77, 77, 77, 77 };
    nekchhaul_cause cause;
    nekchhaul_state_of state;
    IS(nekchhaul_fence(&c[0], 0, 0), NEKCHHAUL_ADDRESS);
    IS(nekchhaul_fence(&c[0], 4, 1), NEKCHHAUL_ADDRESS);
    IS(nekchhaul_fence(&c[0], SIZE_MAX, 2), NEKCHHAUL_ADDRESS);
    IS(nekchhaul_fence(&c[0], 1, SIZE_MAX), NEKCHHAUL_ADDRESS);
    IS(nekchhaul_give_back(&c[0]), NEKCHHAUL_NO_RANGE);
    IS(nekchhaul_direct_read(&c[0], 1, &v), NEKCHHAUL_NO_RANGE);
    IS(nekchhaul_fence(&c[0], 1, 1), 0);
    IS(nekchhaul_fence(&c[0], 2, 1), NEKCHHAUL_HOLDS_RANGE);
    IS(nekchhaul_close(&c[0], words, 4), NEKCHHAUL_HOLDS_RANGE);
    IS(nekchhaul_release(&c[0]), NEKCHHAUL_HOLDS_RANGE);
    IS(nekchhaul_fence(&c[1], 2, 1), NEKCHHAUL_RANGE_TAKEN);
    IS(nekchhaul_close(&c[1], words, 4), NEKCHHAUL_RANGE_TAKEN);
    IS(nekchhaul_direct_read(&c[0], 0, &v), NEKCHHAUL_NO_RANGE);
    IS(nekchhaul_direct_write(&c[0], SIZE_MAX, 1), NEKCHHAUL_NO_RANGE);
    IS(nekchhaul_direct_read(&c[0], 1, &v), 0);
    IS(v != 6, 0);
    IS(nekchhaul_direct_write(&c[0], 1, 9), 0);
    uint32_t under = 77;
    IS(nekchhaul_begin_under(&c[1], &under), 0);
    IS(under, NEKCHHAUL_BESIDE + NEKCHHAUL_OREC_LAZY);
    IS(nekchhaul_read(&c[1], 1, &v), NEKCHHAUL_FENCED);
    IS(nekchhaul_write(&c[1], 1, 1), NEKCHHAUL_FENCED);
    const size_t beside[3] = { 2, 1, 3 };
    size_t taken = 77;
    IS(nekchhaul_write_many(&c[1], beside, 3, words, 3, &taken), NEKCHHAUL_FENCED);
    IS(taken, 1);
    IS(nekchhaul_read(&c[1], 3, &v), 0);
    IS(v, 0);
    IS(nekchhaul_write(&c[1], 2, 0), 0);
    IS(nekchhaul_read(&c[1], 2, &v), 0);
    IS(nekchhaul_state(&c[1], &state), 0);
    IS(state.stand != 1 || state.range != 2, 0);
    IS(nekchhaul_give_back(&c[0]), NEKCHHAUL_BUSY);
    IS(nekchhaul_why(&c[0], &cause), 0);
    IS(cause.status != NEKCHHAUL_BUSY || cause.first != 1, 0);
    IS(nekchhaul_state(&c[0], &state), 0);
    IS(state.stand != 3 || state.range != 1, 0);
    inside(NEKCHHAUL_CLOSING, 1);
    outside(NEKCHHAUL_CLOSING);
    IS(nekchhaul_give_back(&c[0]), NEKCHHAUL_BUSY);
    IS(nekchhaul_reopen(&c[0]), 0);
    IS(nekchhaul_reopen(&c[0]), NEKCHHAUL_NOT_CLOSING);
    IS(nekchhaul_give_back(&c[0]), NEKCHHAUL_BUSY);
    IS(nekchhaul_commit(&c[1]), 0);
    IS(nekchhaul_begin(&c[1]), NEKCHHAUL_GATE_CLOSED);
    IS(nekchhaul_give_back(&c[0]), 0);
    IS(nekchhaul_close(&c[0], words, 3), NEKCHHAUL_ROOM);
    IS(words[0] != 77, 0);
    IS(nekchhaul_close(&c[0], words, 5), 0);
    IS(words[0] || words[1] != 9 || words[2] || words[3] || words[4] != 77, 0);
    IS(nekchhaul_give_back(&c[0]), NEKCHHAUL_NO_RANGE);
    IS(nekchhaul_begin(&c[1]), 0);
    IS(nekchhaul_read(&c[1], 0, &v), NEKCHHAUL_FENCED);
    IS(nekchhaul_commit(&c[1]), 0);
}

static uint32_t misuses(nekchhaul_caller *caller, void *address)
{
    uint64_t v;
    return nekchhaul_read(caller, *(size_t *)address, &v);
}
static uint32_t stops(nekchhaul_caller *caller, void *word)
{
    uint32_t s = nekchhaul_write(caller, 0, *(uint64_t *)word);
    return s ? s : NEKCHHAUL_STOP + 3;
}

/* What two callers of one memory tell each other, and two of different memories don't; the second memory has one caller
 * more, whose place the first has not. */
static void learning(void)
{
    nekchhaul_caller d[3], none = NEKCHHAUL_NO_CALLER_INIT;
    nekchhaul_state_of state;
    memset(d, 0, sizeof d);
    IS(nekchhaul_open(&sizes, NEKCHHAUL_TML, d, 3), 0);
    for (int turn = 0; turn < 2; turn++) {
        IS(nekchhaul_learn(&c[0], &c[1]), 0);
        IS(nekchhaul_learn(&c[1], &c[0]), 0);
        for (int i = 0; i < 2; i++) {
            for (int k = 0; k < 3; k++) {
                IS(nekchhaul_learn(&c[i], &d[k]), NEKCHHAUL_STRANGER);
                IS(nekchhaul_learn(&d[k], &c[i]), NEKCHHAUL_STRANGER);
            }
        }
        IS(nekchhaul_learn(&d[2], &d[0]), 0);
    }
    IS(nekchhaul_learn(&none, &c[0]), NEKCHHAUL_NO_CALLER);
    IS(nekchhaul_learn(&c[0], &none), NEKCHHAUL_NO_CALLER);
    IS(nekchhaul_learn(&none, &none), NEKCHHAUL_NO_CALLER);
    IS(nekchhaul_learn(&c[0], &c[0]), NEKCHHAUL_ONE_CALLER);
    IS(nekchhaul_switch(&none, 77), NEKCHHAUL_NO_CALLER);
    IS(nekchhaul_state(&c[0], &state), 0);
    IS(state.stand, 0);
    for (int k = 0; k < 3; k++) IS(nekchhaul_release(&d[k]), 0);
}

/* What a caller's calls are counted as. */
static void counting(void)
{
    const nekchhaul_sizes small = { 8, 8, 8, 2, 2, 0 };
    const nekchhaul_counts_of want = { .begun = 5, .committed = 2, .read_only = 1, .promoted = 1, .full_logs = 1, .waits = 1, .record_conflicts = 1 };
    nekchhaul_caller d[2], none = NEKCHHAUL_NO_CALLER_INIT;
    nekchhaul_counts_of got;
    uint64_t v;
    memset(d, 0, sizeof d);
    IS(nekchhaul_open(&small, NEKCHHAUL_OREC_LAZY, d, 2), 0);
    IS(nekchhaul_begin(&d[0]), 0);
    IS(nekchhaul_write(&d[0], 0, 1), 0);
    IS(nekchhaul_commit(&d[0]), 0);
    IS(nekchhaul_begin(&d[0]), 0);
    IS(nekchhaul_commit(&d[0]), 0);
    IS(nekchhaul_begin(&d[0]), 0);
    IS(nekchhaul_read(&d[0], 0, &v), 0);
    IS(nekchhaul_begin(&d[1]), 0);
    for (size_t a = 0; a < 2; a++) IS(nekchhaul_write(&d[1], a, 2), 0);
    IS(nekchhaul_commit(&d[1]), 0);
    IS(nekchhaul_read(&d[0], 1, &v), NEKCHHAUL_CONFLICT);
    IS(nekchhaul_begin(&d[0]), 0);
    for (size_t a = 0; a < 2; a++) IS(nekchhaul_write(&d[0], a, 3), 0);
    IS(nekchhaul_write(&d[0], 2, 3), NEKCHHAUL_LOG_FULL);
    IS(nekchhaul_begin(&d[1]), 0);
    IS(nekchhaul_switch(&d[0], NEKCHHAUL_CGL), NEKCHHAUL_BUSY);
    IS(nekchhaul_reopen(&d[0]), 0);
    IS(nekchhaul_cancel(&d[1]), 0);
    IS(nekchhaul_begin(&d[0]), 0);
    IS(nekchhaul_become_irrevocable(&d[0]), 0);
    IS(nekchhaul_write(&d[0], 0, 4), 0);
    IS(nekchhaul_commit(&d[0]), 0);
    IS(nekchhaul_counts(&d[0], &got), 0);
    IS(memcmp(&got, &want, sizeof want) != 0, 0);
    IS(nekchhaul_counts(&none, &got), NEKCHHAUL_NO_CALLER);
    for (int i = 0; i < 2; i++) IS(nekchhaul_release(&d[i]), 0);
}

/* An attempt of a loop is ended by nekchhaul_leave alone. */
static void loop_by_hand(void)
{
    uint64_t v = 77;
    nekchhaul_pause_of pause = { 77, 77, NULL };
    IS(nekchhaul_enter(&c[0], &pause), NEKCHHAUL_RUN);
    inside(NEKCHHAUL_IN_ATTEMPT, 0);
    IS(nekchhaul_commit(&c[0]), NEKCHHAUL_IN_ATTEMPT);
    IS(nekchhaul_cancel(&c[0]), NEKCHHAUL_IN_ATTEMPT);
    IS(nekchhaul_abandon(&c[0]), NEKCHHAUL_IN_ATTEMPT);
    IS(nekchhaul_write(&c[0], 0, 9), 0);
    IS(nekchhaul_read(&c[0], 4, &v), NEKCHHAUL_ADDRESS);
    IS(nekchhaul_read(&c[0], 0, &v), 0);
    IS(v, 9);
    IS(nekchhaul_leave(&c[0], NEKCHHAUL_RETRY, &pause), NEKCHHAUL_PAUSE);
    IS(pause.times == 77 || pause.seen != 0, 0);
    IS(nekchhaul_leave(&c[0], 0, &pause), NEKCHHAUL_NO_ATTEMPT);
    IS(nekchhaul_enter(&c[0], &pause), NEKCHHAUL_RUN);
    IS(nekchhaul_read(&c[0], 0, &v), 0);
    IS(v, 0);
    IS(nekchhaul_write(&c[0], 1, 9), 0);
    IS(nekchhaul_leave(&c[0], NEKCHHAUL_ADDRESS, &pause), NEKCHHAUL_ADDRESS);
    IS(nekchhaul_enter(&c[0], &pause), NEKCHHAUL_RUN);
    IS(nekchhaul_read(&c[0], 1, &v), 0);
    IS(v, 0);
    IS(nekchhaul_leave(&c[0], 0, &pause), 0);
    IS(nekchhaul_leave(&c[0], 0, &pause), NEKCHHAUL_NO_ATTEMPT);
}

/* What the header's loop answers, under each algorithm. */
static void loops(uint32_t algorithm)
{
    size_t far = 4;
    uint64_t word = 8, words[4];
    IS(nekchhaul_open(&sizes, algorithm, c, 2), 0);
    loop_by_hand();
    IS(nekchhaul_atomically(&c[0], misuses, &far), NEKCHHAUL_ADDRESS);
    IS(nekchhaul_atomically(&c[0], stops, &word), NEKCHHAUL_STOP + 3);
    IS(nekchhaul_take_range(&c[1], 1, 1), 0);
    IS(nekchhaul_atomically(&c[0], stops, &word), NEKCHHAUL_STOP + 3);
    far = 1;
    IS(nekchhaul_atomically(&c[1], misuses, &far), NEKCHHAUL_FENCED); /* it has the word itself */
    IS(nekchhaul_return_range(&c[1]), 0);
    IS(nekchhaul_atomically(&c[1], misuses, &far), 0);
    IS(nekchhaul_begin(&c[0]), 0);
    IS(nekchhaul_install_within(&c[1], NEKCHHAUL_SERIAL, 3), NEKCHHAUL_BUSY);
    IS(nekchhaul_take_range_within(&c[1], 1, 1, 2), NEKCHHAUL_BUSY);
    IS(nekchhaul_end_within(&c[1], words, 4, 1), NEKCHHAUL_BUSY);
    IS(nekchhaul_reopen(&c[1]), NEKCHHAUL_NOT_CLOSING);
    IS(nekchhaul_commit(&c[0]), 0);
    IS(nekchhaul_end(&c[1], words, 4), 0);
    IS(words[0] || words[1], 0);
    for (int i = 0; i < 2; i++) IS(nekchhaul_atomically(&c[i], misuses, &far), NEKCHHAUL_FENCED); /* the memory has ended */
    nekchhaul_caller moved = nekchhaul_move(&c[1]);
    IS(nekchhaul_begin(&c[1]), NEKCHHAUL_NO_CALLER);
    IS(nekchhaul_atomically(&c[1], misuses, &far), NEKCHHAUL_NO_CALLER);
    IS(nekchhaul_release(&moved), 0);
    IS(nekchhaul_release(&c[0]), 0);
}

/* At the clock's limit a range isn't given back: its words are read directly, all others by attempts, and its caller stays. */
static void full_clock(void)
{
    nekchhaul_sizes s = sizes;
    uint64_t v = 77;
    s.clock = (uint64_t)1 << 62;
    IS(nekchhaul_open(&s, NEKCHHAUL_OREC_LAZY, c, 2), 0);
    IS(nekchhaul_take_range(&c[0], 1, 2), 0);
    IS(nekchhaul_direct_write(&c[0], 1, 9), 0);
    IS(nekchhaul_return_range(&c[0]), NEKCHHAUL_CLOCK_FULL);
    IS(nekchhaul_direct_read(&c[0], 1, &v), 0);
    IS(v != 9, 0);
    IS(nekchhaul_begin(&c[0]), 0);
    IS(nekchhaul_read(&c[0], 1, &v), NEKCHHAUL_FENCED);
    IS(nekchhaul_read(&c[0], 3, &v), 0);
    IS(v != 0, 0);
    IS(nekchhaul_commit(&c[0]), 0);
    IS(nekchhaul_release(&c[0]), NEKCHHAUL_HOLDS_RANGE);
    IS(nekchhaul_release(&c[1]), 0);
}

int main(void)
{
    uint64_t v = 77;
    nekchhaul_state_of state;
    nekchhaul_cause cause;
    IS(nekchhaul_version() & ~NEKCHHAUL_UNPROVED, 65536u * NEKCHHAUL_VERSION_MAJOR + NEKCHHAUL_VERSION_MINOR);
    outside(NEKCHHAUL_NO_CALLER);
    inside(NEKCHHAUL_NO_CALLER, 0);
    IS(nekchhaul_state(&c[0], &state), NEKCHHAUL_NO_CALLER);
    IS(nekchhaul_why(&c[0], &cause), NEKCHHAUL_NO_CALLER);
    opening();
    IS(nekchhaul_open(&sizes, NEKCHHAUL_OREC_LAZY, c, 2), 0);
    IS(nekchhaul_open(&sizes, NEKCHHAUL_OREC_LAZY, c, 2), NEKCHHAUL_HOLDS_CALLER);
    IS(nekchhaul_why(&c[0], &cause), 0);
    IS(cause.status, 0);
    outside(NEKCHHAUL_NO_ATTEMPT);
    IS(nekchhaul_switch(&c[0], 6), NEKCHHAUL_ALGORITHM);
    attempts();
    learning();
    counting();
    conflicts();
    ranges();
    IS(nekchhaul_release(&c[0]), 0);
    IS(nekchhaul_read(&c[0], 0, &v), NEKCHHAUL_NO_CALLER);
    IS(nekchhaul_release(&c[0]), NEKCHHAUL_NO_CALLER);
    IS(nekchhaul_release(&c[1]), 0);
    for (uint32_t algorithm = 0; algorithm < 6; algorithm++) loops(algorithm);
    full_clock();
    return wrong;
}
