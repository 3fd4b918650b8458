/* Bodies inside bodies, under each algorithm: what an inner body writes stands with the outer's or not at all, one that stops
 * leaves nothing, and alternatives are tried in turn. Then threads that move money by nested bodies of which one in eight stops. */
#include "nekchhaul.h"

#include <pthread.h>
#include <stdio.h>
#include <stdlib.h>
#include <string.h>

enum { ACCOUNTS = 16, BALANCE = 1000, THREADS = 4, TRANSFERS = 20000, STOPS = NEKCHHAUL_STOP + 1 };
#define TRY(call) do { uint32_t s_ = (call); if (s_) return s_; } while (0)
#define IS(call, answer) do { uint64_t s_ = (call); if (s_ != (uint64_t)(answer)) { printf("%s, line %d: %s is %llu\n", names[algorithm], __LINE__, #call, (unsigned long long)s_); wrong = 1; } } while (0)

static const char *const names[] = { "CGL", "TML", "OrecLazy", "OrecEager", "RingSW", "Serial" };
static uint32_t algorithm;
static int wrong;

static uint32_t put(nekchhaul_caller *c, void *word)
{
    return nekchhaul_write(c, 1, *(uint64_t *)word);
}

static uint32_t put_and_stop(nekchhaul_caller *c, void *word)
{
    TRY(put(c, word));
    return STOPS;
}

static uint32_t put_and_retry(nekchhaul_caller *c, void *word)
{
    TRY(put(c, word));
    return NEKCHHAUL_RETRY;
}

/* An outer body, and what it does with an inner one: hands its answer on, or goes on with what it was. */
struct outer {
    uint32_t (*how)(nekchhaul_caller *, nekchhaul_body, void *);
    nekchhaul_body inner;
    int hands_on;
    uint32_t answer;
};

static uint32_t around(nekchhaul_caller *c, void *argument)
{
    struct outer *o = argument;
    uint64_t word = 9;
    TRY(nekchhaul_write(c, 0, 7));
    o->answer = o->how(c, o->inner, &word);
    if (o->hands_on && o->answer) return o->answer;
    return nekchhaul_write(c, 2, 8);
}

static uint32_t either(nekchhaul_caller *c, nekchhaul_body inner, void *argument)
{
    return nekchhaul_or_else(c, inner, put, argument);
}

static uint32_t neither(nekchhaul_caller *c, nekchhaul_body inner, void *argument)
{
    uint32_t s = nekchhaul_or_else(c, inner, inner, argument);
    return s == NEKCHHAUL_RETRY ? (uint32_t)STOPS : s;
}

static uint32_t ninth(nekchhaul_caller *c, void *depth)
{
    if (!*(int *)depth) return NEKCHHAUL_OK;
    --*(int *)depth;
    return nekchhaul_nested(c, ninth, depth);
}

static uint32_t is(nekchhaul_caller *c, void *words)
{
    uint64_t *w = words;
    for (size_t i = 0; i < 3; i++) TRY(nekchhaul_read(c, i, &w[i]));
    return NEKCHHAUL_OK;
}

static uint32_t clear(nekchhaul_caller *c, void *argument)
{
    (void)argument;
    for (size_t i = 0; i < 3; i++) TRY(nekchhaul_write(c, i, 0));
    return NEKCHHAUL_OK;
}

/* The three words after an outer body, as a number of three digits; they are 0 again then. */
static uint64_t left(nekchhaul_caller *c)
{
    uint64_t w[3];
    if (nekchhaul_atomically(c, is, w) || nekchhaul_atomically(c, clear, NULL)) abort();
    return 100 * w[0] + 10 * w[1] + w[2];
}

static void in_loops(nekchhaul_caller *c)
{
    struct outer joins = { nekchhaul_atomically, put, 1, 0 }, stops = { nekchhaul_atomically, put_and_stop, 1, 0 };
    struct outer ignores = { nekchhaul_atomically, put_and_stop, 0, 0 }, nests = { nekchhaul_nested, put_and_stop, 0, 0 };
    struct outer keeps = { nekchhaul_nested, put, 1, 0 }, chooses = { either, put_and_retry, 1, 0 }, fails = { neither, put_and_retry, 1, 0 };
    int depth = 9;
    IS(nekchhaul_atomically(c, around, &joins), 0);
    IS(left(c), 798);
    IS(nekchhaul_atomically(c, around, &stops), STOPS);
    IS(left(c), 0);
    IS(nekchhaul_atomically(c, around, &ignores), 0);
    IS(ignores.answer, STOPS);
    IS(left(c), 708);
    IS(nekchhaul_atomically(c, around, &nests), 0);
    IS(nests.answer, STOPS);
    IS(left(c), 708);
    IS(nekchhaul_atomically(c, around, &keeps), 0);
    IS(left(c), 798);
    IS(nekchhaul_atomically(c, around, &chooses), 0);
    IS(left(c), 798);
    IS(nekchhaul_atomically(c, around, &fails), STOPS);
    IS(left(c), 0);
    IS(nekchhaul_atomically(c, ninth, &depth), NEKCHHAUL_DEEP);
    depth = 8;
    IS(nekchhaul_atomically(c, ninth, &depth), 0);
}

/* In an attempt of nekchhaul_begin: where that can't be rolled back, what a part wrote stands. */
static void by_hand(nekchhaul_caller *c)
{
    const int stands = algorithm <= NEKCHHAUL_TML;
    uint64_t word = 9;
    IS(nekchhaul_nested(c, put, &word), NEKCHHAUL_NO_ATTEMPT);
    IS(nekchhaul_or_else(c, put, put, &word), NEKCHHAUL_NO_ATTEMPT);
    IS(nekchhaul_begin(c), 0);
    IS(nekchhaul_nested(c, put, &word), 0);
    IS(nekchhaul_commit(c), 0);
    IS(left(c), 90);
    IS(nekchhaul_begin(c), 0);
    IS(nekchhaul_atomically(c, put_and_stop, &word), stands ? NEKCHHAUL_IRREVOCABLE : STOPS);
    IS(nekchhaul_commit(c), 0);
    IS(left(c), stands ? 90 : 0);
}

/* What a body that made its attempt irrevocable wrote stands, whatever it answers. */
static uint32_t put_for_good_and_stop(nekchhaul_caller *c, void *word)
{
    uint32_t s;
    while ((s = nekchhaul_become_irrevocable(c)) == NEKCHHAUL_BUSY) nekchhaul_spin(32);
    return s ? s : put_and_stop(c, word);
}

static uint32_t nest_for_good(nekchhaul_caller *c, void *word)
{
    TRY(nekchhaul_write(c, 0, 7));
    return nekchhaul_nested(c, put_for_good_and_stop, word);
}

static void irrevocable(nekchhaul_caller *c)
{
    uint64_t word = 9;
    IS(nekchhaul_atomically(c, put_for_good_and_stop, &word), NEKCHHAUL_IRREVOCABLE);
    IS(left(c), 90);
    IS(nekchhaul_atomically(c, nest_for_good, &word), NEKCHHAUL_IRREVOCABLE);
    IS(left(c), 790);
}

struct move { size_t from, to; int stops, nested; };

static uint32_t pay(nekchhaul_caller *c, void *argument)
{
    struct move *m = argument;
    uint64_t had;
    TRY(nekchhaul_read(c, m->from, &had));
    return nekchhaul_write(c, m->from, had - 1);
}

static uint32_t take(nekchhaul_caller *c, void *argument)
{
    struct move *m = argument;
    uint64_t had;
    TRY(nekchhaul_read(c, m->to, &had));
    TRY(nekchhaul_write(c, m->to, had + 1));
    return m->stops ? (uint32_t)STOPS : 0;
}

/* Where the inner body's stop is answered by its mark, the outer one pays back. */
static uint32_t move(nekchhaul_caller *c, void *argument)
{
    struct move *m = argument;
    uint64_t had;
    TRY(nekchhaul_atomically(c, pay, m));
    uint32_t s = m->nested ? nekchhaul_nested(c, take, m) : nekchhaul_atomically(c, take, m);
    if (!m->nested || s != STOPS) return s;
    TRY(nekchhaul_read(c, m->from, &had));
    return nekchhaul_write(c, m->from, had + 1);
}

static void *trade(void *caller)
{
    uint64_t x = 88172645463325252u + (uint64_t)(uintptr_t)caller;
    for (int i = 0; i < TRANSFERS; i++) {
        x ^= x << 13, x ^= x >> 7, x ^= x << 17;
        struct move m = { x % ACCOUNTS, (x % ACCOUNTS + 1 + (x >> 20) % (ACCOUNTS - 1)) % ACCOUNTS, i % 8 == 0, i % 16 == 0 };
        if (nekchhaul_atomically(caller, move, &m) != (m.stops && !m.nested ? (uint32_t)STOPS : 0)) abort();
    }
    return NULL;
}

static void trades(void)
{
    nekchhaul_sizes sizes = { ACCOUNTS, 64, 64, 1, 1, 0 }; /* so that inner bodies meet full logs */
    nekchhaul_caller callers[THREADS];
    pthread_t threads[THREADS];
    uint64_t words[ACCOUNTS], sum = 0;
    memset(callers, 0, sizeof callers);
    if (nekchhaul_open(&sizes, algorithm, callers, THREADS)) abort();
    if (nekchhaul_take_range(&callers[0], 0, ACCOUNTS)) abort();
    for (size_t i = 0; i < ACCOUNTS; i++)
        if (nekchhaul_direct_write(&callers[0], i, BALANCE)) abort();
    if (nekchhaul_return_range(&callers[0])) abort();
    for (size_t i = 0; i < THREADS; i++)
        if (pthread_create(&threads[i], NULL, trade, &callers[i])) abort();
    for (size_t i = 0; i < THREADS; i++) pthread_join(threads[i], NULL);
    if (nekchhaul_end(&callers[0], words, ACCOUNTS)) abort();
    for (size_t i = 0; i < ACCOUNTS; i++) sum += words[i];
    for (size_t i = 0; i < THREADS; i++)
        if (nekchhaul_release(&callers[i])) abort();
    IS(sum, ACCOUNTS * BALANCE);
}

int main(void)
{
    for (algorithm = 0; algorithm < 6; algorithm++) {
        nekchhaul_sizes sizes = { 3, 4, 4, 8, 8, 0 };
        nekchhaul_caller c = NEKCHHAUL_NO_CALLER_INIT;
        if (nekchhaul_open(&sizes, algorithm, &c, 1)) return 1;
        in_loops(&c);
        by_hand(&c);
        irrevocable(&c);
        trades();
        if (nekchhaul_release(&c)) return 1;
    }
    return wrong;
}
