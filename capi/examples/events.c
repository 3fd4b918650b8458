/* What a loop answers for each event, and what is left of it, as lines of capi/events.data: a body reads 400 words beside logs
 * of 64 or of 4, writes word 0, and then does what the line says; plain, and while another caller comes in between up to 20
 * times, so that all but the locks promote it. Where half of it stands, or where one algorithm differs, a line is another one.
 * events.cpp, events.rs and events.py do the same. */
#include "nekchhaul.h"
#include <stdio.h>
#include <stdlib.h>
#include <string.h>

enum { WORDS = 403, STOPS = NEKCHHAUL_STOP + 7 };
#define TRY(call) do { uint32_t s_ = (call); if (s_) return s_; } while (0)
#define MUST(holds) do { if (!(holds)) { fprintf(stderr, "events.c:%d: %s\n", __LINE__, #holds); exit(1); } } while (0)
#ifndef ATOMICALLY
#define ATOMICALLY nekchhaul_atomically
#endif

struct run {
    uint32_t (*does)(nekchhaul_caller *, struct run *);
    nekchhaul_caller *other;
    int between; /* so often the other caller comes in between */
    int ends;    /* how often the body came to its end */
    int half;    /* whether an attempt met what one before it had left */
};

/* Parts of bodies. */
static uint32_t put(nekchhaul_caller *c, void *argument)
{
    (void)argument;
    return nekchhaul_write(c, 1, 1);
}

static uint32_t put_last(nekchhaul_caller *c, void *argument)
{
    (void)argument;
    return nekchhaul_write(c, 2, 1);
}

static uint32_t put_and_stop(nekchhaul_caller *c, void *argument)
{
    TRY(put(c, argument));
    return STOPS;
}

static uint32_t put_and_misuse(nekchhaul_caller *c, void *argument)
{
    TRY(put(c, argument));
    return nekchhaul_write(c, WORDS, 1);
}

/* It is to be retried the first time. */
static uint32_t put_and_retry(nekchhaul_caller *c, void *argument)
{
    struct run *r = argument;
    TRY(put(c, argument));
    return r->ends++ ? NEKCHHAUL_OK : (uint32_t)NEKCHHAUL_RETRY;
}

static uint32_t put_and_always_retry(nekchhaul_caller *c, void *argument)
{
    TRY(put(c, argument));
    return NEKCHHAUL_RETRY;
}

static uint32_t put_last_and_retry(nekchhaul_caller *c, void *argument)
{
    struct run *r = argument;
    TRY(put_last(c, argument));
    return r->ends++ ? NEKCHHAUL_OK : (uint32_t)NEKCHHAUL_RETRY;
}

static uint32_t nest_on(nekchhaul_caller *c, void *argument)
{
    return nekchhaul_nested(c, nest_on, argument);
}

/* The events. */
static uint32_t done(nekchhaul_caller *c, struct run *r) { (void)c, (void)r; return NEKCHHAUL_OK; }
static uint32_t stops(nekchhaul_caller *c, struct run *r) { return put_and_stop(c, r); }
static uint32_t misuses(nekchhaul_caller *c, struct run *r) { return put_and_misuse(c, r); }
static uint32_t retries(nekchhaul_caller *c, struct run *r) { return put_and_retry(c, r); }
static uint32_t joins(nekchhaul_caller *c, struct run *r) { return ATOMICALLY(c, put, r); }
static uint32_t joined_stops(nekchhaul_caller *c, struct run *r) { return ATOMICALLY(c, put_and_stop, r); }
static uint32_t joined_retries(nekchhaul_caller *c, struct run *r) { return ATOMICALLY(c, put_and_retry, r); }
static uint32_t nests(nekchhaul_caller *c, struct run *r) { return nekchhaul_nested(c, put, r); }
static uint32_t nested_stops(nekchhaul_caller *c, struct run *r) { return nekchhaul_nested(c, put_and_stop, r); }
static uint32_t nested_misuses(nekchhaul_caller *c, struct run *r) { return nekchhaul_nested(c, put_and_misuse, r); }
static uint32_t nested_retries(nekchhaul_caller *c, struct run *r) { return nekchhaul_nested(c, put_and_retry, r); }
static uint32_t goes_on_after_stop(nekchhaul_caller *c, struct run *r)
{
    uint32_t s = nekchhaul_nested(c, put_and_stop, r);
    return s == STOPS ? put_last(c, r) : s;
}
static uint32_t either(nekchhaul_caller *c, struct run *r) { return nekchhaul_or_else(c, put_and_always_retry, put_last, r); }
static uint32_t either_stops(nekchhaul_caller *c, struct run *r) { return nekchhaul_or_else(c, put_and_always_retry, put_and_stop, r); }
static uint32_t neither(nekchhaul_caller *c, struct run *r) { return nekchhaul_or_else(c, put_and_always_retry, put_last_and_retry, r); }
static uint32_t nests_deep(nekchhaul_caller *c, struct run *r) { return nest_on(c, r); }
static uint32_t marks_deep(nekchhaul_caller *c, struct run *r)
{
    (void)r;
    for (size_t depth;;) TRY(nekchhaul_checkpoint(c, &depth));
}

static const struct { const char *name; uint32_t (*does)(nekchhaul_caller *, struct run *); } events[] = {
    { "done", done }, { "stops", stops }, { "misuses", misuses }, { "retries", retries },
    { "joins", joins }, { "joined_stops", joined_stops }, { "joined_retries", joined_retries },
    { "nests", nests }, { "nested_stops", nested_stops }, { "nested_misuses", nested_misuses }, { "nested_retries", nested_retries },
    { "goes_on_after_stop", goes_on_after_stop }, { "either", either }, { "either_stops", either_stops }, { "neither", neither },
    { "nests_deep", nests_deep }, { "marks_deep", marks_deep },
};

/* The other caller writes a word that was read and one that is read next, if it can. */
static void come_between(struct run *r)
{
    if (r->between == 0) return;
    r->between--;
    if (nekchhaul_begin(r->other)) return;
    if (!nekchhaul_write(r->other, 3, 0) && !nekchhaul_write(r->other, WORDS - 1, 0) && !nekchhaul_commit(r->other)) return;
    (void)nekchhaul_abandon(r->other);
}

static uint32_t body(nekchhaul_caller *c, void *argument)
{
    struct run *r = argument;
    uint64_t v;
    for (size_t i = 3; i < WORDS - 1; i++) TRY(nekchhaul_read(c, i, &v));
    come_between(r);
    TRY(nekchhaul_read(c, WORDS - 1, &v));
    for (size_t i = 0; i < 3; i++) {
        TRY(nekchhaul_read(c, i, &v));
        r->half |= v != 0;
    }
    TRY(nekchhaul_write(c, 0, 1));
    return r->does(c, r);
}

/* The first three words, read and then made 0. */
static uint32_t take(nekchhaul_caller *c, void *words)
{
    uint64_t *w = words;
    for (size_t i = 0; i < 3; i++) {
        TRY(nekchhaul_read(c, i, &w[i]));
        TRY(nekchhaul_write(c, i, 0));
    }
    return NEKCHHAUL_OK;
}

static void run_all(uint32_t algorithm, size_t logs, int between)
{
    const nekchhaul_sizes sizes = { WORDS, 64, 64, logs, logs, 0 };
    for (size_t i = 0; i < sizeof events / sizeof *events; i++) {
        nekchhaul_caller c[2] = { NEKCHHAUL_NO_CALLER_INIT, NEKCHHAUL_NO_CALLER_INIT };
        struct run r = { events[i].does, &c[1], between, 0, 0 };
        uint64_t w[3];
        MUST(nekchhaul_open(&sizes, algorithm, c, 2) == 0);
        uint32_t s = ATOMICALLY(&c[0], body, &r);
        nekchhaul_counts_of counts;
        MUST(nekchhaul_counts(&c[0], &counts) == 0 && (counts.promoted > 0) == (between && algorithm != NEKCHHAUL_CGL && algorithm != NEKCHHAUL_SERIAL));
        MUST(nekchhaul_begin(&c[0]) == 0 && nekchhaul_commit(&c[0]) == 0); /* no attempt is open */
        MUST(take(&c[1], w) == NEKCHHAUL_NO_ATTEMPT && nekchhaul_begin(&c[1]) == 0 && take(&c[1], w) == 0 && nekchhaul_commit(&c[1]) == 0);
        printf("%s %s", events[i].name, nekchhaul_status_name(s));
        if (s >= NEKCHHAUL_STOP) printf("+%u", (unsigned)(s - NEKCHHAUL_STOP));
        printf(" %u%u%u%s\n", (unsigned)w[0], (unsigned)w[1], (unsigned)w[2], r.half ? " and a half was seen" : "");
        for (int k = 0; k < 2; k++) MUST(nekchhaul_release(&c[k]) == 0);
    }
}

int main(void)
{
    for (uint32_t algorithm = 0; algorithm < 6; algorithm++) {
        for (size_t logs = 4; logs <= 64; logs += 60) {
            for (int between = 0; between <= 20; between += 20) {
                fprintf(stderr, "under %u, with logs of %zu, %d times between\n", (unsigned)algorithm, logs, between);
                run_all(algorithm, logs, between);
            }
        }
    }
    return 0;
}
