#define _POSIX_C_SOURCE 200809L
/* Where malloc refuses: open and reserve answer MEMORY, and then all is as before. All other calls need no memory. */
#include "nekchhaul.h"
#include <stdio.h>
#include <stdlib.h>
#include <string.h>
#include <sys/resource.h>

#define MUST(holds) do { if (!(holds)) { fprintf(stderr, "%s:%d: %s\n", __FILE__, __LINE__, #holds); exit(1); } } while (0)

enum { WORDS = 1 << 20, CALLERS = 32 };

static uint64_t words[WORDS];

/* No room for more than is taken. */
static void set_room(int plenty)
{
    static struct rlimit before;
    struct rlimit now;
    if (!before.rlim_max) MUST(getrlimit(RLIMIT_AS, &before) == 0);
    now = before;
    if (!plenty) now.rlim_cur = 1 << 20;
    MUST(setrlimit(RLIMIT_AS, &now) == 0);
}

/* Takes the stack that the calls below need. */
static void grow_stack(void)
{
    volatile char room[1 << 16];
    for (size_t i = 0; i < sizeof room; i += 512) room[i] = 0;
}

int main(void)
{
    const nekchhaul_sizes large = { WORDS, 4096, 64, 4096, 4096, 0 }, small = { 16, 1, 2, 1, 1, 0 };
    nekchhaul_caller many[CALLERS], none[CALLERS], c = NEKCHHAUL_NO_CALLER_INIT;
    uint64_t v = 77;
    memset(many, 0, sizeof many);
    memset(none, 0, sizeof none);
    MUST(nekchhaul_open(&small, NEKCHHAUL_OREC_LAZY, &c, 1) == 0);
    grow_stack();
    set_room(0);
    void *held = NULL, *next; /* what malloc has put by */
    for (size_t size = 1 << 16; size >= sizeof(void *); size /= 2) {
        while ((next = malloc(size))) {
            *(void **)next = held;
            held = next;
        }
    }
    MUST(nekchhaul_open(&large, NEKCHHAUL_TML, many, CALLERS) == NEKCHHAUL_MEMORY);
    MUST(nekchhaul_open(&small, NEKCHHAUL_TML, many, 1) == NEKCHHAUL_MEMORY);
    MUST(memcmp(many, none, sizeof none) == 0);
    MUST(nekchhaul_reserve(&c, 4096, 4096) == NEKCHHAUL_MEMORY);
    MUST(nekchhaul_begin(&c) == 0);
    MUST(nekchhaul_write(&c, 0, 1) == 0);
    MUST(nekchhaul_write(&c, 1, 1) == NEKCHHAUL_LOG_FULL); /* the logs are as they were */
    MUST(nekchhaul_begin(&c) == 0);
    MUST(nekchhaul_become_irrevocable(&c) == 0);
    for (size_t a = 0; a < 16; a++) MUST(nekchhaul_write(&c, a, a) == 0);
    MUST(nekchhaul_commit(&c) == 0);
    MUST(nekchhaul_switch(&c, NEKCHHAUL_RING_SW) == 0);
    MUST(nekchhaul_fence(&c, 3, 1) == 0);
    MUST(nekchhaul_direct_read(&c, 3, &v) == 0 && v == 3);
    MUST(nekchhaul_give_back(&c) == 0);
    while (held) {
        next = *(void **)held;
        free(held);
        held = next;
    }
    set_room(1);
    MUST(nekchhaul_reserve(&c, 4096, 4096) == 0);
    MUST(nekchhaul_close(&c, words, WORDS) == 0 && words[15] == 15);
    MUST(nekchhaul_release(&c) == 0);
    MUST(nekchhaul_open(&large, NEKCHHAUL_CGL, many, CALLERS) == 0);
    MUST(nekchhaul_close(&many[CALLERS - 1], words, WORDS) == 0 && words[15] == 0 && words[WORDS - 1] == 0);
    for (size_t i = 0; i < CALLERS; i++) MUST(nekchhaul_release(&many[i]) == 0);
    return 0;
}
