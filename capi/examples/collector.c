/* collector [SHARE]: a heap whose collector moves cells beside eight mutators. They make 200,000 operations in transactions, under each
 * algorithm, while it takes the fullest region out of the transactions, slides the live cells together, and gives the region back.
 * A mutator that meets a word of that region waits for it, and the others go on; one that finds no room retries until there is
 * some. Ends with 0 where each count is exact. */
#include "nekchhaul.h"
#include <pthread.h>
#include <stdatomic.h>
#include <stdio.h>
#include <stdlib.h>
#include <string.h>

/* A region has the address of its first free word, its roots, each the address of a cell or 0, and its cells, each of the number of
 * its root, its count, and padding. */
enum { REGIONS = 4, ROOTS = 16, CELL = 4, REGION = 1 + ROOTS + 40 * CELL, WORDS = REGIONS * REGION, MUTATORS = 8, OPERATIONS = 25000 /* of each */ };
#define TRY(call) do { uint32_t s_ = (call); if (s_) return s_; } while (0)

static size_t region_at(size_t region) { return region * REGION; }
static size_t root_at(size_t region, size_t root) { return region * REGION + 1 + root; }
static size_t cells_at(size_t region) { return region * REGION + 1 + ROOTS; }

struct mutator {
    nekchhaul_caller caller;
    uint64_t seed;
    uint64_t added[REGIONS][ROOTS]; /* to each count */
};

struct operation { size_t region, root, to_region, to_root; int renews; };

static struct mutator mutators[MUTATORS];
static atomic_int at_work;
static int operations = OPERATIONS; /* for slow checkers a share of them */

/* A new cell of a root, with this count; the old one is garbage then. */
static uint32_t renew(nekchhaul_caller *c, size_t region, size_t root, uint64_t count)
{
    uint64_t cell;
    TRY(nekchhaul_read(c, region_at(region), &cell));
    if (cell + CELL > region_at(region + 1)) return NEKCHHAUL_RETRY; /* until the collector has been here */
    TRY(nekchhaul_write(c, region_at(region), cell + CELL));
    TRY(nekchhaul_write(c, cell, root));
    TRY(nekchhaul_write(c, cell + 1, count));
    return nekchhaul_write(c, root_at(region, root), cell);
}

static uint32_t add(nekchhaul_caller *c, size_t region, size_t root, uint64_t amount, int renews)
{
    uint64_t cell, count = 0;
    TRY(nekchhaul_read(c, root_at(region, root), &cell));
    if (cell) TRY(nekchhaul_read(c, cell + 1, &count));
    if (!cell || renews) return renew(c, region, root, count + amount);
    return nekchhaul_write(c, cell + 1, count + amount);
}

/* Moves 1 from a count to another, maybe of another region, and makes 1 more. */
static uint32_t operate(nekchhaul_caller *c, void *argument)
{
    const struct operation *o = argument;
    TRY(add(c, o->region, o->root, (uint64_t)-1, o->renews));
    return add(c, o->to_region, o->to_root, 2, 0);
}

static uint64_t draw(uint64_t *x)
{
    *x ^= *x << 13;
    *x ^= *x >> 7;
    *x ^= *x << 17;
    return *x >> 11;
}

static void *mutate(void *argument)
{
    struct mutator *m = argument;
    for (int i = 0; i < operations; i++) {
        struct operation o = { draw(&m->seed) % REGIONS, draw(&m->seed) % ROOTS, draw(&m->seed) % REGIONS, draw(&m->seed) % ROOTS, draw(&m->seed) % 4 == 0 };
        if (nekchhaul_atomically(&m->caller, operate, &o)) abort();
        m->added[o.region][o.root] -= 1;
        m->added[o.to_region][o.to_root] += 2;
    }
    atomic_fetch_sub(&at_work, 1);
    return NULL;
}

static uint64_t word(nekchhaul_caller *c, size_t address)
{
    uint64_t value;
    if (nekchhaul_direct_read(c, address, &value)) abort();
    return value;
}

static void set_word(nekchhaul_caller *c, size_t address, uint64_t value)
{
    if (nekchhaul_direct_write(c, address, value)) abort();
}

/* Slides the cells that a root leads to together, and answers how many words are free again. */
static uint64_t compact(nekchhaul_caller *c, size_t region)
{
    const uint64_t end = word(c, region_at(region));
    uint64_t to = cells_at(region);
    for (uint64_t from = to; from < end; from += CELL) {
        const size_t root = root_at(region, word(c, from));
        if (word(c, root) != from) continue;
        for (size_t i = 0; i < CELL; i++) set_word(c, to + i, word(c, from + i));
        set_word(c, root, to);
        to += CELL;
    }
    set_word(c, region_at(region), to);
    return end - to;
}

static void take(nekchhaul_caller *c, size_t region)
{
    if (nekchhaul_take_range(c, region_at(region), REGION)) abort();
}

static void give_back(nekchhaul_caller *c)
{
    if (nekchhaul_return_range(c)) abort();
}

/* The region that has the least room. */
struct choice { size_t region, room; };

static uint32_t choose(nekchhaul_caller *c, void *argument)
{
    struct choice *least = argument;
    least->room = REGION;
    for (size_t region = 0; region < REGIONS; region++) {
        uint64_t end;
        TRY(nekchhaul_read(c, region_at(region), &end));
        const size_t room = region_at(region + 1) - (size_t)end;
        if (room < least->room) *least = (struct choice){ region, room };
    }
    return NEKCHHAUL_OK;
}

/* Compacts regions of which less than half is free, until the mutators are done; answers how many. */
static unsigned long collect(nekchhaul_caller *c, uint64_t *freed)
{
    unsigned long collections = 0;
    struct choice least = { 0, 0 };
    while (atomic_load(&at_work)) {
        if (nekchhaul_atomically(c, choose, &least)) abort();
        if (least.room > REGION / 2) {
            nekchhaul_spin(1024);
            continue;
        }
        take(c, least.region);
        *freed += compact(c, least.region);
        give_back(c);
        collections++;
    }
    return collections;
}

/* Each count of the memory as it ended, against what the mutators added. */
static int is_exact(const uint64_t *words)
{
    for (size_t region = 0; region < REGIONS; region++) {
        for (size_t root = 0; root < ROOTS; root++) {
            const uint64_t cell = words[root_at(region, root)], count = cell ? words[cell + 1] : 0;
            uint64_t sum = 0;
            for (size_t i = 0; i < MUTATORS; i++) sum += mutators[i].added[region][root];
            if (count != sum || (cell && words[cell] != root)) return 0;
        }
    }
    return 1;
}

static int run(uint32_t algorithm)
{
    const nekchhaul_sizes sizes = nekchhaul_sizes_of(WORDS);
    nekchhaul_caller callers[MUTATORS + 1], *collector = &callers[MUTATORS];
    pthread_t threads[MUTATORS];
    uint64_t words[WORDS], freed = 0;
    memset(callers, 0, sizeof callers);
    if (nekchhaul_open(&sizes, algorithm, callers, MUTATORS + 1)) abort();
    for (size_t region = 0; region < REGIONS; region++) {
        take(collector, region);
        set_word(collector, region_at(region), cells_at(region));
        give_back(collector);
    }
    atomic_store(&at_work, MUTATORS);
    for (size_t i = 0; i < MUTATORS; i++) {
        memset(&mutators[i], 0, sizeof mutators[i]);
        mutators[i].caller = nekchhaul_move(&callers[i]);
        mutators[i].seed = 88172645463325252u + 977 * i;
        if (pthread_create(&threads[i], NULL, mutate, &mutators[i])) abort();
    }
    const unsigned long collections = collect(collector, &freed);
    for (size_t i = 0; i < MUTATORS; i++)
        if (pthread_join(threads[i], NULL)) abort();
    if (nekchhaul_end(collector, words, WORDS)) abort();
    for (size_t i = 0; i < MUTATORS; i++)
        if (nekchhaul_release(&mutators[i].caller)) abort();
    if (nekchhaul_release(collector)) abort();
    printf("algorithm %u: %d operations, %lu collections, %llu words freed\n", (unsigned)algorithm, MUTATORS * operations, collections, (unsigned long long)freed);
    return is_exact(words);
}

int main(int argc, char **argv)
{
    int exact = 1;
    if (argc > 1) operations /= atoi(argv[1]);
    for (uint32_t algorithm = 0; algorithm < 6; algorithm++) exact &= run(algorithm);
    return !exact;
}
