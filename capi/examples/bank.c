/* bank [ALGORITHM [switching]] [THREADS]: threads move money between accounts while an auditor adds all balances up, and
 * the algorithm is switched meanwhile where that is asked for. Ends with 0 where no audit was wrong. */
#include "nekchhaul.h"
#include <pthread.h>
#include <stdio.h>
#include <stdlib.h>
#include <string.h>

enum { ACCOUNTS = 64, BALANCE = 1000, MOST = 31, MOVES = 200000, AUDITS = 4000 };

#define TRY(call) do { uint32_t s_ = (call); if (s_) return s_; } while (0)

struct trader { nekchhaul_caller caller; uint64_t draws; int moves; };
struct move { size_t from, to; uint64_t amount; };

static uint32_t do_move(nekchhaul_caller *c, void *argument)
{
    struct move *m = argument;
    uint64_t payer, payee;
    TRY(nekchhaul_read(c, m->from, &payer));
    TRY(nekchhaul_read(c, m->to, &payee));
    if (payer < m->amount) return NEKCHHAUL_OK;
    TRY(nekchhaul_write(c, m->from, payer - m->amount));
    TRY(nekchhaul_write(c, m->to, payee + m->amount));
    return NEKCHHAUL_OK;
}

static uint32_t do_audit(nekchhaul_caller *c, void *argument)
{
    uint64_t sum = 0, balance, *found = argument;
    for (size_t i = 0; i < ACCOUNTS; i++) {
        TRY(nekchhaul_read(c, i, &balance));
        sum += balance;
    }
    *found = sum;
    return NEKCHHAUL_OK;
}

static uint32_t do_fill(nekchhaul_caller *c, void *argument)
{
    (void)argument;
    for (size_t i = 0; i < ACCOUNTS; i++) TRY(nekchhaul_write(c, i, BALANCE));
    return NEKCHHAUL_OK;
}

static uint64_t draw(uint64_t *x)
{
    *x ^= *x << 13;
    *x ^= *x >> 7;
    *x ^= *x << 17;
    return *x;
}

static void *trade(void *argument)
{
    struct trader *t = argument;
    for (int i = 0; i < t->moves; i++) {
        uint64_t r = draw(&t->draws);
        struct move m = { r % ACCOUNTS, (r % ACCOUNTS + 1 + (r >> 20) % (ACCOUNTS - 1)) % ACCOUNTS, (r >> 40) % 100 };
        if (nekchhaul_atomically(&t->caller, do_move, &m)) abort();
    }
    return NULL;
}

static int named(const char *name)
{
    static const char *names[] = { "CGL", "TML", "OrecLazy", "OrecEager", "RingSW", "Serial" };
    for (int i = 0; i < 6; i++)
        if (!strcmp(names[i], name)) return i;
    return -1;
}

/* Audits while others trade, and switches every 16 audits where that is asked for. Answers how many were wrong. */
static int audit(nekchhaul_caller *auditor, int algorithm, int switching, int audits)
{
    int wrong = 0;
    uint64_t found = 0;
    for (int i = 0; i < audits; i++) {
        if (nekchhaul_atomically(auditor, do_audit, &found)) abort();
        wrong += found != (uint64_t)ACCOUNTS * BALANCE;
        if (switching && i % 16 == 0 && nekchhaul_install(auditor, (uint32_t)(algorithm + i / 16 + 1) % 6)) abort();
    }
    return wrong;
}

int main(int argc, char **argv)
{
    int algorithm = argc > 1 ? named(argv[1]) : NEKCHHAUL_OREC_LAZY;
    int switching = argc > 2 && !strcmp(argv[2], "switching");
    int traders = argc > 3 ? atoi(argv[3]) : 3;
    int share = argc > 4 ? atoi(argv[4]) : 1; /* for slow checkers: one in so many */
    nekchhaul_sizes sizes = { ACCOUNTS, 64, 64, 128, 64, 0 };
    nekchhaul_caller callers[MOST + 1];
    memset(callers, 0, sizeof callers);
    if (algorithm < 0 || traders < 1 || traders > MOST || share < 1) return 2;
    if (nekchhaul_open(&sizes, (uint32_t)algorithm, callers, (size_t)traders + 1)) return 3;
    nekchhaul_caller *auditor = &callers[traders];
    if (nekchhaul_atomically(auditor, do_fill, NULL)) return 4;

    static pthread_t threads[MOST];
    static struct trader of[MOST];
    for (int i = 0; i < traders; i++) {
        of[i].caller = nekchhaul_move(&callers[i]);
        of[i].draws = 88172645463325252u + (uint64_t)i;
        of[i].moves = MOVES / share / traders;
        if (pthread_create(&threads[i], NULL, trade, &of[i])) return 5;
    }
    int wrong = audit(auditor, algorithm, switching, AUDITS / share);
    for (int i = 0; i < traders; i++) pthread_join(threads[i], NULL);

    uint64_t words[ACCOUNTS], sum = 0;
    if (nekchhaul_close(auditor, words, ACCOUNTS)) return 6;
    for (int i = 0; i < ACCOUNTS; i++) sum += words[i];
    for (int i = 0; i < traders; i++)
        if (nekchhaul_release(&of[i].caller)) return 7;
    if (nekchhaul_release(auditor)) return 7;
    printf("%d audits, %d wrong, %llu left\n", AUDITS / share, wrong, (unsigned long long)sum);
    return wrong || sum != (uint64_t)ACCOUNTS * BALANCE;
}
