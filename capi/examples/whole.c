/* A whole program, which docs/C.md has too: two threads count in one word, and the memory's last words are printed. */
#include <nekchhaul.h>
#include <pthread.h>
#include <stdio.h>

static uint32_t count(nekchhaul_caller *caller, void *step)
{
    uint64_t old;
    uint32_t s = nekchhaul_read(caller, 0, &old);
    return s ? s : nekchhaul_write(caller, 0, old + *(uint64_t *)step);
}

static void *work(void *caller)
{
    uint64_t step = 2;
    for (int i = 0; i < 1000; i++)
        if (nekchhaul_atomically(caller, count, &step)) return "a transaction was refused for good";
    return NULL;
}

int main(void)
{
    nekchhaul_sizes sizes = nekchhaul_sizes_of(1); /* words */
    nekchhaul_caller callers[2] = { NEKCHHAUL_NO_CALLER_INIT, NEKCHHAUL_NO_CALLER_INIT };
    pthread_t other;
    uint64_t words[1];
    if (nekchhaul_open(&sizes, NEKCHHAUL_OREC_LAZY, callers, 2)) return 1;
    if (pthread_create(&other, NULL, work, &callers[1]) || work(&callers[0]) || pthread_join(other, NULL)) return 2;
    if (nekchhaul_close(&callers[0], words, 1)) return 3;
    printf("%llu\n", (unsigned long long)words[0]); /* 4000 */
    return nekchhaul_release(&callers[0]) || nekchhaul_release(&callers[1]) || words[0] != 4000;
}
