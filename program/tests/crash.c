/* Two threads race for a total, and then the program ends by a null pointer. */
#include <pthread.h>
#include <sched.h>
#include <stdio.h>

enum { TURNS = 20000 };
static volatile long total;

static void *count(void *given)
{
    for (int i = 0; i < TURNS; i++) {
        long found = total;
        if (i % 64 == 0)
            sched_yield();
        total = found + 1;
    }
    return given;
}

int main(void)
{
    pthread_t threads[2];
    volatile int *volatile none = NULL;
    puts("begins");
    fflush(stdout);
    for (int i = 0; i < 2; i++)
        pthread_create(&threads[i], NULL, count, NULL);
    for (int i = 0; i < 2; i++)
        pthread_join(threads[i], NULL);
    printf("total %ld\n", total);
    fflush(stdout);
    *none = 1;
    return 0;
}
