/* A barrier, and who was the last at it in each round. */
#include <pthread.h>
#include <stdio.h>

enum { THREADS = 3, ROUNDS = 8 };

static pthread_barrier_t all;
static int last[ROUNDS], sums[ROUNDS];
static int value;

static void *work(void *given)
{
    long number = (long)given;
    for (int round = 0; round < ROUNDS; round++) {
        value = value * 5 + (int)number;
        if (pthread_barrier_wait(&all) == PTHREAD_BARRIER_SERIAL_THREAD) {
            last[round] = (int)number;
            sums[round] = value;
        }
        pthread_barrier_wait(&all);
    }
    return NULL;
}

int main(void)
{
    pthread_t threads[THREADS];
    pthread_barrierattr_t kind;
    pthread_barrierattr_init(&kind);
    pthread_barrier_init(&all, &kind, THREADS);
    pthread_barrierattr_destroy(&kind);
    for (long i = 0; i < THREADS; i++)
        pthread_create(&threads[i], NULL, work, (void *)i);
    for (int i = 0; i < THREADS; i++)
        pthread_join(threads[i], NULL);
    for (int i = 0; i < ROUNDS; i++)
        printf("%d:%d ", last[i], sums[i]);
    puts("");
    return pthread_barrier_destroy(&all);
}
