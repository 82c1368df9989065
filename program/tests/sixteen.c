/* Sixteen threads at once, with the first: all wait for each other, twice, and race in between. */
#include <pthread.h>
#include <stdio.h>

enum { THREADS = 16 };

static volatile long number;
static pthread_barrier_t barrier;

static void *work(void *given)
{
    for (int round = 0; round < 2; round++) {
        pthread_barrier_wait(&barrier);
        number = number * 3 + (long)given;
    }
    return given;
}

int main(void)
{
    pthread_t threads[THREADS];
    pthread_barrier_init(&barrier, NULL, THREADS);
    for (long i = 1; i < THREADS; i++)
        pthread_create(&threads[i], NULL, work, (void *)i);
    work(NULL);
    for (int i = 1; i < THREADS; i++)
        pthread_join(threads[i], NULL);
    printf("number %ld\n", number);
    return 0;
}
