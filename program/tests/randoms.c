/* Random numbers: of the C library, whose order threads share, and of the system. */
#include <pthread.h>
#include <stdio.h>
#include <stdlib.h>
#include <sys/random.h>
#include <unistd.h>

static unsigned long drawn[3];

static void *work(void *given)
{
    long number = (long)given;
    unsigned long own = 0;
    for (int i = 0; i < 20; i++)
        drawn[number] = drawn[number] * 31 + (unsigned long)(i % 2 ? rand() : random());
    if (getrandom(&own, sizeof own, 0) != (ssize_t)sizeof own)
        return NULL;
    drawn[number] ^= own;
    if (getentropy(&own, sizeof own) == 0)
        drawn[number] += own;
    return NULL;
}

int main(void)
{
    pthread_t threads[3];
    srand(5);
    srandom(7);
    for (long i = 0; i < 3; i++)
        pthread_create(&threads[i], NULL, work, (void *)i);
    for (int i = 0; i < 3; i++)
        pthread_join(threads[i], NULL);
    printf("%lx %lx %lx\n", drawn[0], drawn[1], drawn[2]);
    return 0;
}
