/* Threads that compute for good without an access: one does so once it has slept, which the end cuts off, and one after an access. */
#include <pthread.h>
#include <stdio.h>
#include <unistd.h>

/* Each in an object of its own. */
static volatile long begun __attribute__((aligned(64))), number __attribute__((aligned(64)));

static void compute(void)
{
    volatile long own = 1;
    for (;;)
        own = own * 3 + 1;
}

static void *sleep_first(void *given)
{
    usleep(3000000);
    compute();
    return given;
}

static void *access_first(void *given)
{
    begun = 1;
    compute();
    return given;
}

static void *race(void *given)
{
    for (int i = 0; i < 20000; i++)
        number += i;
    return given;
}

int main(void)
{
    pthread_t asleep, at_work, racing;
    pthread_create(&asleep, NULL, sleep_first, NULL);
    pthread_create(&at_work, NULL, access_first, NULL);
    pthread_create(&racing, NULL, race, NULL);
    for (int i = 0; i < 20000; i++)
        number ^= i;
    pthread_join(racing, NULL);
    printf("number %ld\n", number);
    return 0;
}
