/* Threads that still run when the process ends: one races, one sleeps, one waits for good, one computes and makes no access. */
#include <pthread.h>
#include <stdio.h>
#include <time.h>
#include <unistd.h>

static pthread_mutex_t lock = PTHREAD_MUTEX_INITIALIZER;
static pthread_cond_t never = PTHREAD_COND_INITIALIZER;
static volatile long number;
static long made;

static void *race(void *given)
{
    for (;;)
        number = number * 3 + 1;
    return given;
}

static void *doze(void *given)
{
    struct timespec little = {0, 20000};
    for (;;) {
        nanosleep(&little, NULL);
        number++;
        pthread_mutex_lock(&lock);
        made++;
        pthread_mutex_unlock(&lock);
    }
    return given;
}

static void *wait_for_good(void *given)
{
    pthread_mutex_lock(&lock);
    for (;;)
        pthread_cond_wait(&never, &lock);
    return given;
}

static void *compute(void *given)
{
    volatile long own = (long)given;
    for (;;)
        own = own * 3 + 1;
    return given;
}

int main(void)
{
    static void *(*const all[])(void *) = {race, doze, wait_for_good, compute};
    pthread_t thread;
    for (int i = 0; i < 4; i++)
        pthread_create(&thread, NULL, all[i], NULL);
    for (int i = 0; i < 50; i++) {
        if (i % 10 == 0)
            usleep(500);
        number ^= i;
    }
    pthread_mutex_lock(&lock);
    printf("number %ld made %ld\n", number, made);
    pthread_mutex_unlock(&lock);
    return 0;
}
