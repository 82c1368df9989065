/* Kinds of mutexes: those that check, that are tried, with a time, and spin locks that are tried. */
#include <errno.h>
#include <pthread.h>
#include <stdio.h>
#include <time.h>

static pthread_mutex_t checks, plain = PTHREAD_MUTEX_INITIALIZER;
static pthread_spinlock_t spin;
static int order[40], count, busy, told;

static void *work(void *given)
{
    struct timespec until;
    clock_gettime(CLOCK_REALTIME, &until);
    until.tv_sec += 1000;
    for (int i = 0; i < 10; i++) {
        if (pthread_mutex_trylock(&plain) == 0)
            pthread_mutex_unlock(&plain);
        else
            __atomic_fetch_add(&busy, 1, __ATOMIC_RELAXED);
        pthread_mutex_timedlock(&checks, &until);
        told += pthread_mutex_lock(&checks) == EDEADLK;
        order[count++] = (int)(long)given;
        pthread_mutex_unlock(&checks);
        while (pthread_spin_trylock(&spin) != 0)
            continue;
        order[count - 1] += 4 * (i % 2);
        pthread_spin_unlock(&spin);
    }
    return NULL;
}

int main(void)
{
    pthread_t threads[4];
    pthread_mutexattr_t kind;
    struct timespec past = {1, 0};
    pthread_mutexattr_init(&kind);
    pthread_mutexattr_settype(&kind, PTHREAD_MUTEX_ERRORCHECK);
    pthread_mutex_init(&checks, &kind);
    pthread_mutexattr_destroy(&kind);
    pthread_spin_init(&spin, PTHREAD_PROCESS_PRIVATE);
    for (long i = 0; i < 4; i++)
        pthread_create(&threads[i], NULL, work, (void *)i);
    for (int i = 0; i < 4; i++)
        pthread_join(threads[i], NULL);
    pthread_mutex_lock(&plain);
    int late = pthread_mutex_timedlock(&plain, &past), free = pthread_mutex_unlock(&checks);
    for (int i = 0; i < 40; i++)
        printf("%d ", order[i]);
    printf("told %d late %d free %d\n", told, late == ETIMEDOUT, free == EPERM);
    pthread_mutex_unlock(&plain);
    return pthread_mutex_destroy(&plain) + pthread_mutex_destroy(&checks) + pthread_spin_destroy(&spin);
}
