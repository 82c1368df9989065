/* Read-write locks: with a time, by trials, and by their kinds. What readers saw depends on who came first. */
#include <errno.h>
#include <pthread.h>
#include <stdio.h>
#include <time.h>

static pthread_rwlock_t lock;
static int value, refused, seen[4];

static struct timespec soon(void)
{
    struct timespec time;
    clock_gettime(CLOCK_REALTIME, &time);
    time.tv_sec += 1000;
    return time;
}

static void *work(void *given)
{
    long number = (long)given;
    struct timespec until = soon();
    for (int i = 0; i < 10; i++) {
        if (pthread_rwlock_tryrdlock(&lock) != 0 && pthread_rwlock_timedrdlock(&lock, &until) != 0)
            return NULL;
        seen[number] = seen[number] * 7 + value;
        pthread_rwlock_unlock(&lock);
        if (pthread_rwlock_trywrlock(&lock) == EBUSY) {
            __atomic_fetch_add(&refused, 1, __ATOMIC_RELAXED);
            if (pthread_rwlock_timedwrlock(&lock, &until) != 0)
                return NULL;
        }
        value = value * 3 + (int)number;
        pthread_rwlock_unlock(&lock);
    }
    return NULL;
}

int main(void)
{
    pthread_t threads[4];
    struct timespec past = {1, 0};
    pthread_rwlockattr_t kind;
    pthread_rwlockattr_init(&kind);
    pthread_rwlock_init(&lock, &kind);
    pthread_rwlockattr_destroy(&kind);
    for (long i = 0; i < 4; i++)
        pthread_create(&threads[i], NULL, work, (void *)i);
    for (int i = 0; i < 4; i++)
        pthread_join(threads[i], NULL);
    pthread_rwlock_rdlock(&lock);
    int late = pthread_rwlock_timedwrlock(&lock, &past);
    pthread_rwlock_unlock(&lock);
    printf("value %d seen %d %d %d %d late %d\n", value, seen[0], seen[1], seen[2], seen[3], late == ETIMEDOUT);
    return pthread_rwlock_destroy(&lock);
}
