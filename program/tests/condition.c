/* A queue by two conditions, with waits that have an end and a clock that is read. */
#include <pthread.h>
#include <stdio.h>
#include <time.h>
#include <unistd.h>

static pthread_mutex_t lock = PTHREAD_MUTEX_INITIALIZER;
static pthread_cond_t some = PTHREAD_COND_INITIALIZER, room = PTHREAD_COND_INITIALIZER;
static int queue[16], count, done, late;
static unsigned long hash;

static void *produce(void *given)
{
    for (int i = 0; i < 60; i++) {
        pthread_mutex_lock(&lock);
        while (count == 16)
            pthread_cond_wait(&room, &lock);
        queue[count++] = (int)(long)given * 1000 + i;
        pthread_cond_signal(&some);
        pthread_mutex_unlock(&lock);
        if (i % 20 == 0)
            usleep(100);
    }
    return NULL;
}

static int wait_for_some(void)
{
    while (count == 0 && !done) {
        struct timespec until;
        clock_gettime(CLOCK_REALTIME, &until);
        until.tv_nsec += 50000;
        if (until.tv_nsec >= 1000000000) {
            until.tv_sec++;
            until.tv_nsec -= 1000000000;
        }
        if (pthread_cond_timedwait(&some, &lock, &until) != 0)
            late++;
    }
    return count;
}

static void *consume(void *given)
{
    (void)given;
    for (;;) {
        pthread_mutex_lock(&lock);
        if (wait_for_some() == 0) {
            pthread_mutex_unlock(&lock);
            return NULL;
        }
        hash = hash * 1000003 + (unsigned long)queue[--count];
        if (hash % 97 == 0)
            printf("hash %lx count %d\n", hash, count);
        pthread_cond_signal(&room);
        pthread_mutex_unlock(&lock);
    }
}

int main(void)
{
    pthread_t threads[4];
    for (long i = 0; i < 4; i++)
        pthread_create(&threads[i], NULL, i < 2 ? produce : consume, (void *)i);
    for (int i = 0; i < 2; i++)
        pthread_join(threads[i], NULL);
    pthread_mutex_lock(&lock);
    done = 1;
    pthread_cond_broadcast(&some);
    pthread_mutex_unlock(&lock);
    for (int i = 2; i < 4; i++)
        pthread_join(threads[i], NULL);
    printf("hash %lx late %d\n", hash, late);
    return 0;
}
