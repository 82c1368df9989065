/* Each kind of lock of pthread.h, semaphores, once, a pipe, random numbers and a clock. */
#include <pthread.h>
#include <semaphore.h>
#include <stdio.h>
#include <stdlib.h>
#include <string.h>
#include <time.h>
#include <unistd.h>

static pthread_rwlock_t table = PTHREAD_RWLOCK_INITIALIZER;
static pthread_once_t once = PTHREAD_ONCE_INIT;
static pthread_barrier_t all;
static pthread_spinlock_t spin;
static pthread_mutex_t again;
static sem_t two;
static int onces, value, order[64], count, ends[2];
static char text[64];

static void begin(void)
{
    onces++;
}

static void touch_table(long number)
{
    if (pthread_rwlock_trywrlock(&table) == 0) {
        value = value * 3 + (int)number;
    } else {
        pthread_rwlock_rdlock(&table);
        if (count < 64)
            order[count++] = value % 1000;
    }
    pthread_rwlock_unlock(&table);
}

static void touch_rest(long number, int round)
{
    sem_wait(&two);
    text[(number * 7 + round) % 60] = (char)('a' + round);
    memcpy(text + round * 3 % 30, text + 30, 8);
    sem_post(&two);
    pthread_spin_lock(&spin);
    value++;
    pthread_spin_unlock(&spin);
    pthread_mutex_lock(&again);
    pthread_mutex_lock(&again);
    value ^= rand() & 7;
    pthread_mutex_unlock(&again);
    pthread_mutex_unlock(&again);
}

static void *work(void *given)
{
    long number = (long)given;
    for (int round = 0; round < 5; round++) {
        pthread_once(&once, begin);
        touch_table(number);
        touch_rest(number, round);
        if (round % 5 == 0)
            pthread_barrier_wait(&all);
    }
    char letter = (char)('A' + number);
    if (write(ends[1], &letter, 1) != 1)
        abort();
    return (void *)(number * 10);
}

static void turn(int number)
{
    pthread_t threads[4];
    char got[5] = {0};
    struct timespec now;
    for (long i = 0; i < 4; i++)
        pthread_create(&threads[i], NULL, work, (void *)i);
    for (int i = 0; i < 4; i++)
        if (read(ends[0], got + i, 1) != 1)
            abort();
    for (int i = 0; i < 4; i++) {
        void *found;
        pthread_join(threads[i], &found);
        value += (int)(long)found;
    }
    clock_gettime(CLOCK_MONOTONIC, &now);
    printf("%d %s value %d count %d nanoseconds %ld onces %d\n", number, got, value, count, now.tv_nsec, onces);
}

int main(void)
{
    pthread_mutexattr_t kind;
    pthread_mutexattr_init(&kind);
    pthread_mutexattr_settype(&kind, PTHREAD_MUTEX_RECURSIVE);
    pthread_mutex_init(&again, &kind);
    pthread_spin_init(&spin, 0);
    sem_init(&two, 0, 2);
    pthread_barrier_init(&all, NULL, 4);
    if (pipe(ends) != 0)
        return 1;
    for (int i = 0; i < 3; i++)
        turn(i);
    for (int i = 0; i < 60; i++)
        putchar(text[i] != 0 ? text[i] : '.');
    putchar('\n');
    for (int i = 0; i < count; i++)
        printf("%d ", order[i]);
    puts("");
    return 0;
}
