/* Semaphores: those who find none free are counted, and one waits until a time that is over. */
#include <errno.h>
#include <pthread.h>
#include <semaphore.h>
#include <stdio.h>
#include <time.h>

static sem_t slots, done;
static int order[40], count, refused[4];

static void *work(void *given)
{
    long number = (long)given;
    for (int i = 0; i < 10; i++) {
        if (sem_trywait(&slots) != 0) {
            refused[number] += errno == EAGAIN;
            sem_wait(&slots);
        }
        order[__atomic_fetch_add(&count, 1, __ATOMIC_RELAXED)] = (int)number;
        sem_post(&slots);
    }
    sem_post(&done);
    return NULL;
}

int main(void)
{
    pthread_t threads[4];
    struct timespec past = {1, 0};
    int left = -1;
    sem_init(&slots, 0, 2);
    sem_init(&done, 0, 0);
    for (long i = 0; i < 4; i++)
        pthread_create(&threads[i], NULL, work, (void *)i);
    for (int i = 0; i < 4; i++)
        sem_wait(&done);
    int late = sem_timedwait(&done, &past) == -1 && errno == ETIMEDOUT;
    sem_getvalue(&slots, &left);
    for (int i = 0; i < 4; i++)
        pthread_join(threads[i], NULL);
    for (int i = 0; i < 40; i++)
        putchar('0' + order[i]);
    printf(" late %d left %d refused %d\n", late, left, refused[0] + refused[1] + refused[2] + refused[3]);
    return sem_destroy(&slots) + sem_destroy(&done);
}
