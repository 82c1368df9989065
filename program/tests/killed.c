/* Threads that race, the first among them, and say so line by line, until the process is ended from outside. */
#include <pthread.h>
#include <stdio.h>

static _Alignas(16) volatile unsigned long number;
static _Alignas(16) volatile unsigned long other;

static void *work(void *given)
{
    for (unsigned long turn = 1;; turn++) {
        number = number * 3 + (unsigned long)given;
        /* Each access is a call of the library where the one before it was of another object. */
        other ^= number;
        if (turn % 200 == 0) {
            printf("thread %ld turn %lu other %lu\n", (long)given, turn, other);
            fflush(stdout);
        }
    }
    return given;
}

int main(void)
{
    pthread_t thread;
    puts("begins");
    fflush(stdout);
    for (long i = 1; i < 4; i++)
        pthread_create(&thread, NULL, work, (void *)i);
    work(NULL);
    return 0;
}
