/* A signal that each thread sends to itself: its handler is called at once, in both runs. */
#include <pthread.h>
#include <signal.h>
#include <stdio.h>

static volatile long number;
static _Thread_local volatile int handled;

static void handle(int which)
{
    handled += which == SIGUSR1;
    number = number * 3 + 1;
}

static void *work(void *given)
{
    for (int i = 0; i < 20; i++) {
        number = number * 5 + (long)given;
        raise(SIGUSR1);
    }
    return (void *)(long)handled;
}

int main(void)
{
    struct sigaction action = {.sa_handler = handle};
    pthread_t threads[3];
    void *count;
    long all = 0;
    sigemptyset(&action.sa_mask);
    sigaction(SIGUSR1, &action, NULL);
    for (long i = 0; i < 3; i++)
        pthread_create(&threads[i], NULL, work, (void *)i);
    for (int i = 0; i < 3; i++) {
        pthread_join(threads[i], &count);
        all += (long)count;
    }
    printf("number %ld handled %ld\n", number, all);
    return 0;
}
