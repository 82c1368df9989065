/* Two threads that race until the process is ended from outside. */
#include <pthread.h>
#include <stdio.h>

static volatile long number;

static void *work(void *given)
{
    for (;;)
        number = number * 3 + 1;
    return given;
}

int main(void)
{
    pthread_t threads[2];
    puts("begins");
    fflush(stdout);
    for (int i = 0; i < 2; i++)
        pthread_create(&threads[i], NULL, work, NULL);
    pthread_join(threads[0], NULL);
    return 0;
}
