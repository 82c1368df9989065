/* Seventeen threads at once, with the first. */
#include <pthread.h>
#include <stdio.h>
#include <unistd.h>

static void *work(void *given)
{
    pause();
    return given;
}

int main(void)
{
    pthread_t thread;
    for (int i = 0; i < 16; i++)
        pthread_create(&thread, NULL, work, NULL);
    puts("made");
    return 0;
}
