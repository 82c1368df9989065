/* What is not followed is refused, and the program goes on: another process, and the end of a thread by another. */
#include <errno.h>
#include <pthread.h>
#include <stdio.h>
#include <unistd.h>

static volatile int goes_on = 1;

static void *work(void *given)
{
    while (goes_on)
        continue;
    return given;
}

int main(void)
{
    pthread_t thread;
    pthread_create(&thread, NULL, work, NULL);
    int ended = pthread_cancel(thread);
    pid_t other = fork();
    int error = errno;
    if (other == 0)
        _exit(1);
    goes_on = 0;
    pthread_join(thread, NULL);
    printf("cancel %d fork %d\n", ended == ENOSYS, other == -1 && error == EAGAIN);
    return 0;
}
