/* Signals from one thread to another, and of a timer: some while it works, some for which the first thread waits. Their handlers
 * race with all. */
#include <pthread.h>
#include <signal.h>
#include <stdio.h>
#include <sys/time.h>
#include <unistd.h>

enum { TURNS = 2000, SIGNALS = 20, WORKERS = 2 };

static volatile long number, handled, told;
static volatile sig_atomic_t woken;

static void handle(int which)
{
    number = number * 3 + which;
    handled++;
}

static void wake(int which)
{
    woken = which;
    number = number * 5 + which;
}

static void *work(void *given)
{
    for (int i = 0; i < TURNS; i++)
        number = number * 7 + i;
    kill(getpid(), SIGUSR2);
    return given;
}

static void *disturb(void *given)
{
    for (int i = 0; i < SIGNALS; i++) {
        told += pthread_kill(*(pthread_t *)given, SIGUSR1) == 0;
        usleep(100);
    }
    return NULL;
}

int main(void)
{
    static pthread_t workers[WORKERS];
    pthread_t other;
    sigset_t blocked, before;
    struct sigaction action = {.sa_handler = handle}, was;
    struct itimerval often = {{0, 2000}, {0, 2000}}, never = {{0, 0}, {0, 0}};
    sigemptyset(&action.sa_mask);
    sigaction(SIGUSR1, &action, NULL);
    action.sa_handler = wake;
    sigaction(SIGUSR2, &action, &was);
    signal(SIGALRM, handle);
    setitimer(ITIMER_REAL, &often, NULL);
    sigemptyset(&blocked);
    sigaddset(&blocked, SIGUSR2);
    pthread_sigmask(SIG_BLOCK, &blocked, &before);
    for (int i = 0; i < WORKERS; i++)
        pthread_create(&workers[i], NULL, work, NULL);
    pthread_create(&other, NULL, disturb, &workers[0]);
    while (woken == 0)
        sigsuspend(&before);
    pthread_join(other, NULL);
    for (int i = 0; i < WORKERS; i++)
        pthread_join(workers[i], NULL);
    setitimer(ITIMER_REAL, &never, NULL);
    pthread_sigmask(SIG_SETMASK, &before, NULL);
    sigaction(SIGUSR2, NULL, &action);
    printf("number %ld handled %ld told %ld %d\n", number, handled, told, was.sa_handler == SIG_DFL && action.sa_handler == wake);
    return woken != SIGUSR2;
}
