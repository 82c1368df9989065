/* Clocks, sleeps and what the process is told of itself, by threads beside each other. */
#include <pthread.h>
#include <sched.h>
#include <stdio.h>
#include <sys/resource.h>
#include <sys/time.h>
#include <time.h>
#include <unistd.h>

static long racy;

static void *work(void *given)
{
    struct timespec now, little = {0, 1000}, left;
    struct timeval day;
    struct rusage used;
    for (int i = 0; i < 5; i++) {
        clock_gettime(i % 2 ? CLOCK_MONOTONIC : CLOCK_THREAD_CPUTIME_ID, &now);
        gettimeofday(&day, NULL);
        getrusage(RUSAGE_SELF, &used);
        racy = racy * 31 + now.tv_nsec + day.tv_usec + used.ru_minflt;
        nanosleep(&little, &left);
        clock_nanosleep(CLOCK_MONOTONIC, 0, &little, NULL);
        usleep(1);
        sched_yield();
        racy += clock() + (long)time(NULL);
    }
    return given;
}

int main(void)
{
    pthread_t threads[3];
    time_t now;
    for (int i = 0; i < 3; i++)
        pthread_create(&threads[i], NULL, work, NULL);
    for (int i = 0; i < 3; i++)
        pthread_join(threads[i], NULL);
    time(&now);
    sleep(0);
    printf("racy %ld process %d parent %d processors %ld second %ld\n", racy, getpid(), getppid(), sysconf(_SC_NPROCESSORS_ONLN), (long)now);
    return 0;
}
