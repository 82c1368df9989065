/* What comes from outside: standard input, a file, clocks, random numbers, the process. */
#include <pthread.h>
#include <stdio.h>
#include <stdlib.h>
#include <string.h>
#include <sys/random.h>
#include <sys/time.h>
#include <time.h>
#include <unistd.h>

static pthread_mutex_t lock = PTHREAD_MUTEX_INITIALIZER;
static long sum;

static void *work(void *given)
{
    for (int i = 0; i < 20; i++) {
        struct timespec now;
        clock_gettime(CLOCK_MONOTONIC, &now);
        pthread_mutex_lock(&lock);
        sum = sum * 31 + now.tv_nsec + (long)given;
        pthread_mutex_unlock(&lock);
        usleep(10);
    }
    return NULL;
}

static void read_file(const char *name)
{
    char line[100];
    FILE *file = fopen(name, "r");
    if (file == NULL) {
        puts("no file");
        return;
    }
    while (fgets(line, sizeof line, file) != NULL)
        printf("file: %s", line);
    fclose(file);
}

int main(int count, char **words)
{
    pthread_t threads[2];
    char line[100], *whole = NULL;
    size_t room = 0;
    unsigned random = 0;
    struct timeval now;
    if (fgets(line, sizeof line, stdin) != NULL)
        printf("first: %s", line);
    if (getline(&whole, &room, stdin) > 0)
        printf("second: %s", whole);
    free(whole);
    if (count > 1)
        read_file(words[1]);
    for (long i = 0; i < 2; i++)
        pthread_create(&threads[i], NULL, work, (void *)i);
    for (int i = 0; i < 2; i++)
        pthread_join(threads[i], NULL);
    gettimeofday(&now, NULL);
    if (getrandom(&random, sizeof random, 0) != sizeof random)
        return 1;
    printf("sum %lx time %ld %ld random %u process %d\n", sum, (long)time(NULL), (long)now.tv_usec, random, (int)getpid());
    return 0;
}
