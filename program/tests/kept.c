/* Threads that keep a stream for three lines, so that these stand together; one tries, and one prints without keeping it. */
#include <pthread.h>
#include <stdio.h>

enum { TURNS = 30 };

static volatile long number;

static void say_three(long who)
{
    printf("%ld begins, number %ld\n", who, number = number * 3 + who);
    flockfile(stdout);
    printf("%ld goes on, number %ld\n", who, number = number * 5 + who);
    funlockfile(stdout);
    printf("%ld ends\n", who);
}

static void *keep(void *given)
{
    for (int i = 0; i < TURNS; i++) {
        flockfile(stdout);
        say_three((long)given);
        funlockfile(stdout);
    }
    return NULL;
}

static void *try(void *given)
{
    long found = 0;
    for (int i = 0; i < TURNS; i++) {
        if (ftrylockfile(stdout) != 0)
            continue;
        say_three((long)given);
        funlockfile(stdout);
        found++;
    }
    return (void *)found;
}

static void *print(void *given)
{
    for (int i = 0; i < TURNS; i++)
        printf("%ld between\n", (long)given);
    return NULL;
}

int main(void)
{
    static void *(*const all[])(void *) = {keep, keep, try, print};
    pthread_t threads[4];
    void *found;
    long tries = 0;
    for (long i = 0; i < 4; i++)
        pthread_create(&threads[i], NULL, all[i], (void *)i);
    for (int i = 0; i < 4; i++) {
        pthread_join(threads[i], &found);
        tries += (long)found;
    }
    printf("number %ld tries %ld\n", number, tries);
    return 0;
}
