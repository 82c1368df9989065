/* Threads that end by pthread_exit, with values of keys that are destroyed, once; main ends before the last of them. */
#include <errno.h>
#include <pthread.h>
#include <stdio.h>
#include <stdlib.h>

static pthread_once_t once = PTHREAD_ONCE_INIT;
static pthread_key_t key;
static pthread_mutex_t lock = PTHREAD_MUTEX_INITIALIZER;
static char said[80];
static int length, left = 4;

static void end_value(void *given)
{
    pthread_mutex_lock(&lock);
    said[length++] = *(char *)given;
    free(given);
    if (--left == 0)
        printf("ended %s\n", said);
    pthread_mutex_unlock(&lock);
}

static void begin(void)
{
    pthread_key_create(&key, end_value);
}

static void *work(void *given)
{
    char *letter = malloc(1);
    pthread_once(&once, begin);
    *letter = (char)('a' + (long)given);
    pthread_setspecific(key, letter);
    if (pthread_equal(pthread_self(), pthread_self()))
        pthread_exit(pthread_getspecific(key));
    return NULL;
}

int main(void)
{
    pthread_attr_t detached;
    pthread_t thread;
    pthread_attr_init(&detached);
    pthread_attr_setdetachstate(&detached, PTHREAD_CREATE_DETACHED);
    for (long i = 0; i < 4; i++)
        if (pthread_create(&thread, &detached, work, (void *)i) != 0)
            return 1;
    pthread_attr_destroy(&detached);
    pthread_exit(NULL);
}
