/* Calls that touch much memory at once, of a buffer that threads race for. */
#define _GNU_SOURCE
#include <pthread.h>
#include <stdio.h>
#include <string.h>
#include <strings.h>

static char buffer[400];
static long hashes[3];

static void touch(long number, int i)
{
    char own[100];
    memmove(buffer + i, buffer + i + 7, 90);
    memmove(buffer + i + 5, buffer + i, 90);
    char *end = mempcpy(own, buffer + i * 3, 60);
    memset(end, 0, 40);
    memset(buffer + 100 + i, 'a' + i % 26, 30);
    bcopy(buffer + 150, buffer + 210, 40);
    bzero(buffer + 250 + number, 3);
    const char *found = memchr(buffer, 'a' + i % 26, sizeof buffer), *last = memrchr(buffer, 'a' + i % 26, sizeof buffer);
    const char *part = memmem(buffer, sizeof buffer, "aa", 2);
    long places = (found ? found - buffer : 0) + (last ? last - buffer : 0) + (part ? part - buffer : 0);
    hashes[number] = hashes[number] * 31 + places + memcmp(own, buffer + 100, 60) + (long)strnlen(buffer + 100, 100);
}

static void *work(void *given)
{
    for (int i = 0; i < 12; i++)
        touch((long)given, i);
    return NULL;
}

int main(void)
{
    pthread_t threads[3];
    for (int i = 0; i < 400; i++)
        buffer[i] = (char)('a' + i * i % 26);
    for (long i = 0; i < 3; i++)
        pthread_create(&threads[i], NULL, work, (void *)i);
    for (int i = 0; i < 3; i++)
        pthread_join(threads[i], NULL);
    printf("%ld %ld %ld\n", hashes[0], hashes[1], hashes[2]);
    return 0;
}
