/* Threads sort parts of one table while another changes it, and look numbers up. */
#include <pthread.h>
#include <stdio.h>
#include <stdlib.h>

enum { NUMBERS = 48 };

static int table[NUMBERS];
static long found;

static int compare(const void *a, const void *b)
{
    return (*(const int *)a > *(const int *)b) - (*(const int *)a < *(const int *)b);
}

static void *sort(void *given)
{
    int *from = given, key = 17;
    qsort(from, NUMBERS / 2, sizeof *from, compare);
    const int *at = bsearch(&key, from, NUMBERS / 2, sizeof *from, compare);
    found = found * 3 + (at ? at - from : 1000);
    return NULL;
}

static void *change(void *given)
{
    for (int i = 0; i < 60; i++)
        table[i * 7 % NUMBERS] ^= 1;
    return given;
}

int main(void)
{
    pthread_t threads[3];
    for (int i = 0; i < NUMBERS; i++)
        table[i] = i * 37 % 64;
    pthread_create(&threads[0], NULL, sort, table);
    pthread_create(&threads[1], NULL, sort, table + NUMBERS / 2);
    pthread_create(&threads[2], NULL, change, NULL);
    for (int i = 0; i < 3; i++)
        pthread_join(threads[i], NULL);
    for (int i = 0; i < NUMBERS; i++)
        printf("%d ", table[i]);
    printf("found %ld\n", found);
    return 0;
}
