/* Texts that threads share without a lock, by the calls of string.h, stdlib.h and stdio.h. */
#include <pthread.h>
#include <stdio.h>
#include <stdlib.h>
#include <string.h>

static char text[256] = "one two three", other[256];
static int numbers[64];
static unsigned long hash[4];

static int compare(const void *a, const void *b)
{
    return *(const int *)a - *(const int *)b;
}

static void *work(void *given)
{
    long number = (long)given;
    char mine[300], *rest = NULL;
    for (int i = 0; i < 20; i++) {
        snprintf(other + number * 40, 40, "thread %ld turn %d", number, i);
        memmove(text + 1, text, 100);
        text[0] = (char)('a' + (i + number) % 26);
        strncpy(mine, text, sizeof mine - 1);
        mine[sizeof mine - 1] = 0;
        hash[number] = hash[number] * 31 + strlen(text) + (strstr(text, "ab") != NULL) + (unsigned)strcmp(text, other);
        for (char *word = strtok_r(mine, " ", &rest); word != NULL; word = strtok_r(NULL, " ", &rest))
            hash[number] = hash[number] * 7 + strspn(word, "abc") + (strchr(word, 'e') != NULL);
        numbers[(i * 7 + number) % 64] = (int)(hash[number] % 1000);
        if (i % 10 == 0)
            qsort(numbers, 64, sizeof *numbers, compare);
        char *copy = strdup(other + number * 40);
        hash[number] += copy != NULL ? (unsigned)memcmp(copy, other, 8) : 0;
        free(copy);
    }
    return NULL;
}

int main(void)
{
    pthread_t threads[4];
    for (long i = 0; i < 4; i++)
        pthread_create(&threads[i], NULL, work, (void *)i);
    for (int i = 0; i < 4; i++)
        pthread_join(threads[i], NULL);
    puts(text);
    for (int i = 0; i < 4; i++)
        printf("%lx %s %d\n", hash[i], other + 40 * i, numbers[i]);
    return 0;
}
