/* Calls of string.h on texts that threads change beside each other. */
#define _GNU_SOURCE
#include <pthread.h>
#include <stdio.h>
#include <stdlib.h>
#include <string.h>
#include <strings.h>

static pthread_mutex_t lock = PTHREAD_MUTEX_INITIALIZER;
static char text[200] = "one,two;three four,five", found[200];
static size_t sums[3];

static size_t cut_up(char *copy)
{
    size_t sum = strspn(copy, "onetw") + strcspn(copy, ";, ");
    char *rest = NULL, *part = strpbrk(copy, ";");
    sum += part ? (size_t)(part - copy) : 0;
    for (char *word = strtok_r(copy, ",; ", &rest); word; word = strtok_r(NULL, ",; ", &rest))
        sum = sum * 31 + strlen(word) + (size_t)(strcasecmp(word, "TWO") == 0) + (size_t)(strncasecmp(word, "THR", 3) == 0);
    return sum;
}

static void *work(void *given)
{
    long number = (long)given;
    for (int i = 0; i < 6; i++) {
        pthread_mutex_lock(&lock);
        char *copy = strndup(text, 100), *at = copy, *whole = strdup(text);
        if (strlen(text) < 100)
            strncat(text, i % 2 ? ";six" : " SEVEN", 10);
        stpcpy(stpcpy(found, text), "!");
        if (strchr(text, 'S') && strrchr(text, 's') && strstr(text, "two") && strcmp(text, found) < 0 && strncmp(text, found, 9) == 0)
            sums[number]++;
        pthread_mutex_unlock(&lock);
        sums[number] = sums[number] * 7 + cut_up(whole);
        while (strsep(&at, ",;"))
            sums[number]++;
        free(copy);
        free(whole);
    }
    return NULL;
}

int main(void)
{
    pthread_t threads[3];
    for (long i = 0; i < 3; i++)
        pthread_create(&threads[i], NULL, work, (void *)i);
    for (int i = 0; i < 3; i++)
        pthread_join(threads[i], NULL);
    printf("%s %s %zu %zu %zu\n", text, found, sums[0], sums[1], sums[2]);
    return 0;
}
