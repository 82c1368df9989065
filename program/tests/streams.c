/* Streams that threads share: what is written in which order, and what each reads. */
#include <pthread.h>
#include <stdio.h>
#include <stdlib.h>
#include <string.h>

static FILE *file;
static long sums[3];

static void *put(void *given)
{
    char letter = (char)('a' + (long)given);
    for (int i = 0; i < 6; i++) {
        fputc(letter, file);
        putc('0' + i, file);
        fputs(" then ", file);
        fwrite("four", 1, 4, file);
        fprintf(file, " %d\n", i);
    }
    fflush(file);
    return NULL;
}

static void *get(void *given)
{
    long number = (long)given;
    char line[40], *whole = NULL, two[2];
    size_t room = 0;
    for (int c; fgets(line, sizeof line, file); sums[number] = sums[number] * 31 + line[0] + (long)strlen(line)) {
        if ((c = fgetc(file)) != EOF && ungetc(c, file) != c)
            return NULL;
        if (fread(two, 1, 2, file) == 2)
            sums[number] += two[0] * two[1];
        if (getline(&whole, &room, file) > 0)
            sums[number] += whole[0];
    }
    free(whole);
    return NULL;
}

static void all(void *(*work)(void *))
{
    pthread_t threads[3];
    for (long i = 0; i < 3; i++)
        pthread_create(&threads[i], NULL, work, (void *)i);
    for (int i = 0; i < 3; i++)
        pthread_join(threads[i], NULL);
}

int main(void)
{
    char line[40];
    file = fopen("streams.txt", "w+");
    all(put);
    rewind(file);
    for (int i = 0; i < 4 && fgets(line, sizeof line, file); i++)
        fputs(line, stdout);
    all(get);
    printf("%ld %ld %ld\n", sums[0], sums[1], sums[2]);
    puts("ends");
    return fclose(file) + remove("streams.txt");
}
