/* A parallel merge sort. Each thread sorts a part of the numbers; then half of the threads merge two neighbours each, then a quarter
 * of them, until one part is left. A barrier stands between the rounds.
 *
 *   sort NUMBERS THREADS    threads: a power of two, up to 8. Prints a digest of the sorted numbers */
#include <pthread.h>
#include <stdint.h>
#include <stdio.h>
#include <stdlib.h>
#include <string.h>

enum { MOST_THREADS = 8, FEW = 16 };

static uint64_t *numbers, *room;
static size_t count, threads;
static pthread_barrier_t barrier;

/* Where the part of the thread begins that has so many parts before it. */
static size_t begin_of(size_t part)
{
    return count * part / threads;
}

static void sort_few(uint64_t *from, size_t length)
{
    for (size_t i = 1; i < length; i++) {
        uint64_t number = from[i];
        size_t at = i;
        for (; at > 0 && from[at - 1] > number; at--)
            from[at] = from[at - 1];
        from[at] = number;
    }
}

static void merge(const uint64_t *from, size_t middle, size_t end, uint64_t *to)
{
    size_t left = 0, right = middle;
    for (size_t i = 0; i < end; i++)
        to[i] = left < middle && (right == end || from[left] <= from[right]) ? from[left++] : from[right++];
}

static void sort_part(uint64_t *from, uint64_t *other, size_t length)
{
    if (length <= FEW) {
        sort_few(from, length);
        return;
    }
    size_t middle = length / 2;
    sort_part(from, other, middle);
    sort_part(from + middle, other + middle, length - middle);
    merge(from, middle, length, other);
    memcpy(from, other, length * sizeof *from);
}

static void *work(void *given)
{
    size_t number = (size_t)(uintptr_t)given;
    size_t begin = begin_of(number);
    sort_part(numbers + begin, room + begin, begin_of(number + 1) - begin);
    for (size_t parts = 1; parts < threads; parts *= 2) {
        pthread_barrier_wait(&barrier);
        if (number % (2 * parts) != 0)
            continue;
        size_t middle = begin_of(number + parts) - begin, length = begin_of(number + 2 * parts) - begin;
        merge(numbers + begin, middle, length, room + begin);
        memcpy(numbers + begin, room + begin, length * sizeof *numbers);
    }
    return NULL;
}

static void fill(void)
{
    uint64_t state = 1;
    for (size_t i = 0; i < count; i++) {
        state = state * 6364136223846793005u + 1442695040888963407u;
        numbers[i] = state >> 16;
    }
}

/* Whether the numbers are in order, with a digest of them. */
static int is_sorted(uint64_t *digest)
{
    *digest = 14695981039346656037u;
    for (size_t i = 0; i < count; i++) {
        if (i > 0 && numbers[i - 1] > numbers[i])
            return 0;
        *digest = (*digest ^ numbers[i]) * 1099511628211u;
    }
    return 1;
}

int main(int words, char **given)
{
    pthread_t thread[MOST_THREADS];
    uint64_t digest;
    count = words == 3 ? strtoul(given[1], NULL, 10) : 0;
    threads = words == 3 ? strtoul(given[2], NULL, 10) : 0;
    if (count == 0 || threads == 0 || threads > MOST_THREADS || (threads & (threads - 1)) != 0)
        return 64;
    numbers = malloc(count * sizeof *numbers);
    room = malloc(count * sizeof *room);
    if (numbers == NULL || room == NULL)
        return 1;
    fill();
    pthread_barrier_init(&barrier, NULL, (unsigned)threads);
    for (size_t i = 0; i < threads; i++)
        pthread_create(&thread[i], NULL, work, (void *)i);
    for (size_t i = 0; i < threads; i++)
        pthread_join(thread[i], NULL);
    if (!is_sorted(&digest))
        return 1;
    printf("%zu numbers %016llx\n", count, (unsigned long long)digest);
    free(numbers);
    free(room);
    return 0;
}
