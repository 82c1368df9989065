/* Blocks that one thread takes and another gives back, and whose room grows. */
#include <malloc.h>
#include <pthread.h>
#include <stdint.h>
#include <stdio.h>
#include <stdlib.h>
#include <string.h>

static char *blocks[4];
static long sums[3];

static char *take(int i)
{
    void *block = NULL;
    if (i % 4 == 0)
        return calloc(3, 20);
    if (i % 4 == 1 && posix_memalign(&block, 64, 50) == 0)
        return memset(block, 1, 50);
    if (i % 4 == 2)
        return memset(aligned_alloc(32, 64), 2, 60);
    return memset(reallocarray(NULL, 10, 5), 3, 50);
}

static void *work(void *given)
{
    long number = (long)given;
    for (int i = 0; i < 30; i++) {
        char *other = __atomic_exchange_n(&blocks[i % 4], take(i + (int)number), __ATOMIC_ACQ_REL);
        if (other == NULL)
            continue;
        sums[number] = sums[number] * 3 + other[10] + (long)(malloc_usable_size(other) % 7) + (long)((uintptr_t)other % 1000);
        other = realloc(other, 200 + (size_t)i);
        sums[number] += other[11];
        free(other);
    }
    return NULL;
}

int main(void)
{
    pthread_t threads[3];
    for (long i = 0; i < 3; i++)
        pthread_create(&threads[i], NULL, work, (void *)i);
    for (int i = 0; i < 3; i++)
        pthread_join(threads[i], NULL);
    for (int i = 0; i < 4; i++)
        free(blocks[i]);
    printf("%ld %ld %ld\n", sums[0], sums[1], sums[2]);
    return 0;
}
