/* Memory that is mapped: by main, and by threads, whose mappings lie at places of their own. */
#include <pthread.h>
#include <stdint.h>
#include <stdio.h>
#include <sys/mman.h>

enum { SIZE = 65536 };

static volatile int *shared;
static uintptr_t places[3];

static void *work(void *given)
{
    long number = (long)given;
    int *own = mmap(NULL, SIZE, PROT_READ | PROT_WRITE, MAP_PRIVATE | MAP_ANONYMOUS, -1, 0);
    if (own == MAP_FAILED)
        return NULL;
    places[number] = (uintptr_t)own;
    for (int i = 0; i < 40; i++) {
        own[i] = shared[i % 8 * 1000];
        shared[i % 8 * 1000] = own[i] * 3 + (int)number;
    }
    munmap(own, SIZE);
    return NULL;
}

int main(void)
{
    pthread_t threads[3];
    shared = mmap(NULL, SIZE, PROT_READ | PROT_WRITE, MAP_PRIVATE | MAP_ANONYMOUS, -1, 0);
    if (shared == MAP_FAILED)
        return 1;
    for (long i = 0; i < 3; i++)
        pthread_create(&threads[i], NULL, work, (void *)i);
    for (int i = 0; i < 3; i++)
        pthread_join(threads[i], NULL);
    for (int i = 0; i < 8; i++)
        printf("%d ", shared[i * 1000]);
    printf("at %lx %lx %lx\n", places[0], places[1], places[2]);
    return munmap((void *)shared, SIZE);
}
