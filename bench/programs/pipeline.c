/* Producers and consumers. One thread makes blocks of text, others take them from a queue with room for a few, shorten each by its
 * runs of equal bytes, and hand it on by a second queue to the last, which checks them.
 *
 *   pipeline BLOCKS WORKERS    up to 8 workers. Prints how many bytes there were, how many are left, and a digest */
#include <pthread.h>
#include <stdint.h>
#include <stdio.h>
#include <stdlib.h>

enum { BLOCK = 4096, PLACES = 16, MOST_WORKERS = 8 };

struct block {
    size_t number, length, packed_length;
    unsigned char bytes[BLOCK], packed[2 * BLOCK];
};

struct queue {
    pthread_mutex_t lock;
    pthread_cond_t has_block, has_place;
    struct block *blocks[PLACES];
    size_t first, count;
};

#define EMPTY {PTHREAD_MUTEX_INITIALIZER, PTHREAD_COND_INITIALIZER, PTHREAD_COND_INITIALIZER, {NULL}, 0, 0}
static struct queue made = EMPTY, packed = EMPTY;
static size_t blocks, workers;

static void put(struct queue *queue, struct block *block)
{
    pthread_mutex_lock(&queue->lock);
    while (queue->count == PLACES)
        pthread_cond_wait(&queue->has_place, &queue->lock);
    queue->blocks[(queue->first + queue->count++) % PLACES] = block;
    pthread_cond_signal(&queue->has_block);
    pthread_mutex_unlock(&queue->lock);
}

static struct block *take(struct queue *queue)
{
    pthread_mutex_lock(&queue->lock);
    while (queue->count == 0)
        pthread_cond_wait(&queue->has_block, &queue->lock);
    struct block *block = queue->blocks[queue->first];
    queue->first = (queue->first + 1) % PLACES;
    queue->count--;
    pthread_cond_signal(&queue->has_place);
    pthread_mutex_unlock(&queue->lock);
    return block;
}

/* Bytes in runs, whose lengths and values come from the number of the block. */
static void fill(struct block *block)
{
    uint64_t state = block->number + 1;
    for (size_t at = 0; at < BLOCK;) {
        state = state * 6364136223846793005u + 1442695040888963407u;
        unsigned char byte = (unsigned char)(state >> 56);
        for (size_t run = (state >> 40) % 12 + 1; run > 0 && at < BLOCK; run--)
            block->bytes[at++] = byte;
    }
    block->length = BLOCK;
}

/* A run becomes its length and its byte. */
static void pack(struct block *block)
{
    size_t to = 0;
    for (size_t at = 0; at < block->length;) {
        size_t run = 1;
        while (at + run < block->length && run < 255 && block->bytes[at + run] == block->bytes[at])
            run++;
        block->packed[to++] = (unsigned char)run;
        block->packed[to++] = block->bytes[at];
        at += run;
    }
    block->packed_length = to;
}

static void *produce(void *given)
{
    for (size_t i = 0; i < blocks; i++) {
        struct block *block = malloc(sizeof *block);
        if (block == NULL)
            abort();
        block->number = i;
        fill(block);
        put(&made, block);
    }
    for (size_t i = 0; i < workers; i++)
        put(&made, NULL);
    return given;
}

static void *work(void *given)
{
    for (struct block *block; (block = take(&made)) != NULL;) {
        pack(block);
        put(&packed, block);
    }
    put(&packed, NULL);
    return given;
}

int main(int given, char **words)
{
    pthread_t producer, thread[MOST_WORKERS];
    size_t bytes = 0, left = 0;
    uint64_t digest = 0;
    blocks = given == 3 ? strtoul(words[1], NULL, 10) : 0;
    workers = given == 3 ? strtoul(words[2], NULL, 10) : 0;
    if (blocks == 0 || workers == 0 || workers > MOST_WORKERS)
        return 64;
    pthread_create(&producer, NULL, produce, NULL);
    for (size_t i = 0; i < workers; i++)
        pthread_create(&thread[i], NULL, work, NULL);
    /* Blocks come in any order, so their digests are added. */
    for (size_t ended = 0; ended < workers;) {
        struct block *block = take(&packed);
        if (block == NULL) {
            ended++;
            continue;
        }
        uint64_t hash = block->number;
        for (size_t i = 0; i < block->packed_length; i++)
            hash = (hash ^ block->packed[i]) * 1099511628211u;
        digest += hash;
        bytes += block->length;
        left += block->packed_length;
        free(block);
    }
    pthread_join(producer, NULL);
    for (size_t i = 0; i < workers; i++)
        pthread_join(thread[i], NULL);
    printf("%zu bytes, %zu left, %016llx\n", bytes, left, (unsigned long long)digest);
    return 0;
}
