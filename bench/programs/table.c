/* A hash table with a lock for each bucket. Threads count words of an alphabet of their own making, look some up, and take some out.
 *
 *   table CALLS THREADS    so many calls of each thread. Prints how many words the table has, and how often all were counted */
#include <pthread.h>
#include <stdint.h>
#include <stdio.h>
#include <stdlib.h>
#include <string.h>

enum { BUCKETS = 1024, MOST_THREADS = 8, LETTERS = 16, WORDS = 20000 };

struct entry {
    struct entry *next;
    uint64_t times;
    char word[LETTERS];
};

static struct bucket {
    pthread_mutex_t lock;
    struct entry *first;
} buckets[BUCKETS];
static unsigned long calls, found[MOST_THREADS], removed[MOST_THREADS];

static struct bucket *bucket_of(const char *word)
{
    uint64_t hash = 14695981039346656037u;
    for (; *word != 0; word++)
        hash = (hash ^ (unsigned char)*word) * 1099511628211u;
    return &buckets[(hash >> 20) % BUCKETS];
}

/* The place of the pointer to a word's entry, or to where it would be. */
static struct entry **place_of(struct bucket *bucket, const char *word)
{
    struct entry **place = &bucket->first;
    while (*place != NULL && strcmp((*place)->word, word) != 0)
        place = &(*place)->next;
    return place;
}

static void count_word(const char *word)
{
    struct bucket *bucket = bucket_of(word);
    pthread_mutex_lock(&bucket->lock);
    struct entry **place = place_of(bucket, word);
    if (*place == NULL) {
        *place = calloc(1, sizeof **place);
        if (*place == NULL)
            abort();
        strcpy((*place)->word, word);
    }
    (*place)->times++;
    pthread_mutex_unlock(&bucket->lock);
}

static uint64_t times_of(const char *word)
{
    struct bucket *bucket = bucket_of(word);
    pthread_mutex_lock(&bucket->lock);
    struct entry *entry = *place_of(bucket, word);
    uint64_t times = entry == NULL ? 0 : entry->times;
    pthread_mutex_unlock(&bucket->lock);
    return times;
}

static uint64_t take_out(const char *word)
{
    uint64_t times = 0;
    struct bucket *bucket = bucket_of(word);
    pthread_mutex_lock(&bucket->lock);
    struct entry **place = place_of(bucket, word), *entry = *place;
    if (entry != NULL) {
        times = entry->times;
        *place = entry->next;
    }
    pthread_mutex_unlock(&bucket->lock);
    free(entry);
    return times;
}

/* A word of five letters for each number less than WORDS. Small numbers come more often. */
static void make_word(uint64_t *state, char *word)
{
    *state = *state * 6364136223846793005u + 1442695040888963407u;
    uint64_t number = (*state >> 33) % WORDS * ((*state >> 20) % WORDS) / WORDS;
    for (int i = 0; i < 5; i++, number /= 26)
        word[i] = (char)('a' + number % 26);
    word[5] = 0;
}

static void *work(void *given)
{
    size_t number = (size_t)(uintptr_t)given;
    uint64_t state = number + 1;
    char word[LETTERS];
    for (unsigned long i = 0; i < calls; i++) {
        make_word(&state, word);
        if (i % 8 == 7)
            removed[number] += take_out(word);
        else if (i % 2 == 1)
            found[number] += times_of(word) > 0;
        else
            count_word(word);
    }
    return NULL;
}

int main(int given, char **words)
{
    pthread_t thread[MOST_THREADS];
    unsigned long threads = given == 3 ? strtoul(words[2], NULL, 10) : 0, entries = 0;
    uint64_t times = 0;
    calls = given == 3 ? strtoul(words[1], NULL, 10) : 0;
    if (calls == 0 || threads == 0 || threads > MOST_THREADS)
        return 64;
    for (int i = 0; i < BUCKETS; i++)
        pthread_mutex_init(&buckets[i].lock, NULL);
    for (unsigned long i = 0; i < threads; i++)
        pthread_create(&thread[i], NULL, work, (void *)i);
    for (unsigned long i = 0; i < threads; i++) {
        pthread_join(thread[i], NULL);
        times += removed[i];
    }
    for (int i = 0; i < BUCKETS; i++)
        for (struct entry *entry = buckets[i].first; entry != NULL; entry = entry->next) {
            entries++;
            times += entry->times;
        }
    printf("%lu words, counted %llu times\n", entries, (unsigned long long)times);
    return 0;
}
