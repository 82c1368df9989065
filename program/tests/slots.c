/* More threads than there are numbers, one after another: joined, and detached. */
#include <pthread.h>
#include <semaphore.h>
#include <stdio.h>
#include <unistd.h>

static sem_t ended;
static pthread_key_t key;
static int made, destroyed;

static void destroy(void *given)
{
    (void)given;
    destroyed++;
}

static void *work(void *given)
{
    pthread_setspecific(key, &made);
    made++;
    sem_post(&ended);
    return given;
}

int main(void)
{
    pthread_t thread;
    sem_init(&ended, 0, 0);
    pthread_key_create(&key, destroy);
    for (int i = 0; i < 20; i++) {
        pthread_create(&thread, NULL, work, NULL);
        if (i % 2 == 0)
            pthread_detach(thread);
        else
            pthread_join(thread, NULL);
        sem_wait(&ended);
    }
    printf("made %d\n", made);
    return 0;
}
