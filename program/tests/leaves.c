/* What no recording has decides what is accessed: which of two variables is written, by the time stamp of the processor. */
#include <pthread.h>
#include <stdio.h>

static _Alignas(64) volatile long even, odd, turn;

static void *work(void *given)
{
    for (int i = 0; i < 64; i++) {
        /* So that the next access is a call of the library, whichever variable it is of. */
        turn = i;
        if (__builtin_ia32_rdtsc() / 8 % 2 == 0)
            even++;
        else
            odd++;
    }
    return given;
}

int main(void)
{
    pthread_t thread;
    pthread_create(&thread, NULL, work, NULL);
    pthread_join(thread, NULL);
    puts("ends");
    return 0;
}
