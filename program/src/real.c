/* The calls of the C library that the runtime stands before. */
#include "runtime.h"
#include <dlfcn.h>

struct real_calls real;

void real_begin(void)
{
#define ROW(result, name, arguments) *(void **)&real.name = dlsym(RTLD_NEXT, #name);
    REAL_CALLS(ROW)
#undef ROW
    /* An older version of these stands first in the library. */
    *(void **)&real.pthread_cond_wait = dlvsym(RTLD_NEXT, "pthread_cond_wait", "GLIBC_2.3.2");
    *(void **)&real.pthread_cond_timedwait = dlvsym(RTLD_NEXT, "pthread_cond_timedwait", "GLIBC_2.3.2");
    *(void **)&real.pthread_cond_signal = dlvsym(RTLD_NEXT, "pthread_cond_signal", "GLIBC_2.3.2");
    *(void **)&real.pthread_cond_broadcast = dlvsym(RTLD_NEXT, "pthread_cond_broadcast", "GLIBC_2.3.2");
    *(void **)&real.pthread_cond_init = dlvsym(RTLD_NEXT, "pthread_cond_init", "GLIBC_2.3.2");
    *(void **)&real.pthread_cond_destroy = dlvsym(RTLD_NEXT, "pthread_cond_destroy", "GLIBC_2.3.2");
}
