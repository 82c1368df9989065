/* What the runtime says, and how it copies and waits. None of this is an access of the program's. */
#include "runtime.h"
#include <fcntl.h>
#include <sys/mman.h>
#include <sys/stat.h>

long raw_syscall(long number, ...)
{
    va_list values;
    va_start(values, number);
    long a = va_arg(values, long), b = va_arg(values, long), c = va_arg(values, long);
    register long d __asm__("r10") = va_arg(values, long);
    register long e __asm__("r8") = va_arg(values, long);
    register long f __asm__("r9") = va_arg(values, long);
    va_end(values);
    long found;
    __asm__ volatile("syscall"
                     : "=a"(found)
                     : "a"(number), "D"(a), "S"(b), "d"(c), "r"(d), "r"(e), "r"(f)
                     : "rcx", "r11", "memory");
    if ((unsigned long)found < -4095ul)
        return found;
    errno = (int)-found;
    return -1;
}

int raw_print(char *to, size_t room, const char *format, ...)
{
    va_list values;
    va_start(values, format);
    int length = real.vsnprintf(to, room, format, values);
    va_end(values);
    return length;
}

static void put_text(int file, const char *format, va_list values)
{
    char text[1024];
    int length = real.vsnprintf(text, sizeof text, format, values);
    if (length > (int)sizeof text - 1)
        length = sizeof text - 1;
    if (length > 0)
        syscall(SYS_write, file, text, length);
}

void say(const char *format, ...)
{
    va_list values;
    va_start(values, format);
    put_text(2, format, values);
    va_end(values);
}

void say_to(int file, const char *format, ...)
{
    va_list values;
    va_start(values, format);
    put_text(file, format, values);
    va_end(values);
}

/* A number behind blanks, in a text of the runtime's own. The program's calls for this would be the runtime's too. */
uint64_t take_digits(const char **at, unsigned base)
{
    uint64_t number = 0;
    while (**at == ' ')
        ++*at;
    for (;; ++*at) {
        unsigned digit = **at >= 'a' ? (unsigned)(**at - 'a') + 10 : (unsigned)(**at - '0');
        if (digit >= base)
            return number;
        number = number * base + digit;
    }
}

_Noreturn void leave_process(int status)
{
    syscall(SYS_exit_group, status);
    __builtin_unreachable();
}

/* A wait that begins short, since mostly another thread goes on at once. Then it sleeps: on a busy machine the thread that can go
 * on would wait for a processor behind all that only look. */
void pause_short(unsigned tries)
{
    if (tries < 200) {
        __builtin_ia32_pause();
    } else if (tries < 210) {
        syscall(SYS_sched_yield);
    } else {
        struct timespec time = {0, tries < 2000 ? 20000 : 500000};
        syscall(SYS_nanosleep, &time, NULL);
    }
}

/* The C library's own memcpy is another name for the runtime's, which makes accesses. */
void raw_copy(void *to, const void *from, size_t length)
{
    __asm__ volatile("rep movsb" : "+D"(to), "+S"(from), "+c"(length) : : "memory");
}

void raw_set(void *to, int value, size_t length)
{
    __asm__ volatile("rep stosb" : "+D"(to), "+c"(length) : "a"(value) : "memory");
}

void *map_pages(size_t length)
{
    long at = syscall(SYS_mmap, NULL, length, PROT_READ | PROT_WRITE, MAP_PRIVATE | MAP_ANONYMOUS, -1, 0L);
    if (at == -1) {
        say("octet: there is no memory for the runtime\n");
        leave_process(EXIT_UNSET);
    }
    return (void *)at;
}

/* A file as it is, or NULL. An empty one is no NULL. */
const uint8_t *map_file(const char *name, size_t *length)
{
    static const uint8_t nothing[1];
    struct stat about;
    int file = (int)syscall(SYS_open, name, O_RDONLY);
    *length = 0;
    if (file < 0)
        return NULL;
    if (syscall(SYS_fstat, file, &about) != 0 || about.st_size == 0) {
        syscall(SYS_close, file);
        return nothing;
    }
    *length = (size_t)about.st_size;
    long at = syscall(SYS_mmap, NULL, *length, PROT_READ, MAP_PRIVATE, file, 0L);
    syscall(SYS_close, file);
    return at == -1 ? NULL : (const uint8_t *)at;
}
