/* Files and streams.
 *
 * A regular file is read again in a second run, and has to be the same: its digest is kept where it is opened to be read. What
 * comes from anywhere else, standard input too, is an input. What the program writes is written again; but not into a pipe or a
 * socket, where nobody may read it. A call on a file is made under an object of its own, so that calls have an order. */
#include "runtime.h"
#include <fcntl.h>
#include <sys/mman.h>
#include <sys/stat.h>
#include <sys/uio.h>
#include <sys/vfs.h>

#undef snprintf

enum { MAGIC_PROC = 0x9fa0, MAGIC_SYSFS = 0x62656572 };

static uint32_t file_object(int file)
{
    return FIRST_FILE + (uint32_t)file % FILES;
}

/* Whether a second run finds the same there. */
static bool is_regular(int file)
{
    struct stat about;
    struct statfs system;
    if (file == 0 || syscall(SYS_fstat, file, &about) != 0 || !S_ISREG(about.st_mode))
        return false;
    return syscall(SYS_fstatfs, file, &system) != 0 || (system.f_type != MAGIC_PROC && system.f_type != MAGIC_SYSFS);
}

/* A result of a call that fails is less than 0, and has its error. */
static int64_t with_error(int64_t found)
{
    return found < 0 ? -errno : found;
}

static int64_t without_error(int64_t found)
{
    if (found >= 0)
        return found;
    errno = (int)-found;
    return -1;
}

/* Reads from outside the program into the thread's room. */
static int64_t read_outside(struct thread *t, int file, void *room, size_t length)
{
    int64_t found = 0;
    go_away(t);
    if (mode == RECORD)
        found = with_error(syscall(SYS_read, file, room, length));
    come_back(t);
    own_lock(t, file_object(file));
    found = input(t, found);
    if (found > 0)
        input_bytes(t, room, (size_t)found);
    return found;
}

ssize_t read(int file, void *to, size_t length)
{
    struct thread *t = me;
    if (t == NULL)
        return syscall(SYS_read, file, to, length);
    void *room = room_of(t, length);
    int64_t found;
    if (is_regular(file)) {
        own_lock(t, file_object(file));
        found = with_error(syscall(SYS_read, file, room, length));
    } else {
        found = read_outside(t, file, room, length);
    }
    if (found > 0)
        scatter(to, room, (size_t)found, CALLER);
    return without_error(found);
}

ssize_t pread(int file, void *to, size_t length, off_t from)
{
    struct thread *t = me;
    if (t == NULL)
        return syscall(SYS_pread64, file, to, length, from);
    void *room = room_of(t, length);
    own_lock(t, file_object(file));
    int64_t found = with_error(syscall(SYS_pread64, file, room, length, from));
    if (found > 0)
        scatter(to, room, (size_t)found, CALLER);
    return without_error(found);
}

ssize_t readv(int file, const struct iovec *parts, int count)
{
    ssize_t all = 0;
    if (me == NULL)
        return syscall(SYS_readv, file, parts, count);
    for (int i = 0; i < count; i++) {
        ssize_t found = read(file, parts[i].iov_base, parts[i].iov_len);
        if (found < 0)
            return all > 0 ? all : found;
        all += found;
        if ((size_t)found < parts[i].iov_len)
            break;
    }
    return all;
}

/* A pipe or a socket may be full until another thread of the program reads from it. */
static int64_t write_outside(struct thread *t, int file, const void *from, size_t length)
{
    int64_t found = 0;
    go_away(t);
    if (mode == RECORD)
        found = with_error(syscall(SYS_write, file, from, length));
    come_back(t);
    own_lock(t, file_object(file));
    return input(t, found);
}

ssize_t write(int file, const void *from, size_t length)
{
    struct thread *t = me;
    if (t == NULL)
        return syscall(SYS_write, file, from, length);
    void *room = room_of(t, length);
    gather(room, from, length, CALLER);
    if (file != 1 && file != 2 && !is_regular(file))
        return without_error(write_outside(t, file, room, length));
    own_lock(t, file_object(file));
    return syscall(SYS_write, file, room, length);
}

ssize_t pwrite(int file, const void *from, size_t length, off_t to)
{
    struct thread *t = me;
    if (t == NULL)
        return syscall(SYS_pwrite64, file, from, length, to);
    void *room = room_of(t, length);
    gather(room, from, length, CALLER);
    own_lock(t, file_object(file));
    return syscall(SYS_pwrite64, file, room, length, to);
}

ssize_t writev(int file, const struct iovec *parts, int count)
{
    ssize_t all = 0;
    if (me == NULL)
        return syscall(SYS_writev, file, parts, count);
    for (int i = 0; i < count; i++) {
        ssize_t found = write(file, parts[i].iov_base, parts[i].iov_len);
        if (found < 0)
            return all > 0 ? all : found;
        all += found;
        if ((size_t)found < parts[i].iov_len)
            break;
    }
    return all;
}

/* A digest of what is in a regular file, or 0. */
static uint64_t digest_of(int file)
{
    static __thread unsigned char piece[4096];
    uint64_t digest = 0xcbf29ce484222325ul;
    off_t at = 0;
    if (!is_regular(file))
        return 0;
    for (long found; (found = syscall(SYS_pread64, file, piece, sizeof piece, at)) > 0; at += found)
        for (long i = 0; i < found; i++)
            digest = (digest ^ piece[i]) * 0x100000001b3ul;
    return digest | 1;
}

/* What the program finds when it opens a file has to be the same in a second run. */
static void compare_file(struct thread *t, const char *name, int file, bool reads)
{
    int64_t now = file < 0 ? 0 : 1, then = input(t, now);
    if (now != then) {
        say("octet: %s could %sbe opened in the recording\n", name, then ? "" : "not ");
        leave_process(EXIT_UNSET);
    }
    if (file < 0 || !reads)
        return;
    uint64_t digest = digest_of(file), before = (uint64_t)input(t, (int64_t)digest);
    if (digest != before) {
        say("octet: the file %s has changed since it was recorded\n", name);
        leave_process(EXIT_UNSET);
    }
}

static int open_followed(int folder, const char *name, int flags, int rights)
{
    struct thread *t = me;
    if (t == NULL)
        return (int)syscall(SYS_openat, folder, name, flags, rights);
    own_lock(t, OBJECT_FILES);
    int file = (int)syscall(SYS_openat, folder, name, flags, rights), error = errno;
    compare_file(t, name, file, (flags & O_ACCMODE) == O_RDONLY && (flags & (O_DIRECTORY | O_PATH)) == 0);
    errno = error;
    return file;
}

#define OPEN(name, first, folder)                                                                                        \
    int name(first const char *path, int flags, ...)                                                                      \
    {                                                                                                                     \
        va_list rest;                                                                                                     \
        va_start(rest, flags);                                                                                            \
        int rights = (flags & (O_CREAT | O_TMPFILE)) != 0 ? va_arg(rest, int) : 0;                                        \
        va_end(rest);                                                                                                     \
        return open_followed(folder, path, flags, rights);                                                                \
    }
#define FOLDER int folder,
#define NOTHING
OPEN(open, NOTHING, AT_FDCWD)
OPEN(open64, NOTHING, AT_FDCWD)
OPEN(openat, FOLDER, folder)
OPEN(openat64, FOLDER, folder)

int creat(const char *path, mode_t rights)
{
    return open_followed(AT_FDCWD, path, O_WRONLY | O_CREAT | O_TRUNC, (int)rights);
}

#define UNDER_FILES(result, name, parameters, number, ...)                                                               \
    result name parameters                                                                                                \
    {                                                                                                                     \
        if (me != NULL)                                                                                                   \
            own_lock(me, OBJECT_FILES);                                                                                   \
        return (result)syscall(number, __VA_ARGS__);                                                                      \
    }
UNDER_FILES(int, close, (int file), SYS_close, file)
UNDER_FILES(int, dup, (int file), SYS_dup, file)
UNDER_FILES(int, dup2, (int file, int other), SYS_dup2, file, other)
UNDER_FILES(int, dup3, (int file, int other, int flags), SYS_dup3, file, other, flags)
UNDER_FILES(int, unlink, (const char *path), SYS_unlink, path)
UNDER_FILES(int, rename, (const char *from, const char *to), SYS_rename, from, to)
UNDER_FILES(int, mkdir, (const char *path, mode_t rights), SYS_mkdir, path, rights)
UNDER_FILES(int, rmdir, (const char *path), SYS_rmdir, path)

int pipe2(int ends[2], int flags)
{
    int found[2];
    if (me != NULL)
        own_lock(me, OBJECT_FILES);
    if (syscall(SYS_pipe2, found, flags) != 0)
        return -1;
    access_memory((uintptr_t)ends, sizeof found, OCTET_WRITE, CALLER);
    ends[0] = found[0];
    ends[1] = found[1];
    return 0;
}

int pipe(int ends[2])
{
    return pipe2(ends, 0);
}

off_t lseek(int file, off_t to, int how)
{
    if (me != NULL)
        own_lock(me, file_object(file));
    return syscall(SYS_lseek, file, to, how);
}

/* Mappings that the program leaves to the system lie at places of the thread. */
void *mmap(void *at, size_t length, int rights, int flags, int file, off_t from)
{
    static uintptr_t next[THREADS];
    struct thread *t = me;
    if (t != NULL && at == NULL && (flags & MAP_FIXED) == 0) {
        uintptr_t *place = &next[t->number];
        if (*place == 0)
            *place = MAPPED_FIRST + ((uintptr_t)t->number << MAPPED_BITS);
        at = (void *)*place;
        *place += (length + 0x10fff) & ~0xfffful;
        flags |= MAP_FIXED;
    }
    return (void *)syscall(SYS_mmap, at, length, rights, flags, file, from);
}

/* Streams. Standard input becomes one whose bytes come by `read`, whatever call asks for them. */
static FILE *first_input;

/* A thread keeps the streams from flockfile to funlockfile, whichever it names. Here and not in the C library: there others would
 * wait for a lock that is none in a second run. */
static volatile int keeper, kept, keeps;

static inline __attribute__((always_inline)) void own_streams(struct thread *t)
{
    for (;;) {
        own_lock(t, OBJECT_STDIO);
        if (keeper == 0 || keeper == t->number + 1)
            return;
        wait_change(t, &keeps, keeps, NULL, 0);
    }
}

static inline __attribute__((always_inline)) FILE *stream(FILE *given)
{
    if (me != NULL)
        own_streams(me);
    else if (mode == STARTING)
        real_begin();
    return given == first_input && given != NULL ? stdin : given;
}

static ssize_t read_input(void *nothing, char *to, size_t length)
{
    (void)nothing;
    if (me == NULL)
        return syscall(SYS_read, 0, to, length);
    return (ssize_t)without_error(read_outside(me, 0, to, length));
}

void flockfile(FILE *file)
{
    if (me == NULL) {
        real.flockfile(file);
        return;
    }
    own_streams(me);
    keeper = me->number + 1;
    kept++;
}

int ftrylockfile(FILE *file)
{
    struct thread *t = me;
    if (t == NULL)
        return real.ftrylockfile(file);
    own_lock(t, OBJECT_STDIO);
    if (keeper != 0 && keeper != t->number + 1)
        return -1;
    keeper = t->number + 1;
    kept++;
    return 0;
}

void funlockfile(FILE *file)
{
    if (me == NULL) {
        real.funlockfile(file);
        return;
    }
    own_streams(me);
    if (--kept > 0)
        return;
    keeper = 0;
    keeps++;
    wake_waiters(&keeps, INT32_MAX);
}

void files_begin(void)
{
    first_input = stdin;
    FILE *other = fopencookie(NULL, "r", (cookie_io_functions_t){.read = read_input});
    if (other != NULL)
        stdin = other;
}

#define PRINTS(name, before, where, format)                                                                       \
    int name(before const char *format, ...)                                                                              \
    {                                                                                                                     \
        va_list values;                                                                                                   \
        va_start(values, format);                                                                                         \
        FILE *to = stream(where);                                                                                         \
        int length = real.vfprintf(to, format, values);                                                                   \
        va_end(values);                                                                                                   \
        return length;                                                                                                    \
    }
#define STREAM FILE *file,
#define CHECK int check,
#define STREAM_CHECK FILE *file, int check,
PRINTS(printf, NOTHING, stdout, format)
PRINTS(fprintf, STREAM, file, format)
PRINTS(__printf_chk, CHECK, ((void)check, stdout), format)
PRINTS(__fprintf_chk, STREAM_CHECK, ((void)check, file), format)

int vfprintf(FILE *file, const char *format, va_list values) { return real.vfprintf(stream(file), format, values); }
int vprintf(const char *format, va_list values) { return real.vfprintf(stream(stdout), format, values); }
int __vfprintf_chk(FILE *file, int check, const char *format, va_list values)
{
    (void)check;
    return real.vfprintf(stream(file), format, values);
}
int __vprintf_chk(int check, const char *format, va_list values)
{
    (void)check;
    return real.vfprintf(stream(stdout), format, values);
}

static int print_into(char *to, size_t room, const char *format, va_list values, void *from)
{
    struct thread *t = me;
    if (t == NULL) {
        if (mode == STARTING)
            real_begin();
        return real.vsnprintf(to, room, format, values);
    }
    va_list again;
    va_copy(again, values);
    int length = real.vsnprintf(NULL, 0, format, again);
    va_end(again);
    if (length < 0)
        return length;
    char *text = room_of(t, (size_t)length + 1);
    real.vsnprintf(text, (size_t)length + 1, format, values);
    if (room > 0) {
        size_t most = (size_t)length < room - 1 ? (size_t)length : room - 1;
        text[most] = 0;
        scatter(to, text, most + 1, from);
    }
    return length;
}

#define PRINTS_INTO(name, parameters, room)                                                                              \
    int name parameters                                                                                                   \
    {                                                                                                                     \
        va_list values;                                                                                                   \
        va_start(values, format);                                                                                         \
        int length = print_into(to, room, format, values, CALLER);                                                        \
        va_end(values);                                                                                                   \
        return length;                                                                                                    \
    }
#define MOST INT32_MAX
PRINTS_INTO(sprintf, (char *to, const char *format, ...), MOST)
PRINTS_INTO(snprintf, (char *to, size_t room, const char *format, ...), room)
PRINTS_INTO(__sprintf_chk, (char *to, int check, size_t all, const char *format, ...), ((void)check, all))
PRINTS_INTO(__snprintf_chk, (char *to, size_t room, int check, size_t all, const char *format, ...), ((void)check, (void)all, room))

int vsnprintf(char *to, size_t room, const char *format, va_list values)
{
    return print_into(to, room, format, values, CALLER);
}

int vsprintf(char *to, const char *format, va_list values)
{
    return print_into(to, MOST, format, values, CALLER);
}

int __vsnprintf_chk(char *to, size_t room, int check, size_t all, const char *format, va_list values)
{
    (void)check, (void)all;
    return print_into(to, room, format, values, CALLER);
}

#define SCANS(name, before, where)                                                                                       \
    int name(before const char *format, ...)                                                                              \
    {                                                                                                                     \
        va_list values;                                                                                                   \
        va_start(values, format);                                                                                         \
        int found = real.__isoc99_vfscanf(stream(where), format, values);                                                 \
        va_end(values);                                                                                                   \
        return found;                                                                                                     \
    }
SCANS(__isoc99_scanf, NOTHING, stdin)
SCANS(__isoc99_fscanf, STREAM, file)

/* A text of the program's is read under its right, and written as a whole. */
static int put_text(const char *text, const char *end, FILE *file)
{
    struct thread *t = me;
    size_t length = __builtin_strlen(text), more = *end != 0;
    if (t == NULL)
        return real.fputs(text, stream(file)) < 0 || real.fputs(end, file) < 0 ? EOF : 1;
    char *room = room_of(t, length + 1);
    gather(room, text, length, CALLER);
    room[length] = *end;
    return real.fwrite(room, 1, length + more, stream(file)) == length + more ? 1 : EOF;
}

int puts(const char *text) { return put_text(text, "\n", stdout); }
int fputs(const char *text, FILE *file) { return put_text(text, "", file); }
int fputc(int c, FILE *file) { return real.fputc(c, stream(file)); }
#undef putc
int putc(int c, FILE *file) { return real.fputc(c, stream(file)); }
#undef putchar
int putchar(int c) { return real.fputc(c, stream(stdout)); }
int fgetc(FILE *file) { return real.fgetc(stream(file)); }
#undef getc
int getc(FILE *file) { return real.fgetc(stream(file)); }
#undef getchar
int getchar(void) { return real.fgetc(stream(stdin)); }
int ungetc(int c, FILE *file) { return real.ungetc(c, stream(file)); }
int fflush(FILE *file) { return real.fflush(stream(file)); }
int fclose(FILE *file) { return real.fclose(stream(file)); }

char *fgets(char *to, int room, FILE *file)
{
    struct thread *t = me;
    if (t == NULL || room <= 0)
        return real.fgets(to, room, stream(file));
    file = stream(file);
    size_t length = 0;
    for (int c; length + 1 < (size_t)room && (c = real.fgetc(file)) != EOF;) {
        access_memory((uintptr_t)&to[length], 1, OCTET_WRITE, CALLER);
        to[length++] = (char)c;
        if (c == '\n')
            break;
        own_streams(t);
    }
    if (length == 0)
        return NULL;
    access_memory((uintptr_t)&to[length], 1, OCTET_WRITE, CALLER);
    to[length] = 0;
    return to;
}

static bool grow(char **line, size_t *room, size_t wanted)
{
    if (*line != NULL && *room >= wanted)
        return true;
    size_t size = wanted * 2 < 120 ? 120 : wanted * 2;
    char *other = realloc(*line, size);
    if (other == NULL)
        return false;
    *line = other;
    *room = size;
    return true;
}

ssize_t getdelim(char **line, size_t *room, int end, FILE *file)
{
    size_t length = 0;
    int c = 0;
    access_memory((uintptr_t)line, sizeof *line, OCTET_WRITE, CALLER);
    while (c != end && (c = real.fgetc(stream(file))) != EOF) {
        if (!grow(line, room, length + 2))
            return -1;
        access_memory((uintptr_t)&(*line)[length], 1, OCTET_WRITE, CALLER);
        (*line)[length++] = (char)c;
    }
    if (length == 0)
        return -1;
    access_memory((uintptr_t)&(*line)[length], 1, OCTET_WRITE, CALLER);
    (*line)[length] = 0;
    return (ssize_t)length;
}

ssize_t getline(char **line, size_t *room, FILE *file)
{
    return getdelim(line, room, '\n', file);
}

size_t fread(void *to, size_t size, size_t count, FILE *file)
{
    struct thread *t = me;
    file = stream(file);
    if (t == NULL)
        return real.fread(to, size, count, file);
    char *room = room_of(t, size * count);
    size_t found = real.fread(room, size, count, file);
    scatter(to, room, found * size, CALLER);
    return found;
}

size_t fwrite(const void *from, size_t size, size_t count, FILE *file)
{
    struct thread *t = me;
    if (t == NULL)
        return real.fwrite(from, size, count, stream(file));
    char *room = room_of(t, size * count);
    gather(room, from, size * count, CALLER);
    return real.fwrite(room, size, count, stream(file));
}

FILE *fopen(const char *path, const char *how)
{
    FILE *found = real.fopen(path, (stream(NULL), how));
    int error = errno;
    if (me != NULL)
        compare_file(me, path, found != NULL ? fileno(found) : -1, how[0] == 'r' && how[1] != '+');
    errno = error;
    return found;
}

FILE *fopen64(const char *path, const char *how)
{
    return fopen(path, how);
}

/* The process goes on in two, and both would write to the same recording. */
pid_t fork(void)
{
    if (me == NULL)
        return mode == STARTING ? (real_begin(), real.fork()) : real.fork();
    say("octet: fork is not followed: the program is told that there is no process to be had\n");
    errno = EAGAIN;
    return -1;
}
