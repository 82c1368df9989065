/* Calls on files, of a file that threads write to beside each other. */
#include <fcntl.h>
#include <pthread.h>
#include <stdio.h>
#include <string.h>
#include <sys/stat.h>
#include <sys/uio.h>
#include <unistd.h>

static int file;

static void *work(void *given)
{
    char letter = (char)('a' + (long)given), line[4] = {letter, letter, ' ', 0};
    struct iovec parts[2] = {{line, 1}, {line + 1, 2}};
    for (int i = 0; i < 5; i++)
        if (i % 2 ? writev(file, parts, 2) != 3 : write(file, line, 3) != 3)
            return NULL;
    return pwrite(file, line, 1, 100 + (long)given) == 1 ? given : NULL;
}

static int read_back(void)
{
    char all[60] = {0}, first[10] = {0}, tail[4] = {0};
    struct iovec parts[2] = {{first, 5}, {all, 40}};
    int again = dup(file);
    if (lseek(again, 0, SEEK_SET) != 0 || readv(again, parts, 2) != 45 || pread(file, tail, 3, 100) != 3)
        return 1;
    printf("%s%s %s\n", first, all, tail);
    return close(again);
}

int main(void)
{
    pthread_t threads[3];
    mkdir("made", 0700);
    file = open("made/one", O_RDWR | O_CREAT | O_TRUNC, 0600);
    for (long i = 0; i < 3; i++)
        pthread_create(&threads[i], NULL, work, (void *)i);
    for (int i = 0; i < 3; i++)
        pthread_join(threads[i], NULL);
    int wrong = file < 0 || read_back();
    close(file);
    return wrong + (rename("made/one", "made/two") | unlink("made/two") | rmdir("made"));
}
