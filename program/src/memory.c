/* The calls of string.h that touch much memory at once: piece by piece, each under its right. */
#include "runtime.h"

void *memcpy(void *restrict to, const void *restrict from, size_t length)
{
    copy_tracked(to, from, length, CALLER);
    return to;
}

/* How many of the last of these bytes are of one object. */
static size_t tail_of_object(const char *from, size_t length)
{
    for (size_t left; (left = left_in_object((uintptr_t)from)) < length; from += left)
        length -= left;
    return length;
}

/* The last piece first, since the bytes go to higher addresses, over those that are still to be read. */
static void move_up(char *to, const char *from, size_t length, void *pc)
{
    char room[SMALL_SIZE];
    while (length > 0) {
        size_t piece = length < sizeof room ? length : sizeof room;
        piece = tail_of_object(from + length - piece, piece);
        piece = tail_of_object(to + length - piece, piece);
        length -= piece;
        access_memory((uintptr_t)(from + length), piece, OCTET_READ, pc);
        raw_copy(room, from + length, piece);
        access_memory((uintptr_t)(to + length), piece, OCTET_WRITE, pc);
        raw_copy(to + length, room, piece);
    }
}

void *memmove(void *to, const void *from, size_t length)
{
    if ((uintptr_t)to - (uintptr_t)from >= length)
        copy_tracked(to, from, length, CALLER);
    else
        move_up(to, from, length, CALLER);
    return to;
}

void *memset(void *to, int value, size_t length)
{
    set_tracked(to, value, length, CALLER);
    return to;
}

/* With -D_FORTIFY_SOURCE the compiler gives the room too. */
extern _Noreturn void __chk_fail(void);
#define CHECKED(length, room)                                                                                            \
    if ((length) > (room))                                                                                                \
        __chk_fail();

void *__memcpy_chk(void *to, const void *from, size_t length, size_t room)
{
    CHECKED(length, room)
    copy_tracked(to, from, length, CALLER);
    return to;
}

void *__memmove_chk(void *to, const void *from, size_t length, size_t room)
{
    CHECKED(length, room)
    return memmove(to, from, length);
}

void *__memset_chk(void *to, int value, size_t length, size_t room)
{
    CHECKED(length, room)
    return memset(to, value, length);
}

void *mempcpy(void *to, const void *from, size_t length)
{
    copy_tracked(to, from, length, CALLER);
    return (char *)to + length;
}

void bzero(void *to, size_t length)
{
    memset(to, 0, length);
}

void bcopy(const void *from, void *to, size_t length)
{
    memmove(to, from, length);
}

/* How far the bytes from here on are of one object. */
static size_t both_left(const void *a, const void *b, size_t length)
{
    size_t left = left_in_object((uintptr_t)a), other = left_in_object((uintptr_t)b);
    left = left < other ? left : other;
    return left < length ? left : length;
}

int memcmp(const void *a, const void *b, size_t length)
{
    const unsigned char *x = a, *y = b;
    unsigned char room[SMALL_SIZE];
    while (length > 0) {
        size_t piece = both_left(x, y, length);
        if (piece > sizeof room)
            piece = sizeof room;
        access_memory((uintptr_t)x, piece, OCTET_READ, CALLER);
        raw_copy(room, x, piece);
        access_memory((uintptr_t)y, piece, OCTET_READ, CALLER);
        for (size_t i = 0; i < piece; i++)
            if (room[i] != ((const volatile unsigned char *)y)[i])
                return room[i] - ((const volatile unsigned char *)y)[i];
        x += piece;
        y += piece;
        length -= piece;
    }
    return 0;
}

size_t strnlen(const char *text, size_t most)
{
    size_t length = 0;
    while (length < most) {
        size_t piece = left_in_object((uintptr_t)(text + length));
        access_memory((uintptr_t)(text + length), 1, OCTET_READ, CALLER);
        for (; piece > 0 && length < most; piece--, length++)
            if (((const volatile char *)text)[length] == 0)
                return length;
    }
    return most;
}

size_t strlen(const char *text)
{
    return strnlen(text, SIZE_MAX);
}
