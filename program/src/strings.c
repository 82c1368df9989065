/* The other calls of string.h, and those of stdlib.h that go through the program's memory. This file is compiled as the program
 * is: so each of its accesses is followed, at the place of the call's own line. */
#include <errno.h>
#include <stddef.h>
#include <stdlib.h>

size_t strlen(const char *);
size_t strnlen(const char *, size_t);
void *memcpy(void *, const void *, size_t);
int memcmp(const void *, const void *, size_t);
int tolower(int);

int strcmp(const char *a, const char *b)
{
    while (*a != 0 && *a == *b)
        a++, b++;
    return (unsigned char)*a - (unsigned char)*b;
}

int strncmp(const char *a, const char *b, size_t most)
{
    for (; most > 0; a++, b++, most--)
        if (*a != *b || *a == 0)
            return (unsigned char)*a - (unsigned char)*b;
    return 0;
}

int strcasecmp(const char *a, const char *b)
{
    while (*a != 0 && tolower((unsigned char)*a) == tolower((unsigned char)*b))
        a++, b++;
    return tolower((unsigned char)*a) - tolower((unsigned char)*b);
}

int strncasecmp(const char *a, const char *b, size_t most)
{
    for (; most > 0; a++, b++, most--) {
        int x = tolower((unsigned char)*a), y = tolower((unsigned char)*b);
        if (x != y || x == 0)
            return x - y;
    }
    return 0;
}

char *stpcpy(char *to, const char *from)
{
    while ((*to = *from) != 0)
        to++, from++;
    return to;
}

char *strcpy(char *to, const char *from)
{
    stpcpy(to, from);
    return to;
}

char *strncpy(char *to, const char *from, size_t length)
{
    size_t i = 0;
    for (; i < length && from[i] != 0; i++)
        to[i] = from[i];
    for (; i < length; i++)
        to[i] = 0;
    return to;
}

char *strcat(char *to, const char *from)
{
    stpcpy(to + strlen(to), from);
    return to;
}

char *strncat(char *to, const char *from, size_t most)
{
    char *end = to + strlen(to);
    for (; most > 0 && *from != 0; most--)
        *end++ = *from++;
    *end = 0;
    return to;
}

char *__strcpy_chk(char *to, const char *from, size_t room)
{
    if (strlen(from) >= room)
        abort();
    return strcpy(to, from);
}

char *__strcat_chk(char *to, const char *from, size_t room)
{
    if (strlen(to) + strlen(from) >= room)
        abort();
    return strcat(to, from);
}

char *__strncpy_chk(char *to, const char *from, size_t length, size_t room)
{
    if (length > room)
        abort();
    return strncpy(to, from, length);
}

char *strchrnul(const char *text, int wanted)
{
    while (*text != 0 && *text != (char)wanted)
        text++;
    return (char *)text;
}

char *strchr(const char *text, int wanted)
{
    const char *at = strchrnul(text, wanted);
    return *at == (char)wanted ? (char *)at : NULL;
}

char *index(const char *text, int wanted)
{
    return strchr(text, wanted);
}

char *strrchr(const char *text, int wanted)
{
    const char *last = NULL;
    do
        last = *text == (char)wanted ? text : last;
    while (*text++ != 0);
    return (char *)last;
}

char *rindex(const char *text, int wanted)
{
    return strrchr(text, wanted);
}

void *memchr(const void *bytes, int wanted, size_t length)
{
    const unsigned char *at = bytes;
    for (; length > 0; at++, length--)
        if (*at == (unsigned char)wanted)
            return (void *)at;
    return NULL;
}

void *memrchr(const void *bytes, int wanted, size_t length)
{
    const unsigned char *at = bytes;
    while (length-- > 0)
        if (at[length] == (unsigned char)wanted)
            return (void *)(at + length);
    return NULL;
}

void *rawmemchr(const void *bytes, int wanted)
{
    const unsigned char *at = bytes;
    while (*at != (unsigned char)wanted)
        at++;
    return (void *)at;
}

void *memmem(const void *in, size_t length, const void *wanted, size_t size)
{
    const char *at = in;
    for (; size <= length; at++, length--)
        if (memcmp(at, wanted, size) == 0)
            return (void *)at;
    return NULL;
}

char *strstr(const char *text, const char *wanted)
{
    return memmem(text, strlen(text), wanted, strlen(wanted));
}

size_t strspn(const char *text, const char *of)
{
    size_t length = 0;
    while (text[length] != 0 && strchr(of, text[length]) != NULL)
        length++;
    return length;
}

size_t strcspn(const char *text, const char *of)
{
    size_t length = 0;
    while (text[length] != 0 && strchr(of, text[length]) == NULL)
        length++;
    return length;
}

char *strpbrk(const char *text, const char *of)
{
    text += strcspn(text, of);
    return *text != 0 ? (char *)text : NULL;
}

char *strtok_r(char *text, const char *of, char **rest)
{
    text = text != NULL ? text : *rest;
    text += strspn(text, of);
    if (*text == 0) {
        *rest = text;
        return NULL;
    }
    char *end = text + strcspn(text, of);
    *rest = *end != 0 ? end + 1 : end;
    *end = 0;
    return text;
}

char *__strtok_r(char *text, const char *of, char **rest)
{
    return strtok_r(text, of, rest);
}

char *strtok(char *text, const char *of)
{
    static char *rest;
    return strtok_r(text, of, &rest);
}

char *strsep(char **from, const char *of)
{
    char *text = *from;
    if (text == NULL)
        return NULL;
    char *end = text + strcspn(text, of);
    *from = *end != 0 ? end + 1 : NULL;
    *end = 0;
    return text;
}

char *strndup(const char *text, size_t most)
{
    size_t length = strnlen(text, most);
    char *copy = malloc(length + 1);
    if (copy != NULL) {
        memcpy(copy, text, length);
        copy[length] = 0;
    }
    return copy;
}

char *strdup(const char *text)
{
    return strndup(text, (size_t)-1);
}

char *__strdup(const char *text)
{
    return strdup(text);
}

void *bsearch(const void *key, const void *from, size_t count, size_t size, int (*compare)(const void *, const void *))
{
    for (size_t low = 0, high = count; low < high;) {
        size_t middle = low + (high - low) / 2;
        const void *at = (const char *)from + middle * size;
        int found = compare(key, at);
        if (found == 0)
            return (void *)at;
        if (found < 0)
            high = middle;
        else
            low = middle + 1;
    }
    return NULL;
}

static void exchange(char *a, char *b, size_t size)
{
    for (; size > 0; a++, b++, size--) {
        char kept = *a;
        *a = *b;
        *b = kept;
    }
}

/* A heap sort, whose time has a bound for every input. */
static void sink(char *from, size_t at, size_t count, size_t size, int (*compare)(const void *, const void *))
{
    for (;;) {
        size_t child = 2 * at + 1;
        if (child >= count)
            return;
        if (child + 1 < count && compare(from + child * size, from + (child + 1) * size) < 0)
            child++;
        if (compare(from + at * size, from + child * size) >= 0)
            return;
        exchange(from + at * size, from + child * size, size);
        at = child;
    }
}

void qsort(void *from, size_t count, size_t size, int (*compare)(const void *, const void *))
{
    for (size_t at = count / 2; at-- > 0;)
        sink(from, at, count, size, compare);
    for (size_t end = count; end > 1; end--) {
        exchange(from, (char *)from + (end - 1) * size, size);
        sink(from, 0, end - 1, size, compare);
    }
}
