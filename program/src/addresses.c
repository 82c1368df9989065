/* Where the program's memory is, and of which object each address is.
 *
 * Both runs have the same addresses: the wrappers switch the randomization of the address space off, a thread takes blocks from
 * an arena of its own, and stacks and mappings lie at fixed places. Kinds of memory have ranges of objects of their own: so a
 * lock that is taken often does not slow down a table that lies elsewhere. */
#include "runtime.h"
#include <link.h>
#include <sys/auxv.h>
#include <sys/mman.h>

uintptr_t main_stack_low, main_stack_size;
__thread int arena_number __attribute__((tls_model("initial-exec"))) = ARENA_OF_NOBODY;
extern char __executable_start[], _end[];

#define ARENA_HALF (1ul << (ARENA_BITS - 1))
#define ARENA_MASK ((1ul << ARENA_BITS) - 1)
#define LARGE_SIZE 16384ul
#define PAGE_SIZE 4096ul
#define GLOBAL_SIZE 16ul

static inline bool in_arenas(uintptr_t at)
{
    return at - ARENA_FIRST < ARENA_END - ARENA_FIRST;
}

static inline bool is_global(uintptr_t at)
{
    return at - (uintptr_t)__executable_start < (uintptr_t)(_end - __executable_start);
}

uint32_t object_of(uintptr_t at)
{
    if (in_arenas(at)) {
        uint32_t number = (uint32_t)((at - ARENA_FIRST) >> ARENA_BITS) & (THREADS - 1);
        uintptr_t offset = at & ARENA_MASK;
        if (offset < ARENA_HALF)
            return FIRST_SMALL + number * SMALLS + (uint32_t)(offset / SMALL_SIZE % SMALLS);
        return FIRST_LARGE + number * LARGES + (uint32_t)(offset / LARGE_SIZE % LARGES);
    }
    if (is_global(at))
        return FIRST_GLOBAL + (uint32_t)(at / GLOBAL_SIZE % GLOBALS);
    if (at - STACK_FIRST < (uintptr_t)THREADS << STACK_BITS)
        return FIRST_STACK + (uint32_t)((at - STACK_FIRST) >> STACK_BITS) * STACKS + (uint32_t)(at / PAGE_SIZE % STACKS);
    if (at - main_stack_low < main_stack_size)
        return FIRST_STACK + (uint32_t)(at / PAGE_SIZE % STACKS);
    return FIRST_OTHER + (uint32_t)(at / PAGE_SIZE % OTHERS);
}

/* How many bytes from here on are of the same object, at least. */
size_t left_in_object(uintptr_t at)
{
    if (in_arenas(at)) {
        uintptr_t size = (at & ARENA_MASK) < ARENA_HALF ? SMALL_SIZE : LARGE_SIZE;
        return size - (at & (size - 1));
    }
    if (is_global(at))
        return GLOBAL_SIZE - (at & (GLOBAL_SIZE - 1));
    return PAGE_SIZE - (at & (PAGE_SIZE - 1));
}

uint32_t lock_object(const void *lock)
{
    return FIRST_LOCK + (uint32_t)(((uintptr_t)lock >> 3) * 0x9E3779B97F4A7C15ul >> 40) % LOCKS;
}

/* A block begins behind this. `offset` is how far it lies from the block that was taken, where it had to be aligned. */
struct head {
    uint32_t kind, offset;
    uint64_t size;
};
_Static_assert(sizeof(struct head) == 16, "blocks are aligned to 16 bytes");

enum { KINDS = 256, LEAST_BLOCK = 32, LARGE_BLOCK = 32768, GIVEN_BACK = 1 << 20 };

static struct arena {
    uintptr_t small, large;
    void *unused[KINDS];
} __attribute__((aligned(128))) arenas[ARENAS];

/* Where the code of the loader lies, and that of the C library. What they take for themselves they take under locks of their own,
 * which the runtime does not see: so a thread may not wait for an access there, since who has the turn may wait for that lock.
 * And which thread takes the loader's memory may differ: the first that ends by pthread_exit loads a library. So the loader has
 * an arena of its own. */
static struct code {
    uintptr_t begins, size;
} loader, c_library;

static inline bool is_code_of(const struct code *code, const void *from)
{
    return (uintptr_t)from - code->begins < code->size;
}

static int find_code(struct dl_phdr_info *about, size_t size, void *nothing)
{
    uintptr_t end = 0, base = about->dlpi_addr, call = (uintptr_t)real.malloc_usable_size;
    (void)size, (void)nothing;
    for (int i = 0; i < about->dlpi_phnum; i++)
        if (about->dlpi_phdr[i].p_type == PT_LOAD)
            end = base + about->dlpi_phdr[i].p_vaddr + about->dlpi_phdr[i].p_memsz;
    if (base != 0 && base == getauxval(AT_BASE))
        loader = (struct code){base, end - base};
    else if (base != 0 && call - base < end - base)
        c_library = (struct code){base, end - base};
    return 0;
}

void arenas_begin(void)
{
    dl_iterate_phdr(find_code, NULL);
    for (int i = 0; i < ARENAS; i++) {
        uintptr_t at = ARENA_FIRST + ((uintptr_t)i << ARENA_BITS);
        long found = syscall(SYS_mmap, at, 1ul << ARENA_BITS, PROT_READ | PROT_WRITE,
                             MAP_PRIVATE | MAP_ANONYMOUS | MAP_NORESERVE | MAP_FIXED_NOREPLACE, -1, 0L);
        if (found != (long)at) {
            say("octet: the memory at %lx cannot be had; is there a limit on virtual memory (ulimit -v)?\n", at);
            leave_process(EXIT_UNSET);
        }
        arenas[i].small = at;
        arenas[i].large = at + ARENA_HALF;
    }
}

/* The kind of the blocks that have this room: four to each power of two. */
static uint32_t kind_of(size_t size, size_t *room)
{
    if (size <= LEAST_BLOCK) {
        *room = LEAST_BLOCK;
        return 0;
    }
    int high = 63 - __builtin_clzl(size - 1);
    size_t step = 1ul << (high - 2);
    *room = (size + step - 1) & ~(step - 1);
    return ((uint32_t)high * 4 + (uint32_t)((*room >> (high - 2)) & 3)) % KINDS;
}

static void *take_new(struct arena *arena, size_t room)
{
    bool is_large = room >= LARGE_BLOCK;
    uintptr_t *next = is_large ? &arena->large : &arena->small;
    uintptr_t end = ((*next - ARENA_FIRST) >> (ARENA_BITS - 1)) + 1;
    if (is_large)
        room = (room + LARGE_SIZE - 1) & ~(LARGE_SIZE - 1);
    if (*next + room > ARENA_FIRST + (end << (ARENA_BITS - 1)) - LARGE_SIZE)
        return NULL;
    void *block = (void *)(*next + sizeof(struct head));
    *next += room;
    return block;
}

/* Where more than one thread takes blocks from one arena. */
static volatile int taken;

static void lock_arena(int number)
{
    for (unsigned tries = 0; number >= THREADS && __atomic_exchange_n(&taken, 1, __ATOMIC_ACQUIRE); tries++)
        pause_short(tries);
}

static void unlock_arena(int number)
{
    if (number >= THREADS)
        __atomic_store_n(&taken, 0, __ATOMIC_RELEASE);
}

static void *take_block(struct arena *arena, size_t size)
{
    size_t room;
    uint32_t kind = kind_of(size + sizeof(struct head), &room);
    void *block = arena->unused[kind];
    if (block != NULL)
        arena->unused[kind] = *(void **)block;
    else
        block = take_new(arena, room);
    if (block != NULL)
        *((struct head *)block - 1) = (struct head){kind, 0, size};
    return block;
}

void *arena_take(int number, size_t size)
{
    void *block = NULL;
    if (size <= ARENA_HALF / 2) {
        lock_arena(number);
        block = take_block(&arenas[number], size);
        unlock_arena(number);
    }
    if (block == NULL)
        errno = ENOMEM;
    return block;
}

void arena_give(int number, void *block)
{
    struct head *head = (struct head *)block - 1;
    if (head->offset != 0) {
        block = (char *)block - head->offset;
        head = (struct head *)block - 1;
    }
    if (head->size >= GIVEN_BACK) {
        /* The pages behind the first. Both runs find them empty. */
        uintptr_t from = ((uintptr_t)block + PAGE_SIZE) & ~(PAGE_SIZE - 1);
        uintptr_t to = ((uintptr_t)block + head->size) & ~(PAGE_SIZE - 1);
        syscall(SYS_madvise, from, to - from, MADV_DONTNEED);
    }
    lock_arena(number);
    *(void **)block = arenas[number].unused[head->kind];
    arenas[number].unused[head->kind] = block;
    unlock_arena(number);
}

/* The program's calls. Outside a recorded run they are the C library's. */
extern void *__libc_malloc(size_t);
extern void __libc_free(void *);
extern void *__libc_calloc(size_t, size_t);
extern void *__libc_realloc(void *, size_t);
extern void *__libc_memalign(size_t, size_t);

static inline bool has_arenas(void)
{
    return mode >= RECORD;
}

static bool is_followed(const void *from)
{
    return me != NULL && !is_code_of(&c_library, from) && !is_code_of(&loader, from);
}

static int arena_of_block(const void *block)
{
    return (int)(((uintptr_t)block - ARENA_FIRST) >> ARENA_BITS);
}

/* A block that another thread still uses is written here: so this is an access. */
static void touch(void *block, void *from)
{
    if (is_followed(from))
        access_memory((uintptr_t)block, 8, OCTET_WRITE, from);
}

static size_t size_of(const void *block)
{
    return ((const struct head *)block - 1)->size;
}

static void *take_for(void *from, size_t size)
{
    return arena_take(is_code_of(&loader, from) ? ARENA_OF_LOADER : arena_number, size);
}

static void *malloc_for(void *from, size_t size)
{
    void *block = take_for(from, size);
    if (block != NULL)
        touch(block, from);
    return block;
}

static void free_for(void *from, void *block)
{
    int before = errno;
    if (!in_arenas((uintptr_t)block)) {
        __libc_free(block);
    } else if (arena_of_block(block) == ARENA_OF_LOADER) {
        arena_give(ARENA_OF_LOADER, block);
    } else {
        touch(block, from);
        arena_give(arena_number, block);
    }
    errno = before;
}

void *malloc(size_t size)
{
    return has_arenas() ? malloc_for(CALLER, size) : __libc_malloc(size);
}

void free(void *block)
{
    if (block != NULL)
        free_for(CALLER, block);
}

void *calloc(size_t count, size_t size)
{
    size_t all;
    if (!has_arenas())
        return __libc_calloc(count, size);
    if (__builtin_mul_overflow(count, size, &all)) {
        errno = ENOMEM;
        return NULL;
    }
    void *block = take_for(CALLER, all);
    if (block != NULL && is_followed(CALLER))
        set_tracked(block, 0, all, CALLER);
    else if (block != NULL)
        raw_set(block, 0, all);
    return block;
}

size_t malloc_usable_size(void *block)
{
    return block == NULL ? 0 : in_arenas((uintptr_t)block) ? size_of(block) : real.malloc_usable_size(block);
}

static void *realloc_for(void *from, void *block, size_t size)
{
    void *other = malloc_for(from, size);
    if (other == NULL)
        return NULL;
    /* A block that was taken before the run began is the C library's. */
    size_t length = malloc_usable_size(block);
    length = length < size ? length : size;
    if (is_followed(from))
        copy_tracked(other, block, length, from);
    else
        raw_copy(other, block, length);
    free_for(from, block);
    return other;
}

void *realloc(void *block, size_t size)
{
    if (!has_arenas())
        return __libc_realloc(block, size);
    if (block == NULL)
        return malloc_for(CALLER, size);
    if (size != 0)
        return realloc_for(CALLER, block, size);
    free_for(CALLER, block);
    return NULL;
}

static void *memalign_for(void *from, size_t align, size_t size)
{
    if (!has_arenas())
        return __libc_memalign(align, size);
    if (align <= sizeof(struct head))
        return malloc_for(from, size);
    if (align > ARENA_HALF / 4 || size > ARENA_HALF / 4 || (align & (align - 1)) != 0) {
        errno = align & (align - 1) ? EINVAL : ENOMEM;
        return NULL;
    }
    char *block = malloc_for(from, size + align + sizeof(struct head));
    if (block == NULL)
        return NULL;
    uintptr_t at = ((uintptr_t)block + sizeof(struct head) + align - 1) & ~(align - 1);
    *((struct head *)at - 1) = (struct head){0, (uint32_t)(at - (uintptr_t)block), size};
    return (void *)at;
}

void *memalign(size_t align, size_t size)
{
    return memalign_for(CALLER, align, size);
}

void *aligned_alloc(size_t align, size_t size)
{
    return memalign_for(CALLER, align, size);
}

int posix_memalign(void **out, size_t align, size_t size)
{
    void *block = memalign_for(CALLER, align, size);
    if (block == NULL)
        return ENOMEM;
    *out = block;
    return 0;
}

void *valloc(size_t size)
{
    return memalign_for(CALLER, PAGE_SIZE, size);
}

void *reallocarray(void *block, size_t count, size_t size)
{
    size_t all;
    if (__builtin_mul_overflow(count, size, &all)) {
        errno = ENOMEM;
        return NULL;
    }
    return realloc(block, all);
}

/* What the library takes for itself: one thread at a time opens and closes a run. */
void *octet_own_malloc(size_t size)
{
    return arena_take(ARENA_OF_RUNTIME, size);
}

void octet_own_free(void *block)
{
    if (block != NULL)
        arena_give(ARENA_OF_RUNTIME, block);
}

void *octet_own_realloc(void *block, size_t size)
{
    void *other = octet_own_malloc(size);
    if (block == NULL || other == NULL)
        return other;
    raw_copy(other, block, size_of(block) < size ? size_of(block) : size);
    octet_own_free(block);
    return other;
}

void *octet_own_memcpy(void *to, const void *from, size_t length)
{
    raw_copy(to, from, length);
    return to;
}

void *octet_own_memmove(void *to, const void *from, size_t length)
{
    if ((uintptr_t)to - (uintptr_t)from >= length) {
        raw_copy(to, from, length);
    } else {
        for (size_t i = length; i-- > 0;)
            ((volatile char *)to)[i] = ((const volatile char *)from)[i];
    }
    return to;
}

void *octet_own_memset(void *to, int value, size_t length)
{
    raw_set(to, value, length);
    return to;
}

int octet_own_memcmp(const void *a, const void *b, size_t length)
{
    for (size_t i = 0; i < length; i++) {
        int x = ((const volatile unsigned char *)a)[i], y = ((const volatile unsigned char *)b)[i];
        if (x != y)
            return x - y;
    }
    return 0;
}
