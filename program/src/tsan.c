/* The calls that a compiler puts before each access with -fsanitize=thread. An atomic operation is made here, under the right. */
#include "runtime.h"

#define PLAIN(size)                                                                                                      \
    void __tsan_read##size(void *at) { access_memory((uintptr_t)at, size, OCTET_READ, CALLER); }                          \
    void __tsan_write##size(void *at) { access_memory((uintptr_t)at, size, OCTET_WRITE, CALLER); }                        \
    void __tsan_read##size##_pc(void *at, void *pc) { access_memory((uintptr_t)at, size, OCTET_READ, pc); }               \
    void __tsan_write##size##_pc(void *at, void *pc) { access_memory((uintptr_t)at, size, OCTET_WRITE, pc); }             \
    void __tsan_unaligned_read##size(void *at) { access_memory((uintptr_t)at, size, OCTET_READ, CALLER); }                \
    void __tsan_unaligned_write##size(void *at) { access_memory((uintptr_t)at, size, OCTET_WRITE, CALLER); }              \
    void __tsan_volatile_read##size(void *at) { access_memory((uintptr_t)at, size, OCTET_READ, CALLER); }                 \
    void __tsan_volatile_write##size(void *at) { access_memory((uintptr_t)at, size, OCTET_WRITE, CALLER); }               \
    void __tsan_unaligned_volatile_read##size(void *at) { access_memory((uintptr_t)at, size, OCTET_READ, CALLER); }       \
    void __tsan_unaligned_volatile_write##size(void *at) { access_memory((uintptr_t)at, size, OCTET_WRITE, CALLER); }     \
    void __tsan_read_write##size(void *at) { access_memory((uintptr_t)at, size, OCTET_WRITE, CALLER); }                   \
    void __tsan_unaligned_read_write##size(void *at) { access_memory((uintptr_t)at, size, OCTET_WRITE, CALLER); }
PLAIN(1)
PLAIN(2)
PLAIN(4)
PLAIN(8)
PLAIN(16)

void __tsan_read_range(void *at, unsigned long length) { access_range(at, length, OCTET_READ, CALLER); }
void __tsan_write_range(void *at, unsigned long length) { access_range(at, length, OCTET_WRITE, CALLER); }
void __tsan_vptr_read(void **at) { access_memory((uintptr_t)at, 8, OCTET_READ, CALLER); }
void __tsan_vptr_update(void **at, void *value)
{
    (void)value;
    access_memory((uintptr_t)at, 8, OCTET_WRITE, CALLER);
}
void __tsan_init(void) {}
void __tsan_func_entry(void *pc) { (void)pc; }
void __tsan_func_exit(void) {}
void __tsan_ignore_thread_begin(void) {}
void __tsan_ignore_thread_end(void) {}
void __tsan_atomic_thread_fence(int order)
{
    (void)order;
    __atomic_thread_fence(__ATOMIC_SEQ_CST);
}
void __tsan_atomic_signal_fence(int order) { (void)order; }

#define ORDER __ATOMIC_SEQ_CST
#define OWN(size, how) access_memory((uintptr_t)at, (size) / 8, how, CALLER)
#define FETCH(size, type, name)                                                                                          \
    type __tsan_atomic##size##_fetch_##name(volatile type *at, type value, int order)                                     \
    {                                                                                                                     \
        (void)order;                                                                                                      \
        OWN(size, OCTET_WRITE);                                                                                           \
        return __atomic_fetch_##name(at, value, ORDER);                                                                   \
    }
#define EXCHANGE_IF(size, type, name)                                                                                    \
    int __tsan_atomic##size##_compare_exchange_##name(volatile type *at, type *wanted, type value, int order, int other)  \
    {                                                                                                                     \
        (void)order, (void)other;                                                                                         \
        type found = *wanted;                                                                                             \
        OWN(size, OCTET_WRITE);                                                                                           \
        if (__atomic_compare_exchange_n(at, &found, value, 0, ORDER, ORDER))                                              \
            return 1;                                                                                                     \
        access_memory((uintptr_t)wanted, (size) / 8, OCTET_WRITE, CALLER);                                                \
        *wanted = found;                                                                                                  \
        return 0;                                                                                                         \
    }
#define ATOMIC(size, type)                                                                                               \
    type __tsan_atomic##size##_load(const volatile type *at, int order)                                                   \
    {                                                                                                                     \
        (void)order;                                                                                                      \
        OWN(size, OCTET_READ);                                                                                            \
        return __atomic_load_n(at, ORDER);                                                                                \
    }                                                                                                                     \
    void __tsan_atomic##size##_store(volatile type *at, type value, int order)                                            \
    {                                                                                                                     \
        (void)order;                                                                                                      \
        OWN(size, OCTET_WRITE);                                                                                           \
        __atomic_store_n(at, value, ORDER);                                                                               \
    }                                                                                                                     \
    type __tsan_atomic##size##_exchange(volatile type *at, type value, int order)                                         \
    {                                                                                                                     \
        (void)order;                                                                                                      \
        OWN(size, OCTET_WRITE);                                                                                           \
        return __atomic_exchange_n(at, value, ORDER);                                                                     \
    }                                                                                                                     \
    FETCH(size, type, add)                                                                                                \
    FETCH(size, type, sub)                                                                                                \
    FETCH(size, type, and)                                                                                                \
    FETCH(size, type, or)                                                                                                 \
    FETCH(size, type, xor)                                                                                                \
    FETCH(size, type, nand)                                                                                               \
    EXCHANGE_IF(size, type, strong)                                                                                       \
    EXCHANGE_IF(size, type, weak)                                                                                         \
    type __tsan_atomic##size##_compare_exchange_val(volatile type *at, type wanted, type value, int order, int other)     \
    {                                                                                                                     \
        (void)order, (void)other;                                                                                         \
        OWN(size, OCTET_WRITE);                                                                                           \
        __atomic_compare_exchange_n(at, &wanted, value, 0, ORDER, ORDER);                                                 \
        return wanted;                                                                                                    \
    }
ATOMIC(8, uint8_t)
ATOMIC(16, uint16_t)
ATOMIC(32, uint32_t)
ATOMIC(64, uint64_t)
