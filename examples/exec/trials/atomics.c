// Atomic accesses of each size, by the operators of C and by gcc's functions.
#include <stdatomic.h>
#include <stdint.h>
#include <stdio.h>
#include <string.h>

// What each access answers, and what is left.
#define TRY(type)                                                                               \
    do {                                                                                        \
        _Atomic type at = 200;                                                                  \
        type expected = 1;                                                                      \
        printf(#type " %d", (int)atomic_fetch_add(&at, 7));                                     \
        printf(" %d", (int)atomic_fetch_sub(&at, 3));                                           \
        printf(" %d", (int)atomic_fetch_and(&at, (type)~3));                                    \
        printf(" %d", (int)atomic_fetch_or(&at, 18));                                           \
        printf(" %d", (int)atomic_fetch_xor(&at, 8));                                           \
        printf(" %d", atomic_compare_exchange_strong(&at, &expected, 5));                       \
        printf(" %d", (int)expected);                                                           \
        printf(" %d", atomic_compare_exchange_strong(&at, &expected, 5));                       \
        printf(" %d", (int)atomic_exchange(&at, 6));                                            \
        printf(" %d", (int)atomic_load(&at));                                                   \
        atomic_store(&at, 9);                                                                   \
        type *plain = (type *)&at;                                                              \
        printf(" %d", (int)__sync_fetch_and_add(plain, 2));                                     \
        printf(" %d", (int)__sync_val_compare_and_swap(plain, 11, 12));                         \
        printf(" %d", __sync_bool_compare_and_swap(plain, 11, 13));                             \
        printf(" %d", (int)__sync_lock_test_and_set(plain, 14));                                \
        printf(" %d", (int)__atomic_fetch_nand(plain, 6, __ATOMIC_SEQ_CST));                    \
        printf(" %d\n", (int)(uint8_t)*plain);                                                  \
    } while (0)

struct wide {
    char text[32];
};

int main(void)
{
    TRY(uint8_t);
    TRY(uint16_t);
    TRY(uint32_t);
    TRY(uint64_t);
    uint64_t large = 0xffffffff;
    __atomic_fetch_add(&large, 1, __ATOMIC_SEQ_CST);
    printf("%llx\n", large);
    atomic_flag flag = ATOMIC_FLAG_INIT;
    printf("%d", atomic_flag_test_and_set(&flag));
    printf(" %d\n", atomic_flag_test_and_set(&flag));
    static _Atomic struct wide wide;
    atomic_store(&wide, (struct wide){"first"});
    struct wide was = atomic_exchange(&wide, (struct wide){"second"});
    struct wide is = atomic_load(&wide);
    printf("%s %s", was.text, is.text);
    printf(" %d", atomic_compare_exchange_strong(&wide, &was, (struct wide){"third"}));
    printf(" %s", was.text);
    printf(" %d\n", atomic_compare_exchange_strong(&wide, &was, (struct wide){"third"}));
    return 0;
}
