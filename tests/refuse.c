/* Refuses or counts allocations of a program that it is laid under by LD_PRELOAD. REFUSE is the number of the
   allocation that is refused, counted from 1 on; each later one is refused too where REFUSE_REST is set. At the first
   refusal a byte is written to the file descriptor REFUSE_TELL. At the end of the program two numbers are written to
   the file descriptor COUNT_TELL: how many allocations there were, and the most bytes that were held at once.
   tests/hostile compiles it; it needs the GNU C library. */
#include <errno.h>
#include <malloc.h>
#include <stddef.h>
#include <stdio.h>
#include <stdlib.h>
#include <sys/syscall.h>
#include <unistd.h>

extern void *__libc_malloc(size_t), *__libc_calloc(size_t, size_t), *__libc_realloc(void *, size_t);
extern void *__libc_memalign(size_t, size_t);
extern void __libc_free(void *);

static unsigned long calls, refused, held, most;
static int has_rest, tell;

__attribute__((constructor)) static void begin(void) {
    const char *number = getenv("REFUSE"), *to = getenv("REFUSE_TELL");
    tell = to ? atoi(to) : -1;
    has_rest = getenv("REFUSE_REST") != NULL;
    __atomic_store_n(&refused, number ? strtoul(number, NULL, 10) : 0, __ATOMIC_SEQ_CST);
}

__attribute__((destructor)) static void end(void) {
    const char *to = getenv("COUNT_TELL");
    if (to && dprintf(atoi(to), "%lu %lu\n", calls, most) < 0) abort();
}

/* The end of a program that calls no destructors. */
void _exit(int status) {
    end();
    syscall(SYS_exit_group, status);
    __builtin_unreachable();
}

static int refuses(void) {
    unsigned long call = __atomic_add_fetch(&calls, 1, __ATOMIC_SEQ_CST);
    unsigned long last = __atomic_load_n(&refused, __ATOMIC_SEQ_CST);
    if (last == 0) return 0;
    if (call == last && tell >= 0 && write(tell, "x", 1) < 0) abort();
    if (call != last && !(has_rest && call > last)) return 0;
    errno = ENOMEM;
    return 1;
}

/* Counts the bytes of a block that was given. */
static void *given(void *block) {
    unsigned long now = __atomic_add_fetch(&held, malloc_usable_size(block), __ATOMIC_SEQ_CST);
    unsigned long before = __atomic_load_n(&most, __ATOMIC_SEQ_CST);
    while (now > before &&
           !__atomic_compare_exchange_n(&most, &before, now, 0, __ATOMIC_SEQ_CST, __ATOMIC_SEQ_CST)) {
    }
    return block;
}

static void taken(size_t size) { __atomic_sub_fetch(&held, size, __ATOMIC_SEQ_CST); }

void *malloc(size_t size) { return refuses() ? NULL : given(__libc_malloc(size)); }

void *calloc(size_t count, size_t size) { return refuses() ? NULL : given(__libc_calloc(count, size)); }

void *realloc(void *old, size_t size) {
    if (refuses()) return NULL;
    size_t before = malloc_usable_size(old);
    void *block = __libc_realloc(old, size);
    if (block || size == 0) taken(before);
    return given(block);
}

void *aligned_alloc(size_t to, size_t size) { return refuses() ? NULL : given(__libc_memalign(to, size)); }

void *memalign(size_t to, size_t size) { return refuses() ? NULL : given(__libc_memalign(to, size)); }

int posix_memalign(void **into, size_t to, size_t size) {
    if (refuses()) return ENOMEM;
    *into = given(__libc_memalign(to, size));
    return *into ? 0 : ENOMEM;
}

void free(void *block) {
    taken(malloc_usable_size(block));
    __libc_free(block);
}
