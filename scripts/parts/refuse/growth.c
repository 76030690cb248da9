/* Stands before the C library's allocator, and refuses growths of memory. */
#define _GNU_SOURCE
#include <dlfcn.h>
#include <errno.h>
#include <fcntl.h>
#include <malloc.h>
#include <stdio.h>
#include <stdlib.h>
#include <sys/syscall.h>
#include <unistd.h>

// How many growths were asked for, how many bytes in all of them, how many bytes are set aside, and how many were at most.
static long growths, bytes, alive, most;

// Writes a line at the end of the file that a variable names.
static void tell(const char *variable, const char *line, int length) {
    const char *path = getenv(variable);
    if (!path) return;
    int file = open(path, O_CREAT | O_WRONLY | O_APPEND, 0600);
    if (write(file, line, length) == length) close(file);
}

// REFUSE_AT is the first growth that is refused. REFUSE_MORE is how far behind it a second one is, or -1 for all behind it.
// Each of the first two leaves a line in the file REFUSE_TOLD, with its bytes.
static int refused(size_t size) {
    __atomic_add_fetch(&bytes, (long)size, __ATOMIC_RELAXED);
    long asked = __atomic_add_fetch(&growths, 1, __ATOMIC_RELAXED);
    const char *at = getenv("REFUSE_AT");
    if (!at) return 0;
    long behind = asked - atol(at);
    const char *more = getenv("REFUSE_MORE");
    long second = more ? atol(more) : 0;
    if (behind < 0 || (behind > 0 && second >= 0 && behind != second)) return 0;
    char line[32];
    if (behind < 2 || behind == second) tell("REFUSE_TOLD", line, snprintf(line, sizeof line, "%zu\n", size));
    return 1;
}

// So many bytes more are set aside, or fewer.
static void grown(long by) {
    long all = __atomic_add_fetch(&alive, by, __ATOMIC_RELAXED), before = __atomic_load_n(&most, __ATOMIC_RELAXED);
    while (all > before && !__atomic_compare_exchange_n(&most, &before, all, 0, __ATOMIC_RELAXED, __ATOMIC_RELAXED)) {}
}

// At its end, of which there are two kinds, a program tells in the file REFUSE_COUNTED for how many growths it asked, for how many bytes, and how many were set aside at most.
__attribute__((destructor)) static void count(void) {
    char line[96];
    tell("REFUSE_COUNTED", line, snprintf(line, sizeof line, "%ld %ld %ld\n", growths, bytes, most));
}

void _exit(int status) {
    count();
    syscall(SYS_exit_group, status);
    __builtin_unreachable();
}

void *malloc(size_t size) {
    static void *(*real)(size_t);
    if (!real) real = (void *(*)(size_t))dlsym(RTLD_NEXT, "malloc");
    if (refused(size)) { errno = ENOMEM; return 0; }
    void *made = real(size);
    grown((long)malloc_usable_size(made));
    return made;
}

void *realloc(void *old, size_t size) {
    static void *(*real)(void *, size_t);
    if (!real) real = (void *(*)(void *, size_t))dlsym(RTLD_NEXT, "realloc");
    if (refused(size)) { errno = ENOMEM; return 0; }
    long before = (long)malloc_usable_size(old);
    void *made = real(old, size);
    if (made || !size) grown((long)malloc_usable_size(made) - before);
    return made;
}

void *aligned_alloc(size_t align, size_t size) {
    static void *(*real)(size_t, size_t);
    if (!real) real = (void *(*)(size_t, size_t))dlsym(RTLD_NEXT, "aligned_alloc");
    if (refused(size)) { errno = ENOMEM; return 0; }
    void *made = real(align, size);
    grown((long)malloc_usable_size(made));
    return made;
}

int posix_memalign(void **out, size_t align, size_t size) {
    static int (*real)(void **, size_t, size_t);
    if (!real) real = (int (*)(void **, size_t, size_t))dlsym(RTLD_NEXT, "posix_memalign");
    if (refused(size)) return ENOMEM;
    int status = real(out, align, size);
    if (!status) grown((long)malloc_usable_size(*out));
    return status;
}

void free(void *old) {
    static void (*real)(void *);
    if (!real) real = (void (*)(void *))dlsym(RTLD_NEXT, "free");
    grown(-(long)malloc_usable_size(old));
    real(old);
}
