/* Stands before the system's pthread_create, and refuses one thread. */
#define _GNU_SOURCE
#include <dlfcn.h>
#include <errno.h>
#include <fcntl.h>
#include <pthread.h>
#include <stdlib.h>
#include <unistd.h>

static long asked = 0;

int pthread_create(pthread_t *thread, const pthread_attr_t *how, void *(*body)(void *), void *given) {
    int (*real)(pthread_t *, const pthread_attr_t *, void *(*)(void *), void *) =
        (int (*)(pthread_t *, const pthread_attr_t *, void *(*)(void *), void *))dlsym(RTLD_NEXT, "pthread_create");
    const char *at = getenv("REFUSE_AT");
    if (!at || __atomic_add_fetch(&asked, 1, __ATOMIC_RELAXED) != atol(at)) return real(thread, how, body, given);
    close(open(getenv("REFUSE_TOLD"), O_CREAT | O_WRONLY, 0600));
    return EAGAIN;
}
