/* Stops threads where the system may stop them, as scripts/refuse stop says. STOP_SCENE names the scene. */
#define _GNU_SOURCE
#include <dlfcn.h>
#include <fcntl.h>
#include <pthread.h>
#include <stdatomic.h>
#include <stdio.h>
#include <stdlib.h>
#include <string.h>
#include <time.h>
#include <unistd.h>

enum { SEATS = 3, WAITS = 1000, LIMIT = 60000 };

// How many threads were started, how many seats have ended, whether one has stopped, and how often one has waited.
static atomic_int started, ended, stopped, waited;
// Which thread this is: 1 or 2, or 0 for the one that starts these and has the third seat. And whether it has stopped or ended.
static _Thread_local int number, has_stopped, has_ended;
struct start { void *(*body)(void *); void *given; int number; };

static void tell(const char *what) {
    int file = open(getenv("STOP_TOLD"), O_CREAT | O_WRONLY | O_APPEND, 0600);
    dprintf(file, "%s\n", what);
    close(file);
}

static void end(void) {
    if (has_ended) return;
    has_ended = 1;
    atomic_fetch_add(&ended, 1);
}

static void *run(void *of) {
    struct start it = *(struct start *)of;
    free(of);
    number = it.number;
    void *told = it.body(it.given);
    end();
    return told;
}

int pthread_create(pthread_t *thread, const pthread_attr_t *how, void *(*body)(void *), void *given) {
    int (*real)(pthread_t *, const pthread_attr_t *, void *(*)(void *), void *) =
        (int (*)(pthread_t *, const pthread_attr_t *, void *(*)(void *), void *))dlsym(RTLD_NEXT, "pthread_create");
    struct start *it = malloc(sizeof *it);
    *it = (struct start){body, given, atomic_fetch_add(&started, 1) + 1};
    return real(thread, how, run, it);
}

// Who started the others waits for them when its own seat has ended.
int pthread_join(pthread_t thread, void **told) {
    int (*real)(pthread_t, void **) = (int (*)(pthread_t, void **))dlsym(RTLD_NEXT, "pthread_join");
    end();
    return real(thread, told);
}

// Stops this thread until a count is so large, and tells what that shows.
static void stop(atomic_int *count, int least, const char *what) {
    has_stopped = 1;
    for (int passed = 0; passed < LIMIT; passed++) {
        if (atomic_load(count) >= least) { tell(what); return; }
        nanosleep(&(struct timespec){0, 1000000}, 0);
    }
}

// At a cache with two copies: the first seat has the writer lock, and the second one waits for it.
static void stop_at_copies(void) {
    if (number == 1 && !has_stopped) {
        stop(&stopped, 1, "the second seat has stopped");
        stop(&waited, WAITS, "the third seat has waited for the first one");
    } else if (number == 2 && !has_stopped) {
        atomic_store(&stopped, 1);
        stop(&ended, SEATS - 1, "the others have ended");
    } else if (number == 0 && atomic_load(&started) > 0) {
        atomic_fetch_add(&waited, 1);
    }
}

// In stripes: the first seat has the lock of one, and the second one waits for that in a call over all.
static void stop_in_stripes(void) {
    if (number == 1 && !has_stopped) {
        atomic_store(&stopped, 1);
        stop(&ended, 1, "the third seat has ended");
    } else if (number == 2 && atomic_load(&stopped)) {
        atomic_fetch_add(&waited, 1);
    } else if (number == 0 && atomic_load(&started) == SEATS - 1 && !has_stopped) {
        stop(&stopped, 1, "the first seat has stopped");
        stop(&waited, WAITS, "the second seat has waited for the first one");
    }
}

int sched_yield(void) {
    if (strcmp(getenv("STOP_SCENE"), "stripes") == 0) stop_in_stripes();
    else stop_at_copies();
    static int (*real)(void);
    if (!real) real = (int (*)(void))dlsym(RTLD_NEXT, "sched_yield");
    return real();
}
