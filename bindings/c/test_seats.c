/* Tests shared caches, which threads use by their seats, through the header as a program in C would, and says at the end
 * `N passed, M failed`. */
#define _POSIX_C_SOURCE 200112L
#include <inttypes.h>
#include <pthread.h>
#include <sched.h>
#include <stdio.h>
#include <stdlib.h>
#include <string.h>

#include "tscache.h"

static int passed, failed;

static void check(bool holds, const char *file, int line, const char *what)
{
    if (holds) {
        passed++;
    } else {
        failed++;
        printf("%s:%d: %s\n", file, line, what);
    }
}
#define CHECK(x) check((x), __FILE__, __LINE__, #x)

static const tsc_time LOW = {5, 0}, NOW = {20, 0};
static const tsc_value READ = {20, 1, {0x11}};

/* Calls with the arguments that most tests give them. */

static uint32_t open_shared(tsc_store *store, uint32_t seats, uint64_t limit, uint64_t *handle)
{
    return tsc_open_shared(store, 132, 1024, 2, 10, &LOW, seats, limit, handle);
}

static uint32_t add(tsc_store *store, uint64_t seat, const char *key, uint32_t tries, uint64_t *at)
{
    tsc_added added;
    return tsc_checked_seat_add(store, seat, key, strlen(key), NULL, 0, TSC_POINT, &READ, &NOW, tries, at, &added);
}

static bool answers(tsc_store *store, uint64_t seat, const char *key, uint64_t wall, uint64_t seen)
{
    uint64_t long_ = 99;
    tsc_value v = {0, 0, {0}};
    return tsc_checked_seat_get_max(store, seat, key, strlen(key), NULL, 0, TSC_POINT, &long_, &v) == TSC_OK && v.wall == wall && long_ == seen;
}

static bool has(tsc_store *store, uint64_t seat, uint64_t pages, uint64_t rotations, uint64_t seen)
{
    uint64_t long_ = 99;
    tsc_figures f = {99, 99, 99, 99, 99, 99, 99, 99, 99};
    return tsc_checked_seat_figures_of(store, seat, &long_, &f) == TSC_OK && f.pages == pages && f.rotations == rotations && long_ == seen;
}

/* How many keys the pages hold, each counted once for each page, and what they cost. */
static bool counts(tsc_store *store, uint64_t seat, uint64_t nodes, uint64_t bytes)
{
    uint64_t long_ = 99;
    tsc_figures f = {99, 99, 99, 99, 99, 99, 99, 99, 99};
    return tsc_checked_seat_figures_of(store, seat, &long_, &f) == TSC_OK && f.nodes == nodes && f.bytes == bytes;
}

/* What one thread sees of another's seat, one call after another. */
static void seats(void)
{
    tsc_store store = {NULL}, other = {NULL};
    uint64_t n = 77, moved = 77, at = 77, seen = 77, adds = 77;
    tsc_time floor;
    CHECK(open_shared(&store, 2, 3, &n) == TSC_OK && n == 0);
    CHECK(tsc_move(&store, 2, &other, &moved) == TSC_OK && moved == 0);
    CHECK(add(&store, 1, "a", 1, &at) == TSC_OK && at == 0);
    CHECK(answers(&other, moved, "a", 20, 1) && answers(&other, moved, "b", 5, 1) && answers(&store, 1, "b", 5, 1));
    CHECK(add(&other, moved, "b", 1, &at) == TSC_OK && at == 1);
    CHECK(answers(&store, 1, "b", 20, 2));
    CHECK(tsc_seat_low_water(&store, 1, &seen, &floor) == TSC_OK && seen == 2 && floor.wall == 5 && floor.logical == 0);
    CHECK(has(&store, 1, 1, 0, 2) && has(&other, moved, 1, 0, 2));
    tsc_mark marks[2] = {{0, 1, 0, 0, {30, 0, {0}}, TSC_POINT}, {1, 1, 0, 0, {31, 0, {0}}, TSC_POINT}};
    tsc_added added = {99, false, true};
    CHECK(tsc_checked_seat_add_all(&store, 1, "xy", 2, marks, 2, &NOW, 1, &at, &added) == TSC_OK && at == 2 && added.kept && !added.rotated && added.evicted == 0);
    CHECK(answers(&other, moved, "x", 30, 3) && answers(&other, moved, "y", 31, 3));
    CHECK(add(&store, 1, "z", 1, &at) == TSC_FULL && at == 2 && add(&other, moved, "z", 1, &at) == TSC_FULL);
    CHECK(answers(&store, 1, "z", 5, 3));
    CHECK(tsc_close_shared(&store, n, &adds) == TSC_STILL_OUT && adds == 77);
    CHECK(tsc_seat_close(&store, 1) == TSC_OK && tsc_seat_close(&store, 1) == TSC_CLOSED && add(&store, 1, "z", 1, &at) == TSC_CLOSED);
    CHECK(tsc_close_shared(&store, n, &adds) == TSC_STILL_OUT && adds == 77);
    CHECK(answers(&other, moved, "y", 31, 3));
    CHECK(tsc_seat_close(&other, moved) == TSC_OK);
    CHECK(tsc_close_shared(&store, n, &adds) == TSC_OK && adds == 3);
    CHECK(tsc_close_shared(&store, n, &adds) == TSC_CLOSED);
    tsc_free(&store);
    tsc_free(&other);
}

/* Each pointer that may be null, where it has to lead somewhere. */
static void nulls(void)
{
    tsc_store store = {NULL}, *p = &store;
    uint64_t n = 77, at = 77, seen = 77;
    tsc_added a = {99, false, true};
    tsc_value v = {7, 7, {7}};
    tsc_time floor = {7, 7};
    tsc_figures f = {7, 7, 7, 7, 7, 7, 7, 7, 7};
    tsc_mark mark = {0, 1, 0, 0, {30, 0, {0}}, TSC_POINT};
    CHECK(open_shared(p, 1, 9, &n) == TSC_OK && n == 0);
    CHECK(tsc_checked_seat_add(NULL, 1, "a", 1, NULL, 0, TSC_POINT, &READ, &NOW, 1, &at, &a) == TSC_NULL && tsc_checked_seat_add(p, 1, NULL, 1, NULL, 0, TSC_POINT, &READ, &NOW, 1, &at, &a) == TSC_NULL);
    CHECK(tsc_checked_seat_add(p, 1, "a", 1, NULL, 1, 0, &READ, &NOW, 1, &at, &a) == TSC_NULL && tsc_checked_seat_add(p, 1, "a", 1, NULL, 0, TSC_POINT, NULL, &NOW, 1, &at, &a) == TSC_NULL);
    CHECK(tsc_checked_seat_add(p, 1, "a", 1, NULL, 0, TSC_POINT, &READ, NULL, 1, &at, &a) == TSC_NULL && tsc_checked_seat_add(p, 1, "a", 1, NULL, 0, TSC_POINT, &READ, &NOW, 1, NULL, &a) == TSC_NULL);
    CHECK(tsc_checked_seat_add(p, 1, "a", 1, NULL, 0, TSC_POINT, &READ, &NOW, 1, &at, NULL) == TSC_NULL);
    CHECK(tsc_checked_seat_add_all(NULL, 1, "a", 1, &mark, 1, &NOW, 1, &at, &a) == TSC_NULL && tsc_checked_seat_add_all(p, 1, NULL, 1, &mark, 1, &NOW, 1, &at, &a) == TSC_NULL);
    CHECK(tsc_checked_seat_add_all(p, 1, "a", 1, NULL, 1, &NOW, 1, &at, &a) == TSC_NULL && tsc_checked_seat_add_all(p, 1, "a", 1, &mark, 1, NULL, 1, &at, &a) == TSC_NULL);
    CHECK(tsc_checked_seat_add_all(p, 1, "a", 1, &mark, 1, &NOW, 1, NULL, &a) == TSC_NULL && tsc_checked_seat_add_all(p, 1, "a", 1, &mark, 1, &NOW, 1, &at, NULL) == TSC_NULL);
    CHECK(tsc_checked_seat_get_max(NULL, 1, "a", 1, NULL, 0, TSC_POINT, &seen, &v) == TSC_NULL && tsc_checked_seat_get_max(p, 1, NULL, 1, NULL, 0, TSC_POINT, &seen, &v) == TSC_NULL);
    CHECK(tsc_checked_seat_get_max(p, 1, "a", 1, NULL, 1, 0, &seen, &v) == TSC_NULL && tsc_checked_seat_get_max(p, 1, "a", 1, NULL, 0, TSC_POINT, NULL, &v) == TSC_NULL);
    CHECK(tsc_checked_seat_get_max(p, 1, "a", 1, NULL, 0, TSC_POINT, &seen, NULL) == TSC_NULL);
    CHECK(tsc_checked_seat_low_water(NULL, 1, &seen, &floor) == TSC_NULL && tsc_checked_seat_low_water(p, 1, NULL, &floor) == TSC_NULL && tsc_checked_seat_low_water(p, 1, &seen, NULL) == TSC_NULL);
    CHECK(tsc_checked_seat_figures_of(NULL, 1, &seen, &f) == TSC_NULL && tsc_checked_seat_figures_of(p, 1, NULL, &f) == TSC_NULL && tsc_checked_seat_figures_of(p, 1, &seen, NULL) == TSC_NULL);
    tsc_store empty = {NULL};
    uint64_t opened = 77, adds = 77;
    CHECK(tsc_checked_open_shared(NULL, 132, 1024, 2, 10, &LOW, 1, 9, &opened) == TSC_NULL && tsc_checked_open_shared(&empty, 132, 1024, 2, 10, NULL, 1, 9, &opened) == TSC_NULL && tsc_checked_open_shared(&empty, 132, 1024, 2, 10, &LOW, 1, 9, NULL) == TSC_NULL);
    CHECK(tsc_checked_seat_close(NULL, 1) == TSC_NULL && tsc_checked_close_shared(NULL, n, &adds) == TSC_NULL && tsc_checked_close_shared(p, n, NULL) == TSC_NULL);
    CHECK(opened == 77 && adds == 77 && empty.at == NULL);
    CHECK(at == 77 && seen == 77 && a.evicted == 99 && v.wall == 7 && floor.wall == 7 && f.pages == 7 && f.nodes == 7 && f.bytes == 7);
    CHECK(answers(p, 1, "a", 5, 0) && has(p, 1, 1, 0, 0));
    CHECK(tsc_checked_seat_low_water(p, 1, &seen, &floor) == TSC_OK && seen == 0 && floor.wall == 5);
    CHECK(tsc_checked_seat_close(p, 1) == TSC_OK && tsc_checked_seat_close(p, 1) == TSC_CLOSED && tsc_checked_close_shared(p, n, &adds) == TSC_OK && adds == 0);
    CHECK(tsc_checked_open_shared(p, 132, 1024, 2, 10, &LOW, 1, 9, &opened) == TSC_OK && opened == n + 2 && answers(p, opened + 1, "a", 5, 0));
    tsc_checked_free(p);
    CHECK(store.at == NULL);
}

/* What can be counted is of the history that the seat has seen. */
static void figures(void)
{
    tsc_store store = {NULL};
    uint64_t n = 77, at = 77;
    CHECK(tsc_open_shared(&store, 132, 132, 2, 10, &LOW, 2, 9, &n) == TSC_OK);
    for (const char *key = "abcd"; *key; key++)
        CHECK(add(&store, 1, (char[]){*key, 0}, 1, &at) == TSC_OK && has(&store, 2, 1, 0, at + 1) && counts(&store, 2, at + 1, 33 * (at + 1)));
    CHECK(add(&store, 2, "e", 1, &at) == TSC_OK && at == 4 && has(&store, 1, 2, 1, 5) && has(&store, 2, 2, 1, 5) && counts(&store, 1, 5, 165));
    CHECK(add(&store, 2, "a", 1, &at) == TSC_OK && at == 5 && has(&store, 1, 2, 1, 6) && counts(&store, 1, 6, 198)); /* the key of two pages counts twice */
    tsc_free(&store);
}

static void refusals(void)
{
    tsc_store store = {NULL}, other = {NULL};
    uint64_t n = 77, own = 77, at = 77, seen = 77, adds = 77;
    tsc_added added = {99, false, true};
    tsc_value v = {7, 7, {7}};
    tsc_figures f = {7, 7, 7, 7, 7, 7, 7, 7, 7};
    uint32_t not_allowed[] = {0, 65, 100000000, UINT32_MAX};
    for (size_t i = 0; i < sizeof not_allowed / sizeof *not_allowed; i++)
        CHECK(open_shared(&store, not_allowed[i], 9, &n) == TSC_SEATS && n == 77 && store.at == NULL);
    CHECK(tsc_open_shared(&store, 63, 132, 2, 10, &LOW, 1, 9, &n) == TSC_PAGE_SIZE && n == 77);
    CHECK(tsc_move(&store, 0, &other, &at) == TSC_CLOSED && at == 77);
    CHECK(open_shared(&store, 64, 9, &n) == TSC_OK && n == 0);
    CHECK(tsc_open(&store, 132, 132, 2, 10, &LOW, &own) == TSC_OK && own == 65);

    /* handles of another kind */
    CHECK(add(&store, n, "a", 1, &at) == TSC_CLOSED && add(&store, own, "a", 1, &at) == TSC_CLOSED && add(&store, 66, "a", 1, &at) == TSC_CLOSED);
    CHECK(tsc_get_max(&store, 1, "a", 1, "", 0, TSC_POINT, &v) == TSC_CLOSED && v.wall == 7);
    CHECK(tsc_seat_figures_of(&store, n, &seen, &f) == TSC_CLOSED && tsc_seat_figures_of(&store, own, &seen, &f) == TSC_CLOSED && seen == 77);
    CHECK(tsc_figures_of(&store, n, &f) == TSC_CLOSED && tsc_figures_of(&store, 1, &f) == TSC_CLOSED && f.pages == 7 && f.nodes == 7 && f.bytes == 7);
    CHECK(tsc_close(&store, n) == TSC_CLOSED && tsc_close(&store, 1) == TSC_CLOSED && tsc_seat_close(&store, n) == TSC_CLOSED && tsc_seat_close(&store, own) == TSC_CLOSED);
    CHECK(tsc_close_shared(&store, 1, &adds) == TSC_CLOSED && tsc_close_shared(&store, own, &adds) == TSC_CLOSED && adds == 77);

    /* spans, times and tries */
    char long_key[4097];
    memset(long_key, 'k', sizeof long_key);
    tsc_mark one = {0, 1, 0, 0, {30, 0, {0}}, TSC_POINT};
    CHECK(add(&store, 1, "a", 0, &at) == TSC_TRIES && at == 77 && answers(&store, 1, "a", 5, 0));
    CHECK(tsc_checked_seat_add_all(&store, 1, "a", 1, &one, 1, &NOW, 0, &at, &added) == TSC_TRIES && at == 77 && answers(&store, 1, "a", 5, 0));
    CHECK(tsc_checked_seat_add_all(&store, 1, NULL, 0, NULL, 0, &NOW, 0, &at, &added) == TSC_TRIES && at == 77 && has(&store, 1, 1, 0, 0));
    CHECK(tsc_checked_seat_add(&store, 1, "c", 1, "a", 1, 0, &READ, &NOW, 1, &at, &added) == TSC_INVERTED);
    CHECK(tsc_checked_seat_add(&store, 1, "a", 1, NULL, 0, 6, &READ, &NOW, 1, &at, &added) == TSC_ENDS);
    CHECK(tsc_checked_seat_add(&store, 1, long_key, 4097, NULL, 0, TSC_POINT, &READ, &NOW, 1, &at, &added) == TSC_KEY_TOO_LONG);
    CHECK(tsc_checked_seat_add(&store, 1, long_key, 993, NULL, 0, TSC_POINT, &READ, &NOW, 1, &at, &added) == TSC_TOO_LARGE);
    tsc_value late = {UINT64_C(1) << 63, 0, {0}};
    tsc_time odd = {0, UINT32_C(1) << 31};
    CHECK(tsc_checked_seat_add(&store, 1, "a", 1, NULL, 0, TSC_POINT, &late, &NOW, 1, &at, &added) == TSC_TIME);
    CHECK(tsc_checked_seat_add(&store, 1, "a", 1, NULL, 0, TSC_POINT, &READ, &odd, 1, &at, &added) == TSC_TIME);
    tsc_mark outside = {1, 1, 0, 0, {30, 0, {0}}, TSC_POINT};
    CHECK(tsc_checked_seat_add_all(&store, 1, "x", 1, &outside, 1, &NOW, 1, &at, &added) == TSC_OUTSIDE && at == 77 && added.evicted == 99);
    /* 0 tries are told before all else that is wrong, and after a handle that names no seat */
    CHECK(tsc_checked_seat_add(&store, 1, "c", 1, "a", 1, 6, &late, &odd, 0, &at, &added) == TSC_TRIES);
    CHECK(tsc_checked_seat_add(&store, n, "c", 1, NULL, 0, 6, &late, &odd, 0, &at, &added) == TSC_CLOSED);
    CHECK(tsc_checked_seat_add_all(&store, 1, "x", 1, &outside, 1, &odd, 0, &at, &added) == TSC_TRIES);
    CHECK(tsc_checked_seat_add_all(&store, n, "x", 1, &outside, 1, &odd, 0, &at, &added) == TSC_CLOSED && at == 77 && added.evicted == 99);
    /* each of these Adds was refused at the first seat, and none at the other ones */
    CHECK(tsc_checked_seat_figures_of(&store, 1, &seen, &f) == TSC_OK && f.refusals == 12 && f.adds == 0 && f.lookups == 2);
    CHECK(tsc_checked_seat_figures_of(&store, 2, &seen, &f) == TSC_OK && f.refusals == 0 && f.adds == 0 && f.lookups == 0);
    seen = 77, f = (tsc_figures){7, 7, 7, 7, 7, 7, 7, 7, 7};
    CHECK(tsc_checked_seat_get_max(&store, 1, "a", 1, NULL, 0, 6, &seen, &v) == TSC_ENDS && seen == 77 && v.wall == 7);
    CHECK(tsc_checked_seat_get_max(&store, 1, "c", 1, "a", 1, 0, &seen, &v) == TSC_OK && seen == 0 && v.wall == 5);
    CHECK(tsc_checked_seat_add_all(&store, 1, NULL, 0, NULL, 0, &NOW, 1, &at, &added) == TSC_OK && at == 0); /* no marks are an entry too */
    CHECK(strcmp(tsc_text(TSC_STILL_OUT), "a seat is still out") == 0 && strcmp(tsc_text(TSC_FULL), "there are as many Adds as there may be") == 0);

    /* what was moved is what it was, and each of these goes with its store; seats that are freed with one are handed in */
    CHECK(tsc_move(&store, own, &other, &at) == TSC_OK && at == 0 && tsc_close(&store, own) == TSC_CLOSED);
    CHECK(tsc_move(&store, n, &other, &at) == TSC_OK && at == 1 && tsc_close_shared(&store, n, &adds) == TSC_CLOSED);
    CHECK(answers(&store, 64, "a", 5, 1));
    CHECK(tsc_close_shared(&other, at, &adds) == TSC_STILL_OUT);
    tsc_free(&store);
    CHECK(tsc_close_shared(&other, at, &adds) == TSC_OK && adds == 1);
    CHECK(tsc_close(&other, 0) == TSC_OK);
    tsc_free(&other);

    /* seats outlive the handle of their cache, whose memory goes with the last of them */
    CHECK(open_shared(&store, 2, 9, &n) == TSC_OK && tsc_move(&store, 2, &other, &at) == TSC_OK);
    tsc_free(&store);
    CHECK(add(&other, at, "a", 1, &seen) == TSC_OK && answers(&other, at, "a", 20, 1));
    CHECK(add(&other, at, "", 1, &seen) == TSC_OK && answers(&other, at, "", 20, 2)); /* the empty key is the first one */
    tsc_free(&other);
}

/* Threads, each with a store and a seat of its own. */

enum { THREADS = 8, CALLS = 10000, KEYS = 64 };

/* An Add at its place in the history. A wall of 0: none was there. */
struct entry {
    int key;
    tsc_value value;
};

/* What a lookup answered, and how many Adds its seat had seen then. */
struct answer {
    int key;
    uint64_t seen;
    tsc_value value;
};

struct thread {
    tsc_store store;
    uint64_t seat, accepted, busy;
    struct entry *history; /* of all threads */
    struct answer answers[CALLS];
    int lookups, number;
    bool right;
};

static pthread_mutex_t taking = PTHREAD_MUTEX_INITIALIZER;
static pthread_barrier_t start; /* all begin at once, since each alone is done in some milliseconds */

static bool takes(struct entry *history, uint64_t at, struct entry entry)
{
    pthread_mutex_lock(&taking);
    bool first = at < (uint64_t)THREADS * CALLS && !history[at].value.wall;
    if (first)
        history[at] = entry;
    pthread_mutex_unlock(&taking);
    return first;
}

static void *work(void *handed)
{
    struct thread *t = handed;
    uint64_t latest[KEYS] = {0}, seen = 0, last = 0, random = (uint64_t)t->number + 1;
    pthread_barrier_wait(&start);
    for (int i = 0; i < CALLS; i++) {
        random = random * UINT64_C(6364136223846793005) + UINT64_C(1442695040888963407);
        uint8_t k = (uint8_t)((random >> 40) % KEYS), key[2] = {'k', k};
        if ((random >> 60) < 6) {
            /* no two Adds have one time */
            tsc_value v = {100 + (uint64_t)i * THREADS + (uint64_t)t->number, 0, {(uint8_t)(t->number + 1)}};
            tsc_added added;
            uint64_t at = 0;
            tsc_mark mark = {0, 2, 0, 0, v, TSC_POINT};
            /* who may try four thousand million times is never told that others were in the way */
            uint32_t tries = i % 16 ? 16 : UINT32_MAX;
            uint32_t answer = i % 32 < 16
                ? tsc_checked_seat_add(&t->store, t->seat, key, 2, NULL, 0, TSC_POINT, &v, &NOW, tries, &at, &added)
                : tsc_checked_seat_add_all(&t->store, t->seat, key, 2, &mark, 1, &NOW, tries, &at, &added);
            if (answer == TSC_OK) {
                /* it is behind all that was seen, at a place of its own, and is seen from now on */
                t->right = t->right && at >= seen && (t->accepted == 0 || at > last) && takes(t->history, at, (struct entry){k, v});
                /* its time is above the floor, and no page is older than the retention, so none is dropped */
                t->right = t->right && added.kept && added.evicted == 0;
                last = at;
                seen = at + 1;
                t->accepted++;
                if (v.wall > latest[k])
                    latest[k] = v.wall;
            } else {
                t->right = t->right && answer == TSC_BUSY && tries == 16;
                t->busy++;
                sched_yield();
            }
        } else {
            tsc_value v;
            uint64_t long_;
            uint32_t answer = tsc_checked_seat_get_max(&t->store, t->seat, key, 2, NULL, 0, TSC_POINT, &long_, &v);
            t->right = t->right && answer == TSC_OK && long_ >= seen && v.wall >= latest[k];
            seen = long_;
            latest[k] = v.wall;
            t->answers[t->lookups++] = (struct answer){k, long_, v};
        }
    }
    t->right = t->right && tsc_seat_close(&t->store, t->seat) == TSC_OK;
    tsc_free(&t->store);
    return NULL;
}

/* Threads whose Adds try so often as no other can be in their way: none is refused as busy. */

enum { EAGER = 4, EAGER_CALLS = 2000 };

struct eager {
    _Alignas(128) tsc_store store;
    uint64_t seat;
    bool right;
};

static void *adds_eagerly(void *handed)
{
    struct eager *t = handed;
    const tsc_mark mark = {0, 1, 0, 0, READ, TSC_POINT};
    pthread_barrier_wait(&start);
    for (int i = 0; i < EAGER_CALLS && t->right; i++) {
        uint64_t at;
        tsc_added added;
        t->right = add(&t->store, t->seat, "a", UINT32_MAX, &at) == TSC_OK &&
                   tsc_checked_seat_add_all(&t->store, t->seat, "b", 1, &mark, 1, &NOW, UINT32_MAX,
                                            &at, &added) == TSC_OK;
    }
    t->right = t->right && tsc_seat_close(&t->store, t->seat) == TSC_OK;
    tsc_free(&t->store);
    return NULL;
}

static void tries(void)
{
    static struct eager all[EAGER];
    pthread_t running[EAGER];
    tsc_store store = {NULL};
    uint64_t n, adds = 77;
    CHECK(open_shared(&store, EAGER, UINT64_MAX, &n) == TSC_OK);
    CHECK(pthread_barrier_init(&start, NULL, EAGER) == 0);
    for (int i = 0; i < EAGER; i++) {
        all[i].right = true;
        CHECK(tsc_move(&store, n + 1 + (uint64_t)i, &all[i].store, &all[i].seat) == TSC_OK);
    }
    for (int i = 0; i < EAGER; i++)
        if (pthread_create(&running[i], NULL, adds_eagerly, &all[i]) != 0) {
            printf("a thread was not started\n");
            exit(1);
        }
    for (int i = 0; i < EAGER; i++)
        CHECK(pthread_join(running[i], NULL) == 0 && all[i].right);
    CHECK(pthread_barrier_destroy(&start) == 0);
    CHECK(tsc_close_shared(&store, n, &adds) == TSC_OK && adds == 2 * EAGER * EAGER_CALLS);
    tsc_free(&store);
}

static bool same(const tsc_value *a, const tsc_value *b)
{
    return a->wall == b->wall && a->logical == b->logical && memcmp(a->owner, b->owner, 16) == 0;
}

/* Each lookup of a thread answered the latest of its key among the first Adds of the history, as many as its seat had seen, or the floor. What
 * a seat has seen never goes back, so one pass over the history does for all of them. */
static bool as_in_history(const struct thread *t, const struct entry *history, uint64_t length)
{
    tsc_value latest[KEYS];
    uint64_t at = 0;
    bool each = t->lookups > 0;
    for (int k = 0; k < KEYS; k++)
        latest[k] = (tsc_value){LOW.wall, LOW.logical, {0}};
    for (const struct answer *a = t->answers; a < t->answers + t->lookups; a++) {
        each = each && at <= a->seen && a->seen <= length;
        for (; each && at < a->seen; at++)
            if (history[at].value.wall > latest[history[at].key].wall)
                latest[history[at].key] = history[at].value;
        each = each && same(&a->value, &latest[a->key]);
    }
    return each;
}

static void threads(void)
{
    static struct thread all[THREADS];
    static struct entry history[THREADS * CALLS];
    pthread_t running[THREADS];
    tsc_store store = {NULL};
    uint64_t n, adds = 77, accepted = 0, busy = 0, lookups = 0;
    CHECK(tsc_open_shared(&store, 65536, 1 << 20, 2, 10, &LOW, THREADS, (uint64_t)THREADS * CALLS, &n) == TSC_OK);
    for (int i = 0; i < THREADS; i++) {
        all[i].history = history;
        all[i].right = true;
        all[i].number = i;
        CHECK(tsc_move(&store, n + 1 + (uint64_t)i, &all[i].store, &all[i].seat) == TSC_OK);
    }
    CHECK(pthread_barrier_init(&start, NULL, THREADS) == 0);
    for (int i = 0; i < THREADS; i++)
        if (pthread_create(&running[i], NULL, work, &all[i]) != 0) {
            printf("a thread was not started\n");
            exit(1);
        }
    for (int i = 0; i < THREADS; i++) {
        CHECK(pthread_join(running[i], NULL) == 0 && all[i].right);
        accepted += all[i].accepted;
        busy += all[i].busy;
        lookups += (uint64_t)all[i].lookups;
    }
    bool each = true; /* the places are those of one history */
    for (uint64_t at = 0; at < (uint64_t)THREADS * CALLS; at++)
        each = each && (history[at].value.wall != 0) == (at < accepted);
    CHECK(each && accepted > 0);
    for (int i = 0; i < THREADS; i++)
        CHECK(as_in_history(&all[i], history, accepted));
    CHECK(tsc_close_shared(&store, n, &adds) == TSC_OK && adds == accepted);
    tsc_free(&store);
    printf("%d threads made %d calls each: %" PRIu64 " Adds, %" PRIu64 " that others were in the way of, and %" PRIu64 " lookups\n", THREADS, CALLS, accepted, busy, lookups);
}

/* Caches in stripes. */

static uint32_t open_striped(tsc_store *store, const char *keys, const size_t *lens, size_t count, uint32_t seats, uint64_t *handle)
{
    return tsc_checked_open_striped(store, 132, 8256, 2, 10, &LOW, keys, strlen(keys), lens, count, seats, handle);
}

/* A seat in stripes takes each call, and a refused one writes nothing. */
static void stripes(void)
{
    static const size_t ONES[] = {1, 1}, LONGER[] = {1, 2}, EMPTY[] = {0, 2}, TOO_LONG[] = {4097};
    static const char long_key[4098] = {0};
    static size_t many[1024];
    tsc_store store = {NULL}, other = {NULL};
    uint64_t n = 77, at = 77, seen = 77, adds = 77;
    tsc_added added;
    tsc_time floor = {7, 7};
    tsc_figures f;
    CHECK(open_striped(&store, "bd", ONES, 2, 0, &n) == TSC_SEATS && n == 77);
    CHECK(open_striped(&store, "bd", ONES, 1, 2, &n) == TSC_OUTSIDE && open_striped(&store, "bd", LONGER, 2, 2, &n) == TSC_OUTSIDE);
    CHECK(open_striped(&store, "bd", NULL, 0, 2, &n) == TSC_OUTSIDE && open_striped(&store, "bd", EMPTY, 2, 2, &n) == TSC_BOUNDS);
    CHECK(open_striped(&store, "db", ONES, 2, 2, &n) == TSC_BOUNDS && open_striped(&store, "bb", ONES, 2, 2, &n) == TSC_BOUNDS);
    CHECK(tsc_open_striped(&store, 132, 8256, 2, 10, &LOW, long_key, 4097, TOO_LONG, 1, 2, &n) == TSC_KEY_TOO_LONG);
    CHECK(tsc_open_striped(&store, 132, 8256, 2, 10, &LOW, "", 0, many, 1024, 2, &n) == TSC_STRIPES);
    CHECK(tsc_open_striped(&store, 132, 8255, 2, 10, &LOW, "bd", 2, ONES, 2, 2, &n) == TSC_PAGE_SIZE && n == 77);
    CHECK(tsc_checked_open_striped(NULL, 132, 8256, 2, 10, &LOW, "bd", 2, ONES, 2, 2, &n) == TSC_NULL);
    CHECK(tsc_checked_open_striped(&store, 132, 8256, 2, 10, NULL, "bd", 2, ONES, 2, 2, &n) == TSC_NULL);
    CHECK(tsc_checked_open_striped(&store, 132, 8256, 2, 10, &LOW, NULL, 2, ONES, 2, 2, &n) == TSC_NULL);
    CHECK(tsc_checked_open_striped(&store, 132, 8256, 2, 10, &LOW, "bd", 2, NULL, 2, 2, &n) == TSC_NULL);
    CHECK(tsc_checked_open_striped(&store, 132, 8256, 2, 10, &LOW, "bd", 2, ONES, 2, 2, NULL) == TSC_NULL && n == 77);
    CHECK(tsc_checked_open_striped(&store, 132, 8256, 2, 10, &LOW, NULL, 0, NULL, 0, 1, &n) == TSC_OK && n == 0);
    CHECK(tsc_seat_close(&store, 1) == TSC_OK && tsc_close_shared(&store, 0, &adds) == TSC_OK && adds == 0);

    CHECK(open_striped(&store, "bd", ONES, 2, 70, &n) == TSC_OK && n == 2);
    CHECK(tsc_close(&store, n) == TSC_CLOSED && tsc_seat_close(&store, n) == TSC_CLOSED && tsc_close_shared(&store, n + 1, &adds) == TSC_CLOSED);
    CHECK(answers(&store, n + 70, "a", 5, 0) && answers(&store, n + 71, "a", 5, 0) == false);
    CHECK(tsc_seat_add(&store, n + 1, "a", 1, "c", 1, TSC_EXCLUDE_TO, &READ, &NOW, 64, &at, &added) == TSC_OK && at == 0 && added.kept);
    CHECK(add(&store, n + 1, "e", 64, &at) == TSC_OK && at == 1 && add(&store, n + 2, "e", 64, &at) == TSC_OK && at == 0);
    CHECK(answers(&store, n + 1, "b", 20, 2) && answers(&store, n + 3, "a", 20, 0) && answers(&store, n + 2, "c", 5, 1));
    CHECK(has(&store, n + 1, 3, 0, 2) && counts(&store, n + 2, 5, 165));
    CHECK(tsc_seat_figures_of(&store, n + 1, &seen, &f) == TSC_OK && f.adds == 2 && f.refusals == 0 && f.lookups == 1 && f.memory > f.bytes);
    CHECK(tsc_seat_low_water(&store, n + 1, &seen, &floor) == TSC_OK && floor.wall == 5 && seen == 2);
    at = seen = 77;
    CHECK(add(&store, n + 1, "a", 0, &at) == TSC_TRIES && at == 77);
    CHECK(tsc_seat_add(&store, n + 1, "c", 1, "a", 1, 0, &READ, &NOW, 64, &at, &added) == TSC_INVERTED && at == 77);
    CHECK(tsc_seat_add(&store, n + 1, long_key, 4097, "", 0, TSC_POINT, &READ, &NOW, 64, &at, &added) == TSC_KEY_TOO_LONG && at == 77);
    CHECK(tsc_seat_figures_of(&store, n + 1, &seen, &f) == TSC_OK && f.adds == 2 && f.refusals == 3);

    /* seats go to other stores, and outlive the handle of their cache */
    CHECK(tsc_move(&store, n + 2, &other, &at) == TSC_OK && at == 0);
    CHECK(tsc_close_shared(&store, n, &adds) == TSC_STILL_OUT && adds == 0);
    CHECK(tsc_seat_close(&other, at) == TSC_OK && tsc_close_shared(&store, n, &adds) == TSC_STILL_OUT);
    CHECK(tsc_move(&store, n + 1, &other, &at) == TSC_OK && at == 1 && answers(&other, at, "a", 20, 2));
    tsc_free(&store);
    CHECK(add(&other, at, "z", 64, &seen) == TSC_OK && seen == 2);
    tsc_free(&other);

    /* at closing the Adds of all seats are counted, also of those that were freed with their stores */
    CHECK(open_striped(&store, "bd", ONES, 2, 3, &n) == TSC_OK && tsc_move(&store, n + 3, &other, &at) == TSC_OK);
    CHECK(add(&other, at, "a", 64, &seen) == TSC_OK && add(&other, at, "b", 64, &seen) == TSC_OK && add(&store, n + 1, "b", 64, &seen) == TSC_OK);
    tsc_free(&other);
    CHECK(tsc_seat_close(&store, n + 1) == TSC_OK && tsc_close_shared(&store, n, &adds) == TSC_STILL_OUT);
    CHECK(tsc_seat_close(&store, n + 2) == TSC_OK && tsc_close_shared(&store, n, &adds) == TSC_OK && adds == 3);
    CHECK(tsc_close_shared(&store, n, &adds) == TSC_CLOSED);
    tsc_free(&store);
}

/* Threads that add to two stripes at once and look up all of them: a lookup sees both marks of a
 * batch or none, what a thread was told never sinks, and what it added is there. */

enum { IN_STRIPES = 4, STRIPED_CALLS = 5000 };

struct striped {
    _Alignas(128) tsc_store store;
    uint64_t seat, busy;
    int number;
    bool right;
};

static uint64_t latest_at(struct striped *t, const char *from, const char *to)
{
    tsc_value v = {0, 0, {0}};
    uint64_t seen;
    uint32_t did;
    while ((did = tsc_seat_get_max(&t->store, t->seat, from, 1, to, 1, 0, &seen, &v)) == TSC_BUSY) {
        t->busy++;
        sched_yield();
    }
    t->right = t->right && did == TSC_OK;
    return v.wall;
}

static void *works_in_stripes(void *handed)
{
    struct striped *t = handed;
    const uint8_t keys[] = {'a', 'd', (uint8_t)('a' + t->number), 'x'};
    uint64_t before = 0;
    pthread_barrier_wait(&start);
    for (uint64_t i = 0; i < STRIPED_CALLS && t->right; i++) {
        /* one mark in the first stripe and one in the last, of one time; and a key of its own */
        tsc_value both = {100 + i * IN_STRIPES + (uint64_t)t->number, 0, {(uint8_t)(t->number + 1)}};
        const tsc_mark marks[] = {{0, 1, 0, 0, both, TSC_POINT}, {1, 1, 0, 0, both, TSC_POINT}};
        tsc_added added;
        uint64_t at;
        uint32_t did;
        while ((did = tsc_seat_add_all(&t->store, t->seat, keys, 2, marks, 2, &NOW, 16, &at, &added)) == TSC_BUSY) {
            t->busy++;
            sched_yield();
        }
        t->right = t->right && did == TSC_OK && at == 2 * i && added.kept;
        while ((did = tsc_seat_add(&t->store, t->seat, keys + 2, 2, "", 0, TSC_POINT, &both, &NOW, 16, &at, &added)) == TSC_BUSY) {
            t->busy++;
            sched_yield();
        }
        t->right = t->right && did == TSC_OK && at == 2 * i + 1;
        uint64_t all = latest_at(t, "a", "z"), first = latest_at(t, "a", "a"), last = latest_at(t, "d", "d");
        /* whoever sees one mark of a batch sees the other */
        t->right = t->right && all >= both.wall && all >= before && first >= all && last >= first;
        before = last;
    }
    t->right = t->right && tsc_seat_close(&t->store, t->seat) == TSC_OK;
    tsc_free(&t->store);
    return NULL;
}

static void threads_in_stripes(void)
{
    static struct striped all[IN_STRIPES];
    static const size_t ONES[] = {1, 1, 1};
    pthread_t running[IN_STRIPES];
    tsc_store store = {NULL};
    uint64_t n, adds = 77, busy = 0;
    CHECK(tsc_open_striped(&store, 65536, 1 << 20, 2, 10, &LOW, "bcd", 3, ONES, 3, IN_STRIPES, &n) == TSC_OK);
    CHECK(pthread_barrier_init(&start, NULL, IN_STRIPES) == 0);
    for (int i = 0; i < IN_STRIPES; i++) {
        all[i].right = true;
        all[i].number = i;
        CHECK(tsc_move(&store, n + 1 + (uint64_t)i, &all[i].store, &all[i].seat) == TSC_OK);
    }
    for (int i = 0; i < IN_STRIPES; i++)
        if (pthread_create(&running[i], NULL, works_in_stripes, &all[i]) != 0) {
            printf("a thread was not started\n");
            exit(1);
        }
    for (int i = 0; i < IN_STRIPES; i++) {
        CHECK(pthread_join(running[i], NULL) == 0 && all[i].right);
        busy += all[i].busy;
    }
    CHECK(pthread_barrier_destroy(&start) == 0);
    CHECK(tsc_close_shared(&store, n, &adds) == TSC_OK && adds == 2 * IN_STRIPES * STRIPED_CALLS);
    tsc_free(&store);
    printf("%d threads in stripes: %" PRIu64 " times others were in the way\n", IN_STRIPES, busy);
}

int main(void)
{
    seats();
    nulls();
    figures();
    refusals();
    tries();
    threads();
    stripes();
    threads_in_stripes();
    printf("%d passed, %d failed\n", passed, failed);
    return failed != 0;
}
