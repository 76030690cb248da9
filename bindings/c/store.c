/* A small store of several versions that threads serve under a lease, and whose writes ask the
 * timestamp cache.
 *
 * Each key has its versions by their times, and a latch. A transaction reads at a time, and the
 * read is added to the cache before it is answered. A write asks before it lays a version down,
 * under the latches of all keys that it writes, and goes to the time that it is told. Each thread
 * has a seat of its own. Then the lease goes on: the next holder knows nothing of the reads
 * before, so its cache begins with the floor at the present time.
 *
 * At the end each read that was answered is made once more, as of its time. None finds anything
 * else. Two more trials show what comes of it where writes don't ask, and where they take an
 * answer of their own for leave to write at any time: many reads find something else then.
 *
 *     cc store.c -IOUT -LOUT -ltscache -pthread -o store && ./store
 *
 * It says at the end `N passed, M failed`. */
#define _POSIX_C_SOURCE 200112L
#include "tscache.h"

#include <inttypes.h>
#include <pthread.h>
#include <sched.h>
#include <stdatomic.h>
#include <stdio.h>
#include <stdlib.h>
#include <string.h>

enum {
    KEYS = 64,
    THREADS = 4,
    TURNS = 1500, /* of each thread, under each lease */
    LEASES = 2,
    LAG = 40, /* so long ago a transaction that writes began */
    TRIES = 64,
};

/* How a write finds its time. */
enum asking { ASKS, TRUSTS_ITS_OWN, NEVER_ASKS };

struct version {
    tsc_time at;
    uint64_t value, by;
};

/* What lies under the latch of a key: its versions, by rising times. */
struct key {
    pthread_mutex_t latch;
    struct version *versions;
    size_t count, room;
};

/* A read that was answered: what a store keeps none of. */
struct answer {
    int key;
    tsc_time at;
    uint64_t value, by;
};

struct store {
    struct key keys[KEYS];
    atomic_uint_least64_t clock;
    enum asking asking;
};

/* A thread: its seat, and what it did. A `tsc_store` is written at each call, so those of threads
 * lie apart. */
struct worker {
    _Alignas(128) tsc_store caches;
    uint64_t seat;
    struct store *store;
    struct answer *answers;
    size_t count;
    uint64_t number, writes, pushed, turns;
};

static void fail(const char *why)
{
    fprintf(stderr, "store: %s\n0 passed, 1 failed\n", why);
    exit(1);
}

static tsc_time now_of(struct store *s)
{
    return (tsc_time){atomic_fetch_add(&s->clock, 1) + 1, 0};
}

/* Sixteen bytes for a transaction, of which none is all zeros. */
static void id_of(uint64_t by, uint8_t owner[16])
{
    memset(owner, 0, 16);
    memcpy(owner, &by, sizeof by);
}

/* What a key is at a time, with the versions of one transaction passed over. The value 0 is
 * before all versions. */
static uint64_t value_at(const struct key *k, tsc_time at, uint64_t but)
{
    size_t i = k->count;
    while (i > 0 && (tsc_before(at, k->versions[i - 1].at) || k->versions[i - 1].by == but))
        i--;
    return i ? k->versions[i - 1].value : 0;
}

static void lay_down(struct key *k, struct version v)
{
    if (k->count == k->room) {
        k->room = 2 * k->room + 8;
        k->versions = realloc(k->versions, k->room * sizeof *k->versions);
        if (!k->versions)
            fail("out of memory");
    }
    k->versions[k->count++] = v;
}

/* Reads the keys from one to before another. The order is what matters: read, add, answer. */
static void read_keys(struct worker *w, int from, int to, tsc_time at, uint64_t by)
{
    struct key *keys = w->store->keys;
    uint8_t first = (uint8_t)from, last = (uint8_t)to;
    tsc_value read = {at.wall, at.logical, {0}};
    tsc_added added;
    uint64_t place;
    uint32_t answer;
    id_of(by, read.owner);
    for (int i = from; i < to; i++)
        pthread_mutex_lock(&keys[i].latch);
    while ((answer = tsc_seat_add(&w->caches, w->seat, &first, 1, &last, 1, TSC_EXCLUDE_TO, &read,
                                  &at, TRIES, &place, &added)) == TSC_BUSY)
        sched_yield();
    if (answer != TSC_OK)
        fail(tsc_text(answer)); /* a read that was not added may not be answered */
    for (int i = from; i < to; i++) {
        w->answers[w->count++] = (struct answer){i, at, value_at(&keys[i], at, by), by};
        pthread_mutex_unlock(&keys[i].latch);
    }
}

/* The trap: each key by itself, and an answer of its own is taken for leave. An earlier read of
 * somebody else may lie behind it. */
static bool trusts_its_own(struct worker *w, const uint8_t names[2], const uint8_t owner[16],
                           tsc_time *at)
{
    for (int i = 0; i < 2; i++) {
        tsc_value read;
        uint64_t seen;
        uint32_t answer = tsc_seat_get_max(&w->caches, w->seat, &names[i], 1, &names[i], 0,
                                           TSC_POINT, &seen, &read);
        if (answer != TSC_OK)
            fail(tsc_text(answer));
        tsc_time latest = {read.wall, read.logical};
        if (memcmp(read.owner, owner, 16) != 0 && !tsc_before(latest, *at) &&
            !tsc_next(latest, at))
            return false;
    }
    return true;
}

/* The earliest time, not before `at`, at which two keys may be written. It is false where there is
 * none. */
static bool clear_keys(struct worker *w, const int both[2], uint64_t by, tsc_time *at)
{
    static const tsc_span SPANS[2] = {{0, 1, 0, 0, TSC_POINT}, {1, 1, 0, 0, TSC_POINT}};
    uint8_t names[2] = {(uint8_t)both[0], (uint8_t)both[1]};
    tsc_value write = {at->wall, at->logical, {0}};
    uint64_t seen;
    bool may;
    id_of(by, write.owner);
    if (w->store->asking == NEVER_ASKS)
        return true;
    if (w->store->asking == TRUSTS_ITS_OWN)
        return trusts_its_own(w, names, write.owner, at);
    uint32_t answer =
        tsc_seat_earliest_write(&w->caches, w->seat, names, 2, SPANS, 2, &write, &seen, at);
    if (answer == TSC_NO_TIME)
        return false;
    if (answer != TSC_OK)
        fail(tsc_text(answer));
    /* nobody else adds a read of the keys while their latches are held */
    write.wall = at->wall;
    write.logical = at->logical;
    answer = tsc_seat_may_write(&w->caches, w->seat, names, 2, SPANS, 2, &write, &seen, &may);
    if (answer != TSC_OK || !may)
        fail("a write may not be made at the time that was told");
    return true;
}

/* Writes two keys at one time: each has to let it pass. The latches are held from the question to
 * the versions. */
static void write_keys(struct worker *w, int one, int other, tsc_time wanted, uint64_t by)
{
    struct key *keys = w->store->keys;
    int both[2] = {one < other ? one : other, one < other ? other : one};
    tsc_time at = wanted;
    for (int i = 0; i < 2; i++)
        pthread_mutex_lock(&keys[both[i]].latch);
    bool may = clear_keys(w, both, by, &at);
    w->pushed += tsc_before(wanted, at);
    for (int i = 0; i < 2; i++) { /* and it goes above the newest version of each */
        const struct key *k = &keys[both[i]];
        if (may && k->count && !tsc_before(k->versions[k->count - 1].at, at))
            may = tsc_next(k->versions[k->count - 1].at, &at);
    }
    for (int i = 0; i < 2; i++) {
        if (may)
            lay_down(&keys[both[i]], (struct version){at, by, by});
        pthread_mutex_unlock(&keys[both[i]].latch);
    }
    w->writes += may;
}

static uint64_t chance(uint64_t *x)
{
    *x ^= *x << 13;
    *x ^= *x >> 7;
    *x ^= *x << 17;
    return *x;
}

/* Transactions that read at the present time. Each second one wants to write two keys too: at the
 * present time, or at an earlier one, at which it began before it read. */
static void *serve(void *of)
{
    struct worker *w = of;
    uint64_t x = UINT64_C(88172645463325252) + w->number;
    for (int turn = 0; turn < TURNS; turn++) {
        uint64_t by = (++w->turns << 8) + w->number + 1;
        int key = (int)(chance(&x) % KEYS), other = (int)(chance(&x) % KEYS);
        tsc_time now = now_of(w->store);
        int to = key + 1 + (int)(chance(&x) % 4);
        read_keys(w, key, to < KEYS ? to : KEYS, now, by);
        if (turn % 2 && other != key) {
            uint64_t lag = turn % 4 == 1 && now.wall > LAG ? LAG : 0;
            write_keys(w, key, other, (tsc_time){now.wall - lag, 0}, by);
        }
        if (turn % 16 == 0)
            sched_yield();
    }
    return NULL;
}

/* One lease: a cache with its floor at the present time, and a seat for each thread. */
static void hold_lease(struct store *s, struct worker *workers)
{
    static tsc_store opened;
    pthread_t running[THREADS];
    tsc_time low = now_of(s);
    uint64_t n, adds;
    if (tsc_open_shared(&opened, 4096, 1 << 20, 2, 10000, &low, THREADS, UINT64_MAX, &n) != TSC_OK)
        fail("no cache was opened");
    for (int i = 0; i < THREADS; i++)
        if (tsc_move(&opened, n + 1 + (uint64_t)i, &workers[i].caches, &workers[i].seat) != TSC_OK)
            fail("a seat was not handed out");
    for (int i = 0; i < THREADS; i++)
        if (pthread_create(&running[i], NULL, serve, &workers[i]) != 0)
            fail("a thread was not started");
    for (int i = 0; i < THREADS; i++) {
        pthread_join(running[i], NULL);
        tsc_free(&workers[i].caches);
    }
    if (tsc_close_shared(&opened, n, &adds) != TSC_OK)
        fail("a seat is missing");
    tsc_free(&opened);
}

struct counts {
    uint64_t writes, pushed, reads, changed;
};

static struct counts trial(enum asking asking)
{
    static struct store s;
    static struct worker workers[THREADS];
    struct counts c = {0};
    memset(&s, 0, sizeof s);
    s.asking = asking;
    for (int i = 0; i < KEYS; i++)
        pthread_mutex_init(&s.keys[i].latch, NULL);
    for (int i = 0; i < THREADS; i++) {
        struct answer *answers = malloc(LEASES * TURNS * 4 * sizeof *answers);
        if (!answers)
            fail("out of memory");
        workers[i] = (struct worker){.store = &s, .answers = answers, .number = (uint64_t)i};
    }
    for (int lease = 0; lease < LEASES; lease++)
        hold_lease(&s, workers);
    for (int i = 0; i < THREADS; i++) {
        c.writes += workers[i].writes;
        c.pushed += workers[i].pushed;
        c.reads += workers[i].count;
        for (size_t a = 0; a < workers[i].count; a++) {
            const struct answer *found = &workers[i].answers[a];
            c.changed += value_at(&s.keys[found->key], found->at, found->by) != found->value;
        }
        free(workers[i].answers);
    }
    for (int i = 0; i < KEYS; i++) {
        pthread_mutex_destroy(&s.keys[i].latch);
        free(s.keys[i].versions);
    }
    return c;
}

int main(void)
{
    static const char *NAMES[] = {"that ask", "that take their own reads for leave",
                                  "that never ask"};
    int passed = 0, failed = 0;
    for (enum asking asking = ASKS; asking <= NEVER_ASKS; asking++) {
        struct counts c = trial(asking);
        printf("writes %s: %" PRIu64 ", of which %" PRIu64 " were pushed; ", NAMES[asking],
               c.writes, c.pushed);
        printf("%" PRIu64 " reads, of which %" PRIu64 " changed\n", c.reads, c.changed);
        bool is_right =
            asking == ASKS ? c.changed == 0 && c.pushed * 10 >= c.writes : c.changed > 0;
        passed += is_right;
        failed += !is_right;
    }
    printf("%d passed, %d failed\n", passed, failed);
    return failed != 0;
}
