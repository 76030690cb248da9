/* Opens and drops caches, shared caches and seats 2,000 times each, and looks that as much memory
 * is handed out after as before. It says at the end `N passed, M failed`. It needs glibc's
 * `mallinfo2`; elsewhere it checks the calls alone. */
#include "tscache.h"

#include <malloc.h>
#include <stdio.h>

/* So many bytes less than 2,000 of the least that a leak would be. */
enum { TIMES = 2000, MOST = 16384 };

static int passed, failed;

static void check(bool holds, const char *what)
{
    if (holds) {
        passed++;
    } else {
        failed++;
        printf("test_leaks.c: %s\n", what);
    }
}

static size_t in_use(void)
{
#if defined(__GLIBC__) && (__GLIBC__ > 2 || (__GLIBC__ == 2 && __GLIBC_MINOR__ >= 33))
    struct mallinfo2 info = mallinfo2();
    return info.uordblks + info.hblkhd;
#else
    return 0;
#endif
}

static const tsc_time LOW = {5, 0}, NOW = {20, 0};
static const tsc_value READ = {20, 0, {0x11}};

static uint32_t add(tsc_store *store, uint64_t n)
{
    tsc_added a;
    return tsc_add(store, n, "a", 1, "", 0, TSC_POINT, &READ,
                   &NOW, &a);
}

static uint32_t seat_add(tsc_store *store, uint64_t seat)
{
    tsc_added a;
    uint64_t at;
    return tsc_seat_add(store, seat, "a", 1, "", 0, TSC_POINT,
                        &READ, &NOW, 64, &at, &a);
}

/* Each of these opens something and drops it, and says whether each call did what it should. */

static bool caches(void)
{
    tsc_store store = {NULL};
    uint64_t n;
    bool is_right =
        tsc_open(&store, 132, 132, 2, 10, &LOW, &n) == TSC_OK && add(&store, n) == TSC_OK;
    tsc_free(&store);
    return is_right && store.at == NULL;
}

static bool refused_ones(void)
{
    tsc_store store = {NULL};
    uint64_t n;
    bool is_right = tsc_open(&store, 132, 132, 0, 10, &LOW, &n) == TSC_MIN_PAGES &&
                    tsc_open_shared(&store, 132, 132, 2, 10, &LOW, 65, 9, &n) == TSC_SEATS &&
                    tsc_close(&store, 0) == TSC_CLOSED;
    tsc_free(&store);
    return is_right;
}

static bool shared_ones(bool closes)
{
    tsc_store store = {NULL}, other = {NULL};
    uint64_t n, seat, adds;
    bool is_right = tsc_open_shared(&store, 132, 132, 2, 10, &LOW, 2, 9, &n) == TSC_OK &&
                    tsc_move(&store, n + 2, &other, &seat) == TSC_OK &&
                    seat_add(&other, seat) == TSC_OK;
    if (closes)
        is_right = is_right && tsc_seat_close(&other, seat) == TSC_OK &&
                   tsc_seat_close(&store, n + 1) == TSC_OK &&
                   tsc_close_shared(&store, n, &adds) == TSC_OK && adds == 1;
    tsc_free(&store);
    tsc_free(&other);
    return is_right;
}

static bool shared_caches(void) { return shared_ones(true); }

static bool shared_caches_with_their_seats(void) { return shared_ones(false); }

static bool striped_ones(bool closes)
{
    static const size_t ONES[] = {1, 1};
    tsc_store store = {NULL}, other = {NULL};
    uint64_t n, seat, adds;
    bool is_right =
        tsc_open_striped(&store, 132, 8256, 2, 10, &LOW, "gf", 2, ONES, 2, 2, &n) == TSC_BOUNDS &&
        tsc_open_striped(&store, 132, 8256, 2, 10, &LOW, "fg", 2, ONES, 2, 2, &n) == TSC_OK &&
        tsc_move(&store, n + 2, &other, &seat) == TSC_OK && seat_add(&other, seat) == TSC_OK;
    if (closes)
        is_right = is_right && tsc_seat_close(&other, seat) == TSC_OK &&
                   tsc_seat_close(&store, n + 1) == TSC_OK &&
                   tsc_close_shared(&store, n, &adds) == TSC_OK && adds == 1;
    tsc_free(&store);
    tsc_free(&other);
    return is_right;
}

static bool striped_caches(void) { return striped_ones(true); }

static bool striped_caches_with_their_seats(void) { return striped_ones(false); }

static void leaves(bool (*run)(void), const char *what)
{
    bool is_right = true;
    for (int i = 0; i < TIMES / 10; i++)
        is_right = run() && is_right;
    size_t before = in_use();
    for (int i = 0; i < TIMES; i++)
        is_right = run() && is_right;
    size_t after = in_use();
    check(is_right, what);
    check(after <= before + MOST, what);
    if (after > before + MOST)
        printf("%d %s leave %zu bytes\n", TIMES, what, after - before);
}

/* A store that goes on opens and closes for ever, beside a cache that stays open, and an old handle
 * names nothing. */

enum { PAIRS = 1000000, SHARED = 10000, SEATS = 64 };

static bool pair(tsc_store *store)
{
    uint64_t n, other;
    bool is_right = tsc_open(store, 132, 132, 2, 10, &LOW, &n) == TSC_OK &&
                    tsc_open(store, 132, 132, 2, 10, &LOW, &other) == TSC_OK && other == n + 1 &&
                    tsc_close(store, n) == TSC_OK;
    return is_right && tsc_close(store, other) == TSC_OK && tsc_close(store, n) == TSC_CLOSED;
}

static bool with_seats(tsc_store *store)
{
    uint64_t n, adds;
    bool is_right = tsc_open_shared(store, 132, 132, 2, 10, &LOW, SEATS, 9, &n) == TSC_OK;
    for (uint64_t seat = 1; seat <= SEATS; seat++)
        is_right = is_right && tsc_seat_close(store, n + seat) == TSC_OK;
    return is_right && tsc_close_shared(store, n, &adds) == TSC_OK &&
           tsc_seat_close(store, n + SEATS) == TSC_CLOSED;
}

static bool moved_on(tsc_store *store)
{
    tsc_store other = {NULL};
    uint64_t n, moved;
    bool is_right = tsc_open(store, 132, 132, 2, 10, &LOW, &n) == TSC_OK &&
                    tsc_move(store, n, &other, &moved) == TSC_OK &&
                    tsc_close(store, n) == TSC_CLOSED;
    tsc_free(&other);
    return is_right;
}

static void goes_on(bool (*run)(tsc_store *store), int times, uint64_t given, const char *what)
{
    tsc_store store = {NULL};
    uint64_t stays, next;
    bool is_right = tsc_open(&store, 132, 132, 2, 10, &LOW, &stays) == TSC_OK;
    for (int i = 0; i < 10; i++)
        is_right = run(&store) && is_right;
    size_t before = in_use();
    for (int i = 0; i < times; i++)
        is_right = run(&store) && is_right;
    size_t after = in_use();
    check(is_right, what);
    check(after == before, what);
    if (after != before)
        printf("%d of %s: from %zu bytes to %zu\n", times, what, before, after);
    check(add(&store, stays) == TSC_OK && stays == 0, what);
    check(tsc_open(&store, 132, 132, 2, 10, &LOW, &next) == TSC_OK &&
              next == given * (uint64_t)(times + 10) + 1,
          what);
    tsc_free(&store);
}

int main(void)
{
    goes_on(pair, PAIRS, 2, "pairs in one store");
    goes_on(with_seats, SHARED, 1 + SEATS, "shared caches in one store");
    goes_on(moved_on, PAIRS / 10, 1, "moves out of one store");
    leaves(caches, "caches");
    leaves(refused_ones, "refused ones");
    leaves(shared_caches, "shared caches");
    leaves(shared_caches_with_their_seats, "shared caches with their seats");
    leaves(striped_caches, "caches in stripes");
    leaves(striped_caches_with_their_seats, "caches in stripes with their seats");
    printf("%d passed, %d failed\n", passed, failed);
    return failed != 0;
}
