/* Measures how much memory caches take, by glibc's `mallinfo2`, for the table of settings in
 * docs/EMBEDDING.md: an empty one, and one whose pages are full of keys, for each byte that the pages
 * may have. Keys come as if by chance, or rising, which cuts pages into more pieces.
 *
 *     cc footprint.c -IOUT -LOUT -ltscache -o footprint && ./footprint */
#include "tscache.h"

#include <inttypes.h>
#include <malloc.h>
#include <stdio.h>
#include <stdlib.h>
#include <string.h>

enum { PAGE = 1 << 22, TIMES = 100, LONGEST = 1000 };

static const tsc_time LOW = {5, 0}, NOW = {20, 0};

static size_t in_use(void)
{
    struct mallinfo2 info = mallinfo2();
    return info.uordblks + info.hblkhd;
}

static void must(uint32_t answer)
{
    if (answer != TSC_OK) {
        fprintf(stderr, "%s\n", tsc_text(answer));
        exit(1);
    }
}

/* No seats are a cache of one thread. */
static void open_cache(tsc_store *store, uint32_t page, uint32_t min_pages, uint32_t seats)
{
    uint64_t n;
    if (seats)
        must(tsc_open_shared(store, page, page, min_pages, 10, &LOW, seats, UINT64_MAX, &n));
    else
        must(tsc_open(store, page, page, min_pages, 10, &LOW, &n));
}

static void empty(uint32_t seats)
{
    static tsc_store stores[TIMES];
    size_t before = in_use();
    for (int i = 0; i < TIMES; i++)
        open_cache(&stores[i], 1 << 17, 2, seats);
    printf("an empty cache, %" PRIu32 " seats: %zu bytes\n", seats, (in_use() - before) / TIMES);
    for (int i = 0; i < TIMES; i++)
        tsc_free(&stores[i]);
}

static void key_of(uint8_t *key, size_t len, uint64_t number, bool rises)
{
    static const uint64_t ODD = UINT64_C(0x9E3779B97F4A7C15);
    uint64_t shown = rises ? number : number * ODD;
    memset(key, 'k', len);
    for (size_t i = 0; i < 8; i++)
        key[len - 1 - i] = (uint8_t)(shown >> (8 * i));
}

/* Fills so many pages, and tells what a byte of them takes. */
static void full(size_t len, uint32_t seats, uint64_t pages, bool rises)
{
    tsc_store store = {NULL};
    tsc_value read = {20, 0, {1}};
    tsc_added added = {0, false, false};
    uint8_t key[LONGEST];
    uint64_t at;
    size_t before = in_use();
    open_cache(&store, PAGE, 64, seats);
    for (uint64_t i = 0; i < PAGE / (len + 32) * pages; i++) {
        key_of(key, len, i, rises);
        if (seats)
            must(tsc_seat_add(&store, 1, key, len, key, 0, TSC_POINT, &read, &NOW, 64, &at, &added));
        else
            must(tsc_add(&store, 0, key, len, key, 0, TSC_POINT, &read, &NOW, &added));
    }
    printf("keys of %zu bytes%s, %s, %" PRIu64 " pages: %.1f bytes for each\n", len,
           rises ? ", rising" : "", seats ? "shared" : "alone", pages,
           (double)(in_use() - before) / (double)(PAGE * pages));
    tsc_free(&store);
}

int main(void)
{
    static const uint32_t SEATS[] = {0, 1, 8, 64};
    static const size_t LENGTHS[] = {12, 24, 100, 1000};
    for (size_t i = 0; i < sizeof SEATS / sizeof *SEATS; i++)
        empty(SEATS[i]);
    for (size_t i = 0; i < sizeof LENGTHS / sizeof *LENGTHS; i++)
        for (int run = 0; run < 8; run++)
            full(LENGTHS[i], run & 1 ? 8 : 0, run & 2 ? 4 : 1, run & 4);
    return 0;
}
