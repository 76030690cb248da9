/* Tests for how much memory the calls of libtscache ask, through its header: how many requests each makes, and for how many bytes at
 * most in all, which is what was measured and some hundredths more. Linked with -Wl,--wrap=malloc,--wrap=realloc. It says at the end
 * `N passed, M failed`. */
#include "tscache.h"
#include <inttypes.h>
#include <stdio.h>
#include <stdlib.h>
#include <string.h>

static int passed, failed;

/* What was asked for since the last call was looked at. */
static uint64_t requests, bytes;
void *__real_malloc(size_t size);
void *__real_realloc(void *block, size_t size);

void *__wrap_malloc(size_t size)
{
    requests++;
    bytes += size;
    return __real_malloc(size);
}

void *__wrap_realloc(void *block, size_t size)
{
    requests++;
    bytes += size;
    return __real_realloc(block, size);
}

/* A call has made so many requests, for so many bytes at most, and was answered TSC_OK. */
static void asks(const char *call, uint32_t answer, uint64_t wanted, uint64_t most)
{
    if (answer == TSC_OK && requests == wanted && bytes <= most) {
        passed++;
    } else {
        failed++;
        printf("%s: answer %" PRIu32 ", %" PRIu64 " requests for memory and not %" PRIu64 ", %" PRIu64 " bytes and not %" PRIu64 " at most\n", call,
               answer, requests, wanted, bytes, most);
    }
    requests = bytes = 0;
}

static const tsc_time LOW = {5, 0}, NOW = {20, 0};
static const tsc_value READ = {20, 1, {0x11}}, LATER = {21, 0, {0x11}};

static void of_a_cache(void)
{
    tsc_store store = {NULL}, other = {NULL};
    uint64_t n = 77, second = 77, moved = 77;
    tsc_added added;
    tsc_value value;
    tsc_mark marks[2] = {{0, 1, 0, 0, {30, 0, {0}}, TSC_POINT}, {1, 1, 0, 0, {31, 0, {0}}, TSC_POINT}};
    asks("tsc_open", tsc_checked_open(&store, 1024, 1024, 2, 10, &LOW, &n), 5, 1030);
    asks("tsc_open of a second one", tsc_checked_open(&store, 1024, 1024, 2, 10, &LOW, &second), 2, 260);
    asks("tsc_add of a first key", tsc_checked_add(&store, n, "x", 1, NULL, 0, TSC_POINT, &READ, &NOW, &added), 7, 305);
    asks("tsc_add of a second key", tsc_checked_add(&store, n, "y", 1, NULL, 0, TSC_POINT, &READ, &NOW, &added), 4, 430);
    asks("tsc_add of a known key", tsc_checked_add(&store, n, "x", 1, NULL, 0, TSC_POINT, &LATER, &NOW, &added), 0, 0);
    asks("tsc_get_max", tsc_checked_get_max(&store, n, "x", 1, NULL, 0, TSC_POINT, &value), 0, 0);
    asks("tsc_add_all of known keys", tsc_checked_add_all(&store, n, "xy", 2, marks, 2, &NOW, &added), 7, 1010);
    uint8_t told[300];
    size_t len = 0;
    tsc_span spans[2] = {{0, 1, 1, 1, 0}, {1, 1, 0, 0, TSC_POINT}};
    tsc_time first;
    bool may = false;
    asks("tsc_earliest_write", tsc_checked_earliest_write(&store, n, "xy", 2, spans, 2, &LATER, &first), 0, 0);
    asks("tsc_may_write", tsc_checked_may_write(&store, n, "xy", 2, spans, 2, &LATER, &may), 0, 0);
    asks("tsc_summary of two keys", tsc_checked_summary(&store, n, "x", 1, "y", 1, 0, SIZE_MAX, told, sizeof told, &len), 18, 1060);
    asks("tsc_apply of what is known", tsc_checked_apply(&store, n, told, len, &NOW, &added), 16, 1400);
    asks("tsc_apply to an empty cache", tsc_checked_apply(&store, second, told, len, &NOW, &added), 24, 1730);
    asks("tsc_move to an empty store", tsc_checked_move(&store, n, &other, &moved), 3, 770);
    asks("tsc_move of a second one", tsc_checked_move(&store, second, &other, &moved), 0, 0);
    tsc_figures figures;
    asks("tsc_low_water", tsc_checked_low_water(&other, moved, &first), 0, 0);
    asks("tsc_figures_of", tsc_checked_figures_of(&other, moved, &figures), 0, 0);
    asks("tsc_close", tsc_checked_close(&other, moved), 0, 0);
    asks("tsc_close of the other", tsc_checked_close(&other, moved - 1), 0, 0);
    asks("tsc_open where two were closed", tsc_checked_open(&other, 1024, 1024, 2, 10, &LOW, &n), 2, 260);
    tsc_checked_free(&store);
    tsc_checked_free(&other);
}

static void of_seats(void)
{
    tsc_store store = {NULL}, other = {NULL};
    uint64_t n = 77, moved = 77, at = 77, seen = 77;
    tsc_added added;
    tsc_value value;
    asks("tsc_open_shared", tsc_checked_open_shared(&store, 1024, 1024, 2, 10, &LOW, 2, 9, &n), 25, 5480);
    asks("tsc_seat_add of a first key", tsc_checked_seat_add(&store, n + 1, "x", 1, NULL, 0, TSC_POINT, &READ, &NOW, 1, &at, &added), 9, 316);
    asks("tsc_seat_add of a second key", tsc_checked_seat_add(&store, n + 1, "y", 1, NULL, 0, TSC_POINT, &READ, &NOW, 1, &at, &added), 13, 745);
    asks("tsc_seat_add of a known key", tsc_checked_seat_add(&store, n + 1, "y", 1, NULL, 0, TSC_POINT, &LATER, &NOW, 1, &at, &added), 6, 430);
    asks("tsc_seat_get_max", tsc_checked_seat_get_max(&store, n + 2, "x", 1, NULL, 0, TSC_POINT, &seen, &value), 0, 0);
    uint8_t told[300];
    size_t len = 0;
    tsc_figures figures;
    tsc_time first;
    tsc_span span = {0, 1, 0, 0, TSC_POINT};
    bool may = false;
    asks("tsc_seat_figures_of", tsc_checked_seat_figures_of(&store, n + 2, &seen, &figures), 0, 0);
    asks("tsc_seat_low_water", tsc_checked_seat_low_water(&store, n + 2, &seen, &first), 0, 0);
    asks("tsc_seat_earliest_write", tsc_checked_seat_earliest_write(&store, n + 2, "x", 1, &span, 1, &LATER, &seen, &first), 0, 0);
    asks("tsc_seat_may_write", tsc_checked_seat_may_write(&store, n + 2, "x", 1, &span, 1, &LATER, &seen, &may), 0, 0);
    asks("tsc_seat_summary of two keys", tsc_checked_seat_summary(&store, n + 2, "x", 1, "y", 1, 0, SIZE_MAX, &seen, told, sizeof told, &len), 18, 1060);
    asks("tsc_seat_close", tsc_checked_seat_close(&store, n + 2), 0, 0);
    asks("tsc_move of a seat", tsc_checked_move(&store, n + 1, &other, &moved), 3, 770);
    tsc_checked_free(&store);
    tsc_checked_free(&other);
}

static void of_stripes(void)
{
    static const size_t ONES[] = {1, 1};
    tsc_store store = {NULL};
    uint64_t n = 77, at = 77, seen = 77;
    tsc_added added;
    tsc_value value;
    asks("tsc_open_striped", tsc_checked_open_striped(&store, 1024, 8256, 2, 10, &LOW, "gp", 2, ONES, 2, 2, &n), 30, 4620);
    asks("tsc_seat_add of a first key in stripes", tsc_checked_seat_add(&store, n + 1, "x", 1, NULL, 0, TSC_POINT, &READ, &NOW, 64, &at, &added), 8, 312);
    asks("tsc_seat_add of a known key in stripes", tsc_checked_seat_add(&store, n + 1, "x", 1, NULL, 0, TSC_POINT, &LATER, &NOW, 64, &at, &added), 1, 1);
    asks("tsc_seat_add over stripes", tsc_checked_seat_add(&store, n + 1, "a", 1, "x", 1, 0, &LATER, &NOW, 64, &at, &added), 48, 4640);
    asks("tsc_seat_get_max in stripes", tsc_checked_seat_get_max(&store, n + 2, "x", 1, NULL, 0, TSC_POINT, &seen, &value), 0, 0);
    asks("tsc_seat_get_max over stripes", tsc_checked_seat_get_max(&store, n + 2, "a", 1, NULL, 0, TSC_ONWARD, &seen, &value), 0, 0);
    uint8_t told[900];
    size_t len = 0;
    tsc_figures figures;
    tsc_time first;
    tsc_span span = {0, 1, 0, 0, TSC_POINT};
    bool may = false;
    asks("tsc_seat_figures_of in stripes", tsc_checked_seat_figures_of(&store, n + 2, &seen, &figures), 1, 392);
    asks("tsc_seat_low_water in stripes", tsc_checked_seat_low_water(&store, n + 2, &seen, &first), 0, 0);
    asks("tsc_seat_earliest_write in stripes", tsc_checked_seat_earliest_write(&store, n + 2, "x", 1, &span, 1, &LATER, &seen, &first), 0, 0);
    asks("tsc_seat_may_write in stripes", tsc_checked_seat_may_write(&store, n + 2, "x", 1, &span, 1, &LATER, &seen, &may), 0, 0);
    asks("tsc_seat_summary over stripes", tsc_checked_seat_summary(&store, n + 2, "a", 1, "x", 1, 0, SIZE_MAX, &seen, told, sizeof told, &len), 54, 5270);
    asks("tsc_seat_close in stripes", tsc_checked_seat_close(&store, n + 2), 0, 0);
    asks("tsc_seat_close of the other", tsc_checked_seat_close(&store, n + 1), 0, 0);
    asks("tsc_close_shared of stripes", tsc_checked_close_shared(&store, n, &at), 0, 0);
    tsc_checked_free(&store);
}

static void of_texts(void)
{
    const char *trace = "{\"page_first\":132,\"page_max\":132,\"min_pages\":2,\"retention\":10,\"low_water\":[5,0],\"threads\":[["
                        "{\"op\":\"add\",\"span\":{\"start\":\"61\"},\"time\":[20,0],\"now\":[20,0]},{\"op\":\"get\",\"span\":{\"start\":\"61\"}}]]}";
    const char *log = "0 0 add 0 1 0 0\n0 1 get 1 20.0 none\n";
    char out[200];
    size_t len = 0;
    asks("tsc_replay", tsc_checked_replay(trace, strlen(trace), out, sizeof out, &len), 17, 1630);
    asks("tsc_check", tsc_checked_check(trace, strlen(trace), log, strlen(log), out, sizeof out, &len), 20, 1720);
}

int main(void)
{
    of_a_cache();
    of_seats();
    of_stripes();
    of_texts();
    printf("%d passed, %d failed\n", passed, failed);
    return failed != 0;
}
