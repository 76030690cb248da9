/* Tests of libtscache through its header alone. The script `scripts/test library` builds and runs it. Linked with
 * -Wl,--wrap=malloc,--wrap=realloc, so that each request for memory can be refused in turn.
 *
 * With a word after its name it measures, and tests nothing. */
#include "tscache.h"
#include <inttypes.h>
#include <stdio.h>
#include <stdlib.h>
#include <string.h>
#include <time.h>

static int passed, failed;

static void check(bool holds, const char *file, int line, const char *what)
{
    if (holds) {
        passed++;
    } else {
        failed++;
        printf("%s:%d: %s\n", file, line, what);
    }
}
#define CHECK(x) check((x), __FILE__, __LINE__, #x)

/* Memory: the request that is refused, counted from 1, and how many were made. */

static uint64_t requests, refused_request;
static bool none_left; /* each request is refused */
void *__real_malloc(size_t size);
void *__real_realloc(void *block, size_t size);

void *__wrap_malloc(size_t size)
{
    return ++requests == refused_request || none_left ? NULL : __real_malloc(size);
}

void *__wrap_realloc(void *block, size_t size)
{
    return ++requests == refused_request || none_left ? NULL : __real_realloc(block, size);
}

/* Transactions, by a letter: 'A' and 'B', and '-' for none. */

static void put_owner(char name, uint8_t owner[16])
{
    memset(owner, name == '-' ? 0 : name, 16);
}

static char owner_name(const uint8_t owner[16])
{
    for (int i = 1; i < 16; i++)
        if (owner[i] != owner[0])
            return '?';
    return owner[0] ? (char)owner[0] : '-';
}

/* Spans, as text: a key alone, [a,c) and its like, or [m.. and (m.. */

struct span {
    const char *from, *to;
    size_t from_len, to_len;
    uint32_t ends;
};

static struct span span_of(const char *text)
{
    struct span s = {text, text, strlen(text), 0, TSC_POINT};
    const char *comma = strchr(text, ','), *dots = strstr(text, "..");
    if (text[0] != '[' && text[0] != '(')
        return s;
    s.from = text + 1;
    s.ends = text[0] == '(' ? TSC_EXCLUDE_FROM : 0;
    if (dots) {
        s.from_len = (size_t)(dots - s.from);
        s.ends |= TSC_ONWARD;
        return s;
    }
    s.from_len = (size_t)(comma - s.from);
    s.to = comma + 1;
    s.to_len = strlen(s.to) - 1;
    s.ends |= s.to[s.to_len] == ')' ? TSC_EXCLUDE_TO : 0;
    return s;
}

/* One cache with its store, and calls on it by text. */

struct cache {
    tsc_store store;
    uint64_t handle;
};

static struct cache open_cache(uint32_t page_first, uint32_t page_max, uint32_t min_pages)
{
    struct cache c = {{NULL}, 77};
    tsc_time low = {5, 0};
    CHECK(tsc_open(&c.store, page_first, page_max, min_pages, 10, &low, &c.handle) == TSC_OK);
    return c;
}

static uint32_t add_at(struct cache *c, const char *text, uint64_t wall, uint32_t logical, char owner, tsc_time now, tsc_added *added)
{
    struct span s = span_of(text);
    tsc_value v = {wall, logical, {0}};
    put_owner(owner, v.owner);
    return tsc_checked_add(&c->store, c->handle, s.from, s.from_len, s.to, s.to_len, s.ends, &v, &now, added);
}

static bool adds_at(struct cache *c, const char *text, uint64_t wall, char owner, tsc_time now, bool kept, bool rotated, uint64_t evicted)
{
    tsc_added a = {99, false, false};
    return add_at(c, text, wall, 0, owner, now, &a) == TSC_OK && a.kept == kept && a.rotated == rotated && a.evicted == evicted;
}

static bool adds(struct cache *c, const char *text, uint64_t wall, char owner)
{
    return adds_at(c, text, wall, owner, (tsc_time){20, 0}, true, false, 0);
}

/* How many calls found that memory was refused. */
static uint64_t again;

static uint32_t tried(uint32_t answer)
{
    again += answer == TSC_NO_MEMORY;
    return answer;
}

/* Adds of one key each, a letter for each. */
static bool adds_keys(struct cache *c, const char *keys, uint64_t wall, tsc_time now)
{
    bool all = true;
    for (; *keys; keys++) {
        char key[2] = {*keys, 0};
        tsc_added a;
        all = all && add_at(c, key, wall, 0, 'A', now, &a) == TSC_OK && a.kept;
    }
    return all;
}

static bool answers(struct cache *c, const char *text, uint64_t wall, uint32_t logical, char owner)
{
    struct span s = span_of(text);
    tsc_value v = {1, 1, {1}};
    uint32_t answer = tsc_checked_get_max(&c->store, c->handle, s.from, s.from_len, s.to, s.to_len, s.ends, &v);
    return answer == TSC_OK && v.wall == wall && v.logical == logical && owner_name(v.owner) == owner;
}

static bool has(struct cache *c, uint64_t pages, uint64_t rotations, uint64_t wall, uint32_t logical)
{
    tsc_figures f;
    tsc_time floor;
    return tsc_figures_of(&c->store, c->handle, &f) == TSC_OK && f.pages == pages && f.rotations == rotations
        && tsc_low_water(&c->store, c->handle, &floor) == TSC_OK && floor.wall == wall && floor.logical == logical;
}

/* What was asked of the cache, and how many pages its Adds dropped. */
static bool asked(struct cache *c, uint64_t adds, uint64_t refusals, uint64_t lookups,
                  uint64_t evicted)
{
    tsc_figures f = {99, 99, 99, 99, 99, 99, 99, 99, 99};
    return tsc_figures_of(&c->store, c->handle, &f) == TSC_OK && f.adds == adds &&
           f.refusals == refusals && f.lookups == lookups && f.evicted == evicted;
}

/* How many keys the pages hold, each counted once for each page, and what they cost. */
static bool counts(struct cache *c, uint64_t nodes, uint64_t bytes)
{
    tsc_figures f = {99, 99, 99, 99, 99, 99, 99, 99, 99};
    return tsc_figures_of(&c->store, c->handle, &f) == TSC_OK && f.nodes == nodes && f.bytes == bytes;
}

static const tsc_time AT_20 = {20, 0}, AT_40 = {40, 0}, AT_80 = {80, 0};

/* What a lookup answers after a few reads. */
static void rows_of_spans(void)
{
    struct cache c = open_cache(132, 132, 2);
    CHECK(answers(&c, "a", 5, 0, '-') && has(&c, 1, 0, 5, 0)); /* nothing was read */
    CHECK(adds(&c, "[a,c)", 20, 'A'));
    CHECK(answers(&c, "a", 20, 0, 'A') && answers(&c, "b", 20, 0, 'A') && answers(&c, "c", 5, 0, '-'));
    tsc_free(&c.store);

    c = open_cache(132, 132, 2); /* two transactions at one time: nobody owns it */
    CHECK(adds(&c, "a", 20, 'A') && adds(&c, "a", 20, 'B') && answers(&c, "a", 20, 0, '-'));
    tsc_free(&c.store);
    c = open_cache(132, 132, 2); /* one that reads again keeps its own */
    CHECK(adds(&c, "a", 20, 'A') && adds(&c, "a", 20, 'A') && answers(&c, "a", 20, 0, 'A'));
    tsc_free(&c.store);
    c = open_cache(132, 132, 2);
    CHECK(adds(&c, "[a,c)", 20, 'A') && adds(&c, "[b,d)", 20, 'B'));
    CHECK(answers(&c, "a", 20, 0, 'A') && answers(&c, "b", 20, 0, '-') && answers(&c, "c", 20, 0, 'B') && answers(&c, "[a,d)", 20, 0, '-'));
    tsc_free(&c.store);
    c = open_cache(132, 132, 2);
    CHECK(adds(&c, "a", 20, '-') && adds(&c, "a", 20, 'A') && answers(&c, "a", 20, 0, '-'));
    tsc_free(&c.store);

    c = open_cache(132, 132, 2); /* a time on the floor is not kept, and one logical step above it is */
    tsc_added a;
    CHECK(adds_at(&c, "a", 5, 'A', AT_20, false, false, 0));
    CHECK(add_at(&c, "a", 5, 1, 'A', AT_20, &a) == TSC_OK && a.kept && answers(&c, "a", 5, 1, 'A'));
    tsc_free(&c.store);

    c = open_cache(132, 132, 2); /* excluded ends */
    CHECK(adds(&c, "(a,c)", 20, 'A'));
    CHECK(answers(&c, "a", 5, 0, '-') && answers(&c, "b", 20, 0, 'A') && answers(&c, "c", 5, 0, '-'));
    tsc_free(&c.store);
    c = open_cache(132, 132, 2); /* the gap between a and the next key holds no key, and is not empty */
    tsc_value v = {20, 0, {0}};
    put_owner('A', v.owner);
    CHECK(tsc_checked_add(&c.store, c.handle, "a", 1, "a", 2, TSC_EXCLUDE_FROM | TSC_EXCLUDE_TO, &v, &AT_20, &a) == TSC_OK && a.kept);
    CHECK(tsc_checked_get_max(&c.store, c.handle, "a", 1, "a", 2, TSC_EXCLUDE_FROM | TSC_EXCLUDE_TO, &v) == TSC_OK && v.wall == 20);
    CHECK(tsc_checked_get_max(&c.store, c.handle, "a", 1, NULL, 0, TSC_POINT, &v) == TSC_OK && v.wall == 5);
    CHECK(tsc_checked_get_max(&c.store, c.handle, "a", 2, NULL, 0, TSC_POINT, &v) == TSC_OK && v.wall == 5);
    CHECK(tsc_checked_get_max(&c.store, c.handle, "a", 1, "a", 2, 0, &v) == TSC_OK && v.wall == 20 && owner_name(v.owner) == 'A');
    tsc_free(&c.store);

    c = open_cache(132, 132, 2); /* equal ends: the key, unless both are excluded */
    CHECK(adds(&c, "[a,a)", 20, 'A') && answers(&c, "a", 20, 0, 'A') && answers(&c, "(a,a)", 5, 0, '-'));
    tsc_free(&c.store);
    c = open_cache(132, 132, 2);
    CHECK(adds_at(&c, "(a,a)", 20, 'A', AT_20, false, false, 0) && answers(&c, "a", 5, 0, '-'));
    tsc_free(&c.store);

    c = open_cache(132, 132, 2); /* the empty key is the first one */
    CHECK(adds(&c, "[,a)", 20, 'A') && answers(&c, "[,a)", 20, 0, 'A') && answers(&c, "a", 5, 0, '-') && adds(&c, "", 30, 'B') && answers(&c, "", 30, 0, 'B'));
    tsc_free(&c.store);

    c = open_cache(132, 132, 2); /* without an end */
    CHECK(adds(&c, "[m..", 20, 'A') && answers(&c, "\xff", 20, 0, 'A') && answers(&c, "m", 20, 0, 'A') && answers(&c, "l", 5, 0, '-') && answers(&c, "[z..", 20, 0, 'A'));
    CHECK(adds(&c, "(k..", 20, 'A') && answers(&c, "k", 5, 0, '-') && answers(&c, "l", 20, 0, 'A') && answers(&c, "(k..", 20, 0, 'A'));
    tsc_free(&c.store);

    c = open_cache(132, 132, 2); /* an inverted lookup is the empty span */
    CHECK(adds(&c, "[a,c]", 20, 'A') && answers(&c, "[c,a)", 5, 0, '-'));
    CHECK(add_at(&c, "a", UINT64_C(9223372036854775807), UINT32_C(2147483647), 'A', AT_20, &a) == TSC_OK && a.kept);
    CHECK(answers(&c, "a", UINT64_C(9223372036854775807), UINT32_C(2147483647), 'A'));
    tsc_free(&c.store);
}

/* Pages that fill, rotate and are dropped. Four keys of one byte fill 132 bytes. */
static void rows_of_pages(void)
{
    struct cache c = open_cache(132, 132, 2); /* the fifth key brings a new page */
    CHECK(adds_keys(&c, "abcd", 20, AT_20) && has(&c, 1, 0, 5, 0) && adds_at(&c, "e", 20, 'A', AT_20, true, true, 0));
    CHECK(has(&c, 2, 1, 5, 0) && answers(&c, "a", 20, 0, 'A'));
    CHECK(adds_keys(&c, "fgh", 41, AT_40) && adds_at(&c, "i", 41, 'A', AT_40, true, true, 1)); /* the first is past its retention */
    CHECK(has(&c, 2, 2, 20, 0) && answers(&c, "a", 20, 0, '-') && answers(&c, "e", 20, 0, 'A') == false && answers(&c, "f", 41, 0, 'A'));
    CHECK(answers(&c, "e", 20, 0, '-'));
    tsc_free(&c.store);

    c = open_cache(132, 132, 2); /* a top on the limit stays, and goes one logical step later */
    CHECK(adds_keys(&c, "abcde", 30, AT_20) && adds_keys(&c, "fgh", 41, AT_40) && adds_at(&c, "i", 41, 'A', AT_40, true, true, 0));
    CHECK(has(&c, 3, 2, 5, 0) && answers(&c, "a", 30, 0, 'A'));
    tsc_free(&c.store);
    c = open_cache(132, 132, 2);
    CHECK(adds_keys(&c, "abcde", 30, AT_20) && adds_keys(&c, "fgh", 41, AT_40) && adds_at(&c, "i", 41, 'A', (tsc_time){40, 1}, true, true, 1));
    CHECK(has(&c, 2, 2, 30, 0) && answers(&c, "a", 30, 0, '-'));
    tsc_free(&c.store);

    c = open_cache(132, 132, 2); /* a moment below the retention drops nothing */
    CHECK(adds_keys(&c, "abcdefgh", 20, AT_20) && adds_at(&c, "i", 20, 'A', (tsc_time){9, 0}, true, true, 0) && has(&c, 3, 2, 5, 0));
    tsc_free(&c.store);

    c = open_cache(132, 132, 2); /* a page begins with the top of the one before it */
    CHECK(adds_keys(&c, "abcd", 50, AT_20) && adds_keys(&c, "e", 20, AT_20) && has(&c, 2, 1, 5, 0) && adds_keys(&c, "fgh", 20, AT_20) && has(&c, 2, 1, 5, 0));
    CHECK(adds_at(&c, "i", 60, 'A', AT_80, true, true, 1) && has(&c, 2, 2, 50, 0));
    CHECK(adds_keys(&c, "jkl", 60, AT_80) && adds_at(&c, "m", 60, 'A', AT_40, true, true, 0) && has(&c, 3, 3, 50, 0) && answers(&c, "e", 50, 0, '-'));
    tsc_free(&c.store);

    c = open_cache(132, 132, 2); /* what is late stands on an older page too */
    CHECK(adds_keys(&c, "abcd", 50, AT_20) && adds_keys(&c, "efgh", 20, AT_20) && adds_at(&c, "i", 30, 'A', AT_20, true, true, 0) && has(&c, 3, 2, 5, 0));
    CHECK(answers(&c, "[a,z)", 50, 0, 'A') && answers(&c, "[e,z)", 30, 0, 'A'));
    tsc_free(&c.store);

    c = open_cache(66, 66, 1); /* the only page goes, and the floor rises to its top */
    CHECK(adds_keys(&c, "ab", 20, AT_20) && adds_at(&c, "c", 40, 'A', AT_40, true, true, 1) && has(&c, 1, 1, 20, 0));
    CHECK(answers(&c, "a", 20, 0, '-') && answers(&c, "c", 40, 0, 'A'));
    tsc_free(&c.store);
    c = open_cache(66, 66, 1); /* what stands below the new floor is answered by it */
    CHECK(adds_keys(&c, "ab", 20, AT_20) && adds_at(&c, "c", 15, 'A', AT_40, true, true, 1) && has(&c, 1, 1, 20, 0) && answers(&c, "c", 20, 0, '-'));
    tsc_free(&c.store);

    c = open_cache(66, 264, 2); /* pages grow, each twice as large as the one before, up to the largest */
    CHECK(adds_keys(&c, "abcdefghijklmno", 20, AT_20) && has(&c, 4, 3, 5, 0) && counts(&c, 15, 495));
    tsc_free(&c.store);
}

/* How many keys all pages hold, and what they cost. Four keys of one byte fill 132 bytes. */
static void rows_of_figures(void)
{
    struct cache c = open_cache(132, 132, 2);
    CHECK(counts(&c, 0, 0));
    CHECK(adds(&c, "[b,d)", 20, 'A') && counts(&c, 2, 66) && adds(&c, "b", 21, 'A') && counts(&c, 2, 66)); /* a key of a page counts once */
    CHECK(adds(&c, "(d..", 20, 'A') && counts(&c, 2, 66));
    CHECK(adds_at(&c, "z", 5, 'A', AT_20, false, false, 0) && counts(&c, 2, 66)); /* what isn't kept */
    CHECK(adds(&c, "ccc", 20, 'A') && counts(&c, 3, 101));
    CHECK(adds_at(&c, "[a,d)", 20, 'A', AT_20, true, true, 0) && counts(&c, 5, 167) && has(&c, 2, 1, 5, 0)); /* the key of two pages counts twice */
    CHECK(adds_keys(&c, "ef", 41, AT_40) && adds_at(&c, "g", 41, 'A', AT_40, true, true, 1) && counts(&c, 5, 165) && has(&c, 2, 2, 21, 0)); /* a page is dropped */
    tsc_free(&c.store);
}

/* Several marks at once. */
static void batches(void)
{
    struct cache c = open_cache(132, 132, 2);
    const char keys[] = "abc";
    tsc_mark marks[3] = {{0, 1, 0, 0, {20, 0, {0}}, TSC_POINT}, {1, 1, 0, 0, {20, 0, {0}}, TSC_POINT}, {0, 1, 2, 1, {20, 0, {0}}, TSC_EXCLUDE_TO}};
    put_owner('A', marks[0].value.owner);
    put_owner('B', marks[1].value.owner);
    put_owner('B', marks[2].value.owner);
    tsc_added a;
    CHECK(tsc_checked_add_all(&c.store, c.handle, keys, 3, marks, 3, &AT_20, &a) == TSC_OK && a.kept && !a.rotated && a.evicted == 0);
    CHECK(answers(&c, "a", 20, 0, '-') && answers(&c, "b", 20, 0, 'B') && answers(&c, "c", 5, 0, '-'));
    CHECK(tsc_checked_add_all(&c.store, c.handle, NULL, 0, NULL, 0, &AT_20, &a) == TSC_OK && !a.kept && !a.rotated && a.evicted == 0);

    /* all or none: the second mark is refused, so the first is not there */
    marks[0] = (tsc_mark){2, 1, 0, 0, {30, 0, {0}}, TSC_POINT};
    tsc_added before = {7, true, true};
    a = before;
    marks[1].from_at = 4;
    CHECK(tsc_checked_add_all(&c.store, c.handle, keys, 3, marks, 2, &AT_20, &a) == TSC_OUTSIDE);
    marks[1].from_at = SIZE_MAX;
    CHECK(tsc_checked_add_all(&c.store, c.handle, keys, 3, marks, 2, &AT_20, &a) == TSC_OUTSIDE);
    marks[1] = (tsc_mark){1, SIZE_MAX, 0, 0, {30, 0, {0}}, TSC_POINT};
    CHECK(tsc_checked_add_all(&c.store, c.handle, keys, 3, marks, 2, &AT_20, &a) == TSC_OUTSIDE);
    marks[1] = (tsc_mark){1, 1, 3, 1, {30, 0, {0}}, TSC_POINT};
    CHECK(tsc_checked_add_all(&c.store, c.handle, keys, 3, marks, 2, &AT_20, &a) == TSC_OUTSIDE);
    marks[1] = (tsc_mark){1, 1, 0, 1, {30, 0, {0}}, 0};
    CHECK(tsc_checked_add_all(&c.store, c.handle, keys, 3, marks, 2, &AT_20, &a) == TSC_INVERTED);
    marks[1].ends = 6;
    CHECK(tsc_checked_add_all(&c.store, c.handle, keys, 3, marks, 2, &AT_20, &a) == TSC_ENDS);
    marks[1] = (tsc_mark){1, 1, 0, 0, {30, UINT32_C(1) << 31, {0}}, TSC_POINT};
    CHECK(tsc_checked_add_all(&c.store, c.handle, keys, 3, marks, 2, &AT_20, &a) == TSC_TIME);
    marks[1].value.logical = 0;
    CHECK(tsc_checked_add_all(&c.store, c.handle, keys, 3, marks, 2, &(tsc_time){UINT64_MAX, 0}, &a) == TSC_TIME);
    static uint8_t long_key[5000];
    marks[1].from_at = 3;
    marks[1].from_len = 4097;
    CHECK(tsc_checked_add_all(&c.store, c.handle, long_key, 5000, marks, 2, &AT_20, &a) == TSC_KEY_TOO_LONG);
    marks[1].from_len = 101;
    CHECK(tsc_checked_add_all(&c.store, c.handle, long_key, 5000, marks, 2, &AT_20, &a) == TSC_TOO_LARGE);
    CHECK(tsc_checked_add_all(&c.store, c.handle, NULL, 1, marks, 2, &AT_20, &a) == TSC_NULL);
    CHECK(tsc_checked_add_all(&c.store, c.handle, keys, 3, NULL, 2, &AT_20, &a) == TSC_NULL);
    CHECK(tsc_checked_add_all(&c.store, c.handle + 1, keys, 3, marks, 2, &AT_20, &a) == TSC_CLOSED);
    CHECK(memcmp(&a, &before, sizeof a.evicted) == 0 && a.kept && a.rotated);
    CHECK(answers(&c, "c", 5, 0, '-') && has(&c, 1, 0, 5, 0));

    /* a batch rotates the pages where it needs to */
    struct cache d = open_cache(66, 66, 1);
    tsc_mark three[3] = {{0, 1, 0, 0, {20, 0, {0}}, TSC_POINT}, {1, 1, 0, 0, {20, 0, {0}}, TSC_POINT}, {2, 1, 0, 0, {40, 0, {0}}, TSC_POINT}};
    for (int i = 0; i < 3; i++)
        put_owner('A', three[i].value.owner);
    CHECK(tsc_checked_add_all(&d.store, d.handle, keys, 3, three, 3, &AT_40, &a) == TSC_OK && a.kept && a.rotated && a.evicted == 1);
    CHECK(has(&d, 1, 1, 20, 0) && answers(&d, "a", 20, 0, '-') && answers(&d, "c", 40, 0, 'A'));
    tsc_free(&d.store);
    tsc_free(&c.store);
}

/* There is no limit to the caches of a store, nor to the marks of a batch, and settings may be as large as they say. */
static void limits(void)
{
    enum { CACHES = 70000, MARKS = 5000 };
    struct cache c = open_cache(132, 132, 2);
    tsc_time low = {5, 0};
    uint64_t n = 0, wrong = 0;
    for (uint64_t i = 1; i < CACHES; i++)
        wrong += tsc_open(&c.store, 132, 132, 2, 10, &low, &n) != TSC_OK || n != i;
    CHECK(wrong == 0 && adds(&c, "a", 20, 'A'));
    c.handle = n;
    CHECK(answers(&c, "a", 5, 0, '-') && adds(&c, "a", 30, 'A') && answers(&c, "a", 30, 0, 'A'));
    tsc_free(&c.store);

    c = open_cache(UINT32_C(1) << 30, UINT32_C(1) << 30, 64);
    CHECK(adds(&c, "a", 20, 'A') && answers(&c, "a", 20, 0, 'A') && has(&c, 1, 0, 5, 0));
    static uint8_t keys[2 * MARKS];
    static tsc_mark marks[MARKS];
    for (size_t i = 0; i < MARKS; i++) {
        keys[2 * i] = (uint8_t)(i >> 8);
        keys[2 * i + 1] = (uint8_t)i;
        marks[i] = (tsc_mark){2 * i, 2, 0, 0, {100 + i, 0, {0}}, TSC_POINT};
    }
    tsc_added a;
    tsc_value v;
    uint64_t at = 77, seen = 77;
    CHECK(tsc_checked_add_all(&c.store, c.handle, keys, sizeof keys, marks, MARKS, &AT_20, &a) == TSC_OK && a.kept && !a.rotated);
    CHECK(tsc_checked_get_max(&c.store, c.handle, keys + 2, 2, NULL, 0, TSC_POINT, &v) == TSC_OK && v.wall == 101);
    CHECK(answers(&c, "[,z)", 100 + MARKS - 1, 0, '-'));
    CHECK(tsc_open_shared(&c.store, UINT32_C(1) << 30, UINT32_C(1) << 30, 64, (UINT64_C(1) << 63) - 1, &low, 1, UINT64_MAX, &n) == TSC_OK);
    CHECK(tsc_checked_seat_add_all(&c.store, n + 1, keys, sizeof keys, marks, MARKS, &AT_20, 1, &at, &a) == TSC_OK && at == 0 && a.kept && !a.rotated);
    CHECK(tsc_checked_seat_get_max(&c.store, n + 1, keys + 2, 2, NULL, 0, TSC_POINT, &seen, &v) == TSC_OK && v.wall == 101 && seen == 1);
    static uint8_t longest_key[4096];
    v = (tsc_value){6000, 0, {0}};
    CHECK(tsc_checked_add(&c.store, c.handle, longest_key, 4096, NULL, 0, TSC_POINT, &v, &AT_20, &a) == TSC_OK && a.kept);
    CHECK(tsc_checked_seat_add(&c.store, n + 1, longest_key, 4096, NULL, 0, TSC_POINT, &v, &AT_20, 1, &at, &a) == TSC_OK && at == 1 && a.kept);
    tsc_free(&c.store);
}

/* A page grows as far as its size goes. Some two million keys have it one list higher than 66,593 do. It takes 700 MB, and more under sanitizers, so it is left out there. */
static void large_page(void)
{
#ifndef __SANITIZE_ADDRESS__
    enum { KEYS = 2200000 };
    struct cache c = open_cache(UINT32_C(1) << 30, UINT32_C(1) << 30, 2);
    uint64_t wrong = 0;
    tsc_added a;
    tsc_value v;
    uint8_t key[4];
    for (uint32_t round = 0; round < 2; round++)
        for (uint32_t i = 0; i < KEYS; i++) {
            for (int byte = 0; byte < 4; byte++)
                key[byte] = (uint8_t)(i >> (24 - 8 * byte));
            tsc_value read = {20 + i % 1000, 0, {0}};
            wrong += round == 0 ? tsc_checked_add(&c.store, c.handle, key, 4, NULL, 0, TSC_POINT, &read, &AT_20, &a) != TSC_OK
                                : tsc_checked_get_max(&c.store, c.handle, key, 4, NULL, 0, TSC_POINT, &v) != TSC_OK || v.wall != read.wall;
        }
    CHECK(wrong == 0 && has(&c, 1, 0, 5, 0) && answers(&c, "[,z)", 20 + 999, 0, '-'));
    tsc_free(&c.store);
#endif
}

/* Each refusal, by its own code, and that nothing is changed. */
static void refusals(void)
{
    tsc_store store = {NULL};
    uint64_t n = 77;
    tsc_time low = {5, 0};
    CHECK(tsc_open(&store, 63, 132, 2, 10, &low, &n) == TSC_PAGE_SIZE && tsc_open(&store, 132, 131, 2, 10, &low, &n) == TSC_PAGE_SIZE);
    CHECK(tsc_open(&store, 64, (UINT32_C(1) << 30) + 1, 2, 10, &low, &n) == TSC_PAGE_SIZE);
    CHECK(tsc_open(&store, 132, 132, 0, 10, &low, &n) == TSC_MIN_PAGES && tsc_open(&store, 132, 132, 65, 10, &low, &n) == TSC_MIN_PAGES);
    CHECK(tsc_open(&store, 132, 132, 2, UINT64_C(1) << 63, &low, &n) == TSC_RETENTION);
    CHECK(tsc_open(&store, 132, 132, 2, 10, &(tsc_time){UINT64_C(1) << 63, 0}, &n) == TSC_TIME);
    CHECK(tsc_open(&store, 132, 132, 2, 10, &(tsc_time){0, UINT32_C(1) << 31}, &n) == TSC_TIME);
    CHECK(n == 77 && store.at == NULL);
    tsc_free(&store); /* zeros own nothing */

    struct cache c = open_cache(132, 132, 2);
    CHECK(adds(&c, "a", 20, 'A'));
    static uint8_t long_key[4097];
    tsc_value v = {20, 0, {0}}, out = {1, 2, {3}};
    tsc_added a = {99, true, true};
    CHECK(tsc_checked_add(&c.store, c.handle, long_key, 4097, NULL, 0, TSC_ONWARD, &v, &AT_20, &a) == TSC_KEY_TOO_LONG);
    CHECK(tsc_checked_add(&c.store, c.handle, "a", 1, long_key, 4097, TSC_EXCLUDE_TO, &v, &AT_20, &a) == TSC_KEY_TOO_LONG);
    CHECK(tsc_checked_add(&c.store, c.handle, "c", 1, "a", 1, TSC_EXCLUDE_TO, &v, &AT_20, &a) == TSC_INVERTED);
    CHECK(tsc_checked_add(&c.store, c.handle, long_key, 4096, NULL, 0, TSC_POINT, &v, &AT_20, &a) == TSC_TOO_LARGE);
    for (uint32_t ends = 0; ends < 64; ends++) {
        bool known = ends <= 5 || ends == 8;
        CHECK((tsc_checked_get_max(&c.store, c.handle, "b", 1, "c", 1, ends, &v) == TSC_ENDS) == !known);
        CHECK((tsc_checked_add(&c.store, c.handle, "b", 1, "c", 1, ends, &v, &AT_20, &a) == TSC_ENDS) == !known);
    }
    CHECK(tsc_checked_get_max(&c.store, c.handle, "b", 1, "c", 1, UINT32_MAX, &out) == TSC_ENDS);
    v = (tsc_value){UINT64_MAX, 0, {0}};
    a = (tsc_added){99, true, true};
    CHECK(tsc_checked_add(&c.store, c.handle, "b", 1, NULL, 0, TSC_POINT, &v, &AT_20, &a) == TSC_TIME);
    v = (tsc_value){20, UINT32_MAX, {0}};
    CHECK(tsc_checked_add(&c.store, c.handle, "b", 1, NULL, 0, TSC_POINT, &v, &AT_20, &a) == TSC_TIME);
    v.logical = 0;
    CHECK(tsc_checked_add(&c.store, c.handle, "b", 1, NULL, 0, TSC_POINT, &v, &(tsc_time){UINT64_MAX, 0}, &a) == TSC_TIME);
    CHECK(a.evicted == 99 && a.kept && a.rotated && out.wall == 1 && out.logical == 2 && out.owner[0] == 3);
    CHECK(answers(&c, "a", 20, 0, 'A') && has(&c, 1, 0, 5, 0));
    CHECK(answers(&c, "[,a)", 20, 0, '-') == false && tsc_checked_get_max(&c.store, c.handle, NULL, 0, NULL, 0, TSC_POINT, &v) == TSC_OK);
    CHECK(strcmp(tsc_text(TSC_CLOSED), "the handle names nothing of this kind") == 0 && strcmp(tsc_text(1000), "no such answer") == 0);
    v = (tsc_value){20, 0, {0}};
    CHECK(tsc_checked_add(&c.store, c.handle, "x", 1, long_key, 4097, TSC_POINT, &v, &AT_20, &a) == TSC_OK && a.kept); /* the second key is passed over */
    CHECK(tsc_checked_add(&c.store, c.handle, "y", 1, long_key, 4097, TSC_ONWARD, &v, &AT_20, &a) == TSC_OK && a.kept);
    tsc_free(&c.store);
}

/* The name of each answer. */
static void texts(void)
{
    static const char *const TEXTS[] = {
        "done", "the handle names nothing of this kind", "a time is out of range", "there are no such ends of a span", "a key is too long", "the range is inverted",
        "the span is too large for a page", "a key does not lie among the bytes", "page_first is 64 to page_max, and page_max at most 2^30, in stripes at least 8256", "min_pages is 1 to 64",
        "retention is at most 2^63 - 1 nanoseconds", "out of memory", "seats are 1 or more, and of a shared cache at most 64", "a seat is still out", "others were in the way", "there are as many Adds as there may be",
        "the bytes are refused, and the text says why", "what is told is longer than the buffer", "there is no time at which the write may be made",
        "the summary is of another version", "the summary has another length", "the summary was changed", "the bytes are no summary",
        "with 0 tries no Add is ever made", "stripes are at most 1024", "the bounds of stripes are out of order", "a pointer is null"};
    static const uint32_t ANSWERS[] = {
        TSC_OK, TSC_CLOSED, TSC_TIME, TSC_ENDS, TSC_KEY_TOO_LONG, TSC_INVERTED, TSC_TOO_LARGE, TSC_OUTSIDE, TSC_PAGE_SIZE, TSC_MIN_PAGES, TSC_RETENTION, TSC_NO_MEMORY,
        TSC_SEATS, TSC_STILL_OUT, TSC_BUSY, TSC_FULL, TSC_REFUSED, TSC_SHORT, TSC_NO_TIME, TSC_SUMMARY_VERSION, TSC_SUMMARY_LENGTH,
        TSC_SUMMARY_CHECKSUM, TSC_SUMMARY_FORM, TSC_TRIES, TSC_STRIPES, TSC_BOUNDS, TSC_NULL};
    for (size_t i = 0; i < sizeof TEXTS / sizeof *TEXTS; i++)
        CHECK(strcmp(tsc_text(ANSWERS[i]), TEXTS[i]) == 0);
}

/* When writes may be made, of a cache and of a seat, and why one is refused. */
static void writes(void)
{
    static const tsc_span SPANS[] = {{0, 1, 0, 0, TSC_POINT}, {0, 1, 1, 1, TSC_EXCLUDE_TO}, {1, 1, 0, 0, TSC_POINT}};
    static const tsc_value READ = {20, 0, {0x11}}, LAST = {INT64_MAX, INT32_MAX, {0x11}};
    struct cache c = open_cache(132, 132, 2);
    tsc_time low = {5, 0}, at = {7, 8};
    uint64_t n = 0, seen = 7, place = 0;
    tsc_added a;
    CHECK(tsc_add(&c.store, c.handle, "b", 1, "b", 1, TSC_POINT, &READ, &AT_20, &a) == TSC_OK);
    CHECK(tsc_open_shared(&c.store, 132, 132, 2, 10, &low, 1, 9, &n) == TSC_OK);
    CHECK(tsc_seat_add(&c.store, n + 1, "b", 1, "b", 1, TSC_POINT, &READ, &AT_20, 64, &place, &a) == TSC_OK);
    for (uint8_t own = 0; own < 2; own++) {
        tsc_value write = {15, 3, {own ? 0x11 : 0x22}};
        tsc_time first = {20, own ? 0 : 1};
        CHECK(tsc_earliest_write(&c.store, c.handle, "bc", 2, SPANS, 3, &write, &at) == TSC_OK && at.wall == first.wall && at.logical == first.logical);
        at = (tsc_time){7, 8};
        CHECK(tsc_seat_earliest_write(&c.store, n + 1, "bc", 2, SPANS, 3, &write, &seen, &at) == TSC_OK && at.wall == first.wall && at.logical == first.logical && seen == 1);
        CHECK(tsc_earliest_write(&c.store, c.handle, "bc", 2, SPANS + 2, 1, &write, &at) == TSC_OK && at.wall == 15 && at.logical == 3);
        CHECK(tsc_checked_earliest_write(&c.store, c.handle, NULL, 0, NULL, 0, &write, &at) == TSC_OK && at.wall == 15 && at.logical == 3);
    }
    /* refused, and nothing is written */
    static const tsc_span OUT = {1, 2, 0, 0, TSC_POINT}, BEHIND = {0, 1, 3, 0, TSC_POINT}, ENDS = {0, 1, 0, 0, 6}, BACK = {1, 1, 0, 1, TSC_EXCLUDE_TO};
    const tsc_span *const wrong[] = {&OUT, &BEHIND, &ENDS, &BACK};
    const uint32_t answers_to[] = {TSC_OUTSIDE, TSC_OUTSIDE, TSC_ENDS, TSC_INVERTED};
    bool may = true;
    tsc_value never = {INT64_MAX + UINT64_C(1), 0, {0}}, write = {15, 3, {0x22}};
    at = (tsc_time){7, 8}, seen = 7;
    for (int i = 0; i < 4; i++) {
        uint32_t answer = answers_to[i];
        CHECK(tsc_may_write(&c.store, c.handle, "bc", 2, wrong[i], 1, &write, &may) == answer && may);
        CHECK(tsc_seat_may_write(&c.store, n + 1, "bc", 2, wrong[i], 1, &write, &seen, &may) == answer && may);
        CHECK(tsc_earliest_write(&c.store, c.handle, "bc", 2, wrong[i], 1, &write, &at) == answer);
        CHECK(tsc_seat_earliest_write(&c.store, n + 1, "bc", 2, wrong[i], 1, &write, &seen, &at) == answer);
    }
    CHECK(tsc_earliest_write(&c.store, c.handle, "bc", 2, SPANS, 1, &never, &at) == TSC_TIME);
    CHECK(tsc_add(&c.store, c.handle, "b", 1, "b", 1, TSC_POINT, &LAST, &AT_20, &a) == TSC_OK);
    CHECK(tsc_seat_add(&c.store, n + 1, "b", 1, "b", 1, TSC_POINT, &LAST, &AT_20, 64, &place, &a) == TSC_OK);
    CHECK(tsc_earliest_write(&c.store, c.handle, "bc", 2, SPANS, 3, &write, &at) == TSC_NO_TIME);
    CHECK(tsc_seat_earliest_write(&c.store, n + 1, "bc", 2, SPANS, 3, &write, &seen, &at) == TSC_NO_TIME);
    CHECK(at.wall == 7 && at.logical == 8 && seen == 7);
    tsc_free(&c.store);
}

/* Each handle counts what was asked of it, and a call that is refused is no lookup. */
static void counted(void)
{
    static const tsc_span SPAN = {0, 1, 0, 0, TSC_POINT}, BACK = {0, 1, 1, 1, 0};
    static const tsc_value WRITE = {15, 0, {0x22}}, LATE = {UINT64_MAX, 0, {0}};
    static const tsc_value LAST = {INT64_MAX, INT32_MAX, {0x11}};
    struct cache c = open_cache(132, 132, 2);
    tsc_mark marks[2] = {{0, 1, 0, 0, {20, 0, {0x11}}, TSC_POINT},
                         {1, 1, 0, 0, {20, 0, {0x11}}, TSC_POINT}};
    tsc_store other = TSC_STORE_INIT;
    tsc_time at, low = {5, 0};
    tsc_value v;
    tsc_added a;
    tsc_figures f;
    uint64_t second = 77, moved = 77;
    uint8_t summary[300];
    size_t len = 0;
    bool may, right = true;
    CHECK(asked(&c, 0, 0, 0, 0));
    CHECK(adds_at(&c, "a", 20, 'A', AT_20, true, false, 0) && asked(&c, 1, 0, 0, 0));
    CHECK(tsc_add_all(&c.store, c.handle, "bc", 2, marks, 2, &AT_20, &a) == TSC_OK);
    CHECK(asked(&c, 2, 0, 0, 0));
    CHECK(tsc_checked_get_max(&c.store, c.handle, "a", 1, NULL, 0, TSC_POINT, &v) == TSC_OK);
    CHECK(tsc_checked_get_max(&c.store, c.handle, "c", 1, "a", 1, 0, &v) == TSC_OK);
    CHECK(asked(&c, 2, 0, 2, 0));
    CHECK(tsc_checked_get_max(&c.store, c.handle, "a", 1, NULL, 0, 6, &v) == TSC_ENDS);
    CHECK(tsc_low_water(&c.store, c.handle, &at) == TSC_OK && asked(&c, 2, 0, 2, 0));
    CHECK(tsc_earliest_write(&c.store, c.handle, "ba", 2, &SPAN, 1, &WRITE, &at) == TSC_OK);
    CHECK(tsc_may_write(&c.store, c.handle, "ba", 2, &SPAN, 1, &WRITE, &may) == TSC_OK && !may);
    CHECK(asked(&c, 2, 0, 4, 0));
    CHECK(tsc_earliest_write(&c.store, c.handle, "ba", 2, &BACK, 1, &WRITE, &at) == TSC_INVERTED);
    CHECK(tsc_may_write(&c.store, c.handle, "ba", 2, &BACK, 1, &WRITE, &may) == TSC_INVERTED);
    CHECK(tsc_earliest_write(&c.store, c.handle, "ba", 2, &SPAN, 1, &LATE, &at) == TSC_TIME);
    CHECK(asked(&c, 2, 0, 4, 0));
    CHECK(tsc_checked_add(&c.store, c.handle, "a", 1, NULL, 0, 6, &WRITE, &AT_20, &a) == TSC_ENDS);
    CHECK(tsc_checked_add(&c.store, c.handle, "c", 1, "a", 1, 0, &WRITE, &AT_20, &a) ==
          TSC_INVERTED);
    marks[1].ends = 6;
    CHECK(tsc_add_all(&c.store, c.handle, "bc", 2, marks, 2, &AT_20, &a) == TSC_ENDS);
    CHECK(tsc_apply(&c.store, c.handle, "x", 1, &AT_20, &a) == TSC_SUMMARY_VERSION ||
          tsc_apply(&c.store, c.handle, "x", 1, &AT_20, &a) == TSC_SUMMARY_LENGTH);
    CHECK(tsc_figures_of(&c.store, c.handle, &f) == TSC_OK && f.refusals >= 4 && f.adds == 2);

    /* a summary is no lookup, and one that is applied is an Add */
    CHECK(tsc_open(&c.store, 132, 132, 2, 10, &low, &second) == TSC_OK);
    CHECK(tsc_checked_summary(&c.store, c.handle, "a", 1, "d", 1, TSC_EXCLUDE_TO, SIZE_MAX,
                              summary, sizeof summary, &len) == TSC_OK);
    CHECK(tsc_apply(&c.store, second, summary, len, &AT_20, &a) == TSC_OK);
    CHECK(tsc_figures_of(&c.store, second, &f) == TSC_OK && f.adds == 1 && f.refusals == 0 &&
          f.lookups == 0 && f.evicted == a.evicted);

    /* pages that Adds drop, and no write at all */
    struct cache dropping = open_cache(66, 66, 1);
    uint64_t dropped = 0, many = 0;
    for (uint64_t i = 0; i < 26; i++, many++) {
        char key[2] = {(char)('a' + i), 0};
        tsc_value read = {30 + i, 0, {0x11}};
        tsc_time now = {100 * i + 100, 0};
        uint32_t answer = tsc_checked_add(&dropping.store, dropping.handle, key, 1, NULL, 0,
                                          TSC_POINT, &read, &now, &a);
        right = right && answer == TSC_OK;
        dropped += a.evicted;
    }
    CHECK(right && dropped > 5 && asked(&dropping, many, 0, 0, dropped));
    tsc_time far = {INT64_MAX, 0};
    CHECK(tsc_checked_add(&dropping.store, dropping.handle, "b", 1, NULL, 0, TSC_POINT, &LAST,
                          &far, &a) == TSC_OK);
    CHECK(tsc_earliest_write(&dropping.store, dropping.handle, "ba", 2, &SPAN, 1, &WRITE, &at) ==
          TSC_NO_TIME);
    CHECK(asked(&dropping, many + 1, 0, 0, dropped + a.evicted));
    tsc_free(&dropping.store);

    /* what is moved takes its counts along, and the next handle has none */
    CHECK(tsc_figures_of(&c.store, c.handle, &f) == TSC_OK);
    tsc_figures there = {0};
    CHECK(tsc_move(&c.store, c.handle, &other, &moved) == TSC_OK && moved == 0);
    CHECK(tsc_figures_of(&other, moved, &there) == TSC_OK && memcmp(&f, &there, sizeof f) == 0);
    c.handle = 77;
    CHECK(tsc_open(&c.store, 132, 132, 2, 10, &low, &c.handle) == TSC_OK && c.handle == 2);
    CHECK(asked(&c, 0, 0, 0, 0));
    tsc_free(&c.store);
    tsc_free(&other);
}

/* What the pages really take is no less than what their keys cost by count, and grows with them. */
static void memory_taken(void)
{
    struct cache c = open_cache(1 << 16, 1 << 20, 2);
    tsc_figures f = {0}, before = {0};
    bool right = tsc_figures_of(&c.store, c.handle, &before) == TSC_OK;
    for (int i = 0; i < 1000; i++) {
        char key[5] = {'k', (char)('0' + i / 100), (char)('0' + i / 10 % 10), (char)('0' + i % 10)};
        tsc_value read = {20, 0, {0x11}};
        tsc_added a;
        uint32_t answer = tsc_checked_add(&c.store, c.handle, key, 4, NULL, 0, TSC_POINT, &read,
                                          &AT_20, &a);
        right = right && answer == TSC_OK;
    }
    CHECK(right && tsc_figures_of(&c.store, c.handle, &f) == TSC_OK && f.nodes == 1000);
    CHECK(f.memory > before.memory + f.bytes && f.memory < 20 * f.bytes);
    tsc_free(&c.store);
}

/* Each pointer that may be null, where it has to lead somewhere. */
static void nulls(void)
{
    struct cache c = open_cache(132, 132, 2);
    tsc_store *p = &c.store;
    uint64_t n = c.handle;
    tsc_value v = {20, 0, {0}}, out = {1, 2, {3}};
    tsc_added a = {99, true, true};
    tsc_mark mark = {0, 1, 0, 0, {20, 0, {0}}, TSC_POINT};
    tsc_time floor = {7, 8};
    tsc_figures f = {7, 8, 9, 10, 11, 12, 13, 14, 15};
    CHECK(tsc_checked_add(NULL, n, "b", 1, NULL, 0, TSC_POINT, &v, &AT_20, &a) == TSC_NULL && tsc_checked_add(p, n, NULL, 1, NULL, 0, TSC_POINT, &v, &AT_20, &a) == TSC_NULL);
    CHECK(tsc_checked_add(p, n, "b", 1, NULL, 1, 0, &v, &AT_20, &a) == TSC_NULL && tsc_checked_add(p, n, "b", 1, NULL, 0, TSC_POINT, NULL, &AT_20, &a) == TSC_NULL);
    CHECK(tsc_checked_add(p, n, "b", 1, NULL, 0, TSC_POINT, &v, NULL, &a) == TSC_NULL && tsc_checked_add(p, n, "b", 1, NULL, 0, TSC_POINT, &v, &AT_20, NULL) == TSC_NULL);
    CHECK(tsc_checked_add_all(NULL, n, "b", 1, &mark, 1, &AT_20, &a) == TSC_NULL && tsc_checked_add_all(p, n, NULL, 1, &mark, 1, &AT_20, &a) == TSC_NULL);
    CHECK(tsc_checked_add_all(p, n, "b", 1, NULL, 1, &AT_20, &a) == TSC_NULL && tsc_checked_add_all(p, n, "b", 1, &mark, 1, NULL, &a) == TSC_NULL);
    CHECK(tsc_checked_add_all(p, n, "b", 1, &mark, 1, &AT_20, NULL) == TSC_NULL);
    CHECK(tsc_checked_get_max(NULL, n, "b", 1, NULL, 0, TSC_POINT, &out) == TSC_NULL && tsc_checked_get_max(p, n, NULL, 1, NULL, 0, TSC_POINT, &out) == TSC_NULL);
    CHECK(tsc_checked_get_max(p, n, "b", 1, NULL, 1, 0, &out) == TSC_NULL && tsc_checked_get_max(p, n, "b", 1, NULL, 0, TSC_POINT, NULL) == TSC_NULL);
    tsc_span span = {0, 1, 0, 0, TSC_POINT};
    uint64_t seen = 7;
    CHECK(tsc_checked_earliest_write(NULL, n, "b", 1, &span, 1, &v, &floor) == TSC_NULL && tsc_checked_earliest_write(p, n, NULL, 1, &span, 1, &v, &floor) == TSC_NULL);
    CHECK(tsc_checked_earliest_write(p, n, "b", 1, NULL, 1, &v, &floor) == TSC_NULL && tsc_checked_earliest_write(p, n, "b", 1, &span, 1, NULL, &floor) == TSC_NULL);
    CHECK(tsc_checked_earliest_write(p, n, "b", 1, &span, 1, &v, NULL) == TSC_NULL && tsc_checked_seat_earliest_write(NULL, n, "b", 1, &span, 1, &v, &seen, &floor) == TSC_NULL);
    CHECK(tsc_checked_seat_earliest_write(p, n, NULL, 1, &span, 1, &v, &seen, &floor) == TSC_NULL && tsc_checked_seat_earliest_write(p, n, "b", 1, NULL, 1, &v, &seen, &floor) == TSC_NULL);
    CHECK(tsc_checked_seat_earliest_write(p, n, "b", 1, &span, 1, NULL, &seen, &floor) == TSC_NULL && tsc_checked_seat_earliest_write(p, n, "b", 1, &span, 1, &v, NULL, &floor) == TSC_NULL);
    CHECK(tsc_checked_seat_earliest_write(p, n, "b", 1, &span, 1, &v, &seen, NULL) == TSC_NULL && seen == 7);
    CHECK(tsc_checked_low_water(NULL, n, &floor) == TSC_NULL && tsc_checked_low_water(p, n, NULL) == TSC_NULL);
    CHECK(tsc_checked_figures_of(NULL, n, &f) == TSC_NULL && tsc_checked_figures_of(p, n, NULL) == TSC_NULL);
    tsc_store empty = {NULL};
    uint64_t opened = 77;
    CHECK(tsc_checked_open(NULL, 132, 132, 2, 10, &AT_20, &opened) == TSC_NULL && tsc_checked_open(&empty, 132, 132, 2, 10, NULL, &opened) == TSC_NULL && tsc_checked_open(&empty, 132, 132, 2, 10, &AT_20, NULL) == TSC_NULL);
    CHECK(tsc_checked_move(NULL, n, &empty, &opened) == TSC_NULL && tsc_checked_move(p, n, NULL, &opened) == TSC_NULL && tsc_checked_move(p, n, &empty, NULL) == TSC_NULL);
    CHECK(tsc_checked_close(NULL, n) == TSC_NULL);
    tsc_checked_free(NULL);
    CHECK(a.evicted == 99 && a.kept && a.rotated && out.wall == 1 && out.logical == 2 && out.owner[0] == 3 && floor.wall == 7 && f.pages == 7 && f.rotations == 8 && f.nodes == 9 && f.bytes == 10);
    CHECK(opened == 77 && empty.at == NULL);
    CHECK(answers(&c, "b", 5, 0, '-') && has(&c, 1, 0, 5, 0) && counts(&c, 0, 0));
    CHECK(tsc_checked_low_water(p, n, &floor) == TSC_OK && floor.wall == 5 && floor.logical == 0 && tsc_checked_figures_of(p, n, &f) == TSC_OK && f.pages == 1 && f.rotations == 0 && f.nodes == 0 && f.bytes == 0);
    CHECK(tsc_checked_open(&empty, 132, 132, 2, 10, &AT_20, &opened) == TSC_OK && opened == 0 && tsc_checked_move(p, n, &empty, &opened) == TSC_OK && opened == 1);
    CHECK(tsc_checked_low_water(&empty, 1, &floor) == TSC_OK && floor.wall == 5 && tsc_checked_close(&empty, 1) == TSC_OK && tsc_checked_close(&empty, 1) == TSC_CLOSED && tsc_checked_close(p, n) == TSC_CLOSED);
    tsc_checked_free(&empty);
    CHECK(empty.at == NULL);
    tsc_checked_free(p);
}

/* Lookups ask for no memory, and take keys of any length. */
static void lookups(void)
{
    static uint8_t low_key[1 << 20]; /* zeros, below "a" */
    struct cache c = {{NULL}, 0};
    tsc_value v;
    tsc_time floor;
    tsc_figures f;
    uint64_t n, seen, before = requests;
    CHECK(tsc_checked_get_max(&c.store, 0, "b", 1, NULL, 0, TSC_POINT, &v) == TSC_CLOSED && tsc_low_water(&c.store, 0, &floor) == TSC_CLOSED && tsc_figures_of(&c.store, 0, &f) == TSC_CLOSED);
    CHECK(tsc_checked_seat_get_max(&c.store, 0, "b", 1, NULL, 0, TSC_POINT, &seen, &v) == TSC_CLOSED && tsc_seat_low_water(&c.store, 0, &seen, &floor) == TSC_CLOSED);
    CHECK(tsc_seat_figures_of(&c.store, 0, &seen, &f) == TSC_CLOSED && requests == before && c.store.at == NULL);

    c = open_cache(132, 132, 2);
    CHECK(adds(&c, "a", 20, 'A') && tsc_open_shared(&c.store, 132, 132, 2, 10, &(tsc_time){5, 0}, 1, 9, &n) == TSC_OK);
    before = requests;
    for (size_t len = 4096; len <= sizeof low_key; len += sizeof low_key - 4096) {
        CHECK(tsc_checked_get_max(&c.store, c.handle, low_key, len, NULL, 0, TSC_POINT, &v) == TSC_OK && v.wall == 5);
        CHECK(tsc_checked_get_max(&c.store, c.handle, low_key, len, "b", 1, 0, &v) == TSC_OK && v.wall == 20 && owner_name(v.owner) == 'A');
        CHECK(tsc_checked_get_max(&c.store, c.handle, low_key, len, NULL, 0, TSC_ONWARD, &v) == TSC_OK && v.wall == 20);
        CHECK(tsc_checked_get_max(&c.store, c.handle, "a", 1, low_key, len, 0, &v) == TSC_OK && v.wall == 5); /* inverted */
        CHECK(tsc_checked_seat_get_max(&c.store, n + 1, low_key, len, "b", 1, 0, &seen, &v) == TSC_OK && v.wall == 5 && seen == 0);
    }
    CHECK(tsc_checked_get_max(&c.store, c.handle, low_key, 4097, NULL, 0, 6, &v) == TSC_ENDS && tsc_checked_seat_get_max(&c.store, n + 1, low_key, 4097, NULL, 0, 6, &seen, &v) == TSC_ENDS);
    CHECK(has(&c, 1, 0, 5, 0) && tsc_seat_low_water(&c.store, n + 1, &seen, &floor) == TSC_OK && tsc_seat_figures_of(&c.store, n + 1, &seen, &f) == TSC_OK);
    CHECK(requests == before);
    tsc_free(&c.store);
}

/* Which of two times is earlier, and which is the next. */
static void times(void)
{
    static const uint64_t WALL = INT64_MAX;
    static const uint32_t LOGICAL = INT32_MAX;
    static const tsc_time RISING[] = {
        {0, 0}, {0, 1}, {0, INT32_MAX}, {20, 0}, {20, 5}, {21, 0}, {INT64_MAX, 0}, {INT64_MAX, INT32_MAX},
    };
    enum { COUNT = sizeof RISING / sizeof *RISING };
    for (int i = 0; i < COUNT; i++)
        for (int j = 0; j < COUNT; j++)
            CHECK(tsc_before(RISING[i], RISING[j]) == (i < j));
    static const struct {
        tsc_time time, next;
    } ROWS[] = {
        {{0, 0}, {0, 1}},
        {{20, 5}, {20, 6}},
        {{20, INT32_MAX - 1}, {20, INT32_MAX}},
        {{20, INT32_MAX}, {21, 0}},
        {{INT64_MAX - 1, INT32_MAX}, {INT64_MAX, 0}},
        {{INT64_MAX, 5}, {INT64_MAX, 6}},
    };
    for (size_t i = 0; i < sizeof ROWS / sizeof *ROWS; i++) {
        tsc_time next = {7, 7};
        CHECK(tsc_next(ROWS[i].time, &next) && next.wall == ROWS[i].next.wall && next.logical == ROWS[i].next.logical);
        CHECK(tsc_before(ROWS[i].time, next));
    }
    tsc_time same = {20, 5}, next = {7, 7};
    CHECK(tsc_next(same, &same) && same.wall == 20 && same.logical == 6); /* into the time itself */
    CHECK(!tsc_next((tsc_time){WALL, LOGICAL}, &next) && next.wall == 7 && next.logical == 7);
}

/* How many of the calls that take a handle don't answer that this one names nothing, or write something. */
static uint64_t names_something(tsc_store *store, uint64_t handle)
{
    static const tsc_value READ = {30, 0, {0x11}};
    static const tsc_mark MARK = {0, 1, 0, 0, {30, 0, {0x11}}, TSC_POINT};
    static const tsc_span SPAN = {0, 1, 0, 0, TSC_POINT};
    tsc_store other = {NULL};
    tsc_value v = {7, 7, {7}};
    tsc_added a = {7, false, true};
    tsc_time floor = {7, 7};
    tsc_figures f = {7, 7, 7, 7, 7, 7, 7, 7, 7};
    uint64_t at = 7, seen = 7, moved = 7, adds = 7, wrong = 0;
    uint8_t out[2] = {7, 7};
    size_t len = 7;
    bool may = true;
    wrong += tsc_checked_get_max(store, handle, "b", 1, NULL, 0, TSC_POINT, &v) != TSC_CLOSED;
    wrong += tsc_low_water(store, handle, &floor) != TSC_CLOSED;
    wrong += tsc_earliest_write(store, handle, "b", 1, &SPAN, 1, &READ, &floor) != TSC_CLOSED;
    wrong += tsc_seat_earliest_write(store, handle, "b", 1, &SPAN, 1, &READ, &seen, &floor) != TSC_CLOSED;
    wrong += tsc_may_write(store, handle, "b", 1, &SPAN, 1, &READ, &may) != TSC_CLOSED;
    wrong += tsc_seat_may_write(store, handle, "b", 1, &SPAN, 1, &READ, &seen, &may) != TSC_CLOSED;
    wrong += tsc_checked_summary(store, handle, "b", 1, NULL, 0, TSC_POINT, 1, out, sizeof out, &len) != TSC_CLOSED;
    wrong += tsc_checked_apply(store, handle, out, sizeof out, &AT_20, &a) != TSC_CLOSED;
    wrong += tsc_figures_of(store, handle, &f) != TSC_CLOSED;
    wrong += tsc_checked_add(store, handle, "b", 1, NULL, 0, TSC_POINT, &READ, &AT_20, &a) != TSC_CLOSED;
    wrong += tsc_checked_add_all(store, handle, "b", 1, &MARK, 1, &AT_20, &a) != TSC_CLOSED;
    wrong += tsc_close(store, handle) != TSC_CLOSED;
    wrong += tsc_checked_seat_get_max(store, handle, "b", 1, NULL, 0, TSC_POINT, &seen, &v) != TSC_CLOSED;
    wrong += tsc_seat_low_water(store, handle, &seen, &floor) != TSC_CLOSED;
    wrong += tsc_seat_figures_of(store, handle, &seen, &f) != TSC_CLOSED;
    wrong += tsc_checked_seat_add(store, handle, "b", 1, NULL, 0, TSC_POINT, &READ, &AT_20, 1, &at, &a) != TSC_CLOSED;
    wrong += tsc_checked_seat_add_all(store, handle, "b", 1, &MARK, 1, &AT_20, 1, &at, &a) != TSC_CLOSED;
    wrong += tsc_seat_close(store, handle) != TSC_CLOSED;
    wrong += tsc_close_shared(store, handle, &adds) != TSC_CLOSED;
    wrong += tsc_move(store, handle, &other, &moved) != TSC_CLOSED || tsc_close(&other, 0) != TSC_CLOSED;
    wrong += at != 7 || seen != 7 || moved != 7 || adds != 7 || v.wall != 7 || a.evicted != 7 || a.kept || !a.rotated || floor.wall != 7 || f.pages != 7;
    wrong += out[0] != 7 || out[1] != 7 || len != 7 || !may;
    tsc_free(&other); /* which a refused move may have given some memory */
    return wrong;
}

/* Handles that were never given, and such as were given and closed, or moved. */
static void handles(void)
{
    enum { LIVE_CACHE, SECOND_CACHE, LIVE_SHARED, LIVE_SEAT, CLOSED_SEAT, MOVED_SEAT, CLOSED_CACHE, MOVED_CACHE, CLOSED_SHARED, ITS_SEAT, GIVEN };
    static const uint64_t STALE[] = {CLOSED_SEAT, MOVED_SEAT, CLOSED_CACHE, MOVED_CACHE, CLOSED_SHARED, ITS_SEAT};
    static tsc_store store, other; /* zeros */
    tsc_value v = {20, 0, {0}};
    tsc_added a;
    tsc_time low = {5, 0}, floor;
    tsc_figures f;
    uint64_t first = 77, second = 78, third = 79, shared = 77, last = 77, at = 77, seen = 77, adds = 77;
    CHECK(names_something(&store, 0) == 0 && store.at == NULL);
    CHECK(tsc_close(&store, 0) == TSC_CLOSED && tsc_low_water(&store, 0, &floor) == TSC_CLOSED && tsc_figures_of(&store, 0, &f) == TSC_CLOSED);
    CHECK(tsc_checked_get_max(&store, 0, "b", 1, NULL, 0, TSC_POINT, &v) == TSC_CLOSED);
    CHECK(tsc_open(&store, 132, 132, 2, 10, &low, &first) == TSC_OK && tsc_open(&store, 132, 132, 2, 10, &low, &second) == TSC_OK && first == LIVE_CACHE && second == SECOND_CACHE);
    CHECK(tsc_checked_add(&store, first, "b", 1, NULL, 0, TSC_POINT, &v, &AT_20, &a) == TSC_OK && a.kept);
    CHECK(tsc_open_shared(&store, 132, 132, 2, 10, &low, 3, 9, &shared) == TSC_OK && shared == LIVE_SHARED);
    CHECK(tsc_checked_seat_add(&store, LIVE_SEAT, "b", 1, NULL, 0, TSC_POINT, &v, &AT_20, 1, &at, &a) == TSC_OK && at == 0);
    CHECK(tsc_seat_close(&store, CLOSED_SEAT) == TSC_OK && tsc_move(&store, MOVED_SEAT, &other, &at) == TSC_OK && at == 0);
    CHECK(tsc_open(&store, 132, 132, 2, 10, &low, &at) == TSC_OK && at == CLOSED_CACHE && tsc_close(&store, CLOSED_CACHE) == TSC_OK);
    CHECK(tsc_open(&store, 132, 132, 2, 10, &low, &at) == TSC_OK && at == MOVED_CACHE && tsc_move(&store, MOVED_CACHE, &other, &at) == TSC_OK && at == 1);
    CHECK(tsc_open_shared(&store, 132, 132, 2, 10, &low, 1, 9, &last) == TSC_OK && last == CLOSED_SHARED);
    CHECK(tsc_seat_close(&store, ITS_SEAT) == TSC_OK && tsc_close_shared(&store, CLOSED_SHARED, &adds) == TSC_OK && adds == 0);

    uint64_t x = UINT64_C(88172645463325252), wrong = 0;
    for (int i = 0; i < 100000; i++) {
        x ^= x << 13;
        x ^= x >> 7;
        x ^= x << 17;
        uint64_t made_up = i % 2 ? x : GIVEN + x % 1000;
        wrong += names_something(&store, i % 3 ? made_up : STALE[x % (sizeof STALE / sizeof *STALE)]);
    }
    CHECK(wrong == 0);
    CHECK(tsc_checked_get_max(&store, first, "b", 1, NULL, 0, TSC_POINT, &v) == TSC_OK && v.wall == 20);
    CHECK(tsc_checked_get_max(&store, second, "b", 1, NULL, 0, TSC_POINT, &v) == TSC_OK && v.wall == 5);
    CHECK(tsc_checked_seat_get_max(&store, LIVE_SEAT, "b", 1, NULL, 0, TSC_POINT, &seen, &v) == TSC_OK && v.wall == 20 && seen == 1);
    CHECK(tsc_checked_seat_get_max(&other, 0, "b", 1, NULL, 0, TSC_POINT, &seen, &v) == TSC_OK && v.wall == 20 && seen == 1);
    CHECK(tsc_close_shared(&store, shared, &adds) == TSC_STILL_OUT && tsc_seat_close(&store, LIVE_SEAT) == TSC_OK && tsc_close(&other, 1) == TSC_OK);
    tsc_free(&other);
    CHECK(tsc_close_shared(&store, shared, &adds) == TSC_OK && adds == 1);

    CHECK(tsc_close(&store, first) == TSC_OK && tsc_close(&store, first) == TSC_CLOSED); /* closed twice */
    CHECK(tsc_checked_get_max(&store, first, "b", 1, NULL, 0, TSC_POINT, &v) == TSC_CLOSED);
    CHECK(tsc_open(&store, 132, 132, 2, 10, &low, &third) == TSC_OK && third != first && third != second);
    wrong = 0;
    for (int i = 0; i < 1000; i++) /* the stale handle stays stale */
        wrong += names_something(&store, first);
    CHECK(wrong == 0);
    CHECK(tsc_checked_get_max(&store, second, "b", 1, NULL, 0, TSC_POINT, &v) == TSC_OK && v.wall == 5);

    tsc_store moved = store; /* a move: the old store is one no more */
    memset(&store, 0, sizeof store);
    CHECK(tsc_checked_get_max(&store, second, "b", 1, NULL, 0, TSC_POINT, &v) == TSC_CLOSED);
    CHECK(tsc_checked_get_max(&moved, second, "b", 1, NULL, 0, TSC_POINT, &v) == TSC_OK);
    tsc_free(&moved);
    CHECK(moved.at == NULL && tsc_close(&moved, second) == TSC_CLOSED);
    CHECK(tsc_open(&moved, 132, 132, 2, 10, &low, &first) == TSC_OK && first == 0); /* a freed store begins anew */
    tsc_free(&moved);

    static tsc_store left; /* never closed, nor freed: the program ends with it */
    CHECK(tsc_open(&left, 132, 132, 2, 10, &low, &first) == TSC_OK);
}

/* Some calls, each of which is made again where memory was refused, and must then be done. The cache answers the same whichever
 * request is refused. */
static bool one_run(void)
{
    struct cache c = {{NULL}, 0};
    tsc_time low = {5, 0};
    tsc_added a;
    tsc_value v;
    bool right = true;
    if (tried(tsc_open(&c.store, 66, 132, 2, 10, &low, &c.handle)) == TSC_NO_MEMORY)
        right = tsc_open(&c.store, 66, 132, 2, 10, &low, &c.handle) == TSC_OK;
    right = right && c.handle == 0;
    for (const char *key = "abcdefgh"; *key; key++) {
        char span[6] = {'[', *key, ',', 'z', ')', 0};
        uint64_t wall = 20 + (uint64_t)(*key - 'a');
        right = right && tsc_checked_get_max(&c.store, c.handle, key, 1, "z", 1, TSC_EXCLUDE_TO, &v) == TSC_OK && v.wall == (*key == 'a' ? 5 : wall - 1);
        tsc_figures before, after;
        right = right && tsc_figures_of(&c.store, c.handle, &before) == TSC_OK;
        if (tried(add_at(&c, span, wall, 0, 'A', AT_20, &a)) == TSC_NO_MEMORY) {
            right = right && tsc_figures_of(&c.store, c.handle, &after) == TSC_OK && after.pages == before.pages && after.rotations == before.rotations && after.nodes == before.nodes && after.bytes == before.bytes;
            right = right && answers(&c, "y", *key == 'a' ? 5 : wall - 1, 0, *key == 'a' ? '-' : 'A');
            right = right && add_at(&c, span, wall, 0, 'A', AT_20, &a) == TSC_OK;
        }
        right = right && a.kept && answers(&c, "y", wall, 0, 'A');
    }
    tsc_mark marks[2] = {{0, 1, 0, 0, {50, 0, {0}}, TSC_POINT}, {1, 1, 0, 0, {50, 0, {0}}, TSC_POINT}};
    if (tried(tsc_checked_add_all(&c.store, c.handle, "xy", 2, marks, 2, &AT_40, &a)) == TSC_NO_MEMORY) {
        right = right && answers(&c, "[x,y]", 27, 0, 'A');
        right = right && tsc_checked_add_all(&c.store, c.handle, "xy", 2, marks, 2, &AT_40, &a) == TSC_OK;
    }
    right = right && answers(&c, "x", 50, 0, '-') && answers(&c, "y", 50, 0, '-') && answers(&c, "b", 20 + 1, 0, 'A');
    uint64_t other;
    if (tried(tsc_open(&c.store, 66, 132, 2, 10, &low, &other)) == TSC_NO_MEMORY)
        right = right && tsc_open(&c.store, 66, 132, 2, 10, &low, &other) == TSC_OK;
    right = right && other == 1 && tsc_close(&c.store, 0) == TSC_OK;
    tsc_free(&c.store);
    return right;
}

/* The same of a cache that threads share, by two of its seats, in two stores. */
static bool one_shared_run(void)
{
    tsc_store stores[2] = {{NULL}, {NULL}};
    uint64_t n = 77, seats[2] = {1, 77}, at, seen, adds = 77;
    tsc_time low = {5, 0};
    tsc_added a;
    tsc_value v, read = {20, 0, {0}};
    bool right = true;
    if (tried(tsc_open_shared(&stores[0], 66, 132, 2, 10, &low, 2, 9, &n)) == TSC_NO_MEMORY)
        right = n == 77 && tsc_open_shared(&stores[0], 66, 132, 2, 10, &low, 2, 9, &n) == TSC_OK;
    right = right && n == 0;
    if (tried(tsc_move(&stores[0], 2, &stores[1], &seats[1])) == TSC_NO_MEMORY)
        right = right && seats[1] == 77 && tsc_move(&stores[0], 2, &stores[1], &seats[1]) == TSC_OK;
    right = right && seats[1] == 0;
    for (uint64_t i = 0; i < 8; i++) {
        tsc_store *mine = &stores[i % 2], *other = &stores[1 - i % 2];
        char key = (char)('a' + i);
        read.wall = 20 + i;
        if (tried(tsc_checked_seat_add(mine, seats[i % 2], &key, 1, "z", 1, TSC_EXCLUDE_TO, &read, &AT_20, 1, &at, &a)) == TSC_NO_MEMORY) {
            right = right && tsc_checked_seat_get_max(mine, seats[i % 2], "y", 1, NULL, 0, TSC_POINT, &seen, &v) == TSC_OK && seen == i && v.wall == (i ? 19 + i : 5);
            right = right && tsc_checked_seat_add(mine, seats[i % 2], &key, 1, "z", 1, TSC_EXCLUDE_TO, &read, &AT_20, 1, &at, &a) == TSC_OK;
        }
        right = right && at == i && a.kept;
        right = right && tsc_checked_seat_get_max(other, seats[1 - i % 2], "y", 1, NULL, 0, TSC_POINT, &seen, &v) == TSC_OK;
        right = right && seen == i + 1 && v.wall == 20 + i;
    }
    tsc_mark marks[2] = {{0, 1, 0, 0, {50, 0, {0}}, TSC_POINT}, {1, 1, 0, 0, {50, 0, {0}}, TSC_POINT}};
    if (tried(tsc_checked_seat_add_all(&stores[0], 1, "xy", 2, marks, 2, &AT_40, 1, &at, &a)) == TSC_NO_MEMORY)
        right = right && tsc_checked_seat_add_all(&stores[0], 1, "xy", 2, marks, 2, &AT_40, 1, &at, &a) == TSC_OK;
    right = right && at == 8 && tsc_seat_close(&stores[0], 1) == TSC_OK && tsc_close_shared(&stores[0], 0, &adds) == TSC_STILL_OUT && adds == 77;
    tsc_free(&stores[1]);
    right = right && tsc_close_shared(&stores[0], 0, &adds) == TSC_OK && adds == 9;
    tsc_free(&stores[0]);
    return right;
}

/* One mark behind a good one, in a batch over the bytes of keys. */
static uint32_t batch_with(struct cache *c, const void *keys, size_t keys_len, tsc_mark mark, uint64_t seat)
{
    tsc_mark marks[2] = {{0, 1, 0, 0, {20, 0, {0}}, TSC_POINT}, mark};
    uint64_t at = 77;
    tsc_added a;
    if (seat)
        return tsc_checked_seat_add_all(&c->store, seat, keys, keys_len, marks, 2, &AT_20, 1, &at, &a);
    return tsc_checked_add_all(&c->store, c->handle, keys, keys_len, marks, 2, &AT_20, &a);
}

/* An Add of a range, whose two keys have so many bytes of some. */
static uint32_t range_with(struct cache *c, const char *keys, size_t from_len, size_t to_len, uint32_t ends, tsc_value v, tsc_time now, uint64_t seat)
{
    uint64_t at = 77;
    tsc_added a;
    if (seat)
        return tsc_checked_seat_add(&c->store, seat, keys, from_len, keys, to_len, ends, &v, &now, 1, &at, &a);
    return tsc_checked_add(&c->store, c->handle, keys, from_len, keys, to_len, ends, &v, &now, &a);
}

/* What is wrong with an Add is told where no memory is left, to a cache or at a seat: only what is right lacks memory. */
static void wrong_adds(struct cache *c, uint64_t seat)
{
    static char keys[5000];
    memset(keys, 'k', sizeof keys);
    tsc_value v = {20, 0, {0}}, late = {20, UINT32_MAX, {0}};
    tsc_time never = {UINT64_MAX, 0};
    none_left = true;
    CHECK(range_with(c, keys, 1, 2, 0, late, AT_20, seat) == TSC_TIME && range_with(c, keys, 1, 2, 0, v, never, seat) == TSC_TIME);
    CHECK(range_with(c, keys, 1, 2, 6, v, AT_20, seat) == TSC_ENDS && range_with(c, keys, 2, 1, 0, v, AT_20, seat) == TSC_INVERTED);
    CHECK(range_with(c, keys, 4097, 5000, 0, v, AT_20, seat) == TSC_KEY_TOO_LONG && range_with(c, keys, 1, 4097, 0, v, AT_20, seat) == TSC_KEY_TOO_LONG);
    CHECK(range_with(c, keys, 101, 1, TSC_POINT, v, AT_20, seat) == TSC_TOO_LARGE && range_with(c, keys, 34, 35, 0, v, AT_20, seat) == TSC_TOO_LARGE);
    CHECK(batch_with(c, keys, 10, (tsc_mark){0, 1, 10, 1, v, 0}, seat) == TSC_OUTSIDE && batch_with(c, keys, 10, (tsc_mark){0, 1, 0, 1, late, 0}, seat) == TSC_TIME);
    CHECK(batch_with(c, keys, 10, (tsc_mark){0, 1, 0, 1, v, 6}, seat) == TSC_ENDS && batch_with(c, keys, 10, (tsc_mark){0, 2, 0, 1, v, 0}, seat) == TSC_INVERTED);
    CHECK(batch_with(c, keys, 5000, (tsc_mark){0, 1, 0, 4097, v, 0}, seat) == TSC_KEY_TOO_LONG);
    CHECK(batch_with(c, keys, 5000, (tsc_mark){0, 101, 0, 0, v, TSC_POINT}, seat) == TSC_TOO_LARGE);
    CHECK(range_with(c, keys, 1, 2, 0, v, AT_20, seat) == TSC_NO_MEMORY && batch_with(c, keys, 10, (tsc_mark){0, 1, 0, 2, v, 0}, seat) == TSC_NO_MEMORY);
    none_left = false;
}

/* The same of calls for handles and of summaries, and a history that is full is told at each seat. */
static void wrong_without_memory(void)
{
    struct cache c = open_cache(132, 132, 2);
    tsc_store other = TSC_STORE_INIT;
    tsc_time low = {5, 0}, never = {UINT64_MAX, 0};
    tsc_value v = {20, 0, {0}};
    tsc_added a;
    uint64_t shared = 77, at = 77, handle = 77;
    uint8_t bytes[256];
    size_t len = 77, bytes_len = 0;
    CHECK(tsc_open_shared(&c.store, 132, 132, 2, 10, &low, 2, 1, &shared) == TSC_OK);
    CHECK(tsc_checked_summary(&c.store, c.handle, "a", 1, "c", 1, 0, 8, bytes, sizeof bytes, &bytes_len) == TSC_OK);
    wrong_adds(&c, 0);
    wrong_adds(&c, shared + 1);
    CHECK(tsc_checked_seat_add(&c.store, shared + 1, "b", 1, NULL, 0, TSC_POINT, &v, &AT_20, 1, &at, &a) == TSC_OK && at == 0);
    none_left = true;
    for (uint64_t seat = shared + 1; seat <= shared + 2; seat++)
        CHECK(range_with(&c, "kk", 1, 2, 0, v, AT_20, seat) == TSC_FULL && batch_with(&c, "kk", 2, (tsc_mark){0, 1, 0, 2, v, 0}, seat) == TSC_FULL);
    CHECK(tsc_open(&other, 63, 132, 2, 10, &low, &handle) == TSC_PAGE_SIZE && tsc_open(&other, 132, 132, 2, 10, &never, &handle) == TSC_TIME);
    CHECK(tsc_open_shared(&other, 132, 132, 0, 10, &low, 2, 1, &handle) == TSC_MIN_PAGES && tsc_open_shared(&other, 132, 132, 2, 10, &low, 65, 1, &handle) == TSC_SEATS);
    CHECK(tsc_move(&c.store, 99, &other, &handle) == TSC_CLOSED);
    CHECK(tsc_checked_summary(&c.store, c.handle, "c", 1, "a", 1, 0, 8, NULL, 0, &len) == TSC_INVERTED);
    CHECK(tsc_checked_apply(&c.store, c.handle, bytes, bytes_len, &never, &a) == TSC_TIME && tsc_checked_apply(&c.store, c.handle, bytes, bytes_len, &AT_20, &a) == TSC_NO_MEMORY);
    CHECK(tsc_checked_apply(&c.store, c.handle, bytes, bytes_len - 1, &never, &a) == TSC_SUMMARY_LENGTH);
    CHECK(tsc_open(&other, 132, 132, 2, 10, &low, &handle) == TSC_NO_MEMORY && tsc_move(&c.store, shared + 2, &other, &handle) == TSC_NO_MEMORY);
    CHECK(handle == 77 && len == 77 && other.at == NULL);
    none_left = false;
    CHECK(tsc_move(&c.store, shared + 2, &other, &handle) == TSC_OK && handle == 0);
    tsc_free(&other);
    tsc_free(&c.store);
}

/* A shared cache may find another way where memory is refused, and need not tell of it. */
static void memory_of(bool (*run)(void), bool each_is_told)
{
    requests = refused_request = again = 0;
    CHECK(run() && again == 0);
    uint64_t all = requests;
    for (uint64_t n = 1; n <= all; n++) {
        requests = again = 0;
        refused_request = n;
        CHECK(run() && (each_is_told ? again == 1 : again <= 1));
    }
    refused_request = 0;
    printf("each of %" PRIu64 " requests for memory was refused in turn\n", all);
}

static void memory(void)
{
    memory_of(one_run, true);
    memory_of(one_shared_run, false);
    wrong_without_memory();
}

/* Figures. */

static double seconds(void)
{
    struct timespec t;
    timespec_get(&t, TIME_UTC);
    return (double)t.tv_sec + (double)t.tv_nsec * 1e-9;
}

static void key_of(uint8_t key[8], uint64_t n)
{
    n *= UINT64_C(0x9E3779B97F4A7C15);
    for (int i = 0; i < 8; i++)
        key[i] = (uint8_t)(n >> (56 - 8 * i));
}

static int measure(void)
{
    enum { KEYS = 65536, BATCH = 1000, ROUNDS = 2000 };
    struct cache c = {{NULL}, 0};
    tsc_time low = {1, 0};
    tsc_value v = {0, 0, {1}};
    tsc_added a;
    uint8_t key[8];
    uint64_t x = UINT64_C(88172645463325252), sum = 0, wall = 100;
    double lookup = 1, add = 1, none = 1;
    if (tsc_open(&c.store, 1 << 26, 1 << 26, 1, UINT64_C(10000000000), &low, &c.handle))
        return 1;
    for (uint64_t i = 0; i < KEYS; i++) {
        tsc_time now = {wall, 0};
        key_of(key, i);
        v.wall = wall++;
        if (tsc_add(&c.store, c.handle, key, 8, key, 8, TSC_POINT, &v, &now, &a))
            return 1;
    }
    for (int r = 0; r < ROUNDS; r++) {
        double start = seconds();
        for (int i = 0; i < BATCH; i++) {
            x ^= x << 13;
            x ^= x >> 7;
            x ^= x << 17;
            key_of(key, x % KEYS);
            sum += tsc_get_max(&c.store, c.handle, key, 8, key, 8, TSC_POINT, &v) + v.wall;
        }
        double took = seconds() - start;
        lookup = took < lookup ? took : lookup;
        start = seconds();
        for (int i = 0; i < BATCH; i++) {
            x ^= x << 13;
            x ^= x >> 7;
            x ^= x << 17;
            key_of(key, x % KEYS);
            tsc_time now = {wall, 0};
            v.wall = wall++;
            sum += tsc_add(&c.store, c.handle, key, 8, key, 8, TSC_POINT, &v, &now, &a) + a.kept;
        }
        took = seconds() - start;
        add = took < add ? took : add;
        start = seconds();
        for (int i = 0; i < BATCH; i++)
            sum += tsc_get_max(&c.store, x, key, 8, key, 8, TSC_POINT, &v);
        took = seconds() - start;
        none = took < none ? took : none;
    }
    printf("%d keys: a lookup %.0f ns, an Add of a known key %.0f ns, a handle that names none %.1f ns (sum %" PRIu64 ")\n", KEYS,
           lookup * 1e9 / BATCH, add * 1e9 / BATCH, none * 1e9 / BATCH, sum);
    tsc_free(&c.store);
    return 0;
}

int main(int argc, char **argv)
{
    (void)argv;
    if (argc > 1)
        return measure();
    rows_of_spans();
    rows_of_pages();
    rows_of_figures();
    batches();
    limits();
    large_page();
    refusals();
    texts();
    writes();
    counted();
    memory_taken();
    nulls();
    lookups();
    times();
    handles();
    memory();
    printf("%d passed, %d failed\n", passed, failed);
    return failed != 0;
}
