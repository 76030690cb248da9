/* Tests of the calls with which a lease goes on, and of those that ask whether a write may be made, through the header alone. The script
 * `scripts/test library` builds and runs it. Linked with -Wl,--wrap=malloc,--wrap=realloc, so that each request for memory can be refused in
 * turn. */
#include "tscache.h"
#include <inttypes.h>
#include <stdio.h>
#include <stdlib.h>
#include <string.h>

static int passed, failed;

static void check(bool holds, const char *file, int line, const char *what)
{
    if (holds) {
        passed++;
    } else {
        failed++;
        printf("%s:%d: %s\n", file, line, what);
    }
}
#define CHECK(x) check((x), __FILE__, __LINE__, #x)

/* One of many that a loop looks at: only what doesn't hold counts. */
#define EACH(x) ((x) ? (void)0 : check(false, __FILE__, __LINE__, #x))

/* Memory: the request that is refused, counted from 1, and how many were made. */

static uint64_t requests, refused_request;
void *__real_malloc(size_t size);
void *__real_realloc(void *block, size_t size);

void *__wrap_malloc(size_t size)
{
    return ++requests == refused_request ? NULL : __real_malloc(size);
}

void *__wrap_realloc(void *block, size_t size)
{
    return ++requests == refused_request ? NULL : __real_realloc(block, size);
}

/* One store with the caches of two holders: the former one and the next. */

enum { FORMER, NEXT, ROOM = 1 << 16 };

static const tsc_time LOW = {5, 0}, AT_20 = {20, 0};

static void open_caches(tsc_store *store, int count, uint32_t page_max)
{
    uint64_t handle = 77;
    for (int i = 0; i < count; i++)
        EACH(tsc_open(store, 64, page_max, 2, UINT64_C(1) << 62, &LOW, &handle) == TSC_OK && handle == (uint64_t)i);
}

/* Whether an Add of a key, or of the keys from one to before another, was kept. */
static bool add(tsc_store *store, uint64_t handle, const char *from, const char *to, uint64_t wall, uint8_t owner)
{
    tsc_value value = {wall, 0, {owner}};
    tsc_added added = {0, false, false};
    uint32_t ends = to ? TSC_EXCLUDE_TO : TSC_POINT;
    return tsc_checked_add(store, handle, from, strlen(from), to, to ? strlen(to) : 0, ends, &value, &AT_20, &added) == TSC_OK && added.kept;
}

/* What a cache answers to a key, as one number: the wall time, the logical count and the first byte of the owner. */
static uint64_t known(tsc_store *store, uint64_t handle, const char *key)
{
    tsc_value v = {0, 0, {0}};
    EACH(tsc_get_max(store, handle, key, strlen(key), "", 0, TSC_POINT, &v) == TSC_OK);
    return v.wall * 1000000 + v.logical * 1000 + v.owner[0];
}

/* A summary of the keys from one to before another. */
struct told {
    uint32_t answer;
    size_t len;
    uint8_t bytes[ROOM];
};

static const struct told *tell(tsc_store *store, uint64_t handle, const char *from, const char *to, size_t most)
{
    static struct told t;
    t.len = SIZE_MAX;
    t.answer = tsc_summary(store, handle, from, strlen(from), to, strlen(to), TSC_EXCLUDE_TO, most, t.bytes, ROOM, &t.len);
    return &t;
}

static uint32_t apply(tsc_store *store, uint64_t handle, const void *bytes, size_t len)
{
    tsc_added added = {99, true, true};
    uint32_t answer = tsc_apply(store, handle, bytes, len, &AT_20, &added);
    EACH(answer == TSC_OK ? added.evicted == 0 : added.evicted == 99 && added.kept && added.rotated);
    return answer;
}

/* Whether a cache is as it was, and only more was refused and looked up. */
static bool same_figures(tsc_store *store, uint64_t handle, tsc_figures was)
{
    tsc_figures f = {0, 0, 0, 0, 0, 0, 0, 0, 0};
    bool told = tsc_figures_of(store, handle, &f) == TSC_OK;
    bool more = f.refusals >= was.refusals && f.lookups >= was.lookups;
    f.refusals = was.refusals;
    f.lookups = was.lookups;
    return told && more && memcmp(&f, &was, sizeof f) == 0;
}

static tsc_figures figures(tsc_store *store, uint64_t handle)
{
    tsc_figures f = {0, 0, 0, 0, 0, 0, 0, 0, 0};
    EACH(tsc_figures_of(store, handle, &f) == TSC_OK);
    return f;
}

/* ---- what is told goes into a buffer that has room for it */

static void buffers(void)
{
    static uint8_t out[200], sevens[200];
    tsc_store store = {NULL};
    memset(sevens, 7, sizeof sevens);
    open_caches(&store, 1, 1024);
    CHECK(add(&store, FORMER, "b", NULL, 20, 1));
    const size_t whole = tell(&store, FORMER, "a", "c", SIZE_MAX)->len;
    CHECK(whole == 115);
    for (size_t room = 0; room <= whole + 2; room++) {
        size_t len = 99;
        memcpy(out, sevens, sizeof out);
        uint32_t answer = tsc_checked_summary(&store, FORMER, "a", 1, "c", 1, TSC_EXCLUDE_TO, SIZE_MAX, room ? out : NULL, room, &len);
        EACH(len == whole && answer == (room < whole ? TSC_SHORT : TSC_OK));
        EACH(memcmp(out, room < whole ? sevens : tell(&store, FORMER, "a", "c", SIZE_MAX)->bytes, whole) == 0);
        EACH(memcmp(out + whole, sevens, sizeof out - whole) == 0);
    }
    CHECK(failed == 0);
    tsc_free(&store);
}

/* Of 40 keys that were read one after another, so many marks are told at the most, and without any a floor alone. */
static void marks(void)
{
    static char longest[4097], longer[4097];
    tsc_store store = {NULL};
    size_t last = 0;
    open_caches(&store, 2, 1024);
    for (char i = 0; i < 40; i++) {
        char key[3] = {'b', (char)('A' + i), 0};
        EACH(add(&store, FORMER, key, NULL, 30 + (uint64_t)i, 1));
    }
    for (size_t most = 0; most <= 41; most++) {
        const struct told *t = tell(&store, FORMER, "a", "c", most);
        EACH(t->answer == TSC_OK && (most == 41 ? t->len == last : t->len > last));
        EACH(t->bytes[41] == (most < 41 ? most : 40)); /* how many marks there are, by its low byte */
        last = t->len;
    }
    memset(longest, 'x', 4096);
    memset(longer, 'x', 4095);
    longer[4095] = 'y';
    const struct told *t = tell(&store, FORMER, longest, longer, 0);
    CHECK(t->answer == TSC_OK && t->len == 8264);
    tsc_free(&store);
}

/* ---- what is refused leaves all as it was */

static void refused_spans(void)
{
    static char long_key[4098];
    uint8_t out[2] = {7, 7};
    size_t len = 9;
    tsc_store store = {NULL};
    uint64_t shared = 77;
    memset(long_key, 'x', 4097);
    open_caches(&store, 1, 1024);
    CHECK(tsc_open_shared(&store, 64, 1024, 2, 10, &LOW, 1, 9, &shared) == TSC_OK && shared == 1);
    CHECK(tsc_summary(&store, FORMER, "a", 1, "c", 1, 6, 9, out, 2, &len) == TSC_ENDS);
    CHECK(tsc_summary(&store, FORMER, long_key, 4097, "c", 1, TSC_POINT, 9, out, 2, &len) == TSC_KEY_TOO_LONG);
    CHECK(tsc_summary(&store, FORMER, "c", 1, long_key, 4097, 0, 9, out, 2, &len) == TSC_KEY_TOO_LONG);
    CHECK(tsc_summary(&store, FORMER, "c", 1, "a", 1, TSC_EXCLUDE_TO, 9, out, 2, &len) == TSC_INVERTED);
    for (uint64_t handle = 1; handle < 4; handle++) /* a shared cache, its seat, and nothing */
        CHECK(tsc_summary(&store, handle, "a", 1, "c", 1, TSC_EXCLUDE_TO, 9, out, 2, &len) == TSC_CLOSED);
    CHECK(len == 9 && out[0] == 7 && out[1] == 7);
    CHECK(tsc_summary(&store, FORMER, "a", 1, long_key, 4097, TSC_POINT, 9, out, 2, &len) == TSC_SHORT); /* the second key is passed over */
    tsc_free(&store);
}

/* Cut at each place, one byte more, and each byte changed in each bit. */
static void changed_bytes(void)
{
    static uint8_t bytes[ROOM];
    tsc_store store = {NULL};
    open_caches(&store, 2, 1024);
    CHECK(add(&store, FORMER, "b", "bb", 30, 1) && add(&store, FORMER, "a", "az", 40, 2) && add(&store, NEXT, "k", NULL, 25, 3));
    const struct told *t = tell(&store, FORMER, "a", "c", SIZE_MAX);
    CHECK(t->answer == TSC_OK);
    const size_t len = t->len;
    const tsc_figures was = figures(&store, NEXT);
    memcpy(bytes, t->bytes, len);
    for (size_t cut = 0; cut < len; cut++)
        EACH(apply(&store, NEXT, bytes, cut) == TSC_SUMMARY_LENGTH);
    CHECK(apply(&store, NEXT, bytes, len + 1) == TSC_SUMMARY_LENGTH && tsc_checked_apply(&store, NEXT, NULL, 0, &AT_20, &(tsc_added){0, 0, 0}) == TSC_SUMMARY_LENGTH);
    for (size_t i = 0; i < 8 * len; i++) {
        bytes[i / 8] ^= (uint8_t)(1u << i % 8);
        EACH(apply(&store, NEXT, bytes, len) == (i < 8 ? TSC_SUMMARY_VERSION : i < 72 ? TSC_SUMMARY_LENGTH : TSC_SUMMARY_CHECKSUM));
        bytes[i / 8] ^= (uint8_t)(1u << i % 8);
    }
    CHECK(same_figures(&store, NEXT, was) && known(&store, NEXT, "b") == 5000000 && known(&store, NEXT, "k") == 25000003);
    CHECK(apply(&store, NEXT, bytes, len) == TSC_OK && known(&store, NEXT, "b") == 30000001 && known(&store, NEXT, "k") == 25000003);
    tsc_free(&store);
}

/* Bytes whose digest is right, in hexadecimal; the first is the summary of the keys from `a` to before `c` that were not read. */
static const char *const FORMS[] = {
    "010000000000000021010000000001610000000001630000000000000005000000000000000000000000d2ae83a15c78cf9fda0cbd8854b06909384734ae6497663eb87df38d5ebb487e",
    /* a span that is neither empty nor between two cuts */
    "0100000000000000150200000000000000050000000000000000000000000f7326a9e30319fd51e04d4f7547bd75d5ef4368183eef4227035c14bccd7767",
    /* a cut of no kind */
    "0100000000000000170103020000000000000005000000000000000000000000294ff638bc676c9d895a6ec1b24ed059b3114f6fb7ddc0835fc49cb6fb20c90d",
    /* an end that is not above the start */
    "01000000000000002101000000000163000000000161000000000000000500000000000000000000000019f658935d90446a774d6e114dea0cfbcf43ca349b23edf017d1cbfaf09651f9",
    /* a key of 4,097 bytes, of which none is there */
    "01000000000000001b010000001001020000000000000005000000000000000000000000772ebea5e97e297536827c4c3f158bba9e9842a4f237e23c54c5b1a92686b8d0",
    /* a wall time of 2^63 */
    "0100000000000000210100000000016100000000016380000000000000000000000000000000000000001f6c0866b2ee04c83a156135b4f5888980d480d4c4830022a64a85409b00bbdc",
    /* a logical count of 2^31 */
    "010000000000000021010000000001610000000001630000000000000005800000000000000000000000435e5a05de19690f6e8b1d35bb9123ee78b888872d259668fe7535f87a30630c",
    /* two marks, of which none is there */
    "0100000000000000210100000000016100000000016300000000000000050000000000000000000000029e3d0451a9b1e1c46bdce5b6abe81dd59ed8c7825ca3877644adc4c51ff89646",
    /* a byte behind the marks */
    "010000000000000022010000000001610000000001630000000000000005000000000000000000000000006a53d9efa5de38bcf0bbcea26873fa7826dbe0aef51ca1d1a6a5eebedbc4d89a",
};

static size_t bytes_of(const char *text, uint8_t *out)
{
    size_t len = strlen(text) / 2;
    for (size_t i = 0; i < len; i++) {
        unsigned byte = 0;
        sscanf(text + 2 * i, "%2x", &byte);
        out[i] = (uint8_t)byte;
    }
    return len;
}

static void forms(void)
{
    uint8_t bytes[200];
    tsc_store store = {NULL};
    open_caches(&store, 2, 1024);
    size_t len = bytes_of(FORMS[0], bytes);
    const struct told *t = tell(&store, FORMER, "a", "c", 0);
    CHECK(t->answer == TSC_OK && t->len == len && memcmp(t->bytes, bytes, len) == 0);
    for (size_t i = 0; i < sizeof FORMS / sizeof *FORMS; i++) {
        len = bytes_of(FORMS[i], bytes);
        CHECK(apply(&store, NEXT, bytes, len) == (i ? TSC_SUMMARY_FORM : TSC_OK));
    }
    CHECK(known(&store, NEXT, "b") == 5000000);
    tsc_free(&store);
}

/* A moment that is none, a page that is too small, other numbers; and what is judged first. */
static void refused_applies(void)
{
    static const tsc_time NEVER = {INT64_MAX + UINT64_C(1), 0};
    tsc_added added = {99, true, true};
    tsc_store store = {NULL};
    uint64_t shared = 77;
    open_caches(&store, 2, 80);
    CHECK(tsc_open_shared(&store, 64, 1024, 2, 10, &LOW, 1, 9, &shared) == TSC_OK && shared == 2);
    CHECK(add(&store, FORMER, "bbbb", NULL, 30, 1));
    const struct told *t = tell(&store, FORMER, "aaaaaaaaa", "ccccccccc", 9); /* 41 bytes for each end */
    CHECK(t->answer == TSC_OK);
    CHECK(apply(&store, NEXT, t->bytes, t->len) == TSC_TOO_LARGE);
    CHECK(tsc_apply(&store, NEXT, t->bytes, t->len, &NEVER, &added) == TSC_TIME);
    CHECK(tsc_apply(&store, NEXT, t->bytes, t->len - 1, &NEVER, &added) == TSC_SUMMARY_LENGTH);
    for (uint64_t handle = 2; handle < 5; handle++) /* a shared cache, its seat, and nothing */
        CHECK(tsc_apply(&store, handle, t->bytes, t->len - 1, &NEVER, &added) == TSC_CLOSED);
    CHECK(added.evicted == 99 && added.kept && added.rotated && known(&store, NEXT, "bbbb") == 5000000);
    t = tell(&store, FORMER, "aaaaaaaa", "cccccccc", 9); /* 40 bytes for each end */
    CHECK(apply(&store, NEXT, t->bytes, t->len) == TSC_OK && known(&store, NEXT, "bbbb") == 30000001);
    tsc_free(&store);
}

/* Each request for memory is refused in turn, and then none. */
static void memory(void)
{
    tsc_store store = {NULL};
    static uint8_t out[ROOM];
    size_t len = 9;
    uint32_t answer = TSC_NO_MEMORY;
    open_caches(&store, 2, 1024);
    CHECK(add(&store, FORMER, "b", "bb", 30, 1) && add(&store, FORMER, "a", "az", 40, 2));
    const tsc_figures was = figures(&store, NEXT);
    uint64_t told = 0, applied = 0;
    for (refused_request = 1; answer == TSC_NO_MEMORY; refused_request++) {
        requests = 0;
        answer = tsc_summary(&store, FORMER, "a", 1, "c", 1, TSC_EXCLUDE_TO, SIZE_MAX, out, ROOM, &len);
        EACH(answer == TSC_OK || (answer == TSC_NO_MEMORY && len == 9 && out[0] == 0));
        told += answer == TSC_NO_MEMORY;
    }
    CHECK(answer == TSC_OK && told > 5 && out[0] == 1);
    answer = TSC_NO_MEMORY;
    for (refused_request = 1; answer == TSC_NO_MEMORY; refused_request++) {
        tsc_added added = {99, false, true};
        requests = 0;
        answer = tsc_apply(&store, NEXT, out, len, &AT_20, &added);
        EACH(answer == TSC_OK ? added.kept : answer == TSC_NO_MEMORY && added.evicted == 99);
        if (answer == TSC_NO_MEMORY)
            EACH(same_figures(&store, NEXT, was) && known(&store, NEXT, "b") == 5000000);
        applied += answer == TSC_NO_MEMORY;
    }
    CHECK(answer == TSC_OK && applied > 5 && known(&store, NEXT, "b") == 30000001 && known(&store, NEXT, "a") == 40000002);
    refused_request = 0;
    tsc_free(&store);
}

/* Each pointer that may be null, and each that may not. */
static void nulls(void)
{
    static const tsc_span SPAN = {0, 1, 0, 0, TSC_POINT};
    static const tsc_value WRITE = {30, 0, {1}};
    tsc_store store = {NULL}, *p = &store;
    uint8_t out[200];
    size_t len = 9;
    uint64_t seen = 7;
    bool may = true;
    tsc_added added = {99, true, true};
    open_caches(p, 2, 1024);
    CHECK(tsc_checked_summary(NULL, 0, "a", 1, "c", 1, 0, 9, out, 200, &len) == TSC_NULL && tsc_checked_summary(p, 0, NULL, 1, "c", 1, 0, 9, out, 200, &len) == TSC_NULL);
    CHECK(tsc_checked_summary(p, 0, "a", 1, NULL, 1, 0, 9, out, 200, &len) == TSC_NULL && tsc_checked_summary(p, 0, "a", 1, "c", 1, 0, 9, NULL, 200, &len) == TSC_NULL);
    CHECK(tsc_checked_summary(p, 0, "a", 1, "c", 1, 0, 9, out, 200, NULL) == TSC_NULL && len == 9);
    CHECK(tsc_checked_summary(p, 0, NULL, 0, NULL, 0, TSC_ONWARD, 9, out, 200, &len) == TSC_OK && len < 200);
    CHECK(tsc_checked_apply(NULL, 1, out, len, &AT_20, &added) == TSC_NULL && tsc_checked_apply(p, 1, NULL, len, &AT_20, &added) == TSC_NULL);
    CHECK(tsc_checked_apply(p, 1, out, len, NULL, &added) == TSC_NULL && tsc_checked_apply(p, 1, out, len, &AT_20, NULL) == TSC_NULL && added.evicted == 99);
    CHECK(tsc_checked_apply(p, 1, out, len, &AT_20, &added) == TSC_OK && !added.kept);
    CHECK(tsc_checked_may_write(NULL, 0, "b", 1, &SPAN, 1, &WRITE, &may) == TSC_NULL && tsc_checked_may_write(p, 0, NULL, 1, &SPAN, 1, &WRITE, &may) == TSC_NULL);
    CHECK(tsc_checked_may_write(p, 0, "b", 1, NULL, 1, &WRITE, &may) == TSC_NULL && tsc_checked_may_write(p, 0, "b", 1, &SPAN, 1, NULL, &may) == TSC_NULL);
    CHECK(tsc_checked_may_write(p, 0, "b", 1, &SPAN, 1, &WRITE, NULL) == TSC_NULL && tsc_checked_may_write(p, 0, NULL, 0, NULL, 0, &WRITE, &may) == TSC_OK && may);
    CHECK(tsc_checked_seat_may_write(NULL, 0, "b", 1, &SPAN, 1, &WRITE, &seen, &may) == TSC_NULL && tsc_checked_seat_may_write(p, 0, NULL, 1, &SPAN, 1, &WRITE, &seen, &may) == TSC_NULL);
    CHECK(tsc_checked_seat_may_write(p, 0, "b", 1, NULL, 1, &WRITE, &seen, &may) == TSC_NULL && tsc_checked_seat_may_write(p, 0, "b", 1, &SPAN, 1, NULL, &seen, &may) == TSC_NULL);
    CHECK(tsc_checked_seat_may_write(p, 0, "b", 1, &SPAN, 1, &WRITE, NULL, &may) == TSC_NULL && tsc_checked_seat_may_write(p, 0, "b", 1, &SPAN, 1, &WRITE, &seen, NULL) == TSC_NULL);
    CHECK(tsc_checked_seat_may_write(p, 0, "b", 1, &SPAN, 1, &WRITE, &seen, &may) == TSC_CLOSED && seen == 7);
    tsc_free(p);
}

/* ---- random reads and writes */

static uint64_t made = UINT64_C(88172645463325252);

static uint64_t below(uint64_t most)
{
    made ^= made << 13;
    made ^= made >> 7;
    made ^= made << 17;
    return made % most;
}

enum { KEYS = 12, PLACES = 3 };

/* Twelve keys, each in a byte or in two, and a random span of these. */
static const char KEY_BYTES[] = "abccdefghijkk";
static const struct {
    size_t at, len;
} KEY[KEYS] = {{0, 1}, {1, 1}, {2, 1}, {2, 2}, {4, 1}, {5, 1}, {6, 1}, {7, 1}, {8, 1}, {9, 1}, {10, 1}, {11, 2}};

static tsc_span some_span(uint64_t from, uint64_t to)
{
    static const uint32_t ENDS[] = {TSC_POINT, 0, TSC_EXCLUDE_FROM, TSC_EXCLUDE_TO, TSC_EXCLUDE_FROM | TSC_EXCLUDE_TO};
    uint64_t i = from + below(to - from), j = i + below(to - i);
    return (tsc_span){KEY[i].at, KEY[i].len, KEY[j].at, KEY[j].len, ENDS[below(5)]};
}

static tsc_value some_value(void)
{
    return (tsc_value){10 + below(30), (uint32_t)below(2), {(uint8_t)below(3)}};
}

/* How far a write of some spans is pushed in a cache. */
static tsc_time pushed(tsc_store *store, uint64_t handle, const tsc_span *spans, size_t count, const tsc_value *write)
{
    tsc_time at = {0, 0};
    EACH(tsc_earliest_write(store, handle, KEY_BYTES, sizeof KEY_BYTES - 1, spans, count, write, &at) == TSC_OK);
    return at;
}

/* What is told of one cache and applied to another pushes each write as before, and with fewer marks never less far. */
static void pushes(void)
{
    int further = 0;
    for (int round = 0; round < 200; round++) {
        tsc_store store = {NULL};
        tsc_added added;
        size_t most = round % 2 ? below(4) : SIZE_MAX;
        open_caches(&store, 2, 1024);
        for (int i = 0; i < 12; i++) {
            tsc_span s = some_span(0, KEYS);
            tsc_value read = some_value();
            EACH(tsc_add(&store, FORMER, KEY_BYTES + s.from_at, s.from_len, KEY_BYTES + s.to_at, s.to_len, s.ends, &read, &AT_20, &added) == TSC_OK);
        }
        const struct told *t = tell(&store, FORMER, "c", "j", most); /* the keys of the places 2 to 9 */
        EACH(t->answer == TSC_OK && apply(&store, NEXT, t->bytes, t->len) == TSC_OK);
        for (int i = 0; i < 40; i++) {
            tsc_span spans[2] = {some_span(2, 10), some_span(2, 10)};
            tsc_value write = some_value();
            tsc_time before = pushed(&store, FORMER, spans, 2, &write), after = pushed(&store, NEXT, spans, 2, &write);
            bool same = before.wall == after.wall && before.logical == after.logical;
            EACH(same || (most != SIZE_MAX && tsc_before(before, after)));
            further += !same;
        }
        tsc_value out;
        EACH(tsc_get_max(&store, NEXT, "b", 1, "", 0, TSC_POINT, &out) == TSC_OK && out.wall == 5); /* nothing is told beside the span */
        tsc_free(&store);
    }
    CHECK(further > 100);
}

/* A write may be made just where the earliest time is its own: of a cache, and of a seat that has the same reads. */
static void may_writes(void)
{
    int clear = 0, pushed_on = 0;
    for (int round = 0; round < 100; round++) {
        tsc_store store = {NULL};
        tsc_added added;
        uint64_t n = 77, at = 0, seen = 0;
        open_caches(&store, 1, 1024);
        EACH(tsc_open_shared(&store, 64, 1024, 2, UINT64_C(1) << 62, &LOW, 1, 99, &n) == TSC_OK);
        for (int i = 0; i < 6; i++) {
            tsc_span s = some_span(0, KEYS);
            tsc_value read = some_value();
            const char *from = KEY_BYTES + s.from_at, *to = KEY_BYTES + s.to_at;
            EACH(tsc_add(&store, FORMER, from, s.from_len, to, s.to_len, s.ends, &read, &AT_20, &added) == TSC_OK);
            EACH(tsc_seat_add(&store, n + 1, from, s.from_len, to, s.to_len, s.ends, &read, &AT_20, 64, &at, &added) == TSC_OK);
        }
        for (int i = 0; i < 40; i++) {
            tsc_span spans[PLACES] = {some_span(0, KEYS), some_span(0, KEYS), some_span(0, KEYS)};
            tsc_value write = some_value();
            size_t count = below(PLACES + 1);
            tsc_time first = pushed(&store, FORMER, spans, count, &write);
            bool wanted = first.wall == write.wall && first.logical == write.logical, may = !wanted, seat_may = !wanted;
            EACH(tsc_may_write(&store, FORMER, KEY_BYTES, sizeof KEY_BYTES - 1, spans, count, &write, &may) == TSC_OK && may == wanted);
            EACH(tsc_seat_may_write(&store, n + 1, KEY_BYTES, sizeof KEY_BYTES - 1, spans, count, &write, &seen, &seat_may) == TSC_OK);
            EACH(seat_may == wanted && seen == 6);
            may = seat_may = !wanted;
            EACH(tsc_checked_may_write(&store, FORMER, KEY_BYTES, sizeof KEY_BYTES - 1, spans, count, &write, &may) == TSC_OK && may == wanted);
            EACH(tsc_checked_seat_may_write(&store, n + 1, KEY_BYTES, sizeof KEY_BYTES - 1, spans, count, &write, &seen, &seat_may) == TSC_OK && seat_may == wanted);
            clear += wanted;
            pushed_on += !wanted;
        }
        tsc_free(&store);
    }
    CHECK(clear > 400 && pushed_on > 400);
}

/* What is refused of a write; and one that can be made at no time, which is told and not refused. */
static void refused_writes(void)
{
    static const tsc_value READ = {20, 0, {1}}, LAST = {INT64_MAX, INT32_MAX, {1}};
    static const tsc_span SPANS[] = {{0, 1, 0, 0, TSC_POINT}, {1, 2, 0, 0, TSC_POINT}, {0, 1, 3, 0, TSC_POINT}, {0, 1, 0, 0, 6}};
    static const uint32_t ANSWERS[] = {TSC_OK, TSC_OUTSIDE, TSC_OUTSIDE, TSC_ENDS};
    tsc_store store = {NULL};
    tsc_added added;
    uint64_t n = 77, seen = 7, at = 0;
    bool may = true;
    open_caches(&store, 1, 1024);
    CHECK(tsc_open_shared(&store, 64, 1024, 2, 10, &LOW, 1, 9, &n) == TSC_OK);
    for (int i = 1; i < 4; i++) {
        tsc_span both[2] = {SPANS[0], SPANS[i]};
        CHECK(tsc_may_write(&store, FORMER, "bc", 2, both, 2, &READ, &may) == ANSWERS[i]);
        CHECK(tsc_seat_may_write(&store, n + 1, "bc", 2, both, 2, &READ, &seen, &may) == ANSWERS[i]);
    }
    tsc_value never = {INT64_MAX + UINT64_C(1), 0, {0}};
    CHECK(tsc_may_write(&store, FORMER, "bc", 2, SPANS, 1, &never, &may) == TSC_TIME && tsc_seat_may_write(&store, n + 1, "bc", 2, SPANS, 1, &never, &seen, &may) == TSC_TIME);
    CHECK(tsc_may_write(&store, n, "bc", 2, SPANS, 1, &READ, &may) == TSC_CLOSED && tsc_seat_may_write(&store, FORMER, "bc", 2, SPANS, 1, &READ, &seen, &may) == TSC_CLOSED);
    CHECK(may && seen == 7);
    CHECK(tsc_add(&store, FORMER, "b", 1, "", 0, TSC_POINT, &LAST, &AT_20, &added) == TSC_OK);
    CHECK(tsc_seat_add(&store, n + 1, "b", 1, "", 0, TSC_POINT, &LAST, &AT_20, 64, &at, &added) == TSC_OK);
    tsc_value write = {20, 0, {2}};
    CHECK(tsc_may_write(&store, FORMER, "bc", 2, SPANS, 1, &write, &may) == TSC_OK && !may);
    may = true;
    CHECK(tsc_seat_may_write(&store, n + 1, "bc", 2, SPANS, 1, &write, &seen, &may) == TSC_OK && !may && seen == 1);
    tsc_free(&store);
}

/* ---- at a seat */

/* One Add at a cache, and the same one at one of the seats in turn. */
static bool add_both(tsc_store *store, uint64_t seat, const char *from, const char *to,
                     uint64_t wall, uint8_t owner)
{
    tsc_value value = {wall, 0, {owner}};
    tsc_added added;
    uint64_t place;
    uint32_t ends = to ? TSC_EXCLUDE_TO : TSC_POINT;
    const char *end = to ? to : "";
    return add(store, FORMER, from, to, wall, owner) &&
           tsc_seat_add(store, seat, from, strlen(from), end, strlen(end), ends, &value, &AT_20,
                        64, &place, &added) == TSC_OK;
}

/* A seat tells what a cache tells to which the same was added, byte for byte, and goes on. */
static void seat_summaries(void)
{
    static uint8_t out[ROOM];
    static const char long_key[4098] = {0};
    enum { SHARED = 2, FIRST, SECOND, ADDS = 40 };
    tsc_store store = TSC_STORE_INIT;
    uint64_t handle = 77, seen = 77, adds = 77;
    size_t len = 99;
    tsc_added added;
    tsc_value latest;
    open_caches(&store, 2, 1024);
    CHECK(tsc_open_shared(&store, 64, 1024, 2, UINT64_C(1) << 62, &LOW, 2, 99, &handle) == TSC_OK);
    CHECK(handle == SHARED);
    for (uint64_t i = 0; i < ADDS; i++) {
        char key[3] = {'b', (char)('A' + i), 0};
        EACH(add_both(&store, FIRST + i % 2, key, i % 3 ? "c" : NULL, 30 + i, 1 + i % 2));
        for (size_t most = 0; most < 3; most++) {
            const struct told *t = tell(&store, FORMER, "a", "d", most ? most * i : 0);
            uint64_t seat = FIRST + (i + most) % 2;
            EACH(tsc_checked_seat_summary(&store, seat, "a", 1, "d", 1, TSC_EXCLUDE_TO,
                                          most ? most * i : 0, &seen, out, sizeof out,
                                          &len) == TSC_OK);
            EACH(seen == i + 1 && len == t->len && memcmp(out, t->bytes, len) == 0);
        }
    }
    CHECK(failed == 0);

    /* into a buffer that has room for them */
    const struct told *t = tell(&store, FORMER, "a", "d", SIZE_MAX);
    for (size_t room = 0; room <= t->len + 1; room++) {
        memset(out, 7, sizeof out);
        seen = len = 99;
        uint32_t answer =
            tsc_checked_seat_summary(&store, SECOND, "a", 1, "d", 1, TSC_EXCLUDE_TO, SIZE_MAX,
                                     &seen, room ? out : NULL, room, &len);
        EACH(seen == ADDS && len == t->len && answer == (room < len ? TSC_SHORT : TSC_OK));
        EACH(room < len ? out[0] == 7 : memcmp(out, t->bytes, len) == 0 && out[len] == 7);
    }
    CHECK(failed == 0);

    /* the next holder knows what all seats were told, and the shared cache goes on */
    CHECK(tsc_apply(&store, NEXT, t->bytes, t->len, &AT_20, &added) == TSC_OK);
    CHECK(known(&store, NEXT, "bB") == known(&store, FORMER, "bB"));
    CHECK(add_both(&store, FIRST, "bz", NULL, 90, 1));
    CHECK(tsc_checked_seat_get_max(&store, SECOND, "bz", 2, NULL, 0, TSC_POINT, &seen, &latest) ==
              TSC_OK &&
          latest.wall == 90 && seen == ADDS + 1);

    /* refused as a summary of a cache is, and nothing is written */
    memset(out, 7, sizeof out);
    seen = 77, len = 9;
    CHECK(tsc_seat_summary(&store, FIRST, "a", 1, "c", 1, 6, 9, &seen, out, 2, &len) == TSC_ENDS);
    CHECK(tsc_seat_summary(&store, FIRST, long_key, 4097, "c", 1, TSC_POINT, 9, &seen, out, 2,
                           &len) == TSC_KEY_TOO_LONG);
    CHECK(tsc_seat_summary(&store, FIRST, "c", 1, "a", 1, 0, 9, &seen, out, 2, &len) ==
          TSC_INVERTED);
    CHECK(tsc_seat_summary(&store, FORMER, "a", 1, "c", 1, 0, 9, &seen, out, 2, &len) ==
          TSC_CLOSED);
    CHECK(tsc_seat_summary(&store, SHARED, "a", 1, "c", 1, 0, 9, &seen, out, 2, &len) ==
          TSC_CLOSED);
    CHECK(tsc_seat_summary(&store, 5, "a", 1, "c", 1, 0, 9, &seen, out, 2, &len) == TSC_CLOSED);
    CHECK(seen == 77 && len == 9 && out[0] == 7 && out[1] == 7);
    CHECK(tsc_checked_seat_summary(NULL, FIRST, "a", 1, "c", 1, 0, 9, &seen, out, 2, &len) ==
          TSC_NULL);
    CHECK(tsc_checked_seat_summary(&store, FIRST, NULL, 1, "c", 1, 0, 9, &seen, out, 2, &len) ==
          TSC_NULL);
    CHECK(tsc_checked_seat_summary(&store, FIRST, "a", 1, NULL, 1, 0, 9, &seen, out, 2, &len) ==
          TSC_NULL);
    CHECK(tsc_checked_seat_summary(&store, FIRST, "a", 1, "c", 1, 0, 9, NULL, out, 2, &len) ==
          TSC_NULL);
    CHECK(tsc_checked_seat_summary(&store, FIRST, "a", 1, "c", 1, 0, 9, &seen, NULL, 2, &len) ==
          TSC_NULL);
    CHECK(tsc_checked_seat_summary(&store, FIRST, "a", 1, "c", 1, 0, 9, &seen, out, 2, NULL) ==
          TSC_NULL);
    CHECK(seen == 77 && len == 9 && out[0] == 7);

    /* each request for memory refused in turn */
    uint32_t answer = TSC_NO_MEMORY;
    uint64_t told = 0;
    for (refused_request = 1; answer == TSC_NO_MEMORY; refused_request++) {
        requests = 0;
        answer = tsc_seat_summary(&store, FIRST, "a", 1, "d", 1, TSC_EXCLUDE_TO, SIZE_MAX, &seen,
                                  out, ROOM, &len);
        EACH(answer == TSC_OK || (len == 9 && out[0] == 7 && seen == 77));
        told += answer == TSC_NO_MEMORY;
    }
    refused_request = 0;
    CHECK(answer == TSC_OK && told > 5 && out[0] == 1 && seen == ADDS + 1);

    /* a summary keeps nothing of the cache */
    CHECK(tsc_seat_close(&store, FIRST) == TSC_OK && tsc_seat_close(&store, SECOND) == TSC_OK);
    CHECK(tsc_close_shared(&store, SHARED, &adds) == TSC_OK && adds == ADDS + 1);
    tsc_free(&store);
}

int main(void)
{
    buffers();
    seat_summaries();
    marks();
    refused_spans();
    changed_bytes();
    forms();
    refused_applies();
    memory();
    nulls();
    pushes();
    may_writes();
    refused_writes();
    printf("%d passed, %d failed\n", passed, failed);
    return failed != 0;
}
