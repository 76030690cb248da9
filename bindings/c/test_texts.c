/* Tests of the calls from bytes to texts, through the header alone. The script `scripts/test library` builds and runs it, with EXAMPLES as the
 * folder of the traces and logs of the repository. Linked with -Wl,--wrap=malloc,--wrap=realloc, so that each request for memory can be
 * refused in turn. */
#include "tscache.h"
#include <inttypes.h>
#include <stdio.h>
#include <stdlib.h>
#include <string.h>

static int passed, failed;

static void check(bool holds, const char *file, int line, const char *what)
{
    if (holds) {
        passed++;
    } else {
        failed++;
        printf("%s:%d: %s\n", file, line, what);
    }
}
#define CHECK(x) check((x), __FILE__, __LINE__, #x)

/* Memory: the request that is refused, counted from 1, and how many were made. */

static uint64_t requests, refused_request;
void *__real_malloc(size_t size);
void *__real_realloc(void *block, size_t size);

void *__wrap_malloc(size_t size)
{
    return ++requests == refused_request ? NULL : __real_malloc(size);
}

void *__wrap_realloc(void *block, size_t size)
{
    return ++requests == refused_request ? NULL : __real_realloc(block, size);
}

/* Bytes, and what is said of them. */

struct bytes {
    const void *at;
    size_t len;
};

static struct bytes of(const char *text)
{
    return (struct bytes){text, strlen(text)};
}

static const struct bytes NO_BYTES = {NULL, 0};

/* What is asked: a replay of a trace, or the check of a log beside it. */
struct question {
    struct bytes trace, log;
    bool checks;
};

static uint32_t ask(struct question q, void *out, size_t room, size_t *len)
{
    if (q.checks)
        return tsc_checked_check(q.trace.at, q.trace.len, q.log.at, q.log.len, out, room, len);
    return tsc_checked_replay(q.trace.at, q.trace.len, out, room, len);
}

/* Whether all of these bytes are as they were filled. */
static bool is_filled(const uint8_t *bytes, size_t len)
{
    for (size_t i = 0; i < len; i++)
        if (bytes[i] != 0xa5)
            return false;
    return true;
}

/* Asks with so much room, in a block of just that size, where sanitizers see each byte beyond it. Where memory was refused nothing may be
 * written, and it tells so. */
static uint32_t asked_with(struct question q, size_t room, uint32_t code, struct bytes text, bool *right)
{
    uint8_t *out = __real_malloc(room + !room);
    size_t len = 99;
    memset(out, 0xa5, room + !room);
    uint32_t answer = ask(q, out, room, &len);
    if (answer == TSC_NO_MEMORY) {
        *right = *right && len == 99 && is_filled(out, room);
    } else if (room < text.len) {
        *right = *right && answer == TSC_SHORT && len == text.len && is_filled(out, room);
    } else {
        *right = *right && answer == code && len == text.len && memcmp(out, text.at, text.len) == 0 && is_filled(out + text.len, room - text.len);
    }
    free(out);
    return answer;
}

static bool says_with(struct question q, size_t room, uint32_t code, struct bytes text)
{
    bool right = true;
    return asked_with(q, room, code, text, &right) != TSC_NO_MEMORY && right;
}

/* Each request for memory is refused in turn. Where another way is found the same is said, and else it is told, and the call that is made
 * again is done. At least one request, the one for the text, is always told. */
static uint64_t grew, told;

static bool tells_refusals(struct question q, uint32_t code, struct bytes text)
{
    bool right = true;
    requests = refused_request = 0;
    right = asked_with(q, text.len, code, text, &right) == code && right;
    uint64_t all = requests, before = told;
    for (uint64_t n = 1; n <= all; n++) {
        requests = 0;
        refused_request = n;
        uint32_t answer = asked_with(q, text.len, code, text, &right);
        right = right && (answer == code || answer == TSC_NO_MEMORY);
        told += answer == TSC_NO_MEMORY;
        right = asked_with(q, text.len, code, text, &right) == code && right;
    }
    refused_request = 0;
    grew += all;
    return right && told > before;
}

/* What is said, with each room around the length of the text, and without any. */
static bool says(struct question q, uint32_t code, struct bytes text)
{
    bool right = says_with(q, 0, code, text) && says_with(q, 1, code, text) && says_with(q, 2 * text.len, code, text);
    for (size_t room = text.len > 2 ? text.len - 2 : 0; room <= text.len + 2; room++)
        right = right && says_with(q, room, code, text);
    return right && tells_refusals(q, code, text);
}

static bool replays(struct bytes trace, uint32_t code, struct bytes text)
{
    return says((struct question){trace, NO_BYTES, false}, code, text);
}

static bool checks(struct bytes trace, struct bytes log, uint32_t code, struct bytes text)
{
    return says((struct question){trace, log, true}, code, text);
}

/* The examples of the repository. */

static struct bytes file(const char *name, const char *end)
{
    char path[4096];
    snprintf(path, sizeof path, "%s/%s.%s", EXAMPLES, name, end);
    FILE *file = fopen(path, "rb");
    uint8_t *at = __real_malloc(1 << 16);
    size_t len = file ? fread(at, 1, 1 << 16, file) : 0;
    if (file)
        fclose(file);
    CHECK(len > 0 && len < 1 << 16);
    return (struct bytes){at, len};
}

static void examples(void)
{
    static const struct {
        const char *name;
        bool is_replayed; /* and not a log of threads */
    } EXAMPLE[] = {{"at_the_floor", true}, {"ends_of_spans", true}, {"pages_rotate", true}, {"several_spans", true}, {"two_readers", true}, {"two_threads", false}};
    for (size_t i = 0; i < sizeof EXAMPLE / sizeof EXAMPLE[0]; i++) {
        struct bytes trace = file(EXAMPLE[i].name, "json"), log = file(EXAMPLE[i].name, "log");
        CHECK(!EXAMPLE[i].is_replayed || replays(trace, TSC_OK, log));
        CHECK(checks(trace, log, TSC_OK, of("right\n")));
        CHECK(checks(log, trace, TSC_REFUSED, of("trace refused: fault 1"))); /* each in the place of the other */
        CHECK(checks(trace, trace, TSC_REFUSED, of("log refused: fault 1 at line 1")));
        CHECK(checks(trace, NO_BYTES, TSC_OK, of("wrong call 1\n")));
        free((void *)log.at);
        free((void *)trace.at);
    }
}

/* Logs that tell something else, and bytes that are no trace, or no log. */
static const char TRACE[] = "{\"page_first\":132,\"page_max\":132,\"min_pages\":2,\"retention\":10,\"low_water\":[5,0],\"threads\":[["
                            "{\"op\":\"add\",\"span\":{\"start\":\"61\"},\"time\":[20,0],\"now\":[20,0]},{\"op\":\"get\",\"span\":{\"start\":\"61\"}}]]}";
static const char LOG[] = "0 0 add 0 1 0 0\n0 1 get 1 20.0 none\n";

static void rows(void)
{
    CHECK(replays(of(TRACE), TSC_OK, of(LOG)));
    CHECK(replays(of("["), TSC_REFUSED, of("trace refused: fault 1")));
    CHECK(replays(NO_BYTES, TSC_REFUSED, of("trace refused: fault 1")));
    CHECK(replays((struct bytes){"\0", 1}, TSC_REFUSED, of("trace refused: fault 1")));
    CHECK(replays((struct bytes){TRACE, sizeof TRACE}, TSC_REFUSED, of("trace refused: fault 1"))); /* with the zero at its end */
    CHECK(replays((struct bytes){TRACE, sizeof TRACE - 2}, TSC_REFUSED, of("trace refused: fault 1")));
    CHECK(replays(of("{\"threads\":[[{\"op\":\"low\"}]]}"), TSC_REFUSED, of("trace refused: fault 2 at call 0")));
    CHECK(checks(of(TRACE), of(LOG), TSC_OK, of("right\n")));
    CHECK(checks(of(TRACE), of("0 0 add 0 1 0 0\n0 1 get 1 5.0 none\n"), TSC_OK, of("wrong answer 2\n")));
    CHECK(checks(of(TRACE), of("0 0 add"), TSC_REFUSED, of("log refused: fault 1 at line 1")));
    CHECK(checks(of("["), of(LOG), TSC_REFUSED, of("trace refused: fault 1")));
    CHECK(checks(NO_BYTES, NO_BYTES, TSC_REFUSED, of("trace refused: fault 1")));
}

/* As many bytes as there may be, and one more. */
static void longest(void)
{
    enum { MOST = 16777216 };
    uint8_t *blanks = __real_malloc(MOST + 1);
    memset(blanks, ' ', MOST + 1);
    memcpy(blanks, TRACE, sizeof TRACE - 1);
    struct bytes most = {blanks, MOST}, more = {blanks, MOST + 1}, text = of("input too long");
    struct question replay = {most, NO_BYTES, false}, replay_more = {more, NO_BYTES, false};
    CHECK(says_with(replay, sizeof LOG, TSC_OK, of(LOG)) && says_with(replay, 0, TSC_OK, of(LOG)));
    CHECK(says_with(replay_more, text.len, TSC_REFUSED, text) && says_with(replay_more, text.len - 1, TSC_REFUSED, text));
    struct question right = {most, of(LOG), true}, right_more = {more, of(LOG), true};
    CHECK(says_with(right, 6, TSC_OK, of("right\n")) && says_with(right, 0, TSC_OK, of("right\n")) && says_with(right_more, text.len, TSC_REFUSED, text));
    struct question log = {of(TRACE), most, true}, log_more = {of(TRACE), more, true};
    CHECK(says_with(log, 99, TSC_REFUSED, of("log refused: fault 1 at line 1")) && says_with(log_more, text.len, TSC_REFUSED, text));
    free(blanks);
}

/* Null pointers, with and without a length. */
static void nulls(void)
{
    uint8_t out[64];
    size_t len = 99;
    memset(out, 0xa5, sizeof out);
    CHECK(tsc_checked_replay(NULL, 1, out, sizeof out, &len) == TSC_NULL && tsc_checked_replay(TRACE, 1, NULL, 1, &len) == TSC_NULL);
    CHECK(tsc_checked_replay(TRACE, 1, out, sizeof out, NULL) == TSC_NULL);
    CHECK(tsc_checked_check(NULL, 1, LOG, 1, out, sizeof out, &len) == TSC_NULL && tsc_checked_check(TRACE, 1, NULL, 1, out, sizeof out, &len) == TSC_NULL);
    CHECK(tsc_checked_check(TRACE, 1, LOG, 1, NULL, 1, &len) == TSC_NULL && tsc_checked_check(TRACE, 1, LOG, 1, out, sizeof out, NULL) == TSC_NULL);
    CHECK(len == 99 && is_filled(out, sizeof out));
    CHECK(tsc_checked_replay(TRACE, sizeof TRACE - 1, NULL, 0, &len) == TSC_SHORT && len == sizeof LOG - 1);
    CHECK(tsc_checked_check(TRACE, sizeof TRACE - 1, LOG, sizeof LOG - 1, NULL, 0, &len) == TSC_SHORT && len == 6);
    CHECK(tsc_checked_replay(NULL, 0, out, sizeof out, &len) == TSC_REFUSED && len == 22);
    CHECK(strcmp(tsc_text(TSC_REFUSED), "the bytes are refused, and the text says why") == 0);
    CHECK(strcmp(tsc_text(TSC_SHORT), "what is told is longer than the buffer") == 0);
}

int main(void)
{
    rows();
    examples();
    longest();
    nulls();
    printf("each of %" PRIu64 " requests for memory was refused in turn, and %" PRIu64 " were told\n", grew, told);
    printf("%d passed, %d failed\n", passed, failed);
    return failed != 0;
}
