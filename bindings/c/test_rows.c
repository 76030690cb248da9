/* Plays the rows of bindings/rows.txt, whose head says what they are, on a cache, by one seat of
 * a shared cache, and by three seats in turn. With CHECKED it makes the calls that test for null.
 * It says at the end `N passed, M failed`. */
#include "tscache.h"

#include <inttypes.h>
#include <stdio.h>
#include <stdlib.h>
#include <string.h>

#ifdef CHECKED
#define tsc_open tsc_checked_open
#define tsc_open_shared tsc_checked_open_shared
#define tsc_open_striped tsc_checked_open_striped
#define tsc_move tsc_checked_move
#define tsc_add tsc_checked_add
#define tsc_add_all tsc_checked_add_all
#define tsc_get_max tsc_checked_get_max
#define tsc_low_water tsc_checked_low_water
#define tsc_figures_of tsc_checked_figures_of
#define tsc_earliest_write tsc_checked_earliest_write
#define tsc_may_write tsc_checked_may_write
#define tsc_summary tsc_checked_summary
#define tsc_apply tsc_checked_apply
#define tsc_seat_add tsc_checked_seat_add
#define tsc_seat_add_all tsc_checked_seat_add_all
#define tsc_seat_get_max tsc_checked_seat_get_max
#define tsc_seat_low_water tsc_checked_seat_low_water
#define tsc_seat_figures_of tsc_checked_seat_figures_of
#define tsc_seat_earliest_write tsc_checked_seat_earliest_write
#define tsc_seat_may_write tsc_checked_seat_may_write
#define tsc_free tsc_checked_free
#endif

enum { WORDS = 64, LONGEST = 5008, MARKS = 16, SEATS_MOST = 3, SUMMARIES = 26, SUMMARY = 32768 };

static int passed, failed;

/* A line: its words, before `=` and behind it. */
struct line {
    char *word[WORDS];
    int words, calls;
};

static void wrong_row(const char *why)
{
    fprintf(stderr, "rows.txt: %s\n0 passed, 1 failed\n", why);
    exit(1);
}

static struct line split(char *text)
{
    struct line l = {{NULL}, 0, -1};
    for (char *word = strtok(text, " \n"); word; word = strtok(NULL, " \n")) {
        if (strcmp(word, "=") == 0)
            l.calls = l.words;
        else if (l.words < WORDS)
            l.word[l.words++] = word;
        else
            wrong_row("a line of too many words");
    }
    return l;
}

/* Spans. */

struct span {
    uint8_t from[LONGEST], to[LONGEST];
    size_t from_len, to_len;
    uint32_t ends;
};

/* Reads a key up to one of `ends`, and gives what lies behind it. */
static const char *key(const char *text, const char *ends, uint8_t *bytes, size_t *len)
{
    *len = 0;
    while (*text && !strchr(ends, *text) && strncmp(text, "..", 2) != 0) {
        char digits[3] = {0}, *rest = NULL;
        uint8_t byte = (uint8_t)*text++;
        if (byte == '%') {
            memcpy(digits, text, 2);
            byte = (uint8_t)strtoul(digits, NULL, 16);
            text += 2;
        }
        unsigned long times = *text == '*' ? strtoul(text + 1, &rest, 10) : 1;
        if (rest)
            text = rest;
        if (*len + times > LONGEST)
            wrong_row("a key that is too long for this player");
        memset(bytes + *len, byte, times);
        *len += times;
    }
    return text;
}

static struct span span_of(const char *text)
{
    struct span s = {{0}, {0}, 0, 0, text[0] == '(' ? TSC_EXCLUDE_FROM : 0};
    text = key(text + 1, ",])", s.from, &s.from_len);
    if (strcmp(text, "]") == 0) {
        s.ends = TSC_POINT;
    } else if (strcmp(text, "..]") == 0) {
        s.ends |= TSC_ONWARD;
    } else {
        text = key(text + 1, "])", s.to, &s.to_len);
        s.ends |= *text == ')' ? TSC_EXCLUDE_TO : 0;
    }
    return s;
}

static tsc_time time_of(const char *text)
{
    char *dot;
    tsc_time t = {strtoull(text, &dot, 10), 0};
    t.logical = (uint32_t)strtoul(dot + 1, NULL, 10);
    return t;
}

static tsc_value value_of(const char *time, const char *owner)
{
    tsc_time t = time_of(time);
    tsc_value v = {t.wall, t.logical, {0}};
    memset(v.owner, owner[0] == '-' ? 0 : owner[0], 16);
    return v;
}

static const char *name_of(uint32_t answer)
{
    switch (answer) {
    case TSC_OK: return "done";
    case TSC_TIME: return "time";
    case TSC_KEY_TOO_LONG: return "key_too_long";
    case TSC_INVERTED: return "inverted";
    case TSC_TOO_LARGE: return "too_large";
    case TSC_PAGE_SIZE: return "page_size";
    case TSC_MIN_PAGES: return "min_pages";
    case TSC_RETENTION: return "retention";
    case TSC_SEATS: return "seats";
    case TSC_BUSY: return "busy";
    case TSC_FULL: return "full";
    case TSC_SUMMARY_VERSION: return "summary_version";
    case TSC_SUMMARY_LENGTH: return "summary_length";
    case TSC_SUMMARY_CHECKSUM: return "summary_checksum";
    case TSC_SUMMARY_FORM: return "summary_form";
    case TSC_TRIES: return "tries";
    case TSC_STRIPES: return "stripes";
    case TSC_BOUNDS: return "bounds";
    default: return tsc_text(answer);
    }
}

/* What a case is played on: a cache where there are no seats. */
struct table {
    tsc_store opened, stores[SEATS_MOST];
    uint64_t handle, handles[SEATS_MOST], adds[SEATS_MOST]; /* in stripes of each seat, else of all */
    uint32_t seats, turn, tries;
    bool is_striped;
    bool is_right; /* the places of Adds, and what seats have seen */
};

static void close_table(struct table *t)
{
    for (uint32_t i = 0; i < t->seats; i++)
        tsc_free(&t->stores[i]);
    tsc_free(&t->opened);
    t->turn = 0;
    memset(t->adds, 0, sizeof t->adds);
}

static uint32_t seat_all(struct table *t, uint32_t answer)
{
    for (uint32_t i = 0; answer == TSC_OK && i < t->seats; i++)
        answer = tsc_move(&t->opened, t->handle + 1 + i, &t->stores[i], &t->handles[i]);
    return answer;
}

/* Opens a cache in stripes. What stands behind the words for settings is a bound each. */
static uint32_t open_stripes(struct table *t, char *const *word, int words)
{
    static uint8_t keys[WORDS * LONGEST];
    static size_t lens[WORDS];
    tsc_time low = time_of(word[5]);
    size_t len = 0, count = 0;
    for (int i = 6; i < words; i++) {
        struct span s = span_of(word[i]);
        memcpy(keys + len, s.from, s.from_len);
        len += s.from_len;
        lens[count++] = s.from_len;
    }
    close_table(t);
    t->is_striped = true;
    return seat_all(t, tsc_open_striped(&t->opened, (uint32_t)strtoul(word[1], NULL, 10),
                                        (uint32_t)strtoul(word[2], NULL, 10),
                                        (uint32_t)strtoul(word[3], NULL, 10),
                                        strtoull(word[4], NULL, 10), &low, keys, len, lens, count,
                                        t->seats, &t->handle));
}

static uint32_t open_table(struct table *t, char *const *word)
{
    tsc_time low = time_of(word[5]);
    uint32_t first = (uint32_t)strtoul(word[1], NULL, 10),
             max = (uint32_t)strtoul(word[2], NULL, 10),
             pages = (uint32_t)strtoul(word[3], NULL, 10);
    uint64_t retention = strtoull(word[4], NULL, 10);
    close_table(t);
    t->is_striped = false;
    if (t->seats == 0)
        return tsc_open(&t->opened, first, max, pages, retention, &low, &t->handle);
    return seat_all(t, tsc_open_shared(&t->opened, first, max, pages, retention, &low, t->seats,
                                       strtoull(word[6], NULL, 10), &t->handle));
}

/* The seat whose turn it is. */
static uint32_t next_seat(struct table *t) { return t->turn++ % t->seats; }

static void has_seen(struct table *t, uint32_t i, uint32_t answer, uint64_t seen)
{
    t->is_right = t->is_right && (answer != TSC_OK || seen == t->adds[t->is_striped ? i : 0]);
}

static void is_added(struct table *t, uint32_t i, uint32_t answer, uint64_t place)
{
    has_seen(t, i, answer, place);
    t->adds[t->is_striped ? i : 0] += answer == TSC_OK;
}

static uint32_t add(struct table *t, const struct span *s, const tsc_value *v, const tsc_time *now,
                    tsc_added *out)
{
    if (t->seats == 0)
        return tsc_add(&t->opened, t->handle, s->from, s->from_len, s->to, s->to_len, s->ends, v,
                       now, out);
    uint32_t i = next_seat(t);
    uint64_t place = 0;
    uint32_t answer = tsc_seat_add(&t->stores[i], t->handles[i], s->from, s->from_len, s->to,
                                   s->to_len, s->ends, v, now, t->tries, &place, out);
    is_added(t, i, answer, place);
    return answer;
}

static uint32_t add_all(struct table *t, const uint8_t *keys, size_t keys_len,
                        const tsc_mark *marks, size_t len, const tsc_time *now, tsc_added *out)
{
    if (t->seats == 0)
        return tsc_add_all(&t->opened, t->handle, keys, keys_len, marks, len, now, out);
    uint32_t i = next_seat(t);
    uint64_t place = 0;
    uint32_t answer = tsc_seat_add_all(&t->stores[i], t->handles[i], keys, keys_len, marks, len,
                                       now, t->tries, &place, out);
    is_added(t, i, answer, place);
    return answer;
}

static uint32_t get_max(struct table *t, const struct span *s, tsc_value *out)
{
    if (t->seats == 0)
        return tsc_get_max(&t->opened, t->handle, s->from, s->from_len, s->to, s->to_len, s->ends,
                           out);
    uint32_t i = next_seat(t);
    uint64_t seen = 0;
    uint32_t answer = tsc_seat_get_max(&t->stores[i], t->handles[i], s->from, s->from_len, s->to,
                                       s->to_len, s->ends, &seen, out);
    has_seen(t, i, answer, seen);
    return answer;
}

static uint32_t low_water(struct table *t, tsc_time *out)
{
    if (t->seats == 0)
        return tsc_low_water(&t->opened, t->handle, out);
    uint32_t i = next_seat(t);
    uint64_t seen = 0;
    uint32_t answer = tsc_seat_low_water(&t->stores[i], t->handles[i], &seen, out);
    has_seen(t, i, answer, seen);
    return answer;
}

static uint32_t figures_of(struct table *t, tsc_figures *out)
{
    if (t->seats == 0)
        return tsc_figures_of(&t->opened, t->handle, out);
    uint32_t i = next_seat(t);
    uint64_t seen = 0;
    uint32_t answer = tsc_seat_figures_of(&t->stores[i], t->handles[i], &seen, out);
    has_seen(t, i, answer, seen);
    return answer;
}

static uint32_t earliest_write(struct table *t, const uint8_t *keys, size_t len,
                               const tsc_span *spans, size_t count, const tsc_value *write,
                               tsc_time *out)
{
    if (t->seats == 0)
        return tsc_earliest_write(&t->opened, t->handle, keys, len, spans, count, write, out);
    uint32_t i = next_seat(t);
    uint64_t seen = 0;
    uint32_t answer = tsc_seat_earliest_write(&t->stores[i], t->handles[i], keys, len, spans,
                                              count, write, &seen, out);
    has_seen(t, i, answer, seen);
    return answer;
}

static uint32_t may_write(struct table *t, const uint8_t *keys, size_t len, const tsc_span *spans,
                          size_t count, const tsc_value *write, bool *out)
{
    if (t->seats == 0)
        return tsc_may_write(&t->opened, t->handle, keys, len, spans, count, write, out);
    uint32_t i = next_seat(t);
    uint64_t seen = 0;
    uint32_t answer = tsc_seat_may_write(&t->stores[i], t->handles[i], keys, len, spans, count,
                                         write, &seen, out);
    has_seen(t, i, answer, seen);
    return answer;
}

/* Several spans, with their keys in one piece. */
struct question {
    uint8_t keys[2 * MARKS * LONGEST];
    size_t len, count;
    tsc_span spans[MARKS];
};

static void ask(struct question *q, char *const *words, int count)
{
    q->len = 0;
    q->count = (size_t)count;
    if (count > MARKS)
        wrong_row("too many spans");
    for (int i = 0; i < count; i++) {
        struct span s = span_of(words[i]);
        q->spans[i] = (tsc_span){q->len, s.from_len, q->len + s.from_len, s.to_len, s.ends};
        memcpy(q->keys + q->len, s.from, s.from_len);
        memcpy(q->keys + q->len + s.from_len, s.to, s.to_len);
        q->len += s.from_len + s.to_len;
    }
}

/* The earliest time at which a write may be made, and whether it may at once: it may just where
 * that is its own time, and it may at the time that is told. Both questions are refused alike. */
static uint32_t earliest(struct table *t, const struct question *q, tsc_value write, tsc_time *at,
                         bool *may)
{
    tsc_value at_told = write;
    bool then = false;
    uint32_t answer = earliest_write(t, q->keys, q->len, q->spans, q->count, &write, at),
             other = may_write(t, q->keys, q->len, q->spans, q->count, &write, may);
    bool is_told = answer == TSC_OK && at->wall == write.wall && at->logical == write.logical;
    if (answer != TSC_OK && answer != TSC_NO_TIME) {
        t->is_right = t->is_right && other == answer;
        return answer;
    }
    t->is_right = t->is_right && other == TSC_OK && *may == is_told;
    if (answer == TSC_OK) {
        at_told.wall = at->wall;
        at_told.logical = at->logical;
        other = may_write(t, q->keys, q->len, q->spans, q->count, &at_told, &then);
        t->is_right = t->is_right && other == TSC_OK && then;
    }
    return answer;
}

/* Summaries by their names. */

struct summary {
    uint8_t bytes[SUMMARY];
    size_t len;
};

static struct summary summaries[SUMMARIES];

static struct summary *named(const char *name)
{
    if (name[0] < 'a' || name[0] > 'z' || name[1])
        wrong_row("the name of a summary is one small letter");
    return &summaries[name[0] - 'a'];
}

/* Takes a summary. Where there is less room than it takes, its length alone is told. */
static uint32_t summary(struct table *t, const struct span *s, size_t most, struct summary *out)
{
    static uint8_t bytes[SUMMARY];
    size_t len = 0;
    memset(bytes, 0xEE, sizeof bytes);
    uint32_t answer = tsc_summary(&t->opened, t->handle, s->from, s->from_len, s->to, s->to_len,
                                  s->ends, most, bytes, 0, &len);
    if (answer != TSC_SHORT)
        return answer;
    if (len > SUMMARY)
        wrong_row("a summary that is too long for this player");
    out->len = len;
    for (size_t room = len - 1; room <= len + 1; room++) {
        len = 0;
        answer = tsc_summary(&t->opened, t->handle, s->from, s->from_len, s->to, s->to_len,
                             s->ends, most, bytes, room, &len);
        bool is_short = room < out->len;
        t->is_right = t->is_right && len == out->len &&
                      answer == (uint32_t)(is_short ? TSC_SHORT : TSC_OK) &&
                      bytes[out->len] == 0xEE && (!is_short || bytes[0] == 0xEE);
    }
    memcpy(out->bytes, bytes, len);
    return answer;
}

static uint32_t apply(struct table *t, const uint8_t *bytes, size_t len, const char *moment,
                      tsc_added *a)
{
    tsc_time now = time_of(moment);
    return tsc_apply(&t->opened, t->handle, bytes, len, &now, a);
}

/* What each beginning of a summary is answered, and the whole with a byte behind it, if that is
 * one answer. */
static uint32_t cuts(struct table *t, const struct summary *s, const char *moment)
{
    tsc_added a;
    uint32_t answer = apply(t, s->bytes, 0, moment, &a);
    for (size_t len = 0; len <= s->len + 1; len++)
        t->is_right =
            t->is_right && (len == s->len || apply(t, s->bytes, len, moment, &a) == answer);
    return answer;
}

/* What a summary is answered where one byte of some places is another, if that is one answer. */
static uint32_t changes(struct table *t, const struct summary *s, char *const *word)
{
    static const uint8_t CHANGES[] = {0x01, 0x10, 0x80, 0xFF};
    static struct summary changed;
    size_t first = strtoul(word[2], NULL, 10),
           last = word[3][0] == '-' ? s->len - 1 : strtoul(word[3], NULL, 10);
    uint32_t answer = TSC_OK;
    tsc_added a;
    for (size_t place = first; place <= last; place++) {
        for (size_t i = 0; i < sizeof CHANGES; i++) {
            changed = *s;
            changed.bytes[place] ^= CHANGES[i];
            uint32_t told = apply(t, changed.bytes, changed.len, word[4], &a);
            if (answer == TSC_OK)
                answer = told;
            t->is_right = t->is_right && told == answer;
        }
    }
    return answer;
}

static void take(struct summary *s, const char *hex)
{
    for (s->len = 0; hex[2 * s->len]; s->len++) {
        char digits[3] = {hex[2 * s->len], hex[2 * s->len + 1], 0};
        if (s->len == SUMMARY)
            wrong_row("bytes that are too many for this player");
        s->bytes[s->len] = (uint8_t)strtoul(digits, NULL, 16);
    }
}

/* Calls. Each writes what it was answered as the rows say it. */

static void say_added(char *told, uint32_t answer, const tsc_added *a)
{
    if (answer != TSC_OK)
        strcpy(told, name_of(answer));
    else
        sprintf(told, "%d %d %" PRIu64, a->kept, a->rotated, a->evicted);
}

static void batch(struct table *t, const struct line *l, char *told)
{
    static uint8_t keys[2 * MARKS * LONGEST];
    static const tsc_mark none;
    tsc_mark marks[MARKS] = {none};
    tsc_time now = time_of(l->word[1]);
    tsc_added a;
    size_t len = 0, count = 0;
    for (int i = 2; i + 2 < l->calls; i += 3) {
        struct span s = span_of(l->word[i]);
        if (count == MARKS)
            wrong_row("a batch of too many marks");
        marks[count++] = (tsc_mark){len,
                                    s.from_len,
                                    len + s.from_len,
                                    s.to_len,
                                    value_of(l->word[i + 1], l->word[i + 2]),
                                    s.ends};
        memcpy(keys + len, s.from, s.from_len);
        memcpy(keys + len + s.from_len, s.to, s.to_len);
        len += s.from_len + s.to_len;
    }
    say_added(told, add_all(t, keys, len, marks, count, &now, &a), &a);
}

static void call(struct table *t, const struct line *l, char *told)
{
    char *const *w = l->word;
    tsc_added a;
    if (strcmp(w[0], "open") == 0) {
        strcpy(told, name_of(open_table(t, w)));
    } else if (strcmp(w[0], "stripes") == 0) {
        strcpy(told, name_of(open_stripes(t, w, l->calls)));
    } else if (strcmp(w[0], "seats") == 0) {
        tsc_store store = {NULL};
        tsc_time low = {5, 0};
        uint64_t n;
        strcpy(told, name_of(tsc_open_shared(&store, 132, 132, 2, 10, &low,
                                             (uint32_t)strtoul(w[1], NULL, 10), 9, &n)));
        tsc_free(&store);
    } else if (strcmp(w[0], "tries") == 0) {
        t->tries = (uint32_t)strtoul(w[1], NULL, 10);
        strcpy(told, "done");
    } else if (strcmp(w[0], "add") == 0) {
        struct span s = span_of(w[1]);
        tsc_value v = value_of(w[2], w[3]);
        tsc_time now = time_of(w[4]);
        say_added(told, add(t, &s, &v, &now, &a), &a);
    } else if (strcmp(w[0], "batch") == 0) {
        batch(t, l, told);
    } else if (strcmp(w[0], "get") == 0) {
        struct span s = span_of(w[1]);
        tsc_value v;
        uint32_t answer = get_max(t, &s, &v);
        if (answer == TSC_OK)
            sprintf(told, "%" PRIu64 ".%" PRIu32 " %c", v.wall, v.logical,
                    v.owner[0] ? v.owner[0] : '-');
        for (int i = 1; answer == TSC_OK && i < 16; i++)
            t->is_right = t->is_right && v.owner[i] == v.owner[0];
    } else if (strcmp(w[0], "low") == 0) {
        tsc_time low;
        if (low_water(t, &low) == TSC_OK)
            sprintf(told, "%" PRIu64 ".%" PRIu32, low.wall, low.logical);
    } else if (strcmp(w[0], "figures") == 0) {
        tsc_figures f;
        if (figures_of(t, &f) == TSC_OK)
            sprintf(told, "%" PRIu64 " %" PRIu64 " %" PRIu64 " %" PRIu64, f.pages, f.rotations,
                    f.nodes, f.bytes);
    } else if (strcmp(w[0], "may") == 0 || strcmp(w[0], "earliest") == 0) {
        static struct question q;
        tsc_time at = {0, 0};
        bool may = false;
        ask(&q, w + 3, l->calls - 3);
        uint32_t answer = earliest(t, &q, value_of(w[1], w[2]), &at, &may);
        if (answer != TSC_OK && answer != TSC_NO_TIME)
            strcpy(told, name_of(answer));
        else if (strcmp(w[0], "may") == 0)
            strcpy(told, may ? "yes" : "no");
        else if (answer == TSC_OK)
            sprintf(told, "%" PRIu64 ".%" PRIu32, at.wall, at.logical);
        else
            strcpy(told, "none");
    } else if (strcmp(w[0], "summary") == 0) {
        struct span s = span_of(w[2]);
        struct summary *named_so = named(w[1]);
        size_t most = strcmp(w[3], "all") == 0 ? SIZE_MAX : strtoul(w[3], NULL, 10);
        uint32_t answer = summary(t, &s, most, named_so);
        if (answer == TSC_OK)
            sprintf(told, "%zu", named_so->len);
        else
            strcpy(told, name_of(answer));
    } else if (strcmp(w[0], "take") == 0) {
        take(named(w[1]), w[2]);
        strcpy(told, "done");
    } else if (strcmp(w[0], "same") == 0) {
        const struct summary *one = named(w[1]), *other = named(w[2]);
        bool is_same = one->len == other->len && memcmp(one->bytes, other->bytes, one->len) == 0;
        strcpy(told, is_same ? "yes" : "no");
    } else if (strcmp(w[0], "apply") == 0) {
        const struct summary *s = named(w[1]);
        say_added(told, apply(t, s->bytes, s->len, w[2], &a), &a);
    } else if (strcmp(w[0], "cuts") == 0) {
        strcpy(told, name_of(cuts(t, named(w[1]), w[2])));
    } else if (strcmp(w[0], "changes") == 0) {
        strcpy(told, name_of(changes(t, named(w[1]), w)));
    } else {
        wrong_row(w[0]);
    }
}

static void play(FILE *file, uint32_t seats)
{
    static char text[8192], copy[8192];
    struct table t = {0};
    bool is_played = false;
    t.seats = seats;
    for (int number = 1; fgets(text, sizeof text, file); number++) {
        strcpy(copy, text);
        struct line l = split(copy);
        if (l.words == 0 || text[0] == '#')
            continue;
        if (l.calls < 0) { /* the name of a case */
            is_played = strcmp(l.word[0], seats == 0 ? "seats" : "cache") != 0;
            t.tries = 64;
            continue;
        }
        if (!is_played)
            continue;
        if (strcmp(l.word[0], "seat") == 0 && l.calls > 2) {
            t.turn = (uint32_t)strtoul(l.word[1], NULL, 10);
            memmove(l.word, l.word + 2, (size_t)(l.words - 2) * sizeof *l.word);
            l.words -= 2;
            l.calls -= 2;
        }
        char told[128] = "refused", wanted[128] = "";
        t.is_right = true;
        call(&t, &l, told);
        for (int i = l.calls; i < l.words; i++)
            strcat(strcat(wanted, i == l.calls ? "" : " "), l.word[i]);
        if (t.is_right && strcmp(told, wanted) == 0) {
            passed++;
        } else {
            failed++;
            printf("rows.txt:%d, %u seats: %s%s: %s", number, seats, told,
                   t.is_right ? "" : ", of a wrong place", text);
        }
    }
    close_table(&t);
}

int main(void)
{
    static const uint32_t SEATS[] = {0, 1, SEATS_MOST};
    for (size_t i = 0; i < sizeof SEATS / sizeof *SEATS; i++) {
        FILE *file = fopen(ROWS, "r");
        if (!file)
            wrong_row("it can't be read");
        play(file, SEATS[i]);
        fclose(file);
    }
    printf("%d passed, %d failed\n", passed, failed);
    return failed != 0;
}
