/* tscache.h: the timestamp cache for C and C++.
 *
 * A timestamp cache remembers the latest time at which each span of keys was read, and by which
 * transaction. A database asks it before a write: a write at or below the time that a lookup of
 * its span answers would change what was read, and has to move up. The cache is bounded: where its
 * pages are full the oldest ones are dropped, and a floor answers for them. An answer may be later
 * than the reads that there were, and never earlier.
 *
 *     tsc_store store = TSC_STORE_INIT;   // owns nothing yet
 *     uint64_t n;                         // the handle of a cache in it
 *     tsc_time low = {5, 0}, now = {20, 0};
 *     tsc_value read = {20, 0, {0x11}}, latest;
 *     tsc_added added;
 *     if (tsc_open(&store, 4096, 65536, 2, 10000000000, &low, &n)) return 1;
 *     // [a, c) was read at 20. A read that is not remembered must not be answered.
 *     if (tsc_checked_add(&store, n, "a", 1, "c", 1, TSC_EXCLUDE_TO, &read, &now, &added))
 *         return 1;
 *     if (tsc_checked_get_max(&store, n, "b", 1, NULL, 0, TSC_POINT, &latest)) return 1;
 *     // latest.wall is 20
 *     tsc_free(&store);
 *
 * When a write may be made: at a time above what a lookup of its span answers, or at that very
 * time where its transaction owns the answer, which sixteen zeros never do. Else the earliest time
 * that will do is the answer's if the transaction owns it, and if not the one after it, which
 * `tsc_next` tells. Each of several spans has to let the write pass, so a database goes from span
 * to span, on to a later time where one asks for that, and never back: `tsc_earliest_write` and
 * `tsc_seat_earliest_write` do, and `tsc_may_write` and `tsc_seat_may_write` tell whether a write
 * may be made at once. The trap: an own answer at 30 hides a read of somebody else at 20, so that
 * a write at 25 is never let pass because the answer is its own.
 *
 * Each function of the library but `tsc_built` is proved, over whatever numbers and bytes it is
 * given, to return and to keep its contract, which docs/PROOFS.md sets beside what is tested alone.
 * Those that are written out below are C, and tested. All that holds if the caller keeps to this:
 *
 *   - A `tsc_store` begins as TSC_STORE_INIT, and only these functions change it. What it leads to
 *     is the library's: no one else reads, writes or frees it. A store may be moved (the old
 *     memory is a store no more); it is never copied and used twice.
 *   - Each pointer leads to as much as its type and the length after it say, which nothing else
 *     writes until the call returns. What a call writes (a store, a handle, an `out`) overlaps
 *     nothing else that it is given; `from` and `to` may be the same bytes. No pointer is null,
 *     and none but those of bytes and marks has a length. Each call has one beside it, with
 *     `checked_` in its name, that tests for null, and takes null for no bytes.
 *   - The calls of one store come one at a time, and each sees what the last one did: one thread,
 *     or a lock round each call, or the start or the end of a thread between them. A store may go
 *     from thread to thread in this way. Different stores may be used at once, also where both
 *     have seats of one shared cache, which is all that they can have in common. Each call writes
 *     to its store, so stores that threads use at once should lie 128 bytes apart, or their calls
 *     are up to twice as slow.
 *   - No call comes from a signal handler, or from the forked child of a process that has threads.
 *   - `malloc`, `realloc` and `free` are one allocator, which aligns a block to each power of two
 *     up to 16 that divides its size.
 *
 * Who owns what: an Add copies the bytes of its keys, a lookup copies nothing, and no call keeps a
 * pointer that it is given. All memory that a call takes belongs to the store until `tsc_close`
 * (one cache) or `tsc_free` (all of them, and the store's own). The store's own is enough for as
 * many handles as were open at once, so a store that opens and closes for ever does not grow. A
 * shared cache belongs to its handle and to its seats together, and is freed with the last of
 * these. Lookups and the calls for writes, floors and figures take no memory, but for figures in
 * stripes, and neither does a call that closes. What `tsc_summary`, `tsc_seat_summary`,
 * `tsc_replay` and `tsc_check` take they free before they return.
 *
 * A cache that threads share has seats, each for one thread at a time. A program opens it, and
 * moves each seat to a store of its own, which it hands to a thread:
 *
 *     uint64_t n, seat, at, seen, adds;
 *     uint32_t did;
 *     tsc_store theirs = TSC_STORE_INIT;   // the store of another thread
 *     // two seats, n + 1 and n + 2
 *     if (tsc_open_shared(&store, 4096, 65536, 2, 10000000000, &low, 2, UINT64_MAX, &n)) return 1;
 *     // the other thread's seat is `seat` in `theirs`
 *     if (tsc_move(&store, n + 2, &theirs, &seat)) return 1;
 *     while ((did = tsc_checked_seat_add(&store, n + 1, "a", 1, "c", 1, TSC_EXCLUDE_TO, &read,
 *                                        &now, 64, &at, &added)) == TSC_BUSY)
 *         thrd_yield();
 *     if (did) return 1;
 *     // in the other thread
 *     if (tsc_checked_seat_get_max(&theirs, seat, "b", 1, NULL, 0, TSC_POINT, &seen, &latest))
 *         return 1;
 *     tsc_seat_close(&theirs, seat);        // each seat is handed in,
 *     tsc_seat_close(&store, n + 1);
 *     tsc_close_shared(&store, n, &adds);   // and then there were so many Adds
 */
#ifndef TSCACHE_H
#define TSCACHE_H

#include <stdbool.h>
#include <stddef.h>
#include <stdint.h>

#ifdef __cplusplus
extern "C" {
#endif

/* Stands before each call whose answer says whether a read was remembered, or whether a write may
 * be made. The compiler warns where a program drops that answer. */
#if (defined(__cplusplus) && __cplusplus >= 201703L) || \
    (defined(__STDC_VERSION__) && __STDC_VERSION__ >= 202311L)
#define TSC_NODISCARD [[nodiscard]]
#elif defined(__GNUC__)
#define TSC_NODISCARD __attribute__((warn_unused_result))
#else
#define TSC_NODISCARD
#endif

/* The version of this header: a million for each major number, a thousand for each minor one, and
 * the patch. Before 1.0 each minor version may change what stands here, and CHANGELOG.md says
 * how. */
#define TSC_VERSION_MAJOR 0
#define TSC_VERSION_MINOR 1
#define TSC_VERSION_PATCH 0
#define TSC_VERSION (TSC_VERSION_MAJOR * 1000000 + TSC_VERSION_MINOR * 1000 + TSC_VERSION_PATCH)

/* The version of the library that is linked, which should be TSC_VERSION. */
uint32_t tsc_version(void);

/* How the library that is linked was built. */
typedef struct {
    const char *version; /* as "0.1.0" */
    const char *commit;  /* the full hash of its sources' commit, or "unknown" */
    const char *kit;     /* the kit that compiled it, and the logic that proved it */
    bool proved;         /* whether it was proved as it was built */
} tsc_build;

/* What a program writes into its log, so that one knows later what it ran on. The texts stand in
 * the program for good, and nobody frees them. */
const tsc_build *tsc_built(void);

/* What a call answers: TSC_OK, or why it was refused. A call that is refused adds nothing to a
 * cache, and writes nothing but to the store (and with TSC_REFUSED and TSC_SHORT what is said
 * there).
 *
 * What is wrong with a call is told also where no memory is left: TSC_NO_MEMORY says that all that
 * was asked is right. All marks of a batch are looked at before a key is copied. Only `tsc_apply`,
 * `tsc_replay` and `tsc_check` may tell it of wrong bytes, which they read into memory. Where
 * several things are wrong, one of them is told. */
enum {
    TSC_OK = 0,
    TSC_CLOSED = 1,       /* the handle names nothing in this store, or nothing of this kind: it
                           * was closed, moved, or never given */
    TSC_TIME = 2,         /* a wall time is above 2^63 - 1, or a logical count above 2^31 - 1 */
    TSC_ENDS = 3,         /* `ends` is none of the sums named below */
    TSC_KEY_TOO_LONG = 4, /* a key of a span to be added, or a bound of stripes, has more than 4096
                           * bytes; a lookup takes any */
    TSC_INVERTED = 5,     /* of a span that is to be added, written or summarized the first key is
                           * greater than the second */
    TSC_TOO_LARGE = 6,    /* a span to be added costs more than page_max: 32 and its bytes for each
                           * key */
    TSC_OUTSIDE = 7,      /* a key of a mark or of a span does not lie among `keys`; or the lengths
                           * of bounds do not use up `keys` */
    TSC_PAGE_SIZE = 8,    /* page_first is below 64 or above page_max, or that is above 2^30, or in
                           * stripes below 8,256 */
    TSC_MIN_PAGES = 9,    /* min_pages is 0 or above 64 */
    TSC_RETENTION = 10,   /* retention is above 2^63 - 1 */
    TSC_NO_MEMORY = 11,   /* malloc or realloc refused, and nothing else is wrong with the call, nor
                            * is a history full; told by no call that takes no memory */
    TSC_SEATS = 12,       /* there were to be no seats, or more than 64 of a shared cache */
    TSC_STILL_OUT = 13,   /* a seat of the shared cache, or of one in stripes, was not handed in */
    TSC_BUSY = 14,        /* others were in the way at each of the tries: another Add, or a lookup;
                           * in stripes a lookup is told so too */
    TSC_FULL = 15,        /* the shared cache has had as many Adds as `limit` says; or a seat in
                           * stripes has made 2^64 - 1; or the store has given 2^64 - 1 handles */
    TSC_REFUSED = 16,     /* of tsc_replay and tsc_check: the text says why the bytes are no trace,
                           * or no log */
    TSC_SHORT = 17,       /* of the same, and of tsc_summary and tsc_seat_summary: what is told is
                           * longer than `room`, and `*len` says how long */
    TSC_NO_TIME = 18,     /* a read of somebody else stands at the last time, so a write may be
                           * made at none */
    TSC_SUMMARY_VERSION = 19,  /* of tsc_apply, as those below: the bytes are a summary of another
                                * version */
    TSC_SUMMARY_LENGTH = 20,   /* some bytes of the summary are missing, or there are more than it
                                * has */
    TSC_SUMMARY_CHECKSUM = 21, /* the summary was changed: its digest is another one */
    TSC_SUMMARY_FORM = 22,     /* the digest is right, and what it is of is no summary: its sender
                                * made it wrong */
    TSC_TRIES = 23,       /* `tries` is 0, by which no Add is ever made */
    TSC_STRIPES = 24,     /* there were to be more than 1,024 stripes */
    TSC_BOUNDS = 25,      /* a bound of stripes is not above the one before it, or the first one is
                           * the key without bytes */
    TSC_NULL = 255        /* a pointer is null: told by the calls with `checked_` in their names
                           * alone */
};

/* The ends of a span: TSC_POINT, or TSC_ONWARD with or without TSC_EXCLUDE_FROM, or any sum of the
 * first two, 0 too. From a key to that same key with one end excluded, [a, a) or (a, a], is the
 * key itself: it is neither empty nor inverted. */
enum {
    TSC_EXCLUDE_FROM = 1, /* `from` itself is no part of it */
    TSC_EXCLUDE_TO = 2,   /* `to` itself is no part of it */
    TSC_ONWARD = 4,       /* all keys from `from` on; `to` is passed over */
    TSC_POINT = 8         /* the key `from` alone; `to` is passed over */
};

/* A store that owns caches. It begins as TSC_STORE_INIT, or as zeros, which own nothing:
 * `tsc_store store = TSC_STORE_INIT;`. Its memory does not grow by opening and closing. */
typedef struct {
    void *at;
} tsc_store;

#define TSC_STORE_INIT {NULL}

/* A time of a hybrid logical clock: nanoseconds, and a count among those of one nanosecond. */
typedef struct {
    uint64_t wall;
    uint32_t logical;
} tsc_time;

/* A time with the transaction that owns it, by its sixteen bytes (a UUID). Sixteen zeros: nobody
 * does. */
typedef struct {
    uint64_t wall;
    uint32_t logical;
    uint8_t owner[16];
} tsc_value;

/* What an Add did. */
typedef struct {
    uint64_t evicted; /* how many pages were dropped */
    bool kept;        /* its span is not empty, and its time is above the floor */
    bool rotated;     /* a new page came to the front */
} tsc_added;

/* One mark of several: its keys are `from_len` bytes of `keys` from `from_at` on, and `to_len`
 * from `to_at` on. */
typedef struct {
    size_t from_at, from_len, to_at, to_len;
    tsc_value value;
    uint32_t ends;
} tsc_mark;

/* One span of several: its keys are `from_len` bytes of `keys` from `from_at` on, and `to_len`
 * from `to_at` on. */
typedef struct {
    size_t from_at, from_len, to_at, to_len;
    uint32_t ends;
} tsc_span;

/* What can be counted of a cache, and of what was asked of it by one handle. Each count stays at
 * 2^64 - 1 once it is there. The last four are of a cache that one thread uses, or of one seat
 * alone, so seats share none of them: a program adds up what its seats tell. */
typedef struct {
    uint64_t pages;     /* how many there are */
    uint64_t rotations; /* how often they rotated */
    uint64_t nodes;     /* how many end keys the pages hold, each counted once for each page that
                         * holds it */
    uint64_t bytes;     /* what these cost: for each as many bytes as it has, and 32 more */
    uint64_t memory;    /* bytes of all blocks of memory that hold these pages, as malloc was asked
                         * for them; at a seat, of the copy that it reads */
    uint64_t adds;      /* Adds by this handle that were accepted; several marks at once are one
                         * Add, and so is a summary that is applied */
    uint64_t refusals;  /* Adds by this handle that were refused, for whatever reason */
    uint64_t lookups;   /* lookups and questions for writes by this handle that were answered by
                         * TSC_OK: one for each call */
    uint64_t evicted;   /* pages that these Adds dropped */
} tsc_figures;

/* Opens a cache, and writes its handle. Handles count on from 0 and none is given twice, until the
 * store is freed. A handle that is closed or moved leaves its place to a later one, so the store
 * takes memory for as many as were open at once. The first page has `page_first` bytes, and no
 * page more than `page_max`. A page is dropped only while there are at least `min_pages`, and once
 * all of it is older than `retention` nanoseconds. `low_water` is where the floor stands at first.
 * The cache takes the memory of an empty page, however large pages may grow. */
TSC_NODISCARD
uint32_t tsc_open(tsc_store *store, uint32_t page_first, uint32_t page_max, uint32_t min_pages,
                  uint64_t retention, const tsc_time *low_water, uint64_t *handle);

/* Adds a span that was read, with the time and the owner of the read, at the moment `now`. A
 * single key that the newest page holds takes no memory. All other keys are copied. */
TSC_NODISCARD
uint32_t tsc_add(tsc_store *store, uint64_t handle, const void *from, size_t from_len,
                 const void *to, size_t to_len, uint32_t ends, const tsc_value *value,
                 const tsc_time *now, tsc_added *out);

/* Adds several marks, one after another at one moment, all of them or none. All keys are copied,
 * and so is what the marks change of the newest page. */
TSC_NODISCARD
uint32_t tsc_add_all(tsc_store *store, uint64_t handle, const void *keys, size_t keys_len,
                     const tsc_mark *marks, size_t marks_len, const tsc_time *now, tsc_added *out);

/* The latest time on a span, with its owner where all reads of that time are one transaction's, or
 * the floor. A span whose first key is greater than the second is empty, and the floor answers. A
 * key may be of any length. The call searches the pages from the newest on, up to the first whose
 * latest time is below what it has found. It is refused by TSC_CLOSED and TSC_ENDS alone. */
TSC_NODISCARD
uint32_t tsc_get_max(tsc_store *store, uint64_t handle, const void *from, size_t from_len,
                     const void *to, size_t to_len, uint32_t ends, tsc_value *out);

/* The earliest time at which a transaction may write all of some spans, by the rule at the head of
 * this file: from the time of `write` on, by its owner. The time is clear of each read on one of
 * the spans that was added so far, and no earlier one from that of `write` on is clear of what
 * lookups of the spans answer. A write may be made at once where it is told its own time. It costs
 * a lookup for each span, and takes no memory. It is refused by TSC_NO_TIME where there is no such
 * time, by TSC_TIME, TSC_ENDS, TSC_OUTSIDE and TSC_INVERTED, and by TSC_CLOSED. */
TSC_NODISCARD
uint32_t tsc_earliest_write(tsc_store *store, uint64_t handle, const void *keys, size_t keys_len,
                            const tsc_span *spans, size_t spans_len, const tsc_value *write,
                            tsc_time *out);

/* Whether a transaction may write all of some spans at the time of `write`, by its owner: whether
 * that time is clear of what a lookup of each span answers. Then it is clear of each read on one
 * of the spans that was added so far. It is so just where `tsc_earliest_write` tells that very
 * time. A write that may not be made is not refused: TSC_OK is told, and `*out` is false. It costs
 * what `tsc_earliest_write` does, and is refused by TSC_TIME, TSC_ENDS, TSC_OUTSIDE, TSC_INVERTED
 * and TSC_CLOSED; `*out` is as before then. */
TSC_NODISCARD
uint32_t tsc_may_write(tsc_store *store, uint64_t handle, const void *keys, size_t keys_len,
                       const tsc_span *spans, size_t spans_len, const tsc_value *write, bool *out);

/* Where the floor stands. It makes no search. */
TSC_NODISCARD
uint32_t tsc_low_water(tsc_store *store, uint64_t handle, tsc_time *out);

/* What can be counted. It costs a step for each page, and for `memory` one for each 1 to 64 end
 * keys. */
uint32_t tsc_figures_of(tsc_store *store, uint64_t handle, tsc_figures *out);

/* What was read of a span, as bytes to be sent to the next holder of its lease, who hands them to
 * `tsc_apply`. The caller stops answering reads of the span before it asks. docs/FORMATS.md has
 * the form of the bytes.
 *
 * The bytes go into a buffer of `room` bytes, which may be 0, as the texts of `tsc_replay` do:
 * TSC_OK where they fit, and TSC_SHORT where there are more, and `out` is as before. In both cases
 * `*len` tells how many there are. At most `most` marks are told; SIZE_MAX leaves none out. Where
 * there is no room for a mark its time raises a floor of the summary, so that later writes are
 * pushed further by it, and never less far. With `most` of 0 it is such a floor alone, in at most
 * 8,264 bytes.
 *
 * It costs a lookup for each end key of a read within the span, and for each gap between two. With
 * TSC_SHORT it costs as much. While it runs it takes the memory of the marks, and up to some five
 * times that of the bytes. It is refused as a span to be added is, by TSC_ENDS, TSC_KEY_TOO_LONG
 * and TSC_INVERTED, and by TSC_NO_MEMORY and TSC_CLOSED: `out` and `*len` are as before then. A
 * shared cache is asked at a seat, by `tsc_seat_summary`. */
TSC_NODISCARD
uint32_t tsc_summary(tsc_store *store, uint64_t handle, const void *from, size_t from_len,
                     const void *to, size_t to_len, uint32_t ends, size_t most, void *out,
                     size_t room, size_t *len);

/* Adds what the bytes of a summary tell to a cache, at the moment `now`: all of it or nothing. The
 * new holder of a lease does so before it answers its first write of the span. From then on no
 * answer within the span is earlier than what the former holder's cache answered there, no answer
 * anywhere has sunk, and reads that were told as marks keep their owners. The call goes over the
 * bytes once for their digest. It takes the memory of the marks twice, and that of what they
 * change of the newest page.
 *
 * Bytes of which some are missing or were changed are refused by TSC_SUMMARY_VERSION,
 * TSC_SUMMARY_LENGTH or TSC_SUMMARY_CHECKSUM, and the cache is as it was. The digest is no
 * signature: who takes bytes from somebody that may lie has them signed. Else it is refused by
 * TSC_SUMMARY_FORM; by TSC_TOO_LARGE where a span of the summary costs more than page_max of this
 * cache; by TSC_TIME, which comes first; and by TSC_NO_MEMORY, where what the bytes are may not be
 * known, and TSC_CLOSED. Where it is refused the holder asks for the bytes again, or opens a cache
 * with `low_water` at or above each time at which a read was answered; until then it answers no
 * write of the span. */
TSC_NODISCARD
uint32_t tsc_apply(tsc_store *store, uint64_t handle, const void *summary, size_t summary_len,
                   const tsc_time *now, tsc_added *out);

/* Frees a cache that `tsc_open` opened. Its handle is answered by TSC_CLOSED from then on. */
uint32_t tsc_close(tsc_store *store, uint64_t handle);

/* Frees all that the store owns, and hands in the seats that lie there. It is as zeros then, and
 * may be used anew: handles count from 0 again. */
void tsc_free(tsc_store *store);

/* What a handle names goes to another store, where it gets the next handle, which is written. The
 * handle names nothing from then on. The two stores are different ones, and the other one takes
 * memory for a handle alone. Where it is refused the other one may own some memory too, which
 * `tsc_free` frees. */
TSC_NODISCARD
uint32_t tsc_move(tsc_store *store, uint64_t handle, tsc_store *other, uint64_t *other_handle);

/* Opens a cache that threads share, and writes its handle. Its `seats` have the handles behind
 * that, in their order: 1 to 64 of them. There may be `limit` Adds: take UINT64_MAX, which is
 * never reached, since a smaller limit is for tests. It takes the memory of two empty caches, and
 * some for each seat. Its other arguments are those of `tsc_open`. */
TSC_NODISCARD
uint32_t tsc_open_shared(tsc_store *store, uint32_t page_first, uint32_t page_max,
                         uint32_t min_pages, uint64_t retention, const tsc_time *low_water,
                         uint32_t seats, uint64_t limit, uint64_t *handle);

/* Opens a cache in stripes, and writes its handle. Stripe 0 has the keys below the first bound, and
 * each other one those from its bound on, below the next. Each is a cache of its own, under a lock
 * of its own, so Adds of threads that call different stripes do not wait for one another. A bound
 * is the next `lens[i]` bytes of `keys`, and together they use up `keys`. There are at most 1,023;
 * with none there is one stripe. Its `seats` have the handles behind that of the cache, in their
 * order: as many as there is memory for. Its other arguments are those of `tsc_open`, for each
 * stripe: so there may be as many pages as stripes times those of one cache.
 *
 * It is refused as `tsc_open` is, and then by TSC_SEATS, TSC_STRIPES, TSC_OUTSIDE, TSC_FULL,
 * TSC_KEY_TOO_LONG, TSC_BOUNDS, TSC_PAGE_SIZE and TSC_NO_MEMORY, in this order. Where memory is
 * refused for the store or for the copy of a bound, what is told is TSC_NO_MEMORY, and the bounds
 * behind it, their order and the page are not looked at. */
TSC_NODISCARD
uint32_t tsc_open_striped(tsc_store *store, uint32_t page_first, uint32_t page_max,
                          uint32_t min_pages, uint64_t retention, const tsc_time *low_water,
                          const void *keys, size_t keys_len, const size_t *lens, size_t lens_len,
                          uint32_t seats, uint64_t *handle);

/* The calls of a seat. Each answers after a history of Adds, of whichever seats, that begins with
 * all that the seat had seen before: its own Adds, and what its answers came from. None waits.
 *
 * All Adds of a shared cache form one history, and a seat has seen a beginning of it. A lookup
 * whose `seen` is above an Add's `place_in_history` counts that Add, whichever seats made the two.
 * Every Add returns its place. If another thread continues the work, pass the place to it, under a
 * lock or through a queue. That thread calls `tsc_seat_low_water` until `seen` is above the place,
 * in practice once. Each later lookup of its seat counts the Add. That the first call does, if it
 * begins after the Add has returned, is tested and not proved.
 *
 * There is no call that has a seat learn what another one has seen.
 *
 * `tsc_seat_earliest_write` looks up one span after another, and each lookup may see more Adds
 * than the one before. The time is clear of each read on a span that the seat had seen when it
 * looked that span up, which is at least all that it had seen before. `tsc_seat_may_write` asks in
 * the same way, and `*out` is true just where it is told the time of `write`. All spans are read
 * before the first lookup: where one is refused the seat has seen no more than before.
 *
 * Adds come one after another. An Add tries `tries` times to acquire the lock that another seat's
 * Add may hold, and looks as often at each seat that is inside a lookup. Between two tries it
 * pauses for a moment, and leaves the processor to nobody. If others are in the way each time, the
 * Add is refused with TSC_BUSY, and may be tried again. Take 64 tries. After TSC_BUSY, let other
 * threads run (`sched_yield`, `thrd_yield`), and try again. With 0 tries no Add would ever be
 * made: TSC_TRIES says so, before anything else of the call is looked at but its handle. TSC_FULL
 * means that `limit` Adds were made. The keys are copied, also known ones, and the Add is made on
 * both copies of the cache. `place_in_history` is the Add's position among all Adds, from 0 on.
 * Lookups wait for nobody, and are refused as those of `tsc_get_max` are. `seen` is the number of
 * Adds that the seat has seen then, which never sinks.
 *
 * All this is of a shared cache. A seat in stripes takes the same calls, with these differences:
 *
 *   - An Add, a lookup and each other call acquires the locks of the stripes that its span touches.
 *     So a lookup may be refused by TSC_BUSY too, where others held one of them at each of 64
 *     tries. The seat is as it was then; after `tsc_seat_earliest_write`, `tsc_seat_may_write`,
 *     `tsc_seat_low_water` and `tsc_seat_figures_of` it may have seen more Adds.
 *   - Nobody counts the Adds of all seats. `place_in_history` is the Add's position among those of
 *     its own seat, from 0 on, and `seen` is how many of its own the seat has made. A lookup that
 *     begins after an Add of whichever seat has returned counts that Add: so another thread that
 *     continues the work passes nothing on. That is tested and not proved.
 *   - Adds and lookups of several stripes are of one moment, and are made anew at each try.
 *     `tsc_seat_low_water` tells the earliest floor of all stripes, and `tsc_seat_figures_of` what
 *     the figures of all come to, where one stripe is read after another. `memory` is of one
 *     moment too, and takes some memory for each page; it is 0 where that is refused, or locks are
 *     busy.
 *   - No span costs too much. TSC_FULL means that the seat has made 2^64 - 1 Adds. */
TSC_NODISCARD
uint32_t tsc_seat_add(tsc_store *store, uint64_t seat, const void *from, size_t from_len,
                      const void *to, size_t to_len, uint32_t ends, const tsc_value *value,
                      const tsc_time *now, uint32_t tries, uint64_t *place_in_history,
                      tsc_added *out);
TSC_NODISCARD
uint32_t tsc_seat_add_all(tsc_store *store, uint64_t seat, const void *keys, size_t keys_len,
                          const tsc_mark *marks, size_t marks_len, const tsc_time *now,
                          uint32_t tries, uint64_t *place_in_history, tsc_added *out);
TSC_NODISCARD
uint32_t tsc_seat_get_max(tsc_store *store, uint64_t seat, const void *from, size_t from_len,
                          const void *to, size_t to_len, uint32_t ends, uint64_t *seen,
                          tsc_value *out);
TSC_NODISCARD
uint32_t tsc_seat_earliest_write(tsc_store *store, uint64_t seat, const void *keys,
                                 size_t keys_len, const tsc_span *spans, size_t spans_len,
                                 const tsc_value *write, uint64_t *seen, tsc_time *out);
TSC_NODISCARD
uint32_t tsc_seat_may_write(tsc_store *store, uint64_t seat, const void *keys, size_t keys_len,
                            const tsc_span *spans, size_t spans_len, const tsc_value *write,
                            uint64_t *seen, bool *out);
TSC_NODISCARD
uint32_t tsc_seat_low_water(tsc_store *store, uint64_t seat, uint64_t *seen, tsc_time *out);
uint32_t tsc_seat_figures_of(tsc_store *store, uint64_t seat, uint64_t *seen, tsc_figures *out);

/* What was read of a span of a shared cache, or of one in stripes, as bytes for the next holder of
 * its lease, without closing the cache. It is what `tsc_summary` tells, after a history that
 * begins with all that the seat has seen, at the cost of that, and refused as that is. It does not
 * wait, and an Add meanwhile copies what it changes of the pages. The caller stops answering reads
 * of the span, and then asks again and again until `*seen` is above the place of each thread's
 * last Add; in practice once. `*seen` is written with TSC_OK and with TSC_SHORT, and is as before
 * with all else.
 *
 * In stripes the caller asks once all Adds of reads of the span have returned. The summary is then
 * of one moment of all stripes that the span touches. Each of them may have `most` marks, and one
 * more where its floor is later than that of another. It is refused by TSC_BUSY too. */
TSC_NODISCARD
uint32_t tsc_seat_summary(tsc_store *store, uint64_t seat, const void *from, size_t from_len,
                          const void *to, size_t to_len, uint32_t ends, size_t most,
                          uint64_t *seen, void *out, size_t room, size_t *len);

/* Hands in a seat. Its handle names nothing from then on. If the cache lies where both were
 * opened, it knows the seat as it was. The call does not wait. */
uint32_t tsc_seat_close(tsc_store *store, uint64_t seat);

/* Closes a shared cache, or one in stripes, where all its seats were handed in, and writes how
 * many Adds it had: as many as its seats counted. The seats that it knows are among these, as they
 * were. Else the call is refused by TSC_STILL_OUT, and the cache stays as it is. It is refused so
 * only where the call looked for a seat that the cache does not know, and saw that the seat was
 * not returned then. So a cache that knows all its seats closes. That `tsc_seat_close` returns a
 * seat in another store, too, is tested and not proved. In stripes the number stays at 2^64 - 1
 * once it is there. The call does not wait, and costs a few steps for each seat. */
uint32_t tsc_close_shared(tsc_store *store, uint64_t handle, uint64_t *length);

/* Recorded traces, from bytes to bytes. These two calls take no store, and threads may make them
 * at once, each with a buffer of its own. The memory that they take they free before they return.
 *
 * `out` is a buffer of `room` bytes, which may be 0. A text that fits stands there from the first
 * byte on, with no zero byte behind it, and what lies behind it is as before: TSC_OK for what was
 * asked for, TSC_REFUSED for why the bytes were refused, as the program tells it on standard
 * error, without the line feed. Where the text is longer than `room` that is TSC_SHORT, and `out`
 * is as before; the call costs as much then. In all three cases `*len` tells how many bytes the
 * text has; with TSC_NO_MEMORY `out` and `*len` are as before. A trace, or a log, of more than
 * 16,777,216 bytes is refused. */

/* Replays a trace on one thread. The text is that of its log. */
uint32_t tsc_replay(const void *trace, size_t trace_len, void *out, size_t room, size_t *len);

/* Checks a log against its trace. The text is the line of the verdict, with its line feed. */
uint32_t tsc_check(const void *trace, size_t trace_len, const void *log, size_t log_len,
                   void *out, size_t room, size_t *len);

/* The same calls where a pointer may be null. Then all but tsc_checked_free, which does nothing,
 * answer TSC_NULL. */

static inline const void *tsc_bytes(const void *bytes)
{
    return bytes ? bytes : "";
}

TSC_NODISCARD
static inline uint32_t tsc_checked_open(tsc_store *store, uint32_t page_first, uint32_t page_max,
                                        uint32_t min_pages, uint64_t retention,
                                        const tsc_time *low_water, uint64_t *handle)
{
    if (!store || !low_water || !handle)
        return TSC_NULL;
    return tsc_open(store, page_first, page_max, min_pages, retention, low_water, handle);
}

TSC_NODISCARD
static inline uint32_t tsc_checked_open_shared(tsc_store *store, uint32_t page_first,
                                               uint32_t page_max, uint32_t min_pages,
                                               uint64_t retention, const tsc_time *low_water,
                                               uint32_t seats, uint64_t limit, uint64_t *handle)
{
    if (!store || !low_water || !handle)
        return TSC_NULL;
    return tsc_open_shared(store, page_first, page_max, min_pages, retention, low_water, seats,
                           limit, handle);
}

TSC_NODISCARD
static inline uint32_t tsc_checked_open_striped(tsc_store *store, uint32_t page_first,
                                                uint32_t page_max, uint32_t min_pages,
                                                uint64_t retention, const tsc_time *low_water,
                                                const void *keys, size_t keys_len,
                                                const size_t *lens, size_t lens_len,
                                                uint32_t seats, uint64_t *handle)
{
    static const size_t none = 0;
    if (!store || !low_water || !handle || (!keys && keys_len) || (!lens && lens_len))
        return TSC_NULL;
    return tsc_open_striped(store, page_first, page_max, min_pages, retention, low_water,
                            tsc_bytes(keys), keys_len, lens ? lens : &none, lens_len, seats,
                            handle);
}

TSC_NODISCARD
static inline uint32_t tsc_checked_move(tsc_store *store, uint64_t handle, tsc_store *other,
                                        uint64_t *other_handle)
{
    if (!store || !other || !other_handle)
        return TSC_NULL;
    return tsc_move(store, handle, other, other_handle);
}

static inline uint32_t tsc_checked_close(tsc_store *store, uint64_t handle)
{
    if (!store)
        return TSC_NULL;
    return tsc_close(store, handle);
}

static inline uint32_t tsc_checked_seat_close(tsc_store *store, uint64_t seat)
{
    if (!store)
        return TSC_NULL;
    return tsc_seat_close(store, seat);
}

static inline uint32_t tsc_checked_close_shared(tsc_store *store, uint64_t handle,
                                                uint64_t *length)
{
    if (!store || !length)
        return TSC_NULL;
    return tsc_close_shared(store, handle, length);
}

static inline void tsc_checked_free(tsc_store *store)
{
    if (store)
        tsc_free(store);
}

TSC_NODISCARD
static inline uint32_t tsc_checked_add(tsc_store *store, uint64_t handle, const void *from,
                                       size_t from_len, const void *to, size_t to_len,
                                       uint32_t ends, const tsc_value *value, const tsc_time *now,
                                       tsc_added *out)
{
    if (!store || !value || !now || !out || (!from && from_len) || (!to && to_len))
        return TSC_NULL;
    return tsc_add(store, handle, tsc_bytes(from), from_len, tsc_bytes(to), to_len, ends, value,
                   now, out);
}

TSC_NODISCARD
static inline uint32_t tsc_checked_add_all(tsc_store *store, uint64_t handle, const void *keys,
                                           size_t keys_len, const tsc_mark *marks,
                                           size_t marks_len, const tsc_time *now, tsc_added *out)
{
    static const tsc_mark none = {0, 0, 0, 0, {0, 0, {0}}, 0};
    if (!store || !now || !out || (!keys && keys_len) || (!marks && marks_len))
        return TSC_NULL;
    return tsc_add_all(store, handle, tsc_bytes(keys), keys_len, marks ? marks : &none, marks_len,
                       now, out);
}

TSC_NODISCARD
static inline uint32_t tsc_checked_get_max(tsc_store *store, uint64_t handle, const void *from,
                                           size_t from_len, const void *to, size_t to_len,
                                           uint32_t ends, tsc_value *out)
{
    if (!store || !out || (!from && from_len) || (!to && to_len))
        return TSC_NULL;
    return tsc_get_max(store, handle, tsc_bytes(from), from_len, tsc_bytes(to), to_len, ends, out);
}

TSC_NODISCARD
static inline uint32_t tsc_checked_earliest_write(tsc_store *store, uint64_t handle,
                                                  const void *keys, size_t keys_len,
                                                  const tsc_span *spans, size_t spans_len,
                                                  const tsc_value *write, tsc_time *out)
{
    static const tsc_span none = {0, 0, 0, 0, 0};
    if (!store || !write || !out || (!keys && keys_len) || (!spans && spans_len))
        return TSC_NULL;
    return tsc_earliest_write(store, handle, tsc_bytes(keys), keys_len, spans ? spans : &none,
                              spans_len, write, out);
}

TSC_NODISCARD
static inline uint32_t tsc_checked_may_write(tsc_store *store, uint64_t handle, const void *keys,
                                             size_t keys_len, const tsc_span *spans,
                                             size_t spans_len, const tsc_value *write, bool *out)
{
    static const tsc_span none = {0, 0, 0, 0, 0};
    if (!store || !write || !out || (!keys && keys_len) || (!spans && spans_len))
        return TSC_NULL;
    return tsc_may_write(store, handle, tsc_bytes(keys), keys_len, spans ? spans : &none,
                         spans_len, write, out);
}

TSC_NODISCARD
static inline uint32_t tsc_checked_summary(tsc_store *store, uint64_t handle, const void *from,
                                           size_t from_len, const void *to, size_t to_len,
                                           uint32_t ends, size_t most, void *out, size_t room,
                                           size_t *len)
{
    uint8_t none[1];
    if (!store || !len || (!from && from_len) || (!to && to_len) || (!out && room))
        return TSC_NULL;
    return tsc_summary(store, handle, tsc_bytes(from), from_len, tsc_bytes(to), to_len, ends,
                       most, out ? out : none, room, len);
}

TSC_NODISCARD
static inline uint32_t tsc_checked_apply(tsc_store *store, uint64_t handle, const void *summary,
                                         size_t summary_len, const tsc_time *now, tsc_added *out)
{
    if (!store || !now || !out || (!summary && summary_len))
        return TSC_NULL;
    return tsc_apply(store, handle, tsc_bytes(summary), summary_len, now, out);
}

TSC_NODISCARD
static inline uint32_t tsc_checked_low_water(tsc_store *store, uint64_t handle, tsc_time *out)
{
    if (!store || !out)
        return TSC_NULL;
    return tsc_low_water(store, handle, out);
}

static inline uint32_t tsc_checked_figures_of(tsc_store *store, uint64_t handle, tsc_figures *out)
{
    if (!store || !out)
        return TSC_NULL;
    return tsc_figures_of(store, handle, out);
}

TSC_NODISCARD
static inline uint32_t tsc_checked_seat_add(tsc_store *store, uint64_t seat, const void *from,
                                            size_t from_len, const void *to, size_t to_len,
                                            uint32_t ends, const tsc_value *value,
                                            const tsc_time *now, uint32_t tries,
                                            uint64_t *place_in_history, tsc_added *out)
{
    if (!store || !value || !now || !place_in_history || !out || (!from && from_len) ||
        (!to && to_len))
        return TSC_NULL;
    return tsc_seat_add(store, seat, tsc_bytes(from), from_len, tsc_bytes(to), to_len, ends,
                        value, now, tries, place_in_history, out);
}

TSC_NODISCARD
static inline uint32_t tsc_checked_seat_add_all(tsc_store *store, uint64_t seat, const void *keys,
                                                size_t keys_len, const tsc_mark *marks,
                                                size_t marks_len, const tsc_time *now,
                                                uint32_t tries, uint64_t *place_in_history,
                                                tsc_added *out)
{
    static const tsc_mark none = {0, 0, 0, 0, {0, 0, {0}}, 0};
    if (!store || !now || !place_in_history || !out || (!keys && keys_len) ||
        (!marks && marks_len))
        return TSC_NULL;
    return tsc_seat_add_all(store, seat, tsc_bytes(keys), keys_len, marks ? marks : &none,
                            marks_len, now, tries, place_in_history, out);
}

TSC_NODISCARD
static inline uint32_t tsc_checked_seat_get_max(tsc_store *store, uint64_t seat, const void *from,
                                                size_t from_len, const void *to, size_t to_len,
                                                uint32_t ends, uint64_t *seen, tsc_value *out)
{
    if (!store || !seen || !out || (!from && from_len) || (!to && to_len))
        return TSC_NULL;
    return tsc_seat_get_max(store, seat, tsc_bytes(from), from_len, tsc_bytes(to), to_len, ends,
                            seen, out);
}

TSC_NODISCARD
static inline uint32_t tsc_checked_seat_earliest_write(tsc_store *store, uint64_t seat,
                                                       const void *keys, size_t keys_len,
                                                       const tsc_span *spans, size_t spans_len,
                                                       const tsc_value *write, uint64_t *seen,
                                                       tsc_time *out)
{
    static const tsc_span none = {0, 0, 0, 0, 0};
    if (!store || !write || !seen || !out || (!keys && keys_len) || (!spans && spans_len))
        return TSC_NULL;
    return tsc_seat_earliest_write(store, seat, tsc_bytes(keys), keys_len, spans ? spans : &none,
                                   spans_len, write, seen, out);
}

TSC_NODISCARD
static inline uint32_t tsc_checked_seat_may_write(tsc_store *store, uint64_t seat,
                                                  const void *keys, size_t keys_len,
                                                  const tsc_span *spans, size_t spans_len,
                                                  const tsc_value *write, uint64_t *seen,
                                                  bool *out)
{
    static const tsc_span none = {0, 0, 0, 0, 0};
    if (!store || !write || !seen || !out || (!keys && keys_len) || (!spans && spans_len))
        return TSC_NULL;
    return tsc_seat_may_write(store, seat, tsc_bytes(keys), keys_len, spans ? spans : &none,
                              spans_len, write, seen, out);
}

TSC_NODISCARD
static inline uint32_t tsc_checked_seat_low_water(tsc_store *store, uint64_t seat, uint64_t *seen,
                                                  tsc_time *out)
{
    if (!store || !seen || !out)
        return TSC_NULL;
    return tsc_seat_low_water(store, seat, seen, out);
}

static inline uint32_t tsc_checked_seat_figures_of(tsc_store *store, uint64_t seat,
                                                   uint64_t *seen, tsc_figures *out)
{
    if (!store || !seen || !out)
        return TSC_NULL;
    return tsc_seat_figures_of(store, seat, seen, out);
}

TSC_NODISCARD
static inline uint32_t tsc_checked_seat_summary(tsc_store *store, uint64_t seat, const void *from,
                                                size_t from_len, const void *to, size_t to_len,
                                                uint32_t ends, size_t most, uint64_t *seen,
                                                void *out, size_t room, size_t *len)
{
    uint8_t none[1];
    if (!store || !seen || !len || (!from && from_len) || (!to && to_len) || (!out && room))
        return TSC_NULL;
    return tsc_seat_summary(store, seat, tsc_bytes(from), from_len, tsc_bytes(to), to_len, ends,
                            most, seen, out ? out : none, room, len);
}

static inline uint32_t tsc_checked_replay(const void *trace, size_t trace_len, void *out,
                                          size_t room, size_t *len)
{
    uint8_t none[1];
    if (!len || (!trace && trace_len) || (!out && room))
        return TSC_NULL;
    return tsc_replay(tsc_bytes(trace), trace_len, out ? out : none, room, len);
}

static inline uint32_t tsc_checked_check(const void *trace, size_t trace_len, const void *log,
                                         size_t log_len, void *out, size_t room, size_t *len)
{
    uint8_t none[1];
    if (!len || (!trace && trace_len) || (!log && log_len) || (!out && room))
        return TSC_NULL;
    return tsc_check(tsc_bytes(trace), trace_len, tsc_bytes(log), log_len, out ? out : none, room,
                     len);
}

/* Times. The smaller wall time comes first, and of two equal ones the smaller count. */

static inline bool tsc_before(tsc_time one, tsc_time other)
{
    return one.wall < other.wall || (one.wall == other.wall && one.logical < other.logical);
}

/* Writes the first time after this one. After the last time there is none: it is false then, and
 * nothing is written. */
static inline bool tsc_next(tsc_time one, tsc_time *next)
{
    if (one.logical < INT32_MAX) {
        next->wall = one.wall;
        next->logical = one.logical + 1;
    } else if (one.wall < INT64_MAX) {
        next->wall = one.wall + 1;
        next->logical = 0;
    } else {
        return false;
    }
    return true;
}

/* The name of what a call answered. */
static inline const char *tsc_text(uint32_t answer)
{
    switch (answer) {
    case TSC_OK: return "done";
    case TSC_CLOSED: return "the handle names nothing of this kind";
    case TSC_TIME: return "a time is out of range";
    case TSC_ENDS: return "there are no such ends of a span";
    case TSC_KEY_TOO_LONG: return "a key is too long";
    case TSC_INVERTED: return "the range is inverted";
    case TSC_TOO_LARGE: return "the span is too large for a page";
    case TSC_OUTSIDE: return "a key does not lie among the bytes";
    case TSC_PAGE_SIZE:
        return "page_first is 64 to page_max, and page_max at most 2^30, in stripes at least 8256";
    case TSC_MIN_PAGES: return "min_pages is 1 to 64";
    case TSC_RETENTION: return "retention is at most 2^63 - 1 nanoseconds";
    case TSC_NO_MEMORY: return "out of memory";
    case TSC_SEATS: return "seats are 1 or more, and of a shared cache at most 64";
    case TSC_STILL_OUT: return "a seat is still out";
    case TSC_BUSY: return "others were in the way";
    case TSC_FULL: return "there are as many Adds as there may be";
    case TSC_REFUSED: return "the bytes are refused, and the text says why";
    case TSC_SHORT: return "what is told is longer than the buffer";
    case TSC_NO_TIME: return "there is no time at which the write may be made";
    case TSC_SUMMARY_VERSION: return "the summary is of another version";
    case TSC_SUMMARY_LENGTH: return "the summary has another length";
    case TSC_SUMMARY_CHECKSUM: return "the summary was changed";
    case TSC_SUMMARY_FORM: return "the bytes are no summary";
    case TSC_STRIPES: return "stripes are at most 1024";
    case TSC_BOUNDS: return "the bounds of stripes are out of order";
    case TSC_TRIES: return "with 0 tries no Add is ever made";
    case TSC_NULL: return "a pointer is null";
    default: return "no such answer";
    }
}

#ifdef __cplusplus
}
#endif
#endif
