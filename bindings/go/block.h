// The calls of tscache.h, as the files of this package make them.
#ifndef TSCACHE_GO_BLOCK_H
#define TSCACHE_GO_BLOCK_H

#if defined(__has_include)
#if !__has_include("tscache.h")
#error "tscache.h is not found: set CGO_CFLAGS to -I and its folder, as README.md of bindings/go says"
#endif
#endif

#include <stdlib.h>
#include <string.h>
#include "tscache.h"

// What a Cache, a Shared or a Seat has outside of Go: its store, the handle of what it has,
// and what calls read and write beside keys. So a call takes no memory of Go's, and hands over no
// pointer into it but those of keys and marks. The store is bytes for Go, since cgo looks at each
// block that has a pointer in it, at each call.
typedef struct {
    unsigned char store[sizeof(tsc_store)];
    uint64_t handle;
    uint64_t told;
    size_t length;
    tsc_value value;
    tsc_time time;
    tsc_added added;
    bool may;
} tsc_go_block;

// What a call for figures tells. It has no room in the block.
typedef struct {
    uint32_t code;
    tsc_figures figures;
} tsc_go_counted;

enum { TSC_GO_APART = 128 };

_Static_assert(sizeof(tsc_go_block) <= TSC_GO_APART,
               "a block lies in one piece of memory that no other block shares");

static inline tsc_go_block *tsc_go_new(void)
{
    void *block = aligned_alloc(TSC_GO_APART, TSC_GO_APART);
    return (tsc_go_block *)(block ? memset(block, 0, TSC_GO_APART) : NULL);
}

static inline tsc_store *tsc_go_store(tsc_go_block *b)
{
    return (tsc_store *)(void *)b->store;
}

static inline void tsc_go_free(tsc_go_block *b)
{
    tsc_free(tsc_go_store(b));
    free(b);
}

static inline uint32_t tsc_go_open(tsc_go_block *b, uint32_t page_first, uint32_t page_max,
                                   uint32_t min_pages, uint64_t retention)
{
    return tsc_open(tsc_go_store(b), page_first, page_max, min_pages, retention, &b->time,
                    &b->handle);
}

static inline uint32_t tsc_go_open_shared(tsc_go_block *b, uint32_t page_first, uint32_t page_max,
                                          uint32_t min_pages, uint64_t retention, uint32_t seats,
                                          uint64_t limit)
{
    return tsc_open_shared(tsc_go_store(b), page_first, page_max, min_pages, retention, &b->time,
                           seats, limit, &b->handle);
}

static inline uint32_t tsc_go_open_striped(tsc_go_block *b, uint32_t page_first, uint32_t page_max,
                                           uint32_t min_pages, uint64_t retention,
                                           const uint8_t *keys, size_t keys_len,
                                           const size_t *lens, size_t lens_len, uint32_t seats)
{
    return tsc_open_striped(tsc_go_store(b), page_first, page_max, min_pages, retention, &b->time,
                            keys, keys_len, lens, lens_len, seats, &b->handle);
}

static inline uint32_t tsc_go_move(tsc_go_block *b, uint64_t seat, tsc_go_block *other)
{
    return tsc_move(tsc_go_store(b), b->handle + seat, tsc_go_store(other), &other->handle);
}

static inline uint32_t tsc_go_close_shared(tsc_go_block *b)
{
    return tsc_close_shared(tsc_go_store(b), b->handle, &b->told);
}

static inline uint32_t tsc_go_add(tsc_go_block *b, const uint8_t *from, size_t from_len,
                                  const uint8_t *to, size_t to_len, uint32_t ends)
{
    return tsc_add(tsc_go_store(b), b->handle, from, from_len, to, to_len, ends, &b->value,
                   &b->time, &b->added);
}

static inline uint32_t tsc_go_add_all(tsc_go_block *b, const uint8_t *keys, size_t keys_len,
                                      const tsc_mark *marks, size_t marks_len)
{
    return tsc_add_all(tsc_go_store(b), b->handle, keys, keys_len, marks, marks_len, &b->time,
                       &b->added);
}

static inline uint32_t tsc_go_get_max(tsc_go_block *b, const uint8_t *from, size_t from_len,
                                      const uint8_t *to, size_t to_len, uint32_t ends)
{
    return tsc_get_max(tsc_go_store(b), b->handle, from, from_len, to, to_len, ends, &b->value);
}

static inline uint32_t tsc_go_earliest_write(tsc_go_block *b, const uint8_t *keys, size_t keys_len,
                                             const tsc_span *spans, size_t spans_len)
{
    return tsc_earliest_write(tsc_go_store(b), b->handle, keys, keys_len, spans, spans_len,
                              &b->value, &b->time);
}

static inline uint32_t tsc_go_may_write(tsc_go_block *b, const uint8_t *keys, size_t keys_len,
                                        const tsc_span *spans, size_t spans_len)
{
    return tsc_may_write(tsc_go_store(b), b->handle, keys, keys_len, spans, spans_len, &b->value,
                         &b->may);
}

static inline uint32_t tsc_go_low_water(tsc_go_block *b)
{
    return tsc_low_water(tsc_go_store(b), b->handle, &b->time);
}

static inline tsc_go_counted tsc_go_figures(tsc_go_block *b)
{
    tsc_go_counted told = {0};
    told.code = tsc_figures_of(tsc_go_store(b), b->handle, &told.figures);
    return told;
}

static inline uint32_t tsc_go_seat_add(tsc_go_block *b, const uint8_t *from, size_t from_len,
                                       const uint8_t *to, size_t to_len, uint32_t ends,
                                       uint32_t tries)
{
    return tsc_seat_add(tsc_go_store(b), b->handle, from, from_len, to, to_len, ends, &b->value,
                        &b->time, tries, &b->told, &b->added);
}

static inline uint32_t tsc_go_seat_add_all(tsc_go_block *b, const uint8_t *keys, size_t keys_len,
                                           const tsc_mark *marks, size_t marks_len, uint32_t tries)
{
    return tsc_seat_add_all(tsc_go_store(b), b->handle, keys, keys_len, marks, marks_len, &b->time,
                            tries, &b->told, &b->added);
}

static inline uint32_t tsc_go_seat_get_max(tsc_go_block *b, const uint8_t *from, size_t from_len,
                                           const uint8_t *to, size_t to_len, uint32_t ends)
{
    return tsc_seat_get_max(tsc_go_store(b), b->handle, from, from_len, to, to_len, ends, &b->told,
                            &b->value);
}

static inline uint32_t tsc_go_seat_earliest_write(tsc_go_block *b, const uint8_t *keys,
                                                  size_t keys_len, const tsc_span *spans,
                                                  size_t spans_len)
{
    return tsc_seat_earliest_write(tsc_go_store(b), b->handle, keys, keys_len, spans, spans_len,
                                   &b->value, &b->told, &b->time);
}

static inline uint32_t tsc_go_seat_may_write(tsc_go_block *b, const uint8_t *keys, size_t keys_len,
                                             const tsc_span *spans, size_t spans_len)
{
    return tsc_seat_may_write(tsc_go_store(b), b->handle, keys, keys_len, spans, spans_len,
                              &b->value, &b->told, &b->may);
}

static inline uint32_t tsc_go_seat_low_water(tsc_go_block *b)
{
    return tsc_seat_low_water(tsc_go_store(b), b->handle, &b->told, &b->time);
}

static inline tsc_go_counted tsc_go_seat_figures(tsc_go_block *b)
{
    tsc_go_counted told = {0};
    told.code = tsc_seat_figures_of(tsc_go_store(b), b->handle, &b->told, &told.figures);
    return told;
}

static inline uint32_t tsc_go_summary(tsc_go_block *b, const uint8_t *from, size_t from_len,
                                      const uint8_t *to, size_t to_len, uint32_t ends, size_t most,
                                      uint8_t *out, size_t room)
{
    return tsc_summary(tsc_go_store(b), b->handle, from, from_len, to, to_len, ends, most, out,
                       room, &b->length);
}

static inline uint32_t tsc_go_seat_summary(tsc_go_block *b, const uint8_t *from, size_t from_len,
                                           const uint8_t *to, size_t to_len, uint32_t ends,
                                           size_t most, uint8_t *out, size_t room)
{
    return tsc_seat_summary(tsc_go_store(b), b->handle, from, from_len, to, to_len, ends, most,
                            &b->told, out, room, &b->length);
}

static inline uint32_t tsc_go_apply(tsc_go_block *b, const uint8_t *summary, size_t summary_len)
{
    return tsc_apply(tsc_go_store(b), b->handle, summary, summary_len, &b->time, &b->added);
}

// The calls for texts. The bytes go as bytes, so that cgo looks for pointers among them alone, and
// not in what they lie in.

static inline uint32_t tsc_go_replay(const uint8_t *trace, size_t trace_len, uint8_t *out,
                                     size_t room, size_t *len)
{
    return tsc_replay(trace, trace_len, out, room, len);
}

static inline uint32_t tsc_go_check(const uint8_t *trace, size_t trace_len, const uint8_t *log,
                                    size_t log_len, uint8_t *out, size_t room, size_t *len)
{
    return tsc_check(trace, trace_len, log, log_len, out, room, len);
}

#endif
