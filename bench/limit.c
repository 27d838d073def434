/* Our slice and chunk readers beside a plain C reader of a document in memory, which is about what the machine can do: first whether the slice
 * reader and the C write the same rows and pairs for every event, then how long each takes.
 *     limit FOLDER
 * The C reader makes the checks that abx_slice_next makes, in one pass and with no more code than that takes. Where an event is refused it does
 * not say why, and leaves in the rows and in the pool what it had written. */
#define _POSIX_C_SOURCE 200809L
#include "abx.h"

#include <stdio.h>
#include <stdlib.h>
#include <string.h>
#include <time.h>

/* ---- the C reader */

/* Where a compiler leaves calls among these, the C takes up to half as much time again. */
#define ALWAYS_INLINE __attribute__((always_inline)) static inline

enum { START_TAG = 2, END_TAG = 3, DOC_DECL = 10, ATTRIBUTE = 15, STRING = 2, NEW_NAME = 65535 };

struct cursor {
    const uint8_t *document;
    size_t length;
    size_t at;
    uint32_t *pool;
    size_t pool_len;
    size_t names;
};

ALWAYS_INLINE uint32_t two_bytes(const uint8_t *p)
{
    return (uint32_t)p[0] << 8 | p[1];
}

ALWAYS_INLINE uint32_t four_bytes(const uint8_t *p)
{
    uint32_t word;
    memcpy(&word, p, 4);
    return __builtin_bswap32(word);
}

ALWAYS_INLINE bool has(const struct cursor *c, size_t bytes)
{
    return c->length - c->at >= bytes;
}

ALWAYS_INLINE bool eight_are_ascii(const uint8_t *p)
{
    uint64_t word;
    memcpy(&word, p, 8);
    return (word & 0x8080808080808080) == 0;
}

/* Names and short values are mostly ASCII; for the rest ours is fast. */
ALWAYS_INLINE bool is_utf8(const uint8_t *s, size_t length)
{
    size_t i = 0;
    while (i + 8 <= length && eight_are_ascii(s + i))
        i += 8;
    if (length >= 8 && i + 8 > length && eight_are_ascii(s + length - 8))
        return true;
    while (i < length && s[i] < 0x80)
        i++;
    return i == length || abx_is_utf8(s + i, length - i);
}

ALWAYS_INLINE void set_span(uint32_t *span, uint32_t start, uint32_t length)
{
    span[0] = 0;
    span[1] = start;
    span[2] = length;
}

ALWAYS_INLINE bool blob(struct cursor *c, uint32_t *span)
{
    if (!has(c, 2))
        return false;
    uint32_t length = two_bytes(c->document + c->at);
    c->at += 2;
    if (!has(c, length))
        return false;
    set_span(span, c->at, length);
    c->at += length;
    return true;
}

ALWAYS_INLINE bool string(struct cursor *c, uint32_t *span)
{
    return blob(c, span) && is_utf8(c->document + span[1], span[2]);
}

ALWAYS_INLINE bool new_name(struct cursor *c, uint32_t *span)
{
    if (!string(c, span))
        return false;
    if (c->names == NEW_NAME)
        return true;
    if (2 * c->names + 2 > c->pool_len)
        return false;
    c->pool[2 * c->names] = span[1];
    c->pool[2 * c->names + 1] = span[2];
    c->names++;
    return true;
}

ALWAYS_INLINE bool name(struct cursor *c, uint32_t *span)
{
    if (!has(c, 2))
        return false;
    uint32_t index = two_bytes(c->document + c->at);
    c->at += 2;
    if (index == NEW_NAME)
        return new_name(c, span);
    if (index >= c->names)
        return false;
    uint32_t start = c->pool[2 * index];
    uint32_t length = c->pool[2 * index + 1];
    if ((uint64_t)start + length > c->length)
        return false;
    set_span(span, start, length);
    return true;
}

ALWAYS_INLINE bool number(struct cursor *c, uint32_t *value, size_t bytes)
{
    if (!has(c, bytes))
        return false;
    const uint8_t *p = c->document + c->at;
    value[0] = 0;
    value[1] = bytes == 8 ? four_bytes(p) : 0;
    value[2] = four_bytes(p + bytes - 4);
    c->at += bytes;
    return true;
}

ALWAYS_INLINE bool attribute(struct cursor *c, uint32_t *row)
{
    uint32_t type = c->document[c->at] >> 4;
    c->at++;
    row[0] = ATTRIBUTE;
    if (!name(c, row + 1))
        return false;
    row[4] = type;
    switch (type) {
    case 1:
    case 12:
    case 13:
        set_span(row + 5, 0, 0);
        return true;
    case STRING:
        return string(c, row + 5);
    case 3:
        row[4] = STRING;
        return name(c, row + 5);
    case 4:
    case 5:
        return blob(c, row + 5);
    case 6:
    case 7:
    case 10:
        return number(c, row + 5, 4);
    case 8:
    case 9:
    case 11:
        return number(c, row + 5, 8);
    default:
        return false;
    }
}

/* How many rows the event has, 0 if it is refused. */
ALWAYS_INLINE size_t event(struct cursor *c, uint32_t *rows, size_t most_rows)
{
    uint32_t token = c->document[c->at];
    uint32_t kind = token & 15;
    c->at++;
    if (most_rows == 0 || kind > DOC_DECL)
        return 0;
    rows[0] = kind;
    if (kind > END_TAG) {
        set_span(rows + 1, 0, 0);
        rows[4] = STRING;
        if (token >> 4 == STRING)
            return string(c, rows + 5);
        set_span(rows + 5, 0, 0);
        return 1;
    }
    memset(rows + 4, 0, 16);
    if (kind < START_TAG) {
        set_span(rows + 1, 0, 0);
        return 1;
    }
    if (!name(c, rows + 1))
        return 0;
    size_t count = 1;
    while (kind == START_TAG && c->at < c->length && (c->document[c->at] & 15) == ATTRIBUTE) {
        if (count == most_rows || !attribute(c, rows + ABX_ROW * count))
            return 0;
        count++;
    }
    return count;
}

/* ---- reading a whole document */

enum { HEADER = 4, POOL = 131070, CHUNK = 65536, WINDOW = 131072, STORE = 1048576, TURNS = 25 };

struct document {
    const char *name;
    uint8_t *bytes;
    size_t length;
};

struct buffers {
    uint32_t *pool;
    uint32_t *rows;
    size_t rows_len;
    uint8_t *window;
    uint8_t *store;
};

struct size {
    size_t events;
    size_t rows;
};

static void fail(const struct document *d, const char *what, size_t at)
{
    fprintf(stderr, "limit: %s: %s at %zu\n", d->name, what, at);
    exit(1);
}

static struct cursor start(const struct document *d, const struct buffers *b)
{
    struct cursor c = {d->bytes, d->length, HEADER, b->pool, POOL, 0};
    return c;
}

static struct size read_plain(const struct document *d, const struct buffers *b)
{
    struct size size = {0, 0};
    struct cursor c = start(d, b);
    while (c.at < c.length) {
        size_t count = event(&c, b->rows, b->rows_len / ABX_ROW);
        if (count == 0)
            fail(d, "the C reader refuses", c.at);
        size.events++;
        size.rows += count;
    }
    return size;
}

static struct size read_slice(const struct document *d, const struct buffers *b)
{
    struct size size = {0, 0};
    size_t a[ABX_ANSWER];
    abx_slice_create(d->bytes, d->length, b->pool, POOL, a, ABX_ANSWER);
    size_t at = a[1];
    size_t names = a[2];
    for (;;) {
        abx_slice_next(at, names, d->bytes, d->length, b->pool, POOL, b->rows, b->rows_len, a, ABX_ANSWER);
        if (a[0] != ABX_DONE)
            break;
        size.events++;
        size.rows += a[1];
        at = a[2];
        names = a[3];
    }
    if (a[0] != ABX_END)
        fail(d, "the slice reader refuses", at);
    return size;
}

/* A chunk is fed, then events are asked for until more is needed. */
static struct size read_chunks(const struct document *d, const struct buffers *b)
{
    struct size size = {0, 0};
    size_t a[ABX_ANSWER];
    size_t state[ABX_STATE];
    size_t fed = 0;
    abx_stream_create(state, ABX_STATE, b->window, WINDOW, b->pool, POOL, b->store, STORE, a, ABX_ANSWER);
    for (;;) {
        abx_stream_next(state, ABX_STATE, b->window, WINDOW, b->pool, POOL, b->store, STORE, b->rows, b->rows_len, a,
                        ABX_ANSWER);
        if (a[0] == ABX_DONE) {
            size.events++;
            size.rows += a[1];
        } else if (a[0] != ABX_NEED_MORE) {
            break;
        } else if (fed == d->length) {
            abx_stream_finish(state, ABX_STATE, b->window, WINDOW, b->pool, POOL, b->store, STORE, a, ABX_ANSWER);
        } else {
            size_t chunk = d->length - fed < CHUNK ? d->length - fed : CHUNK;
            abx_stream_feed(state, ABX_STATE, b->window, WINDOW, b->pool, POOL, b->store, STORE, d->bytes + fed, chunk,
                            a, ABX_ANSWER);
            fed += a[1];
        }
    }
    if (a[0] != ABX_END)
        fail(d, "the chunk reader refuses", fed);
    return size;
}

/* ---- whether they agree, and the table */

/* Room for any event of a document: an attribute takes three bytes at least. */
static struct buffers new_buffers(size_t length)
{
    struct buffers b;
    b.rows_len = ABX_ROW * (1 + length / 3);
    b.pool = calloc(POOL, sizeof *b.pool);
    b.rows = calloc(b.rows_len, sizeof *b.rows);
    b.window = calloc(WINDOW, 1);
    b.store = calloc(STORE, 1);
    if (!b.pool || !b.rows || !b.window || !b.store)
        exit(1);
    return b;
}

static void free_buffers(struct buffers *b)
{
    free(b->pool);
    free(b->rows);
    free(b->window);
    free(b->store);
}

static bool same(const uint32_t *a, const uint32_t *b, size_t words)
{
    return memcmp(a, b, words * sizeof *a) == 0;
}

/* The two read the document side by side, each with its own buffers. */
static void hold(const struct document *d)
{
    struct buffers ours = new_buffers(d->length);
    struct buffers plain = new_buffers(d->length);
    struct cursor c = start(d, &plain);
    size_t a[ABX_ANSWER];
    size_t names = 0;
    while (c.at < c.length) {
        size_t at = c.at;
        size_t count = event(&c, plain.rows, plain.rows_len / ABX_ROW);
        abx_slice_next(at, names, d->bytes, d->length, ours.pool, POOL, ours.rows, ours.rows_len, a, ABX_ANSWER);
        if (count == 0 || a[0] != ABX_DONE || a[1] != count || a[2] != c.at || a[3] != c.names)
            fail(d, "the answers differ", at);
        if (!same(ours.rows, plain.rows, ABX_ROW * count))
            fail(d, "the rows differ", at);
        if (!same(ours.pool + 2 * names, plain.pool + 2 * names, 2 * (c.names - names)))
            fail(d, "the pairs differ", at);
        names = c.names;
    }
    if (!same(ours.pool, plain.pool, POOL))
        fail(d, "the pools differ", c.at);
    free_buffers(&ours);
    free_buffers(&plain);
}

/* The thread's own time: other work on the machine counts less in it. */
static double milliseconds(void)
{
    struct timespec time;
    clock_gettime(CLOCK_THREAD_CPUTIME_ID, &time);
    return time.tv_sec * 1e3 + time.tv_nsec / 1e6;
}

enum { PLAIN, SLICE, CHUNKS, READERS };

/* The readers take turns, so that noise hits all, and the best turn of each counts. */
static void measure(const struct document *d)
{
    struct size (*const readers[READERS])(const struct document *, const struct buffers *) = {read_plain, read_slice,
                                                                                             read_chunks};
    struct buffers b = new_buffers(d->length);
    struct size size = read_plain(d, &b);
    double best[READERS] = {1e9, 1e9, 1e9};
    for (int turn = 0; turn < TURNS; turn++) {
        for (int i = 0; i < READERS; i++) {
            double begin = milliseconds();
            struct size read = readers[i](d, &b);
            double taken = milliseconds() - begin;
            if (taken < best[i])
                best[i] = taken;
            if (read.events != size.events || read.rows != size.rows)
                fail(d, "the counts differ", read.events);
        }
    }
    printf("| %s | %zu | %.2f | %.2f | %.2f | %.2f | %.2f |\n", d->name, size.events, best[PLAIN], best[SLICE],
           best[SLICE] / best[PLAIN], best[CHUNKS], best[CHUNKS] / best[PLAIN]);
    free_buffers(&b);
}

static struct document load(const char *folder, const char *name)
{
    struct document d = {name, NULL, 0};
    char path[4096];
    snprintf(path, sizeof path, "%s/%s.abx", folder, name);
    FILE *file = fopen(path, "rb");
    if (!file)
        fail(&d, "no such document", 0);
    fseek(file, 0, SEEK_END);
    d.length = ftell(file);
    rewind(file);
    d.bytes = malloc(d.length);
    if (!d.bytes || fread(d.bytes, 1, d.length, file) != d.length)
        fail(&d, "not read", 0);
    fclose(file);
    return d;
}

int main(int count, char **arguments)
{
    const char *names[] = {"packages", "packages14", "text60k", "text3byte", "names20k-once", "names20k-x8"};
    if (count != 2)
        return 2;
    printf("| document | events | C ms | slice ms | slice / C | chunk ms | chunk / C |\n|---|---|---|---|---|---|---|\n");
    for (size_t i = 0; i < sizeof names / sizeof *names; i++) {
        struct document d = load(arguments[1], names[i]);
        hold(&d);
        measure(&d);
        free(d.bytes);
    }
    return 0;
}
