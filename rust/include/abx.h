/* ABX, Android's binary XML: the functions of libabx.a.
 *
 * A slice is a pointer, then the number of its elements. A pointer is aligned and never null, even where the number is 0. What a
 * function writes (a pointer without const) overlaps nothing else that it is lent; nobody else writes any of it until it returns.
 *
 * An answer is four words, and is written where answer_len is 4 or more: ABX_DONE and what was asked for; ABX_END; ABX_REFUSED, a
 * refusal's number (ABX_HEADER_SHORT to ABX_ILLEGAL_CHAR) and its detail, which is 0 where none is named; or ABX_NEED_MORE. A word of the four that is not
 * named at a function is 0. Fewer than four are left as they are. A refused call changes nothing else, but for a query, which keeps what it found.
 *
 * Stack: a call that handles one event takes less than 64 KB (abx_write_event where it has at most 1,024 rows), and so do abx_to_xml and abx_nested, of
 * any list; a query, a list that is written as ABX, and a longer event less than 600 KB, but where more than 20,480 different names are written, 1.6 MB.
 *
 * A row is eight words: kind; name (source, start, length); type; value (source, a, b). A word that its kind or type has no use for is 0. A span's source
 * is 0 for the document, the window or the first store, 1 for the name store or the second store. A pool has two words for a name, and an even
 * length, at most 131,070. */
#ifndef ABX_H
#define ABX_H

#include <stdbool.h>
#include <stddef.h>
#include <stdint.h>

#ifdef __cplusplus
extern "C" {
#endif

enum { ABX_DONE = 0, ABX_END = 1, ABX_REFUSED = 2, ABX_NEED_MORE = 3 };

enum { ABX_FOUND = 0 }; /* of a query, in the place of ABX_DONE */

enum { ABX_ROW = 8, ABX_ANSWER = 4, ABX_QUERY_ANSWER = 7, ABX_STATE = 6 };

/* A row's kind: an event, or an attribute of the start tag before it. */
enum {
    ABX_START_DOCUMENT = 0,         /* the kind alone */
    ABX_END_DOCUMENT = 1,           /* the kind alone */
    ABX_START_TAG = 2,              /* a name */
    ABX_END_TAG = 3,                /* a name */
    ABX_TEXT = 4,                   /* this and the next six: ABX_STRING, and a span of a's start and b's length */
    ABX_CDATA = 5,
    ABX_ENTITY_REF = 6,
    ABX_IGNORABLE_WHITESPACE = 7,
    ABX_PROCESSING_INSTRUCTION = 8,
    ABX_COMMENT = 9,
    ABX_DOC_DECL = 10,
    ABX_ATTRIBUTE = 15              /* a name, a type and a value */
};

/* A row's type. A string that the document interned is 3 on the wire and ABX_STRING in a row. */
enum {
    ABX_NULL = 1,                   /* no value */
    ABX_STRING = 2,                 /* a span */
    ABX_BYTES_HEX = 4,              /* a span */
    ABX_BYTES_BASE64 = 5,           /* a span */
    ABX_INT = 6,                    /* 32 bits in b */
    ABX_INT_HEX = 7,                /* 32 bits in b */
    ABX_LONG = 8,                   /* the high 32 bits in a, the low in b */
    ABX_LONG_HEX = 9,               /* the high 32 bits in a, the low in b */
    ABX_FLOAT = 10,                 /* 32 bits in b */
    ABX_DOUBLE = 11,                /* the high 32 bits in a, the low in b */
    ABX_BOOLEAN_TRUE = 12,          /* no value */
    ABX_BOOLEAN_FALSE = 13          /* no value */
};

/* Why a call was refused. */
enum {
    ABX_HEADER_SHORT = 1,           /* the input ends inside the header */
    ABX_INVALID_MAGIC = 2,          /* the header is other bytes; detail: these, as a number, the first highest */
    ABX_UNEXPECTED_EOF = 3,         /* the input ends inside a token, length, index or number */
    ABX_STRING_SHORT = 4,           /* the input ends inside a string's bytes */
    ABX_BYTES_SHORT = 5,            /* the input ends inside a blob's bytes */
    ABX_BAD_INTERNED_INDEX = 6,     /* no such name in the pool; detail: the index */
    ABX_INVALID_UTF8 = 7,           /* a string that is not well-formed UTF-8 */
    ABX_UNKNOWN_ATTRIBUTE_TYPE = 8, /* an attribute of type 0, 14 or 15; detail: the type times 16 */
    ABX_UNKNOWN_COMMAND = 9,        /* a command from 11 to 14, or an attribute outside a start tag; detail: the command */
    ABX_ROWS_FULL = 10,             /* too few whole rows for the event */
    ABX_POOL_FULL = 11,             /* the pool is too short for the new names */
    ABX_NAMES_FULL = 12,            /* the name store is too short for the new names' bytes */
    ABX_WINDOW_FULL = 13,           /* an incomplete event fills the window */
    ABX_VALUE_TOO_LONG = 14,        /* a string or blob of over 65,535 bytes; detail: its length */
    ABX_OUTPUT_FULL = 15,           /* the output is too short */
    ABX_NOT_ROWS = 16,              /* words that form no rows, or a span that ends outside its store */
    ABX_BAD_SIZE = 17,              /* a lent buffer of a length that no call takes */
    ABX_ALREADY_FINISHED = 18,      /* a feed or finish after a finish */
    ABX_BAD_STATE = 19,             /* a state's count or place, or a pool pair, outside its buffer */
    ABX_ILLEGAL_CHAR = 20,          /* a character outside XML 1.0's Char production */
    /* these no call gives yet */
    ABX_PART_MISSING = 21,          /* a part of a stored version is missing or unfit */
    ABX_NO_SUCH_VERSION = 22,       /* a version above the newest, or 0 */
    ABX_STORE_FULL = 23,            /* too few unused blocks at the end of a store of versions, or no number left for one more */
    ABX_EXERCISE_TOO_LONG = 24,     /* an exercise of over 1,000 events */
    ABX_CALLER_LIMIT = 25,          /* the event passes its caller's limit */
    ABX_BAD_TOKEN_TABLE = 26,       /* a token table of another length, or that breaks the tables' rule */
    ABX_BAD_SIGN_ON = 27,           /* a sign-on record that lacks an Int, or whose panel's times fall */
    ABX_BAD_TOLERANCE = 28,         /* times that may be over 60 seconds apart */
    ABX_BAD_IDLE_LIMIT = 29,        /* an idle limit outside 1 to 480 minutes */
    ABX_BAD_USE = 30                /* a use that lacks an Int, or is out of range or out of order */
};

/* Whether s is well-formed UTF-8. */
bool abx_is_utf8(const uint8_t *s, size_t s_len);

/* ---- the slice reader: where it stands is a place and a number of names, which each call answers anew */

/* DONE, place, names. */
void abx_slice_create(const uint8_t *document, size_t document_len, const uint32_t *pool, size_t pool_len,
                      size_t *answer, size_t answer_len);

/* DONE, rows, place, names; or END. */
void abx_slice_next(size_t at, size_t names, const uint8_t *document, size_t document_len, uint32_t *pool,
                    size_t pool_len, uint32_t *rows, size_t rows_len, size_t *answer, size_t answer_len);

/* Queries answer seven words, where answer_len is 7 or more: FOUND, END (no more to read) or REFUSED; place, names; the events
 * consumed; the rows written; the refusal's number and detail, both 0 where it was not refused. */

/* The first attribute of this name on the next such element that has it. */
void abx_find_attribute(size_t at, size_t names, const uint8_t *document, size_t document_len, uint32_t *pool,
                        size_t pool_len, uint32_t *rows, size_t rows_len, const uint8_t *element, size_t element_len,
                        const uint8_t *name, size_t name_len, size_t *answer, size_t answer_len);

/* The next such element, with its attributes. */
void abx_attributes_of(size_t at, size_t names, const uint8_t *document, size_t document_len, uint32_t *pool,
                       size_t pool_len, uint32_t *rows, size_t rows_len, const uint8_t *element, size_t element_len,
                       size_t *answer, size_t answer_len);

/* Every attribute of this name on every such element. */
void abx_find_all_attributes(size_t at, size_t names, const uint8_t *document, size_t document_len, uint32_t *pool,
                             size_t pool_len, uint32_t *rows, size_t rows_len, const uint8_t *element,
                             size_t element_len, const uint8_t *name, size_t name_len, size_t *answer,
                             size_t answer_len);

/* Every such element, with its attributes. */
void abx_all_attributes_of(size_t at, size_t names, const uint8_t *document, size_t document_len, uint32_t *pool,
                           size_t pool_len, uint32_t *rows, size_t rows_len, const uint8_t *element,
                           size_t element_len, size_t *answer, size_t answer_len);

/* ---- the chunk reader: its state is six words, start, end, names, bytes, header passed, finished, which each call changes that is not refused.
 * The last two are flags: a call writes 0 or 1, and takes any value but 0 as true. Words after the sixth stay as they are. A state of fewer than six
 * words is left as it is, and refused ABX_BAD_STATE, a creation's too, after ABX_BAD_SIZE. */

/* DONE. A window has 64 to 1,048,576 bytes, a name store at most 16,777,216. */
void abx_stream_create(size_t *state, size_t state_len, const uint8_t *window, size_t window_len,
                       const uint32_t *pool, size_t pool_len, const uint8_t *store, size_t store_len, size_t *answer,
                       size_t answer_len);

/* DONE, bytes taken. */
void abx_stream_feed(size_t *state, size_t state_len, uint8_t *window, size_t window_len, const uint32_t *pool,
                     size_t pool_len, const uint8_t *store, size_t store_len, const uint8_t *chunk, size_t chunk_len,
                     size_t *answer, size_t answer_len);

/* DONE. */
void abx_stream_finish(size_t *state, size_t state_len, const uint8_t *window, size_t window_len,
                       const uint32_t *pool, size_t pool_len, const uint8_t *store, size_t store_len, size_t *answer,
                       size_t answer_len);

/* DONE, rows; END; or NEED_MORE. */
void abx_stream_next(size_t *state, size_t state_len, const uint8_t *window, size_t window_len, uint32_t *pool,
                     size_t pool_len, uint8_t *store, size_t store_len, uint32_t *rows, size_t rows_len,
                     size_t *answer, size_t answer_len);

/* ---- the writer: its state is the bytes written and a number of names, which each call answers anew */

/* DONE, bytes written, names. An output has at most 16,777,216 bytes. */
void abx_writer_create(uint8_t *output, size_t output_len, const uint32_t *pool, size_t pool_len, size_t *answer,
                       size_t answer_len);

/* DONE, bytes written, names: exactly one event. */
void abx_write_event(size_t written, size_t names, const uint8_t *first, size_t first_len, const uint8_t *second,
                     size_t second_len, const uint32_t *rows, size_t rows_len, uint8_t *output, size_t output_len,
                     uint32_t *pool, size_t pool_len, size_t *answer, size_t answer_len);

/* DONE, bytes written, names: a list of events, all or none. */
void abx_write_events(size_t written, size_t names, const uint8_t *first, size_t first_len, const uint8_t *second,
                      size_t second_len, const uint32_t *rows, size_t rows_len, uint8_t *output, size_t output_len,
                      uint32_t *pool, size_t pool_len, size_t *answer, size_t answer_len);

/* ---- XML text: UTF-8 in the output's first bytes, of at most 16,777,216; the bytes after it stay. Start tags are <name a="v" b="w">, end tags
 * </name>. ABX_TEXT and the values of ABX_STRING are escaped: &lt; &gt; &amp; &quot; &apos;. Names and the other texts are printed as they are:
 * <![CDATA[t]]>, &t;, t (white space), <?t?>, <!--t-->, <!DOCTYPE t>. ABX_INT and ABX_LONG are signed decimals, ABX_INT_HEX and ABX_LONG_HEX
 * signed hex (-35014542 for CAFEBABE), ABX_BYTES_HEX hex and ABX_BYTES_BASE64 padded base64, ABX_FLOAT and ABX_DOUBLE their bits in 8 or 16 hex
 * digits, booleans true or false, ABX_NULL nothing between its quotes. Document events print nothing, and nothing stands between events. */

/* DONE, bytes of text: a list of events, all or none. Refused by ABX_BAD_SIZE, then by ABX_NOT_ROWS for the whole list, then event by event: by
 * ABX_INVALID_UTF8 for any of its strings, by ABX_ILLEGAL_CHAR for any of them, by ABX_OUTPUT_FULL. Strings and blobs may have any length. */
void abx_to_xml(const uint8_t *first, size_t first_len, const uint8_t *second, size_t second_len,
                const uint32_t *rows, size_t rows_len, uint8_t *output, size_t output_len, size_t *answer,
                size_t answer_len);

/* DONE, bytes of text: of a list's row, counted from 0, its part of its event's text: `<name` or ` a="v"`, with `>` after it where it is the last row
 * of its start tag; of another event its whole text. The texts of an event's rows, one after the other, are the event's. Refused as above, with
 * ABX_NOT_ROWS where there is no such row, or it does not form where it stands; the other rows are not looked at. */
void abx_row_to_xml(size_t row, const uint8_t *first, size_t first_len, const uint8_t *second, size_t second_len,
                    const uint32_t *rows, size_t rows_len, uint8_t *output, size_t output_len, size_t *answer,
                    size_t answer_len);

/* ---- nesting: whether a list of events is one nested document. It has exactly one outermost element. Each end tag has the name of the innermost open
 * start tag. No tag stays open. At most 64 are open at once. Outside the outermost element stand only document events and the kinds from
 * ABX_IGNORABLE_WHITESPACE to ABX_DOC_DECL; inside it all kinds but document events. There is at most one ABX_START_DOCUMENT, the first event, and at
 * most one ABX_END_DOCUMENT, the last. The empty list is not one. */

/* DONE, 1 for yes or 0 for no. Refused by ABX_NOT_ROWS alone, for the whole list. Of the strings only the names of tags are looked at, and compared by
 * their bytes, wherever these stand: they need not be UTF-8, and may have any length. */
void abx_nested(const uint8_t *first, size_t first_len, const uint8_t *second, size_t second_len,
                const uint32_t *rows, size_t rows_len, size_t *answer, size_t answer_len);

#ifdef __cplusplus
}
#endif

#endif
