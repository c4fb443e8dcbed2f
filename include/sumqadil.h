/*
 * Sumqadil: reading PIF-POF bench messages. Link with libsumqadil.a; nothing else is needed than the C library's memset.
 *
 * A message is one value; its rows, one a value, are read into ten columns that the caller lends. Document 01 decides what is accepted.
 *
 * What holds of every function here:
 * - It gives back 0 (SUMQADIL_OK) for a result, else the number of a refusal (enum sumqadil_refusal).
 * - It writes each number that is lent for an answer, whatever the answer: 0 where there is nothing to say.
 * - It asks nothing of the octets, rows and numbers that are given: there is an answer to all of them.
 * - The caller owns all memory. Nothing is allocated or kept, and there is no state between calls, so threads may call at once.
 * - Pointers must be valid for the count beside them; where the count is 0, any pointer will do, NULL too. Pointers to numbers that are lent
 *   for an answer must not be NULL. Memory that is lent to be written to must not overlap anything else that the call is given.
 *
 * What is said of answers and columns is proved of the code: it is the `ensures` of each function in crates/sumqadil/src/lib.rt; which refusals a function
 * can give is proved in crates/sumqadil/proofs/Numbers.antt. The inline functions at the end only pass on.
 */
#ifndef SUMQADIL_H
#define SUMQADIL_H

#include <stddef.h>
#include <stdint.h>

#ifdef __cplusplus
extern "C" {
#endif

/* Why something is refused, and where the place of the refusal is. */
enum sumqadil_refusal {
    SUMQADIL_OK = 0,             /* not refused */
    SUMQADIL_ENDED = 1,          /* octets end too soon: their count */
    SUMQADIL_TOO_LONG = 2,       /* over 65,535 octets: 0 */
    SUMQADIL_BAD_INTEGER = 3,    /* integer not shortest or not fitting: its first octet */
    SUMQADIL_BAD_TYPE = 4,       /* type unknown, not carried, not allowed here: the identifier */
    SUMQADIL_BAD_NUMBER = 5,     /* negative size, length, version, identity or reference; index out of order or range: that integer */
    SUMQADIL_BAD_CHAR = 6,       /* character misspelt, or cut by its string's end: its first octet */
    SUMQADIL_BAD_TIME = 7,       /* date or time outside its ranges: its first data octet */
    SUMQADIL_TOO_DEEP = 8,       /* level 17: the value's start */
    SUMQADIL_BAD_IDENTITY = 9,   /* identity given twice, a 65th: the number; identity of identity: the inner identifier */
    SUMQADIL_BAD_REFERENCE = 10, /* reference to no ended identity: the number */
    SUMQADIL_LEFT_OVER = 11,     /* octets left over: the first of them */
    SUMQADIL_FEW_ROWS = 12,      /* fewer rows lent than needed: 0 */
    SUMQADIL_BAD_ROW = 14,       /* type unknown or not carried, or a number impossible for it: 0 */
    SUMQADIL_OTHER_TYPE = 15,    /* row can't be had as that type: 0 */
    SUMQADIL_NO_USER_TYPE = 16   /* the frame's message isn't a user type: 0 */
};

/* What a row may be asked for as. */
enum sumqadil_as {
    SUMQADIL_AS_INT16 = 0,
    SUMQADIL_AS_INT32 = 1,
    SUMQADIL_AS_INT64 = 2,
    SUMQADIL_AS_OCTET = 3,
    SUMQADIL_AS_CHAR = 4,
    SUMQADIL_AS_BOOLEAN = 5
};

/*
 * Measures the first value in `count` octets at `src`; what follows it is not looked at.
 * Result: *length is the length of the value, *place is 0.
 * Refusal: *length is 0, *place is where. Refusals: 1 to 10.
 * `src` is only read.
 */
uint8_t sumqadil_measure(const uint8_t *src, size_t count, size_t *length, size_t *place);

/*
 * Checks a message, which is all of the `count` octets at `src`, and counts the rows that reading it needs.
 * Result: *rows is that count, *place is 0.
 * Refusal: *rows is 0, *place is where. Refusals: 1 to 11.
 * `src` is only read.
 */
uint8_t sumqadil_count_rows(const uint8_t *src, size_t count, size_t *rows, size_t *place);

/*
 * Checks a frame, which is all of the `count` octets at `src`: a length, a conversation number and a message that is a user type.
 * Result: *rows is how many rows reading it needs, *conversation its number, *from the place of the message in the frame; *place is 0.
 * Refusal: *rows, *conversation and *from are 0, *place is where, counted from the frame's first octet. Refusals: 1 to 11, 16.
 * `src` is only read.
 */
uint8_t sumqadil_check_frame(const uint8_t *src, size_t count, size_t *rows, int32_t *conversation, size_t *from, size_t *place);

/*
 * Reads a message, which is all of the `count` octets at `src`, into ten columns, each with its own count of elements; as many rows may be
 * used as the shortest has. (`sumqadil_read_message_into` below takes the columns as one struct.)
 * Result: *rows is the count of rows, *place is 0, and row i of the message is element i of each column; a container's row comes before the
 * rows inside it. Elements from *rows on are left as they were.
 * Refusal: *rows is 0, *place is where, and all columns are left as they were. Refusals: 1 to 12.
 * `src` is only read. The columns stay the caller's: nothing points into them or into `src` afterwards. Strings are not copied: a row says
 * where its contents lie in `src`.
 */
uint8_t sumqadil_read_message(
    const uint8_t *src, size_t count,
    int32_t *ty, size_t ty_count,
    uint8_t *own, size_t own_count,
    uint32_t *label, size_t label_count,
    int64_t *number, size_t number_count,
    int32_t *first, size_t first_count,
    int32_t *second, size_t second_count,
    uint32_t *contents, size_t contents_count,
    uint32_t *below, size_t below_count,
    uint32_t *start, size_t start_count,
    uint32_t *end, size_t end_count,
    size_t *rows, size_t *place);

/*
 * Reads a frame, which is all of the `count` octets at `src`, and its message's rows into ten columns, as above. Places in rows count from the
 * message's first octet, which is src[*from]. (`sumqadil_read_frame_into` below takes the columns as one struct.)
 * Result: *rows, *conversation and *from as `sumqadil_check_frame` gives them, *place is 0, and the columns as above.
 * Refusal: *rows, *conversation and *from are 0, *place is where, counted from the frame's first octet, and all columns are left as they
 * were. Refusals: 1 to 12, 16.
 * `src` is only read, and the columns stay the caller's.
 */
uint8_t sumqadil_read_frame(
    const uint8_t *src, size_t count,
    int32_t *ty, size_t ty_count,
    uint8_t *own, size_t own_count,
    uint32_t *label, size_t label_count,
    int64_t *number, size_t number_count,
    int32_t *first, size_t first_count,
    int32_t *second, size_t second_count,
    uint32_t *contents, size_t contents_count,
    uint32_t *below, size_t below_count,
    uint32_t *start, size_t start_count,
    uint32_t *end, size_t end_count,
    size_t *rows, int32_t *conversation, size_t *from, size_t *place);

/*
 * The value of a row with this type and number, as the type asked for (enum sumqadil_as). No other number of the row is looked at.
 * Result: *value is the value; a boolean's is 0 or 1.
 * Refusal: *value is 0. Refusals: 14 if the type is unknown or not carried, or the number impossible for it; 15 if the row can't be had as
 * that type, or there is no such type in enum sumqadil_as.
 */
uint8_t sumqadil_ask(int32_t ty, int64_t number, uint8_t what, int64_t *value);

/* ---- The ten columns as one struct ---- */

/* Ten columns of `lent` elements each, the caller's. */
typedef struct sumqadil_columns {
    int32_t *ty;        /* type identifier */
    uint8_t *own;       /* 1 if the identifier stands in the octets, 0 if the value is bare */
    uint32_t *label;    /* position, pair position, index or property index; 0 for the outermost value and under an identity */
    int64_t *number;    /* what the value says as a number: an integer, bits of a float, a length, a size .. */
    int32_t *first;     /* element types of a uniform form, 0 where none */
    int32_t *second;
    uint32_t *contents; /* place of string contents, 0 for the others; `number` is their length */
    uint32_t *below;    /* how many rows follow that are inside this one */
    uint32_t *start;    /* place of the value */
    uint32_t *end;      /* place just past it */
    size_t lent;
} sumqadil_columns;

/* `sumqadil_read_message` into columns of one length; its answers. The struct is only read, the columns are written. */
static inline uint8_t sumqadil_read_message_into(
    const uint8_t *src, size_t count, const sumqadil_columns *into, size_t *rows, size_t *place)
{
    const size_t n = into->lent;
    return sumqadil_read_message(
        src, count, into->ty, n, into->own, n, into->label, n, into->number, n, into->first, n, into->second, n, into->contents, n,
        into->below, n, into->start, n, into->end, n, rows, place);
}

/* `sumqadil_read_frame` into columns of one length; its answers. The struct is only read, the columns are written. */
static inline uint8_t sumqadil_read_frame_into(
    const uint8_t *src, size_t count, const sumqadil_columns *into, size_t *rows, int32_t *conversation, size_t *from, size_t *place)
{
    const size_t n = into->lent;
    return sumqadil_read_frame(
        src, count, into->ty, n, into->own, n, into->label, n, into->number, n, into->first, n, into->second, n, into->contents, n,
        into->below, n, into->start, n, into->end, n, rows, conversation, from, place);
}

/* `sumqadil_ask` of row i, which must be below the count of rows that a reading gave; its answers. The columns are only read. */
static inline uint8_t sumqadil_ask_row(const sumqadil_columns *from, size_t i, enum sumqadil_as what, int64_t *value)
{
    return sumqadil_ask(from->ty[i], from->number[i], (uint8_t)what, value);
}

#ifdef __cplusplus
}
#endif

#endif
