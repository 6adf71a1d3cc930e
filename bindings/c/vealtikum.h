/* Vealtikum: reads HCL expressions, and checks readings. What the functions promise is proved of the code behind them.
 *
 * What the caller owes:
 * - Every pointer points to as many elements as the length behind it says. None is null, not even where the length is 0.
 * - What is written (nodes, text, place, count, used, from, length) overlaps nothing else that the call is given.
 * - 1 MiB of stack is free.
 *
 * The functions keep nothing between calls and allocate nothing. They may run in several threads at once.
 *
 * There are two static libraries, for x86-64 Linux: libcapi.a has vealtikum_read and vealtikum_text, libcapicheck.a has
 * vealtikum_check. A program links the ones that it calls, in either order.
 */
#ifndef VEALTIKUM_H
#define VEALTIKUM_H

#include <stdbool.h>
#include <stddef.h>
#include <stdint.h>

#ifdef __cplusplus
extern "C" {
#endif

/* The longest source that is read. No reading has more nodes, or more text bytes, than its source has bytes. */
#define VEALTIKUM_LONGEST 65535

/* A node is a record of so many numbers: kind, flag, start, end, count, text start, text length.
 * Children stand before their parent, in source order. So the last record is the root. */
#define VEALTIKUM_WIDTH 7

/* The kinds of answers. */
enum {
    VEALTIKUM_ACCEPTED = 0,
    VEALTIKUM_LONG = 1,       /* more than 65,535 bytes */
    VEALTIKUM_UTF8 = 2,       /* not well-formed UTF-8 */
    VEALTIKUM_FOREIGN = 3,    /* a scalar of 128 or more where neither literal text nor a comment is */
    VEALTIKUM_UNEXPECTED = 4, /* nothing can go on with what stands there */
    VEALTIKUM_ESCAPE = 5,     /* an escape that is wrong or cut short */
    VEALTIKUM_UNCLOSED = 6,   /* the source ends in quoted text, heredoc text or a block comment */
    VEALTIKUM_DUPLICATE = 7,  /* a key that the object has already */
    VEALTIKUM_DEEP = 8,       /* a 65th level */
    VEALTIKUM_DIRECTIVE = 9,  /* %{ in literal text */
    VEALTIKUM_INDEX = 10,     /* a legacy index that is too large */
    VEALTIKUM_SLOTS = 11,     /* too little room for the nodes */
    VEALTIKUM_TEXT = 12       /* too little room for the text */
};

/* Reads a source into lent room, and returns the answer's kind.
 *
 * nodes_len counts numbers, not records: there is room for nodes_len / VEALTIKUM_WIDTH records.
 * An acceptance puts the source's length at place, and how many records and text bytes were written at count and used.
 * A refusal puts its place at place, and writes nothing to nodes and text. VEALTIKUM_SLOTS and VEALTIKUM_TEXT put
 * what is needed at count and used, the others 0. */
uint8_t vealtikum_read(const uint8_t *source, size_t source_len, uint16_t *nodes, size_t nodes_len, uint8_t *text,
                       size_t text_len, size_t *place, size_t *count, size_t *used);

/* Whether a table and a text from anyone are the reading of a source: true exactly where vealtikum_read, lent enough
 * room, accepts the source and writes these very numbers and bytes. nodes_len counts numbers, and is to be that of the
 * table: VEALTIKUM_WIDTH for each record. The source is not read again. Any lengths and any numbers may be given. */
bool vealtikum_check(const uint8_t *source, size_t source_len, const uint16_t *nodes, size_t nodes_len,
                     const uint8_t *text, size_t text_len);

/* Where the text of the i-th record stands: returns 1 for the source, 2 for the text, and 0 where the record has none.
 * The first byte's place and the length are put at from and length; 0 and 0 where there is no text.
 *
 * The table may come from anyone. Bytes that are named are always there. A bad index, numbers that do not fit,
 * a flag over 1 or a kind without text give 0. */
uint8_t vealtikum_text(const uint8_t *source, size_t source_len, const uint16_t *nodes, size_t nodes_len,
                       const uint8_t *text, size_t text_len, size_t i, size_t *from, size_t *length);

#ifdef __cplusplus
}
#endif

#endif
