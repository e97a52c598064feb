/* tql, an in-memory SQL engine for bitemporal tables, as a C library.
 *
 * Engines. An engine is named by a number, as a file is by its descriptor. A call with a number that names no open engine, because it was
 * never given or because the engine is closed, returns TQL_MISUSE (or 0, or a null pointer) and does nothing. A number is given only once.
 *
 * Threads. An engine stays on the thread that opened it; another thread may only close it, while no call runs on it. Engines of different
 * threads run at the same time. A call during another call on the same engine returns TQL_BUSY (or 0, or a null pointer) and does nothing.
 * No call waits, starts a thread, opens a file or reads a clock. Make no call in a signal handler, nor in the child of a fork of a process
 * with several threads.
 *
 * Texts passed to a call are given by a pointer and a length in bytes; the length -1 says that a NUL ends the text. They are UTF-8. A text
 * that is not UTF-8, longer than 1,048,576 bytes, or no statement, is refused like any wrong statement. A null pointer is an empty text.
 * Texts returned by a call end with a NUL, which their length does not count. They are valid until the next call on the same engine.
 *
 * Memory comes from malloc, realloc and free. Where it runs out, a statement is refused (E01) and has changed nothing, and a call that
 * returns a text returns a null pointer.
 *
 * Undefined, and never reported: a length greater than the memory at its pointer; memory that another thread writes while a call reads it;
 * an out pointer that is neither null nor the address of a variable of its type. */
#ifndef TQL_H
#define TQL_H

#include <stddef.h>
#include <stdint.h>

#ifdef __cplusplus
extern "C" {
#endif

#define TQL_VERSION "0.1.0"
#define TQL_VERSION_NUMBER 1000

/* An engine. 0 names none. */
typedef uint64_t tql;

/* What a call returns. */
enum {
    TQL_NONE = 0,     /* there is no further statement, or no further row */
    TQL_DONE = 1,     /* the statement was executed, and has no rows */
    TQL_TABLE = 2,    /* the statement has a table, of which no row is read yet */
    TQL_REFUSED = 3,  /* the statement was refused, and has changed nothing: see tql_error */
    TQL_ROW = 4,      /* there is a row, whose cells can be read */
    TQL_OK = 5,
    TQL_NOMEM = -1,   /* malloc returned no memory */
    TQL_MISUSE = -2,  /* the number names no open engine, or an argument is out of its range */
    TQL_BUSY = -3     /* another thread is inside a call on this engine */
};

/* The kinds of values. */
enum { TQL_NULL = 0, TQL_INTEGER = 1, TQL_TEXT = 2, TQL_DATE = 3, TQL_TIMESTAMP = 4 };

/* Returns TQL_VERSION, a blank, and the commit of a library that was built from proved crates, or else the word "unproved". */
const char *tql_version(void);

/* Opens an engine without tables that takes at most `most` bytes of memory (0: no bound). It keeps back `reserve` of them from INSERT, UPDATE
 * and CREATE TABLE, so that a DELETE can make room in a full engine; a DELETE takes all of them but 65,536. Returns TQL_OK; TQL_NOMEM, also
 * where 4,096 engines are open; TQL_MISUSE if `out` is null. */
int tql_open(uint64_t most, uint64_t reserve, tql *out);

/* Closes an engine and frees its memory, but for some 700 bytes, which the next tql_open uses. Returns TQL_OK, TQL_MISUSE or TQL_BUSY. */
int tql_close(tql engine);

/* Runs one statement, with or without a ';' at its end. Returns TQL_DONE, TQL_TABLE or TQL_REFUSED. The answer replaces the one before. */
int tql_run(tql engine, const char *text, int64_t length);

/* A value: its kind, and its number (a DATE in days, a TIMESTAMP in microseconds since 1970) or its text, of which the length may be -1. */
typedef struct { int kind; int64_t number; const char *text; int64_t length; } tql_value;

/* Runs one statement with values: each '?' outside quotes and comments is the place of one, in their order. The answer is that of tql_run to the
 * text in which the literal of each value, between blanks, is in its place, so no value is ever read as SQL. Returns what tql_run returns; or
 * TQL_MISUSE, and nothing is run, if there are more or fewer values than places, a kind is none, a DATE or TIMESTAMP is not in the years 1 to
 * 9999, or a text is not UTF-8; or TQL_NOMEM. */
int tql_run_with(tql engine, const char *text, int64_t length, const tql_value *values, size_t count);

/* As tql_run_with, with the `count` values in `size` bytes: of each 1 byte of its kind, 8 bytes of its number, little-endian (of a text its
 * length), and the bytes of a text. */
int tql_run_packed(tql engine, const char *text, int64_t length, const void *values, size_t size, size_t count);

/* Returns the number of places for values in a text; -1 if the number names no open engine. */
int64_t tql_places(tql engine, const char *text, int64_t length);

/* Passes a part of a script, in which a ';' ends each statement. The parts may be cut anywhere. Takes at most 65,536 bytes, and none while
 * tql_next has statements left; `taken` (may be null) receives how many. Returns TQL_OK or TQL_NOMEM. */
int tql_feed(tql engine, const char *text, int64_t length, size_t *taken);

/* Runs the next statement of the parts. Returns TQL_DONE, TQL_TABLE or TQL_REFUSED, or TQL_NONE: pass the next part. */
int tql_next(tql engine);

/* As tql_next at the end of a script: a statement without a ';' is refused (E12). After TQL_NONE another script may begin. */
int tql_finish(tql engine);

/* Forgets what was passed of a script and has not run. */
void tql_forget(tql engine);

/* Returns the number of bytes of memory that an engine has in use. */
uint64_t tql_in_use(tql engine);

/* ---- after TQL_DONE */
/* The words of the reply, as "INSERT"; and the number of rows that changed, or -1 if the statement counts none. */
const char *tql_words(tql engine);
int64_t tql_changes(tql engine);

/* ---- after TQL_TABLE */
int tql_columns(tql engine);                                          /* the number of columns; 0 after any other answer */
uint64_t tql_rows_left(tql engine);                                   /* the number of rows after the current one */
const char *tql_name(tql engine, int column, size_t *length);         /* the heading of a column; null if there is no such column */
int tql_row(tql engine);                                              /* goes to the next row: TQL_ROW or TQL_NONE */
uint64_t tql_skip(tql engine, uint64_t count);                        /* goes over rows; returns how many */

/* A cell of the current row, columns from 0. A cell that is not there, or of another kind, is TQL_NULL, 0 or null. `length` may be null. */
int tql_kind(tql engine, int column);
int64_t tql_int64(tql engine, int column);                            /* a number; a DATE in days, a TIMESTAMP in microseconds since 1970 */
const char *tql_text(tql engine, int column, size_t *length);         /* a text; null for any other kind */

/* Copies a column of `count` rows, of which the first is `start` rows after the next one, to the `size` bytes at `room`: for each row its
 * number in 8 bytes, little-endian (of a text, the offset of its end among the bytes of all texts); then for each row its kind in 1 byte;
 * then the bytes of the texts. `rows` receives the number of rows and `needed` the number of bytes; either may be null. If `size` is less
 * than `needed`, nothing is copied. The current row stays. Returns TQL_OK, or TQL_MISUSE for a column below 0. */
int tql_block(tql engine, int column, uint64_t start, uint64_t count, void *room, size_t size, uint64_t *rows, size_t *needed);

/* The kinds of a query's columns, without running it: at most `size` of them in `kinds`. Returns how many columns there are, or -1 if the
 * text is no query. */
int tql_kinds(tql engine, const char *text, int64_t length, unsigned char *kinds, size_t size);

/* ---- after any answer: the whole of it as one line of JSON, as `tql --format json` prints it */
const char *tql_json(tql engine, size_t *length);

/* ---- after TQL_REFUSED; after any other answer 0 or null */
int tql_error(tql engine);                                            /* the number after the E, as 35 */
const char *tql_error_text(tql engine);                               /* as "E35 duplicate key" */
const char *tql_error_detail(tql engine);                             /* what is wrong, or null */
const char *tql_error_hint(tql engine);                               /* what to write instead, or null */
const char *tql_error_constraint(tql engine);                         /* the constraint that a row violates, or null */
const char *tql_error_column(tql engine, int index);                  /* its columns, from 0 on; null after the last */
int64_t tql_error_line(tql engine);                                   /* from 1 */
int64_t tql_error_place(tql engine);                                  /* the character of the line, from 1; 0 if it is not known */
int64_t tql_error_row(tql engine);                                    /* the row of an INSERT, from 1; 0 if it is not known */

#ifdef __cplusplus
}
#endif
#endif
