/* The calls of tql.h, over the exports of the crate tql_c. Nothing in this file is proved. It has to keep what the exports require: memory of
 * tqlc_size() bytes is a host from tqlc_begin on, and one call at a time has it; the request, the text, the room and the reply of a call do
 * not overlap, and are as long as the call is told.
 *
 * A host is never ended. Closing an engine frees what is in it, and its host serves the next engine. So as many hosts are kept, of some 700
 * bytes each, as engines were open at one time. */
#include "tql.h"
#include <stdatomic.h>
#include <stdbool.h>
#include <stdlib.h>
#include <string.h>

#ifndef TQL_BUILD
#define TQL_BUILD "unproved"
#endif

/* ---- the exports of tql_c (crates/tql_c/src/lib.rt) */
struct request { uint32_t asked, column; uint64_t start, count; };
struct told { uint32_t kind, code; int64_t number; uint64_t length; };    /* the reply */
size_t tqlc_size(void);
void tqlc_begin(void *room);
void tqlc_call(void *at, const struct request *request, const unsigned char *text, size_t length, unsigned char *room, size_t size, struct told *told);
enum { STEP = 1, FEED, NEXT, FINISH, HEADING, ROW, CELL, BLOCK, SKIP, VERB, WORDS, HINT, CONSTRAINT, FAULT_COLUMN, PLACE, KINDS, JSON, FORGET,
       OPEN, CLOSE, IN_USE, STEP_WITH, PLACES };

/* ---- the table of engines */
enum { MOST = 4096 };
struct engine {
    _Atomic uint32_t turn;   /* even: no engine; odd: an open one. It only rises, so that a number is given once. */
    atomic_flag busy;        /* a call has it */
    void *at;                /* the host */
    struct told last;        /* the last answer */
    char *text;              /* the last text that was returned, in `room` bytes */
    size_t room;
};
static struct engine engines[MOST];

/* Returns the number of an engine: its place from 1, and the turn in which it was opened. */
static tql number_of(struct engine *e, uint32_t turn) { return (uint64_t)turn << 32 | (uint64_t)(e - engines + 1); }

/* Takes an engine for a call. Returns null, and `why`, if it is not open or another call has it. */
static struct engine *take(tql number, int *why) {
    uint64_t place = (number & 0xffffffff) - 1;
    *why = TQL_MISUSE;
    if (place >= MOST || !(number >> 32 & 1)) return NULL;
    struct engine *e = &engines[place];
    if (atomic_load(&e->turn) != number >> 32) return NULL;
    if (atomic_flag_test_and_set(&e->busy)) { *why = TQL_BUSY; return NULL; }
    if (atomic_load(&e->turn) != number >> 32) { atomic_flag_clear(&e->busy); return NULL; }
    return e;
}
static void leave(struct engine *e) { atomic_flag_clear(&e->busy); }

/* Makes one request to an engine that was taken. */
static struct told ask(struct engine *e, uint32_t asked, uint32_t column, uint64_t start, uint64_t count, const char *text, size_t length, void *room, size_t size) {
    struct request request = {asked, column, start, count};
    struct told told = {0, 0, 0, 0};
    static unsigned char none[1];
    tqlc_call(e->at, &request, text ? (const unsigned char *)text : none, text ? length : 0, room ? room : none, room ? size : 0, &told);
    return told;
}
/* Takes an engine, makes one request, and leaves it. */
static struct told asks(tql number, uint32_t asked, int column, int *why) {
    struct told told = {0, 0, 0, 0};
    struct engine *e = take(number, why);
    if (!e) return told;
    *why = TQL_OK;
    if (column >= 0) told = ask(e, asked, column, 0, 0, NULL, 0, NULL, 0);
    leave(e);
    return told;
}

/* Makes room for a text of `size` bytes. */
static bool grown(struct engine *e, size_t size) {
    if (size <= e->room) return true;
    size_t room = size < 256 ? 256 : size + size / 2;
    char *text = realloc(e->text, room);
    if (!text) return false;
    e->text = text;
    e->room = room;
    return true;
}

/* Returns a text of the answer, ended by a NUL; null if the reply is of another kind, or there is no memory. */
static const char *text_of(tql number, uint32_t asked, int column, uint32_t kind, size_t *length) {
    int why;
    if (length) *length = 0;
    struct engine *e = take(number, &why);
    if (!e) return NULL;
    const char *found = NULL;
    if (column >= 0 && grown(e, 256)) {
        struct told told = ask(e, asked, column, 0, 0, NULL, 0, e->text, e->room - 1);
        if (told.kind == kind) {
            if (told.length < e->room) found = e->text;
            else if (grown(e, told.length + 1)) {
                ask(e, asked, column, 0, 0, NULL, 0, e->text, e->room - 1);
                found = e->text;
            }
            if (found) {
                e->text[told.length] = 0;
                if (length) *length = told.length;
            }
        }
    }
    leave(e);
    return found;
}
/* Returns a text that is not empty, else null. */
static const char *known(const char *text) { return text && *text ? text : NULL; }

const char *tql_version(void) { return TQL_VERSION " " TQL_BUILD; }

int tql_open(uint64_t most, uint64_t reserve, tql *out) {
    if (!out) return TQL_MISUSE;
    *out = 0;
    for (size_t place = 0; place < MOST; place++) {
        struct engine *e = &engines[place];
        uint32_t turn = atomic_load(&e->turn);
        if (turn & 1 || turn == UINT32_MAX - 1 || atomic_flag_test_and_set(&e->busy)) continue;
        turn = atomic_load(&e->turn);
        if (turn & 1) { atomic_flag_clear(&e->busy); continue; }
        if (!e->at && (e->at = malloc(tqlc_size()))) tqlc_begin(e->at);
        bool made = e->at && ask(e, OPEN, 0, most ? most : UINT64_MAX, reserve, NULL, 0, NULL, 0).kind;
        if (made) {
            e->last = (struct told){0, 0, 0, 0};
            atomic_store(&e->turn, turn + 1);
            *out = number_of(e, turn + 1);
        }
        atomic_flag_clear(&e->busy);
        return made ? TQL_OK : TQL_NOMEM;
    }
    return TQL_NOMEM;
}

int tql_close(tql engine) {
    int why;
    struct engine *e = take(engine, &why);
    if (!e) return why;
    atomic_store(&e->turn, (uint32_t)(engine >> 32) + 1);
    ask(e, CLOSE, 0, 0, 0, NULL, 0, NULL, 0);
    free(e->text);
    e->text = NULL;
    e->room = 0;
    leave(e);
    return TQL_OK;
}

/* Runs a statement, and keeps its answer. */
static int told_of(tql engine, uint32_t asked, const char *text, int64_t length) {
    int why;
    if (length < -1) return TQL_MISUSE;
    struct engine *e = take(engine, &why);
    if (!e) return why;
    e->last = ask(e, asked, 0, 0, 0, text, text && length < 0 ? strlen(text) : (size_t)length, NULL, 0);
    int kind = (int)e->last.kind;
    leave(e);
    return kind;
}
int tql_run(tql engine, const char *text, int64_t length) { return told_of(engine, STEP, text ? text : "", text ? length : 0); }
int tql_next(tql engine) { return told_of(engine, NEXT, NULL, 0); }
int tql_finish(tql engine) { return told_of(engine, FINISH, NULL, 0); }

/* Appends the kind and the number of a value to bytes; returns the end. */
static char *pack(char *end, int kind, int64_t number) {
    *end++ = kind < 0 || kind > 255 ? (char)255 : (char)kind;
    for (int at = 0; at < 64; at += 8) *end++ = (char)((uint64_t)number >> at & 255);
    return end;
}
static size_t length_of(const tql_value *value) {
    if (value->kind != TQL_TEXT || !value->text) return 0;
    return value->length < 0 ? strlen(value->text) : (size_t)value->length;
}
/* Runs a statement, which the engine's memory has, followed by its values. If nothing is run, the last answer stays. A text that nothing is to be
 * written into is run as it is, since COMMIT takes no memory. */
static int run_filled(struct engine *e, size_t length, size_t size, size_t count) {
    bool plain = !count && !memchr(e->text, '?', length);
    struct told told = ask(e, plain ? STEP : STEP_WITH, 0, length, count, e->text, plain ? length : length + size, NULL, 0);
    if (told.kind) e->last = told;
    return told.kind ? (int)told.kind : TQL_MISUSE;
}
int tql_run_packed(tql engine, const char *text, int64_t length, const void *values, size_t size, size_t count) {
    int why;
    if (length < -1) return TQL_MISUSE;
    struct engine *e = take(engine, &why);
    if (!e) return why;
    size_t front = !text ? 0 : length < 0 ? strlen(text) : (size_t)length;
    why = TQL_NOMEM;
    if (size < SIZE_MAX / 4 && front < SIZE_MAX / 4 && grown(e, front + size + 1)) {
        if (front) memcpy(e->text, text, front);
        if (size) memcpy(e->text + front, values, size);
        why = run_filled(e, front, size, count);
    }
    leave(e);
    return why;
}
int tql_run_with(tql engine, const char *text, int64_t length, const tql_value *values, size_t count) {
    int why;
    if (length < -1) return TQL_MISUSE;
    for (size_t at = 0; at < count; at++) if (values[at].length < -1) return TQL_MISUSE;
    struct engine *e = take(engine, &why);
    if (!e) return why;
    size_t front = !text ? 0 : length < 0 ? strlen(text) : (size_t)length, size = 0;
    for (size_t at = 0; at < count && size < SIZE_MAX / 4; at++) size += 9 + length_of(&values[at]);
    why = TQL_NOMEM;
    if (size < SIZE_MAX / 4 && front < SIZE_MAX / 4 && grown(e, front + size + 1)) {
        if (front) memcpy(e->text, text, front);
        char *end = e->text + front;
        for (size_t at = 0; at < count; at++) {
            size_t bytes = length_of(&values[at]);
            end = pack(end, values[at].kind, values[at].kind == TQL_TEXT ? (int64_t)bytes : values[at].number);
            if (bytes) memcpy(end, values[at].text, bytes);
            end += bytes;
        }
        why = run_filled(e, front, size, count);
    }
    leave(e);
    return why;
}
int64_t tql_places(tql engine, const char *text, int64_t length) {
    int why;
    if (length < -1) return -1;
    struct engine *e = take(engine, &why);
    if (!e) return -1;
    struct told told = ask(e, PLACES, 0, 0, 0, text, !text ? 0 : length < 0 ? strlen(text) : (size_t)length, NULL, 0);
    leave(e);
    return told.number;
}

int tql_feed(tql engine, const char *text, int64_t length, size_t *taken) {
    int why;
    if (taken) *taken = 0;
    if (length < -1) return TQL_MISUSE;
    struct engine *e = take(engine, &why);
    if (!e) return why;
    struct told told = ask(e, FEED, 0, 0, 0, text, text && length < 0 ? strlen(text) : (size_t)length, NULL, 0);
    leave(e);
    if (told.kind != TQL_DONE) return TQL_NOMEM;
    if (taken) *taken = (size_t)told.number;
    return TQL_OK;
}

/* Returns the last answer of an open engine. */
static struct told last(tql engine) {
    int why;
    struct told told = {0, 0, 0, 0};
    struct engine *e = take(engine, &why);
    if (e) { told = e->last; leave(e); }
    return told;
}
const char *tql_words(tql engine) { return last(engine).kind == TQL_DONE ? text_of(engine, VERB, 0, 1, NULL) : NULL; }
int64_t tql_changes(tql engine) { struct told t = last(engine); return t.kind == TQL_DONE ? t.number : -1; }
int tql_columns(tql engine) { struct told t = last(engine); return t.kind == TQL_TABLE ? (int)t.number : 0; }
uint64_t tql_rows_left(tql engine) { int why; return asks(engine, SKIP, 0, &why).length; }
const char *tql_name(tql engine, int column, size_t *length) { return text_of(engine, HEADING, column, 1, length); }
int tql_row(tql engine) { int why; struct told t = asks(engine, ROW, 0, &why); return why != TQL_OK ? why : t.kind ? TQL_ROW : TQL_NONE; }
int tql_kind(tql engine, int column) { int why; return (int)asks(engine, CELL, column, &why).kind; }
int64_t tql_int64(tql engine, int column) { int why; return asks(engine, CELL, column, &why).number; }
const char *tql_text(tql engine, int column, size_t *length) { return text_of(engine, CELL, column, TQL_TEXT, length); }

int tql_block(tql engine, int column, uint64_t start, uint64_t count, void *room, size_t size, uint64_t *rows, size_t *needed) {
    int why;
    if (column < 0) return TQL_MISUSE;
    struct engine *e = take(engine, &why);
    if (!e) return why;
    struct told told = ask(e, BLOCK, column, start, count, NULL, 0, room, size);
    leave(e);
    if (rows) *rows = (uint64_t)told.number;
    if (needed) *needed = told.length;
    return TQL_OK;
}
uint64_t tql_skip(tql engine, uint64_t count) {
    int why;
    struct engine *e = take(engine, &why);
    if (!e) return 0;
    struct told told = ask(e, SKIP, 0, 0, count, NULL, 0, NULL, 0);
    leave(e);
    return (uint64_t)told.number;
}
const char *tql_json(tql engine, size_t *length) { return text_of(engine, JSON, 0, 1, length); }

int tql_kinds(tql engine, const char *text, int64_t length, unsigned char *kinds, size_t size) {
    int why;
    if (length < -1) return TQL_MISUSE;
    struct engine *e = take(engine, &why);
    if (!e) return why;
    struct told told = ask(e, KINDS, 0, 0, 0, text, text && length < 0 ? strlen(text) : (size_t)length, kinds, size);
    leave(e);
    return told.kind == 1 ? (int)told.number : -1;
}

void tql_forget(tql engine) { int why; asks(engine, FORGET, 0, &why); }
uint64_t tql_in_use(tql engine) { int why; return asks(engine, IN_USE, 0, &why).length; }

int tql_error(tql engine) { struct told t = last(engine); return t.kind == TQL_REFUSED ? (int)t.code : 0; }
const char *tql_error_text(tql engine) { return tql_error(engine) ? text_of(engine, VERB, 0, 1, NULL) : NULL; }
const char *tql_error_detail(tql engine) { return known(text_of(engine, WORDS, 0, 1, NULL)); }
const char *tql_error_hint(tql engine) { return known(text_of(engine, HINT, 0, 1, NULL)); }
const char *tql_error_constraint(tql engine) { return known(text_of(engine, CONSTRAINT, 0, 1, NULL)); }
const char *tql_error_column(tql engine, int place) { return known(text_of(engine, FAULT_COLUMN, place, 1, NULL)); }
int64_t tql_error_line(tql engine) { int why; return asks(engine, PLACE, 0, &why).number; }
int64_t tql_error_place(tql engine) { int why; return asks(engine, PLACE, 0, &why).code; }
int64_t tql_error_row(tql engine) { int why; return (int64_t)asks(engine, PLACE, 0, &why).length; }
