/* Wrong use that tql.h does not forbid: it is reported, and changes nothing. And engines that are opened and closed leave no memory behind.
 * Prints each check that fails. The argument N, 1 if there is none, has the loops take an N-th of their turns. */
#define _GNU_SOURCE
#include <malloc.h>
#include <pthread.h>
#include <stdio.h>
#include <stdlib.h>
#include <string.h>
#include <tql.h>

static int checks, bad, slow = 1;
static void check_(int ok, const char *text, int line) { checks++; if (!ok) { bad++; printf("line %d: %s\n", line, text); } }
#define CHECK(x) check_(!!(x), #x, __LINE__)

static tql shared;
static void *many(void *arg) {
    int *busy = arg;
    for (int i = 0; i < 20000 / slow; i++) {
        int a = tql_run(shared, "SELECT a FROM t", -1);
        if (a == TQL_BUSY) ++*busy; else if (a != TQL_TABLE) return "wrong";
    }
    return NULL;
}
static void *own(void *arg) {
    tql e;
    (void)arg;
    for (int i = 0; i < 50 / slow + 1; i++) {
        if (tql_open(0, 0, &e) != TQL_OK) return "open";
        if (tql_run(e, "CREATE TABLE t (a INTEGER)", -1) != TQL_DONE) return "create";
        for (int k = 0; k < 20; k++) if (tql_run(e, "INSERT INTO t VALUES (1)", -1) != TQL_DONE) return "insert";
        if (tql_run(e, "SELECT COUNT(*) FROM t", -1) != TQL_TABLE || tql_row(e) != TQL_ROW || tql_int64(e, 0) != 20) return "count";
        if (tql_close(e) != TQL_OK) return "close";
    }
    return NULL;
}

/* Opens and closes engines, each with a table, a row, an answer that is half read, a refusal, and a part of a script. */
static const char *in_turn(int count) {
    tql e;
    for (int i = 0; i < count; i++) {
        if (tql_open(i % 2 ? 0 : 1 << 20, 0, &e) != TQL_OK) return "open";
        if (tql_run(e, "CREATE TABLE t (a INTEGER, b VARCHAR(20))", -1) != TQL_DONE) return "create";
        if (tql_run(e, "INSERT INTO t VALUES (1, 'one'), (2, 'two')", -1) != TQL_DONE) return "insert";
        if (tql_run(e, "INSERT INTO u VALUES (1)", -1) != TQL_REFUSED || !tql_json(e, NULL)) return "refused";
        if (tql_run(e, "SELECT a, b FROM t", -1) != TQL_TABLE || tql_row(e) != TQL_ROW || !tql_text(e, 1, NULL)) return "select";
        if (tql_feed(e, "INSERT INTO t VALUES (3, 'thr", -1, NULL) != TQL_OK) return "feed";
        if (tql_close(e) != TQL_OK) return "close";
    }
    return NULL;
}

static size_t in_use(void) {
#if defined __GLIBC__ && (__GLIBC__ > 2 || __GLIBC_MINOR__ >= 33)
    return mallinfo2().uordblks;
#else
    return 0;
#endif
}

int main(int count, char **words) {
    tql e = 77, f;
    size_t n = 9;
    if (count > 1) slow = atoi(words[1]) > 0 ? atoi(words[1]) : 1;
    CHECK(tql_open(0, 0, NULL) == TQL_MISUSE);
    CHECK(tql_open(0, 0, &e) == TQL_OK && e != 0);
    CHECK(strstr(tql_version(), TQL_VERSION) != NULL);
    /* numbers that name no engine */
    tql none[] = {0, 1, e + 1, e - 1, e ^ (1ull << 32), UINT64_MAX, e | 0x80000000u};
    for (unsigned i = 0; i < sizeof none / sizeof *none; i++) {
        CHECK(tql_run(none[i], "SELECT 1", -1) == TQL_MISUSE);
        CHECK(tql_close(none[i]) == TQL_MISUSE);
        CHECK(tql_row(none[i]) == TQL_MISUSE);
        CHECK(tql_text(none[i], 0, &n) == NULL && n == 0);
        CHECK(tql_int64(none[i], 0) == 0 && tql_columns(none[i]) == 0 && tql_error(none[i]) == 0);
        CHECK(tql_json(none[i], NULL) == NULL && tql_words(none[i]) == NULL);
        CHECK(tql_feed(none[i], ";", 1, &n) == TQL_MISUSE && tql_next(none[i]) == TQL_MISUSE && tql_finish(none[i]) == TQL_MISUSE);
        CHECK(tql_kinds(none[i], "SELECT 1", -1, NULL, 0) == TQL_MISUSE);
        CHECK(tql_run_with(none[i], "SELECT 1", -1, NULL, 0) == TQL_MISUSE && tql_run_packed(none[i], "SELECT 1", -1, NULL, 0, 0) == TQL_MISUSE);
        CHECK(tql_places(none[i], "?", -1) == -1);
        CHECK(tql_block(none[i], 0, 0, 1, NULL, 0, NULL, NULL) == TQL_MISUSE && tql_skip(none[i], 1) == 0 && tql_rows_left(none[i]) == 0);
    }
    /* before any answer */
    CHECK(tql_row(e) == TQL_NONE && tql_columns(e) == 0 && tql_name(e, 0, NULL) == NULL && tql_kind(e, 0) == TQL_NULL);
    CHECK(tql_error(e) == 0 && tql_error_text(e) == NULL && tql_error_detail(e) == NULL && tql_words(e) == NULL && tql_changes(e) == -1);
    CHECK(tql_next(e) == TQL_NONE && tql_finish(e) == TQL_NONE);
    /* texts */
    CHECK(tql_run(e, NULL, -1) == TQL_REFUSED && tql_error(e) == 10);
    CHECK(tql_run(e, NULL, 1000) == TQL_REFUSED && tql_error(e) == 10);
    CHECK(tql_run(e, "", 0) == TQL_REFUSED && tql_error(e) == 10);
    CHECK(tql_run(e, ";", 1) == TQL_REFUSED && tql_run(e, " \n;; ", -1) == TQL_REFUSED);
    CHECK(tql_run(e, "SELECT 1", -2) == TQL_MISUSE && tql_run(e, "SELECT 1", INT64_MIN) == TQL_MISUSE);
    CHECK(tql_run(e, "\xff\xfe", 2) == TQL_REFUSED && tql_error(e) == 11);
    CHECK(tql_run(e, "SELECT\0 1", 9) == TQL_REFUSED && tql_error(e) == 10);
    char *big = malloc(3 << 20);
    memset(big, ' ', 3 << 20);
    memcpy(big, "CREATE TABLE t (a INTEGER, b VARCHAR(20000))", 44);
    CHECK(tql_run(e, big, 1048576) == TQL_DONE);
    memcpy(big, "DROP TABLE t                                ", 44);
    big[1048576] = '-';
    CHECK(tql_run(e, big, 1048577) == TQL_REFUSED && tql_error(e) == 13);
    CHECK(tql_error_text(e) && !strcmp(tql_error_text(e), "E13 statement too long"));
    big[1048576] = ' ';
    CHECK(tql_run(e, "INSERT INTO t VALUES (1, 'x'), (2, NULL)", -1) == TQL_DONE && tql_changes(e) == 2 && !strcmp(tql_words(e), "INSERT"));
    /* cells out of range and of other kinds */
    CHECK(tql_run(e, "SELECT a, b FROM t ORDER BY a;", -1) == TQL_TABLE && tql_columns(e) == 2 && tql_rows_left(e) == 2);
    CHECK(tql_kind(e, 0) == TQL_NULL && tql_int64(e, 0) == 0);
    CHECK(tql_row(e) == TQL_ROW && tql_kind(e, 0) == TQL_INTEGER && tql_int64(e, 0) == 1 && tql_text(e, 0, &n) == NULL && n == 0);
    CHECK(tql_kind(e, 1) == TQL_TEXT && !strcmp(tql_text(e, 1, &n), "x") && n == 1 && tql_int64(e, 1) == 0);
    CHECK(tql_kind(e, 2) == TQL_NULL && tql_kind(e, -1) == TQL_NULL && tql_kind(e, INT32_MAX) == TQL_NULL && tql_kind(e, INT32_MIN) == TQL_NULL);
    CHECK(tql_name(e, 2, NULL) == NULL && tql_name(e, -1, NULL) == NULL && !strcmp(tql_name(e, 1, &n), "B") && n == 1);
    CHECK(tql_row(e) == TQL_ROW && tql_kind(e, 1) == TQL_NULL && tql_text(e, 1, NULL) == NULL);
    CHECK(tql_row(e) == TQL_NONE && tql_row(e) == TQL_NONE && tql_rows_left(e) == 0);
    CHECK(tql_kind(e, 0) == TQL_INTEGER);
    /* blocks */
    unsigned char room[64];
    uint64_t rows = 7;
    CHECK(tql_run(e, "SELECT b, a FROM t ORDER BY a", -1) == TQL_TABLE);
    CHECK(tql_block(e, 0, 0, UINT64_MAX, room, sizeof room, &rows, &n) == TQL_OK && rows == 2 && n == 19 && room[0] == 1 && room[16] == 2 && room[17] == 0 && room[18] == 'x');
    CHECK(tql_block(e, 0, 0, 2, NULL, 1000, &rows, &n) == TQL_OK && rows == 2 && n == 19);
    CHECK(tql_block(e, 0, 0, 2, room, 18, &rows, &n) == TQL_OK && n == 19);
    CHECK(tql_block(e, 99, 1, 2, room, sizeof room, &rows, &n) == TQL_OK && rows == 1 && n == 9 && room[8] == 0);
    CHECK(tql_block(e, 0, UINT64_MAX, UINT64_MAX, room, 0, &rows, &n) == TQL_OK && rows == 0 && n == 0);
    CHECK(tql_block(e, -1, 0, 2, room, 18, &rows, &n) == TQL_MISUSE);
    CHECK(tql_skip(e, UINT64_MAX) == 2 && tql_skip(e, 1) == 0);
    /* values */
    tql_value one = {TQL_INTEGER, 1, NULL, 0}, text = {TQL_TEXT, 0, "it's ?", -1}, none_ = {TQL_NULL, 5, "x", 1};
    tql_value both[] = {text, one}, odd[] = {{5, 0, NULL, 0}, {-1, 0, NULL, 0}, {TQL_TEXT, 0, "\xff", 1}, {TQL_DATE, 2932897, NULL, 0}, {TQL_TIMESTAMP, INT64_MIN, NULL, 0}};
    CHECK(tql_places(e, "SELECT '?' \"?\" -- ?\n?-?", -1) == 2 && tql_places(e, NULL, 7) == 0 && tql_places(e, "?", -2) == -1);
    CHECK(tql_run_with(e, "UPDATE t SET b = ? WHERE a = ?;", -1, both, 2) == TQL_DONE && tql_changes(e) == 1);
    CHECK(tql_run_with(e, "SELECT a, b FROM t WHERE b = ?", -1, &text, 1) == TQL_TABLE && tql_row(e) == TQL_ROW && !strcmp(tql_text(e, 1, &n), "it's ?") && n == 6);
    CHECK(tql_run_with(e, "SELECT a FROM t", -1, both, 1) == TQL_MISUSE && tql_run_with(e, "SELECT a FROM t WHERE a = ?", -1, NULL, 0) == TQL_MISUSE);
    CHECK(tql_columns(e) == 2 && tql_int64(e, 0) == 1);
    for (unsigned i = 0; i < sizeof odd / sizeof *odd; i++) CHECK(tql_run_with(e, "SELECT a FROM t WHERE a = ?", -1, &odd[i], 1) == TQL_MISUSE);
    text.length = -2;
    CHECK(tql_run_with(e, "SELECT a FROM t WHERE b = ?", -1, &text, 1) == TQL_MISUSE && tql_columns(e) == 2);
    CHECK(tql_run_with(e, "UPDATE t SET b = ? WHERE a = 1", -1, &none_, 1) == TQL_DONE && tql_run_with(e, "COMMIT", 6, NULL, 0) == TQL_REFUSED && tql_error(e) == 40);
    CHECK(tql_run_with(e, "SELECT ? FROM t", -1, &one, 1) != TQL_MISUSE && tql_run_with(e, NULL, 3, NULL, 0) == TQL_REFUSED && tql_error(e) == 10);
    CHECK(tql_run_packed(e, "SELECT a FROM t WHERE a > ?", -1, "\1\0\0\0\0\0\0\0\0", 9, 1) == TQL_TABLE && tql_rows_left(e) == 2);
    CHECK(tql_run_packed(e, "SELECT a FROM t WHERE a > ?", -1, "\1\0\0\0\0\0\0\0", 8, 1) == TQL_MISUSE && tql_run_packed(e, "?", 1, NULL, 0, UINT64_MAX) == TQL_MISUSE);
    CHECK(tql_run(e, "UPDATE t SET b = 'x' WHERE a = 1", -1) == TQL_DONE);
    /* a long text: more than the room that is there at first */
    char *long_one = malloc(20100);
    int at = sprintf(long_one, "INSERT INTO t VALUES (3, '");
    memset(long_one + at, 'y', 19999);
    strcpy(long_one + at + 19999, "')");
    CHECK(tql_run(e, long_one, -1) == TQL_DONE);
    CHECK(tql_run(e, "SELECT b FROM t WHERE a = 3", -1) == TQL_TABLE && tql_row(e) == TQL_ROW);
    const char *t = tql_text(e, 0, &n);
    CHECK(t && n == 19999 && strlen(t) == n && t[19998] == 'y');
    free(long_one);
    /* refusals */
    CHECK(tql_run(e, "CREATE TABLE k (a INTEGER, CONSTRAINT only_one PRIMARY KEY (a))", -1) == TQL_DONE);
    CHECK(tql_run(e, "INSERT INTO k VALUES (1), (2), (1)", -1) == TQL_REFUSED && tql_error(e) == 35 && tql_error_row(e) == 3);
    CHECK(tql_error_constraint(e) && !strcmp(tql_error_constraint(e), "ONLY_ONE"));
    CHECK(tql_error_column(e, 0) && !strcmp(tql_error_column(e, 0), "A") && !tql_error_column(e, 1) && !tql_error_column(e, -1));
    CHECK(tql_error_detail(e) != NULL && tql_changes(e) == -1 && tql_columns(e) == 0 && tql_row(e) == TQL_NONE);
    CHECK(tql_run(e, "SELECT a\nFROM k\nLIMIT 1", -1) == TQL_REFUSED && tql_error(e) == 10 && tql_error_line(e) == 3 && tql_error_place(e) == 1 && tql_error_hint(e));
    CHECK(tql_json(e, &n) && n == strlen(tql_json(e, NULL)) && !strncmp(tql_json(e, NULL), "{\"statement\": 1, ", 16));
    unsigned char kinds[4] = {9, 9, 9, 9};
    CHECK(tql_kinds(e, "SELECT a, b, a FROM t;", -1, kinds, 2) == 3 && kinds[0] == 1 && kinds[1] == 2 && kinds[2] == 9);
    CHECK(tql_kinds(e, "DROP TABLE t", -1, kinds, 4) == -1 && tql_kinds(e, "oops", -1, NULL, 0) == -1 && tql_kinds(e, NULL, 5, kinds, 4) == -1);
    /* a script in parts */
    CHECK(tql_feed(e, "INSERT INTO k VALUES (8); INS", -1, &n) == TQL_OK && n == 29);
    CHECK(tql_feed(e, "x", 1, &n) == TQL_OK && n == 0);
    CHECK(tql_next(e) == TQL_DONE && tql_next(e) == TQL_NONE);
    CHECK(tql_feed(e, "ERT INTO k VALUES (9);\nSELECT", -1, NULL) == TQL_OK && tql_next(e) == TQL_DONE && tql_next(e) == TQL_NONE);
    CHECK(tql_finish(e) == TQL_REFUSED && tql_error(e) == 12 && tql_error_line(e) == 2 && tql_finish(e) == TQL_NONE);
    CHECK(tql_feed(e, big, 3 << 20, &n) == TQL_OK && n == 65536 && tql_next(e) == TQL_NONE && tql_finish(e) == TQL_REFUSED && tql_error(e) == 12 && tql_finish(e) == TQL_NONE);
    CHECK(tql_feed(e, NULL, 5, &n) == TQL_OK && n == 0 && tql_finish(e) == TQL_NONE);
    /* memory */
    CHECK(tql_open(1, 0, &f) == TQL_OK);
    CHECK(tql_run(f, "CREATE TABLE t (a INTEGER)", -1) == TQL_REFUSED && tql_error(f) == 1 && !strcmp(tql_error_text(f), "E01 out of memory"));
    CHECK(tql_feed(f, ";", 1, NULL) == TQL_NOMEM);
    CHECK(tql_close(f) == TQL_OK && tql_close(f) == TQL_MISUSE && tql_run(f, "COMMIT", -1) == TQL_MISUSE);
    tql g;
    CHECK(tql_open(1 << 20, 1 << 16, &g) == TQL_OK && g != f);
    CHECK(tql_run(f, "COMMIT", -1) == TQL_MISUSE && tql_run(g, "COMMIT", -1) == TQL_REFUSED && tql_error(g) == 40);
    CHECK(tql_close(g) == TQL_OK);
    tql *all = calloc(5000, sizeof *all);
    int opened = 0;
    while (opened < 5000 && tql_open(1 << 16, 0, &all[opened]) == TQL_OK) opened++;
    CHECK(opened == 4095);
    for (int i = 0; i < opened; i++) CHECK(tql_close(all[i]) == TQL_OK);
    free(all);
    /* ten thousand engines leave less than a byte each */
    CHECK(in_turn(100) == NULL);
    size_t before = in_use();
    CHECK(in_turn(10000 / slow) == NULL);
    CHECK(in_use() < before + 10000);
    /* threads: one engine for many, and one engine each */
    shared = e;
    pthread_t threads[4];
    int busy[4] = {0};
    void *said;
    for (int i = 0; i < 4; i++) pthread_create(&threads[i], NULL, many, &busy[i]);
    for (int i = 0; i < 4; i++) { pthread_join(threads[i], &said); CHECK(said == NULL); }
    for (int i = 0; i < 4; i++) pthread_create(&threads[i], NULL, own, NULL);
    for (int i = 0; i < 4; i++) { pthread_join(threads[i], &said); CHECK(said == NULL); }
    CHECK(tql_close(e) == TQL_OK && tql_close(e) == TQL_MISUSE && tql_text(e, 0, NULL) == NULL);
    free(big);
    printf("%d checks, %d failed\n", checks, bad);
    return bad != 0;
}
