/* Runs each script that is named on an engine of its own, and writes each answer as a line of JSON.
 *
 * Usage: cases BYTES SCRIPT ..        (BYTES: how many bytes of a script are passed at a time) */
#include <stdio.h>
#include <stdlib.h>
#include <string.h>
#include <tql.h>

static void answers(tql e, int (*next)(tql)) {
    size_t length;
    while (next(e) > TQL_NONE) {
        const char *text = tql_json(e, &length);
        if (!text) { printf("no memory\n"); return; }
        fwrite(text, 1, length, stdout);
        /* Each cell is read too, and each part of a refusal. */
        int columns = tql_columns(e);
        while (tql_row(e) == TQL_ROW)
            for (int c = 0; c < columns; c++) {
                size_t n = 0;
                const char *text = tql_text(e, c, &n);
                if ((tql_kind(e, c) == TQL_TEXT) != (text != NULL)) abort();
                text = tql_text(e, c, &n);
                if (text && (text[n] != 0 || strlen(text) > n)) abort();
                (void)tql_int64(e, c);
            }
        if (tql_error(e)) {
            const char *parts[] = {tql_error_text(e), tql_error_detail(e), tql_error_hint(e), tql_error_constraint(e), tql_error_column(e, 0)};
            (void)parts;
            if (tql_error_line(e) < 1) abort();
        }
    }
}

int main(int count, char **names) {
    size_t part = count > 1 ? (size_t)atol(names[1]) : 0;
    if (part == 0) return 2;
    for (int i = 2; i < count; i++) {
        FILE *file = fopen(names[i], "rb");
        if (!file) return 2;
        fseek(file, 0, SEEK_END);
        size_t size = (size_t)ftell(file), at = 0, taken;
        rewind(file);
        char *script = malloc(size + 1);
        if (fread(script, 1, size, file) != size) return 2;
        fclose(file);
        tql e;
        if (tql_open(0, 0, &e) != TQL_OK) return 3;
        printf("== %s\n", names[i]);
        while (at < size) {
            size_t most = size - at < part ? size - at : part;
            /* A copy of just this size, so that valgrind reports a read after its end. */
            char *copy = malloc(most);
            memcpy(copy, script + at, most);
            if (tql_feed(e, copy, (int64_t)most, &taken) != TQL_OK) return 3;
            free(copy);
            at += taken;
            answers(e, tql_next);
        }
        answers(e, tql_finish);
        free(script);
        tql_close(e);
    }
    return 0;
}
