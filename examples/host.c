/* A host in C: what the pay slip of March said, and what is right. */
#include <inttypes.h>
#include <stdio.h>
#include <stdlib.h>
#include <tql.h>

static int run(tql pay, const char *text) {
    int answer = tql_run(pay, text, -1);
    if (answer == TQL_REFUSED) {
        printf("E%02d, row %" PRId64, tql_error(pay), tql_error_row(pay));
        const char *constraint = tql_error_constraint(pay);
        printf(", %s\n", constraint ? constraint : "no constraint");
    } else if (answer < 0) {
        exit(3);
    }
    return answer;
}

static void ask(tql pay, const char *known) {
    char query[200];
    snprintf(query, sizeof query, "SELECT cents FROM pay FOR SYSTEM_TIME AS OF TIMESTAMP '%s' WHERE valid CONTAINS DATE '2024-03-15'", known);
    if (run(pay, query) == TQL_TABLE)
        while (tql_row(pay) == TQL_ROW) printf("%s: %" PRId64 "\n", known, tql_int64(pay, 0));
}

int main(void) {
    tql pay;
    if (tql_open(64 << 20, 1 << 20, &pay) != TQL_OK) return 3;
    run(pay, "CREATE TABLE pay (employee INTEGER, cents INTEGER, since DATE, until DATE, known_from TIMESTAMP GENERATED ALWAYS AS ROW START,"
             " known_to TIMESTAMP GENERATED ALWAYS AS ROW END, PERIOD FOR valid (since, until), PERIOD FOR SYSTEM_TIME (known_from, known_to),"
             " CONSTRAINT one_rate PRIMARY KEY (employee, valid WITHOUT OVERLAPS)) WITH SYSTEM VERSIONING");
    run(pay, "AT TIMESTAMP '2024-01-10 09:00:00'");
    run(pay, "INSERT INTO pay VALUES (1, 250000, DATE '2024-01-01', DATE '2025-01-01')");
    run(pay, "INSERT INTO pay VALUES (1, 1, DATE '2024-12-01', DATE '2026-01-01')");    /* refused: two rates in December */
    run(pay, "AT TIMESTAMP '2024-04-12 09:00:00'");
    run(pay, "UPDATE pay FOR PORTION OF valid FROM DATE '2024-03-01' TO DATE '2025-01-01' SET cents = 265000 WHERE employee = 1");
    ask(pay, "2024-03-31 12:00:00");
    ask(pay, "2024-04-30 12:00:00");
    return tql_close(pay) != TQL_OK;
}
