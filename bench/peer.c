/* What one would take instead: the same accounts and transfers in SQLite, by hand-written transactions.

   peer FILE < transfers      a line OPEN k amount, or XFER a b amount; FILE is ":memory:" or a path

   Each line is three transactions, as in the transaction manager: the input is kept under its number; it is worked on,
   which changes the accounts, adds a reply and takes the input away; the reply is acknowledged, which takes it away.
   On a file each commit is synced once (a write-ahead log with full synchronisation). It prints the sum of the accounts. */
#include <sqlite3.h>
#include <stdio.h>
#include <stdlib.h>
#include <string.h>

static sqlite3 *db;

static void stop_if(int bad, const char *what) {
    if (bad) {
        fprintf(stderr, "peer: %s: %s\n", what, sqlite3_errmsg(db));
        exit(1);
    }
}

static void run(const char *text) { stop_if(sqlite3_exec(db, text, NULL, NULL, NULL) != SQLITE_OK, text); }

static sqlite3_stmt *prepared(const char *text) {
    sqlite3_stmt *statement;
    stop_if(sqlite3_prepare_v2(db, text, -1, &statement, NULL) != SQLITE_OK, text);
    return statement;
}

/* Runs a statement with these numbers; answers the first column of its first row, or -1 without one. */
static long step(sqlite3_stmt *statement, int count, const long *numbers) {
    for (int place = 0; place < count; place++) sqlite3_bind_int64(statement, place + 1, numbers[place]);
    int answer = sqlite3_step(statement);
    stop_if(answer != SQLITE_ROW && answer != SQLITE_DONE, sqlite3_sql(statement));
    long first = answer == SQLITE_ROW ? sqlite3_column_int64(statement, 0) : -1;
    sqlite3_reset(statement);
    return first;
}

static void text_into(sqlite3_stmt *statement, int place, const char *text) {
    sqlite3_bind_text(statement, place, text, -1, SQLITE_TRANSIENT);
}

int main(int count, char **words) {
    stop_if(count != 2 || sqlite3_open(words[1], &db) != SQLITE_OK, "usage: peer FILE < transfers");
    run("PRAGMA journal_mode=WAL");
    run("PRAGMA synchronous=FULL");
    run("CREATE TABLE account (id INTEGER PRIMARY KEY, amount INTEGER NOT NULL)");
    run("CREATE TABLE input (number INTEGER PRIMARY KEY, text TEXT NOT NULL)");
    run("CREATE TABLE reply (number INTEGER PRIMARY KEY, text TEXT NOT NULL)");
    sqlite3_stmt *begin = prepared("BEGIN IMMEDIATE"), *commit = prepared("COMMIT");
    sqlite3_stmt *keep = prepared("INSERT INTO input VALUES (?1, ?2)"), *first = prepared("SELECT number, text FROM input ORDER BY number LIMIT 1");
    sqlite3_stmt *take = prepared("DELETE FROM input WHERE number = ?1"), *add = prepared("INSERT INTO account VALUES (?1, ?2)");
    sqlite3_stmt *look = prepared("SELECT amount FROM account WHERE id = ?1"), *set = prepared("UPDATE account SET amount = ?2 WHERE id = ?1");
    sqlite3_stmt *answer = prepared("INSERT INTO reply VALUES (?1, ?2)"), *acknowledge = prepared("DELETE FROM reply WHERE number = ?1");
    char line[256];
    for (long number = 1; fgets(line, sizeof line, stdin) != NULL; number++) {
        char reply[64];
        long a, b, amount;
        step(begin, 0, NULL);
        text_into(keep, 2, line);
        step(keep, 1, &number);
        step(commit, 0, NULL);

        step(begin, 0, NULL);
        stop_if(step(first, 0, NULL) != number, "the input is gone");
        if (sscanf(line, "OPEN %ld %ld", &a, &amount) == 2) {
            step(add, 2, (long[]){a, amount});
            snprintf(reply, sizeof reply, "OPENED %04ld", a);
        } else {
            stop_if(sscanf(line, "XFER %ld %ld %ld", &a, &b, &amount) != 3, "a line that is none");
            long has = step(look, 1, &a);
            if (has < amount) {
                snprintf(reply, sizeof reply, "NO FUNDS");
            } else {
                step(set, 2, (long[]){a, has - amount});
                step(set, 2, (long[]){b, step(look, 1, &b) + amount});
                snprintf(reply, sizeof reply, "MOVED %08ld", amount);
            }
        }
        text_into(answer, 2, reply);
        step(answer, 1, &number);
        step(take, 1, &number);
        step(commit, 0, NULL);

        step(begin, 0, NULL);
        step(acknowledge, 1, &number);
        step(commit, 0, NULL);
    }
    printf("SUM %08ld\n", step(prepared("SELECT sum(amount) FROM account"), 0, NULL));
    return 0;
}
