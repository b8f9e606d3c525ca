/* workload CACHE KIND PAGES FILE [LIMIT]: one workload on a database of its own in FILE, on the page
 * cache `clock2q` or `sqlite`, with this cache_size and this soft heap limit in bytes. Prints the
 * misses, the spilled pages, the most pages that there were, a checksum of every answer and of all rows
 * in the end, which doesn't depend on the cache, and the most bytes of SQLite's allocator once the
 * database was made.
 *
 * The kinds: `reads` looks rows up, some far oftener than others, with a scan of the table now and
 * then; `updates` changes random rows, 100 in a transaction; `mixed` does both, with ranges and
 * rollbacks; `commits` changes one row in each transaction; `resizes` looks rows up, scans, and changes
 * the cache_size in turn. Under valgrind --tool=callgrind --toggle-collect=KIND it counts instructions,
 * without those of making the database, and those of all commits alone with --toggle-collect=commit. */
#include "pcache_clock2q.h"

#include <sqlite3.h>
#include <stdint.h>
#include <stdio.h>
#include <stdlib.h>
#include <string.h>

#ifndef ROWS
#define ROWS 400000
#endif

enum { CALLS = ROWS / 10 };

static sqlite3_pcache_methods2 counted;
static int most_pages;
static uint64_t drawn = 88172645463325252u, checksum = 14695981039346656037u;

static sqlite3_pcache_page *counted_fetch(sqlite3_pcache *cache, unsigned key, int create) {
    sqlite3_pcache_page *page = counted.xFetch(cache, key, create);
    int pages = create == 0 ? 0 : counted.xPagecount(cache);
    if (pages > most_pages) most_pages = pages;
    return page;
}

static void must(int holds, sqlite3 *database, const char *what) {
    if (holds) return;
    fprintf(stderr, "workload: %s: %s\n", what, database == NULL ? "" : sqlite3_errmsg(database));
    exit(1);
}

static void count_pages(void) {
    must(sqlite3_config(SQLITE_CONFIG_GETPCACHE2, &counted) == SQLITE_OK, NULL, "no methods");
    sqlite3_pcache_methods2 methods = counted;
    methods.xFetch = counted_fetch;
    must(sqlite3_config(SQLITE_CONFIG_PCACHE2, &methods) == SQLITE_OK, NULL, "no page cache");
}

static uint64_t below(uint64_t bound) {
    drawn ^= drawn << 13;
    drawn ^= drawn >> 7;
    drawn ^= drawn << 17;
    return (drawn >> 11) % bound;
}

/* Each level has twice the rows of the one before, and all levels are as likely. */
static int drawn_row(void) {
    uint64_t level = below(18), rank = (UINT64_C(1) << level) + below(UINT64_C(1) << level);
    return (int)(rank * 2654435761u % ROWS) + 1;
}

static void execute(sqlite3 *database, const char *text) {
    must(sqlite3_exec(database, text, NULL, NULL, NULL) == SQLITE_OK, database, text);
}

static sqlite3_stmt *prepared(sqlite3 *database, const char *text) {
    sqlite3_stmt *statement;
    must(sqlite3_prepare_v2(database, text, -1, &statement, NULL) == SQLITE_OK, database, text);
    return statement;
}

/* Runs a statement with numbers for its parameters, and adds each answer to the checksum. */
static void run(sqlite3_stmt *statement, sqlite3_int64 one, sqlite3_int64 other) {
    int status;
    sqlite3_bind_int64(statement, 1, one);
    sqlite3_bind_int64(statement, 2, other);
    while ((status = sqlite3_step(statement)) == SQLITE_ROW) {
        for (int column = 0; column < sqlite3_column_count(statement); column++) {
            checksum = (checksum ^ (uint64_t)sqlite3_column_int64(statement, column)) * 1099511628211u;
        }
    }
    must(status == SQLITE_DONE, sqlite3_db_handle(statement), "a step");
    sqlite3_reset(statement);
}

static sqlite3 *made_database(const char *file, int pages) {
    sqlite3 *database;
    char text[200];
    remove(file);
    must(sqlite3_open(file, &database) == SQLITE_OK, database, "open");
    snprintf(text, sizeof text, "PRAGMA cache_size=%d; PRAGMA synchronous=OFF;", pages);
    execute(database, text);
    execute(database, "CREATE TABLE t(id INTEGER PRIMARY KEY, a INTEGER, b INTEGER, c TEXT); BEGIN");
    sqlite3_stmt *insert = prepared(database, "INSERT INTO t VALUES(?1, ?2, ?1 % 97, printf('%.100c', 'x'))");
    for (int row = 1; row <= ROWS; row++) run(insert, row, (sqlite3_int64)below(1000000007));
    sqlite3_finalize(insert);
    execute(database, "COMMIT; CREATE INDEX ta ON t(a)");
    return database;
}

__attribute__((noinline)) static void reads(sqlite3 *database) {
    sqlite3_stmt *get = prepared(database, "SELECT a, b, length(c), ?2 FROM t WHERE id = ?1");
    sqlite3_stmt *scan = prepared(database, "SELECT count(*), sum(b), sum(length(c)), ?1, ?2 FROM t");
    for (int call = 1; call <= CALLS; call++) {
        run(get, drawn_row(), 0);
        if (call % 5000 == 0) run(scan, 0, 0);
    }
    sqlite3_finalize(get);
    sqlite3_finalize(scan);
}

/* Each 500 calls are followed by a scan and another cache_size, of a quarter to all of the first one. */
__attribute__((noinline)) static void resizes(sqlite3 *database, int pages) {
    sqlite3_stmt *get = prepared(database, "SELECT a, b, length(c), ?2 FROM t WHERE id = ?1");
    sqlite3_stmt *scan = prepared(database, "SELECT count(*), sum(b), ?1, ?2 FROM t WHERE id BETWEEN ?1 AND ?2");
    for (int call = 1; call <= CALLS; call++) {
        run(get, drawn_row(), 0);
        if (call % 500 != 0) continue;
        char text[40];
        sqlite3_int64 from = (sqlite3_int64)below(ROWS);
        run(scan, from, from + ROWS / 20);
        snprintf(text, sizeof text, "PRAGMA cache_size=%d", pages - pages * (call / 500 % 4) / 4);
        execute(database, text);
    }
    sqlite3_finalize(get);
    sqlite3_finalize(scan);
}

__attribute__((noinline)) static void updates(sqlite3 *database) {
    sqlite3_stmt *update = prepared(database, "UPDATE t SET a = a + ?2, b = b + 1 WHERE id = ?1");
    for (int call = 1; call <= CALLS; call++) {
        if (call % 100 == 1) execute(database, "BEGIN");
        run(update, 1 + (sqlite3_int64)below(ROWS), call);
        if (call % 100 == 0) execute(database, "COMMIT");
    }
    sqlite3_finalize(update);
}

__attribute__((noinline)) static void mixed(sqlite3 *database) {
    sqlite3_stmt *get = prepared(database, "SELECT a, b, length(c), ?2 FROM t WHERE id = ?1");
    sqlite3_stmt *range = prepared(database, "SELECT count(*), sum(b) FROM t WHERE a BETWEEN ?1 AND ?2");
    sqlite3_stmt *update = prepared(database, "UPDATE t SET a = a + 1, b = b + ?2 WHERE id BETWEEN ?1 AND ?1 + 20");
    for (int call = 1; call <= CALLS; call++) {
        run(get, drawn_row(), 0);
        if (call % 50 == 0) {
            sqlite3_int64 from = (sqlite3_int64)below(1000000007);
            run(range, from, from + 1000000);
        }
        if (call % 300 != 0) continue;
        execute(database, "BEGIN");
        for (int i = 0; i < 30; i++) run(update, drawn_row(), i);
        execute(database, call % 900 == 0 ? "ROLLBACK" : "COMMIT");
    }
    sqlite3_finalize(get);
    sqlite3_finalize(range);
    sqlite3_finalize(update);
}

__attribute__((noinline)) static void commit(sqlite3 *database, sqlite3_stmt *statement) {
    must(sqlite3_step(statement) == SQLITE_DONE, database, "COMMIT");
}

__attribute__((noinline)) static void commits(sqlite3 *database) {
    sqlite3_stmt *update = prepared(database, "UPDATE t SET b = b + ?2 WHERE id = ?1"), *end = prepared(database, "COMMIT");
    for (int call = 1; call <= CALLS; call++) {
        execute(database, "BEGIN");
        run(update, drawn_row(), call);
        commit(database, end);
        sqlite3_reset(end);
    }
    sqlite3_finalize(update);
    sqlite3_finalize(end);
}

static int counter(sqlite3 *database, int which) {
    int now, highest;
    sqlite3_db_status(database, which, &now, &highest, 0);
    return now;
}

static void check_integrity(sqlite3 *database) {
    sqlite3_stmt *check = prepared(database, "PRAGMA integrity_check");
    must(sqlite3_step(check) == SQLITE_ROW, database, "integrity_check");
    must(strcmp((const char *)sqlite3_column_text(check, 0), "ok") == 0, NULL, "the database is corrupt");
    sqlite3_finalize(check);
}

/* Adds each row, as the workload left it, to the checksum. */
static void add_rows(sqlite3 *database) {
    sqlite3_stmt *rows = prepared(database, "SELECT id, a, b, length(c), ?1, ?2 FROM t ORDER BY id");
    run(rows, 0, 0);
    sqlite3_finalize(rows);
}

static void run_kind(sqlite3 *database, const char *kind, int pages) {
    if (strcmp(kind, "reads") == 0) {
        reads(database);
    } else if (strcmp(kind, "updates") == 0) {
        updates(database);
    } else if (strcmp(kind, "commits") == 0) {
        commits(database);
    } else if (strcmp(kind, "resizes") == 0) {
        resizes(database, pages);
    } else {
        mixed(database);
    }
}

int main(int count, char **words) {
    if (count != 5 && count != 6) return 2;
    int pages = atoi(words[3]);
    if (strcmp(words[1], "clock2q") == 0) must(clock2q_sqlite() == SQLITE_OK, NULL, "no page cache");
    count_pages();
    if (count == 6) sqlite3_soft_heap_limit64(atoll(words[5]));
    sqlite3 *database = made_database(words[4], pages);
    sqlite3_memory_highwater(1);
    run_kind(database, words[2], pages);
    sqlite3_int64 most_bytes = sqlite3_memory_highwater(0);
    int misses = counter(database, SQLITE_DBSTATUS_CACHE_MISS), spills = counter(database, SQLITE_DBSTATUS_CACHE_SPILL);
    check_integrity(database);
    add_rows(database);
    must(sqlite3_close(database) == SQLITE_OK, database, "close");
    printf("%d %d %d %016llx %lld\n", misses, spills, most_pages, (unsigned long long)checksum, (long long)most_bytes);
    return 0;
}
