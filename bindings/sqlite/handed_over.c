/* handed_over FILE: four threads use one connection in turn, and one of their own each, whose pages
 * they free now and then. All count the same rows, and one thread closes what others opened. The
 * bytes that the caches hold, which all threads count, are 0 in the end. */
#include "pcache_clock2q.h"

#include <pthread.h>
#include <sqlite3.h>
#include <stdio.h>
#include <stdlib.h>

enum { THREADS = 4, ROUNDS = 300 };

static const char *file;
static sqlite3 *shared, *opened[THREADS];

static int is_done(int status, sqlite3 *database) {
    if (status != SQLITE_OK) fprintf(stderr, "handed_over: %s\n", sqlite3_errmsg(database));
    return status == SQLITE_OK;
}

static int count_rows(sqlite3 *database) {
    sqlite3_stmt *statement;
    if (!is_done(sqlite3_prepare_v2(database, "SELECT count(*), sum(length(b)) FROM t", -1, &statement, NULL), database)) return -1;
    int rows = sqlite3_step(statement) == SQLITE_ROW ? sqlite3_column_int(statement, 0) : -1;
    sqlite3_finalize(statement);
    return rows;
}

static void *use(void *number) {
    sqlite3 **own = &opened[(size_t)number];
    int agrees = is_done(sqlite3_open(file, own), *own) && is_done(sqlite3_exec(*own, "PRAGMA cache_size=20", NULL, NULL, NULL), *own);
    for (int round = 0; round < ROUNDS && agrees; round++) {
        agrees = count_rows(shared) == 5000 && count_rows(*own) == 5000;
        sqlite3_db_release_memory(*own);
    }
    return agrees ? NULL : "differs";
}

static int make_rows(void) {
    return is_done(sqlite3_exec(shared,
        "PRAGMA cache_size=20; CREATE TABLE t(a INTEGER PRIMARY KEY, b TEXT);"
        "WITH RECURSIVE n(i) AS (SELECT 1 UNION ALL SELECT i + 1 FROM n WHERE i < 5000)"
        "INSERT INTO t SELECT i, printf('%.80c', 'b') FROM n", NULL, NULL, NULL), shared);
}

int main(int count, char **words) {
    pthread_t threads[THREADS];
    long long bytes, most;
    if (count != 2 || clock2q_sqlite() != SQLITE_OK) return 2;
    file = words[1];
    remove(file);
    if (!is_done(sqlite3_open_v2(file, &shared, SQLITE_OPEN_READWRITE | SQLITE_OPEN_CREATE | SQLITE_OPEN_FULLMUTEX, NULL), shared) || !make_rows()) return 1;
    int failed = 0;
    for (size_t i = 0; i < THREADS; i++) failed |= pthread_create(&threads[i], NULL, use, (void *)i) != 0;
    for (size_t i = 0; i < THREADS; i++) {
        void *result = NULL;
        failed |= pthread_join(threads[i], &result) != 0 || result != NULL;
        failed |= sqlite3_close(opened[i]) != SQLITE_OK;
    }
    failed |= sqlite3_close(shared) != SQLITE_OK;
    clock2q_sqlite_memory(&bytes, &most, 0);
    if (bytes != 0 || most == 0) fprintf(stderr, "handed_over: %lld bytes are held, and %lld were\n", bytes, most);
    return failed || bytes != 0 || most == 0;
}
