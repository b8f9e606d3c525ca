/* refused FILE: a session of SQLite's with each request for memory refused in turn, once alone and
 * once with all that follow. If a benign request is refused, the session's answers are the usual ones. Else the session may fail for want of memory, and the file is whole. All memory is given
 * back each time. */
#include "pcache_clock2q.h"

#include <sqlite3.h>
#include <stdbool.h>
#include <stdio.h>
#include <stdlib.h>

static sqlite3_mem_methods memory;
static long left = -1; /* requests until one is refused; none is, below 0 */
static bool refuses_all;
static long refused, hard_refused; /* of one session, and of those which weren't benign */
static int own_depth, depth; /* between benign calls of the module's, and of anybody's */
static long own_refused;     /* benign requests of the module's that were refused */

/* SQLite's own are out of reach, so the module's benign requests are recognized by these. */
void sqlite3BeginBenignMalloc(void);
void sqlite3EndBenignMalloc(void);

void sqlite3BeginBenignMalloc(void) {
    own_depth++;
    depth++;
}

void sqlite3EndBenignMalloc(void) {
    own_depth--;
    depth--;
}

static void begin_benign(void) {
    depth++;
}

static void end_benign(void) {
    depth--;
}

static void must(bool holds, const char *what) {
    if (holds) return;
    printf("refused: %s\n", what);
    exit(1);
}

static bool is_refused(void) {
    if (left < 0 || left-- > 0) return false;
    if (refuses_all) left = 0;
    refused++;
    hard_refused += depth == 0;
    own_refused += own_depth > 0;
    return true;
}

static void *maybe_malloc(int size) {
    return is_refused() ? NULL : memory.xMalloc(size);
}

static void *maybe_realloc(void *block, int size) {
    return is_refused() ? NULL : memory.xRealloc(block, size);
}

static const char *const session =
    "PRAGMA cache_size=40; PRAGMA synchronous=OFF;"
    "CREATE TABLE t(a INTEGER PRIMARY KEY, b TEXT);"
    "WITH RECURSIVE n(i) AS (SELECT 1 UNION ALL SELECT i + 1 FROM n WHERE i < 400)"
    "INSERT INTO t SELECT i, printf('%.1900c', 'b') FROM n;"
    "PRAGMA cache_size=200;"
    "SELECT count(*) FROM t WHERE b > 'a';"
    "UPDATE t SET b = 'c' WHERE a % 50 = 0;"
    "PRAGMA shrink_memory; DELETE FROM t WHERE a > 300; PRAGMA cache_size=20;";

/* Returns the sum that the file's rows make, or -1 if memory was refused. */
static sqlite3_int64 sum_of(sqlite3 *database) {
    sqlite3_stmt *statement;
    sqlite3_int64 sum = -1;
    if (sqlite3_prepare_v2(database, "SELECT sum(a * length(b)) FROM t", -1, &statement, NULL) != SQLITE_OK) return -1;
    if (sqlite3_step(statement) == SQLITE_ROW) sum = sqlite3_column_int64(statement, 0);
    sqlite3_finalize(statement);
    return sum;
}

static sqlite3_int64 run_session(const char *file) {
    sqlite3 *database = NULL;
    sqlite3_int64 sum = -1;
    remove(file);
    int status = sqlite3_open(file, &database);
    if (status == SQLITE_OK) status = sqlite3_exec(database, session, NULL, NULL, NULL);
    must(status == SQLITE_OK || status == SQLITE_NOMEM || status == SQLITE_IOERR_NOMEM, "an error that isn't want of memory");
    if (status == SQLITE_OK) sum = sum_of(database);
    must(sqlite3_close(database) == SQLITE_OK, "the connection isn't closed");
    return sum;
}

static bool is_whole(const char *file) {
    sqlite3 *database;
    sqlite3_stmt *statement;
    must(sqlite3_open(file, &database) == SQLITE_OK, "the file isn't opened");
    must(sqlite3_prepare_v2(database, "PRAGMA integrity_check", -1, &statement, NULL) == SQLITE_OK, "no check");
    bool holds = sqlite3_step(statement) == SQLITE_ROW && sqlite3_stricmp((const char *)sqlite3_column_text(statement, 0), "ok") == 0;
    sqlite3_finalize(statement);
    sqlite3_close(database);
    return holds;
}

/* Refuses the request that comes after so many. Returns false if none came. */
static bool is_tried(const char *file, long requests, sqlite3_int64 usual) {
    sqlite3_int64 before = sqlite3_memory_used();
    refused = hard_refused = 0;
    left = requests;
    sqlite3_int64 sum = run_session(file);
    left = -1;
    must(sqlite3_memory_used() == before, "memory is kept");
    must(sum == usual || hard_refused > 0, "a benign refusal is felt");
    must(is_whole(file), "the file isn't whole");
    return refused > 0;
}

int main(int words, char **word) {
    if (words != 2) return 2;
    sqlite3_config(SQLITE_CONFIG_GETMALLOC, &memory);
    sqlite3_mem_methods refusing = memory;
    refusing.xMalloc = maybe_malloc;
    refusing.xRealloc = maybe_realloc;
    must(sqlite3_config(SQLITE_CONFIG_MALLOC, &refusing) == SQLITE_OK, "no allocator");
    must(sqlite3_config(SQLITE_CONFIG_LOOKASIDE, 0, 0) == SQLITE_OK, "no lookaside");
    must(clock2q_sqlite() == SQLITE_OK, "no page cache");
    must(sqlite3_initialize() == SQLITE_OK, "no SQLite");
    must(sqlite3_test_control(SQLITE_TESTCTRL_BENIGN_MALLOC_HOOKS, begin_benign, end_benign) == SQLITE_OK, "no hooks");
    sqlite3_int64 usual = run_session(word[1]);
    must(usual > 0, "no usual sum");
    for (int both = 0; both < 2; both++) {
        refuses_all = both == 1;
        for (long requests = 0; is_tried(word[1], requests, usual); requests++) continue;
    }
    must(own_refused > 0, "no benign request of the module's was refused");
    printf("%ld benign requests refused\n", own_refused);
    return 0;
}
