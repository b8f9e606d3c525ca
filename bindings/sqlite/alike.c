/* alike: the module beside SQLite's own page cache. At each size both give as many pinned pages
 * before they ask SQLite to write one back, and both keep no more than the size once the pages are
 * let go of. A large size takes no memory before there are pages, and a page that is there stays
 * where it is through all changes of the size. A soft limit that comes later is seen within 64 pages. */
#include "pcache_clock2q.h"

#include <sqlite3.h>
#include <stdbool.h>
#include <stdio.h>
#include <stdlib.h>

enum { PAGE_SIZE = 1024, EXTRA_SIZE = 100, MOST = 2000, SPARE = 64 * 1024 };

static sqlite3_pcache_methods2 sqlites, ours;
static const int sizes[] = {0, 1, 2, 3, 9, 10, 11, 25, 100, 999, 1000};

static void must(bool holds, const char *what, int size) {
    if (holds) return;
    printf("alike: %s at size %d\n", what, size);
    exit(1);
}

static sqlite3_pcache *made(const sqlite3_pcache_methods2 *methods, int size) {
    sqlite3_pcache *cache = methods->xCreate(PAGE_SIZE, EXTRA_SIZE, 1);
    must(cache != NULL, "no cache", size);
    methods->xCachesize(cache, size);
    return cache;
}

/* Pins new pages, until the cache would rather have one written back. */
static int pin_all(const sqlite3_pcache_methods2 *methods, sqlite3_pcache *cache, sqlite3_pcache_page **pages) {
    int count = 0;
    while (count < MOST && (pages[count] = methods->xFetch(cache, (unsigned)count + 1, 1)) != NULL) count++;
    return count;
}

/* Returns how many pages could be pinned. */
static int pinned_pages(const sqlite3_pcache_methods2 *methods, int size) {
    static sqlite3_pcache_page *pages[MOST];
    sqlite3_pcache *cache = made(methods, size);
    int count = pin_all(methods, cache, pages);
    sqlite3_pcache_page *forced = methods->xFetch(cache, MOST + 1, 2);
    must(forced != NULL, "no page where one has to be", size);
    must(methods->xPagecount(cache) == count + 1, "another number of pages than were made", size);
    methods->xUnpin(cache, forced, 0);
    for (int i = 0; i < count; i++) methods->xUnpin(cache, pages[i], 0);
    must(methods->xPagecount(cache) <= size, "too many pages are kept", size);
    methods->xShrink(cache);
    must(methods->xPagecount(cache) == 0, "pages are left after a shrink", size);
    methods->xDestroy(cache);
    return count;
}

static void large_size(void) {
    sqlite3_int64 before = sqlite3_memory_used();
    sqlite3_pcache *cache = made(&ours, 1000000);
    must(sqlite3_memory_used() - before < SPARE, "memory is taken before there are pages", 1000000);
    sqlite3_pcache_page *page = ours.xFetch(cache, 1, 2);
    must(page != NULL && sqlite3_memory_used() - before < SPARE, "a page takes the memory of all", 1000000);
    for (size_t i = 0; i < sizeof sizes / sizeof *sizes; i++) {
        ours.xCachesize(cache, sizes[i]);
        must(ours.xFetch(cache, 1, 0) == page, "a pinned page moved", sizes[i]);
    }
    ours.xDestroy(cache);
    must(sqlite3_memory_used() == before, "memory is kept", 1000000);
}

/* Adds pages that are let go of at once, and returns how many are there then. */
static int pages_after(const sqlite3_pcache_methods2 *methods, sqlite3_pcache *cache, unsigned from, unsigned to) {
    for (unsigned key = from; key < to; key++) methods->xUnpin(cache, methods->xFetch(cache, key, 2), 0);
    return methods->xPagecount(cache);
}

/* Returns how many pages a cache adds, of 500 new ones, once the heap is at a soft limit that came last. */
static int pages_over_limit(const sqlite3_pcache_methods2 *methods) {
    sqlite3_pcache *cache = made(methods, 1000);
    int before = pages_after(methods, cache, 1, 101);
    sqlite3_soft_heap_limit64(1);
    int under = pages_after(methods, cache, 101, 601);
    must(pages_after(methods, cache, 601, 701) == under, "pages are added though there is a limit", 1000);
    sqlite3_soft_heap_limit64(0);
    must(pages_after(methods, cache, 701, 751) == under + 50, "no pages are added though there is no limit", 1000);
    methods->xDestroy(cache);
    return under - before;
}

static void soft_limit(void) {
    must(pages_over_limit(&sqlites) == 0, "SQLite's own adds pages over a limit", 1000);
    must(pages_over_limit(&ours) < 64, "a limit is seen too late", 1000);
}

int main(void) {
    must(sqlite3_config(SQLITE_CONFIG_GETPCACHE2, &sqlites) == SQLITE_OK, "no methods of SQLite's", 0);
    must(clock2q_sqlite() == SQLITE_OK, "no page cache", 0);
    must(sqlite3_config(SQLITE_CONFIG_GETPCACHE2, &ours) == SQLITE_OK, "no methods", 0);
    must(sqlite3_initialize() == SQLITE_OK && sqlites.xInit(sqlites.pArg) == SQLITE_OK, "no SQLite", 0);
    for (size_t i = 0; i < sizeof sizes / sizeof *sizes; i++) {
        must(pinned_pages(&ours, sizes[i]) == pinned_pages(&sqlites, sizes[i]), "another threshold", sizes[i]);
    }
    large_size();
    soft_limit();
    sqlites.xShutdown(sqlites.pArg);
    return 0;
}
