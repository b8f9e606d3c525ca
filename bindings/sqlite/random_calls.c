/* random_calls [SEEDS]: random calls of the page cache's methods against what SQLite relies on: a
 * pinned page stays where it is with its content, no two keys share a page, a page that is found has
 * the content that its key was given last, and there are no more pages than the size says or are
 * pinned. What the module reports of its memory is what SQLite's allocator has given out since. Each
 * run is made twice, the second time with requests for memory refused at random. */
#include "pcache_clock2q.h"

#include <sqlite3.h>
#include <stdbool.h>
#include <stdint.h>
#include <stdio.h>
#include <stdlib.h>
#include <string.h>

enum { KEYS = 300, STEPS = 60000 };

struct content {
    uint64_t key, stamp;
};

struct run {
    sqlite3_pcache_methods2 methods;
    sqlite3_pcache *cache;
    sqlite3_pcache_page *pinned[KEYS + 1];
    uint64_t stamps[KEYS + 1]; /* what each key was given last */
    uint64_t clock;
    sqlite3_int64 before; /* bytes in use before there was a cache */
    long long most;       /* bytes held at any count */
    int size, pins;
    bool is_purgeable;
};

static uint64_t drawn;
static sqlite3_mem_methods memory;
static sqlite3_pcache_methods2 methods;
static bool refuses;

static uint64_t below(uint64_t bound) {
    drawn ^= drawn << 13;
    drawn ^= drawn >> 7;
    drawn ^= drawn << 17;
    return (drawn >> 11) % bound;
}

static void *maybe_malloc(int size) {
    return refuses && below(4) == 0 ? NULL : memory.xMalloc(size);
}

static void check(bool holds, const char *what) {
    if (holds) return;
    printf("random_calls: %s\n", what);
    exit(1);
}

static unsigned drawn_key(void) {
    return 1 + (unsigned)(below(2) == 0 ? below(KEYS / 6) : below(KEYS));
}

static void fetch(struct run *run) {
    unsigned key = drawn_key();
    int create = (int)below(3);
    if (create == 1 && !run->is_purgeable) create = 2;
    sqlite3_pcache_page *page = run->methods.xFetch(run->cache, key, create);
    check(run->pinned[key] == NULL || page == run->pinned[key], "a pinned page moved");
    if (page == NULL) {
        check(create < 2 || refuses, "no page where one was to be made");
        return;
    }
    struct content *extra = page->pExtra, *buffer = page->pBuf;
    if (extra->key == 0) {
        check(run->pinned[key] == NULL, "a pinned page is new");
        *extra = *buffer = (struct content){key, ++run->clock};
        run->stamps[key] = run->clock;
    }
    check(extra->key == key && buffer->stamp == run->stamps[key], "a page of another key");
    run->pins += run->pinned[key] == NULL;
    run->pinned[key] = page;
}

static void unpin(struct run *run) {
    unsigned key = drawn_key();
    if (run->pinned[key] == NULL) return;
    bool discards = below(8) == 0;
    run->methods.xUnpin(run->cache, run->pinned[key], discards);
    run->pinned[key] = NULL;
    run->pins--;
    if (discards) run->stamps[key] = 0;
}

static void rekey(struct run *run) {
    unsigned from = drawn_key(), to = drawn_key();
    sqlite3_pcache_page *page = run->pinned[from];
    if (page == NULL || from == to || run->pinned[to] != NULL) return;
    run->methods.xRekey(run->cache, page, from, to);
    ((struct content *)page->pExtra)->key = to;
    run->stamps[to] = run->stamps[from];
    run->stamps[from] = 0;
    run->pinned[to] = page;
    run->pinned[from] = NULL;
}

static void truncate_pages(struct run *run) {
    unsigned limit = drawn_key();
    run->methods.xTruncate(run->cache, limit);
    for (unsigned key = limit; key <= KEYS; key++) {
        run->pins -= run->pinned[key] != NULL;
        run->pinned[key] = NULL;
        run->stamps[key] = 0;
    }
}

static void resize(struct run *run) {
    static const int sizes[] = {0, 1, 2, 10, 100, 150, 1000000};
    run->size = sizes[below(sizeof sizes / sizeof *sizes)];
    run->methods.xCachesize(run->cache, run->size);
}

static void count_bytes(struct run *run) {
    long long now, most;
    clock2q_sqlite_memory(&now, &most, 0);
    if (now > run->most) run->most = now;
    check(now == sqlite3_memory_used() - run->before, "other bytes than are in use");
    check(most >= run->most, "less than was held");
}

static void count(struct run *run) {
    int pages = run->methods.xPagecount(run->cache);
    check(pages >= run->pins, "fewer pages than are pinned");
    if (run->is_purgeable) check(pages <= (run->size > run->pins ? run->size : run->pins) + 16, "too many pages");
    count_bytes(run);
}

static void step(struct run *run) {
    uint64_t kind = below(1000);
    if (kind < 600) {
        fetch(run);
    } else if (kind < 950) {
        unpin(run);
    } else if (kind < 980) {
        rekey(run);
    } else if (kind < 983) {
        truncate_pages(run);
    } else if (kind < 986) {
        resize(run);
    } else if (kind < 988) {
        run->methods.xShrink(run->cache);
    } else {
        count(run);
    }
}

static void run_with(uint64_t seed, bool is_purgeable) {
    struct run run = {.methods = methods, .size = 50, .is_purgeable = is_purgeable};
    long long now, most;
    drawn = seed * 2654435761u + 1;
    run.before = sqlite3_memory_used();
    clock2q_sqlite_memory(&now, &most, 1);
    run.cache = run.methods.xCreate(64, sizeof(struct content), is_purgeable);
    if (run.cache == NULL) {
        check(refuses, "no cache");
        return;
    }
    run.methods.xCachesize(run.cache, run.size);
    for (int i = 0; i < STEPS; i++) step(&run);
    run.methods.xDestroy(run.cache);
    check(sqlite3_memory_used() == run.before, "memory is kept");
    clock2q_sqlite_memory(&now, &most, 1);
    check(now == 0 && most >= run.most, "bytes of no cache, or less than was held");
    clock2q_sqlite_memory(&now, &most, 0);
    check(most == 0, "the most isn't reset");
}

int main(int words, char **word) {
    uint64_t seeds = words > 1 ? strtoull(word[1], NULL, 10) : 20;
    sqlite3_config(SQLITE_CONFIG_GETMALLOC, &memory);
    sqlite3_mem_methods refusing = memory;
    refusing.xMalloc = maybe_malloc;
    check(sqlite3_config(SQLITE_CONFIG_MALLOC, &refusing) == SQLITE_OK, "no allocator");
    check(clock2q_sqlite() == SQLITE_OK, "no page cache");
    check(sqlite3_config(SQLITE_CONFIG_GETPCACHE2, &methods) == SQLITE_OK, "no methods");
    for (uint64_t seed = 0; seed < seeds; seed++) {
        for (int kind = 0; kind < 4; kind++) {
            refuses = kind % 2 == 1;
            run_with(seed, kind < 2);
        }
    }
    return 0;
}
