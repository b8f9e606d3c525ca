/* SQLite's page cache over clock2q: sqlite3_pcache_methods2, as sqlite3.h has it.
 *
 * The library chooses which page leaves. Here are the pages' buffers, a table that finds a page by
 * its key, and a list of the idle pages, those that SQLite has not pinned, the longest idle last.
 *
 * The library knows no pins. A pinned page that loses its slot takes another one, so that the next
 * page is chosen in its place; if the library chooses pinned pages alone, the page that was idle for
 * the longest time leaves. A page without a slot takes one when it's unpinned. So a cache has more
 * pages than cache_size only while all of them are pinned.
 *
 * A hit sets a bit in the library, or none, and until the next key enters no bit is cleared and no
 * page grows older. So the library gets only the first of a page's hits between two entries.
 *
 * The index begins small, and grows to twice the size as the cache fills. All memory is of
 * SQLite's allocator. What a cache can do without is asked for as benign: the page of a fetch that
 * may fail, a longer table, and an index.
 *
 * SQLite calls the methods of a cache under a mutex of the connection's, from one thread after
 * another. That is allowed: nothing in a cache is bound to a thread. */
#include "pcache_clock2q.h"

#include "clock2q.h"
#include <limits.h>
#include <sqlite3.h>
#include <string.h>

enum {
    FIRST_CAPACITY = 64, /* of an index */
    FIRST_BUCKETS = 256,
    ATTEMPTS = 16,   /* to have the library choose a page that isn't pinned */
    ASKED_EVERY = 64 /* new pages, for SQLite's soft limit while there is none */
};

#define NO_SLOT UINT_MAX

/* Keeps what is seldom done out of a call that is often made, which then saves no registers. */
#define APART __attribute__((noinline))

struct page {
    sqlite3_pcache_page base; /* first, since SQLite has pointers to it */
    unsigned key;
    unsigned slot;       /* or NO_SLOT */
    uint64_t hit_at;     /* the entries up to its last hit, or 0 before its first one */
    struct page *newer;  /* among the idle ones; null if it's pinned */
    struct page *next;   /* in its bucket */
    struct page *older;
};

struct cache {
    size_t page_size;
    size_t extra_size;
    bool is_purgeable;
    size_t wanted;  /* pages, at most, but for pinned ones; SIZE_MAX if it isn't purgeable */
    size_t total;   /* pages */
    size_t pinned;
    unsigned highest; /* no key is above it */
    struct page **buckets;
    size_t bucket_mask;  /* one less than there are buckets, which is a power of two */
    struct page idle;    /* between the longest idle page, `newer`, and the shortest, `older` */
    clock2q_cache index;
    struct page **at; /* the page of each slot, or null */
    size_t capacity;  /* of the index, or 0 if there is none */
    uint64_t entries; /* of keys into an index */
    unsigned unasked; /* questions for the soft limit that are answered without SQLite */
};

/* SQLite's own, if the program that this is compiled into offers them, as SQLite's test program does.
 * Between calls of the first two a test's allocator may refuse without an error, the third has no
 * mutex in single-thread mode, and the fourth says if the heap is at its soft limit. Elsewhere they
 * are missing, and not called. */
__attribute__((weak)) void sqlite3BeginBenignMalloc(void);
__attribute__((weak)) void sqlite3EndBenignMalloc(void);
__attribute__((weak)) sqlite3_mutex *sqlite3MutexAlloc(int kind);
__attribute__((weak)) int sqlite3HeapNearlyFull(void);

static void begin_benign(void) {
    if (sqlite3BeginBenignMalloc != NULL) sqlite3BeginBenignMalloc();
}

static void end_benign(void) {
    if (sqlite3EndBenignMalloc != NULL) sqlite3EndBenignMalloc();
}

/* These are missing if SQLite was built for one thread alone. */
__attribute__((weak)) sqlite3_mutex *sqlite3_mutex_alloc(int kind);
__attribute__((weak)) void sqlite3_mutex_enter(sqlite3_mutex *which);
__attribute__((weak)) void sqlite3_mutex_leave(sqlite3_mutex *which);

/* The bytes that all caches hold of SQLite's allocator, and the most that they held. The mutex is the
 * one under which SQLite counts those of its own cache. It isn't held while the allocator is called. */
static sqlite3_mutex *mutex; /* null if there is none */
static long long held, most_held;

static void lock(void) {
    if (mutex != NULL) sqlite3_mutex_enter(mutex);
}

static void unlock(void) {
    if (mutex != NULL) sqlite3_mutex_leave(mutex);
}

static void count_taken(size_t size) {
    lock();
    held += (long long)size;
    if (held > most_held) most_held = held;
    unlock();
}

static void count_freed(size_t size) {
    lock();
    held -= (long long)size;
    unlock();
}

void clock2q_sqlite_memory(long long *now, long long *most, int resets) {
    lock();
    *now = held;
    *most = most_held;
    if (resets) most_held = held;
    unlock();
}

static void *taken(size_t size) {
    void *block = sqlite3_malloc64(size);
    if (block != NULL) count_taken(sqlite3_msize(block));
    return block;
}

static void given_back(void *block) {
    if (block != NULL) count_freed(sqlite3_msize(block));
    sqlite3_free(block);
}

static void *taken_as_benign(size_t size) {
    begin_benign();
    void *block = taken(size);
    end_benign();
    return block;
}

/* Makes an index, or has the one that is there grow, in SQLite's memory, and has the thread's other caches
 * take theirs where they did. Returns false without memory. */
static bool has_index_for(clock2q_cache *index, size_t capacity) {
    const clock2q_memory memory = {taken, given_back};
    begin_benign();
    const clock2q_memory before = clock2q_use_memory(&memory);
    uint32_t answer = index->at == NULL ? clock2q_new(index, capacity) : clock2q_grow(index, capacity);
    clock2q_use_memory(&before);
    end_benign();
    return answer == CLOCK2Q_DONE;
}

/* The idle pages. */

static bool is_idle(const struct page *page) {
    return page->newer != NULL;
}

static size_t idle_count(const struct cache *cache) {
    return cache->total - cache->pinned;
}

static void make_idle(struct cache *cache, struct page *page) {
    page->newer = &cache->idle;
    page->older = cache->idle.older;
    page->older->newer = page;
    cache->idle.older = page;
    cache->pinned--;
}

static void make_pinned(struct cache *cache, struct page *page) {
    page->newer->older = page->older;
    page->older->newer = page->newer;
    page->newer = NULL;
    cache->pinned++;
}

/* The table of pages. */

static struct page **bucket_of(struct cache *cache, unsigned key) {
    return &cache->buckets[key & cache->bucket_mask];
}

static struct page *look_up(struct cache *cache, unsigned key) {
    struct page *page = *bucket_of(cache, key);
    while (page != NULL && page->key != key) page = page->next;
    return page;
}

static void link_page(struct cache *cache, struct page *page) {
    struct page **bucket = bucket_of(cache, page->key);
    page->next = *bucket;
    *bucket = page;
    if (page->key > cache->highest) cache->highest = page->key;
}

static void unlink_page(struct cache *cache, struct page *page) {
    struct page **link = bucket_of(cache, page->key);
    while (*link != page) link = &(*link)->next;
    *link = page->next;
}

/* Makes the table twice as long if there are more pages than buckets. Without memory the chains
 * grow instead. */
static void fit_table(struct cache *cache) {
    size_t old_count = cache->bucket_mask + 1;
    if (cache->total < old_count) return;
    struct page **old = cache->buckets;
    struct page **buckets = taken_as_benign(2 * old_count * sizeof *buckets);
    if (buckets == NULL) return;
    memset(buckets, 0, 2 * old_count * sizeof *buckets);
    cache->buckets = buckets;
    cache->bucket_mask = 2 * old_count - 1;
    for (size_t i = 0; i < old_count; i++) {
        for (struct page *page = old[i], *next; page != NULL; page = next) {
            next = page->next;
            link_page(cache, page);
        }
    }
    given_back(old);
}

/* The index. */

/* Gives the page a slot, and returns the page that lost it, or null. */
static struct page *give_slot(struct cache *cache, struct page *page) {
    clock2q_place place;
    clock2q_enter(&cache->index, page->key, &place);
    cache->entries++;
    struct page *loser = cache->at[place.slot];
    cache->at[place.slot] = page;
    page->slot = (unsigned)place.slot;
    if (loser == NULL || loser == page) return NULL;
    loser->slot = NO_SLOT;
    return loser;
}

/* Records a hit of a page that has a slot. */
APART static void record_hit(struct cache *cache, struct page *page) {
    clock2q_at(&cache->index, page->slot, page->key);
    page->hit_at = cache->entries;
}

static void take_slot_away(struct cache *cache, struct page *page) {
    if (page->slot == NO_SLOT) return;
    clock2q_remove(&cache->index, page->key);
    cache->at[page->slot] = NULL;
    page->slot = NO_SLOT;
}

static void free_index(struct cache *cache) {
    for (size_t slot = 0; slot < cache->capacity; slot++) {
        if (cache->at[slot] != NULL) cache->at[slot]->slot = NO_SLOT;
    }
    clock2q_free(&cache->index);
    given_back(cache->at);
    cache->at = NULL;
    cache->capacity = 0;
}

/* Has these pages enter the index, and those hit again that were hit. */
static void enter_pages(struct cache *cache, struct page **pages, size_t count) {
    for (size_t i = 0; i < count; i++) {
        if (pages[i] != NULL) pages[i]->slot = NO_SLOT;
    }
    for (size_t i = 0; i < count; i++) {
        if (pages[i] != NULL) give_slot(cache, pages[i]);
    }
    for (size_t i = 0; i < count; i++) {
        struct page *page = pages[i];
        if (page != NULL && page->hit_at != 0 && page->slot != NO_SLOT) record_hit(cache, page);
    }
}

/* Makes the index anew with this capacity. Without memory it stays as it is. */
static void make_index(struct cache *cache, size_t capacity) {
    clock2q_cache index = CLOCK2Q_NONE;
    struct page **at = taken_as_benign(capacity * sizeof *at);
    if (at == NULL) return;
    if (!has_index_for(&index, capacity)) {
        given_back(at);
        return;
    }
    memset(at, 0, capacity * sizeof *at);
    clock2q_cache old_index = cache->index;
    struct page **old_at = cache->at;
    size_t old_capacity = cache->capacity;
    cache->index = index;
    cache->at = at;
    cache->capacity = capacity;
    enter_pages(cache, old_at, old_capacity);
    clock2q_free(&old_index);
    given_back(old_at);
}

/* Has the index grow to this capacity. Each page keeps its slot. Without memory it stays as it is. */
static void grow_index(struct cache *cache, size_t capacity) {
    struct page **at = taken_as_benign(capacity * sizeof *at);
    if (at == NULL) return;
    if (!has_index_for(&cache->index, capacity)) {
        given_back(at);
        return;
    }
    memcpy(at, cache->at, cache->capacity * sizeof *at);
    memset(at + cache->capacity, 0, (capacity - cache->capacity) * sizeof *at);
    given_back(cache->at);
    cache->at = at;
    cache->capacity = capacity;
}

static size_t smaller(size_t one, size_t other) {
    return one < other ? one : other;
}

/* Makes the index when it's needed first, has it grow when it's full, and makes a smaller one when fewer
 * pages are wanted. */
static void fit_index(struct cache *cache) {
    size_t largest = cache->is_purgeable ? smaller(cache->wanted, CLOCK2Q_MAX_CAPACITY) : 0;
    if (largest == 0) {
        free_index(cache);
    } else if (cache->capacity == 0) {
        make_index(cache, smaller(FIRST_CAPACITY, largest));
    } else if (cache->capacity > largest) {
        make_index(cache, largest);
    } else if (cache->capacity < largest && cache->total >= cache->capacity) {
        grow_index(cache, smaller(2 * cache->capacity, largest));
    }
}

/* Pages that come and leave. */

static struct page *new_page(struct cache *cache, bool is_benign) {
    size_t size = sizeof(struct page) + cache->page_size + cache->extra_size;
    struct page *page = is_benign ? taken_as_benign(size) : taken(size);
    if (page == NULL) return NULL;
    page->base.pBuf = page + 1;
    page->base.pExtra = (char *)(page + 1) + cache->page_size;
    page->newer = NULL;
    cache->total++;
    cache->pinned++;
    return page;
}

static void free_page(struct cache *cache, struct page *page) {
    take_slot_away(cache, page);
    unlink_page(cache, page);
    if (is_idle(page)) make_pinned(cache, page);
    cache->pinned--;
    cache->total--;
    given_back(page);
}

static struct page *longest_idle(struct cache *cache) {
    return cache->idle.newer == &cache->idle ? NULL : cache->idle.newer;
}

static void free_idle_pages(struct cache *cache, size_t wanted) {
    while (cache->total > wanted && longest_idle(cache) != NULL) free_page(cache, longest_idle(cache));
}

/* Gives a page that has no slot one. The page that loses it is freed if it's idle. */
APART static void index_page(struct cache *cache, struct page *page) {
    fit_index(cache);
    if (cache->capacity == 0) return;
    page->hit_at = 0;
    struct page *loser = give_slot(cache, page);
    if (loser != NULL && is_idle(loser)) free_page(cache, loser);
}

/* Gives a page that is to come a slot, and returns the idle page that leaves for it. There is one. */
static struct page *chosen_victim(struct cache *cache, struct page *coming) {
    struct page *loser = cache->capacity == 0 ? NULL : give_slot(cache, coming);
    for (int attempt = 1; attempt < ATTEMPTS && loser != NULL && !is_idle(loser); attempt++) loser = give_slot(cache, loser);
    if (loser == NULL || !is_idle(loser)) loser = longest_idle(cache);
    take_slot_away(cache, loser);
    return loser;
}

/* Returns the page of an idle one that leaves, with the slot of the new key. */
static struct page *reused_page(struct cache *cache, unsigned key) {
    struct page coming = {.key = key, .slot = NO_SLOT};
    struct page *page = chosen_victim(cache, &coming);
    unlink_page(cache, page);
    make_pinned(cache, page);
    page->slot = coming.slot;
    if (page->slot != NO_SLOT) cache->at[page->slot] = page;
    return page;
}

/* Whether SQLite's allocator is at its soft limit. SQLite answers under its allocator's mutex. So while
 * there is no limit a cache asks for it once in ASKED_EVERY times, and sees a new one that much later. */
static bool is_pressed(struct cache *cache) {
    if (sqlite3HeapNearlyFull != NULL) return sqlite3HeapNearlyFull() != 0;
    if (cache->unasked > 0) {
        cache->unasked--;
        return false;
    }
    sqlite3_int64 limit = sqlite3_soft_heap_limit64(-1);
    if (limit <= 0) cache->unasked = ASKED_EVERY - 1;
    return limit > 0 && sqlite3_memory_used() >= limit;
}

static struct page *added_page(struct cache *cache, unsigned key, bool is_benign) {
    bool is_full = cache->is_purgeable && idle_count(cache) > 0 && (cache->total >= cache->wanted || is_pressed(cache));
    struct page *page;
    fit_table(cache);
    fit_index(cache);
    if (is_full) {
        page = reused_page(cache, key);
    } else {
        page = new_page(cache, is_benign);
        if (page == NULL) return NULL;
        page->slot = NO_SLOT;
    }
    page->key = key;
    page->hit_at = 0;
    memset(page->base.pExtra, 0, cache->extra_size);
    link_page(cache, page);
    if (!is_full && cache->total <= cache->wanted) index_page(cache, page);
    return page;
}

/* The methods. */

static int x_init(void *unused) {
    (void)unused;
    if (sqlite3MutexAlloc != NULL) {
        mutex = sqlite3MutexAlloc(SQLITE_MUTEX_STATIC_PMEM);
    } else if (sqlite3_mutex_alloc != NULL) {
        mutex = sqlite3_mutex_alloc(SQLITE_MUTEX_STATIC_PMEM);
    }
    return SQLITE_OK;
}

static void x_shutdown(void *unused) {
    (void)unused;
    mutex = NULL;
}

static sqlite3_pcache *x_create(int page_size, int extra_size, int is_purgeable) {
    struct cache *cache = taken(sizeof *cache);
    struct page **buckets = taken(FIRST_BUCKETS * sizeof *buckets);
    if (cache == NULL || buckets == NULL) {
        given_back(cache);
        given_back(buckets);
        return NULL;
    }
    memset(buckets, 0, FIRST_BUCKETS * sizeof *buckets);
    *cache = (struct cache){
        .page_size = ((size_t)page_size + 7) / 8 * 8,
        .extra_size = (size_t)extra_size,
        .is_purgeable = is_purgeable != 0,
        .wanted = is_purgeable ? 100 : SIZE_MAX,
        .buckets = buckets,
        .bucket_mask = FIRST_BUCKETS - 1,
    };
    cache->idle.newer = cache->idle.older = &cache->idle;
    return (sqlite3_pcache *)cache;
}

static void x_cachesize(sqlite3_pcache *handle, int wanted) {
    struct cache *cache = (struct cache *)handle;
    if (!cache->is_purgeable) return;
    cache->wanted = wanted < 0 ? 0 : (size_t)wanted;
    free_idle_pages(cache, cache->wanted);
    if (cache->capacity > cache->wanted) fit_index(cache);
}

static int x_pagecount(sqlite3_pcache *handle) {
    return (int)((struct cache *)handle)->total;
}

/* Whether SQLite should write a page back before another one is made. */
static bool is_refused(struct cache *cache) {
    return cache->pinned >= cache->wanted * 9 / 10 || (idle_count(cache) < cache->pinned && is_pressed(cache));
}

/* Pins an idle page, which is a hit. One that is pinned isn't hit again. */
static void take_up(struct cache *cache, struct page *page) {
    make_pinned(cache, page);
    if (page->hit_at != cache->entries && page->slot != NO_SLOT) record_hit(cache, page);
}

APART static sqlite3_pcache_page *missed(struct cache *cache, unsigned key, int create) {
    if (create == 0 || (create == 1 && is_refused(cache))) return NULL;
    struct page *page = added_page(cache, key, create == 1);
    return page == NULL ? NULL : &page->base;
}

static sqlite3_pcache_page *x_fetch(sqlite3_pcache *handle, unsigned key, int create) {
    struct cache *cache = (struct cache *)handle;
    struct page *page = look_up(cache, key);
    if (page == NULL) return missed(cache, key, create);
    if (is_idle(page)) take_up(cache, page);
    return &page->base;
}

static void x_unpin(sqlite3_pcache *handle, sqlite3_pcache_page *base, int discard) {
    struct cache *cache = (struct cache *)handle;
    struct page *page = (struct page *)base;
    if (discard || cache->total > cache->wanted) {
        free_page(cache, page);
        return;
    }
    make_idle(cache, page);
    if (page->slot == NO_SLOT && cache->is_purgeable) index_page(cache, page);
}

static void x_rekey(sqlite3_pcache *handle, sqlite3_pcache_page *base, unsigned old_key, unsigned new_key) {
    struct cache *cache = (struct cache *)handle;
    struct page *page = (struct page *)base;
    struct page *other = look_up(cache, new_key);
    if (old_key == new_key) return;
    if (other != NULL) free_page(cache, other);
    bool had_slot = page->slot != NO_SLOT;
    take_slot_away(cache, page);
    unlink_page(cache, page);
    page->key = new_key;
    link_page(cache, page);
    if (had_slot) index_page(cache, page);
}

static void free_bucket_from(struct cache *cache, size_t bucket, unsigned limit) {
    for (struct page *page = cache->buckets[bucket], *next; page != NULL; page = next) {
        next = page->next;
        if (page->key >= limit) free_page(cache, page);
    }
}

APART static void free_from(struct cache *cache, unsigned limit) {
    size_t keys = (size_t)cache->highest - limit + 1;
    size_t buckets = smaller(keys, cache->bucket_mask + 1);
    for (size_t i = 0; i < buckets; i++) free_bucket_from(cache, (limit + i) & cache->bucket_mask, limit);
    cache->highest = limit == 0 ? 0 : limit - 1;
}

static void x_truncate(sqlite3_pcache *handle, unsigned limit) {
    struct cache *cache = (struct cache *)handle;
    if (limit <= cache->highest) free_from(cache, limit);
}

static void x_destroy(sqlite3_pcache *handle) {
    struct cache *cache = (struct cache *)handle;
    free_index(cache);
    for (size_t bucket = 0; bucket <= cache->bucket_mask; bucket++) free_bucket_from(cache, bucket, 0);
    given_back(cache->buckets);
    given_back(cache);
}

static void x_shrink(sqlite3_pcache *handle) {
    struct cache *cache = (struct cache *)handle;
    if (!cache->is_purgeable) return;
    free_idle_pages(cache, 0);
    if (cache->total == 0) free_index(cache);
}

int clock2q_sqlite(void) {
    static const sqlite3_pcache_methods2 methods = {
        .iVersion = 1,
        .xInit = x_init,
        .xShutdown = x_shutdown,
        .xCreate = x_create,
        .xCachesize = x_cachesize,
        .xPagecount = x_pagecount,
        .xFetch = x_fetch,
        .xUnpin = x_unpin,
        .xRekey = x_rekey,
        .xTruncate = x_truncate,
        .xDestroy = x_destroy,
        .xShrink = x_shrink,
    };
    return sqlite3_config(SQLITE_CONFIG_PCACHE2, &methods);
}
