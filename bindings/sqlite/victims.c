/* victims: which pages leave. A model has the library give out slots as the module does, but reports
 * every hit to it, also those that the module leaves out. Pages are pinned one at a time, hit,
 * dropped, given other keys and all freed at random, and each time the module has a page if and only
 * if the model has its key, also while the index grows. */
#include "pcache_clock2q.h"

#include "clock2q.h"
#include <sqlite3.h>
#include <stdio.h>
#include <stdlib.h>
#include <string.h>

enum { KEYS = 700, STEPS = 200000, FIRST_CAPACITY = 64 };

struct model {
    clock2q_cache index;
    size_t capacity, size, pages;
    unsigned at[KEYS]; /* the key of each slot, or 0 */
};

static uint64_t drawn = 88172645463325252u;

static unsigned below(unsigned bound) {
    drawn ^= drawn << 13;
    drawn ^= drawn >> 7;
    drawn ^= drawn << 17;
    return (unsigned)((drawn >> 11) % bound);
}

static void must(bool holds, const char *what) {
    if (holds) return;
    printf("victims: %s\n", what);
    exit(1);
}

static bool has(struct model *model, unsigned key) {
    return model->capacity != 0 && clock2q_contains(&model->index, key);
}

static void leave(struct model *model, unsigned key) {
    size_t slot;
    must(clock2q_find(&model->index, key, &slot) && clock2q_remove(&model->index, key), "a key without a slot");
    model->at[slot] = 0;
    model->pages--;
}

/* Gives the key a slot. The key that loses it leaves. */
static void enter(struct model *model, unsigned key) {
    clock2q_place place;
    clock2q_enter(&model->index, key, &place);
    model->pages += model->at[place.slot] == 0;
    model->at[place.slot] = key;
}

static void empty(struct model *model) {
    clock2q_free(&model->index);
    memset(model->at, 0, sizeof model->at);
    model->capacity = model->pages = 0;
}

/* Makes the index, or has it grow. Its keys keep their slots. */
static void grow(struct model *model, size_t capacity) {
    clock2q_cache *index = &model->index;
    uint32_t answer = model->capacity == 0 ? clock2q_new(index, capacity) : clock2q_grow(index, capacity);
    must(answer == CLOCK2Q_DONE, "no index");
    model->capacity = capacity;
}

/* The index has room for a page more than there are, until it's as large as it may be. */
static void come(struct model *model, unsigned key) {
    size_t capacity = model->capacity == 0 ? FIRST_CAPACITY : 2 * model->capacity;
    if (capacity > model->size) capacity = model->size;
    if (model->capacity == 0 || (model->pages + 1 >= model->capacity && model->capacity < capacity)) grow(model, capacity);
    enter(model, key);
}

static void fetch(struct model *model, unsigned key) {
    size_t slot;
    if (!has(model, key)) {
        come(model, key);
    } else {
        clock2q_find(&model->index, key, &slot);
    }
}

static void rekey(struct model *model, unsigned from, unsigned to) {
    if (has(model, to)) leave(model, to);
    leave(model, from);
    come(model, to);
}

static void step(const sqlite3_pcache_methods2 *methods, sqlite3_pcache *cache, struct model *model) {
    unsigned key = 1 + below(below(2) == 0 ? KEYS / 6 : KEYS), kind = below(4000), other = 1 + below(KEYS);
    bool had = has(model, key);
    sqlite3_pcache_page *page = methods->xFetch(cache, key, 2);
    must(page != NULL && *(unsigned *)page->pExtra == (had ? key : 0), "another page left than the library chose");
    fetch(model, key);
    if (kind > 3950 && other != key) {
        methods->xRekey(cache, page, key, other);
        rekey(model, key, other);
        key = other;
    }
    *(unsigned *)page->pExtra = key;
    methods->xUnpin(cache, page, kind < 40);
    if (kind < 40) leave(model, key);
    must((size_t)methods->xPagecount(cache) == model->pages, "another number of pages");
    if (kind != 2000) return;
    methods->xShrink(cache);
    empty(model);
}

static void run_with(const sqlite3_pcache_methods2 *methods, int size) {
    struct model model = {.size = (size_t)size};
    sqlite3_pcache *cache = methods->xCreate(64, sizeof(unsigned), 1);
    must(cache != NULL, "no cache");
    methods->xCachesize(cache, size);
    for (int i = 0; i < STEPS; i++) step(methods, cache, &model);
    methods->xCachesize(cache, 2 * size);
    model.size = 2 * (size_t)size;
    for (int i = 0; i < STEPS; i++) step(methods, cache, &model);
    methods->xDestroy(cache);
    empty(&model);
}

int main(void) {
    static const int sizes[] = {1, 2, 3, 10, 50, 64, 65, 100, 150, 200, 300};
    sqlite3_pcache_methods2 methods;
    must(clock2q_sqlite() == SQLITE_OK, "no page cache");
    must(sqlite3_config(SQLITE_CONFIG_GETPCACHE2, &methods) == SQLITE_OK, "no methods");
    for (size_t i = 0; i < sizeof sizes / sizeof *sizes; i++) run_with(&methods, sizes[i]);
    return 0;
}
