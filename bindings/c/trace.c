/* trace FORM CAPACITY: two million accesses of the benchmark's trace to one form of cache: `enter`,
 * `find` (find, else enter), `uthash` or `glib`. Prints the hits and a checksum, which agree for
 * the first two, and the nanoseconds of an access. Under valgrind --tool=callgrind
 * --toggle-collect=run_FORM it counts instructions. */
#include "clock2q.h"

#include <glib.h>
#include <stdio.h>
#include <stdlib.h>
#include <string.h>
#include <time.h>
#include <uthash.h>

enum { ACCESSES = 2000000 };

static uint64_t keys[ACCESSES], hits, sum;

static uint64_t mix(uint64_t x) {
    x = (x ^ (x >> 30)) * 0xBF58476D1CE4E5B9u;
    x = (x ^ (x >> 27)) * 0x94D049BB133111EBu;
    return x ^ (x >> 31);
}

/* Each level has twice the keys of the one before, and all levels are as likely. */
static void draw_keys(size_t capacity) {
    uint64_t state = 1, levels = capacity <= 10000 ? 17 : 20;
    for (size_t i = 0; i < ACCESSES; i++) {
        state += 0x9E3779B97F4A7C15u;
        uint64_t draw = mix(state), level = draw % levels;
        keys[i] = mix((UINT64_C(1) << level) + ((draw >> 32) & ((UINT64_C(1) << level) - 1)));
    }
}

static void found(uint64_t value) {
    hits++;
    sum += value;
}

__attribute__((noinline)) static void run_find(clock2q_cache *cache, uint64_t *values) {
    for (size_t i = 0; i < ACCESSES; i++) {
        size_t slot;
        clock2q_place place;
        if (clock2q_find(cache, keys[i], &slot)) {
            found(values[slot]);
        } else {
            clock2q_enter(cache, keys[i], &place);
            values[place.slot] = i;
        }
    }
}

__attribute__((noinline)) static void run_enter(clock2q_cache *cache, uint64_t *values) {
    for (size_t i = 0; i < ACCESSES; i++) {
        clock2q_place place;
        clock2q_enter(cache, keys[i], &place);
        if (clock2q_has(&place, keys[i])) {
            found(values[place.slot]);
        } else {
            values[place.slot] = i;
        }
    }
}

struct hashed {
    uint64_t key, value;
    UT_hash_handle hh;
};

/* The least recently used key leaves, as in uthash's user guide: a hit deletes and adds again. */
__attribute__((noinline)) static void run_uthash(size_t capacity) {
    struct hashed *all = NULL, *entry, *next;
    for (size_t i = 0; i < ACCESSES; i++) {
        HASH_FIND(hh, all, &keys[i], sizeof keys[i], entry);
        if (entry != NULL) {
            HASH_DELETE(hh, all, entry);
            HASH_ADD(hh, all, key, sizeof entry->key, entry);
            found(entry->value);
            continue;
        }
        if (HASH_COUNT(all) >= capacity) {
            entry = all;
            HASH_DELETE(hh, all, entry);
        } else {
            entry = malloc(sizeof *entry);
        }
        entry->key = keys[i];
        entry->value = i;
        HASH_ADD(hh, all, key, sizeof entry->key, entry);
    }
    HASH_ITER(hh, all, entry, next) {
        HASH_DELETE(hh, all, entry);
        free(entry);
    }
}

struct node {
    uint64_t key, value;
    GList link;
};

/* The same with GLib's table and queue. */
__attribute__((noinline)) static void run_glib(size_t capacity) {
    GHashTable *table = g_hash_table_new(g_int64_hash, g_int64_equal);
    GQueue queue = G_QUEUE_INIT;
    for (size_t i = 0; i < ACCESSES; i++) {
        struct node *node = g_hash_table_lookup(table, &keys[i]);
        if (node != NULL) {
            g_queue_unlink(&queue, &node->link);
            g_queue_push_head_link(&queue, &node->link);
            found(node->value);
            continue;
        }
        if (queue.length >= capacity) {
            node = g_queue_pop_tail_link(&queue)->data;
            g_hash_table_remove(table, &node->key);
        } else {
            node = g_new0(struct node, 1);
        }
        node->key = keys[i];
        node->value = i;
        node->link.data = node;
        g_hash_table_insert(table, &node->key, node);
        g_queue_push_head_link(&queue, &node->link);
    }
    for (GList *link = g_queue_pop_tail_link(&queue); link != NULL; link = g_queue_pop_tail_link(&queue)) g_free(link->data);
    g_hash_table_destroy(table);
}

static int run_clock2q(const char *form, size_t capacity) {
    clock2q_cache cache = CLOCK2Q_NONE;
    uint64_t *values = calloc(capacity, sizeof *values);
    if (values == NULL || clock2q_new(&cache, capacity) != CLOCK2Q_DONE) return 1;
    if (strcmp(form, "find") == 0) {
        run_find(&cache, values);
    } else {
        run_enter(&cache, values);
    }
    clock2q_free(&cache);
    free(values);
    return 0;
}

int main(int count, char **words) {
    if (count != 3) return 2;
    const char *form = words[1];
    size_t capacity = strtoull(words[2], NULL, 10);
    struct timespec start, end;
    draw_keys(capacity);
    clock_gettime(CLOCK_MONOTONIC, &start);
    if (strcmp(form, "uthash") == 0) {
        run_uthash(capacity);
    } else if (strcmp(form, "glib") == 0) {
        run_glib(capacity);
    } else if (run_clock2q(form, capacity) != 0) {
        return 1;
    }
    clock_gettime(CLOCK_MONOTONIC, &end);
    double nanoseconds = (double)(end.tv_sec - start.tv_sec) * 1e9 + (double)(end.tv_nsec - start.tv_nsec);
    printf("%s %zu: %llu hits, sum %llu, %.1f ns\n", form, capacity, (unsigned long long)hits, (unsigned long long)sum, nanoseconds / ACCESSES);
    return 0;
}
