/* The cache as plain lists: each call looks at every key. */
#ifndef MODEL_H
#define MODEL_H

#include <stdbool.h>
#include <stddef.h>
#include <stdint.h>
#include <stdlib.h>
#include <string.h>

enum { NOWHERE = -1, OLD = -1 };

struct entry {
    uint64_t key;
    long slot;
    long age; /* in Small, or OLD */
    bool bit;
};

struct list {
    struct entry *entries;
    size_t count;
};

/* How many slots, how many of them for new keys, for how many admissions these are young, and how many keys that left
 * are remembered. */
struct shares {
    size_t capacity, small, window, history;
};

struct model {
    size_t capacity, small_share, window, history_share;
    struct list small, main; /* Small's newest first, Main's next victim first */
    struct list history;     /* newest first */
    long *vacant;            /* slots that were freed, as a stack */
    size_t vacant_count, made;
};

/* Makes room for `count` elements in place of `before` ones. Those that are new are 0. */
static void *enlarged(void *array, size_t before, size_t count, size_t size) {
    char *larger = realloc(array, count * size);
    if (larger == NULL) abort();
    if (before < count) memset(larger + before * size, 0, (count - before) * size);
    return larger;
}

static long place_in(const struct list *list, uint64_t key) {
    for (size_t i = 0; i < list->count; i++) {
        if (list->entries[i].key == key) return (long)i;
    }
    return NOWHERE;
}

static struct entry taken_out(struct list *list, size_t place) {
    struct entry entry = list->entries[place];
    list->count--;
    memmove(list->entries + place, list->entries + place + 1, (list->count - place) * sizeof entry);
    return entry;
}

static void put_first(struct list *list, struct entry entry) {
    memmove(list->entries + 1, list->entries, list->count * sizeof entry);
    list->entries[0] = entry;
    list->count++;
}

static void put_last(struct list *list, struct entry entry) {
    list->entries[list->count++] = entry;
}

static struct shares usual_shares(size_t capacity) {
    size_t tenth = capacity / 10;
    size_t small = capacity == 1 ? 0 : tenth > 0 ? tenth : 1;
    return (struct shares){capacity, small, (small + 1) / 2, capacity / 2};
}

/* Whether a cache may grow to these shares: none is smaller than it was. */
static inline bool model_may_grow(const struct model *model, struct shares to) {
    return to.small >= model->small_share && to.capacity - to.small >= model->capacity - model->small_share
        && to.window >= model->window && to.history >= model->history_share;
}

/* Each key stays what it is, and an old one old. */
static void model_grow(struct model *model, struct shares to) {
    size_t before = model->capacity > 0 ? model->capacity + 1 : 0;
    struct list *lists[] = {&model->small, &model->main, &model->history};
    for (size_t i = 0; i < sizeof lists / sizeof *lists; i++) {
        lists[i]->entries = enlarged(lists[i]->entries, before, to.capacity + 1, sizeof(struct entry));
    }
    model->vacant = enlarged(model->vacant, before, to.capacity + 1, sizeof *model->vacant);
    model->capacity = to.capacity;
    model->small_share = to.small;
    model->window = to.window;
    model->history_share = to.history;
}

static struct model model_of(size_t capacity) {
    struct model model = {.capacity = 0};
    model_grow(&model, usual_shares(capacity));
    return model;
}

static void model_clear(struct model *model) {
    model->small.count = model->main.count = model->history.count = 0;
    model->vacant_count = model->made = 0;
}

static void model_free(struct model *model) {
    free(model->small.entries);
    free(model->main.entries);
    free(model->history.entries);
    free(model->vacant);
}

static long model_slot(const struct model *model, uint64_t key) {
    long place = place_in(&model->small, key);
    if (place != NOWHERE) return model->small.entries[place].slot;
    place = place_in(&model->main, key);
    return place == NOWHERE ? NOWHERE : model->main.entries[place].slot;
}

static void model_hit(struct model *model, uint64_t key) {
    long small = place_in(&model->small, key), main = place_in(&model->main, key);
    if (small != NOWHERE && model->small.entries[small].age == OLD) model->small.entries[small].bit = true;
    if (main != NOWHERE) model->main.entries[main].bit = true;
}

static bool has_vacancy(const struct model *model) {
    return model->vacant_count > 0 || model->made < model->capacity;
}

static long take_vacancy(struct model *model) {
    return model->vacant_count > 0 ? model->vacant[--model->vacant_count] : (long)model->made++;
}

/* The hand gives each key of Main that was hit another round. */
static struct entry taken_victim(struct model *model) {
    while (model->main.entries[0].bit) {
        struct entry entry = taken_out(&model->main, 0);
        entry.bit = false;
        put_last(&model->main, entry);
    }
    return taken_out(&model->main, 0);
}

static long main_victim(struct model *model) {
    return taken_victim(model).slot;
}

static void join_main(struct model *model, uint64_t key, long slot) {
    put_last(&model->main, (struct entry){.key = key, .slot = slot, .age = OLD});
}

static void join_small(struct model *model, uint64_t key, long slot) {
    for (size_t i = 0; i < model->small.count; i++) {
        struct entry *entry = &model->small.entries[i];
        if (entry->age == OLD) continue;
        entry->age = (size_t)entry->age + 1 < model->window ? entry->age + 1 : OLD;
    }
    put_first(&model->small, (struct entry){.key = key, .slot = slot, .age = 0});
}

static void remember(struct model *model, uint64_t key) {
    size_t room = model->history_share;
    if (room == 0) return;
    if (model->history.count == room) model->history.count--;
    put_first(&model->history, (struct entry){.key = key});
}

static bool forget(struct model *model, uint64_t key) {
    long place = place_in(&model->history, key);
    if (place != NOWHERE) taken_out(&model->history, (size_t)place);
    return place != NOWHERE;
}

static long enter_full_small(struct model *model, uint64_t key) {
    struct entry tail = taken_out(&model->small, model->small.count - 1);
    long slot = tail.slot;
    if (tail.age == OLD && tail.bit) {
        slot = main_victim(model);
        join_main(model, tail.key, tail.slot);
    } else {
        remember(model, tail.key);
    }
    join_small(model, key, slot);
    return slot;
}

static long model_enter(struct model *model, uint64_t key) {
    long slot = model_slot(model, key);
    if (slot != NOWHERE) {
        model_hit(model, key);
        return slot;
    }
    bool is_known = forget(model, key), is_vacant = has_vacancy(model);
    if (is_known || model->small_share == 0 || (is_vacant && model->small_share <= model->small.count)) {
        bool is_full = model->main.count == model->capacity - model->small_share;
        slot = is_full ? main_victim(model) : take_vacancy(model);
        join_main(model, key, slot);
        return slot;
    }
    if (!is_vacant) return enter_full_small(model, key);
    slot = take_vacancy(model);
    join_small(model, key, slot);
    return slot;
}

static bool model_remove(struct model *model, uint64_t key) {
    long small = place_in(&model->small, key), main = place_in(&model->main, key);
    if (small == NOWHERE && main == NOWHERE) {
        forget(model, key);
        return false;
    }
    struct entry gone = small != NOWHERE ? taken_out(&model->small, (size_t)small) : taken_out(&model->main, (size_t)main);
    model->vacant[model->vacant_count++] = gone.slot;
    return true;
}

/* Evicts a key though none comes, and writes it and its slot, if there is one. */
static bool model_evict(struct model *model, uint64_t *key, long *slot) {
    bool has_tail = model->small.count > 0, takes_victim = model->main.count > 0;
    if (!has_tail && !takes_victim) return false;
    struct entry tail = {.age = OLD, .bit = true};
    if (has_tail) tail = taken_out(&model->small, model->small.count - 1);
    takes_victim = takes_victim && tail.age == OLD && tail.bit;
    struct entry left = takes_victim ? taken_victim(model) : tail;
    if (!takes_victim) remember(model, left.key);
    else if (has_tail) join_main(model, tail.key, tail.slot);
    *key = left.key;
    *slot = left.slot;
    model->vacant[model->vacant_count++] = left.slot;
    return true;
}

#endif
