/* Runs worked out by hand, of keys and of tokens. */
#include "clock2q.h"

#include <stdio.h>

static int failed;

static void must(bool holds, const char *what) {
    if (holds) return;
    printf("worked: %s\n", what);
    failed = 1;
}

static bool is_place(clock2q_place place, size_t slot, uint64_t last, bool has_last, bool evicted) {
    return place.slot == slot && place.last == last && place.has_last == has_last && place.evicted == evicted;
}

static bool is_found(clock2q_found found, size_t slot) { return found.is_found && found.slot == slot; }
static bool is_none(clock2q_found found) { return !found.is_found && found.slot == 0; }

static bool is_admitted(clock2q_admitted admitted, size_t slot, bool has_entered) {
    return admitted.slot == slot && admitted.has_entered == has_entered;
}

static void keys_in_two_slots(void) {
    clock2q_cache cache = CLOCK2Q_NONE;
    must(clock2q_new(&cache, 2) == CLOCK2Q_DONE, "a cache of two keys");
    must(is_place(clock2q_enter_key(&cache, 70), 0, 0, false, false), "70 enters");
    must(is_place(clock2q_enter_key(&cache, 80), 1, 0, false, false), "80 enters");
    must(is_place(clock2q_enter_key(&cache, 90), 0, 70, true, true), "90 takes the slot of 70");
    must(is_none(clock2q_find_key(&cache, 70)), "70 has left");
    must(is_found(clock2q_find_key(&cache, 80), 1), "80 stays");
    must(clock2q_at(&cache, 0, 90) && !clock2q_at(&cache, 1, 90), "90 is at its slot alone");
    must(clock2q_contains(&cache, 90), "90 has a slot");
    must(is_found(clock2q_peek_key(&cache, 90), 0), "90 is peeked at");
    must(is_none(clock2q_peek_key(&cache, 70)), "70 isn't");
    must(clock2q_remove(&cache, 90) && !clock2q_contains(&cache, 90), "90 is removed");
    must(clock2q_len(&cache) == 1, "one key is left");
    must(is_place(clock2q_enter_key(&cache, 60), 0, 0, false, false), "60 takes the free slot");
    must(is_place(clock2q_enter_key(&cache, 60), 0, 60, true, false), "60 is hit");
    clock2q_clear(&cache);
    must(clock2q_len(&cache) == 0 && clock2q_capacity(&cache) == 2, "the cache is empty");
    clock2q_release(cache);
}

static void the_key_that_leaves_next(void) {
    clock2q_cache cache = CLOCK2Q_NONE;
    must(clock2q_new(&cache, 2) == CLOCK2Q_DONE, "another cache of two keys");
    must(is_place(clock2q_next_victim(&cache), 0, 0, false, false), "no key leaves an empty cache");
    clock2q_enter_key(&cache, 70);
    clock2q_enter_key(&cache, 80);
    must(is_place(clock2q_next_victim(&cache), 0, 70, true, false), "70 leaves next");
    clock2q_enter_key(&cache, 90);
    must(clock2q_remove(&cache, 90), "90 is there");
    must(is_place(clock2q_next_victim(&cache), 1, 80, true, false), "80 leaves next");
    clock2q_release(cache);
}

/* Returns the status of a constructor, after freeing what it made. */
static uint32_t let_go(clock2q_cache cache, uint32_t status) {
    if (status == CLOCK2Q_DONE) clock2q_release(cache);
    return status;
}

static uint32_t status_of(size_t capacity, size_t small, size_t window) {
    clock2q_cache cache = CLOCK2Q_NONE;
    uint32_t status = clock2q_with_policy(&cache, capacity, small, window);
    return let_go(cache, status);
}

static uint32_t status_with_history(size_t history) {
    clock2q_cache cache = CLOCK2Q_NONE;
    uint32_t status = clock2q_with_history(&cache, 10, 5, 2, history);
    return let_go(cache, status);
}

static void refused_caches(void) {
    clock2q_cache none = CLOCK2Q_NONE;
    must(clock2q_new(&none, 0) == CLOCK2Q_BAD_CAPACITY, "no capacity");
    must(status_of(16777216, 1, 1) == CLOCK2Q_BAD_CAPACITY, "a capacity too large");
    must(status_of(10, 10, 1) == CLOCK2Q_BAD_POLICY, "Small takes all");
    must(status_of(10, 5, 2) == CLOCK2Q_DONE, "shares that fit");
    must(status_with_history(11) == CLOCK2Q_BAD_POLICY, "a history longer than the cache");
    must(status_with_history(10) == CLOCK2Q_DONE, "a history as long as the cache");
}

static void tokens_of_two_hashes(void) {
    clock2q_tokens cache = CLOCK2Q_TOKENS_NONE;
    must(clock2q_tokens_new(&cache, 3) == CLOCK2Q_DONE, "a cache of three tokens");
    must(is_admitted(clock2q_tokens_admit(&cache, 7), 0, true), "7 enters");
    must(is_admitted(clock2q_tokens_admit(&cache, 7), 0, false), "7 is hit");
    must(clock2q_tokens_enter(&cache, 7, 1) == 1, "another of 7 enters");
    must(is_admitted(clock2q_tokens_admit(&cache, 9), 2, true), "9 enters");
    must(clock2q_tokens_len(&cache) == 3 && clock2q_tokens_capacity(&cache) == 3, "three tokens");
    must(is_found(clock2q_tokens_next_victim(&cache), 0), "the first leaves next");
    must(is_found(clock2q_tokens_seek(&cache, 9, 0), 2), "the first of 9");
    must(is_none(clock2q_tokens_seek(&cache, 9, 1)), "9 has one");
    must(clock2q_tokens_seek(&cache, 7, 1).is_found, "7 has two");
    must(!clock2q_tokens_seek(&cache, 7, 2).is_found, "7 has no third");
    must(clock2q_tokens_hit(&cache, 2) && !clock2q_tokens_hit(&cache, 3), "a hit at a slot");
    must(clock2q_tokens_remove(&cache, 0) && !clock2q_tokens_remove(&cache, 0), "a token leaves once");
    must(is_found(clock2q_tokens_seek(&cache, 7, 0), 1), "7 has one left");
    must(clock2q_tokens_forget(&cache, 7, 1) && !clock2q_tokens_forget(&cache, 7, 1), "it leaves once");
    clock2q_tokens_clear(&cache);
    must(clock2q_tokens_len(&cache) == 0, "no token is left");
    must(!clock2q_tokens_next_victim(&cache).is_found, "none leaves next");
    clock2q_tokens_release(cache);
}

static void refused_tokens(void) {
    clock2q_tokens cache = CLOCK2Q_TOKENS_NONE;
    must(clock2q_tokens_with_policy(&cache, 10, 5, 2) == CLOCK2Q_DONE, "tokens with shares");
    clock2q_tokens_release(cache);
    clock2q_tokens none = CLOCK2Q_TOKENS_NONE;
    must(clock2q_tokens_new(&none, 0) == CLOCK2Q_BAD_CAPACITY, "no capacity for tokens");
}

int main(void) {
    keys_in_two_slots();
    the_key_that_leaves_next();
    refused_caches();
    tokens_of_two_hashes();
    refused_tokens();
    return failed;
}
