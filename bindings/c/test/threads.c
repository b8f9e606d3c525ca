/* threads together|in_turn: two threads that only ask, of one cache, together or under a lock. The first
 * breaks what the header asks: a thread sanitizer reports it, and nothing else is seen of it. */
#define _POSIX_C_SOURCE 200809L
#include "clock2q.h"

#include <pthread.h>
#include <stdio.h>
#include <string.h>

static clock2q_cache cache = CLOCK2Q_NONE;
static pthread_mutex_t lock = PTHREAD_MUTEX_INITIALIZER;
static bool in_turn;

static bool asked(uint64_t key) {
    if (in_turn) pthread_mutex_lock(&lock);
    bool is_right = clock2q_len(&cache) == 1 && clock2q_capacity(&cache) == 10 && clock2q_contains(&cache, key) == (key == 7);
    if (in_turn) pthread_mutex_unlock(&lock);
    return is_right;
}

static void *ask(void *wrong) {
    for (uint64_t i = 0; i < 1000000; i++) {
        if (!asked(i % 10)) *(bool *)wrong = true;
    }
    return NULL;
}

int main(int count, char **words) {
    pthread_t threads[2];
    bool wrong[2] = {false, false};
    clock2q_place place;
    in_turn = count > 1 && strcmp(words[1], "in_turn") == 0;
    if (clock2q_new(&cache, 10) != CLOCK2Q_DONE) return 2;
    clock2q_enter(&cache, 7, &place);
    for (int i = 0; i < 2; i++) {
        if (pthread_create(&threads[i], NULL, ask, &wrong[i]) != 0) return 2;
    }
    for (int i = 0; i < 2; i++) pthread_join(threads[i], NULL);
    clock2q_free(&cache);
    if (wrong[0] || wrong[1]) puts("threads: a wrong answer");
    return wrong[0] || wrong[1] ? 1 : 0;
}
