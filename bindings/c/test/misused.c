/* Calls that need a cache when there is none, and one that makes a cache when there is one: the
 * header's assertions stop each, in a process of its own. */
#define _POSIX_C_SOURCE 200809L
#include "clock2q_bytes.h"

#include <signal.h>
#include <stdio.h>
#include <stdlib.h>
#include <sys/wait.h>
#include <unistd.h>

static clock2q_cache none, made;
static clock2q_bytes no_bytes;
static clock2q_place place;
static size_t slot;

static void make(void) { clock2q_new(&made, 2); }
static void make_with_policy(void) { clock2q_with_policy(&made, 2, 1, 1); }
static void enter(void) { clock2q_enter(&none, 7, &place); }
static void add(void) { clock2q_add(&none, 7, &place); }
static void add_nowhere(void) { clock2q_add(&made, 7, NULL); }
static void find(void) { clock2q_find(&none, 7, &slot); }
static void at(void) { clock2q_at(&none, 0, 7); }
static void contains(void) { clock2q_contains(&none, 7); }
static void peek(void) { clock2q_peek(&none, 7, &slot); }
static void holds(void) { clock2q_holds(&none, 0, 7); }
static void peek_nowhere(void) { clock2q_peek(&made, 7, NULL); }
static void take_away(void) { clock2q_remove(&none, 7); }
static void evict(void) { clock2q_evict(&none, &place); }
static void evict_nowhere(void) { clock2q_evict(&made, NULL); }
static void clear(void) { clock2q_clear(&none); }
static void len(void) { clock2q_len(&none); }
static void capacity(void) { clock2q_capacity(&none); }
static void release(void) { clock2q_release(none); }
static void enter_nowhere(void) { clock2q_enter(&made, 7, NULL); }
static void enter_key(void) { clock2q_enter_key(&none, 7); }
static void find_key(void) { clock2q_find_key(&none, 7); }
static void find_nowhere(void) { clock2q_find(&made, 7, NULL); }
static void find_bytes(void) { clock2q_bytes_find(&no_bytes, "seven", 5); }
static void release_bytes(void) { clock2q_bytes_release(no_bytes); }

/* Whether the call ends its process by an assertion. */
static bool is_stopped(void (*call)(void)) {
    int status = 0;
    pid_t child = fork();
    if (child == 0) {
        if (freopen("/dev/null", "w", stderr) == NULL) _exit(1);
        call();
        _exit(0);
    }
    return child > 0 && waitpid(child, &status, 0) == child && WIFSIGNALED(status) && WTERMSIG(status) == SIGABRT;
}

int main(void) {
    static void (*const calls[])(void) = {make, make_with_policy, enter, add, add_nowhere, find, at, contains, peek, holds, peek_nowhere, take_away, evict, evict_nowhere, clear, len, capacity, release, enter_nowhere, enter_key, find_key, find_nowhere, find_bytes, release_bytes};
    if (clock2q_new(&made, 2) != CLOCK2Q_DONE) return 1;
    int failed = 0;
    for (size_t i = 0; i < sizeof calls / sizeof *calls; i++) {
        if (is_stopped(calls[i])) continue;
        printf("misused: call %zu isn't stopped\n", i);
        failed = 1;
    }
    clock2q_free(&made);
    return failed;
}
