// The headers under C++.
#include "clock2q_bytes.h"

static bool has_bytes() {
    clock2q_bytes cache = CLOCK2Q_BYTES_NONE;
    if (clock2q_bytes_new(&cache, 2) != CLOCK2Q_DONE) return false;
    clock2q_bytes_place place;
    bool is_new = clock2q_bytes_enter(&cache, "seven", 5, &place) == CLOCK2Q_DONE && place.has_entered;
    bool is_known = clock2q_bytes_find(&cache, "seven", 5).is_found && clock2q_bytes_len(&cache) == 1;
    clock2q_bytes_free(&cache);
    return is_new && is_known;
}

int main() {
    clock2q_cache cache = CLOCK2Q_NONE;
    if (clock2q_new(&cache, 2) != CLOCK2Q_DONE) return 1;
    clock2q_place place;
    clock2q_enter(&cache, 7, &place);
    bool is_new = !clock2q_has(&place, 7);
    clock2q_enter(&cache, 7, &place);
    bool is_known = clock2q_has(&place, 7) && clock2q_len(&cache) == 1;
    clock2q_free(&cache);
    return is_new && is_known && has_bytes() ? 0 : 1;
}
