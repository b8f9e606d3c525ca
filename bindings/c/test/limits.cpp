// clock2q.hpp: `resize`, and caches with weights, against std::unordered_map, with good and bad hashers; weighers that
// throw or call the cache. usage: limits [CALLS]
#include "clock2q.hpp"

#include <algorithm>
#include <cstdio>
#include <cstdlib>
#include <memory>
#include <string>
#include <unordered_map>
#include <vector>

using clock2q::cache;
using clock2q::weighted_cache;

static int failed = 0;

static void must(bool holds, const char *what) {
    if (holds) return;
    std::printf("limits: %s\n", what);
    failed = 1;
}

template <class Call> static bool is_refused(Call call) {
    try {
        call();
    } catch (const std::invalid_argument &) {
        return true;
    }
    return false;
}

static std::uint64_t drawn(std::uint64_t &state) {
    state ^= state << 13;
    state ^= state >> 7;
    return state ^= state << 17;
}

struct good {
    std::size_t operator()(std::uint64_t key) const { return key * 0xBF58476D1CE4E5B9u; }
};
struct two_bits {
    std::size_t operator()(std::uint64_t key) const { return key & 3; }
};
struct constant {
    std::size_t operator()(std::uint64_t) const { return 42; }
};

// ---- resize ----

template <class Hash> static void resized(std::size_t capacity, long calls) {
    cache<std::uint64_t, std::uint64_t, Hash> tried(capacity);
    std::unordered_map<std::uint64_t, std::uint64_t> stored;
    std::uint64_t state = capacity;
    for (long call = 0; call < calls; call++) {
        std::uint64_t draw = drawn(state) >> 8, key = (draw >> 8) % (3 * capacity);
        if (draw % 64 == 0) {
            std::size_t before = tried.size(), next = 1 + (draw >> 40) % (draw % 1024 == 0 ? 2 * capacity : capacity);
            const std::uint64_t *kept = tried.peek(key);
            tried.resize(next);
            must(tried.capacity() == next && tried.size() == std::min(before, next), "its capacity is the new one");
            must(before > next || tried.peek(key) == kept, "if it is enough, all stay where they are");
        }
        const std::uint64_t *found = tried.peek(key);
        must(found == nullptr || *found == stored[key], "what is there was stored last");
        if (draw % 4 == 0) tried.erase(key);
        else if (draw % 4 == 1) tried.get(key);
        else {
            bool was_there = found != nullptr;
            auto left = tried.push(key, stored[key] = static_cast<std::uint64_t>(call));
            must(was_there == (left && left.key() == key), "its own entry left");
            must(tried.contains(key) && (!left || left.key() == key || !tried.contains(left.key())), "it is there, who left isn't");
        }
        must(tried.size() <= tried.capacity(), "no more keys than the capacity");
    }
    must(is_refused([&] { tried.resize(0); }) && is_refused([&] { tried.resize(CLOCK2Q_MAX_CAPACITY + 1); }), "refused");
    tried.resize(capacity);
    must(tried.capacity() == capacity, "it grows again");
    auto moved = std::move(tried);
    must(is_refused([&] { tried.resize(1); }) && moved.capacity() == capacity, "a cache that was moved from");
}

// Entries leave a larger cache in the order in which they would have left before.
template <class Hash> static void order_is_kept(std::size_t capacity) {
    cache<std::uint64_t, int, Hash> tried(capacity), before(capacity);
    std::uint64_t state = capacity;
    for (std::size_t call = 0; call < 20 * capacity; call++) {
        std::uint64_t draw = drawn(state), key = (draw >> 20) % (2 * capacity);
        if (draw % 8 == 0) must(tried.erase(key) == before.erase(key), "the same calls");
        tried.try_emplace(key, 1);
        before.try_emplace(key, 1);
    }
    tried.resize(2 * capacity + 1);
    must(tried.size() == before.size(), "no entry leaves");
    while (auto next = before.evict()) {
        auto left = tried.evict();
        must(left && left.key() == next.key(), "the order is kept");
    }
    must(tried.empty(), "the order is kept to the end");
}

// A key that left comes back as one that is known, after the cache has grown: it leaves after all that are here.
static void what_left_is_remembered() {
    cache<int, int> tried(10);
    for (int key = 0; key < 10; key++) tried.put(key, key);
    int gone = tried.push(10, 10).key();
    tried.resize(20);
    must(!tried.push(gone, gone) && tried.size() == 11, "it has room");
    int last = -1;
    while (auto left = tried.evict()) last = left.key();
    must(last == gone, "it is known");
}

// It hits as often as a cache that was made as large, by nine tenths, and keeps the policy that it was given.
static void larger_is_useful() {
    cache<std::uint64_t, int> large(500, clock2q::policy{100, 50}), tried(50, clock2q::policy{20, 10});
    std::uint64_t state = 1;
    for (int call = 0; call < 100000; call++) {
        if (call == 1000) tried.resize(500);
        std::uint64_t draw = drawn(state), key = (draw >> 20) & (draw >> 40) & 1023;
        tried.try_emplace(key, 1);
        large.try_emplace(key, 1);
    }
    must(10 * tried.hits() > 9 * large.hits(), "a larger cache is useful");
}

// A full cache never hits a loop that is longer than Small and the history, and one that isn't from the third round on.
static void longer_history_admits_a_longer_loop() {
    auto last_hits = [](auto tried) {
        for (int key = 0; key < 20; key++) tried.put(key, key);
        int hits = 0;
        for (int round = 0; round < 4; round++) {
            hits = 0;
            for (int key = 20; key < 40; key++) {
                hits += tried.contains(key) ? 1 : 0;
                tried.put(key, key);
            }
        }
        return hits;
    };
    must(last_hits(cache<int, int>(20, clock2q::policy{2, 1})) == 0, "never admitted");
    must(last_hits(cache<int, int>(20, clock2q::policy{2, 1, 18})) == 20, "admitted");
    auto one = [](int, int) { return std::uint64_t{1}; };
    must(last_hits(weighted_cache<int, int>(20, clock2q::policy{2, 1}, 100, one)) == 0, "never admitted with weights");
    must(last_hits(weighted_cache<int, int>(20, clock2q::policy{2, 1, 18}, 100, one)) == 20, "admitted with weights");
    using timed = clock2q::expiring_cache<int, int>;
    must(last_hits(timed(20, clock2q::policy{2, 1}, std::chrono::hours(1))) == 0, "never admitted with times");
    must(last_hits(timed(20, clock2q::policy{2, 1, 18}, std::chrono::hours(1))) == 20, "admitted with times");
    clock2q::policy too_long{2, 1, 21};
    must(is_refused([&] { cache<int, int> none(20, too_long); }), "a history that is longer than the cache");
    must(is_refused([&] { weighted_cache<int, int> none(20, too_long, 100, one); }), "with weights");
    must(is_refused([&] { timed none(20, too_long, std::chrono::hours(1)); }), "with times");
}

// It hits as often as a cache that was made as small, by nine tenths.
static void smaller_is_useful() {
    cache<std::uint64_t, int> small(100), tried(1000);
    for (std::uint64_t key = 0; key < 1000; key++) tried.put(key, 1);
    tried.resize(100);
    must(tried.size() == 100, "the others left");
    std::uint64_t state = 1;
    for (int call = 0; call < 100000; call++) {
        std::uint64_t draw = drawn(state), key = (draw >> 20) & (draw >> 40) & 1023;
        tried.try_emplace(key, 1);
        small.try_emplace(key, 1);
    }
    must(10 * tried.hits() > 9 * small.hits(), "a smaller cache is useful");
}

// ---- weights ----

// The weight of an entry is that of its value by 8.
struct by_value {
    std::uint64_t operator()(std::uint64_t, std::uint64_t value) const { return value % 8; }
};

template <class Hash> using weighed = weighted_cache<std::uint64_t, std::uint64_t, by_value, Hash>;

template <class Hash> static bool is_same(const weighed<Hash> &tried, const std::unordered_map<std::uint64_t, std::uint64_t> &stored) {
    std::uint64_t sum = 0;
    for (const auto &[key, value] : tried) {
        auto at = stored.find(key);
        if (at == stored.end() || at->second != value) return false;
        sum += value % 8;
    }
    return sum == tried.weight() && sum <= tried.max_weight() && stored.size() == tried.size() && tried.size() <= tried.capacity();
}

// As many stay as there may be, and all if that is enough; the limit of the weights stays.
template <class Hash> static void resize_at_random(weighed<Hash> &tried, std::size_t capacity, std::uint64_t draw) {
    std::size_t before = tried.size(), next = 1 + (draw >> 8) % (draw % 4 == 0 ? 2 * capacity : capacity);
    std::uint64_t weight = tried.weight(), most = tried.max_weight();
    tried.resize(next);
    must(tried.capacity() == next && tried.size() == std::min(before, next), "its capacity is the new one");
    must(before > next || tried.weight() == weight, "if it is enough, all stay");
    must(tried.max_weight() == most && tried.weight() <= most, "the limit of the weights stays");
}

template <class Hash> static void weights(std::size_t capacity, std::uint64_t most, long calls) {
    weighed<Hash> tried(capacity, most);
    std::unordered_map<std::uint64_t, std::uint64_t> stored;
    auto take = [&stored](auto left) { must(!left || stored.erase(left.key()) == 1, "what leaves was there"); };
    std::uint64_t state = capacity + most;
    for (long call = 0; call < calls; call++) {
        std::uint64_t draw = drawn(state) >> 8, key = (draw >> 8) % (3 * capacity), value = 8 * static_cast<std::uint64_t>(call) + draw % 9;
        if (draw % 16 == 0) take(tried.evict());
        else if (draw % 16 == 1) take(tried.extract(key));
        else if (draw % 16 < 5) tried.get(key);
        else if (draw % 997 == 0) tried.clear(), stored.clear();
        else if (draw % 101 == 0 || draw % 103 == 0) {
            if (draw % 101 == 0) tried.set_max_weight(most / (1 + draw % 2));
            else resize_at_random(tried, capacity, draw >> 20);
            for (auto it = stored.begin(); it != stored.end();) it = tried.contains(it->first) ? std::next(it) : stored.erase(it);
        } else if (tried.push(key, value, take)) {
            must(stored.emplace(key, value).second && *tried.peek(key) == value, "it is stored");
        } else {
            must(value % 8 > tried.max_weight(), "what isn't stored is too heavy");
        }
        if (call % 61 == 0) must(is_same(tried, stored), "the map and its sum");
    }
    must(is_same(tried, stored), "the map and its sum");
    for (std::size_t refused : {std::size_t{0}, std::size_t{CLOCK2Q_MAX_CAPACITY} + 1, SIZE_MAX}) {
        must(is_refused([&] { tried.resize(refused); }) && is_same(tried, stored), "a capacity that is refused changes nothing");
    }
    auto moved = std::move(tried);
    must(is_refused([&] { tried.resize(1); }) && is_same(moved, stored), "a cache that was moved from");
}

// Each entry stays where it is and keeps its weight in a larger cache, and the next to leave leave a smaller one.
static void weights_are_kept_by_a_resize() {
    weighted_cache<int, std::uint64_t> tried(4, 100, [](int, std::uint64_t weight) { return weight; });
    for (int key = 0; key < 4; key++) tried.put(key, 10u + static_cast<unsigned>(key));
    const std::uint64_t *third = tried.peek(2);
    tried.resize(9);
    must(tried.peek(2) == third && tried.size() == 4 && tried.weight() == 46, "a larger cache");
    for (int key = 4; key < 9; key++) must(tried.put(key, 1u), "it has room");
    must(tried.size() == 9 && tried.weight() == 51, "for more entries");
    for (int key = 0; key < 4; key++) tried.erase(key);
    must(tried.weight() == 5, "each had its own weight");
    tried.resize(2);
    must(tried.size() == 2 && tried.weight() == 2 && tried.max_weight() == 100, "a smaller cache");
    tried.put(9, 50u);
    must(tried.size() == 2 && tried.weight() == 51 && tried.contains(9), "in which another leaves for a new entry");
    tried.clear();
    tried.resize(9);
    for (int key = 0; key < 9; key++) tried.put(key, 11u);
    must(tried.size() == 9 && tried.weight() == 99, "and as large again");
}

static void few_leave() {
    weighted_cache<int, std::uint64_t> tried(1000, 100, [](int, std::uint64_t weight) { return weight; });
    std::vector<int> gone;
    auto note = [&gone](auto left) { gone.push_back(left.key()); };
    for (int key = 0; key < 10; key++) tried.push(key, 10u, note);
    must(gone.empty() && tried.weight() == 100, "no entry leaves for one that fits");
    must(tried.push(10, 35u, note) && gone.size() == 4 && tried.weight() == 95, "as few as need to");
    gone.clear();
    must(!tried.put(11, 101u) && tried.weight() == 95 && !tried.contains(11), "one that is too heavy isn't stored");
    must(tried.push(10, 36u, note) && gone == std::vector<int>{10} && tried.weight() == 96, "its own entry leaves");
    auto moved = std::move(tried);
    must(tried.empty() && tried.weight() == 0 && !tried.get(10) && moved.weight() == 96, "moved");
    tried.clear();
    tried = std::move(moved);
    must(tried.weight() == 96 && *tried.get(10) == 36 && tried.hits() == 1, "and moved back");
    tried.set_max_weight(36);
    must(tried.weight() <= 36, "a smaller limit");
    weighted_cache<int, std::uint64_t> heaviest(10, UINT64_MAX, [](int, std::uint64_t weight) { return weight; });
    for (int key = 0; key < 20; key++) must(heaviest.put(key, UINT64_MAX - static_cast<unsigned>(key)) && heaviest.size() == 1, "no sum is too large");
}

// A weigher that throws changes nothing, and one that uses the cache finds a whole one.
static void weighers() {
    weighted_cache<std::string, int> *called = nullptr;
    auto weigh = [&called](const std::string &, int value) -> std::uint64_t {
        if (value == 13) throw std::runtime_error("thirteen");
        if (value == 14) called->put("from a weigher", 3), called->set_max_weight(10);
        if (value == 9 || value == 8) called->resize(value == 9 ? 1000 : 1);
        return static_cast<std::uint64_t>(value);
    };
    weighted_cache<std::string, int> tried(10, 100, weigh);
    called = &tried;
    tried.put("one", 60);
    for (const char *key : {"one", "two"}) {
        try {
            tried.put(key, 13);
            must(false, "it throws");
        } catch (const std::runtime_error &) {
        }
        must(tried.size() == 1 && tried.weight() == 60 && *tried.peek("one") == 60, "nothing has changed");
    }
    must(!tried.put("two", 14) && tried.weight() == 3 && tried.contains("from a weigher"), "a weigher that lowers the limit");
    must(tried.put("three", 9) && tried.capacity() == 1000 && tried.weight() == 9, "a weigher that has the cache grow");
    tried.put("one", 1);
    must(tried.put("two", 8) && tried.size() == 1 && tried.weight() == 8, "and one that has it shrink");
    weighted_cache<int, std::unique_ptr<int>> owners(2, 10, [](int, const auto &value) { return static_cast<std::uint64_t>(*value); });
    must(owners.put(1, std::make_unique<int>(5)) && owners.put(2, std::make_unique<int>(6)) && owners.size() == 1, "values that are only moved");
}

int main(int, char **arguments) {
    long calls = arguments[1] != nullptr ? std::strtol(arguments[1], nullptr, 10) : 20000;
    for (std::size_t capacity : {1, 2, 3, 10, 100, 1000}) {
        resized<good>(capacity, calls);
        resized<two_bits>(capacity, calls);
        resized<constant>(capacity, calls);
        for (std::uint64_t most : {std::uint64_t{0}, std::uint64_t{1}, std::uint64_t{7}, 2 * std::uint64_t{capacity}, 10 * std::uint64_t{capacity}}) {
            weights<good>(capacity, most, calls / 2);
            weights<two_bits>(capacity, most, calls / 2);
            weights<constant>(capacity, most, calls / 2);
        }
    }
    smaller_is_useful();
    larger_is_useful();
    for (std::size_t capacity : {1, 2, 10, 100, 1000}) {
        order_is_kept<good>(capacity);
        order_is_kept<two_bits>(capacity);
        order_is_kept<constant>(capacity);
    }
    what_left_is_remembered();
    longer_history_admits_a_longer_loop();
    weights_are_kept_by_a_resize();
    few_leave();
    weighers();
    return failed;
}
