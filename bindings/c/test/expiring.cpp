// clock2q.hpp: entries that expire, by a clock that the tests turn, and what listeners hear; keys, values and listeners
// that call the cache; threads. usage: expiring [CALLS]
#include "clock2q.hpp"

#include <cstdio>
#include <cstdlib>
#include <map>
#include <memory>
#include <mutex>
#include <optional>
#include <string>
#include <thread>
#include <vector>

using clock2q::cache;
using clock2q::expiring_cache;
using clock2q::listening_cache;
using clock2q::listening_weighted_cache;
using clock2q::reason;

static int failed = 0;

static void must(bool holds, const char *what) {
    if (holds) return;
    std::printf("expiring: %s\n", what);
    failed = 1;
}

template <class Call> static bool is_refused(Call call) {
    try {
        call();
    } catch (const std::invalid_argument &) {
        return true;
    }
    return false;
}

static std::uint64_t drawn(std::uint64_t &state) {
    state ^= state << 13;
    state ^= state >> 7;
    return state ^= state << 17;
}

// A clock that is turned.
struct turned {
    using duration = std::chrono::seconds;
    using rep = duration::rep;
    using period = duration::period;
    using time_point = std::chrono::time_point<turned>;
    static constexpr bool is_steady = true;
    static inline thread_local time_point at{};
    static time_point now() noexcept { return at; }
    static void turn(int seconds) { at += duration(seconds); }
};

constexpr std::chrono::seconds five(5);

// What a listener has heard.
struct heard {
    std::string key;
    int value;
    reason why;
    bool operator==(const heard &other) const { return key == other.key && value == other.value && why == other.why; }
};
using list = std::vector<heard>;

static auto into(list &left) {
    return [&left](const std::string &key, int &value, reason why) { left.push_back({key, value, why}); };
}

using listener = std::function<void(const std::string &, int &, reason)>;

static void reasons() {
    list left;
    listening_cache<std::string, int> words(2, into(left));
    words.put("a", 1);
    words.put("a", 2);
    must(left == list{{"a", 1, reason::replaced}}, "a value that is replaced is heard");
    words.insert_or_assign("a", 3);
    must(left.size() == 1, "an assignment isn't");
    words.erase("a");
    auto node = (words.put("b", 4), words.extract("b"));
    must(left.back() == heard{"b", 4, reason::removed} && left[1] == heard{"a", 3, reason::removed}, "what is removed is");
    must(node.key() == "b" && node.mapped() == 4, "and handed over");
    node = {};
    words.put("c", 5);
    words.evict();
    must(left.back() == heard{"c", 5, reason::evicted} && left.size() == 4, "what is evicted is, once");
    words.put("d", 6);
    node = words.push("d", 7);
    must(left.back() == heard{"d", 6, reason::replaced} && node.mapped() == 6, "what push returns is");
    words.put("e", 8);
    words.resize(1);
    must(left.size() == 6 && left.back().why == reason::evicted, "what leaves a smaller cache is");
    words.resize(3);
    for (const char *key : {"x", "y"}) words.put(key, 1);
    words.resize(1);
    must(left.size() == 8 && left[6].key == "x" && left[7].key == "e", "in the order in which it leaves");
    words.erase(words.begin());
    must(left.size() == 9 && left.back().why == reason::removed, "what leaves by its position is");
    words.put("f", 9);
    words.clear();
    must(left.back() == heard{"f", 9, reason::cleared}, "what is cleared is");
    words.put("g", 10);
    { listening_cache<std::string, int> taken(std::move(words)); }
    must(left.size() == 10, "a cache that is destroyed says nothing");
}

// The reasons of one whose entries have weights. The weight is right whenever the listener is called.
static void reasons_with_weights() {
    list left;
    listening_weighted_cache<std::string, int> *words = nullptr;
    auto weigh = [](const std::string &, int value) { return static_cast<std::uint64_t>(value); };
    auto hear = [&](const std::string &key, int value, reason why) {
        left.push_back({key, value, why});
        std::uint64_t sum = 0;
        for (const auto &entry : *words) sum += static_cast<std::uint64_t>(entry.second);
        must(sum == words->weight(), "the cache is whole");
    };
    listening_weighted_cache<std::string, int> made(10, clock2q::policy{2, 1}, 20, weigh, hear);
    words = &made;
    made.put("a", 5);
    made.put("a", 6);
    must(left == list{{"a", 5, reason::replaced}}, "what is replaced is heard");
    must(!made.put("a", 21) && left.size() == 1, "what is too heavy isn't");
    made.put("b", 7);
    made.put("c", 8);
    must(left.size() == 2 && left[1].why == reason::evicted && made.weight() <= 20, "what leaves for a weight is");
    std::size_t before = left.size(), handed = 0;
    made.push("d", 20, [&](auto gone) { must(left[before + handed++].key == gone.key(), "what push hands over is, before"); });
    must(handed == 2 && left.size() == before + 2 && left.back().why == reason::evicted, "each of them");
    made.put("d", 19);
    must(left.back() == heard{"d", 20, reason::replaced}, "an entry that leaves for its own new value is replaced");
    must(made.extract("d").mapped() == 19 && left.back() == heard{"d", 19, reason::removed}, "what is removed is");
    made.put("e", 3);
    must(made.evict().key() == "e" && left.back() == heard{"e", 3, reason::evicted}, "what is evicted is");
    made.put("f", 4);
    made.set_max_weight(3);
    must(left.back() == heard{"f", 4, reason::evicted}, "what leaves a smaller limit is");
    for (const char *key : {"i", "j", "k"}) made.put(key, 1);
    before = left.size();
    made.resize(1);
    must(left.size() == before + 2 && left.back().why == reason::evicted && made.size() == 1, "what leaves a smaller cache is");
    must(left[before].key == "i" && left[before + 1].key == "j", "in the order in which it leaves");
    made.resize(30);
    must(left.size() == before + 2 && made.weight() == 1, "none leaves a larger one");
    made.erase("k");
    made.put("g", 2);
    made.clear();
    must(left.back() == heard{"g", 2, reason::cleared}, "what is cleared is");
    made.put("h", 1);
    before = left.size();
    { auto taken = std::move(made); }
    must(left.size() == before, "a cache that is destroyed says nothing");
}

// A listener that stores and removes in a cache with weights.
static void a_listener_that_weighs() {
    std::uint64_t calls = 0, state = 5;
    listening_weighted_cache<std::uint64_t, std::uint64_t> *words = nullptr;
    auto weigh = [](std::uint64_t, std::uint64_t value) { return value % 8; };
    listening_weighted_cache<std::uint64_t, std::uint64_t> made(20, 60, weigh, [&](std::uint64_t key, std::uint64_t value, reason) {
        calls++;
        std::uint64_t sum = 0;
        for (const auto &entry : *words) sum += entry.second % 8;
        must(sum == words->weight() && sum <= 60 && words->size() <= words->capacity(), "the cache is whole");
        if (value % 3 == 0) words->put(key + 1, value + 1);
        if (value % 11 == 0) words->erase(key + 2);
        if (value % 101 == 0) words->clear();
    });
    words = &made;
    for (std::uint64_t i = 0; i < 3000; i++) {
        std::uint64_t key = drawn(state) % 50;
        if (i % 7 == 0) made.erase(key);
        else if (i % 13 == 0) made.evict();
        else if (i % 17 == 0) made.resize(10 + drawn(state) % 30);
        else made.put(key, drawn(state) % 1000);
    }
    must(calls > 2000, "it was called");
}

struct constant {
    std::size_t operator()(const std::string &) const { return 42; }
};

static void seventeen_of_one_hash() {
    list left;
    listening_cache<std::string, int, listener, constant> words(40, into(left));
    for (int i = 0; i < 17; i++) words.put(std::to_string(i), i);
    must(left.size() == 1 && left[0].why == reason::evicted, "the one that gives way is heard");
}

// A listener that stores, removes and clears, and sees a whole cache.
static void a_listener_that_calls() {
    std::size_t calls = 0;
    listening_cache<std::string, int> *words = nullptr;
    listening_cache<std::string, int> made(5, [&](const std::string &key, int &value, reason) {
        calls++;
        std::size_t count = 0;
        for (const auto &entry : *words) count += words->peek(entry.first) == &entry.second;
        must(count == words->size() && count <= 5, "the cache is whole");
        if (value > 0) words->put(key, value - 1);
        if (value == 3) words->clear();
        if (value == 2) words->erase(key);
    });
    words = &made;
    for (int i = 0; i < 500; i++) {
        made.put(std::to_string(i % 40), i % 5);
        made.get(std::to_string(i % 7));
    }
    made.clear();
    must(calls > 500, "it was called");
}

// A value that is counted, and can only be moved.
static long alive;
struct counted {
    explicit counted(int given) : number(new int(given)) { alive++; }
    counted(counted &&other) noexcept : number(std::move(other.number)) { alive++; }
    ~counted() { alive--; }
    std::unique_ptr<int> number;
};

// What was stored is there or was heard, once; none but what was stored is, also if Equal throws.
struct throws_at_times {
    bool operator()(const std::string &one, const std::string &other) const {
        if (++calls % 50 == 0) throw std::bad_alloc();
        return one == other;
    }
    static inline std::size_t calls = 0;
};

static void each_is_heard_once(std::uint64_t calls) {
    std::uint64_t state = 1, stored = 0, left = 0;
    {
        auto count = [&left](const std::string &, counted &, reason) { left++; };
        cache<std::string, counted, std::hash<std::string>, throws_at_times, decltype(count)> words(10, count);
        for (std::uint64_t i = 0; i < calls; i++) {
            std::string key = std::to_string(drawn(state) % 25);
            try {
                switch (drawn(state) % 8) {
                case 0: words.erase(key); break;
                case 1: words.evict(); break;
                case 2: stored += words.try_emplace(key, 1).second; break;
                case 3: words.push(key, counted(2)), stored++; break;
                case 4: if (i % 64 == 0) words.clear(); break;
                default: words.put(key, counted(3)), stored++; break;
                }
            } catch (const std::bad_alloc &) {
            }
            must(stored == left + words.size(), "each entry is there or was heard");
        }
    }
    must(alive == 0, "all values are destroyed");
}

static void times() {
    list left;
    expiring_cache<std::string, int, turned, listener> words(10, five, into(left));
    words.put("a", 1);
    turned::turn(4);
    must(words.get("a") != nullptr && *words.peek("a") == 1 && words.ttl() == five, "a value is there until its time is over");
    turned::turn(1);
    must(words.peek("a") == nullptr && !words.contains("a") && words.size() == 1, "then it isn't found");
    int seen = 0;
    words.for_each([&](const std::string &, int) { seen++; });
    must(seen == 0 && left.empty(), "nor shown");
    must(words.get("a") == nullptr && left == list{{"a", 1, reason::expired}} && words.size() == 0, "and leaves when it is met");
    must(words.hits() == 1 && words.misses() == 1, "which is a miss");
    words.put("b", 2);
    turned::turn(5);
    auto [value, is_new] = words.try_emplace("b", 3);
    must(is_new && *value == 3 && left.back() == heard{"b", 2, reason::expired}, "another takes its place");
    turned::turn(3);
    words.put("b", 4);
    must(left.back() == heard{"b", 3, reason::replaced}, "which is replaced before its time is over");
    turned::turn(4);
    must(*words.get("b") == 4, "by one with its own time");
    must(*words.get_or_insert_with("b", [] { return turned::turn(3), 5; }).first == 4, "get_or_insert_with finds it");
    turned::turn(1);
    must(words.erase("b") == 0 && left.back() == heard{"b", 4, reason::expired}, "erase of what has expired removes nothing");
    words.get_or_insert_with("c", [] { return turned::turn(3), 5; });
    turned::turn(4);
    must(words.contains("c"), "a time begins once the value is made");
    words.put("d", 6);
    turned::turn(1);
    must(words.expire() == 1 && words.size() == 1 && left.back() == heard{"c", 5, reason::expired}, "expire takes out what has expired");
    must(words.evict() && left.back() == heard{"d", 6, reason::evicted} && !words.evict(), "evict takes out the next");
    must(is_refused([] { expiring_cache<int, int> none(10, std::chrono::seconds(0)); }), "a ttl of 0 is refused");
    must(is_refused([] { expiring_cache<int, int> none(0, five); }), "as a capacity of 0 is");
    expiring_cache<std::string, int, turned, listener> taken(std::move(words));
    must(words.get("d") == nullptr && words.peek("d") == nullptr && words.expire() == 0 && words.erase("d") == 0, "none is left behind");
}

// Random calls beside a map of times: where nothing is evicted both hold the same.
template <class Key, class Make> static void beside_a_map(std::uint64_t calls, Make make) {
    expiring_cache<Key, std::uint64_t, turned> ours(40, five);
    std::map<int, std::pair<turned::time_point, std::uint64_t>> theirs;
    std::uint64_t state = 7;
    for (std::uint64_t i = 0; i < calls; i++) {
        if (drawn(state) % 3 == 0) turned::turn(1);
        int number = static_cast<int>(drawn(state) % 12);
        Key key = make(number);
        auto held = theirs.find(number);
        if (held != theirs.end() && !(turned::now() < held->second.first)) {
            theirs.erase(held);
            held = theirs.end();
        }
        const std::uint64_t *expected = held == theirs.end() ? nullptr : &held->second.second, *found = nullptr;
        switch (drawn(state) % 6) {
        case 0: ours.put(key, i), theirs[number] = {turned::now() + five, i}; continue;
        case 1: must(ours.erase(key) == (expected != nullptr), "erase removes what is there"), theirs.erase(number); continue;
        case 2: found = ours.get(key); break;
        case 3: found = ours.peek(key); break;
        case 4: {
            auto [value, is_new] = ours.try_emplace(key, i);
            must(is_new == (expected == nullptr) && *value == (is_new ? i : *expected), "try_emplace finds what is there");
            if (is_new) theirs[number] = {turned::now() + five, i};
            continue;
        }
        default: {
            ours.expire();
            std::size_t live = 0;
            for (const auto &it : theirs) live += turned::now() < it.second.first;
            must(ours.size() == live, "expire leaves what hasn't expired");
            continue;
        }
        }
        must(found == nullptr ? expected == nullptr : expected != nullptr && *found == *expected, "the same is found");
    }
}

// In a full cache no value is returned past its time, whoever leaves.
static void full(std::uint64_t calls) {
    std::size_t left = 0, stored = 0;
    auto count = [&left](const std::uint64_t &, turned::time_point &, reason) { left++; };
    expiring_cache<std::uint64_t, turned::time_point, turned, decltype(count)> ours(20, five, count);
    std::uint64_t state = 3;
    for (std::uint64_t i = 0; i < calls; i++) {
        if (drawn(state) % 8 == 0) turned::turn(1);
        std::uint64_t key = drawn(state) % 60;
        auto *found = ours.get(key);
        must(found == nullptr || turned::now() < *found, "no value is returned past its time");
        if (found == nullptr) ours.put(key, turned::now() + five), stored++;
        must(stored == left + ours.size(), "each is there or was heard");
    }
}

// Each thread has a cache of its own, and all share one under a lock, which its listener finds free.
static void threads(std::uint64_t calls) {
    std::mutex lock, other;
    std::size_t left = 0, stored = 0;
    listening_cache<int, int> shared(20, [&](const int &, int &, reason) {
        std::lock_guard<std::mutex> guard(other);
        left++;
    });
    auto work = [&](std::uint64_t state) {
        full(calls / 10);
        for (std::uint64_t i = 0; i < calls / 10; i++) {
            std::lock_guard<std::mutex> guard(lock);
            shared.put(static_cast<int>(drawn(state) % 60), 1), stored++;
        }
    };
    std::vector<std::thread> all;
    for (std::uint64_t seed = 1; seed <= 4; seed++) all.emplace_back(work, seed);
    for (auto &thread : all) thread.join();
    must(stored == left + shared.size(), "each is there or was heard");
}

int main(int count, char **words) {
    std::uint64_t calls = count > 1 ? std::strtoull(words[1], nullptr, 10) : 100000;
    reasons();
    seventeen_of_one_hash();
    a_listener_that_calls();
    reasons_with_weights();
    a_listener_that_weighs();
    each_is_heard_once(calls);
    times();
    beside_a_map<std::string>(calls, [](int number) { return std::to_string(number); });
    beside_a_map<int>(calls, [](int number) { return number; });
    full(calls);
    threads(calls);
    return failed;
}
