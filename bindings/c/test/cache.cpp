// clock2q.hpp: its caches against std::unordered_map and the library's own choices of who leaves, with good
// and bad hashers; keys and values that throw, that call the cache, that can't be moved; what is constructed
// and destroyed; caches that were moved from. usage: cache [CALLS]
#include "clock2q.hpp"

#include <cstdio>
#include <cstdlib>
#include <ctime>
#include <memory>
#include <optional>
#include <string>
#include <string_view>
#include <thread>
#include <unordered_map>
#include <vector>

using clock2q::cache;
using clock2q::page_cache;
using clock2q::token_cache;

static int failed = 0;

static void must(bool holds, const char *what) {
    if (holds) return;
    std::printf("cache: %s\n", what);
    failed = 1;
}

template <class Error, class Call> static void must_throw(Call call, const char *what) {
    try {
        call();
    } catch (const Error &) {
        return;
    }
    must(false, what);
}

static std::uint64_t drawn(std::uint64_t &state) {
    state ^= state << 13;
    state ^= state >> 7;
    return state ^= state << 17;
}

// ---- keys and values that are counted, and throw on request ----

struct refused {};

static long alive;        // objects that were constructed and not destroyed
static long until_throw;  // calls of users' code until one throws; none does, below 0

static void count_call() {
    if (until_throw == 0) throw refused();
    if (until_throw > 0) until_throw--;
}

struct counted {
    std::uint64_t number;
    counted(std::uint64_t given) : number(given) { began(); }
    counted(const counted &other) : number(other.number) { began(); }
    counted(counted &&other) : number(std::exchange(other.number, 0)) { began(); }
    counted &operator=(const counted &other) {
        count_call();
        number = other.number;
        return *this;
    }
    ~counted() { alive--; }
    static void began() {
        count_call();
        alive++;
    }
};

struct counted_equal {
    bool operator()(const counted &one, const counted &other) const {
        count_call();
        return one.number == other.number;
    }
};

// ---- random calls against a model ----

struct good {
    std::size_t operator()(const counted &key) const {
        count_call();
        return key.number * 0xBF58476D1CE4E5B9u;
    }
};
struct two_bits {
    std::size_t operator()(const counted &key) const { return key.number & 3; }
};
struct constant {
    std::size_t operator()(const counted &) const { return 42; }
};

// What has to be there: the library says which key has which slot, and the rest is a map.
template <class Hash> struct model {
    token_cache slots;
    std::vector<std::optional<std::uint64_t>> key_at;
    std::unordered_map<std::uint64_t, std::uint64_t> map, slot_of;
    std::unordered_map<std::uint64_t, std::vector<std::uint64_t>> alike; // by hash, the newest last
    explicit model(std::size_t capacity) : slots(capacity), key_at(capacity) {}

    void hit(std::uint64_t key) {
        if (map.count(key)) slots.hit(slot_of[key]);
    }

    // Returns the key that leaves.
    std::optional<std::uint64_t> insert(std::uint64_t key, std::uint64_t value) {
        std::optional<std::uint64_t> left;
        std::uint64_t hash = Hash()(key);
        if (map.count(key)) {
            hit(key);
            forget(left = key);
        } else {
            clock2q_admitted admitted = slots.admit(hash);
            if (!admitted.has_entered) {
                if (alike[hash].size() == 16) {
                    left = alike[hash].front();
                    erase(*left);
                }
                admitted.slot = slots.enter_beside(hash);
            }
            slot_of[key] = admitted.slot;
            if (key_at[admitted.slot]) forget(left = key_at[admitted.slot]);
        }
        key_at[slot_of[key]] = key;
        alike[hash].push_back(key);
        map[key] = value;
        return left;
    }

    void forget(std::optional<std::uint64_t> key) {
        auto &same = alike[Hash()(*key)];
        same.erase(std::find(same.begin(), same.end(), *key));
        map.erase(*key);
    }

    bool erase(std::uint64_t key) {
        if (!map.count(key)) return false;
        forget(key);
        key_at[slot_of[key]].reset();
        return slots.erase(slot_of[key]);
    }

    // Returns the key that leaves.
    std::optional<std::uint64_t> evict() {
        clock2q_found found = slots.evict();
        if (!found.is_found) return {};
        std::optional<std::uint64_t> left = std::exchange(key_at[found.slot], {});
        forget(left);
        return left;
    }

    // Keys stay where they are, in their order.
    void grow(std::size_t capacity) {
        slots.grow(capacity);
        key_at.resize(capacity);
    }

    void clear() {
        slots.clear();
        map.clear();
        alike.clear();
        for (auto &key : key_at) key.reset();
    }
};

template <class Hash> using counted_cache = cache<counted, counted, Hash, counted_equal>;

template <class Hash> static bool is_modelled(const counted_cache<Hash> &tried, const model<Hash> &wanted) {
    std::size_t seen = 0;
    for (const auto &[key, value] : tried) {
        auto at = wanted.map.find(key.number);
        if (at == wanted.map.end() || at->second != value.number) return false;
        seen++;
    }
    return seen == wanted.map.size() && seen == tried.size() && alive == 2 * static_cast<long>(seen);
}

// One random call on both; false if they differ.
template <class Hash>
static bool agrees_on_call(counted_cache<Hash> &tried, model<Hash> &wanted, std::uint64_t draw, std::uint64_t value) {
    std::uint64_t key = (draw >> 8) % (2 * tried.capacity() + 2);
    auto known = wanted.map.find(key);
    bool is_known = known != wanted.map.end();
    std::uint64_t before = is_known ? known->second : 0;
    switch (draw % 16) {
    case 0: return tried.erase(key) == (wanted.erase(key) ? 1 : 0);
    case 1: {
        if (value % 4 == 0) {
            auto gone = wanted.evict();
            auto next = tried.next_victim();
            if (gone ? next == tried.end() || next->first.number != *gone : next != tried.end()) return false;
            auto left = tried.evict();
            return gone ? left && left.key().number == *gone : left.empty();
        }
        auto left = tried.extract(key);
        return wanted.erase(key) ? left && left.key().number == key && left.mapped().number == before : left.empty();
    }
    case 2:
    case 3: {
        const counted *found = tried.peek(key);
        return tried.contains(key) == is_known && (is_known ? found != nullptr && found->number == before : !found);
    }
    case 4:
    case 5: {
        wanted.hit(key);
        if (!is_known) wanted.insert(key, value);
        auto [at, is_new] = tried.try_emplace(key, value);
        return is_new != is_known && at->number == (is_known ? before : value);
    }
    case 6:
    case 7: {
        wanted.hit(key);
        if (is_known) known->second = value;
        else wanted.insert(key, value);
        auto [at, is_new] = tried.insert_or_assign(key, counted(value));
        return is_new != is_known && at->number == value;
    }
    case 8:
        wanted.insert(key, value);
        tried.put(key, value);
        return true;
    case 9: {
        auto gone = wanted.insert(key, value);
        auto left = tried.push(key, value);
        return gone ? left && left.key().number == *gone : left.empty();
    }
    case 10: {
        wanted.hit(key);
        auto at = tried.find(key);
        if (!is_known) return at == tried.end();
        if (at->first.number != key || at->second.number != before) return false;
        if (value % 4 == 0) tried.erase(at), wanted.erase(key);
        return true;
    }
    case 11: {
        wanted.hit(key);
        if (!is_known) wanted.insert(key, value);
        auto [at, is_new] = tried.get_or_insert_with(key, [value] { return counted(value); });
        return is_new != is_known && at->number == (is_known ? before : value);
    }
    case 12: {
        wanted.hit(key);
        try {
            return tried.at(key).number == before && is_known;
        } catch (const std::out_of_range &) {
            return !is_known;
        }
    }
    default: {
        wanted.hit(key);
        const counted *found = tried.get(key);
        return is_known ? found != nullptr && found->number == before : found == nullptr;
    }
    }
}

template <class Hash> static void random_calls(std::size_t capacity, long calls, const char *name) {
    counted_cache<Hash> tried(capacity);
    model<Hash> wanted(capacity);
    std::uint64_t state = capacity + 1;
    for (long call = 0; call < calls; call++) {
        std::uint64_t draw = drawn(state);
        if (draw % 50021 == 0) {
            tried.clear();
            wanted.clear();
        }
        if (draw % 1009 == 0 && tried.capacity() < 2 * capacity) {
            tried.resize(tried.capacity() + 1 + capacity / 8);
            wanted.grow(tried.capacity());
        }
        bool agrees = agrees_on_call(tried, wanted, draw >> 8, static_cast<std::uint64_t>(call));
        if (call % 997 == 0) agrees = agrees && is_modelled(tried, wanted);
        if (!agrees || tried.size() != wanted.map.size() || tried.size() > tried.capacity()) return must(false, name);
    }
    must(is_modelled(tried, wanted), name);
}

// ---- what throws leaves all as it was ----

static void each_call_refused() {
    for (std::uint64_t kind = 0; kind < 16; kind++) {
        counted_cache<good> tried(3);
        model<good> wanted(3);
        for (std::uint64_t key = 0; key < 4; key++) tried.put(key, key), wanted.insert(key, key);
        for (std::uint64_t key = 0; key < 8; key++) {
            for (long allowed = 0;; allowed++) {
                counted given(key), value(100 + key);
                bool has_thrown = false;
                until_throw = allowed;
                try {
                    switch (kind % 6) {
                    case 0: tried.get(given); break;
                    case 1: tried.insert_or_assign(given, value); break;
                    case 2: tried.try_emplace(given, value); break;
                    case 3: tried.put(given, value); break;
                    case 4: tried.erase(given); break;
                    default: tried.get_or_insert_with(given, [&value] { return value; });
                    }
                } catch (const refused &) {
                    has_thrown = true;
                }
                until_throw = -1;
                alive -= 2; // the two above
                if (has_thrown) must(is_modelled(tried, wanted), "a call that throws leaves what was there");
                alive += 2;
                if (!has_thrown) break;
            }
            if (kind % 6 == 4) wanted.erase(key);
            else if (kind % 6 != 0 && !wanted.map.count(key)) wanted.hit(key), wanted.insert(key, 100 + key);
            else if (kind % 6 == 1) wanted.hit(key), wanted.map[key] = 100 + key;
            else if (kind % 6 == 3) wanted.insert(key, 100 + key);
            else wanted.hit(key);
            must(is_modelled(tried, wanted), "the call that doesn't throw is made once");
        }
    }
}

// ---- users' code that calls the cache ----

struct caller;
struct caller_equal {
    bool operator()(const caller &one, const caller &other) const;
};
struct caller_hash {
    std::size_t operator()(const caller &key) const;
};
struct caller_value;
using called_cache = cache<caller, caller_value, caller_hash, caller_equal>;

static called_cache *called;
static int equal_calls, value_calls; // how often the next ones call the cache
static std::function<void()> what_is_called;

static void call_now(int &calls) {
    if (calls == 0) return;
    calls--;
    what_is_called();
}

struct caller {
    std::string text;
};
struct caller_value {
    std::string text;
    explicit caller_value(std::string given) : text(std::move(given)) { call_now(value_calls); }
    caller_value(const caller_value &) = delete;
    ~caller_value() { call_now(value_calls); }
};
bool caller_equal::operator()(const caller &one, const caller &other) const {
    bool is_same = one.text == other.text;
    call_now(equal_calls);
    return is_same;
}
std::size_t caller_hash::operator()(const caller &key) const { return std::hash<std::string>()(key.text); }

struct constant_hash {
    std::size_t operator()(const std::string &) const { return 42; }
};

static std::string text_of(int number) { return "a text of more than sixteen bytes, " + std::to_string(number); }

static void fill(int first, int end) {
    for (int i = first; i < end; i++) called->try_emplace({text_of(i)}, text_of(i));
}

static bool is_whole() {
    std::size_t seen = 0;
    for (const auto &[key, value] : *called) {
        const caller_value *found = called->peek(key);
        if (key.text != value.text || found != &value) return false;
        seen++;
    }
    return seen == called->size() && seen <= called->capacity();
}

static void calls_from_equal() {
    called_cache tried(8);
    called = &tried;
    fill(0, 8);
    what_is_called = [] { called->clear(); };
    equal_calls = 1;
    must(tried.get({text_of(3)}) == nullptr && tried.size() == 0, "Equal clears the cache");
    fill(0, 8);
    what_is_called = [] { fill(100, 120); };
    equal_calls = 1;
    tried.try_emplace({text_of(3)}, text_of(3));
    must(is_whole() && tried.contains({text_of(3)}), "Equal inserts");
    what_is_called = [] { called->erase({text_of(3)}); };
    equal_calls = 1;
    must(tried.erase({text_of(3)}) == 0 && is_whole(), "Equal erases");
    fill(3, 4);
    int number = 200;
    what_is_called = [&number] {
        int calls = std::exchange(equal_calls, 0);
        number++;
        fill(number, number + 1);
        fill(3, 4);
        equal_calls = calls;
    };
    equal_calls = 100;
    must_throw<std::logic_error>([&] { tried.get({text_of(3)}); }, "Equal that always changes the cache");
    equal_calls = 0;
    must(is_whole() && number == 208, "it is called eight times");
}

static void calls_from_values() {
    called_cache tried(4);
    called = &tried;
    fill(0, 4);
    what_is_called = [] { fill(50, 60); };
    for (int i = 0; i < 200; i++) {
        value_calls = 1 + i % 3;
        tried.try_emplace({text_of(i % 70)}, text_of(i % 70));
        value_calls = i % 2;
        tried.erase({text_of(i % 6)});
        must(is_whole(), "values insert");
    }
    value_calls = 3;
    tried.clear();
    value_calls = 0;
    must(is_whole(), "values insert while all leave");
    fill(0, 4);
    what_is_called = [] { called->clear(); };
    for (int i = 0; i < 100; i++) {
        value_calls = i % 4;
        tried.put({text_of(i)}, text_of(i));
        must(is_whole(), "values clear the cache");
    }
    what_is_called = [] { called->try_emplace({text_of(1)}, text_of(1)); };
    value_calls = 1;
    tried.clear();
    tried.try_emplace({text_of(1)}, text_of(1));
    must(is_whole() && tried.size() == 1, "a constructor inserts its own key");
    what_is_called = [] { fill(20, 30); };
    value_calls = 2; // as the cache is destroyed
}

// Equal that has what it compares leave before it compares, and destructors that insert as often as `relays` says.
struct relay;
struct late_equal {
    bool operator()(const std::string &one, const std::string &other) const;
};
using late_cache = cache<std::string, relay, constant_hash, late_equal>;

static late_cache *late;
static int relays; // how often the next ones insert
static bool equal_relays = true;
static int entered;
static void relay_now();

struct relay {
    std::string text = text_of(0);
    relay() = default;
    explicit relay(std::string given) : text(std::move(given)) {}
    relay(const relay &) = delete;
    relay &operator=(const std::string &given) {
        relay_now();
        text = given;
        return *this;
    }
    ~relay() { relay_now(); }
};

static void relay_now() {
    static bool is_relaying = false;
    if (relays == 0 || is_relaying) return;
    relays--;
    is_relaying = true;
    late->try_emplace(text_of(1000 + entered++));
    is_relaying = false;
}

bool late_equal::operator()(const std::string &one, const std::string &other) const {
    if (equal_relays) relay_now();
    return one == other;
}

static void what_is_compared_leaves() {
    for (std::size_t capacity : {1, 2, 3}) {
        for (int i = 0; i < 100; i++) {
            late_cache tried(capacity);
            late = &tried;
            for (std::size_t at = 0; at < capacity; at++) tried[text_of(static_cast<int>(at))];
            const late_cache &reading = tried;
            relays = i % 5;
            switch (i / 5 % 6) {
            case 0: tried.get(text_of(0)); break;
            case 1: reading.contains(text_of(0)); break;
            case 2: tried.erase(text_of(0)); break;
            case 3: tried.push(text_of(0), text_of(7)); break;
            case 4: tried.put(text_of(9), text_of(7)); break;
            default: tried.find(tried.begin()->first);
            }
            relays = i % 6;
            relay *made = tried.try_emplace(text_of(5), text_of(6)).first;
            must(made->text == text_of(6), "the value is the entry's own");
            relays = i % 7;
            relay *assigned = tried.insert_or_assign(text_of(5), text_of(7)).first;
            must(assigned->text == text_of(7), "so it is when it was assigned");
            relays = 0;
            must(tried.peek(text_of(5)) == assigned && tried.size() <= capacity, "the entry is in");
            relays = 2; // as the cache is destroyed
        }
    }
    late_cache tried(1);
    late = &tried;
    tried[text_of(0)];
    relays = 40;
    must_throw<std::logic_error>([&tried] { tried[text_of(0)]; }, "Equal that always inserts");
    equal_relays = false, relays = 40;
    must_throw<std::logic_error>([&tried] { tried[text_of(1)]; }, "destructors that always insert");
    relays = 0;
    must(tried.size() == 1 && !tried.contains(text_of(1)), "the entry isn't in then");
}

// ---- types ----

struct text_hash {
    using is_transparent = void;
    std::size_t operator()(std::string_view text) const { return std::hash<std::string_view>()(text); }
};

struct alignas(64) immovable {
    int number;
    explicit immovable(int given) : number(given) {}
    immovable(const immovable &) = delete;
};

static void kinds_of_types() {
    using plain = cache<std::uint64_t, std::string>;
    static_assert(!std::is_copy_constructible_v<plain> && !std::is_copy_assignable_v<plain>);
    static_assert(std::is_nothrow_move_constructible_v<plain> && std::is_nothrow_move_assignable_v<plain>);
    static_assert(std::is_convertible_v<plain::iterator, plain::const_iterator>);
    static_assert(!std::is_convertible_v<plain::const_iterator, plain::iterator>);

    cache<std::unique_ptr<int>, std::unique_ptr<int>> owners(2);
    auto key = std::make_unique<int>(1);
    auto [value, is_new] = owners.try_emplace(std::move(key), std::make_unique<int>(2));
    must(is_new && **value == 2 && *owners.begin()->first == 1, "keys and values that are only moved");
    auto kept = std::make_unique<int>(3);
    cache<int, std::unique_ptr<int>> by_number(1);
    by_number.put(1, std::make_unique<int>(1));
    must(!by_number.try_emplace(1, std::move(kept)).second && kept != nullptr, "a key that is there takes no argument");
    auto left = by_number.push(2, std::move(kept));
    must(left && left.key() == 1 && *left.mapped() == 1, "who left");
    *by_number.begin()->second = 4;
    must(**by_number.peek(2) == 4, "an iterator leads to the value");

    cache<std::string, immovable, text_hash, std::equal_to<>> texts(10);
    immovable *at = texts.try_emplace("seven", 7).first;
    auto moved = std::move(texts);
    must(moved.get(std::string_view("seven")) == at && at->number == 7, "a value stays where it is");
    must(reinterpret_cast<std::uintptr_t>(at) % 64 == 0, "it is aligned");
    must(moved.contains("seven") && moved.erase(std::string_view("seven")) == 1, "look-ups by another type");

    cache<std::string, const int> constants(2);
    must(*constants.try_emplace("a", 1).first == 1 && constants.at("a") == 1, "values that are const");
    constants.put("a", 2);
    must(constants["a"] == 2 && *std::as_const(constants).peek("a") == 2, "are replaced whole");

    auto by_parity = [](int number) { return static_cast<std::size_t>(number) * 8; };
    cache<int, int, decltype(by_parity)> lambda(3, {1, 1}, by_parity);
    auto other = std::move(lambda);
    other.put(1, 1);
    lambda = std::move(other);
    must(lambda.get(1) != nullptr && lambda.hits() == 1 && lambda.get(2) == nullptr && lambda.misses() == 1, "counts");
}

static void like_a_map() {
    cache<std::string, int> words(10);
    for (const char *word : {"a", "b", "a", "c", "a"}) words[word]++;
    must(words["a"] == 3 && words.size() == 3 && words.hits() == 3 && words.misses() == 3, "operator[]");
    const auto &reading = words;
    must(reading.at("a") == 3 && reading.find("b")->second == 1 && reading.find("z") == reading.end(), "const look-ups");
    must(reading.count("a") == 1 && reading.count("z") == 0 && words.hits() == 3 && words.misses() == 3, "they count nothing");
    must_throw<std::out_of_range>([&] { words.at("z"); }, "at");
    must_throw<std::out_of_range>([&] { reading.at("z"); }, "at of a const cache");
    words.at("a") = 4;
    words.find("b")->second = 5;
    const std::pair<const std::string, int> entry("d", 6);
    must(words.insert(entry).second && !words.insert({"d", 7}).second && *words.peek("d") == 6, "insert");
    must(words.hits() == 6 && words.misses() == 5, "counts");
    must(words.hash_function()("a") == std::hash<std::string>()("a") && words.key_eq()("a", "a"), "what it was made with");
    int made = 0;
    auto make = [&made] { return ++made; };
    must(words.get_or_insert_with("e", make).second && !words.get_or_insert_with("e", make).second && made == 1, "made once");
    must_throw<refused>([&] { words.get_or_insert_with("f", []() -> int { throw refused(); }); }, "make throws");
    must(words.size() == 5 && words.misses() == 6, "it leaves nothing");
    must(erase_if(words, [](const auto &it) { return it.second >= 5; }) == 2 && words.size() == 3, "erase_if");
    std::size_t seen = 0;
    for (auto it = words.begin(); it != words.end(); seen++) it = words.erase(it);
    must(seen == 3 && words.empty(), "an iterator goes on behind what it erases");
    words["g"] = 1;
    auto left = words.extract(words.cbegin());
    must(left.key() == "g" && words.empty() && words.count("g") == 0, "extract");
    // A maker that inserts its own key: the one that is made last stays.
    cache<int, int> numbers(1);
    int *own = numbers.get_or_insert_with(1, [&numbers] { return numbers[1] = 2; }).first;
    must(*own == 2 && numbers.size() == 1 && numbers.peek(1) == own, "a maker that inserts its own key");
}

static void moved_from() {
    cache<std::string, std::string> one(2);
    one.put("a", "b");
    auto two = std::move(one);
    must(one.size() == 0 && one.capacity() == 0 && one.begin() == one.end() && one.hits() == 0, "it is empty");
    must(one.find("a") == one.end() && std::as_const(one).find("a") == one.cend() && one.count("a") == 0, "nor by find");
    must(!one.evict() && !one.get("a") && !one.peek("a") && !one.contains("a") && !one.erase("a") && !one.extract("a"), "nothing is found");
    std::string key = text_of(1), value = text_of(2);
    must_throw<std::length_error>([&] { one.put(std::move(key), std::move(value)); }, "put");
    must_throw<std::length_error>([&] { one.push(std::move(key), std::move(value)); }, "push");
    must_throw<std::length_error>([&] { one.try_emplace(std::move(key), std::move(value)); }, "try_emplace");
    must_throw<std::length_error>([&] { one.insert_or_assign(std::move(key), std::move(value)); }, "insert_or_assign");
    must(key == text_of(1) && value == text_of(2), "what isn't inserted isn't moved");
    one.clear();
    swap(one, two);
    must(one.capacity() == 2 && one.contains("a") && two.capacity() == 0, "swapped");
    auto &itself = one;
    one = std::move(itself);
    must(one.contains("a"), "moved to itself");
    two = cache<std::string, std::string>(5);
    two.put("c", "d");
    one = std::move(two);
    must(one.capacity() == 5 && one.contains("c") && !one.contains("a"), "assigned");
}

static void *no_memory(size_t) { return nullptr; }

static void refusals() {
    using std::invalid_argument;
    must_throw<invalid_argument>([] { page_cache none(0); }, "capacity 0");
    must_throw<invalid_argument>([] { cache<int, int> none(CLOCK2Q_MAX_CAPACITY + 1); }, "capacity too large");
    must_throw<invalid_argument>([] { page_cache none(10, {2, 3}); }, "a window longer than Small");
    must_throw<invalid_argument>([] { cache<int, int> none(10, {10, 1}); }, "no slot for Main");
    must_throw<invalid_argument>([] { page_cache none(10, {2, 1, 11}); }, "a history longer than the cache");
    page_cache pages(10, {3, 2});
    must_throw<invalid_argument>([&] { pages.grow(0); }, "growth to capacity 0");
    must_throw<invalid_argument>([&] { pages.grow(10); }, "to fewer slots for new keys");
    must_throw<invalid_argument>([&] { pages.grow(9, {3, 2}); }, "to a smaller capacity");
    cache<int, int> full(2);
    full.put(1, 1);
    full.put(2, 2);
    const clock2q_memory memory = {no_memory, std::free};
    clock2q_use_memory(&memory);
    must_throw<std::bad_alloc>([&] { pages.grow(20, {3, 2}); }, "no memory to grow");
    must_throw<std::bad_alloc>([&] { full.resize(20); }, "no memory for a larger cache");
    must(pages.capacity() == 10 && full.capacity() == 2 && full.size() == 2 && *full.peek(1) == 1, "nothing has changed");
    must_throw<std::bad_alloc>([] { page_cache none(10); }, "no memory");
    must_throw<std::bad_alloc>([] { cache<int, int> none(10); }, "no memory for a cache");
    clock2q_use_memory(nullptr);
}

static void pages() {
    page_cache one(2, {1, 1});
    clock2q_place place = one.enter(7);
    must(!clock2q_has(&place, 7) && one.at(place.slot, 7) && one.find(7).slot == place.slot, "a page has its slot");
    page_cache two = std::move(one);
    one = page_cache(3);
    swap(one, two);
    must(one.contains(7) && one.holds(place.slot, 7) && !one.holds(place.slot, 8) && one.peek(7).slot == place.slot && !one.peek(8).is_found && one.size() == 1 && one.capacity() == 2 && two.capacity() == 3, "it goes along");
    must(one.erase(7) && !one.erase(7) && one.size() == 0, "it is erased");
    std::size_t slot = one.enter(8).slot;
    must(one.next_victim().last == 8 && one.next_victim().slot == slot && !one.next_victim().evicted, "it is next");
    place = one.evict();
    must(place.evicted && place.last == 8 && place.slot == slot && !one.evict().evicted, "it is evicted");
    must(one.add(8).has_value() && one.contains(8) && !one.add(8) && one.size() == 1, "it is added once");
    slot = one.peek(8).slot;
    one.grow(10, {1, 1});
    must(one.holds(slot, 8) && one.capacity() == 10, "it keeps its slot");
    one.grow(30);
    must(one.holds(slot, 8) && one.capacity() == 30, "by the usual shares too");
    one.clear();
    must(!one.contains(8), "all are");
}

// Threads that only read may do it at once.
// Ints that would be looked for at one place if hashes were spread without a secret take no longer than others.
static void ints_that_a_stranger_picks() {
    constexpr std::uint64_t count = 4000, inverse = 0xF1DE83E19937733D; // of what clock2q_spread multiplies by
    static_assert(inverse * UINT64_C(0x9E3779B97F4A7C15) == 1, "the inverse");
    auto least = [](auto key_of) {
        std::clock_t best = 0;
        for (int tries = 0; tries < 3; tries++) {
            cache<std::uint64_t, int> tried(count);
            std::clock_t begun = std::clock();
            for (std::uint64_t i = 0; i < count; i++) tried.put(key_of(i), 1);
            for (std::uint64_t i = 0; i < count; i++) must(tried.contains(key_of(i)), "it is there");
            std::clock_t took = std::clock() - begun;
            if (tries == 0 || took < best) best = took;
        }
        return best + 1;
    };
    std::clock_t usual = least([](std::uint64_t i) { return i; });
    must(least([](std::uint64_t i) { return i * inverse; }) < 8 * usual, "of one chain here");
    must(least([](std::uint64_t i) { return ((i << 24 | 7) ^ i >> 8) * inverse; }) < 8 * usual, "of one in the library");
}

static void readers() {
    cache<std::string, int> shared(100);
    for (int i = 0; i < 200; i++) shared.put(text_of(i), i);
    auto read = [&reading = std::as_const(shared)](std::size_t *found) {
        for (int i = 0; i < 200; i++) *found += reading.peek(text_of(i)) != nullptr ? 1 : 0;
        for (const auto &entry : reading) *found += reading.contains(entry.first) ? 1 : 0;
    };
    std::size_t mine = 0, theirs = 0;
    std::thread other(read, &theirs);
    read(&mine);
    other.join();
    must(mine == 2 * shared.size() && theirs == mine, "readers");
}

int main(int, char **arguments) {
    long calls = arguments[1] != nullptr ? std::strtol(arguments[1], nullptr, 10) : 20000;
    until_throw = -1;
    for (std::size_t capacity : {1, 2, 3, 10, 100, 1000}) {
        random_calls<good>(capacity, calls, "random calls");
        random_calls<two_bits>(capacity, calls, "random calls, a hash of two bits");
        random_calls<constant>(capacity, calls, "random calls, one hash");
    }
    each_call_refused();
    must(alive == 0, "what is constructed is destroyed");
    calls_from_equal();
    calls_from_values();
    what_is_compared_leaves();
    must(value_calls == 0, "values insert as the cache is destroyed");
    kinds_of_types();
    like_a_map();
    moved_from();
    refusals();
    pages();
    ints_that_a_stranger_picks();
    readers();
    return failed;
}
