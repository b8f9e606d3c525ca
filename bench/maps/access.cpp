// Runs the trace of the bench through clock2q.hpp, or through the LRU that people write of std::list and
// std::unordered_map: a look-up, and an insertion after a miss. Prints the nanoseconds of processor time an
// access and the hit ratio. usage: access clock2q|list u64|string CAPACITY
#include <clock2q.hpp>

#include <cstdio>
#include <cstdlib>
#include <cstring>
#include <ctime>
#include <list>
#include <string>
#include <unordered_map>
#include <vector>

static std::uint64_t mix(std::uint64_t x) {
    x = (x ^ (x >> 30)) * 0xBF58476D1CE4E5B9u;
    x = (x ^ (x >> 27)) * 0x94D049BB133111EBu;
    return x ^ (x >> 31);
}

static std::vector<std::uint64_t> trace(std::size_t capacity) {
    std::uint64_t state = 1, levels = capacity <= 1000 ? 13 : capacity <= 10000 ? 17 : 20;
    std::vector<std::uint64_t> keys(2000000);
    for (auto &key : keys) {
        state += 0x9E3779B97F4A7C15u;
        std::uint64_t drawn = mix(state), range = UINT64_C(1) << (drawn % levels);
        key = mix(range + ((drawn >> 32) & (range - 1)));
    }
    return keys;
}

template <class K, class V> class by_hand {
  public:
    explicit by_hand(std::size_t capacity) : capacity_(capacity) { map_.reserve(capacity); }
    V *get(const K &key) {
        auto found = map_.find(key);
        if (found == map_.end()) return nullptr;
        list_.splice(list_.begin(), list_, found->second);
        return &found->second->second;
    }
    void put(const K &key, V value) {
        if (map_.size() >= capacity_) {
            map_.erase(list_.back().first);
            list_.pop_back();
        }
        list_.emplace_front(key, value);
        map_.emplace(key, list_.begin());
    }

  private:
    std::size_t capacity_;
    std::list<std::pair<K, V>> list_;
    std::unordered_map<K, typename std::list<std::pair<K, V>>::iterator> map_;
};

static double processor_time() {
    timespec time;
    clock_gettime(CLOCK_PROCESS_CPUTIME_ID, &time);
    return static_cast<double>(time.tv_sec) * 1e9 + static_cast<double>(time.tv_nsec);
}

// Returns how many accesses hit. Its instructions are counted.
template <class Cache, class K> [[gnu::noinline]] static std::size_t accesses(Cache &cache, const std::vector<K> &keys) {
    std::size_t hits = 0, number = 0;
    for (const K &key : keys) {
        number++;
        if (cache.get(key) != nullptr) hits++;
        else cache.put(key, number);
    }
    return hits;
}

template <class Cache, class K> static void measure(std::size_t capacity, const std::vector<K> &keys) {
    Cache cache(capacity);
    double begun = processor_time();
    std::size_t hits = accesses(cache, keys);
    double count = static_cast<double>(keys.size());
    std::printf("%.2f %.4f\n", (processor_time() - begun) / count, static_cast<double>(hits) / count);
}

template <class K> static void run(const char *form, std::size_t capacity, const std::vector<K> &keys) {
    if (std::strcmp(form, "list") == 0) measure<by_hand<K, std::uint64_t>>(capacity, keys);
    else measure<clock2q::cache<K, std::uint64_t>>(capacity, keys);
}

int main(int count, char **arguments) {
    if (count != 4) return 2;
    std::size_t capacity = std::strtoul(arguments[3], nullptr, 10);
    std::vector<std::uint64_t> numbers = trace(capacity);
    if (std::strcmp(arguments[2], "string") != 0) {
        run(arguments[1], capacity, numbers);
        return 0;
    }
    std::vector<std::string> names;
    for (std::uint64_t number : numbers) {
        char name[64];
        std::snprintf(name, sizeof name, "/articles/%016llx/index.html", static_cast<unsigned long long>(number));
        names.emplace_back(name);
    }
    run(arguments[1], capacity, names);
}
