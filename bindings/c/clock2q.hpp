// clock2q: a proved cache of fixed capacity with Clock2Q+ replacement, for C++17. Header only, over the
// calls of clock2q.h.
//
//     clock2q::cache<std::string, page> pages(1000);
//     page *found = pages.get(name);
//     if (found == nullptr) found = pages.try_emplace(name, read_page(name)).first;
//
// `cache` keeps keys of any type with their values; a `weighted_cache` limits a sum of weights too, an
// `expiring_cache` returns no value past its time, and a `listening_cache` says which entries leave and why.
// `page_cache` gives whole numbers slots, for who keeps the values.
#ifndef CLOCK2Q_HPP
#define CLOCK2Q_HPP

#if __cplusplus < 201703L && !(defined _MSVC_LANG && _MSVC_LANG >= 201703L)
#error "clock2q.hpp needs C++17 or later, as by -std=c++17"
#else

#include "clock2q.h"

#include <algorithm>
#include <array>
#include <chrono>
#include <cstddef>
#include <cstdint>
#include <exception>
#include <functional>
#include <iterator>
#include <memory>
#include <new>
#include <optional>
#include <random>
#include <stdexcept>
#include <string>
#include <tuple>
#include <type_traits>
#include <utility>

namespace clock2q {

// How many slots are for new keys, each of which is young until `window` more were admitted, and how many keys
// that were evicted are remembered: half the capacity if it isn't said.
struct policy {
    std::size_t small;
    std::size_t window;
    std::optional<std::size_t> history = std::nullopt;
};

// Why an entry left a cache: for another, or by `evict` or `resize`; for another value of its key; by `erase` or
// `extract`; past its time; or by `clear`.
enum class reason { evicted, replaced, removed, expired, cleared };

namespace detail {

inline void check(std::uint32_t answer) {
    switch (answer) {
    case CLOCK2Q_DONE: return;
    case CLOCK2Q_NO_MEMORY: throw std::bad_alloc();
    case CLOCK2Q_BAD_CAPACITY: throw std::invalid_argument("clock2q: no cache has this capacity");
    default: throw std::invalid_argument("clock2q: the shares of the policy don't fit together");
    }
}

// The most keys of one hash in a cache, and how often what users' code undoes is tried again.
constexpr std::size_t most_alike = 16;
constexpr int most_tries = 8;

using secret = std::array<std::uint64_t, 2>;

// Draws a number, which is guessed more easily if the system has no random ones.
inline std::uint64_t drawn_number() {
    try {
        std::random_device device;
        return static_cast<std::uint64_t>(device()) << 32 | device();
    } catch (const std::exception &) {
        static const char anchor = 0;
        auto now = std::chrono::high_resolution_clock::now().time_since_epoch().count();
        return static_cast<std::uint64_t>(now) * reinterpret_cast<std::uintptr_t>(&anchor);
    }
}

// Two odd numbers of this process, by which hashes are spread: std::hash of an int is often the int, and who picks the
// keys isn't to choose where they are looked for.
inline const secret &process_secret() {
    static const secret drawn = {drawn_number() | 1, drawn_number() | 1};
    return drawn;
}

} // namespace detail

// A clock2q_cache that is freed with its owner. Its calls are those of clock2q.h, which says what they cost; none
// throws but the constructors and `grow`: std::bad_alloc if there is no memory, std::invalid_argument if the capacity
// or the policy is refused. One that was moved from may only be destroyed, assigned to and asked for its
// capacity, which is 0. No call is const that asks the library, since no two calls may overlap.
class page_cache {
  public:
    explicit page_cache(std::size_t capacity) : capacity_(capacity) { detail::check(clock2q_new(&handle_, capacity)); }
    page_cache(std::size_t capacity, policy shares) : capacity_(capacity) {
        detail::check(shares.history
                          ? clock2q_with_history(&handle_, capacity, shares.small, shares.window, *shares.history)
                          : clock2q_with_policy(&handle_, capacity, shares.small, shares.window));
    }
    page_cache(page_cache &&other) noexcept { swap(other); }
    page_cache &operator=(page_cache &&other) noexcept {
        page_cache taken(std::move(other));
        swap(taken);
        return *this;
    }
    ~page_cache() { clock2q_free(&handle_); }

    // Finds the slot of a key and records a hit, or gives the key a slot, which another key may lose.
    clock2q_place enter(std::uint64_t key) noexcept { return clock2q_enter_key(&handle_, key); }
    // Gives a key that has no slot one, and returns its place. Returns nothing, and changes nothing, if it has one.
    std::optional<clock2q_place> add(std::uint64_t key) noexcept {
        clock2q_place place;
        if (!clock2q_add(&handle_, key, &place)) return std::nullopt;
        return place;
    }
    // Finds the slot of a key and records a hit, if the key has one.
    clock2q_found find(std::uint64_t key) noexcept { return clock2q_find_key(&handle_, key); }
    // Returns true, after a hit, if the key is at this slot.
    bool at(std::size_t slot, std::uint64_t key) noexcept { return clock2q_at(&handle_, slot, key); }
    // Returns true if the key has a slot, and records nothing.
    bool contains(std::uint64_t key) noexcept { return clock2q_contains(&handle_, key); }
    // Finds the slot of a key, if the key has one, and records nothing.
    clock2q_found peek(std::uint64_t key) noexcept { return clock2q_peek_key(&handle_, key); }
    // Returns true if the key has this slot, and records nothing.
    bool holds(std::size_t slot, std::uint64_t key) noexcept { return clock2q_holds(&handle_, slot, key); }
    // Takes the slot of a key away, or forgets the key, and returns true if it had one.
    bool erase(std::uint64_t key) noexcept { return clock2q_remove(&handle_, key); }
    // Takes the slot away from the key that is to leave next, and returns where it was, as clock2q_evict_key does.
    clock2q_place evict() noexcept { return clock2q_evict_key(&handle_); }
    // Returns where that key is, and changes nothing, as clock2q_next_victim does.
    clock2q_place next_victim() noexcept { return clock2q_next_victim(&handle_); }
    // Takes all slots away, and forgets all keys.
    void clear() noexcept { clock2q_clear(&handle_); }
    // Raises the capacity, as clock2q_grow does, to that of a cache that is made of the same arguments. Nothing has
    // changed if it throws.
    void grow(std::size_t capacity) {
        detail::check(clock2q_grow(&handle_, capacity));
        capacity_ = capacity;
    }
    void grow(std::size_t capacity, policy shares) {
        std::size_t history = shares.history.value_or(capacity / 2);
        detail::check(clock2q_grow_with_history(&handle_, capacity, shares.small, shares.window, history));
        capacity_ = capacity;
    }
    // Returns how many keys have a slot.
    std::size_t size() noexcept { return clock2q_len(&handle_); }
    // Returns how many keys can have a slot.
    std::size_t capacity() const noexcept { return capacity_; }
    void swap(page_cache &other) noexcept {
        std::swap(handle_, other.handle_);
        std::swap(capacity_, other.capacity_);
    }
    friend void swap(page_cache &one, page_cache &other) noexcept { one.swap(other); }

  private:
    clock2q_cache handle_ = CLOCK2Q_NONE;
    std::size_t capacity_ = 0;
};

// A clock2q_tokens that is freed with its owner, with the numbers of its tokens. It throws what page_cache does,
// and is moved as that is.
class token_cache {
  public:
    explicit token_cache(std::size_t capacity) : capacity_(capacity) {
        detail::check(clock2q_tokens_new(&handle_, capacity));
    }
    token_cache(std::size_t capacity, policy shares) : capacity_(capacity) {
        detail::check(
            shares.history
                ? clock2q_tokens_with_history(&handle_, capacity, shares.small, shares.window, *shares.history)
                : clock2q_tokens_with_policy(&handle_, capacity, shares.small, shares.window));
    }
    token_cache(token_cache &&other) noexcept { swap(other); }
    token_cache &operator=(token_cache &&other) noexcept {
        token_cache taken(std::move(other));
        swap(taken);
        return *this;
    }
    ~token_cache() { clock2q_tokens_free(&handle_); }

    // Gives a key of this hash a slot, which another key may lose, if no key of this hash has one. Otherwise changes
    // nothing, and returns a slot of that hash.
    clock2q_admitted admit(std::uint64_t hash) noexcept { return clock2q_tokens_admit(&handle_, clock2q_spread(hash)); }
    // Gives a key a slot beside those of its hash, and returns it. Another key may lose its own.
    std::size_t enter_beside(std::uint64_t hash) noexcept {
        return clock2q_tokens_enter(&handle_, clock2q_spread(hash), ++number_);
    }
    // Records a hit on the key at this slot, and returns true if there is one.
    bool hit(std::size_t slot) noexcept { return clock2q_tokens_hit(&handle_, slot); }
    // Takes the slot away from its key, and returns true if it has one.
    bool erase(std::size_t slot) noexcept { return clock2q_tokens_remove(&handle_, slot); }
    // Takes the slot away from the key that is to leave next, and returns the slot, if any key has one.
    clock2q_found evict() noexcept { return clock2q_tokens_evict(&handle_); }
    // Returns that slot, and changes nothing.
    clock2q_found next_victim() noexcept { return clock2q_tokens_next_victim(&handle_); }
    // Takes all slots away, and forgets all keys.
    void clear() noexcept { clock2q_tokens_clear(&handle_); }
    // Does what page_cache's does.
    void grow(std::size_t capacity) {
        detail::check(clock2q_tokens_grow(&handle_, capacity));
        capacity_ = capacity;
    }
    void grow(std::size_t capacity, policy shares) {
        std::size_t history = shares.history.value_or(capacity / 2);
        detail::check(clock2q_tokens_grow_with_history(&handle_, capacity, shares.small, shares.window, history));
        capacity_ = capacity;
    }
    // Returns how many keys have a slot.
    std::size_t size() noexcept { return clock2q_tokens_len(&handle_); }
    // Returns how many keys can have a slot.
    std::size_t capacity() const noexcept { return capacity_; }
    void swap(token_cache &other) noexcept {
        std::swap(handle_, other.handle_);
        std::swap(capacity_, other.capacity_);
        std::swap(number_, other.number_);
    }
    friend void swap(token_cache &one, token_cache &other) noexcept { one.swap(other); }

  private:
    clock2q_tokens handle_ = CLOCK2Q_TOKENS_NONE;
    std::size_t capacity_ = 0;
    std::uint64_t number_ = 0; // the last that was used
};

namespace detail {

// The nodes of a cache, by slot and by hash: chains of those whose hashes have the same home. It calls no
// code of users.
template <class Node> class nodes {
  public:
    explicit nodes(std::size_t capacity) : capacity_(capacity), by_slot_(new Node *[capacity]()) {
        // Five chains for two nodes at least, so that few are longer than one.
        while (2 * capacity + capacity / 2 > std::size_t{1} << bits_) bits_++;
        chains_.reset(new Node *[std::size_t{1} << bits_]());
    }
    Node *const *begin() const noexcept { return by_slot_.get(); }
    Node *const *end() const noexcept { return by_slot_.get() + capacity_; }
    std::size_t size() const noexcept { return size_; }
    Node *at(std::size_t slot) const noexcept { return by_slot_[slot]; }

    // Returns the newest node of a hash, or null.
    Node *find(std::uint64_t hash) const noexcept { return first_of(chains_[home(hash)], hash); }

    // Returns the next older node of a node's hash, or null.
    Node *after(const Node *node) const noexcept { return first_of(node->next, node->hash); }

    // Returns the oldest node of a hash, if there are so many of it, else null.
    Node *last_of_many(std::uint64_t hash, std::size_t many) const noexcept {
        Node *last = nullptr;
        std::size_t count = 0;
        for (Node *node = find(hash); node != nullptr; node = after(node)) last = node, count++;
        return count < many ? nullptr : last;
    }

    // Puts a node at a slot, and returns the one that was there or null.
    Node *exchange(std::size_t slot, Node *node) noexcept {
        Node *left = std::exchange(by_slot_[slot], node);
        node->slot = static_cast<std::uint32_t>(slot);
        if (left != nullptr) unlink(left);
        node->next = std::exchange(chains_[home(node->hash)], node);
        size_++;
        return left;
    }

    // Takes a node out, which is at its slot.
    void remove(Node *node) noexcept {
        by_slot_[node->slot] = nullptr;
        unlink(node);
    }

    // Takes the nodes of another that has fewer slots, and isn't used any more. They keep their slots, and those of a
    // hash their order.
    void take(nodes &other) noexcept {
        std::copy(other.begin(), other.end(), by_slot_.get());
        for (std::size_t chain = 0; chain < std::size_t{1} << other.bits_; chain++) {
            Node *oldest = nullptr;
            for (Node *node = other.chains_[chain]; node != nullptr;) {
                Node *next = std::exchange(node->next, oldest);
                oldest = std::exchange(node, next);
            }
            while (oldest != nullptr) {
                Node *next = oldest->next;
                oldest->next = std::exchange(chains_[home(oldest->hash)], oldest);
                oldest = next;
            }
        }
        size_ = other.size_;
    }

    // Takes all nodes out, and returns the first of them or null; each leads to the next.
    Node *remove_all() noexcept {
        Node *first = nullptr;
        for (std::size_t slot = 0; slot < capacity_; slot++) {
            Node *left = std::exchange(by_slot_[slot], nullptr);
            if (left != nullptr) left->next = std::exchange(first, left);
        }
        std::fill_n(chains_.get(), std::size_t{1} << bits_, nullptr);
        size_ = 0;
        return first;
    }

  private:
    static Node *first_of(Node *node, std::uint64_t hash) noexcept {
        while (node != nullptr && node->hash != hash) node = node->next;
        return node;
    }
    std::size_t home(std::uint64_t hash) const noexcept {
        return static_cast<std::size_t>((hash * UINT64_C(0x9E3779B97F4A7C15)) >> (64 - bits_));
    }
    void unlink(Node *node) noexcept {
        Node **link = &chains_[home(node->hash)];
        while (*link != node) link = &(*link)->next;
        *link = node->next;
        size_--;
    }

    std::size_t capacity_;
    std::size_t size_ = 0;
    unsigned bits_ = 1;
    std::unique_ptr<Node *[]> by_slot_;
    std::unique_ptr<Node *[]> chains_;
};

// Whether to compare, assign and destroy keys or values of this type calls no code of users.
template <class T> struct is_plain : std::bool_constant<std::is_arithmetic_v<T> || std::is_pointer_v<T>> {};
template <class Letter> struct is_plain<std::basic_string<Letter>> : std::is_arithmetic<Letter> {};
template <class Key, class Equal>
constexpr bool compares_plainly = is_plain<Key>::value && std::is_same_v<Equal, std::equal_to<Key>>;

// What hears of no entry.
struct no_listener {};
template <class Listener> constexpr bool listens = !std::is_same_v<Listener, no_listener>;

// A listener, and whether it is called: not any more while its cache is destroyed.
template <class Listener> struct hearing {
    explicit hearing(Listener given) : listener(std::move(given)) {}
    Listener listener;
    bool is_on = true;
};
template <> struct hearing<no_listener> {
    explicit hearing(no_listener) noexcept {}
};

// What a node has for a listener: whether it was in a cache and has left, of which it hasn't heard yet, and why.
template <bool is_heard> struct departure {};
template <> struct departure<true> {
    bool has_left = false;
    reason why = reason::evicted;
};

// Tells a listener of nodes that have left.
template <class Node, class Listener> class telling {
  public:
    explicit telling(hearing<Listener> &heard) noexcept : heard_(&heard) {}
    void tell(Node *left) const noexcept {
        if (!std::exchange(left->has_left, false) || !heard_->is_on) return;
        heard_->listener(std::as_const(left->entry.first), left->entry.second, left->why);
    }

  private:
    hearing<Listener> *heard_;
};
template <class Node> class telling<Node, no_listener> {
  public:
    explicit telling(hearing<no_listener> &) noexcept {}
    void tell(Node *) const noexcept {}
};

#if defined __GNUC__ && !defined __clang__
#pragma GCC diagnostic push
#pragma GCC diagnostic ignored "-Warray-bounds" // of a cache that is known to be moved from, whose calls have thrown by then
#endif
// Destroys a node, and keeps its block at `spare`, if that isn't null and has none.
template <class Node> void destroy_now(Node *left, Node **spare) noexcept {
    left->~Node();
    if (spare != nullptr && *spare == nullptr) *spare = left;
    else std::allocator<Node>().deallocate(left, 1);
}
#if defined __GNUC__ && !defined __clang__
#pragma GCC diagnostic pop
#endif

// Nodes that have left a cache, which are destroyed as the call ends during which they left. Code of users may call
// the cache while it is working on nodes, as Equal is on keys: those that this thread is to destroy then come here.
template <class Node, bool is_quiet, class Listener = no_listener> class leaving : telling<Node, Listener> {
  public:
    leaving(const void *cache, Node **spare, hearing<Listener> &heard) noexcept
        : telling<Node, Listener>(heard), cache_(cache), spare_(spare) {}
    leaving(const leaving &) = delete;
    leaving &operator=(const leaving &) = delete;
    ~leaving() { end(nullptr); }

    // Is there while code of users is working on nodes. If there are two of a cache, nodes come to the outer one.
    class working {
      public:
        explicit working(leaving &left) noexcept : left_(of(left.cache_) == nullptr ? &left : nullptr) {
            if (left_ != nullptr) left_->outer_ = std::exchange(innermost(), left_);
        }
        working(const working &) = delete;
        working &operator=(const working &) = delete;
        ~working() {
            if (left_ != nullptr) innermost() = left_->outer_;
        }

      private:
        leaving *left_;
    };

    // Adds a node and those that it leads to; none, if it is null.
    void add(Node *left) noexcept {
        if (left == nullptr) return;
        leaving *outer = of(cache_);
        while (left != nullptr) (outer == nullptr ? this : outer)->append(std::exchange(left, left->next));
    }

    // Destroys all nodes but this one. Returns false if it is one of them, and the caller's from then on.
    bool end(const Node *kept) noexcept {
        bool is_kept = false;
        if (first_ == nullptr) return true;
        working now(*this);
        while (Node *left = take_first()) {
            if (left == kept) is_kept = true;
            else this->tell(left), destroy_now(left, spare_);
        }
        return !is_kept;
    }

    // Has the listener hear of a node that isn't destroyed, or of none.
    void tell_of(Node *left) noexcept {
        if (left == nullptr || !listens<Listener>) return;
        working now(*this);
        this->tell(left);
    }

    // Destroys a node that has left a cache, or adds it to those of its call.
    static void destroy(const void *cache, Node *left) noexcept {
        leaving *outer = of(cache);
        if (outer != nullptr) outer->append(left);
        else destroy_now<Node>(left, nullptr);
    }

  private:
    // Who gets the nodes of a cache, if code of users is working on them on this thread, or null.
    static leaving *of(const void *cache) noexcept {
        leaving *at = innermost();
        while (at != nullptr && at->cache_ != cache) at = at->outer_;
        return at;
    }
    static leaving *&innermost() noexcept {
        static thread_local leaving *at = nullptr;
        return at;
    }
    void append(Node *left) noexcept {
        left->next = nullptr;
        *end_ = left;
        end_ = &left->next;
    }
    Node *take_first() noexcept {
        Node *left = first_;
        if (left == nullptr) return nullptr;
        first_ = std::exchange(left->next, nullptr);
        if (first_ == nullptr) end_ = &first_;
        return left;
    }

    const void *cache_;
    Node **spare_;
    leaving *outer_ = nullptr;
    Node *first_ = nullptr, **end_ = &first_;
};

// The same if no code of users runs while nodes are worked on or destroyed: they are destroyed at once.
template <class Node> class leaving<Node, true, no_listener> {
  public:
    leaving(const void *, Node **spare, hearing<no_listener> &) noexcept : spare_(spare) {}
    leaving(const leaving &) = delete;
    leaving &operator=(const leaving &) = delete;
    struct working {
        explicit working(leaving &) noexcept {}
    };
    void add(Node *left) noexcept {
        while (left != nullptr) destroy_now(std::exchange(left, left->next), spare_);
    }
    bool end(const Node *) noexcept { return true; }
    void tell_of(Node *) noexcept {}
    static void destroy(const void *, Node *left) noexcept { destroy_now<Node>(left, nullptr); }

  private:
    Node **spare_;
};

template <class T, class = void> struct is_transparent : std::false_type {};
template <class T> struct is_transparent<T, std::void_t<typename T::is_transparent>> : std::true_type {};

// What a look-up takes: any type if hash and comparison allow it, else the key's.
template <bool any_type> struct argument {
    template <class Other, class Key> using type = Other;
};
template <> struct argument<false> {
    template <class Other, class Key> using type = Key;
};

} // namespace detail

// A cache of at most `capacity` keys with their values, in the manner of std::unordered_map.
//
// - Each key has a slot of its own. There are at most sixteen keys of one 64-bit hash, and then one leaves for
//   the next. So let Hash be different for different keys.
// - `get`, `at`, `find`, `[]` and all that inserts record a hit. `peek`, `contains`, `count`, iterators and const
//   members don't.
// - A pointer or reference to a value holds until its key leaves; iterators until an entry comes or leaves, or the cache grows.
//   Moving or swapping a cache keeps them all, moves no key or value, and leaves an empty cache of capacity 0,
//   in which what would insert throws std::length_error.
// - Hash, Equal, constructors, assignments and destructors of keys and values run while the cache is whole.
//   They may call it, insert and erase, but not destroy, move or assign it, or remove an entry to which an
//   argument of the call refers. Entries that leave are destroyed last, as the outermost call ends. If their
//   destructors make the call's own entry leave, it enters again, or `get`, `peek` and `find` return none.
//   std::logic_error is thrown if they do so nine times, or if Equal changes the cache at eight tries.
// - If a call throws, the cache has the entries that it had, unless users' code changed them;
//   `insert_or_assign` leaves of a value what its assignment does. Destructors don't throw.
// - A Listener is called as `listener(key, value, why)`, with `const Key &`, `Value &` and a `reason`, once for each
//   entry that leaves, before the entry is destroyed or the call returns it. The cache is whole then: the listener may
//   do what users' code may. It doesn't throw, and hears nothing of a cache that is destroyed or assigned to.
// - Calls of const members may overlap, as those of std's containers; others are one thread's at a time.
template <class Key, class Value, class Hash = std::hash<Key>, class Equal = std::equal_to<Key>,
          class Listener = detail::no_listener>
class cache {
    template <class, class, class, class, class, class> friend class weighted_cache;
    template <class, class, class, class, class, class> friend class expiring_cache;
    static constexpr bool listens = detail::listens<Listener>;
    static_assert(std::is_nothrow_destructible_v<Key> && std::is_nothrow_destructible_v<Value>,
                  "the destructor of a key or value may throw");

    struct node : detail::departure<listens> {
        node *next = nullptr;
        std::uint64_t hash;
        std::uint32_t slot = 0;
        std::pair<const Key, Value> entry;

        template <class K, class... Args>
        explicit node(std::uint64_t own_hash, K &&key, Args &&...args)
            : hash(own_hash), entry(std::piecewise_construct, std::forward_as_tuple(std::forward<K>(key)),
                                    std::forward_as_tuple(std::forward<Args>(args)...)) {}
    };
    static constexpr bool is_quiet =
        !listens && detail::compares_plainly<Key, Equal> && detail::is_plain<Value>::value;
    using leaving = detail::leaving<node, is_quiet, Listener>;
    template <class Other>
    using argument = typename detail::argument<detail::is_transparent<Hash>::value &&
                                               detail::is_transparent<Equal>::value>::template type<Other, Key>;

    template <class Entry> class basic_iterator {
      public:
        using iterator_category = std::forward_iterator_tag;
        using value_type = std::pair<const Key, Value>;
        using difference_type = std::ptrdiff_t;
        using pointer = Entry *;
        using reference = Entry &;

        basic_iterator() = default;
        template <class Other, class = std::enable_if_t<std::is_convertible_v<Other *, Entry *>>>
        basic_iterator(const basic_iterator<Other> &other) noexcept : at_(other.at_), end_(other.end_) {}
        reference operator*() const noexcept { return (*at_)->entry; }
        pointer operator->() const noexcept { return std::addressof((*at_)->entry); }
        basic_iterator &operator++() noexcept {
            at_++;
            skip_free();
            return *this;
        }
        basic_iterator operator++(int) noexcept {
            basic_iterator before = *this;
            ++*this;
            return before;
        }
        friend bool operator==(const basic_iterator &one, const basic_iterator &other) noexcept {
            return one.at_ == other.at_;
        }
        friend bool operator!=(const basic_iterator &one, const basic_iterator &other) noexcept {
            return one.at_ != other.at_;
        }

      private:
        friend class cache;
        template <class> friend class basic_iterator;
        basic_iterator(node *const *at, node *const *end) noexcept : at_(at), end_(end) { skip_free(); }
        void skip_free() noexcept {
            while (at_ != end_ && *at_ == nullptr) at_++;
        }
        node *const *at_ = nullptr, *const *end_ = nullptr;
    };

  public:
    using key_type = Key;
    using mapped_type = Value;
    using value_type = std::pair<const Key, Value>;
    using size_type = std::size_t;
    using difference_type = std::ptrdiff_t;
    using hasher = Hash;
    using key_equal = Equal;
    using reference = value_type &;
    using const_reference = const value_type &;
    using iterator = basic_iterator<value_type>;
    using const_iterator = basic_iterator<const value_type>;

    // An entry that has left a cache, or none.
    class node_type {
      public:
        node_type() noexcept = default;
        bool empty() const noexcept { return owned_ == nullptr; }
        explicit operator bool() const noexcept { return !empty(); }
        const Key &key() const noexcept { return owned_->entry.first; }
        Value &mapped() const noexcept { return owned_->entry.second; }

      private:
        friend class cache;
        template <class, class, class, class, class, class> friend class weighted_cache;
        template <class, class, class, class, class, class> friend class expiring_cache;
        struct destroy {
            const void *cache = nullptr;
            void operator()(node *left) const noexcept { leaving::destroy(cache, left); }
        };
        node_type(node *owned, const void *from) noexcept : owned_(owned, destroy{from}) {}
        std::unique_ptr<node, destroy> owned_;
    };

    // Makes a cache in time and memory that grow with the capacity. Throws std::bad_alloc, or
    // std::invalid_argument unless the capacity is from 1 to CLOCK2Q_MAX_CAPACITY and the policy has
    // small < capacity, window <= small, and both or neither of them 0.
    explicit cache(size_type capacity, const Hash &hash = Hash(), const Equal &equal = Equal(),
                   Listener listener = Listener())
        : state_(new state(capacity, std::nullopt, hash, equal, std::move(listener))) {}
    cache(size_type capacity, policy shares, const Hash &hash = Hash(), const Equal &equal = Equal(),
          Listener listener = Listener())
        : state_(new state(capacity, shares, hash, equal, std::move(listener))) {}
    // The same for a cache with a listener, which comes first.
    template <class Heard = Listener, class = std::enable_if_t<detail::listens<Heard>>>
    cache(size_type capacity, Listener listener, const Hash &hash = Hash(), const Equal &equal = Equal())
        : cache(capacity, hash, equal, std::move(listener)) {}
    cache(cache &&) noexcept = default;
    cache &operator=(cache &&) noexcept = default;
    ~cache() {
        if (state_ != nullptr) state_->hear_no_more();
        while (!empty()) clear(); // a destructor of a value may insert
    }

    // Returns the value of a key, after a hit, or null. Counts a hit or a miss.
    template <class K = Key> Value *get(const argument<K> &key) {
        return value_of(counted(key));
    }

    // Returns the value of a key, or null, and records nothing.
    template <class K = Key> Value *peek(const argument<K> &key) { return value_of(found(key)); }
    template <class K = Key> const Value *peek(const argument<K> &key) const { return value_of(found(key)); }

    // Returns true, or 1, if the key is there, and records nothing.
    template <class K = Key> bool contains(const argument<K> &key) const { return peek(key) != nullptr; }
    template <class K = Key> size_type count(const argument<K> &key) const { return contains(key) ? 1 : 0; }

    // Returns the value of a key, after what `get` records, or, if the cache is const, `peek`. Throws
    // std::out_of_range if the key isn't there.
    template <class K = Key> Value &at(const argument<K> &key) { return must_be(get(key)); }
    template <class K = Key> const Value &at(const argument<K> &key) const { return must_be(peek(key)); }

    // Returns where the entry of a key is, after what `at` records, or end().
    template <class K = Key> iterator find(const argument<K> &key) { return position<iterator>(counted(key)); }
    template <class K = Key> const_iterator find(const argument<K> &key) const {
        return position<const_iterator>(found(key));
    }

    // Returns the value of a key and false, after a hit; or inserts the key, with a value made of `args`, and
    // returns that and true. Counts a hit or a miss.
    template <class... Args> std::pair<Value *, bool> try_emplace(const Key &key, Args &&...args) {
        return emplaced(key, std::forward<Args>(args)...);
    }
    template <class... Args> std::pair<Value *, bool> try_emplace(Key &&key, Args &&...args) {
        return emplaced(std::move(key), std::forward<Args>(args)...);
    }

    // Returns the value of a key and false, after a hit; or inserts the key with the value that `make` returns, and
    // returns that and true. Counts a hit or a miss.
    template <class Make> std::pair<Value *, bool> get_or_insert_with(const Key &key, Make &&make) {
        return made(key, std::forward<Make>(make));
    }
    template <class Make> std::pair<Value *, bool> get_or_insert_with(Key &&key, Make &&make) {
        return made(std::move(key), std::forward<Make>(make));
    }

    // Inserts an entry and returns its value and true; or returns the value of its key and false, as `try_emplace`.
    std::pair<Value *, bool> insert(const value_type &entry) { return try_emplace(entry.first, entry.second); }
    std::pair<Value *, bool> insert(value_type &&entry) { return try_emplace(entry.first, std::move(entry.second)); }

    // Returns the value of a key, which is inserted with a new value if it isn't there, as by `try_emplace`.
    Value &operator[](const Key &key) { return *try_emplace(key).first; }
    Value &operator[](Key &&key) { return *try_emplace(std::move(key)).first; }

    // Assigns to the value of a key and returns it and false; or inserts the key and returns its value and true.
    template <class Other = Value> std::pair<Value *, bool> insert_or_assign(const Key &key, Other &&value) {
        return assigned(key, std::forward<Other>(value));
    }
    template <class Other = Value> std::pair<Value *, bool> insert_or_assign(Key &&key, Other &&value) {
        return assigned(std::move(key), std::forward<Other>(value));
    }

    // Inserts a key, in place of its entry if it has one, after a hit.
    template <class Other = Value> void put(const Key &key, Other &&value) {
        pushed(key, std::forward<Other>(value), [](node *left, leaving &others) { others.add(left); });
    }
    template <class Other = Value> void put(Key &&key, Other &&value) {
        pushed(std::move(key), std::forward<Other>(value), [](node *left, leaving &others) { others.add(left); });
    }

    // Does what `put` does, and returns the entry that left: the key's own, another's or none. If two left, it is the
    // one whose slot the key has now.
    template <class Other = Value> node_type push(const Key &key, Other &&value) {
        return pushed(key, std::forward<Other>(value),
                      [this](node *left, leaving &others) { return first_of(left, others); });
    }
    template <class Other = Value> node_type push(Key &&key, Other &&value) {
        return pushed(std::move(key), std::forward<Other>(value),
                      [this](node *left, leaving &others) { return first_of(left, others); });
    }

    // Takes a key out, and returns its entry or none.
    template <class K = Key> node_type extract(const argument<K> &key) {
        if (state_ == nullptr) return node_type();
        leaving left = state_->none_left();
        node *found = state_->find(key, hash_of(key), left);
        if (found != nullptr) remove(found);
        left.tell_of(found);
        return node_type(found, state_.get());
    }
    node_type extract(const_iterator where) noexcept {
        node *found = const_cast<node *>(*where.at_);
        remove(found);
        if constexpr (listens) state_->none_left().tell_of(found);
        return node_type(found, state_.get());
    }

    // Takes a key out, and returns how many entries left: 1 or 0.
    template <class K = Key> size_type erase(const argument<K> &key) { return extract(key).empty() ? 0 : 1; }

    // Takes the entry at a position out, and returns the next position.
    iterator erase(const_iterator where) noexcept {
        extract(where);
        return iterator(where.at_, where.end_);
    }
    iterator erase(iterator where) noexcept { return erase(const_iterator(where)); }

    // Takes out the entries for which `leaves` returns true, and returns how many. `leaves` doesn't call the cache.
    template <class Leaves> friend size_type erase_if(cache &from, Leaves leaves) {
        size_type before = from.size();
        for (iterator it = from.begin(); it != from.end();) {
            if (leaves(std::as_const(*it))) it = from.erase(it);
            else ++it;
        }
        return before - from.size();
    }

    // Takes out the entry that would have to leave next for a new key, and returns it, or none. Its key is remembered as
    // those that leave for others are.
    node_type evict() noexcept {
        node *gone = state_ == nullptr ? nullptr : state_->evict();
        if constexpr (listens) {
            if (gone != nullptr) state_->none_left().tell_of(gone);
        }
        return node_type(gone, state_.get());
    }

    // Returns where that entry is, or end(), and records nothing.
    iterator next_victim() noexcept {
        return state_ == nullptr ? end() : position<iterator>(state_->next_victim());
    }

    // Has the cache hold `capacity` keys at most. Entries leave as by `evict` until there are no more, and are destroyed
    // then; later two may leave for one that comes. The cache keeps its memory, and as many slots for new keys. If
    // `capacity` is above the largest so far, no entry leaves, each keeps its turn to leave and its hits, and keys that
    // left stay remembered. The policy that was given is kept; otherwise it is the usual one of the larger capacity.
    // Pointers to values hold then, iterators don't. Throws std::invalid_argument if `capacity` is 0 or above
    // CLOCK2Q_MAX_CAPACITY or the cache was moved from, or std::bad_alloc; nothing has changed then.
    void resize(size_type capacity) {
        if (capacity == 0 || capacity > CLOCK2Q_MAX_CAPACITY || state_ == nullptr) detail::check(CLOCK2Q_BAD_CAPACITY);
        if (capacity > state_->slots.capacity()) return state_->grow(capacity);
        leaving left = state_->none_left();
        left.add(state_->resize(capacity));
    }

    // Takes all entries out, and forgets all keys. Takes time in proportion to the capacity.
    void clear() noexcept {
        if (state_ != nullptr) state_->clear();
    }

    size_type size() const noexcept { return state_ == nullptr ? 0 : state_->nodes.size(); }
    bool empty() const noexcept { return size() == 0; }
    // Returns how many keys there can be: as many as the cache was made for, or resized to since.
    size_type capacity() const noexcept {
        return state_ == nullptr ? 0 : std::min(state_->slots.capacity(), state_->limit);
    }
    // Return copies of what the cache was made with. It wasn't moved from.
    Hash hash_function() const { return state_->hash; }
    Equal key_eq() const { return state_->equal; }
    // Return how many keys look-ups that record a hit have found, and how many they haven't; `insert_or_assign`,
    // `put` and `push` count nothing.
    std::uint64_t hits() const noexcept { return state_ == nullptr ? 0 : state_->hits; }
    std::uint64_t misses() const noexcept { return state_ == nullptr ? 0 : state_->misses; }

    // All entries, in no order that is kept. Takes time in proportion to the capacity.
    iterator begin() noexcept { return first<iterator>(); }
    iterator end() noexcept { return last<iterator>(); }
    const_iterator begin() const noexcept { return first<const_iterator>(); }
    const_iterator end() const noexcept { return last<const_iterator>(); }
    const_iterator cbegin() const noexcept { return begin(); }
    const_iterator cend() const noexcept { return end(); }

    void swap(cache &other) noexcept { state_.swap(other.state_); }
    friend void swap(cache &one, cache &other) noexcept { one.swap(other); }

  private:
    static constexpr std::size_t no_limit = SIZE_MAX;

    struct state {
        state(std::size_t capacity, std::optional<policy> given, const Hash &own_hash, const Equal &own_equal,
              Listener own_listener)
            : slots(made(capacity, given)), nodes(capacity), shares(given), hash(own_hash), equal(own_equal),
              heard(std::move(own_listener)) {}
        ~state() {
            hear_no_more();
            clear();
            if (spare != nullptr) std::allocator<node>().deallocate(spare, 1);
        }
        state(const state &) = delete;
        state &operator=(const state &) = delete;

        static token_cache made(std::size_t capacity, const std::optional<policy> &given) {
            return given ? token_cache(capacity, *given) : token_cache(capacity);
        }

        // No node, of those that leave during a call that isn't const.
        leaving none_left() noexcept { return leaving(this, &spare, heard); }

        // Has the listener not be called any more.
        void hear_no_more() noexcept {
            if constexpr (listens) heard.is_on = false;
        }

        // Notes that a node has left, for the listener.
        template <reason why> static void note_left(node *gone) noexcept {
            if constexpr (listens) {
                gone->has_left = true;
                gone->why = why;
            }
        }

        // The node of a key, after a hit, or null.
        template <class K> node *hit(const K &key, std::uint64_t wanted, leaving &left) {
            node *found = find(key, wanted, left);
            if (found != nullptr) slots.hit(found->slot);
            return found;
        }

        // The node of a key, or null.
        template <class K> node *find(const K &key, std::uint64_t wanted, leaving &left) const {
            if (detail::compares_plainly<Key, Equal>) return equal_one(key, wanted);
            if (nodes.find(wanted) == nullptr) return nullptr;
            typename leaving::working now(left);
            for (int tries = 0; tries < detail::most_tries; tries++) {
                std::uint64_t before = version;
                node *found = equal_one(key, wanted);
                if (version == before) return found;
            }
            throw std::logic_error("clock2q: Equal changes the cache");
        }

        // The node of a key, or null, of those of its hash. If Equal changes the cache, any.
        template <class K> node *equal_one(const K &key, std::uint64_t wanted) const {
            std::uint64_t before = version;
            for (node *alike = nodes.find(wanted); alike != nullptr; alike = nodes.after(alike)) {
                bool is_same = equal(std::as_const(alike->entry.first), key);
                if (is_same || version != before) return alike;
            }
            return nullptr;
        }

        // Gives a new node, whose key isn't in, its slot, and returns the nodes that left for it: none, one, or two of
        // which the first leads to the other.
        node *link(node *fresh) noexcept {
            version++;
            if (nodes.size() >= limit) return link_among_fewer(fresh);
            clock2q_admitted admitted = slots.admit(fresh->hash);
            if (admitted.has_entered) return exchange(admitted.slot, fresh);
            node *gave_way = nodes.last_of_many(fresh->hash, detail::most_alike);
            if (gave_way != nullptr) unlink(gave_way);
            return exchange(slots.enter_beside(fresh->hash), fresh, gave_way);
        }

        // Does so in place of another node though there are slots, since there may not be more nodes.
        node *link_among_fewer(node *fresh) noexcept {
            node *gone = nodes.last_of_many(fresh->hash, detail::most_alike);
            if (gone != nullptr) unlink(gone);
            else gone = evict();
            clock2q_admitted admitted = slots.admit(fresh->hash);
            return exchange(admitted.has_entered ? admitted.slot : slots.enter_beside(fresh->hash), fresh, gone);
        }

        // Puts a node at a slot, and returns the one that was there or null, and after it the one that had left before.
        node *exchange(std::size_t slot, node *fresh, node *gone = nullptr) noexcept {
            if (gone != nullptr) gone->next = nullptr;
            if constexpr (listens) fresh->has_left = false;
            node *left = nodes.exchange(slot, fresh);
            if (left == nullptr) return gone;
            note_left<reason::evicted>(left);
            left->next = gone;
            return left;
        }

        // The same in place of the node of its key, if there is one. Destroys the new node if Equal throws.
        node *link_or_replace(node *fresh, leaving &left) {
            node *found;
            try {
                found = hit(std::as_const(fresh->entry.first), fresh->hash, left);
            } catch (...) {
                left.add(fresh);
                throw;
            }
            if (found == nullptr) return link(fresh);
            version++;
            node *replaced = exchange(found->slot, fresh);
            note_left<reason::replaced>(replaced);
            return replaced;
        }

        // Gives a new node whose key wasn't in at this version its slot, or that of its key.
        void link_since(std::uint64_t seen, node *fresh, leaving &left) {
            left.add(version == seen ? link(fresh) : link_or_replace(fresh, left));
        }

        // Destroys what left during a call. If that has the call's own node leave, it enters again.
        void settle(node *own, leaving &left) {
            for (int tries = 0; !left.end(own); tries++) {
                if (tries == detail::most_tries) {
                    left.add(own);
                    throw std::logic_error("clock2q: what is destroyed has the call's own entry leave");
                }
                left.add(link_or_replace(own, left));
            }
        }

        // Takes a node out, which is in. It counts as evicted until something else is noted.
        void unlink(node *gone) noexcept {
            version++;
            nodes.remove(gone);
            slots.erase(gone->slot);
            note_left<reason::evicted>(gone);
        }

        // Takes the node out that is to leave next, and returns it or null.
        node *evict() noexcept {
            clock2q_found found = slots.evict();
            if (!found.is_found) return nullptr;
            version++;
            node *gone = nodes.at(found.slot);
            nodes.remove(gone);
            gone->next = nullptr;
            note_left<reason::evicted>(gone);
            return gone;
        }

        // Returns that node or null.
        node *next_victim() noexcept {
            clock2q_found found = slots.next_victim();
            return found.is_found ? nodes.at(found.slot) : nullptr;
        }

        // Has as many nodes at most from now on, and returns those above in their order, of which each leads to the next,
        // or null.
        node *resize(std::size_t most) noexcept {
            node *gone = nullptr, **end = &gone;
            while (nodes.size() > most) {
                *end = evict();
                end = &(*end)->next;
            }
            limit = most < slots.capacity() ? most : no_limit;
            return gone;
        }

        // Has more slots than there are. Each node keeps its own. It calls no code of users, and has changed nothing if it
        // throws.
        void grow(std::size_t capacity) {
            detail::nodes<node> all(capacity);
            if (shares) slots.grow(capacity, *shares);
            else slots.grow(capacity);
            all.take(nodes);
            nodes = std::move(all);
            limit = no_limit;
        }

        void clear() noexcept {
            leaving left = none_left();
            version++;
            slots.clear();
            node *first = nodes.remove_all();
            if constexpr (listens) {
                for (node *gone = first; gone != nullptr; gone = gone->next) note_left<reason::cleared>(gone);
            }
            left.add(first);
        }

        template <class... Args> node *make(Args &&...args) {
            node *block = std::exchange(spare, nullptr);
            if (block == nullptr) block = std::allocator<node>().allocate(1);
            try {
                return new (static_cast<void *>(block)) node(std::forward<Args>(args)...);
            } catch (...) {
                node *other = std::exchange(spare, block);
                if (other != nullptr) std::allocator<node>().deallocate(other, 1);
                throw;
            }
        }

        token_cache slots;
        detail::nodes<node> nodes;
        node *spare = nullptr; // a block without an entry, or null
        std::size_t limit = no_limit; // how many nodes there may be, if fewer than slots
        std::optional<policy> shares; // those that were given
        std::uint64_t version = 0; // how often entries have come or left
        std::uint64_t hits = 0, misses = 0;
        detail::secret secret = detail::process_secret();
        Hash hash;
        Equal equal;
        detail::hearing<Listener> heard;
    };

    template <class K> std::uint64_t hash_of(const K &key) const {
        return clock2q_spread_by(state_->secret.data(), std::as_const(state_->hash)(key));
    }

    // Takes a node out, which is in.
    void remove(node *found) noexcept {
        state_->unlink(found);
        state::template note_left<reason::removed>(found);
    }

    std::uint64_t hash_to_insert(const Key &key) const {
        if (state_ == nullptr) throw std::length_error("clock2q: the capacity is 0, since the cache was moved from");
        return hash_of(key);
    }

    // What a look-up found, or null if that left as what else did was destroyed.
    static node *still_in(node *found, leaving &left) noexcept {
        if (found == nullptr || left.end(found)) return found;
        left.add(found);
        return nullptr;
    }

    // The node of a key, or null.
    template <class K> node *found(const K &key) const {
        if (state_ == nullptr) return nullptr;
        leaving left(state_.get(), nullptr, state_->heard);
        return still_in(state_->find(key, hash_of(key), left), left);
    }

    // The same, after a hit, counted.
    template <class K> node *counted(const K &key) {
        if (state_ == nullptr) return nullptr;
        leaving left = state_->none_left();
        node *found = state_->hit(key, hash_of(key), left);
        ++(found != nullptr ? state_->hits : state_->misses);
        return still_in(found, left);
    }

    static Value *value_of(node *at) noexcept { return at == nullptr ? nullptr : std::addressof(at->entry.second); }

    // Gives `end` what left for a new node, and what left besides.
    template <class K, class Other, class End> auto pushed(K &&key, Other &&value, End end) {
        std::uint64_t hash = hash_to_insert(key);
        leaving others = state_->none_left();
        node *fresh = state_->make(hash, std::forward<K>(key), std::forward<Other>(value));
        return end(state_->link_or_replace(fresh, others), others);
    }

    // The first of the nodes that left for a new one, or none.
    node_type first_of(node *left, leaving &others) const noexcept {
        if (left != nullptr) others.add(std::exchange(left->next, nullptr));
        others.tell_of(left);
        return node_type(left, state_.get());
    }

    // The value of a key and false, after a hit, or that of the node that `make` makes and true.
    template <class Make> std::pair<Value *, bool> found_or(const Key &key, std::uint64_t hash, Make make) {
        leaving left = state_->none_left();
        node *own = state_->hit(key, hash, left);
        bool is_new = own == nullptr;
        if (is_new) {
            std::uint64_t seen = state_->version;
            own = make();
            state_->link_since(seen, own, left);
        }
        ++(is_new ? state_->misses : state_->hits);
        state_->settle(own, left);
        return {value_of(own), is_new};
    }

    template <class K, class... Args> std::pair<Value *, bool> emplaced(K &&key, Args &&...args) {
        std::uint64_t hash = hash_to_insert(key);
        return found_or(key, hash, [&] { return state_->make(hash, std::forward<K>(key), std::forward<Args>(args)...); });
    }

    template <class K, class Make> std::pair<Value *, bool> made(K &&key, Make &&make) {
        std::uint64_t hash = hash_to_insert(key);
        return found_or(key, hash, [&] {
            Value value = std::forward<Make>(make)();
            return state_->make(hash, std::forward<K>(key), std::move(value));
        });
    }

    template <class K, class Other> std::pair<Value *, bool> assigned(K &&key, Other &&value) {
        std::uint64_t hash = hash_to_insert(key);
        leaving left = state_->none_left();
        node *own = state_->hit(key, hash, left);
        bool is_new = own == nullptr;
        if (is_new) {
            std::uint64_t seen = state_->version;
            own = state_->make(hash, std::forward<K>(key), std::forward<Other>(value));
            state_->link_since(seen, own, left);
        } else {
            typename leaving::working now(left);
            own->entry.second = std::forward<Other>(value);
        }
        state_->settle(own, left);
        return {value_of(own), is_new};
    }

    template <class Kind> static Kind &must_be(Kind *found) {
        if (found == nullptr) throw std::out_of_range("clock2q: the key isn't there");
        return *found;
    }

    template <class Iterator> Iterator position(const node *at) const noexcept {
        return at == nullptr ? last<Iterator>() : Iterator(state_->nodes.begin() + at->slot, state_->nodes.end());
    }
    template <class Iterator> Iterator first() const noexcept {
        return state_ == nullptr ? Iterator() : Iterator(state_->nodes.begin(), state_->nodes.end());
    }
    template <class Iterator> Iterator last() const noexcept {
        return state_ == nullptr ? Iterator() : Iterator(state_->nodes.end(), state_->nodes.end());
    }

    std::unique_ptr<state> state_;
};

// A cache whose entries have weights, of which the sum is limited too.
//
// The weigher is called once for each entry that is to be stored, before anything changes, and returns its weight.
// Then others leave as by `evict`, until there is room for it under both limits. An entry that is heavier than the
// limit alone isn't stored, no other leaves for it, and no listener hears of it. Values are only read, so that no weight
// changes.
//
// What `cache` says of slots, pointers, users' code, exceptions, listeners and threads holds here too.
template <class Key, class Value, class Weigher = std::function<std::uint64_t(const Key &, const Value &)>,
          class Hash = std::hash<Key>, class Equal = std::equal_to<Key>, class Listener = detail::no_listener>
class weighted_cache {
    using entries = cache<Key, Value, Hash, Equal, Listener>;
    using node = typename entries::node;
    template <class Other> using argument = typename entries::template argument<Other>;

  public:
    using key_type = Key;
    using mapped_type = Value;
    using size_type = std::size_t;
    using node_type = typename entries::node_type;
    using const_iterator = typename entries::const_iterator;

    // Makes a cache for `capacity` entries, whose weights are at most `max_weight` together. Throws what `cache` does.
    weighted_cache(size_type capacity, std::uint64_t max_weight, Weigher weigher = Weigher(), const Hash &hash = Hash(),
                   const Equal &equal = Equal())
        : weighted_cache(entries(capacity, hash, equal), max_weight, std::move(weigher)) {}
    weighted_cache(size_type capacity, policy shares, std::uint64_t max_weight, Weigher weigher = Weigher(),
                   const Hash &hash = Hash(), const Equal &equal = Equal())
        : weighted_cache(entries(capacity, shares, hash, equal), max_weight, std::move(weigher)) {}
    // The same for a cache with a listener.
    template <class Heard = Listener, class = std::enable_if_t<detail::listens<Heard>>>
    weighted_cache(size_type capacity, std::uint64_t max_weight, Weigher weigher, Listener listener,
                   const Hash &hash = Hash(), const Equal &equal = Equal())
        : weighted_cache(entries(capacity, std::move(listener), hash, equal), max_weight, std::move(weigher)) {}
    template <class Heard = Listener, class = std::enable_if_t<detail::listens<Heard>>>
    weighted_cache(size_type capacity, policy shares, std::uint64_t max_weight, Weigher weigher, Listener listener,
                   const Hash &hash = Hash(), const Equal &equal = Equal())
        : weighted_cache(entries(capacity, shares, hash, equal, std::move(listener)), max_weight, std::move(weigher)) {}
    weighted_cache(weighted_cache &&) noexcept = default;
    weighted_cache &operator=(weighted_cache &&other) noexcept {
        weighted_cache taken(std::move(other));
        swap(taken);
        return *this;
    }
    ~weighted_cache() {
        if (entries_.state_ != nullptr) entries_.state_->hear_no_more();
        while (!empty()) clear(); // a destructor of a value may insert
    }

    // Returns the value of a key, after a hit, or null. Counts a hit or a miss.
    template <class K = Key> const Value *get(const argument<K> &key) { return entries_.get(key); }

    // Returns the value of a key, or null, and records nothing.
    template <class K = Key> const Value *peek(const argument<K> &key) const { return entries_.peek(key); }

    // Returns true, or 1, if the key is there, and records nothing.
    template <class K = Key> bool contains(const argument<K> &key) const { return entries_.contains(key); }
    template <class K = Key> size_type count(const argument<K> &key) const { return entries_.count(key); }

    // Inserts a key, in place of its entry if it has one, after a hit, and returns true. Returns false if the entry is
    // heavier than `max_weight`: it is destroyed, and the cache is as it was.
    template <class Other = Value> bool put(const Key &key, Other &&value) {
        return push(key, std::forward<Other>(value), [](node_type) {});
    }
    template <class Other = Value> bool put(Key &&key, Other &&value) {
        return push(std::move(key), std::forward<Other>(value), [](node_type) {});
    }

    // Does what `put` does, and calls `left` with each entry that left for this one, and last with the key's own, if
    // that hadn't left yet.
    template <class Other, class Left> bool push(const Key &key, Other &&value, Left left) {
        return pushed(key, std::forward<Other>(value), left);
    }
    template <class Other, class Left> bool push(Key &&key, Other &&value, Left left) {
        return pushed(std::move(key), std::forward<Other>(value), left);
    }

    // Takes a key out, and returns its entry or none.
    template <class K = Key> node_type extract(const argument<K> &key) {
        if (entries_.state_ == nullptr) return node_type();
        typename entries::leaving left = entries_.state_->none_left();
        node *found = entries_.state_->find(key, entries_.hash_of(key), left);
        if (found != nullptr) {
            entries_.remove(found);
            limit_->take_off(found);
        }
        left.tell_of(found);
        return node_type(found, entries_.state_.get());
    }

    // Takes a key out, and returns how many entries left: 1 or 0.
    template <class K = Key> size_type erase(const argument<K> &key) { return extract(key).empty() ? 0 : 1; }

    // Takes out the entry that would have to leave next, and returns it, or none.
    node_type evict() noexcept {
        node *gone = entries_.state_ == nullptr ? nullptr : entries_.state_->evict();
        if (gone != nullptr) {
            limit_->take_off(gone);
            entries_.state_->none_left().tell_of(gone);
        }
        return node_type(gone, entries_.state_.get());
    }

    // Takes all entries out, and forgets all keys. Takes time in proportion to the capacity.
    void clear() noexcept {
        if (limit_ == nullptr) return;
        std::fill_n(limit_->by_slot.get(), entries_.state_->slots.capacity(), 0);
        limit_->weight = 0;
        entries_.clear();
    }

    // Has the sum of the weights be at most `max_weight` from now on. Entries leave as by `evict` until it is, and are
    // destroyed then. The cache wasn't moved from.
    void set_max_weight(std::uint64_t max_weight) noexcept {
        leaving left(*this);
        while (limit_->weight > max_weight) left.add(entries_.state_->evict());
        limit_->max_weight = max_weight;
    }

    // Has the cache hold `capacity` entries at most, whatever their weights, as `cache::resize` does, and throws what that
    // throws. The limit of the weights stays as it is.
    void resize(size_type capacity) {
        if (capacity == 0 || capacity > CLOCK2Q_MAX_CAPACITY || limit_ == nullptr) detail::check(CLOCK2Q_BAD_CAPACITY);
        typename entries::state &state = *entries_.state_;
        if (capacity > state.slots.capacity()) return grow(capacity);
        leaving left(*this);
        while (size() > capacity) left.add(state.evict());
        state.resize(capacity);
    }

    size_type size() const noexcept { return entries_.size(); }
    bool empty() const noexcept { return entries_.empty(); }
    // Returns how many entries there can be, whatever their weights: as many as the cache was made for, or resized to
    // since.
    size_type capacity() const noexcept { return entries_.capacity(); }
    // Return the sum of the weights of all entries, and the most that it may be.
    std::uint64_t weight() const noexcept { return limit_ == nullptr ? 0 : limit_->weight; }
    std::uint64_t max_weight() const noexcept { return limit_ == nullptr ? 0 : limit_->max_weight; }
    // Return how many look-ups by `get` found their key, and how many didn't.
    std::uint64_t hits() const noexcept { return entries_.hits(); }
    std::uint64_t misses() const noexcept { return entries_.misses(); }

    // All entries, in no order that is kept. Takes time in proportion to the capacity.
    const_iterator begin() const noexcept { return entries_.begin(); }
    const_iterator end() const noexcept { return entries_.end(); }

    void swap(weighted_cache &other) noexcept {
        entries_.swap(other.entries_);
        limit_.swap(other.limit_);
    }
    friend void swap(weighted_cache &one, weighted_cache &other) noexcept { one.swap(other); }

  private:
    struct limit {
        Weigher weigher;
        std::uint64_t max_weight;
        std::uint64_t weight; // the sum of those of all entries
        std::unique_ptr<std::uint64_t[]> by_slot;

        // Takes the weight of a node that left off the sum.
        void take_off(const node *left) noexcept { weight -= std::exchange(by_slot[left->slot], 0); }
    };

    // Nodes that left, in their order, which are destroyed at the end.
    class leaving {
      public:
        explicit leaving(weighted_cache &from) noexcept : from_(from) {}
        leaving(const leaving &) = delete;
        leaving &operator=(const leaving &) = delete;
        ~leaving() { from_.entries_.state_->none_left().add(first_); }
        // Adds a node that was taken out, whose weight is still there.
        void add(node *left) noexcept {
            from_.limit_->take_off(left);
            left->next = nullptr;
            *end_ = left;
            end_ = &left->next;
        }
        // Calls a function with each, after the listener has heard of it.
        template <class Left> void hand_over(Left &left) {
            typename entries::state &state = *from_.entries_.state_;
            while (first_ != nullptr) {
                node *next = std::exchange(first_, first_->next);
                state.none_left().tell_of(next);
                left(node_type(next, &state));
            }
        }

      private:
        weighted_cache &from_;
        node *first_ = nullptr, **end_ = &first_;
    };

    weighted_cache(entries &&made, std::uint64_t max_weight, Weigher &&weigher)
        : entries_(std::move(made)), limit_(new limit{std::move(weigher), max_weight, 0, nullptr}) {
        limit_->by_slot.reset(new std::uint64_t[entries_.capacity()]());
    }

    template <class K, class Other, class Left> bool pushed(K &&key, Other &&value, Left &left) {
        std::uint64_t hash = entries_.hash_to_insert(key), weight = 0;
        typename entries::state &state = *entries_.state_;
        typename entries::leaving left_meanwhile = state.none_left();
        node *fresh = state.make(hash, std::forward<K>(key), std::forward<Other>(value)), *found = nullptr;
        try {
            const auto &entry = fresh->entry;
            weight = limit_->weigher(entry.first, entry.second);
            if (weight <= limit_->max_weight) found = state.hit(entry.first, hash, left_meanwhile);
        } catch (...) {
            left_meanwhile.add(fresh);
            throw;
        }
        if (weight > limit_->max_weight) {
            left_meanwhile.add(fresh);
            return false;
        }
        leaving gone(*this);
        link(fresh, weight, found, gone);
        gone.hand_over(left);
        return true;
    }

    // Has more slots than there are. Each entry keeps its slot and its weight.
    void grow(size_type capacity) {
        std::unique_ptr<std::uint64_t[]> weights(new std::uint64_t[capacity]());
        std::copy_n(limit_->by_slot.get(), entries_.state_->slots.capacity(), weights.get());
        entries_.state_->grow(capacity);
        limit_->by_slot = std::move(weights);
    }

    static void note_replaced(node *left) noexcept { entries::state::template note_left<reason::replaced>(left); }

    // Gives a new node its slot, that of the node of its key or one of its own. It calls no code of users.
    void link(node *fresh, std::uint64_t weight, node *found, leaving &gone) noexcept {
        typename entries::state &state = *entries_.state_;
        std::uint64_t own = found == nullptr ? 0 : limit_->by_slot[found->slot];
        while (limit_->weight - own > limit_->max_weight - weight) {
            node *last = state.evict();
            if (last == found) { // for its own new value
                note_replaced(last);
                found = nullptr, own = 0;
            }
            gone.add(last);
        }
        if (found != nullptr) state.version++;
        node *more = found == nullptr ? state.link(fresh) : state.exchange(found->slot, fresh);
        if (found != nullptr) note_replaced(found);
        while (more != nullptr) gone.add(std::exchange(more, more->next));
        limit_->weight += weight;
        limit_->by_slot[fresh->slot] = weight;
    }

    entries entries_;
    std::unique_ptr<limit> limit_;
};

namespace detail {

// A value and when it expires.
template <class Value, class Clock> struct timed {
    template <class... Args>
    explicit timed(typename Clock::time_point end, Args &&...args) : deadline(end), value(std::forward<Args>(args)...) {}
    typename Clock::time_point deadline;
    Value value;
};
template <class Value, class Clock> struct is_plain<timed<Value, Clock>> : is_plain<Value> {};

// Hears of the value without its time.
template <class Key, class Value, class Clock, class Listener> struct untimed {
    Listener listener;
    void operator()(const Key &key, timed<Value, Clock> &left, reason why) { listener(key, left.value, why); }
};

} // namespace detail

// A cache whose entries expire, a time after they were stored.
//
// - No value is returned, or shown to `for_each`, that Clock::now(), as the call reads it, isn't below the time of:
//   when it was stored, and `ttl` more. So Clock doesn't go back; it calls no cache.
// - What has expired leaves, as by `erase`, when a call that isn't const meets its key, or by `expire`. Until then it
//   counts in `size`, and may leave for another.
// - What `cache` says of slots, pointers, users' code, exceptions, listeners and threads holds here too.
//
//     clock2q::expiring_cache<std::string, address> addresses(1000, std::chrono::minutes(5));
template <class Key, class Value, class Clock = std::chrono::steady_clock, class Listener = detail::no_listener,
          class Hash = std::hash<Key>, class Equal = std::equal_to<Key>>
class expiring_cache {
    using timed = detail::timed<Value, Clock>;
    using untimed = detail::untimed<Key, Value, Clock, Listener>;
    static constexpr bool listens = detail::listens<Listener>;
    using entries = cache<Key, timed, Hash, Equal, std::conditional_t<listens, untimed, detail::no_listener>>;
    using node = typename entries::node;
    using leaving = typename entries::leaving;
    template <class Other> using argument = typename entries::template argument<Other>;

  public:
    using key_type = Key;
    using mapped_type = Value;
    using size_type = std::size_t;
    using duration = typename Clock::duration;

    // Makes a cache for `capacity` entries, each of which is there for `ttl`. Throws what `cache` does, and
    // std::invalid_argument unless `ttl` is above 0.
    expiring_cache(size_type capacity, duration ttl, Listener listener = Listener(), const Hash &hash = Hash(),
                   const Equal &equal = Equal())
        : entries_(capacity, hash, equal, heard_by(std::move(listener))), ttl_(above_zero(ttl)) {}
    expiring_cache(size_type capacity, policy shares, duration ttl, Listener listener = Listener(),
                   const Hash &hash = Hash(), const Equal &equal = Equal())
        : entries_(capacity, shares, hash, equal, heard_by(std::move(listener))), ttl_(above_zero(ttl)) {}

    // Returns the value of a key, after a hit, or null. Counts a hit or a miss.
    template <class K = Key> Value *get(const argument<K> &key) {
        if (entries_.state_ == nullptr) return nullptr;
        auto &state = *entries_.state_;
        leaving left = state.none_left();
        node *found = live(key, left);
        if (found != nullptr) state.slots.hit(found->slot);
        ++(found != nullptr ? state.hits : state.misses);
        return value_of(entries::still_in(found, left));
    }

    // Returns the value of a key, or null, and records nothing.
    template <class K = Key> const Value *peek(const argument<K> &key) const {
        const timed *found = entries_.peek(key);
        return found != nullptr && Clock::now() < found->deadline ? std::addressof(found->value) : nullptr;
    }

    // Returns true, or 1, if the key is there, and records nothing.
    template <class K = Key> bool contains(const argument<K> &key) const { return peek(key) != nullptr; }
    template <class K = Key> size_type count(const argument<K> &key) const { return contains(key) ? 1 : 0; }

    // Inserts a key, in place of its entry if it has one, after a hit.
    template <class Other = Value> void put(const Key &key, Other &&value) {
        drop_expired(key);
        entries_.put(key, timed(deadline(), std::forward<Other>(value)));
    }
    template <class Other = Value> void put(Key &&key, Other &&value) {
        drop_expired(key);
        entries_.put(std::move(key), timed(deadline(), std::forward<Other>(value)));
    }

    // Returns the value of a key and false, after a hit; or inserts the key, with a value made of `args`, and
    // returns that and true. Counts a hit or a miss.
    template <class... Args> std::pair<Value *, bool> try_emplace(const Key &key, Args &&...args) {
        drop_expired(key);
        return without_time(entries_.try_emplace(key, deadline(), std::forward<Args>(args)...));
    }
    template <class... Args> std::pair<Value *, bool> try_emplace(Key &&key, Args &&...args) {
        drop_expired(key);
        return without_time(entries_.try_emplace(std::move(key), deadline(), std::forward<Args>(args)...));
    }

    // Returns the value of a key and false, after a hit; or inserts the key with the value that `make` returns, whose
    // time begins then, and returns that and true. Counts a hit or a miss.
    template <class Make> std::pair<Value *, bool> get_or_insert_with(const Key &key, Make &&make) {
        drop_expired(key);
        return without_time(entries_.get_or_insert_with(key, [&] { return made_with(make); }));
    }
    template <class Make> std::pair<Value *, bool> get_or_insert_with(Key &&key, Make &&make) {
        drop_expired(key);
        return without_time(entries_.get_or_insert_with(std::move(key), [&] { return made_with(make); }));
    }

    // Takes a key out, and returns how many entries left that hadn't expired: 1 or 0.
    template <class K = Key> size_type erase(const argument<K> &key) {
        drop_expired(key);
        return entries_.erase(key);
    }

    // Takes out the entry that would have to leave next, and returns true if there was one.
    bool evict() noexcept { return !entries_.evict().empty(); }

    // Takes out all entries that have expired, and returns how many. Takes time in proportion to the capacity.
    size_type expire() noexcept {
        if (entries_.state_ == nullptr) return 0;
        auto &state = *entries_.state_;
        leaving left = state.none_left();
        size_type before = size();
        const auto now = Clock::now();
        for (node *at : state.nodes) {
            if (at != nullptr && !(now < at->entry.second.deadline)) take_out(at, left);
        }
        return before - size();
    }

    // Takes all entries out, and forgets all keys. Takes time in proportion to the capacity.
    void clear() noexcept { entries_.clear(); }

    // Does what `cache::resize` does.
    void resize(size_type capacity) { entries_.resize(capacity); }

    // Calls a function with each key and value that hasn't expired, in no order that is kept. The function doesn't
    // call the cache.
    template <class See> void for_each(See see) const {
        const auto now = Clock::now();
        for (const auto &entry : entries_) {
            if (now < entry.second.deadline) see(entry.first, entry.second.value);
        }
    }

    size_type size() const noexcept { return entries_.size(); }
    bool empty() const noexcept { return entries_.empty(); }
    size_type capacity() const noexcept { return entries_.capacity(); }
    // Returns how long an entry is there after it was stored.
    duration ttl() const noexcept { return ttl_; }
    // Return how many keys `get`, `try_emplace` and `get_or_insert_with` have found, and how many they haven't.
    std::uint64_t hits() const noexcept { return entries_.hits(); }
    std::uint64_t misses() const noexcept { return entries_.misses(); }

    void swap(expiring_cache &other) noexcept {
        entries_.swap(other.entries_);
        std::swap(ttl_, other.ttl_);
    }
    friend void swap(expiring_cache &one, expiring_cache &other) noexcept { one.swap(other); }

  private:
    static auto heard_by(Listener listener) {
        if constexpr (listens) return untimed{std::move(listener)};
        else return listener;
    }
    static duration above_zero(duration ttl) {
        if (!(ttl > duration::zero())) throw std::invalid_argument("clock2q: a ttl is above 0");
        return ttl;
    }
    typename Clock::time_point deadline() const { return Clock::now() + ttl_; }
    template <class Make> timed made_with(Make &make) const {
        Value value = make();
        return timed(deadline(), std::move(value));
    }
    static Value *value_of(node *at) noexcept {
        return at == nullptr ? nullptr : std::addressof(at->entry.second.value);
    }
    static std::pair<Value *, bool> without_time(std::pair<timed *, bool> found) noexcept {
        return {std::addressof(found.first->value), found.second};
    }

    // Takes out a node that has expired.
    void take_out(node *found, leaving &left) noexcept {
        entries_.state_->unlink(found);
        entries::state::template note_left<reason::expired>(found);
        found->next = nullptr;
        left.add(found);
    }

    // The node of a key, or null. If that has expired, it leaves.
    template <class K> node *live(const K &key, leaving &left) {
        node *found = entries_.state_->find(key, entries_.hash_of(key), left);
        if (found == nullptr || Clock::now() < found->entry.second.deadline) return found;
        take_out(found, left);
        return nullptr;
    }

    // Has the entry of a key leave if it has expired.
    template <class K> void drop_expired(const K &key) {
        if (entries_.state_ == nullptr) return;
        leaving left = entries_.state_->none_left();
        live(key, left);
    }

    entries entries_;
    duration ttl_;
};

// A cache that says which entries leave, and why.
template <class Key, class Value, class Listener = std::function<void(const Key &, Value &, reason)>,
          class Hash = std::hash<Key>, class Equal = std::equal_to<Key>>
using listening_cache = cache<Key, Value, Hash, Equal, Listener>;

// The same of one whose entries have weights:
//
//     clock2q::listening_weighted_cache<std::string, page> pages(1000, 1 << 20, size_of, write_back);
template <class Key, class Value, class Weigher = std::function<std::uint64_t(const Key &, const Value &)>,
          class Listener = std::function<void(const Key &, const Value &, reason)>, class Hash = std::hash<Key>,
          class Equal = std::equal_to<Key>>
using listening_weighted_cache = weighted_cache<Key, Value, Weigher, Hash, Equal, Listener>;

} // namespace clock2q

#endif // C++17
#endif
