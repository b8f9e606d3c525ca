#!/usr/bin/env python3
"""models.py: prints data/modelled, cases of simulations whose hits policies over lists work out here, which are
searched and shifted. `./models.py >data/modelled` writes it anew, and .ci/written compares the two.
"""


def evict_unmarked(queue):
    """Evicts the first key without a mark. The keys before it go to the end, with one mark less."""
    while queue:
        key, mark = queue.pop(0)
        if mark == 0:
            return
        queue.append([key, mark - 1])


def marked(queue, key, most):
    """Marks a key if it is there, and returns whether it is."""
    for entry in queue:
        if entry[0] == key:
            entry[1] = min(entry[1] + 1, most)
            return True
    return False


def taken(keys, key):
    """Removes a key from a list, and returns whether it was there."""
    there = key in keys
    if there:
        keys.remove(key)
    return there


class Lru:
    def __init__(self, room):
        self.room, self.keys = room, []

    def access(self, key):
        hit = taken(self.keys, key)
        self.keys.append(key)
        del self.keys[: -self.room]
        return hit


class Fifo:
    def __init__(self, room):
        self.room, self.keys = room, []

    def access(self, key):
        hit = key in self.keys
        if not hit:
            self.keys.append(key)
            del self.keys[: -self.room]
        return hit


class Clock:
    def __init__(self, room):
        self.room, self.queue = room, []

    def access(self, key):
        if marked(self.queue, key, 1):
            return True
        if len(self.queue) >= self.room:
            evict_unmarked(self.queue)
        self.queue.append([key, 0])
        return False


class Sieve:
    def __init__(self, room):
        self.room, self.queue, self.hand = room, [], 0

    def access(self, key):
        if marked(self.queue, key, 1):
            return True
        if len(self.queue) >= self.room:
            self.evict()
        self.queue.append([key, 0])
        return False

    def evict(self):
        while self.queue[self.hand][1]:
            self.queue[self.hand][1] = 0
            self.hand = (self.hand + 1) % len(self.queue)
        del self.queue[self.hand]
        if self.hand == len(self.queue):
            self.hand = 0


class S3Fifo:
    def __init__(self, room):
        self.room, self.small, self.main, self.left = room, [], [], []
        self.tenth = max(room // 10, 1)

    def access(self, key):
        if marked(self.small, key, 3) or marked(self.main, key, 3):
            return True
        while len(self.small) + len(self.main) >= self.room:
            self.evict()
        (self.main if taken(self.left, key) else self.small).append([key, 0])
        return False

    def evict(self):
        """Evicts a key of the small queue if it has its tenth and not all its keys move on."""
        rest = self.room - self.tenth
        if len(self.small) < self.tenth:
            evict_unmarked(self.main)
            return
        while self.small:
            key, mark = self.small.pop(0)
            if mark <= 1:
                self.left = (self.left + [key])[-rest:] if rest else []
                return
            if len(self.main) >= rest:
                evict_unmarked(self.main)
            self.main.append([key, 0])


class Arc:
    """The lists of ARC, as in its authors' figure."""

    def __init__(self, room):
        self.room, self.target = room, 0.0
        self.once, self.again, self.left_once, self.left_again = [], [], [], []

    def access(self, key):
        if taken(self.once, key) or taken(self.again, key):
            self.again.append(key)
            return True
        if not self.comes_back(key):
            self.make_room()
            self.once.append(key)
        return False

    def replace(self, came_from_again):
        once = len(self.once)
        if once >= 1 and (once > self.target or (came_from_again and once == self.target)):
            self.left_once.append(self.once.pop(0))
        elif self.again:
            self.left_again.append(self.again.pop(0))

    def comes_back(self, key):
        """Accesses a key again that was evicted from one of the lists."""
        once, again = len(self.left_once), len(self.left_again)
        if taken(self.left_once, key):
            self.target = min(self.target + max(again / once, 1.0), self.room)
            self.replace(False)
        elif taken(self.left_again, key):
            self.target = max(self.target - max(once / again, 1.0), 0.0)
            self.replace(True)
        else:
            return False
        self.again.append(key)
        return True

    def make_room(self):
        """Makes room for a key that no list has."""
        known_once = len(self.once) + len(self.left_once)
        known = known_once + len(self.again) + len(self.left_again)
        if known_once == self.room and not self.left_once:
            self.once.pop(0)
            return
        if known_once == self.room:
            self.left_once.pop(0)
        elif known == 2 * self.room:
            self.left_again.pop(0)
        if known >= self.room:
            self.replace(False)


class TwoQ:
    def __init__(self, room):
        self.room, self.came, self.left, self.main = room, [], [], []

    def access(self, key):
        if taken(self.main, key):
            self.main.append(key)
            return True
        if key in self.came:
            return True
        came_again = key in self.left
        if len(self.came) + len(self.main) >= self.room:
            self.evict()
        taken(self.left, key)
        (self.main if came_again else self.came).append(key)
        return False

    def evict(self):
        if len(self.came) <= self.room // 4:
            self.main.pop(0)
            return
        self.left.append(self.came.pop(0))
        if len(self.left) > self.room // 2:
            self.left.pop(0)


class Lirs:
    """The stack, from its bottom, of keys that are low or not, and the queue of residents that are high."""

    def __init__(self, room):
        self.room, self.stack, self.queue = room, [], []
        self.most_low = room - max(room // 100, 1)

    def low(self):
        return sum(low for _, low in self.stack)

    def prune(self):
        while self.stack and not self.stack[0][1]:
            self.stack.pop(0)

    def demote(self):
        """Moves the lowest of the low keys to the end of the queue."""
        self.prune()
        if self.stack:
            self.queue.append(self.stack.pop(0)[0])
        self.prune()

    def access(self, key):
        if taken(self.stack, (key, True)):
            self.stack.append((key, True))
            self.prune()
            return True
        came_again = taken(self.stack, (key, False))
        hit = taken(self.queue, key)
        if not hit and self.low() + len(self.queue) >= self.room:
            del self.queue[:1]
        if not came_again and self.low() >= self.most_low:
            self.stack.append((key, False))
            self.queue.append(key)
            return hit
        self.stack.append((key, True))
        if self.low() > self.most_low:
            self.demote()
        return hit


class Lru2:
    """Evicts the resident whose last access but one is oldest; 0 if there was none."""

    def __init__(self, room):
        self.room, self.residents, self.last, self.before, self.now = room, [], {}, {}, 0

    def access(self, key):
        hit = key in self.residents
        if not hit:
            if len(self.residents) >= self.room:
                self.residents.remove(min(self.residents, key=lambda it: (self.before.get(it, 0), self.last[it])))
            self.residents.append(key)
        self.now += 1
        self.before[key] = self.last.get(key, 0)
        self.last[key] = self.now
        return hit


class Counters:
    """Four rows of counters up to 15, each with four for a key of the room, which is rounded up to a power of two. They
    are halved after ten accesses for each key that the cache can hold."""

    FACTORS = (0x9E3779B97F4A7C15, 0xBF58476D1CE4E5B9, 0x94D049BB133111EB, 0xD6E8FEB86659FD93)

    def __init__(self, room):
        self.width, self.most, self.added = 4 << (room - 1).bit_length(), 10 * room, 0
        self.rows = [[0] * self.width for _ in self.FACTORS]

    def places(self, key):
        for row, factor in zip(self.rows, self.FACTORS):
            yield row, ((key + 1) * factor % (1 << 64) >> 32) % self.width

    def add(self, key):
        for row, place in self.places(key):
            row[place] = min(row[place] + 1, 15)
        self.added += 1
        if self.added == self.most:
            self.added //= 2
            self.rows = [[it // 2 for it in row] for row in self.rows]

    def count(self, key):
        return min(row[place] for row, place in self.places(key))


class WTinyLfu:
    def __init__(self, room):
        self.window, self.probation, self.protected, self.counters = [], [], [], Counters(room)
        self.most_in_window = max(room // 100, 1)
        self.main = room - self.most_in_window

    def slide(self):
        """Moves a key out of the window: it is admitted if there is room, or if it was accessed more often than the
        key that would be evicted for it."""
        candidate = self.window.pop(0)
        held = self.probation + self.protected
        if len(held) < self.main:
            self.probation.append(candidate)
        elif held and self.counters.count(candidate) > self.counters.count(held[0]):
            _ = taken(self.probation, held[0]) or taken(self.protected, held[0])
            self.probation.append(candidate)

    def access(self, key):
        self.counters.add(key)
        in_window = taken(self.window, key)
        hit = in_window or key in self.probation or key in self.protected
        if in_window or not hit:
            self.window.append(key)
            if len(self.window) > self.most_in_window:
                self.slide()
            return hit
        _ = taken(self.probation, key) or taken(self.protected, key)
        self.protected.append(key)
        if len(self.protected) > self.main * 4 // 5:
            self.probation.append(self.protected.pop(0))
        return True


class Clock2Q:
    """Clock2Q+ with shares: of Small, as a number of keys, of its window and of the history. Each entry of Small has its
    admissions since, up to the window, and whether it was hit from then on."""

    def __init__(self, room, small, window, history):
        self.room, self.share, self.window, self.most_left = room, small, window, history
        self.small, self.main, self.left = [], [], []

    def access(self, key):
        for entry in self.small:
            if entry[0] == key:
                entry[2] = entry[1] == self.window
                return True
        if marked(self.main, key, 1):
            return True
        came_again = taken(self.left, key)
        has_room = len(self.small) + len(self.main) < self.room
        if came_again or self.share == 0 or (has_room and len(self.small) >= self.share):
            self.join_main(key)
        else:
            if not has_room:
                self.evict()
            self.admit(key)
        return False

    def join_main(self, key):
        if len(self.main) >= self.room - self.share:
            evict_unmarked(self.main)
        self.main.append([key, 0])

    def evict(self):
        """Evicts the oldest key of Small, or of Main if that one moves there."""
        key, _, hit = self.small.pop(0)
        if hit:
            self.join_main(key)
            return
        self.left.append(key)
        del self.left[: max(len(self.left) - self.most_left, 0)]

    def admit(self, key):
        for entry in self.small:
            entry[1] = min(entry[1] + 1, self.window)
        self.small.append([key, 0, False])


def percent(part, whole):
    return max(part * whole // 100, 1)


def usual_shares(room):
    small = percent(10, room) if room > 1 else 0
    return small, (small + 1) // 2, room // 2


def tried_shares():
    """The shares that are tried, as written: percentages of the capacity, of Small, and of the capacity."""
    tried = [(small, window, None) for small in (1, 2, 5, 10, 20, 50) for window in (25, 50, 100)]
    return tried + [(small, 50, history) for small in (1, 10) for history in (0, 25, 90)]


def shares_for(room, small, window, history):
    """The numbers of keys of shares, if they fit together."""
    keys = percent(small, room)
    shares = keys, percent(window, min(keys, room)), room // 2 if history is None else history and percent(history, room)
    return shares if keys < room and shares[1] <= keys and shares[2] <= room else None


def spelled(small, window, history):
    text = f"small={small}%,window={window}%"
    return text if history is None else f"{text},history={history}%" if history else f"{text},history=0"


def best_of(room, trace, skipped):
    """The hits of the usual shares, the most hits of the tried ones, and the first that have them."""
    def counted(shares):
        cache = Clock2Q(room, *shares)
        return sum([cache.access(key) for key in trace][skipped:])

    usual = counted(usual_shares(room))
    most, best = usual, "usual"
    for tried in tried_shares():
        shares = shares_for(room, *tried)
        if shares and (found := counted(shares)) > most:
            most, best = found, spelled(*tried)
    return usual, most, best


def optimal(room, trace):
    """The outcomes of Belady's optimum, which evicts the key that is accessed last or not at all."""
    held, outcomes = [], []
    for at, key in enumerate(trace):
        outcomes.append(key in held)
        if key not in held:
            if len(held) >= room:
                rest = trace[at:]
                held.remove(max(held, key=lambda it: rest.index(it) if it in rest else len(rest)))
            held.append(key)
    return outcomes


def total(queue):
    """The bytes of a queue of lists of a key, a size and a mark."""
    return sum(entry[1] for entry in queue)


def hit_of(queue, key, most=1):
    """Marks a key of such a queue if it is there, and returns whether it is."""
    for entry in queue:
        if entry[0] == key:
            entry[2] = min(entry[2] + 1, most)
            return True
    return False


def swept(queue, room):
    """Evicts keys without a mark until the queue has room bytes. The keys before them go to the end, with a mark less."""
    while total(queue) > room:
        key, size, mark = queue.pop(0)
        if mark:
            queue.append([key, size, mark - 1])


class OfBytes:
    """A number of bytes. A key with a larger size than the cache isn't held."""

    def __init__(self, room):
        self.room, self.queue = room, []

    def access(self, key, size):
        if self.hit(key):
            return True
        if size <= self.room:
            self.make_room(self.room - size)
            self.queue.append([key, size, 0])
        return False


class ClockOfBytes(OfBytes):
    def hit(self, key):
        return hit_of(self.queue, key)

    def make_room(self, room):
        swept(self.queue, room)


class FifoOfBytes(OfBytes):
    def hit(self, key):
        return any(entry[0] == key for entry in self.queue)

    def make_room(self, room):
        while total(self.queue) > room:
            self.queue.pop(0)


class LruOfBytes(FifoOfBytes):
    def hit(self, key):
        self.queue.sort(key=lambda entry: entry[0] == key)
        return bool(self.queue) and self.queue[-1][0] == key


class SieveOfBytes(OfBytes):
    def __init__(self, room):
        super().__init__(room)
        self.hand = 0

    def hit(self, key):
        return hit_of(self.queue, key)

    def make_room(self, room):
        while total(self.queue) > room:
            entry = self.queue[self.hand]
            if entry[2]:
                entry[2] = 0
                self.hand += 1
            else:
                del self.queue[self.hand]
            if self.hand == len(self.queue):
                self.hand = 0


def remembered(left, entry, room):
    """The remembered keys with one more, of which the last have room bytes."""
    left = [*left, entry]
    while left and total(left) > room:
        left = left[1:]
    return left


def recalled(left, key):
    """Removes a key from those that are remembered, and returns whether it was there."""
    there = [entry for entry in left if entry[0] == key]
    for entry in there:
        left.remove(entry)
    return bool(there)


class S3FifoOfBytes:
    """No key larger than the small queue is held."""

    def __init__(self, room):
        self.room, self.tenth = room, max(room // 10, 1)
        self.small, self.main, self.left = [], [], []

    def access(self, key, size):
        if hit_of(self.small, key, 3) or hit_of(self.main, key, 3):
            return True
        if size > self.tenth:
            return False
        while total(self.small) + total(self.main) > self.room - size:
            self.evict()
        (self.main if recalled(self.left, key) else self.small).append([key, size, 0])
        return False

    def evict(self):
        rest = self.room - self.tenth
        if total(self.small) < self.tenth:
            evicted = len(self.main) - 1
            while len(self.main) > evicted:
                key, size, mark = self.main.pop(0)
                self.main += [[key, size, mark - 1]] if mark else []
            return
        while self.small:
            key, size, mark = self.small.pop(0)
            if mark <= 1:
                self.left = remembered(self.left, [key, size, 0], rest)
                return
            swept(self.main, max(rest - size, 0))
            self.main.append([key, size, 0])


class Clock2QOfBytes:
    """An entry of the small queue also has the bytes that entered it later, until which it is young."""

    def __init__(self, room, small=None, window=None, history=None):
        self.room, self.queue, self.main, self.left, self.is_full = room, [], [], [], False
        self.small = (room > 1 and max(room // 10, 1)) if small is None else small
        self.window = (self.small + 1) // 2 if window is None else window
        self.history = room // 2 if history is None else history

    def access(self, key, size):
        for entry in self.queue:
            if entry[0] == key:
                entry[2] = int(entry[3] >= self.window) or entry[2]
                return True
        if hit_of(self.main, key):
            return True
        if size <= self.room:
            self.admit(key, size)
        return False

    def used(self):
        return total(self.queue) + total(self.main)

    def admit(self, key, size):
        lacks = total(self.queue) + size > self.small
        fills = not self.is_full and self.used() + size <= self.room
        goes_to_main = recalled(self.left, key) or not self.small or (fills and lacks)
        while self.used() + size > self.room:
            self.is_full = True
            self.evict(goes_to_main, size)
        if goes_to_main:
            self.main.append([key, size, 0])
            return
        for entry in self.queue:
            entry[3] += size
        self.queue.append([key, size, 0, 0])

    def evict(self, goes_to_main, size):
        rest = self.room - self.small
        if goes_to_main:
            is_from_main = total(self.main) + size > rest
        else:
            is_from_main = total(self.queue) + size <= self.small
        if self.main and (is_from_main or not self.queue):
            evicted = len(self.main) - 1
            while len(self.main) > evicted:
                key, size, mark = self.main.pop(0)
                self.main += [[key, size, 0]] if mark else []
            return
        key, size, mark, _ = self.queue.pop(0)
        if mark:
            swept(self.main, max(rest - size, 0))
            self.main.append([key, size, 0])
        else:
            self.left = remembered(self.left, [key, size, 0], self.history)


POLICIES = {
    "clock": Clock,
    "sieve": Sieve,
    "s3fifo": S3Fifo,
    "arc": Arc,
    "2q": TwoQ,
    "lirs": Lirs,
    "lru2": Lru2,
    "wtinylfu": WTinyLfu,
    "lru": Lru,
    "fifo": Fifo,
}


def outcomes_of(policy, room, trace):
    """The outcomes of a policy, over keys that are numbered as they come."""
    numbers = {}
    for key in trace:
        numbers.setdefault(key, len(numbers))
    keys = [numbers[key] for key in trace]
    if policy == "opt":
        return optimal(room, keys)
    cache = POLICIES[policy](room)
    return [cache.access(key) for key in keys]


def ratio(part, whole):
    return f"{part / whole if whole else 0:.4f}"


def hits(outcomes, sizes, first, last):
    """The columns of a policy for the accesses from one to another."""
    part = outcomes[first:last]
    columns = f",{sum(part)},{ratio(sum(part), len(part))}"
    if sizes:
        found = sum(size for hit, size in zip(part, sizes[first:last]) if hit)
        columns += f",{found},{ratio(found, sum(sizes[first:last]))}"
    return columns


def parts(length, skipped, window):
    """The first and the last access of each window, or of all that are counted."""
    step = window or max(length - skipped, 1)
    starts = range(skipped, length, step) if window else [min(skipped, length)]
    return [(first, min(first + step, length)) for first in starts]


def case(policies, rooms, trace, sizes=(), skipped=0, window=None):
    """Prints the case of a trace in caches for numbers of keys."""
    words = [*map(str, rooms), "--csv", "--policies=" + ",".join(policies), f"--skip={skipped}"]
    head = "capacity" + ",first" * bool(window) + ",accesses" + ",bytes" * bool(sizes)
    for policy in policies:
        head += f",{policy}_hits,{policy}_ratio" + f",{policy}_hit_bytes,{policy}_byte_ratio" * bool(sizes)
    rows = [head]
    for room in rooms:
        outcomes = [outcomes_of(policy, room, trace) for policy in policies]
        for first, last in parts(len(trace), skipped, window):
            row = f"{room}" + f",{first}" * bool(window) + f",{last - first}"
            row += f",{sum(sizes[first:last])}" * bool(sizes)
            rows.append(row + "".join(hits(it, sizes, first, last) for it in outcomes))
    if window:
        words.append(f"--window={window}")
    show(words, trace, sizes, rows, skipped)


def show(words, trace, sizes, rows, skipped):
    """Prints a line of the file."""
    text = "".join(f"{key};" for key in trace)
    if sizes:
        words += ["--format=csv", "--column=1", "--size-column=2"]
        text = "key,size;" + "".join(f"{key},{size};" for key, size in zip(trace, sizes))
    warning = ""
    if skipped >= len(trace):
        warning = f"clock2q-simulate: -: warning: --skip={skipped} leaves none of {len(trace)} accesses to count;"
    print(" ".join(words), text, "".join(row + ";" for row in rows) + warning, sep="|")


OF_BYTES = {
    "lru": LruOfBytes,
    "fifo": FifoOfBytes,
    "clock": ClockOfBytes,
    "sieve": SieveOfBytes,
    "s3fifo": S3FifoOfBytes,
    "clock2q": Clock2QOfBytes,
}


def byte_row(policies, room, trace, sizes, skipped):
    """The columns of a row after its capacity, which are empty for a policy that isn't defined in bytes."""
    row = f",{len(trace) - skipped},{sum(sizes[skipped:])}"
    for policy in policies:
        if policy not in OF_BYTES:
            row += ",,,,"
            continue
        cache = OF_BYTES[policy](room)
        outcomes = [cache.access(key, size) for key, size in zip(trace, sizes)]
        row += hits(outcomes, sizes, skipped, len(trace))
    return row


def case_of_bytes(rooms, policies, trace, sizes, skipped=0):
    """Prints the case of policies in caches for numbers of bytes, or of keys that all have one byte."""
    rows = ["capacity,accesses,bytes"]
    rows[0] += "".join(f",{it}_hits,{it}_ratio,{it}_hit_bytes,{it}_byte_ratio" for it in policies)
    for room in rooms:
        rows.append(room + byte_row(policies, int(room.rstrip("B")), trace, sizes, skipped))
    words = [*rooms, "--csv", "--policies=" + ",".join(policies), f"--skip={skipped}"]
    show(words, trace, sizes, rows, skipped)


def case_of_best_shares(rooms, trace, skipped):
    """Prints the case of Clock2Q+ beside the shares that hit most."""
    rows = ["capacity,accesses,clock2q_hits,clock2q_ratio,best_hits,best_ratio,best_shares"]
    counted = max(len(trace) - skipped, 0)
    for room in rooms:
        usual, most, best = best_of(room, trace, skipped)
        rows.append(f'{room},{counted},{usual},{ratio(usual, counted)},{most},{ratio(most, counted)},"{best}"')
    words = [*map(str, rooms), "--csv", "--policies=clock2q", f"--skip={skipped}", "--best-shares"]
    show(words, trace, (), rows, skipped)


def is_in_fourth(key):
    """Whether a fourth of all keys, chosen by their hashes, has this one."""
    factor, hashed = 11400714819323198485, 1
    for byte in str(key).encode():
        hashed = (hashed + byte) * factor % (1 << 64)
    for _ in range(2):
        hashed = (hashed + (hashed >> 32)) * factor % (1 << 64)
    return (hashed >> 32) * 1_000_000 >> 32 < 250_000


def cases_of_sample(trace, larger, smaller, shares):
    """Prints the case of a fourth of the keys in caches for 40, and of these keys alone in caches for 10: with the shares
    of Clock2Q+ that both have, as written, and as numbers of keys."""
    kept = [key for key in trace if is_in_fourth(key)]
    policies = ["sieve", "s3fifo", "lru", "opt"]
    cache = Clock2Q(10, *shares)
    found = [sum(cache.access(key) for key in kept), *(sum(outcomes_of(it, 10, kept)) for it in policies)]
    head = "capacity,accesses" + "".join(f",{it}_hits,{it}_ratio" for it in ["clock2q", *policies])
    for words, keys, expected in (["40", "--sample=0.25", *larger], trace, len(trace) // 4), (["10", *smaller], kept, len(kept)):
        row = f"{words[0]},{len(kept)}"
        row += "".join(f",{it},{ratio(max(expected - (len(kept) - it), 0), expected)}" for it in found)
        show([*words, "--csv"], keys, (), [head, row], 0)


def cases_of_samples():
    """Prints cases of a sample with each form of shares."""
    trace = [(state >> 33) % 200 for _, state in zip(range(2_000), drawn(1))]
    cases_of_sample(trace, [], [], usual_shares(10))
    for larger, smaller, shares in [
        ("small=20,window=9", "small=5,window=2", (5, 2, 5)),
        ("small=50%,window=9", "small=50%,window=2", (5, 2, 5)),
        ("small=0,window=0", "small=0,window=0", (0, 0, 5)),
        ("small=20,window=9,history=30", "small=5,window=2,history=7", (5, 2, 7)),
        ("history=0,small=10%,window=50%", "history=0,small=10%,window=50%", (1, 1, 0)),
    ]:
        cases_of_sample(trace, [f"--shares={larger}"], [f"--shares={smaller}"], shares)


def drawn(seed):
    """Numbers of 64 bits that a seed determines."""
    while True:
        seed = (seed * 6364136223846793005 + 1442695040888963407) % (1 << 64)
        yield seed


def mixed(seed, length, keys):
    """A trace of keys below a number: a third random, a third skewed, and the rest a loop over half of them."""
    states = [state for _, state in zip(range(length), drawn(seed))]
    third = length // 3
    random = [(state >> 33) % keys for state in states]
    skewed = [chance * ((state >> 17) % keys) // keys for chance, state in zip(random, states)]
    return [*random[:third], *skewed[third : 2 * third], *(at % (keys // 2 + 3) for at in range(2 * third, length))]


def sized(seed, length, most):
    """A skewed trace of keys, and their sizes, which differ from one access to the next."""
    states = [state for _, state in zip(range(length), drawn(seed))]
    keys = [(state >> 33) % ((state >> 50) % most + 1) for state in states]
    return keys, [(key * 37 % 500 + (state >> 44) % 3) for key, state in zip(keys, states)]


def main():
    print("# Cases as in the file `cases`, whose hits models.py works out.")
    others = ["clock", "sieve", "s3fifo", "arc", "2q", "lirs", "lru2", "wtinylfu", "opt"]
    for seed in (1, 2, 3):
        case(others, [1, 2, 3, 7, 10, 20, 22, 30, 41], mixed(seed, 600, 40))
    case(others[4:8], [99, 201, 333], mixed(5, 4_000, 400))
    case(["opt"], [1, 2, 5, 20], mixed(4, 9_000, 40))
    for skipped in (0, 1, 300, 899, 900, 1_000):
        case(["fifo", "lru", "opt"], range(1, 45), mixed(6, 900, 40), (), skipped)
    trace = [*"abacbdabeafbcabda"]
    for window in (None, 5):
        case([*others, "lru", "fifo"], [2, 3], trace, (), 1, window)
    for seed in (1, 7, 99):
        keys, sizes = sized(seed, 300, 90)
        for room, skipped in ((1, 0), (7, 0), (30, 100), (90, 300), (90, 400)):
            case([*others, "lru", "fifo"], [room], keys, sizes, skipped)
    keys, sizes = sized(3, 300, 90)
    case([*others, "lru", "fifo"], [20], keys, sizes, 20, 40)
    in_bytes = ["lru", "fifo", "clock", "sieve", "s3fifo", "clock2q"]
    for seed in (2, 5, 11):
        case_of_bytes(["1B", "400B", "501B", "3000B", "100000B"], ["arc", *in_bytes], *sized(seed, 500, 60))
    case_of_bytes(["3000B", "800B"], ["arc", *in_bytes], *sized(4, 500, 60), 100)
    case_of_bytes(["2", "7", "30", "2B", "7B", "30B"], in_bytes, mixed(8, 600, 40), [1] * 600)
    for skipped in (0, 700, 1_500):
        case_of_best_shares([1, 2, 10, 21, 100, 300], mixed(7, 1_500, 400), skipped)
    cases_of_samples()


if __name__ == "__main__":
    main()
