"""A model of the program in Python: what scripts reply and which files they leave.

It stands apart from the program: it has no merges and no bases. Each commit's value is spelled anew from the operations
that are visible there, by docs/DEFINITIONS.md, and the bytes of the files are those of docs/FORMATS.md, in both layouts.
Files of stores of changes it reads back too, or says why they are none; of other files it reads the beginning alone.
"""
import contextlib
import hashlib
import re

VERSION = 2


@contextlib.contextmanager
def of_version(version):
    """Values are spelled and lines are read as this version has them."""
    global VERSION
    before, VERSION = VERSION, version
    try:
        yield
    finally:
        VERSION = before

LIMITS = {"clock": 2**64 - 1, "commits": 16777216, "branches": 65536, "value": 16777216, "moves": 1099511627776}

KINDS = ["counter", "flag", "lww", "multi", "set", "log", "queue"]


def u32(n):
    return n.to_bytes(4, "big")


def u64(n):
    return n.to_bytes(8, "big")


def byte(n):
    return bytes([n])


def signed(n, size):
    return (n % (1 << (8 * size))).to_bytes(size, "big")


def time_bytes(time):
    return u64(time[0]) + u32(time[1])


def sized(b):
    return u64(len(b)) + b


def address(b):
    return hashlib.sha256(b).digest()


class Event:
    """An operation on a key, with its time, its reply and the commits that it has seen, as bits. The word of one on a
    sequence is the place and the payload."""

    def __init__(self, bit, time, kind, key, verb, word, seen, reply):
        self.bit, self.time, self.kind, self.key = bit, time, kind, key
        self.verb, self.word, self.seen, self.reply = verb, word, seen, reply


def unseen_by(events, hiders):
    """The events that none of the hiders has seen."""
    hidden = 0
    for e in hiders:
        hidden |= e.seen
    return [e for e in events if not hidden >> e.bit & 1]


def with_verb(events, *verbs):
    return [e for e in events if e.verb in verbs]


def live_adds(events):
    """Of a set: the Adds of each element that no operation on it and no Clear has seen."""
    clears = with_verb(events, "clear")
    members = {}
    for element in sorted({e.word for e in with_verb(events, "add")}):
        on = [e for e in with_verb(events, "add", "remove") if e.word == element]
        left = unseen_by(with_verb(on, "add"), on + clears)
        if left:
            members[element] = left
    return members


def content(events):
    """Of a queue: the Enqueues that no Dequeue names in its reply, by rising time."""
    taken = {e.reply[0] for e in with_verb(events, "dequeue") if e.reply}
    return by_time(e for e in with_verb(events, "enqueue") if e.time not in taken)


def reply_of(events, kind, key, verb, word):
    """The reply of an operation behind these events: of a Dequeue the time and the payload that it takes, of an Insert
    the time of the item that it comes behind, and of a Delete that of the item that it hides; or nothing."""
    on = [e for e in events if (e.kind, e.key) == (kind, key)]
    if verb == "dequeue":
        waiting = content(on)
        return (waiting[0].time, waiting[0].word) if waiting else None
    if kind == "seq":
        times = [e.time for e in shown(on)]
        at = min(word[0], len(times)) - 1 if verb == "insert" else word[0]
        return times[at] if 0 <= at < len(times) else None
    return None


def by_time(events):
    return sorted(events, key=lambda e: e.time)


def nodes(events):
    """The Inserts of a sequence, in its order: behind each stand those that came behind it, newest time first."""
    children = {}
    for e in by_time(with_verb(events, "insert")):
        children.setdefault(e.reply, []).append(e)
    order, left = [], children.get(None, [])
    while left:
        order.append(left.pop())
        left = left + children.get(order[-1].time, [])
    return order


def hidden(events):
    """The times of the items of a sequence that were deleted."""
    return {e.reply for e in with_verb(events, "delete")}


def shown(events):
    """The items of a sequence that were not deleted, in its order."""
    gone = hidden(events)
    return [e for e in nodes(events) if e.time not in gone]


def kept(events):
    """What a value of the events' kind keeps."""
    kind = events[0].kind
    if kind == "counter" and VERSION == 1:
        return []
    if kind == "counter":
        return by_time(unseen_by(with_verb(events, "add"), with_verb(events, "reset")))
    if kind == "flag":
        return by_time(unseen_by(with_verb(events, "enable"), events))
    if kind == "lww":
        return by_time(events)[-1:]
    if kind == "multi":
        return by_time(unseen_by(events, events))
    if kind == "log":
        return by_time(events)
    if kind == "queue":
        return content(events)
    if kind == "seq":
        return nodes(events)
    return []


def spelling(kind, events):
    """The bytes of a value that has these events, all on one key."""
    if kind == "set":
        members = live_adds(events)
        out = u64(len(members))
        for element, adds in members.items():
            times = [e.time for e in by_time(adds)]
            out += sized(element) + u64(len(times)) + b"".join(map(time_bytes, times))
        return out
    if kind == "counter" and VERSION == 1:
        return signed(sum(e.word for e in events), 16)
    items = kept(events)
    if kind == "lww":
        return b"\1" + time_bytes(items[0].time) + sized(items[0].word)
    out, gone = u64(len(items)), hidden(events)
    for e in items:
        out += time_bytes(e.time)
        if kind == "seq":
            payload = b"" if e.time in gone else e.word[1]
            out += place_bytes(e.reply) + byte(e.time in gone) + sized(payload)
        elif kind == "counter":
            out += signed(e.word, 8)
        elif kind != "flag":
            out += sized(e.word)
    return out


def place_bytes(time):
    """The bytes of a time, or of none."""
    return b"\0" if time is None else b"\1" + time_bytes(time)


def mapped(kind, events):
    """The bytes of the map of one kind."""
    keys = {}
    for e in events:
        if e.kind == kind:
            keys.setdefault(e.key, []).append(e)
    out = u64(len(keys))
    for key in sorted(keys):
        out += sized(key) + sized(spelling(kind, keys[key]))
    return out


def document(events, sequences=False):
    """The bytes of the document that has these events, without sequences or with them."""
    maps = [mapped(kind, events) for kind in KINDS]
    out = b"".join(sized(m) for m in maps[:-1]) + maps[-1]
    return sized(out) + mapped("seq", events) if sequences else out


def operation(kind, key, verb, word, sequences=False):
    """The bytes of an operation, in a store without sequences or with them."""
    if kind == "seq":
        place, payload = word
        return b"\2" + sized(key) + byte(1 if verb == "insert" else 2) + u32(place) + payload
    inner = {
        ("counter", "add"): lambda: signed(word, 8),
        ("counter", "reset"): lambda: b"",
        ("flag", "enable"): lambda: b"\1",
        ("flag", "disable"): lambda: b"\2",
        ("lww", "set"): lambda: word,
        ("multi", "set"): lambda: word,
        ("set", "add"): lambda: b"\1" + word,
        ("set", "remove"): lambda: b"\2" + word,
        ("set", "clear"): lambda: b"\3",
        ("log", "append"): lambda: word,
        ("queue", "enqueue"): lambda: b"\1" + word,
        ("queue", "dequeue"): lambda: b"\2",
    }[kind, verb]()
    return side(kind, sequences) + sized(key) + inner


def side(kind, sequences):
    """Which map of the document it is."""
    at = KINDS.index(kind)
    return b"\1" * sequences + b"\2" * at + (b"\1" if at < 6 else b"")


def reply_bytes(kind, verb, reply, sequences=False):
    if kind == "seq":
        return b"\2" + place_bytes(reply)
    inner = b""
    if verb == "dequeue":
        inner = b"\1" + time_bytes(reply[0]) + reply[1] if reply else b"\0"
    return side(kind, sequences) + inner


class Commit:
    def __init__(self, parents, origin, clock, reach, event, value, address):
        self.parents, self.origin, self.clock, self.reach = parents, origin, clock, reach
        self.event, self.value, self.address = event, value, address


class Refused(Exception):
    pass


def value_object(value):
    return b"\1" + sized(value)


def commit_object(parents, origin, clock, value, action):
    """The object of a commit: with the address of its value's object, or without one, in a store of changes."""
    body = u64(len(parents)) + b"".join(parents) + u32(origin) + u64(clock) + (value or b"") + action
    return (b"\3" if value is None else b"\2") + sized(body)


class Store:
    """A store: its commits, its branches and the bytes of both files. Branch r has the origin that lies r above the first.
    Its documents have sequences or not. It is a whole store, or one of changes, which keeps the commits' objects alone."""

    def __init__(self, origin=0, sequences=False, changes=False, **limits):
        self.limits, self.origin, self.version, self.log = {**LIMITS, **limits}, origin, VERSION, []
        self.sequences, self.changes = sequences, changes
        self.commits, self.branches, self.moves = [], [[b"main", 0]], 0
        self.dropped, self.records = set(), []
        self.stored = {}
        self.objects = b"MRDTOBJS" + u32(VERSION) + bytes(4)
        self.heads = b"\1MRDTHEAD" + u32(VERSION) + self.limit_bytes() + byte(sequences) + u32(origin) + byte(changes) + bytes(13) + b"\0"
        root = self.put_object(commit_object([], 0, 0, self.put_value(self.value([])), b"\0"))
        self.commits.append(Commit([], 0, 0, 1, None, self.value([]), root))

    def value(self, events):
        """The bytes of the value that has these events."""
        return document(events, self.sequences)

    def operation(self, kind, key, verb, word):
        return operation(kind, key, verb, word, self.sequences)

    def reply_bytes(self, kind, verb, reply):
        return reply_bytes(kind, verb, reply, self.sequences)

    def limit_bytes(self):
        of = self.limits
        return u64(of["clock"]) + u32(of["commits"]) + u32(of["branches"]) + u64(of["value"]) + u64(of["moves"])

    def put_object(self, b):
        name = address(b)
        if name not in self.stored:
            self.stored[name] = b
            self.objects += b
        return name

    def put_value(self, value):
        """Stores the object of a value, and gives its address; a store of changes keeps none."""
        return None if self.changes else self.put_object(value_object(value))

    def item(self, value, commit):
        """The objects of a commit that are sent: its value's and its own, or its own alone."""
        return (commit,) if self.changes else (value_object(value), commit)

    def put_record(self, kind, branch, other, rest):
        record = bytes([1, kind]) + u32(branch) + u32(other) + u64(len(self.objects)) + rest.ljust(32, b"\0") + bytes(14)
        self.heads = self.heads[:-1] + record + b"\0"
        self.records.append((kind, branch, other, rest, len(self.commits) - 1))
        self.moves += 1

    def visible(self, commit):
        reach = self.commits[commit].reach
        return [c.event for at, c in enumerate(self.commits) if c.event and reach >> at & 1]

    def find(self, name):
        for number, branch in enumerate(self.branches):
            if branch[0] == name and number not in self.dropped:
                return number
        raise Refused("error unknown " + name.decode())

    def reaches(self, above, below):
        return bool(self.commits[above].reach >> below & 1)

    def add_commit(self, parents, origin, clock, event, action, value):
        number, reach = len(self.commits), 1 << len(self.commits)
        for parent in parents:
            reach |= self.commits[parent].reach
        stored = self.put_value(value)
        above = [self.commits[p].address for p in parents]
        name = self.put_object(commit_object(above, origin, clock, stored, action))
        self.commits.append(Commit(parents, origin, clock, reach, event, value, name))
        return number, name

    def check_kept(self, branch):
        if branch in self.dropped:
            raise Refused(f"error dropped {branch}")

    def check_land(self, branch, seen, makes_commit):
        self.check_kept(branch)
        newest = self.branches[branch][1]
        if newest != seen:
            raise Refused(f"stale {self.branches[branch][0].decode()} at #{newest}")
        if makes_commit and len(self.commits) == self.limits["commits"]:
            raise Refused(f"error full commits {len(self.commits)}")
        self.check_moves()

    def check_moves(self):
        if self.moves == self.limits["moves"]:
            raise Refused(f"error full moves {self.moves}")

    def check_value(self, length):
        if length > self.limits["value"]:
            raise Refused(f"error too large {length}")

    def land(self, branch, seen, kind, key, verb, word):
        """An operation of a session that sees a commit of the branch. Gives its commit, its time and its reply."""
        head = self.commits[seen]
        if head.clock == self.limits["clock"]:
            raise Refused(f"error exhausted {head.clock}")
        time = (head.clock + 1, self.origin + branch)
        before = self.visible(seen)
        reply = reply_of(before, kind, key, verb, word)
        event = Event(len(self.commits), time, kind, key, verb, word, head.reach, reply)
        value = self.value(before + [event])
        op, back = self.operation(kind, key, verb, word), self.reply_bytes(kind, verb, reply)
        self.check_value(len(value) + len(op) + len(back))
        self.check_land(branch, seen, True)
        action = b"\1" + sized(op) + sized(back)
        number, name = self.add_commit([seen], time[1], time[0], event, action, value)
        self.branches[branch][1] = number
        self.put_record(2, branch, 0, name)
        self.log.append(lambda store: store.land(branch, seen, kind, key, verb, word))
        return number, time, reply

    def merge(self, branch, seen, other):
        """Merges a commit. Gives the kind of the move and the new head."""
        if self.reaches(seen, other):
            return "same", seen
        if self.reaches(other, seen):
            self.check_land(branch, seen, False)
            self.branches[branch][1] = other
            self.put_record(4, branch, other, b"")
            self.log.append(lambda store: store.merge(branch, seen, other))
            return "forward", other
        reach = self.commits[seen].reach | self.commits[other].reach
        value = self.value([c.event for at, c in enumerate(self.commits) if c.event and reach >> at & 1])
        self.check_value(len(value))
        self.check_land(branch, seen, True)
        clock = max(self.commits[seen].clock, self.commits[other].clock)
        number, name = self.add_commit([seen, other], self.origin + branch, clock, None, b"\2", value)
        self.branches[branch][1] = number
        self.put_record(3, branch, other, name)
        self.log.append(lambda store: store.merge(branch, seen, other))
        return "merged", number

    def brought(self, seen, others):
        """What a merge of these commits brings to the one that is seen: each once, and none that this or another reaches."""
        once = list(dict.fromkeys(others))
        return [n for n in once if not self.reaches(seen, n) and not any(k != n and self.reaches(k, n) for k in once)]

    def join(self, branch, seen, others):
        """Merges several commits at once. Gives the kind of the move and the new head."""
        brought = self.brought(seen, others)
        if not brought:
            return "same", seen
        if len(brought) == 1:
            return self.merge(branch, seen, brought[0])
        parents = [seen] + brought
        reach = 0
        for parent in parents:
            reach |= self.commits[parent].reach
        value = self.value([c.event for at, c in enumerate(self.commits) if c.event and reach >> at & 1])
        self.check_value(len(value))
        self.check_land(branch, seen, True)
        clock = max(self.commits[parent].clock for parent in parents)
        number, _ = self.add_commit(parents, self.origin + branch, clock, None, b"\2", value)
        self.branches[branch][1] = number
        self.put_record(5, branch, len(brought), b"".join(u32(n) for n in brought))
        return "joined", number

    def fork(self, new, of):
        number = self.find(of)
        for taken, branch in enumerate(self.branches):
            if branch[0] == new and taken not in self.dropped:
                raise Refused(f"error taken {taken}")
        if len(self.branches) == self.limits["branches"]:
            raise Refused(f"error full branches {len(self.branches)}")
        self.check_moves()
        self.branches.append([new, self.branches[number][1]])
        self.put_record(1, len(self.branches) - 1, number, new)
        self.log.append(lambda store: store.fork(new, of))
        return len(self.branches) - 1, self.branches[-1][1]

    def place(self, new, commit):
        """A new branch at a commit."""
        for taken, branch in enumerate(self.branches):
            if branch[0] == new and taken not in self.dropped:
                raise Refused(f"error taken {taken}")
        if len(self.branches) == self.limits["branches"]:
            raise Refused(f"error full branches {len(self.branches)}")
        self.check_moves()
        self.branches.append([new, commit])
        self.put_record(7, len(self.branches) - 1, commit, new)
        return len(self.branches) - 1, commit

    def drop(self, branch, seen):
        """Drops a branch from the head that is seen. Gives its name."""
        self.check_kept(branch)
        if branch == 0:
            raise Refused("error keeps main")
        name, newest = self.branches[branch]
        if newest != seen:
            raise Refused(f"stale {name.decode()} at #{newest}")
        self.check_moves()
        self.dropped.add(branch)
        self.put_record(8, branch, 0, b"")
        return name

    def holds_item(self, item):
        """The first commit with the objects of an item."""
        for number, of in enumerate(self.commits):
            if self.item(of.value, self.stored[of.address]) == item:
                return number
        return None

    def send(self, branch, here=()):
        """The bundle of a branch's head, for one that has the commits with these addresses."""
        tip = self.branches[self.find(branch)][1]
        left = 1
        for of in self.commits:
            left |= of.reach if of.address in here else 0
        sent = [of for number, of in enumerate(self.commits) if self.commits[tip].reach & ~left & 1 << number]
        return Bundle(self.commits[tip].address, [self.item(of.value, self.stored[of.address]) for of in sent], self.changes)

    def receive(self, text, name):
        """Receives the bytes of a bundle as a new branch, and says what came of it."""
        for taken, branch in enumerate(self.branches):
            if branch[0] == name and taken not in self.dropped:
                raise Refused(f"refused taken {taken}")
        try:
            bundle = read_bundle(text, self.changes)
        except Malformed:
            raise Refused("refused bundle 0") from None
        count = 0
        for number, item in enumerate(bundle.items, 1):
            if self.holds_item(item) is None:
                self.receive_item(number, item)
                count += 1
        tip = self.at_address(bundle.tip)
        if tip is None:
            raise Refused("refused bundle 0")
        if len(self.branches) == self.limits["branches"]:
            raise Refused(f"refused full branches {len(self.branches)}")
        self.check_received_moves()
        self.branches.append([name, tip])
        self.put_record(7, len(self.branches) - 1, tip, name)
        return f"received {count} as {len(self.branches) - 1} at #{tip}"

    def at_address(self, address):
        """The first commit with an address."""
        return next((number for number, of in enumerate(self.commits) if of.address == address), None)

    def check_received_moves(self):
        if self.moves == self.limits["moves"]:
            raise Refused(f"refused full moves {self.moves}")

    def receive_item(self, number, item):
        """Takes an item as a new commit, if it is what its parents and its operation make of it."""
        try:
            of = read_commit(item, self.sequences, self.changes)
        except Malformed:
            raise Refused(f"refused bundle {number}") from None
        parents = [self.at_address(parent) for parent in of.parents]
        if None in parents or not (len(parents) == 1 or self.are_merged(parents)):
            raise Refused(f"refused bundle {number}")
        clock, reach, event, action = max(self.commits[parent].clock for parent in parents), 0, None, b"\2"
        for parent in parents:
            reach |= self.commits[parent].reach
        events = [c.event for commit, c in enumerate(self.commits) if c.event and reach >> commit & 1]
        size = 0
        if of.operation:
            clock += 1
            kind, key, verb, word = of.operation
            event = Event(len(self.commits), (clock, of.origin), kind, key, verb, word, reach, reply_of(events, kind, key, verb, word))
            events = events + [event]
            op, back = self.operation(kind, key, verb, word), self.reply_bytes(kind, verb, event.reply)
            action = b"\1" + sized(op) + sized(back)
            size = len(op) + len(back)
        value = self.value(events)
        made = None if self.changes else address(value_object(value))
        if item != self.item(value, commit_object(of.parents, of.origin, clock, made, action)):
            raise Refused(f"refused bundle {number}")
        self.check_received(number, of.origin, clock, event, size + len(value))
        _, name = self.add_commit(parents, of.origin, clock, event, action, value)
        self.put_record(6, 0, 0, name)

    def are_merged(self, parents):
        """Whether a merge may have these parents, the first of which is the head that was seen."""
        seen, others = parents[0], parents[1:]
        return self.brought(seen, others) == others and not (len(others) == 1 and self.reaches(others[0], seen))

    def check_received(self, number, origin, clock, event, size):
        if self.origin <= origin < self.origin + self.limits["branches"]:
            raise Refused(f"refused own origin {number}")
        for commit, of in enumerate(self.commits):
            if event and of.event and of.event.time == event.time:
                raise Refused(f"refused time clash {number} with #{commit}")
        if clock > self.limits["clock"]:
            raise Refused(f"refused exhausted {self.limits['clock']}")
        if size > self.limits["value"]:
            raise Refused(f"refused too large {size}")
        if len(self.commits) == self.limits["commits"]:
            raise Refused(f"refused full commits {len(self.commits)}")
        self.check_received_moves()

    def upgraded(self):
        """The store of the next version with the same moves, as far as that makes them, and what upgrading it says."""
        with of_version(self.version + 1):
            store = Store(**self.limits)
            for move in self.log:
                try:
                    move(store)
                except Refused:
                    return store, f"refused upgrade {len(store.commits)}"
        return store, f"upgraded {store.moves}"

    def live(self):
        """The commits that the heads of branches reach that were not dropped, as bits."""
        live = 0
        for number, (_, head) in enumerate(self.branches):
            live |= 0 if number in self.dropped else self.commits[head].reach
        return live

    def compacted(self):
        """The store without the moves whose commits are not live, and what compacting says."""
        live = self.live()
        kept = [n for n in range(len(self.commits)) if live >> n & 1]
        new = {n: at for at, n in enumerate(kept)}
        store = Store(self.origin, self.sequences, self.changes, **self.limits)

        def bits(of):
            return sum(1 << at for at, n in enumerate(kept) if of >> n & 1)

        def carried(n):
            of, event = self.commits[n], self.commits[n].event
            if event:
                event = Event(new[n], event.time, event.kind, event.key, event.verb, event.word, bits(event.seen), event.reply)
            return Commit([new[p] for p in of.parents], of.origin, of.clock, bits(of.reach), event, of.value, of.address)

        for kind, branch, other, rest, commit in self.records:
            if kind in (2, 3, 5, 6):
                if commit not in new:
                    continue
                store.put_value(self.commits[commit].value)
                assert store.put_object(self.stored[self.commits[commit].address]) == self.commits[commit].address
                store.commits.append(carried(commit))
                assert len(store.commits) == new[commit] + 1
                if kind != 6:
                    store.branches[branch][1] = new[commit]
            if kind == 7 and other not in new:
                kind, other = 1, 0
            if kind == 1:
                store.branches.append([rest, store.branches[other][1]])
            elif kind == 4:
                if other not in new:
                    continue
                store.branches[branch][1] = new[other]
            elif kind == 7:
                store.branches.append([rest, new[other]])
            elif kind == 8:
                store.dropped.add(branch)
            if kind in (3, 4, 7):
                other = new[other]
            elif kind == 5:
                rest = b"".join(u32(new[int.from_bytes(rest[at:at + 4], "big")]) for at in range(0, len(rest), 4))
            store.put_record(kind, branch, other, rest)
        return store, f"compacted {store.moves} of {self.moves}"

    def report(self):
        kept = [branch for number, branch in enumerate(self.branches) if number not in self.dropped]
        lines = [f"branch {name.decode()} #{head}" for name, head in kept]
        return lines + [f"moves {self.moves} commits {len(self.commits)} branches {len(self.branches)}"]


class Bundle:
    """What one store sends to another: the address of a commit, and of each commit that is sent its value's object and its own,
    or its own alone, between stores of changes."""

    def __init__(self, tip, items, changes=False):
        self.tip, self.items, self.changes = tip, items, changes

    def bytes(self):
        return b"MRDTBNDL" + u32(1 + self.changes) + self.tip + u64(len(self.items)) + b"".join(map(b"".join, self.items))


class Malformed(Exception):
    """Bytes that do not have the form that is asked for."""


class Reader:
    """Takes fields from bytes, one behind another."""

    def __init__(self, b):
        self.rest, self.taken = b, b""

    def take(self, count):
        if count > len(self.rest):
            raise Malformed
        self.taken, self.rest = self.rest[:count], self.rest[count:]
        return self.taken

    def number(self, size=8):
        return int.from_bytes(self.take(size), "big")

    def sized(self):
        return self.take(self.number())

    def object(self):
        kind = self.take(1)
        return kind + sized(self.sized())

    def end(self):
        if self.rest:
            raise Malformed


def read_bundle(b, changes=False):
    """The bundle that has these bytes. Its objects are of any kind, and hold anything."""
    of = Reader(b)
    if of.take(12) != b"MRDTBNDL" + u32(1 + changes):
        raise Malformed
    tip, count, items = of.take(32), of.number(), []
    while len(items) < count:
        items.append((of.object(),) if changes else (of.object(), of.object()))
    of.end()
    return Bundle(tip, items, changes)


class Sent:
    """What the object of a commit says that is sent: the addresses of its parents, its origin, and its operation, or nothing."""

    def __init__(self, parents, origin, op):
        self.parents, self.origin, self.operation = parents, origin, op


def read_commit(item, sequences=False, changes=False):
    """What an item says: the object of a value, and that of the commit of an operation or of a merge; or the latter alone."""
    commit = item[-1]
    if [of[:1] for of in item] != ([b"\3"] if changes else [b"\1", b"\2"]):
        raise Malformed
    body = Reader(commit[9:])
    count = body.number()
    if count > len(commit):
        raise Malformed
    parents = [body.take(32) for _ in range(count)]
    origin, _, _, kind = body.number(4), body.number(), body.take(0 if changes else 32), body.take(1)
    if (kind, count) == (b"\1", 1):
        op = read_operation(body.sized(), sequences)
        check_reply(body.sized(), sequences)
    elif kind == b"\2" and 2 <= count <= 9:
        op = None
    else:
        raise Malformed
    body.end()
    return Sent(parents, origin, op)


FIRST_BYTES = {("flag", 1): "enable", ("flag", 2): "disable", ("set", 1): "add", ("set", 2): "remove", ("set", 3): "clear",
               ("queue", 1): "enqueue", ("queue", 2): "dequeue"}
ALONE = {"lww": "set", "multi": "set", "log": "append"}


def read_on_sequence(of):
    """The operation on a sequence whose bytes are left: its kind, its key, its verb, and its place and payload."""
    key, verb, place = of.sized(), {1: "insert", 2: "delete"}.get(of.number(1)), of.number(4)
    if verb is None or verb == "delete" and of.rest:
        raise Malformed
    return "seq", key, verb, (place, of.rest)


def read_operation(b, sequences=False):
    """The operation that has these bytes: its kind, its key, its verb and its word."""
    of, depth = Reader(b), 0
    if sequences:
        which = of.number(1)
        if which == 2:
            return read_on_sequence(of)
        if which != 1:
            raise Malformed
    while depth < 6:
        which = of.number(1)
        if which == 1:
            break
        if which != 2:
            raise Malformed
        depth += 1
    kind, key, rest = KINDS[depth], of.sized(), of.rest
    if kind == "counter" and not rest:
        return kind, key, "reset", b""
    if kind == "counter" and len(rest) == 8:
        return kind, key, "add", int.from_bytes(rest, "big", signed=True)
    if kind in ALONE:
        return kind, key, ALONE[kind], rest
    verb = FIRST_BYTES.get((kind, rest[0])) if rest else None
    if verb is None or rest[1:] and not DO[kind][verb]:
        raise Malformed
    return kind, key, verb, rest[1:]


def check_reply(b, sequences):
    """Bytes spell a reply of the document, to whatever operation."""
    of = Reader(b)
    if sequences:
        which = of.number(1)
        if which == 2:
            check_place(of)
            return of.end()
        if which != 1:
            raise Malformed
    depth = 0
    while depth < 6:
        which = of.number(1)
        if which == 1:
            break
        if which != 2:
            raise Malformed
        depth += 1
    if KINDS[depth] == "queue" and of.rest:
        took = of.number(1)
        if took == 1:
            of.take(12)
        elif took or of.rest:
            raise Malformed
    elif of.rest:
        raise Malformed


def check_place(of):
    """The next bytes are a time, or none."""
    if of.number(1) not in (0, 1):
        raise Malformed
    of.take(12 if of.taken == b"\1" else 0)


RANGES = {"clock": 2**64 - 1, "commits": 2**32 - 1, "branches": 2**32 - 1, "value": 2**30, "moves": 2**48}


def read_files(objects, heads):
    """The store that files are of. Refuses them with the first rule that they break. Of a whole store it reads no record."""
    if len(heads) < 65:
        raise Refused("refused not a store")
    sizes = [("clock", 8), ("commits", 4), ("branches", 4), ("value", 8), ("moves", 8)]
    header = Reader(heads[13:64])
    limits = {name: header.number(size) for name, size in sizes}
    kind, origin, layout, rest = header.number(1), header.number(4), header.number(1), header.rest
    fits = heads[:13] == b"\1MRDTHEAD" + u32(2) and all(1 <= limits[name] <= most for name, most in RANGES.items())
    fits = fits and kind < 2 and origin + limits["branches"] <= 2**32 and layout < 2 and not any(rest)
    if not fits:
        raise Refused("refused not a store")
    store = Store(origin, kind == 1, layout == 1, **limits)
    if not objects.startswith(store.objects):
        raise Refused("refused not a store")
    assert layout == 1 or heads[64:65] != b"\1"
    while read_record(store, objects, heads):
        pass
    return store


def read_record(store, objects, heads):
    """One more move, if there is one."""
    number, place, before = store.moves + 1, len(store.heads) - 1, len(store.objects)
    if heads[place:place + 1] != b"\1":
        return False
    if len(heads) < place + 65:
        raise Refused(f"refused truncated heads {place}")
    of = Reader(heads[place + 1:place + 64])
    kind, branch, other, end, body = of.number(1), of.number(4), of.number(4), of.number(), of.take(32)
    if any(of.rest) or not may_come(store, kind, branch, other, end, body):
        raise Refused(f"refused record {number}")
    if end > len(objects):
        raise Refused(f"refused truncated objects {before}")
    if kind in (2, 3, 5, 6):
        read_new_commit(store, kind, branch, other, body, objects[before:end])
        assert store.objects == objects[:end]
    elif kind == 1:
        store.branches.append([body.rstrip(b"\0"), store.branches[other][1]])
        store.put_record(1, branch, other, body.rstrip(b"\0"))
    elif kind == 4:
        store.merge(branch, store.branches[branch][1], other)
    elif kind == 7:
        store.branches.append([body.rstrip(b"\0"), other])
        store.put_record(7, branch, other, body.rstrip(b"\0"))
    else:
        store.drop(branch, store.branches[branch][1])
    return True


def may_come(store, kind, branch, other, end, body):
    """Whether a record may come there, by itself."""
    count, here, room = len(store.commits), len(store.objects), len(store.commits) < store.limits["commits"]
    if not 1 <= kind <= 8 or store.moves == store.limits["moves"]:
        return False
    if kind not in (1, 6, 7) and (branch >= len(store.branches) or branch in store.dropped):
        return False
    if kind in (1, 7):
        name = body.rstrip(b"\0")
        taken = [name == of[0] for at, of in enumerate(store.branches) if at not in store.dropped]
        if branch != len(store.branches) or branch == store.limits["branches"] or not NAME.match(name) or any(taken) or end != here:
            return False
        return other < count if kind == 7 else other < len(store.branches) and other not in store.dropped
    if kind == 6:
        return branch == other == 0 and end > here
    head = store.branches[branch][1]
    if kind == 2:
        return other == 0 and end > here and room and store.commits[head].clock < store.limits["clock"]
    if kind == 3:
        return other < count and not store.reaches(head, other) and not store.reaches(other, head) and end > here and room
    if kind == 4:
        return other < count and other != head and store.reaches(other, head) and end == here and not any(body)
    if kind == 8:
        return branch != 0 and other == 0 and not any(body) and end == here
    joined = [int.from_bytes(body[at:at + 4], "big") for at in range(0, 32, 4)]
    if not 2 <= other <= 8 or any(body[4 * other:]) or any(n >= count for n in joined[:other]):
        return False
    return store.brought(head, joined[:other]) == joined[:other] and end > here and room


def read_new_commit(store, kind, branch, other, body, region):
    """The commit of a record, made anew from what its object says."""
    try:
        of = Reader(region)
        commit = of.object()
        of.end()
        said = read_commit((commit,), store.sequences, True)
        if kind == 2 and not said.operation or kind in (3, 5) and said.operation:
            raise Malformed
    except Malformed:
        raise Refused(f"refused object {len(store.objects)}") from None
    wanted, number, before = Refused(f"refused commit {len(store.commits)}"), len(store.commits), store.objects
    try:
        if kind == 6:
            if store.holds_item((commit,)) is not None:
                raise wanted
            store.receive_item(1, (commit,))
        elif kind == 2:
            store.land(branch, store.branches[branch][1], *said.operation)
        elif kind == 3:
            store.merge(branch, store.branches[branch][1], other)
        else:
            joined = [int.from_bytes(body[at:at + 4], "big") for at in range(0, 4 * other, 4)]
            store.join(branch, store.branches[branch][1], joined)
    except Refused:
        raise wanted from None
    if store.objects != before + region or kind != 5 and store.commits[number].address != body:
        raise wanted


NAME = re.compile(rb"[a-z0-9_]{1,32}\Z")
INT = re.compile(rb"(0|-?[1-9][0-9]*)\Z")
PLACE = re.compile(rb"(0|[1-9][0-9]*)\Z")
DO = {
    "counter": {"add": 1, "reset": 0},
    "flag": {"enable": 0, "disable": 0},
    "lww": {"set": 1},
    "multi": {"set": 1},
    "set": {"add": 1, "remove": 1, "clear": 0},
    "log": {"append": 1},
    "queue": {"enqueue": 1, "dequeue": 0},
    "seq": {"insert": 2, "delete": 1},
}
ASK = {
    "counter": {"value": 0},
    "flag": {"on": 0},
    "lww": {"get": 0},
    "multi": {"values": 0},
    "set": {"contains": 1, "members": 0, "size": 0},
    "log": {"read": 0, "length": 0},
    "queue": {"peek": 0, "items": 0, "length": 0},
    "seq": {"read": 0, "length": 0},
}


def fits(words):
    """Whether the words fit one form."""
    kind = words[2].decode() if len(words) > 2 else ""
    verb = words[4].decode() if len(words) > 4 else ""
    if words[0] in (b"look", b"fork", b"merge"):
        return len(words) == 3
    if words[0] == b"join":
        return 4 <= len(words) <= 10
    if words[0] == b"drop":
        return len(words) == 2
    if VERSION == 1 and (kind == "seq" or verb in ("reset", "clear")):
        return False
    if words[0] == b"ask" and len(words) == 4:
        return kind in ASK and words[3] == b"keys"
    table = {b"do": DO, b"ask": ASK}.get(words[0])
    more = table and VERSION and table.get(kind, {}).get(verb)
    return more is not None and table is not None and len(words) == 5 + more


def place_of_commit(words):
    """The place of the word that stands for a commit, in the line of a query or a fork."""
    place = {b"ask": 1, b"fork": 2}.get(words[0]) if VERSION != 1 else None
    return place if place and words[place].startswith(b"#") else None


def read_line(line):
    """The words of a line; nothing of a line that says nothing."""
    if not line or line.startswith(b"#"):
        return None
    words = line.split(b" ")
    if any(b < 32 or b > 126 for b in line) or b"" in words or not fits(words):
        raise Refused("error syntax")
    names = words[1:] if words[0] in (b"look", b"fork", b"merge", b"join") else words[1:2]
    at = place_of_commit(words)
    if not all(NAME.match(name) for place, name in enumerate(names, 1) if place != at):
        raise Refused("error name")
    if at and (not PLACE.match(words[at][1:]) or int(words[at][1:]) >= 2**32):
        raise Refused("error number")
    if words[0] == b"do" and words[2] == b"counter" and words[4] == b"add":
        if not INT.match(words[5]) or not -(2**63) <= int(words[5]) < 2**63:
            raise Refused("error number")
    if words[0] == b"do" and words[2] == b"seq":
        if not PLACE.match(words[5]) or int(words[5]) >= 2**32:
            raise Refused("error number")
    return words


def listed(items, with_times):
    words = [(e.word[1] if e.kind == "seq" else e.word).decode() for e in items]
    told = "".join(f" {told_time(e.time)} {word}" if with_times else f" {word}" for e, word in zip(items, words))
    return f"[{len(items)}]{told}"


def told_time(time):
    return f"{time[0]}.{time[1]}"


def told_reply(verb, reply):
    """What the reply to an operation that landed adds to what is told of it."""
    if verb == "dequeue":
        return f" took {told_time(reply[0])} {reply[1].decode()}" if reply else " took nothing"
    if verb == "insert":
        return f" after {told_time(reply)}" if reply else " at start"
    if verb == "delete":
        return f" gone {told_time(reply)}" if reply else " nothing"
    return ""


def answer(events, kind, key, verb, word):
    """What a query is answered over these events."""
    on = [e for e in events if (e.kind, e.key) == (kind, key)]
    if kind == "counter":
        return str(sum(e.word for e in unseen_by(with_verb(on, "add"), with_verb(on, "reset"))))
    if kind == "flag":
        return "on" if unseen_by(with_verb(on, "enable"), with_verb(on, "disable")) else "off"
    if kind == "set":
        members = list(live_adds(on))
        if verb == "contains":
            return "yes" if word in members else "no"
        return str(len(members)) if verb == "size" else "".join([f"[{len(members)}]"] + [f" {m.decode()}" for m in members])
    items = shown(on) if kind == "seq" else kept(on) if on else []
    if verb == "length":
        return str(len(items))
    if kind == "log":
        return listed(items[::-1], True)
    if kind == "queue":
        return listed(items[:1] if verb == "peek" else items, True)
    if kind == "seq":
        return listed(items, True)
    return listed(items, False)


class Engine:
    """Steps over a store, with named sessions."""

    def __init__(self, store):
        self.store, self.sessions = store, {}

    def reply(self, line):
        """The reply to a line; nothing to one that says nothing."""
        try:
            words = read_line(line)
            return words and getattr(self, words[0].decode())(*words[1:])
        except Refused as refused:
            return str(refused)

    def seen(self, session):
        if session not in self.sessions:
            raise Refused("error unseen " + session.decode())
        return self.sessions[session]

    def look(self, session, branch):
        number = self.store.find(branch)
        head = self.store.branches[number][1]
        self.sessions[session] = (number, head)
        return f"{session.decode()} sees {branch.decode()} at #{head}"

    def commit(self, word):
        """The number of the commit that a word stands for."""
        number = int(word[1:])
        if number >= len(self.store.commits):
            raise Refused(f"error unknown #{number}")
        return number

    def fork(self, new, of):
        number, head = self.store.place(new, self.commit(of)) if of.startswith(b"#") else self.store.fork(new, of)
        return f"forked {new.decode()} as {number} at #{head}"

    def merge(self, session, branch):
        number, seen = self.seen(session)
        other = self.store.branches[self.store.find(branch)][1]
        kind, head = self.store.merge(number, seen, other)
        self.sessions[session] = (number, head)
        return kind if kind == "same" else f"{kind} #{head}"

    def join(self, session, *branches):
        number, seen = self.seen(session)
        others = [self.store.branches[self.store.find(branch)][1] for branch in branches]
        kind, head = self.store.join(number, seen, others)
        self.sessions[session] = (number, head)
        return kind if kind == "same" else f"{kind} #{head}"

    def drop(self, session):
        number, seen = self.seen(session)
        return f"dropped {self.store.drop(number, seen).decode()} at #{seen}"

    def do(self, session, kind, key, verb, word=b"", payload=b""):
        number, seen = self.seen(session)
        kind, verb = kind.decode(), verb.decode()
        if kind == "seq":
            self.check_sequences()
            word = int(word), payload
        elif (kind, verb) == ("counter", "add"):
            word = int(word)
        commit, time, reply = self.store.land(number, seen, kind, key, verb, word)
        self.sessions[session] = (number, commit)
        return f"landed #{commit} at {told_time(time)}{told_reply(verb, reply)}"

    def check_sequences(self):
        if not self.store.sequences:
            raise Refused("error no sequences")

    def ask(self, branch, kind, key, verb=None, word=b""):
        if branch.startswith(b"#"):
            head = self.commit(branch)
        else:
            head = self.store.branches[self.store.find(branch)][1]
        if kind == b"seq":
            self.check_sequences()
        events = self.store.visible(head)
        if verb is None:
            keys = sorted({e.key for e in events if e.kind == kind.decode()})
            return "".join([f"[{len(keys)}]"] + [f" {k.decode()}" for k in keys])
        return answer(events, kind.decode(), key, verb.decode(), word)


def lines_of(text):
    return text.split(b"\n")[:-1] if text.endswith(b"\n") else text.split(b"\n")


def script(store, text):
    """The replies to the lines of a text."""
    with of_version(store.version):
        engine = Engine(store)
        replies = [engine.reply(line) for line in lines_of(text)]
    return [it for it in replies if it is not None]


class Draws:
    def __init__(self, number):
        self.state = number % 2**64

    def pick(self, m):
        self.state = (self.state * 6364136223846793005 + 1442695040888963407) % 2**64
        return (self.state >> 33) % m

    def key(self):
        return f"k{self.pick(8)}"

    def word(self):
        return f"w{self.pick(32)}"

    def amount(self):
        return str(self.pick(201) - 100)


def script_text(steps, number):
    """The script that is drawn from a number."""
    lines = ["fork g1 main", "fork g2 main", "fork g3 main", "look s0 main", "look s1 g1", "look s2 g2", "look s3 g3"]
    of, names = Draws(number), ["main", "g1", "g2", "g3"]
    for _ in range(steps):
        i = of.pick(4)
        a = of.pick(16)
        if a < 2:
            lines.append(f"merge s{i} {names[of.pick(4)]}")
        elif a == 2:
            lines.append(f"look s{i} {names[i]}")
        else:
            form = {5: "flag {} enable", 6: "flag {} disable", 7: "lww {} set {}", 8: "multi {} set {}", 11: "set {} remove {}",
                    12: "log {} append {}", 15: "queue {} dequeue"}
            form.update({3: "counter {} add {}", 9: "set {} add {}", 13: "queue {} enqueue {}"})
            form = form.get(a) or form[a - 1]
            draws = [of.key()]
            if form.count("{}") == 2:
                draws.append(of.amount() if form.startswith("counter") else of.word())
            lines.append(f"do s{i} " + form.format(*draws))
    return "".join(line + "\n" for line in lines).encode()


def generate(store, steps, number):
    """What generated work writes."""
    replies = script(store, script_text(steps, number))
    starts = {"landed": "landed", "merged": "merged", "forward": "forward", "same": "same", "stale": "stale", "forked": "forked",
              "looked": "", "errors": "error"}
    counts = {name: sum(bool(start) and r.startswith(start) for r in replies) for name, start in starts.items()}
    counts["looked"] = len(replies) - sum(counts.values())
    told = " ".join(f"{name} {count}" for name, count in counts.items())
    return [f"lines {len(replies)} {told}"] + store.report()


def client_steps(client, steps, number):
    of, name = Draws(number + client), f"c{client}"
    lines = [f"fork {name} main", f"look own {name}", "look top main"]
    forms = ["merge own main", f"merge top {name}", "do top counter {} add {}", "do own counter {} add {}", "do own set {} add {}",
             "do own set {} remove {}", "do own queue {} enqueue {}", "do own queue {} dequeue"]
    for _ in range(steps):
        form = forms[of.pick(8)]
        draws = [of.key()] if "{}" in form else []
        if form.count("{}") == 2:
            draws.append(of.amount() if "counter" in form else of.word())
        lines.append(form.format(*draws))
    return [line.encode() for line in lines]


def clients_alone(store, steps, number):
    """What one client writes: a branch that is there is passed over, and any other refusal ends it."""
    engine, before, told = Engine(store), store.moves, None
    for line in client_steps(0, steps, number):
        reply = engine.reply(line)
        if reply.startswith("error") and not reply.startswith("error taken"):
            told = told or f"client 0 {reply}"
            break
    return [told or f"client 0 done {store.moves - before}"] + store.report()
