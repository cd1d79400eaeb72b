#!/usr/bin/env python3
"""The tags and ranks of order lists, worked out the plain way.

Writes what the program `order_tags` must write: for each walk of calls, the tags along the list once the calls are done,
first of the renumbering list and then of the tag-range list. A list is a Python list of members, each with its tag;
nothing is linked and nothing is clever.
"""

TAGS = 2 ** 32


class Member:
    def __init__(self, tag):
        self.tag = tag


class Ordered:
    """A list of at most `capacity` members, the base first."""

    def __init__(self, capacity):
        self.capacity = capacity
        self.members = [Member(0)]

    def base(self):
        return self.members[0]

    def behind(self, member):
        place = self.members.index(member) + 1
        return self.members[place] if place < len(self.members) else None

    def remove(self, member):
        if member is not self.base():
            self.members.remove(member)

    def insert_after(self, member):
        if len(self.members) == self.capacity:
            return None
        new = Member(None)
        self.place(member, new)
        return new


class Renumbering(Ordered):
    """Ranks 0, 1, 2 .. along the list after each insertion."""

    def place(self, member, new):
        self.members.insert(self.members.index(member) + 1, new)
        for rank, each in enumerate(self.members):
            each.tag = rank


class TagRange(Ordered):
    """Tags below 2^32 that rise along the list."""

    def __init__(self, capacity):
        super().__init__(capacity)
        self.spreads = 0

    def upper(self, member):
        follower = self.behind(member)
        return TAGS if follower is None else follower.tag

    def place(self, member, new):
        if self.upper(member) - member.tag < 2:
            self.spread(member.tag)
        new.tag = member.tag + (self.upper(member) - member.tag) // 2
        self.members.insert(self.members.index(member) + 1, new)

    def spread(self, tag):
        for level in range(4, 33):
            width = 2 ** level
            start = tag - tag % width
            block = [m for m in self.members if start <= m.tag < start + width]
            if len(block) * width <= 3 ** level:
                for j, each in enumerate(block):
                    each.tag = start + j * width // len(block)
                self.spreads += 1
                return
        raise AssertionError("the widest block holds every list")

    def sound(self):
        tags = [m.tag for m in self.members]
        return tags[0] == 0 and tags[-1] < TAGS and all(a < b for a, b in zip(tags, tags[1:]))


def insert_at_base(orders, calls):
    for _ in range(calls):
        orders.insert_after(orders.base())


def insert_at_end(orders, calls):
    last = orders.base()
    for _ in range(calls):
        last = orders.insert_after(last) or last


def insert_by_turns(orders, calls):
    """Behind the base and behind the newest member by turns."""
    last = orders.base()
    for i in range(calls):
        last = orders.insert_after(orders.base() if i % 2 == 0 else last) or last


def insert_and_remove(orders, calls):
    """By turns, and each fifth call removes what stands behind the base."""
    last = orders.base()
    for i in range(calls):
        if i % 5 == 4:
            second = orders.behind(orders.base())
            if second is not None:
                orders.remove(second)
                if second is last:
                    last = orders.base()
        else:
            last = orders.insert_after(orders.base() if i % 2 == 0 else last) or last


WALKS = [
    ("at the base", insert_at_base),
    ("at the end", insert_at_end),
    ("by turns", insert_by_turns),
    ("with removals", insert_and_remove),
]

# capacity and calls of each run; a long list is told by its first tags and a sum over all
RUNS = [(1, 3), (2, 5), (17, 40), (90, 120), (4096, 6000)]
SHOWN = 90


def folded(tags):
    total = 0
    for tag in tags:
        total = (total * 31 + tag) % 1000000007
    return total


def tell(capacity, calls, name, orders):
    tags = [m.tag for m in orders.members]
    print(f"{capacity} places, {calls} calls {name}: {len(tags)} members, sum {folded(tags)}")
    for tag in tags[:SHOWN]:
        print(tag)


def main():
    for capacity, calls in RUNS:
        for name, walk in WALKS:
            for make in (Renumbering, TagRange):
                orders = make(capacity)
                walk(orders, calls)
                tell(capacity, calls, name, orders)


if __name__ == "__main__":
    main()
