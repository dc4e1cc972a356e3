#!/usr/bin/env python3
"""windows.py trees|layouts: writes data/windows/NAME.table to standard output.

What each call answers is found here from plain lists: the windows of an application in order of creation, each with its number, its path and
its parent's number, and the layout by recursion on the tree, from nothing at each call."""
import itertools, random, sys

MOST = 2147483647


def tell(question, answer=""):
    print(f"? {question}\n={answer}")


# ---- trees

class Tree:
    def __init__(self):
        self.next, self.windows = 0, []

    def at(self, path):
        return next((w for w in self.windows if w["path"] == path), None)

    def of(self, number):
        return next((w for w in self.windows if w["number"] == number), None)

    def children(self, number):
        return [w["number"] for w in self.windows if w["parent"] == number]

    def subtree(self, number):
        return [number] + [n for c in self.children(number) for n in self.subtree(c)]

    def post(self, number):
        return [n for c in self.children(number) for n in self.post(c)] + [number]

    def create(self, path):
        parent = None
        if path != ".":
            parts = path.split(".")
            if parts[0] or len(parts) < 2 or "" in parts[1:]:
                return "bad window path name"
            owner = self.at(".".join(parts[:-1]) or ".")
            if owner is None:
                return "bad window path name"
            if "A" <= parts[-1][0] <= "Z":
                return "window name starts with an upper-case letter"
            if owner["dying"]:
                return "can't create window: parent has been destroyed"
            parent = owner["number"]
        if self.at(path):
            return "window name already exists in parent"
        if len(self.windows) == 512:
            return "limit reached: windows"
        self.windows.append({"number": self.next, "path": path, "parent": parent, "dying": False})
        self.next += 1
        return self.next - 1


class Trees:
    """Tells each question with its answer."""

    def __init__(self):
        self.owners = {}

    def begin(self):
        self.owners = {}
        tell("begin")

    def own(self, owner):
        return self.owners.setdefault(owner, Tree())

    def create(self, owner, path):
        answer = self.own(owner).create(path)
        tell(f"create {owner} {path}", answer)
        return answer

    def find(self, owner, path):
        window = self.own(owner).at(path)
        tell(f"find {owner} {path}", "none" if window is None else window["number"])

    def call(self, name, owner, number):
        tree = self.own(owner)
        window = tree.of(number)
        answer = "gone"
        if window is not None:
            if name == "holds":
                answer = window["path"]
            elif name == "dying":
                window["dying"], answer = True, ""
            elif name == "remove":
                assert not tree.children(number)
                tree.windows.remove(window)
                answer = ""
            else:
                answer = " ".join(str(n) for n in {"children": tree.children, "subtree": tree.subtree, "post": tree.post}[name](number))
        tell(f"{name} {owner} {number}", answer)

    def walk(self, owner, number):
        for name in "children", "subtree", "post":
            self.call(name, owner, number)


def leaves_first(parents):
    """Every order in which windows can be taken out, each without children."""
    def go(left):
        if not left:
            yield []
        for window in left:
            if not any(parents[w] == window for w in left):
                for rest in go([w for w in left if w != window]):
                    yield [window] + rest
    return go(list(range(len(parents))))


def trees():
    print("# Windows, and what each call answers, from plain lists.")
    t = Trees()
    print("\n# Every tree of up to five windows, taken down in every order; then a window comes into the place of the first that went.")
    for size in range(1, 6):
        for choice in itertools.product(*(range(i) for i in range(1, size))):
            parents = [None] + list(choice)
            paths = ["."]
            for i in range(1, size):
                # names fall as numbers rise, so that the order of creation isn't that of paths
                paths.append(("" if parents[i] == 0 else paths[parents[i]]) + f".{'zyxw'[i - 1]}")
            for order in leaves_first(parents):
                t.begin()
                for path in paths:
                    t.create(3, path)
                t.walk(3, 0)
                if size > 2:
                    t.walk(3, 1)
                t.create(7, ".")
                for number in order:
                    t.call("remove", 3, number)
                    t.call("holds", 3, number)
                    t.find(3, paths[number])
                    if number == order[0]:
                        answer = t.create(3, paths[number])
                        t.call("holds", 3, number)
                        t.call("subtree", 3, 0)
                        if isinstance(answer, int):
                            t.call("remove", 3, answer)
                t.call("subtree", 7, 0)
    print("\n# What refuses a window, the first that holds.")
    t.begin()
    for path in ".a", ".", ".", "a", "", "..", "...", ".a.", ".a", ".B", ".a.b.c", ".a.b", ".a.B", ".none.B", ".a", ".a.b":
        if path:
            t.create(0, path)
    t.call("dying", 0, 1)
    for path in ".a.c", ".a.C", ".a.b", ".a", ".d":
        t.create(0, path)
    t.walk(0, 0)
    print("\n# 512 windows, of three applications beside each other.")
    t.begin()
    for owner in 5, 6:
        t.create(owner, ".")
    for i in range(1, 514):
        t.create(4, "." if i == 1 else f".w{i}")
    t.create(5, ".w1")
    t.call("remove", 4, 100)
    t.create(4, ".w101")
    t.create(4, ".more")
    t.call("subtree", 4, 0)
    t.call("post", 4, 0)
    t.call("subtree", 5, 0)
    print("\n# By chance.")
    chance = random.Random(20)
    for _ in range(40):
        t.begin()
        for step in range(40):
            owner = chance.choice((0, 1))
            tree = t.own(owner)
            if not tree.windows or chance.random() < 0.55:
                above = chance.choice(tree.windows)["path"] if tree.windows else None
                t.create(owner, "." if above is None else ("" if above == "." else above) + "." + chance.choice("abcde"))
            elif chance.random() < 0.5:
                window = chance.choice(tree.windows)
                t.walk(owner, window["number"])
                if chance.random() < 0.2:
                    t.call("dying", owner, window["number"])
            else:
                ends = [w["number"] for w in tree.windows if not tree.children(w["number"])]
                number = chance.choice(ends)
                t.call("remove", owner, number)
                t.call("subtree", owner, number)
                if tree.windows:
                    t.walk(owner, tree.windows[0]["number"])


# ---- layouts

def outer(r):
    return (r["size"][0] + 2 * r["ipad"][0] + sum(r["padx"]), r["size"][1] + 2 * r["ipad"][1] + sum(r["pady"]))


def along(r):
    return 0 if r["side"] in ("left", "right") else 1


def wanted(requests):
    """The room for all of them, from the last back."""
    width = height = 0
    for r in reversed(requests):
        w, h = outer(r)
        if along(r) == 0:
            width, height = w + width, max(h, height)
        else:
            width, height = max(w, width), h + height
    return min(width, MOST), min(height, MOST)


def share(requests, cavity, axis):
    """The least bound on the room that falls to each of those that expand."""
    left, count, least = cavity, 0, None
    for r in requests:
        size = outer(r)[axis]
        if along(r) == axis:
            left -= size
            count += r["expand"]
        elif count:
            bound = (left - size) // count
            least = bound if least is None else min(least, bound)
    bound = left // count
    return max(0, bound if least is None else min(least, bound))


def in_parcel(start, length, size, pads, fills, to):
    room = length - sum(pads)
    size = room if fills or size > room else size
    spare = room - size
    return start + pads[0] + {"near": 0, "middle": spare // 2, "far": spare}[to], size


def arrange(size, requests):
    x, y, w, h = 0, 0, max(0, size[0]), max(0, size[1])
    places = []
    for i, r in enumerate(requests):
        axis = along(r)
        room = (w, h)[axis]
        takes = min(room, outer(r)[axis] + (share(requests[i:], room, axis) if r["expand"] else 0))
        px, py, pw, ph = x, y, w, h
        if axis == 0:
            w, pw = w - takes, takes
            if r["side"] == "left":
                x += takes
            else:
                px = x + w
        else:
            h, ph = h - takes, takes
            if r["side"] == "top":
                y += takes
            else:
                py = y + h
        a = "" if r["anchor"] == "center" else r["anchor"]
        to_x = "near" if "w" in a else "far" if "e" in a else "middle"
        to_y = "near" if "n" in a else "far" if "s" in a else "middle"
        left, wide = in_parcel(px, pw, r["size"][0] + 2 * r["ipad"][0], r["padx"], r["fill"] in ("x", "both"), to_x)
        top, high = in_parcel(py, ph, r["size"][1] + 2 * r["ipad"][1], r["pady"], r["fill"] in ("y", "both"), to_y)
        places.append((left, top, wide, high) if wide > 0 and high > 0 else None)
    return places


class Layouts:
    """Tells each question with its answer; windows by number, in pre-order."""

    def begin(self, width, height):
        self.size, self.windows, self.slaves = (width, height), {}, {}
        tell(f"begin {width} {height}")

    def window(self, number, width, height, border, propagates):
        old = self.windows.get(number, {"place": (0, 0, 1, 1), "mapped": False})
        self.windows[number] = dict(old, size=(width, height), border=border, propagates=propagates)
        tell(f"window {number} {width} {height} {border} {int(propagates)}")

    def pack(self, master, number, place, request):
        self.drop(number)
        self.slaves.setdefault(master, []).insert(place, dict(request, number=number))
        r = request
        tell(f"pack {master} {number} {place} {r['side']} {r['anchor']} {r['fill']} {int(r['expand'])} {r['padx'][0]},{r['padx'][1]} "
             f"{r['pady'][0]},{r['pady'][1]} {r['ipad'][0]} {r['ipad'][1]}")

    def drop(self, number):
        for slaves in self.slaves.values():
            slaves[:] = [r for r in slaves if r["number"] != number]

    def forget(self, number):
        self.drop(number)
        tell(f"forget {number}")

    def requests(self, number):
        return [dict(r, size=self.asked(r["number"])) for r in self.slaves.get(number, [])]

    def asked(self, number):
        window = self.windows[number]
        width, height = window["size"]
        if window["propagates"] and self.slaves.get(number):
            width, height = (n + 2 * window["border"] for n in wanted(self.requests(number)))
        return min(MOST, max(1, width)), min(MOST, max(1, height))

    def asks(self, number):
        tell(f"asks {number}", " ".join(map(str, self.asked(number))) if number in self.windows else "none")

    def places(self, number, rect):
        told = {number: rect}
        if rect is not None:
            border = self.windows[number]["border"]
            requests = self.requests(number)
            for r, place in zip(requests, arrange((rect[2] - 2 * border, rect[3] - 2 * border), requests)):
                told.update(self.places(r["number"], None if place is None else (place[0] + border, place[1] + border, place[2], place[3])))
        return told

    def lay(self):
        told = self.places(next(iter(self.windows)), (0, 0) + self.size) if self.windows else {}
        texts = []
        for number, window in self.windows.items():
            rect = told.get(number)
            if rect is None:
                if window["mapped"]:
                    texts.append(f"u{number}")
            else:
                if rect != window["place"]:
                    texts.append(f"c{number}:{','.join(map(str, rect))}")
                    window["place"] = rect
                if not window["mapped"]:
                    texts.append(f"m{number}")
            window["mapped"] = rect is not None
        tell("lay", " ".join(texts))


def request(side="top", anchor="center", fill="none", expand=False, padx=(0, 0), pady=(0, 0), ipad=(0, 0)):
    return dict(side=side, anchor=anchor, fill=fill, expand=expand, padx=padx, pady=pady, ipad=ipad)


def by_chance(chance, l):
    """A tree in pre-order, with what is packed in each; then changes."""
    l.begin(chance.choice((0, 40, 200, 333)), chance.choice((0, 30, 150, 401)))
    count = chance.randint(1, 9)
    parents = [None]
    for number in range(1, count):
        # the parent is on the way from the last window up, so the numbers stand in pre-order
        way, at = [], number - 1
        while at is not None:
            way.append(at)
            at = parents[at]
        parents.append(chance.choice(way))

    def window(number):
        l.window(number, chance.choice((0, 1, 10, 47, 32767)) if chance.random() < 0.3 else chance.randint(1, 60), chance.randint(0, 60),
                 chance.choice((0, 0, 1, 2, 5, 90)), chance.random() < 0.7)

    def pack(number):
        pads = lambda: (0, 0) if chance.random() < 0.6 else (chance.randint(0, 9), chance.randint(0, 9))
        l.pack(parents[number], number, chance.randint(0, 4),
               request(chance.choice(("top", "bottom", "left", "right")), chance.choice("center n ne e se s sw w nw".split()),
                       chance.choice(("none", "x", "y", "both")), chance.random() < 0.5, pads(), pads(), (chance.choice((0, 0, 3)), chance.choice((0, 0, 4)))))
    for number in range(count):
        window(number)
    for number in chance.sample(range(1, count), count - 1):
        if chance.random() < 0.9:
            pack(number)
    l.lay()
    for _ in range(6):
        number = chance.randrange(count)
        what = chance.random()
        if number and what < 0.3:
            l.forget(number)
        elif number and what < 0.6:
            pack(number)
        else:
            window(number)
        l.asks(chance.randrange(count))
        l.lay()


def layouts():
    print("# Layouts of trees of windows, from nothing at each call, and what each changes.")
    l = Layouts()
    print("\n# The main window alone, and two windows that share what is left.")
    l.begin(200, 100)
    l.lay()
    l.window(0, 0, 0, 0, True)
    l.asks(0)
    l.lay()
    l.window(1, 31, 20, 2, True)
    l.window(2, 40, 20, 2, True)
    l.lay()
    l.pack(0, 1, 0, request("left", expand=True, fill="x"))
    l.pack(0, 2, 1, request("left", expand=True, fill="both"))
    l.asks(0)
    l.lay()
    l.window(1, 30, 20, 2, True)
    l.lay()
    l.forget(1)
    l.lay()
    l.pack(0, 1, 0, request("right", fill="y"))
    l.lay()
    print("\n# A child's new size goes up to its master's master, unless one between doesn't propagate.")
    l.begin(300, 200)
    for number, border in (0, 3), (1, 5), (2, 7):
        l.window(number, 0, 0, border, True)
    l.window(3, 20, 10, 1, True)
    for number in 1, 2, 3:
        l.pack(number - 1, number, 0, request())
    for number in range(4):
        l.asks(number)
    l.lay()
    l.window(3, 50, 10, 1, True)
    for number in range(5):
        l.asks(number)
    l.lay()
    l.window(1, 0, 0, 5, False)
    for number in range(4):
        l.asks(number)
    l.lay()
    print("\n# A border that leaves no room, and more than may be asked for.")
    l.begin(20, 20)
    l.window(0, 1, 1, 10, True)
    l.window(1, 5, 5, 32767, True)
    l.window(2, 2147483647, 4294967295, 0, True)
    l.pack(0, 1, 0, request())
    l.pack(1, 2, 0, request(padx=(32767, 32767)))
    for number in range(3):
        l.asks(number)
    l.lay()
    l.window(0, 1, 1, 9, True)
    l.lay()
    print("\n# By chance.")
    chance = random.Random(12)
    for _ in range(250):
        by_chance(chance, l)


{"trees": trees, "layouts": layouts}[sys.argv[1]]()
