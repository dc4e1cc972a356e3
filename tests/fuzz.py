#!/usr/bin/env python3
"""fuzz.py SEED COUNT: random sessions that attack the host and one another, until two runs of one differ. Also fuzz.py --planted.

The programs are those that the gate left in crates/NAME/out. The sessions have the seeds SEED, SEED + 1 and so on, COUNT of them, so that one of them is
made again by `fuzz.py ITS-SEED 1`. They have one to sixteen applications in either format, whose scripts have every command, right and wrong, meet
the limits, and rename, redefine and destroy while they run; some of the texts are no sessions. Of each

- the host has to end with status 0 or, of a text that is no session, with 1 and the line of a fault;
- the program of tables plays it in slices of 1, 2, 3, 7, 64 and 1,000,000 steps, which have to give the same bytes;
- and one application gets another script, budget and aliases, which may change no other's section.

At the first difference it stops: the session is cut down as long as it still shows one, written beside what it gave, and printed. Exit status 1.

--planted tries this on hosts of its own that go wrong where a script has a certain word, and sees that little but that word is left."""
import concurrent.futures, copy, dataclasses, os, pathlib, re, subprocess, sys, tempfile, time
from neighbours import BAD, COLUMNS, HEIGHT, WIDTH
from panels import PATHS, SEQUENCES, Panels, block, session
from programs import HOST, TABLES_OF_HOSTS, TOP, built

SECONDS, BATCH, MOST_TRIES = 120, 24, 4000
FAULT = re.compile(rb"tkhost: fault (3[4-9]|43) at line \d+\n")
COMMANDS = """after append array bind bindtags break button catch clock concat continue destroy entry error eval event expr focus for foreach frame global if incr info join
    label lappend lindex linsert list listbox llength lrange lreplace lsearch lsort pack proc puts rename return set split string switch tk::ButtonInvoke tk::EntryInsert
    tk::ListboxSpace unset update uplevel upvar while winfo wm""".split()
# The forms of all commands. `<v>` and the like stand for a part of that kind: Attack.parts says which.
FORMS = """set <v> <t>|set <v>|unset <v>|unset -nocomplain <v> <v>|incr <v>|incr <v> <n>|append <v> <t> <t>|lappend <v> <t> <l>|array exists <v>|array names r|array names r <g>
array get r|array get r <g>|array set <v> <l>|array unset r|array unset r <g>|array size <v>|global <v> <v>|upvar <n> <v> <v>|upvar #0 <v> <v>|info exists <v>|info level
proc <c> <a> <s>|proc <c> {} <s>|rename <c> <c>|rename <c> {}|eval <s>|eval <t> <t>|uplevel <s>|uplevel #0 <s>|uplevel <n> <s>|expr <e>|expr <n> <t>|if <e> <s>
if <e> then <s> elseif <e> <s> else <s>|while <e> <s>|for <s> <e> <s> <s>|foreach <v> <l> <s>|foreach {a b} <l> c <l> <s>|switch <t> {a <s> b - default <s>}|switch -glob -- <t> {<g> <s> * <s>}
break|continue|return|return <t>|return -code <n> <t>|return -code error <t>|error <t>|catch <s>|catch <s> <v>|list <t> <l>|llength <l>|lindex <l> <i>|lrange <l> <i> <i>|linsert <l> <i> <t>
lreplace <l> <i> <i> <t>|lsearch <l> <g>|lsearch -exact <l> <t>|lsort <l>|lsort -integer -decreasing <l>|join <l> <t>|split <t> <t>|concat <l> <t>|string compare <t> <t>|string equal <t> <t>
string first <t> <t>|string index <t> <i>|string length <t>|string match <g> <t>|string range <t> <i> <i>|string repeat <t> <n>|string tolower <t>|string toupper <t>|string trim <t>
puts <t>|puts stdout <t>|clock milliseconds|after <n> <s>|after idle <s>|after cancel after#<n>|after cancel <s>|after info|after info after#<n>|<w> <p>|<w> <p> <o>|destroy <p>|destroy <p> <p>
destroy .|<p> configure|<p> configure <o>|<p> cget <o>|.b invoke|.c invoke|.e get|.e insert <i> <t>|.e delete <i> <i>|.e icursor <i>|.e index <i>|.x insert <i> <t> <t>|.x delete <i> <i>|.x get <i> <i>|.x size
.x index <i>|.x curselection|.x selection set <i> <i>|.x selection clear <i>|.x selection includes <i>|.x activate <i>|winfo children <p>|winfo class <p>|winfo exists <p>|winfo height <p>|winfo ismapped <p>
winfo name <p>|winfo parent <p>|winfo reqheight <p>|winfo reqwidth <p>|winfo rootx <p>|winfo rooty <p>|winfo toplevel <p>|winfo width <p>|winfo x <p>|winfo y <p>|wm title .|wm title . <t>|pack <p>
pack <p> -side left -expand <n>|pack <p> <p> -fill both -padx <n>|pack <p> -before <p>|pack <p> -after <p> -anchor ne|pack forget <p>|pack info <p>|pack propagate <p> <n>|pack slaves <p>
bind <k>|bind <k> <q>|bind <k> <q> <s>|bind <k> <q> {+puts %W}|bind <k> <q> {}|bindtags <p>|bindtags <p> <l>|bindtags <p> {<p> t all}|event add <<V>> <q>|event add <<W>> <q> <q>|event delete <<V>>
event delete <<W>> <q>|event info|event info <<V>>|event generate <p> <q>|event generate <p> <<V>> -when tail|event generate <p> <q> -when head -x <n>|event generate <p> <<W>> -data <t>
focus|focus <p>|focus -lastfor <p>|update|update idletasks|tk::ButtonEnter <p>|tk::ButtonLeave <p>|tk::ButtonDown <p>|tk::ButtonUp <p>|tk::ButtonInvoke <p>|tk::EntryInsert <p> <t>|tk::EntryBackspace <p>
tk::EntryDelete <p>|tk::EntryMove <p> home|tk::EntryDown <p> <n>|tk::ListboxDown <p> <n>|tk::ListboxDrag <p> <n>|tk::ListboxMove <p> <n>|tk::ListboxSpace <p>|get <t>|note <t>|five|add <n>|no|<t>""".replace("\n", "|").split("|")
# Scripts that change what is under their feet.
LIVE = """proc <c> args {rename <c> {}; <s1>}|rename <c> was; proc <c> args {eval was $args; <s1>}|bind <k> <q> {rename <c> {}; <s1>}|bind <k> <Destroy> {frame %W.d; destroy %W; <s1>}
bind <k> <q> {destroy %W; <s1>}|bind <k> <Configure> {destroy <p>; <s1>}|bind <k> <q> {bind <k> <q> {<s1>}; event generate %W <q>}|after <n> {destroy .}|after <n> {proc <c> args {<s1>}; <c>}
foreach k {1 2 3} {proc p {} {<s1>}; p; rename p {}}|proc <c> {} {uplevel #0 {unset -nocomplain a; array set a <l>}; <s1>}|button .c -command {destroy .c; <s1>}; .c invoke
entry .e -textvariable a; bind .e <Key> {destroy .e; unset a; <s1>}|bind . <<V>> {event generate . <<V>> -when tail; <s1>}; event generate . <<V>>|bind all <Map> {destroy %W}
proc again {} {after 0 again; <s1>}; again|after idle {after idle {<s1>}; rename after later}|set a(1) 1; upvar 0 a(1) b; unset a; <s1>|set s {rename eval {}; <s1>}; eval $s; eval $s""".replace("\n", "|").split("|")
# Scripts that meet a limit.
LIMITS = """while {[incr w] < 600} {frame .w$w}|while {[incr w] < 5000} {set v$w 1}|while {[incr w] < 1100} {proc p$w {} {}}|while {[incr w] < 300} {after $w {incr n}}|while {[incr w] < 5000} {bind t$w a x}
while {[incr w] < 5000} {event add <<V$w>> a}|while {[incr w] < 1100} {event generate . <<V>> -when tail}|set x [string repeat xy 32768]; append x z|set x [string repeat {a } 32767]; llength $x; lappend x bc
proc p {} {p}; p|proc p n {if {$n} {p [expr {$n - 1}]} else {puts deep}}; p 97|eval [string repeat {[} 201]x[string repeat {]} 201]|expr [string repeat ( 201]1[string repeat ) 201]
bind . [string repeat a 33] x|set i 9223372036854775807; incr i|expr {-9223372036854775807 - 2}|string repeat x 65537|frame .f -width 32768|after 1000000000000 x; after 9223372036854775807 y
puts [string repeat \\n 65536]|while 1 {append x $x y}|while 1 {lappend x $x}|set p .; while {[incr w] < 600} {frame ${p}w; append p w.}""".replace("\n", "|").split("|")


@dataclasses.dataclass
class App:
    """An application of a session; its script is a list of texts, a line or more each."""
    name: str
    rectangle: tuple
    budget: str
    aliases: list
    script: list

    def block(self):
        return block(self.name, self.rectangle, self.budget, self.aliases, "\n".join(self.script))


@dataclasses.dataclass
class Case:
    """A session, and for one of its slots another script, budget and aliases; `broken` makes a text of it that may be no session."""
    version: int
    apps: list
    lines: list
    end: int
    slot: int
    other: App
    broken: tuple = ()

    def text(self, exchanged=False):
        apps = [self.other if exchanged and place == self.slot else app for place, app in enumerate(self.apps)]
        text = session([app.block() for app in apps], self.lines, self.end, self.version)
        for place, piece in self.broken:
            at = place % (len(text) + 1)
            text = text[:at] + piece + text[at + 1:]
        return text


class Attack(Panels):
    """Makes random cases, always the same from the same seed."""

    def parts(self, kind, depth):
        """A random part of a command, of the kind that stands between angles in a form."""
        return {
            "v": lambda: self.pick(["a", "b", "c", "n", "r(1)", "r($a)", "::g", "r", "{}", "v"]),
            "t": lambda: self.pick(["x", "two", "{x y}", "$a", "$b", "$n", "{}", '"<$v>"', "\\u20ac", "$r(1)", "[%s]" % self.command(depth + 1), "{[}", "%W", "\\n", "$c$c$c"]),
            "n": lambda: str(self.pick([0, 0, 1, 2, 3, 5, 7, -1, 10, 64, 255, 40000, -9223372036854775808, 9223372036854775807, "x", "0x1f", "$n"])),
            "i": lambda: self.pick(["0", "1", "2", "end", "end-1", "insert", "active", "-3", "99", "$n", "x"]),
            "l": lambda: self.pick(["{a b c}", "{1 x 2 y}", "{3 1 2}", "{}", "$c", "$a", "{a {b c} {}}", "{a", "[list %s]" % self.command(depth + 2), "{{}}}"]),
            "g": lambda: self.pick(["*", "a*", "?", "[a-c]*", "x*y", "*a*b*c*", "\\*", "[", "[z-a]"]),
            "e": lambda: self.pick(["{$n < 5}", "{[incr n] < 7}", "1", "0", "{$a eq {x}}", "{$a in $c}", "{$n % ($n - 2)}", "{$n ? $a : [%s]}" % self.command(depth + 1), "{(1 << 62) * $n}", "{", "{\"$a\" < $b}"]),
            "s": lambda: "{%s}" % "; ".join(self.command(depth + 1) for _ in range(self.between(1, 3))),
            "s1": lambda: self.command(depth + 1),
            "a": lambda: self.pick(["{}", "args", "{a b}", "{a {b 2} args}", "{a a}", "{{}}"]),
            "c": lambda: self.pick([*COMMANDS, "p", "q", "p", "q", "was", ".b", ".e", "nothing"]),
            "p": lambda: self.pick([*PATHS, ".", ".", ".none", ".f.x.y", "Bad", ""]) or "{}",
            "w": lambda: self.pick(["frame", "label", "button", "entry", "listbox"]),
            "o": lambda: self.pick(["-text <$n>", "-textvariable a", "-command {%s}" % self.command(depth + 1), "-width 9", "-state disabled", "-bd 3", "-relief", "-none x", "-height -1", "-selectmode multiple"]),
            "k": lambda: self.pick([*PATHS, ".", "all", "Entry", "Button", "Listbox", "Frame", "t"]),
            "q": lambda: self.pick([*SEQUENCES, "<Bad>", "<Key-nokey>", "<<V", "a<1>b"]),
        }[kind]()

    def filled(self, form, depth):
        return re.sub(r"(?<!<)<([a-z]1?)>(?!>)", lambda found: self.parts(found[1], depth), form)

    def command(self, depth=0):
        """A command, most of them right, none very deep."""
        if depth > 3:
            return self.pick(["incr n", "puts $n", "set a $n", "update", "destroy .f", "unset -nocomplain a"])
        words = self.pick(FORMS if self.chance(0.93) else LIVE).split(" ")
        if self.chance(0.12):
            place = self.between(0, len(words) - 1)
            words[place:place + 1] = self.pick([[], [words[place]] * 2, ["<t>"], ["<c>"], [words[place], "<n>"]])
        return self.filled(" ".join(words), depth)

    def attack(self):
        """A script of commands of all kinds."""
        lines = ["set n 0; set a x; set b 2; set c {3 1 2}; set v text; array set r {1 one k kay}"]
        lines += ["catch {pack [%s %s]} m" % (self.kind(path), path) for path in PATHS if self.chance(0.4)]
        for _ in range(self.between(3, 20)):
            command = self.command() if self.chance(0.8) else self.filled(self.pick(LIVE), 0)
            lines.append("catch {%s} m" % command if self.chance(0.6) else command)
        if self.chance(0.15):
            lines.insert(self.between(1, len(lines)), "catch {%s} m" % self.pick(LIMITS))
        return lines

    def app(self, name, rectangle, version):
        script = self.attack() if self.chance(0.65) else [self.pick(BAD)] if self.chance(0.4) else self.script().split("\n")
        budget = str(self.pick([0, 1, 30, 200, 1000, 3000, 3000, 12000]))
        refill = self.pick(["", "/0", "/1", "/25", "/3000"]) if version == 2 else ""
        return App(name, rectangle, budget + refill, self.aliases(), script)

    def moved(self, lines, names):
        """The lines, and in format 2 some that move a rectangle within its place or where another may lie."""
        for place in range(self.pick([0, 0, 1, 3])):
            at, number = self.between(0, len(lines)), self.between(0, len(names) - 1)
            x, y = number % COLUMNS * WIDTH + self.between(0, 30), number // COLUMNS * HEIGHT + self.between(0, 30)
            lines.insert(at, (lines[at - 1][0] if at else 0, "rect %s %d %d %d %d" % (names[number], x, y, self.between(1, WIDTH - 30), self.between(1, HEIGHT - 30))))
        return lines

    def case(self):
        count, version = self.pick([1, 2, 2, 3, 5, 9, 16]), self.pick([1, 2])
        names = ["p%d" % number for number in range(count)]
        corners = [(number % COLUMNS * WIDTH, number // COLUMNS * HEIGHT) for number in range(count)]
        apps = [self.app(name, (*corner, self.between(40, WIDTH), self.between(30, HEIGHT)), version) for name, corner in zip(names, corners)]
        lines, end = self.lines(lambda: (self.between(0, COLUMNS * WIDTH), self.between(0, COLUMNS * HEIGHT)), names)
        if version == 2:
            lines = self.moved(lines, names)
        slot = self.between(0, count - 1)
        other = dataclasses.replace(self.app(names[slot], apps[slot].rectangle, version), rectangle=apps[slot].rectangle)
        broken = ()
        if self.chance(0.1):
            pieces = [b"", b"\n", b" ", b"0", b"a", b"\xff", b"\xc0\xaf", b"\x00", b"{", b"999999999999999999999", b"events\n"]
            broken = tuple((self.between(0, 1 << 20), self.pick(pieces)) for _ in range(self.pick([1, 1, 2, 5])))
        return Case(version, apps, lines, end, slot, other, broken)


# ---- runs

class Programs:
    """The host and the program of tables, as the words of their commands."""

    def __init__(self, host, tables):
        self.host, self.tables = host, tables

    def played(self, text):
        """How the host ends over a text."""
        try:
            ended = subprocess.run(self.host, input=text, capture_output=True, timeout=SECONDS)
        except subprocess.TimeoutExpired:
            return None, b"", b""
        return ended.returncode, ended.stdout, ended.stderr

    def differing(self, texts):
        """Of texts with how the host ended over them the places of those that end otherwise in slices."""
        with tempfile.TemporaryDirectory(prefix="fuzz-") as folder:
            for place, (text, (status, stdout, stderr)) in enumerate(texts):
                path = pathlib.Path(folder, f"s{place}")
                path.with_suffix(".session").write_bytes(text)
                answer = (".expected", stdout) if status == 0 else (".fault", b"%d\n" % status + stderr)
                path.with_suffix(answer[0]).write_bytes(answer[1])
            names = [f"s{place}" for place in range(len(texts))]
            try:
                ended = subprocess.run([*self.tables, "play", *names], cwd=folder, capture_output=True, timeout=SECONDS * len(texts))
            except subprocess.TimeoutExpired:
                return [*range(len(texts))]
        told = set(ended.stdout.decode(errors="replace").splitlines())
        return [place for place, name in enumerate(names) if f"{name}: as expected" not in told]


def sections(stdout):
    """The sections that a host wrote, by their application's name."""
    return {found[1]: found[0] for found in re.finditer(rb"^app (\w+) .*?^done\n", stdout, re.M | re.S)}


def badly_ended(case, answer):
    """What is wrong with how the host ended."""
    status, stdout, stderr = answer
    if status is None:
        return "ending"
    if status == 0 and not stderr and (case.broken or len(sections(stdout)) == len(case.apps)):
        return None
    # (a rectangle may have moved over another)
    if status == 1 and not stdout and FAULT.fullmatch(stderr) and (case.broken or case.version == 2):
        return None
    return "ending"


def beside_another(programs, case, answer):
    """Whether an exchanged neighbour changes another application's section."""
    if case.broken or answer[0] != 0:
        return None
    again = programs.played(case.text(exchanged=True))
    own = case.apps[case.slot].name.encode()
    first, second = ({name: text for name, text in sections(it[1]).items() if name != own} for it in (answer, again))
    return None if again[0] == 0 and first == second else "neighbour"


def difference(programs, case):
    """What is wrong with a case, alone: `ending`, `slices` or `neighbour`."""
    answer = programs.played(case.text())
    found = badly_ended(case, answer)
    if found:
        return found
    if programs.differing([(case.text(), answer)]):
        return "slices"
    return beside_another(programs, case, answer)


def first_difference(programs, cases):
    """The place of the first of these cases with which something is wrong, played together."""
    answers = [programs.played(case.text()) for case in cases]
    ended = [place for place, answer in enumerate(answers) if answer[0] is not None]
    sliced = {ended[it] for it in programs.differing([(cases[place].text(), answers[place]) for place in ended])}
    for place, (case, answer) in enumerate(zip(cases, answers)):
        if badly_ended(case, answer) or place in sliced or beside_another(programs, case, answer):
            return place
    return None


# ---- cutting down

def fewer(parts, serves):
    """What is left of a list when no run of its parts can go, as far as runs of halves, quarters and so on are tried."""
    size = len(parts)
    while size:
        start = 0
        while start < len(parts):
            left = parts[:start] + parts[start + size:]
            if serves(left):
                parts = left
            else:
                start += size
        size //= 2
    return parts


class Cut:
    """Cuts a case down as long as the same is wrong with it."""

    def __init__(self, programs, case):
        self.programs, self.case, self.tries = programs, case, 0
        self.kind = difference(programs, case)

    def take(self, case):
        """Takes a smaller case, if it serves."""
        self.tries += 1
        if self.tries > MOST_TRIES or difference(self.programs, case) != self.kind:
            return False
        self.case = case
        return True

    def with_apps(self, apps):
        """The case with some of its applications alone, which have to have the one that is exchanged."""
        names, own = [app.name for app in apps], self.case.apps[self.case.slot]
        if own.name not in names:
            return False
        lines = [line for line in self.case.lines if not re.match(r"focus \w|rect ", line[1]) or line[1].split(" ")[1] in names]
        return self.take(dataclasses.replace(self.case, apps=apps, lines=lines, slot=names.index(own.name)))

    def with_app(self, app, **changed):
        """The case with something changed of one application, which is in a slot or comes in one's place."""
        made = copy.copy(self.case)
        if app is self.case.other:
            made.other = dataclasses.replace(app, **changed)
        else:
            made.apps = [dataclasses.replace(it, **changed) if it is app else it for it in self.case.apps]
        return self.take(made)

    def of_app(self, place):
        """Cuts down an application: in which slot it is, or the one that comes in another's place where there is no such slot."""
        app = lambda: (self.case.apps + [self.case.other])[place]
        fewer(app().aliases, lambda left: self.with_app(app(), aliases=left))
        fewer(app().script, lambda left: self.with_app(app(), script=left))
        words = re.findall(r"\s+|[{}\[\]\";]|[^\s{}\[\]\";]+", "\n".join(app().script))
        fewer(words, lambda left: self.with_app(app(), script=["".join(left)] if left else []))

    def run(self):
        size = None
        while size != len(self.case.text()) and self.tries < MOST_TRIES:
            size = len(self.case.text())
            fewer(self.case.apps, self.with_apps)
            fewer(self.case.lines, lambda left: self.take(dataclasses.replace(self.case, lines=left)))
            fewer(list(self.case.broken), lambda left: self.take(dataclasses.replace(self.case, broken=tuple(left))))
            self.take(dataclasses.replace(self.case, end=self.case.lines[-1][0] if self.case.lines else 0))
            for place in range(len(self.case.apps) + 1):
                self.of_app(place)
        return self.case


def told(programs, seed, case):
    """Writes a case that shows a difference, cut down, and says what differs."""
    cut = Cut(programs, case)
    if cut.kind is None:
        return f"seed {seed}: it differs beside others of its run, and not alone\n"
    case = cut.run()
    out = TOP / "out"
    out.mkdir(exist_ok=True)
    path = out / f"fuzz-{seed}.session"
    path.write_bytes(case.text())
    about = {"ending": "the host ends badly", "slices": "slices give other bytes", "neighbour": f"another {case.other.name} changes a section"}[cut.kind]
    said = f"seed {seed}: {about}: {os.path.relpath(path)}, cut down in {cut.tries} tries\n{case.text().decode(errors='backslashreplace')}"
    if cut.kind == "neighbour":
        path.with_suffix(".other").write_bytes(case.text(exchanged=True))
        said += f"the other {case.other.name}:\n" + "\n".join(case.other.block()) + "\n"
    return said


def search(programs, seed, count):
    """The first case that shows a difference, with its seed; nothing where there is none."""
    batches = [range(first, min(first + BATCH, seed + count)) for first in range(seed, seed + count, BATCH)]
    started, done = time.monotonic(), 0

    def tried(seeds):
        cases = [Attack(one).case() for one in seeds]
        place = first_difference(programs, cases)
        return len(cases), None if place is None else (seeds[place], cases[place])

    with concurrent.futures.ThreadPoolExecutor(len(os.sched_getaffinity(0))) as pool:
        waiting, left = [], iter(batches)
        # (few at a time, so that it stops soon after the first)
        while True:
            while len(waiting) < 2 * len(os.sched_getaffinity(0)) and (seeds := next(left, None)):
                waiting.append(pool.submit(tried, seeds))
            if not waiting:
                return None
            played, found = waiting.pop(0).result()
            if found:
                return found
            done += played
            if sys.stderr.isatty():
                print(f"\r{done} of {count} sessions, {time.monotonic() - started:.0f} s", end="", file=sys.stderr, flush=True)


# ---- planted differences

class Planted(Programs):
    """Programs that go wrong where a script has a word: `upvar` ends the host badly, `rename` changes the section of another application, and `destroy` gives
    other bytes in slices."""

    def __init__(self, word):
        self.word = word

    @staticmethod
    def scripts(text):
        """The script of each application."""
        lines, scripts, name = iter(text.decode(errors="replace").split("\n")), {}, None
        for line in lines:
            if line.startswith("app "):
                name = line.split(" ")[1]
            if re.fullmatch(r"script \d+", line):
                scripts[name] = "\n".join(next(lines) for _ in range(int(line.split(" ")[1])))
        return scripts

    def played(self, text):
        scripts, said = self.scripts(text), ""
        if self.word == "upvar" and any("upvar" in it for it in scripts.values()):
            return 101, b"", b""
        for name in scripts:
            beside = self.word == "rename" and any("rename" in script for other, script in scripts.items() if other != name)
            said += f"app {name} running {int(beside)}\ntree\ntimers\ndone\n"
        return 0, said.encode(), b""

    def differing(self, texts):
        return [place for place, (text, _) in enumerate(texts) if self.word == "destroy" and "destroy" in "".join(self.scripts(text).values())]


def planted():
    """Tries the search and the cutting where a difference was planted: each has to be found, and little but the word to be left."""
    faults = []
    for word, least in ("upvar", 1), ("rename", 2), ("destroy", 1):
        programs = Planted(word)
        # (texts that are no sessions are the real host's matter)
        cases = [case for case in (Attack(seed).case() for seed in range(1, 9)) if not case.broken]
        place = first_difference(programs, cases)
        if place is None:
            faults.append(f"{word}: no difference was found")
            continue
        case = Cut(programs, cases[place]).run()
        apps = [*case.apps, case.other]
        if len(case.apps) != least or case.lines or [text for app in apps for text in app.script if text] != [word] or any(app.aliases for app in apps):
            faults.append(f"{word}: this is left:\n{case.text().decode()}{case.other}")
    for fault in faults:
        print(fault)
    print(f"fuzz, planted differences: {3 - len(faults)} passed, {len(faults)} failed")
    return 1 if faults else 0


def main():
    words = sys.argv[1:]
    if words == ["--planted"]:
        return planted()
    if len(words) != 2 or not all(re.fullmatch(r"\d+", it) for it in words):
        sys.exit(__doc__)
    seed, count = map(int, words)
    lacking = [str(built(it)) for it in (HOST, TABLES_OF_HOSTS) if not built(it).exists()]
    if lacking:
        sys.exit(f"{' '.join(lacking)}: not built; tests/run does it")
    programs = Programs([built(HOST)], [built(TABLES_OF_HOSTS)])
    found = search(programs, seed, count)
    if found:
        print(told(programs, *found), end="")
    print(f"fuzz: sessions of the seeds {seed} to {seed + count - 1}, {'a difference' if found else 'no difference'}")
    return 1 if found else 0


if __name__ == "__main__":
    sys.exit(main())
