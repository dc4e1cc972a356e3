#!/usr/bin/env python3
"""hostile.py [--costs] [WORD ..]: sessions that attack the host, each with a bound of time and of memory; with words only those in whose names one of
them stands.

The program is that which the gate left in crates/tkhost_main/out. In each session a panel `good` lies beside the attacker, whose section has to be
the same in all.

- tests/hostile/NAME.session: what each may cost and what has to come of it stands in tests/hostile/hostile.table; and some of them in 40 MiB or 12, which have to
  end with status 4 and write nothing;
- made here: `destroy .` inside every kind of callback, each command renamed away, and 200 and 201 of whatever nests;
- made of those in tests/hostile: cut at bytes, with bytes changed, with lines swapped, with fields out of their ranges and with bytes that are no UTF-8;
  and 65,537 lines of a script, of events and of moved rectangles. Some hundreds of these are tried, always the same; each has to end with status 0 or with
  the line of a fault, which is known where a text is cut.

--costs plays the stored sessions alone, one after another, and prints what each took beside its bounds: the time, and the least memory that is enough."""
import concurrent.futures, os, pathlib, random, re, resource, subprocess, sys, tempfile
from programs import HOST, TOP, built

CORPUS = TOP / "tests" / "hostile"
GOOD = "app good 0 0 100 100 1000\nscript 4\nlabel .l -text calm\npack .l\nbind . <Key> {puts \"key %K\"}\nputs ready\n"
CALM = "app good running 996\nout 0 ready\ntree\nwin . Tk 0 0 100 100 1\nwin .l Label 32 0 36 20 1 calm\ntimers\ndone\n"
FAULT = re.compile(r"tkhost: fault (\d+) at line (\d+)\n")
# The bounds of a session that is made here: seconds of the processor and MiB of address space.
SMALL = (3, 64)


class Run:
    """How a run of the host ended, and its time. The memory is bounded by the address space: a run that wants more is refused it and ends with status 4."""

    def __init__(self, text, bounds):
        seconds, mebibytes = bounds
        with tempfile.TemporaryFile() as given, tempfile.TemporaryFile() as written, tempfile.TemporaryFile() as said:
            given.write(text)
            given.seek(0)
            limits = lambda: (resource.setrlimit(resource.RLIMIT_CPU, (int(seconds) + 2,) * 2), resource.setrlimit(resource.RLIMIT_AS, (mebibytes << 20,) * 2))
            process = subprocess.Popen([built(HOST)], stdin=given, stdout=written, stderr=said, preexec_fn=limits)
            _, status, usage = os.wait4(process.pid, 0)
            process.returncode = self.status = os.waitstatus_to_exitcode(status)
            self.seconds = usage.ru_utime + usage.ru_stime
            written.seek(0)
            said.seek(0)
            self.stdout, self.stderr = written.read().decode(), said.read().decode()
        self.faults = []
        if self.seconds > seconds:
            self.faults.append(f"took {self.seconds:.1f} s, more than {seconds}")

    def played(self, facts=()):
        """What is wrong with a run of a session that has to be played, with these lines in what it wrote behind the section of `good`."""
        if self.status or self.stderr:
            return [f"ended with {self.status}: {self.stderr[:200]}", *self.faults]
        if not self.stdout.startswith(CALM):
            return [f"the panel beside it isn't calm: {self.stdout[:300]}", *self.faults]
        lines = self.stdout[len(CALM):].split("\n")
        # lines end with LF alone: whatever else a text has, there is one more section
        if [line for line in lines if line.startswith("app ")] != lines[:1] or lines.count("done") != 1 or lines[-2:] != ["done", ""]:
            self.faults.append(f"not one section more: {self.stdout[len(CALM):][:300]}")
        for kind, text in facts:
            found = text in lines if kind == "=" else any(line.startswith(text) for line in lines)
            if found == (kind == "!"):
                self.faults.append(f"{'a line of' if found else 'no line of'} {kind} {text}, but {[line[:60] for line in lines[:6]]}")
        return self.faults

    def refused(self, faults=range(34, 44), lines=None):
        """What is wrong with a run of a text that has to be refused, with one of these faults at one of these lines."""
        found = FAULT.fullmatch(self.stderr)
        if self.status != 1 or self.stdout or not found:
            return [f"ended with {self.status}: {self.stderr[:200]} {self.stdout[:200]}", *self.faults]
        if int(found[1]) not in faults or lines is not None and int(found[2]) not in lines:
            return [f"told {self.stderr.strip()}, and not one of {[*faults]} at one of {lines}", *self.faults]
        return self.faults

    def starved(self, asker):
        """What is wrong with a run that has to end for want of memory: nothing is written then, and this application has asked for it, or none by name."""
        told = self.status, self.stdout, self.stderr
        return [] if told == (4, "", "tkhost: out of memory\n" + (f"tkhost: memory was refused to {asker}\n" if asker else "")) else [f"ended with {self.status}: {self.stderr[:200]} {self.stdout[:200]}"]


# ---- the corpus

def read_table():
    """The rows of hostile.table: of each session its bounds and its facts."""
    rows, name = {}, None
    for number, line in enumerate((CORPUS / "hostile.table").read_text().split("\n"), 1):
        row = re.fullmatch(r"([a-z-]+) ([\d.]+) (\d+)", line)
        fact = re.fullmatch(r"([=~!]) (.+)", line)
        if row and row[1] not in rows:
            name = row[1]
            rows[name] = (float(row[2]), int(row[3])), []
        elif fact and name:
            rows[name][1].append((fact[1], fact[2]))
        elif line and not line.startswith("#"):
            sys.exit(f"hostile.table:{number}: no such line: {line}")
    return rows


def corpus():
    """The stored sessions: their names, and what is wrong with each run."""
    rows, files = read_table(), {it.stem for it in CORPUS.glob("*.session")}
    for name in sorted({*rows} ^ files):
        yield name, lambda name=name: [f"{name} has no {'row' if name in files else 'session'}"]
    for name in sorted({*rows} & files):
        yield name, lambda name=name: Run((CORPUS / f"{name}.session").read_bytes(), rows[name][0]).played(rows[name][1])
    # (the lines find room while they are shown, and none where the section is made of them)
    for name, room, asker in (("lines-of-newlines", 40, None), ("variables-of-the-longest", 40, "bad"), ("procedures-of-brackets", 12, "bad"), ("words-of-one-command", 40, "bad")):
        yield f"{name} in {room} MiB", lambda name=name, room=room, asker=asker: Run((CORPUS / f"{name}.session").read_bytes(), (30, room)).starved(asker)


# ---- made sessions

def session(script, lines="9 end", budget=3000, version=1):
    return f"tkhost {version}\n{GOOD}app bad 200 0 200 100 {budget}\nscript {script.count(chr(10)) + 1}\n{script}\nevents\n{lines}\n".encode()


# Callbacks of each kind, with the lines that bring them about; SCRIPT is what each does.
CALLBACKS = {
    "the script itself": ("SCRIPT", ""), "a procedure": ("proc p {} {SCRIPT}; p", ""), "eval": ("eval {SCRIPT}", ""), "uplevel": ("proc p {} {uplevel {SCRIPT}}; p", ""), "catch": ("catch {SCRIPT}", ""),
    "brackets": ("puts [SCRIPT]", ""), "an index": ("set a([SCRIPT]) 1", ""), "an expression": ("expr {[SCRIPT; list 1] + 1}", ""), "if": ("if 1 {SCRIPT}", ""), "while": ("while {[incr n] < 5} {SCRIPT}", ""),
    "for": ("for {SCRIPT} {[incr n] < 5} {SCRIPT} {SCRIPT}", ""), "foreach": ("foreach a {1 2 3} {SCRIPT}", ""), "switch": ("switch a {a {SCRIPT}}", ""), "a timer": ("after 3 {SCRIPT}", ""),
    "a timer at once": ("after 0 {SCRIPT}; update", ""), "an idle script": ("after idle {SCRIPT}", ""), "an idle script at once": ("after idle {SCRIPT}; update idletasks", ""),
    "invoke": ("button .b -command {SCRIPT}; .b invoke", ""), "a click": ("pack [button .b -command {SCRIPT}]", "1 move 300 5\n2 press 1\n3 release 1\n"),
    "space": ("pack [button .b -command {SCRIPT}]; focus .b", "1 focus bad\n2 keydown space\n"), "Key": ("bind . <Key> {SCRIPT}", "1 focus bad\n2 keydown a\n"),
    "KeyRelease": ("bind . <KeyRelease> {SCRIPT}", "1 focus bad\n2 keydown a\n3 keyup a\n"), "Button": ("bind . <Button> {SCRIPT}", "1 move 210 5\n2 press 3\n"),
    "ButtonRelease": ("bind . <ButtonRelease> {SCRIPT}", "1 move 210 5\n2 press 3\n3 release 3\n"), "Motion": ("bind . <Motion> {SCRIPT}", "1 move 210 5\n2 move 211 5\n"),
    "Enter": ("bind . <Enter> {SCRIPT}", "1 move 210 5\n"), "Leave": ("bind . <Leave> {SCRIPT}", "1 move 210 5\n2 move 500 5\n"), "FocusIn": ("bind . <FocusIn> {SCRIPT}", "1 focus bad\n"),
    "FocusOut": ("bind . <FocusOut> {SCRIPT}", "1 focus bad\n2 focus -\n"), "Map": ("bind . <Map> {SCRIPT}", ""), "Configure": ("bind . <Configure> {SCRIPT}", ""),
    "Unmap": ("pack [frame .f]; bind .f <Unmap> {SCRIPT}; update; pack forget .f", ""), "Destroy": ("frame .f; bind .f <Destroy> {SCRIPT}; destroy .f", ""), "Destroy of itself": ("bind . <Destroy> {SCRIPT}; destroy .", ""),
    "a virtual event": ("bind . <<V>> {SCRIPT}; event generate . <<V>>", ""), "one that waits": ("bind . <<V>> {SCRIPT}; event generate . <<V>> -when tail", ""),
    "ListboxSelect": ("pack [listbox .x]; .x insert end a; bind .x <<ListboxSelect>> {SCRIPT}", "1 move 300 5\n2 press 1\n"),
    "a class": ("pack [entry .e]; focus .e; bind Entry <Key> {SCRIPT}", "1 focus bad\n2 keydown a\n"), "all": ("bind all <Key> {SCRIPT}", "1 focus bad\n2 keydown a\n"),
    "a script behind another": ("bind . <Key> {puts first}; bind all <Key> {SCRIPT}; bind Tk <Key> {SCRIPT}", "1 focus bad\n2 keydown a\n"), "a command redefined": ("proc puts args {SCRIPT}; puts x", ""),
    "a double click": ("bind . <Double-1> {SCRIPT}", "1 move 210 5\n2 press 1\n3 release 1\n4 press 1\n"),
}
COMMANDS = """after append array bind bindtags break button catch clock concat continue destroy entry error eval event expr focus for foreach frame global if incr info join label lappend lindex
    linsert list listbox llength lrange lreplace lsearch lsort pack proc puts rename return set split string switch tk::ButtonDown tk::ButtonEnter tk::ButtonInvoke tk::ButtonLeave tk::ButtonUp
    tk::EntryBackspace tk::EntryDelete tk::EntryDown tk::EntryInsert tk::EntryMove tk::ListboxDown tk::ListboxDrag tk::ListboxMove tk::ListboxSpace unset update uplevel upvar while winfo wm .""".split()
# What nests: how a script goes into the next one, or a text into itself, and which error the 201st makes. Scripts count the application's own.
NESTED_SCRIPTS = {
    "if": "if 1 {SCRIPT}", "while": "while 1 {SCRIPT; break}", "for": "for {} 1 {} {SCRIPT; break}", "foreach": "foreach a 1 {SCRIPT}", "switch": "switch a {a {SCRIPT}}", "eval": "eval {SCRIPT}",
    "uplevel": "uplevel #0 {SCRIPT}", "catch": "catch {SCRIPT} m; if {$m ne {}} {error $m}", "brackets": "set m [SCRIPT]", "procedures": "proc p[incr ::n] {} {SCRIPT}; p$::n",
    "invoke": "button .b[incr n] -command {SCRIPT}; .b$n invoke", "bound scripts": "bind . <<V[incr n]>> {SCRIPT}; event generate . <<V$n>>", "timers in update": "after 0 {SCRIPT}; update",
    "idle scripts in update": "after idle {SCRIPT}; update idletasks", "queued events in update": "bind . <<V[incr n]>> {SCRIPT}; event generate . <<V$n>> -when tail; update",
    "destroyed windows": "frame .f[incr n]; bind .f$n <Destroy> {SCRIPT}; destroy .f$n",
}
NESTED_TEXTS = {
    "brackets": ("catch {%s} m; puts $m", "[", "set a x", "]", "limit reached: value"), "parentheses": ("puts [catch {expr {%s}} m]:$m", "(", "1", ")", "limit reached: value"),
    "indices": ("puts [catch {set x %s} m]:$m", "$a(", "1", ")", "limit reached: value"), "brackets in quotes": ("puts [catch {set x \"%s\"} m]:$m", "[", "set a x", "]", "limit reached: value"),
}
DEEP = "too many nested evaluations (infinite loop?)"


def nested(form, count):
    """A script that is nested so often in a form, and says that it ran."""
    script = "puts reached"
    for _ in range(count):
        script = form.replace("SCRIPT", script)
    return script


def made():
    """Sessions that are made here: their names, and what is wrong with each run."""
    run = lambda text, bounds=SMALL: Run(text, bounds)
    for name, (script, lines) in CALLBACKS.items():
        text = session(script.replace("SCRIPT", "destroy ."), lines + "9 end")
        yield f"destroy . in {name}", lambda text=text: run(text).played([("~", "app bad closed"), ("!", "win"), ("=", "tree")])
    for command in COMMANDS[:-1]:
        text = session(f"rename {command} {{}}\n{command} x y\npack [button .b]", "1 move 300 5\n2 press 1\n3 release 1\n9 end")
        yield f"rename {command}", lambda text=text, command=command: run(text).played([("~", "app bad running"), ("=", f'err 0 invalid command name "{command}"')])
    yield "rename .", lambda: run(session("rename . {}")).played([("=", 'err 0 can\'t use name "."')])
    every = session("foreach command {%s} {if {$command ne {rename}} {catch {rename $command {}}}}\nrename rename {}\nputs x" % " ".join(it for it in COMMANDS if it not in ("if", "catch", "rename")))
    yield "rename all", lambda: run(every).played([("~", "app bad running"), ("=", 'err 0 invalid command name "puts"')])
    for name, form in NESTED_SCRIPTS.items():
        # (the application's script is the first, and each script in a form is one more)
        for count in (199, 200):
            facts = [("=", "out 0 reached")] if count == 199 else [("!", "out"), ("=", f"err 0 {DEEP}")]
            yield f"{count + 1} scripts by {name}", lambda text=session(nested(form, count)), facts=facts: run(text).played(facts)
    for name, (form, opens, inside, closes, error) in NESTED_TEXTS.items():
        for count in (200, 201):
            facts = [("!", f"out 0 1:{error}"), ("!", f"out 0 {error}")] if count == 200 else [("~", f"out 0 {'' if name == 'brackets' else '1:'}{error}")]
            yield f"{count} {name}", lambda text=session(form % (opens * count + inside + closes * count)), facts=facts: run(text).played([("~", "app bad running"), *facts])
    many = 65_537
    yield "65,537 lines of a script", lambda: run(session("\n" * (many - 1))).played([("=", "app bad running 3000")])
    yield "65,538 lines of a script", lambda: run(session("\n" * many)).refused([36], [9])
    yield "65,537 lines of events", lambda: run(session("bind . <Motion> {incr n}", "\n".join(f"{at} move {200 + at % 100} 5" for at in range(many)) + f"\n{many} end", 200_000)).played([("~", "app bad running")])
    yield "65,537 moved rectangles", lambda: run(session("bind . <Configure> {incr n}", "\n".join(f"{at} rect bad {200 + at % 100} 0 {100 + at % 50} 100" for at in range(many)) + f"\n{many} end", "1000/2", 2)).played([("~", "app bad running")])


# ---- texts that are no sessions

def cut(text, place):
    """What is wrong with a run of a session that is cut at a byte: its last line is none, or the one behind it lacks."""
    line = text.count(b"\n", 0, place) + 1
    # (the last line may lack its line feed)
    if place >= len(text) - 1:
        return Run(text[:place], SMALL).played()
    # (the front of a name may be the name of no application)
    front = re.search(rb"\d (focus|rect) \w+( [\d ]*)?\Z", text[:place])
    return Run(text[:place], SMALL).refused([36, 37] if front else [36], [line, line + 1])


def out_of_range(made, text):
    """A session with one number of a line that isn't a script's made too large, negative, or none."""
    numbers = [it for line in re.finditer(rb"^(?:app|\d+ (?:move|press|rect|end)|script) ?.*$", text, re.M) for it in re.compile(rb"(?<= )\d+").finditer(text, line.start(), line.end())]
    place = made.choice(numbers)
    return text[:place.start()] + made.choice([b"99999999999999999999", b"-1", b"1e3", b"01", b"", b"1000000000001", b"18446744073709551616"]) + text[place.end():]


def swapped(made, text):
    """A session of which two lines have changed places."""
    lines = text.split(b"\n")
    first, second = (made.randrange(len(lines) - 1) for _ in range(2))
    lines[first], lines[second] = lines[second], lines[first]
    return b"\n".join(lines)


def broken():
    """Texts that are made of sessions, always the same: their names, and what is wrong with each run."""
    made = random.Random(59)
    texts = [session("frame .f\npack .f\nafter 3 {puts [list a b]}\nputs \"x\ty\"", "1 move 210 5\n2 press 1\n3 release 1\n4 focus bad\n5 keydown F12\n6 focus -\n7 rect bad 200 0 120 80\n9 end", "50/2", 2)]
    texts += [(CORPUS / f"{name}.session").read_bytes() for name in ("an-entry-that-fills", "class-bindings-renamed", "a-text-that-forges-lines")]
    for place in range(len(texts[0]) + 1):
        yield f"cut at {place}", lambda place=place: cut(texts[0], place)
    for number in range(400):
        text = made.choice(texts)
        place = made.randrange(len(text))
        kind = made.choice(["byte", "byte", "utf-8", "range", "swap"])
        if kind == "byte":
            text = text[:place] + bytes([made.randrange(256)]) + text[place + 1:]
        elif kind == "utf-8":
            text = text[:place] + made.choice([b"\xff", b"\xc0\xaf", b"\xed\xa0\x80", b"\xf4\x90\x80\x80", b"\xe2\x82", b"\x80"]) + text[place:]
        else:
            text = {"range": out_of_range, "swap": swapped}[kind](made, text)
        # (the panel beside it may be what is changed: it then needn't be calm)
        yield f"changed {number} ({kind})", lambda text=text: any_end(text)


def any_end(text):
    """What is wrong with a run of any text."""
    run = Run(text, SMALL)
    if run.status == 0 and not run.stderr and run.stdout.endswith("done\n"):
        return run.faults
    return run.refused()


def costs(words):
    """Prints what the stored sessions take, by their names, each after the other; the memory by halving what lies between too little and enough."""
    for name, ((seconds, mebibytes), facts) in read_table().items():
        if not words or any(word in name for word in words):
            text, little, enough = (CORPUS / f"{name}.session").read_bytes(), 0, 4 * mebibytes
            run = Run(text, (4 * seconds, enough))
            while enough - little > max(1, enough // 20):
                middle = (little + enough) // 2
                little, enough = (little, middle) if Run(text, (4 * seconds, middle)).status == 0 else (middle, enough)
            print(f"{name}: {run.seconds:.2f} s of {seconds:g}, {enough} MiB of {mebibytes} {'; '.join(run.played(facts))}", flush=True)


def main():
    words = sys.argv[1:]
    measures = words[:1] == ["--costs"]
    if any(word.startswith("-") for word in words[measures:]):
        sys.exit(__doc__)
    if not built(HOST).exists():
        sys.exit(f"{built(HOST)}: not built; tests/run does it")
    if measures:
        return costs(words[1:])
    every = [(name, case) for cases in (corpus(), made(), broken()) for name, case in cases if not words or any(word in name for word in words)]
    with concurrent.futures.ThreadPoolExecutor(len(os.sched_getaffinity(0))) as pool:
        answers = list(pool.map(lambda one: (one[0], one[1]()), every))
    failed = [(name, faults) for name, faults in answers if faults]
    for name, faults in failed:
        print(f"{name}: {'; '.join(faults)}")
    print(f"hostile: {len(answers) - len(failed)} passed, {len(failed)} failed")
    return 1 if failed or not answers else 0


if __name__ == "__main__":
    sys.exit(main())
