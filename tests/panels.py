"""Random panels with windows, bindings, timers and commands of their program, and random lines of sessions, for the tests beside this file."""
import random

KINDS = {"f": "frame", "g": "frame", "l": "label", "b": "button", "c": "button", "e": "entry", "x": "listbox"}
PATHS = [".f", ".f.l", ".f.b", ".f.e", ".g", ".g.x", ".l", ".b", ".c", ".e", ".x"]
MOMENTS = [0, 0, 1, 2, 5, 5, 7, 10, 10, 13, 20]
KEYS = "a b x A 1 space Return BackSpace Delete Left Right Home End Up Down semicolon braceleft".split()
MODIFIERS = "Shift_L Control_L Alt_R Caps_Lock".split()
SEQUENCES = """<1> <ButtonRelease-1> <Button> <Motion> <B1-Motion> <Enter> <Leave> <Key> a ab <Shift-Key> <Control-x> <KeyRelease> <Double-1> <Double-a> <FocusIn> <FocusOut>
    <Configure> <Map> <Unmap> <Destroy> <<V>> <<W>> <<ListboxSelect>> <Return> <space> <Lock-Key> <1><1>""".split()
GENERATED = "a b x <space> <Return> <Control-x> <1> <ButtonRelease-1> <Motion> <Enter> <Leave> <Map> <FocusIn> <Configure> <<V>> <<W>>".split()
OPTIONS = {
    "frame": ["-width 40", "-height 30", "-bd 3", "-relief groove", "-width x"], "label": ["-text {two words}", "-textvariable v", "-padx 7", "-width 9", "-bg red"],
    "button": ["-text Go", "-command {puts hit; incr n}", "-command work", "-state disabled", "-textvariable n"],
    "entry": ["-textvariable v", "-width 8", "-state readonly", "-state normal"], "listbox": ["-height 3", "-width 6", "-selectmode multiple", "-selectmode single"]}
PACKINGS = ["", "-side left", "-side bottom -fill x", "-side right -padx {2 5}", "-expand 1 -fill both", "-anchor se -ipadx 3 -pady 2", "-before .l", "-after .f", "-side up"]
ALIASES = ["get table k one n two", "note upper said", "five const 5", "add sum 1 2", "no fail {none of that}"]


class Panels:
    """Makes random scripts and lines, always the same from the same seed."""

    def __init__(self, seed):
        self.random = random.Random(seed)
        self.pick = self.random.choice

    def chance(self, part):
        return self.random.random() < part

    def between(self, least, most):
        return self.random.randint(least, most)

    def path(self):
        return self.pick(PATHS + ["."])

    def kind(self, path):
        return KINDS.get(path.rpartition(".")[2], "frame")

    def plain(self):
        """A command of Tcl that tells of itself or counts."""
        return self.pick([
            "puts [incr n]", "puts $n@[clock milliseconds]", "foreach k {a b c} {append v $k}; puts $v", "set i 0; while {[incr i] < %d} {incr n}" % self.between(1, 9),
            "puts [after info]", "after cancel after#%d" % self.between(0, 9), "error n=$n", "nothing $n", "work", "set n 0", "set v {}", "unset -nocomplain v", "break", "return", "#",
            "if {$n % 2} {puts odd} else {puts even}", "switch $n {1 {puts one} default {puts many}}", "proc again {} {incr ::n; puts $::n}; again", "puts [get k]", "puts [note $n]", "no",
        ])

    def of_windows(self):
        """A command on windows."""
        path = self.path()
        kind = self.kind(path)
        index = self.pick(["0", "1", "end", "insert", "active", "7", "x"])
        return self.pick([
            "%s %s %s" % (kind, path, self.pick(OPTIONS[kind])), "%s %s" % (kind, path), "pack %s %s" % (path, self.pick(PACKINGS)), "pack %s" % path, "destroy %s" % path,
            "%s configure %s" % (path, self.pick(OPTIONS[kind])), "puts [%s cget %s]" % (path, self.pick(OPTIONS[kind]).split()[0]), "pack forget %s" % path, "pack propagate %s 0" % path,
            "puts [pack slaves %s]" % self.pick([".", ".f", ".g"]), "puts [winfo children %s]" % self.pick([".", ".f", ".g"]),
            "puts [winfo %s %s]" % (self.pick(["width", "height", "x", "rooty", "reqwidth", "ismapped", "exists", "class"]), path), "wm title . $n; puts [wm title .]",
            ".e insert %s $n" % index, ".e delete %s" % index, "puts [.e get]@[.e index insert]", ".x insert %s a {b c}" % index, ".x delete %s" % index, "puts [.x get 0 end]", "puts [.x curselection]",
            ".x selection set %s" % index, ".b invoke", ".c invoke", "update", "update idletasks", "focus %s" % path, "puts [focus]", "puts [focus -lastfor .]",
        ])

    def fields(self):
        return " ".join(self.pick("%W %K %A %b %s %x %y %X %Y %t %T %d %w %h".split()) for _ in range(self.between(1, 4)))

    def of_events(self, depth):
        """A command on bindings and events."""
        tag, sequence = self.pick(PATHS + [".", "all", "Frame", "Button", "Entry", "Listbox", "t"]), self.pick(SEQUENCES)
        script = self.pick(['puts "%s"' % self.fields(), 'puts "%s"; break' % self.fields(), "incr n", self.step(depth + 1), 'puts "%s"; %s' % (self.fields(), self.step(depth + 1))])
        return self.pick([
            "bind %s %s {%s}" % (tag, sequence, script), "bind %s %s {%s}" % (tag, sequence, script), "bind %s %s {+%s}" % (tag, sequence, script), "bind %s %s {}" % (tag, sequence),
            "puts [bind %s]" % tag, "bindtags %s {%s t %s}" % (self.path(), self.path(), self.pick(["all", "Frame", "Button"])), "event add <<%s>> %s" % (self.pick("VW"), self.pick(["a", "<1>", "<Double-1>", "ab"])),
            "event delete <<V>>", "puts [event info <<V>>]", "event generate %s %s" % (self.path(), self.pick(GENERATED)),
            "event generate %s %s -when %s" % (self.path(), self.pick(GENERATED), self.pick(["tail", "head", "now"])), "event generate . <<V>> -data {$n [d]} -x %d" % self.between(-9, 99),
        ])

    def later(self, depth):
        """A timer or an idle script."""
        return "after %s {%s}" % (self.pick(["idle"] + MOMENTS), self.step(depth + 1))

    def step(self, depth=0):
        """A command, whose scripts nest a few deep."""
        kinds = [self.plain, self.of_windows, self.of_windows]
        if depth < 3:
            kinds += [lambda: self.of_events(depth), lambda: self.of_events(depth), lambda: self.later(depth)]
        command = self.pick(kinds)()
        return self.pick(["catch {%s} m", "puts [catch {%s} m]:$m", "puts [catch {%s} m]:$m", "%s"]) % command

    def script(self):
        """A panel: some windows, and what it does with them."""
        lines = ["set n %d; set v text; proc work {} {incr ::n; puts \"work $::n\"}" % self.between(0, 3)]
        shown = [path for path in PATHS if self.chance(0.6)]
        for path in shown:
            lines.append("catch {pack [%s %s] %s; %s configure %s} m" % (self.kind(path), path, self.pick(PACKINGS), path, self.pick(OPTIONS[self.kind(path)])))
            if self.chance(0.5):
                lines.append("bind %s %s {puts \"%%W %s\"}" % (self.pick([path, path, "all"]), self.pick(SEQUENCES), self.fields()))
        lines += ["catch {%s} m" % self.of_events(1) for _ in range(self.between(2, 8))]
        lines += ["catch {%s} m" % self.step() if self.chance(0.9) else self.step() for _ in range(self.between(2, 12))]
        if self.chance(0.2):
            lines.append("proc tick {} {%s; after %d tick}; tick" % (self.plain().replace("return", "set n 0"), self.pick([1, 2, 3, 5, 10])))
        if self.chance(0.1):
            lines.insert(self.between(1, len(lines)), self.pick(["while 1 {incr n}", "destroy .", "after 3 {destroy .}"]))
        return "\n".join(lines)

    def aliases(self):
        return [alias for alias in ALIASES if self.chance(0.5)]

    def budget(self):
        return self.pick([0, 20, 80, 300, 1000, 3000, 3000, 10000])

    def lines(self, spots, names):
        """Lines of events without their end, the pointer at spots of which `spots()` answers one, the focus at names; and their last moment."""
        moment, told = 0, [(0, "focus %s" % self.pick(names))] if self.chance(0.8) else []
        for _ in range(self.pick([0, 3, 10, 30, 60])):
            moment += self.pick([0, 0, 0, 1, 1, 2, 7, 300])
            told.append((moment, self.pick([
                lambda: "move %d %d" % spots(), lambda: "move %d %d" % spots(), lambda: "press %d" % self.pick([1, 1, 1, 2, 3]), lambda: "release %d" % self.pick([1, 1, 1, 2, 3]),
                lambda: "press 1", lambda: "release 1", lambda: "keydown %s" % self.pick(KEYS), lambda: "keydown %s" % self.pick(KEYS), lambda: "keyup %s" % self.pick(KEYS),
                lambda: "keydown %s" % self.pick(MODIFIERS), lambda: "keyup %s" % self.pick(MODIFIERS), lambda: "focus %s" % self.pick(names + ["-"]),
            ])()))
        return told, moment + self.pick([0, 5, 25, 60])


def block(name, rectangle, budget, aliases, script):
    """An application's lines of a session."""
    return ["app %s %d %d %d %d %s" % (name, *rectangle, budget), *("alias " + alias for alias in aliases), "script %d" % (script.count("\n") + 1 if script else 0)] + ([script] if script else [])


def session(blocks, lines, end, version=1):
    """The text of a session; version 2 has lines of rectangles, and budgets that are refilled."""
    return "\n".join(["tkhost %d" % version, *(line for one in blocks for line in one), "events", *("%d %s" % line for line in lines), "%d end" % end, ""]).encode()
