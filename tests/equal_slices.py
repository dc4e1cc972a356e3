#!/usr/bin/env python3
"""equal_slices.py [SCRIPTS [SEED]]: random scripts end alike however their steps are sliced.

The programs are those that the gate left in crates/NAME/out. SCRIPTS random scripts (1,000 if no number is given) are put
into sessions of up to sixteen applications. What `tkhost_main` writes of each session is stored as what is expected, and
`test_host` then plays it in slices of 1, 2, 3, 7, 64 and 1,000,000 steps, none of which may change a byte."""
import pathlib, random, subprocess, sys, tempfile
from programs import HOST, TABLES_OF_HOSTS, built

VARIABLES = ["a", "b", "c", "d", "::g", "r(1)", "r(k)"]
NAMES = ["p", "q", "s"]


class Scripts:
    """Random scripts: most of their commands succeed, and some don't."""

    def __init__(self, seed):
        self.random = random.Random(seed)
        self.pick = self.random.choice

    def chance(self, part):
        return self.random.random() < part

    def number(self):
        return str(self.pick([0, 1, 2, 3, 5, 7, -1, -3, 10, 64, 255, 4096, -9223372036854775808, 9223372036854775807]))

    def value(self, depth):
        return self.pick([
            lambda: self.number(), lambda: "$" + self.pick("abcd"), lambda: "$r(1)", lambda: "{x y}", lambda: '"<$%s>"' % self.pick("abcd"),
            lambda: "[%s]" % self.command(depth + 1), lambda: "{}", lambda: "end", lambda: "a\\tb", lambda: "$::g",
        ])()

    def operand(self, depth):
        return self.pick([
            lambda: self.number(), lambda: "$" + self.pick("abcd"), lambda: "$r($a)", lambda: '"x$b"', lambda: "{y z}", lambda: "yes",
            lambda: "[%s]" % self.command(depth + 2), lambda: "(%s)" % self.expression(depth + 1), lambda: self.pick("-!~+") + self.operand(depth + 1),
        ])()

    def expression(self, depth):
        if depth > 3 or self.chance(0.3):
            return self.operand(depth) if depth < 6 else self.number()
        if self.chance(0.1):
            return "%s ? %s : %s" % tuple(self.expression(depth + 1) for _ in range(3))
        operator = self.pick(["+", "-", "*", "/", "%", "<<", ">>", "<", "<=", ">", ">=", "==", "!=", "eq", "ne", "in", "ni", "&", "^", "|", "&&", "||"])
        return "%s %s %s" % (self.expression(depth + 1), operator, self.expression(depth + 1))

    def condition(self, depth):
        return "{%s}" % self.pick([lambda: "[incr n] < %d" % self.random.randint(1, 9), lambda: self.expression(depth + 1), lambda: "$n < 6"])()

    def body(self, depth):
        return "{%s}" % self.script(depth + 1, self.random.randint(1, 3))

    def command(self, depth):
        if depth > 3:
            return "set %s %s" % (self.pick(VARIABLES), self.number())
        value, body, name = (lambda: self.value(depth + 1)), (lambda: self.body(depth)), self.pick(VARIABLES)
        return self.pick([
            lambda: "set %s %s" % (name, value()), lambda: "set %s" % name, lambda: "incr %s %s" % (self.pick("abcdn"), self.number()),
            lambda: "append %s %s %s" % (name, value(), value()), lambda: "lappend %s %s %s" % (name, value(), value()), lambda: "unset -nocomplain %s" % name,
            lambda: "puts %s" % value(), lambda: "expr {%s}" % self.expression(depth), lambda: "expr %s" % self.expression(depth + 2),
            lambda: "if %s %s else %s" % (self.condition(depth), body(), body()), lambda: "if %s then %s elseif %s %s" % (self.condition(depth), body(), self.condition(depth), body()),
            lambda: "while %s %s" % (self.condition(depth), body()), lambda: "for {set i 0} {$i < %d} {incr i} %s" % (self.random.randint(1, 4), body()),
            lambda: "for {set i 0} %s %s %s" % (self.condition(depth), body(), body()), lambda: "foreach x %s %s" % (value(), body()), lambda: "foreach {x y} {1 2 3} z {4 5} %s" % body(),
            lambda: "switch %s {a %s %s - default %s}" % (value(), body(), self.number(), body()), lambda: "switch -glob -- %s {a* %s *y %s}" % (value(), body(), body()),
            lambda: "catch %s m" % body(), lambda: "catch {%s}; puts $m" % self.command(depth + 1), lambda: "eval %s %s" % (value(), value()), lambda: "eval %s" % body(),
            lambda: "proc %s {u {v 3} args} %s" % (self.pick(NAMES), body()), lambda: "%s %s %s" % (self.pick(NAMES), value(), value()), lambda: "%s %s" % (self.pick(NAMES), value()),
            lambda: "uplevel %s %s" % (self.pick(["", "1", "#0"]), body()), lambda: "upvar %s w; append w %s" % (self.pick("abcd"), value()), lambda: "global %s g" % self.pick("abcd"),
            lambda: "return %s" % value(), lambda: "return -code %s %s" % (self.pick(["ok", "error", "return", "break", "continue", "3"]), value()), lambda: "error %s" % value(),
            lambda: self.pick(["break", "continue"]), lambda: "rename %s %s" % (self.pick(NAMES), self.pick(NAMES + ["{}", "t"])), lambda: "info exists %s" % name, lambda: "info level",
            lambda: "array set r {1 %s k %s}" % (self.number(), self.number()), lambda: "array names r", lambda: "array get r", lambda: "array size r",
            lambda: "after %s %s" % (self.pick(["0", "5", "idle", "20"]), body()), lambda: "after cancel after#%d" % self.random.randint(0, 3), lambda: "after info",
            lambda: "lsort %s" % value(), lambda: "lindex %s %s" % (value(), value()), lambda: "lrange %s 0 end-1" % value(), lambda: "llength %s" % value(), lambda: "join %s -" % value(),
            lambda: "split %s x" % value(), lambda: "string length %s" % value(), lambda: "string range %s 1 end" % value(), lambda: "concat %s %s" % (value(), value()), lambda: "lsearch %s *" % value(),
            lambda: "list {*}%s %s" % (value(), value()), lambda: "string repeat %s %s" % (value(), self.pick("0123")), lambda: "nothing %s" % value(), lambda: "# %s" % self.number(),
        ])()

    def script(self, depth=0, commands=None):
        count = commands or self.random.randint(6, 16)
        commands = [self.command(depth) for _ in range(count)]
        return self.pick(["; ", "\n"]).join("catch {%s} m" % command if self.chance(0.6) else command for command in commands)

    def whole(self):
        return "set a 1; set b two; set c {3 4}; set d {}; set n 0; set ::g 5; set m none; array set r {1 one k kay}\n" + self.script()


def session(scripts, budgets):
    lines = ["tkhost 1"]
    for number, (script, budget) in enumerate(zip(scripts, budgets)):
        lines += ["app p%d %d %d 50 50 %d" % (number, number % 4 * 50, number // 4 * 50, budget), "script %d" % (script.count("\n") + 1), script]
    return ("\n".join(lines + ["events", "30 end", ""])).encode()


def main():
    host, tables = built(HOST), built(TABLES_OF_HOSTS)
    count = int(sys.argv[1]) if len(sys.argv) > 1 else 1000
    made = Scripts(int(sys.argv[2]) if len(sys.argv) > 2 else 20261122)
    names = []
    with tempfile.TemporaryDirectory() as folder:
        for first in range(0, count, 16):
            scripts = [made.whole() for _ in range(min(16, count - first))]
            path = pathlib.Path(folder, "scripts-%d.session" % first)
            path.write_bytes(session(scripts, [made.pick([40, 200, 1000]) for _ in scripts]))
            ended = subprocess.run([host], input=path.read_bytes(), capture_output=True, timeout=60)
            if ended.returncode or ended.stderr:
                sys.exit("%s: %d %s" % (path.stem, ended.returncode, ended.stderr.decode()))
            path.with_suffix(".expected").write_bytes(ended.stdout)
            names.append(path.stem)
        told = subprocess.run([tables, "play", *names], cwd=folder, capture_output=True, timeout=600).stdout.decode().splitlines()
    as_expected = {line.partition(":")[0] for line in told if line.endswith(": as expected")}
    failed = [name for name in names if name not in as_expected]
    print("%d random scripts in %d sessions, at six slices; these differ: %s" % (count, len(names), " ".join(failed) or "none"))
    print("%d passed, %d failed" % (len(names) - len(failed), len(failed)))
    return 1 if failed else 0


if __name__ == "__main__":
    sys.exit(main())
