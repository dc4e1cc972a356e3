"""Each call of tkhost.py, rightly and wrongly; run with TKHOST_LIBRARY naming libtkhost.so, or where it is installed."""
import threading, unittest
from tkhost import Alias, Fault, Host, Kind, Line, Number, Rect, Timer, Turn, Window, play, text

LEFT, RIGHT = Rect(0, 0, 100, 50), Rect(100, 0, 100, 50)
GAUGE = b"app gauge running 997\nout 5 ready\ntree\nwin . Tk 0 0 100 50 1\ntimers\ndone\n"
SESSION = "tkhost 1\napp gauge 0 0 100 50 1000\nscript 1\nafter 5 {puts ready}\nevents\n10 end\n"


class Calls(unittest.TestCase):
    def refused(self, number, call, *args):
        with self.assertRaises(Fault) as caught:
            call(*args)
        self.assertEqual(caught.exception.number, number)
        return caught.exception

    def test_a_gauge_beside_a_runaway(self):
        with Host() as host:
            host.add("runaway", LEFT, "while 1 {}", 1000)
            host.add("gauge", RIGHT, "after 5 {puts ready}", 1000)
            host.start()
            self.assertEqual(sum(it.steps for it in host.turns() if it.slot == 0), 1000)
            self.assertEqual(host.section(1).timers, [Timer("after#0", 5, "puts ready")])
            host.advance(10)
            self.assertEqual(host.section_bytes(1), GAUGE)
            self.assertEqual(host.turns(), [Turn(1, 2)])
            self.assertIsNone(host.asker())
            self.refused(Number.NO_APP, host.section, 2)

    def test_lines_of_each_kind(self):
        with Host(1) as host:
            host.add("one", LEFT, "button .b -text Go -command {puts [greet]}; pack .b; bind . <Key> {puts %K}", 1000, 5, [Alias("greet", Kind.CONST, "hello")])
            host.start()
            host.move(1, 50, 20)
            host.press(2)
            host.release(3)
            host.focus(4, 0)
            host.keydown(5, "x")
            host.keyup(6, "x")
            host.focus(7, None)
            host.rect(8, 0, RIGHT)
            host.line("9 focus one")
            host.end(10)
            section = host.section(0)
            self.assertEqual(section.lines, [Line(3, False, "hello"), Line(5, False, "x")])
            self.assertEqual(section.window(".b"), Window(".b", "Button", Rect(32, 0, 36, 28), True, "Go"))
            self.assertEqual((section.name, section.state, section.window(".none")), ("one", "running", None))
            self.assertEqual(str(self.refused(Number.ENDED, host.advance, 10)), "already ended (41)")

    def test_texts_are_told_plainly(self):
        with Host() as host:
            host.add("one", LEFT, 'puts "a\\nb \\\\ c"; label ".x y" -text "p\\nq"; error {no\nway}', 1000)
            host.start()
            section = host.section(0)
            self.assertEqual([it.text for it in section.lines], ["a\nb \\ c", "no\nway"])
            self.assertEqual([it.is_error for it in section.lines], [False, True])
            self.assertEqual([(it.path, it.text) for it in section.windows], [(".", ""), (".x y", "p\nq")])

    def test_refusals(self):
        self.refused(Number.BAD_LINE, Host, 0)
        self.refused(Number.BAD_LINE, Host, 1 << 64)
        with Host() as host:
            self.assertEqual(str(self.refused(Number.NOT_STARTED, host.advance, 0)), "not started (68)")
            host.add("one", LEFT, "", 0)
            self.refused(Number.NAME_TAKEN, host.add, "one", RIGHT, "", 0)
            self.refused(Number.OVERLAP, host.add, "two", LEFT, "", 0)
            self.refused(Number.BAD_LINE, host.add, "two", Rect(-1, 0, 1, 1), "", 0)
            self.refused(Number.BAD_LINE, host.add, "two", RIGHT, b"\xff", 0)
            host.start()
            self.refused(Number.STARTED, host.start)
            self.refused(Number.BAD_LINE, host.line, "")
            self.refused(Number.BAD_LINE, host.move, -1, 0, 0)
            self.refused(Number.BAD_LINE, host.keydown, 0, "nokey")
        self.refused(Number.NO_HOST, host.start)
        host.close()

    def test_a_refused_application_leaves_no_alias(self):
        greet, bad = Alias("greet", Kind.CONST, "hello"), Alias(".bad", Kind.CONST, "")
        with Host() as host:
            self.refused(Number.BAD_LINE, host.add, "one", LEFT, "", 9, 0, [greet, bad])
            self.refused(Number.BAD_LINE, host.add, "one", Rect(-1, 0, 1, 1), "", 9, 0, [greet])
            self.refused(Number.BAD_LINE, host.add, "", LEFT, "", 9, 0, [greet])
            host.add("one", LEFT, "greet", 9)
            host.start()
            self.assertEqual(host.section(0).lines, [Line(0, True, 'invalid command name "greet"')])

    def test_whole_sessions(self):
        self.assertEqual(play(SESSION), GAUGE)
        self.assertEqual(play(SESSION, 1), GAUGE)
        self.assertEqual(self.refused(Number.BAD_LINE, play, "tkhost 1\nevents\n").line, 3)
        long = SESSION.replace("{puts ready}", "{puts [string repeat x 60000]; puts [string repeat x 60000]}")
        self.assertEqual(len(play(long)), len(GAUGE) - len("out 5 ready\n") + 2 * (len("out 5 \n") + 60000))

    def test_texts_of_numbers(self):
        self.assertEqual(text(0), "done")
        self.assertEqual(text(7), "no such number")
        self.assertEqual({text(it) for it in Number} & {"no such number"}, set())

    def test_two_threads(self):
        sections = {}

        def run(key):
            with Host() as host:
                host.add("gauge", LEFT, "after 5 {puts ready}", 1000)
                host.start()
                host.advance(10)
                sections[key] = host.section_bytes(0)

        threads = [threading.Thread(target=run, args=(it,)) for it in range(8)]
        for thread in threads:
            thread.start()
        for thread in threads:
            thread.join()
        self.assertEqual({*sections.values()}, {GAUGE})


if __name__ == "__main__":
    unittest.main()
