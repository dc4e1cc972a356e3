"""What worst.py tries: commands, and lines that start no script. Each has sizes up to the limits."""
import dataclasses

BYTES, WINDOWS, TAGS = 65536, 511, 32767
# A script has at most 65,536 bytes, so a command that stands in it, as `list $s $s ..`, has at most so many words of three bytes.
WORDS = 21800
LETTERS = "bcdefghijklmnopqrstuvwxyzABCDEFGHIJKLMNOPQRSTUVWXYZ0123456789"


@dataclasses.dataclass
class Row:
    """A candidate: its name, what stands before it, the command or the line, and the most of each size, which `%(size)d` names in the texts. A line comes five times;
    `{at}` in it is which time that is."""
    name: str
    before: str
    what: str
    most: dict


def times(size, script):
    """A loop that runs a script so often as a size says."""
    return "set i 0; while {[incr i] <= %%(%s)d} {%s}" % (size, script)


def words(name, command, word, before="", **most):
    """A command of words that are one text in turn: `list $s $s ..`. It may fail, which takes no less."""
    written = 'set e "catch {%s [string repeat {%s} %%(words)d]}"' % (command, "$s ")
    return Row(name, f"{before}set s {word}; {written}", "eval $e", {"words": WORDS, **most})


def pairs(name, command, option, value, before="", **most):
    """The same of pairs of an option and a value."""
    written = 'set e "catch {%s [string repeat {%s $z } %%(pairs)d]}"' % (command, option)
    return Row(name, f"{before}set z {value}; {written}", "eval $e", {"pairs": 65500 // (len(option) + 4), **most})


def keyed(script):
    """A script for each of so many pairs of two letters, a and b."""
    return "set keys [split %s {}]; set left %%(pairs)d; foreach a $keys {foreach b $keys {if {$left > 0} {%s; incr left -1}}}" % (LETTERS, script)


def of_lists(command):
    """A command whose words are those of so many lists."""
    return "set e \"catch {%s [string repeat {{*}$l } %%(lists)d]}\"" % command


LIST = "set l [string repeat {z } %(n)d]"
BLANKS, NUMBER, LONG = '[string repeat " " %(n)d]', "[string repeat 0 %(n)d]1", "[string repeat x %(n)d]"
PAIRS = keyed("event add <<Two>> $a$b[string repeat a 30]") + "; bind t <<Two>> {#}; " + "set i 0; while {[incr i] <= 40} {event generate . <Key-a>}"
# Virtual events of one tag that all match a key with all modifiers.
ONE_TAG = (
    "foreach first {{} Shift- Lock- Control- Alt- Mod2- Mod3-} {foreach second {{} Mod4- Mod5- B1- B2- B3- B4- B5-} {lappend held $first$second}}; set left %(pairs)d; "
    "foreach one $held {foreach end {{} Key-} {foreach key {{} a} {if {[incr left -1] >= 0} {catch {event add <<$one$end$key>> <${one}Key>; bind t <<$one$end$key>> {#}}}}}}"
)
ROWS = times("windows", "pack [label .l$i -text $text]") + "; update"
SAID = times("windows", "pack [label .l$i -textvariable said]") + "; set said $text; update"
DEEP = "set p {}; " + times("windows", "append p .f; pack [frame $p -width 90 -height 90]; pack propagate $p 0") + "; update"
TAGGED = "set tags [string repeat {t } %(tags)d]; "
FRAMES = TAGGED + times("windows", "pack [frame .f$i -width 5 -height 1]; bindtags .f$i $tags") + "; update"
DEEP_TAGGED = TAGGED + "set p {}; " + times("windows", "append p .f; pack [frame $p -width 90 -height 90]; pack propagate $p 0; bindtags $p $tags") + "; update"
OTHERS = "set tags {}; " + times("tags", "lappend tags t$i") + "; bindtags . $tags; "
# Tags of two letters, so many in turn that none is kept as chosen for when it comes again; virtual events that all mean one key or type.
IN_TURN = "foreach a $keys {foreach b $keys {lappend two $a$b}}; set tags {}; " + times("tags", "lappend tags [lindex $two [expr {$i %% 3721}]]") + "; "
IN_TURN_EACH = IN_TURN + times("windows", "pack [frame .f$i -width 5 -height 1]; bindtags .f$i $tags") + "; update"
# Procedures that call one another, each with a link to its caller's variable of a long name, until the last runs a step.
LINKED = f"set s {LONG}; set n 0; " + times("links", "set next($i) p") + "; set next(%(links)d) q; proc p {} {upvar 1 $::s $::s; incr ::n; $::next($::n)}; proc q {} {upvar 1 $::s $::s; set t $::s; eval $::e}; "
LISTBOX = "listbox .x; pack .x; set l [string repeat {a } %(n)d]; .x insert end {*}$l"

TEXTS = [
    Row("string match, a class", r"set s [string repeat z %(n)d]; set p *\[[string repeat y %(m)d]\]", "string match $p $s", {"n": BYTES, "m": BYTES - 3}),
    Row("string match, a long piece", "set s [string repeat z %(n)d]; set p *[string repeat z %(m)d]y", "string match $p $s", {"n": BYTES, "m": BYTES - 2}),
    Row("string match, many stars", "set s [string repeat z %(n)d]; set p [string repeat *z %(m)d]y", "string match $p $s", {"n": BYTES, "m": BYTES // 2 - 1}),
    Row("string match, many ?", "set s [string repeat a %(n)d]; set p *a[string repeat ? %(m)d]b*", "string match $p $s", {"n": BYTES, "m": BYTES // 2}),
    Row("string match, many classes", "set s [string repeat a %(n)d]; set p *[string repeat {[ca]} %(m)d]b*", "string match $p $s", {"n": BYTES, "m": 16000}),
    Row("string match, classes of wide letters", r"set s [string repeat \u4e00 %(n)d]; set p *[string repeat \[\u4e00\] %(m)d]b*", "string match $p $s", {"n": BYTES // 3, "m": 13000}),
    Row("string match, a class of wide letters", r"set s [string repeat \u4e00 %(n)d]; set p *\[[string repeat \u4e01 %(m)d]\]*", "string match $p $s", {"n": BYTES // 3, "m": 21800}),
    Row("string first", "set s [string repeat z %(n)d]; set c [string repeat z %(m)d]y", "string first $c $s", {"n": BYTES, "m": BYTES - 1}),
    Row("string range, wide letters", r"set s [string repeat \u4e00 %(n)d]", "string range $s end-9 end", {"n": BYTES // 3}),
    Row("string toupper", f"set s {LONG}", "string toupper $s", {"n": BYTES}),
    Row("string repeat", "", "string repeat x %(n)d", {"n": BYTES}),
    Row("string trim", f"set s {BLANKS}", "string trim $s", {"n": BYTES}),
    Row("split at many", "set s [string repeat z %(n)d]; set c [string repeat y %(m)d]", "split $s $c", {"n": BYTES, "m": BYTES}),
    Row("split at each character", "set s [string repeat z %(n)d]", "catch {split $s {}}", {"n": BYTES}),
    Row("puts", "set s [string repeat \\n %(n)d]", "puts $s", {"n": BYTES}),
]
LISTS = [
    Row("llength", LIST, "llength $l", {"n": 32760}),
    Row("lindex of a list in lists", r"set l [string repeat \{ %(n)d][string repeat \} %(n)d]", "lindex $l 0", {"n": 32768}),
    Row("lrange", LIST, "lrange $l 1 end", {"n": 32760}),
    Row("lappend", "set l {}; " + times("n", "lappend l z"), "lappend l y", {"n": 32000}),
    Row("lsearch -glob", LIST, "lsearch -glob $l *y", {"n": 32760}),
    Row("lsort", "set l {}; " + times("n", "lappend l [expr {$i * 7919 %% 32768}]"), "lsort -integer $l", {"n": 10000}),
    Row("linsert", LIST, "linsert $l 0 {a b}", {"n": 32760}),
    Row("lreplace", LIST, "lreplace $l 0 0 {a b}", {"n": 32760}),
    Row("join", LIST + "; set s [string repeat x %(m)d]", "catch {join $l $s}", {"n": 32760, "m": BYTES}),
    Row("list {*}$l ..", LIST + "; " + of_lists("list"), "eval $e", {"n": 32760, "lists": 10900}),
    words("list, long words", "list", LONG, n=BYTES),
    Row("list, words put together", f"set x {LONG}; " + 'set e "catch {list [string repeat {$x. } %(words)d]}"', "eval $e", {"words": 16380, "n": BYTES - 1}),
    words("lappend, long words", "lappend v", LONG, n=BYTES),
    words("append, long words", "append v", LONG, n=BYTES),
    words("concat, blanks", "concat", BLANKS, n=BYTES),
    words("concat, long words", "concat", LONG, n=BYTES),
]
VARIABLES = [
    Row("array names, a class", r"set s [string repeat z %(n)d]; set p *\[[string repeat y %(m)d]\]; " + times("keys", "set t($s$i) 1"), "array names t $p", {"n": BYTES - 16, "m": BYTES - 3, "keys": 4000}),
    Row("array names, many ?", "set s [string repeat a %(n)d]; set p *a[string repeat ? %(m)d]b*; " + times("keys", "set t($s$i) 1"), "array names t $p", {"n": BYTES - 16, "m": BYTES // 2, "keys": 4000}),
    Row("array get, many classes", "set s [string repeat a %(n)d]; set p *[string repeat {[ca]} %(m)d]b*; " + times("keys", "set t($s$i) 1"), "array get t $p", {"n": BYTES - 16, "m": 16000, "keys": 4000}),
    Row("array names, short names", "set l {}; " + times("keys", "lappend l $i $i") + "; array set t $l", "array names t *", {"keys": 4000}),
    Row("array unset, short names", "set l {}; " + times("keys", "lappend l $i $i") + "; array set t $l", "array unset t *", {"keys": 4000}),
    Row("array unset, long names", f"set s {LONG}; " + times("keys", "set t($s$i) 1"), "array unset t *", {"keys": 4000, "n": 60000}),
    Row("array set", "set l {}; " + times("keys", "lappend l $i $i"), "array set t $l", {"keys": 4000}),
    Row("list, elements of long names", f"set s {LONG}; foreach k {{b c}} {{set a($s$k$s) 1}}; " + 'set e "list [string repeat {$a(${s}b$s) $a(${s}c$s) } %(words)d]"', "catch {eval $e}", {"words": 2300, "n": 32000}),
    Row("incr of a long number", f"set z {NUMBER}", "incr z", {"n": 65000}),
    words("unset, long names", "unset -nocomplain", LONG, n=BYTES),
    Row("global, long names", f"set s {LONG}; set $s 1; " + 'proc p {} "global s; set t \\$s; global [string repeat {$t } %(words)d]"', "p", {"words": WORDS - 10, "n": BYTES}),
    Row("unset, long names through links", LINKED + 'set e "unset -nocomplain [string repeat {$t } %(words)d]"', "p", {"n": 65000, "links": 190, "words": WORDS - 10}),
    Row("foreach, long names through links", LINKED + 'set e "foreach [string repeat {$t 1 } %(pairs)d] break"', "catch p", {"n": 65000, "links": 190, "pairs": 13000}),
    Row("a word of many variables", f"set s {LONG}; " + 'set e "catch {set y [string repeat {$s} %(words)d]}"', "eval $e", {"n": BYTES, "words": 32700}),
    Row("upvar, links", "set x 1; proc p n {upvar 1 x x; if {$n} {p [expr {$n - 1}]} else $::step}; set step {}", "set step {set x 2}; p %(links)d", {"links": 96}),
]
CONTROL = [
    Row("expr, many in", LIST + "; set c [string repeat {1 in $l||} %(m)d]0", "expr $c", {"n": 32760, "m": 7280}),
    Row("expr, in over two lists in turn", LIST + "; set k [string repeat {y } %(n)d]; set c [string repeat {1 in $l||1 in $k||} %(m)d]0", "expr $c", {"n": 32760, "m": 3600}),
    Row("expr, long numbers", f"set z {NUMBER}; set c [string repeat " + "{$z+} %(m)d]1", "expr $c", {"n": 65000, "m": 21800}),
    Row("expr, texts put together", f"set s {LONG}; set c [string repeat " + """{"$s."eq"$s,"||} %(m)d]0""", "expr $c", {"n": 65000, "m": 3800}),
    words("expr, blanks", "expr 1", BLANKS, n=BYTES),
    Row("an expression read", "set e [string repeat 1+ %(n)d]1", "expr $e", {"n": 32767}),
    Row("if, conditions of many in", LIST + "; set c [string repeat {1 in $l||} %(m)d]0; set e \"if 0 {}\"; append e [string repeat { elseif $c {}} %(conditions)d]", "eval $e", {"n": 32760, "m": 7280, "conditions": 5000}),
    Row("if, three conditions in turn", "set a [string repeat 0|| %(m)d]0; set b \" $a\"; set c \"  $a\"; set e \"if 0 {}\"; append e [string repeat { elseif $a {} elseif $b {} elseif $c {}} %(conditions)d]", "eval $e", {"m": 21000, "conditions": 1660}),
    Row("if, one condition again and again", "set a [string repeat 0|| %(m)d]0; set e \"if 0 {}\"; append e [string repeat { elseif $a {}} %(conditions)d]", "eval $e", {"m": 21000, "conditions": 5000}),
    Row("switch -glob, many arms", "set s [string repeat z %(n)d]; set a [string repeat {*zy - } %(m)d]; append a {x {}}", "switch -glob $s $a", {"n": BYTES, "m": 10000}),
    Row("switch -glob, arms of classes", "set s [string repeat a %(n)d]; set a [string repeat {{*[ab]c*} - } %(m)d]; append a {x {}}", "switch -glob $s $a", {"n": BYTES, "m": 5000}),
    Row("foreach, many lists", LIST + "; set e foreach; " + times("lists", 'append e \" a \\${l}$i\"') + "; append e { break}", "eval $e", {"n": 32700, "lists": 4600}),
    Row("foreach, many names", "set n [string repeat {a } %(n)d]; set e foreach; append e [string repeat { $n 1} %(pairs)d] { break}", "eval $e", {"n": TAGS, "pairs": 13090}),
    Row("foreach {*}$l ..", "set l [string repeat {a b } %(n)d]; set e foreach; append e [string repeat { {*}$l} %(lists)d] { break}", "eval $e", {"n": TAGS // 2, "lists": 10800}),
    Row("while, a long condition and body", "set c [string repeat 0|| %(m)d]0; set b [string repeat {#a\n} %(m)d]", "while $c $b", {"m": 21000}),
    Row("for, a long condition and body", "set c [string repeat 0|| %(m)d]0; set b [string repeat {#a\n} %(m)d]", "for {} $c {} $b", {"m": 21000}),
    Row("a text of brackets read", r"set e [string repeat {[} %(deep)d][string repeat {[a]} %(m)d][string repeat {]} %(deep)d]", "proc p {} $e", {"deep": 190, "m": 21600}),
    Row("a text of indices read", r"set e [string repeat {$a(} %(deep)d][string repeat {$a(1)} %(m)d][string repeat {)} %(deep)d]", "proc p {} $e", {"deep": 190, "m": 12900}),
    Row("proc, many parameters", "set l [string repeat {a } %(n)d]", "proc p $l {}", {"n": TAGS}),
    Row("a procedure of many parameters called", "set l {}; " + times("n", "lappend l [list p$i 1]") + "; proc p $l {}", "p", {"n": 4000}),
    words("a procedure called, long words", "p", LONG, before="proc p args {}; ", n=BYTES),
    words("eval, blanks", "eval", BLANKS, n=BYTES),
    words("uplevel, blanks", "uplevel #0", BLANKS, n=BYTES),
    words("error, continue, clock: too many words", "error", LONG, n=BYTES),
    words("break, too many words", "break", LONG, n=BYTES),
    words("return, too many words", "return", LONG, n=BYTES),
    Row("catch, a long script", "set b [string repeat {#a\n} %(m)d]", "catch $b", {"m": 21000}),
    Row("rename", f"set h {LONG}; " + times("names", "proc $h$i {} {}"), "rename ${h}1 ${h}0", {"n": 60000, "names": 1000}),
    words("info exists, rename: too many words", "info exists", LONG, n=BYTES),
    words("an alias that sums, long numbers", "total", NUMBER, n=65000),
    words("an alias that raises, long words", "shout", LONG, n=BYTES),
]
WINDOWS_OF = [
    pairs("frame, long numbers", "frame .g", "-w", NUMBER, n=65000),
    pairs("label, long numbers", "label .g", "-padx", NUMBER, n=65000),
    pairs("configure, long numbers", ".f configure", "-w", NUMBER, before="frame .f; ", n=65000),
    Row("configure, all told", f"label .l -text {LONG} -textvariable {LONG} -bg {LONG} -fg {LONG}", "catch {.l configure}", {"n": 65000}),
    Row("destroy", "set text x; " + ROWS, "destroy .", {"windows": WINDOWS}),
    Row("destroy, in frames", DEEP, "destroy .f", {"windows": WINDOWS}),
    Row("destroy, many tags", FRAMES, "destroy .", {"windows": WINDOWS, "tags": TAGS}),
    Row("destroy, tags that differ, virtual events", keyed("event add <<$a$b>> <Destroy>") + "; " + IN_TURN_EACH, "destroy .", {"windows": WINDOWS, "tags": 21800, "pairs": 3700}),
    Row("destroy, many bindings", keyed("bind [expr {$left > %(pairs)d / 2 ? {.f} : {t}}] $a$b {#}").replace("set left", "frame .f; set left"), "destroy .f", {"pairs": 3700}),
    words("destroy, long names", "destroy", LONG, n=BYTES),
    Row("destroy {*}$l ..", LIST + "; " + of_lists("destroy"), "eval $e", {"n": 32760, "lists": 10800}),
    Row("layout of labels", "set text [string repeat \\n %(n)d]; " + ROWS + "; .l1 configure -bd 3", "update idletasks", {"n": BYTES, "windows": WINDOWS}),
    Row("winfo reqwidth, labels of a variable", f"set text {LONG}; " + SAID + "; append said .", "winfo reqwidth .", {"n": BYTES - 1, "windows": WINDOWS}),
    Row("winfo children, long names", f"set s {LONG}; " + times("windows", "frame .$s$i"), "catch {winfo children .}", {"n": 60000, "windows": WINDOWS}),
    words("winfo, wm, focus: long names", "winfo exists", "." + LONG, n=BYTES - 1),
    Row("wm title", f"set s {LONG}", "wm title . $s", {"n": BYTES}),
    pairs("pack, long numbers", "pack .f", "-padx", NUMBER, before="frame .f; ", n=65000),
    words("pack forget, long names", "pack forget", "." + LONG, n=BYTES - 1),
    Row("pack, windows from the middle", times("windows", "pack [frame .f$i]") + '; set i [expr {%(windows)d / 2}]; set l {}; while {[incr i] <= %(windows)d} {lappend l .f$i}; set e "pack [string repeat "$l " %(rounds)d]"', "eval $e", {"windows": WINDOWS, "rounds": 42}),
    Row("update, what changes of sizes queued", FRAMES + "; " + times("changes", ".f1 configure -height [expr {1 + $i %% 2}]; update idletasks"), "update", {"windows": WINDOWS, "tags": TAGS, "changes": 100}),
    Row("update, events that wait", TAGGED + "bindtags . $tags; " + times("events", "event generate . <<V>> -when tail"), "update", {"tags": TAGS, "events": 1024}),
    Row("listbox insert", LISTBOX, ".x insert 0 b", {"n": 32000}),
    Row("listbox delete, get", LISTBOX, ".x delete 1 3", {"n": 32000}),
    Row("listbox insert, long words", f"listbox .x; set s {LONG}; " + 'set e "catch {.x insert end [string repeat {$s } %(words)d]}"', "eval $e", {"words": WORDS - 10, "n": BYTES}),
    Row("listbox insert {*}$l ..", LIST.replace("z", "{}") + "; listbox .x; " + of_lists(".x insert end"), "eval $e", {"n": 21800, "lists": 10800}),
    Row("tk::ListboxMove", LISTBOX, "tk::ListboxMove .x 1", {"n": 32000}),
    Row("entry insert", f"entry .e; .e insert 0 {LONG}", ".e insert 1 y", {"n": BYTES - 1}),
    Row("tk::EntryBackspace", f"entry .e; .e insert 0 {LONG}", "tk::EntryBackspace .e", {"n": BYTES - 1}),
    Row("button invoke", f"button .b -command \"#{LONG}\"", ".b invoke", {"n": 65000}),
]
EVENTS = [
    Row("event generate, many tags", PAIRS + "; bindtags . [string repeat {t } %(tags)d]", "event generate . <Key-a>", {"tags": 4096, "pairs": 3721}),
    Row("event generate, one tag, bindings that match", ONE_TAG + "; bindtags . [string repeat {t } %(tags)d]", "event generate . <Key-a> -state 8191", {"tags": TAGS, "pairs": 224}),
    Row("event generate, tags that differ, virtual events", keyed("event add <<$a$b>> <Key-z>") + "; " + IN_TURN + "bindtags . $tags", "event generate . <Key-z>", {"tags": 21800, "pairs": 3700}),
    Row("scripts of many tags", "bind t <Key-x> \"break;#[string repeat x %(n)d]%%K\"; bindtags . [string repeat {t } %(tags)d]", "event generate . <Key-x>", {"n": 65000, "tags": 6000}),
    Row("scripts of tags that differ", f"set s {LONG}; " + OTHERS + times("tags", "bind t$i <Key-x> \"break;#[string range $s 9 end]%%K\""), "event generate . <Key-x>", {"n": 65000, "tags": 4000}),
    pairs("event generate, long numbers", "event generate . <a>", "-x", NUMBER, n=65000),
    Row("event add, long sequences", "set s <[string repeat {M1 } %(n)d]a>; set e \"catch {event add <<V>> [string repeat {$s } %(words)d]}\"", "eval $e", {"n": WORDS, "words": WORDS - 10}),
    Row("event add, refused at the last", keyed("lappend l $a${b}a"), "catch {event add <<V>> {*}$l <Nothing>}", {"pairs": 3700}),
    Row("event delete, long sequences", "set s <[string repeat {M1 } %(n)d]a>; set e \"catch {event delete <<V>> [string repeat {$s } %(words)d]}\"", "eval $e", {"n": WORDS, "words": WORDS - 10}),
    Row("event delete, pairs that aren't there", keyed("event add <<V>> $a${b}a") + "; set e \"event delete <<V>> [string repeat {00a } %(words)d]\"", "eval $e", {"pairs": 3700, "words": 16300}),
    Row("event delete, many pairs", keyed("event add <<V>> $a${b}a; lappend l $a${b}a"), "event delete <<V>> {*}$l", {"pairs": 3700}),
    Row("event delete {*}$l ..", LIST + "; " + of_lists("event delete <<V>>"), "eval $e", {"n": 32760, "lists": 10800}),
    Row("event info, names alike", f"set h {LONG}; " + times("pairs", "event add <<$h$i>> a"), "catch {event info}", {"n": 16000, "pairs": 4000}),
    Row("bind, tags alike", f"set h {LONG}; " + times("tags", "bind $h$i$h a {#}"), "bind $h$i$h a {#}", {"n": 32000, "tags": 4000}),
    Row("bind, one tag and key", keyed("bind t $a${b}z {#}"), "bind t 999z {#}", {"pairs": 3700}),
    Row("bind, long sequences told", "set m [string repeat <Shift-Lock-Control-Mod1-Mod2-Mod3-Mod4-Mod5-B1-B2-B3-B4-B5-Key-a> %(patterns)d]; " + keyed("bind t $m$a$b {#}"), "catch {bind t}", {"patterns": 30, "pairs": 3700}),
    Row("bindtags", "set l [string repeat {t } %(tags)d]", "bindtags . $l", {"tags": TAGS}),
    Row("after cancel, scripts alike", f"set h {LONG}; " + times("timers", "after 99 $h$i"), "after cancel $h", {"n": BYTES - 4, "timers": 256}),
    words("after, blanks", "after 1", BLANKS, n=BYTES),
]
STEPS = [*TEXTS, *LISTS, *VARIABLES, *CONTROL, *WINDOWS_OF, *EVENTS]
LINES = [
    Row("a key, many tags", PAIRS + "; bindtags . [string repeat {t } %(tags)d]", "keydown a", {"tags": 512, "pairs": 3721}),
    Row("a key, one tag, bindings that match", ONE_TAG + "; bindtags . [string repeat {t } %(tags)d]", "keydown a", {"tags": TAGS, "pairs": 224}),
    Row("a key, tags that differ, virtual events", keyed("event add <<$a$b>> <Key-z>") + "; " + IN_TURN + "bindtags . $tags", "keydown z", {"tags": 21800, "pairs": 3700}),
    Row("a key, tags that differ, long scripts", f"set s {LONG}; " + OTHERS + times("tags", "bind t$i <Key-x> \"break;#[string range $s 9 end]%%K\""), "keydown x", {"n": 65000, "tags": 4000}),
    Row("a key that nobody takes, labels of long names", f"set s {LONG}; " + times("windows", "pack [label .l$i -textvariable $s$i]") + "; update", "keyup a", {"n": 65000, "windows": WINDOWS}),
    Row("a press over many bindings", "bindtags . {t t t t t t t t}; set i 0; foreach m {{} Shift- Control- Mod1- Mod2-} {foreach n {1 2 3 4 5} {foreach k {a b c d e f g h i j k l m n o p q r s t u v w x y z} {foreach o {1 2 3 4 5} {if {[incr i] <= %(bindings)d} {bind t $k<${m}Button-$n><$o> {#}}}}}}", "press {button}", {"bindings": 3200}),
    Row("a motion in frames", DEEP, "move {at} 5", {"windows": WINDOWS}),
    Row("a way out of frames", DEEP + "; bind all <Leave> {#}", "move {far} 5", {"windows": WINDOWS}),
    Row("a way out of frames of many tags", DEEP_TAGGED, "move {far} 5", {"windows": WINDOWS, "tags": TAGS}),
    Row("a focus, many tags", TAGGED + "bindtags . $tags", "focus {who}", {"tags": TAGS}),
    Row("a rectangle, windows of many tags", FRAMES, "rect a 0 0 10{at} 1000", {"windows": WINDOWS, "tags": TAGS}),
    Row("a rectangle, tags that differ, virtual events", keyed("event add <<$a$b>> <Configure>") + "; " + IN_TURN_EACH, "rect a 0 0 10{at} 1000", {"windows": WINDOWS, "tags": 21800, "pairs": 3700}),
    Row("a rectangle, labels of many lines", "set text [string repeat \\n %(n)d]; " + ROWS, "rect a 0 0 10{at} 1000", {"n": BYTES, "windows": WINDOWS}),
    Row("a rectangle, labels of a variable", f"set text {LONG}; " + SAID, "rect a 0 0 10{at} 1000", {"n": BYTES, "windows": WINDOWS}),
    Row("a rectangle, labels of a variable of combined letters", r"set text [string repeat e\u0301 %(n)d]; " + SAID, "rect a 0 0 10{at} 1000", {"n": BYTES // 3, "windows": WINDOWS}),
    Row("a rectangle, slaves that expand", times("windows", "pack [frame .f$i -width 1 -height 1] -expand 1"), "rect a 0 0 10{at} 1000", {"windows": WINDOWS}),
]
