# Virtual events of an application that has many, each with a sequence of its own.
pack [label .l -text x]
focus .l
set count 0
set made 0
foreach modifiers {{} Control- Shift- Mod1- Control-Shift- Control-Mod1- Shift-Mod1- Control-Shift-Mod1- Mod2- Mod2-Control- Mod2-Shift- Mod2-Mod1- Mod3- Mod3-Control- Mod3-Shift- Mod3-Mod1- Mod4- Mod4-Control-} {
    foreach key {b c d e f g h i j k l m n o p q r s t u v w x y z} {
        if {$made < $size} {
            event add <<V$made>> <${modifiers}Key-$key>
            bind .l <<V$made>> {incr count}
            incr made
        }
    }
}
update
for {set turn 0} {$turn < $turns} {incr turn} {event generate .l <<V[expr {$turn % $size}]>>}
puts $count
