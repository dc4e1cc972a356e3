# A key on a label that has bindings of other keys and of virtual events of other keys.
pack [label .l -text x]
focus .l
set count 0
set made 0
foreach modifiers {{} Control- Shift- Mod1- Control-Shift- Control-Mod1- Shift-Mod1- Control-Shift-Mod1- Mod2- Mod2-Control- Mod2-Shift- Mod2-Mod1- Mod3- Mod3-Control- Mod3-Shift- Mod3-Mod1- Mod4- Mod4-Control-} {
    foreach key {b c d e f g h i j k l m n o p q r s t u v w x y z} {
        if {$made < $size} {
            if {$made % 2} {
                event add <<V$made>> <${modifiers}Key-$key>
                bind .l <<V$made>> {incr count 1000}
            } else {
                bind .l <${modifiers}Key-$key> {incr count 1000}
            }
            incr made
        }
    }
}
event add <<Chosen>> <Key-Return> <Key-a>
bind .l <<Chosen>> {incr count}
bind .l <Key-0> {incr count 2}
update
for {set turn 0} {$turn < $turns} {incr turn} {
    event generate .l <Key-a>
    event generate .l <Key-0>
}
puts $count
