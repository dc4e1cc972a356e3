# Events that nobody binds, on a label whose tag has bindings of keys.
pack [label .l -text x]
focus .l
set count 0
set made 0
foreach modifiers {{} Control- Shift- Mod1- Control-Shift- Control-Mod1- Shift-Mod1- Control-Shift-Mod1- Mod2- Mod2-Control- Mod2-Shift- Mod2-Mod1- Mod3- Mod3-Control- Mod3-Shift- Mod3-Mod1- Mod4- Mod4-Control-} {
    foreach key {b c d e f g h i j k l m n o p q r s t u v w x y z} {
        if {$made < $size} {
            bind .l <${modifiers}Key-$key> {incr count}
            incr made
        }
    }
}
update
for {set turn 0} {$turn < $turns} {incr turn} {event generate .l <ButtonRelease-3> -x 1 -y 1}
puts $count
