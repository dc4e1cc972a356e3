# Timers beside many that are due later: one is listed, called off, and listed again to run.
set count 0
for {set i 0} {$i < $size} {incr i} {after 900000 {incr count 1000}}
for {set turn 0} {$turn < $turns} {incr turn} {
    set id [after 800000 {incr count 1000}]
    after cancel $id
    after idle {incr count}
    update
}
puts $count
