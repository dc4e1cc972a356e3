# Items of a list told apart.
set day {load idle load stop load idle fault load reset load}
set load 0
set idle 0
set other 0
for {set round 0} {$round < 40000} {incr round} {
    foreach item $day {
        switch $item {
            load {incr load}
            idle {incr idle}
            stop - reset {incr other}
            default {incr other 2}
        }
    }
}
puts "$load $idle $other"
