# Loops of a script's own by uplevel and upvar, with their ends by codes.
proc repeat {count body} {
    for {set turn 0} {$turn < $count} {incr turn} {
        set code [catch {uplevel 1 $body} result]
        if {$code == 3} {return broken}
        if {$code == 1} {error $result}
    }
    return whole
}
proc until {condition body} {
    while {![uplevel 1 [list expr $condition]]} {uplevel 1 $body}
}
proc double {name} {
    upvar 1 $name value
    set value [expr {$value * 2 % 1009}]
}
proc work {} {
    set x 1
    set sum 0
    set how [repeat 10 {
        double x
        if {$x > 900} {break}
        incr sum $x
    }]
    set y 0
    until {$y >= 8} {incr y 2; incr sum}
    return "$how [expr {$sum + $x}]"
}
set told {}
for {set round 0} {$round < 5000} {incr round} {set told [work]}
puts $told
