# Procedures that call themselves.
proc fibonacci n {
    if {$n < 2} {return $n}
    expr {[fibonacci [expr {$n - 1}]] + [fibonacci [expr {$n - 2}]]}
}
proc ackermann {m n} {
    if {$m == 0} {return [expr {$n + 1}]}
    if {$n == 0} {return [ackermann [expr {$m - 1}] 1]}
    return [ackermann [expr {$m - 1}] [ackermann $m [expr {$n - 1}]]]
}
puts [fibonacci 25]
for {set i 0} {$i < 120} {incr i} {set a [ackermann 2 6]}
puts $a
