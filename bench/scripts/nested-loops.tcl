# Arithmetic in two loops, one in the other.
proc sum {n} {
    set total 0
    for {set i 0} {$i < $n} {incr i} {
        for {set j 0} {$j < $n} {incr j} {
            set total [expr {($total + $i * $j) % 1000003}]
        }
    }
    return $total
}
puts [sum 1400]
