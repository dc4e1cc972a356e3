# Counts by key in an array.
proc count {rounds} {
    for {set round 0} {$round < $rounds} {incr round} {
        set key [expr {$round * 7919 % 997}]
        if {[info exists seen($key)]} {
            incr seen($key)
        } else {
            set seen($key) 1
        }
        set last(value) $key
    }
    set most 0
    foreach key [array names seen] {
        if {$seen($key) > $most} {set most $seen($key)}
    }
    return "[array size seen] $most $last(value)"
}
puts [count 1000000]
