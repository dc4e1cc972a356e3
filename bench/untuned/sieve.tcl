# Primes by striking out multiples.
proc primes {limit} {
    for {set i 2} {$i <= $limit} {incr i} {set prime($i) 1}
    for {set i 2} {$i * $i <= $limit} {incr i} {
        if {!$prime($i)} {continue}
        for {set multiple [expr {$i * $i}]} {$multiple <= $limit} {incr multiple $i} {set prime($multiple) 0}
    }
    set count 0
    for {set i 2} {$i <= $limit} {incr i} {incr count $prime($i)}
    return $count
}
set total 0
for {set round 0} {$round < 60} {incr round} {incr total [primes 3000]}
puts $total
