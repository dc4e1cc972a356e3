# Texts that grow by pieces, up to near the bound of a value.
proc grow {rounds} {
    set length 0
    for {set round 0} {$round < $rounds} {incr round} {
        set text {}
        for {set i 0} {$i < 12000} {incr i} {
            append text $i
        }
        incr length [string length $text]
    }
    return $length
}
puts [grow 180]
