# Characters counted, words cut out and compared.
set text {the quick brown fox jumps over the lazy dog and runs through the field of panels}
proc vowels {text} {
    set count 0
    set length [string length $text]
    for {set i 0} {$i < $length} {incr i} {
        if {[string first [string index $text $i] aeiou] >= 0} {incr count}
    }
    return $count
}
set total 0
for {set round 0} {$round < 6000} {incr round} {
    incr total [vowels $text]
    foreach word [split $text] {
        if {[string match *o* $word]} {incr total [string length [string toupper $word]]}
        if {[string compare $word lazy] > 0} {incr total}
        if {[string equal [string range $word 0 1] th]} {incr total}
    }
    incr total [string length [string trim "  $round  "]]
}
puts $total
