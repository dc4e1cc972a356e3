# A listbox that is filled, read, selected and emptied, item by item: at its end, in its middle and at its front.
pack [listbox .b -height 4]
update
set length 0
for {set turn 0} {$turn < $turns} {incr turn} {
    for {set i 0} {$i < $size} {incr i} {.b insert end item$i}
    .b insert [expr {$size / 2}] middle
    for {set i 0} {$i < $size} {incr i} {incr length [string length [.b get $i]]}
    for {set i 0} {$i < $size} {incr i} {
        .b selection clear 0 end
        .b selection set $i
    }
    incr length [lindex [.b curselection] 0]
    for {set i 0} {$i < $size} {incr i} {.b delete [expr {($size - $i) / 2}]}
    incr length [.b size]
    .b delete 0 end
}
puts $length
