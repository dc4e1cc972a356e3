# Labels that show variables; one of them is set.
for {set row 0} {$row * 4 < $size} {incr row} {
    pack [frame .r$row -borderwidth 1] -fill x
    foreach column {a b c} {pack [label .r$row.$column -textvariable value($row,$column) -width 6] -side left}
}
update
for {set turn 0} {$turn < $turns} {incr turn} {
    set value(1,b) $turn
    update
}
puts $value(1,b)
