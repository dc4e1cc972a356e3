# A label in one row of many changes, and what changes is laid out.
for {set row 0} {$row * 4 < $size} {incr row} {
    pack [frame .r$row -borderwidth 1] -fill x
    pack [label .r$row.l -text "Row $row"] [label .r$row.m -text x] [label .r$row.n -text on -width 4] -side left -padx 2
}
update
for {set turn 0} {$turn < $turns} {incr turn} {
    .r1.m configure -text [string repeat x [expr {$turn % 7 + 1}]]
    update
}
puts [.r1.m cget -text]
