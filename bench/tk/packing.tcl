# Windows are laid out after each change of how one is packed, or of its own size.
for {set row 0} {$row * 4 < $size} {incr row} {
    pack [frame .r$row -borderwidth 1] -fill x
    pack [label .r$row.l -text "Row $row"] [label .r$row.m -text x] [label .r$row.n -text on -width 4] -side left -padx 2
}
update
for {set turn 0} {$turn < $turns} {incr turn} {
    pack .r1.m -padx [expr {$turn % 5}]
    update
    .r1.n configure -width [expr {$turn % 3 + 4}]
    update
    pack forget .r1.l
    update
    pack .r1.l -side left -before .r1.m
    update
}
puts [llength [pack slaves .r1]]
