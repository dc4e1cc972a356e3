# Panels of rows in frames that are made, packed, laid out and destroyed.
set made 0
for {set turn 0} {$turn < $turns} {incr turn} {
    for {set row 0} {$row * 4 < $size} {incr row} {
        pack [frame .r$row -borderwidth 1] -fill x
        pack [label .r$row.l -text "Row $row"] [entry .r$row.e -width 8] [button .r$row.b -text Go] -side left -padx 2
    }
    update
    foreach row [winfo children .] {incr made [llength [winfo children $row]]}
    destroy {*}[winfo children .]
    update
}
puts $made
