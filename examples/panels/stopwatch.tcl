# the time is tenths of a second
set tenths 0
set running 0
proc text {} {
    global tenths
    return [expr {$tenths / 10}].[expr {$tenths % 10}]
}
proc show {} {.time configure -text [text]}
proc tick {} {
    global tenths running
    if {!$running} return
    incr tenths
    show
    after 100 tick
}
proc toggle {} {
    global running
    set running [expr {!$running}]
    .buttons.start configure -text [expr {$running ? "Stop" : "Start"}]
    after cancel tick
    if {$running} {after 100 tick}
}
proc lap {} {
    global running
    if {$running} {.laps insert end [text]}
}
label .time -width 10 -relief ridge
frame .buttons
button .buttons.start -text Start -command toggle
button .buttons.lap -text Lap -command lap
listbox .laps -height 6 -width 12
pack .buttons.start .buttons.lap -side left
pack .time .buttons .laps
bind . <space> toggle
bind . <l> lap
# a press of the space bar on a button would press that too
bind Button <space> {}
show
