# temperatures are tenths of a degree
set target 200
set room 174
set heater off
proc tenths {n} {return [expr {$n / 10}].[expr {$n % 10}]}
proc show {} {
    global target room heater
    .target configure -text "target [tenths $target]"
    .room configure -text "room [tenths $room]"
    .heater configure -text "heater $heater"
}
proc move {by} {
    global target
    incr target $by
    show
}
proc warm {} {
    global target room heater
    set before $heater
    set heater [expr {$room < $target ? "on" : "off"}]
    if {$heater ne $before} {puts "the heater goes $heater"}
    if {$heater eq "on"} {incr room 3}
    show
    after 1000 warm
}
label .target -width 14
label .room -width 14
label .heater -width 14
frame .buttons
button .buttons.more -text + -command {move 5}
button .buttons.less -text - -command {move -5}
pack .buttons.more .buttons.less -side left
pack .target .room .heater .buttons
bind . <Up> {move 5}
bind . <Down> {move -5}
warm
