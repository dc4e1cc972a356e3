set mode day
label .mode -textvariable mode -width 8
button .switch -text Switch -command {event generate . <<SwitchMode>>}
pack .mode .switch
event add <<SwitchMode>> <Control-m> <F2>
bind . <<SwitchMode>> {
    set mode [expr {$mode eq "day" ? "night" : "day"}]
    puts "[clock milliseconds]: $mode"
}
