set seconds 0
label .seconds -textvariable seconds -width 6
pack .seconds
proc tick {} {
    global seconds
    incr seconds
    after 1000 tick
}
after 1000 tick
