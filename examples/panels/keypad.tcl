set code ""
set wrong 0
set locked 0
proc show {} {
    global code stars
    set stars [string repeat * [string length $code]]
}
proc digit {d} {
    global code locked
    if {$locked || [string length $code] >= 6} return
    append code $d
    show
}
proc ok {} {
    global code wrong locked says
    if {$locked} return
    if {$code eq "123"} {
        set says open
        set wrong 0
        puts "open at [clock milliseconds]"
    } else {
        incr wrong
        set says wrong
        puts "wrong code $wrong"
        if {$wrong == 3} {lock}
    }
    set code ""
    show
}
proc lock {} {
    global locked says
    set locked 1
    set says locked
    after 5000 unlock
}
proc unlock {} {
    global locked says wrong
    set locked 0
    set wrong 0
    set says ready
    puts "unlocked at [clock milliseconds]"
}
set says ready
label .says -textvariable says -width 10
label .shown -textvariable stars -width 8 -relief sunken
pack .says .shown
foreach {row keys} {row1 {1 2 3} row2 {4 5 6} row3 {7 8 9}} {
    frame .$row
    foreach key $keys {
        button .$row.k$key -text $key -command [list digit $key]
        pack .$row.k$key -side left
    }
    pack .$row
}
frame .row4
button .row4.clear -text C -command {set code ""; show}
button .row4.k0 -text 0 -command {digit 0}
button .row4.ok -text OK -command ok
pack .row4.clear .row4.k0 .row4.ok -side left
pack .row4
foreach key {0 1 2 3 4 5 6 7 8 9} {bind . <Key-$key> [list digit $key]}
bind . <Return> ok
show
