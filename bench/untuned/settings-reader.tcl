# A reader of settings: sections, keys with values and comments, taken apart line by line and character by character.
set source {
    # colours of the panel
    [lamp]
    on = #ffcc00
    off = #333333
    label = Main lamp

    [pump]
    rate = 40
    limit = 95   # percent
    label = Feed pump
    broken line
}
proc value {text} {
    set end [string first "   #" $text]
    if {$end >= 0} {set text [string range $text 0 [expr {$end - 1}]]}
    return [string trim $text]
}
proc read_settings {source} {
    set section none
    set faults 0
    foreach line [split $source \n] {
        set line [string trim $line]
        set first [string index $line 0]
        if {$first eq {} || $first eq {#}} {continue}
        if {$first eq {[}} {
            set section [string range $line 1 end-1]
            continue
        }
        set at [string first = $line]
        if {$at < 0} {incr faults; continue}
        set key [string trim [string range $line 0 [expr {$at - 1}]]]
        set found($section,$key) [value [string range $line [expr {$at + 1}] end]]
    }
    set told {}
    foreach key [lsort [array names found]] {lappend told "$key: $found($key)"}
    return "$faults [join $told {; }]"
}
set length 0
for {set round 0} {$round < 3000} {incr round} {incr length [string length [read_settings $source]]}
puts $length
