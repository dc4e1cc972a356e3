# Lists that are built, sorted, searched and taken apart.
proc numbers {count seed} {
    set list {}
    for {set i 0} {$i < $count} {incr i} {
        set seed [expr {($seed * 1103515245 + 12345) % 2147483648}]
        lappend list [expr {$seed % 10000}]
    }
    return $list
}
set total 0
for {set round 0} {$round < 80} {incr round} {
    set list [numbers 4000 $round]
    set sorted [lsort -integer $list]
    incr total [lindex $sorted 2000]
    incr total [lsearch -exact $sorted [lindex $list 17]]
    incr total [llength [lrange $sorted 100 end-100]]
    set names [lsort [lreplace $list 0 9 alpha beta gamma]]
    incr total [string length [join $names ,]]
}
puts $total
