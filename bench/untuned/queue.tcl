# A queue in a list: jobs come in at its end, are served from its front, and come back until they are done.
proc serve {count} {
    set queue {}
    for {set job 0} {$job < $count} {incr job} {lappend queue [list job$job [expr {$job % 5 + 1}]]}
    set served 0
    while {[llength $queue] > 0} {
        set job [lindex $queue 0]
        set queue [lrange $queue 1 end]
        set left [expr {[lindex $job 1] - 1}]
        incr served
        if {$left > 0} {lappend queue [list [lindex $job 0] $left]}
    }
    return $served
}
set total 0
for {set round 0} {$round < 300} {incr round} {incr total [serve 50]}
puts $total
