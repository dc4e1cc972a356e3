# A machine of states that reads words, told apart by patterns.
set words {start door:open 17 beep door:closed run 250 run 900 beep stop door:open 3 unknown run 40 stop}
proc follow {words} {
    set state idle
    set doors 0
    set time 0
    set faults 0
    foreach word $words {
        switch -glob -- $state/$word {
            idle/start {set state ready}
            */door:open {incr doors; set state waiting}
            waiting/door:* {set state ready}
            ready/run - running/run {set state running}
            running/[0-9]* {incr time $word}
            running/stop {set state ready}
            */[0-9]* {incr time}
            */beep {}
            default {incr faults}
        }
    }
    return "$state $doors $time $faults"
}
set told {}
for {set round 0} {$round < 6000} {incr round} {set told [follow $words]}
puts $told
