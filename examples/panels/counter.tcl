set count 0
label .count -textvariable count -width 6
button .more -text More -command {incr count}
pack .count .more
bind . <Configure> {if {"%W" eq "."} {puts "%w by %h"}}
