# An entry of many characters that is edited in its middle.
pack [entry .e -width 20]
.e insert 0 [string repeat x $size]
set middle [expr {$size / 2}]
update
for {set turn 0} {$turn < $turns} {incr turn} {
    .e insert $middle y
    .e icursor $middle
    .e delete insert
}
puts "[string length [.e get]] [.e index insert]"
