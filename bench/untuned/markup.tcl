# Texts put together by procedures with defaults and with as many words as are given.
proc attribute {name {value {}} {quote '}} {
    if {$value eq {}} {return " $name"}
    return " $name=$quote$value$quote"
}
proc element {name attributes args} {
    set text "<$name"
    foreach {key value} $attributes {append text [attribute $key $value]}
    append text >
    foreach part $args {append text $part}
    append text </ $name >
    return $text
}
proc row {number {kind even} args} {
    set cells {}
    foreach cell $args {append cells [element td [list class c$number] $cell]}
    return [element tr [list class $kind hidden {}] $cells]
}
set length 0
for {set round 0} {$round < 4000} {incr round} {
    set rows [row 1 odd lamp on $round]
    append rows [row 2] [row 3 even pump]
    incr length [string length [element table {} $rows [attribute end]]]
}
puts $length
