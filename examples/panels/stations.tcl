set stations {Aarau Basel Bern Biel Chur Geneva Lugano Zug}
set filter ""
proc show {} {
    global stations filter
    .list delete 0 end
    foreach station $stations {
        if {[string match "[string tolower $filter]*" [string tolower $station]]} {.list insert end $station}
    }
}
entry .filter -textvariable filter -width 16
listbox .list -height 8 -width 16
pack .filter .list
# the tag behind Entry sees the text after the key
bindtags .filter {.filter Entry Filtered . all}
bind Filtered <Key> show
bind .list <<ListboxSelect>> {
    set at [.list curselection]
    if {$at ne ""} {puts "chosen [.list get $at]"}
}
show
