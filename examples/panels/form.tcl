proc field {path title variable} {
    frame $path
    label $path.title -text $title -width 8
    entry $path.field -textvariable $variable -width 16
    pack $path.title $path.field -side left
    pack $path
    bind $path.field <Return> send
}
proc is_number {text} {
    if {$text eq ""} {return 0}
    foreach c [split $text ""] {
        if {![string match {[0-9]} $c]} {return 0}
    }
    return 1
}
proc send {} {
    global name age says
    if {$name eq ""} {
        set says "a name is wanted"
        focus .name.field
    } elseif {![is_number $age]} {
        set says "\"$age\" is no number"
        focus .age.field
    } else {
        set says sent
        puts "sent $name $age"
    }
}
set name ""
set age ""
set says ""
field .name Name name
field .age Age age
label .says -textvariable says
button .send -text Send -command send
pack .says .send
bind .name.field <Tab> {focus .age.field; break}
bind .age.field <Tab> {focus .name.field; break}
