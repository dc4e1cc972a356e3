# Writes what a person does with a panel in wish as entries of a bench (docs/panels.md):
#
#     wish contrib/tcl/record.tcl NAME lamp.tcl FILE
#
# runs the script lamp.tcl as the panel NAME, and writes into FILE an entry `[[do]]` for each thing that is done, until the main window is closed.
# Before the script wish may be given anything that it needs, as `-geometry 160x60`.
#
# Moments are counted from the end of the script. A press names its window: in a label or a button its middle, in an entry the character and in a
# listbox the row, since fonts differ from here to there, and else the place. A press and a release at one place are a click.

lassign $argv panel script output
if {$output eq ""} {
    puts stderr "usage: wish record.tcl NAME SCRIPT FILE"
    exit 2
}
set argv [lrange $argv 3 end]

namespace eval record {
    variable began 0 pressed {} file {}
    # the keys that type a character of another name
    variable named {Return Tab BackSpace Escape Delete Up Down Left Right Home End Prior Next Insert}
    variable held {Shift_L Shift_R Control_L Control_R Alt_L Alt_R Caps_Lock Meta_L Meta_R Super_L Super_R Num_Lock ISO_Level3_Shift Mode_switch}
}

# A text of TOML.
proc record::quoted {text} {
    return "\"[string map {\\ \\\\ \" \\\" \n \\n \t \\t} $text]\""
}

proc record::moment {} {
    variable began
    return [expr {[clock milliseconds] - $began}]
}

proc record::entry {moment what} {
    variable file
    puts $file "\[\[do\]\]\ntime = $moment\n$what\n"
    flush $file
}

# The place in a window, as the panel that is played has it: a column is 8 pixels wide and a line 16 high.
proc record::place {window x y} {
    switch [winfo class $window] {
        Label - Button {return ""}
        Entry {return ", x = [expr {2 + 8 * [$window index @$x] + 4}]"}
        Listbox {return ", y = [expr {1 + 16 * [$window nearest $y] + 8}]"}
    }
    return ", x = $x, y = $y"
}

proc record::target {window x y button} {
    global panel
    set which [expr {$button == 1 ? "" : ", button = $button"}]
    return "{ panel = [quoted $panel], window = [quoted $window][place $window $x $y]$which }"
}

proc record::press {window x y button} {
    variable pressed
    set pressed [list [moment] $window $x $y $button]
}

# A press that another event follows is an entry of its own.
proc record::settle {} {
    variable pressed
    if {$pressed ne ""} {
        lassign $pressed moment window x y button
        entry $moment "press = [target $window $x $y $button]"
        set pressed {}
    }
}

# A grab tells the release to the window of the press: the window there is the one under the pointer.
proc record::release {window x y button} {
    variable pressed
    set there [winfo containing [expr {[winfo rootx $window] + $x}] [expr {[winfo rooty $window] + $y}]]
    if {$pressed ne "" && $there eq $window && [lindex $pressed 1] eq $window && [lindex $pressed 4] == $button} {
        entry [lindex $pressed 0] "click = [target $window $x $y $button]"
        set pressed {}
        return
    }
    settle
    if {$there eq ""} {set there .}
    set x [expr {[winfo rootx $window] + $x - [winfo rootx $there]}]
    set y [expr {[winfo rooty $window] + $y - [winfo rooty $there]}]
    entry [moment] "release = [target $there $x $y $button]"
}

proc record::key {name character state} {
    variable named
    variable held
    if {$name in $held} {return}
    settle
    set front {}
    foreach {bit word} {4 Control 8 Alt} {
        if {$state & $bit} {lappend front $word}
    }
    if {$front eq "" && [regexp {^[ -~]$} $character]} {
        entry [moment] "type = [quoted $character]"
        return
    }
    if {$name ni $named && [string length $name] > 1 && ![regexp {^F[0-9]+$} $name]} {
        puts stderr "record: the key $name isn't there in a session"
        return
    }
    if {$state & 1} {lappend front Shift}
    entry [moment] "key = [quoted [join [concat $front $name] -]]"
}

bind Record <ButtonPress> {record::settle; record::press %W %x %y %b}
bind Record <ButtonRelease> {record::release %W %x %y %b}
bind Record <KeyPress> {record::key %K %A %s}

# Each window tells its events first to the recorder, whatever tags it is given.
proc record::watch {window} {
    set tags [::bindtags $window]
    if {[lindex $tags 0] ne "Record"} {::bindtags $window [linsert $tags 0 Record]}
}

proc record::made {call code window how} {
    if {$code == 0} {watch $window}
}

proc record::tagged {call code answer how} {
    if {$code == 0 && [llength $call] == 3} {watch [lindex $call 1]}
}

foreach kind {frame label button entry listbox} {trace add execution $kind leave record::made}
trace add execution bindtags leave record::tagged

set record::file [open $output w]
fconfigure $record::file -translation lf -encoding utf-8
record::watch .
uplevel #0 [list source -encoding utf-8 $script]
update
set record::began [clock milliseconds]
