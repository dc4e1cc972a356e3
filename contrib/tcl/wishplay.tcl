# Plays a panel of a bench (docs/panels.md) in wish, with a clock that goes as the bench says, and prints its section as the host would:
#
#     xvfb-run -a wish contrib/tcl/wishplay.tcl my-bench/bench.toml lamp
#
# So that its windows are as wide as here, wish gets 8 pixels a column (DejaVu Sans Mono at -13), strict Motif, no highlight, and the borders and pads of
# docs/tk.md. What differs then is the height of a line, 17 pixels for 16, and with it places down and heights. A gesture names its window and comes to its
# middle, in a listbox to its row, so it hits the same.
#
# Steps aren't counted, commands that the program serves aren't there, and a line of a session (`line = ..`) isn't played; each is told on standard error.

lassign $argv bench wanted
if {$wanted eq ""} {
    puts stderr "usage: wish wishplay.tcl BENCH PANEL"
    exit 2
}

namespace eval play {
    variable now 0 timers {} number 0 told {} under "" at "" pressed "" keys "" state 0
    foreach command {after puts clock exit} {rename ::$command ::play::tk_$command}
}

# ---- the clock

proc after {first args} {
    switch -- $first {
        cancel {return [play::cancel $args]}
        idle {return [play::wait idle [concat {*}$args]]}
        info {return [play::ask $args]}
    }
    if {![llength $args]} {error "a panel that waits isn't played"}
    return [play::wait [expr {$play::now + max($first, 0)}] [concat {*}$args]]
}

proc play::wait {due script} {
    variable number
    variable timers
    set id after#$number
    incr number
    dict set timers $id [list $due $script]
    return $id
}

proc play::cancel {words} {
    variable timers
    if {[llength $words] == 1 && [dict exists $timers [lindex $words 0]]} {
        dict unset timers [lindex $words 0]
        return
    }
    dict for {id timer} $timers {
        if {[lindex $timer 1] eq [concat {*}$words]} {
            dict unset timers $id
            return
        }
    }
}

proc play::ask {words} {
    variable timers
    if {![llength $words]} {return [lreverse [dict keys $timers]]}
    lassign [dict get $timers [lindex $words 0]] due script
    return [list $script [expr {$due eq "idle" ? "idle" : "timer"}]]
}

proc clock {word args} {
    if {$word eq "milliseconds"} {return $play::now}
    tailcall play::tk_clock $word {*}$args
}

proc exit {args} {destroy .}

# ---- what is written

proc puts {args} {
    if {[llength $args] != 1} {tailcall play::tk_puts {*}$args}
    lappend play::told "out $play::now [play::escaped [lindex $args 0]]"
}

proc bgerror {message} {lappend play::told "err $play::now [play::escaped $message]"}

proc play::escaped {text} {return [string map {\\ \\\\ \n \\n \r \\r} $text]}

proc play::note {text} {tk_puts stderr "wishplay: $text"}

# ---- scripts and timers

proc play::run {script} {
    if {[catch {uplevel #0 $script} message]} {bgerror $message}
}

# Runs those of the timers that are still there.
proc play::run_all {ids} {
    variable timers
    foreach id $ids {
        if {[dict exists $timers $id]} {
            set script [lindex [dict get $timers $id] 1]
            dict unset timers $id
            run $script
        }
    }
}

# The timers that are due up to a moment, the earliest first, and those that idle scripts wait as.
proc play::due {moment} {
    variable timers
    set found {}
    dict for {id timer} $timers {
        if {[lindex $timer 0] ne "idle" && [lindex $timer 0] <= $moment} {lappend found [list [lindex $timer 0] $id]}
    }
    return [lsort -integer -index 0 $found]
}

proc play::idle {} {
    variable timers
    return [dict keys [dict filter $timers script {id timer} {expr {[lindex $timer 0] eq "idle"}}]]
}

proc play::settle {} {
    update
    while {[llength [set ids [idle]]]} {
        run_all $ids
        update
    }
}

proc play::go {moment} {
    variable now
    while {[llength [set found [due $moment]]]} {
        set now [lindex $found 0 0]
        run_all [lmap one $found {expr {[lindex $one 0] == $now ? [lindex $one 1] : [continue]}}]
        settle
    }
    set now $moment
    settle
}

# ---- the bench: as much of TOML as benches are written in

proc play::read_file {path} {
    set file [open $path]
    fconfigure $file -encoding utf-8
    set text [string map {\r\n \n} [string trimleft [read $file] \ufeff]]
    close $file
    return [regsub {\n$} $text {}]
}

# A value at a place of a text, and the place behind it. A text becomes a list of `text` and itself, so that nothing else is taken for one.
proc play::value {text place} {
    regexp -indices -start $place {\A(?:\s|#[^\n]*\n)*} $text blank
    set place [expr {[lindex $blank 1] + 1}]
    set rest [string range $text $place end]
    if {[regexp {^"""\n?(.*?)"""} $rest all inside] || [regexp {^"((?:[^"\\\n]|\\.)*)"} $rest all inside]} {
        return [list [subst -nocommands -novariables $inside] [expr {$place + [string length $all]}]]
    }
    if {[regexp {^'''\n?(.*?)'''} $rest all inside] || [regexp {^'([^'\n]*)'} $rest all inside]} {
        return [list $inside [expr {$place + [string length $all]}]]
    }
    switch [string index $rest 0] {
        "\[" {return [values $text [expr {$place + 1}] "\]"]}
        "\{" {return [values $text [expr {$place + 1}] "\}"]}
    }
    regexp {^[A-Za-z0-9_.+-]+} $rest word
    return [list $word [expr {$place + [string length $word]}]]
}

# The values up to a bracket: in braces keys and values in turn.
proc play::values {text place close} {
    set found {}
    while 1 {
        regexp -indices -start $place {\A[\s,]*} $text blank
        set place [expr {[lindex $blank 1] + 1}]
        if {[string index $text $place] eq $close} {return [list $found [incr place]]}
        if {$close eq "\}"} {
            regexp -start $place {\A([A-Za-z0-9_-]+)\s*=} $text all key
            incr place [string length $all]
            lappend found $key
        }
        lassign [value $text $place] one place
        lappend found $one
    }
}

# The tables of a bench: pairs of a name, empty for the bench itself, and a dictionary.
proc play::toml {text} {
    set tables {{"" {}}}
    set place 0
    append text \n
    while {[regexp -indices -start $place {\A(?:\s|#[^\n]*\n)*(?=[^\s#])} $text blank]} {
        set place [expr {[lindex $blank 1] + 1}]
        if {[regexp -start $place {\A\[\[\s*(\S+?)\s*\]\]} $text all name]} {
            lappend tables [list $name {}]
            incr place [string length $all]
        } elseif {[regexp -start $place {\A([A-Za-z0-9_-]+)\s*=} $text all key]} {
            lassign [value $text [expr {$place + [string length $all]}]] one place
            lset tables end 1 [dict replace [lindex $tables end 1] $key $one]
        } else {
            error "this isn't read here: [string range $text $place $place+40]"
        }
    }
    return $tables
}

proc play::get {table key {otherwise ""}} {
    return [expr {[dict exists $table $key] ? [dict get $table $key] : $otherwise}]
}

# ---- gestures

# The place in a window that a gesture names, as wish has it: of a listbox the row, and else its middle where none is named.
proc play::place {window x y} {
    if {$x eq ""} {set x [expr {[winfo width $window] / 2}]}
    if {$y ne "" && [winfo class $window] eq "Listbox"} {
        set border [$window cget -borderwidth]
        set line [expr {([winfo height $window] - 2 * $border) / max(1, [$window cget -height])}]
        set y [expr {$border + ($y - $border) / 16 * $line + $line / 2}]
    }
    if {$y eq ""} {set y [expr {[winfo height $window] / 2}]}
    return [list $x $y]
}

proc play::send {window x y type args} {
    variable now
    variable state
    if {[winfo exists $window]} {event generate $window $type -x $x -y $y -time $now -state $state {*}$args}
}

# Where a move comes from one place on the way to another, where so many are left with it.
proc play::nearer {from to left} {
    return [expr {$from <= $to ? $from + ($to - $from) / $left : $from - ($from - $to) / $left}]
}

# The pointer comes by places on its straight way to one of a window.
proc play::lead {window x y moves} {
    variable at
    if {$at eq ""} return
    set to [list [expr {[winfo rootx $window] + $x}] [expr {[winfo rooty $window] + $y}]]
    for {set left $moves} {$left > 1} {incr left -1} {
        set place [lmap from $at end $to {nearer $from $end $left}]
        set there [winfo containing {*}$place]
        if {$there eq ""} {set there .}
        enter $there [expr {[lindex $place 0] - [winfo rootx $there]}] [expr {[lindex $place 1] - [winfo rooty $there]}]
    }
}

# The pointer comes to a window.
proc play::enter {window x y} {
    variable under
    variable pressed
    variable at
    set at [expr {$window eq "" ? "" : [list [expr {[winfo rootx $window] + $x}] [expr {[winfo rooty $window] + $y}]]}]
    if {$pressed eq "" && $under ne $window} {
        if {$under ne ""} {send $under 0 0 <Leave>}
        set under $window
        if {$window ne ""} {send $window $x $y <Enter>}
    }
    if {$pressed ne "" && $window ne $pressed} {
        # while a button is held its window gets all
        set x [expr {$x + [winfo rootx $window] - [winfo rootx $pressed]}]
        set y [expr {$y + [winfo rooty $window] - [winfo rooty $pressed]}]
        set over [expr {$under eq $pressed}]
        if {$over} {send $pressed $x $y <Leave>}
        set under ""
        set window $pressed
    }
    if {$window ne ""} {send $window $x $y <Motion>}
    settle
    return [list $window $x $y]
}

proc play::press {window x y button} {
    variable pressed
    variable state
    if {$pressed eq ""} {set pressed $window}
    send $pressed $x $y <ButtonPress> -button $button
    set state [expr {$state | 128 << $button}]
    settle
}

proc play::release {window x y button} {
    variable pressed
    variable state
    if {$pressed eq ""} return
    send $pressed $x $y <ButtonRelease> -button $button
    set state [expr {$state & ~(128 << $button)}]
    set pressed ""
    settle
}

# The panel gets the keyboard, or loses it.
proc play::keys {has} {
    variable keys
    if {$has == ($keys ne "")} return
    set keys [expr {$has ? "." : ""}]
    if {$has} {
        set last [focus -lastfor .]
        focus -force [expr {$last eq "" ? "." : $last}]
    }
    settle
}

proc play::key {name what} {
    variable state
    variable now
    if {![winfo exists .]} return
    set to [focus]
    event generate [expr {$to eq "" ? "." : $to}] $what -state $state -keysym $name -time $now
    set bit [expr {[string match Shift_? $name] ? 1 : [string match Control_? $name] ? 4 : [string match Alt_? $name] ? 8 : 0}]
    set state [expr {$what eq "<KeyPress>" ? $state | $bit : $state & ~$bit}]
    settle
}

proc play::strike {name} {
    key $name <KeyPress>
    key $name <KeyRelease>
}

# The name of the key that types a character.
proc play::typing {character} {
    set names {\n Return \t Tab " " space ! exclam \" quotedbl # numbersign $ dollar % percent & ampersand ' apostrophe ( parenleft ) parenright * asterisk
        + plus , comma - minus . period / slash : colon \; semicolon < less = equal > greater ? question @ at \[ bracketleft \\ backslash \] bracketright
        ^ asciicircum _ underscore ` grave \{ braceleft | bar \} braceright ~ asciitilde}
    return [expr {[dict exists $names $character] ? [dict get $names $character] : $character}]
}

proc play::pointer {what gesture window x y {moves 1}} {
    set button [get $gesture button 1]
    if {[get $gesture panel] ne $::wanted} {
        if {[get $gesture focus [expr {$what in {click double-click press drag}}]]} {keys 0}
        enter "" 0 0
        return
    }
    if {![winfo exists $window] || ![winfo ismapped $window]} {
        note "there is no window $window at $play::now"
        return
    }
    lassign [place $window $x $y] x y
    lead $window $x $y $moves
    lassign [enter $window $x $y] window x y
    if {[get $gesture focus [expr {$what in {click double-click press drag}}]]} {keys 1}
    switch $what {
        click {press $window $x $y $button; release $window $x $y $button}
        double-click {
            foreach time {1 2} {press $window $x $y $button; release $window $x $y $button}
        }
        press - drag {press $window $x $y $button}
        release {release $window $x $y $button}
    }
}

proc play::strike_all {text} {
    set names [split $text -]
    set mods {Control Control_L Ctrl Control_L Shift Shift_L Alt Alt_L}
    set held [lmap name [lrange $names 0 end-1] {dict get $mods $name}]
    foreach name $held {key $name <KeyPress>}
    strike [lindex $names end]
    foreach name [lreverse $held] {key $name <KeyRelease>}
}

proc play::do {entry} {
    variable keys
    dict for {what value} $entry {
        switch $what {
            click - double-click - press - release - move - drag {
                pointer $what $value [get $value window] [get $value x] [get $value y]
                if {$what eq "drag"} {pointer release $value [get $value to] [get $value to-x] [get $value to-y] [get $value moves 8]}
            }
            type {
                if {$keys ne ""} {foreach character [split $value {}] {strike [typing $character]}}
            }
            key {
                if {$keys ne ""} {strike_all $value}
            }
            focus {keys [expr {$value eq $::wanted}]}
            rect {
                if {[dict get $value panel] eq $::wanted} {
                    wm geometry . [join [dict get $value size] x]
                    settle
                }
            }
            line {note "line = \"$value\" isn't played"}
        }
    }
}

# ---- the section

proc play::shows {window} {
    switch [winfo class $window] {
        Label - Button {return " [escaped [$window cget -text]]"}
        Entry {return " [escaped [$window get]]"}
        Listbox {return " [escaped [$window get 0 end]]"}
    }
}

proc play::tree {window} {
    set class [expr {$window eq "." ? "Tk" : [winfo class $window]}]
    set place [expr {$window eq "." ? "0 0" : "[winfo x $window] [winfo y $window]"}]
    tk_puts "win [string map {" " \\s} [escaped $window]] $class $place [winfo width $window] [winfo height $window] [winfo ismapped $window][shows $window]"
    foreach child [winfo children $window] {tree $child}
}

proc play::section {name} {
    variable told
    variable timers
    set is_open [expr {![catch {winfo exists .} exists] && $exists}]
    tk_puts "app $name [expr {$is_open ? "running" : "closed"}]"
    foreach line $told {tk_puts $line}
    tk_puts tree
    if {$is_open} {tree .}
    tk_puts timers
    foreach id [lsort -dictionary [dict keys $timers]] {
        lassign [dict get $timers $id] due script
        tk_puts [expr {$due eq "idle" ? "idle $id [escaped $script]" : "timer $id $due [escaped $script]"}]
    }
    tk_puts done
}

# ---- wish as the host has it

proc play::dress {} {
    set ::tk_strictMotif 1
    foreach {option value} {
        *Font {{DejaVu Sans Mono} -13} *highlightThickness 0
        *Label.borderWidth 1 *Label.padX 1 *Label.padY 1 *Button.borderWidth 2 *Button.padX 8 *Button.padY 4 *Entry.borderWidth 1 *Listbox.borderWidth 1
    } {option add $option $value}
}

proc play::main {} {
    global bench wanted
    set panel {}
    set moment 0
    set deeds {}
    foreach table [toml [read_file $bench]] {
        lassign $table name keys
        switch $name {
            "" {set end [dict get $keys end]}
            panel {if {[dict get $keys name] eq $wanted} {set panel $keys}}
            do {
                set moment [expr {[dict exists $keys time] ? [dict get $keys time] : $moment + [dict get $keys after]}]
                lappend deeds [list $moment $keys]
            }
        }
    }
    if {$panel eq ""} {
        note "the bench has no panel $wanted"
        tk_exit 2
    }
    if {[dict exists $panel aliases]} {note "commands that the program serves aren't there"}
    set script [expr {[dict exists $panel text] ? [dict get $panel text] : [read_file [file join [file dirname $bench] [dict get $panel script]]]}]
    dress
    wm geometry . [join [dict get $panel size] x]+0+0
    update
    run $script
    settle
    foreach deed $deeds {
        go [lindex $deed 0]
        if {![winfo exists .]} break
        do [lindex $deed 1]
    }
    go $end
    section $wanted
    tk_exit 0
}

if {[catch play::main message]} {
    play::tk_puts stderr "wishplay: $::errorInfo"
    play::tk_exit 2
}
