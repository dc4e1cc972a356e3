# Asks the widgets of this wish (8.6) what the tables of tests/widget-tables ask, and tells each case in which wish answers otherwise:
#
#     xvfb-run -a wish tests/widgets.tcl tests/widget-tables/*.table > tests/widgets.otherwise
#
# The form of a table is told by the library tables, that of the questions by tests/widgets.py. Behind each `new` they are asked up
# to the first of a key or the pointer; sizes, which hang on the font, scripts that are to be run, and what a label or a button shows aren't asked.
# Two refusals are alike, whatever their texts. The last line counts.

# Control characters by their pictures.
set pictures {}
for {set code 0} {$code < 32} {incr code} {lappend pictures [format %c [expr {0x2400 + $code}]] [format %c $code]}

# A word as it is meant: the text of `*N*TEXT` N times, or itself.
proc plain {word} {
    return [expr {[regexp {^\*(\d+)\*(.*)$} $word -> count text] ? [string repeat $text $count] : $word}]
}

proc words {rest} {
    if {$rest eq ""} {return {}}
    return [lmap word [split $rest |] {plain $word}]
}

# Begins with a new widget and no variables.
proc begin {kind} {
    destroy .w
    foreach name [info globals] {if {$name ni $::kept} {unset -nocomplain ::$name}}
    $kind .w
}

# What wish answers to a question; nothing where it isn't asked.
proc asked {question} {
    regexp {^(\S+) ?(.*)$} $question -> first rest
    switch $first {
        path {set command [list .w {*}[words $rest]]}
        set - unset {set command [list $first {*}[words $rest]]}
        array {set command [list array set {*}[words [string range $rest 4 end]]]}
        value {
            switch [winfo class .w] {
                Entry {set command {.w get}}
                Listbox {set command {.w get 0 end}}
                default return
            }
        }
        default return
    }
    set code [catch {uplevel #0 $command} told]
    return [expr {$code ? "!$told" : "=$told"}]
}

proc short {text} {
    set text [string map [lreverse $::pictures] $text]
    return [expr {[string length $text] > 200 ? "[string range $text 0 199].." : $text}]
}

proc is_alike {told wanted} {
    return [expr {[string index $told 0] eq "!" ? [string index $wanted 0] eq "!" : $told eq $wanted}]
}

proc compare {path} {
    set file [open $path]
    fconfigure $file -encoding utf-8
    set number 0
    set question ""
    set over 0
    while {[gets $file line] >= 0} {
        incr number
        set text [string map $::pictures $line]
        if {[regexp {^\? new (.*)$} $text -> kind]} {
            begin $kind
            set over 0
        } elseif {[regexp {^\? (key|backspace|delete|move|point|press|drag|step|space|down|sink|up)( |$)} $text]} {
            set over 1
        } elseif {[regexp {^\? (.*)$} $text -> question]} {
            if {$over} {set question ""}
        } elseif {[regexp {^[=!]} $text] && $question ne ""} {
            incr ::asked
            set told [asked $question]
            if {$told eq ""} {
                incr ::asked -1
            } elseif {![is_alike $told $text]} {
                puts "[file tail $path]:$number: [short $question] [short $text]; wish: [short $told]"
                incr ::otherwise
            }
            set question ""
        }
    }
    close $file
}

set asked 0
set otherwise 0
set path ""
set kept [concat [info globals] kept]
wm geometry . 400x300
foreach path $argv {compare $path}
puts "wish [info patchlevel] was asked $asked cases, and answers $otherwise otherwise."
exit
