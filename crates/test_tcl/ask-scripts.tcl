# Asks tclsh 8.6: reads a table on standard input and writes it with the answers that tclsh gives.
#
# A script runs in an interpreter without commands, in which each command that is called is noted with its words; only `k` gives
# something, its words in brackets. A variable that is looked for gets its name in angles as value.
package require Tcl 8.6
fconfigure stdin -encoding utf-8 -translation lf
fconfigure stdout -encoding utf-8 -translation lf

set pictures {}
for {set byte 0} {$byte < 0x20} {incr byte} {
    lappend pictures [format %c [expr {0x2400 + $byte}]] [format %c $byte]
}

# What a verdict on a front of a script is written as.
array set marks {
    {missing close-brace} \{
    {missing close-bracket} \[
    {missing "} \"
    {missing )} (
    {extra characters after close-brace} \}
    {extra characters after close-quote} '
}

proc note {args} {
    if {[lindex $args 0] eq "k"} {
        return \[[join $args " "]\]
    }
    lappend ::noted [join $args |]
    return
}

# An interpreter in which each command is noted.
proc quiet {} {
    set own [interp create]
    interp alias $own unknown {} note
    $own hide set
    $own hide unset
    foreach name [$own eval {info commands}] {
        if {$name ne "unknown"} {
            $own hide $name
        }
    }
    return $own
}

# Runs a script until it lacks no variable: its commands as a table has them, with a U+001E between two, or its fault.
proc answer {own script} {
    set names {}
    set fault {}
    while 1 {
        set ::noted {}
        set failed [catch {interp eval $own $script} told]
        if {!$failed} {
            break
        }
        if {![regexp {^can't read "(.*)": no such (?:variable|element in array)$} $told -> name]} {
            set fault ![regsub { for variable name|: possible unbalanced brace in comment} $told {}]
            break
        }
        interp invokehidden $own set $name <$name>
        lappend names $name
    }
    foreach name $names {
        interp invokehidden $own unset -nocomplain [regsub {\(.*\)$} $name {}] $name
    }
    if {$fault ne {}} {
        return $fault
    }
    return [expr {[llength $::noted] ? "=[join $::noted \u001e]" : "-"}]
}

# A character for each number of bytes short of the whole: what a script of so many is.
proc verdicts {own script} {
    set bytes [encoding convertto utf-8 $script]
    set told {}
    for {set length 0} {$length < [string length $bytes]} {incr length} {
        set front [string range $bytes 0 $length-1]
        set text [encoding convertfrom utf-8 $front]
        if {[encoding convertto utf-8 $text] ne $front} {
            append told -
            continue
        }
        set answer [answer $own $text]
        if {![string match !* $answer]} {
            append told .
            continue
        }
        append told $::marks([string range $answer 1 end])
    }
    return ~$told
}

set own [quiet]
while {[gets stdin line] >= 0} {
    if {![regexp {^\? (commands|fronts) (.*)$} $line -> kind script]} {
        if {$line eq {} || [string match #* $line]} {
            puts $line
        }
        continue
    }
    set script [string map $pictures $script]
    set told [expr {$kind eq "fronts" ? [verdicts $own $script] : [answer $own $script]}]
    puts $line\n[string map [lreverse $pictures] $told]
}
