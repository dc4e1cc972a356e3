# Writes a table anew, with the values that tclsh gives. Where it gives an error, its text stands behind the mark.
#
#     tclsh ask.tcl < data/operands.table
#
# As in the program, the value of a variable is its name, that of an element its index. Control characters stand as their pictures.
proc own_name {name index op} {
    upvar 1 $name variable
    if {[array exists variable]} {set variable($index) $index} else {set variable $name}
}
proc pictures {text map} {
    for {set code 0} {$code < 32} {incr code} {
        set pair [list [format %c [expr {0x2400 + $code}]] [format %c $code]]
        if {$map eq "write"} {set pair [lreverse $pair]}
        lappend pairs {*}$pair
    }
    string map $pairs $text
}
proc value_of {expression} {
    set x {}
    array set a {}
    trace add variable x read own_name
    set {b c} {}
    trace add variable {b c} read own_name
    trace add variable a read own_name
    expr $expression
}
fconfigure stdin -encoding utf-8
fconfigure stdout -encoding utf-8
while {[gets stdin line] >= 0} {
    if {![regexp {^\? (?:value|text) (.*)$} $line -> expression]} {
        if {$line eq "" || [string match #* $line]} {puts $line}
        continue
    }
    set mark [expr {[catch {value_of [pictures $expression read]} value] ? "!" : "="}]
    puts "$line\n$mark[pictures $value write]"
}
