# Packs windows in cavities in many ways with the packer of this wish (8.6), and prints the table of where they come to lie:
#
#     xvfb-run -a wish tests/packings.tcl > crates/test_tk/data/windows/packings.table
#
# The form of its questions is told by the program test_tk, which asks them.

frame .f
place .f -x 0 -y 0

# One case: a cavity, and a list of {width height option value ..}.
proc packing {width height slaves} {
    place .f -width $width -height $height
    puts "? cavity $width $height"
    set i 0
    foreach slave $slaves {
        set options [lassign $slave w h]
        frame .f.s$i -width $w -height $h
        pack .f.s$i {*}$options
        puts "? slave [join [lmap word $slave {join $word ,}] { }]"
        incr i
    }
    update
    set places {}
    foreach s [pack slaves .f] {
        if {[winfo ismapped $s]} {
            lappend places "[winfo x $s] [winfo y $s] [winfo width $s] [winfo height $s]"
        } else {
            lappend places none
        }
    }
    puts "? arrange\n=[winfo reqwidth .f] [winfo reqheight .f]: [join $places {, }]"
    foreach s [winfo children .f] {destroy $s}
}

proc about {text} {puts "\n# $text"}

puts "# Where windows lie that are packed in a cavity, and the size that they ask for, as wish [info patchlevel] tells them (pack(n))."

about "One window at each side, with each anchor, in a parcel that is larger than it."
foreach side {top bottom left right} {
    foreach anchor {center n ne e se s sw w nw} {
        packing 101 80 [list [list 30 17 -side $side -anchor $anchor -expand 1]]
    }
}

about "One window at each side, with each fill, with its own parcel or the whole cavity."
foreach side {top bottom left right} {
    foreach fill {none x y both} {
        foreach expand {0 1} {
            packing 90 61 [list [list 20 10 -side $side -fill $fill -expand $expand]]
        }
    }
}

about "Pads, the same or not at both ends, with and without fill; an anchor draws to the pad."
foreach side {top bottom left right} {
    packing 100 60 [list [list 20 10 -side $side -padx 3 -pady 4]]
    packing 100 60 [list [list 20 10 -side $side -padx {3 8} -pady {1 6} -fill both]]
    packing 100 60 [list [list 20 10 -side $side -padx {0 7} -pady {5 0} -anchor se -expand 1]]
    packing 100 60 [list [list 20 10 -side $side -padx {9 2} -pady {2 9} -anchor center -expand 1]]
}

about "Pads within a window, which it has at both ends."
foreach side {top bottom left right} {
    packing 100 60 [list [list 20 10 -side $side -ipadx 3 -ipady 4]]
    packing 100 60 [list [list 20 10 -side $side -ipadx 5 -ipady 1 -padx {1 2} -pady 3 -anchor nw -expand 1]]
    packing 40 30 [list [list 20 10 -side $side -ipadx 15 -ipady 15]]
}

about "Spare room, which those that expand share; what can't be shared out goes to the last."
packing 201 100 {{36 28 -side left -expand 1} {36 28 -side left -expand 1}}
packing 100 100 {{10 10 -side left -expand 1} {10 10 -side left -expand 1} {10 10 -side left -expand 1}}
packing 101 100 {{10 10 -side left -expand 1} {10 10 -side left} {10 10 -side left -expand 1} {10 10 -side left -expand 1}}
packing 50 103 {{10 10 -side top -expand 1 -fill y} {10 10 -side bottom -expand 1 -fill y} {10 10 -side top -expand 1 -fill y}}
packing 100 100 {{10 10 -side left -expand 1 -fill both} {60 10 -side top} {10 10 -side left -expand 1 -fill both}}
packing 100 100 {{10 10 -side left -expand 1 -fill both} {95 10 -side top} {10 10 -side left -expand 1 -fill both}}
packing 100 100 {{10 10 -side left -expand 1 -fill both} {10 10 -side left -expand 1 -fill both} {70 10 -side top} {10 10 -side left}}
packing 100 100 {{10 10 -side top -expand 1 -fill both} {10 60 -side left} {10 10 -side top -expand 1 -fill both} {10 33 -side right}}
packing 100 90 {{10 10 -side top -expand 1 -fill both} {10 10 -side left -expand 1 -fill both} {10 10 -side bottom -expand 1 -fill both} {10 10 -side right -expand 1 -fill both}}
packing 97 90 {{5 5 -side right -expand 1} {5 5 -side right -expand 1} {80 5 -side bottom -expand 1} {5 5 -side left} {30 5 -side top}}

about "Too little room: parcels are cut to what is left, windows to their parcels, and those without a pixel aren't mapped."
packing 100 50 {{100 30} {100 30} {100 30}}
packing 100 50 {{30 100 -side left} {80 100 -side left} {10 10 -side left}}
packing 100 50 {{30 100 -side right} {80 100 -side left} {10 10 -side right}}
packing 20 20 {{30 30}}
packing 20 20 {{30 30 -padx 5 -pady 5}}
packing 20 20 {{30 30 -padx 10 -pady 5}}
packing 20 20 {{30 30 -padx 12 -pady 5}}
packing 20 20 {{5 5 -padx 8 -pady 3 -side left}}
packing 20 20 {{5 5 -padx {19 0} -pady 3 -side left}}
packing 20 20 {{5 5 -padx {20 0} -pady 3 -side left}}
packing 20 20 {{5 5 -padx {30 0} -side right -anchor e} {5 5}}
packing 1 1 {{1 1} {1 1}}
packing 1 1 {{1 1 -side left -expand 1 -fill both} {1 1 -side left}}
packing 100 20 {{10 30 -side left -expand 1} {10 10 -side left -expand 1} {200 10 -side top} {10 10 -side left -expand 1}}
packing 50 50 {{60 10 -side left -expand 1} {10 10 -side left -expand 1} {10 10 -side top}}
packing 50 50 {{20 10 -side left -expand 1} {20 10 -side left -expand 1} {45 10 -side top -expand 1} {10 10 -side bottom}}
packing 30 30 {{10 10 -side bottom -ipady 20} {10 10 -side top}}
packing 32767 32767 {{32767 1 -side left -padx 32767} {1 1 -side left}}
packing 32767 32767 {{1 1 -side left -expand 1 -ipadx 32767 -padx 32767} {1 1 -side top -expand 1}}

about "Lists of windows by chance."
expr {srand(8605)}
proc one {args} {lindex $args [expr {int(rand() * [llength $args])}]}
proc below {n} {expr {int(rand() * $n)}}
for {set case 0} {$case < 110} {incr case} {
    set slaves {}
    set count [expr {2 + [below 5]}]
    for {set i 0} {$i < $count} {incr i} {
        set slave [list [expr {1 + [below 60]}] [expr {1 + [below 40]}] -side [one top bottom left right]]
        if {[below 2]} {lappend slave -expand 1}
        if {[below 2]} {lappend slave -fill [one x y both]}
        if {[below 3] == 0} {lappend slave -anchor [one n ne e se s sw w nw]}
        if {[below 3] == 0} {lappend slave -padx [list [below 9] [below 9]]}
        if {[below 3] == 0} {lappend slave -pady [list [below 9] [below 9]]}
        if {[below 4] == 0} {lappend slave -ipadx [below 7]}
        if {[below 4] == 0} {lappend slave -ipady [below 7]}
        lappend slaves $slave
    }
    packing [expr {1 + [below 220]}] [expr {1 + [below 160]}] $slaves
}
exit
