# A table in an array, by row and column: filled, summed by rows, changed, and read again.
proc fill {name rows} {
    upvar 1 $name table
    foreach column {count price reserved} factor {7 13 3} {
        for {set row 0} {$row < $rows} {incr row} {set table($row,$column) [expr {$row * $factor % 50}]}
    }
}
proc worth {name rows} {
    upvar 1 $name table
    set sum 0
    for {set row 0} {$row < $rows} {incr row} {
        if {$table($row,reserved) > $table($row,count)} {
            set table($row,reserved) $table($row,count)
        }
        incr sum [expr {($table($row,count) - $table($row,reserved)) * $table($row,price)}]
    }
    return $sum
}
set total 0
for {set round 0} {$round < 400} {incr round} {
    fill goods 40
    incr total [worth goods 40]
    set goods([expr {$round % 40}],count) 0
    incr total [worth goods 40]
}
puts "$total [array size goods]"
