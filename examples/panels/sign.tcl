label .place -text [place] -width 16
label .sign -text [sign [place]] -width 16
pack .place .sign
puts "[lamps desk] lamps"
