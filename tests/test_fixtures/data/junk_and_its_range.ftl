## What can't be read is Junk, with what is read before it and behind it.
#===
a = 1
b = { 
c = 3
#end
#junk 6..13
#= a | 1
#absent b
#= c | 3
#===
a = 1
    .x =
#end
#junk 6..14
#= a | 1
#attributes
#===
a = { "x" }}
#end
#junk 0..12
#absent a
#===
a = { -t.b }
#end
#junk 0..12
#absent a
#===
a = { f() }
#end
#junk 0..11
#absent a
