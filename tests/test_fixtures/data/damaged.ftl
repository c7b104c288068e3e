# Wrong on purpose: the report must name each of these rows.
a = one
#= two
#= one
#! Unknown variable: $n
b = x{ $n }
#= x\u{2068}{$n}\u{2069}
#= x{$n}
#! Unknown variable: $n
#= n=1 | x\u{2068}1\u{2069}
#= n=@two | x
#= n=1 | x\q
#= none | x
#none a
#none b.y
#absent b
#attributes y
#wrong
#=x
#@ isolating off
#@ nothing
junk
c = { $n }
#= .y | x
a = 3
#=== again
#@ limit 5
#= a | one
#@ limit 6
c = x
#===
#@ default
#@ transform upper
#junk 0..1
a = { b }
#= {B}
#! Unknown message: b
#: {b}
#+ more
#+
b = x
#=
