## The first bundle of a chain whose message has the attribute answers.
a = 1
k =
    .t = x
#=== chain
a = 2
    .t = { $n }y
    .t = z
k = v
    .u = { "w" }
#= k.t | x
#= k.u | w
#= a.t | \u{2068}{$n}\u{2069}y
#! Unknown variable: $n
#none a.u
#none c.t
#= a | 1
