## What no bundle of a chain has.
a = 1
k =
    .t = x
#=== chain
a = 2
    .t = { $n }y
    .t = z
k = v
    .u = { "w" }
#= a | 1
#= k | v
#none c
#= a.t | \u{2068}{$n}\u{2069}y
#! Unknown variable: $n
#= k.t | x
#= k.u | w
#none a.u
#none c.t
