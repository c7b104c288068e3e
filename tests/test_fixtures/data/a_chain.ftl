## The first bundle of a chain whose message has a value answers; where none has one, the id is the text.
a = 1
k =
    .t = x
-b = term
#=== chain
a = 2
b = { $x }
k = v
#= a | 1
#= b | {$x}
#! Unknown variable: $x
#= b x=7 | 7
#= k | v
#none c
