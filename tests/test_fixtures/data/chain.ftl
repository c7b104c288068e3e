a = 1
#= 1
k =
    .t = x
-b = term
#none k
#= .t | x
#=== chain
a = 2
#= 1
b = { $x }
#= b x=7 | 7
#= {$x}
#! Unknown variable: $x
k = v
#= v
#= .t | x
#none c
