## Order decides which bundle of a chain answers.
a = 2
b = { $x }
k = v
#=== chain
a = 1
k =
    .t = x
-b = term
#= a | 2
#= k | v
