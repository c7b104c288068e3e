## One source under three limits.
a = { b }{ b }
#= n=9 | 99
b = { $n }
#=== again
#@ limit 3
#= a n=9 | 9{b}
#! Too many placeables
#=== again
#@ limit 4
#= a n=9 | 99
