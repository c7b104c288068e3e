## Each bundle of a chain has its own limit.
#@ limit 1
p = 1
q = { "b" }{ "c" }
#=== chain
#@ limit 101
m = { "a" }{ "a" }{ "a" }{ "a" }{ "a" }{ "a" }{ "a" }{ "a" }{ "a" }{ "a" }{ "a" }{ "a" }{ "a" }{ "a" }{ "a" }{ "a" }{ "a" }{ "a" }{ "a" }{ "a" }{ "a" }{ "a" }{ "a" }{ "a" }{ "a" }{ "a" }{ "a" }{ "a" }{ "a" }{ "a" }{ "a" }{ "a" }{ "a" }{ "a" }{ "a" }{ "a" }{ "a" }{ "a" }{ "a" }{ "a" }{ "a" }{ "a" }{ "a" }{ "a" }{ "a" }{ "a" }{ "a" }{ "a" }{ "a" }{ "a" }{ "a" }{ "a" }{ "a" }{ "a" }{ "a" }{ "a" }{ "a" }{ "a" }{ "a" }{ "a" }{ "a" }{ "a" }{ "a" }{ "a" }{ "a" }{ "a" }{ "a" }{ "a" }{ "a" }{ "a" }{ "a" }{ "a" }{ "a" }{ "a" }{ "a" }{ "a" }{ "a" }{ "a" }{ "a" }{ "a" }{ "a" }{ "a" }{ "a" }{ "a" }{ "a" }{ "a" }{ "a" }{ "a" }{ "a" }{ "a" }{ "a" }{ "a" }{ "a" }{ "a" }{ "a" }{ "a" }{ "a" }{ "a" }{ "a" }{ "a" }{ "a" }
#= p | 1
#= q | b
#! Too many placeables
#= m | aaaaaaaaaaaaaaaaaaaaaaaaaaaaaaaaaaaaaaaaaaaaaaaaaaaaaaaaaaaaaaaaaaaaaaaaaaaaaaaaaaaaaaaaaaaaaaaaaaaaa
