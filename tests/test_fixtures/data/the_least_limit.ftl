## A limit of one, where a message of many placeables is referred to.
#@ limit 1
m = { "a" }{ "a" }{ "a" }{ "a" }{ "a" }{ "a" }{ "a" }{ "a" }{ "a" }{ "a" }{ "a" }{ "a" }{ "a" }{ "a" }{ "a" }{ "a" }{ "a" }{ "a" }{ "a" }{ "a" }{ "a" }{ "a" }{ "a" }{ "a" }{ "a" }{ "a" }{ "a" }{ "a" }{ "a" }{ "a" }{ "a" }{ "a" }{ "a" }{ "a" }{ "a" }{ "a" }{ "a" }{ "a" }{ "a" }{ "a" }{ "a" }{ "a" }{ "a" }{ "a" }{ "a" }{ "a" }{ "a" }{ "a" }{ "a" }{ "a" }{ "a" }{ "a" }{ "a" }{ "a" }{ "a" }{ "a" }{ "a" }{ "a" }{ "a" }{ "a" }{ "a" }{ "a" }{ "a" }{ "a" }{ "a" }{ "a" }{ "a" }{ "a" }{ "a" }{ "a" }{ "a" }{ "a" }{ "a" }{ "a" }{ "a" }{ "a" }{ "a" }{ "a" }{ "a" }{ "a" }{ "a" }{ "a" }{ "a" }{ "a" }{ "a" }{ "a" }{ "a" }{ "a" }{ "a" }{ "a" }{ "a" }{ "a" }{ "a" }{ "a" }{ "a" }{ "a" }{ "a" }{ "a" }{ "a" }{ "a" }{ "a" }
n = x{ m }y
#= x{m}
#! Too many placeables
