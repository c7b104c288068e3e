## A bundle of a chain looks up references in itself alone.
a = { b }
#=== chain
b = 2
#= a | {b}
#! Unknown message: b
#= b | 2
