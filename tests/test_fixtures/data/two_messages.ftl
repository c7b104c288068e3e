## Two messages of one source.
a = one
#= one
b = two
#= two
