## Nothing stands for the placeable that is one too many.
#@ limit 1
a = { "x" }{ "y" }
#= x
#! Too many placeables
