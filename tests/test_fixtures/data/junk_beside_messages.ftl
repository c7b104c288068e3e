## Junk is passed over.
#===
junk
a = one
b = { $name }
#junk 0..5
#absent junk
#= a | one
#= b name=x | x
