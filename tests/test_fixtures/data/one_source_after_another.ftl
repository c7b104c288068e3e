## One source is added after another, and overrides it then.
a = one
#---
b = two
a = three
-a-b = five
c = four
#left message "a"
#= a | one
#= b | two
#===
a = one
#---
b = two
a = three
-a-b = five
c = four
#left message "a"
#--- overriding
b = two
a = three
#= three
-a-b = five
c = four
#= four
