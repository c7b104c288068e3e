## A message is added after the one that refers to it, and overridden.
## Of two entries of one id the first is added, and the last overrides.
a = { b }
#= {b}
#! Unknown message: b
#===
a = { b }
#= 1
#---
b = 1
b = 2
#left message "b"
#===
a = { b }
#= 2
#---
b = 1
b = 2
#left message "b"
#--- overriding
b = 1
b = 2
