## Functions share the ids of messages and terms.
#@ function F = none
#@ function F = error
F = 1
-G = 2
p = { F() }
q = { -G }
#left function "F"
#left message "F"
#absent F
#= p |
#= q | 2
#===
#@ functions none
#@ objects last
NUMBER = 2
#left function "NUMBER"
#= 2
