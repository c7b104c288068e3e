## A function is added after the message that calls it; a second one of its id is left.
a = { F() }
#= {F()}
#! Unknown function: F()
#===
#@ objects last
#@ function F = "f"
a = { F() }
#= f
#===
#@ functions none
#@ function F = "f"
#@ function F = one
a = { F() }
#= f
#left function "F"
