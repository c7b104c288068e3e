## The built-in function is added after the message that calls it, and a message overrides it.
#@ builtins off
q = { NUMBER }
#= {NUMBER}
#! Unknown message: NUMBER
p = { NUMBER(5) }
#===
#@ builtins on
#@ objects last
q = { NUMBER }
#= {NUMBER}
#! Unknown message: NUMBER
p = { NUMBER(5) }
#= 5
#===
#@ objects first
q = { NUMBER }
#= n
p = { NUMBER(5) }
#= {NUMBER()}
#! Unknown function: NUMBER()
#--- overriding
NUMBER = n
