## A message that another refers to refers to one that is added later and overridden.
top = { a }{ c }
#= {b}{d}{b}
#! Unknown message: b
#! Unknown variable: $n
#! Unknown message: d
#! Unknown message: b
a = { b }
c = { $n ->
    [1] { b }
   *[other] { d }{ b }
}
#===
top = { a }{ c }
#= n=2 | 131
a = { b }
c = { $n ->
    [1] { b }
   *[other] { d }{ b }
}
#---
b = 1
d = 3
b = 2
#left message "b"
#===
top = { a }{ c }
#= n=2 | 232
#= n=1 | 22
a = { b }
c = { $n ->
    [1] { b }
   *[other] { d }{ b }
}
#---
b = 1
d = 3
b = 2
#left message "b"
#--- overriding
b = 1
d = 3
b = 2
