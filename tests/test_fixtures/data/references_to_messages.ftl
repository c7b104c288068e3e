## References to messages and their attributes.
#@ function F = one
k =
    .x = v
repeated =
    .x = 1
    .x = 2
m = a{ $n }b
    .y = y{ $n }
-t = t
no-value = { k }
#= {k}
#! No value: k
attribute = { k.x }
#= v
no-attribute = { k.y }
#= {k.y}
#! Unknown attribute: k.y
no-message = { none }
#= {none}
#! Unknown message: none
attribute-of-none = { none.x }
#= {none.x}
#! Unknown attribute: none.x
first = { repeated.x }
#= 1
whole = { m }
#= n=9 | a\u{2068}9\u{2069}b
#= a\u{2068}{$n}\u{2069}b
#! Unknown variable: $n
part = x{ m }y
#= n=9 | xa\u{2068}9\u{2069}by
part-of-attribute = x{ m.y }y
#= n=9 | xy\u{2068}9\u{2069}y
of-a-term = { t }
#= {t}
#! Unknown message: t
of-a-message = { -m }
#= {-m}
#! Unknown term: -m
of-a-function = { F }
#= {F}
#! Unknown message: F
in-order = { none }{ $q }{ -none }
#= {none}\u{2068}{$q}\u{2069}{-none}
#! Unknown message: none
#! Unknown variable: $q
#! Unknown term: -none
