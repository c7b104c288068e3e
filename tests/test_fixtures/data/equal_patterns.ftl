## Patterns of equal content are one on a path, whatever holds them; those of equal beginnings are not.
#@ isolating off
twin = x{ other }
other = x{ other }
top = { twin }
#= x{other}
#! Cyclical dependency detected
term = x{ -t }
-t = x{ -t }
over = { term }
#= x{-t}
#! Cyclical dependency detected
attribute = { other }
    .a = { attribute.a }
under = { attribute.a }
#= {attribute.a}
#! Cyclical dependency detected
begins = a{ ends }
ends = a{ ended }
ended = a{ last }
last = a
begun = { begins }
#= aaaa
