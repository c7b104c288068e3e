## The same without isolation.
#@ function F = "f"
#@ isolating off
m = mm
    .a = ma
-t = tt
all = x{ m }{ m.a }{ -t }{ "s" }{ 1 }{ $n }{ F() }{ { "s" } }{ { m } }{ { { -t } } }
#= n=9 | xmmmatts19fsmmtt
alone = { $n }
nested = { { $n } }
two = { $n }{ $n }
#= n=9 | 99
lost = { none }{ none.a }{ -none }{ $q }
#= {none}{none.a}{-none}{$q}
#! Unknown message: none
#! Unknown attribute: none.a
#! Unknown term: -none
#! Unknown variable: $q
