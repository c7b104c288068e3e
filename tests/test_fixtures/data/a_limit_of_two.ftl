## A limit of two.
#@ limit 2
#@ function FIRST = first
m = { "a" }{ "b" }
-t = t
    .a = { $n }{ $n }
-p = { $n }{ $n }
c1 = { c2 }
#= n=9 | {c3}{c2}
#! Too many placeables
c2 = { c3 }
#= n=9 | 9
c3 = { $n }
two = { "a" }{ "b" }
#= n=9 | ab
message = { m }
#= n=9 | a{m}
#! Too many placeables
nested = { { { $n } } }{ "b" }
#= n=9 | \u{2068}9\u{2069}b
nested-select = { { $n ->
    [9] { $n }
   *[o] o
} }
#= n=9 | 9
texts = x{ b }y
#= n=9 | x1\u{2068}9\u{2069}2{b}
#! Too many placeables
b = 1{ $n }2{ $n }3
term = x{ -p(n: 1) }y{ $q }
#= n=9 | x\u{2068}1\u{2069}{-p}
#! Too many placeables
selector = { -t.a(n: 1) ->
    [1] x
   *[o] y
}q
#= n=9 | \u{2068}{-t.a}\u{2069}
#! Too many placeables
argument = { FIRST(m, $q) }
#= n=9 | a{FIRST()}
#! Too many placeables
#! Unknown variable: $q
