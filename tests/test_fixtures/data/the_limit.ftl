## A hundred placeables in a call, and one more.
## Messages of 99 to 101 placeables, references to them, a hundred brackets and as many calls.
within = { "a" }{ "a" }{ "a" }{ "a" }{ "a" }{ "a" }{ "a" }{ "a" }{ "a" }{ "a" }{ "a" }{ "a" }{ "a" }{ "a" }{ "a" }{ "a" }{ "a" }{ "a" }{ "a" }{ "a" }{ "a" }{ "a" }{ "a" }{ "a" }{ "a" }{ "a" }{ "a" }{ "a" }{ "a" }{ "a" }{ "a" }{ "a" }{ "a" }{ "a" }{ "a" }{ "a" }{ "a" }{ "a" }{ "a" }{ "a" }{ "a" }{ "a" }{ "a" }{ "a" }{ "a" }{ "a" }{ "a" }{ "a" }{ "a" }{ "a" }{ "a" }{ "a" }{ "a" }{ "a" }{ "a" }{ "a" }{ "a" }{ "a" }{ "a" }{ "a" }{ "a" }{ "a" }{ "a" }{ "a" }{ "a" }{ "a" }{ "a" }{ "a" }{ "a" }{ "a" }{ "a" }{ "a" }{ "a" }{ "a" }{ "a" }{ "a" }{ "a" }{ "a" }{ "a" }{ "a" }{ "a" }{ "a" }{ "a" }{ "a" }{ "a" }{ "a" }{ "a" }{ "a" }{ "a" }{ "a" }{ "a" }{ "a" }{ "a" }{ "a" }{ "a" }{ "a" }{ "a" }{ "a" }{ "a" }
#= aaaaaaaaaaaaaaaaaaaaaaaaaaaaaaaaaaaaaaaaaaaaaaaaaaaaaaaaaaaaaaaaaaaaaaaaaaaaaaaaaaaaaaaaaaaaaaaaaaa
hundred = { "a" }{ "a" }{ "a" }{ "a" }{ "a" }{ "a" }{ "a" }{ "a" }{ "a" }{ "a" }{ "a" }{ "a" }{ "a" }{ "a" }{ "a" }{ "a" }{ "a" }{ "a" }{ "a" }{ "a" }{ "a" }{ "a" }{ "a" }{ "a" }{ "a" }{ "a" }{ "a" }{ "a" }{ "a" }{ "a" }{ "a" }{ "a" }{ "a" }{ "a" }{ "a" }{ "a" }{ "a" }{ "a" }{ "a" }{ "a" }{ "a" }{ "a" }{ "a" }{ "a" }{ "a" }{ "a" }{ "a" }{ "a" }{ "a" }{ "a" }{ "a" }{ "a" }{ "a" }{ "a" }{ "a" }{ "a" }{ "a" }{ "a" }{ "a" }{ "a" }{ "a" }{ "a" }{ "a" }{ "a" }{ "a" }{ "a" }{ "a" }{ "a" }{ "a" }{ "a" }{ "a" }{ "a" }{ "a" }{ "a" }{ "a" }{ "a" }{ "a" }{ "a" }{ "a" }{ "a" }{ "a" }{ "a" }{ "a" }{ "a" }{ "a" }{ "a" }{ "a" }{ "a" }{ "a" }{ "a" }{ "a" }{ "a" }{ "a" }{ "a" }{ "a" }{ "a" }{ "a" }{ "a" }{ "a" }{ "a" }
#= aaaaaaaaaaaaaaaaaaaaaaaaaaaaaaaaaaaaaaaaaaaaaaaaaaaaaaaaaaaaaaaaaaaaaaaaaaaaaaaaaaaaaaaaaaaaaaaaaaaa
m = { "a" }{ "a" }{ "a" }{ "a" }{ "a" }{ "a" }{ "a" }{ "a" }{ "a" }{ "a" }{ "a" }{ "a" }{ "a" }{ "a" }{ "a" }{ "a" }{ "a" }{ "a" }{ "a" }{ "a" }{ "a" }{ "a" }{ "a" }{ "a" }{ "a" }{ "a" }{ "a" }{ "a" }{ "a" }{ "a" }{ "a" }{ "a" }{ "a" }{ "a" }{ "a" }{ "a" }{ "a" }{ "a" }{ "a" }{ "a" }{ "a" }{ "a" }{ "a" }{ "a" }{ "a" }{ "a" }{ "a" }{ "a" }{ "a" }{ "a" }{ "a" }{ "a" }{ "a" }{ "a" }{ "a" }{ "a" }{ "a" }{ "a" }{ "a" }{ "a" }{ "a" }{ "a" }{ "a" }{ "a" }{ "a" }{ "a" }{ "a" }{ "a" }{ "a" }{ "a" }{ "a" }{ "a" }{ "a" }{ "a" }{ "a" }{ "a" }{ "a" }{ "a" }{ "a" }{ "a" }{ "a" }{ "a" }{ "a" }{ "a" }{ "a" }{ "a" }{ "a" }{ "a" }{ "a" }{ "a" }{ "a" }{ "a" }{ "a" }{ "a" }{ "a" }{ "a" }{ "a" }{ "a" }{ "a" }{ "a" }{ "a" }
#= aaaaaaaaaaaaaaaaaaaaaaaaaaaaaaaaaaaaaaaaaaaaaaaaaaaaaaaaaaaaaaaaaaaaaaaaaaaaaaaaaaaaaaaaaaaaaaaaaaaa
#! Too many placeables
n = x{ m }y
#= xaaaaaaaaaaaaaaaaaaaaaaaaaaaaaaaaaaaaaaaaaaaaaaaaaaaaaaaaaaaaaaaaaaaaaaaaaaaaaaaaaaaaaaaaaaaaaaaaaaa{m}
#! Too many placeables
o = x{ within }y
#= xaaaaaaaaaaaaaaaaaaaaaaaaaaaaaaaaaaaaaaaaaaaaaaaaaaaaaaaaaaaaaaaaaaaaaaaaaaaaaaaaaaaaaaaaaaaaaaaaaaay
z = { NUMBER(m, $q) }
#= NUMBER(){NUMBER()}
#! Too many placeables
#! Unknown variable: $q
q = x{ { m } }
#= x\u{2068}aaaaaaaaaaaaaaaaaaaaaaaaaaaaaaaaaaaaaaaaaaaaaaaaaaaaaaaaaaaaaaaaaaaaaaaaaaaaaaaaaaaaaaaaaaaaaaaaaaa{m}\u{2069}
#! Too many placeables
s = { F(m) ->
    [x] 1
   *[o] 2
}q
#= \u{2068}{F()}\u{2069}
#! Too many placeables
-u = u
t = { -u(m) }
#= {-u}
#! Too many placeables
brackets = {{{{{{{{{{{{{{{{{{{{{{{{{{{{{{{{{{{{{{{{{{{{{{{{{{{{{{{{{{{{{{{{{{{{{{{{{{{{{{{{{{{{{{{{{{{{{{{{{{{{"x"}}}}}}}}}}}}}}}}}}}}}}}}}}}}}}}}}}}}}}}}}}}}}}}}}}}}}}}}}}}}}}}}}}}}}}}}}}}}}}}}}}}}}}}}}}}}}}}}}}}}
#= x
calls = { F(F(F(F(F(F(F(F(F(F(F(F(F(F(F(F(F(F(F(F(F(F(F(F(F(F(F(F(F(F(F(F(F(F(F(F(F(F(F(F(F(F(F(F(F(F(F(F(F(F(F(F(F(F(F(F(F(F(F(F(F(F(F(F(F(F(F(F(F(F(F(F(F(F(F(F(F(F(F(F(F(F(F(F(F(F(F(F(F(F(F(F(F(F(F(F(F(F(F())))))))))))))))))))))))))))))))))))))))))))))))))))))))))))))))))))))))))))))))))))))))))))))))))) }
#= {F()}
#! Unknown function: F()
