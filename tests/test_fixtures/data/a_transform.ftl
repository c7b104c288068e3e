## Text elements alone are changed by a transform, wherever they stand.
#@ transform upper
#@ function FIRST = first
#@ function TEXT = "a"
m = mm
    .a = ma
-t = t{ $n }
a = x{ "x" }
#= Xx
b = x{ m }{ m.a }{ -t(n: "v") }y
#= XMMMAT\u{2068}v\u{2069}Y
c = x{ none }{ $q }{ FIRST() }
#= X{none}\u{2068}{$q}\u{2069}\u{2068}FIRST()\u{2069}
#! Unknown message: none
#! Unknown variable: $q
d = { $n ->
    [a] x{ $n }
   *[A] y
}
#= n="a" | X\u{2068}a\u{2069}
e = { FIRST(m) }
#= MM
f = { FIRST(m) ->
    [mm] x
    [MM] y
   *[o] z
}
#= Y
g = { TEXT() ->
    [a] x
   *[A] y
}
#= X
