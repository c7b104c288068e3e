## Patterns that come to themselves.
## The value of `terms` is that of `-two`, and the value of `here` that of `there`. A variant is not on the path: the one of `top` is the value of `v`.
#@ function F = first
itself = { itself }
#= {itself}
#! Cyclical dependency detected
a = { b }
#= xy{b}
#! Cyclical dependency detected
b = x{ c }
c = y{ b }
d = { a }
#= xy{b}
#! Cyclical dependency detected
-one = { -two }
-two = { -one }
terms = { -one }
#= {-two}
#! Cyclical dependency detected
k = { k.x }
    .x = { k }
#= {k}
#! Cyclical dependency detected
here = x{ there }
#= x{there}
#! Cyclical dependency detected
there = x{ there }
-t = { -t(n: 1) }
term = { -t }
#= {-t}
#! Cyclical dependency detected
argument = { F(argument) }
#= {argument}
#! Cyclical dependency detected
-u = u
thrown-away = { -u(thrown-away) }
#= u
#! Cyclical dependency detected
top = { "x" ->
   *[x] { w }
}
#= q{w}
#! Cyclical dependency detected
w = q{ v }
v = { w }
end = e
once = { end }
direct = { end }{ end }
#= ee
twice = { once }{ once }
#= ee
