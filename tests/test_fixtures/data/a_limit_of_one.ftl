## Where the limit is reached, each placeable that was open ends with its fallback, of a select with that of its selector.
#@ limit 1
#@ function FIRST = first
m = { $n }
    .a = { $n }
-t = { $n }
text = x
    .a = y
string = { "s" }
#= n=9 | s
nested = x{ { { $n } } }{ "b" }
#= n=9 | x\u{2068}9\u{2069}
#! Too many placeables
message = x{ m }y
#= n=9 | x{m}
#! Too many placeables
attribute = x{ m.a }y
#= n=9 | x{m.a}
#! Too many placeables
reference = x{ text }y
#= n=9 | xxy
term = x{ -t(n: 1) }y
#= n=9 | x{-t}
#! Too many placeables
select = x{ $n ->
    [9] y{ $n }z
   *[o] o
}z
#= n=9 | x\u{2068}y{$n}\u{2069}
#! Too many placeables
string-selector = { "\u0041" ->
    [A] { $n }
   *[o] o
}
#= n=9 | {"\\u0041"}
#! Too many placeables
number-selector = { 1.50 ->
    [1.50] { $n }
   *[o] o
}
#= n=9 | {1.50}
#! Too many placeables
function-selector = { FIRST(9) ->
    [9] { $n }
   *[o] o
}
#= n=9 | {FIRST()}
#! Too many placeables
nested-select = { { $n ->
    [9] { $n }
   *[o] o
} }
#= n=9 | {$n}
#! Too many placeables
before = { none }{ $q }
#= n=9 | {none}
#! Unknown message: none
#! Too many placeables
selector = { FIRST(m) ->
    [x] 1
   *[o] 2
}q
#= n=9 | \u{2068}{FIRST()}\u{2069}
#! Too many placeables
