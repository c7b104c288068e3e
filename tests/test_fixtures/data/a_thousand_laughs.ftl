## Ten times ten times ten references.
a = lol
b = { a }{ a }{ a }{ a }{ a }{ a }{ a }{ a }{ a }{ a }
#= lollollollollollollollollollol
c = { b }{ b }{ b }{ b }{ b }{ b }{ b }{ b }{ b }{ b }
#= lollollollollollollollollollollollollollollollollollollollollollollollollollollollollollollollollollollollollollollollollollollollollollollollollollollollollollollollollollollollollollollollollollollollollollollollollollollollollollollollollollollollollollollollollollol{b}
#! Too many placeables
d = { c }{ c }{ c }{ c }{ c }{ c }{ c }{ c }{ c }{ c }
#= lollollollollollollollollollollollollollollollollollollollollollollollollollollollollollollollollollollollollollollollollollollollollollollollollollollollollollollollollollollollollollollollollollollollollollollollollollollollollollollollollollollollollollollollollollol{c}
#! Too many placeables
