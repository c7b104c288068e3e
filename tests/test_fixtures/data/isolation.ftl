## What is put between isolation marks: placeables of each kind, alone and beside others.
#@ function F = "f"
m = mm
    .a = ma
-t = tt
all = x{ m }{ m.a }{ -t }{ "s" }{ 1 }{ $n }{ F() }{ { "s" } }{ { m } }{ { { -t } } }
#= n=9 | xmmmatts\u{2068}1\u{2069}\u{2068}9\u{2069}\u{2068}f\u{2069}\u{2068}s\u{2069}\u{2068}mm\u{2069}\u{2068}tt\u{2069}
alone = { $n }
#= n=9 | 9
nested = { { $n } }
#= n=9 | 9
two = { $n }{ $n }
#= n=9 | \u{2068}9\u{2069}\u{2068}9\u{2069}
lost = { none }{ none.a }{ -none }{ $q }
#= {none}{none.a}{-none}\u{2068}{$q}\u{2069}
#! Unknown message: none
#! Unknown attribute: none.a
#! Unknown term: -none
#! Unknown variable: $q
