## An error is added after the opening mark and before the fallback that it causes.
## Each row is what a writer takes that is full then, and the errors that were added by then.
a = x{ m }
#= n=9 | x1\u{2068}{$q}\u{2069}
#! Unknown variable: $q
#< n=9 | x1
#< n=9 | x1\u{2068}
#! Unknown variable: $q
m = 1{ $q }
#===
#@ default
a = x{ none }
#= n=9 | x{none}
#! Unknown message: none
#< n=9 | x
#! Unknown message: none
#===
#@ default
a = x{ k }
#= n=9 | x{k}
#! No value: k
#< n=9 | x
#! No value: k
k =
    .y = y
#===
#@ default
a = x{ a }
#= n=9 | x{a}
#! Cyclical dependency detected
#< n=9 | x
#! Cyclical dependency detected
#===
#@ default
a = x{ F($q) }
#= n=9 | x\u{2068}{F()}\u{2069}
#! Unknown variable: $q
#! Unknown function: F()
#< n=9 | x
#< n=9 | x\u{2068}
#! Unknown variable: $q
#! Unknown function: F()
#===
#@ default
a = x{ -t($q) }
#= n=9 | xt
#! Unknown variable: $q
#< n=9 | x
#! Unknown variable: $q
-t = t
#===
#@ default
#@ limit 1
a = x{ b }
#= n=9 | xy{b}
#! Too many placeables
#< n=9 | x
#< n=9 | xy
#! Too many placeables
b = y{ $n }z
#===
#@ default
a = x{ -t }{ $q }
#= n=9 | x\u{2068}{$n}\u{2069}y\u{2068}{$q}\u{2069}
#! Unknown variable: $q
#< n=9 | x\u{2068}
-t = { $n }y
