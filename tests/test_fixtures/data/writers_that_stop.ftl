## References, cycles, the limit and shown values, where a writer may stop at each byte.
-t = t{ $n }{ $q }
    .s = s
m = 1{ $q }2{ none }3
k =
    .x = { m }
a = x{ m }{ -t(n: 1) }y{ k }{ k.x }{ F(m, $p) }{ -t.s ->
    [s] { m }
   *[o] o
}z
#= n=9 | x1\u{2068}{$q}\u{2069}2{none}3t\u{2068}1\u{2069}\u{2068}{$q}\u{2069}y{k}1\u{2068}{$q}\u{2069}2{none}3\u{2068}{F()}\u{2069}\u{2068}1\u{2068}{$q}\u{2069}2{none}3\u{2069}z
#! Unknown variable: $q
#! Unknown message: none
#! No value: k
#! Unknown variable: $q
#! Unknown message: none
#! Unknown variable: $q
#! Unknown message: none
#! Unknown variable: $p
#! Unknown function: F()
#! Unknown variable: $q
#! Unknown message: none
#===
#@ default
a = { b }!{ a }
#= n=9 | xy{b}!{a}
#! Cyclical dependency detected
#! Cyclical dependency detected
b = x{ c }
c = y{ b }
#===
#@ default
#@ limit 4
#@ function SECOND = second
m = { $n }{ $n }
a = x{ $n ->
   *[o] y{ $n ->
       *[i] { "\u0070" }{ SECOND(m, $q) }
    }w
}v
#= n=9 | x\u{2068}y\u{2068}p\u{2068}SECOND(){SECOND()}\u{2069}{$n}\u{2069}{$n}\u{2069}
#! Too many placeables
#! Unknown variable: $q
#===
#@ default
#@ formatter kinds
#@ transform upper
m = a{ $n }
a = { m }{ NUMBER(m) }{ NUMBER(1) }{ "\u0041\u00E9" }
#= n=9 | A\u{2068}number\u{2069}\u{2068}NUMBER()\u{2069}\u{2068}number\u{2069}Aé
#: text
