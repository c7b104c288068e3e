## What arguments of each kind are as values.
#@ function FIRST = first
#@ function SECOND = second
#@ function NAMED = named
#@ function LENGTH = length
m = mm
    .a = ma
empty =
    .a = ea
marked = a{ $n }b
-v = { $n }
    .a = va
-w = { FIRST($n) }
string = { FIRST("q") }
#= q
length = { LENGTH("12345") }
#= 5
escaped = { FIRST("\u0041") }
#= A
escaped-length = { LENGTH("\u0041") }
#= 1
number = { FIRST(1.50) }
#= 1.50
number-is-no-text = { LENGTH(12345) }
#= LENGTH()
variable = { FIRST($n) }
#= n=9 | 9
#= n="\\u0041" | \\u0041
#= n=@star | *
#= n=@none |
#= n=@error | FIRST()
#= FIRST()
#! Unknown variable: $n
message = { FIRST(m) }
#= mm
attribute = { FIRST(m.a) }
#= ma
marks = { FIRST(marked) }
#= n=9 | a\u{2068}9\u{2069}b
no-message = { FIRST(none) }
#= {none}
#! Unknown message: none
no-value = { FIRST(empty) }
#= {empty}
#! No value: empty
no-attribute = { FIRST(m.b) }
#= {m.b}
#! Unknown attribute: m.b
term = { FIRST(-v) }
#= n=9 | {$n}
term-given = { FIRST(-v(n: 1)) }
#= n=9 | 1
term-attribute = { FIRST(-v.a) }
#= n=9 | va
no-term = { FIRST(-none) }
#= {-none}
#! Unknown term: -none
in-a-term = { -w }
#= n=9 | FIRST()
in-a-term-given = { -w(n: 1) }
#= n=9 | 1
nested = { FIRST({ "x" }) }
#= x
nested-number = { LENGTH({ 12345 }) }
#= 5
nested-message = { FIRST({ m }) }
#= mm
nested-select = { FIRST({ $n ->
    [9] nine
   *[o] other
}) }
#= n=9 | nine
function = { FIRST(FIRST("a")) }
#= a
no-function = { FIRST(NONE()) }
#= FIRST()
no-function-asked = { FIRST(NONE($q)) }
#= FIRST()
#! Unknown variable: $q
none-at-all = { FIRST() }
#= FIRST()
second = { SECOND("a", "b") }
#= b
second-of-one = { SECOND("a") }
#= SECOND()
in-order = { SECOND($p, $q) }
#= SECOND()
#! Unknown variable: $p
#! Unknown variable: $q
named = { NAMED(x: 1) }
#= 1
other-name = { NAMED(y: 1) }
#= NAMED()
named-text = { NAMED(y: 1, x: "\u0041") }
#= A
positional-is-not-named = { NAMED(1) }
#= NAMED()
named-is-not-positional = { FIRST(x: 1) }
#= FIRST()
