## References to terms: a term sees its own named arguments alone, and so does a message that it refers to; afterwards the outer ones stand again.
-u = u
-v = { $n }
-t = { -u }{ $n }
-w = { m }
-marked = a{ $n }b
-x = { -v(n: 2) }{ $n }
-y = { p }
-z = { none }
m = { $n }
p = { -v }{ $n }
missing = { -v }
#= n=9 | {$n}
given = { -v(n: 1) }
#= n=9 | 1
below = { -w(n: 1) }
#= n=9 | 1
again = { -t(n: 1) }
#= n=9 | u\u{2068}1\u{2069}
outer = { -v(n: 1) }{ $n }
#= n=9 | 1\u{2068}9\u{2069}
nested = { -x(n: 1) }
#= n=9 | 2\u{2068}1\u{2069}
through = { -y(n: 1) }
#= n=9 | {$n}\u{2068}1\u{2069}
both = { -u }{ -u }
#= n=9 | uu
positional = { -u($q) }
#= n=9 | u
#! Unknown variable: $q
positional-there = { -v($n) }
#= n=9 | {$n}
no-term = { -none }
#= n=9 | {-none}
#! Unknown term: -none
no-term-given = { -none($q, n: 1) }
#= n=9 | {-none}
#! Unknown variable: $q
#! Unknown term: -none
no-message = { -z }
#= n=9 | {none}
#! Unknown message: none
marks = { -marked }
#= n=9 | a\u{2068}{$n}\u{2069}b
around = x{ -marked(n: 1) }y
#= n=9 | xa\u{2068}1\u{2069}by
number = { -v(n: 1.50) }
#= n=9 | 1.50
text = { -v(n: "x") }
#= n=9 | x
escaped = { -v(n: "\u0041") }
#= n=9 | A
