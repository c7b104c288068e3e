## Once the limit is reached, further arguments are resolved, functions called and references looked up, and their errors follow; patterns give nothing.
#@ limit 1
#@ function SECOND = second
m = { $n }
text = x
-t = t
variable = { SECOND(m, $n) }
#= n=9 | 9{SECOND()}
#! Too many placeables
missing = { SECOND(m, $q) }
#= n=9 | SECOND(){SECOND()}
#! Too many placeables
#! Unknown variable: $q
string = { SECOND(m, "s") }
#= n=9 | s{SECOND()}
#! Too many placeables
message = { SECOND(m, text) }
#= n=9 | {SECOND()}
#! Too many placeables
twice = { SECOND(m, m) }
#= n=9 | {SECOND()}
#! Too many placeables
no-message = { SECOND(m, none) }
#= n=9 | {none}{SECOND()}
#! Too many placeables
#! Unknown message: none
nested = { SECOND(m, { $n }) }
#= n=9 | 9{SECOND()}
#! Too many placeables
term = { SECOND(m, -t) }
#= n=9 | {SECOND()}
#! Too many placeables
call = { SECOND(m, SECOND(m, $n)) }
#= n=9 | 9{SECOND()}
#! Too many placeables
unknown = { F(m, $q) }
#= n=9 | {F()}{F()}
#! Too many placeables
#! Unknown variable: $q
#! Unknown function: F()
term-asked = { -t(m, $q) }
#= n=9 | {-t}
#! Too many placeables
#! Unknown variable: $q
no-term = { -none(m, n: 1) }
#= n=9 | {-none}{-none}
#! Too many placeables
#! Unknown term: -none
