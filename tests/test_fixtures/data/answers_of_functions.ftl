## What is written of each kind of answer.
#@ function NOTHING = none
#@ function FAULT = error
#@ function STAR = star
#@ function ONE = one
#@ function TEXT = "\u0041"
nothing = a{ NOTHING() }b
#= a\u{2068}\u{2069}b
fault = a{ FAULT() }b
#= a\u{2068}FAULT()\u{2069}b
star = a{ STAR() }b
#= a\u{2068}*\u{2069}b
one = a{ ONE() }b
#= a\u{2068}1\u{2069}b
text = a{ TEXT() }b
#= a\u{2068}\\u0041\u{2069}b
alone = { FAULT() }
#= FAULT()
unknown = a{ F() }b
#= a\u{2068}{F()}\u{2069}b
#! Unknown function: F()
unknown-asked = { F($q) }
#= {F()}
#! Unknown variable: $q
#! Unknown function: F()
fault-asked = { FAULT($q) }
#= FAULT()
#! Unknown variable: $q
message = { ONE }
#= {ONE}
#! Unknown message: ONE
