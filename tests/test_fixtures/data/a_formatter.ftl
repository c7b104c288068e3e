## A formatter that shows a value by its kind.
## It is asked where a value is written, and never about a literal text, a reference to a pattern, a fallback or a selector.
#@ formatter kinds
#@ function FAULT = error
#@ function TEXT = "x"
#@ function NOTHING = none
#@ function STAR = star
#@ function FIRST = first
m = mm
shown = { 5 }
-t = { $n }
text = x
#= x
#: text
string = { "x" }
#= x
#: text
number = { 5 }
#= number
#: text
variable = { $n }
#= n=9 | number
#: text
#= n="x" | text
#= n=@star | custom
#: text
#= n=@none | nothing
#: text
#= n=@error | error
#: text
nested = { { "x" } }
#= x
#: text
nested-number = { { 5 } }
#= number
#: text
message = { m }
#= mm
#: text
message-shown = { shown }
#= number
#: text
term = { -t(n: 1) }
#= number
#: text
term-text = { -t(n: "x") }
#= text
fault = { FAULT() }
#= FAULT()
#: text
answer = { TEXT() }
#= text
nothing = { NOTHING() }
#= nothing
#: text
star = { STAR() }
#= custom
#: text
asked = { FIRST(5) }
#= number
#: text
asked-message = { FIRST(shown) }
#= text
select = { $n ->
    [9] nine
   *[number] default
}
#= n=9 | nine
#: text
select-answer = { TEXT() ->
    [x] yes
   *[text] no
}
#= yes
#: text
unknown = { F() }
#= {F()}
#: text
#! Unknown function: F()
missing = { $q }
#= {$q}
#: text
#! Unknown variable: $q
marked = a{ $n }b
#= n=9 | a\u{2068}number\u{2069}b
#: text
