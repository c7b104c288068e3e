## The built-in function NUMBER.
least = { NUMBER(5, minimumFractionDigits: 0) }
#= 5.
most = { NUMBER(5, minimumFractionDigits: 400) }
#= 5.000000000000000000
three = { NUMBER(1.5, minimumFractionDigits: 3) }
#= 1.500
percent = { NUMBER(1.50, style: "percent") }
#= 1.50
variable = { NUMBER($n) }
#= n=9 | 9
#= NUMBER()
#! Unknown variable: $n
text = { NUMBER("5") }
#= NUMBER()
none = { NUMBER() }
#= NUMBER()
twice = { NUMBER(NUMBER(5, minimumFractionDigits: 1), type: "ordinal") }
#= 5.0
