## A minimum of digits counts as 18 at most; what is no number is an error; the first positional value is the number.
negative = { NUMBER(5, minimumFractionDigits: -3) }
#= 5.
most = { NUMBER(5, minimumFractionDigits: 400) }
#= 5.000000000000000000
seven = { NUMBER(5, minimumFractionDigits: 7) }
#= 5.0000000
nothing = { NUMBER() }
#= NUMBER()
text-first = { NUMBER("5", 5) }
#= NUMBER()
number-first = { NUMBER(5, "x") }
#= 5
