## Plural rules with ranges, and rules that name one category alone.
#@ cardinal one: n = 1,3..5; other:
category = { $n ->
    [one] one
    [few] few
    [other] other
   *[else] none
}
#= n=4 | one
#= n=3.5 | other
#= n=1.0 | one
#= n=2 | other
#=== again
#@ cardinal few: n = 2..4
#= category n=3 | few
#= category n=1 | other
