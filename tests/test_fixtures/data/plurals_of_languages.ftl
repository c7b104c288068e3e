## Categories of numbers in Polish, Arabic and Welsh.
#@ plurals pl
category = { $n ->
    [zero] zero
    [one] one
    [two] two
    [few] few
    [many] many
    [other] other
   *[else] none
}
#= n=1 | one
#= n=12 | many
#= n=1.5 | other
#=== again
#@ plurals pl-PL
#= category n=22 | few
#=== again
#@ plurals ar
#= category n=0 | zero
#= category n=103 | few
#= category n=11 | many
#= category n=100 | other
#=== again
#@ plurals ar-EG
#= category n=2 | two
#=== again
#@ plurals cy
#= category n=3 | few
#= category n=6 | many
#=== again
#@ plurals cy-GB
#= category n=4 | other
