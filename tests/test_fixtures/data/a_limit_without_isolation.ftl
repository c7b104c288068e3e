## Where the limit is reached without isolation.
#@ limit 1
#@ isolating off
m = { $n }
q = x{ { m } }
#= n=9 | x{m}
#! Too many placeables
