## Each bundle of a chain has its own transform and isolation.
#@ isolating off
a = x { $n }
#=== chain
#@ isolating on
#@ transform upper
a = no
b = x { $n }
#= a n=y | x y
#= b n=y | X \u{2068}y\u{2069}
#none nobody
