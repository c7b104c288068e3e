## Functions that answer something of each kind as selectors, and one that is unknown.
#@ function TEXT = "a"
#@ function ONE = one
#@ function STAR = star
#@ function NOTHING = none
#@ function FAULT = error
#@ function FIRST = first
m = a
text = { TEXT() ->
    [a] x
   *[b] y
}
#= x
one = { ONE() ->
    [a] x
   *[b] y
}
#= y
number = { ONE() ->
    [1] x
   *[b] y
}
#= x
star = { STAR() ->
    [a] x
   *[b] y
}
#= y
nothing = { NOTHING() ->
    [a] x
   *[b] y
}
#= y
fault = { FAULT() ->
    [a] x
   *[b] y
}
#= y
unknown = { F() ->
    [a] x
   *[b] y
}
#= y
unknown-asked = { F($q) ->
    [a] x
   *[b] y
}
#= y
#! Unknown variable: $q
message = { FIRST(m) ->
    [a] x
   *[b] y
}
#= x
