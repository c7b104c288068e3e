## An answer that no key is compared with goes to the default, without an error.
#@ function F = "a"
d = { F() ->
 [a] x
 *[b] y
}
#= x
#===
#@ functions none
#@ function F = one
d = { F() ->
 [a] x
 *[b] y
}
#= y
#===
#@ functions none
#@ function F = star
d = { F() ->
 [a] x
 *[b] y
}
#= y
#===
#@ functions none
#@ function F = none
d = { F() ->
 [a] x
 *[b] y
}
#= y
#===
#@ functions none
#@ function F = error
d = { F() ->
 [a] x
 *[b] y
}
#= y
