## Keys that are numbers, words of categories and names, against selectors of each kind.
keys = { $n ->
    [1] number
    [one] word
    [f] name
   *[other] default
}
#= n=1 | number
#= n="1" | default
#= n=1.0 | default
#= n="one" | word
#= n=f | name
#= n=g | default
#= n=@star | default
#= n=@none | default
#= n=@error | default
#= default
#! Unknown variable: $n
word-first = { $n ->
    [one] a
    [1] b
   *[other] c
}
#= n=1 | a
#= n=2 | c
default-first = { "a" ->
   *[o] y
    [a] x
}
#= x
first-of-two = { "a" ->
    [a] 1
    [a] 2
   *[o] 3
}
#= 1
by-its-key = { "o" ->
    [a] x
   *[o] y
}
#= y
literal = { 1.0 ->
    [1] a
    [one] b
   *[other] c
}
#= c
same-digits = { 1.0 ->
    [1] a
    [1.0] b
   *[other] c
}
#= b
other-digits = { 1 ->
    [1.0] a
   *[o] b
}
#= b
minus-zero = { -0 ->
    [0] a
   *[o] b
}
#= a
number-of-a-text = { "1" ->
    [1] a
   *[o] b
}
#= b
escaped = { "\u0041" ->
    [A] yes
   *[o] no
}
#= yes
other = { $n ->
    [other] x
   *[o] y
}
#= n=2 | x
#= n=@none | y
#= y
#! Unknown variable: $n
