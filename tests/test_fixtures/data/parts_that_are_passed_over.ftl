## Parts that are not entered are passed over: variants in front of the one that is chosen and behind it, and what a selector, arguments and nested placeables refer to.
#@ isolating off
#@ function FIRST = first
#@ function SECOND = second
one = 1
two = 2
three = 3
-t = t{ $x }
    .kind = b
variants = { $n ->
    [1] { one }{ two }
    [2] { FIRST(two, -t(x: "a"), one) }{ three }
   *[other] { three }
}{ one }
late-default = { $n ->
   *[many] { three }{ two }
    [2] { one }
}{ two }
selector = { -t.kind ->
    [a] { one }
   *[b] { two }
}{ three }
called = { SECOND(one, two, three) }{ one }
within = { FIRST(SECOND(one, two), three) }{ three }
term = { -t(x: "a") }{ two }
nested = { { { one } } }{ { two } }{ three }
first = { variants }
#= n=1 | 121
#= n=2 | 231
#= n=9 | 31
second = { late-default }
#= n=2 | 12
#= n=9 | 322
third = { selector }
#= 23
fourth = { called }
#= 21
fifth = { within }
#= 23
sixth = { term }
#= ta2
seventh = { nested }
#= 123
