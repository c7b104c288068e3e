## Attributes have references of their own, also of a message that has no value.
#@ isolating off
one = 1
two = 2
three = 3
both = { one }
    .a = { two }{ one }
    .b = { three }
    .a = { three }
bare =
    .a = { one }
    .b = { three }{ two }
-t = { one }
    .a = { two }
first = { both }{ both.b }{ both.a }
#= 1321
second = { bare.b }{ bare.a }
#= 321
third = { -t }
#= 1
