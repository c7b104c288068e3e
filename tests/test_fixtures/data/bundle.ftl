## A text alone, and one with a variable.
hello-world = Hello, world!
#= Hello, world!

intro = Welcome, { $name }.
#= name="John" | Welcome, ⁨John⁩.
#= name=John | Welcome, \u{2068}John\u{2069}.
#= Welcome, ⁨{$name}⁩.
#! Unknown variable: $name
#= name=007 | Welcome, ⁨7⁩.
#= name=1.50 | Welcome, ⁨1.50⁩.
#= name=+.5 | Welcome, ⁨0.5⁩.

foo = { foo }
#= {foo}
#! Cyclical dependency detected

k =
    one
      two

    three
#= one
#+   two
#+
#+ three

k2 =
    .x = v
    .x = w
#= .x | v
#attributes x x
#none k2
#none k2.y
b = { k2.x }{ k2.y }
#= v{k2.y}
#! Unknown attribute: k2.y

rank = { NUMBER($n, type: "ordinal") ->
    [1] first
    [2] second
    [3] third
    [one] {$n}st
    [two] {$n}nd
    [few] {$n}rd
   *[other] {$n}th
}
#= n=1 | ⁨1⁩st
#= n=5 | ⁨5⁩th
#= n=12 | ⁨12⁩th
#= n=22 | ⁨22⁩nd
#absent nobody

#===
a = 1
b = { 
c = 3
#end
#junk 6..13
#attributes
#= a | 1
#= c | 3
#none b

#===
a = 1
#--- overriding
-a = x
#absent a

#===
#@ isolating off
msg-key = Hello, { $user }. You have { $emailCount } messages.
#= user="John" emailCount=5 | Hello, John. You have 5 messages.

#===
#@ isolating on
#@ formatter brackets
hello-world = Hello, world!
#= Hello, world!
#: [Hello, world!]
intro = Welcome, { $name }.
#= name=John | Welcome, ⁨[John]⁩.
#: [Welcome, ⁨[John]⁩.]

#=== again
#@ formatter none
#@ transform upper
#= intro name=John | WELCOME, ⁨John⁩.

#===
#@ default
hello = Hi!
goodbye = Bye!
hello = Ho!
#left message "hello"
#--- overriding
hello = Another Hi!
#= Another Hi!

#===
#@ cut
#@ replace
#@ limit 2
a = { $n }{ b }{ c }
b = x
c = y
#= a n=1 | ⁨1⁩x
#! Too many placeables
