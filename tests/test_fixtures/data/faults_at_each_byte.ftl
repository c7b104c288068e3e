## A missing variable, a select on an ordinal number, a function in whose argument the limit is reached, and a thousandfold reference.
p = Welcome, { $name }.
#= Welcome, \u{2068}{$name}\u{2069}.
#! Unknown variable: $name
#< | Welcome,\u{20}
#< | Welcome, \u{2068}
#! Unknown variable: $name
#===
p = { NUMBER($n, type: "ordinal") ->
    [1] first
    [2] second
    [3] third
    [one] {$n}st
    [two] {$n}nd
    [few] {$n}rd
   *[other] {$n}th
}
#= n=22 | \u{2068}22\u{2069}nd
#===
p = { NUMBER(m, $q) }
#= NUMBER(){NUMBER()}
#! Too many placeables
#! Unknown variable: $q
#< |
#! Too many placeables
#! Unknown variable: $q
m = {"a"}{"a"}{"a"}{"a"}{"a"}{"a"}{"a"}{"a"}{"a"}{"a"}{"a"}{"a"}{"a"}{"a"}{"a"}{"a"}{"a"}{"a"}{"a"}{"a"}{"a"}{"a"}{"a"}{"a"}{"a"}{"a"}{"a"}{"a"}{"a"}{"a"}{"a"}{"a"}{"a"}{"a"}{"a"}{"a"}{"a"}{"a"}{"a"}{"a"}{"a"}{"a"}{"a"}{"a"}{"a"}{"a"}{"a"}{"a"}{"a"}{"a"}{"a"}{"a"}{"a"}{"a"}{"a"}{"a"}{"a"}{"a"}{"a"}{"a"}{"a"}{"a"}{"a"}{"a"}{"a"}{"a"}{"a"}{"a"}{"a"}{"a"}{"a"}{"a"}{"a"}{"a"}{"a"}{"a"}{"a"}{"a"}{"a"}{"a"}{"a"}{"a"}{"a"}{"a"}{"a"}{"a"}{"a"}{"a"}{"a"}{"a"}{"a"}{"a"}{"a"}{"a"}{"a"}{"a"}{"a"}{"a"}{"a"}{"a"}{"a"}
#===
a = lol
b = {a}{a}{a}{a}{a}{a}{a}{a}{a}{a}
c = {b}{b}{b}{b}{b}{b}{b}{b}{b}{b}
p = {c}{c}{c}{c}{c}{c}{c}{c}{c}{c}
#= lollollollollollollollollollollollollollollollollollollollollollollollollollollollollollollollollollollollollollollollollollollollollollollollollollollollollollollollollollollollollollollollollollollollollollollollollollollollollollollollollollollollollollollollollollol{c}
#! Too many placeables
#< | lollollollollollollollollollollollollollollollollollollollollollollollollollollollollollollollollollollollollollollollollollollollollollollollollollollollollollollollollollollollollollollollollollollollollollollollollollollollollollollollollollollollollollollollollollo
#< | lollollollollollollollollollollollollollollollollollollollollollollollollollollollollollollollollollollollollollollollollollollollollollollollollollollollollollollollollollollollollollollollollollollollollollollollollollollollollollollollollollollollollollollollollollol
#! Too many placeables
