## A number as an ordinal, in English.
rank = { NUMBER($n, type: "ordinal") ->
    [1] first
    [2] second
    [3] third
    [one] {$n}st
    [two] {$n}nd
    [few] {$n}rd
   *[other] {$n}th
}
#= n=1 | \u{2068}1\u{2069}st
#= n=5 | \u{2068}5\u{2069}th
#= n=12 | \u{2068}12\u{2069}th
#= n=22 | \u{2068}22\u{2069}nd
#= n=103 | \u{2068}103\u{2069}rd
missing = { NUMBER($q) ->
    [1] x
   *[other] y
}
#= y
#! Unknown variable: $q
