## Selects, cut at each place.
#@ function FIRST = first
#@ function NAMED = named
#@ cut
#===
emails = { $n ->
    [0] None
    [one] One
    [22] Twenty-two
   *[other] { $n } mails
}
rank = { NUMBER($n, type: "ordinal") ->
   *[other] { $n }th
    [one] { $n }st
    [ two ] { $n }nd
}
fixed = { "a" ->
    [a] A
   *[b] B
} { 1.0 ->
    [ 1 ] one
   *[ 1.0 ] point
}
nested = { { $name } } { { $n ->
    [1] { "one" }
   *[other] { { "more" } }
} }
lines = { FIRST(
    $n ,
    style: "percent"
) ->
    [22] yes
   *[other] no
}

#end
#= fixed | \u{2068}A\u{2069} \u{2068}point\u{2069}
#= fixed name=Anna n=22 case=genitive | \u{2068}A\u{2069} \u{2068}point\u{2069}
#= emails name=Anna n=22 case=genitive | Twenty-two
#= emails | \u{2068}{$n}\u{2069} mails
#! Unknown variable: $n
#! Unknown variable: $n
#= rank name=Anna n=22 case=genitive | \u{2068}22\u{2069}nd
#= rank | \u{2068}{$n}\u{2069}th
#! Unknown variable: $n
#! Unknown variable: $n
#= nested name=Anna n=22 case=genitive | \u{2068}Anna\u{2069} \u{2068}more\u{2069}
#= nested | \u{2068}{$name}\u{2069} \u{2068}more\u{2069}
#! Unknown variable: $name
#! Unknown variable: $n
#= lines name=Anna n=22 case=genitive | yes
#= lines | no
#! Unknown variable: $n
