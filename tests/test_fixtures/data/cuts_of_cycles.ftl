## Cycles, a limit that's reached, and nested placeables, cut at each place.
#@ function FIRST = first
#@ function NAMED = named
#@ cut
#===
-brand = Firefox
    .gender = masculine
    .form = { $case ->
        [genitive] gen
       *[other] nom
    }
-site = { $where } by { -brand }
welcome = Hi, { $name }, from { -brand }!
    .aria = Close { -brand }
loop = { loop }
o = lol
p = {o}{o}{o}{o}{o}{o}{o}{o}{o}{o}
q = {p}{p}{p}{p}{p}{p}{p}{p}{p}{p}
about = { -brand.form ->
    [gen] { -site }
   *[nom] { welcome.aria }{ many.none }
}
    .deep = { { { { "four" } } } }

    .wide =
        { $name }
          { $n }
-void = { "" }
    .of = { -void }{ void }
empty = { -void }{ -void.none ->
   *[x] { -self }
}
-self = { -self }

#end
#= loop | {loop}
#! Cyclical dependency detected
#= loop name=Anna n=22 case=genitive | {loop}
#! Cyclical dependency detected
#= o | lol
#= o name=Anna n=22 case=genitive | lol
#= p | lollollollollollollollollollol
#= p name=Anna n=22 case=genitive | lollollollollollollollollollol
#= about | Close Firefox{many.none}
#! Unknown attribute: many.none
#= about name=Anna n=22 case=genitive | Close Firefox{many.none}
#! Unknown attribute: many.none
#= about.deep | four
#= about.deep name=Anna n=22 case=genitive | four
#= empty | \u{2068}{-self}\u{2069}
#! Unknown attribute: -void.none
#! Cyclical dependency detected
#= empty name=Anna n=22 case=genitive | \u{2068}{-self}\u{2069}
#! Unknown attribute: -void.none
#! Cyclical dependency detected
#= about.wide name=Anna n=22 case=genitive | \u{2068}Anna\u{2069}
#+   \u{2068}22\u{2069}
#= about.wide | \u{2068}{$name}\u{2069}
#+   \u{2068}{$n}\u{2069}
#! Unknown variable: $name
#! Unknown variable: $n
#= q | lollollollollollollollollollollollollollollollollollollollollollollollollollollollollollollollollollollollollollollollollollollollollollollollollollollollollollollollollollollollollollollollollollollollollollollollollollollollollollollollollollollollollollollollollollol{p}
#! Too many placeables
