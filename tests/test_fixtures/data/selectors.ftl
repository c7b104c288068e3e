## Attributes of terms as selectors, and selects in terms and in variants.
-brand = Firefox
    .gender = f
    .given = { $n }
-inside = { $n ->
    [f] yes
   *[o] no
}
attribute = { -brand.gender ->
    [m] he
    [f] she
   *[o] it
}
#= she
no-attribute = { -brand.sex ->
    [f] she
   *[o] it
}
#= it
#! Unknown attribute: -brand.sex
no-term = { -none.sex ->
    [f] she
   *[o] it
}
#= it
#! Unknown attribute: -none.sex
given = { -brand.given(n: "f") ->
    [f] yes
   *[o] no
}
#= yes
not-given = { -brand.given ->
    [f] yes
   *[o] no
}
#= n=f | no
in-a-term = { -inside }
#= n=f | no
in-a-term-given = { -inside(n: "f") }
#= yes
two = { $n ->
    [f] { $m ->
        [f] both
       *[o] first
    }
   *[o] none
}
#= n=f m=f | both
#= n=f m=g | first
#= n=f | first
#! Unknown variable: $m
#= n=1 | none
alone = x{ $n ->
    [f] { $n }
   *[o] o
}
#= n=f | x\u{2068}f\u{2069}
beside = { $n ->
    [f] y{ $n }
   *[o] o
}
#= n=f | y\u{2068}f\u{2069}
reference = x{ $n ->
    [f] { -brand }
   *[o] o
}
#= n=f | x\u{2068}Firefox\u{2069}
