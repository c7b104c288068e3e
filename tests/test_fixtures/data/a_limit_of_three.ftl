## The innermost placeable ends first.
#@ limit 3
a = x{ $n ->
   *[o] y{ $n ->
       *[i] { "p" }{ "q" }
    }w
}v
#= n=9 | x\u{2068}y\u{2068}p{$n}\u{2069}{$n}\u{2069}
#! Too many placeables
