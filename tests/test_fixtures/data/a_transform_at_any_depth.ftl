## A transform changes texts of messages, terms and variants, and no fallback.
#@ transform upper
a = x{ m }{ -t(n: "v") }{ $q ->
    [r] yes
   *[o] no
}{ none }
#= q=r | XMMT\u{2068}v\u{2069}\u{2068}YES\u{2069}{none}
#! Unknown message: none
m = mm
-t = t{ $n }
