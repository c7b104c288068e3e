## A source of most rules of the grammar, each of whose characters is replaced by each sign.
#@ cut
#@ replace
#===
# x
-t = T
    .a = f
m =
  a { $n }
   b
    .x = { -t }
s = { -t.a ->
    [f] y
   *[o] { "\u0041" }
}
c = { NUMBER(1.5, x: "q") }{ { m.x } }

#end
#= m n=1 | a \u{2068}1\u{2069}
#+  b
#= m | a \u{2068}{$n}\u{2069}
#+  b
#! Unknown variable: $n
#= m.x | T
#= s | y
#= c | \u{2068}1.5\u{2069}\u{2068}T\u{2069}
