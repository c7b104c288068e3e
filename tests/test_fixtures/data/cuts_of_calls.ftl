## Literals and calls, cut at each place.
#@ function FIRST = first
#@ function NAMED = named
#@ cut
#===
plain = Hello, world!
-brand = Firefox
    .gender = masculine
    .form = { $case ->
        [genitive] gen
       *[other] nom
    }
literals = { "a \" b \\ \u0041\U01F602" }{ 5 }{ -3.140 }{ 007 }
calls = { FIRST("p", 2, $name, plain, { -brand }, x: 1, y: "z",) } { FIRST( ) } { NAMED (x: "q") } { LOST($n) }
sums = { NUMBER(1.50, minimumFractionDigits: 3) } { NUMBER("1") } { NUMBER($n, useGrouping: "false") }

#end
#= literals | a " b \\ A😂\u{2068}5\u{2069}\u{2068}-3.140\u{2069}\u{2068}7\u{2069}
#= literals name=Anna n=22 case=genitive | a " b \\ A😂\u{2068}5\u{2069}\u{2068}-3.140\u{2069}\u{2068}7\u{2069}
#= calls name=Anna n=22 case=genitive | \u{2068}p\u{2069} \u{2068}FIRST()\u{2069} \u{2068}q\u{2069} \u{2068}{LOST()}\u{2069}
#! Unknown function: LOST()
#= calls | \u{2068}p\u{2069} \u{2068}FIRST()\u{2069} \u{2068}q\u{2069} \u{2068}{LOST()}\u{2069}
#! Unknown variable: $name
#! Unknown variable: $n
#! Unknown function: LOST()
#= sums name=Anna n=22 case=genitive | \u{2068}1.500\u{2069} \u{2068}NUMBER()\u{2069} \u{2068}22\u{2069}
#= sums | \u{2068}1.500\u{2069} \u{2068}NUMBER()\u{2069} \u{2068}NUMBER()\u{2069}
#! Unknown variable: $n
