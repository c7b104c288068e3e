## A source of two kilobytes that uses each rule of the grammar, with Junk in between.
#@ function FIRST = first
#@ function NAMED = named
#===
### Each rule of the grammar.
## A group
# A comment
#
# nospace

plain = Hello, world!
accents = é😂 and a	tab
tight={FIRST(NAMED(x:1))}
-brand = Firefox
    .gender = masculine
    .form = { $case ->
        [genitive] gen
       *[other] nom
    }
-site = { $where } by { -brand }
bare =
    .title = Only attributes
    .label =
        Over
          two lines
many  =
    First
      indented

    third   
    { $name } begins
    and { "ends" }
welcome = Hi, { $name }, from { -brand }!
    .aria = Close { -brand }
literals = { "a \" b \\ \u0041\U01F602" }{ 5 }{ -3.140 }{ 007 }
references = { plain } { bare.title } { -site(where: "home") } { none } { many.none } { -none }
emails = { $n ->
    [0] None
    [one] One
    [22] Twenty-two
   *[other] { $n } mails
}
rank = { NUMBER($n, type: "ordinal") ->
   *[other] { $n }th
    [one] { $n }st
    [ two ] { $n }nd
}
his = { -brand.gender ->
    [feminine] her
   *[masculine] his
}
of = { -brand.form(case: "genitive") ->
    [gen] of
   *[nom] by
}
fixed = { "a" ->
    [a] A
   *[b] B
} { 1.0 ->
    [ 1 ] one
   *[ 1.0 ] point
}
nested = { { $name } } { { $n ->
    [1] { "one" }
   *[other] { { "more" } }
} }
calls = { FIRST("p", 2, $name, plain, { -brand }, x: 1, y: "z",) } { FIRST( ) } { NAMED (x: "q") } { LOST($n) }
lines = { FIRST(
    $n ,
    style: "percent"
) ->
    [22] yes
   *[other] no
}
crlf = one
    two { $name }
    
    three
loop = { loop }
o = lol
p = {o}{o}{o}{o}{o}{o}{o}{o}{o}{o}
q = {p}{p}{p}{p}{p}{p}{p}{p}{p}{p}
about = { -brand.form ->
    [gen] { -site }
   *[nom] { welcome.aria }{ many.none }
}
    .deep = { { { { "four" } } } }

    .wide =
        { $name }
          { $n }
-void = { "" }
    .of = { -void }{ void }
empty = { -void }{ -void.none ->
   *[x] { -self }
}
-self = { -self }
sums = { NUMBER(1.50, minimumFractionDigits: 3) } { NUMBER("1") } { NUMBER($n, useGrouping: "false") }
junk here
 and there
unclosed = { "x"
  goes on
- }
half = text
    .none =
# between
last = { $missing }
#end
#junk 1902..1923
#junk 1923..1950
#junk 1950..1954
#junk 1966..1978
#= plain | Hello, world!
#= plain name=Anna n=22 case=genitive | Hello, world!
#= accents | é😂 and a\u{9}tab
#= accents name=Anna n=22 case=genitive | é😂 and a\u{9}tab
#= tight | 1
#= tight name=Anna n=22 case=genitive | 1
#= bare.title | Only attributes
#= bare.title name=Anna n=22 case=genitive | Only attributes
#= bare.label | Over
#+   two lines
#= bare.label name=Anna n=22 case=genitive | Over
#+   two lines
#= welcome.aria | Close Firefox
#= welcome.aria name=Anna n=22 case=genitive | Close Firefox
#= literals | a " b \\ A😂\u{2068}5\u{2069}\u{2068}-3.140\u{2069}\u{2068}7\u{2069}
#= literals name=Anna n=22 case=genitive | a " b \\ A😂\u{2068}5\u{2069}\u{2068}-3.140\u{2069}\u{2068}7\u{2069}
#= references | Hello, world! Only attributes \u{2068}home\u{2069} by Firefox {none} {many.none} {-none}
#! Unknown message: none
#! Unknown attribute: many.none
#! Unknown term: -none
#= references name=Anna n=22 case=genitive | Hello, world! Only attributes \u{2068}home\u{2069} by Firefox {none} {many.none} {-none}
#! Unknown message: none
#! Unknown attribute: many.none
#! Unknown term: -none
#= his | his
#= his name=Anna n=22 case=genitive | his
#= of | of
#= of name=Anna n=22 case=genitive | of
#= fixed | \u{2068}A\u{2069} \u{2068}point\u{2069}
#= fixed name=Anna n=22 case=genitive | \u{2068}A\u{2069} \u{2068}point\u{2069}
#= loop | {loop}
#! Cyclical dependency detected
#= loop name=Anna n=22 case=genitive | {loop}
#! Cyclical dependency detected
#= o | lol
#= o name=Anna n=22 case=genitive | lol
#= p | lollollollollollollollollollol
#= p name=Anna n=22 case=genitive | lollollollollollollollollollol
#= about | Close Firefox{many.none}
#! Unknown attribute: many.none
#= about name=Anna n=22 case=genitive | Close Firefox{many.none}
#! Unknown attribute: many.none
#= about.deep | four
#= about.deep name=Anna n=22 case=genitive | four
#= empty | \u{2068}{-self}\u{2069}
#! Unknown attribute: -void.none
#! Cyclical dependency detected
#= empty name=Anna n=22 case=genitive | \u{2068}{-self}\u{2069}
#! Unknown attribute: -void.none
#! Cyclical dependency detected
#= half | text
#= half name=Anna n=22 case=genitive | text
#= last | {$missing}
#! Unknown variable: $missing
#= last name=Anna n=22 case=genitive | {$missing}
#! Unknown variable: $missing
#= many name=Anna n=22 case=genitive | First
#+   indented
#+
#+ third  \u{20}
#+ \u{2068}Anna\u{2069} begins
#+ and ends
#= many | First
#+   indented
#+
#+ third  \u{20}
#+ \u{2068}{$name}\u{2069} begins
#+ and ends
#! Unknown variable: $name
#= welcome name=Anna n=22 case=genitive | Hi, \u{2068}Anna\u{2069}, from Firefox!
#= welcome | Hi, \u{2068}{$name}\u{2069}, from Firefox!
#! Unknown variable: $name
#= emails name=Anna n=22 case=genitive | Twenty-two
#= emails | \u{2068}{$n}\u{2069} mails
#! Unknown variable: $n
#! Unknown variable: $n
#= rank name=Anna n=22 case=genitive | \u{2068}22\u{2069}nd
#= rank | \u{2068}{$n}\u{2069}th
#! Unknown variable: $n
#! Unknown variable: $n
#= nested name=Anna n=22 case=genitive | \u{2068}Anna\u{2069} \u{2068}more\u{2069}
#= nested | \u{2068}{$name}\u{2069} \u{2068}more\u{2069}
#! Unknown variable: $name
#! Unknown variable: $n
#= calls name=Anna n=22 case=genitive | \u{2068}p\u{2069} \u{2068}FIRST()\u{2069} \u{2068}q\u{2069} \u{2068}{LOST()}\u{2069}
#! Unknown function: LOST()
#= calls | \u{2068}p\u{2069} \u{2068}FIRST()\u{2069} \u{2068}q\u{2069} \u{2068}{LOST()}\u{2069}
#! Unknown variable: $name
#! Unknown variable: $n
#! Unknown function: LOST()
#= lines name=Anna n=22 case=genitive | yes
#= lines | no
#! Unknown variable: $n
#= crlf name=Anna n=22 case=genitive | one
#+ two \u{2068}Anna\u{2069}
#+
#+ three
#= crlf | one
#+ two \u{2068}{$name}\u{2069}
#+
#+ three
#! Unknown variable: $name
#= about.wide name=Anna n=22 case=genitive | \u{2068}Anna\u{2069}
#+   \u{2068}22\u{2069}
#= about.wide | \u{2068}{$name}\u{2069}
#+   \u{2068}{$n}\u{2069}
#! Unknown variable: $name
#! Unknown variable: $n
#= sums name=Anna n=22 case=genitive | \u{2068}1.500\u{2069} \u{2068}NUMBER()\u{2069} \u{2068}22\u{2069}
#= sums | \u{2068}1.500\u{2069} \u{2068}NUMBER()\u{2069} \u{2068}NUMBER()\u{2069}
#! Unknown variable: $n
#= q | lollollollollollollollollollollollollollollollollollollollollollollollollollollollollollollollollollollollollollollollollollollollollollollollollollollollollollollollollollollollollollollollollollollollollollollollollollollollollollollollollollollollollollollollollollol{p}
#! Too many placeables
