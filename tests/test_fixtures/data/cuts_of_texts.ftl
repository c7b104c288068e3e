## Texts, attributes and lines, cut at each place.
#@ function FIRST = first
#@ function NAMED = named
#@ cut
#===
plain = Hello, world!
accents = é😂 and a	tab
tight={FIRST(NAMED(x:1))}
bare =
    .title = Only attributes
    .label =
        Over
          two lines
many  =
    First
      indented

    third   
    { $name } begins
    and { "ends" }
crlf = one
    two { $name }
    
    three

#end
#= plain | Hello, world!
#= plain name=Anna n=22 case=genitive | Hello, world!
#= accents | é😂 and a\u{9}tab
#= accents name=Anna n=22 case=genitive | é😂 and a\u{9}tab
#= tight | 1
#= tight name=Anna n=22 case=genitive | 1
#= bare.title | Only attributes
#= bare.title name=Anna n=22 case=genitive | Only attributes
#= bare.label | Over
#+   two lines
#= bare.label name=Anna n=22 case=genitive | Over
#+   two lines
#= many name=Anna n=22 case=genitive | First
#+   indented
#+
#+ third  \u{20}
#+ \u{2068}Anna\u{2069} begins
#+ and ends
#= many | First
#+   indented
#+
#+ third  \u{20}
#+ \u{2068}{$name}\u{2069} begins
#+ and ends
#! Unknown variable: $name
#= crlf name=Anna n=22 case=genitive | one
#+ two \u{2068}Anna\u{2069}
#+
#+ three
#= crlf | one
#+ two \u{2068}{$name}\u{2069}
#+
#+ three
#! Unknown variable: $name
