## Placeables where lines begin, with the indent of their lines.
k = a
  { $x }
  b
#= x=1 | a
#+ \u{2068}1\u{2069}
#+ b
#===
k =
  a
   { $x }
#= x=1 | a
#+  \u{2068}1\u{2069}
