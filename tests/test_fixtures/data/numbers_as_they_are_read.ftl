## Which words are numbers, and how these are written.
v = { $n }
#= n=5 | 5
#= n=+5. | 5.
#= n=.50 | 0.50
#= n=-0 | 0
#= n=18446744073709551615 | 18446744073709551615
#= n=1.25 | 1.25
#= n=3.141569 | 3.141569
#= n=18446744073709551616 | 18446744073709551616
#= n=. | .
#= n=1e5 | 1e5
#= n=inf | inf
#= n=1.0000000000000000000 | 1.0000000000000000000
#= n="1\u{20}" | 1\u{20}
#= n="" |
#===
#@ formatter kinds
v = { $n }
#= n=5 | number
#: text
#= n=+5. | number
#: text
#= n=.50 | number
#: text
#= n=-0 | number
#: text
#= n=18446744073709551615 | number
#: text
#= n=1.25 | number
#: text
#= n=3.141569 | number
#: text
#= n=18446744073709551616 | text
#= n=. | text
#= n=1e5 | text
#= n=inf | text
#= n=1.0000000000000000000 | text
