## Without a formatter each value is shown by its own text.
v = { $n }
#= n=007 | 7
#= n=+.5 | 0.5
#= n="007" | 007
#= n=@star | *
#= n=@none |
#= n=@error |
escapes = { "\u0041\U01F602\\\"\uD800" }
#= A😂\\"\u{FFFD}
not-escaped = \u0041
#= \\u0041
