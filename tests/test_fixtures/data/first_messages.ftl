## A message of text alone, and one with a variable.
hello-world = Hello, world!
#= Hello, world!
intro = Welcome, { $name }.
#= name=John | Welcome, \u{2068}John\u{2069}.
#= Welcome, \u{2068}{$name}\u{2069}.
#! Unknown variable: $name
#= name=007 | Welcome, \u{2068}7\u{2069}.
#= name=1.50 | Welcome, \u{2068}1.50\u{2069}.
#= name=+.5 | Welcome, \u{2068}0.5\u{2069}.
