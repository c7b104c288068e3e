## Messages without arguments.
m = Hello, world!
#= Hello, world!
#===
a = Welcome.
#= Welcome.
#===
m = Welcome, { $name }.
#= Welcome, \u{2068}{$name}\u{2069}.
#! Unknown variable: $name
#===
a = Welcome, { $name }.
#= Welcome, \u{2068}{$name}\u{2069}.
#! Unknown variable: $name
