## Writers that are full behind a text, and the errors by then.
m = Welcome, { $name }.
#= name=John | Welcome, \u{2068}John\u{2069}.
#= Welcome, \u{2068}{$name}\u{2069}.
#! Unknown variable: $name
#< | Welcome,\u{20}
#< | Welcome, \u{2068}
#! Unknown variable: $name
#===
m = { $name }
#= {$name}
#! Unknown variable: $name
#< |
#! Unknown variable: $name
