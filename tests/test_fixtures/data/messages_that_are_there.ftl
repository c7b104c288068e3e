## Messages that are there stay, and those that override win over them.
hello = Hi!
#= Hi!
goodbye = Bye!
intro = Welcome, { $name }.
#= name="John" | Welcome, \u{2068}John\u{2069}.
#---
hello = Another Hi!
intro = Hi, { $name }.
#left message "hello"
#left message "intro"
#===
hello = Hi!
#= Another Hi!
goodbye = Bye!
#= Bye!
intro = Welcome, { $name }.
#= name="John" | Hi, \u{2068}John\u{2069}.
#---
hello = Another Hi!
intro = Hi, { $name }.
#left message "hello"
#left message "intro"
#--- overriding
hello = Another Hi!
intro = Hi, { $name }.
