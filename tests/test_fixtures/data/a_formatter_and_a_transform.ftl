## A formatter that shows each text between brackets, and a transform, set one by one and both.
## What is formatted as a whole is shown by the formatter once more.
#@ formatter brackets
#@ transform none
m = Hello, world!
#= name=John | Hello, world!
#: [Hello, world!]
#===
#@ formatter brackets
#@ transform none
m = Welcome, { $name }.
#= name=John | Welcome, \u{2068}[John]\u{2069}.
#: [Welcome, \u{2068}[John]\u{2069}.]
#===
#@ formatter none
#@ transform upper
m = Welcome, { $name }.
#= name=John | WELCOME, \u{2068}John\u{2069}.
#===
#@ formatter brackets
#@ transform none
m = { 5 }
#= name=John | 5
#: [5]
#===
#@ formatter none
#@ transform upper
m = Hello
#= name=John | HELLO
#===
#@ formatter brackets
#@ transform upper
m = Hello
#= name=John | HELLO
#: [HELLO]
#===
#@ formatter brackets
#@ transform none
m = Hello
#= name=John | Hello
#: [Hello]
#===
#@ formatter none
#@ transform none
m = Hello
#= name=John | Hello
#===
#@ formatter none
#@ transform upper
m = Hello, { "world" }!
#= name=John | HELLO, world!
