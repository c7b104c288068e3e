## One message each: its argument, its text and its errors.
m = Hello, world!
#= Hello, world!
#===
m = Welcome, { $name }.
#= name=John | Welcome, \u{2068}John\u{2069}.
#===
m = Welcome, { $name }.
#= other=John | Welcome, \u{2068}{$name}\u{2069}.
#! Unknown variable: $name
#===
m = { $n }  
#= n=z | z
#===
m = { 5 }
#= 5
#===
m = { 1.50 }
#= 1.50
#===
m = { 1.0000000 }
#= 1.0000000
#===
m = { -0.0 }
#= 0.0
#===
m = { $n } apples
#= n=5 | \u{2068}5\u{2069} apples
