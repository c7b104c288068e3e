## Junk between messages, cut at each place.
#@ function FIRST = first
#@ function NAMED = named
#@ cut
#===
junk here
 and there
unclosed = { "x"
  goes on
- }
half = text
    .none =
# between
last = { $missing }
#end
#junk 0..21
#junk 21..48
#junk 48..52
#junk 64..76
#= half | text
#= half name=Anna n=22 case=genitive | text
#= last | {$missing}
#! Unknown variable: $missing
#= last name=Anna n=22 case=genitive | {$missing}
#! Unknown variable: $missing
