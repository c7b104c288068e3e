## What is unknown is passed over with what it is asked.
#@ isolating off
one = 1
two = 2
function = { F(one) }{ two }
term = { -u(x: 1) }{ two }
message = { nothing }{ two }{ nothing.a }{ one }
first = { function }
#= {F()}2
#! Unknown function: F()
second = { term }
#= {-u}2
#! Unknown term: -u
third = { message }
#= {nothing}2{nothing.a}1
#! Unknown message: nothing
#! Unknown attribute: nothing.a
