## Lines are elements of their own, and a carriage return before a line feed is in none.
#@ transform upper
k =
    one
      two

    three
#= ONE
#+   TWO
#+
#+ THREE
crlf =
    one
      two

    three
#= ONE
#+   TWO
#+
#+ THREE
