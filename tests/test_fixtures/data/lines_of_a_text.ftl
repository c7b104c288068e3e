## A text of several lines, with line feeds alone and with carriage returns before them.
k =
    one
      two

    three
#= one
#+   two
#+
#+ three
crlf =
    one
      two

    three
#= one
#+   two
#+
#+ three
