## Of an id that is there a further entry is left, and reported in order.
a = 1
a = 2
-a = 3
#left message "a"
#left term "a"
#= a | 1
#absent b
