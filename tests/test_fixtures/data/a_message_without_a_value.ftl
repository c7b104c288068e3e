## A message of two attributes of one name.
k =
    .x = 1
    .x = 2
#none k
#= .x | 1
#attributes x x
#===
a = x
  .b = y
#= x
#= .b | y
#attributes b
