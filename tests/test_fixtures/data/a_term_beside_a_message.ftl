## A term with the id of a message is left, and overrides it.
foo = a
-foo = b
#left term "foo"
#= foo | a
#===
foo = a
-foo = b
#left term "foo"
#--- overriding
-foo = c
#absent foo
#===
t = { -a }
#--- overriding
a = 1
a = 2
#absent a
-a = 3
#= t | 3
