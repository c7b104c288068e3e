## A term is added with the id of a message, and overrides it.
a = { foo }
#= x
b = { -foo }
#= {-foo}
#! Unknown term: -foo
foo = x
#===
a = { foo }
#= x
b = { -foo }
foo = x
#---
-foo = y
#left term "foo"
#===
a = { foo }
#= {foo}
#! Unknown message: foo
b = { -foo }
#= y
foo = x
#---
-foo = y
#left term "foo"
#--- overriding
-foo = y
