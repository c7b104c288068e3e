## A source that overrides wins over what is there, also over a function.
#@ builtins off
#@ function NUMBER = none
foo = a
bar = b
term = { -foo }
message = { foo }
#--- overriding
foo = d
#absent foo
-foo = c
NUMBER = e
#= e
#= bar | b
#= term | c
#= message | {foo}
#! Unknown message: foo
