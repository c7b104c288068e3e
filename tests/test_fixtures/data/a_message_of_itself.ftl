## A message that refers to itself.
foo = { foo }
#= {foo}
#! Cyclical dependency detected
