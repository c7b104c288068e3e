## Messages around Junk, whose range is told.
hello = Hi
#= Hi
bye = Bye
#= Bye
#===
a = 1

# c
b = { $x
#end
#junk 11..19
#= a | 1
#absent b
