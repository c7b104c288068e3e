## A term is added once more, with the content that it has.
a = { $n ->
    [1] x
   *[other] { -t(n: 1) }
}
#= n=2 | {-t}
#! Cyclical dependency detected
-t = { $n ->
    [1] x
   *[other] { -t(n: 1) }
}
#===
a = { $n ->
    [1] x
   *[other] { -t(n: 1) }
}
#= n=2 | {-t}
#! Cyclical dependency detected
-t = { $n ->
    [1] x
   *[other] { -t(n: 1) }
}
#--- overriding
-t = { $n ->
    [1] x
   *[other] { -t(n: 1) }
}
