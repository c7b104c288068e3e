## A message and a term with one value are one pattern on a path.
a = { $n ->
    [1] x
   *[other] { -t(n: 1) }
}
#= n=1 | x
#= n=2 | {-t}
#! Cyclical dependency detected
-t = { $n ->
    [1] x
   *[other] { -t(n: 1) }
}
