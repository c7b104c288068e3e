## A path of twelve patterns.
m1 = 1{ m2 }
#= 1234567891011{m2} and {m10} and {m12}
#! Cyclical dependency detected
#! Cyclical dependency detected
#! Cyclical dependency detected
m2 = 2{ m3 }
m3 = 3{ m4 }
m4 = 4{ m5 }
m5 = 5{ m6 }
m6 = 6{ m7 }
m7 = 7{ m8 }
m8 = 8{ m9 }
m9 = 9{ m10 }
m10 = 10{ m11 }
m11 = 11{ m12 }
m12 = { m2 } and { m10 } and { m12 }
back = { m11 }, { m12 }
#= 112345678910{m11} and 10{m11} and {m12}, 234567891011{m12} and 1011{m12} and {m12}
#! Cyclical dependency detected
#! Cyclical dependency detected
#! Cyclical dependency detected
#! Cyclical dependency detected
#! Cyclical dependency detected
#! Cyclical dependency detected
