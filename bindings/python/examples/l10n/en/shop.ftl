-brand = Corner Shop
hello = Welcome to { -brand }, { $name }!
today = It is { DATETIME($now, dateStyle: "full") }.
basket = You have { $count ->
    [0] nothing
    [one] one thing
   *[other] { $count } things
 } in your basket, for { $total }.
tax = { NUMBER($tax, style: "percent", minimumFractionDigits: 1) } of it is tax.
picture = Your picture has { FILESIZE($bytes) }.
return = Bring back what you don't like within { $days } days.
