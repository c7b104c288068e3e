-brand = { $case ->
    [genitive] Sklepiku
   *[nominative] Sklepik
 }
hello = Witamy w progach { -brand(case: "genitive") }, { $name }!
today = Dziś jest { DATETIME($now, dateStyle: "full") }.
basket = Masz { $count ->
    [0] pusty koszyk
    [one] jedną rzecz w koszyku
    [few] { $count } rzeczy w koszyku
   *[many] { $count } rzeczy w koszyku
 }, razem { $total }.
tax = W tym { NUMBER($tax, style: "percent", minimumFractionDigits: 1) } podatku.
picture = Twoje zdjęcie ma { FILESIZE($bytes) }.
