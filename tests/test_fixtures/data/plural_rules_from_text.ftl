## A select goes by the plural rules of the bundle.
#@ cardinal one: i = 1 and v = 0 @integer 1; few: v = 0 and i % 10 = 2..4 and i % 100 != 12..14; many: v = 0 and i != 1 and i % 10 = 0..1 or v = 0 and i % 10 = 5..9 or v = 0 and i % 100 = 12..14; other: @decimal 0.0
files = { $n ->
    [one] {$n} plik
    [few] {$n} pliki
    [many] {$n} plików
   *[other] {$n} pliku
}
#= n=1 | \u{2068}1\u{2069} plik
#= n=22 | \u{2068}22\u{2069} pliki
#= n=12 | \u{2068}12\u{2069} plików
#= n=5 | \u{2068}5\u{2069} plików
#= n=21 | \u{2068}21\u{2069} plików
#= n=1.5 | \u{2068}1.5\u{2069} pliku
#= n=1.0 | \u{2068}1.0\u{2069} pliku
