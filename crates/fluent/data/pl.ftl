-brand = Skrzynka
welcome = Witaj w { -brand }, { $nme }.
    .title = Cześć
unread = { $count ->
    [one] Jeden list
   *[other] { $count } listów
}
old = { stary }
