# The texts that the others are made from.
-brand = Postbox
welcome = Welcome to { -brand }, { $name }.
    .title = Hello
unread = { $count ->
    [one] One letter
   *[other] { $count } letters
}
greeting = Hi, { $name }
