## Terms and references, cut at each place.
#@ function FIRST = first
#@ function NAMED = named
#@ cut
#===
plain = Hello, world!
-brand = Firefox
    .gender = masculine
    .form = { $case ->
        [genitive] gen
       *[other] nom
    }
-site = { $where } by { -brand }
bare =
    .title = Only attributes
    .label =
        Over
          two lines
welcome = Hi, { $name }, from { -brand }!
    .aria = Close { -brand }
references = { plain } { bare.title } { -site(where: "home") } { none } { many.none } { -none }
his = { -brand.gender ->
    [feminine] her
   *[masculine] his
}
of = { -brand.form(case: "genitive") ->
    [gen] of
   *[nom] by
}

#end
#= welcome.aria | Close Firefox
#= welcome.aria name=Anna n=22 case=genitive | Close Firefox
#= references | Hello, world! Only attributes \u{2068}home\u{2069} by Firefox {none} {many.none} {-none}
#! Unknown message: none
#! Unknown attribute: many.none
#! Unknown term: -none
#= references name=Anna n=22 case=genitive | Hello, world! Only attributes \u{2068}home\u{2069} by Firefox {none} {many.none} {-none}
#! Unknown message: none
#! Unknown attribute: many.none
#! Unknown term: -none
#= his | his
#= his name=Anna n=22 case=genitive | his
#= of | of
#= of name=Anna n=22 case=genitive | of
#= welcome name=Anna n=22 case=genitive | Hi, \u{2068}Anna\u{2069}, from Firefox!
#= welcome | Hi, \u{2068}{$name}\u{2069}, from Firefox!
#! Unknown variable: $name
