## A select and a dialog behind it, cut at each place; and what is left of some cuts.
## Until the select is closed, all is Junk. A line of the dialog that has its name begun and no text yet is Junk, a line feed or an indent alone is blank, and spaces at the end of a text are no part of it.
#@ cut
#===
rank = { NUMBER($n, type: "ordinal") ->
 [1] first
 [2] second
 [3] third
 [one] {$n}st
 [two] {$n}nd
 [few] {$n}rd
 *[other] {$n}th
}
confirm-modal = Are you sure?
    .confirm = Yes
    .cancel = No
    .tooltip = Closing the window will lose all unsaved data.
#end
#= rank n=22 | \u{2068}22\u{2069}nd
#= rank | \u{2068}{$n}\u{2069}th
#! Unknown variable: $n
#! Unknown variable: $n
#= confirm-modal n=22 | Are you sure?
#= confirm-modal | Are you sure?
#= confirm-modal.confirm n=22 | Yes
#= confirm-modal.confirm | Yes
#= confirm-modal.cancel n=22 | No
#= confirm-modal.cancel | No
#= confirm-modal.tooltip n=22 | Closing the window will lose all unsaved data.
#= confirm-modal.tooltip | Closing the window will lose all unsaved data.
#attributes confirm cancel tooltip
#===
#@ cut off
#===
r
#end
#junk 0..1
#absent rank
#absent confirm-modal
#===
rank = { NUMBER($n, type: "ordinal") 
#end
#junk 0..37
#absent rank
#absent confirm-modal
#===
rank = { NUMBER($n, type: "ordinal") ->
 [1] first
 [2] second
 [3] third
 [one] {$n}st
 [two] {$n}nd
 
#end
#junk 0..103
#absent rank
#absent confirm-modal
#===
rank = { NUMBER($n, type: "ordinal") ->
 [1] first
 [2] second
 [3] third
 [one] {$n}st
 [two] {$n}nd
 [few] {$n}rd
 *[other] {$n}th

#end
#junk 0..133
#absent rank
#absent confirm-modal
#===
rank = { NUMBER($n, type: "ordinal") ->
 [1] first
 [2] second
 [3] third
 [one] {$n}st
 [two] {$n}nd
 [few] {$n}rd
 *[other] {$n}th
}
#end
#= rank n=22 | \u{2068}22\u{2069}nd
#= rank | \u{2068}{$n}\u{2069}th
#! Unknown variable: $n
#! Unknown variable: $n
#absent confirm-modal
#===
rank = { NUMBER($n, type: "ordinal") ->
 [1] first
 [2] second
 [3] third
 [one] {$n}st
 [two] {$n}nd
 [few] {$n}rd
 *[other] {$n}th
}

#end
#= rank n=22 | \u{2068}22\u{2069}nd
#= rank | \u{2068}{$n}\u{2069}th
#! Unknown variable: $n
#! Unknown variable: $n
#absent confirm-modal
#===
rank = { NUMBER($n, type: "ordinal") ->
 [1] first
 [2] second
 [3] third
 [one] {$n}st
 [two] {$n}nd
 [few] {$n}rd
 *[other] {$n}th
}
c
#end
#junk 135..136
#= rank n=22 | \u{2068}22\u{2069}nd
#= rank | \u{2068}{$n}\u{2069}th
#! Unknown variable: $n
#! Unknown variable: $n
#absent confirm-modal
#===
rank = { NUMBER($n, type: "ordinal") ->
 [1] first
 [2] second
 [3] third
 [one] {$n}st
 [two] {$n}nd
 [few] {$n}rd
 *[other] {$n}th
}
confirm-modal
#end
#junk 135..148
#= rank n=22 | \u{2068}22\u{2069}nd
#= rank | \u{2068}{$n}\u{2069}th
#! Unknown variable: $n
#! Unknown variable: $n
#absent confirm-modal
#===
rank = { NUMBER($n, type: "ordinal") ->
 [1] first
 [2] second
 [3] third
 [one] {$n}st
 [two] {$n}nd
 [few] {$n}rd
 *[other] {$n}th
}
confirm-modal = 
#end
#junk 135..151
#= rank n=22 | \u{2068}22\u{2069}nd
#= rank | \u{2068}{$n}\u{2069}th
#! Unknown variable: $n
#! Unknown variable: $n
#absent confirm-modal
#===
rank = { NUMBER($n, type: "ordinal") ->
 [1] first
 [2] second
 [3] third
 [one] {$n}st
 [two] {$n}nd
 [few] {$n}rd
 *[other] {$n}th
}
confirm-modal = A
#end
#= rank n=22 | \u{2068}22\u{2069}nd
#= rank | \u{2068}{$n}\u{2069}th
#! Unknown variable: $n
#! Unknown variable: $n
#= confirm-modal n=22 | A
#= confirm-modal | A
#attributes
#===
rank = { NUMBER($n, type: "ordinal") ->
 [1] first
 [2] second
 [3] third
 [one] {$n}st
 [two] {$n}nd
 [few] {$n}rd
 *[other] {$n}th
}
confirm-modal = Are 
#end
#= rank n=22 | \u{2068}22\u{2069}nd
#= rank | \u{2068}{$n}\u{2069}th
#! Unknown variable: $n
#! Unknown variable: $n
#= confirm-modal n=22 | Are
#= confirm-modal | Are
#attributes
#===
rank = { NUMBER($n, type: "ordinal") ->
 [1] first
 [2] second
 [3] third
 [one] {$n}st
 [two] {$n}nd
 [few] {$n}rd
 *[other] {$n}th
}
confirm-modal = Are you sure?
#end
#= rank n=22 | \u{2068}22\u{2069}nd
#= rank | \u{2068}{$n}\u{2069}th
#! Unknown variable: $n
#! Unknown variable: $n
#= confirm-modal n=22 | Are you sure?
#= confirm-modal | Are you sure?
#attributes
#===
rank = { NUMBER($n, type: "ordinal") ->
 [1] first
 [2] second
 [3] third
 [one] {$n}st
 [two] {$n}nd
 [few] {$n}rd
 *[other] {$n}th
}
confirm-modal = Are you sure?

#end
#= rank n=22 | \u{2068}22\u{2069}nd
#= rank | \u{2068}{$n}\u{2069}th
#! Unknown variable: $n
#! Unknown variable: $n
#= confirm-modal n=22 | Are you sure?
#= confirm-modal | Are you sure?
#attributes
#===
rank = { NUMBER($n, type: "ordinal") ->
 [1] first
 [2] second
 [3] third
 [one] {$n}st
 [two] {$n}nd
 [few] {$n}rd
 *[other] {$n}th
}
confirm-modal = Are you sure?
    
#end
#= rank n=22 | \u{2068}22\u{2069}nd
#= rank | \u{2068}{$n}\u{2069}th
#! Unknown variable: $n
#! Unknown variable: $n
#= confirm-modal n=22 | Are you sure?
#= confirm-modal | Are you sure?
#attributes
#===
rank = { NUMBER($n, type: "ordinal") ->
 [1] first
 [2] second
 [3] third
 [one] {$n}st
 [two] {$n}nd
 [few] {$n}rd
 *[other] {$n}th
}
confirm-modal = Are you sure?
    .
#end
#junk 165..170
#= rank n=22 | \u{2068}22\u{2069}nd
#= rank | \u{2068}{$n}\u{2069}th
#! Unknown variable: $n
#! Unknown variable: $n
#= confirm-modal n=22 | Are you sure?
#= confirm-modal | Are you sure?
#attributes
#===
rank = { NUMBER($n, type: "ordinal") ->
 [1] first
 [2] second
 [3] third
 [one] {$n}st
 [two] {$n}nd
 [few] {$n}rd
 *[other] {$n}th
}
confirm-modal = Are you sure?
    .confirm = 
#end
#junk 165..180
#= rank n=22 | \u{2068}22\u{2069}nd
#= rank | \u{2068}{$n}\u{2069}th
#! Unknown variable: $n
#! Unknown variable: $n
#= confirm-modal n=22 | Are you sure?
#= confirm-modal | Are you sure?
#attributes
#===
rank = { NUMBER($n, type: "ordinal") ->
 [1] first
 [2] second
 [3] third
 [one] {$n}st
 [two] {$n}nd
 [few] {$n}rd
 *[other] {$n}th
}
confirm-modal = Are you sure?
    .confirm = Ye
#end
#= rank n=22 | \u{2068}22\u{2069}nd
#= rank | \u{2068}{$n}\u{2069}th
#! Unknown variable: $n
#! Unknown variable: $n
#= confirm-modal n=22 | Are you sure?
#= confirm-modal | Are you sure?
#= confirm-modal.confirm n=22 | Ye
#= confirm-modal.confirm | Ye
#attributes confirm
#===
rank = { NUMBER($n, type: "ordinal") ->
 [1] first
 [2] second
 [3] third
 [one] {$n}st
 [two] {$n}nd
 [few] {$n}rd
 *[other] {$n}th
}
confirm-modal = Are you sure?
    .confirm = Yes
    .cancel = No
    
#end
#= rank n=22 | \u{2068}22\u{2069}nd
#= rank | \u{2068}{$n}\u{2069}th
#! Unknown variable: $n
#! Unknown variable: $n
#= confirm-modal n=22 | Are you sure?
#= confirm-modal | Are you sure?
#= confirm-modal.confirm n=22 | Yes
#= confirm-modal.confirm | Yes
#= confirm-modal.cancel n=22 | No
#= confirm-modal.cancel | No
#attributes confirm cancel
#===
rank = { NUMBER($n, type: "ordinal") ->
 [1] first
 [2] second
 [3] third
 [one] {$n}st
 [two] {$n}nd
 [few] {$n}rd
 *[other] {$n}th
}
confirm-modal = Are you sure?
    .confirm = Yes
    .cancel = No
    .tooltip =
#end
#junk 201..215
#= rank n=22 | \u{2068}22\u{2069}nd
#= rank | \u{2068}{$n}\u{2069}th
#! Unknown variable: $n
#! Unknown variable: $n
#= confirm-modal n=22 | Are you sure?
#= confirm-modal | Are you sure?
#= confirm-modal.confirm n=22 | Yes
#= confirm-modal.confirm | Yes
#= confirm-modal.cancel n=22 | No
#= confirm-modal.cancel | No
#attributes confirm cancel
#===
rank = { NUMBER($n, type: "ordinal") ->
 [1] first
 [2] second
 [3] third
 [one] {$n}st
 [two] {$n}nd
 [few] {$n}rd
 *[other] {$n}th
}
confirm-modal = Are you sure?
    .confirm = Yes
    .cancel = No
    .tooltip = Closing 
#end
#= rank n=22 | \u{2068}22\u{2069}nd
#= rank | \u{2068}{$n}\u{2069}th
#! Unknown variable: $n
#! Unknown variable: $n
#= confirm-modal n=22 | Are you sure?
#= confirm-modal | Are you sure?
#= confirm-modal.confirm n=22 | Yes
#= confirm-modal.confirm | Yes
#= confirm-modal.cancel n=22 | No
#= confirm-modal.cancel | No
#= confirm-modal.tooltip n=22 | Closing
#= confirm-modal.tooltip | Closing
#attributes confirm cancel tooltip
