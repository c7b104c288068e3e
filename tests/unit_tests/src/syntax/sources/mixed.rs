//! Sources of many parts.
pub const ROWS: &[(&str, &str)] = &[
    (
        "rank = { NUMBER($n, type: \"ordinal\") ->\n [1] first\n [2] second\n [3] third\n [one] {$n}st\n [two] {$n}nd\n [few] {$n}rd\n *[other] {$n}th\n}\nconfirm-modal = Are you sure?\n    .confirm = Yes\n    .cancel = No\n    .tooltip = Closing the window will lose all unsaved data.",
        "rank=[{NUMBER($n,type:\"ordinal\",)->#1[(first)]#2[(second)]#3[(third)]one[{$n}(st)]two[{$n}(nd)]few[{$n}(rd)]*other[{$n}(th)]}] confirm-modal=[(Are you sure?)] .confirm=[(Yes)] .cancel=[(No)] .tooltip=[(Closing the window will lose all unsaved data.)]",
    ),
    (
        "# \u{e9}\r\n\u{feff}a = b\r\n-t =\r\n    x\u{1f602}\r\n\r\n      { $n }\r\n  y\r\n\r\n .at = { \"\\u00e9\" }\r\n? = }\r\n\nm = { -t(c: -1.5) } { F({ $b }, d.e) }\n#\n .x = y\nz = { { 1 } }",
        "!(\u{feff}a = b\r\n) -t=[(  x\u{1f602})(\n)(\n)(    ){$n}(\n)(y)] .at=[{\"\\u00e9\"}] !(? = }\r\n\n) m=[{-t(c:-1.5,)}( ){F({$b},d.e,)}] !( .x = y\n) z=[{{1}}] 6..16 77..85 126..134",
    ),
];
