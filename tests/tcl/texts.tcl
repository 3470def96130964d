# A text as a word of a line, as the programs of rows write it: with escapes, and `-` where it is empty.

set written [list "\\" "\\\\" "\n" "\\n" "\t" "\\t" "\r" "\\r" "\v" "\\v" "\f" "\\f" "|" "\\|" " " "\\s"]
set read [list "\\\\" "\\" "\\n" "\n" "\\t" "\t" "\\r" "\r" "\\v" "\v" "\\f" "\f" "\\|" "|" "\\s" " " "\\-" "-"]

proc shown {text} {
    switch -- $text {
        "" {return "-"}
        "-" {return "\\-"}
        default {string map $::written $text}
    }
}

proc meant {word} {
    if {$word eq "-"} {
        return ""
    }
    string map $::read $word
}

fconfigure stdin -translation lf -encoding utf-8
fconfigure stdout -translation lf -encoding utf-8
