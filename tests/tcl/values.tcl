# Answers cases as real Tcl does: one a line on standard input, in words (texts.tcl).
# `b OP LEFT RIGHT` and `u OP OPERAND` are expressions, `c WORD...` is a command. Each answer is `ok WORD` or `err WORD`.
# `e WORD` answers with the elements of a list, as `list WORD...`.
source [file join [file dirname [info script]] texts.tcl]
while {[gets stdin line] >= 0} {
    set words {}
    foreach part [lrange [split $line " "] 1 end] { lappend words [meant $part] }
    switch -- [string index $line 0] {
        b {
            lassign $words op a b
            set failed [catch {expr "\$a $op \$b"} answer]
        }
        u {
            lassign $words op a
            set failed [catch {expr "$op\$a"} answer]
        }
        c { set failed [catch {{*}$words} answer] }
        e {
            set failed [catch {llength [lindex $words 0]} answer]
            if {!$failed} {
                puts -nonewline list
                foreach element [lindex $words 0] { puts -nonewline " [shown $element]" }
                puts ""
                continue
            }
        }
    }
    if {$failed} { puts "err [shown $answer]" } else { puts "ok [shown $answer]" }
}
