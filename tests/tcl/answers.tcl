# Answers calls on texts as tclsh does, a line each. A call is a verb and words (texts.tcl).
#
#   list TEXT              ok and the elements, parted by bars, or error and its message
#   glob PATTERN TEXT      1 or 0
#   script TEXT            the same of the words of each command that ran, parted by tabs, or error and its message
#   expr TEXT              error and its message where the text is no expression, else ok
#   expr TEXT OTHER        same where both texts have one value, or one error that no syntax is, else what they have
#   value WORD...          ok and the result, or error and its message

source [file join [file dirname [info script]] texts.tcl]

proc all_shown {texts} {
    join [lmap text $texts {shown $text}] |
}

proc answer_list {text} {
    if {[catch {llength $text} n]} {
        return "error [shown $n]"
    }
    set elements {}
    for {set i 0} {$i < $n} {incr i} {
        lappend elements [lindex $text $i]
    }
    return "ok [all_shown $elements]"
}

# every command of a generated script has a name that is none of Tcl's, so this records it
proc record {args} {
    lappend ::commands [all_shown $args]
    return ""
}

proc answer_script {text} {
    set ::commands {}
    if {[catch {interp eval words $text} message]} {
        return "error [shown $message]"
    }
    return "ok [join $::commands \t]"
}

# the messages of tclsh for texts that are no expressions
proc is_syntax {message} {
    regexp {^(missing operand|missing operator|unbalanced|unexpected|invalid character|invalid bareword|incomplete|empty expression|empty subexpression|syntax error|missing close|missing \"|unknown math|extra|variable name)} $message
}

proc valued {text} {
    if {[catch {expr $text} value]} {
        if {[is_syntax $value]} {
            return "error [shown $value]"
        }
        return "raised [shown $value]"
    }
    return "value [shown $value]"
}

proc answer_expr {texts} {
    set first [valued [lindex $texts 0]]
    if {[llength $texts] == 1} {
        return [expr {[string match error* $first] ? $first : "ok $first"}]
    }
    set second [valued [lindex $texts 1]]
    if {$first eq $second && ![string match error* $first]} {
        return same
    }
    return "first $first second $second"
}

interp create words
interp eval words {
    rename unknown {}
    foreach name [info commands] {
        if {$name ni {rename foreach if info}} {
            rename $name {}
        }
    }
    foreach name {foreach if info rename} {
        rename $name {}
    }
}
interp alias words unknown {} record

proc answer {verb texts} {
    switch -- $verb {
        list {answer_list [lindex $texts 0]}
        expr {answer_expr $texts}
        glob {string match [lindex $texts 0] [lindex $texts 1]}
        script {answer_script [lindex $texts 0]}
        value {
            if {[catch $texts result]} {
                return "error [shown $result]"
            }
            return "ok [shown $result]"
        }
        default {return "no verb $verb"}
    }
}

while {[gets stdin line] >= 0} {
    set words [split $line " "]
    puts [answer [lindex $words 0] [lmap word [lrange $words 1 end] {meant $word}]]
}
