# Evaluates scripts as real Tcl does: one a line on standard input, in hexadecimal digits. Each runs in an interpreter of its own,
# in which the commands of a host are stubs, and so is what the profile refuses: `__halt NUMBER TEXT` ends the evaluation as nothing
# catches it. `__count` stands in front of each command, and at the beginning of the body of each loop; `__line` in front of those of
# the file itself says their line.
#
# An answer is a line: `ok RESULT COUNT` or `err NUMBER TEXT LINE`, then `v NAME VALUE...` with the global variables, `m TEXT...`
# with the messages, `r WORDS...` with the records, each a list of words in digits joined by commas, and `q` with 1 or 0: whether
# the script asked, by the command `mode` or by reading the environment.
proc word {digits} {
    if {$digits eq "-"} { return "" }
    return [encoding convertfrom utf-8 [binary format H* $digits]]
}
proc digits {text} {
    if {$text eq ""} { return "-" }
    binary scan [encoding convertto utf-8 $text] H* shown
    return $shown
}
proc halt {child number text} {
    if {$::halted eq ""} { set ::halted [list $number $text] }
    # past a limit on commands an interpreter's errors aren't caught in it
    interp limit $child commands -value 1
    return -code error halted
}
proc say {args} {
    if {[lindex $args 0] eq "-nonewline"} {
        lappend ::messages [lindex $args 2]
    } else {
        lappend ::messages "[lindex $args 1]\n"
    }
    return ""
}
proc record {args} {
    set shown {}
    foreach word [linsert $args 0 setenv] { lappend shown [digits $word] }
    lappend ::records [join $shown ,]
    return ""
}
proc mode {} { asked; return load }
proc asked {args} { set ::asked 1 }
proc none {name args} { return -code error "invalid command name \"$name\"" }

proc made {} {
    set child [interp create]
    foreach {name target} {setenv record puts say mode mode unknown none} {
        $child alias $name $target
    }
    $child alias __halt halt $child
    $child alias __asked asked
    $child eval {
        unset -nocomplain ::env
        array set ::env {HOME /home/p EMPTY {} N 12}
        trace add variable ::env read __asked
        proc __main {script} { set ::__code [catch {uplevel #0 $script} ::__result] }
        set __steps 0
        set __place 1
        proc __count {} { incr ::__steps }
        proc __line {line} { set ::__place $line }
    }
    return $child
}

proc evaluated {script} {
    set ::halted ""
    set ::messages {}
    set ::records {}
    set ::asked 0
    set child [made]
    set before [$child eval {info globals}]
    interp limit $child time -seconds [expr {[clock seconds] + 10}]
    set failed [catch {$child eval [list __main $script]}]
    if {$::halted ne ""} {
        lassign $::halted number text
        set answer "err $number [digits $text] 0 v"
    } elseif {$failed} {
        set answer "err 0 - 0 v"
    } else {
        set answer [ended $child $before]
    }
    interp delete $child
    append answer " m"
    foreach message $::messages { append answer " [digits $message]" }
    append answer " r"
    foreach record $::records { append answer " $record" }
    append answer " q $::asked"
    return $answer
}

proc ended {child before} {
    set count [$child eval {set ::__steps}]
    set result [digits [$child eval {set ::__result}]]
    switch [$child eval {set ::__code}] {
        0 - 2 { set answer "ok $result $count" }
        3 { return "err 20 [digits {Stopped by the modulefile}] 0 v" }
        4 { set answer "ok - $count" }
        1 {
            return "err 13 $result [$child eval {set ::__place}] v"
        }
    }
    append answer " v"
    foreach name [lsort [$child eval {info globals}]] {
        if {$name in $before || [string match __* $name] || $name in {errorInfo errorCode}} { continue }
        append answer " [digits $name] [digits [$child eval [list set ::$name]]]"
    }
    return $answer
}

fconfigure stdin -encoding binary
fconfigure stdout -encoding binary
while {[gets stdin line] >= 0} { puts [evaluated [word $line]] }
