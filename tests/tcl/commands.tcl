# Answers the rows `command` of crates/cases_tcl with the real commands: commands.tcl ROWS
set env(HOME) /home/user
unset -nocomplain env(NO_SUCH)
rename puts print
rename proc make
make mode {} {return load}
make setenv {args} {}
make conflict {args} {}
make puts {args} {}
make proc {name parameters body} {make $name $parameters $body}
make body {name} {info body $name}
make value {text} {uplevel 1 [list expr $text]}

make answer {row level} {
    if {[catch {uplevel $level $row} text]} {print "raised $text"} else {print "ok $text"}
}

make next_row {} {
    set row [lindex $::rows 0]
    set ::rows [lrange $::rows 1 end]
    return $row
}

# a procedure that runs, from `enter` to `leave`
make entered {} {
    while {[llength $::rows]} {
        set ::row [next_row]
        if {$::row eq "leave"} return
        if {$::row eq "enter"} {print "ok "; entered; print "ok "} else {answer $::row 1}
    }
}

set rows [split [string trimright [read [open [lindex $argv 0]]] \n] \n]
while {[llength $rows]} {
    set ::row [next_row]
    if {$::row eq "enter"} {print "ok "; entered; print "ok "} else {answer $::row #0}
}
