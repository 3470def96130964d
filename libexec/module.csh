# What the aliases `module` and `ml` do in csh and tcsh. What a word means, and all that follows from it, is the program's. It
# writes a text to evaluate to its standard output, messages to standard error, and with status 110 nothing: there is a report,
# which init/pager shows, since these shells can't hand on their own standard output. A colon tells it that a function asks.
# The shell that runs it puts in the words, and the double quotes keep each blank of its text. The whole text is captured, and
# evaluated only where the program accepted. With backslash_quote no quoted text is read as it is written.

# The arguments of this file are the name of the shell and then the words. Each command more is some twenty calls of the system.
if ( $?tcsh ) then
    if ( $?backslash_quote ) then
        set _module_backslash_quote
        unset backslash_quote
    endif
    set _module_text = ( "`"'"@prefix@/libexec/module" $argv[1]":" $argv[2-]:q'"`" )
    set argv = ( $status $argv:q )
    if ( $argv[1] == 0 ) eval "$_module_text"
    unset _module_text
    if ( $?_module_backslash_quote ) then
        set backslash_quote
        unset _module_backslash_quote
    endif
    if ( $argv[1] != 110 ) exit ( $argv[1] )
    "@prefix@/init/pager" $argv[2-]:q
    # (An alias of the user's would be taken at the front of a line.)
    if ( 1 ) exit ( $status )
endif

# BSD csh has no arguments for a file, and there they stand in _module_words.
set _module_text = ( "`"'"@prefix@/libexec/module" $_module_words[1]":" $_module_words[2-]:q'"`" )
set _module_status = $status
if ( $_module_status == 0 ) eval "$_module_text"
if ( $_module_status == 110 ) then
    "@prefix@/init/pager" $_module_words:q
    set _module_status = $status
endif
eval "unset _module_words _module_text _module_status ; set status = $_module_status"
