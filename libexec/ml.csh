# What the alias `ml` of an earlier version does in csh and tcsh: sessions that began with it go on. The name of the shell and
# then the words are as in module.csh.

if ( $?tcsh ) then
    set argv = ( $argv[1] ml $argv[2-]:q )
else
    set _module_words = ( $_module_words[1] ml $_module_words[2-]:q )
endif
source "@prefix@/libexec/module.csh"
