# For /etc/profile.d or, on Debian, /etc/csh/cshrc.d: sources the init file of the shell that reads it. A link to this
# file will do.
if ( $?tcsh ) then
    source "@prefix@/init/tcsh"
else
    source "@prefix@/init/csh"
endif
