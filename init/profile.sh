# For /etc/profile.d: sources the init file of the shell that reads it. A link to this file will do.
# shellcheck shell=sh
#
# Another shell may have exported its version: what only that shell can read is tried in a subshell.
_module_shell='sh'
case ${BASH_VERSION:+bash} in
    bash) (eval ': "${BASH_VERSINFO[1]?}"') 2> /dev/null && _module_shell='bash' ;;
esac
case ${ZSH_VERSION:+zsh} in
    zsh) (eval ': "${(t)ZSH_VERSION}"') 2> /dev/null && _module_shell='zsh' ;;
esac
case $_module_shell:${KSH_VERSION:+ksh} in
    bash:*)
        unset _module_shell
        # shellcheck source=init/bash
        . '@prefix@/init/bash'
        ;;
    zsh:*)
        unset _module_shell
        # shellcheck source=/dev/null
        . '@prefix@/init/zsh'
        ;;
    *:ksh)
        unset _module_shell
        # shellcheck source=/dev/null
        . '@prefix@/init/ksh'
        ;;
    *)
        unset _module_shell
        # shellcheck source=init/sh
        . '@prefix@/init/sh'
        ;;
esac
