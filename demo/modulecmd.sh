#!/bin/sh
# Shows loads, a refusal, a switch and unloads by the program modulecmd alone, over the modulefiles beside this file: this
# shell evaluates what the program prints.
set -eu
# With it `cd` goes to folders elsewhere, and prints where.
unset CDPATH

PROGRAM=$1
MODULEPATH=$(cd "$(dirname "$0")" && pwd)/modulefiles
MANPATH=/usr/share/man
GREETING='good day'
export MODULEPATH MANPATH GREETING
unset LOADEDMODULES _LMFILES_ || true

# The variables that the modulefiles name, and what the program keeps.
show() {
    env | grep -E '^(MODULEPATH|MANPATH|INFOPATH|HELLO|GREETING|LOADEDMODULES|_LMFILES_|__MODULES_[A-Z_]*)=' | sort
}

# Runs the program, shows what it prints, and evaluates that if the status is 0.
run() {
    echo "\$ eval \"\$(modulecmd sh $*)\""
    if text=$("$PROGRAM" sh "$@" 2>&1); then
        printf '%s\n\n' "$text"
        eval "$text"
    else
        printf '%s\nrefused, with status 1\n\n' "$text"
    fi
}

before=$(show)
run load greet
run load hello greet
run unload hello
run switch hello/2.0
run purge
if [ "$(show)" = "$before" ]; then
    echo 'The environment is as before.'
else
    echo 'The environment has changed:'
    show
    exit 1
fi
