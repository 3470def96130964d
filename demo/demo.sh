#!/bin/sh
# Shows loads, a switch, a check, unloads and an audit over the modulefiles beside this file, in this shell, with the
# product that is installed below the directory that is named.
set -eu
# With it `cd` goes to folders elsewhere, and prints where.
unset CDPATH

PRODUCT=$(cd "$1" && pwd)
MODULEPATH=$(cd "$(dirname "$0")" && pwd)/modulefiles
MANPATH=/usr/share/man
GREETING='good day'
export MODULEPATH MANPATH GREETING
unset LOADEDMODULES _LMFILES_ || true

# What a login shell's profile would have.
# shellcheck source=init/sh
. "$PRODUCT/init/sh"

# The variables that the modulefiles name, and what the program keeps.
show() {
    echo "--- $1"
    env | grep -E '^(MODULEPATH|MANPATH|INFOPATH|HELLO|GREETING|LOADEDMODULES|_LMFILES_|__MODULES_[A-Z_]*)=' | sort
    echo
}

# Runs a command and shows it, with what it says.
run() {
    echo "\$ $*"
    "$@" 2>&1 || echo "refused, with status $?"
    echo
}

show 'before'
run module avail
run module show hello/2.0
run module load greet

echo '$ modulecmd sh load hello greet'
"$PRODUCT/bin/modulecmd" sh load hello greet
echo
run module load hello greet
show 'after module load hello greet'

run module unload hello
run module switch hello/2.0
run module list
show 'after module switch hello/2.0'

# What requests would do, and which modules can be undone. The status is 1, since a line is refused.
requests='unload greet hello
load hello/1.0
load nope'
echo '$ modcheck sh, with the lines'
printf '%s\n\n' "$requests"
printf '%s\n' "$requests" | "$PRODUCT/bin/modcheck" sh 2>&1 || true
echo

run module unload hello greet
show 'after module unload hello greet'

# Which of these modules are certified, and why the others aren't. The status is 1 where one isn't.
echo '$ modaudit'
"$PRODUCT/bin/modaudit" 2>&1 || true
