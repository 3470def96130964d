#!/bin/sh
# Stands in for the program: answers the n-th command of a function by the files n.out, n.err and n.status of the folder
# $STAND_IN, and keeps the words of each command there. What isn't a function's is the program's, which lies beside it.
set -u
case ${1-} in
    *:*) ;;
    *) exec "$0.program" "$@" ;;
esac
number=$(/bin/cat "$STAND_IN/number")
number=$((number + 1))
printf '%s\0' "$@" > "$STAND_IN/$number.words"
# In one step, for whoever waits for it.
echo "$number" > "$STAND_IN/next"
/bin/mv "$STAND_IN/next" "$STAND_IN/number"
test ! -e "$STAND_IN/$number.err" || /bin/cat "$STAND_IN/$number.err" >&2
test ! -e "$STAND_IN/$number.out" || /bin/cat "$STAND_IN/$number.out"
status=0
test ! -e "$STAND_IN/$number.status" || status=$(/bin/cat "$STAND_IN/$number.status")
case $status,$1 in
    killed,*) kill -9 $$ ;;
    # As the program says it to a function of fish that hands its standard output on.
    1,fish:?*) exit 111 ;;
    *) exit "$status" ;;
esac
