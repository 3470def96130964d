#!/bin/sh
# Installs modulecmd below a prefix, or takes it away again:
#
#   ./install.sh [PREFIX]               PREFIX is /opt/modulecmd where none is named
#   ./install.sh --uninstall [PREFIX]
#
# It needs a POSIX shell and the utilities of POSIX. A site's own etc/modulespath stays. DESTDIR, where it is set, is put
# in front of the prefix. An install that fails leaves what stood there as it was.
set -eu

action=install
case ${1-} in
    --uninstall)
        action=uninstall
        shift
        ;;
    -*)
        sed -n '2,8s/^# \{0,1\}//p' "$0" >&2
        exit 2
        ;;
esac
if test $# -gt 1; then
    echo "install.sh takes one PREFIX" >&2
    exit 2
fi
prefix=${1-/opt/modulecmd}
here=$(dirname -- "$0")
if test "$action" = uninstall; then
    exec sh "$here/tools/product.sh" uninstall "${DESTDIR-}" "$prefix"
fi
bin=$here/bin
sh "$here/tools/product.sh" install "${DESTDIR-}" "$prefix" "$bin/modulecmd" "$bin/module"

# Prints the commands that load a module and unload it again, for an init file: `works` is printed where all is well.
commands() {
    case $1 in
        *csh)
            cat << 'END'
source "$INSTALLED"
module load installed
if ( $?MODULE_INSTALLED ) then
    module unload installed
    if ( $status == 0 && ! $?MODULE_INSTALLED && ! $?LOADEDMODULES ) echo works
endif
END
            ;;
        fish)
            cat << 'END'
source "$INSTALLED"
module load installed; and set -q MODULE_INSTALLED; and module unload installed
and not set -q MODULE_INSTALLED; and not set -q LOADEDMODULES; and echo works
END
            ;;
        *)
            cat << 'END'
. "$INSTALLED"
module load installed && test -n "$MODULE_INSTALLED" && module unload installed &&
    test -z "${MODULE_INSTALLED+set}${LOADEDMODULES+set}" && echo works
END
            ;;
    esac
}

# Loads and unloads a module in a shell, where it is there: try_shell NAME COMMAND...
try_shell() {
    name=$1
    shift
    command -v "$1" > /dev/null || return 0
    commands "$name" > "$scratch/commands"
    said=$(env -i PATH="$PATH" HOME="$scratch" MODULEPATH="$scratch/modulefiles" INSTALLED="$prefix/init/$name" \
        "$@" "$scratch/commands" 2>&1) || true
    if test "$said" = works; then
        tried="$tried $1"
    else
        failed="$failed $1"
        printf '%s\n' "$1 with $prefix/init/$name: a load and an unload went wrong. $said" >&2
    fi
}

# Nothing stands at the prefix where files are only laid out for a package.
tried='' failed=''
scratch=${TMPDIR:-/tmp}/modulecmd.$$
if test -z "${DESTDIR-}" && (umask 077 && mkdir -- "$scratch"); then
    trap 'rm -rf -- "$scratch"' EXIT
    trap 'exit 1' HUP INT PIPE TERM
    mkdir -- "$scratch/modulefiles"
    printf '%s\n' '#%Module' 'setenv MODULE_INSTALLED yes' > "$scratch/modulefiles/installed"
    try_shell sh sh
    try_shell sh dash
    try_shell bash bash --norc
    try_shell ksh ksh
    try_shell ksh ksh93
    try_shell ksh mksh
    try_shell zsh zsh -f
    try_shell csh csh -f
    try_shell tcsh tcsh -f
    try_shell fish fish --no-config
    echo "a module is loaded and unloaded in:$tried"
    test -z "$failed" || exit 1
fi

cat << END
What start-up files take it up (as root; where a folder isn't there, that shell isn't either):
  ln -s '$prefix/init/profile.sh' /etc/profile.d/modulecmd.sh      # sh, bash, ksh
  ln -s '$prefix/init/profile.csh' /etc/profile.d/modulecmd.csh    # csh, tcsh (Debian: in /etc/csh/cshrc.d)
  ln -s '$prefix/init/fish' /etc/fish/conf.d/modulecmd.fish        # fish
  echo ". '$prefix/init/zsh'" >> /etc/zshrc                        # zsh (Debian: /etc/zsh/zshrc)
  echo ". '$prefix/init/bash'" >> /etc/bash.bashrc                 # Debian: bash without login
To try it now in this shell, with the modulefiles of the example:
  . '$prefix/init/sh'                              # csh, tcsh: source '$prefix/init/csh'; fish: source '$prefix/init/fish'
  module use '$prefix/share/examples'
  module avail
END
