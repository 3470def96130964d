#!/bin/sh
# Installs, by apt-get, what the unproved programs (`try`), the short tests (`smoke`), the static link (`build`), the
# example (`demo`), the packages (`package`), the tests (`test`) or the measurements (`bench`) need, where it is missing, and
# says so. Without a word: what all of them need.
set -eu
# With it `cd` goes to folders elsewhere that are called as those here.
unset CDPATH
cd -- "$(dirname -- "$0")/.."

# Notes a package where none of its commands or files is there.
need() {
    package=$1
    shift
    for command in "$@"; do
        if command -v "$command" > /dev/null 2>&1 || test -f "$command"; then
            return 0
        fi
    done
    case "$missing " in
        *" $package "*) ;;
        *) missing="$missing $package" ;;
    esac
}

need_for() {
    case $1 in
        try)
            need python3 python3
            ;;
        smoke)
            need_for try
            need gcc cc
            need python3-pytest /usr/lib/python3/dist-packages/pytest/__init__.py
            need python3-hypothesis /usr/lib/python3/dist-packages/hypothesis/__init__.py
            need bash bash
            ;;
        build)
            need_for try
            need gcc cc
            need libc6-dev /usr/lib/*/libc.a /usr/lib64/libc.a
            ;;
        demo)
            need_for build
            ;;
        package)
            need_for build
            need binutils strip
            need dpkg dpkg-deb
            need rpm rpmbuild
            ;;
        test)
            need_for package
            # What runs the suites of tests/.
            need python3-pytest /usr/lib/python3/dist-packages/pytest/__init__.py
            need python3-hypothesis /usr/lib/python3/dist-packages/hypothesis/__init__.py
            need dash dash
            need bash bash
            need ksh93u+m ksh93
            need mksh mksh
            need zsh zsh
            need tcsh tcsh
            need csh bsd-csh
            need less less
            # What the function adds is tried beside it.
            if test ! -e /usr/share/modules/init/sh && test ! -e build/bench/environment-modules; then
                unpacked=environment-modules
            fi
            need fish fish
            # Other awks than the machine's, and one more shell.
            need gawk gawk
            need busybox busybox
            need mandoc mandoc
            need valgrind valgrind
            need strace strace
            need shellcheck shellcheck
            need rpmlint rpmlint
            need tcl tclsh
            ;;
        bench)
            need_for build
            need valgrind valgrind
            need strace strace
            need tcsh tcsh
            need less less
            need rustc rustc
            need tcl tclsh
            need lua5.3 lua5.3
            need lua-posix /usr/share/lua/5.3/posix/init.lua
            need lua-filesystem /usr/lib/*/lua/5.3/lfs.so
            need lua-json /usr/share/lua/5.3/json.lua
            need lua-term /usr/share/lua/5.3/term/init.lua
            # These two conflict: what isn't installed is unpacked beside.
            if test -e /usr/share/lmod; then
                unpacked=environment-modules
            else
                need environment-modules /usr/share/modules/init/sh
                unpacked=lmod
            fi
            if test -e "build/bench/$unpacked"; then
                unpacked=
            fi
            ;;
        *)
            echo "deps.sh: $1 is none of try, smoke, build, demo, package, test, bench" >&2
            exit 2
            ;;
    esac
}

missing=
unpacked=
for part in "${@:-all}"; do
    if test "$part" = all; then
        need_for test
        need_for bench
    else
        need_for "$part"
    fi
done
if test -z "$missing$unpacked"; then
    exit 0
fi
if ! command -v apt-get > /dev/null 2>&1 || test "$(id -u)" != 0; then
    echo "missing, and not installed (no apt-get, or not root):$missing $unpacked" >&2
    exit 0
fi
test -z "$missing" || echo "missing, and installed now by apt-get:$missing"
test -z "$unpacked" || echo "missing, and unpacked now below build/bench:$unpacked"
awk=$(readlink -f "$(command -v awk)") || true
apt-get update > /dev/null 2>&1 || true
for package in $missing; do
    apt-get install -y --no-install-recommends "$package" > /dev/null 2>&1 \
        || echo "apt-get has no $package" >&2
done
# gawk makes itself the machine's awk.
case $missing in
    *gawk*) test -z "$awk" || update-alternatives --set awk "$awk" > /dev/null 2>&1 || echo "gawk is awk now" >&2 ;;
esac
if test -n "$unpacked"; then
    mkdir -p build/bench/packages
    (cd build/bench/packages && apt-get download "$unpacked" > /dev/null 2>&1 && dpkg -x "$unpacked"_*.deb "../$unpacked") \
        || echo "apt-get has no $unpacked" >&2
    # The gate refuses links below this folder, and none of these is needed.
    if test "$unpacked" = environment-modules; then
        find build/bench/environment-modules -type l -delete
    fi
fi
