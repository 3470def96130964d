#!/bin/sh
# Lays out the product below a prefix, or takes it away:
#
#   tools/product.sh install DESTDIR PREFIX PROGRAM...
#   tools/product.sh try DESTDIR PREFIX PROGRAM...
#   tools/product.sh uninstall DESTDIR PREFIX
#
# `install` refuses a program of `make try`, of which nothing is proved; `try` takes it. PREFIX is where the product will
# stand, and is written into the files that name one another. DESTDIR (empty, or a directory) is put in front of it for
# whoever makes a package. A relative DESTDIR or PROGRAM begins where the caller stands. An install
# that fails leaves what stood there as it was.
set -eu
umask 022
# With it `cd` goes to folders elsewhere that are called as those here.
unset CDPATH

refuse() {
    printf '%s\n' "$*" >&2
    exit 1
}

if test $# -lt 3; then
    sed -n '2,6s/^# \{0,1\}//p' "$0" >&2
    exit 2
fi
action=$1
prefix=${3%/}
case $prefix in
    /*) ;;
    *) refuse "PREFIX has to be an absolute path, and isn't '/': $3" ;;
esac
case $prefix in
    *[]\'\"\`\\\$\!\|\&*?\[{}]* | *[[:cntrl:]]*)
        refuse "PREFIX holds a character that shells give a meaning also in quotes: $3"
        ;;
esac
start=$PWD
case $2 in
    '' | /*) top=$2$prefix ;;
    *) top=$start/$2$prefix ;;
esac
shift 3
cd -- "$(dirname -- "$0")/.."

# The files that are put in place with the prefix, and those that can be run.
files='init/sh init/bash init/ksh init/zsh init/csh init/tcsh init/fish init/profile.sh
    init/profile.csh init/python.py libexec/module.csh libexec/ml.csh
    completion/bash completion/_module completion/fish completion/tcsh
    share/man/man1/module.1 share/man/man1/modcheck.1 share/man/man1/modaudit.1 share/man/man1/modport.1
    share/man/man5/modulefile.5
    share/doc/USERS.md share/doc/SITES.md etc/modulespath.example'
examples='clang/17 gcc/13.2.0 greeting/1 hdf5/1.14 openmpi/4.1.6 plugins/2.3 profile/1 python/3.11.6 solver/2024
    toolbox/5.0 workdir/1'
for file in $examples; do
    files="$files share/examples/$file"
done
runs='init/pager'
programs='bin/modulecmd libexec/module'
# Other names of the program `module`, by which it is another one.
aliases='bin/modcheck bin/modaudit bin/modport'
folders='bin init libexec completion etc share/man/man1 share/man/man5 share/man share/doc'
for file in $examples; do
    folders="$folders share/examples/${file%/*}"
done
folders="$folders share/examples share"

# Refuses a program in which the line stands that tools/try_out.py puts there.
refuse_unproved() {
    if test -n "$(LC_ALL=C sed -n '/^Nothing of this program is proved\.$/{p;q;}' "$1")"; then
        refuse "Nothing is installed: $1 is of \`make try\`, and nothing of it is proved. \`make build\` makes one that is."
    fi
}

# The folders that an install has made, inner ones first, and the files that it has begun, a line each.
new_folders=
new_files=

# Takes away what an install that fails has made.
take_back() {
    printf '%s' "$new_files" | while IFS= read -r file; do
        rm -f -- "$file.new"
    done
    printf '%s' "$new_folders" | while IFS= read -r folder; do
        rmdir -- "$folder"
    done
}

make_folder() {
    if test ! -d "$1"; then
        make_folder "$(dirname -- "$1")"
        mkdir -- "$1"
        new_folders="$1
$new_folders"
    fi
}

# Makes a file beside its place, of what a command prints: make_file MODE FILE COMMAND...
make_file() {
    mode=$1 place=$2
    shift 2
    test ! -d "$place" || refuse "Nothing is installed: a folder is in the place of $place"
    new_files="$new_files$place
"
    { "$@" > "$place.new" && chmod "$mode" "$place.new"; } || refuse "Nothing is installed: $place can't be made"
}

# Prints the text of a file, with what stands in the place of each mark.
fill() {
    name=${1##*/} zsh='/# zsh: /d' print=
    case $1 in
        init/ksh)
            # mksh has no `printf`.
            print="s/unset -f printf/unset -f print/;s/printf '%s.n' \"\$2\"/print -r -- \"\$2\"/"
            set -- init/sh
            ;;
        init/bash) set -- init/sh init/bash ;;
        init/zsh)
            zsh='s/# zsh: //'
            set -- init/sh init/zsh
            ;;
        init/tcsh) set -- init/csh init/tcsh ;;
        share/man/*)
            sed -e "s|PREFIX|$prefix|g" -e "s|@prefix@|$prefix|g" -e "s|^\.Os\$|.Os modulecmd $version|" -- "man/$name"
            return
            ;;
        share/doc/*)
            sed -e "s|/opt/modulecmd|$prefix|g" -- "docs/$name"
            return
            ;;
        share/examples/*)
            cat -- "tests/sites/examples/${1#share/examples/}"
            return
            ;;
        etc/modulespath.example) set -- etc/modulespath ;;
    esac
    sed -e "$zsh" -e "$print" -e "s|@prefix@|$prefix|g" -e "s|@shell@|$name|g" -- "$@"
}

make_files() {
    version=$(cat VERSION)
    for folder in $folders; do
        make_folder "$top/$folder"
    done
    for file in $files; do
        make_file 644 "$top/$file" fill "$file"
    done
    for file in $runs; do
        make_file 755 "$top/$file" fill "$file"
    done
    # The site's own file stays.
    if test ! -e "$top/etc/modulespath" && test ! -L "$top/etc/modulespath"; then
        make_file 644 "$top/etc/modulespath" fill etc/modulespath
    fi
}

# Makes a program where it stands among those of the product: by its name it is in one of their folders.
make_program() {
    folder=bin
    case " $programs " in
        *" libexec/${1##*/} "*) folder=libexec ;;
    esac
    case $1 in
        /*) program=$1 ;;
        *) program=$start/$1 ;;
    esac
    test "$action" = try || test ! -f "$program" || refuse_unproved "$program"
    make_file 755 "$top/$folder/${1##*/}" cat "$program"
    if test "${1##*/}" = module; then
        for file in $aliases; do
            make_link ../libexec/module "$top/$file"
        done
    fi
}

# Makes a link beside its place: make_link TARGET PLACE.
make_link() {
    test ! -d "$2" || refuse "Nothing is installed: a folder is in the place of $2"
    new_files="$new_files$2
"
    rm -f -- "$2.new"
    ln -s -- "$1" "$2.new" || refuse "Nothing is installed: $2 can't be made"
}

# Each file is put in place whole: shells of users may read the one that was there.
place_files() {
    printf '%s' "$new_files" | while IFS= read -r file; do
        mv -f -- "$file.new" "$file"
    done
}

case $action in
    install | try)
        trap take_back EXIT
        trap 'exit 1' HUP INT TERM
        make_files
        for program in "$@"; do
            make_program "$program"
        done
        place_files
        trap - EXIT
        echo "installed below $top"
        ;;
    uninstall)
        if cmp -s "$top/etc/modulespath" "$top/etc/modulespath.example"; then
            rm -f "$top/etc/modulespath"
        fi
        for file in $programs $aliases $runs $files; do
            rm -f "$top/$file"
        done
        for folder in $folders; do
            rmdir "$top/$folder" 2> /dev/null || true
        done
        rmdir "$top" 2> /dev/null || true
        ;;
    *) refuse "product.sh neither installs nor uninstalls by '$action'" ;;
esac
