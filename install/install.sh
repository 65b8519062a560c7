#!/bin/sh
# What `make install` and `make uninstall` do, by the variables that make hands on: PREFIX, the folder in which all is to be found;
# LIBDIR, the libraries' folder within it; DESTDIR, what stands before PREFIX while a package is made; VERSION, the library's.
#
# PREFIX/share/bulhyemik/installed lists every file that was put there and, with a closing slash, every folder that was made for one.
# By this list uninstalling leaves no trace and takes nothing else away; PREFIX itself stays.
set -eu
umask 022
cd "$(dirname "$0")/.."
root=$DESTDIR$PREFIX
list=share/bulhyemik/installed
shared=libbulhyemik.so.${VERSION%%.*}

stop() {
    echo "make: $1" >&2
    exit 1
}

# note PATH: adds a path to the list, or keeps it until the list has its folder
kept=
note() {
    ! grep -qxF "$1" "$root/$list" 2> /dev/null || return 0
    kept="$kept$1
"
    if [ -d "$root/${list%/*}" ]; then
        printf %s "$kept" >> "$root/$list"
        kept=
    fi
}

# folder PATH: makes a folder within PREFIX, and those above it, where there is none
folder() {
    [ ! -d "$root/$1" ] || return 0
    case $1 in */*) folder "${1%/*}" ;; esac
    mkdir "$root/$1"
    note "$1/"
}

# put MODE FILE PATH: installs a file, which is listed before it is there
put() {
    folder "${3%/*}"
    note "$3"
    install -m "$1" "$2" "$root/$3"
}

# link PATH NAME: a second name for a file of the same folder
link() {
    note "$1"
    ln -sf "$2" "$root/$1"
}

# What pkg-config is told.
package() {
    cat << END
prefix=$PREFIX
includedir=\${prefix}/include
libdir=\${prefix}/$LIBDIR

Name: bulhyemik
Description: Shift grids for simulators, every answer a theorem
Version: $VERSION
Cflags: -I"\${includedir}"
Libs: -L"\${libdir}" -lbulhyemik
END
}

install_all() {
    [ "$(build/bulhyemik --version 2> /dev/null)" = "bulhyemik $VERSION" ] ||
        stop "version $VERSION is not built yet; run make first, with the toolchain in PATH"
    mkdir -p "$root" && [ -w "$root" ] || stop "$root can't be written; choose another PREFIX, or become a user who may write it"
    folder "${list%/*}"
    note "$list"
    put 755 build/bulhyemik bin/bulhyemik
    put 644 include/bulhyemik.h include/bulhyemik.h
    put 644 build/libbulhyemik.a "$LIBDIR/libbulhyemik.a"
    put 755 "build/$shared" "$LIBDIR/libbulhyemik.so.$VERSION"
    link "$LIBDIR/$shared" "libbulhyemik.so.$VERSION"
    link "$LIBDIR/libbulhyemik.so" "$shared"
    package > "$work/package"
    put 644 "$work/package" "$LIBDIR/pkgconfig/bulhyemik.pc"
    put 644 build/bulhyemik.1 share/man/man1/bulhyemik.1
    put 644 build/bulhyemik.3 share/man/man3/bulhyemik.3
    for function in $(sed -n 's/^\.SS \(bulhyemik_\)/\1/p' build/bulhyemik.3); do
        link "share/man/man3/$function.3" bulhyemik.3
    done
    put 644 install/completion.bash share/bash-completion/completions/bulhyemik
    for paper in RULES CALLING; do
        put 644 "docs/$paper.md" "share/doc/bulhyemik/$paper.md"
    done
    echo "installed below $root; programs find the shared library after ldconfig, or by LD_LIBRARY_PATH=$PREFIX/$LIBDIR"
}

# The list goes when all its files are gone, so that an uninstall that broke off can be done again.
uninstall_all() {
    [ -f "$root/$list" ] || stop "nothing to uninstall: $root/$list is not there; name the PREFIX and DESTDIR of the installation"
    left=0
    LC_ALL=C sort -r "$root/$list" > "$work/listed"
    while IFS= read -r path; do
        case $path in
            */ | "$list") ;;
            *) rm -f "$root/$path" || left=1 ;;
        esac
    done < "$work/listed"
    [ $left = 0 ] || stop "some files are still there; become a user who may take them away, and uninstall again"
    rm "$root/$list"
    grep '/$' "$work/listed" | while IFS= read -r path; do
        rmdir "$root/$path" 2> /dev/null || true
    done
    echo "uninstalled from $root"
}

case $PREFIX in
    /*) ;;
    *) stop "PREFIX is '$PREFIX', but must begin with /" ;;
esac
case $PREFIX/$LIBDIR in
    *[\"\#]*) stop "PREFIX and LIBDIR must be without \" and #, which pkg-config does not take" ;;
esac
case /$LIBDIR/ in
    *//* | */./* | */../*) stop "LIBDIR is '$LIBDIR', but must be a folder within PREFIX, as lib or lib/x86_64-linux-gnu" ;;
esac
work=$(mktemp -d)
trap 'rm -r "$work"' EXIT
trap 'exit 1' HUP INT TERM
"$1_all"
