#!/bin/sh
# Installs the command `slope` and the library for C, Rust and Python hosts; proves and builds them first where that has not been done.
#
#   ./install.sh [PREFIX] [--lib FILE] [--program FILE]
#   ./install.sh [PREFIX] --uninstall
#
# PREFIX          where to install; default /usr/local. With DESTDIR in the environment everything goes below $DESTDIR$PREFIX
# --lib FILE      takes the ready archive FILE (libpasoletu.a)
# --program FILE  takes the ready program FILE (slope)
#                 With either, nothing is proved: a part that is neither named nor built yet is left out
# --uninstall     removes what was installed below PREFIX, and nothing else
#
# Below PREFIX stand then bin/slope and the tools for people, bin/slope-{arrive,draw,night,report,sheet}, with their man pages and
# completions, include/pasoletu.h, lib/libpasoletu.{a,so} with the files for pkg-config and CMake, the Python package in
# lib/python3/dist-packages, and share/doc/pasoletu with guide and licence. The tools need python3 3.11 or later. PREFIX may be moved.
set -eu

usage() { sed -n '2,16s/^# \{0,1\}//p' "$0"; }
stop() { echo "install.sh: $1" >&2; exit 1; }
misspelled() { echo "install.sh: $1; './install.sh --help' tells how to use it" >&2; exit 2; }

prefix=
archive=
program=
uninstall=no
while [ $# -gt 0 ]; do
    case $1 in
    -h | --help) usage; exit 0 ;;
    --uninstall) uninstall=yes ;;
    --lib | --program)
        [ $# -ge 2 ] || misspelled "$1 needs a FILE"
        if [ ! -f "$2" ] || [ ! -r "$2" ]; then stop "$1: $2 is not a file that can be read"; fi
        if [ "$1" = --lib ]; then archive=$2; else program=$2; fi
        shift
        ;;
    -*) misspelled "there is no option $1" ;;
    *)
        [ -z "$prefix" ] || misspelled "there is more than one PREFIX"
        prefix=$1
        ;;
    esac
    shift
done
top=$(cd "$(dirname "$0")" && pwd)
prefix=${prefix:-/usr/local}
case $prefix in /*) ;; *) prefix=$PWD/$prefix ;; esac
prefix=${prefix%/}
root=${DESTDIR:-}$prefix
version=$(cat "$top/VERSION")
soname=libpasoletu.so.${version%%.*}
# What was installed, a line each, by its name below PREFIX; folders that were made end in /.
list=share/pasoletu/installed
cannot="cannot be written: name a folder of your own, as ./install.sh \$HOME/pasoletu"

if [ $uninstall = yes ]; then
    [ -f "$root/$list" ] || stop "there is no installation below $root ($root/$list is not there)"
    grep -v '/$' "$root/$list" | while IFS= read -r name; do
        rm -f "$root/$name"
        case $name in *.py) compiled=${name##*/} && rm -f "$root/${name%/*}/__pycache__/${compiled%.py}".*.pyc ;; esac # Python's own
    done
    folders=$(grep '/$' "$root/$list" | LC_ALL=C sort -r)
    rm -f "$root/$list"
    for name in $folders; do rmdir "$root/${name}__pycache__" "$root/$name" 2>/dev/null || rmdir "$root/$name" 2>/dev/null || true; done
    echo "install.sh: removed what was installed below $root"
    exit 0
fi
[ "$(cd "$root" 2>/dev/null && pwd -P)" != "$(cd "$top" && pwd -P)" ] || stop "PREFIX is this repository: name another folder"

# ---- the parts: named, built, or proved and built now

work=$(mktemp -d)
trap 'rm -rf "$work"' EXIT
if [ -z "$archive$program" ]; then
    program=$("$top/tools/built" --prove program)
    archive=$("$top/tools/built" --prove archive)
else
    [ -n "$program" ] || program=$("$top/tools/built" program 2>/dev/null) || true
    [ -n "$archive" ] || archive=$("$top/tools/built" archive 2>/dev/null) || true
fi
if [ -n "$archive" ]; then
    "$top/tools/shared" "$archive" "$work/$soname" || stop "$archive is not installed, nor anything else"
fi
if [ -n "$program" ]; then
    cp "$program" "$work/slope" && chmod 755 "$work/slope"
    answer=$(PASOLETU_SLOPE="$work/slope" "$top/bin/slope" "$top/samples/snow.sheet" | tr '\n' ' ')
    [ "$answer" = "particles 1 0 stored 3ff0000000000000 end " ] ||
        stop "$program does not answer samples/snow.sheet as the program does: name the file that 'tools/built program' prints"
fi

# ---- the files

# folder NAME: makes the folder and those above it, and lists those that it made
folder() {
    if [ ! -d "$root/$1" ]; then
        case $1 in */*) folder "${1%/*}" ;; *) mkdir -p "$root" 2>/dev/null || stop "$root $cannot" ;; esac
        mkdir "$root/$1" 2>/dev/null || stop "$root $cannot"
        echo "$1/" >>"$work/list"
    fi
}
# put MODE FILE NAME: installs FILE as NAME
put() {
    folder "${3%/*}"
    install -m "$1" "$2" "$root/$3" 2>/dev/null || stop "$root/$3 $cannot"
    echo "$3" >>"$work/list"
}
# link TO NAME
link() {
    folder "${2%/*}"
    ln -sfn "$1" "$root/$2" 2>/dev/null || stop "$root/$2 $cannot"
    echo "$2" >>"$work/list"
}
# fill FILE: the template with its places filled
fill() { sed -e "s|@PREFIX@|$prefix|g" -e "s|@VERSION@|$version|g" -e "s|@SONAME@|$soname|g" "$top/packaging/$1"; }
# put_filled FILE NAME
put_filled() {
    fill "$1" >"$work/filled"
    put 644 "$work/filled" "$2"
}

library() {
    put 644 "$top/include/pasoletu.h" include/pasoletu.h
    put 644 "$archive" lib/libpasoletu.a
    put 755 "$work/$soname" "lib/libpasoletu.so.$version"
    link "libpasoletu.so.$version" "lib/$soname"
    link "$soname" lib/libpasoletu.so
    put_filled pasoletu.pc.in lib/pkgconfig/pasoletu.pc
    put_filled pasoletu-config.cmake.in lib/cmake/pasoletu/pasoletu-config.cmake
    put_filled pasoletu-config-version.cmake.in lib/cmake/pasoletu/pasoletu-config-version.cmake
}
# The Python package, and the tools as they stand in the repository: what they look for below it is below share/pasoletu, by links.
tools() {
    for file in "$top"/bindings/python/pasoletu/*.py "$top"/bindings/python/pasoletu/py.typed; do
        put 644 "$file" "lib/python3/dist-packages/pasoletu/${file##*/}"
    done
    for file in VERSION calls.toml; do put 644 "$top/$file" "share/pasoletu/$file"; done
    "$top/bin/slope" --version | sed -n 's/.*(commit \(.*\))/\1/p' >"$work/COMMIT"
    put 644 "$work/COMMIT" share/pasoletu/COMMIT
    for file in "$top"/tools/night* "$top"/tools/built; do put 755 "$file" "share/pasoletu/tools/${file##*/}"; done
    for tool in arrive draw report sheet; do put 755 "$top/tools/$tool.py" "share/pasoletu/tools/$tool.py"; done
    for file in cases.py reasons.py shell.py making/rows.py; do put 644 "$top/tools/$file" "share/pasoletu/tools/$file"; done
    link ../../../../lib/python3/dist-packages/pasoletu share/pasoletu/bindings/python/pasoletu
    link ../../../bin/slope share/pasoletu/bin/slope
    put 644 "$top/packaging/slope-tools.bash-completion" share/bash-completion/completions/slope-sheet
    for tool in arrive draw night report sheet; do
        file=$tool.py
        [ $tool != night ] || file=night
        link "../share/pasoletu/tools/$file" "bin/slope-$tool"
        [ $tool = sheet ] || link slope-sheet "share/bash-completion/completions/slope-$tool"
        if python3 "$top/tools/making/page.py" "$top/tools/$file" "slope-$tool" >"$work/page" 2>/dev/null; then put 644 "$work/page" "share/man/man1/slope-$tool.1"; fi
    done
}
command_slope() {
    put 755 "$work/slope" libexec/pasoletu/slope
    put 755 "$top/bin/slope" bin/slope
    put 644 "$top/man/slope.1" share/man/man1/slope.1
    put 644 "$top/packaging/slope.bash-completion" share/bash-completion/completions/slope
}

# What an earlier installation listed stays listed: its folders are ours still, and its files are gone with the next --uninstall.
[ ! -f "$root/$list" ] || cp "$root/$list" "$work/list"
[ -z "$archive" ] || library
[ -z "$program" ] || command_slope
tools
for licence in LICENSE NOTICE; do put 644 "$top/$licence" "share/doc/pasoletu/$licence"; done
for page in GUIDE RULES STEPS; do put 644 "$top/docs/$page.md" "share/doc/pasoletu/$page.md"; done
folder "${list%/*}"
LC_ALL=C sort -u "$work/list" >"$work/sorted"
install -m 644 "$work/sorted" "$root/$list"

echo "install.sh: version $version is installed below $root"
if [ -n "$program" ]; then
    echo "  the command:  $prefix/bin/slope SHEET      (man slope; $prefix/bin must be in PATH)"
else
    echo "  the command was LEFT OUT: name the program by --program FILE, or run ./install.sh without --lib"
fi
echo "  the tools:    slope-sheet, slope-night, slope-draw, slope-report, slope-arrive (each has --help and a man page)"
if [ -n "$archive" ]; then
    cat <<END
  for C:        cc program.c -I$prefix/include $prefix/lib/libpasoletu.a
                or pkg-config pasoletu (PKG_CONFIG_PATH=$prefix/lib/pkgconfig),
                or CMake's find_package(pasoletu) (CMAKE_PREFIX_PATH=$prefix)
  for Rust:     export PASOLETU_LIB_DIR=$prefix/lib
  for Python:   export PYTHONPATH=$prefix/lib/python3/dist-packages
END
else
    echo "  the library was LEFT OUT: name the archive by --lib FILE, or run ./install.sh without --program"
fi
