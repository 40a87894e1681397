#!/usr/bin/env bash
# What the scripts know of the kit: whether what it built is fresh, and its words for compiling C, for linking that with the proved
# library, and for starting a program. A script sources this file. Any other program runs it:
#   tools/kit.sh fresh FILE       status 0 if the file is there, and no crate was changed after it
#   tools/kit.sh words PROGRAM    the words that start a program that the kit linked, one to a line

kit_root=$(cd "$(dirname "${BASH_SOURCE[0]}")/.." && pwd)
kit_archive=$kit_root/crates/salenduro/out/libsalenduro.a
kit_target=x86_64-unknown-linux-gnu

# kit_find: the kit's folder as kit_home, and of it the tools of the compiler as kit_tools.
kit_find() {
    local guide
    [ -z "${kit_home:-}" ] || return 0
    guide=$(rt doc) || return
    kit_home=$(dirname "$guide")
    kit_tools=$kit_home/toolchain
}

# rt keeps and writes its own in the folder out of each crate, and making that changes the crate's folder
kit_fresh() {
    [ -f "$1" ] && [ ! "$kit_root/crates.txt" -nt "$1" ] &&
        [ -z "$(find "$kit_root/crates" -mindepth 2 -name out -prune -o -newer "$1" -print -quit)" ]
}

# kit_library: builds the proved library, kit_archive, unless it is fresh.
kit_library() { kit_fresh "$kit_archive" || (cd "$kit_root/crates/salenduro" && rt lib); }

# kit_compile SOURCE OBJECT [FLAG..]: a file in C that may include the library's header.
kit_compile() {
    kit_find && "$kit_tools/bin/clang" --target=$kit_target -std=c99 -Wall -Wextra -Werror -O2 -fPIC -nostdinc "${@:3}" \
        "-I$kit_root/examples/kit-include" "-I$kit_root/include" -c "$1" -o "$2"
}

# kit_link PROGRAM PART..
kit_link() { kit_find && "$kit_home/bin/rattle-link" --target $kit_target --toolchain "$kit_tools" -o "$@"; }

# kit_find_words PROGRAM: the words that start it, as the list kit_words; on a processor other than x86-64 the first is the kit's emulator.
kit_find_words() {
    kit_find || return
    kit_words=("$kit_tools/lib/ld-linux-x86-64.so.2" --library-path "$kit_tools/lib" "$1")
    [ ! -x "$kit_tools/bin/qemu-x86_64" ] || kit_words=("$kit_tools/bin/qemu-x86_64" "${kit_words[@]}")
}

if [ "${BASH_SOURCE[0]}" = "$0" ]; then
    case $#:${1:-} in
    2:fresh) kit_fresh "$2" ;;
    2:words) kit_find_words "$2" && printf '%s\n' "${kit_words[@]}" ;;
    *) sed -n 's/^#   //p' "$0" >&2 && exit 2 ;;
    esac
fi
