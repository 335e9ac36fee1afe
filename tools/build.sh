#!/usr/bin/env bash
# Builds what hosts and shells take, each proved:
#
#     bash tools/build.sh list        target/bin/list, the listing program
#     bash tools/build.sh metaqasm    target/staticlib/libmetaqasm.a, the calls from C (crate metaqasm_c)
#     bash tools/build.sh showing     target/staticlib/libshowing.a, the showing of one form as a call from C
#
# `rt` first proves here what is below and has changed. With --over-ci behind the name, right after `rt ci`, nothing below is
# proved again: the program is the one that `rt ci` proved and LLVM built, and an archive's crate is proved and built over the
# libraries that `rt ci` proved. Where those are not there, it goes as without the word.
set -eu
cd "$(dirname "$0")/.."
top=$PWD
kit=$(dirname "$(dirname "$(readlink -f "$(command -v rt)")")")

# The libraries that a crate's line in crates.txt names.
named() { # CRATE
    sed -n "s/^$1\( staticlib\)\{0,1\} *://p" crates.txt
}

# The crates of this repository below a crate.
below() { # CRATE
    local it
    for it in $(named "$1"); do
        [ -d "crates/$it" ] || continue
        printf '%s\n' "$it"
        below "$it"
    done
}

# Proves and builds a static library over the libraries that `rt ci` left, if it left all of them. A `stamp` beside one says
# that another command built it.
over_ci() { # CRATE
    local it words=()
    for it in $(named "$1"); do
        if [ -d "crates/$it" ]; then
            words+=(--extern "$it=$top/crates/$it/out/rlib/$it.rlib")
        else
            words+=(--extern "$it=$kit/rlibs/$it.rlib")
        fi
    done
    for it in $(below "$1" | sort -u); do
        [ -d "crates/$it/out/rlib/$it.rlib" ] && [ ! -e "crates/$it/out/rlib/stamp" ] || return 1
        words+=(-L "dependency=$top/crates/$it/out/rlib")
    done
    mkdir -p "crates/$1/out"
    (cd "crates/$1" && "$kit/bin/rattle" build --crate-name "$1" src/lib.rt \
        --extern "std=$kit/rlibs/std.rlib" -L "dependency=$kit/rlibs" "${words[@]}" \
        --antt-project "$kit/rattle/logic/antt-project.json" --logic-built "$kit/logic_built" --jobs 2 --links "$1=" \
        --crate-type staticlib --toolchain "$kit/toolchain" --backend llvm -o "out/lib$1.a")
}

name=${1-}
case $name in
list)
    if [ "${2-}" != --over-ci ] || [ ! -x crates/list/out/list ]; then
        (cd crates/list && rt run --backend llvm </dev/null)
    fi
    mkdir -p target/bin
    cp crates/list/out/list target/bin/list
    ;;
metaqasm | showing)
    crate=$name
    [ "$name" != metaqasm ] || crate=metaqasm_c
    rm -f "crates/$crate/out/lib$crate.a"
    if [ "${2-}" != --over-ci ] || ! over_ci "$crate"; then
        (cd "crates/$crate" && rt lib)
    fi
    mkdir -p target/staticlib
    cp "crates/$crate/out/lib$crate.a" "target/staticlib/lib$name.a"
    ;;
*)
    printf 'usage: bash tools/build.sh list|metaqasm|showing [--over-ci]\n' >&2
    exit 2
    ;;
esac
