#!/usr/bin/env bash
# Builds the C and C++ programs over the archives and runs them: as they are, with the compiler's sanitizers and under valgrind;
# then the host of ten lines, and the adder, the Fourier transform and both multipliers in libquantum. What is not there is left
# out, with a line `skipped: ..`. Run it after `bash tools/build.sh metaqasm` and `bash tools/build.sh showing`. Its last line is
# `N passed, M failed`, and it succeeds only with M = 0.
set -u
cd "$(dirname "$0")/../.." || exit 2

archives=(target/staticlib/libmetaqasm.a target/staticlib/libshowing.a)
strict='-Wall -Wextra -Werror -O2 -pthread -I include'
passed=0
failed=0
work=$(mktemp -d)
log=$work/log
trap 'rm -rf "$work"' EXIT

# Adds what a run closed with; one that failed and counted no failure, or closed with no counts, is one failure.
add_counts() { # STATUS NAME
    local counts
    counts=$(tail -n 1 "$log" | sed -n 's/^\([0-9]*\) passed, \([0-9]*\) failed$/\1 \2/p')
    set -- "$1" "$2" ${counts:-0 0}
    passed=$((passed + $3))
    failed=$((failed + $4))
    if [ -z "$counts" ] || { [ "$1" -ne 0 ] && [ "$4" -eq 0 ]; }; then
        failed=$((failed + 1))
        printf '%s: failed with status %s\n' "$2" "$1"
    fi
}

# Counts a run as one test, and shows it where it failed.
add_one() { # STATUS NAME
    if [ "$1" -eq 0 ]; then
        passed=$((passed + 1))
    else
        failed=$((failed + 1))
        cat "$log"
        printf '%s: failed with status %s\n' "$2" "$1"
    fi
}

# Builds a program with some compiler words; the words come apart at spaces. Of the archives it gets what it calls.
build() { # SOURCE PROGRAM WORDS
    case $1 in
    *.cpp) c++ -std=c++11 $strict $3 "$1" "${archives[@]}" -o "$2" ;;
    *) cc -std=c11 $strict $3 "$1" "${archives[@]}" -o "$2" ;;
    esac
}

# Builds and runs a program as it is.
plainly() { # SOURCE
    { build "$1" "$work/program" '' && "$work/program"; } >"$log" 2>&1
    local status=$?
    cat "$log"
    add_counts "$status" "$1"
}

# Builds and runs a program with the sanitizers.
sanitized() { # SOURCE
    { build "$1" "$work/program" "$sanitizers" && "$work/program"; } >"$log" 2>&1
    add_one $? "$1 with $sanitizers"
}

# Builds a program and runs it under valgrind.
under_valgrind() { # SOURCE
    { build "$1" "$work/program" -g && valgrind -q --error-exitcode=9 "$work/program"; } >"$log" 2>&1
    add_one $? "$1 under valgrind"
}

# Runs a script that closes with counts.
script() { # SCRIPT
    bash "$1" >"$log" 2>&1
    local status=$?
    cat "$log"
    add_counts "$status" "$1"
}

for archive in "${archives[@]}"; do
    if [ ! -f "$archive" ]; then
        name=$(basename "$archive" .a)
        printf '%s is not there: run `bash tools/build.sh %s` first\n0 passed, 1 failed\n' "$archive" "${name#lib}"
        exit 1
    fi
done

sources=(tests/c/*.c)
if printf '#include <vector>\nint main() {}\n' | c++ -x c++ - -o "$work/probe" 2>/dev/null; then
    sources+=(tests/c/*.cpp)
else
    printf 'skipped: tests/c/*.cpp, as there is no C++ compiler\n'
fi
for source in "${sources[@]}"; do
    plainly "$source"
done

sanitizers='-fsanitize=address,undefined -fno-sanitize-recover=all'
if printf 'int main(void) {}\n' | cc $sanitizers -x c - -o "$work/probe" 2>/dev/null && "$work/probe"; then
    for source in "${sources[@]}"; do
        sanitized "$source"
    done
else
    printf 'skipped: tests/c with sanitizers, as the compiler has none\n'
fi

if command -v valgrind >"$log" 2>&1; then
    for source in "${sources[@]}"; do
        under_valgrind "$source"
    done
else
    printf 'skipped: tests/c under valgrind, as it is not installed\n'
fi

script tests/c/ten_lines/run.sh
script tests/c/libquantum/run.sh

printf '%s passed, %s failed\n' "$passed" "$failed"
[ "$failed" -eq 0 ]
