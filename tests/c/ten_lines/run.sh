#!/usr/bin/env bash
# Builds the two hosts of ten lines and runs them: one lists, the other prints OpenQASM. And sees that README.md has all lines
# of the first, and those of the second that print.
# Its last line is `N passed, M failed`, and it succeeds only with M = 0.
set -u
cd "$(dirname "$0")/../../.." || exit 2

host=tests/c/ten_lines/host.c
printer=tests/c/ten_lines/qasm.c
passed=0
failed=0
work=$(mktemp -d)
trap 'rm -rf "$work"' EXIT

# Counts one expectation, and says what was not met.
expect() { # NAME EXPECTED GOT
    if [ "$2" = "$3" ]; then
        passed=$((passed + 1))
    else
        failed=$((failed + 1))
        printf '%s: expected\n%s\ngot\n%s\n' "$1" "$2" "$3"
    fi
}

# Builds a host.
build() { # SOURCE PROGRAM
    cc -std=c11 -Wall -Wextra -Werror -O2 -I include "$1" target/staticlib/libmetaqasm.a -o "$2"
}

# What a host prints about a program from standard input, and its status.
prints() { # PROGRAM
    "$work/$1" 2>&1
    printf 'status %s\n' $?
}

# The first program of README.md, without its indentation.
in_readme() {
    awk '/^    #include <metaqasm.h>/ { on = 1 } on && !/^    / { exit } on { print substr($0, 5) }' README.md
}

# The lines that print, of a file.
printing() { # FILE
    sed -n '/static uint8_t text/,/fwrite/p' "$1"
}

if ! build "$host" "$work/host" || ! build "$printer" "$work/printer"; then
    printf '%s passed, %s failed\n' 0 1
    exit 1
fi
expect 'the Bell pair in ten lines' 'op 1 on 0 0
op 4 on 0 1
done: the program is accepted, or the list is complete
status 0' "$(prints host <examples/bell.bytes)"
expect 'a refusal in ten lines' 'this tag is not allowed here
status 1' "$(printf '\0\0\0' | prints host)"
expect 'no bytes in ten lines' 'done: the program is accepted, or the list is complete
status 0' "$(prints host </dev/null)"
expect 'the Bell pair as OpenQASM' "$(cat examples/bell.qasm)
status 0" "$(prints printer <examples/bell.bytes)"
expect 'a refusal as OpenQASM' 'this tag is not allowed here
status 1' "$(printf '\0\0\0' | prints printer)"
for source in "$host" "$printer"; do
    expect "the lines of $source" 10 "$(grep -c '' "$source")"
done
expect "README.md's host in C" "$(cat "$host")" "$(in_readme)"
expect "README.md's lines that print" "$(printing "$printer")" "$(printing README.md)"
expect 'the lines that print' 3 "$(printing "$printer" | grep -c '')"

printf '%s passed, %s failed\n' "$passed" "$failed"
[ "$failed" -eq 0 ]
