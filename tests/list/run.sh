#!/usr/bin/env bash
# Tests of the listing program, target/bin/list: what it prints, and what it says where its words, its input or its output are bad.
# It needs a C compiler. Its last line is `N passed, M failed`, and it succeeds only with M = 0.
set -u
cd "$(dirname "$0")/../.." || exit 2

list=target/bin/list
usage='usage: list [FAMILY [SIZE ..]] < PROGRAM; list --help says more'
passed=0
failed=0
work=$(mktemp -d)
trap 'rm -rf "$work"' EXIT

# Runs a command, and compares what it wrote to standard output and standard error.
gives() { # NAME OUTPUT MESSAGE COMMAND ..
    local name=$1 output=$2 message=$3
    shift 3
    "$@" >"$work/output" 2>"$work/message"
    said "$name" "$output" "$message"
}

# Compares what was written with what is due.
said() { # NAME OUTPUT MESSAGE
    local output message
    output=$(cat "$work/output")
    message=$(cat "$work/message")
    if [ "$output" = "$2" ] && [ "$message" = "$3" ]; then
        passed=$((passed + 1))
    else
        failed=$((failed + 1))
        printf '%s: expected\n%s\n%s\ngot\n%s\n%s\n' "$1" "$2" "$3" "$output" "$message"
    fi
}

# The lines of an example's listing.
lines() { # NAME
    tail -n +2 "examples/$1.list"
}

# Whole programs.
for program in examples/*.bytes; do
    name=$(basename "$program" .bytes)
    [ -e "examples/$name.list" ] || continue
    gives "list < $program" "$(lines "$name")" '' "$list" <"$program"
done

# Families at sizes.
family() { # LISTING PROGRAM FAMILY SIZE ..
    local listing=$1 program=$2
    shift 2
    gives "list $* < examples/$program.bytes" "$(lines "$listing")" '' "$list" "$@" <"examples/$program.bytes"
}
family adder.n0 adder 2 0
family adder.n1 adder 2 1
family adder.n1 adder 002 0000000000001
family ctrladd.m0 ctrladd 1 0
family ctrladd.m2 ctrladd 1 2
family ctrladd-guarded.n1 ctrladd-guarded 1 1
family ctrladd-guarded.n2 ctrladd-guarded 1 2
family ctrladd-guarded.n4 ctrladd-guarded 1 4
family loop.n0 loop 0 0
family loop.n3 loop 0 3
family loop-short.n1 loop-short 0 1
family loop-short.n3 loop-short 0 3
family qft.n3 qft 0 3
family qft.unqft.n3 qft 1 3
family qft.add.n2 qft 2 2
family qft.sub.n2 qft 3 2
family qft.n64 qft 0 64
family multiplier.n0 multiplier 5 0
family multiplier.n1 multiplier 5 1
family multiplier.n2 multiplier 5 2
family multiplier.unmult.n1 multiplier 6 1
family multiplier.printed.n2 multiplier 7 2
family multiplier-of.ripple.n0 multiplier-of 9 0
family multiplier-of.ripple.n1 multiplier-of 9 1
family multiplier-of.ripple.n2 multiplier-of 9 2
family multiplier-of.fourier.n1 multiplier-of 10 1
family multiplier-of.fourier.n2 multiplier-of 10 2
family multiplier-of.unmult-ripple.n1 multiplier-of 11 1
family multiplier-of.unmult-fourier.n1 multiplier-of 12 1
family multiplier-of.mult.n2 multiplier-of 7 2
family slices.inner.n0 slices 1 0
family slices.tails.n2 slices 2 2
family there-and-back.there.n1 there-and-back 1 1
family there-and-back.back.n1 there-and-back 2 1
family there-and-back.n2 there-and-back 3 2
family two-sizes.m2.n1 two-sizes 0 2 1

# The output holds 5,461 records.
gives '5,461 records' "$(printf 'h %s\n' {0..5460} && printf 'end 0 0 5461 10923')" '' "$list" 0 5461 <examples/loop.bytes
gives '5,462 records' "$(printf 'h %s\n' {0..5460} && printf 'end 27 24 5461 10925')" '' "$list" 0 5462 <examples/loop.bytes

# Phases in a qreg of 2 with a creg of 1: phase 3 on wire 0, cphase 2 on wires 1 and 0; if bit 0 is 1, reversed: phase 0 on
# wire 1, cphase 63 on wires 0 and 1.
phases() {
    printf '\2\2\0\2\0\3\2\0\1\0'
    printf '\50\16\0\100\2\0\3\0\61\6\0\0\100\2\0\0\0'
    printf '\51\27\0\100\2\0\2\0\61\6\0\0\100\2\0\1\0\61\6\0\0\100\2\0\0\0'
    printf '\6\70\0\1\61\6\0\1\100\2\0\0\0\45\53\0'
    printf '\50\16\0\100\2\0\0\0\61\6\0\0\100\2\0\1\0'
    printf '\51\27\0\100\2\0\77\0\61\6\0\0\100\2\0\0\0\61\6\0\0\100\2\0\1\0'
}
gives 'phases' $'phase 3 0\ncphase 2 1 0\nif 0 1 cphasedg 63 0 1\nif 0 1 phasedg 0 1\nend 0 0 4 6' '' "$list" < <(phases)
gives 'a k of 64' 'end 32 5 0 1' '' "$list" < <(printf '\2\2\0\1\0\50\16\0\100\2\0\100\0\61\6\0\0\100\2\0\0\0')
gives 'a tag past the statements' 'end 3 0 0 0' '' "$list" < <(printf '\53\0\0')

# A family of n with x: Qbit[n] and h on each cell, a qreg of 3, and a call of the family at a size about a slice of the qreg.
sliced() { # SIZE FIRST LAST
    printf '\1\50\0\1\1\21\4\0\101\1\0\0'
    printf '\46\34\0\100\2\0\0\0\103\11\0\101\1\0\0\100\2\0\1\0\40\10\0\61\5\0\0\101\1\0\1'
    printf '\2\2\0\3\0\44\24\0\0'
    printf '\100\2\0%b\0\62\13\0\0\100\2\0%b\0\100\2\0%b\0' "\\0$1" "\\0$2" "\\0$3"
}
gives 'a slice' $'h 1\nh 2\nend 0 0 2 6' '' "$list" < <(sliced 2 1 2)
gives 'a slice for fewer cells' $'h 0\nend 0 0 1 4' '' "$list" < <(sliced 1 0 2)
gives 'an empty slice at the end' 'end 0 0 0 2' '' "$list" < <(sliced 0 3 2)
gives 'a slice past the register' 'end 12 57 0 0' '' "$list" < <(sliced 1 2 3)
gives 'a slice that ends too far before its start' 'end 12 57 0 0' '' "$list" < <(sliced 0 2 0)
gives 'a slice that is too small' 'end 12 57 0 0' '' "$list" < <(sliced 3 1 2)
gives 'a slice as a wire' 'end 9 8 0 0' '' "$list" < <(printf '\2\2\0\2\0\40\16\0\62\13\0\0\100\2\0\0\0\100\2\0\0\0')
gives 'a tag past the operands' 'end 3 8 0 0' '' "$list" < <(printf '\2\2\0\2\0\40\3\0\64\0\0')

# A family of n with x: Qbit[n], and h on a cell in a loop from 1 to n - 1, which has rounds where there are two cells or more.
short_loop() { # CELL
    printf '\1\51\0\1\1\21\4\0\101\1\0\0\46\35\0\100\2\0\1\0\103\11\0\101\1\0\0\100\2\0\1\0'
    printf '\40\11\0\61\6\0\0\100\2\0%b\0' "\\0$1"
}
gives 'a cell that the loop shows, at 0' 'end 0 0 0 1' '' "$list" 0 0 < <(short_loop 0)
gives 'a cell that the loop shows, at 2' $'h 1\nend 0 0 1 3' '' "$list" 0 2 < <(short_loop 1)
gives 'a cell that the loop does not show' 'end 12 35 0 0' '' "$list" 0 3 < <(short_loop 2)

# Family 0 of one wire with t, family 1 of one wire with h, and family 2, which calls the family that is passed to it forward and
# reversed; a qreg of 2, and a call of family 2 that passes a family, about wire 1.
passing() { # FAMILY
    printf '\1\14\0\0\1\20\0\0\41\4\0\60\1\0\0'
    printf '\1\14\0\0\1\20\0\0\40\4\0\60\1\0\0'
    printf '\1\40\0\0\2\22\5\0\0\1\20\0\0\20\0\0\52\5\0\0\60\1\0\1\45\10\0\52\5\0\0\60\1\0\1'
    printf '\2\2\0\2\0\44\17\0\2\63\2\0%b\0\61\6\0\0\100\2\0\1\0' "\\0$1"
}
gives 'family 0 passed' $'t 1\ntdg 1\nend 0 0 2 6' '' "$list" < <(passing 0)
gives 'family 1 passed' $'h 1\nh 1\nend 0 0 2 6' '' "$list" < <(passing 1)
gives 'a family passed to itself' 'end 33 74 0 0' '' "$list" < <(passing 2)
gives 'a family passed to itself, for a family' 'end 33 74 0 0' '' "$list" 2 < <(passing 2)
gives 'a family that is not there, passed' 'end 8 74 0 0' '' "$list" < <(passing 3)
gives 'a family with a family parameter' 'end 34 0 0 0' '' "$list" 2 < <(passing 0)
gives 'a family with a family parameter, with sizes' 'end 34 0 0 0' '' "$list" 2 65536 1 < <(passing 0)
gives 'a family behind one with a family parameter' 'end 20 0 0 0' '' "$list" 3 < <(passing 0)
gives 'a call of a register' 'end 9 5 0 0' '' "$list" < <(printf '\2\2\0\2\0\52\1\0\0')

# A qreg of 3, and cx on a wire and on the one whose number is a difference.
cx_on() { # WIRE LEFT RIGHT
    printf '\2\2\0\3\0\43\32\0\61\6\0\0\100\2\0%b\0' "\\0$1"
    printf '\61\16\0\0\103\12\0\100\2\0%b\0\100\2\0%b\0' "\\0$2" "\\0$3"
}
gives 'cx on two wires' $'cx 1 2\nend 0 0 1 1' '' "$list" < <(cx_on 1 3 1)
gives 'cx on one wire' 'end 35 5 0 0' '' "$list" < <(cx_on 1 2 1)
gives 'cx on one wire, for a family' 'end 35 5 0 0' '' "$list" 0 < <(cx_on 1 2 1)
gives 'cx on one wire, with more behind it' 'end 35 5 0 0' '' "$list" < <(cx_on 1 2 1 && printf '\377')
gives 'cphase on one wire' 'end 35 5 0 0' '' "$list" \
    < <(printf '\2\2\0\1\0\51\27\0\100\2\0\77\0\61\6\0\0\100\2\0\0\0\61\6\0\0\100\2\0\0\0')

# A family of two wires with h on the first and cx on both, a qreg of 2, and a call of the family about two of its wires.
paired() { # WIRE WIRE
    printf '\1\32\0\0\2\20\0\0\20\0\0\40\4\0\60\1\0\0\43\10\0\60\1\0\0\60\1\0\1'
    printf '\2\2\0\2\0\44\23\0\0\61\6\0\0\100\2\0%b\0\61\6\0\0\100\2\0%b\0' "\\0$1" "\\0$2"
}
gives 'a call with two wires' $'h 1\ncx 1 0\nend 0 0 2 3' '' "$list" < <(paired 1 0)
gives 'a call with one wire twice' $'h 1\nend 25 18 1 3' '' "$list" < <(paired 1 1)
gives 'the family by itself' $'h 0\ncx 0 1\nend 0 0 2 2' '' "$list" 0 < <(paired 1 1)

# A library of 257 families of one wire: h in family 0, nothing in families 1 to 255, t in family 256; then a call of 256.
long_library() {
    printf '\1\14\0\0\1\20\0\0\40\4\0\60\1\0\0'
    printf '\1\5\0\0\1\20\0\0%.0s' {1..255}
    printf '\1\14\0\0\1\20\0\0\41\4\0\60\1\0\0'
    printf '\2\2\0\1\0\47\13\0\0\1\61\6\0\0\100\2\0\0\0'
}
long_library >"$work/library"
gives 'a call of family 256' $'t 0\nend 0 0 1 2' '' "$list" <"$work/library"
gives 'family 256' $'t 0\nend 0 0 1 1' '' "$list" 256 <"$work/library"
gives 'family 255' 'end 0 0 0 0' '' "$list" 255 <"$work/library"
gives 'family 0 of 257' $'h 0\nend 0 0 1 1' '' "$list" 0 <"$work/library"
gives 'family 257 of 257' 'end 20 0 0 0' '' "$list" 257 <"$work/library"
gives 'family 255 by two bytes' 'end 31 0 0 0' '' "$list" < <(printf '\47\2\0\377\0')

# What the library turns down.
gives 'no such family' 'end 20 0 0 0' '' "$list" 3 1 <examples/adder.bytes
gives 'the largest family' 'end 20 0 0 0' '' "$list" 4294967295 <examples/adder.bytes
gives 'no size for one' 'end 21 0 0 0' '' "$list" 2 <examples/adder.bytes
gives 'two sizes for one' 'end 21 0 0 0' '' "$list" 2 1 1 <examples/adder.bytes
gives '16 sizes' 'end 21 0 0 0' '' "$list" 2 {1..16} <examples/adder.bytes
gives 'a size too large' 'end 22 0 0 0' '' "$list" 2 65536 <examples/adder.bytes
gives 'the largest size' 'end 22 0 0 0' '' "$list" 2 4294967295 <examples/adder.bytes
gives '65,536 bytes' 'end 1 0 0 0' '' "$list" < <(head -c 65536 /dev/zero)
gives '70,000 bytes' 'end 1 0 0 0' '' "$list" < <(head -c 70000 /dev/zero)
gives '70,000 bytes for a family' 'end 1 0 0 0' '' "$list" 0 1 < <(head -c 70000 /dev/zero)

# Bad words.
bad() { # NAME WORD ..
    local name=$1
    shift
    gives "$name" '' "$usage" "$list" "$@" <examples/adder.bytes
}
bad 'an empty family' ''
bad 'an empty size' 2 ''
bad 'a family by name' add 1
bad 'a letter after digits' 2 1x
bad 'a sign' 2 -1
bad 'a plus' 2 +1
bad 'a space' 2 ' 1'
bad 'the byte before 0' 2 '1/'
bad 'the byte after 9' 2 '1:'
bad 'a family of 33 bits' 4294967296
bad 'a size of 33 bits' 2 4294967296
bad 'a size of 65 bits' 2 18446744073709551617
bad 'a bad size after a good one' 2 1 x
bad '17 sizes' 2 {1..17}
bad 'help after a family' 2 --help
bad 'an option' -h
bad 'words too long' "$(printf '%04096d' 2)" 1

# The deepest program: as many families as fit, each of which calls the one before in 15 reversals, of which all but the
# innermost hold an empty one, too. It needs more stack than a process usually has.
field() { # TAG CONTENT, in hexadecimal: the field goes to REPLY
    printf -v REPLY '%s%02x%02x%s' "$1" $((${#2} / 2 % 256)) $((${#2} / 512)) "$2"
}
nested() { # STATEMENT
    field 25 "$1"
    for _ in {1..14}; do field 25 "${REPLY}250000"; done
    field 01 "0001100000$REPLY"
}
nested 21040030010000
deep=$REPLY
families=1
while :; do
    called=$((families - 1))
    printf -v number '%02x%02x' $((called % 256)) $((called / 256))
    if [ "$called" -lt 256 ]; then field 24 "${number%00}30010000"; else field 27 "${number}30010000"; fi
    nested "$REPLY"
    [ $((${#deep} + ${#REPLY})) -le 131070 ] || break
    deep+=$REPLY
    families=$((families + 1))
done
# shellcheck disable=SC2059
printf "$(sed 's/../\\x&/g' <<<"$deep")" >"$work/deep"
gate=t
[ $((families % 2)) -eq 0 ] || gate=tdg
gives "the deepest program, $families families" "$(printf '%s 0\nend 0 0 1 %s' "$gate" $((30 * families)))" '' \
    bash -c "ulimit -s 16384 && '$list' $((families - 1)) <'$work/deep'"

# Help.
"$list" --help >"$work/help" 2>"$work/message" </dev/null
head -n 1 "$work/help" >"$work/output"
said 'help' 'usage: list < PROGRAM' ''
grep -F 'exit status' "$work/help" >"$work/output"
said 'help on the exit status' 'There is no exit status: a list is whole where its last line begins with' ''

# Input that cannot be read.
reading='list: reading standard input'
gives 'a folder as input' '' "$reading: Is a directory" "$list" <.
gives 'a folder as input, for a family' '' "$reading: Is a directory" "$list" 2 1 <.
gives 'closed input' '' "$reading: Bad file descriptor" "$list" <&-
cc -std=c11 -Wall -Wextra -Werror -O2 tests/list/late_field.c -o "$work/late_field"
gives 'a field that comes late' '' "$reading: Resource temporarily unavailable" "$work/late_field" 21 "$list" <examples/bell.bytes
cc -std=c11 -Wall -Wextra -Werror -O2 -shared -fPIC tests/list/interrupted.c -o "$work/interrupted.so"
gives 'short reads' "$(lines adder)" '' env LD_PRELOAD="$work/interrupted.so" "$list" <examples/adder.bytes
gives 'interrupted reads' "$(lines adder)" '' env LD_PRELOAD="$work/interrupted.so" INTERRUPTS=3 "$list" <examples/adder.bytes
gives 'reads that are only interrupted' '' "$reading: Interrupted system call" \
    env LD_PRELOAD="$work/interrupted.so" INTERRUPTS=1000000 "$list" <examples/adder.bytes

# Output that cannot be written: a message, and no end line.
writing='list: writing standard output'
: >"$work/output"
"$list" <examples/bell.bytes >/dev/full 2>"$work/message"
said 'a full device' '' "$writing: No space left on device"
"$list" 9 <examples/bell.bytes >/dev/full 2>"$work/message"
said 'a full device, for the end line' '' "$writing: No space left on device"
"$list" --help >/dev/full 2>"$work/message"
said 'a full device, for help' '' "$writing: No space left on device"
"$list" <examples/bell.bytes >&- 2>"$work/message"
said 'closed output' '' "$writing: Bad file descriptor"
(trap '' XFSZ && ulimit -f 1 && "$list" 2 100 <examples/adder.bytes >"$work/cut" 2>"$work/message")
grep '^end' "$work/cut" >"$work/output"
said 'a file that is full after 1,024 bytes' '' "$writing: File too large"
head -c 1024 <("$list" 2 100 <examples/adder.bytes) | cmp - "$work/cut" >"$work/output"
said 'a file that is full after 1,024 bytes, up to there' '' "$writing: File too large"

printf '%s passed, %s failed\n' "$passed" "$failed"
[ "$failed" -eq 0 ]
