#!/usr/bin/env bash
# Builds and runs the adder, the Fourier transform and both multipliers in libquantum. Where libquantum is not installed it is
# installed, if that can be done; where it cannot, the test is left out with a line that says so.
# Its last line is `N passed, M failed`, and it succeeds only with M = 0.
set -u
cd "$(dirname "$0")/../../.." || exit 2

libraries='-lquantum -fopenmp -lm'
work=$(mktemp -d)
trap 'rm -rf "$work"' EXIT

# Whether a program over libquantum can be built.
is_there() {
    printf '#include <quantum.h>\nint main(void) { return quantum_get_version() == 0; }\n' |
        cc -x c - $libraries -o "$work/probe" 2>/dev/null
}

# Installs libquantum where the system has Debian's packages and lets us; each try has its time.
install() {
    [ "$(id -u)" -eq 0 ] && command -v apt-get || return 1
    timeout 120 apt-get install -y libquantum-dev || {
        timeout 120 apt-get update && timeout 120 apt-get install -y libquantum-dev
    }
}

if ! is_there; then
    DEBIAN_FRONTEND=noninteractive install >"$work/log" 2>&1 </dev/null
fi
if ! is_there; then
    printf 'skipped: tests/c/libquantum, as libquantum (libquantum-dev) is not installed and could not be installed here\n'
    printf '0 passed, 0 failed\n'
    exit 0
fi

passed=0
failed=0
for source in tests/c/libquantum/*.c; do
    : >"$work/log"
    cc -std=c11 -Wall -Wextra -Werror -O2 -I include "$source" target/staticlib/libmetaqasm.a $libraries -o "$work/program" &&
        OMP_NUM_THREADS=1 "$work/program" >"$work/log"
    sed '$d' "$work/log"
    counts=$(tail -n 1 "$work/log" | sed -n 's/^\([0-9]*\) passed, \([0-9]*\) failed$/\1 \2/p')
    [ -n "$counts" ] || printf '%s: does not build, or does not come to its end\n' "$source"
    set -- ${counts:-0 1}
    passed=$((passed + $1))
    failed=$((failed + $2))
done

printf '%s passed, %s failed\n' "$passed" "$failed"
[ "$failed" -eq 0 ]
