#!/bin/sh
# run.sh [CALLS [ROUNDS [SEED]]]: installs the module to target/install, builds
# the program "list", and the benchmark against what is installed, and runs all
# of it. CC chooses the compiler. CALLS 0 leaves out the agreement, ROUNDS 0 the
# rest.
set -e
cd "$(dirname "$0")/.."
calls=${1:-200000} rounds=${2:-200} seed=${3:-20240601}
CC=${CC:-gcc}
to=target/install
built=target/bench
flags="-O3 -std=c11 -D_GNU_SOURCE -Wall -Wextra -Werror"

say() {
    echo "bench: $*" >&2
}

# Shows what a command prints only if it fails.
quietly() {
    "$@" >$built/log 2>&1 || {
        status=$?
        cat $built/log >&2
        exit $status
    }
}

# Proves and builds the program list; rt run runs it too, here on no bytes.
build_list() {
    (cd crates/list && exec rt run </dev/null)
}

# Has callgrind count the instructions of the calls, and lists the sums. The
# setting is for libc: without it a copy is one instruction that callgrind
# counts once for each byte.
tunables=glibc.cpu.x86_rep_movsb_threshold=1000000000
tunables=$tunables:glibc.cpu.x86_rep_stosb_threshold=1000000000
count() {
    rm -f $built/counted
    GLIBC_TUNABLES=$tunables valgrind --tool=callgrind --collect-atstart=no \
        --toggle-collect=counted --dump-after=counted --combine-dumps=yes \
        --callgrind-out-file=$built/counted $built/bench count >$built/log 2>&1 &&
        sed -n 's/^totals: //p' $built/counted >$built/counts
}

mkdir -p $built
./install.sh $to
say "proving and building list, unless it is as it was"
quietly build_list
say "building the benchmark"
$CC $flags -I$to/include -o $built/bench bench/*.c bench/agreement/*.c bench/table/*.c \
    $to/lib/libpanel.a -lpthread
$CC $flags -o $built/list bench/list/list.c bench/reference.c
$CC $flags -o $built/list_times bench/list/times.c bench/list/bundles.c

echo "date        $(date +%Y-%m-%d)"
echo "machine     $(sed -n 's/^model name[^:]*: //p' /proc/cpuinfo | head -n 1), $(uname -m)"
echo "C compiler  $($CC --version | head -n 1), -O3"
echo "rt          $(rt version)"
echo "callgrind   $(valgrind --version 2>/dev/null || echo 'none: no instructions are counted')"
echo

if [ "$calls" -ne 0 ]; then
    say "the agreement on $calls calls"
    $built/bench agreement "$calls" "$seed"
fi
[ "$rounds" -ne 0 ] || exit 0
say "counting instructions, then $rounds rounds of the table"
if valgrind --version >/dev/null 2>&1 && count; then
    $built/bench table "$rounds" $built/counts
    counting=$tunables
else
    $built/bench table "$rounds"
    counting=
fi
$built/bench stack
echo
say "list on bundles, $rounds rounds"
cd $built
exec ./list_times ../../crates/list/out/list ./list "$rounds" "$counting"
