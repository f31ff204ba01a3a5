#!/bin/sh
# barriers.sh [--check]: measures how long frames are with panels of the old make and of the new
# make, and puts the table into docs/BARRIERS.md. With --check it changes nothing, and fails if the
# table there is another. The program that measures is that of tests/run.sh, and is built as there
# if it is older than a file that it is made of. The table is the same on each machine.
set -eu
cd "$(dirname "$0")/.."
page=docs/BARRIERS.md
built=target/tests

stop() {
    echo "docs/barriers.sh: $*" >&2
    exit 1
}

build() {
    newer=$(find tests/beside -name '*.rs' -newer $built/beside 2>/dev/null || echo all)
    [ -n "$newer" ] || return 0
    ./install.sh target/install
    mkdir -p $built
    rustc --edition 2021 -O -D warnings -L native=target/install/lib -o $built/beside \
        tests/beside/main.rs
}

case $* in
'' | --check) ;;
*) stop "it takes --check or nothing" ;;
esac
build
$built/beside --barriers >$built/barriers
awk -v table=$built/barriers '
    /^<!-- end of the table -->$/ { ends += inside; inside = 0 }
    !inside
    /^<!-- the table -->$/ {
        inside = 1
        while ((getline line < table) > 0)
            print line
    }
    END { exit ends != 1 }
' $page >$built/BARRIERS.md || stop "$page has not the two lines that the table stands between"
if [ $# -eq 0 ]; then
    cat $built/BARRIERS.md >$page
else
    cmp -s $built/BARRIERS.md $page || stop "$page has another table: docs/barriers.sh makes it anew"
fi
