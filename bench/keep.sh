#!/bin/sh
# keep.sh [CALLS [ROUNDS [SEED]]]: runs the benchmark, and puts what it prints
# into docs/SPEED.md in place of the last run.
set -e
cd "$(dirname "$0")/.."
mkdir -p target/bench
bench/run.sh "$@" >target/bench/printed_run
awk '
    /^<!-- end of the last run -->$/ { print "```"; inside = 0 }
    !inside
    /^<!-- the last run -->$/ {
        inside = 1
        print "```"
        while ((getline line < "target/bench/printed_run") > 0)
            print line
    }
' docs/SPEED.md >target/bench/SPEED.md
cat target/bench/SPEED.md >docs/SPEED.md
