#!/bin/sh
# run.sh: installs the module to target/install, builds the example farm in C and in Rust against
# what is installed there, runs both, and compares what they print with farm.txt. CC chooses the C
# compiler.
set -eu
cd "$(dirname "$0")/.."
to=target/install # and no whole path, so that a blank in it does no harm
built=target/examples
mkdir -p $built
./install.sh $to
if command -v pkg-config >/dev/null; then
    export PKG_CONFIG_PATH=$to/lib/pkgconfig
    flags=$(pkg-config --define-variable=prefix=$to --cflags panel)
    libs=$(pkg-config --define-variable=prefix=$to --libs panel)
else
    flags="-I$to/include" libs="-L$to/lib -lpanel"
fi
echo "examples: building the farm in C, and in Rust if there is a rustc" >&2

# run NAME PROGRAM: runs the program and compares its text with farm.txt.
run() {
    "$2" >$built/farm.txt
    diff examples/farm.txt $built/farm.txt || {
        echo "examples: the farm in $1 prints another text than examples/farm.txt" >&2
        exit 1
    }
}

${CC:-gcc} -O2 -std=c11 -Wall -Wextra -Wpedantic -Wconversion -Werror $flags \
    -o $built/farm_c examples/farm.c $libs
run C $built/farm_c

cat examples/farm.txt
if command -v rustc >/dev/null; then
    rustc --edition 2021 -O -D warnings --crate-type rlib -L native=$to/lib \
        --out-dir $built $to/share/panel/panel.rs
    rustc --edition 2021 -O -D warnings --extern panel=$built/libpanel.rlib \
        -o $built/farm_rust examples/rust/farm.rs
    run Rust $built/farm_rust
    echo "examples: C and Rust print this text." >&2
else
    echo "examples: C prints this text; Rust was skipped, as there is no rustc." >&2
fi
