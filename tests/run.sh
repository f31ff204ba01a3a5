#!/bin/sh
# run.sh: installs the module to target/install, and tests what is installed there from C, C++ and
# Rust, with each compiler that is there, and the program list. CC and CXX choose other compilers, as
# in CC="gcc-13 clang-17". rustc has to be there, as the second implementation is in Rust;
# WITHOUT_RUST=1 leaves out what needs it. What is proved already is not proved again.
set -eu
cd "$(dirname "$0")/.."
to=target/install # and no whole path, so that a blank in it does no harm
built=target/tests
list=crates/list/out/list
warnings="-Wall -Wextra -Wpedantic -Wconversion -Werror"

say() {
    echo "tests: $*"
}

fail() {
    echo "tests: $*" >&2
    exit 1
}

there() {
    command -v "$1" >/dev/null && return
    echo "tests: $1 was skipped, as it is not there." >&2
    return 1
}

# The header, the archive and panel.pc agree.
install_module() {
    ./install.sh $to
    flags="-I$to/include" libs="-L$to/lib -lpanel"
    version=$(sed -n 's/^#define PANEL_VERSION "\(.*\)"/\1/p' "$to/include/panel.h")
    if there pkg-config; then
        export PKG_CONFIG_PATH=$to/lib/pkgconfig
        flags=$(pkg-config --define-variable=prefix=$to --cflags panel)
        libs=$(pkg-config --define-variable=prefix=$to --libs panel)
        [ "$(pkg-config --modversion panel)" = "$version" ] || fail "panel.pc has another version"
    fi
    needed=$(nm -u "$to/lib/libpanel.a" | sed -n 's/^ *U //p' | sort -u | tr '\n' ' ')
    case $needed in
    'memcpy memset ' | 'memcpy ' | 'memset ' | '') ;;
    *) fail "libpanel.a needs $needed" ;;
    esac
}

# The program list, proved and built; rt run runs it too, here on no bytes.
build_list() {
    (cd crates/list && exec rt run </dev/null)
}

# What it prints for each bundle of tests/list.
test_list() {
    build_list >$built/log 2>&1 || fail "list is not proved: $(tail -n 3 $built/log)"
    runs=0
    for bundle in tests/list/*.in; do
        expected=${bundle%.in}.out
        $list <"$bundle" >$built/given || fail "list ends with status $? on $bundle"
        cmp $expected $built/given || fail "list prints another text on $bundle than $expected"
        runs=$((runs + 1))
    done
    say "list printed what it must on $runs bundles"
}

# The program in the comment at the head of the header prints what is said there.
example() {
    sed -n '/^ \*     #include <panel.h>/,/^ \* What a caller/{
        s/^ \*     //p
        s/^ \*$//p
    }' "$to/include/panel.h" >$built/example.c
    $1 -O2 -std=c11 $warnings $flags -o $built/example $built/example.c $libs
    sed -n 's/^ \* Example.* It prints "\(.*\)" and "\(.*\)"\..*/\1\n\2/p' \
        "$to/include/panel.h" >$built/expected
    $built/example >$built/given
    cmp -s $built/expected $built/given || fail "the header's example prints another text"
}

# A warning that the compiler has to give: NAME of tests/warnings.c, and a word of the warning.
must_warn() {
    if $1 -O2 -std=c11 $warnings $flags -D"$2" -c -o $built/warnings.o tests/warnings.c \
        2>$built/log; then
        fail "$1 gives no warning with $2"
    fi
    grep -q -e "$3" $built/log || fail "$1 gives another warning with $2: $(cat $built/log)"
}

# The whole archive is linked, so that two objects with one name would be seen.
test_c() {
    $1 -O2 -std=c11 $warnings $flags -o $built/tests tests/main.c tests/calls.c tests/frames.c \
        tests/versions.c tests/readers.c tests/steps.c tests/checks.c \
        -Wl,--whole-archive $libs -Wl,--no-whole-archive
    $built/tests
    $1 -O2 -std=c11 $warnings $flags -o $built/stack tests/stack.c tests/checks.c $libs
    $built/stack
    example "$1"
    $1 -O2 -std=c11 $warnings -Wswitch-enum $flags -c -o $built/warnings.o tests/warnings.c
    must_warn "$1" CASE_LEFT_OUT PANEL_REFUSED_LIST_FULL
    must_warn "$1" ANSWER_NOT_LOOKED_AT unused
    must_warn "$1" TRACE_NOT_LOOKED_AT unused
    must_warn "$1" SET_BACK_NOT_LOOKED_AT unused
    must_warn "$1" NULL_POINTER nonnull
}

test_cxx() {
    $1 -O2 -std=c++17 $warnings $flags -o $built/tests_cxx tests/calls.cpp $libs
    $built/tests_cxx
}

test_rust() {
    rustc --edition 2021 -O -D warnings --crate-type rlib -L native=$to/lib --out-dir $built \
        $to/share/panel/panel.rs
    with_panel="--edition 2021 -D warnings --extern panel=$built/libpanel.rlib"
    rustc $with_panel -o $built/tests_rust tests/calls.rs
    $built/tests_rust
    if rustc $with_panel -o $built/copied tests/copied.rs 2>$built/log; then
        fail "a Panel of the wrapper for Rust can be copied"
    fi
    grep -q E0507 $built/log || fail "rustc turns tests/copied.rs down otherwise: $(cat $built/log)"
}

# A second implementation beside the module, built while other tests run: without faults and at the same
# time with planted ones, and the table of frame lengths that it makes.
build_beside() {
    rustc --edition 2021 -O -D warnings -L native=$to/lib -o $built/beside tests/beside/main.rs
}

test_beside() {
    wait $building || fail "the second implementation was not built"
    $built/beside --list $list --faults >$built/faults 2>&1 &
    faults=$!
    $built/beside --list $list
    docs/barriers.sh --check
    status=0
    wait $faults || status=$?
    cat $built/faults
    [ $status -eq 0 ] || fail "the run with planted faults ends with status $status"
}

[ -n "${WITHOUT_RUST:-}" ] || command -v rustc >/dev/null ||
    fail "there is no rustc, which builds the second implementation (WITHOUT_RUST=1 leaves it out)"
mkdir -p $built
say "installing the module to $to"
install_module
if [ -z "${WITHOUT_RUST:-}" ]; then
    build_beside &
    building=$!
fi
say "the program list"
test_list
tested=
for cc in ${CC:-gcc clang}; do
    there "$cc" || continue
    say "the calls from C, with $cc"
    test_c "$cc"
    tested="$tested $cc"
done
[ -n "$tested" ] || fail "there is no C compiler: gcc or clang is needed"
for cxx in ${CXX:-g++ clang++}; do
    there "$cxx" || continue
    say "the calls from C++, with $cxx"
    test_cxx "$cxx"
    tested="$tested $cxx"
done
if [ -n "${WITHOUT_RUST:-}" ]; then
    say "the calls from Rust and the second implementation are left out, as WITHOUT_RUST is set"
else
    say "the calls from Rust"
    test_rust
    say "the module beside the second implementation, then with faults planted in that"
    test_beside
    tested="$tested rustc"
fi
say "passed with$tested"
