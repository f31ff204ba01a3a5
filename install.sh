#!/bin/sh
# install.sh PREFIX: proves and builds the module for C and Rust, and installs under PREFIX
#
#     include/panel.h           the calls for C and C++
#     lib/libpanel.a            the code behind them
#     lib/pkgconfig/panel.pc    for pkg-config
#     share/panel/panel.rs      the calls for Rust, over libpanel.a
#
# DESTDIR, if set, stands before PREFIX in all places written to, but not in panel.pc; AR chooses
# the archiver. An archive is proved and built anew only where a file that it is made of, or the
# kit, has changed. Nothing in target/ is looked at again otherwise: remove it, and the folders
# crates/*/out, to build from nothing.
set -eu

if [ $# -ne 1 ] || [ -z "$1" ]; then
    echo "usage: [DESTDIR=FOLDER] install.sh PREFIX" >&2
    exit 2
fi
case $1 in
/*) prefix=$1 ;;
*) prefix=$PWD/$1 ;;
esac
to=${DESTDIR:-}$prefix
case $to in
/*) ;;
*) to=$PWD/$to ;;
esac
cd "$(dirname "$0")"
built=$PWD/target/libpanel
kit=$(rt version)
ar=${AR:-ar}

say() {
    echo "install: $*" >&2
}

# quietly COMMAND..: shows what the command prints only if it fails.
quietly() {
    "$@" >"$built/log" 2>&1 || {
        status=$?
        cat "$built/log" >&2
        exit $status
    }
}

# below CRATE: the crate and all that it stands on, by crates.txt, without the kit's.
below() {
    awk -v crate="$1" '
        /^#/ { next }
        { sub(/:/, ""); name = $1; $1 = ""; needs[name] = $0 }
        function visit(name, list, count, i) {
            if (name in visited || !(name in needs)) return
            visited[name]
            print name
            count = split(needs[name], list)
            for (i = 1; i <= count; i++) visit(list[i])
        }
        END { visit(crate) }
    ' crates.txt
}

# sources CRATE: the kit's identity, and the sum of each file that the crate's archive is made of.
sources() {
    echo "$kit"
    for name in $(below "$1"); do
        find "crates/$name" \( -name must-fail -o -name out \) -prune -o \
            -type f -exec sha256sum {} + | LC_ALL=C sort
    done
}

# build CRATE: proves the crate and what it stands on, and builds crates/CRATE/out/libCRATE.a, for
# every x86-64.
build() {
    (cd "crates/$1" && exec rt lib --cpu=x86-64)
}

# archive CRATE: has target/libpanel/libCRATE.a built of the crate as it is.
archive() {
    sources "$1" >"$built/sources"
    if [ -f "$built/lib$1.a" ] && cmp -s "$built/sources" "$built/$1.made"; then
        say "$1 is as it was when it was last proved and built"
        return
    fi
    rm -f "$built/$1.made"
    say "proving and building $1, and what it stands on"
    quietly build "$1"
    cp "crates/$1/out/lib$1.a" "$built/"
    mv "$built/sources" "$built/$1.made"
}

# One archive, with the objects of seven.
mkdir -p "$built"
rm -f "$built"/*.o "$built/libpanel.a"
for crate in exports_c beacon_c setting_back_c tracing_c frame_check_c log_records_c bundle_c; do
    archive $crate
    (cd "$built" && $ar x "lib$crate.a")
done
$ar crsD "$built/libpanel.a" "$built"/*.o

version=$(sed -n 's/^#define PANEL_VERSION "\(.*\)"$/\1/p' include/panel.h)
cat >"$built/panel.pc" <<END
prefix=$prefix
includedir=\${prefix}/include
libdir=\${prefix}/lib

Name: panel
Description: Causal message module of the dryer panel
Version: $version
Cflags: -I\${includedir}
Libs: -L\${libdir} -lpanel
END

mkdir -p "$to/include" "$to/lib/pkgconfig" "$to/share/panel"
install -m 644 include/panel.h "$to/include/"
install -m 644 "$built/libpanel.a" "$to/lib/"
install -m 644 "$built/panel.pc" "$to/lib/pkgconfig/"
install -m 644 examples/rust/panel.rs "$to/share/panel/"
say "panel.h, libpanel.a, panel.pc and panel.rs stand under $to"
