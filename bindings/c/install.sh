#!/bin/sh
# install.sh [--erased] [PREFIX]: proves and builds the library, and installs it below PREFIX (/usr/local):
#   include/clock2q.h, include/clock2q_bytes.h, include/clock2q.hpp, include/pcache_clock2q.h
#   lib/libclock2q.a, lib/libclock2q.so, lib/pkgconfig/clock2q.pc, lib/cmake/clock2q
#   lib/libclock2q_sqlite.so, if SQLite's header and library are there; else an earlier one is removed
#   share/clock2q/pcache_clock2q.c
# DESTDIR goes before PREFIX. Either may begin at the folder where this is called. CC is the C compiler.
# With CLOCK2Q_ARCHIVES, LIBRARY:KIT, two archives in place of what is built here, nothing is proved. A proof leaves its
# archive's sum, the kit's, that of the sources and the version of rt beside it, in crates/clock2q_c/out/libclock2q_c.a.proved.
# With --erased nothing is proved and no rt is needed: cargo builds the library of the proved text without its contracts,
# on any platform. For another platform than this one CARGO_BUILD_TARGET, CC, AR, LD, NM and OBJCOPY name it and its tools.
set -eu
self=$(readlink -f "$0")
here=${self%/*}
bindings=${here%/*}
top=${bindings%/*}
crate=$top/crates/clock2q_c
rust=$bindings/rust/clock2q_c
soname=libclock2q.so.1 # counted up when a name of the library goes or changes
archives=${CLOCK2Q_ARCHIVES:-}
CC=${CC:-cc} AR=${AR:-ar} LD=${LD:-ld} NM=${NM:-nm} OBJCOPY=${OBJCOPY:-objcopy}

say() {
    echo "install.sh: $1" >&2
}

give_up() {
    say "$1"
    exit 1
}

show_help() {
    sed -n '2,/^set/s/^# //p' "$self"
}

absolute() {
    case $1 in
    /*) printf '%s\n' "$1" ;;
    *) printf '%s\n' "$PWD/$1" ;;
    esac
}

# Says whether the compiler builds a program that includes a header, and keeps what it said; the words after it go to
# the compiler.
builds() {
    printf '#include <%s>\nint main(void) { return 0; }\n' "$1" >"$work/none.c" || give_up "$work can't be written to: see TMPDIR"
    shift
    # shellcheck disable=SC2086 # CC may have options
    said=$($CC "$work/none.c" -o "$work/none" "$@" 2>&1)
}

check_tools() {
    missing=''
    if [ "$erased" ]; then
        command -v cargo >/dev/null || missing="$missing
  cargo, with Rust 1.73 or later: apt-get install cargo"
    elif ! [ "$archives" ]; then
        command -v rt >/dev/null || missing="$missing
  rt, the command of the Rattle kit: README.md, Install; or --erased, which needs cargo in its place and proves nothing"
    fi
    if ! command -v "${CC%% *}" >/dev/null; then
        missing="$missing
  $CC, the C compiler: apt-get install gcc libc6-dev"
    elif ! builds stdlib.h; then
        case $said in *'No space left'*) give_up "$work is full: see TMPDIR" ;; esac
        missing="$missing
  $CC that builds a C program (apt-get install gcc libc6-dev): it says $(printf '%s\n' "$said" | head -n 1)"
    fi
    for tool in "$AR" "$LD" "$OBJCOPY" ${erased:+"$NM"}; do
        command -v "$tool" >/dev/null || missing="$missing
  $tool: apt-get install binutils"
    done
    [ -z "$missing" ] || give_up "what is missing:$missing"
}

# Says whether a folder can be written to, or made if it isn't there.
can_write() {
    folder=$1 absent=''
    until [ -e "$folder" ]; do absent=$folder folder=$(dirname "$folder"); done
    [ -d "$folder" ] && [ -w "$folder" ] || return
    [ -z "$absent" ] || { mkdir "$absent" 2>/dev/null && rmdir "$absent"; }
}

check_prefix() {
    case $prefix in
    *[\"\$#]* | *'
'*) give_up "no pkg-config file can name a prefix with a quote, a dollar, a hash or a line break: $prefix" ;;
    esac
    for part in include lib lib/pkgconfig lib/cmake/clock2q share/clock2q; do
        can_write "$to/$part" || give_up "$folder can't be written to: name another PREFIX or DESTDIR, or be root"
    done
}

# Shows the minutes so far and the crate that is proved, in one line on a terminal, and else in one every five minutes
# and as soon as rt waits.
show_progress() {
    minutes=$((($(date +%s) - began) / 60))
    doing=$(sed -n 's/^rt: chose .* for /, proving /p; s/^rt: waiting for/, waiting for/p
        s/^rt: \(.*\): another copy .*/, waiting for another copy that builds \1/p' "$work/log" | tail -n 1)
    is_new_wait=''
    case $doing in "$waited" | *proving* | '') ;; *) is_new_wait=yes waited=$doing ;; esac
    if [ -t 2 ]; then
        printf '\r%s min%s\033[K' "$minutes" "$doing" >&2
    elif [ "$minutes" -ge "$shown_at" ] || [ "$is_new_wait" ]; then
        shown_at=$((minutes + 5))
        say "$minutes min$doing"
    fi
}

# Proves and builds the library, and shows what rt said if that fails. The sums are left only if the sources stayed
# as they were.
prove() {
    say "proving and building the library: up to 20 minutes on 4 cores, seconds if it was proved before"
    rm -f "$proved.proved"
    sources=$("$top/.bin/sums" clock2q_c)
    began=$(date +%s) shown_at=5 waited='' is_proving=yes
    (cd "$crate" && exec rt lib) </dev/null >"$work/log" 2>&1 &
    while kill -0 "$!" 2>/dev/null; do
        sleep 1
        show_progress
    done
    is_proving=''
    [ ! -t 2 ] || echo >&2
    wait "$!" || {
        cat "$work/log" >&2
        give_up "the library isn't proved: rt says why above"
    }
    [ "$("$top/.bin/sums" clock2q_c)" = "$sources" ] || give_up "sources were changed while they were proved: start again"
    { rt version && "$top/.bin/sums" clock2q_c "$proved" "$kit"; } >"$work/proved"
    cp "$work/proved" "$proved.proved"
}

# Ends what runs, leaves nothing behind, and ends as the signal does.
stop() {
    trap '' INT TERM HUP
    if [ "$is_proving" ] && [ "${!-}" ]; then
        kill "$!" || :
        wait "$!" || :
    fi 2>/dev/null
    rm -rf "$work"
    [ ! -t 2 ] || echo >&2
    say "stopped; what was proved is kept"
    trap - EXIT "$1"
    kill -"$1" $$
}

# compile FILE..: makes objects of sources in C.
compile() {
    # shellcheck disable=SC2086 # CC may have options
    $CC -std=c11 -O2 -DNDEBUG -Wall -Wextra -Werror -fPIC -I"$here" -c "$@"
}

# Makes one object of the two archives, of bytes.c and of memory.c, which takes the kit's calls of malloc,
# realloc and free.
join_proved() {
    printf '%s\n' 'malloc memory_taken' 'realloc memory_resized' 'free memory_given_back' >renamed
    "$OBJCOPY" --redefine-syms=renamed "$proved" proved.a
    "$OBJCOPY" --redefine-syms=renamed "$kit" kit.a
    compile "$here/memory.c" "$here/bytes.c"
    "$LD" -r -o clock2q.o --whole-archive proved.a --no-whole-archive bytes.o memory.o kit.a
}

# Makes one object of what cargo builds and of bytes.c, and of Rust's std what these need.
join_erased() {
    cargo build --quiet --offline --locked --release --target-dir "$built" --manifest-path "$rust/Cargo.toml"
    cp "$built/${CARGO_BUILD_TARGET:-.}/release/libclock2q.a" erased.a
    compile "$here/bytes.c"
    "$NM" -g --defined-only erased.a bytes.o 2>/dev/null | sed -n 's/.* T \(clock2q_\)/-u \1/p' >exported
    # shellcheck disable=SC2046 # two words for each name
    "$LD" -r -o clock2q.o --gc-sections --force-group-allocation $(cat exported) bytes.o erased.a
    # names that only dropped sections use, and Rust's own sections, which plugins of ar take for their compiler's
    "$OBJCOPY" --strip-unneeded --remove-section='.llvm*' clock2q.o
}

# Makes the libraries of one object. Its other names are local then, so that none meets one of the caller's or of another
# library.
make_libraries() {
    if [ "$erased" ]; then join_erased; else join_proved; fi
    "$OBJCOPY" --wildcard --keep-global-symbol='clock2q_*' clock2q.o
    "$AR" rcs libclock2q.a clock2q.o
    echo "CLOCK2Q_${soname##*.} { global: clock2q_*; local: *; };" >exports
    # shellcheck disable=SC2086
    $CC -shared -o "$soname" -Wl,-soname,"$soname" -Wl,--version-script=exports -Wl,-z,defs clock2q.o
    [ "$has_sqlite" ] || return 0
    echo 'CLOCK2Q_SQLITE_0 { global: clock2q_sqlite; clock2q_sqlite_memory; local: *; };' >exports_sqlite
    # shellcheck disable=SC2086
    $CC -std=c11 -O2 -DNDEBUG -fPIC -shared -I"$here" -o libclock2q_sqlite.so \
        -Wl,-soname,libclock2q_sqlite.so -Wl,--version-script=exports_sqlite -Wl,-z,defs \
        "$bindings/sqlite/preload.c" "$bindings/sqlite/pcache_clock2q.c" clock2q.o -lsqlite3
}

install_all() {
    install -d "$to/include" "$to/lib/pkgconfig" "$to/lib/cmake/clock2q" "$to/share/clock2q"
    install -m 644 "$here/clock2q.h" "$here/clock2q_bytes.h" "$here/clock2q.hpp" "$bindings/sqlite/pcache_clock2q.h" "$to/include"
    install -m 644 libclock2q.a "$to/lib"
    install -m 755 "$soname" "$to/lib"
    ln -sf "$soname" "$to/lib/libclock2q.so"
    install -m 644 "$bindings/sqlite/pcache_clock2q.c" "$to/share/clock2q"
    rm -f "$to/lib/libclock2q_sqlite.so"
    [ -z "$has_sqlite" ] || install -m 755 libclock2q_sqlite.so "$to/lib"
    install -m 644 "$here/clock2qConfig.cmake" "$to/lib/cmake/clock2q"
    name_version
}

# Writes what pkg-config and CMake read of the version.
name_version() {
    cat >"$to/lib/pkgconfig/clock2q.pc" <<PC
prefix=$prefix
Name: clock2q
Description: $description
Version: $version
Cflags: -I"\${prefix}/include"
Libs: -L"\${prefix}/lib" -lclock2q$private
PC
    cat >"$to/lib/cmake/clock2q/clock2qConfigVersion.cmake" <<CMAKE
set(PACKAGE_VERSION $version)
if(PACKAGE_FIND_VERSION VERSION_EQUAL PACKAGE_VERSION)
  set(PACKAGE_VERSION_EXACT TRUE)
endif()
if("\${PACKAGE_FIND_VERSION_MAJOR}.\${PACKAGE_FIND_VERSION_MINOR}" VERSION_EQUAL ${version%.*} AND
    NOT PACKAGE_FIND_VERSION VERSION_GREATER PACKAGE_VERSION)
  set(PACKAGE_VERSION_COMPATIBLE TRUE)
endif()
CMAKE
}

erased=''
description='A proved cache with Clock2Q+ replacement' private=''
if [ "${1-}" = --erased ]; then
    erased=yes archives=''
    description='A cache with Clock2Q+ replacement, of a proved text without its contracts'
    private='
Libs.private: -lpthread -ldl'
    shift
fi
case ${1-} in
-h | --help) show_help; exit ;;
-*) show_help >&2; exit 2 ;;
esac
[ $# -le 1 ] || { show_help >&2; exit 2; }
version=$(cat "$top/VERSION")
prefix=$(absolute "${1:-/usr/local}")
to=${DESTDIR:+$(absolute "$DESTDIR")}$prefix
is_proving='' has_sqlite='' said=''
case $archives in
*:* | '') ;;
*' '*) archives=${archives%% *}:${archives##* } ;; # as two words, neither with a space
*) give_up "CLOCK2Q_ARCHIVES has no colon between two archives: $archives" ;;
esac
work=$(mktemp -d)
trap 'rm -rf "$work"' EXIT
for signal in INT TERM HUP; do
    # shellcheck disable=SC2064 # the signal of now
    trap "stop $signal" "$signal"
done
check_tools
check_prefix
if builds sqlite3.h -lsqlite3; then
    has_sqlite=yes
else
    say "lib/libclock2q_sqlite.so is left out: no sqlite3.h (apt-get install libsqlite3-dev)"
fi
built=$(absolute "${CARGO_TARGET_DIR:-$work/target}")
if [ "$erased" ]; then
    :
elif [ "$archives" ]; then
    proved=$(absolute "${archives%%:*}") kit=$(absolute "${archives#*:}")
    for file in "$proved" "$kit"; do
        [ -f "$file" ] || give_up "CLOCK2Q_ARCHIVES names $file, which isn't there"
    done
else
    proved=$crate/out/libclock2q_c.a kit=$(dirname "$(rt doc)")/c/liblibc_c.a
    prove
fi
cd "$work"
make_libraries
install_all
echo "clock2q is installed below $to"
