#!/usr/bin/env bash
# Finds libbarrowtide.a: the one that is kept in dist/, if it was proved from the sources as they stand, and else the one
# of target/staticlib, which is proved anew unless it was made from them. What counts is what files hold, not their times.
# The prover leaves an archive in crates/barrowtide/out, which rt ci clears; target/staticlib has a copy of it.
#
# Sourced by ./barrowtide, ./install, dist/renew and .ci/run, which set `top`. Run by itself, as the build.rs of
# barrowtide-sys does, it prints where the archive is.
set -euo pipefail
[ "${BASH_SOURCE[0]}" != "$0" ] || top=$(dirname "$(readlink -f "$0")")/..
top=$(realpath "$top")

kept=$top/dist/x86_64-linux/libbarrowtide.a
made=$top/target/staticlib/libbarrowtide.a
notes=$top/target/prover.log

say() { echo "$(basename "$0"): $*" >&2; }

fail() {
    say "$*"
    exit 2
}

need() { command -v "$1" >/dev/null || fail "$1 is needed to build $2, and is not in the PATH"; }

# Runs a command in a process group of its own, and ends all of it if this script is ended.
guarded() {
    set -m
    "$@" </dev/null >&2 &
    set +m
    local job=$! status=0
    trap 'kill -- "-$job" 2>/dev/null; exit 2' HUP INT TERM
    wait "$job" || status=$?
    trap - HUP INT TERM
    return "$status"
}

sha256() { sha256sum <"$1" | cut -d ' ' -f 1; }

# Whether the kept archive was proved from the sources as they stand, and is the one of SHA256SUMS.
is_kept() {
    [ -f "$kept" ] && [ "$("$top/dist/sources")" = "$(cat "$top/dist/SOURCES")" ] &&
        grep -q "^$(sha256 "$kept")  ${kept#"$top"/}\$" "$top/dist/SHA256SUMS"
}

# Whether an archive, as of target/staticlib, was proved from the sources as they stand. The note beside it says so.
is_proved() { # ARCHIVE
    [ -f "$1" ] && [ -f "$1.sources" ] && [ "$(cat "$1.sources")" = "$("$top/dist/sources") $(sha256 "$1")" ]
}

# Proves and builds the library, over what the prover has kept and for every x86-64 processor, and leaves it in target/staticlib.
build_archive() {
    (cd "$top/crates/barrowtide" && rt lib --cpu x86-64) || return
    mkdir -p "${made%/*}"
    cp "$top/crates/barrowtide/out/libbarrowtide.a" "$made"
}

# Notes of what sources the archive of target/staticlib was proved from.
note_proved() { # HASH
    echo "$1 $(sha256 "$made")" >"$made.sources"
}

# How many crates the library takes. A line of crates.txt is NAME: LIBRARY .. or NAME staticlib: LIBRARY ..
count_crates() {
    awk '
        { sub(/#.*/, ""); at = index($0, ":"); if (at) { split(substr($0, 1, at - 1), name, " "); needs[name[1]] = substr($0, at + 1) } }
        function visit(name, list, i, n) {
            if (name in seen || !(name in needs)) return
            seen[name]; count++
            n = split(needs[name], list, " ")
            for (i = 1; i <= n; i++) visit(list[i])
        }
        END { visit("barrowtide"); print count + 0 }' "$top/crates.txt"
}

# Proves the library, with a line for each crate; all that the prover says goes to a file.
prove_crates() {
    local count line crate done=0
    count=$(count_crates)
    build_archive 2>&1 | tee "$notes" | while IFS= read -r line; do
        case $line in
        "crate "*": modules loaded="*)
            crate=${line#crate }
            crate=${crate%%:*}
            ;;
        logic=proved*)
            done=$((done + 1))
            [ "$crate" != barrowtide ] || done=$count
            say "$done of $count: $crate proved"
            ;;
        "rt: the library "*) say "${line#rt: }" ;;
        esac
    done
}

# Proves the library anew and leaves it in target/staticlib. Only one at a time does so; the lock is on the folder of the
# repository, which stays while target/ comes and goes.
prove() {
    local sources
    need rt "the library"
    exec 8<"$top"
    if ! flock --nonblock 8; then
        say "waiting for another that is proving the library"
        guarded flock 8
    fi
    if ! is_proved "$made"; then
        mkdir -p "$top/target"
        say "proving the library: $(count_crates) crates, ten to twenty minutes the first time; the prover's notes are in $notes"
        sources=$("$top/dist/sources")
        guarded prove_crates || fail "the library could not be proved; $notes has the prover's notes"
        [ "$sources" = "$("$top/dist/sources")" ] || fail "the sources were changed while they were proved"
        note_proved "$sources"
    fi
    exec 8<&-
}

# Sets `archive`: the one of the directory BARROWTIDE_LIB_DIR, if that is set, or else the one of the sources.
find_archive() {
    if [ -n "${BARROWTIDE_LIB_DIR:-}" ]; then
        BARROWTIDE_LIB_DIR=$(realpath -m "$BARROWTIDE_LIB_DIR")
        export BARROWTIDE_LIB_DIR
        archive=$BARROWTIDE_LIB_DIR/libbarrowtide.a
        [ -f "$archive" ] || fail "BARROWTIDE_LIB_DIR names a directory without libbarrowtide.a: $BARROWTIDE_LIB_DIR"
        return
    fi
    [ "$(uname -sm)" = "Linux x86_64" ] || fail "the library is for x86-64 Linux alone"
    if is_kept; then
        archive=$kept
    else
        if ! is_proved "$made"; then
            say "dist/ has no archive of the library's sources as they stand"
            prove
        fi
        archive=$made
    fi
}

# Sets `program`, linked with `archive`. Cargo is asked only if the program was built of something else, or is another by
# now; what it was built of stands beside it.
find_program() {
    local target=${CARGO_TARGET_DIR:-${CARGO_BUILD_TARGET_DIR:-$top/bindings/rust/target}} built of
    target=$(realpath -m "$target")
    program=$target/release/barrowtide
    built=$program.built
    of=$(cd "$top/bindings/rust" && "$top/dist/sources" Cargo.toml Cargo.lock barrowtide-sys/build.rs \
        {barrowtide-sys,barrowtide,cli}/{Cargo.toml,src})\ $(sha256 "$archive")
    if [ -x "$program" ] && [ -f "$built" ] && [ "$(cat "$built")" = "$of $(sha256 "$program")" ]; then
        return
    fi
    need cargo "the program"
    say "compiling the program; this takes less than a minute"
    # With a default target of its own, cargo would put the program elsewhere.
    guarded env -u CARGO_BUILD_TARGET cargo build --quiet --release --offline --bin barrowtide \
        --manifest-path "$top/bindings/rust/Cargo.toml" --target-dir "$target" || fail "the program could not be built"
    echo "$of $(sha256 "$program")" >"$built"
}

if [ "${BASH_SOURCE[0]}" = "$0" ]; then
    find_archive
    echo "$archive"
fi
