#!/usr/bin/env bash
# Tries the binding with rustc alone: its tests, the example, its pages and the first one's program, and what the compiler
# has to refuse, each with the error that its first line names; and by cargo: bindings/rust/test.sh ARCHIVE..
# The archives are those that a program in C is linked with. The last line counts what was tried.
set -u
. "$(dirname "$0")/../../tools/holds.sh"
here=$(cd "$(dirname "$0")" && pwd)
command -v rustc >/dev/null || { skips 'the binding for Rust' 'rustc (rustc)'; ends; }

rust() {
    rustc --edition 2021 -O -D warnings "$@"
}
archives=()
for archive in "$@"; do archives+=(-C "link-arg=$archive"); done
over=(--extern "llfree=$folder/libllfree.rlib" "${archives[@]}")

holds 'the crate' rust --crate-type rlib --crate-name llfree -o "$folder/libllfree.rlib" "$here/src/lib.rs"
[ "$failed" = 0 ] || ends
holds 'its tests are built' rust --test "${over[@]}" -o "$folder/tests" "$here/tests/memory.rs"
holds 'its tests' "$folder/tests"
holds 'the example is built' rust "${over[@]}" -o "$folder/region" "$here/examples/region.rs"
# what the example prints
prints() { diff - <(sed -n 's/^\/\/! It prints `\(.*\)` and `\(.*\)`\./\1\n\2/p' "$here/examples/region.rs"); }
says() { "$folder/region" | prints; }
holds 'the example' says
if command -v rustdoc >/dev/null; then
    holds 'its pages' rustdoc --edition 2021 -D warnings --crate-name llfree -o "$folder/pages" "$here/src/lib.rs"
    holds 'the first page' rustdoc --test --edition 2021 --crate-name llfree "${over[@]}" "$here/src/lib.rs"
else
    skips 'pages of the binding for Rust' 'rustdoc (rustc)'
fi
# with the archives as one, as they are installed
by_cargo() (
    mkdir "$folder/lib" && cp "$@" "$folder/lib" && cp -r "$here" "$folder/crate" && cd "$folder/lib" &&
        printf '%s\n' 'create libllfree.a' "${@/#*\//addlib }" save end | ar -M && cd "$folder/crate" &&
        LLFREE_LIB=$folder/lib cargo run --offline --quiet --example region | prints
)
# from where pkg-config finds them, as they are installed
by_pkg_config() (
    mkdir "$folder/lib/pkgconfig" &&
        sed 's/@version@/1/' "$here/../../examples/c/llfree.pc.in" >"$folder/lib/pkgconfig/llfree.pc" && cd "$folder/crate" &&
        PKG_CONFIG_PATH=$folder/lib/pkgconfig cargo run --offline --quiet --example region | prints
)
if command -v cargo >/dev/null && command -v ar >/dev/null; then
    holds 'by cargo' by_cargo "$@"
    if command -v pkg-config >/dev/null; then
        holds 'by cargo and pkg-config' by_pkg_config
    else
        skips 'the binding for Rust by pkg-config' 'pkg-config (pkg-config)'
    fi
else
    skips 'the binding for Rust by cargo' 'cargo or ar (cargo, binutils)'
fi

# is_refused FILE: by the error of its first line, and by nothing else
is_refused() {
    local error
    error=$(sed -n '1s/^\/\/ //p' "$1")
    ! rust --crate-type lib --error-format short "${over[@]}" -o "$folder/refused.rlib" "$1" 2>"$folder/errors" || return
    grep -q 'error' "$folder/errors" && ! grep 'error' "$folder/errors" | grep -vE "$error|aborting due|could not compile"
}
for file in "$here"/refused/*.rs; do
    holds "refused: $(basename "$file" .rs)" is_refused "$file"
done
ends
