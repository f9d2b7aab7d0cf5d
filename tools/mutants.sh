#!/usr/bin/env bash
# What tools/mutants.py says of five mutants of a small crate. Two change one function, and two another one that calls it,
# so one check cannot try all. One of these survives, and is not refused. The crate is another one in each run, since rt
# keeps what it tried. The last line counts.
set -u
. "$(dirname "$0")/holds.sh"
tools=$(cd "$(dirname "$0")" && pwd)

# mutant NAME OLD NEW
mutant() { printf 'file: src/lib.rt\nold: %s\nnew: %s\n' "$2" "$3" >"$folder/crates/doubles/must-fail/$1.edit"; }
# says LINE: a line of what was said begins so
says() { grep -q "^rt: $1" "$folder/told" || { cat "$folder/told"; false; }; }

mkdir -p "$folder"/crates/doubles/{src,must-fail}
echo 'doubles:' >"$folder/crates.txt"
echo 'Handles allowed: none.' >"$folder/HANDLES"
echo "//! Numbers twice and four times over, of ${folder##*/}." >"$folder/crates/doubles/src/lib.rt"
cat >>"$folder/crates/doubles/src/lib.rt" <<'END'

#![tactic(auto)]

ghost use Rattle.std.specs.Prelude.{◌≡◌, ◌≤◌, ◌*◌, ◌/◌};

/// Twice the number.
pub fn double(x: u32) -> u32
    requires { x ≤ 1000 }
    ensures value { result ≡ x * 2 }
{
    x * 2
}

/// Four times the number.
pub fn quadruple(x: u32) -> u32
    requires { x ≤ 100 }
    ensures value { result ≡ x * 4 }
{
    2 * double(x)
}

/// Half the number.
pub fn half(x: u32) -> u32
    ensures value { result ≡ x / 2 }
{
    x / 2
}
END
mutant thrice '    x * 2' '    x * 3'
mutant once '    x * 2' '    x'
mutant third '    x / 2' '    x / 3'
mutant sixfold '2 * double(x)' '3 * double(x)'
mutant survives '2 * double(x)' 'double(x) * 2'
(cd "$folder" && "$tools/mutants.py" must-fail) >"$folder/told" 2>&1
holds 'more than one check' says 'doubles: [2-5] checks refused 4 of 5 mutants, 4 at an open goal; each other is tried'
for name in thrice once third sixfold; do holds "$name" says "must-fail doubles/$name.edit: refused, as it must be: "; done
holds survives says 'must-fail doubles/survives.edit: NOT REFUSED: the crate is still proved with this edit'
ends
