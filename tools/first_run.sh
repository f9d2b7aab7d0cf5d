#!/usr/bin/env bash
# Tries what ./llfree and make build and refuse, in a small tree, with the kit's rt over a stand-in for its other programs
# (tools/stand_in.sh); what the gate's last lines say; and a crate for each rule of rt ci, which the whole kit has to
# refuse, by rt ci and by make. The last line counts.
set -u
. "$(dirname "$0")/holds.sh"
unset LLFREE_UNPROVED RT_JOBS
root=$(cd "$(dirname "$0")/.." && pwd) work=$folder real=$(dirname "$(rt doc)") tree="$folder/a tree" kit=$folder/kit
mkdir -p "$kit"/{bin,c,stand,toolchain/bin,logic_built,rattle/{logic,antt},rlibs/std.rlib/toolchain} "$work/bin"
: >"$kit/rlibs/std.rlib/format"
for name in bin/{rattle,rattle-link} toolchain/bin/clang stand/rt; do cp "$root/tools/stand_in.sh" "$kit/$name"; done
cp "$real"/{WHAT,bin/rtlib.py} "$kit/bin" && mv "$kit/bin/WHAT" "$kit" && ln -s "$real/rattle/std" "$kit/rattle"
sed "1a import os, sys\nif sys.argv[1:2] in (['ci'], ['try']): os.execv('$kit/stand/rt', sys.argv)" "$real/bin/rt" |
    install -m 755 /dev/stdin "$kit/bin/rt"
ln -sft "$work/bin" /bin/*; ln -sft "$work/bin" /usr/bin/*; rm -f "$work"/bin/{make,gmake,rt}

# is WORDS WORDS: both are the same
is() {
    [ "$1" = "$2" ] || { echo "$1, but wanted: $2; what was said ends: $(tail -n 8 "$work/output" "$work/errors")"; false; }
}
# runs COMMAND..: in the tree, with the stand-in
runs() {
    : >"$work/calls" && status=0
    (cd "$tree" && PATH=$kit/bin:$PATH "$@") >"$work/output" 2>"$work/errors" </dev/null || status=$?
}
# rows: of each line the name, what is done, and what comes then: the crates that are built, the sentence behind a !
# with which nothing is, or behind a = the status and the last lines
rows() {
    local row what then found
    while IFS='|' read -r row what then; do
        eval "$what"
        runs "${words[@]}"
        case $then in
            !*) found=!$([ "$status" != 4 ] || cat "$work/output" <(grep -oF -m 1 -e "${then#!}" "$work/errors")) ;;
            =*) found="=$status, $(tail -n 2 "$work/output" | grep -E '^skipped: |^[0-9]+ passed' | paste -sd ';')" ;;
            *) found=$([ "$status" = 0 ] || echo "status $status"; echo $(cat "$work/calls")) ;;
        esac
        holds "$row" is "$found" "$then"
    done
}
fresh() {
    rm -rf "$tree" "$work"/hook.*
    mkdir -p "$tree"/{tools,.git,.ci,docs,man,include,bindings/rust,crates/low/must-fail}
    (cd "$root" && cp --parents llfree Makefile VERSION HANDLES .ci/run tools/{prove,mutants}.py "$tree")
    echo 'stand-in logic 1' | tee "$tree/README.md" >"$kit/KIT-ID"
    printf '%s\n' 'low: ' 'mid: low # and no more' 'other: low' 'llfree: mid low' 'llfree_c staticlib: mid low' >"$tree/crates.txt"
    for name in low mid other llfree llfree_c; do
        mkdir -p "$tree/crates/$name"/{src/out,specs,proofs}
        (cd "$tree/crates/$name" && echo "$name" | tee src/lib.rt src/out/mod.rt specs/Lib.antt >proofs/Lib.antt)
    done
    mv "$tree/crates/llfree/src/lib.rt" "$tree/crates/llfree/src/main.rt"
    chmod -R a+rwX "$work" && chmod -R go-w "$tree"
}
edits() { echo "$2" >"$tree/crates/$1"; }; hooks() { echo "$2" >"$work/hook.$1"; }
links() { mv "$tree/$1" "$work/moved"; ln -s "$work/moved" "$tree/$1"; }
swaps() { # another text is there while mid is proved from a copy, and no longer when the program is built
    edits low/src/lib.rt new
    hooks low "cd '$tree/crates/mid/src'; mv lib.rt ../lib; echo EVIL >lib.rt; cd - >&2"
    hooks llfree "cd '$tree/crates/mid/src'; mv ../lib lib.rt; cd - >&2"
}
unlinks() { rm "$tree/$1"; mv "$work/moved" "$tree/$1"; }
# stopped SIGNAL: while mid is built, as by a terminal
stopped() {
    hooks mid "kill -$1 -- -\$(cat '$work/pid'); sleep 2; echo late >>'$work/calls'"
    runs setsid -w bash -c 'echo $$ >"$0"; exec "$@"' "$work/pid" env --default-signal=INT "${words[@]}"
    sleep 2.5; rm "$work/hook.mid"
}
# gate [NAME TEXT]: the gate over parts that say that they passed, but for one
gate() {
    fresh
    : | tee "$tree/include/llfree.h" "$tree/crates/low/must-fail/one.edit" >"$work/hook.ci"
    for name in $(grep -ohE '(tools|man|bindings/rust)/\w+\.(sh|py)' "$tree"/{.ci/run,Makefile} | grep -vE '(prove|mutants)\.py'); do
        printf '#!/bin/sh\necho "1 passed, 0 failed"\n' >"$tree/$name" && chmod +x "$tree/$name"
    done
    [ $# = 0 ] || printf '#!/bin/sh\n%s\n' "${2:-}" >"$tree/$1"
    echo '1 passed, 0 failed' >"$tree/man/llfree.3"
    words=(env MAKEFLAGS=-n .ci/run)
}

# what is changed is built again, once, with all above it that reads it; what is lacking or refused; the gate
fresh; words=(./llfree run 1 1); rows <<'ROWS'
in a fresh clone||low mid llfree
again, whatever rt left|hooks ci :; (cd "$tree" && "$kit/stand/rt" ci) >/dev/null|
an edit|edits low/src/lib.rt lew|low mid llfree
an edit in a folder named out|edits low/src/out/mod.rt new|low
an edit of a proof|edits low/proofs/Lib.antt new|low
an edit back|edits low/src/lib.rt low|low mid llfree
a file is deleted|rm "$tree/crates/mid/specs/Lib.antt"|mid
a file is renamed|mv "$tree"/crates/low/specs/{Lib,Low}.antt|low
an edit with an old time|edits low/src/lib.rt old; touch -d @0 "$tree/crates/low/src/lib.rt"|low mid llfree
a line of crates.txt|sed -i 's/^mid: .*/mid: low std/' "$tree/crates.txt"|mid llfree
another recipe|echo '# another' >>"$tree/tools/prove.py"|low mid llfree
another library of the kit|echo '# new' >>"$kit/rlibs/std.rlib/checked.a"|low mid llfree
another compiler|echo '# new' >>"$kit/toolchain/bin/clang"|low mid llfree
another linker|echo '# new' >>"$kit/bin/rattle-link"|low mid llfree
another C archive|echo '# new' >>"$kit/c/liblibc_c.a"|low mid llfree
another program was laid in its place|echo by hand >"$tree/build/llfree"|
the clone is copied|cp -r "$tree" "$work/copy"; rm -rf "$tree"; mv "$work/copy" "$tree"|
a crate fails|edits mid/src/lib.rt bad; hooks mid 'exit 1'|!mid is refused: it is not proved
what failed is taken back|edits mid/src/lib.rt mid; rm "$work/hook.mid"|
a source was another while it was built|swaps; runs "${words[@]}"; rm "$work"/hook.*|mid llfree
it was edited while it was built|edits mid/src/lib.rt new; hooks mid "echo mad >'$tree/crates/low/src/lib.rt'"; runs "${words[@]}"; rm "$work"/hook.*|low mid llfree
next after Ctrl-C|edits low/src/lib.rt int; stopped INT|mid llfree
next after TERM|edits low/src/lib.rt term; stopped TERM|mid llfree
next after kill -9|edits low/src/lib.rt kill; stopped KILL 2>/dev/null|mid llfree
of all that nothing is left|words=(env "it=$kit/bin/rattle" sh -c '! grep -e EVIL -e hand build/llfree && ! pgrep -f "$it"')|
an archive|words=(make -s library)|llfree_c
another archive was laid in its place|echo by hand >"$tree/build/libllfree_c.a"; words=(sh -c 'make -s library && ! grep by build/libllfree_c.a')|
an archive after an edit|edits low/src/lib.rt archive; words=(make -s library)|low mid llfree_c
a link to a source|words=(./llfree run 1 1); links crates/low/src/lib.rt|!crates/low/src/lib.rt is a link
a link to sources|unlinks crates/low/src/lib.rt; links crates/low/src|!crates/low/src is a link
a link to crates|unlinks crates/low/src; links crates|!crates is a link
a source that no crate reads|unlinks crates; edits low/other.rt text|!no check reads crates/low/other.rt
a word that rt ci refuses|rm "$tree/crates/low/other.rt"; edits low/src/lib.rt word; hooks low "word='batches=trusted '"|!low is refused: rattle's last line has a word
a program that starts others|rm "$work/hook.low"; echo 'echo posix_spawn' >>"$kit/toolchain/bin/clang"|!llfree is refused: it reaches what only the handle Processes gives
no make|cp "$kit/stand/rt" "$kit/toolchain/bin/clang"; words=(env PATH="$kit/bin:$work/bin" ./llfree run 1 1)|!make is not here
no rt|words=(env PATH="$work/bin:$(dirname "$(command -v make)")" ./llfree run 1 1)|!rt of the Rattle kit is not on the PATH
parts of the gate that lack a tool|rm -f "$work"/bin/{cc,gcc,objdump,rustc}; words=(env -u CC PATH="$work/bin" bash -ec 'for it in c.sh crash.sh kernel.sh clients.sh refusals.py; do grep "^skipped: " <("$0/$it"); done' "$root/tools")|
a make that is too old|printf '#!/bin/sh\nexec %s .FEATURES= "$@"\n' "$(command -v make)" >"$work/bin/make"; chmod +x "$work/bin/make"; words=(env PATH="$kit/bin:$work/bin" ./llfree run 1 1)|!GNU make 4 or later is needed
no find, sort, cmp or grep|rm "$work"/bin/{find,sort,cmp,grep}; ln -sf "$(command -v make)" "$(python3 -c 'import sys; print(sys.executable)')" "$work/bin"; words=(env PATH="$kit/bin:$work/bin" ./llfree run 1 1)|low mid llfree
another kit|words=(./llfree run 1 1); echo 'another logic 2' >"$kit/KIT-ID"|!is none of those that README.md names
a kit with another rt|echo 'stand-in logic 1' >"$kit/KIT-ID"; cp "$kit/bin/rt" "$work"; sed -i 's/ci_over/ci_above/; s/ci_from_nothing/ci_above/' "$kit/bin/rt"|!rt has no known step
a clone that cannot be written to|cp "$work/rt" "$kit/bin"; chmod -R a-w "$tree"; words=($([ "$(id -u)" = 0 ] && echo setpriv --reuid=65534 --regid=65534 --clear-groups) ./llfree run 1 1)|!this clone cannot be written to
MAKEFLAGS, CDPATH and POSIXLY_CORRECT|chmod -R u+w "$tree"; edits low/src/lib.rt flags; words=(env MAKEFLAGS=-n CDPATH=/usr POSIXLY_CORRECT=1 ./llfree run 1 1)|low mid llfree
a shell that is too old|edits low/src/lib.rt shell; echo 'wait() { case $* in *-p*) return 2 ;; esac; builtin wait "$@"; }' >"$work/env"; words=(env BASH_ENV="$work/env" ./llfree run 1 1)|low mid llfree
little room|words=(bash -c 'ulimit -v 60000; exec ./llfree run 1 1')|
hardly any room|edits low/src/lib.rt room; words=(bash -c 'ulimit -v 2900; exec ./llfree run 1 1')|!not built, so nothing was run
two at once|words=(sh -c 'make -s library & make -s library && wait $!')|low mid llfree_c
make NAME|words=(make -s -k other low)|other
make -n|edits low/src/lib.rt last; words=(sh -c 'make -s -n >build/said; test $(grep -c prove.py build/said) = 4')|
the gate: all passes|gate|=0, 19 passed, 0 failed, 0 skipped
make takes what it proved|words=(sh -c 'make -s library && grep llfree_c build/libllfree_c.a')|
the gate: a source changes|gate; hooks ci 'echo mad >crates/low/src/lib.rt'|=0, 19 passed, 0 failed, 0 skipped
make takes nothing then|words=(make -s library)|low mid llfree_c
the gate: a part is killed|gate tools/steps.sh 'kill -9 $$'|=1, 18 passed, 1 failed, 0 skipped
the gate: a part is missing|gate; rm "$tree/tools/c.sh"|=1, 18 passed, 1 failed, 0 skipped
the gate: a part counts what failed, and ends well|gate tools/c.sh 'echo 5 passed, 2 failed'|=1, 23 passed, 2 failed, 0 skipped
the gate: a part counts nothing, and ends badly|gate tools/c.sh 'echo 1 passed, 0 failed; exit 3'|=1, 19 passed, 1 failed, 0 skipped
the gate: a mutant that fits no more|gate crates/low/must-fail/two.edit|=1, 19 passed, 1 failed, 0 skipped
the gate: a tool is missing|gate tools/c.sh 'echo "skipped: this, for want of that (those)"; echo 0 passed, 0 failed'|=0, skipped: this, for want of that (those);18 passed, 0 failed, 1 skipped
the gate: a page is another|gate tools/definitions.py 'echo new >docs/new'|=1, 18 passed, 1 failed, 0 skipped
kernels, with MAKEFLAGS|cp "$root/tools/kernel.sh" "$tree/tools"; rm "$tree/tools/kernel_check.sh"; for it in objdump nm readelf; do ln -sf /bin/true "$kit/bin/$it"; done; words=(env MAKEFLAGS=-n tools/kernel.sh)|=1, 0 passed, 1 failed
ROWS

# what no program has to be built for, and just what the program has as no command; what it refuses for its sizes is its own
fresh
for line in --help --version; do runs ./llfree $line; holds "$line" is "$status, $(cat "$work/calls"), $(wc -l <"$work/output")" '0, , 1'; done
runs ./llfree; usage="2, , $(cat "$work/errors")"
while read -r said line; do
    if [ "$said" = usage ]; then said=$usage; else said="0, try $line, llfree: this answer is not proved (LLFREE_UNPROVED is set)"; fi
    eval "runs env LLFREE_UNPROVED=1 ./llfree $line"
    holds "words: $line" is "$status, $(cat "$work/calls"), $(cat "$work/errors")" "$said"
done < <(grep -v '^#' "$root/tools/refused/commands.txt"; printf '%s\n' 'of run 1 1' 'of run 000000001 64' 'of run 1 1 512' \
    'of image 4096 64 1' 'of rebuild' 'of report' "usage run 1 $'\\xff'" 'usage run 1 1 -1' 'usage run 1 +1' 'usage "run 1 1"')

# a crate for each rule, with the kit
fresh; rm -r "$tree"/crates/* "$tree/crates.txt" && cp "$root/README.md" "$tree"
while read -r name file text; do
    mkdir -p "$(dirname "$tree/crates/$name/$file")"
    case $file in */main.rt | */lib.rt) echo "$name:"; text="#![tactic(auto)]\n\n$text" ;; esac >>"$tree/crates.txt"
    printf '%b\n' "$text" >"$tree/crates/$name/$file"
done < <(grep -v '^#' "$root/tools/refused/rules.txt")
(cd "$tree" && rt ci; make -k $(tr -d : <crates.txt) 2>&1 | grep -E '^\w+ is (proved|refused)') \
    >"$work/output" 2>"$work/errors"
for name in $(tr -d : <"$tree/crates.txt"); do
    holds "rt ci, make: $name" \
        is "$(grep -oE "^(rt: $name NOT PROVED|$name is (proved|refused))" "$work/output" | paste -sd ';')" \
        "$([ "$name" = good ] && echo 'good is proved' || echo "rt: $name NOT PROVED;$name is refused")"
done
ends
