#!/usr/bin/env bash
# Tries what stands beside the program, on data of the repository: the converter of a kernel's recording, statistics
# and timelines of runs, images compared, the picture, the columns of /proc/buddyinfo, plots, the sentences on what is
# refused, the judge of malformed texts, the pages for man and completion; and how they go with the programs that are
# named. With no argument it takes what the gate has built. The last line counts what was tried.
set -u
unset CDPATH
cd "$(dirname "$0")/.."
passed=0
failed=0
work=$(mktemp -d)
trap 'rm -rf "$work"' EXIT
export PYTHONDONTWRITEBYTECODE=1

# tries NAME COMMAND..: it has to end with status 0; what it says is shown where it does not
tries() {
    local name=$1
    shift
    if "$@" >"$work/said" 2>&1; then
        passed=$((passed + 1))
        return
    fi
    failed=$((failed + 1))
    echo "beside: $name:"
    head -n 10 "$work/said"
}

# makes NAME INPUT OUTPUT COMMAND..: what the command makes of a file is that file, and nothing on standard error
makes() {
    local name=$1 input=$2 output=$3
    shift 3
    "$@" <"$input" >"$work/output" 2>"$work/errors" || echo "status $?" >>"$work/errors"
    tries "$name" cmp "$output" "$work/output"
    tries "$name: standard error" cmp /dev/null "$work/errors"
}

# refuses NAME TEXT COMMAND..: one sentence on standard error with status 1, and nothing on standard output
refuses() {
    refuses_with 1 "$@"
}

# refuses_with STATUS NAME TEXT COMMAND..: the same with another status
refuses_with() {
    local wanted=$1 name=$2 text=$3 status=0
    shift 3
    printf '%b' "$text" | "$@" >"$work/output" 2>"$work/errors" || status=$?
    tries "$name: status $status" [ "$status" = "$wanted" ]
    tries "$name: one sentence" awk 'END { exit NR != 1 }' "$work/errors"
    tries "$name: standard output" cmp /dev/null "$work/output"
}

converter() {
    local cores
    cp examples/replay/kernel-events.txt.gz "$work/events.gz"
    gzip -dc "$work/events.gz" >"$work/events"
    for cores in 1 3; do
        tools/kernel_trace.py --cores "$cores" <"$work/events" >"$work/trace.$cores" 2>"$work/counts.$cores"
        tries "the recording on $cores cores" [ $? = 0 ]
    done
    tries 'the counts of the recording' cmp examples/replay/counts.txt "$work/counts.1"
    tools/kernel_trace.py <examples/replay/parts.txt >"$work/parts" 2>"$work/errors"
    tries 'blocks in parts' cmp examples/replay/parts.csv "$work/parts"
    tries 'a recording as a file' tools/kernel_trace.py examples/replay/parts.txt -o "$work/made"
    tries 'a recording as a file: the same' cmp examples/replay/parts.csv "$work/made"
    refuses 'a recording that is not there' '' tools/kernel_trace.py "$work/nothing"
    refuses 'a recording that is no text' '' tools/kernel_trace.py "$work/events.gz"
    sed '1s/^ *[^ ]*/name\xc3/' examples/replay/parts.txt >"$work/cut"
    tries 'a name that is cut within a letter' tools/kernel_trace.py "$work/cut" -o "$work/made"
    tries 'a name that is cut: the same' cmp examples/replay/parts.csv "$work/made"
    refuses 'no recording' 'a line\n' tools/kernel_trace.py
    refuses 'a window past the last' "$(head -n 3 examples/replay/parts.txt)\n" tools/kernel_trace.py --window 2
    refuses 'no recording at all' '' bash -c 'exec tools/kernel_trace.py <&-'
    { sed -n 1,3p "$work/events"; sed -n '4s/order=[0-9]*/order=99999999999/p' "$work/events"
        printf 'a [000] 1.000000: kmem:mm_page_free: pfn=1 order=%05000d\n' 0; } >"$work/great"
    (ulimit -v 1000000 && exec tools/kernel_trace.py <"$work/great") >"$work/output" 2>"$work/errors"
    tries 'an order that no kernel has' [ $? = 0 ]
    tries 'windows' are_windows "$work/events"
}

# are_windows EVENTS: with room for 20,000 records in a trace the recording is several, each with room kept and each
# beginning with a take of every block that the one before left held; together they have its takes and gives
are_windows() {
    python3 -c '
import collections, sys
sys.path.insert(0, "tools")
import kernel_trace, records
kernel_trace.MOST_RECORDS, kernel_trace.SLICE_RECORDS = 20_000, 1_000
with open(sys.argv[1], encoding="utf-8") as text:
    events = text.readlines()

def takes_of(lines):
    return collections.Counter((line.core, line.label, line.order) for line in lines if line.kind == "take")

for cores in 1, 3:
    left, all_kinds, window, goes_on = collections.Counter(), collections.Counter(), 0, True
    while goes_on:
        window, rows = window + 1, []
        converter = kernel_trace.Converter(cores, 10_000, window, rows.append)
        goes_on = kernel_trace.convert(events, converter)
        lines = records.trace_of("".join(rows).encode(), cores)
        assert len(lines) <= kernel_trace.MOST_RECORDS
        before = sum(left.values())
        assert takes_of(lines[:before]) == left, window
        held = {}
        for line in lines:
            if line.kind == "take":
                assert (line.core, line.label) not in held
                held[line.core, line.label] = line.order
            elif line.kind == "give":
                del held[line.core, line.label]
            elif line.kind == "move":
                held[line.to, line.label] = held.pop((line.core, line.label))
        left = collections.Counter((*block, order) for block, order in held.items())
        all_kinds.update(line.kind for line in lines[before:])
    assert window > 3
    assert (all_kinds["take"], all_kinds["give"]) == (35_589, 34_667), all_kinds' "$1"
}

# rows ROW..: a row a line
rows() {
    printf '%s\n' "$@"
}

# runs_followed: two runs and what is told of them, worked out by hand. On one core a frame of child 0 and all of child
# 1 are held, then child 1 alone, then the second half of child 0. On two cores eight frames of child 0 are held back,
# 24 of child 1 are past the end and one of it is held; eight more of child 0 are held in the first round
runs_followed() {
    rows 0,take,a,0 0,take,b,9 ,round,, 0,give,a, 0,take,c,10 0,give,z, ,round,, 0,give,b, 0,take,d,8 >"$work/one"
    rows 1,0,Taken,0,0 2,0,Taken,512,9 4,0,Given,0,0 5,0,BadOrder,, 6,0,NotHeld,, 8,0,Given,512,9 9,0,Taken,256,8 \
        end,,Closed,256,768 >"$work/one.answers"
    rows round,1,513,511,511,255,127,63,31,15,7,3,1,0 round,2,512,512,512,256,128,64,32,16,8,4,2,1 \
        round,3,256,768,768,384,192,96,48,24,12,6,3,1 >"$work/one.timeline"
    rows '             Taken     Given     Moved  BadOrder   NoBlock Contended   NotHeld      MOST      HELD' \
        'core 0           3         2         0         1         0         0         1       513       256' \
        'all              3         2         0         1         0         0         1       513       256' \
        'frames: 513 of 1024 held at most, 0 from the start' \
        'huge frames: 1 of 2 free at the end, 0 at least' >"$work/one.stats"
    rows ,reserve,0,8 0,take,a,3 1,take,b,0 ,round,, 0,move,a,1 1,give,a, 0,take,c,9 >"$work/two"
    rows 2,0,Taken,8,3 3,1,Taken,512,0 5,0,Moved,8,3 6,1,Given,8,3 7,0,NoBlock,, end,,Closed,33,991 >"$work/two.answers"
    rows round,1,41,983,983,491,245,122,60,29,13,5,1,0 \
        round,2,33,991,991,495,247,123,60,29,13,5,1,0 >"$work/two.timeline"
    rows '             Taken     Given     Moved  BadOrder   NoBlock Contended   NotHeld      MOST      HELD' \
        'core 0           1         0         1         0         1         0         0         8         0' \
        'core 1           1         1         0         0         0         0         0         9         1' \
        'all              2         1         1         0         1         0         0         9         1' \
        'frames: 41 of 1024 held at most after a round, 32 from the start' \
        'huge frames: 0 of 2 free at the end, 0 at least' >"$work/two.stats"
    local run kind text
    for run in one two; do
        for kind in timeline stats; do
            makes "the $kind of run $run" "$work/$run.answers" "$work/$run.$kind" "tools/$kind.py" "$work/$run"
            tries "the $kind of run $run as a file" "tools/$kind.py" "$work/$run" "$work/$run.answers" -o "$work/made"
            tries "the $kind of run $run as a file: the same" cmp "$work/$run.$kind" "$work/made"
            refuses "the $kind of run $run: no input" '' bash -c "exec tools/$kind.py $work/$run <&-"
        done
    done
    tools/stats.py examples/two-cores.csv examples/two-cores.answers.csv >"$work/output"
    tries 'the statistics of docs/USAGE.md' diff <(sed -n '/\$ tools\/stats.py/,/^$/s/^    \([^$]*\)$/\1/p' docs/USAGE.md) \
        "$work/output"
    tries 'the timeline as objects' are_objects "$work/two" "$work/two.answers"
    rows 0,take,a,0 0,take,b,0 >"$work/takes"
    while read -r text; do
        refuses "answers: $text" "$text" tools/timeline.py "$work/takes"
        refuses "answers: $text" "$text" tools/stats.py "$work/takes"
    done <<'END'
1,0,Taken,0,0\nend,,Closed,1,511\n
1,0,Taken,0,0\n2,0,Taken,0,0\nend,,Closed,2,510\n
1,0,Taken,0,0\n2,0,Taken,512,0\nend,,Closed,2,510\n
1,0,Taken,0,0\n2,0,Taken,2,1\nend,,Closed,2,510\n
1,0,Taken,0,0\n2,1,Taken,1,0\nend,,Closed,2,510\n
1,0,Taken,0,0\n3,0,Taken,1,0\nend,,Closed,2,510\n
1,0,Taken,0,0\n2,0,Given,0,0\nend,,Closed,2,510\n
1,0,Taken,0,0\n2,0,NoBlock,1,0\nend,,Closed,1,511\n
1,0,Taken,0,0\n2,0,Taken,1,0\nend,,Closed,2,511\n
1,0,Taken,0,0\n2,0,Taken,1,0\nend,,Closed,1,511\n
1,0,Taken,0,0\n2,0,Taken,1,0\nend,,Closed,600,424\n
1,0,Taken,0,0\n2,0,Taken,1,0\n
1,0,Taken,0,0\n2,0,Taken,1,0\nend,,Closed,"2,510\n

END
    refuses 'answers to no trace' '' tools/stats.py "$work/nothing"
    rows ,reserve,0,0 0,take,a,0 >"$work/range"
    refuses 'answers to a range without a frame' '2,0,Taken,0,0\nend,,Closed,1,511\n' tools/stats.py "$work/range"
    refuses 'a folder that is not there' "$(cat "$work/one.answers")" tools/stats.py "$work/one" -o "$work/nothing/file"
}

# are_objects TRACE ANSWERS: the numbers of the rows stand in objects too
are_objects() {
    python3 -c '
import json, subprocess, sys
def said(script):
    return subprocess.run([script, *sys.argv[1:], "--json"], capture_output=True, check=True).stdout
rounds = [json.loads(line) for line in said("tools/timeline.py").splitlines()]
assert rounds[1] == {"round": 2, "held": 33, "free": 991, "blocks": [991, 495, 247, 123, 60, 29, 13, 5, 1, 0]}
found = json.loads(said("tools/stats.py"))
assert (found["frames"], found["held_from_start"], found["rounds"]) == (1024, 32, 2)
assert found["free_huge_frames"] == {"at_end": 0, "least": 0, "of": 2}
assert (found["cores"]["1"]["most"], found["all"]["Moved"]) == (9, 1)' "$@"
}

# images_compared: two images of two children by hand. In the first, frames 32 to 34 are held and core 0 has the tree;
# in the second 32 and 40 to 47, and child 1 is a huge frame
images_compared() {
    local zeros
    printf -v zeros '%0112d' 0
    rows llfree,1,2,1, "child,0,509,0,0000000700000000$zeros" "child,1,512,0,0000000000000000$zeros" tree,0,1021,1, \
        core,0,0,0, >"$work/one.image"
    rows llfree,1,2,1, "child,0,503,0,0000ff0100000000$zeros" "child,1,0,1,0000000000000000$zeros" tree,0,503,0, \
        core,0,,, >"$work/two.image"
    rows 'child 0: FREE 509 -> 503; held now: 40-47; free now: 33-34' \
        'child 1: FREE 512 -> 0; HUGE 0 -> 1; held now: 512-1023' 'tree 0: FREE 1021 -> 503; RESERVED 1 -> 0' \
        'core 0: TREE 0 -> none; FREE 0 -> none' >"$work/wanted"
    differs "$work/two.image" <"$work/wanted"
    rows '{"child": 0, "FREE": [509, 503], "held_now": [[40, 8]], "free_now": [[33, 2]]}' \
        '{"child": 1, "FREE": [512, 0], "HUGE": [0, 1], "held_now": [[512, 512]]}' \
        '{"tree": 0, "FREE": [1021, 503], "RESERVED": [1, 0]}' '{"core": 0, "TREE": [0, null], "FREE": [0, null]}' |
        differs "$work/two.image" --json
    sed "s/^child,1,0,1,0/child,1,0,1,8/" "$work/two.image" >"$work/three.image"
    makes 'images compared with standard input' "$work/one.image" /dev/null tools/image_diff.py - "$work/one.image"
    tools/image_diff.py "$work/two.image" "$work/three.image" >"$work/output"
    tries 'bits below a huge flag' diff - "$work/output" \
        <<<"child 1: WORDS 0000000000000000$zeros -> 8000000000000000$zeros"
    refuses_with 2 'images of two sizes' '' tools/image_diff.py "$work/one.image" examples/stopped.csv
    refuses_with 2 'an image of none' 'llfree,1,1,1,\n' tools/image_diff.py "$work/one.image" -
    refuses_with 2 'an image that is not there' '' tools/image_diff.py "$work/one.image" "$work/nothing"
}

# differs IMAGE WORDS..: the first image and this one differ, by the rows of standard input, with status 1
differs() {
    local status=0
    tools/image_diff.py "$work/one.image" "$@" >"$work/output" || status=$?
    tries "images that differ: status $status" [ "$status" = 1 ]
    tries "images that differ, ${*:2}" diff - "$work/output"
}

# judges: the judge of malformed texts passes right answers of two cores, and none that are wrong
judges() {
    python3 -c '
import sys
sys.path.insert(0, "tools")
import fuzz, records
def is_right(trace, answers):
    try:
        fuzz.check_answers(fuzz.Memory(16, 2, 8192, []), records.trace_of(trace.encode(), 2), answers.encode())
    except fuzz.Wrong:
        return False
    return True
takes = "0,take,a,0\n1,take,b,0\n"
assert is_right(takes, "1,0,Taken,0,0\n2,1,Taken,4096,0\nend,,Closed,2,8190\n")
assert not is_right(takes, "1,0,Taken,0,0\n2,1,Taken,0,0\nend,,Closed,2,8190\n")
assert not is_right(takes, "2,1,Taken,0,0\n1,0,Taken,4096,0\nend,,Closed,2,8190\n")
assert not is_right(takes, "1,0,Taken,0,0\n2,1,Taken,4096,0\nend,,Closed,1,8191\n")
# within a round a block may go from one core to the other, in either order of the answers
goes = "1,take,b,0\n0,take,a,0\n0,give,a,\n"
assert is_right(goes, "1,1,Taken,0,0\n2,0,Taken,0,0\n3,0,Given,0,0\nend,,Closed,1,8191\n")
assert not is_right(goes, "1,1,Taken,0,0\n2,0,Taken,1,0\n3,0,Given,0,0\nend,,Closed,2,8190\n")
assert not is_right(goes, "1,1,Taken,0,0\n2,0,Taken,1,0\n3,0,NotHeld,,\nend,,Closed,2,8190\n")
# but none that the other has all the while, and not two crosswise, each taken behind the one that its core keeps
idle = "0,take,a,0\n,round,,\n1,take,b,0\n1,give,b,\n"
assert not is_right(idle, "1,0,Taken,0,0\n3,1,Taken,0,0\n4,1,Given,0,0\nend,,Closed,1,8191\n")
cross = "0,take,a,0\n1,take,b,0\n0,take,c,0\n1,take,c,0\n0,give,c,\n1,give,c,\n"
says = "1,0,Taken,0,0\n2,1,Taken,1,0\n3,0,Taken,{0},0\n4,1,Taken,{1},0\n5,0,Given,{0},0\n6,1,Given,{1},0\n"
says += "end,,Closed,2,8190\n"
assert is_right(cross, says.format(1, 2)) and is_right(cross, says.format(2, 0))
assert not is_right(cross, says.format(1, 0))'
}

# replays PROGRAM: on one core every take is taken and every give given, and as many frames are held as was counted
replays() {
    "$1" run 32 1 <"$work/trace.1" >"$work/answers" 2>"$work/errors"
    local held
    held=$(awk '/held at the end/ { gsub(",", ""); print $1 }' "$work/counts.1")
    tries "$1: every take and give" awk -F, -v held="$held" '
        FNR == NR { asked[FNR] = $2; next }
        $1 == "end" { ended = $4 == held; next }
        { answered++; if ($3 != (asked[$1] == "take" ? "Taken" : "Given")) wrong = 1 }
        END { exit wrong || !ended || answered != length(asked) }' "$work/trace.1" "$work/answers"
    "$1" image 32 1 <"$work/trace.1" | "$1" report | sed -n 's/^all,,/round,1,/p' >"$work/all"
    tries "$1: the timeline ends with the report" cmp "$work/all" <(tools/timeline.py "$work/trace.1" "$work/answers")
    tools/stats.py "$work/trace.1" "$work/answers" >"$work/stats"
    tries "$1: the most that is held" diff <(awk '/^frames/ { print $2 }' "$work/stats") \
        <(awk '/held at once/ { gsub(",", ""); print $1 }' "$work/counts.1")
    tries "$1: takes and gives are counted" diff <(awk '/^all/ { print $2, $3, $10 }' "$work/stats") \
        <(awk -F, -v held="$held" '{ count[$2]++ } END { print count["take"], count["give"], held }' "$work/trace.1")
    tries "$1: on three cores" python3 -c '
import sys
sys.path.insert(0, "tools")
import fuzz
fuzz.Answer.seconds = 30
with open(sys.argv[2], "rb") as trace:
    fuzz.try_trace(sys.argv[1], ["64", "3"], trace.read())' "$1" "$work/trace.3"
}

# says TEXT WORDS SENTENCE: why.py's answer to a text
says() {
    local sentence=$3 words
    read -ra words <<<"$2"
    printf '%b' "$1" | tools/why.py "${words[@]}" >"$work/output" 2>"$work/errors"
    tries "why: $1" diff <(printf '%s\n' "$sentence") "$work/output"
}

sentences() {
    says '0,take,a,0\n\n\n0,take,a\n' '1 1' \
        'bad trace at record 2 (line 4): a record of a trace has 4 fields, and here are 3'
    says '0,take, a,0\n' '1 1' \
        'bad trace at record 1 (line 1): a label has ASCII letters, digits, _ and - alone, and here stands " a"'
    says '0,take,abcdefghijklmnopq,0\n' '1 1' \
        'bad trace at record 1 (line 1): a label has 1 to 16 bytes, and here are 17: "abcdefghijklmnopq"'
    says '2,take,a,0\n' '1 2' \
        'bad trace at record 1 (line 1): a core of a run with CORES 2 is 0 to 1, and here stands "2"'
    says '0,take,a,256\n' '1 1' 'bad trace at record 1 (line 1): an order is 0 to 255, and here stands "256"'
    says '0,give,a,0\n' '1 1' \
        'bad trace at record 1 (line 1): the fourth field of a give is empty, and here stands "0"'
    says '0,take,a,0\n,reserve,0,1\n' '1 1' \
        'bad trace at record 2 (line 2): a reserve stands before every other kind of record'
    says '0,take,"a\nb",0\n' '1 1' \
        'bad trace at record 1 (line 1): a label has ASCII letters, digits, _ and - alone, and here stands "a\nb"'
    says '0,take,a,0\n' '1 1' 'nothing is wrong with this trace'
    says '0,take,a,0\n' '1 65' 'bad geometry: a memory has 1 to 64 cores, and here are 65'
    says 'llfree,1,1,1,\nchild,0,513,0,\n' '' \
        'bad image at record 2 (line 2): FREE of a child is 0 to 512, and here stands "513"'
    says 'llfree,1,1,1,\n' '' 'bad image at record 2: the text ends, and child 0 is missing'
    says '0,take,a,0\n\n0,take,"b,0\n0,take,c,0\n' '1 1' \
        'bad trace at record 2 (line 3): a quote that opens on line 3 is '\
'never closed; a record of a trace has 4 fields, and here are 3'
    says '0,take,"a",0\n0,take,b,"0' '1 1' 'nothing is wrong with this trace'
    says 'llfree,1,1,1,\n"child",0,512,0,"00\n\n' '' 'bad image at record 2 (line 2): a quote that opens on line 2 is '\
'never closed; WORDS are 128 hexadecimal digits, and here are 4'
    printf '\n1,take,a,0\n' >"$work/core"
    tools/why.py 1 1 "$work/core" --json >"$work/output"
    tries 'why: an object' diff - "$work/output" <<'END'
{"fault": "bad trace at record 1", "line": 2, "why": "a core of a run with CORES 1 is 0 to 0, and here stands \"1\""}
END
    refuses_with 2 'why: no input' '' bash -c 'exec tools/why.py 1 1 <&-'
    refuses_with 2 'why: a file that is not there' '' tools/why.py 1 1 "$work/nothing"
    refuses_with 2 'why: sizes that are none' '' tools/why.py 1 99999999999
    yes ,round,, | head -n 1000001 >"$work/rounds"
    tools/why.py 1 1 <"$work/rounds" >"$work/output"
    tries 'why: a record more' diff - "$work/output" \
        <<<'bad trace at record 1000001 (line 1,000,001): a trace has at most 1,000,000 records'
    head -c 16777217 /dev/zero | tr '\0' '\n' >"$work/ends"
    tools/why.py 1 1 <"$work/ends" >"$work/output"
    tries 'why: a byte more' diff - "$work/output" \
        <<<'read failed: a text has at most 16,777,216 bytes, and this one has 16,777,217 or more'
}

pictures() {
    local image=examples/replay/kernel.image.csv
    makes 'the picture of children' "$image" docs/pictures/kernel.svg tools/picture.py
    tools/picture.py --frames <"$image" >"$work/frames.svg"
    tries 'the picture of frames' are_frames "$image" "$work/frames.svg"
    makes 'the columns of a report' examples/replay/kernel.report.csv examples/replay/kernel.buddyinfo.txt \
        tools/buddyinfo.py
    tries 'the picture as a file' tools/picture.py "$image" -o "$work/made"
    tries 'the picture as a file: the same' cmp docs/pictures/kernel.svg "$work/made"
    tries 'the columns as a file' tools/buddyinfo.py examples/replay/kernel.report.csv -o "$work/made"
    tries 'the columns as a file: the same' cmp examples/replay/kernel.buddyinfo.txt "$work/made"
    # a tree with frames 0 to 2 held has, in no greater free block, one of each order but the last, which has seven
    printf '%s\n' tree,0,3,4093,4093,2046,1023,511,255,127,63,31,15,7 | tools/buddyinfo.py --json >"$work/made"
    tries 'the columns as an object' diff - "$work/made" \
        <<<'{"name": "tree 0", "blocks": [1, 0, 1, 1, 1, 1, 1, 1, 1, 7]}'
    refuses 'a picture of no image' 'llfree,1,1,1,\n' tools/picture.py
    refuses 'a picture of no input' '' bash -c 'exec tools/picture.py <&-'
    refuses 'a picture of no file' '' tools/picture.py "$work/nothing"
    refuses 'a picture for nobody' "$(cat "$image")\n" bash -c 'exec tools/picture.py >&-'
    refuses 'columns of no report' 'tree,0\n' tools/buddyinfo.py
    refuses 'columns of an empty report' '' tools/buddyinfo.py
    refuses 'a free block of order 1 without two of order 0' 'all,,5,2,1,1,0,0,0,0,0,0,0,0\n' tools/buddyinfo.py
    refuses 'columns of no input' '' bash -c 'exec tools/buddyinfo.py <&-'
}

plots() {
    local result=bench/results/allocator-2026-11-27.txt
    makes 'the plot of threads' "$result" docs/pictures/threads.svg bench/plot.py --only pairs,0 pairs,9 random,mixed
    makes 'the plot from C' bench/results/c-2026-11-28.csv docs/pictures/from-c.svg bench/plot.py
    makes 'the plot of a kernel replayed' bench/results/replay-2026-11-28-4.txt docs/pictures/replay.svg bench/plot.py
    makes 'the plot of phases' bench/results/paper-2026-11-29.csv docs/pictures/phases.svg bench/plot.py \
        --only pair,0 take,0 random,0
    bench/plot.py --slide <"$result" >"$work/plot"
    tries 'a plot for a slide' [ "$(grep -c 'Xeon' "$work/plot")" = 0 ]
    printf '# machine: a\n# date: b\n# method: c\nthreads  llfree ns  buddy ns\n      1       50.6      27.1\n      2       53.8     274.8\n' |
        bench/plot.py >"$work/plot"
    tries 'the plot of a replay' grep -q 'million takes and gives a second' "$work/plot"
    tries 'the plot of a replay: its lines' [ "$(grep -c '<polyline' "$work/plot")" = 2 ]
    bench/plot.py bench/results/pairs-2026-11-26.txt --only 'one tree,9' >"$work/plot"
    tries 'the plot in a tree' grep -q 'all on one tree, order 9' "$work/plot"
    refuses 'a plot of no table' '# date: today\n' bench/plot.py
    local head='# machine: a\n# date: b\n# method: c\n'
    refuses 'a plot of no allocator' "${head}threads  other ns\n      1      50.6\n" bench/plot.py
    refuses 'a plot of no threads' "${head}what,ms\none,2\n" bench/plot.py
}

# are_frames IMAGE SVG: as many points of the picture are of the colour of held frames as the image holds
are_frames() {
    python3 -c '
import base64, re, struct, sys, zlib
sys.path.insert(0, "tools")
import records
with open(sys.argv[1], "rb") as text, open(sys.argv[2], "rb") as file:
    image, data = records.image_of(text.read()), base64.b64decode(re.search(b"base64,([^\"]*)", file.read())[1])
width, height = struct.unpack(">II", data[16:24])
at = data.index(b"IDAT")
length, = struct.unpack(">I", data[at - 4:at])
points = zlib.decompress(data[at + 4:at + 4 + length])
held = sum(bin(words).count("1") for words in image.words)
sys.exit(len(points) != height * (width + 1) or points.count(1) != held)' "$1" "$2"
}

# the words that bash completes the last word of a command line to
completed() {
    bash -c '. completions/llfree.bash; COMP_WORDS=("$@"); COMP_CWORD=$(($# - 1)); _llfree; echo "${COMPREPLY[*]}"' \
        bash "$@"
}

# the words that zsh offers for the last word of a command line, by stand-ins for what its completion calls
offered() {
    zsh -fc '_describe() { print -r -- ${${(P)2}%%:*} }
        _wanted() { while [[ $1 != compadd ]]; do shift; done; print -r -- ${@:2} }
        words=("$@") CURRENT=$#
        . completions/_llfree' zsh "$@"
}

pages() {
    makes 'llfree.3, of the header' include/llfree.h man/llfree.3 man/pages.py
    local page
    for page in man/llfree.1 man/llfree.3; do
        if command -v groff >/dev/null; then
            groff -ww -z -man "$page" >"$work/errors" 2>&1
            tries "$page: lint" cmp /dev/null "$work/errors"
        else
            echo "skipped: lint of $page, for want of groff (groff)"
        fi
    done
    tries 'llfree.1 has the faults of the formats' diff \
        <(sed -n '/^## Faults/,$s/^| `\([^`]*\)` |.*/\1/p' docs/FORMATS.md | sort) \
        <(sed -n '/^\.SH DIAG/,/^\.SH ENV/{s/"//g; s/  N$/ N/; s/^\.BI* \([a-z].*\)/\1/p}' man/llfree.1 | sort)
    tries 'completion: a command' [ "$(completed llfree re)" = 'rebuild report' ]
    tries 'completion: cores' [ "$(completed llfree run 8 6)" = 64 ]
    tries 'completion: frames' [ "$(completed llfree image 8 1 '')" = 4096 ]
    tries 'completion: children' [ "$(completed llfree run 4)" = 4096 ]
    tries 'completion: frames of 4096 children' [ "$(completed llfree run 4096 1 '')" = 2097152 ]
    tries 'completion: frames of too many' [ -z "$(completed llfree run 4097 1 '')" ]
    tries 'completion: frames of none' [ -z "$(completed llfree run 0 1 '')" ]
    tries 'completion: a file' [ "$(completed llfree report '<' README)" = README.md ]
    if command -v zsh >/dev/null; then
        tries 'completion for zsh: commands' [ "$(offered llfree '')" = 'run image rebuild report' ]
        tries 'completion for zsh: cores' [ "$(offered llfree run 8 '')" = '1 2 4 8 16 32 64' ]
        tries 'completion for zsh: frames' [ "$(offered llfree image 8 1 '')" = 4096 ]
        tries 'completion for zsh: nothing' [ -z "$(offered llfree report '')" ]
    else
        echo 'skipped: completion for zsh, for want of zsh (zsh)'
    fi
}

# is_usage PROGRAM: the lines of the SYNOPSIS are the program's own
is_usage() {
    diff <("$1" 2>&1 | sed 's/^usage: //; s/ | /\n/g') \
        <(sed -n '/^\.SH SYNOPSIS/,/^\.SH DESCRIPTION/p' man/llfree.1 | sed '/^\./d; s/\\f.//g')
}

converter
sentences
runs_followed
images_compared
tries 'the judge of malformed texts' judges
pictures
plots
pages
for program in "${@:-crates/llfree/out/llfree}"; do
    if [ -x "$program" ]; then
        replays "$program"
        tries "$program: the SYNOPSIS of llfree.1" is_usage "$program"
        tries "$program: why.py names what it names" tools/why_agrees.py "$program" 10700
    else
        echo "beside: $program: not built"
        failed=$((failed + 1))
    fi
done
echo "$passed passed, $failed failed"
[ "$failed" = 0 ]
