#!/usr/bin/env bash
# Runs the built program on the examples and on what it refuses, and compares its output, its errors
# and its status with what docs/USAGE.md and docs/FORMATS.md say. With no argument it takes what the
# gate has built. The last line counts the runs.
set -u
unset CDPATH
cd "$(dirname "$0")/.."
usage='usage: llfree run CHILDREN CORES [FRAMES] | llfree image CHILDREN CORES [FRAMES] | llfree rebuild | llfree report'
passed=0
failed=0
work=$(mktemp -d)
trap 'rm -rf "$work"' EXIT

# expects NAME STATUS OUTPUT ERRORS: the texts without their last line feed
expects() {
    : >"$work/output.expected"
    : >"$work/errors.expected"
    [ -z "$3" ] || printf '%s\n' "$3" >"$work/output.expected"
    [ -z "$4" ] || printf '%s\n' "$4" >"$work/errors.expected"
    compares "$1" "$2"
}

# compares NAME STATUS: the last run, with what was expected of it
compares() {
    if [ "$status" = "$2" ] && cmp -s "$work/output" "$work/output.expected" &&
        cmp -s "$work/errors" "$work/errors.expected"; then
        passed=$((passed + 1))
        return
    fi
    failed=$((failed + 1))
    echo "answers: $program: $1: status $status, $2 is expected; its output and its errors:"
    head -n 5 "$work/output"
    head -n 5 "$work/errors"
}

# runs WORDS..: the program on standard input
runs() {
    status=0
    timeout 60 "$program" "$@" >"$work/output" 2>"$work/errors" || status=$?
}

# runs_slowly WORDS..: a byte a read, and three bytes a write
runs_slowly() {
    LD_PRELOAD=$work/refusing.so MOST_READ=1 MOST_WRITTEN=3 runs "$@"
}

# refuses NAME STATUS ERRORS TEXT WORDS..: nothing is written on standard output
refuses() {
    local name=$1 wanted=$2 errors=$3 text=$4
    shift 4
    runs "$@" < <(printf '%b' "$text")
    expects "$name" "$wanted" '' "$errors"
}

# answers NAME CHILDREN: an example
answers() {
    runs run "$2" 1 <"examples/$1.csv"
    cp "examples/$1.answers.csv" "$work/output.expected"
    : >"$work/errors.expected"
    compares "$1" 0
}

# writes TEXT OUTPUT WORDS..: the text is read, and this output written, through slow devices too
writes() {
    local text=$1 output=$2
    shift 2
    runs "$@" < <(printf '%b' "$text")
    expects "$*: $text" 0 "$output" ''
    if [ -e "$work/refusing.so" ]; then
        runs_slowly "$@" < <(printf '%b' "$text")
        expects "slowly, $*: $text" 0 "$output" ''
    fi
}

# shows_end N: of the last output only so many lines count
shows_end() {
    tail -n "$1" "$work/output" >"$work/end"
    mv "$work/end" "$work/output"
}

# repeats TEXT: what stands in braces says how many there are of the character before
repeats() {
    local text=$1 run
    while [[ $text =~ ^(.*)(.)\{([0-9]+)\}(.*)$ ]]; do
        printf -v run '%*s' "${BASH_REMATCH[3]}" ''
        text=${BASH_REMATCH[1]}${run// /${BASH_REMATCH[2]}}${BASH_REMATCH[4]}
    done
    printf '%s' "$text"
}

# lines_of TEXT: the same, with the escapes of printf
lines_of() {
    printf '%b' "$(repeats "$1")"
}

# makes COMMAND FILE ANSWER: what a command makes of an example
makes() {
    runs "$1" <"examples/$2.csv"
    cp "examples/$3.csv" "$work/output.expected"
    : >"$work/errors.expected"
    compares "$1 of $2" 0
}

# reports NAME: the report of the image that a run of an example ends with
reports() {
    runs image 1 1 <"examples/$1.csv"
    mv "$work/output" "$work/image"
    runs report <"$work/image"
    cp "examples/$1.report.csv" "$work/output.expected"
    : >"$work/errors.expected"
    compares "the report of $1" 0
}

# answered: traces with their answers, and with the images that they leave
answered() {
    local sizes text want children cores frames orders
    while IFS='|' read -r sizes text want; do
        read -r children cores frames <<<"$sizes"
        want=$(printf '%b' "$want")
        writes "$text" "$want" run $sizes
        [ "$cores" != 1 ] || writes "$text" "$want" run "$children" 2 $frames
    done < <(rows answered/traces)
    while IFS='|' read -r sizes text want; do
        writes "$text" "$(lines_of "$want")" image $sizes
    done < <(rows answered/images)
    full_child
    half_free
    cut_child
    held_back
    all_taken
    for orders in '0 0' '0 9' '9 9' '8 3'; do
        busy $orders
    done
    long_traces
}

images() {
    reports every-order
    makes rebuild stopped stopped.rebuilt
    makes rebuild stopped.rebuilt stopped.rebuilt
    makes report stopped stopped.report
    makes report stopped.rebuilt stopped.report
    local text want sizes
    while IFS='|' read -r text want; do
        writes "$(repeats "$text")" "$(lines_of "$want")" rebuild
        writes "$(repeats "$want")" "$(lines_of "$want")" rebuild
    done < <(rows answered/rebuilt)
    while IFS='|' read -r text want; do
        writes "$(repeats "$text")" "$(lines_of "$want")" report
    done < <(rows answered/reports)
    while read -r sizes; do
        is_read_back $sizes
    done <<<$'1 1 512\n1 64 1\n7 2 3584\n8 3 4095\n9 1 4608\n4096 64 2097152'
    prefixes "$(lines_of 'llfree,1,1,1,\nchild,0,511,0,00000000000000010{112}\ntree,0,0,1,\ncore,0,0,511,')"
}

# is_read_back CHILDREN CORES FRAMES: an image of these sizes; what rests with a core is put back
is_read_back() {
    local last=$(($2 - 1))
    runs image "$@" </dev/null
    mv "$work/output" "$work/fresh"
    runs image "$@" < <(printf '%s\n' "$last,take,a,0" "$last,give,a,")
    mv "$work/output" "$work/image"
    runs rebuild <"$work/image"
    mv "$work/fresh" "$work/output.expected"
    : >"$work/errors.expected"
    compares "the image of $*" 0
}

# prefixes TEXT: of each front of an image's text, but the last, the record is named that is cut or missing;
# the last lacks but a line feed, and is read as the whole
prefixes() {
    local text=$1 size whole=0 lacks
    for ((size = 0; size < ${#text}; size++)); do
        lacks=1
        [ "${text:size:1}" != $'\n' ] || lacks=2
        refuses "$size bytes of an image" 1 "llfree: bad image at record $((whole + lacks))" \
            "${text:0:size}" rebuild
        whole=$((whole + lacks - 1))
    done
    runs rebuild < <(printf '%s\n' "$text")
    cp "$work/output" "$work/whole"
    runs rebuild < <(printf '%s' "$text")
    cp "$work/whole" "$work/output.expected"
    : >"$work/errors.expected"
    compares 'an image without its last line feed' 0
}

# is_answered NAME CHILDREN CORES [FRAMES]: the input has these answers, through slow devices too
is_answered() {
    local name="$1 on $3 cores"
    shift
    cp "$work/answers" "$work/output.expected"
    : >"$work/errors.expected"
    runs run "$@" <"$work/input"
    compares "$name" 0
    if [ -e "$work/refusing.so" ]; then
        runs_slowly run "$@" <"$work/input"
        compares "slowly, $name" 0
    fi
}

# full_child: a child is taken frame by frame, given, and taken whole
full_child() {
    local cores
    { lines 513 '0,take,a,0'; lines 512 '0,give,a,'; echo '0,take,z,9'; } >"$work/input"
    {
        seq 0 511 | awk '{ print $1 + 1 ",0,Taken," $1 ",0" }'
        echo '513,0,NoBlock,,'
        seq 0 511 | awk '{ print $1 + 514 ",0,Given," $1 ",0" }'
        printf '%s\n' '1026,0,Taken,0,9' 'end,,Closed,512,0'
    } >"$work/answers"
    for cores in 1 2; do
        is_answered 'a full child' 1 "$cores"
    done
}

# half_free: every second frame of a child is held, and no two frames side by side are free: a take of two
# is refused, once what rests with the core stands in the tree again
half_free() {
    local cores
    {
        lines 512 '0,take,a,0'
        seq -f '0,giveat,%.0f,0' 1 2 511
        printf '0,take,b,1\n'
    } >"$work/input"
    {
        seq 0 511 | awk '{ print $1 + 1 ",0,Taken," $1 ",0" }'
        seq 1 2 511 | awk '{ print 512 + NR ",0,Given," $1 ",0" }'
        printf '%s\n' '769,0,NoBlock,,' 'end,,Closed,256,256'
    } >"$work/answers"
    for cores in 1 2; do
        is_answered 'every second frame' 1 "$cores"
    done
    runs image 1 1 <"$work/input"
    expects 'the image of every second frame' 0 "$(lines_of 'llfree,1,1,1,\nchild,0,256,0,5{128}
tree,0,256,0,\ncore,0,,,')" ''
}

# cut_child: of 300 frames of a child as many blocks of an order are taken as fit, one behind the other, and no more
cut_child() {
    local order size cores
    for order in 9 8 7 6 5 4 3 2 1 0; do
        size=$((1 << order))
        lines $((300 / size + 1)) "0,take,a,$order" >"$work/input"
        seq 0 $size $((300 - size)) | awk -v size=$size -v order=$order '
            { print NR ",0,Taken," $1 "," order }
            END { print NR + 1 ",0,NoBlock,,"
                  print "end,,Closed," 212 + NR * size "," 300 - NR * size }' >"$work/answers"
        for cores in 1 2; do
            is_answered "a cut child, order $order" 1 "$cores" 300
        done
    done
    runs image 1 1 300 <"$work/input"
    expects 'the image of a cut child' 0 "$(lines_of 'llfree,2,1,1,300\nchild,0,0,0,f{128}
tree,0,0,0,\ncore,0,,,')" ''
}

# held_back: all frames outside the ranges and before the end are taken, in their order, and given again
held_back() {
    local cores
    printf '%s\n' ',reserve,0,1' ',reserve,70,130' ',reserve,511,2' >"$work/ranges"
    { cat "$work/ranges"; lines 468 '0,take,a,0'; lines 467 '0,give,a,'; } >"$work/input"
    { seq 1 69; seq 200 510; seq 513 599; } >"$work/frames"
    {
        awk '{ print 3 + NR ",0,Taken," $1 ",0" }' "$work/frames"
        echo '471,0,NoBlock,,'
        awk '{ print 471 + NR ",0,Given," $1 ",0" }' "$work/frames"
        echo 'end,,Closed,557,467'
    } >"$work/answers"
    for cores in 1 2; do
        is_answered ranges 2 "$cores" 600
    done
    runs image 2 1 600 <"$work/input"
    mv "$work/output" "$work/image"
    runs rebuild <"$work/image"
    mv "$work/output" "$work/rebuilt"
    runs image 2 1 600 <"$work/ranges"
    mv "$work/rebuilt" "$work/output.expected"
    : >"$work/errors.expected"
    compares 'the image of ranges, as before the takes' 0
}

# all_taken: two cores at once take all 300 frames of a memory, and then the first what is left: each frame just once
all_taken() {
    { yes $'0,take,a,0\n1,take,b,0' | head -n 600; echo ',round,,'; lines 300 '0,take,a,0'; } >"$work/input"
    runs run 1 2 300 <"$work/input"
    awk -F, '$3 == "Taken" { count++; sum += $4 } $1 == "end" { print count, sum, $4, $5 }' "$work/output" >"$work/sums"
    mv "$work/sums" "$work/output"
    expects 'two cores take all frames' 0 '300 44850 512 0' ''
}

# busy ORDER ORDER: two cores take and give at once, after a block went from one to the other; all frames are free then
busy() {
    {
        printf '%s\n' '0,take,m,0' ',round,,' '0,move,m,1'
        yes "0,take,x,$1
1,take,x,$2
0,give,x,
1,give,x," | head -n 4000
        echo '1,give,m,'
    } >"$work/input"
    runs run 8 2 <"$work/input"
    { head -n 2 "$work/output"; tail -n 1 "$work/output"; } >"$work/ends"
    mv "$work/ends" "$work/output"
    expects "two busy cores, orders $1 and $2" 0 $'1,0,Taken,0,0\n3,0,Moved,0,0\nend,,Closed,0,4096' ''
}

# long PLACE TEXT ROW: 6,000 records, more than one part reads or answers, of two cores whose takes are refused for
# their order, with another text in the place of one; and their answers, with another in the place of that
long() {
    seq 6000 | awk -v place="$1" -v text="$2" \
        '$1 == place { printf "%s", text; next } { print $1 % 2 ",take,x,10" }' >"$work/input"
    seq 6000 | awk -v place="$1" -v row="$3" \
        '$1 == place { printf "%s", row; next } { print $1 "," $1 % 2 ",BadOrder,," }' >"$work/answers"
    echo 'end,,Closed,0,4096' >>"$work/answers"
}

# long_traces: each part of a long trace is answered, whatever one record is, and the lowest refused record is named
long_traces() {
    local place text row
    while IFS='|' read -r place text row; do
        long "$place" "$text" "$row"
        is_answered "a long trace, with $text as record $place" 8 2
    done <<'END'
0||
1|\357\273\2771,take,x,10\n|1,1,BadOrder,,\n
3001|"1","take",x,"10"\r\n|3001,1,BadOrder,,\n
1501|\n\r\n1,take,x,10\r|1501,1,BadOrder,,\n
4501|1,give,x,\n|4501,1,NotHeld,,\n
3000|,round,,\n|
6000|0,take,x,10|6000,0,BadOrder,,\n
END
    for place in 1 1500 3000 3001 4500 6000; do
        for text in '2,take,x,10\n' '0,take,x\n' '0,move,x,1\n' '0,take,x,\357\273\27710\n' ',reserve,0,\n'; do
            long "$place" "$text" ''
            runs run 8 2 <"$work/input"
            expects "a long trace, with $text as record $place" 1 '' "llfree: bad trace at record $place"
        done
    done
}

# rows TABLE: its rows, without its comments
rows() {
    grep -v '^#' "tools/$1.txt"
}

# refused: all that is refused with nothing written, before a take is made
refused() {
    local said frames text line words command cores
    while read -r said line; do
        eval "words=($line)"
        case $said in
            geometry) refuses "$said: ${words[*]}" 1 'llfree: bad geometry' '0,take,a,x' "${words[@]}" ;;
            range) refuses "$said: ${words[*]}" 1 'llfree: bad range' '0,take,a,x' "${words[@]}" ;;
            *) refuses "$said: ${words[*]}" 2 "$usage" '0,take,a,0\n' "${words[@]}" ;;
        esac
    done < <(rows refused/commands)
    for cores in 1 2; do
        while read -r said text; do
            refuses "$text" 1 "llfree: bad trace at record $said" "$text" run 1 "$cores"
        done < <(rows refused/traces)
    done
    while read -r said text; do
        refuses "$text" 1 "llfree: bad trace at record $said" "$text" run 1 1
    done < <(rows refused/cores)
    while read -r frames text; do
        for cores in 1 2; do
            refuses "$text" 1 'llfree: bad range' "$text" run 1 "$cores" "$frames"
        done
    done < <(rows refused/ranges)
    while read -r said text; do
        for command in rebuild report; do
            refuses "$command: $text" 1 "llfree: bad image at record $said" "$(repeats "$text")" "$command"
        done
    done < <(rows refused/images)
    refuses 'a word that is no text' 2 "$usage" '0,take,a,0\n' run 1 1 $'\xff'
    refuses 'a number that is no text' 2 "$usage" '0,take,a,0\n' run 1 $'\xff'
}

# lines COUNT LINE: so many of this line
lines() {
    yes "$2" | head -n "$1"
}

# ranges COUNT: so many ranges of a frame, every second one
ranges() {
    seq -f ',reserve,%.0f,1' 0 2 $((2 * $1 - 1))
}

# is_limit NAME CORES STATUS TEXT COMMAND..: what is read is what the command writes. Where the status
# is 0, the text is how the output ends, and else what is refused
is_limit() {
    local name=$1 cores=$2 wanted=$3 text=$4
    shift 4
    "$@" >"$work/input"
    runs run 5 "$cores" <"$work/input"
    if [ "$wanted" = 0 ]; then
        shows_end 2
        expects "$name" 0 "$text" ''
    else
        expects "$name" "$wanted" '' "$text"
    fi
}

# ends COUNT: a take, and line feeds up to so many bytes
ends() {
    printf '0,take,a,0\n'
    head -c $(($1 - 11)) /dev/zero | tr '\0' '\n'
}

limits() {
    local past='llfree: bad trace at record 1000001' cores
    for cores in 1 2; do
        is_limit 'a million records' $cores 0 '1000000,0,NotHeld,,
end,,Closed,0,2560' lines 1000000 '0,give,a,'
        is_limit 'a record more' $cores 1 "$past" lines 1000001 '0,give,a,'
        is_limit 'a million rounds' $cores 0 'end,,Closed,0,2560' lines 1000000 ',round,,'
        is_limit 'a round more' $cores 1 "$past" lines 1000001 ',round,,'
        is_limit '1024 ranges' $cores 0 'end,,Closed,1024,1536' ranges 1024
        is_limit 'a range more' $cores 1 'llfree: bad range' ranges 1025
        is_limit '16 MiB' $cores 0 '1,0,Taken,0,0
end,,Closed,1,2559' ends 16777216
        is_limit 'a byte more' $cores 3 'llfree: read failed' ends 16777217
    done
}

# limited LIMIT: a run of the input in a shell with this limit
limited() {
    status=0
    # the outer shell would tell of the signal
    {
        timeout 60 bash -c "$1"'; exec "$0" run 1 1' "$program" <"$work/input" >"$work/output" 2>"$work/errors" || status=$?
    } 2>/dev/null
}

# machine: what a shell says where the system ends the program, or does not start it; a front of the output is there then
machine() {
    lines 1000 '0,take,a,10' >"$work/input"
    limited 'ulimit -f 1'
    : >"$work/output"
    expects 'a limit of the output' 153 '' ''
    limited 'trap "" XFSZ; ulimit -f 1'
    : >"$work/output"
    expects 'a limit of the output, as an error' 3 '' 'llfree: write failed'
    # room is made for the records of a text, not for a million of them
    limited 'ulimit -v 30000'
    { seq -f '%.0f,0,BadOrder,,' 1000; echo 'end,,Closed,0,512'; } >"$work/output.expected"
    : >"$work/errors.expected"
    compares 'a short text has little room' 0
    cp "$program" "$work/program"
    chmod a-x "$work/program"
    program=$work/program limited :
    : >"$work/errors"
    expects 'a program that may not be run' 126 '' ''
}

# on_a_terminal: of a run of some seconds a terminal is told how long it lasts; 10,000 takes are refused though half of
# the memory is free. Who types the trace there is told nothing
on_a_terminal() {
    python3 - "$program" >"$work/output" 2>"$work/errors" <<'END'
import os, pty, subprocess, sys, time
rows = ['0,take,a,7'] * 16_384 + [f'0,giveat,{frame},7' for frame in range(0, 2**21, 256)] + ['0,take,a,8'] * 10_000
terminal, errors = pty.openpty()
subprocess.run([sys.argv[1], 'run', '4096', '2'], input='\n'.join(rows).encode(), stdout=subprocess.DEVNULL,
               stderr=errors, timeout=60, check=True)
os.write(errors, b'end\n')
print(os.read(terminal, 4096).decode().splitlines()[0])
typed = subprocess.Popen([sys.argv[1], 'run', '1', '1'], stdin=errors, stdout=subprocess.DEVNULL, stderr=errors)
time.sleep(1.5)
os.write(terminal, b'\4')
typed.wait(timeout=60)
os.write(errors, b'end\n')
print('typed:', 'running' in os.read(terminal, 4096).decode())
END
    status=$?
    expects 'a run on a terminal' 0 $'llfree: running for 1 s\ntyped: False' ''
}

all() {
    answered
    images
    answers three-takes 1
    answers every-order 1
    answers gives-by-frame 1
    answers huge-frames 16

    refused
    limits
    machine
    on_a_terminal

    runs run 1 1 <.
    expects 'a reader that fails' 3 '' 'llfree: read failed'
    if [ -c /dev/full ]; then
        status=0
        timeout 60 "$program" run 1 1 </dev/null >/dev/full 2>"$work/errors" || status=$?
        : >"$work/output"
        expects 'a writer that fails' 3 '' 'llfree: write failed'
        status=0
        printf '0,take,a,x' | timeout 60 "$program" run 1 1 >"$work/output" 2>/dev/full || status=$?
        : >"$work/errors"
        expects 'errors that are not written' 1 '' ''
    fi
}

if command -v cc >/dev/null; then
    cc -O2 -shared -fPIC -o "$work/refusing.so" tools/refusing.c -ldl || failed=$((failed + 1))
else
    echo 'skipped: slow devices, for want of cc (gcc)'
fi
for program in "${@:-crates/llfree/out/llfree}"; do
    if [ -x "$program" ]; then
        all
    else
        echo "answers: $program: not built"
        failed=$((failed + 1))
    fi
done
echo "$passed passed, $failed failed"
[ "$failed" = 0 ]
