#!/usr/bin/env bash
# Refuses each request for memory of three runs in turn, and holds what each leaves against docs/FORMATS.md. README.md says more.
# usage: bench/faults/run.sh [ROUNDS]    live is gone through so often (once if left out), since its requests come in another order each time
set -euo pipefail
rounds=${1:-1}
here=$(cd "$(dirname "$0")" && pwd)
top=$(cd "$here/../.." && pwd)
scratch=$(mktemp -d "${TMPDIR:-/tmp}/faults.XXXXXX")
trap 'rm -rf "$scratch"' EXIT
"${CC:-cc}" -O2 -Wall -shared -fPIC -o "$scratch/refuse.so" "$here/refuse.c"
# The program itself, since its requests alone are to be refused: not those of the script that builds it.
if [ -z "${PROGRAM:-}" ]; then
    "$top/lepnugan" play < "$top/examples/one-name.txt" > /dev/null 2>&1
    PROGRAM="$top/crates/headend_main/out/headend_main"
fi
PROGRAM=$(readlink -f "$PROGRAM")
cd "$scratch"

# The places of the two functions, side by side, by which the program's values get their memory. Whatever else in it asks starts a thread.
nm -S "$PROGRAM" | awk '$4 == "rattle_alloc" || $4 == "rattle_realloc" { print $1, $2 }' | sort > heap
[ "$(wc -l < heap)" = 2 ]
read -r low _ < heap
read -r high size < <(tail -n 1 heap)
low=$((16#$low)) high=$((16#$high + 16#$size))

# What the runs read: the script, the air of it, and a description with a control and two feeds of two edits each.
cp "$top/examples/one-name.txt" script
"$PROGRAM" play < script > usual.play.air 2> usual.play.report
"$PROGRAM" listen < usual.play.air > usual.listen.air 2> usual.listen.report
cp "$top/examples/live.txt" control
sed '/^end$/q' control > mux
cp "$top/examples/feed-1.txt" feed-1
cp "$top/examples/feed-2.txt" feed-2
echo 'put,102,1,1993-10-13T13:00:00Z,01:00:00,eng,Football,,,,,' >> feed-2
[ "$(cat feed-1 | wc -l) $(cat feed-2 | wc -l)" = '2 2' ]

# The words and the input of each run.
words() {
    case $1 in
        live) echo live --feed feed-1 --feed feed-2 --cycles 1 --join 0 ;;
        *) echo "$1" ;;
    esac
}
input() {
    case $1 in
        play) echo script ;;
        listen) echo usual.play.air ;;
        live) echo control ;;
    esac
}

# One run of which REFUSE has this value, and REFUSE_BUT that of but: leaves its status, air, report and what the library tells.
once() {
    local run=$1 refuse=$2
    rm -f told
    status=0
    timeout 20 env LD_PRELOAD="$scratch/refuse.so" REFUSE="$refuse" REFUSE_BUT="$but" REFUSE_TELL="$scratch/told" \
        "$PROGRAM" $(words "$run") < "$(input "$run")" > air 2> report || status=$?
}

# For what the request was that was refused; nothing, where none was.
purpose() {
    local place
    place=$(sed -n 's/^refused [0-9]*, place \([0-9a-f]*\), .*/\1/p' told)
    [ -n "$place" ] || return 0
    if ((16#$place == 0)); then
        echo "a thread's start, by the C library"
    elif ((low <= 16#$place && 16#$place < high)); then
        echo 'a value'
    else
        echo "a thread's start"
    fi
}

# Whether the first file is a front of the second one.
is_front() { head -c "$(stat -c %s "$1")" "$2" | cmp -s - "$1"; }

# The lines of the report but the fault line, and whether that stands at the end. What is left has whole lines alone.
cut_fault() {
    local fault
    fault=$(tail -n 1 report)
    case $fault in
        'fault: '*) head -n -1 report > lines ;;
        *) fault=; cp report lines ;;
    esac
    told_fault=$fault
    [ ! -s lines ] || [ -z "$(tail -c 1 lines)" ] || return 1
    ! grep -q '^fault: ' lines
}

# Of a run of live: its journal stands in front of the first line with tabs. It is played again, and gives itself and an air.
replay() {
    awk '/\t/ { exit } { print }' lines > journal
    tail -n +$(($(wc -l < journal) + 1)) lines > others
    cat mux journal > again
    "$PROGRAM" play < again > again.air 2> again.report && cmp -s again.report journal
}

# Whether a caller has just these commands in the journal, read from standard input.
has_commands() {
    sed "s/^/$1,/" > wanted
    grep "^$1," journal | cmp -s - wanted
}

# What a run of live leaves that is done.
is_usual_live() {
    replay && cmp -s again.air air || return 1
    "$PROGRAM" audit --air air < again > /dev/null 2>&1 || return 1
    "$PROGRAM" listen < air 2> heard > /dev/null && cmp -s heard others || return 1
    has_commands 0 < <(sed '1,/^end$/d; /^#/d; /^$/d' control; printf 'publish\nswap\nswap\n') || return 1
    has_commands 1 <<< swap || return 1
    has_commands 2 < <(sed 's/^/feed,1,/' feed-1) || return 1
    has_commands 3 < <(sed 's/^/feed,2,/' feed-2) || return 1
    [ "$(grep -c '^=,done$' journal)" = 4 ]
}

# What a run of live leaves that had no memory: its journal, where it was written, and its air and completions, are fronts of one run's.
is_short_live() {
    replay || return 1
    is_front air again.air || is_front again.air air || return 1
    : > heard
    [ ! -s air ] || "$PROGRAM" listen < air 2> heard > /dev/null || return 1
    is_front others heard
}

# Names what a run left, where it is what its status says, and else fails.
judge() {
    local run=$1
    cut_fault || return 1
    case $run,$status,$told_fault in
        live,0,) is_usual_live && echo 0 ;;
        *,0,) cmp -s report "usual.$run.report" && cmp -s air "usual.$run.air" && echo 0 ;;
        live,12,'fault: memory' | live,12,) is_short_live || return 1 ;;&
        play,12,'fault: memory' | play,12, | listen,12,'fault: memory' | listen,12,)
            is_front lines "usual.$run.report" && is_front air "usual.$run.air" || return 1 ;;&
        *,12,'fault: memory') [ -s lines ] && echo '12 with lines and the fault line' || echo '12 with the fault line alone' ;;
        *,12,) [ -s lines ] && echo '12 with lines alone' || echo '12 with nothing' ;;
        live,8,'fault: feed '[12]' not opened') [ ! -s lines ] && [ ! -s air ] && echo "8 with '$told_fault'" ;;
        *) return 1 ;;
    esac
}

# Tells of a run that left what it should not, and where it was, if there is gdb.
finding() {
    local run=$1 refuse=$2
    echo "FINDING: $run with REFUSE=$refuse: status $status, air of $(stat -c %s air) bytes, report of $(stat -c %s report); $(head -n 1 told || true)"
    tail -n 3 report | awk '{ print "    " $0 }'
    findings=$((findings + 1))
    command -v gdb > /dev/null && [ "$status" -ge 128 ] || return 0
    timeout 60 gdb -q -batch -ex "set exec-wrapper env LD_PRELOAD=$scratch/refuse.so REFUSE=$refuse REFUSE_BUT=$but" \
        -ex "run $(words "$run") < $(input "$run") > gdb.air 2> gdb.report" -ex 'thread apply all bt 30' "$PROGRAM" 2>&1 | sed 's/^/    /' || true
}

# Refuses 1, 2, .. until five runs in a row met no refusal: with `..` behind the number all later requests too.
go_through() {
    local run=$1 onward=$2 number=0 unmet=0 whose said
    : > said
    : > usual
    while [ $unmet -lt 5 ]; do
        number=$((number + 1))
        once "$run" "$number$onward"
        whose=$(purpose)
        [ -n "$whose" ] && unmet=0 || unmet=$((unmet + 1))
        said=$(judge "$run") || said=
        case $said,$whose in
            ,* | [!0]*,) finding "$run" "$number$onward" ;;
            *,) ;;
            *) echo "status $said, for $whose" >> said ;;
        esac
        [ "$said,$whose" != '0,a value' ] || echo -n " $number" >> usual
    done
    echo "$run: $(wc -l < said) times a request was refused${onward:+, with all behind it}, and was answered as it should"
    sort said | uniq -c | sed 's/^ *\([0-9]*\) /    \1 times /'
    [ ! -s usual ] || echo "    status 0 for the values of the requests$(cat usual)"
}

findings=0
but=
for run in play listen; do
    once "$run" 0
    echo "$run: $(cat told)"
    go_through "$run" ''
    go_through "$run" ..
done
for ((round = 0; round < rounds; round++)); do
    once live 0
    echo "live: $(cat told)"
    go_through live ''
    go_through live ..
    # Values left out, so that the start of each thread is refused in turn.
    but=$(printf '%x-%x' $low $high)
    once live 0
    echo "live, without the values: $(cat told)"
    go_through live ''
    go_through live ..
    but=
done
echo "$findings findings"
[ $findings = 0 ]
