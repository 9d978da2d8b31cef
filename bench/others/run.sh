#!/bin/sh
# Plays a description with 15 other streams and 64 services of them, and compares what tshark, libdvbpsi and listen show of the air with it.
# usage: run.sh [NUMBER ..]    another number is another description; 1 if left out. PROGRAM names another program than ./lepnugan
set -e
here=$(cd "$(dirname "$0")" && pwd)
program=${PROGRAM:-$here/../../lepnugan}
work=$(mktemp -d)
trap 'rm -rf "$work"' EXIT
cc -O2 -w -o "$work/psi_others" "$here/psi_others.c" -ldvbpsi
[ $# -gt 0 ] || set -- 1
failed=0
for number in "$@"; do
    script=$work/script.txt air=$work/air.ts
    python3 "$here/describe.py" "$number" > "$script"
    "$program" play < "$script" > "$air" 2> "$work/journal"
    if grep '^=,' "$work/journal" | grep -v '^=,done$\|^=,published,1$\|^=,swapped,1,'; then failed=1; fi
    echo "number $number: $(($(stat -c %s "$air") / 188)) packets"
    tshark -o mpeg_sect.verify_crc:TRUE -r "$air" -Y 'dvb_nit || dvb_sdt || dvb_eit' -T pdml > "$work/tshark" 2> "$work/log"
    "$work/psi_others" "$air" > "$work/libdvbpsi"
    "$program" listen --details < "$air" 2> "$work/listen"
    for decoder in tshark libdvbpsi listen; do
        python3 "$here/compare.py" "$script" $decoder "$work/$decoder" || failed=1
    done
done
exit $failed
