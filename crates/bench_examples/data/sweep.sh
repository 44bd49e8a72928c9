#!/usr/bin/env bash
# Runs one scenario over a range of RBD values and of delays of one lane, several runs at a time,
# and writes a table: RBD,DELAY,LATENCY,DELIVERED,ALARMS,FIRST, sorted. DELAY is in bits, LATENCY
# in octets, FIRST is the first alarm's kind and the lane or device that it names. The line of a
# refused link is RBD,DELAY,bad,ROW,CAUSE,AT, and that of a run that wrote none is
# RBD,DELAY,no report.
#
#     RBDS="36 40 44" DELAYS="340 407" examples/sweep.sh examples/own-link.csv 1
#
# The first word is the scenario, the second the lane whose delay is changed from tick 0 on. RBDS
# and DELAYS are lists, WORKERS is how many runs go at a time, and BENCH is the program: if not
# set, the bench beside this folder.
set -u
scenario=${1:?the scenario} lane=${2:-0}
rbds=${RBDS:-$(seq 0 127)} delays=${DELAYS:-0}
top=$(cd "$(dirname "$0")/.." && pwd)
export BENCH=${BENCH:-$top/bench}
if [ ! -r "$scenario" ]; then
    echo "sweep: $scenario cannot be read" >&2
    exit 1
fi

# The scenario with another RBD and another delay of the lane.
changed() {
    awk -F, -v OFS=, -v rbd="$3" '$1 == "timing" { $7 = rbd } { print }' "$1"
    echo "delay,0,$2,$4"
}

# One run: one line of the table.
one_run() {
    changed "$@" | "$BENCH" run | awk -F, -v OFS=, -v rbd="$3" -v bits="$4" '
        $1 == "link" { latency = $4 }
        $1 == "alarm" && first == "" { first = $4 != "" ? $3 " " $4 : $3 }
        $1 == "end" { print rbd, bits, latency, $4, $8, first; told = 1 }
        $1 == "bad" { print rbd, bits, $0; told = 1 }
        END { if (!told) print rbd, bits, "no report" }'
}
export -f changed one_run

# A first run alone, so that the program is built before others begin, and none begins without it.
first=$(one_run "$scenario" "$lane" "${rbds%%[[:space:]]*}" "${delays%%[[:space:]]*}")
case $first in
    *"no report") echo "$first" && exit 1 ;;
esac
for rbd in $rbds; do
    for bits in $delays; do
        printf '%s\0' "$scenario" "$lane" "$rbd" "$bits"
    done
done | xargs -0 -n 4 -P "${WORKERS:-4}" bash -c 'one_run "$@"' sweep | sort -t, -k1,1n -k2,2n
