#!/bin/sh
# Prints how many instructions a call takes in each case, and how many records a second threads make at one provider; or
# only the cases that are named: measure.sh [CASE..]
#
# A case is three scripts (src/main.rt says what each is for). Valgrind counts what the functions named `counted_..` do,
# with all that they call, in the program as `rt run` builds it. That is done for two numbers of calls, and the
# difference of the instructions is divided by that of the calls. The case `threads` is timed, so it wants a machine
# with nothing else to do. Needs rt and valgrind.
#
# With ENTERED=1 it prints instead how many functions of the library a call enters, by a build of Rattle's own compiler
# that keeps each. Laws, which do nothing, are left out, and a generic function counts once.
set -eu
cd "$(dirname "$0")"
wanted="$*"
counts=$(mktemp)
scripts=$(mktemp)
trap 'rm -f "$counts" "$scripts"' EXIT
command -v valgrind >/dev/null || { echo "valgrind is not there" >&2; exit 1; }
build=
[ -z "${ENTERED:-}" ] || build="--backend rattle --opt-level 0"
rt run $build -- 0 <stdin >/dev/null 2>&1 || { echo "rt run failed" >&2; exit 1; }

# Attributes with these numbers, in this order.
attributes() {
    comma=
    for number in "$@"; do
        printf '%sattribute%02d=s:value%02d' "$comma" "$number" "$number"
        comma=,
    done
}

# A line for each number from the first up to but not including the end, by a format that may use the number twice.
lines() {
    awk -v first="$1" -v end="$2" -v line="$3\n" 'BEGIN { for (n = first; n < end; n++) printf line, n, n }'
}

# Records of sets of 4 attributes, of which the last has a number from the first up to but not including the end.
sets() {
    lines "$1" "$2" "record 0 u:1 $(attributes 0 1 2),attribute03=s:%07d"
}

# The first script up to its first call, with these readers and views.
first() {
    printf '%s\n' "$@" go
}

# The next script up to its first call.
next() {
    printf '%s\n' --- go
}

# The third script up to its first call, after the line that says how its records are made, if there is one.
last() {
    printf '%s\n' --- ${made_by:+"$made_by"} go
}

# The first script, with an instrument of this sort, and these readers and views.
instrument() {
    sort=$1
    shift
    first "$@"
    echo "meter meter"
    echo "build 0 $sort instrument 100"
}

# Records of sets past the limit, once the overflow entry is there.
past_limit() {
    instrument "$@"
    sets 0 2500
    next
    last
    sets 2000 2500
}

# Records at an instrument of this sort of one set: as it comes first, and as it comes then.
known() {
    sort=$1 before=$2 then=$3
    shift 3
    instrument "$sort" "$@"
    echo "record 0 u:1 $before"
    next
    last
    echo "record 0 u:1 $then"
}

# Records at an instrument of this sort of this many sets in turn, each of which was recorded before.
known_sets() {
    sort=$1 number=$2
    shift 2
    instrument "$sort" "$@"
    sets 0 "$number"
    next
    last
    sets 0 "$number"
}

# Records through a handle.
bound() {
    instrument u64_counter "$@"
    echo "bind 0 $rising"
    next
    last
    if [ "$made_by" ]; then
        echo "record 0 u:1 $rising"
    else
        echo "recordbound 0 u:1"
    fi
}

# Binds of handles for a set that has an entry.
binds() {
    instrument u64_counter "$one"
    echo "record 0 u:1 $rising"
    next
    last
    echo "bind 0 $rising"
}

# Ends of handles, the oldest first, of this many and one that is bound before each.
ends() {
    instrument u64_counter "$one"
    lines 0 "$1" "bind 0 $rising"
    next
    echo "bind 0 $rising"
    last
    lines 0 100 "unbind %d"
}

# Records of 10 attributes, of which a view keeps 8. It names this many keys, these 8 last.
allowed() {
    others=$(lines 8 "$1" "other%07d," | tr -d '\n')
    keys=$(attributes 0 1 2 3 4 5 6 7 | sed 's/=s:value[0-9]*//g')
    known u64_counter "$ten" "$ten" "$one" "view * keys=$others$keys"
}

# Collections of 100 sets, after one of this many sets, which are gone since.
after_burst() {
    instrument u64_counter "reader delta limit=1000000"
    lines 0 "$1" "record 0 u:1 number=i:%d"
    echo "collect 0 200"
    next
    lines 0 100 "record 0 u:1 number=i:%d"
    last
    echo "collect 0 300"
}

# Records of this many sets whose hashes are equal, each set in turn. A provider that was given no seed takes its hasher
# to one state by this key and the first 8 bytes of these texts, whatever the last 8 are.
colliding() {
    instrument u64_counter "$one"
    lines 0 "$1" "record 0 u:1 00149132=s:gINajtcl%08d"
    next
    last
    lines 0 "$1" "record 0 u:1 00149132=s:gINajtcl%08d"
}

# Collections of all sets up to the limit, all of which are recorded again before each collection.
collections() {
    instrument "$@"
    next
    sets 0 2000
    last
    echo "collect 0 200"
}

# Exports of a collection of all sets up to the limit.
exports() {
    instrument u64_counter "$one"
    sets 0 2000
    next
    printf '%s\n' --- "export $1"
}

# The scripts of a case. A case `typed_..` is the case of the rest of its name with instruments and handles as values.
case_named() {
    counter=u64_counter
    one="reader cumulative"
    rising=$(attributes 0 1 2 3)
    falling=$(attributes 3 2 1 0)
    ten=$(attributes 0 1 2 3 4 5 6 7 8 9)
    case $1 in
        typed_bound*) made_by="typed bound" ;;
        typed_*) made_by="typed add" ;;
        worker_bound*) made_by="worker bound 100" ;;
        worker_series*) made_by="worker series 100" ;;
        worker_histogram*) made_by="worker histogram 100" ;;
        worker_gauge*) made_by="worker gauge 100" ;;
        worker_lists) made_by="worker lists" ;;
        worker4_ten | worker4_ten_submit) made_by="worker add 10" ;;
        worker4_hundred*) made_by="worker add 1" ;;
        worker*) made_by="worker add 100" ;;
        *) made_by= ;;
    esac
    case $1 in
        *_submit) counted=counted_submit ;;
        *_group) counted=counted_group ;;
        *) counted="counted_calls counted_adds counted_bound_adds counted_worker_adds counted_worker_records counted_worker_series_adds counted_worker_bound_adds counted_group counted_submit counted_expositions counted_lines" ;;
    esac
    case ${1#typed_} in
        known0) known $counter - - "$one" ;;
        known1) known $counter "$(attributes 0)" "$(attributes 0)" "$one" ;;
        known4 | worker4 | worker4_submit | worker_lists | worker_series4 | worker_series4_submit | worker_bound4*)
            known $counter "$rising" "$rising" "$one"
            ;;
        worker4_ten* | worker_series4_ten*) known_sets $counter 10 "$one" ;;
        worker4_hundred*) known_sets $counter 100 "$one" ;;
        worker4_two_readers*) known_sets $counter 10 "$one" "$one" ;;
        worker_histogram4*) known_sets u64_histogram 10 "$one" ;;
        worker_gauge4*) known_sets u64_gauge 10 "$one" ;;
        known10) known $counter "$ten" "$ten" "$one" ;;
        known4_first_order) known $counter "$falling" "$falling" "$one" ;;
        known4_other_order) known $counter "$rising" "$falling" "$one" ;;
        known4_two_readers) known $counter "$rising" "$rising" "$one" "$one" ;;
        known4_two_streams)
            known $counter "$rising" "$rising" "$one" "view * name=first" "view * name=second"
            ;;
        known4_two_kept) known $counter "$rising" "$rising" "$one" "view * keys=attribute00,attribute01" ;;
        bound4) bound "$one" ;;
        bound4_two_readers) bound "$one" "$one" ;;
        bind4) binds ;;
        histogram4) known u64_histogram "$rising" "$rising" "$one" ;;
        gauge4) known u64_gauge "$rising" "$rising" "$one" ;;
        new4)
            instrument $counter "$one"
            next
            last
            sets 0 2000
            ;;
        past_limit4) past_limit $counter "$one" ;;
        past_limit4_two_readers) past_limit $counter "$one" "$one" ;;
        end*) ends "${1#end}" ;;
        allow*) allowed "${1#allow}" ;;
        burst*) after_burst "${1#burst}" ;;
        colliding*) colliding "${1#colliding}" ;;
        collect_cumulative) collections $counter "$one" ;;
        collect_delta) collections $counter "reader delta" ;;
        collect_histogram) collections u64_histogram "$one" ;;
        export_*) exports "${1#export_}" ;;
        build)
            first "$one"
            echo "meter meter"
            lines 0 10000 "build 0 $counter instrument%06d 100"
            next
            last
            lines 10000 12000 "build 0 $counter instrument%06d 100"
            ;;
        collect_meters)
            first "$one"
            lines 0 10000 "meter meter%06d"
            lines 0 10000 "build %d $counter instrument%06d 100"
            lines 0 10000 "record %d u:1 $rising"
            next
            last
            echo "collect 0 200"
            ;;
    esac
}

# The instructions of a number of calls of the case whose scripts were made.
instructions() {
    toggles=
    for function in $counted; do
        toggles="$toggles --toggle-collect=*$function*"
    done
    set -f
    valgrind --tool=callgrind --callgrind-out-file="$counts" --collect-atstart=no $toggles \
        out/otel_bench "$1" <"$scripts" >/dev/null 2>&1
    set +f
    if [ -n "${ENTERED:-}" ]; then
        callgrind_annotate --threshold=100 "$counts" |
            grep -oE '\?\?\?:(opentelemetry_sdk|otel_(aggregate|common|data|stream))::[^ ]*' |
            sed 's/::<.*//' | grep -v '::law_of_\|_laws' | sort -u | wc -l
        return 0
    fi
    sed -n 's/^\(summary\|totals\): *\([0-9][0-9]*\).*/\2/p' "$counts" | head -n 1
}

# Whether a case is wanted.
is_wanted() {
    case " ${wanted:-$1} " in
        *" $1 "*) ;;
        *) return 1 ;;
    esac
}

# A line of the table: a case, a smaller and a greater number of calls, and of how many parts a call is.
row() {
    is_wanted "$1" || return 0
    case_named "$1" >"$scripts"
    if [ -n "${ENTERED:-}" ]; then
        printf '%-24s %12d\n' "$1" "$(instructions "$3")"
        return 0
    fi
    fewer=$(instructions "$2")
    more=$(instructions "$3")
    awk -v name="$1" -v work=$((more - fewer)) -v parts=$((($3 - $2) * $4)) \
        'BEGIN { printf "%-24s %12.0f\n", name, work / parts }'
}

# The scripts of timed records: this many sets, each of which was recorded before.
timed() {
    known_sets u64_counter "$1" "reader cumulative" | awk '$0 == "---" && ++scripts == 1 { getline; next } { print }'
}

# How many million records a second 1, 2 and 4 threads make, all together, if each makes half a million: under the lock or
# by workers, by lists, by names of series or through handles. A line tells how many series there are, and how many records
# a batch has. Each number is the median of five rounds, of which each times everything once, so that whatever else the
# machine does slows all alike; it is 0 if records are missing.
threads() {
    is_wanted threads || return 0
    made_by=
    printf '%-24s %12s %12s %12s\n' threads 1 2 4
    for round in 1 2 3 4 5; do
        for shape in "10 100" "10 10" "100 1"; do
            timed "${shape% *}" >"$scripts"
            out/otel_bench threads 500000 "${shape#* }" <"$scripts" | sed "s/^/$shape /"
        done
    done | awk '{ print $1, $1 * $2, $3, $4, ($5 == 500000 * $4) * $5 / $6 / 1000000 }' |
        sort -k 1,1n -k 2,2nr -k 3,3 -k 4,4n -k 5,5n |
        awk 'NR % 5 == 3 { speeds = speeds sprintf(" %12.2f", $5) }
            NR % 15 == 0 { printf "%-24s%s\n", $3 " " $1 " " $2, speeds; speeds = "" }'
}

# How many of a million records, each with a list of attributes that is new, a worker of a program hands in that may have
# 100 MB: all, since a worker forgets the lists that it knows.
lists() {
    is_wanted worker_lists || return 0
    case_named worker_lists >"$scripts"
    made=$(ulimit -v 100000 && out/otel_bench 10000 <"$scripts")
    printf '%-24s %12s\n' worker_lists "$made"
}

for name in known0 known1 known4 known10 known4_first_order known4_other_order known4_two_readers known4_two_streams \
    known4_two_kept bound4 bound4_two_readers; do
    row $name 1000 11000 1
    row typed_$name 1000 11000 1
done
for name in bind4 histogram4 gauge4; do
    row $name 1000 11000 1
done
for name in new4 typed_new4; do
    row $name 0 2000 1
done
for name in past_limit4 typed_past_limit4 past_limit4_two_readers typed_past_limit4_two_readers; do
    row $name 1000 6000 1
done
for name in worker4 worker4_submit worker4_ten worker4_ten_submit worker4_hundred_submit worker_series4 \
    worker_series4_submit worker_bound4 worker_bound4_submit; do
    row $name 10 60 100
done
for name in worker4_ten_long worker4_ten_long_submit worker4_ten_long_group worker_series4_ten \
    worker_series4_ten_submit worker4_two_readers_submit worker_histogram4_submit worker_gauge4_submit; do
    row $name 10 60 1000
done
for name in end2000 end4000 end8000; do
    row $name 20 100 1
done
for name in allow8 allow2000 allow4000 allow8000; do
    row $name 10 60 1
done
for name in burst5000 burst10000 burst20000; do
    row $name 1 3 1
done
for number in 500 1000 2000; do
    row "colliding$number" 0 "$number" 1
done
for name in collect_cumulative collect_delta collect_histogram; do
    row $name 1 3 2000
done
for name in export_prometheus export_openmetrics export_otlp; do
    row $name 1 3 2000
done
lists
row build 500 1500 1
row collect_meters 0 1 10000
threads
