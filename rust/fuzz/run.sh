#!/bin/sh
# Fuzzes libheat_battery.a with libFuzzer; the oracle's independent entries and auditor are the referee.
#
#   rust/fuzz/run.sh entries|audit SECONDS [OPTION..]     further options go to libFuzzer
#   rust/fuzz/run.sh --broken                             puts faults in, one after another; each must be found
#
# The archive is the prebuilt one, or the one in the folder that HEAT_BATTERY_LIB names. Needs cargo and Debian's packages clang and
# libclang-rt-14-dev. Ends with 0 where all agree; the last line sums up.
set -eu
here=$(cd "$(dirname "$0")" && pwd)
usage() { sed -n '4,5s/^# *//p' "$here/run.sh" >&2; exit 2; }

case ${1-} in
    entries | audit) [ "${2:-0}" -gt 0 ] || usage ;;
    --broken) ;;
    *) usage ;;
esac

runtime=$(clang -print-file-name=libclang_rt.fuzzer-x86_64.a 2>/dev/null) || runtime=
[ -f "$runtime" ] || { echo "no libFuzzer: apt-get install clang libclang-rt-14-dev" >&2; exit 2; }

# Referee and harness tell libFuzzer where they go and what they compare; the archive has no such marks.
coverage=-sanitizer-coverage
RUSTFLAGS="-C passes=sancov-module -C llvm-args=$coverage-level=3 -C llvm-args=$coverage-inline-8bit-counters \
-C llvm-args=$coverage-pc-table -C llvm-args=$coverage-trace-compares -C link-arg=$runtime -C link-arg=-lstdc++" \
    cargo build --release --offline --quiet --target x86_64-unknown-linux-gnu --target-dir "$here/target" \
    --features libfuzzer --manifest-path "$here/Cargo.toml"
cd "$here"
programs=target/x86_64-unknown-linux-gnu/release

# Makes a folder for a run, with the program and its seeds: made FOLDER TARGET all|sound
made() {
    mkdir -p "$1/corpus" "$1/found"
    rm -rf "$1/seeds"
    cp -f "$programs/fuzz-$2" "$1/program"
    "$programs/fuzz-seeds" "$2" "$3" "$1/seeds" >"$1/answers"
}

# Runs a folder's program: fuzz FOLDER SECONDS OPTION..
fuzz() {
    (
        cd "$1"
        seconds=$2
        shift 2
        ./program -max_total_time="$seconds" -max_len=70000 -len_control=0 -timeout=120 -print_final_stats=1 \
            -artifact_prefix=found/ "$@" corpus seeds >answers 2>log
    )
}

findings() { find "$1/found" -type f -name 'crash-*' | wc -l; }
executions() { sed -n 's/^stat::number_of_executed_units: *//p' "$1/log"; }

# Each fault, from inputs that are all accepted or answered: broken TARGET FAULT..
broken() {
    target=$1
    shift
    for fault in "$@"; do
        folder=made/broken/$target-$fault
        rm -rf "$folder"
        made "$folder" "$target" sound
        start=$(date +%s)
        HEAT_BATTERY_FAULT=$fault fuzz "$folder" 120 -seed=1 || true
        if [ "$(findings "$folder")" -eq 1 ]; then
            echo "$target, fault $fault: found after $(executions "$folder") executions, $(($(date +%s) - start)) s"
        else
            echo "$target, fault $fault: NOT FOUND"
            missed=$((missed + 1))
        fi
    done
}

if [ "$1" = --broken ]; then
    missed=0
    services="services-33 equal-numbers number-under-4 any-class services-length type-exchanged unlisted-served unlisted-trial"
    floor="flag-2 flag-first floor-early floor-always floor-never floor-in-demand floor-raises floor-whole floor-rest floor-held floor-ref \
        floor-plain-sum"
    # shellcheck disable=SC2086
    broken entries room room-first line-before-room flag absent-bytes refused-record behind-line version-late time-always time-product \
        services-early $services $floor own-services-early own-services-33 own-services-stored own-floor-early own-floor-taken \
        own-floor-2 own-floor-stored reads-behind reads-before referee
    # shellcheck disable=SC2086
    broken audit passes-all passes-none index last-line order no-limit whole-limited time-always time-product \
        $services $floor reads-behind reads-before referee
    echo "$missed faults were not found"
    [ "$missed" -eq 0 ]
    exit
fi

target=$1 seconds=$2
shift 2
folder=made/$target
made "$folder" "$target" all
before=$(findings "$folder")
failed=0
fuzz "$folder" "$seconds" "$@" || failed=1
cat "$folder/answers"
found=$(($(findings "$folder") - before))
if [ $failed -ne 0 ]; then
    grep -v -E 'NEW|REDUCE|pulse|^"' "$folder/log" | tail -25
    echo "the inputs are in rust/fuzz/$folder/found"
fi
reached=$(sed -n 's/.* cov: \([0-9]*\) .*/\1/p' "$folder/log" | tail -1)
compared=$(sed -n 's/^\([0-9]*\) inputs, .*/\1/p' "$folder/answers")
seed=$(sed -n 's/^INFO: Seed: //p' "$folder/log")
echo "$target: $seconds s, $(executions "$folder") executions, ${compared:-?} answers compared, $found disagreements;" \
    "corpus $(find "$folder/corpus" -type f | wc -l) inputs, $reached edges of referee and harness, seed $seed"
exit $failed
