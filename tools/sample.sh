#!/bin/sh
# Writes the stored sample of `vectors` anew: data/, args and the stdout that a run must give.
# Everything is fixed by the oracle and the seed, and nothing here is taken from the program's own answers.
set -eu
cd "$(dirname "$0")/.."
crate=$PWD/crates/vectors
seed=1

SRC=$(tools/published.sh "the sample")
export SRC
(cd rust && cargo build --release --offline --quiet -p oracle)
oracle=$PWD/rust/target/release/oracle
rm -rf "$crate/data" "$crate/args" "$crate/stdout"
mkdir "$crate/data"
cd "$crate/data"
agree=0
disagree=0

# A file, the records of it that agree, and those that do not.
expect() { # FILE AGREE DISAGREE
    echo "$1" >>../args
    if [ "$3" -gt 0 ]; then echo "$1: $2 agree, $3 disagree"; else echo "$1: $2 agree"; fi >>../stdout
    agree=$((agree + $2)) disagree=$((disagree + $3))
}

sample() { # COUNT NAME..
    count=$1
    shift
    for name in "$@"; do
        "$oracle" vectors . --count "$count" --seed "$seed" --only "$name"
        expect "$name.vec" "$count" 0
    done
}

sample 1000 finite
sample 4000 nearly_equal
sample 1000 max_zero min square
sample 2000 sum2
sample 4000 ln truncate
sample 1000 layer_energy
sample 500 soc_to_temp state_of_charge
sample 1000 energy_required new_temperature lowest simultaneous viscosity reynolds heat_transfer outlet
sample 500 zone_properties
sample 2000 card # each end of each range on both sides
sample 700 substep
sample 500 charge_energy_demand
sample 2000 lists

# What no oracle writes: a record cut short, one that is too long, more unknown ids than get a line.
head -c 100 ln.vec >cut.vec
echo 'cut.vec: vector 3 is cut short' >>../stdout
expect cut.vec 3 1
printf '\000\007\002\001' >long.vec
echo 'long.vec: vector 0 is too long: 513 words' >>../stdout
expect long.vec 0 1
for vector in 0 1 2 3 4 5 6 7 8 9 10 11; do
    printf '\000\143\000\001\000\000\000\000\000\000\000\000' >>unknown.vec
    [ "$vector" -ge 10 ] || echo "unknown.vec: vector $vector has the unknown id 99" >>../stdout
done
echo 'unknown.vec: 2 more disagree' >>../stdout
expect unknown.vec 0 12
# A list whose second start has no words: a standing loss is refused with 10, and its totals are the five numbers behind the first start's card.
words=$(od -An -tu1 -j3 -N1 lists.vec)
{
    head -c $((4 + 8 * words)) lists.vec
    printf '\000\062\000\000\000\063\000\014'
    for word in 4 10 0 0 0 0 0; do printf "\\000\\000\\000\\000\\000\\000\\000\\$(printf %03o "$word")"; done
    tail -c +$((5 + 8 * 24)) lists.vec | head -c 40
} >unstarted.vec
expect unstarted.vec 1 0

# Three altered vectors. A substep's last outputs are the energy of its last zone and the logarithms.
"$oracle" alter viscosity.vec altered.vec 17
echo 'altered.vec: vector 17 of viscosity disagrees' >>../stdout
expect altered.vec 999 1
"$oracle" vectors few --count 20 --seed "$seed" --only substep
"$oracle" alter few/substep.vec energy.vec 17 1
"$oracle" alter few/substep.vec logarithms.vec 17
rm -r few
echo 'energy.vec: vector 17 of substep disagrees' >>../stdout
expect energy.vec 19 1
echo 'logarithms.vec: vector 17 of substep disagrees' >>../stdout
expect logarithms.vec 19 1

echo "total: $agree agree, $disagree disagree" >>../stdout
