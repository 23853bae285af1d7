#!/bin/sh
# The states of a network are types: what one state allows does not exist on the other.
# An offending crate is not even typed, so no must-fail edit can show it. This script writes each offending use into
# a copy of the crate, and expects the check to refuse it there, by the message for that very reason.
# Exit status 0: every offence is refused for the right reason. It proves nothing else.
set -eu

root=$(cd "$(dirname "$0")/.." && pwd -P)
work=$(mktemp -d)
trap 'rm -rf "$work"' EXIT

printf '%s\n' 'fault:' 'logic:' 'network_theory: fault logic' 'network: fault logic network_theory' > "$work/crates.txt"
mkdir "$work/crates"
for crate in fault logic network_theory network; do
    mkdir "$work/crates/$crate"
    for part in src specs proofs; do
        [ ! -d "$root/crates/$crate/$part" ] || cp -R "$root/crates/$crate/$part" "$work/crates/$crate/"
    done
done
# checked CRATE: it proves in the copy
checked() {
    (cd "$work/crates/$1" && rt check)
}

(cd "$work" && git init -q && checked fault && checked logic && checked network_theory) > "$work/ready.out" 2>&1 || {
    cat "$work/ready.out"
    echo "typestate: the crates below the network are not proved" >&2
    exit 1
}

status=0

# refuses LABEL MESSAGE: the offence on standard input is refused with an error that matches MESSAGE
refuses() {
    cp "$root/crates/network/src/lib.rt" "$work/crates/network/src/lib.rt"
    printf '\nmod offence;\n' >> "$work/crates/network/src/lib.rt"
    cat > "$work/crates/network/src/offence.rt"
    if checked network > "$work/said" 2>&1; then
        echo "typestate: $1: NOT REFUSED"
        status=1
    elif grep -q "src/offence.rt:.*error$2" "$work/said"; then
        echo "typestate: $1: refused, as it must be"
    else
        echo "typestate: $1: refused, but for another reason than '$2':"
        grep -m 3 'error' "$work/said" || tail -n 3 "$work/said"
        status=1
    fi
}

refuses 'adding to a sealed network' '\[unknown-method\].*`add`.*`Sealed' << 'RATTLE'
use super::Sealed;

pub fn add_to_sealed(net: &mut Sealed) {
    let _ = net.add(1, 2);
}
RATTLE

refuses 'reading the words of an open network' '\[unknown-method\].*`words`.*`Open' << 'RATTLE'
use super::Open;

pub fn words_of_open(net: &Open) -> usize {
    net.words().len()
}
RATTLE

refuses 'asking an open network for a conflict' '\[unknown-method\].*`conflict`.*`Open' << 'RATTLE'
use super::Open;

pub fn conflict_of_open(net: &Open) -> bool {
    net.conflict(1, 2)
}
RATTLE

refuses 'using an open network that was sealed' '\[borrow-e0382\].*moved value: `net`' << 'RATTLE'
use super::Open;

pub fn add_after_sealing(mut net: Open) {
    let _ = net.seal();
    let _ = net.add(1, 2);
}
RATTLE

# What covers and writes takes a sealed network by its type, so an open one does not fit there.
for call in 'cover/src/lib.rt:pubfncover(net:&Sealed' 'formula/src/lib.rt:pubfnmeasure<E:Encoder>(net:&Sealed' \
    'formula/src/lib.rt:pubfnwrite<E:Encoder>(net:&Sealed' 'formula/src/lib.rt:pubfncomplete<E:Encoder>(net:&Sealed'; do
    tr -d ' \n' < "$root/crates/${call%%:*}" | grep -qF "${call#*:}" || {
        echo "typestate: no such call: ${call#*:}"
        status=1
    }
done

refuses 'writing from an open network' '\[mismatched-types\].*Sealed.*Open' << 'RATTLE'
use super::Open;
use super::Sealed;

fn write(_net: &Sealed) {}

pub fn write_from_open(net: &Open) {
    write(net);
}
RATTLE

exit $status
