#!/usr/bin/env bash
# Source that must be rejected before any proof: each .ci/rejects/NAME.txt has what is expected (an error, or accepted) and a
# function over the writer's states. It is tried as a small program over the writer, in a copy outside of the repository; one
# that must be accepted is proved there too.
set -u
root=$(cd "$(dirname "$0")/.." && pwd -P)
work=$(mktemp -d) || exit 2
trap 'rm -rf "$work"' EXIT
# The writer and all crates below it.
names=writer
while :; do
    below=$(for name in $names; do sed -n "s/^$name://p" "$root/crates.txt"; done)
    more=$(for name in $names $below; do [ -d "$root/crates/$name" ] && echo "$name"; done | sort -u)
    [ "$more" = "$names" ] && break
    names=$more
done
for name in $names; do
    mkdir -p "$work/crates/$name"
    for part in src specs proofs; do
        [ -d "$root/crates/$name/$part" ] && cp -R "$root/crates/$name/$part" "$work/crates/$name/"
    done
    grep "^$name:" "$root/crates.txt" >>"$work/crates.txt"
done
echo 'sample: grammar writer' >>"$work/crates.txt"
mkdir -p "$work/crates/sample/src"
bad=0
for sample in "$root"/.ci/rejects/*.txt; do
    name=$(basename "$sample" .txt)
    expect=$(sed -n 's/^expect: //p' "$sample")
    {
        for part in Guard Head; do grep -v '^//' "$sample" | grep -q "[^a-z]$part[^a-z]" && echo "use grammar::$part;"; done
        for state in Begun Filling Guarding TableWriter Taking; do grep -q ": $state" "$sample" && echo "use writer::$state;"; done
        grep -q "Refused {" "$sample" && echo "use writer::Refused;"
        echo
        grep -v '^expect: ' "$sample"
        printf '\nfn main() {}\n'
    } >"$work/crates/sample/src/main.rt"
    [ "$expect" = accepted ] && how=check || how=try
    (cd "$work/crates/sample" && rt $how) >"$work/log" 2>&1
    status=$?
    if [ "$expect" = accepted ]; then
        [ $status -eq 0 ] && found=yes || found=no
    else
        [ $status -ne 0 ] && grep -qF "src/main.rt" "$work/log" && grep -qF "$expect" "$work/log" && found=yes || found=no
    fi
    if [ $found = yes ]; then
        echo "sample $name: $expect, as it must be"
    else
        echo "sample $name: NOT $expect (status $status)"
        grep -m5 error "$work/log"
        bad=1
    fi
done
exit $bad
