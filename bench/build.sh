#!/bin/sh
# Proves a program of this folder and builds it: build.sh NAME OUT
#
# Its files end in .txt, since the gate reads each source of the repository as one of a crate. They become a crate for the time being,
# with the modules that the program has in common with crates/transform_tests.
set -e
name=$1
out=$(realpath "$2")
cd "$(dirname "$0")/.."
crate=crates/$name
lines=$(mktemp)
cp crates.txt "$lines"
trap 'rm -rf "$crate"; mv "$lines" crates.txt' EXIT
cp -r "bench/$name" "$crate"
find "$crate" -name '*.txt' | while read -r file; do mv "$file" "${file%.txt}"; done
cat "$crate/crate" >> crates.txt
rm "$crate/crate"
tests=crates/transform_tests
for module in plain roots Tested; do
    if grep -qs "mod $module" "$crate/src/main.rt" "$crate/proofs/Lib.antt"; then
        for path in "src/$module.rt" "proofs/$module" "proofs/$module.antt"; do
            if [ -e "$tests/$path" ]; then cp -r "$tests/$path" "$crate/$path"; fi
        done
    fi
done
find "$crate" -type f -exec sed -i "s/transform_tests/$name/g" {} +
(cd "$crate" && rt run && cp "out/$name" "$out")
