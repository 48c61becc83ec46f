#!/bin/sh
# The vectors of the programs reading_cases and step_cases are what the second implementation makes: they are made anew and compared.
#
#     tests/vectors.sh [--write]        --write replaces them instead
set -eu
cd "$(dirname "$0")/.."
folder=$(mktemp -d)
trap 'rm -rf "$folder"' EXIT

for name in reading step; do
    crate=crates/${name}_cases
    if [ "${1-}" = --write ]; then
        made=$PWD/$crate
    else
        made=$folder/$name
        mkdir "$made"
    fi
    (cd tests/reference && cargo run --release --offline --quiet --bin "${name}_vectors" -- "$made")
    for file in stdin stdout; do
        if ! cmp "$made/$file" "$crate/$file"; then
            echo "vectors: $crate/$file is not what the second implementation makes" >&2
            exit 1
        fi
    done
done
echo "vectors: made anew, the same"
