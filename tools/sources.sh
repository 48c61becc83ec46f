# shellcheck shell=sh
# What tools/build-handover, build-library and build-sock share, read at the repository's root: whether what is proved and built is older than
# the crates that it is made of.

say() { printf '%s\n' "$*" >&2; }

# why_build FILE: says why it has to be built; nothing if it has not.
why_build() {
    if [ ! -e "$1" ]; then
        echo "is not built yet"
    elif [ -n "$(find crates.txt crates -name out -prune -o -newer "$1" -print | head -n 1)" ]; then
        echo "may be older than its sources"
    fi
}

# A folder that the prover made later would be a change of its crate.
make_folders() { for crate in crates/*/; do mkdir -p "$crate/out"; done; }
