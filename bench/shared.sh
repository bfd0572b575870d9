# shellcheck shell=sh
# What drafts and tree_add share: `measure NAME` makes a repository of its own in a temporary folder, with the program that
# standard input gives over adf_tree and adf_drafts, builds it and runs it.

measure() {
    top=$(cd "$(dirname "$0")/.." && pwd)
    work=$(mktemp -d)
    trap 'rm -rf "$work"' EXIT
    mkdir -p "$work/crates/$1/src"
    for crate in adf_base adf_names adf_tree adf_drafts; do
        mkdir "$work/crates/$crate"
        for part in src specs proofs; do
            cp -R "$top/crates/$crate/$part" "$work/crates/$crate/$part"
        done
        # the kept work of earlier checks, where there is any, saves a first check
        if [ -d "$top/crates/$crate/out" ]; then
            cp -R "$top/crates/$crate/out" "$work/crates/$crate/out"
        fi
    done
    cat >"$work/crates/$1/src/main.rt"
    {
        grep -E '^adf_(base|names|tree|drafts):' "$top/crates.txt"
        echo "$1: adf_base adf_tree adf_drafts"
    } >"$work/crates.txt"
    cp "$top/HANDLES" "$work/HANDLES"
    cd "$work/crates/$1" || exit
    rt run
}
