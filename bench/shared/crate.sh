# For the scripts NAME.sh that count the instructions of calls: builds the program NAME.rt.txt beside the script, which is no crate
# of the repository, in a repository of its own: the gate takes no file that ends in .rt or .antt outside a crate, and so each ends
# in .txt here. `top` is the repository, and `uses` the crates that the program names. Those and what they stand on are copied
# with what is proved of them already, which isn't proved again: so a figure comes in a minute or two. Where it can't be built the
# script ends with status 3.
work=$(mktemp -d)
trap 'rm -rf "$work"' EXIT
source=$top/bench/$(basename "$0" .sh)
program=${source##*/}_bench
mkdir "$work/crates"
cp "$top/HANDLES" "$work"

# CRATE..: copies the crates of the repository among these, and those that crates.txt says they stand on.
add() {
    for crate in "$@"; do
        if [ -d "$top/crates/$crate" ] && [ ! -d "$work/crates/$crate" ]; then
            mkdir "$work/crates/$crate"
            for part in src specs proofs out; do
                [ ! -d "$top/crates/$crate/$part" ] || cp -r "$top/crates/$crate/$part" "$work/crates/$crate"
            done
            grep "^$crate[ :]" "$top/crates.txt" >> "$work/crates.txt"
            add $(sed -n "s/^$crate\( [^:]*\)*: *//p" "$top/crates.txt")
        fi
    done
}

add $uses
mkdir -p "$work/crates/$program/src"
cp "$source.rt.txt" "$work/crates/$program/src/main.rt"
# What is written of its proof stands beside it, one file after another, each below a line that names it.
if [ -f "${source}_proofs.txt" ]; then
    for file in $(sed -n 's/^file: //p' "${source}_proofs.txt"); do
        mkdir -p "$work/crates/$program/proofs/$(dirname "$file")"
    done
    awk -v folder="$work/crates/$program/proofs/" '/^file: / { file = folder $2; next } { print > file }' "${source}_proofs.txt"
fi
echo "$program: $uses" >> "$work/crates.txt"
cd "$work/crates/$program"
rt run > "$work/log" 2>&1 || { cat "$work/log"; echo "$0: $program doesn't build" >&2; exit 3; }

# The instructions of a run with these words. Where the run fails, so does this.
instructions() {
    valgrind --tool=callgrind --callgrind-out-file="$work/profile" "$work/crates/$program/out/$program" "$@" > "$work/said" 2>&1 || {
        cat "$work/said" >&2
        exit 1
    }
    sed -n 's/.*Collected : //p' "$work/said"
}
