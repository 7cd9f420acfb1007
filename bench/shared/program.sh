# For the scripts that run the program: which one it is, and a folder for what they make. `top` is the repository.
program=${1:-$top/crates/drink/out/drink}
if [ ! -x "$program" ]; then
    echo "$0: $program is not built" >&2
    exit 1
fi
work=$(mktemp -d)
trap 'rm -rf "$work"' EXIT
