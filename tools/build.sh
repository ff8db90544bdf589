#!/bin/sh
# Proves and builds a program or the static library, where it is not yet or its sources have changed: build.sh legzhuro puts the program
# at target/bin/legzhuro, build.sh legzhuro_c the library at target/staticlib/liblegzhuro_c.a. A line for each crate proved goes to standard
# error, and if one is not proved the last lines of its check. One build runs at a time, since two would write the same files.
set -eu
cd "$(dirname "$0")/.."
name=$1

if command -v flock >/dev/null; then
    exec 9<"tools/build.sh"
    flock -w 2 9 || {
        echo "waiting for another build to end" >&2
        flock 9
    }
fi

# A crate and all that it depends on, each after those that it stands on.
crates=$(awk -F: -v wanted="$name" '
    function visit(crate,    list, n, k) {
        if (crate in seen || !(crate in needs)) return
        seen[crate] = 1
        n = split(needs[crate], list, " ")
        for (k = 1; k <= n; k++) visit(list[k])
        print crate
    }
    { sub(/#.*/, "") }
    NF > 1 { split($1, words, " "); needs[words[1]] = $2 }
    END { visit(wanted) }' crates.txt)
[ -n "$crates" ] || {
    echo "there is no crate $name" >&2
    exit 1
}
if [ -e "crates/$name/src/main.rt" ]; then
    made=target/bin/$name
else
    made=target/staticlib/lib$name.a
fi

# What was built is good as long as the sources and the toolchain are those that it was built from.
stamp=$(
    {
        rt version
        cat crates.txt
        for crate in $crates; do
            find "crates/$crate/src" "crates/$crate/specs" "crates/$crate/proofs" -type f 2>/dev/null | sort | while read -r file; do
                echo "$file"
                cat "$file"
            done
        done
    } | cksum
)
[ ! -e "$made" ] || [ "$(cat "target/stamp/$name" 2>/dev/null)" != "$stamp" ] || exit 0

[ -e "$made" ] || echo "proving and building $name, which takes some minutes" >&2
mkdir -p target/stamp "$(dirname "$made")"
rm -f "target/stamp/$name"
total=$(echo "$crates" | wc -l) proved=0
for crate in $crates; do
    command=lib
    [ "$crate" != "$name" ] || [ ! -e "crates/$name/src/main.rt" ] || command=run
    log=$(cd "crates/$crate" && rt $command </dev/null 2>&1 9<&-) || {
        echo "$crate is not proved; the last lines of the check:" >&2
        printf '%s\n' "$log" | tail -n 20 >&2
        exit 1
    }
    proved=$((proved + 1))
    echo "proved $proved of $total: $crate" >&2
done
cp "crates/$name/out/$(basename "$made")" "$made"
echo "$stamp" >"target/stamp/$name"
