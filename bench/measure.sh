# Shared by bench/people, bench/lookups and bench/spelling: a measuring program in Rattle. Its files stand under bench/measure/ and end in .txt, since
# the gate takes each .rt and .antt file for one of a crate. It is proved and built outside the repository, against its crates.
# Whoever reads this file has set top, the folder of the repository, and work, a folder of its own.
# shellcheck shell=sh disable=SC2154

# crates_below CRATE..: the lines of crates.txt for these crates and for all that they stand on.
crates_below() {
    awk -F: -v wanted="$*" '
        BEGIN { count = split(wanted, names, " "); for (i = 1; i <= count; i++) is_wanted[names[i]] = 1 }
        /^[a-z]/ { split($1, words, " "); name[++lines] = words[1]; line[lines] = $0; below[lines] = $2 }
        END {
            # Each stands on crates above its own line alone.
            for (i = lines; i > 0; i--) if (name[i] in is_wanted) {
                print line[i]
                count = split(below[i], names, " ")
                for (k = 1; k <= count; k++) is_wanted[names[k]] = 1
            }
        }' "$top/crates.txt"
}

# make_measure NAME CRATE..: makes the program bench/measure/NAME, which stands on these crates, and leaves the shell in its folder.
make_measure() {
    name=$1
    shift
    cp "$top/HANDLES" "$work/"
    { crates_below "$@"; echo "measure: $*"; } >"$work/crates.txt"
    sed 's/[ :].*//' "$work/crates.txt" | while read -r crate; do
        [ "$crate" != measure ] || continue
        mkdir -p "$work/crates/$crate"
        for part in src specs proofs; do
            if [ -d "$top/crates/$crate/$part" ]; then cp -r "$top/crates/$crate/$part" "$work/crates/$crate/"; fi
        done
    done
    cp -r "$top/bench/measure/$name" "$work/crates/measure"
    find "$work/crates/measure" -name '*.txt' | while read -r file; do mv "$file" "${file%.txt}"; done
    cd "$work/crates/measure" || exit 1
}
