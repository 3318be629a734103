# Shared by bin/, tools/ and bench/: what there is to build and to release, of which sources, and which file is to be taken.
# Whoever reads this file has set top, the folder of the repository.
# shellcheck shell=sh disable=SC2034,SC2154

# The artifacts: the word that release/SUMS has for each, its file in release/, the file that is built, and what it is made of beside
# the crates. One of the later lines whose file isn't in release/ isn't released.
artifacts='
program vemodel-x86_64-linux crates/vemodel/out/vemodel
library libvemodel.so.0 crates/vemodel_c/out/libvemodel.so.0
header vemodel.h clients/c/vemodel.h
notices THIRD-PARTY THIRD-PARTY
web vemodel.wasm crates/vemodel_c/out/vemodel.wasm clients/web/heap.c tools/web.py tools/products.py
program-aarch64 vemodel-aarch64-linux crates/vemodel/out/vemodel-aarch64-linux tools/aarch64.c tools/products.py
library-aarch64 libvemodel-aarch64.so crates/vemodel_c/out/libvemodel-aarch64.so tools/aarch64.c tools/products.py
'
words=$(echo "$artifacts" | cut -d ' ' -f 1)
sums=$top/release/SUMS

# version_number: the version as vemodel_version tells it, which is one number.
version_number() {
    tr . ' ' <"$top/VERSION" | { read -r first second third; echo $((65536 * first + 256 * second + third)); }
}

# artifact WORD: sets released and built, the files of an artifact, and own, what it is made of beside the crates.
artifact() {
    # shellcheck disable=SC2046  # these are words
    set -- $(echo "$artifacts" | sed -n "s/^$1 //p")
    released=$top/release/$1
    built=$top/$2
    shift 2
    own=$*
}

# always WORD: an artifact that each release has.
always() {
    case $1 in program | library | header | notices) ;; *) return 1 ;; esac
}

# sum_of FILE: its SHA-256.
sum_of() {
    sha256sum <"$1" | cut -d ' ' -f 1
}

# found WORD FILE.. [FIND'S WORDS..]: finds the sources of an artifact, by their paths from the top.
found() {
    artifact "$1"
    shift
    # shellcheck disable=SC2086  # paths, as words
    (cd "$top" && find crates.txt crates/*/src crates/*/specs crates/*/proofs $own "$@" 2>/dev/null)
}

# sources_sum WORD: the SHA-256 of what sha256sum writes of each source of an artifact, in the order of the bytes of their paths.
sources_sum() {
    found "$1" -type f -print0 | LC_ALL=C sort -z | (cd "$top" && xargs -0 sha256sum) | sha256sum | cut -d ' ' -f 1
}

# note_built WORD SUM [TOOLS]: notes beside what was just built that it is of the sources with this sum, unless these have changed meanwhile,
# and with which tools it was made.
note_built() {
    artifact "$1"
    rm -f "$built.of"
    [ "$(sources_sum "$1")" = "$2" ] && printf '%s\n' "$2 $(sum_of "$built")" "${3:-}" >"$built.of"
}

# is_built WORD: what was built here of the sources as they are is there, and is what was built then. (The header is a source.)
is_built() {
    artifact "$1"
    case $built in */out/*) ;; *) return 0 ;; esac
    [ -e "$built" ] && [ -e "$built.of" ] && [ "$(head -n 1 "$built.of")" = "$(sources_sum "$1") $(sum_of "$built")" ]
}

# tools_here WORD: with which tools what was built here was made. Of what the toolchain makes alone there are none.
tools_here() {
    artifact "$1"
    sed -n 2p "$built.of" 2>/dev/null
}

# said WORD: what release/SUMS says of an artifact, the sources or the toolchain; nothing where it doesn't.
said() {
    sed -n "s/^$1 //p" "$sums" 2>/dev/null
}

# tools_said WORD: the same of the release's, as release/SUMS says. Nothing goes by it: it is there to explain a difference.
tools_said() {
    said "$1-tools"
}

# sums_by TOOLCHAIN TOOLS: what release/SUMS has to be, for the files of release/, the sources as they are, and this toolchain's line, where
# tools_here or tools_said tells the tools.
sums_by() {
    for word in $words; do
        artifact "$word"
        [ -e "$released" ] || continue
        echo "$word $(sum_of "$released")"
        [ -z "$own" ] || printf '%s\n' "$word-sources $(sources_sum "$word")" "$word-tools $("$2" "$word")"
    done
    echo "sources $(sources_sum program)"
    echo "toolchain $1"
}

# unreleased WORD: says why the release has no such artifact of the sources as they are; nothing where it has.
unreleased() {
    artifact "$1"
    file=release/${released##*/}
    if [ ! -e "$released" ]; then
        echo "there is no $file"
    elif [ "$(said "$1")" != "$(sum_of "$released")" ]; then
        echo "$file isn't what release/SUMS names"
    elif [ "$(said "${own:+$1-}sources")" != "$(sources_sum "$1")" ]; then
        echo "release/ is of other sources than these, such as older ones"
    fi
}

# runs FILE: a program does, which a release doesn't everywhere. On an empty script it does nothing.
runs() {
    "$1" run </dev/null >/dev/null 2>&1
}

# state WORD: the sum of what the file system says of all that `taken` looks at; nothing where find can't tell. Where it is the same, so
# are the files: the time of each one's last change stands there, which no program sets.
state() {
    seen=$(found "$1" release "$built" "$built.of" -printf '%p %i %s %C@\n') || [ -n "$seen" ] || return 0
    echo "$seen" | sha256sum
}

# standing WORD: prints the file of an artifact: the one that was built of the sources as they are, or else the release's. Its status is 1
# where neither is there.
standing() {
    if is_built "$1"; then
        echo "$built"
    elif [ -z "$(unreleased "$1")" ]; then
        echo "$released"
    else
        return 1
    fi
}

# taken WORD: prints the file to take for an artifact, as `standing` does, and a program only where it runs. Which file was found is
# noted, so that no sum is taken while nothing has changed.
taken() {
    artifact "$1"
    note=$built.taken
    now=$(state "$1")
    if [ -n "$now" ] && [ -e "$note" ] && [ "$(sed 1d "$note")" = "$now" ]; then
        echo "$top/$(head -n 1 "$note")"
        return
    fi
    file=$(standing "$1") || return 1
    case $1 in program*) runs "$file" || return 1 ;; esac
    # Where this can't be written, the sums are taken each time.
    { mkdir -p "${note%/*}" && printf '%s\n' "${file#"$top"/}" "$now" >"$note"; } 2>/dev/null || :
    echo "$file"
}
