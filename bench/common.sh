# Shared by the scripts beside it: where the program is, scripts to run, and times.

top=$(dirname "$(dirname "$(readlink -f "$0")")")
# shellcheck source=tools/sources.sh
. "$top/tools/sources.sh"
work=$(mktemp -d) || exit 1
trap 'rm -rf "$work"' EXIT

# Its own launcher, on an empty script, sees to it that the program which was built here or the release is of these sources.
"$top/bin/vemodel" run </dev/null || exit 1
program=$(taken program) || exit 1

# A page of so many paragraphs of ten characters, as the line that opens it.
open_line() {
    awk -v n="$1" 'BEGIN {
        printf "{\"do\":\"open\",\"page\":\""
        for (i = 0; i < n; i++) printf "<p>abcdefghij</p>"
        print "\"}"
    }'
}

# So many lines that type a character into the first paragraph.
text_lines() {
    awk -v n="$1" 'BEGIN { for (i = 0; i < n; i++) print "{\"do\":\"text\",\"at\":5,\"text\":\"x\"}" }'
}

# The least of three times that a script takes, in microseconds.
least_microseconds() {
    for _ in 1 2 3; do
        began=$(date +%s%N)
        "$program" run <"$1" >/dev/null || exit 1
        echo $((($(date +%s%N) - began) / 1000))
    done | sort -n | head -1
}

# The same in milliseconds.
least_time() {
    echo $(($(least_microseconds "$1") / 1000))
}
