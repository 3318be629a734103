#!/bin/sh
# Runs three scripts with one allocation refused, for each allocation that they make, and looks at what the program does: the status
# is 6 and a prefix of the replies was written. The scripts are the first one, a page with references that is edited and undone, and
# two sites that join. It takes a C compiler, which makes a malloc that counts; the program is bin/vemodel's.
# usage: tools/refuse-memory.sh
set -eu
top=$(dirname "$(dirname "$(readlink -f "$0")")")
work=$(mktemp -d)
trap 'rm -rf "$work"' EXIT

cat >"$work/refuse.c" <<'END'
#define _GNU_SOURCE
#include <dlfcn.h>
#include <stddef.h>
#include <stdlib.h>

/* Whether the allocation whose turn it is gets refused; a status file takes how many there were. */
static long left = -1;
static int refused(void) {
    if (left < 0) { const char *n = getenv("REFUSE"); left = n ? atol(n) : 0; }
    return left > 0 && --left == 0;
}
void *malloc(size_t n) { static void *(*f)(size_t); if (!f) f = dlsym(RTLD_NEXT, "malloc"); return refused() ? NULL : f(n); }
void *realloc(void *p, size_t n) { static void *(*f)(void *, size_t); if (!f) f = dlsym(RTLD_NEXT, "realloc"); return refused() ? NULL : f(p, n); }
void *aligned_alloc(size_t a, size_t n) { static void *(*f)(size_t, size_t); if (!f) f = dlsym(RTLD_NEXT, "aligned_alloc"); return refused() ? NULL : f(a, n); }
END
cc -O1 -shared -fPIC -o "$work/refuse.so" "$work/refuse.c"

cp "$top/examples/first.jsonl" "$work/first"
{
    cat "$top/examples/wiki.jsonl"
    printf '%s\n' '{"do":"text","at":4,"text":"new"}' '{"do":"refs"}' '{"do":"html"}' '{"do":"undo"}' '{"do":"html"}'
} >"$work/references"
{
    printf '%s\n' '{"do":"open","page":"<p>ab</p>","sites":2}' '{"do":"text","at":2,"text":"X","site":0}' '{"do":"text","at":3,"text":"Y","site":1}'
    for site in 0 1; do printf '{"do":"send","site":%s}\n{"do":"serve","site":%s}\n' $site $site; done
    for site in 0 1; do printf '{"do":"take","site":%s}\n{"do":"take","site":%s}\n{"do":"html","site":%s}\n' $site $site $site; done
} >"$work/sites"

# The built program itself: what starts it allocates, too.
[ -n "${PROGRAM:-}" ] || "$top/bin/vemodel" run </dev/null
# shellcheck source=tools/sources.sh
. "$top/tools/sources.sh"
run=${PROGRAM:-$(taken program)}

for script in first references sites; do
    "$run" run <"$work/$script" >"$work/whole"
    number=1
    while :; do
        status=0
        REFUSE=$number LD_PRELOAD=$work/refuse.so "$run" run <"$work/$script" >"$work/written" || status=$?
        size=$(wc -c <"$work/written")
        head -c "$size" "$work/whole" | cmp -s - "$work/written" || { echo "$script: allocation $number refused: other replies" >&2; exit 1; }
        [ "$status" -ne 0 ] || break
        [ "$status" -eq 6 ] || { echo "$script: allocation $number refused: status $status" >&2; exit 1; }
        number=$((number + 1))
    done
    cmp -s "$work/whole" "$work/written" || { echo "$script: allocation $number refused: status 0, and not all was written" >&2; exit 1; }
    echo "$script: $((number - 1)) allocations, each refused once: status 6 and a prefix of the replies"
done
