#!/usr/bin/env bash
# Counts in src/ the places of docs/DESIGN-PASS.md, a line for each command: its point and letter, the number of lines, the pattern.
#
#     tools/count_forms.sh          the files as they are
#     tools/count_forms.sh COMMIT   those of a commit
#     tools/count_forms.sh -l 3b    the lines themselves, of one letter
set -euo pipefail
cd "$(dirname "$0")/.."

list=
if [ "${1:-}" = -l ]; then
    list=$2
    shift 2
fi
if [ $# -gt 0 ]; then
    copy=$(mktemp -d)
    trap 'rm -rf "$copy"' EXIT
    git archive "$1" crates | tar -x -C "$copy"
    cd "$copy"
fi

count() {
    local letter=$1 pattern=$2 lines
    lines=$(grep -nE -- "$pattern" crates/*/src/*.rt || true)
    if [ "$list" = "$letter" ]; then
        printf '%s\n' "$lines"
    elif [ -z "$list" ]; then
        printf '%-3s %4d  %s\n' "$letter" "$(grep -c . <<< "$lines" || true)" "$pattern"
    fi
}

# 1: enums, to be read for the shape of Option or Result; flags beside a value; 0 or the number of a refusal; numbers for kinds.
count 1a '^\s*(pub )?enum '
count 1b 'pub (state|over|opened|bad): usize'
count 1c '^fn refused\(.*-> u8'
count 1d 'const [A-Z_]+: (u8|usize) = [0-9]+;'
# 2: functions that differ in a type, or write again what the library has.
count 2a '^fn (wide|long|lower|hex|text|refused|end)\('
# 3: loops that are no `for`, and indices that are counted by hand.
count 3a '^\s*(while|loop)\b'
count 3b '^\s*[a-z]+ \+= 1;'
# 4: structs copied field by field; printing word by word; conversions; casts.
count 4a '(limit: feed\.limit|start: record\.start),'
count 4b '\b(text|number|three)\(rt'
count 4c ' as (u8|u16|u32|u64|usize)\b'
count 4d 'return (true|false);'
# 5: facts in several contracts, and arrays that travel together.
count 5a 'requires.*\bReady\b'
count 5b '(requires|ensures).*longest_log'
count 5c '(requires|ensures).*longest_record'
count 5d 'requires.*\bHeld\b'
count 5e 'requires.*\bLent\b'
count 5f 'log: &(mut )?LogArray'
count 5g 'requires.*\b(Length|Header)\.'
# 6: a length beside its array.
count 6a '\b(n|m|bytes): usize\b'
# 7: which step to run, by a flag.
count 7a '\bcut: bool'
