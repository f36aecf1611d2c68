#!/bin/sh
# tests/calls.sh: compares tests/data/calls.txt, call by call, with the signatures of public functions that may find no memory.
#
# `<` is a call that has no row, `>` one in a row that there isn't, `=` one that has two; `?` is a case that there isn't. The last line is
# `N passed, M failed`.
top=$(CDPATH='' cd -- "$(dirname -- "$0")/.." && pwd) && cd "$top" || exit 1
room=$(mktemp -d) || exit 1
trap 'rm -rf "$room"' EXIT
# The errors that may say that there is no memory.
faults='AllocError|Refusal|(Capture|Config|Input|Object|Open|Output|Read|Route|Run|Serve|World)Fault|Dropped|Flaw|Unread|TableChange|Error'

# Prints the files of the crates that the program lsr stands on; crates.txt lists the lowest crates first.
list_sources() {
    awk -F '[: ]+' '
        !/^#/ { name[++count] = $1; line[count] = $0 }
        END {
            needed["lsr"] = 1
            for (i = count; i > 0; i--) if (name[i] in needed)
                for (j = split(line[i], uses); j > 1; j--) needed[uses[j]] = 1
            for (i = 1; i < count; i++) if (name[i] in needed && name[i] != "lsr") print "crates/" name[i] "/src"
        }' crates.txt | xargs -I NAME find NAME -name '*.rt'
}

# Prints `CRATE NAME` of each public function, of each method of a public trait and of each `clone`, where it takes an allocator or its
# result may say that there is no memory.
list_calls() {
    # shellcheck disable=SC2046 # the names are words
    awk -v wanted="[^a-z](Result<.*[^A-Za-z]($faults)>|io::Result)" '
        FNR == 1 { is_open = is_trait = 0; split(FILENAME, part, "/"); crate = part[2] }
        /^pub trait |^impl.* Clone for / { is_trait = 1 }
        /^}/ { is_trait = 0 }
        /^ *pub (const )?fn / || (is_trait && /^    fn /) { text = ""; is_open = 1 }
        is_open {
            text = text " " $0
            if (/[{;]$|^ *(ensures|requires)/) {
                is_open = 0
                sub(/ (ensures|requires) .*/, "", text)
                is_listed = text ~ /alloc: Global/ || text ~ ("->.*" wanted)
                if (match(text, /fn [a-z_0-9]+/) && is_listed) print crate, substr(text, RSTART + 3, RLENGTH - 3)
            }
        }' $(list_sources) | sort -u
}

# Prints `CRATE NAME` of each call of a row.
list_rows() {
    awk -F ': ' '!/^#/ { count = split($3, names, " "); for (i = 1; i <= count; i++) print $1, names[i] }' tests/data/calls.txt | sort
}

# Prints the cases of rows that there aren't.
list_unknown() {
    # shellcheck disable=SC2046 # cases are words
    for case in $(awk -F ': ' '!/^#/ { print $2 }' tests/data/calls.txt | tr ' ' '\n' | sort -u); do
        name=${case%%/*}
        case $case in
            none | nothing) ;;
            growths/*) grep -q "words, \"${case#*/}\"" crates/growth_cases/src/lib.rt || echo "? $case" ;;
            *.py | *.py/*) [ -f "tests/$name" ] || echo "? $case" ;;
            *) grep -q "^PARTS = .*\"$name\"" tests/refuse.py || grep -qx "$name" tests/data/refuse/growths.txt || [ -d "crates/$name" ] || echo "? $case" ;;
        esac
    done
}

list_calls > "$room/calls"
list_rows > "$room/all"
uniq "$room/all" > "$room/rows"
{
    diff "$room/calls" "$room/rows" | grep '^[<>]'
    uniq -d "$room/all" | sed 's/^/= /'
    list_unknown
} | tee "$room/differing"
differing=$(wc -l < "$room/differing")
passed=$(comm -12 "$room/calls" "$room/rows" | wc -l)
echo "$passed passed, $differing failed"
[ "$differing" -eq 0 ] && [ "$passed" -gt 0 ]
