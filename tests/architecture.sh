#!/usr/bin/env bash
# The picture in docs/architecture.md against crates.txt: every crate stands in it once, and uses only
# crates of its own line and of the lines below. The edits in docs/CONTRACTS.md are those that are there.
set -euo pipefail
cd "$(dirname "$0")/.."
awk '
    FILENAME == "docs/architecture.md" {
        if ($0 == "```") { block++; next }
        if (block == 1) {
            line++
            for (i = 2; i <= NF; i++) {
                if ($i in level) { print "architecture: " $i " stands twice"; bad = 1 }
                level[$i] = line
            }
        }
        next
    }
    { sub(/#.*/, "") }
    /:/ {
        split($0, side, ":")
        name = side[1]
        sub(/ staticlib/, "", name)
        gsub(/ /, "", name)
        listed[name] = 1
        if (!(name in level)) { print "architecture: " name " is not in the picture"; bad = 1; next }
        count = split(side[2], deps, " ")
        for (i = 1; i <= count; i++)
            if (deps[i] in level && level[deps[i]] < level[name]) {
                print "architecture: " name " uses " deps[i] ", which stands above it"
                bad = 1
            }
    }
    END {
        for (name in level) if (!(name in listed)) { print "architecture: " name " is in the picture, not in crates.txt"; bad = 1 }
        if (!line) { print "architecture: no picture found"; bad = 1 }
        exit bad
    }
' docs/architecture.md crates.txt
listed=$(sed -n '/^## Edits$/,$ s/^| `\([a-z0-9_]*\/[a-z0-9_]*\)` .*/\1/p' docs/CONTRACTS.md | sort)
there=$(find crates -path '*/must-fail/*.edit' | sed 's#^crates/##; s#/must-fail/#/#; s#\.edit$##' | sort)
diff <(echo "$listed") <(echo "$there") || { echo 'architecture: the edits in docs/CONTRACTS.md (<) are not those in must-fail (>)'; exit 1; }
echo 'architecture: ok'
