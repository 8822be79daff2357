#!/bin/sh
# plan.sh CRATE: the crates that one needs, itself among them, a line for each: its name, and those of crates.txt that it uses. Each stands below those that it uses, by
# levels. crates.txt has others beside.
set -eu
root=$(cd "$(dirname "$0")/.." && pwd -P)
awk -v last="$1" '
    function visit(name,    uses, n, k) {
        if (!(name in line) || (name in level)) return
        level[name] = 0
        n = split(line[name], uses)
        for (k = 1; k <= n; k++) {
            visit(uses[k])
            if (uses[k] in line) {
                used[name] = used[name] " " uses[k]
                if (level[name] <= level[uses[k]]) level[name] = level[uses[k]] + 1
            }
        }
        if (highest < level[name]) highest = level[name]
        order[++found] = name
    }
    { sub(/#.*/, "") }
    (at = index($0, ":")) {
        split(substr($0, 1, at - 1), words)
        name = words[1] # without what kind of crate it is
        line[name] = substr($0, at + 1)
    }
    END {
        visit(last)
        for (l = 0; l <= highest; l++) for (k = 1; k <= found; k++) if (level[order[k]] == l) print order[k] used[order[k]]
    }' "$root/crates.txt"
