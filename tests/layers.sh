#!/usr/bin/env bash
# The layers are what README.md says:
# - a contract and a definition name no definition of a proof file;
# - what stands in specs/ rests on nothing of specs/Inner, and no public contract names anything of it;
# - a proof opens (`unfolding`, `unfold`, and in a source `#[tactic(.., unfolding(..))]`) no definition of another crate, but
#   for the code that meets the definitions of its own layer: image those of format, extend of extension and text, decide and
#   numbers of decision, rewrite of conversion, permit, compile and streams of lines. All else is cited by laws.
#   Free are the words of the library, values that are written out (the sample, the empty policy, the marked cases' records),
#   and the tables of worked cases, whose proof is that they are computed.
# - what meets the claims' terms (crates/claims/proofs, *Terms.antt, Cases.antt and Worked.antt) cites no claim's own proof, but
#   the statement's fields.
# Prints file:line for each place that breaks one of these.
cd "$(dirname "$0")/.." || exit 2
bad=0
fails() {
    if [ -n "$1" ]; then
        printf '%s\n' "$1"
        bad=1
    fi
}

# The repository's own crates, as one pattern.
own=$(basename -a crates/*/ | paste -sd '|')
proofs="Rattle\.($own)\.proofs\."
fails "$(grep -rnE "$proofs" crates/*/src --include='*.rt' | sed 's/$/    (a contract names a proof file)/')"
fails "$(grep -rnE "$proofs" crates/*/specs --include='*.antt' | sed 's/$/    (a definition names a proof file)/')"
fails "$(grep -rn '\.Inner\.' crates/*/specs --include='*.antt' --exclude-dir=Inner | sed 's/$/    (rests on specs\/Inner)/')"

# What each name of a file is brought in from: the crate, and whether it stands in Inner. `use Rattle.CRATE.. .{a, b as c}`, or
# `use Rattle.CRATE.. as x`, and then x.a.
brought='
    function bring(line,    path, part, n, i, names) {
        path = line
        sub(/^.*use Rattle\./, "", path)
        crate = path
        sub(/[^a-z0-9_].*$/, "", crate)
        inner = line ~ /\.Inner\./
        if (line ~ /\{/) {
            part = line
            sub(/^[^{]*\{/, "", part)
            sub(/\}.*$/, "", part)
        } else if (line ~ / as /) {
            part = line
            sub(/^.* as /, "", part)
            sub(/;.*$/, "", part)
        } else {
            part = path
            sub(/;.*$/, "", part)
            sub(/^.*\./, "", part)
        }
        n = split(part, names, /, */)
        for (i = 1; i <= n; i++) {
            sub(/^.* as /, "", names[i])
            from[names[i]] = crate
            within[names[i]] = inner
        }
    }
    FNR == 1 {
        split("", from)
        split("", within)
        own = FILENAME
        sub(/^crates\//, "", own)
        sub(/\/.*$/, "", own)
        open = clause = 0
    }
    /^ *(ghost )?use Rattle\./ { bring($0); next }
'

# Whether a crate may open a definition of another.
may='
    BEGIN {
        may["image format"] = may["extend extension"] = may["extend text"] = 1
        may["decide decision"] = may["numbers decision"] = 1
        may["permit lines"] = may["compile lines"] = may["streams lines"] = may["rewrite conversion"] = 1
        n = split("sample empty companion with_space extended", names)
        for (i = 1; i <= n; i++) value[names[i]] = 1
    }
    function opened(crate, name) {
        if (crate != "" && crate != own && crate != "std" && !((own " " crate) in may) && !(name in value))
            print FILENAME ":" FNR ": opens " name " of " crate
    }
'

fails "$(find crates/*/proofs -name '*.antt' ! -name Cases.antt ! -name Worked.antt -exec awk "$brought$may"'
    # an `unfolding` goes on over the lines that are indented further than it
    function opens(first, last,    i, name, all) {
        for (i = first; i <= last; i++) {
            name = all = $i
            gsub(/[}{(),;]/, "", name)
            gsub(/[}{(),;]/, "", all)
            sub(/\..*$/, "", name)
            opened(from[name], all)
        }
    }
    { indent = match($0, /[^ ]/) }
    # `unfold a b in term`, anywhere in a line
    {
        for (at = 1; at <= NF; at++)
            if ($at ~ /^[(]*unfold$/) {
                for (to = at; to < NF && $(to + 1) != "in"; to++) { }
                opens(at + 1, to)
            }
    }
    open && indent > open { opens(1, NF); next }
    { open = 0 }
    $1 == "unfolding" { open = indent; opens(2, NF) }
' {} +)"

fails "$(find crates/*/src -name '*.rt' -exec awk "$may"'
    FNR == 1 { own = FILENAME; sub(/^crates\//, "", own); sub(/\/.*$/, "", own); listed = 0 }
    # the paths of `unfolding(..)`, which may go on over lines
    /^ *\/\// { next }
    {
        line = $0
        while (line != "") {
            if (!listed) {
                if (!match(line, /unfolding\(/)) break
                line = substr(line, RSTART + RLENGTH)
                listed = 1
            }
            part = line
            if (index(line, ")")) {
                part = substr(line, 1, index(line, ")") - 1)
                line = substr(line, index(line, ")") + 1)
                listed = 0
            } else line = ""
            n = split(part, paths, /[, ]+/)
            for (i = 1; i <= n; i++) if (paths[i] != "") {
                crate = name = paths[i]
                sub(/::.*$/, "", crate)
                sub(/^.*::/, "", name)
                opened(crate == "crate" ? own : crate, name)
            }
        }
    }
' {} +)"

fails "$(find crates/*/src -name '*.rt' -exec awk "$brought"'
    # a public function, its clauses, and the brace of its body
    /^ *(pub |extern )[^(]*fn / || /^ *(pub )?[^(]*extern [^(]*fn / { open = 1; clause = 0 }
    open && /^ *(ensures|requires)[*]? / { clause = 1 }
    open && /^ *\{$/ || open && !clause && /[{;]$/ { open = 0 }
    open && clause {
        n = split($0, words, /[^A-Za-z0-9_'\'']+/)
        for (i = 1; i <= n; i++)
            if (within[words[i]]) print FILENAME ":" FNR ": a public contract names " words[i] ", of specs/Inner"
        if (/\.Inner\./) print FILENAME ":" FNR ": a public contract names specs/Inner"
    }
' {} +)"

claims=$(sed -nE "s/^ +[a-z0-9_']+ = [a-z_-]+\.([a-z0-9_'-]+);\$/\1/p" crates/claims/proofs/Promises.antt)
fails "$(awk -v claims="$claims" '
    BEGIN { n = split(claims, names, /\n/); for (i = 1; i <= n; i++) claim[names[i]] = 1; if (n < 40) print "no claims found" }
    /^use Rattle\./ && !/^use Rattle\.std\./ && /\.proofs\./ && !/\{/ { print FILENAME ":" FNR ": brings in a whole proof file" }
    /^use Rattle\./ && !/^use Rattle\.std\./ && /\.proofs\./ {
        part = $0
        sub(/^[^{]*\{/, "", part)
        sub(/\}.*$/, "", part)
        n = split(part, names, /, */)
        for (i = 1; i <= n; i++) {
            sub(/ as .*$/, "", names[i])
            if (names[i] in claim) print FILENAME ":" FNR ": cites the proof of " names[i]
        }
    }
' crates/claims/proofs/*Terms.antt crates/claims/proofs/Cases.antt crates/claims/proofs/Worked.antt)"
exit "$bad"
