#!/usr/bin/env bash
# Every public function says what it answers (`ensures`) and asks nothing of its caller (no `requires`), however it is laid
# out.
cd "$(dirname "$0")/.." || exit 2

# Names each public function of the source on standard input, with what is wrong with its contract.
look() {
    LC_ALL=C awk '
        # The source without comments, those in clauses too, strings and characters: words, brackets and braces are left.
        function plain(text,    kept, found) {
            kept = ""
            while (match(text, /\/\/[^\n]*|\/\*|[ \n]-- [^\n]*|"([^"\\]|\\.)*"|'\''([^'\''\\]|\\[^'\'']*)'\''/)) {
                found = substr(text, RSTART, RLENGTH)
                kept = kept substr(text, 1, RSTART - 1) " "
                text = substr(text, RSTART + RLENGTH)
                if (found == "/*") text = past(text, "*/")
            }
            return kept text
        }

        function past(text, end,    at) {
            at = index(text, end)
            return at ? substr(text, at + length(end)) : ""
        }

        # The word past the bracket that closes the one at a word.
        function closed(at,    opening, depth) {
            opening = word[at]
            for (depth = 0; at <= words; at++) {
                if (word[at] == opening) depth++
                if (word[at] == closing[opening] && --depth == 0) return at + 1
            }
            return at
        }

        # Whether the function at a word can be called from outside: it is public, or other languages can call it.
        function is_public(at) {
            while (word[--at] ~ /^(const|unsafe|async|extern)$/) if (word[at] == "extern") return 1
            return word[at] == "pub"
        }

        # What is wrong with the contract of the function at a word: the clauses up to its body, each with a name or without.
        function wrong(at,    ensured, asked) {
            for (at += 2; at <= words && word[at] != ";";) {
                if (word[at] ~ /^[(<[]$/) { at = closed(at); continue }
                if (word[at] ~ /^ensures[*]?$/) ensured = 1
                if (word[at] ~ /^requires[*]?$/) asked = 1
                if (word[at] ~ clause) {
                    if (word[++at] != "{") at++
                    if (word[at] != "{") return "a layout that cannot be read"
                    at = closed(at)
                    continue
                }
                if (word[at] == "{") { at = closed(at); break }
                at++
            }
            if (word[at] ~ clause || word[at] == "{") return "a layout that cannot be read"
            if (!ensured) return "no ensures"
            return asked ? "a requires" : "sound"
        }

        { text = text $0 "\n" }
        END {
            closing["("] = ")"; closing["["] = "]"; closing["{"] = "}"; closing["<"] = ">"
            clause = "^(ensures|requires)[*]?$"
            text = plain(text)
            gsub(/->/, " ", text)
            gsub(/[][(){};<>,]/, " & ", text)
            words = split(text, word)
            for (n = 1; n <= words; n++) if (word[n] == "fn" && is_public(n)) print word[n + 1] ": " wrong(n)
        }
    '
}

# The look itself: what it must say of the function `f` of a source.
bad=0
says() {
    local said
    said=$(look <<< "$2" | grep '^f:')
    [ "$said" = "${1:+f: $1}" ] || { echo "looking at $2: '$said', not '${1:+f: $1}'"; bad=1; }
}
says 'no ensures' 'pub fn f(x: u8) -> u8 { x }'
says 'no ensures' $'pub fn f(\n    x: [u8; 4],\n) -> [u8; 4]\n{\n    x\n}'
says 'no ensures' $'pub\nfn f<T>(x: T) -> T // ensures { result ≡ x }\n{ x }'
says 'no ensures' 'mod m { impl S { pub const fn f(self) -> u8 { "ensures"; '"'{'"' } } }'
says 'no ensures' 'extern "C" fn f(x: u8) -> u8 /* ensures { } */ { x }'
says 'a layout that cannot be read' 'pub fn f(x: u8) -> u8 promises { } ensures { result ≡ x } { x }'
says 'a layout that cannot be read' 'pub fn f(x: u8) -> u8 ensures a b { result ≡ x } { x }'
says '' 'pub(crate) fn f(x: u8) requires { x < 3 } { }'
# A clause stands alone, with a name, and with a star; its term has braces, strings and comments of its own.
for ensures in ensures 'ensures ok' 'ensures*' $'ensures\n    ok'; do
    requires=${ensures/ensures/requires}
    term=$'{ result ≡ g {n = 4} (record { x = 1 }) "{"\n    -- and {\n }'
    says 'no ensures' "pub fn f() { } fn g(x: u8) -> u8 $ensures $term { x }"
    says 'a requires' "pub fn f(x: u8) -> u8 $requires { x < 3 } $ensures $term { x }"
    says 'a requires' "pub fn f(x: u8)"$'\n    -> u8\n    '"$ensures"$'\n    { result ≡ x }\n    '"$requires"$'\n    { x < 3 }\n{ x }'
    says 'a requires' "pub fn f(x: u8) -> u8 $requires { x < 3 } $requires $term $ensures $term $ensures { x ≡ x } { x }"
    says 'sound' "pub fn f(x: u8) -> [u8; 4] $ensures $term { g(x) } fn g(x: u8) $requires { x < 3 } { }"
    says 'sound' "pub fn f(x: u8) -> u8 $ensures { x ≡ x } $ensures $term { x - -1 }"
done

functions=0
for file in $(find crates/*/src -name '*.rt' | sort); do
    while IFS=': ' read -r name what; do
        functions=$((functions + 1))
        [ "$what" = sound ] || { echo "$file: $name: $what"; bad=1; }
    done < <(look < "$file")
done
echo "$functions public functions"
[ "$functions" -gt 0 ] && exit "$bad"
exit 1
