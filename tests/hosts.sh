#!/usr/bin/env bash
# The hosts in C and in Rust build without a warning and print what the documents say, and so do the commands of README.md.
set -euo pipefail
cd "$(dirname "$0")/.."
library=${MUNGAITE_LIB:-$PWD/target/staticlib}
export MUNGAITE_LIB=$library
folder=$(mktemp -d)
trap 'rm -r "$folder"' EXIT

for source in examples/*.c; do
    host=$(basename "$source" .c)
    cc -std=c99 -Wall -Wextra -Werror -pedantic -I include "$source" "$library/libmungaite.a" -o "$folder/$host"
    "$folder/$host" | diff - "examples/$host.stdout"
done

# The first example of README.md: a policy as text, turned into an image and asked.
bin=$PWD/target/bin
"${COMPILE:-$bin/compile}" < examples/sample.policy > "$folder/sample.image"
head -c 80 crates/permit/stdin | cmp - "$folder/sample.image"
answer=$({ cat "$folder/sample.image"; printf '\0\12\0\25\0\5\0\1\0\0\0\0'; } | "${PERMIT:-$bin/permit}")
[ "$answer" = "P 0" ]
refused=$(sed '2s/on/On/' examples/sample.policy | "${COMPILE:-$bin/compile}" 2>&1)
[ "$refused" = "R 18 12 2" ]

# A rule that waits for switch 0: 15, 30, class 5, action 4 without it and with it.
{ cat examples/sample.policy; echo 'allow 15 30 5 4 s0'; } | "${COMPILE:-$bin/compile}" > "$folder/cleaning.image"
query='\0\17\0\36\0\5\0\4'
answer=$({ cat "$folder/cleaning.image"; printf "$query"'\0\0\0\0'"$query"'\0\0\0\1'; } | "${PERMIT:-$bin/permit}")
[ "$answer" = $'N 1 0\nP 4' ]

# An image from the time when twins were accepted (g0 and g1 are 20, 21; g2 is 30): it is refused, and converted it is
# the image of the text without them. An image without twins comes out byte for byte.
printf '\1\0\64\0\3\0\2\0\1\6\1\0\24\0\25\6\1\0\24\0\25\4\1\0\36' > "$folder/twins.image"
printf '\10\3\200\1\200\2\0\5\10\3\0\14\200\0\0\5\13\4\0\5\0\1\200\2\200\1\1' >> "$folder/twins.image"
[ "$("${PERMIT:-$bin/permit}" < "$folder/twins.image")" = "R 19 15" ]
printf 'group 20 21\ngroup 30\ntrans g0 g1 5\ntrans 12 g0 5\nlimit 5 1 g1 g0 1\n' |
    "${COMPILE:-$bin/compile}" > "$folder/single.image"
for old in twins single; do
    "${CONVERT:-$bin/convert}" < "$folder/$old.image" | cmp - "$folder/single.image"
done

# A new image takes the old one's place where `permit` decides a query on it (docs/INTERFACE.md): not one that was cut, nor
# where nothing was written.
decides() {
    { cat "$1"; printf '\0\0\0\0\0\0\0\0\0\0\0\0'; } | "${PERMIT:-$bin/permit}" | grep -q '^[NPU]'
}
decides "$folder/sample.image"
head -c 79 "$folder/sample.image" > "$folder/cut.image"
if decides "$folder/cut.image" || decides /dev/null; then
    exit 1
fi

cd rust
RUSTFLAGS='-D warnings' cargo test --release --offline --quiet -j1 > "$folder/tests" 2>&1 || { cat "$folder/tests"; exit 1; }
for source in examples/*.rs; do
    host=$(basename "$source" .rs)
    RUSTFLAGS='-D warnings' cargo run --release --offline --quiet -j1 --example "$host" < ../examples/sample.policy |
        diff - "examples/$host.stdout"
done
refused=$(sed '2s/on/On/' ../examples/sample.policy |
    cargo run --release --offline --quiet -j1 --example explain 2>&1) && exit 1
said='row 2, `allow 10 g0 5 1 On`: `On` is neither on nor off: write it in lower case (refusal 18)'
[ "$refused" = "$said" ]
grep -qF "$said" ../README.md
