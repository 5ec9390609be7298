#!/usr/bin/env bash
# The C header says what the library does (tests/header.c). Beside it, what no C program can tell: the names and the order of
# the functions' parameters, that C++ is told of C functions, and that the test leaves no macro out.
set -euo pipefail
cd "$(dirname "$0")/.."
library=${MUNGAITE_LIB:-$PWD/target/staticlib}
host=$(mktemp)
trap 'rm "$host"' EXIT

cc -std=c99 -Wall -Wextra -Werror -pedantic -I include tests/header.c "$library/libmungaite.a" -o "$host"
"$host"

diff - <(cc -fpreprocessed -dD -E -P include/mungaite.h | tr -s ' \n' ' ' | grep -oE 'uint64_t mungaite_[^;]*;') << 'END'
uint64_t mungaite_check(const uint8_t *image, size_t length);
uint64_t mungaite_decide(uint16_t source, uint16_t destination, uint16_t class_, uint16_t action, uint32_t switches, const uint8_t *image, size_t length);
uint64_t mungaite_run(const uint16_t *queries, size_t numbers, uint64_t *answers, size_t rows, const uint8_t *image, size_t length);
uint64_t mungaite_record(uint16_t section, uint16_t n, const uint8_t *image, size_t length);
uint64_t mungaite_add(uint8_t *buffer, size_t length, const uint8_t *record, size_t record_length);
uint64_t mungaite_build(const uint8_t *text, size_t text_length, uint8_t *buffer, size_t length);
uint64_t mungaite_convert(const uint8_t *image, size_t length, uint8_t *buffer, size_t buffer_length);
END

diff <(printf 'extern "C" {\n}\n') <(cc -E -P -D__cplusplus=199711L include/mungaite.h | grep -xE 'extern "C" \{|\}')
if cc -E -P include/mungaite.h | grep 'extern "C"'; then exit 1; fi

untested=$(cc -E -dM include/mungaite.h | sed -nE 's/^#define (MUNGAITE_[A-Z_]+).*/\1/p' | grep -vxF -f <(
    grep -oE 'MUNGAITE_[A-Z_]+' tests/header.c; echo MUNGAITE_H)) || true
[ -z "$untested" ] || { echo "tests/header.c does not use $untested"; exit 1; }
