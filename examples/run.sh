#!/usr/bin/env bash
# Compiles the C examples against include/aljumeste.h and crates/aljumeste/out/libaljumeste.a, runs them, and holds what they print against the
# text beside each. Also: the header declares the archive's functions, all of them and no others; and the archive needs two names from outside, memcpy
# and memset, so that it links where there is no more.
set -euo pipefail
cd "$(dirname "$0")/.."

archive=crates/aljumeste/out/libaljumeste.a
folder=$(mktemp -d)
trap 'rm -rf "$folder"' EXIT

grep -Eo '\baljumeste_[a-z0-9_]+\(' include/aljumeste.h | tr -d '(' | sort >"$folder/declared"
nm -g --defined-only "$archive" | awk '$2 == "T" && $3 ~ /^aljumeste_/ { print $3 }' | sort >"$folder/defined"
diff "$folder/declared" "$folder/defined"

nm -u "$archive" | awk '$1 == "U" { print $2 }' | sort -u >"$folder/needed"
printf '%s\n' memcpy memset | diff - "$folder/needed"

for name in refine_cube shade_file; do
    cc -Wall -Wextra -Werror -std=c11 -Iinclude "examples/$name.c" "$archive" -o "$folder/$name"
    "$folder/$name" | diff - "examples/$name.txt"
    echo "$name prints what it should"
done
