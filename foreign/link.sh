#!/usr/bin/env bash
# link.sh LIBRARY FOLDER: of the static library that the kit built, libage_c.a, with the kit's heap in it (malloc, realloc and free of the C
# library), and libage_c.so, which shows the calls of include/age_c.h alone.
set -euo pipefail
library=$(realpath "$1") folder=$2
top=$(cd "$(dirname "$0")/.." && pwd)
kit=$(dirname "$(rt doc)")
mkdir -p "$folder"
work=$(mktemp -d)
trap 'rm -rf "$work"' EXIT
(cd "$work" && ar x "$library" && ar x "$kit/c/liblibc_c.a")
rm -f "$folder/libage_c.a"
ar rcs "$folder/libage_c.a" "$work"/*.o
{
    echo '{ global:'
    grep -oE '\bage_[a-z_]+\(' "$top/include/age_c.h" | sort -u | tr '(' ';'
    echo 'local: *; };'
} > "$work/calls"
cc -shared -o "$folder/libage_c.so" -Wl,--version-script="$work/calls" "$work"/*.o
