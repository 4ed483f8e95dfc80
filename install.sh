#!/usr/bin/env bash
# install.sh [--built] [PREFIX]: proves and builds sazh where its sources have changed, and puts it below PREFIX, /usr/local without that word, with its
# manual, the completions of bash, zsh and fish, and a note of the commit and the kit. --built installs the program that stands here already. SAZH_CPU=x86-64-v2 makes one for other machines.
set -euo pipefail
top=$(cd "$(dirname "$0")" && pwd)
program=$top/crates/sazh/out/sazh
if [ "${1-}" = --built ]; then
    shift
    [ -x "$program" ] || { echo "install.sh: sazh isn't built yet: leave out --built" >&2; exit 1; }
else
    SAZH_WAITS=$$ python3 "$top/build.py" sazh --version </dev/null
fi
case $# in
    0) prefix=/usr/local ;;
    1) prefix=$1 ;;
    *) echo 'usage: install.sh [--built] [PREFIX]' >&2; exit 2 ;;
esac

# Puts a file there, with this mode, and says so.
put() {
    install -D -m "$1" "$2" "$3"
    echo "$3"
}

put 755 "$program" "$prefix/bin/sazh"
put 644 "$top/docs/sazh.1" "$prefix/share/man/man1/sazh.1"
put 644 "$top/completions/sazh.bash" "$prefix/share/bash-completion/completions/sazh"
put 644 "$top/completions/_sazh" "$prefix/share/zsh/site-functions/_sazh"
put 644 "$top/completions/sazh.fish" "$prefix/share/fish/vendor_completions.d/sazh.fish"

# The program can't name the commit of its own sources, so a file beside it does.
commit=$(git -C "$top" describe --always --dirty --abbrev=40 2>/dev/null) || commit=unknown
note=$(mktemp)
trap 'rm -f "$note"' EXIT
printf '%s\ncommit %s\nkit %s\n' "$("$program" --version)" "$commit" "$(rt version)" > "$note"
put 644 "$note" "$prefix/share/doc/sazh/BUILD"
