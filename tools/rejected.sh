#!/usr/bin/env bash
# Programs that must be rejected when they are built.
# Each text in tools/rejected/ changes one line of a program of this repository, or of a library below it, and names the error that the compiler must answer.
# The change is made in a copy. It passes where that very error is answered, and no other.
set -u
top=$(cd "$(dirname "$0")/.." && pwd) || exit 1
copy=$(mktemp -d) || exit 1
trap 'rm -rf "$copy"' EXIT

field() {
    sed -n "s/^$1: //p" "$2"
}

rejected() {
    local change=$1 program file old new error text log
    program=$(field program "$change")
    file=$(field file "$change")
    old=$(field old "$change")
    new=$(field new "$change")
    error=$(field error "$change")
    rm -rf "$copy"/* || return 1
    tar -C "$top" --exclude=out -cf - crates crates.txt | tar -C "$copy" -xf - || return 1
    cd "$copy/crates/$program" || return 1
    if [ "$(grep -cF -- "$old" "$file")" -ne 1 ]; then
        echo "  its old text does not stand once in $file"
        return 1
    fi
    text=$(cat "$file")
    printf '%s\n' "${text/"$old"/"$new"}" > "$file"
    log=$(rt try 2>&1 < /dev/null)
    echo "$log" | grep -F 'error[' | sed 's/^/  /'
    [ "$(echo "$log" | grep -o 'error\[[^]]*\]')" = "error[$error]" ]
}

status=0
for change in "$top"/tools/rejected/*.txt; do
    name=$(basename "$change" .txt)
    if answer=$(rejected "$change"); then
        echo "rejected when built, as it must be: $name"
    else
        echo "NOT REJECTED AS IT MUST BE: $name"
        status=1
    fi
    echo "$answer"
done
exit "$status"
