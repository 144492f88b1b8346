#!/usr/bin/env bash
# Shows that the check refuses both misuses of a hold, and accepts its proper use.
# Run it from the repository's root. It fails unless all three come out so.
set -euo pipefail

crate=crates/select
work=$(mktemp -d)
trap 'rm -rf "$work"' EXIT
failed=0

# Checks a copy of the crate with a function appended whose body is $1.
# Writes what the check says to $work/said, and ends as the check does.
check_with() {
    rm -rf "$work/crates"
    mkdir -p "$work/crates/select"
    echo 'select:' > "$work/crates.txt"
    cp -r "$crate/src" "$crate/specs" "$crate/proofs" "$work/crates/select"
    {
        echo
        echo 'fn appended() -> u8 {'
        echo '    let mut select = Select::new();'
        echo "    $1"
        echo '}'
    } >> "$work/crates/select/src/lib.rt"
    (cd "$work/crates/select" && rt check) > "$work/said" 2>&1
}

report() {
    echo "$1: $2"
    if [ "$3" != good ]; then
        failed=1
        cat "$work/said"
    fi
}

# accepted NAME BODY
accepted() {
    if check_with "$2"; then
        report "$1" 'accepted' good
    else
        report "$1" 'REFUSED, and should be accepted' bad
    fi
}

# refused NAME ERROR BODY
refused() {
    if check_with "$3"; then
        report "$1" 'ACCEPTED, and should be refused' bad
    elif [ "$(grep -o 'error\[[^]]*\]' "$work/said" | sort -u)" = "error[$2]" ]; then
        report "$1" "refused ($2)" good
    else
        report "$1" "REFUSED, BUT NOT BY $2 ALONE" bad
    fi
}

accepted 'a hold that ends before the next select' \
    'let hold = Hold::new(&mut select, 2); let page = hold.page(); hold.end(); select.select(1); page'
refused 'a select on a record under a hold' borrow-e0499 \
    'let hold = Hold::new(&mut select, 2); select.select(1); hold.page()'
refused 'a use of a hold that has ended' borrow-e0382 \
    'let hold = Hold::new(&mut select, 2); hold.end(); hold.page()'

exit "$failed"
