#!/usr/bin/env bash
# Looks at how the crates are laid out: a definition has one name in the repository, and no other has it; each source file begins with
# the line that says its topic; each crate has a README.
set -u
cd "$(dirname -- "$0")/.." || exit 1

status=0

# The names of all definitions, each as often as it is there. A record's fields begin with `pub` alone.
defined() {
    find crates -path '*/specs/*.antt' -not -path '*/out/*' -exec awk '
        {
            is_definition = 0
            for (i = 1; $i == "pub" || $i == "abbrev" || $i == "record" || $i == "data" || $i == "unfoldable"; i++)
                if ($i != "pub") is_definition = 1
            if (is_definition && $i ~ /^[A-Za-z]/ && $i != "mutual") print $i
        }' {} +
}

names=$(defined | wc -l)
if [ "$names" -lt 1000 ]; then
    echo "FAILED: only $names definitions were found, so their names weren't looked at"
    status=1
fi

while read -r name; do
    echo "FAILED: two definitions have the name $name"
    status=1
done < <(defined | sort | uniq -d)

while read -r source; do
    if ! head -n 1 "$source" | grep -q '^//! '; then
        echo "FAILED: $source doesn't begin with its topic"
        status=1
    fi
done < <(find crates -path '*/src/*.rt' -not -path '*/out/*' -not -path '*/src/main.rt')

for crate in crates/*/; do
    if [ ! -f "${crate}README.md" ]; then
        echo "FAILED: ${crate%/} has no README.md"
        status=1
    fi
done

[ "$status" -ne 0 ] || echo "definitions: $names, each with a name of its own"
exit "$status"
