# shellcheck shell=bash disable=SC2154
# The code and the output that README.md and docs/HOSTS.md show, and the width of README.md.

# shown MARK PAGE: the block behind the line `<!-- MARK -->` of a page, in $out/code.
shown() {
    awk -v mark="<!-- $1 -->" '$0 == mark { seen = 1; next } seen && /^```/ { if (open) exit; open = 1; next } open' "$2" > "$out/code"
    [ -s "$out/code" ] || fail "$2 shows no $1"
}

code() {
    local file program
    for file in examples/first.c host/examples/first.rs; do
        shown "$file" docs/HOSTS.md
        same "docs/HOSTS.md" "$out/code" "$file"
    done
    awk '$1 == "T" || $1 == "E" { print $1, $2, $3, $4; next } { print }' examples/data/val.listing > "$out/expected"
    for program in "$out/first" "$rust/first"; do
        status 0 "$program"
        same "$program" "$out/got" "$out/expected"
    done
}

# Each command that README.md shows writes what it shows.
samples() {
    local command count=0
    while IFS= read -r command; do
        shown "$command" README.md
        # shellcheck disable=SC2086
        $command > "$out/got" || [ "$?" -eq 1 ] || fail "$command"
        # a print ends without a line feed, a line of the page does not
        [ -z "$(tail -c 1 "$out/got")" ] || echo >> "$out/got"
        same "README.md, $command" "$out/got" "$out/code"
        count=$((count + 1))
    done < <(sed -n 's/^<!-- \(\.\/lex .*\) -->$/\1/p' README.md)
    [ "$count" -ge 3 ] || fail "README.md shows only $count commands"
}

width() {
    if grep -nE '.{121}' README.md; then fail "README.md has a line over 120 columns"; fi
    checks=$((checks + 1))
}

code
samples
width
