# shellcheck shell=bash disable=SC2154
# The listings of examples/data by the example in C, the example in Rust and ./lex, and by the original where its sources are at hand.

# What the three programs print for a script, against a listing. ./lex tells a refusal in words.
listings() {
    local script=$1 listing=$2 expected=0
    if grep -q '^refused' "$listing"; then expected=1; fi
    status "$expected" "$out/listing" "$script"
    same "C" "$out/got" "$listing"
    status "$expected" "$rust/listing" "$script"
    same "Rust" "$out/got" "$listing"
    status "$expected" ./lex "$script"
    if [ "$expected" -eq 0 ]; then
        same "./lex" "$out/got" "$listing"
    else
        [ ! -s "$out/got" ] || fail "./lex $script: a refusal on standard output"
        said "^lex: refusal $(sed -E 's/refused ([0-9]+) ([0-9]+)/\1, figure \2/' "$listing"): .+; .+"
    fi
}

original() {
    status 0 "$compare" --may-skip listing "$1"
    if grep -q '^listing: skipped' "$out/got"; then
        skipped=1
    else
        same "the original" "$out/got" "${1%.aura}.listing"
    fi
}

data() {
    local scripts=(examples/data/*.aura) skipped=0 program
    [ "${#scripts[@]}" -ge 30 ] || fail "only ${#scripts[@]} scripts in examples/data"
    for script in "${scripts[@]}"; do
        listings "$script" "${script%.aura}.listing"
        original "$script"
    done
    [ "$skipped" -eq 0 ] || echo "the original's listings: skipped: its sources are not at hand"
    "$compare" --may-skip kinds
    for program in "$out/listing" "$rust/listing" ./lex "./lex -" "./lex list" "./lex list -"; do
        $program < examples/data/import.aura > "$out/got"
        same "standard input, $program" "$out/got" examples/data/import.listing
    done
}

# Document 01: 1,048,576 spaces, and one more.
limit() {
    head -c 1048576 /dev/zero | tr '\0' ' ' > "$out/limit.aura"
    printf 'T 124 1048576 1048576 1 1048577 1 1048577 -\nclosed\n' > "$out/limit.listing"
    listings "$out/limit.aura" "$out/limit.listing"
    printf ' ' >> "$out/limit.aura"
    echo "refused 1 1048577" > "$out/limit.listing"
    listings "$out/limit.aura" "$out/limit.listing"
    head -c 4000000 /dev/zero | tr '\0' ' ' > "$out/limit.aura"
    echo "refused 1 4000000" > "$out/limit.listing"
    listings "$out/limit.aura" "$out/limit.listing"
}

unreadable() {
    status 2 "$out/listing" "$out/no such file"
    status 2 "$rust/listing" "$out/no such file"
}

# The help desk's example in C and in Rust: order 1's classes, any other refusal, and what is accepted.
help_desk() {
    local program
    for program in "$out/help_desk" "$rust/help_desk"; do
        status 0 "$program" < examples/data/val.aura
        wrote '^the script is accepted$'
        status 1 "$program" < examples/data/row-c3.aura
        wrote '^the script ends in the middle of a character; it was cut short on its way; send it again$'
        wrote '^look at: the connection$'
        status 1 "$program" < examples/data/row-ed-a0-80.aura
        wrote '^the script holds bytes that no program may write as UTF-8; .+$'
        wrote "^look at: the sender's program\$"
        status 1 "$program" < examples/data/not-utf8-late.aura
        wrote '^the script is not UTF-8; save the script as UTF-8$'
        wrote '^look at: the script$'
        status 1 "$program" < /dev/zero
        wrote '^the script is over 1,048,576 bytes; .+$'
        status 2 "$program" < examples
        said '^help_desk: cannot read the script'
    done
}

data
limit
unreadable
help_desk
