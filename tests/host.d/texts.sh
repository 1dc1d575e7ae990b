# shellcheck shell=bash disable=SC2016,SC2086,SC2154
# The texts of scripts in the order of their tokens (order 3): by the examples in C and in Rust, which read the text buffer straight through by
# the records' lengths alone, and by ./lex texts, which goes by the records' offsets. All are held against the original's listings.

texts_programs=("$out/texts" "$rust/texts" "./lex texts")

# The bytes of a file in hexadecimal, on one line.
hex() {
    od -An -v -tx1 "$1" | tr -d ' \n'
}

# The texts of a listing in hexadecimal, each with a line feed behind it.
listed_texts() {
    awk '$1 == "T" && ($2 == 2 || $2 == 3 || $2 == 121 || $2 == 123) { printf "%s0a", $9 == "-" ? "" : $9 }' "$1"
}

# texts SCRIPT HEX: each program writes these bytes, and no message.
texts() {
    local program
    for program in "${texts_programs[@]}"; do
        status 0 $program < "$1"
        [ "$(hex "$out/got")" = "$2" ] || fail "$program < $1: other texts"
        checks=$((checks + 1))
        silent
    done
}

# texts_row SCRIPT TEXTS: the same for two texts.
texts_row() {
    printf '%s' "$1" > "$out/row.aura"
    printf '%s' "$2" > "$out/row.texts"
    texts "$out/row.aura" "$(hex "$out/row.texts")"
}

texts_rows() {
    texts_row '' ''
    texts_row 'val a=1 // "b"' ''
    texts_row '""' $'\n'
    texts_row '"one" /** two */ '"'3'" $'one\ntwo\n3\n'
    texts_row '"a$b ${c}d" "" ${e} ""' $'a\n$b\n \n${c}\nd\n\n${...}\n\n'
    texts_row $'"""x\ny"""' $'x\ny\n'
    rm -f "$out"/row.*
}

# Every script of examples/data, by its listing.
texts_data() {
    local script listing program accepted=0 refused=0
    for script in examples/data/*.aura; do
        listing=${script%.aura}.listing
        if ! grep -q '^refused' "$listing"; then
            texts "$script" "$(listed_texts "$listing")"
            accepted=$((accepted + 1))
            continue
        fi
        for program in "${texts_programs[@]}"; do
            status 1 $program < "$script"
            [ ! -s "$out/got" ] || fail "$program < $script: an output where none is due"
            said '^(texts|lex): .+; .+'
        done
        refused=$((refused + 1))
    done
    if [ "$accepted" -lt 30 ] || [ "$refused" -lt 3 ]; then fail "only $accepted scripts were accepted, and $refused refused"; fi
}

# Texts that are twice as long as their script: six bytes for each ${}.
texts_large() {
    awk 'BEGIN { for (i = 0; i < 349525; i++) printf "${}"; printf "$" }' > "$out/large.aura"
    awk 'BEGIN { for (i = 0; i < 349525; i++) print "${...}" }' > "$out/large.texts"
    texts "$out/large.aura" "$(hex "$out/large.texts")"
    rm -f "$out"/large.*
}

# A script over the limit, and words that are wrong.
texts_refused() {
    local program
    for program in "${texts_programs[@]}"; do
        status 1 $program < <(yes val)
        said 'the script is over 1,048,576 bytes; split .+'
        [ ! -s "$out/got" ] || fail "$program: an output where none is due"
    done
    status 2 ./lex texts one two
    said '^lex: two is one file too many; .+'
    status 2 ./lex texts "$out/no such file"
    said '^lex: cannot read .*no such file: .+; .+'
}

./lex /dev/null > "$out/got"
texts_rows
texts_data
texts_large
texts_refused
example_stops texts
