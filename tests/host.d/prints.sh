# shellcheck shell=bash disable=SC2016,SC2086,SC2154
# The office print of scripts (order 2) by the example in C, the example in Rust and ./lex print.

print_programs=("$out/office_print" "$rust/office_print" "./lex print")

# prints SCRIPT PRINT: all three write the print byte for byte, and no message.
prints() {
    local program
    for program in "${print_programs[@]}"; do
        status 0 $program < "$1"
        same "$program < $1" "$out/got" "$2"
        silent
    done
}

# row SCRIPT PRINT: the same for two texts; and the print is its own print.
row() {
    printf '%s' "$1" > "$out/row.aura"
    printf '%s' "$2" > "$out/row.print"
    prints "$out/row.aura" "$out/row.print"
    prints "$out/row.print" "$out/row.print"
}

# What order 2 comes to, and the shortest scripts.
rows() {
    row 'val a=1' 'val a = 1'
    row '"a$b"c' '"a$b" c'
    row '"""x"y"""' '"x\"y"'
    row 'a:=b' 'a := b'
    row '"$a\uD800b"' '"$a\u0062"'
    row '"$a\uD800$b"' '"$a\uD800$b"'
    row '"a$$b"' '"a\u0024$b"'
    row '${a b}' '${}'
    row '/***/' $'/// \n'
    row '' ''
    row $'// one\n/* two */ ' ''
    row $'\xEF\xBB\xBFa\n/// b' $'a /// b\n'
    rm -f "$out"/row.*
}

# tokens_of FILE: of each token its kind, its text, and whether it goes on with the string of the token before; then the errors.
tokens_of() {
    ./lex "$1" | awk '$1 == "T" { print $2, $9, (NR > 1 && $3 == last); last = $3 } $1 == "E"'
}

# refused_print SCRIPT NUMBER FIGURE: nothing is written, and each program says why.
refused_print() {
    local program
    for program in "${print_programs[@]}"; do
        status 1 $program < "$1"
        [ ! -s "$out/got" ] || fail "$program < $1: an output where none is due"
        if [ "$program" = "./lex print" ]; then
            said "^lex: standard input:[0-9]+:[0-9]+: refusal $2, figure $3: .+; .+"
        else
            said '^office_print: .+; .+'
            [ "$2" -ne 11 ] || said "^where the first one recorded starts, in bytes after the byte-order mark: $3\$"
        fi
    done
}

# Every script of examples/data, by its listing: refused as there; refused with 11 and the start of the first error; or printed, and then
# the print has the script's tokens and no error, is closed, and is its own print.
printed_data() {
    local script listing answer printed=0 refused=0
    for script in examples/data/*.aura; do
        listing=${script%.aura}.listing
        answer=$(awk '$1 == "refused" { print $2, $3; exit } $1 == "E" { print 11, $3; exit }' "$listing")
        if [ -n "$answer" ]; then
            refused_print "$script" $answer
            refused=$((refused + 1))
            continue
        fi
        status 0 ./lex print "$script"
        silent
        cp "$out/got" "$out/data.print"
        prints "$script" "$out/data.print"
        prints "$out/data.print" "$out/data.print"
        tokens_of "$script" > "$out/expected"
        tokens_of "$out/data.print" > "$out/got"
        same "the tokens of the print of $script" "$out/got" "$out/expected"
        [ "$(./lex "$out/data.print" | tail -n 1)" = closed ] || fail "the print of $script is open"
        printed=$((printed + 1))
    done
    if [ "$printed" -lt 16 ] || [ "$refused" -lt 16 ]; then fail "only $printed scripts were printed, and $refused refused"; fi
    prints examples/data/import.aura examples/data/import.print
    rm -f "$out/data.print"
}

# The largest print: six bytes for each $ of a raw string. It is made, and is too long for a script.
large_print() {
    local program
    awk 'BEGIN { printf "\"\"\""; for (i = 0; i < 1048570; i++) printf "$"; printf "\"\"\"" }' > "$out/large.aura"
    awk 'BEGIN { printf "\""; for (i = 0; i < 1048570; i++) printf "\\u0024"; printf "\"" }' > "$out/large.print"
    for program in "${print_programs[@]}"; do
        status 0 $program < "$out/large.aura"
        same "$program < $out/large.aura" "$out/got" "$out/large.print"
        [ "$program" = "./lex print" ] || silent
    done
    said '^lex: the print of standard input has 6291422 bytes, .+; split .+'
    for program in "${print_programs[@]}"; do
        status 1 $program < "$out/large.print"
        said 'the script is over 1,048,576 bytes; split .+'
        [ ! -s "$out/got" ] || fail "$program: an output where none is due"
    done
    rm -f "$out"/large.*
}

# ./lex print says what is wrong, where as an editor counts, and what to do.
print_refusals() {
    status 1 ./lex print examples/data/open-doc.aura
    said '^lex: examples/data/open-doc\.aura:2:6: refusal 11, figure 0: the script has a mistake, error 10: a doc comment without its end, begun at line 1, column 1; close it with \*/; then print it again$'
    status 1 ./lex print - < examples/data/mistakes.aura
    said '^lex: standard input:2:9: refusal 11, figure 43: the script has a mistake, error 5: .+; close it with .+; \./lex check shows 14 more; print it again when none is left$'
    status 1 ./lex print examples/data/mark.aura
    said '^lex: examples/data/mark\.aura:1:5: refusal 11, figure 4: the script has a mistake, error 1: .+, U\+00E9 é; .+; then print it again$'
    status 1 ./lex print < <(printf '"\\q\n')
    said '^lex: standard input:1:3: refusal 11, figure 2: the script has a mistake, error 7: .+, U\+0071 q; .+; \./lex check shows 1 more; .+'
    status 1 ./lex print examples/data/not-utf8-late.aura
    said '^lex: examples/data/not-utf8-late\.aura:1:11: refusal 2, figure 13: the script is not UTF-8; save the script as UTF-8 \(.+: 13\)$'
    status 1 ./lex print < <(yes val)
    said '^lex: standard input:262145:1: refusal 1: the script is over 1,048,576 bytes; split .+'
    head -c 4000000 < <(yes) > "$out/long.aura"
    status 1 ./lex print "$out/long.aura"
    said "^lex: $out/long\.aura:524289:1: refusal 1, figure 4000000: the script is over 1,048,576 bytes; split .+"
    rm -f "$out/long.aura"
}

./lex /dev/null > "$out/got"
rows
printed_data
large_print
example_stops office_print
print_refusals
