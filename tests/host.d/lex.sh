# shellcheck shell=bash disable=SC2154
# ./lex as people use it: every command, every status and every message.

# said_lines N: the messages have so many lines.
said_lines() {
    [ "$(wc -l < "$out/said")" -eq "$1" ] || { cat "$out/said" >&2; fail "not $1 lines of messages"; }
    checks=$((checks + 1))
}

# on_terminal COMMAND: what a command writes to a terminal, in $out/got.
on_terminal() {
    script -qec "$1" /dev/null < /dev/null > "$out/got" 2> "$out/said" || true
    checks=$((checks + 1))
}

has_script() {
    script -qec true /dev/null < /dev/null > /dev/null 2>&1
}

# A copy of the tree with a prover that only says what the real one says: the first use without its ten minutes.
copy_tree() {
    local copy=$1 part
    rm -rf "$copy"
    mkdir -p "$copy/bin" "$copy/a tree"
    cp -r lex crates.txt host tools "$copy/a tree"
    for part in crates/*/src crates/*/specs crates/*/proofs; do
        mkdir -p "$copy/a tree/${part%/*}"
        cp -r "$part" "$copy/a tree/${part%/*}"
    done
    cat > "$copy/bin/rt" << END
#!/bin/sh
echo "rt: chose --jobs 1 for characters"
echo "rt: chose --jobs 2 for rules"
[ -f "$copy/works" ] || { echo "words: the proof fails here"; exit 1; }
[ "\$1 \${PWD##*/}" = "lib aura_host" ] || { echo "not the library: \$PWD: rt \$*"; exit 1; }
mkdir -p out
cp "$PWD/$library" out/
END
    chmod +x "$copy/bin/rt"
}

# elsewhere COMMAND: in another folder than the repository's.
elsewhere() (
    cd / && exec "$@"
)

first_use() {
    local copy=$PWD/$out/first-use script=$PWD/examples/data/val.aura listing=examples/data/val.listing lex
    copy_tree "$copy"
    lex="$copy/a tree/lex"
    PATH="/usr/bin:/bin" status 2 "$lex" "$script"
    said '^lex: cannot build the proved lexer: there is no rt; .+'
    PATH="$copy/bin:$PATH" status 2 "$lex" "$script"
    said '^lex: proving and building the lexer, which takes about .* minutes, once$'
    said '^words: the proof fails here$'
    said '^lex: .*target/log/prover'
    grep -q '^rt: chose --jobs 2 for rules$' "$copy/a tree/target/log/prover" || fail "the prover's output is not kept"
    if has_script; then
        PATH="$copy/bin:$PATH" on_terminal "'$lex' '$script'"
        wrote 'proving 2 of [5-9][0-9]: rules'
    else
        echo "the line that moves: skipped: there is no script (bsdutils)"
    fi
    touch "$copy/works"
    ln -s "a tree/lex" "$copy/link"
    PATH="$copy/bin:$PATH" CARGO_TARGET_DIR="$copy/other" CDPATH="$copy:/" status 0 elsewhere "$copy/link" "$script"
    same "by a link, from elsewhere" "$out/got" "$listing"
    said '^lex: building the program, once$'
    [ ! -e "$copy/other" ] || fail "CARGO_TARGET_DIR was followed"
    # what was only touched, or made again, is not built again; the clock of files ticks slowly
    sleep 0.1
    touch "$copy/a tree/target/staticlib/libaura_host.a" "$copy/a tree/tools/src/main.rs" "$copy/a tree/crates.txt"
    CDPATH="$copy:/" status 0 elsewhere "$copy/link" "$script"
    same "touched" "$out/got" "$listing"
    silent
    # what was changed is
    sleep 0.1
    echo "// changed" >> "$copy/a tree/tools/src/main.rs"
    status 0 "$lex" "$script"
    said '^lex: building the program, once$'
    said_lines 1
    another_library "$copy" "$script"
    another_program "$copy" "$script"
    echo "fn broken(" >> "$copy/a tree/tools/src/main.rs"
    status 2 "$lex" "$script"
    said '^lex: cargo failed; its last lines:$'
    said '^error: '
    said '^lex: .*target/log/cargo'
    rm -rf "$copy"
}

# A program of other sources is made again, also where these are put back with their old dates.
another_program() {
    local main="$1/a tree/tools/src/main.rs"
    cp -p "$main" "$1/main.rs"
    sleep 0.1
    sed -i 's/"cannot read {name}/"other: cannot read {name}/' "$main"
    (cd "$1/a tree/tools" && cargo build --release --offline --quiet --target-dir ../target/tools)
    status 2 "$1/a tree/target/tools/release/lex" "$1/none"
    said '^lex: other: '
    mv "$1/main.rs" "$main"
    status 2 "$1/a tree/lex" "$1/none"
    said '^lex: building the program, once$'
    said '^lex: cannot read '
}

# A library of other sources is made again; one that another command made since is taken.
another_library() {
    local copy=$1 made="$1/a tree/target/staticlib/libaura_host.a"
    echo "another one" > "$made"
    touch -d '2000-01-01' "$made"
    PATH="$copy/bin:$PATH" status 0 "$copy/a tree/lex" "$2"
    said '^lex: proving and building the lexer, '
    same "made again" "$made" "$library"
    sleep 0.1
    echo "static const int more = 1; int aura_more(void); int aura_more(void) { return more; }" > "$copy/more.c"
    gcc -c "$copy/more.c" -o "$copy/more.o"
    ar q "$made" "$copy/more.o"
    status 0 "$copy/a tree/lex" "$2"
    said '^lex: building the program, once$'
    said_lines 1
    cp "$library" "$made"
}

# The help of each command fits 80 columns, and needs no program; --version names version and original.
help() {
    local command page
    for command in "" list check colour print texts; do
        page=tools/help/${command:-lex}.txt
        # shellcheck disable=SC2086
        status 0 ./lex $command --help
        same "help $command" "$out/got" "$page"
        # shellcheck disable=SC2086
        status 0 target/tools/release/lex $command --help
        same "help $command" "$out/got" "$page"
        if grep -qE '.{81}' "$page"; then fail "$page is over 80 columns wide"; fi
        checks=$((checks + 1))
    done
    for command in ./lex target/tools/release/lex; do
        status 0 "$command" --version
        wrote "^lex $(sed -n 's/^version = "\(.*\)"/\1/p' tools/Cargo.toml) "
        wrote 'commit c401ce55f2$'
    done
}

wrong_words() {
    status 2 ./lex "$out/no such file"
    said '^lex: cannot read .*no such file: .+; .+'
    status 2 ./lex --unknown
    said '^lex: --unknown is not understood; .+'
    status 2 ./lex chek examples/data/val.aura
    said '^lex: chek is no command, .+; commands are list, check, colour, print and texts; .+'
    status 2 ./lex list one two
    said '^lex: two is one file too many; .+'
    status 2 ./lex colour --colour=often examples/data/val.aura
    said '^lex: --colour=often is not understood: it is auto, always or never; .+'
    status 2 ./lex --colour examples/data/val.aura
    said '^lex: a script in colour is \./lex colour FILE; .+'
    status 2 ./lex check
    said '^lex: check asks for the names of files or folders; .+'
    status 2 ./lex check --only
    said '^lex: --only asks for a value; .+'
    status 2 ./lex list examples/data
    said '^lex: cannot read examples/data: .+; .+'
    status 2 ./lex print one two
    said '^lex: two is one file too many; .+'
    status 2 ./lex print --names examples/data/val.aura
    said '^lex: --names is not understood; .+'
    for script in "$out/no such file" examples/data; do
        status 2 ./lex print "$script"
        said "^lex: cannot read $script: .+; .+"
        [ ! -s "$out/got" ] || fail "an output where none is due"
    done
}

# A file that is called as a command.
called_as_commands() {
    local folder=$PWD/$out/names command lex=$PWD/lex
    rm -rf "$folder"
    mkdir -p "$folder"
    in_folder() (
        cd "$folder" && exec "$@"
    )
    for command in list check colour print texts; do
        cp examples/data/val.aura "$folder/$command"
        status 0 in_folder "$lex" -- "$command"
        same "a file $command" "$out/got" examples/data/val.listing
    done
    status 0 in_folder "$lex" list check
    same "list check" "$out/got" examples/data/val.listing
    status 0 in_folder "$lex" print print
    [ "$(cat "$out/got")" = "val a = 1" ] || fail "print print"
    status 0 in_folder "$lex" check check
    wrote '^files: 1, without mistakes: 1, '
    rm -rf "$folder"
}

names() {
    status 0 ./lex list --names examples/data/val.aura
    printf '%s\n' '1:1-1:3 Val "val"' '1:5-1:5 Ident "a"' '1:6-1:6 Assign "="' '1:7-1:7 IntLiteral "1"' '1:8 EOF' closed > "$out/expected"
    same "--names" "$out/got" "$out/expected"
    status 0 ./lex examples/data/val.aura --names
    same "--names behind" "$out/got" "$out/expected"
    status 0 ./lex list --names examples/data/open-interpolation.aura
    wrote '^2:1 error 8: .*, begun at line 1, column 14; .+'
    wrote '^open$'
    status 1 ./lex list --names examples/data/row-c3.aura
    said '^lex: refusal 9, figure 0: the script ends in the middle of a character; it was cut short on its way; send it again '
}

# The clerk's check: each mistake with its place, its line and a caret; refusals; the summary.
checking() {
    local folder=$out/archive
    rm -rf "$folder"
    mkdir -p "$folder/below"
    cp examples/data/{val,mistakes,open-comment,open-interpolation,open-raw,open-doc,open-string,open-braces,not-utf8-late}.aura "$folder/below"
    cp examples/data/val.listing "$folder"
    status 1 ./lex check --only '*.aura' "$folder"
    silent
    wrote "^$folder/below/mistakes\.aura:2:9: error 5: a string without .*; close it with .+"
    wrote '^     2 \| val a = "not closed$'
    wrote '^       \|         \^$'
    wrote "^$folder/below/mistakes\.aura:3:11: error 7: .*, U\+0071 q; .+"
    wrote "/open-comment\.aura:2:12: error 2: .*, begun at line 1, column 7; .+"
    wrote "/open-raw\.aura:2:3: error 3: .*, begun at line 1, column 9; .+"
    wrote "/open-string\.aura:1:12: error 4: .*, begun at line 1, column 9; .+"
    wrote "/open-interpolation\.aura:2:1: error 8: .*, begun at line 1, column 14; .+"
    wrote "/open-doc\.aura:2:6: error 10: .*, begun at line 1, column 1; .+"
    wrote '^       \|       \^ begun here$'
    wrote "/open-braces\.aura:2:2: open: .+"
    wrote "/not-utf8-late\.aura:1:11: refusal 2, figure 13: .+; .+"
    wrote '^files: 9, without mistakes: 2, with mistakes: 6, refused: 1, open at their end: 6$'
    wrote '^bytes: [0-9]+, tokens: [0-9]+, mistakes: 21$'
    wrote '^  error 5: 2 \(a string without its closing quote at the end of the line\)$'
    wrote '^  refusal 2: 1 \(the script is not UTF-8\)$'
    [ "$(grep -c ': error ' "$out/got")" -eq "$(cat examples/data/{mistakes,open-comment,open-interpolation,open-raw,open-doc,open-string}.listing | grep -c '^E')" ] \
        || fail "not every mistake is told"
    status 1 ./lex check --quiet --only '*.aura' "$folder"
    [ "$(head -n 1 "$out/got" | cut -d, -f1)" = "files: 9" ] || fail "--quiet tells more than the summary"
    status 0 ./lex check "$folder/below/val.aura" "$folder/val.listing" - < examples/data/val.aura
    wrote '^files: 3, without mistakes: 3, with mistakes: 0, refused: 0, open at their end: 0$'
    rm -rf "$folder"
}

# The help desk tells a script that was cut short from one that an odd program wrote, and from one in another encoding.
bad_bytes() {
    local folder=$out/bad
    rm -rf "$folder"
    mkdir -p "$folder"
    printf 'val a = 1\nval b = "M\xC3' > "$folder/cut.aura"
    printf 'val b = "M\xED\xA0\x80ller"\n' > "$folder/barred.aura"
    printf 'val b = "M\xFCller"\n' > "$folder/latin1.aura"
    cp "$folder/cut.aura" "$folder/again.aura"
    status 1 ./lex check "$folder"
    silent
    wrote "^$folder/cut\.aura:2:11: refusal 9, figure 20: the script ends in the middle of a character; it was cut short on its way; send it again \(.+: 20\)$"
    wrote "^$folder/barred\.aura:1:11: refusal 10, figure 10: the script holds bytes that no program may write as UTF-8; the program that saved it is at fault; .+ \(.+: 10\)$"
    wrote "^$folder/latin1\.aura:1:11: refusal 2, figure 10: the script is not UTF-8; save the script as UTF-8 \(.+: 10\)$"
    wrote '^files: 4, without mistakes: 0, with mistakes: 0, refused: 4, open at their end: 0$'
    [ "$(grep '^  refusal ' "$out/got" | cut -d'(' -f1 | tr -d '\n')" = "  refusal 2: 1   refusal 9: 2   refusal 10: 1 " ] || fail "the refusals are not counted by their numbers"
    for command in list "list --names" colour "colour --html"; do
        status 1 ./lex $command "$folder/cut.aura"
        said '^lex: refusal 9, figure 20: .+; send it again .+'
        status 1 ./lex $command - < "$folder/barred.aura"
        said '^lex: refusal 10, figure 10: .+; save the script as UTF-8 with another one .+'
    done
    status 1 ./lex print "$folder/cut.aura"
    said "^lex: $folder/cut\.aura:2:11: refusal 9, figure 20: .+; send it again .+"
    status 1 ./lex print - < "$folder/barred.aura"
    said '^lex: standard input:1:11: refusal 10, figure 10: .+; save the script as UTF-8 with another one .+'
    rm -rf "$folder"
}

# What is no script: passed over and told apart; nothing to check is no yes.
odd_files() {
    local folder=$out/odd
    rm -rf "$folder"
    mkdir -p "$folder/empty" "$folder/sub"
    mkfifo "$folder/sub/fifo.aura"
    ln -s "../empty" "$folder/sub/to-a-folder"
    ln -s nowhere "$folder/sub/broken"
    cp examples/data/val.aura "$folder/sub/$(printf 'a\033[31mb\nc').aura"
    printf '\007' > "$folder/sub/$(printf 'a\033[31md').aura"
    status 1 timeout 20 ./lex check "$folder"
    said "^lex: passed over $folder/sub/fifo\.aura: a FIFO$"
    said "^lex: passed over $folder/sub/to-a-folder: a link to a folder$"
    said "^lex: passed over $folder/sub/broken: a broken link$"
    wrote "^$folder/sub/a␛\[31md\.aura:1:1: error 1: .*, U\+0007; .+"
    wrote '^not checked: 3 that are no regular files, 0 that cannot be read$'
    if grep -q "$(printf '\033')" "$out/got" "$out/said"; then fail "an escape sequence of a name was written"; fi
    status 2 ./lex check "$folder/empty"
    said '^lex: nothing was checked; .+'
    status 2 ./lex check --only '*.none' "$folder"
    said '^lex: nothing was checked; .+'
    status 2 ./lex check examples/data/val.aura "$folder/missing"
    said "^lex: cannot read $folder/missing: .+; .+"
    wrote '^not checked: 0 that are no regular files, 1 that cannot be read$'
    status 1 ./lex check examples/data/mistakes.aura "$folder/missing"
    rm -rf "$folder"
}

# No more than one byte over the limit is read, and a longer script is refused for its length.
no_further() {
    status 1 ./lex < <(yes val)
    said '^lex: refusal 1: the script is over 1,048,576 bytes; split .+'
    status 1 ./lex check - < <(yes val)
    wrote '^standard input:262145:1: refusal 1: the script is over 1,048,576 bytes; split .+'
    head -c 4000000 /dev/zero > "$out/long.aura"
    status 1 ./lex check "$out/long.aura"
    wrote "long\.aura:1:1048577: refusal 1, figure 4000000: .+; split .+"
    wrote '^bytes: 4000000, '
    rm -f "$out/long.aura"
}

# On a terminal: what is read from the keyboard, and how far a check is.
terminals() {
    if has_script; then
        on_terminal "sh -c 'printf x | timeout 5 ./lex list -' ; timeout 0.5 ./lex"
        wrote '^lex: reading a script from the keyboard, '
        on_terminal "sh -c '(sleep 1.3; cat examples/data/val.aura) | ./lex check - examples/data/val.aura'"
        wrote '0 of 1 files checked'
    else
        echo "the terminal: skipped: there is no script (bsdutils)"
    fi
}

# Whether a file has control characters other than tab and the ends of lines, or others that are not seen.
has_controls() {
    LC_ALL=C grep -qP '[\x00-\x08\x0B-\x0C\x0E-\x1F\x7F]|\r.|\xC2[\x80-\x9F]|\xE2\x80[\x8B-\x8F\xA8-\xAE]' "$1"
}

# Without its ANSI sequences the coloured script is the script; one with control characters shows them otherwise.
in_colour() {
    local script
    for script in examples/data/*.aura; do
        if grep -q '^refused' "${script%.aura}.listing"; then continue; fi
        status 0 ./lex colour --colour=always "$script"
        sed 's/\x1B\[[0-9;]*m//g' "$out/got" > "$out/stripped"
        if has_controls "$script"; then
            if has_controls "$out/stripped"; then fail "a control character of $script in colour"; fi
            checks=$((checks + 1))
        elif [ "$script" != examples/data/two-marks.aura ]; then
            same "colour" "$out/stripped" "$script"
        fi
        [ "$(grep -c '^line [0-9]*, column [0-9]* (byte [0-9]*): error ' "$out/said" || true)" -eq "$(grep -c '^E' "${script%.aura}.listing" || true)" ] \
            || fail "the mistakes of $script in words"
        checks=$((checks + 1))
        status 0 ./lex colour --colour=never "$script"
        same "without colour" "$out/got" "$out/stripped"
    done
    status 0 ./lex colour --colour=always examples/data/mistakes.aura
    said '^line 3, column 11 \(byte 65\): error 7: .*U\+0071 q; .+'
    status 0 ./lex colour --colour=always examples/data/open-string.aura
    said '^open: '
    status 1 ./lex colour examples/data/row-c3.aura
    said '^lex: refusal 9, figure 0: .+'
}

# What is underlined where a script with a mistake ends with line feeds, and line ends of two characters.
at_the_end() {
    local underline
    underline=$(printf '\033[1;4;38;5;196m')
    status 0 ./lex colour --colour=always < <(printf 'val a = "${b\n\n')
    grep -qF "${underline}b" "$out/got" || fail "a mistake at the end is not underlined"
    said '^line 1, column 12 \(byte 11\): error 8: .*, begun at line 1, column 10; .+'
    printf "val a = 'b\r\nval c\r\n" > "$out/ends.aura"
    status 0 ./lex colour --colour=always "$out/ends.aura"
    grep -qF "${underline}b" "$out/got" || fail "a mistake at a line end is not underlined"
    if grep -q '␍' "$out/got"; then fail "a carriage return before a line feed is shown"; fi
    status 0 ./lex colour < <(head -c 1000 /dev/zero | tr '\0' '\007')
    said '^and 800 more mistakes$'
    said_lines 202
    rm -f "$out/ends.aura"
}

# In colour on a terminal, unless NO_COLOR is set; never in a file.
when_in_colour() {
    local escape
    escape=$(printf '\033')
    status 0 ./lex colour examples/data/val.aura
    same "in a file" "$out/got" examples/data/val.aura
    has_script || { echo "colour on a terminal: skipped: there is no script (bsdutils)"; return; }
    on_terminal "env -u NO_COLOR ./lex colour examples/data/val.aura"
    wrote "$escape\\["
    on_terminal "env NO_COLOR=1 ./lex colour examples/data/val.aura"
    if grep -q "$escape" "$out/got"; then fail "NO_COLOR is not heard"; fi
    on_terminal "env NO_COLOR=1 ./lex colour --colour=always examples/data/val.aura"
    wrote "$escape\\["
    on_terminal "env -u NO_COLOR ./lex colour --colour=never examples/data/val.aura"
    if grep -q "$escape" "$out/got"; then fail "--colour=never is not heard"; fi
}

# The page: every line, the mistakes in words below theirs, and no other file.
page() {
    status 0 ./lex colour --html examples/data/mistakes.aura
    silent
    [ "$(grep -c '^<div class="line"' "$out/got")" -eq "$(wc -l < examples/data/mistakes.aura)" ] || fail "the lines of the page"
    [ "$(grep -c '^<div class="words">line ' "$out/got")" -eq "$(grep -c '^E' examples/data/mistakes.listing)" ] || fail "the words of the page"
    wrote '<title>examples/data/mistakes\.aura</title>'
    if grep -qE 'https?:|src=|url\(' "$out/got"; then fail "the page needs another file"; fi
    status 0 ./lex colour --html < <(head -c 1000 /dev/zero | tr '\0' '\007')
    wrote '^<p>The first 200 mistakes are told in words below their lines, 800 more are not\.</p>$'
    checks=$((checks + 3))
}

# An output that is closed or full ends the command with 3, and never with a panic.
no_output() {
    local command script
    closed() (
        exec "$@" >&-
    )
    full() (
        exec "$@" > /dev/full
    )
    # as much as a pipe does not hold
    read_none() {
        "$@" | sleep 0.2
        return "${PIPESTATUS[0]}"
    }
    head -c 300000 /dev/zero | tr '\0' '\007' > "$out/many.aura"
    head -c 300000 < <(yes val) > "$out/faultless.aura"
    head -c 300000 < <(yes '"a"') > "$out/strings.aura"
    for command in list check colour "list --names" "colour --html" print texts; do
        script=$out/many.aura
        case $command in
            print) script=$out/faultless.aura ;;
            texts) script=$out/strings.aura ;;
        esac
        # shellcheck disable=SC2086
        {
            status 3 closed ./lex $command "$script"
            silent
            status 3 full ./lex $command "$script"
            said '^lex: cannot write: .+; make room, or write elsewhere$'
            said_lines 1
            status 3 read_none ./lex $command "$script"
            silent
        }
    done
    status 3 full ./lex --help
    status 3 closed ./lex --help
    status 3 full target/tools/release/lex --version
    # messages that nobody can read are no reason to panic
    unheard() {
        "$@" 2> /dev/full
    }
    status 2 unheard ./lex "$out/no such file"
    rm -f "$out/many.aura" "$out/faultless.aura" "$out/strings.aura"
}

./lex /dev/null > "$out/got"
first_use
help
wrong_words
called_as_commands
names
checking
bad_bytes
odd_files
no_further
terminals
in_colour
at_the_end
when_in_colour
page
no_output
