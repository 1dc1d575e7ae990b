# shellcheck shell=bash disable=SC2016,SC2154
# The comparing program as a command: the files of an archive, the page, each status and each message, with the original's sources and
# without them.

compare_tree=$PWD/$out/archive

# An archive with scripts, and with what archives have besides.
compare_make_tree() {
    rm -rf "$compare_tree"
    mkdir -p "$compare_tree/below" "$compare_tree/empty"
    cp examples/data/import.aura "$compare_tree/a.aura"
    cp examples/data/open-string.aura "$compare_tree/below/open.aura"
    cp examples/data/row-c3.aura "$compare_tree/below/refused.aura"
    head -c 3000000 /dev/zero > "$compare_tree/below/long.aura"
    cp examples/data/val.aura "$compare_tree/$(printf 'c\033[31mred.aura')"
    mkfifo "$compare_tree/fifo"
    ln -s below "$compare_tree/folder-link"
    ln -s nowhere "$compare_tree/broken"
    ln -s a.aura "$compare_tree/file-link"
}

# unspoken: nothing is on standard output.
unspoken() {
    [ ! -s "$out/got" ] || { cat "$out/got" >&2; fail "an output where none is due"; }
    checks=$((checks + 1))
}

compare_archive() {
    status 0 "$compare" archive "$compare_tree"
    silent
    wrote "^equal $compare_tree/a\.aura\$"
    wrote "^equal $compare_tree/file-link\$"
    wrote "^equal $compare_tree/below/open\.aura \(open at its end\)\$"
    wrote "^refused $compare_tree/below/refused\.aura: refusal 9, figure 0: .+; .+"
    wrote "^refused $compare_tree/below/long\.aura: refusal 1, figure 3000000: .+; .+"
    wrote "^equal $compare_tree/c␛\[31mred\.aura\$"
    if grep -q "$(printf '\033')" "$out/got"; then fail "an escape sequence of a name"; fi
    wrote "^passed over $compare_tree/fifo: a FIFO\$"
    wrote "^passed over $compare_tree/folder-link: a link to a folder\$"
    wrote "^passed over $compare_tree/broken: a broken link\$"
    wrote '^6 files: 4 equal, 0 different, 2 refused, 0 unreadable; 3 passed over$'
    wrote '^in the equal ones: [0-9]+ bytes, [0-9]+ tokens, 1 errors; 1 are open at their end; compared [0-9]+ bytes in [0-9]+\.[0-9] seconds, [0-9]+\.[0-9] MB a second$'
    sed -E 's/ in [0-9.]+ seconds.*//' "$out/got" > "$out/expected"
    status 0 "$compare" archive "$compare_tree" --deep
    silent
    sed -E 's/ in [0-9.]+ seconds.*//' "$out/got" > "$out/deep"
    same "--deep" "$out/deep" "$out/expected"
    status 0 "$compare" archive "$compare_tree/below/open.aura" "$compare_tree/a.aura" examples/data
    wrote "^equal examples/data/val\.aura\$"
    [ "$(head -n 2 "$out/got")" = "equal $compare_tree/below/open.aura (open at its end)
equal $compare_tree/a.aura" ] || fail "the order of the places"
}

# What is not compared is never passed for equal.
compare_unread() {
    status 2 "$compare" archive "$compare_tree/a.aura" "$compare_tree/missing"
    wrote "^equal $compare_tree/a\.aura\$"
    wrote "^unreadable $compare_tree/missing: .+"
    wrote '^2 files: 1 equal, 0 different, 0 refused, 1 unreadable; 0 passed over$'
    said '^compare: not all was compared: 1 unreadable; name files and folders that are there and may be read$'
    status 2 "$compare" --may-skip archive "$compare_tree/missing"
    said '^compare: nothing was compared: .+; name files or folders that hold scripts$'
    status 2 "$compare" archive "$compare_tree/empty"
    wrote '^0 files: 0 equal, '
    said '^compare: nothing was compared: .+; name files or folders that hold scripts$'
    status 2 timeout 10 "$compare" archive "$compare_tree/fifo"
    wrote "^passed over $compare_tree/fifo: a FIFO\$"
    # a file that opens and cannot be read, for root too
    status 2 "$compare" archive "$compare_tree/a.aura" /proc/self/mem
    wrote '^unreadable /proc/self/mem: .+'
    if [ "$(id -u)" -eq 0 ]; then
        echo "a file without permissions: skipped: root reads every file"
    else
        cp examples/data/val.aura "$compare_tree/below/secret.aura"
        chmod 000 "$compare_tree/below/secret.aura"
        status 2 "$compare" archive "$compare_tree"
        wrote "^unreadable $compare_tree/below/secret\.aura: .+"
        rm -f "$compare_tree/below/secret.aura"
    fi
    status 2 "$compare" mutate 1 5 "$compare_tree/missing"
    said "^compare: mutate: nothing was compared: cannot read $compare_tree/missing: .+"
    status 2 "$compare" mutate 1 5 "$compare_tree/empty"
    said '^compare: mutate: nothing was compared: no file was found; .+'
    status 2 "$compare" bench "$compare_tree/empty"
    said '^compare: bench: nothing was timed: no file was found; .+'
    unspoken
    status 2 "$compare" random 1 0
    said '^compare: random: nothing was compared: .+; .+'
    status 2 "$compare" readers 1 0
    said '^compare: readers: nothing was compared: .+; .+'
    status 2 "$compare" listing "$compare_tree/missing"
    said "^compare: no listing of $compare_tree/missing: .+"
    status 0 "$compare" mutate 1 5 "$compare_tree/below/open.aura" "$compare_tree/a.aura"
    wrote '^mutate: [0-9]+ scripts, .*, all equal$'
    status 0 "$compare" listing "$compare_tree/below/long.aura"
    wrote '^refused 1 3000000$'
}

# A closed output ends the program without a word, a full one with one.
compare_closed() {
    status 3 bash -c 'set -o pipefail; { sleep 0.2; "$0" archive "$1"; } | true' "$compare" "$compare_tree"
    silent
    status 3 bash -c 'set -o pipefail; { sleep 0.2; "$0" table; } | true' "$compare"
    silent
    status 3 bash -c '"$0" archive "$1" > /dev/full' "$compare" "$compare_tree"
    said '^compare: standard output cannot be written: .+'
}

# How far it is, each second, on a terminal only: seen in the first seconds of a run that takes longer.
compare_progress() {
    local many
    if ! script -qec true /dev/null < /dev/null > /dev/null 2>&1; then
        echo "the progress of archive: skipped: there is no script (bsdutils)"
        return
    fi
    head -n 30000 < <(yes "$(cat examples/data/import.aura)") > "$out/large.aura"
    mapfile -t many < <(yes "$out/large.aura" | head -n 500)
    status 124 script -qec "timeout 2.5 $compare archive ${many[*]} > /dev/null" /dev/null < /dev/null
    wrote '[0-9]+ of 500 files compared'
    status 124 timeout 2 "$compare" archive "${many[@]}"
    silent
}

compare_words() {
    status 2 "$1" archives
    said '^compare: archives is not understood$'
    said '^usage: compare '
    unspoken
    status 2 "$1" "$(printf 'a\033[31mb')"
    said '^compare: a␛\[31mb is not understood$'
    status 2 "$1" archive --depth "$compare_tree"
    said '^compare: --depth is not understood$'
    status 2 "$1" archive
    said '^compare: archive: no file or folder is named$'
    status 2 "$1" table more
    said '^compare: more is not understood$'
    status 2 "$1" random 1 many
    said '^compare: many is not understood: .+'
    status 2 "$1"
    said '^compare: a command is missing$'
    status 0 "$1" --help
    silent
    wrote '^  --may-skip '
    wrote '^  archive \[--deep\] FILE\|FOLDER \.\.$'
    wrote '^  page \[FILE\] '
}

# has PATTERN: the page in $out/page.html has a line like it.
has() {
    grep -qE -- "$1" "$out/page.html" || fail "the page has no line like: $1"
    checks=$((checks + 1))
}

compare_page() {
    rm -f target/page.html
    status 0 "$compare" page
    silent
    wrote "^page: [0-9]+ rows: [0-9]+ functions and [0-9]+ lines of the original, [0-9]+ definitions and [0-9]+ that they use: $PWD/target/page\.html\$"
    cp target/page.html "$out/page.html"
    has '<span>[0-9]+</span>    fn parse_number\('
    has '<span>[0-9]+</span>parse_number cs ='
    has '<a href="\.\./crates/rules/specs/Numbers\.antt">crates/rules/specs/Numbers\.antt</a>'
    has '<a href="#row-1">'
    has '<section id="row-1">'
    has 'Option&lt;TokenKind&gt;'
    has '^</html>$'
    if grep -q 'Option<' "$out/page.html"; then fail "the page has a source that is not escaped"; fi
    [ "$(grep -c '<section' "$out/page.html")" -eq "$(($(sed -E 's/^page: ([0-9]+) rows.*/\1/' "$out/got") + 1))" ] || fail "a row of the page is missing"
    checks=$((checks + 1))
    status 0 "$compare" page "$out/page.html"
    has '<a href="\.\./\.\./crates/rules/specs/Numbers\.antt">'
    for file in page.html docs/page.html compare/../page.html; do
        status 2 "$compare" page "$file"
        said "^compare: page: $file lies in the repository, .+; name a file in target/ or elsewhere\$"
        [ ! -e "$file" ] || fail "$file was written"
    done
    ln -sf "$PWD/docs/page.html" "$out/link.html"
    status 2 "$compare" page "$out/link.html"
    said '^compare: page: the link .+'
    rm -f "$out/link.html"
    status 2 "$compare" page "$out/no folder/page.html"
    said '^compare: page: the folder of .+'
}

# A program without the original's sources says so, and skips only where it may.
compare_without() {
    local words
    for words in kinds "archive examples/data" "archive --deep examples/data" page table "listing examples/data/val.aura"; do
        # shellcheck disable=SC2086
        status 2 "$1" $words
        said "^compare: ${words%% *} needs the original lexer's sources, and .+; set AURA_SRC .+ and build it again\$"
        unspoken
        # shellcheck disable=SC2086
        status 0 "$1" --may-skip $words
        wrote "^${words%% *}: skipped: this program was built without the original lexer's sources\$"
        silent
    done
    compare_words "$1"
}

# compare_build NAME SOURCES: the comparing program with other sources of the original, as target/NAME/release/compare.
compare_build() {
    (cd compare && AURA_SRC=$2 cargo build --release --offline --quiet --target-dir "../target/$1") > "$out/got" 2>&1 \
        || { cat "$out/got" >&2; fail "the comparing program with the sources in $2"; }
    checks=$((checks + 1))
}

# With a changed original a file differs, which no other outcome hides.
compare_different() {
    local changed=$PWD/$out/changed program=target/changed/release/compare
    rm -rf "$changed"
    mkdir -p "$changed"
    (cd compare && cd "${AURA_SRC:-../../shared/docs/src/seed/compiler/src}" && cp lexer.rs token.rs span.rs "$changed")
    sed -i 's/("val", TokenKind::Val)/("vak", TokenKind::Val)/' "$changed/lexer.rs"
    compare_build changed "$changed"
    status 1 "$program" archive "$compare_tree" "$compare_tree/missing"
    wrote "^different $compare_tree/a\.aura: token [0-9]+: ours is Val \(6\) \"val\", .+; the original's is Ident .+"
    wrote '^  what is left of it, as little as was found to differ: "val" \(76 61 6C\): token 0: .+'
    wrote '^7 files: 0 equal, 4 different, 2 refused, 1 unreadable; 3 passed over$'
    [ "$(grep -c '^  what is left' "$out/got")" -eq 1 ] || fail "more than one small script"
    status 1 "$program" archive --deep "$compare_tree/a.aura"
    wrote '^  what is left of it, .+ "val" '
    status 1 "$program" --may-skip kinds
    wrote '^DIFFERENT: '
    rm -rf "$changed"
}

compare_make_tree
if "$compare" kinds 2>&1 | grep -q "needs the original lexer's sources"; then
    compare_without "$compare"
    echo "archive, page and the like: skipped: the original's sources are not at hand"
else
    status 0 "$compare" kinds
    cp "$out/got" "$out/expected"
    status 0 "$compare" --may-skip kinds
    same "--may-skip" "$out/got" "$out/expected"
    compare_archive
    compare_unread
    compare_closed
    compare_progress
    compare_words "$compare"
    compare_page
    compare_different
    compare_build without "$PWD/$out/no such folder"
    compare_without target/without/release/compare
fi
rm -rf "$compare_tree"
