#!/bin/sh
# The commands over the proved lexer; ./lex --help tells which there are. On first use, and after a change of the sources, it proves the
# lexer and builds the program, and says so on standard error.
set -eu

# All that follows is named from the root; these are patterns of the shell.
library=target/staticlib/libaura_host.a
program=target/tools/release/lex
of_library="crates.txt crates/*/src crates/*/specs crates/*/proofs"
of_program="$library host/src host/build.rs host/Cargo.toml tools/src tools/help tools/Cargo.toml"
stamps=target/lex
logs=target/log

say() {
    echo "lex: $*" >&2
}

# The folder of a file, also where it was called by a link.
folder_of() {
    file=$1
    while [ -L "$file" ]; do
        link=$(readlink "$file")
        case $link in
            /*) file=$link ;;
            *) file=$(dirname -- "$file")/$link ;;
        esac
    done
    CDPATH='' cd -P -- "$(dirname -- "$file")" && pwd
}

checksum() {
    find "$@" -type f -exec cksum {} + | LC_ALL=C sort | cksum
}

# stamp NAME FILE..: keeps what the files are.
stamp() {
    name=$1
    shift
    mkdir -p "$stamps"
    checksum "$@" > "$stamps/$name"
}

# newer FILE FILE..: whether something happened to one of the files behind it since the first was written. It does not go by their dates:
# a file that was moved or copied may be another one and yet have an older date.
newer() {
    than=$1
    shift
    [ -n "$(find "$@" -cnewer "$than" | head -n 1)" ]
}

# changed NAME FILE..: whether the files are others than the stamp says. Files that were only touched are not.
changed() {
    kept=$stamps/$1
    shift
    [ -f "$kept" ] || return 0
    newer "$kept" "$@" || return 1
    [ "$(checksum "$@")" = "$(cat "$kept")" ] || return 0
    touch "$kept"
    return 1
}

# The stamp is of the library and its sources, so that one made of others is not taken. A library that another command made is taken
# where no source is newer.
needs_library() {
    [ -f "$library" ] || return 0
    changed library "$library" "$@" || return 1
    ! newer "$library" "$@" || return 0
    stamp library "$library" "$@"
    return 1
}

needs_program() {
    [ ! -x "$program" ] || changed program "$program" "$@"
}

# needs_tool NAME WHAT: the tool has to be there to build it.
needs_tool() {
    command -v "$1" > /dev/null && return
    say "cannot build $2: there is no $1; install it and put it on the PATH"
    exit 2
}

# failed WHO LOG: shows the end of what a tool said.
failed() {
    say "$1 failed; its last lines:"
    tail -n 15 "$2" >&2
    say "all that it said is in $2 of the repository; mend what it names, then try again"
    exit 2
}

# The number of crates that the library is made of: those below aura_host in crates.txt, and itself.
count_crates() {
    awk -F: '
        !/^#/ { sub(/ .*/, "", $1); below[$1] = $2 }
        END {
            wanted["aura_host"]
            do {
                more = 0
                for (crate in wanted) {
                    n = split(below[crate], names, " ")
                    for (i = 1; i <= n; i++) if (names[i] in below && !(names[i] in wanted)) { wanted[names[i]]; more = 1 }
                }
            } while (more)
            for (crate in wanted) count++
            print count
        }' crates.txt
}

# Hands the prover's lines on, and tells on a terminal how far it is. It names a crate as it begins with it, and none that it takes from
# an earlier run.
follow() {
    count=0
    of=$(count_crates)
    while IFS= read -r line; do
        printf '%s\n' "$line"
        case $line in "rt: chose --jobs "*" for "*) ;; *) continue ;; esac
        count=$((count + 1))
        [ ! -t 2 ] || printf '\r\033[Kproving %s of %s: %s' "$count" "$of" "${line##* for }" >&2
    done
    [ ! -t 2 ] || printf '\r\033[K' >&2
}

prove() {
    needs_tool rt "the proved lexer"
    say "proving and building the lexer, which takes about ten minutes, once"
    mkdir -p "$logs"
    rm -f "$logs/proved"
    { tools/staticlib 2>&1 && : > "$logs/proved"; } | follow > "$logs/prover"
    [ -f "$logs/proved" ] || failed "the prover (tools/staticlib)" "$logs/prover"
    stamp library "$library" "$@"
}

build() {
    needs_tool cargo "the program"
    say "building the program, once"
    mkdir -p "$logs"
    # cargo goes by dates, so nothing is left that it could take for new
    rm -rf "${program%/*}"
    (cd tools && cargo build --release --offline --target-dir ../target/tools) > "$logs/cargo" 2>&1 || failed cargo "$logs/cargo"
    stamp program "$program" "$@"
}

# Makes what is missing or older than its sources; one call at a time where the machine can see to that.
make_program() {
    # shellcheck disable=SC2086
    if needs_library $of_library || needs_program $of_program; then
        mkdir -p "$stamps"
        if command -v flock > /dev/null; then
            exec 9> "$stamps/lock"
            flock 9
        fi
        ! needs_library $of_library || prove $of_library
        ! needs_program $of_program || build $of_program
    fi
}

# A closed output is not one that swallows everything.
(true 9>&1) 2> /dev/null || exit 3

root=$(folder_of "$0")
case ${1-} in
    list | check | colour | print | texts) page=$1 ;;
    --version) cat "$root/tools/help/version.txt" || exit 3; exit 0 ;;
    *) page="lex" ;;
esac
for word in "$@"; do
    case $word in
        --help | -h) cat "$root/tools/help/$page.txt" || exit 3; exit 0 ;;
        --) break ;;
    esac
done
(cd "$root" && make_program)
exec "$root/$program" "$@"
