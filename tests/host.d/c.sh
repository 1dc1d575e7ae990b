# shellcheck shell=bash disable=SC2016,SC2154
# Sourced by tests/host. The headers in C and C++, the calls, what the header says of the library, and the examples in C: what they list,
# how they stop, and that they keep to their memory (the sanitizers of gcc, valgrind).

c_warnings=(-pedantic -Wall -Wextra -Werror)
c_sanitizers=("-fsanitize=address,undefined" -fno-sanitize-recover=all -g)

# c_build SOURCE PROGRAM FLAG..
c_build() {
    local source=$1 program=$2
    shift 2
    gcc -std=c99 "${c_warnings[@]}" -Iinclude "$@" "$source" "$library" -o "$out/$program"
}

# c_lists SCRIPT COMMAND..: the command lists a script of examples/data as its listing says, with no message.
c_lists() {
    local script=$1 listing=${1%.aura}.listing expected=0
    shift
    if grep -q '^refused' "$listing"; then expected=1; fi
    status "$expected" "$@" "$script"
    same "$*" "$out/got" "$listing"
    silent
}

# c_answers NAME PATTERN SCRIPT COMMAND..: the command takes a script of examples/data, or refuses it, under its name, where the listing has
# a line like the pattern.
c_answers() {
    local name=$1 refusing=$2 script=$3 expected=0
    shift 3
    if grep -qE "$refusing" "${script%.aura}.listing"; then expected=1; fi
    status "$expected" "$@" < "$script"
    if [ "$expected" -eq 0 ]; then silent; else said "^$name: .+; .+"; fi
}

# A script with an error is not printed; its texts are written.
c_prints() {
    c_answers office_print '^(E|refused) ' "$@"
}

c_texts() {
    c_answers texts '^refused ' "$@"
}

# c_calls PROGRAM: the checks of tests/calls.c hold.
c_calls() {
    "$out/$1" || fail "the checks of tests/calls.c in $1"
    checks=$((checks + 1))
}

# c_compiles HEADER COMPILER..: what includes it in $out/header.c is free of warnings.
c_compiles() {
    local header=$1
    shift
    "$@" "${c_warnings[@]}" -Wshadow -Wconversion -Wsign-conversion -O2 -Iinclude -c "$out/header.c" -o "$out/header.o" \
        || fail "$header: $*"
    checks=$((checks + 1))
}

# c_alone COMPILER..: each header alone and twice, and behind stdio.h, in which EOF is a macro.
c_alone() {
    local header name
    for header in include/*.h; do
        name=${header##*/}
        printf '#include "%s"\n' "$name" "$name" > "$out/header.c"
        c_compiles "$header" "$@"
        printf '#include <stdio.h>\n#include "%s"\n' "$name" > "$out/header.c"
        c_compiles "$header" "$@"
    done
}

# tests/calls.c is C and C++, and uses each function that the headers have.
c_headers() {
    local name names
    mapfile -t names < <(grep -ohE '\baura_[a-z0-9_]+\(' include/*.h | sort -u)
    [ "${#names[@]}" -ge 20 ] || fail "only ${#names[@]} functions in include/*.h"
    for name in "${names[@]}"; do
        grep -qF "$name" tests/calls.c || fail "tests/calls.c does not use $name)"
        checks=$((checks + 1))
    done
    c_alone gcc -std=c99
    if ! command -v g++ > /dev/null; then
        echo "headers in C++: skipped: there is no g++"
        return
    fi
    c_alone g++ -std=c++11 -x c++
    g++ -std=c++11 "${c_warnings[@]}" -O2 -Iinclude -x c++ tests/calls.c -x none "$library" -o "$out/calls-cpp"
    c_calls calls-cpp
}

# What include/aura_lexer.h says of the library: its machine, what it takes from the host, and no call that is not declared.
c_library() {
    local name
    objdump -f "$library" | awk '/file format/ { seen = 1; if ($NF != "elf64-x86-64") other = 1 } END { exit other || !seen }' \
        || fail "$library is not for x86-64 alone"
    [ "$(nm -P -u "$library" | awk 'NF > 1 { print $1 }' | sort -u | paste -sd " ")" = "memcpy memset" ] || fail "$library takes more than memcpy and memset from the host"
    for name in $(nm -P -g --defined-only "$library" | awk 'NF > 1 { print $1 }'); do
        grep -qE "^uint64_t $name\(" include/aura_lexer.h || fail "include/aura_lexer.h does not declare $name"
        checks=$((checks + 1))
    done
    checks=$((checks + 2))
}

# c_stops PROGRAM: what it says and answers where there is no script, a script over the limit, or no room for its listing.
c_stops() {
    local program=$1
    status 2 "$program" "$out/no such file"
    said '^listing: cannot open .*no such file$'
    status 2 "$program" examples/data
    said '^listing: cannot read examples/data$'
    status 2 bash -c '"$0" "$1" > /dev/full' "$program" examples/data/import.aura
    said '^listing: cannot write to standard output$'
    status 2 bash -c '"$0" "$1" > /dev/full' "$program" examples/data/row-c3.aura
    said '^listing: cannot write to standard output$'
    head -c 3000000 /dev/zero > "$out/long.aura"
    status 1 "$program" "$out/long.aura"
    wrote '^refused 1 3000000$'
    silent
    status 1 bash -c 'cat "$1" | "$0"' "$program" "$out/long.aura"
    wrote '^refused 1 3000000$'
    silent
}

# A read or a write outside of a buffer, and memory that is not given back, end a program with status 9 and a message.
c_sanitized() {
    local script
    local -x ASAN_OPTIONS=exitcode=9:detect_leaks=1 UBSAN_OPTIONS=exitcode=9
    printf 'int main(void) { return 0; }\n' > "$out/probe.c"
    if ! gcc "${c_sanitizers[@]}" "$out/probe.c" -o "$out/probe" 2> "$out/said" || ! "$out/probe" 2> "$out/said"; then
        echo "sanitizers: skipped: gcc has none that run here"
        return
    fi
    c_build tests/calls.c calls-sanitized "${c_sanitizers[@]}"
    c_calls calls-sanitized
    c_build examples/listing.c listing-sanitized "${c_sanitizers[@]}"
    for script in examples/data/*.aura; do c_lists "$script" "$out/listing-sanitized"; done
    c_stops "$out/listing-sanitized"
    c_build examples/office_print.c office_print-sanitized "${c_sanitizers[@]}"
    for script in examples/data/*.aura; do c_prints "$script" "$out/office_print-sanitized"; done
    c_build examples/texts.c texts-sanitized "${c_sanitizers[@]}"
    for script in examples/data/*.aura; do c_texts "$script" "$out/texts-sanitized"; done
    ASAN_OPTIONS=$ASAN_OPTIONS:allocator_may_return_null=1:max_allocation_size_mb=8
    head -c 1048576 /dev/zero > "$out/long.aura"
    status 2 "$out/listing-sanitized" "$out/long.aura"
    said '^listing: no memory$'
    status 2 "$out/texts-sanitized" < "$out/long.aura"
    said '^texts: no memory$'
    ASAN_OPTIONS=$ASAN_OPTIONS:max_allocation_size_mb=1
    head -c 1048576 < <(yes '///') > "$out/long.aura"
    status 0 "$out/office_print-sanitized" < examples/data/import.aura
    status 2 "$out/office_print-sanitized" < "$out/long.aura"
    said '^office_print: no memory$'
}

# The library itself is not built with the sanitizers; valgrind sees its reads and writes too.
c_valgrind() {
    local name watch=(valgrind --quiet --leak-check=full --show-leak-kinds=all --errors-for-leak-kinds=all --error-exitcode=9)
    if ! command -v valgrind > /dev/null; then
        echo "valgrind: skipped: it is not installed"
        return
    fi
    for name in import mistakes mark pieces row-c3 row-empty; do c_lists "examples/data/$name.aura" "${watch[@]}" "$out/listing"; done
    for name in import spans mistakes mark row-c3 row-empty; do c_prints "examples/data/$name.aura" "${watch[@]}" "$out/office_print"; done
    for name in import pieces mark row-c3 row-empty; do c_texts "examples/data/$name.aura" "${watch[@]}" "$out/texts"; done
}

c_build tests/calls.c calls -O2
c_build examples/listing.c listing -O2
c_build examples/first.c first -O2
c_build examples/help_desk.c help_desk -O2
c_build examples/office_print.c office_print -O2
c_build examples/texts.c texts -O2
c_calls calls
c_headers
c_library
c_stops "$out/listing"
c_sanitized
c_valgrind
