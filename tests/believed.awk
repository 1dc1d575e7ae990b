# Follows what a reader has to believe. Reads the lists of docs/READING.md: the definitions (CRATE: FILE..), the entry points
# (CRATE/src/FILE.rt: FUNCTION..) and the theorems (CRATE/proofs/FILE.antt: NAME..). Every definition that a contract or a statement
# names, and every one that those use, has to be listed, and no others; a statement may name nothing that stands in proofs/ alone; an
# entry point asks nothing of its caller, but for `listed`, which only the program's own `main` calls.
function fail(what) {
    print "believed: " what
    failed++
}

# The names that a `use` line brings, in `home`: where each stands. What stands in `std` is the library's.
function brings(line, file, home,    crate, part, rest, n, i, names, name) {
    sub(/^ *(pub |unfoldable |ghost )*use Rattle\./, "", line)
    crate = line
    sub(/\..*/, "", crate)
    if (crate == "std") return
    rest = line
    sub(/^[a-z0-9_]+\./, "", rest)
    part = rest
    sub(/\..*/, "", part)
    sub(/^[a-z]+\./, "", rest)
    name = rest
    sub(/[ .;].*/, "", name)
    if (part == "specs" && name == "declared") return
    if (part == "specs") used[file, ++uses[file]] = crate "." name
    if (rest ~ /\{[^}]*$/) fail(file " has a list of names that does not end on its line: " line)
    if (rest !~ /\{/) {
        if (rest ~ / as /) { sub(/.* as /, "", rest); sub(/;.*/, "", rest); home[rest] = part " " crate "." name }
        return
    }
    sub(/^[^{]*\{/, "", rest)
    sub(/\}.*/, "", rest)
    n = split(rest, names, /, */)
    for (i = 1; i <= n; i++) {
        sub(/.* as /, "", names[i])
        home[names[i]] = part " " crate "." name
    }
}

# Marks the definitions that a text names, given where the names stand.
function names_in(text, home, where,    name, n, i, parts, words, k, word) {
    gsub(/[(){},;]/, " ", text)
    n = split(text, words, /[ \t]+/)
    delete said
    for (i = 1; i <= n; i++) {
        said[words[i]] = 1
        word = words[i]
        if (sub(/\..*/, "", word)) said[word] = 1
    }
    for (name in home) {
        # an operator is written with its arguments in the place of each ◌
        k = split(name, parts, "◌")
        for (i = 1; i <= k; i++) {
            if (parts[i] != "" && parts[i] in said) {
                if (home[name] ~ /^specs /) mark(substr(home[name], 7), where)
                else fail(where " names " name " of " home[name] ", which is no definition of specs/")
                break
            }
        }
    }
}

function mark(spec, where,    file, i) {
    if (spec in marked) return
    marked[spec] = 1
    if (!(spec in listed)) fail("docs/READING.md does not list " spec ", which " where " names")
    file = spec
    sub(/\./, "/specs/", file)
    file = "crates/" file ".antt"
    load(file, other)
    for (i = 1; i <= uses[file]; i++) mark(used[file, i], file)
}

# The lines of a file, and where its names stand.
function load(file, home,    line) {
    delete home
    count = 0
    uses[file] = 0
    while ((getline line < file) > 0) {
        lines[++count] = line
        if (line ~ /^ *(pub |unfoldable |ghost )*use Rattle\./) brings(line, file, home)
    }
    close(file)
    if (count == 0) fail("there is no " file)
}

# A contract: what stands between a function's name and its body.
function entry(file, name,    i, text, inside, asked) {
    for (i = 1; i <= count; i++) {
        if (!inside && lines[i] ~ ("^ *(pub )?(extern \"C\" )?fn " name "[<(]")) inside = 1
        if (inside && lines[i] ~ /^ *\{$/) break
        if (inside && lines[i] ~ /^ *requires/) asked = 1
        if (inside) text = text " " lines[i]
    }
    if (!inside) { fail("there is no function " name " in " file); return }
    if (text !~ /ensures/) fail(name " in " file " promises nothing")
    if (asked && name != "listed") fail(name " in " file " asks something of its caller")
    functions++
    names_in(text, here, name " (" file ")")
}

# A statement: the heads of the modules around it, and its signature up to its first equation.
function theorem(file, name,    i, text, inside, head, in_head, deep) {
    for (i = 1; i <= count; i++) {
        if (lines[i] ~ /^module /) { head = ""; in_head = 1 }
        if (in_head) head = head " " lines[i]
        if (in_head && lines[i] ~ / where$/) in_head = 0
        if (!inside && lines[i] ~ ("^ *pub " name " :")) {
            inside = 1
            deep = lines[i] ~ /^ /
            sub(/^ *pub [^ ]+ :/, "", lines[i])
        } else if (inside && (lines[i] ~ /^ *unfolding / || lines[i] ~ ("^ *" name " "))) break
        if (inside) text = text " " lines[i]
    }
    if (!inside) { fail("there is no theorem " name " in " file); return }
    if (deep) text = head " " text
    theorems++
    local(text, file, name)
    names_in(text, here, name " (" file ")")
}

# The names that a statement binds, as `a` and `b` of `(a b : ..)`.
function binds(text,    group, words, n, i) {
    delete bound
    while (match(text, /[({][^(){}:]* :/)) {
        group = substr(text, RSTART + 1, RLENGTH - 3)
        text = substr(text, RSTART + RLENGTH)
        n = split(group, words, " ")
        for (i = 1; i <= n; i++) bound[words[i]] = 1
    }
}

# A statement that names what its own file defines has a part that does not stand in specs/.
function local(text, file, name,    i, own, words, n, says) {
    binds(text)
    gsub(/[(){},;]/, " ", text)
    n = split(text, words, /[ \t]+/)
    for (i = 1; i <= n; i++) says[words[i]] = 1
    for (i = 1; i <= count; i++) {
        if (lines[i] !~ /^ *((unfoldable|abbrev|pub) )*[^ ]+ :/ && lines[i] !~ /^ *(pub )?(record|data) /) continue
        own = lines[i]
        sub(/^ *((unfoldable|abbrev|pub|record|data) )*/, "", own)
        sub(/ .*/, "", own)
        if (own in says && own != name && !(own in bound)) fail(name " (" file ") names " own ", which stands in that file alone")
    }
}

/^    [a-z0-9_]+: [A-Z]/ {
    crate = $1
    sub(/:/, "", crate)
    for (i = 2; i <= NF; i++) listed[crate "." $i] = 1
}
/^    [a-z0-9_]+\/src\/[a-z_]+\.rt: / || /^    [a-z0-9_]+\/proofs\/[A-Za-z]+\.antt: / { row[++rows] = $0 }

END {
    for (r = 1; r <= rows; r++) {
        n = split(row[r], words, " ")
        file = words[1]
        sub(/:$/, "", file)
        for (w = 2; w <= n; w++) {
            load("crates/" file, here)
            if (file ~ /\.rt$/) entry("crates/" file, words[w])
            else theorem("crates/" file, words[w])
        }
    }
    for (spec in listed) {
        checked++
        if (!(spec in marked)) fail("docs/READING.md lists " spec ", which no contract of an entry point and no theorem names")
    }
    if (functions < 30 || theorems < 10 || checked < 30) fail("docs/READING.md has no lists of definitions, entry points and theorems")
    if (failed) exit 1
    print "believed: " functions " contracts and " theorems " statements name " checked " files of definitions, all listed"
}
