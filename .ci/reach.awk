# Counts what definitions reach; .ci/reach says what is counted and hands the specs in, line by line.

# The name under which a file is known: crate and file, as "rl_model/Safety".
function place_of(path,    parts, n) {
    n = split(path, parts, "/")
    sub(/\.antt$/, "", parts[n])
    return parts[2] "/" parts[n]
}

# A line that brings names in: of a file of specs/, or all of it under a name.
function bring(line,    path, names, list, i, n, pair, parts, k) {
    if (line !~ /^use Rattle\.[a-z_]+\.specs\./) return
    sub(/^use Rattle\./, "", line)
    names = ""
    if (match(line, /\.\{.*\}/)) {
        names = substr(line, RSTART + 2, RLENGTH - 3)
        line = substr(line, 1, RSTART - 1)
    }
    path = line
    sub(/ as .*/, "", path)
    k = split(path, parts, ".")
    if (parts[3] == "declared" || parts[3] == "contracts") return
    path = parts[1] "/" parts[3]
    if (names == "") {
        if (match(line, / as [^ ]+$/)) whole[here, substr(line, RSTART + 4)] = path
        else whole[here, parts[k]] = path
        return
    }
    n = split(names, list, /, */)
    for (i = 1; i <= n; i++) {
        split(list[i], pair, " as ")
        # a way to hold of a record of ways is a part of it
        brought[here, pair[2] == "" ? pair[1] : pair[2]] = path "." (k > 3 ? parts[4] : pair[1])
    }
}

FNR == 1 { here = place_of(FILENAME); now = "" }
/^use / { bring($0); next }
/^--/ || /^ *$/ || /^pub mod / { if (/^--/) now = ""; next }
/^(abbrev pub|unfoldable pub|pub record|pub data|abbrev|unfoldable|record|data) / {
    name = $0
    sub(/^(abbrev|unfoldable|pub|record|data) +/, "", name)
    sub(/^(pub|record|data) +/, "", name)
    sub(/[ :({].*/, "", name)
    now = here "." name
    defined[now] = 1
}
now != "" {
    lines[now]++
    line = $0
    sub(/ -- .*/, "", line)
    text[now] = text[now] " " line
    where[now] = here
}

# Follows the names in a definition to other definitions.
function follow(root, mark,    todo, top, at, words, i, n, word, next_one, dot, alias) {
    top = 0
    todo[++top] = root
    seen[mark, root] = 1
    while (top > 0) {
        at = todo[top--]
        count[mark]++
        length_of[mark] += lines[at]
        n = split(text[at], words, /[^A-Za-z0-9_.'\-]+/)
        for (i = 1; i <= n; i++) {
            word = words[i]
            sub(/^\.+/, "", word)
            next_one = ""
            dot = index(word, ".")
            alias = dot ? substr(word, 1, dot - 1) : word
            if (dot && (where[at], alias) in whole) {
                word = substr(word, dot + 1)
                sub(/\..*/, "", word)
                next_one = whole[where[at], alias] "." word
            } else if ((where[at], alias) in brought) next_one = brought[where[at], alias]
            else if ((where[at] "." alias) in defined) next_one = where[at] "." alias
            if (next_one != "" && next_one in defined && !((mark, next_one) in seen)) {
                seen[mark, next_one] = 1
                todo[++top] = next_one
            }
        }
    }
}

function tell(good, what) {
    if (good) passed++
    else {
        failed++
        print "reach: " what
    }
}

END {
    n = split(roots, each, ";")
    for (i = 1; i <= n; i++) {
        split(each[i], parts, "=")
        tell(parts[2] in defined, "no definition " parts[2])
        if (parts[2] in defined) follow(parts[2], parts[1])
        printf "%-22s %4d definitions %5d lines\n", parts[1], count[parts[1]], length_of[parts[1]]
        if (i == 1) {
            split(most, limit, " ")
            tell(count[parts[1]] <= limit[1] && length_of[parts[1]] <= limit[2], parts[1] " reaches more than " most)
        }
        if (list != "") for (p in seen) {
            split(p, pair, SUBSEP)
            if (pair[1] == parts[1]) print "    " pair[2] " " lines[pair[2]]
        }
    }
    print passed + 0 " passed, " failed + 0 " failed"
    exit failed > 0
}
