# Looks whether what documents name is there; .ci/docs says what is looked for and hands it in, line by line, as "file",
# "crates", "source", "other" and "doc".

function tell(good, what) {
    if (good) passed++
    else {
        failed++
        print "docs: " doc ":" number ": " what
    }
}

# What a line of a source declares: what stands behind a word of declaration or before a colon, and a variant.
function declare(line, place,    rest, name) {
    rest = line
    while (match(rest, /(pub|fn|struct|enum|trait|const|type|mod|abbrev|record|data|ghost|ensures|requires) +[A-Za-z_][A-Za-z0-9_]*/)) {
        name = substr(rest, RSTART, RLENGTH)
        rest = substr(rest, RSTART + index(name, " "))
        sub(/^[a-z]+ +/, "", name)
        declared[place, name] = 1
    }
    rest = line
    while (match(rest, /[A-Za-z_][A-Za-z0-9_]* *:/) || match(rest, /^ *[A-Z][A-Za-z0-9_]* *[({,]/)) {
        name = substr(rest, RSTART, RLENGTH)
        rest = "~" substr(rest, RSTART + RLENGTH)
        gsub(/[^A-Za-z0-9_]/, "", name)
        declared[place, name] = 1
    }
}

# The words of a text become known in a place.
function learn(text, place,    words, i, n) {
    n = split(text, words, /[^A-Za-z0-9_]+/)
    for (i = 1; i <= n; i++) if (words[i] != "") {
        known[words[i]] = 1
        if (place != "") {
            in_file[place, words[i]] = 1
            in_crate[crate_of(place), words[i]] = 1
        }
    }
}

function crate_of(path,    parts) {
    split(path, parts, "/")
    return parts[2]
}

function folder_of(path) {
    sub(/\/[^\/]*$/, "", path)
    return path
}

# The path as from the top of the repository, seen from the document, its last path and the crates; "" where there is none.
function found(path,    tries, i, n, past) {
    sub(/^\.\//, "", path)
    past = sub(/\/$/, "", path)
    if (path ~ /\*/) return globbed(path)
    if (past && path in some_folder) return path
    n = 0
    tries[++n] = path
    tries[++n] = "crates/" path
    tries[++n] = tidy(folder_of("./" doc) "/" path)
    if (last_path != "") {
        tries[++n] = folder_of(last_path) "/" path
        n = try_crate(crate_of(last_path), path, tries, n)
    }
    if (heading_path != "") {
        tries[++n] = heading_path "/" path
        n = try_crate(crate_of(heading_path), path, tries, n)
    }
    if (doc_path != "") tries[++n] = doc_path "/" path
    if (last_crate != "") n = try_crate(last_crate, path, tries, n)
    for (i = 1; i <= n; i++) if (tries[i] in file) return tries[i]
    return ""
}

function try_crate(name, path, tries, n) {
    tries[++n] = "crates/" name "/" path
    tries[++n] = "crates/" name "/src/" path
    tries[++n] = "crates/" name "/specs/" path
    return n
}

function tidy(path) {
    sub(/^\.\//, "", path)
    while (match(path, /[^\/]+\/\.\.\//)) path = substr(path, 1, RSTART - 1) substr(path, RSTART + RLENGTH)
    return path
}

function globbed(path,    name, pattern) {
    pattern = path
    gsub(/\./, "[.]", pattern)
    gsub(/\*/, "[^/]*", pattern)
    for (name in file) if (name ~ "^(crates/)?" pattern "$") return name
    return ""
}

# A name, or names joined by :: or a dot: the last is known where the one before is.
function is_known(name,    parts, n, i, one, place) {
    n = split(name, parts, /::|\./)
    if (n == 2 && parts[1] in crate) return (parts[1], parts[2]) in in_crate
    for (i = 1; i <= n; i++) if (!(parts[i] in known)) return 0
    if (n == 1) return 1
    for (place in source) if ((place, parts[n - 1]) in in_file && (place, parts[n]) in in_file) return 1
    return 0
}

function stands_in(name, place,    parts, n) {
    n = split(name, parts, /::|\./)
    return (place, parts[n]) in declared
}

function stands_in_some(name, list,    paths, n, i) {
    n = split(list, paths, " ")
    for (i = 1; i <= n; i++) if (stands_in(name, paths[i]) || !(paths[i] in source)) return 1
    return 0
}

function stands_in_crates(name, list,    parts, n, crates_of_row, m, i) {
    n = split(name, parts, /::|\./)
    m = split(list, crates_of_row, " ")
    for (i = 1; i <= m; i++) if ((crates_of_row[i], parts[n]) in in_crate || (crates_of_row[i], parts[n]) in edit) return 1
    return 0
}

# The text of a link.
function look_at_links(text,    target, anchor, at) {
    while (match(text, /\]\([^)]*\)/)) {
        target = substr(text, RSTART + 2, RLENGTH - 3)
        text = substr(text, RSTART + RLENGTH)
        if (target ~ /^https?:/) continue
        anchor = ""
        at = index(target, "#")
        if (at) {
            anchor = substr(target, at + 1)
            target = substr(target, 1, at - 1)
        }
        target = target == "" ? doc : tidy(folder_of("./" doc) "/" target)
        sub(/\/$/, "", target)
        tell(target in file, "no such file: " target)
        if (anchor != "") wanted[doc ":" number ": no such heading: " target "#" anchor] = target "#" anchor
    }
}

# A cell of a table, or a line of a text: its spans of code, one after another.
function look_at_cell(text, column,    span, before, kind, n, i, where, names, edits, edit_crate) {
    kind = header[column] ~ /^edit/ ? "edit" : ""
    names = 0
    edits = 0
    edit_crate = ""
    cell_paths = ""
    while (match(text, /`[^`]*`/)) {
        before = substr(text, 1, RSTART - 1)
        span = substr(text, RSTART + 1, RLENGTH - 2)
        text = substr(text, RSTART + RLENGTH)
        if (before ~ /edits? ([a-z]+: )?$/ || before ~ /edits? of definitions: $/) kind = "edit"
        else if (before ~ /tests? $/) kind = "test"
        else if (kind != "" && before !~ /^(,| and|, and|;) $/ && before !~ /^ of $/ && before !~ / in $/ && header[column] !~ /^edit/ \
            && before !~ /^ $/) kind = ""
        if (before ~ /; $/ && kind == "edit" && header[column] !~ /^edit/) kind = ""
        if (in_table && before ~ /^, the same( file)?[;,.]? $/) {
            look_at_same(names, column)
            names = 0
        }
        if (span in crate) {
            tell(1, "")
            last_crate = span
            if (edits && before == " of ") {
                for (i = 1; i <= edits; i++) look_at_edit(edit_named[i], span)
                edits = 0
            }
            edit_crate = before ~ /in $/ ? span : ""
            continue
        }
        if (span ~ /^rl_[a-z_]*$/) {
            tell(0, "no such crate: " span)
            continue
        }
        if (span ~ /^[A-Za-z0-9_.*-]*(\/[A-Za-z0-9_.*-]*)+$/ && span !~ /^\// || span ~ /^[A-Za-z0-9_-]+\.(rt|antt|toml|schedule|md|txt|edit)$/) {
            # the text of a link, which is looked at itself
            if (text ~ /^\]\(/) continue
            where = found(span)
            tell(where != "", "no such file: " span)
            if (where != "") {
                last_path = where
                cell_paths = cell_paths " " where
                if (in_table) column_path[column] = where
                if (where in source) for (i = 1; i <= names; i++)
                    tell(stands_in(name_before[i], where), where " has no " name_before[i])
            }
            names = 0
            continue
        }
        # a number in base sixteen, and the name of a place that is counted
        if (span ~ /^[0-9a-f]+$/ && span ~ /[0-9]/ || span ~ /^[A-Z]i$/) continue
        if (span !~ /^[A-Za-z_][A-Za-z0-9_]*((::|\.)[A-Za-z_][A-Za-z0-9_]*)*$/) continue
        if (kind == "edit") {
            if (edit_crate != "") look_at_edit(span, edit_crate)
            else edit_named[++edits] = span
        } else if (kind == "test") tell(span in function_named, "no such test: " span)
        else {
            tell(is_known(span) || span in some_edit, "no such name: " span)
            if (in_table) name_before[++names] = span
        }
    }
    if (in_table && text ~ /^, the same( file)?[;,.]? *$/) look_at_same(names, column)
    if (in_table && row_crates != "" && column == 2) for (i = 1; i <= names; i++)
        tell(stands_in_crates(name_before[i], row_crates), row_crates " has no " name_before[i])
    for (i = 1; i <= edits; i++) look_at_edit(edit_named[i], in_table ? crate_of(column_path[column - 1]) : "")
    cell_names = names
    sub(/^ /, "", cell_paths)
}

# Names before "the same": they stand in the file that was named last in this column.
function look_at_same(names, column,    i) {
    for (i = 1; i <= names; i++)
        tell(stands_in(name_before[i], column_path[column]), column_path[column] " (the same) has no " name_before[i])
}

function look_at_edit(name, of) {
    if (of == "") tell(name in some_edit, "no such edit: " name)
    else tell((of, name) in edit, of " has no edit " name (name in some_edit ? "; it is one of" some_edit[name] : ""))
}

function look_at_row(line,    cells, n, i, j, kept, first) {
    gsub(/^\||\|$/, "", line)
    n = split(line, cells, "|")
    if (!in_table) {
        for (i = 1; i <= n; i++) {
            gsub(/^ +| +$/, "", cells[i])
            header[i] = ""
            look_at_cell(cells[i], i)
            if (cell_paths != "") doc_path = heading_path = cell_paths
            header[i] = cells[i]
            column_path[i] = ""
        }
        in_table = 1
        same_paths = ""
        return
    }
    if (line ~ /^[-|]+$/) return
    row_crates = ""
    first = cells[1]
    if (header[1] ~ /^crate/) {
        gsub(/[` ,]+/, " ", first)
        gsub(/^ +| +$/, "", first)
        row_crates = first
    }
    for (i = 1; i <= n; i++) {
        look_at_cell(cells[i], i)
        if (i == 1) {
            kept = cell_names
            for (j = 1; j <= kept; j++) of_row[j] = name_before[j]
        }
        if (i == 1 || header[i] !~ /^file/) continue
        if (cells[i] ~ /^ the same files? $/) cell_paths = same_paths
        same_paths = cell_paths
        for (j = 1; j <= kept; j++)
            tell(cells[i] ~ /beside|of each crate/ || stands_in_some(of_row[j], cell_paths), cell_paths " has no " of_row[j])
    }
    row_crates = ""
}

# What a heading is called in a link.
function anchor_of(text) {
    sub(/^#+ /, "", text)
    text = tolower(text)
    gsub(/[^a-z0-9 _-]/, "", text)
    gsub(/ /, "-", text)
    return text
}

# A line of the drawing: a crate, and after a line those on which it stands.
function look_at_drawing(line,    at, top, low, n, i) {
    at = index(line, "──")
    if (!at) return
    top = substr(line, 1, at - 1)
    low = substr(line, at)
    gsub(/[^a-z_]/, "", top)
    gsub(/[^a-z_ ]/, "", low)
    tell(top in crate, "no such crate is drawn: " top)
    n = split(low, drawn_below, " ")
    for (i = 1; i <= n; i++) {
        drawn[top, drawn_below[i]] = 1
        tell((top, drawn_below[i]) in edge, "drawn, and not in crates.txt: " top " on " drawn_below[i])
    }
}

# Each line of crates.txt that doesn't follow from others is drawn, and no other.
function look_at_edges(    i, j, k, follows) {
    doc = "docs/crates.md"
    number = "drawing"
    for (i = 1; i <= crates; i++) for (j = 1; j < i; j++) if ((ordered[i], ordered[j]) in edge) {
        follows = 0
        for (k = j + 1; k < i && !follows; k++)
            follows = (ordered[i], ordered[k]) in edge && below[ordered[k], ordered[j]]
        if (follows) tell(!((ordered[i], ordered[j]) in drawn), "drawn, and follows from others: " ordered[i] " on " ordered[j])
        else tell((ordered[i], ordered[j]) in drawn, "not drawn: " ordered[i] " on " ordered[j])
    }
}

function look_at_groups() {
    doc = "crates/README.md"
    number = "groups"
    gsub(/\n/, "; ", groups_said)
    gsub(/\n/, "; ", groups_listed)
    tell(groups_said == groups_listed, "the groups are" groups_said ", and those of crates.txt" groups_listed)
}

{
    stage = $1
    rest = substr($0, length(stage) + 2)
}
stage == "file" {
    file[rest] = 1
    if (rest ~ /\/(src|specs|proofs|must-fail|data|tests)\//) {
        known_name = rest
        sub(/\/[^\/]*$/, "", known_name)
        sub(/^.*\//, "", known_name)
        some_folder[known_name] = 1
    }
    known_name = rest
    sub(/^.*\//, "", known_name)
    learn(known_name, "")
    if (rest ~ /\/must-fail\/.*\.edit$/) {
        sub(/\.edit$/, "", known_name)
        edit[crate_of(rest), known_name] = 1
        some_edit[known_name] = some_edit[known_name] " " crate_of(rest)
    }
}
stage == "crates" {
    learn(rest, "")
    if (rest ~ /^# /) {
        if (rest !~ /^# .*\.$/) groups_listed = groups_listed "\n" substr(rest, 3) ":"
    } else if (rest ~ /:/) {
        top = rest
        sub(/[: ].*/, "", top)
        crate[top] = 1
        ordered[++crates] = top
        groups_listed = groups_listed " " top
        low = rest
        sub(/^[^:]*:/, "", low)
        n = split(low, lows, " ")
        for (i = 1; i <= n; i++) if (lows[i] in crate) {
            edge[top, lows[i]] = 1
            below[top, lows[i]] = 1
            for (j = 1; j < crates; j++) if (below[lows[i], ordered[j]]) below[top, ordered[j]] = 1
        } else kit[lows[i]] = 1
    }
}
stage == "source" || stage == "doc" {
    at = index(rest, ":")
    place = substr(rest, 1, at - 1)
    text = substr(rest, at + 1)
}
stage == "source" {
    source[place] = 1
    # what is imported stands elsewhere
    imports = text ~ /^ *(ghost |pub )*use /
    learn(text, imports ? "" : place)
    if (!imports) declare(text, place)
    while (match(text, /fn [a-z_0-9]+/)) {
        function_named[substr(text, RSTART + 3, RLENGTH - 3)] = 1
        text = substr(text, RSTART + RLENGTH)
    }
}
stage == "other" { learn(rest, "") }
stage == "doc" {
    if (place != doc) {
        number = 0
        fenced = 0
        last_path = ""
        last_crate = ""
        doc_path = ""
        heading_path = ""
    }
    doc = place
    number++
    if (text !~ /^\|/) in_table = 0
    if (text ~ /^```/) fenced = !fenced
    else if (fenced) {
        if (doc == "docs/crates.md") look_at_drawing(text)
    } else {
        if (text ~ /^#/) {
            heading[doc "#" anchor_of(text)] = 1
            last_path = ""
            heading_path = ""
            delete header
            if (doc == "crates/README.md" && text ~ /^## /) groups_said = groups_said "\n" substr(text, 4) ":"
        }
        if (text ~ /^$/) last_path = heading_path
        look_at_links(text)
        if (text ~ /^\|/) {
            look_at_row(text)
            if (doc == "crates/README.md" && text ~ /^\| `/) {
                named = text
                sub(/^\| `/, "", named)
                sub(/`.*/, "", named)
                groups_said = groups_said " " named
            }
        } else {
            look_at_cell(text, 0)
            if (text ~ /^#/) heading_path = last_path
            if (text ~ /^#/ && last_path != "") doc_path = last_path
        }
    }
}
END {
    number = 0
    look_at_edges()
    look_at_groups()
    for (text in wanted) {
        if (wanted[text] in heading) passed++
        else {
            failed++
            print "docs: " text
        }
    }
    print passed + 0 " passed, " failed + 0 " failed"
    exit failed > 0
}
