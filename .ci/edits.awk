# Each must-fail edit was refused for a fact of its own. `.ci/edits` calls this twice:
#
#     awk -v gate=GATE -v list=LIST -f .ci/edits.awk crates/*/must-fail/*.edit
#     awk -v gate=GATE -v logs=FOLDER -f .ci/edits.awk crates/*/must-fail/*.edit
#
# The first call writes into LIST the edits that have to be tried alone, `CRATE FILE LABEL` in a line, and the second
# judges what `rt check` printed of each, FOLDER/CRATE.FILE.LABEL. GATE has what `rt ci` printed.
#
# Every edit has a line before its pairs of old and new:
#
#     # LABEL, in FUNCTION: what holds     an edit of src/; FUNCTION by its path in proofs/
#     # LABEL: what holds                  an edit of specs/, or of specs/ and src/ alike, alone in LABEL.edit
#
# and after it, where the edit changes conditions by which goals of the function's proof are named:
#
#     # renames OLD to NEW                 the proof is read with NEW for OLD throughout
#
# An edit of src/ that shares its file with others changes the body of its function, or a constant that this function
# alone cites. The function has to be refused, and by a fact: the first error in its own proof is more than a name that
# is gone or a step that no longer fits, or there is none and a goal of its own is left open. Of an edit of specs/ the
# first error of the crate has to be a fact in the same way.

FNR == 1 {
    judge_file()
    split(FILENAME, part, "/")
    crate = part[2]
    file = part[4]
    sub(/\.edit$/, "", file)
    edits = pairs = 0
    source = old = ""
}
/^# [a-z0-9_]+(, in [A-Za-z0-9_\/]+)?: ./ {
    label[++edits] = $2
    sub(/[,:]$/, "", label[edits])
    place[edits] = $2 ~ /,$/ ? substr($4, 1, length($4) - 1) : ""
    next
}
/^# renames [^ ]+ to [^ ]+$/ && edits && place[edits] != "" { next }
/^file: / { source = substr($0, 7); next }
/^old: / { old = substr($0, 6); next }
/^new:/ {
    pair_of[++pairs] = edits
    pair_source[pairs] = source
    pair_old[pairs] = old
    next
}
/./ { fault("", "no label with its sentence, and no part of an edit: " $0) }
END {
    judge_file()
    print refused + 0 " edits were refused, each for a fact of its own"
    exit faults > 0
}

function fault(name, what) {
    print "crates/" crate "/must-fail/" file ".edit: " (name == "" ? "" : name ": ") substr(what, 1, 300)
    faults++
}

# Judges the file that was read: its labels and places, then what the checks said.
function judge_file(   i, k, own, meant, error, found, named, log_file) {
    split("", own)
    split("", meant)
    split("", named)
    for (k = 1; k <= pairs; k++) {
        i = pair_of[k]
        own[i]++
        if (pair_source[k] ~ /^specs\//) meant[i]++
        if (!i) {
            fault("", "an edit without a label: " pair_old[k])
        } else if (pair_source[k] !~ /^(src|specs)\//) {
            fault(label[i], "an edit of neither src/ nor specs/: " pair_source[k])
        } else if (edits > 1 && place[i] != "") {
            found = place_of(pair_source[k], pair_old[k])
            if (found != place[i]) fault(label[i], "not a part of " place[i] " alone" (found == "" ? "" : ", but of " found) ": " pair_old[k])
        }
    }
    for (i = 1; i <= edits; i++) {
        if (!own[i]) fault(label[i], "there is no edit after the label")
        if ((place[i] == "") != (meant[i] > 0)) fault(label[i], "an edit of src/ alone, and no other, names its function")
        if ((crate, label[i]) in seen) fault(label[i], "the label stands twice, also in " seen[crate, label[i]] ".edit")
        seen[crate, label[i]] = file
        if (place[i] == "" && (edits > 1 || label[i] != file)) fault(label[i], "an edit of specs/ is alone in a file of its name")
        if (place[i] != "" && place[i] in named) fault(label[i], "a second edit of " place[i] " in one file")
        named[place[i]]
        if (place[i] == "" && is_fact(error = gate_error())) {
            refused++
            continue
        }
        if (list != "") {
            print crate, file, label[i] > list
            continue
        }
        log_file = logs "/" crate "." file "." label[i]
        error = place[i] == "" ? crate_error(log_file) : function_error(log_file, place[i])
        if (error == "") refused++
        else fault(label[i], error)
    }
}

# Whether an error of a proof is a fact that fails. It is none where a name is gone or a step has no place.
function is_fact(error) {
    return error ~ /^\.?\/?proofs\/[^ ]*: error: / &&
        error !~ /no occurrence|has no `|has no field|was not admitted|was rejected|not in scope/ || is_open(error)
}

function is_open(error) {
    return error ~ /^note: (\.\/)?src\/[^ ]*: (it is not proved that |`search` found no proof \()/
}

# What the gate told of the file that is judged: the first error of its check.
function gate_error(   line, start, error) {
    start = "rt: must-fail " crate "/" file ".edit: refused, as it must be: "
    while (error == "" && (getline line < gate) > 0) if (index(line, start) == 1) error = substr(line, length(start) + 1)
    close(gate)
    return error
}

# Why a check of the crate shows nothing; or nothing, where its first error is a fact that fails.
function crate_error(log_file,   line, first) {
    while (first == "" && (getline line < log_file) > 0) if (line ~ /: error/ || is_open(line)) first = line
    close(log_file)
    if (is_fact(first)) return ""
    return first == "" ? "nothing was refused in the crate" : "refused in the crate, but for no fact: " first
}

# The same of a function, which was checked alone with the functions that it calls: of its own proof.
function function_error(log_file, function_path,   name, line, own, state, first, first_own, open) {
    name = function_path
    gsub(/\//, "::", name)
    name = "fn " crate "::" name ": "
    own = "proofs/" function_path "/"
    while ((getline line < log_file) > 0) {
        if (index(line, name) == 1) state = substr(line, length(name) + 1)
        if (is_open(line)) {
            open = 1
        } else if (line ~ /: error/) {
            if (first == "") first = line
            if (first_own == "" && index(line, own) && index(line, own) <= 3) first_own = line
        }
    }
    close(log_file)
    if (state == "") return "no check of " function_path (first == "" ? "" : ": " first)
    if (state ~ /^proved/) return "nothing was refused in " function_path
    if (first_own == "" ? open : is_fact(first_own)) return ""
    return "refused in " function_path ", but for no fact: " (first_own == "" ? first : first_own)
}

# The function, by its path in proofs/, in whose body a text of a source file stands; of a constant that
# one function of the crate cites and that no other crate sees, this function; else nothing.
function place_of(path, text,   i) {
    read_source(path)
    for (i = 1; i <= lines && !index(line_of[i], text); i++) {}
    if (i > lines || owner[i] != "" || line_of[i] !~ /^(pub\(crate\) )?const /) return owner[i]
    return cited_by(line_of[i])
}

# The function that alone cites the constant that a line defines, in any file of the crate.
function cited_by(definition,   name, list, file, path, i, found) {
    name = definition
    gsub(/^(pub\(crate\) )?const |:.*$/, "", name)
    list = "ls crates/" crate "/src/*.rt"
    while ((list | getline file) > 0) {
        path = file
        sub(/^crates\/[^\/]*\//, "", path)
        read_source(path)
        for (i = 1; i <= lines; i++) {
            if (line_of[i] == definition || line_of[i] ~ /^use /) continue
            if ((" " line_of[i] " ") !~ ("[^A-Z0-9_]" name "[^A-Z0-9_]")) continue
            if (owner[i] == "" || (found != "" && found != owner[i])) found = "no function alone"
            else found = owner[i]
        }
    }
    close(list)
    return found
}

# The lines of a source file, and of each the function in whose body it stands.
function read_source(path,   module, type, name, body, line, word) {
    module = path
    gsub(/^src\/|\.rt$/, "", module)
    module = module == "lib" ? "" : module "/"
    path = "crates/" crate "/" path
    split("", line_of)
    split("", owner)
    lines = 0
    while ((getline line < path) > 0) {
        line_of[++lines] = line
        if (line ~ /^impl /) {
            split(line, word, " ")
            type = word[2] "/"
        } else if (match(line, /^ *(pub(\([a-z]+\))? )?(extern "C" )?fn [a-z0-9_]+/)) {
            name = substr(line, 1, RLENGTH)
            sub(/.* /, "", name)
            name = module type name
            body = 0
        }
        owner[lines] = body ? name : ""
        if (line ~ /^ *\{$|\) (-> .*)?\{$/) body = 1
        if (line ~ /^\}/) type = body = ""
    }
    close(path)
}
