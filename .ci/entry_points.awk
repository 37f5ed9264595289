# The record `EntryPoints` has the statement of every public function of the library, and of no other:
#
#     awk -f .ci/entry_points.awk crates.txt crates/claims/specs/EntryPoints.antt $(find crates/*/src -name '*.rt')
#
# The library is what `claims` and `capi` rest on, by crates.txt, and whatever `EntryPoints` cites. Public is
# what a crate's lib.rt has or exports by `pub use`, the methods of such a type, and what is exported to C.
# A statement and a `requires` are cited by their `use` lines, of one function, and stand in the field of their
# name: `pub NAME : EntryPoint NAME-statement NAME-requires`.

FNR == 1 {
    type = name = in_record = exporting = ""
    if (split(FILENAME, part, "/src/") == 2) {
        crate = part[1]
        sub(/.*\//, "", crate)
        module = part[2]
        sub(/\.rt$/, "", module)
        gsub(/\//, "::", module)
    }
}

FILENAME == "crates.txt" {
    if (/^[a-z]/) {
        split($0, part, ":")
        sub(/ .*/, "", part[1])
        rests_on[part[1]] = part[2]
    }
    next
}

# use Rattle.CRATE.proofs.PATH.Statement.{statement as NAME-statement}, and of Reads `requires` likewise; a
# method's PATH is MODULE.TYPE.METHOD
/^use Rattle\.[a-z_]+\.proofs\..*\.(Statement\.\{statement as [^ ,}]*-statement|Reads\.\{requires as [^ ,}]*-requires)\}$/ {
    n = split($0, part, ".")
    cited = part[2] "::" (part[n - 3] ~ /^[A-Z]/ ? part[n - 3] "::" : "") part[n - 2]
    field = $4
    sub(/-(statement|requires)}$/, "", field)
    if (part[n - 1] == "Reads") {
        asked[field] = cited
    } else {
        statement[cited] = field
        stated[field] = cited
    }
    next
}
/^pub record / { in_record = $3 == "EntryPoints" }
/^[a-z]/ && !/^pub record / { in_record = 0 }
in_record && /^  [^ -]/ {
    has_field[$2]
    if ($0 == "  pub " $2 " : EntryPoint " $2 "-statement " $2 "-requires") speaks[$2]
}
FILENAME ~ /\.antt$/ { next }

# pub use MODULE::NAME; or pub use MODULE::{NAME, ..}; over one line or several
exporting { exporting = exporting " " $0 }
/^pub (use|mod) / && module == "lib" { exporting = $0 }
exporting && /;$/ {
    if (exporting !~ /^pub use [a-z_]+::([A-Za-z0-9_]+|\{[A-Za-z0-9_, ]+\});$/) unread[crate] = exporting
    split(exporting, part, /[ :{},;]+/)
    for (n = 4; part[n] != ""; n++) {
        exports[crate "::" part[3] "::" part[n]] = crate
        exports_type[crate "::" part[n] "::"]
    }
    exporting = ""
}
/^impl / { type = $2 "::" }
/^}/ { type = "" }
/^pub (struct|enum|const|type) / {
    name = $3
    sub(/[^A-Za-z0-9_].*/, "", name)
    at[crate "::" module "::" name]
    if (module == "lib") exports_type[crate "::" name "::"]
}
match($0, /^ *pub ([a-z]+ )*(extern "C" )?fn [a-z0-9_]+/) {
    name = substr($0, 1, RLENGTH)
    to_c = name ~ /extern/
    sub(/.* /, "", name)
    name = crate "::" type name
    crate_of[name] = crate
    # shown by itself, by its module's name in lib.rt, or by its type's
    if (to_c || (type == "" && module == "lib")) is_public[name]
    else if (type == "") at[crate "::" module substr(name, length(crate) + 1)] = name
    else method_of[name] = crate "::" type
}

END {
    library("claims")
    library("capi")
    for (name in statement) in_library[crate_of[name]]
    for (path in exports) {
        if (path in at) { if (at[path] != "") is_public[at[path]] }
        else if (exports[path] in in_library) fault(path " is exported, and no item of that module")
    }
    for (name in method_of) if (method_of[name] in exports_type) is_public[name]

    for (crate in in_library) if (crate in unread) fault(crate "/src/lib.rt exports by more than a name: " unread[crate])
    for (name in is_public) {
        if (!(crate_of[name] in in_library)) continue
        count++
        if (!(name in statement)) fault(name " is public, and no statement of it is cited")
    }
    for (name in statement) {
        if (!(name in is_public)) fault("the statement of " name " is cited, which is no public function of the library")
        if (asked[statement[name]] != name) fault("the requires of " name " is not cited beside its statement")
        if (!(statement[name] in speaks)) fault("no field " statement[name] " has the statement and the requires of " name)
    }
    for (name in has_field) if (!(name in stated)) fault("the field " name " has no statement of a function of its name")
    print count + 0 " public functions, " faults + 0 " differences with EntryPoints"
    exit faults > 0 || !count
}

function library(crate,   needs, n) {
    if (!(crate in rests_on) || crate in in_library) return
    in_library[crate]
    n = split(rests_on[crate], needs, " ")
    for (; n; n--) library(needs[n])
}

function fault(what) {
    print "EntryPoints: " what
    faults++
}
