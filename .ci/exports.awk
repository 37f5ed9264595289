# The crate `capi_c` exports each public function of `capi` under its name, and no other, with the same parameters and
# clauses, whose names mean the same there, and only calls it:
#
#     awk -f .ci/exports.awk crates/capi/src/lib.rt crates/capi_c/src/lib.rt

FNR == 1 { crate = FILENAME ~ /capi_c/ ? "capi_c" : "capi" }
/^ghost use / {
    n = split($0, part, /[{}, ;]+/)
    for (i = 4; i < n; i++) meaning[crate, part[i]] = part[3]
    for (i = 4; i < n; i++) if (crate == "capi_c" && meaning["capi", part[i]] != part[3]) fault("another meaning of " part[i])
}
/^#\[unsafe\(no_mangle\)\]$/ { exported = FNR + 1 }
/^pub (extern "C" )?fn / {
    name = $0
    sub(/\(.*/, "", name)
    sub(/.* /, "", name)
    if (crate == "capi_c" && (FNR != exported || !/^pub extern "C" fn /)) fault(name " is not exported to C")
    sub(/extern "C" /, "")
    text = ""
}
name != "" && /^\{$/ {
    head[crate, name] = text
    if (crate == "capi") functions[name]
    else exports[name]
    text = ""
    next
}
name != "" && /^\}$/ {
    body[crate, name] = text
    name = ""
}
name != "" { text = text $0 "\n" }

END {
    for (name in functions) if (!(name in exports)) fault(name " is not exported")
    for (name in exports) {
        count++
        if (head["capi_c", name] != head["capi", name]) fault(name " has other parameters or clauses in capi")
        if (body["capi_c", name] != "    capi::" name "(" arguments(head["capi_c", name]) ")\n") fault(name " is more than a call of capi::" name)
    }
    print count + 0 " functions are exported, " faults + 0 " differences with capi"
    exit faults > 0 || !count
}

# The names of the parameters, as a call has them.
function arguments(text,   list, names) {
    list = substr(text, index(text, "(") + 1)
    sub(/\) -> .*/, "", list)
    gsub(/\n/, " ", list)
    while (match(list, /[a-z_]+: /)) {
        names = names (names == "" ? "" : ", ") substr(list, RSTART, RLENGTH - 2)
        list = substr(list, RSTART + RLENGTH)
    }
    return names
}

function fault(what) {
    print "capi_c: " what
    faults++
}
