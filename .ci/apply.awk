# Makes one edit of a must-fail file in a copy of its crate: old texts, each standing once, become new ones.
#
#     awk -v label=LABEL -v folder=COPY -f .ci/apply.awk crates/CRATE/must-fail/FILE.edit
#
# A line `# renames OLD to NEW` before the pairs has the proof of the function follow: goals and facts are named
# by the conditions of the code. It prints `CRATE::FUNCTION` of an edit of a function, and else nothing.

/^# [a-z0-9_]+(, in [A-Za-z0-9_\/]+)?: ./ {
    name = $2
    sub(/[,:]$/, "", name)
    chosen = name == label
    if (chosen && $2 ~ /,$/) {
        path = substr($4, 1, length($4) - 1)
        split(FILENAME, part, "/")
        name = path
        gsub(/\//, "::", name)
        print part[2] "::" name
    }
    next
}
chosen && /^# renames [^ ]+ to [^ ]+$/ { follow($3, $5); next }
/^file: / { source = folder "/" substr($0, 7); next }
/^old: / { old = substr($0, 6); next }
chosen && /^new:/ {
    text = content(source)
    at = index(text, old)
    if (!at || index(substr(text, at + 1), old)) fail("not once in " source ": " old)
    put(source, substr(text, 1, at - 1) substr($0, 6) substr(text, at + length(old)))
    made++
}
END { if (!made) fail("no edit of this label: " label) }

function fail(what) {
    print FILENAME ": " what > "/dev/stderr"
    made = 1
    exit 1
}

# The function's proof with another name throughout.
function follow(was, is,   list, file, text, done, at) {
    list = "ls " folder "/proofs/" path "/*.antt"
    while ((list | getline file) > 0) {
        text = content(file)
        for (done = ""; (at = index(text, was)); text = substr(text, at + length(was))) done = done substr(text, 1, at - 1) is
        put(file, done text)
    }
    close(list)
}

function content(file,   line, text) {
    while ((getline line < file) > 0) text = text line "\n"
    close(file)
    return text
}

function put(file, text) {
    ORS = ""
    print text > file
    ORS = "\n"
    close(file)
}
