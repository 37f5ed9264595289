# Every name in backticks in the documents is defined in the tree. The paths of all files come on
# standard input:
#
#     find .. | awk -f .ci/names.awk - docs/TRACE.md docs/EXCLUSIONS.md docs/DECISIONS.md docs/READING.md
#
# A name is a module, a definition, a record's field or a constructor of .antt files, an item, a field or a
# case of Rattle or Rust, a function of .ci/run, the label of a must-fail edit, a vector of the field rules, a program, a file or a
# folder. A qualified name is one of the module, type or crate that it gives. Of an expression each word
# is looked for; a single letter is a variable or a kind of vector. Blocks between fences are passed over.

BEGIN {
    # fragments of code
    exempt("&[u8]|[b' '; 120]|&flow[120 * i..120 * i + 120]|calls : List Call|requires|&flow[a..e]|&mut rec[..]")
    exempt("present(rec, 20, 39)|present(rec, 21, 39)|pub use module::name|unsafe|return|specs/")
    # signs of the statements
    exempt("×|⊎|¬|↔|P → Q|(x : A) → P|(x : A) × P|∷|++|cond b x y|r.name|result|rec.now|out.old|out.new|ℕ")
    # words of a command line, and what programs print
    exempt("--find|--help|cargo test|too long for this program|reads|refused 1 record 0 position 0|rt|rt must-fail|rt ci")
    exempt("rt must-fail records|rt check|bash .ci/run|450|450,00|450.00|1.450,00|450,5|1.234,50")
    # of the operating system
    exempt("flock")
    # patterns, each for several tests, files or definitions
    exempt(".rs|NAME.before|.before|.list|.._killed_before_any_call|any_call_of_.._failing|x_verdict|XDetermined")
}

FILENAME == "-" {
    n = split($0, part, "/")
    for (i = 1; i <= n; i++) {
        path = part[i]
        defined[path]
        for (k = i + 1; k <= n; k++) defined[path = path "/" part[k]]
    }
    crate = part[2]
    module = part[n]
    sub(/\..*/, "", module)
    if (/\.antt$/) read_antt($0)
    if (/\.(rt|rs)$/) read_items($0)
    if (/\.edit$/) read_lines($0, "^# [a-z0-9_]+[,:]", crate "/")
    if (/^\.ci\/run$/) read_lines($0, "^[a-z_]+[(]", "")
    if (/Cargo\.toml$/) read_lines($0, "^name = \"[a-z]+\"", "")
    if (/^crates\/fields_vectors\/stdin$/) read_lines($0, "^.*$", "")
    next
}

/^```/ { fenced = !fenced; next }
!fenced {
    n = split($0, part, "`")
    for (i = 2; i <= n; i += 2) {
        if (part[i] in defined) continue
        words = split(part[i], word, " ")
        for (k = 1; k <= words; k++) {
            if (word[k] in defined || word[k] ~ /^([a-z]|≡)$/) continue
            print FILENAME ":" FNR ": `" part[i] "`: " word[k] " is defined nowhere"
            faults++
        }
    }
    checked += int(n / 2)
    if (n && n % 2 == 0) {
        print FILENAME ":" FNR ": a backtick without its other one on the line"
        faults++
    }
}

END { exit faults > 0 || !checked }

function exempt(texts,   text, i) {
    split(texts, text, "|")
    for (i in text) defined[text[i]]
}

function read_antt(file,   line, data) {
    defined[module]
    while ((getline line < file) > 0) {
        if (line ~ /^[^ ]/) data = line ~ /^(pub )?data /
        if (match(line, /^(abbrev |unfoldable )?(pub )?(record |data )?[^ ]+ [:({]/) ||
            match(line, /^  pub [^ ]+ :/) ||
            (data && match(line, /^  [^ ]+ :/))) define(line, module ".")
    }
    close(file)
}

function read_items(file,   line, type, word) {
    while ((getline line < file) > 0) {
        if (line ~ /^}/) type = ""
        if (line ~ /^impl /) {
            split(line, word, " ")
            type = word[2]
        }
        if (match(line, /^ *(pub(\([a-z]+\))? )?(extern "C" )?(fn|struct|enum|const|mod|type|static) [A-Za-z0-9_]+/)) {
            define(line, (type == "" ? crate : type) "::")
        } else if (type != "" && match(line, /^    (pub(\([a-z]+\))? )?[A-Za-z0-9_]+( \{|[,:(])/)) {
            define(line, type "::")
        }
        if (line ~ /^(pub(\([a-z]+\))? )?(struct|enum) [A-Za-z0-9_]+(<.*>)? \{$/) {
            split(line, word, /(struct|enum) /)
            type = word[2]
            sub(/[^A-Za-z0-9_].*/, "", type)
        }
    }
    close(file)
}

function read_lines(file, shape, qualifier,   line) {
    while ((getline line < file) > 0) if (match(line, shape)) define(line, qualifier)
    close(file)
}

# Defines the last word of what was matched, alone and with what qualifies it.
function define(line, qualifier,   name) {
    name = substr(line, 1, RLENGTH)
    gsub(/["(]/, "", name)
    sub(/[ ,:({]+$/, "", name)
    sub(/.* /, "", name)
    defined[name]
    defined[qualifier name]
}
