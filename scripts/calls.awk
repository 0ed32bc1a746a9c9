# The public calls of a crate whose result names one of the given types, as `crate::Type::function`. scripts/allocations runs it over
# the crate's root and then over all of its files, which stand in the layout of `rt fmt`.

function name_of(line) {
    match(line, /fn [A-Za-z0-9_]+/)
    return substr(line, RSTART + 3, RLENGTH - 3)
}

function word_of(text) {
    match(text, /^[A-Za-z0-9_]+/)
    return substr(text, 1, RLENGTH)
}

# The name of the type that an impl is of, or nothing where it is of a trait.
function type_of(line,    place, depth, letter) {
    if (line ~ / for /) return ""
    sub(/^ *impl */, "", line)
    for (place = 1; place <= length(line); place++) {
        letter = substr(line, place, 1)
        if (letter == "<") depth++
        if (letter == ">" && substr(line, place - 1, 1) != "-") depth--
        if (depth == 0 && letter != ">" && letter != " ") break
    }
    return word_of(substr(line, place))
}

function names_one(text,    part, count, i) {
    count = split(text, part, /[^A-Za-z0-9_]+/)
    for (i = 1; i <= count; i++)
        if (part[i] in faults) return 1
    return 0
}

# Prints the call where what stands behind the arrow names one of the types.
function tell(text,    name) {
    name = name_of(text)
    if (sub(/.*->/, "", text) && names_one(text)) print crate "::" (holder == "" ? "" : holder "::") name
}

function bring_out(text,    part, count, i) {
    count = split(text, part, /[^A-Za-z0-9_]+/)
    for (i = 1; i <= count; i++) public[part[i]] = 1
}

BEGIN {
    count = split(types, part, " ")
    for (i = 1; i <= count; i++) faults[part[i]] = 1
}

FNR == 1 { files++; holder = header = signature = ""; is_trait = 0 }

# The root, with what it brings out.
files == 1 && /^pub use / { brings = 1 }
files == 1 && brings { bring_out($0); brings = !/;/ }
files == 1 && /^pub (struct|enum|trait) / { public[word_of($3)] = 1 }
files == 1 && /^pub (const |unsafe )*fn / { public[name_of($0)] = 1 }

# What a function stands in.
/^impl/ { header = " " }
header != "" { header = header " " $0 }
header != "" && /[{}]$/ { holder = type_of(header); header = ""; is_trait = 0 }
/^pub trait / { holder = word_of($3); is_trait = 1 }
/^}/ || /^impl.*}$/ { holder = ""; is_trait = 0 }

# A signature ends where its clauses or its body begin.
/^pub (const |unsafe )*fn / && name_of($0) in public { signature = " " }
holder != "" && holder in public && (/^    pub (const |unsafe )*fn / || is_trait && /^    (unsafe )*fn /) { signature = " " }
signature != "" && /^ *(requires|ensures|ghost) / { tell(signature); signature = "" }
signature != "" { signature = signature " " $0 }
signature != "" && /[{;]$/ { tell(signature); signature = "" }
