# Reads the source of the exported functions, then the header, and of the folder
# "crates" the files that have the structures which that source takes from them by
# `use CRATE::MODULE::NAME;`, or a list of names in braces. It writes to the folder
# "room":
#
#     both.c    the header, and after it what is exported, said in C, so that a
#               compiler compares the two
#     exported  the names of the exported functions
#     declared  the names of the header's functions
#     count     how many there are
#
# It compares the text of the functions' declarations itself, since a compiler
# takes no notice of the parameters' names, nor of types that are the same on one
# machine. Whatever it does not understand counts as a difference.

function fail(what) { print "exports: " what; bad = 1 }
function trim(s) { gsub(/^ +| +$/, "", s); return s }

# the word that a text ends in
function last_word(s) { gsub(/ +$/, "", s); sub(/^.*[^A-Za-z0-9_]/, "", s); return s }

# a declaration in one spelling
function tidy(s)
{
    gsub(/[ \t]+/, " ", s)
    gsub(/ *\* */, " *", s)
    gsub(/ *\( */, "(", s)
    gsub(/ *\) */, ")", s)
    gsub(/ *, */, ", ", s)
    return trim(s)
}

# an exported parameter in C: a slice is a pointer and a length
function parameter(name, type)
{
    if (type == "&[u8]") return "const uint8_t *" name ", size_t " name "_len"
    if (type == "&mut [u8]") return "uint8_t *" name ", size_t " name "_len"
    if (type == "u64") return "uint64_t " name
    fail("the parameter " name ": " type " stands for no C type")
    return "void *" name
}

# the length of a field that is an array, 0 for one number
function array_length(name, type)
{
    if (type == "u64") return 0
    if (type ~ /^\[u64; *[0-9]+\]$/) {
        sub(/^.*; */, "", type)
        return type + 0
    }
    fail("the field " name ": " type " stands for no C type")
    return 0
}

# the field's name in C
function field_name(name) { return name == "recordnumber" ? "record" : name }

# a line of Rattle without its comment, to be joined with others
function line_of(s) { sub(/\/\/.*/, "", s); return " " s }

FNR == 1 { file++ }
file == 1 { source = source line_of($0) }
file == 1 && /^use [a-z0-9_]+::[a-z0-9_]+::[A-Za-z0-9_]+;/ { split($2, path, /::|;/); used[path[3]] = crates "/" path[1] "/src/" path[2] ".rt" }
file == 1 && /^use [a-z0-9_]+::[a-z0-9_]+::\{[A-Za-z0-9_, ]+\};/ {
    split($2, path, /::/)
    names = $0
    gsub(/^.*\{|\}.*$/, "", names)
    n = split(names, name, /, */)
    for (i = 1; i <= n; i++) used[name[i]] = crates "/" path[1] "/src/" path[2] ".rt"
}
file == 2 && !/^[ \t]*#/ { header = header " " $0 }

# The structures of a source, or the one of this name alone.
function read_structures(rest, only,    i, body, name)
{
    while (i = index(rest, "#[repr(C)]")) {
        rest = substr(rest, i + 10)
        sub(/^ *#\[derive\([A-Za-z, ]*\)\]/, "", rest)
        if (!match(rest, /^ *pub struct [A-Za-z0-9_]+ *\{[^}]*\}/)) {
            fail("a structure is not understood:" substr(rest, 1, 60))
            continue
        }
        body = substr(rest, 1, RLENGTH - 1)
        i = index(body, "{")
        name = last_word(substr(body, 1, i - 1))
        if (only != "" && name != only)
            continue
        structure[++structures] = name
        fields[name] = substr(body, i + 1)
    }
}

# Results that the source itself does not have stand where it takes them from.
function find_structures(    i, name, line, text)
{
    for (i = 1; i <= exports; i++) {
        name = result[exported[i]]
        if (name == "()" || name == "u64" || name in fields)
            continue
        text = ""
        while (name in used && (getline line <used[name]) > 0)
            text = text line_of(line)
        if (name in used)
            close(used[name]) # another structure may stand in the same file
        read_structures(text, name)
        if (!(name in fields))
            fail(exported[i] ": its result " name " is no structure with #[repr(C)] of " (name in used ? used[name] : "the source, nor taken from a crate"))
    }
}

function read_functions(    rest, i, k, n, text, name, part, colon, list)
{
    for (rest = source; i = index(rest, "#[unsafe(no_mangle)]");) {
        rest = substr(rest, i + 20)
        if (!match(rest, /^ *pub extern "C" fn [A-Za-z0-9_]+ *\([^)]*\)/)) {
            fail("a function is not understood:" substr(rest, 1, 60))
            continue
        }
        text = substr(rest, 1, RLENGTH - 1)
        rest = substr(rest, RLENGTH + 1)
        i = index(text, "(")
        name = exported[++exports] = last_word(substr(text, 1, i - 1))
        result[name] = match(rest, /^ *-> *[A-Za-z0-9_]+/) ? last_word(substr(rest, 1, RLENGTH)) : "()"
        n = split(substr(text, i + 1), part, ",")
        list = ""
        for (k = 1; k <= n; k++)
            if (colon = index(part[k], ":"))
                list = list (list ? ", " : "") parameter(trim(substr(part[k], 1, colon - 1)), trim(substr(part[k], colon + 1)))
            else if (trim(part[k]) != "")
                fail(name ": a parameter is not understood: " part[k])
        parameters[name] = list ? list : "void"
    }
    rest = source
    if (gsub(/extern "C"/, "", rest) != exports)
        fail("a function with extern \"C\" is not marked #[unsafe(no_mangle)]")
}

# Takes the functions out of the header that it defines itself; what they name is kept.
function cut_inline(    i, end, depth, letter)
{
    while (i = index(header, "static inline ")) {
        depth = 0
        for (end = i; end <= length(header); end++) {
            letter = substr(header, end, 1)
            if (letter == "{")
                depth++
            else if (letter == "}" && --depth == 0)
                break
        }
        defined_here = defined_here " " substr(header, i, end - i + 1)
        header = substr(header, 1, i - 1) substr(header, end + 1)
    }
}

function read_header(    i, end, n, part, text, name)
{
    while (i = index(header, "/*")) {
        end = index(substr(header, i + 2), "*/")
        header = substr(header, 1, i - 1) " " (end ? substr(header, i + end + 3) : "")
    }
    sub(/extern "C" *\{/, "", header)
    cut_inline()
    gsub(/enum *\{[^}]*\} *;/, "", header) # numbers by name, which tests/host/header.c holds to the answers
    while (match(header, /typedef struct *[A-Za-z0-9_]* *\{[^}]*\} *[A-Za-z0-9_]+ *;/)) {
        text = substr(header, RSTART, RLENGTH - 1)
        header = substr(header, 1, RSTART - 1) substr(header, RSTART + RLENGTH)
        in_header[last_word(text)] = 1
    }
    n = split(header, part, ";")
    for (i = 1; i <= n; i++) {
        text = tidy(part[i])
        if (text == "" || text == "}")
            continue
        if (text !~ /^[A-Za-z_][A-Za-z0-9_ *]*\([^()]*\)$/) {
            fail("the header has something that is not understood: " text)
            continue
        }
        name = declared[++declarations] = last_word(substr(text, 1, index(text, "(") - 1))
        declaration[name] = text
        sub(/\(.*/, "", text)
        declared_result[name] = trim(substr(text, 1, length(text) - length(name)))
    }
}

# An exported structure is the header's that the same function returns.
function pair_structures(    i, name, r, c)
{
    in_c["()"] = "void"
    in_c["u64"] = "uint64_t"
    for (i = 1; i <= exports; i++) {
        name = exported[i]
        r = result[name]
        c = declared_result[name]
        if (!(name in declaration) || r == "()" || r == "u64")
            continue
        if (!(r in fields) || !(c in in_header))
            fail(name ": its results " r " and " c " are not both structures")
        else if ((r in in_c && in_c[r] != c) || (c in pair && pair[c] != r))
            fail(name ": its result is " r " and " c ", of which one is another's pair")
        in_c[r] = c
        pair[c] = r
    }
    for (c in in_header)
        if (!(c in pair) && !match(defined_here, c " *\\*"))
            fail(c " is in the header, and neither an exported function nor one of its own has it")
}

function write_structure(name,    c, n, part, i, colon, field, many, place)
{
    if (!(name in in_c)) {
        fail(name " is exported, and no function of the header returns it")
        return
    }
    c = in_c[name]
    n = split(fields[name], part, ",")
    place = 0
    for (i = 1; i <= n; i++) {
        part[i] = trim(part[i])
        colon = index(part[i], ":")
        if (part[i] == "")
            continue
        if (part[i] !~ /^pub [a-z0-9_]+ *:/) {
            fail(name ": a field is not understood: " part[i])
            continue
        }
        field = field_name(trim(substr(part[i], 5, colon - 5)))
        many = array_length(field, trim(substr(part[i], colon + 1)))
        print "_Static_assert(offsetof(" c ", " field ") == " place ", \"place of " field " in " c "\");" >both
        print "_Static_assert(_Generic(&((" c " *)0)->" field ", uint64_t " (many ? "(*)[" many "]" : "*") ": 1, default: 0), \"type of " field " in " c "\");" >both
        place += 8 * (many ? many : 1)
    }
    print "_Static_assert(sizeof(" c ") == " place ", \"size of " c "\");" >both
}

function write_function(name,    text)
{
    if (!(name in declaration) || !(result[name] in in_c))
        return
    text = tidy(in_c[result[name]] " " name "(" parameters[name] ")")
    print text ";" >both
    if (text != declaration[name])
        fail(name " is exported as\n  " text "\nand the header has\n  " declaration[name])
}

END {
    both = room "/both.c"
    read_structures(source)
    read_functions()
    find_structures()
    read_header()
    pair_structures()
    print "#include \"ws2s.h\"" >both
    for (i = 1; i <= structures; i++)
        write_structure(structure[i])
    for (i = 1; i <= exports; i++) {
        write_function(exported[i])
        print exported[i] >(room "/exported")
    }
    for (i = 1; i <= declarations; i++)
        print declared[i] >(room "/declared")
    print exports " functions and " structures " structures" >(room "/count")
    if (!exports || !structures)
        fail("no function or no structure is exported")
    exit bad
}
