# Writes the names of the files that a file may include, one a line. A quoted name is looked for in the file's own folder, and each name in
# each folder of `folders`; a quoted header may also be generated from a table of its name. Names that are no sources are told too: Odin
# takes note of them, and once there is such a source, what includes it is made anew.
folders=include
label=$(sed -n 's/^part 0 i1 //p' call)
# What can't be written is no outcome.
lost() {
    true > no-outcome
    exit 2
}
true > warnings || lost
awk -v path="${label%%:*}" -v folders="$folders" '
# a name without `.` and `..`, or nothing where it leads out of the project
function plain(name,    count, i, words, depth, kept, whole) {
    count = split(name, words, "/")
    depth = 0
    for (i = 1; i <= count; i++) {
        if (words[i] == "" || words[i] == ".") continue
        if (words[i] != "..") kept[++depth] = words[i]
        else if (depth-- == 0) return ""
    }
    whole = kept[1]
    for (i = 2; i <= depth; i++) whole = whole "/" kept[i]
    return whole
}
function tell(name, quoted) {
    name = plain(name)
    if (name == "") return
    print name
    if (quoted && sub(/\.h$/, ".def", name)) print name
}
BEGIN {
    own = path
    if (!sub(/[^\/]*$/, "", own)) own = ""
    places = split(folders, place, " ")
}
/^[ \t]*#[ \t]*include[ \t]*["<][^">\/]/ {
    name = $0
    sub(/^[^"<]*["<]/, "", name)
    sub(/[">].*$/, "", name)
    quoted = $0 ~ /include[ \t]*"/
    if (quoted) tell(own name, 1)
    for (i = 1; i <= places; i++) tell(place[i] "/" name, quoted)
}' i1 > out.inc || lost
