# Writes the names of the files that a text includes, one a line. A name is looked for in the folder of the text.
set -u
# What can't be written, and what was killed from outside, is no outcome.
lost() {
    true > no-outcome || kill -KILL $$
    exit 2
}
label=$(sed -n 's/^part 0 i1 //p' call) && [ -n "$label" ] || lost
true > warnings || lost
awk -v path="${label%%:*}" '
# a name without `.` and `..`, or nothing where it leads out of the site
function plain(name,    count, i, words, depth, kept, whole) {
    count = split(name, words, "/")
    depth = 0
    for (i = 1; i <= count; i++) {
        if (words[i] == "" || words[i] == ".") continue
        if (words[i] != "..") kept[++depth] = words[i]
        else if (depth-- == 0) return ""
    }
    whole = kept[1]
    for (i = 2; i <= depth; i++) whole = whole "/" kept[i]
    return whole
}
BEGIN {
    own = path
    if (!sub(/[^\/]*$/, "", own)) own = ""
}
/^\{\{include [^\/}][^}]*\}\}$/ {
    name = plain(own substr($0, 11, length($0) - 12))
    if (name != "") print name
}' i1 > out.page_inc || lost
