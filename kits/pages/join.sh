# Puts the texts that a page includes in place of the lines that include them. `odin_lay` has laid the parts out by their labels.
set -u
export LC_ALL=C
# What can't be written, and what was killed from outside, is no outcome.
lost() {
    true > no-outcome || kill -KILL $$
    exit 2
}
true > warnings || lost
page=$(sed -n 's/^part 0 i1 //p' call) && [ -n "$page" ] || lost
awk -v page="$page" '
function put(name, depth,    folder, line, lines) {
    if (busy[name] || depth > 20) {
        print page ": " name " includes itself" > "warnings"
        exit failed = 3
    }
    busy[name] = 1
    folder = name
    if (!sub(/[^\/]*$/, "", folder)) folder = ""
    lines = 0
    while ((getline line < name) > 0) {
        lines++
        if (line ~ /^\{\{include [^\/}][^}]*\}\}$/) put(folder substr(line, 11, length(line) - 12), depth + 1)
        else print line
    }
    if (lines == 0) {
        print page ": nothing to include in " name > "warnings"
        exit failed = 3
    }
    close(name)
    busy[name] = 0
}
BEGIN {
    put(page, 0)
    exit failed
}' > out.whole
# A fault of the page ends with 3, and a disk that is full with 2.
case $? in
0) exit 0 ;;
3)
    [ -s warnings ] || lost
    exit 2
    ;;
esac
lost
