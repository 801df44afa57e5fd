# Writes the files that a unit is compiled with, one a line: of the names that it reaches those that are there, which the file `call` tells. A header
# that isn't there is made of the first table of its name that is there, by the ends of names in i3. The table itself isn't told then, so that a table
# with another text and the same header compiles nothing.
BEGIN {
    printf "" > "warnings"
    while ((getline line < "i3") > 0) if (line != "") end[++ends] = line
}
# the slot of the reached names is the one after those of the unit, of this file and of the ends
$1 == "part" && $2 == 3 {
    name[++count] = $4
    there[$4] = $3 != "-"
}
END {
    for (i = 1; i <= count; i++) {
        table = name[i]
        if (there[table] || !sub(/\.h$/, "", table)) continue
        for (k = 1; k <= ends && !there[table end[k]]; k++);
        if (k <= ends) made[table end[k]] = 1
    }
    for (i = 1; i <= count; i++) if (there[name[i]]) print name[i] (name[i] in made ? ":made_header" : "")
}
