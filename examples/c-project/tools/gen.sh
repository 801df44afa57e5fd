# Makes C of a table of names with numbers, one of each a line.
#   sh gen.sh                 as a tool: the unit of the table in part 0
#   sh gen.sh header NAME     the header of the table NAME, from standard input to standard output
# The table `colours` gives the enum `colour` with `COLOUR_red`, and the functions `find_colour` and `colour_code`.
set -u
if [ $# -eq 2 ]; then
    awk -v item="${2%s}" '
        { names = names "    " toupper(item) "_" $1 ",\n" }
        END {
            guard = toupper(item) "_GENERATED_H"
            printf "#ifndef %s\n#define %s\n\nenum %s {\n%s};\n\n", guard, guard, item, names
            printf "/* Finds a name. Gives 0, or 1 where there is none. */\n"
            printf "int find_%s(const char *name, enum %s *found);\n\n", item, item
            printf "/* The number of a name. */\nint %s_code(enum %s %s);\n\n#endif\n", item, item, item
        }'
    exit
fi
# What can't be written is no outcome.
lost() {
    true > no-outcome
    exit 2
}
true > warnings || lost
label=$(sed -n 's/^part 0 i1 //p' call)
name=${label##*/}
name=${name%.def}
awk -v name="$name" -v item="${name%s}" '
    $2 !~ /^[0-9]+$/ || NF != 2 { print "line " NR ": no name with a number: " $0 > "warnings"; bad = 1 }
    { names = names "    \"" $1 "\",\n"; codes = codes "    " $2 ",\n" }
    END {
        if (bad) exit 3
        printf "#include <string.h>\n\n#include \"%s.h\"\n\n", name
        printf "static const char *const names[] = {\n%s};\n\nstatic const int codes[] = {\n%s};\n\n", names, codes
        printf "int find_%s(const char *name, enum %s *found)\n{\n", item, item
        printf "    for (unsigned i = 0; i < sizeof names / sizeof *names; i++) {\n"
        printf "        if (strcmp(name, names[i]) == 0) {\n            *found = (enum %s)i;\n            return 0;\n        }\n    }\n", item
        printf "    return 1;\n}\n\nint %s_code(enum %s %s)\n{\n    return codes[%s];\n}\n", item, item, item, item
    }' i1 > out.c
# A fault of the table ends with 3, and a disk that is full with 2.
case $? in
0) exit 0 ;;
3) exit 2 ;;
esac
lost
