# Compiles the unit, which is the part of slot 0, to out.o. `odin_lay` has laid all parts out by their labels, so the unit finds what it includes.
#   sh compile.sh            for the kit `c`
#   sh compile.sh made       for the kit `tables`: a header that was made of `x.def` stands at `x.def:made_header`, and is included as `x.h`
# A fault that leaves no object ends with 2, so that the messages come alone.
set -u
# Messages don't follow the language of who runs it.
export LC_ALL=C
# What the environment would add to the folders and programs of the compiler is in no key.
unset CPATH C_INCLUDE_PATH CPLUS_INCLUDE_PATH OBJC_INCLUDE_PATH LIBRARY_PATH GCC_EXEC_PREFIX COMPILER_PATH DEPENDENCIES_OUTPUT SUNPRO_DEPENDENCIES
unset GCC_COMPARE_DEBUG GCC_EXTRA_DIAGNOSTIC_OUTPUT LD_RUN_PATH LDEMULATION GNUTARGET
# What can't be written, and what failed by itself, is no outcome.
lost() {
    true > no-outcome || kill -KILL $$
    exit 2
}
newline='
'
# the value of the parameter, where there is one, and then the unit: each program that is run here takes a millisecond
facts=$(sed -n -e 's/^param debug /-g/p' -e 's/^part 0 i1 //p' call) || lost
unit=${facts##*"$newline"}
[ -n "$unit" ] || lost
debug=${facts%"$unit"}
debug=${debug%"$newline"}
case $debug in
'' | -g | -g[0-3]) ;;
*)
    echo "debug is 0 to 3 or without a value, and not ${debug#-g}" > warnings || lost
    exit 2
    ;;
esac
case ${unit%%:*} in
*.cc | *.cpp | *.cxx) compiler=g++ language=c++ own=kits/c/cxx_flags ;;
*) compiler=gcc language=c own=kits/c/c_flags ;;
esac
[ $# -eq 0 ] || sed -n 's/^part [0-9]* i[0-9]* \(.*\):made_header$/\1/p' call | while read -r table; do
    mv "./$table:made_header" "./${table%.*}.h" || exit 2
done || lost
set --
while IFS= read -r folder; do
    [ -z "$folder" ] || set -- "$@" -I "$folder"
done < kits/c/include
flags=
for file in kits/c/flags "$own"; do
    while IFS= read -r line || [ -n "$line" ]; do
        flags="$flags $line"
    done < "$file" || lost
done
# The words of the flags stand in lines and between blanks; no pattern of names is meant.
set -f
set -- -x "$language" $flags $debug "$@" -ffile-prefix-map="$PWD"=. -fdiagnostics-plain-output -fdiagnostics-column-unit=byte

# Of the files that the compiler read, which it tells by a rule for `make` or one a line, those that are no parts of the call: `own NAME` is a file of
# the project by its whole path, `out NAME` one that `..` leads to out of the folder of the call, and of `far NAME` only the true path tells.
project=${PWD%/odin.work/*}
[ "$project" != "$PWD" ] || project=${PWD%/.odin/work/*}
strange() {
    PROJECT=$project awk -v is_rule="$1" '
    function look(name,    count, i, step, depth) {
        sub(/^\.\//, "", name)
        if (name ~ /^\//) {
            if (index(name, ENVIRON["PROJECT"] "/") == 1) print "own " name
            else if (name !~ /^\/usr\// || name ~ /\/\.\.\//) print "far " name
        } else if (name ~ /^\.\.\/|\/\.\.\//) {
            count = split(name, step, "/")
            for (i = 1; i <= count && depth >= 0; i++) depth += step[i] == ".." ? -1 : step[i] != "" && step[i] != "."
            if (depth < 0) print "out " name
        }
    }
    !is_rule { look($0) }
    is_rule {
        goes_on = sub(/\\$/, "")
        blanks = gsub(/\\ /, "\001")
        gsub(/\\#/, "#")
        gsub(/\$\$/, "$")
        for (i = 1; i <= NF; i++) {
            if (blanks) gsub("\001", " ", $i)
            if (is_named) look($i)
            else is_named = $i ~ /:$/
        }
        if (!goes_on) exit
    }'
}
# tells what to write instead of such names
refuse() {
    # compilers of other places than /usr read hundreds of files there, so one program asks for the true paths of all
    far=$(printf '%s\n' "$found" | sed -n 's/^far //p' | xargs -r -d '\n' realpath -m --) || return 1
    printf '%s\n' "$found" | while read -r what name; do
        case $what in
        far)
            case $newline$far/ in
            *"$newline$project"/*) ;;
            *) continue ;;
            esac
            file=$(realpath -m -- "$name") || return 1
            ;;
        out) file=$(realpath -m -- "$PWD/$name") || return 1 ;;
        *) file=$(realpath -m -- "$name") || return 1 ;;
        esac
        case $what:$file in
        *:"$project"/*)
            echo "${unit%%:*}: error: $name is ${file#"$project"/} of the project, but a change of it would not be seen:" \
                'include it by that name or from a folder of [c] include, without a whole path and without leaving the project by ..'
            ;;
        out:*)
            echo "${unit%%:*}: error: $name leads out of the project, to $file: name the folder by its whole path, as by -I in [c] flags," \
                'or take the file into the project'
            ;;
        esac
    done
}

# The messages are held here, since the disk where they would stand may be the one that is full.
said=$("$compiler" "$@" -MD -MF out.o.read -c "./$unit" -o out.o 2>&1)
status=$?
if [ $status -eq 0 ]; then
    found=$(strange 1 < out.o.read) || lost
else
    # Errors of the unit end with 1. Else the compiler failed, which another run may not: nothing is kept.
    case $status:$said in
    1:*'signal terminated program'* | 1:*'No space left on device'* | 1:*'out of memory'* | 1:*'memory exhausted'*) failed=yes ;;
    1:*) failed= ;;
    *) failed=yes ;;
    esac
    [ -z "$failed" ] || {
        printf '%s\n' "$said" >&2
        lost
    }
    # There is no rule then, so what was read is asked for once more, and what wasn't found is looked at, too.
    found=$({
        "$compiler" "$@" -E -H "./$unit" 2>&1 > /dev/null | sed -n 's/^\.\.* //p'
        printf '%s\n' "$said" | sed -n -e 's/^.*: fatal error: \(\/.*\): No such file or directory$/\1/p' \
            -e 's/^\([^:]*\/\)\{0,1\}[^:/]*:[0-9:]* fatal error: \([^/].*\): No such file or directory$/\1\2/p'
    } | strange 0) || lost
fi
if [ -n "$found" ]; then
    refused=$(refuse) || lost
    [ -z "$refused" ] || {
        printf '%s\n' ${said:+"$said"} "$refused" > warnings || lost
        exit 2
    }
fi
printf '%s' "$said${said:+$newline}" > warnings || lost
[ $status -eq 0 ] || exit 2
