# Makes the header or the unit of the table in slot 0, as the first word says, by the command of the project: it is given the table's name as its last
# word, and writes what is made to standard output. A command that isn't found or is killed leaves no outcome.
set -u
export LC_ALL=C
# What can't be written, and what was killed from outside, is no outcome.
lost() {
    true > no-outcome || kill -KILL $$
    exit 2
}
table=$(sed -n 's/^part 0 i1 //p' call) && [ -n "$table" ] || lost
case $1 in
header) left=out.made_header ;;
*) left=out.unit ;;
esac
# The words of the command stand in lines and between blanks; no pattern of names is meant.
set -f
words=$(cat "kits/tables/$1") || lost
set -- "$1" $words
if [ $# -eq 1 ]; then
    # Who compiles it reads that, and nobody else.
    true > warnings && echo "#error no command makes a $1 of a table: [tables] $1" > "$left" || lost
    exit 0
fi
what=$1
shift
# A command may pass over a disk that is full, and `cat` doesn't.
status=$({ { "$@" "$table" 2> warnings < /dev/null 3>&-; echo $? >&3; } | cat > "$left" 3>&-; } 3>&1) || lost
[ "$status" != 0 ] || exit 0
case $status in
12[6-9] | 13[0-9] | 1[4-9]? | 2??)
    cat warnings >&2
    lost
    ;;
esac
# Where the disk is full now, that may be why the command failed.
printf '%65536s' '' > no-outcome && rm no-outcome || exit 2
echo "$table: the command of the $what ended with $status" >> warnings || lost
exit 2
