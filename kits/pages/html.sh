# Turns the Markdown of slot 0 into HTML by `cmark`, in the file that the first word names. HTML that stands in the text is passed over.
set -u
# What can't be written, and what was killed from outside, is no outcome.
lost() {
    true > no-outcome || kill -KILL $$
    exit 2
}
true > warnings || lost
flags=$(cat i3) || lost
# The words of the flags stand in lines and between blanks; no pattern of names is meant.
set -f
# The disk may be full where `cmark` writes to it unseen, and `cat` sees that. Its messages are of the flags alone.
status=$({ { cmark $flags --to html i1 2> warnings 3>&-; echo $? >&3; } | cat > "$1" 3>&-; } 3>&1) || lost
case $status in
0) exit 0 ;;
1)
    [ -s warnings ] || lost
    exit 2
    ;;
esac
cat warnings >&2
lost
