# Turns Markdown into HTML by `cmark`, which passes over HTML that stands in the text, and over a disk that is full: `cat` doesn't.
# What can't be written is no outcome.
lost() {
    true > no-outcome
    exit 2
}
true > warnings || lost
status=$({ { cmark --to html i1 2> warnings 3>&-; echo $? >&3; } | cat > out.html 3>&-; } 3>&1) || lost
[ "$status" = 0 ] || lost
