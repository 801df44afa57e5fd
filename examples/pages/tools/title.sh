# The title of a text: its first line that begins with `# `. Where there is none, its name, with a warning.
label=$(sed -n 's/^part 0 i1 //p' call)
# What can't be written is no outcome.
lost() {
    true > no-outcome
    exit 2
}
true > warnings || lost
sed -n 's/^# //p' i1 | head -n 1 > out.title || lost
if ! [ -s out.title ]; then
    echo "${label%%:*}" > out.title && echo 'no line begins with "# "' > warnings || lost
fi
