# The title of a text: its first line that begins with `# `. Where there is none, its name, with a warning.
set -u
# What can't be written, and what was killed from outside, is no outcome.
lost() {
    true > no-outcome || kill -KILL $$
    exit 2
}
label=$(sed -n 's/^part 0 i1 //p' call) && [ -n "$label" ] || lost
true > warnings || lost
# with `x` in front, so that an empty title is one
title=$(sed -n '/^# /{s//x/p;q;}' i1) || lost
if [ -n "$title" ]; then
    printf '%s\n' "${title#x}" > out.title || lost
else
    echo "${label%%:*}" > out.title && echo 'no line begins with "# "' > warnings || lost
fi
