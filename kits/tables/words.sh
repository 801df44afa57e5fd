# Writes the names of the files that the commands of tables read, one a line: the words of the commands, which are i3 and i4, and of `reads`, which is
# i5. Words that are no sources, as the names of programs, are told too: nothing stands under them.
export LC_ALL=C
# What can't be written, and what was killed from outside, is no outcome.
lost() {
    true > no-outcome || kill -KILL $$
    exit 2
}
true > warnings || lost
words=$(cat i3 i4 i5) || lost
names=$(printf '%s\n' "$words" | tr -s ' \t' '\n\n' | grep -E '^[A-Za-z0-9._][A-Za-z0-9._/-]*$') || [ $? -eq 1 ] || lost
printf '%s' "$names${names:+
}" | sort -u > out.table_reads || lost
