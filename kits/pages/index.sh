# An index in Markdown of the titles, which are the parts of slot 0 in their order.
set -u
# What can't be written, and what was killed from outside, is no outcome.
lost() {
    true > no-outcome || kill -KILL $$
    exit 2
}
true > warnings || lost
{
    printf '# Index\n\n' || lost
    while read -r word slot file label; do
        [ "$word $slot" = 'part 0' ] || continue
        path=${label%%:*}
        title=$(cat "$file") && printf -- '- [%s](%s.html)\n' "$title" "${path%.md}" || lost
    done < call
} > out.titled || lost
