# An index in Markdown of the titles, which are the parts of slot 0 in their order.
# What can't be written is no outcome.
lost() {
    true > no-outcome
    exit 2
}
true > warnings || lost
{
    printf '# Index\n\n' || lost
    while read -r word slot file label; do
        [ "$word $slot" = 'part 0' ] || continue
        path=${label%%:*}
        printf -- '- [%s](%s.html)\n' "$(cat "$file")" "${path%.md}" || lost
    done < call
} > out.whole || lost
