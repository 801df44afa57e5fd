# Puts the pages, which are the parts of slot 0, into an archive: `notes/first.md` is `notes/first.html` in it. No time and no owner stands in it.
set -u
export LC_ALL=C
# What can't be written, and what was killed from outside, is no outcome.
lost() {
    true > no-outcome || kill -KILL $$
    exit 2
}
mkdir site || lost
while read -r word slot file label; do
    [ "$word $slot" = 'part 0' ] || continue
    page=site/${label%%:*}
    page=${page%.md}.html
    mkdir -p "$(dirname "$page")" && cp "$file" "$page" || lost
done < call
# No fault of pages ends it, so one of any kind is no outcome.
tar -C site --sort=name --mtime=@0 --owner=0 --group=0 --numeric-owner --mode=u=rwX,go=rX -cf out.site . 2> warnings || {
    cat warnings >&2
    lost
}
