# What the checks of kits share: a folder $top with an empty project $top/p, which is removed at the end, and the calls `tell`, `expect` and `ended`.
# A check sets $here to the top of the repository, and reads this file.
build=${ODIN_BUILD:-$here/crates/odin_build/out/odin_build}
export ODIN_KITS="$here/kits" LC_ALL=C
export PATH="$here/crates/odin_lay/out:$PATH"
top=$(mktemp -d)
trap 'cd /; umount "$top/small" 2> /dev/null; rm -rf "$top"' EXIT
wrong=0
tell() {
    echo "$*"
    wrong=$((wrong + 1))
}

# Each run of a tool adds a line: a `sh` and an `awk` that stand in front tell it by the file `call`.
mkdir "$top/bin" "$top/p"
for program in sh awk; do
    cat > "$top/bin/$program" <<END
#!/bin/sh
[ -z "\${RUNS:-}" ] || [ ! -f call ] || sed -n 's/^tool \([^ ]*\) .*/\1/p' call >> "\$RUNS"
unset RUNS
exec $(command -v $program) "\$@"
END
    chmod +x "$top/bin/$program"
done
runs() {
    sort "$top/runs" | uniq -c | awk '{ printf "%s%s %s", (NR > 1 ? ", " : ""), $1, $2 }'
}

# Refuses a graph in which a tool is given `iN` where which part that is isn't fixed: over a list, after `also` of one, or past the parts that are
# always there. What stands there may be text that somebody else wrote, and `sh` would run it: parts_by_number FILE..
parts_by_number() {
    for graph in "$@"; do
        found=$(sed 's/#.*//' "$graph" | tr '\n' ' ' | tr ';' '\n' | awk '
            $1 == "type" && ($3 == "list" || $3 == "compound") { many[$2] = 1 }
            $1 == "tool" { tool[++tools] = $0 }
            END {
                for (t = 1; t <= tools; t++) {
                    count = split(tool[t], word, " ")
                    known = 0
                    open = 0
                    for (i = 2; i < count; i++) {
                        if (word[i] == "from" || word[i] == "also") open = open || word[i + 1] in many
                        if (word[i] == "closure") open = 1
                        if (word[i] == "from" || word[i] == "also" || word[i] == "with") known += !open
                    }
                    for (i = 2; i <= count && word[i] != "run"; i++);
                    for (i++; i <= count && word[i] ~ /^"/; i++)
                        if (word[i] ~ /^"i[0-9]+"$/ && substr(word[i], 3) + 0 > known) print word[2] " " word[i]
                }
            }')
        [ -z "$found" ] || tell "$graph: no fixed part: $found"
    done
}

# builds, and looks at the status and at the runs of tools: expect NAME STATUS RUNS [WORD..]
expect() {
    name=$1 status=$2 wanted=$3
    shift 3
    : > "$top/runs"
    RUNS=$top/runs PATH="$top/bin:$PATH" "$build" "$@" > "$top/out" 2> "$top/err"
    got=$?
    [ $got = "$status" ] || tell "$name: status $got and not $status: $(cat "$top/err")"
    [ "$(runs)" = "$wanted" ] || tell "$name: $(runs), and not $wanted"
}

# A folder $top/small for a call, on a disk of 64 KiB; ends with 1 where none can be mounted, which is told.
small_disk() {
    cd / && { umount "$top/small" || mkdir "$top/small"; } 2> /dev/null
    mount -t tmpfs -o size=64k none "$top/small" 2> /dev/null && cd "$top/small" && return
    echo "no small disk can be mounted, so a full one wasn't tried"
    return 1
}
# fills the small disk, runs a program in the call's folder there, and looks that it leaves no outcome: without_room NAME PROGRAM [WORD..]
without_room() {
    dd if=/dev/zero of=filler bs=1k 2> /dev/null
    lost=$1
    shift
    "$@" > /dev/null 2>&1
    [ -e no-outcome ] || tell "a full disk: $lost leaves an outcome"
}

# tells how it went: ended KIT
ended() {
    [ $wrong = 0 ] && echo "$1: all as it has to be" || echo "$1: $wrong wrong"
    [ $wrong = 0 ]
}
