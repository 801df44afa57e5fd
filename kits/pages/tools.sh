# Tells which `cmark` and `tar` these are: version, path, size and time. What it writes is a source of each object that they make.
export LC_ALL=C
said=$({
    cmark --version
    for program in cmark tar; do
        path=$(command -v $program) && stat -L -c '%n %s %Y' "$path"
    done
} 2>&1)
printf '%s\n' "$said" > out.tools || exit 1
