# Writes what is run for each unit that the list names, as kits/c/compile.sh runs it: i3 is the project's folder, i4 its folders of headers, i5 its
# flags, i6 those of C and i7 those of C++. A table is passed over: the unit that is made of it is no file.
function quoted(text,    i, byte, whole) {
    for (i = 1; i <= length(text); i++) {
        byte = substr(text, i, 1)
        if (byte == "\\" || byte == "\"") byte = "\\" byte
        else if (byte in control) byte = control[byte]
        whole = whole byte
    }
    return "\"" whole "\""
}
# the words of a file, each quoted, with a comma in front
function words_of(file, front,    line, i, count, word, whole) {
    while ((getline line < file) > 0) {
        count = split(line, word, /[ \t]+/)
        for (i = 1; i <= count; i++) if (word[i] != "") whole = whole front ", " quoted(word[i])
    }
    return whole
}
BEGIN {
    for (i = 1; i < 32; i++) control[sprintf("%c", i)] = sprintf("\\u%04x", i)
    while ((getline line < "i3") > 0) folder = folder (folder == "" ? "" : "\n") line
    places = words_of("i4", ", \"-I\"")
    flags = words_of("i5")
    c_flags = words_of("i6")
    cxx_flags = words_of("i7")
    printf "" > "warnings"
    printf "["
}
/\.(c|cc|cpp|cxx)$/ {
    is_c = /\.c$/
    printf "%s\n  {\n    \"directory\": %s,\n", (count++ ? "," : ""), quoted(folder)
    printf "    \"arguments\": [%s, \"-x\", %s", (is_c ? "\"gcc\"" : "\"g++\""), (is_c ? "\"c\"" : "\"c++\"")
    printf "%s%s%s, \"-c\", %s],\n", flags, (is_c ? c_flags : cxx_flags), places, quoted("./" $0)
    printf "    \"file\": %s\n  }", quoted($0)
}
END { print (count ? "\n]" : "]") }
