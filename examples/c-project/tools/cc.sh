# Compiles the unit, which is the part of slot 0. `odin_lay` has laid all parts out by their labels, so the unit finds what it includes; of a table it
# finds the header that is made of it. A fault that leaves no object ends with 2, so that the messages come alone.
set -u
# Messages don't follow the language of who runs it.
export LC_ALL=C
unit=$(sed -n 's/^part 0 i1 //p' call)
debug=$(sed -n 's/^param debug /-g/p' call)
case $debug in
'' | -g | -g[0-3]) ;;
*)
    echo "debug is 0 to 3 or without a value, and not ${debug#-g}" > warnings
    exit 2
    ;;
esac
for table in $(find . -name '*.def'); do
    sh tools/gen.sh header "$(basename "$table" .def)" < "$table" > "${table%.def}.h" || exit 2
done
# A unit that a tool made has a label as `tables/colours.def:c`, which tells gcc no language.
gcc -x c -std=c11 -Wall -Wextra -O1 $debug -I include -ffile-prefix-map="$PWD"=. -fdiagnostics-plain-output -c "./$unit" -o out.o 2> warnings || exit 2
