# Links the objects, which are the parts of slot 0 in their order, to out.program: by g++ where one is of C++.
set -u
export LC_ALL=C
# What the environment would add to the folders and programs of the compiler is in no key.
unset CPATH C_INCLUDE_PATH CPLUS_INCLUDE_PATH OBJC_INCLUDE_PATH LIBRARY_PATH GCC_EXEC_PREFIX COMPILER_PATH DEPENDENCIES_OUTPUT SUNPRO_DEPENDENCIES
unset GCC_COMPARE_DEBUG GCC_EXTRA_DIAGNOSTIC_OUTPUT LD_RUN_PATH LDEMULATION GNUTARGET
# What can't be written, and what failed by itself, is no outcome.
lost() {
    true > no-outcome || kill -KILL $$
    exit 2
}
compiler=gcc
set --
while read -r word slot file label; do
    [ "$word $slot" = 'part 0' ] || continue
    set -- "$@" "./$label"
    case ${label%%:*} in
    *.cc | *.cpp | *.cxx) compiler=g++ ;;
    esac
done < call
words=$(cat kits/c/link) || lost
# The words of the flags stand in lines and between blanks; no pattern of names is meant.
set -f
# A file of the project that the linker would read behind the back of the call.
project=${PWD%/odin.work/*}
[ "$project" != "$PWD" ] || project=${PWD%/.odin/work/*}
for word in $words; do
    case $word in
    -Wl,*) ;;
    *"$project"/* | ../* | -L../* | */../*)
        echo "error: [c] link: a change of what $word names in the project would not be seen: make it a unit, or install it out of the project" > warnings ||
            lost
        exit 2
        ;;
    esac
done
# The messages are held here, since the disk where they would stand may be the one that is full.
said=$("$compiler" -o out.program "$@" $words 2>&1)
status=$?
# As in compile.sh: what isn't an error of the objects is kept by nobody.
case $status:$said in
1:*'signal terminated program'* | 1:*'terminated with signal'* | 1:*'No space left on device'* | 1:*'out of memory'* | 1:*'memory exhausted'*) failed=yes ;;
[01]:*) failed= ;;
*) failed=yes ;;
esac
[ -z "$failed" ] || {
    printf '%s\n' "$said" >&2
    lost
}
printf '%s' "$said${said:+
}" > warnings || lost
[ $status -eq 0 ] || exit 2
