# There are no tools of its own to tell. It refuses a project in which this kit stands after `c`, since nothing would then be made of tables: the
# project's file is in the folder that has `odin.work`, or `.odin/work`, in which this runs.
export LC_ALL=C
here=$(pwd -P)
folder=${here%/odin.work/*}
[ "$folder" != "$here" ] || folder=${here%/.odin/work/*}
kits=$(tr "\n'" ' "' < "$folder/odin.toml" | sed -n 's/^\(.*[^a-z]\)\{0,1\}kits *= *\[\([^]]*\)\].*$/\2/p')
case $kits in
*'"c"'*'"tables"'*)
    echo 'odin.toml: kits: "tables" has to stand before "c"' >&2
    exit 1
    ;;
esac
echo tables > out.tools || exit 1
