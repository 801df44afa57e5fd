# Tells the folder of the project, which the commands name: this runs below its folder `odin.work`, or `.odin/work`.
here=$(pwd -P) || exit 1
folder=${here%/odin.work/*}
[ "$folder" != "$here" ] || folder=${here%/.odin/work/*}
printf '%s\n' "$folder" > out.tools || exit 1
