# Links the objects, which are the parts of slot 0 in their order.
export LC_ALL=C
gcc -o out.exe $(sed -n 's,^part 0 i[0-9]* ,./,p' call) 2> warnings || exit 2
