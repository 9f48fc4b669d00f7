# feed.sh: gives the files of a folder to the awk files beside it; `sheet` sources it, and so may every launcher that names things.

# feed FOLDER NAME...: for each file a line `file NAME`, its bytes as decimal numbers, then `end`; `absent` where there is no such file. Where
# it could not all be read, or is no file, `end` is missing. In this form no awk can lose a byte 0 or cut a long line. FOLDER begins with `/` or `.`.
feed() {
    fed=$1
    shift
    for name; do
        printf 'file %s\n' "$name"
        if [ ! -e "$fed/$name" ]; then
            echo absent
        # What is no file, as a pipe, would be emptied by being read, or have no end.
        elif [ -f "$fed/$name" ]; then
            case $name in
            *.txt) od -An -v -tu1 <"$fed/$name" ;;
            # No sheet has more bytes: of a longer file this much tells that it is too long.
            *) od -An -v -tu1 -N 16388 <"$fed/$name" ;;
            esac && echo end
        fi
    done 2>/dev/null
}
