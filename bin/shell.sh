# What the tools of the shell have in common, which read this file at their head. Of their own file the comment at its head is the help.
top=$(CDPATH='' cd -- "$(dirname -- "$0")/.." && pwd)
tool=$(basename -- "$(CDPATH='' cd -- "$(dirname -- "$0")" && pwd)")/${0##*/}

# Prints the help where it is asked for.
help() {
    if [ "${1-}" = --help ]; then
        sed -n '2,/^[^#]/s/^#$//p;2,/^[^#]/s/^# //p' "$top/$tool"
        exit
    fi
}

# Ends with a status, and says why in a line.
refuse() {
    echo "$tool: $2" >&2
    exit "$1"
}

# Puts a file in its place with these modes and says so. (A program that runs goes on: its file is replaced, not written over.)
put() {
    install -D -m "$1" "$2" "$3" 2>/dev/null || refuse 1 "$3 could not be written"
    echo "$3"
}
