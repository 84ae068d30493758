# shellcheck shell=sh
# For the scripts beside it, which source it: a program over the crates of the project, in a folder of its own.

# make_room FOLDER NAME LIBRARY..: puts bench/NAME into FOLDER/crates as bench_NAME, which uses the libraries, beside
# copies of these and of all that they stand on, with what is proved of them. top is the project's folder.
make_room() {
    room=$1 name=$2
    shift 2
    # crates.txt lists a crate behind those that it stands on
    # shellcheck disable=SC2154
    below=$(awk -F: -v named="$*" '
        BEGIN { split(named, list, " "); for (i in list) wanted[list[i]] = 1 }
        /^mrp_/ { crate[++count] = $1; uses[count] = $2 }
        END {
            for (i = count; i > 0; i--) if (crate[i] in wanted) {
                print crate[i]
                split(uses[i], list, " ")
                for (j in list) wanted[list[j]] = 1
            }
        }' "$top/crates.txt")
    mkdir "$room/crates"
    for crate in $below; do
        cp -a "$top/crates/$crate" "$room/crates/"
    done
    cp -a "$top/bench/$name" "$room/crates/bench_$name"
    # its files end in .in, so that no check of the project looks for a crate in bench/
    find "$room/crates/bench_$name" -name '*.in' | while read -r file; do mv "$file" "${file%.in}"; done
    # (a word for each crate)
    # shellcheck disable=SC2086
    grep -E "^(#|($(echo $below | tr ' ' '|')):)" "$top/crates.txt" >"$room/crates.txt"
    echo "bench_$name: $*" >>"$room/crates.txt"
    cp "$top/HANDLES" "$room/"
}
