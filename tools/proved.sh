# shellcheck shell=bash
# What ./fluent_show, ./fluent, ./build and ./check share, for a shell to read: which crates one stands on, whether the program in
# its out/ is the proved one of these sources, and how many proofs run at once. Most take the folder of a repository, and the name of
# one of its crates.

# The lines of crates.txt or tests/tests.txt of the crate, or of several, and of those that they stand on, directly or not.
lines_for() {
    cat "$1/crates.txt" "$1/tests/tests.txt" 2> /dev/null | awk -F: -v wanted="${*:2}" '
        { sub(/#.*/, "") }
        NF == 2 { split($1, word, " "); name = word[1]; order[++count] = name; line[name] = $0; below[name] = $2 }
        function need(name,    part, size, i) {
            if (name in needed || !(name in line)) return
            needed[name]
            size = split(below[name], part, " ")
            for (i = 1; i <= size; i++) need(part[i])
        }
        END {
            size = split(wanted, name_of, " ")
            for (i = 1; i <= size; i++) need(name_of[i])
            for (i = 1; i <= count; i++) if (order[i] in needed) print line[order[i]]
        }'
}

# The names of the same crates.
crates_for() {
    lines_for "$@" | sed 's/[: ].*//'
}

# The folder of the crate, below that of the repository.
folder_of() {
    if [ -d "$1/tests/$2" ]; then echo "tests/$2"; else echo "crates/$2"; fi
}

# A sum of all that the crate is proved from: its line of crates.txt and its files, and those of the crates that it stands on. A crate of
# tests has the sum of its copy.
sum_of_sources() {
    (
        cd "$1" || exit 1
        lines_for . "$2"
        for crate in $(crates_for . "$2"); do
            find "$(folder_of . "$crate")"/{src,specs,proofs} -type f -exec sha256sum {} + 2> /dev/null
        done
    ) | sed 's,  tests/\(.*\)\.rs$,  crates/\1.rt,' | LC_ALL=C sort | sha256sum
}

# What note_proved writes beside the program: the sum of the sources, and the program's own.
mark_of() {
    printf '%s\n' "$3"
    sha256sum < "$1/$(folder_of "$1" "$2")/out/$2"
}

# Notes that the program in the crate's out/ is the proved one of the sources with the sum $3.
note_proved() {
    mark_of "$@" > "$1/$(folder_of "$1" "$2")/out/$2.proved"
}

# Whether the program in the crate's out/ is the proved one of these sources.
is_proved() {
    local program
    program=$1/$(folder_of "$1" "$2")/out/$2
    [ -x "$program" ] && [ -r "$program.proved" ] && [ "$(cat "$program.proved")" = "$(mark_of "$@" "$(sum_of_sources "$@")")" ]
}

# Copies the crates that are named behind the folder $2, but for what was made of them and their wrong bodies, from the
# repository $1 to that folder, which is then a repository of its own. The files of a crate of tests get the ending that rt reads: in
# the tree it may stand in crates alone that are proved.
copy_crates() {
    local top=$1 to=$2 crate part file
    shift 2
    mkdir -p "$to/.git" && cp "$top/HANDLES" "$to/" || return 1
    for crate in "$@"; do
        mkdir -p "$to/crates/$crate" && lines_for "$top" "$crate" | grep -E "^${crate}[ :]" >> "$to/crates.txt" || return 1
        for part in "$top/$(folder_of "$top" "$crate")"/*; do
            case ${part##*/} in
                out | must-fail | wrong-bodies) ;;
                *) cp -R "$part" "$to/crates/$crate/" || return 1 ;;
            esac
        done
        while read -r file; do mv "$file" "${file%.rs}.rt" || return 1; done < <(find "$to/crates/$crate/src" -name '*.rs')
    done
}

# How many proofs run beside one another: one takes less than 5 GB of memory, where rt ci sets aside more and so leaves processors idle.
proofs_at_once() {
    awk -v cores="$(nproc)" '/^MemAvailable/ { fit = int($2 / 5000000) }
        END { fit = fit < cores ? fit : cores; print (fit > 1 ? fit : 1) }' /proc/meminfo
}

# Whether 'rt ci' takes names of crates here: under CI=true it takes none.
takes_names() {
    [ "${CI-}" != true ]
}
