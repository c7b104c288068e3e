# shellcheck shell=bash
# How ./fluent_show and ./fluent run their program without its proof, for a shell to read after tools/proved.sh.
# 'rt try' compiles it, with checks that stop it at a fault, and keeps nothing. So it is given a long comment to read, and
# while it reads, the program gets a second name. Under that it is kept in out/unproved, for all runs of the same sources.
# tools/tests catches the module of a program of tests in the same way, compiles that once more, and keeps it in out/tests.

# A sum of what the program of a crate is compiled from: its sources, and the toolchain.
sum_of_unproved() {
    { sum_of_sources "$@" && rt version; } | sha256sum
}

# Whether the program $1 is the one that was kept with the sum $2.
is_kept() {
    [ -x "$1" ] && [ -r "$1.sum" ] && [ "$(cat "$1.sum")" = "$2$(sha256sum < "$1")" ]
}

# Keeps the program $1 as $2, with the sum $3.
keep() {
    mkdir -p "${2%/*}" && cp "$1" "$2.$$" && mv "$2.$$" "$2" && printf '%s\n' "$3$(sha256sum < "$2")" > "$2.sum"
}

# Names what can be run below the folder $1/try also $1/program, and the module that it is made of $1/module.bc, until that folder is gone.
catch_program() {
    local it
    shopt -s globstar nullglob
    while [ -d "$1/try" ]; do
        for it in "$1/try"/**; do
            if [ "${it##*/}" = module.bc ]; then ln -f "$it" "$1/"; fi
            if [ -f "$it" ] && [ -x "$it" ]; then ln -f "$it" "$1/program"; fi
        done
        sleep 0.02
    done 2> /dev/null
}

# Compiles the program of the crate $2 of the repository $1, as $4/program. By the words $3 it reads its standard input. Where it had
# done so before it was caught, it gets more to read.
compile_unproved() {
    local words bytes
    read -ra words <<< "$3"
    mkdir "$4/try" || return 1
    catch_program "$4" &
    for bytes in 200000 2000000; do
        yes '# a comment' | head -c "$bytes" > "$4/comment"
        (cd "$1/crates/$2" && TMPDIR=$4/try exec rt try -- "${words[@]}") < "$4/comment" > /dev/null 2> "$4/errors"
        if [ -x "$4/program" ] || ! tail -n 1 "$4/errors" | grep -q '^run=ended '; then break; fi
    done
    rm -rf "$4/try"
    wait
    [ -x "$4/program" ] && tail -n 1 "$4/errors" | grep -Eq '^run=(ended|no-answer) '
}

# Runs the program of the crate $2 of the repository $1 with the words behind $3, by which it reads its standard input. Ends with
# the program's status, or with 3 where there is none to run.
run_unproved() {
    local top=$1 name=$2 reads=$3 kept=$1/out/unproved/$2 sum room
    shift 3
    if ! command -v rt > /dev/null 2>&1; then
        echo "$name: the Rattle toolchain is missing (no command 'rt' on the PATH)" >&2
        exit 3
    fi
    sum=$(sum_of_unproved "$top" "$name")
    if is_kept "$kept" "$sum"; then
        echo "$name: runs without its proof; ./build builds the proved program" >&2
        exec env -i "$kept" "$@"
    fi
    echo "$name: is compiled without its proof, in a minute or so; ./build builds the proved program" >&2
    room=$(mktemp -d) || exit 3
    # shellcheck disable=SC2064
    trap "rm -rf '$room'" EXIT
    if ! compile_unproved "$top" "$name" "$reads" "$room"; then
        tail -n 20 "$room/errors" >&2
        echo "$name: can't be run without its proof; ./build builds the proved program" >&2
        exit 3
    fi
    [ "$sum" != "$(sum_of_unproved "$top" "$name")" ] || keep "$room/program" "$kept" "$sum" 2> /dev/null
    env -i "$room/program" "$@"
    exit
}

# What 'rt try' is told of the crate of tests $1. A program would be run for a second, and not by the interpreter.
words_of() {
    [ -f "tests/$1/src/main.rs" ] || { echo --test && return; }
    printf '%s\n' --steps 1 --seconds 1 --
    cat "tests/$1/args" 2> /dev/null
}

# Compiles $1/module.bc as $1/program, with the checks of 'rt try' and tools/refuse.c. 'rt try' itself does so without optimizing, where
# fixtures and their sweep would take twenty times as long.
compile_module() {
    local kit word words=()
    kit=$(dirname "$(dirname "$(realpath "$(command -v rt)")")")
    for word in no-trap-after-noreturn trap-unreachable no-x86-call-frame-opt disable-machine-licm disable-postra-machine-licm \
        sink-common-insts=false; do
        words+=(-mllvm "-$word")
    done
    "$kit/toolchain/bin/clang" --no-default-config --target=x86_64-unknown-linux-gnu -march=x86-64 "${words[@]}" -O1 -fPIE \
        -fsanitize=address -ffunction-sections -fdata-sections -Werror -c -x ir "$1/module.bc" -o "$1/module.o" &&
        "${CC:-cc}" -O2 -DCHECKED -o "$1/program" "$1/module.o" tools/refuse.c -Wl,--gc-sections \
            -Wl,--whole-archive "$kit/c/asan.a" -Wl,--no-whole-archive "$kit"/c/lib{os,libc}_c.a -lm
}

# Has 'rt try' make the module of the crate of tests $1 of the repository $2/copy, as $2/module.bc, and ends it where it would run the
# program. The status is 0 where 'rt try' made a program, whether its module was caught or not.
make_module() {
    local words tried catcher status
    mapfile -t words < <(words_of "$1")
    mkdir "$2/try" || return 1
    catch_program "$2" &
    catcher=$!
    (cd "$2/copy/crates/$1" && TMPDIR=$2/try exec rt try "${words[@]}") > "$2/said" 2>&1 < /dev/null &
    tried=$!
    while kill -0 "$tried" 2> /dev/null && ! { [ -x "$2/program" ] && [ -f "$2/module.bc" ]; }; do sleep 0.1; done
    kill "$tried" "$catcher" 2> /dev/null
    wait "$tried" "$catcher"
    [ -x "$2/program" ] || grep -Eq '^(test result: |run=(ended|no-answer) )' "$2/said"
    status=$?
    rm -rf "$2/try" "$2/program"
    return "$status"
}

# Compiles the crate of tests $1 of the repository $2/copy, as $2/program. A module that wasn't caught is made once more.
compile_tests() {
    local turn
    for turn in 1 2 3; do
        make_module "$1" "$2" || break
        if [ -f "$2/module.bc" ]; then
            compile_module "$2" >> "$2/said" 2>&1 || break
            return 0
        fi
        echo "$1: the module of try $turn wasn't caught"
    done
    cat "$2/said"
    echo "$1 can't be compiled"
    return 1
}

# Puts the crate of tests $1, and those that it stands on, into a repository of their own, $2. It runs in the top folder, as the rest.
copy_tests() {
    local crates
    [ -d "tests/$1" ] && mapfile -t crates < <(crates_for . "$1") && [ "${#crates[@]}" -gt 0 ] ||
        { echo "tests/tests.txt has no crate $1" && return 1; }
    copy_crates . "$2" "${crates[@]}"
}

# Compiles the crate of tests $1 of the repository $2/copy, where it isn't kept as out/tests/$1.
keep_tests() {
    local sum kept=$PWD/out/tests/$1
    sum=$({ sum_of_unproved "$2/copy" "$1" && cat tools/refuse.c tools/unproved.sh; } | sha256sum)
    is_kept "$kept" "$sum" || { compile_tests "$1" "$2" && keep "$2/program" "$kept" "$sum"; }
}
