# shellcheck shell=bash
# How the library for C is made of crates that 'rt ci' proved, for a shell to read after tools/proved.sh: it needs a C compiler and
# its binutils.

# The libraries that the crate $2 of the repository $1 uses itself.
used_by() {
    sed -nE "s/^$2( [^:]*)?:(.*)/\2/p" "$1/crates.txt"
}

# Compiles fluent_c of the repository $1 into the archive $2, over the crates below it as 'rt ci' proved them there. These are
# taken as proved; fluent_c itself, which hands each call over, is proved once more. 'rt lib' would prove all of them anew.
compile_library() {
    local root=$1 archive=$2 kit crate words=()
    kit=$(dirname "$(dirname "$(realpath "$(command -v rt)")")")
    for crate in $(used_by "$root" fluent_c); do
        words+=(--extern "$crate=$root/crates/$crate/out/rlib/$crate.rlib")
    done
    for crate in $(crates_for "$root" fluent_c); do
        [ "$crate" = fluent_c ] || words+=(-L "dependency=$root/crates/$crate/out/rlib")
    done
    (
        cd "$root/crates/fluent_c" && "$kit/bin/rattle" build --crate-name fluent_c src/lib.rt --crate-type staticlib \
            --extern "std=$kit/rlibs/std.rlib" -L "dependency=$kit/rlibs" "${words[@]}" \
            --antt-project "$kit/rattle/logic/antt-project.json" --logic-built "$kit/logic_built" \
            --links fluent_c= --toolchain "$kit/toolchain" --backend llvm -o "$archive"
    )
}

# Each call that the archive of Rattle's compiler exports, and the name by which c/library.c calls it.
names_behind() {
    nm -g --defined-only -P "$1" | awk '$1 ~ /^fluent_[a-z0-9_]*$/ { print $1, "rattle_" $1 }' | sort -u
}

# The calls that a header declares.
declared_names() {
    sed -nE '/^(static|typedef)/d; s/^[a-z].*[ *](fluent_[a-z_]+)\(.*/\1/p' "$1" | sort -u
}

# The names that a library shows to others.
shown_names() {
    nm -g --defined-only -P "$@" | awk 'NF > 2 { print $1 }' | sort -u
}

# One object of all: what Rattle's compiler made, c/library.c and c/asking.c before it and c/heap.c below it. Only fluent_.. is seen from
# outside.
link_object() {
    local archive=$1 c=$2 work=$3 part
    names_behind "$archive" > "$work/names" && [ -s "$work/names" ] || return 1
    ld -r --whole-archive "$archive" -o "$work/proved.o" &&
        objcopy --redefine-syms="$work/names" "$work/proved.o" || return 1
    for part in library asking heap; do
        "${CC:-cc}" -std=c11 -O2 -fPIC -Wall -Wextra -Werror -c "$c/$part.c" -o "$work/$part.o" || return 1
    done
    ld -r "$work/proved.o" "$work/library.o" "$work/asking.o" "$work/heap.o" -o "$work/fluent.o" &&
        objcopy --wildcard --keep-global-symbol='fluent_*' "$work/fluent.o"
}

# What pkg-config reads. All lies in one folder, which may be moved.
describe_library() {
    cat << END
prefix=\${pcfiledir}
libdir=\${prefix}
includedir=\${prefix}

Name: fluent
Description: Fluent, Mozilla's localization system
Version: $1
Libs: -L\${libdir} -lfluent
Cflags: -I\${includedir}
END
}

# Makes libfluent.a and libfluent.so.0 of the archive $1, which Rattle's compiler made of the crate fluent_c, and puts both into
# the folder $2 with fluent.h and fluent.pc. Programs find the shared one by this name, which has the first number of the
# version, and compilers by libfluent.so, which is a link to it.
link_library() {
    local archive=$1 to=$2 top c work version shared
    top=$(cd "$(dirname "${BASH_SOURCE[0]}")/.." && pwd) && c=$top/c || return 1
    version=$(sed -nE 's/^version = "(.*)"$/\1/p' "$top/bindings/python/pyproject.toml") && [ -n "$version" ] || return 1
    work=$(mktemp -d) && shared=libfluent.so.${version%%.*} || return 1
    mkdir -p "$to" && link_object "$archive" "$c" "$work" && rm -f "$to"/libfluent.{a,so} "$to"/libfluent.so.* &&
        ar rcs "$to/libfluent.a" "$work/fluent.o" &&
        "${CC:-cc}" -shared -Wl,-soname,"$shared" -Wl,--version-script="$c/fluent.map" -Wl,--no-undefined -Wl,-z,relro,-z,now \
            "$work/fluent.o" -o "$to/$shared" &&
        ln -s "$shared" "$to/libfluent.so" && cp "$c/fluent.h" "$to" && describe_library "$version" > "$to/fluent.pc"
    set -- $?
    rm -rf "${work:?}"
    return "$1"
}
