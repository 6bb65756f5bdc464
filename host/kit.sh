# Sourced by scripts that build a C host: the kit's own compiler and linker, so that no package is needed.
# link_host PROGRAM FILE.c LIBRARY.a.. compiles and links; the header is include/glyvrask.h
# run_host PROGRAM ARGUMENT..          runs it
kit=$(dirname "$(rt doc)")
tools=$kit/toolchain
target=x86_64-unknown-linux-gnu

link_host() {
    host=$1
    "$tools/bin/clang" --target=$target -fPIC -O1 -ffreestanding -Wall -Wextra -Werror -I include -c "$2" -o "$host.o" || return
    shift 2
    "$kit/bin/rattle-link" --target $target --toolchain "$tools" -o "$host" "$host.o" "$@"
}

run_host() {
    "$@"
}

# need_program NAME: builds a program that is not there, as crates/NAME/out/NAME
need_program() {
    [ -x "crates/$1/out/$1" ] || (cd "crates/$1" && rt run) < /dev/null
}
