# To be sourced: how C is compiled for x86-64, for which the library's code is, and how it is run.
#   cc_cross ARGS..   cxx_cross ARGS..   run_cross PROGRAM ARGS..     by cross compilers and an emulator, on every machine
#   cc_x86, cxx_x86, run_x86     the same, but on x86-64 by the machine's own compilers and processor, unless CROSS=1 is set
# What is missing is installed from Debian's packages, and a line on standard error says so.

# Installs packages, unless a command or a file of theirs is there already.
need() { # COMMAND-OR-FILE PACKAGE..
    if command -v "$1" >/dev/null 2>&1 || [ -e "$1" ]; then return 0; fi
    shift
    as=
    [ "$(id -u)" = 0 ] || as=sudo
    install="$as apt-get install -y -q --no-install-recommends"
    $install "$@" >/dev/null 2>&1 || { $as apt-get update -q && $install "$@"; } >/dev/null 2>&1 || {
        echo "could not install $*" >&2
        return 1
    }
    echo "installed $*" >&2
}

case $(uname -m) in
x86_64) # the cross compilers are the machine's own, under another name
    need x86_64-linux-gnu-gcc gcc libc6-dev
    need x86_64-linux-gnu-g++ g++
    ;;
*)
    need x86_64-linux-gnu-gcc gcc-x86-64-linux-gnu
    need x86_64-linux-gnu-g++ g++-x86-64-linux-gnu
    ;;
esac
cross=/usr/x86_64-linux-gnu
need $cross/lib/libc.so libc6-dev-amd64-cross
need $cross/lib/libstdc++.so.6 libstdc++6-amd64-cross
need qemu-x86_64 qemu-user

# A program is linked, and run, with the libraries of the cross packages; on x86-64 the compiler and the loader would find the
# machine's own first. It is linked dynamically, since the packages' libm.a names files that only an x86-64 machine has.
cc_cross() { x86_64-linux-gnu-gcc -B$cross/lib "$@"; }
cxx_cross() { x86_64-linux-gnu-g++ -B$cross/lib "$@"; }
run_cross() { qemu-x86_64 -L $cross -E LD_LIBRARY_PATH=$cross/lib "$@"; }

case $(uname -m):${CROSS-} in
x86_64:)
    cc_x86() { gcc "$@"; }
    cxx_x86() { g++ "$@"; }
    run_x86() { "$@"; }
    ;;
*)
    cc_x86() { cc_cross "$@"; }
    cxx_x86() { cxx_cross "$@"; }
    run_x86() { run_cross "$@"; }
    ;;
esac
