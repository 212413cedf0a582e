# shellcheck shell=sh disable=SC2034
# toolchain.sh: what the scripts here and in bench/ share; read by them, not run.
# They work in the repository's root and write below target/ alone.
cd "$(dirname "$0")/.." || exit

machine=$(uname -m)
warnings='-pedantic -Wall -Wextra -Werror'
archive=target/staticlib/libkeeper.a
programs=target/tests

# The archive: the static library of the crate keeper_c, under the name that firmware
# links, for every processor of the kind: rt's own choice would be one with SSE4. What
# is proved already is not proved again.
build_archive() {
    (cd crates/keeper_c && rt lib --cpu=x86-64)
    mkdir -p "$(dirname "$archive")"
    cp crates/keeper_c/out/libkeeper_c.a "$archive"
}

# copy_crates FOLDER: the repository's crates, without what was made of them
copy_crates() {
    mkdir -p "$1"
    tar -cf - --exclude=out crates crates.txt | tar -xf - -C "$1"
}

# need COMMAND PACKAGE...: Debian's packages, where the command is missing
need() {
    if command -v "$1" >/dev/null; then return; fi
    shift
    echo "installing $*"
    apt-get update -qq
    DEBIAN_FRONTEND=noninteractive apt-get install -y -qq --no-install-recommends "$@" >/dev/null
}

# The compilers for the archive, which is for x86-64. Another processor runs
# what they make under an emulator, and so links it statically.
install_compilers() {
    if [ "$machine" = x86_64 ]; then
        c_compiler=gcc cxx_compiler=g++ link='' emulator=''
        need gcc build-essential
        need g++ build-essential
    else
        c_compiler=x86_64-linux-gnu-gcc cxx_compiler=x86_64-linux-gnu-g++ link=-static
        emulator=qemu-x86_64
        need $emulator qemu-user
        need $c_compiler gcc-x86-64-linux-gnu libc6-dev-amd64-cross
        need $cxx_compiler g++-x86-64-linux-gnu
    fi
}

# compile_c WORDS...: C99, warnings are errors
compile_c() {
    # shellcheck disable=SC2086
    $c_compiler -std=c99 $warnings -O2 -Iinclude -Itests "$@"
}

# build NAME FILE...: the program NAME below target/tests
build() {
    mkdir -p "$programs"
    name=$1
    shift
    # shellcheck disable=SC2086
    compile_c "$@" $link -o "$programs/$name"
}

# run NAME
run() { $emulator "$programs/$1"; }
