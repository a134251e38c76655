# For the scripts that build C hosts of the library, which is x86-64 code: sets CC, and RUNNER, the program that runs what
# CC builds. What is missing is installed by apt. `library` proves and builds the library and names it.

as_root() { if [ "$(id -u)" -eq 0 ]; then "$@"; else sudo "$@"; fi; }

# need COMMAND PACKAGE..
need() {
    command -v "$1" >/dev/null 2>&1 && return
    shift
    as_root apt-get install -y -q --no-install-recommends "$@" >&2 ||
        { as_root apt-get update -q >&2 && as_root apt-get install -y -q --no-install-recommends "$@" >&2; }
}

need make make
if [ "$(uname -m)" = x86_64 ]; then
    need gcc gcc libc6-dev
    CC=${CC:-gcc} RUNNER=${RUNNER:-}
else
    need x86_64-linux-gnu-gcc gcc-x86-64-linux-gnu libc6-dev-amd64-cross
    need qemu-x86_64 qemu-user
    CC=${CC:-x86_64-linux-gnu-gcc -static} RUNNER=${RUNNER:-qemu-x86_64}
fi
export CC RUNNER

# library ROOT: LIBRARY is set to the static library, proved and built first unless it is newer than all sources; one given
# in the environment is taken as it is.
library() {
    [ -n "${LIBRARY:-}" ] && return
    "$1/tools/build" library || return
    LIBRARY=$(cd "$1" && pwd)/target/staticlib/libhost.a
    export LIBRARY
}
