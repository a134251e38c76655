# For the scripts of defects that put a wrong library behind their test: sets `proved`, the library, and LIBRARY, that library behind
# wrong_library.c. `root` names the repository.
. "$root/tests/c-tools.sh"
. "$root/tests/defects.sh"
library "$root"
proved=$LIBRARY
flags="-O2 -Wall -Wextra -Werror -std=c11"

# old FILE..: older than what was linked last, as a library may be.
old() { touch -d 2000-01-01 "$@"; }

$CC $flags -I"$root/include" -c -o "$work/wrong_library.o" "$root/tests/host/wrong_library.c"
old "$work/wrong_library.o"
wrapped=$(sed -n 's/^uint64_t \(tyttmose_[a-z]*\)(.*/,--wrap=\1/p' "$root/include/tyttmose.h" | tr -d '\n')
LIBRARY="$work/wrong_library.o -Wl$wrapped $proved"
