# compiling.sh: the beginning of a run that needs Python and a C compiler. The run sources it. The variable `here` names the folder of the
# run, and `subject` the object of its tests. It makes the folder `room`, which goes away at the end, finds `python`, and defines functions.
room=$(mktemp -d)
memory=
trap 'rm -rf "$room" "$memory"' EXIT
trap 'exit 1' HUP INT TERM

# leave WHY: says why nothing is run, and ends.
leave() {
    echo "left out: $subject: $1"
    echo '0 passed, 0 failed, 1 skipped'
    exit 0
}

python=$("$here/../new-python")
[ -n "$python" ] || leave 'Python 3.10 or newer is missing'
command -v cc > "$room/cc" || leave 'a C compiler `cc` is missing'
printf '#define _GNU_SOURCE\n#include <dlfcn.h>\n#include <sys/mman.h>\n' > "$room/empty.c"
printf 'int main(void) { return memfd_create("", 0) < 0; }\n' >> "$room/empty.c"
cc -o "$room/empty" "$room/empty.c" -ldl 2> "$room/errors" || leave "$(head -n 1 "$room/errors")"

# build WORD..: compiles one of our own files; if that fails with a compiler that works, so does the run.
build() {
    cc -O2 "$@" 2> "$room/errors" && return
    cat "$room/errors"
    echo '0 passed, 1 failed'
    exit 1
}

# build_refusing: compiles the library that refuses calls, and the program that prints names that collide.
build_refusing() {
    build -fPIC -shared -o "$room/refuse.so" "$here/../shared/refuse.c" -ldl
    build -o "$room/collide" "$here/../shared/collide.c"
}
