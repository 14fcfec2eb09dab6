# Functions of callers/run and callers/run-unproved. Both source it in callers/. `out` is the folder for their output and
# has both archives. The last line of a run is `N passed, M failed`, or `N passed, M failed, K skipped`.
both="$out/libcedar_c.a $out/liblibc_c.a"
warn="-std=c11 -Wall -Wextra -Wpedantic -Werror"
# The tests in C with their titles, and the examples, whose output is compared.
c_tests=(calls values bodies deep_copy numbers validity queries helpers)
declare -A c_titles=(
    [calls]="calls from C" [values]="values from C" [bodies]="bodies of policies from C"
    [deep_copy]="deep copies from C" [numbers]="numbers of uids from C"
    [validity]="validation of policy sets from C" [queries]="questions of administrators from C"
    [helpers]="helpers of the headers in C")
c_examples=(example guide authorizer)
# The options for c/deep_copy.c: threads, and its own allocation functions, which record each block.
record_blocks="-pthread -Wl,--wrap=malloc -Wl,--wrap=realloc -Wl,--wrap=calloc -Wl,--wrap=posix_memalign"
record_blocks+=" -Wl,--wrap=free"
passed=0
failed=0
skipped=0

# Reports a fault and counts it.
fault() {
    echo "callers: $1"
    failed=$((failed + 1))
}

# Reports a missing tool and counts the skipped part. Arguments: the tool, the part.
without() {
    echo "callers: $1 is missing: NOT RUN: $2"
    skipped=$((skipped + 1))
}

# Returns whether a tool is installed and starts.
has() {
    "$@" > /dev/null 2>&1
}

# Prints the counts and exits.
ended() {
    if [ "$skipped" -eq 0 ]; then
        echo "$passed passed, $failed failed"
    else
        echo "$passed passed, $failed failed, $skipped skipped"
    fi
    [ "$failed" -eq 0 ]
    exit
}

# Runs a program whose last line is `N passed, M failed`, or `N passed, M failed, K skipped`, and adds up its counts.
# Arguments: a title, then the command.
counted() {
    local what=$1 status=0 counts form='^[0-9]* passed, [0-9]* failed(, [0-9]* skipped)?$'
    shift
    "$@" > "$out/one" 2>&1 || status=$?
    grep -vE "$form" "$out/one"
    counts=$(grep -E "$form" "$out/one" | tail -n 1)
    if [ -z "$counts" ]; then
        fault "$what ended with status $status and printed no count"
        return
    fi
    echo "callers: $what: $counts"
    passed=$((passed + $(echo "$counts" | cut -d' ' -f1)))
    failed=$((failed + $(echo "$counts" | cut -d' ' -f3)))
    skipped=$((skipped + $(echo "$counts 0 0" | cut -d' ' -f5)))
    if [ "$status" -ne 0 ] && [ "$(echo "$counts" | cut -d' ' -f3)" -eq 0 ]; then
        fault "$what ended with status $status"
    fi
}

# Checks that a command writes exactly the content of a file. Arguments: a title, the file, then the command.
writes() {
    local what=$1 expected=$2 status=0
    shift 2
    "$@" > "$out/one" 2> "$out/errors" || status=$?
    if [ "$status" -eq 0 ] && diff "$out/one" "$expected"; then
        echo "callers: $what: passed"
        passed=$((passed + 1))
    else
        cat "$out/errors"
        fault "$what ended with status $status, or its output differs from $expected"
    fi
}

# Prints the options of gcc that a program in C needs besides the library. Argument: its name.
c_options() {
    [ "$1" = deep_copy ] && echo "$record_blocks"
}

# Builds a program in C. Arguments: the name of the program, the name of the output, then options of gcc.
built() {
    gcc -g $warn $(c_options "$1") "${@:3}" -o "$out/$2" "c/$1.c" $both
}

# Builds and runs the tests and the examples in C.
c_programs() {
    local name
    for name in "${c_tests[@]}" "${c_examples[@]}"; do
        if ! built "$name" "$name" -O2; then
            fault "c/$name.c was not built"
        elif [ -f "c/$name.out" ]; then
            writes "the $name in C" "c/$name.out" "$out/$name"
        else
            counted "${c_titles[$name]}" "$out/$name"
        fi
    done
}

# Runs the tests and the examples in C with the sanitizers of gcc, if gcc has them.
in_c_sanitized() {
    has gcc --version || return
    local name sanitizers="-fsanitize=address,undefined -fno-sanitize-recover=all"
    echo 'int main(void) { return 0; }' > "$out/empty.c"
    if ! gcc $sanitizers -o "$out/empty" "$out/empty.c" 2> /dev/null || ! "$out/empty"; then
        without "sanitizer for gcc" "the calls from C with the address and undefined behaviour sanitizers"
        return
    fi
    for name in "${c_tests[@]}" "${c_examples[@]}"; do
        if ! built "$name" "${name}_sanitized" -O1 $sanitizers; then
            fault "c/$name.c was not built with sanitizers"
        elif [ -f "c/$name.out" ]; then
            writes "the $name in C, with sanitizers" "c/$name.out" "$out/${name}_sanitized"
        else
            counted "${c_titles[$name]}, with sanitizers" "$out/${name}_sanitized"
        fi
    done
}

# Runs the tests and the examples in C with valgrind. Argument: the kinds of leaks that are errors. Memory that the
# runtime of Rust keeps reachable is not a leak, so the library without its proof needs other kinds.
in_c_with_valgrind() {
    local name watch="valgrind -q --leak-check=full --error-exitcode=9 --errors-for-leak-kinds=$1"
    if ! has valgrind --version; then
        without valgrind "the tests in C with valgrind"
        return
    fi
    for name in "${c_tests[@]}"; do
        counted "${c_titles[$name]}, with valgrind" $watch "$out/$name"
    done
    for name in "${c_examples[@]}"; do
        writes "the $name in C, with valgrind" "c/$name.out" $watch "$out/$name"
    done
}

# Compiles the headers and the programs over them as C11, C17 and C++17, without a warning. Checks that a result that
# is not used, and a number in place of an enum in C++, are reported.
in_dialects() {
    local standard name options="-Wall -Wextra -Wpedantic -Werror -Ic"
    has gcc --version || return
    for standard in c11 c17; do
        for name in authorizer guide example helpers; do
            compiles "c/$name.c as $standard" gcc -std=$standard $options -fsyntax-only "c/$name.c"
        done
    done
    compiles "c/example.c without checks" gcc -std=c11 $options -DCEDAR_UNCHECKED -o "$out/unchecked" c/example.c $both &&
        writes "the example in C, without checks" c/example.out "$out/unchecked"
    echo '#include "cedar.h"
int main(void) { cedar_store s = CEDAR_EMPTY; cedar_store_new(&s, 0, 0); return 0; }' > "$out/unused.c"
    reports "a result that is not used" 'unused.result' gcc -std=c11 $options -c -o "$out/unused.o" "$out/unused.c"
    if ! has g++ --version; then
        without g++ "the headers in C++"
        return
    fi
    for name in authorizer guide helpers; do
        if compiles "c/$name.c as c++17" g++ -std=c++17 $options -g -o "$out/${name}_cpp" -x c++ "c/$name.c" -x none \
            $both; then
            if [ -f "c/$name.out" ]; then
                writes "the $name in C++" "c/$name.out" "$out/${name}_cpp"
            else
                counted "${c_titles[$name]}++" "$out/${name}_cpp"
            fi
        fi
    done
    echo '#include "cedar.h"
cedar_mode mode() { return 1; }' > "$out/number.cpp"
    reports "a number in place of an enum" 'invalid conversion' g++ -std=c++17 $options -fsyntax-only "$out/number.cpp"
}

# Counts a command of a compiler as passed if it succeeds. Arguments: a title, then the command.
compiles() {
    local what=$1
    shift
    if "$@"; then
        passed=$((passed + 1))
    else
        fault "$what does not compile"
        return 1
    fi
}

# Checks that a compiler reports an error. Arguments: a title, a pattern in the error, then the command.
reports() {
    local what=$1 pattern=$2
    shift 2
    if ! "$@" 2> "$out/errors" && grep -q "$pattern" "$out/errors"; then
        passed=$((passed + 1))
    else
        cat "$out/errors"
        fault "$what is not reported"
    fi
}

# Installs the library into a folder of its own, and builds the example only from the installed files, without the
# checkout.
in_c_installed() {
    has gcc --version || return
    local tool prefix="$PWD/$out/prefix"
    for tool in make pkg-config objcopy nm; do
        if ! has $tool --version; then
            without $tool "the installation of the library for C by make"
            return
        fi
    done
    rm -rf "$out/prefix" "$out/installed"
    if ! make -s -C c install LIBRARIES="$PWD/$out" PREFIX="$prefix" > "$out/one" 2>&1; then
        cat "$out/one"
        fault "make install failed"
        return
    fi
    cp c/example.c c/calls.c c/short.h "$prefix"
    local options static_options
    options=$(PKG_CONFIG_PATH="$prefix/lib/pkgconfig" pkg-config --cflags --libs cedar)
    static_options=$(PKG_CONFIG_PATH="$prefix/lib/pkgconfig" pkg-config --cflags --libs --static cedar)
    over_installed example shared $options
    over_installed calls shared $options
    over_installed example static -Wl,-Bstatic $static_options -Wl,-Bdynamic
    over_installed calls static -Wl,-Bstatic $static_options -Wl,-Bdynamic
    names "$prefix/lib/libcedar.so.0" -D
    names "$prefix/lib/libcedar.a" -g
    says_unproved "$prefix"
    if make -s -C c uninstall PREFIX="$prefix" > "$out/one" 2>&1 &&
        [ -z "$(find "$prefix/lib" "$prefix/include" ! -type d)" ]; then
        passed=$((passed + 1))
    else
        cat "$out/one"
        fault "make uninstall leaves files"
    fi
}

# Builds a program in C with an installed library, and runs it. Arguments: its name, the kind of library, the options of
# gcc.
over_installed() {
    local name=$1 kind=$2 what="the example in C"
    shift 2
    [ "$name" = calls ] && what="calls from C"
    what="$what, with the installed $kind library"
    if ! gcc -O2 $warn -o "$out/prefix/$name" "$out/prefix/$name.c" "$@"; then
        fault "$what: not built"
    elif [ "$name" = calls ]; then
        counted "$what" env LD_LIBRARY_PATH="$out/prefix/lib" "$out/prefix/calls"
    else
        writes "$what" c/example.out env LD_LIBRARY_PATH="$out/prefix/lib" "$out/prefix/example"
    fi
}

# Checks that a library exports exactly the functions of the headers. Arguments: its path, an option of nm.
names() {
    (cd .. && python3 -B tools/c_header.py --names) > "$out/declared"
    nm "$2" --defined-only "$1" | awk 'NF == 3 { print $3 }' | sort > "$out/exported"
    if [ -s "$out/exported" ] && diff "$out/declared" "$out/exported"; then
        echo "callers: the names that $(basename "$1") exports: passed"
        passed=$((passed + 1))
    else
        fault "$1 does not export exactly the functions of the headers"
    fi
}

# Checks that the installed header and the pkg-config file say that the library is not proved, if and only if it is not.
# Argument: the folder.
says_unproved() {
    local expected=0 said
    [ "$out" = out/try ] && expected=2
    said=$(grep -l -e 'NOT PROVED' -e ', not proved$' "$1/include/cedar.h" "$1/lib/pkgconfig/cedar.pc" | wc -l)
    if [ "$said" = "$expected" ] &&
        [ "$(grep -c '^#define CEDAR_UNPROVED' "$1/include/cedar.h")" = $((expected / 2)) ]; then
        passed=$((passed + 1))
    else
        fault "the installed files do not say correctly whether the library is proved"
    fi
}

# Runs the test of deep copies on threads, with two tools. The thread sanitizer checks the test program and the
# allocations. helgrind checks the library too.
in_c_on_threads() {
    has gcc --version || return
    echo 'int main(void) { return 0; }' > "$out/empty.c"
    if ! gcc -fsanitize=thread -o "$out/empty" "$out/empty.c" 2> /dev/null || ! "$out/empty"; then
        without "thread sanitizer for gcc" "deep copies from C with it"
    elif gcc -O1 -g $warn -fsanitize=thread $record_blocks -o "$out/deep_copy_threads" c/deep_copy.c $both; then
        counted "deep copies from C, with the thread sanitizer" "$out/deep_copy_threads"
    else
        fault "the test of deep copies was not built with the thread sanitizer"
    fi
    if has valgrind --version; then
        counted "deep copies from C, with helgrind" valgrind -q --tool=helgrind --error-exitcode=9 "$out/deep_copy"
    else
        without valgrind "deep copies from C with helgrind"
    fi
}

# Builds the library that the Python package loads. It exports only the names of the header.
shared_library() {
    gcc -shared -fPIC -o "$out/libcedar.so" -Wl,-soname,libcedar.so.0 -Wl,--version-script=c/cedar.map \
        -Wl,--whole-archive $both -Wl,--no-whole-archive
}

# Checks the type annotations of the package and of the examples, and runs the example whose types are narrowed.
python_types() {
    writes "the narrowing example in Python" python/narrowing.out python3 -B -X dev -W error python/narrowing.py
    if ! has mypy --version; then
        without mypy "the type annotations of the Python package"
    elif mypy --strict --cache-dir="$out/mypy" python/cedar_store python/{example,guide,narrowing}.py > "$out/one"; then
        echo "callers: the type annotations of the Python package: passed"
        passed=$((passed + 1))
    else
        cat "$out/one"
        fault "mypy reports errors in the Python package"
    fi
}

# Builds the wheel and the source distribution, and runs the example with each in a new environment that does not use
# the checkout. Installs the checkout too, as it is and editable.
in_python_installed() {
    if ! has python3 -c 'import ensurepip, venv'; then
        without "python3 with venv" "the Python wheel"
        return
    fi
    rm -rf "$out/wheels" "$out/venv"
    local wheel sdist proved=True
    [ "$out" = out/try ] && proved=False
    export CEDAR_LIBRARY="$PWD/$out/libcedar.so" PYTHONDONTWRITEBYTECODE=1
    mkdir -p "$out/wheels/again"
    if ! wheel=$(python/build "$out/wheels") || ! in_venv -m pip wheel -q --no-index --no-deps -w "$out/wheels/again" \
        ./python || ! cmp "$wheel" "$out/wheels/again/$(basename "$wheel")"; then
        cat "$out/one"
        fault "pip does not build the same wheel of callers/python as callers/python/build"
        return
    fi
    sdist=$out/wheels/$(cd python && python3 -B -c 'import sys, wheel_builder as w; print(w.build_sdist(sys.argv[1]))' \
        "$PWD/../$out/wheels")
    installs "the wheel" "$wheel"
    installs "the source distribution" "$sdist"
    installs "pip install ." ./python
    installs "pip install -e ." -e ./python
    unset CEDAR_LIBRARY PYTHONDONTWRITEBYTECODE
}

# Runs the Python of the environment, and makes it first.
in_venv() {
    { [ -d "$out/venv" ] || python3 -m venv "$out/venv"; } && "$out/venv/bin/python" "$@" > "$out/one" 2>&1
}

# Installs the package with pip, runs the example, and checks what the package says of its library. Arguments: a title,
# then the argument of pip.
installs() {
    local what=$1 summary
    shift
    if ! in_venv -m pip --disable-pip-version-check install -q --no-index --no-deps --force-reinstall "$@"; then
        cat "$out/one"
        fault "$what was not installed"
        return
    fi
    cp python/example.py "$out/venv/"
    # An editable installation finds the library in the checkout, the others their own.
    [ "$1" = -e ] || unset CEDAR_LIBRARY
    writes "the example in Python, with $what" python/example.out "$out/venv/bin/python" -I "$out/venv/example.py"
    summary=$("$out/venv/bin/python" -I -c 'import cedar_store, importlib.metadata as m
text = m.metadata("cedar-store")
print(cedar_store.__proved__, "unproved" not in text["Summary"], "NOT PROVED" not in str(text.get_payload()))')
    export CEDAR_LIBRARY="$PWD/$out/libcedar.so"
    if [ "$summary" = "$proved $proved $proved" ]; then
        passed=$((passed + 1))
    else
        fault "$what does not say correctly whether its library is proved: $summary"
    fi
}

# Checks that the pages show only lines of the examples that were run.
shown() {
    lines_shown ../README.md rust rust/examples/staff.rs
    lines_shown ../README.md python python/example.py
    lines_shown ../README.md c c/example.c
    lines_shown c/README.md c c/example.c
    lines_shown rust/README.md rust rust/examples/staff.rs
    lines_shown python/README.md python python/example.py
}

# Checks that a page shows only lines of an example in a language. Arguments: the page, the language, the file.
lines_shown() {
    local lines
    lines=$(awk -v begins="\`\`\`$2" '/^```/ { shows = $0 == begins; next } shows' "$1")
    if [ -n "$lines" ] && ! grep -Fxv -f "$3" <<< "$lines"; then
        passed=$((passed + 1))
    else
        fault "$1 shows lines that are not in $3, or none"
    fi
}

# Prints the number of tests that cargo reports as passed or failed. Argument: `passed` or `failed`.
tests() {
    grep '^test result: ' "$out/rust" | sed -E "s/.* ([0-9]+) $1.*/\1/" | awk '{ n += $1 } END { print n + 0 }'
}

# Runs the tests of the Rust crate, and takes the counts from cargo.
rust_tests() {
    (cd rust && cargo test --offline --no-fail-fast) > "$out/rust" 2>&1
    local status=$?
    grep -E '^(error|warning|thread|test .* FAILED)' "$out/rust"
    echo "callers: the tests of the Rust crate: $(tests passed) passed, $(tests failed) failed"
    passed=$((passed + $(tests passed)))
    failed=$((failed + $(tests failed)))
    if [ "$status" -ne 0 ] && [ "$(tests failed)" -eq 0 ]; then
        tail -n 20 "$out/rust"
        fault "the tests of the Rust crate did not run"
    fi
    counted "the examples in the comments of cedar-store, with the Rust crate" rust/doc_examples.py "$out/doc_examples"
}
