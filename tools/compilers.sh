# The compilers, the standards and the warnings with which header, examples and acceptance test must compile. For `.` in a script.
# shellcheck shell=sh disable=SC2034 # used where it is read in
warnings="-Wall -Wextra -Wpedantic -Wconversion -Werror"

# Runs a command with the words of each compiler in turn as its last argument.
each_compiler() {
    for compiler in "gcc -std=c99" "gcc -std=c11" "g++ -x c++ -std=c++17" \
        "clang -std=c99" "clang -std=c11" "clang++ -x c++ -std=c++17"; do
        "$@" "$compiler" || return 1
    done
}
