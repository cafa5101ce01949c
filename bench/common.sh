# What several scripts of this folder use, from the repository's top: `first` is the words that let a program run before others,
# where the system allows it; `made NAME..` makes programs where they are missing or older than their sources, and ends the script
# where one is not made; `libavcodec` runs the program of bench/libavcodec.c, and fails where libavcodec's headers are not
# installed, which it says.
# shellcheck shell=bash
first="chrt -f 1"
$first true 2>/dev/null || first=

# A program that is called without words says `usage`, with status 2; where it could not be made, that does not come of it.
made() {
    local name said status
    for name in "$@"; do
        status=0
        said=$("./$name" 2>&1 </dev/null) || status=$?
        if [ "$status" -ne 2 ] || ! grep -qx usage <<<"$said"; then
            printf '%s\n%s: not made, its call without words ends with %s\n' "$said" "$name" "$status" >&2
            exit 1
        fi
    done
}

libavcodec() {
    if ! gcc -O2 -o bench/out/libavcodec bench/libavcodec.c -lavcodec -lavutil 2>/dev/null; then
        echo "libavcodec's headers are not installed: nothing is compared with it" >&2
        return 1
    fi
    $first bench/out/libavcodec "$@"
}
