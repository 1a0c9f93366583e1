# The program receive on the files that its arguments name, and on other arguments.

# Runs receive with the arguments behind $1, and holds what it writes to $1.
receives() {
    local wanted=$1 text words
    shift
    words=$*
    text=$("$receive" "$@" 2>&1 </dev/null) || { echo "receive ended with $?: $*"; return 1; }
    [ "$text" = "$wanted" ] || {
        printf 'receive wrote\n%s\nand not\n%s\nof: %s\n' "$text" "$wanted" "${words:0:200}"
        return 1
    }
}
lines_of() { "$receive" <"$1"; }

# A wrong copy lets a quote through: it is found out on the strings of the program's own test.
"$out/programs" samples "$receive" crates/receive/stdin
must_fail 'and not$' "$wrong_quotes/programs" samples "$receive" crates/receive/stdin

# Data of as many bytes as a frame can have is written whole: as text, which fills one line with a byte for each, and in hex,
# with two for each. $1 is one byte of it, $2 what stands for it, and $3 what stands before the quotes.
long_line() {
    {
        printf '\x10\0\0\1\0\1\1\x19\xa2\x44name\x43set\x44args\xa0'
        printf '\xff\xff\0\1\0\1\2\x22'
        printf '%*s' "$length" '' | tr ' ' "$1"
    } >"$out/long.capture"
    {
        echo "command 1 data 1 loose 0 name 'set' args {}"
        printf 'data 1 last 1 %d bytes %s' "$length" "$3'"
        printf "$2%.0s" $(seq "$length")
        echo "'"
    } >"$out/long.lines"
    "$receive" "$out/long.capture" | cmp - "$out/long.lines"
    "$receive" <"$out/long.capture" | cmp - "$out/long.lines"
    "$out/programs" samples "$receive" "$out/long.capture"
}
length=$(sed -n 's/^#define HGRPC_PAYLOAD_LONGEST \([0-9]*\) .*/\1/p' include/hgrpc.h)
long_line x x ''
long_line '\0' 00 h
[ "$("$receive" "$out/long.capture" | tail -n 1 | sed "s/.*h'//" | tr -d "'\n" | wc -c)" -eq $((2 * length)) ]
must_fail 'and not$' "$wrong_cut/programs" samples "$receive" "$out/long.capture"

# One file is read as standard input is. Of several, each is a channel of its own below its name, a refused one and an empty one too.
damaged=samples/damaged.capture laptops=samples/two-laptops.capture
for capture in samples/*.capture; do
    receives "$(lines_of "$capture")" "$capture"
done
: >"$out/empty"
receives "$damaged:
$(lines_of "$damaged")
$laptops:
$(lines_of "$laptops")
$out/empty:
$damaged:
$(lines_of "$damaged")" "$damaged" "$laptops" "$out/empty" "$damaged"
must_fail 'and not' receives "$(lines_of "$damaged")" "$laptops"

# A dash is standard input.
[ "$("$receive" - <"$laptops")" = "$(lines_of "$laptops")" ]
[ "$("$receive" "$damaged" - <"$laptops")" = "$damaged:
$(lines_of "$damaged")
-:
$(lines_of "$laptops")" ]

# What cannot be read is said in one line, and the next file is read.
receives "$out/missing: cannot be read: no such file
/: cannot be read: it is a folder
$laptops:
$(lines_of "$laptops")" "$out/missing" / "$laptops"
receives '/: cannot be read: it is a folder' /
receives "$laptops/a: cannot be read: a part of the path is no folder" "$laptops/a"

# An argument that names no file: empty, 5,000 bytes, and as long as the longest path and its end.
long=$(printf '%5000s' | tr ' ' a)
receives 'argument 1: cannot be read: the name is empty' ''
receives "argument 1: cannot be read: the name is too long
$laptops:
$(lines_of "$laptops")
argument 3: cannot be read: the name is empty" "$long" "$laptops" ''
receives "${long:0:4096}: cannot be read: the name is too long" "${long:0:4096}"
receives "${long:0:300}: cannot be read: the name is too long" "${long:0:300}"

# Options, each at its place.
receives '--hlep: unknown option; receive --help says what there is' --hlep
receives "-x: unknown option; receive --help says what there is
$laptops:
$(lines_of "$laptops")" -x "$laptops"
help=$("$receive" --help)
[[ $help == 'receive [FILE]..'* && $(wc -l <<<"$help") -ge 5 ]] || { echo "receive --help writes '$help'"; exit 1; }
receives "$laptops:
$(lines_of "$laptops")
$help" "$laptops" --help
while read -r line; do
    case $line in
    command* | data* | refused*) grep -qxF -- "$line" samples/README.md || { echo "no sample has the help's line $line"; exit 1; } ;;
    esac
done <<<"$help"

# More files than can be open at once.
many=()
while [ "${#many[@]}" -lt 100 ]; do many+=("$out/empty"); done
(
    ulimit -n 20
    [ "$("$receive" "${many[@]}" | grep -c "^$out/empty:$")" -eq 100 ]
)
echo "tests: receive on files, on what cannot be read, and on options"
