# The program convert on stored logs, against the second implementation's converter; on what cannot be read or written, and on
# other arguments. It has no exit status of its own: what is wrong is said on standard error.

convert=target/bin/convert
folder=$out/stored
mkdir "$folder"

# Converts file $1 by the second implementation: the new log is in $folder/wanted, and what is said in $folder/wanted.said.
wanted_of() { "$out/logs" convert <"$1" >"$folder/wanted" 2>"$folder/wanted.said" || true; }

# Holds what convert wrote to $folder/new, and said in $folder/said, to the second implementation. $1 names the log.
as_wanted() {
    cmp "$folder/new" "$folder/wanted" && cmp "$folder/said" "$folder/wanted.said" || {
        echo "convert differs from the second implementation on $1"
        return 1
    }
}

# The log $1 as a file that is named, as standard input, by a dash, and through a pipe.
converts() {
    wanted_of "$1"
    "$convert" "$1" >"$folder/new" 2>"$folder/said" </dev/null
    as_wanted "$1"
    "$convert" <"$1" >"$folder/new" 2>"$folder/said"
    as_wanted "$1 as standard input"
    "$convert" - <"$1" >"$folder/new" 2>"$folder/said"
    as_wanted "$1 by a dash"
    cat "$1" | "$convert" >"$folder/new" 2>"$folder/said"
    as_wanted "$1 through a pipe"
}

# Logs of any kind, whole and broken; no log at all; and a program that writes the log as it is is found out.
: >"$folder/empty"
converts "$folder/empty"
[ ! -s "$folder/new" ] && [ ! -s "$folder/said" ]
broken=0
for ((index = 0; index < 150; index++)); do
    "$out/logs" broken 7 "$index" >"$folder/log"
    converts "$folder/log"
    [ ! -s "$folder/said" ] || broken=$((broken + 1))
done
[ "$broken" -ge 40 ] && [ "$broken" -le 110 ] || { echo "$broken of the 150 logs are broken"; exit 1; }
printf '\2\0\1\0hi' >"$folder/log"
convert=cat must_fail 'differs from the second' converts "$folder/log"

# A log of several MB, and the same cut: inside a length, a kind and a body, and where a record ends.
"$out/logs" old 3 "$logs" >"$folder/long"
length=$(wc -c <"$folder/long")
[ "$length" -ge 2000000 ] || { echo "the long log has $length bytes only"; exit 1; }
converts "$folder/long"
[ ! -s "$folder/said" ]
for cut in 1 2 3 4 5 100 70000 140001 1000000 1999999; do
    head -c $((length - cut)) "$folder/long" >"$folder/log"
    converts "$folder/log"
done

# Pieces of every size, so that a record's length, kind and body come apart. The longest body stands between short ones.
{
    printf '\2\0\1\0hi\0\0\2\377\1\0\1\1x'
    printf '\377\377\2\0' && head -c $((0xffff)) /dev/zero | tr '\0' z
    printf '\0\0\0\0\377\0\1\0' && head -c 255 /dev/zero
} >"$folder/longest"
converts "$folder/longest"
head -c "$("$out/logs" old 3 40 | wc -c)" "$folder/long" >"$folder/log"
converts "$folder/log"
[ ! -s "$folder/said" ]
"$out/programs" pieces "$convert" "$folder/log"
for size in 1 7 1000 60001 100000; do
    dd if="$folder/longest" bs="$size" status=none | "$convert" >"$folder/new" 2>"$folder/said"
    wanted_of "$folder/longest"
    as_wanted "the longest body in pieces of $size"
done
(
    head -c 70001 "$folder/long"
    sleep 0.1
    tail -c +70002 "$folder/long"
) | "$convert" >"$folder/new" 2>"$folder/said"
wanted_of "$folder/long"
as_wanted 'a log that stops for a while'

# Its memory does not grow with the log: some 20 MB with less than half of that to use, which a program that holds the log
# whole cannot do with.
many() { for ((turn = 20000000 / length + 1; turn > 0; turn--)); do cat "$folder/long"; done; }
many | (ulimit -v 8000 && exec "$convert") >"$folder/new" 2>"$folder/said"
[ ! -s "$folder/said" ] && [ "$(wc -c <"$folder/new")" -gt 20000000 ]
head -c "$(wc -c <"$folder/wanted")" "$folder/new" | cmp - "$folder/wanted"
tail -c "$(wc -c <"$folder/wanted")" "$folder/new" | cmp - "$folder/wanted"
rm "$folder/new"
if many 2>/dev/null | (ulimit -v 8000 && exec "$out/logs" convert) >"$folder/new" 2>&1; then
    echo "a log can be held whole"
    exit 1
fi

# A new log that cannot be written: a full device, an output that is closed, and one that is closed on the way.
says() {
    local text
    text=$(cat "$folder/said")
    [ "$text" = "$1" ] || { printf 'convert says\n%s\nand not\n%s\n' "$text" "$1"; return 1; }
}
"$convert" "$folder/longest" >/dev/full 2>"$folder/said"
says 'the output cannot be written'
timeout 20 "$convert" "$folder/longest" >&- 2>"$folder/said"
says 'the output cannot be written'
printf '\3\0\1\0hi\n' >"$folder/line"
log_again() { while cat "$folder/line"; do :; done; }
ends_with 0 "$convert" log_again 2>"$folder/said"
says 'the output cannot be written'
(
    trap '' PIPE
    ends_with 0 "$convert" log_again 2>"$folder/said"
)
says 'the output cannot be written'
"$convert" </ >"$folder/new" 2>"$folder/said"
says 'the input cannot be read'

# Arguments: what is wrong is said in one line, and nothing is written.
convert_says() {
    local wanted=$1
    shift
    "$convert" "$@" >"$folder/new" 2>"$folder/said" <"$folder/longest"
    says "$wanted" || return 1
    [ ! -s "$folder/new" ] || { echo "convert writes something of $*"; return 1; }
}
name=$(printf '%5000s' | tr ' ' a)
convert_says "$folder/none: cannot be read: no such file" "$folder/none"
convert_says '/: cannot be read: it is a folder' /
convert_says $'a\xff: cannot be read: the name is not UTF-8' $'a\xff'
convert_says "$folder/log/a: cannot be read: a part of the path is no folder" "$folder/log/a"
convert_says 'argument 1: cannot be read: the name is empty' ''
convert_says 'argument 1: cannot be read: the name is too long' "$name"
convert_says "${name:0:300}: cannot be read: the name is too long" "${name:0:300}"
convert_says 'convert takes one log; convert --help says what there is' "$folder/log" "$folder/log"
convert_says 'convert takes one log; convert --help says what there is' --help --help
convert_says '--hlep: unknown option; convert --help says what there is' --hlep
convert_says '-x: unknown option; convert --help says what there is' -x
must_fail 'and not$' convert_says 'unknown' -x
help=$("$convert" --help 2>"$folder/said")
[[ $help == 'convert [FILE]'* && $(wc -l <<<"$help") -ge 5 && ! -s $folder/said ]] || {
    echo "convert --help writes '$help'"
    exit 1
}
echo "tests: convert on logs of every kind, whole and broken, on what cannot be read or written, and on options"
