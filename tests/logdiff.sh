# The program logdiff on pairs of logs, against the second implementation; on what cannot be read or written, on logs that
# change while they are compared, and on other arguments. It has no exit status of its own: standard output tells all, and a
# reason goes to standard error besides.

logdiff=target/bin/logdiff
folder=$out/differences
mkdir "$folder"
one=$folder/one other=$folder/other

# Holds what logdiff writes to $folder/told of the words behind $2 to $2; $1 is the reason on standard error, `*` for any.
tells() {
    local reason=$1 wanted=$2 text said words
    shift 2
    words=$*
    timeout 20 "$logdiff" "$@" >"$folder/told" 2>"$folder/said" || { echo "logdiff ended with $?: ${words:0:200}"; return 1; }
    text=$(cat "$folder/told") said=$(cat "$folder/said")
    [ "$text" = "$wanted" ] && [[ $reason == '*' || $said == "$reason" ]] || {
        printf 'logdiff writes\n%s\n%s\nand not\n%s\n%s\nof: %s\n' "$text" "$said" "$wanted" "$reason" "${words:0:200}"
        return 1
    }
}

# The sample logs are those that make.rs makes. By the README's own line, of which the program is there already, logdiff writes
# what the README and the samples' page show; the README's C function is one.
for name in good bad; do cmp "$out/samples/$name.log" "samples/$name.log"; done
section=$(sed -n '/^## Compare two stored logs$/,/^## Call/p' README.md)
together=$(block "$section" 1)
[[ $together == './build logdiff && '* ]] || { echo "the README does not build logdiff"; exit 1; }
printed=$(bash -euc "${together#*&& }" 2>&1)
page=$(sed -n '/^## What logdiff writes$/,$p' samples/README.md)
[ -n "$printed" ] && [ "$printed" = "$(block "$section" 2)" ] && [ "$printed" = "$(block "$page" 2)" ] || {
    printf 'the README or the samples page shows something else than logdiff prints:\n%s\n' "$printed"
    exit 1
}
head -c -1 samples/bad.log >"$folder/cut"
tells '' 'broken 2 184' samples/good.log "$folder/cut"
block "$section" 3 >"$folder/differences.c"
gcc -std=c99 -Wall -Wextra -Wpedantic -Wconversion -Werror -Iinclude -fsyntax-only "$folder/differences.c"

# The logs $1 and $2, as files that are named and with either as standard input, against the second implementation.
differs() {
    "$out/pairs" lines "$1" "$2" >"$folder/wanted"
    "$logdiff" "$1" "$2" >"$folder/told" 2>"$folder/said" </dev/null
    cmp "$folder/told" "$folder/wanted" || { echo "logdiff differs from the second implementation on $1 and $2"; return 1; }
    "$logdiff" - "$2" >"$folder/told" 2>/dev/null <"$1"
    cmp "$folder/told" "$folder/wanted" || { echo "logdiff differs with log 1 as standard input"; return 1; }
    "$logdiff" "$1" - >"$folder/told" 2>/dev/null <"$2"
    cmp "$folder/told" "$folder/wanted" || { echo "logdiff differs with log 2 as standard input"; return 1; }
}

# Pairs of any kind. That they have each kind of answer is counted, and a program that writes something else is found out.
equal=0 listed=0 broken=0
for ((index = 0; index < 200; index++)); do
    "$out/pairs" write 5 "$index" "$one" "$other"
    differs "$one" "$other"
    case $(head -c 6 "$folder/wanted") in
    '') equal=$((equal + 1)) ;;
    broken) broken=$((broken + 1)) ;;
    *) listed=$((listed + 1)) ;;
    esac
done
[ "$equal" -ge 10 ] && [ "$broken" -ge 20 ] && [ "$listed" -ge 80 ] || {
    echo "of the 200 pairs $equal are equal, $broken broken, $listed listed"
    exit 1
}
printf '\3\0\0\0\1\0abc\0\0\0\0\2\0' >"$one"
printf '\3\0\0\0\1\0abd\0\0\0\0\2\0\1\0\0\0\377\377z' >"$other"
tells '' $'1 3 3\n3 - 1' "$one" "$other"
tells '' $'1 3 3\n3 1 -' "$other" "$one"
tells '' '' "$one" "$one"
wrong_program() {
    printf '#!/usr/bin/env bash\n"%s" "$@" | %s\n' "$PWD/$logdiff" "$1" >"$folder/wrong"
    chmod +x "$folder/wrong"
}
for filter in 'sed 1d' 'sed \$d' 'tr - 0' "sed 's/\$/ /'" tac "sed 's/ \\(.*\\) \\(.*\\)/ \\2 \\1/'" \
    "awk '{ print \$1 - 1, \$2, \$3 }'"; do
    wrong_program "$filter"
    logdiff=$folder/wrong must_fail 'differs from the second' differs "$one" "$other"
done

# Each log cut at every byte; log 1's fault goes before any of log 2's.
length=$(wc -c <"$other")
for ((count = 0; count <= length; count++)); do
    head -c "$count" "$other" >"$folder/cut"
    differs "$folder/cut" "$other"
    differs "$other" "$folder/cut"
    differs "$folder/cut" "$folder/cut"
done
head -c 12 "$one" >"$folder/cut"
tells '*' 'broken 1 9' "$folder/cut" "$folder/none"
tells '*' 'broken 1 9' "$folder/cut" /
tells '*' 'broken 1 9' "$folder/cut" ''
tells '*' 'broken 1 9' "$folder/cut"
tells '*' 'broken 2 9' "$one" "$folder/cut"
tells '*' 'broken 1 9' "$folder/cut" "$folder/cut"
wrong_program "sed 's/ 9/ 10/'"
logdiff=$folder/wrong must_fail 'and not$' tells '*' 'broken 1 9' "$folder/cut" "$one"

# What cannot be read: as log 1, as log 2, and as both.
unread() {
    local reason=$1 name=$2
    tells "$reason" 'unread 1' "$name" "$one"
    tells "$reason" 'unread 2' "$one" "$name"
    tells "$reason" 'unread 1' "$name" "$name"
    tells "$reason" 'unread 1' "$name" "$folder/cut"
}
long_name=$(printf '%5000s' | tr ' ' a)
unread "$folder/none: cannot be read: no such file" "$folder/none"
unread '/: cannot be read: it is a folder' /
unread "$one/a: cannot be read: a part of the path is no folder" "$one/a"
unread "${long_name:0:300}: cannot be read: the name is too long" "${long_name:0:300}"
for name in '' "$long_name"; do
    reason="cannot be read: the name is $([ -z "$name" ] && echo empty || echo too long)"
    tells "argument 1: $reason" 'unread 1' "$name" "$one"
    tells "argument 2: $reason" 'unread 2' "$one" "$name"
    tells "argument 1: $reason" 'unread 1' "$name" "$name"
done
must_fail 'and not$' tells '*' 'unread 2' "$folder/none" "$one"
must_fail 'and not$' tells 'no such file' 'unread 1' "$folder/none" "$one"

# A pipe, which has no places: a named one, one that the shell makes, and standard input, which may also be closed.
mkfifo "$folder/pipe"
exec 8<>"$folder/pipe"
unread "$folder/pipe: cannot be read: it is a pipe" "$folder/pipe"
exec 8>&-
tells '*' 'unread 1' <(cat "$one") "$one"
tells '*' 'unread 2' "$one" <(cat "$one")
cat "$one" | tells '-: cannot be read: it is a pipe' 'unread 1' - "$one"
cat "$one" | tells '-: cannot be read: it is a pipe' 'unread 2' "$one" -
tells '*' 'unread 1' - "$one" <&-

# Standard input that is a file is read from its first byte on, also where another has read of it, and as both logs.
tells '' '' - - <"$one"
tells '' $'1 3 3\n3 - 1' - "$other" <"$one"
(
    head -c 4 >/dev/null
    tells '' $'1 3 3\n3 - 1' - "$other"
) <"$one"
tells '' '' /dev/null /dev/null
tells '' $'1 3 -\n2 0 -' "$one" /dev/null

# A file that may not be read. Who runs as root may read all, and so becomes another user, in a folder that all may enter.
as_nobody=()
[ "$(id -u)" -ne 0 ] || as_nobody=(setpriv --reuid=65534 --regid=65534 --clear-groups)
shared=$(mktemp -d)
chmod 755 "$shared"
cp "$logdiff" "$one" "$shared"
chmod 755 "$shared/logdiff"
cp "$one" "$shared/hidden"
chmod 000 "$shared/hidden"
as_another() { "${as_nobody[@]}" "$shared/logdiff" "$@" 2>"$folder/said"; }
if [ "$(as_another "$shared/one" "$shared/one")" = '' ] && [ ! -s "$folder/said" ]; then
    [ "$(as_another "$shared/hidden" "$shared/one")" = 'unread 1' ] &&
        [ "$(as_another "$shared/one" "$shared/hidden")" = 'unread 2' ] || {
        echo "logdiff reads a file that may not be read"
        exit 1
    }
    grep -q "^$shared/hidden: cannot be read: " "$folder/said" || { cat "$folder/said"; exit 1; }
else
    echo "tests: left out: logdiff on a file that may not be read, for no other user can run it here"
fi
rm -rf "$shared"

# Too few arguments, and too many, of which none is read; options.
usage='logdiff takes two logs; logdiff --help says what there is'
tells "$usage" 'unread 1'
tells "$usage" 'unread 2' "$one"
tells '*' 'unread 1' "$folder/none"
tells "$usage" 'unread 3' "$one" "$one" "$one"
tells "$usage" 'unread 3' "$folder/cut" "$folder/none" '' "$one"
tells '*' 'unread 1' --hlep "$one"
tells '*' 'unread 2' "$one" -x
tells '*' 'unread 1' --help --help
help=$("$logdiff" --help 2>"$folder/said")
[[ $help == 'logdiff LOG1 LOG2'* && $(wc -l <<<"$help") -ge 5 && ! -s $folder/said ]] || {
    echo "logdiff --help writes '$help'"
    exit 1
}

# Logs of several MB, and the same with a byte changed near the end, a record more, and cut.
"$out/pairs" long 3 20000 "$folder/first" "$folder/second"
for name in first second; do
    length=$(wc -c <"$folder/$name")
    [ "$length" -ge 4000000 ] || { echo "the long log $name has $length bytes only"; exit 1; }
done
differs "$folder/first" "$folder/second"
lines=$(wc -l <"$folder/wanted")
[ "$lines" -ge 5000 ] || { echo "the long logs have $lines entries only"; exit 1; }
differs "$folder/first" "$folder/first"
[ ! -s "$folder/wanted" ]
cat "$folder/first" "$other" >"$folder/more"
differs "$folder/first" "$folder/more"
[ "$(wc -l <"$folder/wanted")" -eq 3 ]
cat "$folder/first" "$one" "$folder/second" >"$folder/long"
differs "$folder/more" "$folder/long"
for cut in 1 5 70000 1000000; do
    head -c $((length - cut)) "$folder/second" >"$folder/cut"
    differs "$folder/first" "$folder/cut"
done
[[ $(cat "$folder/wanted") == 'broken 2 '* ]]

# Its memory does not grow with the logs: some 20 MB each with less than half of that to use, which a program that holds a
# log whole cannot do with.
many() { for ((turn = 20000000 / length + 1; turn > 0; turn--)); do cat "$folder/$1"; done; }
many first >"$folder/first_many"
many second >"$folder/second_many"
(ulimit -v 8000 && exec "$logdiff" "$folder/first_many" "$folder/second_many") >"$folder/told" 2>"$folder/said"
"$out/pairs" lines "$folder/first_many" "$folder/second_many" | cmp - "$folder/told"
[ ! -s "$folder/said" ]
if (ulimit -v 8000 && exec "$out/pairs" lines "$folder/first_many" "$folder/second_many") >"$folder/told" 2>&1 &&
    [[ $(head -c 6 "$folder/told") != unread ]]; then
    echo "two logs can be held whole"
    exit 1
fi
rm "$folder/second_many"

# A list that cannot be written: a full device, an output that is closed, and one that is closed on the way. Where nothing is
# to be written, nothing is wrong.
says() {
    local text
    text=$(cat "$folder/said")
    [ "$text" = "$1" ] || { printf 'logdiff says\n%s\nand not\n%s\n' "$text" "$1"; return 1; }
}
timeout 20 "$logdiff" "$one" "$other" >/dev/full 2>"$folder/said"
says 'the output cannot be written'
timeout 20 "$logdiff" "$folder/first" "$folder/second" >/dev/full 2>"$folder/said"
says 'the output cannot be written'
timeout 20 "$logdiff" "$one" "$other" >&- 2>"$folder/said"
says 'the output cannot be written'
timeout 20 "$logdiff" "$one" "$one" >/dev/full 2>"$folder/said"
says ''
# Runs logdiff on two long logs, and closes its output behind the first line. $1 is the status that it ends with.
closed_on_the_way() {
    local status
    {
        timeout 20 "$logdiff" "$folder/first_many" /dev/null 2>"$folder/said" &&
            echo 0 >"$folder/status" || echo $? >"$folder/status"
    } | head -n 1 >"$folder/line"
    status=$(cat "$folder/status")
    [ "$status" -eq "$1" ] && [ -s "$folder/line" ] || { echo "logdiff ended with $status, not $1"; return 1; }
}
closed_on_the_way 0
says 'the output cannot be written'
(
    trap '' PIPE
    closed_on_the_way 0
)
says 'the output cannot be written'

# Logs that change while they are compared. The list is far longer than a pipe holds, so that the program waits for the reader
# behind its first line, when both logs were read through; then log 1 or 2, a copy, is changed by the words behind $1, which is
# the line that must end the list. What is before it is the front of the list as it was.
changes() {
    local wanted=$1 first_line last child
    shift
    cp "$folder/first_many" "$folder/changing"
    : >"$folder/nothing"
    "$out/pairs" lines "${order[@]}" >"$folder/wanted"
    [ "$(wc -c <"$folder/wanted")" -ge 300000 ] || { echo "the list is too short"; return 1; }
    timeout 60 "$logdiff" "${order[@]}" >"$folder/pipe" 2>"$folder/said" &
    child=$!
    exec 8<"$folder/pipe"
    IFS= read -r first_line <&8
    "$@"
    { printf '%s\n' "$first_line"; cat <&8; } >"$folder/told"
    exec 8<&-
    wait "$child"
    if [ -n "$wanted" ]; then
        last=$(tail -n 1 "$folder/told")
        [ "$last" = "$wanted" ] || { echo "the list ends with $last, and not $wanted"; return 1; }
        head -n -1 "$folder/told" >"$folder/front"
        head -c "$(wc -c <"$folder/front")" "$folder/wanted" | cmp - "$folder/front"
    else
        cmp "$folder/told" "$folder/wanted"
    fi
}
spoil() { head -c 9000000 /dev/zero | tr '\0' '\377' | dd of="$folder/changing" bs=1M seek=10 conv=notrunc status=none; }
order=("$folder/changing" "$folder/nothing")
changes 'changed 1' truncate -s 3000000 "$folder/changing"
changes 'changed 1' truncate -s 0 "$folder/changing"
changes 'changed 1' spoil
changes '' eval 'cat "$one" >>"$folder/changing"'
changes '' eval 'printf x >>"$folder/changing"'
changes '' :
order=("$folder/nothing" "$folder/changing")
changes 'changed 2' truncate -s 3000000 "$folder/changing"
changes 'changed 2' spoil
changes '' eval 'printf x >>"$folder/changing"'
must_fail 'the list ends with' changes 'changed 1' truncate -s 3000000 "$folder/changing"
rm "$folder/changing" "$folder/first_many"
echo "tests: logdiff on pairs of every kind, on what cannot be read or written, on logs that change, and on options"
