# The programs run as users run them, for what no proof covers.

receive=target/bin/receive
replay=$out/replay
lines=tests/replay_lines/requests.txt

# The samples are those that make.rs makes, but for Mercurial's two, which need Mercurial. Of each, receive writes what the
# documents show, of the larger of the two the front of each line, and what the second implementation has.
rust -o "$out/make" samples/make.rs
mkdir "$out/samples"
"$out/make" "$out/samples" >"$out/samples/stdin"
cmp "$out/samples/stdin" crates/receive/stdin
shows() {
    local text
    text=$("$receive" <"$2" | cut -c "${3:-1-}")
    [[ -n $text && $(cat "$1") == *$'\n```\n'"$text"$'\n```\n'* ]] || {
        printf '%s does not show what receive writes of %s:\n%s\n' "$1" "$2" "$text"
        return 1
    }
}
for capture in "$out"/samples/*.capture; do
    cmp "$capture" "samples/$(basename "$capture")"
done
for capture in samples/*.capture; do
    case $capture in
    *-large.capture) shows samples/README.md "$capture" 1-100 ;;
    *) shows samples/README.md "$capture" ;;
    esac
done
"$out/programs" samples "$receive" samples/*.capture
shows README.md samples/two-laptops.capture
must_fail 'does not show' shows README.md samples/damaged.capture

# Pieces of every size; a program that reads once only is found out.
"$out/programs" pieces "$receive" crates/receive/stdin
"$out/programs" pieces "$receive" samples/mercurial.capture
"$out/programs" pieces "$replay" "$lines"
printf '#!/bin/sh\nexec dd bs=65536 count=1 status=none\n' >"$out/reads_once"
chmod +x "$out/reads_once"
must_fail 'writes something else in pieces of' "$out/programs" pieces "$out/reads_once" "$lines"
cat crates/receive/stdin | "$receive" | cmp - crates/receive/stdout
(
    head -c 100 crates/receive/stdin
    sleep 0.1
    tail -c +101 crates/receive/stdin
) | "$receive" | cmp - crates/receive/stdout

# Captures of any bytes, and lines of any bytes.
"$out/programs" captures "$receive" 1 "$captures"
must_fail 'and not$' "$wrong_notation/programs" captures "$receive" 1 "$captures"
must_fail 'and not$' "$wrong_notation/programs" samples "$receive" samples/mercurial.capture
for copy in "$wrong_finish" "$wrong_shown"; do
    must_fail 'and not$' "$copy/programs" samples "$receive" samples/loose.capture
done
answered=0
"$out/programs" garbled 1 "$garbled" >"$out/lines"
compare_lines "$out/lines" "$out/second_replay"
bad=$(grep -c '^bad$' "$out/replay.answers")
[ "$bad" -ge 1000 ] || { echo "only $bad of the damaged lines are bad"; exit 1; }
wide=$(grep -acE '^set .*\b65536\b' "$out/lines")
[ "$wide" -ge 20 ] || { echo "only $wide lines set a number that does not fit"; exit 1; }
wide=$(grep -acE '^set [0-9]+ (1677721[67]|4294967296|18446744073709551616) ' "$out/lines")
[ "$wide" -ge 20 ] || { echo "only $wide lines set a pending count that does not fit"; exit 1; }
wide=$(grep -acE '^set .* (256|65536)$' "$out/lines")
[ "$wide" -ge 20 ] || { echo "only $wide lines set a count that does not fit"; exit 1; }
wide=$(grep -acE '^send .* (65536|18446744073709551616) ' "$out/lines")
[ "$wide" -ge 20 ] || { echo "only $wide lines send a number that does not fit"; exit 1; }
boarded=$(grep -acE '^board (0|4[0-3])$' "$out/replay.answers")
[ "$boarded" -ge 200 ] || { echo "only $boarded of the damaged lines are commands for the board"; exit 1; }
told=$(grep -acE '^(row [039]|active [03]) ' "$out/replay.answers")
[ "$told" -ge 500 ] || { echo "only $told of the damaged lines ask for a row or a count"; exit 1; }
converted=$(grep -acE '^converted (0|7[01]) ' "$out/replay.answers")
[ "$converted" -ge 200 ] || { echo "only $converted of the damaged lines convert a log"; exit 1; }
compared=$(grep -acE '^compared [012] ' "$out/replay.answers")
[ "$compared" -ge 200 ] || { echo "only $compared of the damaged lines compare two logs"; exit 1; }
marked=$(grep -acE '^loose 1$' "$out/replay.answers")
[ "$marked" -ge 100 ] || { echo "only $marked of the damaged lines are loose commands"; exit 1; }
echo "tests: $answered answers to damaged lines, $bad of them bad, each as the second program's"

# A closed output ends a program on input without end, since the write fails
# (status 0): today's programs ignore the signal themselves, whatever the shell
# does. $1 is the status, $2 the program, the rest writes the input.
ends_with() {
    local wanted=$1 program=$2 status
    shift 2
    { "$@" 2>/dev/null || true; } | {
        timeout 20 "$program" && echo 0 >"$out/status" || echo $? >"$out/status"
    } | head -n 1 >"$out/first_line"
    status=$(cat "$out/status")
    [ "$status" -eq "$wanted" ] || { echo "$program ended with $status, not $wanted"; return 1; }
    [ -s "$out/first_line" ] || { echo "$program wrote nothing"; return 1; }
}
capture_again() { while cat samples/two-laptops.capture; do :; done; }
ends_with 0 "$receive" capture_again
(
    trap '' PIPE
    ends_with 0 "$receive" capture_again
)
timeout 20 "$receive" <crates/receive/stdin >&-

# Input that cannot be read is said in one line.
text=$("$receive" </)
[ "$text" = "the input cannot be read" ] || { echo "receive says '$text' of a folder"; exit 1; }

# The same of the program of lines, which is written in Rust: it says by its
# status that something failed.
ends_with 1 "$replay" yes state 2>"$out/errors"
grep -q '^the output cannot be written$' "$out/errors"
must_fail '^the input cannot be read$' "$replay" </

# What send writes is what receive reads: by the README's own command, of which
# the archive is there already, and then with each kind of word.
section=$(sed -n '/^## See it work$/,/^## Test everything$/p' README.md)
together=$(block "$section" 3)
[[ $together == './build hgrpc &&'* ]] || { echo "the README does not build send"; exit 1; }
shown=$(block "$section" 4)
printed=$(bash -euc "${together#*&&}" 2>&1)
[ -n "$shown" ] && [ "$printed" = "$shown" ] || {
    printf 'the README shows something else than send and receive print:\n%s\n' "$printed"
    exit 1
}
send=target/send

# The README's C program, built and run by its own lines, in a folder with copies of
# what they name: rt ci takes no links, so that none may be left for the next run.
section=$(sed -n '/^## Send from C$/,/^## Call/p' README.md)
mkdir -p "$out/laptop/target"
cp -r include "$out/laptop"
cp -r target/bin target/staticlib "$out/laptop/target"
block "$section" 1 >"$out/laptop/laptop.c"
gcc -std=c99 -Wall -Wextra -Wpedantic -Wconversion -Werror -Iinclude -fsyntax-only "$out/laptop/laptop.c"
shown=$(block "$section" 3)
printed=$(cd "$out/laptop" && bash -euc "$(block "$section" 2)" 2>&1)
[ -n "$shown" ] && [ "$printed" = "$shown" ] || {
    printf 'the README shows something else than its C program and receive print:\n%s\n' "$printed"
    exit 1
}

# Runs send with the arguments behind $1; receive makes $1 of what it writes.
reads_back() {
    local wanted=$1 text
    shift
    text=$("$send" "$@" | "$receive") || { echo "send ended with $?: $*"; return 1; }
    [ "$text" = "$wanted" ] || {
        printf 'send and receive wrote\n%s\nand not\n%s\nof: %s\n' "$text" "$wanted" "$*"
        return 1
    }
}
reads_back "command 1 data 0 loose 0 name 'off' args {}" off
reads_back "command 1 data 0 loose 0 name 'a' args {'x': -18446744073709551616, 'y': 18446744073709551615, 'z': 7, 'w': 0}" \
    a x=-18446744073709551616 y=18446744073709551615 z=007 w=-0
reads_back "command 1 data 0 loose 0 name 'a' args {'f': false, 'n': null, 't': 'text', 'e': '', 'm': '=', 'd': '-', 'p': '+3'}" \
    a f=false n=null t=text e= m== d=- p=+3
reads_back "command 1 data 0 loose 0 name 'a' args {'s': '12', 't': 'true', 'h': h'00ff', 'n': '', 'q': h'27'}" \
    a "s='12'" "t='true'" "h=h'00Ff'" "n=''" "q='"
reads_back "command 65535 data 0 loose 0 name '--x' args {'--y': 1}" --stream 255 --size 1 --request 65535 -- --x --y=1
reads_back "command 3 data 1 loose 0 name 'up' args {'track': 7}
data 3 last 0 4 bytes 'slow'
data 3 last 1 2 bytes 'er'" --request 3 --size 4 up --data - track=7 < <(printf slower)
reads_back "command 1 data 1 loose 0 name 'up' args {}
data 1 last 1 0 bytes ''" up --data /dev/null
printed=$({ "$send" --no-end a && "$send" --no-begin b && "$send" c; } | "$receive")
[ "$printed" = "command 1 data 0 loose 0 name 'a' args {}
command 1 data 0 loose 0 name 'b' args {}
command 1 data 0 loose 0 name 'c' args {}" ] || { printf 'three sends become\n%s\n' "$printed"; exit 1; }
must_fail 'and not$' reads_back "command 1 data 0 loose 0 name 'off' args {}" on

# What is wrong is said in one line, and nothing is written.
send_says() {
    local wanted=$1 text words
    shift
    words=$*
    if text=$("$send" "$@" 2>&1 >"$out/frames" </dev/null); then
        echo "send accepts ${words:0:100}"
        return 1
    fi
    [ "$text" = "send: $wanted" ] && [ ! -s "$out/frames" ] || {
        printf 'send says\n%s\nand not\n%s\nof: %s\n' "$text" "$wanted" "${words:0:100}"
        return 1
    }
}
send_says 'no command is named; send --help says how'
send_says 'y: no `=`; an argument is KEY=VALUE' x y
send_says '=1: the key is empty' x =1
send_says 'a=2: the key stands twice' x a=1 a=2
send_says 'a=18446744073709551616: the integer is outside -2^64 to 2^64-1' x a=18446744073709551616
send_says 'a=-18446744073709551617: the integer is outside -2^64 to 2^64-1' x a=-18446744073709551617
send_says "a=h'0': no even number of hex digits in the quotes" x "a=h'0'"
send_says 'y\n: no `=`; an argument is KEY=VALUE' x $'y\n'
send_says '--size 0: no number from 1 to 4096' --size 0 x
send_says '--size 4097: no number from 1 to 4096' --size 4097 x
send_says '--size x: no number from 1 to 4096' --size x x
send_says '--request 2: no odd number from 1 to 65535' --request 2 x
send_says '--request 65537: no odd number from 1 to 65535' --request 65537 x
send_says '--stream 256: no odd number from 1 to 255' --stream 256 x
send_says '--stream: a word is missing behind it' x --stream
send_says "--data $out/missing: cannot be read: no such file" x --data "$out/missing"
send_says '--data /: cannot be read: it is a folder' x --data /
send_says '--bogus: unknown option; send --help says what there is' --bogus x
send_says 'the name has 0 bytes; it may have 1 to 64' ''
send_says 'the name has 65 bytes; it may have 1 to 64' "$(printf 'x%.0s' {1..65})"
send_says 'refused 53: a command over 2,048 bytes' x a="$(printf 'x%.0s' {1..2100})"
must_fail 'send accepts' send_says 'the key is empty' x a=1
must_fail '^send: the output cannot be written$' bash -c "$send x >/dev/full"
for number in 50 51 52 53 54; do
    words=$(sed -n "s/^ \*   $number  //p" include/hgrpc.h)
    [ -n "$words" ] && grep -qF "$number => \"$words\"," examples/send.rs || {
        echo "send and the header do not say the same of $number: $words"
        exit 1
    }
done
# What send writes, the board does.
gcc -std=c99 -O2 -Iinclude -o "$out/coils" examples/board.c target/staticlib/libhgrpc.a
does() {
    local wanted=$1 text
    shift
    text=$("$send" "$@" | "$out/coils") || { echo "send and the board ended with $?: $*"; return 1; }
    [ "$text" = "command 1: $wanted" ] || {
        printf 'send and the board wrote\n%s\nand not\n%s\nof: %s\n' "$text" "$wanted" "$*"
        return 1
    }
}
does "'set'
  coil 3: on, no label" set coil=3 on=true
does "'label'
  coil 15: off, label 'engine shed'" --size 5 label text="engine shed" coil=15
does "'label'
  coil 0: off, label h'00ff'" label coil=0 "text=h'00ff'"
does "'off'" off
does "'toggle'
  refused 40: unknown command" toggle coil=3
does "'set'
  refused 41: argument missing, extra or of the wrong type" set coil=99 on=null
does "'set'
  refused 42: coil not 0 to 15" set coil=-18446744073709551616 on=true
does "'label'
  refused 43: text over 16 bytes" label coil=3 text="seventeen bytes.."
printed=$({ "$send" set coil=3 on=true && "$send" label coil=3 text=north && "$send" off; } | "$out/coils")
[ "$printed" = "command 1: 'set'
  coil 3: on, no label
command 1: 'label'
  coil 3: on, label 'north'
command 1: 'off'
  coil 3: off, label 'north'" ] || { printf 'three commands become\n%s\n' "$printed"; exit 1; }
must_fail 'and not$' does "'set'
  coil 3: on, no label" set coil=3 on=false
# Where the line ends in the middle, and where a frame is refused there, the board tells which requests are active.
active="command 1: 'upload', data follows
  refused 40: unknown command; its data is drained
active: 2
  slot 0: request 1, draining
  slot 1: request 3, collecting"
printed=$(head -c 93 samples/two-laptops.capture | "$out/coils")
[ "$printed" = "$active" ] || { printf 'the board writes\n%s\n' "$printed"; exit 1; }
printed=$({ head -c 93 samples/two-laptops.capture && printf '\0\0\0\2\0\1\0\x11'; } | "$out/coils") && { echo "the board takes an even id"; exit 1; }
[ "$printed" = "${active/active/refused 12: the channel is dead$'\n'active}" ] || { printf 'the board writes\n%s\n' "$printed"; exit 1; }

help=$("$send" --help)
[[ $help == 'send [OPTION].. NAME [KEY=VALUE]..'* ]] || { echo "send --help writes '$help'"; exit 1; }
echo "tests: send and receive together, and what send says of words that are wrong"

# No program calls an allocator.
for program in target/bin/{receive,convert,logdiff,vectors}; do
    nm -D -u "$program" >"$out/needs"
    if grep -wE 'malloc|calloc|realloc|free|aligned_alloc|posix_memalign|mmap|brk|sbrk' "$out/needs"; then
        echo "$program calls an allocator"
        exit 1
    fi
done
echo "tests: no program has a heap"
