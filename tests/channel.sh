# The archive hgrpc as its callers use it: buffers against pages that may not be
# touched, any bytes as a state, the header from C and C++, and the board.

archive=target/staticlib/libhgrpc.a
strict=(-Wall -Wextra -Wpedantic -Werror)
sanitizers=(-g -fsanitize=address,undefined -fno-sanitize-recover=all)

# Guard pages, and that they would be noticed.
archive_program tests/guard.rs "$out/guard" "$out"
"$out/guard" run 5 2000 20000 5000 5000 5000 1000
"$out/guard" over
must_fail 'never came up' "$out/guard" run 5 20 20 20 20 20 20
copy=${wrong_receivers[0]}
build_lines "$copy"
archive_program tests/guard.rs "$copy/guard" "$copy"
must_fail '^guard: difference' "$copy/guard" run 5 2000 0 0 0 0 0

# Any bytes as a state.
archive_program tests/states.rs "$out/states" "$out"
"$out/states" 6 3 60000
must_fail 'was answered 3 only [0-9]* times$' "$out/states" 6 1 100
for copy in "${wrong_states[@]}"; do
    build_lines "$copy"
    archive_program tests/states.rs "$copy/states" "$copy"
    must_fail '^states: .*\(feed\|finish\|active\) ' "$copy/states" 6 1 2000
done

# The header, from C and from C++.
build_calls() {
    local program=$1
    shift
    "$@" "${strict[@]}" -Iinclude -o "$out/$program" tests/calls.c -x none "$archive"
    "$out/$program"
}
build_calls calls gcc -std=c99 -Wconversion -O2
build_calls calls_cpp g++ -x c++ -std=c++11 -O2
build_calls calls_sanitized gcc -std=c99 -Wconversion "${sanitizers[@]}"
change 's/IS(fed.number, 5)/IS(fed.number, 0)/' tests/calls.c "$out/wrong/calls.c"
gcc -std=c99 -Iinclude -o "$out/wrong/calls" "$out/wrong/calls.c" "$archive"
must_fail '^calls: line' "$out/wrong/calls"

mkdir "$out/wrong/look"
change 's/coil->label = board->bytes + at;/coil->label = board->bytes;/' include/hgrpc.h "$out/wrong/look/hgrpc.h"
gcc -std=c99 -I"$out/wrong/look" -o "$out/wrong/calls" tests/calls.c "$archive"
must_fail '^calls: line' "$out/wrong/calls"

mkdir "$out/wrong/third"
change 's/record->bit = head\[8\] & 1;/record->bit = head[8];/' include/hgrpc.h "$out/wrong/third/hgrpc.h"
gcc -std=c99 -I"$out/wrong/third" -o "$out/wrong/calls" tests/calls.c "$archive"
must_fail '^calls: line' "$out/wrong/calls"

mkdir "$out/wrong/entries"
change 's/row\[slot\]\.phase = bytes\[slot \* HGRPC_ENTRY + 2\]/row[slot].phase = bytes[2]/' include/hgrpc.h "$out/wrong/entries/hgrpc.h"
gcc -std=c99 -I"$out/wrong/entries" -o "$out/wrong/calls" tests/calls.c "$archive"
must_fail '^calls: line' "$out/wrong/calls"

mkdir "$out/wrong/phases"
change 's/HGRPC_PHASE_DRAINING 4/HGRPC_PHASE_DRAINING 3/' include/hgrpc.h "$out/wrong/phases/hgrpc.h"
gcc -std=c99 -I"$out/wrong/phases" -o "$out/wrong/calls" tests/calls.c "$archive"
must_fail '^calls: line' "$out/wrong/calls"

mkdir "$out/wrong/length" "$out/wrong/most"
change 's/body = hgrpc_four_bytes(head);/body = hgrpc_two_bytes(head);/' include/hgrpc.h "$out/wrong/length/hgrpc.h"
change 's/more = length \/ 4 \* 2;/more = length \/ 8 * 2;/' include/hgrpc.h "$out/wrong/most/hgrpc.h"
for wrong in length most; do
    gcc -std=c99 -I"$out/wrong/$wrong" -o "$out/wrong/calls" tests/calls.c "$archive"
    must_fail '^calls: line' "$out/wrong/calls"
done

# The bindings, taken in as a module.
rust -o "$out/calls_rust" -L native=target/staticlib -l static=hgrpc tests/calls.rs
"$out/calls_rust"
mkdir "$out/wrong/bindings"
change 's/(self\.kind == Kind::Command) != self\.bit/!self.bit/' bindings/hgrpc.rs "$out/wrong/bindings/hgrpc.rs"
change 's|\.\./bindings/|bindings/|' tests/calls.rs "$out/wrong/calls.rs"
rust -o "$out/wrong/calls_rust" -L native=target/staticlib -l static=hgrpc "$out/wrong/calls.rs"
must_fail 'assertion failed: record.runs()' "$out/wrong/calls_rust"
change 's/bit: third & 1 == 1/bit: third == 1/' bindings/hgrpc.rs "$out/wrong/bindings/hgrpc.rs"
rust -o "$out/wrong/calls_rust" -L native=target/staticlib -l static=hgrpc "$out/wrong/calls.rs"
must_fail 'assertion failed: records(' "$out/wrong/calls_rust"
change 's/request\.data\.is_some(),/true,/' bindings/hgrpc.rs "$out/wrong/bindings/hgrpc.rs"
rust -o "$out/wrong/calls_rust" -L native=target/staticlib -l static=hgrpc "$out/wrong/calls.rs"
must_fail 'assertion `left == right` failed' "$out/wrong/calls_rust"
change 's/0 => Ok(on),/0 => Ok(!on),/' bindings/hgrpc.rs "$out/wrong/bindings/hgrpc.rs"
rust -o "$out/wrong/calls_rust" -L native=target/staticlib -l static=hgrpc "$out/wrong/calls.rs"
must_fail 'assertion `left == right` failed' "$out/wrong/calls_rust"

for expression in 's/1 => Phase::Collecting/1 => Phase::Waiting/' 's/3 => Phase::Running/3 => Phase::Draining/'; do
    change "$expression" bindings/hgrpc.rs "$out/wrong/bindings/hgrpc.rs"
    rust -o "$out/wrong/calls_rust" -L native=target/staticlib -l static=hgrpc "$out/wrong/calls.rs"
    must_fail 'assertion `left == right` failed' "$out/wrong/calls_rust"
done

for expression in 's/u32::from(two(2)?) << 16/0/' 's/length \/ 4 \* 2/length \/ 8 * 2/' \
    's/(logs & 1 != 0)/(logs \& 2 != 0)/' 's/(start != place)/(start == place)/'; do
    change "$expression" bindings/hgrpc.rs "$out/wrong/bindings/hgrpc.rs"
    rust -o "$out/wrong/calls_rust" -L native=target/staticlib -l static=hgrpc "$out/wrong/calls.rs"
    must_fail 'panicked at' "$out/wrong/calls_rust"
done

# A reader of records that looks past the count is noticed.
mkdir "$out/wrong/reader"
change 's/if (left < HGRPC_RECORD_HEAD)/if (out[*place + 8] == 255 || left < HGRPC_RECORD_HEAD)/' \
    include/hgrpc.h "$out/wrong/reader/hgrpc.h"
gcc -std=c99 "${sanitizers[@]}" -I"$out/wrong/reader" -o "$out/wrong/reader/calls" tests/calls.c "$archive"
must_fail 'AddressSanitizer: heap-buffer-overflow' "$out/wrong/reader/calls"

# Each number means in the header what it means in the rules.
joined=$(sed 's/^ \*//' include/hgrpc.h | tr -s ' \n' ' ')
meanings=0
while IFS='|' read -r _ number words _; do
    if [[ $joined != *"${number% }${words% }"* ]]; then
        echo "the header does not say of$number:$words"
        exit 1
    fi
    meanings=$((meanings + 1))
done < <(grep -E '^\| [0-9]+ \| ' docs/RULES.md)
[ "$meanings" -eq 30 ] || { echo "the rules have $meanings numbers"; exit 1; }

# So do those of the board and of the sending call, which each stand in one sentence of the rules; an example says them too.
# $1 is how many there are, $2 the example, $3 what stands there before the words and $4 behind them, $5 the sentence.
example_says() {
    local wanted=$1 example=$2 before=$3 behind=$4 number words meanings=0
    while read -r number words; do
        if [[ $joined != *" $number $words "* ]]; then
            echo "the header does not say of $number: $words"
            return 1
        fi
        grep -qF "${before/N/$number}$words$behind" "$example" || { echo "$example does not say of $number: $words"; return 1; }
        meanings=$((meanings + 1))
    done < <(sed 's/, \([45][0-9] \)/\n\1/g' <<<"$5")
    [ "$meanings" -eq "$wanted" ] || { echo "the rules have $meanings numbers that $example says"; return 1; }
}
example_says 4 examples/board.c 'case N: return "' '";' \
    "$(sed -n 's/^\*\*E3: .* Refusals in order: \(40 .*\); 24 to 26 .*/\1/p' docs/RULES.md)"
example_says 5 examples/send.rs 'N => "' '",' \
    "$(sed -n 's/^\*\*E2: .* with the output unchanged: \(50 .*\)\. This call, .*/\1/p' docs/RULES.md)"
must_fail 'does not say of 40' example_says 1 examples/board.c 'case N: return "' '";' '40 unknown'

# The archive has these calls and no others, and needs no more than this.
calls=$(nm -g --defined-only "$archive" | awk '$2 == "T" { print $3 }' | sort | tr '\n' ' ')
wanted="hgrpc_active hgrpc_argument hgrpc_argument_count hgrpc_board_apply hgrpc_board_first hgrpc_board_label \
hgrpc_board_switch hgrpc_check hgrpc_compare_step hgrpc_convert hgrpc_feed hgrpc_finish hgrpc_fresh hgrpc_integer hgrpc_is_between \
hgrpc_logs_broken hgrpc_loose hgrpc_name hgrpc_next_entry hgrpc_row hgrpc_scan_piece hgrpc_send hgrpc_whole "
needs=$(nm -u "$archive" | awk '$1 == "U" { print $2 }' | sort | tr '\n' ' ')
[ "$calls" = "$wanted" ] || { echo "the archive has the calls $calls"; exit 1; }
[ "$needs" = "memcpy memset " ] || { echo "the archive needs $needs"; exit 1; }

# The board, built and run by the README's own lines, and with the sanitizers. The samples' page shows the same.
section=$(sed -n "/^## A board's main loop in C$/,/^## Send/p" README.md)
shown=$(block "$section" 2)
printed=$(bash -euc "$(block "$section" 1)")
[ -n "$shown" ] && [ "$printed" = "$shown" ] || {
    printf 'the README shows something else than its lines print:\n%s\n' "$printed"
    exit 1
}
page=$(sed -n '/^## What a board does$/,$p' samples/README.md)
printed=$(target/board <samples/coils.capture)
[ -n "$printed" ] && [ "$(block "$page" 1)" = "$printed" ] || {
    printf 'the samples page shows something else than the board prints:\n%s\n' "$printed"
    exit 1
}
gcc -std=c99 "${strict[@]}" -Wconversion "${sanitizers[@]}" -Iinclude -o "$out/board" \
    examples/board.c "$archive"
for board in target/board "$out/board"; do
    "$out/programs" board "$board" samples/*.capture
done
"$out/programs" boards "$out/board" 1 300
must_fail 'came up [0-9]* times, less than' "$out/programs" boards "$out/board" 1 20
change 's/fed.number == 5/0/' examples/board.c "$out/wrong/board.c"
gcc -std=c99 -Iinclude -o "$out/wrong/board" "$out/wrong/board.c" "$archive"
must_fail 'and not$' "$out/programs" boards "$out/wrong/board" 1 300
change 's/hgrpc_coils_apply(&coils/hgrpc_coils_apply(\&before/' examples/board.c "$out/wrong/board.c"
gcc -std=c99 -Iinclude -o "$out/wrong/board" "$out/wrong/board.c" "$archive"
must_fail 'and not$' "$out/programs" board "$out/wrong/board" samples/coils.capture
change 's/act(&record) != 0/act(\&record) == 99/' examples/board.c "$out/wrong/board.c"
gcc -std=c99 -Iinclude -o "$out/wrong/board" "$out/wrong/board.c" "$archive"
must_fail 'and not$' "$out/programs" boards "$out/wrong/board" 1 300
change 's/row\[slot\]\.id, phases/row[0].id, phases/' examples/board.c "$out/wrong/board.c"
gcc -std=c99 -Iinclude -o "$out/wrong/board" "$out/wrong/board.c" "$archive"
must_fail 'and not$' "$out/programs" boards "$out/wrong/board" 1 300
