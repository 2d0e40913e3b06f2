#!/usr/bin/env bash
# Runs the program on the input of each text that stands here, and compares what it writes. Where all agree it prints
# nothing. The program is crates/svga/out/svga, which `rt ci`, and `rt run` in crates/svga, leave there.
set -euo pipefail
cd "$(dirname "$0")"
program=../crates/svga/out/svga

fail() {
    echo "examples: $1" >&2
    exit 1
}

[ -x "$program" ] || fail "there is no program at crates/svga/out/svga"
for text in *.txt; do
    name=${text%.txt}
    if [ -e "$name.words" ]; then
        form=words input=$name.words
    elif [ -e "$name.capture" ]; then
        form=replay input=$name.capture
    elif [ -e "$name.script" ]; then
        form=race input=$name.script
    else
        fail "$text is the text of no input"
    fi
    "$program" "$form" < "$input" | cmp - "$text" || fail "svga $form < $input doesn't write $text"
done
