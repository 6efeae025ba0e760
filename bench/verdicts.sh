#!/bin/sh
# Times verdicts about the fullest boards: `rt run` in crates/fullest first, which builds the program that is timed here.
# Each line is a board (f, b, w; crates/fullest says what they are) and the time of one verdict, the mean of 200; three times over, so that the noise of the machine is seen.
program="$(dirname "$0")/../crates/fullest/out/fullest"
many=200
for round in 1 2 3; do
    for board in f b w; do
        begin=$(date +%s%N)
        printf "%0${many}d" 0 | tr 0 "$board" | "$program" >/dev/null || exit 1
        end=$(date +%s%N)
        echo "$board $(( (end - begin) / many / 1000 )) microseconds"
    done
done
