#!/bin/sh
# Compares the question program with bench/plain, which does the same job in plain Rust and has nothing proved.
#
# usage: bench/question.sh [--agree] [--random N] [--seed S] [--rounds N] [FOLDER]
#
# Builds both programs, and writes boards into FOLDER (a temporary one, where none is given) with bench/boards.py.
# Without --agree: times both on the small, fullest, backward and aar boards, and prints for each board the mean time of a run and the ratio, ours to plain; each
# mean is that of three rounds (--rounds) of many runs. bench/clock.py does it, and says what is measured.
# With --agree: runs both on all boards, N random ones of each kind among them (1000), and reports each disagreement: another refusal, another line, another verdict,
# or a run that is not permitted or does not show the verdict. It also reports where bench/plain is not of the opinion that a board was made for.
# OURS=PROGRAM takes that program for the question program, and builds none.
set -u
here=$(cd "$(dirname "$0")" && pwd) || exit 2
agree=no random=1000 seed=1 rounds=3 folder=
while [ $# -gt 0 ]; do
    case $1 in
        --agree) agree=yes ;;
        --random | --seed | --rounds)
            [ $# -gt 1 ] || { echo "$1 takes a number" >&2; exit 2; }
            case $1 in --random) random=$2 ;; --seed) seed=$2 ;; --rounds) rounds=$2 ;; esac
            shift ;;
        -*) sed -n 's/^# usage: /usage: /p' "$0" >&2; exit 2 ;;
        *) folder=$1 ;;
    esac
    shift
done

place=$(mktemp -d) || exit 2
trap 'rm -rf "$place"' EXIT
trap 'exit 2' INT TERM
[ -n "$folder" ] || folder=$place/boards

cargo build --release --quiet --manifest-path "$here/plain/Cargo.toml" || exit 2
plain=$here/plain/target/release/plain
ours=${OURS:-}
if [ -z "$ours" ]; then
    crate=$here/../crates/question
    if [ -d "$crate" ]; then
        (cd "$crate" && rt run <stdin >/dev/null 2>"$place/rt") || { echo "crates/question: rt run did not end well:"; tail -n 5 "$place/rt"; } >&2
    fi
    ours=$crate/out/question
fi
if [ ! -x "$ours" ]; then
    echo "There is no question program yet ($ours): only bench/plain is looked at."
    ours=
fi
python3 "$here/boards.py" "$folder" --random "$random" --seed "$seed" || exit 2

if [ "$agree" = yes ]; then
    python3 "$here/agree.py" "$folder" "$plain" ${ours:+"$ours"}
else
    python3 "$here/clock.py" "$folder" "$rounds" "$plain" ${ours:+"$ours"}
fi
