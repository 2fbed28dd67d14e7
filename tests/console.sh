#!/bin/sh
# Runs a console on every sample and on damaged ones, and prints each sentence or text with the exit status.
# usage: tests/console.sh FOLDER COMMAND..   (in the repository's top folder; FOLDER is for the damaged texts)
set -eu
work=$1
shift
mkdir -p "$work"

# say NAME HISTORY CERTIFICATE
say() {
    status=0
    sentence=$("$@") || status=$?
    echo "$status $sentence"
}

# write COMMAND WORD.. HISTORY CERTIFICATE: the text on standard output, the sentence on standard error
write() {
    status=0
    "$@" > "$work/text" 2> "$work/sentence" || status=$?
    echo "$status"
    cat "$work/text"
    sed 's/^/standard error: /' "$work/sentence"
}

for sample in samples/*; do
    say "$@" "$sample/history.txt" "$sample/certificate.txt"
done
# texts cut short, a byte more, swapped, missing, of one byte, and too long
for n in 0 1 17 40 90; do
    head -c $n samples/W/history.txt > "$work/history.txt"
    say "$@" "$work/history.txt" samples/W/certificate.txt
    head -c $n samples/W/certificate.txt > "$work/certificate.txt"
    say "$@" samples/W/history.txt "$work/certificate.txt"
done
printf 'x' | cat samples/W/certificate.txt - > "$work/certificate.txt"
say "$@" samples/W/history.txt "$work/certificate.txt"
say "$@" samples/W/certificate.txt samples/W/history.txt
say "$@" samples/missing samples/missing
printf '\377' > "$work/history.txt"
say "$@" "$work/history.txt" "$work/history.txt"
head -c 40000 /dev/zero > "$work/long"
say "$@" samples/W/history.txt "$work/long"
say "$@" "$work/long" samples/W/certificate.txt
# one line of every sample; where a sample keeps its sequential text, that is what is written, and it is accepted
for sample in samples/*; do
    echo "sequential, $sample"
    write "$@" sequential "$sample/history.txt" "$sample/certificate.txt"
    if [ -e "$sample/sequential.txt" ]; then
        cmp "$work/text" "$sample/sequential.txt"
        say "$@" "$sample/history.txt" "$sample/sequential.txt"
    fi
done
# that line weakened to each criterion, and on to one line again
for criterion in pram weak causal converge sequential strict; do
    echo "weaken, $criterion"
    write "$@" weaken $criterion samples/one-line/history.txt samples/one-line/sequential.txt
    cp "$work/text" "$work/certificate.txt"
    write "$@" sequential samples/one-line/history.txt "$work/certificate.txt"
done
# no pair, a fault, a reading refusal of each text, a text that is too long
echo "refused"
write "$@" weaken strict samples/W/history.txt samples/W/certificate.txt
write "$@" weaken weak samples/Q/history.txt samples/Q/certificate.txt
write "$@" weaken weak samples/width-9/history.txt samples/W/certificate.txt
write "$@" weaken weak samples/W/history.txt samples/missing
write "$@" sequential samples/W/history.txt samples/W/history.txt
write "$@" sequential samples/W/history.txt "$work/long"
# other words
write "$@" sequential samples/W/history.txt
write "$@" weaken samples/W/history.txt
write "$@" weaken weaker samples/W/history.txt samples/W/certificate.txt
write "$@" weaken weak samples/W/history.txt
write "$@" check samples/W/history.txt samples/W/certificate.txt
write "$@"
