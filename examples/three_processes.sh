#!/usr/bin/env bash
# Three members as processes of their own, joined by named pipes: this script is the transport, and loses each fifth message. One
# member is killed and its place starts again under a new identity, over its file; what it had under the old one is pruned. At the
# end the three members show the same, or the status is 1.
#
# usage: examples/three_processes.sh [PROGRAM]
#
# PROGRAM is crates/member/out/member if it is left out, where `rt run` leaves it.
set -euo pipefail
top=$(dirname "$0")/..
program=${1:-$top/crates/member/out/member}
folder=$(mktemp -d)
trap 'kill -9 $(jobs -p) 2> /dev/null || true; rm -rf "$folder"' EXIT

declare -A into out_of process # by identity: how a member is written to, how it is read from, and its process
queue=()                       # messages on their way: FROM TO DIGITS
posted=0
lost=0

# start ID PLACE WORDS..: starts a member over the file of its place.
start() {
    local id=$1 place=$2 end
    shift 2
    mkfifo "$folder/into.$id" "$folder/out_of.$id"
    "$program" --id "$id" "$@" --file "$folder/place.$place.db" --durable cart=orset --key hits=gcounter \
        < "$folder/into.$id" > "$folder/out_of.$id" &
    process[$id]=$!
    exec {end}> "$folder/into.$id"
    into[$id]=$end
    exec {end}< "$folder/out_of.$id"
    out_of[$id]=$end
}

# hand ID LINE: hands a line to a member, queues the messages that it sends, and leaves its reply in $reply.
hand() {
    local id=$1 line word to digits
    printf '%s\n' "$2" >&"${into[$id]}"
    while IFS= read -r line <&"${out_of[$id]}"; do
        case $line in
            "to "*)
                read -r word to digits <<< "$line"
                queue+=("$id $to $digits")
                ;;
            *)
                reply=$line
                return
                ;;
        esac
    done
    echo "member $id has ended" >&2
    exit 1
}

# ask ID NAMES: asks a member for a step, and prints the reply.
ask() {
    hand "$1" "{\"at\": $1, $2}"
    echo "$1 $2: $reply"
}

# Carries the messages that are queued, and those that answer them, to members that run. Each fifth is lost.
carry() {
    local from to digits
    while [ ${#queue[@]} -gt 0 ]; do
        read -r from to digits <<< "${queue[0]}"
        queue=("${queue[@]:1}")
        posted=$((posted + 1))
        if [ $((posted % 5)) -eq 0 ] || [ -z "${into[$to]-}" ]; then
            lost=$((lost + 1))
        else
            hand "$to" "from $from $digits"
        fi
    done
}

# gossip IDS..: each of these members tells each other one what it has.
gossip() {
    local from to
    for from in "$@"; do
        for to in "$@"; do
            if [ "$from" != "$to" ]; then
                hand "$from" "{\"do\": \"gossip\", \"at\": $from, \"to\": $to}"
                carry
            fi
        done
    done
}

# shown ID: what a member shows, as one line.
shown() {
    hand "$1" "{\"do\": \"get\", \"at\": $1, \"key\": \"cart\"}"
    local cart=$reply
    hand "$1" "{\"do\": \"get\", \"at\": $1, \"key\": \"hits\"}"
    echo "cart $cart, hits $reply"
}

# Whether the three members show the same.
are_alike() {
    [ "$(shown 0)" = "$(shown 2)" ] && [ "$(shown 2)" = "$(shown 3)" ]
}

for id in 0 1 2; do
    start $id $id --of 3
done
ask 0 '"do": "update", "key": "cart", "op": "add", "element": "milk"'
ask 1 '"do": "update", "key": "cart", "op": "add", "element": "bread"'
ask 2 '"do": "update", "key": "cart", "op": "add", "element": "tea"'
ask 2 '"do": "update", "key": "hits", "op": "increment", "by": 4'
ask 1 '"do": "update", "key": "hits", "op": "increment", "by": 3, "level": "majority"'
carry
for id in 0 1 2; do
    ask $id '"do": "flush"'
    carry
done
ask 1 '"do": "update", "key": "cart", "op": "add", "element": "rice"'

kill -9 "${process[1]}"
wait "${process[1]}" 2> /dev/null || true
unset 'into[1]'
echo "1 was killed"
view=$("$program" --of 3 --restart 1 | sed -n 's/^view 1 //p')
start 3 1 --view "$view"
echo "3 shows $(shown 3)"
for id in 0 2; do
    hand $id "install $view"
    echo "$id install: $reply"
done

# Until nothing of 1 is left to be pruned, and all show the same.
for _ in 1 2 3 4 5 6 7 8 9 10; do
    ask 0 '"do": "tick"'
    pruned=$reply
    gossip 0 2 3
    if [ "$pruned" = "done" ] && are_alike; then
        break
    fi
done
echo "$posted messages were posted, and $lost lost"
for id in 0 2 3; do
    echo "$id: $(shown $id)"
done
[ "$pruned" = "done" ] && are_alike

# The end of its input ends a member, which closes its file.
for id in 0 2 3; do
    end=${into[$id]}
    exec {end}>&-
done
for id in 3 2 0; do
    wait "${process[$id]}"
done
