#!/bin/sh
# A live programme through the chain: ffmpeg makes a test picture and a tone in real time, as transport packets at just the rate
# that layer A takes; `remux` and `code` make cells of them, which go to `receive` through a pipe or as UDP datagrams on this
# machine; and ffmpeg reads what is received and keeps the last picture of it. Prints the rate, the delay to expect and the one
# that was measured, and writes PNG. Needs ffmpeg; for udp also socat and pv (all in Debian).
#
#     examples/live.sh [pipe or udp, pipe if left out [PNG, live.png [SECONDS, 10]]]
set -eu
top=$(cd "$(dirname "$0")/.." && pwd)
way=${1:-pipe} picture=${2:-live.png} seconds=${3:-10}
for tool in ffmpeg $(if [ "$way" = udp ]; then echo socat pv; fi); do
    command -v "$tool" >/dev/null || { echo "live.sh: skipped: there is no $tool"; exit 0; }
done
folder=$(mktemp -d)
trap 'rm -rf "$folder"' EXIT
"$top/isdbt" remux 1 1/4 A:13:qpsk:1/2:0 A=- </dev/null

# Mode 3, guard interval 1/8: a frame lasts 231,336 microseconds and has 4608 slots, 2,036,940 bytes of cells.
# 16QAM and rate 1/2 take 13*384*4*1/(8*2) = 1248 packets of it, and with length 2 a packet comes D = 1 + 2 frames late.
setting=A:13:16qam:1/2:2
frame=231336 packets=1248 delay=3 slots=4608 cells=2036940
rate=$((packets * 188 * 8 * 1000000 / frame))
port=5004

# now NAME keeps the time, in microseconds.
now() { echo $(($(date +%s%N) / 1000)) >"$folder/$1"; }

# A programme at a constant rate, null packets where it has nothing to send.
programme() {
    ffmpeg -v error -re -f lavfi -i testsrc=size=640x360:rate=25 -re -f lavfi -i sine=frequency=440:sample_rate=48000 -t "$seconds" \
        -c:v mpeg2video -b:v 4M -maxrate 5M -bufsize 2M -g 12 -c:a mp2 -b:a 192k -f mpegts -muxrate "$rate" -flush_packets 1 - |
        { head -c 188; now first_in; cat; }
}

# A burst of a whole frame would fill the buffers of the datagrams, so each twentieth part of it has a pause behind it; and what
# has come is buffered for `receive`. No datagram is sent again: where one is lost the frames don't stand where they should, and
# `receive` ends with its line. The reader ends two seconds behind the last datagram.
paced() {
    while head -c $((cells / 20)) >"$folder/part" && [ -s "$folder/part" ]; do
        cat "$folder/part"
        sleep 0.005
    done
}
sent_on() {
    if [ "$way" = udp ]; then
        paced | socat -u -b 1316 - UDP-SENDTO:127.0.0.1:$port
    else
        cat
    fi
}
send() { programme | "$top/isdbt" remux 3 1/8 $setting A=- | "$top/isdbt" code 3 1/8 $setting IN=- | sent_on; }

# The first packet of the programme stands in the frame of number D of what is received.
receive() {
    "$top/isdbt" receive 3 1/8 IN=- |
        { head -c $((delay * slots * 204 + 204)); now first_out; cat; } |
        tee "$folder/received.bts" | ffmpeg -v error -y -f mpegts -i - -vf fps=1 -update 1 "$picture"
}

echo "$way: $rate bits a second, $packets packets in each frame of $frame microseconds"
if [ "$way" = udp ]; then
    socat -u -T 2 UDP-RECV:$port,bind=127.0.0.1,rcvbuf=8000000 - | pv -q -C -B 16m | receive &
    sleep 0.5
    send
    wait $!
else
    send | receive
fi
echo "frames received: $(($(wc -c <"$folder/received.bts") / (slots * 204)))"
echo "delay of the first packet: $(($(cat "$folder/first_out") - $(cat "$folder/first_in"))) microseconds, to expect D+1 frames, $(((delay + 1) * frame)), and the work"
echo "$picture: the last picture"
