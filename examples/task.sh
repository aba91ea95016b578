#!/usr/bin/env bash
# A control task in the shell: gives outputs, as hexadecimal digits, and prints what the next cycle came to.
#
#     ecat master SCENE --at 127.0.0.1:34980,127.0.0.1:34981 --every 1000 --io 127.0.0.1:34990
#     examples/task.sh 34990 2a0000
#
# docs/IO.md says what stands in the packets.
set -eu
port=$1 outputs=$2
bytes() { # HEX: these bytes
    printf '%b' "$(sed 's/../\\x&/g' <<<"$1")"
}
exec 3<>"/dev/udp/127.0.0.1/$port"
count=$(printf '%02x%02x' $((${#outputs} / 2 % 256)) $((${#outputs} / 512)))
bytes "4563494f0101${count}ffffffffffffffff$outputs" >&3
dd bs=65535 count=1 <&3 2>/dev/null | od -An -v -tx1
