# The format as far as a queue with one message needs it, in hexadecimal; `program.sh` reads this.

# N times a byte
repeat() { printf "%0.s$1" $(seq "$2"); }

# N in W bytes, the least first
little() {
    local number=$1 at
    for ((at = 0; at < $2; at++)); do
        printf '%02x' $((number & 255))
        number=$((number >> 8))
    done
}

# Adler-32 of bytes in hexadecimal, the least byte first
adler() {
    local low=1 high=0 at
    for ((at = 0; at < ${#1}; at += 2)); do
        low=$(((low + 16#${1:at:2}) % 65521))
        high=$(((high + low) % 65521))
    done
    little $((high * 65536 + low)) 4
}

# The header of a queue's first file: queue a, partition 1, 4 KiB; serial in hexadecimal
header() {
    local start
    start=514c536602000000$1$(little 0 8)$(little 1 4)$(little 4 4)
    start+=$(little 4096 8)$(little 1 8)$(little 1 8)$(little 1 2)$(little 1 2)61
    printf '%s%s%s' "$start" "$(adler "$start")" "$(repeat 00 $((4096 - 65)))"
}

# Message 1 with the body 6869, padded to 128 bytes
message() {
    local record
    record=514c536502000000$1$(little 1 8)$(little 0 8)$(little 2 8)6869
    printf '%saeb3ac9a%s%s%s%s' "$record" "$(adler "$record")" "$1" "$(little 1 8)" "$(repeat ff 62)"
}

# A filler after message 1
filler() { printf '514c537802000000%s%s%s' "$1" "$(little 1 8)" "$(repeat ff 104)"; }

# The file of queue a with that message
whole_file() {
    local filler at
    header "$1"
    message "$1"
    filler=$(filler "$1")
    for ((at = 0; at < 31; at++)); do printf '%s' "$filler"; done
}

bytes_of() { od -An -v -tx1 "$1" | tr -d ' \n'; }
