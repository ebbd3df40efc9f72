#!/bin/sh
# What the archive asks of a program that links it, and what it brings: sh symbols.sh ARCHIVE, from the top of the repository.
# Exit status 0, or 1 and what is not as include/lipvezor.h says.
set -u
archive=$1
header=include/lipvezor.h

fail() {
    echo "symbols: $1"
    exit 1
}

sections=$(objdump -h "$archive") || fail "objdump can't read $archive"

# it calls memset alone; the header leaves memcpy to it too, but nothing needs that
needed=$(nm -P -u "$archive" | awk '$2 == "U" || $2 == "w" { print $1 }' | sort -u | tr '\n' ' ')
for name in $needed; do
    case $name in
    memset) ;;
    *) fail "the archive needs $name" ;;
    esac
done

# its global names are the header's calls: no other name can collide with the program's
global=$(nm -P -g "$archive" | awk '$2 != "U" && NF >= 3 { print $1 }' | sort)
declared=$(sed -nE 's/^(size_t|uint8_t) (lipvezor_[a-z_0-9]*)\(.*/\2/p' $header | sort)
[ "$global" = "$declared" ] || fail "global names and the header's calls differ:
$(printf '%s\n' "$global" "$declared" | sort | uniq -u)"

# nothing that can be written lies in it, so no call can keep anything; and it asks for no executable stack
printf '%s\n' "$sections" | awk '$2 ~ /^\.(data|bss|tdata|tbss|init_array|ctors)/ && $3 !~ /^0+$/ { print $2; found = 1 } END { exit !found }' &&
    fail "the archive has data that can be written, or code that runs by itself"
printf '%s\n' "$sections" | grep -q ' \.note\.GNU-stack ' || fail "the archive asks for an executable stack"

echo "symbols: $(printf '%s\n' "$global" | wc -l) calls, all in the header; needs: $needed"
