#!/usr/bin/env bash
# Says how many of the gate's checks this machine carries side by side: one a processor, as far as there are 4 GB for each.
# The largest takes 5 GB for a while, most take half of that. Left to itself, `rt ci` expects up to 8 GB of one, and
# leaves a processor of four idle.
set -u
at_most=$(nproc)
memory=$(awk '/^MemAvailable:/ { print $2 }' /proc/meminfo)
# A control group may allow less than the machine has.
for group in /sys/fs/cgroup/memory.max /sys/fs/cgroup/memory/memory.limit_in_bytes; do
    read -r bytes 2> /dev/null < "$group" || continue
    [[ ! $bytes =~ ^[0-9]{1,15}$ ]] || [ $((bytes / 1024)) -ge "$memory" ] || memory=$((bytes / 1024))
done
if read -r quota period 2> /dev/null < /sys/fs/cgroup/cpu.max && [[ $quota =~ ^[0-9]+$ ]]; then
    [ $((quota / period)) -ge "$at_most" ] || at_most=$((quota / period))
fi
lanes=$((memory / 4000000))
[ "$lanes" -le "$at_most" ] || lanes=$at_most
echo $((lanes > 0 ? lanes : 1))
