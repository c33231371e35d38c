# To be sourced: keeps the toolchain's scratch files in memory, where there is room for them: each must-fail edit is
# tried on a copy of its crate there.
if [ -z "${TMPDIR:-}" ] && [ -w /dev/shm ] && ! grep -q ' /dev/shm .*noexec' /proc/mounts &&
    [ "$(df -Pk /dev/shm | awk 'NR == 2 { print $4 }')" -ge 8000000 ]; then
    export TMPDIR=/dev/shm
fi
