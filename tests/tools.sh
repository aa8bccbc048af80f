#!/bin/sh
# Sees to a C compiler for x86-64 and, off x86-64, to an emulator for what it builds; prints the two names, the emulator's empty on x86-64.
set -eu
if [ "$(uname -m)" = x86_64 ]; then
    cc=gcc emulator='' packages='gcc libc6-dev'
else
    cc=x86_64-linux-gnu-gcc emulator=qemu-x86_64-static packages='gcc-x86-64-linux-gnu libc6-dev-amd64-cross qemu-user-static'
fi
if ! command -v "$cc" >/dev/null || { [ -n "$emulator" ] && ! command -v "$emulator" >/dev/null; }; then
    # shellcheck disable=SC2086
    { apt-get update && DEBIAN_FRONTEND=noninteractive apt-get install -y --no-install-recommends $packages; } >&2
fi
printf '%s\n%s\n' "$cc" "$emulator"
