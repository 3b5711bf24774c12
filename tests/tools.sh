#!/usr/bin/env bash
# What is needed beside the Rattle toolchain. Installs Debian's packages of what is missing, or tells which to install.
#   tools.sh display    to build and run the display: a C compiler for x86-64 and, on another machine, an emulator
#   tools.sh            for the tests from outside: that, a C++ compiler and Python; tmux too, but they go without it
# With EMULATED=1 in the environment an emulator is needed on any machine.
set -euo pipefail

# command:package, or packages with commas between them
if [ "$(uname -m)" = x86_64 ]; then
  needed='gcc:gcc,libc6-dev'
  cxx='g++:g++'
else
  needed='x86_64-linux-gnu-gcc:gcc-x86-64-linux-gnu,libc6-dev-amd64-cross'
  cxx='x86_64-linux-gnu-g++:g++-x86-64-linux-gnu'
  EMULATED=1
fi
[ -z "${EMULATED:-}" ] || needed="$needed qemu-x86_64:qemu-user"
wanted=
if [ "${1:-}" != display ]; then
  needed="$needed $cxx make:make cmp:diffutils python3:python3"
  wanted=tmux:tmux
fi

missing() {
  for pair in "$@"; do
    command -v "${pair%%:*}" > /dev/null || echo "${pair#*:}" | tr ',' ' '
  done
}

packages=$(echo $(missing $needed $wanted))
if [ -n "$packages" ] && [ "$(id -u)" = 0 ] && command -v apt-get > /dev/null; then
  echo "installing $packages" >&2
  { apt-get update && DEBIAN_FRONTEND=noninteractive apt-get install -y --no-install-recommends $packages; } >&2 || true
fi
packages=$(echo $(missing $needed))
[ -z "$packages" ] || {
  echo "more is needed; as root: apt-get install $packages" >&2
  exit 1
}
