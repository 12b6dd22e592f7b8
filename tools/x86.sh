# How the x86-64 programs of this repository are compiled and run, on x86-64 and on Arm. Sourced by ./test, ./demo and tools/*.
# What is missing is installed from Debian's packages; where that fails, the caller fails.

# the packages of Debian that a command needs
install_packages() {
  echo "installing: $*" >&2
  apt-get update -qq >/dev/null && apt-get install -y -qq --no-install-recommends "$@" >/dev/null
}

# sets RUN: the command before the name of a program for x86-64
find_runner() {
  case $(uname -m) in
  x86_64) RUN="" ;;
  aarch64)
    if ! command -v qemu-x86_64 >/dev/null || [ ! -e /lib64/ld-linux-x86-64.so.2 ]; then
      dpkg --add-architecture amd64 && install_packages qemu-user libc6:amd64 || return 1
    fi
    RUN="qemu-x86_64"
    ;;
  *)
    echo "no way to run a program for x86-64 on $(uname -m)" >&2
    return 1
    ;;
  esac
}

# sets RUSTC and CC too: the compilers for x86-64
find_compilers() {
  find_runner || return 1
  if [ -z "$RUN" ]; then
    command -v rustc >/dev/null || install_packages rustc || return 1
    command -v gcc >/dev/null || install_packages gcc libc6-dev || return 1
    RUSTC="rustc"
    CC="gcc"
  else
    if ! command -v x86_64-linux-gnu-gcc >/dev/null || [ ! -d /usr/lib/rustlib/x86_64-unknown-linux-gnu ]; then
      install_packages rustc libstd-rust-dev:amd64 gcc-x86-64-linux-gnu libc6-dev-amd64-cross || return 1
    fi
    RUSTC="/usr/bin/rustc --target x86_64-unknown-linux-gnu -C linker=x86_64-linux-gnu-gcc"
    CC="x86_64-linux-gnu-gcc"
  fi
}
