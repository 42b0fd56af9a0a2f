#!/bin/bash
# Unpacks a Rust compiler and the libraries of 32-bit x86 from the machine's Debian mirror, for `build.sh --i686`.
#
#   fetch-i686.sh DIR
#
# Needs Debian 12 on amd64, and the network for about 100 MB. All goes into DIR: nothing is installed, no architecture is
# added, and apt keeps its own lists there too. DIR/root is the result; the packages are deleted at the end.
set -euo pipefail
[ $# = 1 ] || { sed -n '2,7s/^# \{0,1\}//p' "$0"; exit 2; }

packages="rustc-web:amd64 libstd-rust-web-1.85:amd64 libllvm19:amd64 libstd-rust-web-dev:i386
    libc6:i386 libc6-dev:i386 libgcc-12-dev:i386 libgcc-s1:i386 linux-libc-dev:i386"

mkdir -p "$1/unpacked" "$1/apt/lists/partial" "$1/apt/archives/partial" "$1/packages"
dir=$(cd "$1" && pwd)
own=(-o Dir::State::Lists="$dir/apt/lists" -o Dir::Cache="$dir/apt"
    -o APT::Architectures::=amd64 -o APT::Architectures::=i386)

# A list that fails its check is left out; whether a package is missing is then said by the download.
apt-get -q "${own[@]}" update || true
(cd "$dir/packages" && apt-get -q "${own[@]}" download $packages)
for package in "$dir"/packages/*.deb; do
    dpkg -x "$package" "$dir/unpacked"
done
mv "$dir/unpacked" "$dir/root"
rm -r "$dir/packages" "$dir/apt"
echo "$dir/root"
