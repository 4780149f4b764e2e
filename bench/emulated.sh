# To be sourced by bench/run on a machine that is not x86-64: Debian's Rust with its x86-64 library, a C++ compiler, a linker and an emulator.
packages=$built/debian
if [ ! -x "$packages/usr/bin/rustc" ]; then
    dpkg --add-architecture amd64
    apt-get update -q >&2
    apt-get install -q -y --no-install-recommends g++-x86-64-linux-gnu libc6-dev-amd64-cross qemu-user >&2
    version=$(apt-cache show rustc-web | sed -n 's/^Version: \([0-9]*\.[0-9]*\).*/\1/p' | head -n 1)
    llvm=$(apt-cache depends "libstd-rust-web-$version" | sed -n 's/.*Depends: \(libllvm[0-9]*\)$/\1/p')
    mkdir -p "$packages"
    (cd "$packages" && apt-get download -q rustc-web "libstd-rust-web-$version" libstd-rust-web-dev:amd64 "$llvm" && for file in *.deb; do dpkg-deb -x "$file" .; done) >&2
fi
usr=$(cd "$packages/usr" && pwd)
rustc=(env "LD_LIBRARY_PATH=$usr/lib/$(uname -m)-linux-gnu:$usr/lib:$(echo "$usr"/lib/llvm-*/lib)" "$usr/bin/rustc" --sysroot "$usr" --target x86_64-unknown-linux-gnu -C linker=x86_64-linux-gnu-gcc)
cxx=x86_64-linux-gnu-g++
run=(qemu-x86_64 -L /usr/x86_64-linux-gnu)
