#!/bin/sh
# rustc: the one on the path, or else the one that rustup keeps in this user's home, which a plain shell may not have on its path.
if rustc --version >/dev/null 2>&1; then
    exec rustc "$@"
fi
HOME=$(getent passwd "$(id -u)" | cut -d: -f6)
export HOME
exec "$HOME/.cargo/bin/rustc" "$@"
