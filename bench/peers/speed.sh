#!/bin/sh
# Times the product beside the peers on the same bytes, on one core. README.md says more.
# usage: speed.sh listen [FILE.ts ..]   or   speed.sh play [SCRIPT ..]
here=$(cd "$(dirname "$0")" && pwd)
export PEERS_BIN="${PEERS_BIN:-/tmp/peers-bin}"
[ -x "$PEERS_BIN/floor" ] || "$here/install.sh" build > /dev/null || exit 1
if [ -z "$PROGRAM" ]; then
    "$here/../../lepnugan" play < "$here/../../examples/one-name.txt" > /dev/null 2>&1 || exit 1
    PROGRAM=$here/../../crates/headend_main/out/headend_main
fi
export PROGRAM
exec python3 "$here/speed.py" "$@"
