#!/bin/sh
# Installs the peers as Debian 12 packages (as root), and builds the small programs of this folder into $PEERS_BIN
# (/tmp/peers-bin if left out). usage: install.sh core|build    core: packages and programs; build: programs only
set -e
here=$(cd "$(dirname "$0")" && pwd); bin=${PEERS_BIN:-/tmp/peers-bin}; mkdir -p "$bin"
if [ "$1" != build ]; then
    export DEBIAN_FRONTEND=noninteractive
    apt-get update -qq
    # libdvbpsi; bitstream headers with example sources; gstreamer with gstreamer-mpegts
    # (libunwind-dev: without it pkg-config refuses gstreamer-1.0 where recommended packages are left out)
    apt-get install -y -qq --no-install-recommends gcc libc6-dev pkg-config python3 libdvbpsi-dev libbitstream-dev \
        gstreamer1.0-tools gstreamer1.0-plugins-base gstreamer1.0-plugins-good gstreamer1.0-plugins-bad \
        libgstreamer-plugins-bad1.0-dev libunwind-dev > /dev/null
fi
ex=/usr/share/doc/libbitstream-dev/examples
get() { if [ -f "$ex/$1" ]; then cat "$ex/$1"; else gzip -dc "$ex/$1.gz"; fi; }
# dvb_print_si of bitstream 1.5 knows EIT schedule but its dispatch names 0x4E only; these lines let 0x50..0x5F in
get dvb_print_si.c | sed 's|^    case EIT_TABLE_ID_PF_ACTUAL:$|    case EIT_TABLE_ID_SCHED_ACTUAL_FIRST ... EIT_TABLE_ID_SCHED_ACTUAL_LAST:\n        if (!eit_validate(p_section)) printf("invalid EIT section\\n");\n        else if (pb_print_table[TABLE_EIT]) eit_print(p_section, print_wrapper, NULL, iconv_wrapper, NULL, i_print_type);\n        free(p_section);\n        break;\n\n    case EIT_TABLE_ID_PF_ACTUAL:|' > "$bin/dvb_print_si.c"
cc -O2 -w -o "$bin/dvb_print_si" "$bin/dvb_print_si.c"
cc -O2 -o "$bin/floor" "$here/floor.c"
cc -O2 -w -o "$bin/psi_guide" "$here/psi_guide.c" -ldvbpsi
cc -O2 -w -o "$bin/gst_guide" "$here/gst_guide.c" $(pkg-config --cflags --libs gstreamer-mpegts-1.0)
cc -O2 -w -o "$bin/gen_psi" "$here/gen_psi.c" -ldvbpsi
cc -O2 -w -o "$bin/gen_bits" "$here/gen_bits.c" -ldvbpsi
cc -O2 -w -o "$bin/gen_gst" "$here/gen_gst.c" $(pkg-config --cflags --libs gstreamer-mpegts-1.0)
ls "$bin"
