#!/usr/bin/env bash
# What serving a session as its pieces come takes, over the valve of examples/: sessions of cheap lines of 1, 100 and
# 60,000 bytes from a file, the processor's time for each megabyte, and the most memory that a run of 60 MB holds.
# Builds the program first.
set -eu
. "$(dirname "$0")/common.sh"
root="$(cd "$(dirname "$0")/.." && pwd)"
work="$(mktemp -d)"
trap 'rm -rf "$work"' EXIT
build livingstone_cli run absent absent || true
model="$root/examples/valve.lv"

# report NAME LINE BYTES: a session of so many bytes of this line
report() {
  yes "$2" | head -c "$3" >"$work/lines.ses" || true
  printf '%-40s %6d us a megabyte\n' "$1" $(($(taken_by run "$model" "$work/lines.ses") * 1000000 / ($3 / 1000) / 1000))
}

report 'empty lines' '' 20000000
report 'lines of 100 bytes' "track 4 #$(printf '%91s' '')" 60000000
report 'lines of 60,000 bytes, too long' "#$(printf '%59999s' '')" 60000000

yes 'track 4' | head -c 60000000 >"$work/cheap.ses" || true
for bytes in 600000 6000000 60000000; do
  head -c "$bytes" "$work/cheap.ses" >"$work/part.ses"
  held=$(python3 - "$program" "$model" "$work/part.ses" <<'PY'
import resource, subprocess, sys
subprocess.run([sys.argv[1], "run", sys.argv[2], sys.argv[3]], stdout=subprocess.DEVNULL, check=True)
print(resource.getrusage(resource.RUSAGE_CHILDREN).ru_maxrss)
PY
  )
  printf '%-40s %6d KB held at most\n' "cheap lines, $bytes bytes" "$held"
done

# Pieces of 1, 100 and 65,536 bytes, by a writer that hands on so many at a time.
for piece in 1 100 65536; do
  head -c $((piece * 20000 < 6000000 ? piece * 20000 : 6000000)) "$work/cheap.ses" >"$work/part.ses"
  python3 - "$program" "$model" "$work/part.ses" "$piece" <<'PY'
import os, subprocess, sys, time
program, model, name, piece = sys.argv[1:]
piece = int(piece)
text = open(name, "rb").read()
begun = time.monotonic()
with subprocess.Popen([program, "run", model, "stdin"], stdin=subprocess.PIPE, stdout=subprocess.DEVNULL, bufsize=0) as run:
    for at in range(0, len(text), piece):
        os.write(run.stdin.fileno(), text[at : at + piece])
    run.stdin.close()
    run.wait()
took = time.monotonic() - begun
print(f"{'pieces of %d bytes' % piece:<40} {took * 1e9 / len(text):6.0f} ns a byte")
PY
done

# A session that is made and driven, with the start of the process.
printf '%-40s %6d ms\n' 'drive 30' "$(taken_by drive 30)"
