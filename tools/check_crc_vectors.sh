#!/bin/bash
# Fails where crates/crc_vectors/stdout is not what zlib gives.
set -euo pipefail
cd "$(dirname "$0")/.."
diff <(python3 tools/crc_vectors.py) crates/crc_vectors/stdout
