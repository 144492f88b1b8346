#!/bin/bash
# Fails where crates/crc/src/tables.rt is not what the generator prints.
set -euo pipefail
cd "$(dirname "$0")/.."
diff <(python3 tools/crc_tables.py) crates/crc/src/tables.rt
