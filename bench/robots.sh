#!/usr/bin/env bash
# Times the reading of robots files and the answers for paths, on the program as it is built.
set -euo pipefail
. "$(dirname "$0")/build.sh"
exec "$program" robots times
