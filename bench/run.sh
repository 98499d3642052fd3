#!/usr/bin/env bash
# Measures the product beside C: its calls, its page program with `explain` beside that, then its sizes.
#   bench/run.sh [ROUNDS]
set -euo pipefail
bench=$(cd "$(dirname "$0")" && pwd)
"$bench/calls.sh" "$@"
echo
"$bench/page.sh" "$@"
echo
"$bench/sizes.sh"
