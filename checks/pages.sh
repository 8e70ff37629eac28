#!/usr/bin/env bash
# The page of definitions is what its script makes of the comments in specs/.
set -u
cd "$(dirname "$0")/.." || exit 2
docs/definitions --check
