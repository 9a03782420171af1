#!/bin/bash
# The wrapper and the command, formatted and without a warning, where cargo has the two tools; else says that they were not asked.
set -euo pipefail
cd "$(dirname "$0")/../rust"

for tool in fmt clippy; do
    cargo "$tool" --version > /dev/null 2>&1 || { echo "rust: cargo $tool is not installed, and was not asked"; continue; }
    case $tool in
        fmt) cargo fmt --check ;;
        clippy) cargo clippy --release --quiet -- -D warnings ;;
    esac
    echo "rust: cargo $tool has nothing to say"
done
if grep -rnw unsafe gemzuleg/src; then
    echo "rust: unsafe code belongs to rust/portal" >&2
    exit 1
fi
