#!/bin/bash
# Prints the pkg-config file: pkgconfig.sh PREFIX VERSION. Its paths are quoted, since a prefix may have spaces.
set -euo pipefail
cat << END
prefix=$1

Name: gemzuleg
Description: Who can get into an account: proved answers for the course portal
Version: $2
Cflags: -I"\${prefix}/include"
Libs: -L"\${prefix}/lib" -lportal
END
