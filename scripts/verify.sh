#!/bin/bash
# Prints VERIFY.md, which goes with a package: which commit it is made of, with which kit, what the prover said, and how to make the same bytes.
# verify.sh VERSION COMMIT
set -euo pipefail
cd "$(dirname "$0")/.."

# The gate leaves the prover's verdict, with the commit that it was of.
verdict='not run by whoever made this package'
if [[ -r build/verdict ]]; then
    read -r commit line < build/verdict
    [[ $commit == "$2" && -z $(git status --porcelain) ]] && verdict=$line
fi
cat << END
# Gemzuleg $1: what this package is made of

- Commit: $2
- Rattle kit: $(cat kit.txt)
- The prover on this commit (\`rt ci\`, in the gate: every crate proved, every must-fail edit refused): $verdict
- Linux on x86-64. The programs are static: they need no library, no kit, no compiler.

## To make the same bytes

    git checkout $2
    make dist
    sha256sum -c build/dist/SHA256SUMS

It needs the kit above (\`rt\`), python3, cargo, gcc, ar and, for the Debian package, dpkg-deb. The bytes depend on the commit, the kit and the
compilers, and not on the folder: with other versions of cargo or gcc the programs work alike and their bytes differ. This package was made with

- $(cargo --version)
- $(rustc --version)
- $(gcc --version | head -n 1)

## What was proved, and what was not

docs/TRUST.md of the commit says it: lists, scores, marks, the register, and the reading of sheets, names and hand-in lines are proved. The command
that reads your files and prints is tested; what it works out itself it holds against a proved call before it prints.
END
