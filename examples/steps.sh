# What an example of several steps begins with: a scratch folder with `./zc` in it, and the two ways to tell of a step.
top=$(cd "$(dirname "${BASH_SOURCE[0]}")/.." && pwd)
scratch=$(mktemp -d)
trap 'rm -rf "$scratch"' EXIT
cd "$scratch"
printf '#!/usr/bin/env bash\nexec %q "$@"\n' "$top/zc" >zc
chmod +x zc

# step COMMAND: shows a command and runs it; its status where it isn't 0.
step() {
    printf '$ %s\n' "$1"
    bash -c "$1" || printf 'status %s\n' "$?"
}

# note TEXT: says what is next.
note() { printf '# %s\n' "$1"; }
