#!/usr/bin/env bash
# A pool, two commits, and a crash in the second: what `./zc demo` plays.
set -eu
. "$(dirname "${BASH_SOURCE[0]}")/steps.sh"

step './zc create tank 1 1024'
step "./zc play tank <<'end'
mkds tank/docs
create tank/docs/plan
write tank/docs/plan 0 6669727374
create tank/docs/log
fill tank/docs/log 0 9000 46
commit tank
end"
note 'A second run changes both files, and ends with a commit: group 6.'
step "printf 'write tank/docs/plan 0 7365636f6e64\nremove tank/docs/log\n' | ./zc play tank"
note 'A crash that left all of that commit but its gate, place 1, would have left zeros there.'
step 'dd if=/dev/zero of=tank.0 bs=4096 seek=1 count=1 conv=notrunc status=none'
step "printf 'read tank/docs/plan 0 9\nstat tank/docs/log\n' | ./zc play tank"
