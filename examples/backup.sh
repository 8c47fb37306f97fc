#!/usr/bin/env bash
# A backup that is restored: a crash takes nothing that was committed; a disk that loses a byte is told, and its pool put back.
set -eu
. "$(dirname "${BASH_SOURCE[0]}")/steps.sh"

step './zc create tank 1 1024'
step "printf 'mkds tank/mail\ncreate tank/mail/inbox\nwrite tank/mail/inbox 0 6d6f6e646179\ncommit tank\n' | ./zc play tank"
note 'Between two runs a pool is its files, so a copy of them is a backup.'
step 'cp tank.0 backup.0'
step "printf 'write tank/mail/inbox 6 2c2074756573646179\ncommit tank\n' | ./zc play tank"
note 'The power fails in the last commit, group 7, and half of its gate, place 3, is zeros: the pool is that of group 6.'
step 'dd if=/dev/zero of=tank.0 bs=2048 seek=7 count=1 conv=notrunc status=none'
step "printf 'read tank/mail/inbox 0 20\n' | ./zc play tank"
note 'Later the disk itself loses a byte, of the block of the file: place 69. No crash does that, and nothing is written over it.'
step "printf '\377' | dd of=tank.0 bs=1 seek=282624 conv=notrunc status=none"
step './zc play tank </dev/null'
note 'The backup is put in its place, and goes on from there.'
step 'cp backup.0 tank.0'
step "printf 'read tank/mail/inbox 0 20\n' | ./zc play tank"
