#!/usr/bin/env bash
# One entry to the commands of this repository.
set -euo pipefail
root=$(readlink -f "${BASH_SOURCE[0]}")
root=${root%/*}

usage() {
  cat << 'END'
./do try WORDS..      runs lvish with these words: proved, or a trial   ./lvish
./do prove            proves and builds the program                     ./lvish --prove
./do test             asks every worked example                         ./lvish --test
./do gate             proves, tests and tries all of it from nothing    .ci/run
./do bodies CRATE..   has the prover refuse each wrong body             tools/bodies
./do bench            measures it beside a program without proofs       tools/bench
./do fuzz             runs random scripts, and compares                 tools/random_scripts
./do documents        looks up each name in the documents               tools/documents
END
}

word=${1-}
[ $# = 0 ] || shift
case $word in
  try) exec "$root/lvish" "$@" ;;
  prove) exec "$root/lvish" --prove ;;
  test) exec "$root/lvish" --test "$@" ;;
  gate) exec "$root/.ci/run" ;;
  bodies) exec "$root/tools/bodies" "$@" ;;
  bench) exec "$root/tools/bench" "$@" ;;
  fuzz) exec "$root/tools/random_scripts" "$@" ;;
  documents) exec "$root/tools/documents" "$@" ;;
  '') usage ;;
  *) usage >&2 && exit 2 ;;
esac
