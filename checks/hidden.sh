#!/usr/bin/env bash
# The address of a byte of code, given to the builder of readable segments, is a type error, and its number is private.
set -u
cd "$(dirname "$0")/.." || exit 1
copy=$(mktemp -d)
trap 'rm -rf "$copy"' EXIT

# Appends a function to a fresh copy of obj_lay, and wants the check to refuse it with these words.
refused() {
  rm -rf "$copy"/* || exit 1
  cp crates.txt HANDLES "$copy" || exit 1
  for crate in crates/*; do
    mkdir -p "$copy/$crate" || exit 1
    for part in src specs proofs must-fail; do
      [ ! -d "$crate/$part" ] || cp -r "$crate/$part" "$copy/$crate" || exit 1
    done
  done
  cat >>"$copy/crates/obj_lay/src/slots.rt"
  said=$(cd "$copy/crates/obj_lay" && rt check --jobs 2 2>&1)
  status=$?
  if [ "$status" -eq 0 ]; then
    echo "not refused: $2"
    exit 1
  fi
  case "$said" in
  *"$1"*) echo "refused: $2" ;;
  *)
    echo "another refusal of: $2"
    echo "$said"
    exit 1
    ;;
  esac
}

refused 'expected `&SlotAddr`, found `&Hidden`' "a hidden address for a readable segment" <<'RATTLE'

fn shown(
    builder: &mut obj_core::readable::ReadBuilder,
    address: &obj_core::code::Hidden,
) -> Result<(), NoMemory> {
    builder.slot(address)
}
RATTLE

refused 'field `address` of struct `Hidden` is private' "the number of a hidden address" <<'RATTLE'

fn number(address: &obj_core::code::Hidden) -> u64 {
    address.address
}
RATTLE
