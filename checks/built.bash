# Shared by checks whose Python part asks the program: goes to the top, and builds the program where it isn't built yet.
set -u
cd "$(dirname "$0")/.." || exit 1
if ! command -v python3 >/dev/null; then
  echo "left out: python3 is wanted"
  exit 0
fi
./read_main check examples/seven.ll >/dev/null 2>&1
